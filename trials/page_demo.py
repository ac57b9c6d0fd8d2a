"""A step of `trials/page.py` on `sh demo.sh page`: the house that it makes, and the page without TLS, names and passwords."""
import json
import os
import re
import signal
import socket
import subprocess
import urllib.error
import urllib.request

import browser
from browser import by_hand, console, is_fit, is_told, mean, text, until, until_told
from page_house import DAY, asked, in_days, lotd, passed, room
from server import TOP, number

PORT = number("PORT", 18090) + 4
OWN = "http://127.0.0.1:%d" % PORT
POLICY = ("Content-Security-Policy", "X-Content-Type-Options", "Referrer-Policy")


def told(path, **fields):
    """The status, the body and the head of an answer of the demo."""
    wanted = urllib.request.Request(OWN + path, headers={name.replace("_", "-"): it for name, it in fields.items()})
    try:
        with urllib.request.urlopen(wanted) as answer:
            return answer.status, answer.read().decode(), dict(answer.headers)
    except urllib.error.HTTPError as fault:
        return fault.code, fault.read().decode(), dict(fault.headers)


def go(where):
    browser.page.get("about:blank")
    browser.page.get("%s/page/#/%s" % (OWN, where))
    browser.until_open()


def is_as_behind_the_proxy():
    """The headers of a file, of a script and of an answer; what another site asks, under whatever name."""
    for path, own in (("/page/", "/page/"), ("/page/main.js", "/page/main.js"), ("/books", "/books")):
        behind, here = asked(path), told(own)
        for name in POLICY:
            is_told("%s of %s" % (name, path), behind[2].get(name), here[2].get(name))
        is_told("the type of " + path, behind[2]["Content-Type"].lower(), here[2]["Content-Type"].lower())
    is_told("the same file", asked("/page/main.js")[1], told("/page/main.js")[1])
    for fields in ({"Origin": "https://evil.example"}, {"Sec_Fetch_Site": "cross-site"}, {"Host": "evil.example"}):
        is_told("what %s asks" % fields, 403, told("/books", **fields)[0])
    is_told("a file beside the page", 404, told("/page/../nginx-lotd.conf")[0])


def is_a_house():
    """What the lists have, counted."""
    orders, items = json.loads(told("/openorders")[1])["orders"], json.loads(told("/itemnames")[1])["items"]
    is_told("open orders, and items", (60, 40), (len(orders), len(items)))
    lots = [lot for it in items for lot in json.loads(told("/stock/" + it["gtin"])[1])["lots"]]
    is_told("lots", 200, len(lots))
    is_told("what they are", {"FREE", "EXPIRED", "HELD", "RECALLED", "SHORTDATED"}, {it["status"] for it in lots})
    is_told("the day", DAY, json.loads(told("/books")[1])["day"])
    is_told("all dates near today", [], [it["expiry"] for it in lots if not in_days(-60) < it["expiry"].replace("-", "")[2:] < in_days(500)])


def walks(urgent, short, recalled):
    browser.size(*browser.DESK)
    browser.page.get(OWN + "/")
    until("home", lambda: "60 open orders" in text("main") and "%s, opened at " % DAY in text("main"))
    is_fit("demo-home")
    go("pick")
    is_told("who is asked", "Who works here?", text("#title"))
    by_hand("ann")
    until("the urgent order first", lambda: re.findall(r"S-\d{3}", text("main"))[:1] == [urgent])
    go("")
    by_hand("salmon")
    until("the item", lambda: "Smoked salmon 100 g" in text("main") and short in text("main") and "Short " in text("main"))
    go("expiring")
    until("what expired", lambda: text("main").count("EXPIRED") >= 5)
    # 120 came of the lot, and 54 were shipped, to three customers; what was staged is back.
    go(recalled)
    until("the notice", lambda: "RECALLED" in text("main") and "Recall notice: 66 in bins, 54 shipped" in text("main"))
    is_told("whom to call", ["S-006", "S-007", "S-008"], re.findall(r"S-\d{3}", text("main")))
    go("lot/%s" % held())
    until("the lot", lambda: "HELD" in text("main"))
    mean("Release")
    until_told("Release: ")
    is_told("what the browser's console says", [], console())


def held():
    for it in json.loads(told("/itemnames")[1])["items"]:
        for lot in json.loads(told("/stock/" + it["gtin"])[1])["lots"]:
            if lot["status"] == "HELD":
                return "%s/%s" % (it["gtin"], lot["lot"])
    return None


def is_gone(demo, below):
    is_told("its status", 0, demo.wait(timeout=30))
    is_told("what it leaves", [], os.listdir(below))
    with socket.socket() as it:
        is_told("the port", True, it.connect_ex(("127.0.0.1", PORT)) != 0)


def walks_the_demo():
    below = os.path.join(room, "demo")
    os.mkdir(below)
    environment = {**os.environ, "LOTD": lotd, "PORT": str(PORT), "TMPDIR": below}
    demo = subprocess.Popen(["sh", os.path.join(TOP, "demo.sh"), "page"], env=environment, stdout=subprocess.PIPE, text=True)
    try:
        lines = []
        while not lines or not lines[-1].startswith("Pick an order: "):
            lines.append(demo.stdout.readline())
            is_told("what the demo says", True, lines[-1] != "")
        is_told("where the page is", True, lines[-2].startswith("the page: %s/ " % OWN))
        found = re.search(r"Pick an order: (\S+) urgent, (\S+) short; .*%s/page/#/(\S+): recalled" % OWN, lines[-1])
        is_as_behind_the_proxy()
        is_a_house()
        walks(*found.groups())
    finally:
        demo.send_signal(signal.SIGINT)
    is_gone(demo, below)
    browser.size(*browser.HAND)
    go_home = "https://localhost:%d/page/" % browser.place[1]
    browser.page.get(go_home)
    passed("the page of `sh demo.sh page`: the proxy's headers, a house with all that there is to see, and nothing is left of it")
