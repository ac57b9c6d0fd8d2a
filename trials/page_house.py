"""What the steps of `trials/page.py` share: the programs and ports, lotd behind the gate, another site, and what is asked past the
page."""
import base64
import http.server
import json
import ssl
import time
import urllib.error
import urllib.request

import browser
import nginx
import server
from browser import by_hand, go, is_told, one, run, scan

driver = browser.chromedriver()
programs = [nginx.found(name, "page", "nginx openssl") for name in ("nginx", "openssl")]
lotd, room = server.program(), server.room()
TLS, GATE, BACK, OTHER = (server.number("PORT", 18090) + it for it in range(4))
OWN = "https://localhost:%d" % TLS
DB = room + "/stock.db"
OAT, TEA, JAM = "09506000134352", "04006381333931", "09506000117843"
GS = browser.GS
DAY = time.strftime("%Y-%m-%d")
steps = 0


def passed(what):
    global steps
    steps += 1
    print("  %2d %s" % (steps, what), flush=True)


class Lotd:
    process = None

    def up(self):
        self.process = server.Server(lotd, DB, BACK, 1_000_000)

    def down(self):
        if self.process:
            self.process.end()
            self.process = None


class OtherSite(http.server.BaseHTTPRequestHandler):
    """Another site, whose pages send a hold with the browser's password: by a form as text, whose `=` stands in a member that
    another one of its name follows; by a script; and a picture of what lotd shows."""
    BODY = '{"key":"EVIL","gtin":"%s","lot":"L4"}' % OAT
    PAGES = {
        "/form": "<form method=post enctype=text/plain action=%s/holds><input name='%s' value='%s'></form><script>document.forms[0].submit()</script>"
                 % (OWN, BODY.replace('L4"}', ""), '","lot":"L4"}'),
        "/script": "<script>fetch('%s/holds',{method:'POST',mode:'no-cors',credentials:'include',body:'%s'})"
                   ".finally(()=>document.title='sent')</script>" % (OWN, BODY),
        "/picture": "<img src=%s/stock/%s onerror=\"document.title='sent'\">" % (OWN, OAT),
    }

    def do_GET(self):
        body = self.PAGES.get(self.path, "").encode()
        self.send_response(200)
        self.send_header("content-type", "text/html")
        self.end_headers()
        self.wfile.write(body)

    def log_message(self, *_):
        pass


house = Lotd()


def asked(path, body=None, **fields):
    """The status, the body and the head of an answer, through the proxy."""
    trusted = ssl.create_default_context(cafile=room + "/lotd.crt")
    fields.setdefault("Authorization", "Basic " + base64.b64encode(("%s:%s" % (nginx.USER, nginx.PASSWORD)).encode()).decode())
    wanted = urllib.request.Request(OWN + path, None if body is None else body.encode(), {name.replace("_", "-"): it for name, it in fields.items()})
    try:
        with urllib.request.urlopen(wanted, context=trusted) as told:
            return told.status, told.read().decode(), dict(told.headers)
    except urllib.error.HTTPError as fault:
        return fault.code, fault.read().decode(), dict(fault.headers)


def lots_of(gtin=OAT):
    return {lot["lot"]: lot for lot in json.loads(asked("/stock/" + gtin)[1])["lots"]}


def in_days(days):
    return time.strftime("%y%m%d", time.gmtime(time.time() + days * 86400))


def label(lot, days, gtin=OAT, is_last=False):
    """The label of a lot that expires so many days from now; the lot is the last of it, or the first with byte 29 behind it."""
    expiry = in_days(days)
    return "]C101%s17%s10%s" % (gtin, expiry, lot) if is_last else "]C110%s%s01%s17%s" % (lot, GS, gtin, expiry)


def logged():
    """What the proxy logged, each as the name, the request and the status; a browser asks for an icon when it likes."""
    with open(room + "/lotd.log", encoding="utf-8") as file:
        lines = [json.loads(line) for line in file if line.endswith("\n") and "favicon" not in line]
    return [(it["name"], "%s %s" % (it["method"], it["target"]), it["status"]) for it in lines]


def entered():
    return run("return Object.fromEntries([...document.querySelectorAll('main form:not([hidden]) input')].map(it => [it.name, it.value]))")


def done(path, **fields):
    """An act of another device."""
    status, told, _ = asked(path, json.dumps(fields))
    is_told("an act of another device, %s" % fields, (200, None), (status, json.loads(told).get("code")))


def receives(line, lot, days, bin, qty):
    go("in")
    one("[name=line]").click()
    by_hand(str(line))
    scan(label(lot, days))
    scan(bin)
    by_hand(str(qty))
