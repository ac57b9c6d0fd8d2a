"""Steps of `trials/page.py` on what a screen asks: home at a desk, a name that nobody has, "More", the names of many items."""
import json
import time

import browser
from browser import by_hand, every, go, is_told, press, run, text, until
from page_house import TEA, asked, done, logged, passed

# An hour of home at a desk in milliseconds, with an act each second: what it asks by the rule of pace.js.
HOUR = """const [cost, each, done] = arguments, { purse } = await import('/page/pace.js'), mine = purse(0);
let count = 0, looked = 0, isOld = false, isAct = false;
for (let now = 0; now < 3600000; now += 1000) {
  if (each && now % each === 0) isAct = true;
  if (!isOld && now - looked > 5000 && mine.mayLook(now)) { looked = now; mine.looks(now); count += 1; isOld = isAct; isAct = false; }
  if (isOld && mine.mayRead(now, cost)) { isOld = false; mine.reads(cost); count += cost; }
}
return count"""


def since(before, what=""):
    """The requests that came to lotd since then, of this beginning."""
    return [request for _, request, _ in logged()[before:] if request.startswith("GET /" + what)]


def gtin_of(number):
    """The number with its check digit, of fourteen."""
    thirteen = "%013d" % number
    total = sum(int(digit) * (3 if at % 2 == 0 else 1) for at, digit in enumerate(thirteen))
    return thirteen + str(-total % 10)


def asks_little():
    for cost, each in ((5, 1000), (5, 7000), (5, 0), (12, 1000), (60, 1000)):
        count = browser.page.execute_async_script("const done = arguments[2]; (async (...arguments) => {%s})(...arguments).then(done, it => done(String(it)))" % HOUR.replace("const [cost, each, done] = arguments, ", "const [cost, each] = arguments, "), cost, each)
        is_told("requests of an hour, where reading costs %d and an act comes each %d ms: %r" % (cost, each, count), True, isinstance(count, int) and 0 < count <= 900)
    browser.size(*browser.DESK)
    go("")
    until("the lists", lambda: "open orders" in text("main"))
    time.sleep(3)
    before = len(logged())
    until_over = time.monotonic() + 30
    for number in range(30):
        done("/urgents", key="AS-%d" % number, order="AS-%d" % number, customer="Second %d" % number, lines=[{"gtin": TEA, "qty": 1}])
        time.sleep(max(0, until_over - 30 + number + 1 - time.monotonic()))
    count = len(since(before))
    is_told("requests of half a minute at home, with an act a second: %d" % count, True, 5 <= count <= 47)
    is_told("it follows", True, any("Second" in it.text for it in every(".rowed")))
    for number in range(30):
        done("/cancels", key="AC-%d" % number, order="AS-%d" % number)
    browser.size(*browser.HAND)
    passed("home at a desk: at most 900 requests an hour, with an act each second, each seven and none; %d in half a minute" % count)


def names_cost_little():
    go("counts")
    before = len(logged())
    for number, letters in enumerate(("zz", "q", "x")):
        by_hand(letters, ends=False)
        time.sleep(0.5)
        done("/urgents", key="NN-%d" % number, order="NN-%d" % number, customer="Between", lines=[{"gtin": TEA, "qty": 1}])
        done("/cancels", key="NC-%d" % number, order="NN-%d" % number)
    is_told("requests for a name that nobody has", True, len(since(before)) <= 2)
    wanted = [gtin_of(5_060_000_000_000 + number) for number in range(40)]
    for number, gtin in enumerate(wanted):
        done("/items", key="NI-%d" % number, gtin=gtin, name="Unknown %d" % number)
    done("/orders", key="NO-1", order="N-FORTY", customer="Forty", lines=[{"gtin": gtin, "qty": 1} for gtin in wanted])
    run("localStorage.removeItem('lot-stock/names')")
    go("pick/N-FORTY")
    until("the order", lambda: "Forty" in text("main"))
    time.sleep(1)
    before = len(logged())
    run("localStorage.removeItem('lot-stock/names')")
    go("pick/N-FORTY")
    until("the order", lambda: "Forty" in text("main"))
    time.sleep(1)
    asks = [it for it in since(before) if it != "GET /books"]
    is_told("requests for a pick of forty items that the device does not know", ["GET /picks/N-FORTY"], sorted(asks))
    go("order/N-FORTY")
    until("their names", lambda: "Unknown 39" in text("main"))
    done("/cancels", key="NO-2", order="N-FORTY")
    go("order")
    until("the first hundred", lambda: len(every(".rowed")) == 100)
    time.sleep(1)
    before = len(logged())
    run("scrollTo(0, document.body.scrollHeight)")
    press("More")
    until("more of them", lambda: len(every(".rowed")) > 100)
    is_told("requests for More", 1, len(since(before, "openorders")))
    go("order")
    until("the count", lambda: "%d open orders" % json.loads(asked("/figures")[1])["open"]["orders"] in text("main"))
    passed("a name that nobody has: two requests; forty unknown items: one; More asks for one part; a count is of all")
