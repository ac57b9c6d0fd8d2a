"""Steps of `trials/page.py` on the lists: home at a desk, the open orders, a bin, what expires, items by a part of their names."""
import json
import time

import browser
from browser import by_hand, enter, every, go, is_fit, is_printed, is_told, press, run, scan, text, until, until_told
from page_house import DAY, TEA, asked, done, entered, label, lots_of, passed

WATER = "09506000117010"


def named(what):
    return [it.text.split("\n")[0] for it in every(what)]


def fills_the_house():
    """Units in RETURNS and in a bin that is set aside, a lot that expires soon, orders of three kinds, and more than a list has."""
    done("/items", key="LI-1", gtin=WATER, name="Mineral water 1 l")
    done("/bins", key="LI-2", bin="Q-01", kind="HOLD")
    done("/bins", key="LI-3", bin="W-01", kind="STORE")
    for line, lot, days, bin, qty in ((1, "V1", 3, "W-01", 40), (2, "V2", 20, "W-01", 30), (3, "V3", 60, "Q-01", 7), (4, "V4", 90, "W-01", 9), (5, "V5", 5, "RETURNS", 4)):
        done("/receipts", delivery="LIST", line=line, label=label(lot, days, WATER), bin=bin, qty=qty)
    done("/holds", key="LI-4", gtin=WATER, lot="V4")
    done("/orders", key="LI-5", order="W-SOON", customer="Harbour Cafe", lines=[{"gtin": WATER, "qty": 25}])
    done("/urgents", key="LI-6", order="W-URGENT", customer="Mill Inn", lines=[{"gtin": WATER, "qty": 5}])
    done("/picks", key="LI-7", order="W-URGENT", gtin=WATER, lot="V1", bin="W-01", qty=5)
    for number in range(110):
        done("/orders", key="LO-%d" % number, order="W-%03d" % number, customer="Later %d" % number, lines=[{"gtin": TEA, "qty": 1}])


def at_home():
    """What a desk sees without a touch, and that it follows."""
    fills_the_house()
    browser.size(*browser.DESK)
    go("")
    told = json.loads(asked("/openorders")[1])
    until("the day", lambda: text("#day") == json.loads(asked("/books")[1])["day"])
    until("the lists", lambda: "open orders" in text("main") and "expire: " in text("main") and "In RETURNS: " in text("main"))
    is_told("the first ten, in the order in which they are served", [it["customer"] for it in told["orders"][:10]], named(".rowed")[:10])
    is_told("urgent ones in front", True, told["orders"][0]["class"] == "URGENT" and "URGENT" in every(".rowed")[0].text)
    is_fit("list-home")
    browser.size(*browser.DESK)
    go("")
    until("the lists", lambda: "open orders" in text("main"))
    done("/urgents", key="LH-1", order="W-NOW", customer="Just now", lines=[{"gtin": TEA, "qty": 1}])
    until("another order, without a touch", lambda: named(".rowed")[0] == "Just now" or "Just now" in named(".rowed"), 12)
    browser.size(*browser.HAND)
    go("")
    is_told("a hand has the menu alone", [], [it for it in every(".rowed") if it.is_displayed()])
    passed("home at a desk: the day, the open orders, what expires, what lies in RETURNS, the state; it follows what others do")


def shows_open_orders():
    go("pick")
    until("the orders with something to take", lambda: "W-SOON" in text("main"))
    is_told("those of which nothing can be taken", False, "W-URGENT" in text("main") or "W-000" in text("main"))
    is_fit("list-pick")
    [it for it in every(".tabs button") if it.text.startswith("To ship")][0].click()
    until("those that wait for their shipment", lambda: "W-URGENT" in text("main") and "W-SOON" not in text("main"))
    [it for it in every(".tabs button") if it.text.startswith("All")][0].click()
    until("all of the first answer", lambda: len(every(".rowed")) == 100)
    run("scrollTo(0, document.body.scrollHeight)")
    press("More")
    until("and those behind", lambda: len(every(".rowed")) > 110)
    is_told("none stands twice", len(every(".rowed")), len({it.get_attribute("href") for it in every(".rowed")}))
    go("pick")
    until("the orders", lambda: "W-SOON" in text("main"))
    scan("W-SOON")
    until("the one that is scanned", lambda: text("#title") == "Pick W-SOON")
    go("order")
    until("all orders, for the desk", lambda: text("#title") == "Open orders" and "W-URGENT" in text("main"))
    [it for it in every(".rowed") if "W-URGENT" in it.text][0].click()
    until("the one that is touched", lambda: text("#title") == "Order W-URGENT")
    passed("the open orders: urgent ones first, those to pick, to ship and all, more than a hundred, by a scan and by a touch")


def shows_a_bin():
    go("")
    scan("]A0W-01")
    until("the bin", lambda: text("#title") == "Bin W-01")
    until("its kind", lambda: "for sale" in text("main"))
    is_told("its lots by expiry", ["V1", "V2", "V4"], [it.text for it in every(".lines h3 code")])
    is_told("how many of each", ["35", "30", "9"], [it.text for it in every(".lines h3 b")])
    is_told("the one that is held is blocked", [False, False, True], ["blocked" in it.get_attribute("class") for it in every(".lines > li")])
    is_fit("list-bin")
    is_printed("list-bin", ["#title", ".lines"], ["form", "nav", "header", ".pair"])
    [it for it in every(".pair a.button") if it.text == "Count here"][0].click()
    until("the bin is entered", lambda: text("#title") == "Count" and entered()["bin"] == "W-01")
    go("bin/W-01")
    until("its lots", lambda: every(".lines > li"))
    [it for it in every(".lines a.button") if it.text == "Move it"][1].click()
    until("bin and lot are entered", lambda: text("#title") == "Move" and [entered()[it] for it in ("gtin", "lot", "from")] == [WATER, "V2", "W-01"])
    scan("Q-01")
    by_hand("2")
    until_told("Moved 2 of V2 (Mineral water 1 l) from W-01 to Q-01")
    go("bin/Q-01")
    until("what is set aside", lambda: "set aside" in text("main") and [it.text for it in every(".lines h3 b")] == ["2", "7"])
    press("Bin label")
    until("its label", lambda: text(".symbol figcaption") == "Q-01")
    press("Empty it")
    go("bin/NO-BIN")
    until("a bin that is not known", lambda: "This bin is not known" in text("main") and "NO-BIN is an order" in text("main"))
    passed("a bin by a scan: what lies in it, what is blocked, Count and Move with it filled in, its label; one that is not known")


def shows_what_expires():
    go("expiring")
    until("within seven days", lambda: "V1" in text("main") and "V5" in text("main"))
    is_told("nothing later", False, "V2" in text("main"))
    days = [it.text for it in every(".until p b")]
    is_told("the one that expires first in front", sorted(days), days)
    is_fit("list-expiring")
    is_printed("list-expiring", ["#title", ".lines"], ["nav", "header", ".tabs"])
    [it for it in every(".tabs a") if it.text == "30 days"][0].click()
    until("within thirty", lambda: "V2" in text("main"))
    run("const it = document.getElementById('until'); it.value = '%s'; it.dispatchEvent(new Event('change'))"
        % time.strftime("%Y-%m-%d", time.gmtime(time.time() + 95 * 86400)))
    until("until a day", lambda: "V4" in text("main") and "HELD" in text("main"))
    go("expiring/0")
    until("today", lambda: "until" in text("main") and "V1" not in text("main"))
    passed("what expires today, within 7 and 30 days, and until a day; a lot that is held among it")


def finds_by_name():
    go("counts")
    tops = "return [...document.querySelectorAll('main input, main .go')].map(it => it.getBoundingClientRect().top)"
    places = run(tops)
    by_hand("water min", ends=False)
    until("the item of that name", lambda: [it.text for it in every(".hits:not([hidden]) b")] == ["Mineral water 1 l"])
    is_told("what it moves", places, run(tops))
    is_fit("list-named")
    enter()
    until("it is entered", lambda: entered()["gtin"] == WATER and browser.page.switch_to.active_element.get_attribute("name") == "lot")
    go("")
    by_hand("mineral", ends=False)
    until("at home too", lambda: every(".hits:not([hidden]) button"))
    every(".hits:not([hidden]) button")[0].click()
    until("the item", lambda: text("#title") == "An item" and "Mineral water" in text("main"))
    lots = [it for it in lots_of(WATER).values() if it["status"] == "FREE"]
    free = sum(place["qty"] for it in lots for place in it["bins"] if place["bin"] == "W-01") - sum(it["reserved"] for it in lots)
    until("how much may still be promised", lambda: text(".promise b") == str(free) and free > 0)
    go("")
    by_hand("i")
    until("more than one", lambda: text("#title") == 'Items with "i"' and len(every(".rowed")) > 1)
    is_told("all have it in their names", True, all("i" in it.lower() for it in named(".rowed")))
    passed("an item by a part of its name, in a form, at home, and where more than one has it; how much of it may still be promised")


def counts_from_the_business_day():
    """Days left are those from the business day, which was opened for tomorrow, whatever the clock of the device says."""
    go("lot/%s/V4" % WATER)
    until("the days", lambda: "89 days left" in text("main"))
    is_told("the head", json.loads(asked("/books")[1])["day"], text("#day"))
    is_told("it is another one than today", True, text("#day") != DAY)
    passed("days left from the business day, and not by the clock of the device")
