"""Steps of `trials/page.py` on how screens look and what they keep: signs, long names, what moves, what is refused and stands there
again, scans at home, the state of the house."""
import json
import os
import time

import browser
from browser import by_hand, enter, every, go, is_fit, is_printed, is_told, key, mean, one, press, run, scan, text
from browser import until, until_answered, until_told
from gate import Gate
from page_house import DAY, JAM, OAT, TEA, done, entered, label, passed, room

LONG, LETTERS = "S-20260411-NORTH-017", "Blackcurrantandredcurrantjellyextra15kgx"


def signs_on():
    """Nobody works without a sign; it is asked once, and again once the device lay idle."""
    go("in")
    is_told("who is asked", "Who works here?", text("#title"))
    by_hand("q")
    until_told("Initials: 2 to 5 letters or digits", "refused")
    is_fit("sign")
    by_hand("a7")
    until("the screen that was wanted", lambda: text("#title") == "Receive")
    is_told("the head", "QA7", text("#who"))
    run("localStorage.setItem('lot-stock/signed', Date.now() - 5 * 3600 * 1000)")
    go("counts")
    is_told("after a night", "Who works here?", text("#title"))
    time.sleep(0.5)
    enter()
    until("the screen that was wanted", lambda: text("#title") == "Count")
    passed("who works is asked at the start of a shift, and shown in the head")


def gives_back():
    """What was refused stands in the form again; a scan mends it."""
    go("in")
    one("[name=label]").click()
    before = entered()["line"]
    scan(label("L2", 27).replace(OAT, OAT[:-1] + "3"))
    until_told("The check digit of the item is wrong", "refused")        # at the scan, before lotd says so
    scan("A-01")
    by_hand("3")
    until_told("Not done: Received 3 of L2", "refused")
    until("the label is asked for", lambda: browser.page.switch_to.active_element.get_attribute("name") == "label")
    is_told("the form", (before, "A-01", "3"), tuple(entered()[it] for it in ("line", "bin", "qty")))
    scan(label("L2", 27))
    until("the rest stands", lambda: browser.page.switch_to.active_element.get_attribute("name") == "qty")
    time.sleep(0.25)
    enter()
    until_told("Received 3 of L2 (Oat drink) in A-01")
    go("counts")
    scan(label("L2", 27))
    scan("NO-BIN")
    by_hand("13")
    until_told("This bin is not known", "refused")
    until("the bin is asked for", lambda: browser.page.switch_to.active_element.get_attribute("name") == "bin" and entered()["found"] == "13")
    scan("A-01")
    time.sleep(0.25)
    enter()
    until_told("Counted 13 of L2 (Oat drink) in A-01")
    scan(label("L2", 27))
    scan("NO-BIN")
    by_hand("1")
    until_told("This bin is not known", "refused")
    until("it stands there", lambda: entered()["bin"] == "NO-BIN")
    scan(label("L3", 150))
    is_told("another label begins anew", ("L3", "", ""), tuple(entered()[it] for it in ("lot", "bin", "found")))
    go("new")
    by_hand(OAT)
    by_hand("1200")
    until("the line", lambda: len(every(".lines li")) == 1)
    go("new")
    is_told("a line that was not sent", ["Oat drink", "1,200"], every(".lines h3")[0].text.split("\n")[:2])
    press("\u2715")
    is_told("it is taken out", 0, len(every(".lines li")))
    press("Send the order")
    until_told("Order:", "refused")
    go("labels")
    by_hand("a-02")
    until("the label of a bin that is there", lambda: text(".symbol figcaption") == "A-02")
    press("Empty it")
    go("days")
    run("document.querySelector('[name=day]').value = '2190-01-01'")
    press("Open the day")
    is_told("a day that is far", True, "AFTER" in text("dialog"))
    press("Back", "dialog")
    passed("what was refused stands in the form again, and a scan mends it; a draft is kept; a label of a bin that is there; a day that is far")


def shows_long_names():
    """A name of twenty signs, one of forty letters, a million units beside seven: all of it is seen, and nothing else is moved."""
    done("/items", key="L-1", gtin=JAM, name=LETTERS)
    for line, lot, bin, qty in ((1, "J1", "A-01", 1000000), (2, "ABCDEFGHIJKLMNOPQRST", "A-02", 7)):
        done("/receipts", delivery="LONG-DELIVERY-NAME-1", line=line, label=label(lot, 99, JAM), bin=bin, qty=qty)
    done("/orders", key="L-2", order=LONG, customer="St. Mary's Hospital Main Kitchen, Wing B", lines=[{"gtin": JAM, "qty": 1000000}])
    for where in ("pick/", "order/"):
        go(where + LONG)
        until("the screen", lambda: LETTERS in text("main"))
        is_told("the whole name of the order", True, text("#title").endswith(LONG))
        is_told("whether the name of the item is beside the screen", [], run(browser.CRAMPED))
        is_fit("long-" + where.strip("/"))
    go("pick/" + LONG)
    until("the list", lambda: LETTERS in text("main"))
    is_printed("long-list", ["#title", "#paper", ".symbol", ".take"], ["form", "nav", "header", "#told"])
    go("item/" + JAM)
    until("the item", lambda: "1,000,007 units in 2 lots" in text("main"))
    many, few = (run("return [...document.querySelectorAll('.bins .units')].map(it => it.getBoundingClientRect().width)")[it] for it in (0, 1))
    is_told("the bar of a million beside the bar of seven", True, many > 20 * few > 0)
    is_fit("long-item")
    go("lot/%s/ABCDEFGHIJKLMNOPQRST" % JAM)
    until("the card", lambda: "LONG-DELIVERY-NAME-1/2" in text("main"))
    is_fit("long-lot")
    go("counts")
    scan(label("ABCDEFGHIJKLMNOPQRST", 99, JAM))
    scan("LONG-BIN-NAME-4567-0")
    by_hand("1", ends=False)
    is_told("all digits and letters", (JAM, "ABCDEFGHIJKLMNOPQRST", "LONG-BIN-NAME-4567-0"), tuple(entered()[it] for it in ("gtin", "lot", "bin")))
    is_fit("long-count")
    go("in")
    one("[name=label]").click()
    scan(label("J1", 99, JAM))
    until("the expiry too", lambda: time.strftime("%Y-%m-%d", time.gmtime(time.time() + 99 * 86400)) in entered()["label"])
    is_fit("long-receive")
    passed("names of 20 and 40 signs, all digits of an item, the expiry of a label, a million beside seven on one scale")


def stands_still():
    """What a finger is about to touch stays where it is, when something is told, when a name comes, and when nothing answers."""
    for shape, device in ((browser.HAND, "hand"), (browser.DESK, "desk")):
        browser.size(*shape)
        go("counts")
        places = run(browser.PLACES)
        scan(label("L2", 27))
        until("the name of the item", lambda: "Oat drink" in text("main"))
        is_told("what a name moves on a " + device, places, run(browser.PLACES))
        scan("NO-BIN")
        by_hand("x")
        until_told("Units found: a whole number from 0 to 1,000,000", "refused")
        is_told("what a refusal of the page moves", places, run(browser.PLACES))
        one("[name=found]").clear()
        one("[name=found]").click()
        by_hand("13")
        until_told("This bin is not known", "refused")
        is_told("what a refusal of lotd moves", places, run(browser.PLACES))
        until("the bin is asked for", lambda: browser.page.switch_to.active_element.get_attribute("name") == "bin")
        scan("A-01")
        Gate.mode = "503"
        time.sleep(0.25)
        enter()
        until_told("Kept, not answered yet, trying", "wait")
        is_told("what is kept moves", places, run(browser.PLACES))
        run("location.hash = '#/pick/S-1'")
        until("no answer", lambda: browser.said("#stale"))
        Gate.mode = "pass"
        until_answered()
        until("the order", lambda: "Corner Shop" in text("main"))
        go("lot/%s/L4" % OAT)
        until("the lot", lambda: "Stock card" in text("main"))
        places = run(browser.PLACES)
        Gate.mode = "silent"
        mean("Hold")
        until_told("Kept, not answered yet, trying", "wait")
        is_told("what a hold moves that is kept", places, run(browser.PLACES))
        Gate.mode = "pass"
        until_told("Hold: L4 of Oat drink")
        is_told("what a hold moves that is done", places, run(browser.PLACES))
        until("its state", lambda: "HELD" in text(".lot"))
        is_told("what its state moves", places, run(browser.PLACES))
        mean("Release")
        until("its state", lambda: "HELD" not in text(".lot"))
    browser.size(*browser.DESK)
    go("moves")
    is_told("the end of the menu at a desk", True, run("return document.querySelector('nav').lastElementChild.getBoundingClientRect().bottom <= 800"))
    browser.size(*browser.HAND)
    passed("nothing moves under a finger: told, refused, kept, a name, a state; the menu ends within 800 points")


def opens_by_scans():
    """At home a scan opens what it is: a number of the menu is typed, and no order of that name is one."""
    done("/orders", key="N-1", order="12", customer="Twelve", lines=[{"gtin": TEA, "qty": 1}])
    done("/orders", key="N-2", order="96385074", customer="Digits", lines=[{"gtin": TEA, "qty": 1}])
    for scanned, title in (("12", "Order 12"), ("96385074", "Order 96385074"), ("A-01", "Bin A-01"), ("s-1", "Order S-1"), ("]A0B-07", "Bin B-07")):
        go("")
        scan(scanned)
        until(title, lambda: text("#title") == title)
    is_fit("bin")
    go("")
    by_hand("5")
    until("a number of the menu", lambda: text("#title") == "Move")
    go("pick/A-02")
    until("no order", lambda: "This order is not known" in text("main"))
    one("main a.button").click()
    until("the bin", lambda: text("#title") == "Bin A-02")
    [it for it in every("main a.button") if it.text == "Move from here"][0].click()
    until("the bin is entered", lambda: entered()["from"] == "A-02" and text("#title") == "Move")
    go("bin/A-02")
    press("Bin label")
    until("its label", lambda: text(".symbol figcaption") == "A-02")
    press("Empty it")
    for key, order in (("N-3", "12"), ("N-4", "96385074")):
        done("/cancels", key=key, order=order)
    passed("home: an order of digits, a bin, an order; one that is not known is tried as a bin")


def gives_an_order_back():
    """An order that is refused is a draft again."""
    go("new")
    by_hand(OAT)
    by_hand("3")
    until("the line", lambda: len(every(".lines li")) == 1)
    one("[name=order]").click()
    by_hand("S-1")
    by_hand("Harbour Cafe")
    until_told("This order exists already", "refused")
    until("the draft", lambda: text("#title") == "New order" and entered()["order"] == "S-1" and entered()["customer"] == "Harbour Cafe")
    is_told("its line", ["Oat drink", "3"], every(".lines h3")[0].text.split("\n")[:2])
    press("\u2715")
    run("localStorage.removeItem('lot-stock/draft')")
    passed("an order that is refused is a draft again, with its lines")


def shows_the_state():
    """What lotd-day and lotd-backup left for the page, or that they left nothing, and whether the server answers."""
    go("state")
    until("what is known of nothing", lambda: DAY in text("main") and "lotd-backup is not set up" in text("main") and "answers, in" in text("main"))
    os.makedirs(room + "/state", exist_ok=True)
    left = {"day": {"answer": {"act": 9, "returned": 4}, "at": DAY + "T04:05:03+00:00", "day": DAY, "status": 200},
            "copy": {"at": time.strftime("%Y-%m-%dT%H:%M:%S+00:00", time.gmtime()), "copy": "x", "kept": 14, "sound": True, "told": "audited 9 acts from " + DAY}}
    for name, it in left.items():
        with open("%s/state/%s.json" % (room, name), "w", encoding="ascii") as file:
            json.dump(it, file)
    os.chmod(room + "/state", 0o755)
    go("state")
    until("the day and the copy", lambda: "4 units went to RETURNS" in text("main") and "audited 9 acts" in text("main") and "14 kept" in text("main"))
    is_told("none is bad", [], every(".facts .bad"))
    is_fit("state")
    left["copy"].update(sound=False, told="lotd: differs stock 1", kept=13)
    left["day"].update(day="2020-01-01")
    for name, it in left.items():
        with open("%s/state/%s.json" % (room, name), "w", encoding="ascii") as file:
            json.dump(it, file)
    go("state")
    until("what is wrong", lambda: len(every(".facts .bad")) == 1 and "failed: lotd: differs stock 1" in text("main"))
    passed("the state: the server, the day, the last copy; nothing known, all well, and a copy that is not sound")


def shows_home():
    go("")
    is_fit("home")
    by_hand("9")
    until("the number of the menu", lambda: text("#title") == "An item")
    key("Escape", None, "Escape", 27)
    until("home", lambda: text("#title") == "Lot stock")
    scan("]E0" + TEA[1:])
    until("an item's EAN-13", lambda: '<b>x</b>&"' in text("main"))
    is_told("as text", 0, len(every("main h2 b")))
    for where in ("constructor", "lot/%", "lot/1/constructor", "order/__proto__"):
        go(where)
    go("")
    passed("home: a number opens a screen, an EAN-13 the item, and its name of marks is shown as text; an address that is none")


def fits_all_screens():
    for where in ("", "in", "file", "pick", "pick/S-2", "moves", "counts", "adjustments", "lot", "lot/%s/L2" % OAT, "order", "order/S-2", "new",
                  "item", "item/" + OAT, "items", "bins", "days", "outbox", "device"):
        go(where)
        until("it is read", lambda: "/" not in where or "Oat drink" in text("main"))
        is_fit("screen-" + (where.replace("/", "-") or "home"))
    passed("no screen is wider than 360 points, each target is large enough for a glove, and all have names for a screen reader")
