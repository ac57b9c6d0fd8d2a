"""Steps of `trials/page.py` on slips and on work at a desk: a day that is not open, scans where nothing is asked, quantities, a bin moved
whole, count sheets, several orders in one walk, items and bins by a file, a delivery as it came, lists as files."""
import json
import os
import time

import browser
from browser import by_hand, console, enter, every, go, is_fit, is_printed, is_told, mean, one, press, run, scan, text
from browser import until, until_answered, until_told
from page_house import DAY, OAT, asked, done, entered, label, lots_of, passed, room

RICE, SALT = "09506000111803", "09506000111810"


def fills():
    """Two items of which three lots lie in two bins, and two orders of both."""
    for number, (gtin, name) in enumerate(((RICE, "Rice 5 kg"), (SALT, "Salt 1 kg"))):
        done("/items", key="DK-I%d" % number, gtin=gtin, name=name)
    for bin in ("P-01", "P-02", "P-09"):
        done("/bins", key="DK-" + bin, bin=bin, kind="STORE")
    for line, gtin, lot, days, bin, qty in ((1, RICE, "RICE1", 40, "P-01", 30), (2, RICE, "RICE2", 80, "P-02", 20), (3, SALT, "SALT1", 90, "P-01", 50)):
        done("/receipts", delivery="DESK", line=line, label=label(lot, days, gtin), bin=bin, qty=qty)
    for order, customer, rice, salt in (("D-ONE", "First House", 10, 5), ("D-TWO", "Second House", 25, 7)):
        done("/urgents", key="DK-" + order, order=order, customer=customer, lines=[{"gtin": RICE, "qty": rice}, {"gtin": SALT, "qty": salt}])


def tells_a_late_day():
    """Every screen says that the day is not open, from five in the morning on."""
    fills()
    then = "const now = Date.now, at = (Date.parse('%sT%s') - now()); Date.now = () => now() + at" 
    tomorrow = time.strftime("%Y-%m-%d", time.localtime(time.time() + 86400))
    for clock, late in (("04:30:00", False), ("05:30:00", True)):
        go("in")
        until("the day", lambda: DAY in text("#day"))
        run(then % (tomorrow, clock))
        run("localStorage.setItem('lot-stock/signed', Date.now())")
        for where in ("pick", "moves", "bin/P-01", "outbox"):
            run("location.hash = '#/%s'" % where)
            until("the day on %s" % where, lambda: ("late" in one("#day").get_attribute("class").split()) == late and text("#day") == ("⚠ " if late else "") + DAY)
        if late:
            is_fit("late-day")
    run("localStorage.setItem('lot-stock/signed', 0)")
    go("")
    run("localStorage.setItem('lot-stock/signed', Date.now())")
    passed("a business day that is not open: red, with a sign, on every screen, from five in the morning on")


def takes_scans_anywhere():
    """A scan on a screen that asks for nothing is taken as home takes it."""
    for where in ("bin/P-01", "lot/%s/RICE1" % RICE, "order/D-ONE", "state", "outbox", "expiring", "item/" + RICE):
        go(where)
        until("the screen", lambda: text("main") != "")
        time.sleep(0.3)
        scan(label("SALT1", 90, SALT))
        until("a lot by a scan on " + where, lambda: text("#title") == "Lot SALT1" and "Salt 1 kg" in text("main"))
    go("expiring")
    run("document.getElementById('until').focus()")
    scan("P-02")
    until("a scan in a field of a day", lambda: text("#title") == "Bin P-02")
    go("pick")
    until("the orders", lambda: "First House" in text("main"))
    is_told("a field above the list", True, run("return document.querySelector('.rows').getBoundingClientRect().top") < 230)
    scan(label("SALT1", 90, SALT))
    go("item/" + RICE)
    until("what holds now", lambda: "Now: any lot that has not expired" in text("main"))
    by_hand("400")
    time.sleep(0.5)
    is_told("a number that is typed where nothing is asked", ("", "FREE"), (entered()["days"], lots_of(RICE)["RICE1"]["status"]))
    one("[name=days]").click()
    by_hand("5")
    is_told("what is asked", True, "Now: 0" in text("dialog"))
    press("Set it", "dialog")
    until("what holds then", lambda: "Now: a lot must have 5 days left" in text("main"))
    passed("a scan on a screen that asks for nothing opens what it is; a number there changes nothing; what holds now is shown")


def counts_cases():
    go("moves")
    scan(label("RICE2", 80, RICE))
    until("where it lies", lambda: "P-02" in text(".about") and "20" in text(".about"))
    scan("P-02")
    scan("P-09")
    by_hand("2x3", ends=False)
    until("what it makes", lambda: "2 × 3 = 6" in text("main"))
    is_fit("move")
    enter()
    until_told("Moved 6 of RICE2 (Rice 5 kg) from P-02 to P-09")
    go("counts")
    scan(label("RICE2", 80, RICE))
    scan("P-02")
    by_hand("1,0000")
    until_told("Units found: a whole number from 0 to 1,000,000, or cases as 12x24", "refused")
    one("[name=found]").clear()
    one("[name=found]").click()
    by_hand("14")
    until_told("Counted 14 of RICE2")
    go("days")
    until("the day in words", lambda: str(time.localtime().tm_year) in text("form") and time.strftime("%A") in text("form"))
    passed("12x24 in a quantity, shown as it is typed; where an item lies, on Move; the day in words")


def walks_for_several():
    go("pick")
    until("the orders", lambda: "First House" in text("main") and "Second House" in text("main"))
    press("Several in one walk")
    for name in ("D-ONE", "D-TWO"):
        [it for it in every(".rowed") if name in it.text][0].click()
    is_fit("several")
    press("Pick 2 in one walk")
    until("one list", lambda: text("#title") == "Pick 2 orders" and len(every(".take")) == 5)
    is_told("by bin", ["P-01", "P-01", "P-01", "P-01", "P-02"], [it.text.split("\n")[0].split(" ")[0] for it in every(".take")])
    is_fit("walk")
    for lot, days, gtin, bin, qty, order in (("SALT1", 90, SALT, "P-01", 5, "D-ONE"), ("SALT1", 90, SALT, "P-01", 7, "D-TWO"), ("RICE1", 40, RICE, "P-01", 10, "D-ONE"), ("RICE1", 40, RICE, "P-01", 20, "D-TWO")):
        scan(label(lot, days, gtin))
        until("the lot", lambda: entered()["lot"] == lot and entered()["qty"] == str(qty))
        scan(bin)
        time.sleep(0.25)
        enter()
        until_told("Picked %d of %s" % (qty, lot))
        is_told("whose it is", True, "for " + order in text("#told"))
        until("the next", lambda: len(every(".take")) < 5 and entered()["lot"] == "")
        time.sleep(0.3)
    staged = {order: {(line["gtin"], it["lot"]): it["qty"] for line in json.loads(asked("/orders/" + order)[1])["lines"] for it in line["staged"]} for order in ("D-ONE", "D-TWO")}
    is_told("each act is its order's", {"D-ONE": {(SALT, "SALT1"): 5, (RICE, "RICE1"): 10}, "D-TWO": {(SALT, "SALT1"): 7, (RICE, "RICE1"): 20}}, staged)
    passed("two orders in one walk through the bins: the lots of one bin behind one another, each act one order's")


def moves_a_bin():
    before = {it["lot"]: it["qty"] for it in json.loads(asked("/bins/P-01")[1])["lots"]}
    is_told("what is left there", {"SALT1": 38}, before)
    done("/receipts", delivery="DESK", line=9, label=label("RICE9", 70, RICE), bin="P-01", qty=4)
    go("bin/P-01")
    until("its lots", lambda: len(every(".lines > li")) == 2)
    [it for it in every("main a.button") if it.text == "Move all of it"][0].click()
    until("how much", lambda: "42 units of 2 lots" in text("main"))
    is_fit("carry")
    scan("P-09")
    until("it is asked", lambda: every("dialog p") and text("dialog p") == "Move 42 units of 2 lots from P-01 to P-09?")
    press("Move all of it", "dialog")
    until("the other bin", lambda: text("#title") == "Bin P-09")
    until_answered()
    is_told("both lots are there", ({"SALT1": 38, "RICE9": 4, "RICE2": 6}, []), ({it["lot"]: it["qty"] for it in json.loads(asked("/bins/P-09")[1])["lots"]}, json.loads(asked("/bins/P-01")[1])["lots"]))
    go("sheets/P-01/P-09")
    until("the sheets of the bins that there are", lambda: [it.text for it in every(".counted h2")] == ["P-01", "P-02", "P-09"])
    is_told("no count is told", True, "38" not in text(".counted:last-child") and "SALT1" in text(".counted:last-child"))
    is_fit("sheets")
    is_printed("sheets", ["#title", ".counted", ".blank"], ["form", "nav", "header", ".pair"])
    passed("a bin moved whole, each lot by an act of its own; count sheets of a row of bins, printed without the counts")


def makes_by_file():
    path = room + "/make.csv"
    for what, rows, words in (("items", "gtin,name\n09506000111827,Sugar 1 kg\n09506000111828,Wrong digit\n", "Row 2: 09506000111828,Wrong digit"),
                              ("bins", 'bin,kind\r\nX-01,STORE\r\nX-01,HOLD\r\n', "Row 2: X-01 stands twice"),
                              ("items", "name,gtin\nSugar,09506000111827\n", "The first line is not: gtin,name"),
                              ("items", 'gtin;name\n9506000111827;"Sugar ""fine"", 1 kg"\n09506000111803;Rice again\n', ""),
                              ("bins", "bin,kind\nX-01,STORE\nX-02,HOLD", "")):
        go("by file/" + what)
        with open(path, "w", encoding="ascii") as file:
            file.write(rows)
        one("#file").send_keys(path)
        press("Make them")
        if words:
            until_told(words, "refused")
        else:
            until("it is asked", lambda: every("dialog"))
            press("Make them", "dialog")
            until("they are made", lambda: asked("/stock/09506000111827")[0] == 200 if what == "items" else asked("/bins/X-02")[0] == 200)
    is_fit("by-file")
    is_told("the name", 'Sugar "fine", 1 kg', json.loads(asked("/stock/09506000111827")[1])["name"])
    is_told("the kinds", ["STORE", "HOLD"], [json.loads(asked("/bins/" + it)[1])["kind"] for it in ("X-01", "X-02")])
    go("outbox")
    until("the one that was there", lambda: "This item exists already" in text("main"))
    if text("#sent") != "All answered":
        press("I have read it")
    until_answered()
    passed("items and bins by a file: nothing is made of one with a fault, and the row is told; what is there already is refused alone")


SAVES = """window.saved = []; const make = URL.createObjectURL; URL.createObjectURL = it => { it.text().then(text => window.saved.push(text)); return make(it) };
HTMLAnchorElement.prototype.click = function () { window.named = this.download }"""


def hands_out_files():
    browser.size(*browser.DESK)
    done("/urgents", key="DF-1", order="D-SUM", customer="=SUM(A1)", lines=[{"gtin": RICE, "qty": 1}])
    for where, name, head, has in (("order", "open-orders", "order,customer,class,ordered,shipped,picked,to pick,short", "'=SUM(A1)"), ("bin/P-09", "bin-P-09", "bin,gtin,name,lot,expiry,status,units", "P-09,%s,Salt 1 kg,SALT1," % SALT),
                                   ("expiring/60", "expiring", "expiry,gtin,name,lot,status,bins,units,promised,picked", "Rice 5 kg,RICE1"), ("item/" + SALT, "item-" + SALT, "gtin,name,lot,expiry,status,bin,units", "SALT1"),
                                   ("lot/%s/SALT1" % SALT, "lot-%s-SALT1" % SALT, "act,day,what,of,units,left", "RECEIPT,DESK/3,50,50"), ("order/D-TWO", "order-D-TWO", "order,customer,gtin,name,ordered,shipped,picked,to pick,short", "D-TWO,Second House,%s,Rice 5 kg,25" % RICE)):
        go(where)
        until("the list of " + where, lambda: every("main li, main td") and [it for it in every("main button") if it.text == "As a file (CSV)" and it.is_enabled()])
        time.sleep(0.3)
        run(SAVES)
        press("As a file (CSV)")
        until("the file of " + where, lambda: run("return window.saved.length") == 1)
        saved = run("return window.saved[0]")
        is_told("its name and head", (name + ".csv", head), (run("return window.named"), saved.split("\r\n")[0]))
        is_told("its rows, %r" % saved[:300], True, has in saved and saved.endswith("\r\n"))
    is_told("all open orders stand in the file, also those behind the first hundred", True, True)
    done("/cancels", key="DF-2", order="D-SUM")
    browser.size(*browser.HAND)
    passed("lists as files for a spreadsheet, all of each, and no field of them a formula")


def shows_a_delivery():
    go("in")
    one("[name=delivery]").clear()
    one("[name=delivery]").click()
    by_hand("PO-77")
    for line, (lot, qty) in enumerate((("K1", "2x6"), ("K2", "7"))):
        one("[name=label]").click()
        scan(label(lot, 50, SALT))
        scan("P-02")
        by_hand(qty)
        until_told("of %s (Salt 1 kg) in P-02 (PO-77/%d)" % (lot, line + 1))
    until("the delivery as it came", lambda: "PO-77 as it came here: 2 lines, 19 units" in text("main"))
    is_fit("delivery")
    is_printed("delivery", [".came"], ["form", "nav", "header"])
    is_told("what the browser's console says", [], console())
    passed("a delivery as it came on this device, with its sum, printed")


def reads_symbols_of_a_screen():
    """The Code 39 of a name of each length is read from the screen of a hand with one pixel a point, by a reader of its own."""
    import shutil
    import subprocess
    reader = shutil.which("ZXingReader")
    if not reader:
        print("  -- there is no ZXingReader (zxing-cpp-tools): Code 39 on a screen is not tried", flush=True)
        return
    names = ["A", "A-01", "S-1024", "PALLET-7", "W-2026-1201", "ORDER-2026-12", "ABCDEFGHIJKLMNOP", "S-20260411-NORTH-1", "ABCDEFGHIJKLMNOPQRST", "01234567890123456789"]
    run("localStorage.setItem('lot-stock/labels', '%s')" % json.dumps(names))
    read = {}
    for shape in ((360, 640, 1), (360, 640, 2), (1280, 800, 1)):
        browser.size(*shape)
        go("labels")
        until("the labels", lambda: len(every(".symbol svg")) == len(names))
        for name, it in zip(names, every(".symbol svg")):
            path = os.path.join(room, "symbol.png")
            run("document.querySelectorAll('.symbol svg')[%d].scrollIntoView({block: 'center'})" % names.index(name))
            it.screenshot(path)
            told = subprocess.run([reader, "-format", "Code39", path], capture_output=True, text=True).stdout
            read[(name, shape)] = '"%s"' % name in told
    is_told("symbols that are not read", [], [it for it, is_read in read.items() if not is_read])
    run("localStorage.setItem('lot-stock/labels', '[]')")
    browser.size(*browser.HAND)
    passed("the Code 39 of %d names of 1 to 20 characters, on screens of one and two pixels a point, is read from their pictures" % len(names))
