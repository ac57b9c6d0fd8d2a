"""Steps of `trials/page.py` on labels of the trade: elements beside item, lot and expiry, held against symbols that zint makes and ZXing reads;
what is told of a label that is in doubt; best before, where the proxy's file says so."""
import json
import os
import random
import shutil
import subprocess
import time

import browser
from browser import by_hand, go, is_fit, is_told, one, run, scan, text, until, until_told
from page_house import GS, OAT, asked, done, entered, in_days, lots_of, passed, room

BEANS = "09506000111834"
MADE = "261101"

# Elements of a label in the order in which they are printed, and what the page makes of them: item, lot, expiry, units within.
SYMBOLS = [
    [("01", BEANS), ("17", "270331"), ("10", "A1")],
    [("01", BEANS), ("15", "270331"), ("10", "A1")],
    [("01", BEANS), ("11", MADE), ("13", MADE), ("17", "270331"), ("10", "AB-12"), ("21", "S/N-9")],
    [("01", BEANS), ("10", "AB12"), ("17", "270331"), ("21", "123456"), ("240", "PART7"), ("422", "276")],
    [("01", BEANS), ("3302", "001250"), ("17", "270331"), ("10", "K")],
    [("02", BEANS), ("17", "270331"), ("37", "48"), ("10", "P7")],
    [("02", BEANS), ("37", "48"), ("17", "270300"), ("10", "P8"), ("400", "ORDER-1")],
    [("00", "195060000000000005"), ("02", BEANS), ("17", "270331"), ("37", "12"), ("10", "C3")],
    [("01", BEANS), ("17", "270331"), ("7003", "2703311200"), ("10", "TOM1"), ("8008", "26110112"), ("91", "OWN-DATA")],
    [("01", BEANS), ("17", "270331"), ("30", "12"), ("10", "+1&(2)"), ("251", "SRC"), ("7030", "276ABATTOIR")],
    [("01", BEANS), ("17", "270331"), ("10", "L" * 20), ("410", "9506000000008"), ("421", "27610115"), ("8200", "example.com")],
]
KINDS = (("GS1_128", "]C1"), ("DATAMATRIX", "]d2"), ("QRCODE", "]Q3"))

READ = """const [texts, done] = arguments; import('/page/label.js').then(label => done(texts.map(text => {
  const it = label.parts(text), { found, unread } = label.elements(text);
  return { elements: found.map(({ ai, data }) => [ai, data]), unread, isLabel: label.isLabel(text), gtin: it.gtin, lot: it.lot, expiry: it.expiry, units: it.units, doubt: it.doubt, off: it.off.map(({ ai }) => ai), sent: label.sendable(text) };
})), fault => done(String(fault)))"""


def read(texts):
    told = browser.page.execute_async_script(READ, texts)
    is_told("the reader of labels", True, isinstance(told, list))
    return told


def symbol_text(kind, elements):
    """What ZXing reads of the symbol that zint makes of these elements, GS as byte 29; or None where zint makes none."""
    path = os.path.join(room, "label.png")
    data = "".join("[%s]%s" % it for it in elements)
    made = subprocess.run(["zint", "--gs1", "-b", kind, "--scale=2", "--quietzones", "-o", path, "-d", data], capture_output=True, text=True)
    if made.returncode not in (0, 2) or not os.path.exists(path):
        return None
    told = subprocess.run(["ZXingReader", "-noscale", "-bytes", path], capture_output=True).stdout
    os.unlink(path)
    return told.decode("latin-1")


def numbers(count, chance):
    return "".join(chance.choice("0123456789") for _ in range(count))


def with_digit(digits):
    total = sum(int(it) * (3 if at % 2 == 0 else 1) for at, it in enumerate(reversed(digits)))
    return digits + str(-total % 10)


# Of an AI: an element with a data field of the least and of the greatest length, as zint takes it. (Behind 235 zint puts no separator.)
FIELDS = [("00", 17, "check"), ("11", "date"), ("12", "date"), ("13", "date"), ("15", "date"), ("16", "date"), ("20", 2), ("21", 1, 20), ("22", 1, 20), ("240", 1, 30), ("241", 1, 30),
          ("242", 1, 6, "N"), ("243", 1, 20), ("250", 1, 30), ("251", 1, 30), ("254", 1, 20), ("30", 1, 8, "N"), ("3100", 6), ("3202", 6), ("3305", 6), ("3403", 6), ("3561", 6), ("3600", 6), ("37", 1, 8, "N"),
          ("3902", 1, 15, "N"), ("400", 1, 30), ("401", 1, 30), ("403", 1, 30), ("410", 12, "check"), ("414", 12, "check"), ("420", 1, 20), ("422", "276"), ("423", "276"), ("424", "276"), ("426", "276"), ("427", 1, 3),
          ("7001", 13), ("7002", 1, 30), ("7004", 1, 4, "N"), ("7005", 1, 12), ("7008", 1, 3), ("7009", 1, 10), ("7010", 1, 2), ("7020", 1, 20), ("7021", 1, 20), ("7022", 1, 20), ("710", 1, 20), ("715", 1, 20),
          ("7240", 1, 20), ("8002", 1, 20), ("8004", 1, 30), ("8005", 6), ("8012", 1, 20), ("8019", 1, 10, "N"), ("8020", 1, 25), ("90", 1, 30), ("91", 1, 90), ("99", 1, 90)]


def element_of(field, is_long, chance):
    ai, *how = field
    if how[0] == "date":
        return ai, "27%02d%02d" % (chance.randint(1, 12), chance.randint(1, 28))
    if isinstance(how[0], str):
        return ai, how[0]
    if how[1:] == ["check"]:
        return ai, with_digit(numbers(how[0], chance))
    if len(how) == 1:
        return ai, numbers(how[0], chance)
    length = how[1] if is_long else how[0]
    if how[-1] == "N":
        return ai, numbers(length, chance)
    return ai, "".join(chance.choice("ABCXYZ0189-/") for _ in range(length))


def reads_symbols():
    """Symbols that zint makes, read by ZXing: the page finds each element, keeps item, lot and expiry, and sends a label of these alone."""
    go("device")
    if not (shutil.which("zint") and shutil.which("ZXingReader")):
        print("  -- there is no zint or no ZXingReader (zint, zxing-cpp-tools): symbols are not tried", flush=True)
        return
    chance, wanted = random.Random(17), []
    core = [("01", BEANS), ("17", "270331"), ("10", "LOT-1")]
    lists = [(it, kind) for it in SYMBOLS for kind in KINDS]
    lists += [(core[:at % 3] + [element_of(field, is_long, chance)] + core[at % 3:], KINDS[at % 2]) for at, field in enumerate(FIELDS) for is_long in (False, True)]
    left = []
    for elements, (kind, prefix) in lists:
        told = symbol_text(kind, elements)
        if told is None:
            left.append(elements)
            continue
        wanted.append((elements, prefix, told))
    is_told("symbols that zint does not make: %r" % left, True, len(left) <= 4)
    seen = [it for it in wanted if it[2]]
    is_told("symbols that ZXing does not read, of %d" % len(wanted), True, len(wanted) - len(seen) <= len(wanted) // 20)
    for (elements, _, _), it in zip(seen, read([prefix + told for _, prefix, told in seen])):
        is_told("the elements of %r" % elements, ([list(each) for each in elements], ""), (it["elements"], it["unread"]))
        is_told("it is a label", True, it["isLabel"])
        has = dict(elements)
        item = has.get("01") or has.get("02")
        day = has.get("17")
        is_told("what the page has of %r" % elements, (item, has.get("10"), int(has["37"]) if "02" in has and "01" not in has else None), (it["gtin"], it["lot"], it["units"]))
        is_told("what was taken off", sorted(ai for ai, _ in elements if ai not in ("01", "10", "17") and not (ai == "02")), sorted(it["off"]))
        if day and len(elements) > 3:
            is_told("what is sent of %r" % elements, "01%s17%s10%s" % (item, day, has["10"]), it["sent"])
    passed("%d symbols that zint makes and ZXing reads (GS1-128, DataMatrix, QR): each element found, item, lot and expiry sent" % len(seen))


def tells_doubts():
    """Two items, an item within without its count, a weight, best before where the house does not take it: told, and the cursor stays."""
    done("/items", key="LB-1", gtin=BEANS, name="Beans")
    done("/bins", key="LB-2", bin="L-01", kind="STORE")
    go("in")
    one("[name=delivery]").clear()
    one("[name=delivery]").click()
    by_hand("LABELS")
    one("[name=line]").click()
    by_hand("1")
    day = in_days(60)
    for symbol, words in (("]C101%s01%s17%s10Z1" % (BEANS, OAT, day), "The label names two items"), ("]C101%s02%s17%s37" % (BEANS, OAT, day) + "5" + GS + "10Z1", "The label names two items"),
                          ("]C102%s17%s10Z1" % (BEANS, day), "The label does not say how many are within"), ("]C101%s15%s10Z1" % (BEANS, day), "Best before: this house takes use by (17)")):
        scan(symbol)
        until_told(words, "refused")
        is_told("where the cursor stands", "label", browser.page.switch_to.active_element.get_attribute("name"))
    is_fit("best-before")
    scan("]C101%s310200125017%s10WGT1" % (BEANS, day))
    until_told("The label has a weight: count the units", "wait")
    until("what is not sent", lambda: "(3102) kilograms 12.50" in text(".about"))
    scan("L-01")
    by_hand("3")
    until_told("Received 3 of WGT1 (Beans)")
    scan("]d202%s17%s3748%s10P1%s400PO-9" % (BEANS, day, GS, GS))
    until("the units within", lambda: entered()["qty"] == "48" and "(400) order PO-9" in text(".about"))
    is_fit("within")
    scan("L-01")
    until("the quantity", lambda: browser.page.switch_to.active_element.get_attribute("name") == "qty")
    time.sleep(0.25)
    browser.enter()
    until_told("Received 48 of P1 (Beans)")
    is_told("what came", ({"WGT1": 3, "P1": 48}), {lot: it["bins"][0]["qty"] for lot, it in lots_of(BEANS).items()})
    go("counts")
    scan("]C111%s01%s17%s21SERIAL%s10WGT1" % (MADE, BEANS, day, GS))
    until("a label with more, on any form", lambda: entered()["gtin"] == BEANS and entered()["lot"] == "WGT1")
    passed("two items, an item within without its count, a weight, best before: told at the scan, and nothing is guessed; the units within are filled in")


def takes_best_before():
    """Where the proxy's file says so, best before stands for the expiry."""
    before = json.loads(asked("/state/house.json")[1])
    is_told("as it is shipped", {"best_before": False}, before)
    with open(room + "/nginx-lotd.conf", encoding="utf-8") as file:
        conf = file.read()
    set_to(conf.replace('{"best_before":false}', '{"best_before":true}'), True)
    go("")
    until("the page knows", lambda: run("return localStorage.getItem('lot-stock/house/best_before')") == "true")
    go("in")
    one("[name=label]").click()
    day = in_days(61)
    scan("]C101%s15%s10BB1" % (BEANS, day))
    until("the screen says so", lambda: "best before" in text(".about") and "best before" in text("form"))
    is_fit("best-before-taken")
    scan("L-01")
    by_hand("4")
    until_told("Received 4 of BB1")
    is_told("its expiry", "20%s-%s-%s" % (day[:2], day[2:4], day[4:]), lots_of(BEANS)["BB1"]["expiry"])
    set_to(conf, False)
    go("")
    until("the page knows", lambda: run("return localStorage.getItem('lot-stock/house/best_before')") == "false")
    passed("best before for the expiry, where the proxy's file says so: received, and the screen says it")


def set_to(conf, wanted):
    with open(room + "/nginx-lotd.conf", "w", encoding="utf-8") as file:
        file.write(conf)
    with open(room + "/nginx.pid", encoding="ascii") as file:
        os.kill(int(file.read()), 1)
    until("the proxy's file is read", lambda: json.loads(asked("/state/house.json")[1]) == {"best_before": wanted})
