"""Sizes above those of a usual day, by the requests and the lines of lotd: an item with 5,000 lots in stock, an order of them
all and its pick list, 300 urgent orders and 4,700 others of the item, which reserve them all; a card of 20,000 lines and a
notice of 10,000 shipments by GET; the history and an audit of orders of 200 lines; a request of 262,144 bytes; a server that
answers 1,200 requests, since it was told so many; and an audit of books with 70,000 lots and 70,000 orders. Where there are
too many requests the rows are set by python's sqlite3. Needs the Rattle kit, and takes some minutes.
Exit status 0 only if every answer was 200 and as it is reckoned here.
"""
import json
import os
import sqlite3
import subprocess
import sys
import time

import server
from acts import gtin_of

lotd, room = server.program(), server.room()
port = server.number("PORT", 18088)
DAY, DAY_TEXT, EXPIRY, EXPIRY_TEXT = 20577, "2026-05-04", 20634, "2026-06-30"
OATS = gtin_of(950600013435)
HEAD = "delivery,line,gtin,lot,expiry,bin,qty"
began = time.time()


def fail(what, expected, got):
    at = next((n for n, pair in enumerate(zip(expected, got)) if pair[0] != pair[1]), min(len(expected), len(got)))
    sys.exit("sizes: %s: expected %r, got %r, at %d of %d" % (what, expected[at : at + 99], got[at : at + 99], at, len(expected)))


def done(what):
    print("  %s (%.0f s)" % (what, time.time() - began), flush=True)


def is_told(what, expected, request):
    """The answer is 200, with this body."""
    status, body = server.ask(port, request)
    if status != 200:
        fail(what, "200", "%d %s" % (status, body))
    if body != expected:
        fail(what, expected, body)


def compact(value):
    return json.dumps(value, separators=(",", ":"))


def acts(what, path, body, **told):
    """The request acts, and this is told of it."""
    text = body if isinstance(body, str) else compact(body)
    is_told(what, compact(told), server.post(path, text))


def shows(what, path, expected):
    """Shows this record, or the lines of this text."""
    text = "".join(line + "\n" for line in expected) if isinstance(expected, list) else compact(expected)
    is_told(what, text, server.get(path))


def prints(what, db, word, expected):
    ran = subprocess.run([lotd, word, "--db", db], capture_output=True, text=True, timeout=3_600)
    if (ran.returncode, ran.stderr) != (0, ""):
        fail(what, "status 0", "status %d: %s" % (ran.returncode, ran.stderr))
    if ran.stdout != expected:
        fail(what, expected, ran.stdout)


def new_books(name):
    db = os.path.join(room, name + ".db")
    subprocess.run([lotd, "init", "--db", db, "--day", DAY_TEXT], check=True)
    return db


def filed(what, rows, first):
    """Goods-in files of a thousand rows each at most; the first row is this act. The number of the act behind them."""
    for at in range(0, len(rows), 1_000):
        part = rows[at : at + 1_000]
        acts(what, "/goodsin", "\n".join([HEAD] + part) + "\n", accepted=len(part), repeated=0)
    return first + len(rows)


def order(name, customer, lines):
    return {"key": name, "order": name, "customer": customer, "lines": [{"gtin": gtin, "qty": qty} for gtin, qty in lines]}


def served(db, count, ask, words=(), errors=subprocess.PIPE):
    """Asks a server that is to answer so many requests, and then ends by itself."""
    with server.Server(lotd, db, port, count, words, errors) as host:
        ask()
        host.ends()


def shown_order(name, kind, customer, ordered, reserved):
    lines = [{"gtin": OATS, "ordered": ordered, "reserved": [{"lot": lot, "qty": qty} for lot, qty in reserved], "shipped": 0,
              "short": ordered - sum(qty for _, qty in reserved), "staged": []}]
    return {"class": kind, "customer": customer, "lines": lines, "order": name, "state": "OPEN"}


# An item of many lots, and its orders

LOTS, URGENT = 5_000, 300


def lot(number):
    return "L-%04d" % number


def all_lots(reserved):
    return {
        "gtin": OATS,
        "lots": [{"bins": [{"bin": "A-01", "qty": 10}], "expiry": EXPIRY_TEXT, "lot": lot(n), "reserved": reserved, "staged": 0,
                  "status": "FREE"} for n in range(LOTS)],
        "name": "Oat drink",
    }


def an_order_of_all_lots():
    acts("an item", "/items", {"key": "K-1", "gtin": OATS, "name": "Oat drink"}, act=1)
    acts("a bin", "/bins", {"key": "K-2", "bin": "A-01", "kind": "STORE"}, act=2)
    padded = compact({"key": "K-3", "bin": "A-02", "kind": "STORE"})
    acts("a request of 262,144 bytes", "/bins", padded[:-1] + " " * (262_144 - len(padded)) + "}", act=3)
    at = filed("lots", ["D-%d,%d,%s,%s,260630,A-01,10" % (n, n % 9_999 + 1, OATS, lot(n)) for n in range(LOTS)], 4)
    shows("the stock of all lots", "/stock/" + OATS, all_lots(0))
    acts("an order of all lots", "/orders", order("S-1", "Corner Shop", [(OATS, 10 * LOTS)]), act=at, short=0)
    reserved = [(lot(n), 10) for n in range(LOTS)]
    shows("an order of all lots", "/orders/S-1", shown_order("S-1", "NORMAL", "Corner Shop", 10 * LOTS, reserved))
    lines = ["PICK LIST S-1", "CUSTOMER Corner Shop", "STATE OPEN"]
    lines += ["ITEM %s ORDERED %d STAGED 0 SHIPPED 0 SHORT 0 LEAST 0" % (OATS, 10 * LOTS)]
    for name, qty in reserved:
        lines += ["TAKE %s %s %d" % (name, EXPIRY_TEXT, qty), "FROM A-01 10"]
    shows("the pick list of all lots", "/picklists/S-1", lines)
    acts("a cancelled order", "/cancels", {"key": "C-1", "order": "S-1"}, act=at + 1)
    for n in range(URGENT):
        acts("an urgent order", "/urgents", order("U-%03d" % n, "Mill Inn", [(OATS, 10)]), act=at + 2 + n, short=0)


def set_orders(db):
    """Orders of ten units each, of the lots that the urgent ones left. The number of the last act."""
    conn = sqlite3.connect(db)
    last = conn.execute("SELECT acts FROM meta").fetchone()[0]
    names = ["O-%04d" % n for n in range(LOTS - URGENT)]
    conn.executemany("INSERT INTO orders VALUES (?, ?, 'Harbour Cafe', 'OPEN')", [(name, last + 1 + n) for n, name in enumerate(names)])
    conn.executemany("INSERT INTO lines VALUES (?, ?, 10, 0)", [(name, OATS) for name in names])
    conn.executemany("INSERT INTO reserved VALUES (?, ?, ?, 10)", [(name, OATS, lot(URGENT + n)) for n, name in enumerate(names)])
    conn.execute("UPDATE meta SET acts = ?", (last + len(names),))
    conn.commit()
    conn.close()
    return last + len(names)


def orders_of_all_lots(last):
    shows("the stock, all of it reserved", "/stock/" + OATS, all_lots(10))
    acts("an order that gets nothing", "/orders", order("X-1", "Corner Shop", [(OATS, 10)]), act=last + 1, short=10)
    short = ["SHORTAGES %s Oat drink" % OATS, "SHORT X-1 10 Corner Shop", "TOTAL 10"]
    shows("the shortages behind 5,000 orders", "/shortages/" + OATS, short)
    acts("an urgent order that is cancelled", "/cancels", {"key": "C-2", "order": "U-000"}, act=last + 2)
    for name, kind, customer, number in (
        ("U-299", "URGENT", "Mill Inn", 298), ("O-0000", "NORMAL", "Harbour Cafe", 299),
        ("O-4699", "NORMAL", "Harbour Cafe", LOTS - 2), ("X-1", "NORMAL", "Corner Shop", LOTS - 1),
    ):
        shows("an order behind it", "/orders/" + name, shown_order(name, kind, customer, 10, [(lot(number), 10)]))
    shows("the stock, all of it reserved again", "/stock/" + OATS, all_lots(10))
    shows("no shortages", "/shortages/" + OATS, ["SHORTAGES %s Oat drink" % OATS, "TOTAL 0"])


def many_lots():
    db = new_books("lots")
    served(db, 3 + LOTS // 1_000 + 5 + URGENT, an_order_of_all_lots)
    done("an item with %d lots, an order of them all, %d urgent orders, a request of 262,144 bytes" % (LOTS, URGENT))
    last = set_orders(db)
    served(db, 10, lambda: orders_of_all_lots(last))
    done("%d open orders with as many reservations" % LOTS)


# Long texts by GET

LINES, SHIPMENTS = 20_000, 10_000


def set_shipments(db):
    """The lot of the card is in so many shipments too, and was recalled."""
    conn = sqlite3.connect(db)
    numbers = range(1, SHIPMENTS + 1)
    conn.execute("INSERT INTO orders VALUES ('S-1', 3, 'Corner Shop', 'OPEN')")
    conn.execute("INSERT INTO recalls VALUES (?, 'L1', 4)", (OATS,))
    last = LINES + 2
    conn.executemany("INSERT INTO shipments VALUES (?, ?, ?, 'S-1')", [(n, last + n, DAY) for n in numbers])
    conn.executemany("INSERT INTO cards VALUES (?, 'L1', ?, ?, 'SHIPMENT', ?, -1000000, 0)", [(OATS, last + n, DAY, str(n)) for n in numbers])
    conn.executemany("INSERT INTO shiplines VALUES (?, ?, 'L1', 1000000)", [(n, OATS) for n in numbers])
    conn.execute("UPDATE meta SET shipments = ?", (SHIPMENTS,))
    conn.commit()
    conn.close()


def a_card():
    acts("an item", "/items", {"key": "K-1", "gtin": OATS, "name": "Oat drink"}, act=1)
    acts("a bin", "/bins", {"key": "K-2", "bin": "A-01", "kind": "STORE"}, act=2)
    filed("receipts", ["D-%d,%d,%s,L1,260630,A-01,7" % (n, n % 9_999 + 1, OATS) for n in range(LINES)], 3)
    lines = ["STOCK CARD %s Oat drink" % OATS, "LOT L1 EXPIRY %s" % EXPIRY_TEXT]
    lines += ["%13d %s %-8s %-25s %12d %11d" % (3 + n, DAY_TEXT, "RECEIPT", "D-%d/%d" % (n, n % 9_999 + 1), 7, 7 * (n + 1)) for n in range(LINES)]
    shows("a card of %d lines" % LINES, "/cards/%s/L1" % OATS, lines + ["IN HOUSE %d" % (7 * LINES)])


def a_notice():
    lines = ["RECALL NOTICE %s Oat drink" % OATS, "LOT L1 EXPIRY %s" % EXPIRY_TEXT, "BIN A-01 %d" % (7 * LINES)]
    lines += ["SHIPMENT %d %s 1000000 S-1 Corner Shop" % (n, DAY_TEXT) for n in range(1, SHIPMENTS + 1)]
    lines += ["TOTAL BINS %d SHIPPED %d" % (7 * LINES, 1_000_000 * SHIPMENTS)]
    shows("a notice of %d shipments" % SHIPMENTS, "/notices/%s/L1" % OATS, lines)


def long_texts():
    db = new_books("texts")
    served(db, 3 + LINES // 1_000, a_card)
    set_shipments(db)
    served(db, 1, a_notice)
    done("a card of %d lines and a notice of %d shipments by GET" % (LINES, SHIPMENTS))


# Orders of as many lines as there may be, and a server that answers as many requests as it was told

ITEMS = 1_197


def item(number):
    return gtin_of(950600000000 + number)


def orders_of_200_lines():
    for n in range(ITEMS):
        acts("an item", "/items", {"key": "I-%d" % n, "gtin": item(n), "name": "Item %d" % n}, act=n + 1)
    lines = [(item(n), 1_000_000) for n in range(200)]
    acts("a bin", "/bins", {"key": "K-1", "bin": "A-01", "kind": "STORE"}, act=ITEMS + 1)
    acts("an order", "/orders", order("S-1", "Corner Shop", lines), act=ITEMS + 2, short=200_000_000)
    acts("an urgent order", "/urgents", order("S-2", "Mill Inn", lines), act=ITEMS + 3, short=200_000_000)


def long_orders():
    db = new_books("orders")
    log = os.path.join(room, "log")
    with open(log, "wb") as errors:
        served(db, ITEMS + 3, orders_of_200_lines, ["--log"], errors)
    with open(log) as logged:
        found = [line.split(" ")[:3] for line in logged.read().splitlines()]
    wanted = [["POST", "/items", "200"]] * ITEMS + [["POST", path, "200"] for path in ("/bins", "/orders", "/urgents")]
    if found != wanted:
        fail("the log", str(wanted), str(found))
    done("a server that answers and logs %d requests" % (ITEMS + 3))
    values = "\t".join("%s\t1000000" % item(n) for n in range(200))
    text = "".join("%d\t%s\tK/I-%d\tITEM\t%s\tItem %d\n" % (n + 1, DAY_TEXT, n, item(n), n) for n in range(ITEMS))
    text += "%d\t%s\tK/K-1\tBIN\tA-01\tSTORE\n" % (ITEMS + 1, DAY_TEXT)
    text += "%d\t%s\tK/S-1\tORDER\tS-1\tCorner Shop\t%s\n" % (ITEMS + 2, DAY_TEXT, values)
    text += "%d\t%s\tK/S-2\tURGENT\tS-2\tMill Inn\t%s\n" % (ITEMS + 3, DAY_TEXT, values)
    prints("the history of orders of 200 lines", db, "history", text)
    prints("an audit of orders of 200 lines", db, "audit", "audited %d acts from %s\n" % (ITEMS + 3, DAY_TEXT))
    done("the history and an audit of orders of 200 lines")


# Books of many lots and orders

GOODS, EACH = 7_000, 10


def set_books(db):
    """Items with ten lots each, of which ten orders take a unit each of the first. Gives the number of acts."""
    goods = range(GOODS)
    lots = [(item(n), "L%d" % k, "D-%d" % n, k + 1) for n in goods for k in range(EACH)]
    booked = [(item(n), "S-%d-%d" % (n, k)) for n in goods for k in range(EACH)]
    first, second = GOODS + 2, GOODS + 2 + len(lots)
    conn = sqlite3.connect(db)
    conn.executemany("INSERT INTO items VALUES (?, ?)", [(item(n), "Item %d" % n) for n in goods])
    conn.executemany("INSERT INTO least VALUES (?, 0)", [(item(n),) for n in goods])
    conn.execute("INSERT INTO bins VALUES ('A-01', 'STORE')")
    conn.executemany("INSERT INTO lots VALUES (?, ?, ?, ?, 0)", [(gtin, name, EXPIRY, first + at) for at, (gtin, name, _, _) in enumerate(lots)])
    conn.executemany("INSERT INTO stock VALUES (?, ?, 'A-01', 10)", [(gtin, name) for gtin, name, _, _ in lots])
    conn.executemany("INSERT INTO cards VALUES (?, ?, ?, ?, 'RECEIPT', ?, 10, 10)", [(gtin, name, first + at, DAY, "%s/%d" % (delivery, line)) for at, (gtin, name, delivery, line) in enumerate(lots)])
    conn.executemany("INSERT INTO orders VALUES (?, ?, 'Corner Shop', 'OPEN')", [(name, second + at) for at, (_, name) in enumerate(booked)])
    conn.executemany("INSERT INTO lines VALUES (?, ?, 1, 0)", [(name, gtin) for gtin, name in booked])
    conn.executemany("INSERT INTO reserved VALUES (?, ?, 'L0', 1)", [(name, gtin) for gtin, name in booked])
    spelled = [("K/I-%d" % n, "ITEM\n%s\nItem %d" % (item(n), n), '{"act":%d}') for n in goods]
    spelled += [("K/K-1", "BIN\nA-01\nSTORE", '{"act":%d}')]
    spelled += [("D/%s/%d" % (delivery, line), "RECEIVE\n%s\n%s\n%s\nA-01\n10" % (gtin, name, EXPIRY_TEXT), '{"act":%d}') for gtin, name, delivery, line in lots]
    spelled += [("K/" + name, "ORDER\n%s\nCorner Shop\n%s\n1" % (name, gtin), '{"act":%d,"short":0}') for gtin, name in booked]
    conn.executemany("INSERT INTO repeats VALUES (?, ?, ?, ?)", [(key, at, spelling, reply % at) for at, (key, spelling, reply) in enumerate(spelled, 1)])
    conn.execute("UPDATE meta SET acts = ?", (len(spelled),))
    conn.commit()
    conn.close()
    return len(spelled)


def many_orders():
    db = new_books("many")
    count = set_books(db)
    done("books with %d lots and %d orders are set" % (GOODS * EACH, GOODS * EACH))
    prints("an audit of them", db, "audit", "audited %d acts from %s\n" % (count, DAY_TEXT))
    done("an audit of them")


for step in (many_lots, long_texts, long_orders, many_orders):
    step()
print("sizes: every answer was as it was reckoned")
