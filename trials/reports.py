"""The reports of ops/reports over a year of a made-up wholesaler (`reports_house.py`), some 5,000 acts, tallied independently while they
are made: each value of each report and of each question is the one that is tallied. The reports of the server's own last moment come
from an older copy and the file of the acts, while it runs, and are those of the books themselves, byte for byte; and those of a part of the year. A field
that begins as a formula is none in the CSV; the page has each row, no script and no style of its own; letters of a recall; what is no
copy, a file of the acts of other books, and words that are none; a row that was changed is told by the mass balance. The proxy hands
the reports out, and not to a picker.
Needs the Rattle kit and sqlite3, and nginx and openssl for the proxy. DAYS (250), SEED, PORT (18304, and the next two). Takes a minute or two.
Exit status 0 only if all held, and 3 where sqlite3, nginx or openssl is not there: without the last two, all else was as expected.
"""
import collections
import csv
import datetime
import html.parser
import os
import random
import re
import shutil
import sqlite3
import subprocess
import sys

import server
from reports_house import House
from server import TOP, Server

REPORTS, LETTERS = os.path.join(TOP, "ops/lotd-reports"), os.path.join(TOP, "ops/lotd-letters")
FIRST = datetime.date(2025, 1, 2)
compared = 0


def is_told(what, expected, got):
    """A list is compared row by row, so that the first other row is told."""
    global compared
    if isinstance(expected, list) and isinstance(got, list) and len(expected) == len(got):
        compared += len(got)
        for one, other in zip(expected, got):
            if one != other:
                sys.exit("reports: %s: expected %r, got %r" % (what, one, other))
    elif expected != got:
        sys.exit("reports: %s: expected %r, got %r" % (what, expected, got))
    compared += 1


# ---- the program, and what it writes

def made(*words, acts="", status=0, **environment):
    """What lotd-reports prints, for these words."""
    room = {**os.environ, "ACTS": acts, "LOTD": lotd, **environment}
    run = subprocess.run([REPORTS, *words], capture_output=True, text=True, env=room, timeout=600)
    if run.returncode != status:
        sys.exit("reports: %s: status %d, and not %d: %s" % (words, run.returncode, status, run.stderr))
    return run.stdout if status == 0 else run.stderr


def plain(field):
    """A field without the apostrophe that keeps it from being a formula."""
    return field[1:] if re.match(r"'[=+@-]", field) else field


def is_number(text):
    return re.fullmatch(r"-?[0-9]+(\.[0-9]+)?", text) is not None


def read(text, what):
    """The rows of a CSV. No field is a formula."""
    rows = list(csv.reader(text.splitlines(keepends=True), strict=True))
    for row in rows:
        for field in row:
            if field[:1] in tuple("=+@-\t\r") and field and not is_number(field):
                sys.exit("reports: %s: a formula: %r" % (what, field))
    return [dict(zip(rows[0], map(plain, row), strict=True)) for row in rows[1:]]


def report(out, name):
    with open("%s/%s.csv" % (out, name), encoding="ascii", newline="") as file:
        return read(file.read(), name)


def answer(*words):
    return read(made("-c", books, *words), " ".join(words))


def columns(rows, *names):
    return [tuple(row[name] for name in names) for row in rows]


def texts(rows):
    """Rows of values as the CSV has them."""
    return [tuple("" if value is None else str(value) for value in row) for row in rows]


def near(what, expected, got, by=0.0101):
    """A number that was rounded."""
    if (expected is None) != (got == "") or expected is not None and abs(expected - float(got)) > by:
        sys.exit("reports: %s: expected %s, got %s" % (what, expected, got))


# ---- what is expected

def day_of(row):
    return row.day


class Expected:
    """What the reports have to say of a tally, for the days from `first` to `last`."""

    def __init__(self, house, first, last):
        self.house, self.first, self.last = house, first, last
        self.written, self.received, self.shipped, self.counted = map(self.within, (house.written, house.received, house.shipped, house.counted))
        self.held_acts, self.did = map(self.within, (house.held_acts, house.did))
        self.taken = [order for order in house.orders.values() if first <= order.day <= last]

    def within(self, rows):
        return [row for row in rows if self.first <= row.day <= self.last]

    # By month

    def write_offs(self):
        found = collections.defaultdict(list)
        for row in self.written:
            found[row.day.strftime("%Y-%m"), row.cause].append(row)
        return sorted((*key, len(rows), len({row.gtin for row in rows}), sum(row.qty for row in rows)) for key, rows in found.items())

    def counts(self):
        found = collections.defaultdict(list)
        for row in self.counted:
            found[row.day.strftime("%Y-%m")].append(row.change)
        return [(month, len(them), them.count(0), sum(them), sum(map(abs, them))) for month, them in sorted(found.items())]

    def service(self):
        found = collections.defaultdict(list)
        for order in self.taken:
            found[order.day.strftime("%Y-%m")].append(order)
        return sorted(found.items())

    # By item, customer, person

    def balance(self, gtin, day):
        """The units of an item in the house at the end of a day."""
        house = self.house
        moves = [(row.day, row.qty) for row in house.received + house.written if row.gtin == gtin] + [(row.day, -row.qty) for row in house.shipped if row.gtin == gtin]
        return sum(qty for at, qty in moves if at <= day)

    def mean_days(self, rows):
        units = sum(row.qty for row in rows)
        return sum(row.qty * self.left(row) for row in rows) / units if units else None

    def left(self, row):
        """The days that a lot had left."""
        return (self.house.expiry[row.gtin, row.lot] - row.day).days

    def people(self):
        found = collections.defaultdict(list)
        for row in self.did:
            found[row.who, row.word].append(row)
        units = {"MOVE", "PICK", "UNPICK"}
        return sorted((who, word, len(rows), sum(row.units for row in rows) if word in units else "", min(map(day_of, rows)), max(map(day_of, rows)), len({row.day for row in rows}))
                      for (who, word), rows in found.items())

    def classes(self):
        """A, B and C, by the units shipped."""
        units = collections.Counter()
        for row in self.shipped:
            units[row.gtin] += row.qty
        found, before, total = [], 0, sum(units.values())
        for gtin in sorted(self.house.items, key=lambda gtin: (-units[gtin], gtin)):
            letter = "-" if not units[gtin] else "A" if before < 0.8 * total else "B" if before < 0.95 * total else "C"
            found.append((letter, gtin, self.house.items[gtin], units[gtin], len({row.number for row in self.shipped if row.gtin == gtin})))
            before += units[gtin]
        return found

    # By lot

    def house_at(self, day):
        units = collections.Counter()
        for row in self.house.received + self.house.written:
            units[row.gtin, row.lot] += row.qty * (row.day <= day)
        for row in self.house.shipped:
            units[row.gtin, row.lot] -= row.qty * (row.day <= day)
        return sorted((gtin, self.house.items[gtin], lot, self.house.expiry[gtin, lot], qty) for (gtin, lot), qty in units.items() if qty)

    def trace(self):
        rows = [(row.day, row.act, "IN", row.gtin, self.house.items[row.gtin], row.lot, self.house.expiry[row.gtin, row.lot], row.qty, row.delivery, row.line, None, None, None)
                for row in self.received]
        rows += [(row.day, row.act, "OUT", row.gtin, self.house.items[row.gtin], row.lot, self.house.expiry[row.gtin, row.lot], row.qty, None, None, row.number, row.order, row.customer)
                 for row in self.shipped]
        return sorted(rows, key=lambda row: (row[1], row[3], row[6], self.house.came[row[3], row[5]]))


TRACE = ("day", "act", "what", "gtin", "item", "lot", "expiry", "units", "delivery", "line", "shipment", "order", "customer")


# ---- the reports, one after another

def are_by_month(out, it):
    got = columns(report(out, "01_write_offs_by_month"), "month", "cause", "acts", "items", "units")
    is_told("write-offs by month", texts(it.write_offs()), sorted(got))
    rows = [(row.act, row.day, row.who, row.word, row.gtin, it.house.items[row.gtin], row.lot, it.house.expiry[row.gtin, row.lot], row.bin, row.qty, row.cause) for row in it.written]
    is_told("write-offs", texts(rows), columns(report(out, "02_write_offs"), "act", "day", "who", "word", "gtin", "item", "lot", "expiry", "bin", "units", "cause"))
    rows = report(out, "12_counts")
    is_told("counts", texts(it.counts()), columns(rows, "month", "counts", "right", "net_units", "gross_units"))
    for row in rows:
        near("counts", 100 * int(row["right"]) / int(row["counts"]), row["right_percent"], 0.051)


def is_service(out, it):
    rows = report(out, "03_service")
    is_told("the months of service", [month for month, _ in it.service()], [row["month"] for row in rows])
    for (month, orders), row in zip(it.service(), rows):
        ordered = sum(sum(order.lines.values()) for order in orders)
        lines = sum(len(order.lines) for order in orders)
        done = [order for order in orders if not order.cancelled and order.is_done()]
        days = [(order.last - order.day).days for order in done]
        told = [len(orders), sum(order.cancelled for order in orders), sum(order.is_open() for order in orders), lines, ordered]
        is_told("service in " + month, [str(it) for it in told], [row[name] for name in ("orders", "cancelled", "open", "lines", "units_ordered")])
        near("promised at once", 100 * (1 - sum(order.short for order in orders) / ordered), row["promised_at_once_percent"])
        near("shipped", 100 * sum(sum(order.shipped.values()) for order in orders) / ordered, row["units_shipped_percent"])
        full = sum(order.shipped[gtin] == qty for order in orders for gtin, qty in order.lines.items())
        near("lines in full", 100 * full / lines, row["lines_in_full_percent"])
        near("orders in full", 100 * len(done) / len(orders), row["orders_in_full_percent"])
        near("days to shipment", sum(days) / len(days) if days else None, row["mean_days_to_last_shipment"])
        is_told("most days", str(max(days)) if days else "", row["most_days"])


def are_turns(out, it):
    rows = {row["gtin"]: row for row in report(out, "04_turns")}
    is_told("items", sorted(it.house.items), sorted(rows))
    days = [it.first + datetime.timedelta(n) for n in range((it.last - it.first).days + 1)]
    for gtin, row in rows.items():
        sums = {"opening": it.balance(gtin, it.first - datetime.timedelta(1)), "closing": it.balance(gtin, it.last),
                "received": sum(row.qty for row in it.received if row.gtin == gtin), "shipped": sum(row.qty for row in it.shipped if row.gtin == gtin),
                "written_off": -sum(row.qty for row in it.written if row.gtin == gtin and row.qty < 0), "written_on": sum(row.qty for row in it.written if row.gtin == gtin and row.qty > 0)}
        is_told("the units of " + gtin, {name: str(qty) for name, qty in sums.items()}, {name: row[name] for name in sums})
        mean = sum(it.balance(gtin, day) for day in days) / len(days)
        near("mean stock", mean, row["mean_stock"], 0.051)
        near("turns", sums["shipped"] * 365 / len(days) / mean if mean else None, row["turns_a_year"], 0.051)
        near("days of stock", mean * len(days) / sums["shipped"] if sums["shipped"] else None, row["days_of_stock"], 0.051)
        near("written off", 100 * sums["written_off"] / sums["received"] if sums["received"] else None, row["written_off_percent"])


def are_days_left(out, it):
    rows = {row["customer"]: row for row in report(out, "05_days_left_by_customer")}
    is_told("customers", sorted({row.customer for row in it.shipped}), sorted(rows))
    for customer, row in rows.items():
        mine = [one for one in it.shipped if one.customer == customer]
        units = sum(one.qty for one in mine)
        is_told(customer, [str(len({one.number for one in mine})), str(units), str(min(map(it.left, mine)))], [row["shipments"], row["units"], row["fewest"]])
        near("days left", it.mean_days(mine), row["mean"], 0.051)
        for days in (7, 30):
            near("under %d days" % days, 100 * sum(one.qty for one in mine if it.left(one) < days) / units, row["under_%d_percent" % days], 0.051)
    rows = {row["gtin"]: row for row in report(out, "06_days_left_by_item")}
    is_told("items", sorted(it.house.items), sorted(rows))
    for gtin, row in rows.items():
        came, went = [[one for one in them if one.gtin == gtin] for them in (it.received, it.shipped)]
        near("as it came", it.mean_days(came), row["mean_as_it_came"], 0.051)
        near("as shipped", it.mean_days(went), row["mean_as_shipped"], 0.051)
        is_told("least and fewest", (str(it.house.least[gtin]), str(min(map(it.left, went))) if went else ""), (row["least"], row["fewest_as_shipped"]))


def are_people(out, it):
    rows = columns(report(out, "08_people"), "who", "word", "acts", "units", "first_day", "last_day", "days")
    is_told("who did what", texts(it.people()), sorted(rows))


def are_lists(out, it):
    """The ABC, customers, deliveries, holds and recalls, what was in the house, the traceability sheet, the balance."""
    is_told("ABC", texts(it.classes()), columns(report(out, "09_abc"), "class", "gtin", "item", "units", "shipments"))
    found = collections.defaultdict(list)
    for order in it.taken:
        found[order.customer].append(order)
    rows = sorted((customer, len(them), sum(sum(order.lines.values()) for order in them), sum(sum(order.shipped.values()) for order in them), len({gtin for order in them for gtin in order.lines}),
                   max((row.day for row in it.house.shipped if row.customer == customer), default="")) for customer, them in found.items())
    is_told("customers", texts(rows), sorted(columns(report(out, "18_customers"), "customer", "orders", "units_ordered", "units_shipped", "items", "last_shipment")))
    found = collections.defaultdict(list)
    for row in it.received:
        found[row.delivery].append(row)
    rows = [(name, them[0].day, len(them), len({row.gtin for row in them}), sum(row.qty for row in them), min(map(it.left, them))) for name, them in found.items()]
    is_told("deliveries", texts(rows), columns(report(out, "14_deliveries"), "delivery", "first_day", "lines", "items", "units", "fewest_days_left"))
    rows = [(row.word, row.gtin, row.lot, row.day, *ended(it.house, row), row.returned, row.who, sum(one.qty for one in it.house.shipped if (one.gtin, one.lot) == (row.gtin, row.lot) and one.act < row.act))
            for row in it.held_acts if row.word != "RELEASE"]
    is_told("holds and recalls", sorted(texts(rows)), sorted(columns(report(out, "15_holds_and_recalls"), "what", "gtin", "lot", "since", "until", "days", "returned", "who", "shipped_before")))
    rows = report(out, "19_house")
    is_told("the house", sorted(texts(it.house_at(it.last))), sorted(columns(rows, "gtin", "item", "lot", "expiry", "units")))
    is_told("the traceability sheet", texts(it.trace()), columns(report(out, "20_trace"), *TRACE))
    is_told("lots that do not come out", [], report(out, "07_mass_balance"))


def ended(house, held):
    """The day on which a hold ended, and how many days it was there; nothing of a recall."""
    if held.word == "RECALL":
        return "", ""
    until = next((row.day for row in house.held_acts if row.word != "HOLD" and (row.gtin, row.lot) == (held.gtin, held.lot) and row.act > held.act), None)
    return until or "", ((until or house.day) - held.day).days


def are_of_now(out, house):
    """What speaks of the last day alone, whatever the period is: slow lots, what will expire, what was never counted, what may be promised, open orders."""
    lots = sorted(lot for lot in house.expiry if house.units(lot))
    rows = []
    for lot in lots:
        since = min(row.day for row in house.received if (row.gtin, row.lot) == lot)
        gone = max((row.day for row in house.shipped if (row.gtin, row.lot) == lot), default=None)
        if (house.day - (gone or since)).days >= 30:
            status = "RECALLED" if lot in house.recalled else "HELD" if lot in house.held else "EXPIRED" if house.expiry[lot] < house.day else ""
            rows.append((*lot, house.units(lot), (house.expiry[lot] - house.day).days, (house.day - since).days, (house.day - gone).days if gone else "", status))
    is_told("slow lots", sorted(texts(rows)), sorted(columns(report(out, "10_slow_lots"), "gtin", "lot", "units", "days_left", "age", "days_since_shipped", "status")))
    rows = [(place, gtin, lot, qty, max((row.day for row in house.counted if (row.gtin, row.lot, row.bin) == (gtin, lot, place)), default="")) for (gtin, lot, place), qty in house.stock.items() if qty]
    is_told("not counted", sorted(texts(rows)), sorted(columns(report(out, "13_not_counted"), "bin", "gtin", "lot", "units", "last_count")))
    rows = []
    for gtin in house.items:
        need = sum(order.lines.get(gtin, 0) - order.shipped[gtin] for order in house.orders.values() if order.is_open()) - sum(qty for key, qty in house.staged.items() if key[1] == gtin)
        rows.append((gtin, need, *(fit_in(house, gtin, days) - need * (days is not None) for days in (None, 0, 7, 14, 30))))
    is_told("may be promised", sorted(texts(rows)), sorted(columns(report(out, "16_may_be_promised"), "gtin", "still_to_pick", "shippable_today", "free_today", "free_in_7", "free_in_14", "free_in_30")))
    are_open(out, house)
    will_expire(out, house)


def store_units(house, lot):
    return sum(qty for key, qty in house.stock.items() if key[:2] == lot and key[2] not in ("RETURNS", "Q-01"))


def fit_in(house, gtin, days):
    """The units of an item in STORE bins that may still be shipped in so many days, or today."""
    return sum(store_units(house, lot) for lot in house.expiry
               if lot[0] == gtin and lot not in house.held and lot not in house.recalled and (house.expiry[lot] - house.day).days >= house.least[gtin] + (days or 0))


def are_open(out, house):
    """Open orders, as the server shows them too."""
    shown, path = {}, "/openorders"
    while True:
        _, page = house.get(path)
        shown.update({order["order"]: order for order in page["orders"]})
        if not page["more"]:
            break
        path = "/openorders/" + page["orders"][-1]["order"]
    rows = [(order.name, order.customer, order.day, (house.day - order.day).days, order.who, int(order.urgent), sum(order.lines.values()) - sum(order.shipped.values()),
             sum(qty for key, qty in house.staged.items() if key[0] == order.name), shown[order.name]["reserved"], shown[order.name]["short"])
            for order in house.orders.values() if order.is_open()]
    is_told("open orders", texts(rows), columns(report(out, "17_open_orders_by_age"), "order", "customer", "taken", "days", "who", "urgent", "to_ship", "staged", "reserved", "short"))


def will_expire(out, house):
    """What is left over where each item goes on at its pace, one lot after another."""
    found = {}
    for gtin in house.items:
        a_day = sum(row.qty for row in house.shipped if row.gtin == gtin and (house.day - row.day).days < 28) / 28
        at = 0.0
        for lot in sorted((lot for lot in house.expiry if lot[0] == gtin), key=lambda lot: (house.expiry[lot], house.came[lot])):
            units, days = store_units(house, lot), (house.expiry[lot] - house.day).days
            if not units or days < 0 or lot in house.held or lot in house.recalled:
                continue
            sold = min(units, a_day * max(0, days - house.least[gtin] + 1 - at))
            at += sold / a_day if a_day else 0
            found[lot] = units - sold
    rows = {(row["gtin"], row["lot"]): row for row in report(out, "11_will_expire")}
    is_told("lots that will expire", sorted(lot for lot, left in found.items() if left > 0.5001), sorted(lot for lot in rows if found.get(lot, 0) > 0.5001))
    for lot, row in rows.items():
        near("units at risk of %s" % (lot,), found[lot], row["units_at_risk"], 0.501)


def are_questions(house, it):
    """Each question, of some lots, shipments, deliveries, customers and bins."""
    whole = Expected(house, FIRST, house.day)
    everything = texts(whole.trace())
    is_told("trace", everything, columns(answer("trace"), *TRACE))
    gtin = house.chance.choice(sorted(house.items))
    is_told("trace of an item", [row for row in everything if row[3] == gtin], columns(answer("trace", gtin), *TRACE))
    is_told("trace of a span of days", texts(it.trace()), columns(answer("-f", str(it.first), "-l", str(it.last), "trace"), *TRACE))
    for day in (it.first, it.last):
        is_told("the house at the end of a day", sorted(texts(whole.house_at(day))), sorted(columns(answer("house", str(day)), "gtin", "item", "lot", "expiry", "units")))
    lots = house.chance.sample(sorted(house.expiry), 6) + sorted(house.recalled)[:2] + sorted({key[1:] for key, qty in house.staged.items() if qty})[:1]
    lots += sorted({(row.gtin, row.lot) for row in house.written if row.qty > 0})[:2] + sorted(house.held)[:1]
    for lot in lots:
        is_told("trace of a lot", [row for row in everything if (row[3], row[5]) == lot], columns(answer("trace", *lot), *TRACE))
        is_lot(house, lot)
    number = house.chance.randint(1, house.shipments)
    rows = [(row.number, row.day, row.order, row.customer, row.gtin, row.lot, row.qty, " ".join("%s/%d" % (one.delivery, one.line) for one in house.received if (one.gtin, one.lot) == (row.gtin, row.lot) and one.act < row.act))
            for row in house.shipped if row.number == number]
    is_told("a shipment", sorted(texts(rows)), sorted(columns(answer("shipment", str(number)), "shipment", "day", "order", "customer", "gtin", "lot", "units", "came_with")))
    delivery = house.chance.choice(house.received).delivery
    rows = []
    for lot in sorted({(row.gtin, row.lot) for row in house.received if row.delivery == delivery}):
        same = [row for row in house.received if (row.gtin, row.lot) == lot]
        came = (*lot, sum(row.qty for row in same if row.delivery == delivery), len({row.delivery for row in same}) - 1, house.units(lot))
        went = [(row.number, row.customer, row.qty) for row in house.shipped if (row.gtin, row.lot) == lot]
        rows += [(*came, *row) for row in went or [("", "", "")]]
    is_told("a delivery", sorted(texts(rows)), sorted(columns(answer("delivery", delivery), "gtin", "lot", "came", "other_deliveries", "in_house", "shipment", "customer", "units")))
    for customer in ("=cmd()", 'Hotel "Post"'):
        rows = [(row.number, row.day, row.order, row.gtin, row.lot, row.qty, whole.left(row)) for row in house.shipped if row.customer == customer]
        is_told("a customer", sorted(texts(rows)), sorted(columns(answer("customer", customer), "shipment", "day", "order", "gtin", "lot", "units", "days_left")))
    received = [str(row.act) for row in house.received if row.bin == "A-05"]
    is_told("the receipts in a bin", received, [row["act"] for row in answer("bin", "A-05") if row["word"] == "RECEIVE"])


def is_lot(house, lot):
    """The recall drill of a lot: each line, and its balance."""
    rows = answer("lot", *lot)
    came = [("IN", row.day, row.act, row.qty) for row in house.received if (row.gtin, row.lot) == lot]
    written = [("ON" if row.qty > 0 else "OFF", row.day, row.act, abs(row.qty)) for row in house.written if (row.gtin, row.lot) == lot]
    went = [("OUT", row.day, row.act, row.qty, row.customer) for row in house.shipped if (row.gtin, row.lot) == lot]
    bins = [("BIN", "bin " + place, qty) for (gtin, name, place), qty in house.stock.items() if qty and (gtin, name) == lot]
    staged = [("STAGE", "order " + key[0], qty) for key, qty in house.staged.items() if qty and key[1:] == lot]
    got = {what: [row for row in rows if row["what"] == what] for what in ("IN", "ON", "OFF", "OUT", "BIN", "STAGE", "BALANCE")}
    is_told("the deliveries of a lot", texts(came), columns(got["IN"], "what", "day", "act", "units"))
    is_told("what was written of it", sorted(texts(written)), sorted(columns(got["ON"] + got["OFF"], "what", "day", "act", "units")))
    is_told("whom it went to", texts(went), columns(got["OUT"], "what", "day", "act", "units", "customer"))
    is_told("where it is", sorted(texts(bins + staged)), sorted(columns(got["BIN"] + got["STAGE"], "what", "document", "units")))
    is_told("the balance of a lot", [("0", "%d customers got it" % len({row[4] for row in went}))], columns(got["BALANCE"], "units", "customer"))


# ---- the page

class Page(html.parser.HTMLParser):
    """The tables of the page, by their section; and what may not be in it."""

    def __init__(self, text):
        super().__init__()
        self.tables, self.cell, self.section, self.open = collections.defaultdict(list), None, None, []
        self.feed(text)
        is_told("elements that are not closed", [], self.open)

    def handle_starttag(self, tag, attributes):
        names = dict(attributes)
        if tag in ("script", "style", "iframe") or any(name.startswith("on") or name == "style" for name in names):
            sys.exit("reports: the page has a %s %s" % (tag, names))
        if tag not in ("meta", "link"):
            self.open.append(tag)
        if tag == "section":
            self.section = names["id"]
        elif tag == "tr":
            self.tables[self.section].append([])
        elif tag in ("td", "th"):
            self.cell = ""

    def handle_startendtag(self, tag, attributes):
        self.handle_starttag(tag, attributes)
        self.open.pop()

    def handle_endtag(self, tag):
        is_told("the element that is closed", self.open.pop() if self.open else None, tag)
        if tag in ("td", "th"):
            self.tables[self.section][-1].append(self.cell)
            self.cell = None

    def handle_data(self, data):
        if self.cell is not None:
            self.cell += data


def is_page(out):
    """Each row of each CSV, and bars where there is a column for them."""
    with open(out + "/index.html", encoding="ascii") as file:
        text = file.read()
    page = Page(text)
    for name in sorted(os.listdir(out)):
        if not name.endswith(".csv"):
            continue
        rows = report(out, name[:-4])
        with open(os.path.join(TOP, "ops/reports", name[:-4] + ".sql"), encoding="utf-8") as file:
            bars = "\n-- bar: " in file.read()
        shown = page.tables["r" + name[:2]]
        is_told("rows of %s on the page" % name, min(len(rows), 1000), max(0, len(shown) - 1))
        for row, cells in zip(rows, shown[1:]):
            is_told("a row of %s on the page" % name, list(row.values()) + [""] * bars, cells)
    bars = [int(width) for width in re.findall(r'<rect class="(?:more|less)" width="(\d+)"', text)]
    if not bars or max(bars) != 160:
        sys.exit("reports: the page has no bars")
    print("  the page has each row, %d bars, no script and no style of its own" % len(bars), flush=True)


# ---- recall, faults, proxy

def are_letters(house, room):
    """Of a recall of the lot that most customers got."""
    lot = max(sorted(lot for lot in house.expiry if house.is_free(lot)), key=lambda lot: len({row.customer for row in house.shipped if (row.gtin, row.lot) == lot}))
    house.recall(lot)
    units = collections.Counter()
    for row in house.shipped:
        if (row.gtin, row.lot) == lot:
            units[row.customer] += row.qty
    status, notice = house.get("/notices/%s/%s" % (lot[0], lot[1].replace("/", "%2F").replace("+", "%2B").replace('"', "%22")))
    is_told("the notice", 200, status)
    names = list(units)
    for known in (names, names[:-1]):
        with open(room + "/addresses", "w", encoding="utf-8") as file:
            file.writelines("%s\t%d@example.net\n" % (name, n) for n, name in enumerate(known))
        out = room + "/letters"
        shutil.rmtree(out, ignore_errors=True)
        run = subprocess.run([LETTERS, room + "/addresses", out], input=notice, capture_output=True, text=True, timeout=60)
        is_told("the status of the letters", int(known != names), run.returncode)
        rows = [line.split("\t") for line in run.stdout.splitlines()]
        is_told("the letters", dict(units), {who: int(qty) for _, qty, who in rows})
        is_told("customers without an e-mail", set(names) - set(known), {who for file, _, who in rows if file == "no e-mail"})
        is_told("files", len(names), len(os.listdir(out)))
        for n, name in enumerate(known):
            path = next(file for file, _, who in rows if who == name)
            with open(path, encoding="ascii") as file:
                text = file.read()
            for words in ("To: %d@example.net\n" % n, "\n\nTo %s\n" % name, "You got %d units" % units[name], "Lot     %s\n" % lot[1], "GTIN " + lot[0]):
                if words not in text:
                    sys.exit("reports: a letter lacks %r: %r" % (words, text))
    run = subprocess.run([LETTERS, room + "/addresses", out], input=notice.replace("SHIPMENT", "SHIP", 1), capture_output=True, text=True, timeout=60)
    is_told("a notice that was cut", 2, run.returncode)
    print("  %d letters of a recall" % len(names), flush=True)


def are_faults(room):
    """What is no copy, other books' acts, words that are none; a row that was changed."""
    for words in ((), ("nothing",), ("lot",), ("lot", "1"), ("shipment",), ("-f", "2025-02-30", "all"), ("house", "yesterday"), ("customer", "a\nb")):
        made("-c", books, *words, status=2)
    with open(room + "/none", "w", encoding="utf-8") as file:
        file.write("no books\n" * 1000)
    for words in (("-c", room + "/none", "all", room + "/no"), ("-c", room + "/nowhere", "house")):
        made(*words, status=1)
    made("house", status=1, FOLDER=room)
    is_told("whether a report was left", False, os.path.exists(room + "/no"))
    with open(room + "/other.acts", "w", encoding="utf-8") as file:
        file.write("1\t2025-01-02\tK/X-1\tITEM\t09506000134352\tOther\n")
    told = made("-c", books, "all", room + "/other", acts=room + "/other.acts", status=1)
    if "differs act 1" not in told:
        sys.exit("reports: other books' acts: %r" % told)
    with open(room + "/other/index.html", encoding="ascii") as file:
        if "differs act 1" not in file.read():
            sys.exit("reports: the page does not tell that the file of the acts is of other books")
    shutil.copy(books, room + "/changed.db")
    rows = sqlite3.connect(room + "/changed.db")
    rows.execute("UPDATE stock SET qty = qty + 1 WHERE rowid = (SELECT min(rowid) FROM stock)")
    rows.commit()
    rows.close()
    made("-c", room + "/changed.db", "all", room + "/changed")
    is_told("a row that was changed", 1, len(report(room + "/changed", "07_mass_balance")))
    print("  no copy, other acts, other words, a row that was changed: each is told", flush=True)


def is_handed_out(room, out, tls):
    """By the proxy: to who may, and not to a picker."""
    import nginx
    state = room + "/proxy"
    os.mkdir(state)
    shutil.copytree(out, state + "/reports/now")
    for path, _, files in os.walk(state + "/reports"):
        os.chmod(path, 0o755)
        for name in files:
            os.chmod(os.path.join(path, name), 0o644)
    os.chmod(room, 0o755)
    started = nginx.proxy(shutil.which("nginx", path=os.environ["PATH"] + ":/usr/sbin"), "openssl", state, tls, tls + 1)
    try:
        nginx.write_users(state, nginx.USER, "picker-1")

        def asked(path, *words):
            run = subprocess.run(["curl", "-sk", "-D", "-", *words, "https://localhost:%d%s" % (tls, path)], capture_output=True, text=True, timeout=60)
            head, _, body = run.stdout.partition("\n\n")
            return int(head.split(" ")[1]), head.lower(), body

        for path, kind in (("/reports/", "text/html"), ("/reports/20_trace.csv", "text/csv"), ("/reports/reports.css", "text/css")):
            status, head, body = asked(path, "-u", nginx.USER + ":" + nginx.PASSWORD)
            is_told(path, 200, status)
            if "content-type: " + kind not in head or "content-security-policy: default-src 'none'" not in head or not body:
                sys.exit("reports: %s: %s" % (path, head))
            is_told(path + " without a password", 401, asked(path)[0])
            status, _, body = asked(path, "-u", "picker-1:" + nginx.PASSWORD)
            is_told(path + " by a picker", (403, '{"code":"P01"}'), (status, body))
        is_told("what is not there", 404, asked("/reports/stock.db", "-u", nginx.USER + ":" + nginx.PASSWORD)[0])
    finally:
        started.terminate()
        started.wait()
    print("  the proxy hands them out, and not to a picker", flush=True)


# ---- the trial

def year(house, room, days):
    """The work of the days, at one server after another. Of the days up to the fourth fifth there is a copy."""
    words = ("--acts", room + "/stock.acts")
    half = days * 4 // 5
    with Server(lotd, books, PORT, 1_000_000, words):
        house.begin()
        for number in range(half):
            house.works(number)
    copy = room + "/copies/%sT031500" % house.day
    os.makedirs(copy)
    for end in ("", "-wal"):
        if os.path.exists(books + end):
            shutil.copy(books + end, copy + "/stock.db" + end)
    os.mkdir(room + "/copies/2024-01-01T031500")                        # older, and empty: never looked at
    with Server(lotd, books, PORT, 1_000_000, words):
        for number in range(half, days):
            house.works(number)
        house.corners()
        print("  %d acts of %d days tallied" % (house.act, days), flush=True)
        are_letters(house, room)
        made("all", room + "/live", acts="--acts %s/stock.acts" % room, FOLDER=room + "/copies")
        are_of_now(room + "/live", house)


def main():
    room = os.path.dirname(books)
    subprocess.run([lotd, "init", "--db", books, "--day", FIRST.isoformat()], check=True)
    house = House(PORT, random.Random(server.number("SEED", 7)), FIRST, 20)
    year(house, room, server.number("DAYS", 250))
    made("-c", books, "all", room + "/out")
    for name in sorted(os.listdir(room + "/out")):
        if name != "index.html":
            with open("%s/out/%s" % (room, name), "rb") as one, open("%s/live/%s" % (room, name), "rb") as other:
                is_told(name + " of a copy and the file of the acts", one.read(), other.read())
    print("  of an older copy and the file of the acts, at a server that runs: the same reports", flush=True)
    first = max(FIRST, house.day - datetime.timedelta(364))
    third = (house.day - first) // 3
    for one, last in ((first, house.day), (first + third, first + 2 * third)):
        it = Expected(house, one, last)
        out = "%s/of %s" % (room, one)
        made("-c", books, "-f", str(one), "-l", str(last), "all", out)
        for look in (are_by_month, is_service, are_turns, are_days_left, are_people, are_lists):
            look(out, it)
    are_questions(house, it)
    print("  20 reports of the year and of a third of it, 7 questions: %d values and rows as tallied" % compared, flush=True)
    is_page(room + "/out")
    are_faults(room)
    if not (shutil.which("nginx", path=os.environ["PATH"] + ":/usr/sbin") and shutil.which("openssl")):
        print("reports: all was as expected, but there is no nginx or no openssl, so the proxy was not tried; on Debian: apt-get install nginx openssl", file=sys.stderr)
        sys.exit(3)
    is_handed_out(room, room + "/out", PORT + 1)
    print("reports: all was as expected")


if shutil.which("sqlite3") is None:
    print("reports: there is no sqlite3; on Debian: apt-get install sqlite3", file=sys.stderr)
    sys.exit(3)
PORT = server.number("PORT", 18304)
lotd = server.program()
books = os.path.join(server.room(), "stock.db")
main()
