"""Random days' work, and after each tenth act each list (the books, the open orders, the items, the lots that expire, the
lots in a bin), page by page and behind entries of all kinds, the figures, the pick lists of three orders and the traces of lots,
against a plain reckoning over the lines of `lotd history`. ACTS says how many acts (3,000), SEED from where the work is drawn.
Needs the Rattle kit, and takes some minutes.
Exit status 0 only if every answer was, byte for byte, what is reckoned here.
"""
import collections
import json
import os
import random
import subprocess
import sys
import urllib.parse

import acts
import server

lotd, room = server.program(), server.room()
chance = random.Random(server.number("SEED", 1))
ACTS = server.number("ACTS", 3_000)
FIRST = acts.day_number("2026-05-04")
PAGE, NAMES = 100, 1_000
asked = 0


class Books:
    """The acts, done one after another."""

    def __init__(self):
        self.acts, self.today = 0, FIRST
        self.items, self.least, self.kinds = {}, {}, {"RETURNS": "HOLD"}
        self.lots, self.held, self.recalled = {}, set(), set()
        self.stock, self.staged, self.shipped = collections.Counter(), collections.Counter(), collections.Counter()
        self.orders, self.cancelled = {}, set()
        self.came, self.on, self.off = collections.defaultdict(list), collections.Counter(), collections.Counter()
        self.shipments, self.in_shipment = [], collections.Counter()

    def do(self, line):
        number, self.day, self.key, word, *values = line.split("\t")
        self.acts = int(number)
        getattr(self, "do_" + word.lower())(*values)

    # What each act does

    def do_item(self, gtin, name):
        self.items[gtin] = name

    def do_bin(self, name, kind):
        self.kinds[name] = kind

    def do_receive(self, gtin, lot, expiry, name, qty):
        self.lots.setdefault((gtin, lot), (acts.day_number(expiry), self.acts))
        self.stock[gtin, lot, name] += int(qty)
        _, delivery, row = self.key.split("/")
        self.came[gtin, lot].append({"act": self.acts, "day": self.day, "delivery": delivery, "line": int(row), "qty": int(qty)})

    def do_move(self, gtin, lot, source, target, qty):
        self.stock[gtin, lot, source] -= int(qty)
        self.stock[gtin, lot, target] += int(qty)

    def do_count(self, gtin, lot, name, qty):
        self.write((gtin, lot), int(qty) - self.stock[gtin, lot, name])
        self.stock[gtin, lot, name] = int(qty)

    def do_adjust(self, gtin, lot, name, change):
        self.write((gtin, lot), int(change))
        self.stock[gtin, lot, name] += int(change)

    def write(self, lot, change):
        (self.on if change > 0 else self.off)[lot] += abs(change)

    def do_order(self, name, customer, *lines, urgent=False):
        wanted = {gtin: int(qty) for gtin, qty in zip(lines[::2], lines[1::2])}
        self.orders[name] = {"act": self.acts, "customer": customer, "lines": wanted, "urgent": urgent}

    def do_urgent(self, name, customer, *lines):
        self.do_order(name, customer, *lines, urgent=True)

    def do_cancel(self, name):
        self.cancelled.add(name)

    def do_pick(self, order, gtin, lot, name, qty):
        self.stock[gtin, lot, name] -= int(qty)
        self.staged[order, gtin, lot] += int(qty)

    def do_unpick(self, order, gtin, lot, name, qty):
        self.staged[order, gtin, lot] -= int(qty)
        self.stock[gtin, lot, name] += int(qty)

    def do_ship(self, order):
        self.shipments.append({"customer": self.orders[order]["customer"], "day": self.day, "number": len(self.shipments) + 1, "order": order})
        for key in [key for key in self.staged if key[0] == order]:
            self.in_shipment[len(self.shipments), key[1:]] += self.staged[key]
            self.shipped[order, key[1]] += self.staged.pop(key)

    def do_hold(self, gtin, lot):
        self.held.add((gtin, lot))
        self.give_back()

    def do_release(self, gtin, lot):
        self.held.discard((gtin, lot))

    def do_recall(self, gtin, lot):
        self.recalled.add((gtin, lot))
        self.give_back()

    def do_openday(self, day):
        self.today = acts.day_number(day)
        self.give_back()

    def do_least(self, gtin, days):
        self.least[gtin] = int(days)
        self.give_back()

    def give_back(self):
        """What is staged of lots that may no longer be shipped goes to RETURNS."""
        for order, gtin, lot in list(self.staged):
            if not self.ships((gtin, lot)):
                self.stock[gtin, lot, "RETURNS"] += self.staged.pop((order, gtin, lot))

    # What is so

    def status(self, lot):
        expiry = self.lots[lot][0]
        if lot in self.recalled:
            return "RECALLED"
        if lot in self.held:
            return "HELD"
        if expiry < self.today:
            return "EXPIRED"
        return "SHORTDATED" if expiry < self.today + self.least.get(lot[0], 0) else "FREE"

    def ships(self, lot):
        return self.status(lot) == "FREE"

    def staged_for(self, order, gtin):
        return sum(qty for key, qty in self.staged.items() if key[:2] == (order, gtin))

    def need(self, name, gtin):
        order = self.orders[name]
        return 0 if name in self.cancelled else order["lines"].get(gtin, 0) - self.staged_for(name, gtin) - self.shipped[name, gtin]

    def is_open(self, name):
        wanted = self.orders[name]["lines"]
        return name not in self.cancelled and any(self.shipped[name, gtin] < qty for gtin, qty in wanted.items())

    def place(self, name):
        """The place of an order among all, as they are served."""
        return not self.orders[name]["urgent"], self.orders[name]["act"]

    def reserved(self):
        """What is reserved, by order and lot: each order in its turn, from the lot that expires first."""
        left = collections.defaultdict(list)
        for lot in sorted(self.lots, key=self.lots.get):
            units = sum(qty for key, qty in self.stock.items() if key[:2] == lot and self.kinds[key[2]] == "STORE")
            if self.ships(lot) and units:
                left[lot[0]].append([lot, units])
        found = collections.Counter()
        for name in sorted(self.orders, key=self.place):
            for gtin in self.orders[name]["lines"]:
                need = self.need(name, gtin)
                for row in left[gtin]:
                    taken = min(need, row[1])
                    found[name, row[0]] += taken
                    need, row[1] = need - taken, row[1] - taken
        return found

    # What the lists show

    def open_orders(self, reserved):
        return [(self.place(name), self.open_order(name, reserved)) for name in sorted(self.orders, key=self.place) if self.is_open(name)]

    def open_order(self, name, reserved):
        order = self.orders[name]
        got = sum(qty for key, qty in reserved.items() if key[0] == name)
        shipped = sum(self.shipped[name, gtin] for gtin in order["lines"])
        staged = sum(self.staged_for(name, gtin) for gtin in order["lines"])
        ordered = sum(order["lines"].values())
        return {"class": "URGENT" if order["urgent"] else "NORMAL", "customer": order["customer"], "order": name, "ordered": ordered,
                "reserved": got, "shipped": shipped, "short": ordered - shipped - staged - got, "staged": staged}

    def names(self):
        return [(gtin, {"gtin": gtin, "least": self.least.get(gtin, 0), "name": self.items[gtin]}) for gtin in sorted(self.items)]

    def expiring(self, day, reserved):
        found = []
        for lot in sorted(self.lots, key=self.lots.get):
            bins = {key[2]: qty for key, qty in self.stock.items() if key[:2] == lot and qty}
            staged = sum(qty for key, qty in self.staged.items() if key[1:] == lot)
            if self.lots[lot][0] <= day and (bins or staged):
                found.append((self.lots[lot], {
                    "bins": [{"bin": name, "qty": bins[name]} for name in sorted(bins)],
                    "expiry": acts.day_text(self.lots[lot][0]), "gtin": lot[0], "lot": lot[1], "name": self.items[lot[0]],
                    "reserved": sum(qty for key, qty in reserved.items() if key[1] == lot), "staged": staged, "status": self.status(lot)}))
        return found

    def trace(self, lot):
        bins = {key[2]: qty for key, qty in self.stock.items() if key[:2] == lot and qty}
        staged = {key[0]: qty for key, qty in self.staged.items() if key[1:] == lot and qty}
        return {"act": self.acts, "bins": [{"bin": name, "qty": bins[name]} for name in sorted(bins)], "deliveries": self.came[lot],
                "expiry": acts.day_text(self.lots[lot][0]), "gtin": lot[0], "lot": lot[1], "name": self.items[lot[0]],
                "off": self.off[lot], "on": self.on[lot], "received": sum(row["qty"] for row in self.came[lot]),
                "shipments": [{**row, "qty": self.in_shipment[row["number"], lot]} for row in self.shipments if self.in_shipment[row["number"], lot]],
                "staged": [{"customer": self.orders[name]["customer"], "order": name, "qty": staged[name]} for name in sorted(staged)],
                "status": self.status(lot)}

    def bins_of(self, lot):
        return {key[2]: qty for key, qty in self.stock.items() if key[:2] == lot and qty}

    def staged_of(self, lot):
        return sum(qty for key, qty in self.staged.items() if key[1:] == lot)

    def take(self, lot, qty):
        bins = {name: units for name, units in self.bins_of(lot).items() if self.kinds[name] == "STORE"}
        return {"bins": [{"bin": name, "qty": bins[name]} for name in sorted(bins)], "expiry": acts.day_text(self.lots[lot][0]),
                "lot": lot[1], "qty": qty}

    def pick_line(self, name, gtin, reserved):
        lots = [lot for lot in sorted(self.lots, key=self.lots.get) if lot[0] == gtin and reserved[name, lot]]
        return {"gtin": gtin, "least": self.least.get(gtin, 0), "name": self.items[gtin], "ordered": self.orders[name]["lines"][gtin],
                "shipped": self.shipped[name, gtin], "short": self.need(name, gtin) - sum(reserved[name, lot] for lot in lots),
                "staged": self.staged_for(name, gtin), "take": [self.take(lot, reserved[name, lot]) for lot in lots]}

    def picks(self, name, reserved):
        order = self.orders[name]
        state = "CANCELLED" if name in self.cancelled else "OPEN" if self.is_open(name) else "DONE"
        return {"customer": order["customer"], "lines": [self.pick_line(name, gtin, reserved) for gtin in sorted(order["lines"])],
                "order": name, "state": state}

    def figures(self, reserved):
        opened = [order for _, order in self.open_orders(reserved)]
        status = [self.status(lot) for lot in self.lots if self.bins_of(lot) or self.staged_of(lot)]
        in_bins = sum(self.stock.values())
        return {"act": self.acts, "day": acts.day_text(self.today),
                "lots": {word.lower(): status.count(word) for word in ("EXPIRED", "HELD", "RECALLED")},
                "open": {"orders": len(opened), "short": sum(order["short"] > 0 for order in opened),
                         "staged": sum(order["staged"] > 0 for order in opened), "urgent": sum(order["class"] == "URGENT" for order in opened)},
                "units": {"house": in_bins + sum(self.staged.values()),
                          "returns": sum(qty for key, qty in self.stock.items() if key[2] == "RETURNS")}}

    def by_item(self, lot):
        """The place of a lot among all, as they stand in a bin."""
        return lot[0], self.lots[lot]

    def in_bin(self, name):
        return [(self.by_item(lot), {"expiry": acts.day_text(self.lots[lot][0]), "gtin": lot[0], "lot": lot[1], "name": self.items[lot[0]],
                                     "qty": self.stock[(*lot, name)], "status": self.status(lot)})
                for lot in sorted(self.lots, key=self.by_item) if self.stock[(*lot, name)]]


def books_now(db):
    """The books, by what `lotd history` prints of a copy of the file."""
    copy = acts.copied(db, os.path.join(room, "copy.db"))
    text = subprocess.run([lotd, "history", "--db", copy], capture_output=True, text=True, check=True, timeout=60).stdout
    books = Books()
    for line in text.splitlines():
        books.do(line)
    return books


def is_told(clerk, path, expected):
    """The answer is 200, with these bytes."""
    global asked
    asked += 1
    text = json.dumps(expected, separators=(",", ":"), sort_keys=True)
    answer = clerk.ask(server.get(path))
    if answer != (200, text):
        sys.exit("lists: GET %s: expected %r, got %r" % (path, text, answer))


def are_told(clerk, path, word, acts_done, entries, most, part, **beside):
    """A list, page by page from its first; `part` is what identifies an entry in the path, and `beside` stands in each answer."""
    rest = [entry for _, entry in entries]
    at = path
    while True:
        is_told(clerk, at, {"act": acts_done, word: rest[:most], "more": len(rest) > most, **beside})
        if len(rest) <= most:
            return
        at, rest = path + "/" + part(rest[most - 1]), rest[most:]


def behind(clerk, path, word, acts_done, entries, most, place, **beside):
    """The first page behind a place, whether or not an entry stands there."""
    rest = [entry for at, entry in entries if place < at]
    is_told(clerk, path, {"act": acts_done, word: rest[:most], "more": len(rest) > most, **beside})


def quoted(text):
    return urllib.parse.quote(text, safe="")


def of_lot(entry):
    return "%s/%s" % (entry["gtin"], quoted(entry["lot"]))


def all_lists(clerk, db):
    books = books_now(db)
    reserved = books.reserved()
    is_told(clerk, "/books", {"act": books.acts, "day": acts.day_text(books.today), "schema": 4})
    opened = books.open_orders(reserved)
    are_told(clerk, "/openorders", "orders", books.acts, opened, PAGE, lambda entry: entry["order"])
    if books.orders:
        name = chance.choice(list(books.orders))
        behind(clerk, "/openorders/" + name, "orders", books.acts, opened, PAGE, books.place(name))
    is_told(clerk, "/figures", books.figures(reserved))
    for name in chance.sample(list(books.orders), min(3, len(books.orders))):
        is_told(clerk, "/picks/" + name, books.picks(name, reserved))
    names = books.names()
    are_told(clerk, "/itemnames", "items", books.acts, names, NAMES, lambda entry: entry["gtin"])
    gtin = chance.choice(list(books.items))
    behind(clerk, "/itemnames/" + gtin, "items", books.acts, names, NAMES, gtin)
    day = books.today + chance.choice([-1, 0, 7, 30, 400])
    expiring = books.expiring(day, reserved)
    path = "/expiring/" + acts.day_text(day)
    are_told(clerk, path, "lots", books.acts, expiring, PAGE, of_lot)
    lot = chance.choice([lot for lot in books.lots if lot[1] not in (".", "..")])
    behind(clerk, "%s/%s/%s" % (path, lot[0], quoted(lot[1])), "lots", books.acts, expiring, PAGE, books.lots[lot])
    is_told(clerk, "/traces/%s/%s" % (lot[0], quoted(lot[1])), books.trace(lot))
    name = chance.choice(list(books.kinds))
    path, found, beside = "/bins/" + quoted(name), books.in_bin(name), {"bin": name, "kind": books.kinds[name]}
    are_told(clerk, path, "lots", books.acts, found, PAGE, of_lot, **beside)
    behind(clerk, "%s/%s/%s" % (path, lot[0], quoted(lot[1])), "lots", books.acts, found, PAGE, books.by_item(lot), **beside)


db = os.path.join(room, "books.db")
subprocess.run([lotd, "init", "--db", db, "--day", "2026-05-04"], check=True, timeout=60)
clerk = acts.Clerk(lotd, db, server.number("PORT", 18089))
house = acts.Warehouse(chance, clerk, FIRST)
for done in range(10, ACTS + 1, 10):
    house.works(done)
    all_lists(clerk, db)
clerk.ends()
print("lists: %d acts, %d answers as reckoned" % (ACTS, asked))
