"""What trials/reports.py compares the reports with: a year of a made-up wholesaler, whose acts are asked of a server one after another and
tallied here while they are made, by what was asked and by what the answers said. No row of the books is read."""
import collections
import datetime
import json

import server
from acts import gtin_of

STORE = ["A-%02d" % n for n in range(1, 13)]
PEOPLE = ["AB1", "CD2", "JK7"]
NAMES = ["Oat drink", "Rye bread", "Butter 'fine'", 'Jam, "red"', "Cheese <old> & young", "Milk; fresh", "=1+1 salt", "-Minus 5", "+Plus", "@at"]
CUSTOMERS = ["Corner Shop", "Harbour Cafe", "Mill Inn", "School, north", 'Hotel "Post"', "=cmd()", "-2+3", "+49 Bakery", "@Canteen", "Farm & Co <b>"]

Received = collections.namedtuple("Received", "day act gtin lot qty delivery line bin")
Shipped = collections.namedtuple("Shipped", "day act number order customer gtin lot qty")
Written = collections.namedtuple("Written", "day act who word gtin lot bin qty cause")
Counted = collections.namedtuple("Counted", "day gtin lot bin change")
Held = collections.namedtuple("Held", "day act gtin lot returned who word")
Did = collections.namedtuple("Did", "day who word units")


class Order:
    """An order, with what was ordered and shipped of each item."""

    def __init__(self, name, customer, day, act, who, lines, short, urgent):
        self.name, self.customer, self.day, self.act, self.who, self.lines, self.short = name, customer, day, act, who, lines, short
        self.urgent, self.shipped, self.cancelled, self.last = urgent, collections.Counter(), False, None

    def is_done(self):
        return all(self.shipped[gtin] == qty for gtin, qty in self.lines.items())

    def is_open(self):
        return not self.cancelled and not self.is_done()


class House:
    """The house on one port, and the tally of what was done in it."""

    def __init__(self, port, chance, day, items):
        self.port, self.chance, self.day, self.act, self.keys = port, chance, day, 0, 0
        self.numbers = collections.Counter()
        self.received, self.shipped, self.written, self.counted, self.held_acts, self.did = [], [], [], [], [], []
        self.orders, self.shipments = {}, 0
        self.items = {gtin_of(400000000000 + 137 * n): "%s %d" % (NAMES[n % len(NAMES)], n) for n in range(items)}
        self.least = dict.fromkeys(self.items, 0)
        self.life = {gtin: chance.choice([8, 14, 30, 60, 120, 300]) for gtin in self.items}
        self.pace = {gtin: chance.choice([0, 1, 3, 8, 20]) for gtin in self.items}
        self.expiry, self.came, self.stock, self.staged = {}, {}, collections.Counter(), collections.Counter()
        self.held, self.recalled = set(), set()

    # ---- asking

    def ask(self, text):
        status, body = server.ask(self.port, text)
        return status, json.loads(body) if body[:1] == "{" else body

    def get(self, path):
        return self.ask(server.get(path))

    def post(self, path, word, who="", units=None, **fields):
        """An act, which has to be done. `who` is the sign in front of the key."""
        if who:
            self.keys += 1
            fields["key"] = "%s-%d" % (who, self.keys)
        status, answer = self.ask(server.post(path, json.dumps({name.rstrip("_"): value for name, value in fields.items()})))
        if status != 200 or answer["act"] != self.act + 1:
            raise SystemExit("reports: %s %s: %s %s" % (path, fields, status, answer))
        self.act += 1
        self.did.append(Did(self.day, who, word, units))
        return answer

    def number(self, of):
        self.numbers[of] += 1
        return self.numbers[of]

    # ---- what is so

    def is_free(self, lot):
        """May be shipped today."""
        return lot not in self.recalled and lot not in self.held and (self.expiry[lot] - self.day).days >= self.least[lot[0]]

    def units(self, lot):
        return sum(qty for key, qty in self.stock.items() if key[:2] == lot) + sum(qty for key, qty in self.staged.items() if key[1:] == lot)

    def cause(self, lot, place, word, change):
        if change > 0:
            return "found by a count" if word == "COUNT" else "written on"
        if lot in self.recalled:
            return "recalled"
        if self.expiry[lot] < self.day:
            return "expired"
        if lot in self.held:
            return "held"
        if place in ("RETURNS", "Q-01"):
            return "out of a HOLD bin"
        return "missing at a count" if word == "COUNT" else "written off"

    def give_back(self, told):
        """What is staged of lots that may no longer be shipped goes to RETURNS: as many units as the answer said."""
        back = {key: qty for key, qty in self.staged.items() if qty and not self.is_free(key[1:])}
        for key, qty in back.items():
            self.stock[(*key[1:], "RETURNS")] += qty
            del self.staged[key]
        if sum(back.values()) != told:
            raise SystemExit("reports: %d units returned, and %d tallied" % (told, sum(back.values())))

    # ---- what is done

    def begin(self):
        for gtin, name in self.items.items():
            self.post("/items", "ITEM", "MM", gtin=gtin, name=name)
        for place in [*STORE, "Q-01"]:
            self.post("/bins", "BIN", "MM", bin=place, kind="HOLD" if place == "Q-01" else "STORE")
        for gtin in list(self.items)[::4]:
            self.least[gtin] = 3
            self.post("/leasts", "LEAST", "MM", gtin=gtin, days=3)

    def open_day(self, day):
        self.day = day
        self.give_back(self.post("/days", "OPENDAY", "MM", day=day.isoformat())["returned"])

    def lot_to_come(self, gtin):
        """A new lot, or one that is there, and its expiry."""
        own = [lot for lot in self.expiry if lot[0] == gtin and self.expiry[lot] >= self.day and lot not in self.recalled]
        if own and self.chance.random() < 0.1:
            return self.chance.choice(own)
        number = self.number("lot")
        lot = (gtin, self.chance.choice(["L%05d", "L%05d", "=%d+1", "+%d", "-%d", "%d/2", "A,%d", 'B"%d']) % number)
        self.expiry[lot] = self.day + datetime.timedelta(max(4, int(self.life[gtin] * self.chance.uniform(0.5, 1))))
        return lot

    def deliver(self, count):
        """A delivery of some lines, by labels or as a file."""
        name = "D-%d" % self.number("delivery")
        rows = []
        for line, gtin in enumerate(self.chance.sample(list(self.items), count), 1):
            lot = self.lot_to_come(gtin)
            rows.append((line, lot, self.chance.choice(STORE), self.chance.choice([12, 24, 48] if self.pace[gtin] < 8 else [96, 240])))
        is_file = self.chance.random() < 0.5
        if is_file:
            self.take_in(name, rows)
        for line, lot, place, qty in rows:
            if not is_file:
                label = "]C101%s17%s10%s" % (lot[0], self.expiry[lot].strftime("%y%m%d"), lot[1])
                self.post("/receipts", "RECEIVE", delivery=name, line=line, label=label, bin=place, qty=qty)
                self.came_in(self.act, name, line, lot, place, qty)

    def take_in(self, name, rows):
        """The rows as a goods-in file; each is an act."""
        text = "delivery,line,gtin,lot,expiry,bin,qty\n"
        for line, lot, place, qty in rows:
            text += '%s,%d,%s,"%s",%s,%s,%d\n' % (name, line, lot[0], lot[1].replace('"', '""'), self.expiry[lot].strftime("%y%m%d"), place, qty)
        answer = self.ask(server.post("/goodsin", text))
        if answer != (200, {"accepted": len(rows), "repeated": 0}):
            raise SystemExit("reports: %s: %s" % (text, answer))
        for row in rows:
            self.act += 1
            self.did.append(Did(self.day, "", "RECEIVE", None))
            self.came_in(self.act, name, *row)

    def came_in(self, act, name, line, lot, place, qty):
        self.came.setdefault(lot, act)
        self.stock[(*lot, place)] += qty
        self.received.append(Received(self.day, act, *lot, qty, name, line, place))

    def order(self, name, customer, lines, urgent):
        answer = self.post("/urgents" if urgent else "/orders", "URGENT" if urgent else "ORDER", "MM", order=name, customer=customer,
                           lines=[{"gtin": gtin, "qty": qty} for gtin, qty in lines.items()])
        self.orders[name] = Order(name, customer, self.day, self.act, "MM", lines, answer["short"], urgent)

    def cancel(self, name):
        self.post("/cancels", "CANCEL", "MM", order=name)
        self.orders[name].cancelled = True

    def take_order(self):
        """An order of some lines; some are cancelled, some never picked, some picked and shipped on another day."""
        number = self.number("order")
        name, customer = self.chance.choice(["S-%d", "S-%d", "-%d-1"]) % number, self.chance.choice(CUSTOMERS)
        sold = [gtin for gtin in self.items if self.pace[gtin]]
        lines = {gtin: self.chance.randint(1, 4 + 2 * self.pace[gtin]) for gtin in self.chance.sample(sold, self.chance.randint(1, min(4, len(sold))))}
        self.order(name, customer, lines, self.chance.random() < 0.08)
        fate = self.chance.random()
        if fate < 0.04:
            self.cancel(name)
        elif fate < 0.9:
            self.pick(name)
            if fate < 0.8:
                self.ship(name)

    def pick(self, name):
        """All that the pick list says, by one of the people; a little of it is put back, and picked again."""
        who = self.chance.choice(PEOPLE)
        gtin = lot = None
        left = 0
        for line in self.get("/picklists/" + name)[1].splitlines():
            word, *fields = line.split(" ")
            if word == "ITEM":
                gtin = fields[0]
            elif word == "TAKE":
                lot, left = (gtin, fields[0]), int(fields[2])
            elif word == "FROM" and left:
                qty = min(left, int(fields[1]))
                left -= qty
                self.pick_units(who, name, lot, fields[0], qty)

    def pick_units(self, who, name, lot, place, qty):
        where = {"order": name, "gtin": lot[0], "lot": lot[1], "bin": place}
        self.post("/picks", "PICK", who, qty, qty=qty, **where)
        if self.chance.random() < 0.03:
            self.post("/unpicks", "UNPICK", who, 1, qty=1, **where)
            self.post("/picks", "PICK", who, 1, qty=1, **where)
        self.stock[(*lot, place)] -= qty
        self.staged[(name, *lot)] += qty

    def ship(self, name):
        staged = {key: qty for key, qty in self.staged.items() if key[0] == name and qty}
        if not staged:
            return
        answer = self.post("/shipments", "SHIP", self.chance.choice(PEOPLE), order=name)
        self.shipments += 1
        order = self.orders[name]
        order.last = self.day
        if answer["shipment"] != self.shipments:
            raise SystemExit("reports: shipment %s, and not %d" % (answer, self.shipments))
        for (_, gtin, lot), qty in staged.items():
            self.shipped.append(Shipped(self.day, self.act, self.shipments, name, order.customer, gtin, lot, qty))
            order.shipped[gtin] += qty
            del self.staged[(name, gtin, lot)]

    def late_orders(self):
        """What was left: some are picked, some of the picked are shipped."""
        for name, order in list(self.orders.items()):
            if order.is_open() and self.chance.random() < 0.05:
                self.pick(name)
                if self.chance.random() < 0.6:
                    self.ship(name)

    def write(self, who, word, lot, place, change):
        if change:
            self.written.append(Written(self.day, self.act, who, word, *lot, place, change, self.cause(lot, place, word, change)))
            self.stock[(*lot, place)] += change

    def count(self, who, lot, place, change):
        found = max(0, self.stock[(*lot, place)] + change)
        change = found - self.stock[(*lot, place)]
        if self.post("/counts", "COUNT", who, gtin=lot[0], lot=lot[1], bin=place, qty=found)["change"] != change:
            raise SystemExit("reports: a count of %s in %s changed other than %d" % (lot, place, change))
        self.counted.append(Counted(self.day, *lot, place, change))
        self.write(who, "COUNT", lot, place, change)

    def adjust(self, who, lot, place, change):
        self.post("/adjustments", "ADJUST", who, gtin=lot[0], lot=lot[1], bin=place, change=change)
        self.write(who, "ADJUST", lot, place, change)

    def walk(self):
        """One of the people counts, breaks or moves something in a bin."""
        places = [key for key, qty in self.stock.items() if qty]
        if not places:
            return
        gtin, lot, place = self.chance.choice(places)
        who, fate, qty = self.chance.choice(PEOPLE), self.chance.random(), self.stock[gtin, lot, place]
        if fate < 0.6:
            self.count(who, (gtin, lot), place, 0 if self.chance.random() < 0.8 else self.chance.randint(-3, 2))
        elif fate < 0.75:
            self.adjust(who, (gtin, lot), place, -1)
        else:
            target, some = self.chance.choice([it for it in [*STORE, "Q-01"] if it != place]), self.chance.randint(1, qty)
            self.post("/moves", "MOVE", who, some, gtin=gtin, lot=lot, from_=place, to=target, qty=some)
            self.stock[gtin, lot, place] -= some
            self.stock[gtin, lot, target] += some

    def clear_away(self):
        """What expired or was recalled is written off, bin by bin."""
        for (gtin, lot, place), qty in sorted(self.stock.items()):
            if qty and (self.expiry[gtin, lot] < self.day or (gtin, lot) in self.recalled) and self.chance.random() < 0.8:
                self.adjust("JK7", (gtin, lot), place, -qty)

    def hold(self, lot):
        self.held.add(lot)
        self.of_lot("/holds", "HOLD", lot)

    def of_lot(self, path, word, lot):
        """A hold, a release or a recall."""
        answer = self.post(path, word, "JK7", gtin=lot[0], lot=lot[1])
        returned = answer.get("returned", 0)
        self.give_back(returned)
        self.held_acts.append(Held(self.day, self.act, *lot, returned, "JK7", word))

    def quality(self):
        """A lot is held now and then; later it is released, or recalled."""
        if self.chance.random() < 0.15:
            lots = sorted(lot for lot in self.expiry if self.is_free(lot) and self.units(lot))
            if lots:
                self.hold(self.chance.choice(lots))
        for lot in sorted(self.held):
            if self.chance.random() < 0.3:
                self.held.discard(lot)
                if self.chance.random() < 0.7:
                    self.of_lot("/releases", "RELEASE", lot)
                else:
                    self.recall(lot)

    def recall(self, lot):
        self.held.discard(lot)
        self.recalled.add(lot)
        self.of_lot("/recalls", "RECALL", lot)

    def corners(self):
        """What chance may leave out: an order that is cancelled once a part of it is shipped; a lot that is written on; one that is written off
        while it is held, and once it is released; one that is held, and one that was held and then recalled, with units in a STORE bin."""
        found = {}
        for (gtin, lot, place), qty in sorted(self.stock.items()):
            if qty > 1 and place in STORE and self.is_free((gtin, lot)) and gtin not in {one[0] for one in found}:
                found[gtin, lot] = place
        first, second, third, fourth = list(found)[:4]
        self.order("CUT", CUSTOMERS[0], {first[0]: 2}, True)
        lot = next(line.split(" ")[1] for line in self.get("/picklists/CUT")[1].splitlines() if line.startswith("TAKE"))
        place = next(at for (gtin, one, at), qty in sorted(self.stock.items()) if (gtin, one) == (first[0], lot) and qty and at in STORE)
        self.pick_units("AB1", "CUT", (first[0], lot), place, 1)
        self.ship("CUT")
        self.cancel("CUT")
        self.adjust("CD2", second, found[second], 2)
        self.hold(second)
        self.adjust("CD2", second, found[second], -1)
        self.held.discard(second)
        self.of_lot("/releases", "RELEASE", second)
        self.adjust("CD2", second, found[second], -1)
        self.hold(third)
        self.hold(fourth)
        self.recall(fourth)

    def works(self, number):
        """A business day."""
        if number:
            self.open_day(self.day + datetime.timedelta(3 if self.day.weekday() == 4 else 1))
        self.deliver(12 if number == 0 else 4)
        for _ in range(3):
            self.take_order()
        self.late_orders()
        for _ in range(3):
            self.walk()
        if number % 5 == 4:
            self.clear_away()
        self.quality()
