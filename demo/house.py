"""A house to look at, for `demo/page.py`: 40 items, 200 lots, some that expired, one held, one recalled, and 60 open orders, with two
urgent ones, some that are short and some that are picked in part. All are asked of a running server, by the requests that scanners
and desks send; the days are round the one that is given. What is random has a seed, so each house of one day is the same.
"""
import datetime
import http.client
import json
import random

# Each item, and for how many days it keeps.
FRESH = "Whole milk 1 l, Yoghurt 500 g, Cream 200 ml, Mozzarella 125 g, Cottage cheese 200 g, Leaf salad 150 g, Ravioli 250 g, Hummus 200 g"
CHILLED = "Gouda 4 kg, Butter 250 g, Feta 200 g, Brie 1 kg, Salami 1 kg, Ham 500 g, Smoked salmon 100 g, Eggs 30, Tofu 400 g, Orange juice 1 l"
DRY = ("Oat drink 1 l, Spaghetti 5 kg, Penne 5 kg, Basmati rice 10 kg, Wheat flour 25 kg, Sugar 10 kg, Salt 10 kg, Chick peas 2.5 kg, "
       "Red lentils 5 kg, Tomatoes 2.5 kg, Tomato paste 800 g, Olive oil 5 l, Sunflower oil 10 l, White vinegar 5 l, Mustard 1 kg, "
       "Honey 1 kg, Strawberry jam 3 kg, Dark chocolate 1 kg, Espresso beans 1 kg, Black tea 100, Sparkling water 12, Cola 24")
KEEPS = {name: days for names, days in ((FRESH, (9, 24)), (CHILLED, (20, 70)), (DRY, (90, 420))) for name in names.split(", ")}
CUSTOMERS = ("Corner Shop, Mill Inn, Harbour Cafe, Station Kiosk, Old Town Bakery, Hotel Bellevue, City Hospital, North School, "
             "Green Market, Park Restaurant, Bistro Lune, Castle Catering, River Deli, University Canteen, Sunrise Hostel").split(", ")
BINS = [f"{row}-{number:02}" for row in "ABC" for number in range(1, 9)]
HELD, RECALLED, SHORT = "Brie 1 kg", "Gouda 4 kg", "Smoked salmon 100 g"


def gtin_of(number):
    """The GTIN of an item, under the prefix that GS1 keeps for examples."""
    digits = f"09506000{1000 + 37 * number:05}"
    return f"{digits}{-sum(int(digit) * (1 + 2 * (at % 2 == 0)) for at, digit in enumerate(digits)) % 10}"


GTIN = {name: gtin_of(number) for number, name in enumerate(KEEPS)}


def first_day(today):
    """The day that the books begin with."""
    return today - datetime.timedelta(24)


class House:
    """What is asked of the server on this port, and what there is to look at then."""

    def __init__(self, port, today):
        self.port, self.today, self.now = port, today, first_day(today)
        self.random = random.Random(7)
        self.lots = self.orders = self.asked = 0
        self.opened, self.shown = None, {}

    def ask(self, method, path, body=None):
        connection = http.client.HTTPConnection("127.0.0.1", self.port, timeout=60)
        connection.request(method, path, body)
        answer = connection.getresponse()
        text = answer.read().decode()
        connection.close()
        if answer.status != 200:
            raise RuntimeError(f"{method} {path} {body}: {answer.status} {text}")
        return text

    def act(self, path, **fields):
        self.asked += 1
        return json.loads(self.ask("POST", path, json.dumps({"key": f"DEMO-{self.asked}", **fields})))

    def at(self, days):
        """Opens the day that is so many days from today."""
        day = self.today + datetime.timedelta(days)
        self.opened, self.now = self.act("/days", day=str(day)), day

    def names(self):
        for name, gtin in GTIN.items():
            self.act("/items", gtin=gtin, name=name)
        for bin in BINS:
            self.act("/bins", bin=bin, kind="STORE")
        self.act("/bins", bin="QUAR-1", kind="HOLD")

    def row(self, name, keeps, bin=None, qty=None):
        self.lots += 1
        expiry = self.now + datetime.timedelta(keeps)
        return [GTIN[name], f"L{self.lots:04}", f"{expiry:%y%m%d}", bin or self.random.choice(BINS), str(qty or 12 * self.random.randint(3, 20))]

    def delivery(self, rows):
        """A goods-in file of these rows."""
        name = f"D-{self.now:%m%d}"
        lines = [f"{name},{line},{','.join(row)}" for line, row in enumerate(rows, 1)]
        self.ask("POST", "/goodsin", "\n".join(["delivery,line,gtin,lot,expiry,bin,qty", *lines, ""]))

    def lots_of_any(self, fresh, others):
        """Rows of so many lots of fresh items, and of others."""
        fresh_ones = FRESH.split(", ")
        names = [name for name in KEEPS if name not in (RECALLED, SHORT, *fresh_ones)]
        chosen = self.random.choices(fresh_ones, k=fresh) + self.random.choices(names, k=others)
        return [self.row(name, self.random.randint(*KEEPS[name])) for name in chosen]

    def order(self, lines, route="/orders"):
        self.orders += 1
        order = f"S-{self.orders:03}"
        lines = [{"gtin": GTIN[name], "qty": qty} for name, qty in lines]
        self.act(route, order=order, customer=self.random.choice(CUSTOMERS), lines=lines)
        return order

    def any_lines(self, but=""):
        names = [name for name in KEEPS if name not in (RECALLED, SHORT) and name not in but.split(", ")]
        return [(name, 2 * self.random.randint(2, 18)) for name in self.random.sample(names, self.random.randint(1, 5))]

    def pick(self, order, most=99):
        """Picks so many of the takes of the order's pick list."""
        gtin = lot = None
        for line in self.ask("GET", f"/picklists/{order}").splitlines():
            words = line.split()
            if words[0] == "ITEM":
                gtin = words[1]
            elif words[0] == "TAKE":
                lot, left = words[1], int(words[3])
            elif words[0] == "FROM" and left and most:
                qty = min(left, int(words[2]))
                self.act("/picks", order=order, gtin=gtin, lot=lot, bin=words[1], qty=qty)
                left, most = left - qty, most - 1

    def ship(self, lines):
        order = self.order(lines)
        self.pick(order)
        self.act("/shipments", order=order)


    def fill(self):
        """Fills the books of the server, which begin on the first day; says what was done on each day."""
        self.names()
        self.delivery(self.lots_of_any(2, 58))
        yield f"{self.now}: {len(GTIN)} items, {len(BINS) + 1} bins, a delivery of 60 lots"

        self.at(-14)
        recalled = self.row(RECALLED, 60, "B-03", 90)
        self.delivery([recalled, [*recalled[:3], "C-05", "30"], self.row(SHORT, 30, "A-02", 24), *self.lots_of_any(6, 52)])
        for _ in range(5):
            self.ship(self.any_lines(but=FRESH))
        yield f"{self.now}: a delivery of 60 lots, 5 orders shipped"

        self.at(-5)
        self.delivery(self.lots_of_any(20, 30))
        for qty in (24, 12, 18):
            self.ship([(RECALLED, qty)])
        for _ in range(16):
            self.order(self.any_lines())
        yield f"{self.now}: a delivery of 50 lots, 3 orders shipped, 16 taken"

        self.at(0)
        self.delivery(self.lots_of_any(16, 14))
        self.act("/leasts", gtin=GTIN["Yoghurt 500 g"], days=5)
        both = self.order([(RECALLED, 20), ("Olive oil 5 l", 4)])
        self.shown["short"] = self.order([(SHORT, 20), ("Feta 200 g", 6)])
        for _ in range(40):
            self.order(self.any_lines())
        self.shown["urgent"] = self.order([(SHORT, 16), ("Butter 250 g", 10)], "/urgents")
        self.order([("Eggs 30", 12)], "/urgents")
        for order in ("S-009", "S-010", "S-011", "S-012", both):
            self.pick(order, 2)
        yield f"{self.now}: a delivery of 30 lots, 44 orders taken, 2 of them urgent, 5 picked in part"

        held = json.loads(self.ask("GET", f"/stock/{GTIN[HELD]}"))["lots"][-1]["lot"]
        self.act("/holds", gtin=GTIN[HELD], lot=held)
        returned = self.act("/recalls", gtin=GTIN[RECALLED], lot=recalled[1])["returned"]
        self.shown["recalled"] = f"lot/{GTIN[RECALLED]}/{recalled[1]}"
        yield f"{self.now}: {held} of {HELD} held; {recalled[1]} of {RECALLED} recalled, {returned} units of it went from a stage to RETURNS"
