"""Random days' work for the trials: requests to lotd of every command, of which some are refused; the rows of the books; and
what their spellings say, so that acts can be asked for again."""
import datetime
import json
import os
import re
import shutil
import sqlite3

import server

# The tables in the order in which they are compared, each with the columns of its key.
TABLES = {
    "meta": ["id"],
    "items": ["gtin"],
    "bins": ["name"],
    "lots": ["gtin", "lot"],
    "recalls": ["gtin", "lot"],
    "stock": ["gtin", "lot", "bin"],
    "orders": ["ord"],
    "lines": ["ord", "gtin"],
    "staged": ["ord", "gtin", "lot"],
    "reserved": ["ord", "gtin", "lot"],
    "shipments": ["number"],
    "shiplines": ["number", "gtin", "lot"],
    "cards": ["gtin", "lot", "act"],
    "repeats": ["k"],
    "least": ["gtin"],
    "urgents": ["ord"],
}
SET_82 = "!\"%&'()*+,-./0123456789:;<=>?ABCDEFGHIJKLMNOPQRSTUVWXYZ_abcdefghijklmnopqrstuvwxyz"
NAME = "ABCDEFGHIJKLMNOPQRSTUVWXYZ0123456789-"
EPOCH = datetime.date(1970, 1, 1)


# The values

def gtin_of(number):
    """The GTIN with this number before its check digit."""
    digits = "%013d" % number
    total = sum(int(digit) * (3 if at % 2 == 0 else 1) for at, digit in enumerate(digits))
    return digits + str(-total % 10)


def is_gtin(text):
    return bool(re.fullmatch(r"[0-8][0-9]{13}", text)) and gtin_of(int(text[:13])) == text


def is_lot(text):
    return 1 <= len(text) <= 20 and set(text) <= set(SET_82)


def is_name(text):
    return 1 <= len(text) <= 20 and set(text) <= set(NAME)


def is_title(text):
    return bool(re.fullmatch(r"[!-~]([ -~]{0,38}[!-~])?", text))


def day_number(text):
    """The number of a day from 1951-01-01 to 2249-12-31, or None."""
    if not re.fullmatch(r"[0-9]{4}-[0-9]{2}-[0-9]{2}", text):
        return None
    try:
        number = (datetime.date.fromisoformat(text) - EPOCH).days
    except ValueError:
        return None
    return number if -6940 <= number <= 102_267 else None


def day_text(number):
    return (EPOCH + datetime.timedelta(number)).isoformat()


def is_business_day(number):
    return 10_957 <= number <= 84_005


def is_expiry(text):
    return day_number(text) is not None


def is_opening(text):
    number = day_number(text)
    return number is not None and is_business_day(number)


def is_number(least, most, text):
    return bool(re.fullmatch(r"0|-?[1-9][0-9]{0,7}", text)) and least <= int(text) <= most


def is_qty(text):
    return is_number(1, 1_000_000, text)


def is_counted(text):
    return is_number(0, 1_000_000, text)


def is_delta(text):
    return text != "0" and is_number(-1_000_000, 1_000_000, text)


def is_days(text):
    return is_number(0, 3_650, text)


def is_line(text):
    return is_number(1, 9_999, text)


# Spellings

OF_LOT = [is_gtin, is_lot]
FORMS = {
    "ITEM": [is_gtin, is_title],
    "BIN": [is_name, lambda text: text in ("STORE", "HOLD")],
    "RECEIVE": OF_LOT + [is_expiry, is_name, is_qty],
    "MOVE": OF_LOT + [is_name, is_name, is_qty],
    "COUNT": OF_LOT + [is_name, is_counted],
    "ADJUST": OF_LOT + [is_name, is_delta],
    "CANCEL": [is_name],
    "PICK": [is_name] + OF_LOT + [is_name, is_qty],
    "UNPICK": [is_name] + OF_LOT + [is_name, is_qty],
    "SHIP": [is_name],
    "HOLD": OF_LOT,
    "RELEASE": OF_LOT,
    "RECALL": OF_LOT,
    "OPENDAY": [is_opening],
    "LEAST": [is_gtin, is_days],
}
PATHS = {
    "ITEM": ("/items", "gtin name"),
    "BIN": ("/bins", "bin kind"),
    "MOVE": ("/moves", "gtin lot from to qty"),
    "COUNT": ("/counts", "gtin lot bin qty"),
    "ADJUST": ("/adjustments", "gtin lot bin change"),
    "CANCEL": ("/cancels", "order"),
    "PICK": ("/picks", "order gtin lot bin qty"),
    "UNPICK": ("/unpicks", "order gtin lot bin qty"),
    "SHIP": ("/shipments", "order"),
    "HOLD": ("/holds", "gtin lot"),
    "RELEASE": ("/releases", "gtin lot"),
    "RECALL": ("/recalls", "gtin lot"),
    "OPENDAY": ("/days", "day"),
    "LEAST": ("/leasts", "gtin days"),
}
NUMBERS = ("qty", "change", "days", "line")


def fields_of(spelling):
    """The word and the values of a spelling, or None where it spells no command."""
    try:
        word, *values = spelling.decode("ascii").split("\n")
    except UnicodeDecodeError:
        return None
    form = FORMS.get(word)
    if word in ("ORDER", "URGENT"):
        lines = len(values) - 2
        form = [is_name, is_title] + [is_gtin, is_qty] * (lines // 2) if lines % 2 == 0 and 1 <= lines // 2 <= 200 else None
    if form is None or len(form) != len(values) or not all(rule(value) for rule, value in zip(form, values)):
        return None
    return [word] + values


def key_of(text):
    """The fields of a request that are its key, or None where the text is none."""
    kind, *names = text.decode("latin-1").split("/")
    if kind == "K" and len(names) == 1 and is_name(names[0]):
        return {"key": names[0]}
    if kind == "D" and len(names) == 2 and is_name(names[0]) and is_line(names[1]):
        return {"delivery": names[0], "line": int(names[1])}
    return None


class Unasked(Exception):
    """No label says this: its century is another."""


def label_of(gtin, lot, expiry, today):
    """The label of a lot, on this day."""
    if not today - 49 * 365 < day_number(expiry) < today + 50 * 365:
        raise Unasked
    return "01%s17%s10%s" % (gtin, expiry[2:].replace("-", ""), lot)


def request_of(key, spelling, today):
    """The path and the body of the act's request, or None where there is no such command, or no such key for it."""
    fields, body = fields_of(spelling), key_of(key)
    if fields is None or body is None or ("delivery" in body) != (fields[0] == "RECEIVE"):
        return None
    word, *values = fields
    if word == "RECEIVE":
        gtin, lot, expiry, name, qty = values
        return "/receipts", {**body, "label": label_of(gtin, lot, expiry, today), "bin": name, "qty": int(qty)}
    if word in ("ORDER", "URGENT"):
        lines = [{"gtin": gtin, "qty": int(qty)} for gtin, qty in zip(values[2::2], values[3::2])]
        return ("/orders" if word == "ORDER" else "/urgents"), {**body, "order": values[0], "customer": values[1], "lines": lines}
    path, names = PATHS[word]
    return path, {**body, **{name: int(value) if name in NUMBERS else value for name, value in zip(names.split(), values)}}


# The rows

def copied(db, copy):
    """The file and its log."""
    for end in ("", "-wal", "-shm", "-journal"):
        if os.path.exists(copy + end):
            os.remove(copy + end)
        if end != "-shm" and os.path.exists(db + end):
            shutil.copyfile(db + end, copy + end)
    return copy


def rows_of(db, room):
    """Each row of each table that there is, by its key. The file is copied first, so that nothing of it is changed."""
    books = sqlite3.connect(copied(db, os.path.join(room, "rows.db")))
    books.text_factory = bytes
    try:
        names = [name.decode() for (name,) in books.execute("SELECT name FROM sqlite_schema WHERE type = 'table'")]
        found = {}
        for table in (name for name in TABLES if name in names):
            columns = [row[1].decode() for row in books.execute("PRAGMA table_info(%s)" % table)]
            rows = [dict(zip(columns, row)) for row in books.execute("SELECT * FROM " + table)]
            found[table] = {tuple(row[name] for name in TABLES[table]): row for row in rows}
        return found
    finally:
        books.close()


# The work

class Clerk:
    """Asks servers of lotd over one file, of which each answers so many requests and ends by itself."""

    def __init__(self, lotd, db, port, each=500):
        self.lotd, self.db, self.port, self.each = lotd, db, port, each
        self.serving, self.left = None, 0

    def ask(self, text):
        if self.left == 0:
            self.serving, self.left = server.Server(self.lotd, self.db, self.port, self.each), self.each
        answer = server.ask(self.port, text)
        self.left -= 1
        if self.left == 0:
            self.serving.ends()
            self.serving.end()
        return answer

    def ends(self):
        """The server ends by itself, behind what is still to be asked of it."""
        while self.left:
            self.ask(server.get("/orders/NONE"))

    def killed(self):
        """The server is ended by SIGKILL."""
        if self.left:
            self.serving.end()
            self.left = 0


# Those of a title, and what a reader may stumble over.
CHARACTERS = "ABCdef 019-_./%\"\\'&()"


class Warehouse:
    """Who asks for days' work at random, a receipt before the first of them ends. Commands of schemas above `schema` are left
    out."""

    # How often each is asked for.
    KINDS = {
        "receive": 26, "order": 14, "urgent": 4, "pick": 26, "unpick": 4, "ship": 9, "move": 4, "count": 4, "adjust": 4, "hold": 2, "release": 2,
        "recall": 1, "cancel": 3, "day": 1.2, "least": 0.8, "item": 0.7, "bin": 0.7, "again": 2, "file": 1, "nonsense": 4,
    }

    def __init__(self, chance, clerk, first, schema=4):
        self.chance, self.clerk, self.today = chance, clerk, first
        self.items, self.bins, self.lots, self.open, self.done, self.asked, self.named = [], ["RETURNS"], {}, [], [], [], 0
        self.kinds = {kind: weight for kind, weight in self.KINDS.items()
                      if not (kind == "least" and schema < 2 or kind == "urgent" and schema < 3)}
        for _ in range(4):
            self.item()
            self.bin()
        self.receive()

    def works(self, acts):
        """Asks until there are so many acts."""
        kinds, weights = list(self.kinds), list(self.kinds.values())
        while len(self.done) < acts:
            getattr(self, self.chance.choices(kinds, weights)[0])()

    def get(self, path):
        status, body = self.clerk.ask(server.get(path))
        return json.loads(body) if status == 200 else None

    def post(self, path, body):
        """Asks for this, and keeps it. Whether it is accepted."""
        text = body if isinstance(body, str) else json.dumps(body)
        status, answer = self.clerk.ask(server.post(path, text))
        self.asked.append((path, body, status, answer))
        told = json.loads(answer)
        if status == 200:
            news = [told["act"]] if "act" in told and told["act"] > len(self.done) else range(told.get("accepted", 0))
            self.done += [path] * len(news)
        return status == 200

    def key(self):
        self.named += 1
        return "K-%d" % self.named

    def name(self, letter):
        self.named += 1
        return "%s-%d" % (letter, self.named)

    def title(self):
        return self.chance.choice("AZaz") + "".join(self.chance.choices(CHARACTERS, k=self.chance.randint(0, 20))).rstrip() + "x"

    def lot_text(self):
        self.named += 1
        return "%d%s" % (self.named, "".join(self.chance.choices(SET_82, k=self.chance.randint(0, 6))))

    def few(self, most=40):
        return self.chance.randint(1, most)

    def known(self):
        """An item, and its lots as they stand."""
        gtin = self.chance.choice(self.items)
        return gtin, self.get("/stock/" + gtin)["lots"]

    def item(self):
        gtin = gtin_of(self.chance.randrange(9 * 10**12))
        if self.post("/items", {"key": self.key(), "gtin": gtin, "name": self.title()}):
            self.items.append(gtin)

    def bin(self):
        name = self.name(self.chance.choice("AB"))
        self.post("/bins", {"key": self.key(), "bin": name, "kind": "HOLD" if len(self.bins) % 4 == 3 else "STORE"})
        self.bins.append(name)

    def a_lot(self, gtin):
        """A new lot or one that came, with its expiry."""
        came = [lot for lot, expiry in self.lots.items() if lot[0] == gtin and self.today - 1 <= expiry]
        if came and self.chance.random() < 0.5:
            lot = self.chance.choice(came)
            return lot[1], self.lots[lot] + (self.chance.random() < 0.05)
        return self.lot_text(), self.today + self.chance.choice([0, 1, 2, 5, 10, 30, 90, 300])

    def receive(self):
        gtin = self.chance.choice(self.items)
        lot, expiry = self.a_lot(gtin)
        body = {"delivery": self.name("D"), "line": self.few(9_999), "label": label_of(gtin, lot, day_text(expiry), self.today),
                "bin": self.chance.choice(self.bins), "qty": self.few()}
        if self.post("/receipts", body):
            self.lots[gtin, lot] = expiry

    def file(self):
        rows = ["delivery,line,gtin,lot,expiry,bin,qty"]
        for line in range(self.few(5)):
            gtin = self.chance.choice(self.items)
            expiry = day_text(self.today + 60)[2:].replace("-", "")
            rows.append("%s,%d,%s,F%d,%s,%s,%d" % (self.name("D"), line + 1, gtin, self.named, expiry, self.chance.choice(self.bins), self.few()))
        self.post("/goodsin", "\n".join(rows) + "\n")

    def order(self, path="/orders"):
        name = self.name("S")
        gtins = self.chance.choices(self.items, k=self.few(3))
        lines = [{"gtin": gtin, "qty": self.few()} for gtin in gtins]
        if self.post(path, {"key": self.key(), "order": name, "customer": self.title(), "lines": lines}):
            self.open.append(name)

    def urgent(self):
        self.order("/urgents")

    def one_open(self):
        """An open order, as it stands."""
        if not self.open:
            return None
        name = self.chance.choice(self.open)
        found = self.get("/orders/" + name)
        if found["state"] != "OPEN":
            self.open.remove(name)
        return found

    def pick(self):
        order = self.one_open()
        lines = [(line["gtin"], row) for line in order["lines"] for row in line["reserved"]] if order else []
        if not lines:
            return
        gtin, row = self.chance.choice(lines)
        bins = [place for lot in self.get("/stock/" + gtin)["lots"] if lot["lot"] == row["lot"] for place in lot["bins"]]
        place = self.chance.choice(bins)
        qty = min(row["qty"], place["qty"])
        qty = qty if self.chance.random() < 0.7 else self.few(qty + 2)
        self.post("/picks", {"key": self.key(), "order": order["order"], "gtin": gtin, "lot": row["lot"], "bin": place["bin"], "qty": qty})

    def unpick(self):
        order = self.one_open()
        lines = [(line["gtin"], row) for line in order["lines"] for row in line["staged"]] if order else []
        if lines:
            gtin, row = self.chance.choice(lines)
            self.post("/unpicks", {"key": self.key(), "order": order["order"], "gtin": gtin, "lot": row["lot"],
                                   "bin": self.chance.choice(self.bins), "qty": self.few(row["qty"] + 1)})

    def ship(self):
        for _ in range(3):
            order = self.one_open()
            if order and any(line["staged"] for line in order["lines"]):
                break
        if order:
            self.post("/shipments", {"key": self.key(), "order": order["order"]})

    def cancel(self):
        if self.open:
            self.post("/cancels", {"key": self.key(), "order": self.chance.choice(self.open)})

    def a_place(self):
        """An item, one of its lots, a bin and the units there."""
        gtin, lots = self.known()
        places = [(lot["lot"], place["bin"], place["qty"]) for lot in lots for place in lot["bins"]]
        return (gtin,) + self.chance.choice(places) if places else None

    def move(self):
        if place := self.a_place():
            gtin, lot, name, qty = place
            self.post("/moves", {"key": self.key(), "gtin": gtin, "lot": lot, "from": name, "to": self.chance.choice(self.bins), "qty": self.few(qty + 1)})

    def count(self):
        if place := self.a_place():
            gtin, lot, name, qty = place
            name = name if self.chance.random() < 0.8 else self.chance.choice(self.bins)
            self.post("/counts", {"key": self.key(), "gtin": gtin, "lot": lot, "bin": name, "qty": max(0, qty + self.chance.randint(-3, 3))})

    def adjust(self):
        if place := self.a_place():
            gtin, lot, name, qty = place
            self.post("/adjustments", {"key": self.key(), "gtin": gtin, "lot": lot, "bin": name, "change": self.chance.choice([-qty, -1, 1, 2, -2])})

    def of_lot(self, path):
        gtin, lots = self.known()
        if lots:
            self.post(path, {"key": self.key(), "gtin": gtin, "lot": self.chance.choice(lots)["lot"]})

    def hold(self):
        self.of_lot("/holds")

    def release(self):
        gtin, lots = self.known()
        held = [lot["lot"] for lot in lots if lot["status"] == "HELD"]
        if held:
            self.post("/releases", {"key": self.key(), "gtin": gtin, "lot": self.chance.choice(held)})

    def recall(self):
        self.of_lot("/recalls")

    def day(self):
        day = self.today + self.chance.choice([1, 1, 1, 3])
        if self.post("/days", {"key": self.key(), "day": day_text(day)}):
            self.today = day

    def least(self):
        self.post("/leasts", {"key": self.key(), "gtin": self.chance.choice(self.items), "days": self.chance.choice([0, 1, 3, 7, 30])})

    def again(self):
        """A request comes again, or another one under its key."""
        path, body, status, answer = self.chance.choice(self.asked)
        if self.chance.random() < 0.5 and status == 200 and path != "/goodsin":
            told = self.clerk.ask(server.post(path, json.dumps(body)))
            if told != (status, answer):
                raise SystemExit("acts: %s %s again: %r" % (path, body, told))
        elif "key" in body:
            self.post("/bins", {"key": body["key"], "bin": self.name("B"), "kind": "STORE"})

    def nonsense(self):
        """What names something that is not there, or is too much."""
        gtin = self.chance.choice(self.items)
        path, body = self.chance.choice([
            ("/picks", {"order": "S-0", "gtin": gtin, "lot": "NONE", "bin": self.chance.choice(self.bins), "qty": 1}),
            ("/moves", {"gtin": gtin, "lot": "NONE", "from": "A-0", "to": "A-0", "qty": 1}),
            ("/shipments", {"order": "S-0"}),
            ("/releases", {"gtin": gtin, "lot": "NONE"}),
            ("/recalls", {"gtin": gtin_of(7), "lot": "NONE"}),
            ("/days", {"day": day_text(self.today)}),
            ("/items", {"gtin": gtin, "name": "Twice"}),
        ])
        self.post(path, {"key": self.key(), **body})
