"""Real symbols: zint draws GS1-128, GS1 DataMatrix and GS1 QR Code of random GTINs, lots and expiries, in each order of the elements and at
business days from 2000 to 2199; ZXingReader, dmtxread and zbarimg read the pictures; and `lotd label` says of what they tell the item, the
lot and the expiry that were drawn. What ZXingReader tells is received too, at a server of that day, and stands in the stock as it was
drawn, or is expired. Of what readers are known to tell otherwise: a QR Code with `%` in the lot by ZXingReader (docs/LABELS.md); an FNC1 in
front as byte 29 is L13; the identifiers of the mode ECI are L01.
Needs the Rattle kit, zint, zxing-cpp-tools, dmtx-utils and zbar-tools (Debian). COUNT of each kind (60), SEED (11), PORT (18306). Takes half a
minute, with COUNT=320 three.
Exit status 0 only if all held, and 3 where one of these programs is not there.
"""
import calendar
import collections
import json
import os
import random
import re
import shutil
import subprocess
import sys

import server
from acts import SET_82, gtin_of
from server import Server

NEEDED = {"zint": "zint", "ZXingReader": "zxing-cpp-tools", "dmtxread": "dmtx-utils", "zbarimg": "zbar-tools"}
KINDS = {"]C1": ["-b", "16"], "]d2": ["-b", "71", "--gs1"], "]Q3": ["-b", "58", "--gs1"]}
DAYS = ["2026-05-04", "2026-12-31", "2000-01-01", "2049-06-15", "2050-01-01", "2080-01-01", "2100-02-28", "2199-12-31"]
ORDERS = ["01 10 17", "01 17 10", "10 01 17", "10 17 01", "17 01 10", "17 10 01"]
# Lots that look like something else.
HARD = ["%", "%%", "%1", "1%", "A%B", "(01)", "(17)260930", "01", "10", "17", "0" * 20, "12345678901234567890", "17260930", "0109506000134352", "a", "_", "?", "''", '"', "A-1/2",
        "-", ".", "..", "/", "%2F", "%1D", "<b>", "&amp;", "%" * 20, "'" * 20, "ab12CD", "1a2b3c4d5e6f7g8h9i0j", "=1+1", "+"]
GS = "\x1d"
tally = collections.Counter()
faults = []


# ---- what is drawn

def some_gtin(chance):
    """A GTIN-8, -12, -13 or -14, with zeros in front."""
    length = chance.choice([7, 11, 12, 13, 13])
    return gtin_of(chance.randrange(10 ** length) % (9 * 10 ** 12))


def some_lot(chance):
    if chance.random() < 0.2:
        return chance.choice(HARD)
    letters = chance.choice(["0123456789", "0123456789ABCDEFGHIJKLMNOPQRSTUVWXYZ", "0123456789ABCDEFGHIJKLMNOPQRSTUVWXYZ-./%+*", SET_82, SET_82])
    return "".join(chance.choice(letters) for _ in range(chance.choice([1, 2, 3, 5, 8, 10, 12, 19, 20, 20])))


def expiry_of(digits, year):
    """The day of six digits YYMMDD as read in this year (GS1 General Specifications, section 7.12): the year with these last digits that is
    49 years before to 50 years after; day 00 is the last of the month. None where there is no such day."""
    found = next(it for it in range(year - 49, year + 51) if it % 100 == int(digits[:2]))
    month, day = int(digits[2:4]), int(digits[4:])
    if not 1 <= month <= 12:
        return None
    last = calendar.monthrange(found, month)[1]
    return "%04d-%02d-%02d" % (found, month, day or last) if day <= last else None


def some_expiry(chance, year):
    """Six digits, and the day that they are. Years at the edge of the century, ends of months and day 00 are frequent."""
    while True:
        near = [year % 100, (year + 50) % 100, (year + 51) % 100, (year - 49) % 100, 0, 24, 99]
        digits = "%02d%02d%02d" % (chance.choice([*near, chance.randrange(100)]), chance.choice([2, chance.randint(1, 12)]), chance.choice([0, 28, 29, 30, 31, chance.randint(1, 31)]))
        if expiry_of(digits, year):
            return digits, expiry_of(digits, year)


class Symbol:
    """A picture, and what is in it."""

    def __init__(self, chance, room, kind, number):
        self.kind, self.day = kind, DAYS[number % len(DAYS)]
        self.gtin, self.lot = some_gtin(chance), some_lot(chance)
        digits, self.expiry = some_expiry(chance, int(self.day[:4]))
        elements = [(ai, {"01": self.gtin, "10": self.lot, "17": digits}[ai]) for ai in ORDERS[number % 6].split()]
        self.text = "".join(ai + data + (GS if ai == "10" and at < 2 else "") for at, (ai, data) in enumerate(elements))
        self.file = "%s/%s-%d.png" % (room, kind[1:], number)
        run = subprocess.run(["zint", *KINDS[kind], "--scale", chance.choice("234"), "--quietzones", "--notext", "-o", self.file,
                              "-d", "".join("[%s]%s" % element for element in elements)], capture_output=True, text=True, timeout=60)
        if run.returncode > 1 or not os.path.exists(self.file):
            sys.exit("symbols: zint draws no %s: %s" % (elements, run.stderr))

    def said(self):
        """What `lotd label` says of it."""
        return "GTIN %s\nLOT %s\nEXPIRY %s\n" % (self.gtin, self.lot, self.expiry)

    def is_misread(self):
        """ZXingReader 1.4 takes a `%` of a GS1 QR Code for FNC1."""
        return self.kind == "]Q3" and "%" in self.lot

    def __repr__(self):
        return "%s %r at %s" % (self.kind, self.text, self.day)


# ---- what is read

def output(*words):
    return subprocess.run(words, capture_output=True, timeout=120).stdout


def by_zxing(symbol):
    """The identifier and the text, without and with ECI; None where nothing is read. Some clean pictures end ZXingReader 1.4 unless they are not scaled."""
    for words in ([], ["-noscale"]):
        told = output("ZXingReader", *words, symbol.file).decode("latin-1")
        found = {name: re.search("^%s: +(.+)$" % name, told, re.M) for name in ("Identifier", "Bytes", "BytesECI")}
        if found["Bytes"]:
            text = bytes.fromhex(found["Bytes"][1]).decode("latin-1")
            return found["Identifier"][1], text, found["BytesECI"] and bytes.fromhex(found["BytesECI"][1]).decode("latin-1")
    return None


def by_another(symbol):
    """By dmtxread, which tells the FNC1 in front as byte 29, or zbarimg, which does not tell it."""
    if symbol.kind == "]d2":
        return output("dmtxread", "-n", "-N1", "-G29", "-m2000", symbol.file).decode("latin-1").rstrip("\n")
    return output("zbarimg", "-q", "--raw", symbol.file).decode("utf-8")[:-1]


# ---- what lotd says

def label(day, text):
    """What `lotd label` prints, or tells."""
    run = subprocess.run([lotd, "label", "--day", day, "--", text.encode("latin-1")], capture_output=True, timeout=60)
    return (run.stdout if run.returncode == 0 else run.stderr).decode("latin-1")


def is_told(what, symbol, text, expected):
    got = label(symbol.day, text)
    tally[what] += 1
    if got != expected:
        faults.append("%s: %s: %r: expected %r, got %r" % (what, symbol, text, expected, got))


def look(symbol):
    """Reads a symbol by two readers. Gives what ZXingReader tells, or None where it tells something else."""
    read = by_zxing(symbol)
    other = by_another(symbol)
    if symbol.kind == "]d2":
        is_told("by dmtxread, FNC1 in front as ]d2", symbol, "]d2" + other[1:], symbol.said())
        is_told("by dmtxread, FNC1 in front as byte 29: L13", symbol, other, "lotd: L13\n")
    else:
        is_told("%s by zbarimg, without an identifier" % symbol.kind, symbol, other, symbol.said())
    if read is None:
        faults.append("ZXingReader does not read %s" % symbol)
        return None
    identifier, text, eci = read
    if symbol.is_misread() and text != symbol.text:
        tally["]Q3 with % in the lot, misread by ZXingReader"] += 1
        tally[".. and read as a label of another lot"] += label(symbol.day, identifier + text).startswith("GTIN")
        return None
    is_told("%s by ZXingReader" % symbol.kind, symbol, identifier + text, symbol.said())
    if eci and symbol.kind != "]C1":
        is_told("%s by ZXingReader in the mode ECI: L01" % symbol.kind, symbol, eci, "lotd: L01\n")
    return identifier + text


def receive(room, day, texts):
    """What was read of one business day comes in, and stands in the stock as it was drawn."""
    db = "%s/%s.db" % (room, day)
    subprocess.run([lotd, "init", "--db", db, "--day", day], check=True)
    with Server(lotd, db, PORT, 100_000):
        def ask(text):
            status, body = server.ask(PORT, text)
            return status, json.loads(body)

        ask(server.post("/bins", '{"key":"B","bin":"A-01","kind":"STORE"}'))
        for line, (symbol, text) in enumerate(texts, 1):
            ask(server.post("/items", json.dumps({"key": "I-%d" % line, "gtin": symbol.gtin, "name": "Item"})))
            status, answer = ask(server.post("/receipts", json.dumps({"delivery": "D", "line": line, "label": text, "bin": "A-01", "qty": 7})))
            if symbol.expiry < day:
                tally["receipts of what expired: S02"] += 1
                if (status, answer) != (409, {"code": "S02"}):
                    faults.append("the receipt of %s: %s" % (symbol, answer))
                continue
            tally["receipts kept as drawn"] += 1
            _, stock = ask(server.get("/stock/" + symbol.gtin))
            if (symbol.lot, symbol.expiry) not in {(lot["lot"], lot["expiry"]) for lot in stock.get("lots", [])}:
                faults.append("the receipt of %s: %s, and the stock is %s" % (symbol, answer, stock))


def main():
    chance, room, count = random.Random(server.number("SEED", 11)), server.room(), server.number("COUNT", 60)
    by_day = collections.defaultdict(list)
    for kind in KINDS:
        for number in range(count):
            symbol = Symbol(chance, room, kind, number)
            text = look(symbol)
            if text is not None:
                by_day[symbol.day].append((symbol, text))
        print("  %d of %s drawn and read" % (count, kind), flush=True)
    for day, texts in sorted(by_day.items()):
        receive(room, day, texts)
    for what, number in sorted(tally.items()):
        print("  %5d %s" % (number, what))
    for fault in faults[:20]:
        print("symbols: " + fault, file=sys.stderr)
    if faults:
        sys.exit("symbols: %d faults" % len(faults))
    print("symbols: each symbol that is read rightly says what was drawn")


missing = [package for name, package in NEEDED.items() if shutil.which(name) is None]
if missing:
    print("symbols: on Debian: apt-get install %s" % " ".join(missing), file=sys.stderr)
    sys.exit(3)
PORT = server.number("PORT", 18306)
lotd = server.program()
main()
