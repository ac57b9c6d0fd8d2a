"""Files that are no books, and books with rows that no books have. Files with another mark or schema number, without a
table or with a column of another name are refused by every line of the program and stay as they are, byte for byte.
For each column of each table there are rows outside its values, made by SQL: every request that reads such a row is
answered 503 W91 and every line `lotd: foreign books`, and every row of every table stays as it was. A column by which
rows are only sought is never read so: there every answer is that of sound books, and the row stays too. An audit reads
every row: it tells the table of each such row, and changes nothing.
Needs the Rattle kit, and takes about a minute. Exit status 0 only if every answer was the expected one.
"""
import datetime
import os
import shutil
import sqlite3
import subprocess
import sys

import server
from acts import TABLES

lotd, room, port = server.program(), server.room(), server.number("PORT", 18083)
OATS, RYE = "09506000134352", "04012345000016"
HEADER = "delivery,line,gtin,lot,expiry,bin,qty\n"
FOREIGN = (503, '{"code":"W91"}')
REFUSED = (1, b"", b"lotd: foreign books\n")

# What the warehouse did: three lots, one of them held; two orders, one shipped in part; a recall, and units staged; days that
# the lots of an item must have left, and an urgent order.
FIRST_RECEIPT = '{"delivery":"D-1","line":1,"label":"01%s1726063010L1","bin":"A-01","qty":10}' % OATS
WORK = [
    ("/items", '{"key":"K-1","gtin":"%s","name":"Oat drink"}' % OATS),
    ("/items", '{"key":"K-2","gtin":"%s","name":"Rye bread"}' % RYE),
    ("/bins", '{"key":"K-3","bin":"A-01","kind":"STORE"}'),
    ("/bins", '{"key":"K-4","bin":"Q-01","kind":"HOLD"}'),
    ("/receipts", FIRST_RECEIPT),
    ("/receipts", '{"delivery":"D-1","line":2,"label":"01%s1726053110L2","bin":"A-01","qty":10}' % OATS),
    ("/receipts", '{"delivery":"D-1","line":3,"label":"01%s1726073110L4","bin":"A-01","qty":4}' % OATS),
    ("/holds", '{"key":"K-8","gtin":"%s","lot":"L4"}' % OATS),
    ("/orders", '{"key":"K-9","order":"S-1","customer":"Corner Shop","lines":[{"gtin":"%s","qty":12}]}' % OATS),
    ("/picks", '{"key":"K-10","order":"S-1","gtin":"%s","lot":"L2","bin":"A-01","qty":7}' % OATS),
    ("/shipments", '{"key":"K-11","order":"S-1"}'),
    ("/orders", '{"key":"K-12","order":"S-2","customer":"Harbour Cafe","lines":[{"gtin":"%s","qty":8}]}' % OATS),
    ("/recalls", '{"key":"K-13","gtin":"%s","lot":"L2"}' % OATS),
    ("/picks", '{"key":"K-14","order":"S-1","gtin":"%s","lot":"L1","bin":"A-01","qty":2}' % OATS),
    ("/leasts", '{"key":"K-15","gtin":"%s","days":1}' % OATS),
    ("/urgents", '{"key":"K-16","order":"S-9","customer":"Mill Inn","lines":[{"gtin":"%s","qty":1}]}' % OATS),
]


def of_lot(key, lot, more):
    return '{"key":"%s","gtin":"%s","lot":"%s"%s}' % (key, OATS, lot, more)


# What is asked, by name: a path, and a body where it is posted. Each is answered 200 on the books as they are.
ASKED = {
    "item": ("/items", '{"key":"N-1","gtin":"00000000000017","name":"Pea soup"}'),
    "bin": ("/bins", '{"key":"N-2","bin":"B-01","kind":"STORE"}'),
    "receipt": ("/receipts", '{"delivery":"D-3","line":1,"label":"01%s1726083110L3","bin":"A-01","qty":5}' % OATS),
    "move": ("/moves", of_lot("N-4", "L1", ',"from":"A-01","to":"Q-01","qty":1')),
    "count": ("/counts", of_lot("N-5", "L1", ',"bin":"A-01","qty":9')),
    "adjustment": ("/adjustments", of_lot("N-6", "L1", ',"bin":"A-01","change":-1')),
    "order": ("/orders", '{"key":"N-7","order":"S-3","customer":"Corner Shop","lines":[{"gtin":"%s","qty":1}]}' % OATS),
    "urgent": ("/urgents", '{"key":"N-16","order":"S-4","customer":"Mill Inn","lines":[{"gtin":"%s","qty":1}]}' % OATS),
    "cancel": ("/cancels", '{"key":"N-8","order":"S-2"}'),
    "pick": ("/picks", of_lot("N-9", "L1", ',"order":"S-2","bin":"A-01","qty":1')),
    "unpick": ("/unpicks", of_lot("N-10", "L1", ',"order":"S-1","bin":"A-01","qty":1')),
    "shipment": ("/shipments", '{"key":"N-11","order":"S-1"}'),
    "hold": ("/holds", of_lot("N-12", "L1", "")),
    "release": ("/releases", of_lot("N-13", "L4", "")),
    "recall": ("/recalls", of_lot("N-14", "L1", "")),
    "least": ("/leasts", '{"key":"N-17","gtin":"%s","days":2}' % OATS),
    "day": ("/days", '{"key":"N-15","day":"2026-05-05"}'),
    "goodsin": ("/goodsin", HEADER + "D-4,1,%s,L5,261130,A-01,1\n" % OATS),
    "repeat": ("/receipts", FIRST_RECEIPT),
    "show order": ("/orders/S-1", None),
    "show urgent": ("/orders/S-9", None),
    "show stock": ("/stock/" + OATS, None),
    "pick list": ("/picklists/S-1", None),
    "shortages": ("/shortages/" + OATS, None),
    "card": ("/cards/%s/L1" % OATS, None),
    "notice": ("/notices/%s/L2" % OATS, None),
}
FILE = os.path.join(room, "goods.csv")
LINES = {
    "goodsin": ["import", "--db", "DB", FILE],
    "card": ["card", "--db", "DB", OATS, "L1"],
    "notice": ["notice", "--db", "DB", OATS, "L2"],
}


def fails(what, expected, got):
    sys.exit("foreign: %s: expected %r, got %r" % (what, expected, got))


def rows_of(db):
    """Each row of each table. The file is copied first, so that nothing of it is changed."""
    copy = os.path.join(room, "rows.db")
    shutil.copyfile(db, copy)
    books = sqlite3.connect(copy)
    books.text_factory = bytes
    try:
        return {table: sorted(books.execute("SELECT * FROM " + table).fetchall()) for table in TABLES}
    finally:
        books.close()


def bytes_of(db):
    with open(db, "rb") as file:
        return file.read()


def fresh(books):
    """A copy of the file, alone in its place."""
    db = os.path.join(room, "copy.db")
    for end in ("-wal", "-shm", "-journal"):
        if os.path.exists(db + end):
            os.remove(db + end)
    shutil.copyfile(books, db)
    return db


def changed(books, text, values=()):
    """A copy of the books on which this SQL was run."""
    db = fresh(books)
    with_sql = sqlite3.connect(db, isolation_level=None)
    try:
        with_sql.execute(text, values)
    finally:
        with_sql.close()
    return db


def asks(path, body):
    return server.ask(port, server.get(path) if body is None else server.post(path, body))


def served(db, exchanges):
    """The answers of one server, which ends by itself."""
    with server.Server(lotd, db, port, len(exchanges)) as serving:
        answers = [asks(path, body) for path, body in exchanges]
        serving.ends()
        return answers


def run(words, db):
    """A line of the program on this file: its status, and what it prints."""
    done = subprocess.run([lotd] + [db if word == "DB" else word for word in words], capture_output=True, timeout=60)
    return done.returncode, done.stdout, done.stderr


def day(text):
    return (datetime.date.fromisoformat(text) - datetime.date(1970, 1, 1)).days


# What is outside the values of a column.
GTINS = [b"", b"09506000134353", b"9506000134352", b"095060001343520", b"0950600013435X", b"\xff"]
LOTS = [b"", b"L" * 21, b"L 1", b"L#1", b"L\x1d", b"L\xff"]
NAMES = [b"", b"A" * 21, b"a-01", b"A 01", b"A_01", b"A\x00"]
TITLES = [b"", b"x" * 41, b" x", b"x ", b"x\x7fy", b"x\x1fy", b"x\xc3\xa4"]
EXPIRIES = [day("2000-01-01") - 1, day("2249-12-31") + 1, -(2**63), 2**63 - 1]
DAYS = [day("2000-01-01") - 1, day("2199-12-31") + 1, -(2**63), 2**63 - 1]
TOTALS = [-1, 10**12 + 1, -(2**63), 2**63 - 1]
ACTS = [0] + TOTALS
REST = [-1, 10**10 + 1, -(2**63), 2**63 - 1]
UNITS = [0] + REST
UNITS_SHIPPED = [-1, 10**6 + 1, -(2**63), 2**63 - 1]
ORDERED = [0] + UNITS_SHIPPED
CHANGES = [0, 10**6 + 1, -(10**10) - 1, -(2**63), 2**63 - 1]
DAYS_LEFT = [-1, 3651, -(2**63), 2**63 - 1]
FLAGS = [-1, 2]
KINDS = [b"", b"store", b"STORE ", b"RETURNS"]
STATES = [b"", b"open", b"OPEN\x00", b"SHIPPED"]
POSTINGS = [b"", b"receipt", b"RECEIPTS", b"MOVE"]

# Who reads what. An act on the oats but a pick or a shipment reads all rows of the item, its lots that have units or are
# named, and the bins and open orders concerned; a pick what it names, its item's recalls and the bins of its lot; a shipment
# its order, and what is staged of the item; what is reserved for an order a pick of it alone. An order is shown by its own
# rows, and what the items of its lines ask for. The first act reads the open orders, each with its row of `urgents`.
PLANNED = "receipt move count adjustment order urgent cancel unpick hold release recall least day goodsin".split()
NAMED = PLANNED + ["pick"]
ACTS_ON_ITEM = NAMED + ["shipment"]
ACTS_ON_ORDER = ["unpick", "shipment"]
ALL_ACTS = ["item", "bin"] + ACTS_ON_ITEM
SHOWN_ORDER = ["show order", "pick list"]
OF_ITEM = ["show stock", "shortages", "card", "notice", "item"] + NAMED
OF_LOT = SHOWN_ORDER + ["show stock", "card"] + NAMED
OF_RECALLS = ["show stock", "notice"] + NAMED
OF_STOCK = ["show stock"] + PLANNED
OF_ORDERS = ["shortages"] + ALL_ACTS
OF_LINES = SHOWN_ORDER + ["shortages"] + ACTS_ON_ITEM
OF_RESERVED = ["show stock", "shortages"]
OF_STAGED = OF_STOCK + ["shortages", "shipment"]

# Where rows are only sought by a column, with the sound value of a request or of another row.
SOUGHT = "rows are sought by it, and none is sought by such a value"

# Where no request reads them.
UNREAD = "a notice reads the lines of the card, and an audit compares the two"

SHIPPED = "kind = 'SHIPMENT'"

# Each column of each table: the row that has a bad value there (a copy of it, for a column of the key), the values,
# and who reads it; without a reader, why nobody does. The row of `meta` is read as the books are opened.
COLUMNS = [
    ("meta", "id", "1", [0, 2, -1], "opening", None),
    ("meta", "mark", "1", [b"", b"LOTSTOCk", b"LOTSTOCK ", b"\xff"], "opening", None),
    ("meta", "version", "1", [0, 1, 2, 5, -1], "opening", None),
    ("meta", "day", "1", DAYS, "opening", None),
    ("meta", "acts", "1", TOTALS, "opening", None),
    ("meta", "shipments", "1", TOTALS, "opening", None),
    ("items", "gtin", "gtin = '%s'" % RYE, GTINS, ["item"], None),
    ("items", "name", "gtin = '%s'" % OATS, TITLES, OF_ITEM, None),
    ("bins", "name", "name = 'Q-01'", NAMES, ["bin"], None),
    ("bins", "kind", "name = 'A-01'", KINDS, SHOWN_ORDER + ["bin"] + NAMED, None),
    ("lots", "gtin", "lot = 'L1'", GTINS, ["day"], None),
    ("lots", "lot", "lot = 'L1'", LOTS, ["show stock", "day"], None),
    ("lots", "expiry", "lot = 'L1'", EXPIRIES, OF_LOT, None),
    ("lots", "came", "lot = 'L1'", ACTS, OF_LOT, None),
    ("lots", "held", "lot = 'L1'", FLAGS, OF_LOT, None),
    ("recalls", "gtin", "lot = 'L2'", GTINS, [], SOUGHT),
    ("recalls", "lot", "lot = 'L2'", LOTS, OF_RECALLS, None),
    ("recalls", "act", "lot = 'L2'", ACTS, OF_RECALLS, None),
    ("stock", "gtin", "lot = 'L2'", GTINS, [], SOUGHT),
    ("stock", "lot", "lot = 'L2'", LOTS, OF_STOCK, None),
    ("stock", "bin", "lot = 'L2'", NAMES, OF_STOCK + ["notice"], None),
    ("stock", "qty", "lot = 'L2'", UNITS, OF_STOCK + ["notice"], None),
    ("orders", "ord", "ord = 'S-1'", NAMES, OF_ORDERS, None),
    ("orders", "act", "ord = 'S-1'", ACTS, OF_ORDERS + SHOWN_ORDER + ["notice"], None),
    ("orders", "customer", "ord = 'S-1'", TITLES, OF_ORDERS + SHOWN_ORDER + ["notice"], None),
    ("orders", "state", "ord = 'S-1'", STATES, SHOWN_ORDER + ["notice"] + ACTS_ON_ORDER, None),
    ("lines", "ord", "ord = 'S-1'", NAMES, [], SOUGHT),
    ("lines", "gtin", "ord = 'S-1'", GTINS, SHOWN_ORDER + ACTS_ON_ORDER, None),
    ("lines", "ordered", "ord = 'S-1'", ORDERED, OF_LINES, None),
    ("lines", "shipped", "ord = 'S-1'", UNITS_SHIPPED, OF_LINES, None),
    ("staged", "ord", "ord = 'S-1'", NAMES, OF_STAGED, None),
    ("staged", "gtin", "ord = 'S-1'", GTINS, SHOWN_ORDER + ["day"], None),
    ("staged", "lot", "ord = 'S-1'", LOTS, SHOWN_ORDER + OF_STAGED, None),
    ("staged", "qty", "ord = 'S-1'", ORDERED, SHOWN_ORDER + OF_STAGED, None),
    ("reserved", "ord", "ord = 'S-1'", NAMES, OF_RESERVED, None),
    ("reserved", "gtin", "ord = 'S-1'", GTINS, SHOWN_ORDER, None),
    ("reserved", "lot", "ord = 'S-1'", LOTS, SHOWN_ORDER + OF_RESERVED, None),
    ("reserved", "qty", "ord = 'S-1'", ORDERED, SHOWN_ORDER + OF_RESERVED, None),
    ("reserved", "qty", "ord = 'S-2'", ORDERED, ["pick"] + OF_RESERVED, None),
    ("shipments", "number", "1", ACTS, [], SOUGHT),
    ("shipments", "act", "1", ACTS, ["notice"], None),
    ("shipments", "day", "1", DAYS, ["notice"], None),
    ("shipments", "ord", "1", NAMES, ["notice"], None),
    ("shiplines", "number", "1", ACTS, [], UNREAD),
    ("shiplines", "gtin", "1", GTINS, [], UNREAD),
    ("shiplines", "lot", "1", LOTS, [], UNREAD),
    ("shiplines", "qty", "1", ORDERED, [], UNREAD),
    ("cards", "gtin", "lot = 'L1'", GTINS, [], SOUGHT),
    ("cards", "lot", "lot = 'L1'", LOTS, [], SOUGHT),
    ("cards", "act", "lot = 'L1'", ACTS, ["card"], None),
    ("cards", "day", "lot = 'L1'", DAYS, ["card"], None),
    ("cards", "kind", "lot = 'L1'", POSTINGS, ["card"], None),
    ("cards", "note", "lot = 'L1'", [b"D" * 26, b"D" * 1000], ["card"], None),
    ("cards", "qty", "lot = 'L1'", CHANGES, ["card"], None),
    ("cards", "rest", "lot = 'L1'", REST, ["card"], None),
    ("cards", "act", SHIPPED, [10**12 + 1, 2**63 - 1, -1, -(2**63)], ["notice"], None),
    ("cards", "day", SHIPPED, DAYS, ["notice"], None),
    ("cards", "kind", SHIPPED, POSTINGS, ["notice"], None),
    ("cards", "note", SHIPPED, [b"", b"A-01", b"1000000000001", b"18446744073709551616", b"D" * 26], ["notice"], None),
    ("cards", "qty", SHIPPED, [1, 2**63 - 1], ["notice"], None),
    ("cards", "rest", SHIPPED, REST, ["notice"], None),
    ("repeats", "k", "k = 'D/D-1/1'", [b"", b"K", b"D" * 28, b"\xff"], [], SOUGHT),
    ("repeats", "act", "k = 'D/D-1/1'", ACTS, ["repeat"], None),
    ("repeats", "spell", "k = 'D/D-1/1'", [], [], "any text is a value of it"),
    ("repeats", "reply", "k = 'D/D-1/1'", [b"x" * 97, b"x" * 1000], ["repeat"], None),
    ("least", "gtin", "gtin = '%s'" % OATS, GTINS, ["day"], None),
    ("least", "days", "gtin = '%s'" % OATS, DAYS_LEFT, ["show stock"] + SHOWN_ORDER + NAMED, None),
    ("urgents", "ord", "ord = 'S-9'", NAMES, [], SOUGHT),
    ("urgents", "act", "ord = 'S-9'", ACTS, ["show urgent"] + OF_ORDERS, None),
]


def columns_of(table):
    """The names of the columns, each with whether it is one of the key."""
    books = sqlite3.connect(sound_books)
    try:
        return [(row[1], row[5] > 0) for row in books.execute("PRAGMA table_info(%s)" % table)]
    finally:
        books.close()


def outside(table, column, where, value):
    """Books that have this value there, in a copy of the row for a column of the key."""
    put = "CAST(? AS TEXT)" if isinstance(value, bytes) else "?"
    columns = columns_of(table)
    if (column, True) in columns and table != "meta":
        row = ", ".join(put if name == column else name for name, _ in columns)
        return changed(sound_books, "INSERT INTO %s SELECT %s FROM %s WHERE %s LIMIT 1" % (table, row, table, where), [value])
    return changed(sound_books, "UPDATE %s SET %s = %s WHERE %s" % (table, column, put, where), [value])


def opens_nowhere(name, db):
    """Each line of the program refuses the file, which stays as it was, byte for byte."""
    was = bytes_of(db)
    serve = ["serve", "--db", "DB", "--port", str(port), "--max", "1"]
    for words in [serve] + list(LINES.values()):
        got = run(words, db)
        if got != REFUSED:
            fails("%s: lotd %s" % (name, words[0]), REFUSED, got)
        if bytes_of(db) != was:
            fails("%s: lotd %s" % (name, words[0]), "the file as it was", "another")


def is_told(name, db, table, key=None):
    """An audit tells this table, and the key where one is given, and the file stays as it was, byte for byte."""
    was = bytes_of(db)
    status, printed, fault = run(["audit", "--db", "DB"], db)
    want = b"lotd: differs %s" % table.encode()
    if (status, printed) != (1, b"") or not fault.startswith(want) or fault.count(b"\n") != 1:
        fails("%s: lotd audit" % name, want, (status, printed, fault))
    if key is not None and fault != b"%s %s\n" % (want, key.encode()):
        fails("%s: lotd audit" % name, key, fault)
    if bytes_of(db) != was:
        fails("%s: lotd audit" % name, "the file as it was", "another")


def is_sound(name, db, acts):
    audit = server.audited(lotd, db)
    if audit != "audited %d acts from 2026-05-04\n" % acts:
        fails("%s: lotd audit" % name, "%d acts" % acts, audit)


def init_refuses(name, db):
    was = bytes_of(db)
    got = run(["init", "--db", "DB", "--day", "2026-05-04"], db)
    if got != REFUSED or bytes_of(db) != was:
        fails(name, REFUSED, got)


def is_read(name, db, readers):
    """Every one of these requests, and the lines that read the same, find the row; every row stays as it was."""
    was = rows_of(db)
    for reader, got in zip(readers, served(db, [ASKED[reader] for reader in readers])):
        if got != FOREIGN:
            fails("%s: %s" % (name, reader), FOREIGN, got)
    for reader in [reader for reader in readers if reader in LINES]:
        status, told, fault = run(LINES[reader], db)
        if (status, fault) != (1, REFUSED[2]) or not printed[reader].startswith(told) or (reader == "goodsin" and told):
            fails("%s: lotd %s" % (name, LINES[reader][0]), REFUSED, (status, told, fault))
    if rows_of(db) != was:
        fails(name, was, rows_of(db))


def is_passed_over(name, db, table):
    """All that is asked is answered as on the sound books, and their rows are those with this one, which stays."""
    found = rows_of(db)
    more = [row for row in found[table] if row not in sound_rows[table]]
    gone = [row for row in sound_rows[table] if row not in found[table]]
    if served(db, list(ASKED.values())) != day_answers:
        fails(name, "the answers of sound books", "others")
    want = {**day_rows, table: sorted([row for row in day_rows[table] if row not in gone] + more)}
    if len(more) != 1 or rows_of(db) != want:
        fails(name, want, rows_of(db))


def check(table, column, where, value, readers):
    name = "%s.%s = %r" % (table, column, value if isinstance(value, int) else value[:50])
    db = outside(table, column, where, value)
    is_told(name, db, table)
    if readers == "opening":
        opens_nowhere(name, db)
    elif readers:
        is_read(name, db, readers)
    else:
        is_passed_over(name, db, table)


# The books, and what is answered and printed of them: each by itself, and then all in turn.
sound_books = os.path.join(room, "sound.db")
subprocess.run([lotd, "init", "--db", sound_books, "--day", "2026-05-04"], check=True, timeout=60)
for (path, body), answer in zip(WORK, served(sound_books, WORK)):
    if answer[0] != 200:
        fails(body, 200, answer)
with open(FILE, "w") as goods:
    goods.write(ASKED["goodsin"][1])
sound_rows = rows_of(sound_books)
is_sound("the books", sound_books, len(WORK))
for name, ask in ASKED.items():
    answer = served(fresh(sound_books), [ask])[0]
    if answer[0] != 200:
        fails(name, 200, answer)
printed = {}
for name, words in LINES.items():
    status, printed[name], fault = run(words, fresh(sound_books))
    if (status, fault) != (0, b""):
        fails(name, 0, (status, fault))
day_books = fresh(sound_books)
day_answers = served(day_books, list(ASKED.values()))
day_rows = rows_of(day_books)
is_sound("the day", day_books, day_rows["meta"][0][4])

# No books at all, or not these.
renamed = 0
for table in TABLES:
    opens_nowhere("without " + table, changed(sound_books, "DROP TABLE " + table))
    for column, _ in columns_of(table):
        opens_nowhere("%s.%s renamed" % (table, column), changed(sound_books, "ALTER TABLE %s RENAME COLUMN %s TO other" % (table, column)))
        renamed += 1
opens_nowhere("meta without a row", changed(sound_books, "DELETE FROM meta"))
is_told("meta without a row", changed(sound_books, "DELETE FROM meta"), "meta", "1")
empty = os.path.join(room, "empty.db")
open(empty, "wb").close()
opens_nowhere("an empty database", changed(empty, "PRAGMA user_version = 1"))
init_refuses("a table items alone", changed(empty, "CREATE TABLE items (gtin TEXT NOT NULL, name TEXT NOT NULL, PRIMARY KEY (gtin)) STRICT"))
init_refuses("books", fresh(sound_books))
print("  %d tables, each missing, and %d columns, each renamed: refused, the file as it was" % (len(TABLES), renamed))

listed = [(table, column) for table, column, *_ in COLUMNS]
for table in TABLES:
    for column, _ in columns_of(table):
        if (table, column) not in listed:
            fails("the columns", "%s.%s" % (table, column), "not among them")
read = passed = 0
for table, column, where, values, readers, why in COLUMNS:
    for value in values:
        check(table, column, where, value, readers)
        read, passed = (read + 1, passed) if readers else (read, passed + 1)
    if not readers:
        print("  no request reads such a row of %s.%s: %s" % (table, column, why))
print("  %d rows outside their values, each told by an audit: %d refused where they are read, every row as it was; %d that nothing reads" % (read + passed, read, passed))

# Rows that contradict one another, as no act leaves them, who meets it, and what an audit tells.
CONTRADICTIONS = [
    ("a line of a shipment that is gone", "DELETE FROM shipments", ["notice"], "shipments", "1"),
    ("a shipment of an order that is gone", "UPDATE shipments SET ord = 'S-8'", ["notice"], "shipments", "1"),
]
for name, text, readers, table, key in CONTRADICTIONS:
    is_told(name, changed(sound_books, text), table, key)
    is_read(name, changed(sound_books, text), readers)
print("  %d contradictions: refused where they are met, every row as it was" % len(CONTRADICTIONS))
print("foreign: every file and every row was told as it must be, and none was changed")
