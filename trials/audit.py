"""Audits of books by lotd: random histories of every command, of which some are refused; the same once they were read back
from a dump, in the tables of older schemas, and as a kill left them; all are sound. Then rows are changed at random by
python's sqlite3, and each change is told as it must be: the row, the table, the act, or that it means the same. What must be
told is reckoned here, from the rows; where acts were changed a server is asked for them again. No audit changes a row. Last
the history is held against the rows of the acts.
Needs the Rattle kit, and takes some minutes. ACTS (3000), SMALL (120), DAMAGES (400) and SEED (1) can be set. With `--big` there
are 100,000 acts in their place: how long an audit takes against the acts, and its memory against that of the open books.
Exit status 0 only if every line was as it must be.
"""
import os
import pty
import random
import re
import resource
import shutil
import sqlite3
import subprocess
import sys
import time

import acts
import server
from acts import TABLES, copied, day_number, day_text, rows_of

lotd, room, port = server.program(), server.room(), server.number("PORT", 18087)
seed = server.number("SEED", 1)
chance = random.Random(seed)
FIRST = day_number("2026-05-04")


def fails(what, expected, got):
    sys.exit("audit: seed %d: %s: expected %r, got %r" % (seed, what, expected, got))


def path_of(name):
    return os.path.join(room, name + ".db")


def run(*words):
    """The exit status, what is printed and what is told of a line of the program."""
    done = subprocess.run([lotd, *words], capture_output=True, timeout=600)
    return done.returncode, done.stdout.decode("latin-1"), done.stderr.decode("latin-1")


def bytes_of(db):
    with open(db, "rb") as file:
        return file.read()


def has_log(db):
    """Whether the log has a page that is not in the file yet. One in which nothing is left has a few bytes."""
    return os.path.exists(db + "-wal") and 512 < os.path.getsize(db + "-wal")


def audited(what, db, *words):
    """What an audit tells, in one line. The file is as it was, byte for byte; or each row is, where what its log holds is
    copied into the file as it is closed."""
    is_copied = has_log(db)
    before = rows_of(db, room) if is_copied else bytes_of(db)
    status, printed, told = run("audit", "--db", db, *words)
    if (rows_of(db, room) if is_copied else bytes_of(db)) != before:
        fails(what, "each row as it was" if is_copied else "the file as it was", "another")
    if status == 0 and told == "" and re.fullmatch(r"audited \d+ acts from \d{4}-\d\d-\d\d\n", printed):
        return printed[:-1]
    if status == 1 and printed == "" and re.fullmatch(r"lotd: [^\n]+\n", told):
        return told[len("lotd: "):-1]
    fails(what, "one line", (status, printed, told))


def is_sound(what, db, first, found=None):
    """The audit finds it sound, whether the day is given or not. `found` is the first day as the tables tell it."""
    count = len(rows_of(db, room)["repeats"])
    for day, words in [(found or first, []), (first, ["--day", day_text(first)])]:
        expected = "audited %d acts from %s" % (count, day_text(day))
        if (got := audited(what, db, *words)) != expected:
            fails(what, expected, got)
    return count


def made(name, count, schema=4, first=FIRST):
    """Books after so many random acts."""
    db = path_of(name)
    subprocess.run([lotd, "init", "--db", db, "--day", day_text(first)], check=True, timeout=60)
    clerk = acts.Clerk(lotd, db, port)
    warehouse = acts.Warehouse(chance, clerk, first, schema)
    warehouse.works(count)
    clerk.ends()
    return db, warehouse


# What must be told

DIGITS = 10**12
RULES = {
    "gtin": lambda value: acts.is_gtin(value.decode("latin-1")),
    "lot": lambda value: acts.is_lot(value.decode("latin-1")),
    "name": lambda value: acts.is_name(value.decode("latin-1")),
    "title": lambda value: acts.is_title(value.decode("latin-1")),
    "bin kind": lambda value: value in (b"STORE", b"HOLD"),
    "state": lambda value: value in (b"OPEN", b"DONE", b"CANCELLED"),
    "card kind": lambda value: value in (b"RECEIPT", b"WRITEON", b"WRITEOFF", b"SHIPMENT"),
    "day": acts.is_business_day,
    "expiry": lambda value: 10_957 <= value <= 102_267,
    "total": lambda value: 0 <= value <= DIGITS,
    "number": lambda value: 1 <= value <= DIGITS,
    "units": lambda value: 1 <= value <= 10**10,
    "rest": lambda value: 0 <= value <= 10**10,
    "ordered": lambda value: 1 <= value <= 10**6,
    "shipped": lambda value: 0 <= value <= 10**6,
    "change": lambda value: value != 0 and -(10**10) <= value <= 10**6,
    "days": lambda value: 0 <= value <= 3_650,
    "flag": lambda value: value in (0, 1),
    "note": lambda value: len(value) <= 25,
    "key": lambda value: len(value) <= 27,
    "reply": lambda value: len(value) <= 96,
    "spelling": lambda value: True,
    "id": lambda value: value == 1,
    "mark": lambda value: value == b"LOTSTOCK",
    "version": lambda value: value in (3, 4),
}
# The rule of each column.
COLUMNS = {
    "meta": {"id": "id", "mark": "mark", "version": "version", "day": "day", "acts": "total", "shipments": "total"},
    "items": {"gtin": "gtin", "name": "title"},
    "bins": {"name": "name", "kind": "bin kind"},
    "lots": {"gtin": "gtin", "lot": "lot", "expiry": "expiry", "came": "number", "held": "flag"},
    "recalls": {"gtin": "gtin", "lot": "lot", "act": "number"},
    "stock": {"gtin": "gtin", "lot": "lot", "bin": "name", "qty": "units"},
    "orders": {"ord": "name", "act": "number", "customer": "title", "state": "state"},
    "lines": {"ord": "name", "gtin": "gtin", "ordered": "ordered", "shipped": "shipped"},
    "staged": {"ord": "name", "gtin": "gtin", "lot": "lot", "qty": "ordered"},
    "reserved": {"ord": "name", "gtin": "gtin", "lot": "lot", "qty": "ordered"},
    "shipments": {"number": "number", "act": "number", "day": "day", "ord": "name"},
    "shiplines": {"number": "number", "gtin": "gtin", "lot": "lot", "qty": "ordered"},
    "cards": {"gtin": "gtin", "lot": "lot", "act": "number", "day": "day", "kind": "card kind", "note": "note", "qty": "change", "rest": "rest"},
    "repeats": {"k": "key", "act": "number", "spell": "spelling", "reply": "reply"},
    "least": {"gtin": "gtin", "days": "days"},
    "urgents": {"ord": "name", "act": "number"},
}


def are_typed(table, rows):
    return all(RULES[rule](row[column]) for row in rows.values() for column, rule in COLUMNS[table].items())


def differs(table, key):
    """What is told of a row. The key of an act may be any text: what is no visible ASCII in it is shown as `?`."""
    fields = [str(part) if isinstance(part, int) else re.sub(r"[^!-~]", "?", part.decode("latin-1")) for part in key]
    return "differs %s %s" % (table, " ".join(fields))


def first_day_of(rows):
    """The day on which the acts began, as the rows tell it; or what must be told in its place."""
    for act in sorted(rows["repeats"].values(), key=lambda act: act["act"]):
        fields = acts.fields_of(act["spell"])
        if fields is None:
            break
        if fields[0] == "OPENDAY":
            return max(day_number(fields[1]) - 1, day_number("2000-01-01")), None
        if fields[0] == "RECEIVE":
            if not are_typed("cards", rows["cards"]):
                return None, "differs cards"
            key = (fields[1].encode(), fields[2].encode(), act["act"])
            card = rows["cards"].get(key)
            return (card["day"], None) if card else (None, differs("cards", key))
    if not are_typed("meta", rows["meta"]):
        return None, "differs meta"
    return (rows["meta"][1,]["day"], None) if rows["meta"] else (None, "differs meta 1")


def done_again(rows, first):
    """The rows of the acts that are spelled, asked for again from this day on; or what must be told in their place."""
    ordered = sorted(rows["repeats"].values(), key=lambda act: act["act"])
    db, today = path_of("again"), first
    for end in ("", "-wal"):
        if os.path.exists(db + end):
            os.remove(db + end)
    subprocess.run([lotd, "init", "--db", db, "--day", day_text(first)], check=True, timeout=60)
    clerk = acts.Clerk(lotd, db, port, max(len(ordered), 1))
    try:
        for number, act in enumerate(ordered):
            request = acts.request_of(act["k"], act["spell"], today)
            if request is None:
                return None, "spelling act %d" % act["act"]
            status, answer = clerk.ask(server.post(request[0], acts.json.dumps(request[1])))
            if status != 200:
                return None, "%s act %d" % (answer.split('"')[3], act["act"])
            if request[0] == "/days":
                today = day_number(request[1]["day"])
    finally:
        clerk.killed()
    return rows_of(db, room), None


def numbers_told(rows):
    """What may be told where two acts have one number."""
    told, last = set(), None
    for act in sorted(rows.values(), key=lambda act: act["act"]):
        if last and last["act"] == act["act"]:
            told |= {differs("repeats", (row["k"],)) for row in rows.values() if row["act"] == act["act"]}
        if told:
            return told
        last = act
    return told


def compared(rows, again):
    """The first difference of the rows and those of the acts. Books of schema 3 have the newest tables."""
    for table in TABLES:
        mine, theirs = rows[table], again[table]
        if table == "meta":
            mine = {key: {**row, "version": row["version"] if row["version"] != 3 else 4} for key, row in mine.items()}
        if not are_typed(table, mine):
            return "differs " + table
        key = min((key for key in {*mine, *theirs} if mine.get(key) != theirs.get(key)), default=None)
        if key is not None:
            return differs(table, key)
    return None


class Sound:
    """Sound books, and what must be told of others that came of them."""

    def __init__(self, db, first):
        self.db, self.first, self.rows = db, first, rows_of(db, room)
        self.days = {}

    def acts_of(self, rows):
        return [(row["k"], row["act"], row["spell"]) for row in rows["repeats"].values()]

    def again(self, rows, first):
        if first == self.first and self.acts_of(rows) == self.acts_of(self.rows):
            return self.rows, None
        return done_again(rows, first)

    def told(self, rows, given):
        """What may be told of these rows."""
        if not are_typed("repeats", rows["repeats"]):
            return {"differs repeats"}
        if told := numbers_told(rows["repeats"]):
            return told
        first, told = (given, None) if given is not None else first_day_of(rows)
        if told:
            return {told}
        again, told = self.again(rows, first)
        told = told or compared(rows, again)
        return {told or "audited %d acts from %s" % (len(rows["repeats"]), day_text(first))}


# Damages

def other_text(value, rule):
    """Another text, which keeps the rule or not."""
    text = bytearray(value)
    if rule == "gtin" and chance.random() < 0.8:
        return acts.gtin_of(chance.randrange(9 * 10**12)).encode()
    if rule in ("bin kind", "state", "card kind") and chance.random() < 0.8:
        return chance.choice([b"STORE", b"HOLD", b"OPEN", b"DONE", b"CANCELLED", b"RECEIPT", b"WRITEON", b"WRITEOFF", b"SHIPMENT"])
    way = chance.randrange(6)
    if way == 0 or not text:
        text += chance.choice([b"1", b"A", b" ", b"\n", b"x" * 90])
    elif way == 1:
        del text[chance.randrange(len(text))]
    else:
        text[chance.randrange(len(text))] = chance.choice([48, 49, 50, 57, 65, 66, 88, 45, 47, 10, 32, chance.randrange(1, 256)])
    return bytes(text)


def other_number(value):
    return chance.choice([value + 1, value - 1, value + 1, value - 1, 0, 1, 2, -1, value + 7, DIGITS + 1, 10**10 + 1, 2**63 - 1, -2**63])


def other(value, rule):
    found = value
    while found == value:
        found = other_number(value) if isinstance(value, int) else other_text(value, rule)
    return found


def put(value):
    """How a value stands in a statement: texts are handed over as bytes, since they need not be of any encoding."""
    return "CAST(? AS TEXT)" if isinstance(value, bytes) else "?"


def where(table):
    return " AND ".join("%s = %s" % (name, "CAST(? AS TEXT)" if COLUMNS[table][name] not in ("id", "number") else "?") for name in TABLES[table])


def value_changed(books, table, key, row):
    column = chance.choice(list(COLUMNS[table]))
    value = other(row[column], COLUMNS[table][column])
    books.execute("UPDATE %s SET %s = %s WHERE %s" % (table, column, put(value), where(table)), (value, *key))
    return "%s.%s of %r is %r" % (table, column, key, value)


def row_dropped(books, table, key, row):
    books.execute("DELETE FROM %s WHERE %s" % (table, where(table)), key)
    return "%s without %r" % (table, key)


def row_copied(books, table, key, row):
    column = chance.choice(TABLES[table])
    copy = {**row, column: other(row[column], COLUMNS[table][column])}
    if table == "repeats" and chance.random() < 0.5:
        copy["act"] = other(row["act"], "number")
    values = list(copy.values())
    books.execute("INSERT INTO %s (%s) VALUES (%s)" % (table, ", ".join(copy), ", ".join(map(put, values))), values)
    return "%s with %r" % (table, tuple(copy[name] for name in TABLES[table]))


def byte_changed(books, table, key, row):
    """Of a spelling."""
    key, row = chance.choice(list(sound.rows["repeats"].items()))
    text = bytearray(row["spell"])
    at = chance.randrange(len(text))
    text[at] = chance.choice([byte for byte in (text[at] ^ 1, text[at] ^ 2, text[at] ^ 16, text[at] + 1, 48, 57, 10) if byte != text[at]])
    books.execute("UPDATE repeats SET spell = CAST(? AS TEXT) WHERE k = CAST(? AS TEXT)", (bytes(text), *key))
    return "spelling %r of %r" % (bytes(text), key)


def acts_exchanged(books, table, key, row):
    one, two = chance.sample(list(sound.rows["repeats"].values()), 2)
    if chance.random() < 0.5:
        two = next((act for act in sound.rows["repeats"].values() if act["act"] == one["act"] + 1), two)
    for act, number in ((one, two["act"]), (two, one["act"])):
        books.execute("UPDATE repeats SET act = ? WHERE k = CAST(? AS TEXT)", (number, act["k"]))
    return "acts %d and %d exchanged" % (one["act"], two["act"])


WAYS = [value_changed] * 6 + [row_dropped] * 2 + [row_copied] * 2 + [byte_changed] * 2 + [acts_exchanged]


def damaged(sound):
    """A copy of the books in which something is changed, and what was changed. A change that no table takes is none."""
    while True:
        db = copied(sound.db, path_of("damaged"))
        table = chance.choice([table for table in TABLES if sound.rows[table]])
        key, row = chance.choice(list(sound.rows[table].items()))
        books = sqlite3.connect(db, isolation_level=None)
        try:
            named = chance.choice(WAYS)(books, table, key, row)
        except (sqlite3.IntegrityError, OverflowError):
            continue
        finally:
            books.close()
        return db, named


# What `ready` or the row of `meta` refuses is told so.
FOREIGN = {"differs meta", "foreign books"}


def is_told(sound, db, named, counts):
    """The damaged books are told as they must be, whether the first day is given or not."""
    rows = rows_of(db, room)
    for given in (sound.first, None):
        try:
            expected = sound.told(rows, given)
        except acts.Unasked:
            counts["not reckoned"] = counts.get("not reckoned", 0) + 1
            audited(named, db)
            continue
        got = audited(named, db, *(["--day", day_text(given)] if given is not None else []))
        if got not in expected and not (expected == {"differs meta"} and got in FOREIGN):
            fails("%s (%s)" % (named, "day given" if given is not None else "no day"), expected, got)
        kind = re.sub(r"[UXSQKF]\d\d", "refused", got.split(" ")[0])
        counts[kind] = counts.get(kind, 0) + 1
    told_by_history(named, db, rows)


def told_by_history(what, db, rows):
    """The history of damaged books prints lines of the rows as they stand, up to one that is of no next act or spells none."""
    status, printed, told = run("history", "--db", db)
    ordered = list(rows["repeats"].values())
    left, lines = printed, 0
    for act in ordered:
        key, spelled = act["k"].decode("latin-1"), act["spell"].decode("latin-1").replace("\n", "\t")
        line = re.match(r"%d\t\d{4}-\d\d-\d\d%s" % (act["act"], re.escape("\t%s\t%s\n" % (key, spelled))), left)
        if line is None:
            break
        left, lines = left[line.end():], lines + 1
    are_all = all(act["act"] == at and acts.fields_of(act["spell"]) for at, act in enumerate(ordered, 1))
    is_whole = (status, told) == (0, "") and are_all and lines == len(ordered)
    if left or not is_whole and (status, told) != (1, "lotd: foreign books\n"):
        fails("%s: history" % what, (len(ordered), are_all), (status, lines, left[:200], told))


# Older books

def tables_of(books):
    """The names of the tables with the statements that make them, as they stand."""
    return books.execute("SELECT name, sql FROM sqlite_schema WHERE type = 'table' ORDER BY rowid").fetchall()


def read_back(db, new, schema=4, shuffled=False):
    """A file made of a dump of the books, with the tables of this schema."""
    for end in ("", "-wal", "-shm"):
        if os.path.exists(new + end):
            os.remove(new + end)
    old, books = sqlite3.connect(copied(db, path_of("dumped"))), sqlite3.connect(new)
    left_out = {1: ("least", "urgents"), 2: ("urgents",)}.get(schema, ())
    lines = [line for line in old.iterdump() if line.startswith("INSERT INTO")]
    if shuffled:
        chance.shuffle(lines)
    try:
        for name, text in tables_of(old):
            if name not in left_out:
                books.execute(text)
        for line in lines:
            if line.split('"')[1] not in left_out:
                books.execute(line)
        for (text,) in old.execute("SELECT sql FROM sqlite_schema WHERE type = 'index' AND sql IS NOT NULL"):
            books.execute(text)
        books.execute("UPDATE meta SET version = ?", (schema,))
        books.commit()
    finally:
        old.close()
        books.close()
    return new


def old_files():
    """The files of books of older schemas that the scenarios keep: a name, and a copy of the file."""
    data = os.path.join(server.TOP, "crates/scenarios/data")
    for name in sorted(os.listdir(data)):
        if name.endswith(".db"):
            db = path_of(name.removesuffix(".db"))
            shutil.copyfile(os.path.join(data, name), db)
            yield name.removesuffix(".db").replace("_", " "), db


# The history

def is_history(what, db, first):
    """The lines of the history, cut by tabs, are the rows of the acts, and their days those that were opened."""
    status, printed, told = run("history", "--db", db)
    if (status, told) != (0, ""):
        fails(what, (0, ""), (status, told))
    rows = sorted(rows_of(db, room)["repeats"].values(), key=lambda row: row["act"])
    day, expected = first, []
    for row in rows:
        word, *values = row["spell"].decode("latin-1").split("\n")
        day = day_number(values[0]) if word == "OPENDAY" else day
        expected.append([str(row["act"]), day_text(day), row["k"].decode(), word] + values)
    got = [line.split("\t") for line in printed.splitlines()]
    if got != expected:
        at = next((n for n, pair in enumerate(zip(expected, got)) if pair[0] != pair[1]), min(len(expected), len(got)))
        fails("%s, line %d" % (what, at + 1), expected[at:at + 1], got[at:at + 1])
    return len(got)


# What is tried

def many_acts():
    """Some thousand acts, their history, and the same books restored, in another order, with an index."""
    db, warehouse = made("many", server.number("ACTS", 3_000))
    count = is_sound("many acts", db, FIRST)
    refused = sum(status != 200 for _, _, status, _ in warehouse.asked)
    print("  %d acts, after %d requests that were refused: sound" % (count, refused), flush=True)
    words = {row["spell"].split(b"\n")[0] for row in rows_of(db, room)["repeats"].values()}
    if len(words) != len(acts.FORMS) + 2:
        fails("the commands", len(acts.FORMS) + 2, words)
    for day, code in [("2026-05-05", None), ("2026-05-03", None), ("2026-02-30", "value"), ("1999-12-31", "value")]:
        got = audited("another day", db, "--day", day)
        if got.startswith("audited") or code and got != code:
            fails("--day " + day, code or "a difference", got)
    is_sound("restored", read_back(db, path_of("restored")), FIRST)
    is_sound("rows in another order", read_back(db, path_of("shuffled"), shuffled=True), FIRST)
    print("  restored from a dump, and with rows in another order: sound")
    for text in ("CREATE INDEX staged_by_gtin ON staged (gtin)", "ANALYZE", "VACUUM", "CREATE VIEW few AS SELECT * FROM meta"):
        other = copied(db, path_of("tended"))
        with_sql(other, text)
        is_sound(text, other, FIRST)
    print("  tended by SQL, with an index more: sound")
    print("  a history of %d lines: cut by tabs they are the rows" % is_history("many acts", db, FIRST), flush=True)
    return db


def with_sql(db, text, values=()):
    books = sqlite3.connect(db, isolation_level=None)
    try:
        books.execute(text, values)
    finally:
        books.close()


def other_beginnings():
    """Where no receipt tells the day on which the acts began."""
    db = path_of("begun")
    subprocess.run([lotd, "init", "--db", db, "--day", day_text(FIRST)], check=True, timeout=60)
    is_sound("no acts", db, FIRST)
    clerk = acts.Clerk(lotd, db, port, 1)
    later = day_text(FIRST + 6)
    work = [("/items", {"key": "K-1", "gtin": acts.gtin_of(7), "name": "Oat drink"}), ("/days", {"key": "K-2", "day": later}),
            ("/bins", {"key": "K-3", "bin": "A-01", "kind": "STORE"}),
            ("/receipts", {"delivery": "D-1", "line": 1, "label": acts.label_of(acts.gtin_of(7), "L1", later, FIRST), "bin": "A-01", "qty": 5})]
    for count, (path, body) in enumerate(work, 1):
        status, answer = clerk.ask(server.post(path, acts.json.dumps(body)))
        if status != 200:
            fails(path, 200, answer)
        is_sound("%d acts" % count, db, FIRST, FIRST if count == 1 else FIRST + 5)
    if (got := audited("the day that was opened", db, "--day", later)) != "S10 act 2":
        fails("the day that was opened", "S10 act 2", got)
    print("  books of no acts, of no receipt, and with a day opened before one: sound")


def killed_books():
    """What is left of servers that were ended by SIGKILL within acts."""
    db, warehouse = made("killed", 100)
    for round in range(20):
        clerk = acts.Clerk(lotd, db, port, 10_000)
        warehouse.clerk = clerk
        warehouse.works(len(warehouse.done) + 5)
        peers = [server.asked(port, server.post("/bins", acts.json.dumps({"key": warehouse.key(), "bin": warehouse.name("C"), "kind": "STORE"}))) for _ in range(8)]
        time.sleep(chance.uniform(0, 0.004))
        clerk.killed()
        for peer in peers:
            peer.close()
        is_sound("killed, round %d" % (round + 1), db, FIRST)
        warehouse.done = list(rows_of(db, room)["repeats"])
    print("  20 files that a kill left: sound")


def older_books():
    """Books with the tables of each older schema, made of newer ones, and those that earlier programs made."""
    for schema in (1, 2, 3):
        db, _ = made("schema-%d" % schema, 400, schema)
        older = read_back(db, path_of("older-%d" % schema), schema)
        count = is_sound("schema %d" % schema, older, FIRST)
        first = next(iter(rows_of(older, room)["stock"]))
        with_sql(older, "UPDATE stock SET qty = qty + 1 WHERE gtin = CAST(? AS TEXT) AND lot = CAST(? AS TEXT) AND bin = CAST(? AS TEXT)", first)
        if (got := audited("schema %d" % schema, older)) != differs("stock", first):
            fails("schema %d, changed" % schema, differs("stock", first), got)
        print("  %d acts in the tables of schema %d: sound; a row changed: told" % (count, schema), flush=True)
    for name, db in old_files():
        is_sound(name, db, FIRST)
        print("  %s, as a test keeps it: sound" % name)


def damages():
    """Random changes of small books, each told as it is reckoned here."""
    global sound
    counts, done, wanted = {}, 0, server.number("DAMAGES", 400)
    while done < wanted:
        db, _ = made("small-%d" % done, server.number("SMALL", 120))
        sound = Sound(db, FIRST)
        is_sound("small books", db, FIRST)
        for _ in range(min(100, wanted - done)):
            is_told(sound, *damaged(sound), counts)
            done += 1
    print("  %d changes at random, each with the first day given and not: %s" % (done, ", ".join("%s %d" % pair for pair in sorted(counts.items()))), flush=True)


def each_byte():
    """Each byte of each spelling of small books is another: the act is told, or one behind it, or a row."""
    db, _ = made("bytes", 30)
    rows = rows_of(db, room)["repeats"]
    tried, spelled = 0, 0
    damaged = copied(db, path_of("damaged"))
    books = sqlite3.connect(damaged, isolation_level=None)
    for (key,), row in rows.items():
        for at in range(len(row["spell"])):
            text = bytearray(row["spell"])
            text[at] ^= 1
            books.execute("UPDATE repeats SET spell = CAST(? AS TEXT) WHERE k = CAST(? AS TEXT)", (bytes(text), key))
            books.close()
            got = audited("spelling %r" % bytes(text), damaged, "--day", day_text(FIRST))
            is_command = acts.fields_of(bytes(text)) is not None
            if is_command and not re.match(r"differs |[A-Z]\d\d act ", got) or not is_command and got != "spelling act %d" % row["act"]:
                fails("spelling %r of act %d" % (bytes(text), row["act"]), "a difference", got)
            tried, spelled = tried + 1, spelled + is_command
            books = sqlite3.connect(damaged, isolation_level=None)
        books.execute("UPDATE repeats SET spell = CAST(? AS TEXT) WHERE k = CAST(? AS TEXT)", (row["spell"], key))
    books.close()
    print("  %d bytes of spellings, each another: told, of which %d spell another command" % (tried, spelled), flush=True)


def filed(db, files, rows=1_000):
    """So many goods-in files are taken in by one server, of so many receipts of as many items; the seconds that they took, of
    the clock and of the processor."""
    subprocess.run([lotd, "init", "--db", db, "--day", day_text(FIRST)], check=True, timeout=60)
    items = [acts.gtin_of(number) for number in range(rows)]
    clerk = acts.Clerk(lotd, db, port, len(items) + 20)
    for number, gtin in enumerate(items):
        clerk.ask(server.post("/items", acts.json.dumps({"key": "I-%d" % number, "gtin": gtin, "name": "Item %d" % number})))
    for number in range(20):
        clerk.ask(server.post("/bins", acts.json.dumps({"key": "B-%d" % number, "bin": "A-%02d" % number, "kind": "STORE"})))
    clerk, used = acts.Clerk(lotd, db, port, files + 1), processor()
    clerk.ask(server.get("/orders/NONE"))
    begun = time.perf_counter()
    for delivery in range(files):
        lines = ["D-%d,%d,%s,L%d,%02d1130,A-%02d,5" % (delivery, line + 1, items[line], delivery // 5, 27 + delivery // 5 % 9, (line + delivery) % 20)
                 for line in range(rows)]
        text = "delivery,line,gtin,lot,expiry,bin,qty\n" + "\n".join(lines) + "\n"
        if (got := clerk.ask(server.post("/goodsin", text))) != (200, '{"accepted":%d,"repeated":0}' % rows):
            fails("a file", rows, got)
    took = time.perf_counter() - begun
    return took, processor() - used


def processor():
    """The seconds of the processor of all lines that have ended."""
    used = resource.getrusage(resource.RUSAGE_CHILDREN)
    return used.ru_utime + used.ru_stime


def on_a_terminal(*words):
    """The exit status of a line, what it prints, and the bytes that come to the terminal of its standard error."""
    ours, theirs = pty.openpty()
    process = subprocess.Popen([lotd, *words], stdout=subprocess.PIPE, stderr=theirs)
    os.close(theirs)
    shown = b""
    try:
        while more := os.read(ours, 65536):
            shown += more
    except OSError:
        pass
    os.close(ours)
    printed = process.stdout.read()
    process.stdout.close()
    return process.wait(timeout=60), printed.decode(), shown.decode()


def how_far():
    """On a terminal it is shown how many acts are done, in one line that is blanked in the end."""
    db = path_of("files")
    filed(db, 20)
    count = is_sound("files", db, FIRST)
    shown = "".join("\raudit: %d of %d acts" % (done, count) for done in range(10_000, count, 10_000)) + "\r" + " " * 56 + "\r"
    expected = 0, "audited %d acts from %s\n" % (count, day_text(FIRST)), shown
    if (got := on_a_terminal("audit", "--db", db)) != expected:
        fails("on a terminal", expected, got)
    print("  %d acts by files: sound; on a terminal it is shown how many are done" % count, flush=True)


# Runs a line and tells its peak. A process of its own, since a child has at least the peak of the process that starts it.
MEASURED = """
import os, sys
child = os.posix_spawn(sys.argv[2], sys.argv[2:], os.environ)
_, status, used = os.wait4(child, 0)
os.write(int(sys.argv[1]), b"%d %d %f" % (os.waitstatus_to_exitcode(status), used.ru_maxrss, used.ru_utime + used.ru_stime))
"""


def measured(*words):
    """The exit status, the peak of the memory in bytes, and the seconds, of the clock and of the processor."""
    ends, end = os.pipe()
    begun = time.perf_counter()
    subprocess.run([sys.executable, "-I", "-S", "-c", MEASURED, str(end), lotd, *words], stdout=subprocess.DEVNULL, stderr=subprocess.DEVNULL, pass_fds=(end,), check=True)
    took = time.perf_counter() - begun
    os.close(end)
    status, peak, used = os.read(ends, 64).split()
    os.close(ends)
    return int(status), int(peak) * 1024, took, float(used)


def big():
    """100,000 receipts, by files of 1,000 rows that one server takes in, and their audit. The times are those of the
    processor, which the machine's other work changes less."""
    db = path_of("big")
    took, used = filed(db, 100)
    size = os.path.getsize(db)
    print("  100,000 receipts in files of 1,000: %.1f s, %.1f of the processor; the file has %.1f MB" % (took, used, size / 1e6), flush=True)
    refused, opened, took, opening = measured("card", "--db", db, acts.gtin_of(0), "NONE")
    print("  opening: %.1f s, %.1f of the processor; peak %.1f MB" % (took, opening, opened / 1e6), flush=True)
    status, peak, took, auditing = measured("audit", "--db", db)
    print("  audit: %.1f s, %.1f of the processor, %.2f of the receipts'; peak %.1f MB, %.2f of the open books'"
          % (took, auditing, auditing / used, peak / 1e6, peak / opened), flush=True)
    told, history, took, printing = measured("history", "--db", db)
    print("  history: %.1f s, %.1f of the processor; peak %.1f MB" % (took, printing, history / 1e6))
    if (refused, status, told) != (1, 0, 0):
        fails("the lines", (1, 0, 0), (refused, status, told))
    if auditing > 1.2 * used:
        fails("the time", "at most 1.2 times %.1f s" % used, auditing)
    if peak > 3.3 * opened:
        fails("the memory", "at most 3.3 times %d" % opened, peak)


if "--big" in sys.argv[1:]:
    big()
    print("audit: 100,000 acts within the time and the memory that they may take")
else:
    many_acts()
    other_beginnings()
    killed_books()
    older_books()
    how_far()
    each_byte()
    damages()
    print("audit: all books were told as they must be, and none was changed")
