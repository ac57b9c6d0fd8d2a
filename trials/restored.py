"""What an administrator does to the file of the books between two runs of lotd: restored from a dump, analysed, packed,
moved to pages of another size, with an index more. The books open, tell what they told before, and go on, and
then every row is that of the acts; with a partial index they are foreign, and without it again as they were. Needs the Rattle kit and the sqlite3 tool, and takes
some seconds. Exit status 0 only if every answer was the expected one and every row was kept.
"""
import os
import shutil
import subprocess
import sys

import server
from acts import TABLES

lotd, room, port = server.program(), server.room(), server.number("PORT", 18082)
OATS = "09506000134352"

# What the warehouse did: two lots, two orders, one of them shipped, and a recall.
BEFORE = [
    ("/items", '{"key":"K-1","gtin":"%s","name":"Oat drink"}' % OATS, '{"act":1}'),
    ("/bins", '{"key":"K-2","bin":"A-01","kind":"STORE"}', '{"act":2}'),
    ("/receipts", '{"delivery":"D-1","line":1,"label":"01%s1726063010L1","bin":"A-01","qty":10}' % OATS, '{"act":3}'),
    ("/receipts", '{"delivery":"D-1","line":2,"label":"01%s1726053110L2","bin":"A-01","qty":10}' % OATS, '{"act":4}'),
    ("/orders", '{"key":"K-5","order":"S-1","customer":"Corner Shop","lines":[{"gtin":"%s","qty":12}]}' % OATS, '{"act":5,"short":0}'),
    ("/picks", '{"key":"K-6","order":"S-1","gtin":"%s","lot":"L2","bin":"A-01","qty":7}' % OATS, '{"act":6}'),
    ("/shipments", '{"key":"K-7","order":"S-1"}', '{"act":7,"shipment":1}'),
    ("/orders", '{"key":"K-8","order":"S-2","customer":"Harbour Cafe","lines":[{"gtin":"%s","qty":8}]}' % OATS, '{"act":8,"short":0}'),
    ("/recalls", '{"key":"K-9","gtin":"%s","lot":"L2"}' % OATS, '{"act":9,"returned":0}'),
]

# What the books tell then: 5 of 12 units are still owed to S-1, which comes first, and S-2 is short of 3.
TOLD = [
    ("/orders/S-2", '{"class":"NORMAL","customer":"Harbour Cafe","lines":[{"gtin":"%s","ordered":8,"reserved":[{"lot":"L1","qty":5}],"shipped":0,"short":3,"staged":[]}],"order":"S-2","state":"OPEN"}' % OATS),
    ("/shortages/" + OATS, "SHORTAGES %s Oat drink\nSHORT S-2 3 Harbour Cafe\nTOTAL 3\n" % OATS),
    ("/notices/%s/L2" % OATS, "RECALL NOTICE %s Oat drink\nLOT L2 EXPIRY 2026-05-31\nBIN A-01 3\nSHIPMENT 1 2026-05-04 7 S-1 Corner Shop\nTOTAL BINS 3 SHIPPED 7\n" % OATS),
]

# How they go on: a request that came before, a key that was used, a new pick, and the next day.
AFTER = [
    ("/orders", BEFORE[4][1], 200, '{"act":5,"short":0}'),
    ("/bins", '{"key":"K-5","bin":"A-02","kind":"STORE"}', 409, '{"code":"K01"}'),
    ("/picks", '{"key":"K-10","order":"S-2","gtin":"%s","lot":"L1","bin":"A-01","qty":6}' % OATS, 409, '{"code":"Q02"}'),
    ("/picks", '{"key":"K-10","order":"S-2","gtin":"%s","lot":"L1","bin":"A-01","qty":5}' % OATS, 200, '{"act":10}'),
    ("/days", '{"key":"K-11","day":"2026-05-05"}', 200, '{"act":11,"returned":0}'),
]


def fail(what, expected, got):
    sys.exit("restored: %s: expected %r, got %r" % (what, expected, got))


def posts(path, body):
    return server.ask(port, server.post(path, body))


def gets(path):
    return server.ask(port, server.get(path))


def served(what, db, exchanges):
    """The server answers these requests as it must, and ends by itself."""
    with server.Server(lotd, db, port, len(exchanges)) as serving:
        for asked, answer in exchanges:
            got = asked()
            if got != answer:
                fail(what, answer, got)
        serving.ends()


def sql(db, text):
    done = subprocess.run(["sqlite3", db, text], capture_output=True, text=True)
    if done.returncode != 0:
        sys.exit("restored: sqlite3: " + done.stderr)
    return done.stdout


def rows_of(db):
    """Each row of each table of the books."""
    return {table: sorted(sql(db, "SELECT * FROM %s" % table).splitlines()) for table in TABLES}


def restore(db):
    """sqlite3 old .dump | sqlite3 new"""
    new = db + ".new"
    dumped = subprocess.Popen(["sqlite3", db, ".dump"], stdout=subprocess.PIPE)
    subprocess.run(["sqlite3", new], stdin=dumped.stdout, check=True)
    if dumped.wait() != 0:
        sys.exit("restored: the dump ended with status %d" % dumped.returncode)
    os.replace(new, db)


def moved(db, size):
    """To pages of this size, as docs/BOOKS.md says."""
    sql(db, "PRAGMA journal_mode=DELETE; PRAGMA page_size=%d; VACUUM; PRAGMA journal_mode=WAL;" % size)
    if sql(db, "PRAGMA page_size") != "%d\n" % size:
        sys.exit("restored: the pages are not of %d bytes" % size)


def told():
    return [(lambda path=path: gets(path), (200, answer)) for path, answer in TOLD]


def gone_on():
    return [(lambda path=path, body=body: posts(path, body), (status, answer)) for path, body, status, answer in AFTER]


def check(name, change, kept_indexes=()):
    """A copy of the books is changed so; it opens, tells the same, keeps each row and goes on."""
    db = os.path.join(room, "copy.db")
    shutil.copy(old, db)
    change(db)
    if sql(db, "PRAGMA integrity_check") != "ok\n":
        sys.exit("restored: %s: the file is not sound" % name)
    served(name, db, told())
    rows = rows_of(db)
    if rows != old_rows:
        fail(name, old_rows, rows)
    indexes = sql(db, "SELECT name FROM sqlite_schema WHERE type = 'index' AND name NOT LIKE 'sqlite%' ORDER BY name").split()
    if indexes != sorted(kept_indexes):
        fail(name, sorted(kept_indexes), indexes)
    served(name, db, gone_on())
    acts = sql(db, "SELECT acts, day FROM meta").strip()
    if acts != "11|20578":
        fail(name, "11|20578", acts)
    card = subprocess.run([lotd, "card", "--db", db, OATS, "L1"], capture_output=True, text=True)
    if card.returncode != 0 or not card.stdout.endswith("IN HOUSE 10\n"):
        fail(name, "IN HOUSE 10", card.stdout + card.stderr)
    audit = server.audited(lotd, db)
    if audit != "audited 11 acts from 2026-05-04\n":
        fail(name, "audited 11 acts from 2026-05-04", audit)
    print("  " + name)


old = os.path.join(room, "old.db")
subprocess.run([lotd, "init", "--db", old, "--day", "2026-05-04"], check=True)
served("the books", old, [(lambda path=path, body=body: posts(path, body), (200, answer)) for path, body, answer in BEFORE])
old_rows = rows_of(old)
if sql(old, "PRAGMA page_size") != "1024\n":
    sys.exit("restored: new books have pages of another size")

check("as they are", lambda db: None)
check("restored from a dump", restore)
check("restored from a dump twice", lambda db: (restore(db), restore(db)))
check("after ANALYZE", lambda db: sql(db, "ANALYZE"))
check("after VACUUM", lambda db: sql(db, "VACUUM"))
check("after REINDEX", lambda db: sql(db, "REINDEX"))
check("with pages of 4,096 bytes", lambda db: moved(db, 4096))
check("moved from these to pages of 1,024", lambda db: (moved(db, 4096), moved(db, 1024)))
# All but the first are some that books were made with once.
for index, columns in (("cards_by_day", "cards (day)"), ("orders_by_state", "orders (state)"), ("shiplines_of_lot", "shiplines (gtin, lot, number)"),
                       ("staged_by_gtin", "staged (gtin)"), ("reserved_by_gtin", "reserved (gtin)")):
    check("with the index " + index, lambda db: sql(db, "CREATE INDEX %s ON %s" % (index, columns)), [index])
check("analysed, packed and restored", lambda db: (sql(db, "ANALYZE"), sql(db, "VACUUM"), restore(db)))
partial = os.path.join(room, "partial.db")
shutil.copy(old, partial)
sql(partial, "CREATE INDEX lines_open ON lines (gtin) WHERE shipped < ordered")
refused = subprocess.run([lotd, "card", "--db", partial, OATS, "L1"], capture_output=True, text=True)
if (refused.returncode, refused.stdout, refused.stderr) != (1, "", "lotd: foreign books\n"):
    fail("with a partial index", "lotd: foreign books", refused)
sql(partial, "DROP INDEX lines_open")
served("without the partial index", partial, told())
print("  with a partial index refused, without it as they were")
check("in another journal mode", lambda db: sql(db, "PRAGMA journal_mode = WAL; CREATE TABLE notes (text TEXT); DROP TABLE notes"))
print("restored: the books opened, told the same and went on each time")
