"""Stops of the process: lotd serve is ended by SIGKILL at a random moment around an act, the books are opened again, and
every row of every table is that of before the act or that of after it. Where the answer had come, it is that of after.
What is shown then is what an undisturbed run shows, and so is the answer of the same request sent again, and its rows.
In the end the books are held against their acts (`lotd audit`), and every row is that of them.
Of three rounds one ends the server after a time from the request on, one from the moment on at which the log of the
file grows, one from the first byte of the answer on; how long each takes is measured before. A kill was within an act
where the file or its log had changed since the server listened, and the answer was not whole.
Needs the Rattle kit. ROUNDS (240) and SEED (1) can be set; 240 rounds take about a minute.
Exit status 0 only if no round found anything else, and kills within an act came before it was done and after.
"""
import os
import random
import shutil
import sqlite3
import statistics
import subprocess
import sys
import threading
import time

import server

lotd, room, port = server.program(), server.room(), server.number("PORT", 18084)
rounds, seed = server.number("ROUNDS", 240), server.number("SEED", 1)
chance = random.Random(seed)

# One day's work: paths and bodies.
GOODS = "delivery,line,gtin,lot,expiry,bin,qty\n" + "".join(
    "D-9,%d,09506000134352,F%d,261130,A-02,%d\n" % (n, n % 7, n) for n in range(1, 61))
WORK = [
    ("/items", '{"key":"K-1","gtin":"09506000134352","name":"Oat drink"}'),
    ("/items", '{"key":"K-2","gtin":"04012345000016","name":"Rye bread"}'),
    ("/bins", '{"key":"K-3","bin":"A-01","kind":"STORE"}'),
    ("/bins", '{"key":"K-4","bin":"A-02","kind":"STORE"}'),
    ("/bins", '{"key":"K-5","bin":"Q-01","kind":"HOLD"}'),
    ("/receipts", '{"delivery":"D-1","line":1,"label":"01095060001343521726063010L1","bin":"A-01","qty":10}'),
    ("/receipts", '{"delivery":"D-1","line":2,"label":"01095060001343521726053110L2","bin":"A-01","qty":10}'),
    ("/orders", '{"key":"K-8","order":"S-1","customer":"Corner Shop","lines":[{"gtin":"09506000134352","qty":12}]}'),
    ("/orders", '{"key":"K-9","order":"S-2","customer":"Harbour Cafe","lines":[{"gtin":"09506000134352","qty":12}]}'),
    ("/receipts", '{"delivery":"D-2","line":1,"label":"01095060001343521726051010L0","bin":"A-01","qty":5}'),
    ("/picks", '{"key":"K-11","order":"S-1","gtin":"09506000134352","lot":"L0","bin":"A-01","qty":5}'),
    ("/picks", '{"key":"K-12","order":"S-1","gtin":"09506000134352","lot":"L2","bin":"A-01","qty":4}'),
    ("/recalls", '{"key":"K-13","gtin":"09506000134352","lot":"L2"}'),
    ("/goodsin", GOODS),
    ("/shipments", '{"key":"K-15","order":"S-1"}'),
    ("/days", '{"key":"K-16","day":"2026-05-05"}'),
    ("/urgents", '{"key":"K-17","order":"S-3","customer":"Mill Inn","lines":[{"gtin":"09506000134352","qty":4}]}'),
]
SHOWN = ["/stock/09506000134352", "/orders/S-1"]
HEADER = b"HTTP/1.1 200 OK\r\n"


def fails(told):
    sys.exit("kill: seed %d: %s" % (seed, told))


def rows(db):
    """Every row of every table. The file is copied first, so that nothing of it is changed."""
    copy = os.path.join(room, "copy.db")
    copied(db, copy)
    books = sqlite3.connect(copy)
    try:
        if books.execute("PRAGMA integrity_check").fetchall() != [("ok",)]:
            fails("the file is not whole")
        names = [name for (name,) in books.execute("SELECT name FROM sqlite_schema WHERE type = 'table' ORDER BY name")]
        return {name: sorted(books.execute("SELECT * FROM " + name).fetchall()) for name in names}
    finally:
        books.close()


def copied(db, copy):
    """The file and its log."""
    for end in ("", "-wal", "-shm"):
        if os.path.exists(copy + end):
            os.remove(copy + end)
        if os.path.exists(db + end):
            shutil.copyfile(db + end, copy + end)


def bytes_of(db):
    """The bytes of the file and of its log."""
    return [open(name, "rb").read() if os.path.exists(name) else None for name in (db, db + "-wal")]


def log_size(db):
    return os.path.getsize(db + "-wal") if os.path.exists(db + "-wal") else 0


def served(db, connections=1):
    return server.Server(lotd, db, port, connections)


class Asking:
    """A request under way: what has come of its answer, and when its first byte came."""

    def __init__(self, text):
        self.answer = b""
        self.begun = threading.Event()
        self.peer = server.asked(port, text)
        self.reader = threading.Thread(target=self.read)
        self.reader.start()

    def read(self):
        """Reads until the connection is closed or broken."""
        try:
            while more := self.peer.recv(65536):
                self.answer += more
                self.begun.set()
        except OSError:
            pass
        self.begun.set()

    def told(self):
        self.reader.join(60)
        if self.reader.is_alive():
            fails("the connection hangs")
        self.peer.close()
        return self.answer


def until_log_grows(db, size, asking):
    """Waits until the log has another size than this, or the answer begins."""
    while log_size(db) == size and not asking.begun.is_set():
        pass


def answers(db, texts):
    """The answers of one server, which ends by itself."""
    with served(db, len(texts)) as serving:
        found = [Asking(text).told() for text in texts]
        serving.ends()
        return found


def timed(db, text):
    """The seconds from the request to the first byte in the log, from there to the answer, and from there to the end."""
    with served(db) as serving:
        size = log_size(db)
        begun = time.perf_counter()
        asking = Asking(text)
        until_log_grows(db, size, asking)
        logged = time.perf_counter()
        asking.begun.wait(60)
        answered = time.perf_counter()
        asking.told()
        serving.ends()
        return logged - begun, answered - logged, time.perf_counter() - answered


def killed(db, text, aim, delay):
    """Ends the server so long after what is aimed at. What it had answered, and the bytes before the request and then."""
    with served(db):
        quiet = bytes_of(db)
        size = log_size(db)
        asking = Asking(text)
        if aim == "log":
            until_log_grows(db, size, asking)
        if aim == "answer":
            asking.begun.wait(60)
        until = time.perf_counter() + delay
        while time.perf_counter() < until:
            pass
    return asking.told(), quiet, bytes_of(db)


def opened_again(db):
    """The books open, with what the log holds: the card of a lot that nobody knows is refused."""
    end = subprocess.run([lotd, "card", "--db", db, "09506000134352", "NONE"], capture_output=True, timeout=60)
    if end.returncode != 1 or end.stderr not in (b"lotd: U01\n", b"lotd: U03\n"):
        fails("the books do not open: %r" % end.stderr)


def whole(answer):
    head, gap, body = answer.partition(b"\r\n\r\n")
    return bool(gap) and len(body) == int(head.split(b"content-length: ")[1].split(b"\r\n")[0])


class Act:
    """An act of the day's work: the books before it and after it, what they show, and its answers, undisturbed."""

    def __init__(self, base, number, path, body):
        self.path, self.text = path, server.post(path, body)
        self.before = os.path.join(room, "before-%d.db" % number)
        after = os.path.join(room, "after-%d.db" % number)
        copied(base, self.before)
        self.rows_before, self.shown_before = rows(base), shown(base)
        self.answer = answers(base, [self.text])[0]
        if not self.answer.startswith(HEADER):
            fails("%s %s: %r" % (path, body[:60], self.answer))
        copied(base, after)
        self.bytes_after = bytes_of(after)[0]
        self.rows_after, self.shown_after = rows(after), shown(after)
        self.again = answers(after, [self.text])[0]
        self.times = [statistics.median(times) for times in zip(*[self.times_of(after) for _ in range(5)])]

    def times_of(self, db):
        copied(self.before, db)
        return timed(db, self.text)

    def delay(self, aim):
        """A random time from what is aimed at on."""
        logged, answered, ends = self.times
        most = {"request": logged + answered, "log": answered, "answer": ends}[aim]
        return chance.uniform(0, 1.2 * most)


def shown(db):
    """What the books show, asked of a copy."""
    copy = os.path.join(room, "shown.db")
    copied(db, copy)
    return answers(copy, [server.get(path) for path in SHOWN])


def found_after(act, db, named):
    """Whether the act is done in the books as they are left: their rows are those of before it, or of after it."""
    raw = rows(db)
    opened_again(db)
    found = rows(db)
    if raw != found:
        fails("%s: another reader of the file finds other rows" % named)
    if found not in (act.rows_before, act.rows_after):
        fails("%s: the tables are neither those before the act nor those after it" % named)
    return found == act.rows_after


def goes_on(act, db, done, named):
    """What the books show, and the answer of the same request, are as they must be, and so are the rows after it."""
    gets = [server.get(path) for path in SHOWN]
    *told, again = answers(db, gets + [act.text])
    if told != (act.shown_after if done else act.shown_before):
        fails("%s: opened again, the books show %r" % (named, told))
    if again != (act.again if done else act.answer):
        fails("%s: asked again, it is answered %r" % (named, again))
    if rows(db) != act.rows_after:
        fails("%s: asked again, the tables are not those after the act" % named)
    audit = server.audited(lotd, db)
    if audit != "audited %d acts from 2026-05-04\n" % act.rows_after["meta"][0][4]:
        fails("%s: an audit tells %r" % (named, audit))


def kind_of(act, told, quiet, left, done):
    """Where the kill fell."""
    if whole(told):
        return "answered" if left[0] in (quiet[0], act.bytes_after) else "copied"
    if left == quiet:
        return "untouched"
    return "done" if done else "torn"


def round_of(n, db):
    """One kill: where it fell."""
    act, aim = acts[n % len(acts)], AIMS[n // len(acts) % len(AIMS)]
    named = "round %d, %s" % (n + 1, act.path)
    copied(act.before, db)
    told, quiet, left = killed(db, act.text, aim, act.delay(aim))
    if not act.answer.startswith(told):
        fails("%s: answered %r" % (named, told))
    done = found_after(act, db, named)
    if told and not done:
        fails("%s: an act that was answered is lost" % named)
    goes_on(act, db, done, named)
    return kind_of(act, told, quiet, left, done)


AIMS = ["request", "log", "answer"]
base = os.path.join(room, "base.db")
subprocess.run([lotd, "init", "--db", base, "--day", "2026-05-04"], check=True, timeout=60)
acts = [Act(base, number, path, body) for number, (path, body) in enumerate(WORK)]
for act in acts:
    again = act.again.split(b"\r\n\r\n")[1]
    if again != (b'{"accepted":0,"repeated":60}' if act.path == "/goodsin" else act.answer.split(b"\r\n\r\n")[1]):
        fails("%s: asked again, it is answered %r" % (act.path, again))
returned = acts[12].answer.split(b"\r\n\r\n")[1]
if returned != b'{"act":13,"returned":4}':
    fails("the recall answers %r" % returned)

counts = dict.fromkeys(["untouched", "torn", "done", "answered", "copied"], 0)
for n in range(rounds):
    counts[round_of(n, os.path.join(room, "stock.db"))] += 1

print("seed %d: %d rounds, divergences 0" % (seed, rounds))
print("  before the first byte was written: %d" % counts["untouched"])
print("  within an act: %d, of these %d before it was done and %d after, the answer not whole"
      % (counts["torn"] + counts["done"], counts["torn"], counts["done"]))
print("  after the answer: %d, of these %d while the file was written" % (counts["answered"] + counts["copied"], counts["copied"]))
if counts["torn"] == 0 or counts["done"] == 0:
    fails("no kill came within an act before it was done, or none after")
print("kill: every stop left the books of before the act or of after it, and no answered act was lost")
