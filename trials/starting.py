"""A start over large books: a client that connects while they are opened waits and is answered, and a server whose port is
taken says so at once, before it reads its file. Needs the Rattle kit, and takes a minute. MEGABYTES is how large the books
are, else 80; the rows are set by python's sqlite3.
Exit status 0 only if each was told and answered as it must be.
"""
import atexit
import os
import select
import socket
import sqlite3
import subprocess
import sys
import time

import server

lotd, room, port = server.program(), server.room(), server.number("PORT", 18089)
wanted = server.number("MEGABYTES", 80) * 1_000_000
UNKNOWN = (404, '{"code":"U04"}')
# A port is taken, and that it is taken is told, within so many seconds, however large the books are.
AT_ONCE = 1.0


def fail(what, expected, got):
    sys.exit("starting: %s: expected %r, got %r" % (what, expected, got))


def set_rows(db):
    """Acts and lines of cards, until the file is as large as is wanted."""
    books = sqlite3.connect(db, isolation_level=None)
    books.execute("PRAGMA synchronous = OFF")
    act = 0
    while os.path.getsize(db) < wanted:
        acts = range(act + 1, act + 20_001)
        books.execute("BEGIN")
        books.executemany("INSERT INTO repeats VALUES (?, ?, ?, ?)", [("K/K-%d" % n, n, "ADJUST|09506000134352|L1|A-01|%d" % (n % 9 + 1), '{"act":%d,"change":%d}' % (n, n % 9 + 1)) for n in acts])
        books.executemany("INSERT INTO cards VALUES ('09506000134352', 'L1', ?, 20577, 'WRITEON', 'A-01', ?, 5000)", [(n, n % 9 + 1) for n in acts])
        books.execute("UPDATE meta SET acts = ?", (acts[-1],))
        books.execute("COMMIT")
        act = acts[-1]
    books.close()


def begun(db, at):
    """A server that is just begun, for one connection. It is gone where the trial ends before."""
    process = subprocess.Popen([lotd, "serve", "--db", db, "--port", str(at), "--max", "1"], stdout=subprocess.PIPE, stderr=subprocess.PIPE)
    atexit.register(process.kill)
    return process


def has_told(process):
    return bool(select.select([process.stdout], [], [], 0)[0])


def connected_soon():
    """A client, as soon as the port is taken."""
    end = time.monotonic() + AT_ONCE
    while True:
        try:
            return server.connected(port)
        except ConnectionRefusedError:
            if time.monotonic() > end:
                fail("a client", "a port within a second", "none")
            time.sleep(0.005)


def bytes_of(db):
    with open(db, "rb") as file:
        return file.read()


def peak(process):
    with open("/proc/%d/status" % process.pid) as file:
        return int(next(line.split()[1] for line in file if line.startswith("VmHWM")))


def is_told_at_once(what, db, at, told):
    """Another server ends at once with status 1, and tells this."""
    start = time.monotonic()
    other = begun(db, at)
    out, error = other.communicate(timeout=60)
    if (other.returncode, out, error) != (1, b"", told):
        fail(what, (1, b"", told), (other.returncode, out, error))
    if time.monotonic() - start > AT_ONCE:
        fail(what, "at once", "%.1f s" % (time.monotonic() - start))


db, other_db = os.path.join(room, "large.db"), os.path.join(room, "other.db")
subprocess.run([lotd, "init", "--db", db, "--day", "2026-05-04"], check=True)
set_rows(db)
with open(other_db, "wb") as file:
    file.write(b"no database")
start = time.monotonic()
process = begun(db, port)
with connected_soon() as client:
    client.sendall(server.get("/orders/S-1"))
    client.shutdown(socket.SHUT_WR)
    if has_told(process):
        fail("a client that comes early", "that the books are still opened", "they are open")
    is_told_at_once("a port that is taken", other_db, port, b"lotd: io\n")
    if bytes_of(other_db) != b"no database":
        fail("a port that is taken", "the file as it was", "another")
    if has_told(process):
        fail("a port that is taken", "that the books are still opened", "they are open")
    told = process.stdout.readline()
    opened, memory = time.monotonic() - start, peak(process)
    if told != b"listening on 127.0.0.1:%d\n" % port:
        fail("the server", "that it listens", told)
    got = server.answer_of(client)
if got != UNKNOWN:
    fail("a client that came early", UNKNOWN, got)
if process.wait(timeout=60) != 0:
    fail("the server", 0, process.returncode)
print("  a client that came while the books were opened was answered, and a port that was taken was told at once")
print("  books of %.1f MB: opened in %.2f s, with a peak of %.1f MB" % (os.path.getsize(db) / 1e6, opened, memory / 1024))
print("starting: all was told and answered as it must be")
