"""Standard streams that are closed, a server that is stopped and goes on, and two `init` of one path at once. Needs the
Rattle kit, and takes some seconds. Exit status 0 only if each client got its answer and nothing else, each line ended as
it must, and of each two `init` one made the books.
"""
import itertools
import os
import signal
import socket
import subprocess
import sys
import time

import server
from server import answer_of, bytes_of, connected, post

lotd, port = server.program(), server.number("PORT", 18082)
room = server.room()
db = os.path.join(room, "stock.db")

GET = b"GET /orders/NONE HTTP/1.1\r\n\r\n"
BODY = b'{"code":"U04"}'
BIN = '{"key":"B-1","bin":"A-01","kind":"STORE"}'


def wants(what, want, got):
    if want != got:
        sys.exit("closed: %s: expected %r, got %r" % (what, want, got))


def line(*words):
    return subprocess.run([lotd, *words], capture_output=True, text=True, timeout=60)


def listens():
    for _ in range(100):
        try:
            return connected(port)
        except ConnectionRefusedError:
            time.sleep(0.05)
    sys.exit("closed: the server does not listen")


def served(closed):
    """The status of a server of one connection without these streams, and what its client got, where it listens."""
    words = [lotd, "serve", "--db", db, "--port", str(port), "--max", "1", "--log"]
    shut = lambda: [os.close(stream) for stream in closed]
    process = subprocess.Popen(words, stdin=subprocess.DEVNULL, stdout=subprocess.DEVNULL, stderr=subprocess.DEVNULL, preexec_fn=shut)
    if 1 in closed:
        return process.wait(timeout=60), b""
    with listens() as peer:
        peer.sendall(GET)
        peer.shutdown(socket.SHUT_WR)
        got = bytes_of(peer)
    return process.wait(timeout=60), got


def stopped():
    """A client whose request comes in two parts, between which the server is stopped and goes on."""
    with server.Server(lotd, db, port, 1) as serving, connected(port) as peer:
        text = post("/bins", BIN)
        peer.sendall(text[:-20])
        time.sleep(0.2)
        for kind in signal.SIGSTOP, signal.SIGCONT:
            os.kill(serving.process.pid, kind)
            time.sleep(0.1)
        peer.sendall(text[-20:])
        got = answer_of(peer)
        serving.ends()
    return got


def two_made(path):
    """How two `init` of one path end that are started at once, and what is there then."""
    words = [lotd, "init", "--db", path, "--day", "2026-05-04"]
    both = [subprocess.Popen(words, stderr=subprocess.PIPE) for _ in range(2)]
    ends = sorted((one.communicate()[1], one.returncode) for one in both)
    return ends, server.audited(lotd, path), os.path.exists(path + "-new")


wants("init", 0, line("init", "--db", db, "--day", "2026-05-04").returncode)
for count in range(4):
    for closed in itertools.combinations(range(3), count):
        status, got = served(closed)
        wants("the status without %r" % (closed,), 1 if 1 in closed or 2 in closed else 0, status)
        wants("the answer without %r" % (closed,), b"" if 1 in closed else BODY, got.partition(b"\r\n\r\n")[2])
print("closed streams: no client got what was printed or logged")
wants("a server that is stopped and goes on", (200, '{"act":1}'), stopped())
for number in range(60):
    ends, audit, left = two_made(os.path.join(room, "two%d.db" % number))
    wants("which of two made the books", (b"", 0), ends[0])
    wants("how the other ended", 1, ends[1][1])
    wants("an audit of what both left", "audited 0 acts from 2026-05-04\n", audit)
    wants("a page that is left", False, left)
print("closed: each client got its answer and nothing else, and of each two `init` one made the books")
