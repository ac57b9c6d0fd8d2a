"""The log of `lotd serve --log`: a line for each request, with its method, its target, the status and the bytes of its
answer, and nothing of its head or body; nothing without `--log`; and where the log goes to a full disk, to a pipe that
nobody reads any more, or nowhere, the same answer to the first request, behind which the server ends with status 1.
Needs the Rattle kit, and takes a second.
Exit status 0 only if every answer and every line was the expected one.
"""
import os
import subprocess
import sys

import server
from server import asked, bytes_of, connected, get, post

lotd, port, room = server.program(), server.number("PORT", 18087), server.room()
db, log = os.path.join(room, "stock.db"), os.path.join(room, "log")

ITEM = '{"key":"K-1","gtin":"09506000134352","name":"Oat drink"}'
LONG = b"/" + b"x" * 5000

# What is sent, and the words of its line, or None where it has none.
SENT = [
    (post("/items", ITEM), b"POST /items 200"),
    (get("/stock/09506000134352"), b"GET /stock/09506000134352 200"),
    (get("/cards/09506000134352/A%2FB%3F"), b"GET /cards/09506000134352/A%2FB%3F 404"),
    (post("/items", ITEM), b"POST /items 200"),
    (post("/items", ITEM.replace("Oat", "Rye")), b"POST /items 409"),
    (get("/items"), b"GET /items 405"),
    (get("/stock/09506000134352?secret=1"), b"GET /stock/09506000134352?secret=1 404"),
    (b"GET /none HTTP/1.1\r\nAuthorization: Basic c2VjcmV0\r\n\r\n", b"GET /none 404"),
    (b"POST /items HTTP/1.1\r\nContent-Length: 99\r\n\r\nsecret", b"POST /items 400"),
    (b"GET /\x1b[2Jx HTTP/1.1\r\n\r\n", b"GET / 400"),
    (b"GET /a\x7f\xc3\xa9 HTTP/1.1\r\n\r\n", b"GET /a??? 400"),
    (b"GET %s HTTP/1.1\r\n\r\n" % LONG, b"GET %s 404" % LONG[:200]),
    (b"\x16\x03\x01\x02\x00\x01\x00\x01\xfc\x03\x03", None),
    (b"GET /stock", None),
    (b"", None),
]


def fail(what, expected, got):
    sys.exit("log: %s: expected %r, got %r" % (what, expected, got))


def answers(words=(), errors=subprocess.PIPE, program=lotd):
    """What each request is answered by a server of its own, and what is on its standard error, where that is read."""
    with server.Server(program, db, port, len(SENT), words, errors) as serving:
        told = []
        for text, _ in SENT:
            with asked(port, text) as peer:
                told.append(bytes_of(peer))
        serving.ends()
    return told, serving.fault


def answered_once(errors, program=lotd):
    """What the first request is answered by a server whose log takes nothing, and the status with which it ends."""
    with server.Server(program, db, port, len(SENT), ["--log"], errors) as serving:
        with asked(port, SENT[0][0]) as peer:
            told = bytes_of(peer)
        return told, serving.process.wait(timeout=60)


def is_told(what, expected, got):
    if expected != got:
        fail(what, expected, got)


def lines(told):
    """The lines of the log, by the answers."""
    return b"".join(b"%s %d\n" % (line, len(answer)) for (_, line), answer in zip(SENT, told) if line)


def without_standard_error():
    """A program that runs lotd with its standard error closed."""
    path = os.path.join(room, "closed")
    with open(path, "w", encoding="utf-8") as file:
        file.write('#!/bin/sh\nexec "%s" "$@" 2>&-\n' % lotd)
    os.chmod(path, 0o755)
    return path


subprocess.run([lotd, "init", "--db", db, "--day", "2026-05-04"], check=True)
answers()
expected, fault = answers()
is_told("standard error without --log", b"", fault)
print("> without --log nothing is written", flush=True)

with open(log, "wb") as file:
    told, _ = answers(["--log"], file)
is_told("the answers with a log", expected, told)
with open(log, "rb") as file:
    is_told("the log", lines(told), file.read())
print("> with --log a line for each request:\n" + lines(told).decode(), end="", flush=True)

once = (expected[0], 1)
with open("/dev/full", "wb") as full:
    is_told("the end with a log that is full", once, answered_once(full))
reader, writer = os.pipe()
os.close(reader)
is_told("the end with a log that nobody reads", once, answered_once(writer))
os.close(writer)
is_told("the end without standard error", once, answered_once(None, without_standard_error()))
print("> a log that cannot be written changes no answer, and ends the server", flush=True)
