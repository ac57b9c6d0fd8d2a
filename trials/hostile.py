"""Hostile clients at the port of lotd: slow, silent, cut off, talkative and endless ones, with a sound request between
each two, which is answered as if nobody else were there. Needs the Rattle kit, and takes a minute and a half.
Exit status 0 only if every answer was the expected one, the server ended by itself after its last connection, and every
row of its books is that of the two acts.
"""
import os
import select
import socket
import subprocess
import sys
import time

import server
from server import answer_of, post

lotd, port = server.program(), server.number("PORT", 18081)
db = os.path.join(server.room(), "stock.db")

ITEM = '{"key":"K-1","gtin":"09506000134352","name":"Oat drink"}'
STOCK = b"GET /stock/09506000134352 HTTP/1.1\r\n\r\n"
SHOWN = (200, '{"gtin":"09506000134352","lots":[],"name":"Oat drink"}')
DAY = b'POST /days HTTP/1.1\r\nContent-Length: 32\r\n\r\n{"key":"K-9","day":"2026-05-05"}'
HEAD = 43
# The connections of clients that do not hang up.
left_open = []


def connected():
    return server.connected(port)


def refused(status, code):
    return status, '{"code":"%s"}' % code


def asks(text):
    return server.ask(port, text)


def slow():
    """Sends one byte at a time."""
    with connected() as peer:
        for byte in STOCK:
            peer.sendall(bytes([byte]))
            time.sleep(0.005)
        return answer_of(peer)


def silent():
    """Sends nothing, and waits until it is given up."""
    with connected() as peer:
        return answer_of(peer)


def stuck():
    """Sends all but the last byte, and waits until it is given up."""
    with connected() as peer:
        peer.sendall(DAY[:-1])
        return answer_of(peer)


def dripping():
    """Sends a byte every nine seconds, until it is answered: after thirty seconds, by what has come until then."""
    start = time.monotonic()
    with connected() as peer:
        for byte in STOCK:
            peer.sendall(bytes([byte]))
            if select.select([peer], [], [], 9)[0]:
                break
        got, took = answer_of(peer), time.monotonic() - start
    return got if 29 < took < 32 else "after %.1f seconds: %r" % (took, got)


def dripping_on():
    """Sends its request, takes its answer, sends a byte every nine seconds behind it and does not hang up."""
    peer = connected()
    left_open.append(peer)
    peer.sendall(STOCK)
    got = answer_of(peer)
    for _ in range(3):
        time.sleep(9)
        peer.sendall(b"x")
    return got


def waiting():
    """Sends its request, does not hang up, and waits for the end of its answer: that comes at once."""
    start = time.monotonic()
    with connected() as peer:
        peer.sendall(STOCK)
        got, took = answer_of(peer), time.monotonic() - start
    return got if took < 5 else "after %.1f seconds: %r" % (took, got)


def gone(size):
    """Sends a front and closes at once, without a look at the answer."""
    with connected() as peer:
        peer.sendall(DAY[:size])


def endless_head():
    """Sends 270,400 bytes in which no head ends."""
    with connected() as peer:
        peer.sendall(b"x" * 270_400)
        peer.shutdown(socket.SHUT_WR)
        return answer_of(peer)


def talkative():
    """Goes on sending for a second behind its request, and then reads its answer."""
    with connected() as peer:
        peer.sendall(STOCK)
        for _ in range(100):
            peer.sendall(b"x" * 1_000)
            time.sleep(0.01)
        peer.shutdown(socket.SHUT_WR)
        return answer_of(peer)


def never_ends():
    """Goes on sending until the server hangs up."""
    with connected() as peer:
        try:
            for _ in range(1_000):
                peer.sendall(b"x" * 65_536)
        except OSError:
            return "hung up"
        return "went on"


def sound():
    """Is answered within five seconds: of the thirty of a client that still hangs on three are left."""
    start = time.monotonic()
    got, took = asks(STOCK), time.monotonic() - start
    return got if took < 5 else "after %.1f seconds: %r" % (took, got)


# What each client is called, what it does, and what it must be told.
hostile = [
    ("one byte at a time", slow, SHOWN),
    ("a request, and no end", waiting, SHOWN),
    ("nothing at all", silent, None),
    ("nothing, and an end", lambda: asks(b""), refused(400, "W01")),
    ("all but the last byte", stuck, None),
    ("a byte every nine seconds", dripping, refused(400, "W01")),
    ("a byte every nine seconds behind the request", dripping_on, SHOWN),
    ("all but the last byte, and an end", lambda: asks(DAY[:-1]), refused(400, "W02")),
    ("270,400 bytes without an end", endless_head, refused(413, "W08")),
    ("100,000 bytes behind the request", talkative, SHOWN),
    ("bytes without an end", never_ends, "hung up"),
    ("no text", lambda: asks(bytes(range(256)) + b"\r\n\r\n"), refused(400, "W01")),
    ("a body that is too large", lambda: asks(b"POST /days HTTP/1.1\r\nContent-Length: 262145\r\n\r\n"), refused(413, "W08")),
    ("a body that never comes", lambda: asks(b"POST /goodsin HTTP/1.1\r\nContent-Length: 262144\r\n\r\n"), refused(400, "W02")),
]
fronts = [("%d bytes, and an end" % n, lambda n=n: asks(DAY[:n]), refused(400, "W01" if n < HEAD else "W02")) for n in range(len(DAY))]
cut = [("%d bytes, and gone" % n, lambda n=n: gone(n), None) for n in range(len(DAY))]

clients = [("a new item", lambda: asks(post("/items", ITEM)), (200, '{"act":1}'))]
for client in hostile:
    clients += [client, ("a sound request", sound, SHOWN)]
clients += fronts + cut
clients += [("the item's stock", sound, SHOWN), ("the next act", lambda: asks(DAY), (200, '{"act":2,"returned":0}'))]

subprocess.run([lotd, "init", "--db", db, "--day", "2026-05-04"], check=True)
with server.Server(lotd, db, port, len(clients)) as serving:
    for name, client, want in clients:
        got = client()
        if got != want:
            sys.exit("hostile: %s: expected %r, got %r" % (name, want, got))
    print("%d clients were answered as they must be" % len(clients))
    serving.ends()
audit = server.audited(lotd, db)
if audit != "audited 2 acts from 2026-05-04\n":
    sys.exit("hostile: an audit tells %r" % audit)
print("hostile: every answer was the expected one, and the server ended by itself")
