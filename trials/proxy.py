"""lotd behind the proxy of `ops/nginx-lotd.conf`, with its ports and files elsewhere: TLS, names and passwords; a body in chunks
and a slow one; lots whose names have a slash, a percent sign and a question mark; 300 requests by 32 clients at once; a
server that ends again and again while they come, whose repeats act once; a backup taken between two runs, and restored. What a
name may do; header fields and a name of the machine that are not the server's; guessed passwords; 600 clients that stop within
TLS; the log; /health and /metrics; HTTP/2, and what goes packed.
Needs the Rattle kit, nginx and openssl, and takes a minute.
Exit status 0 only if every answer was the expected one, and 3 where nginx or openssl is not there.
"""
import base64
import concurrent.futures
import gzip
import json
import os
import re
import shutil
import socket
import ssl
import subprocess
import sys
import threading
import time

import nginx as front
import server
from nginx import found, proxy

GTIN = "09506000134352"


def authorized(name, password="secret"):
    return "Authorization: Basic %s" % base64.b64encode(("%s:%s" % (name, password)).encode()).decode()


USER, NO_ONE = authorized("scanner"), authorized("scanner", "other")


nginx, openssl = (found(name, "proxy", "nginx openssl") for name in ("nginx", "openssl"))
lotd, room, port = server.program(), server.room(), server.number("PORT", 18085)
tls = port + 1
db, backup = os.path.join(room, "books", "stock.db"), os.path.join(room, "backup")
os.mkdir(os.path.dirname(db), 0o700)


def fail(what, expected, got):
    sys.exit("proxy: %s: expected %r, got %r" % (what, expected, got))


def is_told(what, expected, got):
    if expected != got:
        fail(what, expected, got)


# ---- requests through the proxy

def connected(protocols=()):
    """A connection with TLS to the proxy, whose certificate is the one that was made."""
    trusted = ssl.create_default_context(cafile=room + "/lotd.crt")
    if protocols:
        trusted.set_alpn_protocols(protocols)
    return trusted.wrap_socket(socket.create_connection(("127.0.0.1", tls), timeout=60), server_hostname="localhost")


def head(first, *fields):
    return "\r\n".join([first, "Host: localhost", "Connection: close", *fields, "", ""]).encode()


def through(text):
    """The status and the body of the answer to a text, which comes through the proxy."""
    with connected() as peer:
        peer.sendall(text)
        return server.answer_of(peer)


def whole(text):
    """All bytes of the answer to a text, as its head and its body."""
    with connected() as peer:
        peer.sendall(text)
        front_part, _, body = server.bytes_of(peer).partition(b"\r\n\r\n")
        return front_part.decode("latin-1"), body


def joined(body):
    """A body that came in chunks."""
    size, _, rest = body.partition(b"\r\n")
    length = int(size, 16)
    return rest[:length] + joined(rest[length + 2:]) if length else b""


def posted(path, body, *fields):
    return through(head("POST %s HTTP/1.1" % path, *(fields or [USER]), "Content-Length: %d" % len(body)) + body.encode())


def shown(path, *fields):
    return through(head("GET %s HTTP/1.1" % path, *(fields or [USER])))


def chunked(path, body):
    """The request with its body in chunks of seven bytes."""
    parts = [body[at:at + 7].encode() for at in range(0, len(body), 7)]
    chunks = b"".join(b"%x\r\n%s\r\n" % (len(part), part) for part in parts) + b"0\r\n\r\n"
    return head("POST %s HTTP/1.1" % path, USER, "Transfer-Encoding: chunked") + chunks


def kept_up(path, body):
    """Sends it until the server answers, as a scanner does."""
    for _ in range(600):
        status, told = posted(path, body)
        if status not in (502, 503, 504):
            return status, told
        time.sleep(0.02)
    fail(body, "an answer", (status, told))


# ---- the server

class Service:
    """Starts the server again whenever it ends, as systemd does, until it is stopped."""

    def __init__(self, connections):
        self.connections, self.runs, self.is_wanted = connections, 0, True
        self.change = threading.Lock()
        self.process = None
        self.thread = threading.Thread(target=self.run)
        self.thread.start()

    def run(self):
        words = [lotd, "serve", "--db", db, "--port", str(port), "--max", str(self.connections)]
        while True:
            with self.change:
                if not self.is_wanted:
                    return
                self.process = subprocess.Popen(words, stdout=subprocess.DEVNULL)
            self.runs += 1
            self.process.wait()

    def __enter__(self):
        return self

    def __exit__(self, *_):
        with self.change:
            self.is_wanted = False
            if self.process:
                self.process.terminate()
        self.thread.join()


def order(number):
    return '{"key":"K-%d","order":"S-%d","customer":"Corner Shop","lines":[{"gtin":"%s","qty":2}]}' % (number, number, GTIN)


def label(lot):
    return "01%s17261130%s" % (GTIN, "10" + lot)


# ---- what is tried

def is_guarded():
    """Nobody comes in without TLS, and without a name and its password."""
    with socket.create_connection(("127.0.0.1", tls), timeout=60) as peer:
        peer.sendall(head("GET /stock/%s HTTP/1.1" % GTIN, USER))
        is_told("without TLS", 400, server.answer_of(peer)[0])
    is_told("without a password", 401, shown("/stock/" + GTIN, "Accept: */*")[0])
    is_told("with another password", 401, shown("/stock/" + GTIN, NO_ONE)[0])
    is_told("with the password", (404, '{"code":"U01"}'), shown("/stock/" + GTIN))
    print("  TLS, a name and a password are asked for", flush=True)


def is_whole():
    """A request comes whole and with its length, however it is sent, and its path as it was."""
    item = '{"key":"I-1","gtin":"%s","name":"Oat drink"}' % GTIN
    text = chunked("/items", item)
    is_told("chunks without the proxy", (400, '{"code":"W02"}'), server.ask(port, text))
    is_told("chunks", (200, '{"act":1}'), through(text))
    is_told("a bin", (200, '{"act":2}'), posted("/bins", '{"key":"B-1","bin":"A-01","kind":"STORE"}'))
    for number, (lot, path) in enumerate([("L/1", "L%2F1"), ("L%1", "L%251"), ("L?1", "L%3F1")]):
        body = '{"delivery":"D-1","line":%d,"label":"%s","bin":"A-01","qty":5}' % (number + 1, label(lot))
        is_told("a receipt of " + lot, (200, '{"act":%d}' % (number + 3)), posted("/receipts", body))
        status, card = shown("/cards/%s/%s" % (GTIN, path))
        is_told("the card of " + lot, (200, "LOT %s EXPIRY 2026-11-30" % lot), (status, card.split("\n")[1]))
    is_told("a body that is too large", 413, posted("/goodsin", "x" * 262_145)[0])
    print("  a body in chunks is made whole; /, % and ? in a lot come as they were", flush=True)


def is_not_held_up():
    """A client that stops within its body holds up nobody."""
    with connected() as slow:
        slow.sendall(head("POST /days HTTP/1.1", USER, "Content-Length: 32") + b'{"key"')
        began = time.monotonic()
        is_told("beside a slow client", 200, shown("/stock/" + GTIN)[0])
        if time.monotonic() - began > 5:
            fail("beside a slow client", "an answer within 5 s", time.monotonic() - began)
    print("  a client that stops within its body holds up nobody", flush=True)


def has_rights():
    """A name may do what it has a right to, and another name, also one that differs in a letter, nothing."""
    front.write_users(room, "scanner", "picker-1", "Picker-1", "picker-2", "watch-1")
    bin, move = '{"key":"B-9","bin":"A-09","kind":"STORE"}', '{"key":"M-1","gtin":"%s","lot":"L/1","from":"A-01","to":"A-02","qty":1}' % GTIN
    no = (403, '{"code":"P01"}')
    for name, makes, moves, asks in (("picker-1", no, (409, '{"code":"U02"}'), 200), ("watch-1", no, no, 200), ("Picker-1", no, no, 403),
                                     ("picker-2", no, no, 403)):
        fields = [authorized(name)]
        is_told("a bin of " + name, makes, posted("/bins", bin, *fields))
        is_told("a move of " + name, moves, posted("/moves", move, *fields))
        is_told("what %s asks" % name, [asks, asks], [shown(path, *fields)[0] for path in ("/books", "/health")])
    for path in ("/holds", "/releases", "/recalls", "/leasts", "/items", "/bins", "/days", "/bins/", "//bins", "/%62ins", "/receipts/../bins", "/bins?x"):
        is_told("POST %s of picker-1" % path, no, posted(path, bin, authorized("picker-1")))
    is_told("the bin", (404, '{"code":"U02"}'), shown("/bins/A-09"))
    is_told("with the name alone", 401, shown("/books", authorized("watch-1", "x"))[0])
    print("  a name has the rights that are listed for it; another name has none", flush=True)


def is_its_own():
    """Only what the server needs comes to it; by another name of the machine nothing is answered; what the proxy tells a browser."""
    many = ["X-%d: %d" % (it, it) for it in range(40)]
    large = ["Cookie: a=" + "x" * 4500, "X-B: " + "y" * 4500]
    for number, fields in enumerate((many, large, ["Content-Type: text/plain", "X-Forwarded-For: 192.0.2.1", "Expect: 100-continue"])):
        body = '{"key":"H-%d","bin":"H-%d","kind":"HOLD"}' % (number, number)
        is_told("further fields", 200, posted("/bins", body, USER, *fields)[0] if number < 2 else shown("/books", USER, *fields[:2])[0])
    for host in ("other.example", "127.0.0.1", "localhost.other.example"):
        text = head("GET /books HTTP/1.1", USER).replace(b"Host: localhost", b"Host: " + host.encode())
        is_told("Host " + host, 421, through(text)[0])
    for what, fields in (("an answer", [USER]), ("a refusal", [NO_ONE])):
        told = whole(head("GET /books HTTP/1.1", *fields))[0]
        for name in ("Strict-Transport-Security: max-age=31536000", "Content-Security-Policy: default-src 'none'", "X-Content-Type-Options: nosniff"):
            is_told("%s in %s" % (name, what), True, name in told)
        is_told("how a name is asked for in " + what, int(fields == [NO_ONE]), told.count("WWW-Authenticate: Basic"))
    print("  no field of a client comes to the server; another name of the machine is refused", flush=True)


def imported(name):
    """The modules that a module of the page imports, before anything of it runs."""
    with open(os.path.join(server.TOP, "ops/page", name), encoding="utf-8") as file:
        paths = re.findall(r'^(?:import|export)\b[^;]*?"(\.[^"]+)";', file.read(), re.M)
    return {os.path.normpath(os.path.join(os.path.dirname(name), it)) for it in paths}


def is_packed():
    """HTTP/2, packed where the client takes it, and every module named in the page's head."""
    with connected(["h2", "http/1.1"]) as peer:
        is_told("the protocol", "h2", peer.selected_alpn_protocol())
    told, body = whole(head("GET /page/main.js HTTP/1.1", USER, "Accept-Encoding: gzip"))
    with open(os.path.join(server.TOP, "ops/page/main.js"), "rb") as file:
        is_told("main.js, packed", (True, file.read()), ("Content-Encoding: gzip" in told, gzip.decompress(joined(body))))
    with open(os.path.join(server.TOP, "ops/page/index.html"), encoding="utf-8") as file:
        named = set(re.findall(r'rel="modulepreload" href="([^"]+)"', file.read()))
    modules, more = set(), {"main.js"}
    while more:
        modules |= more
        more = {it for name in more for it in imported(name)} - modules
    is_told("modules that index.html does not name, or names and has not", set(), (modules - {"main.js"}) ^ named)
    print("  HTTP/2, packed; the page's head names each of its %d modules" % len(modules), flush=True)


def is_not_guessed():
    """Guesses of an address are answered 5 a second, and hold up nobody who knows the password."""
    over = time.monotonic() + 6

    def guesses(_):
        told = []
        while time.monotonic() < over:
            told.append(shown("/books", NO_ONE)[0])
        return told

    with concurrent.futures.ThreadPoolExecutor(24) as clients:
        made = [clients.submit(guesses, it) for it in range(24)]
        time.sleep(2)
        began = time.monotonic()
        is_told("beside those who guess", 200, shown("/books")[0])
        took = time.monotonic() - began
        told = [status for it in made for status in it.result()]
    is_told("answers to guesses", {401}, set(told))
    # Those within 6 seconds, and the 24 that were on their way then.
    if not 20 <= len(told) <= 5 * 6 + 24 + 6:
        fail("guesses within 6 s", "5 a second", len(told))
    if took > 2:
        fail("beside those who guess", "an answer within 2 s", took)
    is_told("who guesses nothing is asked at once", True, min(timed_401() for _ in range(3)) < 0.5)
    print("  %d guesses were answered within 6 s, and the one who knows the password after %.2f s" % (len(told), took), flush=True)


def timed_401():
    began = time.monotonic()
    is_told("without a password", 401, shown("/books", "Accept: */*")[0])
    return time.monotonic() - began


def is_open_beside(count):
    """Clients that stop within the first bytes of TLS, and come anew when they are cut, take no place of others."""
    halves, stop = [], threading.Event()

    def crowd():
        while not stop.is_set():
            while len(halves) < count:
                peer = socket.create_connection(("127.0.0.1", tls), timeout=10)
                peer.sendall(bytes.fromhex("16030100f8010000f40303") + b"x" * 20)
                peer.setblocking(False)
                halves.append(peer)
            for it in halves[:]:
                try:
                    if it.recv(1) == b"":
                        halves.remove(it)
                        it.close()
                except BlockingIOError:
                    pass
                except OSError:
                    halves.remove(it)
                    it.close()
            time.sleep(0.05)

    thread = threading.Thread(target=crowd)
    thread.start()
    while len(halves) < count:
        time.sleep(0.05)
    try:
        is_told("30 requests beside %d halves" % count, [200] * 30, [shown("/books")[0] for _ in range(30)])
    finally:
        stop.set()
        thread.join()
        for it in halves:
            it.close()
    print("  30 requests beside %d clients that stop within TLS: all were answered" % count, flush=True)


def is_logged():
    """Each request is a line of JSON; who received is in it, with what; and how long it took."""
    with open(room + "/lotd.log", encoding="utf-8") as file:
        lines = [json.loads(line) for line in file]
    came = [json.loads(it["receipt"])["line"] for it in lines if it["target"] == "/receipts" and it["status"] == "200" and it["name"] == "scanner"]
    is_told("the receipts in the log", [1, 2, 3], came)
    is_told("bodies of others", set(), {it["receipt"] for it in lines if it["target"] != "/receipts"} - {""})
    is_told("times", True, all(0 <= it["seconds"] < 60 for it in lines) and any(float(it["lotd_seconds"].split(",")[0] or 0) > 0 for it in lines))
    print("  the log has %d lines of JSON" % len(lines), flush=True)


def at_once(first, count):
    """So many orders by 32 clients at once. Gives their answers by their number."""
    with concurrent.futures.ThreadPoolExecutor(32) as clients:
        return dict(zip(range(first, first + count), clients.map(lambda number: kept_up("/orders", order(number)), range(first, first + count))))


def are_acts(what, answers, first):
    """Each was accepted, and the acts are so many in a row."""
    if any(status != 200 for status, _ in answers.values()):
        fail(what, 200, next(it for it in answers.values() if it[0] != 200))
    acts = sorted(int(told.split(":")[1].split(",")[0].rstrip("}")) for _, told in answers.values())
    is_told(what, list(range(first, first + len(answers))), acts)


def are_there(what, count):
    """The item has so many orders, by what is reserved and short of them: 15 units came, two are wanted of each."""
    status, told = shown("/shortages/" + GTIN)
    is_told(what, (200, "TOTAL %d" % (2 * count - 15)), (status, told.rstrip("\n").split("\n")[-1]))


def restored(acts):
    """The copy is put back as the operations say, and what came since is sent again: each act stands once."""
    for end in ("", "-wal"):
        if os.path.exists(db + end):
            os.remove(db + end)
        if os.path.exists(backup + end):
            shutil.copy2(backup + end, db + end)
    with Service(1_000_000):
        is_told("an order of before the copy, sent again", acts[1], kept_up("/orders", order(1)))
        are_there("the copy", 500)
        is_told("the first order since", (200, '{"act":506,"short":2}'), kept_up("/orders", order(501)))


subprocess.run([lotd, "init", "--db", db, "--day", "2026-05-04"], check=True)
started = proxy(nginx, openssl, room, tls, port)
try:
    with Service(1_000_000):
        while shown("/stock/" + GTIN)[0] == 502:
            time.sleep(0.05)
        is_guarded()
        is_whole()
        is_not_held_up()
        is_told("health", 200, shown("/health")[0])
        is_told("health by POST", 200, posted("/health", "{}")[0])
        is_told("health without a password", 401, shown("/health", "Accept: */*")[0])
        os.makedirs(room + "/state", exist_ok=True)
        with open(room + "/state/lotd.prom", "w", encoding="utf-8") as file:
            file.write("lotd_up 1\n")
        is_told("metrics", (200, "lotd_up 1\n"), shown("/metrics", authorized("scanner")))
        is_packed()
        answers = at_once(1, 300)
        are_acts("300 orders by 32 clients", answers, 6)
        are_there("300 orders", 300)
        print("  300 requests by 32 clients at once: each was done once", flush=True)
    is_told("health without a server", 502, shown("/health")[0])
    with Service(20) as short:
        more = at_once(301, 200)
        again = {number: kept_up("/orders", order(number)) for number in range(301, 311)}
        are_there("500 orders", 500)
    are_acts("200 orders at a server that ends", more, 306)
    is_told("sent again", {number: more[number] for number in again}, again)
    if short.runs < 10:
        fail("a server of 20 connections", "10 runs or more", short.runs)
    print("  200 requests while the server ended %d times: each was done once" % short.runs, flush=True)
    for end in ("", "-wal"):
        if os.path.exists(db + end):
            shutil.copy2(db + end, backup + end)
    with Service(1_000_000):
        is_told("an order behind the copy", (200, '{"act":506,"short":2}'), kept_up("/orders", order(600)))
    restored(answers)
    print("  a copy taken between two runs was restored", flush=True)
    is_logged()
    with Service(1_000_000):
        while shown("/stock/" + GTIN)[0] == 502:
            time.sleep(0.05)
        is_its_own()
        has_rights()
        is_open_beside(600)
        is_not_guessed()
finally:
    started.terminate()
    started.wait()
print("proxy: every answer was the expected one")
