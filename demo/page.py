"""A house to look at in a browser, for `sh demo.sh page`: fills new books, serves the page of `ops/page` on loopback, without TLS,
names and passwords, and passes all other requests on to lotd. Ctrl-C ends it, and removes the books.

This small server stands in for the proxy, whether nginx is installed or not, so that everybody sees the same. It sends the headers
and the types of files that `ops/nginx-lotd.conf` has, read from there, refuses as it does what another site asks, and takes no
request by a name of another host. It is no proxy for a warehouse.
Words: the program, and the port of the page. The program's own port is any that is free.
"""
import datetime
import http.client
import http.server
import json
import os
import re
import shutil
import signal
import socket
import subprocess
import sys
import tempfile

from house import House, first_day

LOTD, PORT = sys.argv[1], int(sys.argv[2])
TOP = os.path.dirname(os.path.dirname(os.path.abspath(__file__)))
FILES = os.path.join(TOP, "ops/page")
with open(os.path.join(TOP, "ops/nginx-lotd.conf"), encoding="utf-8") as file:
    CONF = file.read()
# Without TLS there is nothing to say of it.
FIELDS = [(name, quoted or bare) for name, quoted, bare in re.findall(r'^    add_header (\S+) (?:"([^"]*)"|(\S+)) always;', CONF, re.M)
          if name != "Strict-Transport-Security"]
# What a variable of these is, and the files of the page for which it is nothing.
VALUES = {name: quoted or bare for name, quoted, bare in re.findall(r'^map \$lotd_part (\$\w+) \{\n    0 (?:"([^"]*)"|(\S+));', CONF, re.M)}
PARTS = re.search(r'^map \$uri \$lotd_part \{\n(.*?)^\}', CONF, re.M | re.S)[1]
WHOLE, BARE = re.findall(r"^    (/\S+) 0;", PARTS, re.M), re.search(r'^    "~([^"]+)" 1;', PARTS, re.M)[1]
TYPES = {ending: kind for kind, ending in re.findall(r"^ +((?:text|image|application)/\S+) (\w+);", CONF, re.M)}
# What the page goes by in a house.
HOUSE = re.search(r"location = /state/house\.json \{[^}]*return 200 '([^']*)';", CONF)[1]
LARGEST = 262144


def free_port():
    with socket.socket() as it:
        it.bind(("127.0.0.1", 0))
        return it.getsockname()[1]


def headers(path):
    """What the proxy says with each answer: of a script or a style a part of it."""
    is_bare = path not in WHOLE and re.search(BARE, path)
    return [(name, VALUES.get(value, value)) for name, value in FIELDS if not (is_bare and value in VALUES)]


class Page(http.server.BaseHTTPRequestHandler):
    """A request of a browser."""
    protocol_version = "HTTP/1.1"
    timeout = 60
    behind = free_port()                        # the port of lotd
    day = None                                  # what the screen "State" is shown of the day

    def give(self, status, body=b"", kind="text/plain", **fields):
        self.send_response(status)
        for name, value in [*headers(self.path.partition("?")[0]), ("Content-Type", kind), ("Content-Length", len(body)), ("Cache-Control", "no-cache"), *fields.items()]:
            self.send_header(name, str(value))
        self.end_headers()
        self.wfile.write(body)

    def is_own(self):
        """Whether a program asks, or a page of this server; a browser tells another site's."""
        origin, site = self.headers["Origin"], self.headers["Sec-Fetch-Site"]
        return origin in (None, f"http://{self.headers['Host']}") and site in (None, "none", "same-origin")

    def do_GET(self):
        path = self.path.partition("?")[0]
        if self.headers["Host"] not in (f"127.0.0.1:{PORT}", f"localhost:{PORT}"):
            self.give(403)
        elif path == "/":
            self.give(302, Location="/page/")
        elif path == "/favicon.ico":
            self.give(204)
        elif path == "/state/day.json":
            self.give(200, json.dumps(self.day).encode(), "application/json")
        elif path == "/state/house.json":
            self.give(200, HOUSE.encode(), "application/json")
        elif path.startswith("/state/"):
            self.give(404)
        elif path.startswith("/page/"):
            self.give_file(path[len("/page/"):] or "index.html")
        elif not self.is_own():
            self.give(403)
        else:
            self.pass_on()

    do_POST = do_GET

    def give_file(self, name):
        names = [os.path.relpath(os.path.join(at, it), FILES) for at, _, files in os.walk(FILES) for it in files]
        if name not in names:
            self.give(404)
            return
        kind = TYPES.get(name.rpartition(".")[2], "application/octet-stream")
        with open(os.path.join(FILES, name), "rb") as it:
            self.give(200, it.read(), kind + "; charset=utf-8" * (kind == "text/html"))

    def pass_on(self):
        """Hands the request to lotd, which ends each connection behind its answer. A browser takes a lot `.` or `..` out of a path, so
        the page asks for it by its dots."""
        length = self.headers["Content-Length"] or "0"
        if not length.isdigit() or int(length) > LARGEST or self.headers["Transfer-Encoding"]:
            self.close_connection = True
            self.give(413)
            return
        body = self.rfile.read(int(length))
        path = re.sub(r"^/dots/([12])(/(?:cards|notices|traces)/\d+)$", lambda it: f"{it[2]}/{'.' * int(it[1])}", self.path)
        connection = http.client.HTTPConnection("127.0.0.1", self.behind, timeout=60)
        try:
            connection.request(self.command, path, body)
            answer = connection.getresponse()
            text = answer.read()
        except (OSError, http.client.HTTPException, UnicodeError):
            self.give(502)
            return
        finally:
            connection.close()
        self.give(answer.status, text, answer.headers["Content-Type"], **{"Allow": it for it in [answer.headers["Allow"]] if it})

    def log_message(self, *_):
        pass


class Site(http.server.ThreadingHTTPServer):
    def handle_error(self, *_):
        pass                                    # who asked is gone


def serves(room, today):
    """The program, which serves new books."""
    db = os.path.join(room, "stock.db")
    subprocess.run([LOTD, "init", "--db", db, "--day", str(first_day(today))], check=True)
    line = [LOTD, "serve", "--db", db, "--port", str(Page.behind), "--max", "1000000"]
    program = subprocess.Popen(line, stdout=subprocess.PIPE, text=True)
    if not program.stdout.readline().startswith("listening"):
        sys.exit("demo: the server does not listen")
    return program


def fills(today):
    """Fills the books, and tells what there is to look at."""
    print(f"> a house of 40 items, 200 lots and 60 orders, from {first_day(today)} to today", flush=True)
    house = House(Page.behind, today)
    for line in house.fill():
        print(f"  {line}", flush=True)
    now = datetime.datetime.now().astimezone().isoformat(timespec="seconds")
    Page.day = {"answer": house.opened, "at": now, "day": str(today), "status": 200}
    return house.shown


def main():
    try:
        site = Site(("127.0.0.1", PORT), Page)
    except OSError as fault:
        sys.exit(f"demo: port {PORT}: {fault.strerror}; PORT names another")
    for number in (signal.SIGHUP, signal.SIGINT, signal.SIGTERM):
        signal.signal(number, lambda *_: sys.exit(0))
    today, program, room = datetime.date.today(), None, tempfile.mkdtemp()
    try:
        program = serves(room, today)
        shown = fills(today)
        own = f"http://127.0.0.1:{PORT}"
        print(f"the page: {own}/ (a sign is asked first: two to five letters, say ANN); Ctrl-C ends it, and removes the house")
        print(f"Pick an order: {shown['urgent']} urgent, {shown['short']} short; What expires: lots past their day; An item, by its name (salmon): its lots, who is "
              f"short; {own}/page/#/{shown['recalled']}: recalled, and whom to call", flush=True)
        site.serve_forever()
    finally:
        if program:
            program.kill()
            program.wait()
        shutil.rmtree(room, ignore_errors=True)
        print("the house is gone")


if __name__ == "__main__":
    main()
