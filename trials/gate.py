"""What `trials/page.py` has between the proxy and lotd: a gate that hands requests over, and may spoil an answer."""
import re
import socketserver
import time

import server


def request_of(peer):
    """A request, whole."""
    raw = b""
    while b"\r\n\r\n" not in raw:
        more = peer.recv(65536)
        if not more:
            return raw
        raw += more
    length = re.search(rb"(?i)\r\ncontent-length: *(\d+)", raw)
    wanted = raw.index(b"\r\n\r\n") + 4 + (int(length[1]) if length else 0)
    while len(raw) < wanted:
        more = peer.recv(65536)
        if not more:
            break
        raw += more
    return raw


def answer(status, kind, body):
    return b"HTTP/1.1 %s\r\ncontent-type: %s\r\ncontent-length: %d\r\nconnection: close\r\n\r\n%s" % (status, kind, len(body), body)


SPOILED = {
    "503": answer(b"503 Service Unavailable", b"application/json", b'{"code":"W90"}'),
    "other": answer(b"200 OK", b"text/html", b"<h1>Guest Wi-Fi</h1>"),
}


class Gate(socketserver.BaseRequestHandler):
    """Between the proxy and lotd. `lost` hands a POST over and throws its answer away, `kill` kills lotd then too; `silent`
    takes requests and says nothing, as a server does that is just starting; `503` and `other` answer in lotd's place."""
    mode = "pass"
    behind = 0                                  # the port of lotd
    kill = None                                 # what kills it
    stand_in = None                             # what answers requests that the program has not yet
    posts = []                                  # the bodies that came since the list was emptied

    def handle(self):
        raw, mode = request_of(self.request), Gate.mode
        if raw.startswith(b"POST"):
            Gate.posts.append(raw.split(b"\r\n\r\n", 1)[1])
        elif mode in ("lost", "kill"):
            mode = "pass"
        while Gate.mode == "silent":
            time.sleep(0.05)
        stand_in = Gate.stand_in
        if stand_in and mode in ("pass", "silent") and (instead := stand_in.answers(raw)):
            self.request.sendall(instead)
            return
        order = stand_in.before(raw) if stand_in else None
        if mode in SPOILED:
            self.request.sendall(SPOILED[mode])
            return
        try:
            with server.asked(Gate.behind, raw) as behind:
                told = server.bytes_of(behind)
        except OSError:
            return
        if stand_in:
            stand_in.after(order, told)
        if mode == "kill":
            Gate.kill()
        if mode in ("pass", "silent"):
            try:
                self.request.sendall(told)
            except OSError:
                pass                            # who asked is gone


class Threads(socketserver.ThreadingTCPServer):
    allow_reuse_address = daemon_threads = True
    request_queue_size = 64

    def handle_error(self, *_):
        pass
