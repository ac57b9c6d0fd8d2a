"""What the trials share: the program, a folder of their own, the server of lotd, and requests to it."""
import atexit
import os
import select
import shutil
import socket
import subprocess
import sys
import tempfile

TOP = os.path.dirname(os.path.dirname(os.path.abspath(__file__)))


def program():
    """The path of lotd: that of LOTD, or else of what `build.sh` proves and builds."""
    if os.environ.get("LOTD"):
        return os.path.abspath(os.environ["LOTD"])
    print("> prove what lotd stands on, and build lotd", flush=True)
    status = subprocess.run(["sh", "build.sh"], cwd=TOP).returncode
    if status != 0:
        sys.exit(status)
    return os.path.join(TOP, "crates/lotd/out/lotd")


def room():
    """A folder that is gone when the trial ends."""
    folder = tempfile.mkdtemp()
    atexit.register(shutil.rmtree, folder, ignore_errors=True)
    return folder


def number(name, otherwise):
    """The number that the environment has under this name."""
    return int(os.environ.get(name) or otherwise)


class Server:
    """`lotd serve` on a file, for so many connections. It listens, and is gone at the end of the `with`. `words` go behind
    its own, and its standard error to `errors`."""

    def __init__(self, lotd, db, port, connections, words=(), errors=subprocess.PIPE):
        line = [lotd, "serve", "--db", db, "--port", str(port), "--max", str(connections), *words]
        self.fault = b""
        self.process = subprocess.Popen(line, stdout=subprocess.PIPE, stderr=errors)
        ready, _, _ = select.select([self.process.stdout], [], [], 60)
        told = self.process.stdout.readline() if ready else b"nothing"
        if told != b"listening on 127.0.0.1:%d\n" % port:
            self.end()
            sys.exit("the server does not listen: it says %r and %r" % (told, self.fault))

    def __enter__(self):
        return self

    def __exit__(self, *_):
        self.end()

    def end(self):
        """Ends it by SIGKILL, where it has not ended by itself."""
        self.process.kill()
        self.process.wait()
        self.process.stdout.close()
        if self.process.stderr:
            self.fault = self.process.stderr.read()
            self.process.stderr.close()

    def ends(self):
        """Waits until it has ended by itself."""
        if self.process.wait(timeout=60) != 0:
            sys.exit("the server ended with status %d" % self.process.returncode)


def connected(port):
    peer = socket.create_connection(("127.0.0.1", port), timeout=60)
    peer.setsockopt(socket.IPPROTO_TCP, socket.TCP_NODELAY, 1)
    return peer


def asked(port, text):
    """A connection over which this text was sent, and ended."""
    peer = connected(port)
    peer.sendall(text)
    peer.shutdown(socket.SHUT_WR)
    return peer


def bytes_of(peer):
    """What comes until the connection is closed."""
    text = b""
    while more := peer.recv(65536):
        text += more
    return text


def answer_of(peer):
    """The status and the body of the answer, or None where the connection was closed without one."""
    text = bytes_of(peer)
    if not text:
        return None
    head, _, body = text.partition(b"\r\n\r\n")
    return int(head.split(b" ")[1]), body.decode("latin-1")


def ask(port, text):
    with asked(port, text) as peer:
        return answer_of(peer)


def audited(lotd, db):
    """What an audit of the books in this file prints, or tells."""
    done = subprocess.run([lotd, "audit", "--db", db], capture_output=True, text=True, timeout=60)
    return (done.stdout if done.returncode == 0 else "") + done.stderr


def post(path, body):
    return b"POST %s HTTP/1.1\r\nContent-Length: %d\r\n\r\n%s" % (path.encode(), len(body), body.encode())


def get(path):
    return b"GET %s HTTP/1.1\r\n\r\n" % path.encode()
