"""Acts kept in a file of the acts: `lotd serve --acts FILE`. Random acts of every command are asked for, and the server is ended
by SIGKILL at random moments, most of them within a request. FILE is then a beginning of the history of the books, and it has
every act of which a byte was answered. At some of these moments the file of the books is deleted, and books are made again of
an older copy, or of none, and FILE by `lotd apply`: every row is that of the books that were lost, and the day goes on with
them. What had no answer is asked again, as a scanner does. In the end FILE is the history, every row and every answer is that
of an undisturbed run over the same requests, and FILE alone makes such books.
Then files that cannot be used: on a disk that is full (as root), a second name, a link to nothing, a folder, a name without a
folder, a file that another server has, that of other books, of newer ones, a small file of another kind, with a line changed.
And such as are made whole: none, one that is cut off, one with a part of a line behind the last. And states that a loss of
power may leave: FILE as it was before an act, and of the write for it, which was not synced, any of its sectors. Each start
makes it whole. FILE emptied while it is served ends the server at its next act. Books that opened a day two days after they
began are served twice beside their FILE. And `lotd import --acts FILE`.
Needs the Rattle kit, and takes some minutes. ACTS (1500), EACH (40, a kill in so many requests), TORN (2000, states) and SEED
(1) can be set. With
`--big` there are RECEIPTS (20000) in their place: what a server takes with FILE and without, and a start.
Exit status 0 only if all was as it must be.
"""
import atexit
import json
import os
import random
import re
import resource
import socket
import statistics
import subprocess
import sys
import threading
import time

import acts
import server
from acts import copied, day_number, day_text, rows_of

lotd, room, port = server.program(), server.room(), server.number("PORT", 18096)
seed, each = server.number("SEED", 1), server.number("EACH", 40)
chance = random.Random(seed)
FIRST = day_number("2026-05-04")
LINE_MAX = 8_192
PAGE = 4_096
SECTOR = 512


def fails(what, expected, got):
    sys.exit("kept: seed %d: %s: expected %r, got %r" % (seed, what, expected, got))


def path_of(name):
    return os.path.join(room, name)


def read(path):
    with open(path, "rb") as file:
        return file.read()


def write(path, text):
    with open(path, "wb") as file:
        file.write(text)
    return path


def removed(path):
    """Neither the file nor its log is there."""
    for end in ("", "-wal"):
        if os.path.lexists(path + end):
            os.remove(path + end)
    return path


def run(*words, text=b""):
    """The exit status, what is printed and what is told of a line of the program."""
    done = subprocess.run([lotd, *words], input=text, capture_output=True, timeout=600)
    return done.returncode, done.stdout.decode("latin-1"), done.stderr.decode("latin-1")


def begun(name, day=day_text(FIRST)):
    """Books in which nothing was done."""
    db = removed(path_of(name + ".db"))
    subprocess.run([lotd, "init", "--db", db, "--day", day], check=True, timeout=60)
    return db


def history(db):
    """The text of the acts, of a copy."""
    done = subprocess.run([lotd, "history", "--db", copied(db, path_of("read.db"))], capture_output=True, timeout=600)
    if (done.returncode, done.stderr) != (0, b""):
        fails("a history", (0, b""), (done.returncode, done.stderr))
    return done.stdout


def lines_of(text):
    """The whole lines of a text."""
    return re.findall(rb"[^\n]*\n", text)


def serving(db, file, connections=1_000_000):
    return server.Server(lotd, db, port, connections, ["--acts", file])


def is_sound(what, db, count):
    told = server.audited(lotd, copied(db, path_of("sound.db")))
    if told != "audited %d acts from %s\n" % (count, day_text(FIRST)):
        fails(what, "%d sound acts" % count, told)


def are_same(what, one, other):
    """Each row of each table is the same."""
    rows, others = rows_of(one, room), rows_of(other, room)
    for table in acts.TABLES:
        if rows[table] != others[table]:
            keys = [key for key in {**rows[table], **others[table]} if rows[table].get(key) != others[table].get(key)]
            fails("%s: %s" % (what, table), "the same rows", [(rows[table].get(key), others[table].get(key)) for key in keys[:3]])


def is_history(what, db, file):
    """The file has the line of each act, and nothing else."""
    if (found := read(file)) != (text := history(db)):
        fails(what, "%d lines of acts" % len(lines_of(text)), "%d lines, %d bytes of %d" % (len(lines_of(found)), len(found), len(text)))


# Kills

class Asking:
    """A connection for one request, and what has come of its answer."""

    def __init__(self):
        self.answer = b""
        self.begun = threading.Event()
        self.peer = server.connected(port)
        self.reader = threading.Thread(target=self.read)
        self.reader.start()

    def sends(self, text):
        self.peer.sendall(text)
        self.peer.shutdown(socket.SHUT_WR)

    def read(self):
        try:
            while more := self.peer.recv(65536):
                self.answer += more
                self.begun.set()
        except OSError:
            pass
        self.begun.set()

    def told(self):
        self.reader.join(60)
        if self.reader.is_alive():
            fails("an answer", "an end", "none")
        self.peer.close()
        return self.answer


def parted(answer):
    """The status and the body, or None where the answer is not whole."""
    head, gap, body = answer.partition(b"\r\n\r\n")
    if not gap or len(body) != int(head.split(b"content-length: ")[1].split(b"\r\n")[0]):
        return None
    return int(head.split(b" ")[1]), body.decode("latin-1")


def same_answers(one, other):
    """The same, but that rows of a file may be new in the one and be there in the other."""
    if one == other:
        return True
    tallies = [json.loads(body) for status, body in (one, other) if status == 200]
    return len(tallies) == 2 and all("accepted" in it for it in tallies) and len({it["accepted"] + it["repeated"] for it in tallies}) == 1


class Clerk:
    """Asks servers over these books that keep this file, and ends them by SIGKILL now and then."""

    def __init__(self, db, file):
        self.db, self.file, self.serving = db, file, None
        self.answers, self.took, self.copies, self.lost = [], [0.002], [None], None
        self.counts = dict.fromkeys(["before", "unkept", "unanswered", "answered"], 0)
        self.restored = 0

    def ask(self, text):
        """The answer. Where none came whole, the same is asked again."""
        again = False
        while (answer := self.asked(text)) is None:
            again = True
        self.answers.append((text, answer, again))
        if self.lost:
            self.comes_to_the_same(text, answer)
        return answer

    def asked(self, text):
        if self.serving is None:
            self.serving = serving(self.db, self.file)
            is_history("a start", self.db, self.file)
        if chance.random() * each < 1:
            return self.killed(text)
        began = time.perf_counter()
        answer = server.ask(port, text)
        self.took = self.took[-99:] + [time.perf_counter() - began]
        return answer

    def killed(self, text):
        """The server is ended so long after the request, or after the file has grown, that it is within the act or near it."""
        found = read(self.file)
        before, took = len(lines_of(found)), statistics.median(self.took)
        asking = Asking()
        until = time.perf_counter() + chance.uniform(0, took)
        asking.sends(text)
        if chance.random() < 0.4:
            while os.path.getsize(self.file) == len(found) and not asking.begun.is_set():
                pass
            until = time.perf_counter() + chance.uniform(0, 0.3 * took)
        while time.perf_counter() < until:
            pass
        self.ends()
        told = asking.told()
        self.is_beginning(before, told)
        if chance.random() < 0.2:
            self.copies.append(copied(self.db, path_of("copy-%d.db" % len(self.copies))))
        if chance.random() < 0.3:
            self.loses_its_disk()
        return parted(told)

    def ends(self):
        if self.serving is not None:
            self.serving.end()
            self.serving = None

    def is_beginning(self, before, told):
        """What the file has is a beginning of the history, and all of it where a byte was answered."""
        text, found = history(self.db), read(self.file)
        count, kept = len(lines_of(text)), len(lines_of(found))
        if not text.startswith(found):
            fails("a kill", "a beginning of the history", found[-200:])
        if told and count != kept:
            fails("an answer", "%d acts in the file" % count, "%d, and %r was answered" % (kept, told))
        kind = "answered" if parted(told) else "before" if count == before else "unkept" if kept < count else "unanswered"
        self.counts[kind] += 1

    def loses_its_disk(self):
        """The file of the books is gone, and they are made again of a copy, or of none, and of the file of the acts."""
        reference = copied(self.db, path_of("reference.db"))
        there, kept = len(lines_of(history(reference))), lines_of(read(self.file))
        copy = chance.choice(self.copies)
        removed(self.db)
        if copy:
            copied(copy, self.db)
        else:
            begun(os.path.basename(self.db)[:-3], kept[0].split(b"\t")[1].decode() if kept else day_text(FIRST))
        known = len(lines_of(history(self.db)))
        expected = (0, "applied %d known %d beyond %d\n" % (len(kept) - min(known, len(kept)), min(known, len(kept)), max(0, known - len(kept))), "")
        if (got := run("apply", "--db", self.db, self.file)) != expected:
            fails("a restore", expected, got)
        self.restored += 1
        if there == max(known, len(kept)):
            are_same("a restore", reference, self.db)
        else:
            self.lost = reference

    def comes_to_the_same(self, text, answer):
        """The act that was not answered stood in the books that are lost. Asked again there, and of the restored ones, it has
        one answer, and every row is the same."""
        reference, self.lost = self.lost, None
        with server.Server(lotd, reference, port + 1, 1) as beside:
            told = server.ask(port + 1, text)
            beside.ends()
        if not same_answers(told, answer):
            fails("asked again", told, answer)
        are_same("asked again", reference, self.db)


def a_day(count):
    """A day's work with kills: the books, the file, and older copies."""
    os.mkdir(path_of("elsewhere"))
    db, file = begun("stock"), path_of("elsewhere/stock.acts")
    clerk = Clerk(db, file)
    warehouse = acts.Warehouse(chance, clerk, FIRST)
    warehouse.works(count)
    clerk.ends()
    text = history(db)
    done = len(lines_of(text))
    if read(file) != text:
        fails("the end of the day", "the history", read(file)[-200:])
    is_sound("the served books", db, done)
    kinds = clerk.counts
    print("  %d acts, %d kills: %d before the act, %d between the books and the file, %d before the answer, %d after it"
          % (done, sum(kinds.values()), kinds["before"], kinds["unkept"], kinds["unanswered"], kinds["answered"]))
    print("  the file was a beginning of the history each time, and had every act that was answered; %d times the books were lost and made again"
          % clerk.restored, flush=True)
    undisturbed(db, clerk.answers)
    from_the_file_alone(db, file, done)
    return db, file, [copy for copy in clerk.copies if copy]


def undisturbed(db, answers):
    """The same requests, asked of one server that keeps no file."""
    plain = begun("plain")
    with server.Server(lotd, plain, port, len(answers)) as beside:
        for text, answer, again in answers:
            if (told := server.ask(port, text)) != answer and not (again and same_answers(told, answer)):
                fails("an undisturbed run: %r" % text[:80], told, answer)
        beside.ends()
    are_same("an undisturbed run", plain, db)
    print("  every answer and every row is that of an undisturbed run over %d requests" % len(answers), flush=True)


def from_the_file_alone(db, file, done):
    with open(file, "rb") as lines:
        new = begun("anew", lines.readline().split(b"\t")[1].decode())
    if (got := run("apply", "--db", new, file)) != (0, "applied %d known 0 beyond 0\n" % done, ""):
        fails("the file alone", "%d acts" % done, got)
    are_same("the file alone", db, new)
    print("  the file alone makes books with the same rows", flush=True)


# Files that cannot be used

def is_refused(what, db, file, *told):
    """The server does not start: this is told, nothing is printed, and neither the file nor the acts are changed."""
    text, found = history(db), read(file) if os.path.isfile(file) else None
    got = run("serve", "--db", db, "--port", str(port), "--max", "1", "--acts", file)
    if got not in [(1, "", "lotd: %s\n" % it) for it in told]:
        fails(what, told, got)
    if history(db) != text:
        fails(what, "the same acts", "others")
    if found is not None and read(file) != found:
        fails(what, "the same file", "another")


def is_made_whole(what, db, file, was):
    """With these bytes in it, the file is the history once a server has started."""
    write(file, was)
    with serving(db, file, 1) as beside:
        is_history(what, db, file)
        server.ask(port, server.get("/orders/NONE"))
        beside.ends()


def is_refused_own(db, own):
    """The books, or their log, stand open as the file of the acts, so they cannot be opened as books."""
    text = history(db)
    if (got := run("serve", "--db", db, "--port", str(port), "--max", "1", "--acts", own)) != (1, "", "lotd: store\n"):
        fails("a file of the books", "lotd: store", got)
    if history(db) != text:
        fails("a file of the books", "the same acts", "others")
    is_sound("a file of the books", db, len(lines_of(text)))


def wrong_places(db):
    target = write(path_of("target"), b"")
    os.symlink(target, path_of("link"))
    with serving(db, path_of("link"), 1) as beside:
        is_history("a link", db, target)
        server.ask(port, server.get("/orders/NONE"))
        beside.ends()
    os.link(target, path_of("second"))
    is_refused("a second name", db, path_of("second"), "acts")
    os.remove(path_of("second"))
    os.remove(target + "-wal")
    os.symlink(path_of("nothing"), target + "-wal")
    is_refused("a link in the place of its log", db, target, "acts")
    is_refused("a link to nothing", db, target + "-wal", "acts")
    if os.path.exists(path_of("nothing")):
        fails("a link to nothing", "nothing behind it", "something")
    is_refused("a folder", db, room, "acts")
    is_refused("a name without a folder", db, path_of("none/stock.acts"), "acts")
    is_refused("a device", db, "/dev/full", "acts")
    is_refused("no name", db, "", "acts")
    # The books' own files are none of the acts, and stay whole.
    for own in (db, db + "-wal"):
        is_refused_own(db, own)
    print("  a second name, a link to nothing, a folder, a device, no folder, the books' own files: refused", flush=True)


def a_second_server(db, file):
    other = begun("other")
    with serving(db, file, 2) as first:
        got = run("serve", "--db", other, "--port", str(port + 1), "--max", "1", "--acts", file)
        if got != (1, "", "lotd: acts\n"):
            fails("a second server", "lotd: acts", got)
        for _ in range(2):
            server.ask(port, server.get("/orders/NONE"))
        first.ends()
    is_history("a second server", db, file)
    is_refused("other books", other, file, "lacks act 1")
    with server.Server(lotd, other, port, 1) as own:
        server.ask(port, server.post("/bins", '{"key":"OWN","bin":"OWN-1","kind":"STORE"}'))
        own.ends()
    is_refused("other books with an act", other, file, "differs act 1")
    print("  a file that another server has, and that of other books: refused", flush=True)


def wrong_lines(db, copies):
    """Files that are not the history, nor a beginning of it."""
    text = history(db)
    lines, file = lines_of(text), path_of("wrong.acts")
    count = len(lines)

    def with_lines(what, wrong, told):
        is_refused(what, db, write(file, b"".join(wrong)), told)

    for _ in range(8):
        at = chance.randrange(1, count - 1)
        line = bytearray(lines[at])
        line[chance.randrange(len(line))] ^= 1
        with_lines("a byte changed", lines[:at] + [bytes(line)] + lines[at + 1:], "differs act %d" % (at + 1))
        with_lines("a line left out", lines[:at] + lines[at + 1:], "differs act %d" % (at + 1))
        with_lines("a line doubled", lines[:at + 1] + lines[at:], "differs act %d" % (at + 2))
    with_lines("a line more", lines + [b"%d" % (count + 1) + lines[-1][len(b"%d" % count):]], "lacks act %d" % (count + 1))
    with_lines("a long rest", lines + [bytes(LINE_MAX)], "differs act %d" % (count + 1))
    for rest in (lines[-1][:-1], b"x" * (LINE_MAX - 1), b"\n"):
        with_lines("no part of a line of the next act", lines + [rest], "differs act %d" % (count + 1))
    for other in (b'{"port": 8090}', b"token", b"[Unit]\nDescription=stock\n"):
        is_refused("a small file of another kind", db, write(file, other), "differs act 1")
    for copy in chance.sample(copies, min(3, len(copies))):
        known = len(lines_of(history(copy)))
        if known < count:
            is_refused("older books", copy, write(file, text), "lacks act %d" % (known + 1))
    print("  lines changed, left out, doubled, too many, and books that are older than the file: told", flush=True)
    last = len(lines[-1])
    for cut in [0, 1, 2, last - 1, last, last + 1] + [chance.randrange(len(text)) for _ in range(6)]:
        is_made_whole("a file cut off", db, file, text[:len(text) - cut])
    for rest in (b"%d" % (count + 1), b"%d\t2026-05-0" % (count + 1), bytes(100), b"%d\t2026" % (count + 1) + bytes(40)):
        is_made_whole("a part of a line behind the last", db, file, text + rest)
    is_made_whole("an empty file", db, file, b"")
    removed(file)
    with serving(db, file, 1) as beside:
        is_history("no file", db, file)
        # Nobody reads what is written while it is served, so a file that goes is seen by the next start.
        removed(file)
        server.ask(port, server.post("/bins", '{"key":"GONE","bin":"GONE","kind":"STORE"}'))
        beside.ends()
    is_made_whole("a file that went", db, file, b"")
    print("  files that are cut off, have a part of a line more, are empty or gone: made whole", flush=True)


# What a loss of power leaves

def torn(text, begin, end):
    """The file as it was before these bytes were written to it, and of the write any sectors, in any length between."""
    size = end if chance.random() < 0.5 else chance.randrange(begin, end + 1)
    left = bytearray(text[:begin].ljust(size, b"\0"))
    kept = chance.random()
    for at in range(begin // SECTOR * SECTOR, size, SECTOR):
        low, high = max(at, begin), min(at + SECTOR, size)
        if chance.random() < kept:
            left[low:high] = text[low:high]
    return bytes(left)


def writes():
    """Books, and what was written to their file: a copy of the books after each write, and where it began and ended."""
    db, file, done = begun("power"), removed(path_of("power.acts")), []
    with serving(db, file) as beside:
        for number, text in enumerate(requests()):
            before = os.path.getsize(file)
            if server.ask(port, text)[0] != 200:
                fails("an act", 200, text)
            done.append((copied(db, path_of("power-%d.db" % number)), before, os.path.getsize(file)))
    return file, done


def requests():
    """Acts of one line, orders of two hundred, and goods-in files of up to a thousand rows."""
    items = [acts.gtin_of(number) for number in range(200)]
    yield server.post("/bins", '{"key":"B-1","bin":"A-1","kind":"STORE"}')
    for number, gtin in enumerate(items):
        yield server.post("/items", '{"key":"I-%d","gtin":"%s","name":"Item %d"}' % (number, gtin, number))
    head = "delivery,line,gtin,lot,expiry,bin,qty\n"
    for number, rows in enumerate((1, 7, 60, 300, 1_000, 1_000)):
        body = "".join("F-%d,%d,%s,L%d,261130,A-1,24\n" % (number, row + 1, items[row % 200], number) for row in range(rows))
        yield server.post("/goodsin", head + body)
        lines = ",".join('{"gtin":"%s","qty":%d}' % (gtin, 1 + number) for gtin in items)
        yield server.post("/orders", '{"key":"O-%d","order":"O-%d","customer":"Corner Shop","lines":[%s]}' % (number, number, lines))


def power_is_lost(count):
    file, done = writes()
    text = read(file)
    broken = 0
    for _ in range(count):
        db, begin, end = chance.choice(done[-20:] if chance.random() < 0.7 else done)
        state = torn(text, begin, end)
        broken += not text.startswith(state)
        write(file, state)
        with serving(db, file, 1) as beside:
            if read(file) != text[:end]:
                fails("a loss of power", "%d bytes of lines" % end, read(file)[begin - 40:begin + 200])
            server.ask(port, server.get("/orders/NONE"))
            beside.ends()
    print("  %d states that a loss of power may leave, %d of them no beginning of the history: each start made the file whole"
          % (count, broken), flush=True)


def emptied():
    """A file that is emptied under the server ends it at the next act, which stands and has no answer."""
    db, file = begun("emptied"), removed(path_of("emptied.acts"))
    texts = [server.post("/bins", '{"key":"K-%d","bin":"A-%d","kind":"STORE"}' % (number, number)) for number in (1, 2)]
    with serving(db, file) as beside:
        server.ask(port, texts[0])
        write(file, b"")
        if (answer := server.ask(port, texts[1])) is not None:
            fails("a file that was emptied", "no answer", answer)
        status, told = beside.process.wait(timeout=60), beside.process.stderr.read()
        if (status, told) != (1, b"lotd: acts\n"):
            fails("a file that was emptied", (1, b"lotd: acts\n"), (status, told))
    with serving(db, file, 1) as beside:
        is_history("a file that was emptied", db, file)
        if (answer := server.ask(port, texts[1])) != (200, '{"act":2}'):
            fails("asked again", '{"act":2}', answer)
        beside.ends()
    print("  a file that is emptied while it is served: the server ends, and the next start makes it whole", flush=True)


def opened_on_monday():
    """Books that were made on a Friday and opened on Monday before anything came, served twice beside their file."""
    db, file = begun("friday", "2026-05-01"), removed(path_of("friday.acts"))
    with serving(db, file, 2) as beside:
        server.ask(port, server.post("/days", '{"key":"K-1","day":"2026-05-04"}'))
        server.ask(port, server.post("/bins", '{"key":"K-2","bin":"A-1","kind":"STORE"}'))
        beside.ends()
    text = read(file)
    for _ in range(2):
        with serving(db, file, 1) as beside:
            if read(file) != text:
                fails("books opened on Monday", text, read(file))
            server.ask(port, server.get("/orders/NONE"))
            beside.ends()
    print("  books made on a Friday and opened on Monday: served again beside their file", flush=True)


def told_to_nobody():
    """With standard error closed nothing stands behind an answer. The server ends at its first line of the log."""
    db, file = begun("closed"), removed(path_of("closed.acts"))
    line = [lotd, "serve", "--db", db, "--port", str(port), "--max", "3", "--acts", file, "--log"]
    process = subprocess.Popen(["sh", "-c", 'exec "$0" "$@" 0<&- 2>&-'] + line, stdout=subprocess.PIPE)
    process.stdout.readline()
    for number in range(3):
        text = server.post("/bins", '{"key":"K-%d","bin":"A-%d","kind":"STORE"}' % (number, number))
        try:
            with server.asked(port, text) as peer:
                told = server.bytes_of(peer)
        except ConnectionError:
            break
        if told and parted(told) != (200, '{"act":%d}' % (number + 1)):
            fails("standard error closed", "an answer alone", told)
    process.wait(timeout=60)
    process.stdout.close()
    print("  standard error closed, with a log: nothing stands behind an answer", flush=True)


def an_import(file):
    db = begun("import")
    with serving(db, removed(file), 2) as beside:
        server.ask(port, server.post("/items", '{"key":"K-1","gtin":"09506000134352","name":"Oat drink"}'))
        server.ask(port, server.post("/bins", '{"key":"K-2","bin":"A-01","kind":"STORE"}'))
        beside.ends()
    goods = write(path_of("goods.csv"), b"delivery,line,gtin,lot,expiry,bin,qty\n" + b"".join(
        b"D-1,%d,09506000134352,L%d,261130,A-01,24\n" % (n, n) for n in range(1, 301)))
    text = history(db)
    if (got := run("import", "--db", db, "--acts", "/dev/full", goods)) != (1, "", "lotd: acts\n"):
        fails("an import", "lotd: acts", got)
    if history(db) != text:
        fails("an import that is refused", "the same acts", "others")
    for tally in ("accepted 300 repeated 0\n", "accepted 0 repeated 300\n"):
        if (got := run("import", "--db", db, "--acts", file, goods)) != (0, tally, ""):
            fails("an import", tally, got)
        is_history("an import", db, file)
    print("  an import: its 300 acts are in the file", flush=True)


def a_full_disk():
    """A disk of a few pages, of which all but one are taken."""
    folder = path_of("small")
    os.mkdir(folder)
    if os.geteuid() != 0 or subprocess.run(["mount", "-t", "tmpfs", "-o", "size=64k", "tmpfs", folder], stderr=subprocess.DEVNULL).returncode != 0:
        print("  a disk that is full: not tried, since this needs root", flush=True)
        return
    atexit.register(subprocess.run, ["umount", folder])
    db, file, ballast = begun("full"), os.path.join(folder, "stock.acts"), os.path.join(folder, "ballast")
    with serving(db, file) as beside:
        filled(ballast)
        number, text = until_full(beside)
    lines, found = history(db), read(file)
    if len(lines_of(lines)) != number or not lines.startswith(found) or len(lines_of(found)) != number - 1:
        fails("a disk that is full", "%d acts, one of them not in the file" % number, (len(lines_of(lines)), len(lines_of(found))))
    is_refused_full(db, file)
    os.remove(ballast)
    with serving(db, file, 1) as beside:
        is_history("a disk with room again", db, file)
        if (answer := server.ask(port, text)) != (200, '{"act":%d}' % number):
            fails("asked again", '{"act":%d}' % number, answer)
        beside.ends()
    is_history("asked again", db, file)
    print("  a disk that is full: the act stood, nothing was answered, the server ended, and with room again it has the first answer", flush=True)


def filled(ballast):
    with open(ballast, "wb", buffering=0) as file:
        try:
            while True:
                file.write(bytes(PAGE))
        except OSError:
            pass
        file.truncate(os.path.getsize(ballast) // PAGE * PAGE - PAGE)


def until_full(beside):
    """Acts, until the server ends: the number of the last, and its request."""
    for number in range(1, 1_000):
        text = server.post("/bins", '{"key":"K-%d","bin":"A-%d","kind":"STORE"}' % (number, number))
        answer = server.ask(port, text)
        if answer is None:
            status = beside.process.wait(timeout=60)
            told = beside.process.stderr.read()
            if (status, told) != (1, b"lotd: acts\n"):
                fails("a disk that is full", (1, b"lotd: acts\n"), (status, told))
            return number, text
        if answer != (200, '{"act":%d}' % number):
            fails("a disk with room", number, answer)
    fails("a disk that is full", "an end", "a thousand acts")


def is_refused_full(db, file):
    """A start cannot write the line that is missing, and may have cut a part of it."""
    got = run("serve", "--db", db, "--port", str(port), "--max", "1", "--acts", file)
    if got != (1, "", "lotd: acts\n"):
        fails("a start over a disk that is full", "lotd: acts", got)
    if not history(db).startswith(read(file)):
        fails("a start over a disk that is full", "a beginning of the history", read(file)[-200:])


# Time

def processor():
    used = resource.getrusage(resource.RUSAGE_CHILDREN)
    return used.ru_utime + used.ru_stime


def received(db, count, words):
    """So many receipts, one after another: the seconds, those of the server's processor, and those of its start."""
    items = [acts.gtin_of(number) for number in range(200)]
    texts = [server.post("/items", '{"key":"I-%d","gtin":"%s","name":"Item %d"}' % (at, gtin, at)) for at, gtin in enumerate(items)]
    texts += [server.post("/bins", '{"key":"B-%d","bin":"A-%d","kind":"STORE"}' % (at, at)) for at in range(50)]
    for at in range(count):
        label = acts.label_of(items[at % 200], "L%d" % (at // 200), day_text(FIRST + 300), FIRST)
        texts.append(server.post("/receipts", '{"delivery":"D-%d","line":%d,"label":"%s","bin":"A-%d","qty":%d}'
                                 % (at // 9_000, at % 9_000 + 1, label, at % 50, at % 90 + 1)))
    used = processor()
    with server.Server(lotd, db, port, len(texts), words) as beside:
        began = time.monotonic()
        for text in texts:
            if server.ask(port, text)[0] != 200:
                fails("a receipt", 200, text)
        took = time.monotonic() - began
        beside.ends()
    return took, processor() - used, started(db, words)


def started(db, words):
    """The seconds until a server listens."""
    times = []
    for _ in range(5):
        began = time.monotonic()
        with server.Server(lotd, db, port, 1, words) as beside:
            times.append(time.monotonic() - began)
            server.ask(port, server.get("/orders/NONE"))
            beside.ends()
    return statistics.median(times)


def big():
    count, file = server.number("RECEIPTS", 20_000), path_of("big.acts")
    plain, kept = begun("big"), begun("kept")
    took, used, start = received(plain, count, [])
    kept_took, kept_used, kept_start = received(kept, count, ["--acts", file])
    is_history("receipts", kept, file)
    are_same("receipts", plain, kept)
    print("  %d receipts: %.1f s and %.1f of the processor, with a file %.1f s and %.1f" % (count, took, used, kept_took, kept_used))
    print("  a start: %.2f s, with a file %.2f s" % (start, kept_start), flush=True)


if "--big" in sys.argv[1:]:
    big()
    print("kept: the file is the history, and every row the same")
else:
    stock, kept_file, older = a_day(server.number("ACTS", 1_500))
    wrong_places(stock)
    a_second_server(stock, kept_file)
    wrong_lines(stock, older)
    an_import(path_of("elsewhere/import.acts"))
    a_full_disk()
    emptied()
    opened_on_monday()
    told_to_nobody()
    power_is_lost(server.number("TORN", 2_000))
    print("kept: no act that was answered was lost with the books, and each file that cannot be used was told")
