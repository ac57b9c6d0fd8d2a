"""Acts taken in from a history: `lotd apply`. Random acts of every command are served on one file; their history is appended
to a text, piece by piece, and `tail -F` carries it into `lotd apply -` on another file, which is ended by SIGKILL and started
again at random moments. In the end every row of every table is the same, and both are sound. The same text makes books anew,
books as of any act, and brings a copy up; a text with a line changed, left out, doubled or cut off is done up to that line,
and it is told. Then books that have gone another way, and a text that cannot be read.
Needs the Rattle kit, and takes some minutes. ACTS (3000), WRONG (200) and SEED (1) can be set. With `--big` there are RECEIPTS
(20000) in their place: how long `apply` takes against a server that takes them in one after another, known lines against
new ones, and its memory against that of the open books.
Exit status 0 only if every line was as it must be.
"""
import os
import random
import re
import resource
import subprocess
import sys
import time

import acts
import server
from acts import copied, day_number, day_text, rows_of

lotd, room, port = server.program(), server.room(), server.number("PORT", 18089)
seed = server.number("SEED", 1)
chance = random.Random(seed)
FIRST = day_number("2026-05-04")
LINE_MAX = 8_192


def lines_of(text):
    """The lines of a text, each with its line feed; `bytes.splitlines` would cut at other bytes too."""
    return re.findall(rb"[^\n]*\n|[^\n]+$", text)


def fails(what, expected, got):
    sys.exit("apply: seed %d: %s: expected %r, got %r" % (seed, what, expected, got))


def path_of(name):
    return os.path.join(room, name + ".db")


def run(*words, text=b""):
    """The exit status, what is printed and what is told of a line of the program, with this at standard input."""
    done = subprocess.run([lotd, *words], input=text, capture_output=True, timeout=600)
    return done.returncode, done.stdout.decode("latin-1"), done.stderr.decode("latin-1")


def begun(name, first=FIRST):
    """Books in which nothing was done."""
    db = path_of(name)
    for end in ("", "-wal"):
        if os.path.exists(db + end):
            os.remove(db + end)
    subprocess.run([lotd, "init", "--db", db, "--day", day_text(first)], check=True, timeout=60)
    return db


def history(db):
    """The lines of the acts."""
    done = subprocess.run([lotd, "history", "--db", db], capture_output=True, check=True, timeout=600)
    return lines_of(done.stdout)


def applied(db, text):
    """What is printed, or told behind `lotd: `, where this text is taken in."""
    status, printed, told = run("apply", "--db", db, "-", text=text)
    if (status, told) == (0, "") and printed.endswith("\n"):
        return printed[:-1]
    if status == 1 and printed == "" and re.fullmatch(r"lotd: [^\n]+\n", told):
        return told[len("lotd: "):-1]
    fails("apply", "one line", (status, printed, told))


def tally(done, known, beyond):
    return "applied %d known %d beyond %d" % (done, known, beyond)


def is_told(what, db, text, expected):
    if (got := applied(db, text)) != expected:
        fails(what, expected, got)


def is_sound(what, db, count):
    told = server.audited(lotd, db)
    if not re.fullmatch(r"audited %d acts from \d{4}-\d\d-\d\d\n" % count, told):
        fails(what, "%d sound acts" % count, told)


def are_same(what, one, other):
    """Each row of each table is the same."""
    rows, others = rows_of(one, room), rows_of(other, room)
    for table in acts.TABLES:
        if rows[table] != others[table]:
            keys = [key for key in {**rows[table], **others[table]} if rows[table].get(key) != others[table].get(key)]
            fails("%s: %s" % (what, table), "the same rows", [(rows[table].get(key), others[table].get(key)) for key in keys[:3]])


# A standby

class Carried:
    """`tail -F` of the text into `lotd apply -` on these books."""

    def __init__(self, path, db):
        self.path, self.db, self.kills = path, db, 0
        self.starts()

    def starts(self):
        self.tail = subprocess.Popen(["tail", "-n", "+1", "-s", "0.05", "-F", self.path], stdout=subprocess.PIPE, stderr=subprocess.DEVNULL)
        self.apply = subprocess.Popen([lotd, "apply", "--db", self.db, "-"], stdin=self.tail.stdout, stdout=subprocess.PIPE, stderr=subprocess.PIPE)
        self.tail.stdout.close()

    def killed(self):
        """Both are ended, and `apply` by SIGKILL."""
        if self.apply.poll() is not None:
            fails("a standby goes on", "a line that waits for more", self.apply.communicate())
        self.apply.kill()
        self.apply.communicate()
        self.tail.kill()
        self.tail.wait()
        self.kills += 1

    def ends(self):
        """The text ends, and so does `apply`: what it prints."""
        self.tail.kill()
        self.tail.wait()
        printed, told = self.apply.communicate(timeout=600)
        if (self.apply.returncode, told) != (0, b""):
            fails("the end of a standby", (0, b""), (self.apply.returncode, told))
        return printed.decode("latin-1")

    def comes_to(self, count):
        """Waits until the books have so many acts, read from a copy of the file while it is written."""
        until = time.monotonic() + 120
        while time.monotonic() < until:
            if self.acts_there() == count:
                return
            time.sleep(0.02)
        fails("a standby", "%d acts" % count, self.acts_there())

    def acts_there(self):
        """The copy is made while the file may be written, so it may be torn: then it is made again."""
        try:
            return len(rows_of(self.db, room)["repeats"])
        except Exception:
            return None


def appended(path, lines):
    """The lines are appended to the text, in pieces that end anywhere."""
    text = b"".join(lines)
    with open(path, "ab") as file:
        while text:
            size = min(len(text), chance.choice([1, 7, 60, 500, 4_000, 30_000]))
            file.write(text[:size])
            file.flush()
            text = text[size:]
            if chance.random() < 0.05:
                time.sleep(chance.uniform(0, 0.02))


def a_standby(count):
    """The books that were served, their standby, and copies of the first with the number of their acts."""
    db, behind, path = begun("served"), begun("standby"), os.path.join(room, "acts")
    open(path, "wb").close()
    clerk = acts.Clerk(lotd, db, port)
    warehouse = acts.Warehouse(chance, clerk, FIRST)
    carried, lines, copies = Carried(path, behind), [], []
    while len(lines) < count:
        warehouse.works(min(count, len(warehouse.done) + chance.randint(20, 200)))
        clerk.killed() if chance.random() < 0.5 else clerk.ends()
        all_lines = history(db)
        appended(path, all_lines[len(lines):])
        lines = all_lines
        copies.append((len(lines), copied(db, path_of("copy-%d" % len(copies)))))
        if chance.random() < 0.7:
            time.sleep(chance.uniform(0, 0.3))
            carried.killed()
            carried.starts()
        else:
            carried.comes_to(len(lines))
    carried.comes_to(len(lines))
    printed = carried.ends()
    found = re.fullmatch(r"applied (\d+) known (\d+) beyond 0\n", printed)
    if not found or sum(map(int, found.groups())) != len(lines):
        fails("the standby's end", len(lines), printed)
    are_same("a standby", db, behind)
    is_sound("the served books", db, len(lines))
    is_sound("the standby", behind, len(lines))
    print("  a standby of %d acts, killed %d times: every row the same" % (len(lines), carried.kills), flush=True)
    return db, behind, lines, copies


# The same text elsewhere

def books_anew(db, behind, lines, copies):
    text, count = b"".join(lines), len(lines)
    new = begun("anew")
    is_told("books anew", new, text, tally(count, 0, 0))
    are_same("books anew", db, new)
    file = os.path.join(room, "whole")
    with open(file, "wb") as whole:
        whole.write(text)
    if (got := run("apply", "--db", new, file)) != (0, tally(0, count, 0) + "\n", ""):
        fails("known lines of a file", tally(0, count, 0), got)
    is_told("nothing", new, b"", tally(0, 0, count))
    for _ in range(5):
        known = chance.randint(1, count)
        is_told("a beginning", new, b"".join(lines[:known]), tally(0, known, count - known))
        later = chance.randint(1, known)
        is_told("a stretch", new, b"".join(lines[later - 1:known]), tally(0, known - later + 1, count - known))
        is_told("a part of a line", new, b"".join(lines[:known])[:-1], tally(0, known - 1, count - known + 1))
    are_same("known lines", db, new)
    for known, copy in chance.sample(copies, min(4, len(copies))):
        then = begun("then")
        is_told("books as of an act", then, b"".join(lines[:known]), tally(known, 0, 0))
        are_same("books as of act %d" % known, copy, then)
        is_told("a copy brought up", copied(copy, path_of("up")), text, tally(count - known, known, 0))
        are_same("a copy brought up", db, path_of("up"))
        is_told("the lines behind it", copied(copy, path_of("up")), b"".join(lines[known:]), tally(count - known, 0, 0 if known < count else count))
        are_same("the lines behind it", db, path_of("up"))
    print("  books anew, as of an act, and copies brought up: every row the same", flush=True)


# A text that is another

def byte_changed(lines, at):
    line = bytearray(lines[at])
    place = chance.randrange(len(line))
    line[place] = chance.choice([byte for byte in (line[place] ^ 1, line[place] ^ 2, 48, 57, 65, 9, 10, 13, 32, 0, 255) if byte != line[place]])
    return lines[:at] + [bytes(line)] + lines[at + 1:]


def left_out(lines, at):
    return lines[:at] + lines[at + 1:]


def doubled(lines, at):
    return lines[:at + 1] + lines[at:]


def exchanged(lines, at):
    other = min(at + 1, len(lines) - 1)
    return lines[:at] + [lines[other], lines[at]] + lines[other + 1:]


def cut_off(lines, at):
    return lines[:at] + [lines[at][:chance.randrange(len(lines[at]))]]


def with_cr(lines, at):
    return lines[:at] + [lines[at][:-1] + b"\r\n"] + lines[at + 1:]


def too_long(lines, at):
    return lines[:at] + [lines[at][:-1] + b"x" * (LINE_MAX + 1 - len(lines[at])) + b"\n"] + lines[at + 1:]


def of_other_kind(lines, at):
    number, day, key, rest = lines[at].split(b"\t", 3)
    key = b"K/A-1" if key.startswith(b"D/") else b"D/A-1/1"
    return lines[:at] + [b"\t".join([number, day, key, rest])] + lines[at + 1:]


def with_key_before(lines, at):
    number, day, key, rest = lines[at].split(b"\t", 3)
    kind = key[:2]
    before = [line.split(b"\t", 3)[2] for line in lines[:at] if line.split(b"\t", 3)[2][:2] == kind]
    return lines[:at] + [b"\t".join([number, day, chance.choice(before or [key]), rest])] + lines[at + 1:]


def on_other_day(lines, at):
    number, day, key, rest = lines[at].split(b"\t", 3)
    day = day_text(day_number(day.decode()) + chance.choice([-1, 1])).encode()
    return lines[:at] + [b"\t".join([number, day, key, rest])] + lines[at + 1:]


WAYS = [byte_changed] * 8 + [left_out, doubled, exchanged, cut_off, with_cr, too_long, of_other_kind, with_key_before, on_other_day]


def number_of(line):
    found = re.match(rb"([1-9][0-9]*)\t", line)
    return int(found.group(1)) if found else None


def wrong_text(db, lines, copies, counts):
    """A text with a line changed somewhere, taken in by books that have a beginning of the acts: what was done is the lines
    before the one that is told, and the books are sound. What is told is true of that line."""
    known, copy = chance.choice(copies[:-1])
    way = chance.choice(WAYS)
    at = chance.randrange(max(0, known - 30), min(len(lines), known + 30))
    first = chance.choice([0, max(0, at - 50)])
    wrong = lines_of(b"".join(way(lines[:at + 40], at)[first:]))
    named = "%s in line %d over %d acts" % (way.__name__, at + 1, known)
    books = copied(copy, path_of("wrong"))
    told = applied(books, b"".join(wrong))
    done = history(books)
    kind = re.sub(r"[UXSQKF]\d\d", "refused", told.split(" ")[0])
    counts[kind] = counts.get(kind, 0) + 1
    if done[:known] != lines[:known]:
        fails(named, "the acts that were there", "others")
    whole = [line for line in wrong if line.endswith(b"\n")]
    if kind == "applied":
        passed = len(whole)
    else:
        passed = misfit(named, told, whole, done, known, first)
    # Each line that was passed is that of the act of its number, and what was done comes of no other line.
    if [line for line in whole[:passed]] != done[first:first + passed] or len(done) != max(known, first + passed):
        fails(named, whole[:passed][-2:], (told, done[-2:]))
    is_sound(named, books, len(done))


def misfit(named, told, whole, done, known, first):
    """How many lines stand before the one that is told, of which it must be true."""
    word, *rest = told.split(" ")
    if word == "line":
        return int(rest[0]) - 1
    act = int(rest[-1])
    at = act - 1 - first
    if word == "lacks":
        at = len(done) - first
        true = act == len(done) + 1 and act < (number_of(whole[at]) or 0)
    elif word == "differs":
        true = act <= known and number_of(whole[at]) == act and whole[at] != done[act - 1]
    else:
        true = act == len(done) + 1 and number_of(whole[at]) == act
    if not true:
        fails(named, "what is so", (told, whole[at]))
    return at


def wrong_texts(db, lines, copies, count):
    counts = {}
    for _ in range(count):
        wrong_text(db, lines, copies, counts)
    print("  %d wrong texts, each done up to its misfit: %s" % (count, ", ".join("%d %s" % (n, kind) for kind, n in sorted(counts.items()))), flush=True)
    for kind in ("differs", "lacks", "line", "refused"):
        if kind not in counts:
            fails("wrong texts", "one that tells %s" % kind, counts)


# Other books

def other_ways(db, lines):
    """Books that have gone another way than the text, and input that is none."""
    text, count = b"".join(lines), len(lines)
    forked = begun("forked")
    at = count // 2
    is_told("a beginning", forked, b"".join(lines[:at]), tally(at, 0, 0))
    with server.Server(lotd, forked, port, 1) as serving:
        server.ask(port, server.post("/bins", '{"key":"OWN","bin":"OWN-1","kind":"STORE"}'))
        serving.ends()
    is_told("an act of its own", forked, b"".join(lines[:at]), tally(0, at, 1))
    is_told("gone another way", forked, text, "differs act %d" % (at + 1))
    own = history(forked)
    if own[:at] != lines[:at] or len(own) != at + 1:
        fails("gone another way", at + 1, len(own))
    is_told("lost acts", begun("empty"), b"".join(lines[at:]), "lacks act 1")
    is_told("another day", begun("later", FIRST + 1), text, "line 1")
    if (got := run("apply", "--db", forked, path_of("none") + ".acts")) != (1, "", "lotd: io\n"):
        fails("no such text", "lotd: io", got)
    if (got := run("apply", "--db", forked, room)) != (1, "", "lotd: io\n"):
        fails("a folder", "lotd: io", got)
    if (got := run("apply", "--db", path_of("missing"), "-", text=text)) != (1, "", "lotd: store\n"):
        fails("no books", "lotd: store", got)
    with open("/dev/full", "wb") as full:
        done = subprocess.run([lotd, "apply", "--db", db, "-"], input=text, stdout=full, stderr=subprocess.PIPE, timeout=600)
    if (done.returncode, done.stderr) != (1, b"lotd: io\n"):
        fails("a full output", (1, b"lotd: io\n"), (done.returncode, done.stderr))
    print("  books that have gone another way, and input that is none: told", flush=True)


# Time and memory

def processor():
    used = resource.getrusage(resource.RUSAGE_CHILDREN)
    return used.ru_utime + used.ru_stime


def measured(*words):
    """What is printed, the greatest memory in bytes, the seconds, and those of the processor."""
    began, used = time.monotonic(), processor()
    process = subprocess.Popen([lotd, *words], stdout=subprocess.PIPE, stderr=subprocess.PIPE)
    printed = process.stdout.read().decode("latin-1")
    _, _, usage = os.wait4(process.pid, 0)
    process.stdout.close()
    process.stderr.close()
    return printed, usage.ru_maxrss * 1024, time.monotonic() - began, processor() - used


def received(db, count):
    """So many receipts, one after another, of one server: the seconds, and those of its processor."""
    items = [acts.gtin_of(number) for number in range(200)]
    texts = [server.post("/items", '{"key":"I-%d","gtin":"%s","name":"Item %d"}' % (at, gtin, at)) for at, gtin in enumerate(items)]
    texts += [server.post("/bins", '{"key":"B-%d","bin":"A-%d","kind":"STORE"}' % (at, at)) for at in range(50)]
    for at in range(count):
        label = acts.label_of(items[at % 200], "L%d" % (at // 200), day_text(FIRST + 300), FIRST)
        texts.append(server.post("/receipts", '{"delivery":"D-%d","line":%d,"label":"%s","bin":"A-%d","qty":%d}'
                                 % (at // 9_000, at % 9_000 + 1, label, at % 50, at % 90 + 1)))
    used = processor()
    with server.Server(lotd, db, port, len(texts)) as serving:
        began = time.monotonic()
        for text in texts:
            if server.ask(port, text)[0] != 200:
                fails("a receipt", 200, text)
        took = time.monotonic() - began
        serving.ends()
    return len(texts), took, processor() - used


def big():
    db, new, path = begun("big"), begun("new"), os.path.join(room, "big.acts")
    count, took, used = received(db, server.number("RECEIPTS", 20_000))
    print("  %d acts, one after another: %.1f s, %.1f of the server's processor" % (count, took, used), flush=True)
    with open(path, "wb") as file:
        file.writelines(history(db))
    printed, peak, again, doing = measured("apply", "--db", new, path)
    if printed != tally(count, 0, 0) + "\n":
        fails("books anew", tally(count, 0, 0), printed)
    are_same("books anew", db, new)
    _, opened, opening, _ = measured("card", "--db", new, acts.gtin_of(0), "NONE")
    printed, known_peak, known, _ = measured("apply", "--db", new, path)
    if printed != tally(0, count, 0) + "\n":
        fails("known lines", tally(0, count, 0), printed)
    print("  apply: %.1f s, %.1f of the processor; of known lines %.1f s, of which %.1f open the books" % (again, doing, known, opening))
    print("  memory: %.1f MB, and %.1f of known lines; of the open books %.1f" % (peak / 1e6, known_peak / 1e6, opened / 1e6))
    if doing > used:
        fails("the time", "at most %.1f s of the processor" % used, doing)
    if 10 * (known - opening) > again:
        fails("known lines", "at most a tenth of %.1f s" % again, known - opening)
    if max(peak, known_peak) > opened + 1_000_000:
        fails("the memory", "at most 1 MB above %d" % opened, (peak, known_peak))


if "--big" in sys.argv[1:]:
    big()
    print("apply: within the time and the memory that it may take")
else:
    db, behind, lines, copies = a_standby(server.number("ACTS", 3_000))
    books_anew(db, behind, lines, copies)
    wrong_texts(db, lines, copies, server.number("WRONG", 200))
    other_ways(db, lines)
    print("apply: every row was that of the acts, and each misfit was told")
