"""Long texts by the lines of lotd: a stock card of 100,000 lines, in the memory that the open books take anyway, and a recall
notice of 10,000 shipments, byte for byte as the format says; and both into an output that is full. The rows are set by
python's sqlite3. Needs the Rattle kit, and takes half a minute.
Exit status 0 only if every byte, every exit status and every peak of memory was as it must be.
"""
import os
import sqlite3
import subprocess
import sys
import tempfile

import server

lotd, room = server.program(), server.room()
OATS, OTHER = "09506000134352", "04012345000016"
DAY, DAY_TEXT = 20577, "2026-05-04"
# What two runs may differ by, in KiB. The 100,000 lines are 8 MB as text.
SLACK = 1_024
# What the rows of a notice of 10,000 shipments and 1,000 bins may take beside, in KiB.
ROWS = 8_192


def fail(what, expected, got):
    sys.exit("texts: %s: expected %r, got %r" % (what, expected, got))


# Runs a line and tells its peak. A process of its own, since a child has at least the peak of the process that starts it.
MEASURED = """
import os, sys
child = os.posix_spawn(sys.argv[2], sys.argv[2:], os.environ)
_, status, used = os.wait4(child, 0)
os.write(int(sys.argv[1]), b"%d %d" % (os.waitstatus_to_exitcode(status), used.ru_maxrss))
"""


def run(*words, out=None):
    """The exit status, what was printed, what was told, and the peak of the memory in KiB."""
    with tempfile.TemporaryFile() as printed, tempfile.TemporaryFile() as told:
        ends, end = os.pipe()
        subprocess.run([sys.executable, "-I", "-S", "-c", MEASURED, str(end), lotd, *words], stdout=out or printed, stderr=told, pass_fds=(end,), check=True)
        os.close(end)
        status, peak = os.read(ends, 64).split()
        os.close(ends)
        printed.seek(0)
        told.seek(0)
        return int(status), printed.read(), told.read(), int(peak)


def is_told(what, expected, *words):
    """The line prints this text, and all of it. Gives the peak of the memory."""
    status, printed, told, peak = run(*words)
    if (status, told) != (0, b""):
        fail(what, (0, b""), (status, told))
    if printed != expected:
        lines, wanted = printed.split(b"\n"), expected.split(b"\n")
        at = next((n for n, pair in enumerate(zip(wanted, lines)) if pair[0] != pair[1]), min(len(lines), len(wanted)))
        fail("%s, line %d" % (what, at + 1), wanted[at : at + 1], lines[at : at + 1])
    return peak


def is_refused(what, code, *words, out=None):
    status, printed, told, peak = run(*words, out=out)
    wanted = (1, b"", ("lotd: %s\n" % code).encode())
    if (status, printed, told) != wanted:
        fail(what, wanted, (status, printed, told))
    return peak


def card_rows(count, shipments):
    """The lines of a card, the shipments among them: act, kind, reference, change, and what is in the house after it."""
    changes = [(n, "RECEIPT", "D-0/%d" % n, 1_000_000) for n in range(1, 10)]
    for n in range(1, count - len(shipments) - 8):
        kind, note, change = [("RECEIPT", "D-%d/%d" % (n, n % 9_999 + 1), 9), ("WRITEON", "A-01", 1), ("WRITEOFF", "A-02", -2)][n % 3]
        changes.append((3 * n + 10, kind, note, change))
    changes += [(act, "SHIPMENT", str(number), -qty) for number, act, qty, _, _ in shipments]
    rest, rows = 0, []
    for act, kind, note, change in sorted(changes):
        rest += change
        rows.append((act, kind, note, change, rest))
    return rows


def card_text(rows):
    lines = ["STOCK CARD %s Oat drink" % OATS, "LOT L1 EXPIRY 2026-09-04"]
    lines += ["%13d %s %-8s %-25s %12d %11d" % (act, DAY_TEXT, kind, note, change, rest) for act, kind, note, change, rest in rows]
    lines.append("IN HOUSE %d" % rows[-1][4])
    return ("\n".join(lines) + "\n").encode()


def shipment_rows(count):
    """Shipments of the lot: number, act, units, order and customer. Every second number is another lot's."""
    return [(2 * n + 1, 3 * n + 11, n % 999 + 1, "S-%d" % n, "Customer %d" % (n % 7)) for n in range(count)]


def bin_rows(count):
    return [("B-%05d" % n, "HOLD" if n % 5 == 0 else "STORE", n % 12 + 1) for n in range(count)]


def notice_text(bins, shipments):
    lines = ["RECALL NOTICE %s Oat drink" % OATS, "LOT L1 EXPIRY 2026-09-04"]
    lines += ["BIN %s %d" % (name, qty) for name, _, qty in bins]
    lines += ["SHIPMENT %d %s %d %s %s" % (number, DAY_TEXT, qty, order, customer) for number, _, qty, order, customer in shipments]
    lines.append("TOTAL BINS %d SHIPPED %d" % (sum(b[2] for b in bins), sum(s[2] for s in shipments)))
    return ("\n".join(lines) + "\n").encode()


def backwards(rows):
    return list(reversed(rows))


def set_rows(db, cards, bins, shipments):
    """The rows of a lot L1, and a few of a lot L2 among them, in falling order."""
    conn = sqlite3.connect(db)
    conn.executemany("INSERT INTO items VALUES (?, ?)", [(OATS, "Oat drink"), (OTHER, "Rye bread")])
    conn.executemany("INSERT INTO bins VALUES (?, ?)", backwards([(name, kind) for name, kind, _ in bins]))
    conn.executemany("INSERT INTO lots VALUES (?, ?, ?, ?, 0)", [(OATS, "L1", 20700, 3), (OATS, "L2", 20701, 4)])
    conn.execute("INSERT INTO recalls VALUES (?, 'L1', 9)", (OATS,))
    conn.executemany("INSERT INTO stock VALUES (?, 'L1', ?, ?)", backwards([(OATS, name, qty) for name, _, qty in bins]))
    conn.executemany("INSERT INTO stock VALUES (?, 'L2', ?, 5)", [(OATS, name) for name, _, _ in bins[::3]])
    conn.executemany(
        "INSERT INTO cards VALUES (?, 'L1', ?, ?, ?, ?, ?, ?)",
        backwards([(OATS, act, DAY, kind, note, change, rest) for act, kind, note, change, rest in cards]),
    )
    conn.executemany("INSERT INTO cards VALUES (?, 'L2', ?, ?, 'WRITEON', 'A-01', 1, 1)", [(OATS, act + 1, DAY) for act, *_ in cards[::5]])
    conn.executemany("INSERT INTO orders VALUES (?, ?, ?, 'DONE')", [(order, act - 1, customer) for _, act, _, order, customer in shipments])
    conn.executemany("INSERT INTO lines VALUES (?, ?, ?, ?)", [(order, OATS, qty, qty) for _, _, qty, order, _ in shipments])
    both = [(number, act, order) for number, act, _, order, _ in shipments] + [(number + 1, act + 1, order) for number, act, _, order, _ in shipments]
    conn.executemany("INSERT INTO shipments VALUES (?, ?, ?, ?)", backwards([(number, act, DAY, order) for number, act, order in sorted(both)]))
    conn.executemany("INSERT INTO shiplines VALUES (?, ?, 'L1', ?)", backwards([(number, OATS, qty) for number, _, qty, _, _ in shipments]))
    conn.executemany("INSERT INTO shiplines VALUES (?, ?, 'L2', 1)", [(number + 1, OATS) for number, *_ in shipments])
    last = max([act for act, *_ in cards] + [act for _, act, *_ in shipments]) + 2
    conn.execute("UPDATE meta SET acts = ?, shipments = ?", (last, 2 * len(shipments)))
    conn.commit()
    conn.close()


def books(name, card_count, bin_count, shipment_count):
    """Books with such a lot, its card and its notice."""
    db = os.path.join(room, name + ".db")
    subprocess.run([lotd, "init", "--db", db, "--day", DAY_TEXT], check=True)
    bins, shipments = bin_rows(bin_count), shipment_rows(shipment_count)
    cards = card_rows(card_count, shipments)
    set_rows(db, cards, bins, shipments)
    return db, card_text(cards), notice_text(bins, shipments)


def is_told_in_place(what, db, line, text, code):
    """The text is told whole. Gives the memory that it takes beyond a query of the same books that is refused."""
    told = is_told(what, text, line, "--db", db, OATS, "L1")
    refused = is_refused(what + " of a lot that is none", code, line, "--db", db, OATS, "Z9")
    print("  %s: %d bytes as they must be, peak %d KiB, that of a refused query %d KiB" % (what, len(text), told, refused))
    return told - refused


def checked(name, counts):
    db, card, notice = books(name, *counts)
    of_card = is_told_in_place("a card of %d lines" % counts[0], db, "card", card, "U03")
    of_notice = is_told_in_place("a notice of %d bins and %d shipments" % counts[1:], db, "notice", notice, "N01")
    return db, of_card, of_notice


short_db, short_card, short_notice = checked("short", (200, 10, 100))
long_db, long_card, _ = checked("long", (100_000, 10, 100))
_, _, long_notice = checked("shipped", (10_100, 1_000, 10_000))
if long_card > max(short_card, 0) + SLACK:
    fail("the memory of a card", "at most %d KiB more" % (max(short_card, 0) + SLACK), long_card)
if long_notice > max(short_notice, 0) + ROWS:
    fail("the memory of a notice", "at most %d KiB more" % (max(short_notice, 0) + ROWS), long_notice)

with open("/dev/full", "wb") as full:
    for line in ("card", "notice"):
        for db in (short_db, long_db):
            is_refused("a %s into an output that is full" % line, "io", line, "--db", db, OATS, "L1", out=full)
print("  a card and a notice into an output that is full")
print("texts: every byte was as it must be, and no text took more memory than it may")
