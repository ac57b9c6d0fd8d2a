"""Runs the tests without memory once for each request for memory, for `memory.sh`, which built them and the library that
refuses a request in the folder that is named.
"""
import concurrent.futures
import os
import subprocess
import sys
import time

from server import TOP, number

room, step, first = sys.argv[1], number("STEP", 1), number("FIRST", 1)
chosen = os.environ.get("CALLS", "").split()


def listed(crate):
    """The program of the crate's tests, and the names of those that make calls for which there may be no memory."""
    program = os.path.join(TOP, "crates/%s/out/%s_tests" % (crate, crate))
    told = subprocess.run([program, "--list"], capture_output=True, check=True).stdout.decode()
    names = [line.rpartition(": ")[0] for line in told.splitlines()]
    return [(name, program) for name in names if name.endswith("_without_memory")]


# Each test, and the program that runs it.
PROGRAM_OF = dict(listed("host_tests") + listed("acts_tests"))

# What is printed where a call had no memory.
NO_MEMORY = ['< no memory', '< 503 {"code":"W90"}']
# What is printed where one of the requests of a call had none: the call is not made again.
ONE_HAD_NONE = '< 503 {"code":"W90"} among the answers'


def fails(told):
    sys.exit("memory: " + told)


def run(test, number, counts=""):
    """The lines around the calls, where the request of this number is refused."""
    environment = {"LD_PRELOAD": room + "/refuse.so", "REFUSE": str(number), "MALLOC_PERTURB_": "165"}
    if counts:
        environment["COUNTS"] = counts
    try:
        done = subprocess.run([PROGRAM_OF[test], test], stdin=subprocess.DEVNULL, capture_output=True, timeout=60, env=environment)
    except subprocess.TimeoutExpired:
        fails("%s, request %d refused: it hangs" % (test, number))
    if done.returncode or done.stderr:
        fails("%s, request %d refused: status %d, %s" % (test, number, done.returncode, done.stderr.decode(errors="replace").strip()))
    return [line for line in done.stdout.decode().splitlines() if line.startswith(("> ", "< "))]


def undisturbed(test):
    """The lines where no request is refused, and how many requests each call made."""
    counts = os.path.join(room, "counts")
    if os.path.exists(counts):
        os.remove(counts)
    lines = run(test, 0, counts)
    made = [int(line) for line in open(counts)]
    if len(lines) != 2 * len(made) or any(line in NO_MEMORY + [ONE_HAD_NONE] for line in lines):
        fails("%s: the undisturbed run has no memory" % test)
    return lines, made


def place_of(number, made):
    """The place of the call that makes this request."""
    for place, count in enumerate(made):
        if number <= count:
            return place
        number -= count
    fails("no such request")


def tried(test, number, lines, made):
    """Whether the call answered as ever where this request was refused."""
    found = run(test, number)
    if found == lines:
        return True
    at = 2 * place_of(number, made)
    again = found[:at] + found[at + 2:]
    if found[at] != lines[at] or not (
            found[at + 1] in NO_MEMORY and again == lines
            or found[at + 1] == ONE_HAD_NONE and again == lines[:at] + lines[at + 2:]):
        fails("%s, request %d refused: it answers otherwise\n%s" % (test, number, "\n".join(found)))
    return False


total = total_none = 0
for test in PROGRAM_OF:
    if chosen and not any(word in test for word in chosen):
        continue
    lines, made = undisturbed(test)
    began = time.time()
    numbers = range(first, sum(made) + 1, step)
    with concurrent.futures.ThreadPoolExecutor(os.cpu_count()) as pool:
        ever = sum(pool.map(lambda number: tried(test, number, lines, made), numbers))
    none = len(numbers) - ever
    print("%s: %d requests for memory in %d calls, %d of them refused: %d without memory, %d answered as ever (%.1f s)" % (
        test, sum(made), len(made), len(numbers), none, ever, time.time() - began), flush=True)
    total += len(numbers)
    total_none += none
print("memory: %d requests for memory refused: %d calls without memory, %d answered as ever; nothing else was told" % (
    total, total_none, total - total_none))
