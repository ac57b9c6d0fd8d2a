"""Proves lotd and the crates that it stands on, and builds it, for `build.sh`, which says in which folder the kit is.

It calls the kit's compiler itself: `rt check` proves one library after another and has each crate read the proofs of
those below, and `rt ci` proves each with one job, while processors stand idle. Here the crate with the longest line of
others behind it goes first, by the seconds of build_seconds.txt, and has all processors; the next ones take what it leaves.
Each reads what those below promise. The gate is `rt ci`, and no run of this.

While it runs, a line says how many crates are proved and since when it runs: on a terminal at each moment, else as each crate
is proved, and once a minute.

Words behind the kit's folder: `llvm` has LLVM build lotd in place of Rattle's own compiler, which takes some three minutes
more and gives a program that is somewhat faster; `seconds` writes that table anew, from what the crates took that are made;
`made` proves and builds nothing, and ends with status 0 where all of this tree is proved and built.
"""
import contextlib
import functools
import hashlib
import os
import shutil
import signal
import subprocess
import sys
import tempfile
import time

KIT, *WORDS = sys.argv[1:]
TOP = "lotd"
BACKEND = "llvm" if "llvm" in WORDS else "rattle"
OUT = os.path.abspath(f"crates/{TOP}/out")
# What is made of each crate, with a stamp of what it was made from. `rt` reads nothing here, and keeps it.
MADE = f"{OUT}/rlib"
PROCESSORS = len(os.sched_getaffinity(0))
# How many crates are proved side by side.
AT_ONCE = int(os.environ.get("RT_JOBS") or 4)
# The processor time of each crate's proof, with one job.
TABLE = "build_seconds.txt"
# How far a proof gives way to the one with most behind it. With more, a machine that has other work holds it up for good.
NICE = 5
BEGAN = time.monotonic()


def text_of(path):
    with open(path, encoding="utf-8") as file:
        return file.read()


def listed():
    """Each crate of crates.txt, with the libraries that it calls."""
    lines = [line.partition(":") for line in text_of("crates.txt").splitlines() if not line.startswith("#")]
    return {name.strip(): ["std", *calls.split()] for name, _, calls in lines}


CALLS = listed()


@functools.lru_cache(None)
def below(crate):
    """The crates that this one stands on, each after those that it calls."""
    found = []
    for name in CALLS[crate]:
        if name in CALLS:
            found += [it for it in (*below(name), name) if it not in found]
    return found


CRATES = [*below(TOP), TOP]


def files_of(crate):
    parts = [os.walk(f"crates/{crate}/{part}") for part in ("src", "specs", "proofs")]
    return sorted(f"{at}/{name}" for part in parts for at, _, names in part for name in names)


@functools.lru_cache(None)
def stamp(crate):
    """A sum of all that the crate is made from, and of how."""
    said = [text_of(f"{KIT}/KIT-ID"), text_of("build.py"), CALLS[crate], [stamp(it) for it in below(crate)]]
    said += [(file, text_of(file)) for file in files_of(crate)] + [BACKEND] * (crate == TOP)
    return hashlib.sha256(repr(said).encode()).hexdigest()


def made(crate):
    return f"{MADE}/{crate}.{BACKEND}" if crate == TOP else f"{MADE}/{crate}.rlib"


def is_made(crate):
    kept = f"{made(crate)}.stamp"
    return os.path.exists(kept) and os.path.exists(made(crate)) and text_of(kept) == stamp(crate)


def rlib(library):
    return f"{MADE if library in CALLS else KIT + '/rlibs'}/{library}.rlib"


def words_of(crate, to, jobs):
    """What is called to prove a crate and write it to this file."""
    is_top = crate == TOP
    words = [f"{KIT}/bin/rattle", "build", "--crate-name", crate, f"src/{'main' if is_top else 'lib'}.rt", "--jobs", str(jobs), "-o", to]
    words += ["--antt-project", f"{KIT}/rattle/logic/antt-project.json", "--logic-built", f"{KIT}/logic_built"]
    words += ["--toolchain", f"{KIT}/toolchain", "--backend", BACKEND] if is_top else ["--statements"]
    for library in CALLS[crate]:
        words += ["--extern", f"{library}={rlib(library)}"]
    return [*words, "-L", f"dependency={KIT}/rlibs", "-L", f"dependency={MADE}"]


class Proof:
    """A crate that is being proved and built, in a process group of its own."""

    def __init__(self, crate, jobs):
        # What is half written bears no stamp, not even an earlier one.
        with contextlib.suppress(FileNotFoundError):
            os.remove(f"{made(crate)}.stamp")
        self.crate, self.nice = crate, 0
        self.to = f"{made(crate)}.o" if crate == TOP else made(crate)
        self.log = tempfile.TemporaryFile("w+", errors="replace")
        how = {"stdin": subprocess.DEVNULL, "stdout": self.log, "stderr": subprocess.STDOUT, "start_new_session": True}
        self.process = subprocess.Popen(words_of(crate, self.to, jobs), cwd=f"crates/{crate}", **how)

    def give_way(self, nice):
        """Sets how far it gives way. Only root may take back what was given; for others it stays."""
        if nice != self.nice:
            with contextlib.suppress(PermissionError, ProcessLookupError):
                os.setpriority(os.PRIO_PGRP, self.process.pid, nice)
                self.nice = nice

    def has_ended(self):
        pid, status, used = os.wait4(self.process.pid, os.WNOHANG)
        if pid:
            self.process.returncode = os.waitstatus_to_exitcode(status)
            self.seconds = used.ru_utime + used.ru_stime
        return pid != 0

    def end(self):
        with contextlib.suppress(ProcessLookupError):
            os.killpg(self.process.pid, signal.SIGKILL)
        self.process.wait()

    def is_proved(self):
        """Of one that has ended, whether it is proved and built. Then it bears its stamp."""
        if self.process.returncode != 0 or self.crate == TOP and not self.is_linked():
            return False
        for kept, text in (("seconds", f"{self.seconds:.0f}"), ("stamp", stamp(self.crate))):
            with open(f"{made(self.crate)}.{kept}", "w", encoding="utf-8") as file:
                file.write(text)
        return True

    def is_linked(self):
        link = [f"{KIT}/bin/rattle-link", "--target", "x86_64-unknown-linux-gnu", "--toolchain", f"{KIT}/toolchain"]
        link += ["-o", made(self.crate), self.to, f"{KIT}/c/libos_c.a", f"{KIT}/c/liblibc_c.a"]
        return subprocess.run(link, stdin=subprocess.DEVNULL, stdout=self.log, stderr=subprocess.STDOUT).returncode == 0

    def last_lines(self):
        self.log.seek(0)
        return "".join(self.log.readlines()[-40:])[-6000:].rstrip()


def write_seconds():
    """Writes the table of seconds, by what the crates took when they were made."""
    lines = [f"{crate} {text_of(f'{made(crate)}.seconds')}\n" for crate in CRATES]
    with open(TABLE, "w", encoding="utf-8") as file:
        file.writelines(["# `python3 build.py KIT seconds` writes this: the processor time of each crate's proof\n", *lines])


SECONDS = dict(line.split() for line in text_of(TABLE).splitlines() if not line.startswith("#"))


@functools.lru_cache(None)
def behind(crate):
    """The seconds of the longest line of crates from this one up to lotd. One that is not in the table counts as short."""
    return int(SECONDS.get(crate, 30)) + max((behind(it) for it in CRATES if crate in CALLS[it]), default=0)


def span():
    """The time since the beginning."""
    seconds = int(time.monotonic() - BEGAN)
    return f"{seconds // 60} min" if seconds >= 60 else f"{seconds} s"


class Progress:
    """What is told while crates are proved."""
    IS_TERMINAL = sys.stdout.isatty()

    def __init__(self, proved):
        self.proved, self.told = proved, BEGAN

    def line(self, words, ends="\n"):
        print(f"{chr(13) + chr(27) + '[K' if self.IS_TERMINAL else ''}  {self.proved} of {len(CRATES)} crates, {span()}{words}", end=ends, flush=True)
        self.told = time.monotonic()

    def proves(self, crate):
        self.proved += 1
        self.line(f": {crate}")

    def goes_on(self, running):
        if time.monotonic() - self.told > (1 if self.IS_TERMINAL else 60):
            self.line(f"; now {' '.join(proof.crate for proof in running)}", "" if self.IS_TERMINAL else "\n")


def begin(left, running):
    """Begins what can be begun. Most behind it has the first of those that run: it has a job for each processor. Each of the
    others has one less than the one before it, and gives way."""
    waited = {*left, *(proof.crate for proof in running)}
    for crate in [it for it in left if waited.isdisjoint(below(it))][: AT_ONCE - len(running)]:
        rank = sum(behind(proof.crate) > behind(crate) for proof in running)
        running.append(Proof(crate, max(1, PROCESSORS - rank)))
        left.remove(crate)
    for proof in running:
        proof.give_way(NICE if any(behind(it.crate) > behind(proof.crate) for it in running) else 0)


def prove_all(left):
    """Proves these crates side by side, each after those that it stands on, those with most behind them first. The first that
    is not proved is told with its last lines, and ends the others."""
    progress, running, left = Progress(len(CRATES) - len(left)), [], sorted(left, key=behind, reverse=True)
    try:
        while left or running:
            begin(left, running)
            time.sleep(0.1)
            progress.goes_on(running)
            for proof in [it for it in running if it.has_ended()]:
                running.remove(proof)
                if not proof.is_proved():
                    progress.line(f": {proof.crate} is not proved")
                    print(f"{proof.last_lines()}\nbuild: {proof.crate} is not proved; these were its last lines", file=sys.stderr)
                    return False
                progress.proves(proof.crate)
    finally:
        for proof in running:
            proof.end()
    return True


if "made" in WORDS:
    sys.exit(0 if all(map(is_made, CRATES)) else 1)
# So that what it began ends with it.
for number in (signal.SIGHUP, signal.SIGINT, signal.SIGTERM):
    signal.signal(number, lambda it, _: sys.exit(128 + it))
os.makedirs(MADE, exist_ok=True)
if not prove_all([it for it in CRATES if not is_made(it)]):
    sys.exit(1)
# A program that runs is not written over.
shutil.copy2(made(TOP), f"{OUT}/{TOP}.new")
os.replace(f"{OUT}/{TOP}.new", f"{OUT}/{TOP}")
if "seconds" in WORDS:
    write_seconds()
