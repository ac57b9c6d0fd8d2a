"""Tries the wrong bodies that stand outside the gate, before a release: the prover has to refuse each, as it refuses those of
the gate.

    python3 trials/wrong_bodies.py [NAME..]    tries those of all crates, or of these
    python3 trials/wrong_bodies.py --apply     only looks whether each can be applied, those of the gate too: a second

`trials/wrong_bodies/NAME` has those of the crate NAME, as `crates/NAME/must-fail` has those that the gate tries. They are laid
into a copy of their crates and of those below, and `rt ci` there proves these crates and tries them. RT_JOBS is how many checks
run at once, else four.

Ends with status 0 only if each was refused; with `--apply`, if each can be applied and no crate has a single one in the gate.
"""
import atexit
import os
import re
import shutil
import subprocess
import sys
import tempfile

TOP = os.path.dirname(os.path.dirname(os.path.abspath(__file__)))
OUTSIDE = f"{TOP}/trials/wrong_bodies"
PARTS = ("src", "specs", "proofs")
# What is told of all that `rt ci` says.
TOLD = re.compile(r"must-fail \S+\.edit: |NOT PROVED|FAILED: |error|\d+ passed, ")


def text_of(path):
    with open(path, encoding="utf-8") as file:
        return file.read()


def listed():
    """Each crate of crates.txt, with the libraries that it calls."""
    lines = [line.partition(":") for line in text_of(f"{TOP}/crates.txt").splitlines() if line and not line.startswith("#")]
    return {name.strip(): its.split() for name, _, its in lines}


CALLS = listed()


def with_those_below(crates):
    """These crates and those that they stand on."""
    found = set()
    while crates:
        found |= {*crates}
        crates = {it for crate in crates for it in CALLS[crate] if it in CALLS} - found
    return [it for it in CALLS if it in found]


def edits_in(folder):
    names = sorted(os.listdir(folder)) if os.path.isdir(folder) else []
    return [f"{folder}/{it}" for it in names if it.endswith(".edit")]


def misfit(edit, crate):
    """Why the edit cannot be applied to the crate's sources, as `rt` would; None where it can."""
    path, old, texts = None, None, {}
    for line in text_of(edit).splitlines():
        if line.startswith("file: "):
            path = f"{TOP}/crates/{crate}/{line.removeprefix('file: ').strip()}"
            if not os.path.isfile(path):
                return f"there is no file {path}"
        elif line.startswith("old: "):
            old = line.removeprefix("old: ")
        elif line.startswith("new:"):
            if not path or not old:
                return "a 'new:' line stands before any 'file:' or 'old:' line"
            text = texts.get(path) or text_of(path)
            if text.count(old) != 1:
                return f"an 'old:' text stands in {os.path.relpath(path, TOP)} {text.count(old)} times"
            texts[path], old = text.replace(old, line.removeprefix("new:").removeprefix(" ")), None
    return None if texts else "it has no 'old:' and 'new:' pair"


def look():
    """Looks whether each wrong body can be applied. Says what is amiss; returns whether nothing is."""
    outside = {it: edits_in(f"{OUTSIDE}/{it}") for it in CALLS}
    gate = {it: edits_in(f"{TOP}/crates/{it}/must-fail") for it in CALLS}
    amiss = [f"{OUTSIDE}/{it}: there is no crate of this name" for it in os.listdir(OUTSIDE) if it not in CALLS]
    amiss += [f"{it} has a single one in the gate, which costs a whole proof" for it in CALLS if len(gate[it]) == 1]
    for found in (outside, gate):
        misfits = [(edit, misfit(edit, crate)) for crate, edits in found.items() for edit in edits]
        amiss += [f"{edit}: {why}" for edit, why in misfits if why]
    for line in amiss:
        print(f"wrong_bodies: {line}", file=sys.stderr)
    counts = [f"{sum(map(len, it.values()))} in {sum(map(bool, it.values()))} crates" for it in (outside, gate)]
    print(f"outside the gate {counts[0]}, in the gate {counts[1]}")
    return not amiss


def lay_out(room, crates):
    """Makes the copy of these crates and of those below, with their wrong bodies."""
    shutil.copy(f"{TOP}/HANDLES", f"{room}/HANDLES")
    names = with_those_below(crates)
    with open(f"{room}/crates.txt", "w", encoding="utf-8") as file:
        file.writelines(f"{name}: {' '.join(CALLS[name])}\n" for name in names)
    for name in names:
        for part in PARTS:
            if os.path.isdir(f"{TOP}/crates/{name}/{part}"):
                shutil.copytree(f"{TOP}/crates/{name}/{part}", f"{room}/crates/{name}/{part}")
    for crate in crates:
        shutil.copytree(f"{OUTSIDE}/{crate}", f"{room}/crates/{crate}/must-fail")


def try_all(room):
    """Has `rt` try the wrong bodies of the copy. Returns whether each was refused."""
    jobs = os.environ.get("RT_JOBS") or "4"
    how = {"stdin": subprocess.DEVNULL, "stdout": subprocess.PIPE, "stderr": subprocess.STDOUT, "text": True}
    with subprocess.Popen(["rt", "ci"], cwd=room, env={**os.environ, "RT_JOBS": jobs}, **how) as process:
        for line in process.stdout:
            if TOLD.search(line):
                print(line, end="", flush=True)
    return process.returncode == 0


def main(words):
    if not look():
        return 1
    if words == ["--apply"]:
        return 0
    crates = [it for it in CALLS if edits_in(f"{OUTSIDE}/{it}") and (not words or it in words)]
    if not crates or not {*words} <= {*crates}:
        print(f"wrong_bodies: there are none of {' '.join(words)}", file=sys.stderr)
        return 1
    room = tempfile.mkdtemp()
    atexit.register(shutil.rmtree, room, ignore_errors=True)
    lay_out(room, crates)
    return 0 if try_all(room) else 1


if __name__ == "__main__":
    sys.exit(main(sys.argv[1:]))
