"""Tells where a file of scenarios says another number of steps than it has: `python3 trials/steps.py`, without the program. With
`--write` it writes the numbers. Status 0 where all are so."""
import glob
import os
import re
import sys

TOP = os.path.dirname(os.path.dirname(os.path.abspath(__file__)))


def is_step(line):
    return line != "" and not line.startswith("#")


def parts_of(lines):
    """Where each part begins, its name, and the steps behind it, up to the next one."""
    starts = [at for at, line in enumerate(lines) if line.startswith("## ")] + [len(lines)]
    return [(at, lines[at].split(" ")[1], [line for line in lines[at + 1 : end] if is_step(line)]) for at, end in zip(starts, starts[1:])]


def counted(lines):
    """The lines with the numbers as they are: each part's steps, and those of all scenarios with the parts that they take in."""
    parts = parts_of(lines)
    size = {"> " + name: len(steps) for _, name, steps in parts}
    own = list(lines)
    for at, name, steps in parts:
        own[at] = f"## {name} {len(steps)}"
    own[0] = f"steps {sum(size.get(step, 1) for _, name, steps in parts if not name.startswith('_') for step in steps)}"
    return own


def main():
    is_so = True
    for path in sorted(glob.glob(os.path.join(TOP, "crates/scenarios/data/*.txt"))):
        with open(path, encoding="utf-8") as file:
            lines = file.read().split("\n")
        own = counted(lines)
        for number, (said, had) in enumerate(zip(lines, own), 1):
            if said != had:
                print(f"{os.path.basename(path)}:{number}: {said}, and it is {had}")
                is_so = False
        if own != lines and "--write" in sys.argv[1:]:
            with open(path, "w", encoding="utf-8") as file:
                file.write("\n".join(own))
    return 0 if is_so else 1


sys.exit(main())
