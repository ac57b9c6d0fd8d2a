#!/bin/sh
# Every request for memory refused. Tests of host_tests do a day's work over books in memory, take in a history, and make calls
# on books alone; one of acts_tests opens a file of the acts and brings it up. Each is run once for each request for memory that is made within a call, which is then
# refused. It compares each answer and the rows of each table itself: where the call had no memory everything is as before,
# and the same call made again is answered as ever; else its answer and the rows are the ones of ever. Here the lines that
# it prints are compared with those of an undisturbed run, so that nothing else is told, before the call or after it.
# What is refused is a call of malloc, calloc, realloc or their like, by a small library that is loaded before the C library.
# It counts from the line `> CALL` on that is printed before a call until the line `< ANSWER` after it.
# Needs the Rattle kit, cc and python3. STEP (1) can be set: of so many requests one is refused; FIRST (1) is the first of
# them. CALLS has words: tests whose names have one of them are tried. Exit status 0 only if no run faulted, hung or told
# anything else.
set -eu
cd "$(dirname "$0")"

room=$(mktemp -d)
trap 'rm -rf "$room"' EXIT

for crate in host_tests acts_tests; do
    echo "> build $crate, and run its tests without memory"
    (cd "../crates/$crate" && rt test -- without_memory >"$room/$crate.txt") || {
        tail -n 20 "$room/$crate.txt"
        exit 1
    }
done
cc -shared -fPIC -O2 -o "$room/refuse.so" refuse.c
python3 memory.py "$room"
