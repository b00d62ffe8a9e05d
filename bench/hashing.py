#!/usr/bin/env python3
"""Counts what interning takes by the fixed seed and by a state of the caller's, and what a great wire id takes.

hashing.py PROGRAM
    PROGRAM is what `unproved.py --hashing FOLDER` built, FOLDER/bench_h.

Instructions for one operation, by callgrind: the difference of 8,000 and 4,000 operations, without those that make what
is interned. Of a trace of one schema also the memory that was asked for, by memcheck, in bytes for one reading.
"""
import os
import re
import subprocess
import sys

# (valgrind counts each byte of `rep movsb`, by which the C library copies long pieces, as an instruction)
COPIES = "glibc.cpu.x86_rep_movsb_threshold=1000000000:glibc.cpu.x86_rep_stosb_threshold=1000000000"
COUNT = 4000
# each row, and what makes the things of it
ROWS = {"known-texts": None, "new-texts": "texts-made", "known-stacks": None, "new-stacks": "stacks-made"}


def told(program, tool, pattern, *words):
    """The number that a tool of valgrind tells of a run."""
    command = ["valgrind", *tool, program, *map(str, words)]
    said = subprocess.run(command, capture_output=True, text=True, check=True,
                          env={**os.environ, "GLIBC_TUNABLES": COPIES}).stderr
    return int(re.search(pattern, said)[1].replace(",", ""))


def instructions(program, *words):
    tool = ["--tool=callgrind", "--callgrind-out-file=/dev/null"]
    return told(program, tool, r"Collected : (\d+)", *words)


def for_one(program, work, kind, count=COUNT):
    """Instructions for one operation."""
    more, fewer = (instructions(program, work, kind, it) for it in (2 * count, count))
    return (more - fewer) / count


def memory(program, wire_id):
    """Bytes that are asked for by one reading."""
    more, fewer = (told(program, ["--tool=memcheck"], r"total heap usage: .* ([\d,]+) bytes", "schema", wire_id, it)
                   for it in (3, 2))
    return more - fewer


def main(program):
    for work, made in ROWS.items():
        takes = {kind: for_one(program, work, kind) - (for_one(program, made, kind) if made else 0)
                 for kind in ("fixed", "seeded")}
        print(f"{work}: {takes['fixed']:.0f} by the fixed seed, {takes['seeded']:.0f} by a state of the caller's")
    for wire_id in (256, 65535):
        print(f"schema of wire id {wire_id}: {for_one(program, 'schema', wire_id, 100):.0f} instructions, "
              f"{memory(program, wire_id)} bytes")


if __name__ == "__main__":
    main(os.path.abspath(sys.argv[1]))
