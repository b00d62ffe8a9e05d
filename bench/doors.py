#!/usr/bin/env python3
"""Counts instructions and bytes for one event, by the Rust door and by the original, in batches of several sizes.

doors.py ORIGINAL LIBRARY FOLDER [WORD ..]
    ORIGINAL is the folder of the original's package; LIBRARY that of libgotymbe.a (doors/build); FOLDER, outside the
    repository, is where the program is built. With words, only the rows that have one of them in their name.
"""
import os
import re
import shutil
import subprocess
import sys

BENCH = os.path.dirname(os.path.abspath(__file__))
COPIES = "glibc.cpu.x86_rep_movsb_threshold=1000000000:glibc.cpu.x86_rep_stosb_threshold=1000000000"


def build(original, library, folder):
    os.makedirs(folder, exist_ok=True)
    for name, path in (("original", original), ("rust", f"{BENCH}/../doors/rust")):
        link = f"{folder}/{name}"
        if os.path.islink(link):
            os.remove(link)
        os.symlink(os.path.abspath(path), link)
    shutil.copytree(f"{BENCH}/doors", f"{folder}/doors", dirs_exist_ok=True)
    subprocess.run(["cargo", "build", "--release", "--offline"], cwd=f"{folder}/doors", check=True,
                   env={**os.environ, "GOTYMBE_LIBRARY_FOLDER": os.path.abspath(library)})
    return f"{folder}/doors/target/release/bench_doors"


def counted(program, *args):
    """The instructions, and the bytes of the trace and of the batch."""
    command = ["valgrind", "--tool=callgrind", "--callgrind-out-file=/dev/null", program, *map(str, args)]
    ran = subprocess.run(command, capture_output=True, text=True, check=True,
                         env={**os.environ, "GLIBC_TUNABLES": COPIES})
    trace, batch, _ = map(int, ran.stdout.split())
    return int(re.search(r"Collected : (\d+)", ran.stderr)[1]), trace, batch


def main():
    original, library, folder, *words = sys.argv[1:]
    program = build(original, library, folder)
    for does in ("write", "read"):
        for kind in ("numbers", "pooled"):
            for events in (1, 10, 100, 1000):
                name = f"{does} {kind} {events}"
                if words and not any(word in name for word in words):
                    continue
                turns = max(2, 400 // events)
                row = {}
                for who in ("orig", "door"):
                    more, trace, batch = counted(program, does, who, kind, events, 2 * turns)
                    less, _, _ = counted(program, does, who, kind, events, turns)
                    row[who] = (more - less) / (turns * events)
                    row[f"{who} bytes"] = trace / events
                print(f"{name}: original {row['orig']:.0f}, here {row['door']:.0f}, "
                      f"ratio {row['door'] / row['orig']:.2f}; "
                      f"bytes {row['orig bytes']:.1f} and {row['door bytes']:.1f}, of the batch {batch / events:.1f}",
                      flush=True)


main()
