#!/usr/bin/env python3
"""Counts what the lines of an event cost in a dump, plain and resolved, by callgrind.

A count is the difference of two traces of different length, divided by the difference.

dumps.py [--time] PROGRAM [WORD ..] [-- PROGRAM [WORD ..]]
    PROGRAM with these words reads a trace from standard input and writes its lines, and with `--resolve` after them
    those of its events, resolved, as `tracedump` does. With --time it tells seconds of processor time instead, the
    best of nine, and the most memory, of 2,000,000 events. Two programs run in turn, and the ratio of the first to the
    second is told.
"""
import os
import re
import struct
import subprocess
import sys
import tempfile

# (valgrind counts each byte of `rep movsb`, by which the C library copies long pieces, as an instruction: it copies by
# loops here)
COPIES = "glibc.cpu.x86_rep_movsb_threshold=1000000000:glibc.cpu.x86_rep_stosb_threshold=1000000000"
FEW, MANY, LONG = 4_000, 8_000, 2_000_000
VARINT, TEXT = 9, 4


def counted(text):
    return struct.pack("<H", len(text)) + text


def leb128(n):
    return bytes([n]) if n < 128 else bytes([n % 128 + 128]) + leb128(n // 128)


def schema(name, fields):
    return b"\1" + struct.pack("<H", 256) + counted(name) + b"\1" + struct.pack("<H", len(fields)) + b"".join(
        counted(field) + bytes([kind]) for field, kind in fields)


def event(i, values):
    return b"\2" + struct.pack("<H", 256) + struct.pack("<I", 1000 + (i & 0xFF))[:3] + values


def three(i):
    return event(i, leb128(i & 7) + leb128((i * 2654435761) & 0xFFFF) + leb128((i * 40503) & 0xFFFFF))


def text(i):
    return event(i, struct.pack("<I", 1024) + (b"the quick brown fox jumps over the lazy dog; " * 23)[:1024])


WORKS = {
    "three numbers": (schema(b"PollStart", [(b"worker", VARINT), (b"task", VARINT), (b"spent", VARINT)]), three),
    "a text of 1 KB": (schema(b"Log", [(b"text", TEXT)]), text),
}


def trace(path, work, count):
    before, make = WORKS[work]
    with open(path, "wb") as file:
        file.write(b"TRC\0\1" + before)
        for i in range(count):
            file.write(make(i))


def instructions(words, path):
    command = ["valgrind", "--tool=callgrind", "--callgrind-out-file=/dev/null", *words]
    with open(path, "rb") as file:
        ended = subprocess.run(command, stdin=file, stdout=subprocess.DEVNULL, stderr=subprocess.PIPE, text=True,
                               env={**os.environ, "GLIBC_TUNABLES": COPIES})
    return int(re.search(r"Collected : (\d+)", ended.stderr)[1])


def taken(programs, path):
    """Seconds of processor time, and the most memory in KB, of programs that run in turn."""
    found = [(float("inf"), 0)] * len(programs)
    for _ in range(9):
        for at, words in enumerate(programs):
            with open(path, "rb") as file:
                process = subprocess.Popen(words, stdin=file, stdout=subprocess.DEVNULL)
                _, _, used = os.wait4(process.pid, 0)
            best, most = found[at]
            found[at] = (min(best, used.ru_utime + used.ru_stime), max(most, used.ru_maxrss))
    return found


def told(name, counts, unit):
    ratio = f"  ratio {counts[0] / counts[1]:.2f}" if len(counts) == 2 else ""
    print(f"{name}: " + ", ".join(f"{it:,.3f} {unit}" if unit == "s" else f"{it:,.0f} {unit}" for it in counts) + ratio,
          flush=True)


def programs_of(words):
    """The words of one program, or of two with `--` between them."""
    at = words.index("--") if "--" in words else len(words)
    return [it for it in (words[:at], words[at + 1:]) if it]


def main():
    timed = "--time" in sys.argv[1:]
    programs = programs_of([word for word in sys.argv[1:] if word != "--time"])
    with tempfile.TemporaryDirectory() as room:
        few, many = f"{room}/few", f"{room}/many"
        for work in ["three numbers"] if timed else WORKS:
            trace(few, work, FEW)
            trace(many, work, LONG if timed else MANY)
            for resolve in ([], ["--resolve"]):
                name = f"{work}, {'resolved' if resolve else 'plain'}"
                called = [[*words, *resolve] for words in programs]
                if timed:
                    found = taken(called, many)
                    told(name, [it[0] for it in found], "s")
                    told(name, [it[1] for it in found], "KB")
                else:
                    told(name, [(instructions(words, many) - instructions(words, few)) / (MANY - FEW)
                                for words in called], "instructions")


main()
