#!/usr/bin/env python3
"""Counts what reading in pieces costs beside reading whole: instructions by cachegrind, and the most memory.

pieces.py FOLDER [parts|bytes|events|memory ..]
pieces.py --program PROGRAM [parts|bytes|events|memory ..]
    FOLDER, outside the repository, is where the program `bench_p` is proved and built; PROGRAM is one that
    `unproved.py --pieces` built. Without words all is counted.
    parts: one frame of 16 MB in pieces of 4,096 bytes, fed and pulled. bytes: one of 100 KB in pieces of one byte.
    events: a dump while the input is read, beside a dump of the whole. memory: what such a dump takes of a pipe.
"""
import os
import re
import shutil
import struct
import subprocess
import sys
import tempfile

BENCH = os.path.dirname(os.path.abspath(__file__))
TOP = os.path.dirname(BENCH)
CRATES = ["trace_tables", "trace_values", "trace_wire", "trace_writer", "dial9_trace_format", "trace_lines"]
NAME, BELOW = "bench_p", "trace_values dial9_trace_format trace_lines anyhow"
HEADER = b"TRC\0\1"
MOST_ITEMS, MOST_OF_U16 = 1_000_000, 65_535
# (valgrind counts each byte of `rep movsb`, by which the C library copies long pieces, as an instruction: it copies by
# loops here)
COPIES = "glibc.cpu.x86_rep_movsb_threshold=1000000000:glibc.cpu.x86_rep_stosb_threshold=1000000000"
VARINT, STRING, STRING_MAP, LIST, MAP = 9, 4, 10, 14, 15


# ---- frames of many parts

def u16(n):
    return struct.pack("<H", n)


def u32(n):
    return struct.pack("<I", n)


def name(text):
    return u16(len(text)) + text


def counted(text):
    return u32(len(text)) + text


def schema(fields):
    return b"\1" + u16(256) + name(b"Ev") + b"\1" + u16(len(fields)) + b"".join(name(f) + bytes([t]) for f, t in fields)


def pool(tag, entry, size):
    """A pool frame whose entries have these bytes after their ids."""
    count = size // (4 + len(entry))
    return HEADER + tag + u32(count) + b"".join(u32(i) + entry for i in range(count))


def held(field_type, item, size):
    """An event with as many fields as hold this many bytes of items, 1,000,000 items each at most."""
    left, counts = size // len(item), []
    while left:
        counts.append(min(left, MOST_ITEMS))
        left -= counts[-1]
    fields = [(b"f%d" % i, field_type) for i in range(len(counts))]
    return HEADER + schema(fields) + b"\2" + u16(256) + bytes(3) + b"".join(u32(n) + item * n for n in counts)


def item(part):
    """A number for a part of one byte, else a text."""
    return bytes([VARINT, 5]) if part == 1 else bytes([STRING]) + counted(b"x" * part)


def annotations(part, size):
    entry = u16(0) + name(b"k") + counted(b"x" * part)
    count = min(MOST_OF_U16, size // len(entry))
    return HEADER + schema([(b"v", VARINT)]) + b"\6\x80\2" + u16(count) + entry * count


def fields(part, size):
    return HEADER + schema([(b"x" * part, VARINT)] * min(MOST_OF_U16, size // (part + 3)))


KINDS = {
    "string pool": lambda part, size: pool(b"\3", counted(b"x" * part), size),
    "stack pool": lambda part, size: pool(b"\4", u32(max(1, part // 8)) + bytes(8 * max(1, part // 8)), size),
    "list": lambda part, size: held(LIST, item(part), size),
    "map": lambda part, size: held(MAP, bytes([VARINT, 5]) + item(part), size),
    "map of texts": lambda part, size: held(STRING_MAP, counted(b"k") + counted(b"x" * part), size),
    "annotations": annotations,
    "schema": fields,
}


def number(n):
    return bytes([n]) if n < 128 else bytes([n & 127 | 128]) + number(n >> 7)


def head():
    return HEADER + schema([(b"a", VARINT), (b"b", VARINT), (b"c", VARINT)])


def events(count):
    """Events of three numbers, which may be repeated."""
    return b"".join(b"\2\0\1" + u32(1000 + (i & 255))[:3] + number(i & 7) + number(i * 2654435761 & 0xffff)
                    + number(i * 40503 & 0xfffff) for i in range(count))


# ---- counts

def build(folder):
    port = f"{folder}/port"
    os.makedirs(port, exist_ok=True)
    for crate in CRATES:
        to = f"{port}/crates/{crate}"
        for part in ("src", "specs", "proofs"):
            shutil.rmtree(f"{to}/{part}", ignore_errors=True)
            shutil.copytree(f"{TOP}/crates/{crate}/{part}", f"{to}/{part}")
        if not os.path.isdir(f"{to}/out") and os.path.isdir(f"{TOP}/crates/{crate}/out"):
            subprocess.run(["cp", "-a", f"{TOP}/crates/{crate}/out", to], check=True)
    os.makedirs(f"{port}/crates/{NAME}/src", exist_ok=True)
    shutil.copyfile(f"{BENCH}/library/{NAME}/src/main.rt.txt", f"{port}/crates/{NAME}/src/main.rt")
    with open(f"{TOP}/crates.txt", encoding="utf-8") as file:
        lines = [line for line in file if line.partition(":")[0] in CRATES]
    with open(f"{port}/crates.txt", "w", encoding="utf-8") as file:
        file.writelines(lines + [f"{NAME}: {BELOW}\n"])
    subprocess.run(["rt", "run", "--jobs", "1", "--", "feed", "1", "1"], cwd=f"{port}/crates/{NAME}", input=HEADER,
                   check=True)
    return f"{port}/crates/{NAME}/out/{NAME}"


def instructions(program, data, *words):
    # (as callgrind counts them, in a third of the time)
    command = ["valgrind", "--tool=cachegrind", "--cache-sim=no", "--cachegrind-out-file=/dev/null", program,
               *map(str, words)]
    with tempfile.TemporaryFile() as file:
        file.write(data)
        file.seek(0)
        ran = subprocess.run(command, stdin=file, stdout=subprocess.DEVNULL, stderr=subprocess.PIPE, text=True,
                             env={**os.environ, "GLIBC_TUNABLES": COPIES})
    return int(re.search(r"I +refs: +([\d,]+)", ran.stderr)[1].replace(",", ""))


def count_frames(program, size, piece, parts):
    for kind, make in KINDS.items():
        for part in parts:
            data = make(part, size)
            # (what is no reading)
            beside = instructions(program, data, "feed", piece, 0)
            whole = instructions(program, data, "feed", len(data), 1) - beside
            told = [f"{form} {(instructions(program, data, form, piece, 1) - beside) / whole:6.2f}"
                    for form in ("feed", "pull")]
            print(f"{kind:13} parts of {part:5,} frame of {len(data):10,} pieces of {piece:5,}: whole {whole:13,}  "
                  + "  ".join(told), flush=True)


def count_events(program):
    one, two = head() + events(20_000), head() + events(40_000)
    for form in ("dump", "pieces"):
        each = (instructions(program, two, form) - instructions(program, one, form)) / 20_000
        print(f"{form:13} instructions an event of three numbers: {each:8.1f}", flush=True)


def most_memory(program, form, blocks):
    """The most memory of a run whose input is these blocks through a pipe, in KiB, and how many bytes it took."""
    timed = ["/usr/bin/time", "-f", "%M", program, form]
    ran = subprocess.Popen(timed, stdin=subprocess.PIPE, stdout=subprocess.DEVNULL, stderr=subprocess.PIPE)
    given = 0
    try:
        for block in blocks:
            ran.stdin.write(block)
            given += len(block)
        ran.stdin.close()
    except BrokenPipeError:
        pass
    return int(ran.stderr.read().split()[-1]), given


def repeated(front, block, size):
    yield front
    for _ in range(size // len(block)):
        yield block


def count_memory(program):
    inputs = {"a header": [HEADER], "1 GB of events": repeated(head(), events(100_000), 10**9),
              "a header, FF and 1 GB of zeros": repeated(HEADER + b"\xff", bytes(1 << 16), 10**9)}
    for what, blocks in inputs.items():
        kib, given = most_memory(program, "pieces", blocks)
        print(f"{what:31} the most memory {kib:8,} KiB, bytes written to the pipe {given:13,}", flush=True)
    for kind, make in KINDS.items():
        for part in (1, 64, 1000):
            data = make(part, 4_000_000)
            told = [f"{form} {most_memory(program, form, [data])[0] / len(data) * 1024:5.1f}"
                    for form in ("dump", "pieces")]
            print(f"{kind:13} parts of {part:5,} frame of {len(data):10,}: the most memory over it  "
                  + "  ".join(told), flush=True)


def main():
    given = sys.argv[1:]
    program, words = (given[1], given[2:]) if given[0] == "--program" else (build(given[0]), given[1:])
    words = words or ["parts", "bytes", "events", "memory"]
    if "parts" in words:
        count_frames(program, 16_000_000, 4096, (1, 64, 1000))
    if "bytes" in words:
        count_frames(program, 100_000, 1, (1, 10, 64, 1000))
    if "events" in words:
        count_events(program)
    if "memory" in words:
        count_memory(program)


main()
