#!/usr/bin/env python3
"""Tells how the time of each subcommand of `gotymbe` grows where an input is made twice and four times as long.

    bench/doubling.py PROGRAM [WORD ..]

PROGRAM is a `gotymbe`, proved or not (`unproved.py --tools`). Each row has the name of an input, a subcommand, how many
bytes the input has at the first size, and the seconds of processor time at the three sizes, and how many times the last
takes the first: 4 where time goes by the length, 16 where it goes by its square. With WORDs only inputs or subcommands
of these names are taken. The inputs are made so that something in them comes often: schemas, wire ids, fields,
annotations, texts, long stacks, tracks, slices in one another, counters, headers, pieces, files, and events that are
asked for by name. docs/TOOLS.md ("Time") says where the square stays."""
import os
import resource
import shutil
import struct
import subprocess
import sys
import tempfile

HEADER = b"TRC\0\1"
I64, STRING, BYTES, STACK, POOLED, FRAMES, VARINT = 1, 4, 5, 6, 7, 8, 9


def u16(number):
    return struct.pack("<H", number)


def u32(number):
    return struct.pack("<I", number)


def leb(number):
    return bytes([number]) if number < 128 else bytes([number % 128 + 128]) + leb(number // 128)


def schema(wire_id, name, fields=()):
    shown = b"".join(u16(len(it)) + it + bytes([kind]) for it, kind in fields)
    return b"\1" + u16(wire_id) + u16(len(name)) + name + b"\1" + u16(len(fields)) + shown


def notes(wire_id, pairs):
    """Annotations: an index, a key and a text each; 65,535 is the schema's index."""
    each = b"".join(u16(at) + u16(len(key)) + key + u32(len(text)) + text for at, key, text in pairs)
    return b"\6" + leb(wire_id) + u16(len(pairs)) + each


def event(wire_id, values=b"", delta=1):
    return b"\2" + u16(wire_id) + delta.to_bytes(3, "little") + values


def text(value):
    return u32(len(value)) + value


def schemas(n):
    """As many schemas as events, each with a wire id of its own, in turn twice."""
    n = min(n, 65000)
    return HEADER + b"".join(schema(it, b"%d" % it) for it in range(n)) + b"".join(event(it) for it in range(n)) * 2


def same_ids(n):
    """Schemas whose wire ids differ by multiples of 256, and events of them in turn."""
    ids = [it * 256 for it in range(min(n // 64, 255))]
    return HEADER + b"".join(schema(it, b"%d" % it) for it in ids) + b"".join(event(it) for it in ids) * (n // len(ids))


def anew(n):
    """A schema that is told anew after each header, with another name each time."""
    return b"".join(HEADER + schema(256, b"%d" % it) + event(256) for it in range(n))


def fields(n):
    """Events of as many fields, each with an annotation."""
    return (HEADER + schema(256, b"K", [(b"%d" % it, VARINT) for it in range(n)])
            + notes(256, [(it, b"a", b"b") for it in range(n)])
            + event(256, b"\7" * n) * 2)


def annotations(n):
    """Annotations of one schema in frames of their own."""
    return HEADER + b"".join([schema(256, b"K", [(b"v", VARINT)]),
                              *(notes(256, [(0, b"%d" % it, b"b")]) for it in range(n)), event(256, b"\7")])


def texts(n):
    """Texts in a pool, and events that hold them."""
    pool = b"".join(b"\3" + u32(1) + u32(it) + text(b"%d" % it) for it in range(n))
    return HEADER + pool + schema(256, b"K", [(b"t", POOLED)]) + b"".join(event(256, u32(it)) for it in range(n))


def stacks(n):
    """Events with stacks that all differ."""
    return HEADER + schema(256, b"K", [(b"s", FRAMES)]) + b"".join(event(256, u32(2) + struct.pack("<QQ", it, 1))
                                                                   for it in range(n))


def long_stack(n):
    """A long stack in a pool, and as many events that hold it."""
    pool = b"\4" + u32(1) + u32(0) + u32(n) + bytes(8 * n)
    return HEADER + pool + schema(256, b"K", [(b"s", STACK)]) + event(256, u32(0)) * n


def long_text(n):
    """A long text in a pool, and as many events that hold it."""
    pool = b"\3" + u32(1) + u32(0) + text(b"x" * n)
    return HEADER + pool + schema(256, b"K", [(b"t", POOLED)]) + event(256, u32(0)) * n


def tracks(n):
    """Events on tracks that all differ, in turn twice."""
    head = HEADER + schema(256, b"K", [(b"worker", STRING)]) + notes(256, [(0, b"role", b"track")])
    return head + b"".join(event(256, text(b"%d" % it)) for it in range(n)) * 2


def slices(n):
    """Slices in one another, and their ends."""
    head = HEADER + schema(256, b"KStart", []) + schema(257, b"KEnd", [])
    return head + event(256) * n + event(257) * n


def headers(n):
    """Headers, after a pool of as many texts, and an event."""
    pool = b"\3" + u32(n) + b"".join(u32(it) + text(b"") for it in range(n))
    return HEADER + pool + HEADER * n + schema(256, b"K") + event(256)


def resets(n):
    return HEADER + schema(256, b"K") + b"".join(b"\5" + struct.pack("<Q", it) + event(256) for it in range(n))


def back(n):
    """Times that go back: each event is before the one before it."""
    return HEADER + schema(256, b"K") + b"".join(b"\5" + struct.pack("<Q", n - it) + event(256) for it in range(n))


def pieces(n):
    """Pieces that read whole, with a byte between them."""
    return b"\xff".join(HEADER + schema(256, b"K") + event(256) for _ in range(n))


def conflicts(n):
    """Pieces that end at schemas which conflict."""
    return (HEADER + schema(256, b"K") + event(256) + schema(256, b"L")) * n


def bare_headers(n):
    """Headers after a damaged place, and no event."""
    return HEADER + b"\xff" + HEADER * n


def one_frame(n):
    """A frame that is long and comes in many pieces: a list of texts."""
    return HEADER + schema(256, b"K", [(b"l", 14)]) + event(256, u32(n) + (b"\4" + text(b"xxxx")) * n)


def one_map(n):
    """The same: a map of texts."""
    return HEADER + schema(256, b"K", [(b"m", 10)]) + event(256, u32(n) + (text(b"xxxx") + text(b"yyyy")) * n)


def one_pool(n):
    pool = b"\3" + u32(n) + b"".join(u32(it) + text(b"xxxx") for it in range(n))
    return HEADER + pool + schema(256, b"K") + event(256)


READ = (["check"], ["dump"], ["dump", "--resolve"], ["json"], ["csv"], ["stats"], ["fold"], ["page"], ["chrome"],
        ["salvage"], ["salvage", "--resync"], ["join"], ["cut"],
        ["dump", "--merge"])
# (each table is a file that is synced)
BUT_TABLES = tuple(it for it in READ if it != ["csv"])
# the inputs, each with the first size and the subcommands that are tried
INPUTS = (
    (schemas, 8000, BUT_TABLES), (schemas, 100, (["csv"],)), (same_ids, 16000, BUT_TABLES), (anew, 2000, BUT_TABLES),
    (anew, 100, (["csv"],)), (fields, 4000, READ), (annotations, 4000, READ), (texts, 20000, READ),
    (stacks, 20000, READ),
    (long_stack, 1000, READ), (long_text, 1000, READ), (tracks, 4000, READ), (slices, 8000, READ),
    (headers, 20000, READ), (resets, 20000, READ), (back, 20000, READ), (pieces, 4000, READ),
    (conflicts, 4000, READ), (bare_headers, 2000, (["check"], ["salvage", "--resync"], ["cut"])),
    (one_frame, 50000, READ), (one_map, 50000, READ), (one_pool, 50000, READ),
)


def seconds(program, room, words, files):
    """The processor time of a call."""
    made = ["-o", "made"] if words[0] == "csv" else []
    shutil.rmtree(f"{room}/made", ignore_errors=True)
    before = resource.getrusage(resource.RUSAGE_CHILDREN)
    subprocess.run([program, *words, *made, *files], cwd=room, stdout=subprocess.DEVNULL, stderr=subprocess.DEVNULL,
                   check=False)
    after = resource.getrusage(resource.RUSAGE_CHILDREN)
    return after.ru_utime - before.ru_utime + after.ru_stime - before.ru_stime


def row(name, words, size, times):
    shown = " | ".join(f"{it:.3f}" for it in times)
    print(f"| {name} | `{' '.join(words)}` | {size:,} | {shown} | {times[-1] / max(times[0], 0.001):.1f} |", flush=True)


def main(program, words):
    program = os.path.abspath(program)
    print("| Input | Subcommand | Bytes | n | 2 n | 4 n | Times |\n|---|---|---|---|---|---|---|")
    with tempfile.TemporaryDirectory() as room:
        for make, n, calls in INPUTS:
            calls = [it for it in calls if not words or make.__name__ in words or it[0] in words]
            for at, data in enumerate(make(n << it) for it in range(3)) if calls else ():
                with open(f"{room}/{at}.trace", "wb") as it:
                    it.write(data)
            for call in calls:
                times = [seconds(program, room, call, [f"{at}.trace"]) for at in range(3)]
                row(make.__name__, call, os.path.getsize(f"{room}/0.trace"), times)
        if not words or "files" in words:
            for call in (["check"], ["dump", "--merge"], ["json", "--merge"], ["join"], ["stats"]):
                times = []
                for count in (250, 500, 1000):
                    for at in range(count):
                        with open(f"{room}/f{at}", "wb") as it:
                            it.write(HEADER + schema(256, b"K") + event(256) * 20)
                    times.append(seconds(program, room, call, [f"f{at}" for at in range(count)]))
                row("files", call, 250 * 140, times)
        if not words or "names" in words:
            for call in (["dump"], ["stats"]):
                times = []
                for count in (1000, 2000, 4000):
                    with open(f"{room}/n.trace", "wb") as it:
                        it.write(HEADER + schema(256, b"K") + event(256) * count)
                    times.append(seconds(program, room, [*call, *(f"--event=N{at}" for at in range(count))],
                                         ["n.trace"]))
                row("names asked for", call, 6000, times)


if __name__ == "__main__":
    main(sys.argv[1], sys.argv[2:])
