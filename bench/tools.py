#!/usr/bin/env python3
"""Counts what `gotymbe` costs: instructions for an event of three numbers by callgrind, the time, and the most memory.

tools.py [PROGRAM] [--memory]
    PROGRAM is crates/gotymbe/out/gotymbe where none is given, which `rt run` there proves and builds. Instructions are
    the difference of two runs over traces of different length, divided by the difference. The memory is the most that
    the program had at once (`VmHWM`), over 100 MB of events. All reads come from a file.
    With --memory only that is told, of the calls that read in pieces, over 10 MB and over 1 GB of events."""
import os
import re
import resource
import shutil
import struct
import subprocess
import sys
import tempfile
import time

TOP = os.path.dirname(os.path.dirname(os.path.abspath(__file__)))
# (valgrind counts each byte of `rep movsb`, by which the C library copies long pieces, as an instruction: it copies by
# loops here)
COPIES = "glibc.cpu.x86_rep_movsb_threshold=1000000000:glibc.cpu.x86_rep_stosb_threshold=1000000000"
FEW, MANY, LONG = 4_000, 8_000, 8_000_000
SHORT, HUGE = 800_000, 90_000_000
CALLS = {
    "check": ["check", "TRACE"],
    "stats": ["stats", "TRACE"],
    "dump": ["dump", "TRACE"],
    "dump --resolve": ["dump", "--resolve", "TRACE"],
    "json": ["json", "TRACE"],
    "csv": ["csv", "-o", "FOLDER", "TRACE"],
    "dump --merge": ["dump", "--merge", "TRACE"],
    "cut": ["cut", "--from", "0", "TRACE"],
    "salvage": ["salvage", "TRACE"],
    "join": ["join", "TRACE"],
}
# these read a whole file, or keep something for each event
WHOLE = ("dump --merge", "cut", "salvage", "join")
FOLLOW = {"follow": ["follow", "--idle", "0", "TRACE"]}


def counted(text):
    return struct.pack("<H", len(text)) + text


def leb128(n):
    return bytes([n]) if n < 128 else bytes([n % 128 + 128]) + leb128(n // 128)


def trace(count):
    """A trace of so many events of three numbers, each 1,000 nanoseconds after the one before."""
    schema = b"\1" + struct.pack("<H", 256) + counted(b"Poll") + b"\1" + struct.pack("<H", 3)
    schema += b"".join(counted(name) + b"\x09" for name in (b"worker", b"task", b"wait_ns"))
    delta = struct.pack("<I", 1000)[:3]
    event = [b"\2" + struct.pack("<H", 256) + delta + leb128(n % 16) + leb128(1000 + n) + leb128(n * 7919 % 100_000)
             for n in range(1000)]
    return b"TRC\0\1" + schema + (b"".join(event) * (count // 1000))


def words_of(program, call, room, path):
    shutil.rmtree(f"{room}/tables", ignore_errors=True)
    words = (CALLS | FOLLOW)[call]
    return [program, *(it.replace("TRACE", path).replace("FOLDER", f"{room}/tables") for it in words)]


def instructions(program, call, room, path):
    command = ["valgrind", "--tool=callgrind", "--callgrind-out-file=/dev/null", *words_of(program, call, room, path)]
    ended = subprocess.run(command, stdout=subprocess.DEVNULL, stderr=subprocess.PIPE, text=True,
                           env={**os.environ, "GLIBC_TUNABLES": COPIES})
    return int(re.search(r"Collected : (\d+)", ended.stderr)[1])


def taken(program, call, room, path):
    """Seconds of processor time, and the most memory in bytes."""
    before = used_by_children()
    process = subprocess.Popen(words_of(program, call, room, path), stdout=subprocess.DEVNULL)
    most = 0
    while process.poll() is None:
        try:
            with open(f"/proc/{process.pid}/status", encoding="ascii") as it:
                most = max(most, int(re.search(r"VmHWM:\s+(\d+) kB", it.read())[1]) * 1024)
        except (OSError, TypeError):
            pass
        time.sleep(0.01)
    return used_by_children() - before, most


def used_by_children():
    used = resource.getrusage(resource.RUSAGE_CHILDREN)
    return used.ru_utime + used.ru_stime


def memory(program, room):
    for count in (SHORT, HUGE):
        with open(f"{room}/{count}.trace", "wb") as it:
            it.write(trace(count))
    few, many = (os.path.getsize(f"{room}/{count}.trace") for count in (SHORT, HUGE))
    print(f"{'call':15} {few / 1e6:7,.0f} MB {many / 1e6:7,.0f} MB")
    for call in (it for it in CALLS | FOLLOW if it not in WHOLE):
        least, most = (taken(program, call, room, f"{room}/{count}.trace")[1] for count in (SHORT, HUGE))
        print(f"{call:15} {least / 1e6:7,.1f} MB {most / 1e6:7,.1f} MB", flush=True)
    return 0


def main(words):
    named = [it for it in words if it != "--memory"]
    program = os.path.abspath(named[0] if named else f"{TOP}/crates/gotymbe/out/gotymbe")
    with tempfile.TemporaryDirectory() as room:
        if "--memory" in words:
            return memory(program, room)
        for count in (FEW, MANY, LONG):
            with open(f"{room}/{count}.trace", "wb") as it:
                it.write(trace(count))
        size = os.path.getsize(f"{room}/{LONG}.trace")
        print(f"{'call':15} {'instructions':>12} {'ns':>6} {'memory':>10}   ({size:,} bytes)")
        for call in CALLS:
            each = (instructions(program, call, room, f"{room}/{MANY}.trace")
                    - instructions(program, call, room, f"{room}/{FEW}.trace")) / (MANY - FEW)
            used, most = taken(program, call, room, f"{room}/{LONG}.trace")
            whole = " (whole)" if call in WHOLE else ""
            print(f"{call:15} {each:12,.0f} {used / LONG * 1e9:6,.0f} {most / 1e6:7,.1f} MB{whole}", flush=True)
    return 0


if __name__ == "__main__":
    sys.exit(main(sys.argv[1:]))
