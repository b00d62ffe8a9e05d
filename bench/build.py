#!/usr/bin/env python3
"""Builds the benchmark: the library's side, as three proved static libraries, and the driver over both.

build.py ORIGINAL FOLDER ORIGINAL is the folder of the original's package, with its Cargo.toml; FOLDER is where all is
built. Run again after a change of the library or of the workloads: what is unchanged is not proved again. """
import os
import shutil
import subprocess
import sys

BENCH = os.path.dirname(os.path.abspath(__file__))
TOP = os.path.dirname(BENCH)
CRATES = ["trace_tables", "trace_values", "trace_wire", "trace_writer", "dial9_trace_format"]
SIDES = {"bench_w": "trace_values trace_wire trace_writer", "bench_d": "dial9_trace_format",
         "bench_x": "trace_values trace_writer dial9_trace_format"}


def copy_crate(name, port):
    """Copies what a crate's check reads, and at first what earlier checks kept."""
    to = f"{port}/crates/{name}"
    for part in ("src", "specs", "proofs"):
        shutil.rmtree(f"{to}/{part}", ignore_errors=True)
        if os.path.isdir(f"{TOP}/crates/{name}/{part}"):
            shutil.copytree(f"{TOP}/crates/{name}/{part}", f"{to}/{part}")
    if not os.path.isdir(f"{to}/out") and os.path.isdir(f"{TOP}/crates/{name}/out"):
        subprocess.run(["cp", "-a", f"{TOP}/crates/{name}/out", to], check=True)


def write_side(name, port):
    """Writes a crate of workloads, whose files have one ending more in the repository, so that its gate reads none of
    them."""
    for at, _, files in os.walk(f"{BENCH}/library/{name}"):
        to = f"{port}/crates/{name}/{os.path.relpath(at, f'{BENCH}/library/{name}')}"
        os.makedirs(to, exist_ok=True)
        for file in files:
            shutil.copyfile(f"{at}/{file}", f"{to}/{file.removesuffix('.txt')}")


def write_list(port):
    with open(f"{TOP}/crates.txt", encoding="utf-8") as file:
        lines = [line for line in file if line.partition(":")[0] in CRATES]
    lines += [f"{name} staticlib: {below}\n" for name, below in SIDES.items()]
    with open(f"{port}/crates.txt", "w", encoding="utf-8") as file:
        file.writelines(lines)


def build_driver(original, folder):
    link = f"{folder}/original"
    if os.path.islink(link):
        os.remove(link)
    os.symlink(os.path.abspath(original), link)
    shutil.copytree(f"{BENCH}/driver", f"{folder}/driver", dirs_exist_ok=True)
    kit = os.path.dirname(subprocess.run(["rt", "doc"], capture_output=True, text=True, check=True).stdout.strip())
    subprocess.run(["cargo", "build", "--release"], cwd=f"{folder}/driver", env={**os.environ, "KIT": kit}, check=True)


def main():
    original, folder = sys.argv[1:]
    port = f"{folder}/port"
    os.makedirs(port, exist_ok=True)
    for name in CRATES:
        copy_crate(name, port)
    for name in SIDES:
        write_side(name, port)
    write_list(port)
    for name in SIDES:
        subprocess.run(["rt", "lib", "--jobs", "1"], cwd=f"{port}/crates/{name}", check=True)
    build_driver(original, folder)


main()
