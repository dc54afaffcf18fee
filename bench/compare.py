#!/usr/bin/env python3
"""Times `ospfd table` beside plain.rs on areas made at random, and compares what they print.

  compare.py [RUNS]

For each area and program the run of least time out of RUNS (5), in milliseconds. Reading is a run
for a root that is not listed, which reads all and finds no route, the start of the process in it.
Printing is the time from the first output to the last, and calculation is what is left. The plain
program times its parts by itself. Needs rustc.
"""
import os
import subprocess
import sys
import tempfile
import time

import area
import proved

HERE = os.path.dirname(os.path.abspath(__file__))
OSPFD = [proved.program(), "table"]
ROUTERS = (100, 1000, 5000)
NOT_LISTED = "203.0.113.1"
ROOT = "192.0.2.1"


def run(words, path):
    """The time to the first output, the time to the end, the output and what was told."""
    with open(path, "rb") as lines, tempfile.TemporaryFile() as told:
        begun = time.perf_counter()
        process = subprocess.Popen(words, stdin=lines, stdout=subprocess.PIPE, stderr=told)
        output = os.read(process.stdout.fileno(), 1 << 16)
        first = time.perf_counter() - begun
        output += process.stdout.read()
        ended = time.perf_counter() - begun
        if process.wait() != 0:
            sys.exit(f"{' '.join(words)}: status {process.returncode}")
        told.seek(0)
        return first, ended, output, told.read()


def least(runs, words, path):
    return min((run(words, path) for _ in range(runs)), key=lambda one: one[1])


def row(name, count, whole, parts):
    numbers = "".join(f" {1000 * part:9.2f}" for part in (whole, *parts))
    print(f"{name:12} {count:6}{numbers}", flush=True)


def compare(runs, count, plain, path):
    with open(path, "w") as out:
        out.write(area.text(count, 1))
    reading = least(runs, OSPFD + [NOT_LISTED], path)[1]
    first, ended, output, _ = least(runs, OSPFD + [ROOT], path)
    row("ospfd table", count, ended, (reading, first - reading, ended - first))
    _, ended, same, told = least(runs, [plain, ROOT], path)
    row("plain Rust", count, ended, [int(part) / 1e6 for part in told.split()])
    if output != same:
        sys.exit(f"{count} routers: the outputs differ")


def main():
    runs = int(sys.argv[1]) if len(sys.argv) > 1 else 5
    with tempfile.TemporaryDirectory() as folder:
        plain = os.path.join(folder, "plain")
        subprocess.run(
            ["rustc", "--edition", "2021", "-O", "-o", plain, os.path.join(HERE, "plain.rs")],
            check=True,
        )
        print(f"{'':12} {'routers':>6} {'whole':>9} {'reading':>9} {'calculate':>9} {'print':>9}")
        for count in ROUTERS:
            compare(runs, count, plain, os.path.join(folder, "area"))


main()
