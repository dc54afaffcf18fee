#!/usr/bin/env python3
"""Counts and times an idle tick of a router, and an Update with an LSA that it has, also while
another one waits at MaxAge for acknowledgments, by the clock and by valgrind.
"""
import argparse
import re
import subprocess
import tempfile

from program import build

# Links, neighbours on each, and LSAs.
SIZES = ((2, 2, 100), (10, 10, 100), (10, 10, 1000), (10, 10, 10000))
# Fewer than lie between two Hellos.
STEPS = 8


def words_of(program, size, *steps):
    return [program, *map(str, size), *map(str, steps)]


def nanoseconds(program, size):
    told = subprocess.run(
        words_of(program, size, STEPS, STEPS, STEPS), check=True, capture_output=True, text=True
    ).stdout
    return [int(word) / STEPS for word in told.split()]


def instructions(program, size, *steps):
    words = [
        "valgrind",
        "--tool=callgrind",
        "--callgrind-out-file=/dev/null",
        *words_of(program, size, *steps),
    ]
    told = subprocess.run(words, check=True, capture_output=True, text=True).stderr
    return int(re.search(r"Collected : (\d+)", told).group(1))


def counts(program, size):
    none = instructions(program, size, 0, 0, 0)
    return [
        (instructions(program, size, *steps) - none) / STEPS
        for steps in ((STEPS, 0, 0), (0, STEPS, 0), (0, 0, STEPS))
    ]


def main():
    argparse.ArgumentParser(
        description=__doc__, formatter_class=argparse.RawDescriptionHelpFormatter
    ).parse_args()
    with tempfile.TemporaryDirectory() as place:
        program = build(place, "steps", "ospf_router", ["2", "2", "10", "1", "1", "1"])
        for size in SIZES:
            links, each, lsas = size
            taken = zip(counts(program, size), nanoseconds(program, size))
            print(
                f"| {links} | {links * each} | {lsas:,} |"
                + "".join(f" {count:,.0f} | {time / 1000:,.1f} |" for count, time in taken),
                flush=True,
            )


main()
