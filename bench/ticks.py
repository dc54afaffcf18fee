#!/usr/bin/env python3
"""Counts the instructions of a tick of the database while no entry is due, by valgrind."""
import argparse
import re
import subprocess
import tempfile

from program import build

ENTRIES = (100, 1000, 10000, 100000)
TICKS = 1799


def instructions(program, entries, ticks):
    words = [
        "valgrind",
        "--tool=callgrind",
        "--callgrind-out-file=/dev/null",
        program,
        str(entries),
        str(ticks),
    ]
    told = subprocess.run(words, check=True, capture_output=True, text=True).stderr
    return int(re.search(r"Collected : (\d+)", told).group(1))


def main():
    argparse.ArgumentParser(
        description=__doc__, formatter_class=argparse.RawDescriptionHelpFormatter
    ).parse_args()
    with tempfile.TemporaryDirectory() as place:
        program = build(place, "ticks", "ospf_lsdb", ["1", "1"])
        for entries in ENTRIES:
            spent = instructions(program, entries, TICKS) - instructions(program, entries, 0)
            print(f"{entries} entries: {spent / TICKS:.0f} instructions a tick")


main()
