#!/usr/bin/env python3
"""Times lookups in the shared table: one to three readers, alone and beside a writer that publishes
in a loop, whole tables of which nothing changed, or changes of ten routes there and back. It prints
the nanoseconds of a lookup.
"""
import argparse
import subprocess
import tempfile

from program import build

ROUTES = (1, 1000, 100000, 1000000)
READERS = (1, 2, 3)
# So many that what a writer does once before its first publish is little of the time.
LOOKUPS = 20000000
BESIDE = ("alone", "tables", "changes")


def nanoseconds(program, routes, readers, publishes):
    """Of each lookup of a reader, in the best round of the program."""
    words = [program, str(routes), str(readers), str(LOOKUPS), publishes]
    return int(subprocess.run(words, check=True, capture_output=True).stdout) / LOOKUPS


def main():
    argparse.ArgumentParser(
        description=__doc__, formatter_class=argparse.RawDescriptionHelpFormatter
    ).parse_args()
    with tempfile.TemporaryDirectory() as place:
        program = build(place, "lookups", "ospf_fib", ["1", "1", "1", "alone"])
        for routes in ROUTES:
            for readers in READERS:
                taken = [nanoseconds(program, routes, readers, publishes) for publishes in BESIDE]
                print(
                    f"| {routes:,} | {readers} |" + "".join(f" {one:.0f} |" for one in taken),
                    flush=True,
                )


main()
