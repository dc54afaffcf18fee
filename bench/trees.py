#!/usr/bin/env python3
"""Times `Tree::of` and `holds_for` over an area of 5,000 routers, a grid of 50 a row, with the
looks at candidates."""
import argparse
import subprocess
import tempfile

from program import build

ROW, ROWS, ROUNDS = 50, 100, 20


def main():
    argparse.ArgumentParser(
        description=__doc__, formatter_class=argparse.RawDescriptionHelpFormatter
    ).parse_args()
    with tempfile.TemporaryDirectory() as place:
        program = build(place, "trees", "ospf_spf", ["2", "2", "1"])
        words = [program, str(ROW), str(ROWS), str(ROUNDS)]
        made, held, looks = (
            int(word)
            for word in subprocess.run(words, check=True, capture_output=True).stdout.split()
        )
        print(
            f"| {ROW * ROWS:,} | {made / 1e6:.2f} | {held / 1e6:.2f} | "
            f"{held / made:.3f} | {looks:,} |",
            flush=True,
        )


main()
