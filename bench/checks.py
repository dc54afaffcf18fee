#!/usr/bin/env python3
"""Shows what the checks of the crates took in the last gate, and what became dearer since the last
release.

usage: bench/checks.py              a table of the crates that the last gate proved (out/costs), the
                                    dearest first
       bench/checks.py --dearer     only those that became dearer, one line each
       bench/checks.py --keep       writes the figures of the last gate, which has to have proved
                                    all crates, into bench/costs.txt

A machine that is loaded or slower takes longer for everything, so a crate is dearer where it grew
by more than a tenth, and by more than ten seconds, over what the crates of the run grew by in the
median. A crate should cost at most 2.5 seconds a function.
"""
import os
import statistics
import sys

TOP = os.path.dirname(os.path.dirname(os.path.abspath(__file__)))
sys.path[:0] = [os.path.join(TOP, "tests", "gate"), os.path.join(TOP, "tools")]
sys.dont_write_bytecode = True
from kit import MEASURED, costs_in  # noqa: E402
from rattle import SIGNATURE, files_of  # noqa: E402

LAST = os.path.join(TOP, "out", "costs")
TENTH, SECONDS = 1.1, 10
HEAD = (
    "# What the checks of each crate take: the crate, what is checked, seconds of processor time, "
    "MB of memory.\n"
)


def functions(crate):
    """How many functions a crate has."""
    count = 0
    for path in files_of(os.path.join(TOP, "crates", crate, "src"), ".rt"):
        with open(path, encoding="utf-8") as file:
            count += len(SIGNATURE.findall(file.read()))
    return count


def dearer(now, before):
    """The checks that became dearer: crate, kind, seconds before, as this machine would take them,
    and now."""
    both = [it for it in now if before.get(it, (0, 0))[0]]
    if not both:
        return []
    pace = statistics.median(now[it][0] / before[it][0] for it in both)
    wanted = {it: before[it][0] * pace for it in both}
    return sorted(
        (*it, wanted[it], now[it][0])
        for it in both
        if now[it][0] > max(wanted[it] * TENTH, wanted[it] + SECONDS)
    )


def put_dearer(now, before):
    for crate, kind, was, seconds in dearer(now, before):
        print(f"dearer: {crate} ({kind}): {was:.0f} -> {seconds} s of processor time")


def put_table(now, before):
    print(
        "| Crate | Check | Processor time, s | A function, s | Memory, MB | Before, s "
        "|\n|---|---|---|---|---|---|"
    )
    for (crate, kind), (seconds, megabytes) in sorted(now.items(), key=lambda it: -it[1][0]):
        each = f"{seconds / functions(crate):.1f}" if functions(crate) else ""
        print(
            f"| `{crate}` | {kind} | {seconds} | {each} | {megabytes} | "
            f"{before.get((crate, kind), ('', ''))[0]} |"
        )
    print(f"all: {sum(seconds for seconds, _ in now.values()) / 60:.0f} minutes of processor time")


def keep(now):
    with open(MEASURED, "w", encoding="utf-8") as file:
        file.write(HEAD)
        file.writelines(
            f"{name} {kind} {seconds} {megabytes}\n"
            for (name, kind), (seconds, megabytes) in sorted(now.items())
        )


def main():
    now, before, words = costs_in(LAST), costs_in(MEASURED), sys.argv[1:]
    if words not in ([], ["--dearer"], ["--keep"]):
        sys.exit(__doc__)
    if not now and words != ["--dearer"]:
        sys.exit("bench/checks.py: no gate has noted its costs here (out/costs)")
    if words == ["--keep"]:
        keep(now)
    elif words == ["--dearer"]:
        put_dearer(now, before)
    else:
        put_table(now, before)


main()
