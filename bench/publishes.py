#!/usr/bin/env python3
"""Times publishing in the shared table: tables of 10,000 and of 100,000 routes of which none, 10 or
all changed, by the whole table and by the changes alone. It prints the routes, the changed ones,
and the microseconds of a publish each way."""
import argparse
import os
import subprocess
import tempfile

from program import build

ROUTES = (10000, 100000)
CHANGED = (0, 10, None)
WAYS = ("tables", "changes")
# How many routes are gone over in a run at most, and how many publishes there are at most.
WORK = 10000000
PUBLISHES = 2000
# What no tactic finds: the changes stay in order where they are passed as a slice.
ANSWERS = """use Rattle.std.proofs.Common.{subst, sym, AllPairs, List}
use Rattle.ospf_spf.specs.Changes.{IsChangeBefore}
use Rattle.ospf_spf.specs.declared.changes.Change.{Change}
use Rattle.publishes.proofs.time_of_changes.Goals as goal

pub publish_changes-requires-clause-in_order : goal.publish_changes-requires-clause-in_order
publish_changes-requires-clause-in_order g c = subst (λ (l : List Change). AllPairs IsChangeBefore \
l) (sym c.deref.ensures.value) c.in_ok-there.ensures.in_order

pub publish_changes-requires-in-loop-clause-in_order : \
goal.publish_changes-requires-in-loop-clause-in_order
publish_changes-requires-in-loop-clause-in_order g c = subst (λ (l : List Change). AllPairs \
IsChangeBefore l) (sym c.deref-in-loop.ensures.value) c.in_ok-back.ensures.in_order
"""


def microseconds(program, routes, changed, way):
    """How long a publish takes."""
    is_small = way == "changes" and changed < routes
    publishes = PUBLISHES if is_small else max(20, min(PUBLISHES, WORK // (5 * routes) // 2 * 2))
    words = [program, str(routes), str(changed), str(publishes), way]
    return int(subprocess.run(words, check=True, capture_output=True).stdout) / publishes / 1000


def main():
    argparse.ArgumentParser(
        description=__doc__, formatter_class=argparse.RawDescriptionHelpFormatter
    ).parse_args()
    with tempfile.TemporaryDirectory() as place:
        proofs = os.path.join(place, "crates", "publishes", "proofs", "time_of_changes")
        os.makedirs(proofs)
        with open(os.path.join(proofs, "Answers.antt"), "w", encoding="utf-8") as file:
            file.write(ANSWERS)
        program = build(place, "publishes", "ospf_fib", ["20", "10", "2", "tables"])
        for routes in ROUTES:
            for changed in CHANGED:
                many = routes if changed is None else changed
                times = [f"{microseconds(program, routes, many, way):,.1f}" for way in WAYS]
                print(f"| {routes:,} | {many:,} | {' | '.join(times)} |", flush=True)


main()
