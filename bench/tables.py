#!/usr/bin/env python3
"""Times `ospfd table` beside plain.rs over sparse, equal-cost and dense areas, and compares what
they print.

  tables.py [RUNS]

For each area the processor time, user and system, of the run of least time out of RUNS (7), in
milliseconds, and the ratio; for the largest area also the peak of memory in megabytes. Needs rustc.
"""
import os
import random
import subprocess
import sys
import tempfile

import area
import proved

HERE = os.path.dirname(os.path.abspath(__file__))
OSPFD = [proved.program(), "table"]
ROOT = "192.0.2.1"
COST = 10


def dense(pairs, roots):
    """An area of point-to-point links, all of one metric, between these pairs of routers, and from
    the root to some."""
    links = {area.ROOT: []}
    for place, (a, b) in enumerate(pairs + [(None, b) for b in roots]):
        here = area.ROOT if a is None else area.ROUTERS + a
        there, prefix = area.ROUTERS + b, (area.ROOT_LINKS if a is None else area.LINKS) + 4 * place
        links.setdefault(here, []).append((there, prefix + 1, area.POINT_TO_POINT, COST))
        links.setdefault(there, []).append((here, prefix + 2, area.POINT_TO_POINT, COST))
    for router in links:
        if router != area.ROOT:
            links[router].append((area.HOSTS + router - area.ROUTERS, 0xFFFFFFFF, area.STUB, 0))
    return "".join(
        area.router_lsa(router, own).hex() + "\n" for router, own in sorted(links.items())
    )


def clique(count):
    return dense([(a, b) for a in range(1, count + 1) for b in range(a + 1, count + 1)], [1])


def layers(count, width):
    at = lambda layer, place: layer * width + place + 1
    pairs = [
        (at(layer, a), at(layer + 1, b))
        for layer in range(count - 1)
        for a in range(width)
        for b in range(width)
    ]
    return dense(pairs, [at(0, a) for a in range(width)])


def reordered(text, order):
    lines = text.splitlines(True)
    return "".join(order(lines))


AREAS = {
    "1,000 routers": lambda: area.text(1000, 1),
    "5,000 routers": lambda: area.text(5000, 1),
    "20,000 routers": lambda: area.text(20000, 1),
    "20,000 routers in falling order": lambda: reordered(
        area.text(20000, 1), lambda lines: lines[::-1]
    ),
    "20,000 routers in any order": lambda: reordered(
        area.text(20000, 1), lambda lines: random.Random(1).sample(lines, len(lines))
    ),
    "1,000 routers of one metric, 16 links of the root": lambda: area.text(
        1000, 1, root_links=16, greatest_metric=1
    ),
    "5,000 routers of two metrics, 16 links of the root": lambda: area.text(
        5000, 1, root_links=16, greatest_metric=2
    ),
    "a clique of 300": lambda: clique(300),
    "30 layers of 30": lambda: layers(30, 30),
}


LARGEST = "20,000 routers"
# A process of its own, since the peak of a program begins at that of the process that starts it.
PEAK = (
    "import os, sys; child = os.posix_spawn(sys.argv[1], sys.argv[1:], {}); "
    "print(os.wait4(child, 0)[2].ru_maxrss, file=sys.stderr)"
)


def peak(words, path):
    """The peak of memory in megabytes."""
    with open(path, "rb") as lines:
        told = subprocess.run(
            [sys.executable, "-S", "-c", PEAK, *words],
            stdin=lines,
            stdout=subprocess.DEVNULL,
            stderr=subprocess.PIPE,
        )
    return int(told.stderr.split()[-1]) / 1000


def run(words, path):
    """The processor time and the output."""
    with open(path, "rb") as lines, tempfile.TemporaryFile() as output:
        process = subprocess.Popen(words, stdin=lines, stdout=output, stderr=subprocess.DEVNULL)
        _, status, used = os.wait4(process.pid, 0)
        process.returncode = os.waitstatus_to_exitcode(status)
        if process.returncode != 0:
            sys.exit(f"{' '.join(words)}: status {process.returncode}")
        output.seek(0)
        return used.ru_utime + used.ru_stime, output.read()


def main():
    runs = int(sys.argv[1]) if len(sys.argv) > 1 else 7
    with tempfile.TemporaryDirectory() as folder:
        plain, path = os.path.join(folder, "plain"), os.path.join(folder, "area")
        subprocess.run(
            ["rustc", "--edition", "2021", "-O", "-o", plain, os.path.join(HERE, "plain.rs")],
            check=True,
        )
        print("| Area | `ospfd table` | plain Rust | Ratio |\n|---|---|---|---|")
        for name, made in AREAS.items():
            with open(path, "w") as lines:
                lines.write(made())
            ours = min((run(OSPFD + [ROOT], path) for _ in range(runs)), key=lambda one: one[0])
            theirs = min((run([plain, ROOT], path) for _ in range(runs)), key=lambda one: one[0])
            if ours[1] != theirs[1]:
                sys.exit(f"{name}: the outputs differ")
            print(
                f"| {name} | {1000 * ours[0]:.1f} | {1000 * theirs[0]:.1f} | "
                f"{ours[0] / theirs[0]:.2f} |",
                flush=True,
            )
            if name == LARGEST:
                peaks = peak(OSPFD + [ROOT], path), peak([plain, ROOT], path)
        print(f"Peak of memory at {LARGEST}: {peaks[0]:.1f} MB, plain Rust {peaks[1]:.1f} MB")


main()
