#!/usr/bin/env python3
"""Finds how much stack each command of the proved program takes: the least limit, in KB, with which
it prints what it prints without one.

The limit is that of the process (RLIMIT_STACK), which each thread gets too. The areas are made by
area.py; the scripts and configurations are the examples. Beside them stands how deep a file of
nested tables and arrays the reader of configurations is given.
"""
import glob
import os
import resource
import subprocess
import sys
import tempfile

import area
import proved

TOP = proved.TOP
KB = 1024
MOST = 8192
SECONDS = 120


def run(words, text, limit=None):
    """What a command answers with a limit of the stack: its status and all that it prints."""
    bound = (
        lambda: resource.setrlimit(resource.RLIMIT_STACK, (limit * KB, limit * KB))
        if limit
        else None
    )
    how = {
        "input": text.encode(),
        "stdout": subprocess.PIPE,
        "stderr": subprocess.PIPE,
        "timeout": SECONDS,
    }
    ended = subprocess.run([proved.BUILT, *words], preexec_fn=bound, cwd=TOP, check=False, **how)
    return ended.returncode, ended.stdout, ended.stderr


def least(words, text):
    """The least limit with which the command answers as without one."""
    wanted, low, high = run(words, text), 0, MOST
    while high - low > 4:
        middle = (low + high) // 2
        try:
            is_enough = run(words, text, middle) == wanted
        except (OSError, subprocess.SubprocessError):
            is_enough = False
        low, high = (low, middle) if is_enough else (middle, high)
    return high


def commands(place):
    """The commands that are measured, each with its input."""
    nested = os.path.join(place, "nested.toml")
    with open(nested, "w", encoding="utf-8") as file:
        file.write("a = " + "[" * 100000 + "]" * 100000 + "\n")
    ring = [
        "examples/ring-loses-a-link/script",
        *sorted(glob.glob(os.path.join(TOP, "examples/ring-loses-a-link/*.toml"))),
    ]
    text = area.text(1000, 1)
    with open(os.path.join(TOP, "examples", "frr-bird-lan.hex"), encoding="utf-8") as file:
        lan = file.read()
    root = "192.0.2.1"
    return [
        ("table, 1,000 routers", ["table", root], text),
        ("path through 1,000 routers", ["path", root, "10.0.0.1"], text),
        ("lsas, 1,000 routers", ["lsas"], text),
        ("failures of one router", ["failures", "1.1.1.1"], lan),
        ("failures of all, in threads", ["failures", "all"], lan),
        ("sim", ["sim", *ring], ""),
        ("check of 100,000 nested arrays", ["check", nested], ""),
        (
            "run, in threads, 3 ticks",
            ["run", "--tick", "10", "3", "examples/point-to-point.toml"],
            "",
        ),
    ]


def main():
    if len(sys.argv) > 1:
        sys.exit(__doc__)
    proved.program()
    print("| Command | Stack, KB |\n|---|---|")
    with tempfile.TemporaryDirectory() as place:
        for name, words, text in commands(place):
            print(f"| {name} | {least(words, text)} |", flush=True)


main()
