"""What is said on a terminal of a line that takes long, and elsewhere not."""
import os
import pty
import re
import subprocess
import sys
import tempfile
import threading

from simulated import ONE, TOP

sys.path.insert(0, os.path.join(TOP, "tests"))
from terminal import read_terminal  # noqa: E402

# Rounds of one router that take half a second or more, since the first line comes after a fifth of
# one: the proved program needs 0.14 seconds for a million.
LONG = 5_000_000
# Random events at one router that take two seconds or more.
MANY = 10_000_000


def line_on(program, line, errors):
    """Runs a long line over one router; the status, and the lines of standard output."""
    with tempfile.TemporaryDirectory() as place:
        for name, text in (
            ("script", f"start 1.1.1.1 1\n{line}\nwalk 1.1.1.1 10.9.9.9 0\n"),
            ("1.toml", ONE),
        ):
            with open(os.path.join(place, name), "w", encoding="utf-8") as file:
                file.write(text)
        done = subprocess.run(
            [program, "sim", "script", "1.toml"],
            cwd=place,
            stdout=subprocess.PIPE,
            stderr=errors,
            timeout=600,
            check=False,
        )
    return done.returncode, done.stdout.decode().splitlines(), (done.stderr or b"").decode()


def untold(program, line, many, word):
    """What is wrong with what is told of a long line, in lines."""
    quiet = line_on(program, line, subprocess.PIPE)
    here, there = pty.openpty()
    shown = []
    reader = threading.Thread(target=read_terminal, args=(here, shown))
    reader.start()
    loud = line_on(program, line, there)
    os.close(there)
    reader.join()
    os.close(here)
    lines = b"".join(shown).decode().split("\r\x1b[K")
    told = (
        []
        if quiet == loud and quiet[0] == 0 and len(quiet[1]) == 1
        else [f"with no terminal {quiet}, on a terminal {loud}"]
    )
    if (
        len(lines) < 3
        or lines[0]
        or lines[-1]
        or not all(re.fullmatch(rf"\d+ of {many} {word}", line) for line in lines[1:-1])
    ):
        told.append(f"on the terminal: {lines}")
    counts = [int(line.split()[0]) for line in lines[1:-1] if line[:1].isdigit()]
    return told + ([] if counts == sorted(counts) else [f"{word}: {counts}"])


def untold_rounds(program):
    return untold(program, f"round {LONG}", LONG, "rounds")


def untold_chance(program):
    return untold(program, f"random 7 {MANY}", MANY, "random events")
