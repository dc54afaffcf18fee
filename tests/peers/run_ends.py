"""When a run ends, and what it shows on a terminal until then."""
import os
import pty
import re
import signal
import subprocess
import sys
import threading
import time

from networks import free_ports, two
from running import TOP, Run, both, different

sys.path.insert(0, os.path.join(TOP, "tests"))
from terminal import read_terminal  # noqa: E402


def output_is_gone():
    """A run ends where its tables can be printed no more; that a file takes no bytes is told while
    the run goes on."""
    with open("/dev/full", "w", encoding="ascii") as full:
        run = Run(two(free_ports(3)), "--tick", "20", "--every", "5", "forever", output=full)
        told = different(run.ended(), 5, [], ["standard output: not written"])
    for words in (["--pcap", "/dev/full"], ["--log", "/dev/full"]):
        run = Run(two(free_ports(3)), "--tick", "20", *words, "forever")
        late = threading.Timer(60, run.child.kill)
        late.start()
        line = run.child.stderr.readline()
        late.cancel()
        told += [] if line == "/dev/full: not written\n" else [f"{words}: {line}"]
        time.sleep(1)
        told += [] if run.child.poll() is None else [f"{words}: it ended"]
        run.child.kill()
        run.ended()
    return told


def until_eof():
    """A run ends in good order where standard input ends, with or without a last tick; where the
    ticks are over first it ends then."""
    told = []
    for ticks in ("forever", "1000000"):
        run = Run(two(free_ports(3)), "--tick", "20", "--until-eof", ticks, given=subprocess.PIPE)
        run.child.stdin.write("passed over\n")
        run.child.stdin.flush()
        time.sleep(4)
        if run.child.poll() is not None:
            told.append(f"{ticks}: it ended before its input did")
        told += different(run.ended(), 0, both())
    run = Run(two(free_ports(3)), "--tick", "20", "--until-eof", "120", given=subprocess.PIPE)
    try:
        run.child.wait(60)
    except subprocess.TimeoutExpired:
        told.append("it waits for its input when the ticks are over")
    return told + different(run.ended(), 0, both())


def forever():
    """Without an end of input a run without a last tick goes on until it is killed, and then
    nothing is printed."""
    run = Run(two(free_ports(3)), "--tick", "1", "forever")
    time.sleep(2)
    told = [] if run.child.poll() is None else ["it ended by itself"]
    run.child.kill()
    return told + different(run.ended(), -signal.SIGKILL, [])


def on_a_terminal():
    """Where standard error is a terminal it tells how far the run has come, and the line is taken
    away in the end."""
    here, there = pty.openpty()
    run = Run(two(free_ports(3)), "--tick", "20", "120", errors=there)
    os.close(there)
    shown = []
    reader = threading.Thread(target=read_terminal, args=(here, shown))
    reader.start()
    told = different(run.ended(), 0, both())
    reader.join()
    os.close(here)
    text = b"".join(shown).decode()
    lines = text.split("\r\x1b[K")
    if (
        lines[0]
        or lines[-1]
        or not all(
            re.fullmatch(r"tick \d+ of 120, [012] neighbours Full", line) for line in lines[1:-1]
        )
    ):
        told.append(f"on the terminal: {text!r}")
    if len(lines) < 4 or not lines[-2].endswith(" 2 neighbours Full"):
        told.append(f"lines: {lines}")
    return told


TESTS = [output_is_gone, until_eof, forever, on_a_terminal]
