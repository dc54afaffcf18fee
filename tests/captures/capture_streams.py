"""Captures that come through pipes, streams that are closed or full, and files that grow."""
import os
import signal
import struct
import subprocess
import sys
import time

import followed
from capture_bytes import enhanced, ip, lsa, pcap, section, update
from capture_reads import CAPTURE, TOOL


def begin(*words, **how):
    """The tool by the Python that runs this, so that nothing stands between it and its streams."""
    return subprocess.Popen([sys.executable, TOOL, *words], stderr=subprocess.PIPE, **how)


def ignores_interrupt(child):
    """Whether a process ignores SIGINT."""
    with open(f"/proc/{child.pid}/status", encoding="ascii") as file:
        return any(
            int(line.split()[1], 16) >> (signal.SIGINT - 1) & 1
            for line in file
            if line.startswith("SigIgn:")
        )


def live(data, wanted):
    """A capture that comes through a pipe, with ^C in its midst."""
    child = begin("-", stdin=subprocess.PIPE, stdout=subprocess.PIPE)
    child.stdin.write(data[: len(data) // 2])
    child.stdin.flush()
    last = time.monotonic() + 20
    while not ignores_interrupt(child):
        if time.monotonic() > last:
            sys.exit("a live capture: SIGINT ends the tool")
        time.sleep(0.02)
    child.send_signal(signal.SIGINT)
    out, told = child.communicate(data[len(data) // 2 :])
    if (child.returncode, out) != (0, wanted):
        sys.exit(f"a live capture: {child.returncode} {out} {told}")


def streams(wanted):
    """Streams that are closed or full."""
    for number, words, status, told in (
        (1, [CAPTURE], 5, b"standard output: not written\n"),
        (0, ["-"], 5, b"-: not read: Bad file descriptor\n"),
    ):
        child = begin(*words, stdout=subprocess.DEVNULL, preexec_fn=lambda: os.close(number))
        _, error = child.communicate()
        if (child.returncode, error[-len(told) :]) != (status, told):
            sys.exit(f"stream {number} closed: {child.returncode} {error}")
    with open("/dev/full", "wb") as full:
        for how in ({"stderr": full}, {"preexec_fn": lambda: os.close(2)}):
            ended = subprocess.run(
                [sys.executable, TOOL, CAPTURE], stdout=subprocess.PIPE, check=False, **how
            )
            if (ended.returncode, ended.stdout) != (0, wanted):
                sys.exit(f"standard error full or closed: {ended}")


def follow():
    """Captures that grow."""

    def wrap(lsa):
        return ip("10.0.0.1", "224.0.0.5", update(lsa))

    lsas = [lsa(*one) for one in (("first", 1), ("second", 1), ("second", 3600))]
    pcapng = section("<", 101), lambda packet, time: enhanced("<", 0, packet, time)
    hello = ip(
        "10.0.0.2",
        "224.0.0.5",
        struct.pack(">BBH", 2, 1, 44) + bytes.fromhex("02020202") + bytes(36),
    )
    followed.check(pcap("<", 101, []), wrap, lsas, pcapng, hello)
