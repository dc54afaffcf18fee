#!/usr/bin/env python3
"""Measures `ospfd run`: what idle routers cost, what a datagram costs, and how soon two routers
have their tables.

usage: bench/runs.py [PROGRAM]
"""
import os
import resource
import socket
import subprocess
import sys
import tempfile
import threading
import time

import proved

TOP = os.path.dirname(os.path.dirname(os.path.abspath(__file__)))
sys.path.insert(0, os.path.join(TOP, "tests", "peers"))
from networks import config, free_ports, interface  # noqa: E402

IDLE_TICKS = 60
NOISE = 200_000
NOISE_LENGTH = 64
# A run that hears noise ends when the noise does, and some time after.
NOISE_TICKS = 12


def two(place, ports):
    """The configurations of two routers on a line."""
    names = []
    for side in (0, 1):
        towards = interface(
            "point-to-point", f"10.0.0.{side + 1}/30", 10, ports[side], [ports[1 - side]]
        )
        behind = interface("broadcast", f"192.168.{side}.1/24", 5, ports[2 + side])
        names.append(os.path.join(place, f"{side}.toml"))
        with open(names[-1], "w", encoding="utf-8") as file:
            file.write(config(".".join(4 * [str(side + 1)]), towards, behind))
    return names


def used():
    spent = resource.getrusage(resource.RUSAGE_CHILDREN)
    return spent.ru_utime + spent.ru_stime


def run(*words, beside=None):
    """What a run of two routers prints, and its processor time in seconds; `beside` is done
    meanwhile, with the first one's port."""
    ports = free_ports(4)
    with tempfile.TemporaryDirectory() as place:
        before = used()
        child = subprocess.Popen(
            [PROGRAM, "run", *words, *two(place, ports)], stdout=subprocess.PIPE, text=True
        )
        if beside:
            threading.Thread(target=beside, args=(ports[0],)).start()
        out, _ = child.communicate()
        return out, used() - before


def lost_at(port):
    """How many datagrams the kernel has dropped for want of room at this port."""
    with open("/proc/net/udp", encoding="ascii") as file:
        rows = [line.split() for line in file.readlines()[1:]]
    return sum(int(row[-1]) for row in rows if int(row[1].split(":")[1], 16) == port)


def noise(port):
    """Datagrams that are no OSPF packets, a hundred at a time; how many the kernel dropped is
    noted."""
    time.sleep(1)
    with socket.socket(socket.AF_INET, socket.SOCK_DGRAM) as sender:
        for number in range(NOISE):
            sender.sendto(bytes(NOISE_LENGTH), ("127.0.0.1", port))
            if number % 100 == 99:
                time.sleep(0.0005)
    time.sleep(0.5)
    dropped.append(lost_at(port))


def has_table(out):
    """Whether both routers have a route over the other one."""
    return (
        "192.168.1.0/24 15 10.0.0.1>2.2.2.2" in out and "192.168.0.0/24 15 10.0.0.2>1.1.1.1" in out
    )


def main():
    _, idle = run(str(IDLE_TICKS))
    print(
        f"two idle routers for {IDLE_TICKS} s: {1000 * idle:.0f} ms of processor time", flush=True
    )
    _, quiet = run(str(NOISE_TICKS))
    _, busy = run(str(NOISE_TICKS), beside=noise)
    heard = NOISE - dropped[0]
    print(
        f"{heard:,} datagrams that are dropped: {1e6 * (busy - quiet) / heard:.2f} microseconds of "
        f"processor time each, {heard / (busy - quiet):,.0f} a second",
        flush=True,
    )
    ticks = next(ticks for ticks in range(1, 1000) if has_table(run("--tick", "10", str(ticks))[0]))
    print(f"both have their tables after {ticks} ticks of 10 ms")


PROGRAM = os.path.abspath(sys.argv[1]) if len(sys.argv) > 1 else proved.program()
dropped = []
main()
