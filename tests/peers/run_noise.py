"""Routers beside noise: datagrams of chance change no table, and take no memory."""
import collections
import os
import random
import re
import socket
import threading
import time

from networks import free_ports, two
from running import MOST_ALIKE, Run, both, different, wait_until_heard

# What a router reports of noise.
NOISE = re.compile(r"a\.toml: link 0: what [0-9.]+ sends is dropped: R1 Packet: (P\d \w+)")
# In how many seconds two routers come to Full at ticks of 20 milliseconds.
UNTIL_FULL = 0.8
# What a run may take on more than it has, in bytes, while it hears noise: some pages that it
# touches for the first time.
MEMORY_SLACK = 1 << 20


def resident(child):
    """The bytes of memory that a process has, if it still runs."""
    try:
        with open(f"/proc/{child.pid}/statm", encoding="ascii") as file:
            return int(file.read().split()[1]) * os.sysconf("SC_PAGE_SIZE") or None
    except OSError:
        return None


def noise(run, port, count, most, pause, memory):
    """So many datagrams of chance, none longer than this; what memory the run has on the way is
    noted."""
    chance = random.Random(7)
    wait_until_heard(run, port)
    # What routers need to come to Full they have taken by then.
    time.sleep(UNTIL_FULL)
    with socket.socket(socket.AF_INET, socket.SOCK_DGRAM) as sender:
        for number in range(count):
            try:
                sender.sendto(chance.randbytes(chance.randint(0, most)), ("127.0.0.1", port))
            except OSError:
                pass
            if number % 100 == 99:
                memory.append(resident(run.child))
                time.sleep(pause)


def beside_noise(count, most, pause):
    ports = free_ports(3)
    run = Run(two(ports), "--tick", "20", "120")
    memory = []
    sender = threading.Thread(target=noise, args=(run, ports[0], count, most, pause, memory))
    sender.start()
    status, out, err = run.ended()
    sender.join()
    # What is no packet is reported, for each fault of so many senders at most.
    told = [line for line in err if NOISE.fullmatch(line)]
    counts = collections.Counter(NOISE.fullmatch(line)[1] for line in told)
    faults = (
        []
        if all(count <= MOST_ALIKE for count in counts.values())
        else [f"lines of noise: {counts}"]
    )
    return (
        faults
        + different((status, out, [line for line in err if line not in told]), 0, both())
        + grown([size for size in memory if size])
    )


def grown(memory):
    """Says so where a run has gone on taking memory after the first third of the noise that it
    heard."""
    rest = memory[len(memory) // 3 :]
    return (
        [f"its memory grew from {rest[0]} to {max(rest)} bytes"]
        if rest and max(rest) - rest[0] > MEMORY_SLACK
        else []
    )


def short_noise():
    return beside_noise(2_000, 7, 0.01)


def long_noise():
    return beside_noise(100_000, 100, 0.001)


TESTS = [short_noise, long_noise]
