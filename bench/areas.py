#!/usr/bin/env python3
"""Times simulated areas: lines, a ring, links by chance and broadcast networks of routers that come
up, and events by chance.

With COUNT it is a line of so many routers, for each, and nothing else. With `--settled` areas of
links by chance come to agree, of 200, 500 and 1,000 routers or of each COUNT; then one link goes
down and comes up, and nothing happens for a while. It tells the processor time that each took,
without the end of the process, and the peak of memory so far. So it does of as many routers in
pairs.

A router's steps are its ticks and the datagrams that come to it. On lines and rings each datagram
comes to one router, on the broadcast network one to all is counted as often as it is heard, and of
events by chance each is one.
"""
import argparse
import os
import random
import struct
import subprocess
import sys
import tempfile
import time

import proved

ROUNDS = 60
ALL_ROUTERS = 0xE0000005
# A round of datagrams without a limit, as far as any of these areas goes.
NO_LIMIT = 100000000
SETTLED = (200, 500, 1000)
IDLE_TICKS = 1000000
HELLO_INTERVAL = 10
TICKS_A_SECOND = os.sysconf("SC_CLK_TCK")
# In /proc/PID/stat, behind the name in brackets: the processor time in user and system mode.
USER, SYSTEM = 11, 12
KILOBYTES_A_MEGABYTE = 1024


def dotted(number):
    return ".".join(str(number >> shift & 255) for shift in (24, 16, 8, 0))


def interface(kind, address, length):
    return f'[[interface]]\nkind = "{kind}"\naddress = "{dotted(address)}/{length}"\ncost = 10\n'


def configs(count, links):
    """The configurations of so many routers, each link a pair of them."""
    texts = [
        f'router_id = "{dotted(0x01000000 + place + 1)}"\narea = "0.0.0.0"\n'
        for place in range(count)
    ]
    sizes = [0] * count
    for number, ends in enumerate(links):
        for side, place in enumerate(ends):
            texts[place] += interface("point-to-point", 0x0A000000 + 4 * number + side + 1, 30)
            sizes[place] += 1
    return texts, sizes


def network(count):
    """The configurations of so many routers on one broadcast network."""
    texts = [
        f'router_id = "{dotted(0x01000000 + place + 1)}"\narea = "0.0.0.0"\n'
        + interface("broadcast", 0x0A010001 + place, 16)
        for place in range(count)
    ]
    return texts, [1] * count


def by_chance(count):
    """The configurations of so many routers, each but the first linked with one before it, and as
    many links more between any two."""
    chance = random.Random(7)
    links = [(chance.randrange(place), place) for place in range(1, count)]
    links += [tuple(chance.sample(range(count), 2)) for _ in range(count)]
    return configs(count, links)


def written(area, place, *last):
    """The script by which an area starts and comes up, with these lines behind, and its
    configurations, in files of a folder."""
    texts, sizes = area
    names = []
    for number, text in enumerate(texts):
        names.append(os.path.join(place, f"{number}.toml"))
        with open(names[-1], "w", encoding="utf-8") as file:
            file.write(text)
    ids = [dotted(0x01000000 + number + 1) for number in range(len(texts))]
    lines = [f"start {router} 1" for router in ids]
    lines += [f"up {router} {link}" for router, size in zip(ids, sizes) for link in range(size)]
    script = os.path.join(place, "script")
    with open(script, "w", encoding="utf-8") as file:
        file.write("\n".join([*lines, *last]) + "\n")
    return script, names


def run(program, area, last):
    """The seconds that an area takes from its start to the end of the last line, and the datagrams
    that were sent."""
    with tempfile.TemporaryDirectory() as place:
        script, names = written(area, place, last)
        capture = os.path.join(place, "sent")
        began = time.monotonic()
        subprocess.run([program, "sim", script, *names], check=True, stderr=subprocess.DEVNULL)
        took = time.monotonic() - began
        subprocess.run(
            [program, "sim", "--pcap", capture, script, *names],
            check=True,
            stderr=subprocess.DEVNULL,
        )
        with open(capture, "rb") as file:
            return took, destinations(file.read())


def destinations(data):
    """The destination of each datagram of a capture."""
    at, found = 24, []
    while at < len(data):
        kept = struct.unpack_from(">I", data, at + 8)[0]
        found.append(struct.unpack_from(">I", data, at + 16 + 16)[0])
        at += 16 + kept
    return found


def used(child):
    """The processor time of a process so far."""
    with open(f"/proc/{child.pid}/stat", encoding="utf-8") as file:
        fields = file.read().rpartition(")")[2].split()
    return (int(fields[USER]) + int(fields[SYSTEM])) / TICKS_A_SECOND


def peak(child):
    """The most memory that a process has had, in megabytes."""
    with open(f"/proc/{child.pid}/status", encoding="utf-8") as file:
        # One that has ended has none.
        return (
            next((int(line.split()[1]) for line in file if line.startswith("VmHWM")), 0)
            / KILOBYTES_A_MEGABYTE
        )


def marks(program, area, lines):
    """Of each line that a script says behind the start of an area: what it says, the processor time
    so far, and the peak of memory."""
    with tempfile.TemporaryDirectory() as place:
        # It goes on behind the last line, so that this is not its end.
        script, names = written(area, place, *lines, f"round {ROUNDS}")
        # What is said is seen at once where the lines come from standard input.
        with open(script, "rb") as text:
            child = subprocess.Popen(
                [program, "sim", "-", *names],
                stdin=text,
                stdout=subprocess.PIPE,
                stderr=subprocess.DEVNULL,
            )
        found = [(line.decode().strip(), used(child), peak(child)) for line in child.stdout]
        if child.wait():
            sys.exit(f"{program} ended with {child.returncode}: {found}")
        return found


def settled(program, counts):
    """Areas by chance that come to agree, by batches and by rounds, a link of theirs that goes down
    and comes up, and routers in pairs at which nothing happens."""
    first = dotted(0x01000001)
    lines = ["expect agree", "say agree", f"down {first} 0", f"round 5 {NO_LIMIT}", "say down"]
    lines += [f"up {first} 0", f"round 15 {NO_LIMIT}", "expect agree", "say up"]
    for count in counts:
        for way in ("batch 25", f"round 25 {NO_LIMIT}"):
            (_, cold, most), (_, down, _), (_, up, _) = marks(
                program, by_chance(count), [way, *lines]
            )
            print(
                f"{count} routers and links by chance, {way}: agree after {cold:.2f} s, "
                f"{most:.0f} MB; a link down {down - cold:.2f} s, up {up - down:.2f} s",
                flush=True,
            )
        rounds = IDLE_TICKS // count
        pairs = configs(count, [(place, place + 1) for place in range(0, count - 1, 2)])
        (_, begun, _), (_, ended, _) = marks(
            program, pairs, [f"round {ROUNDS}", "say full", f"round {rounds}", "say idle"]
        )
        steps = rounds * count + rounds * count // HELLO_INTERVAL
        print(
            f"{count} routers in pairs: {steps / (ended - begun):,.0f} idle steps a second",
            flush=True,
        )


def line(count):
    return f"a line of {count}", configs(count, [(k, k + 1) for k in range(count - 1)])


def main():
    words = argparse.ArgumentParser(
        description=__doc__, formatter_class=argparse.RawDescriptionHelpFormatter
    )
    words.add_argument("--settled", action="store_true", help="areas that come to agree")
    words.add_argument(
        "program", metavar="PROGRAM", nargs="?", help="the program; else the one that was proved"
    )
    words.add_argument("counts", metavar="COUNT", nargs="*", type=int, help="how many routers")
    given = words.parse_args()
    program = os.path.abspath(given.program) if given.program else proved.program()
    if given.settled:
        settled(program, given.counts or SETTLED)
        return
    areas = [line(count) for count in given.counts]
    if not areas:
        areas = [line(count) for count in (2, 10, 100)]
        areas.append(("a ring of 50", configs(50, [(k, (k + 1) % 50) for k in range(50)])))
        areas += [
            (f"{count} routers and links by chance", by_chance(count)) for count in (50, 100, 200)
        ]
        areas += [(f"a broadcast network of {count}", network(count)) for count in (20, 50)]
    for name, area in areas:
        took, sent = run(program, area, f"round {ROUNDS}")
        count = len(area[0])
        heard = sum(
            count - 1 if name.startswith("a broadcast") and to == ALL_ROUTERS else 1 for to in sent
        )
        steps = heard + ROUNDS * count
        print(
            f"{name}: {ROUNDS} rounds in {took:.2f} s, {steps} steps, {steps / took:,.0f} a second",
            flush=True,
        )
    if not given.counts:
        took, _ = run(program, line(10)[1], "random 7 100000")
        print(
            f"100,000 events by chance over a line of 10: {took:.2f} s, "
            f"{100000 / took:,.0f} a second"
        )


main()
