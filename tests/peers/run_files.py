"""The capture and the journal that a run writes."""
import json
import os
import struct
import subprocess
import tempfile
import time

from networks import free_ports, two
from running import FIRST, PROGRAM, SECOND, TOP, Run, both, different


def stamps(data):
    """The moments of the packets of a capture, in seconds."""
    at, found = 24, []
    while at < len(data):
        seconds, micros, kept = struct.unpack_from(">III", data, at)
        found.append(seconds + micros / 1e6)
        at += 16 + kept
    return found


def captured():
    """What was sent is captured, with the clock's moments: the LSAs in it give the tables that are
    printed."""
    with tempfile.TemporaryDirectory() as place:
        name = os.path.join(place, "sent.pcap")
        began = time.time()
        told = different(
            Run(two(free_ports(3)), "--tick", "20", "--pcap", name, "120").ended(), 0, both()
        )
        ended = time.time()
        read = subprocess.run(
            [os.path.join(TOP, "tests", "simulations", "check-capture"), name],
            capture_output=True,
            text=True,
            check=False,
        )
        if read.returncode:
            return [*told, f"{read.stdout}{read.stderr}"]
        with open(name, "rb") as file:
            moments = stamps(file.read())
        if (
            not moments
            or moments != sorted(moments)
            or moments[0] < began - 1
            or moments[-1] > ended + 1
        ):
            told.append(
                f"moments: {moments[:1]} to {moments[-1:]}, the run from {began} to {ended}"
            )
        lsas = subprocess.run(
            [os.path.join(TOP, "tools", "lsas-of-capture"), name],
            capture_output=True,
            text=True,
            check=False,
        )
        for root, wanted in (("1.1.1.1", FIRST), ("2.2.2.2", SECOND)):
            table = subprocess.run(
                [PROGRAM, "table", root],
                input=lsas.stdout,
                capture_output=True,
                text=True,
                check=False,
            )
            told += (
                []
                if table.stdout.splitlines() == wanted
                else [f"the table of what was captured: {table.stdout}{table.stderr}"]
            )
        return told


def not_written():
    """A capture that cannot be made ends the run before it begins; one that takes no bytes does
    not, and is told once."""
    name = "/no/such/folder/sent.pcap"
    told = different(
        Run(two(free_ports(3)), "--pcap", name, "1").ended(), 5, [], [f"{name}: not written"]
    )
    return told + different(
        Run(two(free_ports(3)), "--tick", "20", "--pcap", "/dev/full", "120").ended(),
        5,
        both(),
        ["/dev/full: not written"],
    )


def journaled(*words):
    """How a run of two routers came out, and the lines of its journal."""
    with tempfile.TemporaryDirectory() as place:
        name = os.path.join(place, "area.log")
        got = Run(two(free_ports(3)), "--tick", "20", "--log", name, *words, "120").ended()
        with open(name, encoding="ascii") as file:
            return got, file.read().splitlines()


def journal():
    """What a journal tells of neighbours and routes comes to what is printed at the end, and so
    does one of JSON objects."""
    got, lines = journaled("--neighbours")
    told = different(got, 0, both(["0 2.2.2.2 Full"], ["0 1.1.1.1 Full"]))
    states, routes = {}, {"1.1.1.1": {}, "2.2.2.2": {}}
    for line in lines:
        _, router, *words = line.split(" ")
        if words[2:3] == ["neighbour"]:
            if states.get((router, words[3]), "Down") != words[4]:
                told.append(f"{line}: it was {states.get((router, words[3]), 'Down')}")
            states[router, words[3]] = words[5]
        elif words[0] == "route":
            routes[router][words[1]] = " ".join(words[1:])
        elif words[:2] == ["no", "route"]:
            del routes[router][words[2]]
    if states != {("1.1.1.1", "2.2.2.2"): "Full", ("2.2.2.2", "1.1.1.1"): "Full"}:
        told.append(f"neighbours: {states}")
    if [sorted(table.values()) for table in routes.values()] != [FIRST, SECOND]:
        told.append(f"routes: {routes}")
    starts = [line for line in lines if line.split(" ")[2] in ("started", "stopped")]
    told += (
        []
        if sorted(starts) == ["0 1.1.1.1 started", "0 2.2.2.2 started"]
        else [f"starts: {starts}"]
    )
    _, objects = journaled("--json")
    full = [
        it for it in map(json.loads, objects) if it["event"] == "neighbour" and it["now"] == "Full"
    ]
    return told + (
        [] if {it["router"] for it in full} == {"1.1.1.1", "2.2.2.2"} else [f"objects: {full}"]
    )


TESTS = [captured, not_written, journal]
