"""The tables that routers come to, and what is printed behind them."""
import os
import re
import subprocess
import tempfile

from networks import free_ports, lan, two
from running import FIRST, SECOND, TOP, Run, both, different


def two_routers():
    return different(Run(two(free_ports(3)), "--tick", "20", "120").ended(), 0, both())


def lookups():
    lines = ["lookup 192.168.2.9 192.168.2.0/24 15 10.0.0.1>2.2.2.2"], [
        "lookup 192.168.2.9 192.168.2.0/24 5 attached"
    ]
    return different(
        Run(two(free_ports(3)), "--tick", "20", "--lookup", "192.168.2.9", "120").ended(),
        0,
        both(*lines),
    )


def no_route():
    lines = 2 * [["lookup 10.9.9.9 none"]]
    return different(
        Run(two(free_ports(3)), "--tick", "20", "--lookup", "10.9.9.9", "120").ended(),
        0,
        both(*lines),
    )


def floors():
    got = Run(two(free_ports(3)), "--tick", "20", "--floor", "80000010", "120").ended()
    told = [line for line in got[1] if line.startswith("floor ")]
    rest = (got[0], [line for line in got[1] if not line.startswith("floor ")], got[2])
    above = (
        len(told) == 2
        and all(int(line.split()[1], 16) > 0x80000010 for line in told)
        and got[1][3] == told[0]
        and got[1][-1] == told[1]
    )
    return different(rest, 0, both()) + ([] if above else [f"floors: {got[1]}"])


def three_on_a_network():
    out = []
    for number in range(3):
        out += [f"router {'.'.join(4 * [str(number + 1)])}", "10.1.0.0/24 10 attached"]
    return different(Run(lan(free_ports(3)), "--tick", "20", "150").ended(), 0, out)


def two_processes():
    first, second = two(free_ports(3))
    runs = [Run([text], "--tick", "20", "150") for text in (first, second)]
    got = [run.ended() for run in runs]
    return different(got[0], 0, ["router 1.1.1.1", *FIRST]) + different(
        got[1], 0, ["router 2.2.2.2", *SECOND]
    )


def nobody_answers():
    out = ["router 1.1.1.1", "10.0.0.0/30 10 attached"]
    return different(Run(two(free_ports(3))[:1], "--tick", "20", "60").ended(), 0, out)


def dotted(four):
    return ".".join(str(byte) for byte in four)


def listed(line):
    """How an LSA in hexadecimal is listed."""
    lsa = bytes.fromhex(line)
    kind = {1: "router", 2: "network"}[lsa[3]]
    return f"{kind} {dotted(lsa[4:8])} {dotted(lsa[8:12])} {lsa[12:16].hex()} {lsa[16:18].hex()}"


def neighbours_and_listings():
    """Behind each table stand the router's neighbours and what it lists, which is what was captured
    last of each LSA."""
    with tempfile.TemporaryDirectory() as place:
        name = os.path.join(place, "sent.pcap")
        got = Run(
            two(free_ports(3)),
            "--tick",
            "20",
            "--neighbours",
            "--listing",
            "--pcap",
            name,
            "--floor",
            "80000100",
            "120",
        ).ended()
        lsas = subprocess.run(
            [os.path.join(TOP, "tools", "lsas-of-capture"), name],
            capture_output=True,
            text=True,
            check=False,
        )
    lists = sorted(listed(line) for line in lsas.stdout.splitlines())
    floors = {line.split()[1]: line.split()[3] for line in lists}
    out = both(
        ["0 2.2.2.2 Full", *lists, f"floor {floors['1.1.1.1']}"],
        ["0 1.1.1.1 Full", *lists, f"floor {floors['2.2.2.2']}"],
    )
    return different(got, 0, out)


def every():
    """Each 30 ticks of a router its whole table is printed, below its own line; at the end as
    without."""
    status, out, err = Run(two(free_ports(3)), "--tick", "20", "--every", "30", "120").ended()
    told = different((status, out[-len(both()) :], err), 0, both())
    blocks = []
    for line in out[: -len(both())]:
        if line.startswith("router "):
            blocks.append([line])
        elif blocks and re.fullmatch(r"[\d.]+/\d+ \d+ \S+", line):
            blocks[-1].append(line)
        else:
            told.append(f"a line of no table: {line}")
    for router, table in (("1.1.1.1", FIRST), ("2.2.2.2", SECOND)):
        own = [block for block in blocks if block[0].startswith(f"router {router} ")]
        if [block[0] for block in own] != [
            f"router {router} tick {tick}" for tick in (30, 60, 90, 120)
        ] or own[-1][1:] != table:
            told.append(f"tables of {router}: {own}")
    return told


TESTS = [
    two_routers,
    lookups,
    no_route,
    floors,
    three_on_a_network,
    two_processes,
    nobody_answers,
    neighbours_and_listings,
    every,
]
