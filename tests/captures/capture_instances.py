"""Which instance of an LSA is kept, of captures without times and of a router that restarts."""
import os
import subprocess
import sys
import tempfile

from capture_bytes import ip, lsa, pcap, update
from capture_reads import OLDER, ONE, PROGRAM, TOP, gives, read

# Of two instances, in this order, the one that is kept.
KEPT = [
    ("the number", ("first", 1), ("second", 1), 2),
    ("the number, the newer one first", ("second", 1), ("first", 1), 1),
    ("a signed number", ("first", 1), ("greatest", 1), 2),
    ("a signed number, the newer one first", ("greatest", 1), ("first", 1), 1),
    ("an unsigned checksum", ("first", 1), ("first, other options", 1), 2),
    ("an unsigned checksum, the newer one first", ("first, other options", 1), ("first", 1), 1),
    ("MaxAge", ("first", 1), ("first", 3600), 2),
    ("MaxAge, the newer one first", ("first", 3600), ("first", 3599), 1),
    ("more than MaxAgeDiff", ("first", 902), ("first", 1), 2),
    ("more than MaxAgeDiff, the newer one first", ("first", 51), ("first", 3599), 1),
    ("MaxAgeDiff", ("first", 901), ("first", 1), 1),
    ("less than MaxAgeDiff", ("first", 900), ("first", 1), 1),
    ("the same", ("first", 1), ("first", 1), 1),
    ("behind the greatest number, flushed", ("greatest", 3600), ("first", 1), 2),
    ("before the greatest number, flushed", ("first", 1), ("greatest", 3600), 2),
    ("the greatest number, flushed, again", ("greatest", 3600), ("greatest", 1), 1),
    ("the greatest number, not flushed", ("greatest", 3599), ("first", 1), 1),
    # Both packets have one time, so what comes behind was originated a second before it: a late
    # copy.
    ("another number, flushed", ("before greatest", 3600), ("first", 1), 1),
    ("a wrong checksum", ("first", 1), ("wrong sum", 1), 1),
    ("no checksum", ("first", 1), ("no sum", 1), 1),
]
LEFT = {
    "wrong sum": "left out: 1 LSAs with a wrong checksum",
    "no sum": "left out: 1 LSAs with a wrong checksum",
}


def instances():
    """Which instance of an LSA is kept."""
    for name, first, second, which in KEPT:
        packets = [ip("10.0.0.1", "224.0.0.5", update(lsa(*one))) for one in (first, second)]
        gives(
            name,
            pcap("<", 101, packets),
            [lsa(*(first, second)[which - 1])],
            LEFT.get(second[0], OLDER),
            ONE,
        )
    # Both come to the same end, whatever was before: flushed at the greatest number, and begun
    # again.
    again = [
        lsa(*one)
        for one in (
            ("greatest", 1),
            ("greatest", 3600),
            ("first", 1),
            ("greatest", 3600),
            ("first", 1),
            ("second", 1),
        )
    ]
    packets = [ip("10.0.0.1", "224.0.0.5", update(one)) for one in again]
    gives(
        "numbers that begin again",
        pcap("<", 101, packets),
        [lsa("second", 1)],
        OLDER.replace("1", "5"),
        ONE,
    )


def restarted():
    """A router that is gone for longer than its LSA lives, and comes back with lower numbers: the
    LSAs of the capture of a simulation give the tables that the simulation prints."""
    folder, routers = os.path.join(TOP, "examples", "ring-loses-a-link"), [
        f"{it}.{it}.{it}.{it}" for it in range(1, 6)
    ]
    with tempfile.TemporaryDirectory() as place:
        script, capture = os.path.join(place, "script"), os.path.join(place, "capture")
        with open(script, "w", encoding="ascii") as file:
            file.write("start all\nup all\nround 60\nstop 1.1.1.1\nround 3700\n")
            file.write("start 1.1.1.1 7\nup 1.1.1.1 0\nup 1.1.1.1 1\nround 80\n")
            file.writelines(f"table {router}\n" for router in routers)
        words = [
            PROGRAM,
            "sim",
            "--pcap",
            capture,
            script,
            *(os.path.join(folder, f"{it}.toml") for it in range(1, 6)),
        ]
        printed = subprocess.run(words, capture_output=True, check=True).stdout
        found = read(capture).stdout
    tables = [
        subprocess.run(
            [PROGRAM, "table", router], input=found, capture_output=True, check=True
        ).stdout
        for router in routers
    ]
    if not all(tables) or b"".join(tables) != printed:
        sys.exit(
            f"a router that comes back: the tables of the capture are {tables}, and not {printed}"
        )
