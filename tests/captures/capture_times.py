"""Which instance of an LSA is kept where packets have times, in one capture or in several."""
import os
import struct
import subprocess
import sys
import tempfile

from capture_bytes import (
    FLUSHED,
    LIVING,
    UNAGED,
    enhanced,
    interface,
    ip,
    lsa,
    old,
    pcap,
    section,
    simple,
    update,
)
from capture_reads import NOTHING, OLDER, ONE, TOOL, gives

TIMED = [
    ("a late copy after the flush", [LIVING, FLUSHED, (201, "first", 51)], 2),
    ("a late copy of the flushed one", [LIVING, FLUSHED, (201, "second", 51)], 2),
    ("a restart long after", [LIVING, FLUSHED, (9000, "first", 1)], 3),
    ("a restart long after, with the same number", [LIVING, FLUSHED, (9000, "second", 1)], 3),
    ("a late copy, and then a restart", [FLUSHED, (201, "first", 51), (301, "first", 1)], 3),
    ("a restart at the flush", [FLUSHED, (201, "first", 1)], 2),
    ("a restart just before the flush", [(200.000001, "second", 3600), (201, "first", 1)], 1),
    ("a restart that is heard of late", [FLUSHED, (1101, "first", 901)], 2),
    ("flushed and still there", [FLUSHED, (300, "second", 3600), (301, "first", 51)], 1),
    ("flushed, and then no more there", [FLUSHED, (300, "second", 3600), (351, "first", 51)], 3),
    ("flushed, and times that go back", [(300, "second", 3600), FLUSHED, (301, "first", 51)], 1),
    ("flushed after the restart", [FLUSHED, (9000, "first", 1), (9001, "second", 3600)], 3),
    (
        "flushed twice, then a late copy",
        [FLUSHED, (9000, "first", 1), (9001, "first", 3600), (9002, "first", 51)],
        3,
    ),
    ("a restart with fresh numbers", [FLUSHED, (9000, "first", 1), (9005, "second", 1)], 3),
    (
        "a restart, and then a late copy of before",
        [FLUSHED, (9000, "first", 1), (9001, "before greatest", 3600)],
        3,
    ),
    ("an expiry that no packet shows", [LIVING, (3700, "first", 1)], 2),
    ("a second before the expiry", [LIVING, (3699, "first", 1)], 1),
    ("before the expiry of the youngest copy", [LIVING, (200, "second", 1), (3700, "first", 1)], 1),
    ("another instance after the expiry", [LIVING, (4000, "first", 902)], 2),
    (
        "a copy that does not age, and another instance",
        [(100, "second", UNAGED), (9000, "first", 1)],
        1,
    ),
    (
        "a copy that does not age, and an older number that does not",
        [(100, "second", UNAGED), (9000, "first", UNAGED)],
        1,
    ),
    ("a newer one that does not age", [LIVING, (200, "second", 3600), (9000, "first", UNAGED)], 3),
    ("as old without the bit", [(100, "first", 51), (101, "first", UNAGED)], 1),
    (
        "the greatest number, flushed, and what comes at once",
        [(200, "greatest", 3600), (201, "first", 51)],
        2,
    ),
    (
        "the greatest number, flushed, and a late copy",
        [(200, "greatest", 3600), (201, "greatest", 51)],
        1,
    ),
]
# LSAs of 1.1.1.1 and Hellos, each with the time of its packet, and whether the LSA is there at the
# end (RFC 2328, section 14; RFC 1793, section 2.2). One of age 1 that came at the second 100
# reaches MaxAge, 3600 seconds, at the second 3699.
LASTING = [
    ("a last packet after four hours", [LIVING], 14500, False),
    ("a last packet just after the end", [LIVING], 3700, False),
    ("a last packet at the end", [LIVING], 3699, True),
    ("a refresh", [(100, "first", 1), (1900, "second", 1)], 5498, True),
    ("an older copy that came late", [LIVING, (200, "second", 901)], 3650, True),
    ("a younger copy", [(100, "second", 901), (200, "second", 1)], 3798, True),
    ("an older copy alone", [(100, "second", 901)], 2800, False),
    ("a flush", [FLUSHED], 14500, True),
    ("an LSA that does not age", [(100, "second", UNAGED)], 14500, True),
]
EXPIRED = "left out: 1 expired LSAs: at MaxAge before the last packet, with no younger copy"


def timed(rows, order="<"):
    """A capture of instances, each with the time of its packet in seconds."""
    times = [divmod(round(time * 10**6), 10**6) for time, _, _ in rows]
    return pcap(
        order,
        101,
        [ip("10.0.0.1", "224.0.0.5", update(lsa(*one))) for _, *one in rows],
        times=times,
    )


def times():
    """Which instance of an LSA is kept where the packets have times; and in what forms a time
    stands."""
    for name, rows, which in TIMED:
        gives(
            name,
            timed(rows),
            [lsa(*rows[which - 1][1:])],
            OLDER.replace("1", str(len(rows) - 1)),
            ONE,
        )
    flushed, again = (
        ip("10.0.0.1", "224.0.0.5", update(lsa(*one))) for one in (("second", 3600), ("first", 1))
    )
    # The second packet, of age 1 at the second 201, comes with the first at 200 seconds, and so
    # many units of its clock.
    for late in (0, 1):
        kept = [lsa("second", 3600) if late else lsa("first", 1)]
        for order in "<>":
            for magic in (0xA1B2C3D4, 0xA1B23C4D):
                gives(
                    "pcap",
                    pcap(order, 101, [flushed, again], magic, [(200, late), (201, 0)]),
                    kept,
                    OLDER,
                    ONE,
                )
            clocks = [
                (enhanced, {}, 10**6),
                (enhanced, {"_9": b"\x8a"}, 1 << 10),
                (old, {"_0": b"", "_9": b"\x00"}, 10**6),
            ]
            for form, options, second in clocks:
                both = form(order, 0, flushed, 200 * second + late) + form(
                    order, 0, again, 201 * second
                )
                gives(f"pcapng, {options}", section(order, 101, **options) + both, kept, OLDER, ONE)
            other = interface(order, 101, _2=b"three", _9=b"\x09", _14=struct.pack(order + "q", -7))
            both = enhanced(order, 1, flushed, 207 * 10**9 + late) + enhanced(
                order, 0, again, 201 * 10**6
            )
            gives("two clocks", section(order, 101) + other + both, kept, OLDER, ONE)
    for frames in (
        enhanced("<", 0, flushed, 200) + simple("<", again),
        simple("<", flushed) + enhanced("<", 0, again, 1 << 60),
    ):
        gives("one time of two", section("<", 101) + frames, [lsa("second", 3600)], OLDER, ONE)
    text = "".join(update(lsa(*one)).hex() + "\n" for one in (("second", 3600), ("first", 1)))
    gives("no times", text.encode(), [lsa("second", 3600)], OLDER, ONE)


def lasting():
    """Which LSAs are there when the capture ends, with a Hello."""
    hello = ip(
        "10.0.0.2",
        "224.0.0.5",
        struct.pack(">BBH", 2, 1, 44) + bytes.fromhex("02020202") + bytes(36),
    )
    for name, rows, last, is_there in LASTING:
        whole = timed(rows) + pcap("<", 101, [hello], times=[(last, 0)])[24:]
        # Of copies of one instance the first one is written.
        kept, older = rows[0] if rows[0][1] == rows[-1][1] else rows[-1], [OLDER] * (len(rows) - 1)
        if is_there:
            gives(name, whole, [lsa(*kept[1:])], *older, ONE)
        else:
            gives(name, whole, [], *older, EXPIRED, *NOTHING)


def several():
    """Several captures in one command: in the order of their times, or, where one has none, in that
    of the command."""
    flush = timed([LIVING, FLUSHED, (9000, "first", 1)])
    other = timed([(101, "second", 51), (201, "second", 3600)], ">")
    wrapped = timed([(200, "greatest", 3600)])
    text = (update(lsa("second", 51)).hex() + "\n").encode()
    flushed, again = (
        ip("10.0.0.1", "224.0.0.5", update(lsa(*one))) for one in (("second", 3600), ("first", 1))
    )
    parts = [
        pcap(">", 101, [flushed], times=[(200, 600000)]),
        pcap("<", 101, [again], 0xA1B23C4D, [(201, 500000000)]),
    ]
    same = [
        pcap(">", 101, [flushed], times=[(200, 600000)]),
        pcap(">", 101, [again], 0xA1B23C4D, [(201, 600000000)]),
    ]
    rows = [
        ("two links", [flush, other], ("first", 1)),
        ("what came before a restart", [flush, timed([(101, "second", 51)])], ("first", 1)),
        (
            "a flush and what came behind",
            [timed([FLUSHED]), timed([(9000, "first", 1)])],
            ("first", 1),
        ),
        (
            "the greatest number and what came behind",
            [wrapped, timed([(201, "first", 1)])],
            ("first", 1),
        ),
        ("microseconds and nanoseconds", parts, ("second", 3600)),
        ("as many microseconds and nanoseconds", same, ("first", 1)),
        ("the same times", [timed([LIVING]), timed([LIVING]), timed([LIVING])], ("second", 1)),
    ]
    with tempfile.TemporaryDirectory() as place:
        paths = [os.path.join(place, f"{number}") for number in range(3)]

        def ends(name, captures, kept):
            for path, data in zip(paths, captures):
                with open(path, "wb") as file:
                    file.write(data)
            ended = subprocess.run(
                [TOOL, *paths[: len(captures)]], capture_output=True, check=False
            )
            if (ended.returncode, ended.stdout) != (0, lsa(*kept).hex().encode() + b"\n"):
                sys.exit(f"{name}: {ended}")

        for name, captures, kept in rows:
            ends(name, captures, kept)
            ends(name + ", turned round", captures[::-1], kept)
        ends("a text behind", [flush, text], ("second", 51))
        ends("a text before", [text, flush], ("first", 1))
        ends(
            "a text between",
            [timed([(9000, "first", 1)]), text, timed([FLUSHED])],
            ("second", 3600),
        )
