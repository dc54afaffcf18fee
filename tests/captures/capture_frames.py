"""Frames that no capture here has: tags, other forms of files, options and fragments."""
from capture_bytes import enhanced, interface, ip, lsa, old, pcap, section, simple, update
from capture_reads import NOTHING, ONE, UNKNOWN, gives

# Ethernet and cooked captures with tags (IEEE 802.1Q and 802.1ad, and the type 0x9100 of before
# them).
TAGGED = [
    (1, bytes(12) + bytes.fromhex("81000005 0800")),
    (1, bytes(12) + bytes.fromhex("88a80005 81000006 0800")),
    (1, bytes(12) + bytes.fromhex("91000005 81000006 0800")),
    (113, bytes(14) + bytes.fromhex("81000005 0800")),
    (276, bytes.fromhex("8100") + bytes(18) + bytes.fromhex("0005 0800")),
]


def frames():
    """Frames that the capture has not: tags, other forms of files, options and fragments."""
    one = lsa("first", 1)
    packet = ip("10.0.0.1", "224.0.0.5", update(one))
    for kind, before in TAGGED:
        gives(
            f"link type {kind} behind {before.hex()}",
            pcap("<", kind, [before + packet]),
            [one],
            ONE,
        )
    gives(
        "a frame of another protocol",
        pcap("<", 1, [bytes(12) + b"\x86\xdd" + packet]),
        [],
        *NOTHING,
    )
    gives("a tag that is cut", pcap("<", 1, [bytes(12) + b"\x81\0\0\5"]), [], *NOTHING)
    for order in "<>":
        gives("nanoseconds", pcap(order, 101, [packet], magic=0xA1B23C4D), [one], ONE)
        gives("a simple packet block", section(order, 101) + simple(order, packet), [one], ONE)
        gives("a packet block", section(order, 101) + old(order, 0, packet), [one], ONE)
        left = "left out: 1 packets of interfaces that the capture does not describe"
        gives(
            "no such interface",
            section(order, 101) + enhanced(order, 1, packet),
            [],
            left,
            *NOTHING,
        )
        gives(
            "one of two interfaces",
            section(order, 1) + interface(order, 101) + enhanced(order, 1, packet),
            [one],
            ONE,
        )
        usb, left = interface(order, 220), "packets with unknown link type 220"
        beside = (
            section(order, 101)
            + usb
            + enhanced(order, 1, packet)
            + enhanced(order, 0, packet)
            + enhanced(order, 1, b"")
        )
        gives("an unknown link type beside", beside, [one], f"left out: 2 {left}", ONE)
        behind = (
            section(order, 220)
            + enhanced(order, 0, packet)
            + interface(order, 101)
            + enhanced(order, 1, packet)
        )
        gives("an unknown link type before", behind, [one], f"left out: 1 {left}", ONE)
        sections = section(order, 220) + enhanced(order, 0, packet) + section(order, 101)
        gives(
            "an unknown link type, and a known one without packets",
            sections,
            [],
            f"left out: 1 {left}",
            *NOTHING,
        )
        gives("an unknown link type without packets", section(order, 220), [], *NOTHING)
        gives(
            "unknown link types alone",
            section(order, 220) + enhanced(order, 0, packet),
            [],
            f"-: unknown link type 220: {UNKNOWN}",
        )
        two = (
            section(order, 220)
            + interface(order, 147)
            + enhanced(order, 0, packet)
            + enhanced(order, 1, packet)
        )
        gives("two unknown link types alone", two, [], f"-: unknown link types 147, 220: {UNKNOWN}")
    gives(
        "options",
        pcap(
            "<", 101, [ip("10.0.0.1", "224.0.0.5", update(one), options=bytes.fromhex("94040000"))]
        ),
        [one],
        ONE,
    )
    gives("bytes behind", pcap("<", 101, [packet + update(lsa("second", 1))]), [one], ONE)
    left = "left out: 1 fragments of IP packets"
    for place in (0x2000, 0x0001, 0x1000):
        gives(
            f"a fragment {place:04x}",
            pcap("<", 101, [ip("10.0.0.1", "224.0.0.5", update(one), place=place)]),
            [],
            left,
            *NOTHING,
        )
    gives(
        "not to be fragmented",
        pcap("<", 101, [ip("10.0.0.1", "224.0.0.5", update(one), place=0x4000)]),
        [one],
        ONE,
    )
