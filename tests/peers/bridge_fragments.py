"""What tools/bridge does with fragments of IP, for tests/peers/bridge."""
import random
import struct

import frames
from bridge_packets import ALL_ROUTERS, OTHER, OTHER_MAC, equal, ip, left_of, new_link, packet


def in_fragments():
    """Packets of all lengths over devices of all MTUs, their fragments in any order and some of
    them twice."""
    chance, told = random.Random(7), []
    for number in range(300):
        body, mtu = chance.randbytes(chance.randint(24, 16384)), chance.choice(
            [68, 296, 576, 1400, 1499, 1500, 9000]
        )
        made = frames.fragments_of(ip(body, identifier=number), mtu)
        told += [
            f"{len(one)} bytes over {mtu}"
            for one in made
            if len(one) > mtu or (one is not made[-1] and (len(one) - 20) % 8)
        ]
        link, order = new_link(), chance.sample(made, len(made))
        got = [
            link.datagram_of(one, OTHER_MAC, 0.0)
            for one in [*order[:-1], *order[: len(order) // 2], order[-1]]
        ]
        got = [one for one in got if one is not None]
        told += (
            []
            if got[-1:] == [OTHER + ALL_ROUTERS + body]
            else [f"{len(body)} bytes over {mtu}: not put together"]
        )
        told += equal("what is kept behind", (link.fragments.parts, link.fragments.bytes), ({}, 0))
    return told[:4]


def wrong_fragments():
    misfit, length = (
        "packets whose fragments do not fit together",
        "fragments with an impossible length",
    )
    cases = [
        ("an empty body", length, [{"body": b"", "more": True}]),
        ("an empty end", length, [{"body": bytes(8), "more": True}, {"body": b"", "offset": 8}]),
        ("no multiple of 8", length, [{"body": bytes(12), "more": True}]),
        ("too long", "packets longer than a router sends", [{"body": bytes(16), "offset": 16376}]),
        (
            "an overlap",
            misfit,
            [{"body": bytes(16), "more": True}, {"body": bytes(16), "offset": 8}],
        ),
        (
            "another body",
            misfit,
            [{"body": bytes(8), "more": True}, {"body": b"y" * 8, "more": True}],
        ),
        (
            "behind the end",
            misfit,
            [{"body": bytes(8), "offset": 8}, {"body": bytes(8), "offset": 16, "more": True}],
        ),
        ("two ends", misfit, [{"body": bytes(8), "offset": 16}, {"body": bytes(8), "offset": 24}]),
        (
            "two ends, the second before the first",
            misfit,
            [{"body": bytes(8), "offset": 24}, {"body": bytes(8), "offset": 8}],
        ),
        (
            "an end before what came",
            misfit,
            [{"body": bytes(8), "offset": 16, "more": True}, {"body": bytes(8), "offset": 8}],
        ),
    ]
    told = []
    for name, reason, parts in cases:
        link = new_link()
        told += equal(name, [left_of(link, packet(**part)) for part in parts][-1], reason)
        told += equal(
            f"{name}: kept",
            link.fragments.bytes,
            sum(
                len(body) for part in link.fragments.parts.values() for body in part.pieces.values()
            ),
        )
    return told


def limits():
    """Fragments that wait are given up: after a time, and where there are too many packets, pieces
    or bytes."""
    link = new_link()
    link.datagram_of(packet(body=bytes(8), more=True), OTHER_MAC, 0.0)
    told = equal(
        "too late", link.datagram_of(packet(body=bytes(8), offset=8), OTHER_MAC, 31.0), None
    ) + equal("given up", link.fragments.lost, 1)
    link = new_link()
    for number in range(1000):
        link.datagram_of(packet(body=bytes(8), more=True, identifier=number), OTHER_MAC, 0.0)
    told += equal("packets", len(link.fragments.parts), link.fragments.PACKETS)
    told += equal(
        "the last 64 packets", [key[2] for key in link.fragments.parts], list(range(936, 1000))
    )
    got = link.datagram_of(packet(body=bytes(8), offset=8, identifier=936), OTHER_MAC, 0.0)
    told += equal(
        "the oldest made whole", (got, link.fragments.lost), (OTHER + ALL_ROUTERS + bytes(16), 936)
    )
    for identifier in (1000, 1001):
        link.datagram_of(packet(body=bytes(8), more=True, identifier=identifier), OTHER_MAC, 0.0)
    got = [key[2] for key in link.fragments.parts][:2], link.fragments.lost
    told += equal("then one with room, and one too many", got, ([938, 939], 937))
    told += equal(
        "the oldest too late",
        link.datagram_of(packet(body=bytes(8), offset=8, identifier=938), OTHER_MAC, 31.0),
        None,
    )
    told += equal(
        "all too late",
        ([key[2] for key in link.fragments.parts], link.fragments.lost),
        ([938], 1001),
    )
    link = new_link()
    reasons = {
        left_of(link, packet(body=bytes(8), more=True, offset=16 * number))
        for number in range(link.fragments.PIECES + 1)
    }
    told += equal("pieces", reasons, {None, "packets whose fragments do not fit together"})
    link = new_link()
    link.fragments.BYTES = 1 << 16
    for number in range(1000):
        link.datagram_of(packet(body=bytes(8000), more=True, identifier=number), OTHER_MAC, 0.0)
        told += [] if link.fragments.bytes <= 1 << 16 else [f"bytes: {link.fragments.bytes}"]
    got = link.datagram_of(packet(body=bytes(8000), offset=8000, identifier=992), OTHER_MAC, 0.0)
    told += equal(
        "the oldest made whole, over the limit of bytes",
        (got is not None and len(got), len(link.fragments.parts)),
        (16008, 6),
    )
    for number in range(2000):
        link.datagram_of(packet(source=struct.pack(">I", number)), OTHER_MAC, 0.0)
    return told[:4] + equal("neighbours", len(link.neighbours), link.NEIGHBOURS)
