"""Packets of IP and a link of tools/bridge, for the tests of what it does with them."""
import socket
import struct

import frames

OURS, OTHER = socket.inet_aton("10.0.0.1"), socket.inet_aton("10.0.0.2")
ALL_ROUTERS = socket.inet_aton("224.0.0.5")
MAC, OTHER_MAC = bytes.fromhex("020000000001"), bytes.fromhex("020000000002")
NOBODY = bytes(6)
# An IP header with its sum, as RFC 791's readers pass it on; the packet is one of UDP.
WRITTEN = bytes.fromhex("450000730000400040 11b861c0a80001c0a800c7".replace(" ", ""))


def ip(body=b"x" * 24, source=OTHER, destination=ALL_ROUTERS, identifier=7, offset=0, more=False):
    return frames.Ip(source, destination, identifier, offset, more, body)


def packet(**parts):
    return frames.ip_packet(ip(**parts))


def with_sum(head):
    """A header whose sum is right, whatever else is wrong."""
    bare = head[:10] + b"\0\0" + head[12:]
    return head[:10] + struct.pack(">H", ~frames.ones_sum(bare[:20]) & 0xFFFF) + head[12:]


def changed(at, *with_these):
    """An IP packet in which some bytes are others, and the sum is right."""
    made = packet()
    return with_sum(made[:at] + bytes(with_these) + made[at + len(with_these) :])


def new_link():
    return frames.Link(OURS)


def left_of(link, data, now=0.0):
    """Why a link hands nothing on of what a device received."""
    before = dict(link.left)
    got = link.datagram_of(data, OTHER_MAC, now)
    reasons = [reason for reason, count in link.left.items() if count != before.get(reason, 0)]
    return reasons[0] if got is None and len(reasons) == 1 else got


def equal(what, got, wanted):
    return [] if got == wanted else [f"{what}: it should be {wanted!r}", f"it is {got!r}"]
