"""Captured databases, those of examples, and areas made here: LSAs as the program reads them."""
import glob
import os
import socket
import struct
import sys

HERE = os.path.dirname(os.path.abspath(__file__))
TOP = os.path.dirname(os.path.dirname(HERE))
sys.path.append(os.path.join(TOP, "bench"))
import area  # noqa: E402

VIRTUAL = 4
# How many routers the areas have that are made at random, with the number that makes each.
AT_RANDOM = ((6, 1), (12, 2), (20, 3))


def number_of(text):
    return struct.unpack(">I", socket.inet_aton(text))[0]


def router_lsa(router, flags, *links):
    """A router-LSA; a link is its type, Link ID, Link Data and metric."""
    spelled = [
        struct.pack(">IIBBH", number_of(to), number_of(data), kind, 0, metric)
        for kind, to, data, metric in links
    ]
    body = struct.pack(">BBH", flags, 0, len(links)) + b"".join(spelled)
    return area.lsa(1, number_of(router), number_of(router), body)


def network_lsa(address, router, *attached):
    members = sorted(map(number_of, attached))
    return area.network_lsa(number_of(address), number_of(router), members)


def odd_area():
    """An area with what no other one here has: all flags, a virtual link, links that only one end
    lists, links without a subnet, an LSA that is not used, and a stub router on a LAN of two."""
    return [
        router_lsa(
            "1.1.1.1",
            0x0F,
            (area.POINT_TO_POINT, "2.2.2.2", "0.0.0.5", 7),
            (area.POINT_TO_POINT, "9.9.9.9", "10.0.0.1", 1),
            (VIRTUAL, "2.2.2.2", "10.0.0.1", 3),
            (area.TRANSIT, "10.1.0.1", "10.1.0.1", 4),
            (area.STUB, "172.16.0.1", "255.255.255.255", 0),
        ),
        router_lsa(
            "2.2.2.2",
            0,
            (area.POINT_TO_POINT, "1.1.1.1", "0.0.0.6", 7),
            (area.POINT_TO_POINT, "3.3.3.3", "10.0.1.2", 65535),
            (area.STUB, "10.9.0.0", "255.255.0.0", 65535),
        ),
        router_lsa(
            "3.3.3.3",
            0,
            (area.TRANSIT, "10.1.0.1", "10.1.0.3", 65535),
            (area.POINT_TO_POINT, "2.2.2.2", "10.0.1.3", 1),
        ),
        network_lsa("10.1.0.1", "1.1.1.1", "1.1.1.1", "3.3.3.3", "8.8.8.8"),
        network_lsa("10.1.0.1", "0.0.0.9", "1.1.1.1"),
        network_lsa("10.2.0.1", "7.7.7.7"),
    ]


def databases():
    """LSAs in hexadecimal, each database with its name."""
    captured = os.path.join(HERE, "databases", "*", "*.hex")
    examples = os.path.join(TOP, "examples", "*.hex")
    for path in sorted(glob.glob(captured)) + sorted(glob.glob(examples)):
        with open(path, encoding="ascii") as file:
            yield os.path.relpath(path, TOP), file.read()
    for count, seed in AT_RANDOM:
        yield f"bench/area.py {count} {seed}", area.text(count, seed)
    yield "the odd area", "".join(lsa.hex() + "\n" for lsa in odd_area())
    yield "no LSAs", ""


# ---- configurations
