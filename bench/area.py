#!/usr/bin/env python3
"""Prints an area made at random, as LSAs in hexadecimal, one a line.

Routers 1.0.0.1, 1.0.0.2 and so on in a connected graph of point-to-point links, four a router on
average, with metrics 1 to 20 and the /30 of each link as a stub at both ends; a network of three to
five routers for every 20 routers; a /32 and a /24 of each router's own. The root, 192.0.2.1, has a
link to each of the first two routers. The same words give the same bytes.
"""
import argparse
import random
import struct
import sys

ROOT = 0xC0000201
ROUTERS = 0x01000000
LINKS = 0x0A000000
NETWORKS = 0x0B000000
STUBS = 0x14000000
HOSTS = 0x1E000000
ROOT_LINKS = 0xC6120000
POINT_TO_POINT, TRANSIT, STUB = 1, 2, 3
DEGREE = 4
GREATEST_METRIC = 20


def with_sum(lsa):
    """The LSA with its checksum (RFC 905, annex B), bytes of 1 to 255."""
    rest = bytearray(lsa[2:])
    rest[14:16] = b"\0\0"
    low = high = 0
    for byte in rest:
        low += byte
        high += low
    first = ((len(rest) - 15) * low - high) % 255
    second = (high - (len(rest) - 14) * low) % 255
    rest[14], rest[15] = first or 255, second or 255
    return lsa[:2] + bytes(rest)


def lsa(kind, state_id, router, body):
    header = struct.pack(">HBBIIIHH", 1, 2, kind, state_id, router, 0x80000001, 0, 20 + len(body))
    return with_sum(header + body)


def router_lsa(router, links):
    spelled = [
        struct.pack(">IIBBH", to, link_data, kind, 0, metric)
        for to, link_data, kind, metric in links
    ]
    return lsa(1, router, router, struct.pack(">BBH", 0, 0, len(links)) + b"".join(spelled))


def network_lsa(address, router, members):
    return lsa(
        2,
        address,
        router,
        struct.pack(">I", 0xFFFFFF00) + b"".join(struct.pack(">I", m) for m in sorted(members)),
    )


class Area:
    def __init__(self, count, seed, root_links=2, greatest_metric=GREATEST_METRIC):
        self.random = random.Random(seed)
        self.greatest_metric = greatest_metric
        self.links = {ROUTERS + k: [] for k in range(1, count + 1)}
        self.links[ROOT] = []
        self.networks = []
        self.pairs = set()
        for place in range(min(root_links, count)):
            self.join(ROOT, ROUTERS + place + 1, ROOT_LINKS + 4 * place, 10, 10)
        self.grow_tree(count)
        self.add_links(count)
        for place in range(count // 20):
            self.add_network(count, NETWORKS + 256 * place)
        for k in range(1, count + 1):
            self.links[ROUTERS + k] += [
                (STUBS + 256 * k, 0xFFFFFF00, STUB, self.random.randint(1, 10)),
                (HOSTS + k, 0xFFFFFFFF, STUB, 0),
            ]

    def join(self, a, b, prefix, metric_of_a, metric_of_b):
        self.links[a] += [
            (b, prefix + 1, POINT_TO_POINT, metric_of_a),
            (prefix, 0xFFFFFFFC, STUB, metric_of_a),
        ]
        self.links[b] += [
            (a, prefix + 2, POINT_TO_POINT, metric_of_b),
            (prefix, 0xFFFFFFFC, STUB, metric_of_b),
        ]

    def link(self, a, b):
        metric = lambda: self.random.randint(1, self.greatest_metric)
        self.join(ROUTERS + a, ROUTERS + b, LINKS + 4 * len(self.pairs), metric(), metric())
        self.pairs.add((min(a, b), max(a, b)))

    def grow_tree(self, count):
        for k in range(2, count + 1):
            near = max(1, k - self.random.randint(1, int(k**0.5) + 1))
            self.link(k, near if self.random.random() < 0.8 else self.random.randint(1, k - 1))

    def add_links(self, count):
        wanted = count * DEGREE // 2
        for _ in range(20 * count):
            if len(self.pairs) >= wanted:
                return
            a, b = self.random.randint(1, count), self.random.randint(1, count)
            if a != b and (min(a, b), max(a, b)) not in self.pairs:
                self.link(a, b)

    def add_network(self, count, prefix):
        members = self.random.sample(range(1, count + 1), min(count, self.random.randint(3, 5)))
        address = {m: prefix + place + 1 for place, m in enumerate(members)}
        designated = self.random.choice(members)
        for m in members:
            metric = self.random.randint(1, self.greatest_metric)
            self.links[ROUTERS + m].append((address[designated], address[m], TRANSIT, metric))
        self.networks.append(
            (address[designated], ROUTERS + designated, [ROUTERS + m for m in members])
        )

    def lsas(self):
        routers = [router_lsa(router, links) for router, links in sorted(self.links.items())]
        return routers + [network_lsa(*network) for network in sorted(self.networks)]


def text(count, seed, **made):
    return "".join(one.hex() + "\n" for one in Area(count, seed, **made).lsas())


if __name__ == "__main__":
    words = argparse.ArgumentParser(
        description=__doc__, formatter_class=argparse.RawDescriptionHelpFormatter
    )
    words.add_argument(
        "routers", type=int, metavar="ROUTERS", help="how many routers, beside the root"
    )
    words.add_argument(
        "seed", type=int, metavar="SEED", help="a number; another one gives another area"
    )
    given = words.parse_args()
    sys.stdout.write(text(given.routers, given.seed))
