"""What tests/captures/compare-spec asks of: captured databases, random areas, and LSAs that are
changed at random."""
import glob
import os
import random
import struct

import area
from spec_lib.text import number

TOP = os.path.dirname(os.path.dirname(os.path.dirname(os.path.abspath(__file__))))
# A random area of fewer routers has few ways, so that IsTable is asked as a whole.
FEW = 4


def awkward(rng):
    """A small area with one-way links, parallel links, networks of one Link State ID, stubs that
    coincide, and LSAs left out."""
    routers = [k * 0x01010101 for k in range(1, rng.randrange(3, 6))]
    links = {router: [] for router in routers}
    metric = lambda: rng.choice([1, 1, 2, 3, 5])
    for _ in range(rng.randrange(1, 6)):
        a, b = rng.sample(routers, 2)
        subnet = 0x0A000000 + 4 * rng.randrange(1, 250)
        links[a].append((b, subnet + 1, 1, metric()))
        if rng.random() < .85:
            links[b].append((a, subnet + 2, 1, metric()))
    networks = networks_of(rng, routers, links, metric)
    for router in routers:
        for _ in range(rng.randrange(0, 3)):
            prefix = rng.choice([0x0A010100, 0x0A010200, 0xC0A80000 + 256 * rng.randrange(4)])
            links[router].append(
                (prefix, mask(rng.choice([24, 24, 30, 32])), 3, rng.choice([0, 1, 2, 5]))
            )
    made = [
        area.router_lsa(router, rng.sample(links[router], len(links[router])))
        for router in routers if rng.random() > .04
    ]
    return [lsa.hex() for lsa in made + networks], routers


def mask(length):
    """The mask of a prefix of this length."""
    return 2**32 - 2**(32 - length)


def networks_of(rng, routers, links, metric):
    """The network-LSAs of an awkward area, whose routers are given links to them, but for some."""
    made = {}
    for _ in range(rng.randrange(0, 4)):
        at, router = 0x0A010000 + 256 * rng.randrange(1, 4) + rng.randrange(1, 3), rng.choice(
            routers
        )
        attached = rng.sample(routers, rng.randrange(1, len(routers) + 1))
        if (at, router) in made:
            continue
        body = struct.pack(f">{1 + len(attached)}I", mask(rng.choice([24, 24, 30])), *attached)
        made[at, router] = area.lsa(2, at, router, body)
        for one in attached:
            if rng.random() < .9:
                links[one].append((at, (at & ~255) + rng.randrange(1, 250), 2, metric()))
    return list(made.values())


def areas(rounds):
    """Random areas, each with a root: of four awkward ones one by bench/area.py."""
    for place in range(rounds):
        rng = random.Random(20261201 + place)
        if place % 4:
            lines, routers = awkward(rng)
            yield f"awkward area {place}", lines, rng.choice(routers), len(routers) < FEW
        else:
            yield f"area {place}", area.text(rng.randrange(2, 6), place).split(), area.ROOT, False


def captured():
    """The captured databases at their routers, and the examples at each router."""
    here = os.path.join(TOP, "tests", "captures", "databases")
    for path in sorted(glob.glob(os.path.join(here, "*", "*.hex"))):
        root = number(os.path.basename(path)[:-4].split("-at-")[1])
        yield os.path.relpath(path, TOP), lines_of(path), root, "two-routers" in path
    for path in sorted(glob.glob(os.path.join(TOP, "examples", "*.hex"))):
        lines = lines_of(path)
        for root in sorted({int(line[16:24], 16) for line in lines if line[6:8] == "01"}):
            yield os.path.relpath(path, TOP), lines, root, False


def lines_of(path):
    """The LSAs of a file."""
    with open(path, encoding="ascii") as file:
        return file.read().split()


def changed(lsa, rng):
    """An LSA with one thing changed, and mostly with the right checksum."""
    out = bytearray(lsa)
    how = rng.randrange(10)
    if how < 5:
        out[rng.randrange(len(out))] = rng.choice([0, 1, 2, 3, 4, 5, 128, 255, rng.randrange(256)])
    elif how == 5:
        out = out[:rng.randrange(len(out))]
    elif how == 6:
        out += bytes(rng.randrange(1, 13))
        out[18:20] = struct.pack(">H", len(out))
    elif how == 7:
        out[3] = rng.randrange(0, 7)
    elif how == 8:
        out[12:16] = rng.choice([b"\x80\0\0\0", b"\x7f\xff\xff\xff"])
    else:
        at = rng.randrange(20, len(out) - 3)
        out[at:at + 4] = rng.choice([bytes(4), b"\xff\xff\xff\xff", b"\xff\0\xff\0"])
    return area.with_sum(bytes(out)) if len(out) >= 20 and rng.random() < .85 else bytes(out)
