"""Captured databases and random ones as configurations: `import` runs these.

Each database is imported, and its routers settle in `ospfd sim`. Their tables are those that
`ospfd table all` makes of the database, without what the tool says it left out and with what it
says it added. Both changes are made here, in the bytes of the LSAs.
"""
import collections
import os
import re
import struct
import subprocess
import sys

from import_kit import TOP, fail, imported, see, summary
from vendors import databases, with_sum

sys.path[:0] = [os.path.join(TOP, "tools"), os.path.join(TOP, "bench")]
import spec_inputs  # noqa: E402

POINT_TO_POINT, TRANSIT, STUB, VIRTUAL = 1, 2, 3, 4
# How many random areas.
ROUNDS = 40
WORDS = {POINT_TO_POINT: "router", TRANSIT: "network", STUB: "stub", VIRTUAL: "virtual"}
SETTLES = "start all\nup all\nsettle 300\nexpect settled\n"
LINE = re.compile(r"[^ ]*: (left out|assumed): ([0-9.]+: .*?): .*")


def dotted(data):
    return ".".join(map(str, data))


class RouterLsa:
    """A router-LSA as its links, each in the words of the tool and as its bytes."""

    def __init__(self, data):
        self.head, self.links, at = data[:22], [], 24
        self.router = dotted(data[8:12])
        while at < len(data):
            end = at + 12 + 4 * data[at + 9]
            self.links.append((self.words(data[at:end]), data[at:end]))
            at = end

    def words(self, link):
        number, data, kind, cost = link[:4], link[4:8], link[8], link[10] << 8 | link[11]
        text = f"{self.router}: {WORDS[kind]} "
        if kind == VIRTUAL:
            return text + dotted(number)
        if kind == STUB:
            length = sum(bin(byte).count("1") for byte in data)
            number = bytes(a & b for a, b in zip(number, data))
            return f"{text}{dotted(number)}/{length} cost {cost}"
        return f"{text}{dotted(number)} from {dotted(data)} cost {cost}"

    def without(self, gone):
        """Takes out each link that is left out, and takes it off the list."""
        kept = []
        for words, link in self.links:
            if gone[words]:
                gone[words] -= 1
            else:
                kept.append((words, link))
        self.links = kept

    def add_stub(self, prefix, cost):
        network, _, length = prefix.partition("/")
        mask = struct.pack(">I", 0xFFFFFFFF << (32 - int(length)) & 0xFFFFFFFF)
        link = bytes(map(int, network.split("."))) + mask + struct.pack(">BBH", STUB, 0, cost)
        self.links.append((self.words(link), link))

    def data(self):
        body = struct.pack(">H", len(self.links)) + b"".join(link for _, link in self.links)
        return with_sum((self.head + body).hex())


def told(report):
    """What the tool left out, and the stub networks that it added."""
    gone, added, whole = collections.Counter(), [], set()
    for line in report:
        found = LINE.fullmatch(line)
        if found and found[1] == "left out":
            gone[found[2]] += 1
        elif found and (stub := re.fullmatch("([0-9.]+): stub ([0-9./]+) cost ([0-9]+)", found[2])):
            added.append((stub[1], stub[2], int(stub[3])))
        elif found := re.fullmatch("[^ ]*: left out: router ([0-9.]+): .*", line):
            whole.add(found[1])
    return gone, added, whole


def reduced(lsas, report):
    """The database without what was left out, and with what was added."""
    gone, added, whole = told(report)
    routers, others = [], []
    for lsa in lsas:
        if lsa[3] == 1:
            routers.append(RouterLsa(lsa))
        else:
            others.append(lsa)
    for router in routers:
        router.without(gone)
        for name, prefix, cost in added:
            if name == router.router:
                router.add_stub(prefix, cost)
    left = [words for words in +gone if not re.search(": flag [BEVW]$", words)]
    if left:
        fail("left out, and not in the database", left)
    return [it.data() for it in routers if it.router not in whole] + others


def tables(text):
    """The routes of each router, as `table all` prints them."""
    found, routes = {}, None
    for line in text.splitlines():
        if line.startswith("router "):
            routes = found.setdefault(line.split()[1], [])
        elif routes is not None and line:
            routes.append(line)
    return found


def tables_of(program, lsas):
    text = "".join(f"{lsa.hex()}\n" for lsa in lsas)
    ended = subprocess.run([program, "table", "all"], input=text, capture_output=True, text=True,
                           check=True)
    return tables(ended.stdout)


def settled(program, place, files):
    """The tables of the routers of some configurations, once they have settled."""
    names = [os.path.basename(name)[:-len(".toml")] for name in files]
    script = os.path.join(place, "script")
    with open(script, "w", encoding="ascii") as file:
        file.write(SETTLES + "".join(f"say router {name}\ntable {name}\n" for name in names))
    ended = subprocess.run([program, "sim", "--strict", script, *files], capture_output=True,
                           text=True, check=False)
    if ended.returncode or ended.stderr:
        fail("sim", ended.stdout, ended.stderr)
    return tables(ended.stdout)


def round_trip(program, place, name, lsas, *, is_plain):
    """One database; whether nothing was left out of it."""
    ended = imported("lsdb", "--ospfd", program, "--to", place, name)
    report = ended.stderr.splitlines()
    files = ended.stdout.split()
    if ended.returncode:
        fail(name, ended)
    for file in files:
        checked = subprocess.run([program, "check", file], capture_output=True, text=True,
                                 check=False)
        if checked.returncode:
            fail(file, checked)
    got, wanted = settled(program, place, files), tables_of(program, reduced(lsas, report))
    if got != wanted:
        differ = [router for router in {*got, *wanted} if got.get(router) != wanted.get(router)]
        fail(name, report, *((it, got.get(it), wanted.get(it)) for it in differ))
    left = [line for line in report if ": left out: " in line]
    _, added, _ = told(report)
    is_whole = not added and not left
    if is_whole and got != tables_of(program, lsas):
        fail(f"{name}: the tables of the whole database", tables_of(program, lsas))
    if is_plain and not is_whole:
        fail(f"{name}: something is left out", left)
    return is_whole


def number(address):
    return bytes(map(int, address.split(".")))


def router_lsa(router, flags, links):
    """A router-LSA of links in the words of the tool, with a virtual link as `virtual 1.1.1.1`."""
    body = b""
    for link in links:
        kind, to, *rest = link.split()
        code = next(it for it, word in WORDS.items() if word == kind)
        cost = int(rest[-1]) if rest else 1
        if kind == "stub":
            network, _, length = to.partition("/")
            data = struct.pack(">I", 0xFFFFFFFF << (32 - int(length)) & 0xFFFFFFFF)
            body += number(network) + data + struct.pack(">BBH", code, 0, cost)
        else:
            data = number(rest[1] if rest else "0.0.0.1")
            body += number(to) + data + struct.pack(">BBH", code, 0, cost)
    head = "0001 0201" + (number(router) * 2).hex() + "80000001 0000 0000"
    return with_sum(f"{head} {flags:02x}00 {len(links):04x}" + body.hex())


def network_lsa(address, router, routers):
    """A network-LSA with 24 bits."""
    head = "0001 0202" + (number(address) + number(router)).hex() + "80000001 0000 0000"
    return with_sum(f"{head} ffffff00" + b"".join(map(number, routers)).hex())


# What cannot be expressed, or only with a change: each router, its flags and links.
ODD = [
    ("1.1.1.1", 0x02, [
        "router 2.2.2.2 from 10.0.0.0 cost 10", "stub 10.0.0.0/31 cost 10",
        "router 3.3.3.3 from 0.0.0.5 cost 7", "router 4.4.4.4 from 10.0.4.1 cost 9",
        "stub 10.0.4.0/30 cost 8", "router 5.5.5.5 from 10.0.5.1 cost 3", "virtual 4.4.4.4",
        "stub 172.16.1.1/32 cost 0", "stub 0.0.0.0/0 cost 1", "stub 172.16.2.0/24 cost 0"]),
    ("2.2.2.2", 0, [
        "router 1.1.1.1 from 10.0.0.1 cost 10", "stub 10.0.0.0/31 cost 10",
        "router 3.3.3.3 from 10.0.23.2 cost 1", "stub 10.0.23.0/30 cost 1"]),
    ("3.3.3.3", 0, [
        "router 1.1.1.1 from 0.0.0.6 cost 65535", "router 4.4.4.4 from 10.0.34.3 cost 65535",
        "stub 10.0.34.0/29 cost 4", "network 10.9.0.4 from 10.9.0.3 cost 65535"]),
    ("4.4.4.4", 0, [
        "router 1.1.1.1 from 10.0.4.2 cost 9", "router 3.3.3.3 from 10.0.34.4 cost 5",
        "stub 10.0.34.0/29 cost 5", "network 10.9.0.4 from 10.9.0.4 cost 2",
        "stub 10.9.1.0/24 cost 1"]),
    ("5.5.5.5", 0, [
        "router 1.1.1.1 from 10.0.5.2 cost 3", "network 10.9.0.4 from 10.9.0.5 cost 2",
        "stub 10.9.1.0/24 cost 3", "stub 10.9.0.0/24 cost 3"]),
    ("6.6.6.6", 0, ["stub 172.16.6.6/32 cost 1"])]
ODD_NETWORK = ("10.9.0.4", "4.4.4.4", ["4.4.4.4", "3.3.3.3", "5.5.5.5"])
ODD_WANTED = {
    "1.1.1.1": ["0.0.0.7 rfc3021", "point-to-point 10.0.0.0/31 cost 10",
                "point-to-point 10.0.4.1/30 cost 9",
                "point-to-point 10.0.5.1/30 cost 3 prefix_suppression true",
                "host 172.16.1.1 cost 0"],
    "2.2.2.2": ["0.0.0.7 rfc3021", "point-to-point 10.0.0.1/31 cost 10",
                "broadcast 10.0.23.2/30 cost 1 passive true"],
    "3.3.3.3": ["0.0.0.7 stub_router", "point-to-point 10.0.34.3/29 cost 4",
                "broadcast 10.9.0.3/24 cost 65535"],
    "4.4.4.4": ["0.0.0.7", "point-to-point 10.0.4.2/30 cost 9 prefix_suppression true",
                "point-to-point 10.0.34.4/29 cost 5", "broadcast 10.9.0.4/24 cost 2 priority 2",
                "broadcast 10.9.1.1/24 cost 1 passive true"],
    "5.5.5.5": ["0.0.0.7", "point-to-point 10.0.5.2/30 cost 3 prefix_suppression true",
                "broadcast 10.9.0.5/24 cost 2",
                "broadcast 10.9.1.2/24 cost 3 passive true"]}
NO_ADDRESS = "unnumbered: the format needs an address with a subnet"
ODD_REPORT = [
    f"1: left out: 1.1.1.1: router 3.3.3.3 from 0.0.0.5 cost 7: {NO_ADDRESS}",
    "1: left out: 1.1.1.1: stub 10.0.4.0/30 cost 8: its link has cost 9",
    "1: assumed: 1.1.1.1: stub 10.0.4.0/30 cost 9: advertised with the link",
    "1: left out: 1.1.1.1: virtual 4.4.4.4: virtual links are not simulated",
    "1: left out: 1.1.1.1: stub 0.0.0.0/0 cost 1: the format has no interface with such an address",
    "1: left out: 1.1.1.1: stub 172.16.2.0/24 cost 0: the format has no cost 0",
    "1: left out: 1.1.1.1: flag E: routes from outside the area are not imported",
    "2: left out: 2.2.2.2: router 3.3.3.3 from 10.0.23.2 cost 1: one way only",
    f"3: left out: 3.3.3.3: router 1.1.1.1 from 0.0.0.6 cost 65535: {NO_ADDRESS}",
    "3: assumed: 3.3.3.3: cost 65535 to networks: the LSDB has no other of a stub router",
    "4: assumed: 4.4.4.4: 10.9.0.4/24 priority 2: keeps it the Designated Router",
    "5: left out: 5.5.5.5: stub 10.9.0.0/24 cost 3: another interface of this router has this "
    "prefix"]
ODD_WHOLE = [
    ": left out: router 6.6.6.6: no interface that the format can express",
    ": assumed: addresses of 2 stub networks: the LSDB has none: the first free one of each"]

# One subnet with three ends, and a router with 34 stub networks.
MANY = [
    ("1.1.1.1", 0, ["router 2.2.2.2 from 10.0.0.1 cost 1", "router 3.3.3.3 from 10.0.0.1 cost 1",
                    "stub 10.0.0.0/24 cost 1", *(f"stub 10.1.{n}.0/24 cost 1" for n in range(34))]),
    ("2.2.2.2", 0, ["router 1.1.1.1 from 10.0.0.2 cost 1", "stub 10.0.0.0/24 cost 1"]),
    ("3.3.3.3", 0, ["router 1.1.1.1 from 10.0.0.3 cost 1", "stub 10.0.0.0/24 cost 1"])]
MANY_WANTED = {
    "1.1.1.1": ["0.0.0.7", "broadcast 10.0.0.1/24 cost 1 priority 0",
                *(f"broadcast 10.1.{n}.1/24 cost 1 passive true" for n in range(31))],
    "2.2.2.2": ["0.0.0.7", "broadcast 10.0.0.2/24 cost 1 priority 0"],
    "3.3.3.3": ["0.0.0.7", "broadcast 10.0.0.3/24 cost 1 priority 0"]}
ENDS = "10.0.0.0/24 has more than two ends"
MANY_REPORT = [
    f"1: left out: 1.1.1.1: router 2.2.2.2 from 10.0.0.1 cost 1: {ENDS}",
    f"1: left out: 1.1.1.1: router 3.3.3.3 from 10.0.0.1 cost 1: {ENDS}",
    *(f"1: left out: 1.1.1.1: stub 10.1.{n}.0/24 cost 1: more than 32 interfaces"
      for n in range(31, 34)),
    f"2: left out: 2.2.2.2: router 1.1.1.1 from 10.0.0.2 cost 1: {ENDS}",
    f"3: left out: 3.3.3.3: router 1.1.1.1 from 10.0.0.3 cost 1: {ENDS}"]
MANY_WHOLE = [
    ": assumed: 10.0.0.0/24 priority 0: keeps the stub networks of 1.1.1.1, 2.2.2.2, 3.3.3.3 apart "
    "(A10 of check --area)",
    ": assumed: addresses of 31 stub networks: the LSDB has none: the first free one of each"]


def by_hand(program, folder):
    """Two databases, and what becomes of each of their links."""
    for name, routers, networks, wanted, report in (
        ("odd", ODD, [ODD_NETWORK], ODD_WANTED, [*(f":{it}" for it in ODD_REPORT), *ODD_WHOLE]),
        ("many", MANY, [], MANY_WANTED, [*(f":{it}" for it in MANY_REPORT), *MANY_WHOLE]),
    ):
        lsas = [*(router_lsa(*it) for it in routers), *(network_lsa(*it) for it in networks)]
        place = os.path.join(folder, name)
        file = f"{place}.hex"
        with open(file, "w", encoding="ascii") as lines:
            lines.writelines(f"{lsa.hex()}\n" for lsa in lsas)
        ended = imported("lsdb", "--ospfd", program, "--area", "7", "--to", place, file)
        got = [line.removeprefix(file) for line in ended.stderr.splitlines()[:-1]]
        see(f"{name}: report", sorted(got), sorted(report))
        configured = {}
        for path in ended.stdout.split():
            with open(path, encoding="ascii") as text:
                configured[os.path.basename(path)[:-len(".toml")]] = summary(text.read())
        see(name, configured, wanted)
        round_trip(program, place, file, lsas, is_plain=False)


def random_areas(program, folder):
    """Random areas; how many could be expressed."""
    count = 0
    for number_of, (_, lines, _, _) in enumerate(spec_inputs.areas(ROUNDS)):
        place = os.path.join(folder, f"random{number_of}")
        file = f"{place}.hex"
        with open(file, "w", encoding="ascii") as text:
            text.writelines(f"{line}\n" for line in lines)
        ended = imported("lsdb", "--ospfd", program, "--to", place, file)
        if ended.returncode and not ended.stderr.splitlines()[-1].startswith("written: 0 routers"):
            fail(file, ended)
        if not ended.returncode:
            lsas = [bytes.fromhex(line) for line in lines]
            round_trip(program, place, file, lsas, is_plain=False)
            count += 1
    return count


def check(program, folder):
    """All databases; how many there are, of how many nothing was left out, and how many random
    areas."""
    by_hand(program, folder)
    count = plain = 0
    for name, lsas in databases():
        place = os.path.join(folder, str(count))
        is_odd = os.path.basename(os.path.dirname(name)) == "odd"
        plain += round_trip(program, place, os.path.relpath(name, TOP), lsas, is_plain=not is_odd)
        count += 1
    return count, plain, random_areas(program, folder)
