"""Labs of FRR in which failures are made, one after the other: what `failures --record` writes.

In `direct` and `cables` each link is a cable from router to router (a pair of veth devices: where
one end is down, the other has no carrier), and a LAN is a switch, but for one network of two
routers on a cable. In `switched` each link has a switch in it, so that its two ends fail one by
one.
"""
import json

from lab import Frr, Lab
from recorder import Recorder, plain, prepare, side_by_side, version

# The words of what was done.
CABLE, SWITCH, MEMBER, KILLED = (
    "a cable is cut",
    "a switch loses power",
    "a member leaves a LAN",
    "a routing process is killed",
)
POWER, END, TWO = (
    "a router loses power",
    "one end of a link with a switch fails",
    "one of two routers on a cable leaves",
)


class Failure:
    """A failure that can be made and mended: what it is, its name in an LSDB, what carries the
    links, and who fails."""

    def __init__(self, what, name, carrier, make, mend, dead=None):
        self.what, self.name, self.carrier, self.make, self.mend, self.dead = (
            what,
            name,
            carrier,
            make,
            mend,
            dead,
        )


class Failing(Lab):
    """A lab of six routers or fewer, each with a /32 of its own, and the failures that are made in
    it."""

    def __init__(self, name, count):
        super().__init__("")
        self.name, self.lans, self.failures = name, {}, []
        for number in range(1, count + 1):
            node = self.add(Frr, f"r{number}", f"{number}.{number}.{number}.{number}")
            node.stubs = [f"192.0.2.{number}/32"]

    def node(self, number):
        return self.nodes[f"r{number}"]

    def routers(self):
        return [node for name, node in self.nodes.items() if name != "hub"]

    def cable(self, one, other, cost, is_line=True):
        """A cable between two routers; what each has at its ends."""
        self.line(self.node(one), self.node(other))
        ends = [self.node(number).sides[-1] for number in (one, other)]
        for end in ends:
            end.cost, end.is_line = cost, is_line
        return ends

    def switched(self, number, members, cost, is_line=False):
        """A switch with some routers: each one's end."""
        self.lan([self.node(it) for it in members], number)
        ends = [self.node(it).sides[-1] for it in members]
        for end in ends:
            end.cost, end.is_line = cost, is_line
        self.lans[number] = members
        if is_line:
            first, second = (end.address.split("/")[0] for end in ends)
            self.others.update({first: second, second: first})
        return ends

    def down(self, number, device):
        return lambda: self.node(number).ip(f"link set {device} down")

    def up(self, number, device):
        return lambda: self.node(number).ip(f"link set {device} up")

    def cut(self, one, other, end):
        """The failure of a cable, at the first router's end."""
        name = f"{self.node(one).router}-{self.node(other).router}@{subnet_of(end.address)}"
        make, mend = self.down(one, end.device), self.up(one, end.device)
        self.failures.append(Failure(CABLE, lambda lsas: name, "direct", make, mend))

    def leave(self, number, end, what=MEMBER, carrier="process"):
        """The failure of a router's interface to a network."""
        router, subnet = self.node(number).router, subnet_of(end.address)
        make, mend = self.down(number, end.device), self.up(number, end.device)
        self.failures.append(
            Failure(what, lambda lsas: f"{router}@{network_in(lsas, subnet)}", carrier, make, mend)
        )

    def end_fails(self, number, other, end):
        """The failure of one end of a link with a switch in it."""
        name = f"{self.node(number).router}:{self.node(other).router}@{subnet_of(end.address)}"
        make, mend = self.down(number, end.device), self.up(number, end.device)
        self.failures.append(Failure(END, lambda lsas: name, "switch", make, mend))

    def switch_fails(self, number, end, first_port):
        """The failure of a switch: all its ports are dark."""
        ports, subnet = range(first_port, first_port + len(self.lans[number])), subnet_of(
            end.address
        )

        def turn(how):
            return lambda: self.nodes["hub"].ip(*(f"link set p{port} {how}" for port in ports))

        name = lambda lsas: f"@{network_in(lsas, subnet)}"
        self.failures.append(Failure(SWITCH, name, "process", turn("down"), turn("up")))

    def dies(self, number, with_power):
        """The failure of a router: of its processes alone, or of its power."""
        node = self.node(number)

        def turn(how):
            node.ip(*(f"link set {side.device} {how}" for side in node.sides))

        def make():
            node.kill()
            if with_power:
                turn("down")

        def mend():
            if with_power:
                turn("up")
            node.start()

        what, carrier = (POWER, "direct") if with_power else (KILLED, "process")
        self.failures.append(Failure(what, lambda lsas: node.router, carrier, make, mend, node))


def subnet_of(address):
    """The subnet of an address with a length."""
    host, length = address.split("/")
    bits = (
        int.from_bytes(bytes(map(int, host.split("."))), "big")
        >> (32 - int(length))
        << (32 - int(length))
    )
    return f"{'.'.join(map(str, bits.to_bytes(4, 'big')))}/{length}"


def network_in(lsas, subnet):
    """The Link State ID of the network-LSA of a subnet."""
    length = subnet.split("/")[1]
    for lsa in lsas:
        address = ".".join(map(str, bytes.fromhex(lsa[8:16])))
        if lsa[6:8] == "02" and subnet_of(f"{address}/{length}") == subnet:
            return address
    raise RuntimeError(f"no network-LSA of {subnet}")


def direct():
    """Six routers: cables, two of them parallel, with equal costs; a LAN of four; a network of two
    on a cable."""
    it = Failing("direct", 6)
    for one, other, cost in ((1, 2, 10), (1, 2, 10), (2, 3, 10), (3, 4, 5), (5, 6, 10), (1, 4, 15)):
        it.cut(one, other, it.cable(one, other, cost)[0])
    pair = it.cable(4, 5, 10, is_line=False)
    ends = it.switched(0, (1, 3, 5, 6), 20)
    it.switch_fails(0, ends[0], 0)
    for number, end in zip((1, 3, 5, 6), ends):
        it.leave(number, end)
    for number, end in zip((4, 5), pair):
        it.leave(number, end, TWO, "direct")
    for number in (2, 6):
        it.node(number).stubs.append(f"198.51.100.{number}/24")
    for number in range(1, 7):
        it.dies(number, with_power=False)
    for number in range(1, 7):
        it.dies(number, with_power=True)
    return it


def cables():
    """Six routers: a ring of cables with one across, and a LAN of three."""
    it = Failing("cables", 6)
    for one, other, cost in ((1, 2, 10), (2, 3, 10), (3, 4, 10), (4, 5, 20), (1, 5, 10)):
        it.cut(one, other, it.cable(one, other, cost)[0])
    ends = it.switched(0, (2, 4, 6), 10)
    it.switch_fails(0, ends[0], 0)
    for number, end in zip((2, 4, 6), ends):
        it.leave(number, end)
    for number in (3, 5):
        it.node(number).stubs.append(f"198.51.100.{number}/24")
    for number in range(1, 7):
        it.dies(number, with_power=True)
    return it


def switched():
    """Four routers: two links with a switch in each, a cable, and a LAN of two."""
    it = Failing("switched", 4)
    for number, (one, other) in enumerate(((1, 2), (2, 3))):
        first, second = it.switched(number, (one, other), 10, is_line=True)
        it.end_fails(one, other, first)
        it.end_fails(other, one, second)
    it.cable(3, 4, 10)
    ends = it.switched(2, (1, 4), 10)
    it.switch_fails(2, ends[0], 4)
    return it


LABS = (direct, cables, switched)


class FailureRecorder(Recorder):
    """Makes the failures of a lab one after the other, and notes what each changes."""

    def make(self, failure):
        """Makes a failure, notes what changes, and mends it."""
        lsas, number = self.database()
        name = failure.name(lsas)
        failure.make()
        after = self.settled(name, [failure.dead])
        noted = {root: difference(self.before[root], table) for root, table in after.items()}
        self.recorded.append(
            {
                "what": failure.what,
                "name": name,
                "carrier": failure.carrier,
                "database": number,
                "changed": noted,
            }
        )
        print(f"{self.it.name}: {failure.what}: {name}", flush=True)
        failure.mend()
        self.settled(f"mended {name}", wanted=self.before)

    def run(self):
        with self.it:
            self.start()
            for failure in self.it.failures:
                self.make(failure)
            before = {root: plain(table) for root, table in self.before.items()}
            return {
                "name": self.it.name,
                "ends": self.it.others,
                "before": before,
                "databases": self.databases,
                "failures": self.recorded,
            }


def difference(before, after):
    """What a table has otherwise than before; None is a route that is gone."""
    was, now = plain(before), plain(after)
    return {
        prefix: now.get(prefix)
        for prefix in sorted(was.keys() | now.keys())
        if was.get(prefix) != now.get(prefix)
    }


def record(path, names):
    """Makes all failures, or those of some labs, lab beside lab, and writes what was seen."""
    prepare("failures")
    found = {}
    if names:
        with open(path, encoding="utf-8") as file:
            found = {it["name"]: it for it in json.load(file)["labs"]}
    labs = [make() for make in LABS if not names or make.__name__ in names]
    done = side_by_side("failures", {it.name: FailureRecorder(it).run for it in labs})
    found.update(done)
    with open(path, "w", encoding="utf-8") as file:
        file.write(one_line_each({"frr": version(), "labs": [found[it.__name__] for it in LABS]}))
    return 0


def one_line_each(recorded):
    """JSON with a line for each LSA, table and failure."""

    def listed(items, indent):
        return (
            "[\n"
            + ",\n".join(f"{indent}  {json.dumps(it, sort_keys=True)}" for it in items)
            + f"\n{indent}]"
        )

    labs = []
    for it in recorded["labs"]:
        tables = ",\n".join(
            f'      "{root}": {json.dumps(table)}' for root, table in it["before"].items()
        )
        databases = ",\n".join(listed(lsas, "      ") for lsas in it["databases"])
        labs.append(
            f'    {{"name": "{it["name"]}", "ends": {json.dumps(it["ends"])},\n    "before": '
            f'{{\n{tables}}},\n'
            f'    "databases": [\n      {databases}],\n    "failures": '
            f'{listed(it["failures"], "    ")}}}'
        )
    return f'{{"frr": "{recorded["frr"]}", "labs": [\n' + ",\n".join(labs) + "]}\n"
