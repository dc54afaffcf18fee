"""Routers of `ospfd run`, FRR and BIRD that hear each other in network namespaces of this machine:
what `interop` and `soak` share."""
import itertools
import os
import re
import shutil
import signal
import subprocess
import tempfile
import time

from frr_bird import Bird, Frr
from nodes import (
    DEAD,
    HELLO,
    MAX_AGE,
    NEEDED,
    TOP,
    Node,
    Side,
    inside,
    missing,
    opened,
    said,
    versions,
)
from ours import Ours

# What those who make a lab need of the other modules.
__all__ = ["Bird", "DEAD", "Frr", "HELLO", "Lab", "NEEDED", "Node", "Ours", "TOP"]
__all__ += ["end_in_order", "inside", "missing", "opened", "said", "versions"]


LOOK = 0.5
# So long before its last tick our router has to have settled, so that all are asked while it runs.
SECONDS_TO_ASK = 6


class Lab:
    """Namespaces with routers, and what joins them."""

    numbers, running = itertools.count(1), []
    # What our routers may tell on standard error.
    expected = re.compile("")

    def __init__(self, program):
        self.prefix = f"ospf{os.getpid()}x{next(self.numbers)}"
        self.program, self.folder = program, tempfile.mkdtemp(prefix="ospfd-lab-")
        os.chmod(self.folder, 0o755)
        self.nodes, self.others, self.wires, self.told, self.lines = {}, {}, 0, [], 0

    def __enter__(self):
        self.running.append(self)
        return self

    def __exit__(self, *_):
        self.running.remove(self)
        for node in self.nodes.values():
            node.kill()
        for node in self.nodes.values():
            said("ip", "netns", "del", node.space)
        shutil.rmtree(self.folder, ignore_errors=True)

    def add(self, kind, name, router):
        self.nodes[name] = kind(self, name, router)
        return self.nodes[name]

    def ours(self):
        return [node for node in self.nodes.values() if isinstance(node, Ours)]

    def real(self):
        return [node for node in self.nodes.values() if isinstance(node, (Frr, Bird))]

    def line(self, first, second, mtu=1500, length=30):
        """Joins two routers point-to-point, by a subnet of 30 bits, or of 31 (RFC 3021)."""
        number, self.lines = self.lines, self.lines + 1
        devices = f"e{len(first.sides)}", f"e{len(second.sides)}"
        first.ip(f"link add {devices[0]} type veth peer name {devices[1]} netns {second.space}")
        ends = [
            f"10.100.{number // 64}.{number % 64 * 4 + last}"
            for last in ((1, 2) if length == 30 else (0, 1))
        ]
        for node, device, end in zip((first, second), devices, ends):
            node.ip(f"link set {device} mtu {mtu} up")
            node.sides.append(Side(device, f"{end}/{length}", True, mtu=mtu))
        self.others.update({ends[0]: ends[1], ends[1]: ends[0]})

    def lan(self, nodes, number=0, priorities=()):
        """Joins routers by one network."""
        hub = self.nodes.get("hub") or self.add(Node, "hub", None)
        hub.ip(f"link add b{number} type bridge mcast_snooping 0", f"link set b{number} up")
        for place, node in enumerate(nodes):
            device, port = f"e{len(node.sides)}", f"p{self.wires}"
            self.wires += 1
            node.ip(
                f"link add {device} type veth peer name {port} netns {hub.space}",
                f"link set {device} up",
            )
            hub.ip(f"link set {port} master b{number} up")
            node.sides.append(
                Side(
                    device,
                    f"10.200.{number}.{place + 1}/24",
                    False,
                    priority=priorities[place] if priorities else 1,
                )
            )

    def until(self, holds, seconds):
        """Waits until something holds; whether it came to hold."""
        last = time.monotonic() + seconds
        while not holds():
            if time.monotonic() > last:
                return False
            time.sleep(LOOK)
        return True

    def tell(self, line):
        self.told.append(line)

    def table_of(self, lines):
        """The routes that lines of `ospfd` tell: of each prefix its cost and the addresses of its
        next hops."""
        found = {}
        for line in lines:
            prefix, cost, hops = line.split()
            # A hop is LOCAL>ROUTER on a line, LOCAL>ROUTER@ADDRESS on a network.
            ends = (
                []
                if hops == "attached"
                else [
                    hop.split("@")[1] if "@" in hop else self.others[hop.split(">")[0]]
                    for hop in hops.split(",")
                ]
            )
            found[prefix] = int(cost), frozenset(ends)
        return found

    def table_from(self, lsas, router):
        """What `ospfd table` makes of an area's LSAs for a router."""
        done = subprocess.run(
            [self.program, "table", router], input=lsas, capture_output=True, text=True, check=False
        )
        if done.returncode or done.stderr:
            self.tell(f"ospfd table {router}: {done.returncode} {done.stderr.strip()}")
        return self.table_of(done.stdout.splitlines())

    def compare(self, name, wanted, got):
        """Tells where two tables differ."""
        for prefix in sorted(set(wanted) | set(got)):
            if wanted.get(prefix) != got.get(prefix):
                self.tell(
                    f"{name}: {prefix}: by the area's LSAs {wanted.get(prefix)}, it has "
                    f"{got.get(prefix)}"
                )
                return

    def settle(self, states, at_least):
        """Waits until our routers are as they are to be at their neighbours and all databases are
        equal; then until it is time to ask."""

        def holds():
            databases = [node.database() for node in self.real()]
            same = (
                all(database == databases[0] for database in databases)
                and len(databases[0]) >= at_least
            )
            return same and all(
                self.nodes[name].neighbours().get(router, "").startswith(state)
                for (name, router), state in states.items()
            )

        ends = min(node.ends for node in self.ours())
        if not self.until(holds, ends - time.monotonic() - SECONDS_TO_ASK):
            seen = {name: self.nodes[name].neighbours() for name, _ in states}
            self.tell(
                f"at its neighbours our router is to be {states}, it is {seen}; LSAs: "
                f"{[len(node.database()) for node in self.real()]}"
            )
        time.sleep(max(0, ends - time.monotonic() - SECONDS_TO_ASK + 1))

    def judge(self, states, at_least=1, wanted=()):
        """Waits until all is settled; then compares all databases and tables, each of which has to
        have the prefixes that are wanted. How many LSAs and routes there are."""
        self.settle(states, at_least)
        real = self.real()
        databases = {node.name: node.database() for node in [*real, *self.ours()]}
        tables = {node.name: node.table() for node in real}
        shown = next((node for node in real if isinstance(node, Frr)), self.ours()[0]).lsas()
        ended = [(node, *node.ended()) for node in self.ours()]
        (first, known), *rest = databases.items()
        for name, database in rest:
            if database is None:
                self.tell(f"{name} described no database")
            elif database != known:
                self.tell(
                    f"{first} has, and {name} has not: {sorted(known - database)[:6]}; the other "
                    f"way: {sorted(database - known)[:6]}"
                )
        if len([line for line in shown.splitlines() if int(line[:4], 16) < MAX_AGE]) != len(known):
            self.tell(
                f"{len(known)} LSAs are in the databases, {len(shown.splitlines())} are shown"
            )
        for node in real:
            self.compare(node.name, self.table_from(shown, node.router), tables[node.name])
        for node, status, printed in ended:
            errors = [
                line for line in node.errors().splitlines() if not self.expected.fullmatch(line)
            ]
            if status or printed[:1] != [f"router {node.router}"] or errors:
                self.tell(f"ospfd run: status {status}, {printed[:1]}, {errors}")
            if not any(line[2] == node.router for line in known):
                self.tell(f"{first} has no LSA of {node.router}: {sorted(known)[:6]}")
            routes = [line for line in printed[1:] if not line.startswith("floor ")]
            tables[node.name] = self.table_of(routes)
            self.compare(
                f"ospfd run {node.router}",
                self.table_from(shown, node.router),
                self.table_of(routes),
            )
        for name, table in tables.items():
            if lacks := set(wanted) - table.keys():
                self.tell(f"{name} has no route to {sorted(lacks)}")
        return len(known), len(routes)


def end_in_order():
    """Has SIGINT and SIGTERM take away all programs and namespaces."""

    def end(*_):
        for one in list(Lab.running):
            one.__exit__()
        os._exit(1)

    for number in (signal.SIGINT, signal.SIGTERM):
        signal.signal(number, end)
