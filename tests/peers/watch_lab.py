"""Six routers of FRR in network namespaces, and tools/watch at a LAN with two of them: what
`watch --record` makes and keeps.

    r1 - r2 - r3          A ring of six routers with a chord from r2 to r5, each link a cable, and a
    |     |    |          LAN of r1, r4 and the watcher. Each router has a network of its own.
    r6 - r5 - r4
"""
import contextlib
import json
import os
import subprocess
import sys
import threading
import time

import lab
from lab import Frr, Lab, Ours

LINKS = ((1, 2), (2, 3), (3, 4), (4, 5), (5, 6), (6, 1), (2, 5))
COSTS = ((1, 2, 25), (3, 4, 3), (2, 5, 100))
KILLED = 6
LOOK = 0.1
SECONDS_TO_SETTLE, SECONDS_AT_REST, SECONDS_AT_MOST = 1.0, 7, 90
OWN = "10.9.9.9"
# RxmtInterval at the neighbors of the watcher. Of two instances that come within MinLSArrival a
# router drops the second (RFC 2328, section 13, step 5a), and gets it when it comes again.
SECONDS_TO_REPEAT = 1


class Watching(Ours):
    """The watcher: tools/watch with `ospfd run`, and tools/bridge beside it."""

    def configure(self):
        side = self.sides[0]
        text = f'router_id = "{self.router}"\narea = "0.0.0.0"\nother_lsas = "pass over"\n'
        text += 'stub_router = true\n[[interface]]\nkind = "broadcast"\n'
        text += f'address = "{side.address}"\n'
        text += f"cost = 10\npriority = 0\nhello = {lab.HELLO}\ndead = {lab.DEAD}\n"
        self.write("p.toml", text + f"port = {self.first_port}\npeers = [{self.first_port + 1}]\n")

    def start_watch(self):
        """Starts the watch; by a capture of what passes the router where its program keeps no
        journal of LSAs."""
        tools = os.path.join(lab.TOP, "tools")
        words = [os.path.join(tools, "watch"), "--json", "--settle", str(SECONDS_TO_SETTLE)]
        words += ["--snapshot", "lsas.hex", "--record", "stream", "--ospfd", self.lab.program]
        with open(self.path("events"), "w", encoding="utf-8") as file:
            if "--log-lsas" in lab.said(self.lab.program, "help", "run"):
                self.run = self.spawn(*words, "p.toml", out=file)
                return
            how = {"stdin": subprocess.PIPE, "stdout": subprocess.PIPE, "text": True}
            reader = subprocess.Popen([os.path.join(tools, "lsas-of-capture"), "--follow", "-"],
                                      stderr=subprocess.DEVNULL, **how)
            self.children += [reader, subprocess.Popen([*words, "-"], stdin=reader.stdout,
                                                       stdout=file, cwd=self.folder)]
        self.listen()
        threading.Thread(target=self.pass_on, args=(reader.stdin,), daemon=True).start()
        self.run = self.spawn(self.lab.program, "run", "forever", "p.toml")

    def pass_on(self, file):
        """Passes on what a tap hears, until the lab is gone."""
        self.taps[0].setblocking(True)
        with contextlib.suppress(OSError, ValueError):
            while ip := self.taps[0].recv(65535):
                if ip[9:10] == bytes([89]):
                    file.write(ip[20:].hex() + "\n")
                    file.flush()

    def events(self):
        """What was told so far."""
        with open(self.path("events"), encoding="utf-8") as file:
            return [json.loads(line) for line in file if line.endswith("\n")]

    def instances(self):
        """The LSDB that it keeps, as `Frr.database` has one."""
        found = set()
        with open(self.path("lsas.hex"), encoding="ascii") as file:
            for line in file:
                lsa = bytes.fromhex(line)
                ends = [".".join(map(str, lsa[at:at + 4])) for at in (4, 8)]
                numbers = int.from_bytes(lsa[12:16], "big"), int.from_bytes(lsa[16:18], "big")
                found.add((lsa[3], *ends, *numbers))
        return found


class Seeing:
    """Notes when r1 has an instance of an LSA, and when each event was told."""

    def __init__(self, node, watcher):
        self.node, self.watcher, self.is_over = node, watcher, threading.Event()
        self.old, self.first = set(node.database()), len(watcher.events())
        self.had, self.told = {}, []
        self.threads = [threading.Thread(target=self.note, args=(it,)) for it in (
            self.note_database, self.note_events)]

    def __enter__(self):
        for thread in self.threads:
            thread.start()
        return self

    def __exit__(self, *_):
        self.is_over.set()
        for thread in self.threads:
            thread.join()

    def note(self, how):
        while not self.is_over.wait(LOOK):
            how()

    def note_database(self):
        for it in self.node.database():
            self.had.setdefault(it, time.time())

    def note_events(self):
        count = len(self.watcher.events()) - self.first
        self.told += [time.time()] * (count - len(self.told))


class Stepping(Lab):
    """The lab, and what is done in it step by step."""

    def __init__(self, program):
        super().__init__(program)
        self.ends, self.steps, self.faults = {}, [], []
        for number in range(1, 7):
            node = self.add(Frr, f"r{number}", f"{number}.{number}.{number}.{number}")
            node.stubs = [f"192.0.2.{number}/32"]
        for one, other in LINKS:
            self.line(self.node(one), self.node(other))
            self.ends[one, other] = [self.node(number).sides[-1] for number in (one, other)]
        self.watcher = self.add(Watching, "w", OWN)
        self.lan([self.node(1), self.node(4), self.watcher], priorities=(1, 1, 0))
        for number in (1, 4):
            self.node(number).sides[-1].retransmit = SECONDS_TO_REPEAT

    def node(self, number):
        return self.nodes[f"r{number}"]

    def begin(self):
        for number in range(1, 7):
            self.node(number).start()
        self.until(self.is_whole, SECONDS_AT_MOST)
        self.watcher.dress()
        self.watcher.bridge()
        self.watcher.start_watch()
        self.until(lambda: self.watcher.events()[:1] and self.is_whole(), SECONDS_AT_MOST)
        self.rest()

    def is_whole(self):
        """Whether all routers are Full at all their cables, and have the same LSDB."""
        routers = [self.node(number) for number in range(1, 7)]
        databases = [node.database() for node in routers]
        return all(len(node.neighbours()) >= 2 for node in routers) and all(
            database == databases[0] for database in databases)

    def rest(self):
        """Waits until nothing changes any more: LSAs have their 5 seconds (MinLSInterval)."""
        seen, since, last = None, time.monotonic(), time.monotonic() + SECONDS_AT_MOST
        while time.monotonic() < last and time.monotonic() - since < SECONDS_AT_REST:
            time.sleep(0.5)
            now = [self.node(number).database() for number in range(1, 7)
                   if self.node(number).children]
            if now != seen:
                seen, since = now, time.monotonic()

    def tables(self):
        """The tables of all routers that run: of each prefix the cost and the next hops."""
        return {node.router: {prefix: [cost, sorted(hops)] for prefix, (cost, hops) in
                              node.table().items()}
                for node in map(self.node, range(1, 7)) if node.children}

    def step(self, what, wanted, act, links=(), stranded=((), ())):
        """Does something, waits until the area is at rest, and keeps what was told of it."""
        told, tables = len(self.watcher.events()), self.tables()
        mark = os.path.getsize(self.watcher.path("stream"))
        with Seeing(self.node(1), self.watcher) as seeing:
            act()
            self.rest()
        with open(self.watcher.path("stream"), encoding="utf-8") as file:
            file.seek(mark)
            lines = file.read().splitlines()
        events = self.watcher.events()[told:]
        database = sorted(self.node(1).database())
        had = [[*it, when] for it, when in seeing.had.items() if it not in seeing.old]
        self.steps.append({"what": what, "wanted": wanted, "had": had, "told": seeing.told,
                           "lines": lines, "events": events, "before": tables,
                           "after": self.tables(), "database": database, "links": links,
                           "stranded": [list(it) for it in stranded]})
        kept = sorted(self.watcher.instances())
        if kept != database:
            self.faults.append(f"{what}: r1 has {set(database) - set(kept)}, the watcher has "
                               f"{set(kept) - set(database)}")
        self.faults += [f"{what}: {fault}" for fault in self.harm()]
        print(f"{what}: {len(lines)} lines, {[it for it in events if it['event'] == 'change']}",
              flush=True)

    def harm(self):
        """What the watcher does to the area beyond looking: it has to be DROther, and no route may
        go through it."""
        own = self.watcher.sides[0].address.split("/")[0]
        for number in (1, 4):
            if "Other" not in self.node(number).neighbours().get(OWN, ""):
                yield f"r{number} has {self.node(number).neighbours()}"
        for router, table in self.tables().items():
            through = [prefix for prefix, (_, hops) in table.items() if own in hops]
            if through:
                yield f"{router} goes through the watcher to {through}"

    def all_steps(self):
        for one, other in LINKS:
            end = self.ends[one, other][0]
            subnet, name = lab_subnet(end.address), name_of(one, other, end.address)
            node = self.node(one)
            # The subnet is advertised by the first end that is up, and the link once both are.
            both = [["link", name], ["prefix", subnet]]
            for word, order in (("down", both), ("up", both[::-1])):
                self.step(f"r{one}-r{other} {word}", [[*it, word] for it in order],
                          lambda node=node, end=end, word=word:
                          node.ip(f"link set {end.device} {word}"))
        for one, other, cost in COSTS:
            end, node = self.ends[one, other][0], self.node(one)
            address = end.address.split("/")[0]
            wanted = [["cost", node.router, address, self.node(other).router, end.cost, cost]]
            self.step(f"r{one}-r{other} cost {cost}", wanted,
                      lambda node=node, end=end, cost=cost: node.ask(
                          "configure terminal", f"interface {end.device}", f"ip ospf cost {cost}"))
        node = self.node(KILLED)
        links = [name_of(*pair, self.ends[pair][0].address) for pair in LINKS if KILLED in pair]
        self.step(f"r{KILLED} killed", None, node.kill, links, [[node.router], []])
        self.step(f"r{KILLED} back", None, node.start, links, [[], [node.router]])


def name_of(one, other, address):
    """The name of a link between two routers, the lower Router ID first."""
    ends = [".".join(4 * [str(number)]) for number in sorted((one, other))]
    return f"{ends[0]}-{ends[1]}@{lab_subnet(address)}"


def lab_subnet(address):
    """The subnet of an address with /30."""
    four, _, length = address.partition("/")
    head, _, last = four.rpartition(".")
    return f"{head}.{int(last) // 4 * 4}/{length}"


def record(path, program):
    """Makes the lab, does all steps, and writes what came."""
    lacking = lab.missing()
    if [it for it in lacking if it != "bird2"]:
        print(f"not there: {lacking}")
        return 2
    lab.end_in_order()
    with Stepping(program) as stepping:
        stepping.begin()
        first = stepping.watcher.events()
        with open(stepping.watcher.path("stream"), encoding="utf-8") as file:
            lines = file.read().splitlines()
        stepping.all_steps()
        value = {"frr": frr_version(), "own": OWN, "start": {"lines": lines, "events": first},
                 "steps": stepping.steps}
    with open(path, "w", encoding="utf-8") as file:
        json.dump(value, file, indent=1, sort_keys=True)
        file.write("\n")
    for fault in stepping.faults:
        print(f"FAILED: {fault}")
    return 1 if stepping.faults else 0


def frr_version():
    said = subprocess.run([lab.NEEDED["frr"], "--version"], capture_output=True, text=True,
                          check=False).stdout
    return said.split("version ")[1].split()[0] if "version " in said else sys.version
