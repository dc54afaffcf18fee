"""Runs FRR with the configurations of its own topotests in network namespaces, and notes its
tables: what `topologies --record` writes.

Each router has a namespace, with the interfaces that its zebra.conf names. Interfaces of one subnet
are on one switch. What needs other daemons (BFD, LDP), and what is carried by opaque LSAs alone,
is taken out of the configurations; an instance in a VRF is run outside of it.
"""
import concurrent.futures
import ipaddress
import json
import os
import re
import shutil
import sys
import time

import lab
import topotests
from lab import Frr, Lab, Node
from topotests import TOPOLOGIES

# Dead routers are seen after 40 seconds, and networks wait for as long to elect.
SECONDS_AT_LEAST, SECONDS_ALIKE, SECONDS_AT_MOST = 55, 15, 300
AT_ONCE = 9
LEFT_OUT = re.compile(
    r"\s*(no )?(ip ospf bfd|mpls ldp-sync|ip ospf mpls|mpls-te|router-info|segment-routing|"
    r"capability opaque|log file|password)\b.*")
BLOCK = re.compile(r"(?m)^int\w* (\S+).*\n((?:[ \t].*\n|!\n)*)")
OF_VRF = re.compile(r"(?m)^int\w* \S+ vrf .*\n((?:[ \t].*\n|!\n)*)")


def plain(text):
    """A configuration without what is not run here."""
    lines = [line for line in text.splitlines() if not LEFT_OUT.match(line)]
    return "".join(re.sub(r"^((?:interface|router ospf).*?) vrf \S+", r"\1", line) + "\n"
                   for line in lines)


class Given(Frr):
    """A router of FRR with a configuration of the suite."""

    def __init__(self, area, place, name, edits):
        super().__init__(area, name, None)
        self.texts = {}
        for kind in ("zebra", "ospfd"):
            with open(os.path.join(place, name, f"{kind}.conf"), encoding="utf-8") as file:
                self.texts[kind] = file.read()
        if "router ospf vrf" not in self.texts["ospfd"]:
            # What is in a VRF is no part of the router.
            self.texts["zebra"] = re.sub(OF_VRF, "", self.texts["zebra"])
        self.texts = {kind: plain(text) for kind, text in self.texts.items()}
        self.links = {}
        for block in BLOCK.finditer(self.texts["zebra"]):
            found = re.findall(r"^\s+ip address (\S+)", block[2], re.M)
            if found and block[1] != "lo":
                self.links.setdefault(block[1], []).extend(map(ipaddress.ip_interface, found))
        for (router, device), kind in edits.items():
            if router == name:
                self.change(device, kind)

    def change(self, device, kind):
        """Gives an interface another network type."""
        for block in BLOCK.finditer(self.texts["ospfd"]):
            if block[1] == device:
                self.texts["ospfd"] = self.texts["ospfd"].replace(
                    block[0], re.sub(r"ip ospf network \S+", f"ip ospf network {kind}", block[0]))

    def dress(self):
        """The configuration gives the devices their addresses."""

    def start(self):
        for kind, text in self.texts.items():
            self.write(f"{kind}.conf", text)
        shutil.chown(self.folder, "frr", "frr")
        for name in ("zebra", "ospfd"):
            words = ["-f", self.path(f"{name}.conf"), "-i", self.path(f"{name}.pid"), "-z",
                     self.path("zserv"), "--vty_socket", self.folder, "-P", "0"]
            self.spawn(self.program + name, *words)
            self.lab.until(lambda name=name: os.path.exists(self.path(f"{name}.vty")), 10)

    def routes(self):
        """The routes within each area: of each area and prefix the cost and next hops."""
        found = {}
        for prefix, route in self.read("show ip ospf route").items():
            if route.get("routeType") == "N":
                hops = topotests.hops_of(route["nexthops"])
                found.setdefault(route["area"], {})[prefix] = [route["cost"], hops]
        return found


class Suite(Lab):
    """The routers of a topology, on their switches."""

    def __init__(self, place, topology, names):
        super().__init__("")
        self.it, hub = topology, self.add(Node, "hub", None)
        for name in names:
            self.nodes[name] = Given(self, place, name, topology.edits)
        switches = []
        for name in names:
            for device, addresses in self.nodes[name].links.items():
                subnets = {it.network for it in addresses}
                number = next((at for at, it in enumerate(switches) if it & subnets), None)
                if number is None:
                    number = len(switches)
                    switches.append(set())
                    hub.ip(f"link add b{number} type bridge mcast_snooping 0",
                           f"link set b{number} up")
                switches[number] |= subnets
                self.wires += 1
                port, node = f"p{self.wires}", self.nodes[name]
                node.ip(f"link add {device} type veth peer name {port} netns {hub.space}",
                        f"link set {device} up")
                hub.ip(f"link set {port} master b{number} up")

    def routers(self):
        return {name: node for name, node in self.nodes.items() if name != "hub"}

    def tables(self):
        return {name: node.routes() for name, node in self.routers().items()}

    def settled(self):
        """The tables, once they have been alike for some seconds."""
        began = since = time.monotonic()
        found = self.tables()
        while True:
            time.sleep(2)
            now, moment = self.tables(), time.monotonic()
            if now != found:
                found, since = now, moment
            if moment - began > SECONDS_AT_LEAST and moment - since > SECONDS_ALIKE:
                return found
            if moment - began > SECONDS_AT_MOST:
                raise RuntimeError(f"{self.it.name}: not settled: {found}")

    def run(self):
        """The tables after each step."""
        with self:
            for node in self.routers().values():
                node.start()
            found = []
            for step in self.it.steps:
                for how, name, device in step.events:
                    self.nodes[name].ip(f"link set {device} {how}")
                found.append(self.settled())
            print(f"{self.it.name}: done", flush=True)
            return found


def record(folder, path):
    """Reads the suite, has FRR run it, and writes all."""
    lacks = lab.missing()
    if lacks:
        sys.exit(f"topologies: not there: {', '.join(lacks)}")
    lab.end_in_order()
    recorded = topotests.read(folder)
    suite = os.path.join(folder, "topotests")
    # One run of a folder has all its areas.
    runs, done = {(it.folder, it.note): it for it in TOPOLOGIES}, {}

    def go_on(key):
        it = runs[key]
        names = topotests.routers_of(suite, it)
        done[key] = Suite(os.path.join(suite, it.folder), it, names).run()

    with concurrent.futures.ThreadPoolExecutor(AT_ONCE) as pool:
        for key, one in [(key, pool.submit(go_on, key)) for key in runs]:
            if one.exception():
                print(f"{key}: {one.exception()}", flush=True)
    for it, found in zip(TOPOLOGIES, recorded["topologies"]):
        ids = {router["name"]: router["router"] for router in found["routers"]}
        for step, tables in zip(found["steps"], done.get((it.folder, it.note), ())):
            step["frr"] = {ids[name]: {"whole": True, "routes": areas.get(it.area, {})}
                           for name, areas in tables.items() if name in ids}
    with open(path, "w", encoding="utf-8") as file:
        file.write(one_line_each(recorded))
    return 0 if len(done) == len(runs) else 1


def one_line_each(recorded):
    """JSON with a line for each router and table."""

    def line(what, indent):
        return f"{' ' * indent}{json.dumps(what, sort_keys=True)}"

    def tables(step, kind):
        return ",\n".join(f'     "{router}": {json.dumps(table, sort_keys=True)}'
                          for router, table in sorted(step.get(kind, {}).items()))

    areas = []
    for it in recorded["topologies"]:
        steps = ",\n".join(
            f'   {{"name": {json.dumps(step["name"])}, "events": {json.dumps(step["events"])},\n'
            f'    "tables": {{\n{tables(step, "tables")}}},\n'
            f'    "frr": {{\n{tables(step, "frr")}}}}}' for step in it["steps"])
        routers = ",\n".join(line(router, 3) for router in it["routers"])
        areas.append(f' {{"name": {json.dumps(it["name"])}, "routers": [\n{routers}],\n'
                     f'  "left out": {json.dumps(it["left out"])},\n  "steps": [\n{steps}]}}')
    return (f'{{"frr": "{recorded["frr"]}",\n"not taken": '
            f'{json.dumps(recorded["not taken"], indent=1)},\n"topologies": [\n'
            + ",\n".join(areas) + "]}\n")
