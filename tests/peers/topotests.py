"""The areas of FRR's own topotests, and the routes that the suite wants there: what `topologies
--fetch` reads from Debian's source package.

No file of the package is kept: of each area stay the interfaces and hosts that `tools/import-config
frr` makes of its configurations, the reasons for what is left out, and the routes of the references
that the suite compares the tables of its routers with.
"""
import collections
import glob
import ipaddress
import json
import os
import re
import subprocess
import sys
import tarfile

TOP = os.path.dirname(os.path.dirname(os.path.dirname(os.path.abspath(__file__))))
sys.path.insert(0, os.path.join(TOP, "tests", "captures"))
import topotests_json  # noqa: E402
from import_kit import imported, summary  # noqa: E402

SUITE, TABLE = "tests/topotests/", "show_ip_route.ref"
SOURCES = """Types: deb-src
URIs: http://deb.debian.org/debian
Suites: bookworm
Components: main
Signed-By: /usr/share/keyrings/debian-archive-keyring.gpg
"""
# What the importer says of a line that it does not take.
LEFT = re.compile(r"\S+?: (left out|not understood): (.*)")
PREFIX = re.compile(r"N\s+([\d.]+/\d+)\s+\[(\d+)\] area: ([\d.]+)")
ROUTE = re.compile(r"O\S*\s+([\d.]+/\d+) \[\d+/(\d+)\]")
VIA = re.compile(r"via ([\d.]+),")
# How many passes of the simulation change an interface: the router, its device, up or down.
Step = collections.namedtuple("Step", "name events reference")


def down(*ends):
    return [("down", *end.split(":")) for end in ends]


def up(*ends):
    return [("up", *end.split(":")) for end in ends]


class Topology:
    """A folder of the suite, the area of it that is taken, and its steps; `edits` are interfaces
    whose network type the suite changes by hand. Some references have only the first of several
    next hops."""

    def __init__(self, folder, *steps, area="0.0.0.0", edits=(), note="", has_first_hops=False):
        self.folder, self.area, self.edits, self.note = folder, area, dict(edits), note
        self.has_first_hops = has_first_hops
        self.steps = steps or (Step("start", [], TABLE),)
        self.name = folder + (f", area {area}" if area != "0.0.0.0" else "")
        self.name += f", {note}" if note else ""


def start(reference):
    return Step("start", [], reference)


SIX = "step{}/show_ip_route.ref"
# The text that FRR 8.4.4 writes where nothing but OSPF is asked for.
PLAIN = "ospfroute.txt"
GRACEFUL = "show_ip_ospf_route.json"
TOPOLOGIES = (
    Topology("ospf_topo1", start(PLAIN), Step("r3-eth0 down", down("r3:r3-eth0"),
                                              "ospfroute_down.txt")),
    Topology("ospf_topo1", start(PLAIN), Step("r3-eth0 down", down("r3:r3-eth0"),
                                              "ospfroute_down.txt"), area="0.0.0.1"),
    Topology("ospf_netns_vrf", start(PLAIN), Step("r3-eth0 down", down("r3:r3-eth0"),
                                                  "ospfroute_down.txt")),
    Topology("bfd_ospf_topo1", start("step1/show_ip_route.ref"),
             Step("rt2:eth-rt1 down", down("rt2:eth-rt1"), "step3/show_ip_route_rt2_down.ref"),
             Step("rt2:eth-rt1 up", up("rt2:eth-rt1"), "step3/show_ip_route_healthy.ref"),
             Step("rt3:eth-rt1 down", down("rt3:eth-rt1"), "step3/show_ip_route_rt3_down.ref")),
    Topology("ldp_topo1", start("show_ipv4_route.ref"), has_first_hops=True),
    # A device is misspelled in the configuration of r2, and so is not there.
    Topology("ldp_oc_topo1", Step("start", down("r2:r2-eths2"), TABLE)),
    Topology("ldp_oc_acl_topo1", Step("start", down("r2:r2-eths2"), TABLE)),
    Topology("ldp_sync_ospf_topo1"),
    Topology("ldp_vpls_topo1", start(TABLE), Step("r1-eth1 down", down("r1:r1-eth1"),
                                                  "show_ip_route_after_link_down.ref")),
    Topology("ospf_sr_topo1", start(SIX.format(1))),
    Topology("ospf_sr_topo1", start(SIX.format(2)),
             Step("rt6 down", down("rt6:eth-rt4", "rt6:eth-rt5"), SIX.format(3)),
             Step("rt6 up", up("rt6:eth-rt4", "rt6:eth-rt5"), SIX.format(4)),
             Step("rt4:eth-rt2-1 down", down("rt4:eth-rt2-1"), SIX.format(10)),
             edits={("rt4", "eth-rt5"): "broadcast"}, note="one end broadcast"),
    Topology("ospf_tilfa_topo1", start("step1/show_ip_route_initial.ref")),
    *(Topology("ospf_gr_topo1", start(GRACEFUL), area=f"0.0.0.{number}") for number in range(4)),
    Topology("bgp_features", start("ip_route.json")),
    Topology("bfd_topo2", start("ipv4_routes.json"), area="0.0.0.1"),
    *(Topology(name) for name in (
        "ospf_te_topo1", "bgp_l3vpn_to_bgp_direct", "bgp_rfapi_basic_sanity",
        "bgp_evpn_vxlan_topo1", "msdp_mesh_topo1", "pim_acl", "ospf_suppress_fa", "bgp_soo",
        "bgp_auth", "bfd_profiles_topo1")),
    Topology("ospfapi", area="1.2.3.4"),
    *(Topology(f"ospf_{name}") for name in (
        "asbr_summary_topo1", "chaos", "ecmp", "rte_calc", "single_area", "gr_helper", "dual_stack",
        "nssa")),
    *(Topology(f"ospf_{name}", area="0.0.0.3") for name in ("ecmp_lan", "lan")),
)
# What has OSPFv2 and is not taken, and why.
NOT_TAKEN = {
    "all_protocol_startup": "one router",
    "bgp_l3vpn_to_bgp_vrf": "its OSPF is configured as that of bgp_l3vpn_to_bgp_direct",
    "ldp_snmp": "one router has OSPF, the others IS-IS",
    "ospf_asbr_summary_type7_lsa": "its links are those of ospf_nssa",
    "ospf_authentication": "its links are those of ospf_chaos",
    "ospf_routemaps": "its links are those of ospf_chaos",
    "ospf_p2mp": "point-to-multipoint links",
    "ospf_sr_te_topo1": "three point-to-point interfaces share one switch",
    "ospf_unnumbered": "unnumbered links",
    "pim_igmp_vrf": "two instances of OSPF in one router",
    "zebra_opaque": "no addresses",
}


def fetch(folder):
    """Fetches the source package with apt-get, by a list of sources of its own, and unpacks the
    suite; its version."""
    lists, sources = os.path.join(folder, "lists"), os.path.join(folder, "src.sources")
    os.makedirs(os.path.join(lists, "partial"), exist_ok=True)
    with open(sources, "w", encoding="ascii") as file:
        file.write(SOURCES)
    options = {"Dir::Etc::sourcelist": sources, "Dir::Etc::sourceparts": "-",
               "Dir::State::lists": lists}
    apt = ["apt-get", "-qq", *(word for it in options.items() for word in ("-o", "=".join(it)))]
    for words in (["update"], ["--download-only", "source", "frr"]):
        if not glob.glob(os.path.join(folder, "frr_*.orig.tar.*")):
            subprocess.run([*apt, *words], cwd=folder, check=True)
    package = glob.glob(os.path.join(folder, "frr_*.orig.tar.*"))[0]
    if not os.path.isdir(os.path.join(folder, "topotests")):
        with tarfile.open(package) as packed:
            for it in packed:
                top, _, name = it.name.partition("/")
                if name.startswith(SUITE) and it.isfile() and ".." not in name:
                    it.name = name.removeprefix("tests/")
                    packed.extract(it, folder, filter="data")
    return re.search(r"frr_([\d.]+)\.orig", package)[1]


def routes_of(text, area):
    """The routes of OSPF within the area that a reference has: of each prefix its cost, or nothing
    where it does not say, and its next hops; and whether these are all."""
    if not text.lstrip().startswith("{"):
        return plain_routes(text, area)
    found, shown = {}, json.loads(text)
    is_ospf = all(isinstance(it, dict) for it in shown.values())
    for prefix, routes in shown.items():
        if is_ospf:
            if (routes.get("routeType"), routes.get("area")) == ("N", area):
                found[prefix] = [routes["cost"], hops_of(routes["nexthops"])]
            continue
        if routes is None:
            found[prefix] = None
        for route in routes or ():
            if route.get("protocol") == "ospf":
                found[prefix] = [route.get("metric"), hops_of(route["nexthops"])]
    return found, is_ospf


def hops_of(hops):
    return sorted(hop["ip"] for hop in hops if hop.get("ip", " ").strip())


def plain_routes(text, area):
    """The same of text: `show ip ospf route` or `show ip route`."""
    found, now = {}, None
    for line in text.splitlines():
        if begins := PREFIX.match(line):
            now = [int(begins[2]), []] if begins[3] == area else None
        elif begins := ROUTE.match(line):
            now = [int(begins[2]), []]
        elif not line.startswith(" "):
            now = None
        if begins and now:
            found[begins[1]] = now
        if now and (via := VIA.search(line)):
            now[1].append(via[1])
    return {prefix: [cost, sorted(hops)] for prefix, (cost, hops) in found.items()}, True


def routers_of(suite, topology):
    """The names of the routers of a topology."""
    place = os.path.join(suite, topology.folder)
    return sorted(name for name in os.listdir(place)
                  if os.path.isfile(os.path.join(place, name, "ospfd.conf")))


class Reading:
    """A topology of the suite as it is read."""

    def __init__(self, suite, topology, folder):
        self.it, self.names = topology, routers_of(suite, topology)
        self.place = os.path.join(suite, topology.folder)
        self.to = os.path.join(folder, topology.name.replace(" ", "-"))
        self.routers, self.left = {}, collections.Counter()

    def read(self):
        """Imports the routers that have an interface in the area."""
        paths = [os.path.join(self.place, name) for name in self.names]
        ended = imported("frr", "--area", self.it.area, "--to", self.to, *paths)
        for line in ended.stderr.splitlines():
            if says := LEFT.match(line):
                why = says[2].rpartition(": ")[2] if says[1] == "left out" else says[0].partition(
                    ": ")[2]
                self.left[why] += 1
        for path in sorted(ended.stdout.split()):
            with open(path, encoding="ascii") as file:
                text = file.read()
            name = os.path.basename(text.splitlines()[0].rpartition(", ")[2].removeprefix("# "))
            devices = re.findall(r"^\[\[interface\]\] # (.*)$", text, re.M)
            area, *links = summary(text)
            for number, device in enumerate(devices):
                if kind := self.it.edits.get((name, device)):
                    links[number] = re.sub(r"^\S+", kind, links[number])
            router = re.search(r'router_id = "(.*)"', text)[1]
            self.routers[name] = {"name": name, "router": router, "area": area, "links": links}
            self.routers[name]["devices"] = devices

    def events(self, step):
        """The lines of a script for a step."""
        return [
            f"{how} {self.routers[name]['router']} "
            f"{self.routers[name]['devices'].index(device)}"
            for how, name, device in step.events
            if name in self.routers and device in self.routers[name]["devices"]
        ]

    def prefixes(self):
        """The subnets and hosts of the area: a reference may have routes out of it too."""
        links = [link.split() for it in self.routers.values() for link in it["links"]]
        return {str(ipaddress.ip_interface(words[1]).network) for words in links}

    def tables(self, step):
        """The routes of each router that the suite has a reference of."""
        found, known = {}, self.prefixes()
        for name, router in self.routers.items():
            path = os.path.join(self.place, name, step.reference)
            if os.path.isfile(path):
                with open(path, encoding="utf-8") as file:
                    routes, is_whole = routes_of(file.read(), self.it.area)
                routes = {prefix: route for prefix, route in routes.items() if prefix in known}
                if routes:
                    table = {"whole": is_whole, "routes": routes}
                    table |= {"first": True} if self.it.has_first_hops else {}
                    found[router["router"]] = table
        return found

    def facts(self):
        """What stays of it."""
        self.read()
        steps = [{"name": it.name, "events": self.events(it), "tables": self.tables(it)}
                 for it in self.it.steps]
        routers = [{key: it[key] for key in ("name", "router", "area", "links")}
                   for it in self.routers.values()]
        left = dict(sorted(self.left.items()))
        return {"name": self.it.name, "routers": routers, "left out": left, "steps": steps}


def read(folder):
    """All topologies of the package in a folder, which is fetched if it is not there."""
    version = fetch(folder)
    suite, taken = os.path.join(folder, "topotests"), {it.folder for it in TOPOLOGIES}
    there = topotests_json.write(suite, taken)
    there |= {it.split(os.sep)[-3] for it in glob.glob(os.path.join(suite, "*", "*", "ospfd.conf"))}
    known = taken | NOT_TAKEN.keys()
    if known != there:
        sys.exit(f"topologies: neither taken nor refused: {sorted(there ^ known)}")
    return {"frr": version, "not taken": NOT_TAKEN,
            "topologies": [Reading(suite, it, os.path.join(folder, "area")).facts()
                           for it in TOPOLOGIES]}
