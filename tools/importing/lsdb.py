"""Configurations of the routers of an LSDB, from what `ospfd lsas --json` says of it."""
import collections

import lsas
from page_parts import program

from . import model
from .model import Host, Link, Place, Router, address_of, interface_of

MAX_METRIC = 0xFFFF
FLAGS = {"B": model.OTHER_AREAS, "E": model.OUTSIDE, "V": model.VIRTUAL,
         "W": "multicast is not routed"}
STUB, ROUTER, NETWORK, VIRTUAL = "stub", "router", "network", "virtual"
ONE_WAY = "one way only"
# Of a Designated Router that would not be elected by its Router ID.
DR_PRIORITY = 2


def places_of(text, name):
    """The line of each router-LSA, by its Advertising Router; the last of several."""
    found = {}
    for number, line in enumerate(text.decode("ascii", "replace").splitlines(), 1):
        try:
            lsa = bytes.fromhex(line.strip())
        except ValueError:
            continue
        if len(lsa) >= lsas.HEADER and lsa[3] == lsas.ROUTER:
            found[str(address_of(lsa[8:12]))] = Place(name, number)
    return found


class Item:
    """A link of a router-LSA, in words, and the interface that it becomes."""

    def __init__(self, router, given):
        self.router, self.kind, self.cost = router, given["link"], given.get("cost")
        self.to, self.at = given.get("to"), address_of(given.get("from", ""))
        self.prefix = interface_of(given["prefix"]).network if self.kind == STUB else None
        self.is_one_way = given.get("one_way", False)
        # Of a point-to-point link the stubs that may be its subnet, its other end, its subnet, and
        # the stub that has it.
        self.stubs, self.peer, self.subnet, self.stub = [], None, None, None
        # The interface or the host that it becomes, or why it is left out.
        self.link, self.host, self.why, self.is_done = None, None, None, False

    def take(self, subnet):
        """Takes a subnet, and the stub that has it if there is one."""
        self.subnet = subnet
        self.stub = next((it for it in self.stubs if it.prefix == subnet), None)

    def text(self):
        what = self.prefix if self.kind == STUB else f"{self.to} from {self.at}"
        cost = "" if self.cost is None else f" cost {self.cost}"
        return f"{self.router}: {self.kind} {what if self.kind != VIRTUAL else self.to}{cost}"


class Lsdb:
    """The links of all routers, and what becomes of each."""

    def __init__(self, listed, places, name, report):
        self.report, self.name, self.places = report, name, places
        self.items, self.flags = {}, {}
        self.networks = {}
        for it in listed:
            if it["lsa"] == ROUTER:
                self.items[it["router"]] = [Item(it["router"], link) for link in it["links"]]
                self.flags[it["router"]] = it["flags"]
            elif not it["unused"]:
                self.networks[it["id"]] = interface_of(it["prefix"]).network
        self.stub_routers = {router for router, links in self.items.items() if is_stub(links)}
        # Interfaces by their network, and addresses that are taken.
        self.on, self.taken, self.alone = collections.defaultdict(list), set(), []

    def place(self, router):
        return self.places.get(router, Place(self.name))

    def leave(self, item, why):
        """Leaves a link out."""
        item.is_done, item.why = True, why
        self.report.left(self.place(item.router), item.text(), why)

    def all_of(self, kind):
        return [it for links in self.items.values() for it in links
                if it.kind == kind and not it.is_done]

    # ---- what a link becomes

    def make(self, item, address, kind, cost):
        """Gives a link its interface, if the format has one."""
        link = Link("", self.place(item.router), address, None)
        link.kind, link.settings["cost"], link.comment = kind, cost, ""
        fault = link.fault()
        mine = [it.link.address for it in self.items[item.router] if it.link]
        if fault is None and any(it.network == address.network or it.ip == address.ip
                                 for it in mine):
            fault = "another interface of this router has this prefix"
        if fault is None and not model.RANGES["cost"][0] <= cost:
            fault = "the format has no cost 0"
        if fault:
            self.leave(item, fault)
            return False
        item.link, item.is_done = link, True
        self.on[address.network].append(item)
        self.taken.add(address.ip)
        return True

    def transit(self):
        """Links to networks: broadcast interfaces."""
        prefixes = {}
        for item in self.all_of(NETWORK):
            network = self.networks.get(item.to)
            if item.is_one_way or network is None:
                self.leave(item, f"{ONE_WAY}: no network-LSA in use lists it")
            elif prefixes.setdefault(network, item.to) != item.to:
                self.leave(item, f"{network} is also the network of {prefixes[network]}")
            elif item.at not in network:
                self.leave(item, f"its address is not in {network}")
            else:
                self.make(item, with_length(item.at, network), model.BROADCAST, item.cost)
        for network in list(self.on):
            self.elect(self.on[network], prefixes[network])

    def elect(self, items, address):
        """Keeps the Designated Router that a network has: the LSDB has no priorities."""
        chosen = [it for it in items if str(it.at) == address]
        if not chosen or len(items) < 2:
            return
        item = chosen[0]
        if address_of(item.router) != max(address_of(it.router) for it in items):
            item.link.settings["priority"] = DR_PRIORITY
            item.link.comment = "Designated Router"
            self.report.assume(self.place(item.router),
                               f"{item.router}: {item.link.address} priority {DR_PRIORITY}",
                               "keeps it the Designated Router")

    def stubs_of(self, item):
        """The stubs of a router that hold the address of its point-to-point link, the longest
        first."""
        stubs = [it for it in self.items[item.router] if it.kind == STUB and not it.is_done
                 and item.at in it.prefix and it.prefix.prefixlen >= model.LENGTHS[0]]
        return sorted(stubs, key=lambda it: it.prefix.prefixlen, reverse=True)

    def point_to_point(self):
        """Links to routers: each with its other end, in one subnet."""
        links = [it for it in self.all_of(ROUTER) if it.at.packed[0] and not it.is_one_way]
        for item in links:
            item.stubs = self.stubs_of(item)
        between = collections.defaultdict(list)
        for item in links:
            between[item.router, item.to].append(item)
        for rule in (of_both, of_one, of_neither):
            for item in links:
                find_peer(item, between[item.to, item.router], rule)
        ends = collections.Counter(it.subnet or next((stub.prefix for stub in it.stubs), None)
                                   for it in links)
        for item in self.all_of(ROUTER):
            why = self.why_not(item, ends)
            if why:
                self.leave(item, why)
        for item in links:
            if not item.is_done and item.peer.is_done and not item.peer.link:
                self.leave(item, f"the other end is left out: {item.peer.why}")
            elif not item.is_done:
                self.pair(item)

    def why_not(self, item, ends):
        """Why a link to a router is left out; nothing if it is not."""
        if item.is_one_way:
            return ONE_WAY
        if not item.at.packed[0]:
            return model.UNNUMBERED
        if item.peer is None:
            where = f" {item.stubs[0].prefix}" if item.stubs else ""
            return f"no link of {item.to} is in its subnet{where}"
        if ends[item.subnet] > 2 or self.on.get(item.subnet):
            return f"{item.subnet} has more than two ends"
        return None

    def pair(self, item):
        """Makes a point-to-point interface of a link and its subnet."""
        stub, cost = item.stub, item.cost
        if stub and item.router in self.stub_routers:
            cost = stub.cost
        if not self.make(item, with_length(item.at, item.subnet), model.POINT_TO_POINT, cost):
            return
        item.link.comment = f"to {item.to}"
        if stub:
            stub.is_done = True
        # A link whose subnet is not advertised has it suppressed (RFC 6860).
        item.link.is_suppressed = stub is None
        if stub and stub.cost != cost:
            self.leave(stub, f"its link has cost {cost}")
            self.report.assume(self.place(item.router),
                               f"{item.router}: {STUB} {item.subnet} cost {cost}",
                               "advertised with the link")

    def hosts(self):
        """Stub networks of one address: hosts (RFC 2328, C.7)."""
        for item in self.all_of(STUB):
            address = item.prefix[0]
            if item.prefix.prefixlen < 32 or not is_unicast(address):
                continue
            mine = self.items[item.router]
            if any(it.host and it.host.address == address for it in mine):
                self.leave(item, "another host of this router has this address")
            elif any(it.link and it.link.address.ip == address for it in mine):
                self.leave(item, "an interface of this router has this address")
            elif sum(it.host is not None for it in mine) == model.MOST:
                self.leave(item, f"more than {model.MOST} hosts")
            else:
                item.host, item.is_done = Host(address, item.cost), True

    def has_other(self, item):
        """Whether the router of a stub has an interface that is not passive."""
        return any(it.link and not it.link.is_passive for it in self.items[item.router])

    def stubs(self):
        """Stub networks: passive interfaces, or one broadcast interface without neighbors where
        the router has no other, since the format needs one."""
        by_prefix = collections.defaultdict(list)
        for item in self.all_of(STUB):
            by_prefix[item.prefix].append(item)
        for prefix, items in by_prefix.items():
            for item in items:
                is_shared = self.on.get(prefix) and self.on[prefix][0].kind != STUB
                if is_shared and not self.has_other(item):
                    self.leave(item, f"{prefix} is also a network of other routers")
                elif prefix.prefixlen > model.LENGTHS[1] or prefix.prefixlen < model.LENGTHS[0]:
                    self.make(item, with_length(prefix[0], prefix), model.BROADCAST, item.cost)
                else:
                    self.alone_on(prefix, item)
            made = [it for it in items if it.link and not it.link.is_passive]
            if len(made) > 1:
                self.keep_apart(prefix, made)

    def alone_on(self, prefix, item):
        """An interface on a stub network, with an address of this router that is known, or else
        the first that is free."""
        known = [it.at for it in self.items[item.router]
                 if it.at and not it.link and it.at in prefix and it.at not in self.taken]
        free = (prefix[at] for at in range(1, prefix.num_addresses - 1))
        at = next(iter(known), None) or next((it for it in free if it not in self.taken), None)
        is_passive = self.has_other(item)
        if at is None:
            self.leave(item, "no address is free")
        elif self.make(item, with_length(at, prefix), model.BROADCAST, item.cost):
            item.link.is_passive = is_passive
            item.link.comment = "stub network" if known else "stub network, its address is made up"
            if not known:
                self.alone.append(item)

    def keep_apart(self, prefix, items):
        for item in items:
            item.link.settings["priority"] = 0
        names = ", ".join(it.router for it in items)
        self.report.assume(Place(self.name), f"{prefix} priority 0",
                           f"keeps the stub networks of {names} apart (A10 of check --area)")

    # ---- routers

    def routers(self):
        """The routers, each with its links."""
        for item in self.all_of(VIRTUAL):
            self.leave(item, model.VIRTUAL)
        self.transit()
        self.point_to_point()
        self.hosts()
        self.stubs()
        found = [self.router(name, items) for name, items in self.items.items()]
        count = sum(it.link is not None for it in self.alone)
        if count:
            self.report.assume(Place(self.name), f"addresses of {count} stub networks",
                               "the LSDB has none: the first free one of each")
        return found

    def router(self, name, items):
        router = Router(self.name)
        router.router_id, router.is_stub_router = address_of(name), name in self.stub_routers
        for flag in self.flags[name]:
            self.report.left(self.place(name), f"{name}: flag {flag}", FLAGS[flag])
        made = [it for it in items if it.link]
        if len(made) > model.MOST:
            made.sort(key=lambda it: it.link.is_passive)
        for item in made[model.MOST:]:
            item.link = self.leave(item, f"more than {model.MOST} interfaces")
        router.links = [it.link for it in made[:model.MOST]]
        router.hosts = [it.host for it in items if it.host]
        if router.is_stub_router and any(it.kind == NETWORK for it in made):
            self.report.assume(self.place(name), f"{name}: cost {MAX_METRIC} to networks",
                               "the LSDB has no other of a stub router")
        return router


def find_peer(item, others, rule):
    """Finds the other end of a link among those that lead back, by a rule for its subnet."""
    for other in others if item.peer is None else ():
        if other.peer is None and other is not item and item.at != other.at:
            subnet = rule(item, other)
            if subnet:
                item.peer, other.peer = other, item
                item.take(subnet)
                other.take(subnet)
                return


def shared(item, other):
    """The prefixes of stubs of an end that hold the addresses of both ends."""
    return [it.prefix for it in item.stubs if other.at in it.prefix]


def of_both(item, other):
    """The longest subnet that both ends advertise."""
    theirs = shared(other, item)
    return next((it for it in shared(item, other) if it in theirs), None)


def of_one(item, other):
    """The longest subnet that one end advertises."""
    found = shared(item, other) + shared(other, item)
    return max(found, key=lambda it: it.prefixlen, default=None)


def of_neither(item, other):
    """The subnet of 30 bits, where no end advertises one."""
    if shared(item, other) or shared(other, item):
        return None
    network = interface_of(f"{item.at}/{model.LENGTHS[1]}").network
    return network if other.at in network else None


def is_unicast(address):
    return model.OCTETS[0] <= address.packed[0] <= model.OCTETS[1]


def with_length(address, network):
    return interface_of(f"{address}/{network.prefixlen}")


def is_stub(links):
    """Whether a router advertises all its links to others at the highest cost (RFC 6987)."""
    costs = {it.cost for it in links if it.kind in (ROUTER, NETWORK)}
    return costs == {MAX_METRIC}


def read(name, report, ospfd):
    """The routers of an LSDB."""
    text = lsas.read(name)
    listed = program.Program(ospfd, text).answer("lsas", "--json", is_quiet=False)
    return Lsdb(listed, places_of(text, name), name, report).routers()
