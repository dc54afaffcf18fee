"""Configurations as FRR and Cisco IOS write them: a block of lines for each interface, one for the
router. frr.py and ios.py have what differs."""
import re

from . import model
from .model import Link, Place, Refused, address_of, area_of, interface_of, plain

# `ip ospf WORD NUMBER`: the key of the format.
NUMBERS = {"cost": "cost", "hello-interval": "hello", "dead-interval": "dead",
           "retransmit-interval": "retransmit", "transmit-delay": "transmit_delay",
           "priority": "priority"}
SUPPRESSION = "prefix-suppression"
KINDS = {"broadcast": model.BROADCAST, "point-to-point": model.POINT_TO_POINT}
OTHER_KINDS = ("non-broadcast", "point-to-multipoint")
FAST = "Hellos within a second; the default is written"
NO_CHECK = "the MTU is compared always"
NEIGHBORS = "neighbors are found by Hellos"
# What is left out of `ip ospf WORD`, and why.
LINK_LEFT = {
    "authentication": model.AUTHENTICATION, "authentication-key": model.AUTHENTICATION,
    "message-digest-key": model.AUTHENTICATION, "mtu-ignore": NO_CHECK,
    "database-filter": "LSAs are flooded on all links",
    "graceful-restart": model.NO_RESTART, "shutdown": model.DOWN,
    "neighbor-filter": "neighbors are not filtered",
    **dict.fromkeys(("bfd", "ttl-security", "lls", "resync-timeout", "capability", "name-lookup",
                     "demand-circuit", "flood-reduction", "mpls", "fast-reroute",
                     "topology"), model.NO_EFFECT)}
# The same of the lines of `router ospf`, by one word or two.
ROUTER_LEFT = {
    "redistribute": model.OUTSIDE, "default-information": model.OUTSIDE,
    "default-metric": model.OUTSIDE, "summary-address": model.OUTSIDE,
    "aggregation": model.OUTSIDE, "distribute-list": "routes are not filtered",
    "neighbor": NEIGHBORS, "graceful-restart": model.NO_RESTART, "nsf": model.NO_RESTART,
    "maximum-paths": "a route has all next hops of equal cost",
    "ospf rfc1583compatibility": model.OUTSIDE, "compatible": model.OUTSIDE,
    "ospf abr-type": model.OTHER_AREAS,
    **dict.fromkeys((
        "log-adjacency-changes", "timers", "distance", "bfd", "refresh", "capability",
        "ospf opaque-lsa", "ospf send-extra-data", "opaque-lsa", "mpls-te", "mpls", "router-info",
        "segment-routing", "fast-reroute", "mpls ldp-sync", "proactive-arp", "write-multiplier",
        "ispf", "prefix-priority", "queue-depth", "limit", "ttl-security", "snmp", "max-lsa",
        "maximum-multipath", "domain-id", "discard-route", "auto-summary", "name-lookup",
        "interface-id", "event-log", "nsr", "process-min-time", "socket-per-interface", "socket",
        "flood-reduction", "ignore", "microloop", "traffic-share", "local-rib-criteria",
    ), model.NO_EFFECT)}
AREA_LEFT = {
    "stub": model.NORMAL, "nssa": model.NORMAL, "virtual-link": model.VIRTUAL,
    "authentication": model.AUTHENTICATION,
    **dict.fromkeys(("range", "default-cost", "filter-list", "export-list", "import-list",
                     "shortcut", "sham-link"), model.OTHER_AREAS),
    **dict.fromkeys(("capability", "flood-reduction"), model.NO_EFFECT)}
# Words that begin a block or a line outside of all blocks, though the line is not indented.
OUTSIDE_OF_BLOCKS = {
    "vrf", "route-map", "line", "hostname", "log", "password", "enable", "service", "frr", "key",
    "access-list", "ip", "ipv6", "debug", "mpls", "username", "version", "boot", "logging", "ntp",
    "snmp-server", "aaa", "class-map", "policy-map", "crypto", "control-plane", "banner", "zebra"}
ENDS = ("exit", "end", "quit", "exit-vrf")
# The word may be written short.
INTERFACE = re.compile(r"int(e(r(f(a(ce?)?)?)?)?)?$")


def parts(words):
    """Of the words behind `ip ospf`: the process and the address, if they are there, and the
    rest."""
    process, only = None, None
    if len(words) > 1 and model.is_number(words[0]):
        process, words = words[0], words[1:]
    if words[:1] == ["area"] and words[2:] == ["secondaries", "none"]:
        words = words[:2]
    if len(words) > (2 if words[:1] == ["area"] else 1):
        only = address_of(words[-1])
    return process, words[:-1] if only else words, only


class Device:
    """An interface of the file."""

    def __init__(self, name, place):
        self.name, self.place = name, place
        # Addresses with their places; settings, areas, passivity and suppression of all addresses
        # (None) or one.
        self.addresses, self.settings, self.areas, self.passive = [], {}, {}, {}
        self.suppressed = {}
        # Of each `ip ospf .. area`: its place, its text, the process and the address.
        self.processes = []
        self.ospf_lines, self.kind, self.why_not, self.bandwidth = [], None, None, None
        self.vrf, self.is_down, self.is_other = None, False, False

    def of(self, what, address):
        """What is given for an address, or else for all."""
        return what.get(address, what.get(None))


class Reader:
    """Reads the files of one router."""

    # As the dialects have it: megabits a second, kilobits in the unit of `bandwidth`, and the cost
    # of a loopback that gives none.
    reference, unit, loopback_cost = 100, 1, None
    # Whether the prefixes of all links are suppressed.
    is_suppressed = False
    # The VRF whose instance is read.
    vrf = None

    def __init__(self, router, report):
        self.router, self.report = router, report
        self.devices, self.networks, self.process = {}, [], None
        self.is_passive, self.passive, self.passive_lines, self.given_id = False, {}, [], None
        self.inside, self.device = None, None
        # Whether the lines of the block are indented, once one of them was read.
        self.is_indented = None

    # ---- lines and blocks

    def read(self, file, text):
        """Reads a file."""
        self.inside, closing = None, None
        for number, line in enumerate(text.splitlines(), 1):
            words, place = line.split(), Place(file, number)
            if closing:
                closing = None if closing in line else closing
            elif words and words[0] == "banner" and len(words) > 2:
                # The text of a banner ends at the sign that it begins with.
                mark = words[2][:2] if words[2].startswith("^") else words[2][0]
                closing = None if mark in line.split(mark, 1)[1] else mark
            elif words and words[0][0] not in "!#":
                self.take(place, words, line.strip(), line[0] in " \t")

    def take(self, place, words, text, is_indented):
        if words[0] in ENDS:
            self.inside = None
        elif INTERFACE.match(words[0]) and len(words) > 1:
            self.begin_interface(place, words)
        elif words[0] == "router" and not is_indented:
            self.begin_router(place, words, text)
        elif self.inside and (is_indented or not self.is_outside(words)):
            self.is_indented = self.is_indented or is_indented
            self.inside(place, words, text)
        elif not is_indented:
            self.inside = None
            self.take_top(words)

    def is_outside(self, words):
        """Whether a line that is not indented ends the block before it."""
        if self.inside == self.skip or self.is_indented:
            return True
        first = words[1:] if words[0] == "no" else words
        if self.inside == self.in_interface and first[:1] == ["ip"]:
            return first[1:2] not in (["address"], ["ospf"], ["unnumbered"], ["mtu"], ["vrf"])
        return bool(first) and first[0] in OUTSIDE_OF_BLOCKS

    def take_top(self, words):
        """A line outside of all blocks."""
        if words[0] == "hostname" and len(words) == 2:
            self.router.name = words[1]
        elif words[:-1] in (["router-id"], ["ip", "router-id"]) and address_of(words[-1]):
            self.given_id = address_of(words[-1])
        else:
            self.inside = self.skip

    def skip(self, place, words, text):
        """A line of a block that is no part of OSPF."""

    def begin_interface(self, place, words):
        self.device = self.devices.setdefault(words[1], Device(words[1], place))
        self.inside, self.is_indented = self.in_interface, None
        if words[2:3] == ["vrf"]:
            self.device.vrf = " ".join(words[3:])
        elif words[2:3] == ["multipoint"]:
            self.device.why_not = "network type multipoint"

    def begin_router(self, place, words, text):
        self.inside, self.is_indented = self.skip, None
        if words[1:2] != ["ospf"]:
            return
        vrf = words[words.index("vrf") + 1 :] if "vrf" in words else []
        if vrf != ([] if self.vrf is None else [self.vrf]):
            self.report.left(place, plain(text), model.OTHER_ROUTER)
            return
        process = [it for it in words[2:3] if it != "vrf"]
        if self.process not in (None, process):
            self.report.left(place, plain(text), model.OTHER_ROUTER)
            return
        self.process, self.inside = process, self.in_ospf

    # ---- interfaces

    def in_interface(self, place, words, text):
        is_no, device = words[0] == "no", self.device
        words = words[1:] if is_no else words
        if words[:2] == ["ip", "address"]:
            if not is_no:
                self.take_address(place, words[2:], text)
        elif words[:2] == ["ip", "ospf"]:
            device.ospf_lines.append(place)
            self.take_ip_ospf(place, words[2:], text, is_no)
        elif words[:2] == ["ip", "unnumbered"]:
            device.why_not = model.UNNUMBERED
        elif words[:1] == ["shutdown"]:
            device.is_down = not is_no
        elif words[:1] == ["bandwidth"] and len(words) == 2 and model.is_number(words[1]):
            device.bandwidth = int(words[1]) * self.unit
        elif words[:2] == ["vrf", "forwarding"] or words[:3] == ["ip", "vrf", "forwarding"]:
            device.is_other = True
        elif words[:2] == ["ip", "mtu"] or words[:1] == ["mtu"] and "mtu" not in device.settings:
            value = model.setting(self.report, place, "mtu", words[-1], text)
            if value is not None and not is_no:
                device.settings.setdefault("mtu", {})[None] = value

    def take_address(self, place, words, text):
        """`10.0.0.1/30`, or `10.0.0.1 255.255.255.252`."""
        address, rest = interface_of(words[0]) if words else None, words[1:]
        if address is None and len(words) > 1:
            address, rest = interface_of(words[0], words[1]), words[2:]
        if address is None:
            bare = words[:1] == ["dhcp"] or words[:1] == ["negotiated"] or "peer" in words
            why = "the address is not in the file"
            if bare:
                self.report.left(place, plain(text), why if "peer" not in words else "a peer")
            else:
                self.report.unknown(place, words[0] if words else "address", text)
        elif rest[:1] == ["secondary"]:
            self.report.left(place, plain(text), "a secondary address")
        elif rest and rest[0] != "label":
            self.report.unknown(place, rest[0], text)
        else:
            self.device.addresses.append((place, address))

    def take_ip_ospf(self, place, words, text, is_no):
        """A line `ip ospf ..`."""
        device, (process, words, only) = self.device, parts(words)
        first = words[0] if words else "ospf"
        if first == "passive" and len(words) == 1:
            device.passive[only] = not is_no
        elif first == SUPPRESSION and words[1:] in ([], ["disable"]):
            device.suppressed[only] = not is_no and len(words) == 1
        elif is_no and first in {*NUMBERS, *LINK_LEFT, "network", "area"}:
            self.report.left(place, plain(text), "it is the default")
        elif first in NUMBERS and len(words) == 2:
            value = model.setting(self.report, place, NUMBERS[first], words[1], text)
            if value is not None:
                device.settings.setdefault(NUMBERS[first], {})[only] = value
        elif first == "dead-interval" and words[1:2] == ["minimal"]:
            self.report.left(place, plain(text), FAST)
        elif words == ["authentication", "null"]:
            return
        elif first == "network":
            self.take_kind(place, words, text)
        elif first == "area" and len(words) == 2 and area_of(words[1]):
            device.areas[only] = area_of(words[1])
            device.processes.append((place, text, process, only))
        elif first in LINK_LEFT:
            device.is_down = device.is_down or first == "shutdown"
            self.report.left(place, plain(text), LINK_LEFT[first])
        elif first in NUMBERS:
            self.report.unknown(place, words[min(2, len(words) - 1)], text)
        else:
            self.report.unknown(place, words[-1] if first == "area" else first, text)

    def take_kind(self, place, words, text):
        kind = words[1] if len(words) > 1 else "network"
        if kind in OTHER_KINDS:
            self.device.why_not = f"network type {kind}"
        elif kind not in KINDS:
            self.report.unknown(place, kind, text)
            return
        self.device.kind = KINDS.get(kind)
        for word in words[2:]:
            self.report.left(place, plain(text), f"{plain(word)}: {model.NO_EFFECT}")

    # ---- the router

    def in_ospf(self, place, words, text):
        is_no, all_words = words[0] == "no", words
        words = words[1:] if is_no else words
        first, two = words[0] if words else "no", " ".join(words[:2])
        if first == "passive-interface" and len(words) > 1:
            self.take_passive(place, words[1:], text, not is_no)
        elif is_no:
            known = {*ROUTER_LEFT, *self.commands(), "area", "shutdown"}
            if first in known or two in known:
                self.report.left(place, plain(text), "it is the default")
            else:
                self.report.unknown(place, first, text)
        elif first == "area" and len(words) > 2 and words[2] in AREA_LEFT:
            self.report.left(place, plain(text), AREA_LEFT[words[2]])
        elif two in ROUTER_LEFT or first in ROUTER_LEFT:
            self.report.left(place, plain(text), ROUTER_LEFT.get(two) or ROUTER_LEFT[first])
        elif first == "shutdown":
            raise Refused("the router is shut down in this file")
        elif two in self.commands() or first in self.commands():
            self.commands()[two if two in self.commands() else first](place, all_words, text)
        else:
            self.report.unknown(place, words[2] if first == "area" and len(words) > 2 else first,
                                text)

    def commands(self):
        return {"router-id": self.take_router_id, "ospf router-id": self.take_router_id,
                "network": self.take_network, "auto-cost": self.take_reference,
                "max-metric": self.take_max_metric, SUPPRESSION: self.take_suppression}

    def take_router_id(self, place, words, text):
        found = address_of(words[-1])
        if found is None:
            self.report.unknown(place, words[-1], text)
        else:
            self.router.router_id = found

    def take_network(self, place, words, text):
        """`network 10.0.0.0/24 area 0`, or `network 10.0.0.0 0.0.0.255 area 0`."""
        area = area_of(words[-1])
        if words[-2:-1] != ["area"] or area is None or len(words) not in (4, 5):
            self.report.unknown(place, words[-1], text)
            return
        if len(words) == 4:
            prefix = interface_of(words[1])
            base = prefix and (int(prefix.network[0]), int(prefix.netmask))
        else:
            found, wild = address_of(words[1]), address_of(words[2])
            mask = wild and int(wild) ^ 0xFFFFFFFF
            base = (int(found) & mask, mask) if found and wild is not None else None
        if not base:
            self.report.unknown(place, words[1], text)
            return
        self.networks.append([place, *base, area, text, False])

    def take_passive(self, place, words, text, is_passive):
        only = address_of(words[1]) if len(words) == 2 else None
        if words[0] == "default" and len(words) == 1:
            self.is_passive = is_passive
        elif len(words) > 1 and only is None:
            self.report.unknown(place, words[1], text)
        else:
            self.passive[words[0], only] = is_passive
            self.passive_lines.append((place, words[0], text))

    def take_reference(self, place, words, text):
        if len(words) < 3 or words[1] != "reference-bandwidth" or not model.is_number(words[2]):
            self.report.unknown(place, words[-1], text)
        elif int(words[2]) == 0:
            self.report.left(place, plain(text), "at least 1 wanted")
        else:
            self.reference = int(words[2])

    def take_max_metric(self, place, words, text):
        rest = words[2:]
        if words[1:2] != ["router-lsa"]:
            self.report.unknown(place, words[-1], text)
        elif rest[:1] in (["on-startup"], ["on-shutdown"]):
            self.report.left(place, plain(text), "only for some time")
        else:
            self.router.is_stub_router = True
            for word in rest:
                if word != "administrative":
                    self.report.left(place, plain(text), f"{plain(word)}: not in the format")

    def take_suppression(self, place, words, text):
        """`prefix-suppression` of the router: each link's, unless it says otherwise itself."""
        if len(words) > 1:
            self.report.unknown(place, words[1], text)
        self.is_suppressed = len(words) == 1

    # ---- what they give together

    def finish(self):
        """The links of the router."""
        if self.process is None:
            raise Refused("no OSPF: no block `router ospf`")
        for device in self.devices.values():
            self.finish_device(device)
        for place, name, text in self.passive_lines:
            if name not in self.devices:
                self.report.left(place, plain(text), "no such interface in the file")
        for place, _, _, _, text, is_used in self.networks:
            if not is_used:
                self.report.left(place, plain(text), "no interface of the file has such an address")
        if self.router.router_id is None:
            self.router.router_id = self.given_id or self.highest()

    def highest(self):
        """The Router ID where none is given: the highest address of a loopback, or of all."""
        devices = [it for it in self.devices.values() if not it.is_down and not self.is_other(it)]
        loopbacks = [it for it in devices if self.is_loopback(it)]
        for some in (loopbacks, devices):
            found = [address.ip for it in some for _, address in it.addresses]
            found = [it for it in found if not it.is_loopback]
            if found:
                self.report.assume(Place(self.router.file), f"router_id {max(found)}",
                                   "the file gives none: the highest address")
                return max(found)
        return None

    def is_other(self, device):
        """Whether an interface belongs to another VRF."""
        return device.is_other or device.vrf != self.vrf

    def finish_device(self, device):
        links = []
        if self.is_other(device):
            if device.ospf_lines:
                self.report.left(device.ospf_lines[0], plain(device.name), model.OTHER_ROUTER)
            return
        for place, text, process, only in device.processes:
            if process is not None and [process] != self.process:
                device.areas.pop(only, None)
                self.report.left(place, plain(text), model.OTHER_ROUTER)
        for place, address in device.addresses:
            area = device.of(device.areas, address.ip) or self.area_of_network(address)
            if area:
                links.append(self.link(device, place, address, area))
        self.router.links += links
        if device.ospf_lines and not links:
            why = device.why_not or ("no address" if not device.addresses else "in no area")
            self.report.left(device.ospf_lines[0], plain(device.name), why)

    def area_of_network(self, address):
        """The area of the most specific `network` that an address matches."""
        best = None
        for network in self.networks:
            _, base, mask, *_ = network
            if self.matches(address, base, mask):
                network[-1] = True
                if best is None or mask > best[2]:
                    best = network
        return best and best[3]

    def matches(self, address, base, mask):
        return int(address.ip) & mask == base

    def link(self, device, place, address, area):
        link = Link(device.name, place, address, area)
        for key, given in device.settings.items():
            value = device.of(given, address.ip)
            if value is not None:
                link.settings[key] = value
        link.kind = device.kind or self.kind_of(device, link)
        link.why_not = device.why_not
        if device.is_down:
            link.why_not = model.DOWN
        elif self.is_loopback(device) and not self.is_loopback_network(device):
            link.is_host = self.loopback_cost is not None and not address.ip.is_loopback
            if not link.is_host:
                said = "" if address.ip.is_loopback else f": {model.HOST}"
                link.why_not = f"a loopback{said}"
        elif self.loopback_cost is not None and link.kind == model.BROADCAST:
            # As an interface of type dummy: a stub network of one address.
            link.is_host = address.network.prefixlen == 32
        said = [device.passive, {at: it for (name, at), it in self.passive.items()
                                 if name == device.name}]
        passive = [it for it in (device.of(given, address.ip) for given in said) if it is not None]
        link.is_passive = passive[0] if passive else self.is_passive
        suppressed = device.of(device.suppressed, address.ip)
        suppressed = self.is_suppressed if suppressed is None else suppressed
        # A passive interface's prefix is advertised always (RFC 6860).
        link.is_suppressed = suppressed and not link.is_passive
        if "cost" not in link.settings:
            link.settings["cost"] = self.cost(device, link)
        return link

    def kind_of(self, device, link):
        """The network type where none is given."""
        if not re.match(self.point_to_point, device.name):
            return model.BROADCAST
        if link.fault() is None:
            self.report.assume(link.place, f"{link.name()}: point-to-point", "by the name")
        return model.POINT_TO_POINT

    def is_loopback(self, device):
        return re.match(self.loopback, device.name) is not None

    def is_loopback_network(self, device):
        """Whether a loopback is advertised with its prefix."""
        return device.kind == model.POINT_TO_POINT

    def cost(self, device, link):
        """The cost of an interface that gives none: that of a loopback, or one by its bandwidth."""
        if self.is_loopback(device) and link.is_host:
            self.report.assume(link.place, f"{link.name()}: cost {self.loopback_cost}",
                               "no cost in the file: that of a loopback")
            return self.loopback_cost
        kilobits, why = device.bandwidth, "bandwidth"
        if kilobits is None:
            kilobits, why = self.speed(device)
        cost = min(max(self.divided(self.reference * 1000, kilobits), 1), model.RANGES["cost"][1])
        if link.fault() is None and device.bandwidth is None:
            self.report.assume(link.place, f"{link.name()}: cost {cost}", why)
        return cost

    def divided(self, reference, kilobits):
        return reference // max(kilobits, 1)
