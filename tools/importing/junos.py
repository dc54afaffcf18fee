"""Configurations of Junos, in braces or as `set` lines: the part that decides the LSDB of an area.

Both forms become paths of words: `interfaces ge-0/0/0 unit 0 family inet address 10.0.0.1/30`.
"""
import re

from . import model
from .model import Link, Place, Refused, Router, address_of, area_of, interface_of, plain

TOKEN = re.compile(r"""(?P<skip>\s+|\#[^\n]*|/\*.*?\*/)|(?P<word>"[^"\n]*"|[^\s{};\[\]"]+)"""
                   r"""|(?P<sign>.)""", re.S)
EDITS = ("set", "delete", "deactivate", "activate", "protect", "rename", "insert", "annotate")
# Megabits a second, by how the name of an interface begins.
SPEEDS = {"fe": 100, "ge": 1_000, "xe": 10_000, "et": 100_000, "so": 155, "t1": 1, "e1": 2}
UNKNOWN_SPEED, REFERENCE = 1_000, 100
UNITS = {"": 1, "k": 1_000, "m": 1_000_000, "g": 1_000_000_000}
PRIORITY = 128
# What of the MTU of a device IP does not have.
ETHERNET = 14
POINT_TO_POINT = re.compile(r"(so|t1|e1|t3|e3|st0|gr|ip|lt|pp0|lsi)\b")
NUMBERS = {"metric": "cost", "priority": "priority", "hello-interval": "hello",
           "dead-interval": "dead", "retransmit-interval": "retransmit",
           "transit-delay": "transmit_delay"}
KINDS = {"p2p": model.POINT_TO_POINT}
OTHER_KINDS = ("nbma", "p2mp", "p2mp-over-lan")
LINK_LEFT = {
    "authentication": model.AUTHENTICATION, "simple-password": model.AUTHENTICATION,
    "authentication-key": model.AUTHENTICATION, "ipsec-sa": model.AUTHENTICATION,
    "secondary": "the link is in one area only", "neighbor": "neighbors are found by Hellos",
    "no-advertise-adjacency-segment": model.NO_EFFECT,
    **dict.fromkeys(("bfd-liveness-detection", "ldp-synchronization", "te-metric", "topology",
                     "link-protection", "node-link-protection", "post-convergence-lfa",
                     "demand-circuit", "flood-reduction", "strict-bfd", "poll-interval",
                     "no-eligible-backup", "no-eligible-remote-backup", "no-interface-state-traps",
                     "no-neighbor-down-notification", "dynamic-neighbors", "own-router-lsa",
                     "bandwidth-based-metrics", "ipv4-adjacency-segment"), model.NO_EFFECT)}
AREA_LEFT = {
    "stub": model.NORMAL, "nssa": model.NORMAL, "virtual-link": model.VIRTUAL,
    "authentication-type": model.AUTHENTICATION,
    **dict.fromkeys(("area-range", "inter-area-prefix-export", "inter-area-prefix-import",
                     "network-summary-export", "network-summary-import", "sham-link-remote"),
                    model.OTHER_AREAS),
    **dict.fromkeys(("label-switched-path", "peer-interface", "context-identifier",
                     "no-context-identifier-advertisement"), model.NO_EFFECT)}
OSPF_LEFT = {
    "export": model.OUTSIDE, "import": "routes are not filtered",
    "graceful-restart": model.NO_RESTART, "no-rfc-1583": model.OUTSIDE,
    "sham-link": model.OTHER_AREAS, "disable": model.DOWN,
    **dict.fromkeys(("traffic-engineering", "spf-options", "external-preference", "preference",
                     "rib-group", "prefix-export-limit", "domain-id", "domain-vpn-tag", "topology",
                     "traceoptions", "no-nssa-abr", "source-packet-routing", "backup-spf-options",
                     "lsa-refresh-interval", "database-protection", "job-stats", "statistics",
                     "forwarding-address-to-broadcast", "labeled-preference",
                     "route-type-community"), model.NO_EFFECT)}


class Reader:
    """Reads the paths of one file."""

    def __init__(self, router, report):
        self.router, self.report = router, report
        # Addresses, MTUs and faults of units, by their names; OSPF by area and name.
        self.addresses, self.mtus, self.faults, self.given, self.places = [], {}, {}, {}, {}
        self.reference, self.is_there = REFERENCE, False

    def read(self, paths):
        for place, path in paths:
            if path[:1] == ["interfaces"]:
                self.in_interfaces(place, path[1:])
            elif path[:2] == ["protocols", "ospf"]:
                self.is_there = True
                self.in_ospf(place, path[2:], text_of(path))
            elif path[:2] == ["routing-options", "router-id"] and len(path) == 3:
                self.router.router_id = address_of(path[2])
                if self.router.router_id is None:
                    self.report.unknown(place, path[2], text_of(path))
            elif path[:2] == ["system", "host-name"] and len(path) == 3:
                self.router.name = path[2].strip('"')
            elif path[:1] in (["logical-systems"], ["routing-instances"]) and "ospf" in path:
                self.report.left(place, text_of(path), model.OTHER_ROUTER)
            elif "apply-groups" in path[:1] or path[:1] == ["groups"] and "ospf" in path:
                self.report.left(place, text_of(path), "groups are not expanded: "
                                 "use `show configuration | display inheritance no-comments`")

    # ---- interfaces

    def in_interfaces(self, place, path):
        """`ge-0/0/0 mtu 9000`, `ge-0/0/0 unit 0 family inet address 10.0.0.1/30` and the like."""
        if not path:
            return
        device, rest = path[0], path[1:]
        name = device
        if rest[:1] == ["unit"] and len(rest) > 1:
            name, rest = f"{device}.{rest[1]}", rest[2:]
        if rest[:1] == ["disable"]:
            self.faults[name] = model.DOWN
        elif rest[:1] == ["mtu"] and len(rest) == 2 and model.is_number(rest[1]):
            self.mtus.setdefault(name, (place, int(rest[1]) - ETHERNET, text_of(path)))
        elif rest[:2] == ["family", "inet"]:
            self.in_inet(place, name, rest[2:], text_of(path))

    def in_inet(self, place, name, rest, text):
        if rest[:1] == ["address"] and len(rest) > 1:
            address = interface_of(rest[1])
            if address is None:
                self.report.unknown(place, rest[1], text)
            elif (name, address) not in [(it, other) for it, _, other in self.addresses]:
                self.addresses.append((name, place, address))
        elif rest[:1] == ["mtu"] and len(rest) == 2 and model.is_number(rest[1]):
            self.mtus[name] = (place, int(rest[1]), text)
        elif rest[:1] == ["unnumbered-address"]:
            self.faults[name] = model.UNNUMBERED

    # ---- OSPF

    def in_ospf(self, place, path, text):
        first = path[0] if path else ""
        if first == "area" and len(path) > 1:
            area = area_of(path[1])
            if area is None:
                self.report.unknown(place, path[1], text)
            else:
                self.in_area(place, area, path[2:], text)
        elif first == "reference-bandwidth" and len(path) == 2:
            found = re.fullmatch(r"([0-9]{1,12})([kmg]?)", path[1])
            if found is None:
                self.report.unknown(place, path[1], text)
            else:
                self.reference = int(found[1]) * UNITS[found[2]] / UNITS["m"]
        elif first == "overload":
            if "timeout" in path:
                self.report.left(place, text, "only for some time")
            else:
                self.router.is_stub_router = True
        elif first == "disable":
            raise Refused("OSPF is disabled in this file")
        elif first in OSPF_LEFT:
            self.report.left(place, text, OSPF_LEFT[first])
        elif first:
            self.report.unknown(place, first, text)

    def in_area(self, place, area, path, text):
        first = path[0] if path else ""
        if first == "interface" and len(path) > 1:
            self.in_interface(place, area, path[1:], text)
        elif first in AREA_LEFT:
            self.report.left(place, text, AREA_LEFT[first])
        elif first:
            self.report.unknown(place, first, text)

    def in_interface(self, place, area, path, text):
        name, rest = path[0], path[1:]
        if name != "all" and address_of(name) is None and "." not in name:
            name += ".0"
        given = self.given.setdefault((area, name), {"settings": {}})
        self.places.setdefault((area, name), place)
        first = rest[0] if rest else ""
        if first in NUMBERS and len(rest) == 2:
            value = model.setting(self.report, place, NUMBERS[first], rest[1], text)
            if value is not None:
                given["settings"][NUMBERS[first]] = value
        elif first == "passive":
            given["passive"] = True
            if len(rest) > 1:
                self.report.left(place, text, model.NO_EFFECT)
        elif first == "disable":
            given["why_not"] = model.DOWN
        elif first == "interface-type" and len(rest) == 2:
            if rest[1] in OTHER_KINDS:
                given["why_not"] = f"network type {rest[1]}"
            elif rest[1] not in KINDS:
                self.report.unknown(place, rest[1], text)
            given["kind"] = KINDS.get(rest[1])
        elif first in LINK_LEFT:
            self.report.left(place, text, LINK_LEFT[first])
        elif first:
            self.report.unknown(place, first, text)

    # ---- what they give together

    def finish(self):
        if not self.is_there:
            raise Refused("no OSPF: no `protocols ospf`")
        used = set()
        for name, place, address in self.addresses:
            for key in self.of_address(name, address):
                used.add(key)
                self.router.links.append(self.link(key, name, place, address))
        for key, place in self.places.items():
            if key not in used:
                area, name = key
                why = self.faults.get(name) or "no address in the file"
                self.report.left(place, f"area {area} interface {plain(name)}", why)
        if self.router.router_id is None:
            self.router.router_id = self.first_address()

    def of_address(self, name, address):
        """The areas of an address: those that name its interface or itself, or else all."""
        keys = [key for key in self.given if key[1] in (name, str(address.ip))]
        if keys or address.ip.is_loopback:
            return keys[:1]
        return [key for key in self.given if key[1] == "all"][:1]

    def link(self, key, name, place, address):
        given = self.given[key]
        link = Link(name, place, address, key[0])
        link.settings = {"priority": PRIORITY, **given["settings"]}
        device = name.partition(".")[0]
        link.why_not = given.get("why_not") or self.faults.get(name) or self.faults.get(device)
        if name.startswith("lo0."):
            link.why_not = link.why_not or f"a loopback: {model.HOST}"
        link.is_passive = given.get("passive", False)
        link.kind = given.get("kind") or (
            model.POINT_TO_POINT if POINT_TO_POINT.match(name) else model.BROADCAST)
        mtu = self.mtus.get(name) or self.mtus.get(device)
        if mtu:
            value = model.setting(self.report, mtu[0], "mtu", str(max(mtu[1], 0)), mtu[2])
            if value is not None:
                link.settings["mtu"] = value
        if "cost" not in link.settings:
            speed = SPEEDS.get(name[:2], UNKNOWN_SPEED)
            cost = int(min(max(self.reference // speed, 1), model.RANGES["cost"][1]))
            link.settings["cost"] = cost
            if link.fault() is None:
                self.report.assume(place, f"{link.name()}: cost {cost}",
                                   f"no metric in the file: {speed} Mbit/s by the name")
        return link

    def first_address(self):
        """The Router ID where none is given: the first address of lo0, or of all interfaces."""
        found = [(not name.startswith("lo0."), at) for at, (name, _, address)
                 in enumerate(self.addresses) if not address.ip.is_loopback]
        if not found:
            return None
        address = self.addresses[min(found)[1]][2].ip
        self.report.assume(Place(self.router.file), f"router_id {address}",
                           "the file gives none: an address of it")
        return address


def text_of(path):
    return plain(" ".join(path))


def of_sets(file, text, report):
    """The paths of `set` lines, without those that are deactivated or deleted."""
    found = []
    for number, line in enumerate(text.splitlines(), 1):
        words, place = re.findall(r'"[^"]*"|\S+', line), Place(file, number)
        if not words or words[0].startswith("#"):
            continue
        if words[0] == "set":
            tail = [it for it in words[1:] if it not in ("[", "]")]
            found.append((place, tail))
        elif words[0] in ("delete", "deactivate"):
            gone, count = words[1:], len(found)
            found = [it for it in found if it[1][:len(gone)] != gone]
            if len(found) < count and ("ospf" in gone or gone[:1] == ["interfaces"]):
                report.left(place, plain(line.strip()), "inactive")
        elif "ospf" in words or words[0] not in EDITS:
            report.unknown(place, words[0], line.strip())
    return found


def of_braces(file, text, report):
    """The paths of a configuration in braces, without what is inactive."""
    found, open_words, words, line, place, has_more = [], [], [], 1, None, False
    for it in TOKEN.finditer(text):
        token, at = it[0], Place(file, line)
        line += token.count("\n")
        if it["skip"]:
            continue
        place = place or at
        if token == "{":
            open_words.append((words, place))
            words, place, has_more = [], None, False
        elif token in ";}":
            if words or token == "}" and open_words and not has_more:
                found.append((place, [w for part, _ in open_words for w in part] + words))
            if token == "}" and open_words:
                open_words.pop()
            elif token == "}":
                raise Refused(f"line {at.line}: }} without {{")
            words, place, has_more = [], None, True
        elif token not in "[]":
            words.append(token)
    if open_words:
        raise Refused("the file ends within braces")
    return without_inactive(found, report)


def without_inactive(paths, report):
    """The paths without those of which a word is `inactive:`; one report for each such word."""
    found, seen = [], set()
    for place, path in paths:
        path = [it for it in path if it not in ("replace:", "protect:")]
        if "inactive:" not in path:
            found.append((place, path))
            continue
        at = path.index("inactive:")
        name = tuple(path[:at + 3])
        if name not in seen and ("ospf" in path or path[0] in ("interfaces", "inactive:")):
            report.left(place, text_of(path[:at + 3]), "inactive")
        seen.add(name)
    return found


def read(path, with_addresses, report):
    """The router of a file."""
    if with_addresses:
        raise Refused("--addresses is for FRR and BIRD: this file has its own")
    router = Router(path)
    text = report.read(path)
    lines = [line.split() for line in text.splitlines()]
    first = next((it[0] for it in lines if it and not it[0].startswith("#")), "")
    reader = Reader(router, report)
    reader.read((of_sets if first in EDITS else of_braces)(path, text, report))
    reader.finish()
    return router
