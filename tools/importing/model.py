"""A router as all dialects give it, what is left out of it, and the configuration that is written.

What the format can express is in docs/CONFIGURATION.md: `ospfd check` judges it, not this.
"""
import argparse
import collections
import ipaddress
import math
import re

import lsas

POINT_TO_POINT, BROADCAST = "point-to-point", "broadcast"
# Lengths of a prefix, interfaces of a router and hosts as well, and what the first octet of an
# address may be. A point-to-point link may have 31 bits too (RFC 3021).
LENGTHS, MOST, OCTETS = (1, 30), 32, (1, 223)
RANGES = {"cost": (1, 65535), "priority": (0, 255), "hello": (1, 65535), "dead": (1, 65535),
          "retransmit": (1, 65535), "transmit_delay": (1, 3600), "mtu": (576, 9000)}
DEFAULTS = {"priority": 1, "hello": 10, "dead": 40, "retransmit": 5, "transmit_delay": 1,
            "mtu": 1500}
# Most routers set RouterDeadInterval to so many times HelloInterval, unless it is given.
HELLOS_OF_DEAD = 4

AUTHENTICATION = "authentication: packets are sent without it"
OUTSIDE = "routes from outside the area are not imported"
OTHER_AREAS = "routes to and from other areas are not computed"
NO_EFFECT = "no effect on the LSDB of the area"
HOST = "add it as a table [[host]], with its cost"
NO_31 = "a prefix of 31 bits is for point-to-point links"
UNNUMBERED = "unnumbered: the format needs an address with a subnet"
VIRTUAL = "virtual links are not simulated"
NORMAL = "stub areas and NSSAs are written as normal areas"
OTHER_ROUTER = "another VRF or instance is another router"
DOWN = "the interface is down"
NO_RESTART = "graceful restart is not simulated"

# What may come before a key or a password, which no report repeats.
SECRET = re.compile(
    r"\b(message-digest-key|authentication-key|simple-password|passwords?|md5|key) .*")

Place = collections.namedtuple("Place", "file line", defaults=[None])


class Refused(Exception):
    """Why a file gives no configuration."""


class Report:
    """What is left out of the files, what is assumed, and what is not understood, with places."""

    LEFT, ASSUMED, UNKNOWN = "left out", "assumed", "not understood"

    def __init__(self):
        self.lines, self.counts, self.files = [], collections.Counter(), []

    def read(self, name):
        """The text of a file, whose lines come after those of files that were read before."""
        self.files.append(name)
        return lsas.read(name).decode("utf-8", "replace")

    def add(self, kind, place, text):
        self.counts[kind] += 1
        self.lines.append((place, f"{kind}: {text}"))

    def left(self, place, what, why):
        self.add(self.LEFT, place, f"{without_secret(what)}: {why}")

    def assume(self, place, what, why):
        self.add(self.ASSUMED, place, f"{what}: {why}")

    def unknown(self, place, word, text):
        """A word of a line that is part of OSPF, and means nothing to the reader. What follows it
        is not repeated: it may be a key or a password."""
        head, found, tail = text.partition(word)
        begin = without_secret(plain(head + found)) + " .." * bool(tail.strip())
        inside = f", in: {begin}" if head or tail else ""
        self.add(self.UNKNOWN, place, plain(word) + inside)

    def tell(self):
        """Prints the lines in the order of the input, those of no line at the end of their file."""
        order = {name: at for at, name in enumerate(self.files)}
        in_order = lambda it: (order.get(it[0].file, len(order)), it[0].line or math.inf)
        for place, text in sorted(self.lines, key=in_order):
            at = place.file if place.line is None else f"{place.file}:{place.line}"
            lsas.tell(f"{at}: {text}")


class Link:
    """An address of an interface in an area: settings by the keys of the format, and what keeps it
    out of a configuration."""

    def __init__(self, device, place, address, area):
        self.device, self.place, self.address, self.area = device, place, address, area
        self.kind, self.settings, self.comment = BROADCAST, {}, device
        # Why the format cannot express it, where only the dialect knows.
        self.why_not = None
        # Whether its address alone is advertised, as that of a loopback (RFC 2328, C.7).
        self.is_passive = self.is_suppressed = self.is_host = False

    def name(self):
        return f"{plain(self.device)} {self.address}"

    def fault(self):
        """Why the format cannot express it; nothing if it can."""
        length, octet = self.address.network.prefixlen, self.address.packed[0]
        if self.why_not:
            return self.why_not
        if length == 32 and not self.is_host:
            return UNNUMBERED if self.kind == POINT_TO_POINT else HOST
        if length < LENGTHS[0] or not OCTETS[0] <= octet <= OCTETS[1]:
            return "the format has no interface with such an address"
        if self.is_host:
            return None
        if length == 31:
            return None if self.kind == POINT_TO_POINT else NO_31
        if self.address.ip in (self.address.network[0], self.address.network[-1]):
            return "the address of the network or its broadcast address"
        return None


# A host behind a router: its address, and the cost of the link to it.
Host = collections.namedtuple("Host", "address cost")


class Router:
    """What a file says of one router: its links are those of all areas."""

    def __init__(self, file):
        self.file, self.name, self.router_id, self.is_stub_router = file, None, None, False
        self.links, self.hosts = [], []

    def need_router_id(self):
        if self.router_id is None:
            raise Refused("no Router ID: the file gives none, and no address for one")
        if int(self.router_id) == 0:
            raise Refused("the Router ID is 0.0.0.0")


def plain(text):
    """A text of the input as one line of printable characters."""
    return re.sub(r"[^\x20-\x7e]", "?", text)


def without_secret(text):
    """A line without its key or password."""
    return SECRET.sub(r"\1 ..", text)


def address_of(word):
    """An address; nothing if the word is none."""
    try:
        return ipaddress.IPv4Address(word)
    except ValueError:
        return None


def interface_of(word, mask=None):
    """An address with its prefix, as 10.0.0.1/30, or with a mask apart; nothing if it is none."""
    try:
        if mask is None and "/" not in word:
            return None
        return ipaddress.IPv4Interface(word if mask is None else f"{word}/{mask}")
    except ValueError:
        return None


def area_of(word):
    """An area in dotted form, of a word that has it so or as a number; nothing if it is none."""
    try:
        return lsas.area_of(word)
    except argparse.ArgumentTypeError:
        return None


def is_number(word):
    return word.isascii() and word.isdigit() and len(word) < 12


def setting(report, place, key, word, text):
    """The value of a key, in its range; nothing, with a report, if it is not."""
    if not is_number(word):
        report.unknown(place, word, text)
        return None
    low, high = RANGES[key]
    if not low <= int(word) <= high:
        report.left(place, plain(text), f"{low} to {high} wanted")
        return None
    return int(word)


def complete(report, link):
    """Sets RouterDeadInterval of a link where it is not given, and takes one that is too short
    out."""
    given = link.settings
    hello, dead = given.get("hello", DEFAULTS["hello"]), given.get("dead")
    if dead is not None and dead <= hello:
        report.left(link.place, f"{link.name()}: dead {dead}", f"not above hello {hello}")
        dead = None
    if dead is None:
        dead = HELLOS_OF_DEAD * hello
        if hello != DEFAULTS["hello"]:
            report.assume(link.place, f"{link.name()}: dead {dead}", "four times hello")
    if dead > RANGES["dead"][1]:
        report.left(link.place, f"{link.name()}: hello {hello}", f"dead would be {dead}")
        given["hello"], dead = DEFAULTS["hello"], DEFAULTS["dead"]
    given["dead"] = dead


def unlike(link, links, hosts):
    """Why a link cannot be with these that came before it; nothing if it can."""
    taken = [it.address.ip for it in links] + [it.address for it in hosts]
    if link.is_host and len(hosts) == MOST:
        return f"more than {MOST} hosts"
    if not link.is_host and len(links) == MOST:
        return f"more than {MOST} interfaces"
    if not link.is_host and any(it.address.network == link.address.network for it in links):
        return "an earlier interface has this prefix"
    return "an earlier interface has this address" if link.address.ip in taken else None


def expressed(report, router, area):
    """The links of a router in an area that the format can express, with a report of the others.
    Hosts are added to those of the router."""
    links = []
    for link in router.links:
        fault = link.fault() or unlike(link, links, router.hosts)
        if link.area != area:
            fault = f"area {link.area}"
        if fault:
            report.left(link.place, link.name(), fault)
            continue
        if link.is_host:
            router.hosts.append(Host(link.address.ip, link.settings["cost"]))
            continue
        complete(report, link)
        links.append(link)
    if links and all(link.is_passive for link in links):
        send(report, links[0])
    return links


def send(report, link):
    """Makes a passive interface one that is not, but has no adjacency with priority 0."""
    link.is_passive, link.kind, link.settings["priority"] = False, BROADCAST, 0
    report.assume(link.place, f"{link.name()}: priority 0",
                  "it sends Hellos: the format has no router with passive interfaces alone")


def text_of(router, area, links):
    """The configuration, in TOML."""
    names = [plain(it) for it in (router.name, router.file) if it]
    lines = [f"# {', '.join(names)}", f'router_id = "{router.router_id}"', f'area = "{area}"']
    if router.is_stub_router:
        lines.append("stub_router = true")
    if any(link.address.network.prefixlen == 31 for link in links):
        lines.append("rfc3021 = true")
    for link in links:
        lines += ["", f"[[interface]] # {plain(link.comment)}".rstrip(" #"),
                  f'kind = "{link.kind}"', f'address = "{link.address}"',
                  f"cost = {link.settings['cost']}"]
        lines += [f"{key} = {link.settings[key]}" for key, default in DEFAULTS.items()
                  if link.settings.get(key, default) != default]
        flags = {"passive": link.is_passive, "prefix_suppression": link.is_suppressed}
        lines += [f"{key} = true" for key, is_set in flags.items() if is_set]
    for host in router.hosts:
        lines += ["", "[[host]]", f'address = "{host.address}"', f"cost = {host.cost}"]
    return "".join(f"{line}\n" for line in lines)
