"""Configurations of BIRD 2: `protocol ospf v2`. The addresses come from `ip -br addr`."""
import fnmatch
import re

from . import addresses, model
from .model import Link, Place, Refused, Router, address_of, area_of, interface_of, plain

TOKEN = re.compile(r"""(?P<skip>\s+|\#[^\n]*|/\*.*?\*/)|(?P<word>"[^"\n]*"|'[^'\n]*'"""
                   r"""|[A-Za-z0-9_.:/*?+@-]+)|(?P<sign>.)""", re.S)
DEFAULT_COST = 10
KINDS = {"broadcast": model.BROADCAST, "bcast": model.BROADCAST,
         "pointopoint": model.POINT_TO_POINT, "pointtopoint": model.POINT_TO_POINT,
         "ptp": model.POINT_TO_POINT}
OTHER_KINDS = ("nonbroadcast", "nbma", "pointomultipoint", "pointtomultipoint", "ptmp")
TUNNEL = re.compile(r"(tun|gre|ppp|wg|sit|ipip|vti)[0-9]*$")
# An option of an interface that is a number: the key of the format.
NUMBERS = {"cost": "cost", "hello": "hello", "dead": "dead", "retransmit": "retransmit",
           "transmit delay": "transmit_delay", "priority": "priority"}
LINK_LEFT = {
    "authentication": model.AUTHENTICATION, "password": model.AUTHENTICATION,
    "passwords": model.AUTHENTICATION, "neighbors": "neighbors are found by Hellos",
    "wait": "the wait timer is RouterDeadInterval",
    **dict.fromkeys(("poll", "real broadcast", "ptp netmask", "ptp address", "check link", "bfd",
                     "ecmp weight", "link lsa suppression", "strict nonbroadcast", "rx buffer",
                     "tx length", "tx class", "tx priority", "ttl security"), model.NO_EFFECT)}
AREA_LEFT = {"stub": model.NORMAL, "nssa": model.NORMAL, "virtual": model.VIRTUAL,
             **dict.fromkeys(("summary", "default", "networks", "external", "translator"),
                             model.OTHER_AREAS)}
PROTOCOL_LEFT = {
    "rfc1583compat": model.OUTSIDE, "graceful": model.NO_RESTART, "vrf": model.OTHER_ROUTER,
    "import": model.OUTSIDE, "export": model.OUTSIDE,
    **dict.fromkeys(("tick", "ecmp", "merge", "instance", "debug", "mrtdump", "preference",
                     "description", "table", "limit", "asbr"), model.NO_EFFECT)}
BITS = {"yes": True, "on": True, "true": True, "no": False, "off": False, "false": False}


class Block(Link):
    """An interface block: its patterns, and the settings that all its interfaces have."""

    def __init__(self, statement, area):
        super().__init__("", statement.place, None, area)
        self.statement, self.patterns, self.is_used = statement, [], False
        self.settings["cost"], self.kind, self.dead_count = DEFAULT_COST, None, None


class Statement:
    """Words up to a semicolon, and the block behind them if there is one."""

    def __init__(self, place, words, block):
        self.place, self.words, self.block = place, words, block

    def text(self):
        return plain(" ".join(self.words))


def tokens(file, text):
    """Each word and sign, with its place."""
    line = 1
    for found in TOKEN.finditer(text):
        if not found["skip"]:
            yield Place(file, line), found[0]
        line += found[0].count("\n")


def statements(items, is_inner=False):
    """The statements up to the end of a block, or of the file."""
    found, words, place = [], [], None
    for at, word in items:
        if word == "{":
            found.append(Statement(place or at, words, statements(items, is_inner=True)))
            words, place = [], None
        elif word in (";", "}"):
            if words:
                found.append(Statement(place, words, None))
            words, place = [], None
            if word == "}" and not is_inner:
                raise Refused(f"line {at.line}: }} without {{")
            if word == "}":
                return found
        else:
            words.append(word)
            place = place or at
    if is_inner:
        raise Refused("the file ends within braces")
    if words:
        found.append(Statement(place, words, None))
    return found


class Reader:
    """Reads one file."""

    def __init__(self, router, report, known):
        self.router, self.report, self.known = router, report, known
        self.defined, self.templates, self.blocks, self.given_id = {}, {}, [], None
        self.is_there = False

    def value(self, words):
        """The value of an expression that is one word, maybe defined before."""
        if len(words) == 1:
            return self.defined.get(words[0], words[0]).strip("\"'")
        return None

    def read(self, found):
        """The statements of the file."""
        for it in found:
            words = it.words
            if words[:1] == ["define"] and words[2:3] == ["="] and len(words) == 4:
                self.defined[words[1]] = words[3]
            elif words[:2] == ["router", "id"]:
                self.given_id = self.router_id(it, words[2:])
            elif words[:1] == ["include"]:
                self.report.left(it.place, it.text(), "not read: name a file that has all")
            elif words[:2] == ["template", "ospf"] and it.block is not None:
                self.templates[words[-1]] = it.block
            elif words[:2] == ["protocol", "ospf"] and it.block is not None:
                self.protocol(it)

    def router_id(self, it, words):
        found = address_of(self.value(words) or "")
        if found is None:
            self.report.unknown(it.place, words[0] if words else "id", it.text())
        return found

    def protocol(self, it):
        if "v3" in it.words:
            self.report.left(it.place, it.text(), "OSPFv3")
            return
        if self.is_there:
            self.report.left(it.place, it.text(), model.OTHER_ROUTER)
            return
        self.is_there = True
        block = list(it.block)
        if "from" in it.words:
            name = it.words[it.words.index("from") + 1:][:1]
            if not name or name[0] not in self.templates:
                self.report.unknown(it.place, (name or ["from"])[0], it.text())
            block = self.templates.get("".join(name), []) + block
        for inner in block:
            self.in_protocol(inner)

    def in_protocol(self, it):
        words, first = it.words, it.words[0] if it.words else "{"
        if first == "area" and it.block is not None and len(words) == 2:
            area = area_of(self.value(words[1:]))
            if area is None:
                self.report.unknown(it.place, words[1], it.text())
                return
            for inner in it.block:
                self.in_area(area, inner)
        elif words[:2] == ["router", "id"]:
            self.router.router_id = self.router_id(it, words[2:])
        elif first == "disabled":
            if self.bit(it, words[1:]):
                raise Refused("the protocol is disabled in this file")
        elif words[:2] == ["stub", "router"]:
            self.router.is_stub_router = self.bit(it, words[2:])
        elif first in ("ipv4", "ipv6") and it.block is not None:
            for inner in it.block:
                self.in_channel(inner)
        else:
            self.leave(it, PROTOCOL_LEFT, first)

    def in_channel(self, it):
        """Routes that other protocols give, or take."""
        if it.words[:1] == ["export"] and it.words[1:2] != ["none"]:
            self.report.left(it.place, it.text(), model.OUTSIDE)
        elif it.words[:1] not in (["export"], ["import"]):
            self.leave(it, PROTOCOL_LEFT, it.words[0] if it.words else "{")

    def leave(self, it, reasons, first):
        """Reports a statement that is left out, or not understood."""
        two = " ".join(it.words[:2])
        if two in reasons or first in reasons:
            self.report.left(it.place, it.text(), reasons.get(two) or reasons[first])
        else:
            self.report.unknown(it.place, first, it.text())

    def bit(self, it, words):
        """The value of a switch: on where nothing is given."""
        value = self.value(words) if words else "yes"
        if value not in BITS:
            self.report.unknown(it.place, words[0], it.text())
        return BITS.get(value, False)

    def in_area(self, area, it):
        if it.words[:1] == ["interface"]:
            self.take_interface(area, it)
        elif it.words[:1] == ["stubnet"]:
            self.report.left(it.place, it.text(), "a network without an address of this router")
        else:
            self.leave(it, AREA_LEFT, it.words[0] if it.words else "{")

    def take_interface(self, area, it):
        """An interface block."""
        words, block, is_not = it.words[1:], Block(it, area), False
        if "instance" in words:
            at = words.index("instance")
            self.report.left(it.place, " ".join(words[at:]), model.NO_EFFECT)
            words = words[:at]
        for word in words:
            if word not in (",", "-"):
                self.take_pattern(block, word, is_not)
            is_not = word == "-"
        block.patterns = block.patterns or [(False, "*", None)]
        for inner in it.block or ():
            self.in_interface(block, inner)
        self.blocks.append(block)

    def take_pattern(self, block, word, is_not):
        """A name of interfaces with * and ?, or a prefix; all others where there is a minus."""
        # The minus is before the name or in it: -"eth0", "-eth0".
        value = self.value([word.lstrip("-")])
        is_not = is_not or word.startswith("-") or value.startswith("-")
        value, prefix = value.lstrip("-"), None
        if re.match(r"[0-9.]+(/|$)", value):
            prefix = interface_of(value if "/" in value else f"{value}/32")
            if prefix is None:
                self.report.unknown(block.place, word, block.statement.text())
                return
        block.patterns.append((is_not, value, prefix))

    def in_interface(self, block, it):
        words, first = it.words, it.words[0] if it.words else "{"
        two, place = " ".join(words[:2]), it.place
        key = two if two in NUMBERS else first
        if words[:2] == ["dead", "count"]:
            value = self.value(words[2:]) or ""
            if model.is_number(value) and int(value) > 1:
                block.dead_count = int(value)
            else:
                self.report.unknown(place, words[-1], it.text())
        elif key in NUMBERS:
            words = words[len(key.split()):]
            value = self.value(words)
            if value is None:
                self.report.unknown(place, words[0] if words else key, it.text())
                return
            value = model.setting(self.report, place, NUMBERS[key], value, it.text())
            if value is not None:
                block.settings[NUMBERS[key]] = value
        elif first in ("type", "network") and len(words) == 2:
            self.take_kind(block, it)
        elif words == ["authentication", "none"]:
            return
        elif first == "stub":
            block.is_passive = self.bit(it, words[1:])
        else:
            self.leave(it, LINK_LEFT, first)

    def take_kind(self, block, it):
        kind = self.value(it.words[1:])
        if kind in KINDS:
            block.kind = KINDS[kind]
        elif kind in OTHER_KINDS:
            block.why_not = f"network type {kind}"
        else:
            self.report.unknown(it.place, kind, it.text())

    def finish(self):
        """Gives each address the first interface block that it matches."""
        if not self.is_there:
            raise Refused("no OSPF: no `protocol ospf`")
        if self.known is None:
            raise Refused("no addresses: give what `ip -br addr` prints with --addresses")
        for device, place, address in self.known:
            for block in self.blocks if not address.ip.is_loopback else ():
                if matches(block.patterns, device, address):
                    block.is_used = True
                    self.add(block, device, place, address)
                    break
        for block in self.blocks:
            if not block.is_used:
                self.report.left(block.place, block.statement.text(), "no address matches it")
        if self.router.router_id is None:
            self.router.router_id = self.given_id or self.lowest()

    def add(self, given, device, place, address):
        link = Link(device, place, address, given.area)
        link.settings, link.why_not = dict(given.settings), given.why_not
        link.is_passive = given.is_passive or device == "lo"
        link.kind = given.kind or model.BROADCAST
        if given.kind is None and TUNNEL.match(device):
            link.kind = model.POINT_TO_POINT
            self.report.assume(place, f"{link.name()}: point-to-point", "by the name")
        if given.dead_count and "dead" not in link.settings:
            dead = given.dead_count * link.settings.get("hello", model.DEFAULTS["hello"])
            link.settings["dead"] = min(dead, model.RANGES["dead"][1])
        self.router.links.append(link)

    def lowest(self):
        """The Router ID where none is given: the lowest address."""
        found = [address.ip for device, _, address in self.known if device != "lo"]
        if not found:
            return None
        self.report.assume(Place(self.router.file), f"router_id {min(found)}",
                           "the file gives none: the lowest address")
        return min(found)


def matches(patterns, device, address):
    """Whether the first pattern that an address matches is one without a minus."""
    for is_not, name, prefix in patterns:
        is_match = fnmatch.fnmatchcase(device, name.replace("[", "[[]")) if prefix is None else (
            address.ip in prefix.network)
        if is_match:
            return not is_not
    return False


def read(path, with_addresses, report):
    """The router of a file."""
    router = Router(path)
    text = report.read(path)
    known = addresses.read(with_addresses, report) if with_addresses else None
    reader = Reader(router, report, known)
    reader.read(statements(tokens(path, text)))
    reader.finish()
    return router
