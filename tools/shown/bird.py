"""What BIRD shows: `show ospf lsadb` has the headers of LSAs, but for Options and length, and
`show ospf state all` the contents, but for the Link Data of links to routers and networks.

Of both together come network-LSAs, router-LSAs of stub links alone, and LSAs of types 3 to 5. A
router-LSA with other links is left out: what is missing is named."""
import re

import lsas

from .labelled import DEFAULT_VRF
from .parts import (ASBR_SUMMARY, EXTERNAL, FLAGS, STUB, SUMMARY, Link, Octet, Shown, address,
                    mask_of)

NAME = "BIRD (show ospf lsadb, show ospf state all)"
ADDRESS = r"([0-9]+\.[0-9]+\.[0-9]+\.[0-9]+)"
PREFIX = rf"{ADDRESS}/([0-9]+)"
COLUMNS = r"\s*Type +LS ID +Router +Sequence +Age +Checksum"
HEADING = re.compile(rf"BIRD [0-9.]+ ready|{COLUMNS}|[Aa]rea {ADDRESS}$|Global$|other ASBRs$")
AREA = re.compile(rf"[Aa]rea {ADDRESS}$")
GLOBAL = re.compile(r"Global$")
ROW = re.compile(rf"\s*([0-9a-f]{{4}}) +{ADDRESS} +{ADDRESS} +([0-9a-f]{{8}}) +([0-9]+)"
                 r" +([0-9a-f]{4})$")
NODE = re.compile(rf"\t(?:router {ADDRESS}|network {PREFIX})$")
DR, ATTACHED = re.compile(rf"\t\tdr {ADDRESS}$"), re.compile(rf"\t\trouter {ADDRESS}$")
# Links whose Link Data is not shown.
LINK = re.compile(r"\t\t(?:router|vlink|network) \S+ metric [0-9]+$")
STUBNET = re.compile(rf"\t\tstubnet {PREFIX} metric ([0-9]+)$")
XNETWORK = re.compile(rf"\t\txnetwork {PREFIX} metric ([0-9]+)$")
XROUTER = re.compile(rf"\t\txrouter {ADDRESS} metric ([0-9]+)$")
OUTSIDE = re.compile(rf"\t\texternal {PREFIX} metric(2?) ([0-9]+)(?: via {ADDRESS})?"
                     r"(?: tag ([0-9a-f]+))?$")


class Contents:
    """The contents of an LSA, of `show ospf state`, and what they say of its header."""

    def __init__(self, kind, router, mask=None, prefix=None):
        self.kind, self.router, self.mask, self.prefix = kind, router, mask, prefix
        self.links, self.attached, self.metric, self.external = [], [], None, {}
        self.has_data = True

    def is_of(self, kind, name, router):
        """Whether an LSA of this type, Link State ID and Advertising Router may have them."""
        if (kind, router) != (self.kind, self.router):
            return False
        if self.prefix is None:
            return True
        return bytes(it & bit for it, bit in zip(address(name), self.mask)) == self.prefix

    def give(self, one):
        """Gives them to an LSA."""
        one.links, one.attached, one.external = self.links, self.attached, self.external
        one.mask = bytes(4) if self.kind == ASBR_SUMMARY else self.mask
        one.metrics = [] if self.metric is None else [(0, self.metric)]
        one.absent = [] if self.has_data else ["Link Data"]


class Reader:
    """Reads both lists. What belongs together is known at their end."""

    def __init__(self):
        self.area, self.rows, self.nodes, self.others = "unknown", [], [], []

    def is_between(self):
        return True

    def take(self, line):
        if found := AREA.match(line):
            self.area = found[1]
        elif GLOBAL.match(line):
            self.area = lsas.OUTSIDE
        elif found := ROW.match(line):
            self.rows.append((self.area, *found.groups()))
        elif found := NODE.match(line):
            self.nodes.append((self.area, node_of(found)))
        elif self.nodes:
            self.take_content(self.nodes[-1][1], line)
        return ()

    def take_content(self, node, line):
        """Takes a line of a router or a network."""
        if found := DR.match(line):
            node.router = found[1]
        elif found := ATTACHED.match(line):
            node.attached.append(address(found[1]))
        elif found := STUBNET.match(line):
            link = Link(STUB)
            link.id, link.data, link.metric = address(found[1]), mask_of(found[2]), int(found[3])
            node.links.append(link)
        elif LINK.match(line):
            node.has_data = False
        elif other := other_of(node.router, line):
            self.others.append((self.area, other))

    def end(self):
        """The LSAs, each of a row and of what has its contents."""
        for area, kind, name, router, *rest in self.rows:
            one = header_of(area, int(kind, 16), name, router, rest)
            # The Link State ID may have bits of a host (RFC 2328, appendix E).
            all_of = [contents for place, contents in self.nodes + self.others
                      if place == area or one.kind == EXTERNAL]
            fitting = [it for it in all_of if it.is_of(one.kind, name, router)]
            if fitting:
                max(fitting, key=lambda it: it.mask or b"").give(one)
            yield one
        if not self.rows:
            for area, node in self.nodes:
                yield without_header(area, node)
        self.__init__()


def node_of(found):
    """The router or network of a line."""
    if found[1]:
        return Contents(lsas.ROUTER, found[1])
    return Contents(lsas.NETWORK, None, mask_of(found[3]), address(found[2]))


def other_of(router, line):
    """The contents of an LSA of type 3, 4 or 5 that a line of its router shows, if it does."""
    if found := XNETWORK.match(line):
        other = Contents(SUMMARY, router, mask_of(found[2]), address(found[1]))
        other.metric = int(found[3])
    elif found := XROUTER.match(line):
        other = Contents(ASBR_SUMMARY, router, b"\xff" * 4, address(found[1]))
        other.metric = int(found[2])
    elif found := OUTSIDE.match(line):
        other = Contents(EXTERNAL, router, mask_of(found[2]), address(found[1]))
        other.metric = int(found[4])
        other.external = {"metric type": 2 if found[3] else 1,
                          "Forward Address": found[5] or "0.0.0.0",
                          "External Route Tag": f"0x{found[6] or '0'}"}
    else:
        return None
    return other


def header_of(area, kind, name, router, rest):
    """The header of a row, without contents."""
    number, age, checksum = rest
    one = Shown(DEFAULT_VRF, area, kind, str(kind))
    one.fields = {"LS age": int(age), "Options": Octet(0, 0xFF), "Link State ID": name,
                  "Advertising Router": router, "LS Seq Number": int(number, 16),
                  "Checksum": int(checksum, 16)}
    one.has_length, one.flags = False, Octet(0, FLAGS)
    one.absent = ["contents (show ospf state all)"]
    return one


def without_header(area, node):
    """What is known of an LSA where there are no rows."""
    one = Shown(DEFAULT_VRF, area, node.kind)
    one.has_length, one.flags = False, Octet(0, FLAGS)
    one.fields = {"Options": Octet(0, 0xFF), "Advertising Router": node.router or "unknown"}
    if node.kind == lsas.ROUTER:
        one.fields["Link State ID"] = node.router
    node.give(one)
    return one
