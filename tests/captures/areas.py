"""Areas as the tests read them, without the program: the links of routers, what may fail, and what
a failure takes (docs/decisions/failures.md)."""
import socket
import struct

ROUTER, NETWORK = 1, 2
POINT_TO_POINT, TRANSIT, STUB = 1, 2, 3
# The kinds of failures in the order in which they are printed.
LINK, LINKS, ATTACHMENT, ALL_OF_NETWORK, ALL_OF_ROUTER, INTERFACE = range(6)
# Where the indices of interfaces lie, by which links without addresses are told.
INDICES = 0, 0xFF000000


def dotted(number):
    return socket.inet_ntoa(struct.pack(">I", number))


def checksum(lsa):
    """The two bytes that make both sums over the LSA without its age zero (RFC 2328, section
    12.1.7)."""
    plain = weighted = 0
    data = bytes(lsa[2:16]) + b"\0\0" + bytes(lsa[18:])
    for byte in data:
        plain = (plain + byte) % 255
        weighted = (weighted + plain) % 255
    behind = len(data) - 14 - 1
    first = (behind * plain - weighted) % 255 or 255
    return bytes([first, (-plain - first) % 255 or 255])


class Link:
    def __init__(self, data):
        self.bytes = data
        self.id, self.data, self.kind, _, self.metric = struct.unpack(">IIBBH", data)

    def prefix(self):
        """The prefix of a link to a stub network: its address, and its mask."""
        return self.id & self.data, self.data


def is_in(address, prefix):
    return address & prefix[1] == prefix[0]


def with_links(head, links):
    """A router-LSA that begins as this one, of the bytes of links, with its length and checksum."""
    lsa = bytearray(head + struct.pack(">H", len(links)) + b"".join(links))
    lsa[18:20] = struct.pack(">H", len(lsa))
    lsa[16:18] = checksum(lsa)
    return bytes(lsa)


class Area:
    """The LSAs of an area: the links of each router, and the LSA of each network that stands for
    it."""

    def __init__(self, lsas):
        self.heads, self.links, self.networks = {}, {}, {}
        for lsa in lsas:
            number, router = struct.unpack_from(">II", lsa, 4)
            if lsa[3] == ROUTER:
                self.heads[router] = lsa[:22]
                self.links[router] = [Link(lsa[at : at + 12]) for at in range(24, len(lsa), 12)]
            elif number not in self.networks or self.networks[number][0] < router:
                names = struct.unpack_from(f">{(len(lsa) - 24) // 4}I", lsa, 24)
                self.networks[number] = router, struct.unpack_from(">I", lsa, 20)[0], names
        self.others = [lsa for lsa in lsas if lsa[3] == NETWORK]

    def between(self, one, other):
        """The links of one router to another that links back."""
        if not any(it.kind == POINT_TO_POINT and it.id == one for it in self.links.get(other, [])):
            return []
        return [it for it in self.links[one] if it.kind == POINT_TO_POINT and it.id == other]

    def stubs(self, router):
        return {it.prefix() for it in self.links.get(router, []) if it.kind == STUB}

    def is_on(self, router, network):
        named = network in self.networks and router in self.networks[network][2]
        return named and any(it.kind == TRANSIT and it.id == network for it in self.links[router])

    def shared(self, one, other):
        """The subnets of the links between two routers: those that both tell and that hold an
        address of each."""
        ends = [
            [it.data for it in self.between(*pair) if not is_in(it.data, INDICES)]
            for pair in ((one, other), (other, one))
        ]
        return {
            it
            for it in self.stubs(one) & self.stubs(other)
            if all(any(is_in(at, it) for at in end) for end in ends)
        }

    def subnet_of(self, link, one, other):
        """The subnet of a link between two routers: the longest that holds its address, or that of
        indices."""
        if is_in(link.data, INDICES):
            return INDICES
        return max(
            (it for it in self.shared(one, other) if is_in(link.data, it)),
            key=lambda it: it[1],
            default=None,
        )

    def subnets(self, one, other):
        """The subnets of the links of one router to the other that have an address."""
        found = [
            self.subnet_of(it, one, other)
            for it in self.between(one, other)
            if not is_in(it.data, INDICES)
        ]
        return [it for it in found if it]

    def failures(self):
        routers = sorted(self.links)
        for one in routers:
            for other in routers:
                if one < other and self.between(one, other):
                    found = sorted(set(self.subnets(one, other)))
                    if found and any(is_in(it.data, INDICES) for it in self.between(one, other)):
                        found = sorted({*found, INDICES})
                    yield from ((LINK, one, other, *prefix) for prefix in found)
                    if not found:
                        yield LINKS, one, other
        on = [
            (router, network)
            for router in routers
            for network in sorted(self.networks)
            if self.is_on(router, network)
        ]
        yield from ((ATTACHMENT, *it) for it in on)
        yield from ((ALL_OF_NETWORK, network) for network in sorted({network for _, network in on}))
        yield from ((ALL_OF_ROUTER, router) for router in routers)

    def interfaces(self):
        """The interfaces of routers to stub networks: the prefixes of less than 32 bits that they
        tell, but the longest one that holds the address of a link to a router or a network."""
        for router, links in sorted(self.links.items()):
            told = {it for it in self.stubs(router) if it[1] != 0xFFFFFFFF}
            addresses = {
                it.data
                for it in links
                if it.kind == TRANSIT or it.kind == POINT_TO_POINT and not is_in(it.data, INDICES)
            }
            taken = {
                max((it for it in told if is_in(at, it)), key=lambda it: it[1], default=None)
                for at in addresses
            }
            yield from ((INTERFACE, router, *it) for it in sorted(told - taken))

    def without(self, failure):
        """The LSAs that are left."""
        left = []
        for router, links in self.links.items():
            left.append(
                with_links(
                    self.heads[router],
                    [link.bytes for link in links if not self.takes(failure, router, link)],
                )
            )
        return left + self.others

    def takes(self, failure, router, link):
        """Whether what fails takes the link of a router."""
        kind, *rest = failure
        if kind == ALL_OF_ROUTER:
            return router == rest[0] or (link.kind == POINT_TO_POINT and link.id == rest[0])
        if kind in (ATTACHMENT, ALL_OF_NETWORK):
            return (
                link.kind == TRANSIT
                and link.id == rest[-1]
                and (kind == ALL_OF_NETWORK or router == rest[0])
            )
        if kind == INTERFACE:
            return router == rest[0] and link.kind == STUB and link.prefix() == tuple(rest[1:])
        ends = dict([rest[:2], rest[1::-1]])
        if router not in ends:
            return False
        is_there = link.kind == POINT_TO_POINT and link.id == ends[router]
        if kind == LINKS:
            return is_there
        subnet = tuple(rest[2:])
        return (is_there and self.subnet_of(link, *rest[:2]) == subnet) or (
            link.kind == STUB and link.prefix() == subnet
        )

    def tells(self, prefix):
        """Whether a router tells the prefix, or a network that a router is on."""
        if any(prefix in self.stubs(router) for router in self.links):
            return True
        return any(
            (number & mask, mask) == prefix
            and any(self.is_on(router, number) for router in self.links)
            for number, (_, mask, _) in self.networks.items()
        )


def name_of(failure):
    kind, *rest = failure
    if kind == LINK:
        return f"{dotted(rest[0])}-{dotted(rest[1])}@{dotted(rest[2])}/{bin(rest[3]).count('1')}"
    if kind == LINKS:
        return f"{dotted(rest[0])}-{dotted(rest[1])}"
    if kind == INTERFACE:
        return f"{dotted(rest[0])}@{dotted(rest[1])}/{bin(rest[2]).count('1')}"
    return {ATTACHMENT: "{}@{}", ALL_OF_NETWORK: "@{}", ALL_OF_ROUTER: "{}"}[kind].format(
        *map(dotted, rest)
    )
