"""LSAs of an area as `compare-inspect` reads them and puts them into words."""
import socket
import struct

ROUTER, NETWORK = 1, 2
POINT_TO_POINT, TRANSIT, STUB, VIRTUAL = 1, 2, 3, 4


def dotted(number):
    return socket.inet_ntoa(struct.pack(">I", number))


def number_of(text):
    return struct.unpack(">I", socket.inet_aton(text))[0]


def ones(mask):
    return bin(mask).count("1")


class Lsa:
    """An LSA: its header, and the links or the attached routers that it has."""

    def __init__(self, data):
        self.age, _, self.kind, self.id, self.router, self.number, self.sum = struct.unpack_from(
            ">HBBIIIH", data
        )
        # Without the bit DoNotAge (RFC 1793, section 2.2).
        self.age = min(self.age & 0x7FFF, 3600)
        if self.kind == ROUTER:
            self.flags = "".join(letter for bit, letter in enumerate("BEVW") if data[20] >> bit & 1)
            self.links = [struct.unpack_from(">IIBBH", data, at) for at in starts(data)]
        else:
            self.mask = struct.unpack_from(">I", data, 20)[0]
            self.attached = struct.unpack_from(f">{(len(data) - 24) // 4}I", data, 24)

    def instance(self):
        return f"age {self.age} number {self.number:08x} sum {self.sum:04x}"


def starts(data):
    """Where the links of a router-LSA begin, each of which may have entries for types of
    service."""
    at = 24
    while at < len(data):
        yield at
        at += 12 + 4 * data[at + 9]


class Area:
    def __init__(self, lsas):
        self.lsas = sorted(
            (lsa for lsa in lsas if lsa.age < 3600), key=lambda it: (it.kind, it.id, it.router)
        )
        self.links = {lsa.router: lsa.links for lsa in self.lsas if lsa.kind == ROUTER}
        # Of several network-LSAs of one Link State ID that of the greatest router stands last.
        self.networks = {lsa.id: lsa for lsa in self.lsas if lsa.kind == NETWORK}

    def leads(self, router, kind, number):
        """Whether a router has such a link."""
        return any(link[2] == kind and link[0] == number for link in self.links.get(router, []))

    def words(self):
        """All LSAs in words."""
        for lsa in self.lsas:
            if lsa.kind == ROUTER:
                yield f"router {dotted(lsa.router)} {lsa.instance()}" + (
                    f" flags {lsa.flags}" if lsa.flags else ""
                )
                yield from (self.link_in_words(lsa.router, link) for link in lsa.links)
                continue
            unused = "" if self.networks[lsa.id] is lsa else " unused"
            yield (
                f"network {dotted(lsa.id & lsa.mask)}/{ones(lsa.mask)} of {dotted(lsa.id)} "
                f"by {dotted(lsa.router)} {lsa.instance()}{unused}"
            )
            for router in lsa.attached:
                both = router in self.networks[lsa.id].attached and self.leads(
                    router, TRANSIT, lsa.id
                )
                yield f"  router {dotted(router)}" + ("" if both else " one-way")

    def link_in_words(self, router, link):
        number, data, kind, _, metric = link
        if kind == STUB:
            return f"  stub {dotted(number & data)}/{ones(data)} cost {metric}"
        if kind == VIRTUAL:
            return f"  virtual {dotted(number)} passed over"
        if kind == POINT_TO_POINT:
            what, back = "router", self.leads(number, POINT_TO_POINT, router)
        else:
            what, back = (
                "network",
                number in self.networks and router in self.networks[number].attached,
            )
        return f"  {what} {dotted(number)} from {dotted(data)} cost {metric}" + (
            "" if back else " one-way"
        )

    def cost_of(self, router, hop):
        """The least cost of the links that a hop may use."""
        local, _, far = hop.partition(">")
        other, _, on_network = far.partition("@")
        other = number_of(other)
        costs = []
        for number, data, kind, _, metric in self.links[router]:
            if data != number_of(local):
                continue
            if (
                not on_network
                and kind == POINT_TO_POINT
                and number == other
                and self.leads(other, POINT_TO_POINT, router)
            ):
                costs.append(metric)
            network = self.networks.get(number)
            if (
                on_network
                and kind == TRANSIT
                and network
                and {router, other} <= {*network.attached}
                and self.leads(other, TRANSIT, number)
            ):
                costs.append(metric)
        return min(costs), other
