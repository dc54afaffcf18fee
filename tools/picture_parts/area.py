"""An area as the configurations of its routers give it."""
import ipaddress
import tomllib

# Keys of an interface that are written at its end where they are not the default, and their names.
NOTED = {
    "priority": (1, "priority"),
    "hello": (10, "HelloInterval"),
    "dead": (40, "RouterDeadInterval"),
    "retransmit": (5, "RxmtInterval"),
    "transmit_delay": (1, "InfTransDelay"),
    "mtu": (1500, "MTU"),
    "passive": (False, "passive"),
}


class End:
    """An interface, or a host, which has no number: its router and number, its address, and what is
    written at it."""

    def __init__(self, router, number, given):
        self.router, self.number = router, number
        self.address = ipaddress.ip_interface(given["address"])
        self.is_plain = given.get("kind") == "point-to-point"
        self.words = [f"cost {given['cost']}"]
        for key, (default, name) in NOTED.items():
            if given.get(key, default) != default:
                self.words.append(name if given[key] is True else f"{name} {given[key]}")

    def part(self):
        """The part of the address that is not in every address of the network."""
        fixed = min(self.address.network.prefixlen // 8, 3)
        return "." + ".".join(str(self.address.ip).split(".")[fixed:])


class Area:
    """The routers of an area, and its networks by their prefixes. One of two point-to-point
    interfaces is a link, another of several interfaces is a LAN, one of a single interface hangs
    at its router."""

    def __init__(self, texts):
        self.routers, found = {}, {}
        for text in texts:
            given = tomllib.loads(text)
            router = given["router_id"]
            if router in self.routers:
                raise ValueError(f"two configurations of {router}")
            self.routers[router] = ["stub router"] if given.get("stub_router") else []
            ends = [End(router, number, it) for number, it in enumerate(given["interface"])]
            ends += [End(router, None, it) for it in given.get("host", [])]
            for end in ends:
                found.setdefault(str(end.address.network), []).append(end)
        self.routers = {it: self.routers[it] for it in sorted(self.routers, key=number_of)}
        self.links, self.lans, self.single = {}, {}, {}
        for prefix in sorted(found, key=ipaddress.ip_network):
            ends = sorted(found[prefix], key=lambda it: number_of(it.router))
            is_link = len(ends) == 2 and all(it.is_plain for it in ends)
            kind = self.single if len(ends) == 1 else self.links if is_link else self.lans
            kind[prefix] = ends
        self.near = {it: [] for it in [*self.routers, *self.lans]}
        pairs = [tuple(end.router for end in ends) for ends in self.links.values()]
        pairs += [(end.router, prefix) for prefix, ends in self.lans.items() for end in ends]
        for one, other in pairs:
            self.near[one].append(other)
            self.near[other].append(one)

    def hanging(self, node):
        """The prefixes of the networks that hang at a router."""
        return [it for it, ends in self.single.items() if ends[0].router == node]

    def order(self):
        """The nodes, each next to one before it where it can be: from an end of a chain on."""
        ends = [it for it in self.near if len(self.near[it]) == 1]
        left, found = [*ends, *self.near], []
        while left:
            node = left.pop(0)
            if node not in found:
                found.append(node)
                left[:0] = sorted(set(self.near[node]) - set(found), key=list(self.near).index)
        return found

    def is_chain(self):
        joints = sum(map(len, self.near.values())) // 2
        return joints == len(self.near) - 1 and max(map(len, self.near.values())) <= 2

    def is_bus(self):
        return len(self.lans) == 1 and not self.links and len(self.near) > 3


def number_of(router):
    return int(ipaddress.ip_address(router))
