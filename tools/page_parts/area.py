"""The drawing of an area: routers and networks, what joins them, and the failure of each."""
import ipaddress
import re

ENDS = re.compile(r"([0-9.]+)-([0-9.]+)(?:@(.+))?")
INDICES = ipaddress.ip_network("0.0.0.0/8")


def network(name):
    """The node of a network, by the address of its Designated Router."""
    return "@" + name


class Edge:
    """What joins two nodes, and its ends: a router, the address of its interface, its cost."""

    def __init__(self, one, other, kind, failure=None, subnet=None):
        self.one, self.other, self.kind, self.failure = one, other, kind, failure
        self.subnet, self.ends = subnet, []

    def holds(self, address):
        """Whether the subnet of a link has an address."""
        return self.subnet is None or address in ipaddress.ip_network(self.subnet)

    def length(self):
        return -1 if self.subnet is None else ipaddress.ip_network(self.subnet).prefixlen


class Area:
    """Nodes by their names, and edges. The names of the failures say which links are one: they are
    the program's, so the page asks no question of its own about the LSAs."""

    def __init__(self, listed, failures):
        self.nodes, self.edges, self.pairs = {}, [], {}
        for lsa in listed:
            if lsa["lsa"] == "router":
                self.add_router(lsa)
            elif not lsa["unused"]:
                node = self.node(network(lsa["id"]), "network")
                node.update(kind="network", prefix=lsa["prefix"], by=lsa["router"])
        for number, failure in enumerate(failures):
            self.add_failure(number, failure["failure"], failure["kind"])
        for lsa in listed:
            for link in lsa.get("links", []):
                self.add_link(lsa["router"], link)

    def node(self, name, kind="absent"):
        """A node; one that no LSA describes is absent."""
        return self.nodes.setdefault(name, {"id": name, "kind": kind, "failure": None})

    def add_router(self, lsa):
        stubs = [[it["prefix"], it["cost"]] for it in lsa["links"] if it["link"] == "stub"]
        node = self.node(lsa["router"])
        node.update(kind="router", flags=lsa["flags"], stubs=stubs)

    def add_failure(self, number, name, kind):
        """Gives a node its failure, or adds the edge that fails."""
        if kind in ("router", "network"):
            self.node(name)["failure"] = number
        elif kind == "attachment":
            router, at = name.split("@")
            self.add_edge(Edge(router, network(at), "interface", number))
        else:
            one, other, subnet = ENDS.fullmatch(name).groups()
            self.add_edge(Edge(one, other, "link", number, subnet))

    def add_edge(self, edge):
        self.edges.append(edge)
        self.pairs.setdefault(frozenset((edge.one, edge.other)), []).append(edge)
        self.node(edge.one)
        self.node(edge.other)

    def add_link(self, router, link):
        """Gives a link of a router-LSA to its edge. One that is one-way has an edge of its own, and
        so have those of a pair of routers whose failure has no name."""
        if link["link"] not in ("router", "network"):
            return
        is_link = link["link"] == "router"
        to = link["to"] if is_link else network(link["to"])
        edge = self.edge_of(router, to, link) if not link["one_way"] else None
        if edge is None:
            kind = "one-way" if link["one_way"] else "link" if is_link else "interface"
            edge = Edge(router, to, kind)
            self.add_edge(edge)
        edge.ends.append([router, link["from"], link["cost"]])

    def edge_of(self, router, to, link):
        """The edge of a link that both ends have: that of the longest subnet with its address."""
        found = self.pairs.get(frozenset((router, to)), [])
        address = ipaddress.ip_address(link["from"])
        fitting = [it for it in found if it.kind != "one-way" and it.holds(address)]
        return max(fitting, key=Edge.length, default=None)

    def data(self):
        places = {name: number for number, name in enumerate(self.nodes)}
        edges = [{"a": places[it.one], "b": places[it.other], "kind": it.kind, "subnet": it.subnet,
                  "failure": it.failure, "ends": it.ends} for it in self.edges]
        return {"nodes": list(self.nodes.values()), "edges": edges}
