"""What LSAs, or the adjacencies of a journal, join: routers to routers and to networks."""
import socket
import struct

import lsas

POINT_TO_POINT, TRANSIT, STUB = 1, 2, 3


def links_of(lsa):
    """The links of a router-LSA (RFC 2328, section A.4.2); None where they do not fit into it."""
    found, at = [], 24
    try:
        for _ in range(struct.unpack_from(">H", lsa, 22)[0]):
            found.append(struct.unpack_from(">4s4sBBH", lsa, at))
            at += 12 + 4 * found[-1][3]
    except struct.error:
        return None
    return found


class Area:
    """What is drawn of an area: pairs of nodes with the costs at the first of them, the pairs that
    both ends have, and the stub networks of routers. A node is a router, or a network by its
    prefix."""

    def __init__(self):
        self.costs, self.stubs, self.both = {}, {}, set()


def mask_of(lsa):
    """The mask of a network-LSA (RFC 2328, section A.4.3)."""
    return int.from_bytes(lsa[20:24], "big")


def network_names(found):
    """By the address of a Designated Router, the name of its network: the prefix that a network-LSA
    gives, flushed or not. After another router became the Designated Router there are two addresses
    of one network, and one name."""
    prefixes = {
        (int.from_bytes(lsa[4:8], "big") & mask_of(lsa), mask_of(lsa))
        for lsa in found
        if lsa[3] == lsas.NETWORK
    }

    def name(address):
        number = int.from_bytes(address, "big")
        for network, mask in sorted(prefixes, key=lambda it: -it[1]):
            if number & mask == network:
                return (
                    f"network {socket.inet_ntoa(struct.pack('>I', network))}/{bin(mask).count('1')}"
                )
        return f"network {socket.inet_ntoa(address)}"

    return name


def attached_of(living):
    """Each pair of a network, by the address of its Designated Router, and a router that its
    network-LSA lists."""
    return {
        (lsa[4:8], lsa[at : at + 4])
        for lsa in living
        if lsa[3] == lsas.NETWORK
        for at in range(24, len(lsa), 4)
    }


def area_of(found, stopped):
    """What LSAs join, but those that are flushed and those of routers that are stopped: router to
    router or to a network."""
    area, name = Area(), network_names(found)
    living = [
        lsa
        for lsa in found
        if lsas.age_of(lsa) < lsas.MAX_AGE and socket.inet_ntoa(lsa[8:12]) not in stopped
    ]
    attached = attached_of(living)
    for lsa in living:
        if lsa[3] != lsas.ROUTER:
            continue
        router, links = socket.inet_ntoa(lsa[8:12]), links_of(lsa)
        if links is None:
            lsas.tell(f"left out: a router-LSA of {router} that is too short for its links")
        for to, data, kind, _, metric in links or []:
            if kind in (POINT_TO_POINT, TRANSIT):
                node = name(to) if kind == TRANSIT else socket.inet_ntoa(to)
                area.costs.setdefault((router, node), []).append(metric)
                if kind == TRANSIT and (to, lsa[8:12]) in attached:
                    area.both.add((router, node))
            elif kind == STUB:
                ones = bin(int.from_bytes(data, "big")).count("1")
                area.stubs.setdefault(router, []).append(
                    f"{socket.inet_ntoa(to)}/{ones} cost {metric}"
                )
    area.both |= {pair for pair in area.costs if pair[::-1] in area.costs}
    return area


def area_of_changes(changes, stopped):
    """Whom a router that runs is Full with at the end; there are no costs."""
    full, area = {}, Area()
    for change in changes:
        if change.neighbour:
            full[change.router, change.neighbour[2]] = change.neighbour[4] == "Full"
    area.costs = {pair: [] for pair, is_full in full.items() if is_full and not stopped & set(pair)}
    area.both = {pair for pair in area.costs if pair[::-1] in area.costs}
    return area
