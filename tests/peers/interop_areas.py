"""Areas of routers of ours, FRR and BIRD of tests/peers/interop, and what it does in them."""
import time

import lab
from lab import Bird, Frr, Ours

KINDS = {"frr": Frr, "bird": Bird}
SECONDS_OF_AN_ELECTION = lab.DEAD + 3


def routers(area, *kinds):
    """Our router and one of each kind, each with a network behind it."""
    ours = area.add(Ours, "p", "1.1.1.1")
    others = [
        area.add(KINDS[kind], f"r{place}", ".".join(4 * [str(place + 2)]))
        for place, kind in enumerate(kinds)
    ]
    for place, one in enumerate([ours, *others]):
        one.stubs = [f"192.168.{place + 1}.1/24"]
    return ours, others


def states_of(ours, others, state):
    """Our router in one state at all the others, as `Lab.judge` has it."""
    return {(other.name, ours.router): state for other in others}


def lines(area, *kinds, mtu=1500, stubs=(), length=30):
    """Our router point-to-point with each of the others, all of which run but ours; and how they
    are to see it."""
    ours, others = routers(area, *kinds)
    for place, count in enumerate(stubs):
        others[place].stubs = [
            f"172.{16 + 2 * place + number // 256}.{number % 256}.1/24" for number in range(count)
        ]
    for place, one in enumerate([ours, *others] if length == 31 else []):
        one.hosts, ours.top = [f"192.0.2.{place + 1}"], "rfc3021 = true\n"
    for other in others:
        area.line(ours, other, mtu, length)
        other.start()
    ours.listen()
    ours.bridge()
    return ours, states_of(ours, others, "Full/-")


def line(area, *kinds):
    ours, states = lines(area, *kinds)
    ours.start(30)
    return area.judge(states)


def loopbacks(area, *kinds):
    """Links of two addresses (RFC 3021), and a loopback of 32 bits at each router: all have routes
    to all."""
    ours, states = lines(area, *kinds, length=31)
    ours.start(30)
    return area.judge(
        states, wanted=[f"{host}/32" for node in area.nodes.values() for host in node.hosts]
    )


def network(area, role, *kinds, has_address=False):
    """Our router on one network with two others, in a role that priorities and the order of starts
    give it."""
    ours, others = routers(area, *kinds)
    first, second = others
    priorities = {"DR": [200, 1, 1], "Backup": [100, 200, 1], "Other": [0, 1, 1]}[role]
    area.lan([ours, *others], priorities=priorities)
    if has_address:
        ours.dress()
    ours.listen()
    ours.bridge()
    before, after = {"DR": ([], others), "Backup": ([first], [second]), "Other": (others, [])}[role]
    for other in before:
        other.start()
    time.sleep(SECONDS_OF_AN_ELECTION if before else 0)
    ours.start(45)
    time.sleep(SECONDS_OF_AN_ELECTION)
    for other in after:
        other.start()
    return area.judge(states_of(ours, others, f"Full/{role}"))


def fragments(area, mtu):
    """Router-LSAs of 150 and 300 networks pass our router, in fragments."""
    ours, states = lines(area, "frr", "bird", mtu=mtu, stubs=(150, 300))
    ours.start(45)
    counts = area.judge(states)
    counted, told = ours.end_bridge()
    if counted.count("(0 fragments)") or "left out" in counted or "MTU" in told:
        area.tell(f"the bridge: {counted}{told}")
    return counts


def flaps(area):
    """Devices go down, lose their carrier, are gone, and come back, for less and for more than
    RouterDeadInterval."""
    ours, states = lines(area, "frr", "bird")
    first, second = area.real()
    ours.start(90)
    area.until(lambda: second.neighbours().get(ours.router) == "Full/-", 20)
    for node, device, seconds in [
        (ours, "e0", 0.3),
        (second, "e0", 6),
        (first, "e0", 2),
        (ours, "e1", 6),
        (ours, "e1", 1),
        (second, "e0", 0.2),
    ]:
        node.ip(f"link set {device} down")
        time.sleep(seconds)
        node.ip(f"link set {device} up")
        time.sleep(2)
    ours.ip("link set e1 mtu 1400")
    ours.ip("link del e0")
    time.sleep(3)
    ours.ip("link set e1 mtu 1500")
    ours.ip(f"link add e0 type veth peer name e0 netns {first.space}", "link set e0 up")
    first.ip("link set e0 up", f"address add {first.sides[0].address} dev e0")
    counts = area.judge(states)
    told = ours.end_bridge()[1].splitlines()
    mtus = (
        "e1: device MTU 1400, but the router has mtu = 1500: neighbors with the device's MTU may "
        "never reach Full"
    )
    for line in ("e0: down", "e0: joined", "e0: no such device: trying again each second", mtus):
        if line not in told:
            area.tell(f"the bridge did not tell {line!r}, but {told}")
    return counts
