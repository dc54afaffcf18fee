"""Routers beside made-up neighbours: what of their packets is dropped, counted and reported."""
import os
import socket
import struct
import tempfile
import threading
import time

import peer
from networks import free_ports, lan, two
from running import MOST_ALIKE, Run, different, wait_until_heard


def describe(run, port, mine, count, kind):
    """A neighbour of larger Router ID at this port, that describes an LSA of this LS type once an
    exchange, so often."""
    wait_until_heard(run, port)
    with socket.socket(socket.AF_INET, socket.SOCK_DGRAM) as sender:
        sender.bind(("127.0.0.1", mine))

        def send(sent):
            sender.sendto(peer.frame("10.0.0.2", "224.0.0.5", sent), ("127.0.0.1", port))
            time.sleep(0.1)

        for number in range(count):
            send(peer.hello("9.9.9.9", "255.255.255.252", ["1.1.1.1"]))
            send(peer.description("9.9.9.9", peer.INIT | peer.MORE | peer.MASTER, 70 * number))
            send(
                peer.description(
                    "9.9.9.9",
                    peer.MASTER,
                    70 * number + 1,
                    [peer.header(kind, "0.0.0.0", "8.8.8.8")],
                )
            )


def described(kind, *lines):
    ports = free_ports(3)
    text = two(ports)[0]
    run = Run(["".join(line + "\n" for line in lines) + text], "--tick", "20", "100")
    sender = threading.Thread(target=describe, args=(run, ports[0], ports[1], 3, kind))
    sender.start()
    got = run.ended()
    sender.join()
    return got[2]


def other_lsas():
    """A neighbour that describes an LSA which the router refuses is told of, once; where it passes
    such LSAs over, not."""
    told, pass_over = [], 'other_lsas = "pass over"'
    for kind, lines in ((5, []), (10, []), (10, [pass_over])):
        line = (
            f"a.toml: link 0: 9.9.9.9 describes an LSA of type {kind}: this area has what this "
            "router does not take (other_lsas)"
        )
        refused = described(kind, *lines)
        told += [] if refused == [line] else [f"refused: {refused}"]
    return told + [f"passed over: {line}" for line in described(5, pass_over)]


def sent_lsas():
    """A neighbour that sends LSAs which the router refuses is told of, once for their LS types and
    once for what they say.

    Opaque LSAs are not told of: a neighbour multicasts them where two others take them, and does
    not wait for an acknowledgment."""
    ports = free_ports(3)
    other = peer.header(5, "0.0.0.0", "8.8.8.8") + bytes(16)
    opaque = [peer.header(kind, "1.0.0.0", "8.8.8.8") + bytes(16) for kind in (9, 10, 11)]
    # A router-LSA whose one link, to another router, costs nothing.
    costless = peer.header(1, "8.8.8.8", "8.8.8.8") + struct.pack(
        ">HHIIBBH", 0, 1, peer.number("9.9.9.9"), 1, 1, 0, 0
    )
    sent = [
        peer.update("9.9.9.9", [other]),  # Not told: it is of no neighbour yet.
        peer.hello("9.9.9.9", "255.255.255.252", ["1.1.1.1"]),
        peer.update("9.9.9.9", [costless]),  # Nor is this: its checksum does not hold.
        peer.update("9.9.9.9", opaque),
        peer.update("9.9.9.9", [other]),
        peer.update("9.9.9.9", [other, peer.summed(costless)]),
        peer.description("9.9.9.9", peer.MASTER, 7, [peer.header(10, "0.0.0.0", "8.8.8.8")]),
    ]
    got = told_of(two(ports)[0], ports[:2], [("10.0.0.2", packet) for packet in sent])
    whats = [
        "sends an LSA of type 5: this area has what this router does not take (other_lsas)",
        "sends an LSA that is refused: L7 ZeroMetric: it is never acknowledged",
    ]
    return [] if got == [f"a.toml: link 0: 9.9.9.9 {what}" for what in whats] else [f"told: {got}"]


def send_twice(run, port, mine, sent, pause):
    """To this port, what comes from these addresses: each packet twice."""
    wait_until_heard(run, port)
    with socket.socket(socket.AF_INET, socket.SOCK_DGRAM) as sender:
        sender.bind(("127.0.0.1", mine))
        for source, packet in [*sent, *sent]:
            sender.sendto(peer.frame(source, "224.0.0.5", packet), ("127.0.0.1", port))
            time.sleep(pause)


def told_of(text, ports, sent, pause=0.1):
    """What a run of this router tells of such packets."""
    run = Run([text], "--tick", "20", "200")
    sender = threading.Thread(target=send_twice, args=(run, *ports, sent, pause))
    sender.start()
    got = run.ended()
    sender.join()
    return got[2]


def misfits():
    """What is dropped for how a router or its neighbour is set is reported once in 600 ticks, with
    what does not fit."""
    mask, ports = "255.255.255.252", free_ports(3)
    whys = {
        "R6 HelloMismatch: HelloInterval 5 there, 10 here": peer.hello(
            "9.9.9.9", mask, [], interval=5
        ),
        "R2 Area: area 0.0.0.1 there, 0.0.0.0 here": peer.hello(
            "9.9.9.9", mask, [], area="0.0.0.1"
        ),
        "R1 Packet: simple password authentication there, none here": peer.hello(
            "9.9.9.9", mask, [], authentication=1
        ),
        "R1 Packet: cryptographic authentication there, none here": peer.digested(
            peer.hello("9.9.9.9", mask, [])
        ),
        "R1 Packet: P6 Auth": peer.hello("9.9.9.9", mask, [], authentication=7),
        "R6 HelloMismatch: NSSA there, normal area here: Options 8 there, 2 here": peer.hello(
            "9.9.9.9", mask, [], options=8
        ),
        "R6 HelloMismatch: stub area there, normal area here: Options 0 there, 2 here": peer.hello(
            "9.9.9.9", mask, [], options=0
        ),
        "R3 OwnPacket": peer.hello("1.1.1.1", mask, []),
        # Not told: it is no Hello, and of no neighbour yet.
        "": peer.description("9.9.9.9", peer.INIT | peer.MORE | peer.MASTER, 7),
        "R9 State: MTU 9000 there, 1500 here": peer.description(
            "9.9.9.9", peer.INIT | peer.MORE | peer.MASTER, 7, mtu=9000
        ),
    }
    greeting = ("10.0.0.2", peer.hello("9.9.9.9", mask, ["1.1.1.1"]))
    sent = [("10.0.0.2", packet) for packet in whys.values()]
    got = told_of(two(ports)[0], ports[:2], [*sent[:-1], greeting, sent[-1]])
    told = [f"a.toml: link 0: what 10.0.0.2 sends is dropped: {why}" for why in whys if why]
    faults = [] if got == told else [f"told: {got}"]
    mask = "255.255.255.0"
    sent = [
        ("10.1.9.2", peer.hello("9.9.9.9", mask, [])),
        ("10.1.0.2", peer.hello("9.9.9.9", "255.255.0.0", [])),
    ]
    got = told_of(lan(ports)[0], ports[:2], sent)
    told = [
        "a.toml: link 0: what 10.1.9.2 sends is dropped: R5 Subnet",
        "a.toml: link 0: what 10.1.0.2 sends is dropped: R6 HelloMismatch: mask 255.255.0.0 "
        "there, 255.255.255.0 here",
    ]
    return faults + ([] if got == told else [f"told on a broadcast network: {got}"])


def beside_junk():
    """Junk of many made-up senders leaves room for the report of a neighbour that is set
    otherwise."""
    mask, ports = "255.255.255.252", free_ports(3)
    junk = [(f"172.16.0.{number + 1}", bytes(24)) for number in range(70)]
    sent = [*junk, ("10.0.0.2", peer.hello("9.9.9.9", mask, [], interval=5))]
    got = told_of(two(ports)[0], ports[:2], sent, 0.005)
    told = [
        f"a.toml: link 0: what {source} sends is dropped: R1 Packet: P2 Version"
        for source, _ in junk[:MOST_ALIKE]
    ]
    told.append(
        "a.toml: link 0: what 10.0.0.2 sends is dropped: R6 HelloMismatch: HelloInterval 5 there, "
        "10 here"
    )
    return [] if got == told else [f"told: {got}"]


def send_drops(run, port, mine):
    """Seven datagrams that are no packets, and three Hellos of the router's own Router ID."""
    wait_until_heard(run, port)
    with socket.socket(socket.AF_INET, socket.SOCK_DGRAM) as sender:
        sender.bind(("127.0.0.1", mine))
        for sent in 7 * [b"junk"] + 3 * [peer.hello("1.1.1.1", "255.255.255.252", [])]:
            sender.sendto(peer.frame("10.0.0.2", "224.0.0.5", sent), ("127.0.0.1", port))
            time.sleep(0.02)


def drops():
    """What was dropped is counted by link and cause, and each has a line in the journal; a router
    that dropped nothing has none."""
    ports = free_ports(3)
    with tempfile.TemporaryDirectory() as place:
        name = os.path.join(place, "area.log")
        run = Run(two(ports)[:1], "--tick", "20", "--drops", "--log", name, "100")
        sender = threading.Thread(target=send_drops, args=(run, ports[0], ports[1]))
        sender.start()
        got = run.ended()
        sender.join()
        with open(name, encoding="ascii") as file:
            lines = [
                line.split(" ", 1)[1] for line in file.read().splitlines() if " dropped " in line
            ]
    out = [
        "router 1.1.1.1",
        "10.0.0.0/30 10 attached",
        "drops 0 R1 Packet 7",
        "drops 0 R3 OwnPacket 3",
    ]
    causes = [
        f"a.toml: link 0: what 10.0.0.2 sends is dropped: {why}"
        for why in ("R1 Packet: P1 Short", "R3 OwnPacket")
    ]
    told = different(got, 0, out, causes) + different(
        Run(two(ports)[:1], "--tick", "20", "--drops", "5").ended(), 0, out[:2]
    )
    wanted = 7 * ["1.1.1.1 link 0 dropped R1 Packet 10.0.0.2"] + 3 * [
        "1.1.1.1 link 0 dropped R3 OwnPacket 10.0.0.2"
    ]
    return told + ([] if lines == wanted else [f"noted: {lines}"])


TESTS = [other_lsas, sent_lsas, misfits, beside_junk, drops]
