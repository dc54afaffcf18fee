"""What tools/bridge does with IP packets and frames, by hand and by chance: tests/peers/bridge."""
import random
import socket
import struct

import frames
import peer
from bridge_packets import (
    ALL_ROUTERS,
    MAC,
    NOBODY,
    OTHER,
    OTHER_MAC,
    OURS,
    WRITTEN,
    changed,
    equal,
    ip,
    left_of,
    new_link,
    packet,
    with_sum,
)


def sums():
    told = equal("RFC 1071, section 3", frames.ones_sum(bytes.fromhex("0001f203f4f5f6f7")), 0xDDF2)
    told += equal("a header with its sum", frames.ones_sum(WRITTEN), 0xFFFF)
    told += equal(
        "a header without", ~frames.ones_sum(WRITTEN[:10] + WRITTEN[12:]) & 0xFFFF, 0xB861
    )
    return told + equal("an odd byte", frames.ones_sum(b"\x01"), 0x0100)


def written():
    """What goes out, byte for byte."""
    # 45c0 + 001c + 0007 + 0000 + 0159 + 0a00 + 0002 + e000 + 0005 are 13143, so 3144, and what is
    # left to ffff is cebb.
    wanted = bytes.fromhex("45c0 001c 0007 0000 0159 cebb 0a000002 e0000005") + b"12345678"
    return equal("a packet", frames.ip_packet(ip(b"12345678")), wanted)


def handed_on():
    link = new_link()
    told = equal(
        "to all", link.datagram_of(packet(), OTHER_MAC, 0.0), OTHER + ALL_ROUTERS + b"x" * 24
    )
    told += equal(
        "to us, filled up",
        link.datagram_of(packet(destination=OURS) + bytes(18), OTHER_MAC, 0.0),
        OTHER + OURS + b"x" * 24,
    )
    options = b"\x46" + packet()[1:20] + bytes.fromhex("94040000") + b"y" * 20
    options = options[:10] + b"\0\0" + options[12:]
    options = (
        options[:10] + struct.pack(">H", ~frames.ones_sum(options[:24]) & 0xFFFF) + options[12:]
    )
    told += equal(
        "with options", link.datagram_of(options, OTHER_MAC, 0.0), OTHER + ALL_ROUTERS + b"y" * 20
    )
    return (
        told
        + equal("counted", link.done["packets in"], 3)
        + equal("known", dict(link.neighbours), {OTHER: OTHER_MAC})
    )


def left_out():
    wanted = {
        "packets shorter than an IP header": packet()[:19],
        "packets of another IP version": changed(0, 0x65),
        "packets with a header length below 20 bytes": changed(0, 0x44),
        "packets with a wrong total length": changed(2, 0, 45),
        "packets with a wrong header checksum": packet()[:8] + b"\xff" + packet()[9:],
        "packets of another protocol": changed(9, 17),
        "packets for other addresses": packet(destination=OTHER),
        "packets longer than a router sends": packet(body=bytes(16385)),
    }
    told = []
    for reason, data in wanted.items():
        told += equal(reason, left_of(new_link(), data), reason)
    told += equal(
        "a length below the header's",
        left_of(new_link(), changed(2, 0, 19)),
        "packets with a wrong total length",
    )
    told += equal("nothing", left_of(new_link(), b""), "packets shorter than an IP header")
    return told + equal(
        "the longest",
        left_of(new_link(), packet(body=bytes(16384))),
        OTHER + ALL_ROUTERS + bytes(16384),
    )


def sent():
    link, told = frames.Link(), []
    hello = peer.hello("1.1.1.1", "255.255.255.0", [])
    for last in (5, 6):
        group = socket.inet_aton(f"224.0.0.{last}")
        [(mac, kind, made)] = link.packets_of(OURS + group + hello, MAC, 1500)
        told += equal(
            "a group",
            (mac, kind, frames.read_ip(made)),
            (
                bytes.fromhex(f"01005e00000{last}"),
                0x0800,
                frames.Ip(OURS, group, last - 4, 0, False, hello),
            ),
        )
    told += equal("the router's address", link.address, OURS)
    question = struct.pack(">HHBBH6s4s6s4s", 1, 0x0800, 6, 4, 1, MAC, OURS, NOBODY, OTHER)
    told += equal(
        "an unknown neighbour",
        link.packets_of(OURS + OTHER + hello, MAC, 1500),
        [(b"\xff" * 6, 0x0806, question)],
    )
    answer = struct.pack(">HHBBH6s4s6s4s", 1, 0x0800, 6, 4, 2, OTHER_MAC, OTHER, MAC, OURS)
    told += equal("its answer", link.answer_of(answer, MAC), []) + equal(
        "a known one", link.packets_of(OURS + OTHER + hello, MAC, 1500)[0][0], OTHER_MAC
    )
    for reason, datagram in {
        "datagrams of the router that are not OSPF packets": bytes(7),
        "packets of the router for an address that OSPF does not use": OURS
        + socket.inet_aton("224.0.0.9")
        + hello,
    }.items():
        told += equal(reason, (link.packets_of(datagram, MAC, 1500), link.left[reason]), ([], 1))
    told += equal("too long", link.packets_of(bytes(8 + 16385), MAC, 1500), [])
    made = [one for _, _, one in link.packets_of(OURS + ALL_ROUTERS + bytes(4000), MAC, 1500)]
    told += equal("in fragments", [len(one) for one in made], [1500, 1500, 1060]) + equal(
        "counted", link.done["fragments out"], 3
    )
    return told + equal("no room", link.packets_of(OURS + ALL_ROUTERS + bytes(400), MAC, 27), [])


def mtu_of_descriptions():
    link = frames.Link(OURS, 1500)
    head = struct.pack(">HBBI", 1400, 2, 7, 1)
    link.packets_of(OURS + ALL_ROUTERS + peer.packet(peer.DESCRIPTION, "1.1.1.1", head), MAC, 1500)
    return equal("the router's MTU", link.mtu, 1400)


def arp():
    def question(target, kind=1, sender=OTHER_MAC, form=0x0800):
        return struct.pack(">HHBBH6s4s6s4s", 1, form, 6, 4, kind, sender, OTHER, NOBODY, target)

    answer = struct.pack(">HHBBH6s4s6s4s", 1, 0x0800, 6, 4, 2, MAC, OURS, OTHER_MAC, OTHER)
    told = equal(
        "for the router",
        new_link().answer_of(question(OURS) + bytes(18), MAC),
        [(OTHER_MAC, 0x0806, answer)],
    )
    told += equal("for others", new_link().answer_of(question(OTHER), MAC), [])
    told += equal("before the router spoke", frames.Link().answer_of(question(OURS), MAC), [])
    told += equal("of its own", new_link().answer_of(question(OURS, sender=MAC), MAC), [])
    told += equal("not for IP", new_link().answer_of(question(OURS, form=0x86DD), MAC), [])
    told += equal("cut short", new_link().answer_of(question(OURS)[:27], MAC), [])
    link = new_link()
    link.answer_of(question(OURS, kind=2), MAC)
    return told + equal("an answer that nobody asked for", dict(link.neighbours), {})


def hostile(chance):
    """A frame by chance: noise, or a packet or fragment of which some bytes are changed, mostly
    with a right sum."""
    if chance.random() < 0.1:
        return chance.randbytes(chance.randint(0, 100))
    body = chance.randbytes(chance.choice([0, 1, 8, 24, 64, 1480]))
    source, destination = chance.choice([OTHER, OURS, chance.randbytes(4)]), chance.choice(
        [ALL_ROUTERS, OURS]
    )
    place = {
        "identifier": chance.randrange(4),
        "offset": 8 * chance.choice([0, 1, 3, 8, 185, 2046, 8191]),
        "more": chance.random() < 0.6,
    }
    made = bytearray(packet(body=body, source=source, destination=destination, **place))
    for _ in range(chance.choice([0, 0, 1, 3])):
        made[chance.randrange(len(made))] = chance.randrange(256)
    made = with_sum(bytes(made)) if chance.random() < 0.9 else bytes(made)
    return made[: chance.randint(0, len(made))] if chance.random() < 0.1 else made


def by_chance():
    """Nothing that comes in stops it, and what it keeps stays within its limits."""
    chance, link, told = random.Random(7), new_link(), []
    for number in range(20_000):
        data = hostile(chance)
        got = link.datagram_of(data, chance.randbytes(6), number / 100)
        if got is not None and not 8 <= len(got) <= 8 + 16384:
            told.append(f"handed on: {len(got)} bytes of {data.hex()}")
        link.answer_of(chance.randbytes(chance.randint(0, 60)), MAC)
        mtu = chance.choice([0, 19, 20, 27, 28, 68, 1500])
        for _, kind, made in link.packets_of(
            chance.choice([OURS + ALL_ROUTERS, OURS + OTHER, chance.randbytes(8)]) + data, MAC, mtu
        ):
            told += (
                [f"{len(made)} bytes over {mtu}"] if kind == frames.IP and len(made) > mtu else []
            )
        kept = sum(part.bytes for part in link.fragments.parts.values())
        if (
            kept != link.fragments.bytes
            or kept > link.fragments.BYTES
            or len(link.fragments.parts) > link.fragments.PACKETS
            or len(link.neighbours) > link.NEIGHBOURS
        ):
            told.append(
                f"kept: {kept} bytes in {len(link.fragments.parts)} packets, {link.fragments.bytes}"
                f" counted, {len(link.neighbours)} neighbours"
            )
    return told[:4] + (
        []
        if link.done["packets in"] and link.fragments.lost
        else [f"nothing passed: {list(link.lines('x'))}"]
    )
