"""OSPF packets of a capture, with their times and addresses, and what each of them says."""
import collections
import socket
import struct

import captured
import lsas

HEADER = 24
HELLO, DESCRIPTION, REQUEST, UPDATE, ACKNOWLEDGE = 1, 2, 3, 4, 5
KINDS = {HELLO: "Hello", DESCRIPTION: "DD", REQUEST: "LS Request", UPDATE: "LS Update",
         ACKNOWLEDGE: "LS Ack"}
TYPES = {1: "router", 2: "network", 3: "summary", 4: "ASBR-summary", 5: "AS-external", 7: "NSSA",
         9: "opaque link", 10: "opaque area", 11: "opaque AS"}
FLAGS = ((4, "I"), (2, "M"), (1, "MS"))
NOBODY = bytes(4)

# Of an LSA header: its key (type, Link State ID, Advertising Router), age, number and checksum.
Lsa = collections.namedtuple("Lsa", "key age number sum")


def dotted(address):
    return socket.inet_ntoa(address)


class Packet:
    """A packet, the time it was captured in nanoseconds, and its addresses; None if not known."""

    def __init__(self, time, source, to, body):
        self.time, self.source, self.to, self.body = time, source, to, body
        self.kind, self.router = body[1], dotted(body[4:8])
        self.length = min(struct.unpack_from(">H", body, 2)[0], len(body))
        self.content = body[HEADER:self.length]

    def is_whole(self):
        """Whether all is there that its kind has before its lists."""
        least = {HELLO: 20, DESCRIPTION: 8, REQUEST: 0, UPDATE: 4, ACKNOWLEDGE: 0}
        return self.body[0] == 2 and len(self.content) >= least.get(self.kind, 1 << 16)

    def flags(self):
        """The flags of a Database Description."""
        return [name for bit, name in FLAGS if self.content[3] & bit]

    def number(self):
        """The sequence number of a Database Description."""
        return struct.unpack_from(">I", self.content, 4)[0]

    def neighbours(self):
        """The routers that a Hello has seen."""
        return [dotted(self.content[at:at + 4]) for at in range(20, len(self.content) - 3, 4)]

    def requests(self):
        """The keys of the LSAs that are asked for."""
        for at in range(0, len(self.content) - 11, 12):
            kind, state_id, router = struct.unpack_from(">I4s4s", self.content, at)
            yield kind, state_id, router

    def lsas(self):
        """The LSAs of a packet, by their headers."""
        at = {DESCRIPTION: 8, UPDATE: 4, ACKNOWLEDGE: 0}.get(self.kind, len(self.content))
        while at + lsas.HEADER <= len(self.content):
            header = self.content[at:at + lsas.HEADER]
            key = header[3], header[4:8], header[8:12]
            yield Lsa(key, lsas.age_of(header), header[12:16].hex(), header[16:18].hex())
            size = struct.unpack_from(">H", header, 18)[0] if self.kind == UPDATE else lsas.HEADER
            at += max(size, lsas.HEADER)


def name_of(key, named):
    """What an LSA is called: its type and Link State ID, and its router where that is another."""
    kind, state_id, router = key
    title = f"{TYPES.get(kind, f'type {kind}')}-LSA {dotted(state_id)}"
    name = named(dotted(router))
    if state_id != router:
        return f"{title} by {name}"
    return title if name == dotted(router) else f"{title} ({name})"


def spelled(lsa, named):
    """An LSA in words."""
    age = "MaxAge: flushed" if lsa.age >= lsas.MAX_AGE else f"age {lsa.age}"
    return f"{name_of(lsa.key, named)}, {age}, number {lsa.number}"


def headline(packet, named):
    """What a packet says before its lists."""
    if packet.kind == HELLO:
        first, second = packet.content[12:16], packet.content[16:20]
        seen = ", ".join(map(named, packet.neighbours())) or "nobody"
        roles = [f"{role} {dotted(it)}" for role, it in (("DR", first), ("BDR", second))
                 if it != NOBODY]
        return ", ".join([*roles, f"priority {packet.content[7]}", f"sees {seen}"])
    if packet.kind == DESCRIPTION:
        flags = " ".join(packet.flags()) or "none"
        return f"flags {flags}, sequence number {packet.number()}"
    return ""


def listed(packet, named):
    """What a packet lists, each in words."""
    if packet.kind == REQUEST:
        return [name_of(key, named) for key in packet.requests()]
    return [spelled(lsa, named) for lsa in packet.lsas()]


def addresses_of(ip):
    return ip[12:16], ip[16:20]


def of_text(data, found):
    """The packets of a text: the last word of a line, after two addresses if there are any."""
    for line in data.lines():
        words = line.split()
        if not words or words[0].startswith("#"):
            continue
        try:
            source, to = map(socket.inet_aton, words[-3:-1])
        except (OSError, ValueError):
            source = to = None
        try:
            yield None, source, to, bytes.fromhex(words[-1])
        except ValueError:
            found.leave("lines that are not hexadecimal")


def of_frames(data, found):
    """The packets of pcap or pcapng."""
    is_new = data.peek(4) == captured.PCAPNG
    kinds, unknown = set(), set()
    frames = captured.frames_of_pcapng if is_new else captured.frames_of_pcap
    for kind, time, frame in frames(data, found, kinds):
        if kind not in captured.KNOWN:
            found.leave(f"packets with unknown link type {kind}")
            unknown.add(kind)
            continue
        ip = captured.ip_of_frame(kind, frame)
        body = captured.ospf_of_ip(ip, found)
        if body is not None:
            yield (time, *addresses_of(ip), body)
    if unknown and not kinds & captured.KNOWN:
        captured.refuse_types(data.name, unknown)


def packets_of(name):
    """The OSPF packets of a capture in their order, and what was left out, counted by reason."""
    found, packets = lsas.Found(), []
    data = captured.opened(name)
    read = of_frames if data.peek(4) in (*captured.PCAP, captured.PCAPNG) else of_text
    for time, source, to, body in read(data, found):
        packet = Packet(time, source, to, body) if len(body) >= HEADER else None
        if packet is None or not packet.is_whole():
            found.leave("packets that are not OSPF version 2, or truncated")
        else:
            packets.append(packet)
    return packets, found.left
