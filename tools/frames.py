"""IP packets of protocol 89, their fragments, and ARP, as bytes: what `tools/bridge` reads and
makes, without a socket."""
import collections
import socket
import struct

OSPF, IP, ARP = 89, 0x0800, 0x0806
IP_HEADER = 20
# Precedence Internetwork Control, and one hop, as RFC 2328 has them in sections 4.3 and A.1.
SERVICE, LIFE = 0xC0, 1
MORE, OFFSET, UNIT = 0x2000, 0x1FFF, 8
# AllSPFRouters and AllDRouters, each with its Ethernet address (RFC 1112, section 6.4).
GROUPS = {
    socket.inet_aton(f"224.0.0.{last}"): bytes((0x01, 0x00, 0x5E, 0, 0, last)) for last in (5, 6)
}
BROADCAST = b"\xff" * 6
# A datagram of a router is a source, a destination and a packet, of at most so many bytes.
ADDRESSES, LONGEST = 8, 16384
DESCRIPTION, MTU_AT = 2, 24
ETHERNET_ADDRESSES = struct.Struct(">HHBBH6s4s6s4s")
QUESTION, ANSWER = 1, 2

Ip = collections.namedtuple("Ip", "source destination identifier offset more body")


class Dropped(Exception):
    """What came is dropped; the text is the name of a counter, after a number."""


def ones_sum(data):
    """The ones' complement sum of 16-bit words, a zero byte behind an odd one (RFC 1071)."""
    total = sum(struct.unpack(f">{(len(data) + 1) // 2}H", data + bytes(len(data) % 2)))
    while total > 0xFFFF:
        total = (total & 0xFFFF) + (total >> 16)
    return total


def read_ip(data):
    """The IP packet, or the fragment of one, at the front of what a device received; Ethernet may
    have filled it up behind."""
    if len(data) < IP_HEADER:
        raise Dropped("packets shorter than an IP header")
    if data[0] >> 4 != 4:
        raise Dropped("packets of another IP version")
    size = (data[0] & 15) * 4
    total, identifier, place = struct.unpack_from(">HHH", data, 2)
    if size < IP_HEADER:
        raise Dropped("packets with a header length below 20 bytes")
    if not size <= total <= len(data):
        raise Dropped("packets with a wrong total length")
    if ones_sum(data[:size]) != 0xFFFF:
        raise Dropped("packets with a wrong header checksum")
    if data[9] != OSPF:
        raise Dropped("packets of another protocol")
    return Ip(
        bytes(data[12:16]),
        bytes(data[16:20]),
        identifier,
        (place & OFFSET) * UNIT,
        bool(place & MORE),
        bytes(data[size:total]),
    )


def ip_packet(ip):
    """An IP packet, or a fragment of one, as a router sends it."""
    place = ip.offset // UNIT | (MORE if ip.more else 0)
    head = (
        struct.pack(
            ">BBHHHBBH",
            0x45,
            SERVICE,
            IP_HEADER + len(ip.body),
            ip.identifier,
            place,
            LIFE,
            OSPF,
            0,
        )
        + ip.source
        + ip.destination
    )
    return head[:10] + struct.pack(">H", ~ones_sum(head) & 0xFFFF) + head[12:] + ip.body


def fragments_of(ip, mtu):
    """The IP packets that carry a whole one over a device of this MTU (RFC 791, section 3.2)."""
    if IP_HEADER + len(ip.body) <= mtu:
        return [ip_packet(ip)]
    room = (mtu - IP_HEADER) // UNIT * UNIT
    if room <= 0:
        raise Dropped("packets for a device with too small an MTU")
    cuts = range(0, len(ip.body), room)
    return [
        ip_packet(
            ip._replace(offset=at, more=at + room < len(ip.body), body=ip.body[at : at + room])
        )
        for at in cuts
    ]


class Part:
    """The fragments of one IP packet that came so far, by their offsets; none overlaps another."""

    def __init__(self, began):
        self.began, self.pieces, self.bytes, self.end = began, {}, 0, None

    def fits(self, ip):
        """Whether a fragment overlaps none that came, lies before the end, where that is known, and
        is no second last one."""
        end = ip.offset + len(ip.body)
        apart = all(end <= at or at + len(body) <= ip.offset for at, body in self.pieces.items())
        last = max((at + len(body) for at, body in self.pieces.items()), default=0)
        if ip.more:
            return apart and (self.end is None or end <= self.end)
        return apart and self.end is None and last <= end

    def put(self, ip):
        self.pieces[ip.offset] = ip.body
        self.bytes += len(ip.body)
        if not ip.more:
            self.end = ip.offset + len(ip.body)

    def whole(self):
        """The body, once nothing is missing."""
        return (
            b"".join(self.pieces[at] for at in sorted(self.pieces))
            if self.bytes == self.end
            else None
        )


class Fragments:
    """IP packets of which fragments came, within limits: of seconds, of packets, of bytes in all
    and of pieces of one."""

    SECONDS, PACKETS, BYTES, PIECES = 30, 64, 1 << 20, 512

    def __init__(self):
        self.parts, self.bytes, self.lost = {}, 0, 0

    def take_out(self, key):
        part = self.parts.pop(key)
        self.bytes -= part.bytes
        return part

    def forget(self, now, key, room):
        """Makes room for a fragment: packets that wait for too long are given up, and the oldest
        others where they are too large, or one too many for a new one."""
        for other, part in list(self.parts.items()):
            is_too_much = (
                self.bytes + room > self.BYTES
                or key not in self.parts
                and len(self.parts) >= self.PACKETS
            )
            if now - part.began >= self.SECONDS or other != key and is_too_much:
                self.take_out(other)
                self.lost += 1

    def add(self, ip, now):
        """The body of the packet that this fragment makes whole; None where some are missing
        yet."""
        if not ip.body or (ip.more and len(ip.body) % UNIT):
            raise Dropped("fragments with an impossible length")
        if ip.offset + len(ip.body) > LONGEST:
            raise Dropped("packets longer than a router sends")
        key = ip.source, ip.destination, ip.identifier
        self.forget(now, key, len(ip.body))
        part = self.parts.setdefault(key, Part(now))
        if part.pieces.get(ip.offset) == ip.body:
            return None
        if not part.fits(ip) or len(part.pieces) == self.PIECES:
            self.take_out(key)
            raise Dropped("packets whose fragments do not fit together")
        part.put(ip)
        self.bytes += len(ip.body)
        body = part.whole()
        if body is not None:
            self.take_out(key)
        return body


def arp(kind, mac, address, to_mac, to_address):
    """An ARP packet for IP over Ethernet (RFC 826)."""
    return ETHERNET_ADDRESSES.pack(1, IP, 6, 4, kind, mac, address, to_mac, to_address)


class Link:
    """An interface of a router and the device that it is joined to, without their sockets: what is
    handed on, and what is counted."""

    NEIGHBOURS = 1024

    def __init__(self, address=None, mtu=None):
        # What is known of the router's interface: from its configuration, else from what it sends.
        self.address, self.mtu = address, mtu
        self.neighbours, self.asked = collections.OrderedDict(), set()
        self.fragments, self.identifier = Fragments(), 0
        self.done, self.left = collections.Counter(), collections.Counter()

    def leave(self, reason, count=1):
        self.left[reason] += count

    def know(self, address, mac):
        """Keeps a neighbour's Ethernet address; of too many the one goes that was silent for
        longest."""
        self.neighbours[address] = mac
        self.neighbours.move_to_end(address)
        if len(self.neighbours) > self.NEIGHBOURS:
            self.neighbours.popitem(last=False)

    def datagram_of(self, data, mac, now):
        """The datagram for the router of what the device received from an Ethernet address; None
        where there is none."""
        try:
            ip = read_ip(data)
            if ip.destination not in (*GROUPS, self.address):
                raise Dropped("packets for other addresses")
            self.know(ip.source, mac)
            body = ip.body
            if ip.more or ip.offset:
                self.done["fragments in"] += 1
                body = self.fragments.add(ip, now)
            if body is None:
                return None
            if len(body) > LONGEST:
                raise Dropped("packets longer than a router sends")
        except Dropped as why:
            self.leave(str(why))
            return None
        self.done["packets in"] += 1
        return ip.source + ip.destination + body

    def packets_of(self, datagram, mac, mtu):
        """What the device is to send of a datagram of the router: each with the Ethernet address it
        is for and its kind."""
        try:
            if not ADDRESSES <= len(datagram) <= ADDRESSES + LONGEST:
                raise Dropped("datagrams of the router that are not OSPF packets")
            source, destination, body = datagram[:4], datagram[4:8], datagram[8:]
            self.address = source
            if body[1:2] == bytes([DESCRIPTION]) and len(body) >= MTU_AT + 2:
                self.mtu = struct.unpack_from(">H", body, MTU_AT)[0]
            to = GROUPS.get(destination) or self.neighbours.get(destination)
            if to is None and destination[0] < 224:
                self.asked.add(destination)
                self.leave("packets of the router for a neighbor with an unknown Ethernet address")
                return [(BROADCAST, ARP, arp(QUESTION, mac, source, bytes(6), destination))]
            if to is None:
                raise Dropped("packets of the router for an address that OSPF does not use")
            self.identifier = (self.identifier + 1) & 0xFFFF
            made = fragments_of(Ip(source, destination, self.identifier, 0, False, body), mtu)
        except Dropped as why:
            self.leave(str(why))
            return []
        self.done["packets out"] += 1
        self.done["fragments out"] += len(made) if len(made) > 1 else 0
        return [(to, IP, packet) for packet in made]

    def answer_of(self, data, mac):
        """What the device is to answer to an ARP packet: where the router's address is asked for,
        its own Ethernet address."""
        if len(data) < ETHERNET_ADDRESSES.size:
            return []
        *kinds, kind, sender, address, _, target = ETHERNET_ADDRESSES.unpack_from(data)
        if kinds != [1, IP, 6, 4] or sender == mac:
            return []
        if kind == ANSWER and address in self.asked:
            self.asked.discard(address)
            self.know(address, sender)
        if kind != QUESTION or target != self.address:
            return []
        self.done["ARP answers"] += 1
        return [(sender, ARP, arp(ANSWER, mac, target, sender, address))]

    def lines(self, name):
        """What was counted, for the reader."""
        done = self.done
        ways = [
            f"{way} {done[f'packets {way}']} packets ({done[f'fragments {way}']} fragments)"
            for way in ("in", "out")
        ]
        yield f"{name}: {', '.join(ways)}, {done['ARP answers']} ARP answers"
        if self.fragments.lost + len(self.fragments.parts):
            yield (
                f"  left out: {self.fragments.lost + len(self.fragments.parts)} "
                "packets with missing fragments"
            )
        for reason, count in sorted(self.left.items()):
            yield f"  left out: {count} {reason}"
