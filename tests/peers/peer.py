"""Packets of OSPF version 2 (RFC 2328, appendix A.3), as a neighbour of a router that runs here
would send them over UDP."""
import socket
import struct

HELLO, DESCRIPTION, UPDATE = 1, 2, 4
OPTIONS = 0x02
INIT, MORE, MASTER = 4, 2, 1
AT_RANDOM = 0x1234


def number(dotted):
    return int.from_bytes(socket.inet_aton(dotted), "big")


def checksum(data):
    """The one's complement sum of 16-bit words, complemented, as of an IP header."""
    total = sum(struct.unpack(f">{len(data) // 2}H", data))
    while total >> 16:
        total = (total & 0xFFFF) + (total >> 16)
    return ~total & 0xFFFF


def packet(kind, router, body, area="0.0.0.0", authentication=0):
    """A packet of this area with this AuType, which is 0 for null authentication."""
    head = struct.pack(
        ">BBHIIHH", 2, kind, 24 + len(body), number(router), number(area), 0, authentication
    )
    summed = checksum(head + body)
    return head[:12] + struct.pack(">H", summed) + head[14:] + bytes(8) + body


def hello(router, mask, heard, interval=10, options=OPTIONS, **header_fields):
    """A Hello with the intervals of section C.3's samples, or this HelloInterval, that has heard
    these routers."""
    body = struct.pack(">IHBBIII", number(mask), interval, options, 1, 40, 0, 0)
    return packet(
        HELLO, router, body + b"".join(socket.inet_aton(one) for one in heard), **header_fields
    )


def digested(sent):
    """A packet with cryptographic authentication (appendix D.4.3): AuType 2, no checksum, and a
    digest behind it that its length does not count."""
    return sent[:12] + struct.pack(">HHHBBI", 0, 2, 0, 1, 16, 1) + sent[24:] + bytes(16)


def description(router, flags, sequence, headers=(), mtu=1500):
    body = struct.pack(">HBBI", mtu, OPTIONS, flags, sequence)
    return packet(DESCRIPTION, router, body + b"".join(headers))


def update(router, lsas):
    return packet(UPDATE, router, struct.pack(">I", len(lsas)) + b"".join(lsas))


def summed(lsa):
    """An LSA with its LS checksum, Fletcher's of all but its age (RFC 905, annex B)."""
    first = second = 0
    for byte in lsa[2:16] + bytes(2) + lsa[18:]:
        first = (first + byte) % 255
        second = (second + first) % 255
    high = ((len(lsa) - 17) * first - second) % 255 or 255
    low = (-first - high) % 255 or 255
    return lsa[:16] + bytes([high, low]) + lsa[18:]


def header(kind, link_state_id, router):
    """The header of an LSA, new, of the least length that a header allows, with some checksum."""
    return struct.pack(
        ">HBBIIIHH",
        1,
        OPTIONS,
        kind,
        number(link_state_id),
        number(router),
        0x80000001,
        AT_RANDOM,
        36,
    )


def frame(source, destination, sent):
    """A packet as it goes over UDP: behind its addresses."""
    return socket.inet_aton(source) + socket.inet_aton(destination) + sent
