"""LSAs, packets, and the forms of files that captures have: what the tests of captures write."""
import itertools
import struct

# Router-LSAs of 1.1.1.1 without links: their ages and all else. Each has its checksum, worked out
# by hand (RFC 905, annex B): of the sums C0 = 164 and C1 = 1862 without it, 22 bytes with the 15th
# and 16th at zero, come 7 * 164 - 1862 = 51 and -164 - 51 = 40, modulo 255. An age of one second
# with the bit DoNotAge.
UNAGED = 0x8001
AGES = {
    UNAGED: "8001",
    1: "0001",
    51: "0033",
    900: "0384",
    901: "0385",
    902: "0386",
    951: "03b7",
    3599: "0e0f",
    3600: "0e10",
}
BODIES = {
    "first": "0201 01010101 01010101 80000001 3328 0018 00000000",
    "second": "0201 01010101 01010101 80000002 3129 0018 00000000",
    "greatest": "0201 01010101 01010101 7fffffff 3a23 0018 00000000",
    "before greatest": "0201 01010101 01010101 7ffffffe 3c22 0018 00000000",
    "first, other options": "0601 01010101 01010101 80000001 f660 0018 00000000",
    "wrong sum": "0201 01010101 01010101 80000003 3329 0018 00000000",
    "no sum": "0201 01010101 01010101 80000003 0000 0018 00000000",
}
# Of instances with the times of their packets, in this order, the one that is kept: what the
# databases hold at the end.
LIVING, FLUSHED = (100, "second", 1), (200, "second", 3600)


def ip(source, destination, packet, options=b"", place=0):
    ends = b"".join(
        bytes(int(part) for part in address.split(".")) for address in (source, destination)
    )
    size = 20 + len(options)
    return (
        struct.pack(">BBHHHBBH", 0x40 | size // 4, 0xC0, size + len(packet), 0, place, 1, 89, 0)
        + ends
        + options
        + packet
    )


def lsa(name, age):
    return bytes.fromhex(AGES[age] + BODIES[name])


def update(*lsas):
    """A Link State Update of 1.1.1.1 without its checksum, which the tool does not look at."""
    body = struct.pack(">I", len(lsas)) + b"".join(lsas)
    return struct.pack(">BBH", 2, 4, 24 + len(body)) + bytes.fromhex("01010101") + bytes(16) + body


def pcap(order, kind, frames, magic=0xA1B2C3D4, times=itertools.repeat((0, 0))):
    head = struct.pack(order + "IHHiIII", magic, 2, 4, 0, 0, 65535, kind)
    return head + b"".join(
        struct.pack(order + "IIII", *time, len(it), len(it)) + it for it, time in zip(frames, times)
    )


def block(order, kind, body):
    body += bytes(-len(body) % 4)
    return (
        struct.pack(order + "II", kind, len(body) + 12)
        + body
        + struct.pack(order + "I", len(body) + 12)
    )


def interface(order, kind, **options):
    """An interface, with options of these numbers."""
    whole = [
        struct.pack(order + "HH", int(number[1:]), len(value)) + value + bytes(-len(value) % 4)
        for number, value in options.items()
    ]
    return block(order, 1, struct.pack(order + "HHI", kind, 0, 0) + b"".join(whole))


def section(order, kind, **options):
    """The beginning of a pcapng file, with an interface of this link type."""
    head = block(order, 0x0A0D0D0A, struct.pack(order + "IHHq", 0x1A2B3C4D, 1, 0, -1))
    return head + interface(order, kind, **options)


def enhanced(order, interface, frame, time=0):
    return block(
        order,
        6,
        struct.pack(
            order + "IIIII", interface, time >> 32, time & 0xFFFFFFFF, len(frame), len(frame)
        )
        + frame,
    )


def old(order, interface, frame, time=0):
    return block(
        order,
        2,
        struct.pack(
            order + "HHIIII",
            interface,
            0xFFFF,
            time >> 32,
            time & 0xFFFFFFFF,
            len(frame),
            len(frame),
        )
        + frame,
    )


def simple(order, frame):
    return block(order, 3, struct.pack(order + "I", len(frame)) + frame)


def pcapng(order, kind, frames):
    return section(order, kind) + b"".join(enhanced(order, 0, it) for it in frames)
