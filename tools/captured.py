"""OSPF packets of captures, each with its time, as they come: pcap, pcapng, and text."""
import signal
import struct

import lsas
import streams

OSPF = 89

# pcap's link types; and of some where the number of the next protocol is, and where that begins
ETHERNET, NULL, LOOP, RAW, RAW_BSD, RAW_OPENBSD, IPV4, COOKED, COOKED_2 = (
    1, 0, 108, 101, 12, 14, 228, 113, 276)
LINKS = {
    "Ethernet": [ETHERNET],
    "loopback": [NULL, LOOP],
    "raw IP": [RAW_BSD, RAW_OPENBSD, RAW, IPV4],
    "Linux cooked": [COOKED, COOKED_2],
}
KNOWN = {kind for kinds in LINKS.values() for kind in kinds}
NEXT = {ETHERNET: (12, 14), COOKED: (14, 16), COOKED_2: (0, 20)}
VLANS = (0x8100, 0x88A8, 0x9100)
IP_OF_ETHERNET = 0x0800

PCAP = (b"\xd4\xc3\xb2\xa1", b"\xa1\xb2\xc3\xd4", b"\x4d\x3c\xb2\xa1", b"\xa1\xb2\x3c\x4d")
# The last two of them have nanoseconds, the others microseconds.
NANOSECONDS = PCAP[2:]
PCAP_HEADER, RECORD_HEADER = 24, 16
PCAPNG, SNOOP = b"\x0a\x0d\x0d\x0a", b"snoop\0\0\0"
# The blocks of pcapng that hold a frame. All but the simple one have, in this form, its interface,
# its time in two halves and its length before it.
SIMPLE, ENHANCED, OLD = 3, 6, 2
BEFORE_FRAME = {ENHANCED: "IIII4x", OLD: "H2xIII4x"}
SECTION, INTERFACE, BLOCK_HEADER = 0x0A0D0D0A, 1, 12
# Of the options of an interface: where they begin, into how many units a second is divided, and the
# seconds to add to its times.
OPTIONS, RESOLUTION, OFFSET = 8, 9, 14
CUT_FILE = "captures truncated at the end"
CUT_FRAME = "truncated OSPF packets (snap length too short: use tcpdump -s 0)"


def ip_of_frame(kind, frame):
    """The IP packet of a captured frame; None where it holds none."""
    if kind in LINKS["raw IP"]:
        return frame
    if kind in LINKS["loopback"]:
        return frame[4:]
    at, begin = NEXT[kind]
    while len(frame) >= begin + 4 and struct.unpack_from(">H", frame, at)[0] in VLANS:
        at, begin = begin + 2, begin + 4
    is_whole = len(frame) >= begin
    is_ip = is_whole and struct.unpack_from(">H", frame, at)[0] == IP_OF_ETHERNET
    return frame[begin:] if is_ip else None


def ospf_of_ip(ip, found):
    """The OSPF packet of an IP packet; None where it holds none, or a part of one."""
    if ip is None or len(ip) < 20 or ip[0] >> 4 != 4 or ip[9] != OSPF:
        return None
    length, fragment = struct.unpack_from(">H", ip, 2)[0], struct.unpack_from(">H", ip, 6)[0]
    if fragment & 0x3FFF:
        found.leave("fragments of IP packets")
        return None
    if len(ip) < length:
        found.leave(CUT_FRAME)
        return None
    return ip[(ip[0] & 15) * 4:length]


def frames_of_pcap(data, found, kinds):
    """Each frame of a pcap file with its link type, which is added to a set, and its time."""
    head = data.take(PCAP_HEADER)
    order = "<" if head[:4] in (b"\xd4\xc3\xb2\xa1", b"\x4d\x3c\xb2\xa1") else ">"
    is_whole = len(head) == PCAP_HEADER
    kind = struct.unpack_from(order + "I", head, 20)[0] & 0xFFFF if is_whole else None
    kinds.add(kind)
    unit = 1 if head[:4] in NANOSECONDS else 1000
    while is_whole and data.peek(1):
        record = data.take(RECORD_HEADER)
        is_whole = len(record) == RECORD_HEADER
        if is_whole:
            seconds, parts, captured = struct.unpack_from(order + "III", record)
            frame = data.take(captured)
            is_whole = len(frame) == captured
        if is_whole:
            yield kind, seconds * lsas.SECOND + parts * unit, frame
    if not is_whole:
        found.leave(CUT_FILE)


def interface_of(order, body):
    """The link type of an interface of pcapng, how many units of its times are a second, and what
    is added to them, in seconds."""
    at, units, offset = OPTIONS, 10**6, 0
    while at + 4 <= len(body):
        option, size = struct.unpack_from(order + "HH", body, at)
        value = body[at + 4:at + 4 + size]
        if option == RESOLUTION and len(value) == 1:
            units = 2 ** (value[0] & 0x7F) if value[0] & 0x80 else 10 ** value[0]
        if option == OFFSET and len(value) == 8:
            offset = struct.unpack(order + "q", value)[0]
        at = len(body) if option == 0 else at + 4 + size + -size % 4
    return struct.unpack_from(order + "H", body)[0], units, offset


def frame_of_block(order, block, body):
    """The number of the interface, the time in its units (None where there is none) and the frame
    of a block of pcapng; None where it holds none."""
    if block == SIMPLE and len(body) >= 4:
        return 0, None, body[4:]
    form = order + BEFORE_FRAME.get(block, "")
    begin = struct.calcsize(form)
    if not begin or len(body) < begin:
        return None
    interface, high, low, captured = struct.unpack_from(form, body)
    return interface, high << 32 | low, body[begin:begin + captured]


def blocks_of(data, found):
    """Each block of a pcapng file: the order of its bytes, its type and its body."""
    order = "<"
    while data.peek(1):
        head = data.peek(BLOCK_HEADER)
        if head[:4] == PCAPNG:
            order = "<" if head[8:] == b"\x4d\x3c\x2b\x1a" else ">"
        is_whole = len(head) == BLOCK_HEADER
        block, length = struct.unpack_from(order + "II", head) if is_whole else (0, 0)
        whole = data.take(length) if length >= BLOCK_HEADER else b""
        if not whole or len(whole) < length:
            found.leave(CUT_FILE)
            return
        yield order, block, whole[8:-4]


def frames_of_pcapng(data, found, kinds):
    """Each frame of a pcapng file with its link type and its time, None where there is none. The
    link types that the file describes are added to a set, with or without frames."""
    interfaces = []
    for order, block, body in blocks_of(data, found):
        if block == SECTION:
            interfaces = []
        if block == INTERFACE and len(body) >= 2:
            interfaces.append(interface_of(order, body))
            kinds.add(interfaces[-1][0])
        frame = frame_of_block(order, block, body)
        if frame is not None and frame[0] < len(interfaces):
            (kind, units, offset), time = interfaces[frame[0]], frame[1]
            if time is not None:
                time = time * lsas.SECOND // units + offset * lsas.SECOND
            yield kind, time, frame[2]
        elif frame is not None:
            found.leave("packets of interfaces that the capture does not describe")


def refuse(name):
    """Ends the tool where the bytes are not a capture."""
    lsas.end(lsas.REFUSED, f"{name}: not a capture (pcap, pcapng or text)")


def packets_of_text(data, found):
    """Each OSPF packet of a text: the last word of a line."""
    for line in data.lines():
        words = line.split()
        if "\0" in line:
            refuse(data.name)
        if not words or words[0].startswith("#"):
            continue
        try:
            yield bytes.fromhex(words[-1])
        except ValueError:
            found.leave("lines that are not hexadecimal")


def refuse_types(name, unknown):
    """Ends the tool where no link type of a capture is known."""
    known = ", ".join(f"{it} ({', '.join(map(str, kinds))})" for it, kinds in LINKS.items())
    one, many = f"link type {min(unknown)}", f"link types {', '.join(map(str, sorted(unknown)))}"
    which = one if len(unknown) == 1 else many
    lsas.end(lsas.REFUSED, f"{name}: unknown {which}: known are {known}")


def opened(name):
    """The bytes of a capture; what is not a capture ends the tool."""
    if name == "-":
        signal.signal(signal.SIGINT, signal.SIG_IGN)
    data = streams.Input(name)
    data.unpack()
    if not data.peek(1):
        lsas.end(lsas.REFUSED, f"{name}: empty")
    if data.peek(8) == SNOOP:
        lsas.end(lsas.REFUSED, f"{name}: a snoop capture: convert it with editcap -F pcap")
    return data


def packets_of(name, found):
    """The OSPF packets of a capture, each with its time; None where there is none."""
    data = opened(name)
    begin = data.peek(4)
    if begin not in (*PCAP, PCAPNG):
        yield from ((None, packet) for packet in packets_of_text(data, found))
        return
    frames = frames_of_pcapng if begin == PCAPNG else frames_of_pcap
    kinds, unknown = set(), set()
    for kind, time, frame in frames(data, found, kinds):
        if kind not in KNOWN:
            found.leave(f"packets with unknown link type {kind}")
            unknown.add(kind)
            continue
        packet = ospf_of_ip(ip_of_frame(kind, frame), found)
        if packet is not None:
            yield time, packet
    if unknown and not kinds & KNOWN:
        refuse_types(name, unknown)
