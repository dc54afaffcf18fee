"""An LSA as a router shows it, and its bytes. Bits of the Options, and of the flags of a
router-LSA, that are not shown are found by the checksum."""
import itertools
import socket
import struct

import lsas

SUMMARY, ASBR_SUMMARY, EXTERNAL = 3, 4, 5
NAMES = {
    lsas.ROUTER: "router-LSA",
    lsas.NETWORK: "network-LSA",
    SUMMARY: "summary-LSA",
    ASBR_SUMMARY: "ASBR-summary-LSA",
    EXTERNAL: "AS-external-LSA",
}
POINT_TO_POINT, TRANSIT, STUB, VIRTUAL = 1, 2, 3, 4
# Options: T (RFC 1583), E (RFC 2328), MC (RFC 1584), N/P (RFC 3101), L (RFC 5613), DC (RFC 1793),
# O (RFC 5250), DN (RFC 4576).
OPTIONS = {"T": 0x01, "E": 0x02, "MC": 0x04, "N/P": 0x08, "L": 0x10, "DC": 0x20, "O": 0x40,
           "DN": 0x80}
# Where flags are open too, only these Options may be: E, N/P, L, DC, O. The more bits are open, the
# more easily a mistake in the text passes for a value of theirs.
LIKELY = 0x7A
# Flags of a router-LSA: B, E, V (RFC 2328), Nt (RFC 3101), H (RFC 8770). No two values of them are
# 85 or 170 apart. So at most one pair of Options and flags fits a checksum, but for Options that
# may be 00 as well as ff.
B, E, V, FLAGS = 0x01, 0x02, 0x04, 0x97
OPTIONS_AT, FLAGS_AT = 2, 20
# What each LSA has in its header, by the names of the RFC.
HEADER = ("LS age", "Options", "Link State ID", "Advertising Router", "LS Seq Number", "Checksum")


class Unreadable(Exception):
    """The text is of no known format, or damaged."""


class Gathered:
    """Gathers the lines of one LSA after the other. A reader of a format says what an LSA is."""

    lines = None

    def gather(self, line, begins):
        """Takes a line: the first of an LSA, or one more of the LSA that is being read."""
        if begins:
            self.lines = []
        if self.lines is not None:
            self.lines.append(line)

    def end(self):
        """The LSA that was being read, if there is one: it is whole now."""
        if self.lines is not None:
            yield self.lsa_of(" ".join(" ".join(self.lines).split()))
        self.lines = None

    def lsa_of(self, text):
        """The LSA that a text shows."""
        raise NotImplementedError


class Octet:
    """A byte of which some bits are shown, and others are open."""

    def __init__(self, shown=0, is_open=0):
        self.shown, self.is_open = shown, is_open

    def values(self):
        """Each value that agrees with what is shown."""
        if self.shown not in range(256):
            raise ValueError(f"not a byte: {self.shown}")
        return [it for it in range(256) if (it ^ self.shown) & ~self.is_open & 0xFF == 0]


def address(text):
    """Four bytes, of an address in dotted form."""
    return socket.inet_pton(socket.AF_INET, text)


def mask_of(text):
    """The four bytes of a mask, shown dotted or as a length, with or without a slash."""
    if "." in text:
        return address(text)
    length = int(text.lstrip("/"))
    if not 0 <= length <= 32:
        raise ValueError(f"not the length of a mask: {text}")
    return struct.pack(">I", (0xFFFFFFFF << (32 - length)) & 0xFFFFFFFF)


def number(text):
    """A number, decimal, in hexadecimal with 0x, or in dotted form."""
    if "." in text:
        return int.from_bytes(address(text), "big")
    return int(text, 16 if text[:2].lower() == "0x" else 10)


def three_bytes(metric):
    """The metric of a summary-LSA or of an AS-external-LSA."""
    if metric >= 1 << 24:
        raise ValueError(f"not a metric of three bytes: {metric}")
    return struct.pack(">I", metric)[1:]


def sums(lsa):
    """Both sums over the LSA without its age (RFC 905, annex B)."""
    plain, weighted = sum(lsa[2:]), sum(it * at for at, it in enumerate(reversed(lsa[2:]), 1))
    return plain, weighted


def fits(lsa, octets):
    """The LSAs that values of these octets, by their places, make, if the checksum accepts them."""
    for place in octets:
        lsa = lsa[:place] + b"\0" + lsa[place + 1:]
    plain, weighted = sums(lsa)
    *before, last = octets.items()
    for values in itertools.product(*(octet.values() for _, octet in before)):
        known = list(zip((place for place, _ in before), values))
        rest = -(plain + sum(values)) % 255
        for value in set(last[1].values()) & {rest, rest + 255}:
            all_of = [*known, (last[0], value)]
            if (weighted + sum(it * (len(lsa) - place) for place, it in all_of)) % 255 == 0:
                made = bytearray(lsa)
                for place, it in all_of:
                    made[place] = it
                yield bytes(made)


class Shown:
    """What is shown of one LSA: the fields of its header by their names, and its contents."""

    def __init__(self, vrf, area, kind=None, word="unknown"):
        self.vrf, self.area, self.kind, self.word = vrf, area, kind, word
        # A length that is not shown is that of the contents only where a format never shows one.
        self.fields, self.fault, self.has_length = {}, None, True
        self.flags, self.links = None, []
        self.mask, self.attached = None, []
        # Pairs of TOS and metric; of an AS-external-LSA the type of the metrics, the forwarding
        # address and the tag.
        self.metrics, self.external = [], {}
        # What else is not shown, by its names.
        self.absent = []

    def name(self):
        ends = (self.fields.get(it, "unknown") for it in ("Link State ID", "Advertising Router"))
        return f"{NAMES[self.kind]} {' of '.join(ends)}"

    def missing(self):
        """What is not shown, by its names."""
        wanted = HEADER + (("Length",) if self.has_length else ())
        found = [it for it in wanted if it not in self.fields] + self.absent
        if self.absent:
            return found
        if self.kind == lsas.ROUTER:
            found += ["flags"] if self.flags is None else []
            for at, link in enumerate(self.links):
                found += [f"{it} of link {at}" for it in link.missing()]
        elif self.mask is None:
            # The checksum cannot supply it: to it a byte 00 is as good as a byte ff (RFC 905,
            # annex B), so 0.0.0.0 would pass for 255.255.255.0.
            found += ["Network Mask"]
        if self.kind not in (lsas.ROUTER, lsas.NETWORK) and not self.metrics:
            found += ["metric"]
        if self.kind == EXTERNAL:
            needed = ("metric type", "Forward Address", "External Route Tag")
            found += [it for it in needed if it not in self.external]
        return found

    def body(self):
        """The contents (RFC 2328, sections A.4.2 to A.4.5)."""
        if self.kind == lsas.ROUTER:
            head = struct.pack(">BBH", self.flags.shown, 0, len(self.links))
            return head + b"".join(it.packed() for it in self.links)
        if self.kind == lsas.NETWORK:
            return self.mask + b"".join(self.attached)
        metrics = [(tos, three_bytes(metric)) for tos, metric in self.metrics]
        if self.kind != EXTERNAL:
            return self.mask + b"".join(struct.pack(">B", tos) + it for tos, it in metrics)
        kind = 0x80 if self.external["metric type"] == 2 else 0
        rest = address(self.external["Forward Address"])
        rest += struct.pack(">I", number(self.external["External Route Tag"]))
        firsts = [struct.pack(">B", kind | tos) + it for tos, it in metrics]
        return self.mask + b"".join(it + rest for it in firsts)

    def lsa(self):
        """Its bytes, with what is shown of Options and flags."""
        shown, body = self.fields, self.body()
        length = int(shown["Length"]) if self.has_length else lsas.HEADER + len(body)
        head = struct.pack(">HBB", shown["LS age"], shown["Options"].shown, self.kind)
        ends = address(shown["Link State ID"]) + address(shown["Advertising Router"])
        tail = struct.pack(">IHH", shown["LS Seq Number"], shown["Checksum"], length)
        return head + ends + tail + body

    def octets(self):
        """The bytes that may have open bits, by their places."""
        options = self.fields["Options"]
        if self.kind != lsas.ROUTER:
            return {OPTIONS_AT: options}
        if self.flags.is_open:
            options = Octet(options.shown, options.is_open & LIKELY)
        return {OPTIONS_AT: options, FLAGS_AT: self.flags}

    def answers(self):
        """All bytes that agree with what is shown, and the length and checksum shown."""
        lsa = self.lsa()
        if len(lsa) != struct.unpack_from(">H", lsa, 18)[0] or lsa[16:18] == b"\0\0":
            return []
        return list(fits(lsa, self.octets()))

    def open_names(self):
        """What the checksum had to find."""
        names = {OPTIONS_AT: "Options", FLAGS_AT: "flags"}
        return [names[place] for place, octet in self.octets().items() if octet.is_open]

    def add_to(self, output):
        """Adds the LSA, or counts why it is left out."""
        if self.kind not in NAMES or not output.takes(self.kind):
            return output.leave(f"LSAs of type {self.kind or self.word}")
        name, missing = self.name(), self.missing()
        if self.fault is not None:
            return output.leave(f"LSAs that cannot be read ({name}: {self.fault})")
        if missing:
            what = f"{name}: {', '.join(missing)} missing"
            return output.leave(f"LSAs that are not shown in full ({what})")
        try:
            answers = self.answers()
        except (ValueError, OSError, OverflowError, struct.error) as error:
            return output.leave(f"LSAs that cannot be read ({name}: {error})")
        if not answers:
            return output.leave(f"LSAs that do not have the length or checksum shown ({name})")
        if len(answers) > 1:
            what = " and ".join(self.open_names())
            return output.leave(f"LSAs whose {what} the checksum cannot decide ({name}: 00 or ff)")
        if self.open_names():
            output.solve(" and ".join(self.open_names()))
        return output.add(self.area, answers[0])


class Link:
    """A link of a router-LSA, as it is shown."""

    def __init__(self, kind):
        self.kind, self.id, self.data, self.metric, self.more = kind, None, None, None, []

    def missing(self):
        named = {"Link ID": self.id, "Link Data": self.data, "metric": self.metric}
        return [name for name, value in named.items() if value is None]

    def add_metric(self, tos, metric):
        """Takes a metric; that of TOS 0 is the link's own (RFC 2328, section A.4.2)."""
        if tos == 0 and self.metric is None:
            self.metric = metric
        else:
            self.more.append((tos, metric))

    def packed(self):
        head = self.id + self.data + struct.pack(">BBH", self.kind, len(self.more), self.metric)
        return head + b"".join(struct.pack(">BBH", tos, 0, metric) for tos, metric in self.more)
