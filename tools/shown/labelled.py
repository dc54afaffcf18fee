"""The layout that FRR, Cisco and Arista share: each LSA begins with its age, and a label comes
before each value. Labels are found in the text of a whole LSA, so that a line may be wrapped."""
import argparse
import re

import lsas

from .parts import (ASBR_SUMMARY, B, E, EXTERNAL, POINT_TO_POINT, STUB, SUMMARY, TRANSIT, V,
                    VIRTUAL, Gathered, Link, Octet, Shown, address, mask_of)

DO_NOT_AGE = 0x8000
# What is shown without the name of a VRF is of this one.
DEFAULT_VRF = "default"
AGE = re.compile(r"LS [Aa]ge: ")
AREA = re.compile(r".*Link States ?\(Area ([0-9.]+)")
TYPES = [
    (lsas.ROUTER, r"router-LSA|Router Links?"),
    (lsas.NETWORK, r"network-LSA|Network Links?"),
    (ASBR_SUMMARY, r"Summary Links? ?\(AS Boundary Router\)|ASBR[- ]?Summary.*|Summary ASB.*"),
    (SUMMARY, r"summary-LSA|(?:Network )?Summary.*"),
    (EXTERNAL, r"AS-external-LSA|(?:Type-5 )?AS External.*"),
]
KINDS = [(POINT_TO_POINT, "(?:another|a) Router"), (TRANSIT, "a Transit Network"),
         (STUB, "(?:a )?Stub Network"), (VIRTUAL, "a Virtual Link")]
ADDRESS = r"([0-9]+\.[0-9]+\.[0-9]+\.[0-9]+)"
LABELS = {
    "age": r"LS [Aa]ge: ([^ ]+(?: ?\([^)]*\))?)",
    "options": r"Options: ?(0x[0-9a-fA-F]{1,2}|\([^)]*\))",
    "flags": r"(?<!LS )Flags: (0x[0-9a-fA-F]+)",
    "kind": r"LS Type: (.*?)(?= (?:Link State ID|Advertising Router|LS Seq Number|Checksum):|$)",
    "id": rf"Link State ID: {ADDRESS}",
    "asbr": r"(\(AS Boundary Router address\))",
    "router": rf"Advertising Router: {ADDRESS}",
    "number": r"LS Seq Number: (?:0x)?([0-9a-fA-F]{8})\b",
    "sum": r"Checksum: (?:0x)?([0-9a-fA-F]{1,4})\b",
    "length": r"Length: ([0-9]{1,5})\b",
    "link": r"Link connected to: ?(.*?)(?= \(Link|$)",
    "link_id": rf"\(Link ID\) [^:]*: ?{ADDRESS}",
    "link_data": rf"\(Link Data\) [^:]*: ?{ADDRESS}",
    "metric": r"(?:TOS|MTID):? ([0-9]{1,3}) Metrics?: ([0-9]{1,8})\b",
    "mask": r"Network Mask: ?(/[0-9]{1,2}\b|[0-9]+\.[0-9]+\.[0-9]+\.[0-9]+)",
    "attached": rf"Attached Router: {ADDRESS}",
    "metric_type": r"Metric Type: ([12])\b",
    "forward": rf"Forward(?:ing)? Address: {ADDRESS}",
    "tag": r"External Route Tag: ([0-9a-fA-Fx.]+)",
    "role": r"(A(?:S|rea) B(?:oundary|order) Router|Virtual Link Endpoint)(?! address|\))",
}
# How a label begins; it spares a search for each of them at most places.
FIRST = r"(?=[ACEFLMNOTV(])"
ALL = "|".join(f"(?P<{name}>{pattern})" for name, pattern in LABELS.items())
LABEL = re.compile(f"{FIRST}(?:{ALL})")
SIMPLE = {"id": "Link State ID", "router": "Advertising Router", "length": "Length"}
HEXADECIMAL = {"number": "LS Seq Number", "sum": "Checksum"}
EXTERNAL_FIELDS = {"forward": "Forward Address", "tag": "External Route Tag"}
ROLES = {"Area": B, "AS": E, "Virtual": V}


def seconds_of(text):
    """An age: seconds, hours:minutes:seconds, or MAXAGE(3600); with or without (DoNotAge)."""
    is_lasting = "donotage" in text.lower()
    parts = re.findall("[0-9]+", text)
    if not parts or len(parts) > 3 or ":" not in text and len(parts) > 1:
        raise ValueError(f"not an age: {text}")
    age = sum(int(it) * 60**at for at, it in enumerate(reversed(parts)))
    return age | DO_NOT_AGE if is_lasting else age


def area_of(text):
    """An area as four numbers; what is not an area stays as it is shown."""
    try:
        return lsas.area_of(text)
    except argparse.ArgumentTypeError:
        return text


def first_of(table, text):
    """What a table of patterns has for a text; None where none matches."""
    return next((it for it, pattern in table if re.fullmatch(pattern, text)), None)


class Reader(Gathered):
    """Reads the layout. A format says how its Options are shown, and which flags are open."""

    # Flags of a router-LSA that the format may not show.
    OPEN_FLAGS = 0

    def __init__(self):
        self.vrf, self.area = DEFAULT_VRF, "unknown"

    def is_between(self):
        """Whether a heading may come now, of this format or of another."""
        return True

    def options(self, text):
        """The Options, of the text that shows them."""
        return Octet(int(text, 16))

    def vrf_of(self, line):
        """The VRF that a line names; None where it names none."""
        raise NotImplementedError

    def take(self, line):
        """Takes a line. An LSA is whole when the next one begins, or a heading comes."""
        vrf, heading = self.vrf_of(line), AREA.match(line)
        if AGE.match(line.lstrip()) or vrf is not None or heading:
            yield from self.end()
        if vrf is not None:
            self.vrf = vrf
        if heading:
            self.area = area_of(heading[1])
        self.gather(line, AGE.match(line.lstrip()))

    def lsa_of(self, text):
        """The LSA that a text shows, from its age to its last line."""
        one, flags = Shown(self.vrf, self.area), None
        try:
            for found in LABEL.finditer(text):
                name, at = found.lastgroup, found.lastindex
                values = found.group(at + 1, at + 2) if name == "metric" else [found[at + 1]]
                if name in ("flags", "role"):
                    flags = flags or Octet()
                    shown = int(values[0], 16) if name == "flags" else ROLES[values[0].split()[0]]
                    flags.shown |= shown
                else:
                    self.field(one, name, values)
        except (ValueError, OSError, IndexError) as error:
            one.fault = str(error)
        if one.kind == lsas.ROUTER:
            one.flags = self.flags_of(flags)
        return one

    def flags_of(self, flags):
        """The flags of a router-LSA, of those that are shown, if any is."""
        shown = flags.shown if flags else 0
        return Octet(shown, self.OPEN_FLAGS & ~shown)

    def field(self, one, name, values):
        """Takes a value, by the name of its label."""
        if name in SIMPLE:
            one.fields.setdefault(SIMPLE[name], values[0])
        elif name in HEXADECIMAL:
            one.fields.setdefault(HEXADECIMAL[name], int(values[0], 16))
        elif name == "age":
            one.fields.setdefault("LS age", seconds_of(values[0]))
        elif name == "options":
            one.fields.setdefault("Options", self.options(values[0]))
        elif name == "kind" and one.kind is None:
            one.word, one.kind = values[0], first_of(TYPES, values[0])
        elif name == "asbr" and one.kind == SUMMARY:
            one.kind = ASBR_SUMMARY
        else:
            self.content(one, name, values)

    def content(self, one, name, values):
        """Takes a value of what comes after the header."""
        if name == "link":
            one.links.append(Link(first_of([(it, f"{word}.*") for it, word in KINDS], values[0])))
            if one.links[-1].kind is None:
                raise ValueError(f"not a kind of link: {values[0]}")
        elif name == "link_id":
            one.links[-1].id = address(values[0])
        elif name == "link_data":
            one.links[-1].data = address(values[0])
        elif name == "metric" and one.kind == lsas.ROUTER:
            one.links[-1].add_metric(*map(int, values))
        elif name == "metric":
            one.metrics.append(tuple(map(int, values)))
        elif name == "mask":
            one.mask = mask_of(values[0])
        elif name == "attached":
            one.attached.append(address(values[0]))
        elif name == "metric_type":
            one.external["metric type"] = int(values[0])
        elif name in EXTERNAL_FIELDS:
            one.external[EXTERNAL_FIELDS[name]] = values[0]
