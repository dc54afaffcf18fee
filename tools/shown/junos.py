"""What Junos shows for `show ospf database router detail`, `network detail` and so on, or with
`extensive`. It shows all."""
import re

import lsas

from .labelled import DEFAULT_VRF, area_of
from .parts import (ASBR_SUMMARY, EXTERNAL, SUMMARY, Gathered, Link, Octet, Shown, address,
                    mask_of)

NAME = "Junos"
AREA = re.compile(r"\s*OSPF (?:link state )?database, [Aa]rea ([0-9.]+)")
OUTSIDE = re.compile(r"\s*OSPF (?:AS SCOPE|external) link state database")
INSTANCE = re.compile(r"\s*(?:OSPF )?[Ii]nstance: ?(\S+)")
COLUMNS = re.compile(r"\s*Type +ID +Adv Rtr +Seq +Age +Opt +Cksum +Len")
HEADING = re.compile("|".join(it.pattern for it in (AREA, OUTSIDE, COLUMNS)))
ADDRESS = r"([0-9]+\.[0-9]+\.[0-9]+\.[0-9]+)"
BEGIN = re.compile(rf"\s*([A-Z][A-Za-z]+) +\*?{ADDRESS}")
# Own LSAs have a star before their Link State ID.
ROW = re.compile(rf"([A-Z][A-Za-z]+) \*?{ADDRESS} {ADDRESS} (?:0x)?([0-9a-f]{{8}}) ([0-9]{{1,5}})"
                 r" (?:0x)?([0-9a-f]{1,2}) (?:0x)?([0-9a-f]{1,4}) ([0-9]{1,5})\b")
TYPES = {"Router": lsas.ROUTER, "Network": lsas.NETWORK, "Summary": SUMMARY,
         "ASBRSum": ASBR_SUMMARY, "Extern": EXTERNAL}
FIELDS = ("Link State ID", "Advertising Router", "LS Seq Number", "LS age", "Options", "Checksum",
          "Length")
METRIC = r"(?:Topology count: [0-9]+, Default metric:|TOS count [0-9]+, TOS 0 metric) ([0-9]+)"
LABELS = {
    "bits": r"\bbits 0x([0-9a-f]{1,2}),",
    "link": rf"\bid {ADDRESS}, data {ADDRESS}, Type \w+ \(([0-9])\)",
    "metric": METRIC,
    "more": r"\b(?:TOS|Topology id) ([0-9]{1,3}),? [Mm]etric:? ([0-9]+)",
    "mask": rf"\bmask {ADDRESS}",
    "attached": rf"\battached router {ADDRESS}",
    "external": r"\bType:? ([12]), (?:TOS 0x0, )?[Mm]etric:? ([0-9]+), [Ff]wd addr:? "
                rf"{ADDRESS}, [Tt]ag:? ([0-9.]+)",
    "summary": r"(?:\bTOS 0x0, metric|-> Metric:) ([0-9]+)",
}
LABEL = re.compile("|".join(f"(?P<{name}>{pattern})" for name, pattern in LABELS.items()))
# From here on an LSA is described again, as a graph.
GRAPH = re.compile(r"\bTopology default \(ID 0\) Type: \w+, Node ID.*")


class Reader(Gathered):
    """Reads the layout: a row for each LSA, and then its contents."""

    def __init__(self):
        self.vrf, self.area = DEFAULT_VRF, "unknown"

    def is_between(self):
        return True

    def take(self, line):
        area, instance = AREA.match(line), INSTANCE.match(line)
        if area or instance or OUTSIDE.match(line) or COLUMNS.match(line) or BEGIN.match(line):
            yield from self.end()
        if area:
            self.area = area_of(area[1])
        elif instance:
            self.vrf = instance[1]
        self.gather(line, BEGIN.match(line))

    def lsa_of(self, text):
        """The LSA that a text shows: its row, which may be wrapped, and its contents."""
        word, row = text.split()[0], ROW.match(text)
        one = Shown(self.vrf, self.area, TYPES.get(word), word)
        begin = BEGIN.match(text)
        one.fields["Link State ID"] = begin[2]
        if row is None:
            one.absent = ["row of its header"]
            return one
        one.fields.update(zip(FIELDS, row.groups()[1:]))
        for name in ("LS Seq Number", "Checksum"):
            one.fields[name] = int(one.fields[name], 16)
        one.fields["LS age"] = int(one.fields["LS age"])
        one.fields["Options"] = Octet(int(one.fields["Options"], 16))
        if not LABEL.search(text, row.end()):
            one.absent = ["contents (detail)"]
        try:
            for found in LABEL.finditer(GRAPH.sub("", text), row.end()):
                values = [it for it in found.groups()[found.lastindex:] if it]
                content(one, found.lastgroup, values)
        except (ValueError, OSError, IndexError) as error:
            one.fault = str(error)
        return one


def content(one, name, values):
    """Takes a value of what comes after the row."""
    if name == "bits":
        one.flags = Octet(int(values[0], 16))
    elif name == "link":
        one.links.append(Link(int(values[2])))
        one.links[-1].id, one.links[-1].data = map(address, values[:2])
    elif name == "metric":
        one.links[-1].add_metric(0, int(values[0]))
    elif name == "more":
        one.links[-1].add_metric(*map(int, values))
    elif name == "mask":
        one.mask = mask_of(values[0])
    elif name == "attached":
        one.attached.append(address(values[0]))
    elif name == "summary":
        one.metrics.append((0, int(values[0])))
    else:
        one.metrics.append((0, int(values[1])))
        one.external.update({"metric type": int(values[0]), "Forward Address": values[2],
                             "External Route Tag": values[3]})
