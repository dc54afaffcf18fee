"""LSAs in the layouts of several vendors, as their public documentation shows them. FRR's layouts,
as text and as JSON, are those of its source; the others were not compared with a router."""
import json
import socket
import struct

INTERFACE = "Router Interface address"
LINKS = {1: ("another Router (point-to-point)", "Neighboring Router ID", INTERFACE),
         2: ("a Transit Network", "Designated Router address", INTERFACE),
         3: ("Stub Network", "Net", "Network Mask"),
         4: ("a Virtual Link", "Neighboring Router ID", INTERFACE)}
JUNOS = {1: "PointToPoint", 2: "Transit", 3: "Stub", 4: "Virtual"}
STATES = {1: "Router", 2: "Net", 3: "Summary Net", 4: "Summary ASB", 5: "Type-5 AS External"}
CISCO = {1: "Router Links", 2: "Network Links", 3: "Summary Links(Network)",
         4: "Summary Links(AS Boundary Router)", 5: "AS External Link"}
FRR = {1: "router-LSA", 2: "network-LSA", 3: "summary-LSA", 4: "summary-LSA", 5: "AS-external-LSA"}
FRR_STATES = {1: "Router", 2: "Net", 3: "Summary", 4: "ASBR-Summary", 5: "AS External"}
FRR_LISTS = {1: "routerLinkStates", 2: "networkLinkStates", 3: "summaryLinkStates",
             4: "asbrSummaryLinkStates", 5: "asExternalLinkStates"}
NOTES = {1: "", 2: " (address of Designated Router)", 3: " (summary Network Number)",
         4: " (AS Boundary Router address)", 5: " (External Network Number)"}
ROWS = {1: "Router", 2: "Network", 3: "Summary", 4: "ASBRSum", 5: "Extern"}
BITS = [(0x40, "O", "O"), (0x20, "DC", "DC"), (0x10, "EA", "L"), (0x08, "N/P", "N"),
        (0x04, "MC", "MC"), (0x02, "E", "E"), (0x01, "M/T", "MT")]


def dotted(data):
    return socket.inet_ntoa(data)


class Lsa:
    """The fields of an LSA."""

    def __init__(self, data):
        self.data = data
        self.age, self.options, self.kind = struct.unpack_from(">HBB", data)
        self.id, self.router = dotted(data[4:8]), dotted(data[8:12])
        self.number, self.sum, self.length = struct.unpack_from(">IHH", data, 12)
        self.flags, body = data[20], data[20:]
        self.mask = None if self.kind == 1 else body[:4]
        self.attached = [dotted(body[at:at + 4]) for at in range(4, len(body), 4)]
        self.links = self.links_of(body) if self.kind == 1 else []
        if self.kind > 2:
            self.metric = struct.unpack_from(">I", body, 4)[0] & 0xFFFFFF
            self.is_type_2 = body[4] & 0x80
        if self.kind == 5:
            self.forward, self.tag = dotted(body[8:12]), struct.unpack_from(">I", body, 12)[0]

    def bits(self):
        """How many bits the mask has."""
        return bin(int.from_bytes(self.mask, "big")).count("1")

    def links_of(self, body):
        """Each link: its type, Link ID and Link Data, and the metrics by their TOS."""
        at, found = 4, []
        for _ in range(struct.unpack_from(">H", body, 2)[0]):
            to, data, kind, count, metric = struct.unpack_from(">4s4sBBH", body, at)
            rest = [struct.unpack_from(">BxH", body, at + 12 + 4 * it) for it in range(count)]
            found.append((kind, dotted(to), dotted(data), [(0, metric), *rest]))
            at += 12 + 4 * count
        return found


def header(one, words, age, options, number, states):
    """The lines that FRR, Cisco and Arista begin an LSA with."""
    yield f"  LS age: {age}"
    yield f"  Options: {options}"
    yield f"  LS Type: {words[one.kind]}"
    yield f"  Link State ID: {one.id}{states[one.kind]}"
    yield f"  Advertising Router: {one.router}"
    yield f"  LS Seq Number: {number}"
    yield f"  Checksum: 0x{one.sum:X}"
    yield f"  Length: {one.length}"


def roles(one):
    """The lines of the flags B and E."""
    yield from ["  Area Border Router"] if one.flags & 1 else []
    yield from ["  AS Boundary Router"] if one.flags & 2 else []


def contents(one, metric, tos):
    """The lines that follow, with the words of a metric and of a TOS."""
    if one.kind == 1:
        yield f"  Number of Links: {len(one.links)}\n"
    for kind, to, data, metrics in one.links:
        words = LINKS[kind]
        yield f"    Link connected to: {words[0]}"
        yield f"     (Link ID) {words[1]}: {to}"
        yield f"     (Link Data) {words[2]}: {data}"
        yield f"      Number of {tos} metrics: {len(metrics) - 1}"
        for which, cost in metrics:
            yield f"       TOS {which} {metric}: {cost}"
        yield ""
    if one.mask is not None:
        yield f"  Network Mask: /{one.bits()}"
    if one.kind == 2:
        yield from (f"        Attached Router: {it}" for it in one.attached)
    if one.kind in (3, 4):
        yield f"        {tos}: 0         Metric: {one.metric}"
    if one.kind == 5:
        is_2 = "2 (Larger than any link state path)" if one.is_type_2 else "1"
        yield f"        Metric Type: {is_2}\n        {tos}: 0\n        Metric: {one.metric}"
        yield f"        Forward Address: {one.forward}\n        External Route Tag: {one.tag}"
    yield ""


def by_kind(lsas):
    """LSAs by their types, in the order of these."""
    found = [Lsa(it) for it in lsas]
    return [(kind, [it for it in found if it.kind == kind]) for kind in range(1, 6)]


def labelled(lsas, router, area, states, lines_of):
    """The text of several LSAs, with a heading for each type."""
    lines = []
    for kind, found in by_kind(lsas):
        place = "" if kind == 5 else area
        lines += [f"\n{router}\n", f"                {states[kind]} Link States{place}\n"]
        for one in found:
            lines += lines_of(one)
    return "\n".join(lines) + "\n"


def frr(lsas):
    def lines_of(one):
        head = list(header(one, FRR, one.age, f"0x{one.options:<2x} : *|-", f"{one.number:08x}",
                           NOTES))
        head[6] = f"  Checksum: 0x{one.sum:04x}"
        return [*head[:2], "  LS Flags: 0x6  ", *([f"  Flags: 0x{one.flags:x}"] * (one.kind == 1)),
                *head[2:], "", *contents(one, "Metric", "TOS")]
    return labelled(lsas, "       OSPF Router with ID (1.1.1.1)", " (Area 0.0.0.0)", FRR_STATES,
                    lines_of)


def ios(lsas):
    """Cisco IOS. With age 3600 it shows a word; the line before an LSA is of a best path."""
    def lines_of(one):
        words = ["TOS-capability" if one.options & 1 else "No TOS-capability",
                 "DC" if one.options & 0x20 else "No DC"]
        age = f"{one.age & 0x7FFF} (DoNotAge)" if one.age & 0x8000 else one.age
        age = "MAXAGE(3600)" if one.age == 3600 else age
        head = header(one, CISCO, age, f"({', '.join(words)})", f"{one.number:08X}", NOTES)
        return ["  Routing Bit Set on this LSA in topology Base with MTID 0", *head, *roles(one),
                *contents(one, "Metrics", "MTID" if one.kind == 1 else "TOS")]
    return labelled(lsas, "            OSPF Router with ID (1.1.1.1) (Process ID 1)", " (Area 0)",
                    STATES, lines_of)


def nxos(lsas):
    def lines_of(one):
        options = f"0x{one.options:x} (No TOS-capability, No DC)"
        head = header(one, CISCO, one.age, options, f"0x{one.number:08x}", NOTES)
        lines = [*head, *roles(one), *contents(one, "Metric", "TOS")]
        return [f" {line.replace('TOS 0 M', 'TOS   0 M').replace('of Links', 'of links')}"
                for line in lines]
    return labelled(lsas, "        OSPF Router with ID (1.1.1.1) (Process ID p1 VRF default)",
                    " (Area 0.0.0.0)", STATES, lines_of)


def eos(lsas):
    """Arista EOS. An age is a time, and Options are the names of their bits."""
    def lines_of(one):
        age = f"{one.age // 3600:02}:{one.age // 60 % 60:02}:{one.age % 60:02}"
        options = f"({' '.join(name for bit, _, name in reversed(BITS) if one.options & bit)})"
        head = header(one, CISCO, age, options, f"0x{one.number:08x}", NOTES)
        return [*head, *roles(one), *contents(one, "Metrics", "TOS")]
    return labelled(lsas, "            OSPF Router with ID(1.1.1.1) (Instance ID 1) (VRF default)",
                    " (Area 0.0.0.0)", STATES, lines_of)


def junos_contents(one):
    """The lines after the row of an LSA."""
    if one.kind == 1:
        yield f"  bits 0x{one.flags:x}, link count {len(one.links)}"
    for kind, to, data, metrics in one.links:
        yield f"  id {to}, data {data}, Type {JUNOS[kind]} ({kind})"
        yield f"    Topology count: {len(metrics) - 1}, Default metric: {metrics[0][1]}"
        yield from (f"      TOS {tos}, metric {metric}" for tos, metric in metrics[1:])
    if one.mask is not None:
        yield f"  mask {dotted(one.mask)}"
    if one.kind == 2:
        yield from (f"  attached router {it}" for it in one.attached)
    if one.kind in (1, 2):
        yield "  Topology default (ID 0)\n    Type: Transit, Node ID: 10.9.9.9"
        yield "      Metric: 33, Bidirectional"
    if one.kind in (3, 4):
        yield f"  Topology default (ID 0) -> Metric: {one.metric}"
    if one.kind == 5:
        yield "  Topology default (ID 0)"
        yield (f"    Type: {2 if one.is_type_2 else 1}, Metric: {one.metric}, "
               f"Fwd addr: {one.forward}, Tag: {dotted(struct.pack('>I', one.tag))}")
    yield "  Aging timer 00:42:41\n  Installed 00:17:15 ago, expires in 00:42:41, sent 00:17:13 ago"
    yield "  Last changed 04:06:58 ago, Change count: 3"


def junos(lsas):
    """Junos, `extensive`. Own LSAs have a star."""
    lines = []
    for kind, found in by_kind(lsas):
        lines.append("    OSPF AS SCOPE link state database" if kind == 5 else
                     "\n    OSPF database, Area 0.0.0.0")
        lines.append(" Type       ID               Adv Rtr           Seq      Age  Opt  Cksum"
                     "  Len ")
        for one in found:
            star = "*" if one.router == "1.1.1.1" else " "
            lines.append(f"{ROWS[kind]:<8}{star}{one.id:<17}{one.router:<17}0x{one.number:08x}  "
                         f"{one.age:4}  0x{one.options:x} 0x{one.sum:x} {one.length:3}")
            lines += junos_contents(one)
    return "\n".join(lines) + "\n"


def frr_json(lsas):
    """FRR's JSON, an object for each type, on one line each."""
    texts = []
    for kind, found in by_kind(lsas):
        those = [object_of(one) for one in found]
        rest = those if kind == 5 else {"areas": {"0.0.0.0": those}}
        texts.append(json.dumps({"routerId": "1.1.1.1", FRR_LISTS[kind]: rest}))
    return "\n".join(texts) + "\n"


def object_of(one):
    """The object of an LSA."""
    options = "|".join(["*", *(name if one.options & bit else "-" for bit, name, _ in BITS)])
    found = {"lsaAge": one.age, "options": options, "lsaFlags": 6}
    if one.kind == 1:
        found["flags"] = one.flags
    found.update({"lsaType": FRR[one.kind], "linkStateId": one.id, "advertisingRouter": one.router,
                  "lsaSeqNumber": f"{one.number:x}", "checksum": f"{one.sum:x}",
                  "length": one.length})
    if one.kind == 1:
        found.update({"numOfLinks": len(one.links), "routerLinks": {}})
    for at, (kind, to, data, metrics) in enumerate(one.links):
        names = {1: "neighborRouterId", 2: "designatedRouterAddress", 3: "networkAddress"}
        found["routerLinks"][f"link{at}"] = {
            "linkType": LINKS[kind][0], names.get(kind, "neighborRouterId"): to,
            "networkMask" if kind == 3 else "routerInterfaceAddress": data,
            "numOfTosMetrics": 0, "tos0Metric": metrics[0][1]}
    if one.mask is not None:
        found["networkMask"] = one.bits()
    if one.kind == 2:
        found["attchedRouters"] = {it: {"attachedRouterId": it} for it in one.attached}
    if one.kind in (3, 4):
        found["tos0Metric"] = one.metric
    if one.kind == 5:
        found.update({"metricType": "E2 (Larger than any link state path)" if one.is_type_2 else
                      "E1", "tos": 0, "metric": one.metric, "forwardAddress": one.forward,
                      "externalRouteTag": one.tag})
    return found


FORMS = {"FRR": frr, "FRR's JSON": frr_json, "IOS": ios, "NX-OS": nxos, "EOS": eos, "Junos": junos}
