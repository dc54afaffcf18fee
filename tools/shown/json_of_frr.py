"""What FRR shows for `show ip ospf database router json`, `network json` and so on, and for
`show ip ospf database detail json`. It shows all, but for the highest bit of the Options."""
import json
import re

import lsas

from .labelled import DEFAULT_VRF, KINDS, TYPES, first_of
from .parts import (ASBR_SUMMARY, OPTIONS, SUMMARY, Link, Octet, Shown, Unreadable, address,
                    mask_of)

NAME = "FRR (JSON)"
HEADING = re.compile(r'\s*\{\s*(?:"|\}|$)')
ALSO = {"EA": "L", "M/T": "T", "MT": "T", "NP": "N/P"}
# The lists of LSAs by type; the words for an LS type are the same for two of them.
ASBR_LISTS = ("asbrSummaryLinkStates",)
LINK_IDS = ("neighborRouterId", "designatedRouterAddress", "networkAddress")
LINK_DATA = ("routerInterfaceAddress", "networkMask")
HEADER = {"linkStateId": "Link State ID", "advertisingRouter": "Advertising Router",
          "length": "Length", "lsaAge": "LS age"}
EXTERNAL_FIELDS = {"forwardAddress": "Forward Address", "externalRouteTag": "External Route Tag"}


class Reader:
    """Reads objects, one after the other. An object ends where a line begins with its bracket, or
    on the line where it begins."""

    def __init__(self):
        self.lines, self.at = [], 0

    def is_between(self):
        return not self.lines

    def take(self, line):
        self.at += 1
        if self.lines or line.strip():
            self.lines.append(line)
        if line.startswith("}") or len(self.lines) == 1 and line.endswith("}"):
            yield from self.read(is_last=False)

    def end(self):
        if self.lines:
            yield from self.read(is_last=True)

    def read(self, is_last):
        """The LSAs of what was taken, if it is whole."""
        try:
            whole = json.loads("\n".join(self.lines))
            found = list(within(whole, DEFAULT_VRF, "unknown", False))
        except (ValueError, RecursionError) as error:
            if is_last:
                raise Unreadable(f"not valid JSON: {error}") from None
            return
        self.lines = []
        yield from found


def within(found, vrf, area, is_asbr):
    """The LSAs of an object or a list, at whatever depth."""
    if isinstance(found, list):
        for one in found:
            yield from within(one, vrf, area, is_asbr)
    elif isinstance(found, dict) and "lsaType" in found:
        yield lsa_of(found, vrf, area, is_asbr)
    elif isinstance(found, dict):
        vrf = str(found.get("vrfName", vrf))
        for key, one in found.items():
            if is_area(key):
                yield from within(one, vrf, key, is_asbr)
            else:
                yield from within(one, vrf, area, is_asbr or key in ASBR_LISTS)


def is_area(key):
    try:
        address(key)
    except (OSError, ValueError):
        return False
    return True


def lsa_of(found, vrf, area, is_asbr):
    """The LSA of an object."""
    word = str(found["lsaType"])
    kind = first_of(TYPES, word)
    one = Shown(vrf, area, ASBR_SUMMARY if kind == SUMMARY and is_asbr else kind, word)
    try:
        header(one, found)
        contents(one, found)
    except (ValueError, TypeError, LookupError, AttributeError, OSError, OverflowError) as error:
        one.fault = str(error)
    return one


def header(one, found):
    """Takes the header of an LSA."""
    for key, name in HEADER.items():
        if key in found:
            one.fields[name] = int(found[key]) if name in ("LS age", "Length") else str(found[key])
    for key, name in (("lsaSeqNumber", "LS Seq Number"), ("checksum", "Checksum")):
        if key in found:
            one.fields[name] = int(str(found[key]), 16)
    if "options" in found:
        one.fields["Options"] = options_of(str(found["options"]))


def options_of(text):
    """Options as `*|-|DC|-|-|-|E|-`. The star is for the highest bit, whatever that is."""
    shown = 0
    for name in text.split("|"):
        if name not in ("*", "-"):
            shown |= OPTIONS[ALSO.get(name, name)]
    return Octet(shown, OPTIONS["DN"])


def contents(one, found):
    """Takes what comes after the header."""
    if one.kind == lsas.ROUTER:
        one.flags = Octet(int(found["flags"])) if "flags" in found else None
        links = found.get("routerLinks", {})
        one.links = [link_of(links[key]) for key in sorted(links, key=lambda it: int(it[4:]))]
        return
    if "networkMask" in found:
        one.mask = mask_of(str(found["networkMask"]))
    # The first name is how FRR 8 spells it.
    attached = found.get("attchedRouters", found.get("attachedRouters", {}))
    one.attached = [address(it["attachedRouterId"]) for it in attached.values()]
    for key in ("tos0Metric", "metric"):
        if key in found:
            one.metrics = [(0, int(found[key]))]
    if "metricType" in found:
        one.external["metric type"] = {"E1": 1, "E2": 2}[str(found["metricType"])[:2]]
    for key, name in EXTERNAL_FIELDS.items():
        if key in found:
            one.external[name] = str(found[key])


def link_of(found):
    """A link of a router-LSA."""
    kind = first_of([(it, f"{word}.*") for it, word in KINDS], found["linkType"])
    if kind is None:
        raise ValueError(f"not a kind of link: {found['linkType']}")
    one = Link(kind)
    one.id = next((address(found[key]) for key in LINK_IDS if key in found), None)
    one.data = next((address(found[key]) for key in LINK_DATA if key in found), None)
    one.metric = int(found["tos0Metric"]) if "tos0Metric" in found else None
    return one
