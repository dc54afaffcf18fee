"""What FRR shows as text for `show ip ospf database router`, `network` and so on. It shows all."""
import re

from . import labelled

NAME = "FRR (text)"
VRF, ROUTER = re.compile(r"VRF Name: (\S+)"), re.compile(r"\s*OSPF Router with ID \([0-9.]+\)$")
# BARE is for a text without a heading: FRR alone has these words for an LS type.
HEADING = re.compile(r"VRF Name: \S+|\s*OSPF Router with ID \([0-9.]+\)$")
BARE = re.compile(r"\s*LS Type: (?:router|network|summary|AS-external)-LSA")


class Reader(labelled.Reader):
    """FRR's. The name of a VRF comes before the heading of its router."""

    def __init__(self):
        super().__init__()
        self.named = None

    def vrf_of(self, line):
        if found := VRF.match(line):
            self.named = found[1]
        elif ROUTER.match(line):
            vrf, self.named = self.named or labelled.DEFAULT_VRF, None
            return vrf
        return None

    def flags_of(self, flags):
        return flags
