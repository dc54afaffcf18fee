"""What Cisco NX-OS shows for `show ip ospf database router detail`, `network detail` and so on.

It shows the Options whole. Of the flags it may show B and E."""
import re

from . import labelled
from .parts import FLAGS

NAME = "Cisco NX-OS"
HEADING = re.compile(r"\s*OSPF Router with ID \([0-9.]+\) \(Process ID [^\s,]+ VRF ([^\s)]+)\)")


class Reader(labelled.Reader):
    """NX-OS's."""

    OPEN_FLAGS = FLAGS

    def vrf_of(self, line):
        found = HEADING.match(line)
        return found and found[1]
