"""What Arista EOS shows for `show ip ospf database detail`, or for one type of LSAs.

It shows E and DC of the Options by their names, as `(E DC)`, and perhaps others. Of the flags it
may show B and E."""
import re

from . import labelled
from .parts import FLAGS, OPTIONS, Octet

NAME = "Arista EOS"
HEADING = re.compile(r"\s*OSPF Router with ID\([0-9.]+\)")
VRF = re.compile(r".*\(VRF ([^\s)]+)\)")
# Other names of bits, as `EA` and `NP`.
ALSO = {"N": "N/P", "NP": "N/P", "P": "N/P", "EA": "L", "MT": "T", "M/T": "T"}


class Reader(labelled.Reader):
    """EOS's."""

    OPEN_FLAGS = FLAGS

    def vrf_of(self, line):
        if not HEADING.match(line):
            return None
        found = VRF.match(line)
        return found[1] if found else labelled.DEFAULT_VRF

    def options(self, text):
        """Options by names. Bits but E and DC are open where no name is: not each may have one."""
        if text.startswith("0x"):
            return Octet(int(text, 16))
        names = [ALSO.get(it, it) for it in re.split(r"[\s,|]+", text.strip("()")) if it]
        shown = 0
        for name in names:
            shown |= OPTIONS.get(name, 0)
        return Octet(shown, 0xFF & ~(shown | OPTIONS["E"] | OPTIONS["DC"]))
