"""What Cisco IOS, IOS-XE and IOS-XR show for `show ip ospf database router`, `network` and so on.

They show two bits of the Options, DC and T, and of the flags B and E."""
import re

from . import labelled
from .parts import FLAGS, OPTIONS, B, E, Octet

NAME = "Cisco IOS, IOS-XE, IOS-XR"
HEADING = re.compile(r"\s*OSPF Router with ID \([0-9.]+\) \(Process ID ([^\s,)]+)"
                     r"(?:,? VRF ([^\s)]+))?\)")
# Of a text without a heading: Cisco's and Arista's words. Here more bits are open than in theirs.
BARE = re.compile(r"\s*LS Type: (?:Router|Network) Links$")
WORDS = {"TOS-capability": "T", "DC": "DC", "Type 7/5 translation": "N/P", "ward": "DN"}


class Reader(labelled.Reader):
    """IOS's. Each process has an LSDB of its own, so its number is taken for a VRF."""

    OPEN_FLAGS = FLAGS & ~(B | E)

    def vrf_of(self, line):
        found = HEADING.match(line)
        return found and (found[2] or found[1])

    def options(self, text):
        """Options as `(No TOS-capability, DC)`, or in hexadecimal. What has no word is open."""
        if text.startswith("0x"):
            return Octet(int(text, 16))
        shown, known = 0, 0
        for word in text.strip("()").split(","):
            word = word.strip()
            is_clear = word.startswith(("No ", "Up"))
            word = re.sub("^(?:No |Up|Down)", "", word)
            bit = OPTIONS.get(WORDS.get(word, ""), 0)
            known |= bit
            shown |= 0 if is_clear else bit
        return Octet(shown, 0xFF & ~known)
