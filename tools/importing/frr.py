"""Configurations of FRR: `frr.conf`, or `zebra.conf` and `ospfd.conf` of a folder."""
import os

from . import addresses, cli
from .model import Place, Refused, Router, plain

# Files of a folder, the first that are there.
FILES = (["frr.conf"], ["zebra.conf", "ospfd.conf"])
# FRR 8: reference-bandwidth, the speed of an interface whose speed is not known, and the cost of a
# loopback, which is advertised as a host with a mask of 32 bits, whatever the mask of its address.
REFERENCE, SPEED, LOOPBACK = 100_000, 10_000, 0


class Reader(cli.Reader):
    """FRR's own rules."""

    reference, unit, loopback_cost = REFERENCE, 1000, LOOPBACK
    loopback, point_to_point = r"lo(:|$)", r"(tun|gre|ppp|wg|sit|ipip|vti)[0-9]*$"

    def matches(self, address, base, mask):
        """A network takes an interface whose whole prefix is in it."""
        return super().matches(address, base, mask) and int(address.netmask) & mask == mask

    def is_loopback_network(self, device):
        return False

    def speed(self, device):
        return SPEED * 1000, f"no cost in the file: FRR's for {SPEED} Mbit/s"

    def divided(self, reference, kilobits):
        return int(reference / max(kilobits, 1) + 0.5)


def files_of(path):
    """The files of a router: the one that is named, or those of its folder."""
    if not os.path.isdir(path):
        return [path]
    for names in FILES:
        found = [os.path.join(path, name) for name in names]
        found = [name for name in found if os.path.isfile(name)]
        if found:
            return found
    raise Refused("a folder without frr.conf and ospfd.conf")


def only_vrf(texts):
    """The VRF of the only OSPF instance there is, if it is in one."""
    lines = [line.split() for text in texts for line in text.splitlines()]
    found = {tuple(line[2:]) for line in lines if line[:2] == ["router", "ospf"]}
    vrf = found.pop() if len(found) == 1 else ()
    return vrf[1] if vrf[:1] == ("vrf",) and len(vrf) == 2 else None


def read(path, with_addresses, report):
    """The router of a file or a folder, with addresses of `ip -br addr` where they are given."""
    router = Router(path)
    reader = Reader(router, report)
    texts = {file: report.read(file) for file in files_of(path)}
    reader.vrf = only_vrf(texts.values())
    if reader.vrf is not None:
        report.assume(Place(path), f"VRF {plain(reader.vrf)}", "the only one that has OSPF")
    for file, text in texts.items():
        reader.read(file, text)
    report.files.append(path)
    for device, place, address in with_addresses and addresses.read(with_addresses, report) or ():
        known = reader.devices.setdefault(device, cli.Device(device, Place(path)))
        if address not in [it for _, it in known.addresses]:
            known.addresses.append((place, address))
    reader.finish()
    return router
