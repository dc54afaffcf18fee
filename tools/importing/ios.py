"""Configurations of Cisco IOS and IOS-XE: the part that decides the LSDB of an area."""
import re

from . import cli
from .model import Refused, Router

# Kilobits a second of an interface, by how its name begins.
SPEEDS = (("FastEthernet", 100_000), ("GigabitEthernet", 1_000_000),
          ("TwoGigabitEthernet", 2_500_000), ("FiveGigabitEthernet", 5_000_000),
          ("TenGigabitEthernet", 10_000_000), ("TwentyFiveGig", 25_000_000),
          ("FortyGigabitEthernet", 40_000_000), ("HundredGig", 100_000_000),
          ("Ethernet", 10_000), ("Serial", 1_544), ("Loopback", 8_000_000), ("Tunnel", 100),
          ("Vlan", 1_000_000), ("Port-channel", 1_000_000), ("BDI", 1_000_000))
UNKNOWN_SPEED = 1_000_000


class Reader(cli.Reader):
    """The rules of IOS."""

    loopback = r"Loopback"
    point_to_point = r"Serial|POS|Tunnel|Dialer|Multilink|Virtual-Template|Virtual-PPP"

    def speed(self, device):
        for name, kilobits in SPEEDS:
            if device.name.startswith(name):
                return kilobits, f"no cost in the file: by {name} and {self.reference} Mbit/s"
        name = re.match(r"[A-Za-z-]*", device.name)[0]
        return UNKNOWN_SPEED, f"no cost in the file: {name or 'it'} taken for 1000 Mbit/s"


def read(path, with_addresses, report):
    """The router of a file."""
    if with_addresses:
        raise Refused("--addresses is for FRR and BIRD: this file has its own")
    router = Router(path)
    reader = Reader(router, report)
    reader.read(path, report.read(path))
    reader.finish()
    return router
