"""Routers that are killed at random moments and start again, for tests/peers/service."""
import collections
import os
import struct
import tempfile

from networks import free_ports
from service_place import Place, texts, wait_for

# Costs whose bytes are equal to the LS checksum, which counts by 255.
COSTS = (255, 65280)
# How many packets a router sends before it is killed: some have not begun an adjacency then, and
# some are Full.
LIFE = (1, 40)
UPDATE = 4


def updates(data):
    """The LSAs in the Updates of a capture, whose last packet may be cut."""
    at = 24
    while at + 16 <= len(data):
        kept = struct.unpack_from(">I", data, at + 8)[0]
        packet, at = data[at + 16 : at + 16 + kept], at + 16 + kept
        if len(packet) < kept or len(packet) < 20:
            return
        ospf = packet[4 * (packet[0] & 15) :]
        if len(ospf) > 28 and ospf[1] == UPDATE:
            place = 28
            for _ in range(struct.unpack_from(">I", ospf, 24)[0]):
                length = struct.unpack_from(">H", ospf, place + 18)[0]
                yield ospf[place : place + length]
                place += length


def contents_by_instance(captures):
    """The contents of each instance that the captures have: key, number and checksum; contents are
    all but the age."""
    found = collections.defaultdict(set)
    for path in captures:
        with open(path, "rb") as file:
            for lsa in updates(file.read()):
                found[lsa[3:20]].add(lsa[2:])
    return found


def collisions(program, lives, is_kept, chance):
    """Kills two routers at so many moments: how many instances have several contents, and how many
    there are."""
    ports, captures = free_ports(3), []
    with tempfile.TemporaryDirectory() as folder:
        for number in range(lives):
            places = [
                Place(program, text, "--pcap", "sent.pcap")
                for text in texts(ports, COSTS[number % 2])
            ]
            for which, place in enumerate(places):
                words = ["--state", os.path.join(folder, f"floor-{which}")]
                place.start(*(words + ["--new"] * (number == 0) if is_kept else []))
            packets = chance.randrange(*LIFE)
            wait_for(lambda: all(place.has_sent(packets) for place in places))
            for which, place in enumerate(places):
                place.kill()
                captures.append(os.path.join(folder, f"{number}-{which}.pcap"))
                os.rename(place.path("sent.pcap"), captures[-1])
        found = contents_by_instance(captures)
    return sum(len(contents) > 1 for contents in found.values()), len(found)
