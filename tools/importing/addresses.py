"""Addresses of the interfaces of a router, as `ip -br addr` prints them on Linux: for dialects
whose configurations have none.

    eth0@if7  UP  10.0.0.1/30 fe80::1/64
"""
from .model import Place, interface_of, plain


def read(name, report):
    """The addresses: for each its device, its place and itself."""
    found = []
    for number, line in enumerate(report.read(name).splitlines(), 1):
        words, place = line.split(), Place(name, number)
        text = " ".join(words)
        if not words:
            continue
        if len(words) < 2:
            report.unknown(place, words[0], text)
            continue
        # A peer's address follows that of the interface: `10.0.0.1 peer 10.0.0.2/32`.
        device, rest = words[0].partition("@")[0], words[2:]
        if "peer" in rest:
            report.left(place, plain(text), "an address with a peer")
            continue
        for word in rest:
            if ":" in word or word == "metric" or word.isdigit():
                continue
            address = interface_of(word)
            if address is None:
                report.unknown(place, word, text)
            else:
                found.append((device, place, address))
    return found
