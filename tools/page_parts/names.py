"""Names of routers: a file of lines `ROUTER-ID NAME`."""
import argparse
import ipaddress

import lsas


def names_in(name):
    """The names of routers in a file, by their Router IDs; none if no file is named."""
    found = {}
    text = lsas.read(name).decode("utf-8", "replace") if name else ""
    for number, line in enumerate(text.splitlines(), 1):
        words = line.split(None, 1)
        if not words or words[0].startswith("#"):
            continue
        try:
            router = str(ipaddress.IPv4Address(words[0]))
        except ValueError:
            router = None
        if router is None or len(words) < 2:
            lsas.end(lsas.REFUSED, f"{name}: line {number}: not a Router ID and a name")
        found[router] = words[1].strip()
    return found


def router_of(word):
    """A Router ID of the command line."""
    try:
        return str(ipaddress.IPv4Address(word))
    except ValueError:
        raise argparse.ArgumentTypeError(f"{word}: not a Router ID") from None
