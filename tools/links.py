"""The links of a bridge, as its words and the configurations of routers name them."""
import argparse
import re
import socket

from frames import Link
from lsas import REFUSED, end, read

LINK = re.compile(r"([^:/\s]{1,15}):([0-9]{1,5}):([0-9]{1,5})")
DEVICE = re.compile(r"([0-9]{1,2})=([^:/\s]{1,15})(?::([0-9]{1,5}))?")
PORTS = range(1024, 65536)
DEFAULT_MTU = 1500


def port_of(word):
    """A port of a word; None where it is none that ospfd has."""
    return int(word) if int(word) in PORTS else None


def link_of(word):
    """A link of its word, as --link has it."""
    found = LINK.fullmatch(word)
    port, peer = (port_of(found[2]), port_of(found[3])) if found else (None, None)
    if port is None or peer is None or port == peer:
        raise argparse.ArgumentTypeError(
            f"{word}: not DEVICE:PORT:PEER with two ports from 1024 to 65535"
        )
    return found[1], port, peer, Link()


def interfaces_of(name):
    """The tables [[interface]] of a configuration that are links: those that are not passive."""
    try:
        import tomllib
    except ImportError:
        what = "configurations need Python 3.11 or later: name the ports with --link"
        end(REFUSED, f"{name}: {what}")
    try:
        tables = tomllib.loads(read(name).decode()).get("interface")
    except (ValueError, RecursionError) as error:
        end(REFUSED, f"{name}: not valid TOML: {error}")
    if not isinstance(tables, list) or not all(isinstance(table, dict) for table in tables):
        end(REFUSED, f"{name}: no [[interface]] tables")
    return [table for table in tables if table.get("passive") is not True]


def link_of_table(name, number, table, device, peer):
    """The link that an interface of a configuration has over a device."""
    place = f"{name}: link {number}"
    port, peers, mtu = table.get("port", 0), table.get("peers", []), table.get("mtu", DEFAULT_MTU)
    if not isinstance(peers, list) or not all(
        isinstance(one, int) and one in PORTS for one in [port, *peers]
    ):
        end(REFUSED, f"{place}: its port and peers must be from 1024 to 65535")
    if not peers:
        end(REFUSED, f"{place}: no peers: add a free port for the bridge, as peers = [PORT]")
    if peer is None and len(peers) != 1:
        how = f"as {number}={device}:PEER"
        end(REFUSED, f"{place}: {len(peers)} peers: choose the one of the bridge, {how}")
    if peer is not None and peer not in peers:
        end(REFUSED, f"{place}: {peer} is not one of its peers")
    peer = peers[0] if peer is None else peer
    if peer == port:
        what = "both its port and its peer: it would receive its own packets"
        end(REFUSED, f"{place}: {peer} is {what}")
    try:
        address = socket.inet_pton(socket.AF_INET, table["address"].split("/")[0])
    except (KeyError, AttributeError, OSError, ValueError):
        end(REFUSED, f"{place}: no valid address")
    if not isinstance(mtu, int):
        end(REFUSED, f"{place}: mtu: not a number")
    return device, port, peer, Link(address, mtu)


def links_of_config(name, words, parser):
    """The links that --config asks for: of each LINK=DEVICE one."""
    found = [(word, DEVICE.fullmatch(word)) for word in words]
    for word, match in found:
        if match is None or (match[3] and port_of(match[3]) is None):
            parser.error(f"{word}: not LINK=DEVICE or LINK=DEVICE:PEER")
    tables = interfaces_of(name)
    for _, match in found:
        number = int(match[1])
        if number >= len(tables):
            end(REFUSED, f"{name}: no link {number}")
        yield link_of_table(name, number, tables[number], match[2], match[3] and int(match[3]))
