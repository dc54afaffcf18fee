"""Runs that are refused, and the files that they leave as they were."""
import os
import socket
import tempfile

from networks import free_ports, two
from running import Run, different


def taken_port():
    ports = free_ports(3)
    with socket.socket(socket.AF_INET, socket.SOCK_DGRAM) as holder:
        holder.bind(("127.0.0.1", ports[1]))
        return different(
            Run(two(ports), "--tick", "20", "120").ended(),
            5,
            [],
            ["b.toml: socket", f"  port {ports[1]} is in use"],
        )


def one_router_twice():
    """Told are the first file that has the Router ID of an earlier one, and that one."""
    first, second = two(free_ports(3))
    told = different(
        Run([first, first], "1").ended(), 3, [], ["W7 SameRouter", "  1.1.1.1: a.toml, b.toml"]
    )
    return told + different(
        Run([first, second, second, first], "1").ended(),
        3,
        [],
        ["W7 SameRouter", "  2.2.2.2: b.toml, c.toml"],
    )


def no_port():
    ports = free_ports(2)
    return different(
        Run(two([*ports, 0]), "1").ended(),
        3,
        [],
        ["b.toml: no port", "  interface 1: port: 1024 to 65535 wanted"],
    )


def refused_configuration():
    first = two(free_ports(3))[0]
    told = different(
        Run([first, 'router_id = "2.2.2.2"\n'], "1").ended(), 3, [], ["b.toml: C2 Missing"]
    )
    return told + different(
        Run([first, "a = "], "--floor", "7FFFFFFE", "1").ended(), 3, [], ["b.toml: C1 NotToml"]
    )


def unread_file():
    """All files are read before any configuration is looked at."""
    return different(Run(["a = ", None], "1").ended(), 5, [], ["b.toml: not read"])


def refused_floors():
    texts = two(free_ports(3))
    told = []
    no_number = ["floor: not a number", "  eight hexadecimal digits wanted"]
    greatest = ["floor: S2 Floor", "  no number is above 7fffffff"]
    for word, lines in (("8000", no_number), ("7fffffff", greatest), ("7FFFFFFF", greatest)):
        told += different(Run(texts, "--floor", word, "1").ended(), 3, [], lines)
    return told


def refused_words():
    texts = two(free_ports(3))
    told = []
    for words in (
        ["0"],
        ["1000001"],
        ["--tick", "0", "1"],
        ["--tick", "1001", "1"],
        ["--lookup", "10.0.0", "1"],
        ["x"],
    ):
        status, out, _ = Run(texts, *words).ended()
        told += [] if (status, out) == (2, []) else [f"{words}: {status} {out}"]
    return told


def refused_captures():
    """A run that is refused leaves the file of its capture as it was."""
    told = []
    first = two(free_ports(3))[0]
    with tempfile.TemporaryDirectory() as place:
        name = os.path.join(place, "kept.pcap")
        with open(name, "w", encoding="ascii") as file:
            file.write("kept")
        for texts, words in (
            ([first, first], ["1"]),
            ([first], ["--floor", "7fffffff", "1"]),
            ([first, None], ["1"]),
            (["a = "], ["1"]),
            ([first], ["0"]),
        ):
            status, out, _ = Run(texts, "--pcap", name, *words).ended()
            with open(name, encoding="ascii") as file:
                kept = file.read()
            told += (
                []
                if status in (2, 3, 5) and not out and kept == "kept"
                else [f"{words}: {status} {out} {kept!r}"]
            )
    return told


def refused_journal():
    """A run that is refused leaves the file of its journal as it was."""
    with tempfile.NamedTemporaryFile("w", encoding="ascii") as file:
        file.write("kept")
        file.flush()
        status, out, _ = Run(
            two(free_ports(3)), "--log", file.name, "--floor", "7fffffff", "10"
        ).ended()
        with open(file.name, encoding="ascii") as after:
            kept = after.read()
    return [] if (status, out, kept) == (3, [], "kept") else [f"{status} {out} {kept!r}"]


TESTS = [
    taken_port,
    one_router_twice,
    no_port,
    refused_configuration,
    unread_file,
    refused_floors,
    refused_words,
    refused_captures,
    refused_journal,
]
