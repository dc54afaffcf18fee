"""An OSPFv2 area, computed from its LSAs: tables, paths, changes, and checks of configurations.

Each call answers as a command of the program `ospfd` does, byte for byte. LSAs are a text with a
line of hexadecimal digits for each, as in the files of `ospfd table`. A Router ID or an address is
text such as "10.0.0.1", or its number.

    import ospf

    lsas = open("area.hex").read()
    print(ospf.table(lsas, "1.1.1.1").text)
    after = ospf.edit(lsas, down=["1.1.1.1-2.2.2.2@10.0.0.0/30"]).text
    print(ospf.diff(lsas, after).text)

A call returns an `Answer`, or raises `Refused` where `ospfd` refuses its input (status 2 or 3) and
`MemoryError` where memory ran out. Calls keep nothing: several threads may call at the same time.
"""
from __future__ import annotations

import ipaddress
import json as _json
from collections.abc import Iterable, Mapping
from dataclasses import dataclass
from typing import Any

from . import _library

__all__ = ["Answer", "Refused", "check", "diff", "dot", "edit", "elements", "failures",
           "failures_json", "lsas", "lsas_json", "path", "simulate", "table", "table_json",
           "tables", "tables_json"]

Text = str | bytes
# No router has this Router ID, so a comparison at it lists no routes.
NOBODY = "0.0.0.0"
Number = str | int | ipaddress.IPv4Address


@dataclass(frozen=True)
class Answer:
    """What a call answers."""

    text: str
    """What `ospfd` prints on standard output."""
    warnings: str
    """What it prints on standard error; empty where there is nothing to warn of."""
    status: int
    """The status that it ends with."""


class Refused(ValueError):
    """The input is refused: a line, a word or a file. The message is that of `ospfd`; `answer` is
    all that it prints, and `status` is 2 for a word and 3 for the rest."""

    def __init__(self, answer: Answer) -> None:
        super().__init__(answer.warnings.rstrip("\n"))
        self.answer, self.status = answer, answer.status


def _bytes(text: Text) -> bytes:
    return text.encode() if isinstance(text, str) else text


def _number(value: Number) -> int:
    return int(ipaddress.IPv4Address(value))


def _words(words: Iterable[str]) -> bytes:
    """Words, one a line."""
    found = list(words)
    for word in found:
        if "\n" in word or "\r" in word:
            raise ValueError(f"{word!r} is not one word")
    return "".join(f"{word}\n" for word in found).encode()


def _call(name: str, *words: Any, refuses: bool = True) -> Answer:
    text, warnings, status = _library.call(name, words)
    if status == _library.MEMORY:
        raise MemoryError(warnings.decode(errors="replace").rstrip("\n"))
    answer = Answer(text.decode(errors="replace"), warnings.decode(errors="replace"), status)
    if refuses and status >= _library.WORDS:
        raise Refused(answer)
    return answer


def table(lsas: Text, root: Number, addresses: Iterable[Number] = ()) -> Answer:
    """The routing table of a router, and where it sends what goes to the addresses: as
    `ospfd table ROOT ADDRESS..`."""
    numbers = [_number(it) for it in addresses]
    return _call("ospf_table", _bytes(lsas), _number(root), numbers)


def table_json(lsas: Text, root: Number) -> Any:
    """The routing table of a router as a list of routes: as `ospfd table --json ROOT`."""
    return _json.loads(_call("ospf_table_json", _bytes(lsas), _number(root)).text)


def tables(lsas: Text) -> Answer:
    """The routing tables of all routers: as `ospfd table all`."""
    return _call("ospf_tables", _bytes(lsas), False)


def tables_json(lsas: Text) -> Any:
    """The routing tables of all routers as a list: as `ospfd table --json all`."""
    return _json.loads(_call("ospf_tables", _bytes(lsas), True).text)


def lsas(lsas: Text) -> Answer:
    """Each LSA in words: as `ospfd lsas`."""
    return _call("ospf_lsas", _bytes(lsas), False)


def lsas_json(lsas: Text) -> Any:
    """The LSAs as a list: as `ospfd lsas --json`."""
    return _json.loads(_call("ospf_lsas", _bytes(lsas), True).text)


def dot(lsas: Text) -> Answer:
    """The area as a drawing for Graphviz: as `ospfd lsas --dot`."""
    return _call("ospf_dot", _bytes(lsas))


def path(lsas: Text, root: Number, address: Number, choices: Iterable[int] = ()) -> Answer:
    """The path from a router to an address: as `ospfd path ROOT ADDRESS CHOICE..`. A choice is the
    place of the next hop to take, from 0, where a router has several."""
    return _call("ospf_path", _bytes(lsas), _number(root), _number(address), list(choices))


def edit(lsas: Text, *, down: Iterable[str] = (), costs: Iterable[str] | Mapping[str, int] = (),
         drains: Iterable[str] = ()) -> Answer:
    """The LSAs of the area after changes: as `ospfd edit --down NAME --cost WORD --drain ROUTER`.

    `down` has names of links, routers, networks and interfaces as `ospfd failures` prints them.
    `costs` has words such as `1.1.1.1@10.0.0.1=20` or `1.1.1.1-2.2.2.2=20`, or is a mapping from
    the part before `=` to the cost. `drains` has Router IDs.
    """
    if isinstance(costs, Mapping):
        costs = [f"{it}={cost}" for it, cost in costs.items()]
    return _call("ospf_edit", _bytes(lsas), _words(down), _words(costs), _words(drains))


def diff(before: Text, after: Text, root: Number | None = None) -> Answer:
    """What changed between two databases, over the tables of all routers or of one: as
    `ospfd diff before after`. The status is 1 where a route is lost."""
    if root is None:
        return _call("ospf_diff", _bytes(before), _bytes(after))
    return _call("ospf_diff_at", _bytes(before), _bytes(after), _number(root))


# The forms and the carriers of failures, by their words.
_FORMS = {"text": 0, "harm": 1, "json": 2, "json=2": 3}
_CARRIERS = {"process": 0, "switch": 1, "direct": 2}


def _how(form: str, carrier: str, each: bool, strict: bool) -> _library.How:
    if carrier not in _CARRIERS:
        raise ValueError(f"{carrier!r} is none of {', '.join(_CARRIERS)}")
    return _library.How(_FORMS[form], _CARRIERS[carrier], each, strict)


def failures(lsas: Text, root: Number, *, each: bool = False, strict: bool = False,
             harm: bool = False, carrier: str = "process") -> Answer:
    """What each failure of a link, an interface, a network or a router changes in the table of a
    router: as `ospfd failures ROOT`, with the options of the same names. `carrier` is `process`,
    `switch` or `direct`. With `strict` the status is 1 where a prefix is cut off."""
    how = _how("harm" if harm else "text", carrier, each, strict)
    return _call("ospf_failures_at", _bytes(lsas), _number(root), how)


def failures_json(lsas: Text, root: Number, *, each: bool = False,
                  carrier: str = "process") -> Any:
    """The same as a list, worst first: as `ospfd failures ROOT --json`."""
    how = _how("json", carrier, each, False)
    return _json.loads(_call("ospf_failures_at", _bytes(lsas), _number(root), how).text)


def elements(lsas: Text) -> list[str]:
    """The names of all that may fail alone: links, interfaces, networks and routers. `edit` takes
    them down by these names. They are what `ospfd diff` lists for an area where nothing was."""
    lines = diff("", lsas, NOBODY).text.splitlines()
    return [line[2:] for line in lines if line.startswith("+ ")]


def check(files: Mapping[str, Text], *, area: bool = False, explain: bool = False,
          all_faults: bool = False) -> Answer:
    """Checks configurations, a text by each name: as `ospfd check FILE..`, with `area` also what is
    wrong between them. A configuration that is refused raises nothing: the status is 3, and the
    warnings say why."""
    how = 2 if all_faults else 1 if explain else 0
    given = [(name.encode(), _bytes(text)) for name, text in files.items()]
    name = "ospf_check_area" if area else "ospf_check"
    return _call(name, given, how, refuses=False)


def simulate(script: Text, files: Mapping[str, Text], *, strict: bool = False) -> Answer:
    """Runs the lines of a script in a world of the routers that the files configure, a text by each
    name: as `ospfd sim SCRIPT CONFIG..`. The status is 1 where an expectation is not met, with
    `strict` also where a line is refused. A script that is refused raises nothing."""
    given = [(name.encode(), _bytes(text)) for name, text in files.items()]
    return _call("ospf_sim", _bytes(script), given, strict, refuses=False)
