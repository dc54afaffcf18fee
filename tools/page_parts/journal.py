"""The journal of `ospfd sim --log` or `ospfd run --log`: its lines, of text or of JSON."""
import json
import re

import lsas

LINE = re.compile(r"([0-9]{1,20}) ([0-9]{1,3}(?:\.[0-9]{1,3}){3}) (.+)")
NEIGHBOUR = re.compile(r"link ([0-9]{1,20}) neighbour (\S+) (\S+) (\S+)")
INTERFACE = re.compile(r"link (\d+) interface (\S+) (\S+) dr (\S+) backup (\S+)")
DROPPED = re.compile(r"link (\d+) dropped (R\d \w+) (\S+)")
RUN = re.compile(r"started|stopped")
OWN = re.compile(r"(issued|flushed|removed) (router|network) (\S+)(?: ([0-9a-f]{8}))?")
ROUTE = re.compile(r"route (\S+) (\d+) (\S+)|no route (\S+)")


class Change:
    """A line of a journal: when, at which router, and what."""

    def __init__(self, tick, router, text):
        self.tick, self.router, self.text = tick, router, text
        self.neighbour, self.is_route = NEIGHBOUR.fullmatch(text), bool(ROUTE.fullmatch(text))
        self.dropped = DROPPED.fullmatch(text)
        others = (INTERFACE, OWN, RUN)
        self.is_known = bool(
            self.neighbour
            or self.is_route
            or self.dropped
            or any(it.fullmatch(text) for it in others)
        )


def text_of(told):
    """The text of a JSON object."""
    event = told["event"]
    if event in ("started", "stopped"):
        return event
    if event == "neighbour":
        return "link {link} neighbour {neighbour} {before} {now}".format(**told)
    if event == "interface":
        return "link {link} interface {before} {now} dr {dr} backup {backup}".format(**told)
    if event == "dropped":
        return "link {link} dropped {cause} {source}".format(**told)
    if event == "route":
        return "route {prefix} {cost} {hops}".format(**told)
    if event == "no route":
        return "no route {prefix}".format(**told)
    return " ".join(
        [event, told["lsa"], told["id"], *([told["number"]] if "number" in told else [])]
    )


def change_of(line):
    """The change that a line tells, if it is one of a journal."""
    if line.startswith("{"):
        try:
            told = json.loads(line)
            line = f"{told['tick']} {told['router']} {text_of(told)}"
        except (ValueError, KeyError, TypeError, RecursionError):
            return None
    found = LINE.fullmatch(line)
    change = Change(int(found[1]), found[2], found[3]) if found else None
    return change if change and change.is_known else None


def changes_in(name):
    """The changes of a journal."""
    found = []
    for number, line in enumerate(lsas.read(name).decode(errors="replace").splitlines(), 1):
        change = change_of(line)
        if change is None:
            lsas.end(lsas.REFUSED, f"{name}: line {number}: not a line of a journal")
        found.append(change)
    if not found:
        lsas.end(lsas.REFUSED, f"{name}: empty journal")
    return found


def stopped_of(changes):
    """The routers that do not run at the end."""
    last = {change.router: change.text for change in changes if RUN.fullmatch(change.text)}
    return {router for router, text in last.items() if text == "stopped"}
