"""The drawing of an area that changes: between two LSDBs, or as a watch saw it."""
import datetime
import json
import subprocess
import sys

import lsas
from page_parts import area
from watching import asking

SHOWN = ("start", "change", "prefix", "settled", "trouble")
DONE = (asking.DONE, asking.A_ROUTE_IS_LOST)


def named(text, ospfd):
    """The names of all that can fail in an LSDB, each with its kind, in the program's order."""
    found = asking.changes_in(asking.Program(ospfd).diff("", text, "--root", asking.NOBODY))
    return [{"failure": it["name"], "kind": it["kind"]} for it in found]


class Story:
    """Nodes and edges of LSDBs and of changes, each once. What comes first is what is shown."""

    def __init__(self):
        self.nodes, self.by_key = {}, {}

    @property
    def edges(self):
        return list(self.by_key.values())

    def add(self, listed, names):
        """Takes the nodes and the edges of an LSDB. Of one that was before only what has a name of
        its own is taken: of the rest it cannot be said whether it is still there."""
        drawn, is_first = area.Area(listed, names), not self.nodes
        for name, node in drawn.nodes.items():
            known = self.nodes.get(name)
            if known is None or known["kind"] == "absent":
                self.nodes[name] = node
        for number, edge in enumerate(drawn.edges):
            key = None if edge.failure is None else names[edge.failure]["failure"]
            if key is not None or is_first:
                self.by_key.setdefault(key or number, edge)

    def add_name(self, name, kind):
        """Takes what only a change names, and which LSDB had it is not known."""
        if name in self.nodes or name in self.by_key:
            return
        drawn = area.Area([], [{"failure": name, "kind": kind}])
        for it, node in drawn.nodes.items():
            self.nodes.setdefault(it, node)
        for edge in drawn.edges:
            self.by_key[name] = edge
        if kind in ("router", "network"):
            self.nodes[name]["kind"] = kind

    def data(self):
        """For the page: each node, and each edge with its name in changes, or null."""
        places = {name: number for number, name in enumerate(self.nodes)}
        nodes = [{key: it.get(key) for key in ("id", "kind", "prefix", "at") if key in it}
                 for it in self.nodes.values()]
        edges = [{"a": places[it.one], "b": places[it.other], "kind": it.kind, "ends": it.ends,
                  "subnet": it.subnet, "name": key if isinstance(key, str) else None}
                 for key, it in self.by_key.items()]
        return {"nodes": nodes, "edges": edges}


def listed(ospfd, text):
    """The LSAs of an LSDB; where it is refused the tool ends as the program does."""
    ran = subprocess.run([ospfd, "lsas", "--json"], input=text, stdout=subprocess.PIPE, check=False)
    if ran.returncode:
        sys.exit(ran.returncode)
    return json.loads(ran.stdout)


def between(ospfd, before, after):
    """What differs between two files: the drawing of both, the changes, and the routes."""
    ran = subprocess.run([ospfd, "diff", before, after], stdout=subprocess.PIPE, check=False)
    if ran.returncode not in DONE:
        sys.exit(ran.returncode)
    lines = ran.stdout.decode("utf-8", "replace").splitlines()
    story = Story()
    for text in (lsas.read(after), lsas.read(before)):
        story.add(listed(ospfd, text), named(text.decode("ascii", "replace"), ospfd))
    routes = [list(found.groups()) for found in map(asking.ROUTE.fullmatch, lines) if found]
    changes = [{"event": "change", "time": 0, **it} for it in asking.changes_in(lines)]
    return story, {"changes": changes, "routes": routes, "sums": lines[-1] if lines else ""}


def milliseconds(time):
    """A time of a watch in milliseconds since 1970."""
    at = datetime.datetime.strptime(time, "%Y-%m-%dT%H:%M:%S.%f%z")
    return round(at.timestamp() * 1000)


def watched(ospfd, text, name):
    """What a watch saw: the drawing of an LSDB and of all that its events name, and the events."""
    story, events = Story(), []
    story.add(listed(ospfd, text), named(text.decode("ascii", "replace"), ospfd))
    for number, line in enumerate(lsas.read(name).decode("utf-8", "replace").splitlines(), 1):
        if not line.strip():
            continue
        try:
            event = json.loads(line)
            event["time"] = milliseconds(event["time"])
            if event["event"] == "change" and event["change"] != "cost":
                story.add_name(event["name"], event["kind"])
        except (ValueError, KeyError, TypeError, AttributeError):
            lsas.end(lsas.REFUSED, f"{name}: line {number}: not an event of ospfd-watch --json")
        if event["event"] in SHOWN:
            events.append(event)
    events.sort(key=lambda it: it["time"])
    return story, {"changes": events, "routes": None, "sums": None}
