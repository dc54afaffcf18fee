"""What `ospfd` says of the LSDB that a watcher keeps: what changed, what that did to the area, and
what a single failure would do. Nothing of that is computed here."""
import json
import os
import re
import subprocess
import tempfile

# A router that no area has: `diff --root` compares no routing table then.
NOBODY = "255.255.255.255"
SECONDS_AT_MOST = 120
DONE, A_ROUTE_IS_LOST = 0, 1
COST = re.compile(r"cost (\S+) (\S+) to (\S+): (\d+) -> (\d+)")
TOTAL = re.compile(r"routes: (\d+) lost, (\d+) gained, (\d+) longer, (\d+) shorter, (\d+) rerouted,"
                   r" at (\d+) routers")
KINDS_OF_ROUTES = ("lost", "gained", "longer", "shorter", "rerouted")
ROUTE = re.compile(rf"(\S+) ({'|'.join(KINDS_OF_ROUTES)}) (\S+) (.*)")


class Trouble(Exception):
    """The program did not answer, or refused what it was given."""


def kind_of(name):
    """What a name of `ospfd diff` and `ospfd failures` names."""
    if name.startswith("@"):
        return "network"
    head, _, _ = name.partition("@")
    if "-" in head or ":" in head:
        return "link"
    return "attachment" if "@" in name else "router"


class Program:
    """The program, and a folder for what it reads."""

    def __init__(self, path):
        self.path, self.folder = path, tempfile.TemporaryDirectory(prefix="ospfd-watch-")

    def ask(self, *words, given, statuses=(DONE,)):
        try:
            done = subprocess.run([self.path, *words], input=given, capture_output=True, text=True,
                                  timeout=SECONDS_AT_MOST, check=False, errors="replace")
        except (OSError, subprocess.TimeoutExpired) as fault:
            raise Trouble(f"{words[0]}: {fault}") from None
        if done.returncode not in statuses:
            lines = done.stderr.strip().splitlines()
            raise Trouble(f"{words[0]}: status {done.returncode}: {lines[0] if lines else ''}")
        return done.stdout

    def diff(self, before, after, *words):
        """The lines of what changed from one LSDB to the other."""
        path = os.path.join(self.folder.name, "before")
        with open(path, "w", encoding="ascii") as file:
            file.write(before)
        statuses = (DONE, A_ROUTE_IS_LOST)
        return self.ask("diff", *words, path, "-", given=after, statuses=statuses).splitlines()

    def changes(self, before, after):
        """The links, interfaces, networks and routers that went or came, and the costs that
        changed, each as an object."""
        return changes_in(self.diff(before, after, "--root", NOBODY))

    def prefixes(self, text):
        """The prefixes that are advertised, of stub networks and of transit networks."""
        found = set()
        for lsa in json.loads(self.ask("lsas", "--json", given=text) or "[]"):
            if lsa["lsa"] == "network":
                found.add(lsa["prefix"])
            found.update(link["prefix"] for link in lsa.get("links", ()) if link["link"] == "stub")
        return found

    def effect(self, before, after):
        """How many routes changed in each way, at how many routers, and which were lost where."""
        counts, lost = {}, []
        for line in self.diff(before, after):
            if total := TOTAL.fullmatch(line):
                counts = dict(zip((*KINDS_OF_ROUTES, "routers"), map(int, total.groups())))
            elif (route := ROUTE.fullmatch(line)) and route[2] == "lost":
                lost.append({"router": route[1], "prefix": route[3]})
        return counts, lost

    def tables(self, text):
        """All routing tables, as `table all --json` prints them."""
        return self.ask("table", "all", "--json", given=text)

    def reaching(self, text):
        """All routers, and those that have a route through a neighbor."""
        tables = json.loads(self.tables(text) or "[]")
        through = {it["root"] for it in tables if any(map(is_through, it["routes"]))}
        return {it["root"] for it in tables}, through

    def failures(self, text):
        """What each single failure does, as `failures all --json=2` prints it, the worst first."""
        return self.ask("failures", "all", "--json=2", given=text)

    def single_points(self, text):
        """The failures that cut off a prefix which does not fail itself, with how many routes are
        lost."""
        lines = [json.loads(line) for line in self.failures(text).splitlines()[1:]]
        return {line["failure"]: line["lost"] for line in lines if line["lost"]}


def is_through(route):
    """Whether a route goes through a neighbor."""
    return any(hop != "attached" for hop in route["hops"])


def changes_in(lines):
    found = []
    for line in lines:
        if line[:2] in ("- ", "+ "):
            how = "down" if line[0] == "-" else "up"
            found.append({"change": how, "kind": kind_of(line[2:]), "name": line[2:]})
        elif cost := COST.fullmatch(line):
            router, address, other, old, new = cost.groups()
            found.append({"change": "cost", "router": router, "address": address, "to": other,
                          "old": int(old), "new": int(new)})
    return found
