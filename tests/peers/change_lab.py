"""Labs of FRR in which costs are changed and maintenance windows are kept, one after the other:
what `changes --record` writes. The labs are those of failure_lab.py.
"""
import json

from failure_lab import CABLE, KILLED, MEMBER, SWITCH, cables, direct, subnet_of
from recorder import Recorder, plain, prepare, side_by_side, version

COSTS, WINDOW, DRAIN = "costs are changed", "a maintenance window", "a router is drained"


class Change:
    """What is changed at once, and how it is changed back; `words` are those of `ospfd edit`, for
    the LSDB before."""

    def __init__(self, what, words, turns, dead=()):
        self.what, self.words, self.turns, self.dead = what, words, turns, list(dead)

    def make(self):
        for make, _ in self.turns:
            make()

    def mend(self):
        for _, mend in reversed(self.turns):
            mend()


def side_on(it, number, subnet):
    """The interface of a router on a subnet."""
    return next(side for side in it.node(number).sides if subnet_of(side.address) == subnet)


def set_cost(node, device, cost):
    node.ask("configure terminal", f"interface {device}", f"ip ospf cost {cost}")


def cost(it, number, side, to):
    """A new cost of an interface: its words, and how it is made and mended."""
    node, address = it.node(number), side.address.split("/")[0]
    turn = lambda: set_cost(node, side.device, to), lambda: set_cost(node, side.device, side.cost)
    return ["--cost", f"{node.router}@{address}={to}"], turn


def costs(it, *ends):
    """Several costs at once."""
    found = [cost(it, *end) for end in ends]
    words = [word for words, _ in found for word in words]
    return Change(COSTS, words, [turn for _, turn in found])


def costs_to(it, number, other, to):
    """A new cost of all links from a router to another."""
    node, far = it.node(number), it.node(other)
    addresses = {side.address.split("/")[0] for side in far.sides}
    sides = [side for side in node.sides
             if side.is_line and it.others.get(side.address.split("/")[0]) in addresses]
    turns = [cost(it, number, side, to)[1] for side in sides]
    return Change(COSTS, ["--cost", f"{node.router}-{far.router}={to}"], turns)


def window(*failures):
    """Several failures of a lab at once."""
    dead = [it.dead for it in failures if it.dead]
    change = Change(WINDOW, None, [(it.make, it.mend) for it in failures], dead)
    change.failures = failures
    return change


def drain(it, number):
    """A router becomes a stub router."""
    node = it.node(number)

    def turn(how):
        node.ask("configure terminal", "router ospf", f"{how}max-metric router-lsa administrative")

    words = ["--drain", node.router]
    return Change(DRAIN, words, [(lambda: turn(""), lambda: turn("no "))])


def failures_of(it, what):
    """The failures of a lab of one kind."""
    return [one for one in it.failures if one.what == what]


def changes_of_direct(it):
    def end(number, subnet, to):
        return number, side_on(it, number, subnet), to

    lan, cut, member = "10.200.0.0/24", failures_of(it, CABLE), failures_of(it, MEMBER)
    killed, switch = failures_of(it, KILLED), failures_of(it, SWITCH)[0]
    return [
        costs(it, end(2, "10.100.0.8/30", 40)),
        costs(it, end(1, lan, 5)),
        costs_to(it, 1, 2, 25),
        costs(it, end(3, lan, 1), end(4, "10.100.0.12/30", 60)),
        costs(it, end(1, "10.100.0.20/30", 5), end(5, "10.100.0.24/30", 35),
              end(5, "10.100.0.16/30", 65535)),
        window(cut[0], cut[3], switch),
        window(killed[1], cut[5], member[1]),
        window(killed[3], killed[5]),
        drain(it, 3),
    ]


def changes_of_cables(it):
    def end(number, subnet, to):
        return number, side_on(it, number, subnet), to

    cut, member = failures_of(it, CABLE), failures_of(it, MEMBER)
    return [
        costs(it, end(3, "10.100.0.4/30", 10), end(1, "10.100.0.16/30", 100)),
        costs_to(it, 4, 5, 1),
        costs(it, *(end(number, "10.200.0.0/24", 100) for number in (2, 4, 6))),
        window(cut[4], member[0]),
        drain(it, 2),
    ]


LABS = ((direct, changes_of_direct), (cables, changes_of_cables))


class ChangeRecorder(Recorder):
    """Makes the changes of a lab one after the other, and notes the tables after each."""

    def __init__(self, it, changes):
        super().__init__(it)
        self.changes = changes

    def make(self, change):
        lsas, number = self.database()
        if change.words is None:
            names = [one.name(lsas) for one in change.failures]
            change.words = [word for name in names for word in ("--down", name)]
        change.make()
        after = self.settled(str(change.words), change.dead)
        tables = {root: plain(table) for root, table in after.items()}
        self.recorded.append({"what": change.what, "edit": change.words, "database": number,
                              "tables": tables})
        print(f"{self.it.name}: {' '.join(change.words)}", flush=True)
        change.mend()
        self.settled(f"mended {change.words}", wanted=self.before)

    def run(self):
        with self.it:
            self.start()
            for change in self.changes(self.it):
                self.make(change)
            return {"name": self.it.name, "ends": self.it.others, "databases": self.databases,
                    "changes": self.recorded}


def record(path):
    """Makes all changes, lab beside lab, and writes what was seen."""
    prepare("changes")
    recorders = [ChangeRecorder(make(), changes) for make, changes in LABS]
    done = side_by_side("changes", {it.it.name: it.run for it in recorders})
    labs = [done[make.__name__] for make, _ in LABS]
    with open(path, "w", encoding="utf-8") as file:
        file.write(one_line_each({"frr": version(), "labs": labs}))
    return 0


def one_line_each(recorded):
    """JSON with a line for each LSA and table."""
    labs = []
    for it in recorded["labs"]:
        databases = ",\n".join(
            "[\n" + ",\n".join(f"  {json.dumps(lsa)}" for lsa in lsas) + "]"
            for lsas in it["databases"])
        changes = ",\n".join(
            f'{{"what": {json.dumps(one["what"])}, "edit": {json.dumps(one["edit"])},\n'
            f' "database": {one["database"]}, "tables": {{\n' + ",\n".join(
                f'  "{root}": {json.dumps(table)}' for root, table in one["tables"].items()) + "}}"
            for one in it["changes"])
        labs.append(f'{{"name": "{it["name"]}", "ends": {json.dumps(it["ends"])},\n"databases": [\n'
                    f'{databases}],\n"changes": [\n{changes}]}}')
    return f'{{"frr": "{recorded["frr"]}", "labs": [\n' + ",\n".join(labs) + "]}\n"
