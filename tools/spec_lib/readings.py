"""How definitions are read that search without end, and what is kept of searches.

A witness says which value a field of a record can only have; the rest of the record then decides.
`IsPath` is read over the paths that pass no vertex twice, and `IsLeast` over the least cost of all
ways: a way that passes a vertex twice is never least, since each turn through a router costs
something.
"""
from .claims import AllOf, Claim, Equal, Later, Truth
from .evaluate import RecordClaim
from .functions import Function, apply
from .search import holds, solve
from .values import TRAIL, Struct, Unknown, ground, is_done, known, resolve, undo, unify

# Of these records, the field that is searched for, as a term of the record's module.
WITNESSES = {
    "ospf_lsa.Link.AreLinks": {"entries": "entries_in count bytes"},
    "ospf_lsa.Value.Spells": {"age_field": "number_at 0 2 lsa"},
    "ospf_lsa.Value.IsInGrammar": {"value": "value_of lsa"},
    "ospf_lsa.Value.IsMade": {"sum": "v.header.sum"},
}
# Searches whose results are kept, by the record or function.
KEPT = {"ospf_graph.Routes.Way", "ospf_graph.Routes.IsEnd"}
# The least cost of the ways to a prefix, and what is decided of ways.
LEAST = {}
EDGE = ("from", "to", "cost", "link_data")


class Kept(Claim):
    """A statement whose ways are searched once for the same values. Lists count as the same if they
    are one object.

    Where the last value was unknown in an earlier search, the ways for a known one are those of
    that search.
    """

    store = {}
    by_last = {}

    def __init__(self, name, values, goals):
        self.name, self.values, self.goals = name, values, goals

    def key(self):
        """The values, in which unknowns are numbered as they come, and the lists among them."""
        numbers, held = {}, []

        def named(value):
            value = known(value)
            if type(value) is Unknown:
                return numbers.setdefault(value.serial, len(numbers))
            if type(value) is tuple:
                held.append(value)
                return ("list", id(value))
            if getattr(value, "done", False):
                return value
            if type(value) is Struct:
                return tuple(named(part) for part in value.fields.values())
            return (value.name, *map(named, value.values)) if hasattr(value, "values") else value
        return (self.name, *map(named, self.values)), held

    def ways(self):
        """The values of each way."""
        key, held = self.key()
        if key in self.store:
            return self.store[key][1]
        last = resolve(self.values[-1])
        if is_done(last) and key[:-1] in self.by_last:
            return self.by_last[key[:-1]].get(last, [])
        mark, found = len(TRAIL), {}
        for _ in solve(self.goals):
            values = tuple(map(resolve, self.values))
            found[tuple(v for v in values if type(v) is not tuple)] = values
        undo(mark)
        self.store[key] = held, list(found.values())
        if not is_done(last) and all(is_done(values[-1]) for values in found.values()):
            index = self.by_last.setdefault(key[:-1], {})
            for values in found.values():
                index.setdefault(values[-1], []).append(values)
        return self.store[key][1]

    def run(self):
        for values in self.ways():
            mark = len(TRAIL)
            if all(map(unify, self.values, values)):
                yield
            undo(mark)


class SimplePaths(Claim):
    """The paths from a vertex that pass none twice."""

    def __init__(self, edge, start, path, end):
        self.edge, self.start, self.path, self.end = edge, start, path, end

    def edges_from(self, vertex):
        """The edges that begin at a vertex."""
        edge = Struct(
            {label: vertex if label == "from" else Unknown(self.kind(label)) for label in EDGE}
        )
        goal = lambda: apply(self.edge, [edge])
        name, given = self.edge.given
        return edge, (Kept(name, [edge, *given], [goal]) if name else AllOf([goal]))

    def kind(self, label):
        """The type of a field of an edge; of the vertex that it leads to alone it matters."""
        return self.vertex if label == "to" else None

    def run(self):
        self.found = {}
        start = ground(self.start)
        yield from self.further(start, (), frozenset([start]))

    def steps(self, vertex):
        """The edges that begin at a vertex, searched once."""
        if vertex not in self.found:
            edge, claim = self.edges_from(vertex)
            self.found[vertex] = [resolve(edge) for _ in claim.run()]
        return self.found[vertex]

    def further(self, vertex, path, seen):
        """All paths that go on from this one."""
        mark = len(TRAIL)
        if unify(self.path, path) and unify(self.end, vertex):
            yield
        undo(mark)
        for step in self.steps(vertex):
            end = step.fields["to"]
            if end not in seen:
                yield from self.further(end, (*path, step), seen | {end})


def is_path(library, original):
    """`IsPath`, where the path is unknown, over simple paths."""
    vertex = library.at_path(
        ("Rattle", "ospf_graph", "specs", "declared", "graph", "Vertex", "Vertex")
    )[1]

    def code(given):
        if type(known(given[2])) is not Unknown:
            return original.code(given)
        claim = SimplePaths(*given)
        claim.vertex = vertex
        return claim
    return Function(original.arity, code, original.name)


def is_least(library, original):
    """`IsLeast`: the cost of a way is the least of all costs of ways to its prefix."""
    cost = library.definition("ospf_graph.Routes.way_cost")

    def least(way):
        record, given = way.origin
        key = (id(given[0]), *map(resolve, given[1:]))
        if key not in LEAST:
            evidence, goals = RecordClaim(record, given).parts()
            LEAST[key] = given[0], min(apply(cost, [resolve(evidence)]) for _ in goals[0]().run())
        return LEAST[key][1]

    def code(given):
        way = known(given[0])
        return Equal(lambda: apply(cost, [way]), lambda: least(way))
    return Function(original.arity, code, original.name)


def decided(library, original):
    """A statement of evidence that is decided once."""
    def holds_of(way):
        key = (original.name, way, id(way.origin[1][0]), *map(resolve, way.origin[1][1:]))
        if key not in LEAST:
            LEAST[key] = way.origin[1][0], holds(original.code([way]))
        return LEAST[key][1]

    def code(given):
        return Later(lambda: Truth(holds_of(ground(given[0]))))
    return Function(original.arity, code, original.name)


def are_bytes(library, original):
    """`AreBytes`: past the end of a list stands 0."""
    return Function(
        original.arity, lambda given: Later(lambda: Truth(all(b < 256 for b in known(given[0])))),
        original.name
    )


def kept(name):
    """A function whose searches are kept."""
    def reading(library, original):
        return Function(
            original.arity, lambda given: Kept(name, given, [lambda: original.code(given)]),
            original.name
        )
    return reading


def remembered(library, original):
    """A function that remembers its values."""
    values = {}

    def code(given):
        key = tuple(map(resolve, given))
        if not all(map(is_done, key)):
            return original.code(given)
        if key not in values:
            values[key] = original.code(given)
        return values[key]
    return Function(original.arity, code, original.name)


READINGS = {
    "ospf_graph.Graph.path_cost": remembered,
    "ospf_graph.Routes.hop_of": remembered,
    "ospf_graph.Graph.IsPath": is_path,
    "ospf_graph.Routes.IsLeast": is_least,
    "ospf_graph.Routes.IsChosen": decided,
    "ospf_graph.Routes.IsEnd": kept("ospf_graph.Routes.IsEnd"),
    "ospf_base.Bytes.AreBytes": are_bytes,
}


def forget():
    """Drops what is kept of searches."""
    for store in (Kept.store, Kept.by_last, LEAST):
        store.clear()
