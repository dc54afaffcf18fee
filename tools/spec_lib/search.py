"""The search that decides statements.

A statement that depends on an unknown raises `Stuck`; the search then takes another goal first, and
tries the few values of the unknown where no goal is left that can run.
"""
from .values import FEW, TRAIL, Refused, Stuck, Unknown
from .values import bind, first_unknown, known, resolve, undo, unify


def holds_for_all(goal, floor):
    """Whether a goal holds whatever the unknowns newer than `floor` are. Those of few values are
    tried with each."""
    try:
        return goal().holds_for_all(floor)
    except Stuck as stuck:
        unknown = known(stuck.unknown)
        values = alternatives(unknown) if type(unknown) is Unknown else None
        if values is None or unknown.serial <= floor:
            raise
    mark = len(TRAIL)
    try:
        for value in values:
            bind(unknown, value)
            if not holds_for_all(goal, floor):
                return False
            undo(mark)
    finally:
        undo(mark)
    return True


def solutions(goal):
    """The ways in which a goal holds: of each, what it says of the unknowns that were there
    before."""
    start, mark = Unknown.count, len(TRAIL)
    out, seen = [], set()
    try:
        for _ in goal().run():
            found = [(u, resolve(u)) for u in TRAIL[mark:] if u.serial <= start]
            key = frozenset((u.serial, value) for u, value in found)
            if key not in seen:
                seen.add(key)
                out.append(found)
            if not found:
                return [found]
    finally:
        undo(mark)
    return out


def solve(goals):
    """Goes through the ways in which all goals hold, taking first those that can run, and
    equalities before others."""
    if not goals:
        yield
        return
    stuck = None
    for quick in (True, False) if len(goals) > 1 else (False,):
        for place, goal in enumerate(goals):
            try:
                claim = goal()
                if quick and not claim.quick:
                    continue
                ways = solutions(lambda: claim)
            except Stuck as reason:
                if stuck is None or alternatives(known(stuck)) is None:
                    stuck = reason.unknown
                continue
            yield from _each_way(ways, goals[:place] + goals[place + 1:])
            return
    yield from _split(known(stuck), goals)


def _each_way(ways, rest):
    """Goes on with the other goals in each way of one."""
    for found in ways:
        mark = len(TRAIL)
        if all(unify(unknown, value) for unknown, value in found):
            yield from solve(rest)
        undo(mark)


def _split(unknown, goals):
    """Tries each of the few values of an unknown on which all goals depend."""
    values = alternatives(unknown)
    if values is None:
        raise Stuck(unknown)
    for value in values:
        mark = len(TRAIL)
        bind(unknown, value)
        yield from solve(goals)
        undo(mark)


def alternatives(unknown):
    """The values that an unknown may have, or None where there is no end of them. Constructors hold
    new unknowns."""
    if type(unknown) is not Unknown:
        return None
    if unknown.limit is not None:
        return list(range(unknown.limit)) if unknown.limit <= FEW else None
    return unknown.type.alternatives() if unknown.type is not None else None


def holds(claim):
    """Whether a statement without unknowns holds."""
    if not hasattr(claim, "run"):
        raise Refused("this is no statement")
    for _ in claim.run():
        return True
    return False


def all_solutions(goals, values, fixed=True):
    """The values that solve all goals, each once and in the order in which they are found."""
    out = {}
    for _ in solve(goals):
        found = tuple(resolve(value) for value in values)
        if fixed and any(first_unknown(value) is not None for value in found):
            raise Refused("a value is not fixed by what is said of it")
        out.setdefault(found, found)
    return list(out)
