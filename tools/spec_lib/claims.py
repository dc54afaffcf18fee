"""Statements.

A goal is a function without arguments that gives a statement. `run` of a statement goes through the
ways in which it holds: at each, what it says of the unknowns is bound.
"""
from .search import holds_for_all, solutions, solve
from .values import TRAIL, Stuck, Unknown, bind, known, need, undo, unify


class Claim:
    """A statement. `quick` says that it is decided at once, or not yet."""

    quick = False

    def run(self):
        """Goes through the ways in which it holds."""
        raise NotImplementedError

    def holds_for_all(self, floor):
        """Whether it holds whatever the unknowns are that are newer than `floor`."""
        start, outer = Unknown.count, None
        for found in solutions(lambda: self):
            fixed = [u for u, _ in found if u.serial <= start]
            if not fixed:
                return True
            outer = fixed[0]
        if outer is not None:
            raise Stuck(outer)
        return False


class Truth(Claim):
    """⊤ or ⊥"""

    def __init__(self, value):
        self.value = value

    def run(self):
        if self.value:
            yield


class Equal(Claim):
    """a ≡ b"""

    quick = True

    def __init__(self, a, b):
        self.a, self.b = a, b

    def run(self):
        mark = len(TRAIL)
        if unify(self.a(), self.b()):
            yield
        undo(mark)


class Different(Claim):
    """a ≢ b"""

    quick = True

    def __init__(self, a, b):
        self.a, self.b = a, b

    def run(self):
        a, b = self.a(), self.b()
        mark = len(TRAIL)
        same = unify(a, b)
        asked = TRAIL[mark:]
        undo(mark)
        if same and asked:
            raise Stuck(asked[0])
        if not same:
            yield


class Less(Claim):
    """a < b, or a + 1 > b where `gap` is 0. An unknown natural number below a known one is tried
    with each."""

    def __init__(self, a, b, gap, natural=True):
        self.a, self.b, self.gap, self.natural = a, b, gap, natural

    def run(self):
        a, b = known(self.a()), need(self.b())
        if type(a) is not Unknown:
            if a + self.gap <= b:
                yield
            return
        if not self.natural or b > 2**16:
            raise Stuck(a)
        for value in range(b + 1 - self.gap):
            mark = len(TRAIL)
            bind(a, value)
            yield
            undo(mark)


class AllOf(Claim):
    """All of several goals."""

    def __init__(self, goals):
        self.goals = goals

    def run(self):
        yield from solve(self.goals)

    def holds_for_all(self, floor):
        return all(holds_for_all(goal, floor) for goal in self.goals)


class AnyOf(Claim):
    """One of several goals."""

    def __init__(self, goals):
        self.goals = goals

    def run(self):
        for goal in self.goals:
            yield from goal().run()


class Member(Claim):
    """A value is in a list."""

    def __init__(self, items, value):
        self.items, self.value = items, value

    def run(self):
        for item in need(self.items):
            mark = len(TRAIL)
            if unify(item, self.value):
                yield
            undo(mark)


class Later(Claim):
    """A statement that is known once something else is."""

    def __init__(self, claim):
        self.claim = claim

    def run(self):
        yield from self.claim().run()

    def holds_for_all(self, floor):
        return self.claim().holds_for_all(floor)


class Exists(Claim):
    """A product, of which some factors bind a name: `expand` gives the goals, with new unknowns."""

    def __init__(self, expand):
        self.expand = expand

    def run(self):
        yield from solve(self.expand())

    def holds_for_all(self, floor):
        before = Unknown.count
        goals = self.expand()
        if Unknown.count == before:
            return all(holds_for_all(goal, floor) for goal in goals)
        return Claim.holds_for_all(self, floor)


class Implies(Claim):
    """A → B, or (x : A) → B: `expand` gives the goals on the left, with new unknowns, and the goal
    on the right."""

    def __init__(self, expand):
        self.expand = expand

    def run(self):
        if self.holds_for_all(Unknown.count):
            yield

    def holds_for_all(self, floor):
        goals, conclusion = self.expand()
        mark = len(TRAIL)
        try:
            for _ in solve(goals):
                for unknown in TRAIL[mark:]:
                    if unknown.serial <= floor:
                        raise Stuck(unknown)
                if not holds_for_all(conclusion, floor):
                    return False
        finally:
            undo(mark)
        return True


class Both(Claim):
    """A ↔ B"""

    def __init__(self, a, b):
        self.a, self.b = a, b

    def run(self):
        if self.holds_for_all(Unknown.count):
            yield

    def holds_for_all(self, floor):
        sides = ((self.a, self.b), (self.b, self.a))
        return all(Implies(lambda a=a, b=b: ([a], b)).holds_for_all(floor) for a, b in sides)
