"""The statements of the standard library that definitions use, each by its definition there."""
from .claims import AllOf, AnyOf, Both, Different, Equal, Implies, Later, Less, Member, Truth
from .functions import apply
from .values import need
from .words import WORDS, lazy, raw

raw("⊤", 0, Truth(True))
raw("⊥", 0, Truth(False))
lazy("◌≡◌", 2, Equal)
lazy("◌≢◌", 2, Different)
lazy("◌<◌", 2, lambda a, b: Less(a, b, 1))
lazy("◌≤◌", 2, lambda a, b: Less(a, b, 0))
lazy("◌<ℤ◌", 2, lambda a, b: Less(a, b, 1, False))
lazy("◌≤ℤ◌", 2, lambda a, b: Less(a, b, 0, False))
lazy("◌⊎◌", 2, lambda a, b: AnyOf([a, b]))
lazy("◌↔◌", 2, Both)
lazy("¬◌", 1, lambda a: Implies(lambda: ([a], lambda: Truth(False))))
for _name, _value in {"IsTrue": True, "T": True, "IsFalse": False}.items():
    lazy(_name, 1, lambda a, value=_value: Equal(a, lambda: value))


def _each(claim, items):
    """A statement of each member."""
    return AllOf([lambda x=x: apply(claim, [x]) for x in need(items)])


def _pairs(claim, items):
    """A statement of each member and each later one."""
    items = need(items)
    return AllOf(
        [lambda x=x, y=y: apply(claim, [x, y]) for i, x in enumerate(items) for y in items[i + 1:]]
    )


def _zipped(claim, xs, ys):
    """A statement of the members of two lists, place by place."""
    xs, ys = need(xs), need(ys)
    return AllOf(
        [lambda x=x, y=y: apply(claim, [x, y]) for x, y in zip(xs, ys)]
    ) if len(xs) == len(ys) else Truth(False)


def _some_member(claim, items):
    """A statement of some member."""
    return AnyOf([lambda x=x: apply(claim, [x]) for x in need(items)])


def _rising(key, items):
    """Numbers of members that do not fall."""
    keys = [need(apply(key, [x])) for x in need(items)]
    return Truth(all(a <= b for a, b in zip(keys, keys[1:])))


for _name, _code in {
    "All": _each, "AllByRecursion": _each, "Any": _some_member, "AllPairs": _pairs,
    "IsNonDecreasingBy": _rising
}.items():
    raw(_name, 2, lambda f, xs, code=_code: Later(lambda: code(f, xs)))
raw("AllZip", 3, lambda f, xs, ys: Later(lambda: _zipped(f, xs, ys)))
raw("Contains", 2, Member)
raw("EachIndex", 2, lambda xs, f: Later(lambda: _each(f, tuple(range(len(need(xs)))))))
raw("SomeIndex", 2, lambda xs, f: Later(lambda: _some_member(f, tuple(range(len(need(xs)))))))
raw(
    "FitsSigned", 2,
    lambda w, z: Later(lambda: Truth(-2**(need(w) - 1) <= need(z) < 2**(need(w) - 1)))
)


def _by_name(name, then, otherwise):
    """A statement of what a constructor of this name holds, or else another one."""
    def claim(value):
        made = need(value)
        return then(made.values) if made.name == name else otherwise(made.values)
    return lambda value: Later(lambda: claim(value))


TRUE = lambda _: Truth(True)
raw("MatchOption", 3, lambda o, p, q: _by_name("Some", lambda v: apply(q, list(v)), lambda _: p)(o))
raw(
    "MatchResult", 3,
    lambda r, p, q: _by_name("Ok", lambda v: apply(p, list(v)), lambda v: apply(q, list(v)))(r)
)
raw("IfSome", 2, lambda o, p: _by_name("Some", lambda v: apply(p, list(v)), TRUE)(o))
raw(
    "IsSomeAnd", 2,
    lambda o, p: _by_name("Some", lambda v: apply(p, list(v)), lambda _: Truth(False))(o)
)
raw("IfNone", 2, lambda o, p: _by_name("None", lambda _: p, TRUE)(o))
raw("OnSome", 2, lambda o, p: _by_name("Some", lambda _: p, TRUE)(o))
raw("IfOk", 2, lambda o, p: _by_name("Ok", lambda v: apply(p, list(v)), TRUE)(o))
raw("IfErr", 2, lambda o, p: _by_name("Err", lambda v: apply(p, list(v)), TRUE)(o))
raw("OnOk", 2, lambda o, p: _by_name("Ok", lambda _: p, TRUE)(o))
raw("OnErr", 2, lambda o, p: _by_name("Err", lambda _: p, TRUE)(o))
for _word, _made in {"IsSome": "Some", "IsNone": "None", "IsOk": "Ok", "IsErr": "Err"}.items():
    raw(_word, 1, _by_name(_made, TRUE, lambda _: Truth(False)))
raw("MatchBool", 3, lambda b, p, q: Later(lambda: p if need(b) else q))
raw("OnTrue", 2, lambda b, p: Later(lambda: p if need(b) else Truth(True)))
raw("OnFalse", 2, lambda b, p: Later(lambda: Truth(True) if need(b) else p))

__all__ = ["WORDS"]
