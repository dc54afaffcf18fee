"""The words of the standard library that definitions use, as Python functions. Each follows its
definition there."""
from .declared import Type
from .functions import Function, apply, word
from .kinds import Kind
from .values import NONE, UNIT, Made, Struct, ground, known, need, pair, some

WORDS = {}
# Words that get their arguments as functions, so that they look at those alone that they need.
LAZY = {}
LESS, SAME, GREATER = Made("Less"), Made("Equal"), Made("Greater")


def strict(name, arity, code):
    """A word of which each argument is looked at."""
    WORDS[name] = word(arity, lambda *given: code(*map(need, given)), name)


def raw(name, arity, code):
    """A word that gets its arguments as they are."""
    WORDS[name] = word(arity, code, name)


def lazy(name, arity, code):
    """A word that gets each argument as a function."""
    WORDS[name] = Function(arity, lambda given: code(*[lambda v=v: v for v in given]), name)
    LAZY[WORDS[name]] = code


def _divided(a, b):
    """a / b, which is 0 where b is"""
    return a // b if b else 0


def _rest(a, b):
    """a % b, which is a where b is 0"""
    return a % b if b else a


for _name, _code in {
    "+": lambda a, b: a + b, "-": lambda a, b: max(a - b, 0), "*": lambda a, b: a * b,
    "/": _divided, "%": _rest, "^": lambda a, b: a**b, "==": lambda a, b: a == b,
    "+ℤ": lambda a, b: a + b, "-ℤ": lambda a, b: a - b, "*ℤ": lambda a, b: a * b
}.items():
    strict(f"◌{_name}◌", 2, _code)
for _name, _code in {
    "min": min, "max": max, "int_max": max, "int_min": min, "nat_lt": lambda a, b: a < b,
    "nat_le": lambda a, b: a <= b, "int_lt": lambda a, b: a < b, "int_le": lambda a, b: a <= b,
    "int_eq": lambda a, b: a == b, "nat_eq": lambda a, b: a == b, "beq": lambda a, b: a == b,
    "xor": lambda a, b: a != b, "bit_and": lambda a, b: a & b, "bit_or": lambda a, b: a | b,
    "bit_xor": lambda a, b: a ^ b, "abs_diff": lambda a, b: abs(a - b),
    "cast_signed": lambda w, n: n if n < 2**(w - 1) else n - 2**w,
    "cast_unsigned": lambda w, z: z if z >= 0 else 2**w + z
}.items():
    strict(_name, 2, _code)
for _name, _code in {
    "pred": lambda n: max(n - 1, 0), "not": lambda b: not b, "neg_ℤ": lambda z: -z, "nat_abs": abs,
    "unsigned_abs": abs, "count_ones": lambda n: bin(n).count("1")
}.items():
    strict(_name, 1, _code)
for _bits in (8, 16, 32, 64, 128):
    raw(f"w{_bits}", 0, _bits)


# ---- lists

def _at(items, place, other):
    """The member at a place, or else another value."""
    return items[place] if place < len(items) else other


def _put(items, place, value):
    """The list with another member at a place that it has."""
    return (*items[:place], value, *items[place + 1:]) if place < len(items) else items


def _test(test, item):
    """Whether a member passes."""
    return need(apply(test, [item]))


def _found(test, items):
    """The place of the first member that passes, or the length."""
    return next((place for place, item in enumerate(items) if _test(test, item)), len(items))


def _joined(lists):
    """Lists, one after the other."""
    return tuple(item for part in lists for item in need(part))


def _given(values):
    """What is there of several options."""
    return tuple(v.values[0] for v in map(need, values) if v.name == "Some")


def _fold(step, value, items):
    """The value that each member in turn makes of the last one."""
    for item in items:
        value = apply(step, [value, item])
    return value


def _split(test, items):
    """The parts between the members that pass."""
    parts = [[]]
    for item in items:
        parts.append([]) if _test(test, item) else parts[-1].append(item)
    return tuple(map(tuple, parts))


_LISTS = {
    "length": (1, len), "◌++◌": (2, lambda a, b: a + b), "take": (
        2, lambda n, xs: xs[:n]
    ), "drop": (2, lambda n, xs: xs[n:]),
    "reverse": (1, lambda xs: xs[::-1]), "slice_range": (
        3, lambda xs, a, b: xs[a:max(a, b)]
    ), "concat": (1, _joined),
    "map": (2, lambda f, xs: tuple(apply(f, [x]) for x in xs)), "filter": (
        2, lambda f, xs: tuple(x for x in xs if _test(f, x))
    ),
    "find": (2, lambda f, xs: _found_in(f, xs)), "flat_map": (
        2, lambda f, xs: _joined(apply(f, [x]) for x in xs)
    ),
    "filter_map": (
        2, lambda f, xs: _given(apply(f, [x]) for x in xs)
    ), "list_any": (2, lambda f, xs: any(_test(f, x) for x in xs)),
    "list_all": (2, lambda f, xs: all(_test(f, x) for x in xs)), "position_or_len": (2, _found),
    "position": (2, lambda f, xs: some(_found(f, xs)) if _found(f, xs) < len(xs) else NONE),
    "take_while": (
        2, lambda f, xs: xs[:next((i for i, x in enumerate(xs) if not _test(f, x)), len(xs))]
    ),
    "slice_index": (2, lambda xs, i: need(_at(xs, i, 0))), "slice_get": (
        2, lambda xs, i: some(xs[i]) if i < len(xs) else NONE
    ),
    "zip": (
        2, lambda xs, ys: tuple(pair(x, y) for x, y in zip(xs, ys))
    ), "sum": (1, lambda xs: sum(map(need, xs))),
    "sum_by": (
        2, lambda f, xs: sum(need(apply(f, [x])) for x in xs)
    ), "count_by": (2, lambda f, xs: sum(1 for x in xs if _test(f, x))),
    "enumerate_from": (
        2, lambda n, xs: tuple(pair(n + i, x) for i, x in enumerate(xs))
    ), "slice_split": (2, _split),
    "remove": (2, lambda xs, i: xs[:i] + xs[i + 1:]), "bytes_eq": (
        2, lambda a, b: ground(a) == ground(b)
    ),
    "vec_items": (
        1, lambda v: v.fields["items"] if type(v) is Struct else v
    ), "vec_len": (1, lambda v: len(need(WORDS["vec_items"](v)))),
    "range_with_len": (2, lambda a, n: tuple(range(a, a + n))),
}
for _name, (_arity, _code) in _LISTS.items():
    strict(_name, _arity, _code)
raw("get_or", 3, lambda xs, i, d: _at(need(xs), need(i), d))
raw("slice_index_or", 3, lambda xs, i, d: _at(need(xs), need(i), d))
raw("slice_set", 3, lambda xs, i, x: _put(need(xs), need(i), x))
raw("set", 3, lambda xs, i, x: _put(need(xs), need(i), x))
raw("insert", 3, lambda xs, i, x: (*need(xs)[:need(i)], x, *need(xs)[need(i):]))
raw("replicate", 2, lambda n, x: (x,) * need(n))
raw("fold", 3, lambda f, a, xs: _fold(f, a, need(xs)))
raw("push", 2, lambda xs, x: (*need(xs), x))


def _found_in(test, items):
    """The first member that passes, if there is one."""
    place = _found(test, items)
    return some(items[place]) if place < len(items) else NONE


# ---- numbers as bytes, and texts

strict(
    "big_from", 3,
    lambda i, n, xs: sum(need(_at(xs, i + k, 0)) * 256**(n - 1 - k) for k in range(n))
)
strict("big_bytes", 2, lambda n, x: tuple((x % 256**n).to_bytes(n, "big")))
strict("to_be_bytes", 2, lambda w, x: tuple((x % 2**w).to_bytes(w // 8, "big")))
strict("codes", 1, lambda text: tuple(map(ord, text)))
strict("string_bytes", 1, lambda text: tuple(text.encode()) if type(text) is str else text)
strict("decimal", 1, lambda n: tuple(str(n).encode()))
strict("signed_decimal", 1, lambda n: tuple(str(n).encode()))
strict("ipv4_text", 1, lambda xs: tuple(".".join(str(_at(xs, i, 0)) for i in range(4)).encode()))

# ---- options, results and orders

strict("is_some", 1, lambda o: o.name == "Some")
strict("is_none", 1, lambda o: o.name == "None")
strict("is_ok", 1, lambda r: r.name == "Ok")
strict("is_err", 1, lambda r: r.name == "Err")
raw("unwrap_or", 2, lambda o, d: need(o).values[0] if need(o).name == "Some" else d)
raw(
    "option_map", 2,
    lambda f, o: some(apply(f, [need(o).values[0]])) if need(o).name == "Some" else NONE
)
raw(
    "option_and_then", 2,
    lambda f, o: apply(f, [need(o).values[0]]) if need(o).name == "Some" else NONE
)
raw("option_or", 2, lambda o, p: o if need(o).name == "Some" else p)
raw("option_to_list", 1, lambda o: need(o).values)
raw("option_copied", 1, lambda o: o)
raw(
    "ok_or", 2,
    lambda o, e: Made("Ok", need(o).values) if need(o).name == "Some" else Made("Err", (e,))
)
strict("nat_cmp", 2, lambda a, b: LESS if a < b else SAME if a == b else GREATER)
strict("int_cmp", 2, lambda a, b: LESS if a < b else SAME if a == b else GREATER)
raw("ordering_then", 2, lambda a, b: b if need(a).name == "Equal" else a)
lazy("if◌then◌else◌", 3, lambda c, a, b: a() if need(c()) else b())
lazy("cond", 3, lambda c, a, b: a() if need(c()) else b())
lazy("◌&&◌", 2, lambda a, b: need(b()) if need(a()) else False)
lazy("◌||◌", 2, lambda a, b: True if need(a()) else need(b()))

for _name in ("ℕ", "ℤ", "Bool", "List", "Option", "Result", "Vec", "String", "Ordering", "Unit"):
    raw(_name, 0, Kind(Type(_name)))


def _cons(first, rest):
    """A list by its first member and the rest, which may be unknown."""
    rest = known(rest)
    return (first, *rest) if type(rest) is tuple else Made("◌∷◌", (first, rest))


CONSTRUCTORS = {
    "tt": UNIT, "zero": 0, "true": True, "false": False, "[]": (), "None": NONE, "Less": LESS,
    "Equal": SAME, "Greater": GREATER
}
CONSTRUCTORS.update(
    {"suc": word(1, lambda n: need(n) + 1, "suc"), "pos": word(1, lambda n: n, "pos")}
)
CONSTRUCTORS.update(
    {"negsuc": word(1, lambda n: -need(n) - 1, "negsuc"), "◌∷◌": word(2, _cons, "◌∷◌")}
)
CONSTRUCTORS.update({name: Kind.maker(name, 1) for name in ("Some", "Ok", "Err")})
