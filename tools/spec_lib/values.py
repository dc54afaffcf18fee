"""Values of definitions, with unknowns in them that a search fills in.

A number (natural or whole) is an int, a truth value a bool, a list a tuple, a String a str.
"""

# How many values a machine's number has, by its name in Rust.
SIZES = {"u8": 2**8, "u16": 2**16, "u32": 2**32, "u64": 2**64, "usize": 2**64}
# An unknown of so few values is tried with each of them.
FEW = 256


class Unknown:
    """A value that a search is to find. `serial` tells the older from the newer; `limit` is above
    all its values."""

    __slots__ = ("value", "bound", "type", "serial", "limit")
    count = 0

    def __init__(self, kind=None, limit=None):
        Unknown.count += 1
        self.bound, self.value = False, None
        self.type, self.serial, self.limit = kind, Unknown.count, limit

    def __repr__(self):
        return repr(self.value) if self.bound else f"?{self.serial}"


class Struct:
    """A record: its fields. `origin` is the record type and its parameters, where the value is
    evidence of one.

    `done` says that nothing in it is unknown.
    """

    __slots__ = ("fields", "origin", "done", "hashed")

    def __init__(self, fields, origin=None):
        self.fields, self.origin, self.done, self.hashed = fields, origin, False, None

    def __eq__(self, other):
        if self is other:
            return True
        if type(other) is not Struct or self.done and other.done and hash(self) != hash(other):
            return False
        return self.fields == other.fields

    def __hash__(self):
        if not self.done:
            return hash(frozenset(self.fields.items()))
        if self.hashed is None:
            self.hashed = hash(frozenset(self.fields.items()))
        return self.hashed

    def __repr__(self):
        return "{" + "; ".join(f"{label} = {value!r}" for label, value in self.fields.items()) + "}"


class Made:
    """A value made by a constructor of this name. `done` says that nothing in it is unknown."""

    __slots__ = ("name", "values", "done", "hashed")

    def __init__(self, name, values=()):
        self.name, self.values = name, tuple(values)
        self.done, self.hashed = not self.values, None

    def __eq__(self, other):
        if self is other:
            return True
        return type(other) is Made and self.name == other.name and self.values == other.values

    def __hash__(self):
        if not self.done:
            return hash((self.name, self.values))
        if self.hashed is None:
            self.hashed = hash((self.name, self.values))
        return self.hashed

    def __repr__(self):
        return "(" + " ".join(
            [self.name, *map(repr, self.values)]
        ) + ")" if self.values else self.name


class Stuck(Exception):
    """What is asked depends on an unknown."""

    def __init__(self, unknown):
        super().__init__(f"depends on {unknown!r}")
        self.unknown = unknown


class Refused(Exception):
    """A definition that cannot be evaluated, with the reason."""


NONE = Made("None")
UNIT = Struct({})
TRAIL = []


def some(value):
    """Some value"""
    return Made("Some", (value,))


def pair(*values):
    """A tuple of several values, as a record whose labels are numbers."""
    return Struct({str(place): value for place, value in enumerate(values)})


def known(value):
    """The value behind unknowns that are found; an unknown where it is not found."""
    while type(value) is Unknown and value.bound:
        value = value.value
    return value


def need(value):
    """The value, which has to be known so far as its outermost part."""
    value = known(value)
    if type(value) is Unknown:
        raise Stuck(value)
    return value


def bind(unknown, value):
    """Says what an unknown is, until it is taken back."""
    unknown.bound, unknown.value = True, value
    TRAIL.append(unknown)


def undo(mark):
    """Takes back what was found since this mark."""
    while len(TRAIL) > mark:
        unknown = TRAIL.pop()
        unknown.bound, unknown.value = False, None


def unify(a, b):
    """Makes two values one, if they can be. What it has bound stays bound also where it fails."""
    a, b = known(a), known(b)
    if a is b:
        return True
    for one, other in ((a, b), (b, a)):
        if type(one) is Unknown:
            bind(one, other)
            return True
    for one, other in ((a, b), (b, a)):
        if type(one) is tuple and type(other) is Made and other.name == "◌∷◌":
            return one != () and unify(one[0], other.values[0]) and unify(one[1:], other.values[1])
    if type(a) is not type(b):
        return False
    if type(a) is tuple:
        return len(a) == len(b) and (a == b or all(map(unify, a, b)))
    if type(a) is Struct or type(a) is Made:
        return a == b if a.done and b.done else _unify_parts(a, b)
    if callable(a):
        raise Refused("two functions are compared")
    return a == b


def _unify_parts(a, b):
    """Makes the parts of two records, or of two values of constructors, one."""
    if type(a) is Struct:
        return all(
            label in b.fields and unify(value, b.fields[label]) for label, value in a.fields.items()
        )
    return a.name == b.name and len(a.values) == len(b.values) and all(
        map(unify, a.values, b.values)
    )


def is_done(value):
    """Whether nothing in a value is unknown, so far as that is known at once."""
    kind = type(value)
    if kind is Struct or kind is Made:
        return value.done
    if kind is tuple:
        return not value or type(value[0]) is int or all(map(is_done, value))
    return kind is not Unknown


def resolve(value):
    """The value with all that is found put in. A value without unknowns stays the same object."""
    value = known(value)
    kind = type(value)
    if kind is Struct and not value.done:
        parts = {label: resolve(part) for label, part in value.fields.items()}
        same = all(part is value.fields[label] for label, part in parts.items())
        out = value if same else Struct(parts, value.origin)
        out.done = all(map(is_done, parts.values()))
        return out
    if kind is Made and not value.done:
        parts = tuple(map(resolve, value.values))
        if value.name == "◌∷◌" and type(parts[1]) is tuple:
            return (parts[0], *parts[1])
        out = value if all(a is b for a, b in zip(parts, value.values)) else Made(value.name, parts)
        out.done = all(map(is_done, parts))
        return out
    if kind is tuple and not is_done(value):
        parts = tuple(map(resolve, value))
        return value if all(a is b for a, b in zip(parts, value)) else parts
    return value


def first_unknown(value):
    """An unknown in the value, if there is one."""
    value = known(value)
    if type(value) is Unknown:
        return value
    parts = ()
    if type(value) is Struct and not value.done:
        parts = value.fields.values()
    elif type(value) is Made:
        parts = value.values
    elif type(value) is tuple and value and type(value[0]) is not int:
        parts = value
    for part in parts:
        found = first_unknown(part)
        if found is not None:
            return found
    return None


def ground(value):
    """The value, in which nothing may be unknown."""
    unknown = first_unknown(value)
    if unknown is not None:
        raise Stuck(unknown)
    return resolve(value)
