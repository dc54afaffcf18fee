"""What names mean in a module, and patterns."""
from .functions import Function
from .values import Made, Refused, Struct, Unknown, known, need


class Scope:
    """What names mean at a place of a module: the local ones, and those of the module."""

    def __init__(self, module, names):
        self.module, self.names = module, names

    def inner(self, names):
        """The scope with more local names."""
        return Scope(self.module, self.names | set(names))

    def meaning(self, parts):
        """What a name of several parts means, and the fields that are read of it."""
        found = self.module.child(parts[0], parts[1]) if len(parts) > 1 else None
        if found:
            return found, parts[2:]
        return self.module.look_up(parts[0]) or ("missing", parts[0]), parts[1:]

    def pattern(self, term):
        """A pattern, of which each name that is no constructor's is bound."""
        if term[0] == "hole":
            return ("any",)
        if term[0] == "number":
            return ("number", term[1])
        if term[0] == "tuple":
            return ("made", "tuple", [self.pattern(part) for part in term[1]], None)
        head, parts = (term[1], term[2]) if term[0] == "apply" else (term, [])
        if head[0] != "name":
            raise Refused(f"a pattern {term!r}")
        found, rest = self.meaning(head[1])
        if found[0] == "constructor" and not rest:
            return ("made", found[1], [self.pattern(part) for part in parts], found[2])
        if len(head[1]) > 1 or parts:
            return ("missing", ".".join(head[1]))
        self.names.add(head[1][0])
        return ("bind", head[1][0])

    def local_functions(self, declared):
        """What binds the functions behind a `where`."""
        if not declared:
            return None
        self.names.update(d.name for d in declared)
        makers = [(d, self.module.library.local(self.module, d, set(self.names))) for d in declared]

        def bind_all(env):
            for function, defined in makers:
                arity = len(function.clauses[0].patterns)
                code = lambda given, defined=defined: defined.call(given, env)
                env[function.name] = Function(arity, code, function.name) if arity else code([])
        return bind_all


_NUMBERS = {
    "zero": lambda v: v == 0, "suc": lambda v: v > 0, "pos": lambda v: v >= 0,
    "negsuc": lambda v: v < 0
}
_BEHIND = {"suc": lambda v: v - 1, "pos": lambda v: v, "negsuc": lambda v: -v - 1}


def match(pattern, value, env):
    """Whether a value fits a pattern, whose names are then bound."""
    kind = pattern[0]
    if kind == "any":
        return True
    if kind == "bind":
        env[pattern[1]] = value
        return True
    if kind == "missing":
        raise Refused(f"{pattern[1]} is not known here")
    value = _typed(known(value), pattern)
    if kind == "number":
        return value == pattern[1]
    name, parts = pattern[1], pattern[2]
    if type(value) is Made:
        return value.name == name and all(match(p, v, env) for p, v in zip(parts, value.values))
    if name == "[]":
        return value == ()
    if name == "◌∷◌":
        return value != () and match(parts[0], value[0], env) and match(parts[1], value[1:], env)
    if name in ("true", "false"):
        return value is (name == "true")
    if name in _NUMBERS:
        return _NUMBERS[name](value) and all(match(p, _BEHIND[name](value), env) for p in parts)
    if name == "tuple" and type(value) is Struct:
        return all(match(p, value.fields[str(i)], env) for i, p in enumerate(parts))
    raise Refused(f"{value!r} is held against {name}")


def _typed(value, pattern):
    """The value; of an unknown of no known type the pattern says which one it is of."""
    if type(value) is Unknown and pattern[-1] is not None and (
        value.type is None or value.type.kind.name == "?"
    ):
        value.type = pattern[-1] if pattern[0] == "made" else None
    return need(value)


def field_of(value, label):
    """A field. A list serves where a vector or what is borrowed is asked for."""
    value = need(value)
    if type(value) is Struct and label in value.fields:
        return value.fields[label]
    if label in ("items", "now"):
        return value
    raise Refused(f"{value!r} has no field {label}")
