"""The value of any definition at values that are given as words."""
from .claims import Claim, Equal
from .evaluate import RecordClaim
from .functions import Function, apply
from .kinds import Kind
from .patterns import Scope
from .search import all_solutions, holds
from .terms import compile_term, fresh
from .text import read, show
from .values import Refused, Unknown, first_unknown, need


def domains(library, name):
    """The types of what a definition takes, as terms, and the scope in which they are read."""
    module, _, last = name.rpartition(".")
    module = library.module(module)
    declared = module.declared[last]
    kinds = [kind for _, kind in getattr(declared, "parameters", [])]
    rest = declared.type if hasattr(declared, "type") else getattr(declared, "indices", ("type",))
    while rest[0] in ("pi", "arrow"):
        groups = rest[1] if rest[0] == "pi" else [([None], rest[1])]
        kinds.extend(kind for names, kind in groups for _ in names)
        rest = rest[2]
    return kinds, Scope(module, set())


def argument(word, kind, scope):
    """A word's value; the unknown is one of the type that is asked for."""
    if word != "_":
        return read(word)
    try:
        value = compile_term(kind, scope)({})
        return fresh(value)[0] if isinstance(value, (Kind, RecordClaim)) else Unknown()
    except Refused:
        return Unknown()


def evaluate(library, name, *words):
    """eval CRATE.Module.name [VALUE..]: the value of a definition, or whether the statement holds;
    _ is an unknown."""
    value = library.definition(name)
    kinds, scope = domains(library, name)
    kinds += [("hole",)] * (len(words) - len(kinds))
    given = [argument(word, kind, scope) for word, kind in zip(words, kinds)]
    asked = [one for one in given if first_unknown(one) is not None]
    if not asked:
        value = need(apply(value, given))
        if isinstance(value, Function):
            raise Refused(f"{name} takes {value.arity} more")
        return [show(holds(value)) if isinstance(value, Claim) else show(value)]
    result = Unknown()

    def goal():
        found = need(apply(value, given))
        return found if isinstance(found, Claim) else Equal(lambda: found, lambda: result)
    found = all_solutions(
        [goal], asked if _is_statement(library, name) else [*asked, result], False
    )
    return [" ".join(map(show, one)) for one in found] or ["none"]


def _is_statement(library, name):
    """Whether a definition is a statement, and no function to values."""
    module, _, last = name.rpartition(".")
    kind = getattr(library.module(module).declared[last], "type", ("type",))
    while kind[0] in ("pi", "arrow"):
        kind = kind[2]
    return kind[0] == "type"
