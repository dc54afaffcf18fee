"""Terms as Python functions of an environment: the values of the names bound around the term."""
from .claims import Claim, Exists, Implies
from .declared import Type
from .functions import Function, apply
from .kinds import Kind
from .patterns import field_of, match
from .values import UNIT, Refused, Struct, need, pair
from .words import LAZY


def fresh(kind):
    """A new unknown of a type, or evidence of a statement, with the goals that it has to meet."""
    if isinstance(kind, Kind):
        return kind.fresh(), []
    if hasattr(kind, "parts"):
        return kind.parts()
    if isinstance(kind, Claim):
        return UNIT, [lambda: kind]
    raise Refused(f"{kind!r} is no type")


def _refusal(reason):
    """A term that is refused once it is evaluated."""
    def refuse(_):
        raise Refused(reason)
    return refuse


def _with_fields(code, labels):
    """A term with the fields that are read of it."""
    for label in labels:
        code = lambda env, code=code, label=label: field_of(code(env), label)
    return code


def _global(scope, parts):
    """The value of a name of the module, and the fields read of it."""
    try:
        found, rest = scope.meaning(parts)
        reason = f"{found[1]} is not known here" if found[0] == "missing" else None
    except Refused as refusal:
        reason = str(refusal)
    if reason:
        scope.module.library.lacking.add(reason)
        return None, reason, []
    return found[-1], None, rest


def _name(term, scope):
    """A name."""
    parts = term[1]
    if parts[0] in scope.names:
        name = parts[0]
        return _with_fields(lambda env: env[name], parts[1:])
    value, reason, rest = _global(scope, parts)
    if reason:
        return _refusal(reason)
    return _with_fields(lambda env: value, rest)


def _apply(term, scope):
    """An application. Words that look at their arguments only when they need them get them as
    functions."""
    head, arguments = term[1], [compile_term(part, scope) for part in term[2]]
    if head[0] == "name" and head[1][0] not in scope.names:
        value, reason, rest = _global(scope, head[1])
        if reason:
            return _refusal(reason)
        if not rest and type(value) is Function and len(arguments) == value.arity:
            lazy = LAZY.get(value)
            if lazy:
                return lambda env: lazy(*[lambda code=code: code(env) for code in arguments])
            code = value.code
            return lambda env: code([argument(env) for argument in arguments])
    function = compile_term(head, scope)
    return lambda env: apply(function(env), [argument(env) for argument in arguments])


def _lambda(term, scope):
    """λ x y. e"""
    scope = scope.inner(())
    patterns = [scope.pattern(part) for part in term[1]]
    body = compile_term(term[2], scope)

    def code(given, env):
        inner = dict(env)
        if not all(match(pattern, value, inner) for pattern, value in zip(patterns, given)):
            raise Refused("a function's pattern does not fit")
        return body(inner)
    return lambda env: Function(len(patterns), lambda given: code(given, env))


def _let(term, scope):
    """let x = e in body"""
    value, scope = compile_term(term[2], scope), scope.inner(())
    pattern = scope.pattern(term[1])
    body = compile_term(term[3], scope)

    def code(env):
        inner = dict(env)
        match(pattern, value(env), inner)
        return body(inner)
    return code


def _elim(term, scope):
    """elim e [ p ↦ e | .. ]"""
    value = compile_term(term[1], scope)
    cases = []
    for pattern, body in term[2]:
        inner = scope.inner(())
        pattern = inner.pattern(pattern)
        cases.append((pattern, compile_term(body, inner)))

    def code(env):
        given = value(env)
        for pattern, body in cases:
            inner = dict(env)
            if match(pattern, given, inner):
                return body(inner)
        raise Refused("no case fits")
    return code


def _record(term, scope):
    """record { f = e; .. }"""
    base = compile_term(term[1], scope) if term[1] else None
    given = [(label, compile_term(part, scope)) for label, part in term[2]]

    def code(env):
        fields = dict(need(base(env)).fields) if base else {}
        for label, part in given:
            fields[label] = part(env)
        return Struct(fields)
    return code


def entered(names, kind, env):
    """The goals of names of a kind, which are put into an environment as unknowns; those of the
    kind itself where it has no name."""
    if not names:
        return [lambda: kind(env)]
    goals = []
    for name in names:
        env[name], more = fresh(kind(env))
        goals.extend(more)
    return goals


def _bound(groups, scope):
    """Binders: a function that adds the names to an environment and gives the goals."""
    scope, steps = scope.inner(()), []
    for names, kind in groups:
        steps.append((names, compile_term(kind, scope)))
        scope.names.update(names)

    def expand(env):
        return [goal for names, kind in steps for goal in entered(names, kind, env)]
    return scope, expand


def _product(term, scope):
    """(x : A) × B"""
    _, expand = _bound(term[1], scope)
    return lambda env: Exists(lambda: expand(dict(env)))


def _pi(term, scope):
    """(x : A) → B"""
    scope, expand = _bound(term[1], scope)
    body = compile_term(term[2], scope)

    def both(env):
        inner = dict(env)
        return expand(inner), lambda: body(inner)
    return lambda env: Implies(lambda: both(env))


def _arrow(term, scope):
    """A → B"""
    return _pi(("pi", [([], term[1])], term[2]), scope)


def _tuple(term, scope):
    """(e, f, ..)"""
    parts = [compile_term(part, scope) for part in term[1]]
    return lambda env: pair(*[part(env) for part in parts])


def _field(term, scope):
    """e.f"""
    return _with_fields(compile_term(term[1], scope), [term[2]])


def _constant(value):
    """A term that is its value."""
    return lambda env: value


_COMPILERS = {
    "name": _name, "apply": _apply, "lambda": _lambda, "let": _let, "elim": _elim,
    "record": _record, "product": _product, "pi": _pi, "arrow": _arrow, "tuple": _tuple,
    "field": _field, "number": lambda term, _: _constant(term[1]),
    "text": lambda term, _: _constant(term[1]), "hole": lambda term, _: _constant(None),
    "type": lambda term, _: _constant(Kind(Type("Type")))
}


def compile_term(term, scope):
    """A term as a function of its environment."""
    return _COMPILERS[term[0]](term, scope)
