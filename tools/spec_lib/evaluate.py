"""The values of definitions: their terms become Python functions of the names bound around them."""
from .claims import AllOf, Claim, Equal, Exists
from .declared import RustEnum, Type
from .functions import Function
from .kinds import Kind
from .parser import Implicit
from .patterns import Scope, match
from .terms import compile_term, entered, fresh
from .values import UNIT, Refused, Stuck, Struct, known

# A type of which nothing is known.
ANY = Kind(Type("?"))


class Defined:
    """A function or a constant, by its clauses."""

    def __init__(self, module, declared, outer=()):
        self.module, self.declared = module, declared
        self.whole = f"{module.name}.{declared.name}"
        self.outer = outer
        self.clauses = None

    def value(self):
        """The function, or the value of a constant."""
        if not self.declared.clauses:
            raise Refused(f"{self.whole} has no clause")
        arity = len(self.declared.clauses[0].patterns)
        if arity:
            return Function(arity, self.call, self.whole)
        return self.call([])

    def prepare(self):
        """The clauses as functions."""
        self.clauses = []
        sources = implicit_sources(self.declared)
        for clause in self.declared.clauses:
            scope = Scope(self.module, set(self.outer))
            patterns = [scope.pattern(p) for p in clause.patterns]
            taken = [(scope.pattern(p), sources.get(name)) for name, p in clause.implicits]
            local = scope.local_functions(clause.local)
            self.clauses.append((patterns, taken, local, compile_term(clause.body, scope)))

    def call(self, arguments, outer=None):
        """What the first clause that fits gives."""
        if self.clauses is None:
            self.prepare()
        for patterns, taken, local, body in self.clauses:
            env = dict(outer) if outer else {}
            if all(match(p, value, env) for p, value in zip(patterns, arguments)):
                for pattern, source in taken:
                    match(pattern, implicit_value(source, arguments), env)
                if local:
                    local(env)
                return body(env)
        raise Refused(f"no clause of {self.whole} fits")


def implicit_sources(declared):
    """Of which argument, and of which parameter of its type, an argument in braces is known."""
    sources, place, kind = {}, 0, declared.type
    names = {name for names, _ in declared.implicit_types for name in names}
    while kind[0] in ("pi", "arrow"):
        groups = kind[1] if kind[0] == "pi" else [([None], kind[1])]
        for bound, domain in groups:
            for _ in bound if not isinstance(bound, Implicit) else ():
                parts = domain[2] if domain[0] == "apply" else []
                for at, part in enumerate(parts):
                    if part[0] == "name" and part[1][0] in names:
                        sources.setdefault(part[1][0], (place, at))
                place += 1
        kind = kind[2]
    return sources


def implicit_value(source, arguments):
    """The value of an argument in braces, where it is known of an explicit one; else it is some
    type."""
    value = known(arguments[source[0]]) if source else None
    if type(value) is Struct and value.origin:
        return value.origin[1][source[1]]
    return ANY


class RecordClaim(Claim):
    """A record type at its parameters: it holds where all its fields can be had."""

    def __init__(self, record, arguments):
        self.record, self.arguments = record, arguments

    def parts(self):
        """The record of new unknowns, and the goals that its fields are."""
        env = dict.fromkeys(self.record.declared.implicit, ANY)
        env.update(zip(self.record.parameters, self.arguments))
        fields, goals = {}, []
        for name, kind in self.record.kinds():
            fields[name] = env[name] = UNIT
            witness = self.record.witnesses.get(name)
            try:
                value, more = (witness(env), []) if witness else fresh(kind(env))
            except Stuck:
                goals.append(lambda kind=kind: kind(env))
                continue
            fields[name] = env[name] = value
            goals.extend(more)
        evidence = Struct(fields, (self.record, self.arguments))
        return evidence, self.record.module.library.keeping(
            self.record.whole, [evidence, *self.arguments], goals
        )

    def run(self):
        yield from Exists(lambda: self.parts()[1]).run()

    def holds_for_all(self, floor):
        return Exists(lambda: self.parts()[1]).holds_for_all(floor)


class RecordType:
    """A record as it is declared."""

    def __init__(self, module, declared):
        self.module, self.declared = module, declared
        self.whole = f"{module.name}.{declared.name}"
        self.parameters = [name for name, _ in declared.parameters]
        self.witnesses = module.library.witnesses_of(self, Scope(module, set(self.parameters)))
        self.compiled = None

    def value(self):
        """The record type, or the function from its parameters to it."""
        if self.parameters:
            return Function(
                len(self.parameters), lambda given: RecordClaim(self, given), self.whole
            )
        return RecordClaim(self, [])

    def kinds(self):
        """The types of the fields, as functions of the names before them."""
        if self.compiled is None:
            scope = Scope(self.module, {*self.parameters, *self.declared.implicit})
            self.compiled = []
            for name, kind in self.declared.fields:
                self.compiled.append((name, compile_term(kind, scope)))
                scope.names.add(name)
        return self.compiled


class DataType:
    """A data type as it is declared: it holds where a constructor's arguments can be had."""

    def __init__(self, module, declared):
        self.module, self.declared = module, declared
        self.whole = f"{module.name}.{declared.name}"
        self.parameters = [name for name, _ in declared.parameters]
        self.scope = Scope(module, {*self.parameters, *declared.implicit})
        self.arity = len(self.parameters) + module.arity(declared.indices)

    def value(self):
        """The type, or the function from what it is given to it."""
        if self.arity:
            return Function(self.arity, self.claim, self.whole)
        return Kind(
            Type(self.declared.name), _Variants(self.declared, self.module), self.module.crate
        )

    def claim(self, arguments):
        """One of the constructors applies."""
        return _OneOf(self, arguments)

    def prepare(self):
        """Compiles what the constructors take."""
        for _, kind in self.declared.constructors:
            _compiled(kind, self.scope.inner(()))

    def ways(self, arguments):
        """Of each constructor a function that gives the goals of its arguments."""
        env = dict.fromkeys(self.declared.implicit, ANY)
        env.update(zip(self.parameters, arguments))
        given = arguments[len(self.parameters):]
        return [
            lambda kind=kind: _arguments(kind, self.scope.inner(()), dict(env), given) for _,
            kind in self.declared.constructors
        ]


def _compiled(kind, scope):
    """The arguments of a constructor: names, and their type as a function of those before. And what
    is behind them."""
    out = []
    while kind[0] in ("pi", "arrow"):
        for names, domain in kind[1] if kind[0] == "pi" else [([], kind[1])]:
            out.append((names, compile_term(domain, scope)))
            scope.names.update(names)
        kind = kind[2]
    return out, kind


def _arguments(kind, scope, env, given):
    """The goals that the arguments of a constructor are, and that what it makes is of these
    indices."""
    compiled, result = _compiled(kind, scope)
    goals = [goal for names, domain in compiled for goal in entered(names, domain, env)]
    made = result[2][-len(given):] if given else []
    for term, value in zip(made, given):
        term = compile_term(term, scope)
        goals.append(lambda term=term, value=value: Equal(lambda: term(env), lambda: value))
    return goals


class _OneOf(Claim):
    """A data type at its parameters, as a statement."""

    def __init__(self, data, arguments):
        self.data, self.arguments = data, arguments

    def run(self):
        for way in self.data.ways(self.arguments):
            yield from AllOf(way()).run()


class _Variants:
    """What `Kind` asks of a library, for a data type of definitions. What its constructors hold has
    no known type."""

    def __init__(self, declared, module):
        self.crates, self.name = self, declared.name
        variants = [
            (name, [Type("?")] * module.arity(kind)) for name, kind in declared.constructors
        ]
        self.found = RustEnum(variants)

    def find(self, name, _):
        """The constructors, as variants."""
        return self.found if name == self.name else None
