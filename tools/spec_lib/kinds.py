"""Types of values, and the unknowns of each."""
from .declared import RustEnum, is_number
from .functions import Function
from .values import FEW, SIZES, Made, Struct, Unknown


class Kind:
    """A type of values, with the library that knows its parts."""

    def __init__(self, kind, library=None, crate=None):
        self.kind, self.library, self.crate = kind, library, crate

    def __call__(self, *_):
        return self

    def part(self, kind):
        """The type of a part of this one."""
        return Kind(kind, self.library, self.crate)

    def declared(self):
        """What the crate declares of the type."""
        return self.library.crates.find(self.kind.name, self.crate) if self.library else None

    def fresh(self, limit=None):
        """A new unknown of this type; a struct becomes one of unknown fields."""
        if is_number(self.kind):
            size = SIZES[self.kind.name] if limit is None else limit + 1
            return Unknown(self, size if size <= FEW else None)
        declared = self.declared()
        if declared is None or isinstance(declared, RustEnum) or declared.model:
            return Unknown(self)
        return Struct({n: self.part(k).fresh(declared.limits.get(n)) for n, k in declared.fields})

    def alternatives(self):
        """The values of a type that has few, with new unknowns in what constructors hold."""
        if self.kind.name in ("Bool", "bool"):
            return [False, True]
        declared = self.declared()
        if isinstance(declared, RustEnum):
            return [
                Made(n, [self.part(k).fresh() for k in parts]) for n, parts in declared.variants
            ]
        return None

    @staticmethod
    def maker(name, arity):
        """A constructor as a value."""
        return Function(arity, lambda given: Made(name, given), name) if arity else Made(name)
