"""Functions as values: how they are applied, also to fewer or more arguments than they take at
once."""
from .values import Refused, Stuck, Unknown, known

LIMIT = 200_000_000


class Steps:
    """How many calls an evaluation has made; one that makes too many is refused."""

    made = 0


class Function:
    """A function of so many arguments; `code` takes them as a list."""

    __slots__ = ("arity", "code", "name", "given")

    def __init__(self, arity, code, name="λ", given=None):
        self.arity, self.code, self.name, self.given = arity, code, name, given or (None, ())

    def __call__(self, *arguments):
        return apply(self, list(arguments))

    def __repr__(self):
        return f"<{self.name}>"


def apply(function, arguments):
    """The value of a function at these arguments."""
    while arguments:
        function = known(function)
        if type(function) is not Function:
            if hasattr(function, "alternatives"):
                return function
            if type(function) is Unknown:
                raise Stuck(function)
            raise Refused(f"{function!r} is no function")
        missing = function.arity - len(arguments)
        if missing > 0:
            return _partial(function, arguments, missing)
        Steps.made += 1
        if Steps.made > LIMIT:
            raise Refused("too long an evaluation")
        function, arguments = function.code(arguments[:function.arity]), arguments[function.arity:]
    return function


def _partial(function, arguments, missing):
    """The function that takes the missing arguments."""
    given = (function.name, [*function.given[1], *arguments]) if function.name != "λ" else None
    return Function(missing, lambda more: function.code(arguments + more), function.name, given)


def word(arity, code, name):
    """A word of the standard library, or its value where it takes no arguments."""
    return Function(arity, lambda given: code(*given), name) if arity else code
