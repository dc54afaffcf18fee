"""Terms of definitions, as nested tuples. The first member says which term it is:

    ("name", [part, ..])         ("number", n)                  ("text", s)
    ("apply", f, [term, ..])     ("lambda", [pattern, ..], e)   ("field", e, label)
    ("record", base, [(label, e), ..])                          ("tuple", [term, ..])
    ("elim", e, [(pattern, e), ..])                             ("let", name, e, body)
    ("pi", [(names, type), ..], body)    ("arrow", a, b)        ("product", [(names, type), ..])
    ("implicit", name, term)     ("hole",)                      ("type",)
"""
from .lexer import RESERVED, Unreadable, number_of

# How tightly an operator binds, and whether it leans right. The numbers are those of the libraries
# that declare them.
OPERATORS = {
    "≡": (4, 0), "≢": (4, 0), "||": (30, 0), "&&": (35, 0), "==": (40, 0), "<": (50, 0),
    "≤": (50, 0)
}
OPERATORS.update(
    {"<ℤ": (50, 0), "≤ℤ": (50, 0), "+": (65, 0), "-": (65, 0), "+ℤ": (65, 0), "-ℤ": (65, 0)}
)
OPERATORS.update(
    {"++": (65, 1), "∷": (67, 1), "*": (70, 0), "/": (70, 0), "%": (70, 0), "*ℤ": (70, 0)}
)
OPERATORS.update({"^": (75, 1), "↔": (0, 0), "⊎": (1, 1), "×": (2, 1)})


class Implicit(list):
    """Names that are bound in braces: they stand for something, and are given no place among the
    arguments."""


class Parser:
    """Reads terms from the words of one item."""

    def __init__(self, tokens):
        self.tokens = tokens
        self.at = 0

    def fail(self, wanted):
        """Refuses what stands here."""
        token = self.tokens[min(self.at, len(self.tokens) - 1)] if self.tokens else None
        where = f"line {token.line}: {token.text!r}" if token else "the end"
        raise Unreadable(f"{wanted} expected at {where}")

    def peek(self, text, ahead=0):
        """Whether this mark or name stands here."""
        place = self.at + ahead
        return place < len(
            self.tokens
        ) and self.tokens[place].text == text and self.tokens[place].kind != "text"

    def take(self, text):
        """Passes over this mark or name."""
        if not self.peek(text):
            self.fail(repr(text))
        self.at += 1

    def done(self):
        """Whether nothing is left."""
        return self.at >= len(self.tokens)

    def term(self):
        """A whole term: with arrows, which lean right."""
        left = self.operators(0)
        if not self.peek("→"):
            if left[0] == "binders":
                self.fail("'→' or '×'")
            return left
        self.at += 1
        right = self.term()
        return ("pi", left[1], right) if left[0] == "binders" else ("arrow", left, right)

    def operator(self):
        """The operator that stands here, if there is one."""
        if self.done() or self.tokens[self.at].kind == "text":
            return None
        return OPERATORS.get(self.tokens[self.at].text)

    def operators(self, least):
        """Operands joined by operators that bind at least so tightly."""
        left = self.operand()
        while True:
            fixity = self.operator()
            if fixity is None or fixity[0] < least:
                return left
            name = self.tokens[self.at].text
            self.at += 1
            if name == "×":
                left = ("product", self.factors(left))
            else:
                right = self.operators(fixity[0] + (0 if fixity[1] else 1))
                left = ("apply", ("name", [f"◌{name}◌"]), [left, right])

    def factors(self, first):
        """The factors of a product, of which one may bind names for those behind it."""
        items = [first]
        while True:
            items.append(self.operators(3))
            if not self.peek("×"):
                break
            self.at += 1
        out = []
        for item in items:
            out.extend(item[1] if item[0] == "binders" else [([], item)])
        return out

    def is_binder(self):
        """Whether names and a colon stand here in brackets."""
        if not (self.peek("(") or self.peek("{")):
            return False
        ahead = 1
        while self.at + ahead < len(self.tokens) and self.tokens[self.at + ahead].kind == "name":
            ahead += 1
        return ahead > 1 and self.peek(":", ahead)

    def binder(self):
        """(x y : A) or {x : A}"""
        close = ")" if self.peek("(") else "}"
        self.at += 1
        names = []
        while not self.peek(":"):
            names.append(self.tokens[self.at].text)
            self.at += 1
        self.at += 1
        kind = self.term()
        self.take(close)
        return (names if close == ")" else Implicit(names), kind)

    def binders(self):
        """All that stand here, with what else reaches to the next arrow."""
        groups = []
        while self.is_binder():
            groups.append(self.binder())
        return ("binders", groups)

    def operand(self):
        """An application, or what reaches as far right as it can."""
        if self.is_binder():
            return self.binders()
        if self.peek("{") and self.tokens[self.at + 1].kind == "name":
            self.fail("a term")
        for word, reader in (("λ", self.function), ("let", self.let), ("if", self.conditional)):
            if self.peek(word):
                return reader()
        head = self.atom()
        arguments = []
        while self.begins_atom():
            arguments.append(self.atom())
        if self.peek("λ"):
            arguments.append(self.function())
        arguments = [a for a in arguments if a[0] != "implicit"]
        return ("apply", head, arguments) if arguments else head

    def begins_atom(self):
        """Whether an atom begins here."""
        if self.done():
            return False
        token = self.tokens[self.at]
        if token.kind in ("number", "text"):
            return True
        if token.kind == "name":
            return token.text not in OPERATORS
        return token.text in ("(", "{", "record", "elim")

    def function(self):
        """λ x (y : A). e"""
        self.take("λ")
        patterns = []
        while not self.peek("."):
            if self.is_binder():
                patterns.extend(("name", [name]) for name in self.binder()[0])
            else:
                patterns.append(self.atom())
        self.take(".")
        return ("lambda", patterns, self.term())

    def let(self):
        """let x = e in body"""
        self.take("let")
        name = self.atom()
        if self.peek(":"):
            self.at += 1
            self.term()
        self.take("=")
        value = self.term()
        self.take("in")
        return ("let", name, value, self.term())

    def conditional(self):
        """if c then a else b"""
        self.take("if")
        parts = [self.term()]
        for word in ("then", "else"):
            self.take(word)
            parts.append(self.operators(5) if word == "else" else self.term())
        return ("apply", ("name", ["if◌then◌else◌"]), parts)

    def atom(self):
        """A term in brackets, a literal or a name, with the fields that are read of it."""
        token = self.tokens[self.at] if not self.done() else self.fail("a term")
        if token.kind in ("number", "text"):
            self.at += 1
            return (
                "number", number_of(token.text)
            ) if token.kind == "number" else ("text", token.text)
        if token.text == "record":
            return self.record()
        if token.text == "elim":
            return self.elim()
        if token.text == "{":
            return self.implicit()
        if token.text == "(":
            return self.fields(self.bracketed())
        if token.kind != "name" or token.text in RESERVED:
            self.fail("a term")
        self.at += 1
        if token.text == "Type":
            self.at += 1
            return ("type",)
        return self.path([token.text]) if token.text != "_" else ("hole",)

    def path(self, parts):
        """A name with what follows its dots: a module's name, or fields."""
        while not self.done() and self.tokens[self.at].kind == "field":
            parts.append(self.tokens[self.at].text)
            self.at += 1
        return ("name", parts)

    def fields(self, term):
        """The fields read of a term in brackets."""
        while not self.done() and self.tokens[self.at].kind == "field":
            term = ("field", term, self.tokens[self.at].text)
            self.at += 1
        return term

    def bracketed(self):
        """(e) or (e, f, ..)"""
        self.take("(")
        items = [self.term()]
        while self.peek(","):
            self.at += 1
            if not self.peek(")"):
                items.append(self.term())
        self.take(")")
        return items[0] if len(items) == 1 else ("tuple", items)

    def implicit(self):
        """{x} or {x = e}"""
        self.take("{")
        name = self.tokens[self.at].text
        self.at += 1
        value = ("name", [name])
        if self.peek("="):
            self.at += 1
            value = self.term()
        self.take("}")
        return ("implicit", name, value)

    def record(self):
        """record { f = e; .. } or record r { f = e; .. }"""
        self.take("record")
        base = None
        if not self.peek("{"):
            base = self.atom()
        self.take("{")
        given = []
        while not self.peek("}"):
            label = self.tokens[self.at].text
            self.at += 1
            self.take("=")
            given.append((label, self.term()))
            if self.peek(";"):
                self.at += 1
        self.take("}")
        return self.fields(("record", base, given))

    def elim(self):
        """elim e [ p ↦ e | .. ]"""
        self.take("elim")
        value = self.operators(3)
        self.take("[")
        cases = []
        while not self.peek("]"):
            if self.peek("|"):
                self.at += 1
            pattern = self.operators(3)
            self.take("↦")
            cases.append((pattern, self.term()))
        self.take("]")
        return ("elim", value, cases)
