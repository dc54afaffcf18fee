"""Which definitions a text of crates/*/specs cites, and all that a definition rests on."""
import collections
import functools
import re

from rattle import DEFINITION
from specs import NAME, TOKEN, Outside, Word, is_ours, looked_up, module, placed

# What binds names, in parentheses and after a lambda.
BINDER = re.compile(rf"\s*((?:{NAME}\s+)+):\s")
LAMBDA = re.compile(rf"\s*((?:{NAME}\s*)+)\.\s")


class Scan:
    """Goes over the text of a definition and finds the words that it cites, but for those that it
    binds itself."""

    def __init__(self, scope, defined, constructors, bound=()):
        self.scope, self.defined, self.constructors = scope, defined, constructors
        self.bound = [set(bound)]
        self.cited, self.symbols, self.names = {}, set(), {}

    def cite(self, path):
        """Notes what a name stands for, if it is bound nowhere nearer."""
        head, *rest = path.split(".")
        if any(head in names for names in self.bound):
            return
        found = self.defined(head)
        if found is None and head in self.scope:
            found = looked_up(self.scope[head], rest)
        if found is not None:
            self.cited.setdefault(found)
            self.names[path] = found

    def pattern(self, text):
        """The left side of an equation binds its names, but for those of constructors."""
        for found in TOKEN.finditer(text):
            one = found[0]
            self.symbols.add(one)
            if not re.match(NAME, one):
                continue
            head = one.split(".")[0]
            if one[0].isupper() or "." in one or head in self.constructors:
                self.cite(one)
            else:
                self.bound[-1].add(head)

    def text(self, text):
        """A type or an expression."""
        at, before, earlier, pending, records = 0, "", "", [], []
        while found := TOKEN.search(text, at):
            one, at = found[0], found.end()
            self.symbols.add(one)
            if one in "({":
                is_record = one == "{" and "record" in (before, earlier)
                binder = None if is_record else BINDER.match(text, at)
                names = set(binder[1].split()) if binder else set()
                at = binder.end() if binder else at
                self.bound.append(set())
                pending.append(names)
                records.append(is_record)
            elif one in ")}":
                self.bound.pop()
                records.pop()
                self.bound[-1] |= pending.pop()
            elif one == "λ":
                if names := LAMBDA.match(text, at):
                    self.bound[-1] |= set(names[1].split())
                    at = names.end()
            elif before == "let" or (before and before[-1:] in "{;" and records and records[-1]):
                if before == "let":
                    self.bound[-1].add(one)
            elif re.match(NAME, one):
                self.cite(one)
            before, earlier = one, before


def parts_of(lines):
    """The lines of a definition without their comments, those that go on joined to the line that
    they belong to."""
    parts = []
    for line in lines:
        line = re.sub(r"(^|\s)--(\s.*|$)", "", re.sub(r'"(?:[^"\\]|\\.)*"', '""', line))
        if not line.strip() or line.strip() == "where":
            continue
        indent = len(line) - len(line.lstrip())
        begins = (indent == 0 and line[0] not in "}])") or re.match(rf"  (?:pub )?{NAME} : ", line)
        if parts and not begins:
            parts[-1] += " " + line.strip()
        else:
            parts.append(line)
    return parts


def local_names(lines):
    """What the `where` of a function defines."""
    at = next((n for n, line in enumerate(lines) if line.strip() == "where"), len(lines))
    return {found[1] for line in lines[at:] if (found := re.match(rf"\s+({NAME}) : ", line))}


def equation(part, names):
    """The left and the right side of an equation of one of these names, or None."""
    found = re.match(rf"\s*({NAME})(?=\s)", part)
    if not found or found[1] not in names or re.match(rf"\s*{NAME} : ", part):
        return None
    left, equals, right = part.partition(" = ")
    return (left[found.end() :], right) if equals else None


@functools.lru_cache(maxsize=None)
def scanned(word):
    """The scan of a definition, with what it cites."""
    place = module(word.crate, word.module)
    it = place.definitions[word.name]
    scan = Scan(
        place.scope,
        lambda name: place.find(name)
        if name in place.definitions or name in place.constructors
        else None,
        constructors_seen(place),
    )
    locals_ = local_names(it.lines)
    scan.bound[0] |= locals_
    is_record, is_data = (
        re.match(rf"(?:pub )?{kind} ", it.lines[0]) for kind in ("record", "data")
    )
    lines = joined_locals(it.lines, locals_) if locals_ else parts_of(it.lines)
    for part in lines:
        part = re.sub(rf"^{DEFINITION.pattern}", "", part)
        if sides := equation(part, locals_ | {word.name}):
            kept = [set(names) for names in scan.bound]
            scan.pattern(sides[0])
            scan.text(sides[1])
            scan.bound = kept if not locals_ or re.match(r"\s", part) else scan.bound
            continue
        field = re.match(rf"\s+(?:pub )?({NAME}) : ", part)
        kept = [set(names) for names in scan.bound]
        scan.text(part[field.end() :] if field else part)
        if field and (is_record or is_data):
            scan.bound = kept
        if field and is_record:
            scan.bound[0].add(field[1])
    scan.cited.pop(word, None)
    return scan


@functools.lru_cache(maxsize=None)
def citations(word):
    """What a definition cites, in the order in which it does, and its operators by the names that
    they were used by."""
    scan = scanned(word)
    return list(scan.cited) + operators(module(word.crate, word.module).scope, scan.symbols)


def names_in(word):
    """The definitions that a definition cites, by the names that it has for them."""
    return {name: one for name, one in scanned(word).names.items() if isinstance(one, Word)}


def joined_locals(lines, names):
    """As `parts_of`, where each line of a local name begins a part too."""
    again = []
    for part in parts_of(lines):
        pieces = (
            re.split(
                rf"(?<= )(?=(?:{'|'.join(map(re.escape, sorted(names)))}) (?::|[^=]*? = ))", part
            )
            if not part.startswith(("abbrev", "unfoldable"))
            else [part]
        )
        again.extend(" " * (n > 0) + piece for n, piece in enumerate(pieces))
    return again


def constructors_seen(place):
    """Names of constructors that a module's patterns may have in small letters."""
    known = set(place.constructors) | {"zero", "suc", "true", "false", "tt"}
    for name, target in place.scope.items():
        if target[0] == "word":
            parts = target[1].split(".")
            if parts[-1] == "TheVariants":
                known.add(name)
            elif is_ours(parts) and parts[3] not in ("declared", "contracts"):
                home, rest = placed(parts[1], parts[3:])
                if home and (target[2] in home.constructors or rest):
                    known.add(name)
    return known


def operators(scope, symbols):
    """The operators of libraries whose signs stand in a text."""
    found = []
    for name, target in scope.items():
        signs = [sign for sign in name.split("◌") if sign]
        if (
            not re.match(NAME, name)
            and signs
            and target[0] == "word"
            and all(sign in symbols for sign in signs)
        ):
            one = looked_up(target, [])
            if isinstance(one, Outside):
                found.append(
                    one._replace(name="".join(signs) if len(signs) == 1 else " ".join(signs))
                )
    return found


def closure(words):
    """All definitions that these rest on, themselves among them, in the order in which they are
    met."""
    met, wait = dict.fromkeys(words), collections.deque(words)
    while wait:
        for one in citations(wait.popleft()):
            if isinstance(one, Word) and one not in met:
                met[one] = None
                wait.append(one)
    return list(met)
