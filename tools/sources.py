"""The sources of crates/*/src: the public functions with their clauses, the types, and the public
modules."""
import collections
import functools
import os
import re

from ghosts import cited_by
from rattle import TYPE, lines_of, rust_files
from specs import NAME, TOP, Fault, Word

FUNCTION = re.compile(r"\s*pub (?:const |final |unsafe |extern \"C\" )*fn (\w+)")
METHOD = re.compile(r"    (?:const |final |unsafe )*fn (\w+)")
BLOCK = re.compile(r"(?:unsafe )?impl\b(?:<.*?>)?\s*(?:(\w+).* for )?(\w+)")
SMALL = re.compile(r"pub (const|type) ([A-Z]\w*)")
CLAUSE = re.compile(r"\s*(requires|ensures)\b(?: (\w+))? \{")
# The modules of a file, and whether others see them.
MODULE = re.compile(r"\b(pub )?mod (\w+);")

# A public function, a type or an implementation: where its comment, its head and its body begin.
# `owner` is the type of a method.
Item = collections.namedtuple("Item", "kind owner name start head end")


def folder_of(crate):
    folder = os.path.join(TOP, "crates", crate, "src")
    if not crate or not os.path.isdir(folder):
        raise Fault(f"no crate '{crate}'")
    return folder


def commented(lines, at, marks):
    """The line where the comment above a line begins; attributes may be among it."""
    while at and re.match(marks, lines[at - 1]):
        at -= 1
    return at


@functools.lru_cache(maxsize=None)
def items(path):
    """The public functions, types and implementations of a file, in their order."""
    lines, found, owner, is_trait = lines_of(path), [], "", False
    for n, line in enumerate(lines):
        if line[:1].strip() and line[0] not in "}/":
            block, declared = BLOCK.match(line), TYPE.match(line)
            owner, is_trait = (
                (block[2], False)
                if block
                else (declared[2], declared[1] == "trait")
                if declared
                else ("", False)
            )
            if block and block[1]:
                found.append(
                    Item(
                        f"impl {block[1]}",
                        block[2],
                        "",
                        commented(lines, n, r"(///|#\[)"),
                        n,
                        closed(lines, n),
                    )
                )
            elif declared or (declared := SMALL.match(line)):
                found.append(
                    Item(
                        declared[1],
                        "",
                        declared[2],
                        commented(lines, n, r"(///|#\[)"),
                        n,
                        closed(lines, n),
                    )
                )
        if function := FUNCTION.match(line) or (METHOD.match(line) if is_trait else None):
            found.append(
                Item(
                    "fn",
                    owner if line[0] == " " else "",
                    function[1],
                    commented(lines, n, r"\s*(//|#\[)"),
                    n,
                    bodied(lines, n),
                )
            )
    return found


def closed(lines, at):
    """The line on which a block or a declaration ends."""
    if lines[at].endswith(("{}", ";")):
        return at
    while not lines[at].startswith(("}", ")")):
        at += 1
    return at


def bodied(lines, at):
    """The line behind the clauses of a function: that of its body, or of what follows where it has
    none."""
    while not re.match(r"\s*\{", lines[at]) and not re.search(r"\S.*(?:\{|;)$", lines[at]):
        at += 1
    return at if re.match(r"\s*\{", lines[at]) else at + 1


# ---- public functions ----


class Call:
    """A public function: its comment, its head with its clauses, and the words that these cite."""

    def __init__(self, crate, path, item):
        self.crate, self.path, self.at = crate, path, item.start
        lines = [
            line
            for line in lines_of(path)[item.start : item.end]
            if not line.lstrip().startswith("#[")
        ]
        indent = len(lines[0]) - len(lines[0].lstrip())
        self.lines = [line[indent:] for line in lines]
        self.place = os.path.relpath(path, folder_of(crate))

    def cited(self):
        """What the clauses cite."""
        text = "\n".join(self.lines)
        head, clauses = (
            re.split(r"(?=^\s+(?:requires|ensures)\b)", text, maxsplit=1, flags=re.M)
            if re.search(r"^\s+(?:requires|ensures)\b", text, re.M)
            else (text, "")
        )
        head = re.sub(r"^\s*//.*$", "", head, flags=re.M)
        bound = set(re.findall(rf"({NAME})\s*:(?!:)", head)) | {"self", "result"}
        clauses = re.sub(r"^(\s*)(?:requires|ensures)\b( \w+)?", r"\1", clauses, flags=re.M)
        return cited_by(self.crate, self.path, self.at, clauses, bound)

    def words(self):
        return [one for one in self.cited() if isinstance(one, Word)]

    def clauses(self, kind):
        """The names of its clauses of a kind; one without a name is empty."""
        return [
            found[2] or ""
            for line in self.lines
            if (found := CLAUSE.match(line)) and found[1] == kind
        ]


def call(crate, name):
    """The one public function of a name: `Router::step`, `run_text`, and of a public module
    `link_steps::take_request`. Of several of a name it is the one that stands in no public
    module."""
    *above, last = name.split("::")
    kind = above.pop() if above and above[-1][0].isupper() else ""
    found = [
        (path, it)
        for path in rust_files(folder_of(crate))
        for it in items(path)
        if it.kind == "fn" and (it.owner, it.name) == (kind, last)
    ]
    if above or len(found) > 1:
        found = [(path, it) for path, it in found if public_above(crate, path) == above]
    if not found:
        raise Fault(f"no public function '{name}' in crates/{crate}/src")
    if len(found) > 1:
        raise Fault(
            f"several public functions '{name}' in crates/{crate}/src: name its type, as "
            "Router::step"
        )
    return Call(crate, *found[0])


# ---- types that the code declares ----


class Declared:
    """A public type of the code: its comment and its declaration, without attributes."""

    def __init__(self, crate, name):
        for path in rust_files(folder_of(crate)):
            it = next(
                (it for it in items(path) if it.kind in ("struct", "enum") and it.name == name),
                None,
            )
            if it is not None:
                self.place = os.path.relpath(path, folder_of(crate))
                self.lines = [
                    line
                    for line in lines_of(path)[it.start : it.end + 1]
                    if not line.startswith("#[")
                ]
                return
        raise Fault(f"no public type '{name}' in crates/{crate}/src")


# ---- public modules ----


def below(path, name):
    """The file of a module that another file declares."""
    folder = (
        os.path.dirname(path)
        if os.path.basename(path) in ("lib.rt", "main.rt")
        else path[: -len(".rt")]
    )
    return os.path.join(folder, f"{name}.rt")


@functools.lru_cache(maxsize=None)
def public_modules(path):
    """The files of the public modules below a file, each with its path of modules."""
    found = {}
    if os.path.exists(path):
        for is_public, name in MODULE.findall("\n".join(lines_of(path))):
            if is_public:
                file = below(path, name)
                found[file] = [name]
                found.update(
                    (other, [name, *names]) for other, names in public_modules(file).items()
                )
    return found


def public_above(crate, path):
    """The path of the innermost public module that a file is of, or in; empty where it is in
    none."""
    found = public_modules(os.path.join(folder_of(crate), "lib.rt"))
    inside = [
        names
        for file, names in found.items()
        if path == file or path.startswith(file[: -len(".rt")] + os.sep)
    ]
    return max(inside, key=len, default=[])
