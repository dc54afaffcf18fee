"""The matrix of RFC 2328: each rule with its definitions, calls, tests and edits, from a list.

The list is docs/promises/rfc2328.txt. It has a heading for each section, and a paragraph for each
rule:

    [9.4] Electing the Designated Router

    Step 2: the rule, in our own words, on one or more lines.
      is ospf_neighbour IsBackup DeclaresBackup, ospf_base Addresses.nowhere
      by ospf_neighbour elect
      test unit/machines/election.rs two_declare priority_zero
      edit ospf_neighbour/old_backup_stays

`is` names definitions, `by` public calls or laws, `test` functions of a file of tests below tests/,
or a file, and `edit` edits. A rule has a line of each kind; `test none` and `edit none` say that
there is none. Each definition has to be under the clauses of one of the rule's calls. Instead of
rules a section may have a line `out`, with the reason why it is left out, or nothing, where its own
sections follow. Each section of 8 to 16, A, B and C is in the list once, in the RFC's order. A line
with # is a comment.
"""
import collections
import functools
import os
import re
import textwrap

from citations import closure
from sources import call
from specs import TOP, Fault, file_of, one_word

SECTIONS = """
8 8.1 8.2 9 9.1 9.2 9.3 9.4 9.5 9.5.1 10 10.1 10.2 10.3 10.4 10.5 10.6 10.7 10.8 10.9 10.10 11 11.1
11.2 11.3 12 12.1 12.1.1 12.1.2 12.1.3 12.1.4 12.1.5 12.1.6 12.1.7 12.2 12.3 12.4 12.4.1 12.4.1.1
12.4.1.2 12.4.1.3 12.4.1.4 12.4.1.5 12.4.2 12.4.2.1 12.4.3 12.4.3.1 12.4.3.2 12.4.4 12.4.4.1 13
13.1 13.2 13.3 13.4 13.5 13.6 13.7 14 14.1 15 16 16.1 16.1.1 16.2 16.3 16.4 16.4.1 16.5 16.6 16.7
16.8 A A.1 A.2 A.3 A.3.1 A.3.2 A.3.3 A.3.4 A.3.5 A.3.6 A.4 A.4.1 A.4.2 A.4.3 A.4.4 A.4.5 B C C.1
C.2 C.3 C.4 C.5 C.6 C.7
""".split()
NAME = "rfc2328.txt"
LIST = os.path.join(TOP, "docs", "promises", NAME)
KINDS = ("is", "by", "test", "edit")
# The folders of a crate that have edits.
EDITS = ("edits", "must-fail")
# The public call that has most of the rules under its clauses.
STEP = ("ospf_router", "Router::step")
NONE = "none"
COLUMNS = 100
HEADING = re.compile(r"\[([0-9A-C.]+)\] (.+)")
LINE = re.compile(rf"  ({'|'.join(KINDS)}) (.+)")
OUT = "  out "
TEST = re.compile(r"#\[test\]\s+(?:pub )?fn (\w+)")

# A section with its title, the reason why it is left out, if it is, and its rules; a rule with the
# line behind it, and what it names, by kind.
Section = collections.namedtuple("Section", "number title out rules")
Rule = collections.namedtuple("Rule", "place text named")
# What a rule names: what is shown, and the file that it leads to, from the top of the repository.
Named = collections.namedtuple("Named", "shown path")


@functools.lru_cache(maxsize=None)
def read(path):
    with open(path, encoding="utf-8") as file:
        return file.read()


def sections(text):
    """The sections of a list, in its order, with their rules as they stand there."""
    found, words, named = [], [], {}
    for place, line in enumerate([*text.split("\n"), ""], 1):
        if line.startswith("#"):
            continue
        if not line.strip() and words:
            found[-1].rules.append(Rule(place, " ".join(words), named))
            words, named = [], {}
        elif heading := HEADING.fullmatch(line):
            found.append(Section(heading[1], heading[2], [], []))
        elif kind := LINE.fullmatch(line):
            named.setdefault(kind[1], []).append(kind[2])
        elif line.startswith(OUT):
            found[-1].out.append(line[len(OUT) :])
        elif line.strip():
            words.append(line.strip())
    return found


# ---- what is named ----


def by_crates(line):
    """The names of a line, each with its crate: CRATE NAME.., a comma before the next crate."""
    groups = (group.split() for group in line.split(","))
    return [(crate, name) for crate, *names in groups for name in names]


def definitions(line):
    for word in (one_word(*one) for one in by_crates(line)):
        yield Named(word.name, file_of(word.crate, word.module))


def calls(line):
    for crate, name in by_crates(line):
        yield Named(name, os.path.join("crates", crate, "src", call(crate, name).place))


def tests(line):
    """The tests of a file; a file alone is a test too."""
    file, *names = line.split()
    path = os.path.join("tests", file)
    if not os.path.exists(os.path.join(TOP, path)):
        raise Fault(f"no file {path}")
    if not names:
        yield Named(os.path.basename(file), path)
    for name in names:
        if name not in TEST.findall(read(os.path.join(TOP, path))):
            raise Fault(f"no test '{name}' in {path}")
        yield Named(name, path)


def edits(line):
    """Edits by crate and name: each is in a file of its crate's folder of edits."""
    for one in line.split():
        crate, _, name = one.partition("/")
        found = [path for path in edit_files(crate) if is_edit_in(name, os.path.join(TOP, path))]
        if not found:
            raise Fault(f"no edit {one}")
        yield Named(one, found[0])


@functools.lru_cache(maxsize=None)
def edit_files(crate, kind="edits"):
    """The files of a crate's edits, those of its modules in folders."""
    found = os.walk(os.path.join(TOP, "crates", crate, kind))
    return sorted(
        os.path.relpath(os.path.join(at, file), TOP) for at, _, files in found for file in files
    )


def is_edit_in(name, path):
    """Whether a file is this edit, or has it as one of several."""
    if os.path.basename(path) == f"{name}.edit":
        return True
    return re.search(rf"^## {re.escape(name)} \(", read(path), re.M) is not None


FINDS = dict(zip(KINDS, (definitions, calls, tests, edits)))


def found_in(rule, kind):
    """All that a rule names of a kind, each once: nothing where it says so."""
    lines = rule.named.get(kind, [])
    if not lines or (lines == [NONE] and kind in ("is", "by")):
        raise Fault(f"a rule has no line '{kind}': {rule.text}")
    if lines == [NONE]:
        return []
    return list(dict.fromkeys(one for line in lines for one in FINDS[kind](line)))


@functools.lru_cache(maxsize=None)
def under(crate, name):
    """The definitions under the clauses of a call."""
    return frozenset(closure(call(crate, name).words()))


def words_of(rule):
    return [one_word(*one) for line in rule.named["is"] for one in by_crates(line)]


def check_rule(rule):
    """That the definitions of a rule are under its calls."""
    its_calls = [one for line in rule.named["by"] for one in by_crates(line)]
    promised = frozenset().union(*(under(*one) for one in its_calls))
    for word in words_of(rule):
        if word not in promised:
            raise Fault(f"no call of the rule has {word.crate} {word.name} under its clauses")


def cells(rule):
    """What a rule names, by kind."""
    try:
        named = [found_in(rule, kind) for kind in KINDS]
        check_rule(rule)
        return named
    except Fault as fault:
        raise Fault(f"{NAME}, before line {rule.place}: {fault}") from fault


def checked():
    """The sections of the list: all of them, in order, each with rules or a reason."""
    found = sections(read(LIST))
    numbers = [section.number for section in found]
    if numbers != SECTIONS:
        pairs = zip(numbers + SECTIONS, SECTIONS + numbers)
        strange = next(one for one, other in pairs if one != other)
        raise Fault(f"{NAME}: other sections than the RFC's, each once and in order: see {strange}")
    for section in found:
        has_parts = any(number.startswith(f"{section.number}.") for number in numbers)
        if bool(section.rules) == bool(section.out) and (section.rules or not has_parts):
            raise Fault(f"{NAME}: section {section.number} has neither rules nor a reason, or both")
    return found


# ---- the page ----


def is_part(number):
    """Whether it is a section with a number of its own, as 9 or A."""
    return "." not in number


def title(section):
    number = section.number
    if not is_part(number):
        return f"### {number} {section.title}"
    return f"## {f'Appendix {number}:' if number.isalpha() else number} {section.title}"


def label(one):
    """The name of a file in the links of the page, where small and capital letters are one."""
    return re.sub(r"^crates/|^tests/|/src|/specs|\.(?:antt|edits?)$", "", one.path)


def linked(names):
    return ", ".join(f"[`{one.shown}`][{label(one)}]" for one in names) or NONE


def table(section, files):
    """The rules of a section; the files that they lead to are noted."""
    lines = ["| Rule | Definition | Call | Test | Edit |", "|---|---|---|---|---|"]
    for rule in section.rules:
        named = cells(rule)
        files.update((label(one), one.path) for names in named for one in names)
        lines.append(f"| {rule.text} | {' | '.join(map(linked, named))} |")
    return lines


def part(start):
    """The matrix as lines of Markdown, for a page in this folder."""
    lines, files = [], {}
    for section in checked():
        lines += ["", title(section)]
        if section.out:
            lines += ["", *textwrap.wrap(f"Left out: {' '.join(section.out)}", COLUMNS)]
        if section.rules:
            lines += ["", *table(section, files)]
    lines.append("")
    for name, path in sorted(files.items()):
        lines.append(f"[{name}]: {os.path.relpath(os.path.join(TOP, path), start)}")
    return [*lines, ""]


def summed():
    """How many rules there are, how many have no test or no edit, and what is left out."""
    found = checked()
    rules = [rule for section in found for rule in section.rules]
    of = {kind: len({one for rule in rules for one in found_in(rule, kind)}) for kind in KINDS}
    bare = {kind: sum(not found_in(rule, kind) for rule in rules) for kind in KINDS}
    out = sum(bool(section.out) for section in found)
    text = f"{len(rules)} rules name {of['is']} definitions, {of['by']} calls and laws, "
    text += f"{of['test']} tests and {of['edit']} edits. {bare['test']} rules have no test by "
    text += f"name, and {bare['edit']} no edit. {out} sections are left out. "
    words, step = {word for rule in rules for word in words_of(rule)}, under(*STEP)
    text += (
        f"`{STEP[1]}` promises {len(words & step)} of these definitions. It rests on {len(step)}; "
    )
    text += "the others of them say how the parts are put together, and what bytes mean."
    return ["", *textwrap.wrap(text, COLUMNS), ""]
