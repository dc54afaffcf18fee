"""The generated parts of docs/HEADLINE.md, from a list of the words of the headline's statement.

The list is docs/promises/headline.txt. Its headings and paragraphs are:

    [clause FIELD..]  a clause of the theorem in words, and the definitions to read, in order
    [read NAME]       other definitions to read, whose text the page shows
    [small]           what small words are about, and these words
    [leaf]            what is below words at which a reader of the theorem may stop
    [ring]            lines that an example prints, and why they cannot be otherwise

A line `  is CRATE WORD.., CRATE ..` of a paragraph names definitions, and a line `  print ..` a
line of the example. Each definition that the statement uses has to be in the list once, or to be
below a leaf; each in the list has to be one that it uses. Each clause of the theorem and each line
that the example prints has to be there too.
"""
import collections
import os
import re
import textwrap

import matrix
from citations import citations, closure
from sources import call
from specs import TOP, Fault, Word, definition, file_of, one_word, shown_as

LIST = os.path.join(TOP, "docs", "promises", "headline.txt")
STATEMENT, THEOREM = ("ospf_world", "headline"), ("ospf_world", "Headline")
PRINTED = os.path.join("examples", "ring-loses-a-link", "printed")
HEADING = re.compile(r"\[(clause|read|small|leaf|ring)((?: \w+)*)\]")
LINE = re.compile(r"  (is|print) (.+)")
FIELD = re.compile(r"  pub (\w+) :")
COLUMNS = 100

# A paragraph: the kind of its heading and the names there, its text, its definitions, and the lines
# that are printed.
Entry = collections.namedtuple("Entry", "kind names text words printed")


def entries():
    """The paragraphs of the list, in their order."""
    found, kind, names = [], "", []
    for paragraph in re.split(r"\n\s*\n", re.sub(r"^#.*\n", "", matrix.read(LIST), flags=re.M)):
        if heading := HEADING.fullmatch(paragraph.strip()):
            kind, names = heading[1], heading[2].split()
        elif paragraph.strip():
            found.append(entry(kind, names, paragraph.strip("\n").split("\n")))
    return found


def entry(kind, names, lines):
    made = Entry(kind, names, "", [], [])
    for line in lines:
        named = LINE.fullmatch(line)
        if named and named[1] == "is":
            made.words.extend(one_word(*one) for one in matrix.by_crates(named[2]))
        elif named:
            made.printed.append(named[2])
        else:
            made = made._replace(text=f"{made.text} {line}".strip())
    return made


def of_kind(*kinds):
    return [one for one in checked() if one.kind in kinds]


# ---- what has to be in the list ----

def used(leaves):
    """The definitions that the statement uses, those below leaves left out."""
    met = dict.fromkeys(call(*STATEMENT).words())
    wait = collections.deque(met)
    while wait:
        word = wait.popleft()
        for one in citations(word) if word not in leaves else ():
            if isinstance(one, Word) and one not in met:
                met[one] = None
                wait.append(one)
    return list(met)


def named(word):
    return f"{word.crate} {word.name}"


def check_words(found):
    listed = [word for one in found for word in one.words]
    for word, count in collections.Counter(listed).items():
        if count > 1:
            raise Fault(f"{named(word)} is in the list {count} times")
    uses = used({word for one in found if one.kind == "leaf" for word in one.words})
    for word in uses:
        if word not in listed:
            raise Fault(f"the headline uses {named(word)}, neither in the list nor below a leaf")
    for word in listed:
        if word not in uses:
            raise Fault(f"{named(word)} is in the list, and the headline does not use it")


def check_rest(found):
    """That each clause is in words, and each line that the example prints has a reason."""
    fields = [it[1] for line in definition(one_word(*THEOREM)).lines if (it := FIELD.match(line))]
    clauses = [name for one in found if one.kind == "clause" for name in one.names]
    if sorted(fields) != sorted(clauses):
        raise Fault(f"the clauses of the theorem are {', '.join(fields)}")
    printed = matrix.read(os.path.join(TOP, PRINTED)).splitlines()
    lines = [line for one in found for line in one.printed]
    if lines != printed:
        pairs = zip(printed + lines, lines + printed)
        strange = next((line for line, other in pairs if line != other), "")
        raise Fault(f"{PRINTED} has other lines: see '{strange}'")


def checked():
    found = entries()
    try:
        check_words(found)
        check_rest(found)
    except Fault as fault:
        raise Fault(f"{os.path.basename(LIST)}: {fault}") from fault
    return found


# ---- the parts ----

def linked(word, start, shown=""):
    path = os.path.join(TOP, file_of(word.crate, word.module))
    return f"[`{shown or word.name}`]({os.path.relpath(path, start)})"


def links(words, start):
    return ", ".join(linked(word, start) for word in words)


def here(words):
    """Links to the definitions that the page shows."""
    return ", ".join(f"[`{word.name}`](#{word.name.lower()})" for word in words)


def theorem(_):
    """The theorem, a row for each clause."""
    lines = ["", "| Clause | In words | Definitions to read, in this order |", "|---|---|---|"]
    for one in of_kind("clause"):
        clauses = ", ".join(f"`{name}`" for name in one.names)
        lines.append(f"| {clauses} | {one.text} | {here(one.words)} |")
    return lines + [""]


def texts(name, start):
    """The definitions to read for a clause, or of another name, each with a heading."""
    lines, those = [], [one for one in of_kind("clause", "read") if name in one.names]
    for word in (word for one in those for word in one.words):
        it = definition(word)
        lines += ["", f"#### `{word.name}`", "", f"In {linked(word, start, shown_as(*word[:2]))}:"]
        lines += ["", "```text", *map(str.rstrip, it.comment + it.lines), "```"]
    if not lines:
        raise Fault(f"no definitions to read of '{name}'")
    return [*lines, ""]


def small(start):
    """The small words, by what they are about."""
    lines = ["", "| About | Words |", "|---|---|"]
    for one in of_kind("small"):
        lines.append(f"| {one.text} | {links(one.words, start)} |")
    return [*lines, ""]


def leaf(start):
    """Where a reader may stop, and how many definitions are below."""
    lines = ["", "| What is below | Words | Definitions below |", "|---|---|---|"]
    for one in of_kind("leaf"):
        below = len(closure(one.words)) - len(one.words)
        lines.append(f"| {one.text} | {links(one.words, start)} | {below} |")
    return [*lines, ""]


def ring(_):
    """What the example prints, and why."""
    lines = ["", "| Printed | Why it cannot be otherwise |", "|---|---|"]
    for one in of_kind("ring"):
        shown = "<br>".join(f"`{line}`" for line in one.printed)
        lines.append(f"| {shown} | {one.text} |")
    return [*lines, ""]


def count(_):
    """How many definitions there are, and of which kinds."""
    sizes = collections.Counter()
    for one in checked():
        sizes["read" if one.kind == "clause" else one.kind] += len(one.words)
    total = len(closure(call(*STATEMENT).words()))
    text = f"The statement rests on {total} definitions. {sizes['read']} carry the meaning and are "
    text += f"on this page. {sizes['small']} are small words that these are made of. The others "
    text += f"are {sizes['leaf']} words at which a reader of the theorem may stop, and those below."
    return ["", *textwrap.wrap(text, COLUMNS), ""]


PARTS = {"theorem": theorem, "small": small, "leaf": leaf, "ring": ring, "count": count}


def part(words, start):
    """A generated part, for a page in this folder."""
    if words[:1] == ["read"] and len(words) == 2:
        return texts(words[1], start)
    if len(words) != 1 or words[0] not in PARTS:
        raise Fault(f"no part '{' '.join(words)}' of the story: read NAME, {', '.join(PARTS)}")
    return PARTS[words[0]](start)
