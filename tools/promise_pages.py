"""The pages that `tools/promise` writes and checks: their generated parts, their edits and their
links."""
import glob
import os
import re

import matrix
import story
from citations import closure
from exports import entries
from promise_asked import Asked
from promise_calls import crate_calls, filled
from sources import items
from specs import TOP, Fault

# The status where a page or a number is not that of the code.
WRONG = 1
MOST_ON_A_PAGE = 150
COUNTS, LIST, CALLS, BESIDE = (
    "counts.txt",
    "README.md",
    "calls",
    ["../PROVED.md", "../DECISIONS.md", "../decisions/*.md"],
)
# Pages beside the folder that have generated parts.
TOLD = ["../HEADLINE.md", "../RFC2328.md"]
# A generated part of a page, and its end; an edit that a page names; a link, and a heading, which a
# link may lead to.
MARKER = re.compile(r"<!-- promise: (.*) -->")
END = "<!-- end -->"
EDIT = re.compile(r"`(ospf\w*)/([a-z]\w*)`")
LINK = re.compile(r"\[((?:[^\[\]]|\n)*?)\]\(([^()\s]+)\)")
HEADING = re.compile(r"^#+ (.*)$", re.M)
GROUP = re.compile(r"# (\w+): ")


def blocks(lines):
    """The generated parts of a page: the lines of their markers, and their arguments."""
    at = None
    for n, line in enumerate(lines):
        if found := MARKER.fullmatch(line.strip()):
            if at is not None:
                raise Fault(f"line {n + 1}: a part begins within a part")
            at, words = n, found[1].split()
        elif line.strip() == END and at is not None:
            yield at, n, words
            at = None
    if at is not None:
        raise Fault(f"line {at + 1}: a part without its end")


def part(words, folder, place, counts):
    """A generated part of a page at this place from the top, as lines of Markdown; its counts are
    noted."""
    if words[0] == "--list":
        return listed(folder, words[1:], counts)
    if words[0] == "--groups":
        return grouped(folder)
    if words[0] == "--story":
        return story.part(words[1:], os.path.join(folder, place))
    if words[0] == "--rfc":
        return matrix.summed() if words[1:] else matrix.part(os.path.join(folder, place))
    if words[0] == "--group":
        return [line for crate in group(words[1]) for line in crate_calls(crate, place)]
    asked = Asked(words)
    if asked.given.clauses or asked.given.alone or asked.given.type:
        return ["", "```text", *asked.text(), "```", ""]
    count = asked.count()
    counts[(asked.crate, asked.word)] = count
    if asked.given.count:
        return ["", f"Definitions of `specs/` under it: {count}.", ""]
    if count <= MOST_ON_A_PAGE and not asked.given.first:
        return [
            "",
            f"All {count} definitions, as `{asked.command()}` prints them:",
            "",
            "```text",
            *asked.definitions(False),
            "```",
            "",
        ]
    over = (
        f"The first levels of its {count} definitions, with the number under each. This prints "
        "all of them:"
    )
    return ["", over, f"`{asked.command()}`.", "", "```text", *asked.definitions(True), "```", ""]


def asked_on(folder, name):
    """What the generated parts of a page ask for, but for clauses alone, and single definitions."""
    parts = [words for _, _, words in blocks(read(os.path.join(folder, name)).split("\n"))]
    return [
        Asked(words)
        for words in parts
        if not {*words} & {"--list", "--groups", "--group", "--clauses", "--alone", "--type"}
    ]


def listed(folder, order, counts):
    """The list of the pages in reading order: what their parts count, and how many definitions no
    earlier page has."""
    names = [f"{name}.md" for name in order]
    if sorted(names) != [
        name for name in pages(folder) if name != LIST and os.path.dirname(name) != CALLS
    ]:
        raise Fault("the list must name each page once")
    lines, met = [
        "",
        "| Page | Its words, and the number of definitions under each | On no earlier page |",
        "|---|---|---|",
    ], set()
    for name in names:
        asked = asked_on(folder, name)
        counted = dict.fromkeys(f"`{it.crate} {it.word}` {it.count()}" for it in asked)
        own = {word for it in asked for word in closure(it.roots)} - met
        met |= own
        counts[("page", name[:-3])] = len(own)
        lines.append(f"| [{title(folder, name)}]({name}) | {', '.join(counted)} | {len(own)} |")
    return lines + [
        "",
        *filled(
            f"Before them: {' and '.join(f'[{title(folder, name)}]({name})' for name in TOLD)}."
        ),
        "",
    ]


def title(folder, name):
    return next(
        line[2:] for line in read(os.path.join(folder, name)).split("\n") if line.startswith("# ")
    )


def groups():
    """The crates of each group of crates.txt."""
    found, crates = {}, []
    for line in read(os.path.join(TOP, "crates.txt")).split("\n"):
        if begins := GROUP.match(line):
            crates = found.setdefault(begins[1], [])
        elif line.strip() and not line.startswith("#"):
            crates.append(re.split(r"[ :]", line)[0])
    return found


def group(name):
    if name not in groups():
        raise Fault(f"no group '{name}' in crates.txt")
    return groups()[name]


def grouped(folder):
    """The pages of calls, one for each group, with their crates and the number of calls."""
    here = {os.path.basename(name)[:-3] for name in pages(folder) if os.path.dirname(name) == CALLS}
    if here != set(groups()):
        raise Fault(
            f"one page for each group of crates.txt: {CALLS}/GROUP.md: "
            f"{', '.join(sorted(here ^ set(groups())))}"
        )
    lines = ["", "| Page | Crates | Entries |", "|---|---|---|"]
    for name, crates in groups().items():
        count = sum(len(found) for crate in crates for _, _, found in entries(crate))
        lines.append(
            f"| [{title(folder, f'{CALLS}/{name}.md')}]({CALLS}/{name}.md) | "
            f"{', '.join(f'`{it}`' for it in crates)} | {count} |"
        )
    return lines + [""]


def pages(folder):
    """The pages of the folder, and those of its calls."""
    found = glob.glob("*.md", root_dir=folder) + glob.glob(f"{CALLS}/*.md", root_dir=folder)
    return sorted(name.replace(os.sep, "/") for name in found)


def beside(folder):
    """The pages beside the folder whose edits and links are checked too."""
    return sorted(name for pattern in BESIDE for name in glob.glob(pattern, root_dir=folder))


def read(path):
    with open(path, encoding="utf-8") as file:
        return file.read()


def made(folder, name, counts):
    """A page, with its generated parts as they should be."""
    lines = read(os.path.join(folder, name)).split("\n")
    try:
        for start, end, words in reversed(list(blocks(lines))):
            lines[start + 1 : end] = part(words, folder, os.path.dirname(name), counts)
    except Fault as fault:
        raise Fault(f"{name}: {fault}") from fault
    return "\n".join(lines)


def counts_in(folder):
    """The counts of counts.txt."""
    path = os.path.join(folder, COUNTS)
    if not os.path.exists(path):
        return {}
    return {
        tuple(line.split()[:2]): int(line.split()[2])
        for line in read(path).split("\n")
        if line.strip()
    }


def missing_edits(name, text):
    """The edits that a page names and no crate has: as a file of their own, or as a block of a file
    of several."""
    for crate, edit in dict.fromkeys(EDIT.findall(text)):
        files = [path for kind in matrix.EDITS for path in matrix.edit_files(crate, kind)]
        if not any(matrix.is_edit_in(edit, os.path.join(TOP, path)) for path in files):
            yield f"{name}: no edit {crate}/{edit}"


def broken_links(folder, name, text):
    """The links of a page that lead nowhere: to no file, to no heading, or, where they name a call,
    to a file without it."""
    text = re.sub(r"^```.*?^```", "", text, flags=re.M | re.S)
    for shown_, target in LINK.findall(text):
        if "://" in target:
            continue
        path, _, anchor = target.partition("#")
        path = (
            os.path.normpath(os.path.join(folder, os.path.dirname(name), path))
            if path
            else os.path.join(folder, name)
        )
        if not os.path.exists(path):
            yield f"{name}: no file {target}"
        elif anchor and anchor not in {slug(heading) for heading in HEADING.findall(read(path))}:
            yield f"{name}: no heading {target}"
        elif (
            path.endswith(".rt")
            and (called := re.fullmatch(r"`([\w:]+)`", shown_))
            and not is_in(path, called[1])
        ):
            yield f"{name}: no public {called[1]} in {target}"


def slug(heading):
    """The name by which a link leads to a heading."""
    return re.sub(r"[^\w\- ]", "", heading.lower()).replace(" ", "-")


def is_in(path, name):
    """Whether a file has this public function or type."""
    owner, _, last = name.rpartition("::")
    return any((it.owner, it.name) == (owner, last) for it in items(os.path.abspath(path)))


def check_or_write(folder, is_write):
    """Whether the pages and the counts are those of the code; or makes them so."""
    if not os.path.isdir(folder):
        raise Fault(f"no folder of pages '{folder}'")
    counts, old, faults, texts = {}, counts_in(folder), [], {}
    for name in pages(folder) + TOLD:
        texts[name] = made(folder, name, counts)
        if not is_write and texts[name] != read(os.path.join(folder, name)):
            faults.append(f"{name}: not that of the code: tools/promise --write {folder}")
    for name, text in [
        *texts.items(),
        *((name, read(os.path.join(folder, name))) for name in beside(folder)),
    ]:
        faults += [*missing_edits(name, text), *broken_links(folder, name, text)]
    for key, count in counts.items():
        if count != old.get(key) and not is_write:
            faults.append(
                f"{COUNTS}: {' '.join(key)} has {count} definitions, and not {old.get(key)}: "
                f"tools/promise --write {folder}"
            )
    if is_write:
        texts[COUNTS] = "".join(
            f"{crate} {word} {count}\n" for (crate, word), count in sorted(counts.items())
        )
        for name, text in texts.items():
            with open(os.path.join(folder, name), "w", encoding="utf-8") as file:
                file.write(text)
    for line in faults:
        print(line)
    return WRONG if faults else 0
