"""Definitions and clauses as HTML, in which each word of ours is a link to its definition
(tools/pages)."""
import collections
import functools
import glob
import html
import os
import re

from citations import citations, names_in
from sources import Call, items
from specs import TOKEN, TOP, Word, definition, module, modules_of

WORDS = "words"
SECTION = re.compile(r"==== (\S+)(.*)")
FUNCTION = re.compile(r"(?:pub )?fn (\w+)")


def relative(target, page):
    """A place of the site, as a page of it names that place."""
    path, mark, anchor = target.partition("#")
    return os.path.relpath(path, os.path.dirname(page) or ".") + mark + anchor


# ---- definitions ----


@functools.lru_cache(maxsize=None)
def all_words():
    """Each definition of each crate, by its crate."""
    crates = sorted(
        os.path.basename(os.path.dirname(it)) for it in glob.glob(f"{TOP}/crates/*/specs")
    )
    return {
        crate: [
            it.word for name in modules_of(crate) for it in module(crate, name).definitions.values()
        ]
        for crate in crates
    }


@functools.lru_cache(maxsize=None)
def beginnings():
    """The definitions by their first lines."""
    found = collections.defaultdict(list)
    for words in all_words().values():
        for word in words:
            found[definition(word).lines[0].rstrip()].append(word)
    return found


@functools.lru_cache(maxsize=None)
def users():
    """The definitions that cite each definition."""
    found = collections.defaultdict(list)
    for words in all_words().values():
        for word in words:
            for one in citations(word):
                if isinstance(one, Word):
                    found[one].append(word)
    return found


def place_of(word):
    """Where the site has a definition."""
    return f"{WORDS}/{word.crate}.html#{word.module}.{word.name}"


def comment_of(word):
    return " ".join(line.lstrip("-").strip() for line in definition(word).comment)


def linked(line, names, page):
    """A line of code, in which each of these names is a link; comments are marked."""
    code, dashes, comment = line.partition("--") if re.match(r"\s*--", line) else (line, "", "")
    made, at = [], 0
    for token in TOKEN.finditer(code):
        if token[0] in names:
            made.append(html.escape(code[at : token.start()]))
            made.append(link_to(names[token[0]], token[0], page))
            at = token.end()
    made.append(html.escape(code[at:]))
    if dashes:
        made.append(f'<span class="comment">{html.escape(dashes + comment)}</span>')
    return "".join(made)


def link_to(word, text, page):
    """A link to a definition, with its comment under the mouse."""
    target, about = relative(place_of(word), page), html.escape(comment_of(word), quote=True)
    return f'<a href="{target}" title="{about}">{html.escape(text)}</a>'


def defined_at(lines, at):
    """The definition whose lines these are from a place on."""
    for word in beginnings().get(lines[at].rstrip(), ()):
        own = [line.rstrip() for line in definition(word).lines]
        if [line.rstrip() for line in lines[at : at + len(own)]] == own:
            return word, len(own)
    return None, 1


def shown(lines, page, names=None):
    """Lines of definitions and clauses as HTML."""
    made, at = [], 0
    while at < len(lines):
        word, count = defined_at(lines, at)
        known = names_in(word) if word else names or {}
        made += [linked(line, known, page) for line in lines[at : at + count]]
        at += count
    return f"<pre><code>{chr(10).join(made)}</code></pre>"


# ---- blocks of code ----


def sections(lines):
    """The parts of a block: what its heading says, and its lines."""
    found = [("", [])]
    for line in lines:
        if heading := SECTION.fullmatch(line):
            found.append((heading[1] + heading[2], []))
        else:
            found[-1][1].append(line)
    return [(head, trimmed(body)) for head, body in found if head or trimmed(body)]


def trimmed(lines):
    """Lines without the empty ones at both ends."""
    full = [n for n, line in enumerate(lines) if line.strip()]
    return lines[full[0] : full[-1] + 1] if full else []


def block(text, page):
    """A block of text as HTML: each module that it shows can be folded."""
    parts = sections(text.rstrip("\n").split("\n"))
    return "\n".join(part(head, lines, page, len(parts) == 1) for head, lines in parts)


def part(head, lines, page, is_alone):
    """A part of a block, under its heading."""
    if not head:
        return shown(lines, page)
    names = clause_names(head, lines)
    body = shown(lines, page, names)
    if names is not None or is_alone:
        return f'<p class="place">{html.escape(head)}</p>{body}'
    about = next((line[2:].strip() for line in lines if line.startswith("--")), "")
    return (
        f"<details><summary><b>{html.escape(head)}</b> {html.escape(about)}</summary>"
        f"{body}</details>"
    )


def clause_names(head, lines):
    """The definitions that the clauses of a function cite, by name; nothing where it shows none."""
    path = os.path.join(TOP, head)
    if not head.endswith(".rt") or not os.path.exists(path):
        return None
    crate = head.split("/")[1]
    name = next((found[1] for line in lines if (found := FUNCTION.match(line))), None)
    calls = [Call(crate, path, it) for it in items(path) if it.kind == "fn" and it.name == name]
    same = [it for it in calls if [line.rstrip() for line in it.lines] == lines] or calls
    return {word.name: word for it in same for word in it.words()}
