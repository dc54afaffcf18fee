"""What a crate exports, as the pages of calls list it."""
import os
import textwrap

from exports import entries, said
from rattle import lines_of
from sources import folder_of
from specs import TOP

COLUMNS = 100


def crate_calls(crate, place):
    """What a crate exports, file by file, as lines of Markdown for a page at this place."""
    lines = ["", f"## `{crate}`", ""]
    top = next(
        path
        for name in ("lib.rt", "main.rt")
        if os.path.exists(path := os.path.join(folder_of(crate), name))
    )
    lines += filled(said(lines_of(top), "//!"))
    found = entries(crate)
    if not found:
        lines += ["", "It exports nothing."]
    for path, about, all_ in found:
        target = os.path.relpath(path, os.path.join(TOP, "docs", "promises", place))
        lines += [
            "",
            *filled(f"**[`{os.path.relpath(path, folder_of(crate))}`]({target})** {about}"),
        ] + [""] * bool(all_)
        for one in all_:
            lines += filled(f"`{one.name}`{titled(one)}: {one.comment} {contract(one)}", "- ", "  ")
    return lines + [""]


def titled(one):
    return f" ({one.kind})" if one.kind else ""


def contract(one):
    """The clauses of an exported thing by name, or their number, and the definitions that they
    cite."""
    verb = (
        "invariant"
        if one.kind in ("struct", "enum")
        else "ghost"
        if one.kind == "trait" or " for " in one.name
        else "ensures"
    )
    parts = [
        f"{word} {clauses(names)}"
        for word, names in (("requires", one.requires), (verb, one.ensures))
        if names
    ]
    if not parts and one.kind in ("", "law") and " for " not in one.name:
        parts = ["no clause"]
    cites = [f"cites {', '.join(f'`{word}`' for word in one.words)}"] if one.words else []
    return f"[{'; '.join(parts + cites)}]" if parts + cites else ""


def clauses(names):
    """Clauses by name; of those without one the number."""
    named, bare = [f"`{name}`" for name in names if name], names.count("")
    return ", ".join(
        named + [f"{bare} clause{'s' * (bare > 1)}{' without a name' * bool(named)}"] * (bare > 0)
    )


def filled(text, first="", rest=""):
    return textwrap.wrap(
        " ".join(text.split()),
        COLUMNS,
        initial_indent=first,
        subsequent_indent=rest,
        break_long_words=False,
        break_on_hyphens=False,
    )
