"""Tries edits: what a check of the edited crate says, and whether a goal refused each edit."""
import os
import re
import sys

TOP = os.path.dirname(os.path.dirname(os.path.dirname(os.path.abspath(__file__))))
sys.path.insert(0, os.path.join(TOP, "tools"))
from rattle import SIGNATURE, module_of  # noqa: E402
from texts import TextFault  # noqa: E402

MOST_AT_ONCE = 12
NOTE = re.compile(r"^(?:note: )?(?:\./)?(src/\S+?\.rt|proofs/\S+?\.antt):(\d+):\d+: (.*)$", re.M)
OPEN = ("it is not proved that", "`search` found no proof", "`grind` found no proof")
# A compiler's error stands at a place, or has a name; another one, as that a disk is full, says
# nothing of an edit.
NOT_COMPILED = re.compile(r"^\S+:\d+:\d+: error\b|\berror\[[\w-]+\]", re.M)
FAILS = re.compile(r"`(?:search|omega|grind)`: (?:no proof of|the goal does not follow)")
NO_SUCH_PATH = 2


def batches(edits):
    """The edits in groups: of no two in a group is a function the same."""
    groups = []
    for edit in edits:
        for group in groups if not edit.is_alone else []:
            if len(group) < MOST_AT_ONCE and not any(
                it.is_alone or it.functions & edit.functions for it in group
            ):
                group.append(edit)
                break
        else:
            groups.append([edit])
    return groups


def refusals(said, texts):
    """The functions of which a goal is not proved."""
    found = set()
    for file, line, text in NOTE.findall(said):
        if not text.startswith(OPEN) or not file.startswith("src/"):
            continue
        lines = texts[file].split("\n") if file in texts else []
        # the note names the line of the function's head or of an attribute above it, or one in its
        # body
        last = int(line)
        while last < len(lines) and lines[last - 1].lstrip().startswith(("#[", "//")):
            last += 1
        at = sum(len(it) + 1 for it in lines[:last]) - 1
        found.add(
            (file, sum(1 for it in SIGNATURE.finditer(texts.get(file, "")) if it.start() <= at) - 1)
        )
    return found


def failing(said):
    """The functions, by their paths, of which a goal is left unproved by the tactic that their
    proof files answer it with."""
    return {
        os.path.dirname(file).partition("/")[2].replace("/", "::")
        for file, _, text in NOTE.findall(said)
        if file.startswith("proofs/") and FAILS.search(text)
    }


def methods(paths):
    """The paths, of methods without their module: the prover names that of the type, where the file
    of an `impl` is another one's."""
    ends = {path: path.split("::")[-2:] for path in paths}
    return {"::".join(end) if end[0][:1].isupper() else path for path, end in ends.items()}


def check(rt, crate, group, texts, flags, kept):
    """A check of the functions that the edits of a group change: of all functions of their files
    where one has no such path, and of the crate for an edit outside of all functions."""
    if any(edit.is_alone for edit in group):
        return rt.checked(crate, texts, flags, kept)
    modules = {module_of(file) for edit in group for file, _ in edit.functions}
    for paths in ({path for edit in group for path in edit.paths}, modules):
        if "" in paths:
            break
        ran = rt.checked(
            crate,
            texts,
            [*flags, *(word for path in sorted(paths) for word in ("--only", path))],
            kept,
        )
        if ran.returncode != NO_SUCH_PATH:
            return ran
    return rt.checked(crate, texts, flags, kept)


def last_of(ran):
    """The last line of what a check said."""
    return ran.stdout.rstrip().rpartition("\n")[2]


def reached_prover(ran):
    return last_of(ran).startswith(("logic=", "only="))


def has_verdict(ran):
    """Whether a check ended as the prover or the compiler has it: it was not killed, and stopped at
    no limit."""
    return ran.returncode in (0, 1) and (
        reached_prover(ran) or bool(NOT_COMPILED.search(ran.stdout))
    )


def is_proved(ran):
    """Whether all that was asked for is proved."""
    counted = re.fullmatch(r"only=(\d+) proved=(\d+)", last_of(ran))
    return last_of(ran).startswith("logic=proved") or bool(counted) and counted[1] == counted[2]


def try_group(rt, crate, group, kept, flags):
    """Each edit of the group, whether it was refused, and the check that tried it."""
    texts, ran, half = {}, None, len(group) // 2
    try:
        for edit in group:
            edit.apply(texts, crate.folder)
        ran = check(rt, crate, group, texts, flags, kept)
    except TextFault as fault:
        if len(group) == 1:
            sys.exit(str(fault))
    if len(group) > 1 and (ran is None or not reached_prover(ran)):
        # an edit kept the check from reaching the prover, or wrote what another was to replace
        yield from try_group(rt, crate, group[:half], kept, flags)
        yield from try_group(rt, crate, group[half:], kept, flags)
        return
    found, fails = refusals(ran.stdout, texts), failing(ran.stdout)
    for edit in group:
        well = ran.returncode == 1 and bool(
            edit.functions & found
            or methods(edit.paths) & methods(fails)
            or edit.is_alone
            and (found or fails)
        )
        if well or len(group) == 1:
            yield edit, well, ran
        else:
            # the goals of a function wait for what it calls, which another edit of the group may
            # have broken
            yield from try_group(rt, crate, [edit], kept, flags)
