"""Which edits are tried: those that words name, and those that the gate wants."""
import hashlib
import os
import sys

from verdicts import DRAWN

TOP = os.path.dirname(os.path.dirname(os.path.dirname(os.path.abspath(__file__))))
SAMPLE = 12
MOST_OF_A_CRATE = 6


def of_main(crates):
    """The names of the edits of main calls, and what is wrong with the list of them."""
    with open(os.path.join(TOP, "tests", "gate", "main-edits"), encoding="utf-8") as file:
        listed = file.read().split()
    known = {edit.name for _, edits in crates for edit in edits}
    return listed, [
        f"tests/gate/main-edits: there is no edit {it}" for it in listed if it not in known
    ]


def of_gate(crates, word, verdicts):
    """The edits of main calls, and then some others of crates that changed, as the word draws them,
    which may be left out."""
    main, missing = of_main(crates)
    if missing:
        sys.exit("\n".join(missing))
    chosen = [
        (crate, [edit for edit in edits if edit.name in main], False) for crate, edits in crates
    ]
    changed = [it for it in crates if not verdicts.has(it[0], DRAWN)]
    others = [
        (crate, [edit for edit in edits if edit.name not in main]) for crate, edits in changed
    ]
    chosen += [(crate, edits, True) for crate, edits in drawn([it for it in others if it[1]], word)]
    return [it for it in chosen if it[1]]


def named(crates, words):
    """The edits that these words name: a crate for all of its own, or with names behind it those of
    a crate."""
    by_crate, asked, last = (
        {crate.name: {edit.name_alone for edit in edits} for crate, edits in crates},
        {},
        None,
    )
    for at, word in enumerate(words):
        crate, _, name = word.partition("/")
        if crate in by_crate and not name:
            last = crate
            if words[at + 1 : at + 2] == [] or words[at + 1] not in by_crate[crate]:
                asked[crate] = by_crate[crate]
        elif crate in by_crate or last and not name:
            crate, name = (crate, name) if name else (last, word)
            if name not in by_crate[crate]:
                sys.exit(
                    f"{crate} has no edit {name}"
                    + ("" if "/" in word else f", and there is no crate {word} that has edits")
                )
            asked[crate] = asked.get(crate, set()) | {name}
        else:
            sys.exit(
                f"{crate} has no edits"
                if os.path.isdir(os.path.join("crates", crate))
                else f"there is no crate {crate}"
            )
    return [
        (crate, [it for it in edits if it.name_alone in asked[crate.name]])
        for crate, edits in crates
        if crate.name in asked
    ]


def drawn(crates, word):
    """Some crates, and some edits of each, in an order that the word gives."""

    def order(names):
        return sorted(names, key=lambda it: hashlib.sha256(f"{word} {it}".encode()).digest())

    chosen, by_name = [], {crate.name: (crate, edits) for crate, edits in crates}
    for name in order(by_name):
        left = SAMPLE - sum(len(edits) for _, edits in chosen)
        if left <= 0:
            break
        crate, edits = by_name[name]
        of_name = {edit.name: edit for edit in edits}
        chosen.append((crate, [of_name[it] for it in order(of_name)[: min(left, MOST_OF_A_CRATE)]]))
    return chosen
