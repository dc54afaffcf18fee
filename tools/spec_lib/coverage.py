"""Which definitions can be evaluated: those of which each word, and each word below it, is
known."""
from collections import Counter

from . import items
from .evaluate import DataType, Defined, RecordType
from .values import Refused

KINDS = {items.Function: Defined, items.Record: RecordType, items.Data: DataType}


def _compile(module, declared):
    """Compiles a declaration."""
    value = KINDS[type(declared)](module, declared)
    if isinstance(value, RecordType):
        value.kinds()
    else:
        value.prepare()


def survey(library):
    """Of each definition the definitions that it asks for, and the reasons that it cannot be
    evaluated."""
    below, reasons, unread = {}, {}, []
    for name in library.names():
        module = library.module(name)
        unread.extend((name, *fault) for fault in module.unread)
        for declared in list(module.declared.values()):
            library.asked, library.lacking = set(), set()
            try:
                _compile(module, declared)
            except Refused as reason:
                library.lacking.add(str(reason))
            whole = f"{name}.{declared.name}"
            below[whole], reasons[whole] = library.asked - {whole}, library.lacking
    return below, reasons, unread


def incomplete(below, reasons):
    """The definitions that cannot be evaluated: they or what is below them lack a word."""
    out = {name for name, lacking in reasons.items() if lacking}
    grew = True
    while grew:
        more = {name for name, asked in below.items() if name not in out and asked & out}
        out |= more
        grew = bool(more)
    return out


def report(library):
    """The counts as lines, and the words that most definitions lack."""
    below, reasons, unread = survey(library)
    out = incomplete(below, reasons)
    lacking = Counter(reason for found in reasons.values() for reason in found)
    count, files = len(below) + len(unread), len(library.names())
    lines = [f"{count} definitions in {files} files: {len(below)} are read"]
    lines += [
        f"{len(below) - len(out)} can be evaluated: each word in them is known, and each below"
    ]
    lines += [f"{count} lack: {reason}" for reason, count in lacking.most_common()]
    return lines + [f"unread: {fault}" for fault in unread]
