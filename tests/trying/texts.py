"""The edits of crates/CRATE/edits as they are written: each applies to the text of its crate, or it
is told what is wrong with it."""
import os
import re
import sys

TOP = os.path.dirname(os.path.dirname(os.path.dirname(os.path.abspath(__file__))))
sys.path.insert(0, os.path.join(TOP, "tools"))
from rattle import function_at, item_at, path_of  # noqa: E402

# The first line of an edit.
HEADING = re.compile(r"## (\w+) \(((?:\w+::)*\w+(?:, (?:\w+::)*\w+)*)\)")


def text_of(edit):
    """All that the verdict on an edit rests on beside its crate."""
    return edit.name, edit.pairs


class TextFault(Exception):
    """An edit does not apply, or not where its heading says."""


class Edit:
    """An edit as it is written: where it stands, the items that its heading names, why, and its
    pairs of old and new texts."""

    def __init__(self, crate, alone, items, where):
        self.crate, self.name_alone, self.items, self.where = crate, alone, items, where
        self.name, self.why, self.pairs = f"{crate}/{alone}", "", []
        self.functions, self.paths, self.is_alone = set(), set(), False

    def settle(self, sources):
        """Finds the functions that the old texts stand in."""
        texts, found = {}, []
        for file, old, new in self.pairs:
            text = texts.get(file) or sources(file)
            if text is None:
                raise self.fault(f"the crate has no file {file}")
            self.see_once(file, text, old)
            at = text.index(old)
            place = function_at(text, at)
            if place is None:
                self.is_alone = True
                found.append(item_at(file, text, at))
            else:
                self.functions.add((file, place))
                self.paths.add(path_of(file, text, place))
                found.append(path_of(file, text, place))
            texts[file] = text.replace(old, new)
            if texts[file] == text:
                raise self.fault("its new text is the old one")
        if self.items != list(dict.fromkeys(found)):
            raise self.fault(
                f"its heading names {', '.join(self.items)}, and its old text stands in "
                f"{', '.join(dict.fromkeys(found))}"
            )

    def apply(self, texts, folder):
        for file, old, new in self.pairs:
            if file not in texts:
                texts[file] = open(os.path.join(folder, file), encoding="utf-8").read()
            self.see_once(file, texts[file], old)
            texts[file] = texts[file].replace(old, new)

    def see_once(self, file, text, old):
        """Sees that an old text stands exactly once in a file."""
        if text.count(old) != 1:
            raise self.fault(
                f"its old text stands {text.count(old)} times in {file}, and has to stand once: "
                f"{old.strip()}"
            )

    def fault(self, what):
        return TextFault(f"{self.where}: {self.name}: {what}")


class Reader:
    """Reads the edits of a crate: those that apply, and in words what is wrong with the others."""

    def __init__(self, folder):
        self.folder, self.crate, self.edits, self.faults, self.texts = (
            folder,
            os.path.basename(folder),
            [],
            [],
            {},
        )
        top = os.path.join(folder, "edits")
        for place, folders, names in os.walk(top):
            folders.sort()
            for name in sorted(names):
                path = os.path.join(place, name)
                file = os.path.join("src", os.path.splitext(os.path.relpath(path, top))[0] + ".rt")
                if not name.endswith(".edits") or not os.path.isfile(os.path.join(folder, file)):
                    self.faults.append(
                        f"{path}: not read: the edits of src/NAME.rt stand in edits/NAME.edits"
                    )
                else:
                    self.read(path, file)
        self.settle()

    def source(self, file):
        """The text of a source file; None where it is missing."""
        path = os.path.join(self.folder, file)
        if file not in self.texts:
            self.texts[file] = open(path, encoding="utf-8").read() if os.path.isfile(path) else None
        return self.texts[file]

    def read(self, path, own):
        """Reads one file, which has the edits of the source file `own`."""
        edit = old = None
        file, is_begun = own, False
        for number, line in enumerate(open(path, encoding="utf-8").read().split("\n"), 1):
            if line.startswith("## "):
                self.whole(edit, old)
                edit, old, file, is_begun = self.heading(line, f"{path}:{number}"), None, own, True
            elif not line.strip() or edit is None and is_begun:
                continue
            elif edit is None:
                self.faults.append(f"{path}:{number}: no edit begins before this line: {line}")
                is_begun = True
            elif line.startswith("old: ") and old is None:
                old = line[len("old: ") :]
            elif line.startswith("new:") and old is not None:
                edit.pairs.append((file, old, line[len("new:") :].removeprefix(" ")))
                old = None
            elif line.startswith("file: ") and edit.pairs and old is None:
                file = line[len("file: ") :].strip()
            elif (
                not edit.why
                and not edit.pairs
                and old is None
                and not line.startswith(("file:", "old:", "new:"))
            ):
                edit.why = line
            else:
                what = (
                    "out of place, as one line says why, and then 'old: TEXT' and 'new: TEXT' "
                    "follow in turn"
                )
                self.faults.append(f"{path}:{number}: {edit.name}: {what}: {line}")
        self.whole(edit, old)

    def heading(self, line, where):
        """The edit that a heading begins; None where it is none."""
        found = HEADING.fullmatch(line)
        if not found:
            self.faults.append(
                f"{where}: a heading is '## NAME (MODULE::FUNCTION)', with the function that the "
                f"edit changes: {line}"
            )
            return None
        return Edit(self.crate, found[1], found[2].split(", "), where)

    def whole(self, edit, old):
        """Takes an edit that is read to its end."""
        if edit is None:
            return
        if old is not None or not edit.pairs or not edit.why:
            what = (
                "no line says why"
                if not edit.why
                else "an 'old: TEXT' and a 'new: TEXT' behind it are missing"
            )
            self.faults.append(f"{edit.where}: {edit.name}: {what}")
            return
        self.edits.append(edit)

    def settle(self):
        """Leaves the edits that apply where their headings say, each of another name."""
        first, well = {}, []
        for edit in self.edits:
            if first.setdefault(edit.name, edit) is not edit:
                self.faults.append(
                    f"{edit.where}: {edit.name}: another edit of the crate has this name: "
                    f"{first[edit.name].where}"
                )
                continue
            try:
                edit.settle(self.source)
                well.append(edit)
            except TextFault as fault:
                self.faults.append(str(fault))
        self.edits = well


def read_all():
    """The edits of each crate that has some, by its name, and what is wrong with those that do not
    apply."""
    folders = sorted(os.listdir(os.path.join(TOP, "crates")))
    readers = [
        Reader(os.path.join("crates", it))
        for it in folders
        if os.path.isdir(os.path.join(TOP, "crates", it, "edits"))
    ]
    return {it.crate: it.edits for it in readers}, [fault for it in readers for fault in it.faults]
