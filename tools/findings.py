"""What `ospfd check` found, read from its JSON, and where that stands in the files.

A place is the line and column of the value at fault; of the key, where it is not known; of the
header of the table, where the key is not written.
"""
import json
import sys

from toml_places import Places, fault_of

# The codes of what may be intended; all others are faults. A warning of an accepted file has none.
NOTES, WARNING = ("A12", "A13", "A17", "A20"), "Warning"
# What a finding is.
FAULTY, RISKY, NOTED = "fault", "warning", "note"
OTHER_FORM, VERSION = 3, 2
# The arrays of tables, how many tables or ports there may be, and what a port may be.
TABLES, MOST, PORTS = ("interface", "host"), 32, (1024, 65535)


class Finding:
    """A fault or a note: the file, its code and name, what it says, and where it is in the file:
    the table, which is a kind and a number, and the key there; or the line."""

    def __init__(self, file, code, text, table=None, key=None):
        self.file, self.code, self.text = file, code, text
        self.severity = NOTED if code.split()[0] in NOTES else FAULTY
        self.severity = RISKY if code == WARNING else self.severity
        self.table, self.key, self.line = table, key, None
        # The item of a list that it is about.
        self.item = None

    def place(self):
        """Where it begins and ends: lines and columns, from 1; the beginning of the file where that
        is not found."""
        try:
            with open(self.file, encoding="utf-8", newline="") as file:
                text = file.read()
        except (OSError, UnicodeDecodeError):
            return (self.line or 1, 1) * 2
        if self.line is not None:
            fault = fault_of(text)
            return 2 * (fault if fault and fault[0] == self.line else (self.line, 1))
        return self.found_in(Places(text)) or (1, 1) * 2

    def found_in(self, places):
        """Where the key or the value stands; the header of its table where it is not written."""
        table = self.table_in(places)
        path = (*(table or ()), *([self.key] if self.key else ()))
        if self.code.startswith("C8"):
            return places.key(path) or places.below(path)
        if self.key in TABLES and places.key((self.key, MOST)):
            return places.key((self.key, MOST))
        if self.key == "peers":
            return places.value(self.item_of(places, path)) or places.key(table)
        found = places.value(path)
        if found is None and self.key == "dead":
            # What is written of the two is `hello`, which is not under the default.
            found = places.value((*path[:-1], "hello"))
        return found or places.below(path) or table and places.key(table)

    def table_in(self, places):
        """The table in the file. A fault of the file counts all tables; all else is said of links,
        which passive interfaces are not."""
        if not self.table or self.table[0] != TABLES[0] or self.code.startswith("C"):
            return self.table
        count, number = 0, 0
        while places.key((TABLES[0], number)):
            if places.written((TABLES[0], number, "passive")) != "true":
                if count == self.table[1]:
                    return TABLES[0], number
                count += 1
            number += 1
        return self.table

    def item_of(self, places, path):
        """The item of a list: the one that is named, or the first that cannot be there; the list
        itself if there is none."""
        for number in range(places.items(path)):
            port = places.written((*path, number)).replace("_", "")
            is_port = port.isdigit() and PORTS[0] <= int(port) <= PORTS[1]
            is_it = port == self.item if self.item else number == MOST or not is_port
            if is_it:
                return (*path, number)
        return path


def side_text(side):
    """What an interface or a router has, as `ospfd check` prints it."""
    where = "" if side["interface"] is None else f"interface {side['interface']}: "
    value = f"no {side['key']}" if side["value"] is None else f"{side['key']} {side['value']}"
    return where + value


def of_side(it, side, text):
    """A fault or a note between files, where an interface or a router of it is."""
    is_top = side["interface"] is None or side["key"] == "area"
    # An area is a key at the top, though it is said of an interface.
    table = None if is_top else (TABLES[0], side["interface"])
    found = Finding(side["file"], it["code"], text, table, side["key"])
    found.item = str(side["value"])
    return found


def of_area(it):
    """A fault or a note between files, by its object."""
    here, other = it["here"], it["other"]
    text = side_text(here)
    if other is not None:
        text += f", {other['file']}: {side_text(other)}"
    return of_side(it, here, f"{text}; {it['meaning']}")


def of_fault(file, it):
    """A fault of a file, by its object."""
    numbers = [(kind, it[kind]) for kind in TABLES if it[kind] is not None]
    table = numbers[0] if numbers else None
    found = Finding(file, it["code"], it["text"], table, named(it["key"]))
    # Without a line it is no text, of which the first place is as good as any.
    found.line = None if it["key"] is not None else it["line"] or 1
    return found


def of_warning(file, it):
    """A warning of a file, by its object."""
    return Finding(file, WARNING, it["text"], (TABLES[0], it["interface"]), it["key"])


def of_file(it):
    """The faults and the warnings of a file, by its object."""
    file = it["file"]
    return [
        *(of_fault(file, fault) for fault in it["faults"]),
        *(of_warning(file, warning) for warning in it["warnings"]),
    ]


def put_place(it, found):
    """Adds to an object where it is in the file."""
    it["line"], it["column"], it["end_line"], it["end_column"] = found.place()


def put_places(it):
    """Adds to each fault and warning of a file, or to each interface or router of a fault or note
    between files, where it is."""
    if "faults" in it:
        for fault in it["faults"]:
            put_place(fault, of_fault(it["file"], fault))
        for warning in it["warnings"]:
            put_place(warning, of_warning(it["file"], warning))
        return
    for side in filter(None, (it["here"], it["other"])):
        put_place(side, of_side(it, side, ""))


def named(key):
    """A key as it is, of one that is printed in quotes where it needs them."""
    try:
        return json.loads(key) if key and key.startswith('"') else key
    except ValueError:
        return key


def values(text):
    """What `ospfd check --json=2` printed, in lines; those that standard error got are passed over.
    Of `--json` the array, behind no first line."""
    found = [json.loads(line) for line in text.splitlines() if line.startswith(("{", "["))]
    if isinstance(found[0], list):
        return None, found[0]
    if found[0]["version"] != VERSION:
        raise ValueError
    return found[0], found[1:]


def read(text):
    """What `ospfd check` found, by its JSON; and the lines of that, with places."""
    try:
        first, items = values(text)
        found = [
            one for it in items for one in (of_file(it) if "faults" in it else [of_area(it)])
        ]
        for it in items:
            put_places(it)
        return found, [first, *items] if first else []
    except (ValueError, KeyError, TypeError, IndexError):
        print("annotate: this is no JSON of ospfd check --json=2", file=sys.stderr)
        sys.exit(OTHER_FORM)
