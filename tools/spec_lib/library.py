"""The definitions of all crates: what a name means in a module, and the value of each
definition."""
import os

from . import items
from .declared import Crates, RustEnum, Type
from .evaluate import DataType, Defined, RecordType
from .kinds import Kind
from .lexer import words
from .parser import Implicit, Parser
from .statements import WORDS
from .terms import compile_term
from .values import Refused
from .words import CONSTRUCTORS


class Module:
    """One file of definitions: its declarations by name, and what its header brings in."""

    def __init__(self, library, name, file):
        self.library, self.name, self.crate = library, name, name.split(".")[0]
        self.unread = file.unread
        self.uses = {}
        for use in file.uses:
            self.uses.setdefault(use.name, []).append(use)
        self.declared = {d.name: d for d in file.declarations}
        self.constructors = {}
        for data in file.declarations:
            if isinstance(data, items.Data):
                self.constructors.update({name: (data, kind) for name, kind in data.constructors})
        self.values = {}

    def value(self, name):
        """The value of a declaration."""
        self.library.asked.add(f"{self.name}.{name}")
        if name not in self.values:
            declared = self.declared[name]
            kinds = {items.Function: Defined, items.Record: RecordType, items.Data: DataType}
            value = kinds[type(declared)](self, declared).value()
            self.values[name] = self.library.read_as(f"{self.name}.{name}", value)
        return self.values[name]

    def value_type(self, name):
        """The type of values that a constructor of this module makes, if it is one."""
        value = self.value(self.constructors[name][0].name)
        return value if isinstance(value, Kind) else None

    def constructor(self, name):
        """The function that a constructor of this module is."""
        return self.library.made(name, self.arity(self.constructors[name][1]))

    @staticmethod
    def arity(kind):
        """How many arguments a type takes."""
        count = 0
        while kind[0] in ("pi", "arrow"):
            groups = kind[1] if kind[0] == "pi" else [([None], kind[1])]
            count += sum(len(names) for names, _ in groups if not isinstance(names, Implicit))
            kind = kind[2]
        return count

    def look_up(self, name):
        """What a name of the text means: ("value", v), or ("constructor", name, its type, v)."""
        if name in self.declared:
            return ("value", self.value(name))
        if name in self.constructors:
            return ("constructor", name, self.value_type(name), self.constructor(name))
        for use in self.uses.get(name, []):
            if not use.module:
                return self.library.at_path(use.path)
        return self.library.of_prelude(name)

    def child(self, name, part):
        """What `name.part` means where `name` is a module, or a type with constructors."""
        found = []
        for use in self.uses.get(name, []):
            if use.module or "declared" not in use.path:
                found.append(self.library.at_path((*use.path, part)))
            else:
                found.append(self.library.at_path((*use.path, "TheVariants", part)))
        if name in self.declared and isinstance(
            self.declared[name], items.Data
        ) and part in self.constructors:
            found.append(self.look_up(part))
        return next((one for one in found if one and one[0] != "missing"), None)

    def passed_on(self, name):
        """What this module passes on by a `pub use` line."""
        for use in self.uses.get(name, []):
            if use.passed_on and not use.module:
                return self.library.at_path(use.path)
        return None


class Library:
    """The modules and types of the crates under a folder."""

    def __init__(self, top, finite=None):
        self.top = top
        self.crates = Crates(top)
        self.modules = {}
        # What terms have asked for since this was emptied, and what of it is not known.
        self.asked, self.lacking = set(), set()
        self.readings = finite.READINGS if finite else {}
        self.witnesses = finite.WITNESSES if finite else {}
        self.kept_names = finite.KEPT if finite else ()
        self.kept = finite.Kept if finite else None

    def names(self):
        """The names of all modules, in their order."""
        out = []
        crates = os.path.join(self.top, "crates")
        for crate in sorted(os.listdir(crates)):
            specs = os.path.join(crates, crate, "specs")
            files = (
                os.path.relpath(os.path.join(place, name), specs)
                for place, _, names in os.walk(specs) for name in names if name.endswith(".antt")
            )
            out.extend(f"{crate}.{file[:-5].replace(os.sep, '.')}" for file in sorted(files))
        return out

    def module(self, name):
        """A module by its name, as ospf_base.Keys."""
        if name not in self.modules:
            crate, _, rest = name.partition(".")
            path = os.path.join(self.top, "crates", crate, "specs", *rest.split(".")) + ".antt"
            if not os.path.exists(path):
                raise Refused(f"{name} is no module")
            with open(path, encoding="utf-8") as file:
                self.modules[name] = Module(self, name, items.read(file.read()))
        return self.modules[name]

    def is_own(self, crate):
        """Whether a crate is one of this repository."""
        return os.path.isdir(os.path.join(self.top, "crates", crate))

    def made(self, name, arity):
        """A constructor as a value."""
        return CONSTRUCTORS[name] if name in CONSTRUCTORS else Kind.maker(name, arity)

    def of_prelude(self, name):
        """What a name means that no line of the file brings in."""
        if name in CONSTRUCTORS:
            return (
                "constructor", name, WORDS["Bool"] if name in ("true", "false") else None,
                CONSTRUCTORS[name]
            )
        return ("value", WORDS[name]) if name in WORDS else None

    def at_path(self, path):
        """What stands at the end of a path."""
        if path[0] != "Rattle" or len(path) < 4 or not self.is_own(path[1]):
            known = self.of_prelude(path[-1])
            if known is None and "declared" in path:
                return ("value", Kind(Type(path[-1]), self)) if "TheVariants" not in path else None
            return known or ("missing", ".".join(path))
        crate, rest = path[1], path[3:]
        if "contracts" in rest:
            return ("missing", ".".join(path))
        if rest[0] == "declared":
            return self.declared(crate, rest)
        module = self.found_module(crate, rest[:-1])
        name = rest[-1]
        if module is None:
            return ("missing", ".".join(path))
        if name in module.declared or name in module.constructors:
            return module.look_up(name)
        return module.passed_on(name) or ("missing", ".".join(path))

    def found_module(self, crate, parts):
        """The module at this path; one that the crate's root passes on; or the one that declares a
        type of this name."""
        if os.path.exists(os.path.join(self.top, "crates", crate, "specs", *parts) + ".antt"):
            return self.module(".".join((crate, *parts)))
        if len(parts) > 1:
            module = self.found_module(crate, parts[:-1])
            return module if module and isinstance(
                module.declared.get(parts[-1]), items.Data
            ) else None
        for use in self.module(f"{crate}.Lib").uses.get(parts[0], []) if parts else ():
            return self.found_module(use.path[1], use.path[3:])
        return None

    def declared(self, crate, rest):
        """A type of Rust, or one of its variants."""
        if "TheVariants" not in rest:
            return ("value", Kind(Type(rest[-1]), self, crate))
        place = rest.index("TheVariants")
        kind = self.crates.find(rest[place - 1], crate)
        if isinstance(kind, RustEnum):
            for name, parts in kind.variants:
                if name == rest[-1]:
                    return (
                        "constructor", name, Kind(Type(rest[place - 1]), self, crate),
                        self.made(name, len(parts))
                    )
        return ("missing", ".".join(rest))

    def read_as(self, whole, value):
        """The finite reading of a function that has one, else the function."""
        reading = self.readings.get(whole)
        return reading(self, value) if reading else value

    def witnesses_of(self, record, scope):
        """The values that fields of a record can only have, as functions of its parameters."""
        given = self.witnesses.get(record.whole, {})
        return {
            field: compile_term(Parser(words(text)).term(), scope) for field, text in given.items()
        }

    def keeping(self, whole, values, goals):
        """The goals of a record, as one whose ways are kept where they are to be."""
        return [lambda: self.kept(whole, values, goals)] if whole in self.kept_names else goals

    def local(self, module, declared, names):
        """A function behind a `where`."""
        return Defined(module, declared, names)

    def definition(self, name):
        """The value of a definition by its whole name, as ospf_base.Keys.ls_type."""
        module, _, last = name.rpartition(".")
        found = self.module(module)
        if last not in found.declared:
            raise Refused(f"{name} is not defined")
        return found.value(last)

