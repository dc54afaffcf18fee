"""What Rattle sources, edits and crates.txt say to a reader of their text: functions, items and
their paths, definitions, and which crate needs which. The scripts that read sources share this."""
import functools
import os
import re

TOP = os.path.dirname(os.path.dirname(os.path.abspath(__file__)))
VISIBLE, KINDS = r"(?:pub(?:\([a-z]+\))? )?", r'(?:const |final |unsafe |extern "C" )*'
# The first line of a function, with its indent and its name.
SIGNATURE = re.compile(rf"^([ \t]*){VISIBLE}{KINDS}fn (\w+)", re.M)
OF_ITEM = r"(const|static|struct|enum|union|type|trait|mod|use|impl\b\S*) (?:\w+::)*(\w+)"
ITEM = re.compile(rf"^[ \t]*{VISIBLE}(?:unsafe )?{OF_ITEM}", re.M)
HEAD = re.compile(r"^(?:unsafe )?(?:impl|trait|pub trait)\b(.*?)(?:\{|$)", re.M)
# The first line of a public type or trait.
TYPE = re.compile(r"pub (struct|enum|trait) (\w+)")
# The first line of a definition of specs/, with its word.
DEFINITION = re.compile(r"(?:pub )?(?:abbrev|unfoldable|record|data)(?: pub)? (\S+)")


def files_of(folder, ending):
    """The files with an ending below a folder, in order."""
    found = (os.path.join(at, file) for at, _, files in os.walk(folder) for file in files)
    return sorted(path for path in found if path.endswith(ending))


def rust_files(folder):
    """The sources below a folder, in order."""
    return files_of(folder, ".rt")


@functools.lru_cache(maxsize=None)
def lines_of(path):
    """The lines of a file, without their ends."""
    with open(path, encoding="utf-8") as file:
        return file.read().split("\n")


def crate_lines(top=TOP):
    """The lines of crates.txt by the name of the crate, in their order."""
    found = {}
    with open(os.path.join(top, "crates.txt"), encoding="utf-8") as file:
        for line in file:
            if line := line.split("#")[0].strip():
                found[line.partition(":")[0].split()[0]] = line
    return found


def needed_by(line):
    """The libraries that a line of crates.txt names."""
    return line.partition(":")[2].split()


def function_at(text, at):
    """Which function of the file holds this place: its number from the front; None outside of all
    functions."""
    starts = [found.start() for found in SIGNATURE.finditer(text)]
    number = sum(1 for start in starts if start <= at) - 1
    if number < 0:
        return None
    # A function ends with the first closing brace of its own depth.
    begin = text.rfind("\n", 0, starts[number] + 1) + 1
    depth = len(text[begin:]) - len(text[begin:].lstrip(" \t\n"))
    end = re.compile(rf"^[ ]{{{depth}}}\}}", re.M).search(text, starts[number])
    return number if end is None or at <= end.end() else None


def module_of(file):
    """The path of the module that a file holds, as the prover names it."""
    parts = os.path.splitext(file)[0].split("/")[1:]
    return "::".join(parts if parts not in (["lib"], ["main"]) else [])


def path_of(file, text, number):
    """The path of a function, as the prover names it: of a method behind its type, and behind the
    trait too where it is a trait's."""
    found = [it for it in SIGNATURE.finditer(text)][number]
    names = [it for it in (module_of(file), owner_at(text, found.start()), found.group(2)) if it]
    return "::".join(names)


def item_at(file, text, at):
    """The path of the item outside of all functions that holds this place, or follows the attribute
    or comment there."""
    begin = text.rfind("\n", 0, at) + 1
    line = text[begin:].partition("\n")[0]
    begins = list(ITEM.finditer(text))
    around = [it for it in begins if it.start() <= begin + len(line)]
    behind = [it for it in begins if it.start() > begin]
    item = (behind + [None])[0] if line.lstrip().startswith(("#[", "//")) else ([None] + around)[-1]
    if item is None:
        return module_of(file)
    is_impl = item.group(1).startswith("impl")
    names = [
        module_of(file),
        owner_at(text, item.end()) if is_impl or item.group(0)[0].isspace() else "",
        "" if is_impl else item.group(2),
    ]
    return "::".join(it for it in names if it)


def owner_at(text, at):
    """The name of the impl or trait that holds this place."""
    heads = [it for it in HEAD.finditer(text) if it.start() <= at]
    if not heads or re.search(r"^\}", text[heads[-1].start() : at], re.M):
        return ""
    head = heads[-1].group(1).strip()
    depth = 0
    for place, letter in enumerate(head):
        depth += (letter == "<") - (letter == ">" and head[place - 1] != "-")
        if letter == ">" and depth == 0 and head.startswith("<"):
            head = head[place + 1 :].strip()
            break
    trait, is_for, owner = head.partition(" for ")
    plain = lambda it: re.match(r"[&\s]*(?:\w+::)*(\w*)", it).group(1)
    return plain(owner) + plain(trait) if is_for else plain(trait)
