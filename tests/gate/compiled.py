"""Keeps what was compiled with checks on this machine, by the sum of all that it was made of.

The program and the unit tests take minutes to compile, and the same sources give the same program.
So what was compiled stays in the toolchain's store, under a sum of the toolchain, of the sources
and of the scripts that compile. A later run over the same files takes it from there, and says so.
Nothing is a verdict here: every test runs again. A message of a failed check may name the folder in
which the program was compiled first.

Where OSPFD_ANEW is set in the environment nothing is taken over, and what is compiled takes the
place of what was kept.
"""
import contextlib
import hashlib
import os
import shutil

from kit import command, look_for

TOP = os.path.dirname(os.path.dirname(os.path.dirname(os.path.abspath(__file__))))
ANEW = "OSPFD_ANEW"
# So many of each kind stay, those that were used last: some branches of one machine.
MOST = 4
# What the program is made of, beside the folders of each crate, and those folders.
FILES = ("crates.txt", "HANDLES", "tools/compile", "tools/checked.py")
PARTS = ("src", "specs", "c")


def files_below(path):
    """The files at and below a path, in order, without what git keeps."""
    if os.path.isfile(path):
        return [path]
    found = []
    for folder, folders, names in os.walk(path):
        folders[:] = sorted(it for it in folders if it != ".git")
        found += [os.path.join(folder, name) for name in sorted(names)]
    return found


def sum_of(top, paths, words=()):
    """A sum of words, and of the names and bytes of all files at and below these paths."""
    made = hashlib.sha256(repr(tuple(words)).encode())
    for path in paths:
        for file in files_below(path):
            with open(file, "rb") as text:
                content = text.read()
            made.update(repr((os.path.relpath(file, top), content)).encode())
    return made.hexdigest()


class Compiled:
    """What is kept of one kind: the newest few, each under the sum of what it was made of."""

    def __init__(self, kind):
        self.kind, self.kit = kind, command()
        look_for(self.kit, "rt", "STORE", "kit_sum")
        self.folder = os.path.join(self.kit.STORE, "compiled")

    def key(self, top, paths, words=()):
        return sum_of(top, paths, [self.kit.kit_sum(), *words])

    def key_of_program(self):
        """The sum of all that the program is made of."""
        crates = os.path.join(TOP, "crates")
        folders = [
            os.path.join(crates, it, part) for it in sorted(os.listdir(crates)) for part in PARTS
        ]
        return self.key(TOP, [*(os.path.join(TOP, it) for it in FILES), *folders])

    def place(self, key):
        return os.path.join(self.folder, f"{self.kind}-{key}")

    def take(self, key, program):
        """Puts what is kept under a sum in its place; whether there is something."""
        kept = self.place(key)
        if os.environ.get(ANEW) or not os.path.isfile(kept):
            return False
        try:
            os.makedirs(os.path.dirname(program) or ".", exist_ok=True)
            copy_to(kept, program)
            os.utime(kept)
        except OSError:
            return False
        return True

    def keep(self, key, program):
        """Keeps a program under a sum, where there is a store; those used longest ago go."""
        with contextlib.suppress(OSError):
            os.makedirs(self.folder, 0o700, exist_ok=True)
            copy_to(program, self.place(key))
            kept = [it for it in os.scandir(self.folder) if it.name.startswith(f"{self.kind}-")]
            for old in sorted(kept, key=lambda it: -it.stat().st_mtime)[MOST:]:
                os.remove(old.path)


def copy_to(path, to):
    """Copies a program whole, or not at all."""
    new = f"{to}.{os.getpid()}"
    try:
        shutil.copyfile(path, new)
        os.chmod(new, 0o755)
        os.replace(new, to)
    finally:
        with contextlib.suppress(FileNotFoundError):
            os.remove(new)
