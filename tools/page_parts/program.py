"""The program that gives all answers of a page."""
import hashlib
import json
import os
import shutil
import subprocess
import sys
import tempfile

import lsas

HERE = os.path.dirname(os.path.abspath(__file__))
TOOLS = os.path.dirname(HERE)
# In the repository it is one folder up; in a package the tools are in usr/lib/ospfd.
PLACES = (("..", "ospfd"), ("..", "..", "bin", "ospfd"))


def find(named):
    """The program: the named one, that of the repository or the package, or the one on PATH."""
    places = [os.path.join(TOOLS, *place) for place in PLACES]
    places = [named] if named else [*places, shutil.which("ospfd") or ""]
    for place in places:
        if os.path.isfile(place) and os.access(place, os.X_OK):
            return os.path.abspath(place)
    return lsas.end(lsas.NOT_READ, f"{named or 'ospfd'}: not found: name it with --ospfd")


class Program:
    """The program, and the LSDB that it reads."""

    def __init__(self, named, text):
        self.path, self.text = find(named), text
        self.sum = hashlib.sha256(text).hexdigest()

    def start(self, words, **how):
        """Starts the program on the LSDB."""
        file = tempfile.TemporaryFile()
        file.write(self.text)
        file.seek(0)
        try:
            with file:
                return subprocess.Popen([self.path, *words], stdin=file, stdout=subprocess.PIPE,
                                        **how)
        except OSError as error:
            return lsas.end(lsas.NOT_READ, f"{self.path}: not run: {error.strerror}")

    def version(self):
        with self.start(["--version"]) as child:
            return child.stdout.read().decode("utf-8", "replace").strip()

    def answer(self, *words, is_quiet=True):
        """The JSON that it prints; where it fails the tool ends as it does."""
        how = {"stderr": subprocess.PIPE} if is_quiet else {}
        with self.start(words, **how) as child:
            printed, said = child.communicate()
        if child.returncode:
            if said:
                lsas.tell(said.decode("utf-8", "replace").rstrip("\n"))
            sys.exit(child.returncode)
        return json.loads(printed)
