"""A shim of the C library's allocator, which refuses one allocation of a program (refuse.c)."""
import os
import subprocess

HERE = os.path.dirname(os.path.abspath(__file__))


class Shim:
    """The shim, built in a folder."""

    def __init__(self, place):
        self.library = os.path.join(place, "refuse.so")
        self.count = os.path.join(place, "count")
        source = os.path.join(HERE, "refuse.c")
        subprocess.run(
            ["cc", "-O1", "-shared", "-fPIC", "-o", self.library, source, "-ldl"], check=True
        )

    def run(self, words, number=0, **options):
        """Runs a program with the allocation of this number refused, or with none, at 0."""
        names = {
            "LD_PRELOAD": self.library,
            "REFUSE_PLACE": str(number),
            "REFUSE_COUNT": self.count,
        }
        return subprocess.run(
            words, capture_output=True, env={**os.environ, **names}, timeout=60, **options
        )

    def allocations(self):
        """How many allocations the last run made."""
        with open(self.count, encoding="ascii") as file:
            return int(file.read())
