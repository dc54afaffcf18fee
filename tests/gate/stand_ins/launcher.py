"""Which program the launcher ospfd runs."""
import os
import shutil
import subprocess
import sys

from common import CHANGED, TOP, age, in_a_folder, see, written

# What a program is made of, and what it is not.
SOURCES = ("crates.txt", "HANDLES", "crates/ospfd/src/main.rt", "crates/ospf_a/src/b/one.rt")
NO_SOURCES = (
    "crates/ospf_a/edits/b.edits",
    "crates/ospf_a_tests/src/lib.rt",
    "crates/ospf_a/must-fail/c",
    "crates/ospf_a/out/rlib",
)


def repository(top):
    """A repository with a program of each kind, a compiler that makes one, and a toolchain's
    command that does nothing."""
    shutil.rmtree(top, ignore_errors=True)
    for name in ("ospfd", "tools/is-current"):
        os.makedirs(os.path.dirname(os.path.join(top, name)), exist_ok=True)
        shutil.copy(os.path.join(TOP, name), os.path.join(top, name))
    shutil.copytree(os.path.join(TOP, "bench"), os.path.join(top, "bench"))
    written(
        top,
        "tools/compile",
        "#!/bin/sh\nprintf '#!/bin/sh\\necho compiled anew\\n' > \"$1\"\nchmod +x \"$1\"\n",
        0o755,
    )
    written(top, "bin/rt", "#!/bin/sh\n", 0o755)
    for name in (*SOURCES, "crates/ospf_a/src/b/two.rt"):
        written(top, name, "")
    for name in NO_SOURCES:
        written(top, name, "")
    written(top, "out/ospfd", "#!/bin/sh\necho compiled\n", 0o755)
    written(top, "crates/ospfd/out/ospfd", "#!/bin/sh\necho '(proved)'\n", 0o755)
    age(top)


def launched(top):
    """What the launcher runs, and whether the benchmarks take the proved program."""
    how = {
        "capture_output": True,
        "text": True,
        "check": False,
        "env": {**os.environ, "PATH": f"{top}/bin:{os.environ['PATH']}"},
    }
    ran = subprocess.run(
        [sys.executable, "-c", "import proved; proved.program()"],
        cwd=os.path.join(top, "bench"),
        **how,
    )
    return subprocess.run([os.path.join(top, "ospfd")], **how).stdout.strip(), ran.returncode == 0


def launcher(place):
    """Which program is run: the proved one of these sources, else one that is compiled of them."""
    top = os.path.join(place, "crates", "launched [x]")

    def touch(name):
        os.utime(os.path.join(top, name), (CHANGED, CHANGED))

    repository(top)
    see("a proved program", launched(top), ("(proved)", True))
    for name in SOURCES:
        repository(top)
        touch(name)
        see(f"{name} is newer", launched(top), ("compiled anew", False))
    repository(top)
    touch("crates/ospf_a/src/b/one.rt")
    os.utime(os.path.join(top, "out", "ospfd"), (CHANGED + 1, CHANGED + 1))
    see("compiled since", launched(top), ("compiled", False))
    repository(top)
    os.remove(os.path.join(top, "crates", "ospf_a", "src", "b", "two.rt"))
    see("a source is gone", launched(top), ("compiled anew", False))
    repository(top)
    shutil.rmtree(os.path.join(top, "crates", "ospf_a", "src", "b"))
    see("a folder of sources is gone", launched(top), ("compiled anew", False))
    repository(top)
    os.remove(os.path.join(top, "crates", "ospfd", "out", "ospfd"))
    see("nothing is proved", launched(top), ("compiled", False))
    repository(top)
    for name in (*NO_SOURCES, "crates/ospf_a/edits", "crates/ospf_a/out"):
        touch(name)
    written(top, "crates/ospfd/out/more", "")
    os.mkdir(os.path.join(top, "crates", "ospfd", "new"))
    os.rmdir(os.path.join(top, "crates", "ospfd", "new"))
    see("what is no source is newer", launched(top), ("(proved)", True))


if __name__ == "__main__":
    in_a_folder(launcher)
