"""What the tests over stand-ins share."""
import importlib.machinery
import importlib.util
import os
import subprocess
import sys
import tempfile
import time

TOP = os.path.dirname(os.path.dirname(os.path.dirname(os.path.dirname(os.path.abspath(__file__)))))
GIT = ["git", "-c", "user.name=x", "-c", "user.email=x"]
# Seconds of the time at which all sources were written, a program was built, and a source was
# changed.
WRITTEN, BUILT, CHANGED = 1_000_000, 1_000_100, 1_000_200
# What is waited for comes in this time, also on a machine with much other work.
SECONDS = 120


def in_a_folder(*tests):
    """Runs tests, each in a folder that is taken away then."""
    # What tests/run chooses is not what the launcher runs here.
    os.environ.pop("OSPFD_PROGRAM", None)
    for test in tests:
        with tempfile.TemporaryDirectory() as place:
            test(os.path.realpath(place))


def fail(what):
    sys.exit(f"stand-ins: {what}")


def see(what, found, wanted):
    if found != wanted:
        fail(f"{what}: {found!r}, and not {wanted!r}")


def module_of(path):
    """A script as a module."""
    sys.dont_write_bytecode = True
    loader = importlib.machinery.SourceFileLoader(os.path.basename(path), path)
    made = importlib.util.module_from_spec(importlib.util.spec_from_loader(loader.name, loader))
    loader.exec_module(made)
    return made


def git(top, *words):
    return subprocess.run(
        [*GIT, *words], cwd=top, capture_output=True, text=True, check=True
    ).stdout.strip()


def is_running(pid):
    try:
        with open(f"/proc/{pid}/stat", encoding="ascii", errors="replace") as file:
            return file.read().rpartition(")")[2].split()[0] != "Z"
    except OSError:
        return False


def until(is_so, what):
    last = time.monotonic() + SECONDS
    while not is_so():
        if time.monotonic() > last:
            fail(what)
        time.sleep(0.02)


def written(top, name, text, mode=0o644):
    path = os.path.join(top, name)
    os.makedirs(os.path.dirname(path), exist_ok=True)
    with open(path, "w", encoding="utf-8") as file:
        file.write(text)
    os.chmod(path, mode)
    return path


def age(top):
    """Gives all below a folder the time of sources, and programs that of theirs."""
    for folder, _, names in os.walk(top, topdown=False):
        for name in names:
            moment = BUILT if "out" in folder.split(os.sep) else WRITTEN
            os.utime(os.path.join(folder, name), (moment, moment))
        os.utime(folder, (WRITTEN, WRITTEN))
