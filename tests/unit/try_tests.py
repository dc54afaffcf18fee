#!/usr/bin/env python3
"""Compiles the tests of a crate as `rt try --test` does (tools/checked.py), and runs them side by
side, each in a process of its own.

usage: try_tests.py FOLDER CRATE SECONDS [PART]    the crates of a folder, one of them, the most
                                                   seconds of a test, and a part of the names of
                                                   tests

The program of all tests is kept on this machine (tests/gate/compiled.py): where nothing that it is
made of has changed, the tests run at once.
"""
import concurrent.futures
import os
import re
import resource
import signal
import subprocess
import sys
import tempfile

TOP = os.path.dirname(os.path.dirname(os.path.dirname(os.path.abspath(__file__))))
sys.path[:0] = [os.path.join(TOP, "tests", "gate"), os.path.join(TOP, "tools")]
from compiled import Compiled  # noqa: E402
from kit import library, look_for  # noqa: E402
import checked  # noqa: E402

RESULT = re.compile(r"^test result: \w+\. (\d+) passed; (\d+) failed.*$", re.M)
MOST_AT_ONCE = 4
# What compiles the tests, beside the toolchain.
SCRIPTS = [os.path.join(TOP, "tools", "checked.py"), os.path.abspath(__file__)]


def take_or_build(folder, crate, program, place):
    """Takes the tests that an earlier run compiled of the same sources, or compiles them; those of
    the whole program are kept."""
    if not crate.is_program:
        build(crate, program, place)
        return
    kept = Compiled("units")
    key = kept.key(folder, [folder], [kept.key(TOP, SCRIPTS), crate.name])
    if kept.take(key, program):
        print("the tests are compiled already, by an earlier run over the same sources", flush=True)
        return
    build(crate, program, place)
    kept.keep(key, program)


def build(crate, program, place):
    """Compiles the tests of a crate into a program."""
    kept = os.path.join(place, "kept")
    os.mkdir(kept)
    words = [
        "--crate-name",
        crate.name,
        "--test",
        "src/main.rt" if crate.is_program else "src/lib.rt",
        *crate.sources_below(),
    ]
    words += rtlib.kit_sources(name for it in [crate, *crate.below()] for name in it.of_kit)
    checked.read(words, kept, place, crate.folder)
    checked.shrink(kept, place)
    checked.build(kept, "-O0", program, place)


def groups_of(program):
    """The tests of a program in groups: what the names of each group's tests begin with."""
    listed = subprocess.run(
        [program, "--list"],
        stdin=subprocess.DEVNULL,
        stdout=subprocess.PIPE,
        text=True,
        check=False,
    ).stdout
    found = re.findall(r"^((?:\w+::){1,2})\S*: test$", listed, re.M)
    return list(dict.fromkeys(found))


def run_group(program, seconds, word, running):
    """Runs the tests whose names hold a word, one after the other: what was said, how many passed,
    and how many failed, if that was said."""
    words = [rtlib.RUNNER, "--seconds", seconds, *(["--filter", word] if word else []), program]
    with subprocess.Popen(
        words,
        stdin=subprocess.DEVNULL,
        stdout=subprocess.PIPE,
        stderr=subprocess.STDOUT,
        text=True,
        errors="replace",
    ) as child:
        running.append(child)
        said = child.communicate()[0]
        running.remove(child)
    counted = RESULT.search(said)
    return (
        (RESULT.sub("", said).strip(), int(counted[1]), int(counted[2]))
        if counted
        else (said, 0, 1)
    )


def run_tests(program, seconds, part):
    """Runs the tests side by side, group by group, and prints what was said of them: whether all
    passed."""
    passed, failed, running = 0, 0, []
    side_by_side = concurrent.futures.ThreadPoolExecutor(
        min(MOST_AT_ONCE, len(os.sched_getaffinity(0)))
    )
    try:
        for said, good, bad in side_by_side.map(
            lambda word: run_group(program, seconds, word, running),
            part or groups_of(program) or [""],
        ):
            print(said, flush=True)
            passed, failed = passed + good, failed + bad
    finally:
        side_by_side.shutdown(wait=False, cancel_futures=True)
        for child in list(running):
            child.kill()
    print(f"test result: {'FAILED' if failed else 'ok'}. {passed} passed; {failed} failed")
    return not failed


def interrupted(number, frame):
    signal.signal(number, signal.SIG_IGN)
    sys.exit(1)


# What ends it ends what it has started, too.
signal.signal(signal.SIGTERM, interrupted)
folder, name, seconds, *part = sys.argv[1:]
rtlib = library()
look_for(rtlib, "rtlib", "RUNNER", "Crate", "crates_below", "kit_sources")
look_for(rtlib.Crate, "rtlib.Crate", "below", "sources_below")
with tempfile.TemporaryDirectory(prefix="tests-") as made:
    tests = os.path.join(made, "tests")
    try:
        take_or_build(
            folder, next(it for it in rtlib.crates_below(folder) if it.name == name), tests, made
        )
    except checked.NotCompiled as failure:
        sys.exit(str(failure))
    # A test that fails aborts, and would leave a core file.
    resource.setrlimit(resource.RLIMIT_CORE, (0, 0))
    sys.exit(0 if run_tests(tests, seconds, part) else 1)
