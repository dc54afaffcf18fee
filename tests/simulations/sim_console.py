"""A console: each line is answered before the next is sent, over pipes and over a terminal."""
import os
import pty
import select
import subprocess
import tempfile

from simulated import EXAMPLES, bytes_of

# What is said at a console in the example of two routers: each line, and what it is answered on
# standard output and on standard error.
TALK = [
    ("say ready # or not", "ready\n", ""),
    (
        "settel 200",
        "",
        "line 2: not a command\n  settel: no such command; the commands are start, ",
    ),
    ("settle", "", "line 3: not a command\n  settle MAX\n"),
    ("", "", ""),
    ("stop 9.9.9.9", "", "line 5: W1 NoRouter\n"),
    ("start all", "", ""),
    ("up all", "", ""),
    ("settle 200", "settled in round 15, unchanged for 41 more\n", ""),
    ("neighbours 1.1.1.1", "0 2.2.2.2 Full\n", ""),
    ("expect full 1.1.1.1 9.9.9.9", "not met: expect full 1.1.1.1 9.9.9.9\n0 2.2.2.2 Full\n", ""),
]
# The status of a simulation in which something was not as a line expected it, and the seconds that
# an answer may take.
UNMET, SOON = 1, 20
PROMPT, END_OF_INPUT = b"> ", b"\x04"


def heard(stream, wanted):
    """What a stream says, up to as much as is wanted, or to its end, or till nothing comes any
    more."""
    said = b""
    while len(said) < len(wanted):
        ready, _, _ = select.select([stream], [], [], SOON)
        more = os.read(stream.fileno(), len(wanted) - len(said)) if ready else b""
        if not more:
            break
        said += more
    return said


def console(program, files, **streams):
    """A console in the example of two routers."""
    folder = os.path.join(EXAMPLES, "two-routers-up")
    return subprocess.Popen(
        [program, "sim", *files, "-", "1.toml", "2.toml"],
        cwd=folder,
        stdout=subprocess.PIPE,
        bufsize=0,
        **streams,
    )


def unanswered(program):
    """What is wrong with a console over pipes, in lines: the last line has no end, and one was not
    as it was expected."""
    told = []
    with console(program, [], stdin=subprocess.PIPE, stderr=subprocess.PIPE) as child:
        for line, printed, refused in TALK:
            child.stdin.write(line.encode() + b"\n")
            for stream, wanted in (
                (child.stdout, printed.encode()),
                (child.stderr, refused.encode()),
            ):
                said = heard(stream, wanted)
                told += [] if said == wanted else [f"{line!r}: {said!r}, and not {wanted!r}"]
            # What stands behind the beginning of a hint.
            while (
                refused
                and not refused.endswith("\n")
                and heard(child.stderr, b" ") not in (b"\n", b"")
            ):
                pass
        child.stdin.write(b"say bye")
        child.stdin.close()
        rest = (child.stdout.read(), child.stderr.read())
        told += [] if rest == (b"bye\n", b"") else [f"at the end: {rest}"]
    return told + ([] if child.returncode == UNMET else [f"status {child.returncode}"])


def unprompted(program):
    """What is wrong with a console on a terminal, in lines."""
    here, there = pty.openpty()
    told = []
    with console(program, [], stdin=there, stderr=subprocess.PIPE) as child:
        os.close(there)
        for line, wanted in (("say a", PROMPT), ("say b", b"a\n" + PROMPT), ("", b"b\n" + PROMPT)):
            said = heard(child.stdout, wanted)
            told += [] if said == wanted else [f"before {line!r}: {said!r}, and not {wanted!r}"]
            os.write(here, line.encode() + b"\n" if line else END_OF_INPUT)
        rest = (child.stdout.read(), child.stderr.read())
        told += [] if rest == (b"\n", b"") else [f"at the end: {rest}"]
    os.close(here)
    return told + ([] if child.returncode == 0 else [f"status {child.returncode}"])


def misrecorded(program):
    """What is wrong with the capture of a simulation that is broken off, in lines: what its lines
    have sent is to be in it, as in the capture that stands at the end of a simulation of the same
    lines."""
    lines = b"start all\nup all\nround 40\nsay here\n"
    with tempfile.TemporaryDirectory() as place:
        begun, whole = (os.path.join(place, name) for name in ("begun", "whole"))
        with console(
            program, ["--pcap", begun], stdin=subprocess.PIPE, stderr=subprocess.DEVNULL
        ) as child:
            child.stdin.write(lines)
            said = heard(child.stdout, b"here\n")
            child.kill()
        with console(
            program, ["--pcap", whole], stdin=subprocess.PIPE, stderr=subprocess.DEVNULL
        ) as child:
            child.communicate(lines)
        captures = [bytes_of(name) for name in (begun, whole)]
    told = [] if said == b"here\n" else [f"said {said!r}"]
    return told + (
        []
        if captures[0] == captures[1] and len(captures[0]) > 1000
        else [f"{len(captures[0])} bytes, and not {len(captures[1])}"]
    )
