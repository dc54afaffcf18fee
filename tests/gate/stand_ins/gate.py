"""What the gate notes where its parts end in one way or another, and that it leaves nothing
running."""
import contextlib
import hashlib
import io
import os
import shutil
import signal
import subprocess
import sys

from common import GIT, SECONDS, TOP, git, in_a_folder, is_running, module_of, see, until

PROGRAM = b"a program\n"


def gated(
    top,
    last,
    status,
    edits=("true",),
    printed=None,
    tests=("echo", "4 passed, 0 failed"),
    proofs=None,
):
    """A run of the gate in a repository, with stand-ins for its parts: how it ends, and what it
    notes. Its lines come to what is printed."""
    script = module_of(os.path.join(top, "tests", "gate", "all"))

    class Part(script.Part):
        def __init__(self, words, aside=False, environment=None):
            stands = (
                ["sh", "-c", f"echo '{last}'; exit {status}"] if proofs is None else list(proofs)
            )
            stands = (
                stands
                if "ci" in words
                else list(edits)
                if "--gate" in words
                else list(tests)
                if words[:1] == ["tests/run"]
                else ["true"]
            )
            super().__init__(stands, aside)
            self.words = words

    script.Part = Part
    with contextlib.redirect_stdout(io.StringIO()) as text:
        ended = script.main()
    if printed is not None:
        printed.extend(text.getvalue().splitlines())
    noted = os.path.join(top, "out", "gate")
    if not os.path.exists(noted):
        return ended, None
    with open(noted, encoding="ascii") as file:
        return ended, file.read().splitlines()


def gate(place):
    """The gate notes the commit, its last line and the program where nothing else was there, and it
    leaves nothing running."""
    top = os.path.join(place, "gated")
    for folder in ("tests/gate", "examples", "bench", "tools", "crates/ospfd/out"):
        os.makedirs(os.path.join(top, folder))
    for name in (
        "tests/gate/all",
        "tests/gate/parts.py",
        "tests/gate/kit.py",
        "bench/checks.py",
        "tools/rattle.py",
        ".gitignore",
    ):
        shutil.copy(os.path.join(TOP, name), os.path.join(top, name))
    with open(os.path.join(top, "crates", "ospfd", "out", "ospfd"), "wb") as file:
        file.write(PROGRAM)
    git(top, "init", "-q")
    git(top, "add", ".")
    git(top, "commit", "-q", "-m", "x")
    commit, program = git(top, "rev-parse", "HEAD"), hashlib.sha256(PROGRAM).hexdigest()
    parts = module_of(os.path.join(top, "tests", "gate", "parts.py"))
    # The edits are one part more.
    count = len(parts.of_proved()) + len(parts.of_program()) + len(parts.ALONE) + 1
    wanted = [commit, f"{4 + 10 + count} passed, 0 failed", program]
    see("a gate that ends well", gated(top, "10 passed, 0 failed", 0), (0, wanted))
    see(
        "one whose edits fail",
        gated(top, "10 passed, 0 failed", 0, ["false"]),
        (1, [commit, f"{4 + 10 + count - 1} passed, 1 failed", program]),
    )
    see("one whose proofs fail", gated(top, "9 passed, 1 failed", 1), (1, None))
    see("one whose proofs say nothing", gated(top, "what", 1), (1, None))
    printed = []
    see(
        "one whose proofs pass and end ill",
        gated(top, "10 passed, 0 failed", 3, printed=printed),
        (1, None),
    )
    see("the last line of that one", printed[-1], "14 passed, 1 failed")
    new = os.path.join(top, "new")
    with open(new, "wb"):
        pass
    see("one with a new file", gated(top, "10 passed, 0 failed", 0), (0, None))
    see(
        "one from which a file goes",
        gated(top, "10 passed, 0 failed", 0, ["rm", "-f", new]),
        (0, None),
    )
    see(
        "one in whose midst a file comes",
        gated(top, "10 passed, 0 failed", 0, ["touch", new]),
        (0, None),
    )
    os.remove(new)
    see(
        "one that commits",
        gated(top, "10 passed, 0 failed", 0, [*GIT, "commit", "-q", "--allow-empty", "-m", "y"]),
        (0, None),
    )
    pid = os.path.join(place, "pid")
    child = (
        f"import subprocess; one = subprocess.Popen(['sleep', '1000']); open({pid!r}, "
        f"'w').write(f'{{one.pid}} '); one.wait()"
    )
    proofs = [sys.executable, "-c", child]
    tests = [
        "sh",
        "-c",
        f"until [ -s '{pid}' ]; do sleep 0.05; done; echo '3 passed, 1 failed'; exit 1",
    ]
    see(
        "one whose tests fail beside the proofs",
        gated(top, "", 0, tests=tests, proofs=proofs),
        (1, None),
    )
    with open(pid, encoding="ascii") as file:
        left = int(file.read())
    until(lambda: not is_running(left), "the proofs beside tests that fail are left running")
    os.remove(pid)
    words = [
        sys.executable,
        "-c",
        BROKEN_OFF.format(script=os.path.abspath(__file__), top=top, proofs=proofs),
    ]
    for number in (signal.SIGINT, signal.SIGTERM):
        broken = subprocess.Popen(
            words, stdout=subprocess.DEVNULL, stderr=subprocess.DEVNULL, start_new_session=True
        )
        until(lambda: os.path.exists(pid) and os.path.getsize(pid), "the gate does not begin")
        with open(pid, encoding="ascii") as file:
            left = int(file.read())
        # As a terminal does, to all of its group.
        os.killpg(broken.pid, number)
        broken.wait(SECONDS)
        until(lambda: not is_running(left), f"the proofs are left running behind {number.name}")
        os.remove(pid)


# A gate whose tests and proofs take long.
BROKEN_OFF = """
import importlib.machinery, importlib.util, os, signal, sys
sys.path.insert(0, os.path.dirname({script!r}))
# A gate that runs behind a shell has it ignored, and what it starts too.
signal.signal(signal.SIGINT, signal.default_int_handler)
loader = importlib.machinery.SourceFileLoader("own", {script!r})
own = importlib.util.module_from_spec(importlib.util.spec_from_loader("own", loader))
loader.exec_module(own)
own.gated({top!r}, "", 0, tests=["sleep", "1000"], proofs={proofs!r})
"""


if __name__ == "__main__":
    # A shell that runs this in the background has it ignore SIGINT, and then all that it starts
    # ignores it too.
    signal.signal(signal.SIGINT, signal.default_int_handler)
    in_a_folder(gate)
