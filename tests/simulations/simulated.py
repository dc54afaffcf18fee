"""The examples of simulations, and what a script of some lines prints."""
import os
import re
import subprocess
import tempfile

TOP = os.path.dirname(os.path.dirname(os.path.dirname(os.path.abspath(__file__))))
EXAMPLES = os.path.join(TOP, "examples")
FOLDERS = [EXAMPLES, os.path.join(TOP, "tests", "simulations")]
# Rounds that are looked at one by one, how many in a row are to change nothing (the seconds of
# RouterDeadInterval and one), and what stands between them.
ROUNDS, STILL, MARK = 200, 41, "----"
ONE = """router_id = "1.1.1.1"
area = "0.0.0.0"
[[interface]]
kind = "point-to-point"
address = "10.0.0.1/30"
cost = 10
"""


def text_of(folder, name, default):
    path = os.path.join(folder, name)
    if not os.path.exists(path):
        return default
    with open(path, encoding="utf-8") as file:
        return file.read()


def bytes_of(path):
    """The bytes of a file, none where there is no file."""
    if not os.path.exists(path):
        return b""
    with open(path, "rb") as file:
        return file.read()


def options_of(folder):
    """The options of an example: those of its job for continuous tests, or of its file
    `options`."""
    job = re.search(r"ospfd sim (.*?)script", text_of(folder, "ci.yml", ""))
    return (job[1] if job else text_of(folder, "options", "")).split()


def ran(words, folder, given=None):
    """A command that has ended, in a folder, on this standard input."""
    how = {"capture_output": True, "text": True, "errors": "replace", "check": False}
    return subprocess.run(words, cwd=folder, input=given, timeout=600, **how)


def lines_of(program, folder, lines, configs):
    """What a script of these lines prints; of one that fails or is told of, the status and what is
    told."""
    with tempfile.NamedTemporaryFile("w", encoding="utf-8") as script:
        script.write("\n".join(lines) + "\n")
        script.flush()
        done = ran([program, "sim", script.name, *configs], folder)
    return (
        f"status {done.returncode}: {done.stderr}"
        if done.returncode or done.stderr
        else done.stdout
    )
