"""The program that `./ospfd` runs: what the tests share that call it thousands of times."""
import os
import subprocess

TOP = os.path.dirname(os.path.dirname(os.path.dirname(os.path.abspath(__file__))))


def program():
    """The program that `./ospfd` runs, without looking each time whether a source is newer."""
    if chosen := os.environ.get("OSPFD_PROGRAM"):
        return chosen
    said = subprocess.run(
        [os.path.join(TOP, "ospfd"), "--version"], capture_output=True, text=True, check=True
    ).stdout
    proved = os.path.join(TOP, "crates", "ospfd", "out", "ospfd")
    return proved if "(proved)" in said else os.path.join(TOP, "out", "ospfd")
