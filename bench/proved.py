"""The program that is measured: the one that was proved and built without checks."""
import os
import subprocess
import sys

HERE = os.path.dirname(os.path.abspath(__file__))
TOP = os.path.dirname(HERE)
BUILT = os.path.join(TOP, "crates", "ospfd", "out", "ospfd")


def program():
    """The proved program's path. Where it is not there, or of other sources, this says so and
    ends."""
    if not os.access(BUILT, os.X_OK):
        sys.exit(
            "this wants the proved program, which is not built yet: run rt ci (or .ci/run) first"
        )
    told = subprocess.run(
        [BUILT, "--version"], stdout=subprocess.PIPE, text=True, check=True
    ).stdout
    if "(proved)" not in told:
        sys.exit(f"this wants the proved program, and that is {told.strip()}")
    if subprocess.run([os.path.join(TOP, "tools", "is-current"), BUILT], check=False).returncode:
        sys.exit(
            "this wants the proved program, and that is of other sources than those that "
            "are here: run rt ci (or .ci/run) first"
        )
    return BUILT
