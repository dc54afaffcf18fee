"""A terminal beside a program: what `simulate`, `run` and `compare-failures` share."""
import os


def read_terminal(terminal, shown):
    """Notes all that a terminal was sent, up to its end."""
    while True:
        try:
            more = os.read(terminal, 4096)
        except OSError:
            return
        if not more:
            return
        shown.append(more)
