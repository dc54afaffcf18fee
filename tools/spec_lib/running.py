"""Runs evaluations with room for deep calls."""
import os
import sys
import threading

from . import readings
from .library import Library

TOP = os.path.dirname(os.path.dirname(os.path.dirname(os.path.abspath(__file__))))
STACK = 512 * 1024 * 1024
DEPTH = 1_000_000


def with_room(work):
    """What `work` gives, run in a thread of a large stack; what it raises is raised here."""
    done = []

    def run():
        try:
            done.append((work(), None))
        except BaseException as fault:  # raised again below
            done.append((None, fault))
    sys.setrecursionlimit(DEPTH)
    threading.stack_size(STACK)
    thread = threading.Thread(target=run)
    thread.start()
    thread.join()
    value, fault = done[0]
    if fault:
        raise fault
    return value


def library(top=TOP):
    """The definitions of the crates."""
    return Library(top, readings)
