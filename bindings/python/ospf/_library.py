"""The calls of libospf (bindings/c/ospf.h), by ctypes."""
from __future__ import annotations

import ctypes
import os
from collections.abc import Sequence
from typing import Any

WORDS, MEMORY = 2, 4
# The environment variable that names another libospf.so than the one beside this file.
NAMED = "OSPF_LIBRARY"
# Most answers have room at once; else the call says how much it needs.
AT_FIRST = 1 << 16


class _Answer(ctypes.Structure):
    _fields_ = [("text", ctypes.c_size_t), ("warnings", ctypes.c_size_t),
                ("status", ctypes.c_uint8)]


class _File(ctypes.Structure):
    _fields_ = [("name", ctypes.c_char_p), ("name_size", ctypes.c_size_t),
                ("text", ctypes.c_char_p), ("text_size", ctypes.c_size_t)]


class How(ctypes.Structure):
    """How failures are printed, and what fails together."""

    _fields_ = [("form", ctypes.c_uint8), ("carrier", ctypes.c_uint8), ("each", ctypes.c_bool),
                ("strict", ctypes.c_bool)]


def _load() -> ctypes.CDLL:
    here = os.path.dirname(os.path.abspath(__file__))
    return ctypes.CDLL(os.environ.get(NAMED) or os.path.join(here, "libospf.so"))


_library = _load()


def _given(word: Any) -> list[Any]:
    """A word of a call as C takes it: a number, or where bytes or a list are and how many."""
    if isinstance(word, bool):
        return [ctypes.c_bool(word)]
    if isinstance(word, int):
        return [ctypes.c_uint32(word)]
    if isinstance(word, bytes):
        return [ctypes.c_char_p(word), ctypes.c_size_t(len(word))]
    if isinstance(word, How):
        return [ctypes.byref(word)]
    if word and isinstance(word[0], tuple):
        files = (_File * len(word))(*((name, len(name), text, len(text)) for name, text in word))
        return [files, ctypes.c_size_t(len(word))]
    # A list that is empty has a place too: no pointer is NULL.
    numbers = (ctypes.c_uint32 * max(len(word), 1))(*word)
    return [numbers, ctypes.c_size_t(len(word))]


def call(name: str, words: Sequence[Any]) -> tuple[bytes, bytes, int]:
    """Makes a call: the text, the warnings and the status of its answer."""
    function, given = getattr(_library, name), [it for word in words for it in _given(word)]
    function.restype = None
    answer, size = _Answer(), AT_FIRST
    while True:
        room = ctypes.create_string_buffer(size)
        function(*given, room, ctypes.c_size_t(size), ctypes.byref(answer))
        text, needed = answer.text, answer.text + answer.warnings
        if needed <= size:
            written = ctypes.string_at(room, needed)
            return written[:text], written[text:], answer.status
        size = needed
