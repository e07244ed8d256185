"""The calls of the C library with their types, of the table in words.py.

ctypes is in Python itself. The lists of Python's `array` have the layout of C's columns.
"""
from __future__ import annotations

import ctypes
import os
from typing import Any, NamedTuple

from arbiter import words
from arbiter.found import TO_DO, Unavailable

NO_PARENT, NO_LIMIT, NO_GOAL = 2**32 - 1, 2**64 - 1, 2**64 - 1
# Bytes for each name, and for the version, and the 0 behind it.
NAME_ROOM = 17
U8, U32, U64, SIZE = ctypes.c_uint8, ctypes.c_uint32, ctypes.c_uint64, ctypes.c_size_t
POINTER = ctypes.c_void_p
# The types of numbers, as `array` names them.
TYPES: dict[str, Any] = {"B": U8, "I": U32, "Q": U64}


class Argument(NamedTuple):
    """A number, or a column, which is where it begins and its length."""

    name: str
    kind: str
    is_column: bool
    is_read: bool
    is_written: bool

    @property
    def types(self) -> list[Any]:
        """The types of what C takes."""
        if self.is_column:
            return [POINTER, SIZE]
        return [POINTER if self.is_written else TYPES[self.kind]]


def word_of(text: str) -> Argument:
    """A word of the table."""
    way, name = text[:len(text) - len(text.lstrip("<>"))], text.lstrip("<>")
    name, _, kind = name.partition(":")
    return Argument(name, kind[0], kind.endswith("[]"), way != ">", way != "")


# The words of each call, by its name without `arbiter_`.
WORDS = {name: tuple(map(word_of, texts.split())) for name, texts in words.WORDS.items()}


def load(path: str) -> ctypes.CDLL:
    """The library at a path. A name without a slash is looked for where the system looks.

    Unavailable where it cannot be loaded, or has not every call.
    """
    try:
        calls = ctypes.CDLL(os.path.abspath(path) if "/" in path else path)
    except (OSError, ValueError) as error:
        raise Unavailable(f"the C library: {error}: {TO_DO}") from error
    for name, each in WORDS.items():
        try:
            call = getattr(calls, f"arbiter_{name}")
        except AttributeError as error:
            raise Unavailable(f"{path}: no call arbiter_{name}: the C library is older than the"
                              f" Python package arbiter: {TO_DO}") from error
        call.argtypes = [kind for word in each for kind in word.types]
        call.restype = TYPES[words.ANSWERS.get(name, "I")]
    return calls
