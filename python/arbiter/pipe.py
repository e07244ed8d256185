"""The calls of the C library, answered by a process over a pipe: scripts/calls has its protocol."""
from __future__ import annotations

import ctypes
import functools
import os
import subprocess
import threading
import weakref
from collections.abc import Callable, Sequence
from typing import Any

from arbiter import c
from arbiter.found import Unavailable


def word_of(word: c.Argument, given: Any) -> str:
    """A word as the process reads it, with what stands in memory that the call writes."""
    if word.is_column:
        return ",".join(map(str, given))
    return str(given._obj.value if word.is_written else given)


def write(into: Any, told: str) -> None:
    """Writes what a call wrote: a column, or one number."""
    if isinstance(into, ctypes.Array):
        into[:] = [int(number) for number in told.split(",") if number]
    else:
        into._obj.value = int(told)


def end(owner: int, process: subprocess.Popen[str]) -> None:
    """Ends a process, unless this one is a child of the one that began it."""
    if os.getpid() == owner:
        process.kill()
        process.wait()


class Calls:
    """The calls by their names, as ctypes has those of a library.

    # Errors
    Each call raises Unavailable where the process has ended.
    """

    def __init__(self, command: Sequence[str]) -> None:
        self.command, self.lock = list(command), threading.Lock()
        self.started: tuple[int, subprocess.Popen[str]] | None = None

    def __getattr__(self, name: str) -> Callable[..., int]:
        call = name.removeprefix("arbiter_")
        if call not in c.WORDS:
            raise AttributeError(name)
        return functools.partial(self.call, call)

    def call(self, name: str, *words: Any) -> int:
        """One call: what it answers, after all that it wrote is written."""
        # (the length behind a column is known from its memory)
        own = [word for word, before in zip(words, (None, *words))
               if not isinstance(before, ctypes.Array)]
        pairs = list(zip(c.WORDS[name], own, strict=True))
        number, *told = self.answer(" ".join([name, *(word_of(*each) for each in pairs)]))
        for into, each in zip([given for word, given in pairs if word.is_written], told,
                              strict=True):
            write(into, each)
        return int(number)

    def answer(self, line: str) -> list[str]:
        """The words of the line that the process answers."""
        with self.lock:
            process = self.process()
            assert process.stdin and process.stdout
            try:
                process.stdin.write(line + "\n")
                process.stdin.flush()
                answer = process.stdout.readline()
            except BrokenPipeError:
                answer = ""
        if not answer.endswith("\n"):
            raise Unavailable(f"the checked build has ended: {self.command[-1]}")
        return answer[:-1].split(" ")

    def process(self) -> subprocess.Popen[str]:
        """The process of this one. A signal of the terminal does not reach it."""
        if self.started is None or self.started[0] != os.getpid():
            self.started = os.getpid(), subprocess.Popen(
                self.command, stdin=subprocess.PIPE, stdout=subprocess.PIPE, encoding="ascii",
                start_new_session=True)
            weakref.finalize(self, end, *self.started)
        return self.started[1]
