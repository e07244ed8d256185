"""Runs other programs. Each has one deadline for all that it prints, and a bound on its bytes.

A program runs in a session of its own. Its pipes are read as it prints, and are closed at its end,
also where something that it began lives on and holds them.
"""
from __future__ import annotations

import os
import select
import signal
import subprocess
import time
from collections.abc import Mapping, Sequence
from contextlib import suppress
from typing import NamedTuple

from arbiter_host.base.faults import HostFault, strerror

# Bytes that are read or written at once; the last bytes of standard error, which are kept.
PIECE, MOST_SAID = 1 << 16, 4000
# Seconds after which it is looked again whether a program has ended, where the system tells no end.
BEAT = 0.05
# Seconds that a killed program has to go. One that the kernel holds is left to it.
LAST = 5


class Child:
    """A program that runs: what it printed, what it said on standard error, and what it is still to
    be given. One that does not print to this one has the output of this one.

    # Errors
    HostFault where it cannot be started.
    """

    def __init__(self, words: Sequence[str], environment: Mapping[str, str] | None = None,
                 prints: bool = True) -> None:
        pipe = subprocess.PIPE if prints else None
        try:
            # (an interrupt of the terminal is for this program)
            self.process = subprocess.Popen(words, stdin=subprocess.PIPE, stdout=pipe, stderr=pipe,
                                            env=environment, bufsize=0, start_new_session=True)
        except OSError as error:
            raise HostFault(f"{words[0]}: {strerror(error)}") from error
        self.out, self.said, self.given = bytearray(), b"", bytearray()
        self.prints, self.has_input_end = prints, False
        pipes = (self.process.stdin, self.process.stdout, self.process.stderr)
        self.pipes = {number: file.fileno() for number, file in enumerate(pipes) if file}
        for each in self.pipes.values():
            os.set_blocking(each, False)
        self.end_handle = -1
        with suppress(OSError):
            self.end_handle = os.pidfd_open(self.process.pid)

    def has_ended(self) -> bool:
        """Whether it has ended. Its number stays its own until `end`."""
        if self.process.returncode is not None:
            return True
        ended = os.WEXITED | os.WNOHANG | os.WNOWAIT
        try:
            return os.waitid(os.P_PID, self.process.pid, ended) is not None
        except ChildProcessError:
            # (where this process ignores SIGCHLD the kernel forgets its children)
            return self.process.poll() is not None

    def close(self, number: int) -> None:
        """Closes a pipe by the number that it has in the program."""
        if self.pipes.pop(number, None) is not None:
            file = (self.process.stdin, self.process.stdout, self.process.stderr)[number]
            assert file is not None
            file.close()

    def give(self, data: bytes, is_last: bool = False) -> None:
        """Gives it input, which steps write. With the last of it the pipe is closed."""
        self.given += data
        self.has_input_end = is_last

    def step(self, until: float) -> bool:
        """Moves what can be moved. It waits for that, or for the end of the program, until a time
        at most. False where nothing more comes: it has ended, and all that it left was read."""
        has_ended = self.has_ended()
        if has_ended and self.prints:
            self.kill()
        if self.has_input_end and not self.given:
            self.close(0)
        looks = select.poll()
        for number, pipe in self.pipes.items():
            if number or self.given:
                looks.register(pipe, select.POLLIN if number else select.POLLOUT)
        left = 0.0 if has_ended else max(until - time.monotonic(), 0)
        if self.end_handle >= 0 and not has_ended:
            looks.register(self.end_handle, select.POLLIN)
        else:
            left = min(left, BEAT)
        ready = {pipe for pipe, _ in looks.poll(1000 * left)}
        moved = [number for number, pipe in list(self.pipes.items()) if pipe in ready]
        for number in moved:
            self.move(number)
        return bool(moved) or not has_ended

    def move(self, number: int) -> None:
        """Reads or writes a piece of a pipe that is ready."""
        try:
            if number == 0:
                del self.given[:os.write(self.pipes[0], self.given[:PIECE])]
                return
            data = os.read(self.pipes[number], PIECE)
        except BlockingIOError:
            return
        except OSError:
            # what it does not read is not given to it
            data, self.given = b"", bytearray()
        if not data:
            self.close(number)
        elif number == 1:
            self.out += data
        else:
            self.said = (self.said + data)[-MOST_SAID:]

    def kill(self) -> None:
        """Kills it and all that it began in its session's first group."""
        with suppress(ProcessLookupError, PermissionError):
            if self.process.returncode is None:
                os.killpg(self.process.pid, signal.SIGKILL)

    def end(self) -> int | None:
        """Ends it and closes its pipes. Its status; None where the kernel holds it."""
        if self.prints or not self.has_ended():
            self.kill()
        for number in list(self.pipes):
            self.close(number)
        if self.end_handle >= 0:
            os.close(self.end_handle)
            self.end_handle = -1
        with suppress(subprocess.TimeoutExpired):
            self.process.wait(LAST)
        return self.process.returncode


class Finished(NamedTuple):
    """The end of a program: its status, what it printed, and the end of standard error."""

    status: int
    out: bytes
    said: bytes


def run(words: Sequence[str], seconds: float, most: int = 0, given: bytes = b"",
        environment: Mapping[str, str] | None = None) -> Finished:
    """Runs a program to its end. It may print so many bytes; with 0 it has the output of this one.

    # Errors
    HostFault, in this order: it cannot be started; it printed too much; it had not ended in time.
    """
    child = Child(words, environment, most > 0)
    try:
        until = time.monotonic() + seconds
        child.give(given, is_last=True)
        while child.step(until):
            if len(child.out) > most > 0:
                raise HostFault(f"{words[0]}: an answer of more than {most >> 20} MiB")
            if time.monotonic() > until:
                raise HostFault(f"{words[0]}: no {'whole answer' if most else 'end'} in"
                                f" {seconds} seconds")
    finally:
        status = child.end()
    return Finished(-1 if status is None else status, bytes(child.out), child.said)
