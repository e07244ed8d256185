"""Lines of a command that must not wait for who reads them."""
from __future__ import annotations

import atexit
import os
import sys
import threading
from collections import deque

from arbiter_host.base import output
from arbiter_host.base.faults import HostFault, strerror

# Bytes that may wait for a slow reader, and the seconds that the end of a command waits for one.
MOST_WAITING, PATIENCE = 2**18, 1


class Lines:
    """Lines to an open file, which a thread writes. Those without room are dropped, and counted on
    standard error."""

    def __init__(self, file: int, name: str) -> None:
        self.file, self.name, self.dropped = file, name, 0
        # The lines that wait, from the one on that is being written.
        self.texts, self.change = deque[bytes](), threading.Condition()
        self.fault: BrokenPipeError | HostFault | None = None
        threading.Thread(target=self.write, daemon=True).start()

    def check(self) -> None:
        """Raises what a writing ended with."""
        if self.fault is not None:
            raise self.fault

    def put(self, line: str) -> None:
        """Adds a line, unless an earlier one could not be written."""
        text = line.encode("utf-8", "backslashreplace")
        with self.change:
            self.check()
            if self.texts and sum(map(len, self.texts)) + len(text) > MOST_WAITING:
                self.dropped += 1
                return
            if not self.texts:
                self.tell_dropped()
            self.texts.append(text)
            self.change.notify_all()

    def write(self) -> None:
        """Writes line by line, up to a fault."""
        while self.fault is None:
            with self.change:
                self.change.wait_for(lambda: self.texts)
            text = self.texts[0]
            try:
                while text:
                    text = text[os.write(self.file, text):]
            except OSError as error:
                self.fault = error if isinstance(error, BrokenPipeError) else HostFault(
                    f"{self.name}: {strerror(error)}")
            with self.change:
                self.texts.popleft()
                self.change.notify_all()

    def finish(self) -> None:
        """Waits a moment until all lines are written. Those that are not count as dropped."""
        with self.change:
            if not self.change.wait_for(lambda: not self.texts or self.fault, PATIENCE):
                self.dropped += len(self.texts)
            self.tell_dropped()

    def tell_dropped(self) -> None:
        if self.dropped:
            dropped, self.dropped = self.dropped, 0
            output.warn(f"{self.name}: lines dropped: {dropped}")


def unwaited() -> Lines:
    """Lines to standard output. What is told on standard error is not waited for either, up to the
    end of the process."""
    if sys.stderr is not None:
        errors = Lines(sys.stderr.fileno(), "standard error")
        output.errors = errors.put
        atexit.register(errors.finish)
    if sys.stdout is None:
        raise HostFault("standard output: Bad file descriptor")
    return Lines(sys.stdout.fileno(), "standard output")
