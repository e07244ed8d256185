"""Shows on standard error how far a long command is.

On a terminal that is one line, written anew each second. Elsewhere it is a line for each step that
was done.
"""
import os
import shutil
import sys
import time


def in_words(seconds):
    """A time in words: `7 s`, `12 min 5 s`, `1 h 4 min`."""
    seconds = round(seconds)
    if seconds < 60:
        return f"{seconds} s"
    if seconds < 3600:
        return f"{seconds // 60} min {seconds % 60} s"
    return f"{seconds // 3600} h {seconds % 3600 // 60} min"


class Progress:
    def __init__(self, command, stream=sys.stderr):
        self.command, self.stream, self.began = command, stream, time.monotonic()
        self.on_terminal = stream.isatty() and os.environ.get("TERM") != "dumb"
        self.shown = False

    def took(self):
        return in_words(time.monotonic() - self.began)

    def line(self, text):
        """Writes a line that stays."""
        self.clear()
        print(f"{self.command}: {text}", file=self.stream, flush=True)

    def step(self, text):
        """Writes a step that was done. A terminal shows it by `now`."""
        if not self.on_terminal:
            self.line(f"{text}, {self.took()}")

    def now(self, text):
        """Writes the state anew. Nothing is written where there is no terminal."""
        if self.on_terminal:
            width = shutil.get_terminal_size().columns - 1
            line = f"{self.command}: {text}, {self.took()}"[:width]
            print(f"\r\033[K{line}", end="", file=self.stream, flush=True)
            self.shown = True

    def clear(self):
        """Removes the line that `now` wrote."""
        if self.shown:
            print("\r\033[K", end="", file=self.stream, flush=True)
            self.shown = False
