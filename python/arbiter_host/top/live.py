"""The table of `top` at a terminal: live, with keys and what each group was planned of late."""
from __future__ import annotations

import os
import signal
import sys
import termios
import tty
from collections import deque
from collections.abc import Iterator
from contextlib import contextmanager
from dataclasses import dataclass, field

from arbiter_host.answers import explain
from arbiter_host.answers.explain import View
from arbiter_host.base.plan import Plan

Lines = list[tuple[str, str]]
# Pictures that are remembered, and the letters of what a group got, from nothing to most.
HISTORY = 10
BARS = " \u2581\u2582\u2583\u2584\u2585\u2586\u2587\u2588"
# The orders and filters that a key goes through. The first is that of the options.
SORTS = ("", *explain.SORTS)
FILTERS = ("", *explain.ONLY)
ENDS = "qQ\x04"


@dataclass
class Recent:
    """The amounts of each group in the last pictures, in slices; the latest stands last."""

    pictures: deque[dict[str, int]] = field(default_factory=lambda: deque(maxlen=HISTORY))

    def take(self, plan: Plan) -> None:
        self.pictures.append({group.path: group.gets for group in plan.groups})

    def line(self, path: str) -> str:
        """A line of bars. Only nothing has no bar, and the most of the group has a whole one."""
        found = [picture.get(path, 0) for picture in self.pictures]
        most = max(found, default=0)
        bars = "".join(BARS[-(-(len(BARS) - 1) * each // most)] if most else " " for each in found)
        return bars.rjust(HISTORY)


@dataclass
class Keys:
    """The changes of the view by keys."""

    sort: int = 0
    only: int = 0
    is_all: bool = False
    is_ended: bool = False

    def take(self, letter: str) -> None:
        """Takes a key."""
        if letter in ENDS:
            self.is_ended = True
        elif letter == "s":
            self.sort = (self.sort + 1) % len(SORTS)
        elif letter == "f":
            self.only = (self.only + 1) % len(FILTERS)
        elif letter == "a":
            self.is_all = not self.is_all

    def view(self, view: View) -> View:
        return view._replace(
            sort=SORTS[self.sort] or view.sort, everything=view.everything or self.is_all,
            only=(FILTERS[self.only],) if self.only else view.only)


@contextmanager
def ended_by_signals() -> Iterator[None]:
    """Lets signals that end the command end the view first, so that the terminal is as it was."""
    came: list[int] = []

    def take(number: int, _: object) -> None:
        came.append(number)
        raise KeyboardInterrupt

    before = {each: signal.signal(each, take) for each in (signal.SIGTERM, signal.SIGHUP)}
    try:
        yield
    except KeyboardInterrupt:
        if not came:
            raise
    finally:
        for each, handler in before.items():
            signal.signal(each, handler)
    if came:
        os.kill(os.getpid(), came[0])


@contextmanager
def key_by_key() -> Iterator[int | None]:
    """Standard input key by key, if it is a terminal. It is as it was at the end."""
    if sys.stdin is None or not sys.stdin.isatty():
        yield None
        return
    descriptor = sys.stdin.fileno()
    before = termios.tcgetattr(descriptor)
    try:
        tty.setcbreak(descriptor)
        yield descriptor
    finally:
        termios.tcsetattr(descriptor, termios.TCSADRAIN, before)


class ViewEnded(Exception):
    """A key that ends the view."""
