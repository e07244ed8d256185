"""The times at which a source is read again and again."""
from __future__ import annotations

import itertools
import time
from collections.abc import Callable, Iterator
from fractions import Fraction
from typing import NamedTuple

from arbiter_host.base import units
from arbiter_host.base.faults import UsageFault, naming
from arbiter_host.base.names import shown

Clock = Callable[[], float]
Sleep = Callable[[float], None]
MICROSECONDS, MAX_SECONDS, MAX_READINGS = 10**6, 86400, 10000


class Times(NamedTuple):
    """The times of a source's readings: seconds between them, and their number; None for no end."""

    interval: Fraction = Fraction(1)
    number: int | None = 2


def times_of(text: str) -> Times:
    """The times of `--read`, such as 10x1s. A plain number is seconds."""
    count, mark, time_ = text.partition("x")
    number = units.whole(count, 5) if count else None
    if not mark or count and not 1 <= (number or 0) <= MAX_READINGS:
        raise UsageFault(f"--read {shown(text)}: NxTIME, such as 10x1s, with N from 1 to"
                         f" {MAX_READINGS}")
    parsed = units.number_and_unit(time_)
    with naming("--read", UsageFault):
        seconds = (parsed[0] if parsed and not parsed[1]
                   else Fraction(units.parse_time(time_), MICROSECONDS))
    if not 0 < seconds <= MAX_SECONDS:
        raise UsageFault(f"--read: a time above 0 and at most {MAX_SECONDS} seconds")
    return Times(seconds, number)


def turns(times: Times, clock: Clock = time.monotonic, sleep: Sleep = time.sleep,
          first: int = 0) -> Iterator[None]:
    """Waits for each reading from the one of a number on. One that took too long leaves the times
    out that went by meanwhile."""
    begun, turn = clock(), first
    for _ in itertools.count() if times.number is None else range(first, times.number):
        sleep(max(float(begun + turn * times.interval - clock()), 0))
        yield
        turn = max(turn + 1, int((clock() - begun) / float(times.interval)) + 1)
