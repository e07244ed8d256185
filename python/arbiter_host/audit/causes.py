"""The likely cause of what is off, by simple tests in this order. The first that holds is told.

less than a slice    off is less than one slice of the plan
placement            the group has a range by where tasks run, and what it used is in it
phase of periods     it or a group above has a limit, and off is at most one quota of that in the
                     interval
demand that moved    what it wanted differs by more than off from the interval before or after
not explained        none of these
"""
from __future__ import annotations

from collections.abc import Iterator, Sequence
from fractions import Fraction

from arbiter_host.answers import placement
from arbiter_host.answers.placement import Outlook
from arbiter_host.audit.intervals import Interval, with_demands
from arbiter_host.audit.unknown import told
from arbiter_host.base.model import Model
from arbiter_host.base.names import parent_path

SLICE, PLACEMENT, PHASE, MOVED, NOTHING = ("less than a slice", "placement", "phase of periods",
                                           "demand that moved", "not explained")
# Intervals for which placement is tried. Each may take a second.
MOST_TRIED = 16


class Outlooks:
    """Distances of groups by where tasks run, of the intervals that are asked for."""

    def __init__(self, intervals: Sequence[Interval], why_not: str = "") -> None:
        self.intervals, self.of_all = intervals, why_not
        self.by_place: dict[int, Outlook] = {}
        # Why placement is not known, in words.
        self.why_not: dict[str, None] = {}

    def of(self, place: int) -> Outlook:
        interval = self.intervals[place]
        if interval.model.host.processors == 1:
            return Outlook({})
        if place not in self.by_place:
            why = self.of_all or told(each.unknown for each in interval.cells.values())
            if not why and len(self.by_place) >= MOST_TRIED:
                why = f"tried for {MOST_TRIED} intervals alone"
            if why:
                self.why_not[why] = None
                return Outlook({})
            model = with_demands(interval.model, interval.cells)
            outlook = self.by_place[place] = placement.outlook(model)
            self.why_not |= {outlook.why_not: None} if outlook.why_not else {}
        return self.by_place[place]


def is_placement(interval: Interval, path: str, outlook: Outlook) -> bool:
    """Whether a group has a range with what it used in it."""
    range_, cell = outlook.ranges.get(path), interval.cells[path]
    if range_ is None or range_.is_firm:
        return False
    used, planned = (float(each) / 1000 for each in (cell.used, cell.planned))
    return min(range_.low, planned) <= used <= max(range_.high, planned)


def quotas(model: Model, path: str) -> Iterator[int]:
    """The quotas of a group and of those above it, in microseconds."""
    while path != ".":
        quota = model.groups[path].quota
        if quota is not None:
            yield quota
        path = parent_path(path)


def has_moved(intervals: Sequence[Interval], place: int, path: str) -> bool:
    """Whether the demand before or after an interval differs by more than off."""
    here = intervals[place].cells[path]
    beside = [intervals[at].cells.get(path) for at in (place - 1, place + 1)
              if 0 <= at < len(intervals)]
    return any(abs(each.demand - here.demand) > abs(here.off) for each in beside if each)


def cause_of(intervals: Sequence[Interval], place: int, path: str, outlooks: Outlooks) -> str:
    """The likely cause of what is off of a group in an interval."""
    interval = intervals[place]
    host, off = interval.model.host, abs(interval.cells[path].off)
    if off < Fraction(1000 * host.slice_us, host.period_us):
        return SLICE
    if is_placement(interval, path, outlooks.of(place)):
        return PLACEMENT
    # Microseconds are compared.
    if any(off * interval.seconds * 1000 <= each for each in quotas(interval.model, path)):
        return PHASE
    return MOVED if has_moved(intervals, place, path) else NOTHING
