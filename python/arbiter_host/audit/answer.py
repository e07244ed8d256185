"""The answer of an audit: a row for each group, the worst first, as text, as data and as a page."""
from __future__ import annotations

from collections.abc import Iterator, Sequence
from dataclasses import dataclass, replace
from fractions import Fraction
from typing import Any

from arbiter_host.answers.series import gapped, peak
from arbiter_host.audit.causes import NOTHING, SLICE, Outlooks, cause_of
from arbiter_host.audit.intervals import Audit, Cell, Interval, Off
from arbiter_host.base import svg, text, units
from arbiter_host.base.demands import mean
from arbiter_host.base.html import bar, rendered
from arbiter_host.base.model import Group
from arbiter_host.base.names import below, common_parent, cut, short, shown
from arbiter_host.base.tables import Column, Table, TableAnswer, plain

# Keys of the cells of a group as data, and what they hold.
CELLS = {"used_millicpu": "used", "demand_millicpu": "demand", "plan_millicpu": "planned",
         "periods": "periods", "throttled": "throttled", "hungry": "hungry", "tasks": "tasks"}
# Thousandths of a CPU of a hundredth.
HUNDREDTH = 10
# Groups whose use is drawn, and those where nothing is off.
MOST_DRAWN, FEW_DRAWN = 12, 4
# A picture fits a window of 500 pixels as it is.
WIDTH, HEIGHT, LEFT, RIGHT, TOP, BOTTOM = 440, 170, 52, 12, 12, 24
# Colours of the page, which has others in the dark.
FAINT, LINE, USED, PLANNED = (f"var(--{each})" for each in ("faint", "line", "get", "bad"))


@dataclass(frozen=True)
class AuditRow:
    """One group over all intervals. A cell is None where it was not measured."""

    path: str
    group: Group
    cells: Sequence[Cell | None]
    # The place of the interval in which it was most off, and the cell there.
    worst: int
    most: Cell
    # The number of its cells, what it used and the plan, as means.
    count: int
    average: Off
    # The likely cause in the worst interval.
    cause: str = ""


@dataclass(frozen=True)
class Ranked:
    """An audit with its rows, the worst first, and why placement is not known."""

    audit: Audit
    rows: list[AuditRow]
    why_not: list[str]

    @property
    def busy(self) -> list[AuditRow]:
        """The rows of groups that used something, or were planned something."""
        return [row for row in self.rows if row.average.used or row.average.planned]


def row_of(path: str, intervals: Sequence[Interval]) -> AuditRow:
    """The row of a group without a cause. Of several worst intervals the first is taken."""
    cells = [interval.cells.get(path) for interval in intervals]
    seen = {place: cell for place, cell in enumerate(cells) if cell}
    worst = max(seen, key=lambda place: abs(seen[place].off))
    average = Off(*(mean([getattr(cell, key) for cell in seen.values()])
                    for key in ("used", "planned")))
    return AuditRow(path, intervals[max(seen)].model.groups[path], cells, worst, seen[worst],
                    len(seen), average)


def ranked(audit: Audit) -> Ranked:
    """The rows of all groups that were measured, by how far off they were at worst."""
    intervals, outlooks = audit.intervals, Outlooks(audit.intervals, audit.why_not)
    paths = {path for interval in intervals for path in interval.cells}
    rows = [replace(row, cause=cause_of(intervals, row.worst, row.path, outlooks))
            for row in sorted((row_of(path, intervals) for path in paths),
                              key=lambda row: (-abs(row.most.off), row.path))]
    return Ranked(audit, rows, list(outlooks.why_not))


def cpus(thousandths: Fraction) -> str:
    """CPUs, to a thousandth."""
    return f"{float(thousandths) / 1000:.3f}"


def points(thousandths: Fraction) -> str:
    """Hundredths of a CPU, with a sign."""
    value = round(float(thousandths) / HUNDREDTH, 1)
    return f"{value:+.1f}" if value else "0.0"


def percent(part: Fraction | None) -> str:
    """A part in percent, with a sign."""
    if part is None:
        return "-"
    whole = round(part * 100)
    return f"{whole:+}%" if whole else "0%"


def head(ranked: Ranked) -> Iterator[str]:
    """The lines above the table."""
    intervals = ranked.audit.intervals
    lengths = [each.seconds for each in intervals]
    span = " to ".join(dict.fromkeys(map(units.decimal, (min(lengths), max(lengths)))))
    yield text.host_words(ranked.audit.plan.model.host)
    yield f"intervals: {len(intervals)}, each of {span} s; the proved check accepted each plan"
    yield (f"demands: {ranked.audit.asked} of each interval; weights:"
           f" {ranked.audit.plan.model.weighed or 'none'}")
    yield "off: what a group used less its plan, in hundredths of a CPU and in parts of the plan"
    unplanned = [each.unplanned for each in intervals if each.unplanned is not None]
    if unplanned:
        yield f"used outside these groups, as a mean: {cpus(mean(unplanned))} CPUs"


COLUMNS: list[Column[AuditRow]] = [
    Column("used", lambda row: cpus(row.average.used)),
    Column("plan", lambda row: cpus(row.average.planned)),
    Column("mean off", lambda row: points(row.average.off)),
    Column("of plan", lambda row: percent(row.average.part)),
    Column("worst off", lambda row: points(row.most.off)),
    Column("of plan then", lambda row: percent(row.most.part)),
    Column("intervals", lambda row: str(row.count)),
    Column("likely cause", lambda row: row.cause),
    Column("group", lambda row: short(shown(row.path)), True)]


def table(ranked: Ranked) -> Table[AuditRow]:
    """A row for each busy group. One that is not explained is red."""
    return Table(COLUMNS, ranked.busy,
                 style=lambda row: "red" if row.cause == NOTHING else "")


def foot(ranked: Ranked) -> Iterator[str]:
    """The lines below the table."""
    idle = len(ranked.rows) - len(ranked.busy)
    if idle:
        yield f"groups that used nothing: {idle}"
    for why in ranked.why_not:
        yield f"placement is not known: {why}"


def number(value: Any) -> Any:
    """A value as JSON has it: fractions are rounded."""
    return round(float(value), 6) if isinstance(value, Fraction) else value


def off_data(off: Off) -> dict[str, Any]:
    """The use and the plan, in CPUs, and off in hundredths of one and as a part."""
    return {"used_cpus": number(off.used / 1000), "plan_cpus": number(off.planned / 1000),
            "off_hundredths": number(off.off / HUNDREDTH), "off_part": number(off.part)}


def row_data(row: AuditRow, intervals: Sequence[Interval]) -> dict[str, Any]:
    return {"group": row.path, "title": row.group.title, "weight": row.group.weight,
            "quota_usec": row.group.quota, "period_usec": row.group.period,
            "intervals": row.count,
            "holes": {str(place): interval.holes[row.path]
                      for place, interval in enumerate(intervals) if row.path in interval.holes},
            "mean": off_data(row.average), "worst": {"interval": row.worst, **off_data(row.most)},
            "cause": row.cause,
            **{name: [None if cell is None else number(getattr(cell, key)) for cell in row.cells]
               for name, key in CELLS.items()}}


def as_data(ranked: Ranked) -> dict[str, Any]:
    """An audit as data."""
    audit, host = ranked.audit, ranked.audit.plan.model.host
    return {"host": {"processors": host.processors, "period_usec": host.period_us,
                     "slice_usec": host.slice_us},
            "check": "accepted", "engine": audit.plan.by, "demands": audit.asked,
            "weights": audit.plan.model.weighed,
            "intervals": [{"from": each.name, "seconds": number(each.seconds),
                           "unplanned_millicpu": number(each.unplanned)}
                          for each in audit.intervals],
            "notes": audit.notes, "placement": {"not_known": ranked.why_not or None},
            "groups": [row_data(row, audit.intervals) for row in ranked.rows]}


def answer(ranked: Ranked) -> TableAnswer:
    """An audit as lines and as data."""
    return TableAnswer(
        lambda: [*plain(*head(ranked), ""), table(ranked), *plain(*foot(ranked))],
        lambda: as_data(ranked))


def lines_of(row: AuditRow) -> list[tuple[str, str, list[float | None]]]:
    """The plan and the use of a group in CPUs, each with its colour and dashes."""
    return [(colour, dash, [None if cell is None else float(getattr(cell, key)) / 1000
                            for cell in row.cells])
            for key, colour, dash in (("planned", PLANNED, "5 3"), ("used", USED, ""))]


def picture(row: AuditRow, intervals: Sequence[Interval], most: float) -> str:
    """Plan and use of a group over time, in CPUs: stairs, with a gap where nothing was measured."""
    most = max(most, 0.001)
    step = (WIDTH - LEFT - RIGHT) / len(intervals)

    def height(value: float) -> float:
        tall = HEIGHT - TOP - BOTTOM
        return TOP + tall - tall * value / most

    def parts() -> Iterator[str]:
        for value in svg.steps(most, 4):
            y = height(value)
            yield svg.line((LEFT, y), (WIDTH - RIGHT, y), LINE)
            yield svg.words((LEFT - 6, y + 4), f"{value:g}", FAINT, 12, "end")
        for at in sorted({0, len(intervals) - 1}):
            yield svg.words_within((LEFT + step * at, HEIGHT - 6), cut(intervals[at].name, 24),
                                   (LEFT, WIDTH - RIGHT), FAINT, 12)
        for colour, dash, values in lines_of(row):
            for points in gapped(values, lambda at: LEFT + step * at, height):
                yield svg.shape(points, colour, 1.5, "none", dash)

    return svg.inside(WIDTH, HEIGHT, f"plan and use of {row.path}", [*parts()])


def off_rows(rows: Sequence[AuditRow]) -> list[AuditRow]:
    """The worst groups that are off by a slice or more."""
    return [row for row in rows if row.cause != SLICE][:MOST_DRAWN]


def used_rows(rows: Sequence[AuditRow]) -> list[AuditRow]:
    """The groups that used most."""
    return sorted(rows, key=lambda row: (-row.average.used, row.path))[:FEW_DRAWN]


def drawn(worst: Sequence[AuditRow], intervals: Sequence[Interval], prefix: str
          ) -> list[dict[str, str]]:
    """The pictures of some groups, on one scale where that shows each."""
    tops = svg.tops([peak(values for _, _, values in lines_of(row)) for row in worst])
    return [{"name": short(shown(below(row.path, prefix))), "cause": row.cause, "mark": mark,
             "picture": picture(row, intervals, most)} for row, (most, mark) in zip(worst, tops)]


def bars(intervals: Sequence[Interval], capacity: Fraction) -> list[dict[str, Any]]:
    """The plan and the use of all groups, as means, and what the plan leaves of the host."""
    planned, used = (mean([sum((getattr(cell, key) for cell in each.cells.values()), Fraction(0))
                           for each in intervals]) for key in ("planned", "used"))
    return [bar("plan", "CPUs", planned=cpus(planned), left=cpus(capacity - planned),
                capacity=cpus(capacity)),
            bar("use", "CPUs", used=cpus(used), capacity=cpus(capacity))]


def page(found: Ranked, title: str) -> str:
    """One HTML page: the table, which sorts, and plan and use over time of the worst groups."""
    intervals, host = found.audit.intervals, found.audit.plan.model.host
    rows, prefix, off = [], common_parent(row.path for row in found.busy), off_rows(found.busy)
    whole = table(found)
    for row, (*cells, cause, _) in zip(found.busy, whole.cells(COLUMNS)):
        rows.append({"name": short(shown(below(row.path, prefix))), "cause": cause, "cells": [
            (column.title, cell) for column, cell in zip(COLUMNS, cells)],
            "is_bad": row.cause == NOTHING})
    return rendered("audit.html", title, head(found), rows=rows, prefix=short(shown(prefix)),
                    drawn=drawn(off or used_rows(found.busy), intervals, prefix),
                    order="the worst first" if off else "the greatest use first: nothing is off by"
                    " a slice", foot=list(foot(found)),
                    hosts=bars(intervals, Fraction(1000 * host.processors)),
                    notes=[shown(each) for each in found.audit.notes])
