"""Draws a plan as SVG: the tree, and to one scale what each group wants, may have and gets.

Groups that ask for nothing are left out. The scale is repeated every few rows.
"""
from __future__ import annotations

import bisect
from collections.abc import Callable, Iterator, Sequence
from dataclasses import dataclass, field

from arbiter_host.answers import explain
from arbiter_host.answers.explain import View
from arbiter_host.base import svg, text
from arbiter_host.base.faults import HostFault
from arbiter_host.base.names import cut
from arbiter_host.base.plan import Plan, PlannedGroup

ROW, INDENT, BARS, EDGE, HEAD = 20, 14, 400, 16, 70
NAME_CELLS, NOTE_CELLS = 48, 128
# Rows from one scale to the next.
SCALE_ROWS = 24
# With more a picture is higher than common programs draw.
MOST_ROWS = 1500


@dataclass
class Entry:
    """One row: a group in words, and the places of the rows right below it. `one` has its amounts
    and its limit: those of the one container of a pod, else of the group itself."""

    group: PlannedGroup
    one: PlannedGroup
    name: str
    note: str
    title: str
    is_limiting: bool
    is_bad: bool
    below: list[int] = field(default_factory=list)


def entry_of(plan: Plan, group: PlannedGroup, view: View) -> Entry:
    one = explain.row_group(group) if group.depth < view.depth else group
    tight = explain.tighter(group, plan.groups[one.row])
    cells = {head: text.amount(plan, of(one), view.unit) for head, of in view.amounts.items()}
    more = "" if one.limit is None or one.parent is None else f", at most {cells['limit']}"
    if cells.get("guaranteed", "-") != "-":
        more += f", guaranteed {cells['guaranteed']}"
    name = explain.row_name(group, one)
    if one.title and "/" not in one.title:
        name = f"{name}  {one.title}"
    why = "; ".join([*explain.marks(plan, tight), explain.row_reason(plan, group, one).words])
    return Entry(group, one, name, f"{cells['gets']} of {cells['wants']}{more}: {why}",
                 f"{one.path}: {why}", not {group.row, one.row}.isdisjoint(plan.answer.limiting),
                 one.is_starved or tight.is_throttled_elsewhere)


def entries(plan: Plan, view: View) -> list[Entry]:
    groups = [group for group in explain.rows(plan, view)
              if group.parent is None or group.want and group.depth <= view.depth]
    if len(groups) > MOST_ROWS:
        raise HostFault(f"{len(groups)} groups are too many for one picture: -g and --depth choose"
                        " some")
    rows = [entry_of(plan, group, view) for group in groups]
    places = {group.row: place for place, group in enumerate(groups)}
    for place, group in enumerate(groups):
        if group.parent is not None:
            rows[places[group.parent]].below.append(place)
    return rows


class Drawing:
    """The places of rows and amounts."""

    def __init__(self, plan: Plan, entries_: Sequence[Entry], unit: str) -> None:
        self.plan, self.entries, self.unit = plan, entries_, unit
        names_ = [svg.wide(cut(each.name, NAME_CELLS)) + INDENT * each.group.depth
                  for each in entries_]
        self.left = EDGE + max(names_) + 20
        self.most = max(plan.capacity, 1)
        notes = max(svg.wide(cut(each.note, NOTE_CELLS), 11) for each in entries_)
        self.width = self.left + BARS + 24 + notes + EDGE
        # The rows that have a scale above them: not that of the first child, if it can be.
        self.scaled = [0]
        for place, each in enumerate(entries_):
            since = place - self.scaled[-1]
            is_first = each.group.depth > entries_[place - 1].group.depth
            if since >= SCALE_ROWS or since >= SCALE_ROWS - 4 and not is_first:
                self.scaled.append(place)
        self.height = self.y(len(entries_)) + EDGE

    def y(self, place: int) -> float:
        return HEAD + ROW * (place + bisect.bisect(self.scaled, place) - 1)

    def x(self, slices: float) -> float:
        """The place of an amount. What is above the capacity is cut."""
        return self.left + BARS * min(slices, self.most) / self.most

    def scale(self) -> Iterator[str]:
        """The grid, and the numbers of the scale every few rows."""
        host = self.plan.model.host
        for cpus in svg.steps(host.processors, 8):
            x = self.x(cpus * (host.period_us // host.slice_us))
            yield svg.line((x, HEAD - 6), (x, self.height - EDGE), svg.GRID)
            slices = round(cpus * (host.period_us // host.slice_us))
            written = text.amount(self.plan, slices, self.unit)
            written = written.rstrip("0").rstrip(".") if "." in written else written
            for place in self.scaled:
                yield svg.words((x, self.y(place) - 8), written, svg.FAINT, 10, "middle")
        for place in self.scaled:
            yield svg.words((self.left + BARS + 24, self.y(place) - 8),
                            text.UNIT_WORDS[self.unit], svg.FAINT, 10)

    def branches(self) -> Iterator[str]:
        """The lines that join groups to those above."""
        for place, entry in enumerate(self.entries):
            if not entry.below:
                continue
            x = EDGE + INDENT * entry.group.depth + 4
            last = self.y(entry.below[-1]) + ROW / 2
            yield svg.line((x, self.y(place) + ROW - 3), (x, last), svg.BRANCH)
            for below in entry.below:
                y = self.y(below) + ROW / 2
                yield svg.line((x, y), (x + INDENT - 6, y), svg.BRANCH)

    def bar(self, entry: Entry, y: float) -> Iterator[str]:
        group, limit, tall = entry.one, entry.one.limit, ROW - 8
        yield svg.box((self.left, y + 4), (self.x(group.want) - self.left, tall), svg.WANTS)
        gets = max(self.x(group.gets) - self.left, 1.5 if group.gets else 0)
        yield svg.box((self.left, y + 4), (gets, tall), svg.GETS)
        if group.want > self.most:
            x = self.left + BARS
            yield svg.shape([(x, y + 4), (x + 7, y + ROW / 2), (x, y + 4 + tall)], svg.WANTS, 1,
                            svg.WANTS)
        if limit is not None and limit <= self.most:
            x = self.x(limit)
            colour, wide = (svg.MARK, 3) if entry.is_limiting else (svg.LIMIT, 1.5)
            yield svg.line((x, y + 1), (x, y + ROW - 1), colour, wide)

    def row(self, place: int, entry: Entry) -> Iterator[str]:
        y, group = self.y(place), entry.group
        ink = svg.MARK if entry.is_limiting else svg.INK
        yield svg.words((EDGE + INDENT * group.depth, y + 14), cut(entry.name, NAME_CELLS), ink, 12,
                        "start", entry.is_limiting, entry.title)
        yield from self.bar(entry, y)
        yield svg.words((self.left + BARS + 24, y + 14), cut(entry.note, NOTE_CELLS),
                        svg.MARK if entry.is_bad else svg.INK, 11, title=entry.note)


def legend(y: float) -> Iterator[str]:
    def line(colour: str, wide: float) -> Callable[[float], str]:
        return lambda x: svg.line((x + 4, y - 11), (x + 4, y + 3), colour, wide)

    return svg.legend(EDGE, y, [("gets", 19, svg.swatch(y - 10, svg.GETS)),
                                ("wants", 19, svg.swatch(y - 10, svg.WANTS)),
                                ("limit", 13, line(svg.LIMIT, 1.5)),
                                ("limits the total", 13, line(svg.MARK, 3))])


def picture(plan: Plan, view: View = View()) -> str:
    """A plan as SVG."""
    drawing = Drawing(plan, entries(plan, view), view.unit)
    title = explain.served_words(plan, view.unit)
    parts = [svg.words((EDGE, 20), title, svg.INK, 13, "start", True), *legend(40),
             *drawing.scale(), *drawing.branches()]
    for place, entry in enumerate(drawing.entries):
        parts += drawing.row(place, entry)
    wide = max(drawing.width, svg.wide(title, 13) + 2 * EDGE)
    return svg.document(wide, drawing.height, f"{title}: {text.host_words(plan.model.host)}", parts)
