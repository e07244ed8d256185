"""Intervals between readings: what each leaf used and wanted, and the accepted plan of that."""
from __future__ import annotations

import math
from collections import Counter
from collections.abc import Iterable, Iterator, Mapping, Sequence
from dataclasses import dataclass, field, replace
from fractions import Fraction

from arbiter import Host
from arbiter_host.audit import unknown
from arbiter_host.base import demands, progress, units
from arbiter_host.base.faults import HostFault
from arbiter_host.base.model import Group, Model
from arbiter_host.base.names import shown
from arbiter_host.base.plan import Engine, Plan, asking, plan
from arbiter_host.sources.readings import CAME, TreeReading, Span, between
from arbiter_host.sources.usage import some

AWAY = "groups while nothing was measured"
# Groups times readings. A look at a group takes about a kilobyte.
MOST_COUNTED = 400_000


def collected(seen: Iterable[TreeReading], count: int = 0) -> list[TreeReading]:
    """Readings as a list, of which so many are to come. Equal settings are kept once, and those of
    a tree are named by the seconds since the first."""
    def settings_of(model: Model) -> list[tuple[object, ...]]:
        return [(path, each.weight, each.quota, each.period, each.burst, each.keeps_to)
                for path, each in model.groups.items()]

    found: list[TreeReading] = []
    for each in seen:
        if not each.model.groups:
            raise HostFault("no groups with the cpu controller are below this folder")
        if found and each.at <= found[-1].at:
            raise HostFault("the clock went back between two looks: begin again")
        if found and settings_of(found[-1].model) == settings_of(each.model):
            notes = dict.fromkeys([*found[-1].model.notes, *each.model.notes])
            each.model, each.model.notes = found[-1].model, list(notes)
        found.append(each)
        many = max(count, len(found))
        if many * len(each.model.groups) > MOST_COUNTED:
            raise HostFault(f"{many} looks at {len(each.model.groups)} groups are too many: take"
                            " fewer readings, or a longer --step")
        each.name = each.name or f"{units.decimal(each.at - found[0].at, 1)} s"
    return found


@dataclass(frozen=True)
class Off:
    """The use and the plan, in thousandths of a CPU, and how far off that is."""

    used: Fraction
    planned: Fraction

    @property
    def off(self) -> Fraction:
        """The use less the plan."""
        return self.used - self.planned

    @property
    def part(self) -> Fraction | None:
        """Off as a part of the plan; None where nothing was planned."""
        return self.off / self.planned if self.planned else None


@dataclass(frozen=True)
class Cell(Off):
    """One leaf in one interval. Amounts are thousandths of a CPU."""

    demand: Fraction
    # Its periods, and those in which it was throttled.
    periods: int
    throttled: int
    # Whether it would have used more, and whether it is a guess that it would not.
    hungry: bool
    tasks: int | None
    may_be_hungry: bool = False
    # Why placement is not known beside it; empty where nothing tells so.
    unknown: str = ""


@dataclass(frozen=True)
class Interval:
    """The cells between two readings: the leaves measured at both, and why others were not."""

    name: str
    seconds: Fraction
    model: Model
    cells: dict[str, Cell]
    holes: dict[str, str]
    # Thousandths of a CPU that no leaf of the plan used; None where the whole is not measured.
    unplanned: Fraction | None


@dataclass
class Audit:
    """All intervals, the last plan, and what is to be told of them."""

    intervals: list[Interval]
    plan: Plan
    notes: list[str] = field(default_factory=list)
    # Why placement is known of no interval; empty where it may be.
    why_not: str = ""
    # The rule of all demands; None where a group that was throttled or hungry has another.
    want: str | None = None

    @property
    def asked(self) -> str:
        """The rule of the demands, in words."""
        return {None: "use, raised where throttled or hungry,", "usage": "use",
                "psi": "use, raised by waiting,"}.get(self.want, f"{self.want}")


def unplanned_cell(engine: Engine, group: Group, span: Span, tasks: int | None, host: Host,
                   want: str | None) -> Cell:
    """A leaf before its plan: what it used and wanted. A hungry one wanted what it used, raised by
    the time in which it waited or was throttled, as `top` does. Its tasks bound it. `want` is
    another rule for all."""
    with asking("a reading"):
        reading = span.reading(engine.library, host, group)
    risen, rule = span.risen, want or ("psi" if reading.is_hungry else "usage")
    demand = demands.wanted(rule, group, span.measured(tasks), host, span.seconds)
    if demand is None:
        raise HostFault(f"--want {rule}: nothing was read for it of {shown(group.path)}")
    return Cell(span.used, Fraction(0), demand, risen.periods or 0, risen.throttled or 0,
                reading.is_hungry,
                None if tasks is None else max(tasks, math.ceil(span.used / 1000)),
                want is None and reading.is_guess and not reading.is_hungry,
                unknown.of_tasks(span))


def with_demands(model: Model, cells: Mapping[str, Cell]) -> Model:
    """A model in which the leaves of these cells alone ask for something."""
    after = model.copy()
    for path, group in after.groups.items():
        cell = cells.get(path)
        group.demand, group.tasks = (cell.demand, cell.tasks) if cell else (Fraction(0), None)
        group.saved = 0
    return after


def unplanned_of(one: TreeReading, two: TreeReading, cells: Mapping[str, Cell]) -> Fraction | None:
    """The use of the whole above that of its leaves."""
    whole = between(one, two, ".") if "." in one.counted else CAME
    if isinstance(whole, str):
        return None
    return max(whole.used - sum(each.used for each in cells.values()), Fraction(0))


def interval_of(engine: Engine, one: TreeReading, two: TreeReading, want: str | None,
                away: bool) -> tuple[Interval, Plan | None]:
    """The interval between two readings, and its plan; none where no leaf was measured at both. The
    settings are those of its end."""
    model, cells, holes = two.model, dict[str, Cell](), dict[str, str]()
    for path, below in model.children().items():
        if below or path not in one.counted and path not in two.counted:
            continue
        span = AWAY if away else between(one, two, path)
        if isinstance(span, str):
            holes[path] = span
        else:
            group = model.groups[path]
            cells[path] = unplanned_cell(engine, group, span, two.tasks.get(path, group.tasks),
                                         model.host, want)
    gone = one.counted.keys() - two.counted.keys() - model.groups.keys() - {"."}
    parents = one.model.children()
    holes |= {path: CAME for path in gone if not parents.get(path)}
    plan_ = plan(engine, with_demands(model, cells)) if cells else None
    if plan_ is not None:
        cells |= {each.path: replace(cells[each.path], planned=plan_.thousandths(each.gets))
                  for each in plan_.groups if each.path in cells}
    return Interval(one.name, two.at - one.at, model, cells, holes,
                    unplanned_of(one, two, cells)), plan_


def told_holes(intervals: Sequence[Interval]) -> Iterator[str]:
    """Tells of holes: why, and of which groups."""
    reasons: dict[str, Counter[str]] = {}
    for path, why in (hole for each in intervals for hole in each.holes.items()):
        reasons.setdefault(why, Counter())[path] += 1
    for why, counts in reasons.items():
        groups = [f"{shown(path)} ({count})" for path, count in counts.items()]
        yield f"{why}, left out there: {some(groups)}"


def notes_of(seen: Sequence[TreeReading], intervals: Sequence[Interval]) -> Iterator[str]:
    """Tells of all readings and intervals."""
    yield from told_holes(intervals)
    if all(each.reading.pressure is None for look in seen for of_path in look.counted.values()
           for each in of_path.values()):
        yield ("pressure is not measured: a group that waited is taken to have had what it"
               " wanted")
    waited = {path: None for interval in intervals for path, cell in interval.cells.items()
              if cell.may_be_hungry}
    if waited:
        yield ("groups that waited, and may have wanted more than they used (--want psi),"
               f" {some([shown(path) for path in waited])}")
    changed = sum(one.model is not two.model for one, two in zip(seen, seen[1:]))
    if changed:
        yield f"groups or settings changed in intervals: {changed}; those of their ends are taken"


def audited(engine: Engine, seen: Sequence[TreeReading], want: str | None, away: set[int]
            ) -> Audit:
    """The plan beside what was used, from each look to the next. `away` has the places of readings
    before which nothing was measured."""
    if len(seen) < 2:
        raise HostFault("one look alone: an interval is from one to the next. Take more readings,"
                        " or a shorter --step")
    intervals: list[Interval] = []
    last: Plan | None = None
    pairs = progress.each("intervals", zip(seen, seen[1:]), len(seen) - 1)
    for place, (one, two) in enumerate(pairs, 1):
        if two.at <= one.at:
            raise HostFault(f"the clock went back at {two.name}: ask for a range after that")
        interval, plan_ = interval_of(engine, one, two, want, place in away)
        intervals.append(interval)
        last = plan_ or last
    if last is None or not any(cell.used for each in intervals for cell in each.cells.values()):
        raise HostFault("no usage: no counter of a group rises from one look to the next. Take"
                        " later copies, or a longer range")
    return Audit(intervals, last, list(notes_of(seen, intervals)), want=want)
