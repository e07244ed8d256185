"""Many periods over the groups of a host: what each group got in each sample.

A sample lasts one period, or as long as is said: then its period is repeated, so that what was
saved up is used as the kernel would use it. The C library adds the periods up, and shows no plan
that the proved check has not accepted.
"""
from __future__ import annotations

import functools
import itertools
import json
from array import array
from collections.abc import Callable, Iterable, Iterator, Mapping, Sequence
from dataclasses import dataclass
from fractions import Fraction
from typing import Any

from arbiter import Host, QuotaColumns, Samples
from arbiter.c import NO_LIMIT, NO_PARENT
from arbiter_host.base import demands, svg, text, units
from arbiter_host.base.faults import HostFault, UsageFault
from arbiter_host.base.model import Model, checked
from arbiter_host.base.names import cut, parent_path, short, shown
from arbiter_host.base.plan import Engine
from arbiter_host.base.tables import Column, Forms, Table, TableAnswer, plain
from arbiter_host.sources.samples import History

FLAGS = (("T", "throttled", "#b4231f"), ("t", "throttled, not by its limit", "#d97706"),
         ("B", "burst", "#7c3aed"), ("S", "starved", "#111827"))
MOST_PANELS = 40
# The sums of a cell, and their names as data.
COUNTS = {"gets": "got", "wants": "wanted", "periods": "periods", "throttled": "throttled",
          "elsewhere": "throttled_not_by_limit", "bursts": "bursts", "starved": "starved",
          "withheld": "withheld_usec"}
# Most periods of one sample: a day of periods of 1 ms.
MOST_PERIODS = 86400000
# Most numbers that one call gives of each kind: a group in a sample is one.
MOST_CELLS = 1 << 20
EDGE, LEFT, WIDE, TALL, STRIP, GAP, TOP = 16, 64, 760, 84, 5, 44, 64


@dataclass(slots=True)
class SampleCell:
    """One group in one sample: sums over its periods, in slices, and counts of periods."""

    gets: int = 0
    wants: int = 0
    limit: int | None = None
    periods: int = 0
    throttled: int = 0
    elsewhere: int = 0
    bursts: int = 0
    starved: int = 0
    # Microseconds wanted above the limit.
    withheld: int = 0

    @classmethod
    def of(cls, sums: Samples, at: int, host: Host | None, periods: int) -> SampleCell:
        """A cell of so many periods. The limit of the root is the capacity of its host."""
        limit = host.capacity * periods if host else sums.limits[at]
        return cls(sums.amounts[at], sums.wants[at], None if limit == NO_LIMIT else limit, periods,
                   sums.nr_throttled[at], sums.nr_short[at], sums.nr_bursts[at],
                   sums.nr_starved[at], sums.throttled_usec[at])

    def mean(self, slices: int) -> Fraction:
        """A sum as a mean over the periods."""
        return Fraction(slices, max(self.periods, 1))

    @property
    def flags(self) -> str:
        """The letters of what happened in any of its periods."""
        counts = (self.throttled - self.elsewhere, self.elsewhere, self.bursts, self.starved)
        return "".join(letter for (letter, _, _), count in zip(FLAGS, counts) if count)


def summed(cells: Sequence[SampleCell]) -> dict[str, int]:
    """The sums of a group over all samples, and its longest run of samples in which it starved."""
    sums = {name: sum(getattr(cell, key) for cell in cells) for key, name in COUNTS.items()}
    starved = [end - begin for begin, end in runs([cell.starved > 0 for cell in cells])]
    return {**sums, "samples_starved_in_a_row": max(starved, default=0)}


@dataclass
class Series:
    """The samples' names, the groups that are shown with a cell for each sample, and the host."""

    names: list[str]
    groups: dict[str, list[SampleCell]]
    host: Host
    # The demands and the weights in words.
    asked: str
    weighed: str


def target(model: Model, children: Mapping[str, list[str]], pattern: str) -> str:
    """The one group that a column names; a fault where there is none."""
    groups = demands.matching(model, pattern)
    paths = [group.path for group in groups if not children[group.path]]
    if not paths and len(groups) == 1 and model.owned is not None:
        # (a pod stands for its containers)
        paths = [each for each in model.owned.meant(groups[0].path) if not children[each]]
    if len(paths) != 1:
        raise HostFault("a group with children" if not paths else f"{len(paths)} groups")
    return paths[0]


def targets(model: Model, history: History, mapping: Mapping[str, str]
            ) -> tuple[dict[str, str], list[str]]:
    """The path that each column stands for, and the columns of no one group that others measured,
    since they know other hosts too. Of the others a fault names such a column."""
    children, found, missing = model.children(), dict[str, str](), list[str]()
    for name in history.columns:
        try:
            path = target(model, children, mapping.get(name, name))
        except HostFault as fault:
            if name not in history.others:
                raise HostFault(f"column {shown(name)}: {fault.message}: --map"
                                f" {shown(name)}=GROUP") from fault
            missing.append(shown(name))
            continue
        if path in found.values():
            other = next(each for each, was in found.items() if was == path)
            raise HostFault(f"columns {shown(other)} and {shown(name)} are both of the group"
                            f" {shown(path)}")
        found[name] = path
    return found, missing


def sample_periods(usec: int, period: int) -> int:
    """The periods of one sample of so many microseconds; 1 for 0."""
    count, rest = divmod(usec, period) if usec else (1, 0)
    if rest or not 1 <= count <= MOST_PERIODS:
        raise UsageFault(f"--step: a whole number of periods of {period} microseconds, 1 to"
                         f" {MOST_PERIODS}")
    return count


@dataclass
class ReplayRows:
    """The rows of samples on a host: its groups, the demands of each in each sample, and the
    periods of a sample."""

    host: Host
    paths: list[str]
    settings: QuotaColumns
    demands: array[int]
    # Slices of each limit that the last period left.
    carries: array[int]
    periods: int

    def cells(self, engine: Engine, shown_: Sequence[str], tick: Callable[[], None]
              ) -> dict[str, list[SampleCell]]:
        """The cells of some groups."""
        width = len(self.paths)
        step = width * (max(MOST_CELLS // width, 1) if self.periods == 1 else 1)
        places = {path: self.paths.index(path) for path in shown_}
        found: dict[str, list[SampleCell]] = {path: [] for path in shown_}
        for begin in range(0, len(self.demands), step):
            sums = engine.periods(self.host, self.settings, self.demands[begin:begin + step],
                                  self.periods, self.carries)
            for sample in range(0, len(sums.amounts), width):
                for path, place in places.items():
                    found[path].append(SampleCell.of(sums, sample + place,
                                                     None if place else self.host, self.periods))
                tick()
        return found


def settings_of(model: Model) -> QuotaColumns:
    """The groups of a model with their settings, the root first."""
    rows = {".": 0} | {path: row for row, path in enumerate(model.groups, 1)}
    groups = model.groups.values()
    return QuotaColumns(
        array("I", [NO_PARENT, *(rows[parent_path(path)] for path in model.groups)]),
        array("Q", [units.DEFAULT_WEIGHT, *(group.weight for group in groups)]),
        array("Q", [NO_LIMIT, *(NO_LIMIT if group.quota is None else group.quota
                                for group in groups)]),
        array("Q", [units.DEFAULT_PERIOD, *(group.period for group in groups)]),
        array("Q", [0, *(group.burst for group in groups)]))


def asked_of(engine: Engine, model: Model, history: History, unit: str, path_of: Mapping[str, str],
             periods: int) -> ReplayRows:
    """The samples of a history. Columns of no path are left out."""
    model, asked = model.copy(), array("Q")
    slices = model.conversions(engine.library)
    for _, sample in history.demands(unit, model.host):
        set_demands(model, path_of, sample)
        asked.extend([0, *(slices.demand(group.usable) if group.demand else 0
                           for group in model.groups.values())])
    carries = array("Q", [0, *(group.saved for group in model.groups.values())])
    return ReplayRows(checked(model.host), [".", *model.groups], settings_of(model), asked, carries,
                    periods)


def asked_words(history: History, usec: int) -> str:
    """The words for demands that are samples of so many microseconds; 0 stands for one period."""
    each = units.span_words(Fraction(usec, 10**6)) if usec else "one period"
    many = len(history.samples)
    return f"{many} samples, each of {each}" if many != 1 else f"1 sample of {each}"


def run(engine: Engine, model: Model, history: History, unit: str, chosen: Sequence[str],
        path_of: Mapping[str, str], sample: int, tick: Callable[[], None]) -> Series:
    """The samples, of so many microseconds each, one after another. Columns of no path are left
    out."""
    periods = sample_periods(sample, model.host.period_us)
    asked = asked_of(engine, model, history, unit, path_of, periods)
    if not asked.demands:
        raise HostFault("no sample")
    shown_ = list(dict.fromkeys(chosen or path_of.values() or ["."]))
    return Series([each.name for each in history.samples], asked.cells(engine, shown_, tick),
                  asked.host, asked_words(history, sample), model.weighed)


def set_demands(model: Model, path_of: Mapping[str, str], asked: Mapping[str, Fraction]) -> None:
    """Sets the demands that a sample names."""
    for name, demand in asked.items():
        if name in path_of:
            model.groups[path_of[name]].demand = demand


@functools.lru_cache(1 << 16)
def written(host: Host, slices: int, periods: int, unit: str) -> str:
    """A mean of slices over periods in a unit."""
    one = units.thousandths_of_slices(1, host.period_us, host.slice_us)
    value = text.in_unit(host, Fraction(slices, max(periods, 1)) * one, unit)
    return units.decimal(value, 3 if unit == "cpu" else 1)


# A group with its sums over all samples.
Sums = tuple[str, dict[str, int]]
# A group in a sample: the sample's name, the group's path, and the cell.
Sampled = tuple[str, str, SampleCell]


def counted(title: str, key: str) -> Column[Sums]:
    """A column of a count of periods, or of microseconds."""
    return Column(title, lambda each: str(each[1][key]))


def table(series: Series, unit: str) -> Table[Sums]:
    """The sums of each group as a table. `wanted` and `got` are means."""
    def mean(key: str) -> Column[Sums]:
        return Column(key, lambda each: written(series.host, each[1][key], each[1]["periods"],
                                                unit))

    return Table([
        Column("group", lambda each: short(shown(each[0])), True), mean("wanted"), mean("got"),
        Column("of it", lambda each: f"{100 * each[1]['got'] / each[1]['wanted']:.0f}%"
               if each[1]["wanted"] else "-"),
        counted("throttled", "throttled"), counted("not by limit", "throttled_not_by_limit"),
        counted("withheld_usec", "withheld_usec"), counted("bursts", "bursts"),
        counted("starved", "starved"), counted("samples in a row", "samples_starved_in_a_row")],
                 [(path, summed(cells)) for path, cells in series.groups.items()])


def records(series: Series, unit: str) -> Table[Sampled]:
    """Each group in each sample. Amounts are means over its periods, in the unit."""
    def amount(title: str, key: str) -> Column[Sampled]:
        def value(each: Sampled) -> str | None:
            slices = getattr(each[2], key)
            return None if slices is None else written(series.host, slices, each[2].periods, unit)

        return column(title, value)

    return Table([
        Column("sample", lambda each: each[0], True, "sample"),
        Column("group", lambda each: each[1], True, "group"),
        amount("gets", "gets"), amount("wants", "wants"), amount("limit", "limit"),
        *(column(name, lambda each, key=key: getattr(each[2], key))  # type: ignore[misc]
          for key, name in COUNTS.items() if name not in ("got", "wanted"))],
                 [(name, path, cells[at]) for at, name in enumerate(series.names)
                  for path, cells in series.groups.items()])


def column(key: str, value: Callable[[Sampled], Any]) -> Column[Sampled]:
    """A column of numbers, whose title is its key."""
    return Column(key, lambda each: "-" if (found := value(each)) is None else str(found), key=key,
                  value=value)


def heads(series: Series, unit: str) -> Iterator[str]:
    """The lines above the table."""
    periods = max((sum(each.periods for each in cells) for cells in series.groups.values()),
                  default=0)
    starves = any(cell.starved for cells in series.groups.values() for cell in cells)
    yield f"{text.host_words(series.host)}; the proved check accepted each plan"
    yield f"demands: {series.asked}; weights: {series.weighed}"
    yield (f"wanted, got: means, in {text.UNIT_WORDS[unit]}; throttled to starved: sums over"
           f" {periods} period{'s' if periods != 1 else ''}")
    yield from ["samples in a row: the most in which it starved"] * starves
    yield ""


def forms(series: Series, unit: str) -> Forms:
    """The forms of samples."""
    lines = TableAnswer(lambda: [*plain(*heads(series, unit)), table(series, unit)], dict)
    return {**lines.forms(),
            "csv": lambda: records(series, unit).csv(),
            "json": lambda: json.dumps({
                "unit": unit, "demands": series.asked, "weights": series.weighed,
                "records": records(series, unit).data()}, indent=1) + "\n",
            "svg": lambda: picture(series)}


def runs(holds: Sequence[bool]) -> Iterator[tuple[int, int]]:
    """The runs of samples that have something: from, to."""
    for held, places in itertools.groupby(range(len(holds)), lambda place: holds[place]):
        run_ = list(places)
        if held:
            yield run_[0], run_[-1] + 1


def stairs(values: Sequence[float], x: Callable[[float], float],
           y: Callable[[float], float], begin: int = 0) -> list[svg.Point]:
    """The corners of a line that stays at each value for one sample, from a sample on."""
    return [(x(at), y(value)) for place, value in enumerate(values, begin)
            for at in (place, place + 1)]


def gapped(values: Sequence[float | None], x: Callable[[float], float],
           y: Callable[[float], float]) -> Iterator[list[svg.Point]]:
    """The corners of such lines, one for each run of samples that have a value."""
    for begin, end in runs([each is not None for each in values]):
        yield stairs([each or 0.0 for each in values[begin:end]], x, y, begin)


def lines_of(series: Series, path: str) -> tuple[list[float], list[float], list[float | None]]:
    """The wants and amounts of a group in each sample, and its limit where it is near, in CPUs."""
    host, cells = series.host, series.groups[path]
    one = host.slice_us / host.period_us
    wants, gets = ([float(each.mean(getattr(each, key))) * one for each in cells]
                   for key in ("wants", "gets"))
    most = max(*wants, *gets, one)
    limits = (None if each.limit is None else float(each.mean(each.limit)) * one for each in cells)
    return wants, gets, [None if each is None or each > 2 * most else each for each in limits]


def peak(lines: Iterable[Sequence[float | None]]) -> float:
    """The greatest value of some lines."""
    return max((each for line in lines for each in line if each is not None), default=0.0)


def panel(series: Series, path: str, top: float, most: float, mark: str) -> Iterator[str]:
    wants, gets, limits = lines_of(series, path)
    most = most or 1.0

    def x(at: float) -> float:
        return LEFT + WIDE * at / len(wants)

    def y(value: float) -> float:
        return top + TALL - TALL * value / most

    yield svg.words((EDGE, top - 8), cut(short(shown(path)), 100 - len(mark)), svg.INK, 12, "start",
                    True, path)
    if mark:
        yield svg.words((LEFT + WIDE, top - 8), mark, svg.MARK, 11, "end")
    for value in svg.steps(most, 4):
        yield svg.line((LEFT, y(value)), (LEFT + WIDE, y(value)), svg.GRID)
        yield svg.words((LEFT - 6, y(value) + 4), f"{value:g}", svg.FAINT, 10, "end")
    for values, colour in ((wants, svg.WANTS), (gets, svg.GETS)):
        edge = [(x(0), y(0)), *stairs(values, x, y), (x(len(wants)), y(0))]
        yield svg.shape(edge, "none", 0, colour)
    for points in gapped(limits, x, y):
        yield svg.shape(points, svg.LIMIT, 1.5, "none", "5 3")
    yield from strips(series.groups[path], top, x)


def strips(cells: Sequence[SampleCell], top: float, x: Callable[[float], float]) -> Iterator[str]:
    for place, (letter, _, colour) in enumerate(FLAGS):
        for begin, end in runs([letter in each.flags for each in cells]):
            corner = (x(begin), top + TALL + 3 + STRIP * place)
            yield svg.box(corner, (max(x(end) - x(begin), 1), STRIP - 1), colour)


def legend(y: float) -> Iterator[str]:
    marks = [("gets", 19.0, svg.swatch(y - 10, svg.GETS)),
             ("wants", 19.0, svg.swatch(y - 10, svg.WANTS)),
             *((name, 19.0, svg.swatch(y - STRIP, colour, STRIP)) for _, name, colour in FLAGS),
             ("limit", 23.0, lambda x: svg.line((x, y - 4), (x + 18, y - 4), svg.LIMIT, 1.5,
                                                "5 3"))]
    return svg.legend(EDGE, y, marks)


def time_labels(series: Series, y: float) -> Iterator[str]:
    count = len(series.names)
    widest = max(svg.wide(shown(name), 10) for name in series.names) + 16
    each = max(-(-count // max(int(WIDE // widest), 1)), 1)
    for place in range(0, count, each):
        x = LEFT + WIDE * (place + 0.5) / count
        yield svg.words_within((x, y), series.names[place], (EDGE, LEFT + WIDE + EDGE), svg.FAINT,
                               10)


def picture(series: Series) -> str:
    """The groups over time as SVG."""
    if len(series.groups) > MOST_PANELS:
        raise HostFault(f"{len(series.groups)} groups are too many for one picture:"
                        " -g chooses some")
    height = TOP + 16 + len(series.groups) * (TALL + GAP) + 12
    title = f"{len(series.names)} samples, CPUs in each: {text.host_words(series.host)}"
    parts = [svg.words((EDGE, 24), title, svg.INK, 13, "start", True), *legend(46)]
    tops = svg.tops([peak(lines_of(series, path)) for path in series.groups])
    for place, (path, (most, mark)) in enumerate(zip(series.groups, tops)):
        parts += panel(series, path, TOP + 22 + place * (TALL + GAP), most, mark)
    parts += time_labels(series, height - 10)
    return svg.document(LEFT + WIDE + 3 * EDGE, height, title, parts)
