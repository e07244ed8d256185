"""Demands from what was measured: usage, peak, 95th percentile, pressure, limit, request, busy."""
from __future__ import annotations

import functools
import math
from collections.abc import Callable, Iterable, Sequence
from dataclasses import dataclass, field, replace
from fractions import Fraction
from typing import NamedTuple, overload

from arbiter import Host
from arbiter_host.base import names, units
from arbiter_host.base.faults import NothingFound, UsageFault
from arbiter_host.base.model import Group, Model

# What demands are taken from, and the first of them: from what was used.
WANTS = ("usage", "peak", "p95", "psi", "limit", "request", "busy")
OF_USE = WANTS[:4]
# What demands by each rule are, in words.
RULES = {"request": "requests", "limit": "limits", "busy": "all CPUs (busy)", "usage": "mean",
         "peak": "greatest", "p95": "95th percentile", "psi": "mean, raised by waiting,"}
# The greatest part of the time that pressure is taken for: above it the estimate has no meaning.
MOST_PRESSURE = Fraction(19, 20)
# The part of a limit above which use is none that this limit has allowed.
MOST_ABOVE = Fraction(11, 10)
# The place of a group among what a source has read.
Place = tuple[int, int]
# The seconds at which the first and the last sample was.
Times = tuple[Fraction, Fraction]


@dataclass(frozen=True, eq=False)
class Values(Sequence[Fraction]):
    """Values of CPU, as whole numbers of one part of a thousandth of a CPU: these are put in order
    and added up in a hundredth of the time of fractions."""

    numbers: Sequence[int] = ()
    part: Fraction = Fraction(1)

    @classmethod
    def of(cls, amounts: Iterable[Fraction]) -> Values:
        """The amounts of fractions."""
        ratios = [each.as_integer_ratio() for each in amounts]
        whole = math.lcm(*{below for _, below in ratios})
        return cls([above * (whole // below) for above, below in ratios], Fraction(1, whole))

    @overload
    def __getitem__(self, at: int) -> Fraction: ...

    @overload
    def __getitem__(self, at: slice) -> Values: ...

    def __getitem__(self, at: int | slice) -> Fraction | Values:
        if isinstance(at, slice):
            return replace(self, numbers=self.numbers[at])
        return self.numbers[at] * self.part

    def __len__(self) -> int:
        return len(self.numbers)

    def __eq__(self, other: object) -> bool:
        return isinstance(other, Sequence) and tuple(self) == tuple(other)

    def __hash__(self) -> int:
        return hash(tuple(self))

    @functools.cached_property
    def ordered(self) -> Sequence[int]:
        """The numbers from the least to the greatest."""
        return sorted(self.numbers)

    @property
    def most(self) -> Fraction:
        """The greatest amount; 0 of none."""
        return percentile(self, 100)

    @property
    def mean(self) -> Fraction:
        """The mean; 0 of none."""
        return sum(self.numbers) * self.part / max(len(self.numbers), 1)


NONE = Values()


def joined(every: Sequence[Values]) -> Values:
    """Values one after another."""
    whole = math.lcm(*(each.part.denominator for each in every))
    numbers = list[int]()
    for each in every:
        times = each.part.numerator * (whole // each.part.denominator)
        numbers += each.numbers if times == 1 else [times * number for number in each.numbers]
    return Values(numbers, Fraction(1, whole))


class CounterReading(NamedTuple):
    """Counters of one group at one time; None where the file or the key is missing. `usage` and
    `pressure` are microseconds, `pressure` the time in which some task waited."""

    usage: int | None = None
    periods: int | None = None
    throttled: int | None = None
    pressure: int | None = None


@dataclass
class Measured:
    """The facts of one group's demand: readings, and thousandths of a CPU requested."""

    readings: list[CounterReading] = field(default_factory=list)
    request: Fraction | None = None
    # Number of its tasks where it was read.
    tasks: int | None = None
    # Thousandths of a CPU that it used at one time or more, as others have measured it, and when.
    told: Values = NONE
    times: Times | None = None


@dataclass(frozen=True)
class Use:
    """The use that was seen of a group: thousandths in each sample, what it wanted at least where
    its limit has throttled it, and when; None where that is not told."""

    values: Values
    wanted: Fraction = Fraction(0)
    times: Times | None = None
    # The groups of which it is, such as replicas of one container.
    groups: int = 1
    # The part of its periods in which it was throttled; None where that is not told.
    throttled: Fraction | None = None

    @property
    def span(self) -> Fraction | None:
        """The seconds from the first sample to the last."""
        return None if self.times is None else self.times[1] - self.times[0]


def together(uses: Sequence[Use]) -> Use:
    """The use that was seen of several groups that have the same settings."""
    times = [each.times for each in uses if each.times is not None]
    return Use(joined([each.values for each in uses]),
               max(each.wanted for each in uses),
               (min(times)[0], max(last for _, last in times)) if times else None, len(uses))


def rise(before: int | None, after: int | None) -> int | None:
    """By how much a counter rose; None where a reading is missing or the counter fell."""
    if before is None or after is None or after < before:
        return None
    return after - before


def rises(readings: Sequence[CounterReading], key: str) -> list[int]:
    """By how much a counter rose from each reading to the next; empty where one is missing."""
    values = [getattr(reading, key) for reading in readings]
    steps = [rise(one, two) for one, two in zip(values, values[1:])]
    return [] if None in steps else [each for each in steps if each is not None]


def used(measured: Measured, seconds: Fraction) -> Values:
    """Thousandths of a CPU that a group used from each reading to the next."""
    if measured.told:
        return measured.told
    return Values(rises(measured.readings, "usage"), units.thousandths_of_usage(1, seconds))


def mean(values: Sequence[Fraction]) -> Fraction:
    """The mean; 0 of none."""
    return sum(values, Fraction(0)) / len(values) if values else Fraction(0)


def percentile(values: Values, percent: int) -> Fraction:
    """The least value that so many percent of the values do not exceed; 0 of none."""
    if not values:
        return Fraction(0)
    return values.ordered[max(math.ceil(len(values) * percent / 100) - 1, 0)] * values.part


def limit_of(group: Group, host: Host) -> Fraction:
    """Thousandths of a CPU that the group's own limit allows, at most the host's."""
    most = Fraction(1000 * (host.processors if group.keeps_to is None else group.keeps_to))
    return most if group.quota is None else min(Fraction(1000 * group.quota, group.period), most)


def pressed(group: Group, measured: Measured, host: Host, seconds: Fraction) -> Fraction:
    """The use of the group, raised by the time in which it waited or was throttled.

    Usage is divided by the part of the time without pressure. A throttled group wants at least
    its limit, raised by its periods over those that were not throttled.
    """
    usage = used(measured, seconds).mean
    waited = sum(rises(measured.readings, "pressure"))
    span = seconds * 10**6 * max(len(measured.readings) - 1, 1)
    demand = usage / (1 - min(Fraction(waited) / span, MOST_PRESSURE))
    periods = sum(rises(measured.readings, "periods"))
    throttled = min(sum(rises(measured.readings, "throttled")), periods)
    if throttled and group.quota is not None:
        raised = limit_of(group, host) * Fraction(periods, max(periods - throttled, 1))
        demand = max(demand, min(raised, Fraction(1000 * host.processors)))
    return demand


def use_of(group: Group, measured: Measured, host: Host, seconds: Fraction) -> Use | None:
    """The use that was seen of a group. Its waiting does not count: it may be for others."""
    values = used(measured, seconds)
    if not values:
        return None
    times = measured.times if measured.told else (Fraction(0), seconds * len(values))
    periods, throttled = (sum(rises(measured.readings, key)) for key in ("periods", "throttled"))
    part = Fraction(min(throttled, periods), periods) if periods else None
    if not throttled:
        return Use(values, times=times, throttled=part)
    counted = replace(measured, readings=[each._replace(pressure=0) for each in measured.readings])
    return Use(values, pressed(group, counted, host, seconds), times, throttled=part)


def wanted(want: str, group: Group, measured: Measured, host: Host,
           seconds: Fraction) -> Fraction | None:
    """The demand by one rule, in thousandths of a CPU; None where nothing was read for it."""
    if want == "limit":
        return limit_of(group, host)
    if want == "busy":
        return Fraction(1000 * host.processors) if measured.tasks != 0 else Fraction(0)
    if want == "request":
        return measured.request
    values = used(measured, seconds)
    if not values:
        return None
    if want == "psi":
        return pressed(group, measured, host, seconds)
    return {"usage": values.mean, "peak": values.most, "p95": percentile(values, 95)}[want]


def asked_words(want: str, measured: Sequence[Measured], seconds: Fraction) -> str:
    """The words for demands: their rule, and the time of the use that they are of."""
    if want not in OF_USE:
        return RULES[want]
    steps = max((len(each.readings) - 1 for each in measured), default=0)
    times = [each.times for each in measured if each.told and each.times is not None]
    most = max([steps, *(len(each.told) for each in measured)])
    span = seconds * steps if steps > 0 else (
        max(last for _, last in times) - min(times)[0] if times else Fraction(0))
    over = f" in {units.span_words(span)}" if span else ""
    if most <= 1:
        return f"use{over or ' at one moment'}{', raised by waiting' if want == 'psi' else ''}"
    return f"{RULES[want]} of use{over} ({most} samples)"


def too_much(group: Group, used: Fraction, host: Host) -> list[str]:
    """A note of use that the plan cannot give: more than the host, or the group's limit allows. A
    burst, or a reading within a period, may be somewhat above that."""
    words = f"{group.path}: {units.decimal(used, 0)}m used: more than"
    if used > 1000 * host.processors:
        return [f"{words} the host has"]
    limit = None if group.quota is None else Fraction(1000 * group.quota, group.period)
    return [f"{words} its limit of {units.decimal(limit)}m, to which it is cut"] if (
        limit is not None and not group.burst and used > MOST_ABOVE * limit) else []


def set_demands(model: Model, measured: dict[str, Measured], want: str, seconds: Fraction) -> None:
    """Sets the demand of each group without children. A group that is known to request nothing, as
    a pause container, is not meant to be busy."""
    leaves = [path for path, below in model.children().items() if path != "." and not below]
    known = [measured[path] for path in leaves if path in measured]
    model.asked = asked_words(want, known, seconds)
    idle = sum(each.tasks == 0 and each.request is None for each in known)
    if want == "busy" and idle:
        model.notes.append(f"groups without a task, which ask for nothing: {idle} of {len(leaves)}"
                           " (--want busy)")
    unread = list[str]()
    for path in leaves:
        group, counters = model.groups[path], measured.get(path, Measured())
        group.request = counters.request
        demand = wanted(want, group, counters, model.host, seconds)
        if demand is None:
            unread.append(path)
            continue
        throttled = sum(rises(counters.readings, "throttled"))
        if throttled and want in ("usage", "peak", "p95"):
            periods = sum(rises(counters.readings, "periods"))
            model.notes.append(f"{path}: throttled in {throttled} of {periods} periods: it wanted"
                               " more than it used (--want psi)")
        if want in OF_USE[:3]:
            model.notes += too_much(group, demand, model.host)
        group.demand = demand
        if counters.tasks:
            needed = math.ceil(used(counters, seconds).most / 1000)
            group.tasks = max(counters.tasks, needed)
    if unread:
        many = f"{len(unread)} groups, " if len(unread) > 1 else ""
        model.notes.append(f"{many}{names.listed(unread)}: nothing read for --want {want}: no"
                           " demand")


def stop(model: Model, paths: Sequence[str], why: str) -> None:
    """Lets groups whose tasks cannot run, and all below them, ask for nothing, and tells it."""
    for path in paths:
        for each in model.groups.values():
            if f"{each.path}/".startswith(f"{path}/"):
                each.demand = Fraction(0)
                model.stopped.add(each.path)
    if paths:
        model.notes.append(f"{why}: {names.listed(paths)}: it asks for nothing")


def matching(model: Model, pattern: str) -> list[Group]:
    """The groups of a path, a path's end, a title, a pattern with `*` of these, or a title's end.
    In a pattern of an end `*` stands for no slash. The fault where none is names some alike."""
    shape, end = names.pattern(pattern), names.pattern_of_end(pattern)
    ways: tuple[Callable[[Group], object], ...] = (
        lambda each: pattern in (".", each.path, each.title) or shape.fullmatch(each.path),
        lambda each: each.path.endswith(f"/{pattern}"),
        lambda each: shape.fullmatch(each.title), lambda each: end.fullmatch(each.path),
        lambda each: end.fullmatch(each.title))
    for fits in ways:
        groups = [each for each in model.groups.values() if fits(each)]
        if groups:
            return groups
    part = pattern.strip("*/").lower()
    like = [names.shown(path) for path, group in model.groups.items()
            if part and part in f"{path} {group.title}".lower()]
    there = f" (there is {names.few(like, 3)})" if like else ""
    raise NothingFound(f"no group {names.shown(pattern)}{there}")


def scale(model: Model, words: Sequence[str]) -> None:
    """Multiplies demands: each word is GROUP=FACTOR, for the group and all below it."""
    for word in words:
        pattern, _, factor = word.rpartition("=")
        parsed = units.number_and_unit(factor.removesuffix("x"))
        if not pattern or parsed is None or parsed[1]:
            raise UsageFault(f"--scale {names.shown(word)}: not GROUP=FACTOR")
        model.asked += f", {names.shown(pattern)} times {units.decimal(parsed[0])}"
        tops = {group.path for group in matching(model, pattern)}
        for group in model.groups.values():
            if pattern == "." or any(group.path == top or group.path.startswith(top + "/")
                                     for top in tops):
                group.demand *= parsed[0]
