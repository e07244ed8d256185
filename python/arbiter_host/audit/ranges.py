"""Looks at the groups of a source from a range of Prometheus: the counters of cAdvisor."""
from __future__ import annotations

import math
import re
from collections.abc import Iterable, Mapping, Sequence
from dataclasses import dataclass, replace
from fractions import Fraction

from arbiter_host.base import units
from arbiter_host.base.demands import CounterReading
from arbiter_host.base.faults import HostFault, UsageFault
from arbiter_host.base.model import Model
from arbiter_host.base.names import cut, last_name, shown
from arbiter_host.sources import prometheus
from arbiter_host.sources.prometheus import USAGE, Metric
from arbiter_host.sources.readings import Counted, TreeReading
from arbiter_host.sources.samples import time_name
from arbiter_host.sources.usage import some

# The metrics by what they are here. USAGE alone has to be there.
METRICS = {
    "usage": USAGE,
    # When the last sample before each step was taken.
    "at": f"timestamp({USAGE})",
    "periods": "container_cpu_cfs_periods_total",
    "throttled": "container_cpu_cfs_throttled_periods_total",
    "pressure": "container_pressure_cpu_waiting_seconds_total",
    "tasks": "container_threads",
    "quota": "container_spec_cpu_quota",
    "period": "container_spec_cpu_period",
}
# What values are multiplied by: microseconds and milliseconds are whole numbers.
SCALES = {"usage": 10**6, "pressure": 10**6, "at": 1000}
SELECTOR = re.compile(r'\{(?:[^{}"]|"(?:[^"\\]|\\.)*")*\}')
# Greatest value of a counter that is read: above it a float has no whole microseconds.
MOST = 2.0**53
# Steps that may pass between two readings: with more the server was away.
MOST_STEPS = Fraction(3, 2)
# Labels of a series, without its metric.
Labels = frozenset[tuple[str, str]]
# Values of a series by time, in milliseconds.
Values = dict[int, float]


@dataclass(frozen=True)
class Prometheus:
    """A server, the selector of its series, and the time that is asked of it."""

    url: str
    selector: str
    range: prometheus.QueryRange

    def __post_init__(self) -> None:
        if not prometheus.is_address(self.url):
            raise UsageFault(f"--used {shown(self.url)}: audit reads a Prometheus: not http:// or"
                             " https://")
        if self.selector and not SELECTOR.fullmatch(self.selector):
            raise UsageFault("--query: a selector of series, such as '{node=\"n1\"}'")

    def series(self, metric: str) -> dict[Labels, Values]:
        """The values of each series of a metric in the range."""
        query = metric.replace(USAGE, USAGE + self.selector)
        query = query if USAGE in metric else metric + self.selector
        answer = prometheus.of_range(self.url, query, self.range, prometheus.series_of)
        return {frozenset(each.labels.items()): self.numbers(each.values) for each in answer}

    def numbers(self, values: Mapping[float, str]) -> Values:
        """The values of a series. One that is no number is left out."""
        times = [round(at * 1000) for at in values]
        if any(two <= one for one, two in zip(times, times[1:])):
            raise HostFault(f"{shown(self.url)}: the times of a series go back: ask for a range"
                            " after the clock was set")
        numbers = [number_of(each, self.url) for each in values.values()]
        return {at: number for at, number in zip(times, numbers) if number is not None}


def number_of(text: str, url: str) -> float | None:
    """A value; None for one that is no counter, such as NaN."""
    try:
        value = float(text)
    except ValueError as error:
        raise HostFault(f"{shown(url)}: {shown(cut(text, 40))!r} is no number") from error
    return value if math.isfinite(value) and 0 <= value <= MOST else None


class Places:
    """Finds the leaf that a series speaks of."""

    def __init__(self, model: Model) -> None:
        below = model.children()
        self.inner = {path for path in below if below[path] or path == "."}
        leaves = {path: group for path, group in model.groups.items() if path not in self.inner}
        # The leaves that may be measured: pause containers of pods are not.
        self.leaves = [path for path, group in leaves.items() if not group.is_pause]
        # The leaves by what measurements call them; a name of several has None.
        self.names = unique((name, path) for path, group in leaves.items()
                            for name in {path, group.title})
        self.lasts = unique((last_name(path), path) for path in leaves)
        self.folders = {(group.place or path).strip("/"): path
                        for path, group in model.groups.items()}

    def of(self, labels: Mapping[str, str]) -> str | None:
        """The path of a series: of its container, its folder, or a name; None where none is."""
        container, named = labels.get("container"), labels.get("pod", "")
        if container:
            whole = "/".join(labels.get(key, "") for key in ("namespace", "pod", "container"))
            return self.names.get(whole) or self.names.get(named)
        if "id" in labels:
            path = self.folders.get(labels["id"].strip("/"))
            return path or self.lasts.get(labels.get("name", ""))
        return self.names.get(named) or self.lasts.get(named)


def unique(pairs: Iterable[tuple[str, str]]) -> dict[str, str | None]:
    """The path of each name; None where it is that of several."""
    by_name: dict[str, str | None] = {}
    for name, path in pairs:
        by_name[name] = None if name in by_name else path
    return by_name


def is_of_none(labels: Mapping[str, str]) -> bool:
    """Whether a series without a leaf is one of a group above leaves, or of a pause container."""
    return (labels.get("container") == "POD" or labels.get("id") == "/"
            or not labels.get("container") and "pod" in labels and "id" in labels)


def title_of(labels: Mapping[str, str]) -> str:
    """A series in words."""
    parts = [labels.get(key, "") for key in ("namespace", "pod", "container")]
    word = "/".join(filter(None, parts)) or labels.get("id")
    return shown(cut(word or "without a name", 60))


@dataclass
class Fetched:
    """The series of all metrics, and the leaf of each."""

    series: dict[str, dict[Labels, Values]]
    leaves: dict[Labels, str]

    def count(self, key: str, labels: Labels, at: int) -> int | None:
        """A value of a metric as a whole number, of the series with the same labels."""
        value = self.series[key].get(labels, {}).get(at)
        return None if value is None else round(value * SCALES.get(key, 1))

    def counted(self, labels: Labels, at: int) -> Counted:
        """The counters of a series at a step."""
        taken = self.count("at", labels, at)
        counters = CounterReading(*(self.count(key, labels, at) for key in CounterReading._fields))
        return Counted(counters, at=None if taken is None else Fraction(taken, 1000))

    def limits(self, at: int) -> dict[str, tuple[int, int]]:
        """The quotas and periods at a step, by leaf."""
        limits = {}
        for labels, path in self.leaves.items():
            quota, period = (self.count(key, labels, at) for key in ("quota", "period"))
            if quota and period:
                limits[path] = units.bounded_limit(quota, period)
        return limits


def check_leaves(server: Prometheus, usage: Mapping[Labels, Values],
                 leaves: Mapping[Labels, str]) -> None:
    """A fault where the series of one group may be the same use twice."""
    by_path: dict[str, list[Metric]] = {}
    for labels, path in leaves.items():
        values = sorted(usage[labels].items())
        by_path.setdefault(path, []).append(Metric(dict(labels), {
            at / 1000: f"{value - before}" for (_, before), (at, value) in zip(values, values[1:])
            if value > before}))
    for path, parts in by_path.items():
        prometheus.check_parts(path, parts, server.url,
                               prometheus.window_of(None, server.range.step), "{}")


def fetched(server: Prometheus, model: Model) -> tuple[Fetched, list[str]]:
    """All series, and what is told of those of no group."""
    usage = server.series(METRICS["usage"])
    if not any(usage.values()):
        raise HostFault(f"{shown(server.url)}: no {USAGE} from {shown(server.range.start)} to"
                        f" {shown(server.range.end)}: ask for another range, or --query")
    places, leaves, missing = Places(model), {}, []
    for labels in usage:
        path = places.of(dict(labels))
        if path is not None and path not in places.inner:
            leaves[labels] = path
        elif path is None and not is_of_none(dict(labels)):
            missing.append(title_of(dict(labels)))
    check_leaves(server, usage, leaves)
    if not leaves:
        raise HostFault(f"{shown(server.url)}: series of no group here, {some(sorted(missing))}:"
                        " --query names others")
    series = {key: usage if key == "usage" else server.series(metric)
              for key, metric in METRICS.items()}
    notes = [f"series of no group here, {some(sorted(missing))}"] if missing else []
    unseen = [shown(path) for path in places.leaves if path not in leaves.values()]
    notes += [f"groups of which nothing is measured, {some(unseen)}"] if unseen else []
    return Fetched(series, leaves), notes


def with_limits(model: Model, limits: Mapping[str, tuple[int, int]]) -> Model:
    """A model with the limits that were measured."""
    groups = dict(model.groups)
    for path, (quota, period) in limits.items():
        groups[path] = replace(groups[path], quota=quota, period=period,
                               burst=min(groups[path].burst, quota))
    return replace(model, groups=groups)


def readings_of(server: Prometheus, model: Model) -> tuple[list[TreeReading], list[str]]:
    """The readings of the groups of a model, and what is told of the series."""
    measured, notes = fetched(server, model)
    models: dict[frozenset[object], Model] = {}
    made = []
    for at in sorted({at for labels in measured.leaves for at in measured.series["usage"][labels]}):
        limits = measured.limits(at)
        same = models.setdefault(frozenset(limits.items()), with_limits(model, limits))
        look = TreeReading(Fraction(at, 1000), same, name=time_name(str(at // 1000)))
        for labels, path in measured.leaves.items():
            if at in measured.series["usage"][labels]:
                look.counted.setdefault(path, {})[labels] = measured.counted(labels, at)
                count = measured.count("tasks", labels, at)
                if count:
                    look.tasks[path] = look.tasks.get(path, 0) + count
        made.append(look)
    return made, notes


def gaps(seen: Sequence[TreeReading]) -> set[int]:
    """The places of readings before which the server was away: more than a step passed."""
    passed = [two.at - one.at for one, two in zip(seen, seen[1:])]
    least = min(passed, default=Fraction(0))
    return {place for place, each in enumerate(passed, 1) if each > MOST_STEPS * least}
