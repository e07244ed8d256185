"""A tree of cgroups over time: readings of all its groups, and what was counted between them.

A group that disappears, a file that cannot be read and a controller that is not enabled are noted
by name and cost no run.
"""
from __future__ import annotations

import os
import time
from collections.abc import Hashable, Iterator, Mapping, Sequence
from dataclasses import dataclass, field
from fractions import Fraction
from typing import NamedTuple

from arbiter import Host, Library, Reading, RoundTimes
from arbiter_host.base import names, progress, safe_files, units
from arbiter_host.base.demands import CounterReading, Measured, Place, rise
from arbiter_host.base.faults import HostFault, strerror
from arbiter_host.base.model import (MAX_CAPACITY, MAX_DEPTH, NO_POD, Group, Model, PodNames, bind,
                                     checked, cpus_in, up_to_64_cpus)
from arbiter_host.base.names import shown
from arbiter_host.sources import cgroup2, task_times
from arbiter_host.sources.times import MICROSECONDS, Clock, Sleep, Times, turns

HOST_TREE = "/sys/fs/cgroup"
# Nanoseconds of a microsecond.
NANO = 1000
# Why nothing is known of what a group used between two readings.
CAME, FELL, STILL = ("groups that came or went", "groups whose counters fell",
                     "groups without a new sample")


class Counted(NamedTuple):
    """The counts of a group: its counters, what its tasks did, and the seconds at which that
    was counted. Without such a time it is that of the reading."""

    reading: CounterReading
    threads: task_times.Tasks = {}
    at: Fraction | None = None


@dataclass
class TreeReading:
    """All groups at one time, which is in seconds. What is counted is kept by the group's path and
    by what tells a group from another one that has its path later."""

    at: Fraction
    model: Model
    counted: dict[str, dict[Hashable, Counted]] = field(default_factory=dict)
    # The number of tasks of each leaf where it was read.
    tasks: dict[str, int] = field(default_factory=dict)
    # The numbers of CPUs of the groups that keep to CPUs of their own, and the frozen groups.
    bound: dict[str, int | None] = field(default_factory=dict)
    frozen: list[str] = field(default_factory=list)
    name: str = ""
    # The folders of pods and containers that have no name of theirs.
    unnamed: set[str] = field(default_factory=set)


class Span(NamedTuple):
    """By how much the counters of a group rose in so many seconds, and what its tasks did."""

    risen: CounterReading
    seconds: Fraction
    before: task_times.Tasks
    after: task_times.Tasks

    @property
    def used(self) -> Fraction:
        """Its use, in thousandths of a CPU."""
        return units.thousandths_of_usage(self.risen.usage or 0, self.seconds)

    def reading(self, library: Library, host: Host, group: Group) -> Reading:
        """Its use and what it asks for, and whether it would have used more, by the library."""
        passed = int(self.seconds * 10**9)
        return reading_of(library, up_to_64_cpus(host), self.risen, passed, self.before, self.after,
                          (group.quota, group.period, group.burst))

    def measured(self, tasks: int | None) -> Measured:
        """The span as two readings."""
        first = CounterReading(*(None if each is None else 0 for each in self.risen))
        return Measured([first, self.risen], tasks=tasks)


def reading_of(library: Library, host: Host, rose: CounterReading, passed: int,
               before: task_times.Tasks, after: task_times.Tasks,
               limit: tuple[int | None, int, int]) -> Reading:
    """The use of a group in so many nanoseconds, and what it asks for, by the library. Its limit is
    the quota, the own period and the burst in microseconds."""
    quota, period, burst = limit
    allowed = None if quota is None else library.allowed(quota, period, burst, passed) // NANO
    times = RoundTimes(passed, rose.usage or 0, rose.pressure or 0, len(after),
                       allowed is not None and bool(rose.throttled), allowed)
    tasks = [each[:2] for each in task_times.rises(before, after)] if after else ()
    return library.reading(host, times, tasks)


def risen(one: Counted, two: Counted) -> CounterReading:
    """By how much the counters of a group rose."""
    return CounterReading(*map(rise, one.reading, two.reading))


def span_of(one: Counted, two: Counted, seconds: Fraction) -> Span | str:
    """The counts from one reading to the next, or why that says nothing. These are so many
    seconds apart unless both have times of their own."""
    if one.at is not None and two.at is not None:
        seconds = two.at - one.at
    if seconds <= 0:
        return STILL
    has_fallen = any(before is not None and after is not None and after < before
                     for before, after in zip(one.reading, two.reading))
    return FELL if has_fallen else Span(risen(one, two), seconds, one.threads, two.threads)


def sum_of(spans: Sequence[Span]) -> Span:
    """The spans of all series of a leaf as one. Each is taken to last as long as the first."""
    if len(spans) == 1:
        return spans[0]
    seconds, sums = spans[0].seconds, []
    for key in CounterReading._fields:
        values = [(getattr(each.risen, key), each.seconds) for each in spans]
        known = [round(value * seconds / passed) for value, passed in values if value is not None]
        sums.append(sum(known) if known else None)
    return Span(CounterReading(*sums), seconds, {}, {})


def between(one: TreeReading, two: TreeReading, path: str) -> Span | str:
    """The counts of a group from one reading to the next, or why that says nothing."""
    before, after = one.counted.get(path, {}), two.counted.get(path, {})
    if before.keys() != after.keys() or not after:
        return CAME
    spans = [span_of(before[key], after[key], two.at - one.at) for key in before]
    reasons = [each for each in spans if isinstance(each, str)]
    return reasons[0] if reasons else sum_of([each for each in spans if isinstance(each, Span)])


class Tree:
    """A tree of cgroups that is read again and again, or with no clock a copy of one. With
    `has_threads` each look has what the tasks of this host did, and their ranks."""

    def __init__(self, folder: str, host: Host, clock: Clock | None = None,
                 depth: int = MAX_DEPTH, has_threads: bool = False) -> None:
        cgroup2.check_tree(folder)
        self.top, self.host, self.depth = os.path.realpath(folder), checked(host), depth
        self.clock, self.has_threads = clock, has_threads
        # The names of pods and containers by their folders below the top of the whole tree.
        self.pods: Mapping[str, PodNames] | None = None

    def now(self) -> Fraction | None:
        """The seconds of the clock; None without one."""
        return None if self.clock is None else Fraction(self.clock()).limit_denominator(
            MICROSECONDS)

    def look(self) -> TreeReading:
        """A look at all groups. That at a copy is of second 0."""
        cgroup2.check_folder(self.top)
        look = TreeReading(Fraction(0), Model(self.host, notes=[*cgroup2.top_notes(self.top)],
                                              weighed="cpu.weight"))
        top = Group(".", place=self.top)
        self.count(look, top, cgroup2.reading(self.top))
        self.add_below(look, top, 0)
        look.at = self.now() or look.at
        return look

    def count(self, look: TreeReading, group: Group, reading: CounterReading) -> None:
        """Takes the counters of a group. In copies its path alone tells whether it is the same."""
        if reading.usage is not None:
            key = None if self.clock is None else group.identity
            look.counted[group.path] = {key: Counted(reading, {}, self.now())}

    def add_below(self, look: TreeReading, group: Group, depth: int) -> bool:
        """Adds the groups below one. Returns whether there are any."""
        path, notes = group.path, look.model.notes
        raws = subfolders(group.place, path, notes)
        if raws and depth >= self.depth:
            notes.append(f"{path}: {len(raws)} groups below it are deeper than {depth}")
            return False
        if raws and all(cgroup2.file_text(each.path, cgroup2.MARK) is None for each in raws):
            if os.path.isdir(group.place):
                notes.append(f"{path}: its {len(raws)} groups have no {cgroup2.MARK} (the cpu"
                             " controller is not enabled for them): it stands as one group")
            return False
        return any([self.add(look, each, path, depth + 1) for each in raws])

    def add(self, look: TreeReading, entry: os.DirEntry[str], above: str, depth: int) -> bool:
        """Adds one group and those below it. Returns whether it was there."""
        raw, notes, pod = entry.name, look.model.notes, self.pod_at(look, entry.path)
        parts = [] if pod is NO_POD else [part for part in pod if part]
        name = names.path_name(pod[2] or ":".join(parts) or raw, look.model.groups, above)
        group = Group(names.joined(above, name), place=entry.path, pod=pod, title="/".join(parts))
        try:
            has_more = self.read(look, group, entry)
        except OSError:
            notes.append(f"{names.joined(above, shown(raw))}: gone while the tree was read")
            return False
        if name != raw and pod == NO_POD:
            notes.append(f"{group.path}: its name on the host is {raw!r}")
        look.model.add(group)
        if not has_more or not self.add_below(look, group, depth):
            self.add_tasks(look, group)
        elif ("threaded" in (cgroup2.file_text(group.place, "cgroup.type") or "")
              and cgroup2.file_text(group.place, "cgroup.threads")):
            notes.append(f"{group.path}: tasks of its own, as a threaded group may have them beside"
                         " the groups below it: left out")
        return True

    def read(self, look: TreeReading, group: Group, entry: os.DirEntry[str]) -> bool:
        """Reads a group. Returns whether others may be below it."""
        with safe_files.closing_file(os.open(entry.path, safe_files.FOLDER)) as handle:
            group.identity = safe_files.identity_of(handle)
            cgroup2.read_settings(group, handle, look.model.notes)
            self.measure(look, group, handle)
        return True

    def measure(self, look: TreeReading, group: Group, handle: int) -> None:
        """Reads what is counted of a group."""
        self.bind(look, group, handle)
        look.frozen += [group.path] if cgroup2.is_frozen(handle) else []
        self.count(look, group, cgroup2.reading(handle))

    def bind(self, look: TreeReading, group: Group, handle: int) -> None:
        """Reads how many CPUs a group keeps to, if it has some of its own."""
        cpus = cgroup2.cpus(handle)
        look.bound |= {group.path: cpus_in(cpus)} if cpus else {}

    def pod_at(self, look: TreeReading, folder: str) -> PodNames:
        """The names of the pod or container that has a folder."""
        if self.pods is None:
            return NO_POD
        is_part = self.top.startswith(f"{HOST_TREE}/")
        place = os.path.relpath(folder, HOST_TREE if is_part else self.top)
        pod, last = self.pods.get(place, NO_POD), os.path.basename(place)
        if pod == NO_POD and (names.HEX_ID.search(last) or names.POD_ID.search(last)):
            look.unnamed.add(place)
        return pod

    def add_tasks(self, look: TreeReading, leaf: Group) -> None:
        """Adds the number of the tasks of a leaf, and what they did."""
        count, text = cgroup2.task_count(leaf.place), None
        if count is not None:
            look.tasks[leaf.path] = count
        if self.has_threads and leaf.path in look.counted:
            text = cgroup2.file_text(leaf.place, "cgroup.threads") or ""
            threads = task_times.tasks(text[:task_times.MOST_TEXT], True)
            look.counted[leaf.path] = {key: each._replace(threads=threads) for key, each
                                       in look.counted[leaf.path].items()}


def subfolders(folder: str, path: str, notes: list[str]) -> list[os.DirEntry[str]]:
    """The folders in a folder, by name; none where it is gone."""
    try:
        with os.scandir(folder) as entries:
            return sorted(filter(is_folder, entries), key=lambda each: each.name)
    except OSError as error:
        notes.append(f"{path}: {strerror(error)}: what is below it is left out")
        return []


def is_folder(entry: os.DirEntry[str]) -> bool:
    """Whether an entry is a folder and no link."""
    try:
        return entry.is_dir(follow_symlinks=False)
    except OSError:
        return False


def copies_of(folders: Sequence[str], host: Host, interval: Fraction) -> Iterator[TreeReading]:
    """Readings of copies of a tree, each of which was made an interval after the one before."""
    last: TreeReading | None = None
    for place, folder in enumerate(folders):
        look = Tree(folder, host).look()
        look.at = place * interval
        spans = [between(last, look, path) for path in last.counted
                 if path in look.counted] if last else []
        if spans and all(each == FELL for each in spans):
            raise HostFault(f"{shown(folder)}: all its counters are below those of the copy before"
                            " it: name copies in the order in which they were made")
        last = look
        yield look


def readings_of(folders: Sequence[str], host: Host, times: Times, has_threads: bool = False,
             clock: Clock = time.monotonic, sleep: Sleep = time.sleep) -> Iterator[TreeReading]:
    """Reads a tree so often, or at each of its copies."""
    if len(folders) > 1:
        yield from copies_of(folders, host, times.interval)
        return
    tree = Tree(folders[0], host, clock, has_threads=has_threads)
    for _ in progress.each("readings", turns(times, clock, sleep), times.number or 0):
        yield tree.look()


@dataclass
class OverTime:
    """A tree over time: the first reading, the counters of its groups at this and later ones while
    they were there, and the mean seconds from one reading to the next."""

    first: TreeReading
    counters: dict[str, list[CounterReading]]
    seconds: Fraction
    number: int = 1

    def measured(self, path: str) -> Measured:
        """The facts of a group's demand."""
        return Measured(self.counters.get(path, []), tasks=self.first.tasks.get(path))

    @property
    def gone(self) -> list[str]:
        """The groups that were gone at a later reading."""
        return [path for path, each in self.counters.items() if len(each) < self.number]


def series_of(folders: Sequence[str], host: Host, times: Times) -> OverTime:
    """Reads a tree so often, or each of its copies."""
    each_reading = readings_of(folders, host, times)
    last = first = next(each_reading)
    found = OverTime(first, {path: [each.reading for each in counted.values()]
                           for path, counted in first.counted.items()}, times.interval)
    for last in each_reading:
        found.number += 1
        for path, readings in found.counters.items():
            if last.counted.get(path, {}).keys() == first.counted[path].keys():
                readings += [each.reading for each in last.counted[path].values()]
    if found.number > 1:
        found.seconds = max((last.at - first.at) / (found.number - 1), times.interval)
    return found


class Seen(NamedTuple):
    """The groups of a source in a tree: their counters, the seconds from one reading to the
    next, and each group as it is there, with those above it. A frozen one has 0 tasks."""

    known: dict[Place, Measured]
    seconds: Fraction
    there: dict[Place, Sequence[Group]]


def measured_at(folders: Sequence[str], times: Times, places: Mapping[Place, Sequence[str]],
                noun: str) -> Seen:
    """The groups in a tree, or its copies, that a source has no counters of. Each has the
    folders below the top at which it may be. It is measured at the first that is there."""
    series = series_of(folders, Host(MAX_CAPACITY), times)
    first = series.first
    top = os.path.realpath(folders[0])
    paths = {os.path.relpath(group.place, top): path
             for path, group in series.first.model.groups.items() if path in series.counters}
    known = {place: [paths[each] for each in wanted if each in paths]
             for place, wanted in places.items()}
    if places and not any(known.values()):
        raise HostFault(f"{shown(folders[0])}: no group of these {noun}s is below it, such as"
                        f" {shown(next(iter(places.values()), ('',))[0])}")
    at, groups = {place: each[0] for place, each in known.items() if each}, first.model.groups
    bind(first.model, {path: count for path, count in first.bound.items() if path in groups})
    for path in at.values():
        if any(f"{path}/".startswith(f"{each}/") for each in first.frozen):
            groups[path].tasks = 0
    return Seen({place: series.measured(path) for place, path in at.items()}, series.seconds,
                {place: [groups[each] for each in names.upward(path)]
                 for place, path in at.items()})
