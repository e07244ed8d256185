"""A host and its groups, in microseconds and thousandths of a CPU."""
from __future__ import annotations

import re
from collections.abc import Mapping
from contextlib import suppress
from dataclasses import dataclass, field, replace
from fractions import Fraction
from typing import TYPE_CHECKING

from arbiter import Host, Library, Refused, Row
from arbiter_host.base import names, units
from arbiter_host.base.faults import HostFault
from arbiter_host.base.units import Slices

if TYPE_CHECKING:
    from arbiter_host.base.owned import Owned

MAX_PROCESSORS = 64
# Greatest capacity, in slices of one period, that the planner takes.
MAX_CAPACITY = 64000
MAX_GROUPS = 16384
MAX_DEPTH = 64
# Namespace, pod and container of a group; empty where it is of none.
PodNames = tuple[str, str, str]
NO_POD = ("", "", "")
# Microseconds of the slice, and of the periods that are tried in turn, where none is asked for: a
# slice is a thousandth of a CPU on up to 64 CPUs.
SLICE = 1000
PERIODS = (units.MAX_PERIOD, 500000, 200000, units.DEFAULT_PERIOD)


def checked(host: Host) -> Host:
    """The host itself; a fault names the range of a number that is out of it."""
    if not units.MIN_PERIOD <= host.period_us <= units.MAX_PERIOD:
        raise HostFault(f"period {host.period_us}: not {units.MIN_PERIOD} to {units.MAX_PERIOD}"
                        " microseconds", 2)
    if not 1000 <= host.slice_us <= host.period_us or host.period_us % host.slice_us:
        raise HostFault(f"slice {host.slice_us}: not 1000 microseconds to the period"
                        f" {host.period_us}, which it divides", 2)
    if not 1 <= host.processors <= MAX_CAPACITY:
        raise HostFault(f"CPUs {host.processors}: not 1 to {MAX_CAPACITY}", 2)
    return host


def host_of(library: Library, cpus: int, period: int | None = None, slice_: int | None = None,
            sample: int = 0) -> Host:
    """The host of so many CPUs that is planned, with the period and the slice that are asked for.

    The default slice is SLICE. The default period is the longest of PERIODS whose slices the
    planner takes, and which divides a sample of so many microseconds (0: any does).
    """
    slice_us = SLICE if slice_ is None else slice_
    for each in PERIODS if period is None else ():
        with suppress(HostFault):
            if sample % each == 0:
                host = checked(Host(cpus, each, slice_us))
                planned(library, host)
                return host
    host = checked(Host(cpus, units.DEFAULT_PERIOD if period is None else period, slice_us))
    planned(library, host)
    return host


def with_cpus(host: Host, cpus: int) -> Host:
    """The host with so many CPUs. Its period becomes a shorter one of PERIODS where it has more
    slices than the planner takes."""
    shorter = [host.period_us, *(each for each in PERIODS if each < host.period_us)]
    return next((after for after in (replace(host, processors=cpus, period_us=period)
                                     for period in shorter if period % host.slice_us == 0)
                 if after.capacity <= MAX_CAPACITY), replace(host, processors=cpus))


def planned(library: Library, host: Host) -> Host:
    """The host that the library plans in place of one of any number of CPUs, with its capacity."""
    try:
        return library.planned_host(host)
    except Refused as refused:
        raise HostFault(f"{host.processors} CPUs have {host.capacity} slices in a period, and the"
                        f" planner takes {MAX_CAPACITY}, as 1 to {MAX_PROCESSORS} CPUs of 1 to 1000"
                        " each: another slice has other numbers", 2) from refused


def up_to_64_cpus(host: Host) -> Host:
    """A host for calls whose answer depends on its period and slice, or on 64 CPUs at most."""
    return replace(host, processors=min(host.processors, MAX_PROCESSORS))


@dataclass(slots=True)
class Group:
    """One group below the root. Its quota, period and burst are microseconds.

    `demand` is in thousandths of a CPU and 0 for a group with children. `tasks` bounds it: that
    many CPUs at most are used at once. `saved` is what the group has left of earlier limits, in
    slices. `title` is a name for people. `place` is the group's folder on its host, absolute or
    below the top of the tree. It is `names.NOWHERE` where that is not known, and empty where the
    path says it. `identity` is the device and inode of the folder that it was read from. `request`
    is in thousandths of a CPU, and None where the source has none. `pod` has namespace, pod and
    container as Kubernetes names them. `keeps_to` is the number of CPUs that it keeps to, and None
    where it may run on all. `is_scaled` says that an autoscaler sets how many pods are like it.
    """

    path: str
    weight: int = units.DEFAULT_WEIGHT
    quota: int | None = None
    period: int = units.DEFAULT_PERIOD
    burst: int = 0
    demand: Fraction = Fraction(0)
    tasks: int | None = None
    saved: int = 0
    title: str = ""
    place: str = ""
    identity: tuple[int, int] | None = None
    request: Fraction | None = None
    pod: PodNames = NO_POD
    keeps_to: int | None = None
    is_scaled: bool = False

    @property
    def is_pause(self) -> bool:
        """Whether it is the pause container of a pod."""
        return self.title.endswith("/pause")

    @property
    def usable(self) -> Fraction:
        """The demand that its tasks can use, in thousandths of a CPU."""
        tasks, demand = self.tasks, self.demand
        return demand if tasks is None else min(demand, Fraction(1000 * tasks))

    @property
    def max_words(self) -> str:
        """Quota and period as `cpu.max` has them."""
        return f"{'max' if self.quota is None else self.quota} {self.period}"

    @property
    def bandwidth(self) -> tuple[int | None, int, int, int]:
        """The words of `Slices.limit`. What is saved up counts only with a burst."""
        return self.quota, self.period, self.burst, self.saved if self.burst else 0


@dataclass
class Model:
    """A host and its groups by path, each after its parent. The root has no entry."""

    host: Host = field(default_factory=Host)
    groups: dict[str, Group] = field(default_factory=dict)
    # Parts that the source could not say or the model cannot hold, in words.
    notes: list[str] = field(default_factory=list)
    # Lines of a script that were refused, in words.
    refused: list[str] = field(default_factory=list)
    # Whether the source itself named the host.
    names_host: bool = False
    # Conversions that the source knows, which are those of its host.
    slices: Slices | None = None
    # The source as it was read, where people own settings of it.
    owned: Owned | None = None
    # What its demands are and where its weights are from, in words.
    asked: str = ""
    weighed: str = ""
    # The groups whose tasks are stopped: that they use nothing tells nothing.
    stopped: set[str] = field(default_factory=set)

    def add(self, group: Group) -> Group:
        """Adds a group whose parent is there."""
        parent = names.parent_path(group.path)
        if parent != "." and parent not in self.groups:
            raise HostFault(f"{names.shown(group.path)}: no group {names.shown(parent)} above it")
        if group.path in self.groups:
            raise HostFault(f"{names.shown(group.path)}: two groups of this path")
        if group.path.count("/") >= MAX_DEPTH:
            raise HostFault(f"{names.shown(group.path)}: more than {MAX_DEPTH} levels")
        check_count(len(self.groups) + 1, "the groups")
        self.groups[group.path] = group
        return group

    def make(self, path: str) -> Group:
        """The group of a path, which is made where it is not there, with each group above it."""
        if path not in self.groups:
            above = names.parent_path(path)
            if above != ".":
                self.make(above)
            self.add(Group(path))
        return self.groups[path]

    def children(self) -> dict[str, list[str]]:
        """The paths of the children of each group and of the root, in order of creation."""
        below: dict[str, list[str]] = {".": []}
        for path in self.groups:
            below[path] = []
            below[names.parent_path(path)].append(path)
        return below

    def conversions(self, library: Library) -> Slices:
        """Conversions for the host, those of the source if its host is the same."""
        if self.slices is None or not self.slices.are_of(self.host):
            self.slices = Slices(library, self.host)
        return self.slices

    def rows(self, library: Library) -> list[Row]:
        """The rows that the planner takes, the root first."""
        slices = self.conversions(library)
        place, rows = {"": 0}, [Row(None, units.DEFAULT_WEIGHT, None, 0)]
        for path, group in self.groups.items():
            place[path] = len(rows)
            demand = slices.demand(group.usable) if group.demand else 0
            limit = slices.limit(*group.bandwidth)
            # (a limit is rounded down and a demand up: that alone makes no group short)
            if limit and demand > limit and group.usable * group.period <= 1000 * (
                    group.quota or 0):
                demand = limit
            if group.keeps_to is not None:
                cpus = group.keeps_to * (self.host.period_us // self.host.slice_us)
                limit = cpus if limit is None else min(limit, cpus)
            rows.append(Row(place[path.rpartition("/")[0]], group.weight, limit, demand))
        return rows

    def with_host(self, host: Host) -> Model:
        """These groups on another host. Saved-up quota is kept in time, rounded down."""
        groups = {path: replace(group, saved=group.saved * self.host.slice_us // host.slice_us)
                  for path, group in self.groups.items()}
        return replace(self, host=host, groups=groups)

    def copy(self) -> Model:
        """A copy of the model, whose groups can be changed."""
        groups = {path: replace(group) for path, group in self.groups.items()}
        return replace(self, groups=groups, notes=list(self.notes), refused=list(self.refused),
                       stopped=set(self.stopped))


def bind(model: Model, cpus: Mapping[str, int | None]) -> None:
    """Lets groups that keep to so many CPUs have at most these, and tells it. None stands for a
    number that is not known."""
    for path, count in cpus.items():
        if count is not None and count < model.host.processors:
            model.groups[path].keeps_to = count
    if cpus:
        model.notes.append(f"bound to CPUs: {names.listed(list(cpus))}: each has as many at most;"
                           " which they are, and who else is on them, the plan does not know")


def bind_to(model: Model, lists: Mapping[str, str]) -> None:
    """Lets groups have at most the CPUs of their lists, and tells each list with a number that the
    host's CPUs do not have where they are counted from 0."""
    cpus = {path: cpus_of(text) for path, text in lists.items()}
    bind(model, {path: len(each) or None for path, each in cpus.items()})
    most = model.host.processors
    beyond = [path for path, each in cpus.items() if max(each, default=0) >= most]
    if beyond:
        model.notes.append(f"bound to CPUs from number {most} on: {names.listed(beyond)}: of a host"
                           f" of {most} CPUs; each is counted")


def cpus_of(text: str) -> set[int]:
    """The CPUs of a list such as `0-3,8`; none where it is no list."""
    cpus = set[int]()
    for part in text.strip().split(","):
        match = re.fullmatch(r"\s*([0-9]{1,5})(?:-([0-9]{1,5}))?\s*", part)
        if not match:
            return set()
        cpus.update(range(int(match[1]), int(match[2] or match[1]) + 1))
    return cpus


def cpus_in(text: str) -> int | None:
    """The number of CPUs of a list; None where it is no list."""
    return len(cpus_of(text)) or None


class TooMany(HostFault):
    """More groups than the planner takes."""


def check_count(many: int, what: str) -> None:
    """A fault where so many groups below the root are more than the planner takes."""
    if many >= MAX_GROUPS:
        raise TooMany(f"{what}: more than {MAX_GROUPS} groups with the root")


def check_settings(group: Group) -> None:
    """A fault where a setting is out of the kernel's range."""
    for what, value, least, most in (
            ("weight", group.weight, units.MIN_WEIGHT, units.MAX_WEIGHT),
            ("period", group.period, units.MIN_PERIOD, units.MAX_PERIOD),
            ("burst", group.burst, 0, units.MAX_QUOTA),
            ("quota", group.quota, units.MIN_QUOTA, units.MAX_QUOTA),
            ("tasks", group.tasks, 0, 10**9)):
        if value is not None and not least <= value <= most:
            raise HostFault(f"{what} {value}: not {least} to {most}")
    if group.quota is not None and group.burst > group.quota:
        raise HostFault(f"burst {group.burst}: above the quota {group.quota}")
