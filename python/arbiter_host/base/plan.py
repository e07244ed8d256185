"""An accepted plan, and why each group gets its amount. All numbers are slices of one period.

A plan is asked for with its certificate, and the certificate is accepted by the proved check
against the rows that were asked. A plan that the check refuses is a fault and never shown. The C
library gives the reasons, which are proved; this module words them.
"""
from __future__ import annotations

import functools
from array import array
from collections.abc import Callable, Iterator, Sequence
from contextlib import contextmanager
from dataclasses import dataclass, field
from fractions import Fraction
from typing import NamedTuple

import arbiter
from arbiter import (Certificate, Columns, Figures, Host, Kind, Library, QuotaColumns, Refused, Row,
                     Samples, Unavailable)
from arbiter.c import NO_LIMIT
from arbiter.found import TO_DO
from arbiter_host.base import progress, units
from arbiter_host.base.faults import HostFault, NoLibrary
from arbiter_host.base.model import Group, Model, checked, planned
from arbiter_host.base.names import last_name, short, shown


class Answer(NamedTuple):
    """An accepted plan: slices for each row, its certificate, and the rows whose limits hold the
    total down."""

    columns: Columns
    amounts: list[int]
    certificate: Certificate
    limiting: list[int]
    figures: Figures


@contextmanager
def asking(what: str) -> Iterator[None]:
    """Makes a fault of a refusal, and of a number that a call cannot hold."""
    try:
        yield
    except OverflowError as error:
        raise HostFault(f"{what}: {error}") from error
    except Refused as error:
        row = "" if error.row is None else f" (row {error.row})"
        raise HostFault(f"{what}: error {error.number} {error.name}{row}") from error


class Engine:
    """The planner and its check: the C library in this process, or a checked build of its calls."""

    def __init__(self, library: Library) -> None:
        self.library = library

    def plan(self, host: Host, rows: Sequence[Row] | Columns) -> Answer:
        """A plan that the proved check accepted for these rows."""
        host = planned(self.library, host)
        with asking("no plan"):
            columns = Columns.of(rows)
            amounts, certificate = self.library.certify(host, columns)
        with asking("the check refused the plan"):
            self.library.check(host, columns, amounts, certificate)
        with asking("what limits the total"):
            limiting, _ = self.library.limiting(host, columns)
        with asking("wants"):
            figures = self.library.figures(host, columns)
        return Answer(columns, amounts, certificate, limiting, figures)

    def periods(self, host: Host, groups: QuotaColumns, demands: array[int], times: int,
                carries: array[int]) -> Samples:
        """The sums of periods; `carries` is written with what the last one leaves."""
        planned(self.library, host)
        with asking("no plan"):
            return self.library.periods(host, groups, demands, times, carries)


def engine_of(path: str | None = None, changes: bool = False) -> Engine:
    """The engine over the library of a path, else over the first that is found. One that changes a
    host is over a library, since the checked build proves nothing."""
    try:
        library = Library(path)
    except Unavailable as error:
        raise NoLibrary(str(error)) from error
    if changes and not library.is_proved:
        raise NoLibrary(f"--yes takes the C library, and no checked build: {TO_DO}")
    return Engine(library)


@dataclass(slots=True)
class PlannedGroup:
    """One group of a plan. Row 0 is the root, whose limit is the capacity."""

    row: int
    path: str
    parent: int | None
    weight: int
    limit: int | None
    demand: int
    gets: int
    group: Group | None
    want: int
    # Whether its own limit is below its want. The limit of the root is the capacity.
    is_tight: bool
    # Sum of the weights of its children that can use a slice, and their number.
    active_weight: int
    active: int
    children: list[PlannedGroup] = field(default_factory=list)
    depth: int = 0
    # Whether it has no slice because a tie gave it to a sibling of its weight, or of a group above.
    is_passed_over: bool = False

    @property
    def title(self) -> str:
        """Its name for people; empty for none."""
        return self.group.title if self.group else ""

    @property
    def is_starved(self) -> bool:
        """Whether it wants something and gets nothing, as do its equals."""
        return self.want > 0 and self.gets == 0 and not self.is_passed_over

    @property
    def is_throttled(self) -> bool:
        """Whether its own limit is below its want, so that `period` counts it as throttled."""
        return self.is_tight and self.parent is not None

    @property
    def is_throttled_elsewhere(self) -> bool:
        """Whether it is counted as throttled and gets less than its limit."""
        return self.is_throttled and self.limit is not None and self.gets < self.limit

    @property
    def is_cut_by_tasks(self) -> bool:
        """Whether it asks for more than its tasks can use."""
        group = self.group
        return group is not None and group.tasks is not None and group.usable < group.demand


class Explanation(NamedTuple):
    """Why a group gets what it gets: a short name, words, and the group whose limit is the cause.

    `weight` of `active_weight` is its part among the siblings that can use a slice; both are 0
    where weights do not decide.
    """

    name: str
    words: str
    cause: str | None = None
    weight: int = 0
    active_weight: int = 0


@dataclass(eq=False)
class Plan:
    """The plan of the next period of a model, accepted by the proved check."""

    model: Model
    groups: list[PlannedGroup]
    answer: Answer = field(repr=False)
    engine: Engine = field(repr=False)

    @property
    def by(self) -> str:
        """The maker of the plan, for people."""
        library = self.engine.library
        return f"{'library' if library.is_proved else 'checked build'} {library.path}"

    @property
    def root(self) -> PlannedGroup:
        return self.groups[0]

    @property
    def limiting(self) -> list[PlannedGroup]:
        return [self.groups[row] for row in self.answer.limiting]

    @property
    def columns(self) -> Columns:
        return self.answer.columns

    @property
    def weights(self) -> list[int]:
        return [group.weight for group in self.groups]

    @property
    def capacity(self) -> int:
        """Slices of one period."""
        return self.model.host.capacity

    def thousandths(self, slices: int) -> Fraction:
        """Thousandths of a CPU that slices of one period are."""
        host = self.model.host
        return units.thousandths_of_slices(slices, host.period_us, host.slice_us)

    def millicpu(self, slices: int) -> float:
        """Thousandths of a CPU that slices of one period are, rounded to the nearest float."""
        host = self.model.host
        return slices * host.slice_us * 1000 / host.period_us

    def by_path(self) -> dict[str, PlannedGroup]:
        return {group.path: group for group in self.groups}

    def above(self, group: PlannedGroup) -> Iterator[PlannedGroup]:
        """The groups above a group, without the root, the nearest first."""
        while group.parent:
            group = self.groups[group.parent]
            yield group

    @functools.cached_property
    def planned_host(self) -> Host:
        """The host of the library's calls."""
        return planned(self.engine.library, self.model.host)

    @functools.cached_property
    def reasons(self) -> list[arbiter.Reason]:
        with asking("arbiter_reasons"):
            return self.engine.library.reasons(self.planned_host, self.columns)

    @functools.cached_property
    def explanations(self) -> list[Explanation]:
        """The reason of each group in words."""
        return [explained(self, group) for group in self.groups]

    @functools.cached_property
    def askers(self) -> Columns:
        """The columns of guarantees: pause containers ask for nothing whatever the others do, so
        that their limit is 0."""
        own = self.columns
        limits = [0 if each.group is not None and each.group.is_pause else limit
                  for each, limit in zip(self.groups, own.limits)]
        return Columns(own.parents, own.weights, array("Q", limits), own.demands)

    def guaranteed(self, row: int) -> int:
        """The guarantee of a group, whatever groups that are not under it ask for, in slices."""
        with asking("guarantee"):
            return self.engine.library.guarantee(self.planned_host, self.askers, row)

    def reason(self, group: PlannedGroup) -> Explanation:
        return self.explanations[group.row]


def explained(plan_: Plan, group: PlannedGroup) -> Explanation:
    kind, above = plan_.reasons[group.row]
    if kind is Kind.NOTHING_ASKED:
        return Explanation("nothing asked", "nothing asked")
    if kind is Kind.ALL_WANTED:
        if not group.is_cut_by_tasks or group.group is None:
            return Explanation("all", "all that it wants")
        tasks = group.group.tasks
        which = "1 task" if tasks == 1 else f"{tasks} tasks"
        return Explanation("tasks", f"all that its {which} can use at once", group.path)
    if kind is Kind.OWN_LIMIT:
        own, host = group.group, plan_.model.host
        words = "its own limit" if group.limit else "its own limit, less than a slice"
        if own is not None and own.keeps_to is not None and group.limit == (
                own.keeps_to * (host.period_us // host.slice_us)):
            words = f"it keeps to {own.keeps_to} CPU{'s' if own.keeps_to > 1 else ''}"
        return Explanation("own limit", words, group.path)
    if group.parent is None:
        return Explanation("the host is full", "the host is full", group.path)
    return by_weight(plan_, group, plan_.groups[above or 0])


def by_weight(plan_: Plan, group: PlannedGroup, cut: PlannedGroup) -> Explanation:
    """The reason of a group that gets the part of its weight below a limit."""
    above = plan_.groups[group.parent or 0]
    name = words = "the host is full"
    if cut.parent is not None:
        name, words = "limit above", f"limit of {short(shown(last_name(cut.path)))} above"
    if above.active == 1:
        return Explanation(name, f"{words}: the only one that asks here", cut.path)
    words = f"{words}: weight {group.weight} of {above.active_weight}"
    return Explanation(name, words, cut.path, group.weight, above.active_weight)


def walk(tops: Sequence[PlannedGroup], below: Callable[[PlannedGroup], Sequence[PlannedGroup]] =
         lambda group: group.children) -> Iterator[PlannedGroup]:
    """Groups from some on down, each right before those that `below` gives of it."""
    waiting = list(reversed(tops))
    while waiting:
        group = waiting.pop()
        yield group
        waiting += reversed(below(group))


def planned_of(model: Model, answer: Answer) -> list[PlannedGroup]:
    entries: list[tuple[str, Group | None]] = [(".", None), *model.groups.items()]
    rows, figures = answer.columns, answer.figures
    groups = [PlannedGroup(place, path, parent if place else None, weight,
                      None if limit == NO_LIMIT else limit, demand, gets, group, want, bool(tight),
                      active_weight, active)
              for place, ((path, group), parent, weight, limit, demand, gets, want, tight,
                          active_weight, active)
              in enumerate(zip(entries, rows.parents, rows.weights, rows.limits, rows.demands,
                               answer.amounts, figures.wants, figures.tights,
                               figures.active_weights, figures.actives))]
    groups[0].limit = model.host.capacity
    for group in groups[1:]:
        above = groups[group.parent or 0]
        above.children.append(group)
        group.depth = above.depth + 1
    pass_over(groups)
    return groups


def pass_over(groups: Sequence[PlannedGroup]) -> None:
    """Marks the groups without a slice of whose siblings one of the same weight has one, and all
    below them. A tie of less than a slice each is no starving: a host gives equals the same."""
    served = {(group.parent, group.weight) for group in groups[1:] if group.gets}
    for group in groups[1:]:
        group.is_passed_over = not group.gets and group.limit != 0 and (
            (group.parent, group.weight) in served or groups[group.parent or 0].is_passed_over)


def plan_of(engine: Engine, model: Model, rows: Sequence[Row] | Columns) -> Plan:
    """The plan of the rows of a model, accepted by the proved check."""
    answer = engine.plan(checked(model.host), rows)
    return Plan(model, planned_of(model, answer), answer, engine)


def plan(engine: Engine, model: Model) -> Plan:
    """The plan of the next period of a model, accepted by the proved check."""
    return plan_of(engine, model, model.rows(engine.library))


def guarantees(before: Plan, chosen: Sequence[PlannedGroup]) -> list[int]:
    """The guarantee of each of some groups, whatever those that are not under it ask for, in
    slices."""
    return [before.guaranteed(group.row)
            for group in progress.each("groups", chosen, len(chosen))]


def payers(before: Plan, after: Plan) -> list[tuple[str, int]]:
    """The groups without children that get less than before, and how many slices less, the
    greatest loss first.

    Both plans have the same groups in the same rows. A pod whose class changes has another path.
    """
    losses = [(each.path, each.gets - then.gets) for each, then in zip(before.groups, after.groups)
              if not each.children and each.gets > then.gets]
    return sorted(losses, key=lambda each: -each[1])
