"""Goals of groups of a plan: what each is to get at least, and settings that meet all of them."""
from __future__ import annotations

import functools
from collections import Counter
from collections.abc import Callable, Collection, Sequence
from dataclasses import dataclass
from fractions import Fraction
from typing import NamedTuple

from arbiter import Columns, Row
from arbiter_host.base import demands, search, units
from arbiter_host.base.faults import HostFault, UsageFault, naming
from arbiter_host.base.model import Model
from arbiter_host.base.names import shown
from arbiter_host.base.owned import Setting
from arbiter_host.base.plan import Plan, PlannedGroup, asking, plan, walk

NO_CHANGE = "all goals are met as it stands: nothing changes"
# At most so many changes are left out one by one.
MOST_LEFT = 64
# What is said of changes of which each is needed.
NEEDED = "; none of the changes can be left out"


class Goal(NamedTuple):
    """The least that a group is to get, in slices of one period."""

    group: PlannedGroup
    amount: int
    # Thousandths of a CPU, as it was asked for.
    asked: Fraction


class NewSetting(NamedTuple):
    """A setting of a group before and after, as it is written."""

    path: str
    key: str
    now: str
    then: str


class Clash(NamedTuple):
    """A group, and the goals of it and below it, which no weights that may change meet together."""

    group: PlannedGroup
    goals: tuple[Goal, ...]
    # Whether that is so of all weights of all groups.
    is_of_all: bool = False


@dataclass(frozen=True)
class Way:
    """Settings that meet all goals, with their accepted plan."""

    changes: tuple[NewSetting, ...]
    plan: Plan
    # What each goal's group gets then: by the plan, or guaranteed.
    amounts: tuple[int, ...]
    # What is known of these settings, for people.
    told: str

    @property
    def words(self) -> list[str]:
        """The words of `--set` that make the changes."""
        return [f"{each.path}.{each.key}={each.then}" for each in self.changes]


def with_weights(model: Model, weights: Sequence[int]) -> Model:
    """The model with other weights, one for each row."""
    after = model.copy()
    for group, weight in zip(after.groups.values(), weights[1:], strict=True):
        group.weight = weight
    return after


@dataclass(frozen=True)
class Goals:
    """Goals of groups of a plan, and the rows whose settings stay."""

    before: Plan
    goals: tuple[Goal, ...]
    is_guaranteed: bool
    kept: frozenset[int] = frozenset()

    @property
    def rows(self) -> frozenset[int]:
        return frozenset(goal.group.row for goal in self.goals)

    @property
    def columns(self) -> Columns:
        """The columns of the plan, or those of guarantees."""
        return self.before.askers if self.is_guaranteed else self.before.columns

    @property
    def paths(self) -> frozenset[int]:
        """The rows of goals' groups and of those above them."""
        return frozenset(each.row for goal in self.goals
                         for each in (goal.group, *self.before.above(goal.group)))

    @property
    def others(self) -> list[PlannedGroup]:
        """The groups without children that have no goal, nor one above them."""
        inside = {group.row for group in walk([goal.group for goal in self.goals])}
        return [group for group in self.before.groups[1:]
                if not group.children and group.row not in inside]

    @property
    def column(self) -> list[int]:
        """The slices that each row is to get at least, 0 for none."""
        amounts = {goal.group.row: goal.amount for goal in self.goals}
        return [amounts.get(row, 0) for row in range(len(self.before.groups))]

    @property
    def has_requests(self) -> bool:
        """Whether weights follow from requests of containers."""
        source = self.before.model.owned
        return source is not None and "request" in source.keys

    def may(self, beside: Collection[int] = ()) -> list[bool]:
        """Whether the weight of each row may change: of goals' groups, of those above them unless
        weights follow from requests, and of some other groups."""
        may = (self.rows if self.has_requests else self.paths).union(beside) - self.kept
        return [row in may for row in range(len(self.before.groups))]

    @property
    def beside(self) -> list[frozenset[int]]:
        """The other groups whose weights may be lowered: those beside goals' groups, and then also
        those beside groups above. None where weights follow from requests."""
        if self.has_requests:
            return []
        above = self.paths - self.rows
        parents = [frozenset(group.parent for group in self.before.groups if group.row in rows)
                   for rows in (self.rows, self.rows | above)]
        found = [frozenset(group.row for group in self.before.groups[1:] if group.parent in some)
                 - self.paths - self.kept for some in parents]
        return [rows for rows in dict.fromkeys(found) if rows]

    @functools.cached_property
    def told(self) -> tuple[list[int], list[int]]:
        """The goals with halves of others, and what goals come to at each row."""
        with asking("goals"):
            return self.before.engine.library.goals(
                self.before.planned_host, self.columns, self.column, self.is_guaranteed)

    @property
    def with_halves(self) -> list[int]:
        """The goals, where each of the others is to keep half of what it has."""
        return self.told[0]

    @property
    def come_to(self) -> list[int]:
        """The slices that the goals of each row and below it come to."""
        return self.told[1]

    @functools.cached_property
    def beyond(self) -> frozenset[int]:
        """The rows of goals above all that their groups ask for. No setting meets these."""
        asked = list(self.columns.demands)
        for group in reversed(self.before.groups[1:]):
            asked[group.parent or 0] += asked[group.row]
        return frozenset(goal.group.row for goal in self.goals
                         if asked[goal.group.row] < goal.amount)

    @functools.cached_property
    def made(self) -> dict[frozenset[Setting], Plan]:
        """Plans under settings of the source."""
        return {}

    def asking(self, rows: Sequence[Row]) -> Sequence[Row]:
        """Rows of groups under which goals are to be met. Of guarantees pause containers ask for
        nothing whatever the others do, so that their limit is 0."""
        return [each._replace(limit=0) if self.is_guaranteed and group.group is not None
                and group.group.is_pause else each
                for each, group in zip(rows, self.before.groups)]

    def amount(self, after: Plan, row: int) -> int:
        """The measure of a group's goal in a plan."""
        return after.guaranteed(row) if self.is_guaranteed else after.groups[row].gets

    def amounts(self, after: Plan) -> tuple[int, ...]:
        return tuple(self.amount(after, goal.group.row) for goal in self.goals)

    def short(self, after: Plan) -> int | None:
        """The place of the first goal that a plan does not meet."""
        return next((place for place, goal in enumerate(self.goals)
                     if self.amount(after, goal.group.row) < goal.amount), None)

    def plan_of(self, model: Model) -> Plan:
        return plan(self.before.engine, model)

    def plan(self, weights: Sequence[int]) -> Plan:
        return self.plan_of(with_weights(self.before.model, weights))

    @staticmethod
    def needed(rows: Sequence[int], meets: Callable[[Sequence[int]], bool], what: str
               ) -> tuple[Sequence[int], str]:
        """The rows of which no change can be left out, and what is known of them then. Of many
        none is tried."""
        return (rows, "") if len(rows) > MOST_LEFT else (search.needed(rows, meets, what), NEEDED)

    def way(self, after: Plan, changes: Sequence[NewSetting], told: str) -> Way:
        """Settings whose accepted plan has to meet all goals."""
        place = self.short(after)
        if place is not None:
            raise HostFault(f"{shown(self.goals[place].group.path)}: the accepted plan does not"
                            " meet its goal")
        return Way(tuple(changes), after, self.amounts(after), told if changes else NO_CHANGE)


def goal_of(word: str) -> tuple[str, Fraction]:
    """The pattern of groups and the thousandths of a CPU of a word `GROUP=AMOUNT`."""
    pattern, equals, amount = word.rpartition("=")
    if not (equals and pattern and amount):
        raise UsageFault(f"--goal {shown(word)}: not GROUP=AMOUNT, such as web=1.5cpu")
    if pattern == ".":
        raise UsageFault(f"--goal {shown(word)}: the host has no weight: name a group")
    with naming(f"--goal {shown(word)}", UsageFault):
        thousandths = units.parse_cpu(amount)
    if thousandths == 0:
        raise UsageFault(f"--goal {shown(word)}: an amount of 0 needs nothing")
    return pattern, thousandths


def goals_of(before: Plan, words: Sequence[str]) -> tuple[Goal, ...]:
    """The goals that words name, one for each group that matches, in the order of the words."""
    slices, groups = before.model.conversions(before.engine.library), before.by_path()
    goals = [Goal(groups[each.path], slices.demand(thousandths), thousandths)
             for pattern, thousandths in map(goal_of, words)
             for each in demands.matching(before.model, pattern)
             if pattern in (each.path, each.title) or not each.is_pause]
    for path, many in Counter(goal.group.path for goal in goals).items():
        if many > 1:
            raise UsageFault(f"--goal: {shown(path)} has two goals: name it once")
    return tuple(goals)
