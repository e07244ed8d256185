"""Settings that people own, such as requests, with which goals are met.

They are raised together, each to the least value beside the others, by a call of the library, whose
contract is exact. Where it has no such values, they are raised one after another: a limit that is
in the way is raised with what weighs its group. Where that is not enough, requests of others are
lowered, unless demands are requests.
"""
from __future__ import annotations

from collections.abc import Mapping, Sequence
from dataclasses import dataclass, replace
from typing import NamedTuple

from arbiter import OwnerGoal
from arbiter_host.base import owned, search, units
from arbiter_host.base.model import Model
from arbiter_host.base.names import few, last_name, shown
from arbiter_host.base.owned import Owned, Range, Setting
from arbiter_host.base.plan import Plan, asking
from arbiter_host.tune.goals import MOST_LEFT, Clash, Goal, Goals, NewSetting, Way

# At most so many settings are raised one by one.
MOST_RAISES = 200
# The last plans that are kept.
MOST_PLANS = 8
RAISED = "one after another, each the least beside the others; not proved to be the least"
LEAST = "proved: the least with which the goal is met"
BESIDE = "proved: each is the least for its goal beside the others"
LIFTED = "; a limit that is in the way is raised too"
LOWERED = ("; requests of others are lowered to one level, the greatest that was found beside these"
           " raises; not proved to be the greatest")
FOLLOW = "; the plan has the weights of {} too, which follow from sums of requests"
NOR = "; nor does one where others request 1m"


class Asked(NamedTuple):
    """A goal, the row of the setting that it can be met by, and one part of its values."""

    goal: Goal
    row: int
    part: tuple[int, int]


@dataclass(frozen=True)
class Raised:
    """Settings of a source that weigh some rows, and limits of these; and the plan with them."""

    goals: Goals
    source: Owned
    settings: dict[int, tuple[Setting, ...]]

    @property
    def every(self) -> list[Setting]:
        return [each for some in self.settings.values() for each in some]

    @property
    def model(self) -> Model:
        return owned.remade(self.goals.before.model, self.source, self.every)

    def plan(self) -> Plan:
        """Their accepted plan. The last ones are kept."""
        made, key = self.goals.made, frozenset(self.every)
        if key not in made:
            if len(made) == MOST_PLANS:
                made.clear()
            made[key] = self.goals.plan_of(self.model)
        return made[key]

    def only(self, rows: Sequence[int]) -> Raised:
        return replace(self, settings={row: self.settings[row] for row in rows})

    @property
    def changed(self) -> Owned:
        return self.source.changed(self.every) if self.every else self.source

    @property
    def is_met(self) -> bool:
        """Whether all goals are met, and the node has what is requested, or no less is left of it
        than before."""
        (asked, has), was = ((each.totals() or (0, None)) for each in (self.changed, self.source))
        return (has is None or asked <= max(has, was[0])) and self.goals.short(self.plan()) is None

    def lowered(self, rows: Sequence[int], level: int) -> Raised:
        """These, where groups of some rows request at most so many thousandths."""
        paths = {row: self.goals.before.groups[row].path for row in rows}
        least = {row: (Setting(path, self.source.keys[0], self.source.written(level, None)[0]),)
                 for row, path in paths.items() if (self.source.now(path).request or 0) > level}
        return replace(self, settings={**self.settings, **least})

    def with_value(self, row: int, of: Range, value: int) -> Raised:
        setting = Setting(self.goals.before.groups[row].path, of.key, of.written(value))
        others = [each for each in self.settings.get(row, ()) if each.key != of.key]
        return replace(self, settings={**self.settings, row: (*others, setting)})

    def ranges(self, row: int) -> list[Range]:
        """The values of the settings of a row, beside the others."""
        changed = self.changed
        return changed.ranges(list(changed.plain.groups)[row - 1])

    def settled(self, asked: Sequence[Asked]) -> Sequence[int] | Asked | None:
        """The least numbers of parts with which goals are met, each beside the others, by one call
        of the library; the first that no number meets beside the others; None where neither is
        told. These have the first number of each part, or a lesser one."""
        model, before = self.model, self.goals.before
        assert model.owned is not None, "the model is that of a source"
        paths = [".", *model.groups]
        found = model.owned.followers([paths[each.row] for each in asked])
        if found is None:
            return None
        rows, library = {path: at for at, path in enumerate(paths)}, before.engine.library
        with asking("settings"):
            numbers, is_settled, stuck = library.settle(
                before.planned_host, self.goals.asking(model.rows(library)),
                {rows[path]: each for path, each in found.groups.items()},
                [OwnerGoal(each.goal.group.row, each.goal.amount, each.row,
                           rows[found.tops[paths[each.row]]], *each.part) for each in asked],
                self.goals.is_guaranteed)
        return numbers if is_settled else None if stuck is None else asked[stuck]

    def least(self, goal: Goal, row: int, of: Range) -> int | None:
        """The least value of what weighs a row that meets one goal, by a call of the library for
        each part of its values."""
        if goal.group.row in self.goals.beyond:
            return None
        for part in of.parts:
            found = self.with_value(row, of, part[0]).settled([Asked(goal, row, part)])
            if isinstance(found, list):
                return int(found[0])
        return None

    def all_settled(self) -> Raised | None:
        """These with the least values that meet the goals of all groups with such settings, each
        beside the others, and no less than these have. None where no such values are told, or the
        node has less than is requested then.

        Where no value of one part of a range meets its goal, the next part is tried.
        """
        changed, plan = self.changed, self.plan()
        asked: dict[int, list[Asked]] = {}
        for goal in sorted(self.goals.goals, key=lambda each: self.goals.amount(
                plan, each.group.row) >= each.amount):
            row = self.row_of(goal)
            if isinstance(row, int) and row not in asked:
                of = changed.weighing(self.goals.before.groups[row].path)
                if of.standing is not None or self.goals.amount(plan, goal.group.row) < goal.amount:
                    asked[row] = [Asked(goal, row, part)
                                  for part in of.parts_from(of.standing or 0)]
        if not all(asked.values()) or not self.goals.beyond.isdisjoint(
                each[0].goal.group.row for each in asked.values()):
            return None
        ranges = {row: changed.weighing(self.goals.before.groups[row].path) for row in asked}
        while True:
            first = [each[0] for each in asked.values()]
            found = self.with_all(ranges, [each.part[0] for each in first]).settled(first)
            if not isinstance(found, Asked):
                known = None if found is None else self.with_all(ranges, found)
                return known if known is not None and known.is_met else None
            del asked[found.row][0]
            if not asked[found.row]:
                return None

    def with_all(self, ranges: Mapping[int, Range], values: Sequence[int]) -> Raised:
        """These with other values of what weighs some rows."""
        known = self
        for (row, of), value in zip(ranges.items(), values):
            known = known if value == of.standing else known.with_value(row, of, value)
        return known

    def least_limit(self, goal: Goal, row: int, of: Range) -> int | None:
        """The least value of a limit of a row that meets one goal, by plans. It is guessed to be
        the goal itself."""
        if goal.group.row in self.goals.beyond:
            return None
        asked = self.goals.before.thousandths(goal.amount)
        return next((value for first, last in of.parts if (value := search.least_near(
            first, last, search.least(first, last, lambda each: units.parse_cpu(
                of.written(each)) >= asked),
            lambda each: self.reaches(goal, row, of, each))) is not None), None)

    def is_least(self, goal: Goal, row: int) -> bool:
        """Whether what weighs a row is all that is set of it, and the least that meets a goal. Only
        the value and the one below it are tried of its part: no lesser one is enough if that is
        not."""
        of = self.ranges(row)[0]
        value = of.standing
        if value is None or {each.key for each in self.settings[row]} != {of.key}:
            return False
        parts = [(max(first, min(value - 1, last)) if last >= value else first, min(last, value))
                 for first, last in of.parts if first <= value]
        return self.least(goal, row, of._replace(parts=parts)) == value

    def reaches(self, goal: Goal, row: int, of: Range, value: int) -> bool:
        """Whether the plan with a value of a setting meets one goal."""
        return self.with_value(row, of, value).amount(goal.group.row) >= goal.amount

    def amount(self, row: int) -> int:
        """The amount that the group of a row gets."""
        return self.goals.amount(self.plan(), row)

    def row_of(self, goal: Goal) -> int | str:
        """The row of the setting that a goal can be met by, or why there is none."""
        meant, where = self.source.meant(goal.group.path), shown(goal.group.path)
        if len(meant) != 1:
            return f"{where} has no such setting of its own"
        row = self.goals.before.by_path()[meant[0]].row
        if row in self.goals.kept:
            return f"{where} falls short, and its setting is kept"
        return row

    def raised(self, goal: Goal) -> Raised | str:
        """Settings with the least value that meets one goal, or why there is none."""
        row = self.row_of(goal)
        if isinstance(row, str):
            return row
        of = self.ranges(row)[0]
        value = self.least(goal, row, of)
        if value is not None:
            return self.with_value(row, of, value)
        return self.lifted(goal, row) or (
            f"{shown(goal.group.path)}: no {of.key} reaches its goal ({of.most})")

    def topped(self, goal: Goal) -> Raised:
        """Settings with the greatest value of what weighs one goal's group, where it may change."""
        row = self.row_of(goal)
        if isinstance(row, str):
            return self
        of = self.ranges(row)[0]
        return self.with_value(row, of, of.parts[-1][1])

    def lifted(self, goal: Goal, row: int) -> Raised | None:
        """Settings with the least value that meets one goal under the greatest limit, and then the
        least limit beside it; None where the row has no limit, or none helps."""
        limit = self.ranges(row)[1]
        if limit.now == "-" or not limit.parts or goal.group.row in self.goals.beyond:
            return None
        wide = self.with_value(row, limit, limit.parts[-1][1])
        if wide.amount(goal.group.row) < goal.amount:
            of = wide.ranges(row)[0]
            value = wide.least(goal, row, of)
            if value is None:
                return None
            wide = wide.with_value(row, of, value)
        limit = wide.ranges(row)[1]
        most = wide.least_limit(goal, row, limit)
        return None if most is None else wide.with_value(row, limit, most)

    def weighed(self, weights: Sequence[int]) -> Raised | None:
        """Settings with the least that give groups just some weights, and no other group another
        weight. None where a group that changes has no such setting, or no value of it the weight.
        """
        known = self
        for group, weight in zip(self.goals.before.groups, weights):
            if weight == group.weight:
                continue
            if not self.source.has(group.path) or "request" in self.source.keys:
                return None
            value = units.least_of(self.goals.before.engine.library, self.source.formula, weight)
            if value is None:
                return None
            known = known.with_value(group.row, self.source.weighing(group.path), value)
        return known

    def changes(self) -> list[NewSetting]:
        return [NewSetting(path, key, of.now, value)
                for _, some in sorted(self.settings.items()) for path, key, value in some
                for of in self.source.ranges(path) if of.key == key and of.now != value]


def raised(start: Raised) -> Raised | str:
    """Settings that are raised until all goals are met: together, or else one after another, and
    together again after each limit that is raised."""
    lifted: set[Setting] | None = None
    for _ in range(MOST_RAISES):
        place = start.goals.short(start.plan())
        if place is None:
            return start
        limits = {each for each in start.every if each.key == start.source.keys[1]}
        known = start.all_settled() if limits != lifted else None
        if known is not None:
            return known
        more, lifted = start.raised(start.goals.goals[place]), limits
        if isinstance(more, str):
            return more
        start = more
    return f"goals are not met after {MOST_RAISES} raises"


def lowerable(goals: Goals, source: Owned) -> list[int]:
    """The rows of others whose requests may be lowered, those that request most first: of no goal's
    group, and where no class of a pod changes by it. None where demands are requests."""
    if not goals.has_requests or goals.beyond or source.busy():
        return []
    asked = {group.row: source.now(group.path).request or 0 for group in goals.others
             if source.has(group.path) and group.row not in goals.kept
             and not source.is_guaranteed(group.path)}
    return sorted((row for row in asked if asked[row] > 1), key=lambda row: -asked[row])[:MOST_LEFT]


def lowered(start: Raised, why: str) -> Raised | str:
    """Settings that meet all goals beside lower requests of others, or why none were found.

    The level of these is found by halving. A lower one leaves goals' groups more, but for what a
    class loses by the sum of its requests; so each is tried by plans.
    """
    rows = lowerable(start.goals, start.source)
    if not rows:
        return why
    most = start.source.now(start.goals.before.groups[rows[0]].path).request or 0

    def meets(less: int) -> bool:
        low = start.lowered(rows, most - less)
        place = start.goals.short(low.plan())
        # (one raise to the greatest is quicker than to find its least)
        return place is None or low.topped(start.goals.goals[place]).is_met or isinstance(
            raised(low), Raised)

    return raised(start.lowered(rows, most - search.least(1, most - 1, meets))) if meets(
        most - 1) else why + NOR


def raises_told(known: Raised) -> str:
    """Words on raised settings: where the library's calls say so, that each is the least
    for its goal."""
    by_row = {row: goal for goal in known.goals.goals
              if isinstance(row := known.row_of(goal), int) and row in known.settings}
    if len(by_row) < len(known.settings) or not all(
            known.is_least(goal, row) for row, goal in by_row.items()):
        return RAISED
    return LEAST if len(by_row) == 1 else BESIDE


def followers(goals: Goals, source: Owned, after: Plan) -> list[str]:
    """The names of the groups without such settings whose weights are others in a plan."""
    return [shown(last_name(now.path)) for now, then in zip(goals.before.groups, after.groups)
            if now.weight != then.weight and not source.has(now.path)]


def by_settings(goals: Goals, weights: Way | Clash) -> Way | str | None:
    """Settings that people own and that meet all goals, or why none were found; None where the
    source has none."""
    source = goals.before.model.owned
    if source is None:
        return None
    start = Raised(goals, source, {})
    if isinstance(weights, Way):
        start = start.weighed(weights.plan.weights) or start
    known = raised(start)
    known = lowered(start, known) if isinstance(known, str) else known
    if isinstance(known, str):
        return known
    best = known
    rows, more = goals.needed(sorted(known.settings), lambda some: best.only(some).is_met,
                              "settings")
    known = known.only(rows)
    after, is_lifted = known.plan(), source.keys[1] in {each.key for each in known.every}
    told = raises_told(known) + more + (LIFTED if is_lifted else "")
    if not known.settings.keys().isdisjoint(lowerable(goals, source)):
        follow = followers(goals, source, after)
        told += LOWERED + (FOLLOW.format(few(follow)) if follow else "")
    if isinstance(weights, Way) and after.weights == weights.plan.weights and not is_lifted:
        told = weights.told
    return goals.way(after, known.changes(), told)
