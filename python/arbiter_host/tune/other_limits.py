"""Limits of groups without a goal, which are lowered until goals are met.

The C library answers them, by a call whose contract is exact: they are the greatest, first at one
level and then each in row order. Here stand the limits that may be lowered, and their settings.
"""
from __future__ import annotations

from collections.abc import Callable, Iterator, Sequence
from dataclasses import replace
from fractions import Fraction
from typing import NamedTuple

from arbiter_host.base import owned, search, units
from arbiter_host.base.faults import HostFault
from arbiter_host.base.model import Model
from arbiter_host.base.owned import Owned, Setting
from arbiter_host.base.plan import Plan, PlannedGroup, asking
from arbiter_host.sources import change
from arbiter_host.tune.goals import Goals, NewSetting, Way
from arbiter_host.tune.tune_weights import by_weights

# At most so many limits are lowered.
MOST_LOWERED = 64
LIMITED = (f"proved: of up to {MOST_LOWERED} other groups the greatest limits with which the goals"
           " are met, one level and then each in turn")
LESSER = ("limits of other groups with which the goals are met; not proved to be the greatest, as"
          " settings say less")


class Cap(NamedTuple):
    """A limit that can be lowered, down to its least in slices. `written` says a number of slices
    as its setting does."""

    path: str
    key: str
    now: str
    least: int
    written: Callable[[int], str]


def limitable(goals: Goals, can_be: Callable[[PlannedGroup], bool]) -> Iterator[PlannedGroup]:
    """The highest groups that can be limited and may change: none of a goal, and none below or
    above one."""
    before = goals.before
    above = {each.row for goal in goals.goals for each in before.above(goal.group)}
    ways = [before.root]
    while ways:
        for child in ways.pop().children:
            if child.row in goals.rows:
                continue
            if child.row in above or child.row in goals.kept or not can_be(child):
                ways.append(child)
            else:
                yield child


def words_of(before: Plan, group: PlannedGroup, slices: int) -> str:
    """A limit of so many slices of the host's period, as `--set GROUP.max=` takes it: of the
    group's own period where that is a quota, else of the host's."""
    host, own = before.model.host, group.group
    thousandths = before.thousandths(slices)
    quota = Fraction(0) if own is None else thousandths * own.period / 1000
    if quota.denominator == 1 and quota >= units.MIN_QUOTA:
        return units.cpu_text(thousandths)
    return f"{slices * host.slice_us} {host.period_us}"


def cap_of(before: Plan, group: PlannedGroup) -> Cap:
    """The limit of a group as `cpu.max` has it."""
    own = group.group
    now = "-" if own is None or own.quota is None else units.cpu_text(
        Fraction(1000 * own.quota, own.period))
    least = -(-units.MIN_QUOTA // before.model.host.slice_us)
    return Cap(group.path, "max", now, least, lambda slices: words_of(before, group, slices))


def owned_cap_of(before: Plan, source: Owned, group: PlannedGroup) -> Cap | None:
    """The limit of a group as people own it; None where it cannot be lowered by itself."""
    of = source.limiting(group.path)
    first, last = of.parts[-1] if of.parts else (1, 0)
    if first > last:
        return None

    def amount(number: int) -> Fraction:
        return units.parse_cpu(of.written(number))

    def written(slices: int) -> str:
        # (a step of a setting is a thousandth of a CPU, and no slice is less)
        return of.written(search.least(
            first, last, lambda each: amount(each) >= before.thousandths(slices)))

    least = max(-(-amount(first) // before.thousandths(1)), 1)
    cap = Cap(group.path, of.key, of.now, int(least), written)
    return cap if is_lone(source, cap) else None


def is_lone(source: Owned, cap: Cap) -> bool:
    """Whether a limit changes no group's weight or class."""
    try:
        after = source.changed([Setting(cap.path, cap.key, cap.written(cap.least))])
    except HostFault:
        return False
    return after.weighs == source.weighs


def caps_of(goals: Goals) -> dict[int, Cap]:
    """The limits that can be lowered by their rows, of those that have most first."""
    before, source, caps = goals.before, goals.before.model.owned, dict[int, Cap]()

    def can_be(group: PlannedGroup) -> bool:
        return source.has(group.path) if source else not (group.group and group.group.burst)

    def order(group: PlannedGroup) -> tuple[int, int]:
        by_weight = (group.weight, group.gets)
        return by_weight if goals.is_guaranteed else by_weight[::-1]

    for group in sorted(limitable(goals, can_be), key=order, reverse=True):
        if len(caps) == MOST_LOWERED:
            break
        cap = owned_cap_of(before, source, group) if source else cap_of(before, group)
        most = before.capacity if group.limit is None else min(group.limit, before.capacity)
        if cap is not None and cap.least < most:
            caps[group.row] = cap
    return caps


def with_settings(model: Model, settings: Sequence[Setting]) -> Model:
    """The model with other limits."""
    if model.owned is not None:
        return owned.remade(model, model.owned, settings)
    after = model.copy()
    for each in settings:
        change.apply(after.groups[each.path], each.key, each.value, False)
    return after


def by_limits(goals: Goals) -> Way | None:
    """Limits of other groups that meet all goals: with the weights as they are, else with other
    weights of the goals' groups too. None: none do."""
    before, caps = goals.before, caps_of(goals)

    def limits(may: Sequence[bool]) -> list[int | None] | None:
        lowest = [caps[row].least if row in caps else None for row in range(len(may))]
        with asking("limits of other groups"):
            return before.engine.library.limit_others(
                before.planned_host, goals.columns, goals.column, may, lowest,
                goals.is_guaranteed)

    found = limits([False] * len(before.groups))
    is_weighed = found is None and before.model.owned is None
    found = limits(goals.may()) if is_weighed else found
    if found is None:
        return None
    changes = [NewSetting(cap.path, cap.key, cap.now, cap.written(limit))
               for row, cap in sorted(caps.items())
               if (limit := found[row]) is not None and limit != before.groups[row].limit]
    lower = goals.plan_of(with_settings(before.model, [
        Setting(each.path, each.key, each.then) for each in changes]))
    told = LIMITED if all(lower.groups[row].limit == found[row] for row in caps) else LESSER
    if not is_weighed:
        return goals.way(lower, changes, told)
    way = by_weights(replace(goals, before=lower))
    assert isinstance(way, Way), "weights meet the goals by the contract of the limits"
    return goals.way(way.plan, [*changes, *way.changes], f"{told}; {way.told}")
