"""Each setting of one group alone, all else as it is: the least with which it gets an amount.

The C library gives the least values, by calls whose contracts are exact. The plan of each is made
and accepted by the proved check before it is shown. The least of a setting that people own, such as
a request, is found by halving over accepted plans.
"""
from __future__ import annotations

from collections.abc import Callable
from dataclasses import replace
from functools import partial
from typing import NamedTuple

from arbiter import Columns, Host
from arbiter_host.base import progress
from arbiter_host.base.faults import HostFault
from arbiter_host.base.model import Model, up_to_64_cpus
from arbiter_host.base.owned import Range
from arbiter_host.base.plan import Plan, asking
from arbiter_host.tune.goals import Goals
from arbiter_host.tune.tune_settings import Raised


class SingleSetting(NamedTuple):
    """A setting: as it is now, and the least that reaches the amount, with its plan.

    A limit is in slices of one period. A setting that people own is as they write it. None stands
    for none.
    """

    name: str
    now: int | str | None
    least: int | str | None
    plan: Plan | None
    # What is said of it beside the groups that pay.
    told: str = ""
    # Whether it is a setting that people own.
    is_owned: bool = False


def with_value(model: Model, path: str, name: str, value: int) -> Model:
    """The model with another weight or limit of one group, or with other CPUs. A limit is in slices
    of the host's period."""
    after, host = model.copy(), model.host
    group = after.groups[path]
    if name == "CPUs":
        after.host = replace(host, processors=value)
    elif name == "weight":
        group.weight = value
    else:
        group.quota, group.period = value * host.slice_us, host.period_us
        group.burst, group.saved = 0, 0
    return after


def of_call(goals: Goals, name: str, now: int | None, host: Host,
         call: Callable[[Host, Columns, int, int], int | None]) -> SingleSetting:
    """A setting with its least value by a call of the library, whose accepted plan has to reach the
    amount."""
    (goal,), before, value = goals.goals, goals.before, None
    if not goals.beyond:
        with asking(call.__name__):
            value = call(host, before.columns, goal.group.row, goal.amount)
    if value is None:
        return SingleSetting(name, now, None, None)
    after = goals.plan_of(with_value(before.model, goal.group.path, name, value))
    if after.groups[goal.group.row].gets < goal.amount:
        raise HostFault(f"{name} {value}: the accepted plan does not reach the amount")
    return SingleSetting(name, now, value, after)


def of_owner(goals: Goals, known: Raised, row: int, of: Range) -> SingleSetting:
    """The least of a setting that people own of a group, which is the goal's or below it."""
    find = known.least if of.key == known.source.keys[0] else known.least_limit
    value = find(goals.goals[0], row, of)
    if value is None:
        return SingleSetting(of.key, of.now, None, None, of.most, True)
    after = known.with_value(row, of, value).plan()
    told = [note for note in after.model.notes if note not in goals.before.model.notes]
    return SingleSetting(of.key, of.now, of.written(value), after, "; ".join(told), True)


def each_of(goals: Goals) -> list[SingleSetting]:
    """Each setting of the group of the one goal, with its least value."""
    (goal,), before, source = goals.goals, goals.before, goals.before.model.owned
    library, host, least = before.engine.library, before.model.host, before.planned_host
    # Above 64 CPUs the planner's host has another period. The answer is of any number of CPUs.
    any_host = up_to_64_cpus(host)
    finds: list[Callable[[], SingleSetting]] = [
        partial(of_call, goals, "weight", goal.group.weight, least, library.least_weight),
        partial(of_call, goals, "limit", goal.group.limit, least, library.least_limit),
        partial(of_call, goals, "CPUs", host.processors, any_host, library.least_processors)]
    meant = source.meant(goal.group.path) if source else []
    if source is not None and len(meant) == 1:
        row = before.by_path()[meant[0]].row
        finds += [partial(of_owner, goals, Raised(goals, source, {}), row, of)
                  for of in source.ranges(meant[0])]
    return [find() for find in progress.each("settings", finds, len(finds))]
