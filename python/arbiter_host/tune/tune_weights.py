"""Weights of goals' groups and of groups above them under which goals are met.

The C library answers them, by a call whose contract is exact: they are the least from the root
down, and there is one answer. Where weights allow it, each other group keeps half of what it has.
Where no such weights meet the goals, those of groups beside are lowered to the greatest level.
"""
from __future__ import annotations

from collections.abc import Collection, Sequence
from dataclasses import replace

from arbiter_host.base.plan import asking, walk
from arbiter_host.tune.goals import Clash, Goals, NewSetting, Way

MEET = "proved: from the root down the least weights that meet the goals"
LEAST, LOWER = f"{MEET}; none is lowered", f"{MEET}; none that lower no weight do"
LEVEL = (f"{MEET}, beside others that are lowered to one weight, the greatest with which any do; "
         "without that none do")
HALF = "leave each other group half of what it gets"


def own_weights(goals: Goals, column: Sequence[int], may: Sequence[bool]) -> list[int] | Clash:
    """The weight of each row where all goals of a column are met, or goals that no weights meet
    together. Some weights beside the goals may be lowered."""
    before = goals.before
    with asking("tune"):
        answer = before.engine.library.tune(before.planned_host, goals.columns, column, may,
                                            goals.is_guaranteed)
    if isinstance(answer, list):
        return answer
    group = before.groups[answer]
    inside = {each.row for each in walk([group])}
    return Clash(group, tuple(goal for goal in goals.goals if goal.group.row in inside), all(may))


def by_weights(goals: Goals, beside: Collection[int] = (), keeps: bool = False) -> Way | Clash:
    """The weights as settings with their accepted plan. Others may keep half of what they have."""
    column = goals.with_halves if keeps else goals.column
    answer = own_weights(goals, column, goals.may(beside))
    if isinstance(answer, Clash):
        return answer
    changes = [NewSetting(group.path, "weight", str(group.weight), str(weight))
               for group, weight in zip(goals.before.groups, answer) if weight != group.weight]
    lower = {row for row, (now, then) in enumerate(zip(goals.before.weights, answer)) if then < now}
    told = LEVEL if lower.intersection(beside) else LOWER if lower else LEAST
    return goals.way(goals.plan(answer), changes, told)


def clash_of_all(goals: Goals, clash: Clash) -> Clash:
    """Goals that no weights of any groups meet together, where there are such; else a clash of the
    weights that may change. Whatever is requested, it makes weights."""
    answer = own_weights(goals, goals.column, [True] * len(goals.before.groups))
    return answer if isinstance(answer, Clash) else clash


def best_weights(goals: Goals) -> Way | Clash:
    """Weights where each other group keeps half of what it gets, or else where weights do not
    allow that. Where none meet the goals, weights of groups beside these are lowered too."""
    half = by_weights(goals, keeps=True)
    if isinstance(half, Way):
        return replace(half, told=half.told.replace(MEET, f"{MEET} and {HALF}"))
    way = by_weights(goals)
    if isinstance(way, Way):
        return replace(way, told=f"{way.told}; none {HALF}")
    for rows in goals.beside:
        way = by_weights(goals, rows)
        if isinstance(way, Way):
            break
    return way
