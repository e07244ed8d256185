"""Settings under which several goals are met at once: weights, settings that people own, limits of
other groups.

The proved check accepts the plan of each answer, and each goal is looked for in it. Limits of
groups without a goal are lowered where nothing else meets the goals.
"""
from __future__ import annotations

from collections.abc import Collection, Sequence
from dataclasses import dataclass

from arbiter_host.base.plan import Plan
from arbiter_host.tune import single_settings
from arbiter_host.tune.goals import Clash, Goals, Way, goals_of
from arbiter_host.tune.other_limits import by_limits
from arbiter_host.tune.single_settings import SingleSetting
from arbiter_host.tune.tune_settings import by_settings
from arbiter_host.tune.tune_weights import best_weights, clash_of_all


@dataclass(frozen=True)
class Tuned:
    """The answer: the goals, what their groups get now, and the settings that meet them."""

    asked: Goals
    amounts: tuple[int, ...]
    # The weights, or goals that no weights meet together.
    weights: Way | Clash
    # Settings that people own, or why there are none; None where the source has no such settings.
    owned: Way | str | None
    # Limits of other groups, with weights where these are needed too; looked for where neither of
    # the others meets the goals.
    limits: Way | None = None
    # Of one goal each setting alone, where all may change.
    alone: tuple[SingleSetting, ...] = ()

    @property
    def before(self) -> Plan:
        return self.asked.before

    @property
    def best(self) -> Way | None:
        """The settings that are shown: those that people own, where there are such."""
        return next((each for each in (self.owned, self.weights, self.limits)
                     if isinstance(each, Way)), None)


def tune(before: Plan, words: Sequence[str], is_guaranteed: bool = False,
         chosen: Collection[str] | None = None) -> Tuned:
    """Settings under which all goals of words are met at once, or why there are none.

    Where groups are chosen, settings of these alone may change.
    """
    goals = goals_of(before, words)
    kept = frozenset(group.row for group in before.groups[1:]
                     if chosen is not None and group.path not in chosen)
    asked = Goals(before, goals, is_guaranteed, kept)
    weights = best_weights(asked)
    settings = by_settings(asked, weights)
    is_met = isinstance(weights, Way) or isinstance(settings, Way)
    if isinstance(weights, Clash) and not is_met and asked.has_requests:
        weights = clash_of_all(asked, weights)
    is_alone = len(goals) == 1 and not is_guaranteed and chosen is None
    return Tuned(asked, asked.amounts(before), weights, settings,
                 None if is_met or asked.beyond else by_limits(asked),
                 tuple(single_settings.each_of(asked)) if is_alone else ())
