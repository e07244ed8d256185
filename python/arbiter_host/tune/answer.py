"""The answer of `tune`: what goals' groups get, the settings that meet them, and who pays."""
from __future__ import annotations

from collections.abc import Callable, Sequence
from functools import partial
from typing import Any, TypeVar

from arbiter_host.base import text, units
from arbiter_host.base.model import MAX_PROCESSORS
from arbiter_host.base.names import short, shown
from arbiter_host.base.plan import payers
from arbiter_host.base.tables import Column, Table, TableAnswer, fact, plain
from arbiter_host.tune.goals import Clash, Goal, NewSetting, Way
from arbiter_host.tune.single_settings import SingleSetting
from arbiter_host.tune.tune import Tuned

R = TypeVar("R")
# Demands under which goals are met.
MEASURES = {False: "by today's demands", True: "whatever the others ask for"}
# The groups that pay which are named; the others are counted.
NAMED = 3
# The words of settings that people own, where those of their keys are taken.
LABELS = {"limit": "container limit"}
# Groups that get less, and how many slices less.
Losses = Sequence[tuple[str, int]]
Parts = list[tuple[str, str] | Table[Any]]


def name(path: str) -> str:
    return short(shown(path))


def group(path: Callable[[R], str]) -> Column[R]:
    """The column of the groups of records."""
    return Column("group", lambda each: name(path(each)), True, "group", path, is_last=True)


CHANGES: list[Column[NewSetting]] = [
    group(lambda each: each.path), Column("setting", lambda each: each.key, True, "setting"),
    Column("now", lambda each: each.now, key="now"),
    Column("then", lambda each: each.then, key="then")]


class TuneAnswer:
    """The answer. Amounts are in a unit where people read them, and thousandths as data."""

    def __init__(self, tuned: Tuned, unit: str) -> None:
        self.tuned, self.before, self.unit = tuned, tuned.before, unit
        self.where = f"{MEASURES[tuned.asked.is_guaranteed]}, in {text.UNIT_WORDS[unit]}"

    def answer(self) -> TableAnswer:
        tuned = self.tuned
        parts: Parts = [*plain(text.host_words(self.before.model.host),
                               text.asked_words(self.before.model)), *self.rounded()]
        if tuned.best is not None:
            parts += self.way(tuned.best)
        elif isinstance(tuned.weights, Clash):
            parts += self.clash(tuned.weights)
        if isinstance(tuned.owned, str):
            parts.append((tuned.owned, "yellow" if tuned.best else ""))
        parts += [("", ""), self.alone()] if tuned.alone else []
        return TableAnswer(lambda: parts, self.data)

    def words(self, slices: int) -> str:
        return text.amount(self.before, slices, self.unit)

    def amount(self, title: str, slices: Callable[[R], int], key: str = "") -> Column[R]:
        """A column of slices."""
        return Column(title, lambda each: self.words(slices(each)), key=key,
                      value=lambda each: self.before.millicpu(slices(each)))

    def rounded(self) -> list[tuple[str, str]]:
        """The goals whose amounts are no whole number of slices."""
        return plain(*dict.fromkeys(
            f"{units.decimal(goal.asked)}m is no whole number of slices: {self.words(goal.amount)}"
            " is asked for" for goal in self.tuned.asked.goals
            if self.before.thousandths(goal.amount) != goal.asked))

    def paid(self, losses: Losses) -> str:
        """Groups and what each loses, the first of them by name, in words."""
        words = [f"{name(path)} -{self.words(slices)}" for path, slices in losses[:NAMED]]
        rest = len(losses) - NAMED
        return ", ".join(words + ([f"{rest} more"] if rest > 0 else [])) or "nobody"

    def pays(self, losses: Losses) -> list[dict[str, Any]]:
        """Groups and what each loses, as data."""
        return [{"group": path, "millicpu": self.before.millicpu(lost)} for path, lost in losses]

    def losers(self, way: Way) -> Losses:
        """The groups without children and without a goal at or above them that get less."""
        others = {each.path for each in self.tuned.asked.others}
        return [each for each in payers(self.before, way.plan) if each[0] in others]

    def losses(self, single: SingleSetting) -> Losses:
        """The other groups that get less by a setting."""
        own = self.tuned.asked.goals[0].group.path
        return [] if single.plan is None else [
            each for each in payers(self.before, single.plan) if each[0] != own]

    def goals(self, goals: Sequence[Goal], way: Way | None = None) -> Table[Goal]:
        """Some goals: what each group gets now, and then where settings meet them."""
        places = {goal.group.row: at for at, goal in enumerate(self.tuned.asked.goals)}

        def now(goal: Goal) -> int:
            return self.tuned.amounts[places[goal.group.row]]

        def then(goal: Goal) -> int:
            return way.amounts[places[goal.group.row]] if way else 0

        return Table([
            group(lambda each: each.group.path),
            fact("asked_millicpu", lambda each: float(each.asked)),
            self.amount("goal", lambda each: each.amount, "goal_millicpu"),
            self.amount("now", now, "now_millicpu"),
            *([self.amount("then", then)] if way else []),
            self.amount("wants", lambda each: each.group.want, "wants_millicpu")], goals,
            style=lambda each: "red" if not way and now(each) < each.amount else "")

    def way(self, way: Way) -> Parts:
        """The lines of settings that meet all goals."""
        changes: Parts = [Table(CHANGES, way.changes), *plain(
            "", f"who else pays: {self.paid(self.losers(way))}")]
        return [*plain(f"all goals are met at once {self.where}; the proved check accepted the"
                       " plan", ""), self.goals(self.tuned.asked.goals, way), ("", ""),
                *(changes if way.changes else []), (way.told, "")]

    def way_data(self, way: Way | Clash | str | None) -> dict[str, Any] | None:
        """Settings as data; None where there are none."""
        return {"changes": Table(CHANGES, way.changes).data(), "set": way.words, "told": way.told,
                "then_millicpu": [*map(self.before.millicpu, way.amounts)],
                "pays": self.pays(self.losers(way))} if isinstance(way, Way) else None

    def served(self, clash: Clash) -> int:
        """The slices that are there for goals that cannot be met together: what the host serves,
        or the most that their group can be given."""
        row = clash.group.row
        return self.before.answer.figures.mosts[row] if row else self.before.root.gets

    def clash(self, clash: Clash) -> Parts:
        """The lines of goals that cannot be met together."""
        where, most = name(clash.group.path), self.words(self.served(clash))
        is_host, are_many = clash.group.parent is None, len(clash.goals) > 1
        which = "these goals together" if are_many else "this goal"
        inside = f" in {where}" if are_many and not is_host else ""
        asked = self.words(self.tuned.asked.come_to[clash.group.row])
        there = f"served in all: {most}" if is_host else f"{where} can be given {most} at most"
        kept = self.tuned.asked.kept & self.tuned.asked.paths
        whose = ("requests were found that" if not clash.is_of_all else "weights of any groups"
                 ) if self.tuned.asked.has_requests else "weights that may change"
        return [(f"no {whose} meet {which}{inside} {self.where}", "yellow"),
                ("", ""), self.goals(clash.goals), *plain(
                "", f"asked for in all: {asked}; {there}",
                "nor were limits of other groups found with which they are met"),
                *((f"{name(goal.group.path)} asks for less: no setting gives it more than it asks"
                   " for", "yellow") for goal in clash.goals if goal.group.want < goal.amount),
                *plain(*(f"the settings of {name(self.before.groups[row].path)} stay as they are"
                         " (-g)" for row in sorted(kept)))]

    def clash_data(self, clash: Clash) -> dict[str, Any]:
        """Goals that cannot be met together as data."""
        return {"group": clash.group.path, "together": [goal.group.path for goal in clash.goals],
                "asked_millicpu": self.before.millicpu(self.tuned.asked.come_to[clash.group.row]),
                "served_millicpu": self.before.millicpu(self.served(clash))}

    def alone(self) -> Table[SingleSetting]:
        """Each setting of the group of one goal alone: a limit in the unit, others as they are."""
        def told(amount: Callable[[int], Any], key: str, each: SingleSetting) -> Any:
            value = getattr(each, key)
            return amount(value) if each.name == "limit" and isinstance(value, int) else value

        def cell(key: str, each: SingleSetting) -> str:
            return "-" if getattr(each, key) is None else str(told(self.words, key, each))

        now, least = (Column(key, partial(cell, key), key=key, value=partial(
            told, self.before.millicpu, key)) for key in ("now", "least"))
        return Table([
            Column("alone", lambda each: LABELS.get(each.name, each.name) if each.is_owned
                   else each.name, True, "name", lambda each: each.name),
            fact("owned", lambda each: each.is_owned), now, least,
            fact("told", lambda each: each.told), Column(
                "who pays", self.payers, True, "pays", lambda each: self.pays(self.losses(each)))],
            self.tuned.alone, style=lambda each: "" if each.plan else "yellow")

    def payers(self, single: SingleSetting) -> str:
        """The payers for a setting in words, or that no value of it reaches the goal."""
        words = (self.paid(self.losses(single)) if single.plan
                 else unreached(single.name, self.before.model.host.processors))
        return words + (f" ({shown(single.told)})" if single.told else "")

    def data(self) -> dict[str, Any]:
        tuned = self.tuned
        return {"guaranteed": tuned.asked.is_guaranteed, "met": tuned.best is not None,
                "engine": self.before.by, "goals": self.goals(tuned.asked.goals).data(),
                "weights": self.way_data(tuned.weights), "conflict": self.clash_data(
                    tuned.weights) if isinstance(tuned.weights, Clash) else None,
                "settings": self.way_data(tuned.owned), "limits": self.way_data(tuned.limits),
                "no_settings": tuned.owned if isinstance(tuned.owned, str) else None,
                "alone": self.alone().data()}


def unreached(setting: str, processors: int) -> str:
    """That no value of a setting reaches the goal. More than 64 CPUs are not asked of."""
    if setting != "CPUs":
        return f"no {setting} reaches it"
    more = "" if processors <= MAX_PROCESSORS else "; more are not tried"
    return f"{MAX_PROCESSORS} CPUs do not reach it{more}"
