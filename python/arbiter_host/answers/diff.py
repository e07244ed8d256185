"""Differences between two plans, from the first to the second."""
from __future__ import annotations

from collections.abc import Callable, Iterator
from dataclasses import dataclass
from fractions import Fraction
from typing import Any

from arbiter_host.answers import explain
from arbiter_host.answers.explain import View
from arbiter_host.base import text
from arbiter_host.base.names import cut, short, shown, tail
from arbiter_host.base.output import Styled
from arbiter_host.base.plan import Plan, PlannedGroup
from arbiter_host.base.tables import (PAGES, TEXT, Column, Fitted, Table, TableAnswer,
                                      fact, plain)
from arbiter_host.base.text import WIDE


def facts(plan: Plan, group: PlannedGroup | None) -> tuple[Any, ...] | None:
    """The facts that are compared of a group, in thousandths: hosts may have other slices."""
    if group is None:
        return None
    limit = None if group.limit is None else plan.thousandths(group.limit)
    return (plan.thousandths(group.gets), plan.thousandths(group.want), limit, group.weight,
            explain.why(plan, group, True))


@dataclass(frozen=True)
class Pair:
    """One path in two plans. A group is None where a plan does not have it."""

    path: str
    plans: tuple[Plan, Plan]
    groups: tuple[PlannedGroup | None, PlannedGroup | None]

    @property
    def differs(self) -> bool:
        before, after = map(facts, self.plans, self.groups)
        return before != after

    @property
    def gain(self) -> float:
        """By how much the amount rises, in thousandths of a CPU."""
        before, after = (plan.thousandths(group.gets) if group else Fraction(0)
                         for plan, group in zip(self.plans, self.groups))
        return float(after - before)

    @property
    def style(self) -> str:
        """The style of its line: whether it gains or loses."""
        return "green" if self.gain > 0 else "red" if self.gain < 0 else ""

    def cells(self, unit: str) -> tuple[str, ...]:
        """The numbers of its line; `-` where a plan does not have the group."""
        gets, wants = ([text.amount(plan, getattr(group, key, None), unit)
                        for plan, group in zip(self.plans, self.groups)]
                       for key in ("gets", "want"))
        before, after = (float(each) if each != "-" else 0.0 for each in gets)
        change = round(after - before, 3)
        _, _, decimals = text.amount(self.plans[0], self.plans[0].root.gets, unit).partition(".")
        return (*gets, f"{change:+.{len(decimals)}f}" if change else "0", *wants)

    def settings(self, unit: str) -> tuple[str, str]:
        """The weight and the limit in both plans, those that differ. They have words where nothing
        else tells why the group has a line."""
        before, after = map(facts, self.plans, self.groups)
        if before is None or after is None or before[:2] + before[4:] != after[:2] + after[4:]:
            return "", ""
        cells = [(f"weight {group.weight}", f"limit {text.amount(plan, group.limit, unit)}")
                 for plan, group in zip(self.plans, self.groups) if group]
        differ = [each for each in zip(*cells) if each[0] != each[1]]
        was, now = zip(*differ) if differ else ((), ())
        return "; ".join(was), "; ".join(now)

    def reason(self, is_wide: bool, has_before: bool, unit: str) -> str:
        """Why the second plan gives its amount, and why the first did where that differs."""
        before, after = (explain.why(plan, group, is_wide) if group else None
                         for plan, group in zip(self.plans, self.groups))
        if before is None or after is None:
            return f"only before: {before}" if after is None else f"only after: {after}"
        was, now = self.settings(unit)
        if now:
            before, after = was, f"{after}; {now}"
        return after if before == after or not has_before else f"{after} (before: {before})"

    def reasons(self, view: View) -> list[str]:
        """Its reason from long to short, as a table of that width may have it."""
        whole = [self.reason(True, True, view.unit)] if view.width >= WIDE else []
        middle = [self.reason(False, True, view.unit)] if whole else []
        return [*whole, *map(explain.starred, whole), *middle,
                self.reason(False, False, view.unit)]


def name(pair: Pair) -> str:
    return "the host (.)" if pair.path == "." else short(shown(pair.path))


def pairs(one: Plan, two: Plan, view: View = View()) -> list[Pair]:
    """The groups of both plans that are chosen, those of the first in its order first."""
    first, second = one.by_path(), two.by_path()
    return [Pair(path, (one, two), (first.get(path), second.get(path)))
            for path in {**first, **second} if view.chosen is None or path in view.chosen]


def differing(one: Plan, two: Plan, view: View = View()) -> list[Pair]:
    """The chosen groups that are not the same in both plans, in the order asked for."""
    differ = [pair for pair in pairs(one, two, view) if pair.differs]
    return sorted(differ, key=lambda pair: -abs(pair.gain)) if view.sort else differ


def heads(one: Plan, two: Plan, view: View) -> Iterator[str]:
    for name, plan in (("before", one), ("after", two)):
        for line in list(explain.head(plan, view))[:4]:
            yield cut(f"{name:<7} {line}", max(view.width, 80))
            name = ""
    yield ""


def columns(view: View) -> list[Column[Pair]]:
    """The columns of pairs. A page has what both plans want in a cell of its own."""
    def number(at: int) -> Callable[[Pair], str]:
        return lambda pair: pair.cells(view.unit)[at]

    return [fact("group", lambda pair: pair.path), fact("change_millicpu", lambda pair: pair.gain),
            Column("gets", number(0), forms=TEXT), Column("then", number(1), forms=TEXT),
            Column("before", number(0), forms=PAGES), Column("after", number(1), forms=PAGES),
            Column("change", number(2)),
            Column("wants", number(3), forms=TEXT), Column("then", number(4), forms=TEXT)]


def table(one: Plan, two: Plan, view: View) -> Table[Pair]:
    """The groups that differ. In a narrow table names are cut and not reasons."""
    return Table(columns(view), differing(one, two, view), style=lambda pair: pair.style,
                 wide=view.width, fitted=Fitted(lambda pair: pair.reasons(view), name, tail,
                                                keeps_names=view.width >= WIDE))


def changes(one: Plan, two: Plan, view: View) -> Styled:
    """The lines of the groups that differ. Those that are the same are counted."""
    differ, count = table(one, two, view), len(pairs(one, two, view))
    lines = differ.lines() if differ.records else []
    is_noted = any("throttled*" in line for line, _ in lines)
    return [*lines, *plain(
        f"{count - len(differ.records)} of {count} groups are the same in both",
        *([explain.THROTTLED_NOTE] if is_noted else []))]


def as_data(one: Plan, two: Plan, view: View = View(),
            busy: tuple[Plan, Plan] | None = None) -> dict[str, Any]:
    """Both plans as data, and the paths that differ with their change; the same with all busy
    where these plans are given."""
    more = {} if busy is None else {"busy": as_data(*busy, view)}
    return {"before": explain.as_data(one, view), "after": explain.as_data(two, view),
            "changed": table(one, two, view).data(), **more}


def answer(one: Plan, two: Plan, view: View, busy: tuple[Plan, Plan] | None = None) -> TableAnswer:
    """Both plans and what differs, and the same with all busy where these plans are given."""
    more = [] if busy is None else [
        ("", ""), ("if all are busy (--want busy):", "bold"), ("", ""), *changes(*busy, view)]
    return TableAnswer(
        lambda: [*plain(*heads(one, two, view)), *changes(one, two, view), *more],
        lambda: as_data(one, two, view, busy), files=lambda: [table(one, two, view)])
