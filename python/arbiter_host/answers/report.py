"""One HTML page of a plan: a tree that folds, sorts and can be searched, with all reasons."""
from __future__ import annotations

import os
import re
from collections.abc import Sequence
from typing import Any

from arbiter_host.answers import diff, explain
from arbiter_host.answers.diff import Pair
from arbiter_host.answers.explain import View, asking_one
from arbiter_host.base import text
from arbiter_host.base.html import bar, rendered
from arbiter_host.base.names import below, common_parent, last_name, parent_path, short, shown
from arbiter_host.base.plan import Plan, PlannedGroup
from arbiter_host.base.tables import Column, Table

# Trees of at most so many groups are open when the page is.
OPEN_GROUPS = 150
# Tables of at most so many changes are open.
OPEN_CHANGES = 40
# The first columns of the page, in their order.
PAGE = ("weight", "request", "limit", "wants", "gets")
KINDS = {"green": "up", "red": "down"}
Row = dict[str, Any]


def title_of(group: PlannedGroup) -> str:
    """The name for people, where it tells more than the group's own name and those above it."""
    name = last_name(group.path).replace(":", "/")
    is_told = f"/{group.title}".replace(":", "/").endswith(f"/{name}")
    return "" if is_told else shown(group.title)


def within(path: str, prefix: str) -> str:
    """The groups that a group is in, without a prefix. They tell it apart in a list."""
    above = below(f"{parent_path(path)}/", prefix).rstrip("/")
    return "" if above == "." else short(shown(above))


def columns_of(plan: Plan, view: View, groups: Sequence[PlannedGroup]
               ) -> list[Column[PlannedGroup]]:
    """The columns of the page, those of PAGE first."""
    return sorted(Table(explain.columns(plan, view), groups).shown_in("html"),
                  key=lambda each: [*PAGE, each.title].index(each.title))


def row(plan: Plan, group: PlannedGroup) -> Row:
    """The parts of a row beside its columns: of a group, or of a pod with its one container."""
    one = asking_one(group)
    rest = [each for each in group.children if each is not one]
    part = 100 * one.gets / one.want if one.want else 0
    return {
        "name": explain.row_name(group, one), "title": title_of(one),
        "path": shown(f"{one.path} {shown(one.title)}"), "depth": group.depth,
        "has_children": bool(rest), "is_quiet": not any(each.want for each in rest),
        "percent": f"{min(part, 100):.2f}",
        "marks": explain.marks(plan, explain.tighter(group, one)),
        "why": explain.row_reason(plan, group, one).words, "is_idle": one.want == 0,
        "is_hurt": one.gets < one.want,
    }


def rows_of(plan: Plan, view: View) -> list[Row]:
    """The rows of the page. `above` is the place of the row above."""
    groups = explain.rows(plan, view)
    ones = [*map(explain.row_group, groups)]
    columns = columns_of(plan, view, ones)
    place = {group.row: at for at, group in enumerate(groups)}
    prefix = common_parent(each.path for each in groups if not asking_one(each).children)
    return [row(plan, group)
            | {"cells": {each.title: each.cell(one) for each in columns},
               "above": None if group.parent is None else place[group.parent],
               "within": within(group.path, prefix), "prefix": short(shown(prefix)),
               "is_open": len(groups) <= OPEN_GROUPS or group.parent is None}
            for group, one in zip(groups, ones)]


def host(plan: Plan, view: View, name: str = "") -> dict[str, Any]:
    """The bar of the host: its capacity, what is planned of it and what is left."""
    planned, left, capacity, wanted = (
        text.amount(plan, each, view.unit) for each in
        (plan.root.gets, plan.capacity - plan.root.gets, plan.capacity, plan.root.want))
    return bar(name, text.UNIT_WORDS[view.unit], planned=planned, left=left, capacity=capacity,
               wanted=wanted)


def differing(before: Plan, plan: Plan, view: View) -> list[tuple[Pair, Pair]]:
    """The pairs that differ, each with that of the one container of a pod, else with itself."""
    pairs = {each.path: each for each in diff.pairs(before, plan, view)}
    ones = [{group.path: asking_one(group).path for group in each.groups}
            for each in (before, plan)]
    leaves = {path: pairs[one] for each in ones for path, one in each.items()
              if path != one and {path, one} <= pairs.keys()
              and all(other.get(path, one) == one for other in ones)}
    left = {each.path for each in leaves.values()}
    rows = [(pair, leaves.get(path, pair)) for path, pair in pairs.items() if path not in left]

    def order(each: tuple[Pair, Pair]) -> tuple[float, list[str]]:
        path = each[0].path
        return -abs(each[0].gain) if view.sort else path != ".", path.split("/")

    return sorted(((pair, one) for pair, one in rows if pair.differs or one.differs), key=order)


def reason_of(pair: Pair, one: Pair, at: int) -> tuple[list[str], str]:
    """The marks and the reason in the plan before or after."""
    plan, group, leaf = pair.plans[at], pair.groups[at], one.groups[at]
    if group is None or leaf is None:
        return [], "not there"
    return (explain.marks(plan, explain.tighter(group, leaf)),
            explain.row_reason(plan, group, leaf).words)


def change(pair: Pair, one: Pair, view: View) -> Row:
    """The cells of a row of the table of changes."""
    *_, wanted, wants = one.cells(view.unit)
    (was_marks, was_why), (marks, why) = (reason_of(pair, one, at) for at in (0, 1))
    was, now = (re.split("(?<=[;:]) ", "; ".join([*each, words]))
                for each, words in ((was_marks, was_why), (marks, why)))
    same = len(os.path.commonprefix([was, now]))
    set_before, set_now = pair.settings(view.unit)
    named = [(group, leaf) for group, leaf in zip(pair.groups, one.groups) if group and leaf]
    return {"name": explain.row_name(*named[-1]), "wants": wants,
            "wanted": wanted if wanted != wants else "",
            "marks": marks, "why": f"{why}; {set_now}" if set_now else why,
            "was": set_before if was == now else " ".join(was[same:]),
            "kind": KINDS.get(pair.style, "")}


def changes(before: Plan, plan: Plan, view: View) -> dict[str, Any]:
    """The table of what differs from an earlier plan, as a tree."""
    differ, depth, rows = differing(before, plan, view), {".": -1}, []
    columns = Table(diff.columns(view), [one for _, one in differ]).shown_in("html")
    prefix = common_parent(pair.path for pair, one in differ
                           if not any(each and each.children for each in one.groups))
    for pair, one in differ:
        above = parent_path(pair.path)
        while above not in depth:
            above = parent_path(above)
        depth[pair.path] = depth[above] + (pair.path != ".")
        rows.append({**change(pair, one, view), "depth": max(depth[pair.path], 0),
                     "cells": [(each.title, each.cell(one)) for each in columns],
                     "between": within(pair.path, prefix if above == "." else above),
                     "within": within(pair.path, prefix)})
    heads = [next(explain.head(each, view)) for each in (before, plan)]
    return {"heads": list(dict.fromkeys(heads)), "rows": rows,
            "columns": [each.title for each in columns],
            "is_flat": bool(view.sort), "prefix": short(shown(prefix)),
            "is_below": all(path.startswith(f"{prefix}/") for path in depth if path != ".")}


def page(plan: Plan, view: View = View(), title: str = "Plan", before: Plan | None = None,
         words: Sequence[str] = (), busy: tuple[Plan, Plan] | None = None) -> str:
    """The whole page. With an earlier plan it also has what differs, by the words of a change, and
    what differs if all are busy, where these plans are given."""
    pairs = {"Before and after": (before, plan), "If all are busy": busy or (None, plan)}
    tables = [{"title": name, **changes(one, two, view)} for name, (one, two) in pairs.items()
              if one is not None]
    notes = [shown(each) for each in (*plan.model.refused, *plan.model.notes)]
    hosts = [host(plan, view)]
    if before is not None:
        both = host(before, view, "before"), host(plan, view, "after")
        is_same = both[0]["figures"] == both[1]["figures"]
        hosts = [host(plan, view, "before and after")] if is_same else [*both]
    return rendered("plan.html", title, explain.head(plan, view), hosts=hosts,
                    rows=rows_of(plan, view), notes=notes, elsewhere=explain.ELSEWHERE,
                    open_changes=OPEN_CHANGES, tables=tables, words=list(words))
