"""Says why each group gets what it gets: a tree as wide as the terminal, a flat list, JSON, CSV."""
from __future__ import annotations

import math
from collections.abc import Callable, Iterator, Mapping, Sequence, Set
from dataclasses import replace
from functools import partial
from itertools import starmap
from typing import Any, NamedTuple

from arbiter_host.answers.placement import Outlook
from arbiter_host.base import text
from arbiter_host.base.model import MAX_DEPTH, NO_POD, Group
from arbiter_host.base.names import cut, last_name, listed, parent_path, short, shown, tail, width
from arbiter_host.base.output import Styled
from arbiter_host.base.plan import Explanation, Plan, PlannedGroup, walk
from arbiter_host.base.tables import (FILES, LEAST_NAME, PAGES, TEXT, Column, Fitted, Table,
                                      TableAnswer, fact, plain)
from arbiter_host.base.text import BAR_HEAD, WIDE

ONLY: dict[str, Callable[[PlannedGroup], bool]] = {
    "starved": lambda group: group.is_starved,
    "throttled": lambda group: group.is_throttled,
    "hurt": lambda group: group.gets < group.want,
    "asking": lambda group: group.want > 0,
    "tasks": lambda group: group.is_cut_by_tasks,
}
SORTS: dict[str, Callable[[PlannedGroup], Any]] = {
    "lack": lambda group: group.gets - group.want,
    "gets": lambda group: -group.gets,
    "wants": lambda group: -group.want,
    "weight": lambda group: -group.weight,
    "name": lambda group: group.path.split("/"),
}
STYLES = {"starved": "bold red", "own limit": "yellow", "limit above": "yellow",
          "the host is full": "magenta", "all": "green", "tasks": "cyan", "nothing asked": "dim"}
# Letters of a bar, which a wide table has.
BAR = 12
MOST_RANGES = 20
# The mark of a group that is counted as throttled and gets less than its limit.
ELSEWHERE = "throttled, not by its limit"
UNKNOWN_NOTE = ("(not known: tasks that sleep often or fork, nice values that differ, kernels after"
                " 6.12)")
# The mark of pods of which an autoscaler sets how many there are.
SCALED = " (HPA)"
SCALED_NOTE = f"{SCALED[1:]} an autoscaler sets how many such pods run"
THROTTLED_NOTE = f"* {ELSEWHERE}: it gets less than its limit"


class View(NamedTuple):
    """The parts that are shown: filters, order, depth, unit, width, and whether idle groups are.

    `chosen` are the paths of the groups that are shown, and None for all. `guaranteed` are the
    slices that a group gets whatever the others ask for, by row, where they are shown. `folded` are
    the paths of the groups whose children are not shown.
    """

    only: tuple[str, ...] = ()
    sort: str = ""
    depth: int = MAX_DEPTH
    unit: str = "cpu"
    width: int = text.STANDARD_WIDTH
    everything: bool = False
    chosen: Set[str] | None = None
    guaranteed: Mapping[int, int] | None = None
    folded: Set[str] = frozenset()

    def is_folded(self, group: PlannedGroup) -> bool:
        """Whether what is below a group is not shown."""
        return group.depth >= self.depth or group.path in self.folded

    def has(self, group: PlannedGroup) -> bool:
        """Whether a group is among those that are chosen."""
        return self.chosen is None or group.path in self.chosen

    @property
    def amounts(self) -> dict[str, Callable[[PlannedGroup], int | None]]:
        """The slices of groups that are shown, by their heads."""
        owed = self.guaranteed or {}
        return {"gets": lambda each: each.gets, "wants": lambda each: each.want,
                "limit": lambda each: each.limit, **({} if self.guaranteed is None else {
                    "guaranteed": lambda each: owed.get(each.row)})}


def why(plan: Plan, group: PlannedGroup, is_wide: bool) -> str:
    """The reason of a group, after its marks."""
    words = plan.reason(group).words if is_wide else narrow(plan, group)
    whole = "; ".join([*marks(plan, group), words])
    return whole if is_wide else starred(whole)


def marks(plan: Plan, group: PlannedGroup) -> list[str]:
    """The marks of what a group suffers: `starved`, and whether it counts as throttled."""
    found = ["starved"] if group.is_starved else []
    if group.is_throttled_elsewhere:
        found.append(ELSEWHERE)
    elif group.is_throttled and plan.reason(group).name != "own limit":
        found.append("throttled")
    return found


def asking_one(group: PlannedGroup) -> PlannedGroup:
    """The group whose amounts a row has: the one container of a pod, and else the group itself.

    So it is of any group with one child. Of a pod, containers that ask for nothing do not count.
    """
    is_pod = group.group is not None and group.group.pod != NO_POD
    found = [each for each in group.children if each.want or not is_pod]
    one = found[0] if len(found) == 1 and group.parent is not None else group
    return group if one.children else one


def tighter(group: PlannedGroup, one: PlannedGroup) -> PlannedGroup:
    """That of both whose limit is lower, which is the limit of their row."""
    is_group = group.limit is not None and (one.limit is None or group.limit < one.limit)
    return group if is_group else one


def row_group(group: PlannedGroup) -> PlannedGroup:
    """The group whose settings and amounts a row has: with the one container of a pod, what that
    asks for and gets, the weight of the pod, and the lower limit."""
    one = asking_one(group)
    return replace(one, parent=group.parent, weight=group.weight, limit=tighter(group, one).limit)


def row_name(group: PlannedGroup, one: PlannedGroup) -> str:
    """The last name of a group, with that of the container that its row shows."""
    paths = dict.fromkeys([group.path, one.path])
    return " / ".join("the host" if path == "." else short(shown(last_name(path)))
                      for path in paths) + scaled(group)


def scaled(group: PlannedGroup, is_alone: bool = False) -> str:
    """The mark of a pod of which an autoscaler sets how many there are. In a list a container of
    such a pod has it too."""
    of = group.group
    return SCALED if of and of.is_scaled and (is_alone or not of.pod[2]) else ""


def row_reason(plan: Plan, group: PlannedGroup, one: PlannedGroup) -> Explanation:
    """The reason of a row: that of a pod where its one container has all that the pod gets."""
    reason = plan.reason(one)
    is_by_pod = reason.cause not in (None, one.path) and not reason.active_weight
    return plan.reason(group) if is_by_pod else reason


def narrow(plan: Plan, group: PlannedGroup) -> str:
    reason = plan.reason(group)
    part = f" {reason.weight}/{reason.active_weight}" if reason.active_weight else ""
    if reason.name == "limit above":
        return f"limit of {cut(short(shown(last_name(reason.cause or ''))), 14)}{part}"
    words = {"the host is full": "host full", "all": "all", "tasks": "its tasks"}
    return words.get(reason.name, reason.name) + part


def label(group: PlannedGroup, view: View, depth: int) -> str:
    """The name of a group: in a tree its last name, indented; in a list, and at the top of what was
    chosen, its path."""
    if group.parent is None:
        return "the host (.)"
    if view.only or depth == 0:
        return short(shown(group.path)) + scaled(group, True)
    below = sum(1 for _ in walk(group.children)) if view.is_folded(group) else 0
    more = f" (+{below} below)" if below else ""
    people = f"  {shown(group.title)}" if group.title and "/" not in group.title else ""
    name = short(shown(last_name(group.path))) + scaled(group)
    return "  " * depth + name + more + people


def reasons(plan: Plan, group: PlannedGroup, view: View) -> list[str]:
    """The reason of a group from long to short, as a table of that width may have it."""
    whole = [why(plan, group, True)] if view.width >= WIDE else []
    return [*whole, *map(starred, whole), why(plan, group, False)]


def starred(words: str) -> str:
    """A reason whose longest mark refers to the note below the table."""
    return words.replace(ELSEWHERE, "throttled*")


def ordered(groups: Sequence[PlannedGroup], view: View) -> list[PlannedGroup]:
    """Groups in the order asked for; that of creation where that is none of groups."""
    return sorted(groups, key=SORTS[view.sort]) if view.sort in SORTS else list(groups)


def below(group: PlannedGroup, view: View) -> list[PlannedGroup]:
    """The children of a group that are shown. Those that ask for nothing are left out, unless all
    are asked for."""
    if view.is_folded(group):
        return []
    return ordered([each for each in group.children if each.want > 0 or view.everything], view)


def tops(plan: Plan, view: View) -> list[PlannedGroup]:
    """The groups at the top of the tree that is shown."""
    if view.chosen is None:
        return [plan.root]
    chosen = [each for each in plan.groups[1:] if view.has(each) and each.depth <= view.depth]
    return ordered([each for each in chosen if not view.has(plan.groups[each.parent or 0])], view)


def family(plan: Plan, view: View) -> list[PlannedGroup]:
    """The groups of a page or a picture in the order of the tree: those chosen, and all above."""
    rows = {0, *(each.row for group in plan.groups if view.has(group)
                 for each in (group, *plan.above(group)))}
    return [group for group in walk([plan.root], lambda group: ordered(group.children, view))
            if group.row in rows]


def rows(plan: Plan, view: View) -> list[PlannedGroup]:
    """The groups of a page or a picture that have a row: a container may be in that of its pod."""
    ones = {one.row for group in plan.groups if (one := asking_one(group)) is not group}
    return [group for group in family(plan, view) if group.row not in ones]


def is_one_of(group: PlannedGroup, view: View) -> bool:
    """Whether a group is chosen, deep enough, and in one of the states asked for."""
    return (group.depth <= view.depth and view.has(group)
            and (not view.only or any(ONLY[name](group) for name in view.only)))


def shown_groups(plan: Plan, view: View) -> Iterator[tuple[PlannedGroup, int]]:
    """The groups of the table in its order, and how deep each stands in it."""
    if view.only:
        yield from ((each, 0) for each in ordered(plan.groups, view) if is_one_of(each, view))
        return
    for top in tops(plan, view):
        for group in walk([top], lambda each: below(each, view)):
            yield group, group.depth - top.depth


def leaves(plan: Plan, chosen: Set[str] | None = None) -> list[PlannedGroup]:
    """The groups without children, in which demands are; of those that are chosen."""
    return [each for each in plan.groups[1:]
            if not each.children and (chosen is None or each.path in chosen)]


def sums(plan: Plan, chosen: Set[str] | None = None) -> dict[str, int]:
    """The slices of the host, or of the groups that are chosen, and how many lack something."""
    of = leaves(plan, chosen)
    whole = [plan.root] if chosen is None else of
    return {"served": sum(each.gets for each in whole), "wanted": sum(each.want for each in whole),
            "lacking": sum(each.gets < each.want for each in of),
            "starved": sum(each.is_starved for each in of),
            "throttled": sum(each.is_throttled for each in plan.groups
                             if chosen is None or each.path in chosen)}


def head(plan: Plan, view: View) -> Iterator[str]:
    """The lines above the table."""
    counts = sums(plan)
    yield text.host_words(plan.model.host)
    yield f"{served_words(plan, view.unit)}; the proved check accepted the plan"
    yield text.asked_words(plan.model)
    yield f"what limits the total: {limiting(plan, view.unit)}"
    yield (f"groups without all that they want: {counts['lacking']}, of these starved:"
           f" {counts['starved']}")


def served_words(plan: Plan, unit: str) -> str:
    """The amounts of the host."""
    served, all_, asked = (text.amount(plan, each, unit)
                           for each in (plan.root.gets, plan.capacity, plan.root.want))
    return f"{served} of {all_} {text.UNIT_WORDS[unit]} served, {asked} wanted"


def limiting(plan: Plan, unit: str) -> str:
    groups = [f"{'the host' if group.parent is None else short(shown(group.path))}"
              f" ({text.amount(plan, group.limit, unit)})" for group in plan.limiting]
    return listed(groups, 8) or "the demands alone"


def span(plan: Plan, group: PlannedGroup, outlook: Outlook) -> tuple[int, int] | None:
    """The range of what a group may be given by where its tasks run, in slices of one period; None
    for one that is firm: it has its plan wherever they run."""
    bounds, host = outlook.ranges[group.path], plan.model.host
    low = math.floor(bounds.low * host.period_us / host.slice_us)
    high = math.ceil(bounds.high * host.period_us / host.slice_us)
    if bounds.is_firm and low <= group.gets <= high:
        return None
    return min(low, group.gets), max(high, group.gets)


def placed(plan: Plan, view: View, outlook: Outlook) -> Iterator[str]:
    """The lines on how far groups may be from the plan by where their tasks run.

    There are none on one CPU, nor where no weights decide.
    """
    if plan.model.host.processors == 1 or not any(plan.reason(group).active_weight
                                                  for group in plan.groups[1:]):
        return
    yield ""
    if outlook.why_not:
        yield "Linux may differ by where tasks run; how far is not known:"
        yield f"  {outlook.why_not}"
        return
    spans = {group.row: span(plan, group, outlook) for group in plan.groups[1:]
             if group.path in outlook.ranges and view.has(group)}
    ranges = {row: each for row, each in spans.items() if each is not None}
    firm = len(spans) - len(ranges)
    if firm:
        yield f"firm to 0.03 CPUs, wherever tasks run: {firm} of {len(spans)} groups"
    if ranges:
        yield "what Linux may give a group by where tasks run (a model):"
        yield from range_lines(plan, view, ranges)
    if spans:
        yield UNKNOWN_NOTE


def range_lines(plan: Plan, view: View, ranges: Mapping[int, tuple[int, int]]) -> Iterator[str]:
    """A line for each group that is not firm, at most MOST_RANGES, the widest ranges."""
    widest = sorted(ranges, key=lambda row: ranges[row][0] - ranges[row][1])[:MOST_RANGES]
    groups = [plan.groups[row] for row in ranges if row in set(widest)]
    rows = [["from", "to", "gets"], *(
        [text.amount(plan, each, view.unit) for each in (*ranges[group.row], group.gets)]
        for group in groups)]
    paths = ["group", *(short(shown(group.path)) for group in groups)]
    for numbers, path in zip(text.table(rows), paths):
        yield f"  {numbers}  {tail(path, max(view.width - width(numbers) - 4, LEAST_NAME))}"
    if len(ranges) > MOST_RANGES:
        yield f"  and {len(ranges) - MOST_RANGES} with narrower ranges; -o json has all"


def foot(plan: Plan, view: View, lines: Sequence[str]) -> Iterator[str]:
    if any("throttled*" in line for line in lines):
        yield THROTTLED_NOTE
    if any(line.endswith(SCALED) for line in lines):
        yield SCALED_NOTE
    idle = sum(1 for group in plan.groups[1:] if group.want == 0 and view.has(group)
               and view.has(plan.groups[group.parent or 0]))
    if idle and not view.everything and not view.only:
        yield f"groups that ask for nothing and are left out (--all shows them): {idle}"


def table(plan: Plan, view: View) -> Table[PlannedGroup]:
    """The groups that are shown as people read them."""
    depths = {group.row: depth for group, depth in shown_groups(plan, view)}
    return Table(columns(plan, view), [plan.groups[row] for row in depths], style=lambda each: (
        STYLES.get("starved" if each.is_starved else plan.reason(each).name, "")),
                 wide=view.width, fitted=Fitted(
            lambda each: reasons(plan, each, view),
            lambda each: label(each, view, depths[each.row]),
            cut if view.chosen is None and not view.only else tail))


def lines(plan: Plan, view: View) -> Styled:
    """All lines with their styles."""
    answer = [*plain(*(cut(each, max(view.width, 80)) for each in head(plan, view)), "")]
    found = table(plan, view)
    answer += found.lines() if found.records else plain(f"no group is {' or '.join(view.only)}")
    return answer + plain(*foot(plan, view, [each for each, _ in answer]))


def amounts(plan: Plan, slices: int | None) -> dict[str, Any] | None:
    """Slices in all units."""
    if slices is None:
        return None
    return {"slices": slices, "millicpu": plan.millicpu(slices),
            "usec": slices * plan.model.host.slice_us}


def range_data(plan: Plan, group: PlannedGroup, outlook: Outlook) -> dict[str, Any] | None:
    """Whether a group is firm, or its range; None where that is not known."""
    if group.path not in outlook.ranges:
        return None
    range_ = span(plan, group, outlook)
    if range_ is None:
        return {"firm": True}
    low, high = (amounts(plan, each) for each in range_)
    return {"firm": False, "from": low, "to": high}


def own(key: str, value: Callable[[Group], Any], none: Any = None) -> Column[PlannedGroup]:
    """A column of what a source says of a group, which the root is not."""
    return fact(key, lambda each: none if each.group is None else value(each.group))


def columns(plan: Plan, view: View, outlook: Outlook | None = None) -> list[Column[PlannedGroup]]:
    """The columns of groups. Slices are in the unit for people, and in all units as data."""
    reason, host = plan.reason, plan.model.host

    def amount(head: str, of: Callable[[PlannedGroup], int | None]) -> Column[PlannedGroup]:
        return Column(head, lambda each: text.amount(plan, of(each), view.unit), key=head,
                      value=lambda each: amounts(plan, of(each)), wide=5)

    def request(each: PlannedGroup) -> str:
        of = each.group.request if each.group else None
        return "" if of is None else text.measured(host, of, view.unit)

    return [
        Column("group", lambda each: each.path, True, "group", forms=FILES),
        Column("title", lambda each: each.title, True, "title", forms=FILES),
        fact("row", lambda each: each.row), fact("parent", lambda each: (
            None if each.parent is None else parent_path(each.path))),
        fact("depth", lambda each: each.depth), fact("weight", lambda each: each.weight),
        Column("weight", lambda each: str(each.weight), forms=FILES),
        Column("weight", lambda each: str(each.weight) if each.path != "." else "", forms=PAGES),
        own("quota_usec", lambda each: each.quota), own("period_usec", lambda each: each.period),
        own("burst_usec", lambda each: each.burst, 0), own("tasks", lambda each: each.tasks),
        own("asks_millicpu", lambda each: float(each.demand)),
        own("request_millicpu", lambda each: None if each.request is None else float(each.request)),
        own("scaled", lambda each: each.is_scaled, False),
        Column("request", request, forms=PAGES, is_optional=True),
        *starmap(amount, view.amounts.items()),
        *([Column[PlannedGroup](BAR_HEAD, lambda each: text.bar(each.gets, each.want, BAR), True,
                                forms=TEXT)] if view.width >= WIDE else []),
        Column("reason", lambda each: reason(each).name, True, "reason", forms=FILES),
        Column("why", lambda each: why(plan, each, True), True, forms=FILES),
        fact("words", lambda each: reason(each).words),
        fact("cause", lambda each: reason(each).cause),
        fact("active_weight", lambda each: reason(each).active_weight or None),
        fact("starved", lambda each: each.is_starved),
        fact("throttled", lambda each: each.is_throttled),
        fact("throttled_not_by_its_limit", lambda each: each.is_throttled_elsewhere),
        *([] if outlook is None else [
            fact("placement", partial(range_data, plan, outlook=outlook))])]


def records(plan: Plan, view: View, outlook: Outlook | None = None) -> Table[PlannedGroup]:
    """The groups as files have them. Filters, order and depth hold as in the table."""
    return Table(columns(plan, view, outlook), [each for each in ordered(plan.groups, view)
                                                if is_one_of(each, view)])


def as_data(plan: Plan, view: View = View(), outlook: Outlook | None = None) -> dict[str, Any]:
    """A plan as data, and how far each group may be from it by where its tasks run."""
    host = plan.model.host
    placement = {} if outlook is None else {"placement": {
        "not_known": outlook.why_not or None, "grain": round(outlook.grain, 4)}}
    return {
        "host": {"cpus": host.processors, "period_usec": host.period_us,
                 "slice_usec": host.slice_us, "capacity": amounts(plan, plan.capacity)},
        "check": "accepted", "engine": plan.by, "demands": plan.model.asked,
        "weights": plan.model.weighed, "served": amounts(plan, plan.root.gets),
        "wanted": amounts(plan, plan.root.want),
        "limiting": [{"group": group.path, "limit": amounts(plan, group.limit)}
                     for group in plan.limiting],
        "refused": plan.model.refused, "notes": plan.model.notes,
        "groups": records(plan, view, outlook).data(), **placement,
    }


def answer(plan: Plan, view: View, outlook: Callable[[], Outlook]) -> TableAnswer:
    """A plan, and how far groups may be from it by where their tasks run."""
    return TableAnswer(lambda: [*lines(plan, view), *plain(*placed(plan, view, outlook()))],
                       lambda: as_data(plan, view, outlook()),
                       files=lambda: [records(plan, view)])
