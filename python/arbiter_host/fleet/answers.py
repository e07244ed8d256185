"""The answers of one host to the questions of a fleet, as plain data. Amounts are slices.

Each is worked out from the rows that a worker sent, whose plans are made and accepted by the proved
check here. So a worker that is wrong costs its host alone.
"""
from __future__ import annotations

from collections import Counter
from collections.abc import Callable, Iterator, Sequence
from dataclasses import astuple, dataclass
from fractions import Fraction
from typing import Any

from arbiter import Columns, Host, QuotaColumns
from arbiter.columns import column
from arbiter_host.answers import series
from arbiter_host.answers.explain import leaves, sums
from arbiter_host.base.faults import HostFault
from arbiter_host.base.model import Group, Model, checked
from arbiter_host.base.plan import Engine, Plan, plan_of
from arbiter_host.fleet.work import Action, Job, Sent, SentRows

# Most groups that an answer names for one reason.
MOST_NAMED = 5
# The types of the columns of rows.
KINDS = ("I", "Q", "Q", "Q")
SETTINGS = ("I", "Q", "Q", "Q", "Q")
# What a reply of another form than that of `work` may raise.
BROKEN = (ValueError, KeyError, TypeError, IndexError, AttributeError, OverflowError)


@dataclass(frozen=True)
class HostAnswer:
    """One host's answer."""

    name: str
    answer: dict[str, Any]

    def cpus(self, slices: int) -> Fraction:
        """CPUs that slices of one of its periods are. Fractions add up exactly over hosts."""
        return Fraction(slices * self.answer["slice_usec"], self.answer["period_usec"])

    def of(self, *keys: str | int) -> Fraction:
        """An amount of its answer in CPUs."""
        value: Any = self.answer
        for key in keys:
            value = value[key]
        return self.cpus(value)


def accepted(engine: Engine, host: Host, sent: SentRows) -> Plan:
    """The plan of rows that a worker sent."""
    rows = Columns(*(column(kind, each, "rows")
                     for kind, each in zip(KINDS, sent.columns, strict=True)))
    model = Model(host, {path: Group(path) for path in sent.paths[1:]})
    if not all(isinstance(each, str) for each in sent.paths) or not (
            len(rows) == len(sent.paths) == len(model.groups) + 1):
        raise TypeError(sent.paths)
    return plan_of(engine, model, rows)


Chosen = frozenset[str] | None


def chosen_in(told: dict[str, Any]) -> Chosen:
    """The paths that are chosen; None for all."""
    return None if told["chosen"] is None else frozenset(map(str, told["chosen"]))


def by_workload(plan: Plan, told: dict[str, Any], chosen: Chosen) -> list[dict[str, Any]]:
    """Amounts of the pods of each maker, all that are chosen of it."""
    groups, rows = plan.by_path(), list[dict[str, Any]]()
    for name, pods, request, is_scaled, paths in told["workloads"]:
        of = [groups[path] for path in paths if chosen is None or path in chosen]
        if of:
            rows.append({"workload": str(name), "pods": int(pods), "request_millicpu": int(request),
                         "scaled": bool(is_scaled), "served": sum(each.gets for each in of),
                         "wanted": sum(each.want for each in of),
                         "lacking": sum(each.gets < each.want for each in of)})
    return rows


def explained(_: Job, plans: Iterator[Plan], told: dict[str, Any]) -> dict[str, Any]:
    """The amounts that a host serves, which groups are worst off, and what limits the total."""
    plan, chosen = next(plans), chosen_in(told)
    worst = sorted((each.gets - each.want, each.path, each.row) for each in leaves(plan, chosen)
                   if each.gets < each.want)[:MOST_NAMED]
    limiting = [[each.path, each.limit] for each in plan.limiting]
    return {**sums(plan, chosen), "workloads": by_workload(plan, told, chosen),
            "limits": len(limiting), "limiting": limiting[:MOST_NAMED],
            "worst": [[path, plan.groups[row].gets, plan.groups[row].want]
                      for _, path, row in worst]}


def moved(before: Plan, after: Plan, chosen: Chosen = None) -> list[tuple[int, str]]:
    """By how much the amount of each chosen group without children rises, and its path.

    A pod whose class changes has another path, and its row stays.
    """
    groups, by_path = after.groups, after.by_path()
    if len(before.groups) != len(groups):
        groups = [by_path[each.path] for each in before.groups]
    return [(groups[each.row].gets - each.gets, each.path) for each in leaves(before, chosen)]


def losses(rises: Sequence[tuple[int, str]], sign: int = -1) -> list[list[Any]]:
    """The groups that lose most, or gain most by the sign 1, each with its change."""
    most = sorted((-sign * rise, path) for rise, path in rises if sign * rise > 0)[:MOST_NAMED]
    return [[path, -sign * rise] for rise, path in most]


def compared(_: Job, plans: Iterator[Plan], told: dict[str, Any]) -> dict[str, Any]:
    """The groups that gain by a change, and those that lose."""
    before, after, paths = next(plans), next(plans), told["matched"]
    chosen = chosen_in(told)
    rises = moved(before, after, chosen)
    of_set = [rise for rise, path in rises
              if any(path == each or path.startswith(each + "/") for each in paths)]
    return {"matched": len(paths), "sets": words_in(told["sets"]),
            "before": sums(before, chosen), "after": sums(after, chosen),
            # How many groups have each change.
            "changes": sorted(Counter(rise for rise, _ in rises).items()),
            "changed_groups": sum(of_set), "others": sum(rise for rise, _ in rises) - sum(of_set),
            "gains": losses(rises, 1), "losses": losses(rises)}


def words_in(told: Any) -> list[str]:
    """Words that a worker sent. A TypeError where they are no list of words."""
    if not isinstance(told, list) or not all(isinstance(each, str) for each in told):
        raise TypeError(told)
    return told


def amounts(told: dict[str, Any]) -> dict[str, int]:
    """Amounts of resources by their names."""
    return {str(name): int(amount) for name, amount in told.items()}


def placed(job: Job, plans: Iterator[Plan], told: dict[str, Any]) -> dict[str, Any]:
    """The amounts of each pod by itself beside what is there, and who loses."""
    before, pods = next(plans), list[dict[str, Any]]()
    for (name, _), pod in zip(job.pods, told["pods"], strict=True):
        of_all = {"pod": name, "requests": amounts(pod["requests"]),
                  "not_looked_at": list(map(str, pod["not_looked_at"]))}
        if "why" in pod:
            pods.append({**of_all, "why": str(pod["why"])})
            continue
        after, asking = next(plans), set(pod["asking"])
        groups = [each for each in leaves(after) if each.path in asking]
        rises = moved(before, after)
        lost = [-rise for rise, _ in rises if rise < 0]
        pods.append({**of_all, "gets": sum(each.gets for each in groups),
                     "wants": sum(each.want for each in groups),
                     "left": after.capacity - after.root.gets,
                     "lost": sum(lost), "losing": len(lost),
                     "losers": [[path, -rise] for path, rise in losses(rises)]})
    return {"before": sums(before), "room": amounts(told["room"]), "pods": pods}


def replayed(engine: Engine, host: Host, sent: Sent) -> dict[str, Any]:
    """The sums of each group over all samples."""
    (groups,), told = sent.plans, sent.told
    asked = series.ReplayRows(
        host, groups.paths,
        QuotaColumns(*(column(kind, each, "settings")
                   for kind, each in zip(SETTINGS, groups.columns, strict=True))),
        column("Q", told["demands"], "demand"), column("Q", told["carries"], "carry"),
        int(told["periods"]))
    cells = asked.cells(engine, told["columns"], lambda: None)
    return {"samples": len(asked.demands) // len(asked.paths),
            "unknown": list(map(str, told["unknown"])),
            "groups_of_columns": [{"group": path, **series.summed(each)}
                                  for path, each in cells.items()]}


ACTIONS: dict[Action, Callable[[Job, Iterator[Plan], dict[str, Any]], dict[str, Any]]] = {
    Action.PLAN: explained, Action.CHANGE: compared, Action.PODS: placed}


def answer_of(job: Job, sent: Sent | str, engine: Engine) -> dict[str, Any]:
    """The answer of a host by what its worker sent. A fault where there is none."""
    if isinstance(sent, str):
        raise HostFault(sent)
    try:
        if not all(type(each) is int for each in astuple(sent.host)):
            raise HostFault("a host of other than whole numbers")
        host, chosen = checked(sent.host), chosen_in(sent.told)
        all_ = len(sent.plans[0].paths) - 1 if sent.plans else 0
        groups = all_ if chosen is None else len(chosen)
        answer = ACTIONS[job.action](
            job, (accepted(engine, host, each) for each in sent.plans), sent.told
        ) if job.action in ACTIONS else replayed(engine, host, sent)
        told = {key: words_in(sent.told[key]) for key in ("refused", "notes")} | {
            key: str(sent.told[word]) for key, word in (("demands", "asked"),
                                                        ("weights", "weighed"))}
    except BROKEN as error:
        raise HostFault(f"what its worker answers cannot be read: {type(error).__name__}"
                        ) from error
    except StopIteration as error:
        raise HostFault("its worker answers fewer plans than were asked") from error
    return {"cpus": host.processors, "period_usec": host.period_us, "slice_usec": host.slice_us,
            "capacity": host.capacity, "groups": groups, **answer, **told}
