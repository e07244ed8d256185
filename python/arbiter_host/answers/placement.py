"""Distances of groups from their plan by where Linux puts their tasks: the ends of some runs.

The library has no rule of this. The runs are those of a model of Linux's balancer, balancer.py.
"""
from __future__ import annotations

import math
from typing import NamedTuple

from arbiter_host.answers.balancer import Branch, Run, Shape, Task, TooMuchWork, chain, limit_of
from arbiter_host.base.model import Group, Model
from arbiter_host.base.names import parent_path

MOST_RUNS, LEAST_RUNS = 16, 8
# Work of all runs: groups and tasks each time that they are looked at. A second has more.
MOST_WORK = 400_000
MOST_TASKS = 512
MOST_PROCESSORS = 64
# Longest time, in seconds, in which the model lets each task do its work: whatever is planned for,
# a task that sleeps does so within a tenth of a second.
LONGEST = 0.1
# Greatest difference of two runs, in CPUs, at which groups are firm where no limit binds.
FIRM = 0.015
# What is added at each end of a range, in CPUs, and the part of a limit that may not be reached.
SLACK = 0.01
UNREACHED = 0.05


class Bounds(NamedTuple):
    """The least and the most that a group may have, in CPUs, and whether all runs are alike."""

    low: float
    high: float
    is_firm: bool


class Outlook(NamedTuple):
    """The ranges by group, or why there are none. `grain` is the greatest planned share of one task
    over the mean load of a CPU."""

    ranges: dict[str, Bounds]
    why_not: str = ""
    grain: float = 0.0


def unknown_of(model: Model) -> str:
    """The unknowns of a host, or what is too much, in words; empty if there is nothing."""
    if model.host.processors == 1:
        return "one CPU"
    asking = [group for group in leaves(model) if group.usable > 0]
    unknown = sum(group.tasks is None for group in asking)
    if unknown:
        return f"groups that ask and have no number of tasks: {unknown}"
    if not asking:
        return "nothing is asked for"
    bound = sum(group.keeps_to is not None for group in model.groups.values())
    if bound:
        return f"groups that keep to some CPUs: {bound}"
    count = sum(group.tasks or 0 for group in asking)
    if count > MOST_TASKS or model.host.processors > MOST_PROCESSORS:
        return f"more than {MOST_TASKS} tasks or {MOST_PROCESSORS} CPUs"
    return ""


def leaves(model: Model) -> list[Group]:
    below = model.children()
    return [group for path, group in model.groups.items() if not below[path]]


def shape_of(model: Model) -> Shape:
    """The shape of a host of which all is known."""
    period, nodes = min(model.host.period_us / 1e6, LONGEST), {".": Branch(".")}
    for path, group in model.groups.items():
        quota = math.inf if group.quota is None else group.quota / 1e6
        nodes[path] = Branch(path, float(group.weight), nodes[parent_path(path)], quota,
                             group.period / 1e6, group.burst / 1e6)
    for group in leaves(model):
        count, node = group.tasks or 0, nodes[group.path]
        if group.usable > 0:
            work = min(float(group.usable) / 1000 / count, 1.0) * period
            node.tasks = [Task(node, work) for _ in range(count)]
    tasks = [task for node in nodes.values() for task in node.tasks]
    busy = {node for task in tasks for node in chain(task.group)}
    kept = [node for node in nodes.values() if node in busy]
    for node in kept:
        if node.above is not None:
            node.above.children.append(node)
    return Shape(model.host.processors, period, kept, tasks)


def grain(shape: Shape) -> float:
    """The greatest planned share of one task over the mean load of a CPU."""
    part = {shape.nodes[0]: 1.0}
    for node in shape.nodes:
        whole = sum(child.weight for child in node.children)
        part |= {child: part[node] * child.weight / whole for child in node.children}
    return max((part[task.group] / len(task.group.tasks) for task in shape.tasks),
               default=0.0) * shape.processors


def most_of(shape: Shape) -> dict[str, float]:
    """The most that each group can have, in CPUs: its tasks' work, cut at limits."""
    most = {node.path: sum(task.work for task in node.tasks) / shape.period
             for node in shape.nodes}
    for node in reversed(shape.nodes):
        most[node.path] = min(most[node.path], shape.processors, *map(limit_of, chain(node)))
        if node.above is not None:
            most[node.above.path] += most[node.path]
    return most


def ranges(shape: Shape) -> dict[str, Bounds] | None:
    """The range of each group; None if that is too much work."""
    first = Run(shape, 0, MOST_WORK / LEAST_RUNS)
    try:
        runs = [first.had()]
    except TooMuchWork:
        return None
    count = min(MOST_WORK // max(first.work, 1), MOST_RUNS)
    runs += [Run(shape, seed).had() for seed in range(1, count)]
    spans = {node.path: (min(had), max(had)) for node, had in zip(shape.nodes, zip(*runs))}
    most = most_of(shape)
    are_alike = max(high - low for low, high in spans.values()) <= FIRM
    return {node.path: range_of(node, spans, most[node.path], are_alike) for node in shape.nodes}


def range_of(node: Branch, spans: dict[str, tuple[float, float]], most: float,
             are_alike: bool) -> Bounds:
    """A group's range, from the least and the greatest that each group had in the runs. Some runs
    rarely show the ends. A limit that binds is not always reached."""
    low, high = spans[node.path]
    more = (high - low) / 4 + SLACK
    binds = any(spans[each.path][1] > limit_of(each) * (1 - UNREACHED) for each in chain(node))
    low = low * (1 - UNREACHED) if binds else low
    return Bounds(max(low - more, 0.0), min(high + more, most), are_alike and not binds)


def outlook(model: Model) -> Outlook:
    """The distance of each group from its plan by where Linux puts its tasks."""
    unknown = unknown_of(model)
    if unknown:
        return Outlook({}, unknown)
    shape = shape_of(model)
    spans = ranges(shape)
    if spans is None:
        return Outlook({}, "too many groups, tasks and CPUs", grain(shape))
    return Outlook(spans, grain=grain(shape))
