"""Shares in exact fractions, without slices: what a plan is as slices get small.

This is arithmetic of the test alone. No part of the product shows it as a plan.
Amounts are hundredths of one processor.
"""
from __future__ import annotations

from dataclasses import dataclass, field
from fractions import Fraction

from kernel.scenario import Scenario

ROOT = "."


@dataclass
class Node:
    """A group: its weight, its limit of one period (None is none), its demand and children."""

    path: str
    weight: int | Fraction = 100
    quota: Fraction | None = None
    burst: Fraction = Fraction(0)
    saved: Fraction = Fraction(0)
    demand: Fraction = Fraction(0)
    children: list[Node] = field(default_factory=list)

    @property
    def limit(self) -> Fraction | None:
        """The limit of this period: the quota with what was saved up."""
        if self.quota is None:
            return None
        return min(self.saved + self.quota, self.quota + self.burst)

    @property
    def want(self) -> Fraction:
        """What it asks for, before its own limit."""
        if not self.children:
            return self.demand
        return sum((child.bounded for child in self.children), Fraction(0))

    @property
    def bounded(self) -> Fraction:
        """What it asks for, at most its limit."""
        return self.want if self.limit is None else min(self.want, self.limit)


def share(amount: Fraction, children: list[Node]) -> dict[str, Fraction]:
    """Splits an amount by weight. Who needs less than that leaves the rest to the others."""
    given, asking = {child.path: Fraction(0) for child in children}, list(children)
    while asking:
        weights = sum((child.weight for child in asking), Fraction(0))
        met = [child for child in asking if child.bounded * weights <= amount * child.weight]
        if not met:
            given |= {child.path: amount * child.weight / weights for child in asking}
            return given
        for child in met:
            given[child.path] = child.bounded
            amount -= child.bounded
        asking = [child for child in asking if child not in met]
    return given


def split(node: Node, amount: Fraction) -> dict[str, Fraction]:
    """What a group and all below it get of an amount."""
    got = {node.path: min(amount, node.bounded)}
    for path, part in share(got[node.path], node.children).items():
        child = next(each for each in node.children if each.path == path)
        got |= split(child, part)
    return got


def quota_of(text: str) -> Fraction | None:
    """The text of a `cpu.max` in hundredths of one processor."""
    maximum, _, period = text.partition(" ")
    return None if maximum == "max" else Fraction(100 * int(maximum), int(period or 100000))


def tree(scenario: Scenario) -> dict[str, Node]:
    """The groups of a scenario by path, the root first, with their settings."""
    nodes = {ROOT: Node(ROOT)}
    for path in scenario.paths:
        nodes[path] = Node(path)
        nodes[path.rpartition("/")[0] or ROOT].children.append(nodes[path])
    for path, text in scenario.files("cpu.weight").items():
        nodes[path].weight = int(text)
    maxima = scenario.files("cpu.max")
    for path, text in maxima.items():
        nodes[path].quota = quota_of(text)
    for path, text in scenario.files("cpu.max.burst").items():
        period = int((maxima.get(path, "max 100000").split() + ["100000"])[1])
        nodes[path].burst = Fraction(100 * int(text), period)
    return nodes


def usable(scenario: Scenario, path: str, slices: int) -> Fraction:
    """A demand in hundredths of one processor, at most one processor for each task."""
    asked = Fraction(100 * slices * scenario.slice, scenario.period)
    return min(asked, Fraction(100 * scenario.leaves[path].tasks))


def means(scenario: Scenario, supply: Fraction, settle: int, rounds: int) -> dict[str, Fraction]:
    """What each group gets in a period on the mean over some rounds, after others that settle.

    `supply` is the part of the processors that there was.
    """
    nodes = tree(scenario)
    total = {path: Fraction(0) for path in nodes}
    capacity = 100 * scenario.processors * supply
    for number in range(settle + rounds):
        for step in scenario.steps:
            for path, slices in step.items():
                nodes[path].demand = usable(scenario, path, slices)
            got = split(nodes[ROOT], capacity)
            for path, node in nodes.items():
                node.saved = Fraction(0) if node.limit is None else node.limit - got[path]
                total[path] += got[path] if number >= settle else 0
    return {path: amount / (rounds * len(scenario.steps)) for path, amount in total.items()}


def binding(scenario: Scenario, supply: Fraction) -> dict[str, Fraction]:
    """The limits that bind, of a scenario without a series: what they let through."""
    nodes = tree(scenario)
    for path, slices in scenario.steps[0].items():
        nodes[path].demand = usable(scenario, path, slices)
    got = split(nodes[ROOT], 100 * scenario.processors * supply)
    return {path: got[path] for path, node in nodes.items()
            if node.quota is not None and got[path] == node.quota and node.want > node.quota}
