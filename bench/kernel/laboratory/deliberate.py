"""Deliberate faults: what the guest is given differs from what the plan is made of.

They show that a comparison can fail.
"""
from __future__ import annotations

from dataclasses import replace

from kernel.faults import KernelFault
from kernel.scenario import Scenario


def siblings(scenario: Scenario, path: str) -> list[str]:
    """The other groups with the same parent."""
    above = path.rpartition("/")[0]
    return [each for each in scenario.paths if each != path and each.rpartition("/")[0] == above]


def swapped_weights(scenario: Scenario) -> Scenario:
    """The first two siblings of different weight have each other's."""
    found = scenario.files("cpu.weight")
    for one in scenario.paths:
        for two in siblings(scenario, one):
            weights = {one: found.get(two, "100"), two: found.get(one, "100")}
            if weights[one] != weights[two]:
                others = [words for words in scenario.settings
                          if words[1] not in weights or words[2:3] != ("cpu.weight",)]
                writes = [("write", path, "cpu.weight", text) for path, text in weights.items()]
                return replace(scenario, settings=[*others, *writes])
    raise KernelFault(f"{scenario.name}: no siblings of different weight")


def moved_quota(scenario: Scenario) -> Scenario:
    """The first limit stands in a sibling."""
    for path in scenario.files("cpu.max"):
        for other in siblings(scenario, path):
            changed = [(words[0], other, *words[2:])
                       if words[1] == path and words[2:3] == ("cpu.max",) else words
                       for words in scenario.settings if words[:2] != ("write", other)]
            order = sorted(changed, key=lambda words: words[0] != "mkdir")
            return replace(scenario, settings=order)
    raise KernelFault(f"{scenario.name}: no limit and a sibling")


FAULTS = {"weights": swapped_weights, "quota": moved_quota}
