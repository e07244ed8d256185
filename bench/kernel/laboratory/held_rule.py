"""The rounds that hold.c told, asked again of the C library."""
from __future__ import annotations

from typing import Any

from arbiter import Host, Library, Row
from kernel.held import Way
from kernel.scenario import Scenario

# Microseconds of a slice of hold.c.
SLICE = 1000
# The slices that are asked for by a leaf that asks for everything.
EVERYTHING = 1000000


def rows_of(scenario: Scenario, way: Way, asked: dict[str, int]) -> list[Row]:
    """The rows of a round, as hold.c has them: settings of the scenario, and what leaves ask."""
    weights, maxima = scenario.files("cpu.weight"), scenario.files("cpu.max")
    place, found = {"": 0}, [Row(None, 100, None, 0)]
    for path in scenario.paths:
        place[path] = len(found)
        quota, _, own = maxima.get(path, "max").partition(" ")
        limit = None if quota == "max" else int(quota) * way.period // int(own or 100000) // SLICE
        found.append(Row(place[path.rpartition("/")[0]], int(weights.get(path, 100)), limit,
                         asked.get(path, 0)))
    return found


def by_the_rule(library: Library, scenario: Scenario, way: Way, found: list[dict[str, Any]]
                ) -> dict[str, tuple[int, int | None]]:
    """The plan and the limit of each leaf of a round, by the library. None is the own limit."""
    asked = {each["path"]: each["want"] for each in found}
    rows = rows_of(scenario, way, {path: each for path, each in asked.items()
                                   if each != EVERYTHING})
    answer = library.hold(Host(scenario.processors, way.period, SLICE), rows,
                          [False, *(asked.get(path) == EVERYTHING for path in scenario.paths)])
    leaves = {row: path for row, path in enumerate(scenario.paths, 1) if path in asked}
    is_calm = all(answer.limits[row] == rows[row].limit for row in leaves)
    return {path: (answer.amounts[row], None if is_calm else answer.limits[row])
            for row, path in leaves.items()}
