"""The tables of docs/kernel/scheduler.txt, from the files of `laboratory.held --save` and others.

    PYTHONPATH=tests:bench/kernel /usr/bin/python3 -m laboratory.scheduled_page

A cell has the group that was furthest off, in hundredths of a processor, and the part of the plan
that was served if that is less than 99.5 %.
"""
from __future__ import annotations

import json
from collections.abc import Iterator
from pathlib import Path
from signal import Signals
from statistics import fmean, median
from typing import Any

from kernel.held import ENDS
from laboratory import costs, held_page
from laboratory.held_page import Saved, of, rows

FOLDER = Path(__file__).resolve().parents[1] / "runs"
RUNS, COSTS = FOLDER / "scheduler.jsonl.gz", FOLDER / "costs.jsonl"
# The runs of `arbiterctl hold` itself.
LOOPS = FOLDER / "loops.jsonl.gz"
# The runs of another scheduler, which has the weights of the scenarios.
FLATCG = FOLDER / "flatcg.jsonl"
PAGE = Path(__file__).resolve().parents[3] / "docs/kernel/scheduler.txt"
WAYS = ["scheduler", "weights", "limits", "loop"]


def waits(found: list[Saved]) -> Iterator[str]:
    """How long a piece of work took: the middle of the workers' medians, and the worst of the times
    that 99 of 100 pieces did not exceed, in milliseconds."""
    yield "| A piece takes, ms | " + " | ".join(WAYS) + " |"
    yield "|---" * (len(WAYS) + 1) + "|"
    for name in sorted({each["scenario"] for each in found if each["pieces"]}):
        cells = []
        for way in WAYS:
            pieces = [piece for run in of(found, name, way) for piece in run["pieces"]]
            cells.append(f"{median(each[2] for each in pieces) / 1000:.1f},"
                         f" {max(each[3] for each in pieces) / 1000:.1f}" if pieces else "")
        yield f"| `{name}` | " + " | ".join(cells) + " |"


def cost_rows(found: list[dict[str, Any]]) -> Iterator[str]:
    """Instructions of a pick, with all that a slice takes of the scheduler."""
    yield "| Leaves | instructions a pick | picks |"
    yield "|---|---|---|"
    for each in found:
        if "loops" not in each:
            yield f"| {each['leaves']} | {each['instructions']} | {each['picks']} |"


def work_cell(found: dict[str, Any], phase: str) -> str:
    """Switches of all processors in a second, instructions of each, and the part of the work of
    tasks that are alone on their processors. Runs of four seconds say so."""
    part = found["loops"][phase] / found["loops"]["alone"]
    switches = found["switches"][phase] / found.get("seconds", costs.SECONDS)
    spent = (1 - part) * costs.SECOND / (1 << costs.SHIFT) / switches
    return f"{switches:.0f}, {spent:.0f}, {100 * part:.1f} %"


def work_rows(found: list[dict[str, Any]]) -> Iterator[str]:
    """What the tasks of `laboratory.costs` did by weights and by the scheduler."""
    yield "| CPUs, tasks | weights | weights, slices of 3 ms | scheduler |"
    yield "|---|---|---|---|"
    for each in sorted((one for one in found if "loops" in one),
                       key=lambda one: (one["nap"], one["cpus"])):
        kind = "work for 0.5 ms, sleep for 2" if each["nap"] else "always work"
        cells = [work_cell(each, phase) for phase in costs.PHASES[1:4]]
        yield f"| {each['cpus']}, {each['leaves']} that {kind} | " + " | ".join(cells) + " |"


def loop_rows() -> Iterator[str]:
    """How far groups were off by `arbiterctl hold` itself, and the CPUs that it and all but the
    groups used. Then how long it took until weights ruled, in milliseconds."""
    found = held_page.read([str(LOOPS)])
    yield "| Scenario | `hold` | CPUs used beside the groups |"
    yield "|---|---|---|"
    for name in sorted({each["scenario"] for each in found}):
        runs = of(found, name, "hold")
        others = fmean(each["others"] * each["processors"] for each in runs)
        yield f"| `{name}` | {held_page.cell(runs)} | {others:.2f} |"
    yield "\n| What ends it | weights rule after, ms | runs |"
    yield "|---|---|---|"
    for number, whose in ENDS:
        ends = [each["ended"] for each in found]
        took = [each["ns"] / 1e6 for each in ends
                if (each["signal"], each["whose"]) == (number, whose)]
        if took:
            times = dict.fromkeys(f"{each:.0f}" for each in (min(took), max(took)))
            yield f"| {Signals(number).name} to the {whose} | {' to '.join(times)} | {len(took)} |"


def tables() -> list[str]:
    """All tables of each kind of runs."""
    found = held_page.read([str(RUNS)])
    spent = [json.loads(line) for line in COSTS.read_text(encoding="utf-8").splitlines()]
    all_ = [rows(found, "Scenario", WAYS), waits(found), cost_rows(spent), work_rows(spent),
            loop_rows(), rows(held_page.read([str(FLATCG)]), "Scenario", ["flatcg"])]
    return ["\n".join(each) for each in all_]


if __name__ == "__main__":
    print("\n\n".join(tables()))
