"""Ways of holding a plan on Linux: weights alone, the plan as limits, and the loop of limits.

    PYTHONPATH=tests:bench/kernel /usr/bin/python3 -m laboratory.held --ways weights,loop \
        --save FILE SCENARIO..

SCENARIO is the beginning of names of scenarios. The loop is that of tests/kernel/hold.c; `hold` is
`arbiterctl hold --by scheduler` itself.
"""
from __future__ import annotations

import argparse
import gzip
import json
import sys
from collections.abc import Iterator, Sequence
from dataclasses import dataclass, replace
from statistics import fmean
from typing import Any

from kernel import faults, layout, machine, packages
from kernel.held import (ARCHIVE, ENDS, WAYS, Way, begun, hold_lines, lines_of, loop_line,
                         rounds_in, scheduler_lines)
from kernel.planned import begin
from kernel.scenario import Scenario
from laboratory import compare, exact, planned, readings
from laboratory.__main__ import LATER, sources

# Most of the processors' time that others may use beside a loop, or where tasks come and go; and
# beside Python.
MOST_OTHERS, MOST_BESIDE = 0.03, 0.2
# An instruction takes 2^2 ns in guests of Python, or its rounds would be long.
SHIFT = 2


def planned_for(scenario: Scenario, slices: dict[str, int]) -> dict[str, int]:
    """The program's plan of demands, in slices."""
    lines = [" ".join(words) for words in scenario.settings]
    lines += [f"demand {path} {amount}" for path, amount in slices.items()]
    answer = planned.answers(scenario, [*lines, "plan"])[-len(scenario.paths) - 1:]
    return {path: int(amount) for amount, path in (line.split(" ", 1) for line in answer)}


def usable(scenario: Scenario, step: dict[str, int]) -> dict[str, int]:
    """The demands of a step in slices of the plan, cut at each group's tasks."""
    return {path: int(exact.usable(scenario, path, demand) * scenario.period
                      / (100 * scenario.slice)) for path, demand in step.items()}


def plan(scenario: Scenario) -> dict[str, int]:
    """The program's plan of the first step, in slices; demands are cut at a group's tasks."""
    return planned_for(scenario, usable(scenario, scenario.steps[0]))


def guaranteed(scenario: Scenario) -> dict[str, int]:
    """What each leaf gets where all want all, in slices."""
    whole = scenario.processors * scenario.period // scenario.slice
    return planned_for(scenario, dict.fromkeys(scenario.leaves, whole))


def entitled(scenario: Scenario) -> dict[str, int]:
    """The amounts that the scheduler is given: the plan of the mean demands, as a round of it sees
    them, or what a leaf is guaranteed if that is more. One that asks for less than this comes and
    goes, and then it may catch up."""
    steps = [usable(scenario, step) for step in scenario.steps]
    means = {path: round(fmean(step.get(path, 0) for step in steps)) for path in scenario.leaves}
    most = guaranteed(scenario)
    return {path: max(amount, most[path]) for path, amount in planned_for(scenario, means).items()}


def weights_of(scenario: Scenario, amounts: dict[str, int]) -> dict[str, int]:
    """Weights from a plan: 100 d / (1.01 - d), d the part of a processor of each task. Groups with
    children have the sum of theirs."""
    found = dict.fromkeys(scenario.paths, 0)
    for path in reversed(scenario.paths):
        if path in scenario.leaves:
            most = scenario.leaves[path].tasks * scenario.period // scenario.slice
            amount = min(amounts[path], most)
            found[path] = round(10000 * amount / (101 * most - 100 * amount))
        found[path] = min(max(found[path], 1), 10000)
        above = path.rpartition("/")[0]
        if above:
            found[above] += found[path]
    return found


def limits_of(scenario: Scenario, amounts: dict[str, int], way: Way) -> Iterator[tuple[str, ...]]:
    """The plan as limits of all leaves that have no lesser one."""
    own = scenario.files("cpu.max")
    for path in scenario.leaves:
        quota = max(amounts[path] * scenario.slice * way.period // scenario.period, 1000)
        limit = exact.quota_of(own[path]) if path in own else None
        if limit is None or quota * 100 < limit * way.period:
            yield "write", path, "cpu.max", f"{quota} {way.period}"
            if way.has_burst:
                yield "write", path, "cpu.max.burst", str(quota // 10)


def own_limits(scenario: Scenario) -> dict[str, int]:
    """The limits of groups, in nanoseconds of 100 ms."""
    quotas = {path: exact.quota_of(text) for path, text in scenario.files("cpu.max").items()}
    return {path: max(int(1000000 * quota), 1) for path, quota in quotas.items()
            if quota is not None}


def held_by(scenario: Scenario, way: Way) -> Scenario:
    """What the guest is given: the scenario, with the plan as limits and weights."""
    if way.is_loop or not way.has_limits:
        return scenario
    amounts = plan(scenario)
    made = list(scenario.settings)
    if way.has_weights:
        made = [words for words in made if words[2:3] != ("cpu.weight",)]
        made += [("write", path, "cpu.weight", str(weight))
                 for path, weight in weights_of(scenario, amounts).items()]
    return replace(scenario, settings=[*made, *limits_of(scenario, amounts, way)])


@dataclass(frozen=True)
class Job:
    """One run: a scenario held in a way."""

    scenario: Scenario
    way: Way
    repeat: int
    span: layout.Span

    def key(self, kernel: packages.Kernel) -> str:
        """The name of the run."""
        return f"{self.scenario.name} {kernel.name} {self.way.name} {self.repeat + 1}"

    @property
    def shift(self) -> int:
        """An instruction takes 2^shift ns."""
        return SHIFT if self.way.is_hold else self.scenario.board.shift

    def script(self, is_first: bool = True, is_last: bool = True) -> str:
        """The script of the guest. The first of some runs loads the scheduler, the last one ends
        it."""
        early, beside = "", loop_line(self.scenario, self.way) if self.way.is_loop else ""
        if self.way.is_hold:
            early, beside = hold_lines(self.scenario, ENDS[self.repeat % len(ENDS)])
        elif self.way.is_scheduled:
            early, beside = scheduler_lines(self.scenario, entitled(self.scenario),
                                            guaranteed(self.scenario), own_limits(self.scenario),
                                            is_first=is_first, is_last=is_last)
        return layout.script(held_by(self.scenario, self.way), self.span, beside, early)


def span_of(way: Way, options: argparse.Namespace, repeat: int) -> layout.Span:
    """How long a run is watched. The loop settles for two rounds more."""
    settle = options.settle + (2 if way.is_loop else 0)
    return layout.Span(options.seconds, settle, LATER * repeat, has_grid=False)


def ran(kernel: packages.Kernel, jobs: Sequence[Job], setting: machine.Setting
        ) -> Iterator[dict[str, Any]]:
    """Boots one guest for jobs of one board, and compares them with their plans. Where all are by
    the scheduler it is loaded once."""
    loads = not all(job.way.is_scheduled and not job.way.is_hold for job in jobs)
    lines = lines_of(kernel, jobs[0].scenario.board, setting,
                     [begun(job.script(loads or job is jobs[0], loads or job is jobs[-1]),
                            job.key(kernel)) for job in jobs],
                     ARCHIVE if any(job.way.is_loop and not job.way.is_hold for job in jobs)
                     else None, any(job.way.is_scheduled for job in jobs),
                     any(job.way.is_hold for job in jobs))
    told = rounds_in(lines)
    runs = readings.runs([line for line in lines if not line.startswith("held ")])
    for job, run in zip(jobs, runs, strict=True):
        outcome = compare.outcome_of(job.scenario, run, job.span)
        yield {"release": kernel.release, "way": job.way.name, "repeat": job.repeat,
               "seconds": job.span.seconds, "rounds": told.get(run.key, []),
               "pieces": run.pieces,
               "tasks": [(task.path, task.had, task.moves) for task in run.tasks],
               **(ended(run.told) if job.way.is_hold else {}),
               **brief(outcome), "refusal": refusal_of(outcome, job.way)}


def ended(told: Sequence[str]) -> dict[str, Any]:
    """What `arbiterctl hold` told: its rounds, how it ended, and what was written meanwhile."""
    words = [line.split() for line in told]
    shown = [json.loads(line) for line in told if line.startswith("{")]
    gone = next((each for each in words if each[1:2] == ["gone"]), list[str]())
    return {"ended": {
        "state": " ".join(next((each[1:] for each in words if each[:1] == ["state"]), [])),
        "rounds": len(shown), "missed": sum(each["missed"] for each in shown),
        "plans": [{path: line["plan"] for path, line in each["groups"].items()} for each in shown],
        "whose": gone[0] if gone else "", "signal": int(gone[2]) if gone else 0,
        "ns": int(gone[3]) if gone[3:4] and gone[3].isdigit() else None,
        "status": next((int(each[1]) for each in words if each[:1] == ["status"]), None),
        "wrote": [each[1] for each in words if each[:1] == ["wrote"]],
        "said": [line.removeprefix("said ") for line in told if line.startswith("said ")]}}


def refusal_of(outcome: compare.Outcome, way: Way) -> str:
    """Why a run says nothing. The loop's own time is that of others, and is more. So is what the
    kernel's own tasks do for tasks that end."""
    has_forks = any(leaf.fork for leaf in outcome.scenario.leaves.values())
    most = MOST_BESIDE if way.is_hold else MOST_OTHERS
    if (way.is_loop or has_forks) and outcome.others <= most:
        return replace(outcome, others=0).refusal
    return outcome.refusal


def brief(outcome: compare.Outcome) -> dict[str, Any]:
    """What the table needs of an outcome."""
    data = outcome.as_data()
    kept = ("scenario", "key", "refusal", "stolen", "idle", "others", "kernel")
    lines = [{key: line[key] for key in ("path", "plan", "share", "had")}
             for line in data["lines"]]
    return {**{key: data[key] for key in kept}, "leaves": sorted(outcome.scenario.leaves),
            "processors": outcome.scenario.processors, "lines": lines}


def shown(found: dict[str, Any]) -> str:
    """One run in one line."""
    offs = [line["had"] - line["share"] for line in found["lines"]
            if line["path"] in found["leaves"]]
    root = next(line for line in found["lines"] if line["path"] == ".")
    worst = max(offs, key=abs)
    return (f"{found['key']}: worst {worst:+.1f}, served {100 * root['had'] / root['share']:.1f} %,"
            f" others {100 * found['others']:.1f} % {found['refusal']}")


def arguments(words: Sequence[str]) -> argparse.Namespace:
    """The words of the command line."""
    parser = argparse.ArgumentParser(prog="laboratory.held", description=__doc__.splitlines()[0])
    parser.add_argument("sources", nargs="+", metavar="SCENARIO")
    parser.add_argument("--kernels", default=",".join(packages.KERNELS), metavar="NAME,..")
    parser.add_argument("--ways", default=",".join(WAYS), metavar="NAME,..")
    parser.add_argument("--repeats", type=int, default=1)
    parser.add_argument("--first", type=int, default=0, help="number of the first repeat, from 0")
    parser.add_argument("--seconds", type=float, default=10)
    parser.add_argument("--settle", type=float, default=1)
    parser.add_argument("--boot", type=int, default=6, help="runs of each boot")
    parser.add_argument("--save", metavar="FILE", help="add each run to a file, as JSON lines")
    return parser.parse_args(words)


def batches(jobs: Sequence[Job], boot: int) -> Iterator[list[Job]]:
    """The jobs of each boot, in order."""
    found: list[Job] = []
    for job in jobs:
        if found and (len(found) == boot or (job.scenario.board, job.shift)
                      != (found[0].scenario.board, found[0].shift)):
            yield found
            found = []
        found.append(job)
    if found:
        yield found


def work(words: Sequence[str]) -> int:
    """Runs all, and returns the exit status."""
    options = arguments(words)
    ways = [WAYS[name] for name in options.ways.split(",")]
    lacks = packages.missing()
    if lacks:
        raise faults.KernelFault(lacks)
    begin()
    refused = 0
    for kernel in [packages.kernel(name) for name in options.kernels.split(",")]:
        jobs = [Job(each, way, repeat, span_of(way, options, repeat))
                for each in sources(options.sources) for way in ways
                for repeat in range(options.first, options.first + options.repeats)]
        for batch in batches(jobs, options.boot):
            for found in ran(kernel, batch, machine.Setting(batch[0].shift)):
                print(shown(found), flush=True)
                refused += bool(found["refusal"])
                if options.save:
                    add(options.save, found)
    return 1 if refused else 0


def add(path: str, found: dict[str, Any]) -> None:
    """Adds a run to a file, compressed if its name ends in .gz."""
    line = json.dumps(found) + "\n"
    if path.endswith(".gz"):
        with gzip.open(path, "at", encoding="utf-8") as packed:
            packed.write(line)
    else:
        with open(path, "a", encoding="utf-8") as file:
            file.write(line)


def main() -> int:
    """The command, with its faults in one line."""
    try:
        return work(sys.argv[1:])
    except faults.KernelFault as fault:
        print(f"laboratory.held: {fault}", file=sys.stderr)
        return 2


if __name__ == "__main__":
    sys.exit(main())
