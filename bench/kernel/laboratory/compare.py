"""A plan beside what a kernel gave, and which differences are too great.

Amounts are hundredths of one processor, on the mean over the run.
"""
from __future__ import annotations

from dataclasses import dataclass, field
from fractions import Fraction
from typing import Any

from laboratory import exact, planned
from kernel.layout import Span
from laboratory.readings import KEYS, Run
from kernel.scenario import Scenario

ONE_PROCESSOR = 0.3
BINDING = 0.2
EVEN = 1.0
# Milliseconds that each processor may use of a quota beyond its period.
SLACK = 4
# Most of the processors' time that may be stolen or used by others.
MOST_OTHERS = 0.01
# By how much counters may be read late, in nanoseconds.
LATEST = 20000000


@dataclass
class Line:
    """One group: the plan in slices, the exact share, what it had, and the judgement.

    `least` and `most` bound `had`; None is printed and not judged.
    """

    path: str
    plan: float
    share: float
    had: float
    rule: str = ""
    least: float | None = None
    most: float | None = None

    @property
    def off(self) -> float:
        """How much more than its exact share it had."""
        return self.had - self.share

    @property
    def is_wrong(self) -> bool:
        """Whether it is judged and out of its bounds."""
        return (self.least is not None and self.most is not None
                and not self.least <= self.had <= self.most)


@dataclass
class Outcome:
    """A run beside its plan."""

    scenario: Scenario
    run: Run
    lines: list[Line] = field(default_factory=list)
    plan_counters: dict[str, dict[str, int]] = field(default_factory=dict)
    kernel_counters: dict[str, dict[str, int]] = field(default_factory=dict)
    stolen: float = 0
    idle: float = 0
    others: float = 0

    @property
    def refusal(self) -> str:
        """Why the run says nothing; empty if it does."""
        if self.run.refused:
            return f"the kernel refused {'; '.join(self.run.refused)}"
        if self.run.ready > self.run.times[1]:
            return f"tasks were started {(self.run.ready - self.run.times[1]) // 1000000} ms late"
        late = max(each.at - time for each, time in zip(self.run.readings, self.run.times[1:]))
        if late > LATEST:
            return f"counters were read {late // 1000000} ms late"
        if self.stolen > MOST_OTHERS or self.others > MOST_OTHERS:
            return f"{self.stolen:.1%} stolen, {self.others:.1%} used by others"
        return ""

    @property
    def wrong(self) -> list[Line]:
        """The lines that are out of their bounds."""
        return [line for line in self.lines if line.is_wrong]

    @property
    def worst(self) -> Line:
        """The group with tasks that is furthest from its exact share."""
        return max((line for line in self.lines if line.path in self.scenario.leaves),
                   key=lambda line: abs(line.off))

    def as_data(self) -> dict[str, Any]:
        """All of it as JSON takes it."""
        offsets = {path: self.run.offset(path, period_of(self.scenario, path))
                   for path in self.scenario.files("cpu.max")}
        one, two = (reading.ticks for reading in self.run.readings)
        return {"scenario": self.scenario.name, "key": self.run.key, "refusal": self.refusal,
                "stolen": self.stolen, "idle": self.idle, "others": self.others,
                "late": (self.run.ready - self.run.times[0]) // 1000,
                "stat": [after - before for before, after in zip(one, two)],
                "offsets": offsets, "lines": [vars(line) for line in self.lines],
                "plan": self.plan_counters, "kernel": self.kernel_counters,
                "tasks": [vars(task) for task in self.run.tasks], "guest": self.run.guest}


def period_of(scenario: Scenario, path: str) -> int:
    """The quota period of a group, in microseconds."""
    return int((scenario.files("cpu.max").get(path, "max").split() + ["100000"])[1])


def is_even(scenario: Scenario) -> bool:
    """Whether all groups have equally many tasks, as many as there are processors or more."""
    numbers = {leaf.tasks for leaf in scenario.leaves.values()}
    every = (1 << scenario.processors) - 1
    pinned = any(leaf.cpus != every or leaf.is_spread for leaf in scenario.leaves.values())
    return len(numbers) == 1 and min(numbers) >= scenario.processors and not pinned


def stretches(demands: tuple[int, ...]) -> int:
    """How often in a round a demand begins after periods without one."""
    if all(demands):
        return 1
    return sum(1 for before, now in zip((demands[-1], *demands), demands) if now and not before)


def extra(scenario: Scenario, path: str) -> float:
    """What a limited group may have above its plan in a series: a quota and the slack of each
    processor for each busy stretch, on the mean of a round."""
    text = scenario.files("cpu.max").get(path)
    if text is None or path not in scenario.leaves:
        return 0
    quota = float(exact.quota_of(text) or 0)
    slack = SLACK * 100000 / scenario.period * scenario.processors
    return (quota + slack) * stretches(scenario.leaves[path].demands) / len(scenario.steps)


def judge_series(scenario: Scenario, lines: list[Line]) -> None:
    """Bounds of a series: limited groups from the plan upward, all others both ways. One that
    wakes when a limited group has spent its quota has what that group would have had."""
    above = {line.path: extra(scenario, line.path) for line in lines}
    for line in lines:
        others = sum(above.values()) - above[line.path]
        below = 0 if above[line.path] else others
        line.rule = "series"
        line.least = line.share - below - ONE_PROCESSOR
        line.most = line.share + max(above[line.path], others) + ONE_PROCESSOR


def judge(scenario: Scenario, lines: list[Line], supply: Fraction) -> None:
    """Sets the bounds of what is judged."""
    if scenario.is_series:
        judge_series(scenario, lines)
        return
    bound = exact.binding(scenario, supply)
    below_bound = {line.path for line in lines
                   if any(line.path.startswith(f"{path}/") for path in bound)}
    naps = any(leaf.nap for leaf in scenario.leaves.values())
    for line in lines:
        if line.path in bound:
            set_bounds(line, "limit", BINDING, float(bound[line.path]))
        elif line.path not in scenario.leaves or naps or scenario.unjudged:
            continue
        elif scenario.processors == 1:
            set_bounds(line, "one", ONE_PROCESSOR, line.share)
        elif is_even(scenario) and line.path not in below_bound:
            set_bounds(line, "even", EVEN, line.share)


def set_bounds(line: Line, rule: str, most: float, middle: float) -> None:
    """Bounds on both sides."""
    line.rule, line.least, line.most = rule, middle - most, middle + most


def spent(outcome: Outcome, microseconds: float) -> None:
    """Where the processors' time went, as parts of it. A tick of /proc/stat is 10 ms."""
    one, two = outcome.run.readings
    whole = microseconds * outcome.scenario.processors
    used = outcome.kernel_counters["."]["usage_usec"] / whole
    outcome.stolen = (two.ticks[7] - one.ticks[7]) * 10000 / whole
    outcome.others = two.others / outcome.scenario.processors
    outcome.idle = 1 - used - outcome.stolen - outcome.others


def outcome_of(scenario: Scenario, run: Run, span: Span) -> Outcome:
    """A run of a scenario beside its plan."""
    settle, rounds = scenario.rounds(span.settle), scenario.rounds(span.seconds)
    found = Outcome(scenario, run, kernel_counters=run.rose(),
                    plan_counters=planned.counted(scenario, settle, rounds))
    one, two = run.readings
    microseconds = (two.at - one.at) / 1000
    spent(found, microseconds)
    supply = Fraction(1) - Fraction(found.others + found.stolen).limit_denominator(10**6)
    shares = exact.means(scenario, supply, settle, rounds)
    for path in (".", *scenario.paths):
        plan = found.plan_counters[path][KEYS[0]] / (rounds * scenario.round)
        had = found.kernel_counters[path][KEYS[0]] / microseconds
        found.lines.append(Line(path, 100 * plan, float(shares[path]), 100 * had))
    judge(scenario, found.lines, supply)
    return found
