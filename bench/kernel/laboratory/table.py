"""Outcomes as text: a table for each run, and pages' tables from saved runs."""
from __future__ import annotations

from collections.abc import Iterator
from typing import Any

from laboratory.compare import Outcome, period_of
from laboratory.readings import KEYS


def limited(outcome: Outcome) -> list[str]:
    """The groups with a limit."""
    return list(outcome.scenario.files("cpu.max"))


def counters(found: dict[str, int]) -> str:
    """Periods, throttled periods, throttled milliseconds, bursts, milliseconds of bursts."""
    _, periods, throttled, usec, bursts, burst_usec = (found[key] for key in KEYS)
    return f"{periods}/{throttled}/{usec / 1000:.0f}/{bursts}/{burst_usec / 1000:.0f}"


def placement(outcome: Outcome, path: str) -> str:
    """Where the tasks of a group were seen, in parts of a hundred, and how often they moved."""
    told = []
    for task in outcome.run.tasks:
        if task.path == path:
            whole = max(sum(task.seen), 1)
            parts = ":".join(f"{100 * each / whole:.0f}" for each in task.seen)
            told.append(f"{parts} ({task.moves})")
    return ", ".join(told)


def stolen(outcome: Outcome) -> str:
    """The part of the time that was stolen, as far as the guest can see it."""
    clocks = outcome.run.guest.get("steal", "0")
    return f"{outcome.stolen:.1%}" if clocks != "0" else "unseen (the guest has no clock of it)"


def verdict(line: Any) -> str:
    """What a line's judgement says."""
    if line.least is None:
        return "not judged"
    word = "WRONG" if line.is_wrong else "within"
    return f"{line.rule}: {word} {line.least:.1f}..{line.most:.1f}"


def shown(outcome: Outcome) -> Iterator[str]:
    """The table of one run."""
    scenario = outcome.scenario
    yield f"{outcome.run.key}: {scenario.about}"
    yield (f"  {scenario.processors} processors; idle {outcome.idle:.1%}, stolen"
           f" {stolen(outcome)}, others {outcome.others:.1%}")
    if outcome.refusal:
        yield f"  REFUSED: {outcome.refusal}"
    yield "     plan    exact      had      off  group"
    for line in outcome.lines:
        yield (f" {line.plan:8.2f} {line.share:8.2f} {line.had:8.2f} {line.off:+8.2f}  {line.path}"
               f"  [{verdict(line)}]")
    for path in limited(outcome):
        offset = outcome.run.offset(path, period_of(scenario, path))
        yield (f"  {path}: periods/throttled/ms/bursts/ms: plan"
               f" {counters(outcome.plan_counters[path])}, kernel"
               f" {counters(outcome.kernel_counters[path])}; quota periods begin"
               f" {'?' if offset is None else offset} us after demands'")
    if scenario.processors > 1:
        for path in scenario.leaves:
            yield f"  {path}: tasks seen on processors (moves): {placement(outcome, path)}"


def summary(outcomes: list[Outcome]) -> Iterator[str]:
    """How many lines were judged, and those that are wrong."""
    judged = [line for each in outcomes for line in each.lines if line.least is not None]
    wrong = [(each, line) for each in outcomes for line in each.wrong]
    for each, line in wrong:
        yield f"WRONG {each.run.key} {line.path}: had {line.had:.2f}, {verdict(line)}"
    refused = [each for each in outcomes if each.refusal]
    for each in refused:
        yield f"REFUSED {each.run.key}: {each.refusal}"
    yield (f"{len(outcomes)} runs, {len(judged)} groups judged, {len(wrong)} wrong,"
           f" {len(refused)} runs refused")
