"""What `period` of the program counts over the periods of a run."""
from __future__ import annotations

import functools
import subprocess

from kernel.faults import KernelFault
from kernel.planned import program
from kernel.scenario import Scenario
from laboratory.readings import KEYS

SECONDS = 120


def answers(scenario: Scenario, lines: list[str]) -> list[str]:
    """The program's answers to a script."""
    words = (str(program()), "run", "--processors", str(scenario.processors), "--period",
             str(scenario.period), "--slice", str(scenario.slice))
    try:
        return list(ran(words, "\n".join(lines) + "\n"))
    except KernelFault as fault:
        raise KernelFault(f"{scenario.name}: {fault}") from fault


@functools.lru_cache(maxsize=512)
def ran(words: tuple[str, ...], text: str) -> tuple[str, ...]:
    """The answers to a script, which repeats of a scenario ask for again."""
    ended = subprocess.run(words, input=text, capture_output=True, text=True, check=False,
                           timeout=SECONDS)
    found = ended.stdout.splitlines()
    refused = [line for line in found if line.startswith("error ")]
    if ended.returncode or refused:
        raise KernelFault(f"{ended.stderr.strip()} {refused[:1]}")
    return tuple(found)


def rounds_of(scenario: Scenario, rounds: int) -> list[str]:
    """The lines of some rounds of a scenario's steps."""
    return [line for step in scenario.steps * rounds
            for line in (*(f"demand {path} {number}" for path, number in step.items()), "period")]


def after(scenario: Scenario, rounds: int) -> dict[str, dict[str, int]]:
    """Each group's counters after some rounds. A group's first counter is `usage_usec`."""
    paths = [".", *scenario.paths]
    lines = [" ".join(words) for words in scenario.settings] + rounds_of(scenario, rounds)
    found: list[dict[str, int]] = []
    for line in answers(scenario, lines + [f"read {path} cpu.stat" for path in paths]):
        name, _, number = line.partition(" ")
        if name == KEYS[0]:
            found.append(dict.fromkeys(KEYS, 0))
        if name in KEYS:
            found[-1][name] = int(number)
    return dict(zip(paths, found))


def counted(scenario: Scenario, settle: int, rounds: int) -> dict[str, dict[str, int]]:
    """By how much each group's counters rise over some rounds, after others that settle."""
    one, two = after(scenario, settle), after(scenario, settle + rounds)
    return {path: {key: two[path][key] - one[path][key] for key in KEYS} for path in two}
