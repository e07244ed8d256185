#!/usr/bin/env python3
"""Periods of the native program while its threads are stopped, moved and pushed aside.

usage: bench/perturbed.py [PROGRAM] [--periods N] [--seconds S] [--seed N]

10,000 periods, or as many as 600 seconds have room for. Each process has a random tree and serves
some periods, with the counters printed after each. Meanwhile it is stopped and continued by
signals, its threads are moved among the processors, and other processes yield and spin beside it.
The counters are replayed by tests/plan_model.py: each group has drawn its amount of each period.
Ends with status 1 at the first answer that is wrong or does not come.
"""
import argparse
import contextlib
import importlib
import os
import random
import signal
import subprocess
import sys
import tempfile
import time
from collections.abc import Iterator
from pathlib import Path
from typing import NamedTuple

from runs import note, program_of

sys.path.append(str(Path(__file__).resolve().parent.parent / "tests"))
MODEL = importlib.import_module("plan_model")

PERIOD_US, SLICE_US = 1_000_000, 1000
# Periods of one process, and its greatest number of seconds.
BLOCK, BLOCK_SECONDS = 50, 120
# A process that never waits, and one that yields and does nothing else.
SPINS = "while True: pass"
YIELDS = "import os\nwhile True: os.sched_yield()"


class Wrong(Exception):
    """An answer that is not the replay's, or that did not come."""


class Tree(NamedTuple):
    """A host's processors, and below its root some groups: path, parent's row, weight, limit."""

    processors: int
    lines: list[str]
    paths: list[str]
    amounts: list[int]


def tree(chosen: random.Random) -> Tree:
    """A random tree of one or two levels, and the plan that tests/plan_model.py has for it."""
    processors = chosen.choice([1, 2, 3, 4, 8, 16, 64])
    capacity = processors * PERIOD_US // SLICE_US
    rows, paths, lines = [MODEL.Row(None)], ["."], []

    def add(path: str, parent: int, is_leaf: bool) -> None:
        weight, wants = chosen.randint(1, 500), chosen.randint(0, capacity) if is_leaf else 0
        limit = chosen.choice([None, chosen.randint(1, capacity)])
        rows.append(MODEL.Row(parent, weight, limit, wants))
        paths.append(path)
        lines.extend([f"mkdir {path}", f"write {path} cpu.weight {weight}"])
        if limit is not None:
            lines.append(f"write {path} cpu.max {limit * SLICE_US} {PERIOD_US}")
        if is_leaf:
            lines.append(f"demand {path} {wants}")

    for top in range(chosen.randint(1, 5)):
        leaves = chosen.randint(0, 3)
        parent = len(rows)
        add(f"g{top}", 0, leaves == 0)
        for leaf in range(leaves):
            add(f"g{top}/x{leaf}", parent, True)
    amounts = MODEL.Instance(rows, capacity).plan()
    return Tree(processors, lines, paths, list(amounts))


def usages(text: str) -> dict[str, int]:
    """The microseconds that each group has drawn, by its path, of the lines of a report."""
    found = {}
    for line in text.splitlines():
        words = line.split()
        if len(words) == 5 and words[0].isdigit():
            found[words[4]] = int(words[0])
    return found


def replay(made: Tree, said: str, periods: int) -> None:
    """Compares what was printed with the plan, period by period."""
    parts = said.split("served ")[1:]
    if len(parts) != periods:
        raise Wrong(f"{len(parts)} of {periods} periods were served: {said[-200:]!r}")
    for count, part in enumerate(parts, 1):
        served, _, report = part.partition("\n")
        if served != str(made.amounts[0]):
            raise Wrong(f"period {count} served {served} and not {made.amounts[0]}")
        wanted = {path: count * amount * SLICE_US
                  for path, amount in zip(made.paths, made.amounts)}
        if usages(report) != wanted:
            raise Wrong(f"period {count} drew {usages(report)} and not {wanted}")


def threads(process: int) -> list[int]:
    """The threads of a process, or none where it is gone."""
    try:
        return [int(name) for name in os.listdir(f"/proc/{process}/task")]
    except OSError:
        return []


def disturb(process: "subprocess.Popen[bytes]", chosen: random.Random) -> None:
    """Stops and continues the process, and moves its threads, until it ends or its time is over."""
    cores, until = sorted(os.sched_getaffinity(0)), time.monotonic() + BLOCK_SECONDS
    while process.poll() is None:
        if time.monotonic() > until:
            process.kill()
            raise Wrong(f"no end in {BLOCK_SECONDS} seconds")
        for thread in threads(process.pid):
            with contextlib.suppress(OSError):
                some = chosen.sample(cores, chosen.randint(1, len(cores)))
                os.sched_setaffinity(thread, some)
        process.send_signal(signal.SIGSTOP)
        time.sleep(chosen.random() / 1000)
        process.send_signal(signal.SIGCONT)
        time.sleep(chosen.random() / 500)


@contextlib.contextmanager
def neighbours(count: int) -> Iterator[None]:
    """As many processes that spin, and as many that yield."""
    words = [[sys.executable, "-c", text] for text in [SPINS, YIELDS] for _ in range(count)]
    beside = [subprocess.Popen(each) for each in words]
    try:
        yield
    finally:
        for each in beside:
            each.kill()
            each.wait()


def block(program: str, chosen: random.Random, periods: int, room: str) -> None:
    """One process with so many periods, disturbed, whose answers are replayed."""
    made = tree(chosen)
    given, answers = Path(room, "given"), Path(room, "answers")
    given.write_text("\n".join([*made.lines, *["period", "report"] * periods, ""]))
    words = [program, "run", "--processors", str(made.processors), "--period", str(PERIOD_US),
             "--slice", str(SLICE_US)]
    with open(given, "rb") as script, open(answers, "wb") as out:
        with subprocess.Popen(words, stdin=script, stdout=out) as process:
            try:
                disturb(process, chosen)
            finally:
                process.kill()
    if process.returncode:
        raise Wrong(f"status {process.returncode}")
    try:
        replay(made, answers.read_text(), periods)
    except Wrong as wrong:
        raise Wrong(f"{wrong}\n{given.read_text()}") from wrong


def perturbed(program: str, periods: int, seconds: float, seed: int) -> int:
    """The number of periods that were served and replayed: all, or those of the time."""
    chosen, until, made = random.Random(seed), time.monotonic() + seconds, 0
    with tempfile.TemporaryDirectory(prefix="perturbed-") as room, neighbours(2):
        while made < periods and time.monotonic() < until:
            some = min(BLOCK, periods - made)
            block(program, chosen, some, room)
            made += some
    return made


def main() -> None:
    asked = argparse.ArgumentParser(prog="perturbed.py", description="Disturbed periods, replayed.")
    asked.add_argument("program", nargs="?", metavar="PROGRAM")
    asked.add_argument("--periods", type=int, default=10_000)
    asked.add_argument("--seconds", type=float, default=600)
    asked.add_argument("--seed", type=int, default=1)
    options = asked.parse_args()
    try:
        made = perturbed(program_of(options.program), options.periods, options.seconds,
                         options.seed)
    except Wrong as wrong:
        note(f"seed {options.seed}: {wrong}")
        sys.exit(1)
    print(f"{made} of {options.periods} periods, all as replayed (seed {options.seed})")


if __name__ == "__main__":
    main()
