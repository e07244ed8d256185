"""The model of placement against the kept runs: docs/kernel/firm.txt.

    PYTHONPATH=tests:bench/kernel:python /usr/bin/python3 -m laboratory.firm [--write]

A set of kept runs has firm groups and ranged ones. Firm are those that the model says are where
the plan has them, wherever tasks run.
"""
from __future__ import annotations

import sys
from collections.abc import Iterator
from dataclasses import dataclass, field
from fractions import Fraction
from pathlib import Path
from typing import Any

from arbiter import Host
from arbiter_host.answers import placement
from arbiter_host.base.model import Group, Model
from laboratory import kept

FILE = Path(__file__).resolve().parents[3] / "docs/kernel/firm.txt"
# How far a firm group may be from its exact share, in CPUs, and a ranged one out of its range.
OFF, BESIDE = 0.01, 0.003
# The sets in the order in which they were run, and how they came.
SETS = {
    "made": "looked at while the model was made",
    "review": "others, which made the rule for limits",
    "trial": "an earlier trial, which changed nothing",
    "chance": "ten hosts by chance, run after all that",
    "again": "four hosts of docs/LINUX.md, ten runs or more each, later still",
    "eight": "eight CPUs with two caches, of which the model knows nothing",
}


@dataclass
class Judged:
    """The groups of a set: firm ones with how far each was off, ranged ones, and those out."""

    firm: list[float] = field(default_factory=list)
    ranged: int = 0
    out: list[tuple[Any, ...]] = field(default_factory=list)

    @property
    def off(self) -> list[float]:
        """How far the firm groups were off that were off."""
        return [each for each in self.firm if each > OFF]


def host_of(found: dict[str, Any]) -> Model:
    """The model of a kept host."""
    model = Model(Host(found["processors"], found["period"], found["slice"]))
    for each in found["groups"]:
        model.add(Group(each["path"], each["weight"], each["quota"], each["period"],
                        each["burst"], Fraction(each["demand"]), each["tasks"]))
    return model


def judged(set_: str) -> Judged:
    """The groups of the kept runs of a set."""
    found = kept.kept()
    runs = [run for run in found["runs"] if run["set"] == set_]
    outlooks = {name: placement.outlook(host_of(found["hosts"][name]))
                for name in {run["host"] for run in runs}}
    told = Judged()
    for run in runs:
        for path, (share, had) in run["groups"].items():
            range_ = outlooks[run["host"]].ranges[path]
            if range_.is_firm:
                assert range_.low - OFF <= share <= range_.high + OFF, (run["host"], path)
                told.firm.append(abs(had - share))
                continue
            told.ranged += 1
            if not min(range_.low, share) - BESIDE <= had <= max(range_.high, share) + BESIDE:
                told.out.append((run["host"], run["kernel"], path, share, had, range_))
    return told


def row(set_: str, found: Judged) -> str:
    """The row of a set."""
    told = (f"{len(found.off)} of {len(found.firm)} | {100 * max(found.firm):.1f}" if found.firm
            else "none is firm | -")
    return f"| {SETS[set_]} | {told} | {len(found.out)} of {found.ranged} |"


def rows() -> Iterator[str]:
    """The table of all sets."""
    yield "# Firm groups and ranges against kept runs"
    yield ""
    yield ("Written by `laboratory.firm` from `bench/kernel/kept_runs.json.xz`. A point is a hundredth"
           " of one CPU. Who doubts the model draws ten more hosts by a seed:"
           " `PYTHONPATH=tests:bench/kernel python3 -m laboratory.kept --draw SEED FOLDER`.")
    yield ""
    yield "| Kept runs | Firm: off by more than 1 point | worst | Others: out of the range |"
    yield "|---|---|---|---|"
    yield from (row(set_, judged(set_)) for set_ in SETS)


def main(words: list[str]) -> None:
    """Prints the table, or writes it."""
    text = "\n".join(rows()) + "\n"
    if "--write" in words:
        FILE.write_text(text, encoding="utf-8")
    else:
        print(text, end="")


if __name__ == "__main__":
    main(sys.argv[1:])
