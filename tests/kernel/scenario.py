"""Scenarios: a script of `arbiter run` with its tasks, and the options of its lines `#:`."""
from __future__ import annotations

import argparse
import re
import shlex
from dataclasses import dataclass, field
from pathlib import Path

from kernel.faults import KernelFault
from kernel.machine import Board

MOST_TASKS = 512
SETTINGS = ("mkdir", "write")
QUESTIONS = ("plan", "total", "cert", "read", "report")


@dataclass(frozen=True)
class Leaf:
    """A group with a demand: slices in each period of a round, and the tasks that work for it.

    `nap` is microseconds that a task sleeps after its work; 0 is a task that goes by periods.
    `cpus` is the mask of the processors that its tasks may use. With `is_spread` each task keeps
    to one of them, in turn. So many tasks as `nice` says are at nice 19, and so many as `kept` says
    keep to processor 0. With a `fork` each task works for so many microseconds in a new task, again
    and again.
    """

    demands: tuple[int, ...]
    tasks: int
    nap: int
    cpus: int
    is_spread: bool = False
    nice: int = 0
    fork: int = 0
    kept: int = 0

    def mask(self, number: int) -> int:
        """The processors that a task may use; tasks are numbered from 0."""
        if number < self.kept:
            return 1
        if not self.is_spread:
            return self.cpus
        found = [1 << at for at in range(self.cpus.bit_length()) if self.cpus >> at & 1]
        return found[number % len(found)]


@dataclass
class Scenario:
    """The groups of a script in order of creation, and the demands of each period of a round."""

    name: str
    about: str = ""
    processors: int = 1
    sockets: int = 1
    period: int = 100000
    slice: int = 1000
    # Microseconds from the start of a demand period to that of a quota period; None: as it comes.
    offset: int | None = None
    # Why its shares are printed and not judged, in words.
    unjudged: str = ""
    # Features of the kernel's scheduler that are set for it, such as NO_PLACE_LAG.
    features: tuple[str, ...] = ()
    # The only kernel that it is for; empty: all.
    kernel: str = ""
    # Tasks that always work in no group of the scenario.
    outside: int = 0
    settings: list[tuple[str, ...]] = field(default_factory=list)
    paths: list[str] = field(default_factory=list)
    leaves: dict[str, Leaf] = field(default_factory=dict)
    steps: list[dict[str, int]] = field(default_factory=list)

    @property
    def board(self) -> Board:
        """What its guest is."""
        return Board(self.processors, self.sockets)

    @property
    def is_series(self) -> bool:
        """Whether the demands change by period."""
        return len(self.steps) > 1

    @property
    def round(self) -> int:
        """The length of a round of the steps, in microseconds."""
        return self.period * len(self.steps)

    def rounds(self, seconds: float) -> int:
        """The whole rounds that are at least so long."""
        return max(1, -(-round(seconds * 1000000) // self.round))

    def points(self, slices: float) -> float:
        """Slices of a period as hundredths of one processor."""
        return 100 * slices * self.slice / self.period

    def files(self, name: str) -> dict[str, str]:
        """What the script last writes to a file of this name, by group."""
        return {words[1]: words[3] for words in self.settings
                if words[0] == "write" and words[2] == name}


def pair(text: str) -> tuple[str, int]:
    """An option's value `PATH=N`, or `N` for all groups. N may be 0x.. too."""
    path, _, number = text.rpartition("=")
    try:
        return path or "*", int(number, 0)
    except ValueError:
        raise argparse.ArgumentTypeError(f"{text!r} is neither N nor PATH=N") from None


def options_parser() -> argparse.ArgumentParser:
    """The options of a script's lines `#:`."""
    parser = argparse.ArgumentParser(prog="#:", add_help=False, exit_on_error=False)
    parser.add_argument("--processors", type=int, default=1)
    parser.add_argument("--sockets", type=int, default=1)
    parser.add_argument("--period", type=int, default=100000)
    parser.add_argument("--slice", type=int, default=1000)
    parser.add_argument("--tasks", type=pair, action="append", default=[])
    parser.add_argument("--nap", type=pair, action="append", default=[])
    parser.add_argument("--nice", type=pair, action="append", default=[])
    parser.add_argument("--fork", type=pair, action="append", default=[])
    parser.add_argument("--pin", type=pair, action="append", default=[])
    parser.add_argument("--keep", type=pair, action="append", default=[])
    parser.add_argument("--spread", action="store_true")
    parser.add_argument("--features", type=lambda text: tuple(text.split(",")), default=())
    parser.add_argument("--kernel", default="")
    parser.add_argument("--offset", type=int)
    parser.add_argument("--unjudged", default="")
    parser.add_argument("--outside", type=int, default=0)
    return parser


def of_group(values: list[tuple[str, int]], path: str, default: int) -> int:
    """The number that an option gives a group."""
    found = dict(values)
    return found.get(path, found.get("*", default))


def leaf_of(path: str, demands: tuple[int, ...], options: argparse.Namespace) -> Leaf:
    """A group's tasks: one for each processor that its demand needs, unless they are given."""
    needed = -(-max(demands) // (options.period // options.slice))
    tasks = of_group(options.tasks, path, min(max(needed, 1), options.processors))
    if not 1 <= tasks <= MOST_TASKS:
        raise KernelFault(f"{path}: not 1 to {MOST_TASKS} tasks")
    every = (1 << options.processors) - 1
    return Leaf(demands, tasks, of_group(options.nap, path, 0), of_group(options.pin, path, every),
                options.spread, of_group(options.nice, path, 0), of_group(options.fork, path, 0),
                of_group(options.keep, path, 0))


def parse(name: str, text: str) -> Scenario:
    """The scenario of a script. Groups and files come before the first period."""
    options = options_parser().parse_args([])
    found = Scenario(name)
    now: dict[str, int] = {}
    for line in text.splitlines():
        words = tuple(re.split(r"[ \t]+", line.strip(" \t"), maxsplit=3))
        if line.startswith("#:"):
            options = options_parser().parse_args(shlex.split(line[2:]), options)
        elif line.startswith("#") or words == ("",):
            found.about = found.about or line.lstrip("# ")
        elif words[0] == "period":
            found.steps.append(dict(now))
        elif words[0] == "demand" and len(words) == 3:
            now[words[1]] = int(words[2])
        elif words[0] in SETTINGS and not found.steps:
            found.settings.append(words)
            found.paths += [words[1]] if words[0] == "mkdir" else []
        elif words[0] not in QUESTIONS:
            raise KernelFault(f"{name}: {line!r} has no place in a scenario")
    found.steps = found.steps or [now]
    for key in ("processors", "sockets", "period", "slice", "offset", "unjudged", "features",
                "kernel", "outside"):
        setattr(found, key, getattr(options, key))
    for path in now:
        demands = tuple(step.get(path, 0) for step in found.steps)
        found.leaves[path] = leaf_of(path, demands, options)
    return found


def read(path: Path) -> Scenario:
    """The scenario of a script's file."""
    try:
        return parse(path.stem, path.read_text(encoding="utf-8"))
    except (OSError, ValueError, argparse.ArgumentError) as error:
        raise KernelFault(f"{path}: {error}") from error
