"""What a guest printed, as numbers."""
from __future__ import annotations

from collections.abc import Iterator
from dataclasses import dataclass, field

from kernel.faults import KernelFault
from kernel.layout import HOME

KEYS = ("usage_usec", "nr_periods", "nr_throttled", "throttled_usec", "nr_bursts", "burst_usec")
STAT = "/cpu.stat"


@dataclass
class Task:
    """One task: microseconds that it had, how often it moved, and where it was seen."""

    path: str
    had: int
    moves: int
    seen: tuple[int, ...]


@dataclass
class Reading:
    """The counters of all groups at a time (nanoseconds), and the ticks of all processors. The
    second one has the part of one processor that all other tasks used since the first."""

    at: int
    others: float = 0
    groups: dict[str, dict[str, int]] = field(default_factory=dict)
    ticks: tuple[int, ...] = ()


@dataclass
class Run:
    """One run of a scenario. `grid` has the times at which quota periods began, by group.

    `ready` is when the last task was started, in nanoseconds, and `started` their number. `guest` is what the guest said of
    itself: its kernel, its clock, and how many of its processors have a clock of stolen time
    (`steal`).
    """

    key: str
    times: tuple[int, ...] = ()
    readings: list[Reading] = field(default_factory=list)
    tasks: list[Task] = field(default_factory=list)
    grid: dict[str, list[int]] = field(default_factory=dict)
    refused: list[str] = field(default_factory=list)
    told: list[str] = field(default_factory=list)
    # How long pieces of work took, of each task that naps: their number, and the microseconds of
    # the middle one, of 99 of 100 and of the longest.
    pieces: list[tuple[str, int, int, int, int]] = field(default_factory=list)
    ready: int = 0
    started: int = 0
    guest: dict[str, str] = field(default_factory=dict)

    def rose(self) -> dict[str, dict[str, int]]:
        """By how much each counter of each group rose."""
        one, two = self.readings
        return {path: {key: found[key] - one.groups[path][key] for key in KEYS}
                for path, found in two.groups.items()}

    def offset(self, path: str, period: int) -> int | None:
        """Microseconds from the start of a demand period to that of a quota period."""
        times = self.grid.get(path)
        return (times[-1] - self.times[0]) // 1000 % period if times else None


def group_of(file: str) -> str:
    """The group of a cpu.stat of the guest."""
    return file.removeprefix(HOME).removesuffix(STAT).lstrip("/") or "."


def add_line(run: Run, file: str, words: list[str]) -> None:
    """A line of a file that was watched."""
    if file.endswith(STAT) and len(words) == 2 and words[0] in KEYS:
        counters = run.readings[-1].groups.setdefault(group_of(file), dict.fromkeys(KEYS, 0))
        counters[words[0]] = int(words[1])
    elif words[0] == "cpu":
        run.readings[-1].ticks = tuple(map(int, words[1:9]))


def add(run: Run, line: str, file: str) -> str:
    """Adds a line to a run. Returns the file whose lines follow."""
    words = line.split()
    if words[:1] == ["times"]:
        run.times = tuple(map(int, words[1:]))
    elif words[:1] == ["ready"]:
        run.ready, run.started = int(words[1]), int(words[2])
    elif words[:1] == ["at"]:
        run.readings.append(Reading(int(words[1])))
    elif words[:1] == ["others"]:
        run.readings[-1].others = int(words[1]) / int(words[2])
    elif words[:1] == ["file"]:
        return words[1]
    elif words[:1] == ["grid"]:
        run.grid.setdefault(group_of(words[1]), []).append(int(words[2]))
    elif words[:1] == ["task"]:
        had, _, _, _, moves, *seen = map(int, words[2:])
        run.tasks.append(Task(words[1], had, moves, tuple(seen)))
    elif words[:1] == ["pieces"]:
        number, middle, late, most = map(int, words[2:])
        run.pieces.append((words[1], number, middle, late, most))
    elif words[:1] == ["scheduler"]:
        run.told.append(line)
        if words[1] == "arbiter-scheduler:" and "ended after" not in line:
            run.refused.append(line)
    elif words[:1] == ["loop"]:
        run.told.append(line.removeprefix("loop "))
    elif words[:1] == ["refused"]:
        run.refused.append(line.removeprefix("refused "))
    elif words and file and run.readings:
        add_line(run, file, words)
    else:
        run.told.append(line)
    return file


def runs(lines: list[str]) -> Iterator[Run]:
    """The runs of a guest."""
    found, file, guest = Run(""), "", dict[str, str]()
    for line in lines:
        if line.startswith("run "):
            if found.key:
                yield checked(found)
            found, file = Run(line[4:], guest=guest), ""
        elif not found.key:
            name, _, text = line.partition(" ")
            guest[name] = text
        else:
            file = add(found, line, file)
    if found.key:
        yield checked(found)


def checked(run: Run) -> Run:
    """A run that was read whole."""
    if (len(run.readings) != 2 or not run.tasks or len(run.times) != 3
            or run.readings[0].groups.keys() != run.readings[1].groups.keys()):
        raise KernelFault(f"{run.key}: the guest did not read it whole: {run.told[-3:]}")
    if len(run.tasks) != run.started:
        raise KernelFault(f"{run.key}: {len(run.tasks)} of {run.started} tasks told what they had:"
                          f" a task never began: {run.told[-3:]}")
    return run
