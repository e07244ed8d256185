"""Rounds of `hold --by scheduler`: the plan goes to the kernel's scheduler, and no file is written.

The program `arbiter-scheduler` loads the scheduler and takes plans by a pipe. What a group used and
how long its tasks waited is read from the same pipe. The kernel schedules by weights again when
that program ends, whatever ends it.
"""
from __future__ import annotations

import os
import shutil
import time
from collections.abc import Iterator, Sequence
from typing import Any, NamedTuple

from arbiter import Columns, Host, LeafTimes, Library, Reading, Round
from arbiter_host.base import children, units
from arbiter_host.base.faults import HostFault
from arbiter_host.base.model import Group, Model
from arbiter_host.base.names import shown
from arbiter_host.hold import hold
from arbiter_host.hold.hold import Line, WriteFault, Written
from arbiter_host.sources import cgroup2, readings

PROGRAM = "arbiter-scheduler"
# Where it is looked for beside PATH.
FOLDERS = "/usr/sbin:/usr/local/sbin"
# Seconds within which it answers: a slow machine loads it for a while.
LONGEST = 60
# Bytes of a line of it.
MOST_LINE = 1 << 12
# The rows of a plan that it takes, beside the rest: leaves, groups with children, and the loop's
# own group. And the limits.
MOST_LEAVES = MOST_LIMITS = 4095
# The period of limits in nanoseconds; the most slices and the greatest limit that a word has.
LIMIT_PERIOD, MOST_SLICES, MOST_LIMIT = 10**8, 10**9, 512 * 10**8
# Nanoseconds of a microsecond.
MICRO = 1000
# The row of the loop's own group.
OWN_ROWS = 1


class Limit(NamedTuple):
    """A group's limit and burst in nanoseconds of 100 ms, and the nearest group above that has one.
    Groups are numbers of folders; 0 is none."""

    group: int
    most: int
    burst: int
    above: int


class Served(NamedTuple):
    """A leaf's amount and guarantee in slices, and the nearest group with a limit, itself or
    above."""

    group: int
    amount: int
    guarantee: int
    limited: int


class Given(NamedTuple):
    """A plan as the scheduler takes it: the host's slices, the limits, the leaves, the groups with
    children, below which others may come, each with its nearest limit. And the amount and the
    guarantee of the rest."""

    slices: int
    limits: list[Limit]
    leaves: list[Served]
    inner: list[tuple[int, int]]
    rest: tuple[int, int] = (0, 0)

    @property
    def lines(self) -> Iterator[str]:
        """The commands."""
        rows: dict[str, Sequence[tuple[int, ...]]] = {
            "plan": [(self.slices,)], "rest": [self.rest], "limit": self.limits,
            "leaf": self.leaves, "inner": self.inner, "end": [()]}
        return (" ".join(map(str, (word, *row))) for word, each in rows.items() for row in each)


class Counts(NamedTuple):
    """Counts of the scheduler since it was loaded: picks, turns of tasks that waited for long,
    stops of leaves at a limit, and tasks that got no number."""

    picks: int
    late: int
    stops: int
    unplanned: int


class Scheduler:
    """The program that runs, and what is said to it. Each answer has a deadline and a bound."""

    def __init__(self, top: str, program: str = "") -> None:
        found = program or shutil.which(PROGRAM, path=f"{os.environ.get('PATH', '')}:{FOLDERS}")
        if not found:
            raise HostFault(f"--by scheduler: no {PROGRAM}: apt-get install {PROGRAM}")
        self.child = children.Child([found, top])
        self.counts = Counts(0, 0, 0, 0)
        self.answer("ready")

    def fault(self, about: str) -> WriteFault:
        """The last words that it said; it is ended if it has not."""
        self.child.kill()
        self.finish()
        said = self.child.said.decode(errors="replace").strip().splitlines()
        return WriteFault(shown(said[-1][:400]) if said else f"{PROGRAM}: {about}")

    def step(self, until: float) -> None:
        """Moves what it says and is told. A fault where it ended or is late."""
        if not self.child.step(until):
            raise self.fault("it ended")
        if time.monotonic() > until:
            raise self.fault("it does not answer")

    def say(self, *lines: str) -> None:
        """Sends commands."""
        until = time.monotonic() + LONGEST
        self.child.give("".join(f"{line}\n" for line in lines).encode())
        while self.child.given:
            self.step(until)

    def lines(self) -> Iterator[list[str]]:
        """The words of each line that comes in time."""
        until, said = time.monotonic() + LONGEST, self.child.out
        while True:
            line, mark, _ = said.partition(b"\n")
            if mark:
                del said[:len(line) + 1]
                yield line.decode("ascii", "replace").split()
                continue
            if len(said) > MOST_LINE:
                raise self.fault("it answers what is no reading")
            self.step(until)

    def answer(self, last: str) -> list[list[str]]:
        """The lines of an answer up to the one that begins with a word."""
        found: list[list[str]] = []
        for words in self.lines():
            found.append(words)
            if words[:1] == [last]:
                break
        return found

    def read(self) -> dict[int, LeafTimes]:
        """The times of each group of the last plan since the last reading, by the number of its
        folder. What was counted is kept."""
        self.say("read")
        lines: list[list[str]] = [[], *self.answer("read")]
        *leaves, counts, last = lines
        try:
            passed = int(last[1])
            if counts[:1] != ["counts"]:
                raise self.fault("it answers what is no reading")
            self.counts = Counts(*map(int, counts[1:]))
            return {int(words[1]): LeafTimes(passed, *map(int, words[2:5]))
                    for words in filter(None, leaves)}
        except (ValueError, TypeError, IndexError) as error:
            raise self.fault("it answers what is no reading") from error

    def plan(self, given: Given) -> None:
        """Gives it a plan."""
        self.say(*given.lines)
        self.answer("plan")

    def end(self) -> None:
        """Ends it: the kernel schedules by weights again."""
        self.child.give(b"", is_last=True)
        self.finish()

    def finish(self) -> None:
        """Reads what it says up to its end, for a time, and ends it if it has not."""
        until = time.monotonic() + LONGEST
        while self.child.step(until) and time.monotonic() < until:
            pass
        self.child.end()


def folders_above(top: str) -> Iterator[str]:
    """The folders of a tree from the one below its root down to a top; none beside a tree of the
    host."""
    found, place = list[str](), os.path.realpath(top)
    while len(place) > len(readings.HOST_TREE) and place.startswith(readings.HOST_TREE):
        found.append(place)
        place = os.path.dirname(place)
    yield from reversed(found) if found else [top]


def weight_of(folder: str) -> int | None:
    """The weight of a group; 0 of an idle one. None where the cpu controller is not enabled."""
    return cgroup2.number_in(cgroup2.file_text(folder, "cpu.weight"))


def weights_in(folder: str, name: str = "") -> int:
    """The weights of the groups of a folder that have tasks, but for one of this name, added up."""
    with os.scandir(folder) as entries:
        found = [each.path for each in entries
                 if each.name != name and each.is_dir(follow_symlinks=False)]
    return sum(weight_of(each) or 0 for each in found
               if "populated 1" in (cgroup2.file_text(each, "cgroup.events") or ""))


def weights_above(top: str) -> tuple[list[int], list[int]]:
    """The weight of a top and of each group above it but the root, and the weights of those beside
    each. Of the host's root itself those of its groups. None beside a tree of the host."""
    if os.path.realpath(top) == readings.HOST_TREE:
        return [weights_in(top)], [0]
    own, others = list[int](), list[int]()
    for folder in reversed([*folders_above(top)]):
        weight, (above, name) = weight_of(folder), os.path.split(folder)
        if weight is not None and folder.startswith(readings.HOST_TREE):
            own.append(weight)
            others.append(weights_in(above, name))
    return own, others


def limit_of(library: Library, group: int, settings: tuple[int | None, int, int], above: int
             ) -> Limit | None:
    """The limit of a group's quota, period and burst in microseconds, if it has one."""
    quota, period, burst = settings
    if quota is None:
        return None
    most = library.allowed(quota, period, 0, LIMIT_PERIOD)
    return Limit(group, min(most, MOST_LIMIT), min(burst * MICRO, MOST_LIMIT), above)


def settings_of(folder: str) -> tuple[int | None, int, int]:
    """The quota, the period and the burst that stand in a folder; a fault where it has a limit that
    cannot be read."""
    text = cgroup2.file_text(folder, "cpu.max")
    words = (text or "max 100000").split()
    burst = cgroup2.number_in(cgroup2.file_text(folder, "cpu.max.burst") or "0")
    quota, period = (cgroup2.number_in(word) for word in (words * 2)[:2])
    if len(words) != 2 or not period or quota is None and words[0] != "max":
        raise HostFault(f"{folder}: its cpu.max cannot be read")
    return quota, period, burst or 0


class ScheduledLoop(hold.Loop):
    """The rounds of a tree whose plan the scheduler serves. A guarantee that the CPUs of a group do
    not allow would be kept for nobody, so the plan knows them."""

    knows_masks = True

    def __init__(self, scheduler: Scheduler, *words: Any, **more: Any) -> None:
        super().__init__(*words, **more)
        self.scheduler, self.used = scheduler, dict[int, LeafTimes]()
        self.most_leaves = MOST_LEAVES
        # The amount and the guarantee of each row, in slices.
        self.served = list[int](), list[int]()
        self.model = Model()
        # What the scheduler was given last of each group.
        self.last_limits, self.last_leaves = dict[int, Limit](), dict[int, Served]()
        # kubelet's groups are served too, since nothing in them is written
        self.is_checked = True

    def is_held(self, group: Group, is_leaf: bool) -> bool:
        """Each leaf has a part of the plan, the loop's own too."""
        return is_leaf

    def read(self) -> tuple[Model, dict[str, Reading]]:
        """The groups as they stand, and what each leaf used."""
        self.used = self.scheduler.read()
        return super().read()

    def read_group(self, path: str, has_look: bool) -> Reading:
        """The use of a group and what it asked for: the kernel counts what tasks wait, so no hunger
        is guessed. One that was in no plan yet is read as by limits."""
        kept = self.groups[path]
        each = self.used.get(kept.identity[1])
        if each is None or not each.passed:
            return super().read_group(path, has_look)
        if has_look:
            self.look(kept, path)
        return self.engine.library.leaf_reading(self.host, each)

    def planned(self, model: Model, used: dict[str, Reading]) -> Written:
        """The limits of the next round."""
        self.model = model
        return super().planned(model, used)

    def ask(self, host: Host, rows: Columns, hungry: list[bool]) -> Round:
        """The limits of the next round. And what the scheduler is given for it: a leaf is
        guaranteed what it gets where all ask for everything."""
        library, inner = self.engine.library, set(rows.parents)
        amounts, _ = library.serve(host, rows, hungry)
        asks = [0 if row in inner else units.MAX_DEMAND for row in range(len(rows))]
        self.served = amounts, library.plan(host, rows.asking(asks))
        return super().ask(host, rows, hungry)

    def write(self, found: Written) -> int:
        """Gives the scheduler the limits of all groups, and the amount and the guarantee of each
        leaf and of the rest."""
        given = self.bounded(self.given())
        rest = self.engine.library.rest(given.slices, sum(each.amount for each in given.leaves),
                                        *weights_above(self.tree.top))
        self.scheduler.plan(given._replace(rest=rest))
        self.last_limits = {each.group: each for each in given.limits}
        self.last_leaves = {each.group: each for each in given.leaves}
        return len(given.leaves)

    def bounded(self, given: Given) -> Given:
        """Cuts a plan to what the scheduler takes. Leaves beyond its rows are below the nearest
        group that has one."""
        inner = given.inner[:self.most_leaves // 2]
        most = self.most_leaves - len(inner) - OWN_ROWS
        if len(given.leaves) > most:
            self.tell([f"more than {most} leaves: the others are in the rest, with what the plan"
                       " leaves"])
        if len(given.limits) > MOST_LIMITS:
            self.tell([f"more than {MOST_LIMITS} limits: the others bind no more"])
        kept, limits = given.leaves[:most], given.limits[:MOST_LIMITS]
        there = {0, *(each.group for each in limits)}
        leaves = [each if each.limited in there else each._replace(limited=0) for each in kept]
        return given._replace(inner=[(each, above * (above in there)) for each, above in inner],
                              limits=limits, leaves=leaves)

    def given(self) -> Given:
        """Makes the plan for the scheduler. A group that cannot be read keeps what it had."""
        limits, leaves, inner = list[Limit](), list[Served](), list[tuple[int, int]]()
        top, nearest = self.limits_above(limits)
        inner.append((top, nearest["."]))
        children, (amounts, guarantees) = self.model.children(), self.served
        for path, group in self.model.groups.items():
            number = group.identity[1] if group.identity else 0
            above = nearest[os.path.dirname(path) or "."]
            limit = self.limit(path, group, number, above)
            limits += [limit] if limit else []
            nearest[path] = limit.group if limit else above
            row = self.places.get(path)
            if row is not None:
                leaves.append(Served(number, min(amounts[row], MOST_SLICES), guarantees[row],
                                     nearest[path]))
            elif children[path]:
                inner.append((number, nearest[path]))
            elif number in self.last_leaves:
                leaves.append(self.last_leaves[number]._replace(limited=nearest[path]))
        return Given(self.host.capacity, limits, leaves, inner)

    def limits_above(self, limits: list[Limit]) -> tuple[int, dict[str, int]]:
        """Adds the limits of the top and of the groups above it. Returns the top's number, and the
        nearest limit of what is in it."""
        number = above = 0
        for folder in folders_above(self.tree.top):
            number = os.stat(folder).st_ino
            limit = limit_of(self.engine.library, number, settings_of(folder), above)
            limits += [limit] if limit else []
            above = number if limit else above
        return number, {".": above}

    def limit(self, path: str, group: Group, number: int, above: int) -> Limit | None:
        """A group's own limit. One that is open and was not read in this round keeps its last."""
        kept = self.groups.get(path)
        last = self.last_limits.get(number)
        if kept is not None and path not in self.places and last is not None:
            return last._replace(above=above)
        burst = kept.old.burst if kept is not None else group.burst
        settings = group.quota, group.period, burst
        return limit_of(self.engine.library, number, settings, above)

    def round(self, missed: int = 0, is_jump: bool = False) -> Line:
        """One round, with what the scheduler counted up to its reading."""
        return {**super().round(missed, is_jump), "scheduler": self.scheduler.counts._asdict()}

    def end(self) -> None:
        """Ends the scheduler."""
        self.scheduler.end()
