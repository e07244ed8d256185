"""Holds the plan on a host: each round reads what was used, and writes limits by the proved rule.

The rule is the library's call `arbiter_hold`. Each group is open from its first reading to the
last writing. Its old settings are fsynced before the first write, and restored at the end.

Weights tell Linux how near each task of a group is to a whole CPU. Linux shares weights out on each
CPU's queue by itself: a task that is to have a part of a CPU meets others that are to have the rest
there. Weights are no part of the plan: what a group may use is its limit.
"""
from __future__ import annotations

import functools
import os
import re
import time
from collections import Counter
from collections.abc import Callable, Iterable, Mapping
from dataclasses import dataclass
from typing import Any, NamedTuple

from arbiter import Columns, Host, Reading, Round, Row
from arbiter_host.base import output, safe_files, units
from arbiter_host.base.demands import rise
from arbiter_host.base.faults import HostFault, NoHelp, check_none
from arbiter_host.base.model import (MAX_DEPTH, MAX_GROUPS, Group, Model, TooMany, bind, planned,
                                     up_to_64_cpus)
from arbiter_host.base.names import shown
from arbiter_host.base.plan import Engine, asking
from arbiter_host.base.safe_files import Gone, Identity, Root
from arbiter_host.hold.harm import Harm, LetGo, Sums, served
from arbiter_host.setting import apply
from arbiter_host.setting.apply import BURST, MAXIMUM, WEIGHT, Back, By, Change, Settings
from arbiter_host.setting.record import Record
from arbiter_host.sources import cgroup2, task_times, readings
from arbiter_host.sources.pods import kubelets
from arbiter_host.sources.readings import Counted
from arbiter_host.sources.times import Times

# What is told of a round.
Line = dict[str, Any]

# Failed readings in a row that end the loop.
MOST_FAILED = 2
# Rounds, and their nanoseconds, that a wait may be longer than asked for. After more of both the
# clock has jumped, or nothing ran for long. A round that took long is none of it.
SECOND = 10**9
MOST_MISSED, LONGEST_MISSED = 5, 5 * SECOND
# Groups of another user that are held one by one, and the time that a round may take for them.
MOST_OF_OTHERS, LONGEST_PART = 1024, SECOND // 2
# Groups whose settings are read in a round; of more they are read in turn, and before a writing.
MOST_SETTINGS = 4096
# Objects that are made between two searches for garbage. A round makes some for each group.
MOST_OBJECTS = 200_000
# Links of a folder without folders.
LINKS = 2
# Files that are open beside those of the groups.
SPARE_FILES = 64
# The part of the CPUs that may be used outside the tree without a word.
MOST_OUTSIDE = 0.05


class Ways(NamedTuple):
    """Which groups are held, and what is written besides limits."""

    # Whether groups of kubelet are held too.
    is_forced: bool = False
    has_weights: bool = False
    # A group so many levels below the top is held as one.
    depth: int = MAX_DEPTH


@dataclass
class Kept:
    """A group that is open: what stood in it, what was written last, and its last reading. Groups
    with children are open only where weights are written."""

    folder: str
    identity: Identity
    is_leaf: bool
    # The operator's own settings.
    old: Settings
    stands: Settings
    # What is being written; what stands where nothing is.
    target: Settings
    # Its last reading: the nanoseconds of the clock, its cpu.stat, and what is counted.
    at: int
    stat: str
    counted: Counted
    # Whether neither its use nor its waiting rose in the last round.
    is_idle: bool = False
    # Whether its limit is left alone, since somebody else sets it.
    is_left: bool = False
    # Whether it is held no longer, since limits do harm to it.
    is_let_go: bool = False
    # Slices that the plan of the last round gave it; 0 before its first round.
    planned: int = 0


# The reading of a group that was idle and still is.
IDLE = Reading(0, 0, False)


class Written(NamedTuple):
    """The writes of a round, by path: the line of each leaf, its quota, None for its own limit, and
    all weights."""

    told: dict[str, Line]
    quotas: dict[str, int | None]
    weights: dict[str, int]
    # The number of leaves that have another limit than their own.
    held: int


class WriteFault(HostFault):
    """A fault of a writing, which ends the loop. One of a reading may pass."""


def own_folder() -> str:
    """The folder of the group in which this process runs."""
    path = re.search(r"^0::(/.*)$", cgroup2.file_text("/proc/self", "cgroup") or "", re.M)
    return f"{readings.HOST_TREE}{path.group(1)}" if path else ""


def own_group() -> Identity | None:
    """The group in which this process runs, by whatever path it is reached."""
    try:
        return safe_files.identity_of(own_folder())
    except OSError:
        return None


def is_of_others(folder: str, default: bool = False) -> bool:
    """Whether a folder is neither root's nor this user's; the default where it is gone."""
    try:
        return safe_files.is_of_others(os.lstat(folder))
    except OSError:
        return default


def of_kubelet(folder: str, top: str = "") -> str:
    """The part of a path below a top up to a group of kubelet, which is root's or this user's:
    others may give theirs any name. Empty where there is none."""
    above = kubelets(folder[len(top):])
    return above if above and not is_of_others(top + above, True) else ""


def own_settings(group: Group, old: Settings) -> None:
    """Sets what the operator has set. An idle group counts with weight 1."""
    group.weight, group.quota, group.period = old.weight or 1, old.quota, old.period


def tree_weights(model: Model, leaves: Mapping[str, int]) -> dict[str, int]:
    """The weights of all groups. One with a leaf of `leaves` below it has the sum of its children;
    all other groups keep their own weights."""
    below, held = model.children(), set(leaves)
    found: dict[str, int] = {}
    for path in reversed(model.groups):
        weight = leaves.get(path, model.groups[path].weight)
        if held.intersection(below[path]):
            weight = sum(found[child] for child in below[path])
            held.add(path)
        found[path] = units.bounded_weight(weight)
    return found


class Crowded(Exception):
    """More groups of another user than are held one by one."""


class HeldTree(readings.Tree):
    """The tree of a loop, which reads itself what is counted, and what stands in a group that is
    open. The topmost group of another user and those below it are a part of the tree. It is held as
    one group from the time on when it has too many groups, or takes too long."""

    def __init__(self, loop: Loop, top: str) -> None:
        super().__init__(top, loop.host, depth=loop.ways.depth)
        self.loop, self.most = loop, MOST_OF_OTHERS
        # The parts that are held as one; the part of each group that is in another one.
        self.whole = set[Identity | None]()
        self.parts: dict[str, Group] = {}
        # The part that is being read, and how many groups there may be then; the parts that took
        # too long in the last round.
        self.part: Group | None = None
        self.last, self.slow = 0, set[Identity | None]()

    def look(self) -> readings.TreeReading:
        """A look at all groups. Where there are too many in all, fewer of each other user are held
        one by one."""
        while True:
            self.parts = {}
            can_be_fewer = bool(self.most)
            try:
                look = super().look()
                if not self.has_too_many_leaves(look.model) or not (self.parts and can_be_fewer):
                    return look
            except TooMany:
                if not (self.parts and can_be_fewer):
                    raise
            self.most //= 4

    def has_too_many_leaves(self, model: Model) -> bool:
        """Whether there are more groups without children than can be held."""
        most = self.loop.most_leaves
        return len(model.groups) > most < sum(not below for below in model.children().values())

    def took(self, spent: Mapping[Identity | None, int]) -> None:
        """Takes how long the parts took in a round. One that takes too long twice in a row is held
        as one. (A stop may come in any round.)"""
        slow = {part for part, each in spent.items() if each > LONGEST_PART}
        self.whole |= slow & self.slow
        self.slow = slow

    def add(self, look: readings.TreeReading, entry: os.DirEntry[str], above: str,
            depth: int) -> bool:
        """Adds one group and those below it."""
        if self.part and len(look.model.groups) >= self.last:
            raise Crowded
        return super().add(look, entry, above, depth)

    def add_below(self, look: readings.TreeReading, group: Group, depth: int) -> bool:
        """Adds the groups below one, unless they are a part that is held as one."""
        if self.part or not depth or not is_of_others(group.place):
            return super().add_below(look, group, depth)
        groups, notes = look.model.groups, look.model.notes
        before, said = len(groups), len(notes)
        if group.identity not in self.whole:
            self.part, self.last = group, before + self.most
            try:
                return super().add_below(look, group, depth)
            except Crowded:
                self.whole.add(group.identity)
            finally:
                self.part = None
        for path in list(groups)[before:]:
            del groups[path], self.parts[path]
        notes[said:] = [f"{group.path}: another user has more than {self.most} groups there, or"
                        " they take too long to read: they are held as one"]
        return False

    def read(self, look: readings.TreeReading, group: Group, entry: os.DirEntry[str]) -> bool:
        """Reads a group. One that is open has others below it where its folder has more links."""
        if self.part:
            self.parts[group.path] = self.part
        kept = self.loop.groups.get(group.path)
        if kept is None or kept.identity[1] != entry.inode():
            return super().read(look, group, entry)
        group.identity, handle = kept.identity, self.loop.root.kept[kept.folder]
        self.measure(look, group, handle)
        return os.fstat(handle).st_nlink != LINKS

    def measure(self, look: readings.TreeReading, group: Group, handle: int) -> None:
        """Leaves what is counted to the loop."""
        if self.loop.knows_masks:
            self.bind(look, group, handle)

    def add_tasks(self, look: readings.TreeReading, leaf: Group) -> None:
        if self.loop.ways.has_weights:
            super().add_tasks(look, leaf)


class Loop:
    """The rounds over one tree. `record` is None where nothing is written."""

    # The most leaves that can be held.
    most_leaves = MAX_GROUPS
    # Whether the plan gives a group no more CPUs than it keeps to.
    knows_masks = False

    def __init__(self, engine: Engine, root: Root, top: str, host: Host,
                 record: Record | None = None, ways: Ways = Ways(),
                 clock: Callable[[], int] = time.monotonic_ns) -> None:
        self.engine, self.root, self.host, self.record = engine, root, host, record
        self.ways, self.clock, self.own = ways, clock, own_group()
        # The host of calls that take at most 64 CPUs.
        self.small = up_to_64_cpus(host)
        # The groups that are open, by their paths.
        self.groups: dict[str, Kept] = {}
        self.tree = HeldTree(self, top)
        # What is written for a limit. Many groups have the same one, or one that stays.
        self.written = functools.lru_cache(apply.MOST_KNOWN)(functools.partial(
            engine.library.written, self.small))
        # The number of tasks of each leaf at the last reading.
        self.tasks: dict[str, int] = {}
        # The row of each leaf that the last round planned.
        self.places: dict[str, int] = {}
        self.tell = output.Remarks().tell
        # The folder of each group with what stood in it, is written and may stand, as the undo
        # file has it.
        self.undo: list[tuple[str, Settings, Settings, Settings]] = []
        self.harm = Harm(engine.library, host.processors * (host.period_us // host.slice_us))
        # Whether the limits of a round are written, and whether they stay at the end.
        self.is_written, self.stays = record is not None, False
        # The last time and the microseconds used outside the tree; None after it was told.
        self.outside: tuple[int, int] | None = (-1, 0)
        # Whether no group was kubelet's when the loop began.
        self.is_checked = ways.is_forced
        self.rounds = self.readings = 0

    def text(self, folder: str, file: str, most: int = safe_files.MAX_TEXT) -> str:
        """The text of a file of a group; empty where it cannot be read."""
        try:
            return self.root.read(folder, file, most)
        except HostFault:
            return ""

    def counted(self, folder: str, stat: str, is_leaf: bool, before: Counted | None = None
                ) -> Counted:
        """The counts of a group, and what its tasks did if some waited since the last time."""
        reading = cgroup2.counters(stat, self.text(folder, "cpu.pressure"))
        has_waited = before is None or rise(before.reading.pressure, reading.pressure)
        if not is_leaf or not has_waited:
            return Counted(reading)
        list_ = self.text(folder, "cgroup.threads", task_times.MOST_TEXT)
        return Counted(reading, task_times.tasks(list_))

    def take_up(self, group: Group, is_leaf: bool) -> None:
        """Opens a group that is new, and reads what stands in it."""
        path, folder = group.path, apply.folder_of(group, self.root)
        if len(self.groups) >= safe_files.most_files() - SPARE_FILES:
            self.tell([f"more than {len(self.groups)} groups: the others are left alone, since each"
                       " takes an open file (ulimit -n)"])
            return
        try:
            self.root.keep(folder, group.identity)
            stands, stat = apply.current(self.root, folder), self.root.read(folder, "cpu.stat")
            at, counted = self.clock(), self.counted(folder, stat, is_leaf)
        except HostFault as fault:
            self.root.let_go(folder)
            self.tell([f"{path}: left alone: {fault.message}"])
            return
        self.groups[path] = Kept(folder, group.identity or (0, 0), is_leaf, stands, stands, stands,
                                 at, stat, counted)

    def drop(self, path: str, model: Model) -> None:
        """Closes a group that went, or that has children now or none any more. What stood is put
        back, in the group and in the model."""
        kept = self.groups[path]
        try:
            self.put_back([kept])
        except HostFault as fault:
            if not self.is_of_others(kept):
                raise
            self.tell([fault.message])
        self.root.let_go(self.groups.pop(path).folder)
        group = model.groups.get(path)
        if group is not None and group.identity == kept.identity:
            own_settings(group, kept.old)

    def look(self, kept: Kept, path: str) -> None:
        """Reads what stands in a group. A weight or a burst that somebody set is the operator's. A
        limit that somebody set is left alone from then on. One that is as before the loop is
        written again: systemd gives its units their own limits back at a daemon-reload."""
        now = apply.current(self.root, kept.folder)
        if now.weight != kept.stands.weight:
            kept.old, kept.stands = (each.taking(WEIGHT, now) for each in (kept.old, kept.stands))
        if now.maximum == kept.stands.maximum and now.burst != kept.stands.burst:
            kept.old = apply.with_burst(kept.old, now.burst)
            kept.stands = kept.stands.taking(BURST, now)
        is_back = (now.maximum == kept.old.maximum != kept.stands.maximum
                   and now.burst in (kept.old.burst, kept.stands.burst))
        if is_back and not kept.is_left:
            self.tell([f"{path}: its own limit was set again: it is written anew"])
            kept.stands = now
        elif now != kept.stands:
            if kept.is_leaf and not kept.is_left:
                self.tell([f"{path}: somebody set {apply.in_words(now)}: its limit is left alone"])
            kept.old, kept.stands = apply.restored(now, kept.old, [kept.stands]), now
            kept.is_left = kept.is_leaf
        kept.target = kept.stands

    def is_held(self, group: Group, is_leaf: bool) -> bool:
        """Whether a group may be written. The loop's own is not: it would stop itself. Kubelet's
        are not that came since the loop began."""
        above = "" if self.ways.is_forced else of_kubelet(group.place, self.tree.top)
        if above:
            self.tell([f"{above[1:]}: kubelet owns the limits there: it is left alone (--force)"])
            return False
        if is_leaf and group.identity == self.own:
            self.tell([f"{group.path}: this loop runs there: it is left alone"])
            return False
        return self.ways.has_weights or is_leaf

    def check_owner(self, model: Model) -> None:
        """A fault where kubelet owns a group when the loop begins: it would undo these limits."""
        for folder in [self.tree.top, *(group.place for group in model.groups.values())]:
            if of_kubelet(folder):
                raise HostFault(f"{shown(folder)}: kubelet owns the limits there, and would write"
                                " over these (--force)")
        self.is_checked = True

    def check_controller(self) -> None:
        """A fault where no group can have a limit."""
        if not cgroup2.has_cpu(self.tree.top):
            raise HostFault(f"{shown(self.tree.top)}: the cpu controller is not enabled here"
                            " (cgroup.subtree_control): no group has a limit")

    def look_outside(self, look: readings.TreeReading) -> None:
        """Tells once if much is used outside the tree, whose plan counts on all CPUs."""
        top = look.counted.get(".")
        if self.outside is None or not top or os.path.realpath(self.root.path) == self.tree.top:
            return
        (at, before), now = self.outside, self.clock()
        whole = cgroup2.reading(self.root.path).usage or 0
        outside = whole - sum(each.reading.usage or 0 for each in top.values())
        self.outside = now, outside
        used = 1000 * (outside - before) / (now - at) if now > at >= 0 else 0
        if used > MOST_OUTSIDE * self.host.processors:
            self.tell([f"{used:.1f} CPUs are used outside {shown(self.tree.top)}: its plan counts"
                       f" on all {self.host.processors}"])
            self.outside = None

    def read(self) -> tuple[Model, dict[str, Reading]]:
        """The groups as they stand, and what each leaf used since the last reading of it. Those
        that went are closed."""
        look = self.tree.look()
        model = look.model
        if not model.groups:
            self.check_controller()
            model.notes.append("no groups with the cpu controller are below this folder")
        self.look_outside(look)
        bind(model, look.bound)
        if not self.is_checked:
            self.check_owner(model)
        self.tell(model.notes)
        below = model.children()
        # Whether each group that is held is a leaf.
        there = {path: not below[path] for path, group in model.groups.items()
                 if self.is_held(group, not below[path])}
        self.tasks = {path: look.tasks.get(path) or 1 for path in there}
        for path, kept in list(self.groups.items()):
            is_same = path in there and model.groups[path].identity == kept.identity
            if not is_same or kept.is_leaf != there[path]:
                self.drop(path, model)
        return model, self.read_groups(model, there)

    def read_groups(self, model: Model, there: Mapping[str, bool]) -> dict[str, Reading]:
        """The use of each leaf since its last reading. New groups are opened."""
        used, faults = dict[str, Reading](), list[HostFault]()
        spent, parts = Counter[Identity | None](), self.tree.parts
        self.readings += 1
        turns = 1 + len(self.groups) // MOST_SETTINGS
        for turn, (path, is_leaf) in enumerate(there.items(), self.readings):
            if path not in self.groups:
                self.take_up(model.groups[path], is_leaf)
                continue
            begun = self.clock() if path in parts else 0
            try:
                found = self.read_group(path, turn % turns == 0)
                if is_leaf:
                    used[path] = found
            except Gone:
                self.drop(path, model)
            except HostFault as fault:
                if self.is_of_others(self.groups[path]):
                    self.tell([f"{fault.message}: its limit is left as it is"])
                else:
                    faults.append(fault)
            if path in parts:
                spent[parts[path].identity] += self.clock() - begun
        self.tree.took(spent)
        if faults:
            raise faults[0]
        return used

    def read_group(self, path: str, has_look: bool) -> Reading:
        """The use of a group since its last reading, and what it asks for. Of a group that was idle
        cpu.stat tells whether it still is."""
        kept = self.groups[path]
        if has_look:
            self.look(kept, path)
        limit = kept.stands
        stat, begun = self.root.read(kept.folder, "cpu.stat"), kept.at
        kept.at = self.clock()
        passed = kept.at - begun
        if kept.is_idle and stat == kept.stat and passed > 0:
            return IDLE
        before, kept.stat = kept.counted, stat
        kept.counted = self.counted(kept.folder, stat, kept.is_leaf, before)
        rose = readings.risen(before, kept.counted)
        kept.is_idle = rose.usage == 0 and not rose.pressure
        if rose.usage is None or passed <= 0:
            raise HostFault(f"{shown(kept.folder)}: its reading is older than the last: nothing is"
                            " written")
        with asking(shown(kept.folder)):
            return readings.reading_of(
                self.engine.library, self.small, rose, passed, before.threads,
                kept.counted.threads, (limit.quota, limit.period, limit.burst))

    def rows(self, model: Model) -> list[Row]:
        """The rows of the operator's own settings, which ask for nothing."""
        for path, kept in self.groups.items():
            group = model.groups[path]
            own_settings(group, kept.old)
            group.burst, group.saved = 0, 0
        return model.rows(self.engine.library)

    def held(self, rows: Columns, asked: Mapping[int, tuple[int, bool]]) -> Round:
        """The limits of the next round, from the slices of each leaf's row and whether it asks for
        everything. The proved check accepted their plan."""
        library = self.engine.library
        host = planned(library, self.host)
        asks, for_all = rows.demands.tolist(), [False] * len(rows)
        for row, each in asked.items():
            asks[row], for_all[row] = each
        with asking("no limits"):
            held = self.ask(host, rows.asking(asks), for_all)
        with asking("the check refused the plan"):
            library.check(host, rows.asking(held.demands), held.amounts, held.certificate)
        return held

    def asked(self, read: list[Reading]) -> tuple[dict[int, tuple[int, bool]], list[int]]:
        """The slices that the round asks for the leaf of each row, or everything, from their
        readings; and those that each was not served."""
        slices, for_all, unserved = self.engine.library.round(
            [self.groups[path].planned for path in self.places], [each.used for each in read],
            [each.asked for each in read], [each.is_hungry for each in read])
        return dict(zip(self.places.values(), zip(slices, for_all))), unserved

    def ask(self, host: Host, rows: Columns, hungry: list[bool]) -> Round:
        """The limits of the next round."""
        return self.engine.library.hold(host, rows, hungry)

    def planned(self, model: Model, used: dict[str, Reading]) -> Written:
        """The limits and weights of the next round."""
        rows, weights = self.rows(model), dict[str, int]()
        # One that was let go asks for nothing, so that it moves no limit of others.
        used = {path: Reading(each.used, 0, False) if self.groups[path].is_let_go else each
                for path, each in used.items()}
        self.places = places = {path: row for row, path in enumerate(model.groups, 1)
                                if path in used}
        asked, unserved = self.asked([used[path] for path in places])
        held = self.held(Columns.of(rows), asked)
        found = Written({}, {}, {}, sum(
            held.limits[row] != rows[row].limit and not self.groups[path].is_let_go
            for path, row in places.items()))
        for (path, row), lacks in zip(places.items(), unserved):
            kept, each = self.groups[path], used[path]
            limit = None if kept.is_let_go else held.limits[row]
            kept.planned = held.amounts[row]
            found.told[path] = {"want": held.demands[row], "plan": held.amounts[row],
                                "used": each.used, "limit": limit, "hungry": each.is_hungry,
                                "guess": each.is_guess, "unserved": lacks}
            found.quotas[path] = None
            if limit is not None:
                found.quotas[path], weights[path] = self.written(
                    limit, rows[row].limit, self.standing(kept), self.tasks[path])
        if self.ways.has_weights:
            # A round that holds nobody leaves the weights of the operator.
            found.weights.update(tree_weights(model, weights if found.held else {}))
            for path, line in found.told.items():
                line["weight"] = found.weights[path]
        return found

    def standing(self, kept: Kept) -> int:
        """The quota that stands in a group as the loop writes it; 0 for another one."""
        stands = kept.stands
        is_alike = (stands.period, stands.burst) == (self.host.period_us, 0)
        return stands.quota or 0 if is_alike else 0

    def limited(self, path: str, kept: Kept, found: Written) -> Settings:
        """The text that is written for a limit: what stood where that allows no more."""
        quota = found.quotas[path]
        if found.told[path]["limit"] == 0:
            self.tell(["limits below 1 ms are rounded up to it"])
        if quota is None:
            return kept.old
        return apply.known(kept.old.weight, quota, self.host.period_us, 0)

    def target_of(self, path: str, kept: Kept, found: Written) -> Settings:
        """The limit that a group is to hold. A leaf without one of the rule holds what it holds."""
        if kept.is_left or kept.is_let_go:
            return kept.old
        if kept.is_leaf and path not in found.told:
            return kept.stands
        target = self.limited(path, kept, found) if kept.is_leaf else kept.old
        # An idle group has no weight to be set.
        weight = found.weights.get(path, target.weight) if kept.stands.weight else target.weight
        return apply.known(weight, target.quota, target.period, target.burst)

    def write(self, found: Written) -> int:
        """Writes a round, after what stood is on the disk. Returns how many groups changed."""
        for path, kept in self.groups.items():
            kept.target = self.target_of(path, kept, found)
        changes = [kept for kept in self.groups.values() if kept.target is not kept.stands
                   and kept.target != kept.stands]
        if self.record is None or not self.is_written:
            return 0
        try:
            undo = [(kept.folder, kept.old, kept.target, kept.stands)
                    for kept in self.groups.values()
                    if (kept.stands, kept.target) != (kept.old, kept.old)]
            if changes or self.record.text and undo != self.undo:
                self.record.put(apply.undo_text(self.root, (
                    Change(folder, old, target, earlier=(stands,))
                    for folder, old, target, stands in undo), By.FILES))
                self.undo = undo
            for kept in changes:
                self.set(kept)
        except HostFault as fault:
            raise WriteFault(fault.message) from fault
        return len(changes)

    def set(self, kept: Kept) -> None:
        """Writes the target of a group. One that is gone is dropped by the next reading. One that
        somebody set since it was read is left to that: the kernel may refuse the target then."""
        change = Change(kept.folder, kept.stands, kept.target)
        try:
            for step in apply.steps_of(change, kept.stands, By.FILES):
                apply.check_stands(step, self.root)
                apply.do(step, self.root)
                kept.stands = kept.stands.taking(step.file, kept.target)
        except HostFault as fault:
            kept.target = kept.stands
            if isinstance(fault, (Gone, apply.Meanwhile)):
                return
            if not self.is_of_others(kept):
                raise
            self.tell([f"{fault.message}: its owner may have set it meanwhile"])

    def is_of_others(self, kept: Kept) -> bool:
        """Whether users that are not trusted may set its limit. What they do must end no loop."""
        try:
            status = os.stat(MAXIMUM, dir_fd=self.root.kept[kept.folder], follow_symlinks=False)
        except OSError:
            return True
        return safe_files.is_of_others(status, 0o022)

    def put_back(self, groups: Iterable[Kept]) -> None:
        """Puts back what stood; what somebody else set stays, and is told. A fault of one group is
        told after the others were put back."""
        back, wrong = Back(self.root, By.FILES), []
        for kept in groups:
            try:
                self.take_back(back, kept)
            except HostFault as fault:
                wrong.append(fault.message)
        try:
            if self.record is not None:
                apply.undo(back, [])
        except HostFault as fault:
            wrong.append(fault.message)
        self.tell(back.left)
        check_none(wrong)

    def take_back(self, back: Back, kept: Kept) -> None:
        """Takes the change of a group to what stood in it."""
        now = apply.standing(self.root, kept.folder)
        if now is None:
            return
        wanted = apply.restored(now, kept.old, [kept.stands, kept.target])
        if wanted != kept.old:
            self.tell([f"{kept.folder}: somebody set {apply.in_words(now)}: it is left alone"])
        if wanted != now:
            back.changes.append(Change(kept.folder, now, wanted))

    def round(self, missed: int = 0, is_jump: bool = False) -> Line:
        """One round: reads, asks, writes. Returns the line that tells it."""
        model, used = self.read()
        if is_jump:
            raise HostFault(f"{missed} rounds missed at once: nothing is written. The clock jumped,"
                            " or nothing ran")
        found = self.planned(model, used)
        self.rounds += 1
        return {"round": self.rounds, "missed": missed, "written": self.write(found),
                "held": found.held, "served": served([Sums.of(
                    line for path, line in found.told.items() if not self.groups[path].is_let_go)]),
                "unserved": sum(line["unserved"] for line in found.told.values()),
                "groups": found.told}

    def judge(self, line: Line) -> None:
        """Lets go of the groups to which limits do harm, by the rounds up to one. It is said which,
        and why. A fault where none is left to be held: not where other users have groups, since
        they may do what makes limits harmful."""
        found = self.harm.take(line) if self.is_written else LetGo([])
        if not found.paths:
            return
        output.warn(found.told())
        leaves = {path: self.groups[path] for path in line["groups"]}
        for path in found.paths:
            leaves[path].is_let_go = True
        if not all(kept.is_let_go for kept in leaves.values()):
            return
        if not any(map(self.is_of_others, leaves.values())):
            raise NoHelp("no group is left to be held: limits do not help here, and the loop ends")
        output.warn("no group is left to be held: new ones are")

    def end(self) -> None:
        """Puts back what stood, and removes the undo file if all of it stands again."""
        if self.stays and self.record is not None and self.record.text:
            output.warn(f"limits stand. To undo: arbiterctl undo {shown(self.record.path)} --yes")
            return
        try:
            self.put_back(self.groups.values())
            if self.record is not None:
                self.record.remove()
        except HostFault as fault:
            name = shown(self.record.path) if self.record is not None else ""
            raise HostFault(f"{fault.message}\nto undo: arbiterctl undo {name} --yes") from fault


def run(loop: Loop, times: Times, wait: Callable[[float], bool], emit: Callable[[Line], None],
        begin: Callable[[], object] = lambda: None, is_once: bool = False) -> None:
    """Rounds until the last reading, or until `wait` tells a signal. What stood is put back at each
    end. The limits of the last round stand for an interval. With `is_once` they alone are written,
    and stay. `begin` is called after the first reading."""
    loop.is_written = not is_once and loop.record is not None
    try:
        loop.read()
        begin()
        interval = int(times.interval * SECOND)
        most_late = max(MOST_MISSED * interval, LONGEST_MISSED)
        now = begun = loop.clock()
        turn, failed, readings = 1, 0, 1
        while not wait(max(begun + turn * interval - now, 0) / SECOND):
            until, now = max(begun + turn * interval, now), loop.clock()
            missed = max((now - begun) // interval - turn, 0)
            if missed:
                output.warn(f"{missed} rounds missed")
            if readings == times.number:
                return
            readings += 1
            loop.is_written |= is_once and readings == times.number
            try:
                line = loop.round(missed, now - until > most_late)
            except HostFault as fault:
                failed += 1
                if failed >= MOST_FAILED or is_once or isinstance(fault, WriteFault):
                    raise
                output.warn(fault.message)
            else:
                failed = 0
                emit(line)
                loop.judge(line)
            if readings == times.number and (is_once or loop.record is None):
                loop.stays = is_once
                return
            turn, now = turn + 1 + missed, loop.clock()
    finally:
        loop.end()
