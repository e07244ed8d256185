"""Applies the settings of a model to a host, and undoes that.

Each group that changes is open from the first reading to the last writing. The old settings are in
a synced file before the first change. Steps are in an order that the kernel takes: a burst is never
above the quota that stands beside it.
"""
from __future__ import annotations

import functools
import json
import os
import shlex
from collections.abc import Container, Iterable, Iterator, Sequence
from contextlib import closing
from dataclasses import dataclass, field, replace
from enum import Enum
from fractions import Fraction
from typing import Any

from arbiter_host.base import children, units
from arbiter_host.base.atomic_files import faults, kept_folder, place_of
from arbiter_host.base.faults import HostFault, check_none, naming
from arbiter_host.base.model import Group, Model, check_settings
from arbiter_host.base.names import NOWHERE, raw_path, shown
from arbiter_host.base.safe_files import Gone, Identity, Root, parts_of
from arbiter_host.sources import cgroup2, data
from arbiter_host.sources.systemd import UNIT

# Seconds and bytes of an answer of systemctl.
SECONDS, MOST_PRINTED = 60, 1 << 20
VERSION = 1
# Settings that are kept to be found again.
MOST_KNOWN = 1 << 16
WEIGHT, MAXIMUM, BURST = "cpu.weight", "cpu.max", "cpu.max.burst"
# The settings that each file holds.
FIELDS = {WEIGHT: ("weight",), MAXIMUM: ("quota", "period"), BURST: ("burst",)}


class By(Enum):
    """By which changes are made, as --by has it: files alone, or properties of units where a group
    is one, which systemd drops at the next boot or keeps."""

    FILES = "files"
    RUNTIME = "systemd"
    PERSISTENT = "persistent"


@dataclass(frozen=True)
class Settings:
    """Contents of the files of a group. The quota and the burst are microseconds."""

    weight: int
    quota: int | None
    period: int
    burst: int

    @property
    def maximum(self) -> str:
        """The text of `cpu.max`."""
        return f"{'max' if self.quota is None else self.quota} {self.period}"

    @property
    def files(self) -> dict[str, str]:
        """The text of each file."""
        return {WEIGHT: str(self.weight), MAXIMUM: self.maximum, BURST: str(self.burst)}

    def taking(self, file: str, other: Settings) -> Settings:
        """A step but for a file, which holds what it does in other settings."""
        return replace(self, **{key: getattr(other, key) for key in FIELDS[file]})


@dataclass(frozen=True)
class Change:
    """A group whose settings change: its folder below the root, and the settings."""

    folder: str
    before: Settings
    after: Settings
    # The folder that BEFORE was read from, if it was read from a tree.
    identity: Identity | None = None
    # What a loop may have left in the group besides.
    earlier: tuple[Settings, ...] = ()


@dataclass(frozen=True)
class Step:
    """One change of the host: a file that is written, or properties of a unit."""

    folder: str
    file: str
    old: str
    new: str
    unit: str = ""
    # Way in which the properties of the unit are set.
    by: By = By.RUNTIME

    def words(self, root: Root) -> str:
        """The step as a line of a shell, with what is there before."""
        was = f"  # was {self.old}"
        if self.unit:
            return shlex.join(command_of(self)) + was
        where = shlex.quote(root.name(self.folder, self.file))
        return f"echo {shlex.quote(self.new)} > {where}{was}"


def settings_of(group: Group) -> Settings:
    """The settings of a group of a model."""
    return Settings(group.weight, group.quota, group.period, group.burst)


def folder_of(group: Group, root: Root) -> str:
    """The folder of a group below the root: its place on the host, else what its path says."""
    place: str | None = group.place
    if group.place.startswith("/"):
        place = os.path.relpath(group.place, root.path)
        if place.split("/")[0] in (".", ".."):
            raise HostFault(f"{shown(group.place)}: not below --root {shown(root.path)}")
    elif group.place == NOWHERE:
        raise HostFault(f"{shown(group.path)}: its place on the host is not known")
    elif not group.place:
        place = raw_path(group.path)
    if place is None:
        raise HostFault(f"{shown(group.path)}: which group of the host this is cannot be told: no"
                        " import writes a name so (`%` is %25)")
    parts_of(place)
    return place


def changes(before: Model, after: Model, root: Root) -> tuple[list[Change], list[str]]:
    """The groups whose settings differ, and what is left alone, in words."""
    by_folder: dict[str, Change] = {}
    for path, one in before.groups.items():
        two = after.groups.get(path)
        if two is None or settings_of(one) == settings_of(two):
            continue
        check_settings(two)
        if None not in (one.identity, two.identity) and one.identity != two.identity:
            raise HostFault(f"{shown(path)}: BEFORE and AFTER were read from two groups")
        folder = folder_of(one, root)
        if folder in by_folder:
            raise HostFault(f"{shown(path)}: another group has the place {folder}")
        by_folder[folder] = Change(folder, settings_of(one), settings_of(two),
                                   one.identity or two.identity)
    return list(by_folder.values()), only_in_one(before, after)


def only_in_one(before: Model, after: Model, but: Container[str] = ()) -> list[str]:
    """The groups that one of the models lacks, in words, but for some paths."""
    return [f"{path}: only {'before' if path in before.groups else 'after'}: groups are neither"
            " made nor removed" for path in {**before.groups, **after.groups}
            if (path not in before.groups or path not in after.groups) and path not in but]


def number(text: str) -> int:
    """A whole number of a file."""
    if not (text.isascii() and text.isdigit() and len(text) <= 20):
        raise HostFault(f"{shown(text[:40])!r} is no number")
    return int(text)


@functools.lru_cache(MOST_KNOWN)
def known(weight: int, quota: int | None, period: int, burst: int) -> Settings:
    """Settings. The same ones are one object: a round of a loop compares those of many groups."""
    return Settings(weight, quota, period, burst)


@functools.lru_cache(MOST_KNOWN)
def settings_in(weight: str, quota: str, period: str, burst: str) -> Settings:
    """The settings of the words of the files of a group."""
    return known(number(weight), None if quota == "max" else number(quota), number(period),
                 number(burst))


def current(root: Root, folder: str) -> Settings:
    """Contents of the files of a group now; weight 0 for an idle one."""
    weight, maximum, burst = (root.read(folder, file) for file in FIELDS)
    words = maximum.split()
    if len(words) != 2:
        raise HostFault(f"{shown(folder)}: cpu.max is {shown(' '.join(words)[:40])!r}")
    return settings_in(weight, *words, burst)


def standing(root: Root, folder: str) -> Settings | None:
    """Contents of the files of a group now, weight 0 for an idle one; None if the group is gone."""
    try:
        return current(root, folder)
    except Gone:
        return None


def unlike(root: Root, wanted: Iterable[tuple[str, Settings]]) -> Iterator[str]:
    """The groups that do not hold these settings, in words."""
    for folder, settings in wanted:
        now = standing(root, folder)
        if now is None:
            yield f"{shown(folder)}: is gone"
        elif now != settings:
            yield f"{shown(folder)}: holds {in_words(now)}, not {in_words(settings)}"


def check_host(root: Root, changes_: Sequence[Change]) -> None:
    """Opens the groups, to be kept. A fault names each that is not there, else each whose files do
    not hold what they held before."""
    wrong = []
    for change in changes_:
        try:
            root.keep(change.folder, change.identity)
        except Gone:
            wrong.append(f"{shown(change.folder)}: is gone")
        except HostFault as fault:
            wrong.append(fault.message)
    check_none(wrong or unlike(root, ((each.folder, each.before) for each in changes_)),
               "the host is not what BEFORE says, so nothing is changed:")


def check_after(root: Root, changes_: Sequence[Change]) -> None:
    """A fault where a file does not hold what was written."""
    check_none(unlike(root, ((change.folder, change.after) for change in changes_)),
               "read back, the host is not what was written:")


def in_words(settings: Settings) -> str:
    """Settings in words."""
    weight = f"weight {settings.weight}" if settings.weight else "idle (cpu.idle)"
    return f"{weight}, max {settings.maximum}, burst {settings.burst}"


def percent(settings: Settings) -> str | None:
    """The quota as systemd takes it, with at most two decimals; None where it is no such number."""
    if settings.quota is None:
        return ""
    exact = Fraction(100 * settings.quota, settings.period)
    return f"{units.decimal(exact, 2)}%" if (exact * 100).denominator == 1 else None


def properties(folder: str, settings: Settings, by: By) -> tuple[str, dict[str, str]]:
    """The unit whose group a folder is, and what sets its settings, by file. Empty where it is no
    unit, or where files alone are written."""
    names, part = folder.split("/"), percent(settings)
    if by is By.FILES or not all(UNIT.fullmatch(name) for name in names):
        return "", {}
    limit = {MAXIMUM: f"CPUQuota={part} CPUQuotaPeriodSec={settings.period}us"}
    return names[-1], {WEIGHT: f"CPUWeight={settings.weight}", **({} if part is None else limit)}


def steps_of(change: Change, one: Settings, by: By) -> Iterator[Step]:
    """The steps from settings that stand to those wanted, in an order that the kernel takes."""
    two = change.after
    unit, set_by = properties(change.folder, two, by)
    # A lower burst fits the old quota; a greater one may need the new quota.
    limit = (BURST, MAXIMUM) if two.burst < one.burst else (MAXIMUM, BURST)
    for file in (WEIGHT, *limit):
        old, new = one.files[file], two.files[file]
        if old != new and file in set_by:
            yield Step(change.folder, file, old, set_by[file], unit, by)
        elif old != new:
            yield Step(change.folder, file, old, new)


def planned_steps(changes_: Sequence[Change], by: By, by_files: Container[str] = ()) -> list[Step]:
    """All steps. `by_files` are folders that are written without their unit."""
    return [step for change in changes_ for step in
            steps_of(change, change.before, By.FILES if change.folder in by_files else by)]


def passing(steps: Sequence[Step]) -> list[str]:
    """The steps that no boot keeps, although the others are kept, in words."""
    return [f"{step.folder}: {step.file} is set by its file, which is not kept at the next boot"
            for step in steps if not step.unit]


def command_of(step: Step) -> list[str]:
    """The command that sets the properties of a unit."""
    until_boot = ["--runtime"] if step.by is By.RUNTIME else []
    return ["systemctl", "set-property", *until_boot, "--", step.unit, *step.new.split(" ")]


class Meanwhile(HostFault):
    """A file that somebody set after it was read and before it was to be written."""


def check_stands(step: Step, root: Root) -> None:
    """A fault where a file holds something else than when its step was made."""
    now = " ".join(root.read(step.folder, step.file).split())
    if now != step.old:
        raise Meanwhile(f"{shown(step.folder)}: somebody set {step.file} to {shown(now[:40])}"
                        " meanwhile")


def do(step: Step, root: Root) -> None:
    """Makes one change."""
    if step.unit:
        systemctl(command_of(step)[1:])
    else:
        root.write(step.folder, step.file, step.new)


def all_done(root: Root, steps: Sequence[Step],
             done: list[Step]) -> Iterator[tuple[Step, HostFault]]:
    """Makes changes, which `done` gets; gives those that failed, and why. Systemd writes all files
    of a unit when it sets a property, so these are not looked at in between."""
    of_units = {step.folder for step in steps if step.unit}
    for step in steps:
        try:
            if step.folder not in of_units:
                check_stands(step, root)
            do(step, root)
            done.append(step)
        except HostFault as fault:
            yield step, fault


@functools.lru_cache(MOST_KNOWN)
def entry(settings: Settings) -> str:
    """Settings as JSON without its brackets. No weight is 0."""
    return json.dumps({**vars(settings), "weight": settings.weight or 1})[1:-1]


def undo_text(root: Root, changes_: Iterable[Change], by: By) -> str:
    """The old settings of all groups that change, and the new ones, a line for each."""
    def line(change: Change) -> str:
        earlier = ", ".join(f"{{{entry(each)}}}" for each in change.earlier)
        return (f'{{"folder": {json.dumps(change.folder)}, {entry(change.before)}, "after":'
                f' {{{entry(change.after)}}}' + f', "earlier": [{earlier}]' * bool(earlier) + "}")

    head = json.dumps({"arbiter_undo": VERSION, "root": root.path, "systemd": by is not By.FILES,
                       "persistent": by is By.PERSISTENT, "groups": []})
    lines = ",\n ".join(map(line, changes_))
    return f"{head[:-2]}\n {lines}]}}\n" if lines else f"{head}\n"


def write_synced(path: str, text: str) -> None:
    """Writes a new undo file, and returns when it and its name are on the disk. A fault or a kill
    leaves no file of this name that is cut. No other user may swap it."""
    with naming("the undo file"), faults(path), closing(place_of(path, kept_folder)) as place:
        place.put(text.encode(), is_new=True)
        os.fsync(place.folder)


def systemctl(words: Sequence[str]) -> str:
    """Output of systemctl; a fault with its own words."""
    ended = children.run(["systemctl", *words], SECONDS, MOST_PRINTED)
    if ended.status:
        said = ended.said.decode(errors="replace").strip()[:400]
        raise HostFault(f"systemctl: {shown(said) or f'status {ended.status}, without a word'}")
    return ended.out.decode(errors="replace")


def false_units(steps: Sequence[Step]) -> dict[str, str]:
    """The folders that are not the group of their unit, and why: a name is no place."""
    wrong = {}
    for unit, folder in {step.unit: step.folder for step in steps if step.unit}.items():
        group = systemctl(["show", "--property=ControlGroup", "--value", "--", unit]).strip("\n")
        if group != f"/{folder}":
            wrong[folder] = (f"{shown(folder)}: the unit {shown(unit)} has the group"
                             f" {shown(group[:200]) or '(none)'}: --by files writes to this one")
    return wrong


def make(root: Root, changes_: Sequence[Change], by: By, undo: str, done: list[Step]) -> None:
    """Makes the changes: the host is looked at, the undo file written, the result read back. `done`
    gets the steps that were made."""
    steps = planned_steps(changes_, by)
    check_host(root, changes_)
    check_none(false_units(steps).values(), foot="so nothing is changed")
    write_synced(undo, undo_text(root, changes_, by))
    try:
        for _, fault in all_done(root, steps, done):
            raise fault
        check_after(root, changes_)
    except HostFault as fault:
        raise HostFault(f"{fault.message}\nto undo: arbiterctl undo {shlex.quote(undo)} --yes"
                        ) from fault


@dataclass
class Back:
    """The way back of an undo file from what the host holds now."""

    root: Root
    by: By
    changes: list[Change] = field(default_factory=list)
    # Parts that are left alone, in words: groups that are gone, and values that somebody else set.
    left: list[str] = field(default_factory=list)


def settings_from(entry: dict[str, Any]) -> Settings:
    """The settings of an entry of an undo file."""
    if not isinstance(entry.get("burst"), int):
        raise HostFault("an entry of the undo file has no burst")
    quota = None if entry.get("quota") is None else data.number(entry, "quota")
    weight, period, burst = (data.number(entry, key) for key in ("weight", "period", "burst"))
    check_settings(Group("x", weight, quota, period, burst))
    return Settings(weight, quota, period, burst)


def with_burst(settings: Settings, burst: int) -> Settings:
    """Settings with a burst, as far as their quota lets it be."""
    most = burst if settings.quota is None else settings.quota
    return replace(settings, burst=min(burst, most))


def restored(now: Settings, old: Settings, written: Sequence[Settings]) -> Settings:
    """The old settings, but what a file holds that is neither old nor written stays: somebody else
    set it. The burst is that as far as the quota lets it be."""
    wanted = old
    for file, text in now.files.items():
        if all(text != each.files[file] for each in (old, *written)):
            wanted = wanted.taking(file, now)
    return with_burst(wanted, wanted.burst)


def take_back(back: Back, entry: dict[str, Any], is_forced: bool) -> bool:
    """Takes an entry of an undo file. Returns whether its group is there."""
    folder, old = str(entry.get("folder", "")), settings_from(entry)
    after = data.table(entry, "after")
    written = [settings_from(each)
               for each in [*([after] if after else []), *data.tables(entry, "earlier")]]
    try:
        back.root.keep(folder)
        now = current(back.root, folder)
    except Gone:
        back.left.append(f"{folder}: the group is gone, nothing of it is undone")
        return False
    wanted = old if is_forced else restored(now, old, written)
    if wanted != old:
        back.left.append(f"{folder}: holds {in_words(now)}, which is neither what `apply` found"
                         f" ({in_words(old)}) nor what it wrote: what differs is left (--force)")
    if wanted != now:
        back.changes.append(Change(folder, now, wanted))
    return True


def read_undo(content: bytes, name: str, is_forced: bool = False) -> Back:
    """The way back of an undo file. `is_forced`: also over what somebody set since."""
    record = data.loads(content, name)
    if data.number(record, "arbiter_undo") != VERSION or not data.text_field(record, "root"):
        raise HostFault(f"{name}: no undo file of `arbiterctl apply`")
    by = (By.FILES if record.get("systemd") is not True else
          By.PERSISTENT if record.get("persistent") is True else By.RUNTIME)
    back, entries = Back(Root(record["root"]), by), data.tables(record, "groups")
    are_there = [take_back(back, entry, is_forced) for entry in entries]
    # Groups that a loop holds come and go.
    is_loops = all("earlier" in entry for entry in entries) and cgroup2.is_tree(back.root.path)
    if are_there and not any(are_there) and not is_loops:
        raise HostFault(f"{shown(back.root.path)}: none of the groups of {name} is there")
    return back


def undo(back: Back, done: list[Step]) -> None:
    """Brings the old settings back, and reads them. `done` gets the steps that were made. A group
    that goes meanwhile, and a file that somebody sets meanwhile, are told in `back.left`. A fault
    of one group is raised after the others were undone."""
    by_files = false_units(planned_steps(back.changes, back.by))
    wrong, skipped = [], set()
    for step, fault in all_done(back.root, planned_steps(back.changes, back.by, by_files), done):
        if isinstance(fault, Gone):
            continue
        skipped.add(step.folder)
        if isinstance(fault, Meanwhile):
            back.left.append(f"{fault.message}: it is left (undo once more, or --force)")
        else:
            wrong.append(fault.message)
    there = []
    for change in back.changes:
        if standing(back.root, change.folder):
            there.append(change)
        else:
            back.left.append(f"{change.folder}: the group is gone, nothing of it is undone")
    check_none(wrong)
    check_after(back.root, [change for change in there if change.folder not in skipped])
