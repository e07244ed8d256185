"""The files of one group of cgroup v2, as the kernel shows them or a copy of them. Only reads."""
from __future__ import annotations

import os
import re
import stat
from collections.abc import Iterator

from arbiter_host.base import units
from arbiter_host.base.demands import CounterReading
from arbiter_host.base.faults import HostFault, strerror
from arbiter_host.base.model import Group
from arbiter_host.base.names import shown

MAX_FILE = 1 << 20
KEYS = ("usage_usec", "nr_periods", "nr_throttled")
COUNTERS = re.compile(rf"^({'|'.join(KEYS)}) ([0-9]{{1,30}})$", re.M)
# The same as the kernel writes them for a group with the controller, which is found at once.
AS_WRITTEN = re.compile(r"usage_usec ([0-9]{1,30})\n(?:.*\n)*?nr_periods ([0-9]{1,30})\n"
                        r"nr_throttled ([0-9]{1,30})$", re.M)
# What cpu.stat of every group has, with or without the controller.
USED = re.compile(r"^\s*usage_usec\s+[0-9]{1,30}\s*$", re.M)
WAITED = re.compile(r"^some .*\btotal=([0-9]{1,20})", re.M)
# The file that a group has if the controller is enabled for it.
MARK = "cpu.weight"


def file_text(folder: str | int, name: str) -> str | None:
    """The text of a plain file of a folder (path or descriptor); None where it cannot be read."""
    above = folder if isinstance(folder, int) else None
    try:
        descriptor = os.open(name if isinstance(folder, int) else os.path.join(folder, name),
                             os.O_RDONLY | os.O_NONBLOCK | os.O_CLOEXEC, dir_fd=above)
        with os.fdopen(descriptor, "rb") as file:
            if stat.S_ISREG(os.fstat(descriptor).st_mode):
                return file.read(MAX_FILE).decode(errors="replace")
    except (OSError, ValueError):
        pass
    return None


def number_in(text: str | None) -> int | None:
    """The whole number of a text, if it is one of at most 30 digits."""
    return units.whole((text or "").strip(), 30)


def counters(stat_text: str | None, pressure_text: str | None) -> CounterReading:
    """The counters of the texts of `cpu.stat` and `cpu.pressure`."""
    text, waited = stat_text or "", WAITED.search(pressure_text or "")
    found = AS_WRITTEN.match(text)
    words = found.groups() if found else map(dict(COUNTERS.findall(text)).get, KEYS)
    return CounterReading(*[None if word is None else int(word) for word in (
        *words, waited.group(1) if waited else None)])


def reading(folder: str | int) -> CounterReading:
    """Reads the counters of a group."""
    return counters(file_text(folder, "cpu.stat"), file_text(folder, "cpu.pressure"))


def task_count(folder: str | int) -> int | None:
    """Counts cgroup.threads, and cgroup.procs where that cannot be read."""
    text = file_text(folder, "cgroup.threads")
    text = file_text(folder, "cgroup.procs") if text is None else text
    return None if text is None else len(text.split())


def read_settings(group: Group, folder: int, notes: list[str]) -> None:
    """Reads cpu.weight, cpu.max and cpu.max.burst; notes what is missing or out of range."""
    def take(key: str, text: str, least: int, most: int, file: str) -> None:
        value = number_in(text)
        if value is None:
            notes.append(f"{group.path}: {file} cannot be read as a number: the default is taken")
            return
        taken = min(max(value, least), most)
        if taken != value:
            notes.append(f"{group.path}: {file} is {value}: {taken} is taken")
        setattr(group, key, taken)

    weight, maximum, burst = (file_text(folder, f"cpu.{each}")
                              for each in ("weight", "max", "max.burst"))
    words = (maximum or "").split()
    if weight is None:
        notes.append(f"{group.path}: no cpu.weight: 100 is taken")
    elif weight.strip() == "0":
        notes.append(f"{group.path}: idle (cpu.weight 0): 1 is taken")
        group.weight = 1
    else:
        take("weight", weight, units.MIN_WEIGHT, units.MAX_WEIGHT, "cpu.weight")
    if maximum is None:
        notes.append(f"{group.path}: no cpu.max: no limit is taken")
    elif len(words) != 2 or words[0] != "max" and number_in(words[0]) is None:
        notes.append(f"{group.path}: cpu.max is {maximum.strip()[:40]!r}: no limit is taken")
    else:
        take("period", words[1], units.MIN_PERIOD, units.MAX_PERIOD, "the period of cpu.max")
        if words[0] != "max":
            take("quota", words[0], units.MIN_QUOTA, units.MAX_QUOTA, "cpu.max")
    if burst is not None:
        most = units.MAX_QUOTA if group.quota is None else group.quota
        take("burst", burst, 0, most, "cpu.max.burst")


def cpus(folder: int) -> str:
    """The CPUs that a group keeps to, as a list; empty where it has none of its own."""
    own = (file_text(folder, "cpuset.cpus") or "").strip()
    return (file_text(folder, "cpuset.cpus.effective") or "").strip() or own if own else ""


def is_frozen(folder: int) -> bool:
    """Whether the tasks of a group are stopped, by its own file."""
    return (file_text(folder, "cgroup.freeze") or "").strip() == "1"


def has_cpu(folder: str) -> bool:
    """Whether the cpu controller is enabled for the groups in a folder, as far as it says so."""
    enabled = file_text(folder, "cgroup.subtree_control")
    return enabled is None or "cpu" in enabled.split()


def top_notes(folder: str) -> Iterator[str]:
    """Notes of a controller that is not enabled, and of the top's own limit."""
    if not has_cpu(folder):
        yield f"{shown(folder)}: the cpu controller is not enabled here (cgroup.subtree_control)"
    limit = file_text(folder, "cpu.max")
    if limit is not None and not limit.startswith("max"):
        yield (f"cpu.max of {shown(folder)} itself is {shown(limit.strip())}: the root has no"
               " limit but the CPUs")


def is_tree(folder: str) -> bool:
    """Whether a folder is the top of a tree of cgroup v2."""
    return (USED.search(file_text(folder, "cpu.stat") or "") is not None
            or file_text(folder, "cgroup.controllers") is not None)


def check_folder(folder: str) -> None:
    """A fault where a folder cannot be read."""
    try:
        os.listdir(folder)
    except (OSError, ValueError) as error:
        why = strerror(error) if isinstance(error, OSError) else "no path"
        raise HostFault(f"{shown(folder)}: {why}") from error


def check_tree(folder: str) -> None:
    """A fault where a folder is no tree of cgroup v2."""
    check_folder(folder)
    if is_tree(folder):
        return
    unified = os.path.join(folder, "unified")
    controllers = file_text(unified, "cgroup.controllers") or ""
    why = f"; {shown(unified)} is one" if "cpu" in controllers.split() else ""
    if not why and any(file_text(os.path.join(folder, each), "cpu.shares") is not None
                       for each in ("", "cpu")):
        why = "; cgroup v1 is not read"
    raise HostFault(f"{shown(folder)}: neither a cpu.stat with usage_usec nor cgroup.controllers,"
                    f" so no cgroup tree{why}")
