"""The times of a group's tasks in a round, from /proc/TASK/schedstat.

Pressure alone does not tell whether a group would have used more: tasks that are served wait too.
The library's call `arbiter_reading` has the rule.
"""
from __future__ import annotations

from collections.abc import Iterator
from typing import NamedTuple

from arbiter_host.sources.cgroup2 import file_text, number_in

PROC = "/proc"
# Bytes of a list of tasks that are read, and tasks of a group.
MOST_TEXT = 1 << 16
MOST_TASKS = 4096


class TaskTimes(NamedTuple):
    """Nanoseconds that a task ran, and that it waited for a CPU."""

    ran: int
    waited: int
    # How often it slept, and its priority and policy, where they are read.
    sleeps: int = 0
    rank: tuple[str, ...] = ()


# The tasks of a group by their numbers.
Tasks = dict[int, TaskTimes]


def task(number: int, has_ranks: bool) -> TaskTimes | None:
    """The times of a task; None where it is gone."""
    folder = f"{PROC}/{number}"
    words = (file_text(folder, "schedstat") or "").split()
    ran, waited = (number_in(word) for word in (words + ["", ""])[:2])
    if ran is None or waited is None:
        return None
    if not has_ranks:
        return TaskTimes(ran, waited)
    sleeps = (file_text(folder, "status") or "").partition("\nvoluntary_ctxt_switches:")[2].split()
    # (fields 18 and 41 of proc_pid_stat(5); the name before may have any bytes)
    fields = (file_text(folder, "stat") or "").rpartition(")")[2].split()
    return TaskTimes(ran, waited, number_in((sleeps + [""])[0]) or 0, tuple(fields[15:39:23]))


def tasks(text: str, has_ranks: bool = False) -> Tasks:
    """The times of the tasks of a list. Of a longer list the first ones are read."""
    numbers = (number_in(word) for word in text.split()[:MOST_TASKS])
    pairs = ((number, task(number, has_ranks)) for number in numbers if number)
    return {number: each for number, each in pairs if each is not None}


def rises(before: Tasks, now: Tasks) -> Iterator[TaskTimes]:
    """The rises of each task that was there at both readings."""
    for number, two in now.items():
        one = before.get(number)
        if one is not None and one.ran <= two.ran and one.waited <= two.waited:
            yield TaskTimes(two.ran - one.ran, two.waited - one.waited, two.sleeps - one.sleeps,
                            two.rank)
