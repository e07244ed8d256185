"""The unknowns of the model of placement on a host: its kernel, and what its tasks do."""
from __future__ import annotations

import re
from collections.abc import Iterable

from arbiter_host.sources import task_times
from arbiter_host.sources.readings import Span

# The last kernel with which the model was measured.
LAST = (6, 12)
# Sleeps in a second of a task that works in each tenth of one. More often it sleeps between pieces
# of work, and asks for less while it waits.
MOST_SLEEPS = 20
# A task, or a group, that ran for less than this part of the time decides nothing.
LEAST = 100
FORKS, NICE, SLEEPERS = ("tasks that come and go", "tasks of several nice values or policies",
                         "tasks that sleep often")


def of_kernel(release: str) -> str:
    """Why placement is not known on a kernel; empty where it is."""
    found = re.match(r"(\d+)\.(\d+)", release)
    is_later = found is not None and (int(found[1]), int(found[2])) > LAST
    return f"kernels after {LAST[0]}.{LAST[1]}, as {release}, differ" if is_later else ""


def of_tasks(span: Span) -> str:
    """Why placement is not known beside a group; empty where nothing tells so."""
    passed, used = int(span.seconds * 10**9), 1000 * (span.risen.usage or 0)
    if not span.after or LEAST * used < passed:
        return ""
    rises = list(task_times.rises(span.before, span.after))
    busy = [each for each in rises if LEAST * each.ran >= passed]
    if 2 * sum(each.ran for each in rises) < used:
        return FORKS
    if len({each.rank for each in busy}) > 1:
        return NICE
    return SLEEPERS if any(each.sleeps > MOST_SLEEPS * span.seconds for each in busy) else ""


def told(reasons: Iterable[str]) -> str:
    """The first reason of groups, with their number; empty without one."""
    found = [each for each in reasons if each]
    return f"{found[0]}, in groups: {found.count(found[0])}" if found else ""
