"""The guest's shell script for a scenario: groups, files, tasks, and what is read."""
from __future__ import annotations

import shlex
from collections.abc import Iterator
from dataclasses import dataclass

from kernel.scenario import Leaf, Scenario

TOP = "/sys/fs/cgroup"
# All groups of a scenario are below this one, so that its root has counters of its own.
HOME = f"{TOP}/host"
FEATURES = "/sys/kernel/debug/sched/features"
GRID = 100000000
# For so long before counters are read nobody watches quota periods. That takes the groups' time:
# what a limited group lacks then it has after the first reading. It is before the time that the
# guest's program counts for all others. A series needs a settling time of two rounds for it.
QUIET = 650000000
# The board's clock without its driver, so that nobody takes its interrupt.
BEAT = """\
cd /sys/bus/pnp/drivers/rtc_cmos 2> /dev/null && for clock in *:*; do echo $clock > unbind; done
cd /sys/bus/platform/drivers/rtc_cmos 2> /dev/null && echo rtc_cmos > unbind 2> /dev/null; cd /
/guest beat
"""


@dataclass(frozen=True)
class Span:
    """How long counters are watched, and before that tasks run; seconds. `late` is microseconds
    by which the tasks begin later, so that repeats differ. With `has_grid` the beginnings of quota
    periods are watched while tasks settle."""

    seconds: float = 10
    settle: float = 1
    late: int = 0
    has_grid: bool = True


def place(path: str, file: str = "") -> str:
    """The path of a group, or of a file of it, in the guest."""
    folder = HOME if path == "." else f"{HOME}/{path}"
    return f"{folder}/{file}" if file else folder


def write(path: str, file: str, text: str) -> str:
    """A write, which tells if the kernel refuses it."""
    words = f"refused {path} {file} {text}"
    return (f"echo {shlex.quote(text)} > {shlex.quote(place(path, file))}"
            f" || echo {shlex.quote(words)}")


def groups(scenario: Scenario) -> Iterator[str]:
    """Makes the groups and writes their files, in the script's order.

    A limit starts its period timer, so it is written later where its offset is set.
    """
    yield f"mkdir {HOME}; echo 10000 > {HOME}/cpu.weight"
    inner: set[str] = set()
    for verb, path, *rest in scenario.settings:
        if verb == "mkdir":
            above = path.rpartition("/")[0] or "."
            if above not in inner:
                yield f"echo +cpu > {place(above, 'cgroup.subtree_control')}"
                inner.add(above)
            yield f"mkdir {shlex.quote(place(path))}"
        elif scenario.offset is None or rest[0] == "cpu.weight":
            yield write(path, *rest)


def set_offsets(scenario: Scenario) -> Iterator[str]:
    """Writes the limits so that the quota periods begin at the scenario's offset.

    A period timer goes on from where it last stood, so a short period moves it: it is let stop
    there, and the scenario's own period then counts from that time.
    """
    maxima, bursts = scenario.files("cpu.max"), scenario.files("cpu.max.burst")
    yield f"/guest until $((first - 3 * {GRID} + {scenario.offset} * 1000 - 3000000))"
    yield from (write(path, "cpu.max", "1000 1000") for path in maxima)
    yield "/guest until $(($(/guest now) + 5000000))"
    for path, text in maxima.items():
        yield write(path, "cpu.max", text)
        yield from [write(path, "cpu.max.burst", bursts[path])] if path in bursts else []


def features(words: tuple[str, ...]) -> Iterator[str]:
    """Sets features of the scheduler, and keeps what they were."""
    if words:
        yield f"[ -e {FEATURES} ] || mount -t debugfs none /sys/kernel/debug"
        yield f"features=$(cat {FEATURES})"
        for word in words:
            yield f"echo {shlex.quote(word)} > {FEATURES} || echo refused features {word}"


def task(scenario: Scenario, path: str, leaf: Leaf, number: int) -> str:
    """Starts one task of a group."""
    works = [min(slices * scenario.slice // leaf.tasks, scenario.period)
             for slices in leaf.demands]
    if leaf.nap:
        # the work between two naps is that of the demand, as a part of all time
        part = works[0] / scenario.period
        works = [round(leaf.nap * part / (1 - part))]
    mask, span = f"{leaf.mask(number):x}", (path, "$first", "$((last + 100000000))")
    words = ["load", *span, str(scenario.period), str(leaf.nap), mask, *map(str, works)]
    if leaf.fork:
        words = ["farm", *span, str(leaf.fork), mask]
    if number < leaf.nice:
        words = ["nice", "19", *words]
    return f"/guest in {shlex.quote(place(path, 'cgroup.procs'))} {' '.join(words)} &"


def script(scenario: Scenario, span: Span, beside: str = "", early: str = "") -> str:
    """The whole script of one run. `beside` is a line that begins before the tasks do, and `early`
    are lines that have ended before any time is set."""
    settle, rounds = scenario.rounds(span.settle), scenario.rounds(span.seconds)
    limited = ([place(path, "cpu.stat") for path in scenario.files("cpu.max")] if span.has_grid
               else [])
    files = " ".join([place(".", "cpu.stat"), *(place(path, "cpu.stat") for path in
                                                 scenario.paths), "/proc/stat"])
    tasks = [task(scenario, path, leaf, number) for path, leaf in scenario.leaves.items()
             if any(leaf.demands) for number in range(leaf.tasks)]
    # All tasks have to be there when the first begins to work: from then on the shell has little
    # time. Offsets are set from three periods before that.
    lead = 10 + len(tasks) if scenario.offset is None else 4 + len(tasks) // 8
    lines = [
        *features(scenario.features),
        *groups(scenario),
        *([early] if early else ()),
        f"first=$((($(/guest now) / {GRID} + {lead}) * {GRID} + {span.late} * 1000))",
        f"begin=$((first + {settle * scenario.round} * 1000))",
        f"last=$((begin + {rounds * scenario.round} * 1000))",
        "echo times $first $begin $last",
        *(set_offsets(scenario) if scenario.offset is not None else ()),
        f"/guest watch $begin $last -- {files} &",
        *([f"/guest grid $first $((begin - {QUIET})) {' '.join(limited)} &"] if limited else ()),
        *([beside] if beside else ()),
        *[f"/guest load load $first $last {scenario.period} 0 {(1 << scenario.processors) - 1:x}"
          f" {scenario.period} > /dev/null &"] * scenario.outside,
        *tasks,
        f"echo ready $(/guest now) {len(tasks)}",
        "wait",
        f"find {HOME} -depth -type d -exec rmdir {{}} ';'",
        *([f"for word in $features; do echo $word > {FEATURES}; done"] if scenario.features
          else []),
    ]
    return "\n".join(lines) + "\n"


def many(runs: list[tuple[str, Scenario, Span]]) -> str:
    """The script of several runs, one after another, each with a key."""
    parts = [f"echo '+cpu' > {TOP}/cgroup.subtree_control\n{BEAT}"]
    for key, scenario, span in runs:
        parts.append(f"echo run {shlex.quote(key)}\n{script(scenario, span)}")
    return "".join(parts)
