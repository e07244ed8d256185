"""The loop of limits in a guest: `hold.c` is its inner part, over the C library that was built
here. And the scheduler that serves a plan, with its loader alone.
"""
from __future__ import annotations

import shlex
import tempfile
from collections.abc import Sequence
from dataclasses import dataclass
from pathlib import Path
from typing import Any

from kernel import faults, interpreter, layout, machine, packages
from kernel.scenario import Scenario

TOP = Path(__file__).resolve().parents[2]
SCHEDULER = TOP / "scheduler"
ARCHIVE = TOP / "crates/bw_exports/out/libarbiter.a"
SECOND = 1000000000
# How hold.c writes that there is no limit.
NO_LIMIT = 2**64 - 1
Held = dict[str, list[dict[str, Any]]]


@dataclass(frozen=True)
class Way:
    """A way of holding a plan. The period is microseconds; `words` are those of hold.c."""

    name: str
    has_limits: bool = True
    period: int = 100000
    has_weights: bool = False
    has_burst: bool = False
    is_loop: bool = False
    # The kernel's scheduler serves the plan, which is taken once.
    is_scheduled: bool = False

    @property
    def is_hold(self) -> bool:
        """Whether `arbiterctl hold --by scheduler` itself runs."""
        return self.is_loop and self.is_scheduled

    @property
    def words(self) -> str:
        """The letters that hold.c takes."""
        found = "w" * self.has_weights + "b" * self.has_burst + "n" * (not self.has_limits)
        return found or "-"


WAYS = {way.name: way for way in (
    Way("weights", has_limits=False),
    Way("limits"),
    Way("limits-1s", period=1000000),
    Way("limits-burst", has_burst=True),
    Way("limits-weights", has_weights=True),
    Way("limits-weights-1s", has_weights=True, period=1000000),
    Way("loop", is_loop=True),
    Way("loop-1s", is_loop=True, period=1000000),
    Way("loop-burst", is_loop=True, has_burst=True),
    Way("loop-weights", is_loop=True, has_weights=True),
    Way("loop-weights-1s", is_loop=True, has_weights=True, period=1000000),
    Way("watched", is_loop=True, has_limits=False),
    Way("scheduler", has_limits=False, is_scheduled=True),
    Way("hold", has_limits=False, is_loop=True, is_scheduled=True),
)}
# The group of `arbiterctl hold`, whose weight is that of its unit; the state of the kernel.
LOOP, LOOP_WEIGHT = f"{layout.TOP}/loop", 10000
STATE, NAME = "/sys/kernel/sched_ext/state", "/sys/kernel/sched_ext/root/ops"
# What ends it: the signal, and whose process that is: the loop's or the loader's.
ENDS = ((15, "loop"), (9, "loop"), (9, "loader"))


def loop_line(scenario: Scenario, way: Way) -> str:
    """The line of the guest's script that begins the loop."""
    words = ["/hold", "$first", "$last", str(SECOND), str(way.period), str(scenario.processors),
             way.words, layout.HOME, *map(shlex.quote, scenario.paths)]
    return f"{' '.join(words)} &"


def number_in(path: str) -> str:
    """The number of a group's folder, in a guest's script."""
    return f"$(stat -c %i {shlex.quote(layout.place(path))})" if path else "0"


def nearest(path: str, limits: dict[str, int]) -> str:
    """The nearest group with a limit, itself or above; empty if there is none."""
    while path and path not in limits:
        path = path.rpartition("/")[0]
    return path


def scheduler_lines(scenario: Scenario, amounts: dict[str, int], guarantees: dict[str, int],
                    limits: dict[str, int], has_trace: bool = False, is_first: bool = True,
                    is_last: bool = True) -> tuple[str, str]:
    """The lines of a guest's script that give the scheduler a plan, and those that end the run. The
    first run loads it, which takes most of a guest's time, and the last one ends it. Limits are
    nanoseconds of 100 ms. With a trace each step of the rule is told, of all runs by the last."""
    slices = scenario.processors * scenario.period // scenario.slice
    # The tree weighs 10000 beside the root's tasks, which weigh 100.
    least = -(-slices // 100)
    rest = max(least, slices - sum(amounts[path] for path in scenario.leaves))
    plan = "; ".join([f"echo plan {slices}; echo rest {rest} {least}", *(
        f"echo limit {number_in(path)} {limits[path]} 0"
        f" {number_in(nearest(path.rpartition('/')[0], limits))}"
        for path in sorted(limits, key=lambda each: each.count("/"))), *(
        f"echo leaf {number_in(path)} {amounts[path]} {guarantees[path]}"
        f" {number_in(nearest(path, limits))}" for path in scenario.leaves), "echo end"])
    trace = "--trace /steps " if has_trace else ""
    # (no child of the shell, which waits for its children at the end of each run)
    load = (f"rm -f /plan.in; mkfifo /plan.in; : > /plan.out\n(/arbiter-scheduler {trace}"
            f"{layout.HOME} < /plan.in > /plan.out 2>&1 & echo $! > /plan.id)\nexec 9> /plan.in\n")
    early = (load * is_first + f"plans=$(grep -c -e plan -e arbiter /plan.out)\n{{ {plan}; }} >&9\n"
             "until [ $(grep -c -e plan -e arbiter /plan.out) -gt $plans ]; do sleep 0.2; done")
    end = (f" /guest until $((last + {SECOND // 4})); scheduler=$(cat /plan.id);"
           " kill $scheduler; while kill -0 $scheduler 2> /dev/null; do sleep 0.1; done;"
           " sed 's/^/scheduler /' /plan.out" + "; sed 's/^/step /' /steps" * has_trace)
    # (a scheduler that has ended closes the pipe: its last line has to be told still)
    beside = (f"(trap '' PIPE; /guest until $last; echo read >&9;{end * is_last}) &"
              + "\nexec 9>&-" * is_last)
    return early, beside


def hold_lines(scenario: Scenario, ended_by: tuple[int, str]) -> tuple[str, str]:
    """The lines that begin `arbiterctl hold --by scheduler` itself, and those that end it. They
    tell its rounds, what is written to files of the groups, and how it ends."""
    number, whose = ended_by
    folders = " ".join(shlex.quote(layout.place(path)) for path in (".", *scenario.paths))
    burst = layout.place(".", "cpu.max.burst")
    early = (f"mkdir -p /run {LOOP}; echo {LOOP_WEIGHT} > {LOOP}/cpu.weight; rm -f /ended\n"
             f"/guest writes {folders} > /writes & echo $! > /writes.id\n"
             f"(sh -c 'echo $$ > /loop.id; echo 0 > {LOOP}/cgroup.procs;"
             f" exec /usr/bin/python3 /{interpreter.HOME}/arbiterctl hold {layout.HOME} --yes"
             " --by scheduler' > /rounds 2> /said; echo $? > /ended) &\n"
             "until grep -q groups /rounds || [ -e /ended ]; do sleep 0.2; done\n"
             f"echo loop state $(cat {STATE} {NAME})")
    process = "cat /loop.id" if whose == "loop" else "pidof arbiter-scheduler"
    # (the last write shows that the watch sees one)
    beside = (f"(/guest until $((last + {SECOND // 4}));"
              f" /guest end {number} $({process}) {STATE} disabled > /gone;"
              " until [ -e /ended ]; do sleep 0.1; done;"
              f" echo 0 > {burst}; sleep 0.2; kill $(cat /writes.id);"
              f" sed 's/^/loop {whose} /' /gone; sed 's/^/loop status /' /ended;"
              " sed 's/^/loop /' /writes; sed 's/^/loop /' /rounds; sed 's/^/loop said /' /said) &")
    return early, beside


def scheduler_files(folder: Path, name: str = "arbiter-scheduler") -> interpreter.Files:
    """The scheduler's loader under a name of the guest, with its libraries: not every libelf.a of
    Debian can be linked."""
    packages.said(["make", "-C", str(SCHEDULER), f"OUT={folder}"])
    return interpreter.program(name, folder / "arbiter-scheduler")


def hold_program(folder: Path, archive: Path) -> bytes:
    """hold.c, linked with the C library."""
    made, source = folder / "hold", Path(__file__).with_name("hold.c")
    if not archive.exists():
        raise faults.KernelFault(f"{archive}: not there; ./build makes it")
    packages.said(["gcc", "-O2", "-Wall", "-Wextra", "-Werror", "-static", "-I",
                   str(TOP / "share"), "-o", str(made), str(source), str(archive)])
    return made.read_bytes()


def rounds_in(lines: Sequence[str]) -> Held:
    """What the loop told, by run."""
    found: Held = {}
    key = ""
    for line in lines:
        if line.startswith("run "):
            key = line[4:]
        elif line.startswith("held "):
            number, clock, path, *rest = line.split()[1:]
            used, hungry, want, amount, limit = map(int, rest)
            found.setdefault(key, []).append(
                {"round": int(number), "at": int(clock) // 1000, "path": path, "used": used,
                 "hungry": bool(hungry), "want": want, "plan": amount,
                 "limit": None if limit == NO_LIMIT else limit})
    return found


def traces_in(lines: Sequence[str]) -> tuple[list[str], dict[str, str]]:
    """The other lines, and the trace of the scheduler's steps by run."""
    others, found, key = list[str](), dict[str, list[str]](), ""
    for line in lines:
        key = line[4:] if line.startswith("run ") else key
        if line.startswith("step "):
            found.setdefault(key, []).append(f"{line[5:]}\n")
        else:
            others.append(line)
    return others, {key: "".join(steps) for key, steps in found.items()}


def begun(script: str, key: str) -> str:
    """A guest's script of one run, which has a key."""
    return f"echo run {shlex.quote(key)}\n{script}"


def lines_of(kernel: packages.Kernel, board: machine.Board, setting: machine.Setting,
             scripts: Sequence[str], archive: Path | None = ARCHIVE, is_scheduled: bool = False,
             has_python: bool = False) -> list[str]:
    """Boots a guest for runs one after another, with the loop over a C library, with the scheduler,
    and with `arbiterctl`. Returns what it printed."""
    work = f"echo '+cpu' > {layout.TOP}/cgroup.subtree_control\n{layout.BEAT}" + "".join(scripts)
    with tempfile.TemporaryDirectory(prefix="arbiter-hold-") as name:
        more = {"hold": (0o100755, hold_program(Path(name), archive))} if archive else {}
        if is_scheduled:
            # (beside Python where its package has it)
            place = "usr/sbin/arbiter-scheduler" if has_python else "arbiter-scheduler"
            more |= scheduler_files(Path(name), place)
    if has_python:
        more = {**interpreter.files(), **more}
    memory = 1024 if has_python else 512 if is_scheduled else 256
    return machine.run(kernel, board, setting, work, more, memory)
