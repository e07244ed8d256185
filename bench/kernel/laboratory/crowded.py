"""What crowds, real-time tasks and CPUs that go do to groups of the scheduler, in guests.

    PYTHONPATH=tests:bench/kernel /usr/bin/python3 -m laboratory.crowded [--kernel 7] \
        [--save FILE] HOST..

A HOST is one of `HOSTS`. Prints a line of JSON for each: what each group used in each phase, in
hundredths of a CPU, how long a piece of a sleeper's work took, and whether the scheduler went on.
"""
from __future__ import annotations

import argparse
import json
import sys
import tempfile
from collections.abc import Sequence
from dataclasses import dataclass, field
from pathlib import Path
from typing import Any

from kernel import held, layout, machine, packages

SECOND = 1000000000
STATE = "/sys/kernel/sched_ext/state"
# Words of a task that always wants, of a sleeper with 3 ms of work, and of one bound to a CPU.
ALWAYS, SLEEPS = "100000 0 ff 100000", "100000 7000 ff 3000"
# Kernels that are asked for by a release.
RELEASES = ("6.16", "6.17", "6.18")


@dataclass(frozen=True)
class Host:
    """A guest: the plan of its leaves in slices (amount, guarantee), limits in nanoseconds of 100
    ms, phases in seconds after the plan, and lines that the script runs behind the tasks."""

    board: machine.Board
    shift: int
    memory: int
    leaves: dict[str, tuple[int, int]]
    phases: dict[str, tuple[int, int]]
    tasks: tuple[tuple[str, str, str], ...]
    limits: dict[str, int] = field(default_factory=dict)
    lines: tuple[str, ...] = ()

    @property
    def seconds(self) -> int:
        """When all phases are over."""
        return max(end for _, end in self.phases.values())


def crowd(path: str, sleepers: int, busy: int, phase: tuple[int, int]) -> str:
    """A crowd of a group: threads that sleep, and processes that want in a phase."""
    return (f"/crowd {layout.place(path, 'cgroup.procs')} {sleepers} {busy}"
            f" $(at {phase[0]}) $(at {phase[1]}) &")


def until(second: int) -> str:
    """Waits."""
    return f"/guest until $(at {second})"


CALM, LATER = (2, 12), (110, 125)
PLUG = ("x=0; while [ $x -lt 20 ]; do for on in 0 1; do"
        " echo $on > /sys/devices/system/cpu/cpu1/online || echo refused plug;"
        " /guest until $(($(/guest now) + 500000000)); done; x=$((x + 1)); done; echo plugged $x")
HOSTS = {
    # a group would have all numbers; then four of it want that have none, and a new task of another
    "numbers": Host(machine.Board(2), 2, 4000, {"a": (100, 100), "b": (90, 20)},
                    {"calm": CALM, "crowded": LATER},
                    (("a", "calm", ALWAYS), ("a", "calm", ALWAYS), ("a", "calm", SLEEPS),
                     ("b", "calm", ALWAYS), ("b", "calm", ALWAYS), ("a", "crowded", ALWAYS),
                     ("a", "crowded", ALWAYS), ("a", "crowded", SLEEPS)), {"b": 50000000},
                    (until(13), crowd("b", 66000, 4, LATER), until(109), crowd("a", 0, 1, LATER))),
    # more tasks that want than one CPU can serve in 20 s by whole slices
    "watchdog": Host(machine.Board(1), 0, 2500, {"a": (50, 50), "b": (45, 40)},
                     {"crowded": (30, 58)}, (("a", "crowded", ALWAYS),), {},
                     (crowd("b", 0, 8000, (30, 58)),)),
    # a real-time task has CPU 0 for 300 ms of each second; then CPU 1 goes and comes
    "taken": Host(machine.Board(2), 4, 512, {"a": (100, 70), "b": (70, 50), "w": (30, 30)},
                  {"calm": (3, 23), "taken": (25, 45), "plugged": (48, 68)},
                  tuple((path, phase, words) for phase in ("calm", "taken", "plugged")
                        for path, words in (("a", ALWAYS), ("b", ALWAYS), ("b", ALWAYS),
                                            ("w", SLEEPS))), {},
                  (until(24), "/crowd takes 0 300 700 $(at 25) $(at 45) &", until(48), PLUG)),
}


def begun(host: Host) -> list[str]:
    """The lines that make the groups, and load the scheduler with the plan."""
    number = {path: f"$(stat -c %i {layout.place(path)})" for path in host.leaves}
    plan = ["plan 200" if host.board.processors == 2 else "plan 100", "rest 5 5",
            *(f"limit {number[path]} {ns} 0 0" for path, ns in host.limits.items()),
            *(f"leaf {number[path]} {amount} {guarantee} "
              f"{number[path] if path in host.limits else 0}"
              for path, (amount, guarantee) in host.leaves.items()), "end"]
    return [f"echo +cpu > {layout.TOP}/cgroup.subtree_control; mkdir {layout.HOME}",
            f"echo +cpu > {layout.HOME}/cgroup.subtree_control",
            *(f"mkdir {layout.place(path)}" for path in host.leaves),
            *(f"echo 200000 > /proc/sys/kernel/{name}" for name in ("pid_max", "threads-max")),
            "mkfifo /plan.in; : > /plan.out",
            f"/arbiter-scheduler {layout.HOME} < /plan.in > /plan.out 2>&1 &",
            "scheduler=$!; exec 9> /plan.in",
            f"{{ {'; '.join(f'echo {line}' for line in plan)}; }} >&9",
            "until grep -q -v ready /plan.out; do sleep 0.1; done"]


def script(host: Host) -> str:
    """The guest's script."""
    files = " ".join(layout.place(path, "cpu.stat") for path in host.leaves)
    loads = []
    for path, phase, words in host.tasks:
        start, end = host.phases[phase]
        loads.append(f"/guest in {layout.place(path, 'cgroup.procs')} load {path}-{phase}"
                     f" $(at {start}) $(at {end}) {words} &")
    lines = [*begun(host), "now=$(/guest now)", f"at() {{ echo $((now + $1 * {SECOND})); }}",
             f"/crowd uses $(at 1) {host.seconds + 1} {files} &", *loads, *host.lines,
             until(host.seconds + 1), f"echo state $(cat {STATE})",
             "echo read >&9", "sleep 1", "kill $scheduler", "sleep 1",
             "grep counts /plan.out", "echo said $(grep arbiter-scheduler /plan.out)",
             "dmesg | grep 'sched_ext: ' | sed 's/^/kernel-said /'"]
    return "\n".join(lines) + "\n"


def points(host: Host, rows: list[list[int]], phase: tuple[int, int]) -> dict[str, float]:
    """What each group used in a phase but its first second, in hundredths of a CPU."""
    inner = rows[phase[0]:phase[1] - 1]
    (first, *before), (last, *after) = inner[0], inner[-1]
    return {path: round(100000 * (two - one) / (last - first), 1)
            for path, one, two in zip(host.leaves, before, after)}


def told(host: Host, lines: Sequence[str]) -> dict[str, Any]:
    """What the guest told."""
    words = [line.split() for line in lines]
    rows = [[int(each) for each in line[1:]] for line in words if line[:1] == ["uses"]]
    found = {line[0]: " ".join(line[1:]) for line in words
             if line[:1] in (["kernel"], ["state"], ["counts"], ["plugged"], ["said"],
                              ["kernel-said"])}
    return {"found": found, "crowds": [line for line in lines if line.startswith("crowd ")],
            "points": {name: points(host, rows, phase) for name, phase in host.phases.items()},
            "pieces": {line[1]: line[2:] for line in words if line[:1] == ["pieces"]},
            "busy": [int(line[2]) for line in words if line[:1] == ["busy"]],
            "refused": [line for line in lines if line.startswith("refused")]}


def kernel_of(name: str) -> packages.Kernel:
    """A kernel: the newest, or one of a release that is unpacked."""
    if name not in RELEASES:
        return packages.kernel(name)
    folders = sorted(packages.cache_folder().glob(f"linux-image-{name}.*"))
    return packages.in_folder(name, folders[-1])


def shown(kernel: packages.Kernel, name: str) -> dict[str, Any]:
    """Runs a guest."""
    host = HOSTS[name]
    with tempfile.TemporaryDirectory(prefix="arbiter-crowded-") as folder:
        more = held.scheduler_files(Path(folder))
        made, source = Path(folder) / "crowd", Path(held.__file__).with_name("crowd.c")
        packages.said(["gcc", "-O2", "-Wall", "-Wextra", "-Werror", "-static", "-o", str(made),
                       str(source)])
        more["crowd"] = (0o100755, made.read_bytes())
    lines = machine.run(kernel, host.board, machine.Setting(host.shift), script(host), more,
                        host.memory)
    return {"host": name, "release": kernel.release, **told(host, lines)}


def main(words: Sequence[str]) -> int:
    """The command."""
    parser = argparse.ArgumentParser(prog="laboratory.crowded", description=__doc__.splitlines()[0])
    parser.add_argument("hosts", nargs="+", metavar="HOST", choices=HOSTS)
    parser.add_argument("--kernel", default=packages.NEWEST)
    parser.add_argument("--save", metavar="FILE", help="add each run to a file, as JSON lines")
    options = parser.parse_args(words)
    for name in options.hosts:
        text = json.dumps(shown(kernel_of(options.kernel), name)) + "\n"
        print(text, end="", flush=True)
        if options.save:
            with open(options.save, "a", encoding="utf-8") as file:
                file.write(text)
    return 0


if __name__ == "__main__":
    sys.exit(main(sys.argv[1:]))
