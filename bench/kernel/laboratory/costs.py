"""What the scheduler costs: instructions of a pick, and the work that tasks do less for it.

    PYTHONPATH=tests:bench/kernel /usr/bin/python3 -m laboratory.costs \
        [--cpus N] [--nap MICROSECONDS] [--save FILE] LEAVES..

A guest has so many leaves with a task each that always works, or works for half a millisecond
between naps. Its time is counted in instructions, which its processors share. The tasks run by
weights, by the scheduler, and by it while the kernel counts the runs and the time of each of its
parts. Each task counts its loops, and the kernel its switches.
"""
from __future__ import annotations

import argparse
import json
import sys
import tempfile
from collections.abc import Sequence
from pathlib import Path
from typing import Any

from kernel import held, interpreter, layout, machine, packages

SHIFT, SECONDS = 4, 2
SECOND = 1000000000
# The part that picks.
PICKS = "plan_dispatch"
COUNTING = "/proc/sys/kernel/bpf_stats_enabled"
WHOLE = (SECONDS + 2) * 1000000
# Microseconds of work between naps.
PIECE = 500
# How the tasks run: as many as CPUs that always work, and then all by weights, by weights in slices
# as long as the scheduler's, by the scheduler, and with counters of its parts.
PHASES = ("alone", "weights", "slices", "scheduler", "counted")
SLICES = "/sys/kernel/debug/sched/base_slice_ns"


def costs_program(folder: Path) -> interpreter.Files:
    """costs.c, compiled for a guest, with its libraries."""
    source = Path(held.__file__).with_name("costs.c")
    packages.said(["gcc", "-O2", "-Wall", "-Wextra", "-Werror", "-o", str(folder / "costs"),
                   str(source), "-lbpf"])
    return interpreter.program("costs", folder / "costs")


def phase(name: str, leaves: int, cpus: int, nap: int) -> list[str]:
    """The lines of a phase: all tasks, and what is counted meanwhile."""
    counted = name == PHASES[-1]
    if name == PHASES[0]:
        leaves, nap = cpus, 0
    return [*[f"echo 3000000 > {SLICES}"] * (name == "slices"), "now=$(/guest now)",
            f"first=$((now + {150 * leaves + 2000} * 1000000))",
            f"last=$((first + {SECONDS + 2} * {SECOND}))", f"echo phase {name}", "tasks=",
            f"for i in $(seq {leaves}); do (echo 0 > {layout.HOME}/$i/cgroup.procs; exec /guest"
            f" load $i $first $last {WHOLE} {nap} {(1 << cpus) - 1:x} {PIECE if nap else WHOLE}) &"
            " tasks=\"$tasks $!\"; done", f"/guest until $((first + {SECOND}))",
            *[f"echo 1 > {COUNTING}", "/costs"] * counted, "grep ctxt /proc/stat",
            f"/guest until $((first + {SECONDS + 1} * {SECOND}))", "grep ctxt /proc/stat",
            *["echo again", "/costs"] * counted, "wait $tasks"]


def work(leaves: int, cpus: int, nap: int) -> str:
    """The guest's script. The rest, with this shell, has half of the plan, and hardly runs."""
    lines = [f"echo +cpu > {layout.TOP}/cgroup.subtree_control", layout.BEAT,
             "mount -t debugfs none /sys/kernel/debug", f"mkdir {layout.HOME}",
             f"echo +cpu > {layout.HOME}/cgroup.subtree_control",
             f"for i in $(seq {leaves}); do mkdir {layout.HOME}/$i;"
             f" echo $((100 + i % 19 * 100)) > {layout.HOME}/$i/cpu.weight; done",
             *(line for name in PHASES[:3] for line in phase(name, leaves, cpus, nap))]
    lines += [f"( echo plan {20 * leaves}; echo rest {20 * leaves} {20 * leaves};"
              f" for i in $(seq {leaves}); do"
              f" echo leaf $(stat -c %i {layout.HOME}/$i) $((1 + i % 19)) $((1 + i % 19)) 0; done;"
              " echo end;"
              f" sleep 1000 ) | /arbiter-scheduler {layout.HOME} > /plan.out 2>&1 &",
              "until grep -q -v ready /plan.out; do sleep 0.2; done"]
    lines += [line for name in PHASES[3:] for line in phase(name, leaves, cpus, nap)]
    return "\n".join([*lines, "head -n 3 /plan.out"]) + "\n"


def read(lines: Sequence[str]) -> dict[str, Any]:
    """The instructions of a pick by part, and the loops of each phase."""
    before, after = dict[str, tuple[int, int]](), dict[str, tuple[int, int]]()
    found, loops, switches = before, dict[str, int](), dict[str, int]()
    for line in lines:
        words = line.split()
        if line == "again":
            found = after
        elif words[:1] == ["cost"]:
            found[words[1]] = int(words[2]), int(words[3])
        elif words[:1] == ["phase"]:
            name = words[1]
            loops[name] = switches[name] = 0
        elif words[:1] == ["ctxt"]:
            switches[name] = int(words[1]) - switches[name]
        elif words[:1] == ["task"]:
            loops[name] += sum(map(int, words[7:]))
    rose = {name: (runs - before[name][0], ns - before[name][1])
            for name, (runs, ns) in after.items() if name in before}
    picks = rose.get(PICKS, (0, 0))[0]
    parts = {name: round(ns / (1 << SHIFT) / picks) for name, (runs, ns) in rose.items()
             if runs and picks}
    return {"picks": picks, "instructions": sum(parts.values()), "loops": loops,
            "switches": switches, "parts": parts}


def shown(kernel: packages.Kernel, leaves: int, cpus: int, nap: int) -> dict[str, Any]:
    """What it costs with so many leaves."""
    with tempfile.TemporaryDirectory(prefix="arbiter-costs-") as name:
        more = {**costs_program(Path(name)), **held.scheduler_files(Path(name))}
    lines = machine.run(kernel, machine.Board(cpus), machine.Setting(SHIFT),
                        work(leaves, cpus, nap), more, 1024)
    return {"cpus": cpus, "leaves": leaves, "nap": nap, **read(lines)}


def main(words: Sequence[str]) -> int:
    """The command."""
    parser = argparse.ArgumentParser(prog="laboratory.costs", description=__doc__.splitlines()[0])
    parser.add_argument("leaves", nargs="+", type=int)
    parser.add_argument("--cpus", type=int, default=1)
    parser.add_argument("--nap", type=int, default=0, help="microseconds between pieces of work")
    parser.add_argument("--save", metavar="FILE", help="add each run to a file, as JSON lines")
    options = parser.parse_args(words)
    for leaves in options.leaves:
        text = json.dumps(shown(packages.kernel(packages.NEWEST), leaves, options.cpus,
                                options.nap))
        print(text, flush=True)
        if options.save:
            with open(options.save, "a", encoding="utf-8") as file:
                file.write(f"{text}\n")
    return 0


if __name__ == "__main__":
    sys.exit(main(sys.argv[1:]))
