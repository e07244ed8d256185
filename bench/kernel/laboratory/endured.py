"""What the scheduler endures: attached and detached, killed, loaded again under load, and stalled.

    PYTHONPATH=tests:bench/kernel /usr/bin/python3 -m laboratory.endured [--cycles N] [--save FILE]

Guests of two processors run tasks of all kinds: spinners, a pinned one, one that may use one of
two processors, forks and sleepers. It prints what happened as JSON. In the first guest it is
attached and detached, in the second one killed, loaded again and stalled.
"""
from __future__ import annotations

import argparse
import json
import re
import shutil
import sys
import tempfile
from collections.abc import Sequence
from pathlib import Path
from typing import Any

from kernel import faults, held, interpreter, layout, machine, packages
from kernel.scenario import parse

TREE = "mkdir a\nwrite a cpu.weight 300\nmkdir b\nmkdir b/c\nmkdir d\n"
LEAVES = {"a": 50, "b/c": 30, "d": 20}
# The words of the tasks of each leaf, behind their end: a period or a job, a nap, a mask, work.
TASKS = {"a": ["load a $now END 100000 0 3 100000"] * 2 + ["load a $now END 100000 0 1 100000"],
         "b/c": ["farm c $now END 5000 3", "load c $now END 100000 0 2 100000"],
         "d": ["load d $now END 100000 7000 3 3000", "load d $now END 100000 2000 2 1000"]}
END = "9000000000000"
LOADS = 2
# The edit of a program that picks nobody, so that the kernel's watchdog has to end it.
PICKS = "    found = took_next("
PICKS_NOBODY = "    found = 0 * took_next("
STATE = "/sys/kernel/sched_ext/state"
MAKE = "make"


def programs(folder: Path) -> interpreter.Files:
    """The loader, one of a scheduler that picks nobody, and the program that attaches it again."""
    source, made = folder / "scheduler", folder / "out"
    shutil.copytree(held.SCHEDULER, source)
    main_file = source / "plan.bpf.c"
    text = main_file.read_text(encoding="ascii")
    if text.count(PICKS) != 1:
        raise faults.KernelFault(f"{main_file}: no line {PICKS.strip()}")
    packages.said([MAKE, "-C", str(source), f"OUT={made}"])
    packages.said(["gcc", "-O2", "-Wall", "-Wextra", "-Werror", f"-I{source}", f"-I{made}", "-o",
                   str(folder / "cycles"), str(Path(held.__file__).with_name("cycles.c")),
                   "-lbpf", "-lelf", "-lz"])
    main_file.write_text(text.replace(PICKS, PICKS_NOBODY), encoding="ascii")
    packages.said([MAKE, "-C", str(source), f"OUT={folder}/stalls"])
    return {**interpreter.program("arbiter-scheduler", made / "arbiter-scheduler"),
            **interpreter.program("stalled-scheduler", folder / "stalls/arbiter-scheduler"),
            **interpreter.program("cycles", folder / "cycles")}


def loaded(program: str) -> list[str]:
    """Loads a scheduler with a plan; $scheduler is its process."""
    plan = "; ".join(f"echo leaf $(stat -c %i {layout.place(path)}) {amount} {amount} 0"
                     for path, amount in LEAVES.items())
    return ["rm -f /plan.in; mkfifo /plan.in; : > /plan.out",
            f"{program} {layout.HOME} < /plan.in > /plan.out 2>&1 &",
            "scheduler=$!; exec 9> /plan.in",
            f"{{ echo plan 200; echo rest 100 2; {plan}; echo end; }} >&9",
            "until grep -q -v ready /plan.out; do sleep 0.1; done"]


def gone(name: str) -> list[str]:
    """Tells how many nanoseconds it takes until no scheduler is there, and the last line."""
    return ["began=$(/guest now)",
            f"until grep -q disabled {STATE}; do sleep 0.01; done",
            f"echo {name} $(($(/guest now) - began)) $(tail -n 1 /plan.out)", "exec 9>&-"]


def used(name: str) -> list[str]:
    """Tells what each leaf uses in a second, in microseconds."""
    files = " ".join(f"{layout.place(path)}/cpu.stat" for path in LEAVES)
    return [f"one=$(grep -h usage_usec {files}); sleep 1; two=$(grep -h usage_usec {files})",
            f"echo {name} $one $two"]


def objects(name: str) -> list[str]:
    """Tells how many maps, programs and links of BPF the kernel has, and its free memory in KiB.
    What is gone takes a moment."""
    return ["sleep 2", f"echo {name} $(/cycles) $(grep MemFree /proc/meminfo)"]


def begun() -> list[str]:
    """The lines that make the groups and begin their tasks."""
    lines = [f"echo +cpu > {layout.TOP}/cgroup.subtree_control",
             *layout.groups(parse("tree", TREE)), "now=$(/guest now)"]
    for path, tasks in TASKS.items():
        lines += [f"(echo 0 > {layout.place(path)}/cgroup.procs;"
                  f" exec /guest {words.replace('END', END)}) > /dev/null &" for words in tasks]
    # (from here on this shell and what it begins go ahead of the tasks)
    return [*lines, "sleep 1", "renice -n -20 $$ > /dev/null"]


def cycled(cycles: int) -> str:
    """The script of the first guest. After the first time the kernel keeps what it needs."""
    numbers = " ".join(f"$(stat -c %i {layout.place(path)})" for path in LEAVES)
    lines = [*begun(), f"/cycles 1 60 40 {numbers} > /dev/null", *objects("first"),
             f"/cycles {cycles} 60 40 {numbers}", *objects("last")]
    return "\n".join(lines) + "\n"


def loads_again(loads: int = LOADS) -> str:
    """The script of the second guest."""
    lines = [*begun(), *used("before")]
    for name, signal in (("killed", "-9"), ("ended", "-15")):
        for _ in range(loads):
            lines += [*loaded("/arbiter-scheduler"), f"cat {STATE}", "sleep 0.3",
                      f"kill {signal} $scheduler", *gone(name)]
    lines += [*loaded("/stalled-scheduler"), *gone("stalled"), "sleep 2",
              "echo said $(cat /plan.out)", *used("after"),
              "dmesg | grep 'sched_ext: BPF scheduler' | tail -n 2 | sed 's/^/kernel-said /'"]
    return "\n".join(lines) + "\n"


def stalled(said: Sequence[str]) -> int:
    """The milliseconds from the line that a scheduler is enabled to the one that it is not."""
    one, two = (float(re.sub(r"^\[ *([0-9.]+)\].*", r"\1", line)) for line in said)
    return round(1000 * (two - one))


def told_by(lines: Sequence[str]) -> dict[str, list[str]]:
    """What each first word is followed by."""
    told: dict[str, list[str]] = {}
    for line in lines:
        name, _, rest = line.partition(" ")
        if rest:
            told.setdefault(name, []).append(rest)
    return told


def left(lines: Sequence[str]) -> dict[str, Any]:
    """What the first guest told."""
    told = told_by(lines)
    found = {name: [int(each) for each in told[name][0].split() if each.isdigit()]
             for name in ("first", "last")}
    return {"cycles": told["cycles"][0],
            "objects": {name: numbers[:3] for name, numbers in found.items()},
            "free_kib": {name: numbers[3] for name, numbers in found.items()}}


def read(lines: Sequence[str]) -> dict[str, Any]:
    """What the second guest told."""
    told = told_by(lines)
    times = {name: [int(each.split()[0]) // 1000000 for each in told.get(name, [])]
             for name in ("killed", "ended")}
    times["stalled"] = [stalled(told["kernel-said"])]
    rose = {}
    for name in ("before", "after"):
        numbers = [int(each) for each in told[name][0].split() if each.isdigit()]
        half = len(numbers) // 2
        rose[name] = {path: two - one for path, one, two
                      in zip(LEAVES, numbers[:half], numbers[half:])}
    return {"release": told["kernel"][0], "milliseconds": times,
            "enabled": sum(line == "enabled" for line in lines), "used": rose,
            "said": told["said"][0], "kernel": told["kernel-said"][-1]}


def shown(kernel: packages.Kernel, cycles: int, loads: int = LOADS) -> dict[str, Any]:
    """Runs both guests."""
    with tempfile.TemporaryDirectory(prefix="arbiter-endured-") as name:
        more = programs(Path(name))
    one, two = (machine.run(kernel, machine.Board(2), machine.Setting(4), work, more, 512)
                for work in (cycled(cycles), loads_again(loads)))
    return {**left(one), **read(two)}


def main(words: Sequence[str]) -> int:
    """The command."""
    parser = argparse.ArgumentParser(prog="laboratory.endured",
                                     description=__doc__.splitlines()[0])
    parser.add_argument("--cycles", type=int, default=500)
    parser.add_argument("--save", metavar="FILE")
    options = parser.parse_args(words)
    text = json.dumps(shown(packages.kernel(packages.NEWEST), options.cycles), indent=1) + "\n"
    print(text, end="")
    if options.save:
        Path(options.save).write_text(text, encoding="utf-8")
    return 0


if __name__ == "__main__":
    sys.exit(main(sys.argv[1:]))
