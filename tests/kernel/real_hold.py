"""`arbiterctl hold`, `undo` and `audit` on the real files of a guest, by the guest's Python."""
from __future__ import annotations

import json
from collections.abc import Iterator
from typing import Any

from kernel import interpreter, layout, machine, packages, real_apply
from kernel.real_apply import DRIVER, MEMORY, Phase
from kernel.scenario import parse

TREE = """\
mkdir a
mkdir b
write b cpu.weight 300
mkdir pod
write pod cpu.max 90000 100000
mkdir pod/x
mkdir pod/y
write pod/y cpu.max 50000 100000
write pod/y cpu.max.burst 20000
"""
PROCESSORS = 2
# Slices of each leaf's guarantee: weights 100, 300 and 100 of 200. All but a use nothing, and a gets
# a second task on its processor, so these are their limits.
GUARANTEES = {"a": 40, "b": 120, "pod/x": 20, "pod/y": 20}
# The task of group a keeps to the second processor, so that Python has the first.
LOAD = (f"(echo 0 > {layout.HOME}/a/cgroup.procs;"
        " exec /guest load a $(/guest now) 9000000000000 100000 0 2 100000) &")


def held(undo: str, *words: str) -> list[str]:
    """The words of `hold`."""
    return ["hold", layout.HOME, "--root", layout.HOME, "--undo", f"/tmp/{undo}", "--period",
            "100ms", *words]


def undone(undo: str) -> list[str]:
    """The words of `undo`."""
    return ["undo", f"/tmp/{undo}", "--yes"]


def steps() -> Iterator[dict[str, Any]]:
    """The steps in order. A command with `kill` is killed when a file holds a text, and before one
    with `spin` a group gets a task more."""
    yield {"name": "audit", "words": ["audit", layout.HOME, "--read", "3x4s", "-o", "json"]}
    yield {"name": "dry run", "words": held("none", "--read", "2x2s"), "spin": "a"}
    yield {"name": "hold", "words": held("one", "--yes", "--read", "5x2s")}
    for name, group, more in (("first", "b", []), ("last", "pod/y", ["--weights"])):
        # (the loop writes a 128th above the limit of the rule)
        text = f"{GUARANTEES[group] * 1000 * 129 // 128} 100000"
        yield {"name": f"killed {name}", "words": held(name, "--yes", "--read", "x2s", *more),
               "kill": [layout.place(group, "cpu.max"), text]}
        yield {"name": f"undone {name}", "words": undone(name)}
    yield {"name": "churn", "words": held("churn", "--yes", "--read", "5x2s", "--weights"), "churn":
           "both"}


def work() -> str:
    """The guest's script."""
    lines = ["mkdir -p /run", f"echo +cpu > {layout.TOP}/cgroup.subtree_control",
             *layout.groups(parse("tree", TREE)), LOAD,
             f"/usr/bin/python3 /{interpreter.HOME}/{DRIVER.name} /steps.json"]
    return "\n".join(lines) + "\n"


def shown_by(kernel: packages.Kernel, setting: machine.Setting) -> dict[str, Phase]:
    """Runs it in a guest."""
    told = json.dumps({"top": layout.HOME, "steps": list(steps())}).encode()
    more = {**interpreter.files(), "steps.json": (0o100644, told),
            f"{interpreter.HOME}/{DRIVER.name}": (0o100644, DRIVER.read_bytes())}
    lines = machine.run(kernel, machine.Board(PROCESSORS), setting, work(), more, MEMORY)
    return real_apply.read(lines, len(list(steps())))
