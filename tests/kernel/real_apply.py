"""`arbiterctl export`, `apply` and `undo` on the real files of a guest, by the guest's Python."""
from __future__ import annotations

import json
from collections.abc import Iterator
from dataclasses import dataclass, field
from pathlib import Path
from typing import Any

from kernel import interpreter, layout, machine, packages
from kernel.faults import KernelFault
from kernel.scenario import parse

MEMORY = 512
COUNT = 20
DRIVER = Path(__file__).with_name("in_guest.py")
# Quotas and bursts that come down, and others that go up: the kernel refuses the wrong order.
TREE = "".join([
    *(f"mkdir a{number:02}\nwrite a{number:02} cpu.max 50000 100000\n"
      f"write a{number:02} cpu.max.burst 50000\n" for number in range(COUNT)),
    *(f"mkdir b{number:02}\nwrite b{number:02} cpu.weight {100 + number}\n"
      f"write b{number:02} cpu.max 20000 100000\n" for number in range(COUNT)),
    "mkdir pod\nwrite pod cpu.weight 10000\nwrite pod cpu.max 150000 100000\n",
    "mkdir pod/one\nwrite pod/one cpu.weight 1\nmkdir pod/two\nmkdir stays\n"])
SETS = ("a*.weight=7", "a*.burst=10ms", "a*.max=20%", "b*.max=80%", "b*.burst=80ms",
        "pod.weight=1", "pod.max=max", "pod/one.weight=10000", "pod/two.period=1s",
        "pod/two.max=1%")
BEFORE = "/tmp/before.script"


@dataclass
class Phase:
    """What one phase showed: the command's status and words, and the settings of each group.

    `rounds` is how often other groups were made and removed meanwhile.
    """

    status: int = 0
    said: list[str] = field(default_factory=list)
    groups: dict[str, tuple[str, ...]] = field(default_factory=dict)
    rounds: int = 0


def imported(to: str) -> list[str]:
    """The words of `export`."""
    return ["export", layout.HOME, "--want", "limit", "--cpus", "2", "--slice", "1ms",
            "-o", f"script={to}"]


def applied(undo: str) -> list[str]:
    """The words of `apply`."""
    sets = [word for each in SETS for word in ("--set", each)]
    return ["apply", BEFORE, "--root", layout.HOME, "--by", "files", *sets, "--undo",
            f"/tmp/{undo}", "--yes"]


def undone(undo: str) -> list[str]:
    """The words of `undo`."""
    return ["undo", f"/tmp/{undo}", "--yes"]


def steps() -> Iterator[dict[str, Any]]:
    """The steps in order. A command with `kill` is killed when a file holds a text."""
    yield {"name": "export", "words": imported(BEFORE)}
    yield {"name": "print", "words": applied("none")[:-1]}
    yield {"name": "apply", "words": applied("one")}
    yield {"name": "undo", "words": undone("one")}
    for group, file, text in (("a00", "cpu.weight", "7"), ("a13", "cpu.weight", "7"),
                              ("b00", "cpu.max", "80000 100000")):
        yield {"name": f"killed {group}", "words": applied(f"kill-{group}"),
               "kill": [layout.place(group, file), text]}
        yield {"name": f"undone {group}", "words": undone(f"kill-{group}")}
    yield {"name": "apply again", "words": applied("two")}
    yield {"name": "killed undo", "words": undone("two"),
           "kill": [layout.place("a07", "cpu.weight"), "100"]}
    yield {"name": "undone again", "words": undone("two")}
    yield {"name": "churn import", "words": imported("/tmp/other.script"), "churn": "begin"}
    yield {"name": "churn apply", "words": applied("three")}
    yield {"name": "churn undo", "words": undone("three"), "churn": "end"}
    yield {"name": "apply before one goes", "words": applied("four"), "rmdir": ["a05"]}
    yield {"name": "undo without it", "words": undone("four")}
    yield {"name": "apply without it", "words": applied("five")}


def work() -> str:
    """The guest's script."""
    lines = [f"echo +cpu > {layout.TOP}/cgroup.subtree_control",
             *layout.groups(parse("tree", TREE)),
             f"/usr/bin/python3 /{interpreter.HOME}/{DRIVER.name} /steps.json"]
    return "\n".join(lines) + "\n"


def read(lines: list[str], count: int) -> dict[str, Phase]:
    """What each phase of so many steps showed, by its name."""
    found = {}
    for line in lines:
        if line.startswith("{"):
            shown = json.loads(line)
            groups = {path: tuple(texts) for path, texts in shown.pop("groups").items()}
            name = shown.pop("phase")
            found[name] = Phase(groups=groups, **shown)
    if len(found) != 1 + count:
        raise KernelFault(f"the guest did not make all steps: {lines[-5:]}")
    return found


def shown_by(kernel: packages.Kernel, setting: machine.Setting) -> dict[str, Phase]:
    """Runs it in a guest."""
    told = json.dumps({"top": layout.HOME, "steps": list(steps())}).encode()
    more = {**interpreter.files(), "steps.json": (0o100644, told),
            f"{interpreter.HOME}/{DRIVER.name}": (0o100644, DRIVER.read_bytes())}
    lines = machine.run(kernel, machine.Board(), setting, work(), more, MEMORY)
    return read(lines, len(list(steps())))
