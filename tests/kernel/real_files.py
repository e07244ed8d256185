"""The real files of cgroup v2: what texts the kernel takes, and `arbiterctl export` of its tree.

The tree is brought out of the guest as an archive, and imported here.
"""
from __future__ import annotations

import base64
import io
import subprocess
import tarfile
from collections.abc import Iterator
from dataclasses import dataclass, field
from pathlib import Path

from kernel import layout, machine, packages, planned
from kernel.faults import KernelFault
from kernel.scenario import Scenario, parse

PACKAGE = Path(__file__).resolve().parents[2] / "python"
PYTHON = "/usr/bin/python3"
# The greatest quota of the kernel, in microseconds: 2^44 - 1.
GREATEST = 17592186044415
# (file, text) at the ends of the ranges. A quota stands before each burst.
TEXTS = [
    ("cpu.weight", "1"), ("cpu.weight", "10000"), ("cpu.weight", "100"),
    ("cpu.max", "max 1000"), ("cpu.max", "max 1000000"), ("cpu.max", "1000 1000"),
    ("cpu.max", "1000 1000000"), ("cpu.max", "1000000 1000000"), ("cpu.max", "50000"),
    ("cpu.max", "max"), ("cpu.max", f"{GREATEST} 100000"), ("cpu.max", f"{GREATEST + 1} 100000"),
    ("cpu.max", "1000000000000000 1000000"), ("cpu.max", "max 100000"),
    ("cpu.max.burst", "1000000000000000"), ("cpu.max.burst", "0"),
    ("cpu.max", "20000 100000"), ("cpu.max.burst", "20000"), ("cpu.max.burst", "20001"),
    ("cpu.max.burst", "0"), ("cpu.max", "max 100000"),
    ("cpu.weight", "0"), ("cpu.weight", "10001"), ("cpu.max", "999 100000"),
    ("cpu.max", "1000 999"), ("cpu.max", "1000 1000001"), ("cpu.max", "0100 1000"),
]
TREE = """\
mkdir pod
write pod cpu.weight 10000
write pod cpu.max 150000 100000
write pod cpu.max.burst 150000
mkdir pod/one
write pod/one cpu.weight 1
write pod/one cpu.max 1000 1000000
mkdir pod/two
write pod/two cpu.max 1000 1000
mkdir free
write free cpu.weight 9999
"""


@dataclass
class Found:
    """What the guest showed: texts with the kernel's answer, and the tree as an archive."""

    texts: list[tuple[str, str, bool, str]] = field(default_factory=list)
    archive: bytes = b""


def text_lines() -> Iterator[str]:
    """Writes each text, and shows the kernel's answer and what its file then holds."""
    yield f"mkdir {layout.HOME}/texts"
    for file, text in TEXTS:
        where = f"{layout.HOME}/texts/{file}"
        yield (f"if echo {text!r} > {where}; then told=taken; else told=refused; fi;"
               f" echo \"text {file}|{text}|$told|$(cat {where})\"")
    yield f"rmdir {layout.HOME}/texts"


def work() -> str:
    """The guest's script. Files of the kernel have no size, so they are copied before packing."""
    lines = [f"echo +cpu > {layout.TOP}/cgroup.subtree_control",
             *layout.groups(parse("tree", TREE)), *text_lines(),
             f"cp -r {layout.HOME} /tmp/tree 2>/dev/null",
             "tar -c -C /tmp tree | gzip | base64 | sed 's/^/archive /'"]
    return "\n".join(lines) + "\n"


def read(lines: list[str]) -> Found:
    """What the guest printed."""
    found, archive = Found(), ""
    for line in lines:
        kind, _, rest = line.partition(" ")
        if kind == "text":
            file, text, told, shown = rest.split("|")
            found.texts.append((file, text, told == "taken", shown))
        elif kind == "archive":
            archive += rest
    found.archive = base64.b64decode(archive)
    return found


def shown_by(kernel: packages.Kernel, setting: machine.Setting) -> Found:
    """Runs it in a guest."""
    return read(machine.run(kernel, machine.Board(), setting, work()))


def unpacked(found: Found, folder: Path) -> Path:
    """The tree, in a folder."""
    with tarfile.open(fileobj=io.BytesIO(found.archive)) as archive:
        archive.extractall(folder)
    return folder / "tree"


def settings(tree: Path) -> dict[str, tuple[str, str, str]]:
    """Weight, limit and burst of each group of a tree, by path."""
    files = ("cpu.weight", "cpu.max", "cpu.max.burst")
    found = {}
    for folder in sorted(tree.rglob("*")):
        if folder.is_dir():
            weight, limit, burst = ((folder / name).read_text().strip() for name in files)
            found[str(folder.relative_to(tree))] = (weight, limit, burst)
    return found


def imported(tree: Path) -> Scenario:
    """The script that `arbiterctl export` makes of a copy of the tree, on this machine."""
    words = [PYTHON, str(PACKAGE / "arbiterctl"), "export", str(tree), "--want", "limit",
             "--cpus", "2", "--slice", "1ms"]
    ended = subprocess.run(words, capture_output=True, text=True, check=False, timeout=120)
    if ended.returncode:
        raise KernelFault(ended.stderr)
    return parse("imported", ended.stdout)


def effective(scenario: Scenario) -> dict[str, tuple[str, str, str]]:
    """Weight, limit and burst that a script gives each group."""
    weights, limits, bursts = (scenario.files(name) for name in
                               ("cpu.weight", "cpu.max", "cpu.max.burst"))
    return {path: (weights.get(path, "100"), limits.get(path, "max 100000"),
                   bursts.get(path, "0")) for path in scenario.paths}


def by_program(texts: list[tuple[str, str]]) -> list[tuple[bool, str]]:
    """The program's answers to texts that are written one after another: taken, and then read."""
    lines = ["mkdir g"]
    for file, text in texts:
        lines += [f"write g {file} {text}", f"read g {file}"]
    ended = subprocess.run([str(planned.program()), "run"], input="\n".join(lines) + "\n",
                           capture_output=True, text=True, check=True, timeout=60)
    found = ended.stdout.splitlines()[1:]
    return [(found[at] == "ok", found[at + 1]) for at in range(0, len(found), 2)]
