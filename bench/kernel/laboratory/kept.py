"""Kept runs: what groups had in guests, with their hosts, to try a model against them.

    PYTHONPATH=tests:bench/kernel python3 -m laboratory.kept SET SAVED..
    PYTHONPATH=tests:bench/kernel python3 -m laboratory.kept --draw SEED FOLDER

SAVED are files that `./test --kernel --save` or `laboratory.held --save` wrote, beside scripts that are
no scenarios here. Their runs of several processors are added to kept_runs.json.xz under the name
SET, each with its host. Series, naps, pinned tasks and runs that were held by limits are left out.

With --draw ten hosts of a seed are written into a folder as scripts for `./test --kernel`.
"""
from __future__ import annotations

import json
import lzma
import re
import sys
from collections.abc import Iterator
from pathlib import Path
from typing import Any

from kernel import scenario
from laboratory import draw
from laboratory.__main__ import SCENARIOS
from laboratory.exact import usable
from kernel.scenario import Scenario

KEPT = Path(__file__).resolve().parents[1] / "kept_runs.json.xz"
# Hosts of a seed, and a seed that a file's name may have.
DRAWN = 10
SEED = re.compile(r"[A-Za-z0-9]{1,40}")


def kept() -> dict[str, Any]:
    """The kept hosts by name, and the runs."""
    found: dict[str, Any] = json.loads(lzma.decompress(KEPT.read_bytes()))
    return found


def is_kept(found: Scenario) -> bool:
    """Whether a model of placement can be tried on a scenario."""
    every = (1 << found.processors) - 1
    return found.processors > 1 and not found.is_series and not any(
        leaf.is_spread or leaf.nap or leaf.cpus != every for leaf in found.leaves.values())


def host_of(found: Scenario) -> dict[str, Any]:
    """A host as data. Demands are thousandths of a processor, quotas microseconds."""
    groups, maxima = [], found.files("cpu.max")
    weights, bursts = found.files("cpu.weight"), found.files("cpu.max.burst")
    for path in found.paths:
        quota, period = (maxima.get(path, "max").split() + ["100000"])[:2]
        leaf = found.leaves.get(path)
        demand = float(usable(found, path, found.steps[0].get(path, 0)) * 10) if leaf else 0.0
        groups.append({"path": path, "weight": int(weights.get(path, 100)),
                       "quota": None if quota == "max" else int(quota), "period": int(period),
                       "burst": int(bursts.get(path, 0)), "demand": demand,
                       "tasks": leaf.tasks if leaf else None})
    return {"about": found.about, "processors": found.processors, "period": found.period,
            "slice": found.slice, "groups": groups}


def runs_of(set_: str, path: Path, hosts: dict[str, Any],
            folders: list[Path]) -> Iterator[dict[str, Any]]:
    """The runs of a saved file. Each host is added to those that are there."""
    for line in path.read_text(encoding="utf-8").splitlines():
        said = json.loads(line)
        script = next(each for each in (folder / f"{said['scenario']}.script"
                                        for folder in folders) if each.exists())
        found = scenario.read(script)
        if said["refusal"] or said.get("way", "weights") != "weights" or not is_kept(found):
            continue
        hosts[found.name] = host_of(found)
        yield {"set": set_, "host": found.name, "kernel": said["release"],
               "groups": {each["path"]: [round(each["share"] / 100, 5),
                                         round(each["had"] / 100, 5)]
                          for each in said["lines"] if each["path"] in found.leaves}}


def write_drawn(seed: str, folder: Path) -> None:
    """Writes the hosts of a seed as scripts. A file that is there is not replaced."""
    if not SEED.fullmatch(seed):
        raise SystemExit("--draw: a seed is a word of letters and digits")
    folder.mkdir(exist_ok=True)
    for name, text in draw.drawn(seed, DRAWN):
        with (folder / f"{name}.script").open("x", encoding="utf-8") as file:
            file.write(text)
    print(f"{DRAWN} hosts: ./test --kernel --save {folder}/saved.json {folder}/*.script")


def main(words: list[str]) -> None:
    """Adds the runs of files, or draws hosts."""
    if words[:1] == ["--draw"] and len(words) == 3:
        write_drawn(words[1], Path(words[2]))
        return
    if len(words) < 2 or words[0].startswith("-"):
        raise SystemExit(__doc__)
    set_, *files = words
    found = kept() if KEPT.exists() else {"sets": {}, "hosts": {}, "runs": []}
    for path in map(Path, files):
        found["runs"] += runs_of(set_, path, found["hosts"], [SCENARIOS, path.parent])
    KEPT.write_bytes(lzma.compress(json.dumps(found, separators=(",", ":")).encode()))
    print(f"{len(found['runs'])} runs of {len(found['hosts'])} hosts")


if __name__ == "__main__":
    main(sys.argv[1:])
