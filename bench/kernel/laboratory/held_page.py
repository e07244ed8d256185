"""Tables of docs/kernel/hold.txt from the files of `laboratory.held --save`.

    PYTHONPATH=tests:bench/kernel /usr/bin/python3 -m laboratory.held_page [--write] [FILE..]

FILE is that of the kept runs, unless others are named. --write puts both tables into the page.
A cell has the group that was furthest off, in hundredths of a processor: the mean of the runs
(least to greatest). Then the part of the plan that was served, if that is less than 99.5 %, and
the number of runs.
"""
from __future__ import annotations

import gzip
import json
import re
import sys
from collections.abc import Iterable, Iterator
from pathlib import Path
from statistics import fmean
from typing import Any

from kernel import scenario
from kernel.held import WAYS
from laboratory.__main__ import SCENARIOS
from laboratory.page import kernel_of, off

Saved = dict[str, Any]
RUNS = Path(__file__).resolve().parents[1] / "runs/hold.jsonl.gz"
PAGE = Path(__file__).resolve().parents[3] / "docs/kernel/hold.txt"
# The scenario whose demands change, which has a table of its own.
STEP = "two-step"
# The ways that have columns in docs/kernel/hold.txt.
PAGE_WAYS = ["weights", "limits-1s", "loop", "loop-1s"]
# Cells have the served part of a plan if it is less.
NEARLY_ALL = 0.995


def read(paths: Iterable[str]) -> list[Saved]:
    """The runs of some files that say something."""
    found = []
    for path in paths:
        data = Path(path).read_bytes()
        text = gzip.decompress(data) if path.endswith(".gz") else data
        found += [json.loads(line) for line in text.decode().splitlines()]
    return [each for each in found if not each["refusal"]]


def leaves(saved: Saved) -> list[Saved]:
    """The lines of the groups with tasks."""
    return [line for line in saved["lines"] if line["path"] in saved["leaves"]]


def worst(runs: list[Saved]) -> float:
    """The greatest difference of a group from its share."""
    return max(abs(off(line)) for saved in runs for line in leaves(saved))


def worst_part(runs: list[Saved]) -> float:
    """The greatest difference of a group in parts of its own share."""
    return max(abs(off(line)) / float(line["share"]) for saved in runs for line in leaves(saved))


def served(runs: list[Saved]) -> float:
    """The part of the plan that was served, on the mean."""
    parts = []
    for saved in runs:
        root = next(line for line in saved["lines"] if line["path"] == ".")
        parts.append(root["had"] / root["share"])
    return float(sum(parts) / len(parts))


def mean(runs: list[Saved]) -> float:
    """How far the group was off that was furthest off in each run, on the mean."""
    return fmean(worst([saved]) for saved in runs)


def spread(runs: list[Saved]) -> str:
    """The group that was furthest off in each run: the mean, least to greatest."""
    offs = [worst([saved]) for saved in runs]
    middle, least, most = (f"{each:.1f}" for each in (mean(runs), min(offs), max(offs)))
    return middle if least == most else f"{middle} ({least} to {most})"


def cell(runs: list[Saved]) -> str:
    """The cell of a scenario and a way."""
    if not runs:
        return ""
    part = served(runs)
    told = [f"{part:.1%}".replace("%", " %")] if part < NEARLY_ALL else []
    return ", ".join([spread(runs), *told, str(len(runs))])


def of(found: list[Saved], scenario: str, way: str) -> list[Saved]:
    """The runs of a scenario in a way."""
    return [each for each in found if each["scenario"] == scenario and each["way"] == way]


def about(name: str) -> str:
    """A scenario in words: its name, and its first line."""
    script = SCENARIOS / f"{name}.script"
    return f"`{name}`" + (f": {scenario.read(script).about}" if script.exists() else "")


def rows(found: list[Saved], title: str, ways: list[str]) -> Iterator[str]:
    """The rows of a table of scenarios and ways."""
    yield f"| {title} | " + " | ".join(ways) + " |"
    yield "|---" * (len(ways) + 1) + "|"
    for name in sorted({each["scenario"] for each in found}):
        cells = [cell(of(found, name, way)) for way in ways]
        if any(cells):
            yield f"| {about(name)} | " + " | ".join(cells) + " |"


def sums(found: list[Saved], title: str, ways: list[str]) -> Iterator[str]:
    """For each way, in the scenarios that have weights alone too: how often its worst group is
    nearer and further on the mean by more than 0.5, the worst of all, and what is served."""
    yield f"| {title} | scenarios, runs | nearer | further | worst | worst part | served |"
    yield "|---|---|---|---|---|---|---|"
    names = sorted({each["scenario"] for each in found})
    for way in ways:
        both = [(of(found, name, "weights"), of(found, name, way)) for name in names]
        both = [(one, two) for one, two in both if one and two]
        if not both:
            continue
        nearer = sum(mean(two) < mean(one) - 0.5 for one, two in both)
        further = sum(mean(two) > mean(one) + 0.5 for one, two in both)
        runs = [two for _, two in both]
        text = (f"| {way} | {len(both)}, {sum(map(len, runs))} | {nearer} | {further} |"
                f" {max(map(worst, runs)):.1f} | {max(map(worst_part, runs)):.0%} |"
                f" {sum(map(served, runs)) / len(both):.1%} |")
        yield text.replace("%", " %")


def rounds(saved: Saved) -> Iterator[str]:
    """What each leaf used and was limited to, by round."""
    names = saved["leaves"]
    yield f"| {saved['key']}: round | " + " | ".join(names) + " |"
    yield "|---" * (len(names) + 1) + "|"
    for number in sorted({each["round"] for each in saved["rounds"]}):
        here = {each["path"]: each for each in saved["rounds"] if each["round"] == number}
        cells = [f"{here[name]['used']} of {here[name]['limit']}{'h' * here[name]['hungry']}"
                 for name in names]
        yield f"| {number} | " + " | ".join(cells) + " |"


def of_page(found: list[Saved]) -> list[str]:
    """The two tables of docs/kernel/hold.txt: scenarios, and all ways."""
    steady = [each for each in found if each["scenario"] != STEP]
    return [*rows(steady, "Scenario", PAGE_WAYS), "", *sums(steady, "Way", list(WAYS))]


def tables(found: list[Saved]) -> Iterator[str]:
    """All tables: those of the page, of both kernels, of each, and the rounds of the step."""
    yield from [*of_page(found), ""]
    steady = [each for each in found if each["scenario"] != STEP]
    ways = [way for way in WAYS if any(each["way"] == way for each in steady)]
    yield f"{len(found)} runs; others at most {max(each['others'] for each in found):.1%}"
    groups = {"both kernels": steady}
    for kernel in sorted({kernel_of(each) for each in found}, key=lambda each: int(each[2:])):
        groups[kernel] = [each for each in steady if kernel_of(each) == kernel]
    for title, runs in groups.items():
        yield from ["", *rows(runs, title, ways), "", *sums(runs, title, ways)]
    for saved in found:
        if saved["scenario"] == STEP:
            yield from ["", *rounds(saved)]


def written(page: str, found: list[Saved]) -> str:
    """The page with both tables. A table is the lines from its first to its last bar."""
    text = "\n".join(of_page(found))
    for table in text.split("\n\n"):
        head = table.partition(" |")[0]
        page = re.sub(rf"^{re.escape(head)} \|.*\n(?:\|.*\n)+", lambda _: f"{table}\n", page,
                      flags=re.MULTILINE)
    return page


def main(words: list[str]) -> None:
    """Prints the tables, or writes them."""
    files = [word for word in words if word != "--write"]
    found = read(files or [str(RUNS)])
    if "--write" in words:
        PAGE.write_text(written(PAGE.read_text(encoding="utf-8"), found), encoding="utf-8")
    else:
        print("\n".join(tables(found)))


if __name__ == "__main__":
    main(sys.argv[1:])
