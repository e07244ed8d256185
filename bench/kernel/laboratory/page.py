"""Tables of docs/kernel/runs.txt from the files of `--save`.

    PYTHONPATH=tests:bench/kernel /usr/bin/python3 -m laboratory.page FILE..
"""
from __future__ import annotations

import json
import sys
from collections import defaultdict
from collections.abc import Iterable, Iterator
from pathlib import Path
from typing import Any

from laboratory.readings import KEYS

Saved = dict[str, Any]


def read(paths: Iterable[str]) -> list[Saved]:
    """The outcomes of some files."""
    return [json.loads(line) for path in paths
            for line in Path(path).read_text(encoding="utf-8").splitlines()]


def kernel_of(saved: Saved) -> str:
    """The kernel's version of two numbers."""
    return ".".join(str(saved["release"]).split(".")[:2])


def off(line: Saved) -> float:
    """How much more than its exact share a group had."""
    return float(line["had"] - line["share"])


def offs(repeats: list[Saved]) -> dict[str, list[float]]:
    """Each group with tasks, and how far it was off in each repeat."""
    found: dict[str, list[float]] = defaultdict(list)
    for saved in repeats:
        leaves = {task["path"] for task in saved["tasks"]}
        for line in saved["lines"]:
            if line["path"] in leaves:
                found[line["path"]].append(off(line))
    return found


def spread(least: float, most: float) -> str:
    """A range of differences."""
    one, two = f"{least:+.2f}", f"{most:+.2f}"
    return one if one == two else f"{one} to {two}"


def worst(repeats: list[Saved]) -> str:
    """The group with tasks that was furthest off in any repeat, with its least and greatest."""
    found = offs(repeats)
    path = max(found, key=lambda each: max(abs(amount) for amount in found[each]))
    return f"{path.rpartition('/')[2]} {spread(min(found[path]), max(found[path]))}"


def is_wrong(line: Saved) -> bool:
    """Whether a group is judged and out of its bounds."""
    return line["least"] is not None and not line["least"] <= line["had"] <= line["most"]


def verdict(repeats: list[Saved]) -> str:
    """How often groups were out of their bounds."""
    refused = sum(1 for saved in repeats if saved["refusal"])
    lines = [line for saved in repeats for line in saved["lines"] if line["least"] is not None]
    out: dict[str, int] = defaultdict(int)
    for line in lines:
        if is_wrong(line):
            out[line["path"].rpartition("/")[2]] += 1
    words = [f"out: {', '.join(f'{name} {count}' for name, count in out.items())}"
             if out else "within" if lines else "not judged"]
    return "; ".join(words + ([f"refused: {refused}"] if refused else []))


def cells(repeats: list[Saved]) -> str:
    """The cells of a scenario on a kernel."""
    if not repeats:
        return " | |"
    return f" {worst(repeats)} ({len(repeats)}) | {verdict(repeats)} |"


def rows(found: list[Saved]) -> Iterator[str]:
    """The rows of a table: for each scenario each kernel's worst group and its verdict."""
    kernels = sorted({kernel_of(saved) for saved in found}, key=lambda each: int(each[2:]))
    yield "| Scenario |" + "".join(f" {name}: group, off | |" for name in kernels)
    yield "|---|" + "---|---|" * len(kernels)
    for name in sorted({str(saved["scenario"]) for saved in found}):
        of = [[saved for saved in found if saved["scenario"] == name and kernel_of(saved) == kernel]
              for kernel in kernels]
        yield f"| `{name}` |" + "".join(map(cells, of))


def by_kernel(found: list[Saved], name: str) -> dict[str, list[Saved]]:
    """The outcomes of a scenario by kernel, the older one first."""
    made: dict[str, list[Saved]] = defaultdict(list)
    for saved in found:
        if saved["scenario"] == name:
            made[kernel_of(saved)].append(saved)
    return dict(sorted(made.items(), key=lambda item: int(item[0][2:])))


def counted(repeats: list[Saved], which: str, path: str) -> str:
    """A limited group's periods, throttled periods and milliseconds, bursts and milliseconds: of
    the plan or of the kernel, with the least and the greatest of the repeats."""
    told = []
    for key in KEYS[1:]:
        unit = 1000 if key.endswith("_usec") else 1
        numbers = [round(saved[which][path][key] / unit) for saved in repeats]
        least, most = min(numbers), max(numbers)
        told.append(str(least) if least == most else f"{least} to {most}")
    return " / ".join(told)


def counter_rows(found: list[Saved]) -> Iterator[str]:
    """The rows of a table: what each limited group's counters rose by, in the plan and on each
    kernel."""
    for name in sorted({str(saved["scenario"]) for saved in found if saved["offsets"]}):
        of = by_kernel(found, name)
        for path in next(iter(of.values()))[0]["offsets"]:
            every = [saved for repeats in of.values() for saved in repeats]
            kernels = ", ".join(f"{kernel}: {counted(repeats, 'kernel', path)}"
                                for kernel, repeats in of.items())
            yield f"| `{name}` {path} | {counted(every, 'plan', path)} | {kernels} |"


def offset_rows(found: list[Saved]) -> Iterator[str]:
    """The rows of a table: how far the first limited group of each series was off, by the offset
    of its quota periods in milliseconds. Runs whose offset was not seen are left out."""
    for name in sorted({str(saved["scenario"]) for saved in found if saved["offsets"]}):
        for kernel, repeats in by_kernel(found, name).items():
            path = next(iter(repeats[0]["offsets"]))
            places = sorted((saved["offsets"][path], offs([saved])[path][0]) for saved in repeats
                            if saved["offsets"][path] is not None)
            told = ", ".join(f"{offset / 1000:.0f}: {amount:+.2f}" for offset, amount in places)
            yield f"| `{name}` {path} | {kernel} | {told} |"


def totals(found: list[Saved]) -> str:
    """How many runs there were, what was judged, and what was out of its bounds."""
    lines = [line for saved in found for line in saved["lines"] if line["least"] is not None]
    wrong = sum(1 for line in lines if is_wrong(line))
    refused = sum(1 for saved in found if saved["refusal"])
    return (f"{len(found)} runs, {len(lines)} groups judged, {wrong} out of bounds,"
            f" {refused} runs refused; others at most {max(s['others'] for s in found):.1%}")


def main() -> None:
    """Prints the tables."""
    found = read(sys.argv[1:])
    series = [saved for saved in found if "series" in saved["scenario"]]
    print("\n".join([totals(found), "", *rows(found), "", *counter_rows(found), "",
                     *offset_rows(series)]))


if __name__ == "__main__":
    main()
