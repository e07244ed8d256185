"""How far off groups were by kind of host: a table of docs/LINUX.md, and docs/kernel/hosts.txt.

    PYTHONPATH=tests:bench/kernel /usr/bin/python3 -m laboratory.kinds [--write]

Runs are those of kept_runs.json.xz and, of other scenarios, those by weights in
runs/hold.jsonl.gz. docs/kernel/runs.txt has more runs, each with the group that was furthest off:
of these the greatest count. Series and pinned tasks are left out. --write puts both tables into
their files.
"""
from __future__ import annotations

import re
import sys
from collections.abc import Iterable, Iterator
from dataclasses import dataclass
from fractions import Fraction
from pathlib import Path
from typing import Any

from kernel import scenario
from laboratory import exact, held_page, kept
from laboratory.__main__ import SCENARIOS

DOCS = Path(__file__).resolve().parents[3] / "docs"
PAGE, HOSTS, RUNS = DOCS / "LINUX.md", DOCS / "kernel/hosts.txt", DOCS / "kernel/runs.txt"
Host = dict[str, Any]
# Kinds of groups, in the words of the page, and why they are off on several CPUs.
KINDS = {
    "even": ("weights alone; equally many busy tasks in each group, at least one for each CPU",
             "tasks move"),
    "uneven": ("weights alone; other numbers of busy tasks", "Linux evens out loads, not shares"),
    "nested": ("the same in levels, as pods and containers", "so it does on each level"),
    "idle": ("weights alone; some groups idle for a part of the time",
             "the balancer takes a sleeper for idle"),
    "limited": ("a group whose own limit binds", "ticks, moves"),
    "beside": ("groups beside and below limits: siblings, pods",
               "the balancer takes a throttled group for idle"),
    "short": ("limits in or beside one another, one with a period below 50 ms",
              "on 6.12 a turn outlasts the quota"),
    "naps": ("tasks that sleep after each piece of work", "while they wait they ask for less"),
}
# Numbers of CPUs of the columns: the most of each.
COLUMNS = {1: "1 CPU", 2: "2", 4: "3 or 4", 8: "8, two caches"}
SHORT = 50000
# Number of groups from which nine of ten are told.
MANY = 20
# A row of runs.txt, a cell of it, and its list of scenarios that were near.
ROW = re.compile(r"^\| `([a-z-]+)` \| (.*) \|$", re.M)
CELL = re.compile(r"(\S+) ([+-][0-9.]+)(?: to ([+-][0-9.]+))?")
WITHIN = re.compile(r"^Within ([0-9.]+) on both: (.*)\.$", re.M)


@dataclass(frozen=True)
class Seen:
    """A group of a run in hundredths of a processor: its kind, its share, and how far off it was.

    Of runs.txt it is the furthest of several runs (`is_worst`), or a bound without a share.
    """

    host: str
    column: int
    kind: str
    off: float
    share: float = 0
    is_worst: bool = False


def is_at_limit(group: Host, share: float) -> bool:
    """Whether a group's own limit binds. The share is of a little less than the whole host."""
    return group["quota"] is not None and share >= 98.5 * group["quota"] / group["period"]


def kind_of_host(host: Host) -> str:
    """The kind of a host without naps; `beside` if it has limits."""
    leaves = [each for each in host["groups"] if each["tasks"] is not None]
    limited = [each for each in host["groups"] if each["quota"] is not None]
    if len(limited) > 1 and min(each["period"] for each in limited) < SHORT:
        return "short"
    if limited:
        return "beside"
    most = [1000 * min(each["tasks"], host["processors"]) for each in leaves]
    if any(each["demand"] < least - 1 for each, least in zip(leaves, most)):
        return "idle"
    numbers = {each["tasks"] for each in leaves}
    is_nested = any("/" in each["path"] for each in leaves)
    # on one CPU each number of tasks is enough, and levels have a row of their own
    is_even = len(numbers) == 1 and min(numbers) >= host["processors"]
    if is_even and not (is_nested and host["processors"] == 1):
        return "even"
    return "nested" if is_nested else "uneven"


def seen(name: str, host: Host, path: str, share: float, off: float, **more: bool) -> Seen:
    """A group of a run."""
    group = next(each for each in host["groups"] if each["path"] == path)
    kind = kind_of_host(host)
    if kind == "beside" and is_at_limit(group, share):
        kind = "limited"
    column = next(most for most in COLUMNS if host["processors"] <= most)
    return Seen(name, column, kind, off, share, **more)


def of_scenario(name: str) -> tuple[scenario.Scenario, Host]:
    """A scenario, and its host."""
    found = scenario.read(SCENARIOS / f"{name}.script")
    return found, kept.host_of(found)


def of_kept_runs() -> Iterator[Seen]:
    """The groups of the kept runs, and of the runs by weights of other scenarios."""
    found = kept.kept()
    for run in found["runs"]:
        for path, (share, had) in run["groups"].items():
            yield seen(run["host"], found["hosts"][run["host"]], path, 100 * share,
                       100 * (had - share))
    for saved in held_page.read([str(held_page.RUNS)]):
        if saved["way"] == "weights" and saved["scenario"] not in found["hosts"]:
            _, host = of_scenario(saved["scenario"])
            for line in held_page.leaves(saved):
                yield seen(saved["scenario"], host, line["path"], line["share"],
                           line["had"] - line["share"])


def is_left_out(told: scenario.Scenario) -> bool:
    """Whether a scenario is a series, or has tasks that are pinned."""
    every = (1 << told.processors) - 1
    return told.is_series or any(leaf.cpus != every or leaf.is_spread
                                 for leaf in told.leaves.values())


def of_told_runs(text: str) -> Iterator[Seen]:
    """The groups of runs.txt."""
    for name, rest in ROW.findall(text):
        told, host = of_scenario(name)
        if is_left_out(told):
            continue
        shares = exact.means(told, Fraction(1), 0, 1)
        for last, *offs in CELL.findall(rest):
            path = next(each for each in told.leaves if each.rpartition("/")[2] == last)
            most = max((float(each) for each in offs if each), key=abs)
            one = seen(name, host, path, float(shares[path]), most, is_worst=True)
            has_naps = any(leaf.nap for leaf in told.leaves.values())
            yield Seen(name, one.column, "naps", most, one.share, True) if has_naps else one
    for bound, names in WITHIN.findall(text):
        for name in re.findall(r"`([a-z-]+)`", names):
            told, host = of_scenario(name)
            if is_left_out(told):
                continue
            shares = exact.means(told, Fraction(1), 0, 1)
            kinds = {seen(name, host, path, float(shares[path]), 0) for path in told.leaves}
            yield from {Seen(name, one.column, one.kind, float(bound), 0, True) for one in kinds}


def cell(groups: list[Seen]) -> str:
    """Points within which 9 of 10 groups were; the most of all, and the most in parts."""
    if not groups:
        return ""
    offs = sorted(abs(each.off) for each in groups if not each.is_worst)
    most = f"{max(abs(each.off) for each in groups):.1f}"
    parts = [abs(each.off) / each.share for each in groups if each.share]
    told = most + (f", {max(*parts, 0.01):.0%}".replace("%", " %") if parts else "")
    return f"{offs[9 * len(offs) // 10]:.1f} ({told})" if len(offs) >= MANY else f"({told})"


def rows(found: list[Seen]) -> Iterator[str]:
    """The table of the page."""
    yield "| Your host | " + " | ".join(COLUMNS.values()) + " | Why |"
    yield "|---" * (len(COLUMNS) + 2) + "|"
    for kind, (words, why) in KINDS.items():
        cells = [cell([each for each in found if (each.kind, each.column) == (kind, column)])
                 for column in COLUMNS]
        yield f"| {words} | " + " | ".join(cells) + f" | {why} |"


def hosts(found: list[Seen]) -> Iterator[str]:
    """A line for each host and kind of group on it."""
    yield "# How far off groups were, by host"
    yield ""
    yield ("Written by `laboratory.kinds`, whose first lines say from what. Cells are as those of"
           " docs/LINUX.md: 9 of 10 groups, the most, the most in parts.")
    yield ""
    yield "| Host | CPUs | kind | groups | off |"
    yield "|---|---|---|---|---|"
    for name, column, kind in sorted({(each.host, each.column, each.kind) for each in found}):
        of = [each for each in found if (each.host, each.kind) == (name, kind)]
        number = sum(not each.is_worst for each in of)
        yield f"| `{name}` | {COLUMNS[column]} | {kind} | {number or ''} | {cell(of)} |"


def written(page: str, table: Iterable[str]) -> str:
    """The page with the table in the place of the one that begins as it does."""
    return re.sub(r"^\| Your host \|.*\n(?:\|.*\n)+", lambda _: "\n".join(table) + "\n", page,
                  flags=re.M)


def all_seen() -> list[Seen]:
    """The groups of all runs."""
    return [*of_kept_runs(), *of_told_runs(RUNS.read_text(encoding="utf-8"))]


def main(words: list[str]) -> None:
    """Prints the tables, or writes them."""
    found = all_seen()
    if "--write" in words:
        PAGE.write_text(written(PAGE.read_text(encoding="utf-8"), rows(found)), encoding="utf-8")
        HOSTS.write_text("\n".join(hosts(found)) + "\n", encoding="utf-8")
    else:
        print("\n".join([*rows(found), "", *hosts(found)]))


if __name__ == "__main__":
    main(sys.argv[1:])
