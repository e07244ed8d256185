#!/usr/bin/python3
"""Times the calls that answer questions about a plan, beside the plan itself, and prints a table.

usage: questions.py LIBRARY [GROUPS..]    LIBRARY is a libarbiter.so; GROUPS are 500, 4096 and 16384
                                          if none is given

A time is processor time of one call in one process, the least of some. The host has 64000 slices.
One group is asked about, the first leaf that gets less than it wants: with which setting it gets a
slice more.
"""
import functools
import math
import random
import sys
import time
from collections.abc import Callable, Iterator
from pathlib import Path

from shapes import SHAPES

TOP = Path(__file__).resolve().parent.parent
sys.path.insert(0, str(TOP / "python"))
from arbiter import Columns, Host, Library, Row, Unavailable  # noqa: E402  (the path is set above)

HOST = Host(64, 1000000, 1000)
CHOSEN = ["flat", "random"]
GROUPS = [500, 4096, 16384]
NAMES = ["plan", "reasons", "guarantee", "least_weight", "least_limit", "least_processors"]
# Seconds that the runs of one call may take, and how many there are at least.
SECONDS, REPEATS = 2, 5


def rows_of(shape: str, groups: int) -> list[Row]:
    """The rows of a shape. Demands add up to about one and a half times what there is."""
    chosen, paths = random.Random(11), SHAPES[shape](groups)
    inner = {path.rpartition("/")[0] for path in paths}
    middle = 1.5 * HOST.capacity / sum(path not in inner for path in paths)
    number = {"": 0} | {path: row for row, path in enumerate(paths, 1)}
    limited = set(chosen.sample(paths, len(paths) // 8))
    rows = [Row(None, 100, None, 0)]
    for path in paths:
        limit = chosen.randint(1, round(4 * middle)) if path in limited else None
        demand = 0 if path in inner else chosen.randint(1, round(2 * middle))
        rows.append(Row(number[path.rpartition("/")[0]], chosen.randint(1, 10000), limit, demand))
    return rows


def least(call: Callable[[], object]) -> float:
    """The least processor seconds of some calls."""
    best, spent, times = math.inf, 0.0, 0
    while times < REPEATS or spent < SECONDS:
        began = time.process_time()
        call()
        took = time.process_time() - began
        best, spent, times = min(best, took), spent + took, times + 1
    return best


def calls_of(library: Library, rows: list[Row]) -> dict[str, Callable[[], object]]:
    """Each call by its name, with all of its words."""
    columns = Columns.of(rows)
    amounts, inner = library.plan(HOST, columns), {row.parent for row in rows}
    group = next(place for place, row in enumerate(rows)
                 if place not in inner and amounts[place] < row.demand)
    found: dict[str, Callable[[], object]] = {
        name: functools.partial(getattr(library, name), HOST, columns) for name in NAMES[:2]}
    words = {name: [group, amounts[group] + 1] for name in NAMES[3:]} | {"guarantee": [group]}
    return found | {name: functools.partial(getattr(library, name), HOST, columns, *asked)
                    for name, asked in words.items()}


def table(library: Library, sizes: list[int]) -> Iterator[str]:
    """The lines of the table, in milliseconds."""
    yield f"| Tree | Groups | {' | '.join(f'`arbiter_{name}`, ms' for name in NAMES)} |"
    yield "|---" * (len(NAMES) + 2) + "|"
    for shape in CHOSEN:
        for groups in sizes:
            calls = calls_of(library, rows_of(shape, groups))
            figures = [f"{1e3 * least(calls[name]):.3g}" for name in NAMES]
            yield f"| {shape} | {groups} | {' | '.join(figures)} |"


def main() -> None:
    """Prints the table."""
    if len(sys.argv) < 2 or not all(word.isascii() and word.isdigit() for word in sys.argv[2:]):
        sys.exit((__doc__ or "").partition("\n\n")[2])
    try:
        library = Library(sys.argv[1])
    except Unavailable as fault:
        sys.exit(f"questions: {fault}")
    for line in table(library, [int(word) for word in sys.argv[2:]] or GROUPS):
        print(line, flush=True)


if __name__ == "__main__":
    main()
