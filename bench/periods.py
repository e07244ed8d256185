"""Periods of some numbers of processors: the lock, and little else."""
import contextlib
import os
import statistics
import subprocess
import sys
import tempfile
from collections.abc import Callable, Iterator

from runs import answers, note, spent, stop
from shapes import host, text_of

PROCESSORS = [1, 2, 4, 16, 64]
HEAD = ("| Processors | ms a period, least | median | greatest | draws a second, median "
        "| processor ms, least |")


@contextlib.contextmanager
def busy_loops() -> Iterator[None]:
    """Other work: one process for each processor that never waits."""
    words = [sys.executable, "-c", "while True: pass"]
    loops = [subprocess.Popen(words) for _ in os.sched_getaffinity(0)]
    try:
        yield
    finally:
        for loop in loops:
            loop.kill()
            loop.wait()


def periods(program: str, repeats: int, figure: Callable[[float], str]) -> Iterator[str]:
    """The table for a tree of nine leaves that ask for all, 1000 slices for each processor."""
    yield HEAD
    yield "|---|---|---|---|---|---|"
    made = [line for at in range(9) for line in (f"mkdir g{at}", f"demand g{at} 1000000")]
    with tempfile.TemporaryDirectory(prefix="bench-") as room:
        for processors in PROCESSORS:
            walls, used = times(program, processors, made, room, repeats)
            middle = statistics.median(walls)
            columns = [f"{processors}", figure(min(walls)), figure(middle), figure(max(walls)),
                       f"{1e6 * processors / middle:,.0f}", figure(used)]
            yield f"| {' | '.join(columns)} |"
            note(f"periods of {processors} processors")


def times(program: str, processors: int, made: list[str], room: str,
          repeats: int) -> tuple[list[float], float]:
    """Milliseconds of a period in each run, and the least processor milliseconds of a period."""
    words, number = [program, *host(processors)], max(2000 // processors**2, 2)
    served = f"served {1000 * processors}\n".encode()
    if served not in answers(words, text_of([*made, "period"])):
        stop("a period did not serve all")
    files = {}
    for name, lines in [("made", made), ("periods", made + ["period"] * number)]:
        files[name] = f"{room}/{name}"
        with open(files[name], "wb") as script:
            script.write(text_of(lines))
    base = [min(column) for column in zip(*(spent(words, files["made"]) for _ in range(repeats)))]
    runs = [spent(words, files["periods"]) for _ in range(repeats)]
    walls = [1e3 * max(wall - base[1], 1e-6) / number for _, wall in runs]
    return walls, 1e3 * (min(used for used, _ in runs) - base[0]) / number


def tables_of_periods(program: str, repeats: int,
                      figure: Callable[[float], str]) -> Iterator[tuple[str, list[str]]]:
    yield "Periods:", [*periods(program, repeats, figure)]
    with busy_loops():
        beside = [*periods(program, 3, figure)]
    yield "Periods beside a busy loop for each processor:", beside
