#!/usr/bin/env python3
"""The program's periods beside two locks in plain Rust, on 1, 2 and 4 cores.

usage: bench/locks.py [PROGRAM] [--runs N] [--seconds S] [--costs]

Prints the table of bench/measured.md, 'Periods': milliseconds of a period of 1, 4, 16 and 64
workers, the least and the median of ten runs. Beside the program are threads of bench/locks.rs
under `std::sync::Mutex`, in no order, round a bare pool and round one that does what the
program's does, and under a ticket lock on futexes. It takes two minutes on
an idle machine, and stops after ten at the latest. `rustc` compiles bench/locks.rs.

With `--costs` it prints what a draw costs instead, of 1 and of 64 workers: instructions, which
valgrind counts, and processor time on one core. Beside the program is the Mutex round the pool that
does what the program's does. Instructions are those of a further draw: of a period of 1000 slices a
worker, less those of one of 500. Valgrind lets one thread run at a time.
"""
import argparse
import os
import shutil
import statistics
import subprocess
import tempfile
import time
from collections.abc import Iterator

from periods import times
from runs import HERE, counted, note, program_of, spent, stop
from shapes import text_of

WORKERS = (1, 4, 16, 64)
CORES = (1, 2, 4)
HEAD = ("| Cores | Workers | `period`: least | median | Mutex, bare pool: least | median "
        "| Mutex, the program's pool: least | median | tickets, bare pool: least | median |")
# the locks of bench/locks.rs, in the order of the columns
LOCKS = ("mutex", "pool", "tickets")
Runs = dict[tuple[str, int], list[float]]
COSTS = ("| Workers | instructions a draw: `period` | Mutex, the program's pool | ratio "
         "| processor ms a period, one core: `period` | Mutex, the program's pool | ratio |")
SLICES = 500
LEAVES = [f"mkdir g{at}\ndemand g{at} 1000000" for at in range(9)]


def compiled(room: str) -> str:
    """The program of bench/locks.rs."""
    if not shutil.which("rustc"):
        stop("there is no rustc to compile bench/locks.rs with")
    made = f"{room}/locks"
    words = ["rustc", "-O", str(HERE / "locks.rs"), "-o", made]
    if subprocess.run(words, check=False).returncode:
        stop("rustc refused bench/locks.rs")
    return made


def beside(locks: str, runs: int, until: float) -> Runs:
    """Milliseconds of each run of a period under each lock of bench/locks.rs."""
    words = [locks, str(runs)]
    left = until - time.monotonic()
    ended = subprocess.run(words, stdout=subprocess.PIPE, text=True, check=True, timeout=left)
    lines = [line.split() for line in ended.stdout.splitlines()]
    return {(name, int(workers)): [float(each) for each in walls]
            for name, workers, *walls in lines}


def rows(program: str, locks: str, cores: int, runs: int, until: float) -> Iterator[str]:
    """The rows of the table for so many cores."""
    others = beside(locks, runs, until)
    for workers in WORKERS:
        if time.monotonic() > until:
            stop("the time is over")
        with tempfile.TemporaryDirectory(prefix="locks-") as room:
            walls, _ = times(program, workers, LEAVES, room, runs)
        figures = [f"{figure:.3g}" for each in (walls, *(others[lock, workers] for lock in LOCKS))
                   for figure in (min(each), statistics.median(each))]
        yield f"| {cores} | {workers} | {' | '.join(figures)} |"
        note(f"{workers} workers on {cores} cores")


class Periods:
    """Periods of one program by so many workers, each with so many slices."""

    def __init__(self, program: str, locks: str, workers: int, room: str) -> None:
        self.program, self.locks, self.workers, self.room = program, locks, workers, room

    def run(self, is_ours: bool, slices: int, number: int) -> tuple[list[str], str]:
        """The words of a run of so many periods, and the file that it reads."""
        file = f"{self.room}/given"
        with open(file, "wb") as given:
            given.write(text_of([*LEAVES, *["period"] * number]))
        if is_ours:
            return [self.program, "run", "--processors", str(self.workers), "--period", "1000000",
                    "--slice", str(1000000 // slices)], file
        return [self.locks, str(number), "pool", str(self.workers), str(slices)], file

    def instructions(self, is_ours: bool) -> float:
        """Instructions of a further draw."""
        some, twice = (counted(*self.run(is_ours, slices, 1))[0] for slices in (SLICES, 2 * SLICES))
        return (twice - some) / (SLICES * self.workers)

    def milliseconds(self, runs: int) -> list[float]:
        """Processor milliseconds of a period, the least of some runs, which are made in turns."""
        number = max(400 // self.workers, 10)
        least: dict[tuple[bool, int], float] = {}
        for _ in range(runs):
            for is_ours in (True, False):
                for some in (1, 1 + number):
                    used = spent(*self.run(is_ours, 2 * SLICES, some))[0]
                    least[is_ours, some] = min(used, least.get((is_ours, some), used))
        return [1e3 * (least[is_ours, 1 + number] - least[is_ours, 1]) / number
                for is_ours in (True, False)]


def costs(program: str, locks: str, room: str, runs: int) -> Iterator[str]:
    """The rows of what a draw costs."""
    for workers in (1, 64):
        made = Periods(program, locks, workers, room)
        count = [made.instructions(is_ours) for is_ours in (True, False)]
        used = made.milliseconds(runs)
        yield (f"| {workers} | {count[0]:.0f} | {count[1]:.0f} | {count[0] / count[1]:.2f} "
               f"| {used[0]:.3g} | {used[1]:.3g} | {used[0] / used[1]:.2f} |")


def main() -> None:
    asked = argparse.ArgumentParser(prog="locks.py", description="Periods beside plain locks.")
    asked.add_argument("program", nargs="?", metavar="PROGRAM")
    asked.add_argument("--runs", type=int, default=10)
    asked.add_argument("--seconds", type=float, default=600)
    asked.add_argument("--costs", action="store_true")
    options = asked.parse_args()
    program, every = program_of(options.program), sorted(os.sched_getaffinity(0))
    until = time.monotonic() + options.seconds
    note(f"load {' '.join(f'{each:.1f}' for each in os.getloadavg())}")
    head = COSTS if options.costs else HEAD
    print(head, "|---" * (head.count("|") - 1) + "|", sep="\n")
    with tempfile.TemporaryDirectory(prefix="locks-") as room:
        locks = compiled(room)
        if options.costs:
            os.sched_setaffinity(0, every[:1])
            print(*costs(program, locks, room, options.runs), sep="\n", flush=True)
            return
        for cores in CORES:
            if cores > len(every):
                note(f"only {len(every)} cores are there")
                break
            os.sched_setaffinity(0, every[:cores])
            print(*rows(program, locks, cores, options.runs, until), sep="\n",
                  flush=True)
    os.sched_setaffinity(0, every)


if __name__ == "__main__":
    main()
