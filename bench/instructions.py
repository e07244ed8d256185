#!/usr/bin/env python3
"""Counts the instructions of each piece of work, and compares them with those that are kept.

    bench/instructions.py                   counts all and prints the table: some minutes
    bench/instructions.py --keep            also keeps the numbers, with the commit
    bench/instructions.py --only plan,check    some work alone
    bench/instructions.py --program FILE    another program than the one that ./build made
    bench/instructions.py --floor FILE      also prints the numbers over those of FILE

The floor is a program of plain Rust that keeps the whole contract, and that no proof binds. It
takes the words of arbiter, `--groups N` for the most groups and `--depth N` for the deepest.

valgrind counts, and the keys of the hash of names are known. So a number is the same however loaded
the machine is. What the kernel does is not counted.

A number is of one group, and at `demand` of one leaf. What the set-up takes is taken off. Of an
edit and then a question, the first question is taken off too.

Status 1: a number is over 5 % above the one that is kept, also when it is counted again. Or lines
that find a group take over 3 % more where a third of the groups was removed and made again. Status
2: the program cannot be counted, or nothing is kept to compare with. It is no part of ./test.
"""
import argparse
import os
import shutil
import subprocess
import sys
import tempfile
from collections.abc import Iterable, Iterator
from concurrent.futures import ThreadPoolExecutor
from pathlib import Path
from typing import NamedTuple

from runs import answers, counted, fixed_random, note, program_of, stop
from shapes import AGAIN, EDITS, OF_EACH, Tree, host, text_of

TOP = Path(__file__).resolve().parent.parent
KEPT = TOP / "bench/instructions.txt"
SHAPES = ["flat", "pairs", "chains of 32", "random"]
# The shapes that are counted in both sizes, and beside the floor.
BOTH = ["flat", "random"]
ALONE = ["mkdir", "setup", "demand", "read", "write", "plan", "total", "cert", "report", "period",
         "check"]
WORK = ALONE + EDITS
# Lines that find a group, counted after a removal too.
LINES = ["demand", "read", "write"]
# The work that is counted on trees of so many groups, and the shapes of these.
SIZES = [(4096, ALONE, SHAPES), (4096, EDITS, BOTH), (16384, WORK, BOTH),
         (4096, LINES, [shape + AGAIN for shape in BOTH])]
# Times that a line of all groups is given, so that the first of them tells less.
ROUNDS = 5
# Times that an edit and a question are given.
TURNS = 10
# A ratio to the floor that is named below the table.
MUCH = 1.5
# A number may be so many times the one that is kept.
MOST = 1.05
# After a removal it may be so many times the one before.
MOST_AGAIN = 1.03


class Row(NamedTuple):
    """One piece of work on one tree."""

    work: str
    shape: str
    groups: int


Table = dict[Row, float]


class Run(NamedTuple):
    """The words of the program and what it reads."""

    words: tuple[str, ...]
    text: bytes


class Piece(NamedTuple):
    """A run with the work, the run without it, and how many times the first one does it."""

    run: Run
    base: Run
    times: int


def run_of(processors: int, *lines: Iterable[str]) -> Run:
    """A run of a script."""
    return Run(tuple(host(processors)), text_of(line for part in lines for line in part))


def certified(program: str, made: list[str]) -> bytes:
    """The certified text of the groups that lines make."""
    said: bytes = answers([program, *host(64)], text_of([*made, "cert"]))
    return said[said.index(b"bw 1 "):]


def piece(program: str, tree: Tree, row: Row) -> Piece:
    """The runs that are counted for a row."""
    nothing, made, lines = run_of(64), run_of(64, tree.made), tree.rounds.get(row.work, [])
    # pairs can be one group fewer than asked for
    groups = len(tree.paths) + 1
    if row.work == "mkdir":
        return Piece(run_of(64, lines), nothing, groups)
    if row.work == "setup":
        return Piece(made, nothing, groups)
    if row.work == "check":
        return Piece(Run(("check",), certified(program, tree.made)), nothing, groups)
    if row.work in OF_EACH:
        return Piece(run_of(64, tree.made, lines), made, len(lines))
    processors = 1 if row.work.endswith("period") else 64
    if row.work in EDITS:
        asked = [*tree.made, row.work.partition(";")[2]]
        return Piece(run_of(processors, asked, tree.edited(row.work, TURNS)),
                     run_of(processors, asked), groups * TURNS)
    return Piece(run_of(processors, tree.made, lines * ROUNDS), run_of(processors, tree.made),
                 groups * ROUNDS)


def rows_of(only: Iterable[str]) -> list[Row]:
    """The rows of some work, those of one piece of work after each other."""
    return [Row(work, shape, groups) for work in only for groups, some, shapes in SIZES
            if work in some for shape in shapes]


class Counts:
    """Counts of one program, as many at once as there are processors.

    `more` are words behind those of a run. `certifier` writes the text that is checked.
    """

    def __init__(self, program: str, room: str, more: tuple[str, ...] = (),
                 certifier: str = "") -> None:
        self.program, self.room, self.more = program, room, more
        self.certifier = certifier or program
        # built once, before several threads ask for it
        fixed_random()
        self.trees: dict[tuple[str, int], Tree] = {}
        self.pool = ThreadPoolExecutor(len(os.sched_getaffinity(0)))

    def pieces(self, rows: Iterable[Row]) -> Iterator[tuple[Row, Piece]]:
        """The runs of each row."""
        for row in rows:
            key = (row.shape, row.groups)
            if key not in self.trees:
                self.trees[key] = Tree(*key)
            yield row, piece(self.certifier, self.trees[key], row)

    def count(self, run: Run) -> int:
        """The instructions of a run."""
        with tempfile.NamedTemporaryFile(dir=self.room) as script:
            script.write(run.text)
            script.flush()
            return int(counted([self.program, *run.words, *self.more], script.name)[0])

    def table(self, rows: Iterable[Row]) -> Table:
        """The number of each row. Each run is counted once."""
        pieces = dict(self.pieces(rows))
        runs = dict.fromkeys(run for each in pieces.values() for run in (each.run, each.base))
        note(f"counting {len(runs)} runs")
        found = dict(zip(runs, self.pool.map(self.count, runs)))
        return {row: (found[each.run] - found[each.base]) / each.times
                for row, each in pieces.items()}

    def check_repeats(self) -> None:
        """Ends where one run has two counts: then a comparison of counts says little."""
        run = run_of(64, Tree("random", 256).made, ["plan"])
        one, two = self.pool.map(self.count, [run, run])
        if one != two:
            stop(f"one script has two counts, {one} and {two}: the program's keys are not known")


def text_of_table(table: Table, commit: str) -> str:
    """The text by which a table is kept."""
    lines = [f"# Instructions of one group, kept by bench/instructions.py --keep at {commit}.",
             "# work, groups, instructions, shape"]
    lines += [f"{row.work} {row.groups} {number:.2f} {row.shape}" for row, number in table.items()]
    return "".join(f"{line}\n" for line in lines)


def table_of_text(text: str) -> Table:
    """The table that a text keeps."""
    found = {}
    for line in text.splitlines():
        if not line.startswith("#"):
            work, groups, number, shape = line.split(" ", 3)
            found[Row(work, shape, int(groups))] = float(number)
    return found


def grown(kept: Table, found: Table) -> list[Row]:
    """The rows whose number is over 5 % above the one that is kept."""
    return [row for row, number in found.items() if number > kept[row] * MOST]


def dearer(found: Table) -> list[Row]:
    """The rows of trees of which a part was removed that are over 3 % above those before."""
    return [row for row, number in found.items() if row.shape.endswith(AGAIN)
            and number > found[row._replace(shape=row.shape.removesuffix(AGAIN))] * MOST_AGAIN]


def cell(kept: Table, found: Table, row: Row) -> str:
    """A number, how it changed, and bold where it grew too much."""
    if row not in found:
        return ""
    text = f"{found[row]:.0f}"
    if row in kept:
        text += f" ({round(100 * (found[row] / kept[row] - 1), 1) + 0.0:+.1f} %)"
        text = f"**{text}**" if grown(kept, {row: found[row]}) else text
    return text


def printed(kept: Table, found: Table) -> Iterator[str]:
    """The table for bench/measured.md."""
    found_at = {(row.shape, row.groups) for row in found}
    places = [place for place in dict.fromkeys((shape, groups) for groups, _, shapes in SIZES
                                               for shape in shapes) if place in found_at]
    yield f"| Work | {' | '.join(f'{shape}, {groups}' for shape, groups in places)} |"
    yield "|---" * (len(places) + 1) + "|"
    for work in dict.fromkeys(row.work for row in found):
        cells = [cell(kept, found, Row(work, *place)) for place in places]
        yield f"| `{work}` | {' | '.join(cells)} |"


def over_floor(found: Table, floor: Table) -> Iterator[str]:
    """The table of numbers over the floor's, and below it the work that takes much more."""
    places = list(dict.fromkeys((row.shape, row.groups) for row in floor))
    over = {row: found[row] / number for row, number in floor.items()}
    works = dict.fromkeys(row.work for row in floor)
    yield f"| Over the floor | {' | '.join(f'{shape}, {groups}' for shape, groups in places)} |"
    yield "|---" * (len(places) + 1) + "|"
    for work in works:
        rows = [Row(work, *place) for place in places]
        cells = [f"{over[row]:.2f} ({found[row]:.0f}, {floor[row]:.0f})" for row in rows]
        yield f"| `{work}` | {' | '.join(cells)} |"
    much = [work for work in works
            if any(ratio > MUCH for row, ratio in over.items() if row.work == work)]
    yield ""
    named = ", ".join(f"`{work}`" for work in much) or "none"
    yield f"On some tree over {MUCH} times the floor: {named}."


def floor_table(counts: Counts, floor: str, room: str, rows: Iterable[Row]) -> Table:
    """The numbers of the floor, on the trees that are counted in both sizes."""
    beside = [row for row in rows if row.shape in BOTH]
    found: Table = {}
    for groups in dict.fromkeys(row.groups for row in beside):
        words = ("--groups", str(groups), "--depth", "64")
        found |= Counts(os.path.abspath(floor), room, words, counts.program).table(
            row for row in beside if row.groups == groups)
    return {row: found[row] for row in beside}


def counted_again(counts: Counts, kept: Table, found: Table) -> list[Row]:
    """The rows that grew too much in two counts. The lesser number of each stays in the table."""
    failed = grown(kept, found)
    again = counts.table(failed) if failed else {}
    for row, number in again.items():
        found[row] = min(found[row], number)
    return grown(kept, found)


def commit() -> str:
    """The commit of this clone, and whether its sources differ from it."""
    def git(*words: str) -> str:
        return subprocess.run(["git", *words], cwd=TOP, stdout=subprocess.PIPE, text=True,
                              stderr=subprocess.DEVNULL, check=False).stdout.strip()

    changed = " with changes" if git("status", "--porcelain", "crates") else ""
    return f"commit {git('rev-parse', '--short', 'HEAD') or 'none'}{changed}"


def read_words() -> argparse.Namespace:
    """The options."""
    asked = argparse.ArgumentParser(prog="instructions.py", description="Counts the instructions"
                                    " of each piece of work, by valgrind.")
    asked.add_argument("--keep", action="store_true", help="keep what is counted")
    asked.add_argument("--only", default=",".join(WORK), help="some work, with commas")
    asked.add_argument("--kept", type=Path, default=KEPT, metavar="FILE",
                       help=f"where numbers are kept (default: bench/{KEPT.name})")
    asked.add_argument("--floor", metavar="FILE", help="a program whose numbers are printed beside")
    asked.add_argument("--program", help="the program that is counted (default: the one that"
                       " ./build made, if that is up to date)")
    options = asked.parse_args()
    options.only = options.only.split(",")
    if not set(options.only) <= set(WORK):
        asked.error(f"--only is some of {', '.join(WORK)}")
    if options.keep and set(options.only) != set(WORK):
        asked.error("--keep keeps all work, without --only")
    return options


def kept_table(options: argparse.Namespace, rows: list[Row]) -> Table:
    """The table that is kept; empty if there is none and one is about to be kept."""
    kept = table_of_text(options.kept.read_text()) if options.kept.is_file() else {}
    missing = [row for row in rows if row not in kept]
    if missing and not options.keep:
        work, shape, groups = missing[0]
        stop(f"nothing is kept to compare with, as for {work} ({shape}, {groups}): --keep keeps")
    return kept


def main() -> None:
    """Counts, compares, prints, keeps."""
    options = read_words()
    program, rows = program_of(options.program), rows_of(options.only)
    if not shutil.which("valgrind"):
        stop("there is no valgrind to count instructions with")
    kept = kept_table(options, rows)
    floor: Table = {}
    with tempfile.TemporaryDirectory(prefix="bench-") as room:
        counts = Counts(program, room)
        counts.check_repeats()
        found = counts.table(rows)
        failed = [] if options.keep else counted_again(counts, kept, found)
        if options.floor:
            floor = floor_table(counts, options.floor, room, rows)
    print(*printed(kept, found), "", f"Counted at {commit()}.", sep="\n", flush=True)
    if floor:
        print("", *over_floor(found, floor), sep="\n", flush=True)
    if options.keep:
        options.kept.write_text(text_of_table(found, commit()))
    for row in failed:
        note(f"GREW: {row.work}, {row.shape}, {row.groups} groups: {found[row]:.1f} instructions a"
             f" group, and {kept[row]:.1f} are kept")
    for row in dearer(found):
        note(f"DEARER: {row.work}, {row.shape}, {row.groups} groups: {found[row]:.1f} instructions")
    sys.exit(1 if failed or dearer(found) else 0)


if __name__ == "__main__":
    main()
