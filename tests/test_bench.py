"""The check of instructions by bench/: kept numbers, and counts that are always the same."""
import os
import re
import shutil
import sys

import instructions
import pytest
import questions
import runs
from instructions import BOTH, Row
from shapes import AGAIN, Tree, host, text_of

from support import ROOT, run, same

PLANS = instructions.rows_of(["plan"])
FLAT = Row("plan", "flat", 4096)
COMMAND = ROOT / "bench/instructions.py"

# Stands in for valgrind. A line is one instruction. A `plan` takes for each group the number in the
# file `plan`, or that of the process.
VALGRIND = """#!{python}
import os, pathlib, sys
plan = pathlib.Path("{folder}/plan").read_text()
lines = sys.stdin.read().split("\\n")
groups = 1 + sum(line.startswith("mkdir ") for line in lines)
each = os.getpid() if plan == "process" else float(plan)
count = len(lines) + each * groups * lines.count("plan")
print("Collected :", round(count), file=sys.stderr)
"""


class Stub:
    """A folder with a stand-in for valgrind and for the program, and with kept numbers."""

    def __init__(self, folder, kept):
        self.folder, self.kept = folder, folder / "kept"
        for name, text in (("valgrind", VALGRIND), ("program", "#!/bin/sh\necho bw 1 1 1\n")):
            (folder / name).write_text(text.format(python=sys.executable, folder=folder))
            (folder / name).chmod(0o755)
        self.kept.write_text(instructions.text_of_table(kept, "commit abc"))

    def run(self, *words, plan="100"):
        """Runs the command where a `plan` takes so many instructions a group."""
        (self.folder / "plan").write_text(plan)
        words = [sys.executable, COMMAND, "--kept", self.kept, "--program", self.folder / "program",
                 *(words or ["--only", "plan"])]
        path = f"{self.folder}:{os.environ['PATH']}"
        return run(list(map(str, words)), env={**os.environ, "PATH": path})


@pytest.fixture
def stub(tmp_path):
    """The stand-ins, and 100 instructions a group kept for each `plan`."""
    return Stub(tmp_path, dict.fromkeys(PLANS, 100.0))


def test_types():
    """mypy and pyflakes find nothing in the modules that are typed."""
    typed = ["calm_rounds.py", "instructions.py", "locks.py", "periods.py", "perturbed.py",
             "questions.py", "runs.py", "shapes.py", "waits.py", "../tests/meeting_names.py",
             "../scripts/counts.py", "../scripts/indexes.py", "../scripts/kit.py", "../scripts/telling",
             *map(str, sorted((ROOT / "bench/kernel/laboratory").glob("*.py"))),
             *map(str, sorted((ROOT / "tests/lock").glob("*.py")))]
    words = {"mypy": ["--strict", "--cache-dir", "/dev/null", *typed],
             "pyflakes": [*map(str, sorted((ROOT / "bench").rglob("*.py")))]}
    folders = os.pathsep.join(str(ROOT / name) for name in ("python", "tests", "bench/kernel"))
    for module, rest in words.items():
        ended = run([sys.executable, "-m", module, *rest], cwd=ROOT / "bench", seconds=300,
                    env={**os.environ, "MYPYPATH": folders})
        same((ended.status, ended.err), (0, b""), ended.out.decode())


def test_kept_numbers_are_read_back():
    """The kept text has each row with its number."""
    table = {row: 100.25 + at for at, row in enumerate(instructions.rows_of(instructions.WORK))}
    text = instructions.text_of_table(table, "commit abc")
    same(instructions.table_of_text(text), table)
    same(text.split("\n")[0].endswith("at commit abc."), True, text.split("\n")[0])


def test_all_work_is_counted():
    """Eleven pieces of work on four trees of 4096 groups, six edits before a question on two of
    them, all on two of 16384, and three lines on two of which a part was removed."""
    rows = instructions.rows_of(instructions.WORK)
    same((len(rows), len(set(rows))), (4 * 11 + 2 * 6 + 2 * 17 + 2 * 3,) * 2)


@pytest.mark.parametrize("work, form", [
    ("demand;plan", r"demand g\d \d+"), ("write;plan", r"write g\d cpu.weight \d+"),
    ("max;plan", r"write g\d cpu.max \d+000 1000000"), ("write;cert", r"write g\d cpu.weight \d+")])
def test_an_edit_comes_before_each_question(work, form):
    """Each turn is one edit, and then the question. The set-up stays as it is."""
    tree = Tree("flat", 10)
    lines = tree.edited(work, 3)
    same(lines[1::2], [work.partition(";")[2]] * 3)
    assert len(lines) == 6 and all(re.fullmatch(form, line) for line in lines[::2]), lines
    same(tree.made, Tree("flat", 10).made)


def test_all_demands_come_before_a_period():
    """A turn sets the demand of each leaf, and then runs a period."""
    lines = Tree("pairs", 9).edited("demands;period", 2)
    same([line.rpartition(" ")[0] or line for line in lines],
         [*(f"demand g{number}/x" for number in range(4)), "period"] * 2)


@pytest.mark.parametrize("number, is_dearer", [(103.0, False), (103.1, True), (60.0, False)])
def test_lines_after_a_removal(number, is_dearer):
    """A line that finds a group may take 3 % more after a removal, and no more."""
    before = Row("read", "flat", 4096)
    after = before._replace(shape="flat" + AGAIN)
    same(instructions.dearer({before: 100.0, after: number}), [after] if is_dearer else [])


def test_a_part_is_made_again():
    """Each third leaf goes and comes back with the settings that it had."""
    before, after = Tree("flat", 10).made, Tree("flat" + AGAIN, 10).made
    gone = ["g0", "g3", "g6"]
    again = [line for line in before if line.split(" ")[1] in gone]
    assert len(again) >= 9
    same(after, [*before, *(f"rmdir {path}" for path in gone), *again])


@pytest.mark.parametrize("number, is_grown", [
    (104.9, False), (105.0, False), (105.1, True), (200.0, True), (50.0, False)])
def test_growth_above_five_hundredths(number, is_grown):
    """A row may be 5 % above the number that is kept, and no more."""
    kept, other = {FLAT: 100.0, PLANS[1]: 70.0}, {PLANS[1]: 70.0}
    same(instructions.grown(kept, {FLAT: number, **other}), [FLAT] if is_grown else [])


def test_a_row_that_grew_fails(stub):
    """5.1 % more end the command with status 1, and each row is named with both numbers."""
    ended = stub.run(plan="105.1")
    same(ended.status, 1, ended.err.decode())
    lines = [line for line in ended.err.decode().split("\n") if "GREW" in line]
    same(len(lines), len(PLANS), ended.err.decode())
    same(lines[0], "instructions: GREW: plan, flat, 4096 groups: 105.1 instructions a group, and"
         " 100.0 are kept")
    same(ended.out.decode().split("\n")[2].split(" | ")[1], "**105 (+5.1 %)**")


def test_less_growth_passes(stub):
    """4.9 % more are no failure."""
    ended = stub.run(plan="104.9")
    same((ended.status, b"GREW" in ended.err), (0, False), ended.err.decode())
    same(ended.out.decode().split("\n")[2].split(" | ")[1], "105 (+4.9 %)")


def test_numbers_are_kept(stub):
    """`--keep` counts all and keeps it, also what grew. The next run is compared with that."""
    ended = stub.run("--keep", plan="200")
    same(ended.status, 0, ended.err.decode())
    kept = instructions.table_of_text(stub.kept.read_text())
    same(list(kept), instructions.rows_of(instructions.WORK))
    same({row: kept[row] for row in PLANS}, dict.fromkeys(PLANS, 200.0))
    same([stub.run(plan=number).status for number in ("209.9", "210.1")], [0, 1])


class Again:
    """Counts that are as given, with the rows that were asked for."""

    def __init__(self, found):
        self.found, self.asked = found, []

    def table(self, rows):
        self.asked += rows
        return {row: self.found[row] for row in rows}


@pytest.mark.parametrize("number, failed", [(104.0, []), (106.0, [FLAT])])
def test_a_row_is_counted_again(number, failed):
    """A row fails if two counts are too great. The lesser number stays."""
    kept, found = {FLAT: 100.0, PLANS[1]: 70.0}, {FLAT: 120.0, PLANS[1]: 70.0}
    counts = Again({FLAT: number})
    same(instructions.counted_again(counts, kept, found), failed)
    same((counts.asked, found), ([FLAT], {FLAT: number, PLANS[1]: 70.0}))


def test_counts_that_differ_say_nothing(stub):
    """If one script has two counts, nothing is compared."""
    ended = stub.run(plan="process")
    same((ended.status, b"has two counts" in ended.err), (2, True), ended.err.decode())


def test_a_floor_is_counted_beside(stub):
    """`--floor` prints the numbers of flat and random trees over those of another program."""
    ended = stub.run("--only", "plan", "--floor", stub.folder / "program")
    same(ended.out.decode().split("\n")[-6:-1], [
        "| Over the floor | flat, 4096 | random, 4096 | flat, 16384 | random, 16384 |",
        "|---|---|---|---|---|", "| `plan` |" + " 1.00 (100, 100) |" * 4, "",
        "On some tree over 1.5 times the floor: none."], ended.err.decode())


def test_work_far_over_the_floor_is_named():
    """Work is named if it is over 1.5 times the floor on one tree."""
    rows = [Row(work, shape, 4096) for work in ("plan", "total", "cert") for shape in BOTH]
    found = dict(zip(rows, [150.0, 150.0, 100.0, 151.0, 200.0, 10.0]))
    same(list(instructions.over_floor(found, dict.fromkeys(rows, 100.0)))[-1],
         "On some tree over 1.5 times the floor: `total`, `cert`.")


def test_nothing_kept(stub):
    """A row without a kept number, and a part that would be kept as the whole, are refused."""
    ended = stub.run("--only", "plan,mkdir")
    same(ended.status, 2, ended.err.decode())
    assert b"nothing is kept to compare with, as for mkdir (flat, 4096)" in ended.err
    same(stub.run("--only", "plan", "--keep").status, 2)
    same(stub.run("--only", "plans").status, 2)


@pytest.fixture
def valgrind():
    """The real one."""
    if not shutil.which("valgrind"):
        pytest.skip("no valgrind")


def two_counts(program, folder, *lines):
    """Two counts of a script that makes 200 groups and then has these lines."""
    script = folder / "script"
    script.write_bytes(text_of([*Tree("random", 200).made, *lines]))
    return [runs.counted([program.path, *host(1)], script)[0] for _ in range(2)]


def test_counts_repeat(program, valgrind, tmp_path):
    """Two counts of one script are the same."""
    one, two = two_counts(program, tmp_path, "plan", "total", "cert", "report")
    same(one, two)
    assert one > 200 * 1000


def test_counts_of_a_period_nearly_repeat(program, valgrind, tmp_path):
    """With the threads of ten periods two counts differ by less than a thousandth."""
    one, two = two_counts(program, tmp_path, *["period"] * 10)
    assert abs(one - two) < one / 1000, (one, two)


def test_questions_are_timed(library, monkeypatch):
    """The table of the calls that answer questions has a line for each tree, of times above 0."""
    monkeypatch.setattr(questions, "SECONDS", 0)
    head, _, *lines = questions.table(questions.Library(library), [40])
    same(re.findall(r"`(\w+)`, ms", head),
         ["arbiter_plan", "arbiter_reasons", "arbiter_guarantee", "arbiter_least_weight",
          "arbiter_least_limit", "arbiter_least_processors"])
    same([line.split(" | ")[:2] for line in lines], [["| flat", "40"], ["| random", "40"]])
    assert all(float(word.strip(" |")) > 0 for line in lines for word in line.split(" | ")[2:])
