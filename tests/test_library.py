"""The C library, called from Python, from C and from Rust, against the program's own answers.

What the machine cannot try (a compiler, cargo, pkg-config) is skipped, with its reason.
"""
import ctypes
import functools
import math
import os
import random
import re
import shutil
import struct
import subprocess
import tempfile
from dataclasses import dataclass
from pathlib import Path

import pytest

import arbiter
import pages
from arbiter import c
from chances import cases
from shared_fixtures import build_in_coq, has_coq
from stand_in import version
from support import ROOT, Program, Talk, kit_folder, run, same
from worked_scripts import all_scripts

# Time limit of a compiler, in seconds.
SECONDS = 120
SEED = 20260730
TREES = cases(60)
# The lines that `answers_in` reads.
ASKED = "plan\ntotal\ncert\n"
ASKING = {line.encode() for line in ASKED.split("\n") if line}
HOST_OF_ONE = arbiter.Host(1, 100000, 5000)
LEVEL = re.compile(r"(\d+)/(\d+)@(\d+)\Z")
# The numbers that share/arbiter.h lists.
NUMBERS = {*range(1, 18), *range(20, 29), 30, 31, 33, *range(40, 44), *range(50, 59), 71,
           *range(80, 83)}
# Worked trees: host; rows of parent, weight, limit and demand; amounts.
WORKED = {
    "the root alone": (HOST_OF_ONE, [(None, 100, None, 0)], [0]),
    "two groups": (HOST_OF_ONE, [(None, 100, None, 0), (0, 100, None, 20), (0, 200, None, 20)], [20, 7, 13]),
    "a pod and a job": (HOST_OF_ONE, [(None, 100, None, 0), (0, 100, 10, 0), (1, 100, None, 20), (1, 300, None, 20), (0, 100, None, 20)],
                        [20, 10, 3, 7, 10]),
    "two processors": (arbiter.Host(2, 100000, 5000), [(None, 100, None, 0), (0, 100, 20, 0), (1, 100, 15, 30), (1, 100, 15, 30)], [20, 20, 10, 10]),
    "a limit of 0": (HOST_OF_ONE, [(None, 100, None, 0), (0, 100, 0, 20), (0, 100, None, 5)], [5, 0, 5]),
}
# Refusals: number, the row that it speaks of, host, rows.
REFUSED = [
    (1, None, arbiter.Host(0, 100000, 5000), [(None, 100, None, 0)]),
    (1, None, arbiter.Host(65, 0, 0), [(None, 100, None, 0)]),
    (2, None, arbiter.Host(1, 999, 1000), [(None, 100, None, 0)]),
    (3, None, arbiter.Host(1, 100000, 3000), [(None, 100, None, 0)]),
    (3, None, arbiter.Host(1, 100000, 0), [(None, 0, None, 0)]),
    (4, 16384, HOST_OF_ONE, [(None, 100, None, 0)] + [(0, 100, None, 0)] * 16384),
    (4, 16384, HOST_OF_ONE, [(None, 100, None, 0)] + [(0, 0, None, 0)] * 16400),
    (5, None, HOST_OF_ONE, []),
    (5, 0, HOST_OF_ONE, [(0, 100, None, 0)]),
    (5, 1, HOST_OF_ONE, [(None, 100, None, 0), (1, 100, None, 0)]),
    (5, 2, HOST_OF_ONE, [(None, 0, None, 0), (0, 100, None, 0), (None, 100, None, 0)]),
    (5, 1, HOST_OF_ONE, [(None, 100, None, 0), (2**32 - 2, 100, None, 0), (3, 100, None, 0)]),
    (6, 1, HOST_OF_ONE, [(None, 100, None, 0), (0, 0, None, 0)]),
    (6, 2, HOST_OF_ONE, [(None, 100, None, 0), (0, 10000, None, 0), (0, 10001, None, 0)]),
    (6, 0, HOST_OF_ONE, [(None, 2**64 - 1, 5, 2**64 - 1)]),
    (7, 65, HOST_OF_ONE, [(None, 100, None, 0)] + [(g, 100, None, 0) for g in range(70)]),
    (7, 66, HOST_OF_ONE, [(None, 100, None, 1), (0, 100, None, 0), (0, 100, None, 0)]
     + [(g, 100, None, 0) for g in range(2, 70)]),
    (8, 0, HOST_OF_ONE, [(None, 100, None, 1), (0, 100, None, 0)]),
    (8, 2, HOST_OF_ONE, [(None, 100, None, 0), (0, 100, None, 9), (0, 100, None, 1),
                         (2, 100, None, 0)]),
    (9, 0, HOST_OF_ONE, [(None, 100, None, 1000001)]),
    (9, 2, HOST_OF_ONE, [(None, 100, 5, 0), (0, 100, None, 1000000), (0, 100, None, 1000001)]),
    (10, 0, HOST_OF_ONE, [(None, 100, 5, 0)]),
    (10, 0, HOST_OF_ONE, [(None, 100, 0, 0), (0, 100, 0, 1000000)]),
]


def pytest_generate_tests(metafunc):
    """The scripts of tests/worked that ask for a plan, a total or a certificate."""
    if "script" in metafunc.fixturenames:
        scripts = [script for script in all_scripts() if lines_that_ask([script])]
        metafunc.parametrize("script", scripts, ids=[script.id() for script in scripts])


@pytest.fixture(scope="module")
def calls(library):
    """The library under test, as the Python module calls it."""
    return arbiter.Library(str(library))


@functools.lru_cache(maxsize=None)
def names() -> dict:
    """The name of each number of the header, from docs/USING.md."""
    return {row[0]: row[1] for row in pages.table_rows() if row[0] in NUMBERS}


def rows_of(tuples):
    return [arbiter.Row(*row) for row in tuples]


def number_of(call, *words):
    """The number and the row of a refusal, (0, None) if the call answers."""
    try:
        call(*words)
    except arbiter.Refused as refused:
        same(refused.name, names()[refused.number], f"the name of {refused.number}")
        return refused.number, refused.row
    return 0, None


def script_of(host, rows) -> str:
    """A script that makes these rows, in their order, and asks for what is compared."""
    paths, lines = ["."], []
    for number, row in enumerate(rows[1:], 1):
        above = paths[row.parent]
        path = f"g{number}" if above == "." else f"{above}/g{number}"
        paths.append(path)
        lines += [f"mkdir {path}", f"write {path} cpu.weight {row.weight}"]
        if row.limit is not None:
            lines.append(f"write {path} cpu.max {row.limit * host.slice_us} {host.period_us}")
    lines += [f"demand {path} {row.demand}" for path, row in zip(paths, rows) if row.demand]
    return "".join(f"{line}\n" for line in lines) + ASKED


@dataclass
class Answers:
    """The program's answers for one tree."""

    text: str
    limiting: list
    rest: int
    total: int


def answers_in(lines):
    """Reads the answers to `plan`, `total` and `cert` in front of lines, and counts their lines."""
    count = next(at for at, line in enumerate(lines) if line.startswith("total "))
    head = next(at for at, line in enumerate(lines) if line.startswith("bw 1 "))
    end = head + 1 + count
    amounts, paths = zip(*[line.split(" ") for line in lines[:count]])
    row_of = {path: number for number, path in enumerate(paths)}
    limits = [line.split(" ") for line in lines[count + 1:head - 1]]
    word, rest = lines[head - 1].split(" ")
    total = int(lines[count].split(" ")[1])
    same([limit[0] for limit in limits] + [word], ["limit"] * len(limits) + ["demand"], "words")
    same(sum(int(limit[1]) for limit in limits) + int(rest), total, "the limits and the rest")
    same([line.split(" ")[4] for line in lines[head + 1:end]], list(amounts), "plan and cert")
    text = "".join(f"{line}\n" for line in lines[head:end])
    return Answers(text, [row_of[limit[2]] for limit in limits], int(rest), total), end


def by_program(program, host, rows) -> Answers:
    """The program's answers for these rows."""
    options = ["--processors", str(host.processors), "--period", str(host.period_us)]
    options += ["--slice", str(host.slice_us)]
    lines = program.answers(options, script_of(host, rows).encode()).decode().splitlines()
    same([line for line in lines if "error" in line], [], "refused lines")
    return answers_in([line for line in lines if line != "ok"])[0]


def row_in(words):
    """One row of a certified text."""
    return arbiter.Row(None if words[0] == "-" else int(words[0]), int(words[1]),
                       None if words[2] == "max" else int(words[2]), int(words[3]))


def certified_in(text: str):
    """The host, the rows, the amounts and the certificate of a certified text."""
    head, *rows = [line.split(" ") for line in text.splitlines()]
    found = [LEVEL.match(row[6]) for row in rows]
    levels = [tuple(map(int, level.groups())) if level else None for level in found]
    certificate = arbiter.Certificate.of([row[5] == "1" for row in rows], levels)
    host = arbiter.Host(*map(int, head[2:5]))
    return host, [row_in(row) for row in rows], [int(row[4]) for row in rows], certificate


def agree(calls, found: Answers, what: str) -> None:
    """All calls on the tree of a certified text agree with the program's answers."""
    host, rows, amounts, certificate = certified_in(found.text)
    same(calls.plan(host, rows), amounts, f"{what}: plan")
    same(calls.certify(host, rows), (amounts, certificate), f"{what}: certify")
    same(calls.limiting(host, rows), (found.limiting, found.rest), f"{what}: limiting")
    same(amounts[0], found.total, f"{what}: total")
    calls.check(host, rows, amounts, certificate)
    calls.check_text(found.text.encode())


def agree_on(calls, program, host, rows, what: str) -> Answers:
    """The calls agree with the program on these rows, which the program writes as they are."""
    found = by_program(program, host, rows)
    same(certified_in(found.text)[:2], (host, rows), f"{what}: host and rows")
    agree(calls, found, what)
    return found


def random_tree(chance):
    host = arbiter.Host(chance.choice([1, 2, 8, 64]), 100000, chance.choice([1000, 5000, 20000]))
    rows = [arbiter.Row()]
    for number in range(1, chance.randrange(1, 60)):
        parent = chance.randrange(max(0, number - 8), number)
        limit = chance.choice([None, chance.randrange(1, 40)])
        weight = chance.choice([1, 100, 10000, chance.randrange(1, 10001)])
        rows.append(arbiter.Row(parent, weight, limit, 0))
    inner = {row.parent for row in rows}
    for number, row in enumerate(rows):
        if number not in inner:
            demand = chance.choice([0, chance.randrange(0, 30), chance.randrange(0, 1000001)])
            rows[number] = row._replace(demand=demand)
    return host, rows


@pytest.fixture(scope="module")
def random_trees():
    chance = random.Random(SEED)
    return [random_tree(chance) for _ in range(TREES)]


@pytest.mark.parametrize("number", range(TREES))
def test_random_tree(calls, program, random_trees, number):
    agree_on(calls, program, *random_trees[number], f"tree {number}")


@pytest.mark.parametrize("name", WORKED)
def test_worked_tree(calls, program, name):
    host, tuples, amounts = WORKED[name]
    same(calls.plan(host, rows_of(tuples)), amounts)
    # a script has no limit of 0 slices that is no quota of less than 1 ms
    if all(limit != 0 for _, _, limit, _ in tuples):
        agree_on(calls, program, host, rows_of(tuples), name)


def lines_that_ask(scripts) -> int:
    """The number of lines that ask for a plan, a total or a certificate."""
    return sum(line in ASKING for script in scripts for line, _ in script.lines)


def test_lines_that_ask():
    """The worked scripts ask often enough that the next test tells something."""
    assert lines_that_ask(all_scripts()) > 100


def test_worked_script(calls, program, script):
    """The library agrees on the tree at each line that asks, with the limits of that period."""
    asked = [line + b"\n" + (ASKED.encode() if line in ASKING else b"") for line, _ in script.lines]
    lines = program.answers(script.words, b"".join(asked)).decode().split("\n")
    for line, answer in script.lines:
        wanted = answer.decode().split("\n")[:-1]
        same(lines[:len(wanted)], wanted, f"{line}")
        del lines[:len(wanted)]
        if line in ASKING:
            found, length = answers_in(lines)
            agree(calls, found, f"{line}")
            del lines[:length]
    same(lines, [""], "what is left")


@pytest.mark.parametrize("number, row, host, tuples", REFUSED,
                         ids=[f"{row[0]}, {at}" for at, row in enumerate(REFUSED)])
def test_refused(calls, number, row, host, tuples):
    """Each call that has a host and rows refuses them with the same number and row."""
    rows = rows_of(tuples)
    nothing = arbiter.Certificate.of([False] * len(rows), [None] * len(rows))
    for call in (calls.plan, calls.certify, calls.limiting):
        same(number_of(call, host, rows), (number, row), call.__name__)
    for call in (calls.hold, calls.serve):
        same(number_of(call, host, rows, [True] * len(rows)), (number, row), call.__name__)
    same(number_of(calls.check, host, rows, [0] * len(rows), nothing), (number, row), "check")
    found = c.U32(7)
    words = with_lengths(raw_columns(rows), [len(rows)] * 4)
    if number > 3:
        same(calls.calls.arbiter_refused_row(*words, ctypes.byref(found)), number, "by itself")
        same(found.value, 7 if row is None else row, "the row by itself")


def test_refused_row_of_none(calls, random_trees):
    """Rows that are not refused, and columns of several lengths: the row is as it was."""
    found = c.U32(7)
    for _, rows in random_trees:
        words = with_lengths(raw_columns(rows), [len(rows)] * 4)
        same(calls.calls.arbiter_refused_row(*words, ctypes.byref(found)), 0, "no refusal")
    columns = raw_columns(rows_of([(None, 0, None, 0), (0, 0, None, 0)]))
    for at in range(4):
        lengths = [1 if place == at else 2 for place in range(4)]
        number = calls.calls.arbiter_refused_row(*with_lengths(columns, lengths),
                                                 ctypes.byref(found))
        same(number, 50, f"column {at}")
    same(found.value, 7)


# Conversions


@pytest.mark.parametrize("usec, own_period, host, slices", [
    (0, 1000, HOST_OF_ONE, 0), (4999, 100000, HOST_OF_ONE, 0), (5000, 100000, HOST_OF_ONE, 1),
    (9999, 100000, HOST_OF_ONE, 1), (50000, 200000, HOST_OF_ONE, 5),
    (50000, 50000, HOST_OF_ONE, 20), (1000, 1000000, HOST_OF_ONE, 0), (1000, 1000, HOST_OF_ONE, 20),
    (10**15, 1000, HOST_OF_ONE, 2 * 10**13), (10**15, 1000, arbiter.Host(64, 10**6, 1000), 10**15),
    (10**15, 10**6, arbiter.Host(1, 1000, 1000), 10**9),
    (999999, 10**6, arbiter.Host(1, 10**6, 10**6), 0),
    (10**6, 10**6, arbiter.Host(1, 10**6, 10**6), 1),
])
def test_slices(calls, usec, own_period, host, slices):
    """Quotas and bursts at the ends of their ranges, by values that were worked by hand."""
    same(calls.slices(host, usec, own_period), slices)


def check_refused(calls, name, number, host, *numbers):
    """A conversion answers its first refusal, and writes nothing."""
    same(number_of(getattr(calls, name), host, *numbers), (number, None))
    slices = c.U64(7)
    words = [*calls.host(host), *map(c.U64, numbers), ctypes.byref(slices)]
    same(getattr(calls.calls, f"arbiter_{name}")(*words), number)
    same(slices.value, 7)


@pytest.mark.parametrize("number, host, usec, own_period", [
    (1, arbiter.Host(0, 0, 0), 2**64 - 1, 0), (1, arbiter.Host(65, 100000, 5000), 0, 100000),
    (2, arbiter.Host(1, 1000001, 0), 2**64 - 1, 0), (3, arbiter.Host(1, 100000, 999), 2**64 - 1, 0),
    (14, HOST_OF_ONE, 10**15 + 1, 0), (14, HOST_OF_ONE, 2**64 - 1, 100000),
    (15, HOST_OF_ONE, 10**15, 999), (15, HOST_OF_ONE, 0, 0), (15, HOST_OF_ONE, 0, 1000001),
    (15, HOST_OF_ONE, 0, 2**64 - 1),
])
def test_refused_slices(calls, number, host, usec, own_period):
    check_refused(calls, "slices", number, host, usec, own_period)


@pytest.mark.parametrize("thousandths, host, slices", [
    (0, HOST_OF_ONE, 0), (1, HOST_OF_ONE, 1), (50, HOST_OF_ONE, 1), (51, HOST_OF_ONE, 2),
    (1000, HOST_OF_ONE, 20), (1001, HOST_OF_ONE, 21), (50000000, HOST_OF_ONE, 1000000),
    (333, arbiter.Host(1, 3000, 1000), 1), (334, arbiter.Host(1, 3000, 1000), 2),
    (1000000, arbiter.Host(64, 10**6, 1000), 10**6), (10**9, arbiter.Host(1, 10**6, 10**6), 10**6),
])
def test_demand(calls, thousandths, host, slices):
    """Demands at the ends of their range, by values that were worked by hand."""
    same(calls.demand(host, thousandths, 1000), slices)


@pytest.mark.parametrize("numerator, denominator, slices", [
    (1, 20, 1), (1, 21, 1), (1, 19, 2), (1, 3, 7), (2**64 - 1, 2**64 - 1, 20), (1, 2**64 - 1, 1),
    (0, 1, 0), (50000, 1, 10**6), (2**64 - 1, 368934881474192, 10**6),
])
def test_demand_of_parts(calls, numerator, denominator, slices):
    """A slice is a twentieth of a processor. The last is just below 50000 processors."""
    same(calls.demand(HOST_OF_ONE, numerator, denominator), slices)


@pytest.mark.parametrize("number, host, numerator, denominator", [
    (1, arbiter.Host(0, 0, 0), 2**64 - 1, 0), (2, arbiter.Host(64, 999, 1000), 2**64 - 1, 0),
    (3, arbiter.Host(64, 1000, 1001), 2**64 - 1, 0), (9, HOST_OF_ONE, 50000001, 1000),
    (9, HOST_OF_ONE, 2**64 - 1, 1000), (9, arbiter.Host(64, 10**6, 1000), 1000001, 1000),
    (9, arbiter.Host(1, 10**6, 10**6), 10**9 + 1, 1000), (11, HOST_OF_ONE, 2**64 - 1, 0),
    (11, HOST_OF_ONE, 0, 0), (9, HOST_OF_ONE, 2**64 - 1, 368934881474191),
])
def test_refused_demand(calls, number, host, numerator, denominator):
    check_refused(calls, "demand", number, host, numerator, denominator)


@pytest.mark.parametrize("shares, linear, logarithmic", [
    (0, 1, 1), (1, 1, 1), (2, 1, 1), (3, 1, 2), (28, 1, 7), (29, 2, 7), (102, 4, 17), (256, 10, 35),
    (512, 20, 59), (1023, 39, 100), (1024, 39, 100), (1025, 40, 101), (2048, 79, 174),
    (262143, 9999, 10000), (262144, 10000, 10000),
    (262145, 10000, 10000), (2**64 - 1, 10000, 10000),
])
def test_weights_of_shares(calls, shares, linear, logarithmic):
    """Weights at the ends of the range and at the points that the conversions are made for."""
    same(calls.weight_of_shares(shares), linear)
    same(calls.weight_of_shares(shares, "logarithmic"), logarithmic)


def test_all_weights_of_shares(calls):
    """Each number of shares has a weight, which is that of the formulas in floating point."""
    call = calls.calls.arbiter_weight_of_shares
    for shares in range(3, 262144):
        linear = 1 + (shares - 2) * 9999 // 262142
        same(call(c.U64(shares), c.U32(1)), linear, f"{shares}")
        if shares != 1024:
            logarithm = math.log2(shares)
            exact = 10 ** ((logarithm * logarithm + 125 * logarithm) / 612 - 7 / 34)
            # so far from a whole number that floating point rounds as the formula does
            assert abs(exact - round(exact)) > 1e-8, shares
            same(call(c.U64(shares), c.U32(2)), math.ceil(exact), f"{shares}")


@pytest.mark.parametrize("conversion", [0, 3, 2**32 - 1])
def test_no_conversion(calls, conversion):
    same(calls.calls.arbiter_weight_of_shares(c.U64(1024), c.U32(conversion)), 0)


def test_version(calls):
    """The version is that of the program, and is written if there is room for it."""
    text = version().encode()
    same(calls.version(), text.decode())
    for length in range(c.NAME_ROOM):
        room = ctypes.create_string_buffer(b"~" * 32, 32)
        same(calls.calls.arbiter_version(room, c.SIZE(length)), len(text), f"{length} bytes")
        front = text + b"\0" if len(text) < length else b""
        same(room.raw, front + b"~" * (32 - len(front)), f"{length} bytes")


# The host of raw calls: one processor of 20 slices.
RAW_HOST = [c.U64(number) for number in (1, 100000, 5000)]


def raw_columns(rows):
    """The four columns of rows, as C takes them."""
    parents = [c.NO_PARENT if row.parent is None else row.parent for row in rows]
    limits = [c.NO_LIMIT if row.limit is None else row.limit for row in rows]
    numbers = c.U64 * len(rows)
    weights, demands = [row.weight for row in rows], [row.demand for row in rows]
    return [(c.U32 * len(rows))(*parents), numbers(*weights), numbers(*limits),
            numbers(*demands)]


def with_lengths(columns, lengths):
    """Each column and its length, as C takes them."""
    return [word for pair in zip(columns, map(c.SIZE, lengths)) for word in pair]


CERTIFIED = [c.U64, c.U8, c.U64, c.U64, c.U32]
# For each call: the columns behind the rows, what else is written, and how many columns get a wrong
# length. The others of `check` are in `test_wrong_claim` and `test_uneven_levels`.
KINDS = {
    "plan": ([c.U64], [], 5),
    "limiting": ([c.U32], [c.U32, c.U64], 5),
    "certify": (CERTIFIED, [], 9),
    "reasons": ([c.U8, c.U32], [], 6),
    "hold": ([c.U8, c.U64, c.U64, *CERTIFIED], [], 12),
    "serve": ([c.U8, c.U64, c.U64], [], 7),
    "check": (CERTIFIED, [c.U32], 4),
}


@pytest.mark.parametrize("name", KINDS)
@pytest.mark.parametrize("by", [-1, 1], ids=["one too few", "one too many"])
def test_wrong_length(calls, name, by):
    """A wrong length of each column in turn: 50, and nothing is written."""
    rows = rows_of(WORKED["two groups"][1])
    behind, others, wrong = KINDS[name]
    for at in range(wrong):
        columns = raw_columns(rows) + [(kind * 4)(*[7] * 4) for kind in behind]
        lengths = [3] * len(columns)
        lengths[at] += by
        # each column has room for one more, so that the length is true
        columns = [(type(column)._type_ * 4)(*[*column, 7][:4]) for column in columns]
        written = [kind(7) for kind in others]
        call, pointers = getattr(calls.calls, f"arbiter_{name}"), map(ctypes.byref, written)
        same(call(*RAW_HOST, *with_lengths(columns, lengths), *pointers), 50, f"column {at}")
        left = [list(column) for column in columns[4:]], [value.value for value in written]
        same(left, ([[7] * 4] * len(behind), [7] * len(others)), f"column {at}, what is written")


@pytest.mark.parametrize("lengths, row", [
    ((3, 2, 3), 7), ((3, 3, 2), 7), ((2, 3, 3), 7), ((2, 2, 2), 0), ((0, 0, 0), 0),
])
def test_uneven_levels(calls, lengths, row):
    """Columns of levels of different lengths: 50, and the row is as it was.

    Levels that are all too few: 50, and row 0.
    """
    found = c.U32(7)
    columns = raw_columns(rows_of(WORKED["two groups"][1]))
    columns += [(c.U64 * 3)(20, 7, 13), (c.U8 * 3)(1, 0, 0)]
    levels = [(c.U64 * 3)(13, 0, 0), (c.U64 * 3)(100, 0, 0), (c.U32 * 3)()]
    words = with_lengths(columns + levels, [3] * len(columns) + list(lengths))
    number = calls.calls.arbiter_check(*RAW_HOST, *words, ctypes.byref(found))
    same((number, found.value), (50, row))


def test_refusal_writes_no_amount(calls):
    rows = rows_of([(None, 100, None, 0), (0, 0, None, 20), (0, 200, None, 20)])
    amounts = (c.U64 * 3)(7, 8, 9)
    words = with_lengths([*raw_columns(rows), amounts], [3] * 5)
    same(calls.calls.arbiter_plan(*RAW_HOST, *words), 6, "a weight of 0")
    same(list(amounts), [7, 8, 9])


def test_certificate_columns(calls):
    """Flags are 0 or 1. A group that shares nothing out has 0 in the three columns of its level.

    The group without slices has children, and shares nothing out.
    """
    rows = rows_of([(None, 100, None, 0), (0, 100, 10, 0), (1, 100, None, 20), (1, 300, None, 20),
                    (0, 100, None, 20), (0, 100, None, 0), (5, 100, None, 0)])
    certificate = [(kind * 7)(*[7] * 7) for kind in CERTIFIED]
    columns = [*raw_columns(rows), *certificate]
    words = with_lengths(columns, [7] * len(columns))
    same(calls.calls.arbiter_certify(*RAW_HOST, *words), 0)
    amounts, flags, nums, dens, places = map(list, certificate)
    same(amounts, [20, 10, 3, 7, 10, 0, 0], "amounts")
    same(flags, [1, 1, 0, 0, 0, 0, 0], "flags")
    same(nums, [19, 5, 0, 0, 0, 0, 0], "nums")
    same(dens, [100, 100, 0, 0, 0, 0, 0], "dens")
    same(places, [1, 0, 0, 0, 0, 0, 0], "places")


@pytest.mark.parametrize("limit", [10**15, 10**15 + 1, 2 * 10**15, 2**64 - 2])
def test_great_limits(calls, limit):
    """A limit far above the capacity changes no plan."""
    rows = rows_of([(None, 100, None, 0), (0, 100, limit, 20), (0, 200, limit, 20)])
    certificate = arbiter.Certificate.of([True, False, False], [(13, 100, 0), None, None])
    same(calls.certify(HOST_OF_ONE, rows), ([20, 7, 13], certificate))
    same(calls.limiting(HOST_OF_ONE, rows), ([0], 0))
    same(number_of(calls.check, HOST_OF_ONE, rows, [20, 7, 13], certificate), (0, None))


# Wrong claims for the pod and the job: number, row, amounts, flags, levels. `...` is the right one;
# a function changes the right one.
CLAIMS = [
    (50, 0, lambda amounts: amounts[:-1], ..., ...),
    (50, 0, ..., lambda flags: flags + [False], ...),
    (50, 0, ..., ..., lambda levels: levels[:-1]),
    (51, 1, [20, 11, 3, 8, 9], ..., ...),
    (52, 2, [20, 10, 21, 7, 10], ..., ...),
    (53, 1, [20, 10, 3, 6, 10], ..., ...),
    (54, 2, ..., [True, True, True, False, False], ...),
    (55, 0, [19, 9, 3, 6, 10], ..., ...),
    (56, 1, ..., ..., lambda levels: [levels[0], None, None, None, None]),
    (57, 2, ..., ..., lambda levels: [levels[0], (1, 100, 0), None, None, None]),
    (58, 2, ..., ..., lambda levels: [levels[0], (999, 1, 0), None, None, None]),
]


@pytest.mark.parametrize("number, row, amounts, flags, levels", CLAIMS,
                         ids=[f"{row[0]}, {at}" for at, row in enumerate(CLAIMS)])
def test_wrong_claim(calls, program, number, row, amounts, flags, levels):
    """Each fault of a certificate, by numbers and by text, as the program finds it."""
    host, tuples, right = WORKED["a pod and a job"]
    rows = rows_of(tuples)
    certificate = calls.certify(host, rows)[1]

    def changed(right, change):
        return right if change is ... else change(right) if callable(change) else change

    amounts = changed(right, amounts)
    flags = changed([bool(flag) for flag in certificate.flags], flags)
    levels = changed(certificate.levels, levels)
    claim = arbiter.Certificate.of(flags, levels)
    same(number_of(calls.check, host, rows, amounts, claim), (number, row), "by numbers")
    # no text has columns of different lengths
    if number == 50:
        return
    head, *lines = [line.split(" ") for line in by_program(program, host, rows).text.splitlines()]
    for line, amount, flag, level in zip(lines, amounts, flags, levels):
        level = "-" if level is None else "%d/%d@%d" % level
        line[4:] = [str(amount), str(int(flag)), level]
    forged = "".join(" ".join(line) + "\n" for line in [head, *lines]).encode()
    same(number_of(calls.check_text, forged), (number, row), "by text")
    refused = f"refused {number} {names()[number]} {row}\n"
    same(program.run(["check"], forged).out.decode(), refused, "by the program")


@pytest.fixture(scope="module")
def changed_texts(program):
    """Texts cut and changed at each byte, and texts that are none."""
    host, tuples, _ = WORKED["two processors"]
    text = by_program(program, host, rows_of(tuples)).text.encode()
    texts = [text[:end] for end in range(0, len(text), 7)] + [text + b"x", b"", b"\n"]
    texts += [b"bw 1 1 100000 5000 0\n", b"bw 2 1 100000 5000 0\n"]
    return texts + [text[:at] + b"9" + text[at + 1:] for at in range(0, len(text), 5)]


def test_changed_texts(calls, program, changed_texts):
    """The library judges each text as the program does."""
    for text in changed_texts:
        number, row = number_of(calls.check_text, text)
        line = "accepted"
        if number:
            fault = f"{number} {names()[number]}"
            line = f"error {fault}" if row is None else f"refused {fault} {row}"
        same(line, program.run(["check"], text).out.decode().strip(), f"text {text[:60]}")


def test_names(calls):
    """The name of each number of the header, and of no other."""
    same(set(names()), NUMBERS, "numbers in docs/USING.md")
    same(c.NAME_ROOM, 1 + max(map(len, names().values())), "room for each name")
    powers = [2**bits + low for bits in range(10, 32) for low in (0, 1, 71)]
    for number in [*range(1000), *powers, 2**32 - 1]:
        same(calls.name(number), names().get(number), f"the name of {number}")


@pytest.mark.parametrize("number", [0, 1, 39, 54, 59, 71, 2**32 - 1])
def test_room_for_a_name(calls, number):
    """The name and the 0 behind it are written if there is room for both, otherwise nothing."""
    text = names().get(number, "").encode()
    for length in range(c.NAME_ROOM + 2):
        room = ctypes.create_string_buffer(b"~" * 32, 32)
        found = calls.calls.arbiter_name(c.U32(number), room, c.SIZE(length))
        same(found, len(text), f"{length} bytes")
        front = text + b"\0" if text and len(text) < length else b""
        same(room.raw, front + b"~" * (32 - len(front)), f"{length} bytes")


@pytest.mark.parametrize("most, limit, by_host", [(7, 500, False), (23, 1000, True)])
def test_greatest_tree(calls, program, most, limit, by_host):
    """16384 groups, 64 levels deep at the first. Groups at several depths limit, or the host."""
    host = arbiter.Host(64, 1000000, 1000)
    rows = [arbiter.Row()]
    for depth in range(63):
        rows.append(arbiter.Row(depth, 100, limit * (63 - depth) if depth % 8 == 4 else None, 0))
    for leaf in range(16384 - len(rows)):
        limit_of_leaf = None if leaf % 3 else 1 + leaf % 50
        rows.append(arbiter.Row(leaf % 64, 1 + leaf % 10000, limit_of_leaf, leaf % most))
    found = agree_on(calls, program, host, rows, f"demands below {most}")
    same(found.limiting == [0], by_host, "limited by the host")


@pytest.mark.parametrize("row", [
    arbiter.Row(weight=-1), arbiter.Row(weight=2**64), arbiter.Row(parent=2**32),
    arbiter.Row(parent=2**32 - 1), arbiter.Row(limit=2**64 - 1),
], ids=str)
def test_out_of_range(calls, row):
    """The module refuses numbers that C would cut, and limits that stand for none."""
    with pytest.raises(OverflowError):
        calls.plan(HOST_OF_ONE, [row])


# From C

C_WORDS = ["-std=c11", "-Wall", "-Wextra", "-Wpedantic", "-Werror"]
# Writes behind a block of memory if it is called with a word.
FAULTY = """#include <stddef.h>
void *malloc(size_t size);
void free(void *block);

int main(int words, char **text)
{
    char *block = malloc(1);
    block[words - 1] = text[0][0];
    free(block);
    return 0;
}
"""


def kit_clang(folder):
    """The clang of the Rattle kit, which has no headers: the folder gets those that are needed."""
    (folder / "stddef.h").write_text("typedef __SIZE_TYPE__ size_t;\n")
    (folder / "stdint.h").write_text("".join(
        f"typedef __UINT{bits}_TYPE__ uint{bits}_t;\n#define UINT{bits}_MAX __UINT{bits}_MAX__\n"
        for bits in (8, 32, 64)))
    clang = str(kit_folder() / "toolchain/bin/clang")
    return [clang, *C_WORDS, "-fuse-ld=lld", f"-I{folder}"]


# The C programs of tests/, and the calls that each wraps.
C_PROGRAMS = {"library": [], "library_memory": ["malloc", "realloc", "free"]}


def run_c_program(name, library, folder, words, behind):
    """Builds a C program of tests/ over the static library, and runs it: it ends with 0."""
    source, wrapped = f"{ROOT}/tests/{name}.c", [f"-Wl,--wrap={call}" for call in C_PROGRAMS[name]]
    built = [*words, "-o", f"{folder}/{name}", source, str(library.with_suffix(".a"))]
    same(run([*built, *wrapped, *behind], seconds=SECONDS), (0, b"", b""), f"{name}.c built")
    ended = run([f"{folder}/{name}"], seconds=SECONDS)
    same(ended.status, 0, f"the number of the check in {name}.c that failed")


@pytest.mark.parametrize("name", C_PROGRAMS)
def test_c_program(library, scratch, name):
    """The C programs by the kit's clang, which takes from the system what begins a program."""
    words, empty = kit_clang(scratch), scratch / "empty.c"
    empty.write_text("int main(void) { return 0; }\n")
    lacks = re.search(rb"cannot open (\w*crt\w*\.o)",
                      run([*words, "-o", scratch / "empty", empty], seconds=SECONDS).err)
    if lacks:
        pytest.skip(f"no {lacks[1].decode()}: apt-get install gcc libc6-dev")
    run_c_program(name, library, scratch, words, [])


def sanitizers(folder):
    """Compilers with sanitizers, each with its words in front of the files and behind them.

    These are the kit's with the runtime for addresses that the kit has, so that what is undefined
    is a trap, and the system's.
    """
    runtime = kit_folder() / "c/asan.a"
    if runtime.exists():
        words = ["-fsanitize=address,undefined", "-fsanitize-trap=undefined",
                 "-fno-sanitize-link-runtime"]
        behind = ["-Wl,--whole-archive", str(runtime), "-Wl,--no-whole-archive", "-lm"]
        yield [*kit_clang(folder), *words], behind
    found = [shutil.which(compiler) for compiler in ("cc", "gcc", "clang")]
    for compiler in {os.path.realpath(path): path for path in found if path}.values():
        sanitized = ["-fsanitize=address,undefined", "-fno-sanitize-recover=all"]
        yield [compiler, *C_WORDS, *sanitized], []


def sees_faults(folder, words, behind) -> bool:
    """Whether a program links with the sanitizers, runs, and is stopped at a fault."""
    source, built = folder / "faulty.c", folder / "faulty"
    source.write_text(FAULTY)
    if run([*words, "-o", built, source, *behind], seconds=SECONDS).status:
        return False
    good, bad = run([built], seconds=SECONDS), run([built, "x"], seconds=SECONDS)
    return good.status == 0 and bad.status != 0 and b"AddressSanitizer" in bad.err


@pytest.mark.parametrize("name", C_PROGRAMS)
def test_c_program_sanitized(library, scratch, name):
    """The C programs by each compiler whose sanitizers run here.

    Sanitizers watch these programs, and each block of memory that the library takes, gives back or
    keeps. The library's own reads and writes are as they were compiled.
    """
    able = [words for words in sanitizers(scratch) if sees_faults(scratch, *words)]
    if not able:
        pytest.skip("no compiler with sanitizers that link and run here")
    for words, behind in able:
        run_c_program(name, library, scratch, words, behind)


# From Rust

RUST_PRINTS = """[20, 7, 13]
limited by rows [0], 0 slices outside them
refused 57 LastMarkAbove 1
"""


def need(*programs):
    """Skips a test if a program is not on the PATH."""
    missing = [name for name in programs if not shutil.which(name)]
    if missing:
        pytest.skip(f"no {' and no '.join(missing)} here")


def cargo(words, folder, library) -> str:
    """The output of cargo, without a network. What it builds goes into the folder."""
    environment = {**os.environ, "ARBITER_LIB": str(library.parent),
                   "CARGO_TARGET_DIR": f"{folder}/target"}
    ended = run(["cargo", *words], b"", SECONDS, cwd=folder, env=environment)
    same(ended.status, 0, f"cargo {words}: {ended.err.decode()[-400:]}")
    return ended.out.decode()


def test_rust_crate(library, scratch):
    """The tests of the crate and of its page, and the output of its example."""
    need("cargo", "rustc", "cc")
    folder = scratch / "arbiter"
    unwanted = shutil.ignore_patterns("target", "Cargo.lock")
    shutil.copytree(ROOT / "share/rust", folder, ignore=unwanted)
    printed = cargo(["test", "--offline"], folder, library)
    passed = re.findall(r"^test result: ok. (\d+) passed; 0 failed", printed, re.M)
    same([int(count) > 0 for count in passed], [True, True], "tests of the crate and of its page")
    example = ["run", "--offline", "--quiet", "--example", "two_groups"]
    same(cargo(example, folder, library), RUST_PRINTS)


# Installed


def sections(image):
    """The sections of a file in ELF, 64 bits and little-endian.

    Each is (kind, begin, size, section of its texts).
    """
    first, = struct.unpack_from("<Q", image, 0x28)
    size, count = struct.unpack_from("<HH", image, 0x3A)
    rows = [struct.unpack_from("<IIQQQQII", image, first + at * size) for at in range(count)]
    return [(row[1], row[4], row[5], row[6]) for row in rows]


def soname_and_names(path):
    """The soname of a shared library, and the names that it shows."""
    with open(path, "rb") as file:
        image = file.read()
    found = sections(image)

    def words_of(kind, form):
        """The entries of the one section of a kind, and where their texts begin."""
        begin, size, texts = next(row[1:] for row in found if row[0] == kind)
        return struct.iter_unpack(form, image[begin:begin + size]), found[texts][1]

    def text(at):
        return image[at:image.index(b"\0", at)].decode()

    entries, texts = words_of(6, "<qQ")
    soname = [text(texts + value) for tag, value in entries if tag == 14]
    symbols, texts = words_of(11, "<IBBHQQ")
    return soname, sorted(text(texts + name) for name, _, _, section, _, _ in symbols if section)


def test_soname_and_names(library):
    """The shared library has its soname, and shows the names that the header declares alone."""
    header = (ROOT / "share/arbiter.h").read_text(encoding="utf-8")
    declared = sorted(re.findall(r"^uint(?:32|64)_t (\w+)\(", header, re.M))
    first = re.search(r'^#define ARBITER_VERSION "(\d+)\.', header, re.M).group(1)
    soname, names = soname_and_names(library)
    # Some linkers also show the name of the version itself, and nothing else beside the calls.
    version, = re.findall(r"^(\w+) \{", (ROOT / "share/arbiter.map").read_text(), re.M)
    same((soname, [each for each in names if each != version]),
         ([f"libarbiter.so.{first}"], declared))


@pytest.fixture(scope="module")
def installed():
    """A folder in which `./build --install` put everything. The kit proves nothing here."""
    if has_coq():
        # that takes longer than the limit of what is read below
        build_in_coq(ROOT / "out/independent")
    with tempfile.TemporaryDirectory() as folder:
        words, text = ["--install", folder], b""
        options = {"cwd": ROOT, "stderr": subprocess.STDOUT}
        with Talk(Program(ROOT / "build"), words, **options) as talk:
            piece = talk.read()
            while piece:
                text += piece
                if b"proving" in text:
                    pytest.fail("program or library is not up to date: ./build", pytrace=False)
                piece = talk.read()
            same(talk.status(), 0, text.decode())
        yield Path(folder)


def embedded(name):
    """The files, the command and the answer of the example in docs/EMBEDDING.md with a file."""
    files, command = {}, None
    for _, kind, words, text, _ in pages.fences(pages.EMBEDDING):
        if kind == "command":
            command = text
        elif kind == "answer" and name in files:
            return files, command, text
        elif kind == "answer":
            files, command = {}, None
        elif kind:
            files[words] = text
    raise ValueError(f"docs/{pages.EMBEDDING} has no example with {name}")


EXAMPLES = {"two-groups.c": ["cc", "pkg-config"], "two_groups.py": ["python3"]}


@pytest.mark.parametrize("name", EXAMPLES)
def test_example(request, scratch, name):
    """An example of docs/EMBEDDING.md prints what stands below it."""
    need(*EXAMPLES[name])
    installed = request.getfixturevalue("installed")
    files, command, answer = embedded(name)
    for name, text in files.items():
        path = scratch / name
        path.parent.mkdir(parents=True, exist_ok=True)
        path.write_text(text, encoding="utf-8")
    below = installed / "lib"
    environment = {**os.environ, "DIR": str(installed), "REPOSITORY": str(ROOT),
                   "PKG_CONFIG_PATH": f"{below}/pkgconfig", "LD_LIBRARY_PATH": str(below)}
    ended = run(["bash", "-e", "-c", command], b"", SECONDS, cwd=scratch, env=environment)
    same(ended, (0, answer.encode(), b""))
