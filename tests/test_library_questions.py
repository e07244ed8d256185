"""The questions that the C library answers about one plan: reasons, guarantees, least values.

The answers are compared with values worked by hand, and on random trees with the slow model.
"""
import ctypes
import random
import re
from typing import Iterator, List, Optional, Sequence, Tuple

import pytest

import arbiter
from arbiter import c
from chances import cases
from plan_model import Instance, Row
from support import ROOT, same
from test_library import REFUSED, number_of, raw_columns, rows_of, with_lengths

SEED = 20261126
TREES = cases(60)
# One processor of 20 slices, and the host's numbers as C takes them.
HOST = arbiter.Host(1, 100000, 5000)
NOTHING_ASKED, ALL_WANTED, OWN_LIMIT, LIMIT_ABOVE, HOST_FULL = range(5)
GREATEST_DEMAND, GREATEST_WEIGHT, MOST_PROCESSORS = 1000000, 10000, 64
# The calls that ask about one group, and whether they take an amount.
QUESTIONS = {"guarantee": False, "least_weight": True, "least_limit": True,
             "least_processors": True}
EQUAL = [Row(None), Row(0, demand=20), Row(0, demand=20)]
# `web` (1), `pod` (2) over two leaves, an idle group (5) and one that wants a slice (6).
POD = [Row(None), Row(0, demand=20), Row(0, limit=9), Row(2, demand=20), Row(2, demand=20), Row(0),
       Row(0, demand=1)]
# Of a guarantee: `web` is idle.
IDLE = [Row(None), Row(0), Row(0, 300), Row(2, demand=20), Row(2, demand=8)]
# At weight 9999 the seventeenth slice of row 2 costs as much as the fourth of row 1, the first.
HEAVY = [Row(None), Row(0, 2121, None, 20), Row(0, 1, None, 20)]
HEAVIER = [Row(None), Row(0, 2122, None, 20), Row(0, 10000, None, 20)]
# Two groups that want more than half of any host.
WIDE = [Row(None), Row(0, demand=GREATEST_DEMAND), Row(0, demand=GREATEST_DEMAND)]


@pytest.fixture(scope="module")
def module(library):
    """The library under test, as the Python module calls it."""
    return arbiter.Library(str(library))


@pytest.fixture(scope="module")
def calls(module):
    """The calls of the library under test, as C has them."""
    return module.calls


def host_words(host) -> list:
    return [c.U64(number) for number in (host.processors, host.period_us, host.slice_us)]


def asked(calls, name: str, host, rows: Sequence[Row], group: int,
          amount: Optional[int] = None) -> Tuple[int, int]:
    """The number that a question about a group is answered with, and what is written over a 7."""
    written = c.U64(7)
    words = [*host_words(host), *with_lengths(raw_columns(rows), [len(rows)] * 4)]
    words += [c.U32(group)] + ([] if amount is None else [c.U64(amount)])
    number = getattr(calls, f"arbiter_{name}")(*words, ctypes.byref(written))
    return number, written.value


def reasons_told(calls, host, rows: Sequence[Row]) -> Tuple[int, List[int], List[int]]:
    """The number that the reasons are answered with, and both columns, which had 7 in them."""
    count = len(rows)
    reasons, blamed = (c.U8 * count)(*[7] * count), (c.U32 * count)(*[7] * count)
    words = with_lengths([*raw_columns(rows), reasons, blamed], [count] * 6)
    number = calls.arbiter_reasons(*host_words(host), *words)
    return number, list(reasons), list(blamed)


def figures_told(calls, host, rows: Sequence[Row], lengths: Sequence[int] = ()
                 ) -> Tuple[int, List[List[int]]]:
    """The number that the figures are answered with, and the six columns, which had 7 in them."""
    count = len(rows)
    types = [c.U64, c.U64, c.U8, c.U32, c.U64, c.U64]
    columns = [(kind * count)(*[7] * count) for kind in types]
    words = with_lengths([*raw_columns(rows), *columns], lengths or [count] * 10)
    number = calls.arbiter_figures(*host_words(host), *words)
    return number, [list(column) for column in columns]


# Worked values


def test_figures(calls):
    """`pod` wants 40 and has a limit of 9, so the root wants 30 of its 20 slices."""
    same(figures_told(calls, HOST, POD),
         (0, [[30, 20, 40, 20, 20, 0, 1], [20, 20, 9, 20, 20, 0, 1], [1, 0, 1, 0, 0, 0, 0],
              [3, 0, 2, 0, 0, 0, 0], [300, 0, 200, 0, 0, 0, 0], [0, 0, 31, 0, 0, 0, 0]]))
    rows = [Row(None), Row(0, 300, 0), Row(0, 50, 8), Row(1, demand=5), Row(2, 7, demand=8)]
    same(figures_told(calls, HOST, rows),
         (0, [[8, 5, 8, 5, 8], [8, 0, 8, 5, 8], [0, 1, 0, 0, 0], [1, 1, 1, 0, 0],
              [50, 100, 7, 0, 0], [0, 5, 0, 0, 0]]), "limits of 0 and of all that is wanted")


def test_figures_are_refused(calls):
    """A wrong length of each column in turn, and a refused row. Nothing is written."""
    sevens = [[7] * len(POD)] * 6
    for at in range(4, 10):
        lengths = [len(POD)] * 10
        lengths[at] -= 1
        same(figures_told(calls, HOST, POD, lengths), (50, sevens), f"column {at}")
    heavy = [*POD[:6], Row(0, 10001)]
    same(figures_told(calls, HOST, heavy), (6, sevens), "a weight of 10001")


def test_reasons(calls):
    """Each reason once at least. `pod` is to blame for what its two groups lack."""
    reasons = [HOST_FULL, HOST_FULL, OWN_LIMIT, LIMIT_ABOVE, LIMIT_ABOVE, NOTHING_ASKED, ALL_WANTED]
    same(reasons_told(calls, HOST, POD), (0, reasons, [0, 1, 2, 2, 2, 5, 6]))
    same(reasons_told(calls, HOST, [Row(None)]), (0, [NOTHING_ASKED], [0]), "the root alone")
    same(reasons_told(calls, HOST, [Row(None), Row(0, limit=0, demand=5)]),
         (0, [NOTHING_ASKED, OWN_LIMIT], [0, 1]), "a limit of 0")


@pytest.mark.parametrize("rows, group, amount", [
    (IDLE, 0, 20), (IDLE, 1, 0), (IDLE, 2, 15), (IDLE, 3, 8), (IDLE, 4, 7),
    (POD, 1, 5), (POD, 2, 5), (POD, 3, 3), (POD, 4, 2), (POD, 5, 0), (POD, 6, 1), (EQUAL, 2, 10),
])
def test_guarantees(calls, rows, group, amount):
    """An idle sibling's share is owed to nobody."""
    same(asked(calls, "guarantee", HOST, rows, group), (0, amount))


@pytest.mark.parametrize("rows, group, amount, weight", [
    (EQUAL, 1, 14, 208), (EQUAL, 1, 10, 91), (EQUAL, 1, 0, 1), (EQUAL, 1, 20, 3900),
    (EQUAL, 1, 21, 0), (EQUAL, 1, 2**64 - 1, 0), (EQUAL, 0, 20, 1), (EQUAL, 0, 21, 0),
    (HEAVY, 2, 17, 10000), (HEAVIER, 2, 17, 0),
])
def test_least_weights(calls, rows, group, amount, weight):
    """The weights at both ends of the range, and none."""
    same(asked(calls, "least_weight", HOST, rows, group, amount), (0, weight))


@pytest.mark.parametrize("rows, group, amount, limit", [
    (EQUAL, 1, 10, 10), (EQUAL, 1, 0, 0), (EQUAL, 1, 11, c.NO_LIMIT),
    (EQUAL, 1, 2**64 - 1, c.NO_LIMIT), (POD, 2, 9, 9), (POD, 2, 10, c.NO_LIMIT),
    (POD, 5, 0, 0), (POD, 5, 1, c.NO_LIMIT),
])
def test_least_limits(calls, rows, group, amount, limit):
    """The limit that a group has is no part of the question."""
    same(asked(calls, "least_limit", HOST, rows, group, amount), (0, limit))


@pytest.mark.parametrize("processors", [1, 3, 64])
@pytest.mark.parametrize("group, amount, least", [
    (1, 17, 1), (1, 18, 2), (1, 640, 64), (1, 641, 0), (0, 1280, 64), (0, 1281, 0), (2, 0, 1),
])
def test_least_processors(calls, processors, group, amount, least):
    """The number of processors of the host itself changes nothing."""
    rows = [Row(None), Row(0, demand=GREATEST_DEMAND), Row(0, limit=3, demand=GREATEST_DEMAND)]
    if amount > 18:
        rows[2].limit = None
    host = arbiter.Host(processors, 100000, 5000)
    same(asked(calls, "least_processors", host, rows, group, amount), (0, least))


# Refusals


@pytest.mark.parametrize("number, row, host, tuples", REFUSED,
                         ids=[f"{row[0]}, {at}" for at, row in enumerate(REFUSED)])
def test_refused(calls, number, row, host, tuples):
    """A host and rows are refused before the group, and nothing is written."""
    rows = [Row(*given) for given in tuples]
    for name, has_amount in QUESTIONS.items():
        for group in (0, len(rows), 2**32 - 1):
            found = asked(calls, name, host, rows, group, 1 if has_amount else None)
            same(found, (number, 7), f"{name} of row {group}")
    same(reasons_told(calls, host, rows), (number, [7] * len(rows), [7] * len(rows)), "reasons")


@pytest.mark.parametrize("name", QUESTIONS)
def test_no_such_group(calls, name):
    """20 from the first row on that is not there, and 10 for the limit of the root."""
    amount = 1 if QUESTIONS[name] else None
    for group in (3, 4, 2**31, 2**32 - 1):
        same(asked(calls, name, HOST, EQUAL, group, amount), (20, 7), f"row {group}")
    same(asked(calls, name, HOST, EQUAL, 2, amount)[0], 0, "the last row")
    same(asked(calls, name, HOST, EQUAL, 0, amount)[0], 10 if name == "least_limit" else 0, "root")


@pytest.mark.parametrize("name", QUESTIONS)
@pytest.mark.parametrize("by", [-1, 1], ids=["one too few", "one too many"])
def test_wrong_length(calls, name, by):
    """A wrong length of each column in turn: 50, and nothing is written."""
    columns = [(type(column)._type_ * 4)(*column, 7) for column in raw_columns(EQUAL)]
    for at in range(4):
        lengths, written = [3] * 4, c.U64(7)
        lengths[at] += by
        words = [*host_words(HOST), *with_lengths(columns, lengths), c.U32(3)]
        words += [c.U64(1)] * QUESTIONS[name] + [ctypes.byref(written)]
        same(getattr(calls, f"arbiter_{name}")(*words), 50, f"column {at}")
        same(written.value, 7, f"column {at}")


# The Python module


def asked_of_module(module, name: str, host, rows: Sequence[Row], group: int,
                    amount: int) -> Tuple[int, Optional[int]]:
    """The number and the row of the refusal of a question about a group, (0, None) if none is."""
    words = [host, rows, group] + [amount] * QUESTIONS[name]
    return number_of(getattr(module, name), *words)


def test_module_reasons(module):
    """Each kind at least once. The row of the limit above stands with that kind alone."""
    above = arbiter.Reason(arbiter.Kind.LIMIT_ABOVE, 2)
    full, own, nothing, wanted = [arbiter.Reason(kind) for kind in (
        arbiter.Kind.HOST_FULL, arbiter.Kind.OWN_LIMIT, arbiter.Kind.NOTHING_ASKED,
        arbiter.Kind.ALL_WANTED)]
    found = module.reasons(HOST, POD)
    same(found, [full, full, own, above, above, nothing, wanted])
    same([reason.above for reason in found], [None, None, None, 2, 2, None, None], "rows")
    same({type(reason.kind) for reason in found}, {arbiter.Kind}, "types")
    same(module.reasons(HOST, [Row(None)]), [nothing], "the root alone")


def test_kinds_of_the_header():
    """The kinds of reasons have the names and numbers of the header."""
    header = (ROOT / "share/arbiter.h").read_text(encoding="utf-8")
    listed = header.split("/* Reasons of arbiter_reasons. */\n")[1].split("/*")[0]
    found = re.findall(r"^#define ARBITER_(\w+) (\d)$", listed, re.M)
    same(found, [(kind.name, str(kind.value)) for kind in arbiter.Kind])


@pytest.mark.parametrize("rows, group, amount", [(IDLE, 0, 20), (IDLE, 1, 0), (IDLE, 2, 15),
                                                 (IDLE, 3, 8), (IDLE, 4, 7), (POD, 3, 3)])
def test_module_guarantees(module, rows, group, amount):
    same(module.guarantee(HOST, rows, group), amount)


@pytest.mark.parametrize("name, rows, group, amount, least", [
    ("least_weight", EQUAL, 1, 0, 1), ("least_weight", EQUAL, 1, 14, 208),
    ("least_weight", HEAVY, 2, 17, 10000), ("least_weight", HEAVIER, 2, 17, None),
    ("least_weight", EQUAL, 1, 2**64 - 1, None), ("least_limit", EQUAL, 1, 0, 0),
    ("least_limit", EQUAL, 1, 10, 10), ("least_limit", EQUAL, 1, 11, None),
    ("least_limit", POD, 2, 9, 9), ("least_limit", EQUAL, 1, 2**64 - 1, None),
    ("least_processors", EQUAL, 1, 10, 1), ("least_processors", EQUAL, 1, 14, 2),
    ("least_processors", WIDE, 1, 640, 64), ("least_processors", WIDE, 1, 641, None),
    ("least_processors", EQUAL, 1, 2**64 - 1, None),
])
def test_module_least_values(module, name, rows, group, amount, least):
    """The values at the ends of each range, and None. A limit of 0 is not None."""
    same(getattr(module, name)(HOST, rows, group, amount), least)


@pytest.mark.parametrize("number, row, host, tuples", REFUSED,
                         ids=[f"{row[0]}, {at}" for at, row in enumerate(REFUSED)])
def test_module_refused(module, number, row, host, tuples):
    """A host and rows are refused before the group, with the row that the number speaks of."""
    rows = rows_of(tuples)
    same(number_of(module.reasons, host, rows), (number, row), "reasons")
    for name in QUESTIONS:
        for group in (0, len(rows), 2**32 - 1):
            found = asked_of_module(module, name, host, rows, group, 1)
            same(found, (number, row), f"{name} of row {group}")


@pytest.mark.parametrize("name", QUESTIONS)
def test_module_no_such_group(module, name):
    """20 from the first row on that is not there, and 10 for the limit of the root."""
    for group in (3, 2**32 - 1):
        same(asked_of_module(module, name, HOST, EQUAL, group, 1), (20, None), f"row {group}")
    number = 10 if name == "least_limit" else 0
    same(asked_of_module(module, name, HOST, EQUAL, 0, 1), (number, None), "root")


@pytest.mark.parametrize("name", QUESTIONS)
def test_module_out_of_range(module, name):
    """The module refuses a row and an amount that C would cut."""
    for group in (-1, 2**32):
        with pytest.raises(OverflowError, match=f"group {group} is no number of 32 bits"):
            asked_of_module(module, name, HOST, EQUAL, group, 1)
    for amount in [-1, 2**64] if QUESTIONS[name] else []:
        with pytest.raises(OverflowError, match=f"amount {amount} is no number of 64 bits"):
            asked_of_module(module, name, HOST, EQUAL, 1, amount)


# Random trees


def random_rows(chance: random.Random) -> List[Row]:
    rows = [Row(None)]
    for number in range(1, chance.randrange(2, 14)):
        parent = chance.randrange(max(0, number - 5), number)
        rows.append(Row(parent, chance.choice([1, 30, 100, 1000, 10000]),
                        chance.choice([None, None, 0, chance.randrange(1, 20)])))
    inner = {row.parent for row in rows}
    for number, row in enumerate(rows):
        if number not in inner:
            row.demand = chance.choice([0, chance.randrange(1, 12), chance.randrange(1, 50)])
    return rows


def random_hosts() -> Iterator[Tuple[arbiter.Host, List[Row]]]:
    chance = random.Random(SEED)
    for _ in range(TREES):
        slice_us = chance.choice([5000, 20000, 100000])
        yield arbiter.Host(chance.choice([1, 2, 3]), 100000, slice_us), random_rows(chance)


TREE = pytest.mark.parametrize("host, rows", list(random_hosts()), ids=range(TREES))


def model_of(host, rows: Sequence[Row]) -> Instance:
    slices = host.processors * (host.period_us // host.slice_us)
    return Instance([Row(row.parent, row.weight, row.limit, row.demand) for row in rows], slices)


def changed(rows: Sequence[Row], group: int, **fields) -> List[Row]:
    """The rows with another value of one setting of a group."""
    named = [dict(parent=row.parent, weight=row.weight, limit=row.limit, demand=row.demand)
             for row in rows]
    named[group].update(fields)
    return [Row(**row) for row in named]


def is_under(rows: Sequence[Row], top: int, group: Optional[int]) -> bool:
    return group is not None and (group == top or is_under(rows, top, rows[group].parent))


def model_reason(model: Instance, wants: List[int], amounts: List[int],
                 group: int) -> Tuple[int, int]:
    """The reason of a group, and the row that it blames."""
    if wants[group] == 0:
        return NOTHING_ASKED, group
    if amounts[group] == wants[group]:
        return ALL_WANTED, group
    blamed = group
    while amounts[blamed] < model.within(wants, blamed):
        blamed = model.rows[blamed].parent
    if blamed == 0:
        return HOST_FULL, group
    return (OWN_LIMIT if blamed == group else LIMIT_ABOVE), blamed


@TREE
def test_random_reasons(calls, host, rows):
    model = model_of(host, rows)
    wants, amounts = model.wants(), model.plan()
    wanted = [model_reason(model, wants, amounts, group) for group in range(len(rows))]
    reasons, blamed = map(list, zip(*wanted))
    same(reasons_told(calls, host, rows), (0, reasons, blamed))


@TREE
def test_random_guarantees(calls, host, rows):
    """The amount in the plan in which each leaf that is not under the group asks for the most."""
    leaves = set(range(len(rows))) - {row.parent for row in rows}
    for group in range(len(rows)):
        busy = list(rows)
        for leaf in leaves:
            if not is_under(rows, group, leaf):
                busy = changed(busy, leaf, demand=GREATEST_DEMAND)
        amount = model_of(host, busy).plan()[group]
        same(asked(calls, "guarantee", host, rows, group), (0, amount), f"row {group}")


@TREE
def test_random_least_weights(calls, host, rows):
    """The weight reaches the amount and one less does not. If there is none, 10000 does not."""
    for group in range(len(rows)):
        amount = model_of(host, rows).plan()[group] + 1

        def reaches(weight):
            return model_of(host, changed(rows, group, weight=weight)).plan()[group] >= amount

        number, weight = asked(calls, "least_weight", host, rows, group, amount)
        same(number, 0, f"row {group}")
        if weight == 0:
            assert not reaches(GREATEST_WEIGHT), f"row {group}"
        else:
            assert reaches(weight) and not (weight > 1 and reaches(weight - 1)), f"row {group}"


@TREE
def test_random_least_limits(calls, host, rows):
    """The amount without a limit is reached by that limit, and one more slice by none."""
    for group in range(1, len(rows)):
        most = model_of(host, changed(rows, group, limit=None)).plan()[group]
        same(model_of(host, changed(rows, group, limit=most)).plan()[group], most, f"row {group}")
        for amount in {0, most // 2, most}:
            found = asked(calls, "least_limit", host, rows, group, amount)
            same(found, (0, amount), f"row {group}")
        found = asked(calls, "least_limit", host, rows, group, most + 1)
        same(found, (0, c.NO_LIMIT), f"row {group}")


@TREE
def test_random_least_processors(calls, host, rows):
    """The number reaches the amount and one less does not. If there is none, 64 do not."""
    def reaches(processors, group, amount):
        host_of_so_many = arbiter.Host(processors, host.period_us, host.slice_us)
        return model_of(host_of_so_many, rows).plan()[group] >= amount

    for group in range(len(rows)):
        amount = model_of(host, rows).plan()[group] + 1
        number, least = asked(calls, "least_processors", host, rows, group, amount)
        same(number, 0, f"row {group}")
        if least == 0:
            assert not reaches(MOST_PROCESSORS, group, amount), f"row {group}"
        else:
            assert reaches(least, group, amount), f"row {group}"
            assert least == 1 or not reaches(least - 1, group, amount), f"row {group}"
