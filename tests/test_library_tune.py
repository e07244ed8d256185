"""The weights from the root down under which each row has its goal, by the C library.

They are compared with weights worked by hand, and on tiny trees with each choice of a few weights,
by the slow model's plans.
"""
import ctypes
import itertools
import random
from typing import Iterator, List, Optional, Sequence

import pytest

import arbiter
from arbiter import c
from chances import cases
from plan_model import Row
from support import same
from test_library import REFUSED, number_of, raw_columns, rows_of, with_lengths
from test_library_questions import GREATEST_DEMAND, HOST, changed, host_words, is_under, model_of

SEED, TREES, GUARANTEED_TREES, HALVED = 20261129, 3000, 1800, cases(3000, 10)
# The weights that the model tries, and the fewest trees of each kind.
TRIED, LEAST_OF_EACH = (1, 2, 3, 5), 8
# Of 20 slices `web` (1) gets 10, and the groups of `pod` (2) 5 each.
EVEN = [Row(None), Row(0, demand=20), Row(0), Row(2, demand=20), Row(2, demand=20)]
# The greatest weights.
HEAVY = [Row(None), Row(0, 10000, demand=20), Row(0, 10000, demand=20)]
# `web` (1) and the second group of `pod` are idle.
IDLE = [Row(None), Row(0), Row(0), Row(2, demand=20), Row(2)]
ALL = [False, True, True, True, True]


@pytest.fixture(scope="module")
def module(library):
    """The library under test, as the Python module calls it."""
    return arbiter.Library(str(library))


@pytest.mark.parametrize("goals, may, answer", [
    ([0, 0, 0, 0, 0], ALL, [100] * 5),
    # The twelfth slice of row 1 costs 23 / 136, and the ninth of row 2 17 / 100.
    ([0, 12, 0, 0, 0], ALL, [100, 136, 100, 100, 100]),
    # A goal inside a pod: the pod needs 8 for it at the greatest weight, and has 10. Of these the
    # eighth slice of row 3 costs 15 / 300, as the third of row 4 does behind it.
    ([0, 0, 0, 8, 0], ALL, [100, 100, 100, 300, 100]),
    # The pod alone may change. Of 15 row 3 has 8, as it comes first. The fifteenth slice of the pod
    # costs 29 / 264, and the sixth of row 1 11 / 100.
    ([0, 0, 0, 8, 0], [False, False, True, False, False], [100, 100, 264, 100, 100]),
    # Row 1 keeps 5, and its weight stays. The pod's fourteenth slice costs 27 / 208, and the seventh
    # of row 1 13 / 100. Row 3 has all 14, as its last one costs 27 / 2700, and the first of row 4
    # 1 / 100.
    ([0, 5, 0, 14, 0], [False, False, True, True, False], [100, 100, 208, 2700, 100]),
    # Goals of a group and of one inside it. The eighth slice of row 3 costs 15 / 167, and the fifth
    # of row 4 9 / 100.
    ([0, 0, 12, 8, 0], ALL, [100, 100, 136, 167, 100]),
    # 12 and 12 are more than 20: the root's goals cannot be met together.
    ([0, 12, 12, 0, 0], ALL, 0),
    # The pod needs 22, which it could be given, and the host has 20.
    ([0, 0, 0, 11, 11], ALL, 0),
    # Its demand is 20.
    ([0, 0, 0, 21, 0], ALL, 3),
])
def test_worked(module, goals, may, answer):
    """Weights worked by hand, or a row whose goals no weights meet together."""
    found = module.tune(HOST, EVEN, goals, may)
    same(found, answer)
    if isinstance(found, list):
        assert is_met(HOST, with_weights(EVEN, found), goals), found
        assert all(weight == row.weight for weight, row, each in zip(found, EVEN, may) if not each)


@pytest.mark.parametrize("rows, goals, may, guaranteed, answer", [
    # No weight is above 10000, so the other one is lowered. The fourteenth slice of row 1 costs
    # 27 / 10000, and the seventh of row 2 no less where its weight is 4814 at most.
    (HEAVY, [0, 14, 0], [False, True, True], False, [100, 10000, 4814]),
    # Both have a goal. The fourteenth slice of row 1 costs 27 / 5, and the seventh of row 2 13 / 2.
    # The sixth costs 11 / 2, and the fifteenth of row 1 29 / 5.
    (HEAVY, [0, 14, 6], [False, True, True], False, [100, 5, 2]),
    (HEAVY, [0, 14, 0], [False, True, False], False, 0),
    # All 20 are row 3's. If the others ask for all, row 2 has 10: the eighth slice of row 3 costs
    # 15 / 300, and so does the third of row 4, which stands behind it.
    (IDLE, [0, 0, 0, 8, 0], ALL, False, [100] * 5),
    (IDLE, [0, 0, 0, 8, 0], ALL, True, [100, 100, 100, 300, 100]),
    # Row 3 is to have all that row 2 gets. With 1900 its tenth slice costs 19 / 1900, and so does
    # the first of row 4 behind it. Of 11 the last one costs 21 / 2100. Row 2 needs 11 for it: its
    # eleventh slice costs 21 / 111, and the tenth of row 1 before it 19 / 100.
    (IDLE, [0, 0, 0, 11, 0], ALL, True, [100, 100, 111, 2100, 100]),
    # Row 4 asks for nothing, so nothing is guaranteed.
    (IDLE, [0, 0, 0, 0, 1], ALL, True, 4),
    # The root is guaranteed all that is served.
    (IDLE, [20, 0, 0, 0, 0], ALL, True, [100] * 5),
    (EVEN, [0, 12, 0, 9, 0], ALL, True, 0),
    # Rows 2 and 3 can be given 40 and 20. The lower one is named.
    (EVEN, [0, 0, 50, 21, 0], ALL, False, 3),
    (EVEN, [0, 0, 50, 21, 0], ALL, True, 3),
])
def test_measures(module, rows, goals, may, guaranteed, answer):
    """Goals by the plan, and by the guarantee."""
    same(module.tune(HOST, rows, goals, may, guaranteed), answer)
    if isinstance(answer, list):
        assert is_met(HOST, with_weights(rows, answer), goals, guaranteed=guaranteed)


def asked_columns(rows: Sequence[Row]) -> list:
    """The four columns of the rows, the goals and `may`, each with room for one entry more."""
    room = len(rows) + 1
    columns = [(type(column)._type_ * room)(*column, 7) for column in raw_columns(rows)]
    return [*columns, (c.U64 * room)(*[1] * room), (c.U8 * room)(*[1] * room)]


def tuned(calls, host, rows: Sequence[Row], lengths: Sequence[int]):
    """The number of the answer, the weights and the row, over which 7 stood.

    `lengths` are those of the columns that are asked and of the weights.
    """
    room = len(rows) + 1
    weights, unmet = (c.U64 * room)(*[7] * room), c.U64(7)
    words = with_lengths([*asked_columns(rows), weights], lengths)
    number = calls.arbiter_tune(*host_words(host), *words[:12], c.U32(1), *words[12:],
                                ctypes.byref(unmet))
    return number, list(weights), unmet.value


@pytest.mark.parametrize("number, row, host, tuples", REFUSED,
                         ids=[f"{case[0]}, {at}" for at, case in enumerate(REFUSED)])
def test_refused(module, number, row, host, tuples):
    """Host and rows are refused as those of a plan are, and nothing is written."""
    rows = rows_of(tuples)
    none, each = [0] * len(rows), [True] * len(rows)
    same(number_of(module.tune, host, rows, none, each), (number, row))
    found = tuned(module.calls, host, rows, [len(rows)] * 7)
    same(found, (number, [7] * (len(rows) + 1), 7))


def check_lengths(answered, calls, columns: int, by: int) -> None:
    """A wrong length of each column in turn: 50 before the host, and nothing is written."""
    for host in (HOST, arbiter.Host(0, 0, 0)):
        for at in range(columns):
            lengths = [5] * columns
            lengths[at] += by
            same(answered(calls, host, EVEN, lengths), (50, [7] * 6, 7), f"column {at}")


@pytest.mark.parametrize("by", [-1, 1], ids=["one too few", "one too many"])
def test_wrong_length(module, by):
    check_lengths(tuned, module.calls, 7, by)
    same(number_of(module.tune, HOST, EVEN, [0] * (5 + by), ALL), (50, None))
    same(number_of(module.tune, HOST, EVEN, [0] * 5, [True] * (5 + by)), (50, None))


def test_numbers_that_fit_no_word(module):
    for goal in (-1, 2**64):
        with pytest.raises(OverflowError, match="goal"):
            module.tune(HOST, EVEN, [goal, 0, 0, 0, 0], ALL)


@pytest.mark.parametrize("rows, goals, guaranteed, kept, come_to", [
    (EVEN, [0, 0, 0, 0, 0], False, [0, 5, 0, 3, 3], [0] * 5),
    # Row 4 has no goal and keeps half of its 5, rounded up.
    (EVEN, [0, 12, 0, 8, 0], False, [0, 12, 0, 8, 3], [20, 12, 8, 8, 0]),
    # A goal of the pod is no goal of another row, and more than that of the row in it.
    (EVEN, [0, 0, 12, 8, 0], False, [0, 5, 12, 8, 0], [12, 0, 12, 8, 0]),
    # Those of its rows come to more. A goal of the root is one of each row below it.
    (EVEN, [0, 0, 12, 8, 9], False, [0, 5, 12, 8, 9], [17, 0, 17, 8, 9]),
    (EVEN, [7, 0, 0, 0, 0], True, [7, 0, 0, 0, 0], [7, 0, 0, 0, 0]),
    # Row 3 has all 20. If the others ask for all, it has 5. Row 1 asks for nothing.
    (IDLE, [0, 0, 0, 0, 0], False, [0, 0, 0, 10, 0], [0] * 5),
    (IDLE, [0, 0, 0, 0, 0], True, [0, 0, 0, 3, 0], [0] * 5),
    (EVEN, [0, 0, 0, 2**64 - 1, 2**64 - 1], True, [0, 5, 0, 2**64 - 1, 2**64 - 1],
     [2**64 - 1, 0, 2**64 - 1, 2**64 - 1, 2**64 - 1]),
    # The root is none of the others.
    ([Row(None, demand=20)], [0], False, [0], [0]),
])
def test_halves(module, rows, goals, guaranteed, kept, come_to):
    """Half of what each leaf has with no goal at it or above it, and what goals come to."""
    same(module.goals(HOST, rows, goals, guaranteed), (kept, come_to))


@pytest.mark.parametrize("number, row, host, tuples", REFUSED,
                         ids=[f"{case[0]}, {at}" for at, case in enumerate(REFUSED)])
def test_halves_are_refused(module, number, row, host, tuples):
    """Host and rows are refused as those of a plan are."""
    rows = rows_of(tuples)
    same(number_of(module.goals, host, rows, [0] * len(rows)), (number, row))


@pytest.mark.parametrize("by", [-1, 1], ids=["one too few", "one too many"])
def test_wrong_length_of_halves(module, by):
    """A wrong length of each column in turn: 50 before the host, and nothing is written."""
    for host in (HOST, arbiter.Host(0, 0, 0)):
        for at in range(7):
            lengths = [5] * 7
            lengths[at] += by
            columns = [(type(column)._type_ * 6)(*column, 7) for column in raw_columns(EVEN)]
            written = [(c.U64 * 6)(*[7] * 6) for _ in range(2)]
            words = with_lengths([*columns, (c.U64 * 6)(*[1] * 6), *written], lengths)
            number = module.calls.arbiter_goals(*host_words(host), *words[:10], c.U32(1),
                                                *words[10:])
            same((number, [*map(list, written)]), (50, [[7] * 6] * 2), f"column {at}")


# Beside each choice of a few weights


def with_weights(rows: Sequence[Row], weights: Sequence[int]) -> List[Row]:
    return [Row(row.parent, weight, row.limit, row.demand) for row, weight in zip(rows, weights)]


def kept(host, rows: Sequence[Row], group: int) -> int:
    """The slices of a group where each leaf that is not under it asks for all."""
    leaves = set(range(len(rows))) - {row.parent for row in rows}
    for leaf in leaves:
        if not is_under(rows, group, leaf):
            rows = changed(rows, leaf, demand=GREATEST_DEMAND)
    return model_of(host, rows).plan()[group]


def is_met(host, rows: Sequence[Row], goals: Sequence[int], top: int = 0,
           guaranteed: bool = False) -> bool:
    """Whether each row from a top down has its goal."""
    under = [row for row in range(len(rows)) if is_under(rows, top, row)]
    if guaranteed:
        return all(not goals[row] or kept(host, rows, row) >= goals[row] for row in under)
    amounts = model_of(host, rows).plan()
    return all(amounts[row] >= goals[row] for row in under)


def choices(rows: Sequence[Row], may: Sequence[bool], raised: bool) -> Iterator[Sequence[int]]:
    """Each choice of the tried weights for the rows that may change, of those that lower none."""
    tried = [[weight for weight in TRIED if not raised or weight >= row.weight] if each
             else [row.weight] for row, each in zip(rows, may)]
    return itertools.product(*tried)


def agrees_above(rows: Sequence[Row], one: Sequence[int], other: Sequence[int], row: int) -> bool:
    """Whether the weights above a row agree, and those of the siblings of these."""
    above: Optional[int] = rows[row].parent
    while above:
        parent = rows[above].parent
        if any(one[each] != other[each] for each, it in enumerate(rows) if it.parent == parent):
            return False
        above = parent
    return True


def tiny(chance: random.Random) -> List[Row]:
    """A tree of two levels, with tried weights that stand and few limits."""
    rows = [Row(None), Row(0), Row(0)]
    rows += [Row(chance.randrange(3)) for _ in range(chance.randrange(1, 4))]
    inner = {row.parent for row in rows}
    for number, row in enumerate(rows[1:], 1):
        row.weight = chance.choice(TRIED[:3])
        row.limit = chance.choice([None] * 5 + [chance.randrange(1, 8)])
        row.demand = 0 if number in inner else chance.randrange(1, 12)
    return rows


def fits(rows: Sequence[Row], goals: Sequence[int], row: int) -> bool:
    """Whether a goal is within its row's limit and, of a leaf, within its demand."""
    limit, has_children = rows[row].limit, row in {each.parent for each in rows}
    return (limit is None or goals[row] <= limit) and (has_children
                                                        or goals[row] <= rows[row].demand)


def own_of(rows: Sequence[Row], goals: Sequence[int], may: Sequence[bool]) -> List[bool]:
    """Whether the weight of each row may change and a goal is at the row or below it."""
    return [each and any(goal and is_under(rows, row, below) for below, goal in enumerate(goals))
            for row, each in enumerate(may)]


def at_level(rows: Sequence[Row], may: Sequence[bool], own: Sequence[bool],
             level: int) -> List[Row]:
    """The rows, of which those that may change and are not the goals' have the level at most."""
    return with_weights(rows, [min(row.weight, level) if each and not mine else row.weight
                               for row, each, mine in zip(rows, may, own)])


@pytest.mark.parametrize("guaranteed", [False, True], ids=["by the plan", "by the guarantee"])
def test_halves_of_tiny_trees(module, guaranteed):
    """Beside the slow model's plans, each row's way up, and sums from the leaves up."""
    chance, host = random.Random(SEED), arbiter.Host(1, 100000, 10000)
    seen = {"half": 0, "goal": 0, "above": 0, "more below": 0}
    for _ in range(HALVED):
        rows = tiny(chance)
        goals = [chance.choice((0, 0, 0, 1, 5)) for _ in rows]
        amounts = model_of(host, rows).plan()
        inner = {row.parent for row in rows}

        def wanted(row: int) -> int:
            """The goal of a row beside those of others."""
            has = any(goal and is_under(rows, top, row) for top, goal in enumerate(goals))
            if row in inner or row == 0 or has:
                seen["goal" if goals[row] else "above"] += 1
                return goals[row]
            seen["half"] += 1
            return -(-(kept(host, rows, row) if guaranteed else amounts[row]) // 2)

        def together(row: int) -> int:
            """What the goals of a row and below it come to."""
            below = sum(together(each) for each, it in enumerate(rows) if it.parent == row)
            seen["more below"] += below > goals[row] > 0
            return max(goals[row], below)

        found = module.goals(host, rows, goals, guaranteed)
        same(found, ([*map(wanted, range(len(rows)))], [*map(together, range(len(rows)))]),
             f"{rows}, {goals}")
    assert min(seen.values()) >= LEAST_OF_EACH, seen


@pytest.mark.parametrize("guaranteed", [False, True], ids=["by the plan", "by the guarantee"])
def test_tiny_trees(module, guaranteed):
    """No choice meets the goals with less at a row of theirs, agreeing above it, nor where none is
    found. Others are lowered to a level, and no choice meets the goals at a higher one."""
    chance = random.Random(SEED)
    seen = {"as they stand": 0, "raised": 0, "lowered": 0, "others lowered": 0, "unmet": 0}
    host = arbiter.Host(1, 100000, 10000)
    for tree in range(GUARANTEED_TREES if guaranteed else TREES):
        rows = tiny(chance)
        may = [False, *(chance.random() < 0.7 for _ in rows[1:])]
        amounts = model_of(host, rows).plan()
        if guaranteed:
            amounts = [kept(host, rows, row) for row in range(len(rows))]
        goals = [0, *(max(0, amount + chance.choice((-9, -9, -1, 0, 1, 2))) for amount in amounts[1:])]
        own = own_of(rows, goals, may)
        found = module.tune(host, rows, goals, may, guaranteed)
        told = f"tree {tree}, goals {goals}, may {may}: {found}"
        if not isinstance(found, list):
            for weights in choices(rows, may, False):
                assert not is_met(host, with_weights(rows, weights), goals, found, guaranteed), told
            assert all(fits(rows, goals, row) for row in range(len(rows))
                       if row != found and is_under(rows, found, row)), told
            seen["unmet"] += 1
            continue
        assert is_met(host, with_weights(rows, found), goals, guaranteed=guaranteed), told
        lower = [weight for weight, row, each, mine in zip(found, rows, may, own)
                 if each and not mine and weight < row.weight]
        level = max(lower, default=max(TRIED))
        low = at_level(rows, may, own, level)
        assert all(weight == row.weight for weight, row, mine in zip(found, low, own) if not mine)
        for higher in range(level + 1, max(TRIED) + 1):
            high = at_level(rows, may, own, higher)
            assert not any(is_met(host, with_weights(high, weights), goals, guaranteed=guaranteed)
                           for weights in choices(high, own, False)), told
        raised = all(weight >= row.weight for weight, row in zip(found, low))
        if not raised:
            assert not any(is_met(host, with_weights(low, weights), goals, guaranteed=guaranteed)
                           for weights in choices(low, own, True)), told
        for weights in choices(low, own, raised):
            if is_met(host, with_weights(low, weights), goals, guaranteed=guaranteed):
                for row in range(1, len(rows)):
                    if agrees_above(rows, found, weights, row):
                        assert found[row] <= weights[row], f"{told}, {weights}"
        changes = any(weight != row.weight for weight, row in zip(found, rows))
        seen["others lowered" if lower else "lowered" if not raised
             else "raised" if changes else "as they stand"] += 1
    print(seen)
    assert min(seen.values()) >= LEAST_OF_EACH, seen
