"""The greatest limits of rows away from goals with which each row has its goal, by the C library.

They are compared with limits worked by hand, and on tiny trees with levels and limits in turn, each
with all weights of one row, by the slow model's plans.
"""
import ctypes
import itertools
import math
import random
from typing import Iterator, List, NamedTuple, Optional, Sequence

import pytest

import arbiter
from arbiter import c
from plan_model import Instance, Row
from support import same
from test_library import REFUSED, number_of, rows_of, with_lengths
from test_library_questions import GREATEST_DEMAND, HOST, host_words, is_under, model_of
from test_library_tune import EVEN, IDLE, asked_columns, check_lengths, kept

SEED, TREES = 20261128, 500
# The fewest trees of each kind, and the choices of limits beside the answer.
LEAST_OF_EACH, MOST_CHOICES = 4, 12
NONE = [False] * 5
# Of 20 slices `web` (1) gets 10, and the groups of `pod` (2) 5 each. `web` is limited to 12.
CAPPED = [Row(None), Row(0, limit=12, demand=20), *EVEN[2:]]


@pytest.fixture(scope="module")
def module(library):
    """The library under test, as the Python module calls it."""
    return arbiter.Library(str(library))


@pytest.mark.parametrize("rows, goals, may, lowest, guaranteed, answer", [
    # With 6 of `web` and of row 4 the pod has 14, and row 3 has 8. With 7 of `web` it has 13.
    (EVEN, [0, 0, 0, 8, 0], NONE, [0] * 5, False, [None, 6, None, None, 6]),
    # `web` keeps 7, so row 4 has 5 of 13.
    (EVEN, [0, 0, 0, 8, 0], NONE, [0, 7, 0, 0, 0], False, [None, 7, None, None, 5]),
    # Its limit stays at 12, and at 20 it has none.
    (CAPPED, [0, 0, 0, 8, 0], NONE, [0, 12, 0, 0, 0], False, [None, 12, None, None, 2]),
    (EVEN, [0, 0, 0, 8, 0], NONE, [0, 20, 0, 0, 0], False, [None, None, None, None, 2]),
    # The limit of row 4 stays, and of 15 row 3 has 8, as it comes first.
    (CAPPED, [0, 0, 0, 8, 0], NONE, [0, 0, 0, 0, None], False, [None, 5, None, None, None]),
    # Row 3 has no more than 10 where row 4 has as many.
    (EVEN, [0, 0, 0, 11, 0], NONE, [0, 0, 0, 0, None], False, None),
    # Goals of both: nobody is left to be limited.
    (EVEN, [0, 11, 0, 5, 0], NONE, [0] * 5, False, None),
    # A weight of row 3 gives it all 10 of the pod.
    (EVEN, [0, 0, 0, 10, 0], [False, False, False, True, False], [0] * 5, False, [None] * 5),
    # The pod has 12 where `web` has 8.
    (EVEN, [0, 0, 0, 12, 0], [False, False, False, True, False], [0] * 5, False,
     [None, 8, None, None, None]),
    # All 20 are row 3's, and if the others ask for all, it has 12 where they have 4 each.
    (IDLE, [0, 0, 0, 12, 0], NONE, [0] * 5, False, [None] * 5),
    (IDLE, [0, 0, 0, 12, 0], NONE, [0] * 5, True, [None, 4, None, None, 4]),
])
def test_worked(module, rows, goals, may, lowest, guaranteed, answer):
    """Limits worked by hand, or that no limits will do."""
    same(module.limit_others(HOST, rows, goals, may, lowest, guaranteed), answer)


def limited(calls, host, rows: Sequence[Row], lengths: Sequence[int]):
    """The number of the answer, the limits and whether goals are met, over which 7 stood.

    `lengths` are those of the columns that are asked, of the lowest limits and of the limits.
    """
    room = len(rows) + 1
    lowest, limits, met = (c.U64 * room)(), (c.U64 * room)(*[7] * room), c.U32(7)
    words = with_lengths([*asked_columns(rows), lowest, limits], lengths)
    number = calls.arbiter_limit_others(*host_words(host), *words[:14], c.U32(1), *words[14:],
                                        ctypes.byref(met))
    return number, list(limits), met.value


@pytest.mark.parametrize("number, row, host, tuples", REFUSED,
                         ids=[f"{case[0]}, {at}" for at, case in enumerate(REFUSED)])
def test_refused(module, number, row, host, tuples):
    """Host and rows are refused as those of a plan are, and nothing is written."""
    rows = rows_of(tuples)
    none, each = [0] * len(rows), [True] * len(rows)
    same(number_of(module.limit_others, host, rows, none, each, none), (number, row))
    found = limited(module.calls, host, rows, [len(rows)] * 8)
    same(found, (number, [7] * (len(rows) + 1), 7))


@pytest.mark.parametrize("by", [-1, 1], ids=["one too few", "one too many"])
def test_wrong_length(module, by):
    check_lengths(limited, module.calls, 8, by)
    columns = [[0] * 5, NONE, [0] * 5]
    for at in range(3):
        wrong = [column[:-1] if by < 0 else [*column, 0] for column in columns]
        given = [*columns[:at], wrong[at], *columns[at + 1:]]
        same(number_of(module.limit_others, HOST, EVEN, *given), (50, None))


def test_numbers_that_fit_no_word(module):
    for limit in (-1, 2**64):
        with pytest.raises(OverflowError, match="limit"):
            module.limit_others(HOST, EVEN, [0] * 5, NONE, [limit, 0, 0, 0, 0])


# Beside each choice of limits and of one weight


class Asked(NamedTuple):
    """A question about a tiny tree. At most one row's weight may change."""

    capacity: int
    rows: List[Row]
    goals: List[int]
    may: List[bool]
    lowest: List[int]
    guaranteed: bool

    @property
    def host(self):
        return arbiter.Host(1, 1000 * self.capacity, 1000)

    def full(self, row: int) -> int:
        """The limit in force of a row."""
        own = self.rows[row].limit
        return self.capacity if own is None else min(own, self.capacity)

    def is_free(self, row: int) -> bool:
        """Whether a row is below the root, and no goal is at, above or below it."""
        return row > 0 and not any(
            goal and (is_under(self.rows, row, at) or is_under(self.rows, at, row))
            for at, goal in enumerate(self.goals))

    def at_level(self, level: int) -> List[int]:
        return [min(self.full(row), max(self.lowest[row], level)) if self.is_free(row)
                else self.full(row) for row in range(len(self.rows))]

    def weighed(self) -> Iterator[List[int]]:
        """The weights, with each weight of the row that may change up to one that gives it each
        slice before all its siblings have their first. More do no more."""
        weights = [row.weight for row in self.rows]
        most = max(weights) * 2 * self.capacity
        changing = [row for row, each in enumerate(self.may) if each]
        for weight in range(1, most + 1) if changing else [0]:
            yield [weight if row in changing else own for row, own in enumerate(weights)]

    def is_met(self, limits: Sequence[Optional[int]], weights: Sequence[int]) -> bool:
        """Whether each row has its goal. It is guaranteed where each leaf that is not under it asks
        for all."""
        asks = [[row.demand for row in self.rows]]
        goals = [(row, goal) for row, goal in enumerate(self.goals) if goal]
        if self.guaranteed:
            inner = {row.parent for row in self.rows}
            asks = [[row.demand if at in inner or is_under(self.rows, top, at) else GREATEST_DEMAND
                     for at, row in enumerate(self.rows)] for top, _ in goals]
        plans = [Instance([Row(row.parent, *each) for row, each in zip(self.rows, zip(
            weights, limits, some))], self.capacity).plan() for some in asks]
        return all(amounts[row] >= goal for amounts, (row, goal) in zip(
            plans if self.guaranteed else plans * len(goals), goals))

    def can_be_met(self, limits: Sequence[int]) -> bool:
        """Whether some weights meet the goals with these limits."""
        cut = [limit if limit < self.full(row) else self.rows[row].limit
               for row, limit in enumerate(limits)]
        return any(self.is_met(cut, weights) for weights in self.weighed())

    def choices(self, level: int) -> Iterator[Sequence[int]]:
        """Limits from a level on, those with the greatest first numbers first: all, if they are
        few, and else some."""
        ranges = [range(self.full(row), low - 1, -1)
                  for row, low in enumerate(self.at_level(level))]
        if math.prod(map(len, ranges)) <= MOST_CHOICES:
            return itertools.product(*ranges)
        chance = random.Random(level)
        return iter(sorted(([chance.choice(each) for each in ranges]
                            for _ in range(MOST_CHOICES // 2)), reverse=True))

    def in_turn(self, level: int) -> List[int]:
        """The limits of a level, each raised in row order as far as the goals allow."""
        limits = self.at_level(level)
        for row, low in enumerate(limits):
            tried = ([*limits[:row], limit, *limits[row + 1:]]
                     for limit in range(self.full(row), low, -1))
            limits = next(filter(self.can_be_met, tried), limits)
        return limits

    def answer(self) -> Optional[List[Optional[int]]]:
        """The greatest level, and the greatest limits in turn from it on. No choice is greater, and
        none meets goals that no level meets."""
        level = next((level for level in range(self.capacity, -1, -1)
                      if self.can_be_met(self.at_level(level))), None)
        if level is None:
            assert not any(map(self.can_be_met, self.choices(0)))
            return None
        limits = self.in_turn(level)
        assert not any(map(self.can_be_met, itertools.takewhile(
            lambda some: list(some) > limits, self.choices(level))))
        return [limit if limit < self.full(row) else self.rows[row].limit
                for row, limit in enumerate(limits)]


def tiny(chance: random.Random, guaranteed: bool) -> Asked:
    """A tree of two levels, a goal or two that are nearly met, and at most one weight."""
    capacity = chance.randrange(3, 7)
    rows = [Row(None), Row(0), Row(0)]
    rows += [Row(chance.randrange(3)) for _ in range(chance.randrange(1, 4))]
    inner, count = {row.parent for row in rows}, len(rows)
    for number, row in enumerate(rows[1:], 1):
        row.weight = chance.choice((1, 2, 3))
        row.limit = chance.choice([None] * 3 + [chance.randrange(0, capacity + 2)])
        row.demand = 0 if number in inner else chance.randrange(1, capacity + 2)
    host = arbiter.Host(1, 1000 * capacity, 1000)
    goals, amounts = [0] * count, model_of(host, rows).plan()
    for row in chance.sample(range(1, count), chance.choice((1, 1, 1, 2))):
        amount = kept(host, rows, row) if guaranteed else amounts[row]
        asks = sum(each.demand for at, each in enumerate(rows) if is_under(rows, row, at))
        goals[row] = min(amount + chance.choice((0, 1, 1, 2)), asks + chance.choice((0, 0, 0, 1)))
    changing = chance.choice([0, 0, 0, chance.randrange(1, count)])
    may = [row == changing > 0 for row in range(count)]
    lowest = [chance.choice((0, 0, 0, 1, 2, capacity)) for _ in rows]
    return Asked(capacity, rows, goals, may, lowest, guaranteed)


def kind_of(asked: Asked, found) -> str:
    """What an answer shows, as it is counted."""
    if found is None:
        return "unmet"
    lower = [limit for limit, row in zip(found, asked.rows) if limit != row.limit]
    weight = "a weight and " if any(asked.may) else ""
    return weight + ("all stay" if not lower else "one limit" if len(lower) == 1 else
                     "limits" if len(set(lower)) == 1 else "several limits")


def compared(module, trees: int, seed: int, guaranteed: bool) -> dict:
    """Compares the call with the model, and counts the kinds of answers."""
    chance, seen = random.Random(seed), {}
    for tree in range(trees):
        asked = tiny(chance, guaranteed)
        found = module.limit_others(asked.host, asked.rows, asked.goals, asked.may, asked.lowest,
                                    guaranteed)
        same(found, asked.answer(), f"tree {tree} of seed {seed}: {asked.goals} {asked.may}")
        kind = kind_of(asked, found)
        seen[kind] = seen.get(kind, 0) + 1
    return seen


@pytest.mark.parametrize("guaranteed", [False, True], ids=["by the plan", "by the guarantee"])
def test_tiny_trees(module, guaranteed):
    """Level and limits are the greatest of all, or none from the lowest on will do."""
    seen = compared(module, TREES, SEED, guaranteed)
    print(seen)
    kinds = ("unmet", "one limit", "several limits", "limits", "a weight and one limit")
    assert min(seen.get(kind, 0) for kind in kinds) >= LEAST_OF_EACH, seen
