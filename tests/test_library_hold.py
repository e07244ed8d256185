"""The limits that the C library gives for a round, and what it gives a scheduler.

They are compared with limits worked by hand, and on random trees with the slow model's plans.
"""
import random
from fractions import Fraction
from typing import List, NamedTuple, Optional, Sequence, Tuple

import pytest

import arbiter
from chances import cases
from plan_model import Instance, Row
from support import same
from test_library import number_of, random_tree

SEED = 20261127
TREES = cases(60)
# Random trees that a scheduler is given, in tests of so many.
SERVED, OF_ONE = cases(2000, 10), 200
# One processor of 20 slices.
HOST = arbiter.Host(1, 100000, 5000)
EVERYTHING = 1000000
TWO = [Row(None), Row(0, demand=0), Row(0, weight=200, demand=0)]
# `web` (1) has a limit of its own, `pod` (2) has one for its two leaves.
POD = [Row(None), Row(0, limit=9), Row(0, limit=12), Row(2), Row(2)]
LIGHT = [Row(None), Row(0, weight=1), Row(0, weight=10000), Row(0, weight=1)]
Limits = List[Optional[int]]


@pytest.fixture(scope="module")
def module(library):
    """The library under test, as the Python module calls it."""
    return arbiter.Library(str(library))


def using(rows: Sequence[Row], used: Sequence[int]) -> List[Row]:
    """The rows, with what each used as its demand."""
    return [Row(row.parent, row.weight, row.limit, demand) for row, demand in zip(rows, used)]


@pytest.mark.parametrize("rows, used, hungry, limits, demands, amounts", [
    # 20 slices of weights 100 and 200 are 7 and 13: the floors. What the first leaves is the
    # second's.
    (TWO, [0, 4, 10], [1, 0, 1], [None, 7, 16], [0, 4, EVERYTHING], [20, 4, 16]),
    # Both are hungry: the floors are the plan.
    (TWO, [0, 4, 10], [0, 1, 1], [None, 7, 13], [0, EVERYTHING, EVERYTHING], [20, 7, 13]),
    # Nobody lacks anything, so nobody is held.
    (TWO, [0, 8, 5], [0, 0, 0], [None, None, None], [0, 8, 5], [13, 8, 5]),
    # The first used more than it is planned: its limit is the planned amount.
    (TWO, [0, 16, 13], [0, 0, 0], [None, 7, 15], [0, 16, 13], [20, 7, 13]),
    # The first is so light that its floor is 0. It used 3 slices or none: one more is its limit.
    # The last is hungry.
    (LIGHT, [0, 3, 10, 7], [0, 0, 0, 1], [None, 4, 20, 7], [0, 3, 10, EVERYTHING], [20, 3, 10, 7]),
    (LIGHT, [0, 0, 10, 9], [0, 0, 0, 1], [None, 1, 20, 10], [0, 0, 10, EVERYTHING],
     [20, 0, 10, 10]),
    # `web` lacks nothing but at its own limit.
    (POD, [0, 9, 0, 5, 2], [0, 1, 1, 0, 0], [None, 9, 12, None, None], [0, EVERYTHING, 0, 5, 2],
     [16, 9, 7, 5, 2]),
    # `web` used 8 of its 9: an eighth more is 9. `pod` has 11 or 12 of 20, and keeps its limit.
    # If all ask for all, web has 9 and the leaves of pod 6 and 5.
    (POD, [0, 8, 0, 5, 2], [0, 0, 0, 1, 0], [None, 9, 12, 10, 5],
     [0, 8, 0, EVERYTHING, 2], [20, 8, 12, 10, 2]),
])
def test_worked(module, rows, used, hungry, limits, demands, amounts):
    rows = using(rows, used)
    round_of = module.hold(HOST, rows, hungry)
    same((round_of.limits, round_of.demands, round_of.amounts), (limits, demands, amounts))
    asked = using(rows, demands)
    module.check(HOST, asked, round_of.amounts, round_of.certificate)


class Round(NamedTuple):
    """A round: its demands, their instance and plan, and the limits. The floors are the plan where
    each leaf asks for everything."""

    limits: Limits
    demands: List[int]
    amounts: List[int]
    asked: Instance
    floors: List[int]
    calm: bool


def leaves_of(rows: List[Row]) -> List[bool]:
    """Whether each row is a leaf."""
    inner = {row.parent for row in rows}
    return [number not in inner for number in range(len(rows))]


def by_model(rows: List[Row], capacity: int, hungry: Sequence[bool]) -> Round:
    """A round, from the slow model's plans."""
    leaves = leaves_of(rows)
    demands = [EVERYTHING if leaf and flag else row.demand
               for leaf, flag, row in zip(leaves, hungry, rows)]
    asked = Instance(using(rows, demands), capacity)
    amounts = asked.plan()
    most = [EVERYTHING if leaf else 0 for leaf in leaves]
    floors = Instance(using(rows, most), capacity).plan()
    calm = all(amount >= (demand if row.limit is None else min(demand, row.limit))
               for leaf, demand, amount, row in zip(leaves, demands, amounts, rows) if leaf)
    limits: Limits = []
    for row, leaf, flag, amount, floor in zip(rows, leaves, hungry, amounts, floors):
        if calm or not leaf:
            limits.append(row.limit)
        elif flag or amount < row.demand:
            limits.append(max(floor, amount))
        else:
            room = row.demand + max(1, (row.demand + 7) // 8)
            limits.append(max(floor, room if row.limit is None else min(row.limit, room)))
    return Round(limits, demands, amounts, asked, floors, calm)


def given_by_model(rows: List[Row], capacity: int, hungry: Sequence[bool]
                   ) -> Tuple[List[int], Limits]:
    """The amounts and limits that a scheduler is given, with parts as fractions."""
    found = by_model(rows, capacity, hungry)
    most: Limits = []
    for number, leaf in enumerate(leaves_of(rows)):
        parts, at = [], number
        while leaf and at is not None:
            own, above = rows[at].limit, found.amounts[at]
            if own is not None and (found.calm or not above):
                parts.append(own)
            elif own is not None:
                part = int(Fraction(found.amounts[number], above) * own)
                parts.append(min(max(part, found.limits[number] or 0), own))
            at = rows[at].parent
        most.append(min(parts, default=None) if leaf else rows[number].limit)
    full = [number for number, leaf in enumerate(leaves_of(rows))
            if leaf and found.amounts[number] >= found.floors[number]]
    theirs, planned = (sum(each[number] for number in full)
                       for each in (found.floors, found.amounts))
    times = Fraction(planned, theirs) if theirs else Fraction(1)
    return [amount if amount >= floor else int(floor * times)
            for amount, floor in zip(found.amounts, found.floors)], most


@pytest.mark.parametrize("number", range(TREES))
def test_random_tree(module, number):
    chance = random.Random(SEED + number)
    host, asked = random_tree(chance)
    # (of each third tree nobody is hungry, and few use much: nobody lacks anything there)
    most = EVERYTHING if number % 3 else host.processors
    rows = [Row(row.parent, row.weight, row.limit, min(row.demand, most)) for row in asked]
    hungry = [chance.random() < 0.2 * (number % 3) for _ in rows]
    capacity = host.processors * (host.period_us // host.slice_us)
    wanted = by_model(rows, capacity, hungry)
    round_of = module.hold(host, rows, hungry)
    same((round_of.limits, round_of.demands, round_of.amounts), wanted[:3])
    evidence = round_of.certificate
    same(([bool(flag) for flag in evidence.flags], evidence.levels),
         wanted.asked.certificate(wanted.amounts))


@pytest.mark.parametrize("rows, used, hungry, amounts, most", [
    # The first used 4 of its 7. The second has 16 for its 13, so it has 7 times 16 over 13 beside it.
    (TWO, [0, 4, 10], [0, 0, 1], [20, 8, 16], [None, None, None]),
    # Nobody lacks anything, so the limits are whole.
    (POD, [0, 9, 0, 5, 2], [0, 1, 1, 0, 0], [20, 9, 11, 6, 5], [None, 9, 12, 12, 12]),
    # Of the plan of `pod`, 12, its leaves have 10 and 2, and of its limit 10 and 2. The second may
    # use 5 in the round. The first has 10 for its 6: beside it 9 and 5 are 15 and 8.
    (POD, [0, 8, 0, 5, 2], [0, 0, 0, 1, 0], [20, 15, 12, 10, 8], [None, 9, 12, 10, 5]),
    # `pod` is so light that nothing is planned for it, so its leaves have its limit whole.
    ([Row(None), Row(0, weight=10000), Row(0, weight=1, limit=3), Row(2), Row(2)],
     [0, 20, 0, 0, 0], [0, 1, 0, 0, 1], [20, 20, 0, 0, 0], [None, None, 3, 3, 3]),
    # Limits above one another: the least part counts. Of 20 slices the leaves have 4 and 8, and of
    # 12 of a plan of 12 as many.
    ([Row(None), Row(0, limit=15), Row(1, limit=12), Row(2, weight=100), Row(2, weight=200)],
     [0, 0, 0, 4, 8], [0, 0, 0, 1, 1], [12, 12, 12, 4, 8], [None, 15, 12, 4, 8]),
])
def test_served(module, rows, used, hungry, amounts, most):
    same(module.serve(HOST, using(rows, used), hungry), (amounts, most))


def serves_as_modelled(module, number: int) -> None:
    """What a scheduler is given for a random tree is as the model has it."""
    chance = random.Random(SEED + number)
    host, asked = random_tree(chance)
    most = EVERYTHING if number % 3 else host.processors
    rows = [Row(row.parent, row.weight, row.limit, min(row.demand, most)) for row in asked]
    hungry = [chance.random() < 0.2 * (number % 3) for _ in rows]
    same(module.serve(host, rows, hungry),
         given_by_model(rows, host.processors * (host.period_us // host.slice_us), hungry),
         f"tree {number}")


@pytest.mark.parametrize("first", range(0, SERVED, OF_ONE))
def test_served_tree(module, first):
    for number in range(first, first + OF_ONE):
        serves_as_modelled(module, number)


@pytest.mark.parametrize("flags", [0, 2, 4])
def test_flag_for_each_row(module, flags):
    for call in (module.hold, module.serve):
        same(number_of(call, HOST, using(TWO, [0, 4, 10]), [True] * flags), (50, None))


def test_rounds_reach_the_plan(module):
    """From wide limits the plan of the wants is served from round 3 on, and stays.

    The plan of the wants 4, 30 and 6 with weights 100, 100 and 200 is 4, 10 and 6: two leaves are
    served whole.
    """
    rows = [Row(None), Row(0), Row(0), Row(0, weight=200)]
    wants, used = [0, 4, 30, 6], [0, 4, 16, 0]
    seen = []
    for _ in range(5):
        hungry = [have < want for have, want in zip(used, wants)]
        limits = module.hold(HOST, using(rows, used), hungry).limits
        used = [0] + [min(want, limit) for want, limit in zip(wants[1:], limits[1:])]
        seen.append(used[1:])
    same(seen[2:], [[4, 10, 6]] * 3)
