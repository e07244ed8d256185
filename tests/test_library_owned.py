"""Numbers that owners set, and rules of a loop that holds a plan: the calls beside a model, and
what they refuse."""
import ctypes
import itertools
import random

import pytest

import arbiter
from arbiter import LimitFormula, PartKind, WeightFormula, c
from chances import cases
from owned_model import (WEIGHTS, allowed, asks, greatest_part, has_turned, judged, let_go, limit_by,
                         lost, number_for, pod_amount, rest, unserved, went_back)
from support import same
from test_library import number_of

NO_LIMIT = 2**64 - 1
# Numbers that each formula has at its ends: the first that can be set, and one of weight 10000.
ENDS = {WeightFormula.SHARES_LINEAR: (2, 262144), WeightFormula.SHARES_LOGARITHMIC: (2, 262144),
        WeightFormula.REQUEST_LINEAR: (0, 256000), WeightFormula.REQUEST_LOGARITHMIC: (0, 256000),
        WeightFormula.UNIT_SHARES: (2, 262144), WeightFormula.UNIT_WEIGHT: (1, 10000)}


@pytest.fixture(scope="module", name="calls")
def calls_of(library):
    """The library under test, as the Python module calls it."""
    return arbiter.Library(str(library))


@pytest.mark.parametrize("formula, number, weight", [
    (1, 0, 1), (1, 2, 1), (1, 1024, 39), (1, 262144, 10000), (1, 2**64 - 1, 10000), (2, 0, 1),
    (2, 3, 2), (2, 1024, 100), (2, 2**64 - 1, 10000), (3, 0, 1), (3, 1, 1), (3, 250, 10),
    (3, 1000, 39), (3, 256000, 10000), (3, 2**64 - 1, 10000), (4, 0, 1), (4, 1000, 100),
    (4, 256000, 10000), (4, 2**64 - 1, 10000), (5, 0, 1), (5, 2, 1), (5, 1024, 100), (5, 2048, 200),
    (5, 102400, 10000), (5, 2**64 - 1, 10000), (6, 0, 1), (6, 1, 1), (6, 100, 100),
    (6, 10000, 10000), (6, 2**64 - 1, 10000)])
def test_weights(calls, formula, number, weight):
    """Weights at the ends of each formula and at whole CPUs, worked by hand."""
    same(calls.owned_weight(WeightFormula(formula), number), weight)


@pytest.mark.parametrize("formula", WeightFormula)
def test_many_weights(calls, formula):
    """Weights of random numbers are those of the model."""
    drawn = random.Random(20261130 + formula)
    for _ in range(cases(9000, 20)):
        number = drawn.randrange(drawn.choice((20, 3000, 300000, 10**12)))
        same(calls.owned_weight(formula, number), WEIGHTS[formula](number), f"{number}")


@pytest.mark.parametrize("formula", WeightFormula)
def test_least_numbers(calls, formula):
    """The least number of each weight: it has the weight at least, and the one before has less."""
    first, last = ENDS[formula]
    weights = {1, 2, 3, 39, 100, 101, 5000, 9999, 10000, *random.Random(formula).sample(
        range(1, 10001), cases(600, 5))}
    for weight in weights:
        least = calls.least_owned(formula, weight)
        assert first <= least <= last, (formula, weight, least)
        assert WEIGHTS[formula](least) >= weight, (formula, weight, least)
        assert least == first or WEIGHTS[formula](least - 1) < weight, (formula, weight, least)


@pytest.mark.parametrize("formula, number, period, limit", [
    (1, 0, 0, (None, 100000)), (1, 1, 0, (1000, 100000)), (1, 1500, 0, (150000, 100000)),
    (1, 250, 50000, (12500, 50000)), (1, 2**64 - 1, 10**6, (10**15, 10**6)),
    (2, 0, 7, (None, 100000)), (2, 9999, 0, (None, 100000)), (2, 10000, 0, (1000, 100000)),
    (2, 1500000000, 5, (150000, 100000)), (3, 0, 999, (None, 1000)), (3, 1, 2000000, (1000, 10**6)),
    (3, 50000, 25000, (50000, 25000)), (3, 2**64 - 1, 0, (10**15, 100000)),
    (4, 0, 0, (1000, 10**6)), (4, 1, 0, (1000, 10**6)), (4, 1000, 0, (1000, 10**6)),
    (4, 5000, 0, (1000, 200000)), (4, 7000, 100000, (999 + 1, 142857)),
    (4, 200000, 0, (20000, 100000)), (4, 200000, 10000, (2000, 10000)),
    (4, 2**64 - 1, 10**6, (10**15, 10**6))])
def test_limits(calls, formula, number, period, limit):
    """Limits at the ends of each formula, worked by hand."""
    same(calls.owned_limit(LimitFormula(formula), number, period), limit)


@pytest.mark.parametrize("formula", LimitFormula)
def test_many_limits(calls, formula):
    drawn = random.Random(20261130 + formula)
    for _ in range(cases(13000, 20)):
        number = drawn.randrange(drawn.choice((3, 12000, 10**7, 10**12, 2**64)))
        period = drawn.choice((0, 100000, drawn.randrange(2 * 10**6), 2**64 - 1))
        same(calls.owned_limit(formula, number, period), limit_by(formula, number, period),
             f"{number} {period}")


@pytest.mark.parametrize("kinds, amounts, amount", [
    ((), (), 0), ((0,), (7,), 7), ((1, 0), (500, 200), 500), ((2, 1, 0), (100, 500, 200), 600),
    ((1, 2, 0), (500, 100, 200), 500), ((2, 2, 0, 0), (1, 2, 3, 4), 10),
    ((9, 255), (3, 4), 7), ((0, 0), (2**64 - 1, 1), 2**64 - 1)])
def test_pods(calls, kinds, amounts, amount):
    """Pods whose amounts were worked by hand; a sum stops at its greatest value."""
    same(calls.pod_amount(kinds, amounts), amount)


def test_many_pods(calls):
    """Amounts of random pods, and the greatest amount of one part, are those of the model."""
    drawn = random.Random(20261130)
    for _ in range(cases(50000, 20)):
        many = drawn.randrange(7)
        kinds = [drawn.choice([*PartKind]) for _ in range(many)]
        amounts = [drawn.randrange(drawn.choice((3, 2000, 10**12))) for _ in range(many)]
        same(calls.pod_amount(kinds, amounts), pod_amount(kinds, amounts), f"{kinds} {amounts}")
        if many:
            words = kinds, amounts, drawn.randrange(many), drawn.randrange(sum(amounts) + 3)
            same(calls.greatest_part(*words), greatest_part(*words), f"{words}")


@pytest.mark.parametrize("kinds, amounts, part, room, greatest", [
    ((0,), (7,), 0, 0, 0), ((0,), (7,), 0, 9, 9), ((1, 0), (500, 200), 1, 500, 500),
    ((1, 0), (500, 200), 1, 499, None), ((2, 1, 0), (100, 500, 200), 0, 600, 100),
    ((2, 1, 0), (100, 500, 200), 1, 600, 500), ((2, 1, 0), (100, 500, 200), 2, 600, 500),
    ((2, 1, 2), (100, 500, 200), 2, 600, 500), ((0, 0), (2**64 - 1, 1), 1, 2**64 - 1, 0)])
def test_greatest_parts(calls, kinds, amounts, part, room, greatest):
    """Parts of pods for some room, worked by hand."""
    same(calls.greatest_part(kinds, amounts, part, room), greatest)


@pytest.mark.parametrize("formula, asked, number", [
    (1, 0, 2), (2, 1000, 1024), (5, 10**6, 262144), (3, 5, 5), (4, 2**64 - 1, 2**64 - 1),
    (6, 0, 1), (6, 10, 1), (6, 11, 2), (6, 1000, 100), (6, 99991, 10000), (6, 2**64 - 1, 10000)])
def test_numbers(calls, formula, asked, number):
    """Numbers that are written for requests, worked by hand."""
    same(calls.owned_number(WeightFormula(formula), asked), number)


@pytest.mark.parametrize("formula", WeightFormula)
def test_many_numbers(calls, formula):
    drawn = random.Random(20261130 + formula)
    for _ in range(cases(9000, 20)):
        request = drawn.randrange(drawn.choice((20, 3000, 300000, 10**12, 2**64)))
        same(calls.owned_number(formula, request), number_for(formula, request), f"{request}")


@pytest.mark.parametrize("quota, period, burst, passed, time", [
    (50000, 100000, 0, 10**9, 5 * 10**8), (50000, 100000, 7, 3001, 8500), (0, 1, 0, 9, 0),
    (1000, 10**6, 0, 999, 0), (1000, 10**6, 0, 1000, 1), (10**15, 1000, 0, 10**9, 2**64 - 1),
    (2**64 - 1, 1, 2**64 - 1, 2**64 - 1, 2**64 - 1)])
def test_times(calls, quota, period, burst, passed, time):
    """Nanoseconds that limits allow, worked by hand."""
    same(calls.allowed(quota, period, burst, passed), time)


def test_many_times(calls):
    drawn = random.Random(20261130)
    for _ in range(cases(50000, 20)):
        words = [drawn.randrange(drawn.choice((3, 12000, 10**7, 10**12, 2**64))) for _ in range(4)]
        words[1] += 1
        same(calls.allowed(*words), allowed(*words), f"{words}")


@pytest.mark.parametrize("free, held, slices", [
    ((90, 100), (85, 100), 0), ((90, 100), (84, 100), 1), ((90, 100), (0, 1000), 850),
    ((900, 100), (94, 100), 1), ((0, 0), (94, 100), 1), ((90, 100), (0, 0), 0),
    ((5, 100), (0, 10**6), 0), ((6, 100), (0, 101), 2), ((2**60, 2**60), (0, 2**60), 2**60 * 19 // 20
                                                        + 1)])
def test_losses(calls, free, held, slices):
    """Slices that limits served too little, worked by hand."""
    same(calls.lost(free, held), slices)


def test_many_losses(calls):
    drawn = random.Random(20261130)
    for _ in range(cases(50000, 20)):
        words = [tuple(drawn.randrange(drawn.choice((3, 100, 10**4, 2**60))) for _ in range(2))
                 for _ in range(2)]
        same(calls.lost(*words), lost(*words), f"{words}")


def test_refused_times_and_sums(calls):
    """A period of 0 and a sum above 2^60 are refused."""
    same(number_of(calls.allowed, 1, 0, 0, 1), (15, None))
    for place in range(4):
        words = [1, 1, 1, 1]
        words[place] = 2**60 + 1
        same(number_of(calls.lost, words[:2], words[2:]), (9, None))


@pytest.mark.parametrize("planned, used, asked, is_hungry, told", [
    (0, 0, 0, False, (0, False, 0)), (8, 5, 9, True, (9, False, 3)),
    (8, 5, 5, False, (5, False, 0)), (4, 5, 9, True, (9, False, 0)),
    (8, 5, 10**6, True, (5, True, 3)),
    (8, 5, 10**6 - 1, True, (10**6 - 1, False, 3)), (5, 5, 0, False, (0, False, 0)),
    (2**64 - 1, 0, 2**64 - 1, True, (0, True, 2**64 - 1))])
def test_rounds(calls, planned, used, asked, is_hungry, told):
    """What a round asks for a leaf, and what it lacked, worked by hand."""
    same([each[0] for each in calls.round([planned], [used], [asked], [is_hungry])], [*told])


def test_many_rounds(calls):
    """Beside the model. What `hold` asks for each leaf by the two columns is what was read."""
    drawn = random.Random(20261130)
    for _ in range(cases(300)):
        leaves = [[drawn.randrange(drawn.choice((3, 100, 2 * 10**6, 2**64))) for _ in range(3)]
                  for _ in range(drawn.randrange(120))]
        columns = [[each[at] for each in leaves] for at in range(3)]
        hungry = [drawn.random() < 0.5 for _ in leaves]
        found = calls.round(*columns, hungry)
        same([*zip(*found)], [(*asks(used, asked), unserved(planned, used, flag))
                              for (planned, used, asked), flag in zip(leaves, hungry)], f"{leaves}")
    host, asked = arbiter.Host(1, 10**6, 1000), [0, 700, 10**6, 1001, 10**6 - 1]
    demands, everything, _ = calls.round([0] * 5, [0, 500, 999, 1000, 7], asked, [True] * 5)
    rows = [arbiter.Row(), *(arbiter.Row(parent=0, demand=each) for each in demands[1:])]
    same(calls.hold(host, rows, everything).demands, asked)


@pytest.mark.parametrize("now, last, before, counts", [
    (200, 50, 200, (4, 8)), (200, 200, 200, (0, 0)), (0, 0, 0, (0, 0)), (0, 1, 0, (4, 8)),
    (100, 90, 100, (0, 8)), (100, 75, 100, (4, 8)), (100, 76, 100, (0, 8)), (100, 50, 95, (4, 8)),
    (100, 50, 94, (0, 8)), (95, 50, 100, (4, 8)), (94, 50, 100, (0, 8)), (3, 2, 1, (0, 0)),
    (1, 1, 2, (0, 0)), (200, 50, 90, (0, 8)), (2**64 - 1, 0, 2**64 - 1, (4, 8))])
def test_swings(calls, now, last, before, counts):
    """Whether a number goes back, and whether it turns, worked by hand."""
    same(calls.swings([now], [last], [before], [3], [7]), ([counts[0]], [counts[1]]))


def test_many_swings(calls):
    """Beside the model, near the bounds too. A count stops at its greatest value."""
    drawn, seen = random.Random(20261130), {"back": 0, "turned": 0}
    for _ in range(cases(300)):
        last = [drawn.randrange(drawn.choice((3, 100, 10**6, 2**64))) for _ in range(100)]
        now = [drawn.choice((each, 3 * each // 4, each // 2, drawn.randrange(2**64)))
               for each in last]
        before = [drawn.choice((each, 19 * each // 20, 19 * each // 20 + 1,
                                drawn.randrange(2**64))) for each in now]
        counts = [[drawn.choice((0, 1, 59, 2**64 - 2, 2**64 - 1)) for _ in last] for _ in range(2)]
        found = calls.swings(now, last, before, *counts)
        for did, told, rounds, name in zip((went_back, has_turned), found, counts, seen):
            for words in zip(now, last, before, rounds, told):
                does = did(*words[:3])
                same(words[4], min(words[3] + 1, 2**64 - 1) if does else 0, f"{name}: {words}")
                seen[name] += does
    assert min(seen.values()) >= 10 * cases(300), seen


@pytest.mark.parametrize("free, held, told", [
    ((70, 90, 100), (60, 84, 100, 40, 44), (60, 240)),
    ((70, 90, 100), (59, 84, 100, 40, 44), (0, 0)), ((70, 90, 100), (60, 85, 100, 44, 40), (0, 0)),
    ((0, 0, 0), (60, 94, 100, 0, 0), (60, 0)), ((1, 90, 100), (200, 84, 100, 0, 1), (60, 60))])
def test_judged_rounds(calls, free, held, told):
    """What limits did in rounds that are alike, worked by hand."""
    same(calls.judged([[each] * free[0] for each in free[1:]],
                      [[each] * held[0] for each in held[1:]]), told)


def test_many_judged_rounds(calls):
    """Beside the model, of fewer rounds than are judged up to more."""
    drawn, seen = random.Random(20261130), {"few": 0, "lost": 0, "guessed": 0}
    for _ in range(cases(2000, 20)):
        most = drawn.choice((3, 100, 10**9, 2**54))
        counts = drawn.choice((0, 3, 60, 61)), drawn.choice((59, 60, 61, 62))
        free, held = ([[drawn.randrange(most) for _ in range(count)] for _ in range(columns)]
                      for count, columns in zip(counts, (2, 4)))
        found = calls.judged(free, held)
        same(found, judged(free, held), f"{free}, {held}")
        for name, is_so in zip(seen, (counts[1] < 60, found[0] > 0, found[1] > 0)):
            seen[name] += is_so
    assert min(seen.values()) >= cases(2000, 20) * 0.15, seen


@pytest.mark.parametrize("backs, turns, moved, left, guessed, judged_by, told", [
    # of those that ask so the one whose use changed most, else of those that swing; of equals the
    # first
    ((60, 99, 0), (0, 0, 59), (3, 5, 9), (1, 1, 1), (1, 1, 1), (9, 9), ([0, 1, 0], 1)),
    ((60, 99, 0), (60, 0, 60), (3, 5, 9), (1, 1, 1), (1, 1, 1), (9, 9), ([0, 0, 1], 1)),
    ((0, 60, 60), (0, 0, 0), (5, 0, 0), (9, 9, 9), (9, 9, 9), (0, 0), ([0, 1, 0], 1)),
    # those that left most, as few as left what was lost, or all
    ((59, 0, 0), (60, 60, 60), (9, 9, 9), (4, 6, 6), (9, 9, 9), (6, 9), ([0, 1, 0], 2)),
    ((0, 0, 0), (0, 0, 0), (9, 9, 9), (4, 6, 6), (9, 9, 9), (7, 9), ([0, 1, 1], 2)),
    ((0, 0, 0), (0, 0, 0), (9, 9, 9), (4, 6, 0), (9, 9, 9), (99, 9), ([1, 1, 0], 2)),
    # those that used most on a guess
    ((0, 0, 0), (0, 0, 0), (9, 9, 9), (9, 9, 9), (1, 0, 5), (0, 5), ([0, 0, 1], 3)),
    ((0, 0, 0), (0, 0, 0), (9, 9, 9), (9, 9, 9), (0, 0, 0), (0, 5), ([0, 0, 0], 3)),
    ((59, 0, 0), (60, 60, 60), (9, 9, 9), (9, 9, 9), (9, 9, 9), (0, 0), ([0, 0, 0], 0))])
def test_who_is_let_go(calls, backs, turns, moved, left, guessed, judged_by, told):
    """Who goes, and why, worked by hand."""
    same(calls.let_go(backs, turns, moved, left, guessed, judged_by), (told[0], told[1]))


def test_many_are_let_go(calls):
    """Beside the model, with equal numbers and great ones."""
    drawn, seen = random.Random(20261201), [0] * 4
    for _ in range(cases(3000, 20)):
        most = drawn.choice((2, 5, 1000, 2**64))
        groups = [[drawn.choice((0, 59, 60, 99)) * (drawn.random() < 0.1), drawn.choice((0, 59, 60)),
                   *(drawn.randrange(most) for _ in range(3))] for _ in range(drawn.randrange(9))]
        judged_by = [drawn.choice((0, 0, 1, drawn.randrange(3 * most) % 2**64)) for _ in range(2)]
        gone, reason = let_go(groups, *judged_by)
        columns = [[row[at] for row in groups] for at in range(5)]
        same(calls.let_go(*columns, judged_by), ([at in gone for at in range(len(groups))], reason),
             f"{groups}, {judged_by}")
        seen[reason] += 1
    assert min(seen) >= cases(3000, 20) // 15, seen


@pytest.mark.parametrize("slices, planned, own, others, told", [
    (200, 150, (), (), (50, 0)), (200, 250, (), (), (0, 0)), (200, 250, (100,), (0,), (200, 200)),
    # beside 100 of 10000 it has 2 of 202; an idle group counts as 1
    (200, 0, (10000,), (0,), (200, 2)), (200, 200, (10000,), (0,), (2, 2)),
    (200, 200, (0,), (0,), (20000, 20000)), (25, 25, (3,), (0,), (834, 834)),
    # 200 of 300 are 300, and these of 600 with the root's tasks
    (200, 150, (100, 300), (50, 200), (400, 400)),
    (10**9, 0, (), (), (10**9, 0)), (10**9, 10**9, (1,), (2**64 - 1,), (0, 0)),
    (1, 1, (1,), (2**64 - 1,), (10**9 - 1, 10**9 - 1))])
def test_rests(calls, slices, planned, own, others, told):
    """What the rest has beside a plan, worked by hand."""
    same(calls.rest(slices, planned, own, others), told)


def test_many_rests(calls):
    """Beside the model."""
    drawn, cut = random.Random(20261201), 0
    for _ in range(cases(3000, 20)):
        slices = drawn.choice((0, 1, drawn.randrange(300), drawn.randrange(10**9 + 1)))
        planned = drawn.randrange(drawn.choice((2 * slices + 1, 2**64)))
        levels = [(drawn.choice((0, 1, 100, drawn.randrange(10001))),
                   drawn.choice((0, 100, drawn.randrange(10**5), drawn.randrange(2**64))))
                  for _ in range(drawn.randrange(5))]
        own, others = ([each[at] for each in levels] for at in range(2))
        found = calls.rest(slices, planned, own, others)
        same(found, rest(slices, planned, own, others), f"{slices}, {planned}, {levels}")
        cut += slices + found[1] == 10**9
    assert cases(3000, 20) * 0.1 <= cut <= cases(3000, 20) * 0.84, cut


def test_refused_rounds(calls):
    """Columns that differ in length, and a sum above 2^60 of the last rounds alone."""
    for at in range(4):
        words = [[1, 2], [3, 4], [5, 6], [True, False]]
        words[at] = words[at][:1]
        same(number_of(calls.round, *words), (50, None))
    for at in range(5):
        words = [[1, 2] for _ in range(5)]
        words[at] = words[at][:1]
        same(number_of(calls.swings, *words), (50, None))
    for at in range(6):
        columns = [[1] * 60 for _ in range(6)]
        columns[at] = [2**60, *[0] * 59]
        same(number_of(calls.judged, columns[:2], columns[2:]), (0, None))
        columns[at][59] = 1
        same(number_of(calls.judged, columns[:2], columns[2:]), (9, None))
        columns[at] = [1] * 59
        same(number_of(calls.judged, columns[:2], columns[2:]), (50, None))
    same(calls.judged([[2**60, *[1] * 60]] * 2, [[2**64 - 1, *[1] * 60]] * 4), (0, 0))
    for at in range(1, 5):
        words = [[60, 60] for _ in range(5)]
        words[at] = words[at][:1]
        same(number_of(calls.let_go, *words, (1, 1)), (50, None))
    same(number_of(calls.rest, 1, 1, [1, 2], [1]), (50, None))
    same(number_of(calls.rest, 10**9 + 1, 1, [1, 2], [1]), (50, None))
    same(number_of(calls.rest, 10**9 + 1, 1, [1], [1]), (9, None))


def test_refused_rounds_write_nothing(calls):
    written = [(c.U64 * 3)(7, 7, 7), (c.U8 * 3)(7, 7, 7), (c.U64 * 3)(7, 7, 7)]
    read = [each for column in ((c.U64 * 3)(), (c.U64 * 3)(), (c.U64 * 3)(), (c.U8 * 3)())
            for each in (column, 3)]
    for lengths in ((2, 3, 3), (3, 2, 3), (3, 3, 2)):
        words = [each for column, length in zip(written, lengths) for each in (column, length)]
        same(calls.calls.arbiter_round(*read, *words), 50)
    for lengths in ((2, 3), (3, 2)):
        words = [written[0], lengths[0], written[2], lengths[1]]
        same(calls.calls.arbiter_swings(*read[:6], *words), 50)
    same([*map(list, written)], [[7] * 3] * 3)
    numbers = c.U64(7), c.U64(8)
    same(calls.calls.arbiter_judged(*read[:6], read[0], 2, *read[:4],
                                    *map(ctypes.byref, numbers)), 50)
    same([each.value for each in numbers], [7, 8])
    for slices, length, number in ((1, 2, 50), (10**9 + 1, 3, 9)):
        same(calls.calls.arbiter_rest(slices, 1, *read[:2], read[0], length,
                                      *map(ctypes.byref, numbers)), number)
    same([each.value for each in numbers], [7, 8])
    reason = c.U32(7)
    same(calls.calls.arbiter_let_go(*read[:6], *read[:4], 1, 1, written[1], 2,
                                    ctypes.byref(reason)), 50)
    same([reason.value, *written[1]], [7] * 4)


@pytest.mark.parametrize("formula", [0, 7, 2**32 - 1])
def test_no_formula(calls, formula):
    """A number that no formula has is refused, and nothing is written."""
    for call, words in ((calls.owned_weight, (5,)), (calls.least_owned, (0,)),
                        (calls.owned_number, (5,))):
        same(number_of(call, formula, *words), (11, None))
    written = c.U64(7), c.U64(8)
    for name, words in (("owned_weight", (c.U32(formula), c.U64(5))),
                        ("least_owned", (c.U32(formula), c.U64(0)))):
        same(getattr(calls.calls, f"arbiter_{name}")(*words, ctypes.byref(written[0])), 11)
    same(number_of(calls.owned_limit, 5 if formula == 7 else formula, 1), (11, None))
    same(calls.calls.arbiter_owned_limit(c.U32(formula or 9), c.U64(1), c.U64(0),
                                         *map(ctypes.byref, written)), 11)
    same([each.value for each in written], [7, 8])


@pytest.mark.parametrize("formula, weight", itertools.product(WeightFormula, (0, 10001, NO_LIMIT)))
def test_no_weight(calls, formula, weight):
    """A weight out of range is refused, and nothing is written."""
    same(number_of(calls.least_owned, formula, weight), (12, None))
    written = c.U64(7)
    same(calls.calls.arbiter_least_owned(c.U32(formula), c.U64(weight), ctypes.byref(written)), 12)
    same(written.value, 7)


def test_uneven_pods(calls):
    same(number_of(calls.pod_amount, (1, 2), (1,)), (50, None))
    same(number_of(calls.pod_amount, (), (1,)), (50, None))
    same(number_of(calls.greatest_part, (1, 2), (1,), 0, 5), (50, None))
    same(number_of(calls.greatest_part, (1, 2), (3, 4), 2, 5), (50, None))
