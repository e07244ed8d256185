"""Periods by the C library: the limit of each, what it leaves, its counters, and many in one call.

They are compared with a model that is written from the kernel's documentation, and with the
counters that `period` shows.
"""
import random
from array import array
from dataclasses import replace
from fractions import Fraction
from math import floor
from typing import List, Optional

import pytest

import arbiter
from arbiter.columns import given
from chances import cases
from plan_model import Instance, Row
from support import same
from test_library import number_of, random_tree

SEED = 20261128
LIMITS, BOOKED, SERIES, SAMPLES = cases(2000, 20), cases(150, 2), 12, cases(60)
MOST = 2**64 - 1
HOST = arbiter.Host(1, 100000, 5000)
TWO = [arbiter.Row(), arbiter.Row(0, limit=15, demand=20), arbiter.Row(0, limit=9, demand=20)]
COUNTERS = arbiter.Counters._fields


@pytest.fixture(scope="module")
def module(library):
    """The library under test, as the Python module calls it."""
    return arbiter.Library(str(library))


def limit_by_model(host, quota: Optional[int], period: int, burst: int, carry: int):
    """Time is handed out in whole slices, and at most the burst is carried in."""
    if quota is None:
        return None
    own, saved = (floor(Fraction(time, period) * host.period_us / host.slice_us)
                  for time in (quota, burst))
    return own + (carry if carry < saved else saved)


@pytest.mark.parametrize("words, limit", [
    ((50000,), 10), ((50000, 200000), 5), ((None, 100000, 25000, 6), None), ((4999, 100000), 0),
    ((50000, 100000, 25000, 3), 13), ((50000, 100000, 25000, 6), 15), ((50000, 100000, 0, 6), 10),
    ((10**15, 1000, 10**15, MOST), 4 * 10**13), ((50000, 100000, 4999, 6), 10),
])
def test_period_limit(module, words, limit):
    same(module.period_limit(HOST, *words), limit)


@pytest.mark.parametrize("number, host, words", [
    (1, replace(HOST, processors=0), (0, 0, MOST)), (3, replace(HOST, slice_us=7), (0, 0, MOST)),
    (13, HOST, (999, 0, MOST)), (14, HOST, (10**15 + 1, 0, MOST)), (15, HOST, (1000, 999, MOST)),
    (15, HOST, (None, 1000001, 0)), (14, HOST, (1000, 1000, 10**15 + 1)),
    (14, HOST, (None, 1000, 10**15 + 1)),
])
def test_refused_period_limit(module, number, host, words):
    same(number_of(module.period_limit, host, *words), (number, None))


def random_limit(chance):
    host = arbiter.Host(chance.choice([1, 64]), *chance.choice([
        (100000, 5000), (1000000, 1000), (1000, 1000), (300000, 100000)]))
    times = [chance.choice([chance.randrange(1000, 300000), 10**chance.randrange(3, 16)])
             for _ in range(2)]
    return host, (chance.choice([None, times[0]]), chance.choice([100000, 1000, 1000000, 7919]),
                  chance.choice([0, times[1], times[1] - 1000]),
                  chance.choice([0, chance.randrange(100), chance.randrange(2**64)]))


def test_random_limits(module):
    chance = random.Random(SEED)
    for _ in range(LIMITS):
        host, words = random_limit(chance)
        same(module.period_limit(host, *words), limit_by_model(host, *words), f"{host} {words}")


def wants_by_model(rows) -> List[int]:
    """What each group could use without its own limit, from the last row to the first."""
    wants = [row.demand for row in rows]
    for number in range(len(rows) - 1, 0, -1):
        row = rows[number]
        wants[row.parent] += wants[number] if row.limit is None else min(wants[number], row.limit)
    return wants


def after_period(host, rows, quotas, used, before):
    """What each group leaves of its limit, and its counters by name."""
    left, found = [], []
    for number, (row, want) in enumerate(zip(rows, wants_by_model(rows))):
        over = burst = 0
        if number and row.limit is not None and want > row.limit:
            over = want - row.limit
        if number and quotas[number] is not None and used[number] > quotas[number]:
            burst = used[number] - quotas[number]
        left.append(0 if row.limit is None or used[number] > row.limit
                    else row.limit - used[number])
        added = {"usage_usec": used[number] * host.slice_us, "nr_periods": 1,
                 "nr_throttled": 1 if over else 0, "throttled_usec": over * host.slice_us,
                 "nr_bursts": 1 if burst else 0, "burst_usec": burst * host.slice_us}
        found.append({name: min(before[number][name] + added[name], MOST) for name in COUNTERS})
    return left, found


def booked(module, host, rows, quotas, used, before):
    """The same by the library."""
    counters = arbiter.Counters(*(array("Q", [row[name] for row in before]) for name in COUNTERS))
    left = module.book(host, rows, quotas, used, counters)
    return left, [dict(zip(COUNTERS, row)) for row in zip(*counters)]


def test_book(module):
    """The first used more than its quota, and wanted more than its limit; the second all of it."""
    none = [dict.fromkeys(COUNTERS, 0)] * 3
    left, found = booked(module, HOST, TWO, [None, 10, 9], [20, 12, 9], none)
    same(left, [0, 3, 0])
    same([list(row.values()) for row in found], [
        [100000, 1, 0, 0, 0, 0], [60000, 1, 1, 25000, 1, 10000], [45000, 1, 1, 55000, 0, 0]])


@pytest.mark.parametrize("words", [
    ([None, 10], [0, 0, 0], 3), ([None, 10, 9], [0, 0], 3), ([None, 10, 9], [0, 0, 0], 2)])
def test_book_of_each_row(module, words):
    quotas, used, count = words
    counters = arbiter.Counters.zeros(count)
    same(number_of(module.book, HOST, TWO, quotas, used, counters), (50, None))
    assert not any(map(any, counters))


def test_refused_book(module):
    rows = [arbiter.Row(), arbiter.Row(0, weight=0)]
    counters = arbiter.Counters.zeros(2)
    same(number_of(module.book, HOST, rows, [None, None], [0, 0], counters), (6, 1))
    host = replace(HOST, period_us=999)
    same(number_of(module.book, host, rows, [None, None], [0, 0], counters), (2, None))
    assert not any(map(any, counters))


def random_period(chance):
    """A random tree, with a quota for each row, what each used, and its counters before."""
    host, rows = random_tree(chance)
    quotas = [chance.choice([None, row.limit, row.limit and row.limit // 2]) for row in rows]
    used = [chance.choice([0, chance.randrange(60), chance.randrange(2**64)]) for _ in rows]
    before = [{name: chance.choice([0, chance.randrange(10**9), MOST - chance.randrange(3)])
               for name in COUNTERS} for _ in rows]
    return host, rows, quotas, used, before


def test_random_periods(module):
    chance = random.Random(SEED)
    for number in range(BOOKED):
        case = random_period(chance)
        same(booked(module, *case), after_period(*case), f"period {number}")


def series_of(module, host, groups, demands):
    """The counters of each group after periods of these demands, and the plan of each period."""
    carries = [0] * (len(groups) + 1)
    quotas = [None] + [module.period_limit(host, quota, period) for _, quota, period, _ in groups]
    counters = arbiter.Counters.zeros(len(carries))
    for asked in demands:
        rows = [arbiter.Row()] + [
            arbiter.Row(0, weight, module.period_limit(host, quota, period, burst, carry), demand)
            for (weight, quota, period, burst), carry, demand in zip(groups, carries[1:], asked)]
        carries = module.book(host, rows, quotas, module.plan(host, rows), counters)
    return [dict(zip(COUNTERS, row)) for row in zip(*counters)]


@pytest.mark.parametrize("number", range(SERIES))
def test_counters_of_period(module, program, number):
    """`period` shows the same counters of the same groups and demands."""
    chance, groups = random.Random(SEED + number), []
    for _ in range(chance.randrange(1, 6)):
        quota = chance.choice([None, chance.randrange(5000, 120000)])
        burst = 0 if quota is None else chance.choice([0, quota, quota // 3])
        groups.append((chance.randrange(1, 10001), quota, chance.choice([100000, 50000]), burst))
    demands = [[chance.choice([0, chance.randrange(40)]) for _ in groups] for _ in range(9)]
    lines = []
    for place, (weight, quota, period, burst) in enumerate(groups):
        most = "max" if quota is None else quota
        lines += [f"mkdir g{place}", f"write g{place} cpu.weight {weight}",
                  f"write g{place} cpu.max {most} {period}",
                  f"write g{place} cpu.max.burst {burst}"]
    for asked in demands:
        lines += [f"demand g{place} {demand}" for place, demand in enumerate(asked)] + ["period"]
    lines += [f"read g{place} cpu.stat" for place in range(len(groups))]
    words = ["--processors", "1", "--period", "100000", "--slice", "5000"]
    told = program.answers(words, "".join(f"{line}\n" for line in lines).encode()).decode()
    shown, each = [], {}
    for line in told.split("\n"):
        word = line.split(" ")
        if len(word) == 2 and word[0] in COUNTERS:
            each[word[0]] = int(word[1])
            if len(each) == len(COUNTERS):
                shown.append(each)
                each = {}
    same(shown, series_of(module, HOST, groups, demands)[1:], f"series {number}")


def settings_of(groups):
    """Groups of a parent, a weight, a quota (None: none), an own period and a burst, by column."""
    parents, weights, quotas, periods, bursts = zip(*groups)
    return arbiter.QuotaColumns(
        array("I", [2**32 - 1 if parent is None else parent for parent in parents]),
        array("Q", weights), array("Q", [MOST if quota is None else quota for quota in quotas]),
        array("Q", periods), array("Q", bursts))


def samples(module, host, groups, demands, times, carries):
    """The sums by name, and what the last period leaves."""
    left = array("Q", carries)
    found = module.periods(host, settings_of(groups), array("Q", sum(demands, [])), times, left)
    return {name: list(column) for name, column in zip(found._fields, found)}, list(left)


def samples_by_model(host, groups, demands, times, carries):
    """The same, a period after the other."""
    sums = {name: [] for name in arbiter.Samples._fields}
    quotas = [limit_by_model(host, quota, period, 0, 0) for _, _, quota, period, _ in groups]
    for asked in demands:
        cells = {name: [0] * len(groups) for name in sums}
        for _ in range(times):
            rows = [arbiter.Row(parent, weight, limit_by_model(host, quota, period, burst, carry),
                                demand)
                    for (parent, weight, quota, period, burst), carry, demand in zip(
                        groups, carries, asked)]
            amounts = Instance([Row(*row) for row in rows], host.capacity).plan()
            carries, counted = after_period(host, rows, quotas, amounts,
                                            [dict.fromkeys(COUNTERS, 0)] * len(rows))
            for number, (row, want, counts) in enumerate(zip(rows, wants_by_model(rows), counted)):
                is_short = counts["nr_throttled"] and amounts[number] < row.limit
                added = {**counts, "amounts": amounts[number], "wants": want,
                         "limits": MOST if row.limit is None else row.limit,
                         "nr_short": int(bool(is_short)),
                         "nr_starved": int(want > 0 and amounts[number] == 0)}
                for name, column in cells.items():
                    column[number] = min(column[number] + added[name], MOST)
        for name, column in cells.items():
            sums[name] += column
    return sums, carries


# A quota of 10 slices and a burst of 5, beside a group twice as heavy.
PAIR = [(None, 100, None, 100000, 0), (0, 100, 50000, 100000, 25000), (0, 200, None, 100000, 0)]


def test_two_samples_by_hand(module):
    """It saves up 6 and then 11 slices, of which 5 count in the third period."""
    sums, left = samples(module, HOST, PAIR, [[0, 4, 20], [0, 20, 0]], 2, [0, 0, 0])
    same(sums, {"amounts": [40, 8, 32, 25, 25, 0], "wants": [48, 8, 40, 25, 40, 0],
                "limits": [MOST, 25, MOST, MOST, 25, MOST], "nr_throttled": [0, 0, 0, 0, 2, 0],
                "throttled_usec": [0, 0, 0, 0, 75000, 0], "nr_bursts": [0, 0, 0, 0, 1, 0],
                "burst_usec": [0, 0, 0, 0, 25000, 0], "nr_short": [0] * 6, "nr_starved": [0] * 6})
    same(left, [0, 0, 0])


def random_samples(chance):
    """Groups of a host of 1 to 96 CPUs, demands, the periods of a sample, and carries."""
    host = arbiter.Host(chance.choice([1, 2, 70, 96]), *chance.choice([
        (100000, 5000), (100000, 10000), (6000, 2000)]))
    groups = [PAIR[0]]
    for number in range(1, chance.randrange(1, 8)):
        quota = chance.choice([None, chance.randrange(1000, 120000)])
        burst = chance.choice([0, 0 if quota is None else quota, chance.randrange(60000)])
        groups.append((chance.randrange(number), chance.choice([1, 100, 10000]), quota,
                       chance.choice([100000, 50000, 7919]), burst))
    inner = {group[0] for group in groups}
    demands = [[0 if number in inner else chance.choice([0, chance.randrange(host.capacity + 9)])
                for number in range(len(groups))] for _ in range(chance.randrange(1, 4))]
    carries = [chance.choice([0, chance.randrange(30), MOST]) for _ in groups]
    return host, groups, demands, chance.choice([0, 1, 2, 3, chance.randrange(40)]), carries


@pytest.mark.parametrize("number", range(SAMPLES))
def test_random_samples(module, number):
    case = random_samples(random.Random(SEED + number))
    same(samples(module, *case), samples_by_model(*case), f"case {number}")


def test_a_day_in_parts(module):
    """What a call leaves is what the next one begins with."""
    demands = [[0, each, 20] for each in (4, 20, 20, 0, 11)]
    whole, left = samples(module, HOST, PAIR, demands, 7, [0, 0, 0])
    first, between = samples(module, HOST, PAIR, demands[:2], 7, [0, 0, 0])
    second, end = samples(module, HOST, PAIR, demands[2:], 7, between)
    same({name: column + second[name] for name, column in first.items()}, whole)
    same(end, left)


def test_more_periods_than_can_be_planned(module):
    """Periods that come again are not planned again. A sum stops at its greatest value."""
    sums, left = samples(module, HOST, PAIR, [[0, 4, 20]], 2**63, [0, 0, 0])
    same(sums["amounts"], [MOST, MOST, MOST])
    same(left, [0, 11, 0])
    sums, _ = samples(module, HOST, PAIR, [[0, 4, 20]], 10**12, [0, 11, 0])
    same((sums["amounts"], sums["limits"][1]), ([20 * 10**12, 4 * 10**12, 16 * 10**12],
                                                15 * 10**12))


def changed(place, **fields):
    """The pair, of which one group has other settings."""
    names = ("parent", "weight", "quota", "period", "burst")
    return [tuple(fields.get(name, value) for name, value in zip(names, group))
            if number == place else group for number, group in enumerate(PAIR)]


TWO_SAMPLES = [[0, 4, 20], [0, 20, 0]]


@pytest.mark.parametrize("number, host, groups, demands, carries", [
    (50, HOST, PAIR, TWO_SAMPLES, [0, 0]), (50, HOST, PAIR, [[0, 4, 20], [0]], [0, 0, 0]),
    (50, HOST, PAIR, [], [0, 0, 0]), (50, replace(HOST, processors=0), PAIR, [[0]], [0, 0, 0]),
    (1, replace(HOST, processors=0), changed(1, quota=999), TWO_SAMPLES, [0, 0, 0]),
    (1, arbiter.Host(1009, 5000, 5000), PAIR, TWO_SAMPLES, [0, 0, 0]),
    (3, replace(HOST, slice_us=7), PAIR, TWO_SAMPLES, [0, 0, 0]),
    (13, HOST, changed(1, quota=999, weight=0), TWO_SAMPLES, [0, 0, 0]),
    (14, HOST, changed(2, quota=10**15 + 1), TWO_SAMPLES, [0, 0, 0]),
    (15, HOST, changed(2, period=999), TWO_SAMPLES, [0, 0, 0]),
    (14, HOST, changed(2, burst=10**15 + 1), TWO_SAMPLES, [0, 0, 0]),
    (5, HOST, changed(1, parent=1), TWO_SAMPLES, [0, 0, 0]),
    (6, HOST, changed(1, weight=0), [[0, 1000001, 0]], [0, 0, 0]),
    (8, HOST, PAIR, [[0, 4, 20], [1, 4, 20]], [0, 0, 0]),
    (9, HOST, PAIR, [[0, 4, 20], [0, 1000001, 20], [1, 4, 20]], [0, 0, 0]),
    (10, HOST, changed(0, quota=50000), TWO_SAMPLES, [0, 0, 0]),
])
def test_refused_samples(module, number, host, groups, demands, carries):
    """The first refusal, with nothing written."""
    asked, left = array("Q", sum(demands, [])), array("Q", carries)
    told = [array("Q", [7] * len(asked)) for _ in arbiter.Samples._fields]
    same(module.calls.arbiter_periods(*module.host(host), *given(*settings_of(groups), asked), 3,
                                      *given(left, *told)), number)
    same((list(left), [list(each) for each in told]), (carries, [[7] * len(asked)] * len(told)))


@pytest.mark.parametrize("place", range(len(arbiter.Samples._fields)))
def test_room_for_each_sum(module, place):
    """A column of sums of another length is refused."""
    asked, left = array("Q", [0, 4, 20]), array("Q", [0, 0, 0])
    told = [array("Q", [7] * (3 - (each == place))) for each in range(len(arbiter.Samples._fields))]
    same(module.calls.arbiter_periods(*module.host(HOST), *given(*settings_of(PAIR), asked), 3,
                                      *given(left, *told)), 50)
    same({number for each in told for number in each}, {7})
