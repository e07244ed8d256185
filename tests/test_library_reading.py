"""What the C library reads of a group in a round, and what is written for its limit.

Both are compared with values worked by hand, and on random groups with a model in fractions.
"""
import ctypes
import math
import random
from fractions import Fraction
from typing import List, Optional, Sequence, Tuple

import pytest

import arbiter
from arbiter import c
from chances import cases
from support import same
from test_library import HOST_OF_ONE, number_of

SEED = 20261128
# 50,000 were tried of each: the same answers.
CASES = cases(3000, 20)
MILLISECOND, SECOND = 10**6, 10**9
EVERYTHING, MOST_QUOTA = 1000000, 10**15
# A processor has 100 slices of a period, so a slice is a hundredth of the time.
HOST = arbiter.Host(4, 100000, 1000)
Task = Tuple[int, int]


@pytest.fixture(scope="module")
def module(library):
    """The library under test, as the Python module calls it."""
    return arbiter.Library(str(library))


@pytest.mark.parametrize("tasks, used, waited, hungry", [
    # a task with half a CPU that never slept, and one that slept for a tenth of the time
    ([(500, 500)], 500, 500, True), ([(500, 400)], 500, 400, False),
    # nearly a whole CPU: it waited for a hundredth and never slept, or for less, or slept longer
    ([(990, 10)], 990, 10, True), ([(990, 9)], 990, 10, False),
    ([(960, 20)], 960, 20, True), ([(959, 20)], 959, 20, False),
    # it slept for a twentieth, and for more
    ([(450, 500)], 450, 500, True), ([(449, 500)], 449, 500, False),
    # one of two is starved
    ([(300, 100), (600, 390)], 900, 490, True),
    # pressure of less than a hundredth: served, whatever the tasks did
    ([(905, 95)], 905, 9, False),
    # those that were there twice used less than half: a guess
    ([(100, 0)], 900, 499, False), ([(100, 0)], 900, 500, True),
    # no task at all, and nothing used
    ([], 100, 500, True), ([], 0, 500, True), ([], 0, 0, False),
])
def test_hunger_by_hand(module, tasks, used, waited, hungry):
    """Milliseconds of a second: tasks ran and waited, the group used, some task waited."""
    times = arbiter.RoundTimes(SECOND, used * 1000, waited * 1000, len(tasks))
    found = module.reading(HOST, times, in_nanoseconds(tasks))
    same((found.is_hungry, found.used), (hungry, -(-used // 10)))
    same(found.is_guess, waited >= 10 and (not used or 2 * sum(ran for ran, _ in tasks) < used))
    if not hungry:
        same(found.asked, found.used)


@pytest.mark.parametrize("allowed, is_stopped", [(500, True), (501, False), (0, True),
                                                 (None, False)])
def test_all_that_a_limit_allowed(module, allowed, is_stopped):
    """Half a second was used, and no task waited: a group that was allowed no more is hungry, and
    asks for what its two tasks could use."""
    times = arbiter.RoundTimes(SECOND, 500000, 0, 2, False,
                               None if allowed is None else 1000 * allowed)
    found = module.reading(HOST, times, in_nanoseconds([(400, 0), (100, 0)]))
    same(found, arbiter.Reading(50, 200 if is_stopped else 50, is_stopped, False))


def in_nanoseconds(tasks: Sequence[Task]) -> List[Task]:
    """Tasks that ran and waited for so many milliseconds."""
    return [(ran * MILLISECOND, waited * MILLISECOND) for ran, waited in tasks]


@pytest.mark.parametrize("tasks, count, used, throttled, asked", [
    # a task that never slept could use a CPU, and another what it used
    ([(500, 500)], 1, 500, 0, 100), ([(500, 500), (200, 100)], 2, 700, 0, 120),
    # each of a group that was throttled could use a CPU
    ([(500, 500), (200, 100)], 2, 700, 1, 200),
    # so could one that came in the round
    ([(500, 500)], 2, 520, 0, 200),
    # 19 of 20 parts of what was used, and less
    ([(950, 50)], 1, 1000, 0, 100), ([(949, 51)], 1, 1000, 0, EVERYTHING),
    # nothing was used, or no task is known
    ([(0, 1000)], 1, 0, 0, EVERYTHING), ([], 1, 100, 1, EVERYTHING),
    # the whole host, and a millisecond less
    ([(500, 500)] * 4, 4, 2000, 0, EVERYTHING),
    ([(500, 500)] * 3 + [(999, 1)], 4, 2499, 0, 400),
    # more than its tasks ran: what was used
    ([(950, 50)], 1, 1001, 1, EVERYTHING), ([(1000, 0)], 1, 1010, 1, 101),
])
def test_asked_by_hand(module, tasks, count, used, throttled, asked):
    """Milliseconds of a second: tasks ran and waited, and the group used."""
    times = arbiter.RoundTimes(SECOND, used * 1000, SECOND // 1000, count, bool(throttled))
    found = module.reading(HOST, times, in_nanoseconds(tasks))
    same(found, arbiter.Reading(-(-used // 10), asked, True, not used))


@pytest.mark.parametrize("number, host, passed, count, tasks", [
    (50, arbiter.Host(0, 0, 0), 0, 1, [(1, 1)] * 2), (1, arbiter.Host(0, 0, 0), 0, 2, [(1, 1)] * 2),
    (2, arbiter.Host(64, 999, 0), 0, 0, []), (3, arbiter.Host(64, 1000, 1001), 0, 0, []),
    (15, HOST, 0, 2**32 - 1, []),
])
def test_refused_reading(module, number, host, passed, count, tasks):
    """The first refusal is answered."""
    same(number_of(module.reading, host, arbiter.RoundTimes(passed, 1, 1, count), tasks),
         (number, None))


@pytest.mark.parametrize("lengths, passed, number", [
    ((2, 1), 1, 50), ((1, 2), 1, 50), ((2, 2), 1, 50), ((1, 1), 0, 15), ((1, 1), 1, 0)])
def test_reading_is_whole(module, lengths, passed, number):
    """Columns of two lengths and of too many tasks; a refusal writes nothing."""
    columns = [(c.U64 * length)(*[5] * length) for length in lengths]
    written = c.U64(7), c.U64(7), c.U32(7), c.U32(7)
    words = [word for column, length in zip(columns, lengths) for word in (column, length)]
    same(module.calls.arbiter_reading(*module.host(HOST), passed, 0, 0, 1, 0, c.NO_LIMIT, *words,
                                      *map(ctypes.byref, written)), number)
    same([each.value for each in written], [7] * 4 if number else [0] * 4)


def test_reading_at_the_ends(module):
    """The greatest numbers, and a round of a nanosecond."""
    most = 2**64 - 1
    great = arbiter.RoundTimes(most, most, most, 2**32 - 1, False, most - 1)
    same(module.reading(HOST, great, [(most, most)]), arbiter.Reading(100000, EVERYTHING, True))
    short = arbiter.RoundTimes(1, 1, 0, 1, False)
    same(module.reading(HOST, short, [(0, 0)]), arbiter.Reading(100000, 100000, False))
    same(module.reading(HOST, great._replace(passed=1), []),
         arbiter.Reading(EVERYTHING, EVERYTHING, True))
    guess = great._replace(used=most - 1, allowed=None)
    same(module.reading(HOST, guess, []), arbiter.Reading(100000, EVERYTHING, True, True))
    long = arbiter.RoundTimes(most, 0, 0, 2**32 - 1, True)
    same(module.reading(arbiter.Host(64, 10**6, 1000), long, []),
         arbiter.Reading(0, EVERYTHING, True))


@pytest.mark.parametrize("used, waited, some, slices", [
    # Its tasks waited, and it was never idle: half a CPU and what they waited.
    (500, 500, 500, (50, 100)), (500, 1500, 500, (50, 200)),
    # It was idle for a twentieth, and for more.
    (500, 450, 450, (50, 95)), (500, 449, 449, (50, 50)),
    # More tasks than CPUs ran, and none waited.
    (2000, 0, 0, (200, 200)), (0, 0, 0, (0, 0)), (1, 2, 3, (1, 1)),
])
def test_leaf_by_hand(module, used, waited, some, slices):
    """Milliseconds of a second that a leaf of a scheduler used, and that its tasks waited."""
    times = arbiter.LeafTimes(SECOND, *(each * MILLISECOND for each in (used, waited, some)))
    same(module.leaf_reading(HOST, times), arbiter.Reading(*slices, slices[0] < slices[1]))


def leaf_by_model(host: arbiter.Host, times: arbiter.LeafTimes) -> arbiter.Reading:
    """The reading of a leaf of a scheduler, in parts of the round."""
    used, waited, some = (Fraction(each, times.passed) for each in times[1:])
    # it asks for more only if it was idle for at most a twentieth
    both = [used, used + waited if used + some >= Fraction(19, 20) else used]
    used_slices, asked = (min(EVERYTHING, math.ceil(each * host.period_us / host.slice_us))
                          for each in both)
    return arbiter.Reading(used_slices, asked, used_slices < asked)


def test_random_leaves(module):
    """Random times, near the twentieth too."""
    chance = random.Random(SEED + 2)
    for case in range(CASES):
        host = arbiter.Host(chance.randint(1, 64), 100000, chance.choice([1000, 5000, 100000]))
        passed = chance.randint(1, 10**chance.randint(1, 12))
        used = chance.randint(0, 2 * passed)
        some = max(0, 19 * passed // 20 - used + chance.randint(-2, 2))
        some = chance.choice([some, chance.randint(0, passed)])
        times = arbiter.LeafTimes(passed, used, chance.choice([some, 3 * passed]), some)
        same(module.leaf_reading(host, times), leaf_by_model(host, times), f"case {case}")


@pytest.mark.parametrize("number, host, passed", [
    (1, arbiter.Host(0, 0, 0), 0), (2, arbiter.Host(64, 999, 0), 0),
    (3, arbiter.Host(64, 1000, 1001), 0), (15, HOST, 0)])
def test_refused_leaf(module, number, host, passed):
    """The first refusal is answered, and writes nothing."""
    same(number_of(module.leaf_reading, host, arbiter.LeafTimes(passed, 1, 1, 1)), (number, None))
    written = c.U64(7), c.U64(7)
    same(module.calls.arbiter_leaf_reading(*module.host(host), passed, 1, 1, 1,
                                           *map(ctypes.byref, written)), number)
    same([each.value for each in written], [7, 7])


def test_leaf_at_the_ends(module):
    """The greatest numbers, and a round of a nanosecond."""
    most = 2**64 - 1
    same(module.leaf_reading(HOST, arbiter.LeafTimes(most, most, most, most)),
         arbiter.Reading(100, 200, True))
    same(module.leaf_reading(HOST, arbiter.LeafTimes(1, most, most, most)),
         arbiter.Reading(EVERYTHING, EVERYTHING, False))
    same(module.leaf_reading(HOST, arbiter.LeafTimes(most, 0, most, 0)),
         arbiter.Reading(0, 0, False))


def is_starved(passed: int, ran: int, waited: int) -> bool:
    """A task that waited for a hundredth or more, and slept for no longer than it waited and for
    at most a twentieth."""
    part, slept = Fraction(waited, passed), 1 - Fraction(ran + waited, passed)
    return part >= Fraction(1, 100) and slept <= min(part, Fraction(1, 20))


def by_model(host: arbiter.Host, times: arbiter.RoundTimes, tasks: Sequence[Task]
             ) -> arbiter.Reading:
    """The reading, in parts of the round: of processors that were used, and of its length."""
    passed = Fraction(times.passed)
    used, waited = (Fraction(1000 * each) / passed for each in (times.used, times.waited))
    per_processor = Fraction(host.period_us, host.slice_us)

    def slices(processors: Fraction) -> int:
        return min(math.ceil(processors * per_processor), EVERYTHING)

    ran = sum((Fraction(each[0]) for each in tasks), Fraction(0)) / passed
    starved = [is_starved(times.passed, *each) for each in tasks]
    known = ran / used if used else Fraction(-1)
    guess = False
    if times.is_throttled or times.allowed is not None and times.used >= times.allowed:
        hungry, could = True, Fraction(times.tasks)
    else:
        has_waited, guess = waited >= Fraction(1, 100), known < Fraction(1, 2)
        hungry = has_waited and (waited >= Fraction(1, 2) if guess else any(starved))
        guess = guess and has_waited
        could = Fraction(times.tasks - len(tasks)) + sum(
            (Fraction(1) if flag else Fraction(each[0]) / passed
             for flag, each in zip(starved, tasks)), Fraction(0))
    if not hungry:
        return arbiter.Reading(slices(used), slices(used), False, guess)
    most = max(used, could)
    is_all = known < Fraction(19, 20) or most >= host.processors
    return arbiter.Reading(slices(used), EVERYTHING if is_all else slices(most), True, guess)


def near(numbers: random.Random, value: int) -> int:
    """A number that is at a bound, or a few off it."""
    return max(0, value + numbers.choice((-1, 0, 0, 1, numbers.randint(-value - 1, value + 1))))


def drawn(numbers: random.Random) -> Tuple[arbiter.Host, arbiter.RoundTimes, List[Task]]:
    """A host and a round, with times at the bounds of the rule and anywhere."""
    slice_us = numbers.choice((1000, 4000, 5000))
    host = arbiter.Host(numbers.choice((1, 2, 3, 64)), slice_us * numbers.choice((1, 3, 20, 100)),
                        slice_us)
    passed = numbers.choice((SECOND, SECOND + 37, 3, 1, 86400 * SECOND))
    tasks = []
    for _ in range(numbers.randint(0, 4)):
        waited = near(numbers, passed // numbers.choice((100, 40, 20, 3)))
        slept = near(numbers, min(waited, passed // 20))
        tasks.append((max(0, passed - waited - slept), waited))
    ran = sum(task[0] for task in tasks)
    used = near(numbers, ran * numbers.choice((20, 38, 19)) // 19 // 1000)
    waited = near(numbers, passed // numbers.choice((100, 2, 1)) // 1000)
    count = len(tasks) + numbers.choice((0, 0, 1, 3))
    allowed = numbers.choice((None, None, near(numbers, used)))
    return host, arbiter.RoundTimes(passed, used, waited, count, numbers.random() < 0.2,
                                    allowed), tasks


def test_random_readings(module):
    """Each kind of answer is among them."""
    numbers, seen = random.Random(SEED), set()
    for _ in range(CASES):
        host, times, tasks = drawn(numbers)
        found = module.reading(host, times, tasks)
        same(found, by_model(host, times, tasks), f"{host} {times} {tasks}")
        seen.add((found.is_hungry, found.asked == EVERYTHING, found.is_guess,
                  times.is_throttled, times.allowed is None))
    # (a guess asks for everything, and a group that was stopped is none)
    same(len(seen), 14)


@pytest.mark.parametrize("limit, own, stands, quota", [
    # a 128th above the limit
    (100, None, 0, 100781), (1, None, 0, 1007), (0, None, 0, 1007),
    # what stands from the limit to a 64th above it stays
    (100, None, 99999, 100781), (100, None, 100000, 100000), (100, None, 101562, 101562),
    (100, None, 101563, 100781),
    # no more than its own limit, which is written where it allows no more
    (100, 101, 0, 100781), (200, 201, 0, 201000), (200, 201, 202000, 201000),
    (100, 100, 0, None), (100, 99, 100000, None), (0, 1, 0, None), (0, 0, 0, None),
    (1, 0, 1000, None),
])
def test_quotas_by_hand(module, limit, own, stands, quota):
    same(module.written(HOST, limit, own, stands, 1)[0], quota)


@pytest.mark.parametrize("limit, tasks, weight", [
    (100, 1, 10000),  # a whole CPU: 100 / 0.01
    (200, 1, 10000),  # more than one task can use
    (50, 1, 98),      # 50 / 0.51 = 98.04
    (75, 1, 288),     # 75 / 0.26 = 288.46
    (10, 1, 11),      # 10 / 0.91 = 10.99
    (1, 1, 1), (0, 1, 1), (0, 0, 1), (50, 0, 98),
    (99, 1, 4950),
    (50, 2, 33),      # two tasks with a quarter each: 25 / 0.76 = 32.89
    (667, 10, 194),   # 66.7 / 0.343 = 194.46
    (10**9, 2**32 - 1, 1),
])
def test_weights_by_hand(module, limit, tasks, weight):
    """100 d / (1.01 - d), to the nearest whole number, 1 to 10000."""
    same(module.written(HOST, limit, None, 0, tasks)[1], weight)


@pytest.mark.parametrize("number, host, limit", [
    (1, arbiter.Host(65, 0, 0), 2**64 - 1), (2, arbiter.Host(1, 999, 0), 2**64 - 1),
    (3, arbiter.Host(1, 1000, 0), 2**64 - 1), (14, HOST, 2**64 - 1),
    # 984,615,384,616 slices and a 64th are 10^15 + 625 microseconds
    (14, HOST, 984615384616), (0, HOST, 984615384615),
])
def test_refused_limit(module, number, host, limit):
    """The first refusal is answered, and nothing is written."""
    same(number_of(module.written, host, limit, None, 0, 1), (number, None))
    written = c.U64(7), c.U64(7)
    same(module.calls.arbiter_written(*module.host(host), limit, 5, 0, 1,
                                      *map(ctypes.byref, written)), number)
    if number:
        same([each.value for each in written], [7, 7])


def written_by_model(host: arbiter.Host, limit: int, own: Optional[int], stands: int, tasks: int
                     ) -> Tuple[Optional[int], int]:
    """The quota and the weight, by the sums that the header has."""
    least = Fraction(max(limit * host.slice_us, 1000))
    own_quota = None if own is None else own * host.slice_us
    part = Fraction(limit * host.slice_us, max(tasks, 1) * host.period_us)
    weight = Fraction(10000) if part >= 1 else 100 * part / (Fraction(101, 100) - part)
    nearest = min(max(math.floor(weight + Fraction(1, 2)), 1), 10000)
    if own_quota is not None and own_quota <= least:
        return None, nearest
    most = math.floor(least * Fraction(65, 64))
    quota = math.floor(least * Fraction(129, 128))
    if own_quota is not None:
        most, quota = min(most, own_quota), min(quota, own_quota)
    return stands if least <= stands <= most else quota, nearest


def test_random_limits(module):
    """Each kind of answer is among them, and no quota is off its bounds."""
    numbers, seen = random.Random(SEED), set()
    for _ in range(CASES):
        slice_us = numbers.choice((1000, 3000, 5000))
        host = arbiter.Host(1, slice_us * numbers.choice((1, 7, 20, 100)), slice_us)
        limit = numbers.choice((0, 1, numbers.randint(0, 300), numbers.randint(0, 10**6)))
        own = numbers.choice((None, near(numbers, limit), limit + limit // 100 + 1))
        stands = near(numbers, numbers.choice((0, limit, limit * 65 // 64)) * slice_us)
        tasks = numbers.choice((0, 1, 2, near(numbers, limit // 100)))
        found = module.written(host, limit, own, stands, tasks)
        same(found, written_by_model(host, limit, own, stands, tasks),
             f"{host} {limit} {own} {stands} {tasks}")
        quota = found[0]
        if quota is not None:
            least = max(limit * slice_us, 1000)
            same(least <= quota <= least + least // 64
                 and (own is None or quota <= own * slice_us), True)
        seen.add((quota is None, quota == stands, own is None, 1 < found[1] < 10000))
    same(len(seen), 10)


def test_both_give_the_plan(module):
    """A hungry group of two tasks asks for what it could use, beside one that is served."""
    rows = [arbiter.Row(), arbiter.Row(0), arbiter.Row(0)]
    host = arbiter.Host(2, 100000, 5000)
    tasks = in_nanoseconds([(500, 500), (300, 100)])
    found = [module.reading(host, arbiter.RoundTimes(SECOND, used * 1000, 500000, 2), each)
             for used, each in ((800, tasks), (1000, in_nanoseconds([(500, 0), (500, 0)])))]
    same(found, [arbiter.Reading(16, 26, True), arbiter.Reading(20, 20, False)])
    asks = [rows[0], *(row._replace(demand=each.asked) for row, each in zip(rows[1:], found))]
    held = module.hold(host, asks, [each.demand == EVERYTHING for each in asks])
    same((held.amounts, held.limits), ([40, 20, 20], [None, 20, 23]))
    same(module.written(HOST_OF_ONE, 20, None, 0, 2), (100781, 98))
