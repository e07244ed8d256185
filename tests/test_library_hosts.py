"""Demands as ratios, and hosts of any number of processors, by the C library.

They are compared with models of fractions and of divisors, which share no code with it.
"""
import random
from fractions import Fraction

import pytest

import arbiter
from chances import cases
from support import same
from test_library import random_tree

SEED = 20261128
DEMANDS, HOSTS, PLANS = cases(2000, 20), cases(1000, 20), cases(60)
MOST = 2**64 - 1
MILLISECOND = 1000


@pytest.fixture(scope="module")
def module(library):
    """The library under test, as the Python module calls it."""
    return arbiter.Library(str(library))


def answer_of(call, *words):
    """What a call answers, or the number of its refusal and its row."""
    try:
        return call(*words)
    except arbiter.Refused as refused:
        return refused.number, refused.row


def random_word(chance):
    """A number of up to 64 bits, of any length."""
    return chance.choice([chance.randrange(2**chance.randrange(1, 65)), MOST - chance.randrange(3)])


def random_shape(chance, processors):
    """A host of so many processors."""
    slice_us = MILLISECOND * chance.choice([1, 2, 5, 7, 100, 999])
    most = 10**6 // slice_us
    return arbiter.Host(processors, slice_us * chance.choice([1, most, chance.randint(1, most)]),
                        slice_us)


def random_demand(chance):
    """A host and a ratio: any one, or one near a whole number of slices."""
    host = random_shape(chance, chance.randint(1, 64))
    if chance.random() < 0.5:
        return host, random_word(chance), random_word(chance)
    each = Fraction(host.slice_us, host.period_us)
    near = each * chance.choice([chance.randrange(3), 10**6, chance.randrange(10**6)]) \
        + Fraction(chance.randrange(-1, 2), chance.choice([10**3, 10**6, 10**9]))
    near = max(near, Fraction(0))
    return host, near.numerator, near.denominator


def demand_by_model(host, numerator, denominator):
    """The least number of slices that has the demand, or the number of a refusal."""
    if not denominator:
        return 11, None
    wanted = Fraction(numerator, denominator) * host.period_us
    slices = 0 if not wanted else int(wanted) // host.slice_us
    while slices * host.slice_us < wanted:
        slices += 1
    return (9, None) if slices > 10**6 else slices


def test_random_demands(module):
    chance = random.Random(SEED)
    for _ in range(DEMANDS):
        host, *ratio = random_demand(chance)
        found = answer_of(module.demand, host, *ratio)
        same(found, demand_by_model(host, *ratio), f"{host} {ratio}")


def planned_by_model(host):
    """The number of slices on each processor for the most processors up to 64 that have the
    capacity; the number of a refusal where there are none."""
    if host.processors == 0:
        return 1, None
    if not 1000 <= host.period_us <= 10**6:
        return 2, None
    if host.slice_us < 1000 or host.slice_us > host.period_us or host.period_us % host.slice_us:
        return 3, None
    if host.processors <= 64:
        return host
    capacity = Fraction(host.processors * host.period_us, host.slice_us)
    shares = {count: capacity / count for count in range(1, 65)}
    fitting = [count for count, each in shares.items() if each.denominator == 1 and each <= 1000]
    if not fitting:
        return 1, None
    return arbiter.Host(fitting[-1], int(shares[fitting[-1]]) * MILLISECOND, MILLISECOND)


def random_host(chance):
    """A host of any number of processors, mostly of more than 64, now and then a broken one."""
    host = random_shape(chance, chance.choice([
        chance.randint(0, 66), chance.randint(65, 400), chance.randint(65, 64001),
        64000, 64001, random_word(chance)]))
    if chance.random() < 0.1:
        return arbiter.Host(host.processors, random_word(chance), random_word(chance))
    return host


def test_random_hosts(module):
    chance, refused = random.Random(SEED), 0
    for _ in range(HOSTS):
        host = random_host(chance)
        found = answer_of(module.planned_host, host)
        same(found, planned_by_model(host), str(host))
        refused += isinstance(found, tuple)
    assert HOSTS // 10 < refused < HOSTS * 9 // 10


@pytest.mark.parametrize("host, planned", [
    (arbiter.Host(64, 7000, 7000), arbiter.Host(64, 7000, 7000)),
    (arbiter.Host(96, 100000, 1000), arbiter.Host(64, 150000, 1000)),
    (arbiter.Host(97, 100000, 1000), arbiter.Host(50, 194000, 1000)),
    (arbiter.Host(640, 100000, 1000), arbiter.Host(64, 10**6, 1000)),
    (arbiter.Host(997, 10**6, 10**6), arbiter.Host(1, 997000, 1000)),
])
def test_planned_host(module, host, planned):
    same(module.planned_host(host), planned)


@pytest.mark.parametrize("host, number", [
    (arbiter.Host(0, 0, 0), 1), (arbiter.Host(MOST, 0, 0), 2), (arbiter.Host(65, 1000, 999), 3),
    (arbiter.Host(65, 10**6, 1000), 1), (arbiter.Host(1009, 1000, 1000), 1),
    (arbiter.Host(MOST, 10**6, 1000), 1), (arbiter.Host(64001, 1000, 1000), 1),
])
def test_refused_hosts(module, host, number):
    same(answer_of(module.planned_host, host), (number, None))


def test_hosts_of_one_capacity_have_the_same_plans(module):
    """Each way to share a capacity gives each tree the same plan."""
    chance = random.Random(SEED)
    for _ in range(PLANS):
        _, rows = random_tree(chance)
        capacity = chance.choice([64, 360, 997, 5040])
        plans = [module.plan(arbiter.Host(count, capacity // count * 1000, 1000), rows)
                 for count in range(1, 65) if capacity % count == 0 and capacity // count <= 1000]
        assert plans and all(each == plans[0] for each in plans), rows
