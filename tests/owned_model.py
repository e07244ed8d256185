"""A model of what numbers that owners set make: weights, limits, and amounts of pods. And of a loop
that holds a plan: what limits allow, what rounds ask for and leave, and when limits do harm.

It goes by fractions, by real numbers and by time, and shares no code with the library.
"""
import math
from fractions import Fraction

from arbiter import LimitFormula, WeightFormula


def bounded(low, number, high):
    return sorted((low, number, high))[1]


def on_line(shares):
    """From 2 shares and weight 1 to 262144 shares and weight 10000."""
    return math.floor(1 + Fraction(9999, 262142) * (bounded(2, shares, 262144) - 2))


def on_curve(shares):
    """Through 2 shares and weight 1, 1024 and 100, 262144 and 10000."""
    shares = bounded(2, shares, 262144)
    if shares in (2, 1024, 262144):
        return {2: 1, 1024: 100, 262144: 10000}[shares]
    log = math.log2(shares)
    return math.ceil(10 ** ((log * log + 125 * log) / 612 - 7 / 34))


def shares_of(request):
    return bounded(2, math.floor(Fraction(1024, 1000) * request), 262144)


# The weight of a number by each formula.
WEIGHTS = {
    WeightFormula.SHARES_LINEAR: on_line,
    WeightFormula.SHARES_LOGARITHMIC: on_curve,
    WeightFormula.REQUEST_LINEAR: lambda number: on_line(shares_of(number)),
    WeightFormula.REQUEST_LOGARITHMIC: lambda number: on_curve(shares_of(number)),
    WeightFormula.UNIT_SHARES: lambda number: bounded(1, math.floor(number * Fraction(100, 1024)),
                                                      10000),
    WeightFormula.UNIT_WEIGHT: lambda number: bounded(1, number, 10000)}


def limit_by(formula, number, period):
    """The quota and the period of a number."""
    own = 100000 if period == 0 else bounded(1000, period, 10**6)
    if formula == LimitFormula.PER_SECOND:
        needed = 10**6 if number == 0 else math.floor(Fraction(10**9, number))
        own = bounded(1000, max(own, needed), 10**6)
        return bounded(1000, math.floor(Fraction(number, 10**6) * own), 10**15), own
    if formula == LimitFormula.NANO_CPUS:
        own, number = 100000, math.floor(Fraction(number, 10**9) * 100000)
    if number == 0:
        return None, own
    quota = math.floor(Fraction(number, 1000) * own) if formula == 1 else number
    return bounded(1000, quota, 10**15), own


def pod_amount(kinds, amounts):
    """The most at any time: at each start of a part, and once all have started."""
    now, most = 0, 0
    for kind, amount in zip(kinds, amounts):
        most = max(most, now + (0 if kind == 0 else amount))
        now += amount if kind == 2 else 0
    return max(most, now + sum(each for kind, each in zip(kinds, amounts) if kind not in (1, 2)))


def number_for(formula, request):
    """What is written for a request of so many thousandths of a CPU."""
    if formula in (WeightFormula.REQUEST_LINEAR, WeightFormula.REQUEST_LOGARITHMIC):
        return request
    if formula == WeightFormula.UNIT_WEIGHT:
        return bounded(1, math.ceil(100 * Fraction(request, 1000)), 10000)
    return shares_of(request)


def greatest_part(kinds, amounts, part, room):
    """The greatest amount of one part; None where the others alone take more. Beyond all amounts
    the pod takes as much more as the part does."""
    def taken(own):
        return pod_amount(kinds, [*amounts[:part], own, *amounts[part + 1:]])

    far = sum(amounts) + room + 1
    return None if taken(0) > room else min(room + far - taken(far), 2**64 - 1)


def allowed(quota, period, burst, passed):
    """Nanoseconds that a limit allows: by CPUs."""
    return min(math.floor(Fraction(quota, period) * passed) + 1000 * burst, 2**64 - 1)


def lost(free, held):
    """The least number of slices more with which no twentieth of the plan is lost."""
    def part(used, planned):
        return min(Fraction(used, planned), Fraction(1)) if planned else Fraction(1)

    short = part(*free) - Fraction(1, 20) - part(*held)
    return math.ceil(short * held[1]) if short > 0 else 0


def asks(used, asked):
    """What a round asks for a leaf, as `hold` reads it: slices, and whether everything."""
    return {False: (asked, False), True: (used, True)}[asked // 10**6 > 0]


def unserved(planned, used, is_hungry):
    """Slices of the plan that a hungry leaf would have taken too."""
    return planned - min(used, planned) if is_hungry else 0


def went_back(now, last, before):
    """By fractions of the greater number."""
    def part(one, other):
        return Fraction(abs(one - other), max(one, other, 1))

    near, far = part(now, before) <= Fraction(1, 20), part(now, last) >= Fraction(1, 4)
    return now != last and near and far


def has_turned(now, last, before):
    """The last number lies outside those beside it: it is the greatest, or the least."""
    return sorted((now, last, before)).index(last) != 1 and last not in (now, before)


def judged(free, held):
    """What limits did in the last rounds: each round in turn, from the last one back."""
    def together(rounds):
        backwards = [list(reversed(each)) for each in rounds]
        return [sum(each[at] for at in range(60) if at < len(each)) for each in backwards]

    if len(held[0]) < 60:
        return 0, 0
    used, planned, sure, guesses = together(held)
    return lost(together(free), (used, planned)), max(guesses, sure) - sure


def rest(slices, planned, own, others):
    """What the rest has: each group has its part, by fractions, of the group above it."""
    whole, weights = slices, [*others]
    if weights:
        weights[-1] += 100
    for weight, beside in zip(own, weights):
        whole = math.ceil(whole / Fraction(max(weight, 1), max(weight, 1) + beside))
    guarantee = min(whole, 10**9) - slices
    return max(guarantee, slices - planned, 0), guarantee


def let_go(groups, lost, guesses):
    """Who goes, of groups that are rows of five numbers, and why: the first ones in order."""
    def first_ones(ranked, needed):
        gone, order = set(), sorted(ranked, key=lambda at: (-ranked[at], at))
        while order and sum(max(ranked[at], 1) for at in gone) < needed:
            gone.add(order.pop(0))
        return gone

    swung = {at: row[2] for at, row in enumerate(groups) if row[0] // 60}
    turned = {at: row[2] for at, row in enumerate(groups) if row[1] // 60}
    if swung:
        return first_ones(turned or swung, 1), 1
    for reason, needed, place in ((2, lost, 3), (3, guesses, 4)):
        if needed:
            some = {at: row[place] for at, row in enumerate(groups) if row[place]}
            return first_ones(some, needed), reason
    return set(), 0
