"""Hosts, rows and certificates, as Python has them and as columns of C."""
from __future__ import annotations

import enum
from array import array
from collections.abc import Sequence
from dataclasses import dataclass
from typing import Any, NamedTuple

from arbiter import c

# The types of a column's entries, as `array` names them: 8, 32 and 64 bits.
U8, U32, U64 = "B", "I", "Q"


@dataclass(frozen=True)
class Host:
    """1 to 64 processors, a period of 1000 to 1000000 microseconds, and a slice of at least 1000
    that divides it."""

    processors: int = 1
    period_us: int = 100000
    slice_us: int = 5000

    @property
    def capacity(self) -> int:
        """Slices of one period on all processors."""
        return self.processors * (self.period_us // self.slice_us)


class Row(NamedTuple):
    """A group: the row of its parent (None: it is the root), its weight, 1 to 10000, and its limit
    (None: it has none) and demand in slices of one period."""

    parent: int | None = None
    weight: int = 100
    limit: int | None = None
    demand: int = 0


class Level(NamedTuple):
    """The level num / den at the place of a child."""

    num: int
    den: int
    place: int


class Figures(NamedTuple):
    """The wants of each group, its most and what it splits: columns of one entry for each row."""

    # Slices that it would take without its own limit.
    wants: array[int]
    # The want, cut at its own limit; that of the root is the capacity.
    mosts: array[int]
    # 1 where its own limit is below its want, else 0.
    tights: array[int]
    # The number of its children that can be given a slice, and the sum of their weights.
    actives: array[int]
    active_weights: array[int]
    # Slices that its own limit withholds of its want; 0 for the root.
    withheld: array[int]


class Counters(NamedTuple):
    """Counters of `cpu.stat`, columns of one entry for each row."""

    usage_usec: array[int]
    nr_periods: array[int]
    nr_throttled: array[int]
    throttled_usec: array[int]
    nr_bursts: array[int]
    burst_usec: array[int]

    @classmethod
    def zeros(cls, count: int) -> Counters:
        """Counters of so many rows, before any period."""
        return cls(*(zeros(U64, count) for _ in cls._fields))


class Kind(enum.IntEnum):
    """The kinds of reasons for a group's amount, by their numbers in C.

    NOTHING_ASKED  it wants nothing
    ALL_WANTED     it gets all that it wants
    OWN_LIMIT      it gets its own limit
    LIMIT_ABOVE    a group above it gets its limit, and no group between the two does
    HOST_FULL      the host gives out its capacity, and no group from this one up gets its limit
    """

    NOTHING_ASKED = 0
    ALL_WANTED = 1
    OWN_LIMIT = 2
    LIMIT_ABOVE = 3
    HOST_FULL = 4


class Reason(NamedTuple):
    """The reason for a group's amount. LIMIT_ABOVE has the row of the group above, others None."""

    kind: Kind
    above: int | None = None


def in_range(number: int, bits: int, what: str) -> int:
    """A number of so many bits; OverflowError for any other, which ctypes would cut."""
    if not 0 <= number < 1 << bits:
        raise OverflowError(f"{what} {number} is no number of {bits} bits")
    return number


def column(kind: str, numbers: Sequence[int], what: str) -> array[int]:
    """A column of numbers; OverflowError for one that its entries cannot hold."""
    try:
        return array(kind, numbers)
    except OverflowError as error:
        bits = 8 * array(kind).itemsize
        raise OverflowError(f"{what}: a number that is none of {bits} bits") from error


def zeros(kind: str, count: int) -> array[int]:
    """A column of so many zeros."""
    return array(kind, bytes(count * array(kind).itemsize))


def flag_column(numbers: Sequence[bool]) -> array[int]:
    """A column of 1 for what holds, and of 0."""
    return array(U8, [bool(each) for each in numbers])


def limits(numbers: array[int]) -> list[int | None]:
    """Limits or quotas of C; None for none."""
    return [None if each == c.NO_LIMIT else each for each in numbers]


def given(*columns: array[int]) -> list[Any]:
    """Each column as C takes it: its memory, which stays while it is held, and its length."""
    return [word for each in columns
            for word in ((c.TYPES[each.typecode] * len(each)).from_buffer(each), len(each))]


def number_or_none(number: int | None, none: int, what: str) -> int:
    """A number, or what stands for None in C; OverflowError for the number that does."""
    if number is None:
        return none
    if number == none:
        raise OverflowError(f"{what} {number} stands for none")
    return number


class Columns:
    """The rows of a tree as columns of C. They are made once, for any number of calls."""

    def __init__(self, parents: array[int], weights: array[int], limits: array[int],
                 demands: array[int]) -> None:
        self.parents, self.weights, self.limits, self.demands = parents, weights, limits, demands

    @classmethod
    def of(cls, rows: Sequence[Row] | Columns) -> Columns:
        """The columns of rows."""
        if isinstance(rows, Columns):
            return rows
        parents = [number_or_none(row.parent, c.NO_PARENT, "parent") for row in rows]
        limits = [number_or_none(row.limit, c.NO_LIMIT, "limit") for row in rows]
        return cls(column(U32, parents, "parent"),
                   column(U64, [row.weight for row in rows], "weight"),
                   column(U64, limits, "limit"),
                   column(U64, [row.demand for row in rows], "demand"))

    def asking(self, demands: Sequence[int]) -> Columns:
        """The rows with other demands."""
        return Columns(self.parents, self.weights, self.limits, column(U64, demands, "demand"))

    def __len__(self) -> int:
        return len(self.parents)

    @property
    def all(self) -> tuple[array[int], ...]:
        """The columns in the order of C."""
        return self.parents, self.weights, self.limits, self.demands


class Script(NamedTuple):
    """The groups at the end of a script, a row each, and the lines that it refuses.

    Quotas, periods and bursts are microseconds, as they were written; a quota of NO_LIMIT is none.
    Carries are slices that a `period` left over.
    """

    # The rows as a plan takes them. A limit is that of the next period.
    columns: Columns
    # The last name of each group; that of the root is empty.
    names: list[str]
    quotas: array[int]
    periods: array[int]
    bursts: array[int]
    carries: array[int]
    # The number of each refused line, 1 for the first, and of its fault.
    refused: list[tuple[int, int]]


class QuotaColumns(NamedTuple):
    """The groups of a host by column, one entry for each, the root first. Quotas, periods and
    bursts are microseconds, as their files have them; a quota of NO_LIMIT is none."""

    parents: array[int]
    weights: array[int]
    quotas: array[int]
    periods: array[int]
    bursts: array[int]


class Samples(NamedTuple):
    """Sums over the periods of samples: columns with an entry for each group in the first sample,
    then in the next."""

    # Slices that it got, that it wanted, and of its limits (NO_LIMIT: it has none).
    amounts: array[int]
    wants: array[int]
    limits: array[int]
    # As in `cpu.stat`.
    nr_throttled: array[int]
    throttled_usec: array[int]
    nr_bursts: array[int]
    burst_usec: array[int]
    # Periods in which it was throttled and got less than its limit, and in which it wanted
    # something and got nothing.
    nr_short: array[int]
    nr_starved: array[int]


class Certificate(NamedTuple):
    """Evidence that amounts are a plan, one entry for each row.

    A flag is 1 where the group's own limit is below what it wants. A level is nums / dens at
    places, with 0 for each where the group shares nothing out.
    """

    flags: array[int]
    nums: array[int]
    dens: array[int]
    places: array[int]

    @classmethod
    def of(cls, flags: Sequence[bool], levels: Sequence[tuple[int, int, int] | None]
           ) -> Certificate:
        """The certificate of flags and levels; None is no level."""
        found = [level or (0, 0, 0) for level in levels]
        return cls(flag_column(flags),
                   column(U64, [level[0] for level in found], "num"),
                   column(U64, [level[1] for level in found], "den"),
                   column(U32, [level[2] for level in found], "place"))

    @property
    def levels(self) -> list[Level | None]:
        """The level of each row; None where there is none."""
        return [Level(*each) if each[0] else None
                for each in zip(self.nums, self.dens, self.places)]


class Round(NamedTuple):
    """The limits of a round, and the demands and the certified plan that they come from. Each has
    one entry for each row, in slices of one period."""

    # A leaf's limit for the next round; another group's own limit (None: none).
    limits: list[int | None]
    # 1000000 at a hungry leaf, else what it used.
    demands: list[int]
    # The plan of the demands, and its certificate for the rows with these demands.
    amounts: list[int]
    certificate: Certificate


class RoundTimes(NamedTuple):
    """The counts of a group in a round, which is the time between two readings."""

    # Nanoseconds that passed.
    passed: int
    # Microseconds that it used, and in which some task of it waited for a processor.
    used: int
    waited: int
    # Its tasks at the end.
    tasks: int
    # Whether it was throttled at a limit of its own, and the microseconds that this allowed it.
    is_throttled: bool = False
    allowed: int | None = None


class LeafTimes(NamedTuple):
    """The counts of a leaf that a scheduler serves in a round, in nanoseconds."""

    # The time that passed.
    passed: int
    used: int
    # How long its tasks waited for a CPU, added up, and how long one or more of them waited.
    waited: int
    some: int


class Reading(NamedTuple):
    """The use of a group in a round, and what it asks for, in slices of one period, rounded up."""

    used: int
    # 1000000 for everything.
    asked: int
    # Whether it would have used more, and whether that is a guess.
    is_hungry: bool
    is_guess: bool = False
