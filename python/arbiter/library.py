"""The calls of the C library as methods."""
from __future__ import annotations

import ctypes
import enum
import os
from array import array
from collections.abc import Mapping, Sequence
from typing import TYPE_CHECKING, Any, NamedTuple, TypeAlias

from arbiter import c, found
from arbiter.columns import (U8, U32, U64, Certificate, Columns, Counters, Figures, Host, Kind,
                             LeafTimes, QuotaColumns, Reading, Reason, Round, RoundTimes, Row,
                             Samples, Script, column, flag_column, given, in_range,
                             limits, number_or_none, zeros)

if TYPE_CHECKING:
    from arbiter.pipe import Calls

# The rows of a tree, or their columns, which are made once for several calls.
Rows: TypeAlias = Sequence[Row] | Columns
# Most groups of a tree, the root among them.
MOST_GROUPS = 16384
CONVERSIONS = {"linear": 1, "logarithmic": 2}
# Formulas by which a number that an owner set makes a weight: `cpu.shares` and a request in
# thousandths of a CPU, by older and by newer container runtimes, and two settings of systemd.
WeightFormula = enum.IntEnum("WeightFormula", "SHARES_LINEAR SHARES_LOGARITHMIC REQUEST_LINEAR"
                             " REQUEST_LOGARITHMIC UNIT_SHARES UNIT_WEIGHT")
# Formulas of a quota: of thousandths of a CPU by kubelet, of NanoCpus and CpuQuota by docker, and
# of microseconds of each second by systemd.
LimitFormula = enum.IntEnum("LimitFormula", "THOUSANDTHS NANO_CPUS QUOTA PER_SECOND")
# Kinds of the containers of a pod.
PartKind = enum.IntEnum("PartKind", "CONTAINER INIT_CONTAINER SIDECAR", start=0)
# Bits of a number of each type.
BITS = {U8: 8, U32: 32, U64: 64}
MOST_WORD = 2**64 - 1
# Rounds under limits that judge them.
JUDGED_ROUNDS = 60
# The reasons that name no group, by their numbers: rows share them.
REASONS = tuple(map(Reason, Kind))
# The numbers of faults that speak of a row of the tree.
OF_ROWS = range(4, 11)


class Follower(NamedTuple):
    """A row whose weight follows a number that an owner sets: by which formula, the least number of
    the row, and what its number has beside the owner's."""

    formula: WeightFormula
    floor: int = 0
    base: int = 0


class OwnerGoal(NamedTuple):
    """A goal of a group, and the number that an owner sets for it: the rows of the group and of the
    owner's number, the highest row that has the number too, and the range of the number."""

    group: int
    amount: int
    owner: int
    top: int
    first: int
    last: int


class Settled(NamedTuple):
    """Numbers that owners set, one for each goal. Each is the least beside the others if
    `is_settled`. No number of the goal at the place `stuck` meets it beside the others."""

    numbers: list[int]
    is_settled: bool
    stuck: int | None


class Refused(Exception):
    """A refusal: its `number` and `name`, and the `row` that it speaks of, if it speaks of one."""

    def __init__(self, number: int, name: str | None, row: int | None = None) -> None:
        self.number, self.name, self.row = number, name, row
        super().__init__(f"{number} {name}" + ("" if row is None else f" {row}"))


def row_or_none(row: int) -> int | None:
    """A row that a call wrote, None where it wrote none."""
    return None if row == c.NO_PARENT else row


class Library:
    """The calls of one shared library: of a path, else of `found.path`. In a clone that has made
    no library they are those of its checked build, over a pipe.

    The methods take a host and its rows as a call of C does, and answer as share/arbiter.h says.
    They raise `Refused` for each number but 0, and OverflowError for a number that no word of the
    call can hold. Several threads may call at once.

    # Errors
    Unavailable where the library cannot be loaded, or has not each call of this package.
    """

    def __init__(self, path: str | os.PathLike[str] | None = None) -> None:
        self.path = os.fspath(path) if path else found.path()
        self.calls: ctypes.CDLL | Calls
        try:
            self.calls = c.load(self.path)
        except found.Unavailable:
            command = found.checked() if self.path == found.SONAME else []
            if not command:
                raise
            from arbiter import pipe  # (a library needs none)
            self.path, self.calls = command[-1], pipe.Calls(command)

    @property
    def is_proved(self) -> bool:
        """Whether the calls are those of a library. A checked build proves nothing."""
        return isinstance(self.calls, ctypes.CDLL)

    def name(self, number: int) -> str | None:
        """The name of a fault's number, None where the number is no fault's."""
        count, (name,) = self.call("name", c.NAME_ROOM, number)
        return bytes(name[:count]).decode() or None

    def version(self) -> str:
        """The version of the library."""
        count, (version,) = self.call("version", c.NAME_ROOM)
        return bytes(version[:count]).decode()

    def refused(self, number: int, row: int | None = None) -> Refused:
        """The refusal of a number."""
        return Refused(number, self.name(number), row)

    def of_rows(self, number: int, columns: Columns) -> Refused:
        """The refusal of a number, with the row of the tree that it speaks of."""
        _, (row,) = self.call("refused_row", 0, *columns.all)
        return self.refused(number, row_or_none(row) if number in OF_ROWS else None)

    @staticmethod
    def host(host: Host) -> tuple[int, int, int]:
        """The numbers of a host as C takes them."""
        return host.processors, host.period_us, host.slice_us

    def call(self, name: str, count: int, *read: Any, **counts: int) -> tuple[int, list[Any]]:
        """One call: what it answers, and what it writes, in its order: columns of so many entries,
        and numbers. A number that it leaves is the greatest. `read` has the words that it reads,
        also the columns that it changes. `counts` has the entries of columns that have others."""
        words: list[Any] = []
        written: list[Any] = []
        left = iter(read)
        for word in c.WORDS[name]:
            if word.is_column:
                numbers = (next(left) if word.is_read
                           else zeros(word.kind, counts.get(word.name, count)))
                if not isinstance(numbers, array):
                    numbers = column(word.kind, numbers, word.name)
                words += given(numbers)
                if not word.is_read:
                    written.append(numbers)
            elif word.is_written:
                written.append(c.TYPES[word.kind](-1))
                words.append(ctypes.byref(written[-1]))
            else:
                words.append(in_range(next(left), BITS[word.kind], word.name))
        number = getattr(self.calls, f"arbiter_{name}")(*words)
        return number, [each if isinstance(each, array) else each.value for each in written]

    def ask(self, name: str, host: Host, rows: Rows, *read: Any) -> list[Any]:
        """The writes of a call about a tree. `read` are its words behind the tree's."""
        columns = Columns.of(rows)
        number, written = self.call(name, len(columns), *self.host(host), *columns.all, *read)
        if number:
            raise self.of_rows(number, columns)
        return written

    def ask_host(self, name: str, host: Host, *read: Any, count: int = 0) -> list[Any]:
        """The writes of a call about a host, columns of so many entries among it."""
        return self.told(name, *self.host(host), *read, count=count)

    def plan(self, host: Host, rows: Rows) -> list[int]:
        """The amounts of the plan, in slices of one period, one for each row."""
        return list(self.ask("plan", host, rows)[0])

    def certify(self, host: Host, rows: Rows) -> tuple[list[int], Certificate]:
        """The amounts of the plan, and its certificate."""
        amounts, *evidence = self.ask("certify", host, rows)
        return amounts.tolist(), Certificate(*evidence)

    def check(self, host: Host, rows: Rows, amounts: Sequence[int],
              certificate: Certificate) -> None:
        """Returns if the certificate shows that the amounts are the plan; else Refused, with the
        row of a fault."""
        columns = Columns.of(rows)
        number, (row,) = self.call("check", 0, *self.host(host), *columns.all, amounts,
                                   *certificate)
        if number and number < OF_ROWS.stop:
            raise self.of_rows(number, columns)
        if number:
            raise self.refused(number, row_or_none(row))

    def check_text(self, text: bytes) -> None:
        """Returns if a certified text holds together; else Refused, with the row of a fault."""
        number, (row,) = self.call("check_text", 0, array(U8, text))
        if number:
            raise self.refused(number, row_or_none(row))

    def limiting(self, host: Host, rows: Rows) -> tuple[list[int], int]:
        """The rows of the groups that hold the total down, and the slices wanted outside them."""
        groups, count, rest = self.ask("limiting", host, rows)
        return groups[:count].tolist(), rest

    def reasons(self, host: Host, rows: Rows) -> list[Reason]:
        """The reason for each group's amount, one for each row."""
        kinds, blamed = self.ask("reasons", host, rows)
        above = int(Kind.LIMIT_ABOVE)
        return [Reason(Kind.LIMIT_ABOVE, row) if kind == above else REASONS[kind]
                for kind, row in zip(kinds, blamed)]

    def figures(self, host: Host, rows: Rows) -> Figures:
        """The wants of each group, its most and what it splits. Refused as a plan is."""
        return Figures(*self.ask("figures", host, rows))

    def hold(self, host: Host, rows: Rows, hungry: Sequence[bool]) -> Round:
        """The limits of the next round, from what each leaf used in the last one.

        The demand of each row is what it used, in slices rounded up. `hungry` tells for each row
        whether it would have used more; those of groups with children are not read. Refused as a
        plan is, and by 50 WrongLength if there is not one flag for each row. Where the plan gives
        each leaf what it asks for or its own limit, each keeps its own limit or None.
        """
        held, demands, amounts, *evidence = self.ask("hold", host, rows, flag_column(hungry))
        return Round(limits(held), demands.tolist(), amounts.tolist(), Certificate(*evidence))

    def serve(self, host: Host, rows: Rows, hungry: Sequence[bool]
              ) -> tuple[list[int], list[int | None]]:
        """The amount and the limit of each row that a scheduler is given for a round: of a leaf its
        plan, or its part beside the plans of the others if that is more, and its least part of the
        limits at or above it. Asked and refused as `hold` is."""
        amounts, most = self.ask("serve", host, rows, flag_column(hungry))
        return amounts.tolist(), limits(most)

    def reading(self, host: Host, times: RoundTimes, tasks: Sequence[tuple[int, int]]) -> Reading:
        """The use of a group in a round, whether it would have used more, and what it asks for.

        `tasks` has the nanoseconds that each task ran, and waited for a CPU, that was there at both
        readings. Refused by 50 WrongLength if there are more than the group has, as a host is, and
        by 15 PeriodOutOfRange if no time passed.
        """
        ran, waited = ([each[part] for each in tasks] for part in (0, 1))
        allowed = number_or_none(times.allowed, c.NO_LIMIT, "limit")
        used, asked, hungry, guess = self.ask_host(
            "reading", host, *times[:4], int(times.is_throttled), allowed, ran, waited)
        return Reading(used, asked, bool(hungry), bool(guess))

    def leaf_reading(self, host: Host, times: LeafTimes) -> Reading:
        """The use in a round of a leaf that a scheduler serves, and what it asks for: what it used
        if it was idle for more than a twentieth of it, else what it would have used if no task had
        waited. Refused as a host is, and by 15 PeriodOutOfRange if no time passed.
        """
        used, asked = self.ask_host("leaf_reading", host, *times)
        return Reading(used, asked, used < asked)

    def written(self, host: Host, limit: int, own: int | None, stands: int, tasks: int
                ) -> tuple[int | None, int]:
        """The quota and the weight that are written for a leaf's limit of a round, in microseconds
        of the host's period. None is its own limit, which allows no more.

        `own` is its own limit in slices, and `stands` the quota that stands; 0 for another period.
        The quota lies from the limit to a sixty-fourth above it, and what stands there stays.
        Refused as a host is, and by 14 QuotaTooLarge.
        """
        quota, weight = self.ask_host("written", host, limit,
                                      number_or_none(own, c.NO_LIMIT, "limit"), stands, tasks)
        return None if quota == c.NO_LIMIT else quota, weight

    def tune(self, host: Host, rows: Rows, goals: Sequence[int], may: Sequence[bool],
             guaranteed: bool = False) -> list[int] | int:
        """The weight of each row under which each has its goal, or a row whose goals cannot be met.

        `goals` has the slices that each row is to get at least, 0 for none: by the plan or, where
        `guaranteed`, whatever the groups ask for that are not under it. `may` tells for each row
        whether its weight may change, within 1 to 10000. Weights of rows with a goal at or below
        them are the least from the root down. None is less than the row has, unless no such weights
        meet all goals. Others stay where these do. Else they are lowered to one level, the greatest
        that will do. If no weights do, the answer is a row: its goal and those below it cannot be
        met together. Refused as a plan is, and by 50 WrongLength if there is not one goal and one
        `may` for each row.
        """
        tuned, unmet = self.ask("tune", host, rows, goals, flag_column(may), int(bool(guaranteed)))
        return list(tuned) if unmet == c.NO_GOAL else int(unmet)

    def goals(self, host: Host, rows: Rows, goals: Sequence[int], guaranteed: bool = False
              ) -> tuple[list[int], list[int]]:
        """The goals with halves of others, and what goals come to at each row.

        Goals are those of `tune`. Each leaf below the root with no goal at it or above it is to
        keep half of what it has, rounded up: by the plan or, where `guaranteed`, whatever the
        groups ask for that are not under it. The goals of a row come to its own, or to those of its
        children together, if that is more. Refused as a plan is, and by 50 WrongLength if there is
        not one goal for each row.
        """
        kept, come_to = self.ask("goals", host, rows, goals, int(bool(guaranteed)))
        return list(kept), list(come_to)

    def limit_others(self, host: Host, rows: Rows, goals: Sequence[int], may: Sequence[bool],
                     lowest: Sequence[int | None], guaranteed: bool = False
                     ) -> list[int | None] | None:
        """The limit of each row with which some weights that `tune` gives meet the goals, or None.

        Goals and `may` are those of `tune`. `lowest` has the lowest limit in slices that each row
        may get, None where its limit stays. That of the root stays, and that of a row with a goal
        at, above or below it. The limits are the greatest: one level for all, and then each in row
        order. Refused as `tune` is.
        """
        least = [number_or_none(each, c.NO_LIMIT, "limit") for each in lowest]
        limited, met = self.ask("limit_others", host, rows, goals, flag_column(may),
                                column(U64, least, "limit"), int(bool(guaranteed)))
        return limits(limited) if met else None

    def guarantee(self, host: Host, rows: Rows, group: int) -> int:
        """The slices of one period that a group gets whatever the groups not under it ask for.

        `group` is its row. Refused as a plan is, then 20 NotFound if it is no row.
        """
        return int(self.ask("guarantee", host, rows, group)[0])

    def least_weight(self, host: Host, rows: Rows, group: int, amount: int) -> int | None:
        """The least weight with which a group gets at least `amount` slices of one period.

        It is 1 to 10000, or None if no weight does. All else is as the rows say.
        Refused as a plan is, then 20 NotFound if the group is no row.
        """
        return self.ask("least_weight", host, rows, group, amount)[0] or None

    def least_limit(self, host: Host, rows: Rows, group: int, amount: int) -> int | None:
        """The least limit with which a group gets at least `amount` slices of one period.

        It is in slices of one period, or None if no limit does, nor the group without one.
        Refused as a plan is, then 20 NotFound if the group is no row. The root, row 0, is refused
        by 10 RootLimited.
        """
        limit, = self.ask("least_limit", host, rows, group, amount)
        return None if limit == c.NO_LIMIT else limit

    def least_processors(self, host: Host, rows: Rows, group: int, amount: int) -> int | None:
        """The least number of processors with which a group gets at least `amount` slices.

        It is 1 to 64, of a host of this period and slice, or None if no number does. The
        processors of `host` change nothing but the refusal 1. Refused as a plan is, then
        20 NotFound if the group is no row.
        """
        return self.ask("least_processors", host, rows, group, amount)[0] or None

    def settle(self, host: Host, rows: Rows, followers: Mapping[int, Follower],
               goals: Sequence[OwnerGoal], guaranteed: bool = False) -> Settled:
        """The least numbers of their ranges that owners can set with which groups get at least so
        many slices of one period, each the least beside the others.

        The plan is to give them, or they are to be guaranteed. The weights of `followers` follow
        the numbers of goals that are set at or below them. All else is as the rows say. Refused as
        a plan is, then 20 NotFound if a group or an owner's row is no row, or neither of the two is
        the other or below it.
        """
        columns = Columns.of(rows)
        formulas, floors, bases = (zeros(kind, len(columns)) for kind in (U32, U64, U64))
        for row, each in followers.items():
            formulas[row], floors[row], bases[row] = each
        number, (numbers, stuck) = self.call(
            "settle", len(goals), *self.host(host), *columns.all, formulas, floors, bases,
            *([each[at] for each in goals] for at in range(len(OwnerGoal._fields))),
            int(guaranteed))
        if number:
            raise self.of_rows(number, columns)
        return Settled(numbers.tolist(), stuck == c.NO_LIMIT,
                       stuck if stuck < len(goals) else None)

    def script(self, host: Host, text: bytes) -> Script:
        """The reading of a script on a host: the groups at its end, and the lines that it refuses.

        `text` may be any bytes. Comments change nothing.
        """
        lines = text.count(b"\n") + 1
        number, (*groups, names, at, faults, count, length, refused) = self.call(
            "script", min(lines + 1, MOST_GROUPS), *self.host(host),
            int.from_bytes(os.urandom(8), "big"), array(U8, text), names=len(text) + 1,
            refused_lines=lines, refused_faults=lines)
        if number:
            raise self.refused(number)
        *tree, quotas, periods, bursts, carries = (each[:count] for each in groups)
        told = names[:length].tobytes().decode().split("\n")[:-1]
        return Script(Columns(*tree), told, quotas, periods, bursts, carries,
                      list(zip(at[:refused], faults[:refused])))

    def slices(self, host: Host, usec: int, own_period_us: int = 100000) -> int:
        """The whole slices of one period that a quota or burst allows, rounded down.

        It is in microseconds of its own period.
        """
        return int(self.ask_host("slices", host, usec, own_period_us)[0])

    def period_limit(self, host: Host, quota: int | None, own_period_us: int = 100000,
                     burst: int = 0, carry: int = 0) -> int | None:
        """The slices that a group may use in the next period, None for no limit.

        Quota and burst are in microseconds of its own period, and the carry is the slices of its
        limit that the last period left: the quota plus the carry, at most the quota plus the burst.
        """
        limit, = self.ask_host("period_limit", host, number_or_none(quota, c.NO_LIMIT, "quota"),
                               own_period_us, burst, carry)
        return None if limit == c.NO_LIMIT else limit

    def book(self, host: Host, rows: Rows, quotas: Sequence[int | None], drawn: Sequence[int],
             counters: Counters) -> list[int]:
        """Adds one period to the counters, and gives what each group left of its limit.

        `drawn` are the slices that each group used, as a plan gives them, and `quotas` the slices
        of its limit without what was carried in. Refused as a plan is, and by 50 WrongLength.
        """
        own = [number_or_none(quota, c.NO_LIMIT, "quota") for quota in quotas]
        carries, = self.ask("book", host, rows, column(U64, own, "quota"), drawn, *counters)
        return list(carries)

    def periods(self, host: Host, groups: QuotaColumns, demands: array[int], times: int,
                carries: array[int]) -> Samples:
        """Samples of so many periods each, one after another.

        `demands` has the slices of each group in the first sample, then in the next. `carries` has
        the slices of each limit that the period before left, and is written with those that the
        last one leaves. The check has accepted the plan of each period. Refused by 50 WrongLength,
        then as `planned_host` is, then by 13 to 15 as `period_limit` is, then as a plan is.
        """
        return Samples(*self.ask_host("periods", host, *groups, demands, times, carries,
                                      count=len(demands)))

    def demand(self, host: Host, numerator: int, denominator: int) -> int:
        """The slices of one period that a ratio of CPUs takes, rounded up."""
        return int(self.ask_host("demand", host, numerator, denominator)[0])

    def planned_host(self, host: Host) -> Host:
        """The host that is planned in place of one of any number of CPUs: itself up to 64, else one
        of the same capacity, on which all rows have the same plans.

        Refused by 1 to 3, and by 1 BadProcessors if no host of at most 64 CPUs has the capacity.
        """
        return Host(*self.ask_host("planned_host", host))

    def weight_of_shares(self, shares: int, conversion: str = "linear") -> int:
        """The `cpu.weight` that container runtimes write for `cpu.shares`.

        `linear` is that of runc before 1.3.2 and crun before 1.23, `logarithmic` that of later
        ones.
        """
        weight, _ = self.call("weight_of_shares", 0, shares, CONVERSIONS[conversion])
        return weight

    def told(self, name: str, *read: Any, count: int = 0) -> list[Any]:
        """The writes of a call, columns of so many entries among it."""
        number, written = self.call(name, count, *read)
        if number:
            raise self.refused(number)
        return written

    def owned_weight(self, formula: WeightFormula, number: int) -> int:
        """The `cpu.weight` of a number that an owner set, which may be of any size."""
        return int(self.told("owned_weight", formula, min(number, MOST_WORD))[0])

    def owned_limit(self, formula: LimitFormula, number: int,
                    period_us: int = 0) -> tuple[int | None, int]:
        """The quota of a number that an owner set, None for no limit, and its period, both in
        microseconds. `period_us` is the period that is set beside it, 0 for 100000. Both may be of
        any size."""
        quota, period = self.told("owned_limit", formula, *(min(each, MOST_WORD)
                                                            for each in (number, period_us)))
        return None if quota == c.NO_LIMIT else quota, period

    def least_owned(self, formula: WeightFormula, weight: int) -> int:
        """The least number of those that an owner can set whose weight is at least so much.

        Refused by 12 WeightOutOfRange.
        """
        return int(self.told("least_owned", formula, weight)[0])

    def owned_number(self, formula: WeightFormula, request: int) -> int:
        """The number that is written for a request in thousandths of a CPU."""
        return int(self.told("owned_number", formula, min(request, MOST_WORD))[0])

    def pod_amount(self, kinds: Sequence[PartKind], amounts: Sequence[int]) -> int:
        """The most that the containers of a pod take at any time, in the unit of their amounts."""
        return int(self.told("pod_amount", kinds, amounts)[0])

    def greatest_part(self, kinds: Sequence[PartKind], amounts: Sequence[int], part: int,
                      room: int) -> int | None:
        """The greatest amount of the container at a place with which the pod takes no more than
        some room; None where the others alone take more. Its own amount is not read."""
        greatest = self.told("greatest_part", kinds, amounts, part, room)[0]
        return None if greatest == c.NO_LIMIT else int(greatest)

    def allowed(self, quota: int, period_us: int, burst: int, passed_ns: int) -> int:
        """The nanoseconds that a limit allows in some nanoseconds. Quota, own period and burst are
        in microseconds."""
        return int(self.told("allowed", quota, period_us, burst, passed_ns)[0])

    def lost(self, free: tuple[int, int], held: tuple[int, int]) -> int:
        """The slices that rounds under limits served too little, 0 where limits did no harm.

        Both are the slices that were used and planned: in rounds without limits, and under them.
        Harm is that the part of the plan that is served is more than a twentieth of the plan below
        that of the rounds without limits. Refused by 9 DemandTooLarge.
        """
        return int(self.told("lost", *free, *held)[0])

    def round(self, planned: Sequence[int], used: Sequence[int], asked: Sequence[int],
              hungry: Sequence[bool]) -> tuple[list[int], list[bool], list[int]]:
        """The slices and flags that `hold` reads of leaves, from their readings, and what each was
        not served of the slices that the last plan gave it.

        So the round asks for each leaf what its reading asks. A leaf that would not have used more
        lacks nothing. Refused by 50 WrongLength.
        """
        demands, everything, unserved = self.told(
            "round", planned, used, asked, flag_column(hungry), count=len(used))
        return list(demands), list(map(bool, everything)), list(unserved)

    def swings(self, now: Sequence[int], last: Sequence[int], before: Sequence[int],
               backs: Sequence[int], turns: Sequence[int]) -> tuple[list[int], list[int]]:
        """For how many rounds in a row numbers of groups went back, and turned.

        `now` has the number of each group in this round, `last` that of the last one and `before`
        that of the one before. A number goes back if it is that of two rounds before to a
        twentieth, and a quarter off the last. It turns if it rose and falls, or fell and rises.
        `backs` and `turns` are the counts up to the last round. Refused by 50 WrongLength.
        """
        counts = column(U64, backs, "backs"), column(U64, turns, "turns")
        self.told("swings", now, last, before, *counts)
        return counts[0].tolist(), counts[1].tolist()

    def judged(self, free: Sequence[Sequence[int]], held: Sequence[Sequence[int]]
               ) -> tuple[int, int]:
        """Harm and guesses of the last `JUDGED_ROUNDS` rounds: the slices that limits served too
        little, as `lost` has them, and by how much guesses are more than what was sure.

        `free` are the slices used and planned in each round without limits. `held` are those of
        rounds under limits, then those used by groups that were hungry for sure, and those used
        where that was a guess. Of fewer rounds under limits both are 0. Refused by 50 WrongLength,
        and by 9 DemandTooLarge.
        """
        lost, guessed = self.told("judged", *free, *held)
        return int(lost), int(guessed)

    def let_go(self, backs: Sequence[int], turns: Sequence[int], moved: Sequence[int],
               left: Sequence[int], guessed: Sequence[int], judged: tuple[int, int]
               ) -> tuple[list[bool], int]:
        """Which groups are let go, since limits do harm to them, and the number of the reason.

        `backs` are the counts of `swings` of each group's limit, `turns` those of what it asks for.
        `moved` are the slices by which its use changed in the last rounds, `left` those of its
        plans that it did not use, and `guessed` those that it used on a guess. `judged` is the
        answer of `judged`. 1: limits went back and forth. 2: slices were lost. 3: hunger was
        guessed. 0: nobody goes. Refused by 50 WrongLength.
        """
        go, reason = self.told("let_go", backs, turns, moved, left, guessed, *judged,
                               count=len(backs))
        return list(map(bool, go)), int(reason)

    def rest(self, slices: int, planned: int, own: Sequence[int], others: Sequence[int]
             ) -> tuple[int, int]:
        """The amount and the guarantee of the rest of a host beside a plan of so many slices, of
        which some are planned.

        `own` are the weights of the planned groups' top and of each group above it but the root,
        `others` those of the groups beside each. At each level others have their part by weights.
        Refused by 50 WrongLength, and by 9 DemandTooLarge.
        """
        amount, guarantee = self.told("rest", slices, planned, own, others)
        return int(amount), int(guarantee)
