"""Traces with tasks that wait for some CPUs, leaves that limits stop, and late turns.

The proved rule knows limits alone. Here it is stated with all: a leaf is held back at a pick if a
limit stops it, or if each of its tasks that wait does so for other CPUs. Then others go first. In a
trace without terms a leaf that wakes is not lifted to the clock of one that all CPUs are kept from,
but further. A task that has waited for long has a turn past the rule. All these are counted.
"""
from __future__ import annotations

from collections import Counter
from collections.abc import Callable, Iterator, Sequence
from dataclasses import dataclass, field, replace
from fractions import Fraction

# What the proved program does not read.
MORE = ("bound ", "late ", "limit ", "under ", "refill ")
# What a pick or a wake is.
ALLOWED, WRONG = "allowed", "wrong"
BOUND, STOPPED, LIFTED = "before a bound task", "before a stopped leaf", "lifted over one held back"
LATE = "out of turn"
# Parts of a CPU, and the most that a leaf keeps of its lead at a new plan, in slices.
ONE_CPU, MOST_LEAD = 1 << 20, 32


@dataclass(frozen=True)
class Terms:
    """The quantum, the slack and the credit in nanoseconds."""

    quantum: int = 0
    slack: int = 0
    credit: int = 0


@dataclass
class Leaf:
    """A leaf: its amount, its guarantee in parts of a CPU, what it holds of that in such parts of a
    nanosecond, its charge in nanoseconds, its tasks, those that wait for some CPUs by the mask of
    these, and whether it is stopped at its limit."""

    amount: int
    guarantee: int = 0
    held: int = 0
    charged: int = 0
    waiting: int = 0
    running: int = 0
    bound: Counter[int] = field(default_factory=Counter)
    is_stopped: bool = False

    @property
    def rate(self) -> int:
        """The part of its guarantee that its tasks can use now."""
        return min((self.waiting + self.running) * ONE_CPU, self.guarantee)

    def is_due(self, terms: Terms) -> bool:
        """Whether it is behind its guarantee by the slack."""
        return self.rate > 0 and self.held >= terms.quantum * ONE_CPU + self.rate * terms.slack

    def deadline(self, terms: Terms) -> int:
        """Nanoseconds until a quantum more is owed, rounded up."""
        return -((self.held - 2 * terms.quantum * ONE_CPU) // self.rate)

    def is_before(self, other: Leaf, terms: Terms) -> bool:
        """Whether it goes before another leaf: due ones by deadline, then the least clock."""
        due, its = self.is_due(terms), other.is_due(terms)
        if due != its:
            return due
        if due:
            return self.deadline(terms) < other.deadline(terms)
        return self.charged * other.amount < other.charged * self.amount

    def settled(self, slice_ns: int) -> int:
        """Its charge without the slices that are charged in advance."""
        return max(self.charged - slice_ns * self.running, 0)

    def credit(self, terms: Terms) -> int:
        """What it keeps while it wants nothing."""
        return terms.quantum * ONE_CPU + self.guarantee * terms.credit

    def passed(self, nanoseconds: int, terms: Terms) -> None:
        """Time passes."""
        if (self.waiting or self.running) and not self.is_stopped:
            self.held += self.rate * nanoseconds
        elif self.held < self.credit(terms):
            self.held = min(self.held + self.guarantee * nanoseconds, self.credit(terms))

    def pay(self, terms: Terms) -> int:
        """Pays a quantum in advance. Returns what was paid."""
        paid = min(self.held, terms.quantum * ONE_CPU)
        self.held -= paid
        return paid

    def give_back(self, held_ns: int, paid: int, terms: Terms) -> None:
        """Gives back what was not used of a quantum."""
        left = (terms.quantum - held_ns) * ONE_CPU
        self.held = self.held + min(left, paid) if left > 0 else max(self.held + left, 0)

    @property
    def is_seen(self) -> bool:
        """Whether its clock counts where others wake: it wants to run, and no limit stops it."""
        return self.running > 0 or self.waiting > 0 and not self.is_stopped

    @property
    def is_ready(self) -> bool:
        """Whether any CPU may take a task of it."""
        return not self.is_stopped and self.waiting > self.bound.total()

    def held_back(self, cpu: int) -> str:
        """Why a CPU may take no task of it; empty if it may."""
        if self.is_stopped:
            return STOPPED
        may = self.is_ready or any(mask >> cpu % 64 & 1 for mask in +self.bound)
        return "" if may else BOUND


@dataclass
class Run:
    """A leaf that a processor runs, what was paid for it, and since when."""

    row: int
    paid: int
    since: int


def words_of(trace: str) -> Iterator[tuple[str, list[int]]]:
    """The first word of each line, and its numbers."""
    for line in trace.splitlines():
        name, *numbers = line.split()
        yield name, [*map(int, numbers)]


class Replay:
    """A trace that is replayed step by step: how many picks and wakes are of each kind, and the
    lines that the proved program reads. Where tasks wait for other CPUs they are picked by
    processors of their own, and given back by them after the pick, as if these had ended at once.
    """

    def __init__(self, trace: str) -> None:
        self.slice = self.count = self.now = 0
        self.terms = Terms()
        self.leaves, self.runs = list[Leaf](), dict[int, Run]()
        self.found, self.lines = Counter[str](), list[str]()
        # The level of clocks at a new plan: a charge and an amount.
        self.level_now = (0, 1)
        self.most_away = self.most_held = 0
        self.is_late = False
        steps: dict[str, Callable[..., None]] = {
            "processors": self.processors, "slice": self.set_slice, "terms": self.set_terms,
            "leaf": self.leaf, "pass": self.passed, "wake": self.wake, "pick": self.pick,
            "end": self.end, "leave": self.leave, "level": self.set_level, "give": self.give,
            "cut": self.cut, "bound": self.bound, "stop": self.stop, "late": self.late,
            **dict.fromkeys(("limit", "under", "refill"), lambda *_: None)}
        for line, (name, numbers) in zip(trace.splitlines(), words_of(trace)):
            if name != "pick" and not line.startswith(MORE):
                self.lines.append(line)
            steps[name](*numbers)

    @property
    def text(self) -> str:
        """The lines for the proved program."""
        # (so many that what a leaf is owed is bounded by cuts alone while it is held back)
        enough = self.most_held // max(2 * self.terms.quantum * ONE_CPU, 1) + 1
        most = self.count + self.most_away
        head = f"processors {max(most, enough) if self.most_away else most}"
        return "\n".join([head, *self.lines[1:]]) + "\n"

    def processors(self, count: int) -> None:
        """The processors of the trace."""
        self.count = count

    def set_slice(self, slice_ns: int) -> None:
        """The slice in nanoseconds."""
        self.slice = slice_ns

    def set_terms(self, *terms: int) -> None:
        """The quantum, the slack and the credit."""
        self.terms = Terms(*terms)

    def leaf(self, _: int, amount: int, guarantee: int = 0) -> None:
        """A leaf more. What it is owed is 0."""
        self.leaves.append(Leaf(amount, guarantee, self.terms.quantum * ONE_CPU))

    def passed(self, nanoseconds: int) -> None:
        """Time passes."""
        self.now += nanoseconds
        for leaf in self.leaves:
            leaf.passed(nanoseconds, self.terms)

    def capped(self, row: int) -> Leaf:
        """A leaf before a step of it: it holds no more than the most."""
        leaf, terms = self.leaves[row], self.terms
        leaf.held = min(leaf.held, 2 * self.count * terms.quantum * ONE_CPU
                        + leaf.guarantee * terms.credit)
        return leaf

    def level(self, leaf: Leaf, those: Sequence[Leaf]) -> int:
        """The least settled clock of leaves as a charge to one. Where nobody wants it is the
        greatest clock of all."""
        charges = [leaf.amount * each.settled(self.slice) // each.amount for each in those]
        return min(charges) if charges else max(
            leaf.amount * each.charged // each.amount for each in self.leaves)

    def wake(self, row: int, tasks: int) -> None:
        """Tasks of a leaf want to run."""
        leaf = self.capped(row)
        by_rule = leaf.charged
        if not leaf.waiting and not leaf.running:
            by_rule = max(leaf.charged, self.level(leaf, self.wanting()))
            leaf.charged = max(leaf.charged, self.level(leaf, self.seen()))
        leaf.waiting += tasks
        if leaf.charged != by_rule:
            self.found[LIFTED] += 1
            self.charge(row, by_rule)

    def charge(self, row: int, by_rule: int) -> None:
        """A leaf that wakes is lifted further than the rule lifts it: the text has a run of it, by
        a processor of its own, that uses the rest at once."""
        leaf = self.leaves[row]
        woken = replace(leaf, charged=by_rule)
        away = self.away([each for each, other in enumerate(self.leaves)
                          if other.waiting and not other.is_stopped and other is not leaf],
                         woken)
        at = self.count + len(away)
        self.most_away = max(self.most_away, len(away) + 1)
        self.most_held = max(self.most_held, leaf.held)
        picked = enumerate([*away, row], self.count)
        self.lines += [f"pick {each} {other}" for each, other in picked]
        self.lines.append(f"end {at} {leaf.charged - by_rule} 1")
        self.lines += [f"end {each} 0 1" for each in range(self.count, at)]

    def pick(self, processor: int, row: int) -> None:
        """A processor takes a task. Before there were terms a CPU was two processors."""
        cpu = processor if self.terms.quantum else processor // 2
        # (compared by all that it is owed, and bounded by the step)
        leaf = self.leaves[row]
        before = {each: other.held_back(cpu) for each, other in enumerate(self.leaves)
                  if other.waiting and other.is_before(leaf, self.terms)}
        is_wrong = processor in self.runs or not leaf.waiting or (
            leaf.is_stopped and not self.is_late)
        kind = LATE if self.is_late else min(before.values(), default=ALLOWED)
        self.is_late = False
        self.found[kind if kind and not is_wrong else WRONG] += 1
        away = self.away([each for each, why in before.items()
                          if why == BOUND or kind == LATE and why != STOPPED], leaf)
        self.lines += [f"pick {at} {each}" for at, each in enumerate(away, self.count)]
        # (a late turn may be one of a leaf that a limit stops)
        goes = kind == LATE and leaf.is_stopped
        self.lines += [f"stop {row} 0"] * goes + [f"pick {processor} {row}"]
        self.lines += [f"stop {row} 1"] * goes
        self.lines += [f"end {at} 0 1" for at in range(self.count, self.count + len(away))]
        self.capped(row)
        leaf.charged += self.slice
        leaf.waiting -= 1
        leaf.running += 1
        self.runs[processor] = Run(row, leaf.pay(self.terms), self.now)

    def away(self, rows: Sequence[int], leaf: Leaf) -> list[int]:
        """The rows of tasks that are picked by processors of their own, in order."""
        found = list[int]()
        left = {row: replace(self.leaves[row]) for row in rows}
        while True:
            waits = [row for row, each in left.items()
                     if each.waiting and each.is_before(leaf, self.terms)]
            if not waits:
                self.most_away = max(self.most_away, len(found))
                self.most_held = max([self.most_held, *(self.leaves[row].held for row in found)])
                return found
            first = waits[0]
            for row in waits[1:]:
                if left[row].is_before(left[first], self.terms):
                    first = row
            left[first].charged += self.slice
            left[first].pay(self.terms)
            left[first].waiting -= 1
            left[first].running += 1
            found.append(first)

    def end(self, processor: int, used: int, remains: int) -> None:
        """The end of a slice. What a leaf wants no more it does not keep beyond its credit."""
        run = self.runs.pop(processor)
        leaf = self.capped(run.row)
        before = leaf.rate
        leaf.give_back(self.now - run.since, run.paid, self.terms)
        leaf.charged += used - self.slice
        leaf.running -= 1
        leaf.waiting += remains
        if leaf.rate < before:
            self.cut(run.row)

    def leave(self, row: int) -> None:
        """A task that waits leaves."""
        leaf = self.capped(row)
        before = leaf.rate
        leaf.waiting -= 1
        if leaf.rate < before:
            self.cut(row)

    def wanting(self) -> list[Leaf]:
        """The leaves that want, but those that wait at their limit with all of their tasks."""
        return [each for each in self.leaves if each.is_seen]

    def seen(self) -> list[Leaf]:
        """Those whose clocks count: before there were terms none that no CPU may take."""
        return [each for each in self.wanting()
                if each.running or self.terms.quantum or each.is_ready]

    def set_level(self) -> None:
        """The level of a new plan: the least settled clock of those that want."""
        wants = self.wanting()
        if wants:
            least = min(wants, key=lambda each: Fraction(each.settled(self.slice), each.amount))
            self.level_now = least.settled(self.slice), least.amount
        else:
            most = max(self.leaves, key=lambda each: Fraction(each.charged, each.amount))
            self.level_now = most.charged, most.amount

    def give(self, row: int, amount: int, guarantee: int) -> None:
        """A new plan gives a leaf an amount and a guarantee. It keeps its lead."""
        leaf = self.capped(row)
        charge, of = self.level_now
        lead = max(leaf.charged - charge * leaf.amount // of, 0)
        leaf.charged = charge * amount // of + min(lead, MOST_LEAD * self.slice)
        leaf.amount, leaf.guarantee = amount, guarantee

    def cut(self, row: int) -> None:
        """A leaf keeps no more than its credit."""
        leaf = self.capped(row)
        leaf.held = min(leaf.held, leaf.credit(self.terms))

    def bound(self, row: int, mask: int, waits: int) -> None:
        """A task waits for some CPUs, or no longer."""
        self.leaves[row].bound[mask] += 1 if waits else -1

    def stop(self, row: int, is_stopped: int) -> None:
        """A limit stops a leaf, which keeps its credit, or stops it no longer."""
        self.leaves[row].is_stopped = bool(is_stopped)
        if is_stopped:
            self.cut(row)

    def late(self, _: int) -> None:
        """The next pick is out of turn."""
        self.is_late = True


def proved_lines(trace: str) -> str:
    """The lines of a trace that the proved program reads."""
    return "".join(line for line in trace.splitlines(keepends=True) if not line.startswith(MORE))
