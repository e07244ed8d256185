"""What a round that holds nobody changes, in a model of a host whose wants move.

    /usr/bin/python3 bench/calm_rounds.py

A round has ten parts. In each part the host serves wants up to the limits, by weights that are off
by up to a factor of two. A group is hungry if it was stopped at its limit, or lacked something in
half of the parts; of those some are not seen. Numbers are of 25 hosts of six groups, 200 rounds.
"""
from __future__ import annotations

import random
from collections.abc import Callable, Iterator, Sequence
from dataclasses import dataclass, field
from typing import NamedTuple

CAPACITY, CPU, PARTS, ROUNDS, HOSTS, GROUPS = 400.0, 100.0, 10, 200, 25, 6
EVERYTHING = 1e6
Wants = Callable[[int], list[float]]


class Kind(NamedTuple):
    """A kind of wants, of so many parts of work and of sleep, and how many hungry are not seen."""

    name: str
    works: int
    sleeps: int
    missed: float
    is_alone: bool = False


KINDS = (Kind("alone, 8 of 38 parts", 8, 30, 0.25, True), Kind("3 of 10 parts", 3, 7, 0.25),
         Kind("20 of 100 parts", 20, 80, 0.25), Kind("30 of 60 parts", 30, 30, 0.25),
         Kind("80 of 100 parts", 80, 20, 0.25), Kind("80 of 100 parts", 80, 20, 0.83))


def shared(weights: Sequence[float], most: Sequence[float]) -> list[float]:
    """The capacity by weights, to each no more than its most."""
    found, left, open_ = [0.0] * len(most), CAPACITY, [at for at, each in enumerate(most) if each]
    while open_:
        each = left / sum(weights[at] for at in open_)
        full = [at for at in open_ if most[at] <= each * weights[at]]
        for at in full or open_:
            found[at] = min(most[at], each * weights[at])
            left -= found[at]
        open_ = [at for at in open_ if at not in full] if full else []
    return found


@dataclass
class Host:
    """Six groups, their limits, and what was counted of their rounds."""

    kind: Kind
    chance: random.Random
    has_calm: bool
    limits: list[float] = field(default_factory=lambda: [CAPACITY] * GROUPS)
    before: list[list[float]] = field(default_factory=list)
    lost: float = 0
    planned: float = 0
    above: int = 0
    turned: int = 0

    def __post_init__(self) -> None:
        choose = self.chance.choice
        self.weights = [float(choose([50, 100, 100, 200, 400])) for _ in range(GROUPS)]
        self.linux = [each * 2 ** self.chance.uniform(-1, 1) for each in self.weights]
        self.tasks = [4 if self.kind.is_alone else choose([1, 1, 2, 4]) for _ in range(GROUPS)]
        self.phases = [self.chance.randrange(1000) for _ in range(GROUPS)]
        self.cycles = [tuple(max(1, int(each * self.chance.uniform(0.5, 1.5))) for each in
                             (self.kind.works, self.kind.sleeps)) for _ in range(GROUPS)]

    def wants(self, part: int) -> Iterator[float]:
        """What each group wants in a part."""
        for at, (works, sleeps) in enumerate(self.cycles):
            is_awake = (part + self.phases[at]) % (works + sleeps) < works
            yield CPU * self.tasks[at] if is_awake and not (self.kind.is_alone and at) else 0.0

    def round(self, number: int) -> None:
        """A round, and the limits of the next one."""
        used, ideal, short = [0.0] * GROUPS, [0.0] * GROUPS, [0] * GROUPS
        for part in range(number * PARTS, (number + 1) * PARTS):
            wants = list(self.wants(part))
            got = shared(self.linux, [min(pair) for pair in zip(wants, self.limits)])
            best = shared(self.weights, wants)
            self.lost += min(CAPACITY - sum(got), sum(wants) - sum(got))
            self.planned += sum(best)
            for at in range(GROUPS):
                used[at] += got[at] / PARTS
                ideal[at] += best[at] / PARTS
                is_stopped = self.limits[at] < CAPACITY and wants[at] > self.limits[at]
                short[at] += PARTS if is_stopped else got[at] < wants[at] - 1e-6
        lacks = any(one < other - 1 for one, other in zip(used, ideal))
        self.above += lacks * sum(one > other + 10 for one, other in zip(used, ideal))
        hungry = [each >= PARTS / 2 and self.chance.random() >= self.kind.missed for each in short]
        self.limit(used, hungry)

    def limit(self, used: list[float], hungry: list[bool]) -> None:
        """The limits of the rule from a reading."""
        could = [max(used[at], CPU * self.tasks[at]) if hungry[at] else used[at]
                 for at in range(GROUPS)]
        asks = [EVERYTHING if hungry[at] and could[at] >= CAPACITY else could[at]
                for at in range(GROUPS)]
        plan, floors = shared(self.weights, asks), shared(self.weights, [CAPACITY] * GROUPS)
        is_calm = all(amount >= ask - 1e-6 for amount, ask in zip(plan, asks))
        room = [could[at] + max(1, could[at] / 8) if plan[at] >= asks[at] - 1e-6 else plan[at]
                for at in range(GROUPS)]
        self.limits = ([CAPACITY] * GROUPS if is_calm and self.has_calm else
                       [min(max(pair), CAPACITY) for pair in zip(floors, room)])
        if len(self.before) == 2:
            two, one = self.before
            self.turned += sum(abs(now - old) <= 2 and abs(now - last) > max(20, now / 5)
                               for now, last, old in zip(self.limits, one, two))
        self.before = [*self.before[-1:], self.limits]


def main() -> None:
    """Prints a table: work lost, groups above their plan while others lacked, limits that turned
    back, each of all in hundredths; first without calm rounds, then with them."""
    print("| Wants | not seen | lost: before, now | above plan | back and forth |\n"
          "|---|---|---|---|---|")
    for kind in KINDS:
        cells = []
        for has_calm in (False, True):
            hosts = [Host(kind, random.Random(seed), has_calm) for seed in range(HOSTS)]
            for host in hosts:
                for number in range(ROUNDS):
                    host.round(number)
            rounds = HOSTS * ROUNDS * GROUPS
            cells.append([sum(each.lost for each in hosts) / sum(each.planned for each in hosts),
                          sum(each.above for each in hosts) / rounds,
                          sum(each.turned for each in hosts) / rounds])
        shown = " | ".join(f"{100 * old:.1f}, {100 * new:.1f}" for old, new in zip(*cells))
        print(f"| {kind.name} | {kind.missed:.2f} | {shown} |")


if __name__ == "__main__":
    main()
