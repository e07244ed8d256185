"""Draws hosts by a seed, as scripts for `./test --kernel`.

A model that was frozen before its seed is named has not been made for them. So who judges it names
a seed that nobody knew, and a third can draw the same hosts again.
"""
from __future__ import annotations

import random
from collections.abc import Iterator

PERIOD, SLICE = 100000, 1000
WEIGHTS = {"top": (20, 50, 100, 200, 300, 800), "below": (30, 100, 100, 250, 500)}
NAMES = "xyz"
# Parts of hosts: with limits, of top groups with groups below, of limits, of tasks that sleep.
LIMITED, NESTED, QUOTA, SLEEPING = 0.5, 0.4, 0.4, 0.3
MOST_TASKS = 4


class Host:
    """A host as it is drawn: the lines of its script, and the tasks of its groups."""

    def __init__(self, name: str, seed: str) -> None:
        self.random, self.name = random.Random(f"{seed} {name}"), name
        self.processors = self.random.choice((2, 2, 3, 4, 4))
        self.has_limits = self.random.random() < LIMITED
        self.lines: list[str] = []
        self.tasks: dict[str, int] = {}
        self.asked = 0

    def group(self, path: str, kind: str) -> None:
        """Makes a group with its weight."""
        self.lines += [f"mkdir {path}",
                       f"write {path} cpu.weight {self.random.choice(WEIGHTS[kind])}"]

    def limit(self, path: str) -> None:
        """Gives a group a limit, on some hosts and to some groups: an eighth of the host to all."""
        if self.has_limits and self.random.random() < QUOTA:
            thousands = self.random.randint(100 * self.processors // 8, 100 * self.processors)
            self.lines.append(f"write {path} cpu.max {thousands * 1000} {PERIOD}")

    def leaf(self, path: str) -> None:
        """Gives a group its tasks, which are always busy or sleep for a part of each period."""
        count = self.random.randint(1, MOST_TASKS)
        most = min(count, self.processors) * PERIOD // SLICE
        is_busy = self.random.random() >= SLEEPING
        demand = most if is_busy else self.random.randint(most // 10, most)
        self.tasks[path] = count
        self.asked += demand
        self.lines.append(f"demand {path} {demand}")

    def draw(self) -> None:
        """Draws two to four groups, some with two or three below them."""
        for number in range(self.random.randint(2, 4)):
            path = f"g{number}"
            self.group(path, "top")
            self.limit(path)
            if self.random.random() >= NESTED:
                self.leaf(path)
                continue
            for name in NAMES[:self.random.randint(2, 3)]:
                self.group(f"{path}/{name}", "below")
                self.leaf(f"{path}/{name}")

    @property
    def is_contended(self) -> bool:
        """Whether more is asked for than there is, so that weights decide something."""
        return self.asked > self.processors * PERIOD // SLICE

    def script(self, seed: str) -> str:
        """The script, with its options."""
        settings = [line for line in self.lines if not line.startswith("demand ")]
        demands = [line for line in self.lines if line.startswith("demand ")]
        tasks = " ".join(f"--tasks {path}={count}" for path, count in self.tasks.items())
        return "\n".join([f"# a host drawn by seed {seed}",
                          f"#: --processors {self.processors} --unjudged drawn {tasks}",
                          *settings, *demands]) + "\n"


def drawn(seed: str, count: int) -> Iterator[tuple[str, str]]:
    """The names and the scripts of so many hosts of a seed, each of which asks for more than it
    has."""
    number = 0
    while count > 0:
        host = Host(f"drawn-{seed}-{number}", seed)
        host.draw()
        number += 1
        if host.is_contended:
            yield host.name, host.script(seed)
            count -= 1
