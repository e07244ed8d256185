"""A model of Linux's balancer: where tasks are over time, and what groups have by that.

Each CPU divides its time by the weights of its own queues, and tasks move between CPUs as they do
on Linux 6.1 or 6.12 (kernel/sched/fair.c). A run is a guess: chance decides where tasks begin and
which of them are moved.
"""
from __future__ import annotations

import math
import random
from collections.abc import Iterator, Sequence
from dataclasses import dataclass, field

# Seconds of a run: those that settle, and those that are counted.
SETTLE = 1.0
COUNTED = 3.0
# Half-life of Linux's load averages, a tick, and the greatest load beside another that it lets be.
HALF = 0.032
TICK = 0.004
UNEVEN = 1.17
# Relative spread of measured loads.
NOISE = 0.005
SMALL = 1e-9
# Shortest step of a run: a tick is four.
STEP = 0.001


class TooMuchWork(Exception):
    """A run was more work than it may be."""


@dataclass(eq=False)
class Branch:
    """A group that asks for something, with its limit and its tasks, in seconds, in a run."""

    path: str
    weight: float = 100.0
    above: Branch | None = None
    quota: float = math.inf
    period: float = 0.1
    burst: float = 0.0
    tasks: list[Task] = field(default_factory=list)
    children: list[Branch] = field(default_factory=list)
    # What is left of the quota, when there is more, and what the group had.
    pool: float = math.inf
    refill: float = math.inf
    had: float = 0.0
    # By CPU: its weight, what runs of it (tasks of a leaf, weights of children), and its time.
    on: dict[int, float] = field(default_factory=dict)
    runs: dict[int, float] = field(default_factory=dict)
    time: dict[int, float] = field(default_factory=dict)
    # Whether no limit stops it, and what one of its load is of the host's.
    is_open: bool = True
    part: float = 1.0


@dataclass(eq=False)
class Task:
    """One task: its group, its work of a period in seconds, and where it is."""

    group: Branch
    work: float
    cpu: int = 0
    left: float = 0.0
    load: float = 1.0
    # The part of its CPU that it has, and its load as a part of the host's.
    rate: float = 0.0
    part: float = 0.0


@dataclass
class Shape:
    """The groups of a host that ask for something, each after its parent, and their tasks."""

    processors: int
    period: float
    nodes: list[Branch]
    tasks: list[Task]

    @property
    def is_steady(self) -> bool:
        """Whether all tasks always run: none sleeps and no limit can stop one."""
        return (all(task.work >= self.period for task in self.tasks)
                and all(limit_of(node) >= min(count_below(node), self.processors)
                        for node in self.nodes))


def limit_of(node: Branch) -> float:
    """The limit of a group in CPUs."""
    return node.quota / node.period


def count_below(node: Branch) -> int:
    """Number of the tasks of a group and of those below it."""
    return len(node.tasks) + sum(count_below(child) for child in node.children)


def chain(node: Branch | None) -> Iterator[Branch]:
    """A group and those above it, the root last."""
    while node is not None:
        yield node
        node = node.above


def weigh(node: Branch, above: Branch) -> None:
    """Adds a group's weights on the CPUs to its parent's load."""
    for cpu, load in node.on.items():
        weight = node.on[cpu] = load * node.part
        above.on[cpu] = above.on.get(cpu, 0.0) + weight
        if cpu in node.runs:
            above.runs[cpu] = above.runs.get(cpu, 0.0) + weight


class Run:
    """One run: the tasks of a shape on their CPUs, over time. It ends at `most` work."""

    def __init__(self, shape: Shape, seed: int, most: float = math.inf) -> None:
        self.shape, self.random, self.now = shape, random.Random(seed), 0.0
        self.work, self.most = 0, most
        self.cpus = range(shape.processors)
        # Linux 6.12 lets a busy CPU with spare time pull by load alone; 6.1 by number too.
        self.pulls_by_number = seed % 2 == 0
        self.is_steady, self.is_stale = shape.is_steady, True
        self.wakes = 0.0
        self.failed = [0 for _ in self.cpus]
        self.used = [1.0 for _ in self.cpus]
        self.noise = [1.0 for _ in self.cpus]
        self.renews = 0.0
        self.waits = [shape.processors * 0.001 for _ in self.cpus]
        self.next = [self.random.random() * 0.016 * shape.processors for _ in self.cpus]
        first = self.random.choice(self.cpus) if self.random.random() < 0.5 else None
        for task in shape.tasks:
            task.cpu = self.random.choice(self.cpus) if first is None else first
            task.load, task.left = 1.0 if self.is_steady else 0.5, task.work
        for node in shape.nodes:
            node.pool, node.had = node.quota, 0.0
            node.refill = math.inf if math.isinf(node.quota) else self.random.random() * node.period
        self.here: list[list[Task]] = []

    def look(self) -> None:
        """Works out the weights on each CPU, what runs, and each task's part of its CPU."""
        nodes, self.is_stale = self.shape.nodes, False
        self.work += len(nodes) + len(self.shape.tasks)
        self.here = [[] for _ in self.cpus]
        for node in nodes:
            node.on, node.runs = {}, {}
            node.is_open = node.pool > SMALL and (node.above is None or node.above.is_open)
        for task in self.shape.tasks:
            group, cpu, load, task.rate = task.group, task.cpu, task.load, 0.0
            if group.is_open and task.left > SMALL:
                self.here[cpu].append(task)
                group.runs[cpu] = group.runs.get(cpu, 0.0) + 1
                load = max(load, 1.0)
            group.on[cpu] = group.on.get(cpu, 0.0) + load
        for node in reversed(nodes):
            # A group's weight on a CPU is its weight, times its load there over its load in all.
            node.part = node.weight / max(sum(node.on.values()), 1e-12)
            if node.above is not None:
                weigh(node, node.above)
        self.share(nodes)

    def share(self, nodes: Sequence[Branch]) -> None:
        """Divides each CPU from the root down, and works out each task's part of the load."""
        root = nodes[0]
        root.time, root.part = dict.fromkeys(root.runs, 1.0), 1.0
        for node in nodes[1:]:
            above = node.above or root
            node.time = {cpu: above.time[cpu] * node.on[cpu] / above.runs[cpu]
                         for cpu in node.runs}
            node.part *= above.part
        for task in self.shape.tasks:
            task.part = task.group.part * task.load
        for cpu, tasks in enumerate(self.here):
            for task in tasks:
                task.rate = task.group.time[cpu] / task.group.runs[cpu]

    def moved(self, task: Task, cpu: int) -> None:
        task.cpu, self.is_stale = cpu, True

    def pull_idle(self, cpu: int) -> None:
        """A CPU with nothing to run takes a task of the one with the most."""
        most = max(len(tasks) for tasks in self.here)
        if most > 1:
            source = self.random.choice([each for each in self.here if len(each) == most])
            self.moved(self.random.choice(source), cpu)

    def loads(self) -> list[float]:
        """The measured load of each CPU, as a part of the host's."""
        if self.now >= self.renews:
            self.noise = [self.random.gauss(1, NOISE) for _ in self.cpus]
            self.renews = self.now + self.random.uniform(0.3, 1.5)
        self.work += len(self.shape.tasks) // 4
        parts = [0.0 for _ in self.cpus]
        for task in self.shape.tasks:
            parts[task.cpu] += task.part
        return [load * noise for load, noise in zip(parts, self.noise)]

    def balance(self, cpu: int) -> None:
        """A busy CPU's turn to balance: it pulls, or waits longer."""
        before = self.is_stale
        even = self.has_spare(cpu) or self.pull_load(cpu)
        self.failed[cpu] = 0 if even or self.is_stale != before else self.failed[cpu] + 1
        least = self.shape.processors * 0.001
        self.waits[cpu] = min(2 * self.waits[cpu], 2 * least) if even else least
        ticks = math.ceil(16 * self.waits[cpu] / TICK - 1)
        self.next[cpu] = self.now + ticks * TICK * self.random.uniform(1, 1.1)

    def has_spare(self, cpu: int) -> bool:
        """Whether a CPU is idle for a part of the time; it then pulls by number or not at all."""
        load = sum(task.load for task in self.shape.tasks if task.cpu == cpu)
        if self.used[cpu] * UNEVEN >= 1 or load > UNEVEN:
            return False
        source = max(self.cpus, key=lambda each: len(self.here[each]))
        count = (len(self.here[source]) - len(self.here[cpu])) // 2
        if self.pulls_by_number and count >= 1:
            for task in self.random.sample(self.here[source], count):
                self.moved(task, cpu)
        return True

    def pull_load(self, cpu: int) -> bool:
        """Pulls tasks from the busiest CPU; whether the loads are even enough as they are."""
        loads = self.loads()
        mean = sum(loads) / len(loads)
        source = max((each for each in self.cpus if len(self.here[each]) > 1),
                     key=lambda each: loads[each], default=cpu)
        if (loads[cpu] >= min(loads[source], mean)
                or len(self.here[cpu]) > 1 and loads[source] <= UNEVEN * loads[cpu]):
            return True
        uneven = min(loads[source] - mean, mean - loads[cpu])
        tasks = self.random.sample(self.here[source], len(self.here[source]))
        # One of them runs, and stays.
        for task in tasks[1:]:
            if task.part / 2 ** self.failed[cpu] <= uneven:
                self.moved(task, cpu)
                uneven -= task.part
                if uneven <= 0:
                    break
        return False

    def begin_period(self) -> None:
        """Gives each task its work of a period. Who sleeps wakes on its CPU, or on an idle one."""
        self.wakes = self.now + self.shape.period
        busy = {cpu for cpu in self.cpus if self.here and self.here[cpu]}
        for task in self.random.sample(self.shape.tasks, len(self.shape.tasks)):
            slept = task.left <= SMALL
            task.left = task.work + min(task.left, 0.0)
            if slept and task.cpu in busy:
                idle = [cpu for cpu in self.cpus if cpu not in busy]
                task.cpu = self.random.choice(idle) if idle else task.cpu
            busy.add(task.cpu)
        self.is_stale = True

    def events(self) -> None:
        """The events of now: a period, quotas, and the balancer of each CPU."""
        if not self.is_steady and self.now >= self.wakes - SMALL:
            self.begin_period()
        for node in self.shape.nodes:
            if self.now >= node.refill - SMALL:
                node.pool = min(node.pool + node.quota, node.quota + node.burst)
                node.refill += node.period
                self.is_stale = True
        for cpu in self.cpus:
            if self.is_stale:
                self.look()
            if not self.here[cpu]:
                self.pull_idle(cpu)
                self.next[cpu] = max(self.next[cpu], self.now + TICK)
            elif self.now >= self.next[cpu] - SMALL:
                self.balance(cpu)
        if self.is_stale:
            self.look()

    def step(self, end: float) -> None:
        self.events()
        until = min(end, *self.next)
        if not self.is_steady:
            until = min(until, self.wakes, self.now + 0.02,
                        *(node.refill for node in self.shape.nodes))
        length = max(until - self.now, STEP)
        rates = [sum(node.time.values()) for node in self.shape.nodes]
        for node, rate in zip(self.shape.nodes, rates):
            if node.pool < math.inf and rate > 0:
                length = min(length, max(node.pool / rate, STEP))
        if not self.is_steady:
            for tasks in self.here:
                length = min([length, *(max(task.left / task.rate, STEP) for task in tasks)])
        for node, rate in zip(self.shape.nodes, rates):
            node.had += rate * length
            node.pool -= rate * length
        self.now += length
        if not self.is_steady:
            self.fade(length)

    def fade(self, length: float) -> None:
        """Lets time pass for work and for load averages."""
        keep, self.is_stale = 0.5 ** (length / HALF), True
        for cpu in self.cpus:
            self.used[cpu] = keep * self.used[cpu] + (1 - keep) * bool(self.here[cpu])
        for task in self.shape.tasks:
            task.load = keep * task.load + (1 - keep) * (task.rate > 0)
            task.left -= task.rate * length

    def had(self) -> list[float]:
        """The amounts of each group after the run has settled, in CPUs."""
        self.go_on(SETTLE)
        before, begun = [node.had for node in self.shape.nodes], self.now
        self.go_on(SETTLE + COUNTED)
        return [(node.had - had) / (self.now - begun)
                for node, had in zip(self.shape.nodes, before)]

    def go_on(self, end: float) -> None:
        while self.now < end:
            self.step(end)
            if self.work > self.most:
                raise TooMuchWork
