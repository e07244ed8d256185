"""Rounds over a source: what each group wants, what the plan gives it, what it got, and alerts."""
from __future__ import annotations

import re
import time
from collections.abc import Callable, Iterator, Mapping, Sequence
from dataclasses import dataclass, field
from fractions import Fraction
from typing import Any, NamedTuple

from arbiter_host.base import demands, names, output, units
from arbiter_host.base.demands import Measured
from arbiter_host.base.faults import HostFault, UsageFault
from arbiter_host.base.model import NO_POD, PodNames, bind
from arbiter_host.base.names import shown
from arbiter_host.base.plan import Engine, Plan, plan
from arbiter_host.sources import readings
from arbiter_host.sources.times import Sleep, Times, turns

CONDITION = re.compile(r"(starved|throttled|lack|off)(?:>(.+?))?(?: +for +([0-9]{1,6}))?")
# Failed rounds in a row that end the command.
MOST_FAILED = 2
# The labels of a pod and its container, as kube-state-metrics has them.
POD_LABELS = ("namespace", "pod", "container")
# Seconds after which is asked again for the names of pods.
SECONDS = 60
AskNames = Callable[[], Mapping[str, PodNames]]


@dataclass(frozen=True)
class GroupFigures:
    """One group in one round. Amounts are thousandths of a CPU; None where nothing was measured."""

    path: str
    title: str
    plan: Fraction
    want: Fraction
    # Its use, and the part of its periods in which it was throttled.
    got: Fraction | None
    throttled: Fraction | None
    is_starved: bool
    is_leaf: bool
    pod: PodNames = NO_POD

    @property
    def off(self) -> Fraction | None:
        """By how much it got more than the plan gives it; below 0 where it got less."""
        return None if self.got is None else self.got - self.plan

    def value(self, key: str, is_named: bool = False) -> Fraction | None:
        """The number that a condition compares; None where nothing was measured for it.

        Groups with children are compared by `throttled`, and where a condition names them.
        """
        if key == "throttled":
            return self.throttled
        if not (self.is_leaf or is_named):
            return None
        if key == "off":
            return None if self.off is None else abs(self.off)
        return Fraction(self.is_starved) if key == "starved" else self.want - self.plan


class Condition(NamedTuple):
    """When there is an alert: a key, the value that has to be exceeded, and which groups."""

    words: str
    key: str
    least: Fraction
    group: str = ""
    # The rounds in a row for which it has to hold.
    rounds: int = 1

    def is_of(self, figures: GroupFigures) -> bool:
        shape = names.pattern(self.group)
        return (self.group in ("", figures.path, figures.title)
                or figures.path.endswith(f"/{self.group}")
                or any(shape.fullmatch(each) for each in (figures.path, figures.title)))

    def holds(self, figures: GroupFigures) -> bool:
        value = figures.value(self.key, bool(self.group) and "*" not in self.group)
        return value is not None and value > self.least and self.is_of(figures)


def least_of(key: str, word: str | None) -> Fraction:
    """The value behind `>`: a part of the periods in percent, or an amount of CPU."""
    if word is None:
        return Fraction(0)
    if key == "starved":
        raise HostFault("starved has no number")
    if key == "throttled":
        parsed = units.number_and_unit(word)
        if parsed is None or parsed[1] != "%" or parsed[0] > 100:
            raise HostFault(f"{word!r} is no part of the periods: write 5%")
        return parsed[0] / 100
    return units.parse_cpu(word)


def condition_of(word: str) -> Condition:
    """The condition of a word such as `web/*:throttled>5% for 4`."""
    group, _, rest = word.rpartition(":")
    match = CONDITION.fullmatch(rest.rstrip())
    if not match or match.group(3) and int(match.group(3)) < 1:
        raise UsageFault(f"--alert {shown(word)}: not [GROUP:]starved, throttled>5%, lack>250m or"
                         " off>250m, and `for 4` behind it")
    key, least, rounds = match.groups()
    try:
        return Condition(word, key, least_of(key, least), group, int(rounds or 1))
    except HostFault as fault:
        raise UsageFault(f"--alert {shown(word)}: {shown(fault.message)}") from fault


def conditions(text: str) -> list[Condition]:
    """The conditions of a text such as `starved,web/*:throttled>5%,lack>250m for 4`."""
    return [condition_of(word.strip()) for word in text.split(",") if word.strip()]


class Alert(NamedTuple):
    """An alert of a group, with its names in Kubernetes where they are known."""

    condition: str
    group: str
    pod: PodNames = NO_POD

    def data(self, key: str) -> dict[str, str]:
        """It as data, its condition by a key."""
        of_pod = {name: each for name, each in zip(POD_LABELS, self.pod) if each}
        return {key: self.condition, "group": self.group, **of_pod}


@dataclass
class PlannedRound:
    """The plan of one round, and what is known of each group by path."""

    plan: Plan
    got: Mapping[str, Fraction] = field(default_factory=dict)
    throttled: Mapping[str, Fraction] = field(default_factory=dict)

    def figures(self) -> list[GroupFigures]:
        """The figures of each group, the root first."""
        cpu = self.plan.thousandths
        return [GroupFigures(each.path, each.title, cpu(each.gets), cpu(each.want),
                             self.got.get(each.path), self.throttled.get(each.path),
                             each.is_starved, not each.children,
                             each.group.pod if each.group else NO_POD)
                for each in self.plan.groups]


def alerts(figures: Sequence[GroupFigures], wanted: Sequence[Condition]) -> list[Alert]:
    """The alerts of a round."""
    return [Alert(each.words, group.path, group.pod) for each in wanted for group in figures
            if each.holds(group)]


def missing(figures: Sequence[GroupFigures], wanted: Sequence[Condition]) -> list[str]:
    """Warnings of conditions whose group is not there."""
    return [f"--alert {each.words}: no group {each.group} is there" for each in wanted
            if not any(map(each.is_of, figures))]


def with_use(plan_: Plan) -> PlannedRound:
    """A plan with what its source tells that groups used."""
    model = plan_.model
    seen = model.owned.seen() if model.owned else {}
    return PlannedRound(plan_, {path: use.values.mean for path, use in seen.items()}, {
        path: use.throttled for path, use in seen.items() if use.throttled is not None})


class Watched:
    """A tree that is read again and again. Each look is compared with the last."""

    def __init__(self, engine: Engine, tree: readings.Tree, want: str, ask: AskNames | None = None,
                 warn: Callable[[str], None] = output.warn) -> None:
        self.engine, self.tree, self.want, self.ask, self.warn = engine, tree, want, ask, warn
        # The folders without names for which was asked, and the second from which on is again.
        self.unnamed, self.again = set[str](), 0.0
        if ask:
            tree.pods = ask()
        self.last = tree.look()

    def name(self, look: readings.TreeReading) -> None:
        """Asks for names again where pods or containers came that have none, at most once a minute.
        """
        if self.ask and look.unnamed - self.unnamed and time.monotonic() >= self.again:
            self.unnamed, self.again = look.unnamed, time.monotonic() + SECONDS
            try:
                self.tree.pods = self.ask()
            except HostFault as fault:
                self.warn(fault.message)

    def round(self) -> PlannedRound:
        """Reads the tree, and plans it. Groups that came since the last look want nothing."""
        last, now = self.last, self.tree.look()
        self.name(now)
        self.last, seconds = now, max(now.at - last.at, Fraction(1, 10**6))
        measured, got, throttled = {}, {}, {}
        for path in now.counted:
            span, tasks = readings.between(last, now, path), now.tasks.get(path)
            if isinstance(span, str):
                measured[path] = Measured(tasks=tasks)
                continue
            measured[path] = span.measured(tasks)
            got[path] = units.thousandths_of_usage(span.risen.usage or 0, seconds)
            periods, stopped = span.risen.periods, span.risen.throttled
            if periods is not None and stopped is not None:
                throttled[path] = Fraction(min(stopped, periods), max(periods, 1))
        bind(now.model, now.bound)
        demands.set_demands(now.model, measured, self.want, seconds)
        demands.stop(now.model, now.frozen, "frozen")
        return PlannedRound(plan(self.engine, now.model), got, throttled)


class State:
    """State between rounds: the number of rounds, and alerts that hold."""

    def __init__(self, wanted: Sequence[Condition]) -> None:
        self.wanted, self.rounds = wanted, 0
        self.needed = {each.words: each.rounds for each in wanted}
        # The rounds in a row in which each alert held, and those that were raised and hold: they
        # have held for as many as they need.
        self.standing: dict[Alert, int] = {}
        self.held: list[Alert] = []

    def take(self, figures: Sequence[GroupFigures]) -> list[Alert]:
        """Takes a round. Returns the alerts that it raises."""
        self.rounds += 1
        self.standing = {each: self.standing.get(each, 0) + 1
                         for each in alerts(figures, self.wanted)}
        self.held = [each for each, count in self.standing.items()
                     if count >= self.needed[each.condition]]
        return [each for each in self.held
                if self.standing[each] == self.needed[each.condition]]


def line_of(state: State, round_: PlannedRound) -> dict[str, Any]:
    """The line of JSON of a round."""
    root = round_.plan.root
    return {"round": state.rounds, "wanted_cpus": float(round_.plan.thousandths(root.want) / 1000),
            "planned_cpus": float(round_.plan.thousandths(root.gets) / 1000),
            "alerts": [each.data("alert") for each in state.held]}


def rounds_of(read: Callable[[], PlannedRound], times: Times, first: int,
              warn: Callable[[str], None], sleep: Sleep = time.sleep
              ) -> Iterator[PlannedRound]:
    """Rounds from a reading on. One that fails may pass, unless it is the only one."""
    failed = 0
    for _ in turns(times, sleep=sleep, first=first):
        try:
            found = read()
        except HostFault as fault:
            failed += 1
            if failed >= MOST_FAILED or times.number == first + 1:
                raise
            warn(fault.message)
            continue
        failed = 0
        yield found
