"""Proposes requests and limits for containers and units from what they used.

The request is a percentile of the use and some headroom, as krr and the vertical pod autoscaler
take it. Where limits are asked for, one is the greatest use of several samples, or what a throttled
container wanted, and the headroom. What each container then gets and is guaranteed is that of plans
that the proved check accepted.
"""
from __future__ import annotations

import math
import re
from collections.abc import Iterable, Mapping, Sequence, Set
from dataclasses import dataclass
from fractions import Fraction
from typing import NamedTuple

from arbiter_host.base import demands, names, units
from arbiter_host.base.demands import Use
from arbiter_host.base.faults import HostFault, NothingFound, UsageFault
from arbiter_host.base.model import Model
from arbiter_host.base.owned import Amounts, Owned, Setting
from arbiter_host.base.plan import Engine, Plan, guarantees, plan
from arbiter_host.sources import prometheus
from arbiter_host.sources.usage import Used, some

# The least request that is proposed, in thousandths of a CPU, as krr has it.
LEAST = 10
TARGET = re.compile(r"p([0-9]{1,3})")
MOST_HEADROOM = 10


@dataclass(frozen=True)
class Rule:
    """The percentile of the use that is requested, the part that is put on top of it, and the
    percentile of limits; None where none are proposed."""

    percent: int = 95
    headroom: Fraction = Fraction(15, 100)
    limit: int | None = None

    def rank(self, count: int) -> int:
        """The place of the percentile among so many samples in order, from 1 on."""
        return max(math.ceil(count * self.percent / 100), 1)

    def words(self, count: int) -> str:
        """The percentile of so many samples."""
        if count == 1:
            return "the one that there is"
        rank = self.rank(count)
        return f"the greatest of {count}" if rank == count else f"number {rank} of {count} in order"

    def with_headroom(self, used: Fraction) -> int:
        """Whole thousandths of a use with the headroom, rounded up."""
        return max(math.ceil(used * (1 + self.headroom)), LEAST)


class SeenHost(NamedTuple):
    """One host: its model, what was seen of its groups, and those that are chosen; None for all."""

    model: Model
    uses: Mapping[str, Use]
    chosen: Set[str] | None = None

    @property
    def kind(self) -> Owned:
        return owned_of(self.model)


@dataclass(frozen=True)
class Proposal:
    """The use of the groups of one owner, and what each requests and may use now and then, in
    thousandths."""

    title: str
    used: Fraction
    use: Use
    now: Amounts
    # Without a limit they keep their own.
    then: Amounts
    # The settings as people write them: what weighs a group and what limits it, now.
    words: tuple[str, str]
    # The groups by the numbers of their hosts, their names for people, and the changes that make
    # the proposal.
    groups: tuple[tuple[int, str], ...]
    titles: tuple[str, ...]
    settings: tuple[tuple[int, Setting], ...]
    # Whether an autoscaler sets how many such groups there are.
    is_scaled: bool = False

    @property
    def most(self) -> Fraction:
        return self.use.values.most

    @property
    def is_throttled(self) -> bool:
        return self.use.wanted > 0

    @property
    def values(self) -> dict[str, str]:
        """The values that change, by their keys."""
        return {each.key: each.value for _, each in self.settings}

    def words_of_set(self, hosts: Set[int]) -> list[str]:
        """The changes on some hosts as `--set` takes them."""
        titles = dict(zip(self.groups, self.titles))
        return [f"{titles[at, each.path]}.{each.key}={each.value}" for at, each in self.settings
                if at in hosts]


class Outcome(NamedTuple):
    """The amounts of a group before and after, its wants and guarantee then, in thousandths."""

    gets_now: Fraction
    gets: Fraction
    wants: Fraction
    guaranteed: Fraction


class Advised(NamedTuple):
    """A proposal, and what comes of it: the least that one of its groups gets."""

    proposal: Proposal
    outcomes: Sequence[Outcome]

    @property
    def least(self) -> Outcome:
        return Outcome(*(min(each) for each in zip(*self.outcomes)))

    @property
    def is_short(self) -> bool:
        """Whether one of its groups gets less than it wants."""
        return any(each.gets < each.wants for each in self.outcomes)


@dataclass(frozen=True)
class Recommendation:
    """All proposals, and the accepted plans in which each container asks for what it used."""

    rule: Rule
    rows: tuple[Advised, ...]
    # The plans of each host before and after.
    plans: tuple[tuple[Plan, Plan], ...]
    # Thousandths that all pods request before and after, and that their nodes have for them.
    requests: tuple[int, int] | None
    allocatable: int | None
    # What is proposed to, and the settings that weigh it and that limit it.
    noun: str
    keys: tuple[str, str]
    # The hosts on which something was chosen.
    chosen: frozenset[int]

    @property
    def percentile(self) -> str:
        """The percentile of so many samples, the fewest and the most of a row."""
        counts = sorted({len(each.proposal.use.values) for each in self.rows})
        spans = [each.proposal.use.span or 0 for each in self.rows]
        many = " to ".join(map(str, dict.fromkeys([counts[0], counts[-1]])))
        is_one = all(len(each.proposal.use.values) == each.proposal.use.groups
                     for each in self.rows) and counts[-1] > 1
        over = (" of one moment" if is_one else f" over {span_words(max(spans))}" if max(spans)
                else "")
        means = " to ".join(dict.fromkeys(map(self.rule.words, (counts[0], counts[-1]))))
        return (f"p{self.rule.percent} of {many} sample{'s' if counts[-1] > 1 else ''}{over}"
                f" is {means}")


def span_words(seconds: Fraction | int) -> str:
    """A time in its greatest unit."""
    of, name = next(((of, name) for of, name in ((86400, "d"), (3600, "h"), (60, "min"))
                     if seconds >= of), (1, "s"))
    return f"{units.decimal(Fraction(seconds, of), 1)} {name}"


def owned_of(model: Model) -> Owned:
    """The settings that people own of a model's source; a fault where nothing is proposed to it."""
    if model.owned is None:
        raise UsageFault("recommend is for pods, containers and units: give what `kubectl get pods"
                         " -o json`, `docker inspect` or `systemctl show` prints, or a tree of"
                         " cgroup v2")
    return model.owned


def rule_of(target: str, headroom: str) -> Rule:
    """The rule of two words such as `p95`, or `p95,max` with limits, and `15%`."""
    percents = [int(match.group(1)) for word in target.split(",", 1)
                if (match := TARGET.fullmatch("p100" if word == "max" else word))]
    if len(percents) <= target.count(",") or not all(1 <= each <= 100 for each in percents):
        raise UsageFault(f"--target {names.shown(target)}: p1 to p100, or max; with limits two of"
                         " them, such as p95,max")
    parsed = units.number_and_unit(headroom)
    if parsed is None or parsed[1] not in ("%", "") or parsed[0] > MOST_HEADROOM * 100:
        raise UsageFault(f"--headroom {names.shown(headroom)}: 0% to {MOST_HEADROOM * 100}%")
    return Rule(percents[0], parsed[0] / 100, *percents[1:])


def of_entries(kind: Owned, entries: Iterable[Used]) -> tuple[dict[str, Use], list[str]]:
    """The uses of groups that others measured, and what is told of entries of no one group."""
    uses, missing = dict[str, Use](), list[str]()
    for entry in entries:
        paths = kind.named(entry.word)
        if len(paths) != 1:
            missing.append(entry.title + (f" ({len(paths)} {kind.noun}s)" if paths else ""))
        elif paths[0] in uses:
            raise HostFault(f"{entry.title}: another one is of the same {kind.noun}")
        else:
            if entry.labels:
                prometheus.check_use(entry.title, entry.amounts,
                                     kind.plain.host.processors, "--used")
            uses[paths[0]] = Use(entry.amounts, times=entry.times)
    return uses, [f"used by no {kind.noun} here, {some(missing)}"] if missing else []


def distinct(words: Iterable[str]) -> str:
    """Words, each once."""
    return ", ".join(dict.fromkeys(words))


def proposal(title: str, hosts: Sequence[SeenHost], groups: Sequence[tuple[int, str]], use: Use,
             rule: Rule) -> Proposal:
    """The request of the groups of one owner, and a limit where limits are asked for, they have
    one, and each was seen more than once. Else they keep their own, and request no more than that.

    In a guaranteed pod the request is the limit, so that its class stays.
    """
    kinds = [(hosts[at].kind, path) for at, path in groups]
    now = Amounts(max(filter(None, (kind.now(path).request for kind, path in kinds)), default=None),
                  min(filter(None, (kind.now(path).limit for kind, path in kinds)), default=None))
    used, limit = demands.percentile(use.values, rule.percent), None
    request = rule.with_headroom(used)
    if now.limit is not None and rule.limit and len(use.values) > use.groups:
        greatest = max(demands.percentile(use.values, rule.limit), use.wanted)
        limit = max(rule.with_headroom(greatest), request)
    most = now.limit if limit is None else limit
    if most is not None:
        is_guaranteed = any(kind.is_guaranteed(path) for kind, path in kinds)
        request = most if is_guaranteed else min(request, most)
    words = [kind.words(path) for kind, path in kinds]
    then, keys = Amounts(request, limit), kinds[0][0].keys
    return Proposal(
        title, used, use, now, then,
        (distinct(one for one, _ in words), distinct(two for _, two in words)), tuple(groups),
        tuple(kind.title(path) for kind, path in kinds), tuple(
            (at, each) for (at, path), (kind, _), own in zip(groups, kinds, words)
            for each in kind.settings(path, then) if each.value != own[keys.index(each.key)]),
        any(kind.is_scaled(path) for kind, path in kinds))


def by_owner(hosts: Sequence[SeenHost]) -> dict[str, Use]:
    """All that was seen of each owner's groups, so that they have one proposal."""
    owners: dict[str, list[Use]] = {}
    for host in hosts:
        for path, use in host.uses.items():
            owners.setdefault(host.kind.owner(path), []).append(use)
        for owner, use in host.kind.elsewhere:
            owners.setdefault(owner, []).append(use)
    return {owner: demands.together(each) for owner, each in owners.items()}


def groups_of(hosts: Sequence[SeenHost], seen: Set[str]) -> dict[str, list[tuple[int, str]]]:
    """The groups of each owner of which something was seen and one is chosen."""
    owners: dict[str, list[tuple[int, str]]] = {}
    chosen = set()
    for at, host in enumerate(hosts):
        for path in host.kind.own:
            owner = host.kind.owner(path)
            if owner in seen:
                owners.setdefault(owner, []).append((at, path))
                chosen |= {owner} if host.chosen is None or path in host.chosen else set()
    return {owner: each for owner, each in owners.items() if owner in chosen}


def asking(model: Model, asked: Sequence[Fraction | None]) -> Model:
    """A model whose groups ask for what was used, in order. One without stays as it is."""
    for group, demand in zip(model.groups.values(), asked, strict=True):
        group.demand = group.demand if demand is None else demand
    return model


def compared(engine: Engine, host: SeenHost, whole: Mapping[str, Use], rule: Rule,
             settings: Sequence[Setting]) -> tuple[Plan, Plan]:
    """The plans of a host before and after, in which each group asks for what its owner's used at
    the percentile."""
    kind, asked = host.kind, list[Fraction | None]()
    for path in host.model.groups:
        use = whole.get(kind.owner(path)) if kind.has(path) else None
        asked.append(demands.percentile(use.values, rule.percent) if use else None)
    changed = kind.changed(settings).model()
    return (plan(engine, asking(host.model.copy(), asked)),
            plan(engine, asking(changed, asked)))


def outcomes(before: Plan, after: Plan, paths: Sequence[str]) -> dict[str, Outcome]:
    """The outcome of a change for some groups, which may move, by their paths before."""
    rows = before.by_path()
    then = [after.groups[rows[path].row] for path in paths]
    return {path: Outcome(before.thousandths(rows[path].gets), after.thousandths(group.gets),
                          after.thousandths(group.want), after.thousandths(owed))
            for path, group, owed in zip(paths, then, guarantees(after, then))}


def recommended(engine: Engine, hosts: Sequence[SeenHost], rule: Rule) -> Recommendation:
    """The proposals for the owners of chosen groups of which something was seen."""
    kind, whole = hosts[0].kind, by_owner(hosts)
    if not whole:
        raise HostFault(f"nothing was seen of any {kind.noun} here: --used says what they used")
    owners = groups_of(hosts, whole.keys())
    if not owners:
        raise NothingFound(f"nothing was seen of any {kind.noun} that is chosen")
    proposals = [proposal(owner, hosts, groups, whole[owner], rule)
                 for owner, groups in owners.items()]
    own: dict[int, list[str]] = {}
    for at, path in (group for one in proposals for group in one.groups):
        own.setdefault(at, []).append(path)
    plans = {at: compared(engine, hosts[at], whole, rule, [
        each for one in proposals for of, each in one.settings if of == at]) for at in own}
    by_host = {at: outcomes(*plans[at], paths) for at, paths in own.items()}
    totals = [(hosts[at].kind.totals(), owned_of(after.model).totals())
              for at, (_, after) in plans.items()]
    known = [(now, then) for now, then in totals if now and then]
    room = [most for (_, most), _ in known if most is not None]
    return Recommendation(
        rule, tuple(Advised(one, [by_host[at][path] for at, path in one.groups])
                    for one in proposals), tuple(plans.values()),
        (sum(now for (now, _), _ in known), sum(then for _, (then, _) in known))
        if known else None, sum(room) if len(room) == len(plans) else None, kind.noun, kind.keys,
        frozenset(at for at, host in enumerate(hosts) if host.chosen != frozenset()))
