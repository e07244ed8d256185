"""Settings that people own: requests, quotas and shares, of which a source makes its groups.

A change of one is made in what the source has read, and the model is made again. So weights and
limits follow by the source's own formulas. Of the two settings of a group one weighs it and the
other limits it. A request in thousandths of a CPU is written as what weighs: the request of a
container of a pod, 1024 shares of docker for each CPU, 100 of CPUWeight of a unit for each CPU.
"""
from __future__ import annotations

import functools
from collections.abc import Callable, Mapping, Sequence
from contextlib import suppress
from dataclasses import dataclass, field, replace
from fractions import Fraction
from typing import NamedTuple

from arbiter import Follower, Host, WeightFormula
from arbiter_host.base import demands, names, units
from arbiter_host.base.demands import Use
from arbiter_host.base.faults import HostFault
from arbiter_host.base.model import Model

# The keys of such settings, and the sources that have them.
KEYS = {"request": "pods", "limit": "pods", "CPUWeight": "units", "CPUQuota": "units",
        "cpus": "containers", "cpu-shares": "containers"}
# Words that take a setting away.
NONE = ("none", "max", "infinity", "")


class Setting(NamedTuple):
    """A change: the group that has it, the key, and the value as it was written."""

    path: str
    key: str
    value: str

    def fault(self, words: str) -> HostFault:
        """A fault that names the setting."""
        value = names.shown(self.value[:60])
        return HostFault(f"{names.shown(self.path)}.{self.key}={value}: {words}")

    def cpu(self) -> Fraction | None:
        """Its value in thousandths of a CPU; None where it takes the setting away."""
        try:
            return None if self.value in NONE else units.parse_cpu(self.value)
        except HostFault as fault:
            raise self.fault(fault.message) from fault


class Range(NamedTuple):
    """The values of a setting that can be asked for, as whole numbers. In each part, from its first
    number to its last, a greater number takes nothing from the group."""

    key: str
    # Present value of the setting, as it is written.
    now: str
    parts: Sequence[tuple[int, int]]
    # A number as the setting is written.
    written: Callable[[int], str]
    # Why no greater number is asked for.
    most: str
    # The number that stands; None where none is set, or none in these units.
    standing: int | None = None

    def parts_from(self, number: int) -> list[tuple[int, int]]:
        """The parts, without the numbers below one."""
        return [(max(first, number), last) for first, last in self.parts if last >= number]


class Followers(NamedTuple):
    """The groups whose weights follow settings that weigh some groups, and for each of these the
    highest group whose number has its own among what it sums."""

    groups: Mapping[str, Follower]
    tops: Mapping[str, str]


class Workload(NamedTuple):
    """The groups of one maker: its name, the number of its pods, their requests in thousandths of a
    CPU, whether an HPA sets their number, and the paths of the containers."""

    name: str
    pods: int
    request: int
    is_scaled: bool
    paths: list[str]


@dataclass(frozen=True)
class Amounts:
    """Requests and limits of CPU in whole thousandths; None where not given."""

    request: int | None = None
    limit: int | None = None


@dataclass(frozen=True)
class Owned:
    """A source as it was read, with the settings of it that people own."""

    # Factors of demands, as --scale has them.
    scales: tuple[str, ...] = field(default=(), kw_only=True)
    # What was seen of groups that are gone or on other hosts, each with what makes it.
    elsewhere: tuple[tuple[str, Use], ...] = field(default=(), kw_only=True)

    # The settings that weigh a group and that limit it, and what has them.
    keys = ("request", "limit")
    noun = "container"

    @functools.cached_property
    def plain(self) -> Model:
        """The model as the source makes it. It is shared, and not to be changed."""
        raise NotImplementedError

    def model(self) -> Model:
        """The model. Its groups stand in the same order whatever the settings are."""
        model = replace(self.plain.copy(), owned=self)
        demands.scale(model, self.scales)
        return model

    @property
    def formula(self) -> WeightFormula:
        """The formula by which the setting that weighs a group makes its weight."""
        raise NotImplementedError

    def followers(self, paths: Sequence[str]) -> Followers | None:
        """The groups whose weights follow the settings that weigh some groups, while these stay
        within one part of their ranges, and no less than they are. None where no sums tell them."""
        return Followers({path: Follower(self.formula) for path in paths},
                         {path: path for path in paths})

    @property
    def rule(self) -> str:
        """The rule by which its demands are made; empty where it has them itself."""
        return ""

    def busy(self) -> Owned | None:
        """This source with each container busy; None unless its demands are requests."""
        return None

    def has(self, path: str) -> bool:
        """Whether a group of the model has such settings."""
        raise NotImplementedError

    def meant(self, path: str) -> list[str]:
        """The groups whose settings a path means: itself, or of a pod its containers."""
        return [path] if self.has(path) else []

    def pods_where(self, _: Sequence[str], __: Mapping[str, str]) -> list[str]:
        """The groups of the pods of some namespaces (none for any) that have all labels."""
        return []

    def changed(self, settings: Sequence[Setting]) -> Owned:
        """This source with other settings. Paths are those of the model as it is."""
        raise NotImplementedError

    def on_host(self, host: Host) -> Owned:
        """This source on another host."""
        raise NotImplementedError

    def ranges(self, path: str) -> list[Range]:
        """Settings that can be asked for of one group: the one that weighs it, then the other."""
        raise NotImplementedError

    @property
    def asks(self) -> dict[str, int]:
        """Requests of all groups by the names of the resources, where a scheduler counts them."""
        return {}

    @property
    def offers(self) -> dict[str, int]:
        """The resources for these requests, as far as they are told."""
        return {}

    def unjudged(self, _: Owned) -> list[str]:
        """The conditions on which another source of its kind is put here that are not looked at.
        """
        return []

    def joined(self, _: Owned) -> Owned | None:
        """This with what another source of its kind has; None where they cannot be one."""
        return None

    @functools.cached_property
    def weighs(self) -> Sequence[object]:
        """All that tells the weights of groups, and where they stand."""
        return [(path, each.weight) for path, each in self.plain.groups.items()]

    def weighing(self, path: str) -> Range:
        """Values that can be asked for of the setting that weighs a group."""
        return self.ranges(path)[0]

    def limiting(self, path: str) -> Range:
        """Values that can be asked for of the setting that limits a group."""
        return self.ranges(path)[1]

    @property
    def own(self) -> list[str]:
        """The groups that have settings."""
        return [path for path in self.plain.groups if self.has(path)]

    def matching(self, word: str) -> set[str]:
        """The groups that a pattern means; none where it has no match."""
        with suppress(HostFault):
            return {group.path for group in demands.matching(self.plain, word)}
        return set()

    def named(self, word: str) -> list[str]:
        """The groups that a column of measurements names."""
        last = [path for path in self.own if names.last_name(path) == word]
        paths = set() if last else self.matching(word)
        return last or [path for path in self.own if path in paths]

    def seen(self) -> dict[str, Use]:
        """The use of each group that was read with the source."""
        raise NotImplementedError

    def title(self, path: str) -> str:
        """The name of a group, for people."""
        return path

    def owner(self, path: str) -> str:
        """The maker of a group, for people: all that one has made have the same settings."""
        return self.title(path)

    def is_scaled(self, _: str) -> bool:
        """Whether something that follows its use sets how many such groups there are."""
        return False

    def workloads(self) -> list[Workload]:
        """The groups by their makers."""
        return []

    def now(self, path: str) -> Amounts:
        """The request and the limit of a group; None where it has none, or is not told of one."""
        group = self.plain.groups[path]
        return Amounts(None, None if group.quota is None else 1000 * group.quota // group.period)

    def words(self, path: str) -> tuple[str, str]:
        """The settings of a group as people write them."""
        weighs, limits = self.ranges(path)
        return weighs.now, limits.now

    def is_guaranteed(self, _: str) -> bool:
        """Whether the request of a group has to be its limit."""
        return False

    def written(self, request: int, limit: int | None) -> tuple[str, str | None]:
        """A request and a limit as people write them."""
        raise NotImplementedError

    def settings(self, path: str, amounts: Amounts) -> list[Setting]:
        """The changes that make a request and a limit of a group."""
        values = self.written(amounts.request or 0, amounts.limit)
        return [Setting(path, key, value) for key, value in zip(self.keys, values)
                if value is not None]

    def totals(self) -> tuple[int, int | None] | None:
        """Requests of all groups, and the CPU for them; None where no request is known."""
        return None


def remade(model: Model, source: Owned, settings: Sequence[Setting]) -> Model:
    """The model with other settings of its source, and the demands that it has. Groups may move."""
    after = source.changed(settings).model()
    after = after if after.host == model.host else after.with_host(model.host)
    for group, was in zip(after.groups.values(), model.groups.values(), strict=True):
        group.demand, group.tasks = was.demand, was.tasks
    return after
