"""Sources of containers: each may be measured in a tree of cgroups, or by others."""
from __future__ import annotations

import functools
from collections.abc import Mapping, Sequence
from dataclasses import dataclass, field, replace
from fractions import Fraction
from typing import ClassVar, NamedTuple, TypeVar

from arbiter import Host, Library
from arbiter_host.base.demands import Measured, Place, Use, stop, use_of
from arbiter_host.base.faults import HostFault
from arbiter_host.base.model import Group, Model, bind
from arbiter_host.base.names import few, parent_path
from arbiter_host.base.owned import Owned
from arbiter_host.sources.source_options import DRIVERS, SourceOptions
from arbiter_host.sources.usage import Used, some

S = TypeVar("S", bound="Measurable")
# What entries are of that name no container here.
REPLICAS = "by the names of their pods replicas of these"
OTHERS = "used by containers that are not here"
WHOLE = "used by pods of several containers, left out: `kubectl top pods -A --containers` has each"


class Unlike(NamedTuple):
    """A group that a tree has with other settings than are derived: its words, and how many of
    weight and limit are others."""

    words: str
    settings: int


@dataclass(frozen=True)
class Measurable(Owned):
    """Containers as they were read, and what was measured of them."""

    library: Library
    options: SourceOptions
    host: Host
    notes: tuple[str, ...] = field(default=(), kw_only=True)
    # What was measured of containers, and the seconds from one reading to the next.
    known: Mapping[Place, Measured] = field(default_factory=dict, kw_only=True)
    seconds: Fraction = field(default=Fraction(1), kw_only=True)
    # The groups of containers in a tree, each with those above it, the nearest first.
    there: Mapping[Place, Sequence[Group]] = field(default_factory=dict, kw_only=True)

    # The conversions of shares that a host may have: kubelet's, and those of the runtime.
    conversions: ClassVar[Sequence[tuple[str, str]]] = ()

    def others(self: S) -> list[S]:
        """This by each other conversion that its host may have; none where one is asked for."""
        said = self.options
        found = [] if said.are_conversions_said else self.conversions
        return [replace(self, options=replace(said, kubelet=kubelet, runtime=runtime))
                for kubelet, runtime in found if (kubelet, runtime) != (said.kubelet, said.runtime)]

    def compared(self: S) -> S:
        """This by the conversion that fits the weights of the tree best, with what is told of
        weights and limits that the tree has otherwise."""
        best = min([self, *self.others()], key=lambda each: sum(
            of.settings for of in each.unlike()[0]))
        notes = best.told_of_tree()
        if best is not self:
            notes.insert(0, f"weights: {best.weighed_by}, as the tree has them (--node-weights)")
        return replace(best, notes=(*best.notes, *notes)) if notes else best

    @property
    def weighed_by(self) -> str:
        """The conversion of shares, in words."""
        return self.options.runtime

    def told_of_tree(self) -> list[str]:
        """The warnings about groups that the tree has with other weights or limits."""
        off, compared = self.unlike()
        return [f"groups whose cpu.weight or cpu.max in the tree is another than is derived here:"
                f" {len(off)} of {compared}: {few([each.words for each in off])}"] if off else []

    def unlike(self) -> tuple[list[Unlike], int]:
        """The groups that the tree has with another weight or limit, and the number of all that
        were compared: those of containers, and those above them."""
        model, places = self.built
        theirs: dict[str, Group] = {}
        for path, place in places.items():
            for each in self.there.get(place, ()):
                if path not in model.groups or path in theirs:
                    break
                theirs[path], path = each, parent_path(path)
        found = [difference(model.groups[path], each) for path, each in theirs.items()]
        return [each for each in found if each.settings], len(theirs)

    def follow_tree(self, model: Model, places: Mapping[str, Place]) -> None:
        """Lets groups that the tree has bound to CPUs or frozen have so many, or ask for nothing.
        """
        found = {path: self.there[place][0] for path, place in places.items()
                 if self.there.get(place)}
        bind(model, {path: each.keeps_to for path, each in found.items()
                     if each.keeps_to is not None})
        stop(model, [path for path, each in found.items() if each.tasks == 0], "frozen")

    @functools.cached_property
    def built(self) -> tuple[Model, Mapping[str, Place]]:
        """The model, which is shared, and the place of each container by the path of its group."""
        raise NotImplementedError

    def places_of(self, _: Used) -> Sequence[Place]:
        """The containers that an entry of a measurement names; none of what a tree alone names."""
        return ()

    def folders_by(self, driver: str) -> dict[Place, str]:
        """Where each container is below the top of a tree, by a driver of its groups."""
        raise NotImplementedError

    def folders(self) -> dict[Place, tuple[str, ...]]:
        """Where each container may be below the top of a tree. The driver asked for comes first."""
        drivers = sorted(DRIVERS, key=lambda each: each != self.options.driver)
        one, two = map(self.folders_by, drivers)
        return {place: (folder, two[place]) for place, folder in one.items()}

    @functools.cached_property
    def plain(self) -> Model:
        return self.built[0]

    @property
    def rule(self) -> str:
        return self.options.want

    def busy(self: S) -> S | None:
        is_asked = self.options.want == "request"
        return replace(self, options=replace(self.options, want="busy")) if is_asked else None

    def has(self, path: str) -> bool:
        return path in self.built[1]

    def on_host(self: S, host: Host) -> S:
        return replace(self, host=host)

    def makers_of(self, _: Used) -> set[str]:
        """The makers that may have made a container that an entry names and that is not here."""
        return set()

    def with_usage(self: S, entries: Sequence[Used], name: str) -> S:
        """A source with what others measured. What it has no container of is told."""
        (source,), notes = measured([self], entries, name)
        return replace(source, notes=(*self.notes, *notes))

    def seen(self) -> dict[str, Use]:
        model, places = self.built
        uses = {path: use_of(model.groups[path], self.known.get(place, Measured()), model.host,
                             self.seconds) for path, place in places.items()}
        return {path: use for path, use in uses.items()
                if use is not None and path not in model.stopped}


def difference(own: Group, theirs: Group) -> Unlike:
    """A group as it is derived, and as a tree has it."""
    one, two = (each.quota and Fraction(each.quota, each.period) for each in (own, theirs))
    words = (f"{own.path} has weight {theirs.weight}, max {theirs.max_words}, derived {own.weight},"
             f" max {own.max_words}")
    return Unlike(words, (own.weight != theirs.weight) + (one != two))


def measured(sources: Sequence[S], entries: Sequence[Used],
             name: str) -> tuple[list[S], list[str]]:
    """Sources with what others measured of them, also of replicas that are gone or elsewhere, and
    what is told of these and of all other entries."""
    from arbiter_host.sources import prometheus  # (a source alone needs none)
    known: list[dict[Place, Measured]] = [{} for _ in sources]
    replicas, here = list[tuple[str, Use]](), list[Mapping[str, str]]()
    away = list[Used]()
    told: dict[str, list[str]] = {REPLICAS: [], WHOLE: [], OTHERS: []}
    for entry in entries:
        places = [(at, place) for at, each in enumerate(sources)
                  for place in each.places_of(entry)]
        makers = set().union(*(each.makers_of(entry) for each in sources if not places))
        if len(places) == 1:
            at, place = places[0]
            if place in known[at]:
                raise HostFault(f"{name}: {entry.title}: two numbers for what one container used")
            if entry.labels:
                prometheus.check_use(entry.title, entry.amounts, sources[at].host.processors, name)
                here.append(entry.labels)
            known[at][place] = Measured(told=entry.amounts, times=entry.times)
        elif len(makers) == 1:
            away.append(entry)
            replicas.append((makers.pop(), Use(entry.amounts, times=entry.times)))
            told[REPLICAS].append(entry.title)
        elif len(places) > 1 and entry.pod and not entry.container:
            told[WHOLE].append(f"{entry.title} ({len(places)} containers)")
        else:
            told[OTHERS].append(entry.title + (f" ({len(places)} containers)" if places else ""))
    for entry in away:
        prometheus.check_homes(here, entry.title, entry.labels, name)
    notes = [f"{name}: {what}, {some(titles)}" for what, titles in told.items() if titles]
    if not any(known) and not replicas:
        what = ": --query and --range say what is asked" if prometheus.is_address(name) else ""
        raise HostFault(notes[-1] if notes else f"{name}: nothing was used by any container{what}")
    # (who proposes takes those elsewhere of all sources together)
    return [replace(each, known=of_source, elsewhere=() if at else tuple(replicas))
            for at, (each, of_source) in enumerate(zip(sources, known))], notes
