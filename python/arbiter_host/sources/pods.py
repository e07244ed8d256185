"""Pods as their JSON has them, and what kubelet reckons of them: requests, limits, classes."""
from __future__ import annotations

import dataclasses
import functools
import json
import math
import re
from collections.abc import Iterable, Sequence
from contextlib import suppress
from dataclasses import dataclass, replace
from datetime import datetime
from fractions import Fraction
from typing import Any, NamedTuple

from arbiter import Library, PartKind
from arbiter_host.base import units
from arbiter_host.base.faults import HostFault, naming
from arbiter_host.base.names import NOWHERE, shown, slice_folder
from arbiter_host.base.owned import Amounts
from arbiter_host.sources.conditions import Conditions, conditions_of, pairs_of
from arbiter_host.sources.data import field, number, table, tables, text_field

TOP, CPU = "kubepods", "cpu"
KEYS = ("requests", "limits")
# Kinds that make pods of a template which may be changed.
TEMPLATED = ("Deployment", "StatefulSet", "DaemonSet", "ReplicaSet", "ReplicationController",
             "CronJob")
CLASSES = {"Guaranteed": TOP, "Burstable": f"{TOP}/burstable", "BestEffort": f"{TOP}/besteffort"}
# Names of kubelet's groups, by either of its drivers.
KUBELET = re.compile(r"kubepods([-.].*)?")
# What Kubernetes puts behind the name of an owner in that of a pod: a hash of the template, letters
# at random, or a number.
MADE = "[bcdfghjklmnpqrstvwxz2456789]"
BEHIND = {"Deployment": f"-{MADE}{{1,10}}-{MADE}{{5}}", "StatefulSet": "-[0-9]{1,9}",
          "CronJob": f"-[0-9]{{8}}(-[0-9]{{1,5}})?-{MADE}{{5}}"}
# The name of a Job that a CronJob makes: its own, and the minute for which it is.
OF_CRON = re.compile("(.+)-([0-9]{8})")
# The annotation by which the API server's copy of a static pod has kubelet's own identifier of it.
MIRROR = "kubernetes.io/config.mirror"
# What the runtimes put before an identifier in the name of a group.
SCOPES = {"containerd": "cri-containerd-", "cri-o": "crio-", "docker": "docker-"}
# A quantity: a number, and either a suffix or an exponent. None below 0 is an amount of CPU.
QUANTITY = re.compile(r"\+?([0-9]{1,30}(?:\.[0-9]{0,30})?|\.[0-9]{1,30})"
                      r"(?:([numkMGTPE]|[KMGTPE]i)|[eE]([+-]?[0-9]{1,2}))?")
SUFFIXES = {"": Fraction(1), "n": Fraction(1, 10**9), "u": Fraction(1, 10**6),
            "m": Fraction(1, 1000),
            **{letter: Fraction(1000) ** power for power, letter in enumerate("kMGTPE", 1)},
            **{f"{letter}i": Fraction(1024) ** power for power, letter in enumerate("KMGTPE", 1)}}


@dataclass(frozen=True)
class Container:
    """A container of a pod."""

    name: str
    amounts: Amounts
    identifier: str = ""
    kind: PartKind = PartKind.CONTAINER
    # An init container that does not run has none, nor has one that ended and is not begun again.
    has_group: bool = True


class Resource(NamedTuple):
    """A resource of a pod: amounts of the pod itself and of its containers, and its overhead."""

    own: Amounts
    parts: tuple[Amounts, ...]
    overhead: int


@dataclass(frozen=True)
class Pod:
    """A pod: what kubelet reckons with."""

    namespace: str
    name: str
    uid: str
    library: Library = dataclasses.field(compare=False, repr=False)
    # All of its containers, init containers first.
    parts: tuple[Container, ...] = ()
    overhead: int = 0
    # Requests and limits of the pod itself, and whether it has such of CPU or memory.
    own: Amounts = Amounts()
    is_whole: bool = False
    # The class that its status tells, empty for none.
    told: str = ""
    # Whether something of it asks for memory, and whether each has a limit of it that is its
    # request: the pod itself where it is whole, else its containers.
    asks_memory: bool = False
    is_memory_equal: bool = False
    # Other resources than CPU, by their names, and the conditions on its node.
    others: tuple[tuple[str, Resource], ...] = ()
    conditions: Conditions = Conditions()
    labels: tuple[tuple[str, str], ...] = ()
    # What makes it of a template: kind, namespace and name; empty for nothing.
    owner: str = ""
    # Its priority, and whether pods of less are evicted where it has no room.
    priority: int = 0
    evicts: bool = True
    # Whether a file on its node says it, and the API server has a copy alone.
    is_static: bool = False

    @property
    def title(self) -> str:
        return f"{self.namespace}/{self.name}"

    @property
    def kinds(self) -> list[PartKind]:
        return [each.kind for each in self.parts]

    @functools.cached_property
    def requested(self) -> int:
        """The thousandths that its containers request at once."""
        return taken(self.library, self.kinds, (each.amounts.request for each in self.parts))

    @functools.cached_property
    def amounts(self) -> Amounts:
        """Request and limit of the whole pod, with its overhead."""
        request, limit = self.own.request, self.own.limit
        if request is None:
            request = self.requested
        if limit is None and is_limited(self.parts):
            limit = taken(self.library, self.kinds, (each.amounts.limit for each in self.parts))
        return Amounts(request + self.overhead, None if limit is None else limit + self.overhead)

    @functools.cached_property
    def asks(self) -> dict[str, int]:
        """Requests of all resources by their names, CPU in thousandths; a pod is one of `pods`."""
        found = {name: each.overhead + (each.own.request if each.own.request is not None else taken(
            self.library, self.kinds, (part.request for part in each.parts)))
                 for name, each in self.others}
        return {"cpu": self.amounts.request or 0,
                **{name: amount for name, amount in found.items() if amount}, "pods": 1}

    @property
    def quality(self) -> str:
        """The quality class: as the status says, else by kubelet's rule."""
        return self.told or self.quality_by_rule

    @property
    def quality_by_rule(self) -> str:
        """The quality class by kubelet's rule: by amounts of the pod itself where it has such."""
        amounts = [self.own] if self.is_whole else [each.amounts for each in self.parts]
        if not (self.asks_memory or any(each.request or each.limit for each in amounts)):
            return "BestEffort"
        equal = all(each.limit and each.request == each.limit for each in amounts)
        return "Guaranteed" if equal and self.is_memory_equal else "Burstable"

    def given(self, container: Container) -> Amounts:
        """The amounts of a container: without a limit of its own that of the pod itself."""
        request, limit = container.amounts.request, container.amounts.limit or self.own.limit
        return Amounts(limit if request is None else request, limit)

    def with_amounts(self, place: int, amounts: Amounts) -> Pod:
        """The pod with other amounts of one container. What the status tells of its class holds
        where the rule gives the same class as before."""
        parts = (*self.parts[:place], replace(self.parts[place], amounts=amounts),
                 *self.parts[place + 1:])
        after = replace(self, parts=parts)
        if after.quality_by_rule == self.quality_by_rule:
            return after
        return replace(after, told="")


def number_of(value: Any, what: str) -> Fraction:
    """The number of a quantity; a fault where Kubernetes takes none of this form."""
    word = json.dumps(value) if isinstance(value, (int, float, bool)) else str(value)[:60]
    match = QUANTITY.fullmatch(word)
    if not match:
        raise HostFault(f"{shown(word)!r} is no quantity of {what}")
    return Fraction(match[1]) * SUFFIXES[match[2] or ""] * Fraction(10) ** int(match[3] or 0)


def quantity(value: Any) -> Fraction:
    """Thousandths of a CPU of a quantity."""
    amount = number_of(value, "CPU") * 1000
    if amount > units.MAX_CPUS * 1000:
        raise HostFault(f"{shown(str(value)[:60])!r} is above {units.MAX_CPUS} CPUs")
    return amount


def amount_of(value: Any, name: str, where: str) -> int | None:
    """An amount of a resource by its name, CPU in thousandths, rounded up as kubelet does. A fault
    names where it is."""
    with naming(where):
        if value is None:
            return None
        return math.ceil(quantity(value) if name == CPU else number_of(value, shown(name)))


def amounts_of(container: dict[str, Any], name: str, where: str) -> Amounts:
    """Request and limit of a resource of a container, or of a pod itself. A limit without a request
    is the request too."""
    limit, request = (amount_of(field(container, "resources", key, name), name, where)
                      for key in ("limits", "requests"))
    return Amounts(limit if request is None else request, limit)


def asked_amounts(container: dict[str, Any], status: dict[str, Any], where: str,
                  notes: list[str]) -> Amounts:
    """Request and limit of a container. What its status says is set otherwise is told."""
    asked, now = (amounts_of(each, CPU, where) for each in (container, status))
    if now not in (asked, Amounts()):
        words = ", ".join(f"{key} {value}m" for key, value in (
            ("request", now.request), ("limit", now.limit)) if value is not None)
        notes.append(f"{where}: its resize is not done: what is set now is {words}")
    return asked


def containers_of(pod: dict[str, Any], where: str, notes: list[str]) -> tuple[Container, ...]:
    """All containers of a pod: init containers first, in order. One that has ended is not begun
    again by the policy `Never`, nor by `OnFailure` after a success. None waits beside an init
    container that runs, but sidecars."""
    containers, is_begun = list[Container](), True
    for key, statuses in (("initContainers", "initContainerStatuses"),
                          ("containers", "containerStatuses")):
        status = {text_field(each, "name"): each for each in tables(pod, "status", statuses)}
        for each in tables(pod, "spec", key):
            name, is_init = text_field(each, "name") or "unnamed", key == "initContainers"
            policy = text_field(each, "restartPolicy") or text_field(pod, "spec", "restartPolicy")
            is_sidecar = is_init and text_field(each, "restartPolicy") == "Always"
            known = status.get(name, {})
            state = table(known, "state")
            is_begun = is_begun and not (is_init and not is_sidecar and "running" in state)
            runtime, _, identifier = text_field(known, "containerID").partition("://")
            has_failed = bool(field(state, "terminated", "exitCode"))
            is_over = "terminated" in state and (
                policy == "Never" or policy == "OnFailure" and not has_failed)
            has_group = is_sidecar or "running" in state or not (is_over or is_init) and is_begun
            if has_group and "waiting" in state:
                reason = text_field(state, "waiting", "reason") or "no reason told"
                notes.append(f"{where}/{name}: it waits ({reason}), and counts as if it ran")
            kind = (PartKind.SIDECAR if is_sidecar else PartKind.INIT_CONTAINER if is_init
                    else PartKind.CONTAINER)
            containers.append(Container(
                name, asked_amounts(each, known, f"{where}/{name}", notes),
                identifier and SCOPES.get(runtime, "") + identifier, kind, has_group))
    passing = sum("running" in table(each, "state")
                  for each in tables(pod, "status", "ephemeralContainerStatuses"))
    if passing:
        notes.append(f"{where}: ephemeral containers, left out: {passing}")
    return tuple(containers)


def taken(library: Library, kinds: Sequence[PartKind], amounts: Iterable[int | None]) -> int:
    """The most that a pod's containers take at once, of amounts of any one unit."""
    return library.pod_amount(kinds, [min(each or 0, units.MOST_WORD) for each in amounts])


def is_limited(containers: Sequence[Container]) -> bool:
    """Whether kubelet sets a limit of CPU for the pod of these containers.

    Each container needs a limit. kubelet counts an init container or sidecar together with the
    sidecars before it, so one without a limit is covered where such a sidecar has one.
    """
    sidecars = 0
    for each in containers:
        limit = each.amounts.limit or 0
        if limit + (sidecars if each.kind else 0) == 0:
            return False
        sidecars += limit if each.kind == PartKind.SIDECAR else 0
    return bool(containers)


def whole_amounts(own: Amounts, is_requested: bool, library: Library, kinds: Sequence[PartKind],
                  parts: Sequence[Amounts]) -> Amounts:
    """Amounts of a pod itself. A limit without a request is the request too, unless a container
    requests some: then that is what its containers request."""
    asks = any(each.request is not None for each in parts)
    if is_requested or own.limit is None or not asks:
        return own
    return Amounts(taken(library, kinds, (each.request for each in parts)), own.limit)


def names_of(pod: dict[str, Any]) -> tuple[str, str]:
    """The namespace and the name of a pod."""
    metadata = table(pod, "metadata")
    return text_field(metadata, "namespace") or "default", text_field(metadata, "name") or "unnamed"


def owner_of(pod: dict[str, Any]) -> str:
    """The maker of a pod of a template: kind, namespace and name; empty for nothing. A ReplicaSet
    with the pod's hash behind its name is its Deployment's. A Job is its CronJob's where the minute
    behind its name is at most a day before the pod was made."""
    owner = next((each for each in tables(pod, "metadata", "ownerReferences")
                  if each.get("controller") is True), None)
    kind, name, (namespace, _) = text_field(owner, "kind"), text_field(owner, "name"), names_of(pod)
    mark = text_field(pod, "metadata", "labels", "pod-template-hash")
    if kind == "ReplicaSet" and mark and name.endswith(f"-{mark}"):
        kind, name = "Deployment", name.removesuffix(f"-{mark}")
    planned = OF_CRON.fullmatch(name) if kind == "Job" else None
    with suppress(ValueError):
        made = datetime.fromisoformat(text_field(pod, "metadata", "creationTimestamp"))
        if planned and 0 <= made.timestamp() - 60 * int(planned[2]) <= 86400:
            kind, name = "CronJob", planned[1]
    return f"{kind} {namespace}/{name}" if kind in TEMPLATED and name else ""


def names_by(owner: str) -> re.Pattern[str]:
    """The names of the pods that an owner makes."""
    kind, _, name = owner.partition(" ")
    return re.compile(re.escape(name.partition("/")[2]) + BEHIND.get(kind, f"-{MADE}{{5}}"))


def other_resources(spec: dict[str, Any], library: Library, kinds: Sequence[PartKind], where: str
                    ) -> dict[str, Resource]:
    """The resources of a pod other than CPU, by their names."""
    raw = [*tables(spec, "initContainers"), *tables(spec, "containers")]
    found = {}
    for name in sorted({"memory"}.union(table(spec, "overhead"), *(
            table(each, "resources", key) for each in (spec, *raw) for key in KEYS)) - {CPU}):
        parts = [amounts_of(each, name, where) for each in raw]
        own = whole_amounts(amounts_of(spec, name, where),
                            name in table(spec, "resources", "requests"), library, kinds, parts)
        over = amount_of(field(spec, "overhead", name), name, where)
        found[name] = Resource(own, tuple(parts), over or 0)
    return found


def is_whole_pod(spec: dict[str, Any]) -> bool:
    """Whether requests or limits of CPU or memory are those of a pod itself."""
    return any({"cpu", "memory"} & table(spec, "resources", key).keys() for key in KEYS)


def pod_of(pod: dict[str, Any], library: Library, notes: list[str]) -> Pod:
    """A pod as kubelet reckons with it."""
    metadata, spec, (namespace, name) = table(pod, "metadata"), table(pod, "spec"), names_of(pod)
    where, told = f"{namespace}/{name}", text_field(pod, "status", "qosClass")
    parts, asked = containers_of(pod, where, notes), table(spec, "resources", "requests")
    kinds, is_whole = [each.kind for each in parts], is_whole_pod(spec)
    others = other_resources(spec, library, kinds, where)
    memory = [others["memory"].own] if is_whole else others["memory"].parts
    return Pod(
        namespace, name,
        # The mirror of a static pod has an identifier that is not the one of its group.
        uid=text_field(metadata, "annotations", MIRROR) or text_field(metadata, "uid"),
        library=library, parts=parts,
        overhead=amount_of(field(spec, "overhead", CPU), CPU, where) or 0,
        own=whole_amounts(amounts_of(spec, CPU, where), CPU in asked, library, kinds,
                          [each.amounts for each in parts]),
        is_whole=is_whole,
        told=told if told in CLASSES else "",
        asks_memory=any(each.request or each.limit for each in memory),
        is_memory_equal=all(each.limit and each.request == each.limit for each in memory),
        others=tuple(others.items()),
        conditions=conditions_of(spec, text_field(metadata, "uid")),
        labels=pairs_of(table(metadata, "labels")), owner=owner_of(pod),
        priority=number(spec, "priority"),
        evicts=text_field(spec, "preemptionPolicy") != "Never",
        is_static=bool(text_field(metadata, "annotations", MIRROR)))


def folder_at(parts: Sequence[str], driver: str) -> str:
    """The folder below /sys/fs/cgroup of kubelet's groups of these names, one in the other."""
    return "/".join(parts) if driver == "cgroupfs" else slice_folder("-".join(parts) + ".slice")


def folder_of(pod: Pod, driver: str) -> str:
    """The folder of a pod below /sys/fs/cgroup, by the driver of kubelet."""
    uid = pod.uid if driver == "cgroupfs" else pod.uid.replace("-", "_")
    return folder_at([*CLASSES[pod.quality].split("/"), f"pod{uid}"], driver)


def scope_of(folder: str, container: Container, driver: str) -> str:
    """The folder of a container, if its identifier is known."""
    if not container.identifier:
        return NOWHERE
    if driver == "cgroupfs":
        return f"{folder}/{container.identifier.rpartition('-')[2]}"
    return f"{folder}/{container.identifier}.scope"


@functools.lru_cache(1 << 15)
def kubelets(path: str) -> str:
    """The part of a path down to a group that has a name as kubelet's, which writes the settings of
    its groups itself; empty without one."""
    parts = path.split("/")
    return next(("/".join(parts[:place + 1]) for place, part in enumerate(parts)
                 if KUBELET.fullmatch(part)), "")
