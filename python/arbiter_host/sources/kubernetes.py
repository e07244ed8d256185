"""Pods and a node, as `kubectl get pods -o json` and `kubectl get node NAME -o json` print them.

Weights and limits are those that kubelet and the container runtime write. Groups stand where
kubelet puts them: kubepods, its quality classes, pods as `namespace:pod`, and containers. The
title of a container is `namespace/pod/container`, its place the folder below /sys/fs/cgroup.
"""
from __future__ import annotations

import functools
import math
import re
from collections import Counter
from collections.abc import Iterable, Iterator, Mapping, Sequence, Set
from contextlib import suppress
from dataclasses import dataclass, replace
from fractions import Fraction
from typing import Any, NamedTuple

from arbiter import Follower, Library, LimitFormula
from arbiter_host.base import demands, names, units
from arbiter_host.base.demands import Measured, Place, Values
from arbiter_host.base.faults import HostFault, NoHost, naming
from arbiter_host.base.model import (MAX_GROUPS, NO_POD, Group, Model, PodNames, check_count,
                                     checked)
from arbiter_host.base.names import NOWHERE, shown
from arbiter_host.base.owned import Amounts, Followers, Owned, Range, Setting, Workload
from arbiter_host.sources.conditions import (ANTI_AFFINITY, OF_OTHERS, NodeFacts,
                                             node_facts)
from arbiter_host.sources.data import field, loads, table, tables, text_field
from arbiter_host.sources.measurable import Measurable
from arbiter_host.sources.pods import (CLASSES, CPU, TOP, Container, Pod, amount_of, folder_at,
                                       folder_of, names_by, names_of, number_of, pod_of, scope_of)
from arbiter_host.sources.register import is_json
from arbiter_host.sources.usage import Used, of_metrics
from arbiter_host.sources.source_options import DRIVERS, File, SourceOptions

ENDED = ("Succeeded", "Failed")
# Kinds that make pods of a template, and the key of how many run at once.
MAKERS = {**dict.fromkeys(("Deployment", "StatefulSet", "DaemonSet", "ReplicaSet"), "replicas"),
          "Job": "parallelism", "CronJob": "parallelism"}
# The object that sets the number of a maker's pods by what they use.
SCALER = "HorizontalPodAutoscaler"
# Resources of which each node has some: one that tells of none is not known.
COMMON = ("memory", "ephemeral-storage")
# Pods that one template may make at once.
MOST_REPLICAS = 10000
# Thousandths that are more than all other containers of a pod request.
ABOVE_ALL = 1 << 60
# A request of so many thousandths has the greatest shares; no greater one weighs more.
MOST_REQUEST = units.MAX_SHARES * 1000 // 1024


class Summed(NamedTuple):
    """The request of a pod by those of some containers: its least one, and what it has beside them;
    as it is, whether it is their sum, and whether the pod's class sums it."""

    floor: int
    base: int
    request: int
    is_sum: bool
    is_in_class: bool


def made_by(maker: dict[str, Any]) -> dict[str, Any]:
    """One pod that an object makes of its template, by the object's name."""
    metadata, template = table(maker, "metadata"), table(made_in(maker), "template")
    name, spec = text_field(metadata, "name"), table(template, "spec")
    owner = {"kind": text_field(maker, "kind"), "name": name, "controller": True}
    claims = tables(maker, "spec", "volumeClaimTemplates")
    volumes = [*tables(spec, "volumes"), *({"persistentVolumeClaim": each} for each in claims)]
    return {"kind": "Pod", "spec": {**spec, "volumes": volumes},
            "metadata": {"name": name, "namespace": text_field(metadata, "namespace"),
                         "labels": table(template, "metadata", "labels"),
                         "ownerReferences": [owner]}}


def made_in(maker: Any) -> dict[str, Any]:
    """The table of an object with its template and the number of pods of it: of a CronJob that of
    its jobs."""
    return table(maker, "spec", *(("jobTemplate", "spec") if field(maker, "kind") == "CronJob"
                                  else ()))


def pods_of(maker: Any) -> Any:
    """The number of pods that an object makes at once; None where that is not said, or of any
    other."""
    key = MAKERS.get(text_field(maker, "kind"))
    return field(made_in(maker), key) if key else None


def items_of(data: Any, name: str, is_inner: bool = False) -> list[dict[str, Any]]:
    """The objects of a file: a list's items, or the one object. What makes pods stands for one.
    Lists in a list, as `jq -s` puts them, are read as one."""
    items = data if isinstance(data, list) else field(data, "items")
    if isinstance(items, list):
        kind = text_field(data, "kind").removesuffix("List") or "Pod"
        return [each for at, item in enumerate(items, 1)
                for each in objects_in(item, kind, f"{name}: item {at}", is_inner)]
    if field(data, "kind") in ("Pod", "Node"):
        return [data]
    if text_field(data, "kind") in MAKERS:
        return [made_by(data)]
    refusal = text_field(data, "message") if field(data, "kind") == "Status" else ""
    raise HostFault(f"{name}: the API server refused it: {shown(refusal)}" if refusal else
                    f"{name}: no pods or node as kubectl prints them with -o json")


def objects_in(item: Any, kind: str, name: str, is_inner: bool) -> list[dict[str, Any]]:
    """The objects of an item of a list of a kind. One that is a list itself has objects alone."""
    if isinstance(item, list) or isinstance(field(item, "items"), list):
        if is_inner:
            raise HostFault(f"{name} is a list in a list of lists: jq -s 'map(.items[])' makes one")
        return items_of(item, name, True)
    if not isinstance(item, dict):
        raise HostFault(f"{name} is no object")
    return [{"kind": kind, **item}]


def replicas_in(name: str, data: bytes) -> int:
    """The number of pods that a file's object makes: its replicas; 1 of any other."""
    count = pods_of(loads(data, name)) if is_json(data) else None
    if count is None:
        return 1
    if isinstance(count, bool) or not isinstance(count, int) or not 1 <= count <= MOST_REPLICAS:
        raise HostFault(f"{name}: replicas, or parallelism: 1 to {MOST_REPLICAS}")
    return count


def only_pod(name: str, data: bytes) -> dict[str, Any] | None:
    """The pod of a file that has one, or that its object makes; none of any other file."""
    if is_json(data):
        with suppress(HostFault):
            pods = [each for each in items_of(loads(data, name), name) if is_pod(each)]
            return pods[0] if len(pods) == 1 else None
    return None


def replicas_note(maker: Any) -> list[str]:
    """A note of an object that makes not just the one pod that stands for it."""
    count = pods_of(maker)
    if count in (None, 1):
        return []
    return [f"replicas {shown(str(count)[:20])}: the plan is of one pod (`place` takes all)"]


def is_pod(item: dict[str, Any]) -> bool:
    """Whether an object is a pod; items of a list need not say so. A fault where one that does has
    not what each pod has."""
    if item.get("kind", "Pod") != "Pod":
        return False
    missing = [key for key in ("metadata", "spec") if not isinstance(item.get(key), dict)]
    if missing:
        name = "/".join(names_of(item))
        raise HostFault(f"{shown(name)}: a pod without {missing[0]}: it cannot be read")
    return True


def other_kinds(items: Sequence[dict[str, Any]]) -> list[str]:
    """A note of objects that are neither pods nor nodes nor what was used, if there are any."""
    others = [text_field(each, "kind") for each in items
              if each.get("kind", "Pod") not in ("Pod", "Node", "PodMetrics", SCALER)]
    return [f"objects of other kinds, left out: {len(others)}:"
            f" {names.few(sorted(set(map(shown, others))))}"] if others else []


def scaled_in(items: Sequence[dict[str, Any]]) -> frozenset[str]:
    """The owners whose number of pods an autoscaler among some objects sets."""
    targets = [(each, table(each, "spec", "scaleTargetRef")) for each in items
               if each.get("kind") == SCALER]
    return frozenset(f"{text_field(to, 'kind')} {names_of(each)[0]}/{text_field(to, 'name')}"
                     for each, to in targets)


def has_ended(item: dict[str, Any]) -> bool:
    """Whether a pod has ended, so that it has no group."""
    return text_field(item, "status", "phase") in ENDED


def several(what: str, nodes: Iterable[str]) -> HostFault:
    """A fault where one node is meant, with the names of some."""
    few = names.few(list(map(shown, sorted(nodes))))
    return HostFault(f"{what} ({few}): choose one by --node, or give their nodes too")


def pods_on(items: Sequence[dict[str, Any]], node: str, library: Library,
            notes: list[str]) -> list[Pod]:
    """The pods of one node that have not ended; a fault where several nodes are meant.

    Beside pods of nodes those that wait for one are left out. A pod that a file of its own
    describes does not wait.
    """
    pods = [each for each in items if is_pod(each)]
    placed = [each for each in pods if text_field(each, "spec", "nodeName")
              or text_field(each, "status", "phase") != "Pending"]
    if len(placed) < len(pods) and any(text_field(each, "spec", "nodeName") for each in pods):
        notes.append(f"pods that no node has yet, left out: {len(pods) - len(placed)}")
        pods = placed
    others = len(pods)
    pods = [each for each in pods if not node or text_field(each, "spec", "nodeName") in ("", node)]
    if others and not pods:
        notes.append(f"none of the pods is of the node {shown(node)}: pods of others: {others}")
    nodes = {text_field(each, "spec", "nodeName") for each in pods} - {""}
    if len(nodes) > 1:
        raise several(f"the pods are of {len(nodes)} nodes", nodes)
    lasting = [each for each in pods if not has_ended(each)]
    if len(lasting) < len(pods):
        notes.append(f"pods that have ended, left out: {len(pods) - len(lasting)}")
    leaving = sum(bool(text_field(each, "metadata", "deletionTimestamp")) for each in lasting)
    if leaving:
        notes.append(f"pods that are deleted and have not ended: {leaving}: they count until then")
    # A pod has a group of its own and one of a container.
    check_count(2 * len(lasting), f"{len(lasting)} pods")
    titles = Counter("/".join(names_of(each)) for each in lasting)
    for title, many in titles.items():
        if many > 1:
            raise HostFault(f"{shown(title)}: {many} pods of this name: is a file given twice?")
    return [pod_of(each, library, notes) for each in lasting]


def node_of(items: Sequence[dict[str, Any]], options: SourceOptions) -> dict[str, Any] | None:
    """The node of that name, or the only one."""
    nodes = [(text_field(each, "metadata", "name"), each) for each in items
             if each.get("kind") == "Node"]
    known = [name for name, _ in nodes]
    if nodes and options.node and options.node not in known:
        raise several(f"no node {shown(options.node)} among {len(nodes)}", known)
    meant = [node for name, node in nodes if options.node in ("", name)]
    if len(meant) > 1:
        raise several(f"{len(meant)} nodes", known)
    return meant[0] if meant else None


class PodBuilder:
    """Makes the groups of pods."""

    def __init__(self, source: PodSource) -> None:
        self.source, self.options = source, source.options
        one, two = source.options.kubelet, source.options.runtime
        by = one if one == two else f"{one} and {two} for containers"
        self.model = Model(checked(source.host), notes=list(source.notes),
                           names_host=source.names_host, weighed=f"of requests ({by})")
        self.measured: dict[str, Measured] = {}
        # The places of a pod and of its container, by the path of the group.
        self.places: dict[str, Place] = {}
        # Pause containers ask for nothing. So they have groups where the planner takes as many.
        many = len(CLASSES) + sum(2 + sum(each.has_group for each in pod.parts)
                                  for pod in source.pods)
        self.has_pauses = many < MAX_GROUPS
        if not self.has_pauses:
            self.model.notes.append(f"pause containers, left out of {many} groups: they ask for"
                                    " nothing")

    def weight(self, request: int | None, conversion: str) -> int:
        """The weight that a request gets by a conversion."""
        return self.source.library.owned_weight(units.OF_REQUESTS[conversion], request or 0)

    def add(self, parent: str, raw: str, weight: int, place: str, title: str = "",
            limit: int | None = None, pod: PodNames = NO_POD, is_scaled: bool = False) -> str:
        """Makes a child whose name no other has, and returns its path."""
        name = names.path_name(raw, self.model.groups, parent)
        quota, _ = self.source.library.owned_limit(LimitFormula.THOUSANDTHS, limit or 0)
        return self.model.add(Group(names.joined(parent, name), weight, title=title, place=place,
                                    quota=quota, pod=pod, is_scaled=is_scaled)).path

    def classes(self) -> None:
        """Makes kubepods and its two classes."""
        allocatable, driver = self.source.allocatable, self.options.driver
        self.add(".", TOP, 100 if allocatable is None else self.weight(
            allocatable, self.options.kubelet), folder_at([TOP], driver))
        burstable = self.source.requested_in("Burstable")
        for quality, request in (("burstable", burstable), ("besteffort", 0)):
            path = self.add(TOP, quality, self.weight(request, self.options.kubelet),
                            folder_at([TOP, quality], driver))
            self.measured[path] = Measured(request=Fraction(0), tasks=0)

    def pod(self, pod: Pod, place: int) -> None:
        """Makes a pod, its pause container and its containers."""
        amounts = Amounts() if pod.quality == "BestEffort" else pod.amounts
        folder, options = folder_of(pod, self.options.driver), self.options
        is_scaled = pod.owner in self.source.scaled
        path = self.add(CLASSES[pod.quality], f"{pod.namespace}:{pod.name}",
                        self.weight(amounts.request, options.kubelet), folder, pod.title,
                        amounts.limit, (pod.namespace, pod.name, ""), is_scaled)
        if self.has_pauses:
            pause = self.add(path, "pause", 1, NOWHERE, f"{pod.title}/pause")
            self.measured[pause] = Measured(request=Fraction(0), tasks=0)
        for number, each in enumerate(pod.parts):
            if each.has_group:
                given = pod.given(each)
                made = self.add(path, each.name, self.weight(given.request, options.runtime),
                                scope_of(folder, each, options.driver), f"{pod.title}/{each.name}",
                                given.limit, (pod.namespace, pod.name, each.name), is_scaled)
                self.places[made] = (place, number)
                self.measured[made] = replace(self.source.known.get((place, number), Measured()),
                                              request=Fraction(each.amounts.request or 0))

    def set_demands(self) -> None:
        """Sets the demands. Pause containers and classes without a pod ask for nothing."""
        want, idle = self.options.want, self.measured.keys() - self.places.keys()
        if want in demands.OF_USE:
            if self.places and not (self.source.known or self.source.elsewhere):
                raise HostFault(f"--want {want}: what these pods used is not told (--used);"
                                " they have request, limit and busy", 2)
            for path in idle:
                self.measured[path].told = Values.of([Fraction(0)])
        demands.set_demands(self.model, self.measured, want, self.source.seconds)
        for path in idle:
            self.model.groups[path].demand = Fraction(0)


def amount_in(setting: Setting) -> int | None:
    """The whole thousandths of a request or limit, rounded up as kubelet does; None for none."""
    amount = setting.cpu()
    return None if amount is None else math.ceil(amount)


def resource_text(name: str, amount: int) -> str:
    """An amount of a resource as Kubernetes writes it: `m` of CPU, and bytes by Mi or Gi."""
    if name == "cpu":
        return f"{amount}m"
    if name == "memory" or name.endswith("storage") or name.startswith("hugepages-"):
        unit, of = ("Gi", 2**30) if amount >= 2**30 else ("Mi", 2**20)
        return f"{units.decimal(Fraction(amount, of), 2)}{unit}"
    return str(amount)


def amount_text(amount: int | None) -> str:
    """A request or a limit as Kubernetes writes it."""
    return "-" if amount is None else f"{amount}m"


def refusal_of(pod: Pod, container: Container) -> tuple[str, str]:
    """Why Kubernetes takes no such request or limit of a container: what is in the way of a greater
    one, and the whole reason; both empty where it takes them."""
    request, limit = container.amounts.request or 0, container.amounts.limit
    if limit is not None and request > limit:
        return "its limit", f"its request {request}m is above its limit {limit}m"
    if pod.own.request is not None and pod.requested > pod.own.request:
        return ("all that its pod requests", "the requests of its pod's containers are above the"
                f" request {pod.own.request}m of the pod itself")
    if pod.own.limit is not None and (limit or 0) > pod.own.limit:
        return ("the limit of its pod", f"its limit {limit}m is above the limit {pod.own.limit}m of"
                " the pod itself")
    return "", ""


@dataclass(frozen=True)
class PodSource(Measurable):
    """Pods and their node as they were read. Requests and limits of them can be changed."""

    pods: tuple[Pod, ...]
    # Thousandths that the node has for pods; None without the node's JSON.
    allocatable: int | None = None
    names_host: bool = False
    node: NodeFacts = NodeFacts()
    # The owners of which something else sets how many pods run.
    scaled: frozenset[str] = frozenset()

    @functools.cached_property
    def built(self) -> tuple[Model, Mapping[str, Place]]:
        builder = PodBuilder(self)
        builder.classes()
        for place, pod in enumerate(self.pods):
            builder.pod(pod, place)
        builder.set_demands()
        self.follow_tree(builder.model, builder.places)
        return builder.model, builder.places

    conversions = (("linear", "linear"), ("linear", "log"), ("log", "log"))

    def beside(self, tree: Model) -> PodSource:
        """This by the conversion that fits a tree whose groups have the paths of these."""
        there = {place: [replace(tree.groups[each], tasks=None, keeps_to=None)
                         for each in names.upward(path)]
                 for path, place in self.built[1].items() if path in tree.groups}
        return replace(self, there=there).compared()

    @property
    def weighed_by(self) -> str:
        return f"{self.options.runtime} for containers, {self.options.kubelet} above them"

    @property
    def every(self) -> Iterator[tuple[Place, Pod, Container]]:
        """The containers that have a group, with their places and pods."""
        return (((place, number), pod, container) for place, pod in enumerate(self.pods)
                for number, container in enumerate(pod.parts) if container.has_group)

    def folders_by(self, driver: str) -> dict[Place, str]:
        folders = {place: scope_of(folder_of(pod, driver), container, driver)
                   for place, pod, container in self.every}
        return {place: folder for place, folder in folders.items() if folder != NOWHERE}

    @functools.cached_property
    def by_word(self) -> dict[str, list[Place]]:
        """The places of containers by what measurements call them: a pod, and maybe itself."""
        by_word: dict[str, list[Place]] = {}
        for place, pod, container in self.every:
            names_ = (pod.name, pod.title)
            for word in {*names_, *(f"{each}/{container.name}" for each in names_)}:
                by_word.setdefault(word, []).append(place)
        return by_word

    def places_of(self, entry: Used) -> Sequence[Place]:
        """The containers that an entry names: of a pod, or one of it."""
        return self.by_word.get(entry.word, [])

    def named(self, word: str) -> list[str]:
        """The containers that a column names: itself, or those of a pod."""
        if word in self.by_word:
            paths = {place: path for path, place in self.built[1].items()}
            return [paths[place] for place in self.by_word[word]]
        meant = self.matching(word)
        return [path for path in self.own if path in meant or names.parent_path(path) in meant]

    def meant(self, path: str) -> list[str]:
        """The container, or those of a pod."""
        return super().meant(path) or [each for each in self.built[1]
                                       if names.parent_path(each) == path]

    def pods_where(self, namespaces: Sequence[str], labels: Mapping[str, str]) -> list[str]:
        fits = [(not namespaces or pod.namespace in namespaces)
                and labels.items() <= set(pod.labels) for pod in self.pods]
        return list(dict.fromkeys(names.parent_path(path)
                                  for path, (place, _) in self.built[1].items() if fits[place]))

    def title(self, path: str) -> str:
        return self.plain.groups[path].title

    def owner(self, path: str) -> str:
        pod, number, _ = self.part(path)
        return f"{pod.owner}/{pod.parts[number].name}" if pod.owner else self.title(path)

    def is_scaled(self, path: str) -> bool:
        return self.part(path)[0].owner in self.scaled

    def workloads(self) -> list[Workload]:
        pods: dict[str, list[int]] = {}
        for place, pod in enumerate(self.pods):
            pods.setdefault(pod.owner or pod.title, []).append(place)
        paths: dict[int, list[str]] = {}
        for path, (place, _) in self.built[1].items():
            paths.setdefault(place, []).append(path)
        return [Workload(name, len(places), requested_by([self.pods[at] for at in places]),
                         name in self.scaled, [path for at in places for path in paths.get(at, [])])
                for name, places in pods.items()]

    @functools.cached_property
    def makers(self) -> dict[tuple[str, str], dict[str, re.Pattern[str]]]:
        """The owners of containers, and the names of the pods that each makes, by the namespace and
        the container."""
        by_container: dict[tuple[str, str], dict[str, re.Pattern[str]]] = {}
        for _, pod, container in self.every:
            if pod.owner:
                by_container.setdefault((pod.namespace, container.name), {}).setdefault(
                    pod.owner, names_by(pod.owner))
        return by_container

    def makers_of(self, entry: Used) -> set[str]:
        """The containers of owners that make pods of such a name."""
        makers = self.makers.get((entry.namespace, entry.container), {})
        return {f"{owner}/{entry.container}" for owner, shape in makers.items()
                if shape.fullmatch(entry.pod)}

    def part(self, path: str) -> tuple[Pod, int, Amounts]:
        """The pod of a container, its number there, and its request and limit."""
        place, number = self.built[1][path]
        return self.pods[place], number, self.pods[place].parts[number].amounts

    def now(self, path: str) -> Amounts:
        """The request and the limit of the JSON."""
        return self.part(path)[2]

    def words(self, path: str) -> tuple[str, str]:
        now = self.now(path)
        return amount_text(now.request), amount_text(now.limit)

    def is_guaranteed(self, path: str) -> bool:
        return self.part(path)[0].quality == "Guaranteed"

    def written(self, request: int, limit: int | None) -> tuple[str, str | None]:
        return f"{request}m", None if limit is None else f"{limit}m"

    def totals(self) -> tuple[int, int | None]:
        return requested_by(self.pods), self.allocatable

    def changed(self, settings: Sequence[Setting]) -> PodSource:
        """Pods with other requests and limits. All are made before they are checked."""
        pods, changed = list(self.pods), set()
        for setting in settings:
            place, number = self.built[1][setting.path]
            amounts = replace(pods[place].parts[number].amounts,
                              **{setting.key: amount_in(setting)})
            if amounts.request is None:
                amounts = Amounts(amounts.limit, amounts.limit)
            pods[place] = pods[place].with_amounts(number, amounts)
            changed.add((place, number))
        for place, number in sorted(changed):
            _, why = refusal_of(pods[place], pods[place].parts[number])
            if why:
                where = f"{pods[place].title}/{pods[place].parts[number].name}"
                raise HostFault(f"{shown(where)}: {why}, which Kubernetes refuses")
        notes = [f"{now.title}: {now.quality} and no more {was.quality}: its class is that of a pod"
                 " that is made anew" for was, now in zip(self.pods, pods)
                 if was.quality != now.quality]
        asked = requested_by(pods)
        if self.allocatable is not None and asked > max(self.allocatable, requested_by(self.pods)):
            notes.append(f"the pods request {asked}m of the {self.allocatable}m that the node has"
                         " for them: the scheduler puts no such pods there")
        return replace(self, pods=tuple(pods), notes=(*self.notes, *notes))

    @functools.cached_property
    def weighs(self) -> Sequence[object]:
        return [(pod.quality, pod.amounts.request, *(pod.given(each).request for each in pod.parts))
                for pod in self.pods]

    def followers(self, paths: Sequence[str]) -> Followers | None:
        """The containers, their pods and the pods' classes. A pod that requests an amount itself
        keeps it, and a class of pods that request nothing has no sum. None where init containers
        keep the number of one of several pods up, or of one pod beside several containers."""
        by_runtime, by_kubelet = (units.OF_REQUESTS[each] for each in (
            self.options.runtime, self.options.kubelet))
        found = {path: Follower(by_runtime) for path in paths}
        tops = {path: path for path in paths}
        own: dict[str, list[str]] = {}
        for path in paths:
            own.setdefault(names.parent_path(path), []).append(path)
        summed = [self.summed(some) for some in own.values()]
        if len(paths) > 1 and not all(each is None or each.is_sum for each in summed):
            return None
        beside: Counter[str] = Counter()
        floors: Counter[str] = Counter()
        for (parent, some), each in zip(own.items(), summed):
            if each is None:
                continue
            found[parent] = Follower(by_kubelet, each.floor, each.base)
            top = names.parent_path(parent) if each.is_in_class else parent
            tops.update(dict.fromkeys(some, top))
            if each.is_in_class:
                beside[top] += each.base - each.request
                floors[top] += each.floor - each.request
        others = self.requested_in("Burstable")
        found.update({top: Follower(by_kubelet, others + floors[top], others + beside[top])
                      for top in beside})
        return Followers(found, tops)

    def summed(self, paths: Sequence[str]) -> Summed | None:
        """The sum of some containers of one pod; None where its weight follows none."""
        pod = self.part(paths[0])[0]
        if pod.own.request is not None or pod.quality == "BestEffort":
            return None
        parts = [self.part(path)[1:] for path in paths]

        def amount(request: int) -> int:
            after = pod
            for number, amounts in parts:
                after = after.with_amounts(number, Amounts(request, amounts.limit))
            return after.amounts.request or 0

        request, base = pod.amounts.request or 0, amount(ABOVE_ALL) - len(parts) * ABOVE_ALL
        asked = sum(amounts.request or 0 for _, amounts in parts)
        return Summed(amount(0), base, request, base + asked == request,
                      pod.quality == "Burstable")

    def requested_in(self, quality: str) -> int:
        """Thousandths that the pods of a class request."""
        return requested_by([pod for pod in self.pods if pod.quality == quality])

    def ranges(self, path: str) -> list[Range]:
        amounts = self.now(path)
        now, least = amounts.request or 0, max(amounts.request or 0, 1)
        request, of_request = self.greatest(path, "request", MOST_REQUEST)
        limit, of_limit = self.greatest(path, "limit", 1000 * self.host.processors)
        # A class changes where a request is none or is the limit.
        parts = [(0, 0), (1, request - 1), (request, request)]
        limits = [(least, least), (least + 1, limit)]
        return [Range("request", f"{now}m", [each for each in parts if each[0] <= each[1]],
                      amount_text, f"{request}m is {of_request}", now),
                Range("limit", amount_text(amounts.limit),
                      [each for each in limits if each[0] <= each[1] <= limit],
                      amount_text, f"{limit}m is {of_limit}")]

    def greatest(self, path: str, key: str, most: int) -> tuple[int, str]:
        """The greatest request or limit of a container up to a most, and what ends it."""
        pod, number, amounts = self.part(path)
        ends = [(most, "the most that counts")]
        if key == "limit":
            ends += [] if pod.own.limit is None else [(pod.own.limit, "the limit of its pod")]
        else:
            ends += [] if amounts.limit is None else [(amounts.limit, "its limit")]
            own, left = pod.own.request, "all that the node has left"
            room = most if self.allocatable is None else self.allocatable - requested_by(self.pods)
            if own is not None:
                ends += [(self.fitting(pod, number, own), "all that its pod requests"),
                         (most if room >= 0 else room, left)]
            elif self.allocatable is not None:
                ends.append((self.fitting(pod, number, room + pod.requested), left))
        greatest, why = min(ends, key=lambda each: each[0])
        return greatest if greatest == most else max(greatest, getattr(amounts, key) or 0), why

    def fitting(self, pod: Pod, number: int, room: int) -> int:
        """The greatest request of a container with which those of a pod request no more than some
        room; -1 for none."""
        greatest = self.library.greatest_part(
            pod.kinds, [each.amounts.request or 0 for each in pod.parts], number, max(room, 0))
        return -1 if greatest is None or room < 0 else greatest

    @functools.cached_property
    def asks(self) -> dict[str, int]:
        """Requests of all pods, by the names of the resources; CPU in thousandths."""
        return dict(sum((Counter(pod.asks) for pod in self.pods), Counter()))

    @property
    def offers(self) -> dict[str, int]:
        """The resources that the node has for pods, as far as it tells."""
        cpu = {} if self.allocatable is None else {"cpu": self.allocatable}
        return {**dict(self.node.has), **cpu}

    def unjudged(self, other: Owned) -> list[str]:
        """The conditions of another source's pods on this node that are not looked at."""
        if not isinstance(other, PodSource):
            return []
        own = [name for pod in other.pods for name in pod.conditions.unjudged]
        return list(dict.fromkeys([
            *own, *(name for name in COMMON if other.asks.get(name)
                   and name not in self.offers),
            *(OF_OTHERS for pod in self.pods
              if ANTI_AFFINITY in pod.conditions.unjudged)]))

    def check_room(self, other: PodSource) -> None:
        """A fault where the node has not the room for the requests of another source's pods. It
        says where the scheduler would evict others for them."""
        taken, has = self.asks, self.offers
        evicts = any(one.evicts and any(pod.priority < one.priority for pod in self.pods)
                     for one in other.pods)
        for name, amount in other.asks.items():
            most = has.get(name, None if name in ("cpu", "pods", *COMMON) or not has else 0)
            if most is not None and amount > max(most - taken.get(name, 0), 0):
                of = "" if name == "cpu" else f" of {shown(name)}"
                one, all_, others = (resource_text(name, each)
                                     for each in (amount, most, taken.get(name, 0)))
                raise HostFault(f"it requests {one}{of}, and {all_} less the {others} of others are"
                                " there" + (", some of less priority, which may be evicted for it"
                                            if evicts else ""))

    def joined(self, other: Owned) -> PodSource | None:
        """This node with the pods of another source. A fault where it takes none such."""
        if not isinstance(other, PodSource):
            return None
        here = {pod.title for pod in self.pods}
        for pod in other.pods:
            if pod.title in here:
                raise HostFault(f"{shown(pod.title)}: the host has this group already")
            self.node.check(pod.conditions)
        self.check_room(other)
        known = dict(self.known)
        if self.options.want in demands.OF_USE:
            # What is new has used nothing yet: it asks for its requests.
            known |= {(len(self.pods) + place, number): Measured(
                told=Values([each.amounts.request or 0]))
                for (place, number), _, each in other.every}
        return replace(self, pods=(*self.pods, *other.pods), known=known)


def with_pods(tree: Model, source: PodSource) -> Model:
    """A tree whose groups have the paths and titles of the pods of a source, where their folders
    tell that they are these, by the driver that fits more of them."""
    def by_folder(driver: str) -> dict[str, Group]:
        made = replace(source, options=replace(source.options, driver=driver)).plain
        return {names.path_of_folder(each.place): each for each in made.groups.values()
                if each.place != NOWHERE}

    known = max(map(by_folder, DRIVERS), key=lambda each: len(each.keys() & tree.groups.keys()))
    after, paths = replace(tree, groups={}, owned=None), {".": "."}
    for path, group in tree.groups.items():
        own, above = known.get(path), paths[names.parent_path(path)]
        if own is not None and names.parent_path(own.path) == above:
            paths[path] = own.path
            after.add(replace(group, path=own.path, title=own.title, pod=own.pod))
        else:
            paths[path] = names.joined(above, names.last_name(path))
            after.add(replace(group, path=paths[path]))
    return after


def names_at(files: Sequence[File], library: Library) -> dict[str, PodNames]:
    """The names of the pods of some files, and of their containers, by their folders below the top
    of a tree, whichever driver kubelet has."""
    by_folder: dict[str, PodNames] = {}
    for item in (item for name, data in files for item in items_of(loads(data, name), name)):
        if is_pod(item) and not has_ended(item):
            pod = pod_of(item, library, [])
            for driver in DRIVERS:
                folder = folder_of(pod, driver)
                by_folder[folder] = (pod.namespace, pod.name, "")
                by_folder |= {scope_of(folder, each, driver): (pod.namespace, pod.name, each.name)
                          for each in pod.parts}
    by_folder.pop(NOWHERE, None)
    return by_folder


def requested_by(pods: Sequence[Pod]) -> int:
    """Thousandths that pods request all in all."""
    return sum(pod.amounts.request or 0 for pod in pods)


def refused_notes(pod: Pod) -> list[str]:
    """Notes of containers that Kubernetes takes no such pod with, as a hand may write them."""
    why = {each.name: refusal_of(pod, each)[1] for each in pod.parts}
    return [f"{pod.title}/{name}: {reason}, which Kubernetes refuses"
            for name, reason in why.items() if reason]


def rest_note(pod: Pod) -> list[str]:
    """A note of a pod that itself requests more than its containers, which have the demands."""
    own, asked = pod.own.request, pod.requested
    return [f"{pod.title}: it requests {own}m itself, and its containers {asked}m: no demand has"
            " the rest"] if own is not None and own > asked else []


def namespace_note(namespaces: Set[str], nodes: Iterable[dict[str, Any] | None]) -> list[str]:
    """A note of pods that are not all of their nodes: of one namespace alone. A node that a cluster
    has runs pods of the cluster's own too."""
    if len(namespaces) != 1 or not any(field(each, "status", "nodeInfo") for each in nodes):
        return []
    return [f"all pods are of the namespace {shown(*namespaces)}: where others run on this node"
            " too, these are given what is theirs (kubectl get pods -A)"]


def pods_notes(pods: Sequence[Pod], allocatable: int | None) -> list[str]:
    """Notes of the pods of a node that ask for more than there is, or otherwise than Kubernetes
    takes."""
    found, asked = list[str](), requested_by(pods)
    if allocatable is not None and asked > allocatable:
        found.append(f"the pods request {asked}m of the {allocatable}m that the node has for them:"
                     " the scheduler puts no such pods there")
    return found + [note for each in pods for note in (*rest_note(each), *refused_notes(each))]


def node_notes(node: dict[str, Any] | None) -> list[str]:
    """Notes of a node whose groups may be others, or of none."""
    if node is None:
        return ["no node's JSON: kubepods has weight 100"]
    found, system = list[str](), node_facts(node).system
    if any(field(each, "type") == "Ready" and field(each, "status") != "True"
           for each in tables(node, "status", "conditions")):
        found.append("the node is not ready: its pods may have ended since")
    if system not in ("", "linux"):
        found.append(f"the node runs {shown(system)}, which has no cgroups: weights and limits here"
                     " are those of Linux")
    return found


def read(files: Sequence[File], library: Library, options: SourceOptions) -> Model:
    """The model of a node from the files of its pods and of the node itself."""
    options = options.for_containers("request", TOP)
    values = [(name, loads(data, name)) for name, data in files]
    items = [item for name, value in values for item in items_of(value, name)]
    node = node_of(items, options)
    notes = [*other_kinds(items), *(note for _, value in values for note in replicas_note(value))]
    capacity, allocatable = (amount_of(field(node, "status", key, CPU), CPU, f"node, {key}")
                             for key in ("capacity", "allocatable"))
    if not capacity and options.cpus is None:
        raise NoHost("number of CPUs unknown: pass the node's JSON or --cpus")
    host = options.host(library, max((capacity or 0) // 1000, 1))
    if capacity and capacity % 1000 and options.cpus is None:
        notes.append(f"the node has {capacity}m: the plan is of its {host.processors} whole CPUs")
    pods = pods_on(items, text_field(node, "metadata", "name") if node else options.node, library,
                   notes)
    if not (pods or options.is_part or any("none of the pods" in each for each in notes)):
        notes.append("no pod is in these files that has not ended")
    notes += pods_notes(pods, allocatable)
    if not options.is_part:
        notes += namespace_note({each.namespace for each in pods}, [node])
    notes += node_notes(node)
    with naming("node, allocatable"):
        has = {name: math.floor(number_of(value, shown(name)))
               for name, value in table(node, "status", "allocatable").items() if name != "cpu"}
    source = PodSource(library, options, host, tuple(pods), allocatable, capacity is not None,
                       node_facts(node, tuple(sorted(has.items()))), scaled_in(items),
                       notes=tuple(notes))
    used = list(of_metrics([each for each in items if each.get("kind") == "PodMetrics"], "usage"))
    source = source.with_usage(used, "usage") if used else source
    return (options.measured(source) if options.measured else source).model()
