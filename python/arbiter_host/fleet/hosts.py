"""The hosts of a fleet: files of a folder, or the nodes of a cluster."""
from __future__ import annotations

import functools
import json
import math
import os
from collections.abc import Callable, Mapping, Sequence
from dataclasses import dataclass, replace
from typing import Any

from arbiter import Library
from arbiter_host.base import demands, names
from arbiter_host.base.faults import HostFault, UsageFault, strerror
from arbiter_host.fleet.work import HostFile
from arbiter_host.sources import kubernetes, load, pods, topology
from arbiter_host.sources.conditions import node_facts
from arbiter_host.sources.data import field, loads, number, table, text_field
from arbiter_host.sources.source_options import SourceOptions
from arbiter_host.sources.usage import Used, of_metrics, some

# Files that a tree of cgroups has, and the folder of a fleet does not.
TREE_FILES = frozenset({"cgroup.controllers", "cgroup.procs", "cpu.stat"})
MOST_FILES = 100000


@dataclass(frozen=True)
class Pending:
    """A pod that no node has yet: its name, and its JSON.

    What a host gives to one pod it gives to each of the same shape.
    """

    title: str
    data: bytes
    shape: pods.Pod


@dataclass(frozen=True)
class Fleet:
    """The hosts, and of a cluster what no node has yet, and what gives its nodes and pods."""

    hosts: list[HostFile]
    pending: tuple[Pending, ...] = ()
    notes: tuple[str, ...] = ()
    neighbours: Callable[[], topology.Neighbours] | None = None

    @property
    def is_cluster(self) -> bool:
        return self.neighbours is not None

    def shapes(self) -> dict[pods.Pod, Pending]:
        """The first of the pods of each shape that no node has yet."""
        return {each.shape: each for each in reversed(self.pending)}


def below(folder: str) -> list[str] | None:
    """The paths of all files below a folder, without hidden ones; None for a tree of cgroups."""
    def refuse(error: OSError) -> None:
        raise HostFault(f"{names.shown(str(error.filename))}: {strerror(error)}") from error

    paths: list[str] = []
    for top, folders, files in os.walk(folder, onerror=refuse):
        if not TREE_FILES.isdisjoint(files):
            return None
        folders[:] = [each for each in folders if not each.startswith(".")]
        paths += [os.path.join(top, each) for each in files if not each.startswith(".")]
        if len(paths) > MOST_FILES:
            raise HostFault(f"{names.shown(folder)}: more than {MOST_FILES} files")
    return paths


def items_of(path: str, data: bytes) -> list[dict[str, Any]]:
    """The objects of JSON with several nodes; none of any other file."""
    if not load.has_nodes(data):
        return []
    content = loads(data, names.shown(path))
    items = (kubernetes.items_of(content, names.shown(path))
             if isinstance(field(content, "items"), list) else [])
    return items if sum(each.get("kind") == "Node" for each in items) > 1 else []


def named(paths: Sequence[str], folder: str) -> list[HostFile]:
    """The hosts in order of their names: their paths from a folder on, without endings."""
    files: dict[str, HostFile] = {}
    for path in paths:
        name = names.shown(os.path.splitext(os.path.relpath(path, folder))[0])
        if name in files:
            raise UsageFault(f"two hosts of the name {name}: {names.shown(files[name].path)},"
                             f" {names.shown(path)}")
        files[name] = HostFile(name, path)
    return [files[name] for name in sorted(files)]


def fleet_in(options: SourceOptions, files: Sequence[load.Opened], library: Callable[[], Library],
             used: Callable[[], Sequence[Used]] = tuple) -> Fleet | None:
    """The fleet that the files of the command line are; None where they are one host.

    The library and what pods used are asked for a cluster alone.
    """
    (path, data), *more = files
    if options.kind == "cgroup":
        return None
    if more:
        for name, bytes_ in files:
            if bytes_ is None and below(name):
                raise UsageFault(f"{names.shown(name)}: many hosts are one source, with no other"
                                 " beside it")
        return None
    if data is None:
        paths = below(path)
        return Fleet(named(paths, path)) if paths else None
    is_meant = options.kind in (None, "kubernetes") and not options.node
    items = items_of(path, data) if is_meant else []
    return of_cluster(path, items, library, used(), options.want) if items else None


def of_one(files: Sequence[load.Opened]) -> Fleet:
    """The fleet of one host, which is one file."""
    (path, data), *more = files
    if more or data is None:
        raise UsageFault("many hosts are a folder of their files, or a cluster's JSON; one host is"
                         " one file")
    name = os.path.splitext(os.path.basename(path))[0]
    return Fleet([HostFile(names.shown(name), path, data)])


def of_cluster(word: str, items: Sequence[dict[str, Any]], library: Callable[[], Library],
               used: Sequence[Used] = (), want: str = "") -> Fleet:
    """A host for each node of `kubectl get nodes,pods -A -o json`, with the pods that it has and
    what these used."""
    nodes = [each for each in items if each.get("kind") == "Node"]
    of_node: dict[str, list[dict[str, Any]]] = {name_of(node): [] for node in nodes}
    if len(of_node) < len(nodes):
        raise UsageFault(f"{names.shown(word)}: two nodes of one name")
    pending, lost = list[dict[str, Any]](), list[dict[str, Any]]()
    for pod in filter(kubernetes.is_pod, items):
        place = text_field(table(pod, "spec"), "nodeName")
        if place in of_node:
            of_node[place].append(pod)
        elif not kubernetes.has_ended(pod):
            (lost if place else pending).append(pod)
    own = list(of_metrics([each for each in items if each.get("kind") == "PodMetrics"], "usage"))
    metrics = metrics_of(used or own, want or "usage")
    scalers = [each for each in items if each.get("kind") == kubernetes.SCALER]
    hosts_ = [host_of(word, node, [*of_node[name_of(node)], *scalers], metrics)
              for node in sorted(nodes, key=name_of)]
    # The scheduler takes pods of a greater priority first.
    pending.sort(key=lambda pod: -number(pod, "spec", "priority"))
    here = {title(pod) for each in of_node.values() for pod in each}
    told = {"pods of nodes that are not in it, left out": list(map(title, lost)),
            "used by pods that no node here has": [name for name in metrics if name not in here]}
    notes = [f"{words}: {some(list(map(names.shown, each)))}"
             for words, each in told.items() if each]
    notes += kubernetes.namespace_note({pods.names_of(each)[0] for of in of_node.values()
                                        for each in of}, nodes)
    return Fleet(hosts_, tuple(pending_of(each, library()) for each in pending), tuple(notes),
                 functools.partial(neighbours_of, nodes, of_node))


def neighbours_of(nodes: Sequence[dict[str, Any]], of_node: Mapping[str, Sequence[dict[str, Any]]]
                  ) -> topology.Neighbours:
    """The nodes of a cluster, and the pods of each that have not ended."""
    lasting = {name: [pod for pod in each if not kubernetes.has_ended(pod)]
               for name, each in of_node.items()}
    return topology.neighbours_of({host_name(node): node_facts(node) for node in nodes},
                                  {host_name(node): lasting[name_of(node)] for node in nodes})


def metrics_of(used: Sequence[Used], want: str) -> dict[str, dict[str, Any]]:
    """The use as objects of metrics-server, by the title of the pod: the mean, the greatest
    or the 95th percentile of several amounts."""
    metrics: dict[str, dict[str, Any]] = {}
    for each in used:
        if not (each.namespace and each.pod and each.container):
            raise HostFault(f"{each.title}: of a cluster usage is told by namespace, pod and"
                            " container: kubectl top pods -A --containers")
        entry = metrics.setdefault(f"{each.namespace}/{each.pod}", {
            "kind": "PodMetrics", "metadata": {"namespace": each.namespace, "name": each.pod},
            "containers": []})
        amount = each.amounts.mean if want == "usage" else demands.percentile(
            each.amounts, 100 if want == "peak" else 95)
        entry["containers"].append({"name": each.container, "usage": {
            "cpu": f"{math.ceil(amount * 10**6)}n"}})
    return metrics


def name_of(node: dict[str, Any]) -> str:
    return text_field(table(node, "metadata"), "name")


def host_name(node: dict[str, Any]) -> str:
    return names.shown(name_of(node) or "unnamed")


def title(pod: dict[str, Any]) -> str:
    return "/".join(pods.names_of(pod))


def host_of(word: str, node: dict[str, Any], of_node: Sequence[dict[str, Any]],
            metrics: Mapping[str, dict[str, Any]]) -> HostFile:
    """A node as a host, with its pods and what scales some."""
    name = host_name(node)
    own = dict.fromkeys(map(title, filter(kubernetes.is_pod, of_node)))
    used = [metrics[each] for each in own if each in metrics]
    data = json.dumps({"kind": "List", "items": [node, *of_node, *used]}).encode()
    return HostFile(name, f"{word}: {name}", data, frozenset(own))


def pending_of(pod: dict[str, Any], library: Library) -> Pending:
    read = pods.pod_of(pod, library, [])
    data = json.dumps({**pod, "kind": "Pod"}).encode()
    shape = replace(read, namespace="", name="", uid="")
    return Pending(names.shown(read.title), data, shape)
