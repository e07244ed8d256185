"""Strategic merge patches of what owns pods, for `kubectl patch --patch-file` or kustomize.

The requests and limits of containers are what is written. Weights and limits of pods and classes
follow from them: a group that kubelet and the runtime would set otherwise than is asked is refused.
"""
from __future__ import annotations

import re
from collections.abc import Iterator, Mapping, Sequence
from fractions import Fraction
from typing import Any, NamedTuple

import yaml

from arbiter_host.base import units
from arbiter_host.base.atomic_files import Document
from arbiter_host.base.faults import HostFault
from arbiter_host.base.model import Group
from arbiter_host.base.names import shown
from arbiter_host.base.owned import Amounts, Setting
from arbiter_host.exports import Differing, Draft, head
from arbiter_host.setting import apply
from arbiter_host.sources.kubernetes import MAKERS, PodSource
from arbiter_host.sources.pods import Container, Pod

# What a name of an object may be, so that it can be a part of a file's name and of a command.
NAME = re.compile(r"[a-z0-9]([-a-z0-9.]{0,251}[a-z0-9])?")
# Thousandths of the greatest request that has the least shares. What weighs least is given so much.
LEAST_REQUEST = 2
# The amounts of a container by `requests` and `limits`; those of the containers by their names, for
# each list of a pod. None takes an amount away.
Resources = dict[str, dict[str, str | None]]
Rows = dict[str, dict[str, Resources]]


class Target(NamedTuple):
    """The target of a patch."""

    kind: str
    namespace: str
    name: str

    @property
    def words(self) -> str:
        """Its kind and name, for people."""
        return f"{self.kind} {shown(self.namespace)}/{shown(self.name)}"


def target_of(pod: Pod) -> Target:
    """The owner of a pod as far up as its template may be changed; else the pod."""
    kind, _, owner = pod.owner.partition(" ")
    namespace, _, name = owner.partition("/")
    return Target(kind, namespace, name) if kind else Target("Pod", pod.namespace, pod.name)


def list_of(container: Container) -> str:
    """The list of a pod in which a container stands."""
    return "initContainers" if container.kind else "containers"


def request_of(draft: Draft, group: Differing) -> int | None:
    """The request of a container in thousandths: AFTER's, else the least of its weight."""
    if group.has_request:
        return int(group.after.request or 0)
    least = units.least_of(draft.library, units.OF_REQUESTS[draft.runtime], group.after.weight)
    if least is None:
        draft.refuse(group.path, f"no request gives weight {group.after.weight}")
    return None if least is None else max(least, LEAST_REQUEST)


def limit_of(draft: Draft, group: Differing) -> int | None:
    """The limit of a container in thousandths."""
    if group.after.quota is None:
        return None
    exact = Fraction(1000 * group.after.quota, group.after.period)
    if exact.denominator != 1:
        draft.refuse(group.path, "the limit is no whole number of thousandths of a CPU")
    return int(exact)


def changes(draft: Draft, group: Differing, now: Amounts) -> Resources:
    """The resources of a container that change. A limit alone must not become the request."""
    amounts = {}
    if group.has_weight or group.has_request:
        amounts["requests"] = request_of(draft, group)
    elif group.has_limit and now.request == now.limit:
        amounts["requests"] = int(group.before.request or 0)
    if group.has_limit:
        amounts["limits"] = limit_of(draft, group)
    return {key: {"cpu": None if each is None else f"{each}m"} for key, each in amounts.items()}


def paired(draft: Draft) -> Iterator[Differing]:
    """The groups of both models: of one path, else of one title, where the class of a pod changes.
    """
    yield from draft.common()
    places = {each.title: path for path, each in draft.after.groups.items()
              if each.title and path not in draft.before.groups}
    for path, each in draft.before.groups.items():
        if path not in draft.after.groups and each.title in places:
            then = places[each.title]
            draft.moved.update((path, then))
            yield Differing(path, each, draft.after.groups[then])


def settings_of(source: PodSource, patches: Mapping[Target, Rows]) -> Iterator[Setting]:
    """The settings of the patches: containers of all pods of their targets."""
    for path in source.own:
        pod, number, _ = source.part(path)
        rows = patches.get(target_of(pod), {}).get(list_of(pod.parts[number]), {})
        for key, cpu in rows.get(pod.parts[number].name, {}).items():
            yield Setting(path, key.removesuffix("s"), cpu["cpu"] or "none")


def check(draft: Draft, groups: Mapping[str, Group]) -> None:
    """Refuses each group that kubelet and the runtime would set otherwise than is asked; or of
    these alone the containers that the patch changes though nobody has named them."""
    unnamed = [path for path, group in draft.after.groups.items()
               if group.pod[2] and path in draft.before.groups and path in groups
               and apply.settings_of(draft.before.groups[path]) == apply.settings_of(group)
               != apply.settings_of(groups[path])]
    for path in unnamed:
        draft.refuse(path, "its pod has the owner of one that is changed, and so the same patch:"
                     " name all of them, as --set 'NAMESPACE/NAME-*/CONTAINER.request=..'")
    if unnamed:
        return
    for path, group in draft.after.groups.items():
        if path not in draft.before.groups and path not in draft.moved:
            continue
        wanted = apply.settings_of(group)
        would = apply.settings_of(groups[path]) if path in groups else None
        if wanted != would:
            told = f"set {apply.in_words(would)}" if would else "put it into another class"
            draft.refuse(path, f"{apply.in_words(wanted)} is asked for, and Kubernetes would"
                         f" {told}: requests and limits of containers decide it")


def refusal_of(pod: Pod, target: Target) -> str:
    """Why a pod cannot be patched; empty where it can."""
    if not (NAME.fullmatch(target.namespace) and NAME.fullmatch(target.name)):
        return f"{target.words} is no name that Kubernetes takes"
    if pod.is_static:
        return f"{target.words} is a static pod: its file on the node says its requests and limits"
    return ""


def check_class(draft: Draft, group: Differing, target: Target) -> None:
    """Refuses another class of a pod that nothing makes anew; tells it of others."""
    if draft.after.groups.get(group.path) is group.after:
        return
    if target.kind == "Pod":
        draft.refuse(group.path, "the class of its pod would be another, and a pod keeps its own")
    else:
        draft.told.append(f"{target.words}: with another class its pods are made anew:"
                          f" {shown(group.after.path)}")


def document(target: Target, rows: Rows, words: Sequence[str]) -> Document:
    """The patch of one target, and how it is applied."""
    kind, more = target.kind.lower(), ""
    spec: dict[str, Any] = {key: [{"name": name, "resources": each}
                                  for name, each in entries.items()]
                            for key, entries in rows.items()}
    if target.kind == "Pod":
        more = " --subresource resize"
    else:
        spec = {"template": {"spec": spec}}
    if target.kind == "CronJob":
        spec = {"jobTemplate": {"spec": spec}}
    file = f"{target.namespace}.{kind}.{target.name}.yaml"
    command = f"kubectl -n {target.namespace} patch {kind} {target.name}{more} --patch-file {file}"
    version = {**dict.fromkeys(MAKERS, "apps/v1"), "CronJob": "batch/v1"}.get(target.kind, "v1")
    data = {"apiVersion": version, "kind": target.kind,
            "metadata": {"name": target.name, "namespace": target.namespace}, "spec": spec}
    return Document(file, head("kubectl") + "".join(f"# {each}\n" for each in (command, *words))
                    + yaml.safe_dump(data, sort_keys=False))


def documents(draft: Draft) -> list[Document]:
    """A patch of each owner, or of a pod without one."""
    source = draft.before.owned
    if not isinstance(source, PodSource):
        raise HostFault("-o kubectl is for pods")
    patches: dict[Target, Rows] = {}
    words: dict[Target, list[str]] = {}
    for group in paired(draft):
        if not source.has(group.path) or not (
                group.has_weight or group.has_limit or group.has_request):
            continue
        pod, number, now = source.part(group.path)
        target, container = target_of(pod), pod.parts[number]
        refusal = refusal_of(pod, target)
        if refusal:
            draft.refuse(group.path, refusal)
            continue
        check_class(draft, group, target)
        resources = changes(draft, group, now)
        row = patches.setdefault(target, {}).setdefault(list_of(container), {})
        if row.setdefault(container.name, resources) != resources:
            draft.refuse(f"{target.words}, container {container.name}", "two of its pods are to"
                         " have two settings")
        words.setdefault(target, []).append(group.words)
    check(draft, source.changed(list(settings_of(source, patches))).plain.groups)
    for target in patches:
        count = sum(target_of(pod) == target for pod in source.pods)
        draft.told.append(f"{target.words}: " + (
            "nothing owns it whose template may change: its patch lasts as long as it"
            if target.kind == "Pod" else "the patch changes all its pods, on all nodes; here it"
            f" has {count}"))
    return [document(target, rows, words[target]) for target, rows in patches.items()]
