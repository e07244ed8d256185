"""Conditions of a pod on the pods of all nodes of a cluster: pod affinity, pod anti-affinity and
topology spread, by labels of nodes such as their zone. The rules are those of kube-scheduler.
"""
from __future__ import annotations

import functools
from collections import Counter
from collections.abc import Callable, Iterator, Mapping, Sequence
from dataclasses import dataclass
from typing import Any, NamedTuple

from arbiter_host.base.names import shown
from arbiter_host.sources.conditions import (AFFINITY, ANTI_AFFINITY, BETWEEN, OF_OTHERS, REQUIRED,
                                             SPREAD, Conditions, Expression, NodeFacts,
                                             conditions_of, expressions, pairs_of)
from arbiter_host.sources.data import field, number, table, tables, text_field
from arbiter_host.sources.pods import names_of

Labels = Mapping[str, str]
# The reason why a node of some labels takes no such pod; empty where it does.
Rule = Callable[[Labels], str]
# Operators of a selector of pods.
OPERATORS = ("In", "NotIn", "Exists", "DoesNotExist")
# Fields of a term by which it means other pods than its selector says.
MORE = ("matchLabelKeys", "mismatchLabelKeys")


class Term(NamedTuple):
    """Pods by their namespaces and labels, and the label of nodes by which they are near."""

    key: str
    # No pod where this is none.
    selector: tuple[Expression, ...] | None
    # Of any namespace where this is none.
    namespaces: frozenset[str] | None

    def selects(self, pod: Neighbour) -> bool:
        """Whether a pod is one of these."""
        return (self.selector is not None and all(each.holds(pod.labels) for each in self.selector)
                and (self.namespaces is None or pod.namespace in self.namespaces))


class Spread(NamedTuple):
    """A constraint: nodes of one value of a label have at most so many of the pods more than those
    of another value."""

    term: Term
    most: int
    # The least number of values, below which the least count is 0.
    values: int
    # The nodes that count: those that the pod's node affinity takes, those whose taints it
    # tolerates.
    by_affinity: bool
    by_taints: bool

    def counts(self, node: NodeFacts, pod: Conditions) -> bool:
        """Whether the pods of a node count."""
        return not (self.by_affinity and node.unmet(pod) or self.by_taints and node.kept_off(pod))


class Neighbour(NamedTuple):
    """A pod with what it asks of other pods."""

    namespace: str
    name: str
    labels: Labels
    near: tuple[Term, ...] = ()
    apart: tuple[Term, ...] = ()
    even: tuple[Spread, ...] = ()
    conditions: Conditions = Conditions()
    is_ending: bool = False
    # Names of the kinds of which some term cannot be judged.
    unjudged: frozenset[str] = frozenset()

    @property
    def title(self) -> str:
        return shown(f"{self.namespace}/{self.name}")


def selector_of(selector: Any) -> tuple[Expression, ...] | None:
    """The expressions of a selector of labels; None where there is no selector."""
    if not isinstance(selector, dict):
        return None
    equal = pairs_of(table(selector, "matchLabels"))
    return *(Expression(key, "In", (value,)) for key, value in equal), *expressions(selector)


def term_of(row: dict[str, Any], namespace: str) -> Term:
    """A term of pods near those of a namespace."""
    named = field(row, "namespaces")
    of = frozenset(map(str, named)) if isinstance(named, list) and named else {namespace}
    is_any = selector_of(field(row, "namespaceSelector")) == ()
    return Term(text_field(row, "topologyKey"), selector_of(field(row, "labelSelector")),
                None if is_any else frozenset(of))


def is_judged(row: dict[str, Any]) -> bool:
    """Whether all of a term is in the JSON of pods. Labels of namespaces are not."""
    rows = tables(row, "labelSelector", "matchExpressions")
    return bool(text_field(row, "topologyKey")) and not (
        selector_of(field(row, "namespaceSelector")) or any(field(row, key) for key in MORE)
        or any(text_field(each, "operator") not in OPERATORS for each in rows))


def spread_of(row: dict[str, Any], namespace: str) -> Spread:
    return Spread(term_of({**row, "namespaces": [], "namespaceSelector": None}, namespace),
                  max(number(row, "maxSkew"), 1), number(row, "minDomains"),
                  text_field(row, "nodeAffinityPolicy") != "Ignore",
                  text_field(row, "nodeTaintsPolicy") == "Honor")


def neighbour_of(pod: dict[str, Any]) -> Neighbour:
    """A pod as its JSON has it."""
    (namespace, name), spec = names_of(pod), table(pod, "spec")
    rows = {kind: tables(spec, "affinity", key, REQUIRED) for kind, key in (
        (AFFINITY, "podAffinity"), (ANTI_AFFINITY, "podAntiAffinity"))}
    rows[SPREAD] = [each for each in tables(spec, "topologySpreadConstraints")
                    if text_field(each, "whenUnsatisfiable") != "ScheduleAnyway"]
    near, apart = (tuple(term_of(each, namespace) for each in rows[kind] if is_judged(each))
                   for kind in (AFFINITY, ANTI_AFFINITY))
    return Neighbour(
        namespace, name, dict(pairs_of(table(pod, "metadata", "labels"))), near, apart,
        tuple(spread_of(each, namespace) for each in rows[SPREAD] if is_judged(each)),
        conditions_of(spec, ""), bool(field(pod, "metadata", "deletionTimestamp")),
        frozenset(kind for kind, each in rows.items() if not all(map(is_judged, each))))


@dataclass
class Neighbours:
    """All nodes of a cluster by their names, and the pods of each; other hosts have none. A pod is
    None where it is none of Kubernetes."""

    nodes: Mapping[str, NodeFacts]
    pods: list[tuple[str, Neighbour]]

    @functools.cached_property
    def labels(self) -> dict[str, Labels]:
        return {name: dict(node.labels) for name, node in self.nodes.items()}

    def put(self, pod: Neighbour | None, node: str) -> None:
        """A pod goes to a node."""
        self.pods += [(node, pod)] if pod and node in self.nodes else []

    def refusals(self, pod: Neighbour | None) -> dict[str, str]:
        """The nodes that take no such pod beside these, each with its reason."""
        if pod is None:
            return {}
        rules = [self.apart(pod), *([self.near(pod)] if pod.near else []), *self.even(pod)]
        found = {name: next(filter(None, (rule(labels) for rule in rules)), "")
                 for name, labels in self.labels.items()}
        return {name: why for name, why in found.items() if why}

    def not_looked_at(self, pod: Neighbour | None, of_node: Sequence[str]) -> list[str]:
        """The conditions that are not looked at, of which a node alone told some."""
        if pod is None or not self.nodes:
            return list(of_node)
        others = any(ANTI_AFFINITY in each.unjudged for _, each in self.pods)
        return [*(each for each in of_node if each not in (*BETWEEN, OF_OTHERS)),
                *(each for each in BETWEEN if each in pod.unjudged), *([OF_OTHERS] * others)]

    def apart(self, pod: Neighbour) -> Rule:
        """No pod is near from which this one, or which from this one, keeps apart."""
        shut: dict[tuple[str, str], str] = {}
        own = [(f"its {ANTI_AFFINITY} does not hold: {other.title} has the same", term, node)
               for node, other in (self.pods if pod.apart else ()) for term in pod.apart
               if term.selects(other)]
        of_others = [(f"the {ANTI_AFFINITY} of {other.title} does not hold: it has the same", term,
                      node) for node, other in self.pods for term in other.apart
                     if term.selects(pod)]
        for words, term, node in (*own, *of_others):
            value = self.labels[node].get(term.key)
            if value is not None:
                shut.setdefault((term.key, value), f"{words} {shown(term.key)}")
        return lambda labels: next((shut[each] for each in labels.items() if each in shut), "")

    def near(self, pod: Neighbour) -> Rule:
        """Near is a pod of all terms; the first such pod of the cluster goes anywhere."""
        homes = [self.labels[node] for node, other in self.pods
                 if all(term.selects(other) for term in pod.near)]
        places = {(term.key, labels[term.key]) for labels in homes for term in pod.near
                  if term.key in labels}
        is_first = not places and all(term.selects(pod) for term in pod.near)

        def why(labels: Labels) -> str:
            for key, *_ in pod.near:
                if key not in labels:
                    return f"the node has no label {shown(key)}, which its {AFFINITY} names"
                if (key, labels[key]) not in places and not is_first:
                    return (f"its {AFFINITY} does not hold: no such pod has"
                            f" {shown(f'{key}={labels[key]}')}")
            return ""

        return why

    def even(self, pod: Neighbour) -> Iterator[Rule]:
        """No value of a label has too many pods more than the value with the least."""
        keys = {each.term.key for each in pod.even}
        whole = [name for name, labels in self.labels.items() if keys <= labels.keys()]
        for each in pod.even:
            nodes = {name: self.labels[name][each.term.key] for name in whole
                     if each.counts(self.nodes[name], pod.conditions)}
            counts = Counter(dict.fromkeys(nodes.values(), 0))
            counts.update(nodes[node] for node, other in self.pods if node in nodes
                          and not other.is_ending and each.term.selects(other))
            least = min(counts.values(), default=0) if len(counts) >= each.values else 0
            yield functools.partial(crowded, each, counts, least, each.term.selects(pod))


def crowded(spread: Spread, counts: Counter[str], least: int, is_own: bool, labels: Labels) -> str:
    """Why a pod would make the nodes of a value have too many; empty where it would not."""
    key = spread.term.key
    if key not in labels:
        return f"the node has no label {shown(key)}, which its {SPREAD} names"
    then = counts[labels[key]] + is_own
    if then - least <= spread.most:
        return ""
    return (f"its {SPREAD} does not hold: such pods of {shown(f'{key}={labels[key]}')} would be"
            f" {then}, the least are {least}, and maxSkew is {spread.most}")


def neighbours_of(nodes: Mapping[str, NodeFacts],
                  pods: Mapping[str, Sequence[dict[str, Any]]]) -> Neighbours:
    """The nodes of a cluster, and the pods of each from their JSON."""
    return Neighbours(nodes, [(node, neighbour_of(pod)) for node, each in pods.items()
                              for pod in each])
