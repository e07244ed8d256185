"""Conditions on which the scheduler of Kubernetes puts a pod on a node: cordons, taints, labels,
gates and the operating system. Those that are not looked at are named.
"""
from __future__ import annotations

import re
from collections.abc import Mapping, Sequence
from dataclasses import dataclass
from typing import Any, NamedTuple

from arbiter_host.base.faults import HostFault
from arbiter_host.base.names import shown
from arbiter_host.sources.data import MAX_TEXT, field, table, tables, text_field

# The effects of a taint that keep a new pod away, and the taint that a cordon is.
EFFECTS = ("NoSchedule", "NoExecute")
CORDON = "node.kubernetes.io/unschedulable"
# The label of the operating system. The name of a node, which a term may match, has a key that no
# label has.
SYSTEM, NAME = "kubernetes.io/os", "field metadata.name"
INTEGER = re.compile("[-+]?[0-9]{1,18}")
OPERATORS = ("In", "NotIn", "Exists", "DoesNotExist", "Gt", "Lt")
REQUIRED = "requiredDuringSchedulingIgnoredDuringExecution"
# Keys of a volume that ties its pod to no node.
PLAIN_VOLUMES = {"name", "configMap", "downwardAPI", "emptyDir", "hostPath", "image", "nfs",
                 "projected", "secret"}
# Conditions on the pods of other nodes too, which a node alone cannot judge, in their order; and
# what pods that are there ask of a new one.
AFFINITY, ANTI_AFFINITY, SPREAD = "pod affinity", "pod anti-affinity", "topology spread"
BETWEEN, OF_OTHERS = (AFFINITY, ANTI_AFFINITY, SPREAD), f"{ANTI_AFFINITY} of others"


class Expression(NamedTuple):
    """A condition on one label of a node."""

    key: str
    operator: str
    values: tuple[str, ...] = ()

    def holds(self, labels: Mapping[str, str]) -> bool:
        """Whether it holds for labels. One of an operator that is not known does."""
        value = labels.get(self.key)
        if self.operator in ("Gt", "Lt"):
            if len(self.values) != 1 or not all(
                    INTEGER.fullmatch(each) for each in (value or "", *self.values)):
                return False
            rise = int(value or 0) - int(self.values[0])
            return rise > 0 if self.operator == "Gt" else rise < 0
        is_in = value is not None and value in self.values
        return {"In": is_in, "NotIn": not is_in, "Exists": value is not None,
                "DoesNotExist": value is None}.get(self.operator, True)

    @property
    def words(self) -> str:
        """The condition for people."""
        values = f" {', '.join(self.values)}" if self.values else ""
        return shown(f"{self.key} {self.operator}{values}"[:MAX_TEXT])


class Toleration(NamedTuple):
    """The taints that a pod tolerates: those of a key, a value and an effect. Empty: of any."""

    key: str = ""
    # Any value where this is none.
    value: str | None = None
    effect: str = ""


class Taint(NamedTuple):
    """A taint of a node."""

    key: str
    value: str
    effect: str

    def is_tolerated(self, by: Toleration) -> bool:
        """Whether a toleration is of this taint. A key that is empty is of any."""
        return (by.effect in ("", self.effect) and by.value in (None, self.value)
                and (by.key == self.key or not by.key and by.value is None))


class Conditions(NamedTuple):
    """The conditions of a pod on its node."""

    # Labels that the node must have, and terms of which one must hold; None for no terms.
    selector: tuple[tuple[str, str], ...] = ()
    terms: tuple[tuple[Expression, ...], ...] | None = None
    tolerations: tuple[Toleration, ...] = ()
    gates: tuple[str, ...] = ()
    system: str = ""
    # The conditions that are not looked at.
    unjudged: tuple[str, ...] = ()

    @property
    def keys(self) -> set[str]:
        """The labels on which it depends."""
        return {key for key, _ in self.selector} | {
            each.key for term in self.terms or () for each in term}


@dataclass(frozen=True)
class NodeFacts:
    """The word of a node on the pods that it takes."""

    taints: tuple[Taint, ...] = ()
    labels: tuple[tuple[str, str], ...] = ()
    system: str = ""
    # Amounts of resources for pods, by their names; CPU is not among them.
    has: tuple[tuple[str, int], ...] = ()

    def check(self, pod: Conditions) -> None:
        """A fault where the scheduler puts no such pod on the node."""
        if pod.gates:
            raise HostFault(f"it waits for its gates {shown(', '.join(pod.gates))}")
        why = self.kept_off(pod) or self.unmet(pod)
        if why:
            raise HostFault(why)
        self.check_system(pod)

    def kept_off(self, pod: Conditions) -> str:
        """The taint that keeps a pod away, in words; empty for none."""
        for taint in self.taints:
            if not any(taint.is_tolerated(each) for each in pod.tolerations):
                return ("the node takes no new pods (unschedulable)" if taint.key == CORDON
                        else f"it does not tolerate the taint {shown(taint.key)}")
        return ""

    def unmet(self, pod: Conditions) -> str:
        """The condition of a pod on labels that the node does not meet, in words; empty for none.
        """
        labels = dict(self.labels)
        for key, value in pod.selector:
            if labels.get(key) != value:
                return f"the node has no label {shown(key)}={shown(value)}"
        # (a term without an expression holds nowhere)
        if pod.terms is not None and not any(
                term and all(each.holds(labels) for each in term) for term in pod.terms):
            first = next((each.words for term in pod.terms for each in term
                          if not each.holds(labels)), "no term")
            return f"its node affinity does not hold: {first}"
        return ""

    def check_system(self, pod: Conditions) -> None:
        """A fault where the node has another operating system than the pod names. One that names
        none is of Linux."""
        named = pod.system or ("" if SYSTEM in pod.keys else "linux")
        if self.system and named and named != self.system:
            raise HostFault(f"the node runs {shown(self.system)}"
                            + (f" and the pod {shown(named)}" if pod.system
                               else ", for which the pod does not ask"))


def pairs_of(labels: dict[str, Any]) -> tuple[tuple[str, str], ...]:
    """Labels in order: those of a pod or a node, or those that a pod's node must have."""
    return tuple(sorted((key, text_field(labels, key)) for key in labels))


def expressions(term: dict[str, Any]) -> tuple[Expression, ...]:
    """The expressions of a term on labels and on fields."""
    rows = [(before, each) for before, key in (("", "matchExpressions"), ("field ", "matchFields"))
            for each in tables(term, key)]
    values = [field(each, "values") for _, each in rows]
    return tuple(Expression(before + text_field(each, "key"), text_field(each, "operator"),
                            tuple(map(str, of)) if isinstance(of, list) else ())
                 for (before, each), of in zip(rows, values))


def unjudged(spec: dict[str, Any], uid: str, terms: Sequence[Sequence[Expression]]) -> list[str]:
    """The conditions of a pod that are not looked at, by their names."""
    affinity, scheduler = table(spec, "affinity"), text_field(spec, "schedulerName")
    ports = [port for key in ("initContainers", "containers") for each in tables(spec, key)
             for port in tables(each, "ports")]
    operators = {text_field(each, "operator") for each in tables(spec, "tolerations")}
    found = {
        "node affinity": any(each.operator not in OPERATORS for term in terms for each in term),
        "tolerations": not operators <= {"", "Equal", "Exists"},
        AFFINITY: bool(field(affinity, "podAffinity", REQUIRED)),
        ANTI_AFFINITY: bool(field(affinity, "podAntiAffinity", REQUIRED)),
        SPREAD: any(text_field(each, "whenUnsatisfiable") != "ScheduleAnyway"
                               for each in tables(spec, "topologySpreadConstraints")),
        "volumes": any(each.keys() - PLAIN_VOLUMES for each in tables(spec, "volumes")),
        "host ports": bool(ports) and field(spec, "hostNetwork") is True or any(
            field(each, "hostPort") for each in ports),
        "resource claims": bool(tables(spec, "resourceClaims")),
        # (the API server has put what a class says into each pod that it knows)
        "runtime class": bool(text_field(spec, "runtimeClassName")) and not uid,
        f"the scheduler {shown(scheduler)}": scheduler not in ("", "default-scheduler"),
    }
    return [name for name, is_there in found.items() if is_there]


def conditions_of(spec: dict[str, Any], uid: str) -> Conditions:
    """The conditions of a pod's JSON."""
    required = field(spec, "affinity", "nodeAffinity", REQUIRED)
    terms = tuple(map(expressions, tables(required, "nodeSelectorTerms")))
    return Conditions(
        pairs_of(table(spec, "nodeSelector")), terms if isinstance(required, dict) else None,
        tuple(Toleration(
            text_field(each, "key"),
            None if text_field(each, "operator") == "Exists" else text_field(each, "value"),
            text_field(each, "effect")) for each in tables(spec, "tolerations")),
        tuple(text_field(each, "name") for each in tables(spec, "schedulingGates")),
        text_field(spec, "os", "name"), tuple(unjudged(spec, uid, terms)))


def node_facts(node: dict[str, Any] | None, has: tuple[tuple[str, int], ...] = ()) -> NodeFacts:
    """The facts of a node's JSON on the pods that it takes, with what it has for them."""
    labels = table(node, "metadata", "labels")
    taints = [Taint(*(text_field(each, key) for key in Taint._fields))
              for each in tables(node, "spec", "taints") if text_field(each, "effect") in EFFECTS]
    if field(node, "spec", "unschedulable") is True:
        taints.insert(0, Taint(CORDON, "", "NoSchedule"))
    system = text_field(labels, SYSTEM) or text_field(node, "status", "nodeInfo", "operatingSystem")
    return NodeFacts(tuple(taints),
                     pairs_of({NAME: text_field(node, "metadata", "name"), **labels}), system, has)
