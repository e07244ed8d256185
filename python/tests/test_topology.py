"""Conditions of a pod on the pods of other nodes, beside a small model of the scheduler's rules
(twins.py), and what an operator sees of them."""
import json
import random
import re

import pytest
import twins
from arbiter_host.sources.conditions import (AFFINITY, ANTI_AFFINITY, OF_OTHERS, SPREAD, node_facts)
from arbiter_host.sources.topology import neighbour_of, neighbours_of
from test_cluster import cluster

KEYS, VALUES = ("zone", "host"), "abc"
REQUIRED = "requiredDuringSchedulingIgnoredDuringExecution"
SPREADS = "topologySpreadConstraints"


def chosen(chance, *values):
    return chance.choice(values)


def selector(chance):
    """A selector of labels, of all pods, or none."""
    one = {"matchLabels": {"app": chosen(chance, "x", "y")}}
    operator = chosen(chance, "In", "NotIn", "Exists", "DoesNotExist")
    values = ["x"] if operator in ("In", "NotIn") else []
    two = {"matchExpressions": [{"key": "app", "operator": operator, "values": values}]}
    return chosen(chance, one, one, two, {**one, **two}, {}, None)


def term(chance):
    made = {"topologyKey": chosen(chance, *KEYS), "labelSelector": selector(chance)}
    if chance.random() < 0.2:
        made["namespaceSelector"] = {}
    if chance.random() < 0.2:
        made["namespaces"] = ["m"]
    return made


def spread(chance):
    made = {"topologyKey": chosen(chance, *KEYS), "labelSelector": selector(chance),
            "maxSkew": chance.randint(1, 2),
            "whenUnsatisfiable": chosen(chance, "DoNotSchedule", "DoNotSchedule", "ScheduleAnyway")}
    for key, *words in (("nodeAffinityPolicy", "Honor", "Ignore"),
                        ("nodeTaintsPolicy", "Honor", "Ignore"), ("minDomains", 1, 2, 3)):
        if chance.random() < 0.3:
            made[key] = chosen(chance, *words)
    return made


def some_of(chance, make):
    return [make(chance) for _ in range(chance.choice([0, 0, 1, 1, 2]))]


def pod(name, labels=(), spec=(), namespace="n"):
    return {"kind": "Pod", "metadata": {"namespace": namespace, "name": name,
                                        "labels": dict(labels)},
            "spec": {"containers": [{"name": "c"}], **dict(spec)}, "status": {"phase": "Pending"}}


def random_pod(chance, name):
    spec = {"affinity": {}}
    for kind, odds in (("podAffinity", 0.3), ("podAntiAffinity", 0.4)):
        if chance.random() < odds:
            spec["affinity"][kind] = {REQUIRED: some_of(chance, term)}
    if chance.random() < 0.4:
        spec[SPREADS] = some_of(chance, spread)
    if chance.random() < 0.2:
        spec["nodeSelector"] = {"zone": chosen(chance, *VALUES)}
    if chance.random() < 0.3:
        spec["tolerations"] = [{"operator": "Exists"}]
    labels = {"app": chosen(chance, "x", "y")} if chance.random() < 0.8 else {}
    made = pod(name, labels, spec, chosen(chance, "n", "n", "m"))
    if chance.random() < 0.1:
        made["metadata"]["deletionTimestamp"] = "2026-01-01T00:00:00Z"
    return made


def node(name, labels=(), spec=()):
    return {"kind": "Node", "metadata": {"name": name, "labels": dict(labels)},
            "spec": dict(spec), "status": {each: {"cpu": "8"} for each in ("capacity",
                                                                            "allocatable")}}


def random_nodes(chance):
    made = []
    for at in range(chance.randint(1, 6)):
        labels = {key: chosen(chance, *VALUES) for key in KEYS if chance.random() < 0.85}
        taints = [{"key": "gpu", "effect": "NoSchedule"}] if chance.random() < 0.2 else []
        made.append(node(f"n{at}", labels, {"taints": taints}))
    return made


def test_random_clusters():
    """On 3,000 random clusters a pod goes where the model lets it go, some on all nodes, some on
    none, and nothing is left that is not looked at."""
    chance, counts = random.Random(11), [0, 0, 0]
    for at in range(3000):
        nodes = random_nodes(chance)
        others = [(chosen(chance, *nodes)["metadata"]["name"], random_pod(chance, f"p{each}"))
                  for each in range(chance.randint(0, 8))]
        one = random_pod(chance, "one")
        of_node = {each["metadata"]["name"]: [] for each in nodes}
        for name, other in others:
            of_node[name].append(other)
        among = neighbours_of({each["metadata"]["name"]: node_facts(each) for each in nodes},
                              of_node)
        refused = among.refusals(neighbour_of(one))
        allowed = twins.beside(nodes, others, one)
        assert of_node.keys() - refused.keys() == allowed, (at, refused)
        assert all(refused.values())
        assert among.not_looked_at(neighbour_of(one), ["volumes", AFFINITY, OF_OTHERS]) == [
            "volumes"]
        counts[0 if not allowed else 2 if len(allowed) == len(nodes) else 1] += 1
    assert min(counts) > 300, counts


@pytest.mark.parametrize("kind, name", [("podAffinity", AFFINITY),
                                        ("podAntiAffinity", ANTI_AFFINITY), (None, SPREAD)])
@pytest.mark.parametrize("more, is_judged", [
    ({}, True), ({"namespaceSelector": {}}, True), ({"matchLabelKeys": []}, True),
    ({"namespaceSelector": {"matchLabels": {"team": "a"}}}, None),
    ({"matchLabelKeys": ["pod-template-hash"]}, False), ({"mismatchLabelKeys": ["a"]}, None),
    ({"topologyKey": ""}, False),
    ({"labelSelector": {"matchExpressions": [{"key": "a", "operator": "Gt", "values": ["1"]}]}},
     False)])
def test_what_no_json_of_pods_tells(kind, name, more, is_judged):
    """Labels of namespaces, and keys that the API server fills in: the condition is named. A spread
    has no namespaces."""
    row = {"topologyKey": "zone", "labelSelector": {}, "whenUnsatisfiable": "DoNotSchedule",
           "maxSkew": 1, **more}
    if is_judged is None:
        is_judged = False
    spec = {"affinity": {kind: {REQUIRED: [row]}}} if kind else {SPREADS: [row]}
    among, one = neighbours_of({"a": node_facts(node("a", {"zone": "1"}))}, {"a": []}), pod(
        "p", (), spec)
    told = among.not_looked_at(neighbour_of(one), [name])
    assert told == ([] if is_judged else [name])
    # Where it is a pod that is there, others are told of its anti-affinity alone.
    there = neighbours_of(among.nodes, {"a": [one]})
    assert there.not_looked_at(neighbour_of(pod("q")), []) == (
        [OF_OTHERS] if kind == "podAntiAffinity" and not is_judged else [])


# What an operator sees

ZONE, HOST = "topology.kubernetes.io/zone", "kubernetes.io/hostname"
NODES = [node(name, {ZONE: zone, HOST: name}) for name, zone in (
    ("n1", "east"), ("n2", "east"), ("n3", "west"))]


def apart(key, app="web"):
    return {"affinity": {"podAntiAffinity": {REQUIRED: [
        {"topologyKey": key, "labelSelector": {"matchLabels": {"app": app}}}]}}}


def running(name, at, labels, spec=()):
    made = pod(name, labels, spec)
    made["spec"]["nodeName"], made["status"]["phase"] = at, "Running"
    return made


def deployment(folder, replicas, spec):
    labels = {"app": "web"}
    made = pod("any", labels, spec)
    made["spec"]["containers"][0]["resources"] = {"requests": {"cpu": "500m"}}
    (folder / "d.json").write_text(json.dumps({
        "kind": "Deployment", "metadata": {"namespace": "n", "name": "web"},
        "spec": {"replicas": replicas, "template": {
            "metadata": {"labels": labels}, "spec": made["spec"]}}}))
    return folder / "d.json"


def placed(ctl, folder, replicas, spec, *there, status=0):
    """The nodes of the replicas, one after another, and all that is told."""
    (folder / "c.json").write_bytes(cluster(*NODES, *there))
    file = deployment(folder, replicas, spec)
    out, err = ctl.run("place", folder / "c.json", "--pod", file, "--workers", "0", "-o", "text",
                       "-o", f"json={folder / 'j'}", status=status)
    found = json.loads((folder / "j").read_text())
    return [each["host"] for each in found.get("pending", [])], found, out + err


def test_replicas_of_which_none_is_on_one_node_with_another(ctl, folder):
    """Four of them on three nodes: the fourth has none. All are by the same conditions."""
    hosts, found, said = placed(ctl, folder, 4, apart(HOST), status=6)
    assert hosts == ["n1", "n2", "n3", None]
    assert ("d.json 4 of 4: n1: its pod anti-affinity does not hold: n/web has the same"
            " kubernetes.io/hostname; 2 more refuse it") in said
    assert all(each["not_looked_at"] == [] for each in found["pending"])
    assert "not looked at" not in said


def test_a_zone_that_is_kept_free(ctl, folder):
    """A pod of east keeps all of east: n2 too, where it is not."""
    there = running("db-0", "n1", {"app": "db"}, apart(ZONE, "web"))
    (*_, found, said) = placed(ctl, folder, 1, {}, there)
    whys = {each["host"]: each["pods"][0].get("why") for each in found["hosts"]}
    words = ("the pod anti-affinity of n/db-0 does not hold: it has the same"
             " topology.kubernetes.io/zone")
    assert whys == {"n1": words, "n2": words, "n3": None}
    assert found["fleet"]["best"] == {str(folder / "d.json"): ["n3"]}
    assert f"that cannot take it: 2, as n1: {words}" in said


def test_replicas_are_spread(ctl, folder):
    """One in west; with maxSkew 1 the next are of east, west, east by turns from there."""
    rule = {SPREADS: [{"maxSkew": 1, "topologyKey": ZONE, "whenUnsatisfiable": "DoNotSchedule",
                       "labelSelector": {"matchLabels": {"app": "web"}}}]}
    there = running("web-0", "n3", {"app": "web"})
    hosts, found, _ = placed(ctl, folder, 4, rule, there)
    zones = ["west" if each == "n3" else "east" for each in hosts]
    assert zones[0] == "east" and sorted(zones[1:3]) == ["east", "west"]
    west = {each["host"]: each["pods"][0].get("why") for each in found["hosts"]}["n3"]
    assert west == ("its topology spread does not hold: such pods of"
                    " topology.kubernetes.io/zone=west would be 2, the least are 0, and maxSkew is"
                    " 1")


def test_pods_that_wait_are_placed_beside_others(ctl):
    """The first of a pair goes anywhere, the second to it; another has no such pod."""
    near = {"affinity": {"podAffinity": {REQUIRED: [
        {"topologyKey": ZONE, "labelSelector": {"matchLabels": {"app": "pair"}}}]}}}
    given = cluster(*NODES, pod("a", {"app": "pair"}, near), pod("b", {"app": "pair"}, near),
                    pod("c", {"app": "pair"}, near, "other"), pod("d", (), near, "third"))
    out, _ = ctl.run("explain", "-", "--workers", "0", "-o", "json", given=given)
    rows = {each["pod"]: each for each in json.loads(out)["pending"]}
    assert rows["n/a"]["host"] in ("n1", "n2") and rows["n/b"]["host"] in ("n1", "n2")
    assert rows["other/c"]["host"] and rows["third/d"]["why"] == (
        "n1: its pod affinity does not hold: no such pod has topology.kubernetes.io/zone=east;"
        " n3: its pod affinity does not hold: no such pod has topology.kubernetes.io/zone=west;"
        " 1 more refuse it")
    assert all(each["not_looked_at"] == [] for each in rows.values())


def test_no_column_of_nothing(ctl, folder):
    """Where nobody loses nothing is said of who loses most."""
    *_, said = placed(ctl, folder, 1, {})
    head, = re.findall("^host .*$", said, re.M)
    assert head.split() == "host gets wants others lose left".split()
