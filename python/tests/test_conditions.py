"""The scheduler's conditions, beside a small model of its rules (twins.py), and what a pod's row
says of those that are not looked at."""
import json
import random
import re

import pytest
import reading
import twins
from arbiter import Host
from arbiter_host.base.faults import HostFault
from arbiter_host.sources.conditions import conditions_of, node_facts
from arbiter_host.sources.kubernetes import replicas_in
from chances import cases

KEYS, VALUES = ("zone", "size", "disk", "kubernetes.io/os"), ("a", "5", "-3", "007", "x1", "linux")
OPERATORS = ("In", "NotIn", "Exists", "DoesNotExist", "Gt", "Lt")
EFFECTS = ("NoSchedule", "NoExecute", "PreferNoSchedule")
REQUIRED = "requiredDuringSchedulingIgnoredDuringExecution"
HOST, GI = Host(8, 1000000, 1000), 2**30


def some_of(chance, make, most=2):
    """A list of so many things at most, often none."""
    return [make() for _ in range(chance.choice([0, 0, *range(1, most + 1)]))]


def requirement(chance):
    operator = chance.choice(OPERATORS)
    values = {"Exists": [], "DoesNotExist": []}.get(
        operator, [chance.choice(VALUES)] if operator in ("Gt", "Lt") else
        [chance.choice(VALUES) for _ in range(2)])
    return {"key": chance.choice(KEYS), "operator": operator, "values": values}


def term(chance):
    """A term of labels, of the node's name, or of nothing."""
    made = {"matchExpressions": some_of(chance, lambda: requirement(chance))}
    if chance.random() < 0.3:
        made["matchFields"] = [{"key": "metadata.name", "operator": chance.choice(["In", "NotIn"]),
                                "values": [chance.choice(["n1", "n2"])]}]
    return made


def toleration(chance):
    made = {"operator": "Exists"} if chance.random() < 0.5 else {"value": chance.choice(VALUES)}
    if "value" in made or chance.random() < 0.7:
        made["key"] = chance.choice(("gpu", "node.kubernetes.io/unschedulable"))
    return made | ({"effect": chance.choice(EFFECTS[:2])} if chance.random() < 0.5 else {})


def random_node(chance):
    labels = {key: chance.choice(VALUES) for key in KEYS[:3] if chance.random() < 0.6}
    if chance.random() < 0.5:
        labels[KEYS[3]] = chance.choice(["linux", "windows"])
    taints = some_of(chance, lambda: {"key": "gpu", "value": chance.choice(VALUES),
                                      "effect": chance.choice(EFFECTS)})
    spec = {"taints": taints, **({"unschedulable": True} if chance.random() < 0.2 else {})}
    return {"kind": "Node", "metadata": {"name": chance.choice(["n1", "n2"]), "labels": labels},
            "spec": spec}


def random_spec(chance):
    spec = {"tolerations": some_of(chance, lambda: toleration(chance), 3)}
    if chance.random() < 0.3:
        spec["nodeSelector"] = {chance.choice(KEYS): chance.choice(VALUES)}
    if chance.random() < 0.6:
        spec["affinity"] = {"nodeAffinity": {REQUIRED: {
            "nodeSelectorTerms": some_of(chance, lambda: term(chance), 3)}}}
    if chance.random() < 0.1:
        spec["schedulingGates"] = [{"name": "wait"}]
    if chance.random() < 0.2:
        spec["os"] = {"name": chance.choice(["linux", "windows"])}
    return spec


def takes(node, spec):
    try:
        node_facts(node).check(conditions_of(spec, "u"))
    except HostFault:
        return False
    return True


def test_random_conditions():
    """Random pods and nodes are judged as the model judges them, some of either kind."""
    chance, found = random.Random(5), []
    for _ in range(cases(10000, 50)):
        node, spec = random_node(chance), random_spec(chance)
        found.append(twins.takes(node, {"spec": spec}))
        assert takes(node, spec) == found[-1], (node, spec)
        assert conditions_of(spec, "u").unjudged == ()
    assert 0.15 < sum(found) / len(found) < 0.85


def amounts(chance, kinds):
    """Requests and limits of some resources; of an extended one both are the same."""
    made = {"requests": {}, "limits": {}}
    for kind in kinds:
        amount = chance.choice([1, 2, 3]) if "/" in kind else chance.choice(
            ["64Mi", f"{GI}", "1500M", "0.5Gi"] if kind == "memory" else ["100m", "1", "0.5"])
        for key in ("requests", "limits") if "/" in kind else (chance.choice(list(made)),):
            made[key][kind] = amount
    return made


def with_resources(chance, name):
    """A pod with containers, init containers and sidecars that request resources, or itself."""
    def kinds():
        return [each for each in ("cpu", "memory", "a.b/gpu") if chance.random() < 0.5]

    def parts(prefix, most):
        return [{"name": f"{prefix}{at}", "resources": amounts(chance, kinds())}
                for at in range(chance.randint(0, most))]

    spec = {"containers": parts("c", 2) + [{"name": "last", "resources": {}}],
            "initContainers": parts("i", 2)}
    for each in spec["initContainers"]:
        if chance.random() < 0.5:
            each["restartPolicy"] = "Always"
    if chance.random() < 0.3:
        spec["resources"] = {"requests": {"memory": "9Gi"}}
    if chance.random() < 0.2:
        spec["overhead"] = {"cpu": "10m", "memory": "8Mi"}
    return {"kind": "Pod", "metadata": {"namespace": "n", "name": name}, "spec": spec}


def node(name="n1", cpus=8, spec=(), labels=(), **allocatable):
    """A node with what it has for pods."""
    has = {"cpu": str(cpus), **{key.replace("__", "/"): each for key, each in allocatable.items()}}
    return {"kind": "Node", "metadata": {"name": name, "labels": dict(labels)},
            "spec": dict(spec), "status": {"capacity": has, "allocatable": has}}


def listed(*items):
    return json.dumps({"kind": "List", "items": items}).encode()


def test_random_requests(calls):
    """What random pods request is what the model adds up, and each is taken where that fits."""
    chance, found = random.Random(6), []
    for at in range(cases(300, 5)):
        here, new = ([with_resources(chance, f"{word}{number}") for number in range(count)]
                     for word, count in (("p", 3), ("q", 1)))
        has = {"cpu": chance.choice([2, 4]), "memory": f"{chance.choice([9, 14])}Gi",
               "a.b__gpu": str(chance.choice([1, 9, 12])), "pods": str(chance.choice([3, 4]))}
        host = node(cpus=has.pop("cpu"), **has)
        one, two = (reading.pods([("F", listed(*items))], HOST, calls).owned
                    for items in ((host, *here), new))
        taken = {}
        for pod in here:
            for kind, amount in twins.requests_of(pod).items():
                taken[kind] = taken.get(kind, 0) + amount
        wanted = twins.requests_of(new[0])
        assert (one.asks, two.asks) == (taken, wanted)
        most = {kind: twins.quantity(amount) * (1000 if kind == "cpu" else 1)
                for kind, amount in host["status"]["allocatable"].items()}
        fits = all(taken.get(kind, 0) + amount <= most[kind] for kind, amount in wanted.items())
        found.append(fits)
        try:
            one.joined(two)
        except HostFault as fault:
            assert not fits and "less the" in fault.message, at
        else:
            assert fits, at
    assert 0.1 < sum(found) / len(found) < 0.9


# What an operator sees

def pod(name, spec=(), **requests):
    """A pod that waits, and requests this of a container."""
    asked = {key.replace("__", "/"): each for key, each in requests.items()}
    return {"kind": "Pod", "metadata": {"namespace": "x", "name": name}, "spec": {
        "containers": [{"name": "c", "resources": {"requests": asked}}], **dict(spec)},
        "status": {"phase": "Pending"}}


NODES = (node("gpu-1", labels={"kubernetes.io/os": "linux"}, memory=f"{768 * GI}",
              nvidia_com__gpu="4"),
         node("windows-1", labels={"kubernetes.io/os": "windows"}, memory="64Gi"))


def affinity(kind, *rules):
    return {"affinity": {kind: {REQUIRED: list(rules)}}}


NOWHERE = {"affinity": {"nodeAffinity": {REQUIRED: {"nodeSelectorTerms": [{"matchExpressions": [
    {"key": "zone", "operator": "In", "values": ["a", "b"]}]}]}}}}


# What the node of Windows says, or that it says the same.
OF_WINDOWS = "; windows-1: the node runs windows, for which the pod does not ask"
ONE_MORE = "; 1 more refuse it"
WAITING = (
    (pod("memory", cpu="1", memory="900Gi"), None,
     "it requests 900Gi of memory, and 768Gi less the 0Mi of others are there" + OF_WINDOWS),
    (pod("cards", nvidia_com__gpu="8"), None,
     "it requests 8 of nvidia_com/gpu, and 4 less the 0 of others are there" + OF_WINDOWS),
    (pod("none", vendor__card="1"), None,
     "it requests 1 of vendor/card, and 0 less the 0 of others are there" + OF_WINDOWS),
    (pod("nowhere", NOWHERE), None, "its node affinity does not hold: zone In a, b" + ONE_MORE),
    (pod("gated", {"schedulingGates": [{"name": "quota"}]}), None,
     "it waits for its gates quota" + ONE_MORE),
    (pod("linux", cpu="1"), "gpu-1", ""),
    (pod("windows", {"os": {"name": "windows"}}), "windows-1", ""),
    (pod("great", {"nodeSelector": {"kubernetes.io/os": "windows"}}, memory="70Gi"), None,
     "the node has no label kubernetes.io/os=windows; windows-1: it requests 70Gi of memory, and"
     " 64Gi less the 0Mi of others are there"),
)


def test_pods_that_wait(ctl):
    """The node's memory is 768 Gi, it has four cards, and the other node is one of Windows."""
    given = listed(*NODES, *(asked for asked, _, _ in WAITING))
    out, _ = ctl.run("explain", "-", "--workers", "0", "-o", "json", given=given)
    found = json.loads(out)["pending"]
    assert [(row["host"], row.get("why"), row["not_looked_at"]) for row in found] == [
        (host, None if host else f"gpu-1: {words}", [])
        for _, host, words in WAITING]


PORT = {"containerPort": 8}
# Labels of namespaces are in no JSON of pods.
OF_TEAMS = {"topologyKey": "zone", "namespaceSelector": {"matchLabels": {"team": "a"}}}
SPREAD = "topologySpreadConstraints"
UNJUDGED = (
    (affinity("podAffinity", OF_TEAMS), "pod affinity"),
    ({SPREAD: [{"whenUnsatisfiable": "DoNotSchedule"}]}, "topology spread"),
    ({SPREAD: [{"whenUnsatisfiable": "ScheduleAnyway"}]}, ""),
    ({"volumes": [{"name": "v", "persistentVolumeClaim": {"claimName": "v"}}]}, "volumes"),
    ({"volumes": [{"name": "v", "configMap": {"name": "v"}}, {"name": "e", "emptyDir": {}}]}, ""),
    ({"containers": [{"name": "c", "ports": [{**PORT, "hostPort": 9}]}]}, "host ports"),
    ({"containers": [{"name": "c", "ports": [PORT]}]}, ""),
    ({"hostNetwork": True, "initContainers": [{"name": "c", "ports": [PORT]}]}, "host ports"),
    ({"resourceClaims": [{"name": "r"}]}, "resource claims"),
    ({"schedulerName": "volcano"}, "the scheduler volcano"),
    ({"schedulerName": "default-scheduler"}, ""), ({"runtimeClassName": "kata"}, "runtime class"),
    ({"tolerations": [{"key": "n", "operator": "Gt", "value": "7"}]}, "tolerations"),
    ({"affinity": {"nodeAffinity": {REQUIRED: {"nodeSelectorTerms": [
        {"matchExpressions": [{"key": "zone", "operator": "Like"}]}]}}}}, "node affinity"),
    # (the last: pods behind it are told that it may keep them away)
    (affinity("podAntiAffinity", OF_TEAMS), "pod anti-affinity"),
)


def test_what_is_not_looked_at_is_told(ctl, folder):
    """In the pod's own row, as text, as data and on the page; and there is no column of nothing."""
    page, data = folder / "page.html", folder / "data"
    words = ("explain", "-", "--workers", "0", "-o", "text", "-o", f"html={page}", "-o",
             f"json={data}")
    given = [node("gpu-1"), node("other"), *(pod(f"p{at}", spec)
                                             for at, (spec, _) in enumerate(UNJUDGED))]
    out, _ = ctl.run(*words, "--all", given=listed(*given))
    assert [row["not_looked_at"] for row in json.loads(data.read_text())["pending"]] == [
        [name] if name else [] for _, name in UNJUDGED]
    lines = {line.split()[0]: line for line in out.split("\n") if line.startswith("x/p")}
    text = page.read_text()
    for at, (_, name) in enumerate(UNJUDGED):
        assert lines[f"x/p{at}"].endswith(f"  {name or '-'}")
        row = rf'<th [^>]*>x/p{at}</th>(?:(?!</tr>).)*"not looked at"[^>]*>{name or "-"}<'
        assert re.search(row, text, re.S)
    out, _ = ctl.run(*words, given=listed(*given[:2], pod("plain")))
    assert "not looked at" not in out + page.read_text()


def test_what_others_refuse_is_not_looked_at(ctl):
    """A pod that is there may keep others away. The memory of a node that tells none is unknown."""
    here = pod("here", affinity("podAntiAffinity", OF_TEAMS))
    here["spec"]["nodeName"], here["status"]["phase"] = "a", "Running"
    given = listed(node("a"), node("b", spec={"unschedulable": True}), here, pod("p", memory="1Gi"))
    out, _ = ctl.run("explain", "-", "--workers", "0", "-o", "json", given=given)
    (row,) = json.loads(out)["pending"]
    assert (row["host"], row["not_looked_at"]) == (
        "a", ["memory", "pod anti-affinity of others"])


def deployment(folder, replicas, spec=(), **requests):
    made = pod("any", spec, **requests)["spec"]
    (folder / "d.json").write_text(json.dumps({
        "kind": "Deployment", "metadata": {"namespace": "x", "name": "web"},
        "spec": {"replicas": replicas, "template": {"spec": made}}}))
    return folder / "d.json"


def test_replicas_are_placed_one_after_another(ctl, folder):
    """Three of 3 GiB: one host takes two of 8 GiB, the other one of 4. Both have 8 CPUs, so that of
    equals the first by name is the best."""
    (folder / "c.json").write_bytes(listed(node("a", memory="8Gi"), node("b", memory="4Gi")))
    file = deployment(folder, 3, cpu="500m", memory="3Gi")
    words = ("place", folder / "c.json", "--workers", "0", "--pod")
    out, _ = ctl.run(*words, file)
    assert out.startswith("the order is arbiterctl's own, neither proved nor the scheduler's")
    found = json.loads(ctl.run(*words, file, "-o", "json")[0])
    rows = [(each["pod"], each["host"], each["requests"]) for each in found["pending"]]
    asks = {"cpu": 500, "memory": 3 * GI, "pods": 1}
    name = f"{file} %s of 3"
    assert rows == [(name % at, host, asks) for at, host in ((1, "a"), (2, "a"), (3, "b"))]
    assert found["hosts"][0]["room"] == {"cpu": 8000, "memory": 8 * GI}
    # A fourth has no room, and that is no success.
    deployment(folder, 4, cpu="500m", memory="3Gi")
    out, err = ctl.run(*words, file, status=6)
    assert "pods, one after another: 4, unplaced: 1" in out
    assert "4 of 4: pods before it take what a has left" in err


@pytest.mark.parametrize("replicas", [0, -1, True, "3", 10001])
def test_replicas_that_are_no_number(folder, replicas):
    with pytest.raises(HostFault, match="F: replicas, or parallelism: 1 to 10000"):
        replicas_in("F", deployment(folder, replicas).read_bytes())


def test_claims_of_a_template_are_volumes(ctl, folder):
    (folder / "c.json").write_bytes(listed(node("a"), node("b")))
    file = deployment(folder, 1, cpu="1")
    data = json.loads(file.read_text())
    data["kind"], data["spec"]["volumeClaimTemplates"] = "StatefulSet", [{"metadata": {}}]
    file.write_text(json.dumps(data))
    out, _ = ctl.run("place", folder / "c.json", "--pod", file, "--workers", "0")
    assert "; not looked at: volumes" in out


def test_a_greater_priority_goes_first(ctl):
    """Both request 5 of 8 CPUs of the only node that takes pods."""
    given = listed(node("a"), node("b", spec={"unschedulable": True}), pod("low", cpu="5"),
                   pod("high", {"priority": 1000}, cpu="5"))
    out, _ = ctl.run("explain", "-", "--workers", "0", "-o", "json", given=given)
    assert [(each["pod"], each["host"]) for each in json.loads(out)["pending"]] == [
        ("x/high", "a"), ("x/low", None)]


@pytest.mark.parametrize("asked, here, is_told", [
    ({"priority": 9}, {}, True), ({"priority": 9}, {"priority": 8}, True),
    ({"priority": 9}, {"priority": 9}, False), ({}, {}, False), ({}, {"priority": -5}, True),
    ({"priority": 9, "preemptionPolicy": "Never"}, {}, False)])
def test_whom_the_scheduler_would_evict_is_told(calls, asked, here, is_told):
    """A pod of 2 CPUs has no room beside one of 7, and a greater priority."""
    low, high = pod("low", here, cpu="7"), pod("high", asked, cpu="2")
    low["spec"]["nodeName"], low["status"]["phase"] = "a", "Running"
    source, wanted = (reading.pods([("p", listed(*each))], Host(8, 1000000, 1000), calls).owned
                      for each in ((node("a"), low), (high,)))
    with pytest.raises(HostFault) as fault:
        source.joined(wanted)
    words = "it requests 2000m, and 8000m less the 7000m of others are there"
    assert fault.value.message == words + (
        ", some of less priority, which may be evicted for it" if is_told else "")


def test_a_quantity_that_is_none(ctl):
    """A malformed amount of any resource is refused, and names where it is."""
    given = listed(node("a", memory="much"), node("b"), pod("p"))
    out, _ = ctl.run("explain", "-", "--workers", "0", given=given, status=1)
    assert "a: node, allocatable: 'much' is no quantity of memory" in out
