"""A cluster as kubectl prints it: a row for each node, and where its pending pods go.

`fixtures/cluster.json` is written to the documented format. Each number is worked by hand.
"""
import json
import random
from datetime import datetime
from pathlib import Path

import fleets
import pytest
import trees
import yaml
from arbiter_host.answers import explain
from arbiter_host.fleet import hosts
from arbiter_host.sources import pods

FIXTURES = Path(__file__).parent / "fixtures"
CLUSTER = FIXTURES / "cluster.json"
NEEDS = ("--workers", "0")


def planned(ctl, *words, **options):
    """What `explain` says of a cluster as JSON, and what it warns of."""
    out, err = ctl.run("explain", *words, *NEEDS, "-o", "json", **options)
    return json.loads(out), err


def test_each_node_is_a_row(ctl):
    """n1 is the node of the fixtures alone, n2 has one pod of 500m."""
    found, err = planned(ctl, "-", given=CLUSTER.read_bytes())
    one = found["hosts"][0]
    assert [(each["host"], each["cpus"], each["groups"], each["served"])
            for each in found["hosts"]] == [("n1", 4, 17, 1950), ("n2", 2, 6, 500)]
    whole = json.loads(ctl.run("explain", FIXTURES / "pods.json", FIXTURES / "node.json", "-o",
                               "json")[0])
    assert (one["served"], one["wanted"], one["groups"]) == (
        whole["served"]["slices"], whole["wanted"]["slices"], len(whole["groups"]) - 1)
    assert "pods of nodes that are not in it, left out: 1: team/far" in err


def test_pending_pods_are_placed(ctl):
    """n1 has 300m left of 3500m, n2 1500m of 2000m. Each goes where it is best and fits.

    On n1 2.05 CPUs are idle, on n2 1.50: without a loss to others the idler one is the better.
    """
    found, _ = planned(ctl, CLUSTER)
    assert [(each["pod"], each["request_millicpu"], each["host"]) for each in found["pending"]] == [
        ("team/job-1", 1000, "n2"), ("team/job-2", 1000, None), ("team/tiny", 200, "n1"),
        ("team/huge", 5000, None), ("team/free", 0, "n1")]
    why = {each["pod"]: each.get("why") for each in found["pending"]}
    assert why["team/job-2"] == "pods before it take what n2 has left"
    assert why["team/huge"] == ("n1: it requests 5000m, and 3500m less the 3200m of others are"
                                " there; 1 more refuse it")
    job = found["pending"][0]
    assert (job["gets_cpus"], job["wants_cpus"], job["lost_cpus"]) == (1, 1, 0)
    out, _ = ctl.run("explain", CLUSTER, *NEEDS)
    assert ("pods that no node has yet: 5, unplaced: 2; the order is arbiterctl's own, neither"
            " proved nor the scheduler's scores: by least-loss: the least that") in out
    assert "team/job-1  1000m     n2" in out and "team/huge   5000m     unplaced" in out


def test_a_pod_weighs_on_its_class(ctl, folder):
    """A pod of 1000m beside one of 500m: burstable has 1500m, 1536 shares, weight 59.

    Both ask for all of 2 CPUs. By 1024 and 512 shares their weights are 39 and 20: 1322 of 2000.
    """
    pod = [each for each in json.loads(CLUSTER.read_text())["items"]
           if each["metadata"]["name"] == "job-1"]
    (folder / "job.json").write_text(json.dumps(pod[0]))
    found = json.loads(ctl.run("place", CLUSTER, "--pod", folder / "job.json", "--want", "busy",
                               *NEEDS, "-o", "json")[0])
    by = {host["host"]: host["pods"][0] for host in found["hosts"]}
    assert "it requests 1000m, and 3500m less the 3200m" in by["n1"]["why"]
    assert (by["n2"]["gets"], by["n2"]["lost"]) == (1322, 1322)
    out, _ = ctl.run("place", CLUSTER, "--pod", folder / "job.json", *NEEDS)
    assert ("job.json: hosts that give it all without a loss to others: 1 of 2; that cannot take"
            " it: 1, as n1: it requests 1000m, and 3500m less the 3200m of others are there\n"
            ) in out


def test_one_more_pod_of_a_deployment(ctl, folder):
    """Its template is one pod: 1000m for n2 alone. Its patch is that of the Deployment."""
    spec = next(each for each in json.loads(CLUSTER.read_text())["items"]
                if each["metadata"]["name"] == "job-1")["spec"]
    maker = {"apiVersion": "apps/v1", "kind": "Deployment",
             "metadata": {"name": "jobs", "namespace": "team"},
             "spec": {"template": {"spec": spec}}}
    (folder / "made.json").write_text(json.dumps(maker))
    found = json.loads(ctl.run("place", CLUSTER, "--pod", folder / "made.json", *NEEDS, "-o",
                               "json")[0])
    by = {host["host"]: host["pods"][0] for host in found["hosts"]}
    assert "3500m less the 3200m" in by["n1"]["why"] and by["n2"]["gets"] == 1000
    name, = (each["name"] for each in spec["containers"])
    out, _ = ctl.run("apply", folder / "made.json", "--cpus", "2", "--set",
                     f"team/jobs/{name}.request=500m", "-o", "kubectl")
    assert yaml.safe_load(out) == {
        "apiVersion": "apps/v1", "kind": "Deployment",
        "metadata": {"name": "jobs", "namespace": "team"},
        "spec": {"template": {"spec": {"containers": [
            {"name": name, "resources": {"requests": {"cpu": "500m"}}}]}}}}


def test_other_questions_of_a_cluster(ctl):
    """diff takes a cluster too; --node makes one host of it."""
    words = ("--set", "prod/web-*/nginx.request=1cpu", "--want", "busy")
    out, _ = ctl.run("diff", CLUSTER, *words, *NEEDS, "-o", "json")
    found = json.loads(out)
    assert [host["matched"] for host in found["hosts"]] == [1, 0]
    out, _ = ctl.run("diff", CLUSTER, *words, "--node", "n1", "-o", "json")
    assert "before" in json.loads(out) and "hosts" not in json.loads(out)


def cluster(*items):
    """The JSON of a cluster."""
    return json.dumps({"kind": "List", "items": items}).encode()


def node(name, cpus="2"):
    """A node."""
    return {"kind": "Node", "metadata": {"name": name},
            "status": {"capacity": {"cpu": cpus}, "allocatable": {"cpu": cpus}}}


def pending(name, request="1", **metadata):
    """A pod that no node has."""
    return {"kind": "Pod", "metadata": {"name": name, "namespace": "x", **metadata},
            "spec": {"containers": [{"name": "c", "resources": {"requests": {"cpu": request}}}]},
            "status": {"phase": "Pending"}}


@pytest.mark.parametrize("name", [
    "n1.script", "n1.toml", "a\x1b[31m", "../../etc", "<b>", "x" * 300,
], ids=lambda each: ascii(each)[:20])
def test_names_of_nodes_and_pods(ctl, name):
    """A name says nothing of what a node is, and reaches no terminal raw."""
    data = cluster(node(name), node("other", "1"), pending(name), pending("y.toml", "3"))
    out, err = ctl.run("explain", "-", *NEEDS, given=data)
    assert "hosts: 2, answered: 2" in out and "\x1b" not in out + err
    assert "pods that no node has yet: 2, unplaced: 1" in out


def test_two_nodes_of_one_name(ctl):
    out, err = ctl.run("explain", "-", *NEEDS, given=cluster(node("a"), node("a")), status=2)
    assert out == "" and "two nodes of one name" in err


def test_one_node_is_one_host(ctl):
    """What waits for a node is left out, and told."""
    _, err = ctl.run("explain", "-", given=cluster(node("a"), {
        **pending("here"), "spec": {**pending("x")["spec"], "nodeName": "a"}}, pending("p")))
    assert "pods that no node has yet, left out: 1" in err


def test_a_broken_node_is_named(ctl):
    """A node whose CPUs are no quantity is one host that is not answered."""
    data = cluster(node("good"), node("bad", "x"), pending("p"))
    out, err = ctl.run("explain", "-", *NEEDS, given=data, status=1)
    assert "answered: 1, not answered: 1" in out and "'x' is no quantity of CPU" in out
    assert "x/p" in out and "good" in out


# What a field may be to attack who reads it.
HOSTILE = (None, True, -1, 10**400, float("nan"), "", "x" * 70000, "\u202e\x1b[31m", "../../etc",
           "100000000000", "-5m", "9" * 5000, [], {}, [[[]]], {"a": {}})


def places(value, at=()):
    """The ways to each field of JSON."""
    below = value.items() if isinstance(value, dict) else (
        enumerate(value) if isinstance(value, list) else ())
    for key, each in below:
        yield (*at, key)
        yield from places(each, (*at, key))


def attackers(pods):
    """A node for each hostile value at each of some fields, with its pod. All names stay."""
    for number in range(len(HOSTILE) * 5):
        name, dice = f"bad-{number}", random.Random(number)
        its, pod = node(name), json.loads(json.dumps(dice.choice(pods)))
        pod["metadata"]["name"], pod["spec"]["nodeName"] = name, name
        of = dice.choice((its, pod, pod))
        *way, last = dice.choice([each for each in places(of) if each[-1] not in (
            "name", "nodeName", "kind", "metadata", "spec")])
        for key in way:
            of = of[key]
        of[last] = HOSTILE[number % len(HOSTILE)]
        yield from (its, pod)


def test_nodes_that_attack(folder, calls):
    """Nodes and pods say anything, and one floods its node: each is answered or named in a line,
    and the others are answered as without them."""
    items = json.loads(CLUSTER.read_bytes())["items"]
    pods = [each for each in items if each.get("spec", {}).get("nodeName") == "n1"]
    flood = [{**pending(f"p{number}"), "status": {}, "spec": {
        **pending("p")["spec"], "nodeName": "flood"}} for number in range(8300)]
    bad = list(attackers(pods))
    (folder / "c.json").write_bytes(cluster(*items, *bad, node("flood"), *flood))
    found, missing = fleets.asked(folder / "c.json", calls)
    assert found.keys() | missing.keys() == {"n1", "n2", "flood"} | {
        each["metadata"]["name"] for each in bad}
    alone, _ = fleets.asked(CLUSTER, calls)
    assert {name: found[name] for name in alone} == alone
    assert "16384" in missing.pop("flood") and len(missing) > 10
    assert all(why.isprintable() and "Error" not in why for why in missing.values()), missing


def test_nodes_that_take_no_such_pod(ctl):
    """Cordons, taints that are not tolerated and labels that are not there keep a pod away."""
    shut, keyed, plain = node("shut"), node("keyed"), node("plain")
    shut["spec"] = {"unschedulable": True}
    keyed["spec"] = {"taints": [{"key": "gpu", "value": "yes", "effect": "NoSchedule"},
                                {"key": "soft", "effect": "PreferNoSchedule"}]}
    keyed["metadata"]["labels"] = {"disk": "ssd"}
    waiting = [pending(name) for name in ("any", "equal", "exists", "other", "ssd", "hdd", "all")]
    wishes = {"equal": {"key": "gpu", "value": "yes"}, "other": {"key": "gpu", "value": "no"},
              "exists": {"key": "gpu", "operator": "Exists", "effect": "NoSchedule"},
              "ssd": {"operator": "Exists"}, "hdd": {"operator": "Exists"},
              "all": {"key": "gpu", "operator": "Exists", "effect": "NoExecute"}}
    for each in waiting:
        name = each["metadata"]["name"]
        if name in wishes:
            each["spec"]["tolerations"] = [wishes[name]]
        if name in ("equal", "exists", "ssd", "hdd", "other", "all"):
            each["spec"]["nodeSelector"] = {"disk": "hdd" if name == "hdd" else "ssd"}
    # One pod a run, so that none takes the room of another.
    found = {}
    for each in waiting:
        data = cluster(shut, keyed, plain, each)
        (one,) = planned(ctl, "-", given=data)[0]["pending"]
        found[each["metadata"]["name"]] = one["host"] or one["why"]
    none = ("keyed: it does not tolerate the taint gpu; plain: the node has no label disk=ssd;"
            " shut: the node takes no new pods (unschedulable)")
    assert found == {"any": "plain", "equal": "keyed", "exists": "keyed", "other": none,
                     "ssd": "keyed",
                     "hdd": "keyed: the node has no label disk=hdd; 2 more refuse it",
                     "all": none}


def test_usage_of_a_cluster(ctl, folder):
    """Each node has the use of its pods: n1 3.067 CPUs, and n2 0.7. A pod that waits asks anew."""
    top = (FIXTURES / "top.txt").read_text() + "prod api-0 main 700m 9Mi\nteam far main 1m 9Mi\n"
    (folder / "top").write_text(top)
    found, err = planned(ctl, CLUSTER, "--used", folder / "top")
    assert [(each["host"], each["wanted"]) for each in found["hosts"]] == [
        ("n1", 3067), ("n2", 700)]
    assert ("used by pods that no node here has: 2: kube-system/coredns-5d78-4x2, team/far" in err)
    job = found["pending"][0]
    assert (job["host"], job["wants_cpus"], job["gets_cpus"]) == ("n2", 1, 1)
    (folder / "top").write_text("NAMESPACE POD NAME CPU(cores)\nprod api-0 main 1m\n")
    out, _ = ctl.run("explain", CLUSTER, *NEEDS, "--used", folder / "top", status=1)
    assert "n1: --want usage: what these pods used is not told" in out
    (folder / "top").write_text("NAMESPACE NAME CPU(cores)\nprod api-0 1m\n")
    _, err = ctl.run("explain", CLUSTER, *NEEDS, "--used", folder / "top", status=1)
    assert "prod/api-0: of a cluster usage is told by namespace, pod and container" in err


def test_a_history_of_a_cluster(ctl, folder):
    """Two samples of 300m and 500m: their mean by itself, the greatest by --want peak."""
    (folder / "h.csv").write_text("time,prod/api-0/main\n1,300m\n2,500m\n")
    for words, slices in (((), 400), (("--want", "peak"), 500)):
        found, _ = planned(ctl, CLUSTER, "--used", folder / "h.csv", *words, status=1)
        assert [(each["host"], each["wanted"]) for each in found["hosts"]] == [("n2", slices)]


def test_replay_of_a_cluster(ctl, folder):
    """Each node has the columns of its pods, and no other."""
    (folder / "h.csv").write_text("time,prod/api-0,prod/db-0/postgres\n1,300m,2\n2,500m,1\n")
    out, _ = ctl.run("replay", CLUSTER, "--used", folder / "h.csv", *NEEDS, "-o", "json")
    found = json.loads(out)["hosts"]
    assert [[(each["group"], each["wanted"]) for each in host["groups_of_columns"]]
            for host in found] == [[("kubepods/prod:db-0/postgres", 3000)],
                                   [("kubepods/burstable/prod:api-0/main", 800)]]


def test_pods_of_one_shape_are_asked_once(folder):
    """Replicas differ in names alone."""
    (folder / "c.json").write_bytes(cluster(node("n"), node("m"), *(
        pending(f"p{number}", uid=str(number)) for number in range(500)), pending("q", "2")))
    fleet = fleets.of(folder / "c.json")
    assert (len(fleet.pending), len(fleet.shapes())) == (501, 2)
    assert [each.title for each in fleet.shapes().values()] == ["x/q", "x/p0"]


def test_a_cluster_by_processes(ctl):
    """The same by two processes."""
    alone, _ = planned(ctl, CLUSTER)
    out, _ = ctl.run("explain", CLUSTER, "--workers", "2", "-o", "json")
    assert json.loads(out) == alone


def test_the_page_has_the_pods(ctl, folder):
    ctl.run("explain", CLUSTER, *NEEDS, "-o", f"html={folder / 'c.html'}")
    text = (folder / "c.html").read_text()
    assert "Pods that no node has yet" in text and "team/huge" in text


def test_the_page_has_the_notes(ctl):
    given = cluster(node("n1"), node("n2"), running("big", "n2", "3"))
    page, _ = ctl.run("explain", "-", *NEEDS, "-o", "html", given=given)
    assert "<summary>Warnings: 1</summary>" in page
    assert "<li>n2: the pods request 3000m of the 2000m that the node has" in page


# As kubectl has it

def running(name, node_, request="100m", namespace="x", owner=(), **metadata):
    """A pod of a node that some object has made."""
    kind, maker = owner or ("", "")
    made = {"ownerReferences": [{"kind": kind, "name": maker, "controller": True}]} if kind else {}
    each = pending(name, request, **{"namespace": namespace, **made, **metadata})
    each["spec"]["nodeName"], each["status"]["phase"] = node_, "Running"
    return each


SHOP = (
    node("n1"), node("n2"), node("n3"),
    running("web-66f-bcdfg", "n1", "300m", "shop", ("ReplicaSet", "web-66f"),
            labels={"app": "web", "pod-template-hash": "66f"}),
    running("web-66f-hjklm", "n2", "300m", "shop", ("ReplicaSet", "web-66f"),
            labels={"app": "web", "pod-template-hash": "66f"}),
    running("db-0", "n2", "500m", "shop", ("StatefulSet", "db"), labels={"app": "db"}),
    running("web-0", "n3", "200m", "other", ("StatefulSet", "web"), labels={"app": "web"}),
    {"kind": "HorizontalPodAutoscaler", "metadata": {"namespace": "shop", "name": "any"},
     "spec": {"scaleTargetRef": {"kind": "Deployment", "name": "web"}}},
    pending("waits", "100m", namespace="shop", labels={"app": "web"}),
    pending("else", "100m", namespace="other", labels={"app": "web"}))


@pytest.mark.parametrize("words, hosts, served, loads, waiting", [
    ((), ["n1", "n2", "n3"], 1.3, ["Deployment shop/web", "StatefulSet other/web",
                                   "StatefulSet shop/db"], ["shop/waits", "other/else"]),
    (("-n", "shop"), ["n1", "n2"], 1.1, ["Deployment shop/web", "StatefulSet shop/db"],
     ["shop/waits"]),
    (("-l", "app=web"), ["n1", "n2", "n3"], 0.8, ["Deployment shop/web", "StatefulSet other/web"],
     ["shop/waits", "other/else"]),
    (("-n", "shop", "-l", "app=db"), ["n2"], 0.5, ["StatefulSet shop/db"], []),
    (("-g", "shop/web-*/c"), ["n1", "n2"], 0.6, ["Deployment shop/web"], []),
])
def test_groups_are_chosen_over_all_nodes(ctl, words, hosts, served, loads, waiting):
    """Requests of 300, 300, 500 and 200 thousandths. The plan is that of the whole nodes."""
    found, err = planned(ctl, "-", *words, given=cluster(*SHOP))
    assert [host["host"] for host in found["hosts"]] == hosts and "left out" not in err
    assert found["fleet"]["served_cpus"] == served == pytest.approx(
        sum(each["served_cpus"] for each in found["fleet"]["workloads"]))
    assert [each["workload"] for each in found["fleet"]["workloads"]] == loads
    assert [each["workload"] for each in found["fleet"]["workloads"] if each["scaled"]] == (
        ["Deployment shop/web"] if "Deployment shop/web" in loads else [])
    assert [each["pod"] for each in found.get("pending", [])] == waiting


def test_workloads_are_told(ctl):
    out, _ = ctl.run("explain", "-", *NEEDS, "-n", "shop", given=cluster(*SHOP))
    assert "of -n shop alone: hosts that have some: 2\n" in out
    assert "demands: requests; weights: of requests (linear)\n" in out
    rows = [line.split() for line in out.split("\n") if line.startswith(("Deployment", "Stateful"))]
    assert rows == [["Deployment", "shop/web", "(HPA)", "600m", "2", "2", "0.60", "0.60", "0"],
                    ["StatefulSet", "shop/db", "500m", "1", "1", "0.50", "0.50", "0"]]


def test_a_choice_that_is_none(ctl):
    for words, status in ((("-n", "nowhere"), 6), (("-l", "app"), 2), (("-g", "x/none"), 6)):
        out, err = ctl.run("explain", "-", *NEEDS, *words, given=cluster(*SHOP), status=status)
        assert out == "" and words[1] in err


def test_a_change_of_chosen_groups(ctl):
    """Busy, web on n2 has a weight of 12 beside 20 of db: raised to 500m both have 1000m of 2000m.
    """
    words = ("diff", "-", "--set", "shop/web-*/c.request=500m", "--want", "busy", *NEEDS)
    out, _ = ctl.run(*words, "-l", "app=web", "-o", "json", given=cluster(*SHOP))
    found = json.loads(out)["hosts"]
    assert [(each["host"], each["before"]["served"], each["after"]["served"])
            for each in found] == [("n1", 2000, 2000), ("n2", 750, 1000), ("n3", 2000, 2000)]


def test_jobs_of_a_cron_job_are_its_own():
    """The minute of the Job's name is 2026-01-05T10:00Z: of a pod of the next day it is no mark."""
    def owner(job, made):
        return pods.owner_of(running(f"{job}-abcde", "n", owner=("Job", job),
                                     creationTimestamp=made))

    minute = int(datetime.fromisoformat("2026-01-05T10:00:00+00:00").timestamp()) // 60
    assert owner(f"report-{minute}", "2026-01-05T10:00:03Z") == "CronJob x/report"
    assert owner(f"report-{minute}", "2026-01-07T10:00:03Z") == ""
    assert owner("report-12345678", "2026-01-05T10:00:03Z") == owner("report", "") == ""
    assert pods.names_by("CronJob x/report").fullmatch(f"report-{minute}-bcdfg")


def test_explain_tells_what_an_autoscaler_drives(ctl, folder):
    """Of one node in the rows of its pods, on a page and a picture too; in a list in those of
    containers."""
    words = ("explain", "-", "--node", "n2", "--want", "busy")
    forms = [word for form in ("json", "html", "svg") for word in ("-o", f"{form}={folder}/{form}")]
    out, _ = ctl.run(*words, "-o", "text", *forms, given=cluster(*SHOP))
    names = [line.split("  ")[-1].strip() for line in out.split("\n")]
    assert {"shop:web-66f-hjklm (HPA)", "shop:db-0", "c"} <= {*names}
    assert "c (HPA)" not in names and explain.SCALED_NOTE in out.split("\n")
    groups = json.loads((folder / "json").read_text())["groups"]
    assert {each["group"].rpartition("/")[2] for each in groups if each["scaled"]} == {
        "shop:web-66f-hjklm", "c"}
    for form in ("html", "svg"):
        drawn = (folder / form).read_text()
        assert "shop:web-66f-hjklm / c (HPA)" in drawn and "shop:db-0 / c (HPA)" not in drawn
    out, _ = ctl.run(*words, "--state", "hurt", given=cluster(*SHOP))
    assert "shop:web-66f-hjklm/c (HPA)\n" in out and "shop:db-0/c\n" in out


def test_notes_of_the_nodes_of_a_cluster(ctl):
    """What explain says of one node it says of many too: once where numbers alone differ."""
    leaving = [running(f"p{at}", node_, deletionTimestamp="2026-01-01T00:00:00Z")
               for at, node_ in enumerate(("n1", "n2", "n2"))]
    given = cluster(node("n1"), node("n2"), running("big", "n2", "3"), *leaving)
    gone = "pods that are deleted and have not ended: {}: they count until then"
    asked = ("the pods request 3200m of the 2000m that the node has for them: the scheduler puts"
             " no such pods there")
    _, one = ctl.run("explain", "-", "--node", "n2", given=given)
    found, many = planned(ctl, "-", given=given)
    assert gone.format(2) in one and asked in one
    assert [each["notes"] for each in found["hosts"]] == [[gone.format(1)],
                                                          [gone.format(2), asked]]
    assert many.split("\n")[:-1] == [
        f"arbiterctl: warning: n1: {gone.format(1)} (so of 1 more: -o json)",
        f"arbiterctl: warning: n2: {asked}"]


def test_notes_of_a_change_of_many(ctl):
    """A change that no scheduler takes says so."""
    given = cluster(node("n1"), node("n2"), running("a", "n1"), running("b", "n2"))
    _, err = ctl.run("diff", "-", "--set", "x/a.request=5", given=given)
    assert err == ("arbiterctl: warning: n1: the pods request 5000m of the 2000m that the node has"
                   " for them: the scheduler puts no such pods there\n"
                   "arbiterctl: warning: n1: a request is no demand, and the demands stay:"
                   " --want busy says who pays for it\n")


def test_a_cluster_of_one_namespace_is_told_once():
    """A node may have pods of one namespace alone, or none, where others have others."""
    nodes = [node("n1"), node("n2")]
    for each in nodes:
        each["status"]["nodeInfo"] = {"kubeletVersion": "v1"}
    one, same, other = (running("a", "n1"), running("b", "n2"),
                        running("b", "n2", namespace="y"))
    for pods_, is_told in (([one, other], False), ([one], True), ([one, same], True)):
        notes = hosts.of_cluster("F", [*nodes, *pods_], lambda: None).notes
        assert any("all pods are of the namespace x" in each for each in notes) == is_told


def test_recommend_tells_what_an_autoscaler_drives(ctl, folder):
    (folder / "c.json").write_bytes(cluster(*SHOP))
    (folder / "top").write_text("NAMESPACE POD NAME CPU(cores)\nshop web-66f-bcdfg c 100m\n"
                                "shop db-0 c 100m\n")
    words = ("recommend", folder / "c.json", "--used", folder / "top", "-n", "shop")
    found = json.loads(ctl.run(*words, "-o", "json")[0])["containers"]
    assert {each["container"]: each["scaled"] for each in found} == {
        "Deployment shop/web/c": True, "StatefulSet shop/db/c": False}
    out, _ = ctl.run(*words)
    assert "Deployment shop/web/c (2) (HPA)\n" in out and "(HPA) an autoscaler sets how" in out


def test_a_patch_of_a_cron_job(ctl, folder):
    """It is of the template of its Jobs."""
    minute = int(datetime.fromisoformat("2026-01-05T10:00:00+00:00").timestamp()) // 60
    made = running(f"report-{minute}-bcdfg", "n1", owner=("Job", f"report-{minute}"),
                   creationTimestamp="2026-01-05T10:00:03Z")
    (folder / "p.json").write_bytes(cluster(node("n1"), made))
    out, _ = ctl.run("apply", folder / "p.json", "--set", "x/report-*/c.request=500m", "-o",
                     "kubectl")
    assert yaml.safe_load(out) == {
        "apiVersion": "batch/v1", "kind": "CronJob", "metadata": {"name": "report",
                                                                  "namespace": "x"},
        "spec": {"jobTemplate": {"spec": {"template": {"spec": {"containers": [
            {"name": "c", "resources": {"requests": {"cpu": "500m"}}}]}}}}}}


@pytest.mark.parametrize("driver", ["systemd", "cgroupfs"])
def test_pods_and_their_tree_meet(ctl, folder, driver):
    """A pod of 100m has 102 shares and so a weight of 4, its class too; kubepods has 2048 and 79.
    In the tree the container has one of 9, and the pause container is of the tree alone."""
    uid, ids = "0f-1", ("a" * 64, "b" * 64)
    tops = {"systemd": ("kubepods.slice/kubepods-burstable.slice",
                        "kubepods-burstable-pod0f_1.slice", "cri-containerd-{}.scope"),
            "cgroupfs": ("kubepods/burstable", "pod0f-1", "{}")}
    above, pod, scope = tops[driver]
    trees.root2(folder / "t")
    for part, weight in ((above.split("/")[0], 79), (above, 4), (f"{above}/{pod}", 4),
                         (f"{above}/{pod}/{scope.format(ids[0])}", 9),
                         (f"{above}/{pod}/{scope.format(ids[1])}", 1)):
        trees.group2(folder / "t" / part, weight)
    each = running("p", "n1", uid=uid)
    each["status"]["containerStatuses"] = [{"name": "c", "containerID": f"containerd://{ids[0]}"}]
    (folder / "p.json").write_bytes(cluster(node("n1"), each))
    out, _ = ctl.run("diff", folder / "p.json", folder / "t", "--want", "limit", "-o", "json")
    weights = [{group["group"]: group["weight"] for group in json.loads(out)[when]["groups"]}
               for when in ("before", "after")]
    both, path = set(weights[0]) & set(weights[1]), "kubepods/burstable/x:p"
    assert both == {".", "kubepods", "kubepods/burstable", path, f"{path}/c"}
    assert [weight[f"{path}/c"] for weight in weights] == [4, 9]
    assert {name: weights[1][name] for name in both - {f"{path}/c"}} == {
        name: weights[0][name] for name in both - {f"{path}/c"}}
