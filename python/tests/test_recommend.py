"""Requests and limits that are proposed from use. Each expected number is worked by hand."""
import json
from fractions import Fraction
from pathlib import Path

import pytest
import trees
from arbiter import Host
from arbiter_host import recommend
from arbiter_host.base import demands
from arbiter_host.base.faults import HostFault, UsageFault
from arbiter_host.sources import samples
from hypothesis import given
from hypothesis import strategies as st

FIXTURES = Path(__file__).parent / "fixtures"
PODS, NODE = FIXTURES / "pods.json", FIXTURES / "node.json"


def node_of(folder, cpus, limits=None):
    """Two burstable pods of 100m and 300m on a node."""
    def pod(name, request):
        resources = {"requests": {"cpu": request}}
        if limits:
            resources["limits"] = {"cpu": limits}
        return {"kind": "Pod", "metadata": {"name": name, "namespace": "x", "uid": name},
                "spec": {"containers": [{"name": "c", "resources": resources}]}}

    node = {"kind": "Node", "metadata": {"name": "n"},
            "status": {"capacity": {"cpu": cpus}, "allocatable": {"cpu": cpus}}}
    (folder / "n.json").write_text(json.dumps({"kind": "List", "items": [
        pod("a", "100m"), pod("b", "300m"), node]}))
    return folder / "n.json"


def recommended(ctl, *words, **options):
    """The proposals by container, all that JSON says, and what is warned of."""
    out, err = ctl.run("recommend", *words, "-o", "json", **options)
    found = json.loads(out)
    return {each["container"]: each for each in found["containers"]}, found, err


def amounts(each):
    """The proposed request and limit."""
    return each["recommended"]["request_millicpu"], each["recommended"]["limit_millicpu"]


def top_of(folder, **used):
    """A file of kubectl top."""
    lines = [f"x {name} c {amount} 1Mi\n" for name, amount in used.items()]
    (folder / "top").write_text("NAMESPACE POD NAME CPU(cores) MEMORY(bytes)\n" + "".join(lines))
    return folder / "top"


SAMPLES = st.lists(st.sampled_from([
    "0", "1", "0.1", "0.10", ".5", "00.25", "1e-9", "2.5E-07", "12345678901234.5", "1e-29", "7.",
    "0.000012345678901234567890123456", "1e3", "3m", "40%", "0,5", "1.0cpu"]) | st.floats(
        1e-20, 64, allow_nan=False).map(repr), min_size=1, max_size=30)


@given(cells=SAMPLES, unit=st.sampled_from(["cpu", "m", "%", "us", "slices"]),
       percent=st.integers(1, 100))
def test_numbers_that_are_read_at_once(cells, unit, percent):
    """They are those that are read one by one, in order and as a sum, in exact fractions."""
    host = Host(3, 70000, 7000)
    values = samples.values_of(cells, unit, host, ["F"] * len(cells))
    wanted = [samples.demand_of(each, unit, host, "F") for each in cells]
    assert list(values) == wanted and list(values[1:]) == wanted[1:]
    assert values.mean == sum(wanted) / len(wanted) and values.most == max(wanted)
    place = -(-len(wanted) * percent // 100)
    assert demands.percentile(values, percent) == sorted(wanted)[place - 1]
    other = demands.Values.of([Fraction(1, 3), Fraction(2)])
    assert list(demands.joined([values, other])) == [*wanted, Fraction(1, 3), Fraction(2)]


@pytest.mark.parametrize("cell", ["x", "1\n2", "-1", "1_000", "inf", "\uff11", "1e40", "", "1 2"])
def test_a_number_that_is_none_is_told_with_its_place(cell):
    with pytest.raises(HostFault, match="G: "):
        samples.values_of(["0.5", cell], "cpu", Host(), ["F", "G"])


def test_who_is_short_and_what_is_guaranteed(ctl, folder):
    """900m and 600m and 15% are 1035m and 690m: 1059 and 706 shares, weights 41 and 27.

    Of 1000 slices these are 603 and 397. With weights 4 and 12 b has its 600 and a the rest. Where
    all others ask, best effort takes 14, pause containers nothing, and the last slice is a tie.
    """
    words = (node_of(folder, "1"), "--used", top_of(folder, a="900m", b="600m"))
    by, found, err = recommended(ctl, *words)
    assert [amounts(by[name]) for name in ("x/a/c", "x/b/c")] == [(1035, None), (690, None)]
    assert [(each["gets_now_millicpu"], each["gets_millicpu"], each["guaranteed_millicpu"])
            for each in by.values()] == [(400, 603, 595), (600, 397, 391)]
    assert (found["requests_millicpu"], found["recommended_requests_millicpu"],
            found["allocatable_millicpu"]) == (400, 1725, 1000)
    assert "the pods request 1725m of the 1000m that the node has for them" in err
    assert by["x/a/c"]["set"] == ["x/a/c.request=1035m"]
    out, _ = ctl.run("recommend", *words)
    assert "p95 of 1 sample is the one that there is; 15% on top; the proved check accepted" in out
    assert "short when each uses this at once: 2 (x/a/c, x/b/c)" in out
    assert "requests of all pods: 400m now, 1725m then, of 1000m that the node has" in out
    assert out.split("\n")[-2].split() == ["1", "600m", "600m", "300m", "690m", "-", "-", "397m",
                                           "391m", "x/b/c"]


def test_what_is_proposed_can_be_compared(ctl, folder):
    """The words of `set` are those of `diff`, and the plan is that of `recommend`."""
    words = (node_of(folder, "1"), "--used", top_of(folder, a="900m", b="600m"))
    by, _, _ = recommended(ctl, *words)
    sets = [word for each in by.values() for one in each["set"] for word in ("--set", one)]
    out, _ = ctl.run("diff", *words, *sets, "-o", "json")
    gets = {each["group"]: each["gets"]["millicpu"] for each in json.loads(out)["after"]["groups"]}
    assert [gets[f"kubepods/burstable/x:{name}/c"] for name in "ab"] == [603, 397]


def test_containers_that_are_chosen(ctl, folder):
    """The others ask for what they used, and keep their settings."""
    words = (node_of(folder, "1"), "--used", top_of(folder, a="900m", b="600m"))
    whole, _, _ = recommended(ctl, *words)
    by, found, _ = recommended(ctl, *words, "-g", "x/a")
    assert list(by) == ["x/a/c"] and by["x/a/c"]["set"] == whole["x/a/c"]["set"]
    assert found["recommended_requests_millicpu"] == 1335
    assert list(recommended(ctl, *words, "-n", "x")[0]) == list(whole)
    assert "no group zz" in ctl.run("recommend", *words, "-g", "zz", status=6)[1]


# Twenty samples of 10m to 200m, of which one cell of b is empty.
HISTORY = "time,x/a/c,x/b\n" + "".join(
    f"{at},{at * 10}m,{'' if at == 7 else '50m'}\n" for at in range(1, 21))


@pytest.mark.parametrize("target, headroom, a, b", [
    # The 19th of 20 is 190m; 218.5m are rounded up. The limit is of 200m.
    ("p95", "15%", (219, 230), (58, 58)), ("p50", "0%", (100, 200), (50, 50)),
    ("max", "100%", (400, 400), (100, 100)), ("p1", "0", (10, 200), (50, 50)),
    ("p100", "12.5%", (225, 225), (57, 57)),
])
def test_percentiles_of_a_history(ctl, folder, target, headroom, a, b):
    """Nearest ranks of the samples that are there; a pod of one container stands for it."""
    (folder / "h.csv").write_text(HISTORY)
    by, _, err = recommended(ctl, node_of(folder, "2", "1"), "--used", folder / "h.csv",
                             "--target", f"{target},max", "--headroom", headroom)
    assert (amounts(by["x/a/c"]), amounts(by["x/b/c"])) == (a, b) and "warning" not in err


def test_histories_are_one(ctl, folder):
    """Two files of ten samples are one of twenty; columns of others are told."""
    lines = HISTORY.split("\n")
    (folder / "1.csv").write_text("\n".join(lines[:11]))
    (folder / "2.csv").write_text("\n".join([lines[0], *lines[11:]]))
    (folder / "3.csv").write_text("time,other,x/*\n1,5m,7m\n")
    by, found, err = recommended(ctl, node_of(folder, "2", "1"), "--target", "p95,max", *(
        word for name in "123" for word in ("--used", folder / f"{name}.csv")))
    assert amounts(by["x/a/c"]) == (219, 230)
    assert found["percentile"] == (
        "p95 of 19 to 20 samples is the greatest of 19 to number 19 of 20 in order")
    assert "used by containers that are not here, 2: other, x/*" in err


@pytest.mark.parametrize("name, wanted", [
    ("db-0", "prod/db-0/postgres"), ("db-0/postgres", "prod/db-0/postgres"),
    ("prod/web-7c9f/nginx", "prod/web-7c9f/nginx"), ("web-7c9f/metrics", "prod/web-7c9f/metrics"),
])
def test_names_of_measurements(ctl, folder, name, wanted):
    """A pod's name is enough where it has one container, as the label `pod` of Prometheus says."""
    (folder / "h.csv").write_text(f"time,{name}\n1,50m\n")
    by, _, err = recommended(ctl, PODS, NODE, "--used", folder / "h.csv")
    assert list(by) == [wanted] and "not here" not in err


def test_an_idle_guaranteed_container(ctl, folder):
    """One moment of 5m proposes neither a request nor a limit of 10m; a week of it does, if asked.
    """
    source = node_of(folder, "2", "300m")
    pods = json.loads(source.read_text())
    pods["items"][1]["status"] = {"qosClass": "Guaranteed"}
    source.write_text(json.dumps(pods))
    by, _, _ = recommended(ctl, source, "--used", top_of(folder, b="5m"), "--target", "p95,max")
    assert by["x/b/c"]["set"] == [] and by["x/b/c"]["samples"] == 1
    days = "".join(f"2026-11-0{day} 00:00:00,5m\n" for day in range(1, 9))
    (folder / "h.csv").write_text("time,x/b/c\n" + days)
    words = (source, "--used", folder / "h.csv")
    by, found, _ = recommended(ctl, *words)
    assert by["x/b/c"]["set"] == [] and by["x/b/c"]["span_seconds"] == 7 * 86400
    assert found["percentile"] == "p95 of 8 samples over 7 d is the greatest of 8"
    by, _, _ = recommended(ctl, *words, "--target", "p95,max")
    assert by["x/b/c"]["set"] == ["x/b/c.request=10m", "x/b/c.limit=10m"]


def test_replicas_of_one_owner(ctl, folder):
    """Replicas of a Deployment have one proposal of all that was seen of them: p95 of 200m, 940m,
    300m is 940m. A third one of which nothing is known has it too, so `apply` writes one patch."""
    source = node_of(folder, "4")
    found = json.loads(source.read_text())
    first = found["items"][0]
    for name in ("a1", "a2", "a3"):
        found["items"].insert(0, {**first, "metadata": {
            "name": name, "namespace": "x", "uid": name, "labels": {"pod-template-hash": "5d"},
            "ownerReferences": [{"kind": "ReplicaSet", "name": "web-5d", "controller": True}]}})
    source.write_text(json.dumps(found))
    (folder / "h.csv").write_text("time,x/a1/c,x/a2/c\n1,200m,300m\n2,940m,\n")
    by, _, _ = recommended(ctl, source, "--used", folder / "h.csv")
    (row,) = by.values()
    assert (row["container"], amounts(row), row["samples"], row["of"]) == (
        "Deployment x/web/c", (1081, None), 3, 2)
    assert row["groups"] == [f"x/a{at}/c" for at in (3, 2, 1)]
    sets = [word for one in row["set"] for word in ("--set", one)]
    out, _ = ctl.run("apply", source, *sets, "-o", "kubectl")
    assert len(sets) == 6 and out.count("1081m") == 1 and "deployment" in out.lower()


def owned_pod(name, node, kind, owner, request="100m"):
    """A pod of an owner in the namespace x."""
    return {"kind": "Pod", "metadata": {
        "name": name, "namespace": "x", "uid": name, "labels": {"pod-template-hash": "5d9c"},
        "ownerReferences": [{"kind": kind, "name": owner, "controller": True}]}, "spec": {
            "nodeName": node, "containers": [{"name": "c", "resources": {"requests": {
                "cpu": request}}}]}}


def cluster_of(folder):
    """Two nodes: a Deployment with a replica on each, a StatefulSet, a DaemonSet, a pod alone."""
    items = [{"kind": "Node", "metadata": {"name": name}, "status": {
        "capacity": {"cpu": "4"}, "allocatable": {"cpu": "4"}}} for name in ("n1", "n2")]
    alone = owned_pod("alone", "n2", "", "")
    del alone["metadata"]["ownerReferences"]
    items += [owned_pod("web-5d9c-bbbbb", "n1", "ReplicaSet", "web-5d9c"),
              owned_pod("web-5d9c-ccccc", "n2", "ReplicaSet", "web-5d9c", "300m"),
              owned_pod("db-0", "n1", "StatefulSet", "db"),
              owned_pod("log-zzzzz", "n1", "DaemonSet", "log"), alone]
    (folder / "c.json").write_text(json.dumps({"kind": "List", "items": items}))
    return folder / "c.json"


def test_an_owner_over_nodes_and_pods_that_are_gone(ctl, folder):
    """web's 20 days of three pods, one of which is gone, are 60 samples of 10m to 1000m: the 57th
    is 850m. So are db-1, which was scaled down, and log-22222. Others' columns are told."""
    source, days = cluster_of(folder), range(1, 21)
    names = ("web-5d9c-bbbbb", "web-5d9c-ccccc", "web-77cc-kkkkk", "db-0", "db-1", "log-22222",
             "alone", "web-77cc-aaaaa", "webb-77cc-kkkkk", "gone")
    (folder / "h.csv").write_text(
        "time," + ",".join(f"x/{name}/c" for name in names) + "\n" + "".join(
            f"2026-11-{at:02} 00:00:00,{at * 10}m,{at * 20}m,{at * 50}m,7m,900m,40m,3m,1,1,1\n"
            for at in days))
    words = (source, "--used", folder / "h.csv", "--headroom", "0")
    by, found, err = recommended(ctl, *words)
    assert {name: (each["used_millicpu"], each["samples"], each["of"], len(each["groups"]))
            for name, each in by.items()} == {
        "Deployment x/web/c": (850, 60, 3, 2), "StatefulSet x/db/c": (900, 40, 2, 1),
        "DaemonSet x/log/c": (40, 20, 1, 1), "x/alone/c": (3, 20, 1, 1)}
    assert by["Deployment x/web/c"]["settings"]["request"] == {"now": "100m, 300m", "then": "850m"}
    assert by["Deployment x/web/c"]["gets_millicpu"] == 850
    assert by["Deployment x/web/c"]["span_seconds"] == 19 * 86400
    assert found["recommended_requests_millicpu"] == 850 * 2 + 900 + 40 + 10
    assert "replicas of these, 3: x/web-77cc-kkkkk/c, x/db-1/c, x/log-22222/c" in err
    assert "not here, 3: x/web-77cc-aaaaa/c, x/webb-77cc-kkkkk/c, x/gone/c" in err
    # The owners of one node, by all that was seen of them.
    one, _, _ = recommended(ctl, *words, "--node", "n1")
    assert list(one) == ["Deployment x/web/c", "StatefulSet x/db/c", "DaemonSet x/log/c"]
    # The changes on that node make the one patch of all.
    sets = one["Deployment x/web/c"]["set"]
    assert sets == by["Deployment x/web/c"]["set"][:1] == ["x/web-5d9c-bbbbb/c.request=850m"]
    out, _ = ctl.run("apply", source, "--node", "n1", "--set", *sets, "-o", "kubectl")
    assert "kubectl -n x patch deployment web " in out and out.count("850m") == 1
    (folder / "top").write_text("NAMESPACE POD NAME CPU(cores) MEMORY(bytes)\n" + "".join(
        f"x web-5d9c-{name} c 50m 1Mi\n" for name in ("bbbbb", "ccccc")))
    assert recommended(ctl, source, "--used", folder / "top", "--target", "p95,max")[1][
        "percentile"] == "p95 of 2 samples of one moment is the greatest of 2"
    assert "no node n9" in ctl.run("recommend", *words, "--node", "n9", status=6)[1]
    assert list(recommended(ctl, *words, "-g", "x/alone")[0]) == ["x/alone/c"]
    out, _ = ctl.run("recommend", *words)
    assert out.startswith("hosts: 2, with 8 CPUs\np95 of 20 to 60 samples over 19 d is number 19 of"
                          " 20 in order to number 57 of 60 in order; 0% on top;")
    assert "\n     60  850m  1000m  100m, 300m  850m      -     -  850m        8" in out
    assert "Deployment x/web/c (2)\n" in out


def test_two_owners_that_may_have_made_a_pod(ctl, folder):
    """A name that a Deployment web and a DaemonSet web-77cc could both have made is of neither."""
    source = cluster_of(folder)
    data = json.loads(source.read_text())
    data["items"].append(owned_pod("web-77cc-bbbbb", "n1", "DaemonSet", "web-77cc"))
    source.write_text(json.dumps(data))
    (folder / "h.csv").write_text("time,x/alone/c,x/web-77cc-kkkkk/c\n1,5m,900m\n")
    by, _, err = recommended(ctl, source, "--used", folder / "h.csv")
    assert list(by) == ["x/alone/c"] and "not here, 1: x/web-77cc-kkkkk/c" in err


def test_services_of_compose(ctl, folder):
    """Containers of one service have one proposal, so that compose can say it."""
    labels = {"com.docker.compose.project": "shop", "com.docker.compose.service": "web"}
    (folder / "d.json").write_text(json.dumps([
        {"Id": name * 64, "Name": f"/shop-web-{name}", "HostConfig": {},
         "Config": {"Image": "b", "Labels": labels}} for name in "12"]))
    (folder / "h.csv").write_text("time,shop-web-1,shop-web-2\n1,500m,300m\n2,100m,200m\n")
    words = (folder / "d.json", "--cpus", "2", "--used", folder / "h.csv")
    by, _, _ = recommended(ctl, *words)
    (row,) = by.values()
    assert (row["container"], row["used_millicpu"], row["samples"]) == ("service shop/web", 500, 4)
    sets = [word for each in row["set"] for word in ("--set", each)]
    out, _ = ctl.run("apply", *words[:3], *sets, "-o", "compose")
    assert out.count("cpu_shares: 588") == 1


def test_use_below_the_least(ctl, folder):
    """10m are the least that is requested."""
    by, _, _ = recommended(ctl, node_of(folder, "2"), "--used", top_of(folder, a="1m"))
    assert list(by) == ["x/a/c"] and amounts(by["x/a/c"]) == (10, None)


def test_classes(ctl):
    """A guaranteed pod stays so: its limit is its request. Best effort becomes burstable, told.

    40m, 812m and 95m with 15% on top. The others request no more than their limits, as nginx 1000m
    and app 500m. The init container of db-0 keeps 2000m.
    """
    by, found, err = recommended(ctl, PODS, NODE, "--used", FIXTURES / "top.txt")
    assert {name.split("/")[-1]: amounts(each) for name, each in by.items()} == {
        "nginx": (1000, None), "metrics": (46, None), "postgres": (1000, None),
        "report": (934, None), "app": (500, None), "envoy": (110, None)}
    assert by["prod/db-0/postgres"]["set"] == []
    assert found["recommended_requests_millicpu"] == 1046 + 2000 + 934 + 860
    assert "batch/report-x: Burstable and no more BestEffort" in err and "db-0" not in err


def test_a_throttled_container(ctl, folder):
    """Throttled in half of its periods at 1000m it wanted 2000m at least: a limit of 2300m. From
    one reading to the next no limit is proposed."""
    pod = ("kubepods.slice/kubepods-burstable.slice/kubepods-burstable-pod00000001_0b1c_4d2e_8f3a_"
           "0123456789ab.slice")
    nginx = f"{pod}/cri-containerd-{'a1' * 32}.scope"
    for copy, factor in (("a", 0), ("b", 1), ("c", 2)):
        trees.root2(folder / copy)
        for above in reversed(Path(nginx).parents[:-1]):
            trees.group2(folder / copy / above, usage=3 * 10**6 * factor)
        trees.group2(folder / copy / nginx, usage=3 * 10**6 * factor, periods=100 * factor,
                     throttled=50 * factor, waited=9 * 10**6 * factor)
    words = (PODS, NODE, "--target", "p95,max", "--read", "x10s", "--used", folder / "a", "--used",
             folder / "b")
    assert amounts(recommended(ctl, *words)[0]["prod/web-7c9f/nginx"]) == (345, None)
    assert "limits that stay: 1 (of one sample none is proposed)" in ctl.run("recommend", *words)[0]
    words += ("--used", folder / "c")
    by, found, _ = recommended(ctl, *words)
    assert found["percentile"] == "p95 of 2 samples over 20 s is the greatest of 2"
    assert amounts(by["prod/web-7c9f/nginx"]) == (345, 2300)
    assert by["prod/web-7c9f/nginx"]["throttled"] is True
    out, _ = ctl.run("recommend", *words)
    assert "300m*" in out and "* throttled at its limit: it wanted more than it used" in out


@pytest.mark.parametrize("target, headroom, wanted", [
    ("p95", "15%", (95, Fraction(15, 100), None)), ("max", "0", (100, 0, None)),
    ("p1", "1000%", (1, 10, None)), ("p50,max", "0", (50, 0, 100)), ("p95,p99", "0", (95, 0, 99)),
])
def test_rules(target, headroom, wanted):
    rule = recommend.rule_of(target, headroom)
    assert (rule.percent, rule.headroom, rule.limit) == wanted


@pytest.mark.parametrize("target, headroom", [
    ("p0", "15%"), ("p101", "15%"), ("95", "15%"), ("p9.5", "15%"),
    ("p95,", "15%"), (",p95", "15%"), ("p95,p0", "15%"), ("p1,p2,p3", "15%"),
    ("\x1b", "15%"), ("", "15%"),
    ("p95", "-1%"), ("p95", "x"), ("p95", "1001%"), ("p95", "15m"), ("p95", "1e99%"),
])
def test_bad_rules(target, headroom):
    with pytest.raises(UsageFault):
        recommend.rule_of(target, headroom)


def test_what_recommend_refuses(ctl, folder):
    """Other sources, nothing seen, a broken history: one line each."""
    (folder / "s").write_text("# arbiter run --processors 1\nmkdir a\n")
    assert "recommend is for pods" in ctl.run("recommend", folder / "s", status=2)[1]
    assert "nothing was seen of any container" in ctl.run("recommend", PODS, NODE, status=1)[1]
    (folder / "h.csv").write_text("time,prod/db-0\n1,x\n")
    _, err = ctl.run("recommend", PODS, NODE, "--used", folder / "h.csv", status=1)
    assert "h.csv:2: 'x' is no number" in err
    _, err = ctl.run("recommend", PODS, NODE, "--used", folder / "none", status=1)
    assert "No such file" in err
    _, err = ctl.run("recommend", PODS, NODE, "--used", "http://127.0.0.1:1", status=1)
    assert "Connection refused" in err


# Containers of docker, and units


def test_containers_of_docker(ctl, folder):
    """500m and 300m and 15% are 575m and 345m: 588 and 353 shares, and 0.345 CPUs where one stood.

    They weigh 23 and 14. All of 500m and 300m is there on one CPU, and is less than their parts.
    """
    (folder / "d.json").write_text(json.dumps([
        {"Id": name * 64, "Name": f"/{name}", "Config": {"Image": "b"}, "HostConfig": config}
        for name, config in (("a", {}), ("b", {"CpuShares": 2048, "NanoCpus": 10**9}))]))
    (folder / "h.csv").write_text("time,a,b\n1,500m,300m\n2,500m,300m\n")
    words = (folder / "d.json", "--cpus", "1", "--used", folder / "h.csv", "--target",
             "p95,max")
    by, found, err = recommended(ctl, *words)
    assert {name: each["settings"] for name, each in by.items()} == {
        "system.slice/a": {"cpu-shares": {"now": "-", "then": "588"},
                           "cpus": {"now": "-", "then": None}},
        "system.slice/b": {"cpu-shares": {"now": "2048", "then": "353"},
                           "cpus": {"now": "1", "then": "0.345"}}}
    assert by["system.slice/b"]["set"] == ["system.slice/b.cpu-shares=353",
                                           "system.slice/b.cpus=0.345"]
    assert [each["guaranteed_millicpu"] for each in by.values()] == [500, 300]
    assert found["requests_millicpu"] is found["allocatable_millicpu"] is None and err == ""
    sets = [word for each in by.values() for one in each["set"] for word in ("--set", one)]
    out, _ = ctl.run("diff", *words[:3], *sets, "-o", "json")
    assert {each["group"]: each["weight"] for each in json.loads(out)["after"]["groups"][2:]} == {
        "system.slice/a": 23, "system.slice/b": 14}
    out, _ = ctl.run("recommend", *words)
    assert "requests of all pods" not in out
    assert out.split("\n")[-2].split() == ["2", "300m", "300m", "2048", "353", "1", "0.345", "300m",
                                           "300m", "system.slice/b"]


def test_stats_of_docker(ctl, folder):
    """125.37% and 15% are 1442m, 1476 shares. One moment makes no limit. job is not in the stats.
    """
    by, found, _ = recommended(ctl, FIXTURES / "docker.json", "--cpus", "4", "--target",
                               "p95,max", "--used", FIXTURES / "stats.json")
    assert by["system.slice/web"]["set"] == ["system.slice/web.cpu-shares=1476"]
    assert by["system.slice/web"]["samples"] == 1
    assert set(by) == {"system.slice/web", "system.slice/db"}


def units_of(folder, name, seconds):
    """Two units after some seconds of use, of which one has a quota of 50%."""
    def unit(unit_, used, quota):
        return (f"Id={unit_}\nControlGroup=/{unit_}\nCPUWeight=[not set]\nTasksCurrent=2\n"
                f"CPUQuotaPerSecUSec={quota}\nCPUUsageNSec={used * 10**9}\n\n")

    (folder / name).write_text(unit("a.service", 3 * seconds, "500ms")
                               + unit("b.service", 12 * seconds, "infinity")
                               + unit("idle.service", 0, "infinity"))
    return folder / name


def unit_settings(by):
    """The settings of the units, now and then."""
    return {each["unit"]: tuple((each["settings"][key]["now"], each["settings"][key]["then"])
                                for key in ("CPUWeight", "CPUQuota")) for each in by}


def test_units(ctl, folder):
    """3 and 12 of 10 seconds are 300m and 1200m, with 15% 345m and 1380m: weights 35 and 138."""
    words = (units_of(folder, "1.show", 0), units_of(folder, "2.show", 1), "--read", "x10s",
             "--cpus", "4")
    found = json.loads(ctl.run("recommend", *words, "-o", "json")[0])["units"]
    assert unit_settings(found) == {"a.service": (("100", "35"), ("50%", None)),
                                    "b.service": (("100", "138"), ("-", None))}
    out, _ = ctl.run("recommend", *words)
    assert out.split("\n")[5].split() == ["samples", "used", "most", "CPUWeight", "then",
                                          "CPUQuota", "then", "gets", "guaranteed", "unit"]
    _, err = ctl.run("recommend", words[0], "--cpus", "4", status=1)
    assert "nothing was seen of any unit here: --used says what they used" in err


def test_units_of_a_tree(ctl, folder):
    """The same use in a tree of cgroups. What is no unit is left out."""
    for copy, factor in (("a", 0), ("b", 10**6)):
        trees.root2(folder / copy)
        trees.group2(folder / copy / "a.service", maximum="50000 100000", usage=3 * factor)
        trees.group2(folder / copy / "b.service", usage=12 * factor, threads=2)
        trees.group2(folder / copy / "plain", usage=factor)
    found = json.loads(ctl.run("recommend", folder / "a", folder / "b", "--read", "x10s", "--cpus",
                               "4", "-o", "json")[0])["units"]
    assert unit_settings(found) == {"a.service": (("100", "35"), ("50%", None)),
                                    "b.service": (("100", "138"), ("-", None))}


def test_one_time_has_no_columns(ctl):
    for words in (("--map", "a=b"), ("--unit", "m")):
        _, err = ctl.run("recommend", PODS, NODE, "--used", FIXTURES / "top.txt", *words, status=2)
        assert f"{words[0]}: it has no effect on what was used at one time" in err


def test_units_with_a_history(ctl, folder):
    """Two days of 100m and 300m: 345m of the greatest are a weight of 35. Others are told."""
    (folder / "h.csv").write_text("time,ssh.service,nope\n2026-11-01 00:00:00,100m,1\n"
                                  "2026-11-02 00:00:00,300m,1\n")
    words = (FIXTURES / "units.show", "--cpus", "4", "--used", folder / "h.csv", "--map", "x=y")
    out, err = ctl.run("recommend", *words, "-o", "json")
    (row,) = json.loads(out)["units"]
    assert (row["unit"], row["samples"], row["span_seconds"]) == (
        "system.slice/ssh.service", 2, 86400)
    assert row["set"] == ["system.slice/ssh.service.CPUWeight=35"]
    assert "used by no unit here, 1: nope" in err
    (folder / "h.csv").write_text("time,ssh.service,system.slice/ssh.service\n1,100m,1\n")
    _, err = ctl.run("recommend", *words, status=1)
    assert "system.slice/ssh.service: another one is of the same unit" in err
