"""Figures of answers that a stranger reads: none comes from rounding, and equals look equal."""
import json
import os
import random
import re
from fractions import Fraction

import pytest
import reading
import trees
from arbiter import Host
from arbiter_host.answers import explain
from arbiter_host.base.model import Group, Model, cpus_in, host_of, with_cpus
from arbiter_host.base.plan import plan
from arbiter_host.sources import kubernetes
from arbiter_host.sources.source_options import SourceOptions
from chances import cases

# Random nodes, in so many tests; more by `NODES=2000 pytest ..`.
NODES, PARTS = int(os.environ.get("NODES", cases(100))), 20
# Ways to write thousandths of a CPU.
SPELLINGS = (lambda m: f"{m}m", lambda m: f"{m / 1000:.3f}", lambda m: f"{m}e-3",
             lambda m: f"{m * 1000}u", lambda m: m // 1000 if m % 1000 == 0 else f"{m}m")


def pod(name, *containers, namespace="n"):
    """A pod of containers with requests and limits in thousandths; None for none."""
    return {"kind": "Pod", "metadata": {"namespace": namespace, "name": name, "uid": name},
            "spec": {"nodeName": "n1", "containers": [
                {"name": f"c{at}", "resources": {
                    key: {"cpu": value} for key, value in (("requests", request), ("limits", limit))
                    if value is not None}} for at, (request, limit) in enumerate(containers)]},
            "status": {"phase": "Running"}}


def node(cpus, allocatable):
    return {"kind": "Node", "metadata": {"name": "n1"}, "status": {
        "capacity": {"cpu": str(cpus)}, "allocatable": {"cpu": f"{allocatable}m"}}}


def items(*each):
    return json.dumps({"kind": "List", "apiVersion": "v1", "items": list(each)}).encode()


@pytest.fixture
def small(folder):
    """A node of 8 CPUs with 105 pods of 51m and 21m, which fit: 7.56 CPUs of 7.91."""
    pods = [pod(f"p{at}", ("51m", None), ("21m", None)) for at in range(105)]
    (folder / "pods.json").write_bytes(items(*pods))
    real = node(8, 7910)
    real["status"]["nodeInfo"] = {"kubeletVersion": "v1.31.2"}
    (folder / "node.json").write_text(json.dumps(real))
    return folder / "pods.json", folder / "node.json"


def test_small_requests_that_fit_are_all_served(ctl, small):
    """105 times 72m are 7.560 CPUs by hand."""
    out, _ = ctl.run("explain", *small)
    assert "7.560 of 8.000 CPUs served, 7.560 wanted" in out
    assert "what limits the total: the demands alone\n" in out
    assert "groups without all that they want: 0, of these starved: 0\n" in out
    assert len(re.findall(r"^ *0\.051 +0\.051 .* c0$", out, re.M)) == 105


def test_small_requests_that_fit_alert_nobody(ctl, small):
    out, err = ctl.run("top", *small, "--read", "1x1s", "--alert", "lack>0m", "--alert", "starved")
    assert json.loads(out) == {"round": 1, "wanted_cpus": 7.56, "planned_cpus": 7.56, "alerts": []}
    assert "alert" not in err


def test_a_goal_that_is_met_asks_for_nothing(ctl, small):
    out, _ = ctl.run("tune", *small, "--goal", "n/p0/c0=51m")
    assert "all goals are met as it stands: nothing changes\n" in out
    assert "0.051  0.051  0.051  0.051  kubepods/burstable/n:p0/c0\n" in out


@pytest.mark.parametrize("cpus, period, slice_", [
    (1, 1000000, 1000), (64, 1000000, 1000), (65, 500000, 1000), (128, 500000, 1000),
    (129, 200000, 1000), (320, 200000, 1000), (321, 100000, 1000), (640, 100000, 1000)])
def test_the_default_host(calls, cpus, period, slice_):
    """A slice is a thousandth of a CPU wherever 64000 slices are enough."""
    host = host_of(calls, cpus)
    assert host == Host(cpus, period, slice_) and host.capacity <= 64000
    assert host_of(calls, cpus, 100000) == Host(cpus, 100000, 1000)


def test_what_is_asked_of_the_host_stays(calls):
    assert host_of(calls, 4, None, 5000) == Host(4, 1000000, 5000)
    assert host_of(calls, 4, 50000, 5000) == Host(4, 50000, 5000)
    assert host_of(calls, 4, sample=300000) == Host(4, 100000, 1000)
    assert host_of(calls, 4, sample=3000000) == Host(4, 1000000, 1000)
    assert with_cpus(Host(8, 1000000, 1000), 96) == Host(96, 500000, 1000)
    assert with_cpus(Host(8, 100000, 5000), 96) == Host(96, 100000, 5000)


@pytest.mark.parametrize("cpus, wanted", [(4, 20), (96, 22)])
def test_a_host_file_without_a_slice(ctl, folder, cpus, wanted):
    """15m and 5m are 20m. On 96 CPUs a slice is 2m, and both are rounded up."""
    path = folder / "host.toml"
    path.write_text(f'[host]\ncpus = {cpus}\n[groups.a]\ndemand = "15m"\n'
                    '[groups.b]\ndemand = "5m"\n')
    data = json.loads(ctl.run("explain", path, "-o", "json")[0])
    assert data["wanted"]["millicpu"] == data["served"]["millicpu"] == wanted


def test_more_cpus_of_a_change_have_a_shorter_period(ctl, folder):
    path = folder / "host.toml"
    path.write_text('[host]\ncpus = 4\n[groups.a]\ndemand = "90cpu"\n')
    data = json.loads(ctl.run("diff", path, "--set", ".cpus=96", "-o", "json")[0])
    assert [data[key]["host"]["slice_usec"] / data[key]["host"]["period_usec"] for key in (
        "before", "after")] == [0.001, 0.002]
    assert data["after"]["served"]["millicpu"] == 90000


def tied():
    """A slice of 1000 that is left for four groups of weight 1, each with one child, beside a group
    whose 999th slice costs (2 * 999 - 1) / 1997, as much as their first."""
    model = Model(Host(1, 1000000, 1000))
    model.add(Group("big", 1997, demand=Fraction(1000)))
    for name in "abcd":
        model.add(Group(name, 1))
        model.add(Group(f"{name}/x", demand=Fraction(1000)))
    return model


def test_equals_are_not_starved_by_a_tie(engine):
    found = plan(engine, tied())
    assert [each.gets for each in found.groups if each.depth == 2] == [1, 0, 0, 0]
    assert not any(each.is_starved for each in found.groups)
    assert "of these starved: 0" in "\n".join(explain.head(found, explain.View()))


def test_a_limit_below_a_slice_starves(engine):
    """A millisecond of each second is a tenth of a slice of 100 ms, of which `a` has one."""
    model = tied()
    model.host = Host(1, 100000, 1000)
    model.groups["big"].weight = 197
    model.groups["d"].quota, model.groups["d"].period = 1000, 1000000
    found = plan(engine, model).by_path()
    assert [found[name].gets for name in "abcd"] == [1, 0, 0, 0]
    assert [found[name].is_starved for name in "abcd"] == [False, False, False, True]


def random_node(chance):
    """Pods whose requests fit, in any spelling, and the node; and the sum of these requests."""
    cpus = chance.choice([1, 2, 4, 8, 16, 32, 48, 64])
    allocatable = 1000 * cpus - chance.randrange(0, 200)
    pods, total = [], 0
    for at in range(chance.randrange(1, 60)):
        containers = []
        for _ in range(chance.randrange(1, 4)):
            request = chance.choice([0, chance.randrange(1, 40), chance.randrange(1, 1500)])
            if total + request > allocatable:
                request = chance.randrange(0, allocatable - total + 1)
            total += request
            is_open = not request or chance.random() < 0.5
            limit = None if is_open else request + chance.randrange(1, 500)
            containers.append(tuple(None if each is None else chance.choice(SPELLINGS)(each)
                                    for each in (request or None, limit)))
        pods.append(pod(f"p{at}", *containers))
    return items(node(cpus, allocatable), *pods), total, cpus


@pytest.mark.parametrize("part", range(PARTS))
def test_on_a_node_whose_requests_fit_no_group_is_short(calls, engine, part):
    """Requests are added up here by whole thousandths."""
    for seed in range(part, NODES, PARTS):
        data, total, cpus = random_node(random.Random(seed))
        model = kubernetes.read([("F", data)], calls, SourceOptions())
        found = plan(engine, model)
        assert found.model.host.processors == cpus, seed
        assert found.thousandths(found.root.gets) == found.thousandths(found.root.want) == total
        assert all(each.gets == each.want for each in found.groups), seed
        by_leaf = sum(found.thousandths(each.gets) for each in found.groups if not each.children)
        assert by_leaf == total, seed


# What is asked

@pytest.mark.parametrize("words, wanted", [
    ((), "demands: requests; weights: of requests (linear)"),
    (("--want", "busy"), "demands: all CPUs (busy); weights: of requests (linear)"),
    (("--node-weights", "runtime-log"),
     "demands: requests; weights: of requests (linear and log for containers)"),
    (("--scale", "n/p0/c0=2"), "demands: requests, n/p0/c0 times 2; weights: of requests (linear)"),
])
def test_what_is_asked_is_said(ctl, small, words, wanted):
    out, _ = ctl.run("explain", *small, *words)
    assert out.split("\n")[2] == wanted
    data = json.loads(ctl.run("explain", *small, *words, "-o", "json")[0])
    assert f"demands: {data['demands']}; weights: {data['weights']}" == wanted


@pytest.mark.parametrize("times, wanted", [
    (["2026-01-05T10:00:00Z", "2026-01-06T10:00:00Z"], "mean of use in 1 d (2 samples)"),
    (["a", "b", "c"], "mean of use (3 samples)"), (["2026-01-05T10:00:00Z"], "use at one moment")])
def test_use_says_its_time(ctl, folder, small, times, wanted):
    (folder / "h.csv").write_text("time,n/p0/c0\n" + "".join(f"{each},1\n" for each in times))
    out, _ = ctl.run("explain", *small, "--used", folder / "h.csv")
    assert f"\ndemands: {wanted}; weights: of requests (linear)\n" in out


@pytest.fixture
def two(folder):
    """A node of one CPU with two pods of 300m and 100m."""
    (folder / "two.json").write_bytes(items(
        node(1, 1000), pod("a", ("300m", None)), pod("b", ("100m", None), namespace="m")))
    return folder / "two.json"


def test_a_request_is_no_demand(ctl, two):
    """Where all fit, a greater request changes nothing. If both are busy somebody pays: by 307 and
    102 shares the pods have weights 12 and 4, by 716 and 102 weights 28 and 4."""
    out, err = ctl.run("diff", two, "--set", "n/a/c0.request=700m", "-o", "json")
    data = json.loads(out)
    assert data["after"]["demands"] == "requests before the change" and err == ""
    assert all(each["change_millicpu"] == 0 for each in data["changed"])
    (asked,) = [each for each in data["after"]["groups"] if each["title"] == "n/a/c0"]
    assert (asked["request_millicpu"], asked["asks_millicpu"]) == (700, 300)
    busy = {each["group"]: each["change_millicpu"] for each in data["busy"]["changed"]}
    assert (busy["kubepods/burstable/n:a/c0"], busy["kubepods/burstable/m:b/c0"]) == (125, -125)
    out, _ = ctl.run("diff", two, "--set", "n/a/c0.request=700m")
    assert "\nif all are busy (--want busy):\n" in out and "0.750  0.875  +0.125" in out
    assert "  all that it wants; weight 28 (before: weight 12)  kubepods/burstable/n:a\n" in out


def test_the_page_of_a_request_says_who_pays(ctl, two):
    """Both tables stand before the groups. What is alike before and after has one bar, and a row
    that differs by its weight alone says so."""
    page, _ = ctl.run("diff", two, "--set", "n/a/c0.request=700m", "-o", "html")
    heads = re.findall("<h2>(.*?)</h2>", page)
    assert heads == ["Before and after", "If all are busy", "Groups"]
    assert re.findall('<div class="when">(.*?)</div>', page) == ["before and after"]
    assert "all that it wants; weight 28 <span" in page and "before: weight 12<" in page
    assert "The proved check accepted all plans." in page and "-0.125" in page


def test_other_changes_are_not_shown_for_busy(ctl, two):
    for words in (("--want", "busy", "--set", "n/a/c0.request=700m"), ("--set", "n:a.weight=7")):
        assert "busy" not in json.loads(ctl.run("diff", two, *words, "-o", "json")[0])


def test_a_namespace_alone_is_told(ctl, small, two):
    assert "all pods are of the namespace n: where others run" in ctl.run("explain", *small)[1]
    assert "namespace" not in ctl.run("explain", two)[1]


# The true node

@pytest.mark.parametrize("properties, wanted", [
    ("FreezerState=frozen\n", (0, None)), ("FreezerState=running\n", (4000, None)),
    ("AllowedCPUs=0-1 3\n", (4000, 3)), ("AllowedCPUs=0-3\n", (4000, None))])
def test_units_that_are_frozen_or_keep_to_cpus(properties, wanted):
    """What is below a frozen slice is frozen too. All CPUs are no bound."""
    text = ("Id=a.slice\nControlGroup=/a.slice\n" + properties
            + "\nId=b.service\nControlGroup=/a.slice/b.service\n")
    model = reading.units([("u", text.encode())], Host(4, 1000000, 1000), "busy")
    assert (model.groups["a.slice/b.service"].demand, model.groups["a.slice"].keeps_to) == wanted


@pytest.mark.parametrize("cpus, told", [("0-1,8", True), ("17", True), ("0-3", False),
                                        ("3", False)])
def test_units_that_keep_to_cpus_of_other_numbers(cpus, told):
    """A host of 4 CPUs may count them from 0, and then it has no CPU 4."""
    text = f"Id=a.slice\nControlGroup=/a.slice\nAllowedCPUs={cpus}\n"
    model = reading.units([("u", text.encode())], Host(4, 1000000, 1000), "busy")
    notes = [note for note in model.notes if note.startswith("bound to CPUs from number 4 on: a.s")]
    assert len(notes) == told


def tree_of(folder, **files):
    """A tree of two groups, of which the second has these files."""
    trees.root2(folder / "t")
    for name in "ab":
        trees.group2(folder / "t" / name)
    for name, text in files.items():
        (folder / "t/b" / name.replace("__", ".")).write_text(text)
    return folder / "t"


def test_a_frozen_group_of_a_tree(ctl, folder):
    out, err = ctl.run("explain", tree_of(folder, cgroup__freeze="1\n"), "--cpus", "2", "--want",
                       "limit", "-o", "json")
    assert {each["group"]: each["wants"]["millicpu"] for each in json.loads(out)["groups"]} == {
        ".": 1000, "a": 1000, "b": 0}
    assert "frozen: b: it asks for nothing" in err


def test_a_group_gets_the_cpus_that_it_keeps_to(ctl, folder):
    """By its own file, and by the effective one where some are offline."""
    words = (tree_of(folder, cpuset__cpus="0-2\n", cpuset__cpus__effective="0\n"), "--cpus", "4",
             "--want", "limit")
    out, err = ctl.run("explain", *words)
    assert re.search(r"1\.000 +1\.000 +1\.000 .* b$", out, re.M)
    assert "bound to CPUs: b: each has as many at most" in err


def test_a_list_of_cpus():
    assert [cpus_in(each) for each in ("0", "0-3,8", "1,1-2", "", "x", "3-1")] == [
        1, 5, 2, None, None, None]
