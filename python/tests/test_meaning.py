"""Figures that a stranger reads: each says what it is of, and none is from rounding alone."""
import contextlib
import json
import random
import re
from fractions import Fraction

import pytest
import reading
import trees
from arbiter import Host
from arbiter_host.answers import placement
from arbiter_host.base import demands
from arbiter_host.base.demands import Measured
from arbiter_host.base.faults import HostFault, NothingFound
from arbiter_host.base.model import Group, Model
from arbiter_host.base.plan import plan
from arbiter_host.sources import prometheus, selection
from arbiter_host.sources.selection import Selection
from chances import cases
from places import PACKAGE
from test_cluster import cluster
from test_figures import items, node, pod

FOUR = Host(4, 1000000, 1000)
DAY = PACKAGE.parent / "examples"
HOSTS = ("--workers", "0")


def named(one, name, **spec):
    one["metadata"]["name"] = name
    one["spec"] = {**one.get("spec", {}), **spec}
    return one


@pytest.fixture
def nodes(folder):
    """A cluster of three nodes: one is tainted, two are full."""
    taint = [{"key": "only", "effect": "NoSchedule"}]
    each = [named(node(4, 4000), "a", taints=taint), named(node(4, 4000), "b"),
            named(node(4, 4000), "c")]
    pods = [pod(f"p{at}", ("3900m", None)) for at in "abc"]
    for one, at in zip(pods, "abc"):
        one["spec"]["nodeName"], one["status"] = at, {"phase": "Running"}
    (folder / "c.json").write_bytes(cluster(*each, *pods))
    return folder / "c.json"


# What is asked is said by each question to many hosts

def test_each_question_to_many_hosts_says_what_is_asked(ctl, folder, nodes):
    """`diff` and `place` have the line that `explain` has, and each host its field."""
    (folder / "p.json").write_text(json.dumps(pod("new", ("50m", None))))
    words = {"explain": (), "place": ("--pod", folder / "p.json"),
             "diff": ("--set", "*/c0.limit=3950m")}
    for name, more in words.items():
        out, _ = ctl.run(name, nodes, *more, *HOSTS, "-o", "text", "-o", f"json={folder / 'j'}")
        asked = "requests before the change" if name == "diff" else "requests"
        assert f"\ndemands: {asked}; weights: of requests (linear)\n" in out, name
        hosts = json.loads((folder / "j").read_text())["hosts"]
        assert {(each["demands"], each["weights"]) for each in hosts} == {
            (asked, "of requests (linear)")}


def test_a_request_of_many_hosts_is_no_demand(ctl, nodes):
    """Nobody gains, since the demands stay. That and what tells who pays are said."""
    words = ("diff", nodes, "--set", "n/pb/c0.request=3950m", *HOSTS)
    out, err = ctl.run(*words)
    assert "groups that gain: 0, that lose: 0" in out
    assert "\ndemands: requests, requests before the change; weights" in out
    hint = "b: a request is no demand, and the demands stay: --want busy says who pays for it"
    assert err.count(hint) == 1
    assert hint not in ctl.run(*words, "--want", "busy")[1]


def test_replay_says_what_its_figures_are(ctl):
    """48 samples of half an hour are 864,000 periods of a tenth of a second."""
    words = ("replay", DAY / "day.script", "--used", DAY / "day.csv", "--unit", "slices")
    out, _ = ctl.run(*words, "--step", "30m")
    assert out.split("\n\n")[0].splitlines() == [
        "1 CPU, period 100 ms, slice 1 ms (one slice is 10m); the proved check accepted each plan",
        "demands: 48 samples, each of 30 min; weights: of the script",
        "wanted, got: means, in slices of one period; throttled to starved: sums over 864000"
        " periods", "samples in a row: the most in which it starved"]
    found = json.loads(ctl.run(*words, "-o", "json")[0])
    assert (found["demands"], found["weights"]) == ("48 samples, each of one period",
                                                    "of the script")


# Rounding

@pytest.mark.parametrize("quota, period, demand, short", [
    (33333, 50000, "limit", 0), (33333, 50000, Fraction(2, 3) * 1000, 667 - 666),
    (66666, 100000, "limit", 0), (50000, 100000, Fraction(5001, 10), 501 - 500),
    (50000, 100000, Fraction(500), 0), (1500, 1000000, "limit", 0)])
def test_a_demand_that_is_the_limit_is_met(engine, quota, period, demand, short):
    """A limit is rounded down and a demand up. A group whose demand is no more than its limit
    lacks nothing; one whose demand is more lacks it as before."""
    model = Model(FOUR)
    group = model.add(Group("a", 100, quota, period))
    group.demand = demands.limit_of(group, FOUR) if demand == "limit" else demand
    found = plan(engine, model).by_path()["a"]
    assert found.want - found.gets == short


def test_random_limits_as_demands_are_met(engine):
    """Of groups that ask for their limits, on hosts that have as much, none lacks any."""
    chance = random.Random(5)
    for _ in range(cases(300)):
        host = Host(16, *chance.choice([(1000000, 1000), (100000, 1000), (100000, 5000)]))
        model = Model(host)
        for at in range(6):
            period = chance.choice([10000, 50000, 100000, 33333])
            group = model.add(Group(f"g{at}", chance.randint(1, 10000), max(
                chance.randint(1, period * 2), 1000), period))
            group.demand = demands.limit_of(group, host)
        for each in plan(engine, model).groups[1:]:
            # (a limit below a slice gives nothing, and that is told)
            assert each.gets == each.want or each.limit == 0


# Groups that keep to some CPUs

def test_no_range_beside_groups_that_keep_to_cpus():
    """The model of Linux has free tasks alone."""
    model = Model(FOUR)
    for name, kept in (("a", None), ("b", 2)):
        model.add(Group(name, demand=Fraction(4000), tasks=4, keeps_to=kept))
    assert placement.outlook(model) == placement.Outlook({}, "groups that keep to some CPUs: 1")
    model.groups["b"].keeps_to = None
    assert placement.outlook(model).ranges


def test_an_audit_plans_no_more_cpus_than_a_group_keeps_to(ctl, folder):
    """Two groups that waited all the time on four CPUs: the one that keeps to CPU 3 is planned
    one, and it is told."""
    for at, used in enumerate((0, 1)):
        top = folder / f"t{at}"
        trees.root2(top)
        for name in "ab":
            trees.group2(top / name)
            (top / name / "cpu.stat").write_text(f"usage_usec {used * 1000000}\n")
            (top / name / "cpu.pressure").write_text(f"some total={used * 1000000}\n")
            (top / name / "cgroup.threads").write_text("1\n2\n3\n4\n")
        (top / "b/cpuset.cpus").write_text("3\n")
    words = ("audit", folder / "t0", folder / "t1", "--read", "x1s", "--cpus", "4", "--want",
             "psi", "-o", "json")
    out, err = ctl.run(*words)
    found = json.loads(out)
    planned = {each["group"]: each["mean"]["plan_cpus"] for each in found["groups"]}
    assert planned == {"a": 3, "b": 1}
    assert "bound to CPUs: b: each has as many at most" in err
    assert (found["demands"], found["weights"]) == ("use, raised by waiting,", "cpu.weight")
    assert found["placement"]["not_known"] == ["groups that keep to some CPUs: 1"]


# Notes and refusals

def test_groups_of_which_nothing_was_read_have_one_note():
    model = Model(FOUR)
    for at in range(7):
        model.add(Group(f"g{at}"))
    demands.set_demands(model, {"g3": Measured(told=demands.Values.of([Fraction(5)]))}, "usage",
                        Fraction(1))
    assert model.notes == ["6 groups, g0, g1, g2, g4, g5 and 1 more: nothing read for --want usage:"
                           " no demand"]


@pytest.mark.parametrize("copies, is_told", [(1, True), (2, False)])
def test_a_copy_of_a_tree_stands_still(ctl, folder, copies, is_told):
    """Alone it says nothing of use. Two of them say what they say."""
    for at in range(copies):
        trees.root2(folder / f"t{at}")
        trees.group2(folder / f"t{at}/a", usage=5000)
    words = [folder / f"t{at}" for at in range(copies)]
    _, err = ctl.run("explain", *words, "--read", "x1s" if copies == 2 else "2x1s", "--cpus", "2")
    assert ("no counter rose from one reading to the next: a copy of a tree stands still" in err
            ) == is_told


def test_each_kind_of_refusal_is_told(ctl, folder, nodes):
    """The nodes that are full, and the tainted one whose name is first."""
    (folder / "p.json").write_text(json.dumps({
        "kind": "Deployment", "metadata": {"name": "d"}, "spec": {"replicas": 2, "template": {
            "spec": pod("x", ("500m", None))["spec"]}}}))
    out, _ = ctl.run("place", nodes, "--pod", folder / "p.json", *HOSTS, "-o", "json", status=6)
    assert [each["why"] for each in json.loads(out)["pending"]] == [
        "b: it requests 500m, and 4000m less the 3900m of others are there;"
        " a: it does not tolerate the taint only; 1 more refuse it"] * 2


def test_a_pod_is_chosen_by_its_name(calls):
    """Its own name is the end of its title. A namespace that is none is told which there are."""
    model = reading.pods([("p", items(node(4, 4000), pod("pg-1", ("1", None)),
                                      pod("pg-10", ("1", None))))], FOUR, calls)
    for word, found in (("pg-1", 1), ("pg-*", 2), ("pg-1/c0", 1)):
        assert len({each.title.split("/")[1] for each in demands.matching(model, word)}) == found
    with pytest.raises(NothingFound, match=re.escape("no pod of -n x (namespaces here: n)")):
        selection.chosen(model, Selection(namespaces=["x"]))


@pytest.mark.parametrize("value", ["+Inf", "-Inf", "-0.5", "0.5", "NaN"])
def test_a_series_of_no_amount_is_named(value):
    series = prometheus.Metric({"namespace": "n", "pod": "a"}, prometheus.values_of(
        [[1, "0.1"], [2, value]]))
    fault = (pytest.raises(HostFault, match=re.escape(f"U: n/a used {value}: no amount of CPU"))
             if value[-1:] == "f" or value[:1] == "-" else contextlib.nullcontext())
    with fault:
        prometheus.history_of([series], "U")


def test_units_without_a_group_are_counted():
    text = "".join(f"Id={name}.service\nControlGroup={group}\n\n" for name, group in (
        ("a", "/a.service"), ("b", ""), ("c", "")))
    notes = reading.units([("u", text.encode())], FOUR, "busy").notes
    assert "units without a group, left out: 2" in notes


@pytest.mark.parametrize("words, unmet", [
    (["n/pa/c0.limit=4"], ""), (["n/pa/c0.limit=4", "n/pz/c0.limit=4"], "n/pz/c0.limit=4"),
    (["zz.weight=5"], "zz.weight=5")])
def test_a_change_of_no_host_is_refused(ctl, nodes, words, unmet):
    """Also beside one that some host has, as on one host."""
    sets = [part for each in words for part in ("--set", each)]
    _, err = ctl.run("diff", nodes, *sets, *HOSTS, status=6 if unmet else 0)
    assert (f"--set {unmet}: no host has such a group" in err) == bool(unmet)


def test_a_paused_container_is_proposed_nothing(ctl, folder):
    """That it used nothing while it was paused is no history of it."""
    (folder / "d.json").write_text(json.dumps([
        {"Id": letter * 64, "Name": f"/{letter}", "State": {
            "Status": "paused" if letter == "b" else "running", "Running": True,
            "Paused": letter == "b"}, "HostConfig": {"CpuShares": 512}} for letter in "ab"]))
    (folder / "s").write_text("CONTAINER ID   NAME   CPU %   PIDS\n" + "".join(
        f"{letter * 12}   {letter}   {used}%   1\n" for letter, used in (("a", 50), ("b", 0))))
    out, err = ctl.run("recommend", folder / "d.json", "--cpus", "4", "--used", folder / "s")
    rows = [line.split()[-1] for line in out.splitlines() if re.match(" +1 +[0-9]+m ", line)]
    assert [each[-1] for each in rows] == ["a"] and "b: it asks for nothing" in err
