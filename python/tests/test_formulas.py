"""Formulas of weights beside a tree of cgroups: the tree tells which one its host has.

What the tree has is made here, by the words of the formulas' makers (twins.py).
"""
import json
import random
import re
from fractions import Fraction
from functools import partial

import pytest
import reading
import trees
import twins
from arbiter import Host
from arbiter_host.base.faults import UsageFault
from arbiter_host.sources import cgroups, used
from arbiter_host.sources.source_options import UseOptions
from arbiter_host.sources.times import Times
from arbiter_host.subcommands import diff

EIGHT = Host(8, 1000000, 1000)
BY = {"linear": twins.linear, "log": twins.logarithmic}
SHARES = (2, 77, 512, 1024, 2048, 262144)
UNLIKE = "groups whose cpu.weight or cpu.max in the tree is another than is derived here: "
SCOPE = "system.slice/docker-{}.scope"
PODS = "kubepods.slice"


def tree(folder, groups):
    """Copies of a tree ten seconds apart, with the weight and the quota of each folder. Each group
    without others used a second."""
    inner = {path.rpartition("/")[0] for path in groups}
    for copy, seconds in (("a", 0), ("b", 1)):
        trees.root2(folder / copy)
        for path, (weight, quota) in sorted(groups.items()):
            trees.group2(folder / copy / path, weight, f"{quota or 'max'} 100000",
                         usage=0 if path in inner else seconds * 10**6)
    uses = UseOptions((str(folder / "a"), str(folder / "b")), times=Times(Fraction(10)))
    return partial(used.measured, uses)


def told(model):
    """The notes of a model that are of the tree."""
    return [note for note in model.notes if note.startswith(("weights: ", UNLIKE))]


# docker

def containers(folder, weights, shares=SHARES, **words):
    """Containers of some shares, beside a tree with these weights."""
    raw = [{"Id": f"{at:064x}", "Name": f"/c{at}", "State": {"Running": True},
            "HostConfig": {"CpuShares": each}} for at, each in enumerate(shares)]
    groups = {"system.slice": (100, None), **{
        SCOPE.format(f"{at:064x}"): (weight, None) for at, weight in enumerate(weights)}}
    return reading.docker([("d", json.dumps(raw).encode())], EIGHT, None,
                          measured=tree(folder, groups), **words)


@pytest.mark.parametrize("name", BY)
def test_shares_of_docker(folder, name):
    """The runtime that the tree has is taken, and it is told where that is not the usual one."""
    weights = [BY[name](each) for each in SHARES]
    model = containers(folder, weights)
    assert [each.weight for each in model.groups.values()] == [100, *weights]
    assert model.weighed == f"of shares ({name})"
    assert told(model) == ([] if name == "linear" else [
        "weights: log, as the tree has them (--node-weights)"])


def test_shares_that_the_tree_contradicts(folder):
    """No formula makes 55 of each: the usual one stays, and each group is told."""
    model = containers(folder, [55] * len(SHARES))
    assert model.weighed == "of shares (linear)"
    assert told(model)[0].startswith(f"{UNLIKE}6 of 7: system.slice/c0 has weight 55, max max"
                                     " 100000, derived 1, max max 100000")


def test_a_formula_that_is_said_stays(folder):
    weights = [twins.logarithmic(each) for each in SHARES]
    model = containers(folder, weights, are_conversions_said=True)
    assert model.weighed == "of shares (linear)" and told(model)[0].startswith(f"{UNLIKE}4 of 7: ")


def test_no_evidence_chooses_nothing(folder):
    """Containers without shares have 100 by each formula."""
    model = containers(folder, [100, 100], (0, 0))
    assert (model.weighed, told(model)) == ("of shares (linear)", [])


# pods

def pod(name, *containers_, memory=False):
    """A pod of containers with a request and a limit; of each the identifier is known."""
    def resources(request, limit):
        more = {"memory": "1Mi"} if memory else {}
        return {key: {"cpu": f"{value}m", **more} for key, value in (
            ("requests", request), ("limits", limit)) if value is not None}

    return {"kind": "Pod", "metadata": {"namespace": "n", "name": name, "uid": name},
            "spec": {"containers": [{"name": f"c{at}", "resources": resources(*each)}
                                    for at, each in enumerate(containers_)]},
            "status": {"phase": "Running", "containerStatuses": [
                {"name": f"c{at}", "containerID": f"containerd://{identifier(name, at)}"}
                for at, _ in enumerate(containers_)]}}


def identifier(name, at):
    return f"{name.encode().hex()}{at:02}".rjust(64, "0")


def random_pods(chance):
    """Some pods of each class, and the folders of all groups with what each is made of: shares of
    kubelet's or of the runtime's, and thousandths of a limit."""
    pods, groups, burstable = [], {}, 0
    for at in range(chance.randint(2, 6)):
        kind = chance.choice(["burstable", "besteffort", "guaranteed"])
        parts = []
        for _ in range(chance.randint(1, 3)):
            request = chance.randint(3, 3000)
            limit = chance.choice([None, request + chance.randint(1, 500)])
            parts.append({"burstable": (request, limit), "besteffort": (None, None),
                          "guaranteed": (request, request)}[kind])
        name, asked = f"p{at}", sum(request or 0 for request, _ in parts)
        pods.append(pod(name, *parts, memory=kind == "guaranteed"))
        top = PODS if kind == "guaranteed" else f"{PODS}/kubepods-{kind}.slice"
        folder = f"{top}/{top.rpartition('/')[2].removesuffix('.slice')}-pod{name}.slice"
        limits = [limit for _, limit in parts]
        groups[folder] = (0, twins.shares(asked), None if None in limits else sum(limits))
        for number, (request, limit) in enumerate(parts):
            groups[f"{folder}/cri-containerd-{identifier(name, number)}.scope"] = (
                1, twins.shares(request or 0), limit)
        burstable += asked if kind == "burstable" else 0
    groups[PODS] = (0, twins.shares(7900), None)
    groups[f"{PODS}/kubepods-burstable.slice"] = (0, twins.shares(burstable), None)
    groups[f"{PODS}/kubepods-besteffort.slice"] = (0, 2, None)
    return pods, groups


def read_pods(folder, pods, groups, kubelet, runtime, **words):
    """The model of pods beside a tree whose weights are by two conversions."""
    node = {"kind": "Node", "metadata": {"name": "n1"}, "status": {
        "capacity": {"cpu": "8"}, "allocatable": {"cpu": "7900m"}}}
    made = {path: (weight if by == "said" else BY[(kubelet, runtime)[by]](weight),
                   twins.quota(limit or 0)) for path, (by, weight, limit) in groups.items()}
    data = json.dumps({"kind": "List", "items": [node, *pods]}).encode()
    return reading.pods([("F", data)], None, None, measured=tree(folder, made), **words)


@pytest.mark.parametrize("seed", range(12))
@pytest.mark.parametrize("kubelet, runtime", [("linear", "linear"), ("linear", "log"),
                                              ("log", "log")])
def test_requests_of_pods(folder, seed, kubelet, runtime):
    """The two conversions that the tree has are taken, also where each limit was set anew."""
    chance = random.Random(seed)
    pods, groups = random_pods(chance)
    model = read_pods(folder, pods, groups, kubelet, runtime)
    by = kubelet if kubelet == runtime else f"{kubelet} and {runtime} for containers"
    assert model.weighed == f"of requests ({by})"
    assert told(model) == ([] if runtime == "linear" else [
        f"weights: {runtime} for containers, {kubelet} above them, as the tree has them"
        " (--node-weights)"])
    wide = {path: (by, weight, (limit or 0) + 7) for path, (by, weight, limit) in groups.items()}
    model = read_pods(folder, pods, wide, kubelet, runtime)
    assert model.weighed == f"of requests ({by})"
    assert any(note.startswith(UNLIKE) for note in told(model))


def test_requests_that_the_tree_contradicts(folder):
    """One class has the weight of a pod that is not here: it is told, and what is chosen stays."""
    class_ = f"{PODS}/kubepods-burstable.slice"
    pods, groups = next(each for each in map(random_pods, map(random.Random, range(99)))
                        if any(path.startswith(f"{class_}/") for path in each[1]))
    groups[class_] = ("said", 9999, None)
    scopes = [path for path in groups if path.endswith(".scope")]
    compared = sum(any(scope.startswith(path) for scope in scopes) for path in groups)
    model = read_pods(folder, pods, groups, "log", "log")
    assert model.weighed == "of requests (log)"
    (_, note) = told(model)
    assert note.startswith(f"{UNLIKE}1 of {compared}: kubepods/burstable has weight 9999, ")


# systemd

def units(folder, made, weights, **words):
    """Units of CPUWeight and CPUShares below one slice, beside a tree with these weights."""
    text = "Id=w.slice\nControlGroup=/w.slice\n" + "".join(
        f"\nId=u{at}.service\nControlGroup=/w.slice/u{at}.service\n" + "".join(
            f"{key}={value}\n" for key, value in each.items()) for at, each in enumerate(made))
    groups = {"w.slice": (100, None), **{
        f"w.slice/u{at}.service": (weight, None) for at, weight in enumerate(weights)}}
    return reading.units([("u", text.encode())], EIGHT, measured=tree(folder, groups), **words)


@pytest.mark.parametrize("seed", range(4))
def test_weights_of_units(folder, seed):
    """CPUWeight, and CPUShares where there is none, are as the tree has them. What units used is
    the tree's: a second of ten."""
    chance = random.Random(seed)
    made = [chance.choice([
        {"CPUWeight": chance.randint(1, 10000)}, {"CPUWeight": "idle"}, {},
        {"CPUWeight": "[not set]", "CPUShares": chance.randint(2, 262144)},
        {"CPUWeight": chance.randint(1, 10000), "CPUShares": chance.randint(2, 262144)}])
        for _ in range(9)]
    weights = [twins.unit(None if each.get("CPUWeight") == "[not set]" else each.get("CPUWeight"),
                          each.get("CPUShares"), None, None)[0] for each in made]
    model = units(folder, made, weights)
    assert [each.weight for each in model.groups.values()] == [100, *weights]
    assert told(model) == [] and model.asked == "use in 10 s"
    assert [each.demand for each in model.groups.values()] == [0, *[100] * 9]


def test_units_that_the_tree_contradicts(folder):
    made = [{"CPUWeight": 300}, {"CPUShares": 2048}, {"CPUWeight": 300}]
    (note,) = told(units(folder, made, [300, 100, 7]))
    assert note == (f"{UNLIKE}2 of 4: w.slice/u1.service has weight 100, max max 100000, derived"
                    " 200, max max 100000, w.slice/u2.service has weight 7, max max 100000, derived"
                    " 300, max max 100000")


def test_units_beside_a_tree(ctl, folder):
    """As commands: a tree is read, and a file that names no unit is refused."""
    (folder / "u").write_text("Id=a.service\nControlGroup=/a.service\nCPUWeight=300\n")
    tree(folder, {"a.service": (70, None)})
    words = ("explain", folder / "u", "--cpus", "2", "--used")
    out, err = ctl.run(*words, folder / "a", "--used", folder / "b", "--read", "x10s")
    assert f"{UNLIKE}1 of 1: a.service has weight 70, " in err and "0.100 of 2.000" in out
    out, _ = ctl.run("recommend", folder / "u", "--cpus", "2", "--used", folder / "a", "--used",
                     folder / "b", "--read", "x10s", "--headroom", "0")
    assert re.search(r"^ +1 +100m +100m +300 +10 +- +- .* a.service$", out, re.M)
    (folder / "top").write_text("NAMESPACE POD NAME CPU(cores)\na b c 1m\n")
    _, err = ctl.run(*words, folder / "top", status=2)
    assert "--used: it has no effect on a source of the kind systemd" in err
    trees.root2(folder / "none")
    _, err = ctl.run(*words, folder / "none", status=1)
    assert "no group of these units is below it, such as a.service" in err


def test_units_have_what_they_used_once(folder):
    """Beside a tree they are printed once."""
    files = [(name, b"Id=a.service\nControlGroup=/a.service\n") for name in "xy"]
    with pytest.raises(UsageFault, match="^--used: units that were printed twice have what they"):
        reading.units(files, EIGHT, measured=tree(folder, {"a.service": (100, None)}))


# a tree as a source

@pytest.mark.parametrize("kubelet, runtime", [("linear", "log"), ("log", "log")])
def test_pods_beside_a_tree_as_the_other_source(folder, kubelet, runtime):
    """`diff pods tree` weighs the pods as the tree does, so that no group differs in its weight."""
    pods, groups = random_pods(random.Random(5))
    read_pods(folder, pods, groups, kubelet, runtime)
    node = {"kind": "Node", "metadata": {"name": "n1"}, "status": {
        "capacity": {"cpu": "8"}, "allocatable": {"cpu": "7900m"}}}
    data = json.dumps({"kind": "List", "items": [node, *pods]}).encode()
    one = reading.pods([("F", data)], None, None)
    two = cgroups.read([str(folder / "a")], EIGHT, want="busy", library=reading.Planner())
    for pair in ([one, two], [two, one]):
        met = diff.met(pair)
        mine, theirs = met if pair[0] is one else reversed(met)
        weights = {path: each.weight for path, each in mine.groups.items()
                   if not path.endswith("/pause")}
        assert weights == {path: each.weight for path, each in theirs.groups.items()}
        assert f"weights: {runtime} for containers, {kubelet} above them" in " ".join(mine.notes)
    assert diff.met([two]) == [two] and diff.met([one, one]) == [one, one]
