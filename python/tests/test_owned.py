"""Settings that people own: requests of pods, quotas of units, shares of containers.

Each expected number is worked by hand from the formulas of kubelet, runc, systemd and docker.
The fixtures are written to the documented formats.
"""
import copy
import json
import shutil
from pathlib import Path

import pytest
import reading
import trees
from arbiter import Host
from arbiter_host.base.faults import HostFault, UsageFault
from arbiter_host.base.owned import Setting, remade
from arbiter_host.base.plan import plan
from arbiter_host.sources import change
from arbiter_host.tune import single_settings
from arbiter_host.tune.goals import Goals, goals_of
from chances import cases
from hypothesis import HealthCheck, given, settings
from hypothesis import strategies as st

FIXTURES = Path(__file__).parent / "fixtures"
PODS, NODE = FIXTURES / "pods.json", FIXTURES / "node.json"
EIGHT = Host(8, 100000, 1000)
WEB = "kubepods/burstable/prod:web-7c9f"
CONTAINERS = {"nginx": ("prod/web-7c9f/nginx", 0), "app": ("prod/proxy-1/app", 3),
              "postgres": ("prod/db-0/postgres", 1), "report": ("batch/report-x/report", 2)}


def groups_of(ctl, *words):
    """The groups that `export` writes."""
    return json.loads(ctl.run("export", *words, "-o", "json")[0])["groups"]


def test_weights_follow_a_request(ctl):
    """nginx 1000m is 1024 shares, its pod 1100m 1126, burstable 1950m 1996: 39, 43 and 77.

    A weight is 1 + (shares - 2) * 9999 / 262142, rounded down.
    """
    found = groups_of(ctl, PODS, NODE, "--set", "prod/web-7c9f/nginx.request=1cpu")
    weights = [found[path]["weight"] for path in (f"{WEB}/nginx", WEB, "kubepods/burstable",
                                                  "kubepods", "kubepods/burstable/prod:proxy-1")]
    assert weights == [39, 43, 77, 137, 34]
    assert found[f"{WEB}/nginx"]["demand"] == "250m"


def test_limits_follow_a_limit(ctl):
    """nginx 1500m and metrics 200m are 1700m for the pod."""
    found = groups_of(ctl, PODS, NODE, "--set", "prod/web-7c9f/nginx.limit=1500m")
    assert [found[path]["max"] for path in (f"{WEB}/nginx", WEB)] == [
        "150000 100000", "170000 100000"]
    found = groups_of(ctl, PODS, NODE, "--set", "prod/web-7c9f/nginx.limit=max")
    assert "max" not in found[f"{WEB}/nginx"] and "max" not in found[WEB]


def edited(folder, name, requests, limits):
    """The pods' JSON with other requests and limits of a container, and no told class."""
    found = json.loads(PODS.read_text())
    pod = found["items"][CONTAINERS[name][1]]
    (container,) = [each for each in pod["spec"]["containers"] if each["name"] == name]
    for key, value in (("requests", requests), ("limits", limits)):
        if value:
            container["resources"].setdefault(key, {})["cpu"] = value
    del pod["status"]["qosClass"]
    (folder / "pods.json").write_text(json.dumps(found))
    return folder / "pods.json"


@pytest.mark.parametrize("name, requests, limits", [
    ("nginx", "980m", None), ("nginx", None, "3"), ("nginx", "1500m", "2"), ("app", "0", None),
    # A class changes: from guaranteed, from best effort, and to guaranteed.
    ("postgres", "400m", None), ("report", "300m", None), ("report", None, "2500m"),
    ("postgres", "3", "3"),
])
@pytest.mark.parametrize("words", [(), ("--want", "busy"), ("--want", "limit", "--scale", ".=2"),
                                   ("--node-weights", "runtime-log"),
                                   ("--cpus", "6", "--slice", "5ms")])
def test_a_change_is_an_edit_of_the_json(ctl, folder, name, requests, limits, words):
    """Each group is the one that the edited JSON gives, but that a request is no demand."""
    changes = [("request", requests), ("limit", limits)]
    if name == "report" and limits:
        changes = [("limit", limits), ("request", limits)]
    sets = [word for key, value in changes if value
            for word in ("--set", f"{CONTAINERS[name][0]}.{key}={value}")]
    found = groups_of(ctl, PODS, NODE, *sets, *words)
    wanted = groups_of(ctl, edited(folder, name, requests, limits), NODE, *words)
    if "--want" not in words:
        before = groups_of(ctl, PODS, NODE, *words)
        assert ([each.pop("demand", "") for each in found.values()]
                == [each.pop("demand", "") for each in before.values()])
        for each in wanted.values():
            each.pop("demand", "")
    assert list(found.items()) == list(wanted.items())


def test_a_class_that_changes_is_told(ctl):
    """Best effort with a request is burstable: another path, told."""
    out, err = ctl.run("diff", PODS, NODE, "--set", "batch/report-x/report.request=200m",
                       "--want", "busy", "-o", "json")
    assert ("warning: --set: batch/report-x: Burstable and no more BestEffort: its class is that of"
            " a pod that is made anew") in err
    paths = [each["group"] for each in json.loads(out)["changed"]]
    assert "kubepods/besteffort/batch:report-x/report" in paths
    assert "kubepods/burstable/batch:report-x/report" in paths


def test_requests_are_data(ctl):
    """What a container requests stands beside what it asks for; other groups have none."""
    out, _ = ctl.run("explain", PODS, NODE, "--want", "busy", "-o", "json", "--cpus", "2")
    found = {each["group"]: (each["request_millicpu"], each["asks_millicpu"])
             for each in json.loads(out)["groups"]}
    assert (found[f"{WEB}/nginx"], found[WEB], found["."]) == ((250, 2000), (None, 0), (None, None))


def test_more_than_the_node_has_is_told(ctl):
    """3200m are requested of 3500m; 550m more are not there."""
    words = ("diff", PODS, NODE, "--set")
    assert "warning: --set" not in ctl.run(*words, "prod/web-7c9f/nginx.request=550m")[1]
    assert ("the pods request 3501m of the 3500m that the node has for them"
            in ctl.run(*words, "prod/web-7c9f/nginx.request=551m")[1])


def test_patterns_name_titles(ctl):
    """`*` stands for letters of namespace/pod/container too; what has no request is left out.

    200m are 204 shares: 1 + 202 * 9999 / 262142 = 8.7.
    """
    found = groups_of(ctl, PODS, NODE, "--set", "prod/web-*/*.request=200m")
    assert (found[f"{WEB}/nginx"]["weight"], found[f"{WEB}/metrics"]["weight"]) == (8, 8)
    assert "demand" not in found[f"{WEB}/pause"]


def test_other_changes_come_after(ctl):
    """A weight that is set stays, wherever its word stands."""
    found = groups_of(ctl, PODS, NODE, "--set", f"{WEB}.weight=7", "--set",
                      "prod/web-7c9f/nginx.request=1cpu")
    assert (found[WEB]["weight"], found[f"{WEB}/nginx"]["weight"]) == (7, 39)


def test_pages_and_apply_take_requests(ctl, folder):
    """The page has the new amounts, and the steps are those of all weights that follow."""
    words = ("--set", "prod/web-7c9f/nginx.request=1cpu")
    ctl.run("diff", PODS, NODE, *words, "-o", f"html={folder / 'page.html'}")
    assert "prod:web-7c9f" in (folder / "page.html").read_text()
    trees.root2(folder / "t")
    for line in (FIXTURES / "node.cgroups").read_text().split("\n")[1:-1]:
        path, weight, quota = line.split(" ")
        trees.group2(folder / "t" / path, weight, f"{quota} 100000")
    out, _ = ctl.run("apply", PODS, NODE, *words, "--root", folder / "t", "--by", "files")
    steps = [(line.split()[1], line.split("/")[-2][:22]) for line in out.split("\n")[:-1]]
    assert [step[0] for step in steps] == ["77", "43", "39"]
    assert steps[0][1] == "kubepods-burstable.sli"


@pytest.mark.parametrize("word, words", [
    ("prod/web-7c9f/nginx.request=lots", "'lots' is no amount of CPU"),
    ("prod/web-7c9f/nginx.request=-1", "'-1' is no amount of CPU"),
    ("prod/web-7c9f/nginx.request=1.5cpu", "its request 1500m is above its limit 1000m"),
    ("prod/web-7c9f/nginx.limit=200m", "its request 250m is above its limit 200m"),
    ("prod/web-7c9f.request=1", "prod/web-7c9f has 2 containers: name one of nginx, metrics"),
    ("prod/web-7c9f/pause.limit=1", "has no limit in this source"),
    ("kubepods.request=1", "has no request"), ("prod/none/x.request=1", "no group prod/none/x"),
    ("prod/web-7c9f/nginx.cpus=1", "cpus is a setting of containers; this source has request,"),
    ("prod/web-7c9f/nginx.request=1e999", "is no amount of CPU"),
    ("prod/web-7c9f/nginx.request=" + "9" * 40, "is no amount of CPU"),
    ("prod/web-7c9f/nginx.request=2000000000", "is above 1000000000 CPUs"),
    ("prod/web-7c9f/nginx.request=\x1b[31m1", "\\x1b[31m1"),
], ids=lambda each: ascii(each)[:30])
def test_bad_requests_of_pods(ctl, word, words):
    """One line names the word, and nothing is planned."""
    out, err = ctl.run("diff", PODS, NODE, "--set", word, status=2)
    assert out == "" and words in err and "\x1b" not in err
    assert err.split("\n")[-2].startswith("arbiterctl: --set ")


def test_pod_level_amounts_bound_their_containers(engine):
    """The containers of a pod request no more than the pod itself, and have no greater limit."""
    found = json.loads(PODS.read_text())
    found["items"][0]["spec"]["resources"] = {"requests": {"cpu": "400m"}, "limits": {"cpu": "2"}}
    files = [("p", json.dumps(found).encode()), ("n", NODE.read_bytes())]
    model = reading.pods(files, None, engine.library)
    after = change.changed(model, ["prod/web-7c9f/nginx.request=300m"])
    # The pod keeps 400m, which are 409 shares; 300m are 307.
    assert (after.groups[WEB].weight, after.groups[f"{WEB}/nginx"].weight) == (16, 12)
    for word, words in (("request=301m", "above the request 400m of the pod itself"),
                        ("limit=2100m", "above the limit 2000m of the pod itself")):
        with pytest.raises(UsageFault, match=words):
            change.changed(model, [f"prod/web-7c9f/nginx.{word}"])


def test_a_source_without_such_settings(ctl, folder):
    """A script has no requests."""
    (folder / "s").write_text("# arbiter run --processors 1\nmkdir a\n")
    _, err = ctl.run("diff", folder / "s", "--set", "a.request=1", status=2)
    assert "request is a setting of pods, which this source has none of" in err


def test_the_one_container_of_a_pod(ctl):
    """A pod of one container stands for it."""
    found = groups_of(ctl, PODS, NODE, "--set", "prod/db-0.limit=1500m", "--set",
                      "prod/db-0.request=1500m")
    assert found["kubepods/prod:db-0/postgres"]["max"] == "150000 100000"
    by, _ = needed(ctl, "batch/report-x", "500m", PODS, NODE)
    assert by["request"]["least"] == "233m"


# need

def two_pods(folder, limit=None, allocatable="2"):
    """Two burstable pods of 100m and 300m on a node of 2 CPUs, by default all for pods."""
    def pod(name, request):
        resources = {"requests": {"cpu": request}, **({"limits": {"cpu": limit}} if limit else {})}
        return {"kind": "Pod", "metadata": {"name": name, "namespace": "x", "uid": name},
                "spec": {"containers": [{"name": "c", "resources": resources}]}}

    node = {"kind": "Node", "metadata": {"name": "n"},
            "status": {"capacity": {"cpu": "2"}, "allocatable": {"cpu": allocatable}}}
    (folder / "n.json").write_text(json.dumps({"kind": "List", "items": [
        pod("a", "100m"), pod("b", "300m"), node]}))
    return folder / "n.json"


def needed(ctl, *words):
    """The settings of people alone in the answer of `tune`, by name, and what the group gets, with
    slices of 10m."""
    group, amount, *source = words
    ended = ctl.ended("tune", *source, "--goal", f"{group}={amount}", "--want", "busy", "--period",
                      "100ms", "-o", "json")
    found = json.loads(ended.stdout)
    return ({each["name"]: each for each in found["alone"] if each["owned"]},
            found["goals"][0]["now_millicpu"])


def test_the_least_request(ctl, folder):
    """Pods of weights w and 12 share 200 slices: w = 12 gives 100, which 285m are and 284m not.

    285m are 291 shares: 1 + 289 * 9999 / 262142 = 12.02. 284m are 290: 11.98.
    """
    by, gets = needed(ctl, "x/a/c", "1cpu", two_pods(folder))
    assert gets == 500
    assert (by["request"]["now"], by["request"]["least"], by["request"]["told"]) == (
        "100m", "285m", "")
    assert by["request"]["pays"] == [{"group": "kubepods/burstable/x:b/c", "millicpu": 500}]
    out, _ = ctl.run("tune", folder / "n.json", "--goal", "x/a/c=1cpu", "--want", "busy")
    # The weight of the one container of a pod decides nothing.
    assert "no weight reaches it" in out
    assert "\nrequest          100m   285m  kubepods/burstable/x:b/c -0.500\n" in out


def test_a_request_that_the_node_has_not(ctl, folder):
    """180 of 200 slices take a weight of 106, 2691m. The node has 1700m left."""
    by, _ = needed(ctl, "x/a/c", "1.8cpu", two_pods(folder))
    assert by["request"]["least"] is None and by["request"]["pays"] == []
    out, _ = ctl.run("tune", folder / "n.json", "--goal", "x/a/c=1.8cpu", "--want", "busy")
    assert "no request reaches it (1700m is all that the node has left)" in out


def test_a_request_up_to_the_limit(ctl, folder):
    """Requests end at the limit of the container."""
    by, _ = needed(ctl, "x/a/c", "1cpu", two_pods(folder, "300m"))
    assert by["request"]["least"] is None
    by, _ = needed(ctl, "x/a/c", "300m", two_pods(folder, "300m"))
    assert by["request"]["least"] == "0m"


def test_a_node_with_more_requests_than_it_has(ctl, folder):
    """400m of 300m are requested: no greater request is asked for, and a limit may be."""
    by, _ = needed(ctl, "x/a/c", "600m", two_pods(folder, "300m", "300m"))
    assert (by["request"]["least"], by["request"]["told"]) == (
        None, "100m is all that the node has left")
    assert (by["limit"]["now"], by["limit"]["least"]) == ("300m", "600m")


def test_a_request_that_makes_a_pod_burstable(ctl):
    """300 slices go to pods of weights 14, 34 and w: 10 gives 52, and 9 gives 47.

    233m are 238 shares: 1 + 236 * 9999 / 262142 = 10.002. 232m are 237: 9.96.
    """
    by, gets = needed(ctl, "batch/report-x/report", "500m", PODS, NODE)
    assert gets == 60
    assert by["request"]["least"] == "233m" and "no more BestEffort" in by["request"]["told"]


@pytest.mark.parametrize("amount", ["200m", "350m", "600m", "800m"])
def test_one_thousandth_less_does_not_reach(ctl, amount):
    """Against the plans of the edited requests."""
    by, _ = needed(ctl, "prod/web-7c9f/nginx", amount, PODS, NODE)
    least = by["request"]["least"]
    asked = int(amount[:-1])

    def gets(request):
        out, _ = ctl.run("diff", PODS, NODE, "--want", "busy", "--period", "100ms", "-o", "json",
                         "--set", f"prod/web-7c9f/nginx.request={request}m")
        (found,) = [each["gets"]["millicpu"] for each in json.loads(out)["after"]["groups"]
                    if each["group"] == f"{WEB}/nginx"]
        return found

    if least is None:
        assert gets(550) < asked
    else:
        assert gets(int(least[:-1])) >= asked
        assert least == "0m" or gets(int(least[:-1]) - 1) < asked


def test_the_limit_of_a_container_is_that_of_its_pod_too(ctl):
    """app needs a limit of 900m for 900m: its pod has none, since envoy has none.

    nginx with 3000m and metrics with 200m are 3200m for their pod.
    """
    by, gets = needed(ctl, "prod/proxy-1/app", "900m", PODS, NODE)
    assert (by["limit"]["now"], by["limit"]["least"]) == ("500m", "900m")
    out, _ = ctl.run("diff", PODS, NODE, "--set", "prod/web-7c9f/nginx.limit=3", "-o", "json")
    pod = [each for each in json.loads(out)["after"]["groups"] if each["group"] == WEB]
    assert pod[0]["quota_usec"] == 320000 and gets == 500


AMOUNTS = st.none() | st.integers(0, 120)


@st.composite
def nodes(draw):
    """The JSON of a node of 200m to 400m with three pods of one or two containers."""
    def container(name):
        request, limit = draw(AMOUNTS), draw(AMOUNTS)
        if request is not None and limit is not None:
            request, limit = min(request, limit), max(request, limit)
        memory = draw(st.sampled_from([{}, {"memory": "1Gi"}]))
        cpu = {key: {"cpu": f"{value}m", **memory} for key, value in
               (("requests", request), ("limits", limit)) if value is not None}
        return {"name": name, "resources": cpu}

    pods = [{"kind": "Pod", "metadata": {"name": f"p{number}", "namespace": "x"},
             "spec": {"containers": [container(name) for name in "ab"[:draw(st.integers(1, 2))]]}}
            for number in range(3)]
    allocatable = draw(st.integers(200, 400))
    node = {"kind": "Node", "metadata": {"name": "n"},
            "status": {"capacity": {"cpu": "1"}, "allocatable": {"cpu": f"{allocatable}m"}}}
    return json.dumps({"kind": "List", "items": [*pods, node]}).encode()


@settings(max_examples=cases(8), deadline=None,
          suppress_health_check=[HealthCheck.function_scoped_fixture])
@given(data=nodes(), slices=st.integers(1, 60).map(lambda each: 10 * each))
def test_no_lesser_request_reaches(engine, data, slices):
    """Of the requests and limits that can be asked for the least that reaches is found, over all
    classes: those just below it, and each third of the lesser ones, do not reach."""
    model = reading.pods([("p", data)], None, engine.library, want="busy")
    path = next(path for path in model.groups if model.owned.has(path))
    row = list(model.groups).index(path) + 1

    def gets(key, value):
        setting = Setting(path, key, f"{value}m")
        return plan(engine, remade(model, model.owned, [setting])).groups[row].gets

    before = plan(engine, model)
    goals = Goals(before, goals_of(before, [f"{path}={slices}m"]), False)
    found = [single for single in single_settings.each_of(goals) if single.is_owned]
    for of, single in zip(model.owned.ranges(path), found, strict=True):
        values = range(of.parts[0][0], of.parts[-1][1] + 1) if of.parts else ()
        if single.least is None:
            assert all(gets(of.key, value) < slices for value in values[::9])
        else:
            least = int(single.least[:-1])
            assert gets(of.key, least) >= slices and least in values
            lesser = range(values[0], least)
            assert all(gets(of.key, value) < slices for value in {*lesser[::3], *lesser[-20:]})


# systemd and docker

def of(group):
    """Weight, quota and period of a group."""
    return group.weight, group.quota, group.period


@pytest.mark.parametrize("words, wanted", [
    (["CPUWeight=300"], (300, 50000, 100000)), (["CPUWeight=idle"], (1, 50000, 100000)),
    (["CPUWeight="], (100, 50000, 100000)), (["CPUQuota=12.5%"], (200, 12500, 100000)),
    # 5 ms of a second are 1 ms in 200 ms: systemd takes the longer period.
    (["CPUQuota=0.5%"], (200, 1000, 200000)), (["CPUQuota=0.3%"], (200, 1000, 333333)),
    (["CPUQuota=0.03%"], (200, 1000, 1000000)), (["CPUQuota=infinity"], (200, None, 100000)),
    (["CPUQuota=350%", "CPUWeight=1"], (1, 350000, 100000)),
])
def test_units(words, wanted):
    """Properties of ssh.service, which has weight 200 and half a CPU."""
    model = reading.units([("u", (FIXTURES / "units.show").read_bytes())], EIGHT)
    after = change.changed(model, [f"ssh.service.{word}" for word in words])
    assert of(after.groups["system.slice/ssh.service"]) == wanted
    assert of(model.groups["system.slice/ssh.service"]) == (200, 50000, 100000)


@pytest.mark.parametrize("word", [
    "CPUWeight=0", "CPUWeight=10001", "CPUWeight=1.5", "CPUWeight=\u0661", "CPUQuota=0%",
    "CPUQuota=50", "CPUQuota=-5%", "CPUQuota=12.345%", "CPUQuota=1e3%", "CPUQuota=9999999999%",
    "request=1", "CPUWeight=" + "9" * 5000,
], ids=lambda each: ascii(each)[:30])
def test_bad_settings_of_units(word):
    model = reading.units([("u", (FIXTURES / "units.show").read_bytes())], EIGHT)
    with pytest.raises(UsageFault, match="^--set "):
        change.changed(model, [f"ssh.service.{word}"])


def test_what_a_unit_needs(ctl):
    """800m are 80% of a CPU, and 79.99% are a slice less. The weight is not in the way."""
    by, _ = needed(ctl, "ssh.service", "800m", FIXTURES / "units.show", "--cpus", "8")
    assert (by["CPUQuota"]["now"], by["CPUQuota"]["least"]) == ("50%", "80%")
    assert (by["CPUWeight"]["now"], by["CPUWeight"]["least"]) == ("200", None)


@pytest.fixture
def containers(engine):
    """A host of containers."""
    data = (FIXTURES / "docker.json").read_bytes()
    return reading.docker([("d", data)], EIGHT, engine.library)


@pytest.mark.parametrize("words, wanted", [
    (["cpus=2.5"], (79, 250000, 100000)), (["cpus=0"], (79, None, 100000)),
    # 512 shares: 1 + 510 * 9999 / 262142 = 20.4.
    (["cpu-shares=512"], (20, 150000, 100000)), (["cpu-shares=0"], (100, 150000, 100000)),
    (["cpus=125m", "cpu-shares=2"], (1, 12500, 100000)),
])
def test_docker(containers, words, wanted):
    """Options of web, which has 2048 shares and 1.5 CPUs."""
    after = change.changed(containers, [f"system.slice/web.{word}" for word in words])
    assert of(after.groups["system.slice/web"]) == wanted


def test_cpus_stand_in_place_of_a_quota(containers):
    """db has 20 ms of 50 ms; `--cpus` is half of 100 ms."""
    after = change.changed(containers, ["system.slice/db.cpus=0.5"])
    assert of(after.groups["system.slice/db"]) == (100, 50000, 100000)


@pytest.mark.parametrize("word", [
    "cpus=8.01", "cpus=0.009", "cpus=-1", "cpus=x", "cpus=0.0000000001", "cpu-shares=1",
    "cpu-shares=262145", "cpu-shares=2.5", "cpu-shares=-1", "CPUQuota=5%",
])
def test_bad_settings_of_containers(containers, word):
    with pytest.raises(UsageFault, match="^--set "):
        change.changed(containers, [f"system.slice/web.{word}"])


def test_what_a_container_needs(ctl):
    """Its 1.5 CPUs are in the way of 1.8, and shares are not."""
    by, _ = needed(ctl, "system.slice/web", "1800m", FIXTURES / "docker.json", "--cpus", "8")
    assert (by["cpus"]["now"], by["cpus"]["least"]) == ("1.5", "1.8")
    assert (by["cpu-shares"]["now"], by["cpu-shares"]["least"]) == ("2048", None)


# fleets

def test_a_fleet_takes_requests(ctl, folder):
    """A host with the container changes, and a host without it stays."""
    both = {"kind": "List", "items": [*json.loads(PODS.read_text())["items"],
                                      json.loads(NODE.read_text())]}
    (folder / "h").mkdir()
    (folder / "h/n1.json").write_text(json.dumps(both))
    other = copy.deepcopy(both)
    other["items"] = [each for each in other["items"] if each["metadata"]["name"] != "web-7c9f"]
    (folder / "h/n2.json").write_text(json.dumps(other))
    words = ("--set", "prod/web-7c9f/nginx.request=1cpu", "--want", "busy", "-o", "json")
    one, two = json.loads(ctl.run("diff", folder / "h", "--workers", "0", *words)[0])["hosts"]
    whole = json.loads(ctl.run("diff", PODS, NODE, *words)[0])
    rise = [each["change_millicpu"] for each in whole["changed"]
            if each["group"] == f"{WEB}/nginx"]
    assert [each for path, each in one["gains"] if path == f"{WEB}/nginx"] == rise
    assert (one["matched"], two["matched"], two["changes"][0][0]) == (1, 0, 0)


def test_a_class_that_changes_in_a_fleet(ctl, folder):
    """The pod has another path after the change, and its row is the same."""
    both = {"kind": "List", "items": [*json.loads(PODS.read_text())["items"],
                                      json.loads(NODE.read_text())]}
    (folder / "h").mkdir()
    (folder / "h/n1.json").write_text(json.dumps(both))
    found = json.loads(ctl.run("diff", folder / "h", "--set", "batch/report-x/report.request=233m",
                               "--want", "busy", "--workers", "0", "-o", "json")[0])
    # By hundredths of a CPU it has 52 and not 6.
    gains = dict(found["hosts"][0]["gains"])
    assert abs(gains["kubepods/besteffort/batch:report-x/report"] - 460) <= 10


# Units in a tree of cgroups


def unit_tree(folder):
    """Two units on one level, of which one has a group of its own below it."""
    trees.root2(folder / "t")
    trees.group2(folder / "t/a.service", maximum="10000 50000", burst=4000)
    trees.group2(folder / "t/b.service", weight=200)
    trees.group2(folder / "t/b.service/init.scope")
    trees.group2(folder / "t/plain")
    return folder / "t"


def of_tree(ctl, folder, *changes):
    """The groups of the tree with changes, and what is told."""
    sets = [word for each in changes for word in ("--set", each)]
    out, err = ctl.run("export", unit_tree(folder), "--read", "2x1ms", *sets, "-o", "json")
    return json.loads(out)["groups"], err


@pytest.mark.parametrize("change_, wanted", [
    ("a.service.CPUWeight=300", (300, "10000 50000")), ("a.service.CPUWeight=none", (100, None)),
    # 50% are 25 ms of the unit's own period of 50 ms.
    ("a.service.CPUQuota=50%", (100, "25000 50000")), ("a.service.CPUQuota=", (100, "max 50000")),
])
def test_units_of_a_tree(ctl, folder, change_, wanted):
    """A weight and a quota as systemd writes them, with the period and the burst that stand."""
    found, _ = of_tree(ctl, folder, change_)
    weight, maximum = wanted
    group = found["a.service"]
    assert group.get("weight", 100) == weight
    assert group.get("max", "") == ("10000 50000" if maximum is None else maximum)
    assert found["b.service"]["weight"] == 200


def test_an_idle_unit_of_a_tree(ctl, folder):
    found, err = of_tree(ctl, folder, "b.service.CPUWeight=idle")
    assert found["b.service"]["weight"] == 1 and "idle: weight 1 is taken" in err


@pytest.mark.parametrize("change_, words", [
    ("b.service/init.scope.CPUWeight=300", "has no CPUWeight in this source"),
    ("plain.CPUQuota=50%", "has no CPUQuota in this source"),
    ("a.service.CPUWeight=0", "not 1 to 10000"), ("a.service.CPUQuota=5", "not a percentage"),
    ("a.service.CPUQuota=2%", "below the burst 4000"),
    ("a.service.request=5m", "this source has CPUWeight, CPUQuota"),
])
def test_what_units_of_a_tree_have_not(ctl, folder, change_, words):
    """What is below a service is that service's, and a folder of another name is no unit."""
    _, err = ctl.run("export", unit_tree(folder), "--read", "2x1ms", "--set", change_, status=2)
    assert words in err and err.count("\n") == 1


def test_the_least_weight_of_a_unit_of_a_tree(ctl, folder):
    """100 slices: b's slice 41 costs 81/200, and a's slice 60 119/w: 294, without its limit."""
    words = (unit_tree(folder), "--cpus", "1", "--scale", "plain=0")
    (folder / "t/a.service/cpu.max").write_text("max 50000\n")
    shutil.rmtree(folder / "t/b.service/init.scope")
    by, _ = needed(ctl, "a.service", "600m", *words)
    assert (by["CPUWeight"]["now"], by["CPUWeight"]["least"]) == ("100", "294")
    assert by["CPUQuota"]["now"] == "-"


# The host

@pytest.mark.parametrize("words, host", [
    ([".cpus=2"], Host(2, 100000, 1000)), ([".period=1s", ".slice=5ms"], Host(8, 1000000, 5000)),
])
def test_another_host(engine, words, host):
    """What is busy asks for all CPUs of the new host; weights and limits stay."""
    data = (FIXTURES / "docker.json").read_bytes()
    model = reading.docker([("d", data)], EIGHT, engine.library, want="busy")
    after = change.changed(model, [*words, "system.slice/web.cpu-shares=512"])
    assert after.host == host and of(after.groups["system.slice/web"]) == (20, 150000, 100000)
    assert after.groups["system.slice/web"].demand == 1000 * host.processors
    for word in (".cpus=x", ".cpus=0", ".slice=3ms"):
        with pytest.raises(HostFault) as fault:
            change.changed(model, [word])
        assert fault.value.status == 2
