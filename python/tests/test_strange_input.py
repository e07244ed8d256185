"""Input that others have: each was once a wrong figure without a word."""
import json

import pytest
import reading
import trees
from arbiter import Host
from arbiter_host.base import output
from arbiter_host.base.faults import HostFault
from arbiter_host.sources import prometheus, samples, web
from test_figures import items, node, pod

FOUR = Host(4, 1000000, 1000)


def with_state(kind, *states, init=(), **spec):
    """A pod of 100m and containers in some states; before them init containers of 2 CPUs."""
    found = pod("a", *[("100m", None)] * len(states))
    found["spec"] |= spec
    found["spec"]["initContainers"] = [
        {"name": f"i{at}", "resources": {"requests": {"cpu": "2"}}} for at, _ in enumerate(init)]
    for letter, key, each in (("c", "containerStatuses", states),
                              ("i", "initContainerStatuses", init)):
        found["status"][key] = [{"name": f"{letter}{at}", "state": state}
                                for at, state in enumerate(each)]
    found["status"]["phase"] = kind
    return found


RUNS, WAITS = {"running": {}}, {"waiting": {"reason": "CrashLoopBackOff"}}
ENDED = {"terminated": {"exitCode": 0}}


def demands_of(calls, *each):
    model = reading.pods([("p", items(node(4, 3900), *each))], FOUR, calls)
    return {group.path.rpartition("/")[2]: group.demand for group in model.groups.values()
            if group.demand}, model.notes


def test_containers_wait_for_an_init_container(calls):
    """It runs alone: the pod requests 2000m, and nothing beside it."""
    pod_ = with_state("Pending", {"waiting": {"reason": "PodInitializing"}}, {}, init=[RUNS])
    assert demands_of(calls, pod_) == ({"i0": 2000}, [])
    pod_ = with_state("Running", RUNS, RUNS, init=[ENDED])
    assert demands_of(calls, pod_) == ({"c0": 100, "c1": 100}, [])


def test_a_container_that_waits_is_told(calls):
    found, notes = demands_of(calls, with_state("Running", RUNS, WAITS))
    assert found == {"c0": 100, "c1": 100}
    assert notes == ["n/a/c1: it waits (CrashLoopBackOff), and counts as if it ran"]


@pytest.mark.parametrize("policy, wanted", [
    ("Never", {"c1": 100}), ("OnFailure", {"c1": 100}), ("Always", {"c0": 100, "c1": 100})])
def test_a_policy_of_a_container_itself(calls, policy, wanted):
    """It goes before that of its pod."""
    pod_ = with_state("Running", ENDED, RUNS, restartPolicy="Always")
    pod_["spec"]["containers"][0]["restartPolicy"] = policy
    assert demands_of(calls, pod_)[0] == wanted


def test_what_is_given_twice_is_no_second_pod(calls):
    with pytest.raises(HostFault, match="^n/a: 2 pods of this name: is a file given twice.$"):
        demands_of(calls, pod("a", ("1", None)), pod("b"), pod("a", ("1", None)))
    raw = {"Id": "1" * 64, "Name": "/a", "State": {"Running": True}, "HostConfig": {}}
    files = [(name, json.dumps([raw]).encode()) for name in "xy"]
    with pytest.raises(HostFault, match="^1{64}: 2 containers of this identifier: is a file"):
        reading.docker(files, FOUR, calls)
    assert len(reading.docker(files[:1], FOUR, calls).groups) == 2


def test_a_node_of_windows_is_told(calls):
    windows = node(4, 3900)
    for system, is_told in (("windows", True), ("linux", False)):
        windows["status"]["nodeInfo"] = {"operatingSystem": system}
        model = reading.pods([("p", items(windows, pod("a"), pod("b", namespace="m")))], FOUR,
                             calls)
        assert ("the node runs windows, which has no cgroups: weights and limits here are those of"
                " Linux" in model.notes) == is_told


def test_pods_of_podman_are_told(calls):
    """Settings of a pod itself stand in no container."""
    raw = [{"Id": letter * 64, "Name": letter, "Pod": of, "HostConfig": {}, "OCIRuntime": "crun"}
           for letter, of in (("1", "f" * 64), ("2", "f" * 64), ("3", ""))]
    notes = reading.docker([("d", json.dumps(raw).encode())], FOUR, calls).notes
    assert notes == ["containers of pods of podman: 2: limits and weights of the pods themselves"
                     " are not told here"]


UNIT = "ControlGroup=/{0}.slice\nId={0}.slice\nCPUWeight={1}\n"


def test_the_first_unit_behind_a_byte_order_mark():
    model = reading.units([("u", ("\ufeff" + UNIT.format("a", 300)).encode())], FOUR)
    assert model.groups["a.slice"].weight == 300 and model.notes == []


def test_units_without_a_line_between_them():
    text = UNIT.format("a", 300) + UNIT.format("b", 5)
    with pytest.raises(HostFault, match="units /a.slice and /b.slice: no empty line is between"):
        reading.units([("u", text.encode())], FOUR)


def test_two_units_of_one_group():
    def read(weight):
        text = UNIT.format("a", 300) + "\n" + UNIT.format("a", weight) + "CPUUsageNSec=5\n"
        return reading.units([("u", text.encode())], FOUR).groups["a.slice"].weight

    assert read(300) == 300
    with pytest.raises(HostFault, match="/a.slice: two units of this group differ in CPUWeight"):
        read(5)


def test_tasks_beside_the_groups_below_are_told(ctl, folder):
    """A threaded group may have threads of its own, which take CPU from those below it."""
    trees.root2(folder / "t")
    for name in ("a", "a/x", "b", "b/x"):
        trees.group2(folder / "t" / name)
        (folder / "t" / name / "cgroup.type").write_text("domain threaded\n")
    (folder / "t/a/cgroup.threads").write_text("7\n8\n")
    (folder / "t/b/cgroup.threads").write_text("")
    _, err = ctl.run("explain", folder / "t", "--cpus", "4", "--want", "busy")
    assert "a: tasks of its own, as a threaded group may have them beside the groups below" in err
    assert "b: tasks of its own" not in err


@pytest.mark.parametrize("times, words", [
    (["1767607200", "1767607200"], "F:3: two rows of 2026-01-05 10:00:00"),
    (["2026-01-05T10:00:00Z", "2026-01-05T10:01:00Z", "2026-01-05T10:00:00Z"],
     "F:4: two rows of 2026-01-05T10:00:00Z"),
    (["1767607260", "1767607200"], "F:3: 2026-01-05 10:00:00 is before 2026-01-05 10:01:00, and"),
    # Times without seconds may come twice. Those that go back once are of a clock that was set.
    (["10:00", "10:00"], ""), (["2026-01-05 10:00", "2026-01-05 10:00"], ""),
    (["2026-10-25 02:59:00", "2026-10-25 02:00:00", "2026-10-25 02:01:00"], ""),
])
def test_times_that_come_twice_or_go_back(times, words):
    data = ("time,web\n" + "".join(f"{each},1\n" for each in times)).encode()
    if not words:
        assert len(samples.read_csv(data, "F").samples) == len(times)
        return
    with pytest.raises(HostFault) as fault:
        samples.read_csv(data, "F")
    assert fault.value.message.startswith(words)


def test_a_server_that_answers_in_part_is_told(monkeypatch):
    """Thanos leaves out stores that do not answer, and warns of it."""
    told = []
    monkeypatch.setattr(web, "fetched", lambda _: {
        "status": "success", "warnings": ["store s1 is down\x1b[2J"] * 9, "data": {"result": []}})
    monkeypatch.setattr(output, "warn", lambda *notes: told.extend(notes))
    prometheus.of_range("http://h", "q", prometheus.QueryRange("1", "2", 60), prometheus.series_of)
    assert told == ["http://h: store s1 is down\\x1b[2J"] * 5


def test_a_part_that_is_no_amount_is_no_part_of_a_sum():
    """It was left out of the sum of a container's CPUs. Now its series is refused by name."""
    parts = [prometheus.Metric({"pod": "p", "cpu": cpu}, {1.0: word, 2.0: "0.5"})
             for cpu, word in (("cpu00", "0.25"), ("cpu01", "+Inf"))]
    with pytest.raises(HostFault, match="p used .Inf: no amount of CPU"):
        prometheus.history_of(parts, "u")


# Lists in lists, and amounts that nobody can mean

def listed(*each):
    return {"kind": "List", "apiVersion": "v1", "items": list(each)}


def test_lists_in_a_list_are_one():
    """As `jq -s` puts what kubectl prints in turn, and as an API server has lists of one kind."""
    one, two = node(4, 4000), pod("a", ("1", None))
    bare = {key: each for key, each in two.items() if key != "kind"}
    for content in ([listed(one), listed(two)], [[one], [two]], listed(listed(one), listed(two)),
                    listed({"kind": "NodeList", "items": [one]},
                           {"kind": "PodList", "items": [bare]})):
        model = reading.pods([("p", json.dumps(content).encode())], FOUR, None)
        assert "kubepods/burstable/n:a/c0" in model.groups and model.notes == []
    with pytest.raises(HostFault, match="^p: item 1: item 1 is a list in a list of lists: jq -s "):
        reading.pods([("p", json.dumps([[[two]]]).encode())], FOUR, None)


def test_lists_of_containers_in_a_list():
    """As `jq -s` puts what `docker inspect` prints of one container after the other."""
    raw = [{"Id": name * 64, "Name": f"/{name}", "HostConfig": {}} for name in "12"]
    model = reading.docker([("d", json.dumps([[each] for each in raw]).encode())], FOUR, None)
    assert list(model.groups) == ["system.slice", "system.slice/1", "system.slice/2"]
    with pytest.raises(HostFault, match="^d: no containers as `docker inspect` prints them$"):
        reading.docker([("d", b"[[[]]]")], FOUR, None)


def test_a_list_of_metrics_beside_pods():
    """As metrics-server has it: the items of a list need not say what they are."""
    used = {"kind": "PodMetricsList", "apiVersion": "metrics.k8s.io/v1beta1", "items": [
        {"metadata": {"namespace": "n", "name": "a"},
         "containers": [{"name": "c0", "usage": {"cpu": "123m"}}]}]}
    files = [("p", items(node(4, 4000), pod("a", ("1", None)))), ("m", json.dumps(used).encode())]
    model = reading.pods(files, FOUR, None, want="usage")
    assert model.groups["kubepods/burstable/n:a/c0"].demand == 123


@pytest.mark.parametrize("request_, limit, is_told", [
    ("700m", "500m", True), ("500m", "500m", False), ("501m", "0.5", True), ("1", None, False)])
def test_a_request_above_its_limit(request_, limit, is_told):
    """Kubernetes takes no such pod; a file that a hand wrote may have one."""
    model = reading.pods([("p", items(node(4, 4000), pod("a", (request_, limit))))], FOUR, None)
    words = f"n/a/c0: its request {request_} is above its limit 500m, which Kubernetes refuses"
    assert model.notes == ([words] if is_told else [])


@pytest.mark.parametrize("value", ['"0"', "0", '"0m"', "0.0", '"0%"'])
def test_a_limit_of_nothing(value):
    """Docker has 0 for no limit. Here it would stop the group."""
    with pytest.raises(HostFault, match='^F: a: max: .*0.* would stop it: "max" is no limit$'):
        reading.host_file(f"[groups.a]\nmax = {value}\n".encode())
