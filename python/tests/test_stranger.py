"""Input of a stranger, each once a figure without a word or an error that did not help."""
import json

import pytest
import reading
from arbiter import Host
from arbiter_host.base.faults import HostFault
from arbiter_host.sources import kubernetes, load, usage
from arbiter_host.sources.data import loads
from test_figures import items, node, pod

FOUR = Host(4, 1000000, 1000)


def notes_of(calls, *each, host=FOUR, name="p"):
    return reading.pods([(name, items(*each))], host, calls).notes


def test_a_part_of_a_cpu_of_a_node_is_told(calls):
    """A node of 15.8 CPUs is planned with 15, and says so. One of whole CPUs says nothing."""
    one, two = (node(16, 15000) for _ in "12")
    one["status"]["capacity"]["cpu"] = "15800m"
    words = "the node has 15800m: the plan is of its 15 whole CPUs"
    assert words in notes_of(calls, one, pod("a"), host=None)
    assert not any("whole CPUs" in each for each in notes_of(calls, two, pod("a"), host=None))


def test_pods_of_another_node(calls):
    """They are not ended."""
    far = pod("a")
    far["spec"]["nodeName"] = "n2"
    notes = notes_of(calls, node(4, 4000), far, far | {"metadata": {"name": "b"}})
    assert notes == ["none of the pods is of the node n1: pods of others: 2"]
    assert not any("none of" in each for each in notes_of(calls, node(4, 4000), far, pod("b")))


@pytest.mark.parametrize("replicas, is_told", [(3, True), (0, True), (1, False), (None, False)])
def test_replicas_that_are_left_out(calls, replicas, is_told):
    made = {"kind": "Deployment", "metadata": {"namespace": "n", "name": "web"},
            "spec": {"template": {"spec": {"containers": [{"name": "c"}]}}}}
    if replicas is not None:
        made["spec"]["replicas"] = replicas
    notes = reading.pods([("d", json.dumps(made).encode())], FOUR, calls).notes
    words = f"replicas {replicas}: the plan is of one pod (`place` takes all)"
    assert (words in notes) == is_told


@pytest.mark.parametrize("own, asked, is_told", [("2", "500m", True), ("500m", "500m", False),
                                                 ("2", None, True), (None, "500m", False)])
def test_what_a_pod_requests_itself(calls, own, asked, is_told):
    """Its containers ask for what they request. The rest is in no demand, and that is told."""
    one = pod("a", (asked, None))
    if own:
        one["spec"]["resources"] = {"requests": {"cpu": own}}
    notes = notes_of(calls, node(4, 4000), one)
    words = f"n/a: it requests 2000m itself, and its containers {asked or '0m'}: no demand has the"
    assert any(each.startswith(words) for each in notes) == is_told


@pytest.mark.parametrize("text, words", [
    (b"apiVersion: v1\nitems: []\n", "YAML: kubectl prints JSON by -o json"),
    (b"\xef\xbb\xbfkind: List\n", "YAML: kubectl prints JSON by -o json"),
    (b"NAME   READY   STATUS\nweb-0  1/1  Running\n", "a table: kubectl prints JSON by -o json"),
    (b"NAMESPACE NAME READY\n", "a table: kubectl prints JSON by -o json"),
    (b"CONTAINER ID   IMAGE\n", "a table: docker inspect $(docker ps -q) prints JSON"),
    (b"services:\n  web:\n", "YAML of compose: docker inspect $(docker compose ps -q) prints JSON"),
    (b"[Unit]\n", "a unit's file: systemctl show '*.slice' '*.service' '*.scope' prints what"
                  " holds"),
    (b"[Service]\nCPUQuota=50%\n", "a unit's file: systemctl show '*.slice' '*.service' '*.scope'"
                                   " prints what holds"),
    (b"    JOBID PARTITION NAME\n", "a table: squeue --json prints JSON"),
    (b"JobId=12 JobName=a\n", "words of scontrol: squeue --json prints JSON"),
    (b"JobID    JobName\n------- -----\n",
     "a table: sacct -P prints columns that can be told apart"),
    (b"", "it is empty"), (b" \r\n\n", "it is empty")])
def test_texts_that_are_taken_for_a_source(text, words):
    with pytest.raises(HostFault) as fault:
        load.kind_of("-", text)
    assert fault.value.message == f"-: {words}"


@pytest.mark.parametrize("path, text, kind", [
    ("x.script", b"", "script"), ("x", b"mkdir a\n", "script"), ("x", b"# nothing\n", "script"),
    ("x.toml", b"", "toml"), ("x", b'{"kind": "Rollout", "apiVersion": "argoproj.io/v1"}',
                              "kubernetes")])
def test_other_texts_are_known_as_before(path, text, kind):
    assert load.kind_of(path, text) == kind


def test_a_kind_that_makes_no_pods():
    """It is an object of Kubernetes, and no host file."""
    with pytest.raises(HostFault, match="^F: no pods or node as kubectl prints them with -o json"):
        reading.pods([("F", b'{"kind": "Rollout", "apiVersion": "argoproj.io/v1"}')], FOUR, None)


def test_two_values_in_one_file():
    """As two commands write them that append to one file."""
    with pytest.raises(HostFault, match="^F:2: no JSON: a second value begins here: each is a file"
                                        " of its own$"):
        loads(b'{"kind": "List"}\n{"kind": "Node"}\n', "F")


def test_a_list_of_jobs_in_one_row_waits():
    """sacct has all tasks of an array that wait in one row."""
    head = "JobID|JobName|User|State|AllocCPUS|Elapsed|TotalCPU\n"
    rows = ("15_[1-9]|a|al|PENDING|1|00:00:00|00:00:00\n15_1|a|al|RUNNING|1|00:10:00|00:05:00\n"
            "14+1|h|al|RUNNING|2|00:10:00|00:20:00\n")
    model = reading.jobs([("S", (head + rows).encode())], FOUR)
    assert {each.title or each.path: each.demand for each in model.groups.values()
            if each.demand} == {"al/a/15_1": 500, "al/h/14+1": 2000}
    with pytest.raises(HostFault, match=r"^S:2: '15_\[1-9\]' is no JobID$"):
        reading.jobs([("S", (head + rows.replace("PENDING", "RUNNING")).encode())], FOUR)


@pytest.mark.parametrize("value, is_told", [
    ("150", True), ('"150"', True), ("4.5", True), ("4", False), ('"150m"', False),
    ('"150cpu"', False)])
@pytest.mark.parametrize("key", ["demand", "max"])
def test_an_amount_without_a_unit(key, value, is_told):
    """It is CPUs. Where the host has fewer, who writes it may mean thousandths."""
    text = f"[host]\ncpus = 4\n[groups.a]\n{key} = {value}\n"
    words = value.strip('"')
    told = [f"a: {key} {words}: that many CPUs, of which the host has 4 (thousandths are {words}m)"]
    assert reading.host_file(text.encode()).notes == (told if is_told else [])


@pytest.mark.parametrize("data, words", [
    (b'{"name": "p", "services": {"web": {}}}', "a file of compose: docker inspect $(docker compose"
                                                " ps -q) prints its containers"),
    (b'[{"ID": "x", "Spec": {}}]', "a host file is a table with host and groups, and a container of"
                                   " `docker inspect` has HostConfig: this has neither")])
def test_json_of_docker_that_is_no_container(data, words):
    with pytest.raises(HostFault) as fault:
        reading.host_file(data, kind="json")
    assert fault.value.message == f"F: {words}"


def test_lines_of_json_are_no_file():
    """As `docker ps --format json` prints them."""
    with pytest.raises(HostFault, match="^F:2: a second value begins here: each is a file of its"):
        reading.host_file(b'{"ID": "1"}\n{"ID": "2"}\n', kind="json")


def test_a_refusal_of_the_api_server():
    status = {"kind": "Status", "apiVersion": "v1", "message": "pods is forbidden"}
    with pytest.raises(HostFault, match="^F: the API server refused it: pods is forbidden$"):
        reading.pods([("F", json.dumps(status).encode())], FOUR, None)


def test_settings_of_docker_that_are_left_out():
    """Of Windows, and of real-time tasks."""
    raw = {"Id": "1" * 64, "Name": "/a",
           "HostConfig": {"CpuCount": 2, "CpuPercent": 0, "CpuRealtimeRuntime": 950000}}
    notes = reading.docker([("d", json.dumps([raw]).encode())], FOUR, None).notes
    assert notes == ["system.slice/a: CpuCount 2, CpuRealtimeRuntime 950000: left out"]


@pytest.mark.parametrize("kind, key", [("Job", "parallelism"), ("CronJob", "parallelism"),
                                       ("StatefulSet", "replicas")])
def test_what_makes_pods(kind, key):
    """A Job makes as many at once as its parallelism says, and a CronJob makes Jobs."""
    spec = {key: 3, "template": {"spec": {"containers": [
        {"name": "c", "resources": {"requests": {"cpu": "100m"}}}]}}}
    made = {"kind": kind, "metadata": {"namespace": "n", "name": "m"},
            "spec": {"jobTemplate": {"spec": spec}} if kind == "CronJob" else spec}
    data = json.dumps(made).encode()
    model = reading.pods([("F", data)], FOUR, None)
    assert model.groups["kubepods/burstable/n:m/c"].demand == 100
    assert "replicas 3: the plan is of one pod (`place` takes all)" in model.notes
    assert kubernetes.replicas_in("F", data) == 3 and load.kind_of("F", data) == "kubernetes"


def test_a_node_that_is_asked_for_more_than_it_has():
    """The scheduler puts no such pods there, so the pods are not those of the node."""
    for asked, is_told in (("2000m", False), ("2001m", True)):
        notes = reading.pods([("p", items(node(4, 4000), pod("a", ("2", None)),
                                          pod("b", (asked, None))))], FOUR, None).notes
        assert notes == ["the pods request 4001m of the 4000m that the node has for them: the"
                         " scheduler puts no such pods there"] * is_told


def test_pods_and_nodes_that_may_go():
    """A pod that is deleted, and a node whose kubelet does not answer."""
    one, two = node(4, 4000), pod("a", ("1", None))
    one["status"]["conditions"] = [{"type": "MemoryPressure", "status": "False"},
                                   {"type": "Ready", "status": "Unknown"}]
    two["metadata"]["deletionTimestamp"] = "2026-01-01T00:00:00Z"
    assert reading.pods([("p", items(one, two))], FOUR, None).notes == [
        "pods that are deleted and have not ended: 1: they count until then",
        "the node is not ready: its pods may have ended since"]


def test_an_answer_of_prometheus_in_a_file():
    data = {"status": "success", "data": {"resultType": "matrix", "result": []}}
    with pytest.raises(HostFault, match="^F: an answer of a Prometheus, whose address --used"):
        usage.read(json.dumps(data).encode(), "F")


def test_samples_without_a_number_are_told(ctl, folder):
    """A cell that is empty, or that Grafana could not fill, asks for nothing: it is counted."""
    (folder / "h.toml").write_text('[groups.a]\n[groups.b]\n[groups.c]\n')
    (folder / "h.csv").write_text("time,a,b,c\n1,0.4,1,1\n2,NaN,,1\n3,,1,1\n")
    out, err = ctl.run("replay", folder / "h.toml", "--used", folder / "h.csv", "-o", "json")
    assert err == (f"arbiterctl: warning: {folder}/h.csv: without a number, which counts as 0, 2: a"
                   " in 2 of 3, b in 1 of 3\n")
    asked = {each["group"]: each["wants"] for each in json.loads(out)["records"][:3]}
    assert len(asked) == 3
