"""Use from a real Prometheus over a recorded block, where Debian's package is here; which series
are one use; servers that answer wrongly."""
import csv
import io
import json
import re
import shutil
import socket
import subprocess
import sys
import threading
import time
import urllib.error
import urllib.request
from contextlib import contextmanager, suppress
from fractions import Fraction

import pytest
from arbiter import Host
from arbiter_host.base.faults import HostFault, UsageFault
from arbiter_host.base.names import shown
from arbiter_host.sources import prometheus, web
from hypothesis import given
from hypothesis import strategies as st

from places import PACKAGE

BEGIN, STEP, COUNT = 1767607200, 300, 6
# Seconds of CPU that each pod uses in a step, beginning with the first: half a CPU, then two.
USED = {"web": (150, 150, 600, 600, 600), "db": (30, 30, 30, 30, 30)}
QUERY = "sum by (pod) (rate(container_cpu_usage_seconds_total[5m1s]))"


def recorded():
    """The counters in OpenMetrics."""
    lines = ["# TYPE container_cpu_usage_seconds counter"]
    for pod, used in USED.items():
        total = 0
        for place in range(COUNT):
            at = BEGIN + STEP * place
            lines.append(f'container_cpu_usage_seconds_total{{pod="{pod}"}} {total} {at}')
            total += used[place] if place < len(used) else 0
    return "\n".join([*lines, "# EOF", ""])


def free_port():
    """A port that nobody listens on."""
    with socket.socket() as found:
        found.bind(("127.0.0.1", 0))
        return found.getsockname()[1]


@contextmanager
def running(folder, text):
    """The address of a server over counters in OpenMetrics, which is ended behind it."""
    program, tool = shutil.which("prometheus"), shutil.which("promtool")
    if program is None or tool is None:
        pytest.skip("no prometheus and promtool here: apt-get install prometheus")
    (folder / "m").write_text(text)
    (folder / "c.yml").write_text("global: {}\n")
    subprocess.run([tool, "tsdb", "create-blocks-from", "openmetrics", folder / "m", folder / "d"],
                   check=True, capture_output=True, timeout=60)
    url = f"http://127.0.0.1:{free_port()}"
    words = [program, f"--config.file={folder}/c.yml", f"--storage.tsdb.path={folder}/d",
             f"--web.listen-address={url[7:]}", "--storage.tsdb.retention.time=100y"]
    process = subprocess.Popen(words, stdout=subprocess.DEVNULL, stderr=subprocess.DEVNULL)
    try:
        until = time.monotonic() + 30
        while time.monotonic() < until:
            try:
                urllib.request.urlopen(f"{url}/-/ready", timeout=5)
                break
            except (urllib.error.URLError, OSError):
                time.sleep(0.2)
        yield url
    finally:
        process.terminate()
        process.wait(30)


@pytest.fixture
def server(folder):
    """A server over the block."""
    with running(folder, recorded()) as url:
        yield url


def words_of(url, *words):
    """A command over the whole record."""
    return ["replay", "-", "--used", url, "--query", QUERY, "--range",
            f"{BEGIN + STEP}/{BEGIN + STEP * (COUNT - 1)}", "--step", "5m", *words]


def test_replay_of_a_recorded_block(ctl, server):
    """web has at most one CPU of two; db has all that it wants."""
    script = ("# arbiter run --processors 2 --period 100000 --slice 1000\nmkdir web\nmkdir db\n"
              "write web cpu.max 100000\n")
    words = words_of(server, "-o", "csv")
    out, _ = ctl.run(*words, given=script.encode())
    rows = list(csv.DictReader(io.StringIO(out)))
    found = {pod: [row["gets"] for row in rows if row["group"] == pod] for pod in USED}
    assert found == {"web": ["0.5", "0.5", "1", "1", "1"], "db": ["0.1"] * 5}
    assert rows[0]["sample"] == "2026-01-05 10:05:00" and rows[0]["periods"] == "3000"


def test_what_a_server_refuses(ctl, server):
    """A query that is none is told with the server's words."""
    words = words_of(server)
    words[words.index(QUERY)] = "sum("
    assert "400" in ctl.run(*words, given=b"mkdir web\n", status=1)[1]


# As kubelet's cAdvisor tells them: a pod, its pause container, and containers. Of `web` there are
# two pods of one name. The first container of `db` was made anew after two steps.
CADVISOR = [
    ({"namespace": "prod", "pod": "web", "container": "app", "id": "/p/web/a"}, [30] * 5),
    ({"namespace": "prod", "pod": "web", "container": "log", "id": "/p/web/l"}, [15] * 5),
    ({"namespace": "prod", "pod": "web", "id": "/p/web"}, [45] * 5),
    ({"namespace": "prod", "pod": "web", "container": "POD", "id": "/p/web/p"}, [3] * 5),
    ({"namespace": "test", "pod": "web", "container": "app", "id": "/t/web/a"}, [150] * 5),
    ({"namespace": "prod", "pod": "db", "container": "sql", "id": "/p/db/1"}, [60, 60]),
    ({"namespace": "prod", "pod": "db", "container": "sql", "id": "/p/db/2"}, [0, 0, 60, 60, 60]),
    ({"id": "/"}, [600] * 5),
]


def counters_of(series):
    """Counters of such use in each step, in OpenMetrics."""
    lines = ["# TYPE container_cpu_usage_seconds counter"]
    for labels, used in series:
        words = ",".join(f'{key}="{value}"' for key, value in labels.items())
        for place in range(len(used) + 1):
            lines.append(f"container_cpu_usage_seconds_total{{{words}}} {sum(used[:place])}"
                         f" {BEGIN + STEP * place}")
    return "\n".join([*lines, "# EOF", ""])


def pods_of(*containers):
    """The JSON of pods and their node, by namespace, pod and container."""
    items = [{"kind": "Node", "metadata": {"name": "n"}, "status": {"capacity": {"cpu": "4"}}}]
    for pod in dict.fromkeys(each[:2] for each in containers):
        items.append({"kind": "Pod", "metadata": dict(zip(("namespace", "name"), pod)), "spec": {
            "containers": [{"name": each[2]} for each in containers if each[:2] == pod]}})
    return json.dumps({"kind": "List", "items": items}).encode()


PODS = pods_of(("prod", "web", "app"), ("prod", "web", "log"), ("test", "web", "app"),
               ("prod", "db", "sql"))
WANTED = {"prod/web/app": "0.1", "prod/web/log": "0.05", "test/web/app": "0.5",
          "prod/db/sql": "0.2"}


@pytest.fixture(scope="module")
def cadvisor(tmp_path_factory):
    """A server over what cAdvisor tells."""
    with running(tmp_path_factory.mktemp("cadvisor"), counters_of(CADVISOR)) as url:
        yield url


def test_the_query_of_cadvisor(ctl, cadvisor):
    """Without --query each container has its own use, and a total or a pause container none."""
    range_ = f"{BEGIN + STEP}/{BEGIN + STEP * 2}"
    words = ("--used", cadvisor, "--range", range_, "--step", "5m")
    out, err = ctl.run("replay", "-", *words, "-o", "csv", given=PODS)
    rows = [row for row in csv.DictReader(io.StringIO(out)) if row["sample"].endswith("10:10:00")]
    found = {row["group"].split("/", 2)[2].replace(":", "/"): row["wants"] for row in rows}
    assert found == WANTED and "warning" not in err.replace("no node's JSON", "")
    out, _ = ctl.run("export", "-", *words, "-o", "json", given=PODS)
    groups = json.loads(out)["groups"].values()
    assert {each["title"]: each["demand"] for each in groups if "demand" in each} == {
        "prod/web/app": "100m", "prod/web/log": "50m", "test/web/app": "500m",
        "prod/db/sql": "200m"}
    out, _ = ctl.run("recommend", "-", *words, "--headroom", "0", "-o", "json", given=PODS)
    assert {each["container"]: each["used_millicpu"] for each in json.loads(out)["containers"]} == {
        "prod/web/app": 100, "prod/web/log": 50, "test/web/app": 500, "prod/db/sql": 200}


def test_owners_of_one_name_in_two_namespaces(ctl, folder):
    """Two pods of one name, each of its own Deployment `web`: each has its own use, and that of its
    own pods that are gone."""
    def used(namespace, pod, seconds):
        return ({"namespace": namespace, "pod": pod, "container": "app",
                 "id": f"/{namespace}/{pod}"}, [seconds] * 5)

    now = "web-5d9c-bbbbb"
    record = [used("a", now, 30), used("b", now, 150), used("a", "web-77cc-kkkkk", 60),
              used("b", "web-77cc-zzzzz", 90), used("c", "web-77cc-zzzzz", 300)]
    data = json.loads(pods_of(("a", now, "app"), ("b", now, "app")))
    for pod in data["items"][1:]:
        pod["metadata"] |= {"labels": {"pod-template-hash": "5d9c"}, "ownerReferences": [
            {"kind": "ReplicaSet", "name": "web-5d9c", "controller": True}]}
    with running(folder, counters_of(record)) as url:
        out, err = ctl.run("recommend", "-", "--used", url, "--range",
                           f"{BEGIN + STEP}/{BEGIN + STEP * 5}", "--step", "5m", "--headroom", "0",
                           "-o", "json", given=json.dumps(data).encode())
    assert {each["container"]: (each["used_millicpu"], each["samples"], each["of"], each["set"])
            for each in json.loads(out)["containers"]} == {
        "Deployment a/web/app": (200, 10, 2, [f"a/{now}/app.request=200m"]),
        "Deployment b/web/app": (500, 10, 2, [f"b/{now}/app.request=500m"])}
    assert "replicas of these, 2: a/web-77cc-kkkkk/app, b/web-77cc-zzzzz/app" in err
    assert "not here, 1: c/web-77cc-zzzzz/app" in err


def test_a_range_without_samples(ctl, cadvisor):
    """A server that knows nothing of the time is a fault, and no plan without use."""
    for words in (["explain"], ["recommend"]):
        _, err = ctl.run(*words, "-", "--used", cadvisor, "--range", "1000/2000", given=PODS,
                         status=1)
        assert f"{cadvisor}: nothing was used by any container" in err


def test_a_container_that_was_made_anew(ctl, cadvisor):
    """Its two series are parts of one use: 0.2 CPUs before and after."""
    words = ("--used", cadvisor, "--range", f"{BEGIN + STEP}/{BEGIN + STEP * 5}", "--step", "5m")
    out, _ = ctl.run("replay", "-", *words, "-o", "csv", given=pods_of(("prod", "db", "sql")))
    wants = [row["wants"] for row in csv.DictReader(io.StringIO(out))]
    assert [each for each in wants if each != "0"] == ["0.2"] * len(wants)


def test_a_query_that_loses_names(ctl, cadvisor):
    """By pod alone two pods of one name are one: they are told, and not one of them taken."""
    words = ("--used", cadvisor, "--range", f"{BEGIN + STEP}/{BEGIN + STEP * 2}", "--step", "5m",
             "--query", 'sum by (pod) (rate(container_cpu_usage_seconds_total{container!=""}[5m]))')
    _, err = ctl.run("recommend", "-", *words, given=PODS)
    assert "used by containers that are not here, 1: web (3 containers)" in err


def series(*labels):
    """Series with these labels, each of 0.5, 0.25, .. at one time."""
    return [prometheus.Metric(each, {60.0: str(0.5 ** (1 + at))})
            for at, each in enumerate(labels)]


POD = {"namespace": "n", "pod": "p", "container": "c"}


@pytest.mark.parametrize("labels, cells", [
    (({**POD, "cpu": "cpu00"}, {**POD, "cpu": "cpu01"}), {"n/p/c": "0.75"}),
    (({**POD, "id": "/a", "instance": "x"}, {**POD, "id": "/b", "instance": "y"}),
     {"n/p/c": "0.75"}),
    (({**POD, "name": "a"}, {**POD, "name": "b"}), {"n/p/c": "0.75"}),
    ((POD, {"namespace": "n", "pod": "p"}), {"n/p/c": "0.5"}),
    (({"namespace": "n", "pod": "p"},), {"n/p": "0.5"}),
    (({"name": "web", "id": "/docker/x"}, {"id": "/a.service"}), {"web": "0.5",
                                                                  "a.service": "0.25"}),
    (({"group": "a", "node": "n"},), {"a": "0.5"}), (({"job_id": "7"},), {"7": "0.5"}),
])
def test_series_and_their_columns(labels, cells):
    """Parts of one use are summed; the total of a pod whose containers are told is left out."""
    (sample,) = prometheus.history_of(series(*labels), "U").samples
    assert sample.cells == cells


@pytest.mark.parametrize("labels, told", [
    (({**POD, "job": "a"}, {**POD, "job": "b"}), "2 series of n/p/c differ in job"),
    (({**POD, "id": "/a", "job": "a"}, {**POD, "id": "/a", "job": "b"}), "differ in job"),
    (({**POD, "id": "/a", "cluster": "a"}, {**POD, "id": "/b", "cluster": "b"}),
     "differ in cluster"),
    (({**POD, "instance": "a"}, {**POD, "instance": "b"}), "differ in instance"),
    ((POD, POD), "differ in nothing"), (({},), "a series with no label"),
    (({"job": "x", "thing": "y"},), "a series with job, thing: which of them names a group"),
    (({**POD, "exported_pod": "a"}, {**POD, "exported_pod": "b"}),
     "differ in exported_pod, and may be one use twice: the scrape renamed labels of what was"
     " measured (exported_pod): honor_labels there keeps them, or --query 'label_replace(..,"
     ' "pod", "$1", "exported_pod", "(.+)")\' brings each back'),
    (({"exported_container": "c", "exported_pod": "p", "job": "x"},),
     "a series with exported_container, exported_pod, job: the scrape renamed labels of what was"
     " measured (exported_container, exported_pod): honor_labels"),
])
def test_series_that_may_be_one_use_twice(labels, told):
    """They are refused by the labels in which they differ, and none is taken."""
    with pytest.raises(HostFault, match=re.escape(told)):
        prometheus.history_of(series(*labels), "U")


def over(labels, begin, end, each=0.2):
    """A series of use in each minute from one to another."""
    return prometheus.Metric({**POD, **labels}, {60.0 * at: str(each) for at in range(begin, end)})


SERIES = st.lists(st.tuples(
    st.sampled_from(["cpu0", "cpu1", "cpu2"]), st.sampled_from(["", "a", "b"]),
    st.sampled_from(["", "us", "eu"]), st.dictionaries(st.integers(1, 5), st.integers(0, 10**6),
                                                       min_size=1)), min_size=1, max_size=4)


@given(series=SERIES)
def test_random_series_of_one_container(series):
    """They are one use where they differ in their CPUs alone, and then it is their exact sum."""
    metrics = [prometheus.Metric(
        {**POD, "cpu": cpu, **({"job": job} if job else {}), **({"cluster": home} if home else {})},
        {float(at): f"{value / 10**6:.6f}" for at, value in values.items()})
        for cpu, job, home, values in series]
    is_one_use = (len({each[:3] for each in series}) == len(series)
                  and len({each[1:3] for each in series}) == 1)
    if not is_one_use:
        with pytest.raises(HostFault, match="may be one use twice"):
            prometheus.history_of(metrics, "u")
        return
    history = prometheus.history_of(metrics, "u")
    wanted = {at: sum(values.get(at, 0) for _, _, _, values in series)
              for at in sorted({at for each in series for at in each[3]})}
    assert [demands for _, demands in history.demands("cpu", Host())] == [
        {"n/p/c": Fraction(each, 1000)} for each in wanted.values()]


@pytest.mark.parametrize("one, two, told", [
    (over({"id": "/a", "node": "x"}, 0, 61), over({"id": "/b", "node": "y"}, 0, 61), "id, node"),
    (over({"id": "/a"}, 0, 40), over({"id": "/b"}, 30, 60), "id"),
    (over({"uid": "/a"}, 0, 3), over({"uid": "/b"}, 0, 3), "uid"),
    (over({"id": "/a"}, 0, 40), over({"id": "/b"}, 36, 60), ""),
    (over({"id": "/a"}, 0, 40), over({"id": "/b"}, 0, 40, 0), ""),
])
def test_a_container_has_one_home_at_one_time(one, two, told):
    """One that is made anew is beside itself for five minutes at most. What is idle adds nothing.
    """
    if not told:
        assert prometheus.history_of([one, two], "U").columns == ["n/p/c"]
        return
    with pytest.raises(HostFault, match=f"2 series of n/p/c differ in {told}, and may be one use"
                                        " twice: choose by --query, as 'rate"):
        prometheus.history_of([one, two], "U")


# The same pod as two jobs scrape it, and in two clusters of one server.
TWICE = [({**POD, "id": "/a", "job": job}, [60] * 5) for job in ("kubelet", "other")]
CLUSTERS = [({**POD, "id": f"/{name}", "cluster": name}, [used] * 5)
            for name, used in (("eu", 300), ("us", 60))]


@pytest.mark.parametrize("record, key, value, used", [
    (TWICE, "job", "kubelet", 200), (CLUSTERS, "cluster", "us", 200)])
def test_one_reading_of_a_server(ctl, folder, record, key, value, used):
    """Each command refuses two scrapes and two clusters, and its advice gives the right use."""
    data, name = pods_of(("n", "p", "c")), folder / "p.json"
    name.write_bytes(data)
    with running(folder, counters_of(record)) as url:
        range_ = ["--used", url, "--range", f"{BEGIN + STEP}/{BEGIN + STEP * 5}", "--step", "5m"]
        for command in ("explain", "recommend", "replay", "audit", "export"):
            _, err = ctl.run(command, name, *range_, status=1)
            assert "2 series of" in err and f"differ in {key}" in err.replace("id, ", ""), err
        query = f'rate(container_cpu_usage_seconds_total{{{key}="{value}"}}[5m])'
        out, _ = ctl.run("export", name, *range_, "--query", query, "-o", "json")
        found = [each["demand"] for each in json.loads(out)["groups"].values() if "demand" in each]
        assert found == [f"{used}m"]
        out, _ = ctl.run("audit", name, *range_, "--query", f'{{{key}="{value}"}}', "-o", "json")
        assert used in {each for row in json.loads(out)["groups"]
                        for each in row["used_millicpu"]}


def test_replicas_of_another_cluster_are_none(ctl, folder):
    """`web-77cc` of eu is no history of `web-5d9c` of us."""
    def used(pod, cluster, seconds):
        return ({"namespace": "a", "pod": pod, "container": "app", "id": f"/{pod}",
                 "cluster": cluster}, [seconds] * 5)

    data = json.loads(pods_of(("a", "web-5d9c-bbbbb", "app")))
    data["items"][1]["metadata"] |= {"labels": {"pod-template-hash": "5d9c"}, "ownerReferences": [
        {"kind": "ReplicaSet", "name": "web-5d9c", "controller": True}]}
    record = [used("web-5d9c-bbbbb", "us", 60), used("web-77cc-kkkkk", "eu", 750)]
    with running(folder, counters_of(record)) as url:
        _, err = ctl.run("recommend", "-", "--used", url, "--range",
                         f"{BEGIN + STEP}/{BEGIN + STEP * 5}", "--step", "5m",
                         given=json.dumps(data).encode(), status=1)
    assert ("a/web-77cc-kkkkk/app has cluster=eu, and what runs here has cluster=us: choose by"
            " --query, as 'rate(container_cpu_usage_seconds_total{cluster=\"us\"}[120s])'") in err


def test_more_use_than_a_node_has_is_none(ctl, cadvisor):
    """A counter without its rate, and a rate times 1000, on a node of 4 CPUs."""
    words = ("--used", cadvisor, "--range", f"{BEGIN + STEP}/{BEGIN + STEP * 5}", "--step", "5m")
    counter = 'container_cpu_usage_seconds_total{namespace="test"}'
    for command in ("explain", "recommend", "replay"):
        _, err = ctl.run(command, "-", *words, "--query", counter, given=PODS, status=1)
        assert ("test/web/app used 750000m, and the node has 4000m: it only rises, as a counter"
                " does: rate(..) is missing?") in err
        _, err = ctl.run(command, "-", *words, "--query", f"1000 * rate({counter}[10m])",
                         given=PODS, status=1)
        assert "test/web/app used 500000m, and the node has 4000m: it is in another unit," in err


def test_series_of_many_hosts():
    """By the label of the host; one without it is refused."""
    found = prometheus.by_host(series({"node": "a", "pod": "p"}, {"node": "b", "pod": "p"}), "U")
    assert {host: each.samples[0].cells for host, each in found.items()} == {
        "a": {"p": "0.5"}, "b": {"p": "0.25"}}
    with pytest.raises(HostFault, match="a series without a label of its host"):
        prometheus.by_host(series({"pod": "p"}), "U")


@pytest.mark.parametrize("word, step, wanted", [
    (None, None, (86400, 60)), ("7d", "5m", (604800, 300)), ("90min", "15s", (5400, 15)),
    ("14d", None, (1209600, 300)), ("5000min", None, (300000, 60)),
])
def test_ranges_up_to_now(monkeypatch, word, step, wanted):
    monkeypatch.setattr(prometheus.time, "time", lambda: 10**9 + 0.7)
    found = prometheus.range_of(word, step)
    assert (float(found.end) - float(found.start), found.step) == wanted
    assert found.end == str(10**9)


@pytest.mark.parametrize("word, step", [
    ("x", None), ("1/x", None), ("2026-13-01T00:00:00Z/5", None), ("7d", "x"), ("7d", "0"),
    ("0", "1m"), ("/", None)])
def test_ranges_that_are_none(word, step):
    with pytest.raises(UsageFault):
        prometheus.range_of(word, step)


def test_ranges_in_the_past():
    found = prometheus.range_of("2026-01-05T10:00:00Z/1767608400.5", "1h")
    assert found == ("2026-01-05T10:00:00Z", "1767608400.5", 3600)


@contextmanager
def answering(raw):
    """The address of a server that answers each request with these bytes."""
    with socket.socket() as listening:
        listening.bind(("127.0.0.1", 0))
        listening.listen()

        def run():
            with suppress(OSError):
                while True:
                    reader, _ = listening.accept()
                    with reader, suppress(OSError):
                        reader.recv(65536)
                        reader.sendall(raw)
        threading.Thread(target=run, daemon=True).start()
        try:
            yield f"http://127.0.0.1:{listening.getsockname()[1]}"
        finally:
            listening.shutdown(socket.SHUT_RDWR)


def asked(url):
    """The demands of a range query."""
    found = prometheus.read(url, "q", prometheus.QueryRange("1", "2", 1))
    return list(prometheus.history_of(found, url).demands("cpu", Host(1)))


def whole(text, length=None):
    """An answer of HTTP with a text."""
    length = len(text) if length is None else length
    return f"HTTP/1.1 200 OK\r\nContent-Length: {length}\r\n\r\n{text}".encode()


def values(at, value="1"):
    """The text of an answer with one value."""
    return ('{"data": {"result": [{"metric": {"pod": "a"}, "values": [[' + at + ', "' + value
            + '"]]}]}}')


def moved(to):
    """An answer that names another address."""
    return f"HTTP/1.1 302 Found\r\nLocation: {to}\r\nContent-Length: 0\r\n\r\n".encode()


@pytest.mark.parametrize("raw, told", [
    (b"SSH-2.0-OpenSSH\r\n", "SSH-2.0"), (b"", "closed connection"),
    (b"HTTP/1.1 200 OK\r\nTransfer-Encoding: chunked\r\n\r\nzz\r\n", "IncompleteRead"),
    (b"HTTP/1.1 200 OK\r\nA: " + b"x" * 70000 + b"\r\n\r\n", "65536 bytes"),
    (whole("{}", 100), "ends in the middle"), (whole("[1]"), "no answer to a range query"),
    (whole('{"data": null}'), "no answer to a range query"),
    (whole(values("NaN")), "no answer to a range query"),
    (whole(values("1e400")), "no answer to a range query"),
    (whole(values("1" + "0" * 400)), "no answer to a range query"),
    (whole(values("1", "\\u001b[31m")), r"'\\x1b[31m' is no number"),
    (moved("file:///etc/passwd"), "file:///etc/passwd"),
    (moved("ftp://127.0.0.1/x"), "ftp://127.0.0.1/x instead, which is not http"),
], ids=["no http", "nothing", "chunks", "header", "cut", "list", "no data", "nan", "infinite",
        "large", "letters", "file", "ftp"])
def test_a_server_that_lies(raw, told):
    """Each wrong answer is a fault of one line, which shows no raw control character."""
    with answering(raw) as url, pytest.raises(HostFault) as fault:
        asked(url)
    assert told in fault.value.message and shown(fault.value.message) == fault.value.message


def test_a_server_that_moved():
    """Another address of HTTP is followed."""
    with answering(whole(values("7"))) as there, answering(moved(f"{there}/x")) as url:
        assert asked(url) == [("7", {"a": Fraction(1000)})]


@pytest.mark.parametrize("url", ["http://a:b", "http://a b/", "http://a\n/", "http://[::1"])
def test_addresses_that_are_none(url):
    with pytest.raises(HostFault) as fault:
        asked(url)
    assert shown(fault.value.message) == fault.value.message


def test_an_answer_without_an_end(monkeypatch):
    """Its bytes and its time have bounds, which SECURITY.md names."""
    assert (web.MOST_SECONDS, web.MAX_ANSWER) == (600, 256 << 20)
    monkeypatch.setattr(web, "MAX_ANSWER", 1 << 20)
    with answering(whole(" " * (2 << 20))) as url, pytest.raises(HostFault, match="more than 1 M"):
        asked(url)
    monkeypatch.setattr(web, "MOST_SECONDS", 0)
    monkeypatch.setattr(web, "exchanged", lambda _: time.sleep(1))
    with pytest.raises(HostFault, match="in 0 sec"):
        asked("http://127.0.0.1:1")


# Servers that are slow: what comes before the first byte, what comes again and again, and its time.
OK = b"HTTP/1.1 200 OK\r\n"
LONG, CHUNKS = b"Content-Length: 1000000\r\n\r\n", b"Transfer-Encoding: chunked\r\n\r\n"
SLOW = {
    "nothing": (b"", b""), "status": (b"", b"H"), "header": (OK + b"A: ", b"a"),
    "headers": (OK, b"A: b\r\n"), "continue": (b"", b"HTTP/1.1 100 Continue\r\n\r\n"),
    "body": (OK + LONG, b"["), "chunk head": (OK + CHUNKS, b"0"),
    "chunks": (OK + CHUNKS, b"1\r\n[\r\n"), "trailer": (OK + CHUNKS + b"0\r\nA: ", b"a"),
    "trailers": (OK + CHUNKS + b"0\r\n", b"A: b\r\n"),
    "error": (b"HTTP/1.1 500 No\r\n" + LONG, b"a"),
    "error's head": (b"HTTP/1.1 500 No\r\nA: ", b"a"),
}


@contextmanager
def dripping(first, again):
    """The address of a server that sends some bytes at once, and others ten times a second."""
    with socket.create_server(("127.0.0.1", 0)) as listening:
        def serve(reader):
            with reader, suppress(OSError):
                reader.sendall(first)
                while True:
                    time.sleep(0.1)
                    reader.sendall(again)

        def run():
            with suppress(OSError):
                while True:
                    threading.Thread(target=serve, args=listening.accept()[:1], daemon=True).start()
        threading.Thread(target=run, daemon=True).start()
        yield f"127.0.0.1:{listening.getsockname()[1]}"
        listening.shutdown(socket.SHUT_RDWR)


def is_told_in_time(url):
    """Whether a question ends by a fault of one line soon after a deadline of a second. Without it
    there is no end. (a machine under load takes seconds for each step)"""
    began = time.monotonic()
    with pytest.raises(HostFault, match=r"^http.*: no whole answer in 1 seconds$") as fault:
        asked(url)
    assert 0.9 < time.monotonic() - began < 30 and "\n" not in fault.value.message


@pytest.mark.parametrize("first, again", SLOW.values(), ids=list(SLOW))
def test_a_server_that_is_slow(monkeypatch, first, again):
    """One deadline is over the whole exchange, from the first byte on."""
    monkeypatch.setattr(web, "MOST_SECONDS", 1)
    with dripping(first, again) as address:
        is_told_in_time(f"http://{address}")


def test_servers_that_are_slow_otherwise(monkeypatch):
    """In the greeting of TLS, by one address after another, and in the name's own resolution."""
    monkeypatch.setattr(web, "MOST_SECONDS", 1)
    with dripping(b"\x16\x03\x03\x40\x00", b"\x00") as address:
        is_told_in_time(f"https://{address}")
    with dripping(b"", b"") as address, answering(moved(f"http://{address}/x")) as url:
        is_told_in_time(url)
    monkeypatch.setattr(socket, "getaddrinfo", lambda *_, **__: time.sleep(60))
    is_told_in_time("http://prometheus.invalid")


def test_a_command_that_asks_a_slow_server(ctl):
    """It ends soon after the deadline: what still waits for the server ends with it."""
    script = ("from arbiter_host import command\nfrom arbiter_host.sources import web\n"
              "web.MOST_SECONDS = 1\ncommand.main()\n")
    with dripping(OK + b"A: ", b"a") as address:
        ended = subprocess.run([sys.executable, "-c", script, "replay", "-", "--used",
                                f"http://{address}", "--range", "1/2"], input=b"mkdir web\n",
                               env={**ctl.environment, "PYTHONPATH": str(PACKAGE)}, timeout=60,
                               capture_output=True, check=False)
    assert ended.returncode == 1, ended.stderr
    assert ended.stderr.endswith(b": no whole answer in 1 seconds\n"), ended.stderr
