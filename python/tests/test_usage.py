"""Usage under the owners' names: from kubectl top, metrics-server, docker stats, and measured.

The fixtures are written to the documented formats. Each expected number is worked by hand.
"""
import json
import os
import re
import threading
from fractions import Fraction
from pathlib import Path

import pytest
import trees
from arbiter_host.base.faults import HostFault
from arbiter_host.sources import usage
from chances import cases
from hypothesis import given, settings
from hypothesis import strategies as st

FIXTURES = Path(__file__).parent / "fixtures"
PODS, NODE = FIXTURES / "pods.json", FIXTURES / "node.json"
# What the fixtures say of the containers of the node.
TOLD = {"prod/web-7c9f/nginx": "1cpu", "prod/web-7c9f/metrics": "40m", "prod/proxy-1/app": "480m",
        "prod/proxy-1/envoy": "95m", "prod/db-0/postgres": "640m", "batch/report-x/report": "812m"}


def demands_of(ctl, *words, **options):
    """The demands of containers by their titles, and what is warned of."""
    out, err = ctl.run("export", *words, "-o", "json", **options)
    found = json.loads(out)["groups"].values()
    return {each["title"]: each["demand"] for each in found if "demand" in each}, err


@pytest.mark.parametrize("name", ["top.txt", "metrics.json"])
def test_usage_of_pods(ctl, name):
    """Each container has what the file says; what is not of this node is told by name."""
    found, _ = demands_of(ctl, PODS, NODE, "--used", FIXTURES / name)
    assert found == TOLD
    _, err = ctl.run("explain", PODS, NODE, "--used", FIXTURES / name)
    assert (f"{name}: used by containers that are not here, 1: kube-system/coredns-5d78-4x2/coredns"
            in err)


def test_usage_from_standard_input(ctl):
    """`kubectl top pods -A --containers | arbiterctl explain pods.json node.json --used -`."""
    data = (FIXTURES / "top.txt").read_bytes()
    assert demands_of(ctl, PODS, NODE, "--used", "-", given=data)[0] == TOLD
    # `--sum` prints the sums behind a line.
    sums = b"%62s________   ________     \n%62s3070m      1261Mi    \n" % (b"", b"")
    assert demands_of(ctl, PODS, NODE, "--used", "-", given=data + sums)[0] == TOLD
    # A source that is loaded twice has it twice.
    words = (PODS, NODE, "--used", "-", "--set", ".cpus=3", "-o", "json")
    out, _ = ctl.run("diff", *words, given=data)
    assert json.loads(out)["after"]["wanted"]["millicpu"] == 3067


def test_usage_without_namespaces_or_containers(ctl, folder):
    """Names that say enough are taken; those of several containers are told."""
    text = "POD NAME CPU(cores) MEMORY(bytes)\nweb-7c9f nginx 70m 1Mi\n"
    (folder / "top").write_text(text)
    assert demands_of(ctl, PODS, NODE, "--used", folder / "top")[0] == {
        "prod/web-7c9f/nginx": "70m"}
    text = "NAMESPACE NAME CPU(cores) MEMORY(bytes)\nprod db-0 70m 1Mi\nprod web-7c9f 90m 1Mi\n"
    (folder / "top").write_text(text)
    assert demands_of(ctl, PODS, NODE, "--used", folder / "top")[0] == {
        "prod/db-0/postgres": "70m"}
    _, err = ctl.run("explain", PODS, NODE, "--used", folder / "top")
    assert ("used by pods of several containers, left out: `kubectl top pods -A --containers` has"
            " each, 1: prod/web-7c9f (2 containers)") in err
    assert re.search("[0-9] groups, .*prod:web-7c9f/nginx, .*: nothing read for --want usage",
                     err)


def test_usage_of_docker(ctl):
    """Percent of one CPU, by identifier; one that has stopped has none."""
    found, _ = demands_of(ctl, FIXTURES / "docker.json", "--cpus", "8", "--used",
                          FIXTURES / "stats.json")
    # 125.37% is above the limit of 1.5 CPUs by nothing, 0.05% is half of a thousandth.
    assert found == {"web:latest": "1253700000n", "db:latest": "500000n"}
    _, err = ctl.run("explain", FIXTURES / "docker.json", "--cpus", "8", "--used",
                     FIXTURES / "stats.json")
    assert "used by containers that are not here, 1: new" in err
    assert re.search("batch-night.slice/job[^:]*: nothing read for --want usage", err)


def test_usage_in_the_table_of_docker(ctl, folder):
    """`docker stats --no-stream` as it is: blanks in heads, two of them or more between columns."""
    (folder / "stats").write_text(
        "CONTAINER ID   NAME      CPU %     MEM USAGE / LIMIT     MEM %     PIDS\r\n"
        "010101010101   web       125.37%   192MiB / 15.6GiB      1.20%     9\r\n"
        "020202020202   renamed   0.05%     64MiB / 15.6GiB       0.40%     3\r\n"
        "030303030303   --        --        -- / --               --        --\r\n\r\n")
    words = (FIXTURES / "docker.json", "--cpus", "8", "--used", folder / "stats")
    assert demands_of(ctl, *words)[0] == {"web:latest": "1253700000n", "db:latest": "500000n"}
    (folder / "stats").write_text("ID  NAME  CPU %\nx  web  1%  2\n")
    assert "stats:2: 4 columns and not 3" in ctl.run("explain", *words, status=1)[1]


def test_usage_of_podman(ctl, folder):
    """`podman stats --no-stream --format json` is one list, with other keys."""
    (folder / "stats").write_text(json.dumps([
        {"id": "05" * 32, "name": "pod-web", "cpu_time": "9s", "cpu_percent": "25.00%"}]))
    found, _ = demands_of(ctl, FIXTURES / "podman.json", "--cpus", "8", "--used", folder / "stats")
    assert list(found.values()) == ["250m"]


def test_explain_has_use_and_what_is_short(ctl):
    """On 3 CPUs what was used, 3.067, does not fit."""
    out, _ = ctl.run("explain", PODS, NODE, "--used", FIXTURES / "top.txt", "--cpus", "3")
    assert "3.000 of 3.000 CPUs served, 3.067 wanted" in out


def many_of(folder, count, containers, cpus):
    """So many pods with containers that used some thousandths, on a node; what they used."""
    lines = "".join(f"x p{at} {name} {used}m 1Mi\n" for at in range(count)
                    for name, used in containers.items())
    (folder / "top").write_text("NAMESPACE POD NAME CPU(cores) MEMORY(bytes)\n" + lines)
    pods = [{"kind": "Pod", "metadata": {"name": f"p{at}", "namespace": "x", "uid": f"u{at}"},
             "spec": {"containers": [{"name": name} for name in containers]}}
            for at in range(count)]
    node = {"kind": "Node", "status": {"capacity": {"cpu": cpus}, "allocatable": {"cpu": cpus}}}
    (folder / "n.json").write_text(json.dumps({"kind": "List", "items": [*pods, node]}))
    return folder / "n.json", "--used", folder / "top"


@pytest.mark.parametrize("count, containers, cpus, wanted", [
    (110, {"a": 12, "b": 2}, 8, 1540), (7, {"a": 1141}, 8, 7987), (1, {"a": 1}, 100, 2),
    (1, {"a": 1}, 600, 10),
])
def test_no_host_is_full_by_rounding(ctl, folder, count, containers, cpus, wanted):
    """A slice is a thousandth up to 64 CPUs, two of it up to 128, and 10m above 320."""
    words = many_of(folder, count, containers, cpus)
    found = json.loads(ctl.run("explain", *words, "-o", "json")[0])
    assert found["wanted"]["millicpu"] == wanted
    found = json.loads(ctl.run("explain", *words, "--period", "100ms", "-o", "json")[0])
    assert found["wanted"]["millicpu"] >= 10 * count * len(containers)


@pytest.mark.parametrize("text, words", [
    (b"", "empty: it names no container"), (b"\n \n", "empty"), (b"{}", "no container as"),
    (b"[]", "it names no container"), (b"[1]", ":1: no container as"),
    (b"{", "no JSON"), (b'{"CPUPerc"', ":1: no JSON that can be read"),
    (b"NAME CPU(cores)\nx\n", ":2: 1 words and not 2"),
    (b"POD MEMORY(bytes)\n", "no number"),
    (b"NAMESPACE POD NAME CPU(cores)\nprod web-7c9f nginx lots\n", ":2: 'lots' is no quantity"),
    (b"NAMESPACE POD NAME CPU(cores)\nprod web-7c9f nginx -5m\n", "is no quantity"),
    (b"NAMESPACE POD NAME CPU(cores)\nprod web-7c9f nginx 9999999\n", "is no usage of a host"),
    (b"NAMESPACE POD NAME CPU(cores)\nprod none x 5m\n", "not here, 1: prod/none/x"),
    (b"NAMESPACE POD NAME CPU(cores)\nprod \x1b[31m x 5m\n", "not here, 1: prod/\\x1b[31m/x"),
    (b'{"kind": "PodMetricsList", "items": 7}', "it names no container"),
    (b'{"kind": "PodMetricsList", "items": [{"containers": [{"name": "x", "usage": 5}]}]}',
     "'None' is no quantity"),
    (b'{"items": []}', "it names no container"), (b"[" * 100000, "no JSON that can be read"),
    (b'{"CPUPerc": "1e5%", "Name": "x"}', "is no quantity"), (b"\xff\xfe\x00", "not UTF-8"),
], ids=lambda each: repr(each)[:30])
def test_bad_usage(ctl, folder, text, words):
    """One line names the file and its fault, and nothing is planned."""
    (folder / "use").write_bytes(text)
    out, err = ctl.run("explain", PODS, NODE, "--used", folder / "use", status=1)
    assert out == "" and err.count("\n") <= 2 and f"{folder}/use" in err
    assert words in err and "\x1b" not in err


@pytest.mark.parametrize("words, told", [
    (("--used", "x", "--used", "/"), "a tree of cgroups is there alone"),
    (("--used", "x", "--want", "busy"), "--used belongs to --want usage, peak, p95, psi"),
    (("--used", FIXTURES / "top.txt", "--want", "p95"), "tells of one time alone"),
    (("--used", FIXTURES / "top.txt", "--want", "psi"), "and not to psi"),
    (("--used", "/", "--want", "request"), "--used belongs to --want usage, peak, p95, psi"),
    (("--want", "usage"), "what these pods used is not told (--used)"),
])
def test_words_that_do_not_go_together(ctl, words, told):
    assert told in ctl.run("explain", PODS, NODE, *words, status=2)[1]


def test_usage_belongs_to_pods_and_containers(ctl, folder):
    (folder / "s").write_text("mkdir a\n")
    words = ("--used", FIXTURES / "top.txt")
    for source, kind in ((folder / "s", "script"), (FIXTURES / "units.show", "systemd")):
        _, err = ctl.run("explain", source, *words, status=2)
        assert f"--used: it has no effect on a source of the kind {kind}" in err
    assert "other hosts have none" in ctl.run("explain", folder, *words, status=2)[1]


def test_standard_input_is_one_thing(ctl):
    """It is the source or what was used, and not both."""
    for words in (("--cpus", "4"), ()):
        _, err = ctl.run("explain", "-", *words, "--used", "-", given=PODS.read_bytes(), status=2)
        assert "--used -: standard input is the source already" in err


def test_a_history_is_what_was_used(ctl, folder):
    """Two samples: their mean, the greatest, and the 95th percentile. An empty cell is none."""
    (folder / "h.csv").write_text("time,prod/web-7c9f/nginx,db-0\n1,100m,1\n2,300m,\n")
    for want, wanted in (("usage", "200m"), ("peak", "300m"), ("p95", "300m")):
        found, _ = demands_of(ctl, PODS, NODE, "--used", folder / "h.csv", "--want", want)
        assert found == {"prod/web-7c9f/nginx": wanted, "prod/db-0/postgres": "1cpu"}


def test_one_container_has_one_number(ctl, folder):
    """Two names of one container are refused, and not the last one taken."""
    head = "NAMESPACE POD NAME CPU(cores)\n"
    (folder / "top").write_text(head + "prod db-0 postgres 1m\nprod db-0 postgres 9m\n")
    _, err = ctl.run("explain", PODS, NODE, "--used", folder / "top", status=1)
    assert "prod/db-0/postgres: two numbers for what one container used" in err
    (folder / "h.csv").write_text("time,prod/db-0,db-0/postgres\n1,1,2\n")
    _, err = ctl.run("explain", PODS, NODE, "--used", folder / "h.csv", status=1)
    assert "two numbers for what one container used" in err


def test_a_file_that_is_not_there_and_a_pipe(ctl, folder):
    """A missing file is named; a pipe is read as each input file is."""
    _, err = ctl.run("explain", PODS, NODE, "--used", folder / "none", status=1)
    assert f"{folder}/none: No such file or directory" in err
    os.mkfifo(folder / "pipe")
    data = (FIXTURES / "top.txt").read_bytes()
    beside = threading.Thread(target=lambda: (folder / "pipe").write_bytes(data))
    beside.start()
    assert demands_of(ctl, PODS, NODE, "--used", folder / "pipe")[0] == TOLD
    beside.join()


def test_too_many_entries(monkeypatch):
    monkeypatch.setattr(usage, "MOST_ENTRIES", 3)
    with pytest.raises(HostFault, match="F: more than 3 containers"):
        usage.read((FIXTURES / "top.txt").read_bytes(), "F")


@settings(max_examples=cases(200), deadline=None)
@given(data=st.binary(max_size=80) | st.text(max_size=80).map(str.encode))
def test_any_bytes_are_read_or_refused(data):
    """A fault of one line, or entries with amounts of 0 or more."""
    for text in (data, b"NAME CPU(cores)\n" + data, b'{"CPUPerc": "' + data + b'", "Name": "x"}'):
        try:
            found = usage.read(text, "F")
        except HostFault as fault:
            assert fault.message.startswith("F")
        else:
            assert found and all(each.amounts[0] >= 0 for each in found)


# measured

def node_tree(folder, used):
    """Copies of a node's files ten seconds apart, in which containers used so many seconds."""
    for copy, factor in (("a", 0), ("b", 1)):
        trees.root2(folder / copy)
        for path, seconds in used.items():
            parts = path.split("/")
            for at in range(1, len(parts) + 1):
                trees.group2(folder / copy / "/".join(parts[:at]),
                             usage=int(seconds * factor * 10**6), threads=2)
    return ["--used", folder / "a", "--used", folder / "b", "--read", "x10s"]


POD = "kubepods.slice/kubepods-burstable.slice/kubepods-burstable-pod00000001_0b1c_4d2e_8f3a_" \
      "0123456789ab.slice"
NGINX = f"{POD}/cri-containerd-{'a1' * 32}.scope"
DB = "kubepods.slice/kubepods-pod00000002_0b1c_4d2e_8f3a_0123456789ab.slice/cri-containerd-" \
     f"{'a3' * 32}.scope"
PLAIN = f"kubepods/burstable/pod00000001-0b1c-4d2e-8f3a-0123456789ab/{'a1' * 32}"


def test_pods_are_measured(ctl, folder):
    """3 of 10 seconds are 300m, by uid and identifier; what is not there is told by name."""
    words = node_tree(folder, {NGINX: 3, DB: 7.5})
    found, _ = demands_of(ctl, PODS, NODE, *words)
    assert found == {"prod/web-7c9f/nginx": "300m", "prod/db-0/postgres": "750m"}
    _, err = ctl.run("explain", PODS, NODE, *words)
    (line,) = re.findall(".*nothing read for --want usage: no demand", err)
    assert "prod:proxy-1/app" in line and "nginx" not in line


def test_either_driver_is_found(ctl, folder):
    """Folders as the other driver names them are found too."""
    assert demands_of(ctl, PODS, NODE, *node_tree(folder, {PLAIN: 2}))[0] == {
        "prod/web-7c9f/nginx": "200m"}


def test_peaks_are_measured(ctl, folder):
    """Three copies: 1 and then 4 seconds of 10 are a peak of 400m and a mean of 250m."""
    node_tree(folder, {NGINX: 1})
    trees.root2(folder / "c")
    parts = NGINX.split("/")
    for at in range(1, len(parts) + 1):
        trees.group2(folder / "c" / "/".join(parts[:at]), usage=5 * 10**6)
    words = [*(word for name in "abc" for word in ("--used", folder / name)), "--read", "x10s"]
    for want, wanted in (("peak", "400m"), ("p95", "400m"), ("usage", "250m")):
        found, _ = demands_of(ctl, PODS, NODE, *words, "--want", want)
        assert found["prod/web-7c9f/nginx"] == wanted


def test_docker_is_measured(ctl, folder):
    words = node_tree(folder, {f"system.slice/docker-{'01' * 32}.scope": 5})
    found, _ = demands_of(ctl, FIXTURES / "docker.json", "--cpus", "8", *words)
    assert found == {"web:latest": "500m"}


def test_a_tree_without_these_pods(ctl, folder):
    trees.root2(folder / "t")
    _, err = ctl.run("explain", PODS, NODE, "--used", folder / "t", status=1)
    assert f"{folder}/t: no group of these containers is below it, such as kubepods.slice/" in err
    _, err = ctl.run("explain", PODS, NODE, "--used", folder / "none", status=1)
    assert "No such file" in err
    _, err = ctl.run("explain", PODS, NODE, "--used", folder, status=1)
    assert "so no cgroup tree" in err


@pytest.mark.parametrize("uid", ["../../../../outside", "/outside", "..", "a/../../../../outside"])
def test_nothing_outside_the_tree_is_read(ctl, folder, uid):
    """A uid with a path in it leads nowhere, and no link is followed."""
    pods = json.loads(PODS.read_text())
    pods["items"][2]["metadata"]["uid"] = uid
    (folder / "pods.json").write_text(json.dumps(pods))
    words = node_tree(folder, {NGINX: 3})
    trees.group2(folder / "outside", usage=0)
    for copy in ("a", "b"):
        (folder / copy / "kubepods").symlink_to(folder / "outside")
        outside = folder / "outside" / "besteffort" / f"pod{uid.strip('/')}"
        trees.group2(outside / ("a5" * 32), usage=10**6)
    found, err = demands_of(ctl, folder / "pods.json", NODE, *words)
    assert found == {"prod/web-7c9f/nginx": "300m"}


def test_a_group_that_is_gone_at_a_later_reading(ctl, folder):
    """What was read once says nothing of use."""
    words = node_tree(folder, {NGINX: 3, DB: 1})
    for name in os.listdir(folder / "b" / NGINX):
        (folder / "b" / NGINX / name).unlink()
    assert demands_of(ctl, PODS, NODE, *words)[0] == {"prod/db-0/postgres": "100m"}


def test_fractions_are_exact():
    """Nanoseconds are kept: 2900001n are 2.900001m."""
    found = usage.read((FIXTURES / "metrics.json").read_bytes(), "F")
    assert [each.amounts for each in found if each.container == "coredns"] == [
        (Fraction(2900001, 10**6),)]


def test_use_that_no_host_has(ctl, folder):
    """More than all CPUs, as counters that were taken for use, is told."""
    (folder / "top").write_text("POD NAME CPU(cores) MEMORY(bytes)\nweb-7c9f nginx 4001m 1Mi\n"
                                "web-7c9f metrics 4000m 1Mi\n")
    _, err = ctl.run("explain", PODS, NODE, "--used", folder / "top")
    assert "prod:web-7c9f/nginx: 4001m used: more than the host has" in err
    assert "metrics: 4000m used: more than the host" not in err


@pytest.mark.parametrize("used, is_told", [(200, False), (220, False), (221, True), (900, True)])
def test_use_that_no_limit_allows(ctl, folder, used, is_told):
    """The container has a limit of 200m. A tenth above that may be a reading within a period."""
    (folder / "top").write_text("POD NAME CPU(cores) MEMORY(bytes)\nweb-7c9f nginx 300m 1Mi\n"
                                f"web-7c9f metrics {used}m 1Mi\n")
    _, err = ctl.run("explain", PODS, NODE, "--used", folder / "top")
    note = f"prod:web-7c9f/metrics: {used}m used: more than its limit of 200m, to which it is cut"
    assert (note in err) == is_told
    assert err.count("more than its limit") == is_told
