"""Running services as sources. Each tool is a stand-in that answers as recorded, and notes the
words that it is given: Debian has no API server, and no docker, podman or systemd runs here."""
import json
import os
import signal
import sys
import time
from pathlib import Path

import pytest
from arbiter_host.base.faults import HostFault
from arbiter_host.sources import services
from test_children import is_gone, left_behind, soon

FIXTURES = Path(__file__).parent / "fixtures"
KUBECTL = """\
import json, sys, urllib.parse
url = urllib.parse.urlsplit(sys.argv[-1])
asked = dict(urllib.parse.parse_qsl(url.query))
kind = {"nodes": "Node", "pods": "Pod"}[url.path.rpartition("/")[2]]
items = json.load(open(FIXTURES + "/cluster.json"))["items"]
if "metrics" in url.path:
    items = json.load(open(FIXTURES + "/metrics.json"))["items"]
else:
    items = [each for each in items if each.pop("kind") == kind]
key, _, value = asked.get("fieldSelector", "").partition("=")
def at(each):
    for part in key.split("."):
        each = each.get(part, {})
    return each
items = [each for each in items if not key or at(each) == value]
begin, many = int(asked.get("continue", 0)), 3
more = {"continue": str(begin + many)} if begin + many < len(items) else {}
print(json.dumps({"kind": kind + "List", "metadata": more, "items": items[begin:begin + many]}))
"""
DOCKER = """\
containers = json.load(open(FIXTURES + "/docker.json"))
if "ps" in sys.argv:
    print("\\n".join(each["Id"] for each in containers))
elif "inspect" in sys.argv:
    print(json.dumps([each for each in containers if each["Id"] in sys.argv]))
else:
    print(open(FIXTURES + "/stats.json").read())
"""
SYSTEMCTL = """\
used = len(open(LOG).read().split("\\n")) * 3 * 10**9
print(f"Id=a.service\\nControlGroup=/a.service\\nCPUWeight=200\\nCPUUsageNSec={used}\\n")
"""


@pytest.fixture
def tools(ctl, folder):
    """The tools on the path, and what each was asked."""
    (folder / "bin").mkdir()
    log = folder / "log"
    log.touch()
    for name, text in (("kubectl", KUBECTL), ("docker", DOCKER), ("systemctl", SYSTEMCTL)):
        (folder / "bin" / name).write_text(
            f"#!{sys.executable}\nimport json, sys\n"
            f"FIXTURES, LOG = {str(FIXTURES)!r}, {str(log)!r}\n"
            f"open(LOG, 'a').write(json.dumps([{name!r}, *sys.argv[1:]]) + '\\n')\n{text}")
        (folder / "bin" / name).chmod(0o755)
    ctl.environment["PATH"] = f"{folder / 'bin'}:{os.environ['PATH']}"
    return lambda: [json.loads(line) for line in log.read_text().splitlines()]


def test_a_cluster(ctl, tools):
    """The answer is that of the file, page by page, and nothing but two lists is asked for."""
    words = ("explain", "-o", "json", "--workers", "0")
    file = json.loads(ctl.run(*words, FIXTURES / "cluster.json")[0])
    assert json.loads(ctl.run(*words, "k8s://prod")[0]) == file
    paths = ["nodes", "pods", *(f"pods?continue={at}" for at in (3, 6, 9))]
    assert tools() == [
        ["kubectl", "--context=prod", "get", "--raw", "/api/v1/" + (
            path.replace("?", "?limit=500&") if "?" in path else f"{path}?limit=500")]
        for path in paths]


def test_a_node_of_a_cluster(ctl, tools):
    """One node and its pods alone are asked for; -n and -l choose among them, as of files."""
    words = ("explain", "-o", "json", "--node", "n1")
    files = (FIXTURES / "pods.json", FIXTURES / "node.json")
    for more in ((), ("-n", "prod")):
        found = json.loads(ctl.run(*words, "k8s://", *more)[0])
        assert found == json.loads(ctl.run(*words, *files, *more)[0])
    assert tools()[:2] == [
        ["kubectl", "get", "--raw", "/api/v1/nodes?limit=500&fieldSelector=metadata.name%3Dn1"],
        ["kubectl", "get", "--raw", "/api/v1/pods?limit=500&fieldSelector=spec.nodeName%3Dn1"]]
    used, file = (json.loads(ctl.run(*words, *source)[0])["groups"] for source in (
        ("k8s://", "--used", "k8s://"), (*files, "--used", FIXTURES / "metrics.json")))
    assert used == file
    assert tools()[-1][-1] == "/apis/metrics.k8s.io/v1beta1/pods?limit=500&continue=3"


def test_names_of_a_cluster(ctl, tools, folder):
    """`top` asks for the names of pods."""
    from test_top import NAMED, tree_of_pods
    out, _ = ctl.run("top", tree_of_pods(folder / "t"), "--pods", "k8s://", "--cpus", "1",
                     "--want", "busy", "--read", "2x50ms", "--alert", "*/nginx:lack>1m", "-o",
                     "json", status=5)
    assert json.loads(out)["alerts"][0]["group"] == NAMED
    assert not any("fieldSelector" in words[-1] for words in tools())


def test_names_of_a_node(ctl, tools, folder):
    """With --node `top` asks for the pods of one node alone. Without a cluster it has no effect."""
    from test_top import tree_of_pods
    words = ("top", tree_of_pods(folder / "t"), "--cpus", "1", "--read", "2x50ms", "--node", "n1")
    ctl.run(*words, "--pods", "k8s://", "-o", "json")
    assert tools() and all("n1" in each[-1] for each in tools())
    for pods in ((), ("--pods", FIXTURES / "pods.json")):
        _, err = ctl.run(*words, *pods, status=2)
        assert "--node: of a tree it needs --pods k8s://" in err


def test_containers_of_docker(ctl, tools):
    """Those that run, by their identifiers, from this machine's own socket."""
    words = ("explain", "-o", "json", "--cpus", "4")
    file = json.loads(ctl.run(*words, FIXTURES / "docker.json")[0])
    assert json.loads(ctl.run(*words, "docker://")[0]) == file
    host = "--host=unix:///var/run/docker.sock"
    assert tools()[0] == ["docker", host, "ps", "-q", "--no-trunc"]
    assert tools()[1][:5] == ["docker", host, "inspect", "--type", "container"]
    used, file = (json.loads(ctl.run(*words, *source)[0])["groups"] for source in (
        ("docker://", "--used", "docker://"),
        (FIXTURES / "docker.json", "--used", FIXTURES / "stats.json")))
    assert used == file
    assert tools()[-1][2:] == ["stats", "--no-stream", "--format", "{{json .}}"]


def test_units_of_systemd(ctl, tools):
    """Units are read twice, so that their use is known: 3 s in one. Once where it is not asked."""
    words = ("explain", "systemd://", "--cpus", "8", "-o", "json")
    found = json.loads(ctl.run(*words)[0])["groups"][-1]
    assert (found["group"], found["weight"], found["wants"]["millicpu"]) == ("a.service", 200, 3000)
    assert tools() == [["systemctl", "show", "*.slice", "*.service", "*.scope"]] * 2
    ctl.run(*words, "--want", "limit")
    assert len(tools()) == 3
    for change in ("apply", "diff"):
        assert "CPUWeight=300" in ctl.run(change, "systemd://", "--cpus", "8", "--set",
                                          "a.service.CPUWeight=300", *(
            ["-o", "dropin"] if change == "apply" else ["-o", "html"]))[0]
    assert len(tools()) == 5
    found = json.loads(ctl.run("recommend", *words[1:])[0])["units"]
    assert [each["used_millicpu"] for each in found] == [3000]


@pytest.mark.parametrize("word, status, told", [
    ("docker://x", 2, "docker:// is of this machine alone"),
    ("podman://", 1, "podman: No such file"),
    ("k8s://", 1, "kubectl: Unable to connect to the server: \\x1b[31m"),
])
def test_services_that_do_not_answer(ctl, folder, word, status, told):
    (folder / "kubectl").write_text("#!/bin/sh\necho 1 >&2\nprintf 'Unable to connect to the"
                                    " server: \\033[31m' >&2\nexit 1\n")
    (folder / "kubectl").chmod(0o755)
    # no engine of this machine is found
    ctl.environment["PATH"] = str(folder)
    out, err = ctl.run("explain", word, status=status)
    assert out == "" and told in err and err.count("arbiterctl: ") == 1


def test_an_answer_has_bounds(monkeypatch, tmp_path):
    """Its bytes, its time, and what it began: none is left. SECURITY.md names the bounds."""
    assert (services.MAX_BYTES, services.SECONDS) == (128 << 20, 120)
    monkeypatch.setattr(services, "MAX_BYTES", 1000)
    with pytest.raises(HostFault, match="more than 0 MiB"):
        services.printed(["sh", "-c", "yes"])
    monkeypatch.setattr(services, "SECONDS", 0.3)
    told = tmp_path / "told"
    with soon(), pytest.raises(HostFault, match="no whole answer in 0.3 seconds"):
        services.printed(["sh", "-c", f"sleep 100 & echo $! >{told}; sleep 100"])
    assert is_gone(int(told.read_text()))


def test_what_lives_on_holds_no_answer_up(monkeypatch):
    """As the daemon of a plug-in of kubectl, which keeps the output. The answer is whole."""
    with soon():
        process, word = services.printed(left_behind("print('a', flush=True)")).split()
    os.kill(int(process), signal.SIGKILL)
    assert word == b"a"
    monkeypatch.setattr(services, "SECONDS", 0.5)
    with soon(), pytest.raises(HostFault, match="no whole answer"):
        services.printed(left_behind("time.sleep(60)"))


@pytest.mark.parametrize("data", [b"", b"[]", b"{}", b'{"items": 5}', b'{"items": [5]}', b"\xff"])
def test_answers_that_are_no_lists(monkeypatch, data):
    monkeypatch.setattr(services, "printed", lambda _: data)
    with pytest.raises(HostFault):
        services.RunningService("k8s://").source()


def test_a_server_that_never_ends(monkeypatch):
    """One that gives page after page ends at a bound."""
    monkeypatch.setattr(services, "MOST_PAGES", 5)
    page = b'{"items": [], "metadata": {"continue": "x"}}'
    asked = []
    monkeypatch.setattr(services, "printed", lambda words: asked.append(words) or page)
    with pytest.raises(HostFault, match="5 pages"):
        services.RunningService("k8s://").source()
    assert len(asked) == 5


def test_a_server_that_gives_pages_slowly(monkeypatch):
    """Each page in time, and the list never: one deadline is over all pages."""
    assert services.MOST_SECONDS == 600
    monkeypatch.setattr(services, "MOST_SECONDS", 0.5)
    page = b'{"items": [], "metadata": {"continue": "x"}}'
    monkeypatch.setattr(services, "printed", lambda _: time.sleep(0.1) or page)
    with soon(), pytest.raises(HostFault, match="/api/v1/nodes: no whole list in 0.5 seconds"):
        services.RunningService("k8s://").source()
