"""Top: worked figures, alerts, metrics as Prometheus reads them, and who can read them."""
import json
import os
import re
import shlex
import shutil
import signal
import socket
import subprocess
import sys
import time
import urllib.error
import urllib.parse
import urllib.request
from fractions import Fraction

import pytest
import sockets
import trees
from arbiter import Host
from arbiter_host.base.faults import HostFault, UsageFault
from arbiter_host.base.model import Group, Model
from arbiter_host.base.plan import plan
from arbiter_host.sources import readings
from arbiter_host.top import metrics, top
from places import PACKAGE
from prometheus_client.openmetrics import parser
from prometheus_client.parser import text_string_to_metric_families
from test_prometheus import running

BOARD = PACKAGE.parent / "share/grafana.json"
PODS = PACKAGE / "tests/fixtures/pods.json"
TWO = Host(2, 100000, 1000)
# b has so little weight that it gets none of the 20 slices.
STARVES = (b"# arbiter run --processors 1 --period 100000 --slice 5000\nmkdir a\nmkdir b\n"
           b"write a cpu.weight 10000\nwrite b cpu.weight 1\ndemand a 20\ndemand b 20\n")


class World:
    """A tree of two groups with a clock. Ten seconds pass from one reading to the next."""

    def __init__(self, folder):
        self.top, self.now = folder / "t", 0.0
        trees.root2(self.top)
        self.put("web", 300, "50000 100000")
        self.put("batch", 100, "max 100000")

    def put(self, name, weight, maximum, usage=0, **counters):
        trees.group2(self.top / name, weight, maximum, 0, usage, threads=2, **counters)

    def tree(self, engine, want="psi"):
        return top.Watched(engine, readings.Tree(str(self.top), TWO, lambda: self.now), want)

    def later(self):
        """web used 5 s and was throttled in 40 of 100 periods; batch used 12 s and waited 2 s."""
        self.now += 10
        trees.root2(self.top, 17 * 10**6)
        self.put("web", 300, "50000 100000", 5 * 10**6, periods=100, throttled=40)
        self.put("batch", 100, "max 100000", 12 * 10**6, waited=2 * 10**6)


def test_figures_by_hand(engine, folder):
    """web wants its 500m * 100/60 = 833.3m, in slices 840m; batch wants 1200m / 0.8 = 1500m."""
    world = World(folder)
    tree = world.tree(engine)
    world.later()
    found = {each.path: each for each in tree.round().figures()}
    assert (found["web"].want, found["web"].plan) == (840, 500)
    assert (found["web"].got, found["web"].throttled, found["web"].off) == (500, Fraction(2, 5), 0)
    assert (found["batch"].want, found["batch"].plan) == (1500, 1500)
    assert (found["batch"].got, found["batch"].throttled, found["batch"].off) == (1200, 0, -300)
    assert (found["."].got, found["."].plan) == (1700, 2000)
    held = top.alerts(list(found.values()), top.conditions(
        "starved,throttled>39%,throttled>40%,lack>300m,lack>340m,off>299m,off>300m,b*:off,web:off"))
    assert [each[:2] for each in held] == [
        ("throttled>39%", "web"), ("lack>300m", "web"), ("off>299m", "batch"), ("b*:off", "batch")]
    # A group with children is compared where it is named: the host used 300m less than its plan.
    named = top.conditions(".:off>299m,.:off>300m,*:off>250m")
    assert [each[:2] for each in top.alerts(list(found.values()), named)] == [
        (".:off>299m", "."), ("*:off>250m", "batch")]


def test_groups_of_conditions():
    """A path, its end, a title, or a pattern of either, as `--set` takes them."""
    figures = top.GroupFigures("kubepods/a:web/app", "a/web/app", Fraction(0), Fraction(1), None,
                               None, False, True)
    for group, is_of in {"": True, "app": True, "a/web/app": True, "a/web/*": True,
                         "*web/app": True, "kubepods/*": True, "web": False, "b/*": False,
                         "pp": False}.items():
        one, = top.conditions(f"{group}:lack" if group else "lack")
        assert one.is_of(figures) == is_of, group
        assert len(top.missing([figures], [one])) == (not is_of)


def test_a_group_made_again_is_not_compared(engine, folder):
    """Its counters began anew. One that is new has no figures of use."""
    world = World(folder)
    tree = world.tree(engine)
    world.later()
    (world.top / "web").rename(folder / "old")
    world.put("web", 300, "50000 100000", 1)
    world.put("new", 100, "max 100000", 1)
    found = {each.path: each for each in tree.round().figures()}
    assert found["web"].got is None and found["new"].got is None
    assert found["batch"].got == 1200


@pytest.mark.parametrize("text, words", [
    ("frob", "not [GROUP:]starved"), ("starved>1", "starved has no number"),
    ("throttled>5", "no part of the periods"), ("throttled>101%", "no part of the periods"),
    ("throttled>", "not [GROUP:]"), ("lack>x", "no amount of CPU"), ("lack>-1", "no amount of CPU"),
    ("web:", "not [GROUP:]"), ("off>1e20", "is above"), ("starved for 0", "not [GROUP:]"),
    ("starved for", "not [GROUP:]"), ("lack>1m for x", "no amount of CPU"),
])
def test_conditions_that_are_refused(text, words):
    with pytest.raises(UsageFault) as fault:
        top.conditions(text)
    assert words in fault.value.message and fault.value.status == 2


def test_alerts_that_last(engine):
    """Raised once after so many rounds in a row, and again after a round without."""
    figures = {name: [top.GroupFigures("a", "", Fraction(0), Fraction(1), None, None,
                                       name == "yes", True)] for name in ("yes", "no")}
    state = top.State(top.conditions("starved for 2, a:lack>1m"))
    raised = [state.take(figures[each])
              for each in ("yes", "yes", "yes", "no", "yes", "yes")]
    alert = top.Alert("starved for 2", "a")
    assert raised == [[], [alert], [], [], [], [alert]]
    assert (state.held, state.rounds) == ([alert], 6)


def test_turns_leave_rounds_out():
    """Rounds stand at multiples of the interval. One that took too long leaves some out."""
    now, at = [0.0], []

    def sleep(seconds):
        now[0] += seconds

    for _ in readings.turns(readings.Times(Fraction(10), 5), lambda: now[0], sleep, 1):
        at.append(now[0])
        now[0] += 25 if len(at) == 2 else 1
    assert at == [10, 20, 50, 60]


# the command

def test_one_round_of_a_script(ctl, folder):
    """Status 5 and the group, or 0; one line of JSON."""
    (folder / "s.script").write_bytes(STARVES)
    words = ["top", folder / "s.script", "--read", "1x1s", "--alert"]
    out, err = ctl.run(*words, "starved", status=5)
    assert err == "arbiterctl: alert: starved: b\n"
    assert json.loads(out) == {"round": 1, "wanted_cpus": 2, "planned_cpus": 1,
                               "alerts": [{"alert": "starved", "group": "b"}]}
    assert json.loads(ctl.run(*words, "a:starved")[0])["alerts"] == []
    _, err = ctl.run(*words, "c:starved")
    assert err == "arbiterctl: warning: --alert c:starved: no group c is there\n"
    assert json.loads(ctl.run(*words, "starved for 2")[0])["alerts"] == []


def test_one_round_of_a_tree(ctl, folder):
    World(folder)
    words = ["top", folder / "t", "--cpus", "2", "--alert", "starved,throttled>5%", "--read"]
    out, _ = ctl.run(*words, "2x50ms")
    assert json.loads(out) == {"round": 1, "wanted_cpus": 0, "planned_cpus": 0, "alerts": []}
    assert "2 or more" in ctl.run(*words, "1x1s", status=2)[1]


def test_command_of_an_alert(ctl, folder):
    """It runs without a shell, once for an alert that stands, with JSON on its input."""
    (folder / "s.script").write_bytes(STARVES)
    log = folder / "log $(id)"
    script = "import sys; open(sys.argv[1], 'a').write(sys.argv[2] + sys.stdin.read())"
    command = shlex.join(["/usr/bin/python3", "-c", script, str(log), "$(id);"])
    out, err = ctl.run("top", folder / "s.script", "--alert", "starved", "--command", command,
                       "--read", "4x200ms", status=5)
    assert out.count('"alerts": [{"alert": "starved", "group": "b"}]') >= 2
    assert log.read_text() == '$(id);[{"condition": "starved", "group": "b"}]\n'
    for bad, why in (("/nowhere/x", "No such file"), ("false", "status 1")):
        _, err = ctl.run("top", folder / "s.script", "--alert", "starved", "--read", "1x1s",
                         "--command", bad, status=5)
        assert f"warning: --command {bad}: {why}" in err
    ctl.run("top", folder / "s.script", "--command", "'", status=2)


@pytest.mark.parametrize("words, told", [
    (["--alert", "throttled>5%"], "what is measured is a tree of cgroups, or told by --used"),
    (["--pods", "x"], "--pods: it has no effect on a source of the kind script"),
    (["--read", "1x0"], "--read: a time above 0"), (["--read", "5s"], "--read 5s: NxTIME"),
    (["--read", "1xy"], "--read: 'y' is no time"), (["--listen", "0.0.0.0:1"], "not a loopback"),
    (["--command", ""], "--command: it is empty"), (["--command", " "], "--command: it is empty"),
    (["-g", "b"], "--group: it has no effect on lines of json (-o text)"),
    (["-o", "json", "--unit", "m"], "--unit: it has no effect on lines of json (-o text)"),
    (["--command", "true"], "--command: it runs at an --alert, and none is given"),
    (["--listen", ""], "--listen: it is empty"), (["-o", "openmetrics="], "FORM=FILE"),
    (["-o", "openmetrics"], "-o openmetrics=FILE"), (["-o", "json=x"], "printed on standard"),
])
def test_words_that_are_refused(ctl, folder, words, told):
    (folder / "s.script").write_bytes(STARVES)
    assert told in ctl.run("top", folder / "s.script", *words, status=2)[1]
    assert "read once" in ctl.run("top", "-", status=2)[1]


def test_two_failed_rounds_end_it(ctl, folder):
    """One is told, and may pass."""
    _, err = ctl.run("top", folder / "none.script", "--read", "x50ms", status=1)
    assert err.count("No such file or directory") == 2 and "warning" in err


# metrics

def round_of(engine, *names):
    """A round of some groups that want 500m each, of one CPU."""
    model = Model(Host(1, 100000, 5000))
    for name in names:
        model.add(Group(name, demand=Fraction(500)))
    return top.PlannedRound(plan(engine, model), {names[0]: Fraction(250)},
                            {names[0]: Fraction(1, 4)})


def families(text):
    """Samples by name and group."""
    return {(sample.name, sample.labels.get("group", "")): sample.value
            for family in text_string_to_metric_families(text) for sample in family.samples}


def test_metrics_by_hand(engine):
    """Prometheus' own parsers read them, in both of its forms."""
    figured = metrics.Figured()
    figured.put(round_of(engine, "a", "b", "c").figures(), [top.Alert("lack>100m", "c")])
    found = families(metrics.text_of(figured).decode())
    # 20 slices of 50m for three wants of 10: 7, 7 and 6, the earlier ones first.
    assert [found["arbiter_plan_gets_cpus", each] for each in ".abc"] == [1, 0.35, 0.35, 0.3]
    assert found["arbiter_plan_wants_cpus", "b"] == 0.5
    assert (found["arbiter_got_cpus", "a"], found["arbiter_throttled_ratio", "a"]) == (0.25, 0.25)
    assert round(found["arbiter_off_cpus", "a"], 9) == -0.1
    assert ("arbiter_got_cpus", "b") not in found and found["arbiter_starved", "b"] == 0
    assert found["arbiter_alert", "c"] == 1
    assert {name for name, _ in found} == set(metrics.NAMES)
    text = metrics.text_of(figured).decode()
    parsed = list(parser.text_string_to_metric_families(text))
    assert {each.name for each in parsed} == set(metrics.NAMES) and text.endswith("# EOF\n")


NGINX = ("kubepods.slice/kubepods-burstable.slice/kubepods-burstable-pod00000001_0b1c_4d2e_8f3a_"
         f"0123456789ab.slice/cri-containerd-{'a1' * 32}.scope")
NAMED = "kubepods.slice/kubepods-burstable.slice/prod:web-7c9f/nginx"
OF_NGINX = {"namespace": "prod", "pod": "web-7c9f", "container": "nginx"}


def tree_of_pods(folder):
    """A tree in which nginx of pods.json, its pause container and a service stand."""
    trees.root2(folder)
    places = [NGINX, NGINX.replace("a1" * 32, "ff" * 32), "ssh.service"]
    for place in places:
        parts = place.split("/")
        for count in range(1, len(parts) + 1):
            trees.group2(folder / "/".join(parts[:count]), usage=5, periods=10, throttled=1)
    return folder


def test_names_of_pods(ctl, folder):
    """Alerts, their command, lines and metrics name namespace, pod and container, as
    kube-state-metrics does. What is of no container has no such name."""
    tree = tree_of_pods(folder / "t")
    (folder / "out").mkdir(mode=0o700)
    words = ("top", tree, "--pods", PODS, "--cpus", "1", "--want", "busy", "--read", "2x50ms")
    out, _ = ctl.run(*words, "--alert", "prod/*/nginx:lack>1m", "--command", "cat", "-o", "json",
                     "-o", f"openmetrics={folder}/out/m", status=5)
    given, line = (json.loads(each) for each in reversed(out.split("\n")[:2]))
    given, line = (given, line) if isinstance(given, list) else (line, given)
    assert given == [{"condition": "prod/*/nginx:lack>1m", "group": NAMED, **OF_NGINX}]
    assert line["alerts"] == [{"alert": "prod/*/nginx:lack>1m", "group": NAMED, **OF_NGINX}]
    samples = [each for family in text_string_to_metric_families((folder / "out/m").read_text())
               for each in family.samples if each.name == "arbiter_plan_gets_cpus"]
    named = {each.labels["group"]: {key: each.labels[key] for key in OF_NGINX if each.labels[key]}
             for each in samples}
    assert {group: names for group, names in named.items() if names} == {
        NAMED: OF_NGINX, NAMED.rpartition("/")[0]: {"namespace": "prod", "pod": "web-7c9f"}}
    out, _ = ctl.run(*words, "-o", "text")
    assert "  prod:web-7c9f\n" in out and "  nginx\n" in out and "cri-containerd-a1" not in out


def test_measured_pods_have_alerts_of_use(ctl, folder):
    """A source of pods that a tree or a file measures tells how far off its plan is."""
    words = ("top", PODS, PODS.parent / "node.json", "--read", "1x50ms", "--alert")
    used = ("--used", PODS.parent / "top.txt")
    out, err = ctl.run(*words, "prod/db-0/postgres:off<1m", *used, status=2)
    out, err = ctl.run(*words, "prod/*:off>250m,lack>250m", *used)
    assert json.loads(out)["alerts"] == []
    _, err = ctl.run(*words, "off>250m", status=2)
    assert "told by --used" in err


def test_names_are_asked_again(engine, folder):
    """Where a container came that has no name, once a minute; a failure leaves the names."""
    tree, asked = tree_of_pods(folder / "t"), []

    def ask():
        asked.append(None)
        if len(asked) == 3:
            raise HostFault("no answer")
        return {NGINX: ("prod", "web", "c")} if len(asked) > 1 else {}

    warned = []
    watched = top.Watched(engine, readings.Tree(str(tree), TWO, lambda: 0.0), "busy", ask,
                          warned.append)
    names = []
    for at in range(6):
        names.append({each.pod for each in watched.round().figures()} - {("", "", "")})
        if at == 3:
            trees.group2(tree / NGINX.replace("a1" * 32, "bb" * 32))
            watched.again = 0.0
    assert len(asked) == 3 and warned == ["no answer"]
    assert names == [set(), *[{("prod", "web", "c")}] * 5]


def test_metrics_join_those_of_kube_state_metrics(engine, folder):
    """By a real Prometheus: the plan of each container as a part of its request."""
    model = Model(Host(1, 100000, 1000))
    for at, namespace in enumerate(("a", "b"), 1):
        model.add(Group(namespace, demand=Fraction(100 * at), pod=(namespace, "web", "c")))
    figured = metrics.Figured()
    figured.put(top.PlannedRound(plan(engine, model)).figures(), [])
    lines = metrics.text_of(figured).decode().replace("# EOF\n", "").split("\n")
    lines += ["# TYPE kube_pod_container_resource_requests gauge",
              *(f'kube_pod_container_resource_requests{{namespace="{name}",pod="web",container="c",'
                f'resource="cpu",unit="core",node="n",uid="u"}} {request}'
                for name, request in (("a", 0.2), ("b", 0.8))), "# EOF", ""]
    at = 1767607200
    text = "\n".join(f"{each} {at}" if each and each[0] != "#" else each for each in lines if each)
    query = ("arbiter_plan_gets_cpus / on (namespace, pod, container)"
             ' kube_pod_container_resource_requests{resource="cpu"}')
    with running(folder, text + "\n") as url:
        found = json.load(urllib.request.urlopen(f"{url}/api/v1/query?" + urllib.parse.urlencode(
            {"query": query, "time": at + 1}), timeout=20))
    assert {each["metric"]["namespace"]: each["value"][1] for each in found["data"]["result"]} == {
        "a": "0.5", "b": "0.25"}


def test_metrics_have_no_fault_by_promtool(engine):
    if shutil.which("promtool") is None:
        pytest.skip("no promtool (package prometheus)")
    figured = metrics.Figured()
    figured.put(round_of(engine, "a", "x\x1b\\\"{").figures(), [top.Alert("starved", "a")])
    text = metrics.text_of(figured)
    ended = subprocess.run(["promtool", "check", "metrics"], input=text, capture_output=True,
                           timeout=60, check=False)
    assert (ended.returncode, ended.stdout, ended.stderr) == (0, b"", b"")
    ended = subprocess.run(["promtool", "check", "metrics"], input=text + b"a{b=} 1\n",
                           capture_output=True, timeout=60, check=False)
    assert ended.returncode != 0


def test_hostile_names_in_metrics(engine):
    names = ["a\"b\\c", "x\x1b[31m", "\u202eb", "c\ufffdd", "{e=\"f\"} 7"]
    figured = metrics.Figured()
    figured.put(round_of(engine, *names).figures(), [])
    text = metrics.text_of(figured).decode()
    assert "\x1b" not in text and "\u202e" not in text
    found = {group for name, group in families(text) if name == "arbiter_starved"}
    assert found == {".", "a\"b\\c", "x\\x1b[31m", "\\u202eb", "c\ufffdd", "{e=\"f\"} 7"}


@pytest.fixture
def served(ctl, folder):
    """A `top` that listens at a free port: its process, its address, and the lines it prints."""
    (folder / "s.script").write_bytes(STARVES)
    words = [sys.executable, PACKAGE / "arbiterctl", "top", folder / "s.script", "--listen",
             "127.0.0.1:0", "--read", "300x200ms", "--alert", "starved"]
    process = subprocess.Popen(list(map(str, words)), env=ctl.environment, stdout=subprocess.PIPE,
                               stderr=subprocess.PIPE, text=True)
    told = process.stderr.readline()
    where = re.fullmatch(r"arbiterctl: http://(127\.0\.0\.1:([0-9]+))/metrics\n", told)
    assert where, told
    assert json.loads(process.stdout.readline())["round"] == 1
    yield process, where.group(1)
    process.kill()
    process.communicate()


def asked(address, path="/metrics", method="GET", **headers):
    """Status and text of an answer."""
    request = urllib.request.Request(f"http://{address}{path}", headers=headers, method=method)
    try:
        with urllib.request.urlopen(request, timeout=20) as answer:
            return answer.status, answer.read().decode()
    except urllib.error.HTTPError as error:
        return error.code, error.read().decode()


def test_listens_at_loopback_alone(served):
    """One socket, of 127.0.0.1. It answers GET /metrics of a loopback name, and nothing else."""
    process, address = served
    port = address.partition(":")[2]
    assert sockets.listening(process.pid) == [f"tcp 0100007F:{port}"]
    status, text = asked(address)
    assert status == 200 and families(text)["arbiter_alert", "b"] == 1
    status, text = asked(address, Accept="application/openmetrics-text; version=1.0.0")
    assert status == 200 and text.endswith("# EOF\n")
    assert asked(address, Host=f"localhost:{port}")[0] == 200
    assert asked(address, Host="evil.example")[0] == 403
    assert asked(address, Host=f"evil.example:{port}")[0] == 403
    assert asked(address, "/")[0] == 404 and asked(address, method="POST")[0] == 404


def test_a_reader_that_says_nothing_holds_nobody_up_for_long(served):
    _, address = served
    host, _, port = address.partition(":")
    with socket.create_connection((host, int(port)), timeout=20):
        begun = time.monotonic()
        assert asked(address)[0] == 200
        assert time.monotonic() - begun < 3 * metrics.SECONDS


@pytest.mark.parametrize("host, is_answered", [
    ("127.0.0.1", True), ("127.0.0.1:9101", True), ("127.9.9.9", True), ("localhost:1", True),
    ("LOCALHOST", True), ("[::1]:9101", True), ("127.evil.example", False), ("", False),
    ("127.0.0.1.evil.example:9101", False), ("localhost.evil.example", False),
    ("[::1].evil.example", False), ("8.8.8.8", False), ("[2001:db8::1]:80", False),
])
def test_names_of_a_browser(host, is_answered):
    """A name of somebody's domain that begins as a loopback address is none."""
    told, (one, _) = [], socket.socketpair()
    metrics.guarded(metrics.Figured())(
        {"HTTP_HOST": host, "PATH_INFO": "/metrics", "REQUEST_METHOD": "GET", "QUERY_STRING": "",
         metrics.TIME: metrics.Patience(one)}, lambda status, _: told.append(status[:3]))
    assert told == ["200" if is_answered else "403"]


def test_a_slow_reader_is_cut_off(monkeypatch, capfd):
    """One that asks letter by letter, and one that takes nothing of a long answer: neither holds
    the next one up for long, or leaves a word in the log."""
    monkeypatch.setattr(metrics, "SECONDS", 3)
    figured = metrics.Figured()
    # (an answer of some megabytes fits into no socket)
    none = Fraction(0)
    figured.put([top.GroupFigures(f"{at}" * 40, "", none, none, none, none, False, True)
                 for at in range(6000)], [])
    where = metrics.serve("127.0.0.1:0", figured)
    begun = time.monotonic()
    with socket.create_connection(where, timeout=30) as slow:
        slow.setsockopt(socket.SOL_SOCKET, socket.SO_RCVBUF, 4096)
        slow.sendall(b"GET /metrics HTTP/1.0\r\nHost: 127.0.0.1\r\n\r\n")
        with socket.create_connection(where, timeout=30) as letters:
            with pytest.raises(OSError):
                while time.monotonic() < begun + 30:
                    letters.sendall(b"G")
                    time.sleep(0.1)
            assert asked(f"127.0.0.1:{where[1]}")[0] == 200
    assert time.monotonic() - begun < 60
    assert capfd.readouterr().err == ""


def test_interrupt_ends_it(served):
    process, _ = served
    process.send_signal(signal.SIGINT)
    assert process.wait(timeout=20) == -signal.SIGINT


@pytest.mark.parametrize("text", [
    "0.0.0.0:9101", ":9101", "9101", "[::]:9101", "192.168.0.1:9101", "example.com:80",
    "127.0.0.1:65536", "127.0.0.1:-1", "127.0.0.1:", "127.0.0.1.evil.com:1", "127.0.0.1:1\n",
    "[::1%lo]:1x",
])
def test_addresses_that_are_refused(text):
    with pytest.raises(UsageFault):
        metrics.address_of(text)


@pytest.mark.parametrize("text, found", [
    ("127.0.0.1:9101", ("127.0.0.1", 9101)), ("localhost:1", ("127.0.0.1", 1)),
    ("[::1]:0", ("::1", 0)), ("127.9.9.9:65535", ("127.9.9.9", 65535)),
])
def test_addresses(text, found):
    assert metrics.address_of(text) == found


def test_a_port_that_is_taken(ctl, folder):
    (folder / "s.script").write_bytes(STARVES)
    with socket.socket() as other:
        other.bind(("127.0.0.1", 0))
        other.listen()
        where = f"127.0.0.1:{other.getsockname()[1]}"
        _, err = ctl.run("top", folder / "s.script", "--read", "1x1s", "--listen", where, status=1)
    assert f"--listen {where}: Address already in use" in err


def test_textfile(ctl, folder, engine, monkeypatch):
    """Whole or not at all; neither a link nor a file of another is replaced."""
    os.mkdir(folder / "d", 0o755)
    (folder / "s.script").write_bytes(STARVES)
    (folder / "mine").write_text("mine")
    path = folder / "d/arbiter.prom"
    words = ["top", folder / "s.script", "--read", "1x1s", "-o", f"openmetrics={path}"]
    for make in (lambda: path.symlink_to(folder / "mine"), lambda: path.write_text("mine")):
        make()
        ctl.run(*words, status=1)
        assert (folder / "mine").read_text() == "mine" == path.read_text()
        path.unlink()
    for _ in range(2):
        ctl.run(*words)
        assert families(path.read_text())["arbiter_starved", "b"] == 1
    assert os.listdir(folder / "d") == ["arbiter.prom"]
    before = path.read_bytes()
    figured = metrics.Figured()
    figured.put(round_of(engine, "other").figures(), [])

    def full(*_, **__):
        raise OSError(28, "No space left on device")

    monkeypatch.setattr(os, "rename", full)
    with pytest.raises(HostFault, match="No space left"):
        metrics.File(str(path)).put(figured)
    assert path.read_bytes() == before and os.listdir(folder / "d") == ["arbiter.prom"]
    os.chmod(folder / "d", 0o777)
    _, err = ctl.run(*words, status=1)
    assert "other users may change this folder" in err


def test_everybody_reads_a_textfile(folder):
    """Whatever the umask of the command is: the collector is another user."""
    before = os.umask(0o077)
    try:
        metrics.File(str(folder / "x.prom")).put(metrics.Figured())
    finally:
        os.umask(before)
    assert (folder / "x.prom").stat().st_mode & 0o777 == 0o644


def test_a_textfile_that_fails_later(ctl, folder):
    """It is told once, and the rounds go on; where it cannot be begun they do not begin."""
    os.mkdir(folder / "d", 0o755)
    (folder / "s.script").write_bytes(STARVES)
    words = [sys.executable, PACKAGE / "arbiterctl", "top", folder / "s.script", "-o",
             f"openmetrics={folder}/d/x.prom", "--read", "x100ms"]
    process = subprocess.Popen(list(map(str, words)), env=ctl.environment, stdout=subprocess.PIPE,
                               stderr=subprocess.PIPE, text=True)
    process.stdout.readline()
    os.chmod(folder / "d", 0o777)
    for _ in range(10):
        process.stdout.readline()
    os.chmod(folder / "d", 0o755)
    (folder / "d/x.prom").unlink()
    for _ in range(10):
        process.stdout.readline()
    process.send_signal(signal.SIGINT)
    err = process.communicate(timeout=30)[1]
    assert process.returncode == -signal.SIGINT and (folder / "d/x.prom").exists()
    assert err.count("\n") == 1 == err.count("other users may change this folder")


def test_dashboard():
    """Its queries name metrics that `top` has, and all of them."""
    board = json.loads(BOARD.read_text())
    queries = [each["expr"] for panel in board["panels"] for each in panel["targets"]]
    named = {name for query in queries for name in re.findall(r"arbiter_\w+", query)}
    # (those of `hold` are in test_hold_told)
    assert {name for name in named if "_hold_" not in name} == set(metrics.NAMES)
    assert len({panel["id"] for panel in board["panels"]}) == len(board["panels"]) == 12
    assert [each["name"] for each in board["templating"]["list"]] == ["datasource", "group"]
    places = [panel["gridPos"] for panel in board["panels"]]
    for at, one in enumerate(places):
        for two in places[:at]:
            assert not (one["x"] < two["x"] + two["w"] and two["x"] < one["x"] + one["w"]
                        and one["y"] < two["y"] + two["h"] and two["y"] < one["y"] + one["h"])
