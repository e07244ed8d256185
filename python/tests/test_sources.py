"""Readers and writers: what each takes from its format, and that what is written is read back."""
import gzip
import json
import os
import re
import subprocess
import sys
import threading
from fractions import Fraction
from pathlib import Path

import pytest
import reading
import trees
from arbiter import Host
from arbiter_host.base import demands, plain_files, units
from arbiter_host.base.faults import HostFault
from arbiter_host.base.model import Group, Model
from arbiter_host.base.plan import plan
from arbiter_host.sources import cgroups, hostfile, kubernetes, readings, script
from chances import cases
from hypothesis import HealthCheck, given, settings
from hypothesis import strategies as st
from places import PACKAGE

FIXTURES = Path(__file__).parent / "fixtures"
EIGHT = Host(8, 100000, 1000)


def fixture(name):
    """A fixture's name and bytes."""
    return name, (FIXTURES / name).read_bytes()


def of(group):
    """Weight, quota and period of a group."""
    return group.weight, group.quota, group.period


def pods(engine, **wish):
    """The model of the pods and the node."""
    files = [fixture("pods.json"), fixture("node.json")]
    return reading.pods(files, None, engine.library, **wish)


# scripts

COMMANDS = st.sampled_from(["mkdir", "rmdir", "demand", "write", "read", "period", "total", "x"])
PATHS = st.sampled_from(["a", "b", "a/b", "a/c", ".", "a/", "/a", "..", "./a", "a//b", "c" * 256])
FILES = st.sampled_from(["cpu.weight", "cpu.max", "cpu.max.burst", "cpu.stat", "x"])
WORDS = st.sampled_from(["1", "0", "max", "50000", "50000 100000", "999 1", "max 1000001", "07",
                         "10000000000000001", "20000", "a b c", "", "\x0b5", "5\r", "30000 50000",
                         "10001", "1000001", "20"])


@st.composite
def scripts(draw):
    """Scripts with right and wrong lines of all kinds."""
    lines = []
    for _ in range(draw(st.integers(1, 20))):
        command, path, word = draw(COMMANDS), draw(PATHS), draw(WORDS)
        rest = {"write": f" {path} {draw(FILES)} {word}", "read": f" {path} {draw(FILES)}",
                "demand": f" {path} {word}", "mkdir": f" {path}", "rmdir": f" {path}"}
        lines.append(command + rest.get(command, ""))
    return "".join(f"{line}\n" for line in lines)


def answered(program, text):
    """The numbers of the refused lines by the program, and the certified rows at the end."""
    asked = [(number, line) for number, line in enumerate(text.split("\n")[:-1], 1)
             if not re.match("[ \t]*(#|$)", line)]
    given_ = "".join(f"{line}\ndemand . 0\n" for _, line in asked) + "cert\n"
    said = program.run(["run", "--processors", "2"], given_.encode()).out.decode()
    answers, found = [], []
    for line in said.split("\n")[:-1]:
        if found and line == "error 26 RootFixed":
            answers.append(found)
            found = []
        else:
            found.append(line)
    refused = [(number, int(each[0].split(" ")[1])) for (number, _), each in zip(asked, answers)
               if each[0].startswith("error ")]
    return refused, [line.split(" ")[:5] for line in found[1:]]


@settings(max_examples=cases(150), deadline=None, suppress_health_check=list(HealthCheck))
@given(text=scripts())
def test_script_is_read_as_the_program_reads_it(program, engine, text):
    """The same refused lines by the same numbers, and the same rows and amounts at the end."""
    model = reading.lines(text.encode(), "F", engine, Host(2, 100000, 5000))
    refused = [(int(each.split(":")[1]), int(each.split("error ")[1].split(" ")[0]))
               for each in model.refused]
    amounts = engine.plan(model.host, model.rows(engine.library)).amounts
    rows = [["-" if row.parent is None else str(row.parent), str(row.weight),
             "max" if row.limit is None else str(row.limit), str(row.demand), str(gets)]
            for row, gets in zip(model.rows(engine.library), amounts)]
    assert (refused, rows) == answered(program, text)


@pytest.mark.parametrize("line, host", [
    ("# arbiter run --processors 4 --period 50000 --slice 1000", Host(4, 50000, 1000)),
    ("#     ./arbiter run --processors 4 --slice 1000 < examples/node.script",
     Host(4, 100000, 1000)),
    ("# about arbiter run --processors 4", None), ("# arbiter run", None),
])
def test_script_head(line, host):
    assert script.head_host([b"# first", line.encode(), b"mkdir a"]) == host


def test_script_head_line_behind_a_command():
    assert script.head_host([b"mkdir a", b"# arbiter run --processors 4"]) is None


def test_script_saves_up(engine):
    """What a period leaves is in the limit of the next one: 6 + 10, at most 10 + 5."""
    text = b"mkdir a\nwrite a cpu.max 50000\nwrite a cpu.max.burst 25000\ndemand a 4\nperiod\n"
    model = reading.lines(text + b"demand a 20\n", "F", engine, Host())
    assert plan(engine, model).groups[1].limit == 15


AGAIN = "demand a 0\nrmdir a\nmkdir a\n"


@pytest.mark.parametrize("text, tasks, demand, place", [
    ("", 1, 3000, "x"), ("demand a 4\n", 1, 200, "x"), ("# tasks 2\ndemand a 4\n", 2, 200, "x"),
    ("demand a 5000000\n", 1, 3000, "x"), (f"{AGAIN}demand a 4\n", None, 200, ""),
    (f"{AGAIN}mkdir a\n", None, 0, ""), ("# at y\nmkdir ./a\n", 1, 3000, "x"),
])
def test_comments_of_later_lines(engine, text, tasks, demand, place):
    """A later demand keeps the tasks, and a group that is made again has none."""
    first = "# at x\nmkdir ./a\n# tasks 1, asks 3cpu\ndemand a 20\n"
    group = reading.lines((first + text).encode(), "F", engine, Host()).groups["a"]
    assert (group.tasks, group.demand, group.place) == (tasks, demand, place)


def test_script_for_many_cpus(engine):
    """Above 64 CPUs a script is read as for 64, but not where a period left a burst over."""
    text = b"mkdir a\nwrite a cpu.max 50000\ndemand a 4\nperiod\n"
    host = Host(96, 100000, 5000)
    assert reading.lines(text, "F", engine, host).groups["a"].quota == 50000
    burst = b"write a cpu.max.burst 25000\n"
    with pytest.raises(HostFault, match="96 CPUs: a script with bursts and `period` lines"):
        reading.lines(text.replace(b"demand", burst + b"demand"), "F", engine, host)


def test_script_warns(engine):
    assert "no head line" in reading.lines(b"mkdir a\n", "F", engine).notes[0]
    head = b"# arbiter run --processors 4 --period 100000 --slice 1000\n"
    assert reading.lines(head, "F", engine).notes == []
    other = Host(2, 100000, 1000)
    assert "differ from its head line" in reading.lines(head, "F", engine, other).notes[0]
    assert reading.lines(b"mkdir a\n", "F", engine, other).notes == []


@pytest.mark.parametrize("comment, tasks, asks", [
    ("# tasks 2", 2, 500), ("# tasks 2, asks 9cpu", None, 500), ("# tasks 0", None, 500),
    ("# tasks 1, asks 500m", 1, 500), ("# tasks x", None, 500), ("# tasks 2\n#", None, 500),
])
def test_tasks_above_a_demand(comment, tasks, asks, engine):
    """They are taken where they are of this demand: half a CPU that one task or two can use."""
    text = f"mkdir a\n{comment}\ndemand a 10\n"
    group = reading.lines(text.encode(), "F", engine, Host()).groups["a"]
    assert (group.tasks, group.demand) == (tasks, asks)


def test_tasks_that_cut_are_kept(engine):
    """A demand of 6 CPUs of one task is one CPU, and reads back as 6 CPUs of one task."""
    model = Model(Host(8, 100000, 5000))
    model.add(Group("a", demand=Fraction(6000), tasks=1))
    text = script.write(model, engine.library)
    assert text.endswith("# tasks 1, asks 6cpu\ndemand a 20\n")
    group = reading.lines(text.encode(), "F", engine).groups["a"]
    assert (group.tasks, group.demand, group.usable) == (1, 6000, 1000)


def test_script_with_carriage_returns(engine):
    """They are parts of words, as for the program, and that is told."""
    model = reading.lines(b"mkdir a\r\ndemand a 5\r\n", "F", engine, Host())
    assert list(model.groups) == ["a\r"] and len(model.refused) == 1
    assert any("carriage returns" in note for note in model.notes)


# models that are written and read

NAMES = st.text(st.characters(blacklist_categories=["Cs"], blacklist_characters="/ \t\n\0"),
                min_size=1, max_size=12).filter(lambda name: name not in (".", ".."))


@st.composite
def models(draw):
    """Models with all settings and names of all letters."""
    host = Host(draw(st.integers(1, 64)), 100000, draw(st.sampled_from([1000, 5000])))
    model = Model(host)
    for name in draw(st.lists(NAMES, max_size=5, unique=True)):
        quota = draw(st.one_of(st.none(), st.integers(1000, 10**15)))
        group = Group(name, draw(st.integers(1, 10000)), quota, draw(st.integers(1000, 10**6)))
        group.burst = draw(st.integers(0, min(quota or 10**15, 10**15)))
        slices = draw(st.integers(0, 100000))
        group.demand = units.thousandths_of_slices(slices, host.period_us, host.slice_us)
        group.tasks = draw(st.one_of(st.none(), st.integers(0, 8)))
        model.add(group)
    return model


def same_model(engine, one, two):
    assert one.host == two.host and one.rows(engine.library) == two.rows(engine.library)
    assert {path: (of(each), each.burst) for path, each in one.groups.items()} == {
        path: (of(each), each.burst) for path, each in two.groups.items()}


@settings(max_examples=cases(80), deadline=None)
@given(model=models())
def test_script_round_trip(model, engine):
    read = reading.lines(script.write(model, engine.library).encode(), "F", engine)
    assert read.refused == [] and read.notes == []
    same_model(engine, model, read)


@pytest.mark.parametrize("kind, writer", [
    ("toml", hostfile.write_toml), ("json", hostfile.write_json)])
@settings(max_examples=cases(60), deadline=None)
@given(model=models())
def test_host_file_round_trip(engine, kind, writer, model):
    same_model(engine, model, reading.host_file(writer(model).encode(), "F", kind))


# host files

TOML = b"""[host]
cpus = 16
period = "100ms"
slice = "1ms"

[groups."system.slice/web.service"]
weight = 200
max = "2cpu"
demand = "1.5cpu"
tasks = 3
"""


def test_host_file():
    model = reading.host_file(TOML, "h.toml", "toml")
    assert model.host == Host(16, 100000, 1000)
    assert list(model.groups) == ["system.slice", "system.slice/web.service"]
    group = model.groups["system.slice/web.service"]
    assert (of(group), group.demand, group.tasks) == ((200, 200000, 100000), 1500, 3)


@pytest.mark.parametrize("text, words", [
    ("[host]\ncpus = 0\n", "h: host: CPUs 0: not 1 to 64000"),
    ("[host]\ncpus = 1\n[groups.a]\nweight = 0\n", "h: a: weight 0: not 1 to 10000"),
    ("[groups.a]\n\nmax = '2cup'\n", "h: a: max: '2cup' is no amount of CPU"),
    ("[groups.a]\nmax = '1us'\n", "h: a: max:"),
    ("[groups.a]\nfrob = 1\n", "h: a: no key 'frob'"),
    ("[groups.a]\nburst = '1s'\nmax = '1cpu'\n", "h: a: burst 1000000: above the quota"),
    ("[groups.a]\ndemand = 1\n[groups.'a/b']\n", "h: a: a group with children has no demand"),
    ("[groups]\na = 1\n", "h: a: a group is a table"), ("a = 1\n", "h: no table 'a'"),
    ("[host]\ncpus = \n", "h:2: "), ("[groups.'a b']\n", "h: a b: a path is"),
])
def test_host_file_names_table_and_key(text, words):
    with pytest.raises(HostFault) as fault:
        reading.host_file(text.encode(), "h", "toml")
    assert words in fault.value.message


@pytest.mark.parametrize("text, kind, words", [
    ('apiVersion = "v1"\nkind = "Pod"\n', "toml", "h: an object of Kubernetes, of which pods and"
     " nodes are read as JSON: kubectl get pods -o json"),
    ('{"kind": "PodMetricsList",\n "apiVersion": "metrics.k8s.io/v1beta1"}', "json",
     "h: an object of Kubernetes, of which pods"),
])
def test_what_is_no_host_file_is_named(text, kind, words):
    with pytest.raises(HostFault, match="^" + re.escape(words)):
        reading.host_file(text.encode(), "h", kind)


def test_yaml_is_refused_by_name(ctl, folder):
    """It is refused in one line, and not read as something else."""
    (folder / "h.yaml").write_text("groups: {}\n")
    _, err = ctl.run("explain", folder / "h.yaml", status=1)
    assert "h.yaml: YAML is not read: write TOML or JSON" in err and err.count("\n") == 1


@pytest.mark.parametrize("text, words", [
    ('{"groups": {"host": {}},\n"host": {"cpus": 0}}', "h: host: CPUs 0:"),
    ('{"groups": {\n"a": 1}}', "h: a: a group is a table"), ('{"a": 1}', "h: no table 'a'"),
    ('{"groups": [1]}', "h: groups is a table of paths"),
    ("7", "h: a host file is a table"),
])
def test_faults_of_json(text, words):
    with pytest.raises(HostFault) as fault:
        reading.host_file(text.encode(), "h", "json")
    assert words in fault.value.message


# cgroups

# A thousandth of a second from one reading to the next.
QUICK = readings.Times(Fraction(1, 1000))


def copies(folder, **groups):
    """Two copies of a tree: each group has the usage in 10 seconds and its settings."""
    for copy, factor in (("a", 0), ("b", 1)):
        trees.root2(folder / copy)
        for name, entry in groups.items():
            counters = {key: entry[key] * factor for key in ("usage", "periods", "throttled",
                                                             "waited") if key in entry}
            trees.group2(folder / copy / name.replace("__", "/"), **{**entry, **counters})
    return [str(folder / "a"), str(folder / "b")], readings.Times(Fraction(10))


def test_cgroup2(folder):
    """Settings as they stand; the demand is what was used: 5 of 10 seconds are 500m."""
    tops, times = copies(folder, web={"weight": 200, "maximum": "50000 200000", "burst": 7000,
                                    "usage": 5 * 10**6, "threads": 4},
                       idle={"weight": 0}, box={}, box__in={"usage": 10**6})
    model = cgroups.read(tops, EIGHT, times)
    assert list(model.groups) == ["box", "box/in", "idle", "web"]
    web = model.groups["web"]
    assert (of(web), web.burst, web.demand, web.tasks) == ((200, 50000, 200000), 7000, 500, 4)
    assert model.groups["idle"].weight == 1 and model.groups["box/in"].demand == 100
    assert any(note.startswith("idle: idle") for note in model.notes)


@pytest.mark.parametrize("want, demand", [
    # Used 400m of 8 CPUs, waited in half of the time; throttled in 50 of 100 periods of 500m.
    ("usage", 400), ("peak", 400), ("p95", 400), ("psi", 1000), ("limit", 500), ("busy", 8000),
])
def test_wants(folder, want, demand):
    tops, times = copies(folder, web={"maximum": "50000 100000", "usage": 4 * 10**6, "threads": 9,
                                    "periods": 100, "throttled": 50, "waited": 5 * 10**6})
    assert cgroups.read(tops, EIGHT, times, want).groups["web"].demand == demand


def test_busy_without_tasks(folder, engine):
    """One line tells how many groups have no task and so ask for nothing."""
    trees.root2(folder)
    for path, threads in (("a", 2), ("b", 0), ("c", 0), ("c/in", 0)):
        trees.group2(folder / path, threads=threads)
    for want, wanted in (("limit", []), ("busy", ["groups without a task, which ask for nothing:"
                                                  " 2 of 3 (--want busy)"])):
        model = cgroups.read([str(folder)], EIGHT, QUICK, want)
        assert [note for note in model.notes if "without a task" in note] == wanted
    assert [each.demand for each in model.groups.values()] == [8000, 0, 0, 0]
    assert not any("without a task" in note for note in pods(engine, want="busy").notes)


def test_pressure_alone(folder):
    """400m used with pressure in half of the time is a demand of 800m."""
    tops, times = copies(folder, web={"usage": 4 * 10**6, "waited": 5 * 10**6})
    assert cgroups.read(tops, EIGHT, times, "psi").groups["web"].demand == 800


def test_samples():
    """Peak and 95th percentile of readings one second apart."""
    usage = [0, *(sum(range(1, count + 1)) * 1000 for count in range(1, 101))]
    measured = demands.Measured([demands.CounterReading(each) for each in usage])
    group = Group("a")
    found = [demands.wanted(want, group, measured, EIGHT, Fraction(1))
             for want in ("usage", "peak", "p95")]
    assert found == [Fraction(101, 2), 100, 95]


def test_groups_come_and_go(folder):
    """A loop that makes and removes groups beside the reader costs no run."""
    trees.root2(folder)
    trees.group2(folder / "stay", usage=5)
    stop = threading.Event()

    def churn():
        number = 0
        while not stop.is_set():
            number += 1
            place = folder / f"run-{number % 7}.scope"
            trees.group2(place / "inner")
            for each in (place / "inner", place):
                for name in os.listdir(each) if each.is_dir() else []:
                    if (each / name).is_file():
                        (each / name).unlink()
                each.rmdir()

    beside = threading.Thread(target=churn)
    beside.start()
    try:
        for _ in range(25):
            model = cgroups.read([str(folder)], EIGHT, QUICK)
            assert "stay" in model.groups
    finally:
        stop.set()
        beside.join()


def test_gone_at_the_second_reading(folder):
    tops, times = copies(folder, web={"usage": 10**6})
    for name in os.listdir(folder / "b/web"):
        (folder / "b/web" / name).unlink()
    model = cgroups.read(tops, EIGHT, times)
    assert model.groups["web"].demand == 0
    assert "web: gone at a later reading" in model.notes


def test_controller_that_is_not_enabled(folder):
    trees.root2(folder, enabled="memory")
    trees.put(folder / "a", cpu_stat="usage_usec 5")
    notes = cgroups.read([str(folder)], EIGHT, QUICK).notes
    assert any("the cpu controller is not enabled here" in note for note in notes)
    assert any("no cpu.weight" in note for note in notes)


def test_folders_that_are_no_tree(folder):
    with pytest.raises(HostFault, match="No such file"):
        cgroups.read([str(folder / "no")], EIGHT)
    with pytest.raises(HostFault, match="so no cgroup tree$"):
        cgroups.read([str(folder)], EIGHT)
    trees.root2(folder / "unified")
    with pytest.raises(HostFault, match="/unified is one"):
        cgroups.read([str(folder)], EIGHT)
    # A host with both has the controller in one of them.
    trees.put(folder / "cpu", cpu_shares="1024")
    with pytest.raises(HostFault, match="/unified is one"):
        cgroups.read([str(folder)], EIGHT)
    trees.put(folder / "unified", cgroup_controllers="hugetlb")
    with pytest.raises(HostFault, match="cgroup v1 is not read"):
        cgroups.read([str(folder)], EIGHT)


def test_names_of_a_tree(folder, engine):
    trees.root2(folder)
    for raw in (b"a b", b"x\xff", b"\x1b[31m", "\u00fc".encode()):
        trees.group2(os.path.join(os.fsencode(folder), raw).decode(errors="surrogateescape"))
    model = cgroups.read([str(folder)], EIGHT, QUICK)
    assert sorted(model.groups) == ["%1B[31m", "a%20b", "x%FF", "\u00fc"]
    assert "\x1b" not in script.write(model, engine.library).split("mkdir")[0]


@pytest.mark.parametrize("name, text", [
    ("h.toml", '[host]\ncpus = 2\nperiod = "100ms"\n[groups.a]\nmax = "30%"\ndemand = "1m"\n'
     '[groups."b/c"]\ntasks = 1\n'),
    ("h.script", "# arbiter run --processors 2 --slice 1000\nmkdir a\nwrite a cpu.max 30000\n"
     "demand a 1\nmkdir b\nmkdir b/c\n# tasks 1\ndemand b/c 0\n"),
])
def test_want_of_what_says_its_demands(ctl, folder, name, text):
    """A limit of 30 slices; two CPUs, 200 slices, of which one task can use 100."""
    (folder / name).write_text(text)
    for want, wants in (("limit", [30, 100]), ("busy", [200, 100])):
        out, _ = ctl.run("explain", folder / name, "--want", want, "-o", "json")
        found = json.loads(out)["groups"]
        assert [each["wants"]["slices"] for each in found if each["group"] in ("a", "b/c")] == wants
    _, err = ctl.run("explain", folder / name, "--want", "psi", status=2)
    assert "--want psi: a" in err and "takes limit or busy, or says its demands itself" in err


# files

def test_groups_with_cpus_of_their_own_are_told(engine, folder):
    """They have as many CPUs at most. Of a tree, of units and of containers they are named."""
    trees.root2(folder)
    for name, cpus in (("a", "0-1"), ("b", ""), ("c", "3")):
        trees.group2(folder / name)
        trees.put(folder / name, cpuset_cpus=cpus)
    told = "bound to CPUs: {}: each has as many at most; which they are, and who else is on them"
    tree = cgroups.read([str(folder)], EIGHT, QUICK)
    assert sum(each.startswith(told.format("a, c")) for each in tree.notes) == 1
    assert [each.keeps_to for each in tree.groups.values()] == [2, None, 1]
    units_ = b"Id=a.service\nControlGroup=/a.service\nAllowedCPUs=0-1\n\nId=b.service\n" \
        b"ControlGroup=/b.service\nAllowedCPUs=\n"
    model = reading.units([("u", units_)], EIGHT)
    assert [each.startswith(told.format("a.service")) for each in model.notes] == [True]
    assert [each.keeps_to for each in model.groups.values()] == [2, None]
    raw = [{"Id": f"{at}", "Name": f"/c{at}", "HostConfig": {"CpusetCpus": "0" if at < 7 else ""}}
           for at in range(8)]
    notes = reading.docker([("d", json.dumps(raw).encode())], EIGHT, engine.library).notes
    named = ", ".join(f"system.slice/c{at}" for at in range(5)) + " and 2 more"
    assert [each.startswith(told.format(named)) for each in notes] == [True]


def test_packed_files_are_named(folder):
    """One line says what unpacks them."""
    (folder / "pods.json.gz").write_bytes(gzip.compress(b"{}"))
    with pytest.raises(HostFault, match="pods.json.gz: packed by gzip: unpack it first, as by"):
        plain_files.file_bytes(str(folder / "pods.json.gz"))


@pytest.mark.parametrize("form", ["utf-16-le", "utf-16-be", "utf-8"])
def test_files_of_powershell(ctl, folder, form):
    """`kubectl .. > FILE` writes UTF-16 with a mark and Windows line ends there."""
    for name in ("pods.json", "node.json"):
        text = "\ufeff" + fixture(name)[1].decode().replace("\n", "\r\n")
        (folder / name).write_bytes(text.encode(form))
    words = ("export", "-o", "json")
    assert (ctl.run(*words, folder / "pods.json", folder / "node.json")[0]
            == ctl.run(*words, FIXTURES / "pods.json", FIXTURES / "node.json")[0])


def test_what_is_no_source_has_no_plan(ctl):
    """Lines that no source has are no script of a host without groups, unless they are called one.
    A table that kubectl prints is told by its name."""
    given = b"NAMESPACE   NAME\nkube-system coredns\n"
    out, err = ctl.run("explain", "-", given=given, status=1)
    assert out == "" and err.endswith("arbiterctl: -: a table: kubectl prints JSON by -o json\n")
    given = b"namespace name\nkube-system coredns\n"
    out, err = ctl.run("explain", "-", given=given, status=1)
    assert out == "" and err.endswith(
        "arbiterctl: -: no source that is known (--help names them): as a script it has 2 refused"
        " lines and no group, the first: -:1: error 80 BadCommand: namespace name\n")
    assert "0.00 of 1.00 CPUs" in ctl.run("explain", "-", "--from", "script", given=given)[0]
    assert "0.00 of 1.00 CPUs" in ctl.run("explain", "-", given=b"# none\n")[0]


def test_wide_text_that_is_none_is_left(folder):
    """Bytes with the mark that are no UTF-16 are read as they are, and refused."""
    (folder / "h.toml").write_bytes(b"\xff\xfe\x00\xd8")
    assert plain_files.file_bytes(str(folder / "h.toml")) == b"\xff\xfe\x00\xd8"


# Kubernetes

def node_files(folder):
    """A tree of the node's files, as the fixture has them."""
    trees.root2(folder)
    for line in fixture("node.cgroups")[1].decode().split("\n")[1:-1]:
        path, weight, quota = line.split(" ")
        trees.group2(folder / path, weight, f"{quota} 100000")


def test_pods_and_files_agree(engine, folder):
    """The same weights and limits from the pods' JSON and from the node's files."""
    node_files(folder)
    by_files = cgroups.read([str(folder)], Host(4, 100000, 1000), QUICK)
    files = {os.path.relpath(each.place, folder): of(each) for each in by_files.groups.values()}
    by_pods = {each.place: of(each) for each in pods(engine).groups.values()
               if each.place != "."}
    assert by_pods == files and len(files) == 13


def test_pods(engine):
    model = pods(engine)
    assert model.host == Host(4, 1000000, 1000)
    titles = {each.title: each for each in model.groups.values()}
    assert titles["prod/web-7c9f/nginx"].path == "kubepods/burstable/prod:web-7c9f/nginx"
    assert titles["prod/web-7c9f/nginx"].demand == 250
    assert "prod/db-0/setup" not in titles and "prod/proxy-1/envoy" in titles
    assert of(titles["prod/db-0"]) == (79, 200000, 100000)
    assert titles["prod/db-0/pause"].weight == 1 and titles["prod/db-0/pause"].demand == 0
    assert "pods that have ended, left out: 1" in model.notes


def test_pods_with_the_newer_conversion(engine):
    """runc from 1.3.2 on: 1024 shares are 100, 256 are 35, 2 are 1."""
    found = pods(engine, kubelet="log", runtime="log")
    titles = {each.title: each.weight for each in found.groups.values()}
    assert titles["prod/db-0/postgres"] == 100 and titles["prod/web-7c9f/nginx"] == 35
    assert titles["batch/report-x"] == 1


# kubepods of 3500m, burstable of 1200m, a pod of 2000m, containers of 1000m and of 250m: their
# shares are 3584, 1228, 2048, 1024 and 256. With l = log2(shares) the newer weight is
# 10 ** ((l * l + 125 * l) / 612 - 7 / 34), rounded up.
CONVERTED = ("kubepods", "kubepods/burstable", "kubepods/prod:db-0", "kubepods/prod:db-0/postgres",
             "kubepods/burstable/prod:web-7c9f/nginx")


@pytest.mark.parametrize("words, wanted", [
    ((), [137, 47, 79, 39, 10]),
    (("--node-weights", "runtime-log"), [137, 47, 79, 100, 35]),
    (("--node-weights", "log"), [272, 116, 174, 100, 35]),
])
def test_conversions_of_kubelet_and_runtime(ctl, words, wanted):
    """The runtime alone may be a newer one, or kubelet too."""
    out, _ = ctl.run("export", FIXTURES / "pods.json", FIXTURES / "node.json", "-o", "json", *words)
    groups = json.loads(out)["groups"]
    assert [groups[path].get("weight", 100) for path in CONVERTED] == wanted


def test_docker_by_a_newer_runtime(ctl):
    """2048 shares are 174 where the runtime is a newer one; kubelet has no part in it."""
    file = FIXTURES / "docker.json"
    for word, wanted in (("log", 174), ("runtime-log", 174), ("linear", 79)):
        out, _ = ctl.run("export", file, "-o", "json", "--cpus", "8", "--node-weights", word)
        assert json.loads(out)["groups"]["system.slice/web"]["weight"] == wanted


# Modules of arbiterctl that `explain` of pods loads.
MOST_MODULES = 38


def test_pods_need_no_other_reader(library):
    """What a command reads is all that it imports: no tree, units or jobs beside pods, nothing of
    many hosts, and no other form."""
    script = ("import sys; from arbiter_host import command; command.run(sys.argv[1:]);"
              " print(*sys.modules, file=sys.stderr)")
    words = ["explain", FIXTURES / "pods.json", FIXTURES / "node.json", "--library", library]
    ended = subprocess.run([sys.executable, "-c", script, *map(str, words)], check=True,
                           capture_output=True, text=True, cwd=PACKAGE)
    loaded = [name for name in ended.stderr.split("\n")[-2].split()
              if name.startswith("arbiter_host")]
    found = {name.rpartition(".")[2] for name in loaded
             if name.startswith("arbiter_host.sources.")}
    assert "kubernetes" in found
    assert not found & {"cgroups", "cgroup2", "systemd", "slurm", "containers", "script"}
    others = ("fleet", "answers.report", "answers.picture", "answers.diff", "base.html")
    assert not {f"arbiter_host.{name}" for name in others} & set(loaded)
    assert len(loaded) <= MOST_MODULES, sorted(loaded)


def test_pods_by_cgroupfs(engine):
    places = {each.title: each.place for each in pods(engine, driver="cgroupfs").groups.values()}
    assert places["batch/report-x"] == "kubepods/besteffort/pod00000003-0b1c-4d2e-8f3a-0123456789ab"


def test_quality_without_a_status():
    """kubelet's rule gives the same classes as the status."""
    found = json.loads(fixture("pods.json")[1])
    wanted = [kubernetes.pod_of(each, reading.Planner(), []).quality for each in found["items"]]
    for each in found["items"]:
        del each["status"]["qosClass"]
    assert [kubernetes.pod_of(each, reading.Planner(), []).quality
            for each in found["items"]] == wanted


def resources(request=None, limit=None, memory=None):
    """Requests and limits, as a pod's JSON has them."""
    found = {"requests": {"cpu": request} if request else {},
             "limits": {"cpu": limit} if limit else {}}
    for each in found.values() if memory else ():
        each["memory"] = memory
    return {"resources": found}


def test_limits_of_a_pod_itself(engine):
    """A container without a limit has that of its pod: 2000m are 2048 shares, weight 79. One with
    a request of 250m and without a limit has 256 shares, weight 10. The pod of 1000m has 39."""
    found = {"metadata": {"name": "p"}, "spec": {**resources("1", "2"), "containers": [
        {"name": "a"}, {"name": "b", **resources("250m")},
        {"name": "c", **resources("250m", "500m")}]}}
    model = reading.pods([("p", json.dumps({"items": [found]}).encode())], EIGHT, engine.library)
    path = "kubepods/burstable/default:p"
    assert {name: of(model.groups[f"{path}{name}"]) for name in ("", "/a", "/b", "/c")} == {
        "": (39, 200000, 100000), "/a": (79, 200000, 100000), "/b": (10, 200000, 100000),
        "/c": (10, 50000, 100000)}
    assert [model.groups[f"{path}/{name}"].demand for name in "abc"] == [0, 250, 250]


@pytest.mark.parametrize("own, container, wanted", [
    (resources("1", "1", "1Gi"), {}, "Guaranteed"), (resources("1", "2", "1Gi"), {}, "Burstable"),
    (resources("1", "1"), {}, "Burstable"), (resources(), {}, "BestEffort"),
    # What the pod itself has stands for what its containers have.
    (resources("1", "2"), resources("1", "1", "1Gi"), "Burstable"),
    (resources("1", "1", "1Gi"), resources("250m"), "Guaranteed"),
    ({"resources": {"limits": {"memory": "1Gi"}}}, resources("1", "1", "1Gi"), "Burstable"),
    (resources(), resources("1", "1", "1Gi"), "Guaranteed"),
])
def test_quality_of_pods_with_amounts_of_their_own(own, container, wanted):
    found = {"metadata": {"name": "p"}, "spec": {**own, "containers": [{"name": "c", **container}]}}
    assert kubernetes.pod_of(found, reading.Planner(), []).quality == wanted


@pytest.mark.parametrize("policy, state, is_there", [
    ("Never", {"terminated": {"exitCode": 1}}, False), ("Never", {"running": {}}, True),
    ("OnFailure", {"terminated": {"exitCode": 0}}, False),
    ("OnFailure", {"terminated": {"exitCode": 1}}, True),
    ("Always", {"terminated": {"exitCode": 0}}, True),
    ("Always", {"waiting": {"reason": "CrashLoopBackOff"}}, True), ("Never", {}, True),
])
def test_containers_that_have_ended(engine, policy, state, is_there):
    """The work of a job is done, and its proxy goes on: the pod requests both, 500m, weight 20."""
    found = {"metadata": {"name": "p"}, "spec": {"restartPolicy": policy, "containers": [
        {"name": "work", **resources("400m")}, {"name": "proxy", **resources("100m")}]},
        "status": {"phase": "Running", "containerStatuses": [{"name": "work", "state": state}]}}
    model = reading.pods([("p", json.dumps({"items": [found]}).encode())], EIGHT, engine.library)
    path = "kubepods/burstable/default:p"
    assert (f"{path}/work" in model.groups) == is_there and f"{path}/proxy" in model.groups
    assert model.groups[path].weight == 20


def test_pods_that_wait_for_a_node(engine):
    """They are of no node where others are; alone they are looked at on the node that is given."""
    def pod(name, node="", phase="Pending"):
        return {"metadata": {"name": name}, "status": {"phase": phase},
                "spec": {"nodeName": node, "containers": [{"name": "c", **resources("1")}]}}

    def read(*items):
        data = json.dumps({"items": items}).encode()
        return reading.pods([("p", data), fixture("node.json")], None, engine.library)

    found = read(pod("here", "n1"), pod("waits"), pod("draft", phase=""))
    assert [each.title for each in found.groups.values() if each.title.count("/") == 1] == [
        "default/here", "default/draft"]
    assert "pods that no node has yet, left out: 1" in found.notes
    # 1024 shares for one pod.
    assert read(pod("waits")).groups["kubepods/burstable"].weight == 39


def test_static_pods_stand_by_the_identifier_of_kubelet(engine):
    """A mirror has a uid of its own; the group has that of the annotation, without dashes."""
    found = {"metadata": {"name": "etcd-n1", "namespace": "kube-system", "uid": "0a-1b",
                          "annotations": {"kubernetes.io/config.hash": "7c9f",
                                          "kubernetes.io/config.mirror": "7c9f"}},
             "spec": {"containers": [{"name": "etcd", "resources": {"requests": {"cpu": "100m"}}}]}}
    model = reading.pods([("p", json.dumps({"items": [found]}).encode())], EIGHT, engine.library)
    assert model.groups["kubepods/burstable/kube-system:etcd-n1"].place == (
        "kubepods.slice/kubepods-burstable.slice/kubepods-burstable-pod7c9f.slice")
    del found["metadata"]["annotations"]["kubernetes.io/config.mirror"]
    assert kubernetes.pod_of(found, reading.Planner(), []).uid == "0a-1b"


def member(limit, is_sidecar=False):
    """A container, as a pod's JSON has it."""
    found = {"name": "c", "resources": {"limits": {"cpu": limit} if limit else {}}}
    return {**found, "restartPolicy": "Always"} if is_sidecar else found


@pytest.mark.parametrize("begin, own, wanted", [
    # An init container alone decides by its own limit.
    ([member("3")], {}, 3000), ([member(None)], {}, None), ([member("0")], {}, None),
    # A sidecar's limit covers what stands behind it, and nothing before it.
    ([member("200m", True), member(None)], {}, 1200),
    ([member("200m", True), member(None, True)], {}, 1200),
    ([member(None), member("200m", True)], {}, None),
    ([member(None, True), member("200m", True)], {}, None),
    # The limit of the pod itself holds whatever its containers have.
    ([member(None)], {"limits": {"cpu": "2"}}, 2000),
])
def test_limits_of_pods_with_init_containers(begin, own, wanted):
    """kubelet's rule for `cpu.max` of a pod whose one container has a limit of 1000m."""
    spec = {"initContainers": begin, "containers": [member("1")], "resources": own}
    pod = {"metadata": {"name": "p"}, "spec": spec}
    assert kubernetes.pod_of(pod, reading.Planner(), []).amounts.limit == wanted


def test_no_sidecar_covers_a_container():
    spec = {"initContainers": [member("200m", True)], "containers": [member("1"), member(None)]}
    pod = {"metadata": {"name": "p"}, "spec": spec}
    assert kubernetes.pod_of(pod, reading.Planner(), []).amounts.limit is None


def test_pods_of_several_nodes(engine):
    found = json.loads(fixture("pods.json")[1])
    found["items"][0]["spec"]["nodeName"] = "n2"
    data = json.dumps(found).encode()
    with pytest.raises(HostFault, match="2 nodes .n1, n2.: choose one by --node"):
        reading.pods([("p", data)], EIGHT, engine.library)
    nodes = [{"kind": "Node", "metadata": {"name": f"n{number}"}} for number in range(7)]
    with pytest.raises(HostFault, match="^7 nodes .n0, n1, n2, n3, n4, ...: choose one by --node"):
        reading.pods([("n", json.dumps(nodes).encode())], EIGHT, engine.library)
    with pytest.raises(HostFault, match="^no node n9 among 2 .n0, n1.: choose one by --node"):
        reading.pods([("n", json.dumps(nodes[:2]).encode())], EIGHT, engine.library,
                        node="n9")
    model = reading.pods([("p", data)], EIGHT, engine.library, node="n2")
    assert sum("/pause" in each.title for each in model.groups.values()) == 1


@pytest.mark.parametrize("many, left_out", [(4095, 0), (4096, 4096)])
def test_pause_containers_of_many_pods(calls, many, left_out):
    """Two containers, the pod and its pause container: 4 groups a pod, beside kubepods and its two
    classes, and 16383 below the root at most. Without pause containers there are 3 a pod."""
    spec = {"containers": [{"name": "c", "resources": {"requests": {"cpu": "1m"}}}, {"name": "d"}]}
    items = [{"metadata": {"name": f"p{at}", "uid": f"u{at}"}, "spec": spec} for at in range(many)]
    model = reading.pods([("p", json.dumps(items).encode())], EIGHT, calls)
    assert len(model.groups) == 3 + 4 * many - left_out <= 16383
    assert sum(each.is_pause for each in model.groups.values()) == many - left_out
    assert sum(each.demand for each in model.groups.values()) == many
    note = f"pause containers, left out of {3 + 4 * many} groups: they ask for nothing"
    assert (note in model.notes) == (left_out > 0)


# systemd, docker, podman

def test_units():
    model = reading.units([fixture("units.show")], EIGHT)
    found = {path: of(each) for path, each in model.groups.items()}
    assert found == {
        "system.slice": (100, None, 100000), "system.slice/ssh.service": (200, 50000, 100000),
        # 5 ms of a second are 1 ms in 200 ms: systemd takes the longer period.
        "system.slice/updatedb.service": (1, 1000, 200000),
        "user.slice": (100, None, 100000), "user.slice/user-1000.slice": (100, None, 100000),
        "user.slice/user-1000.slice/session-3.scope": (100, 75000, 50000)}
    assert model.groups["system.slice/ssh.service"].usable == 1000


def test_units_twice():
    """What was used between two files, ten seconds apart."""
    name, data = fixture("units.show")
    later = data.replace(b"CPUUsageNSec=1000000000", b"CPUUsageNSec=6000000000")
    model = reading.units([(name, data), (name, later)], EIGHT, "usage", Fraction(10))
    assert model.groups["system.slice/ssh.service"].demand == 500


def test_docker(engine):
    model = reading.docker([fixture("docker.json")], EIGHT, engine.library)
    found = {path: of(each) for path, each in model.groups.items()}
    assert found == {
        "system.slice": (100, None, 100000), "system.slice/web": (79, 150000, 100000),
        "system.slice/db": (100, 20000, 50000), "batch.slice": (100, None, 100000),
        "batch.slice/batch-night.slice": (100, None, 100000),
        "batch.slice/batch-night.slice/job": (20, None, 100000)}
    assert model.groups["system.slice/web"].place == f"system.slice/docker-{'01' * 32}.scope"
    assert model.groups["system.slice/web"].demand == 1500
    assert "containers that do not run, left out: 1" in model.notes


def test_paused_containers_ask_for_nothing(engine):
    """A frozen task uses nothing, whatever its limit is."""
    raw = [{"Id": "1", "Name": "/a", "HostConfig": {}, "State": {"Running": True, "Paused": True}},
           {"Id": "2", "Name": "/b", "HostConfig": {}, "State": {"Running": True}},
           {"Id": "3", "Name": "/c", "HostConfig": {}, "State": {"Status": "restarting"}}]
    model = reading.docker([("d", json.dumps(raw).encode())], EIGHT, engine.library)
    assert [each.demand for each in model.groups.values()] == [0, 0, 8000, 0]
    assert model.notes == ["paused: system.slice/a: it asks for nothing",
                           "restarting: system.slice/c: it asks for nothing"]


def test_podman(engine):
    model = reading.docker([fixture("podman.json")], EIGHT, engine.library)
    group = model.groups["machine.slice/pod-web"]
    assert of(group) == (100, 50000, 100000)
    assert group.place == f"machine.slice/libpod-{'05' * 32}.scope"


@pytest.mark.parametrize("weight, shares, wanted", [
    ("[not set]", "512", 50), ("[not set]", "2", 1), ("[not set]", "1023", 99),
    ("[not set]", "262144", 10000), ("[not set]", "[not set]", 100), ("300", "512", 300),
    ("idle", "512", 1), ("[not set]", str(2**64 - 1), 100),
])
def test_shares_of_units(ctl, weight, shares, wanted):
    """systemd makes a weight of 100 of 1024 shares, rounded down, where a unit has no CPUWeight."""
    unit = f"Id=a.service\nControlGroup=/a.service\nCPUShares={shares}\nCPUWeight={weight}\n"
    out, _ = ctl.run("export", "--from", "systemd", "-", "--cpus", "4", "-o", "json",
                     given=unit.encode())
    assert json.loads(out)["groups"]["a.service"].get("weight", 100) == wanted


@pytest.mark.parametrize("request_, limit, wanted", [
    ("1Gi", "1024Mi", "Guaranteed"), ("1Gi", "1073741824", "Guaranteed"),
    (1073741824, "1Gi", "Guaranteed"), ("1e9", "1G", "Guaranteed"), ("1Gi", "1G", "Burstable"),
    (None, "1Gi", "Guaranteed"), ("0", "1Gi", "Burstable"), ("1Gi", "0", "Burstable"),
])
def test_memory_is_compared_as_kubelet_does(request_, limit, wanted):
    """By what quantities are, however they are written. 0 is none."""
    found = {"cpu": "1"}
    memory = {"requests": {**found, **({} if request_ is None else {"memory": request_})},
              "limits": {**found, "memory": limit}}
    pod = {"metadata": {"name": "p"}, "spec": {"containers": [{"name": "c", "resources": memory}]}}
    assert kubernetes.pod_of(pod, reading.Planner(), []).quality == wanted


def test_a_request_of_no_memory():
    pod = {"metadata": {"name": "p"}, "spec": {"containers": [
        {"name": "c", "resources": {"requests": {"memory": "0"}}}]}}
    assert kubernetes.pod_of(pod, reading.Planner(), []).quality == "BestEffort"
    pod["spec"]["containers"][0]["resources"] = {"limits": {"memory": "lots"}}
    with pytest.raises(HostFault, match="default/p: 'lots' is no quantity of memory"):
        kubernetes.pod_of(pod, reading.Planner(), [])


@pytest.mark.parametrize("item, words", [
    ({"kind": "Pod", "metadata": None, "spec": {"containers": []}}, "a pod without metadata"),
    ({"kind": "Pod", "metadata": {"name": "x"}}, "default/x: a pod without spec"),
    (7, "item 3 is no object"),
])
def test_an_object_that_cannot_be_read(ctl, folder, item, words):
    """It ends the command by name, and is not left out: of one node and of a cluster."""
    cluster = json.loads((FIXTURES / "cluster.json").read_text())
    node = json.loads((FIXTURES / "node.json").read_text())
    pod = json.loads((FIXTURES / "pods.json").read_text())["items"][0]
    for items in ([node, pod, item], [*cluster["items"], item]):
        (folder / "c.json").write_text(json.dumps({"kind": "List", "items": items}))
        _, err = ctl.run("explain", folder / "c.json", status=1)
        assert words in err or words == "item 3 is no object" and " is no object" in err


@pytest.mark.parametrize("key, value", [("NanoCpus", "2e9"), ("CpuShares", 512.5),
                                        ("CpuQuota", True), ("CpuPeriod", [1])])
def test_a_setting_of_docker_that_cannot_be_read(ctl, key, value):
    """It is refused by name, and is not none."""
    found = json.loads((FIXTURES / "docker.json").read_text())
    found[0]["HostConfig"][key] = value
    _, err = ctl.run("explain", "-", "--cpus", "4", given=json.dumps(found).encode(), status=1)
    assert f"{key} " in err and "is no whole number" in err


def test_what_a_pod_has_beside_its_containers_is_told(engine):
    """A resize that is not done yet, and ephemeral containers that run."""
    pod = {"kind": "Pod", "metadata": {"namespace": "n", "name": "p"}, "spec": {"containers": [
        {"name": "c", "resources": {"requests": {"cpu": "2"}, "limits": {"cpu": "2"}}},
        {"name": "d", "resources": {"requests": {"cpu": "500m"}}}]}, "status": {
            "containerStatuses": [
                {"name": "c", "resources": {"requests": {"cpu": "1"}, "limits": {"cpu": "1500m"}}},
                {"name": "d", "resources": {"requests": {"cpu": "0.5"}}}],
            "ephemeralContainerStatuses": [{"name": "x", "state": {"running": {}}},
                                           {"name": "y", "state": {"terminated": {}}}]}}
    model = reading.pods([("P", json.dumps(pod).encode())], EIGHT, engine.library)
    assert model.notes[:2] == [
        "n/p/c: its resize is not done: what is set now is request 1000m, limit 1500m",
        "n/p: ephemeral containers, left out: 1"]
    assert model.groups["kubepods/burstable/n:p/c"].quota == 200000
