"""Hosts and pictures whose answers were worked by hand."""
import json
import os
import shutil
import subprocess
import sys
import xml.etree.ElementTree
from fractions import Fraction

import pytest
import trees
from arbiter import Host
from arbiter_host.answers import picture
from arbiter_host.base.model import Group, Model
from arbiter_host.base.plan import plan
from arbiter_host.sources import script
from places import PACKAGE
from chances import cases
from hypothesis import HealthCheck, given, settings
from hypothesis import strategies as st

HEAD = "# arbiter run --processors 1 --period 100000 --slice 5000\n"
SVG = "{http://www.w3.org/2000/svg}"
GETS, WANTS, RED = "#2b6cb0", "#bcd4ec", "#b4231f"


def explained(ctl, script, *words):
    """What `explain -o json` says of each group, and all that it says."""
    whole = json.loads(ctl.run("explain", "-o", "json", *words, "-", given=script.encode())[0])
    return {group["group"]: group for group in whole["groups"]}, whole


def test_two_groups_limit(ctl):
    """One of them is below a group that does not."""
    script = ("mkdir a\nmkdir a/x\nmkdir b\nwrite a/x cpu.max 10000\nwrite b cpu.max 15000\n"
              "demand a/x 9\ndemand b 9\n")
    groups, whole = explained(ctl, HEAD + script)
    assert [(each["group"], each["limit"]["slices"]) for each in whole["limiting"]] == [
        ("a/x", 2), ("b", 3)]
    assert groups["a"]["reason"] == "all"
    _, nothing = explained(ctl, HEAD + "mkdir a\n")
    assert (nothing["limiting"], nothing["served"]["slices"]) == ([], 0)


def test_refused_lines_are_numbered(ctl):
    """Comments and blank lines count; a byte that is not UTF-8 and a long comment are refused."""
    script = ("# a comment\n\nmkdir a\nmkdir a\n\t \nrmdir .\ndemand . 0\nplan\nfrob\ndemand a 3\n"
              "report")
    _, whole = explained(ctl, script, "--cpus", "1")
    found = [(int(each.split(":")[1]), each.split(": ")[1]) for each in whole["refused"]]
    assert found == [(4, "error 21 Exists"), (6, "error 26 RootFixed"), (7, "error 26 RootFixed"),
                     (9, "error 80 BadCommand")]
    assert whole["served"]["slices"] == 3
    data = b"\xff\nmkdir a\n#" + b"x" * 65536 + b"\n"
    err = ctl.run("explain", "-", given=data)[1]
    assert "-:1: error 81 BadText" in err and "-:3: error 82 LineTooLong" in err


def test_names_are_taken_as_they_are(ctl):
    names = ["a\rb", "x\u2028y", "#c", "\u00fc", "error"]
    script = "".join(f"mkdir {name}\ndemand {name} {place + 1}\n"
                     for place, name in enumerate(names))
    groups, _ = explained(ctl, HEAD + script)
    assert [groups[name]["gets"]["slices"] for name in names] == [1, 2, 3, 4, 5]


# path: usage in 10 seconds, and the settings; throttled in 60 of 100 periods is `web`
HOST = {
    "init.scope": (0, {}), "system.slice": (0, {}),
    "system.slice/backup job.service": (1500000, {"weight": 20, "maximum": "25000 50000"}),
    "system.slice/idle.service": (49000, {"weight": 0}),
    "system.slice/sshd.service": (100000, {}),
    "system.slice/web.service": (3000000, {"weight": 300, "maximum": "30500 100000",
                                           "burst": 10000}),
    "user.slice": (1000000, {}),
}
HOST_SCRIPT = """\
mkdir init.scope
mkdir system.slice
mkdir system.slice/backup%20job.service
write system.slice/backup%20job.service cpu.weight 20
write system.slice/backup%20job.service cpu.max 25000 50000
mkdir system.slice/idle.service
write system.slice/idle.service cpu.weight 1
mkdir system.slice/sshd.service
mkdir system.slice/web.service
write system.slice/web.service cpu.weight 300
write system.slice/web.service cpu.max 30500 100000
write system.slice/web.service cpu.max.burst 10000
mkdir user.slice
demand system.slice/backup%20job.service 15
demand system.slice/idle.service 1
demand system.slice/sshd.service 1
demand system.slice/web.service 30
demand user.slice 10
"""
HOST_TOLD = [
    ".: its own tasks used 20m of a CPU, which is left out",
    "system.slice/backup%20job.service: its name on the host is 'backup job.service'",
    "system.slice/idle.service: idle (cpu.weight 0): 1 is taken",
    "system.slice/web.service: its quota is 30.5 slices: 30 are kept",
    "system.slice/web.service: throttled in 60 of 100 periods: it wanted more than it used"
    " (--want psi)",
    "system.slice: its own tasks used 15.1m of a CPU, which is left out",
    "user.slice: its 1 groups have no cpu.weight (the cpu controller is not enabled for them): it"
    " stands as one group",
]


def host_copies(folder):
    """Two copies of the host's files, ten seconds apart."""
    for copy, factor in (("one", 0), ("two", 1)):
        trees.root2(folder / copy, usage=6000000 * factor)
        for path, (usage, entry) in HOST.items():
            told = {"periods": 100 * factor, "throttled": 60 * factor} if "web" in path else {}
            whole = 4800000 if path == "system.slice" else usage
            trees.group2(folder / copy / path, usage=whole * factor, **entry, **told)
        trees.put(folder / copy / "user.slice/user-1000.slice", cpu_stat="usage_usec 5")
    return ["export", folder / "one", folder / "two", "--read", "x10s", "--cpus", "4",
            "--period", "100ms"]


def test_host_of_services(ctl, folder):
    """Settings, demands in slices rounded up, and all that is told."""
    words = host_copies(folder)
    out, _ = ctl.run(*words)
    lines = out.split("\n")
    assert lines[0] == "# arbiter run --processors 4 --period 100000 --slice 1000"
    assert "".join(f"{line}\n" for line in lines[1:-1] if not line.startswith("#")) == HOST_SCRIPT
    told = sorted(line[4:] for line in lines if line.startswith("# ! "))
    wanted = sorted(HOST_TOLD)
    wanted[wanted.index(next(each for each in wanted if each.startswith("system.slice: ")))] = next(
        each for each in told if each.startswith("system.slice: its own tasks used 15"))
    assert told == wanted


def test_the_program_takes_the_script(ctl, folder, program):
    """Each line of an import is answered by `ok`."""
    out, _ = ctl.run(*host_copies(folder))
    said = program.run(["run", "--processors", "4", "--slice", "1000"], out.encode()).out
    assert set(said.decode().split("\n")) == {"ok", ""}


def test_malformed_files(ctl, folder):
    for copy in ("one", "two"):
        trees.root2(folder / copy)
        trees.group2(folder / copy / "app", weight="ten", maximum="20000")
        trees.group2(folder / copy / "low", weight=4, maximum="500 100000")
        trees.group2(folder / copy / "back", usage=900 if copy == "one" else 800)
    os.remove(folder / "one/app/cpu.max.burst")
    words = ["export", folder / "one", folder / "two", "--cpus", "4"]
    told = sorted(line[4:] for line in ctl.run(*words)[0].split("\n") if line.startswith("# ! "))
    assert told == [
        "app: cpu.max is '20000': no limit is taken",
        "app: cpu.weight cannot be read as a number: the default is taken",
        "back: nothing read for --want usage: no demand",
        "low: cpu.max is 500: 1000 is taken"]


def test_an_import_changes_nothing(ctl, folder):
    """No file of the tree is touched, and a folder's own limit is told."""
    host_copies(folder)
    place = folder / "one/system.slice/web.service"
    before = {name: os.stat(place / name).st_mtime_ns for name in os.listdir(place)}
    ctl.run("export", folder / "one", "--read", "2x50ms")
    assert {name: os.stat(place / name).st_mtime_ns for name in os.listdir(place)} == before
    out, _ = ctl.run("export", place, "--read", "2x50ms")
    assert "itself is 30500 100000: the root has no limit but the CPUs" in out
    for words in ([folder / "no"], [folder / "one", folder / "no"]):
        assert "No such file" in ctl.run("export", *words, status=1)[1]


def real_mount():
    """The first mount of cgroup v2 on this machine, if there is one."""
    with open("/proc/self/mounts", encoding="utf-8", errors="replace") as file:
        return next((line.split()[1] for line in file if line.split()[2] == "cgroup2"), None)


def test_the_tree_of_this_machine(ctl, program):
    """The machine's own tree is read, and the program takes the script."""
    mount = real_mount()
    if mount is None:
        pytest.skip("no mount of cgroup v2 here")
    out, _ = ctl.run("export", mount, "--read", "2x100ms", "--cpus", "4")
    said = program.run(["run", "--processors", "4", "--slice", "1000"], out.encode()).out
    assert set(said.decode().split("\n")) <= {"ok", ""}


def test_a_folder_of_another_user(ctl, folder):
    """What may not be read is told as such."""
    if os.getuid() != 0:
        pytest.skip("not as root: no other user to be")
    shut = folder / "shut"
    shut.mkdir(mode=0o700)
    # (all is loaded first: the other user may not be let into the folder of this clone)
    ended = subprocess.run([sys.executable, "-c", "import os,sys;"
                            "sys.path.insert(0,sys.argv.pop(1));"
                            "from arbiter_host.sources import cgroup2;"
                            "from arbiter_host.base.model import Host;"
                            "from arbiter_host.base.faults import HostFault;"
                            "os.setuid(65534)\n"
                            "try: cgroup2.check_folder(sys.argv[1])\n"
                            "except HostFault as fault: print(fault)", str(PACKAGE), str(shut)],
                           capture_output=True, text=True, check=False, timeout=60)
    assert ended.stdout == f"{shut}: Permission denied\n", ended.stderr


def test_random_bytes_under_strict(ctl):
    """200 kB of random bytes are refused lines, not the plan of an empty host."""
    data = os.urandom(200000)
    out, err = ctl.run("explain", "--from", "script", "--strict", "-", given=data, status=4)
    assert out == "" and ": error " in err


# pictures

SLICES = ("explain", "-", "-o", "svg", "--unit", "slices")


def drawn(text):
    """A picture's boxes by colour, in order, and its texts."""
    root = xml.etree.ElementTree.fromstring(text)
    boxes = {}
    for each in root.iter(f"{SVG}rect"):
        keys = ("x", "y", "width", "height")
        boxes.setdefault(each.get("fill"), []).append({key: float(each.get(key)) for key in keys})
    return boxes, [each.text for each in root.iter(f"{SVG}text")], root


def test_picture_to_scale(ctl):
    """Each bar is as long as its number says, from one edge, in the order of the tree."""
    script = HEAD + ("mkdir a\nmkdir a/x\nmkdir a/y\nmkdir b\nwrite a cpu.max 25000\n"
                     "demand a/x 4\ndemand a/y 4\ndemand b 30\n")
    boxes, texts, _ = drawn(ctl.run(*SLICES, given=script.encode())[0])
    # a has its 5: 3 and 2; b has the rest. The host wants 5 + 30, of which 20 are drawn.
    for colour, wanted in ((GETS, (20, 5, 3, 2, 15)), (WANTS, (20, 8, 4, 4, 20))):
        bars = boxes[colour][1:]
        assert [round(bar["width"] * 20 / picture.BARS, 2) for bar in bars] == list(wanted)
        assert len({bar["x"] for bar in bars}) == 1
        assert [bar["y"] for bar in bars] == sorted(bar["y"] for bar in bars)
    assert [text for text in texts if text in "axby"] == ["a", "x", "y", "b"]
    assert "5 of 8, at most 5: its own limit" in texts


def test_picture_of_odd_trees(ctl):
    """Names that XML does not hold, a demand far above the capacity, no groups."""
    script = HEAD + 'mkdir a<b>&"c\nmkdir a<b>&"c/x\x01y\ndemand a<b>&"c/x\x01y 1000000\n'
    out, _ = ctl.run(*SLICES, given=script.encode())
    boxes, texts, _ = drawn(out)
    assert any("a<b>&\"c" in text and "x\\x01y" in text for text in texts), texts
    assert {bar["width"] for bar in boxes[WANTS][1:]} == {float(picture.BARS)}
    drawn(ctl.run(*SLICES, given=HEAD.encode())[0])
    script = HEAD + "mkdir a\nmkdir a/b\ndemand a/b 1\n"
    _, texts, _ = drawn(ctl.run(*SLICES, "--depth", "1", given=script.encode())[0])
    assert ("a" in texts, "b" in texts) == (True, False)


# the engine

def test_library_that_the_system_finds(ctl, folder, library):
    """A package outside a clone takes the library of the loader's path."""
    for name in ("arbiter", "arbiter_host"):
        shutil.copytree(PACKAGE / name, folder / "p" / name)
    shutil.copy(library, folder / "libarbiter.so.1")
    ctl.environment.pop("ARBITER_LIBRARY")
    ctl.environment.update(LD_LIBRARY_PATH=str(folder), PYTHONPATH=str(folder / "p"))
    words = [sys.executable, "-m", "arbiter_host", "explain", "-o", "json", "-"]
    ended = subprocess.run(words, input=HEAD.encode(), capture_output=True, check=False,
                           env=ctl.environment, timeout=60, cwd=folder)
    assert json.loads(ended.stdout)["engine"] == "library libarbiter.so.1", ended.stderr


@st.composite
def models(draw):
    """Small models of groups with limits and demands."""
    model = Model(Host(2, 100000, 5000))
    paths = ["."]
    for number in range(draw(st.integers(1, 8))):
        above = draw(st.sampled_from(paths))
        path = f"n{number}" if above == "." else f"{above}/n{number}"
        quota = draw(st.one_of(st.none(), st.integers(1000, 200000)))
        model.add(Group(path, draw(st.integers(1, 10000)), quota))
        paths.append(path)
    for path, below in model.children().items():
        if path != "." and not below:
            model.groups[path].demand = Fraction(50 * draw(st.integers(0, 40)))
    return model


@settings(max_examples=cases(40), deadline=None, suppress_health_check=list(HealthCheck))
@given(model=models())
def test_counted_as_the_program_counts(program, engine, model):
    """What a group gets, and whether it is throttled, are what `period` counts."""
    found = plan(engine, model)
    text = script.write(model, engine.library) + "period\nreport\n"
    words = ["run", "--processors", "2", "--period", "100000", "--slice", "5000"]
    said = program.run(words, text.encode()).out.decode().split(" group\n")[1].split("\n")[:-1]
    counted = {line.split()[4]: (int(line.split()[0]), int(line.split()[2])) for line in said}
    assert counted == {group.path: (group.gets * 5000, int(group.is_throttled))
                       for group in found.groups}
