"""Hold by the kernel's scheduler: what a stand-in for its loader is told, and what it answers."""
import os
import re
import shutil
import stat
import subprocess
import sys

import pytest
from arbiter_host.base import safe_files
from arbiter_host.base.faults import HostFault
from arbiter_host.hold import hold, scheduler
from held import FREE, TWO, World
from places import PACKAGE
from test_children import soon

UNIT = PACKAGE.parent / "share/systemd/arbiter-schedule.service"
# System calls of the loader in a guest, by `strace -f -c`: it loads, takes two plans, and is read.
CALLS = PACKAGE.parent / "bench/kernel/runs/loader-calls.txt"

# A loader that keeps its commands in a file. Each reading is the next line of another one: of each
# group of the plan the nanoseconds that it used and waited, by its place in the plan.
LOADER = """\
#!{python}
import sys
readings = iter(open({folder!r} + "/readings").read().splitlines())
log = open({folder!r} + "/log", "w", buffering=1)
log.write("top " + sys.argv[1] + "\\n")
print("ready", flush=True)
groups, plans = [], 0
for line in sys.stdin:
    log.write(line)
    words = line.split()
    if words[0] == "plan":
        groups, plans = [], plans + 1
    elif words[0] == "leaf":
        groups.append(words[1])
    elif words[0] == "end":
        print("plan", plans, flush=True)
    elif words[0] == "read":
        each = next(readings, "")
        if each == "fail":
            sys.exit("arbiter-scheduler: the kernel ended the scheduler (1026)")
        for group, told in zip(groups, filter(None, each.split(";"))):
            used, waited = told.split(",")
            print("leaf", group, used, waited, waited, 0)
        print("leaf 0 5 5 5 0")
        print("counts", 10 * plans, plans, 2, 3)
        print("read", 1000000000 if plans else 0, flush=True)
log.write("ended\\n")
"""


@pytest.fixture(name="begun")
def begun_with(folder, engine):
    """Begins a loop over a tree of plain files, whose loader has these readings."""
    def begin(groups, *readings):
        world, program = World(folder, groups), folder / "loader"
        (folder / "readings").write_text("\n".join(readings) + "\n")
        program.write_text(LOADER.format(python=sys.executable, folder=str(folder)))
        program.chmod(program.stat().st_mode | stat.S_IXUSR)
        loader = scheduler.Scheduler(str(world.tree), str(program))
        return world, scheduler.ScheduledLoop(
            loader, engine, safe_files.Root(str(world.tree)), str(world.tree), TWO,
            clock=lambda: world.now)
    return begin


def commands(folder):
    """What the loader was told, and whether it ended by itself."""
    return (folder / "log").read_text().splitlines()


def number(world, path):
    """The number of a group's folder."""
    return os.stat(world.tree / path).st_ino


GROUPS = [("a", 100, FREE), ("b", 100, "80000 100000"), ("c", 200, FREE)]


def test_a_plan_is_given_and_nothing_is_written(folder, begun):
    """The first round is read as by limits. In the second a used 0.5 CPUs and waited for 1.5; b
    used all that its limit allows, and c used 0.4 CPUs of the 1 that it may have."""
    world, loop = begun(GROUPS, "", "", "500000000,1500000000;800000000,1200000000;400000000,0")

    def first():
        for path in "abc":
            world.uses(path, 60)

    (one, stood), (two, then) = world.run(loop, first, lambda: None)
    assert {path: each["plan"] for path, each in one["groups"].items()} == {
        "a": 60, "b": 60, "c": 60}
    assert {path: (each["used"], each["want"], each["plan"], each["hungry"])
            for path, each in two["groups"].items()} == {
        "a": (50, 200, 80, True), "b": (80, 200, 80, True), "c": (40, 40, 40, False)}
    assert (one["written"], two["written"]) == (3, 3)
    assert [each["scheduler"] for each in (one, two)] == [
        {"picks": picks, "late": late, "stops": 2, "unplanned": 3}
        for picks, late in ((0, 0), (10, 1))]
    told = commands(folder)
    top, a, b, c = (number(world, path) for path in (".", *"abc"))
    # b has a limit: 80 ms of 100. c may have as much as both others, and asks for less. Guarantees
    # are by weights: 50, 50 and 100.
    limit, inner = f"limit {b} 80000000 0 0", f"inner {top} 0"
    assert told == [
        f"top {world.tree}", "read", "read", "plan 200", "rest 0 0", limit, f"leaf {a} 60 50 0",
        f"leaf {b} 60 50 {b}", f"leaf {c} 120 100 0", inner, "end", "read",
        "plan 200", "rest 0 0", limit, f"leaf {a} 80 50 0", f"leaf {b} 80 50 {b}",
        f"leaf {c} 160 100 0", inner, "end", "ended"]
    assert [world.maximum(path) for path in "abc"] == [FREE, "80000 100000", FREE]
    assert stood == then and [each.name for each in folder.glob("undo*")] == []


@pytest.mark.parametrize("told, wanted", [
    # it slept for more than half of the second; it was never idle
    ("200000000,250000000", (20, 20, False)), ("500000000,480000000", (50, 98, True)),
    ("900000000,100000000", (90, 100, True))])
def test_one_that_slept_was_served(begun, told, wanted):
    """A group that waited and was idle later asked for no more than it used."""
    world, loop = begun(GROUPS, "", "", f"{told};0,0;0,0")
    _, (found, _) = world.run(loop, lambda: None, lambda: None)
    each = found["groups"]["a"]
    assert (each["used"], each["want"], each["hungry"]) == wanted


def test_limits_are_of_the_whole_path(folder, begun):
    """A leaf is in the nearest group with a limit, which may be the top, and that in the next one.
    Each has its burst. Who comes below a group is under its limit until it is planned itself, from
    its second reading on."""
    world, loop = begun([("p", 100, "90000 100000"), ("p/x", 100, "30000 50000"), ("q", 100, FREE)],
                        *[""] * 4)
    (world.tree / "cpu.max").write_text("150000 100000\n")
    (world.tree / "p/cpu.max.burst").write_text("20000\n")
    world.run(loop, lambda: world.add("r"), lambda: world.uses("r", 9))
    told = commands(folder)
    top, p, x, q, r = (number(world, path) for path in (".", "p", "p/x", "q", "r"))
    limits = [f"limit {top} 150000000 0 0", f"limit {p} 90000000 20000000 {top}",
              f"limit {x} 60000000 0 {p}"]
    inner = [f"inner {top} {top}", f"inner {p} {p}"]
    plans = [told[begin:told.index("end", begin)]
             for begin, line in enumerate(told) if line.startswith("plan ")]
    for lines in plans:
        assert [line for line in lines if line.startswith("limit")] == limits
        assert [line for line in lines if line.startswith("inner")] == inner
    nearest = [{int(line.split()[1]): int(line.split()[4]) for line in lines
                if line.startswith("leaf")} for lines in plans]
    assert nearest[0] == {x: x, q: top} and nearest[-1] == {x: x, q: top, r: top}


def weighed(folder, weight, events="populated 1\nfrozen 0\n"):
    """A group of a tree, with a weight; None where the controller is not enabled."""
    folder.mkdir()
    (folder / "cgroup.events").write_text(events)
    if weight is not None:
        (folder / "cpu.weight").write_text(f"{weight}\n")
    return folder


def test_weights_beside_a_top(monkeypatch, folder):
    """Those of each level up to the root, of groups that have tasks. A level without the controller
    is none. Of the root itself all its groups count, and beside a tree of the host none."""
    monkeypatch.setattr(scheduler.readings, "HOST_TREE", str(folder / "host"))
    host = folder / "host"
    host.mkdir()
    for name, weight, *events in (("a", 300), ("b", 50, "populated 0\n"), ("c", 0), ("d", None)):
        weighed(host / name, weight, *events)
    for name, weight in (("x", 100), ("y", 200), ("z", 25)):
        weighed(host / "a" / name, weight)
    below = weighed(host / "a/x/deep", None)
    (host / "a/link").symlink_to(host / "a/y")
    assert scheduler.weights_above(str(host / "a")) == ([300], [0])
    assert scheduler.weights_above(str(host / "a/x")) == ([100, 300], [225, 0])
    assert scheduler.weights_above(str(below)) == ([100, 300], [225, 0])
    assert scheduler.weights_above(str(host / "c")) == ([0], [300])
    assert scheduler.weights_above(str(host)) == ([300], [0])
    assert scheduler.weights_above(str(weighed(folder / "else", 9))) == ([], [])


def test_the_rest_is_given_its_part(folder, begun, monkeypatch):
    """Of a host whose top weighs 100 beside 100 of others and the root's tasks: twice the plan's
    slices, as its amount and its guarantee."""
    world, loop = begun(GROUPS, "", "")
    monkeypatch.setattr(scheduler.readings, "HOST_TREE", str(folder))
    (world.tree / "cpu.weight").write_text("100\n")
    weighed(folder / "other", 100)
    world.run(loop, lambda: None)
    assert commands(folder)[3:5] == ["plan 200", "rest 400 400"]


def test_a_group_has_no_more_than_its_cpus(folder, begun, capsys):
    """One that keeps to one CPU of two is guaranteed no more, and the round's line has that as its
    limit. It is told once. One that is freed has its part by weights."""
    world, loop = begun([("c", 600, FREE), ("d", 100, FREE), ("p", 100, FREE), ("p/x", 100, FREE),
                         ("p/y", 300, FREE)], *[""] * 5)
    for path in ("c", "p"):
        (world.tree / path / "cpuset.cpus").write_text("1\n" if path == "c" else "0-1\n")
        (world.tree / path / "cpuset.cpus.effective").write_text("1\n")
    world.lacks = "d"

    def freed():
        (world.tree / "c/cpuset.cpus").write_text("\n")

    lines = world.run(loop, lambda: None, freed, lambda: None)
    numbers = {number(world, path): path for path in ("c", "d", "p/x", "p/y")}
    told = "\n".join(commands(folder)).split("plan 200\n")[1:]
    plans = [{numbers[int(line.split()[1])]: int(line.split()[3]) for line in plan.split("\n")
              if line.startswith("leaf")} for plan in told]
    # by weights c has 150, and each other one 25
    parts = [(each["c"], each["d"], each["p/x"] + each["p/y"]) for each in (plans[0], plans[-1])]
    assert parts == [(100, 50, 50), (150, 25, 25)]
    assert [each["groups"]["c"]["limit"] for each, _ in (lines[0], lines[-1])] == [100, 150]
    said = capsys.readouterr().err
    assert said.count("bound to CPUs: c, p: each has as many at most") == 1
    assert said.count("bound to CPUs: p: ") == 1


def test_a_group_that_cannot_be_read_keeps_its_limit(folder, begun, monkeypatch):
    """Another user takes the right to read its limit away: it has its row and its limit still."""
    world, loop = begun(GROUPS, *[""] * 4)
    b, read = number(world, "b"), loop.root.read

    def refused(place, file, *more):
        if (place, file) == ("b", "cpu.max"):
            raise HostFault("b/cpu.max: Permission denied")
        return read(place, file, *more)

    def hides():
        monkeypatch.setattr(loop.root, "read", refused)
        monkeypatch.setattr(loop, "is_of_others", lambda kept: kept.identity[1] == b)

    world.run(loop, lambda: None, hides, lambda: None)
    told = commands(folder)
    assert "b/cpu.max: Permission denied: its limit is left as it is" in loop.tell.__self__.told
    assert told.count(f"limit {b} 80000000 0 0") == told.count("end")
    assert sum(line.startswith(f"leaf {b} ") for line in told) == told.count("end") > 1


def leaves_of(folder, world):
    """The groups of each plan that the loader was given."""
    names = {os.stat(path).st_ino: str(path.relative_to(world.tree))
             for path in world.tree.rglob("*") if path.is_dir()}
    plans = "\n".join(commands(folder)).split("plan 200\n")[1:]
    return [[names[int(line.split()[1])] for line in plan.splitlines() if line.startswith("leaf")]
            for plan in plans]


@pytest.mark.skipif(os.geteuid() != 0, reason="gives files to another user")
def test_more_leaves_of_others_than_it_takes(monkeypatch, folder, begun, capsys):
    """Fewer groups of each other user have a leaf of their own, and those that have few keep
    theirs. The loop goes on."""
    monkeypatch.setattr(scheduler, "MOST_LEAVES", 12)
    monkeypatch.setattr(hold, "MOST_OF_OTHERS", 8)
    world, loop = begun([("a", 100, FREE), ("b", 100, FREE), ("c", 100, FREE)], *[""] * 6)
    for user, count in (("a/few", 2), ("b/many", 6), ("c/many", 7)):
        world.add(user)
        for at in range(count):
            world.add(f"{user}/g{at}")
        for path in [user, *(f"{user}/g{at}" for at in range(count))]:
            for each in (world.tree / path, *(world.tree / path).iterdir()):
                os.chown(each, 65534, 65534)
    world.lacks = "a/few/g0"
    lines = world.run(loop, *[lambda: None] * 4)
    wanted = ["a/few/g0", "a/few/g1", "b/many", "c/many"]
    assert len(lines) == 4 and leaves_of(folder, world)[-2:] == [wanted] * 2
    assert capsys.readouterr().err.count("they are held as one") == 2


def test_more_leaves_than_it_takes(monkeypatch, folder, begun, capsys):
    """Those of root beyond the bound are in the rest, which is told once. The loop goes on."""
    monkeypatch.setattr(scheduler, "MOST_LEAVES", 10)
    world, loop = begun([(f"g{at:02}", 100, FREE) for at in range(12)], *[""] * 6)
    world.lacks = "g00"
    lines = world.run(loop, *[lambda: None] * 4)
    assert [line["written"] for line, _ in lines] == [8] * 4
    assert leaves_of(folder, world)[-1] == [f"g{at:02}" for at in range(8)]
    assert capsys.readouterr().err.count("more than 8 leaves: the others are in the rest") == 1


def test_the_bound_is_that_of_the_loader():
    """It has a row for the rest, and ends at one leaf more."""
    if not shutil.which("cc"):
        pytest.skip("no cc")
    words = ["cc", "-E", "-P", "-include", str(PACKAGE.parent / "scheduler/plan.h"), "-"]
    found = subprocess.run(words, input="MOST_LEAVES", capture_output=True, text=True, check=True,
                           timeout=60)
    first, mark, second = re.fullmatch(r"\(?(\d+)(?: (<<) (\d+)\))?",
                                       found.stdout.strip().split("\n")[-1]).groups()
    rows = int(first) << int(second) if mark else int(first)
    assert scheduler.MOST_LEAVES == rows - 1 == 4095


def test_a_loader_that_ends_ends_the_loop(begun):
    """What it said is the fault, and is no failed reading that may pass."""
    world, loop = begun(GROUPS, "", "", "fail")
    with pytest.raises(hold.WriteFault, match="the kernel ended the scheduler"):
        world.run(loop, *[lambda: None] * 4)
    assert loop.scheduler.child.has_ended()


def test_what_is_no_reading_is_refused(begun):
    """Words that are no numbers."""
    world, loop = begun(GROUPS, "", "", "x,y;0,0;0,0")
    with pytest.raises(hold.WriteFault, match="no reading"):
        world.run(loop, *[lambda: None] * 3)


@pytest.mark.parametrize("said", ["", "counts 1 2 3\n", "counts 1 2 3 x\n", "leaf 0 1 2 3 4\n"])
def test_counts_that_are_none_are_refused(folder, said):
    """A reading without them, and others in their place."""
    program = folder / "loader"
    program.write_text(f"#!/bin/sh\necho ready; read line; printf '{said}read 5\\n'\nread line\n")
    program.chmod(0o755)
    found = scheduler.Scheduler("/sys/fs/cgroup", str(program))
    with pytest.raises(hold.WriteFault, match="no reading"):
        found.read()
    found.end()


def test_without_a_loader(monkeypatch, folder):
    """One line names the package; a loader that refuses says why itself."""
    monkeypatch.setenv("PATH", str(folder))
    monkeypatch.setattr(scheduler, "FOLDERS", str(folder))
    with pytest.raises(HostFault, match="apt-get install arbiter-scheduler"):
        scheduler.Scheduler("/sys/fs/cgroup")
    program = folder / "arbiter-scheduler"
    program.write_text("#!/bin/sh\necho this kernel has no sched_ext >&2\nexit 1\n")
    program.chmod(0o755)
    with pytest.raises(HostFault, match="this kernel has no sched_ext"):
        scheduler.Scheduler("/sys/fs/cgroup")


# Loaders that do not do what they should, behind their first answer.
READY = "import os, sys, time\nprint('ready', flush=True)\n"
BAD = {
    "reads nothing": "time.sleep(60)",
    "answers nothing": "sys.stdin.read()\ntime.sleep(60)",
    "a line without an end": "while True: print('x' * 9000, end='')",
    "closes its pipes": "os.close(0); os.close(1); os.close(2)\ntime.sleep(60)",
    "leaves somebody behind": "if os.fork() == 0:\n os.setsid()\n time.sleep(30)\nsys.exit('gone')",
    "says much": "while True: sys.stderr.write('x' * 9000)",
}


@pytest.mark.parametrize("name", BAD)
def test_a_loader_has_a_deadline(monkeypatch, folder, name):
    """What it is told, what it answers, and its end. No wait for it is without one."""
    program = folder / "loader"
    program.write_text(f"#!{sys.executable}\n{READY}{BAD[name]}\n")
    program.chmod(0o755)
    with soon():
        found = scheduler.Scheduler("/sys/fs/cgroup", str(program))
        other = scheduler.Scheduler("/sys/fs/cgroup", str(program))
        monkeypatch.setattr(scheduler, "LONGEST", 0.5)
        with pytest.raises(hold.WriteFault) as fault:
            leaves = [scheduler.Served(number, 1, 0, 0) for number in range(20_000)]
            found.plan(scheduler.Given(1, [], leaves, []))
            found.read()
        assert fault.value.message.count("\n") == 0 and len(fault.value.message) <= 400
        found.end()
        other.end()


def test_refused_words(ctl, folder, world):
    """Another tree than the host's, and weights."""
    for words, said in ((["--yes", "--undo", folder / "u"], "the kernel has one scheduler"),
                        (["--weights"], "--weights and --once write files"),
                        (["--once"], "--weights and --once write files")):
        _, err = ctl.run("hold", world.tree, "--root", world.tree, "--by", "scheduler", *words,
                         status=2)
        assert said in err


def option(name):
    """The values of an option of the unit, in order."""
    return re.findall(rf"^{name}=(.*)$", UNIT.read_text(encoding="utf-8"), re.M)


def calls_of(names):
    """System calls by their names, and those of systemd's sets."""
    found = set()
    for name in names:
        if name.startswith("@"):
            said = subprocess.run(["systemd-analyze", "syscall-filter", name], check=True,
                                  capture_output=True, text=True, timeout=60).stdout
            found |= calls_of(re.findall(r"^ +([@\w-]+)$", said, re.M))
        else:
            found.add(name)
    return found


def test_unit_says_how_it_runs():
    """It takes the settings of arbiter-hold.service and its place. The loader is the loop's to end.
    It writes no file of a group, and has two rights of root."""
    assert option("ExecStart") == [
        "/usr/bin/arbiterctl hold --yes --by scheduler $OPTIONS ${TREE}"]
    assert option("EnvironmentFile") == ["/etc/default/arbiter-hold"]
    assert option("Conflicts") == ["arbiter-hold.service"]
    assert (option("Type"), option("KillMode")) == (["notify"], ["mixed"])
    assert option("ProtectControlGroups") == ["yes"] and not option("ExecStopPost")
    assert option("CapabilityBoundingSet") == ["CAP_BPF CAP_PERFMON"]


@pytest.mark.skipif(not shutil.which("systemd-analyze"), reason="no systemd-analyze")
def test_unit_lets_the_loader_work():
    """Its filter lets through each system call of the loader but one, that no kernel with sched_ext
    needs. Of systemd's privileged calls it lets through `bpf` alone."""
    passes = set()
    for line in option("SystemCallFilter"):
        names = calls_of(line.lstrip("~").split())
        passes = passes - names if line.startswith("~") else passes | names
    needs = set(CALLS.read_text(encoding="ascii").split())
    assert "bpf" in needs and len(needs) > 10
    assert needs - passes == set()
    assert passes & calls_of(["@privileged"]) == {"bpf"}
