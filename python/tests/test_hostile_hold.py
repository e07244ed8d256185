"""Hold beside others: owners of groups, settings meanwhile, readers that stop, other commands."""
import argparse
import errno
import fcntl
import json
import os
import shutil
import signal
import subprocess
import sys
import tempfile
from contextlib import ExitStack
from pathlib import Path

import pytest
import trees
from arbiter_host.base import model, output, safe_files
from arbiter_host.base.faults import HostFault
from arbiter_host.hold import hold
from arbiter_host.setting import apply, record
from arbiter_host.setting.apply import By, Change, Settings
from arbiter_host.sources import readings
from arbiter_host.subcommands import _steps, apply as applying, hold as holding
from chances import cases
from held import FREE, SECOND, World, begun, content, limit, said, started
from places import PACKAGE

NOBODY, TENANT = 65534, 65533
OLD = Settings(100, None, 100000, 0)
as_root = pytest.mark.skipif(os.geteuid() != 0, reason="gives files to another user")


def give(path, user=NOBODY):
    """Gives a group and its files to another user."""
    for each in (path, *path.iterdir()):
        os.chown(each, user, user)


class Kernel(safe_files.Root):
    """A tree that refuses a quota below the burst, as the kernel does, and files of `refused`."""

    refused = ()

    def write(self, folder, file, text):
        burst = int(self.read(folder, "cpu.max.burst"))
        quota = text.split()[0]
        if file == "cpu.max" and quota != "max" and int(quota) < burst:
            raise HostFault(f"{folder}/cpu.max: Invalid argument")
        if folder in self.refused:
            raise HostFault(f"{folder}/{file}: {os.strerror(errno.EIO)}")
        super().write(folder, file, text)


def between(loop, action, turn=1):
    """Calls an action after the reading of a round and before its writing."""
    real, left = loop.record.put, [turn]

    def put(text):
        real(text)
        left[0] -= 1
        if not left[0]:
            action()
    loop.record.put = put


def at_end(loop, action):
    """Calls an action before what stood is put back."""
    real = loop.end
    loop.end = lambda: (action(), real())


# Very many groups

def crowd(world, top, *names):
    """Groups of another user below one of theirs."""
    for name in names:
        world.add(f"{top}/{name}")
        give(world.tree / top / name)


@as_root
def test_a_tenant_with_very_many_groups(world, engine, folder, capsys, monkeypatch):
    """Each is held up to a number. Beyond it they are held as one, told in a line, from then on;
    the others are held as ever."""
    monkeypatch.setattr(hold, "MOST_OF_OTHERS", 6)
    world.lacks = "a"
    world.add("b/user")
    give(world.tree / "b/user")
    crowd(world, "b/user", *"uvwxyz")
    loop = world.loop(engine, folder / "undo")
    lines = world.run(loop, lambda: None, lambda: None, lambda: crowd(world, "b/user", "z/too"),
                      lambda: crowd(world, "b/user", *(f"n{at}" for at in range(50))),
                      lambda: shutil.rmtree(world.tree / "b/user/z"))
    each = ["a", *(f"b/user/{name}" for name in "uvwxyz"), "c"]
    assert [sorted(line["groups"]) for line, _ in lines] == [
        each, each, ["a", "c"], ["a", "b/user", "c"], ["a", "b/user", "c"]]
    assert [stood["b/user/x"] != FREE for _, stood in lines] == [True] * 2 + [False] * 3
    assert lines[-1][1]["b/user"] != FREE != lines[2][1]["a"]
    assert content(world.tree / "b/user/n7")[str(world.tree / "b/user/n7/cpu.max")] == f"{FREE}\n"
    assert {world.maximum(path) for path in ("a", "b/user", "b/user/x", "c")} == {FREE}
    assert capsys.readouterr().err == (
        "arbiterctl: warning: b/user: another user has more than 6 groups there, or they take too"
        " long to read: they are held as one\n")


@as_root
def test_a_tenant_whose_groups_take_long(world, engine, folder, capsys, monkeypatch):
    """Twice in a row: they are held as one. (Once may be a stop.)"""
    for user in ("b/user", "c/user"):
        world.add(user)
        give(world.tree / user)
        crowd(world, user, "x", "y")
    loop = world.loop(engine, folder / "undo")
    real, slow = loop.look, ["c/user/x"]

    def look(kept, path):
        world.now += SECOND if path in slow else 0
        real(kept, path)
    loop.look = look
    lines = world.run(loop, lambda: None, slow.clear, lambda: slow.append("b/user/y"),
                      lambda: None, lambda: None, lambda: None)
    most = ["a", "b/user/x", "b/user/y", "c/user/x", "c/user/y"]
    assert [sorted(line["groups"]) for line, _ in lines] == [most] * 4 + [
        ["a", "c/user/x", "c/user/y"], ["a", "b/user", "c/user/x", "c/user/y"]]
    assert "b/user: another user has more" in capsys.readouterr().err


# What a tenant can do, who knows how the loop judges: in each round what it uses, in slices, and
# how long its tasks waited.
TENANTS = {
    # short tasks, which wait half of the time, below its limit: nobody knows whether they lack
    "short tasks": lambda turn: (110, 600_000),
    # all of it in each other round, each third one, and by chance
    "each other round": lambda turn: (turn % 2 * 110, turn % 2 * 10**6),
    "each third round": lambda turn: (turn % 3 // 2 * 110, turn % 3 // 2 * 10**6),
    "by chance": lambda turn: (turn * 2654435761 % 97, turn * 40503 % 7 * 10**5)}


@as_root
@pytest.mark.parametrize("name", TENANTS)
def test_a_tenant_of_short_tasks(folder, engine, capsys, name):
    """For many rounds: the loop lets go of the group in question, if it has to, and says so. The
    others are held on as they are without it, and no group is let go that is root's."""
    count = cases(500, 12)
    world = World(folder, [("t", 400, FREE), ("v", 100, FREE), ("w", 200, FREE)], lacks="v")
    give(world.tree / "t")
    turns = iter(range(1, 10**6))

    def step():
        used, waited = TENANTS[name](next(turns))
        world.uses("t", used, waited=waited)
        for path, most in (("v", 100), ("w", 100)):
            # (all that its limit allows)
            quota = world.maximum(path).split()[0]
            world.uses(path, most if quota == "max" else min(most, int(quota) // 1000), 1, 10**6)

    lines = world.run(world.loop(engine, folder / "undo"), *[step] * count)
    last = lines[-count // 5:]
    assert len(lines) == count and not (folder / "undo").exists()
    said = [line for line in capsys.readouterr().err.splitlines() if "held no longer" in line]
    assert all(line.startswith("arbiterctl: warning: t: held no longer: ") for line in said)
    assert len(said) == 1 or not said and name == "by chance"
    if said:
        assert all(stood["t"] == FREE for _, stood in last)
    assert all(stood[path] != FREE for _, stood in last for path in "vw"), lines[-1]
    assert [world.maximum(path) for path in "tvw"] == [FREE] * 3


@as_root
def test_tenants_alone_end_no_loop(folder, engine, capsys):
    """Where each group is let go the loop goes on, if one is of another user: a new one is held."""
    world = World(folder, [("t", 100, FREE), ("u", 100, FREE)], lacks="u")
    for path in "tu":
        give(world.tree / path)

    def step(*more):
        for path in ("t", "u", *more):
            world.uses(path, 60, waited=600_000)

    def with_new():
        if "n" not in world.counters:
            world.add("n")
        step("n")

    lines = world.run(world.loop(engine, folder / "undo"), *[step] * 100, *[with_new] * 30)
    assert len(lines) == 130
    err = capsys.readouterr().err
    assert "held no longer" in err and "no group is left to be held: new ones are" in err
    assert {stood[path] for _, stood in lines[70:] for path in "tu"} == {FREE}
    assert lines[-1][0]["groups"]["n"]["limit"] is not None


@as_root
def test_more_groups_of_others_than_are_planned(world, engine, folder, monkeypatch):
    """Fewer of them are held one by one then, of each user alike. Root's own are refused."""
    monkeypatch.setattr(model, "MAX_GROUPS", 40)
    for user in ("a/u", "b/v"):
        world.add(user)
        give(world.tree / user)
        crowd(world, user, *(f"n{at}" for at in range(30)))
    loop = world.loop(engine, folder / "undo")
    lines = world.run(loop, lambda: None)
    assert [sorted(line["groups"]) for line, _ in lines] == [["a/u", "b/v", "c"]]
    for at in range(40):
        world.add(f"own{at}")
    with pytest.raises(HostFault, match="the groups: more than 40 groups with the root"):
        world.run(world.loop(engine, folder / "undo"))


def test_what_stands_in_many_groups_is_read_in_turn(world, engine, folder, capsys, monkeypatch):
    """A limit that somebody sets is seen in one of some rounds, and never written over before."""
    monkeypatch.setattr(hold, "MOST_SETTINGS", 1)
    loop, reads = world.loop(engine, folder / "undo"), []
    real = loop.look
    loop.look = lambda kept, path: (reads.append(path), real(kept, path))

    def other():
        (world.tree / "a/cpu.max").write_text("70000 100000\n")
    lines = world.run(loop, lambda: None, lambda: None, other, *[lambda: None] * 8)
    assert sorted(reads[-8:]) == ["a", "a", "b", "b", "b", "c", "c", "c"] or len(reads) < 30
    assert {stood["a"] for _, stood in lines[2:]} == {"70000 100000"}
    assert capsys.readouterr().err.count("a: somebody set weight 100, max 70000 100000") == 1


def test_an_idle_group_costs_one_file(world, engine, folder, monkeypatch):
    """Its cpu.stat tells that it still is. One that used anything is read whole again."""
    world.lacks = "none"
    loop, reads = world.loop(engine, folder / "undo"), []
    real = loop.root.read

    def read(name, file, *most):
        if not file.startswith(("cpu.max", "cpu.weight")):
            reads.append((name, file))
        return real(name, file, *most)
    monkeypatch.setattr(loop, "look", lambda *_: None)
    loop.root.read = read
    world.run(loop, lambda: None, reads.clear, lambda: None,
              lambda: world.uses("b", 3, waited=10**6))
    assert reads == [(name, "cpu.stat") for name in "abc"] * 2 + [
        ("a", "cpu.stat"), ("b", "cpu.stat"), ("b", "cpu.pressure"), ("b", "cgroup.threads"),
        ("c", "cpu.stat")]


@as_root
def test_a_tenant_shuts_its_files(engine, capsys):
    """The loop of an ordinary user goes on. What cannot be read is left as it is, and told; groups
    that can be are held, and put back."""
    with tempfile.TemporaryDirectory() as name:
        place = Path(name)
        world = World(place, [("a", 100, FREE), ("b", 100, FREE), ("c", 200, FREE)], "none")
        for each in (place, *place.rglob("*")):
            os.chown(each, NOBODY, NOBODY)
        give(world.tree / "b", TENANT)
        place.chmod(0o755)
        os.seteuid(NOBODY)
        try:
            lines, loop = [], world.loop(engine)

            def shut(mode, *files):
                os.seteuid(0)
                for file in files:
                    (world.tree / "b" / file).chmod(mode)
                os.seteuid(NOBODY)
            world.after = [lambda: None, lambda: shut(0, "cpu.max"), lambda: None,
                           lambda: shut(0, "cpu.stat"), lambda: None, lambda: shut(0, "."),
                           lambda: None, lambda: shut(0o755, ".", "cpu.stat", "cpu.max"),
                           lambda: None]
            hold.run(loop, readings.Times(number=None), world.wait, lines.append)
        finally:
            os.seteuid(0)
    assert [sorted(line["groups"]) for line in lines] == [
        ["a", "b", "c"]] + [["a", "c"]] * 6 + [["a", "b", "c"]] * 2
    told = capsys.readouterr().err
    assert "b/cpu.max: Permission denied: its limit is left as it is" in told, told


# Names

@as_root
def test_a_tenant_names_a_group_as_kubelets(world, engine, folder, capsys):
    """It is none of kubelet's: the loop begins, goes on, and holds it. Root's that comes later is
    left alone."""
    def tenants(name):
        world.add(name)
        give(world.tree / name)

    def kubelets():
        world.add("kubepods.slice")
        world.add("kubepods.slice/pod")

    tenants("b/kubepods")
    loop = world.loop(engine, folder / "undo")
    lines = world.run(loop, kubelets, lambda: None,
                      lambda: tenants("a/kubepods-x"), lambda: None)
    assert [sorted(line["groups"]) for line, _ in lines] == [
        ["a", "b/kubepods", "c"]] * 2 + [["b/kubepods", "c"], ["a/kubepods-x", "b/kubepods", "c"]]
    assert {world.maximum(path) for path in world.counters} == {FREE}
    assert capsys.readouterr().err == (
        "arbiterctl: warning: kubepods.slice: kubelet owns the limits there: it is left alone"
        " (--force)\n")


def test_own_group_by_another_path(world, engine, folder, monkeypatch):
    """It is known by what it is, so also in a tree that is mounted elsewhere."""
    (folder / "cgroup").symlink_to(world.tree)
    monkeypatch.setattr(readings, "HOST_TREE", str(folder / "cgroup"))
    monkeypatch.setattr(hold.cgroup2, "file_text", lambda *_: "0::/a\n")
    own = hold.own_group()
    monkeypatch.undo()
    loop = world.loop(engine, folder / "undo")
    loop.own = own
    (line, stood), = world.run(loop, lambda: None)
    assert sorted(line["groups"]) == ["b", "c"] and stood["a"] == FREE


def test_remarks_fill_no_log(capsys):
    """Each once, and at most a hundred at a time."""
    remarks = output.Remarks()
    remarks.tell([f"g{at}\n: odd" for at in range(150)] * 2)
    remarks.tell(["g1\n: odd", "new"])
    lines = capsys.readouterr().err.split("\n")[:-1]
    assert len(lines) == 102 and lines[0] == "arbiterctl: warning: g0\\x0a: odd"
    assert lines[100:] == ["arbiterctl: warning: remarks that are not shown: 50",
                           "arbiterctl: warning: new"]


# What is set meanwhile

def test_a_limit_set_between_reading_and_writing(world, engine, folder, capsys):
    """It is not written over, neither then nor at the end, and the others are held."""
    loop = world.loop(engine, folder / "undo")
    between(loop, lambda: (world.tree / "a/cpu.max").write_text("70000 100000\n"))
    lines = world.run(loop, lambda: None, lambda: None)
    assert [stood["a"] for _, stood in lines] == ["70000 100000"] * 2
    assert [stood["c"] for _, stood in lines] == [limit(100)] * 2
    assert [world.maximum(path) for path in "abc"] == ["70000 100000", FREE, FREE]
    assert capsys.readouterr().err.count("a: somebody set") == 1


@as_root
def test_an_owner_makes_a_writing_fail(world, engine, folder, capsys):
    """A burst that comes after the reading makes the kernel refuse the limit. Where the owner is a
    tenant the loop goes on, and holds the others."""
    loop = world.loop(engine, folder / "undo")
    loop.root = Kernel(str(world.tree))
    between(loop, lambda: (world.tree / "a/cpu.max.burst").write_text("90000\n"))
    give(world.tree / "a")
    lines = world.run(loop, lambda: None, lambda: None)
    # (the next reading sees the burst, and it is lowered before the limit)
    assert [[stood[path] for path in "abc"] for _, stood in lines] == [
        [FREE, limit(200), limit(100)], [limit(50), limit(200), limit(100)]]
    assert "its owner may have set it meanwhile" in capsys.readouterr().err
    assert [world.maximum(path) for path in "abc"] == [FREE] * 3
    assert (world.tree / "a/cpu.max.burst").read_text() == "90000\n"


def test_a_writing_of_roots_that_fails_ends_it(world, engine, folder):
    """The same of a group of the operator's is a fault of the host."""
    loop = world.loop(engine, folder / "undo")
    loop.root = Kernel(str(world.tree))
    between(loop, lambda: (world.tree / "a/cpu.max.burst").write_text("90000\n"))
    with pytest.raises(HostFault, match="a/cpu.max: Invalid argument"):
        world.run(loop, lambda: None, lambda: None)
    assert [world.maximum(path) for path in "abc"] == [FREE] * 3


@pytest.mark.parametrize("own, burst, wanted", [
    (FREE, 30000, 30000), ("90000 100000", 30000, 30000), ("40000 50000", 45000, 40000)])
@pytest.mark.parametrize("is_at_end", [False, True])
def test_a_burst_that_somebody_sets(folder, engine, own, burst, wanted, is_at_end):
    """The limit is still the loop's, and is taken back: the burst stays as far as it fits."""
    world = World(folder, [("a", 100, own), ("b", 300, FREE)])
    loop = world.loop(engine, folder / "undo")

    def put():
        (world.tree / "a/cpu.max.burst").write_text(f"{burst}\n")

    at_end(loop, put if is_at_end else lambda: None)
    lines = world.run(loop, lambda: None, lambda: None if is_at_end else put(), lambda: None)
    assert [stood["a"] for _, stood in lines] == [limit(50)] * 3
    assert world.maximum("a") == own
    assert (world.tree / "a/cpu.max.burst").read_text().strip() == str(wanted)


@pytest.mark.parametrize("maximum, wanted", [
    ("70000 100000", 30000), ("20000 100000", 20000), (FREE, 30000)])
@pytest.mark.parametrize("is_at_end", [False, True])
def test_a_limit_that_somebody_sets_has_the_burst(folder, engine, maximum, wanted, is_at_end):
    """The group's own burst, which the loop had taken away, comes back as far as it fits."""
    world = World(folder, [("a", 100, "90000 100000"), ("b", 300, FREE)])
    (world.tree / "a/cpu.max.burst").write_text("30000\n")
    loop = world.loop(engine, folder / "undo")

    def put():
        assert (world.tree / "a/cpu.max.burst").read_text() == "0\n"
        (world.tree / "a/cpu.max").write_text(f"{maximum}\n")

    at_end(loop, put if is_at_end else lambda: None)
    lines = world.run(loop, lambda: None, lambda: None if is_at_end else put(), lambda: None)
    assert [stood["a"] for _, stood in lines] == (
        [limit(50)] * 3 if is_at_end else [limit(50)] + [maximum] * 2)
    assert world.maximum("a") == maximum
    assert (world.tree / "a/cpu.max.burst").read_text().strip() == str(wanted)


def test_undo_of_a_loop_that_was_killed(folder, engine):
    """Its undo file brings back each setting that nobody set since."""
    world = World(folder, [("a", 100, "90000 100000"), ("b", 300, FREE)])
    (world.tree / "a/cpu.max.burst").write_text("30000\n")
    loop = world.loop(engine, folder / "undo")
    loop.end = lambda: None
    world.run(loop, lambda: None)
    (world.tree / "a/cpu.max").write_text("70000 100000\n")
    (world.tree / "b/cpu.max.burst").write_text("5000\n")
    back = apply.read_undo((folder / "undo").read_bytes(), "undo")
    apply.undo(back, [])
    assert [apply.current(back.root, name) for name in "ab"] == [
        Settings(100, 70000, 100000, 30000), Settings(300, None, 100000, 5000)]
    assert [each.split(":")[0] for each in back.left] == ["a", "b"]


def test_more_groups_than_files(world, engine, folder, monkeypatch, capsys):
    """Those that cannot be open are left alone, and the loop goes on."""
    monkeypatch.setattr(safe_files, "most_files", lambda: hold.SPARE_FILES + 2)
    lines = world.run(world.loop(engine, folder / "undo"), lambda: None, lambda: None)
    assert [sorted(line["groups"]) for line, _ in lines] == [["a", "b"]] * 2
    assert capsys.readouterr().err.count("more than 2 groups: the others are left alone") == 1


def test_one_group_that_cannot_be_put_back(world, engine, folder):
    """The others are, the fault names it, and the undo file stays."""
    loop = world.loop(engine, folder / "undo")
    loop.root = Kernel(str(world.tree))
    with pytest.raises(HostFault) as fault:
        world.run(loop, lambda: None, lambda: setattr(loop.root, "refused", ("a",)))
    assert fault.value.message.startswith("a/cpu.max: Input/output error")
    assert f"to undo: arbiterctl undo {folder / 'undo'} --yes" in fault.value.message
    assert [world.maximum(path) for path in "abc"] == [limit(50), FREE, FREE]
    apply.undo(apply.read_undo((folder / "undo").read_bytes(), "undo"), [])
    assert [world.maximum(path) for path in "abc"] == [FREE] * 3


# Readers that stop

class Gone:
    """A standard error that nobody reads."""

    def write(self, _):
        raise BrokenPipeError(errno.EPIPE, "gone")

    def flush(self):
        raise BrokenPipeError(errno.EPIPE, "gone")


def test_nobody_reads_the_warnings(world, engine, folder, monkeypatch):
    """What cannot be told stops nothing from being put back."""
    def other():
        (world.tree / "a/cpu.max").write_text("70000 100000\n")

    loop = world.loop(engine, folder / "undo")
    at_end(loop, other)
    monkeypatch.setattr(sys, "stderr", Gone())
    world.run(loop, lambda: None, lambda: None)
    monkeypatch.undo()
    assert [world.maximum(path) for path in "abc"] == ["70000 100000", FREE, FREE]
    assert not (folder / "undo").exists()


def test_a_hangup_that_is_ignored(ctl, world, folder):
    """As nohup has it: the loop goes on."""
    words = ["hold", world.tree, "--root", world.tree, "--cpus", "2", "--yes", "--read",
             "x100ms", "--period", "100ms", "--undo", folder / "u"]
    loop = subprocess.Popen(
        [sys.executable, str(PACKAGE / "arbiterctl"), *map(str, words)], env=ctl.environment,
        stdout=subprocess.PIPE, stderr=subprocess.PIPE,
        preexec_fn=lambda: signal.signal(signal.SIGHUP, signal.SIG_IGN))
    for turn in range(1, 4):
        assert json.loads(loop.stdout.readline())["round"] == turn
        loop.send_signal(signal.SIGHUP)
    loop.send_signal(signal.SIGTERM)
    assert (said(loop), loop.returncode) == ([], 0)


# A second command

def test_apply_and_undo_beside_a_loop(folder, monkeypatch):
    """What a loop wrote is not taken for the operator's own. Elsewhere both run."""
    monkeypatch.setattr(record, "FOLDER", str(folder / "run"))
    root = safe_files.Root(str(folder))
    for name in ("held/a/b", "other", "held-not"):
        (folder / name).mkdir(parents=True)
    _steps.check_no_loop(root, ["held/a", "other"])
    held = record.lock(str(folder / "run"), str(folder / "held"))
    _steps.check_no_loop(root, ["other", "held-not", "gone"])
    for name in ("held/a/b", "held/a", "held"):
        with pytest.raises(HostFault, match="arbiterctl hold runs on .*/held: .* End it first"):
            _steps.check_no_loop(root, ["other", name])
    # the same tree by another path, as of a second mount of it or of a part of it
    (folder / "mount").symlink_to(folder / "held/a")
    with pytest.raises(HostFault, match="/held/a/b: arbiterctl hold runs on .*/held: "):
        _steps.check_no_loop(safe_files.Root(str(folder / "mount")), ["b"])
    (folder / "held").rename(folder / "elsewhere")
    with pytest.raises(HostFault, match="/held: No such file or directory"):
        _steps.check_no_loop(root, ["elsewhere/a"])
    for each in held:
        os.close(each)
    _steps.check_no_loop(root, ["elsewhere/a"])
    assert record.holder(str(folder / "run")) is None


@as_root
def test_apply_beside_a_loop_by_another_mount(folder, monkeypatch):
    """A bind mount of a part of the tree that is held: its groups are known by what they are."""
    monkeypatch.setattr(record, "FOLDER", str(folder / "run"))
    for name in ("held/part/a", "mount"):
        (folder / name).mkdir(parents=True)
    if subprocess.run(["mount", "--bind", folder / "held/part", folder / "mount"],
                      capture_output=True, check=False).returncode:
        pytest.skip("no mount here")
    held = record.lock(str(folder / "run"), str(folder / "held"))
    try:
        with pytest.raises(HostFault, match="/mount/a: arbiterctl hold runs on .*/held: "):
            _steps.check_no_loop(safe_files.Root(str(folder / "mount")), ["a"])
    finally:
        subprocess.run(["umount", folder / "mount"], check=True)
        for each in held:
            os.close(each)


def test_an_undo_file_of_another_name_after_a_kill(ctl, world, folder):
    """The limits of the killed loop are not taken for the operator's own."""
    before = content(world.tree)
    loop = started(ctl, world, folder / "first")
    loop.kill()
    loop.communicate(timeout=30)
    assert content(world.tree) != before
    other = begun(ctl, world, folder / "second")
    assert said(other) == [f"arbiterctl: the undo file {folder / 'first'}: File exists; nothing is"
                           " changed. If a loop was killed: arbiterctl undo"
                           f" {folder / 'first'} --yes, and remove it then"]
    ctl.run("undo", folder / "first", "--yes")
    (folder / "first").unlink()
    loop = started(ctl, world, folder / "second")
    loop.send_signal(signal.SIGTERM)
    assert (said(loop), loop.returncode) == ([], 0) and content(world.tree) == before


def test_an_undo_file_in_another_folder_after_a_kill(world, folder, monkeypatch):
    """Of a real tree one lock tells where it is, whatever folder and name the next loop has."""
    monkeypatch.setattr(record, "FOLDER", str(folder / "run"))
    monkeypatch.setattr(holding, "is_real", lambda root: True)
    for name in ("one", "two"):
        (folder / name).mkdir(mode=0o700)
    root = safe_files.Root(str(world.tree))

    def begin(undo):
        with ExitStack() as stack:
            words = argparse.Namespace(undo=undo and str(folder / undo), source=str(world.tree))
            holding.locked(root, words, stack).put("limits stand")

    # (a kill leaves the file, and no lock)
    begin("one/undo")
    for undo in ("two/undo", "one/other", "run/undo", None):
        with pytest.raises(HostFault, match=f"the undo file {folder}/one/undo: File exists"):
            begin(undo)
    (folder / "one/undo").unlink()
    begin("two/undo")
    with pytest.raises(HostFault, match=f"the undo file {folder}/two/undo: File exists"):
        begin(None)


def test_a_loop_says_what_it_holds(ctl, world, folder):
    loop = started(ctl, world, folder / "u")
    assert record.holder(str(folder)) == (str(world.tree), str(folder / "u"))
    loop.send_signal(signal.SIGTERM)
    assert (said(loop), loop.returncode) == ([], 0)
    assert record.holder(str(folder)) is None


def test_who_asks_for_the_lock_stops_no_loop(folder):
    """It has the lock for a moment, in which a loop may begin."""
    with open(folder / "hold.lock", "w", encoding="ascii") as file:
        fcntl.flock(file, fcntl.LOCK_SH)
        subprocess.Popen(["sleep", "0.2"], pass_fds=[file.fileno()])
    for each in record.lock(str(folder)):
        os.close(each)


def test_a_real_tree_by_another_path(folder, monkeypatch):
    """A tree is the host's if its device is: there is one lock for all paths to it."""
    root = safe_files.Root(str(folder))
    for place, is_real in ((readings.HOST_TREE, False), ("/proc", False), (folder / "none", False),
                           (folder, True), (folder.parent, True)):
        monkeypatch.setattr(readings, "HOST_TREE", str(place))
        assert holding.is_real(root) == is_real, place
    (folder / "other").mkdir()
    monkeypatch.setattr(readings, "HOST_TREE", str(folder / "other"))
    assert holding.is_real(root)


# Apply and undo

@pytest.fixture
def tree(folder):
    """A tree of three groups of weight 100."""
    trees.root2(folder / "t")
    for name in "abc":
        trees.group2(folder / "t" / name)
    return folder / "t"


def weights(tree):
    """The weights of the groups."""
    return [int((tree / name / "cpu.weight").read_text()) for name in "abc"]


def new(weight):
    """Changes of all groups to a weight."""
    return [Change(name, OLD, Settings(weight, None, 100000, 0)) for name in "abc"]


def test_a_weight_set_between_reading_and_writing(folder, tree, monkeypatch):
    """`apply` ends there, and its undo file brings back the rest; so does `undo` itself."""
    real = apply.write_synced

    def write_synced(path, text):
        real(path, text)
        (tree / "b/cpu.weight").write_text("55\n")

    monkeypatch.setattr(apply, "write_synced", write_synced)
    with pytest.raises(HostFault, match="b: somebody set cpu.weight to 55 meanwhile\nto undo: "):
        apply.make(safe_files.Root(str(tree)), new(9), By.FILES, str(folder / "u"), [])
    assert weights(tree) == [9, 55, 100]
    (tree / "b/cpu.weight").write_text("9\n")
    back = apply.read_undo((folder / "u").read_bytes(), "u")
    (tree / "b/cpu.weight").write_text("77\n")
    apply.undo(back, [])
    assert weights(tree) == [100, 77, 100]
    assert back.left == ["b: somebody set cpu.weight to 77 meanwhile: it is left (undo once more,"
                         " or --force)"]


def test_an_interrupt_says_how_to_undo(folder, tree, monkeypatch, capsys):
    """Ctrl-C between two steps: who typed it is told where the undo file is."""
    real = apply.do

    def do(step, root):
        if step.folder == "b":
            raise KeyboardInterrupt
        real(step, root)

    monkeypatch.setattr(apply, "do", do)
    options = argparse.Namespace(persistent=False, yes=True, undo=str(folder / "u"))
    with pytest.raises(KeyboardInterrupt):
        applying.set_host(options, (new(9), []), safe_files.Root(str(tree)), By.FILES)
    assert capsys.readouterr().err == ("arbiterctl: interrupted after 1 of 3 steps; to undo:"
                                       f" arbiterctl undo {folder / 'u'} --yes\n")
    assert weights(tree) == [9, 100, 100]
    monkeypatch.undo()
    apply.undo(apply.read_undo((folder / "u").read_bytes(), "u"), [])
    assert weights(tree) == [100] * 3


def test_undo_goes_on_after_a_fault(folder, tree):
    """One group that cannot be written costs the others nothing."""
    apply.make(safe_files.Root(str(tree)), new(9), By.FILES, str(folder / "u"), [])
    back, done = apply.read_undo((folder / "u").read_bytes(), "u"), []
    back.root = Kernel(str(tree))
    back.root.refused = ("a",)
    with pytest.raises(HostFault, match="^a/cpu.weight: Input/output error$"):
        apply.undo(back, done)
    assert weights(tree) == [9, 100, 100] and [step.folder for step in done] == ["b", "c"]


def test_undo_after_all_groups_of_a_loop_went(ctl, folder, world, engine):
    """There is nothing to undo, so a service may begin again: groups that are held come and go. A
    root without a tree is the wrong one."""
    text = []
    world.run(world.loop(engine, folder / "undo"), lambda: None,
              lambda: text.append((folder / "undo").read_text()))
    (folder / "u").write_text(text[0])
    for name in "abc":
        shutil.rmtree(world.tree / name)
    out, err = ctl.run("undo", folder / "u", "--yes")
    assert out == "# no change\n" and err.count("the group is gone, nothing of it is undone") == 3
    for name in ("cpu.stat", "cgroup.controllers"):
        (world.tree / name).unlink()
    assert "none of the groups of" in ctl.run("undo", folder / "u", "--yes", status=1)[1]


def test_an_undo_file_of_another_user(ctl, folder, tree):
    """What it sets would be that user's choice. One that everybody may write is none either."""
    apply.make(safe_files.Root(str(tree)), new(9), By.FILES, str(folder / "u"), [])
    os.chmod(folder / "u", 0o666)
    assert "other users may change this file" in ctl.run("undo", folder / "u", status=1)[1]
    os.chmod(folder / "u", 0o640)
    if os.geteuid() == 0:
        os.chown(folder / "u", NOBODY, NOBODY)
        assert "other users may change this file" in ctl.run("undo", folder / "u", "--yes",
                                                             status=1)[1]
        os.chown(folder / "u", 0, 0)
    assert weights(tree) == [9] * 3
    ctl.run("undo", folder / "u", "--yes")
    assert weights(tree) == [100] * 3
