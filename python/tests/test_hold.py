"""Hold: the limits of worked readings, what is put back at each end, and what is refused."""
import fcntl
import json
import os
import random
import shutil
import signal
import subprocess
import sys
import tempfile
import time

import killed_loop
import pytest
import trees
from arbiter_host.base import safe_files
from arbiter_host.base.faults import HostFault
from arbiter_host.hold import hold
from arbiter_host.setting import apply, record
from arbiter_host.setting.apply import Settings
from held import FREE, SECOND, World, content, limit, said, started


def test_limits_of_worked_readings(world, engine, folder):
    """a wants 20, then 80; b and c want all. The plans are 20, 60, 120 and 50, 50, 100."""
    loop = world.loop(engine, folder / "undo")

    def first():
        world.uses("a", 20)
        world.uses("b", 90, waited=600000)
        world.uses("c", 90, waited=600000)

    def second():
        world.uses("a", 80)
        world.uses("b", 60, throttled=3)
        world.uses("c", 60, throttled=1)

    (one, stood), (two, then) = world.run(loop, first, second)
    # a: used 20 + 2 of headroom, but its guarantee is 50. b, c: 180 shared out by 100 to 200.
    assert one["groups"] == {
        "a": {"want": 20, "plan": 20, "used": 20, "limit": 50, "hungry": False, "guess": False,
              "unserved": 0},
        "b": {"want": 1000000, "plan": 60, "used": 90, "limit": 60, "hungry": True, "guess": True,
              "unserved": 0},
        "c": {"want": 1000000, "plan": 120, "used": 90, "limit": 120, "hungry": True,
              "guess": True, "unserved": 0}}
    assert (one["held"], one["served"], two["served"]) == (3, 1, 1)
    # both were throttled: that is no guess
    assert [each["guess"] for each in two["groups"].values()] == [False] * 3
    assert stood == {"a": limit(50), "b": limit(60), "c": limit(120)}
    # a uses more than its plan of 50, so it is held at that.
    assert [(each["plan"], each["limit"]) for each in two["groups"].values()] == [
        (50, 50), (50, 50), (100, 100)]
    assert then == {"a": limit(50), "b": limit(50), "c": limit(100)}
    assert (one["round"], one["written"], two["round"], two["written"]) == (1, 3, 2, 2)
    assert [world.maximum(path) for path in "abc"] == [FREE] * 3
    assert not (folder / "undo").exists() and not (folder / "undo.part").exists()


def test_headroom_own_limits_and_a_burst(folder, engine):
    """Without hunger a leaf has an eighth above its use, and never more than its own limit."""
    world = World(folder, [("a", 100, FREE), ("b", 100, FREE), ("c", 200, "80000 100000"),
                           ("d", 1, FREE)], lacks="d")
    trees.group2(world.tree / "b", 100, "150000 100000", 60000)
    loop = world.loop(engine, folder / "undo")

    def step():
        world.uses("a", 112)
        world.uses("b", 10, waited=99999)
        world.uses("c", 8)

    (line, stood), = world.run(loop, step)
    # Guarantees: c 80 by its limit; 60 and 59 for a and b, and 1 for d, which has what they leave.
    # b is not hungry: no task of it is known, and it waited for less than half of the round. a: 112
    # + 14.
    assert {path: each["limit"] for path, each in line["groups"].items()} == {
        "a": 126, "b": 59, "c": 80, "d": 70}
    assert stood == {"a": limit(126), "b": limit(59), "c": "80000 100000", "d": limit(70)}
    assert apply.current(loop.root, "b") == Settings(100, 150000, 100000, 60000)


def test_a_calm_round_holds_nobody(folder, engine):
    """Nobody lacks anything but at his own limit: each has that, and his own weight."""
    world = World(folder, [("a", 100, FREE), ("b", 100, FREE), ("c", 200, "80000 100000")], "none")
    loop, seen = world.loop(engine, folder / "undo", ways=hold.Ways(has_weights=True)), []

    def calm(used=100):
        world.uses("a", used)
        world.uses("c", 80, throttled=9)

    def busy():
        world.uses("a", 90, waited=10**6)
        world.uses("c", 80, throttled=9)
        world.uses("b", 30, waited=10**6)

    def look(step):
        step()
        seen.append([(world.tree / path / "cpu.weight").read_text().strip() for path in "abc"])

    # (one that used all of its limit of 60 would be hungry)
    lines = world.run(loop, calm, busy, lambda: look(lambda: calm(59)), lambda: look(calm))
    free, own = FREE, "80000 100000"
    assert [stood for _, stood in lines] == [
        {"a": free, "b": free, "c": own}, {"a": limit(60), "b": limit(60), "c": own},
        {"a": free, "b": free, "c": own}, {"a": free, "b": free, "c": own}]
    assert [[each["limit"] for each in line["groups"].values()] for line, _ in lines] == [
        [None, None, 80], [60, 60, 80], [None, None, 80], [None, None, 80]]
    assert [line["written"] for line, _ in lines] == [0, 3, 3, 0]
    assert seen[0] != seen[1] == ["100", "100", "200"]


@pytest.mark.parametrize("first, second, stood", [
    (64, 63, 63), (130, 129, 130), (130, 127, 127), (100, 101, 101), (129, 130, 129)])
def test_small_changes_are_not_written(folder, engine, first, second, stood):
    """A limit stands while it is up to a 64th above the rule's; b has what a leaves of 200."""
    world, seen = World(folder, [("a", 10000, FREE), ("b", 1, FREE)]), []

    def step(slices):
        world.uses("a", slices)
        world.uses("b", 200 - slices, waited=10**6)

    world.run(world.loop(engine, folder / "undo"), lambda: step(200 - first),
              lambda: step(200 - second), lambda: seen.append(world.maximum("b")))
    assert seen == [limit(stood)]


def test_inner_limits_and_rounding_up(folder, engine, capsys):
    """A group with children keeps its limit. A leaf planned no slice gets 1 ms, told once."""
    world = World(folder, [("in", 10000, "40000 100000"), ("in/x", 100, FREE), ("z", 1, FREE)])

    def step(hungry, slices=0):
        world.uses("in/x", 40)
        world.uses("z", slices)
        world.uses(hungry, 0, waited=10**6)

    lines = world.run(world.loop(engine, folder / "undo"), lambda: step("in/x"),
                      lambda: step("z", 1))
    # First it is hungry; then z is, and it uses 40 below a limit that does not stop it.
    assert [line["groups"]["in/x"]["limit"] for line, _ in lines] == [40, 45]
    assert lines[0][1]["in"] == "40000 100000"
    # z is guaranteed the 160 slices that `in` may not use.
    assert lines[0][1]["z"] == limit(160)
    world = World(folder / "two", [("y", 10000, FREE), ("z", 1, FREE)])

    def starved():
        world.uses("y", 200, waited=10**6)
        world.uses("z", 0, waited=10**6)

    loop = world.loop(engine, folder / "undo2")
    assert world.run(loop, starved, starved)[1][1]["z"] == limit(1)
    assert capsys.readouterr().err.count("limits below 1 ms are rounded up to it") == 1


def test_groups_come_and_go(world, engine, folder):
    """A new group is held from its second reading on; one that goes costs nothing."""
    loop, undo = world.loop(engine, folder / "undo"), folder / "undo"

    def step(*paths):
        for path in paths:
            world.uses(path, 10, waited=10**6)

    def come():
        step(*"abc")
        world.add("d", 100, "190000 100000")

    def go():
        step(*"abd")
        shutil.rmtree(world.tree / "c")

    def again():
        step(*"ab")
        shutil.rmtree(world.tree / "d")
        world.add("d", 100, "170000 100000")

    seen = []
    lines = world.run(loop, lambda: step(*"abc"), come, lambda: step(*"abcd"), go, again,
                      lambda: seen.append(json.loads(undo.read_text())) or step(*"abd"),
                      lambda: seen.append(json.loads(undo.read_text())) or step(*"abd"))
    assert [sorted(line["groups"]) for line, _ in lines] == [
        list("abc"), list("abc"), list("abcd"), list("abd"), list("ab"), list("abd"), list("abd")]
    # Weights 100, 100, 200 and 100 on 200 slices guarantee d 40, and 66 or 67 without c.
    assert lines[2][1]["d"] == limit(40)
    assert lines[3][1]["d"] in (limit(66), limit(67))
    assert lines[4][1]["d"] == "170000 100000" and lines[5][1]["d"] != "170000 100000"
    assert {each["folder"]: each["quota"] for each in seen[1]["groups"]} == {
        "a": None, "b": None, "d": 170000}
    assert [world.maximum(path) for path in "abd"] == [FREE, FREE, "170000 100000"]
    assert not undo.exists() and loop.groups.keys() == {"a", "b", "d"}


def test_units_are_written_by_their_files(world, engine, folder, monkeypatch):
    """Weights 100, 100, 200 and 100 guarantee the unit 40 of 200 slices."""
    monkeypatch.setattr(apply, "systemctl", None)
    world.add("web.service")
    (_, stood), = world.run(world.loop(engine, folder / "undo"), lambda: None)
    assert stood["web.service"] == limit(40) and world.maximum("web.service") == FREE


def test_a_leaf_that_gets_children_has_its_own_limit_again(world, engine, folder):
    stood = []
    world.run(world.loop(engine, folder / "undo"), lambda: None,
              lambda: world.add("a/in"), lambda: None,
              lambda: stood.append((world.maximum("a"), world.maximum("a/in"))))
    assert stood == [(FREE, limit(50))]
    assert world.maximum("a/in") == FREE


def test_somebody_sets_a_limit(world, engine, folder, capsys):
    """What neither stood nor was written is left alone, and stays at the end."""
    def other():
        (world.tree / "a/cpu.max").write_text("70000 100000\n")

    lines = world.run(world.loop(engine, folder / "undo"), lambda: None, other, lambda: None)
    assert [stood["a"] for _, stood in lines] == [limit(50)] + ["70000 100000"] * 2
    assert [world.maximum(path) for path in "abc"] == ["70000 100000", FREE, FREE]
    assert capsys.readouterr().err.count("a: somebody set") == 1


def test_own_limit_is_set_again(world, engine, folder, capsys):
    """systemd does so at a daemon-reload: it is written anew, and what stood is back at the end."""
    def reload():
        for path in "abc":
            (world.tree / path / "cpu.max").write_text(f"{FREE}\n")

    lines = world.run(world.loop(engine, folder / "undo"), lambda: None, reload, lambda: None)
    assert [stood["a"] for _, stood in lines] == [limit(50)] * 3
    assert [world.maximum(path) for path in "abc"] == [FREE] * 3
    said = capsys.readouterr().err
    assert said.count("own limit was set again") == 3 and "somebody" not in said


def test_an_older_reading_and_two_failed_ones(world, engine, folder, capsys):
    """One costs a round in which nothing is written; two in a row put back what stood."""
    def older():
        world.counters["a"][0] -= 1
        world.uses("a", 0)

    loop = world.loop(engine, folder / "undo")
    lines = world.run(loop, lambda: world.uses("a", 1), older, lambda: world.uses("a", 1))
    assert [line["round"] for line, _ in lines] == [1, 2]
    assert capsys.readouterr().err.count("a: its reading is older than the last") == 1
    loop = world.loop(engine, folder / "undo")
    held = []
    with pytest.raises(HostFault, match="older than the last"):
        world.run(loop, lambda: None, older, lambda: held.append(world.maximum("a")) or older())
    assert held == [limit(50)] and world.maximum("a") == FREE


def test_a_clock_that_stands_and_missed_rounds(world, engine, folder, capsys):
    def late():
        world.now += 2 * SECOND

    loop = world.loop(engine)
    loop.read()
    with pytest.raises(HostFault, match="older than the last"):
        loop.round()
    lines = world.run(world.loop(engine), lambda: None, late)
    assert [line["missed"] for line, _ in lines] == [0, 2]
    assert "2 rounds missed" in capsys.readouterr().err


def test_a_clock_that_jumps(world, engine, folder, capsys):
    """A round after a jump writes nothing; after two jumps in a row what stood is there."""
    def jump():
        world.now += 20 * SECOND
        world.uses("b", 90, waited=10**6)

    loop, stood = world.loop(engine, folder / "undo"), []
    lines = world.run(loop, lambda: None, jump, lambda: stood.append(world.maximum("a")))
    assert [(line["round"], line["missed"]) for line, _ in lines] == [(1, 0), (2, 0)]
    assert stood == [limit(50)]
    assert "20 rounds missed at once: nothing is written" in capsys.readouterr().err
    with pytest.raises(HostFault, match="20 rounds missed at once"):
        world.run(world.loop(engine, folder / "undo"), lambda: None, jump, jump)
    assert [world.maximum(path) for path in "abc"] == [FREE] * 3


def test_own_group_is_left_alone(world, engine, folder, capsys, monkeypatch):
    """The group that the loop runs in is not limited. It is that of /proc/self/cgroup."""
    loop = world.loop(engine, folder / "undo")
    found = os.stat(world.tree / "a")
    loop.own = found.st_dev, found.st_ino
    (line, stood), _ = world.run(loop, lambda: None, lambda: None)
    assert sorted(line["groups"]) == ["b", "c"] and stood["a"] == FREE
    assert capsys.readouterr().err.count("a: this loop runs there") == 1
    monkeypatch.setattr(hold.cgroup2, "file_text", lambda *_: "1:cpu:/x\n0::/a.slice/b c.scope\n")
    assert hold.own_folder() == "/sys/fs/cgroup/a.slice/b c.scope"


def test_a_writing_that_fails_puts_back(world, engine, folder):
    """A tree that takes one limit and refuses the next holds what stood."""
    class Refusing(safe_files.Root):
        """A tree that refuses the limit of b."""

        def write(self, folder, file, text):
            if folder == "b" and not text.startswith("max"):
                raise HostFault("b: Invalid argument")
            super().write(folder, file, text)

    loop = world.loop(engine, folder / "undo")
    loop.root = Refusing(str(world.tree))
    with pytest.raises(HostFault, match="Invalid argument"):
        world.run(loop, lambda: None, lambda: None)
    assert [world.maximum(path) for path in "abc"] == [FREE] * 3
    assert not (folder / "undo").exists()


def test_kubelet_and_other_trees_are_refused(ctl, world, engine, folder):
    world.add("kubepods.slice")
    words = ["hold", world.tree, "--root", world.tree, "--undo", folder / "u", "--read", "2x1s"]
    _, err = ctl.run(*words, "--yes", status=1)
    assert "kubelet owns the limits there" in err and not (folder / "u").exists()
    ctl.run(*words, "--force")
    _, err = ctl.run("hold", folder, "--root", world.tree, "--undo", folder / "u", status=1)
    assert "so no cgroup tree" in err
    for option, value in (("--period", "50ms"), ("--read", "x10ms"), ("--read", "1x1s"),
                          ("-o", "openmetrics")):
        ctl.run(*words, option, value, status=2)


def test_folder_of_the_undo_file(folder, world):
    """Neither a folder that others may change nor a link is taken, nor a file that is there."""
    for name, mode in (("open", 0o777), ("group", 0o770)):
        (folder / name).mkdir()
        (folder / name).chmod(mode)
        for make in (lambda path: record.Record(str(path / "u")), lambda path: record.lock(
                str(path))):
            with pytest.raises(HostFault, match="other users may change"):
                make(folder / name)
    (folder / "link").symlink_to(folder / "t")
    with pytest.raises(HostFault):
        record.lock(str(folder / "link"))
    (folder / "hold.lock").symlink_to(folder / "elsewhere")
    with pytest.raises(HostFault):
        record.lock(str(folder))
    assert not (folder / "elsewhere").exists()
    (folder / "u").write_text("mine")
    with pytest.raises(HostFault, match=f"File exists; .*: arbiterctl undo {folder}/u --yes,"):
        record.Record(str(folder / "u"))
    record.lock(str(folder / "new"))
    assert (folder / "new").stat().st_mode & 0o777 == 0o700


@pytest.mark.parametrize("number", [signal.SIGTERM, signal.SIGINT])
def test_signals_put_back(ctl, world, folder, number):
    before = content(world.tree)
    loop = started(ctl, world, folder / "u")
    assert world.maximum("a") == limit(50) and (folder / "u").exists()
    loop.send_signal(number)
    assert (said(loop), loop.returncode) == ([], 0)
    assert content(world.tree) == before and not (folder / "u").exists()


def test_two_loops(ctl, world, folder):
    """The second is refused while the first runs, and writes nothing."""
    before = content(world.tree)
    loop = started(ctl, world, folder / "u")
    words = ["hold", world.tree, "--root", world.tree, "--undo", folder / "u2", "--yes"]
    _, err = ctl.run(*words, status=1)
    assert "another loop holds this host" in err and not (folder / "u2").exists()
    loop.send_signal(signal.SIGTERM)
    assert (said(loop), loop.returncode) == ([], 0)
    assert content(world.tree) == before


def test_other_ends_put_back(ctl, world, folder):
    """The last of the rounds, the only one, and the end of who reads the lines."""
    before = content(world.tree)
    for words in (["--read", "4x100ms"], ["--read", "2x100ms"]):
        loop = started(ctl, world, folder / "u", *words)
        assert (said(loop), loop.returncode) == ([], 0)
        assert content(world.tree) == before and not (folder / "u").exists()
    loop = started(ctl, world, folder / "u")
    loop.stdout.close()
    assert loop.wait(30) == 1 and content(world.tree) == before
    loop.stderr.close()


def test_nothing_is_written_without_yes(ctl, world, folder):
    before = content(folder)
    for more, limits in ((["--read", "2x100ms", "--period", "100ms"], [50, 200, 100]),
                         (["--read", "2x1s"], [500, 2000, 1000]),
                         (["--read", "2x1s", "--slice", "10ms"], [50, 200, 100])):
        with world.lacking():
            out, _ = ctl.run("hold", world.tree, "--root", world.tree, "--cpus", "2",
                             "--undo", folder / "u", *more)
        line = json.loads(out)
        assert [each["limit"] for each in line["groups"].values()] == limits
        assert (line["written"], content(folder)) == (0, before)
    # 96 CPUs by weights 100, 100 and 200: in slices of 10 ms of 1 s, and of 1 ms of 100 ms
    for more in ([], ["--period", "100ms"]):
        with world.lacking():
            out, _ = ctl.run("hold", world.tree, "--root", world.tree, "--cpus", "96", "--read",
                             "2x1s", *more)
        assert [each["limit"] for each in json.loads(out)["groups"].values()] == [2400, 9600, 4800]


def test_killed_at_random_points_and_undone(library, folder):
    """At 200 calls by chance and at each that changes a file: `undo` brings back what stood."""
    # (each undo file is synced, which takes long on a busy disk)
    memory = "/dev/shm" if os.access("/dev/shm", os.W_OK) else folder
    environment = {**os.environ, "PYTHONPATH": os.pathsep.join(sys.path)}
    with tempfile.TemporaryDirectory(dir=memory) as name:
        words = [sys.executable, killed_loop.__file__, name, str(library), "67", "200"]
        ended = subprocess.run(words, capture_output=True, check=False, timeout=900,
                               env=environment)
    assert ended.returncode == 0, ended.stderr.decode()
    found = json.loads(ended.stdout)
    assert found["whole"] and found["wrong"] == []
    assert found["chosen"] == 200 and found["changes"] > 60 and found["points"] > 200
    assert found["changed"] > 150


def test_killed_at_random_times(ctl, world, folder):
    """The command itself, killed while it runs, is undone by the command."""
    before = content(world.tree)
    for turn in range(3):
        undo = folder / f"u{turn}"
        loop = started(ctl, world, undo)
        time.sleep(random.Random(turn).random() / 5)
        loop.kill()
        loop.communicate(timeout=30)
        assert content(world.tree) != before
        ctl.run("undo", undo, "--yes")
        undo.unlink()
        assert content(world.tree) == before
        with open(folder / "hold.lock", "rb") as lock:
            fcntl.flock(lock, fcntl.LOCK_EX | fcntl.LOCK_NB)
