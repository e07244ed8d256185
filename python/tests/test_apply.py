"""Apply and undo: what is printed, what is written, in which order, and what is refused."""
import fcntl
import json
import os
import shutil
import signal
from fractions import Fraction

import pytest
import trees
from arbiter import Host
from arbiter_host.base import safe_files
from arbiter_host.base.faults import HostFault
from arbiter_host.setting import apply
from arbiter_host.setting.apply import By, Change, Settings
from arbiter_host.sources import cgroups, readings
from chances import cases
from hypothesis import HealthCheck, given, settings
from hypothesis import strategies as st

OLD = Settings(100, 100000, 100000, 20000)


def host(folder, found=(("web.service", OLD), ("box", OLD), ("box/in", OLD))):
    """A tree with settings."""
    trees.root2(folder)
    for path, each in found:
        trees.group2(folder / path, each.weight, each.maximum, each.burst)


def holds(folder, path):
    """What the files of a group hold."""
    return apply.current(safe_files.Root(str(folder)), path)


def imported(ctl, folder, name="before"):
    """A script of the tree."""
    path = folder.parent / f"{name}.script"
    ctl.run("export", folder, "--want", "busy", "--cpus", "4", "-o", f"script={path}")
    return path


@pytest.fixture
def tree(folder):
    """A tree of three groups."""
    host(folder / "t")
    return folder / "t"


def test_prints_and_changes_nothing(ctl, tree):
    """Each step with what stands there, and no file is written."""
    before = imported(ctl, tree)
    words = ["apply", before, "--root", tree, "--set", "web.service.weight=200",
             "--set", "web.service.max=2cpu", "--set", "box.burst=50ms"]
    out, _ = ctl.run(*words)
    assert out.split("\n")[:-1] == [
        f"echo 50000 > {tree}/box/cpu.max.burst  # was 20000",
        "systemctl set-property --runtime -- web.service CPUWeight=200  # was 100",
        "systemctl set-property --runtime -- web.service CPUQuota=200% CPUQuotaPeriodSec=100000us"
        "  # was 100000 100000"]
    assert holds(tree, "web.service") == OLD and holds(tree, "box") == OLD
    out, _ = ctl.run(*words, "--by", "files")
    assert f"echo '200000 100000' > {tree}/web.service/cpu.max  # was 100000 100000" in out


def test_does_reads_back_and_undoes(ctl, tree):
    before = imported(ctl, tree)
    undo = tree.parent / "undo.json"
    words = ["apply", before, "--root", tree, "--by", "files", "--set", "box/in.weight=7",
             "--set", "box/in.max=50%", "--set", "web.service.max=max", "--yes", "--undo", undo]
    _, err = ctl.run(*words)
    assert "done and read back" in err
    assert holds(tree, "box/in") == Settings(7, 50000, 100000, 20000)
    assert holds(tree, "web.service") == Settings(100, None, 100000, 20000)
    assert len(json.loads(undo.read_text())["groups"]) == 2
    after = imported(ctl, tree, "after").read_text()
    assert "write box/in cpu.weight 7\n" in after
    assert holds(tree, "box/in").weight == 7
    ctl.run("undo", undo, "--yes")
    assert imported(ctl, tree, "undone").read_text() == before.read_text()


def test_dry_run(ctl, tree):
    """Without --yes it is printed what would be done."""
    words = ["apply", imported(ctl, tree), "--root", tree, "--by", "files", "--set", "box.weight=7"]
    assert ctl.run(*words)[0] and holds(tree, "box").weight != 7


def test_refuses_another_host(ctl, tree):
    """Nothing is written where the host is not what BEFORE says, not even the undo file."""
    before = imported(ctl, tree)
    trees.group2(tree / "box", 50, OLD.maximum, OLD.burst)
    undo = tree.parent / "undo.json"
    words = ["apply", before, "--root", tree, "--by", "files", "--set", "box.weight=7",
             "--set", "web.service.weight=9", "--yes", "--undo", undo]
    _, err = ctl.run(*words, status=1)
    assert "box: holds weight 50" in err and "nothing is changed" in err
    assert holds(tree, "web.service") == OLD and not undo.exists()
    shutil.rmtree(tree / "box")
    _, err = ctl.run(*words, status=1)
    assert "box: is gone" in err and "nothing is changed" in err
    assert holds(tree, "web.service") == OLD and not undo.exists()


def test_undo_file_must_be_new(ctl, tree):
    before = imported(ctl, tree)
    (tree.parent / "u").write_text("mine")
    words = ["apply", before, "--root", tree, "--by", "files", "--set", "box.weight=7", "--yes",
             "--undo", tree.parent / "u"]
    assert "File exists; nothing is changed" in ctl.run(*words, status=1)[1]
    assert (tree.parent / "u").read_text() == "mine" and holds(tree, "box") == OLD


def test_by_systemctl(ctl, tree):
    """Units are set by systemctl, whose fault ends the command; the undo file is there."""
    before, bin_ = imported(ctl, tree), tree.parent / "bin"
    bin_.mkdir()
    (bin_ / "systemctl").write_text(f'#!/bin/sh\n[ "$1" = show ] && exec echo "/$5"\n'
                                    f'echo "$@" >> {bin_}/log\necho 200 > '
                                    f"{tree}/web.service/cpu.weight\n")
    (bin_ / "systemctl").chmod(0o755)
    ctl.environment["PATH"] = f"{bin_}:{os.environ['PATH']}"
    words = ["apply", before, "--root", tree, "--set", "web.service.weight=200", "--yes"]
    ctl.run(*words, "--undo", tree.parent / "u1")
    assert (bin_ / "log").read_text() == "set-property --runtime -- web.service CPUWeight=200\n"
    trees.group2(tree / "web.service", OLD.weight, OLD.maximum, OLD.burst)
    (bin_ / "systemctl").write_text('#!/bin/sh\n[ "$1" = show ] && exec echo "/$5"\n'
                                    "echo Access denied >&2\nexit 1\n")
    _, err = ctl.run(*words, "--undo", tree.parent / "u2", status=1)
    assert "systemctl: Access denied" in err and "to undo: arbiterctl undo" in err
    assert (tree.parent / "u2").exists()
    (bin_ / "systemctl").write_text('#!/bin/sh\n[ "$1" = show ] && exec echo "/$5"\nexit 7\n')
    _, err = ctl.run(*words, "--undo", tree.parent / "u3", status=1)
    assert "systemctl: status 7, without a word" in err


def test_persistent(ctl, tree):
    """Properties are set without --runtime, and undone so; what no boot keeps is told."""
    before, bin_ = imported(ctl, tree), tree.parent / "bin"
    bin_.mkdir()
    (bin_ / "systemctl").write_text(
        f'#!/bin/sh\n[ "$1" = show ] && exec echo "/$5"\necho "$@" >> {bin_}/log\n'
        f'echo "${{4#CPUWeight=}}" > {tree}/web.service/cpu.weight\n')
    (bin_ / "systemctl").chmod(0o755)
    ctl.environment["PATH"] = f"{bin_}:{os.environ['PATH']}"
    words = ["apply", before, "--root", tree, "--by", "persistent", "--set",
             "web.service.weight=200"]
    made = "systemctl set-property -- web.service CPUWeight=200  # was 100\n"
    assert ctl.run(*words) == (made, "") and not (bin_ / "log").exists()
    assert ctl.run(*words, "--yes", "--undo", tree.parent / "u")[0] == made
    ctl.run("undo", tree.parent / "u", "--yes")
    assert (bin_ / "log").read_text() == ("set-property -- web.service CPUWeight=200\n"
                                          "set-property -- web.service CPUWeight=100\n")
    _, err = ctl.run(*words, "--set", "box.weight=7")
    assert "box: cpu.weight is set by its file, which is not kept at the next boot" in err


@pytest.mark.parametrize("path", ["../out", "a/../../out", "/etc", "", ".", "a//b", "a/."])
def test_no_path_leads_out(folder, path):
    host(folder / "t", [("a", OLD)])
    trees.group2(folder / "out", 5)
    with pytest.raises(HostFault):
        safe_files.Root(str(folder / "t")).write(path, "cpu.weight", "7")
    assert (folder / "out/cpu.weight").read_text() == "5\n"


def test_no_link_is_followed(folder):
    """Neither a folder that is a link, nor a file, nor a second name of a file outside."""
    host(folder / "t", [("a", OLD), ("b", OLD)])
    trees.group2(folder / "out", 5)
    (folder / "t/link").symlink_to(folder / "out")
    (folder / "t/a/cpu.weight").unlink()
    (folder / "t/a/cpu.weight").symlink_to(folder / "out/cpu.weight")
    (folder / "t/b/cpu.weight").unlink()
    for path in ("link", "a", "b"):
        if path == "b":
            # (the others would be refused for this name too)
            os.link(folder / "out/cpu.weight", folder / "t/b/cpu.weight")
        with pytest.raises(HostFault):
            safe_files.Root(str(folder / "t")).write(path, "cpu.weight", "7")
    assert (folder / "out/cpu.weight").read_text() == "5\n"


def test_no_file_is_made(folder):
    host(folder / "t", [("a", OLD)])
    (folder / "t/a/cpu.weight").unlink()
    os.mkfifo(folder / "t/a/pipe")
    for file in ("cpu.weight", "pipe"):
        with pytest.raises(HostFault):
            safe_files.Root(str(folder / "t")).write("a", file, "7")
    assert not (folder / "t/a/cpu.weight").exists()


SETTINGS = st.builds(lambda weight, quota, period, part: Settings(
    weight, quota, period, 0 if quota is None else quota * part // 4),
    st.integers(1, 10000), st.one_of(st.none(), st.integers(1000, 10**6)),
    st.integers(1000, 10**6), st.integers(0, 4))


class Stop(BaseException):
    """An interruption."""


class Kernel(safe_files.Root):
    """A tree that refuses a burst above the quota, and stops at a write."""

    def __init__(self, path, stop=None, late=False):
        super().__init__(path)
        self.left, self.late = stop, late

    def write(self, folder, file, text):
        if self.left == 0 and not self.late:
            raise Stop
        super().write(folder, file, text)
        now = apply.current(self, folder)
        assert now.quota is None or now.burst <= now.quota, "the kernel answers EINVAL"
        if self.left == 0:
            raise Stop
        self.left = None if self.left is None else self.left - 1


@settings(max_examples=cases(60), deadline=None, suppress_health_check=list(HealthCheck))
@given(pairs=st.lists(st.tuples(SETTINGS, SETTINGS), min_size=1, max_size=3),
       stop=st.integers(0, 9), late=st.booleans())
def test_interrupted_anywhere_and_undone(tmp_path_factory, pairs, stop, late):
    """The kernel takes each step, and after an interruption the old settings come back."""
    folder = tmp_path_factory.mktemp("host")
    host(folder / "t", [(f"g{place}", old) for place, (old, _) in enumerate(pairs)])
    found = [Change(f"g{place}", old, new) for place, (old, new) in enumerate(pairs)]
    try:
        apply.make(Kernel(str(folder / "t"), stop, late), found, By.FILES, str(folder / "undo"), [])
        assert [holds(folder / "t", change.folder) for change in found] == [
            change.after for change in found]
    except Stop:
        pass
    back = apply.read_undo((folder / "undo").read_bytes(), "undo")
    back.root = Kernel(str(folder / "t"))
    apply.undo(back, [])
    assert back.left == []
    assert [holds(folder / "t", change.folder) for change in found] == [
        change.before for change in found]


@pytest.mark.parametrize("call, late, wanted", [
    ("fstat", False, 10000), ("write", False, 10000), ("write", True, 7), ("ftruncate", False, 7),
    ("ftruncate", True, 7)])
def test_stopped_inside_a_write_and_undone(folder, monkeypatch, call, late, wanted):
    """Between any two calls of a write a plain file holds the old number or the new one."""
    old, new = Settings(10000, None, 100000, 0), Settings(7, None, 100000, 0)
    host(folder, [("a", old)])
    real = getattr(os, call)

    def stop(descriptor, *words):
        is_written = fcntl.fcntl(descriptor, fcntl.F_GETFL) & os.O_ACCMODE == os.O_WRONLY
        if not (is_written and os.readlink(f"/proc/self/fd/{descriptor}").endswith("cpu.weight")):
            return real(descriptor, *words)
        if late:
            real(descriptor, *words)
        raise Stop

    with monkeypatch.context() as patched:
        patched.setattr(os, call, stop)
        with pytest.raises(Stop):
            apply.make(safe_files.Root(str(folder)), [Change("a", old, new)], By.FILES,
                       str(folder / "undo"), [])
    assert holds(folder, "a").weight == wanted
    apply.undo(apply.read_undo((folder / "undo").read_bytes(), "undo"), [])
    assert holds(folder, "a") == old
    assert (folder / "a/cpu.weight").read_text() == "10000\n"


@pytest.mark.parametrize("old, new", [("10000", "7"), ("7", "10000"), ("7", "8"), ("", "5")])
def test_write_leaves_one_line(folder, old, new):
    trees.root2(folder)
    trees.group2(folder / "a", 1)
    (folder / "a/cpu.weight").write_text(f"{old}\n")
    safe_files.Root(str(folder)).write("a", "cpu.weight", new)
    assert (folder / "a/cpu.weight").read_text() == f"{new}\n"


def test_undo_without_a_group_that_went(ctl, tree):
    """What is there gets its settings back; a group that is gone is told."""
    before, undo = imported(ctl, tree), tree.parent / "undo.json"
    ctl.run("apply", before, "--root", tree, "--by", "files", "--set", "web.service.weight=9",
            "--set", "box/in.weight=7", "--yes", "--undo", undo)
    shutil.rmtree(tree / "box/in")
    _, err = ctl.run("undo", undo, "--yes")
    assert err == "arbiterctl: warning: box/in: the group is gone, nothing of it is undone\n"
    assert holds(tree, "web.service") == OLD
    shutil.rmtree(tree)
    _, err = ctl.run("undo", undo, "--yes", status=1)
    assert "none of the groups of" in err


def test_group_that_goes_while_others_are_undone(folder):
    """Its files are gone from the first write on, and the others are restored."""
    host(folder / "t", [("a", OLD), ("b", OLD)])
    new = Settings(7, 50000, 100000, 20000)
    found = [Change(name, OLD, new) for name in "ab"]
    apply.make(safe_files.Root(str(folder / "t")), found, By.FILES, str(folder / "undo"), [])
    back = apply.read_undo((folder / "undo").read_bytes(), "undo")
    assert back.left == []

    class Going(safe_files.Root):
        """A tree from which the first group goes when it is written."""

        def write(self, folder, file, text):
            if folder == "a" and os.path.exists(f"{self.path}/a"):
                shutil.rmtree(f"{self.path}/a")
            super().write(folder, file, text)

    back.root = Going(str(folder / "t"))
    apply.undo(back, [])
    assert back.left == ["a: the group is gone, nothing of it is undone"]
    assert holds(folder / "t", "b") == OLD


@settings(max_examples=cases(100), deadline=None, suppress_health_check=list(HealthCheck))
@given(data=st.one_of(st.binary(max_size=100), st.builds(
    lambda value: json.dumps({"arbiter_undo": 1, "root": "/nowhere", "groups": value}).encode(),
    st.lists(st.dictionaries(st.sampled_from(["folder", "weight", "quota", "period", "burst"]),
                             st.one_of(st.none(), st.integers(), st.text(max_size=5)))))))
def test_broken_undo_files(data):
    try:
        apply.read_undo(data, "F")
    except HostFault as fault:
        assert fault.message


def test_idle_group(folder):
    host(folder / "t", [("a", OLD)])
    (folder / "t/a/cpu.weight").write_text("0\n")
    found = [Change("a", Settings(1, 100000, 100000, 20000), OLD)]
    with pytest.raises(HostFault, match="idle"):
        apply.make(safe_files.Root(str(folder / "t")), found, By.FILES, str(folder / "undo"), [])


def test_quota_that_systemd_cannot_hold():
    """A percentage of more than two decimals is written to the file."""
    change = Change("a.slice", OLD, Settings(100, 33333, 100000, 20000))
    step, = apply.steps_of(change, OLD, By.RUNTIME)
    assert (step.unit, step.new) == ("", "33333 100000")
    change = Change("a.slice", OLD, Settings(100, 33330, 100000, 20000))
    step, = apply.steps_of(change, OLD, By.RUNTIME)
    assert step.new == "CPUQuota=33.33% CPUQuotaPeriodSec=100000us"


def test_places_of_an_import(folder):
    """A tree that is read directly knows its folders, also of names that a script writes as %XX."""
    trees.root2(folder / "t")
    trees.group2(folder / "t/a b", OLD.weight, OLD.maximum, OLD.burst)
    before = cgroups.read([str(folder / "t")], Host(2, 100000, 1000),
                          readings.Times(Fraction(1, 1000)))
    after = before.copy()
    after.groups["a%20b"].weight = 5
    found, left = apply.changes(before, after, safe_files.Root(str(folder / "t")))
    assert ([each.folder for each in found], left) == (["a b"], [])


# Sets the properties of a unit as systemd would, and kills its caller at one of its calls.
SYSTEMCTL = """#!/usr/bin/python3 -SE
import os, signal, sys
if sys.argv[1] == "show":
    print("/" + sys.argv[-1])
    sys.exit()
tree, count, stop, late = {tree!r}, {count!r}, {stop}, {late}
made = int(open(count).read()) + 1
open(count, "w").write(str(made))
if made == stop and not late:
    os.kill(os.getppid(), signal.SIGKILL)
    sys.exit()
unit, properties = sys.argv[4], dict(each.split("=", 1) for each in sys.argv[5:])
if "CPUWeight" in properties:
    open(f"{{tree}}/{{unit}}/cpu.weight", "w").write(properties["CPUWeight"] + "\\n")
if "CPUQuota" in properties:
    period = int(properties["CPUQuotaPeriodSec"].removesuffix("us"))
    part = properties["CPUQuota"].removesuffix("%")
    quota = round(float(part) * period / 100) if part else "max"
    open(f"{{tree}}/{{unit}}/cpu.max", "w").write(f"{{quota}} {{period}}\\n")
if made == stop:
    os.kill(os.getppid(), signal.SIGKILL)
"""


@pytest.mark.parametrize("stop, late", [(1, False), (2, True), (3, False), (4, True)])
def test_killed_at_any_call_and_undone(ctl, folder, stop, late):
    """The command is killed at a call of systemctl; `undo` brings all old settings back."""
    tree, bin_ = folder / "t", folder / "bin"
    host(tree, [(f"{name}.service", OLD) for name in "abc"])
    before = imported(ctl, tree)
    bin_.mkdir()
    (bin_ / "count").write_text("0")

    def systemctl(stop):
        text = SYSTEMCTL.format(tree=str(tree), count=str(bin_ / "count"), stop=stop, late=late)
        (bin_ / "systemctl").write_text(text)
        (bin_ / "systemctl").chmod(0o755)

    systemctl(stop)
    ctl.environment["PATH"] = f"{bin_}:{os.environ['PATH']}"
    words = ["apply", before, "--root", tree, "--yes", "--undo", folder / "u"]
    for name in "ab":
        words += ["--set", f"{name}.service.weight=200", "--set", f"{name}.service.max=50%"]
    assert ctl.ended(*words).returncode == -signal.SIGKILL
    assert int((bin_ / "count").read_text()) == stop
    done = sum(holds(tree, f"{name}.service").weight == 200 for name in "ab")
    done += sum(holds(tree, f"{name}.service").quota == 50000 for name in "ab")
    assert done == (stop if late else stop - 1)
    systemctl(0)
    ctl.run("undo", folder / "u", "--yes")
    assert [holds(tree, f"{name}.service") for name in "abc"] == [OLD] * 3
