"""Hosts and files against `apply` and `undo`: only the group that was read is ever written."""
import errno
import json
import os
import resource
import socket
import struct
import time

import pytest
import reading
import trees
from arbiter import Host
from arbiter_host.base import atomic_files, names, plain_files, safe_files
from arbiter_host.base.faults import HostFault
from arbiter_host.base.model import Group, Model
from arbiter_host.setting import apply
from arbiter_host.setting.apply import By, Change, Settings
from arbiter_host.sources import cgroups, hostfile, script
from chances import cases
from hypothesis import HealthCheck, example, given, settings
from hypothesis import strategies as st

NAMES = st.binary(min_size=1, max_size=255).filter(
    lambda raw: b"/" not in raw and b"\0" not in raw and raw not in (b".", b".."))
OLD = Settings(100, None, 100000, 0)


def weights(top, *paths):
    """The weights that the files of some groups hold."""
    return [int((top / path / "cpu.weight").read_text()) for path in paths]


@pytest.fixture
def tree(folder):
    """A tree of two groups of weight 100."""
    trees.root2(folder / "t")
    for name in ("web.service", "box"):
        trees.group2(folder / "t" / name)
    return folder / "t"


def read(top):
    """The model of a tree, which nothing is waited for."""
    return cgroups.read([str(top)], Host(2, 100000, 1000), want="busy")


# Names

@settings(max_examples=cases(300), deadline=None)
@given(raw=NAMES)
@example(raw=b"a\nb").via("a newline")
@example(raw=b"a%0Ab").via("the escape of one")
@example(raw=b"%").via("the mark alone")
@example(raw=b"%~2").via("the mark of a name that was cut")
@example(raw=b"\xff\xc3").via("no UTF-8")
@example(raw="\u202e\x1b[2J".encode()).via("a terminal's commands")
@example(raw=b"\x01" * 255).via("an escaped name of 765 bytes")
@example(raw=b"x" * 255).via("the longest name")
def test_each_name_comes_back_or_is_refused(raw):
    """A name in a script is read back as the bytes that it has on the host, or as none."""
    name = names.path_name(os.fsdecode(raw), set())
    assert 1 <= len(name.encode()) <= 255 and not any(map(names.is_raw, name))
    assert not set(" \t\n/\0") & set(name) and name not in (".", "..")
    back = names.raw_name(name)
    if back is None:
        assert len(names.in_path(os.fsdecode(raw)).encode()) > 255
    else:
        assert os.fsencode(back) == raw


def test_all_names_of_one_and_two_bytes():
    """Each comes back as it was, so no two of them are alike in a script."""
    letters = [bytes([each]) for each in range(1, 256) if each != ord("/")]
    for raw in [*letters, *(one + other for one in letters for other in letters)]:
        if raw not in (b".", b".."):
            found = names.raw_name(names.path_name(os.fsdecode(raw), ()))
            assert found is not None and os.fsencode(found) == raw


@settings(max_examples=cases(200), deadline=None)
@given(one=NAMES, other=NAMES)
@example(one=b"a\nb", other=b"a%0Ab")
@example(one=b"\x01" * 254, other=b"\x01" * 255)
def test_two_names_stay_two(one, other):
    """Also where both are too long for a script."""
    found = [names.path_name(os.fsdecode(each), set()) for each in (one, other)]
    assert (found[0] == found[1]) == (one == other)


@settings(max_examples=cases(200), deadline=None)
@given(text=st.text(st.characters(), min_size=1, max_size=20))
@example("a%0ab").via("not as an import writes it")
@example("a%41").via("a letter that needs no escape")
@example("a%2Fb").via("a slash")
@example("a%00").via("a zero")
@example("50%").via("no escape")
@example("\x1b").via("a control character")
@example("\ud800").via("half a letter")
def test_a_name_by_hand_means_one_group_or_none(text):
    """What is read back is written as it stood: no two names of scripts mean one group."""
    raw = names.raw_name(text)
    if raw is None:
        return
    assert names.path_name(raw, set()) == text
    assert raw not in ("", ".", "..") and "/" not in raw and "\0" not in raw


@settings(max_examples=cases(40), deadline=None, suppress_health_check=list(HealthCheck))
@given(raws=st.lists(NAMES.filter(lambda raw: len(raw) < 80), min_size=1, max_size=6, unique=True))
@example(raws=[b"a\nb", b"a%0Ab"])
def test_the_way_through_a_script(tmp_path_factory, engine, raws):
    """Each group of a tree is found again by the path that a script of the tree has for it."""
    top = tmp_path_factory.mktemp("t")
    trees.root2(top)
    for number, raw in enumerate(raws, 1):
        trees.group2(os.path.join(top, os.fsdecode(raw)), number)
    root = safe_files.Root(str(top))
    written = script.write(read(top), engine.library).encode()
    found = reading.lines(written, "s", engine).groups
    assert len(found) == len(raws)
    held = {os.fsencode(apply.folder_of(group, root)): group.weight for group in found.values()}
    assert held == {raw: number for number, raw in enumerate(raws, 1)}


def test_escaped_names(ctl, folder):
    """Of a group with a newline and one whose name is that one's escape, each is changed alone."""
    trees.root2(folder / "t")
    trees.group2(folder / "t/a\nb")
    trees.group2(folder / "t/a%0Ab")
    ctl.run("export", folder / "t", "--want", "busy", "--cpus", "4", "-o",
            f"script={folder}/s.script")
    for number, (path, found) in enumerate((("a%0Ab", [55, 100]), ("a%250Ab", [55, 77]))):
        ctl.run("apply", folder / "s.script", "--set", f"{path}.weight={found[number]}", "--root",
                folder / "t", "--by", "files", "--yes", "--undo", folder / f"u{number}")
        assert weights(folder / "t", "a\nb", "a%0Ab") == found


def test_a_name_that_cannot_be_told(ctl, folder):
    """One line, status 1, and nothing is changed."""
    trees.root2(folder / "t")
    trees.group2(folder / "t/50%")
    (folder / "s.script").write_text("mkdir 50%\n")
    words = ["--root", folder / "t", "--by", "files", "--yes", "--undo", folder / "u"]
    _, err = ctl.run("apply", folder / "s.script", "--set", "50%.weight=7", *words, status=1)
    assert err.count("\n") == 1 and "50%: which group of the host this is cannot be told" in err
    assert weights(folder / "t", "50%") == [100] and not (folder / "u").exists()
    (folder / "s.script").write_text("mkdir 50%25\n")
    ctl.run("apply", folder / "s.script", "--set", "50%25.weight=7", *words)
    assert weights(folder / "t", "50%") == [7]


# Places

@pytest.mark.parametrize("named", ["t", "./t/", "../{here}/t", "{top}/t", "link"])
def test_a_tree_named_in_any_way(ctl, folder, monkeypatch, named):
    """A relative tree is the tree of --root, and not one below it."""
    for top in ("t", "t/t"):
        trees.root2(folder / top)
        trees.group2(folder / top / "a")
    (folder / "link").symlink_to("t")
    monkeypatch.chdir(folder)
    named = named.format(here=folder.name, top=folder)
    ctl.run("apply", named, "--cpus", "4", "--set", "a.weight=321", "--root",
            "t", "--by", "files", "--yes", "--undo", "u")
    assert weights(folder, "t/a", "t/t/a") == [321, 100]


def test_a_tree_that_is_not_the_root(ctl, folder, monkeypatch):
    """A copy elsewhere is refused, and the group of the same name is not changed."""
    for top in ("t", "t/copy", "copy"):
        trees.root2(folder / top)
        trees.group2(folder / top / "a")
    monkeypatch.chdir(folder)
    _, err = ctl.run("apply", "copy", "--cpus", "4", "--set", "a.weight=9",
                     "--root", "t", "--by", "files", "--yes", "--undo", "u", status=1)
    assert err == f"arbiterctl: {folder}/copy/a: not below --root {folder}/t\n"
    assert weights(folder, "t/a", "t/copy/a", "copy/a") == [100] * 3


def test_a_container_of_the_name_of_a_unit(ctl, folder):
    """A script of containers says where each is: a name chosen by a tenant is no place."""
    trees.root2(folder / "t")
    trees.group2(folder / "t/system.slice/ssh.service")
    found = [{"Id": "0" * 64, "Name": "/ssh.service", "HostConfig": {"CgroupParent": ""}}]
    trees.group2(folder / f"t/system.slice/docker-{'0' * 64}.scope")
    (folder / "c.json").write_text(json.dumps(found))
    for kind in ("script", "toml"):
        source = folder / f"c.{kind}"
        ctl.run("export", folder / "c.json", "--cpus", "4", "-o", f"{kind}={source}")
        words = ["apply", source, "--set", "system.slice/ssh.service.weight=9", "--root",
                 folder / "t", "--by", "files"]
        out, _ = ctl.run(*words)
        assert f"/system.slice/docker-{'0' * 64}.scope/cpu.weight" in out
        assert "ssh.service" not in out


def test_a_group_without_a_place(engine):
    """A pause container, or what an inner group's own tasks used, is none of the host's folders."""
    model = Model()
    model.add(Group("a", place="elsewhere"))
    model.add(Group("a/pause", place=names.NOWHERE))
    by_script = reading.lines(script.write(model, engine.library).encode(), "s", engine)
    for found in (by_script, reading.host_file(hostfile.write_toml(model).encode(), "s", "toml")):
        assert [each.place for each in found.groups.values()] == ["elsewhere", "."]
    with pytest.raises(HostFault, match="a/pause: its place on the host is not known"):
        apply.folder_of(model.groups["a/pause"], safe_files.Root("/"))


def test_a_place_of_any_bytes(engine):
    """A place comes through a script and a host file."""
    place = os.fsdecode(b"a b/%\xff\n/x")
    model = Model()
    model.add(Group("a", place=place))
    written = script.write(model, engine.library).encode()
    assert reading.lines(written, "s", engine).groups["a"].place == place
    for write, kind in ((hostfile.write_toml, "toml"), (hostfile.write_json, "json")):
        assert reading.host_file(write(model).encode(), "f", kind).groups["a"].place == place


# Identities

def test_a_group_made_again_after_the_reading(folder, tree):
    """Another group of the same name and the same settings is not what was read."""
    before = read(tree)
    (tree / "box").rename(folder / "old")
    trees.group2(tree / "box")
    after = before.copy()
    after.groups["box"].weight = 9
    root = safe_files.Root(str(tree))
    found, _ = apply.changes(before, after, root)
    with pytest.raises(HostFault, match="box: is another group than the one that was read"):
        apply.make(root, found, By.FILES, str(folder / "u"), [])
    assert weights(tree, "box") == [100] and not (folder / "u").exists()


def test_a_group_made_again_before_the_writing(folder, tree, monkeypatch):
    """The group that was looked at is written, wherever it went, and none of its name."""
    real = apply.write_synced

    def write_synced(path, text):
        real(path, text)
        (tree / "box").rename(folder / "old")
        trees.group2(tree / "box")

    monkeypatch.setattr(apply, "write_synced", write_synced)
    new = Settings(9, None, 100000, 0)
    apply.make(safe_files.Root(str(tree)), [Change("box", OLD, new)], By.FILES,
               str(folder / "u"), [])
    assert weights(folder, "t/box", "old") == [100, 9]


def test_a_link_put_in_place_of_a_group(folder, tree, monkeypatch):
    """A link that comes between the reading and the writing is not followed."""
    trees.group2(folder / "out")
    real = apply.write_synced

    def write_synced(path, text):
        real(path, text)
        (tree / "box").rename(folder / "old")
        (tree / "box").symlink_to(folder / "out")

    monkeypatch.setattr(apply, "write_synced", write_synced)
    new = Settings(9, None, 100000, 0)
    apply.make(safe_files.Root(str(tree)), [Change("box", OLD, new)], By.FILES,
               str(folder / "u"), [])
    assert weights(folder, "out", "old") == [100, 9]


def test_two_trees_that_differ(folder, tree):
    """BEFORE and AFTER of one path that are two groups are refused."""
    before, other = read(tree), folder / "o"
    trees.root2(other)
    trees.group2(other / "box", 9)
    with pytest.raises(HostFault, match="read from two groups"):
        apply.changes(before, read(other), safe_files.Root(str(tree)))


def test_many_groups(folder):
    """As many groups as the hard limit of open files lets be kept; more are refused whole."""
    trees.root2(folder / "t")
    found = [Change(f"g{number}", OLD, Settings(9, None, 100000, 0)) for number in range(1100)]
    for change in found:
        trees.group2(folder / "t" / change.folder)
    limits = resource.getrlimit(resource.RLIMIT_NOFILE)
    resource.setrlimit(resource.RLIMIT_NOFILE, (256, limits[1]))
    root = safe_files.Root(str(folder / "t"))
    try:
        apply.make(root, found, By.FILES, str(folder / "u"), [])
    finally:
        root.close()
        resource.setrlimit(resource.RLIMIT_NOFILE, limits)
    assert weights(folder / "t", "g0", "g1099") == [9, 9]


def systemctl(ctl, folder, group):
    """A systemctl that says of each unit that it has one group, and writes what it is asked."""
    (folder / "bin").mkdir()
    (folder / "bin/systemctl").write_text(
        f'#!/bin/sh\n[ "$1" = show ] && exec echo {group}\necho "$@" >> {folder}/log\n')
    (folder / "bin/systemctl").chmod(0o755)
    ctl.environment["PATH"] = f"{folder}/bin:{os.environ['PATH']}"


def test_a_folder_with_the_name_of_a_unit(ctl, folder):
    """A user's own group `ssh.service` is not the unit of that name: systemctl is not asked."""
    trees.root2(folder / "t")
    trees.group2(folder / "t/user.slice/ssh.service")
    (folder / "s.script").write_text("mkdir user.slice\nmkdir user.slice/ssh.service\n")
    systemctl(ctl, folder, "/system.slice/ssh.service")
    words = ["apply", folder / "s.script", "--set", "user.slice/ssh.service.weight=9", "--root",
             folder / "t", "--yes", "--undo", folder / "u"]
    _, err = ctl.run(*words, status=1)
    assert "the unit ssh.service has the group /system.slice/ssh.service" in err
    assert not (folder / "log").exists() and not (folder / "u").exists()
    assert weights(folder / "t", "user.slice/ssh.service") == [100]
    ctl.run(*words, "--by", "files")
    assert weights(folder / "t", "user.slice/ssh.service") == [9]


def test_undo_of_a_unit_that_has_another_group_now(ctl, folder, tree):
    """The file of the group is written, and the unit is left alone."""
    new = Settings(9, None, 100000, 0)
    root = safe_files.Root(str(tree))
    (tree / "web.service/cpu.weight").write_text("9\n")
    (folder / "u").write_text(apply.undo_text(root, [Change("web.service", OLD, new)], By.RUNTIME))
    systemctl(ctl, folder, "/user.slice/web.service")
    ctl.run("undo", folder / "u", "--yes")
    assert weights(tree, "web.service") == [100] and not (folder / "log").exists()


# What is printed

def test_a_refusal_prints_no_step(ctl, folder, tree):
    """Standard output has the steps that were made: none of a refusal, all of a success."""
    (folder / "s.script").write_text("mkdir box\nmkdir web.service\n")
    words = ["apply", folder / "s.script", "--set", "box.weight=9", "--root", tree, "--by",
             "files", "--yes", "--undo", folder / "u"]
    (tree / "box/cpu.weight").write_text("50\n")
    out, err = ctl.run(*words, status=1)
    assert out == "" and "box: holds weight 50" in err
    (tree / "box/cpu.weight").write_text("100\n")
    out, _ = ctl.run(*words)
    assert out == f"echo 9 > {tree}/box/cpu.weight  # was 100\n"


def test_a_fault_halfway_prints_what_was_done(ctl, folder, tree):
    """The first step was made and is printed; the second could not be."""
    (folder / "s.script").write_text("mkdir box\nmkdir web.service\n")
    systemctl(ctl, folder, "/web.service")
    (folder / "bin/systemctl").write_text(
        '#!/bin/sh\n[ "$1" = show ] && exec echo /web.service\necho no >&2\nexit 1\n')
    words = ["apply", folder / "s.script", "--set", "box.weight=9", "--set",
             "web.service.weight=9", "--root", tree, "--yes", "--undo", folder / "u"]
    out, err = ctl.run(*words, status=1)
    assert out == f"echo 9 > {tree}/box/cpu.weight  # was 100\n"
    assert "systemctl: no" in err and "to undo: arbiterctl undo" in err


# Undo files

def undo_file(tree, **changes):
    """An undo file of one group of weight 100 that got 300, with changes."""
    found = {"arbiter_undo": 1, "root": str(tree), "systemd": False,
             "groups": [{"folder": "box", "weight": 100, "quota": None, "period": 100000,
                         "burst": 0, "after": {"weight": 300, "quota": None, "period": 100000,
                                               "burst": 0}}]}
    for key, value in changes.items():
        (found if key in found else found["groups"][0])[key] = value
    return json.dumps(found)


@pytest.mark.parametrize("changes", [
    {"root": "\ud800"}, {"root": "/\udfff"}, {"root": "\0"}, {"root": "/x\0y"}, {"root": ""},
    {"root": 5}, {"folder": "\ud800"}, {"folder": "a/\udc00\ud800"}, {"folder": "\0"},
    {"folder": "box\0"}, {"folder": ""}, {"folder": None}, {"folder": ["box"]}, {"folder": "../b"},
    {"folder": "/etc"}, {"folder": "box\n"}, {"weight": 10**400}, {"weight": -1}, {"quota": 5},
    {"period": "x"}, {"burst": 1e309}, {"after": {"weight": "x"}}, {"groups": [{}]},
    {"arbiter_undo": 9}], ids=repr)
def test_a_damaged_undo_file(ctl, folder, tree, changes):
    """One line, status 1, and nothing is changed."""
    (folder / "u").write_text(undo_file(tree, **changes))
    (tree / "box/cpu.weight").write_text("300\n")
    out, err = ctl.run("undo", folder / "u", "--yes", status=1)
    assert out == "" and err.count("\n") == 1 and err.startswith("arbiterctl: ")
    assert err.isascii() and err[:-1].isprintable()
    assert weights(tree, "box") == [300]


def test_a_group_that_is_named_twice(ctl, folder, tree):
    group = json.loads(undo_file(tree))["groups"][0]
    (folder / "u").write_text(undo_file(tree, groups=[group, {**group, "weight": 7}]))
    _, err = ctl.run("undo", folder / "u", "--yes", status=1)
    assert err == "arbiterctl: box: named twice\n" and weights(tree, "box") == [100]


def test_undo_leaves_what_somebody_set_since(ctl, folder, tree):
    """A value that is neither old nor new is told and left; the other values come back."""
    (folder / "u").write_text(undo_file(
        tree, after={"weight": 300, "quota": 50000, "period": 100000, "burst": 0}))
    (tree / "box/cpu.weight").write_text("77\n")
    (tree / "box/cpu.max").write_text("50000 100000\n")
    out, err = ctl.run("undo", folder / "u", "--yes")
    assert out == f"echo 'max 100000' > {tree}/box/cpu.max  # was 50000 100000\n"
    assert err.startswith("arbiterctl: warning: box: holds weight 77, max 50000 100000, burst 0,"
                          " which is neither what `apply` found")
    assert weights(tree, "box") == [77]
    assert (tree / "box/cpu.max").read_text() == "max 100000\n"
    out, err = ctl.run("undo", folder / "u", "--yes", "--force")
    assert (out, err) == (f"echo 100 > {tree}/box/cpu.weight  # was 77\n", "")
    assert weights(tree, "box") == [100]


@pytest.mark.parametrize("quota, maximum, burst", [
    (None, "max 100000", 40000), (45000, "45000 100000", 40000), (30000, "30000 100000", 30000)])
def test_undo_leaves_a_burst_as_far_as_it_fits(ctl, folder, tree, quota, maximum, burst):
    """One that somebody set since stays, and the limit comes back, which bounds it."""
    (folder / "u").write_text(undo_file(
        tree, quota=quota, after={"weight": 300, "quota": 50000, "period": 100000, "burst": 0}))
    for file, text in (("weight", "300"), ("max", "50000 100000"), ("max.burst", "40000")):
        (tree / f"box/cpu.{file}").write_text(f"{text}\n")
    _, err = ctl.run("undo", folder / "u", "--yes")
    assert weights(tree, "box") == [100] and "burst 40000" in err
    assert (tree / "box/cpu.max").read_text() == f"{maximum}\n"
    assert (tree / "box/cpu.max.burst").read_text() == f"{burst}\n"


def test_an_undo_file_without_what_was_written(ctl, folder, tree):
    """One of an earlier version: what is not as it was found may be somebody else's."""
    found = json.loads(undo_file(tree))
    del found["groups"][0]["after"]
    (folder / "u").write_text(json.dumps(found))
    (tree / "box/cpu.weight").write_text("300\n")
    _, err = ctl.run("undo", folder / "u", "--yes")
    assert "--force" in err and weights(tree, "box") == [300]
    ctl.run("undo", folder / "u", "--yes", "--force")
    assert weights(tree, "box") == [100]


def test_an_undo_file_that_was_cut(ctl, folder, tree):
    """A disk that is full refuses the change; with room the same command goes through."""
    (folder / "s.script").write_text("mkdir box\n")
    words = ["apply", folder / "s.script", "--set", "box.weight=9", "--root", tree, "--by",
             "files", "--yes", "--undo", folder / "u"]
    ended = ctl.ended(*words, preexec_fn=lambda: resource.setrlimit(
        resource.RLIMIT_FSIZE, (40, resource.RLIM_INFINITY)))
    assert ended.returncode == 1 and b"nothing is changed" in ended.stderr
    assert weights(tree, "box") == [100] and sorted(os.listdir(folder)) == ["s.script", "t"]
    ctl.run(*words)
    assert weights(tree, "box") == [9] and os.stat(folder / "u").st_mode & 0o777 == 0o600


def test_a_kill_while_the_undo_file_is_written(folder, tree, monkeypatch):
    """No file of its name is there before it is whole."""
    class Kill(BaseException):
        """What ends the process."""

    def fsync(_):
        assert not (folder / "u").exists()
        raise Kill

    with monkeypatch.context() as patched:
        patched.setattr(os, "fsync", fsync)
        patched.setattr(os, "unlink", lambda *_, **__: None)
        with pytest.raises(Kill):
            apply.write_synced(str(folder / "u"), "whole")
    apply.write_synced(str(folder / "u"), "whole")
    assert (folder / "u").read_text() == "whole"


@pytest.mark.parametrize("kind", ["link", "dangling", "fifo", "folder"])
def test_an_undo_file_is_never_written_through(folder, tree, kind):
    """Nothing that has the name is followed or replaced."""
    (folder / "mine").write_text("mine")
    path = folder / "u"
    {"link": lambda: path.symlink_to("mine"), "dangling": lambda: path.symlink_to("none"),
     "fifo": lambda: os.mkfifo(path), "folder": path.mkdir}[kind]()
    with pytest.raises(HostFault, match="File exists"):
        apply.write_synced(str(path), "new")
    assert (folder / "mine").read_text() == "mine" and not (folder / "none").exists()


# Who may change an undo file, or what its name stands for

NOBODY = 65534
# The entries of a list, of which two are named, and the bits of reading and of writing.
OWNER, NAMED, GROUP, NAMED_GROUP, MASK, OTHERS = 1, 2, 4, 8, 16, 32
READS, WRITES = 4, 6


def let_in(path, tag, mask):
    """Lets a user or a group write by a list, as far as its mask does."""
    entries = [(OWNER, WRITES, -1), (GROUP, 0, -1), (tag, WRITES, NOBODY), (MASK, mask, -1),
               (OTHERS, 0, -1)]
    text = struct.pack("<I", 2) + b"".join(struct.pack("<HHi", *each) for each in sorted(entries))
    try:
        os.setxattr(path, "system.posix_acl_access", text)
    except OSError as error:
        assert error.errno == errno.ENOTSUP
        pytest.skip("no lists here")


def refused_undo(ctl, path, why):
    """`undo` refuses a file, and changes nothing."""
    out, err = ctl.run("undo", path, "--yes", status=1)
    assert out == "" and why in err, err


@pytest.fixture
def kept(folder, tree):
    """An undo file in a folder of this user's own, of a group whose weight is 300."""
    (folder / "own").mkdir(mode=0o755)
    (tree / "box/cpu.weight").write_text("300")
    (folder / "own/u").write_text(undo_file(tree))
    (folder / "own/u").chmod(0o600)
    return folder / "own/u"


FILE, FOLDER = "other users may change this file", "other users may change this folder"


@pytest.mark.parametrize("mode", [0o664, 0o646, 0o620, 0o1664])
def test_an_undo_file_that_a_group_may_write(ctl, tree, kept, mode):
    kept.chmod(mode)
    refused_undo(ctl, kept, FILE)
    assert weights(tree, "box") == [300]


@pytest.mark.parametrize("mask", [WRITES, READS], ids=["in force", "masked"])
@pytest.mark.parametrize("tag", [NAMED, NAMED_GROUP], ids=["user", "group"])
@pytest.mark.parametrize("name, why", [("", FILE), ("..", FOLDER)], ids=["file", "folder"])
def test_an_undo_file_that_a_list_lets_others_write(ctl, tree, kept, tag, mask, name, why):
    """Of a list no mask counts: who loosens it would let them in."""
    let_in(kept.parent if name else kept, tag, mask)
    refused_undo(ctl, kept, why)
    assert weights(tree, "box") == [300]


def test_a_folder_where_an_undo_file_can_be_swapped(ctl, folder, tree, kept):
    """Who may write a folder on the way may give the name to another file. A sticky folder keeps
    the names of this user's files, and links of one's own lead on."""
    for mode in (0o777, 0o775, 0o757):
        for place in (kept.parent, folder):
            place.chmod(mode)
            refused_undo(ctl, kept, FOLDER)
            place.chmod(0o755)
    kept.parent.chmod(0o1777)
    (folder / "link").symlink_to("own/u")
    assert ctl.run("undo", folder / "link", "--yes")[0].startswith("echo 100 > ")
    assert weights(tree, "box") == [100]


@pytest.mark.skipif(os.geteuid() != 0, reason="gives files to another user")
def test_an_undo_file_below_a_folder_of_another_user(ctl, folder, tree, kept):
    """Its owner may swap it whatever the mode is. In a sticky folder a link may be his."""
    os.chown(kept.parent, NOBODY, NOBODY)
    refused_undo(ctl, kept, FOLDER)
    os.chown(kept.parent, 0, 0)
    (folder / "sticky").mkdir()
    (folder / "sticky").chmod(0o1777)
    (folder / "sticky/link").symlink_to(kept)
    os.chown(folder / "sticky/link", NOBODY, NOBODY, follow_symlinks=False)
    refused_undo(ctl, folder / "sticky/link", "a link of another user")
    assert weights(tree, "box") == [300]


@pytest.mark.parametrize("kind", ["fifo", "link to a fifo", "socket", "device", "folder"])
def test_an_undo_file_that_is_none(ctl, folder, kind):
    """It is refused before it is opened to be read: who opens a pipe waits for its writer."""
    path = folder / "u"
    {"fifo": lambda: os.mkfifo(path), "folder": path.mkdir,
     "link to a fifo": lambda: (os.mkfifo(folder / "f"), path.symlink_to("f")),
     "socket": lambda: socket.socket(socket.AF_UNIX).bind(str(path)),
     "device": lambda: path.symlink_to("/dev/zero")}[kind]()
    began = time.monotonic()
    refused_undo(ctl, path, ": no plain file")
    assert time.monotonic() - began < 20


def test_no_file_of_a_pipe_is_opened(folder, monkeypatch):
    """Neither is one opened that got its name after the look: the descriptor is what is read."""
    (folder / "u").write_text("mine")
    (folder / "u").chmod(0o600)
    real = atomic_files.descended

    def descended(path, opened):
        found = real(path, opened)
        os.remove(folder / "u")
        os.mkfifo(folder / "u")
        return found

    monkeypatch.setattr(atomic_files, "descended", descended)
    assert plain_files.file_bytes(str(folder / "u"), is_trusted=True) == b"mine"


@pytest.mark.parametrize("mode", [0o777, 0o775])
def test_apply_writes_no_undo_file_that_undo_refuses(ctl, folder, tree, mode):
    """So it ends before the first change."""
    (folder / "open").mkdir()
    (folder / "open").chmod(mode)
    (folder / "s.script").write_text("mkdir box\n")
    _, err = ctl.run("apply", folder / "s.script", "--set", "box.weight=9", "--root", tree, "--by",
                     "files", "--yes", "--undo", folder / "open/u", status=1)
    assert FOLDER in err and weights(tree, "box") == [100] and not os.listdir(folder / "open")
