"""Other users of the host: folders on the way, links, files in the way, names; and a full disk."""
import errno
import fnmatch
import itertools
import os
import re
import time
from pathlib import Path

import pytest
from arbiter_host import exports
from arbiter_host.base import atomic_files, names
from arbiter_host.base.atomic_files import Document
from arbiter_host.base.faults import HostFault
from arbiter_host.setting import apply, record
from arbiter_host.top import metrics

NOBODY = 65534
as_root = pytest.mark.skipif(os.geteuid() != 0, reason="gives files to another user")


def closed(descriptors):
    """Closes what was opened."""
    for each in descriptors:
        os.close(each)


def export(folder):
    exports.write(f"{folder}/", [Document("web.service.d/x.conf", f"# {exports.MARK}dropin\n")])


def gauges(folder):
    """Writes metrics as a loop does in each round."""
    metrics.File(f"{folder}/x.prom").put(metrics.Figured())


def kept(folder):
    """Writes an undo file as a loop does in each round."""
    file = record.Record(f"{folder}/undo.json")
    try:
        file.put("text")
    finally:
        file.close()


def test_a_file_that_is_asked_for(folder):
    """It is whole, a link of its name is replaced and not followed, and a device stays one."""
    (folder / "mine").write_text("mine")
    (folder / "link").symlink_to(folder / "mine")
    for name in ("new", "link", "mine"):
        atomic_files.put_file(f"{folder}/{name}", b"text")
        assert (folder / name).read_text() == "text" and not (folder / name).is_symlink()
    (folder / "mine").chmod(0o640)
    atomic_files.put_file(f"{folder}/mine", b"more")
    assert (folder / "mine").stat().st_mode & 0o777 == 0o640
    assert sorted(os.listdir(folder)) == ["link", "mine", "new"]
    atomic_files.put_file("/dev/null", b"text")
    for path, why in (("/dev/full", "No space left"), (str(folder), "Is a directory"),
                      (f"{folder}/none/x", "No such file")):
        with pytest.raises(HostFault, match=f"^{path}: {why}"):
            atomic_files.put_file(path, b"text")


# Each writes below a folder, or opens it to write there later.
WRITERS = {
    "lock": lambda folder: closed(record.lock(str(folder))),
    "undo": lambda folder: record.Record(f"{folder}/undo.json").close(),
    "gauges": lambda folder: metrics.File(f"{folder}/x.prom"), "export": export,
}
# Each writes a file below a folder.
PUTS = {
    "undo of hold": kept, "gauges": gauges, "export": export,
    "undo of apply": lambda folder: apply.write_synced(f"{folder}/undo.json", "text"),
}
COLLECTED = ("gauges",)
each_writer = pytest.mark.parametrize("write", WRITERS.values(), ids=list(WRITERS))
each_trusted = pytest.mark.parametrize("write", [
    each for name, each in WRITERS.items() if name not in COLLECTED])


@each_trusted
def test_folders_on_the_way(folder, write):
    """A folder of one's own below one that others may change can be taken away by them."""
    (folder / "open/mine").mkdir(parents=True, mode=0o755)
    for mode, is_safe in ((0o777, False), (0o775, False), (0o757, False), (0o755, True),
                          (0o1777, True)):
        (folder / "open").chmod(mode)
        if is_safe:
            write(folder / "open/mine")
            continue
        with pytest.raises(HostFault, match="open: other users may change this folder"):
            write(folder / "open/mine")
        assert not list((folder / "open/mine").iterdir())


@each_trusted
@pytest.mark.parametrize("at", range(4))
def test_folders_above_the_last(folder, write, at):
    """However far above: each folder of the way is looked at, that of the root too."""
    names = ["a", "b", "c", "d"]
    (folder / "/".join(names) / "mine").mkdir(parents=True, mode=0o755)
    way = folder / "/".join(names[:at + 1])
    way.chmod(0o777)
    with pytest.raises(HostFault, match=f"/{names[at]}: other users may change this folder"):
        write(folder / "/".join(names) / "mine")
    way.chmod(0o755)
    write(folder / "/".join(names) / "mine")


@as_root
@each_trusted
def test_folders_of_another_user(folder, write):
    """Its owner may change it whatever its mode is. So may the owner of a link, in sticky ones."""
    (folder / "his/mine").mkdir(parents=True)
    os.chown(folder / "his", NOBODY, NOBODY)
    (folder / "away").symlink_to(folder / "his")
    for name in ("his", "away"):
        with pytest.raises(HostFault, match="his: other users may change this folder"):
            write(folder / name / "mine")
    (folder / "sticky").mkdir()
    (folder / "sticky").chmod(0o1777)
    (folder / "real/mine").mkdir(parents=True)
    (folder / "sticky/link").symlink_to(folder / "real")
    write(folder / "sticky/link/mine")
    os.chown(folder / "sticky/link", NOBODY, NOBODY, follow_symlinks=False)
    with pytest.raises(HostFault, match="link: a link of another user"):
        write(folder / "sticky/link/mine")


@as_root
def test_a_folder_of_a_collector(folder):
    """Debian's is root's, below one of the collector's user; so no other user writes there."""
    (folder / "prometheus/node-exporter").mkdir(parents=True)
    os.chown(folder / "prometheus", NOBODY, NOBODY)
    for name in COLLECTED:
        WRITERS[name](folder / "prometheus/node-exporter")
    os.chown(folder / "prometheus/node-exporter", NOBODY, NOBODY)
    for name in COLLECTED:
        with pytest.raises(HostFault, match="node-exporter: other users may change this folder"):
            WRITERS[name](folder / "prometheus/node-exporter")


@each_writer
def test_links_on_the_way(folder, write):
    """Links of one's own lead on; the last name is none, a slash behind it or not."""
    (folder / "real/mine").mkdir(parents=True)
    for place, (name, target) in enumerate((("one", "real"), ("two", folder / "one"),
                                            ("three", "./../" + folder.name + "/two"))):
        (folder / name).symlink_to(target)
        (folder / f"real/mine/{place}").mkdir()
        write(folder / name / f"mine/{place}")
    (folder / "last").symlink_to(folder / "real/mine")
    for path in (f"{folder}/last", f"{folder}/last/"):
        with pytest.raises(HostFault, match="Not a directory"):
            write(path)
    (folder / "round").symlink_to(folder / "round")
    with pytest.raises(HostFault, match="Too many levels"):
        write(folder / "round/mine")
    (folder / "file").write_text("")
    with pytest.raises(HostFault, match="Not a directory"):
        write(folder / "file/mine")


def test_a_folder_below_an_export(folder):
    """A folder that is there already is not one that others may change."""
    (folder / "web.service.d").mkdir()
    (folder / "web.service.d").chmod(0o777)
    with pytest.raises(HostFault, match="web.service.d: other users may change this folder"):
        export(folder)
    assert not list((folder / "web.service.d").iterdir())


@pytest.mark.parametrize("make", [
    lambda path: path.write_text("127.0.0.1 localhost\n"), lambda path: path.write_text(""),
    lambda path: path.symlink_to("nowhere"), os.mkfifo, os.mkdir,
], ids=["text", "empty", "link", "fifo", "folder"])
def test_gauges_replace_no_other_file(folder, make):
    """Neither at the beginning nor at the end, at which they are removed."""
    make(folder / "hosts")
    before = os.lstat(folder / "hosts")
    with pytest.raises(HostFault):
        metrics.File(str(folder / "hosts"))
    assert os.lstat(folder / "hosts") == before


@pytest.fixture
def full(folder, monkeypatch):
    """A folder whose disk takes no byte more."""
    monkeypatch.setattr(os, "fsync", refuse)
    monkeypatch.setattr(os, "fchmod", refuse)
    return folder


def refuse(*_, **__):
    raise OSError(errno.ENOSPC, os.strerror(errno.ENOSPC))


def test_a_full_disk(full):
    """No part of an undo file, or of the gauges, stays."""
    undo = record.Record(str(full / "undo.json"))
    for put in (lambda: undo.put("text"), lambda: gauges(full)):
        with pytest.raises(HostFault, match="No space left"):
            put()
        assert list(full.iterdir()) == []
    undo.close()


@pytest.mark.parametrize("put", PUTS.values(), ids=list(PUTS))
@pytest.mark.parametrize("calls", [("rename", "link"), ("fchmod",)])
def test_nothing_is_left_behind(folder, monkeypatch, put, calls):
    """A file that cannot be finished or named is not there, under no name."""
    for call in calls:
        monkeypatch.setattr(os, call, refuse)
    with pytest.raises(HostFault, match="No space left"):
        put(folder)
    assert [path for path in folder.rglob("*") if not path.is_dir()] == []
    monkeypatch.undo()
    put(folder)
    found, = [path for path in folder.rglob("*") if not path.is_dir()]
    assert found.stat().st_mode & 0o777 == (0o644 if put is gauges else 0o600)


@pytest.mark.parametrize("name, put", [("undo.json.part", "undo of hold"),
                                       (".x.prom.part", "gauges")])
def test_what_a_killed_loop_left(folder, name, put):
    """It is replaced and not written through: another name of it keeps what it has."""
    (folder / "mine").write_text("mine")
    os.link(folder / "mine", folder / name)
    PUTS[put](folder)
    assert (folder / "mine").read_text() == "mine" and not (folder / name).exists()
    assert len(list(folder.iterdir())) == 2


@as_root
def test_the_default_folder_is_roots():
    """Nobody but root makes a name beside the lock of the host."""
    found = Path(record.FOLDER).parent.stat()
    assert found.st_uid == 0 and not found.st_mode & 0o022


def words(letters, most):
    """All words of some letters, the empty one too."""
    return ["".join(each) for many in range(most + 1)
            for each in itertools.product(letters, repeat=many)]


def test_patterns_by_another_way():
    """`*` is any letters: what Python's fnmatch says where there is no other letter of its own."""
    paths = words("ab/", 5)
    for text in words("ab*", 4):
        shape, other = names.pattern(text), re.compile(fnmatch.translate(text))
        assert [path for path in paths if shape.fullmatch(path)] == [
            path for path in paths if other.match(path)], text


def test_no_name_makes_a_pattern_slow():
    """Not even one on which each part of the pattern fits at hundreds of places."""
    begun = time.process_time()
    assert not names.pattern("*a*b*c*d").fullmatch("a" * 240 + "b" * 240 + "c" * 240)
    assert time.process_time() - begun < 1
