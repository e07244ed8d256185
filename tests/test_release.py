"""./build --release: the same bytes twice, nothing of the machine, and each file runs where nobody
builds. Programs are those under test; the kit is a stand-in."""
import gzip
import hashlib
import importlib
import io
import json
import os
import re
import shutil
import subprocess
import tarfile
import time
import zipfile
from pathlib import Path

import pytest
import yaml

from stand_in import LIBRARY_PROVED, PROVED, Copy, holds, version
from support import CHECKED, ROOT, run, same

VERSION, COMMIT, SECONDS = version(), "8" * 40, 1_764_000_000
KIT = "rattle-kit-13f logic dac8208d650f15bf"
TARBALL = f"arbiter-{VERSION}-linux-x86_64"
NOBODY = 65534
# The first commands of README.md, with the last line of their answers.
ASKED = {"run": ("examples/two-groups.script", "demand 0"),
         "check": ("examples/two-groups.certified", "accepted")}


@pytest.fixture(scope="module", name="release")
def module_of_scripts():
    """scripts/release.py."""
    with pytest.MonkeyPatch.context() as patch:
        patch.syspath_prepend(str(ROOT / "scripts"))
        found = importlib.import_module("release")
        yield found


@pytest.fixture(scope="module", name="installed")
def installed_files(program, library, tmp_path_factory):
    """What ./build --install installs, with the program and the library under test."""
    copy = Copy(os.path.realpath(tmp_path_factory.mktemp("release")))
    shutil.copy(program.path, f"{copy.kit}/made")
    copy.installs("there", "an installation", [PROVED, LIBRARY_PROVED])
    folder = Path(copy.top) / "there"
    shutil.copy(library, folder / f"lib/libarbiter.so.{VERSION}")
    (folder / "lib/arbiter/arbiter/made.json").write_text(
        json.dumps({"commit": COMMIT, "kit": KIT}))
    return folder


@pytest.fixture(name="whole")
def lets_through(release, library, monkeypatch):
    """Lets the checked library through, which names the folder that it was made in. Each crate is
    counted."""
    monkeypatch.setattr(release.counts, "told", lambda *_: release.counts.Counts({}, {}, []))
    if release.OF_MACHINE.search(library.read_bytes()):
        assert b"/checked/" in library.read_bytes() or CHECKED in library.parents
        monkeypatch.setattr(release, "OF_MACHINE", re.compile(rb"/no/such/path"))
    return release


def made(release, installed, out, *debs, image=""):
    """The files of a release, with Debian's packages for an image in a folder."""
    words = [installed, out, VERSION, COMMIT, SECONDS, KIT, "counts", image, *debs]
    same(release.main(list(map(str, words))), 0, "the status")
    return {path.name: path.read_bytes() for path in out.iterdir()}


def test_twice_the_same(whole, installed, tmp_path):
    """Other folders, another order of files, another time and other rights give the same bytes."""
    other = tmp_path / "moved" / "elsewhere"
    for path in sorted(installed.rglob("*"), reverse=True):
        place = other / path.relative_to(installed)
        place.parent.mkdir(parents=True, exist_ok=True)
        if path.is_symlink():
            place.symlink_to(os.readlink(path))
        elif path.is_file():
            shutil.copyfile(path, place)
            place.chmod(0o700 if os.access(path, os.X_OK) else 0o600)
            os.utime(place, (0, 10**9))
    deb = tmp_path / f"arbiter_{VERSION}_amd64.deb"
    deb.write_bytes(b"!<arch>\n")
    one, two = (made(whole, each, tmp_path / name, deb)
                for each, name in ((installed, "one"), (other, "two")))
    same(sorted(one), sorted(two), "names")
    same([name for name in one if one[name] != two[name]], [], "files that differ")
    (wheel,) = [name for name in one if name.endswith(".whl")]
    same(set(one) - {wheel}, {f"{TARBALL}.tar.gz", f"arbiter_host-{VERSION}.tar.gz", deb.name,
                              "PROVED.json", f"arbiter-{VERSION}.spdx.json", "SHA256SUMS",
                              "arbiter.krew.yaml"}, "files")
    holds("it was run in no real cluster", one["arbiter.krew.yaml"].decode(), "the plug-in")
    krew = yaml.safe_load(one["arbiter.krew.yaml"])["spec"]
    (platform,) = krew["platforms"]
    same((krew["version"], platform["sha256"], platform["uri"].rpartition("/")[2]),
         (f"v{VERSION}", hashlib.sha256(one[f"{TARBALL}.tar.gz"]).hexdigest(),
          f"{TARBALL}.tar.gz"), "the plug-in")
    same(platform["files"], [{"from": f"{TARBALL}/*", "to": "."}], "what it takes of the tarball")
    assert re.fullmatch(rf"arbiter_host-{VERSION}-py3-none-manylinux_2_\d+_x86_64.whl", wheel)
    ended = run(["sha256sum", "--strict", "-c", "SHA256SUMS"], cwd=tmp_path / "one")
    same((ended.status, ended.out.count(b": OK\n")), (0, len(one) - 1), "the sums")
    for place in (tmp_path, installed):
        same([name for name, data in contents(one).items() if str(place).encode() in data], [],
             "files that name a folder of the machine")


def contents(files):
    """The files inside of archives, and those that are none."""
    found = {}
    for name, data in files.items():
        if name.endswith(".tar.gz"):
            with tarfile.open(fileobj=io.BytesIO(data)) as archive:
                found |= {f"{name}/{each.name}": archive.extractfile(each).read()
                          for each in archive if each.isfile()}
        elif name.endswith(".whl"):
            with zipfile.ZipFile(io.BytesIO(data)) as archive:
                found |= {f"{name}/{each}": archive.read(each) for each in archive.namelist()}
        else:
            found[name] = data
    return found


def test_archives(whole, installed, tmp_path):
    """Files are sorted, belong to root, and have the time of the commit. What needs root is left
    out of the tarball."""
    files = made(whole, installed, tmp_path / "out")
    for name in (f"{TARBALL}.tar.gz", f"arbiter_host-{VERSION}.tar.gz"):
        with tarfile.open(fileobj=io.BytesIO(files[name])) as archive:
            members = archive.getmembers()
        paths = [each.name for each in members if not each.isdir()]
        same(paths, sorted(paths), name)
        same({(each.uid, each.gid, each.uname, each.mtime) for each in members},
             {(0, 0, "root", SECONDS)}, name)
        same({each.mode for each in members} - {0o755, 0o644, 0o777}, set(), name)
        assert not [each for each in paths if "systemd/system" in each or "__pycache__" in each]
        if name.startswith(TARBALL):
            rest = {f"{TARBALL}/{each}" for each in (
                "README", "LICENSE-MIT", "bin/arbiterctl", "lib/libarbiter.a", "include/arbiter.h",
                "share/man/man1/arbiterctl.1", "share/rust/src/lib.rs", "examples/pods.json",
                "share/bash-completion/completions/arbiterctl")}
            same(rest - set(paths), set(), "missing")
    (wheel,) = [name for name in files if name.endswith(".whl")]
    with zipfile.ZipFile(io.BytesIO(files[wheel])) as archive:
        same({each.date_time for each in archive.infolist()}, {time.gmtime(SECONDS)[:6]}, wheel)


@pytest.mark.parametrize("file, head, place", [
    ("bin/arbiter", b"\x7fELF\0", "/home/me/gate/crates/x"),
    (f"lib/libarbiter.so.{VERSION}", b"\x7fELF\0", f"{ROOT}/crates"),
    ("lib/libarbiter.a", b"!<arch>\n", "/tmp/arbiter/a.rt")])
def test_a_folder_of_the_machine(release, installed, tmp_path, capsys, file, head, place):
    """A program or a library that says where it was made is in no release. No file is made."""
    shutil.copytree(installed, tmp_path / "in", symlinks=True)
    for each in ("bin/arbiter", "lib/libarbiter.a", f"lib/libarbiter.so.{VERSION}"):
        (tmp_path / "in" / each).write_bytes(b"\x7fELF\0")
    (tmp_path / "in" / file).write_bytes(head + place.encode() + b"\0")
    words = [str(tmp_path / "in"), str(tmp_path / "out"), VERSION, COMMIT, str(SECONDS), KIT, "", ""]
    same((release.main(words), (tmp_path / "out").exists()), (1, False), "the status")
    same(capsys.readouterr().err,
         f"build: no release: {file} names a folder of this machine: {place}\n", "the message")


# It runs where nobody builds


@pytest.fixture(name="home")
def a_home(tmp_path_factory, program):
    """A folder of a user without rights, and the words that make one that user."""
    folder = Path("/tmp") / f"arbiter-home-{os.getpid()}-{time.monotonic_ns()}"
    folder.mkdir()
    words = {}
    if os.geteuid() == 0 and Path(program.path).read_bytes().startswith(b"\x7fELF"):
        os.chown(folder, NOBODY, NOBODY)
        words = {"user": NOBODY, "group": NOBODY, "extra_groups": []}
    yield folder, {"cwd": folder, "env": {"PATH": "/usr/bin:/bin", "HOME": str(folder)}, **words}
    shutil.rmtree(folder)


def answers(words, home, given=b""):
    """What a command prints for the user of a home."""
    ended = subprocess.run(list(map(str, words)), input=given, capture_output=True, timeout=240,
                           check=False, **home)
    same((ended.returncode, ended.stderr), (0, b""), words)
    return ended.stdout.decode()


def explains(command, examples, home, engine):
    """The pods of README.md are explained by a library of the release, which its check accepts."""
    pods = [examples / "pods.json", examples / "node.json", "--want", "busy"]
    said = answers([*command, "explain", *pods, "-o", "json"], home)
    found = json.loads(said)
    same((found["check"], found["engine"]), ("accepted", f"library {engine}"), "the answer")
    gets = {each["group"]: each["gets"]["millicpu"] for each in found["groups"]}
    same([gets["kubepods/burstable/shop:web"], gets["kubepods/shop:db"]], [1444, 500], "pods")
    text = answers([*command, "explain", *pods], home)
    holds("1.444  2.100      -  [########....]  the host is full", text, "README's answer")
    said = answers([*command, "--version"], home).split("\n")
    same(said, [f"arbiterctl {VERSION}", f"commit {COMMIT}; library proved by {KIT}", ""],
         "the version")


def test_tarball_in_a_home(whole, installed, tmp_path, home):
    """Unpacked by an ordinary user: the first commands of README.md are answered, in three."""
    folder, user = home
    made(whole, installed, tmp_path / "out")
    shutil.copy(tmp_path / f"out/{TARBALL}.tar.gz", folder)
    answers(["tar", "xf", f"{TARBALL}.tar.gz"], user)
    top = folder / TARBALL
    for word, (file, last) in ASKED.items():
        said = answers([top / "bin/arbiter", word], user, (top / file).read_bytes())
        same(said.split("\n")[-2], last, word)
    explains([top / "bin/arbiterctl"], top / "examples", user, f"{top}/lib/libarbiter.so.1")
    readme = (top / "README").read_text()
    for line in re.findall(r"^    (bin/.*)$", readme, re.M):
        answers(["sh", "-c", f"cd {TARBALL} && {line}"], user)
    same(readme.count("\n    bin/"), 3, "commands of its README")


def venv(folder, user, *words):
    """A Python of its own with Debian's packages, and pip with some words, without a network."""
    answers(["/usr/bin/python3", "-m", "venv", "--system-site-packages", folder / "venv"], user)
    pip = [folder / "venv/bin/python", "-m", "pip", "-q", "--isolated", "--no-input",
           "--disable-pip-version-check", "--no-cache-dir"]
    answers([*pip, *words, "--no-index", "--no-deps"], user)
    return pip


def test_wheel_in_a_venv(whole, installed, tmp_path, home):
    """pip installs it without a network, it has its library inside, and goes without a rest."""
    if subprocess.run(["/usr/bin/python3", "-c", "import ensurepip"], capture_output=True,
                      check=False).returncode:
        pytest.skip("no python3-venv")
    folder, user = home
    files = made(whole, installed, tmp_path / "out")
    (name,) = [each for each in files if each.endswith(".whl")]
    shutil.copy(tmp_path / "out" / name, folder)
    pip = venv(folder, user, "install", folder / name)
    (place,) = folder.glob("venv/lib/python3*/site-packages")
    shutil.copytree(ROOT / "examples", folder / "examples")
    explains([folder / "venv/bin/arbiterctl"], folder / "examples", user,
             place / "arbiter/libarbiter.so.1")
    said = subprocess.run([*map(str, pip), "check"], capture_output=True, check=False, **user)
    assert b"arbiter" not in said.stdout + said.stderr, said
    answers([*pip, "uninstall", "-y", "arbiter-host"], user)
    same([each for each in place.rglob("*") if "arbiter" in each.name
          and each.name != "__pycache__"], [], "left behind")


def test_metadata_is_that_of_setuptools(whole, installed, tmp_path):
    """Name, version and what is needed are what setuptools makes of the sdist's pyproject."""
    code = ("import sys; from setuptools import build_meta\n"
            "print(build_meta.prepare_metadata_for_build_wheel(sys.argv[1]))")
    files = made(whole, installed, tmp_path / "out")
    with tarfile.open(fileobj=io.BytesIO(files[f"arbiter_host-{VERSION}.tar.gz"])) as archive:
        archive.extractall(tmp_path)
    ended = run(["/usr/bin/python3", "-c", code, str(tmp_path)],
                cwd=tmp_path / f"arbiter_host-{VERSION}")
    if b"No module named" in ended.err:
        pytest.skip("no python3-setuptools, or no python3-wheel")
    same(ended.status, 0, ended.err)
    theirs = (tmp_path / ended.out.decode().split("\n")[-2] / "METADATA").read_text()
    (wheel,) = [name for name in files if name.endswith(".whl")]
    with zipfile.ZipFile(io.BytesIO(files[wheel])) as archive:
        ours = archive.read(f"arbiter_host-{VERSION}.dist-info/METADATA").decode()
    keys = ("Name", "Version", "Summary", "License", "Requires-Python", "Provides-Extra",
            "Requires-Dist")
    fields = [sorted(re.sub("[ ()]", "", line).replace('"', "'") for line in each.split("\n")
                     if line.partition(":")[0] in keys) for each in (ours, theirs)]
    same(*fields, "metadata")
    assert len(fields[0]) > 12


# What is inside


LOG = """== bw_text
fn bw_text::a: proved
logic=proved functions=27 sum=d native=nat axioms=2 x=y
rt: bw_text proved
== bw_low
logic=proved functions=8 sum=d
rt: bw_low NOT PROVED
== arbiter
logic=proved functions=9 may-wait=4 sum=d axioms=20
rt: arbiter proved
rt: must-fail bw_text/other.edit: refused, as it must be: fn bw_text::a
rt: must-fail bw_text/missed.edit: NOT REFUSED: the crate is still proved with this edit
rt: must-fail arbiter/one.edit: refused, as it must be (only by a limit of the prover)
== bw_tests
logic=proved functions=0 sum=d
rt: bw_tests proved
== bw_tests: its tests
fn bw_tests::a: proved
logic=proved tests=3 functions=5 axioms=1 sum=d
rt: bw_tests: its tests are proved
"""
# A gate that proves what the one before refused, and takes the rest from it.
LATER = """rt: bw_text is kept: an earlier run on this machine proved the same files
rt: arbiter is kept: an earlier run on this machine proved the same files
== bw_low
logic=proved functions=8 sum=d
rt: bw_low proved
rt: must-fail bw_text/missed.edit: refused, as it must be: fn bw_text::a
"""
NUMBERS = {"arbiter": {"functions": 9, "axioms": 20, "may_wait": 4},
           "bw_low": {"functions": 8, "axioms": 0, "may_wait": 0},
           "bw_tests": {"functions": 5, "axioms": 1, "may_wait": 0},
           "bw_text": {"functions": 27, "axioms": 2, "may_wait": 0}}


class Gates:
    """A small repository, and the records of its gates."""

    def __init__(self, counts, folder):
        self.counts, self.folder = counts, folder

    def write(self, place, text):
        path = self.folder / "top" / place
        path.parent.mkdir(parents=True, exist_ok=True)
        path.write_text(text)

    def gate(self, log, during=lambda: None, kit=KIT):
        """A gate that says this, while something happens."""
        before = self.counts.look(kit)
        during()
        self.counts.keep(self.folder / "counts", log, before, self.counts.look(kit))

    def told(self, kit=KIT):
        return self.counts.told(self.folder / "counts", kit)


@pytest.fixture(name="gates")
def gates_of(release, tmp_path, monkeypatch):
    """Four crates, one above another, with edits and with tests in the last."""
    made = Gates(release.counts, tmp_path)
    made.write("crates.txt", "# A: B\nbw_text: itoa\nbw_low: bw_text\n"
                             "arbiter may_wait=4: bw_low # x\nbw_tests: bw_text\n")
    made.write("HANDLES", "Handles allowed: Wait\n")
    for name in NUMBERS:
        made.write(f"crates/{name}/src/lib.rt", "#[test] fn a() {}\n" * (name == "bw_tests"))
    for place in ("bw_text/must-fail/other", "bw_text/must-fail/missed", "arbiter/must-fail/one"):
        made.write(f"crates/{place}.edit", f"old: {place}\n")
    monkeypatch.chdir(tmp_path / "top")
    return made


def test_counts_of_two_gates(gates):
    """A gate counts what it proved, an earlier one what this one took from it. What failed, and
    what no gate tried, lacks."""
    assert len(gates.told().lacks) == 7
    gates.gate(LOG)
    found = gates.told()
    same(found.lacks, ["bw_low", "bw_text/missed.edit"], "lacks after the first")
    same(found.crates, {each: NUMBERS[each] for each in ("arbiter", "bw_tests", "bw_text")},
         "the first")
    gates.gate(LATER)
    found = gates.told()
    same((found.crates, found.lacks), (NUMBERS, []), "both")
    same(found.refused, {"arbiter": ["one"], "bw_text": ["missed", "other"]}, "refused")


@pytest.mark.parametrize("place, text, lacks", [
    ("crates/arbiter/src/lib.rt", "new", ["arbiter", "arbiter/one.edit"]),
    ("crates/bw_low/proofs/new.antt", "new", ["bw_low", "arbiter", "arbiter/one.edit"]),
    ("crates/bw_text/must-fail/other.edit", "new", ["bw_text/other.edit"]),
    ("crates/bw_text/must-fail/new.edit", "new", ["bw_text/new.edit"]),
    ("crates/bw_text/README", "new", []),
    ("crates.txt", "bw_text: itoa\nbw_low: bw_text memchr\narbiter may_wait=4: bw_low\n"
                   "bw_tests: bw_text\n", ["bw_low", "arbiter", "arbiter/one.edit"]),
    ("HANDLES", "none", ["bw_text", "bw_low", "arbiter", "bw_tests", "bw_text/missed.edit",
                         "bw_text/other.edit", "arbiter/one.edit"])])
def test_a_change_has_no_count(gates, place, text, lacks):
    """Neither a crate that changed, nor one above it, nor an edit. What is put back has its own."""
    gates.gate(LOG)
    gates.gate(LATER)
    path = gates.folder / "top" / place
    before = path.read_text() if path.exists() else None
    gates.write(place, text)
    same(gates.told().lacks, lacks, place)
    if before is None:
        path.unlink()
    else:
        path.write_text(before)
    same(gates.told().lacks, [], "put back")
    same(len(gates.told(f"{KIT}0").lacks), 7, "another kit")


def test_a_change_while_the_gate_runs(gates):
    """A crate that changed while the gate ran is not counted, also where it was changed back."""
    def change(place):
        text = Path(place).read_text()
        Path(place).write_text(f"{text}\n")
        Path(place).write_text(text)

    gates.gate(LOG + LATER, lambda: change("crates/bw_low/src/lib.rt"))
    same(gates.told().lacks, ["bw_low", "arbiter", "arbiter/one.edit"], "a source")
    gates.gate(LOG + LATER, lambda: gates.write("crates/arbiter/must-fail/one.edit", "new"))
    same(gates.told().lacks, ["arbiter/one.edit"], "an edit")


@pytest.mark.parametrize("part", ["rt: bw_tests proved\n", "rt: bw_tests: its tests are proved\n"])
def test_half_a_count(gates, part):
    """A crate with tests is counted by both its proofs."""
    gates.gate((LOG + LATER).replace(part, ""))
    same(gates.told().lacks, ["bw_tests"], part)


def test_damaged_records(gates):
    """They count as none."""
    gates.gate(LOG + LATER)
    for path in (gates.folder / "counts").iterdir():
        path.write_text(path.read_text()[:-1])
    same(len(gates.told().lacks), 7, "lacks")


def test_what_was_proved(release, installed, gates, monkeypatch):
    """Crates are counted as gates counted them, and files have their hashes. Where a count lacks,
    nothing is released."""
    monkeypatch.setattr(release, "TOP", gates.folder)
    its = release.Release(VERSION, COMMIT, SECONDS, KIT)
    gates.gate(LOG)
    with pytest.raises(release.Fault, match="no gate on this machine counted bw_low, bw_text/missed"
                                            r"\.edit: \./test --anew does$"):
        release.proved(release.below(installed), gates.folder / "counts", its)
    gates.gate(LATER)
    found = release.proved(release.below(installed), gates.folder / "counts", its)
    same((found["crates"], found["refused_edits"]),
         (NUMBERS, {"arbiter": ["one"], "bw_text": ["missed", "other"]}), "counts")
    same((found["kit"], found["logic"], found["commit"], found["coq_theorems_without_axioms"]),
         ("rattle-kit-13f", "dac8208d650f15bf", COMMIT, []), "by what")
    same(set(found["files"]), {"bin/arbiter", "lib/libarbiter.a", f"lib/libarbiter.so.{VERSION}"},
         "files")
    for place, told in found["files"].items():
        same(told["sha256"], hashlib.sha256((installed / place).read_bytes()).hexdigest(), place)


def test_theorems_of_coq(release, tmp_path, monkeypatch):
    """Those that the log closes are named; a log that closes others is a fault."""
    monkeypatch.setattr(release, "TOP", tmp_path)
    folder = tmp_path / "out/independent"
    folder.mkdir(parents=True)
    (folder / "Assumptions.v").write_text("".join(
        f"(* a *)\nPrint Assumptions {each}.\n" for each in ("A.one", "B")))
    (folder / "build.log").write_text(2 * "Closed under the global context\n")
    same(release.theorems(), [], "without an end of its build")
    (folder / "sum").write_text("sum\n")
    same(release.theorems(), ["A.one", "B"], "theorems")
    (folder / "build.log").write_text("Closed under the global context\nAxioms:\nx : nat\n")
    with pytest.raises(release.Fault, match="closes 1 theorems of 2"):
        release.theorems()


@pytest.mark.parametrize("data, wanted", [
    (b"#!/bin/sh\n\0GLIBC_2.17\0", None), (b"\x7fELF\0x\0", 0), (b"\x7fELF\0GLIBC_2.2.5\0", 2),
    (b"\x7fELF\0GLIBC_2.4\0GLIBC_2.34\0GLIBC_2.14\0", 34), (b"\x7fELF\0XGLIBC_2.99\0", 0)])
def test_the_oldest_c_library(release, data, wanted):
    same(release.glibc(data), wanted, data)


def test_bill_of_materials(whole, installed, tmp_path):
    """Each field that SPDX 2.3 asks for is there, each name once, and each relation has ends."""
    files = made(whole, installed, tmp_path / "out")
    found = json.loads(files[f"arbiter-{VERSION}.spdx.json"])
    same((found["spdxVersion"], found["dataLicense"], found["creationInfo"]["created"]),
         ("SPDX-2.3", "CC0-1.0", "2025-11-24T16:00:00Z"), "the head")
    ids = [each["SPDXID"] for each in found["packages"]]
    assert len(set(ids)) == len(ids)
    same([each for each in ids if not re.fullmatch(r"SPDXRef-[A-Za-z0-9.-]+", each)], [], "names")
    for each in found["packages"]:
        assert {"name", "downloadLocation", "licenseConcluded", "copyrightText"} <= set(each)
        if "packageFileName" in each:
            same(each["checksums"][0]["checksumValue"],
                 hashlib.sha256(files[each["packageFileName"]]).hexdigest(), each["name"])
    ends = {each[key] for each in found["relationships"] for key in (
        "spdxElementId", "relatedSpdxElement")}
    same(ends, {"SPDXRef-DOCUMENT", *ids}, "relations")
    named = {each["name"]: each["versionInfo"] for each in found["packages"]}
    same({name: named[name] for name in ("python", "jinja2", "rich", "PyYAML")},
         {"python": "3.11", "jinja2": "3.1.2", "rich": "13.3.1", "PyYAML": "6.0"}, "what is needed")


# The image


def deb(name, *files):
    """A package of files: each with its place, bytes or target, and mode."""
    def part(members):
        made = io.BytesIO()
        with tarfile.open(fileobj=made, mode="w:xz") as archive:
            for place, data, mode in members:
                its = tarfile.TarInfo(f"./{place}")
                its.mode, its.mtime, its.uid = mode, time.time_ns() // 10**9, 1000
                if isinstance(data, str):
                    its.type, its.linkname = tarfile.SYMTYPE, data
                    archive.addfile(its)
                else:
                    its.size = len(data)
                    archive.addfile(its, io.BytesIO(data))
        return made.getvalue()

    control = f"Package: {name}\nVersion: 1:2~3\n".encode()
    made = b"!<arch>\n"
    for kind, data in (("debian-binary", b"2.0\n"),
                       ("control.tar.xz", part([("control", control, 0o644)])),
                       ("data.tar.xz", part(files))):
        made += f"{kind:16}{0:<12}{0:<6}{0:<6}{0:<8o}{len(data):<10}`\n".encode()
        made += data + b"\n" * (len(data) % 2)
    return made


@pytest.fixture(name="parts")
def parts_of_an_image(whole, monkeypatch, tmp_path):
    """Debian's packages in a folder, as a list names them, and those of the release."""
    folder, lines = tmp_path / "debian", ["# A list.\n"]
    folder.mkdir()
    for name, *files in (
            ("libc6", ("lib64/ld.so", "/lib/x/ld.so", 0o777), ("lib/x/ld.so", b"loader", 0o755),
             ("usr/share/doc/libc6/copyright", b"free", 0o644),
             ("usr/share/doc/libc6/changelog.gz", b"long", 0o644),
             ("usr/share/man/man1/a.1.gz", b"page", 0o644)),
            ("dash", ("bin/sh", "dash", 0o777), ("bin/dash", b"shell", 0o4755))):
        data = deb(name, *files)
        path = folder / f"{name}_1%3a2%7e3_amd64.deb"
        path.write_bytes(data)
        lines.append(f"{hashlib.sha256(data).hexdigest()} http://debian.example/{path.name}\n")
    pins = tmp_path / "image.txt"
    pins.write_text("".join(lines))
    monkeypatch.setattr(whole.image, "PINS", pins)
    ours = []
    for name in ("arbiter", "arbiter-host", "libarbiter1", "libarbiter-dev"):
        ours.append(tmp_path / f"{name}_{VERSION}_amd64.deb")
        ours[-1].write_bytes(deb(name, (f"usr/share/doc/{name}/examples/of", b"one", 0o644)))
    return folder, ours


def blobs(data):
    """The files of an OCI layout, whose blobs have their hashes as names."""
    with tarfile.open(fileobj=io.BytesIO(data)) as archive:
        found = {each.name: archive.extractfile(each).read() for each in archive if each.isfile()}
    for name, blob in found.items():
        if name.startswith("blobs/"):
            same(name, f"blobs/sha256/{hashlib.sha256(blob).hexdigest()}", "a blob")
    return found


def test_image(whole, installed, tmp_path, parts):
    """Two layers of files that belong to root, which no script of a package made. Nobody runs it,
    nothing in it has the rights of its owner, and licences and the examples are inside."""
    folder, ours = parts
    one, two = (made(whole, installed, tmp_path / name, *ours, image=folder)
                for name in ("one", "two"))
    name = f"{TARBALL}.oci.tar"
    same(one, two, "both")
    found = blobs(one[name])
    said = {each: json.loads(found[each]) for each in ("index.json", "manifest.json")}
    (head,) = said["index.json"]["manifests"]
    same(head["annotations"]["org.opencontainers.image.ref.name"], f"arbiter:{VERSION}", "name")
    for name in ("explain", "top"):
        holds(f"image: arbiter:{VERSION}\n",
              (ROOT / f"share/kubernetes/{name}.yaml").read_text(), "the workload's image")
    of = {each: found[f"blobs/{each.replace(':', '/')}"] for each in (
        head["digest"], *(f"sha256:{path[13:]}" for path in found if path.startswith("blobs/")))}
    manifest = json.loads(of[head["digest"]])
    config = json.loads(of[manifest["config"]["digest"]])
    same((config["config"]["User"], config["config"]["Entrypoint"], config["created"]),
         ("65534:65534", ["arbiterctl"], "2025-11-24T16:00:00Z"), "the config")
    same(config["config"]["Labels"]["org.opencontainers.image.revision"], COMMIT, "commit")
    layers = [of[each["digest"]] for each in manifest["layers"]]
    plain = [gzip.decompress(each) for each in layers]
    same(config["rootfs"]["diff_ids"],
         [f"sha256:{hashlib.sha256(each).hexdigest()}" for each in plain], "layers")
    (old,) = said["manifest.json"]
    same([found[each] for each in old["Layers"]], layers, "layers of docker")
    same(found[old["Config"]], of[manifest["config"]["digest"]], "config of docker")
    places = []
    for layer in plain:
        with tarfile.open(fileobj=io.BytesIO(layer)) as archive:
            entries = archive.getmembers()
        same({(each.uid, each.gid, each.mtime) for each in entries}, {(0, 0, SECONDS)}, "owners")
        same({each.mode for each in entries} - {0o755, 0o644, 0o777, 0o1777}, set(), "modes")
        same([each.name for each in entries if each.mode == 0o1777],
             ["tmp"] if layer is plain[0] else [], "folders that all write")
        places.append({each.name: each.linkname for each in entries if not each.isdir()})
    status = "var/lib/dpkg/status.d"
    same(places[0], {"bin": "usr/bin", "lib": "usr/lib", "lib64": "usr/lib64", "sbin": "usr/sbin",
                     "etc/passwd": "", "etc/group": "", "usr/lib64/ld.so": "/lib/x/ld.so",
                     "usr/lib/x/ld.so": "", "usr/share/doc/libc6/copyright": "",
                     "usr/bin/sh": "dash", "usr/bin/dash": "", f"{status}/libc6": "",
                     f"{status}/dash": ""}, "Debian's files")
    wanted = ("arbiter", "arbiter-host", "libarbiter1")
    same(set(places[1]), {*(f"usr/share/doc/{each}/examples/of" for each in wanted),
                          *(f"{status}/{each}" for each in wanted)}, "files of arbiter")
    found = json.loads(one[f"arbiter-{VERSION}.spdx.json"])
    inside = {each["SPDXID"]: each for each in found["packages"]
              if each["SPDXID"].startswith("SPDXRef-debian-")}
    same({each["name"]: (each["versionInfo"], each["downloadLocation"])
          for each in inside.values()},
         {each: ("1:2~3", f"http://debian.example/{each}_1%3a2%7e3_amd64.deb")
          for each in ("libc6", "dash")}, "the bill")
    same({each["relatedSpdxElement"] for each in found["relationships"]
          if each["relationshipType"] == "CONTAINS"}, set(inside), "what the image has")


@pytest.mark.parametrize("wrong, message", [
    ("a byte", "debian has no dash_1%3a2%7e3_amd64.deb as image.txt means it"),
    ("no package", "an image needs the package libarbiter1"),
    ("twice", "usr/share/doc/arbiter/examples/of of libarbiter1 is of another package too")])
def test_no_image_of_others(whole, installed, tmp_path, parts, capsys, wrong, message):
    """A package of another hash, one that lacks, and one with another's file make no release."""
    folder, ours = parts
    if wrong == "a byte":
        path = folder / "dash_1%3a2%7e3_amd64.deb"
        path.write_bytes(path.read_bytes()[:-1] + b"\1")
    elif wrong == "no package":
        del ours[2]
    else:
        ours[2].write_bytes(deb("libarbiter1",
                                ("usr/share/doc/arbiter/examples/of", b"two", 0o644)))
    words = [str(installed), str(tmp_path / "out"), VERSION, COMMIT, str(SECONDS), KIT,
             "counts", str(folder), *map(str, ours)]
    same((whole.main(words), (tmp_path / "out").exists()), (1, False), "the status")
    assert capsys.readouterr().err.endswith(f"{message}\n")


def test_packages_are_fetched(whole, tmp_path, parts, monkeypatch, capsys):
    """Those that lack, by apt's helper. One of another hash, or that cannot be had, is named."""
    folder, _ = parts
    there, log = tmp_path / "archive", tmp_path / "log"
    folder.rename(there)
    helper = tmp_path / "helper"
    helper.write_text(f"""#!/bin/sh
echo "$1 $2 $4" >>{log}
cp "{there}/${{2##*/}}" "$3" || {{ echo 'E: none' >&2; exit 100; }}
""")
    helper.chmod(0o755)
    monkeypatch.setattr(whole.image, "HELPER", str(helper))
    same(whole.image.main([str(folder)]), 0, "the status")
    same([whole.image.is_there(folder, pin) for pin in whole.image.pins()], [True, True], "both")
    same(log.read_text().splitlines(), [f"download-file {pin.url} SHA256:{pin.sha256}"
                                        for pin in whole.image.pins()], "what was asked")
    log.unlink()
    same((whole.image.main([str(folder)]), log.exists()), (0, False), "again")
    for path in folder.iterdir():
        path.write_bytes(b"other")
    (there / "libc6_1%3a2%7e3_amd64.deb").write_bytes(b"other")
    same(whole.image.main([str(folder)]), 1, "another hash")
    (there / "libc6_1%3a2%7e3_amd64.deb").unlink()
    same(whole.image.main([str(folder)]), 1, "none")
    url = "http://debian.example/libc6_1%3a2%7e3_amd64.deb"
    same(capsys.readouterr().err, f"build: no image of containers: {url} has another hash\n"
         f"build: no image of containers: {url} cannot be had: E: none\n", "the messages")


def test_list_of_packages(release):
    """Each of Debian's packages of an image is named once, by its hash, of this machine's kind."""
    pins = release.image.pins()
    same(len({pin.package for pin in pins}), len(pins), "packages")
    same(pins, sorted(pins, key=lambda pin: pin.url), "their order")
    for pin in pins:
        assert re.fullmatch("[0-9a-f]{64}", pin.sha256), pin
        assert re.fullmatch(r"http://deb\.debian\.org/debian(-security)?/pool/\S+_(amd64|all)\.deb",
                            pin.url), pin
    same(set(release.image.WANTED) - {pin.package for pin in pins}, set(), "wanted")


# The command


GIT = """#!/bin/sh
case "$1 $2" in
  "rev-parse --show-cdup") cat "{0}/cdup" || exit 128 ;;
  "status --porcelain") cat "{0}/status" ;;
  "log -1") echo "{1} {2}" ;;
  *) exit 9 ;;
esac
"""
DEBS = """#!/bin/sh
echo "$SOURCE_DATE_EPOCH $(cat installed/lib/arbiter/arbiter/made.json)" >../arbiter_1_all.deb
"""


@pytest.fixture(name="copy")
def a_copy(scratch):
    """A copy with stand-ins for Debian's tools and for git."""
    copy = Copy(os.path.realpath(scratch))
    for name in ("docs", "examples", "LICENSE-MIT", "LICENSE-APACHE", "CHANGELOG.md"):
        (shutil.copytree if (ROOT / name).is_dir() else shutil.copy)(
            ROOT / name, f"{copy.top}/{name}")
    for name, text in (("dh", DEBS), ("dh_python3", DEBS), ("dpkg-buildpackage", DEBS),
                       ("git", GIT.format(copy.kit, COMMIT, SECONDS))):
        copy.write(f"../bin/{name}", text)
        os.chmod(f"{copy.bin}/{name}", 0o755)
    copy.write("../kit/cdup", "\n")
    copy.write("../kit/status", "")
    return copy


def counts_all(copy):
    """A gate that counts each crate of a copy."""
    words = ["python3", "scripts/gate.py", "out.log", f"{copy.cache}/arbiter/counts"]
    copy.call([*words, copy.read("../kit/KIT-ID").strip()])


def test_build_makes_a_release(copy):
    """Both are proved, and all files come below a folder that is named from the caller's; a second
    run gives the same bytes. Packages have the time of the commit, and say of which they are."""
    os.makedirs(f"{copy.folder}/from")
    words = [f"{copy.top}/build", "--release"]
    found = []
    counts_all(copy)
    for name in ("one", "two"):
        status, out, err = copy.call([*words, name], cwd=f"{copy.folder}/from", seconds=240)
        same(status, 0, f"./build --release: {err}")
        folder = Path(f"{copy.folder}/from/{name}")
        found.append({path.name: path.read_bytes() for path in folder.iterdir()})
        for each in found[-1]:
            holds(f"build: made {folder}/{each}\n", out, "what was made")
    same(copy.proved(), [PROVED, LIBRARY_PROVED], "what was proved")
    same(*found, "both releases")
    said = found[0]["arbiter_1_all.deb"].decode()
    same(said, f'{SECONDS} {{"commit": "{COMMIT}", "kit": "kit 1 logic dac8208d650f15bf"}}\n',
         "a package")
    proved = json.loads(found[0]["PROVED.json"])
    same((proved["commit"], sorted(proved["crates"])), (COMMIT, sorted(copy.crates)), "PROVED.json")
    same({each["functions"] for each in proved["crates"].values()}, {3}, "counts")
    same((len(found[0]), sorted(os.listdir(f"{copy.folder}/from"))), (8, ["one", "two"]), "files")


@pytest.mark.parametrize("why", ["a changed file", "no repository", "below another", "no git"])
def test_a_release_is_of_a_commit(copy, why):
    """Otherwise nothing is built, and an installation does not say of which commit it is."""
    if why == "no git":
        os.remove(f"{copy.bin}/git")
    elif why == "no repository":
        os.remove(f"{copy.kit}/cdup")
    else:
        copy.write("../kit/" + ("status" if why == "a changed file" else "cdup"), " M build\n")
    status, out, err = copy.call(["./build", "--release", "there"])
    same((status, out, copy.proved()), (2, "", []), why)
    holds("build: a release is of a commit, without a changed file: see git status\n", err, why)
    copy.installs("there", why, [PROVED, LIBRARY_PROVED])
    same(copy.there("there/lib/arbiter/arbiter/made.json"), False, "the file")


def test_a_release_needs_a_gate(copy):
    """Without its counts nothing is built."""
    status, out, err = copy.call(["./build", "--release", "there"])
    same((status, out, copy.proved(), copy.there("there")), (1, "", [], False), err)
    holds("build: no release: no gate on this machine counted bw_text, bw_streams, ", err, "why")


def test_a_release_needs_debhelper(copy):
    os.remove(f"{copy.bin}/dh_python3")
    status, out, err = copy.call(["./build", "--release=there"])
    same((status, out, copy.proved()), (2, "", []), "./build --release without dh-python")
    holds("build: dh_python3 is missing: sudo apt-get install -y debhelper dh-python ", err, "why")
