"""A release of ./build --release where nobody builds: lintian, and its use in fresh roots of
debootstrap, of Debian 12 and 13.

    /usr/bin/python3 -m pytest tests/debs.py -q

It is no part of ./test: it needs root, lintian, debootstrap and Debian's archive, and takes some
minutes. ARBITER_RELEASE names a release that was made before. ARBITER_BASE names a folder of roots
that debootstrap made before, each by the name of its suite, which are copied. A root has no kit, no
file of this folder, Debian's packages alone, and no network when it has those. The services are
tried in a guest, which needs what ./test --kernel does.
"""
import json
import os
import re
import shutil
import subprocess
from pathlib import Path

import pytest

from kernel import packages, real_unit
from stand_in import version
from support import ROOT, same

SECONDS = 1800
SUITES, ARCHIVE = ("bookworm", "trixie"), "http://deb.debian.org/debian"
TARBALL = f"arbiter-{version()}-linux-x86_64"
NOBODY = "65534:65534"
NAMES = ("arbiter", "arbiter-check", "arbiter-host", "arbiter-scheduler", "libarbiter-dev",
         "libarbiter1")
# What the packages depend on, what a program over the library is made with, and pip.
NEEDED = ("python3", "python3-jinja2", "python3-rich", "python3-yaml", "gcc", "libc6-dev",
          "pkgconf", "systemd", "python3-venv")
LIBBPF = {"bookworm": "libbpf1/bookworm-backports", "trixie": "libbpf1"}
# Where dpkg and apt keep their books.
BOOKS = ("proc", "sys", "dev", "tmp", "debs", "var/log", "var/cache", "var/lib/apt", "var/lib/dpkg",
         "etc/ld.so.cache")
C_PROGRAM = r"""
#include <arbiter.h>
#include <stdio.h>
int main(void) {
  char name[17];
  arbiter_name(6, name, sizeof name);
  puts(name);
}
"""


def ended(*words, given=b"", **options):
    """A command that ended with status 0: its output."""
    found = subprocess.run([*map(str, words)], input=given, capture_output=True, timeout=SECONDS,
                           check=False, **options)
    assert found.returncode == 0, (words, found.stdout[-2000:], found.stderr[-2000:])
    return found.stdout.decode()


@pytest.fixture(scope="module")
def release(tmp_path_factory):
    """The folder of a release. A release is of a commit, so the clone has no changed file."""
    made = os.environ.get("ARBITER_RELEASE")
    if made:
        return Path(made)
    if ended("git", "-C", ROOT, "status", "--porcelain"):
        pytest.skip("a release is of a commit without a changed file")
    folder = tmp_path_factory.mktemp("release") / "one"
    ended(ROOT / "build", "--release", folder)
    return folder


@pytest.fixture(scope="module")
def debs(release):
    """The files of the packages."""
    return [path for name in NAMES for path in release.glob(f"{name}_{version()}_*")]


@pytest.fixture(scope="module", params=SUITES)
def suite(request):
    """A release of Debian."""
    return request.param


@pytest.fixture(scope="module")
def root(release, suite, tmp_path_factory):
    """A root of Debian with what the packages depend on, and the release in /debs."""
    if os.geteuid() != 0:
        pytest.skip("debootstrap needs root")
    folder = tmp_path_factory.mktemp("debian") / suite
    base = os.environ.get("ARBITER_BASE")
    if base:
        ended("cp", "-a", Path(base) / suite, folder)
    else:
        ended("debootstrap", "--variant=minbase", suite, folder, ARCHIVE)
    if "/" in LIBBPF[suite]:
        (folder / "etc/apt/sources.list.d/backports.list").write_text(
            f"deb {ARCHIVE} {suite}-backports main\n")
    needed = (*NEEDED, LIBBPF[suite])
    within(folder, "apt-get", "-y", "-q", "update", net=True)
    within(folder, "apt-get", "-y", "-q", "install", "--no-install-recommends", *needed, net=True)
    (folder / "debs").mkdir()
    for path in release.iterdir():
        shutil.copy(path, folder / "debs")
    yield folder
    shutil.rmtree(folder)


def within(folder, *words, given=b"", user="0:0", net=False):
    """The output of a command inside a root, from its top. It has no network but where that is
    said."""
    environment = {"PATH": "/usr/sbin:/usr/bin:/sbin:/bin", "HOME": "/", "LC_ALL": "C",
                   "DEBIAN_FRONTEND": "noninteractive"}
    alone = [] if net else ["unshare", "--net"]
    return ended(*alone, "chroot", f"--userspec={user}", folder, *words, given=given,
                 env=environment)


def apt(folder, *words):
    """apt-get inside a root."""
    return within(folder, "apt-get", "-y", "-q", *words)


def files_of(folder):
    """All paths of a root, but the books of dpkg and apt."""
    found = set()
    for at, folders, names in os.walk(folder):
        below = os.path.relpath(at, folder)
        folders[:] = [each for each in folders
                      if os.path.normpath(os.path.join(below, each)) not in BOOKS]
        found |= {os.path.normpath(os.path.join(below, each)) for each in folders + names}
    return found - set(BOOKS)


def test_a_release_is_twice_the_same(release, tmp_path):
    """Two runs of ./build --release give the same bytes, of the packages and the image too."""
    if ended("git", "-C", ROOT, "status", "--porcelain"):
        pytest.skip("a release is of a commit without a changed file")
    ended(ROOT / "build", "--release", tmp_path / "two")
    same(ended("diff", "-r", release, tmp_path / "two"), "", "what differs")
    same((len(list(release.iterdir())), (release / f"{TARBALL}.oci.tar").is_file()), (14, True),
         "files")


def test_what_was_proved(release):
    """Each crate of crates.txt is counted, and the files that came of proofs have their hashes."""
    found = json.loads((release / "PROVED.json").read_text())
    named = re.findall(r"^(\w+)[^#:\n]*:", (ROOT / "crates.txt").read_text(), re.M)
    same(sorted(found["crates"]), sorted(named), "crates")
    assert found["commit"] == ended("git", "-C", ROOT, "rev-parse", "HEAD").strip()
    assert min(each["functions"] for each in found["crates"].values()) > 0
    asked = (ROOT / "independent/Assumptions.v").read_text()
    same(found["coq_theorems_without_axioms"],
         re.findall(r"^Print Assumptions ([\w.]+)\.$", asked, re.M), "theorems of Coq")
    edits = sorted((path.parents[1].name, path.stem)
                   for path in ROOT.glob("crates/*/must-fail/*.edit"))
    same(sorted((crate, each) for crate, names in found["refused_edits"].items()
                for each in names), edits, "wrong bodies that were refused")
    same(sorted(found["files"]), ["bin/arbiter", "bin/arbiter-check", "bin/arbiter-script",
                                  "lib/libarbiter.a", f"lib/libarbiter.so.{version()}"], "files")


def test_all_packages(debs):
    same(len(debs), len(NAMES), "packages")


def test_lintian(debs):
    """lintian finds nothing of any severity. Each override stands below a comment."""
    # (three bytes of machine code may be a word that is spelled wrong)
    words = ["lintian", "--display-info", "--pedantic", "--fail-on", "error,warning,info,pedantic",
             "--suppress-tags", "spelling-error-in-binary"]
    same(ended(*words, *debs), "", "lintian")
    for path in (ROOT / "share/debian").glob("*.lintian-overrides"):
        lines = path.read_text().split("\n")[:-1]
        for before, line in zip(["", *lines], lines):
            assert line.startswith("#") or before.startswith("#"), f"{path.name}: {line}"


def test_contents(debs):
    """Copyright, changelog and sums are in each, and no file of the machine that made it."""
    for path in debs:
        name = path.name.partition("_")[0]
        listed = ended("dpkg-deb", "--contents", path)
        for file in ("copyright", "changelog.gz"):
            assert f" ./usr/share/doc/{name}/{file}" in listed, (name, file)
        assert "md5sums" in ended("dpkg-deb", "--info", path)
        owners = {line.split()[1] for line in listed.split("\n")[:-1]}
        same(owners, {"root/root"}, f"owners in {name}")
    depends = {path.name.partition("_")[0]: ended("dpkg-deb", "--field", path, "Depends")
               for path in debs}
    assert "libc6 (>= " in depends["arbiter"] and "libc6 (>= " in depends["libarbiter1"]
    assert f"libarbiter1 (= {version()})" in depends["libarbiter-dev"]
    assert "libbpf1 (>= 1:1.4" in depends["arbiter-scheduler"]
    for needed in ("python3:any (>= 3.11", "python3-jinja2", "python3-rich", "python3-yaml",
                   "libarbiter1"):
        assert needed in depends["arbiter-host"], needed


def pods(said, engine):
    """The answer about README's pods is of a library of the release, and its check accepted it."""
    found = json.loads(said)
    same((found["check"], found["engine"]), ("accepted", f"library {engine}"), "the answer")
    gets = {each["group"]: each["gets"]["millicpu"] for each in found["groups"]}
    same([gets["kubepods/burstable/shop:web"], gets["kubepods/shop:db"]], [1444, 500], "pods")


@pytest.fixture
def home(root):
    """The home of a user without rights inside a root: the output of a line that is typed there."""
    folder = root / "home/nobody"
    folder.mkdir()
    os.chown(folder, 65534, 65534)

    def typed(line):
        return within(root, "sh", "-c", f"export HOME=/home/nobody; cd; {line}", user=NOBODY)
    yield typed
    shutil.rmtree(folder)


def test_tarball_in_a_home(home):
    """What a user without rights types from the download to the first answer about pods."""
    home(f"tar xf /debs/{TARBALL}.tar.gz")
    bin_ = f"cd {TARBALL}; bin"
    explain = f"{bin_}/arbiterctl explain examples/pods.json examples/node.json --want busy"
    assert "1.444  2.100      -  [########....]" in home(explain)
    pods(home(f"{explain} -o json"), f"/home/nobody/{TARBALL}/lib/libarbiter.so.1")
    said = home(f"{bin_}/arbiter run < examples/two-groups.script")
    same(said.split("\n")[-2], "demand 0", "a script")
    for program in ("arbiter check", "arbiter-check"):
        said = home(f"{bin_}/{program} < examples/two-groups.certified")
        same(said, "accepted\n", program)


def test_wheel_in_a_venv(home, root):
    """pip finds what it needs in Debian's packages, and goes without a rest."""
    pip = "venv/bin/pip -q --no-input --disable-pip-version-check"
    home("python3 -m venv --system-site-packages venv")
    home(f"{pip} install --no-index /debs/*.whl")
    (place,) = root.glob("home/nobody/venv/lib/python3*/site-packages")
    home(f"tar xf /debs/{TARBALL}.tar.gz")
    said = home(f"cd {TARBALL}; ../venv/bin/arbiterctl explain examples/pods.json"
                " examples/node.json --want busy -o json")
    pods(said, f"/{(place / 'arbiter/libarbiter.so.1').relative_to(root)}")
    home(f"{pip} uninstall -y arbiter-host")
    same([path.name for path in place.rglob("*arbiter*") if path.is_file()], [], "left behind")


@pytest.fixture(scope="module")
def before(root):
    """The files of the root before the packages are there."""
    return files_of(root)


@pytest.fixture(scope="module")
def installed(root, before):
    """The root with the packages."""
    assert not any("arbiter" in path for path in before)
    apt(root, "install", "--no-install-recommends",
        *(f"/debs/{path.name}" for path in (root / "debs").glob("*.deb")))
    return root


def test_program_runs(installed):
    """A script is answered and a text checked, by a user without rights and without a kit."""
    examples = installed / "usr/share/doc/arbiter/examples"
    same(within(installed, "sh", "-c", "command -v rt || echo none"), "none\n", "the kit")
    same(within(installed, "arbiter", "--version", user=NOBODY), f"arbiter {version()}\n", "")
    said = within(installed, "arbiter", "run", "--processors", "4", "--slice", "1000", user=NOBODY,
                  given=(examples / "node.script").read_bytes())
    same(said, (examples / "node.transcript").read_text(), "the node's answers")
    said = within(installed, "arbiter", "check", user=NOBODY,
                  given=(examples / "two-groups.certified").read_bytes())
    same(said, "accepted\n", "the check")


def test_arbiterctl_runs(installed, request):
    """A tree of cgroups is imported and explained, by the library that is installed."""
    group = installed / "srv/cgroup/web.service"
    request.addfinalizer(lambda: shutil.rmtree(group.parent))
    group.mkdir(parents=True)
    (group.parent / "cgroup.controllers").write_text("cpu\n")
    (group.parent / "cgroup.subtree_control").write_text("cpu\n")
    for name, text in (("cpu.weight", "200"), ("cpu.max", "50000 100000"),
                       ("cpu.stat", "usage_usec 5")):
        (group / name).write_text(f"{text}\n")
    script = within(installed, "arbiterctl", "export", "/srv/cgroup", "--want", "busy",
                    "--cpus", "2", user=NOBODY)
    assert "write web.service cpu.weight 200\n" in script, script
    found = json.loads(within(installed, "arbiterctl", "explain", "-o", "json", "-",
                              given=script.encode(), user=NOBODY))
    assert found["engine"].endswith("libarbiter.so.1"), found["engine"]
    same(found["check"], "accepted", "the check")
    same([each["gets"]["millicpu"] for each in found["groups"]], [500, 500], "the plan")
    examples = "/usr/share/doc/arbiter/examples"
    said = within(installed, "arbiterctl", "explain", f"{examples}/pods.json",
                  f"{examples}/node.json", "--want", "busy", "-o", "json", user=NOBODY)
    pods(said, "libarbiter.so.1")
    said = within(installed, "arbiterctl", "--version").split("\n")
    same(said[0], f"arbiterctl {version()}", "--version")
    assert "library proved by rattle-kit" in said[1], said
    same(within(installed, "python3", "-c", "import arbiter_host as a; print(a.__version__)"),
         f"{version()}\n", "the package")


def test_scheduler_runs(installed):
    """Its loader finds its libraries, and loads nothing for a user."""
    said = within(installed, "sh", "-c", "PATH=/usr/sbin:$PATH; arbiter-scheduler /tmp 2>&1 || :",
                  user=NOBODY)
    same(said, "arbiter-scheduler: only root may load a scheduler\n", "the loader")


def test_library_is_linked_with(installed):
    """A C program is made with the header and pkg-config, and runs."""
    (installed / "tmp/a.c").write_text(C_PROGRAM)
    command = "cc /tmp/a.c -o /tmp/a $(pkg-config --cflags --libs arbiter) && /tmp/a"
    same(within(installed, "sh", "-c", command), "BadWeight\n", "the program")
    static = "cc /tmp/a.c -o /tmp/b -l:libarbiter.a && /tmp/b"
    same(within(installed, "sh", "-c", static), "BadWeight\n", "the static library")


def test_completions_and_pages(installed):
    """bash knows the completions, and each command has its man pages."""
    for name in ("arbiter", "arbiterctl"):
        path = f"/usr/share/bash-completion/completions/{name}"
        said = within(installed, "bash", "-c", f". {path}; complete -p {name}")
        assert said.startswith("complete ") and "-o default" in said, said
    listed = within(installed, "dpkg", "-L", "arbiter", "arbiter-host")
    pages = [Path(line).name for line in listed.split("\n") if "/man1/" in line]
    wanted = ["arbiter.1.gz", *(f"{path.name}.gz" for path in (ROOT / "share/man").iterdir())]
    same(sorted(pages), sorted(wanted), "man pages")
    assert {f"/usr/share/arbiter/{name}" for name in ("grafana.json", "alerts.yml")} <= set(
        listed.split("\n"))


@pytest.mark.parametrize("name", ["arbiter-hold.service", "arbiter-schedule.service"])
def test_units_are_not_enabled(installed, name):
    """The service that holds or serves a plan is there, and nothing begins it."""
    assert (installed / "lib/systemd/system" / name).is_file()
    assert not list((installed / "etc/systemd").rglob(name))


@pytest.fixture(scope="module")
def booted(installed, suite):
    """The root that a guest boots; its services are tried in that of one release."""
    if suite != SUITES[0]:
        pytest.skip("the services are tried in one root")
    if packages.missing():
        pytest.skip(packages.missing())
    return installed


@pytest.fixture(scope="module")
def told(booted):
    """What the service did under systemd."""
    return real_unit.shown_by(packages.kernel("6.12"), booted)


FREE = {"a": "100 max 100000", "b": "300 max 100000"}
# 25 and 75 of 100 slices by weights 100 and 300 are the plan of groups that always want. A 128th
# above it is written.
HELD = {"a": "100 25195 100000", "b": "300 75585 100000"}


@pytest.mark.parametrize("name, state, result, files", [
    ("before", "inactive dead", "success", FREE),
    ("held", "active running", "success", HELD),
    ("reloaded", "active running", "success", HELD),
    ("stopped", "inactive dead", "success", FREE),
    ("killed", "activating auto-restart", "signal", FREE),
    ("held again", "active running", "success", HELD),
    ("stood still", "activating auto-restart", "watchdog", FREE),
    ("end", "inactive dead", "success", FREE)])
def test_service_under_systemd(told, name, state, result, files):
    """It is ready when it has written, and holds after a daemon-reload. What stood is back after a
    stop, a kill and a loop that stood still, without an undo file; after these it begins again."""
    step = told.steps[name]
    same(" ".join(step.properties[key] for key in ("ActiveState", "SubState")), state, name)
    same(step.properties["Result"], result, name)
    same(step.files, files, name)
    same(step.has_undo, files == HELD, name)


def test_service_says_why_it_failed(told):
    """A tree that is not there is named in the journal."""
    same(told.steps["no tree"].properties["Result"], "exit-code", "the end")
    assert any("work.slice/none" in line for line in told.said), told.said


def test_service_begins_again(told):
    """systemd began it once after the kill, and shows its rounds; nothing else was seen."""
    same(told.steps["held again"].properties["NRestarts"], "1", "restarts")
    assert told.steps["held"].properties["StatusText"].startswith("round ")
    same(told.lacks, [], "lacks")


@pytest.fixture(scope="module")
def scheduled(booted):
    """What the other service did, on a kernel that takes a scheduler."""
    return real_unit.shown_by(packages.kernel(packages.NEWEST), booted, "arbiter-schedule",
                              real_unit.SCHEDULED)


@pytest.mark.parametrize("name, state, result, kernel", [
    ("before", "inactive dead", "success", "disabled"),
    ("served", "active running", "success", "enabled"),
    ("stopped", "inactive dead", "success", "disabled"),
    ("killed", "activating auto-restart", "signal", "disabled"),
    ("no loader", "activating auto-restart", "exit-code", "disabled"),
    ("served again", "active running", "success", "enabled"),
    ("by limits", "inactive dead", "success", "disabled")])
def test_schedule_under_systemd(scheduled, name, state, result, kernel):
    """It is ready when the kernel serves the plan. Weights rule after a stop, after a kill of the
    loop or of its loader, which begin again, and while limits hold. Nothing is written to a group.
    """
    step = scheduled.steps[name]
    same(" ".join(step.properties[key] for key in ("ActiveState", "SubState")), state, name)
    same((step.properties["Result"], step.state), (result, kernel), name)
    if name != "by limits":
        same((step.files, step.has_undo), (FREE, False), name)
    same(scheduled.lacks, [], "lacks")


def test_schedule_has_few_rights(scheduled):
    """Its loader has CAP_PERFMON and CAP_BPF and a filter of calls. Groups of weights 100 and 300
    have a quarter and three of what both have."""
    same({name: scheduled.status[name] for name in ("CapBnd", "CapEff", "NoNewPrivs", "Seccomp")},
         {"CapBnd": f"{3 << 38:016x}", "CapEff": f"{3 << 38:016x}", "NoNewPrivs": "1",
          "Seccomp": "2"}, "the loader")
    one, two = (later - before for before, later in zip(scheduled.used, scheduled.used[2:]))
    assert abs(one / (one + two) - 1 / 4) < 0.03, scheduled.used


def test_purge_leaves_nothing(installed, before):
    """After a purge no file is left, and none is missing."""
    apt(installed, "purge", *NAMES)
    after = files_of(installed)
    same((sorted(after - before), sorted(before - after)), ([], []), "left, and missing")
    books = [path.name for path in (installed / "var/lib/dpkg/info").iterdir()
             if "arbiter" in path.name]
    same(books, [], "dpkg's books")


# The image


# Where controllers are of both versions of cgroups, as here, the container sees the second alone.
OF_ONE_VERSION = ("mount --make-rprivate /; if [ -d /sys/fs/cgroup/unified ]; then"
                  " umount -R /sys/fs/cgroup && mount -t cgroup2 none /sys/fs/cgroup; fi; ")


@pytest.fixture(scope="module")
def podman(release, tmp_path_factory):
    """podman with the image of the release alone: the output of a container."""
    if not shutil.which("podman") or os.geteuid() != 0:
        pytest.skip("no podman, or no root for it")
    folder = tmp_path_factory.mktemp("podman")
    words = ["podman", "--root", folder / "root", "--runroot", folder / "run",
             "--storage-driver", "vfs"]
    try:
        loaded = ended(*words, "load", "-i", release / f"{TARBALL}.oci.tar")
        assert f"/arbiter:{version()}" in loaded, loaded

        def runs(*command, given=b""):
            limits = ("--ulimit=nofile=1024:1024", "--ulimit=nproc=1024:1024", "--cgroups=disabled")
            return ended("unshare", "--mount", "sh", "-c", f'{OF_ONE_VERSION}exec "$@"', "sh",
                         *words, "run", "--rm", "-i", "--network=none", "--read-only",
                         "--cap-drop=all", *limits, *command, given=given)
        yield runs
    finally:
        ended(*words, "rmi", "--all", "--force")
        shutil.rmtree(folder)


def test_image_runs(podman):
    """README's first commands, by nobody, without capabilities, on files that are read only."""
    name = f"arbiter:{version()}"
    said = podman("--entrypoint=arbiter", name, "run",
                  given=(ROOT / "examples/two-groups.script").read_bytes())
    same(said.split("\n")[-2], "demand 0", "a script")
    said = podman("--entrypoint=arbiter", name, "check",
                  given=(ROOT / "examples/two-groups.certified").read_bytes())
    same(said, "accepted\n", "the check")
    explain = (name, "explain", "examples/pods.json", "examples/node.json", "--want", "busy")
    assert "1.444  2.100      -  [########....]" in podman(*explain)
    pods(podman(*explain, "-o", "json"), "libarbiter.so.1")
    same(podman("--entrypoint=id", name, "-u"), "65534\n", "the user")
    assert "Client Version" in podman("--entrypoint=kubectl", name, "version", "--client")
    same(podman("--entrypoint=python3", name, "-c", "import arbiter_host, prometheus_client as p;"
                "print(p.__name__)"), "prometheus_client\n", "what `top` serves with")
