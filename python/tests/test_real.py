"""What real systems printed: fixtures/real/README.md has their versions and the commands."""
import json
import re
from fractions import Fraction

import pytest
import reading
import yaml
from arbiter import Host
from arbiter_host.sources import change, load, slurm, usage
from places import PACKAGE

REAL, EXAMPLES = PACKAGE / "tests/fixtures/real", PACKAGE.parent / "examples/hosts"
HOST = Host(4, 100000, 1000)
TRAIN, LOOSE, SWEEP = "alice:train:2", "bob:loose:4", "bob:sweep:3_1"


def place(name):
    """Where a file is: those that are examples too stand there."""
    return next(folder / name for folder in (REAL, EXAMPLES) if (folder / name).exists())


def files(*names):
    """Files as a source has them."""
    return [(name, place(name).read_bytes()) for name in names]


def rows(model):
    """Demand and tasks of each group."""
    return {path: (each.demand, each.tasks) for path, each in model.groups.items()}


def written(ctl, folder, form, *words):
    """The one file that a form of `apply` writes."""
    ctl.run("apply", *words, "--cpus", "4", "-o", f"{form}={folder}/out/")
    path, = (each for each in (folder / "out").rglob("*") if each.is_file())
    return path.read_text()


# Slurm 22.05


def test_jobs_of_a_queue():
    """Two CPUs of four for train, one for each of the others. Held and pending ones have none."""
    model = reading.jobs(files("squeue.json", "sinfo.json"), None)
    assert model.host == Host(4, 1000000, 1000)
    assert rows(model) == {TRAIN: (2000, 2), LOOSE: (1000, 1), SWEEP: (1000, 1)}
    assert model.groups[SWEEP].place == f"{slurm.TOP}/job_5"
    assert model.notes == [
        "jobs and steps that do not run, left out: 3",
        "allotted cores of their own: alice/train/2, bob/sweep/3_1, bob/loose/4: where Slurm binds"
        " tasks to them (TaskPlugin), what others leave idle does not reach a job"]


def test_accounts_of_jobs_that_run():
    """No step that runs has a TotalCPU yet. 0.476 s of train are those of a step that has ended."""
    model = reading.jobs(files("sacct.txt", "sinfo.json"), None)
    assert rows(model) == {TRAIN: (2000, 2), LOOSE: (1000, 1), SWEEP: (1000, 1)}
    assert "jobs whose use is not accounted yet: 3" in model.notes[0]


def test_use_of_steps_that_run():
    """10 s in 88 s are 113.636m. A task of an array is `3_1` and, in sstat, job 5."""
    model = reading.jobs(files("squeue.json", "sacct.txt", "sstat.txt", "sinfo.json"), None)
    assert rows(model) == {
        TRAIN: (0, None), f"{TRAIN}/step_batch": (0, 2),
        f"{TRAIN}/step_1": (Fraction(10 * 10**6 // 88, 1000), 2),
        LOOSE: (0, None), f"{LOOSE}/step_batch": (0, 1), f"{LOOSE}/step_0": (0, 1),
        SWEEP: (0, None), f"{SWEEP}/step_batch": (0, 1)}
    assert not [each for each in model.notes if "accounted" in each]


def test_sacctmgr_took_the_line(ctl, folder):
    """The limit of a job is one of its user, and where Slurm heeds it is told."""
    source = (place("squeue.json"), place("sinfo.json"), "--set", "alice/train/2.max=2cpu")
    assert written(ctl, folder, "slurm", *source).endswith(
        "\nsacctmgr -i modify user where name=alice set MaxTRESPerJob=cpu=2\n")
    told = ctl.run("apply", *source, "-o", "slurm")[1]
    assert "where AccountingStorageEnforce has limits" in told


@pytest.mark.parametrize("name, kind", [
    ("squeue.json", "slurm"), ("sinfo.json", "slurm"), ("sacct.txt", "slurm"),
    ("sstat.txt", "slurm"), ("units.show", "systemd"), ("podman-inspect.json", "docker"),
    ("deployment.json", "kubernetes"),
])
def test_kinds(name, kind):
    """Each is known by its bytes."""
    assert load.kind_of("-", place(name).read_bytes()) == kind


# systemd 252


def shares_of(line):
    """Folder, shares and quota of a line of `units-cgroups.txt`."""
    folder, shares, quota = line.rsplit(" ", 2)
    return folder.removesuffix("/cpu.shares"), int(shares), int(quota)


def test_units():
    """Limits and weights are those that the kernel had: 1024 shares are a weight of 100."""
    model = reading.units(files("units.show"), HOST)
    lines = (REAL / "units-cgroups.txt").read_text().splitlines()
    found = {folder: (shares, quota) for folder, shares, quota in map(shares_of, lines)}
    del found["cpu.shares"]  # (the host)
    assert {each.place: (1024 * each.weight // 100, each.quota or -1)
            for each in model.groups.values()} == found
    assert model.groups["app.slice/db.service"].title == "A database"
    assert model.groups["system.slice/web.service"].tasks == 1
    assert model.notes == ["bound to CPUs: system.slice/web.service: each has as many at most;"
                           " which they are, and who else is on them, the plan does not know"]


def test_systemd_took_the_dropin(ctl, folder):
    """What is written is what systemd had, and it has the weight and the quota."""
    text = written(ctl, folder, "dropin", place("units.show"), "--set",
                   "web.service.CPUWeight=300", "--set", "web.service.CPUQuota=250%")
    assert text == (REAL / "50-arbiter.conf").read_text()
    assert (REAL / "units-after.txt").read_text().splitlines()[:3] == [
        "CPUWeight=300", "CPUQuotaPerSecUSec=2.500000s", "CPUQuotaPeriodUSec=100ms"]


# Podman 4.3


def test_containers(engine):
    """Folders, shares and quotas are those that the kernel had. One that never ran has none."""
    model = reading.docker(files("podman-inspect.json"), HOST, engine.library)
    text = (REAL / "podman-cgroups.txt").read_text()
    found = {path: int(number) for path, number in re.findall(r"(?m)^(\S+): (-?\d+) ?$", text)}
    for path, group in model.groups.items():
        if path == "libpod_parent":
            continue
        folder = group.place.removeprefix("libpod_parent/")
        shares, quota = found[f"{folder}/cpu.shares"], found[f"{folder}/cpu.cfs_quota_us"]
        assert (group.quota or -1) == quota
        assert group.weight == (engine.library.weight_of_shares(shares, "linear")
                                if shares != 1024 else 100)
    assert list(model.groups) == ["libpod_parent", *(f"libpod_parent/{name}" for name in (
        "web", "job", "pinned"))]
    assert "bound to CPUs: libpod_parent/pinned" in model.notes[1]


@pytest.mark.parametrize("name", ["podman-stats.json", "podman-stats.txt"])
def test_use_of_containers(name):
    """One with a quota of a fifth of a CPU used about that. One that does not run is left out."""
    found = {each.container: each for each in usage.read(*reversed(files(name)[0]))}
    assert sorted(found) == ["job", "pinned", "web"]
    assert 180 < found["job"].amounts[0] < 200
    assert found["job"].identifier == json.loads(
        (REAL / "podman-inspect.json").read_text())[1]["Id"][:12]


# kubectl 1.20


@pytest.mark.parametrize("words, patch, patched", [
    (("nginx.request=300m", "nginx.limit=1cpu", "envoy.request=120m"), "patch.yaml",
     "patched.json"),
    (("nginx.limit=none", "envoy.limit=500m"), "patch-none.yaml", "patched-none.json"),
])
def test_kubectl_took_the_patch(ctl, engine, folder, words, patch, patched):
    """What is written is what kubectl had, and its result has the weights and limits asked for."""
    sets = [f"prod/web/{each}" for each in words]
    text = written(ctl, folder, "kubectl", REAL / "deployment.json",
                   *(word for each in sets for word in ("--set", each)))
    assert text == (REAL / patch).read_text()
    before, found = (reading.pods(files(name), HOST, engine.library)
                     for name in ("deployment.json", patched))
    wanted = change.changed(before, sets)
    for each in (*found.groups.values(), *wanted.groups.values()):
        each.demand = Fraction(0)  # (a request that is changed is no demand)
    assert found.groups == wanted.groups != before.groups


# docker-compose 1.29


def test_compose_took_the_override(ctl, folder):
    """What is written is what docker-compose had, and its services have what is asked for."""
    words = ("shop-web-1.cpus=2", "shop-web-1.cpu-shares=1024", "shop-job-1.cpus=0.5")
    text = written(ctl, folder, "compose", place("compose-inspect.json"),
                   *(word for each in words for word in ("--set", each)))
    assert text == (REAL / "shop.override.yaml").read_text()
    found = yaml.safe_load((REAL / "compose-config.yaml").read_text())["services"]
    assert found["web"] == {"cpu_shares": 1024, "cpus": 2, "image": "nginx:1.25"}
    assert found["job"] == {"cpu_period": 100000, "cpu_quota": 50000, "image": "busybox"}
