"""`apply -o`: what each form writes, read back by a real parser; what it refuses; where it
writes."""
import configparser
import copy
import json
import os
import shutil
import stat
import subprocess

import pytest
import yaml
from arbiter_host import exports
from arbiter_host import options
from arbiter_host.base import units
from arbiter_host.base.atomic_files import Document
from arbiter_host.base.faults import HostFault
from places import PACKAGE

FIXTURES = PACKAGE / "tests/fixtures"
UNITS, PODS, NODE = (FIXTURES / name for name in ("units.show", "pods.json", "node.json"))
SSH = "system.slice/ssh.service"
SSH_CHANGE = ["--set", f"{SSH}.weight=300", "--set", f"{SSH}.max=150%"]


def applied(ctl, folder, form, *words, status=0, to="out/"):
    """What a form wrote below a folder, by name, and what was told."""
    _, err = ctl.run("apply", *words, "-o", f"{form}={folder}/{to}", status=status)
    top = folder / "out"
    found = {str(path.relative_to(top)): path.read_text() for path in sorted(top.rglob("*"))
             if path.is_file()} if top.is_dir() else {}
    return found, err


def unit_file(text):
    """The sections of a unit's drop-in. Their keys keep their letters."""
    parser = configparser.RawConfigParser(strict=True)
    parser.optionxform = str
    parser.read_string(text)
    return {name: dict(parser[name]) for name in parser.sections()}


def test_dropin(ctl, folder):
    """The lines of what changes, in the section of the unit's kind."""
    found, err = applied(ctl, folder, "dropin", UNITS, "--cpus", "4", *SSH_CHANGE,
                         "--set", "system.slice.weight=50")
    assert {name: unit_file(text) for name, text in found.items()} == {
        "ssh.service.d/50-arbiter.conf": {"Service": {
            "CPUWeight": "300", "CPUQuota": "150%", "CPUQuotaPeriodSec": "100000us"}},
        "system.slice.d/50-arbiter.conf": {"Slice": {"CPUWeight": "50"}}}
    assert f"wrote {folder}/out/ssh.service.d/50-arbiter.conf" in err
    assert found["ssh.service.d/50-arbiter.conf"].split("\n")[1] == (
        "# system.slice/ssh.service: weight 200, max 50000 100000, burst 0 -> weight 300, max"
        " 150000 100000, burst 0")
    modes = [stat.S_IMODE((folder / "out" / name).stat().st_mode)
             for name in ("ssh.service.d/50-arbiter.conf", "ssh.service.d", "")]
    assert modes == [0o600, 0o700, 0o700]


def test_dropin_of_a_scope(ctl, folder):
    """A container's unit is a scope: its drop-in is written, and told to pass with it."""
    found, err = applied(ctl, folder, "dropin", FIXTURES / "docker.json", "--cpus", "4", "--set",
                         "*/web.weight=7")
    name, = found
    assert name == f"docker-{'01' * 32}.scope.d/50-arbiter.conf"
    assert unit_file(found[name]) == {"Scope": {"CPUWeight": "7"}}
    assert "system.slice/web: its unit is a scope, which is gone" in err


def test_dropin_is_taken_by_systemd(ctl, folder):
    """systemd-analyze reads the drop-in, and says nothing of it; it tells of one that is wrong."""
    if shutil.which("systemd-analyze") is None:
        pytest.skip("no systemd-analyze")
    applied(ctl, folder, "dropin", UNITS, "--cpus", "4", *SSH_CHANGE)
    (folder / "out/ssh.service").write_text("[Service]\nExecStart=/bin/true\n")

    def said():
        ended = subprocess.run(["systemd-analyze", "verify", folder / "out/ssh.service"],
                               capture_output=True, text=True, timeout=60, check=False)
        return [line for line in (ended.stdout + ended.stderr).split("\n") if "arbiter" in line]

    assert said() == []
    wrong = folder / "out/ssh.service.d/50-arbiter.conf"
    wrong.write_text(wrong.read_text().replace("CPUWeight=300", "CPUWeight=30000"))
    assert len(said()) == 1


def test_no_quota_takes_the_old_one_back(ctl, folder):
    found, _ = applied(ctl, folder, "dropin", UNITS, "--cpus", "4", "--set", f"{SSH}.max=max")
    assert unit_file(found["ssh.service.d/50-arbiter.conf"])["Service"] == {
        "CPUQuota": "", "CPUQuotaPeriodSec": "100000us"}


@pytest.mark.parametrize("script, change, words", [
    ("mkdir box", "box.weight=7", "box: its group is none of a unit"),
    ("mkdir a.service", "a.service.burst=1ms", "a burst: units have no setting"),
    ("mkdir a.service", "a.service.max=12.345%", "two decimals of a percent, and 12345 in 100000"
     " microseconds has more"),
    ("mkdir a.service", "a.service.max=1000 300000", "and 1000 in 300000 microseconds has more"),
    ("mkdir a-b.slice", "a-b.slice.weight=7", "none of a unit by its path"),
    ("mkdir user.slice\nmkdir user.slice/u@1.service\nmkdir user.slice/u@1.service/x.service",
     "user.slice/u@1.service/x.service.weight=7", "none of a unit by its path"),
    ("mkdir one.slice\nmkdir one.slice/a.service\nmkdir a.service", "*a.service.weight=7",
     "has the unit a.service too"),
])
def test_what_units_cannot_say(ctl, folder, script, change, words):
    """It is refused by name, and nothing is written."""
    (folder / "b.script").write_text(f"# arbiter run --processors 4\n{script}\n")
    if "burst" in change:
        with open(folder / "b.script", "a", encoding="utf-8") as file:
            file.write("write a.service cpu.max 50000 100000\n")
    found, err = applied(ctl, folder, "dropin", folder / "b.script", "--set", change, status=1)
    assert "-o dropin cannot say this, so nothing is written" in err and words in err
    assert found == {} and not (folder / "out").exists()


# compose

def containers(folder, **changes):
    """`docker inspect` of a project of compose: web twice, db, and a container of none."""
    raw = json.loads((FIXTURES / "docker.json").read_text())
    names = {"/web": "web", "/db": "db"}
    for each in raw:
        if each["Name"] in names:
            each["Config"]["Labels"] = {
                "com.docker.compose.project": "shop", **changes,
                "com.docker.compose.service": names[each["Name"]]}
    twin = copy.deepcopy(raw[0])
    twin["Id"], twin["Name"] = "07" * 32, "/web-2"
    (folder / "c.json").write_text(json.dumps([*raw, twin]))
    return folder / "c.json"


def test_compose(ctl, folder):
    """web has `cpus`, 2 CPUs and shares of weight 200; db has a quota, whose key stays."""
    found, _ = applied(ctl, folder, "compose", containers(folder), "--cpus", "4", "--set",
                       "*/web*.max=2cpu", "--set", "*/web*.weight=200", "--set", "*/db.max=50%")
    assert list(found) == ["shop.override.yaml"]
    assert "# Compose takes no `cpus` beside deploy.resources" in found["shop.override.yaml"]
    data = yaml.safe_load(found["shop.override.yaml"])
    shares = data["services"]["web"].pop("cpu_shares")
    assert data == {"services": {"web": {"cpus": 2},
                                 "db": {"cpu_quota": 25000, "cpu_period": 50000}}}
    # 1 + (shares - 2) * 9999 / 262142, rounded down: 5220 shares are the first that give 200.
    assert [1 + (each - 2) * 9999 // 262142 for each in (shares - 1, shares)] == [199, 200]


def test_shares_of_each_weight(calls):
    """The least shares of a weight give it back; log has no shares for some small weights."""
    for conversion, name in (("linear", "linear"), ("log", "logarithmic")):
        for weight in (1, 2, 3, 39, 100, 137, 5000, 10000):
            shares = units.least_of(calls, units.OF_SHARES[conversion], weight)
            if shares is not None:
                assert calls.weight_of_shares(shares, name) == weight
                assert shares == 2 or calls.weight_of_shares(shares - 1, name) < weight
            else:
                assert conversion == "log"


@pytest.mark.parametrize("labels, change, words", [
    ({}, ["*/job.weight=7"], "job: no service of compose"),
    ({}, ["*/web.max=1cpu"], "web-2: is of the service web too, and does not change"),
    ({}, ["*/web.max=1cpu", "*/web-2.max=3cpu"], "the service web is to have two settings"),
    ({}, ["*/web*.burst=1ms"], "a burst: compose has no key"),
    ({"com.docker.compose.project": "../../etc"}, ["*/db.max=1cpu"], "no service of compose"),
    ({"com.docker.compose.project": "a\nb"}, ["*/db.max=1cpu"], "no service of compose"),
    ({}, ["*/web*.max=50000 50000"], "`cpus` has a period of 100000, not 50000"),
])
def test_what_compose_cannot_say(ctl, folder, labels, change, words):
    changes = [word for each in change for word in ("--set", each)]
    found, err = applied(ctl, folder, "compose", containers(folder, **labels), "--cpus", "4",
                         *changes, status=1)
    assert words in err and found == {}


# kubectl-patch

def owned(pods, name, kind, owner, labels=None):
    """Gives the pod of a name an owner."""
    pod = next(each for each in pods["items"] if each["metadata"]["name"] == name)
    pod["metadata"]["ownerReferences"] = [{"kind": kind, "name": owner, "controller": True}]
    pod["metadata"]["labels"] = labels or {}
    return pod


def cluster(folder):
    """pods.json whose web is of a Deployment, and db of a StatefulSet."""
    pods = json.loads(PODS.read_text())
    owned(pods, "web-7c9f", "ReplicaSet", "web-5d9c", {"pod-template-hash": "5d9c"})
    owned(pods, "db-0", "StatefulSet", "db")
    (folder / "pods.json").write_text(json.dumps(pods))
    return pods


def resources(pods, pod, container):
    """The resources of a container."""
    found = next(each for each in pods["items"] if each["metadata"]["name"] == pod)
    return next(each for each in found["spec"]["containers"]
                if each["name"] == container)["resources"]


def patched(ctl, folder, pods, *words, status=0):
    """What is written for the way from pods.json to these pods."""
    (folder / "after.json").write_text(json.dumps(pods))
    return applied(ctl, folder, "kubectl", folder / "pods.json", NODE, folder / "after.json",
                   NODE, *words, status=status)


def test_patches_of_owners(ctl, folder):
    """A Deployment by the pod's hash, a StatefulSet, and a Pod that nothing owns."""
    pods = cluster(folder)
    resources(pods, "web-7c9f", "nginx")["requests"]["cpu"] = "1"
    resources(pods, "web-7c9f", "nginx")["limits"]["cpu"] = "2500m"
    resources(pods, "db-0", "postgres")["limits"]["cpu"] = "3"
    resources(pods, "db-0", "postgres")["requests"]["cpu"] = "3"
    found, err = patched(ctl, folder, pods)
    data = {name: yaml.safe_load(text) for name, text in found.items()}
    assert data == {
        "prod.deployment.web.yaml": {
            "apiVersion": "apps/v1", "kind": "Deployment",
            "metadata": {"name": "web", "namespace": "prod"},
            "spec": {"template": {"spec": {"containers": [{"name": "nginx", "resources": {
                "requests": {"cpu": "1000m"}, "limits": {"cpu": "2500m"}}}]}}}},
        "prod.statefulset.db.yaml": {
            "apiVersion": "apps/v1", "kind": "StatefulSet",
            "metadata": {"name": "db", "namespace": "prod"},
            "spec": {"template": {"spec": {"containers": [{"name": "postgres", "resources": {
                "requests": {"cpu": "3000m"}, "limits": {"cpu": "3000m"}}}]}}}}}
    assert "kubectl -n prod patch deployment web --patch-file prod.deployment.web.yaml" in (
        found["prod.deployment.web.yaml"])
    assert "Deployment prod/web: the patch changes all its pods, on all nodes" in err


def test_patch_of_a_pod(ctl, folder):
    """Nothing owns db-0 any more: the pod itself is resized, which is told."""
    pods = cluster(folder)
    del owned(pods, "db-0", "Job", "db")["metadata"]["ownerReferences"]
    (folder / "pods.json").write_text(json.dumps(pods))
    for key in ("requests", "limits"):
        resources(pods, "db-0", "postgres")[key]["cpu"] = "3"
    found, err = patched(ctl, folder, pods)
    assert yaml.safe_load(found["prod.pod.db-0.yaml"]) == {
        "apiVersion": "v1", "kind": "Pod", "metadata": {"name": "db-0", "namespace": "prod"},
        "spec": {"containers": [{"name": "postgres", "resources": {
            "requests": {"cpu": "3000m"}, "limits": {"cpu": "3000m"}}}]}}
    assert "patch pod db-0 --subresource resize --patch-file" in found["prod.pod.db-0.yaml"]
    assert "Pod prod/db-0: nothing owns it whose template may change" in err


@pytest.mark.parametrize("owner", ["", "ReplicaSet", "StatefulSet"])
def test_another_class(ctl, folder, owner):
    """A first request moves a pod out of besteffort. What owns pods makes them anew; a pod alone
    keeps its class."""
    pods = cluster(folder)
    if owner:
        owned(pods, "report-x", owner, "report", {"pod-template-hash": "none"})
        (folder / "pods.json").write_text(json.dumps(pods))
    resources(pods, "report-x", "report")["requests"] = {"cpu": "250m"}
    report = next(each for each in pods["items"] if each["metadata"]["name"] == "report-x")
    report["status"]["qosClass"] = "Burstable"
    found, err = patched(ctl, folder, pods, status=0 if owner else 1)
    path = "kubepods/besteffort/batch:report-x/report"
    if not owner:
        assert found == {} and err.count("arbiterctl: ") == 2
        assert f"{path}: the class of its pod would be another, and a pod keeps its own" in err
        return
    (text,) = found.values()
    assert yaml.safe_load(text)["spec"]["template"]["spec"]["containers"] == [
        {"name": "report", "resources": {"requests": {"cpu": "250m"}}}]
    assert (f"{owner} batch/report: with another class its pods are made anew:"
            " kubepods/burstable/batch:report-x/report") in err
    assert "only before" not in err
    # `--set` says the same.
    words = ("--set", "batch/report-x/report.request=250m", "-o", "kubectl")
    assert (yaml.safe_load(ctl.run("apply", folder / "pods.json", NODE, *words)[0])
            == yaml.safe_load(text))


def test_static_pods_are_refused(ctl, folder):
    """Kubernetes has a mirror of them alone: no patch of it reaches kubelet."""
    pods = cluster(folder)
    report = next(each for each in pods["items"] if each["metadata"]["name"] == "proxy-1")
    report["metadata"]["annotations"] = {"kubernetes.io/config.mirror": "7c9f"}
    (folder / "pods.json").write_text(json.dumps(pods))
    found, err = applied(ctl, folder, "kubectl", folder / "pods.json", NODE, "--set",
                         "prod/proxy-1/app.request=400m", status=1)
    assert found == {} and "Pod prod/proxy-1 is a static pod: its file on the node says" in err


def test_out_of_guaranteed(ctl, folder):
    """A request below the limit: the limit stays, and burstable has 500m more in its sum."""
    pods = cluster(folder)
    found, err = applied(ctl, folder, "kubectl", folder / "pods.json", NODE, "--set",
                         "prod/db-0/postgres.request=500m")
    assert yaml.safe_load(found["prod.statefulset.db.yaml"])["spec"]["template"]["spec"] == {
        "containers": [{"name": "postgres", "resources": {"requests": {"cpu": "500m"}}}]}
    assert resources(pods, "db-0", "postgres")["limits"]["cpu"] == "1"
    assert "kubepods/burstable/prod:db-0/postgres" in err


def test_settings_that_people_own(ctl, folder):
    """`--set` of a request, of docker's cpus and shares, and of a unit's quota, as it was asked."""
    cluster(folder)
    os.mkdir(folder / "out", 0o700)
    found, _ = applied(ctl, folder, "kubectl", folder / "pods.json", NODE, "--set",
                       "prod/web-7c9f/nginx.request=1cpu", to="out/k/")
    data = yaml.safe_load(found["k/prod.deployment.web.yaml"])
    assert data["spec"]["template"]["spec"]["containers"] == [
        {"name": "nginx", "resources": {"requests": {"cpu": "1000m"}}}]
    found, _ = applied(ctl, folder, "compose", containers(folder), "--cpus", "4", "--set",
                       "*/web*.cpus=2", "--set", "*/db.cpu-shares=512", to="out/c/")
    assert yaml.safe_load(found["c/shop.override.yaml"])["services"] == {
        "web": {"cpus": 2}, "db": {"cpu_shares": 512}}
    shares, _ = applied(ctl, folder, "compose", containers(folder), "--cpus", "4", "--set",
                        "*/db.cpu-shares=512", to="out/s/")
    assert "deploy.resources" not in shares["s/shop.override.yaml"]
    found, _ = applied(ctl, folder, "dropin", UNITS, "--cpus", "4", "--set",
                       f"{SSH}.CPUQuota=75%", to="out/d/")
    assert unit_file(found["d/ssh.service.d/50-arbiter.conf"])["Service"] == {
        "CPUQuota": "75%", "CPUQuotaPeriodSec": "100000us"}


def test_a_request_that_changes_no_weight_of_its_container(ctl, folder):
    """255m has weight 10 as 250m has, but it is written: it was asked for."""
    pods = cluster(folder)
    resources(pods, "web-7c9f", "nginx")["requests"]["cpu"] = "255m"
    found, _ = patched(ctl, folder, pods)
    data = yaml.safe_load(found["prod.deployment.web.yaml"])
    assert data["spec"]["template"]["spec"]["containers"] == [
        {"name": "nginx", "resources": {"requests": {"cpu": "255m"}}}]


def test_a_limit_alone_is_no_request(ctl, folder):
    """A container with a limit alone requests that much: it goes on to, whatever the new limit."""
    pods = cluster(folder)
    del resources(pods, "web-7c9f", "metrics")["requests"]
    (folder / "pods.json").write_text(json.dumps(pods))
    resources(pods, "web-7c9f", "metrics")["limits"]["cpu"] = "500m"
    resources(pods, "web-7c9f", "metrics")["requests"] = {"cpu": "200m"}
    found, _ = patched(ctl, folder, pods)
    data = yaml.safe_load(found["prod.deployment.web.yaml"])
    assert data["spec"]["template"]["spec"]["containers"] == [
        {"name": "metrics", "resources": {"requests": {"cpu": "200m"}, "limits": {"cpu": "500m"}}}]


def test_all_pods_of_an_owner(ctl, folder):
    """A patch reaches both of web's pods, so a change of one alone is refused by the other."""
    pods = cluster(folder)
    twin = copy.deepcopy(pods["items"][0])
    twin["metadata"] |= {"name": "web-2", "uid": "00000009-0b1c-4d2e-8f3a-0123456789ab"}
    for number, each in enumerate(twin["status"]["containerStatuses"]):
        each["containerID"] = f"containerd://{number}{'e' * 63}"
    pods["items"].append(twin)
    (folder / "pods.json").write_text(json.dumps(pods))
    resources(pods, "web-7c9f", "nginx")["requests"]["cpu"] = "1"
    _, err = patched(ctl, folder, pods, status=1)
    assert "prod:web-2/nginx: its pod has the owner of one that is changed, and so the same" in err
    resources(pods, "web-2", "nginx")["requests"]["cpu"] = "1"
    found, err = patched(ctl, folder, pods)
    assert list(found) == ["prod.deployment.web.yaml"] and "here it has 2" in err
    resources(pods, "web-2", "nginx")["requests"]["cpu"] = "2"
    assert "two of its pods are to have two settings" in patched(ctl, folder, pods, status=1)[1]


def test_a_replicaset_without_a_hash(ctl, folder):
    """Whose it is cannot be told: it is patched itself."""
    pods = cluster(folder)
    owned(pods, "web-7c9f", "ReplicaSet", "web-5d9c")
    (folder / "pods.json").write_text(json.dumps(pods))
    resources(pods, "web-7c9f", "nginx")["requests"]["cpu"] = "1"
    assert list(patched(ctl, folder, pods)[0]) == ["prod.replicaset.web-5d9c.yaml"]


def test_what_kubernetes_cannot_say(ctl, folder):
    """Weights of pods and classes follow from requests: each that would be another is named."""
    cluster(folder)
    words = ["kubectl", folder / "pods.json", NODE, "--set"]
    _, err = applied(ctl, folder, *words, "kubepods/burstable.weight=900", status=1)
    assert "kubepods/burstable: weight 900" in err and "Kubernetes would set weight" in err
    _, err = applied(ctl, folder, *words, "prod/web-7c9f/nginx.burst=1ms", status=1)
    assert "burst 1000 is asked for, and Kubernetes would set" in err
    _, err = applied(ctl, folder, "kubectl", UNITS, "--cpus", "4", *SSH_CHANGE, status=1)
    assert "-o kubectl is for pods" in err
    assert not (folder / "out").exists()


@pytest.mark.parametrize("name", ["../../etc/x", "a b", "-x", "a\nb", "web;id", "A"])
def test_hostile_owners(ctl, folder, name):
    """No name of an object becomes a path or a word of a command."""
    pods = cluster(folder)
    owned(pods, "db-0", "StatefulSet", name)
    (folder / "pods.json").write_text(json.dumps(pods))
    resources(pods, "db-0", "postgres")["limits"]["cpu"] = "3"
    resources(pods, "db-0", "postgres")["requests"]["cpu"] = "3"
    found, err = patched(ctl, folder, pods, status=1)
    assert found == {} and "is no name that Kubernetes takes" in err


# slurm

def test_slurm(ctl, folder):
    """A limit of whole CPUs is one of a user's later jobs; weights and parts are refused."""
    words = [FIXTURES / "slurm-jobs.json", FIXTURES / "slurm-nodes.json", "--set"]
    found, err = applied(ctl, folder, "slurm", *words, "bob/sim/124.max=3cpu")
    assert found["slurm.sh"].endswith(
        "sacctmgr -i modify user where name=bob set MaxTRESPerJob=cpu=3\n")
    assert subprocess.run(["bash", "-n", folder / "out/slurm.sh"], check=False).returncode == 0
    assert "holds for jobs of bob that are submitted later" in err
    for change, why in (("bob/sim/124.weight=7", "a weight: Slurm has none"),
                        ("bob/sim/124.max=150%", "no whole number of CPUs")):
        assert why in applied(ctl, folder, "slurm", *words, change, status=1)[1]
    assert "no job of a user" in applied(ctl, folder, "slurm", UNITS, "--cpus", "4", *SSH_CHANGE,
                                         status=1)[1]


# where it is written

def test_kubelet_is_told(ctl, folder):
    """What kubelet owns is written, and told."""
    found, err = applied(ctl, folder, "dropin", PODS, NODE, "--set",
                         "kubepods/burstable.weight=900")
    assert "kubepods.slice" not in err and "kubepods/burstable: kubelet owns this group" in err
    assert list(found) == ["kubepods-burstable.slice.d/50-arbiter.conf"]


@pytest.mark.parametrize("words, told", [
    (["-o", "dropin=x", "--yes"], "-o FORM writes files for review alone"),
    (["-o", "dropin=x", "--by", "files"], "-o FORM writes files for review alone"),
    (["-o", "dropin=x", "--undo", "u"], "-o FORM writes files for review alone"),
    (["-o", "frob=x"], "with one of text, kubectl, dropin"),
    (["-o", "text=x"], "the steps are printed on standard output"),
    (["--set", ".cpus=8"], "apply changes settings of groups, and no host"),
])
def test_words_that_do_not_go_together(ctl, words, told):
    assert told in ctl.run("apply", UNITS, "--cpus", "4", *SSH_CHANGE, *words, status=2)[1]


def test_one_file_or_a_folder(ctl, folder):
    """One document may have a file's name, or be printed; several need a folder."""
    words = ["apply", UNITS, "--cpus", "4", *SSH_CHANGE]
    out, _ = ctl.run(*words, "-o", "dropin")
    assert unit_file(out)["Service"]["CPUWeight"] == "300"
    os.mkdir(folder / "mine", 0o700)
    ctl.run(*words, "-o", f"dropin={folder}/mine/ssh.conf")
    assert (folder / "mine/ssh.conf").read_text() == out
    two = [*words, "--set", "system.slice.weight=5", "-o", f"dropin={folder}/mine/x.conf"]
    assert "2 files are to be written" in ctl.run(*two, status=2)[1]
    _, err = ctl.run("apply", UNITS, "--cpus", "4", "--set", f"{SSH}.weight=200", "-o",
                     f"dropin={folder}/mine/none")
    assert "no change" in err and not (folder / "mine/none").exists()


def test_files_of_others_stay(folder):
    """A file that was not written so, and a link, are not replaced; one of its own is."""
    os.mkdir(folder / "d", 0o700)
    (folder / "mine").write_text(f"# {exports.MARK}dropin\n")
    for name, make in (("a", lambda path: path.write_text("mine")),
                       ("b", lambda path: path.symlink_to(folder / "mine")),
                       ("c", os.mkfifo), ("e", os.mkdir)):
        make(folder / "d" / name)
        with pytest.raises(HostFault, match="nothing is written"):
            exports.write(f"{folder}/d/", [Document("new", "x"), Document(name, "x")])
    assert sorted(os.listdir(folder / "d")) == ["a", "b", "c", "e"]
    assert (folder / "mine").read_text() == f"# {exports.MARK}dropin\n"
    for text in (f"# {exports.MARK}x 1\n", f"# {exports.MARK}x 2\n"):
        exports.write(f"{folder}/d/", [Document("own", text)])
        assert (folder / "d/own").read_text() == text
    (folder / "d/link.d").symlink_to(folder)
    with pytest.raises(HostFault):
        exports.write(f"{folder}/d/", [Document("link.d/x", "x")])
    assert not (folder / "x").exists()


@pytest.mark.parametrize("name", ["../x", "/etc/x", "a/../../x", "", ".", "a//b", "a\0b"])
def test_no_name_leads_out(folder, name):
    with pytest.raises(HostFault):
        exports.write(f"{folder}/d/", [Document(name, "x")])
    assert [path for path in folder.rglob("*") if path.is_file()] == []


def test_a_folder_that_others_may_change(folder):
    os.mkdir(folder / "d", 0o700)
    os.chmod(folder / "d", 0o777)
    with pytest.raises(HostFault, match="other users may change this folder"):
        exports.write(f"{folder}/d/", [Document("a", "x")])


def test_all_or_none(folder, monkeypatch):
    """A fault in the middle leaves nothing: neither a file nor a part of one."""
    real, left = os.fsync, [2]

    def full(descriptor):
        left[0] -= 1
        if left[0] < 0:
            raise OSError(28, "No space left on device")
        real(descriptor)

    monkeypatch.setattr(os, "fsync", full)
    with pytest.raises(HostFault, match="No space left"):
        exports.write(f"{folder}/d/", [Document(f"n{at}/f", "x") for at in range(4)])
    assert [path for path in folder.rglob("*") if path.is_file()] == []


def test_each_form_is_tested():
    """The forms of the command are those of this file."""
    assert set(options.forms("apply")) == {"text", "dropin", "kubectl", "compose", "slurm"}
