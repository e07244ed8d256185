"""The files of share/kubernetes: what they ask of a cluster is what they have the right to, and
their command lines do what the page says. A recorded API server stands for the cluster."""
import subprocess
import sys
import time
import urllib.error
import urllib.request

import pytest
import test_services
import yaml
from places import PACKAGE
from prometheus_client.openmetrics.parser import text_string_to_metric_families
from test_top import tree_of_pods

ROOT = PACKAGE.parent
FOLDER = ROOT / "share/kubernetes"
# The recorded server.
tools = test_services.tools


def documents(name):
    """The objects of a file."""
    return list(yaml.safe_load_all((FOLDER / name).read_text()))


def rights():
    """What the account may do: verb, group and resource."""
    role = next(each for each in documents("rights.yaml") if each["kind"] == "ClusterRole")
    return {(verb, group, resource) for rule in role["rules"] for verb in rule["verbs"]
            for group in rule["apiGroups"] for resource in rule["resources"]}


def asked(calls):
    """The rights that calls of kubectl need: each is a list."""
    found = set()
    for name, *words, url in calls:
        assert (name, words) == ("kubectl", ["get", "--raw"]), (name, words)
        path, _, query = url.partition("?")
        head, *parts = path.strip("/").split("/")
        group = "" if head == "api" else parts.pop(0)
        assert len(parts) == 2 and query.startswith("limit="), url
        found.add(("list", group, parts[1]))
    return found


def workloads():
    """The Job and the DaemonSet with the specifications of their pods."""
    return {each["kind"]: each["spec"]["template"]["spec"]
            for name in ("explain.yaml", "top.yaml") for each in documents(name)}


def container(kind, name):
    """A container of a workload."""
    return next(each for each in workloads()[kind]["containers"] if each["name"] == name)


def test_each_file_is_parsed():
    """Kinds, and one account, namespace and image in all."""
    kinds = [(name, [each["kind"] for each in documents(name)])
             for name in ("rights.yaml", "explain.yaml", "top.yaml", "krew.yaml")]
    assert kinds == [("rights.yaml", ["Namespace", "ServiceAccount", "ClusterRole",
                                      "ClusterRoleBinding"]),
                     ("explain.yaml", ["Job"]), ("top.yaml", ["DaemonSet"]),
                     ("krew.yaml", ["Plugin"])]
    space, account, role, binding = documents("rights.yaml")
    assert binding["roleRef"]["name"] == role["metadata"]["name"]
    assert binding["subjects"] == [{"kind": "ServiceAccount", **account["metadata"]}]
    for name in ("explain.yaml", "top.yaml"):
        for each in documents(name):
            assert each["metadata"]["namespace"] == space["metadata"]["name"]
    for pod in workloads().values():
        assert pod["serviceAccountName"] == account["metadata"]["name"]
    version = (ROOT / "share/arbiter.pc").read_text().split("Version: ")[1].split("\n")[0]
    assert {each["image"] for pod in workloads().values()
            for each in pod["containers"]} == {f"arbiter:{version}"}
    assert f"arbiter-{version}-linux-x86_64.oci.tar" in (FOLDER / "README.md").read_text()


def test_pods_may_little():
    """No user of root, no capability, no file system that is written, and one folder of the host,
    read only. Nothing of the host's network, processes or devices."""
    for pod in workloads().values():
        assert not {"hostNetwork", "hostPID", "hostIPC"} & set(pod)
        user = pod["securityContext"]
        assert user["runAsNonRoot"] is True and user["runAsUser"] == user["runAsGroup"] == 65534
        assert user["seccompProfile"] == {"type": "RuntimeDefault"}
        for each in pod["containers"]:
            assert each["securityContext"] == {
                "allowPrivilegeEscalation": False, "readOnlyRootFilesystem": True,
                "capabilities": {"drop": ["ALL"]}}
            assert set(each["resources"]) == {"requests", "limits"}
    of_host = [(each["name"], each["hostPath"]) for pod in workloads().values()
               for each in pod.get("volumes", []) if "hostPath" in each]
    assert of_host == [("cgroup", {"path": "/sys/fs/cgroup", "type": "Directory"})]
    mounts = [each for each in container("DaemonSet", "top")["volumeMounts"]
              if each["name"] == "cgroup"]
    assert mounts == [{"name": "cgroup", "mountPath": "/host/cgroup", "readOnly": True}]
    (writes,) = [each["name"] for each in workloads()["DaemonSet"]["containers"]
                 if any(not mount.get("readOnly") for mount in each["volumeMounts"])]
    assert writes == "top"


def in_cluster(ctl, words, node, folder):
    """The words of a container as its node would run them: arbiterctl of this clone, and the
    folders of the container below one of the test."""
    (folder / "bin").mkdir(exist_ok=True)
    stand_in = folder / "bin/arbiterctl"
    stand_in.write_text(f"#!/bin/sh\nexec {sys.executable} {ROOT}/python/arbiterctl \"$@\"\n")
    stand_in.chmod(0o755)
    told = [word.replace("$(NODE)", node).replace("/host/", f"{folder}/host/").replace(
        "/metrics/", f"{folder}/metrics/") for word in words]
    return told, {**ctl.environment, "NODE": node}


def test_the_job_explains_its_node(ctl, tools, folder):
    """By what its pods used. It asks for what its account may, and for nothing else."""
    job = container("Job", "explain")
    (variable,) = job["env"]
    assert variable["valueFrom"] == {"fieldRef": {"fieldPath": "spec.nodeName"}}
    words, environment = in_cluster(ctl, [*job["command"], *job["args"]], "n1", folder)
    ended = subprocess.run(words, env=environment, capture_output=True, timeout=120, check=False)
    assert ended.returncode == 0, ended.stderr
    assert b"the proved check accepted" in ended.stdout and b"prod:web-7c9f" in ended.stdout
    assert asked(tools()) == rights()


def test_the_daemon_serves_its_node(ctl, tools, folder):
    """`top` writes metrics with the names of pods, which the other container serves at /metrics,
    and nothing else. It asks for its own node alone, which is among its rights."""
    tree_of_pods(folder / "host/cgroup")
    (folder / "metrics").mkdir()
    (folder / "metrics").chmod(0o777)
    top, serve = container("DaemonSet", "top"), container("DaemonSet", "serve")
    assert (top["command"], serve["command"]) == (["sh", "-c"], ["python3", "-c"])
    words, environment = in_cluster(ctl, [*top["command"], *top["args"]], "n1", folder)
    words[-1] = words[-1].replace(" >/dev/null", " --cpus 1 --read x100ms >/dev/null")
    served, _ = in_cluster(ctl, [sys.executable, "-c", *serve["args"]], "n1", folder)
    served[-1] = served[-1].replace('("", 9101)', '("127.0.0.1", 0)').replace(
        "http.server.ThreadingHTTPServer", "made = http.server.ThreadingHTTPServer").replace(
        ".serve_forever()", "; print(made.server_port, flush=True); made.serve_forever()")
    served[-1] = served[-1].replace('"/metrics/now"', repr(f"{folder}/metrics/now"))
    with subprocess.Popen(words, env=environment) as loop, subprocess.Popen(
            served, env=environment, stdout=subprocess.PIPE, stderr=subprocess.DEVNULL) as server:
        try:
            address = f"http://127.0.0.1:{int(server.stdout.readline())}"
            end = time.monotonic() + 120
            while not (folder / "metrics/now/metrics").exists():
                assert loop.poll() is None and time.monotonic() < end, "no metrics"
                time.sleep(0.05)
            with urllib.request.urlopen(f"{address}/metrics", timeout=30) as answer:
                assert answer.headers["Content-Type"].startswith("application/openmetrics-text")
                families = list(text_string_to_metric_families(answer.read().decode()))
            with pytest.raises(urllib.error.HTTPError, match="404"):
                urllib.request.urlopen(f"{address}/", timeout=30)
        finally:
            loop.kill()
            server.kill()
    pods = {sample.labels["pod"] for each in families for sample in each.samples
            if each.name == "arbiter_plan_gets_cpus" and sample.labels["pod"]}
    assert pods == {"web-7c9f"}
    assert asked(tools()) == {("list", "", "nodes"), ("list", "", "pods")} <= rights()
    assert all("n1" in each[-1] for each in tools())


def test_the_plug_in(folder):
    """Its program is one of the tarball, and ./build --release fills in what it leaves open."""
    (plugin,) = documents("krew.yaml")
    (platform,) = plugin["spec"]["platforms"]
    assert plugin["metadata"]["name"] == "arbiter" and platform["bin"] == "bin/arbiterctl"
    assert (plugin["spec"]["version"], platform["sha256"]) == ("vVERSION", "SHA256")
    assert platform["files"] == [{"from": "arbiter-VERSION-linux-x86_64/*", "to": "."}]
    assert len(plugin["spec"]["shortDescription"]) <= 50
    # as krew links it
    (folder / "kubectl-arbiter").symlink_to(ROOT / "python/arbiterctl")
    ended = subprocess.run([folder / "kubectl-arbiter", "--help"], capture_output=True, check=False)
    assert ended.returncode == 0 and b"explain" in ended.stdout
    assert platform["uri"].endswith("/arbiter-VERSION-linux-x86_64.tar.gz")
