"""Workers of many hosts: who can reach them, what their end costs, and the workers of Dask."""
import json
import multiprocessing
import os
import shutil
import signal
import subprocess
import sys
import time
from contextlib import contextmanager
from pathlib import Path

import fleets
import pytest
import sockets
import ways
from arbiter_host.base.faults import HostFault
from arbiter_host.fleet import pool, questions, work
from arbiter_host.fleet.work import Action, Job
from arbiter_host.sources.source_options import SourceOptions
from places import PACKAGE

NOBODY = 65534
WORKER = PACKAGE / "tests/fleet_worker.py"
JSON = ("-o", "json")


@pytest.fixture
def hosts(folder):
    """A function that makes a folder of hosts with such names."""
    def make(*names):
        (folder / "hosts").mkdir()
        for name in names:
            (folder / "hosts" / f"{name}.script").write_text("mkdir a\ndemand a 3\n")
        return folder / "hosts"

    return make


@pytest.fixture
def by_name(monkeypatch):
    """Has workers answer by the names of the hosts."""
    monkeypatch.setattr(work, "answered", ways.by_name)


def begun(ctl, *words, **options):
    """A run that goes on."""
    return subprocess.Popen([sys.executable, str(PACKAGE / "arbiterctl"), *map(str, words)],
                            env=ctl.environment, stdout=subprocess.PIPE, stderr=subprocess.PIPE,
                            **options)


def ended(run):
    """Status, output and messages of a run that has ended."""
    out, err = run.communicate(timeout=300)
    assert b"Traceback" not in err, err.decode()[:2000]
    return run.returncode, out.decode(), err.decode()


def workers_of(run, count):
    """The ids of so many worker processes, once they are there."""
    end, found = time.monotonic() + 60, []
    while len(found) < count:
        assert run.poll() is None and time.monotonic() < end, "no worker was begun"
        time.sleep(0.01)
        found = [pid for pid in sockets.tree(run.pid)[1:]
                 if b"spawn_main" in Path(f"/proc/{pid}/cmdline").read_bytes()]
    return found


@contextmanager
def halted(run):
    """Stops a run for a while: a fast machine answers all its hosts before a test has looked."""
    run.send_signal(signal.SIGSTOP)
    try:
        yield
    finally:
        run.send_signal(signal.SIGCONT)


def is_there(pid):
    """Whether a process runs."""
    try:
        return Path(f"/proc/{pid}/stat").read_text().split(") ")[1][0] != "Z"
    except OSError:
        return False


def wait_for_end(pids):
    """Waits until none of some processes runs."""
    end = time.monotonic() + 30
    while any(map(is_there, pids)):
        assert time.monotonic() < end, "a worker goes on"
        time.sleep(0.05)


# Who can reach them

def test_the_list_of_sockets_finds_each_kind(folder):
    """What listens in a child is found: TCP of both versions, UDP, and Unix by path and by name."""
    script = ("import socket, sys, time\n"
              "found = [socket.create_server(('127.0.0.1', 0)),\n"
              "         socket.create_server(('::1', 0), family=socket.AF_INET6),\n"
              "         socket.socket(socket.AF_INET, socket.SOCK_DGRAM),\n"
              "         socket.socket(socket.AF_UNIX), socket.socket(socket.AF_UNIX)]\n"
              "found[2].bind(('127.0.0.1', 0)); found[3].bind(sys.argv[1] + '/s')\n"
              "found[4].bind('\\0' + sys.argv[1])\n"
              "found[3].listen(); found[4].listen(); print('', flush=True); time.sleep(600)\n")
    with subprocess.Popen([sys.executable, "-c", script, folder], stdout=subprocess.PIPE) as child:
        try:
            child.stdout.readline()
            found = sockets.listening(os.getpid())
            kinds = [each.split()[0] for each in found[-5:]]
            assert kinds == ["tcp", "tcp6", "udp", "unix", "unix"]
            assert found[-5].startswith("tcp 0100007F:")
            assert found[-2:] == [f"unix {folder}/s", f"unix @{folder}"]
        finally:
            child.kill()


# Tries to reach each process of a run: its files, its memory, its descriptors and its sockets.
STRANGER = """
import os, signal, sys
reached = []
for pid in map(int, sys.argv[1:]):
    for what in ("mem", "environ", "fd", "maps"):
        try:
            path = f"/proc/{pid}/{what}"
            os.listdir(path) if what == "fd" else open(path, "rb").read(1)
            reached.append(f"{pid} {what}")
        except PermissionError:
            pass
    for number in range(64):
        try:
            os.close(os.open(f"/proc/{pid}/fd/{number}", os.O_RDWR))
            reached.append(f"{pid} {number}")
        except OSError:
            pass
    try:
        os.kill(pid, 0)
        reached.append(f"{pid} kill")
    except PermissionError:
        pass
print(os.getuid(), reached)
"""


def test_nothing_listens_and_nobody_reaches_them(ctl, folder):
    """No process of a run has a socket that anybody could connect to. uid 65534 reaches none."""
    run = begun(ctl, "explain", fleets.make(folder / "hosts", 200, 100), "--workers", 2, *JSON)
    pids = workers_of(run, 2)
    with halted(run):
        assert sockets.listening(run.pid) == []
        if os.getuid() == 0:
            said = subprocess.run([sys.executable, "-c", STRANGER, *map(str, [run.pid, *pids])],
                                  user=NOBODY, group=NOBODY, extra_groups=[], cwd="/",
                                  capture_output=True, text=True, check=False).stdout
            assert said == f"{NOBODY} []\n"
    assert ended(run)[0] == 0


def test_no_module_of_the_folder_is_taken(folder, hosts, calls, monkeypatch):
    """A worker's interpreter takes no module from where the command was called."""
    (folder / "here").mkdir()
    for name in ("multiprocessing", "signal", "json", "sitecustomize", "arbiter_host", "ways"):
        (folder / "here" / f"{name}.py").write_text("open('taken', 'w')\nraise SystemExit(9)\n")
    monkeypatch.chdir(folder / "here")
    monkeypatch.setattr(sys, "path", [each for each in sys.path if each])
    found, missing = fleets.asked(hosts("a", "b"), calls, workers=1)
    assert found.keys() == {"a", "b"} and missing == {} and not (folder / "here/taken").exists()


# What their end costs

def test_processes_answer_as_one(ctl, folder):
    """The bytes are those of one process, also where a worker is killed in mid-run."""
    hosts = fleets.make(folder / "hosts", 240, 100)
    alone = ctl.run("explain", hosts, "--workers", "0", *JSON)[0]
    assert ctl.run("explain", hosts, "--workers", "3", *JSON)[0] == alone
    run = begun(ctl, "explain", hosts, "--workers", 2, *JSON)
    worker, _ = workers_of(run, 2)
    with halted(run):
        os.kill(worker, signal.SIGKILL)
    # Python itself may tell on standard error what kept a process from its begin.
    out, err = run.communicate(timeout=300)
    assert (run.returncode, out.decode() == alone) == (0, True), err.decode()


def test_a_host_that_kills_workers_is_named(hosts, calls, by_name):
    """Each worker that dies has a successor, and only the host that no worker survives is named."""
    names = [f"good-{number}" for number in range(4)]
    found, missing = fleets.asked(hosts("die", *names), calls, workers=2)
    assert missing == {"die": "its worker died, twice"} and found.keys() == set(names)


def test_workers_that_all_die(hosts, calls, by_name, monkeypatch):
    """The run ends with words of its own."""
    monkeypatch.setattr(pool, "MOST_DEATHS", 1)
    with pytest.raises(HostFault, match="workers die one after another"):
        fleets.asked(hosts(*(f"die-{number}" for number in range(4))), calls, workers=2)


SILENT = "no worker answered anything in 600 seconds"


def silent_where(monkeypatch, is_over):
    """Has a second stand for the ten minutes of silence, where a test knows that nothing comes."""
    honest = pool.wait

    def wait(under, seconds, how):
        assert seconds == pool.MOST_SILENT == 600
        return honest(under, 1 if is_over(under) else seconds, how)

    monkeypatch.setattr(pool, "wait", wait)


@pytest.mark.parametrize("hung", [1, 3], ids=["one", "more than the workers"])
def test_workers_that_hang(hosts, calls, by_name, monkeypatch, hung):
    """Each host is answered or named in time, and no worker is left."""
    silent_where(monkeypatch, lambda under: hung > 1 or {
        host.name for host in under.values()} == {"hang-0"})
    hanging = {f"hang-{number}" for number in range(hung)}
    others = {f"other-{number}" for number in range(9)}
    found, missing = fleets.asked(hosts(*hanging, *others), calls, workers=2)
    named = hanging if hung == 1 else hanging | others
    assert missing == dict.fromkeys(named, SILENT)
    assert found.keys() == hanging.union(others) - named
    assert multiprocessing.active_children() == []


def test_an_exception_is_told_of_its_host(hosts, calls, by_name):
    found, missing = fleets.asked(hosts("raise", "good"), calls, workers=1)
    assert missing == {"raise": "its worker: ValueError: \x1b[31m"} and found.keys() == {"good"}


@pytest.mark.parametrize("how", [signal.SIGINT, signal.SIGKILL], ids=["interrupt", "kill"])
def test_no_worker_outlives_the_run(ctl, folder, how):
    """An interrupt of a terminal reaches all, and ends the run without a word. A run that is
    killed leaves no worker either, and Python may tell what kept one from its begin."""
    hosts = fleets.make(folder / "hosts", 400, 300)
    run = begun(ctl, "explain", hosts, "--workers", 2, *JSON, start_new_session=True)
    pids = workers_of(run, 2)
    with halted(run):
        time.sleep(0.5)
        if how == signal.SIGINT:
            os.killpg(run.pid, how)
        else:
            run.kill()
    out, err = run.communicate(timeout=300)
    assert (run.returncode, out) == (-how, b"") and (err == b"" or how == signal.SIGKILL)
    wait_for_end(pids)


# A worker that says that it runs, and begins its work only when it has lost its parent.
LATE = """
import multiprocessing, os, time
from arbiter_host.fleet import pool

def late(parent):
    print(os.getpid(), flush=True)
    while os.getppid() == parent:
        time.sleep(0.01)
    pool.begin_worker()
    time.sleep(600)

if __name__ == "__main__":
    worker = multiprocessing.get_context("spawn").Process(target=late, args=[os.getpid()])
    worker.start()
    worker.join()
"""


def test_a_worker_that_begins_too_late_ends(ctl, folder):
    """No signal tells a worker of a run that was gone before it asked for one."""
    (folder / "late.py").write_text(LATE)
    with subprocess.Popen([sys.executable, folder / "late.py"], stdout=subprocess.PIPE,
                          env={**ctl.environment, "PYTHONPATH": str(PACKAGE)}) as run:
        worker = int(run.stdout.readline())
        run.kill()
        wait_for_end([worker])


# Dask

class Site:
    """A scheduler and workers, as others would run them."""

    def __init__(self, environment, protocol="tcp"):
        self.environment = {**environment, "PYTHONPATH": str(PACKAGE), "PROTOCOL": protocol}
        self.protocol = protocol
        self.processes = {}
        self.address = self.begin("scheduler")

    def begin(self, name, *words):
        """Begins a process, and waits for its address."""
        process = subprocess.Popen([sys.executable, str(WORKER), *(words or (name,))],
                                   env=self.environment, stdout=subprocess.PIPE,
                                   stderr=subprocess.DEVNULL, text=True)
        self.processes[name] = process
        address = process.stdout.readline().strip()
        assert address.startswith(f"{self.protocol}://"), name
        return address

    def add(self, *modes):
        """Adds workers."""
        for mode in modes:
            self.begin(mode, self.address, mode)

    def close(self):
        """Ends all that was begun here."""
        for process in self.processes.values():
            process.kill()
            process.communicate()


@pytest.fixture
def site(ctl):
    """A scheduler without workers."""
    pytest.importorskip("distributed")
    found = Site(ctl.environment)
    yield found
    found.close()


def test_dask_answers_as_one(ctl, folder, site):
    """The bytes are those of one process. The command listens on nothing."""
    hosts = fleets.make(folder / "hosts", 60, 12)
    site.add("honest")
    alone = ctl.run("explain", hosts, "--workers", "0", *JSON)[0]
    run = begun(ctl, "explain", hosts, "--dask", site.address, *JSON)
    time.sleep(1)
    assert sockets.listening(run.pid) == []
    status, out, err = ended(run)
    assert (status, out == alone, err) == (0, True, "")


def test_a_killed_worker_of_dask(ctl, folder, site):
    """A worker that is killed while it is at work on a host costs none its answer."""
    hosts = fleets.make(folder / "hosts", 60, 12)
    alone = ctl.run("explain", hosts, "--workers", "0", *JSON)[0]
    site.add("hung", "honest")
    run = begun(ctl, "explain", hosts, "--dask", site.address, *JSON)
    assert site.processes["hung"].stdout.readline() == "begun\n"
    site.processes["hung"].kill()
    status, out, err = ended(run)
    assert (status, out == alone) == (0, True), err


@pytest.mark.parametrize("mode, told", [
    ("forged", "no plan: error "), ("other", "what its worker answers cannot be read")])
def test_a_wrong_worker_of_dask(ctl, folder, site, mode, told):
    """Each host that it answered is named."""
    hosts = fleets.make(folder / "hosts", 8, 12)
    site.add(mode)
    status, out, err = ended(begun(ctl, "explain", hosts, "--dask", site.address, *JSON))
    found = json.loads(out)
    assert status == 1 and found["answered"] == 0 and len(found["not_answered"]) == 8
    assert all(told in each["why"] for each in found["not_answered"]), err


def test_a_scheduler_that_goes_away(ctl, folder, site):
    """Each host is answered or named."""
    hosts = fleets.make(folder / "hosts", 160, 100)
    site.add("honest", "hung")
    run = begun(ctl, "explain", hosts, "--dask", site.address, *JSON)
    assert site.processes["hung"].stdout.readline() == "begun\n"
    site.processes["scheduler"].kill()
    site.processes["hung"].kill()
    began = time.monotonic()
    status, out, err = ended(run)
    assert status == 1 and time.monotonic() - began < 60
    assert all(line.startswith("arbiterctl: ") for line in err.split("\n")[:-1]), err
    found = json.loads(out)
    kept = {host["host"] for host in found["hosts"]}
    named = {each["host"] for each in found["not_answered"]}
    assert named and not kept & named and len(kept | named) == 160
    assert {each["why"] for each in found["not_answered"]} == {pool.GONE}


def test_a_worker_of_dask_that_hangs(folder, site, calls, monkeypatch):
    """The hosts of others are answered, and those that it keeps are named in time."""
    seen = []
    silent_where(monkeypatch, lambda under: seen.append(len(under)) or len(seen) > 3)
    fleet = fleets.make(folder / "hosts", 24, 4)
    site.add("hung", "honest")
    job, planners = Job(Action.PLAN, SourceOptions(), library=calls.path), questions.Planners(
        dask=site.address)
    found, missing = questions.asked(planners, job, fleets.of(fleet))
    assert found and len(found) + len(missing) == 24
    assert missing and {why for _, why in missing} == {SILENT}


def test_a_scheduler_without_workers(ctl, folder, site):
    hosts = fleets.make(folder / "hosts", 2, 4)
    _, err = ctl.run("explain", hosts, "--dask", site.address, status=1)
    assert "it has no worker" in err


def certificate(folder, name):
    """A key that its owner alone can read, and a certificate of an authority of this run."""
    key, cert, asked = (str(folder / f"{name}.{ending}") for ending in ("key", "pem", "csr"))
    words = ["openssl", "req", "-newkey", "ec", "-pkeyopt", "ec_paramgen_curve:P-256", "-nodes",
             "-keyout", key, "-subj", f"/CN={name}"]
    if name == "ca":
        subprocess.run([*words, "-x509", "-days", "1", "-out", cert], check=True,
                       capture_output=True, umask=0o077)
    else:
        subprocess.run([*words, "-out", asked], check=True, capture_output=True, umask=0o077)
        subprocess.run(["openssl", "x509", "-req", "-in", asked, "-CA", str(folder / "ca.pem"),
                        "-CAkey", str(folder / "ca.key"), "-days", "1", "-out", cert],
                       check=True, capture_output=True)
    assert os.stat(key).st_mode & 0o077 == 0
    return key, cert


def test_a_scheduler_with_tls(ctl, folder):
    """As docs/TOOLS.md sets it: without a certificate no host is answered."""
    pytest.importorskip("distributed")
    if not shutil.which("openssl"):
        pytest.skip("no openssl")
    certificate(folder, "ca")
    secured = {"DASK_DISTRIBUTED__COMM__REQUIRE_ENCRYPTION": "True",
               "DASK_DISTRIBUTED__COMM__TLS__CA_FILE": str(folder / "ca.pem")}
    for role in ("CLIENT", "SCHEDULER", "WORKER"):
        key, cert = certificate(folder, role.lower())
        secured[f"DASK_DISTRIBUTED__COMM__TLS__{role}__KEY"] = key
        secured[f"DASK_DISTRIBUTED__COMM__TLS__{role}__CERT"] = cert
    hosts = fleets.make(folder / "hosts", 8, 12)
    bare = dict(ctl.environment)
    ctl.environment.update(secured)
    site = Site(ctl.environment, "tls")
    try:
        site.add("honest")
        words = ["explain", hosts, *JSON, "--dask"]
        alone = ctl.run("explain", hosts, "--workers", "0", *JSON)[0]
        assert ctl.run(*words, site.address)[0] == alone
        ctl.environment = bare
        out, err = ctl.run(*words, site.address, status=1)
        assert out == "" and err.startswith(f"arbiterctl: {site.address}: ")
        out, err = ctl.run(*words, site.address.replace("tls:", "tcp:"), status=1)
        assert out == "" and err.count("\n") == 1
    finally:
        site.close()


def test_an_address_of_no_scheduler(ctl, folder):
    """One line, status 1."""
    pytest.importorskip("distributed")
    hosts = fleets.make(folder / "hosts", 2, 4)
    out, err = ctl.run("explain", hosts, "--dask", "tcp://127.0.0.1:1", status=1)
    assert out == "" and err.startswith("arbiterctl: tcp://127.0.0.1:1: ")
