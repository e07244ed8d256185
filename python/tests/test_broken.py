"""Broken files: each reader takes them or tells a fault, and no traceback is ever seen."""
from fractions import Fraction
from pathlib import Path

import reading
import trees
from arbiter import Host
from arbiter_host.base import names
from arbiter_host.base.faults import HostFault
from arbiter_host.base.model import Model
from arbiter_host.base.owned import Setting
from arbiter_host.base.plan import plan
from arbiter_host.fleet import hosts
from arbiter_host.sources import cgroups, hostfile, readings, samples, script
from chances import cases
from hypothesis import HealthCheck, example, given, settings
from hypothesis import strategies as st

FIXTURES = Path(__file__).parent / "fixtures"
HOST = Host(4, 100000, 1000)
KUBERNETES = (FIXTURES / "pods.json").read_bytes() + b"\n"
CLUSTER = (FIXTURES / "cluster.json").read_bytes()
DOCKER = (FIXTURES / "docker.json").read_bytes()
UNITS = (FIXTURES / "units.show").read_bytes()
TOML = (b'[host]\ncpus = 16\nperiod = "100ms"\n[groups."a/b"]\nweight = 200\nmax = "2cpu"\n'
        b'demand = "1.5cpu"\nburst = 5\ntasks = 3\ntitle = "x"\n')
SCRIPT = b"# arbiter run --processors 4\nmkdir a\nwrite a cpu.max 5000 9000\ndemand a 4\nperiod\n"
CSV = b"Time,web\n2026-01-05 10:00:00,0.5\n10:05,1.5\n"
MANY = settings(max_examples=cases(150), deadline=None, suppress_health_check=list(HealthCheck))


@st.composite
def broken(draw, data):
    """A file with pieces changed, left out, doubled or put in."""
    found = bytearray(data)
    for _ in range(draw(st.integers(0, 6))):
        at = draw(st.integers(0, len(found)))
        to = min(at + draw(st.integers(0, 12)), len(found))
        found[at:to] = draw(st.one_of(
            st.binary(max_size=6), st.just(bytes(found[at:to]) * 2),
            st.sampled_from([b"", b"null", b"{}", b"[]", b"-1", b"1e999", b"99999999999999999999",
                             b"\x00", b"\xff", b"\n", b"\"", b"NaN", b"true", b"/", b"..", b"\x1b",
                             "\u202e".encode(), b"0x10", b"1.5", b"' '", b"Infinity"])))
    return bytes(found)


def holds(engine, take):
    """A model that is planned and written again, or a fault of one line."""
    try:
        model = take()
        if isinstance(model, Model):
            written = script.write(model, engine.library).encode("utf-8", "replace")
            assert reading.lines(written, "F", engine).refused == []
            hostfile.write_toml(model)
        return model
    except HostFault as fault:
        assert fault.message and "\n" not in fault.message.strip()
        assert names.shown(fault.message).isprintable()
    return None


def planned(engine, model):
    """The plan of a model that was read, or a fault."""
    if model is not None:
        try:
            plan(engine, model)
        except HostFault as fault:
            assert fault.message


def changed(engine, model):
    """Each setting that can be asked for of what people own is one that its source takes."""
    owned = None if model is None else model.owned
    for path in [each for each in model.groups if owned.has(each)][:3] if owned else ():
        for of in owned.ranges(path):
            for value in {value for part in of.parts for value in part}:
                setting = Setting(path, of.key, of.written(value))
                after = holds(engine, lambda: owned.changed([setting]).model())
                assert after is not None and len(after.groups) == len(model.groups)
                planned(engine, after)


@MANY
@given(data=st.one_of(broken(SCRIPT), st.binary(max_size=200)))
def test_script(engine, data):
    planned(engine, holds(engine, lambda: reading.lines(data, "F", engine)))


@MANY
@given(data=st.one_of(broken(TOML), st.binary(max_size=200)))
def test_toml(engine, data):
    planned(engine, holds(engine, lambda: reading.host_file(data, "F", "toml")))


@MANY
@given(data=st.one_of(broken(hostfile.write_json(
    reading.host_file(TOML, "F", "toml")).encode()), st.binary(max_size=200)))
@example(data=b"[" * 100000)
@example(data=b'{"groups": {"\\ud800": {}}}')
def test_json(engine, data):
    planned(engine, holds(engine, lambda: reading.host_file(data, "F", "json")))


JSON_VALUES = st.recursive(
    st.one_of(st.none(), st.booleans(), st.integers(), st.floats(), st.text(max_size=8)),
    lambda inner: st.one_of(st.lists(inner, max_size=4), st.dictionaries(
        st.sampled_from(["items", "kind", "metadata", "spec", "status", "containers", "resources",
                         "limits", "requests", "cpu", "name", "namespace", "HostConfig", "NanoCpus",
                         "CgroupParent", "CpuShares", "State", "Running", "Name", "Id"]),
        inner, max_size=6)), max_leaves=25)


@MANY
@given(data=st.one_of(broken(KUBERNETES), st.binary(max_size=200)))
@example(data=b"[" * 100000)
def test_kubernetes(engine, data):
    model = holds(engine, lambda: reading.pods([("F", data)], HOST, engine.library))
    planned(engine, model)
    changed(engine, model)


@MANY
@given(data=st.one_of(broken(CLUSTER), st.binary(max_size=200)))
def test_cluster(engine, data):
    """Each node of a cluster is one host, whatever its pods say; pods that wait have a shape."""
    items = holds(engine, lambda: hosts.items_of("F", data))
    fleet = holds(engine, lambda: hosts.of_cluster("F", items,
                                                    lambda: engine.library)) if items else None
    for host in fleet.hosts if fleet else ():
        planned(engine, holds(engine, lambda: reading.pods([("F", host.data)], HOST,
                                                              engine.library)))
    for pod in fleet.pending if fleet else ():
        assert pod.shape in fleet.shapes() and pod.title.isprintable()


@MANY
@given(data=st.one_of(broken(DOCKER), st.binary(max_size=200)))
def test_containers(engine, data):
    model = holds(engine, lambda: reading.docker([("F", data)], HOST, engine.library))
    planned(engine, model)
    changed(engine, model)


@MANY
@given(value=JSON_VALUES)
def test_json_of_any_form(engine, value):
    import json
    data = json.dumps(value).encode()
    for take in (lambda: reading.pods([("F", data)], HOST, engine.library),
                 lambda: reading.docker([("F", data)], HOST, engine.library),
                 lambda: reading.host_file(data, "F", "json")):
        planned(engine, holds(engine, take))


@MANY
@given(data=st.one_of(broken(UNITS), st.binary(max_size=200)))
def test_units(engine, data):
    model = holds(engine, lambda: reading.units([("F", data)], HOST))
    planned(engine, model)
    changed(engine, model)


@MANY
@given(data=st.one_of(broken(CSV), st.binary(max_size=200)))
def test_samples(engine, data):
    for read in (samples.read_csv, samples.read_pairs):
        holds(engine, lambda: list(read(data, "F").demands("cpu", HOST)))
    holds(engine, lambda: samples.read_table(data, "F"))


FILES = ["cpu.weight", "cpu.max", "cpu.max.burst", "cpu.stat", "cpu.pressure", "cgroup.threads",
         "cgroup.subtree_control", "cgroup.controllers"]


@settings(max_examples=cases(80), deadline=None, suppress_health_check=list(HealthCheck))
@given(texts=st.dictionaries(st.sampled_from(FILES), st.one_of(
    st.binary(max_size=40), broken(b"50000 100000\n"), broken(b"usage_usec 500\nnr_periods 3\n")),
    max_size=8))
def test_cgroups(tmp_path_factory, engine, texts):
    folder = tmp_path_factory.mktemp("tree")
    trees.root2(folder)
    trees.group2(folder / "a")
    for name, data in texts.items():
        (folder / "a" / name).write_bytes(data)
    planned(engine, holds(engine, lambda: cgroups.read([str(folder)] * 2, HOST,
                                                       readings.Times(Fraction(1)), "psi")))
