"""Files that are small, and whose reading would take long: each is refused at once, in one line."""
import json
import sys
import time
import tracemalloc
from contextlib import suppress

import pytest
import reading
from arbiter import Host
from arbiter_host.base.faults import HostFault
from arbiter_host.setting import apply
from arbiter_host.sources import (containers, data as sources_data, hostfile, kubernetes, pods,
                                  script)

# Seconds of the processor. Each of these took more than half a minute, or had no end.
SECONDS = 20


BOMBS = {
    "many groups": ("toml", "".join(f"[groups.a{number}]\n" for number in range(40000)),
                    "more than 16384 groups"),
    "parts of a name": ("toml", ".".join("a" * 300000) + " = 1", "too many names with dots"),
    "parts of a head": ("toml", "[" + ".".join("a" * 300000) + "]", "too many names with dots"),
    "many lines of parts": ("toml", (".".join("a" * 3000) + " = 1\n") * 300, "too many names"),
    "levels of arrays": ("toml", "a = " + "[" * 100000, "cannot be read"),
    "a long number of TOML": ("toml", "a = 1" + "0" * 10**6, "cannot be read"),
    "levels of JSON": ("json", "[" * 10**6, "cannot be read"),
    "a long number of JSON": ("json", '{"host": 1' + "0" * 10**6 + "}", "cannot be read"),
}


@pytest.mark.parametrize("name", BOMBS)
def test_a_host_file_is_refused_at_once(name):
    kind, text, why = BOMBS[name]
    began = time.process_time()
    with pytest.raises(HostFault) as fault:
        reading.host_file(text.encode(), "F", kind)
    assert why in fault.value.message and fault.value.message.startswith("F:")
    assert "\n" not in fault.value.message and len(fault.value.message) < 300
    assert time.process_time() - began < SECONDS


# What Python tells a hook of before it runs code, another program or a library.
RUNS = ("exec", "compile", "import", "os.", "subprocess.", "pickle.", "ctypes.", "marshal.", "open")
CODE = {
    "toml": ('[host]\ncpus = 2\n[groups.a]\nweight = "__import__(\'os\').system(\'id\')"\n',
             '"!!python/object/apply:os.system" = ["id"]\n', '[groups."$(id)"]\nweight = 7\n'),
    "json": ('{"host": {"cpus": 2}, "groups": {"a": {"weight": "eval(1)"}}}',
             '{"__reduce__": ["os.system", ["id"]], "py/object": "os.system"}',
             '{"groups": {"`id`": {"weight": 7}}}'),
}


def test_no_file_runs_code(calls):
    """Reading one is no import, no program and no code: each kind is read once before, so that its
    reader is there."""
    def read():
        for kind, texts in CODE.items():
            for text in texts:
                with suppress(HostFault):
                    reading.host_file(text.encode(), "F", kind)
        for text in CODE["json"]:
            with suppress(HostFault):
                reading.pods([("F", text.encode())], Host(2), calls)
            with suppress(HostFault):
                apply.read_undo(text.encode(), "F")

    read()
    seen, watched = [], []
    sys.addaudithook(lambda event, _: seen.append(event) if watched and event.startswith(RUNS)
                     else None)
    watched.append(True)
    read()
    assert seen == []
    compile("1", "F", "eval")
    watched.clear()
    assert seen == ["compile"]


@pytest.mark.parametrize("kind", ["toml", "json"])
def test_a_host_file_that_is_too_long(monkeypatch, kind):
    monkeypatch.setattr(hostfile, "MAX_BYTES", 1 << 20)
    began = time.process_time()
    with pytest.raises(HostFault, match="F: more than 1 MiB"):
        reading.host_file(b" " * ((1 << 20) + 1), "F", kind)
    assert time.process_time() - began < 1


SHAPES = {"lists": "[],", "tables": "{},", "keys": '{"k%d":1},', "lists in tables": '{"a":[]},',
          "deep lists": "[[[[1]]]],", "deep tables": '{"a":{"a":{}}},', "texts": '"ab",',
          "numbers": "1.5,", "other letters": '"\U0001f600",'}


@pytest.mark.parametrize("shape", SHAPES.values(), ids=SHAPES)
def test_json_takes_bounded_memory(monkeypatch, shape):
    """What may be read takes hardly more memory than the bound, whatever it is made of."""
    monkeypatch.setattr(sources_data, "MOST_MEMORY", 16 << 20)
    number, most = 1000, 0
    with suppress(HostFault):
        while True:
            number *= 2
            parts = (shape % each if "%d" in shape else shape for each in range(number))
            data = f"[{''.join(parts)}1]".encode()
            tracemalloc.start()
            sources_data.loads(data, "F")
            most = tracemalloc.get_traced_memory()[1]
    tracemalloc.stop()
    assert 0 < most < 1.6 * sources_data.MOST_MEMORY


def test_json_of_too_many_values():
    """It is refused at once, by each reader of JSON."""
    data = b"[" + b"[]," * 8_000_000 + b"1]"
    began = time.process_time()
    for read in (lambda: sources_data.loads(data, "F"), lambda: apply.read_undo(data, "F"),
                 lambda: reading.pods([("F", data)], Host(2), None)):
        with pytest.raises(HostFault, match="F: too many values: to read them may take more than"):
            read()
    assert time.process_time() - began < SECONDS


def pod(number, phase):
    """A pod as kubectl prints it."""
    return {"kind": "Pod", "metadata": {"name": f"p{number}", "uid": str(number)},
            "spec": {"containers": [{"name": "c"}]}, "status": {"phase": phase}}


def test_pods_beyond_the_bound_are_told_before_the_work(calls, monkeypatch):
    """No pod is looked into where their number alone is too great."""
    monkeypatch.setattr(kubernetes, "pod_of", lambda *_: pytest.fail("looked into"))
    data = json.dumps({"items": [pod(number, "Running") for number in range(8192)]}).encode()
    with pytest.raises(HostFault, match="8192 pods: more than 16384 groups"):
        reading.pods([("F", data)], Host(4, 100000, 1000), calls)


def test_many_pods_that_have_ended(calls):
    """They take the time of as many entries, and not its square."""
    data = json.dumps({"items": [pod(number, "Failed") for number in range(20000)]}).encode()
    began = time.process_time()
    model = reading.pods([("F", data)], Host(4, 100000, 1000), calls)
    assert "pods that have ended, left out: 20000" in model.notes
    assert time.process_time() - began < SECONDS


def test_containers_beyond_the_bound_are_told_before_the_work(calls, monkeypatch):
    monkeypatch.setattr(containers.ContainerSource, "add", lambda *_: pytest.fail("looked into"))
    data = json.dumps([{"Name": f"c{number}", "HostConfig": {}} for number in range(16384)])
    with pytest.raises(HostFault, match="16384 containers: more than 16384 groups"):
        reading.docker([("F", data.encode())], Host(4, 100000, 1000), calls)


def test_many_containers_take_the_time_of_as_many(calls):
    data = json.dumps([{"Name": f"c{number}", "HostConfig": {}} for number in range(16000)])
    began = time.process_time()
    found = reading.docker([("F", data.encode())], Host(4, 100000, 1000), calls)
    assert len(found.groups) == 16001
    assert time.process_time() - began < SECONDS


def test_containers_of_one_name_stay_several(calls):
    """Two of one name, and one that has the name of its parent's neighbour."""
    found = [{"Name": "/a", "HostConfig": {}}, {"Name": "/a", "HostConfig": {}},
             {"Name": "/b.slice", "HostConfig": {"CgroupParent": "/x"}},
             {"Name": "/c", "HostConfig": {"CgroupParent": "/x/b.slice"}},
             {"Name": "/b.slice", "HostConfig": {"CgroupParent": "/x"}}]
    files = [("F", json.dumps(found).encode())]
    groups = reading.docker(files, Host(4, 100000, 1000), calls).groups
    assert set(groups) == {"system.slice", "system.slice/a", "system.slice/a%~2", "x", "x/b.slice",
                           "x/b.slice/c", "x/b.slice%~2", "x/b.slice%~3"}
    assert groups["x/b.slice"].place == "x/b.slice"


def test_a_file_of_refused_lines(engine, monkeypatch):
    """What is no script keeps no list without an end."""
    monkeypatch.setattr(script, "MAX_REFUSED", 1000)
    with pytest.raises(HostFault, match="F:1001: more than 1000 refused lines: this is no script"):
        reading.lines(b"x\n" * 5000, "F", engine)


@pytest.mark.parametrize("value, thousandths", [
    ("250m", 250), ("0.5", 500), ("1", 1000), (1, 1000), (0.1, 100), ("1e3", 10**6), ("2E-1", 200),
    ("+1", 1000), ("1.", 1000), (".5", 500), ("100n", 1), ("1001u", 2), ("2k", 2 * 10**6),
    ("1Ki", 1024000), ("0.0001", 1), ("0", 0)])
def test_quantities_of_kubernetes(value, thousandths):
    assert pods.amount_of(value, pods.CPU, "w") == thousandths


@pytest.mark.parametrize("value", [
    True, False, "true", "250 m", " 250m", "250m ", "-250m", "40%", "1cpu", "1.5 cpu", "", "m",
    "1e", "1em", "1mm", "NaN", "inf", "1_0", "\u0661", "0x10", "1e309m", float("nan"), 1e300,
    "1e99", "9" * 40, [], {}, ["1"]], ids=repr)
def test_what_is_no_quantity_is_refused(value):
    """As Kubernetes refuses it: none of its objects has one."""
    with pytest.raises(HostFault, match="^w: .* (is no quantity of|is above [0-9]+) CPU"):
        pods.amount_of(value, pods.CPU, "w")
