"""`arbiterctl hold` in a guest: what it writes, a kill, `undo`, and groups that come and go. And
what `audit` says.

Skipped without the library, or without KVM.
"""
import json
import os

import pytest

from kernel import interpreter, machine, real_hold
from kernel.real_files import effective
from kernel.scenario import parse

SETTING = machine.Setting(shift=5, seconds=1800)
OLD = effective(parse("tree", real_hold.TREE))
KILLED = -9


@pytest.fixture(scope="module", name="phases")
def phases_in_a_guest(guests_kernel):
    """What `hold` and `undo` did to the real files of a guest."""
    if not machine.is_quick() and machine.ALL not in os.environ:
        pytest.skip("no KVM that boots a guest, so it takes minutes: ./test --kernel --files")
    if not interpreter.LIBRARY.exists():
        pytest.skip(f"no {interpreter.LIBRARY}: ./build --install makes it")
    setting = machine.Setting(is_kvm=True, seconds=900) if machine.is_quick() else SETTING
    return real_hold.shown_by(guests_kernel, setting)


def settings_of(phase):
    """The settings of a phase, without groups that come and go."""
    return {path: found for path, found in phase.groups.items() if not path.startswith("come")}


def rounds_of(phase):
    """The rounds that a phase told."""
    return [json.loads(line) for line in phase.said if line.startswith("{")]


@pytest.mark.parametrize("name", ["made", "audit", "dry run", "hold", "undone first", "undone last",
                                  "churn"])
def test_what_stood_is_there(phases, name):
    """Before, after each end of a loop, and after `undo` of a loop that was killed."""
    assert (phases[name].status, settings_of(phases[name])) == (0, OLD)


def test_audit_of_real_files(phases):
    """The task of a has a processor to itself, and wants no more than it used. pod/x and the others
    use nothing."""
    found = json.loads("\n".join(line for line in phases["audit"].said
                                 if not line.startswith("arbiterctl: ")))
    groups = {each["group"]: each for each in found["groups"]}
    assert found["check"] == "accepted" and set(groups) == set(real_hold.GUARANTEES)
    assert 0.9 <= groups["a"]["mean"]["used_cpus"] <= 1.01
    assert abs(groups["a"]["worst"]["off_hundredths"]) <= 1
    assert all(groups[path]["mean"]["used_cpus"] == 0 for path in ("b", "pod/x", "pod/y"))


def test_rounds_on_real_files(phases):
    """The guarantees: a lacks CPU, since its two tasks keep to one processor."""
    (dry,) = rounds_of(phases["dry run"])
    assert {path: each["limit"] for path, each in dry["groups"].items()
            if path != "a"} == {path: limit for path, limit in real_hold.GUARANTEES.items()
                                if path != "a"}
    rounds = rounds_of(phases["hold"])
    assert len(rounds) >= 2 and rounds[0]["written"] >= 3
    assert any(each["groups"]["a"]["used"] >= 90 for each in rounds)


@pytest.mark.parametrize("name", ["first", "last"])
def test_killed_loop_has_written(phases, name):
    """Some limits are those of the loop, and of the rest none is another than stood."""
    found = settings_of(phases[f"killed {name}"])
    assert phases[f"killed {name}"].status == KILLED and found != OLD
    for path, (weight, limit, burst) in found.items():
        own = OLD[path]
        assert limit == own[1] or limit.endswith(" 100000")
        assert weight == own[0] or name == "last"
        assert burst in (own[2], "0")
    changed = {path for path in found if found[path] != OLD[path]}
    assert changed <= {*real_hold.GUARANTEES, *(["pod"] if name == "last" else [])}


def test_groups_came_and_went(phases):
    """Others were made and removed all the time, and the loop ended well."""
    assert phases["churn"].rounds > 10 and rounds_of(phases["churn"])
