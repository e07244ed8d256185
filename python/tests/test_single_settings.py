"""Each setting of one goal alone, and what groups are guaranteed: by values worked by hand, and
against plans of other settings."""
import json
from fractions import Fraction

import pytest
from arbiter import Host
from arbiter_host.base import units
from arbiter_host.base.model import Group, Model
from arbiter_host.base.plan import guarantees, plan
from arbiter_host.tune import single_settings, tune
from hypothesis import given
from hypothesis import strategies as st
from small_hosts import PATHS, models, some

# One CPU of 20 slices; a counts once and b twice, and both want all of it.
TWO = """# arbiter run --processors 1 --period 100000 --slice 5000
mkdir a
mkdir b
write b cpu.weight 200
demand a 20
demand b 20
"""


def script(folder, text):
    """A script of a text."""
    (folder / "host.script").write_text(text)
    return folder / "host.script"


def alone(ctl, folder, text, goal):
    """The answers of `tune` as JSON, and its settings alone by their names."""
    found = json.loads(ctl.run("tune", script(folder, text), "--goal", goal, "-o", "json")[0])
    return found["goals"][0], {single["name"]: single for single in found["alone"]}


def test_by_hand(ctl, folder):
    """The tenth slice of a costs 19/w, and the eleventh of b 21/200: w is 181 at least."""
    goal, by = alone(ctl, folder, TWO, "a=500m")
    assert (goal["now_millicpu"], goal["goal_millicpu"]) == (350, 500)
    assert (by["weight"]["now"], by["weight"]["least"]) == (100, 181)
    assert by["weight"]["pays"] == [{"group": "b", "millicpu": 150}]
    assert (by["limit"]["now"], by["limit"]["least"]) == (None, None)
    assert (by["CPUs"]["least"], by["CPUs"]["pays"]) == (2, [])


def test_in_lines(ctl, folder):
    """The settings alone stand behind the answer; of several goals there are none."""
    out, _ = ctl.run("tune", script(folder, TWO), "--goal", "a=500m")
    assert [line.split() for line in out.split("\n")[-5:]] == [
        ["alone", "now", "least", "who", "pays"], ["weight", "100", "181", "b", "-0.15"],
        ["limit", "-", "-", "no", "limit", "reaches", "it"], ["CPUs", "1", "2", "nobody"], []]
    assert "alone" not in ctl.run("tune", script(folder, TWO), "--goal", "a=500m", "--goal",
                                  "b=100m")[0]
    assert "alone" not in ctl.run("tune", script(folder, TWO), "--goal", "a=500m", "-g", "a")[0]


def test_a_limit(ctl, folder):
    """A limit of 200m is in the way, and 500m is the least that is not. No weight helps."""
    goal, by = alone(ctl, folder, TWO + "write a cpu.max 20000\ndemand b 5\n", "a=500m")
    assert (goal["now_millicpu"], by["limit"]["now"], by["limit"]["least"]) == (200, 200, 500)
    assert (by["weight"]["least"], by["CPUs"]["least"]) == (None, None)


def test_more_than_is_asked(ctl, folder):
    """No setting gives a group more than it asks for, and a line says so."""
    out, _ = ctl.run("tune", script(folder, TWO), "--goal", "a=2cpu", status=6)
    assert "a asks for less" in out
    assert "64 CPUs do not reach it" in out and "no weight reaches it" in out


@pytest.mark.parametrize("processors, told", [
    (64, "64 CPUs do not reach it"), (65, "64 CPUs do not reach it; more are not tried")])
def test_a_great_host(ctl, folder, processors, told):
    """The planner is asked of at most 64 CPUs, and of a greater host a line says so."""
    text = "mkdir a\nwrite a cpu.max 20000\ndemand a 20\n"
    out, _ = ctl.run("tune", script(folder, text), "--goal", "a=500m", "--cpus", processors)
    assert ["CPUs", str(processors), "-", *told.split()] in map(str.split, out.split("\n"))


def test_guarantees_of_the_inside(engine):
    """What a group's own children ask for is as it is: they do not count as others."""
    model = Model(Host(1, 100000, 5000))
    for path, demand in (("pod", 0), ("pod/one", 200), ("pod/two", 200), ("other", 0)):
        model.add(Group(path, demand=Fraction(demand)))
    found = plan(engine, model)
    assert guarantees(found, found.groups[1:]) == [8, 4, 4, 0]


@some(40)
@given(model=models(), path=st.sampled_from(PATHS), slices=st.integers(1, 10))
def test_least_values(engine, model, path, slices):
    """The least value reaches the amount, and the value before it does not."""
    found = tune.tune(plan(engine, model), [f"{path}={200 * slices}m"])
    most = {"weight": units.MAX_WEIGHT, "limit": 300, "CPUs": 64}
    assert [single.name for single in found.alone] == list(most)
    for single in found.alone:
        greatest = most[single.name]
        gets = lambda v: plan(engine, single_settings.with_value(model, path, single.name, v)
                              ).by_path()[path].gets
        if single.least is None:
            assert gets(greatest) < slices
        else:
            assert gets(single.least) >= slices == found.asked.goals[0].amount
            assert single.plan.by_path()[path].gets == gets(single.least)
            assert single.least == 1 or gets(single.least - 1) < slices


@some(40)
@given(model=models(), demands=st.lists(st.integers(0, 12), min_size=5, max_size=5))
def test_no_demands_of_the_others_give_less(engine, model, demands):
    """Each group gets its guarantee with any demands of the groups that are not under it."""
    before = plan(engine, model)
    owed = guarantees(before, before.groups[1:])
    for group, least in zip(before.groups[1:], owed):
        after = model.copy()
        for path, slices in zip(PATHS[1:], demands):
            if path != group.path and not path.startswith(f"{group.path}/"):
                after.groups[path].demand = Fraction(200 * slices)
        assert plan(engine, after).by_path()[group.path].gets >= least
        assert group.gets >= least
