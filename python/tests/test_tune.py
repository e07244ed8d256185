"""Weights and limits under which several goals are met at once. Each expected number is worked by
hand.

The slice n of a group of weight w costs (2n - 1) / w. Slices go to the least cost, on a tie to the
group that was made first. So a group has n slices of a full host where its slice n costs no more
than the next slice of each other one.
"""
import json
import os
import signal
import threading
import time
from fractions import Fraction

import pytest
import reading
from arbiter import Host
from arbiter_host.base import demands, progress
from arbiter_host.base.faults import HostFault
from arbiter_host.base.model import Group, Model
from arbiter_host.base.plan import Engine, plan
from arbiter_host.sources import change, kubernetes, selection
from arbiter_host.tune import (goals as goals_, other_limits, single_settings, tune, tune_settings,
                               tune_weights)
from arbiter_host.tune.goals import Clash
from hypothesis import given
from hypothesis import strategies as st
from small_hosts import PATHS, models, some


def host_file(folder, *groups, cpus=1, slice_="5ms"):
    """A host file. A group is its path, its weight and its demand in thousandths."""
    tables = "".join(f'[groups."{path}"]\nweight = {weight}\n'
                     + (f'demand = "{demand}m"\n' if demand else "")
                     for path, weight, demand in groups)
    (folder / "host.toml").write_text(f'[host]\ncpus = {cpus}\nperiod = "100ms"\n'
                                      f'slice = "{slice_}"\n{tables}')
    return folder / "host.toml"


def asked(ctl, source, *goals, words=()):
    """What `tune -o json` answers to goals. Status 6 says that nothing was found. What tells no
    period has one of 100 ms."""
    words = [*(("--period", "100ms") if source.suffix in (".show", ".json") else ()), *words]
    named = [word for goal in goals for word in ("--goal", goal)]
    ended = ctl.ended("tune", source, *named, *words, "-o", "json")
    found = json.loads(ended.stdout)
    is_found = found["met"] or any(each["least"] is not None for each in found["alone"])
    assert ended.returncode == (0 if is_found else 6), ended.stderr
    return found


# What is told where each other group keeps half, of weights of which none or some are lowered.
HALF, LOWER_HALF = (each.replace(tune_weights.MEET, f"{tune_weights.MEET} and {tune_weights.HALF}")
                    for each in (tune_weights.LEAST, tune_weights.LOWER))


def changes(way):
    """The settings before and after, by group."""
    return {each["group"]: (each["now"], each["then"]) for each in way["changes"]}


def two(folder, a=100, b=200):
    """20 slices of 5 ms, of which both want all."""
    return host_file(folder, ("a", a, 1000), ("b", b, 1000))


def three(folder, c_asks=1000):
    """Three groups of one weight, which have 7, 7 and 6 of 20 slices where all ask."""
    return host_file(folder, ("a", 100, 1000), ("b", 100, 1000), ("c", 100, c_asks))


def test_one_goal(ctl, folder):
    """a's slice 10 costs 19/w, and b's slice 11 21/200: w is 181 at least."""
    found = asked(ctl, two(folder), "a=500m")
    assert found["met"] and found["goals"] == [
        {"group": "a", "asked_millicpu": 500, "goal_millicpu": 500, "now_millicpu": 350,
         "wants_millicpu": 1000}]
    way = found["weights"]
    assert changes(way) == {"a": ("100", "181")} and way["set"] == ["a.weight=181"]
    assert (way["then_millicpu"], way["pays"]) == ([500], [{"group": "b", "millicpu": 150}])
    assert way["told"] == HALF and found["settings"] is found["conflict"] is None


def test_two_goals(ctl, folder):
    """c keeps 3 slices, and its slice 4 costs 7/100. So a has 19/w from 272 on, b 13/w from 186.

    c is no goal's group, so its weight stays, and it pays 3 of its 6 slices.
    """
    found = asked(ctl, three(folder), "a=500m", "b=350m")
    way = found["weights"]
    assert changes(way) == {"a": ("100", "272"), "b": ("100", "186")}
    assert (way["then_millicpu"], way["pays"]) == ([500, 350], [{"group": "c", "millicpu": 150}])
    out, _ = ctl.run("tune", three(folder), "--goal", "a=500m", "--goal", "b=350m")
    assert [line.split() for line in out.split("\n")[2:]] == [
        "all goals are met at once by today's demands, in CPUs; the proved check accepted the"
        " plan".split(), [], ["goal", "now", "then", "wants", "group"],
        ["0.50", "0.35", "0.50", "1.00", "a"], ["0.35", "0.35", "0.35", "1.00", "b"], [],
        ["setting", "now", "then", "group"], ["weight", "100", "272", "a"],
        ["weight", "100", "186", "b"], [], ["who", "else", "pays:", "c", "-0.15"],
        HALF.split(), []]


def test_what_is_met_stays(ctl, folder):
    """7 of 20 slices are 350m."""
    found = asked(ctl, three(folder), "a=350m", "b=100m")
    assert found["weights"]["changes"] == [] and found["weights"]["told"] == goals_.NO_CHANGE
    assert "nothing changes" in ctl.run("tune", three(folder), "--goal", "a=350m")[0]


def test_guarantee(ctl, folder):
    """c asks for nothing, so a and b have 10 each. If it asks, they have 7 each, as above."""
    source = three(folder, c_asks=0)
    assert asked(ctl, source, "a=500m", "b=350m")["weights"]["changes"] == []
    found = asked(ctl, source, "a=500m", "b=350m", words=["--guaranteed"])
    assert changes(found["weights"]) == {"a": ("100", "272"), "b": ("100", "186")}
    assert [goal["now_millicpu"] for goal in found["goals"]] == [350, 350]
    assert found["guaranteed"] and found["weights"]["then_millicpu"] == [500, 350]
    assert "whatever the others ask for" in ctl.run("tune", source, "--goal", "a=500m",
                                                    "--guaranteed")[0]


def test_goals_that_cannot_be_met(ctl, folder):
    """12 and 12 are more than the 20 slices of the host; the goal of c has no part in it."""
    words = ["a=600m", "b=600m"]
    found = asked(ctl, three(folder), *words)
    assert not found["met"] and found["weights"] is found["settings"] is None
    assert found["conflict"] == {"group": ".", "together": ["a", "b"], "asked_millicpu": 1200,
                                 "served_millicpu": 1000}
    out, _ = ctl.run("tune", three(folder), "--goal", "a=600m", "--goal", "b=600m", status=6)
    assert "no weights that may change meet these goals together by today's demands" in out
    assert "asked for in all: 1.20; served in all: 1.00" in out


def test_goals_that_clash_in_a_group(ctl, folder):
    """sys can be given the 40 slices of its limit. Its two need 30 of its own goal, or 45 of theirs
    in all. The goal of user has no part in it."""
    words = [*(f"--goal={each}" for each in ("sys=300m", "web=300m", "db=150m", "user=100m")),
             "--set", "sys.max=400m"]
    out, _ = ctl.run("tune", deep(folder), *words, status=6)
    lines = [line.split() for line in out.split("\n")]
    assert ("no weights that may change meet these goals together in sys by today's demands, in"
            " CPUs" in out)
    assert ["0.30", "0.40", "2.00", "sys"] in lines and "user" not in out
    assert "asked for in all: 0.45; sys can be given 0.40 at most" in out
    found = json.loads(ctl.run("tune", deep(folder), *words, "-o", "json", status=6)[0])
    assert found["conflict"] == {"group": "sys", "together": ["sys", "sys/web", "sys/db"],
                                 "asked_millicpu": 450, "served_millicpu": 400}


def test_more_than_is_asked(ctl, folder):
    """No weight gives a group more than it asks for, and a line says so."""
    out, _ = ctl.run("tune", host_file(folder, ("a", 100, 300), ("b", 100, 300)), "--goal",
                     "a=400m", status=6)
    assert "no weights that may change meet this goal by today's demands, in CPUs" in out
    assert "asked for in all: 0.40; a can be given 0.30 at most" in out
    assert "a asks for less: no setting gives it more than it asks for" in out


class Counted(Engine):
    """Counts its plans."""

    plans = 0

    def plan(self, host, rows):
        self.plans += 1
        return super().plan(host, rows)


def pods_of(calls, many, **words):
    """A node of one CPU whose pods request a thousandth each."""
    items = [{"metadata": {"name": f"p{at}", "uid": f"u{at}"}, "spec": {"containers": [
        {"name": "c", "resources": {"requests": {"cpu": "1m"}}}]}} for at in range(many)]
    return reading.pods([("p", json.dumps(items).encode())], Host(1, 1000000, 1000), calls,
                        **words)


@pytest.mark.parametrize("words, plans", [(["*p3/c=2m"], 4), (["*p3/c=2m", "*p4/c=1m"], 4)])
def test_a_goal_above_all_that_is_asked_is_refused_at_once(calls, words, plans):
    """No setting is searched, of that group or of others."""
    engine = Counted(calls)
    before = plan(engine, pods_of(calls, 30))
    found = tune.tune(before, words)
    assert found.best is None and isinstance(found.weights, Clash) and engine.plans <= plans
    assert all(each.least is None for each in found.alone)
    assert ("p3/c: no request reaches its goal" in found.owned) and found.limits is None


def test_what_children_ask_is_asked_by_a_group(engine):
    """A limit of a child holds its group back, and another one reaches the goal."""
    model = Model(Host(1, 100000, 1000))
    for path, quota, demand in (("a", None, 0), ("a/x", 10000, 500), ("a/y", None, 100)):
        model.add(Group(path, quota=quota, demand=Fraction(demand)))
    before = plan(engine, model)
    (goal,) = goals_.goals_of(before, ["a=600m"])
    assert goal.group.want == 20 and not goals_.Goals(before, (goal,), False).beyond
    (goal,) = goals_.goals_of(before, ["a=601m"])
    assert goals_.Goals(before, (goal,), False).beyond == {goal.group.row}
    assert goals_.Goals(before, (goal,), True).beyond == {goal.group.row}


def test_settings_are_tried_once(calls):
    """A request is found by a call, so that few plans are made: as it stands, and with it. Limits
    of 64 others are looked at, and these are looked through without a model of all pods."""
    engine = Counted(calls)
    before = plan(engine, pods_of(calls, 80, want="busy"))
    tune.tune(before, ["*p3/c=40m"])
    first, engine.plans = engine.plans, 0
    asked_ = goals_.Goals(before, goals_.goals_of(before, ["*p3/c=40m"]), False)
    tune_settings.by_settings(asked_, Clash(before.root, asked_.goals))
    again, engine.plans = engine.plans, 0
    single_settings.each_of(asked_)
    assert again <= 2 and engine.plans <= 8 and first <= 8
    built = []
    with pytest.MonkeyPatch.context() as patch:
        patch.setattr(kubernetes.PodBuilder, "classes", lambda _: built.append(1))
        caps = [other_limits.owned_cap_of(before, before.model.owned, each)
                for each in before.groups[4:40] if before.model.owned.has(each.path)]
    assert not built and all(caps)


def test_less_weight(ctl, folder):
    """a's slice 19 costs 37/w, and b's slice 2 3/v: with a weight of 10000 v is 810 at most.

    So weights are lowered. b's is 1, and a's slice 19 costs no more than 3 from 13 on.
    """
    found = asked(ctl, two(folder, b=10000), "a=950m", "b=50m")
    assert changes(found["weights"]) == {"a": ("100", "13"), "b": ("10000", "1")}
    assert (found["weights"]["then_millicpu"], found["weights"]["told"]) == (
        [950, 50], LOWER_HALF)


def farm(folder, bg, runner):
    """8 CPUs of 20 slices each, of which one group and four runners want all."""
    return host_file(folder, ("bg", bg, 8000), *((f"r{at}", runner, 8000) for at in range(4)),
                     cpus=8)


def test_a_weight_beside_the_goals(ctl, folder):
    """Four runners have all 160 slices where slice 40 of each, 79/w, costs less than bg's first,
    1/v. With 10000 that is so up to 126, and with 126 from 9955 on.

    With 10000 each has 38 where that slice, 75/10000, costs less than bg's slice 9, 17/v: 2266.
    """
    found = asked(ctl, farm(folder, 200, 100), "r*=2cpu")
    assert changes(found["weights"]) == {"bg": ("200", "126"), **{
        f"r{at}": ("100", "9955") for at in range(4)}}
    assert found["weights"]["told"] == tune_weights.LEVEL
    found = asked(ctl, farm(folder, 10000, 10000), "r*=1900m")
    assert changes(found["weights"]) == {"bg": ("10000", "2266")}
    assert found["weights"]["then_millicpu"] == [1900] * 4


def test_weights_beside_groups_above_come_last(ctl, folder):
    """sys stays. web has 60 slices of it where sys has 60: its slice 60 costs 119/100, and user's
    slice 41 81/68. Then web's slice 60 costs 119/w, and db's first 1/68: 8092.

    A goal that db's weight alone meets lowers that of no other: web's slice 40 costs 79/100, and
    db's slice 11 21/v.
    """
    words = ["-g", "sys/*", "-g", "user"]
    found = asked(ctl, deep(folder), "web=600m", words=words)
    assert changes(found["weights"]) == {"sys/web": ("100", "8092"), "sys/db": ("100", "68"),
                                         "user": ("100", "68")}
    found = asked(ctl, deep(folder), "web=400m", words=["-g", "db", "-g", "user"])
    assert changes(found["weights"]) == {"sys/db": ("100", "26")}


def test_a_quota_is_no_weight_of_others(ctl, folder):
    """b is lowered first: a's slice 90 costs 179/100, and b's slice 11 21/v, more up to 11."""
    (folder / "u.show").write_text(unit("a.service", "[not set]") + unit("b.service", 200))
    found = asked(ctl, folder / "u.show", "a.service=900m", words=["--cpus", "1", "-g", "b.*"])
    assert changes(found["settings"]) == {"b.service": ("200", "11")}
    assert found["settings"]["set"] == ["b.service.CPUWeight=11"]


def test_others_keep_half(ctl, folder):
    """user keeps 25 of 50 slices, and db 13 of 25.

    Beside user sys has 73 where its slice 73 costs no more than 51/100: 285. Then web's slice 60
    costs no more than db's slice 14, 27/100: 441.
    """
    found = asked(ctl, deep(folder), "web=600m")
    assert changes(found["weights"]) == {"sys": ("100", "264"), "sys/web": ("100", "441")}
    assert found["weights"]["pays"] == [{"group": "user", "millicpu": 230},
                                        {"group": "sys/db", "millicpu": 120}]
    assert found["weights"]["told"] == HALF


def test_half_that_cannot_be_kept(ctl, folder):
    """a has 15 slices where b has 5, and half of 13 are 7. a's slice 15 costs 29/w, b's slice 6
    11/200: 528."""
    found = asked(ctl, two(folder), "a=750m")
    assert found["weights"]["told"] == f"{tune_weights.LEAST}; none {tune_weights.HALF}"
    assert changes(found["weights"]) == {"a": ("100", "528")}


def test_half_of_what_is_guaranteed(ctl, folder):
    """a has 11 of 20 slices where b and c, which asks for nothing now, have 9 beside it. By the
    plan b has 10, and whatever the others ask for 7, of which it keeps 4."""
    source = three(folder, c_asks=0)
    found = asked(ctl, source, "a=550m", words=["--guaranteed"])
    assert found["weights"]["told"] == HALF
    assert changes(found["weights"]) == {"a": ("100", "234")}


def test_kept_weights(ctl, folder):
    """a stays, and b is lowered to the least that gives it a slice. c is no goal's."""
    found = asked(ctl, two(folder), "a=900m", "b=50m", words=["-g", "b"])
    assert changes(found["weights"]) == {"b": ("200", "3")}
    assert found["weights"]["then_millicpu"] == [950, 50]
    found = asked(ctl, three(folder), "a=900m", words=["-g", "c"])
    assert (found["met"], found["conflict"]["together"]) == (False, ["a"])
    out, err = ctl.run("tune", three(folder), "--goal", "a=900m", "-g", "c", status=6)
    assert "the settings of a stay as they are (-g)" in out
    assert err == "arbiterctl: no settings were found that meet the goals\n"
    kept = asked(ctl, three(folder), "a=500m", "b=350m", words=["-g", "a", "-g", "b"])
    assert changes(kept["weights"]) == {"a": ("100", "272"), "b": ("100", "186")}


def deep(folder):
    """100 slices: `sys` with web and db, and `user`. All want all, so they have 25, 25 and 50."""
    return host_file(folder, ("sys", 100, 0), ("sys/web", 100, 1000), ("sys/db", 100, 1000),
                     ("user", 100, 1000), slice_="1ms")


def test_groups_above(ctl, folder):
    """web and db need 75 of sys, whose slice 75 costs 149/w, and user's slice 26 51/100: 293.

    Then web's slice 60 costs 119/w, and db's slice 16 31/100: 384.
    """
    found = asked(ctl, deep(folder), "web=600m", "db=150m")
    assert changes(found["weights"]) == {"sys": ("100", "293"), "sys/web": ("100", "384")}
    assert found["weights"]["pays"] == [{"group": "user", "millicpu": 250}]
    assert found["weights"]["told"] == HALF


def test_groups_that_may_not_change(ctl, folder):
    """Beside db no weight gives web all 60 slices of sys, whose own weight stays."""
    out, _ = ctl.run("tune", deep(folder), "--goal", "web=600m", "-g", "sys/*",
                     status=6)
    assert "no weights that may change meet this goal by today's demands" in out
    assert "nor were limits of other groups found with which they are met" in out
    assert "the settings of sys stay as they are (-g)" in out


def test_least_from_the_root_down(ctl, folder):
    """web and db need 51 slices, whose slice 51 costs 101/w, and user's slice 50 99/100: 103.

    Of these web's slice 30 costs 59/w, and db's slice 22 43/100: 138.
    """
    found = asked(ctl, deep(folder), "web=300m", "db=210m")
    assert changes(found["weights"]) == {"sys": ("100", "103"), "sys/web": ("100", "138")}
    assert found["weights"]["then_millicpu"] == [300, 210]
    assert found["weights"]["pays"] == [{"group": "user", "millicpu": 10}]


def test_a_goal_of_a_group_and_of_one_inside(ctl, folder):
    """The slice 70 of sys costs 139/w, and user's slice 31 61/100: 228. web has 35 of them then."""
    found = asked(ctl, deep(folder), "sys=700m", "web=300m")
    assert changes(found["weights"]) == {"sys": ("100", "228")}
    assert found["weights"]["then_millicpu"] == [700, 350]


def limits(found):
    """The limits that are lowered, and the weights that change, by group."""
    assert found["met"] and found["weights"] is None
    changes_ = {(each["group"], each["setting"]): (each["now"], each["then"])
                for each in found["limits"]["changes"]}
    has_weights = "weight" in {key for _, key in changes_}
    assert found["limits"]["told"] == other_limits.LIMITED + (
        f"; {tune_weights.LEAST}" if has_weights else "")
    return changes_


def test_a_limit_of_another_group(ctl, folder):
    """a has 18 of 20 slices where b has 2. Its own limit of 500m is lowered, too.

    a's weight of 1 stays. So it has 10 where b weighs least.
    """
    source = two(folder, a=1)
    found = asked(ctl, source, "a=900m", words=["-g", "b"])
    assert limits(found) == {("b", "max"): ("-", "100m")}
    assert found["limits"]["set"] == ["b.max=100m"]
    assert found["limits"]["then_millicpu"] == [900]
    assert found["limits"]["pays"] == [{"group": "b", "millicpu": 900}]
    words = ["-g", "b", "--set", "b.max=500m"]
    assert limits(asked(ctl, source, "a=900m", words=words)) == {("b", "max"): ("500m", "100m")}
    out, _ = ctl.run("tune", source, "--goal", "a=900m", "-g", "b")
    assert ["max", "-", "100m", "b"] in [line.split() for line in out.split("\n")]


def test_limits_are_at_one_level(ctl, folder):
    """a has 11 of 20 slices where b and c have 4 each, and d the 1 that it asks for.

    a's weight of 1 stays. So it has 7 where they weigh least. Where b keeps all, c has none.
    """
    source = host_file(folder, ("a", 1, 1000), ("b", 10000, 1000), ("c", 10000, 1000),
                       ("d", 10000, 50))
    kept = ["-g", "c", "-g", "d"]
    assert limits(asked(ctl, source, "a=550m", words=["-g", "b", *kept])) == {
        ("b", "max"): ("-", "200m"), ("c", "max"): ("-", "200m")}
    assert not asked(ctl, source, "a=550m", words=kept)["met"]


def test_each_limit_is_as_high_as_the_level(ctl, folder):
    """a has 4 of 20 slices, and 8 where b and c have 6 each.

    In the other host b, c and d have 7, 7 and 6, and 4 each where a has 8.
    """
    source = host_file(folder, ("a", 1, 1000), ("b", 10000, 400), ("c", 10000, 400))
    assert limits(asked(ctl, source, "a=400m", words=["-g", "b", "-g", "c"])) == {
        (path, "max"): ("-", "300m") for path in "bc"}
    source = host_file(folder, ("a", 1, 1000), ("b", 10000, 400), ("c", 10000, 1000),
                       ("d", 10000, 1000))
    assert limits(asked(ctl, source, "a=400m",
                        words=["-g", "b", "-g", "c", "-g", "d"])) == {
        (path, "max"): ("-", "200m") for path in "bcd"}


def test_limits_of_a_long_period(ctl, folder):
    """a has 990 of 1000 slices of 1 ms where b and c have 5 each.

    That is 500 us of the period of b and c, less than a quota can be. So the host's period is
    written. A quota of 1000 us of it is one slice, with which a has at most 998.
    """
    source = folder / "long.script"
    source.write_text("# arbiter run --processors 1 --period 1000000 --slice 1000\n" + "".join(
        f"mkdir {path}\nwrite {path} cpu.weight {weight}\ndemand {path} 1000\n"
        for path, weight in (("a", 1), ("b", 10000), ("c", 10000))))
    words = ["-g", "b", "-g", "c"]
    assert limits(asked(ctl, source, "a=990m", words=words)) == {
        (path, "max"): ("-", "5000 1000000") for path in "bc"}
    assert limits(asked(ctl, source, "a=998m", words=words)) == {
        (path, "max"): ("-", "1000 1000000") for path in "bc"}
    assert not asked(ctl, source, "a=999m", words=words)["met"]


def test_limits_and_weights(ctl, folder):
    """12 and 7 leave c one slice. a's weight of 7 stays, and its slice 12 costs 23/7.

    With the least weight c's slice 2 costs 3, so its limit is lowered. Then b's slice 7 costs 13/4,
    before a's slice 13, 25/7.
    """
    source = host_file(folder, ("a", 7, 1000), ("b", 1, 1000), ("c", 10000, 1000))
    assert limits(asked(ctl, source, "a=600m", "b=350m", words=["-g", "b", "-g", "c"])) == {
        ("c", "max"): ("-", "50m"), ("b", "weight"): ("1", "4")}


def test_limits_beside_a_group_that_is_kept(ctl, folder):
    """web has 60 of the 80 slices of sys where user and db have 20 each. sys weighs least."""
    source = host_file(folder, ("sys", 1, 0), ("sys/web", 100, 1000), ("sys/db", 100, 1000),
                       ("user", 100, 1000), slice_="1ms")
    found = asked(ctl, source, "web=600m", words=["-g", "sys/*", "-g", "user"])
    assert limits(found) == {("user", "max"): ("-", "200m"), ("sys/db", "max"): ("-", "200m")}


def test_limits_whatever_the_others_ask_for(ctl, folder):
    """c asks for nothing now. Its limit of 1 slice is what it could ask for."""
    source = host_file(folder, ("a", 1, 1000), ("b", 1, 1000), ("c", 100, 0))
    words = ["--guaranteed", "-g", "c"]
    assert limits(asked(ctl, source, "a=500m", "b=450m", words=words)) == {
        ("c", "max"): ("-", "50m")}


def test_a_limit_that_no_amount_says(ctl, folder):
    """A third of a CPU, one slice of 3, is written as cpu.max has it."""
    (folder / "third.toml").write_text('''
[host]
period = "3ms"
slice = "1ms"
[groups.b]
weight = 1
demand = "1cpu"
[groups.a]
weight = 1
demand = "1cpu"
''')
    found = asked(ctl, folder / "third.toml", "a=600m", words=["-g", "b"])
    assert limits(found) == {("b", "max"): ("-", "1000 3000")}


def test_patterns(ctl, folder):
    """Each group that matches has the goal. Its slice 8 costs 15/w, batch's slice 5 9/100: 167."""
    rest = (("runner@2", 100, 1000), ("batch", 100, 1000))
    found = asked(ctl, host_file(folder, ("runner@1", 100, 1000), *rest), "runner@*=400m")
    assert changes(found["weights"]) == {"runner@1": ("100", "167"), "runner@2": ("100", "167")}
    model = Model()
    for path in ("system.slice", "system.slice/runner@1", "system.slice/runner@1/init", "x"):
        model.add(Group(path))
    assert [each.path for each in demands.matching(model, "runner@*")] == ["system.slice/runner@1"]
    with pytest.raises(HostFault, match="no group runner2"):
        demands.matching(model, "runner2*")


def test_rounded_up(ctl, folder):
    """501m are 11 slices of 50m, which is said."""
    out, _ = ctl.run("tune", two(folder), "--goal", "a=501m")
    assert "501m is no whole number of slices: 0.55 is asked for" in out
    assert asked(ctl, two(folder), "a=501m")["goals"][0]["goal_millicpu"] == 550
    assert "no whole number" not in ctl.run("tune", two(folder), "--goal", "a=500m")[0]


def test_changes_that_are_made_first(ctl, folder):
    """b has weight 100 by --set: 19/w is no more than 21/100 from 91 on, so 100 is enough."""
    found = asked(ctl, two(folder), "a=500m", words=["--set", "b.weight=100"])
    assert found["weights"]["changes"] == [] and found["weights"]["then_millicpu"] == [500]


@pytest.mark.parametrize("goals, status, words", [
    (("a",), 2, "not GROUP=AMOUNT"), (("=1",), 2, "not GROUP=AMOUNT"), (("a=",), 2, "not GROUP="),
    (("a=lots",), 2, "no amount of CPU"), (("a=0",), 2, "needs nothing"),
    ((".=1",), 2, "the host has no weight"), (("none=1",), 6, "no group none"),
    (("a=100m", "*=50m"), 2, "a has two goals"),
    (("\x1b=1",), 6, "no group \\x1b"),
])
def test_refusals(ctl, folder, goals, status, words):
    """One line for each, and no raw control character."""
    source = host_file(folder, ("a", 100, 100), ("sys", 100, 0), ("sys/web", 100, 100))
    named = [word for goal in goals for word in ("--goal", goal)]
    _, err = ctl.run("tune", source, *named, status=status)
    assert words in err and err.count("\n") == 1


def test_words_that_are_needed(ctl, folder):
    assert "--goal" in ctl.run("tune", two(folder), status=2)[1]
    _, err = ctl.run("tune", two(folder), "--goal", "a=1", "-g", "none", status=6)
    assert "no group none" in err


# Settings that people own


def node_of(folder, **requests):
    """Pods of 100m and 300m on a node of one CPU: weights 4 and 12, so 25 and 75 of 100 slices."""
    def pod(name, request):
        return {"kind": "Pod", "metadata": {"name": name, "namespace": "x", "uid": name}, "spec": {
            "containers": [{"name": "c", "resources": {"requests": {"cpu": request}}}]}}

    node = {"kind": "Node", "metadata": {"name": "n"},
            "status": {"capacity": {"cpu": "1"}, "allocatable": {"cpu": "1"}}}
    pods = {"a": "100m", "b": "300m", **requests}
    (folder / "n.json").write_text(json.dumps({"kind": "List", "items": [
        *(pod(*each) for each in pods.items()), node]}))
    return folder / "n.json"


def after_sets(ctl, source, way, words):
    """What groups get in the plan that `--set` makes of an answer."""
    sets = [word for each in way["set"] for word in ("--set", each)]
    out, _ = ctl.run("diff", source, *words, *sets, "-o", "json")
    return {each["group"]: each["gets"]["millicpu"] for each in json.loads(out)["after"]["groups"]}


def test_requests(ctl, folder):
    """a's slice 40 costs 79/w, b's slice 61 121/12: 8, which 186 shares have, and so 182m.

    Weights of the container alone do nothing: it is the only one of its pod that asks.
    """
    found = asked(ctl, node_of(folder), "x/a/c=400m", "x/b/c=600m", words=["--want", "busy"])
    way = found["settings"]
    path = "kubepods/burstable/x:a/c"
    assert found["met"] and found["weights"] is None and found["conflict"]["group"] == "."
    assert changes(way) == {path: ("100m", "182m")} and way["set"] == [f"{path}.request=182m"]
    assert way["then_millicpu"] == [400, 600]
    assert way["told"] == tune_settings.LEAST + goals_.NEEDED
    out, _ = ctl.run("tune", node_of(folder), "--want", "busy", "--goal", "x/a=400m")
    assert ["request", "100m", "182m", path] in [line.split() for line in out.split("\n")]


def test_a_limit_in_the_way(ctl, folder):
    """Under its limit of 300m a has no 400m: request and limit are raised together, and said.

    Without the limit 182m are the least, and the limit has to be the 400m.
    """
    source = node_of(folder)
    found = json.loads(source.read_text())
    found["items"][0]["spec"]["containers"][0]["resources"]["limits"] = {"cpu": "300m"}
    source.write_text(json.dumps(found))
    words = ["--want", "busy"]
    path = "kubepods/burstable/x:a/c"
    way = asked(ctl, source, "x/a/c=400m", words=words)["settings"]
    assert [(each["setting"], each["now"], each["then"]) for each in way["changes"]] == [
        ("request", "100m", "182m"), ("limit", "300m", "400m")]
    assert way["set"] == [f"{path}.request=182m", f"{path}.limit=400m"]
    assert way["then_millicpu"] == [400] and tune_settings.LIFTED in way["told"]
    assert after_sets(ctl, source, way, words)[path] == 400
    # A limit that is kept stays in the way.
    assert not asked(ctl, source, "x/a/c=400m", words=[*words, "-g", "x/b/c"])["met"]
    out, _ = ctl.run("tune", source, *words, "--goal", "x/a=400m")
    assert ["limit", "300m", "400m", path] in [line.split() for line in out.split("\n")]


def test_a_quota_in_the_way(ctl, folder):
    """A unit of 30% that is to have half: CPUQuota 50%, and no other weight."""
    (folder / "u.show").write_text("CPUQuotaPerSecUSec=300ms\n" + unit("a.service", 100)
                                   + unit("b.service", 100))
    way = asked(ctl, folder / "u.show", "a.service=500m", words=["--cpus", "1"])["settings"]
    assert [(each["setting"], each["now"], each["then"]) for each in way["changes"]] == [
        ("CPUQuota", "30%", "50%")]


BUSY = ["--want", "busy", "--period", "100ms"]
A, B, C, E = (f"kubepods/burstable/x:{name}/c" for name in "abce")


def test_requests_of_others_are_lowered(ctl, folder):
    """The node has nothing left, so a's request takes what b's gives. b weighs 24 with 613m, and a
    16 with the 387m left. So a's slice 40 costs 79/16, and b's slice 61 121/24.

    With 614m of b a has 386m, which weigh 15, and 79/15 is more. c has 300m beside b's 600m: the
    level is 309m, and c stays.
    """
    source = node_of(folder, b="900m")
    found = asked(ctl, source, "x/a/c=400m", words=["--want", "busy"])
    way = found["settings"]
    assert changes(way) == {A: ("100m", "387m"), B: ("900m", "613m")}
    assert way["told"] == (tune_settings.RAISED + goals_.NEEDED + tune_settings.LOWERED
                           + tune_settings.FOLLOW.format("x:a, x:b"))
    assert way["then_millicpu"] == [400] and after_sets(ctl, source, way, BUSY)[A] == 400
    source = node_of(folder, b="600m", c="300m")
    way = asked(ctl, source, "x/a/c=400m", words=["--want", "busy"])["settings"]
    assert changes(way) == {A: ("100m", "387m"), B: ("600m", "309m")}
    assert after_sets(ctl, source, way, BUSY)[A] == 400


def test_only_a_request_of_another_may_change(ctl, folder):
    """a's slice 40 costs 79/4, and b's slice 61 121/v: v is 6 at most, which 159 shares have. Its
    slice 75 costs 149/4, and b's slice 26 51/v: v is 1, of 28 shares and of as many thousandths.

    The sum of burstable falls with them, which is told.
    """
    source, words = node_of(folder), ["--want", "busy", "-g", "x/b/c"]
    found = asked(ctl, source, "x/a/c=400m", words=words)
    assert changes(found["settings"]) == {B: ("300m", "156m")}
    assert found["settings"]["told"].endswith(tune_settings.FOLLOW.format("burstable, x:b"))
    way = asked(ctl, source, "x/a/c=750m", words=words)["settings"]
    assert changes(way) == {B: ("300m", "28m")} and after_sets(ctl, source, way, BUSY)[A] >= 750


@pytest.mark.parametrize("more", [[], ["--guaranteed"]])
def test_requests_are_raised_together(ctl, folder, more):
    """Each request is the least beside the others: with one thousandth less its goal is not met, by
    the plan of all that are busy, of which each group has its guarantee."""
    source = node_of(folder, a="50m", b="60m", c="300m", e="100m")
    goals = {A: 300, B: 250, E: 120}
    way = asked(ctl, source, *(f"{path}={least}m" for path, least in goals.items()),
                words=["--want", "busy", *more])["settings"]
    assert way["told"] == tune_settings.BESIDE + goals_.NEEDED
    assert {path: now for path, (now, _) in changes(way).items()} == {
        A: "50m", B: "60m", E: "100m"}
    found = after_sets(ctl, source, way, BUSY)
    assert all(found[path] >= least for path, least in goals.items()), found
    for place, each in enumerate(way["changes"]):
        less = f"{each['group']}.request={int(each['then'][:-1]) - 1}m"
        sets = [*way["set"][:place], less, *way["set"][place + 1:]]
        assert after_sets(ctl, source, {"set": sets}, BUSY)[each["group"]] < goals[each["group"]]


def test_requests_of_pods_whose_init_containers_ask_for_more(ctl, folder):
    """No sum of the class tells its number then: requests are raised one after another."""
    source = node_of(folder, a="50m", b="60m", c="300m")
    told = json.loads(source.read_text())
    for pod in told["items"][:2]:
        pod["spec"]["initContainers"] = [{"name": "i", "resources": {"requests": {"cpu": "200m"}}}]
    source.write_text(json.dumps(told))
    way = asked(ctl, source, "x/a/c=300m", "x/b/c=300m", words=["--want", "busy"])["settings"]
    assert way["told"] == tune_settings.BESIDE + goals_.NEEDED
    found = after_sets(ctl, source, way, BUSY)
    assert found[A] >= 300 and found[B] >= 300


def test_requests_that_demands_follow_are_not_lowered(ctl, folder):
    """What b asks for is its request, which the node has."""
    found = asked(ctl, node_of(folder, b="900m"), "x/a/c=101m", words=["--want", "request"])
    assert not found["met"] and "no request reaches its goal" in found["no_settings"]
    assert tune_settings.NOR not in found["no_settings"]


def test_requests_that_are_not_found(ctl, folder):
    """b of 1m requests no less: then b's limit of 100m gives a its 900m.

    700m and 400m are more than the node has, so that no weights give them. Weights give a the whole
    CPU, but no requests that the node has.
    """
    words = ["--want", "busy"]
    found = asked(ctl, node_of(folder, b="1m"), "x/a/c=900m", words=[*words, "-g", "x/b/c"])
    assert limits(found) == {(B, "limit"): ("-", "100m")}
    assert "its setting is kept" in found["no_settings"]
    found = asked(ctl, node_of(folder), "x/a/c=400m", "x/b/c=700m", words=words)
    assert not found["met"] and "no request reaches its goal" in found["no_settings"]
    words = [*words, "--period", "100ms"]
    out, _ = ctl.run("tune", node_of(folder), *words, "--goal", "x/a/c=400m", "--goal",
                     "x/b/c=700m", status=6)
    assert "no weights of any groups meet these goals together by today's demands" in out
    out, _ = ctl.run("tune", node_of(folder, b="900m"), *words, "-g", "x/a/c", "-g", "x/b/c",
                     "--goal", "x/a/c=1cpu", status=6)
    assert "no requests were found that meet this goal by today's demands" in out


def unit(name, weight):
    """A unit as systemctl prints it."""
    return f"Id={name}\nControlGroup=/{name}\nCPUWeight={weight}\nTasksCurrent=3\n\n"


def test_units(ctl, folder):
    """a's slice 50 costs 99/w, b's slice 51 101/200: 197, as CPUWeight too."""
    (folder / "u.show").write_text(unit("a.service", "[not set]") + unit("b.service", 200))
    found = asked(ctl, folder / "u.show", "a.service=500m", words=["--cpus", "1"])
    assert changes(found["weights"]) == {"a.service": ("100", "197")}
    assert changes(found["settings"]) == {"a.service": ("-", "197")}
    assert found["settings"]["set"] == ["a.service.CPUWeight=197"]
    assert found["settings"]["told"] == HALF


def test_shares(ctl, folder):
    """Shares of 1024 and 2048 weigh 39 and 79. 99/w is no more than 101/79 from 78 on: 2021."""
    (folder / "d.json").write_text(json.dumps([
        {"Id": name * 64, "Name": f"/{name}", "HostConfig": {"CpuShares": shares}}
        for name, shares in (("a", 1024), ("b", 2048))]))
    found = asked(ctl, folder / "d.json", "a=500m", words=["--cpus", "1"])
    assert changes(found["weights"]) == {"system.slice/a": ("39", "78")}
    assert changes(found["settings"]) == {"system.slice/a": ("1024", "2021")}


def test_a_lowered_weight_is_just_that_of_its_number(calls, monkeypatch):
    """a's slice 90 costs 179/39, and b's slice 11 21/v: v is 4 at most, from 81 shares on. A number
    that weighed more would leave a less."""
    data = json.dumps([{"Id": name * 64, "Name": f"/{name}", "HostConfig": {"CpuShares": shares}}
                       for name, shares in (("a", 1024), ("b", 2048))]).encode()
    before = plan(Engine(calls), reading.docker([("d", data)], Host(1, 100000, 1000), calls))
    found = tune.tune(before, ["a=900m"], chosen=["system.slice/b"])
    assert found.owned.words == ["system.slice/b.cpu-shares=81"]
    start = tune_settings.Raised(found.asked, before.model.owned, {})
    weights = found.weights.plan.weights
    assert start.weighed(weights).every == [("system.slice/b", "cpu-shares", "81")]
    monkeypatch.setattr(calls, "owned_weight", lambda *_: 5, raising=False)
    assert start.weighed(weights) is None


def test_quotas_of_units(ctl, folder):
    """A weight of 1 stays: a has 90 of 100 slices where b has 10, by its quota.

    Of 1000 slices a has 895 where b has 105.
    """
    (folder / "u.show").write_text(unit("a.service", 1) + unit("b.service", 200))
    words = ["--cpus", "1", "-g", "b.*"]
    found = asked(ctl, folder / "u.show", "a.service=900m", words=words)
    assert limits(found) == {("b.service", "CPUQuota"): ("-", "10%")}
    found = asked(ctl, folder / "u.show", "a.service=895m", words=[*words, "--period", "1s"])
    assert limits(found) == {("b.service", "CPUQuota"): ("-", "10.5%")}


# Against other weights


GOALS = st.lists(st.tuples(st.sampled_from(["b", "c", "a/x", "a/y"]), st.integers(1, 6)),
                 min_size=1, max_size=4, unique_by=lambda each: each[0])
WEIGHTS = st.lists(st.lists(st.integers(1, 10000), min_size=6, max_size=6), max_size=5)


def meets(found, goals, is_guaranteed, library):
    """Whether a plan meets goals: by its amounts, or by those of the plan where others ask."""
    for goal in goals:
        model = found.model.copy()
        for path, group in model.groups.items():
            if is_guaranteed and path not in ("a", goal.group.path):
                group.demand = Fraction(10**7)
        if plan(Engine(library), model).by_path()[goal.group.path].gets < goal.amount:
            return False
    return True


@some(30)
@given(model=models(3), goals=GOALS, is_guaranteed=st.booleans(), others=WEIGHTS)
def test_met_or_never(engine, model, goals, is_guaranteed, others):
    """What is answered meets all goals. Goals that clash are met by no weights of their groups, of
    those above them and of those beside."""
    words = [f"{path}={200 * slices}m" for path, slices in goals]
    before = plan(engine, model)
    found = tune.tune(before, words, is_guaranteed)
    if found.best is not None:
        assert meets(found.best.plan, found.asked.goals, is_guaranteed, engine.library)
        return
    assert isinstance(found.weights, Clash)
    for weights in others:
        may = found.asked.may(found.asked.beside[-1] if found.asked.beside else ())
        mixed = [weights[row] if may[row] else group.weight
                 for row, group in enumerate(before.groups)]
        after = plan(engine, goals_.with_weights(model, mixed))
        assert not meets(after, found.weights.goals, is_guaranteed, engine.library)


def goals_kept(found):
    """The goals of an answer and, where others keep half, what these keep."""
    asked_, keeps = found.asked, found.best.told in (HALF, LOWER_HALF)
    kept = [(row, half) for row, (goal, half) in enumerate(zip(asked_.column, asked_.with_halves))
            if half > goal and keeps]
    return [*asked_.goals, *(goals_.Goal(found.before.groups[row], amount, Fraction(0))
                             for row, amount in kept)]


@some(30)
@given(model=models(3), goals=GOALS, is_guaranteed=st.booleans(),
       chosen=st.sets(st.sampled_from(PATHS), max_size=3))
def test_no_change_can_be_left_out(engine, model, goals, is_guaranteed, chosen):
    """As `--set` makes the changes, they meet all goals, and others keep half where that is said.
    Without one of them they do not, unless weights are lowered.

    Where groups are chosen, these and those below them alone change.
    """
    before = plan(engine, model)
    words = [f"{path}={200 * slices}m" for path, slices in goals]
    found = tune.tune(before, words, is_guaranteed, selection.with_below(model, chosen) or None)
    if found.best is None:
        return
    changes_, kept = found.best.changes, goals_kept(found)
    is_lower = any(each.key == "weight" and int(each.then) < int(each.now) for each in changes_)
    assert all(not chosen or {each.path, each.path.rpartition("/")[0]} & chosen
               for each in changes_)
    for left in (None, *(() if is_lower else range(len(changes_)))):
        after = model.copy()
        for place, each in enumerate(changes_):
            if place != left:
                change.apply(after.groups[each.path], each.key, each.then, False)
        is_met = meets(plan(engine, after), kept, is_guaranteed, engine.library)
        assert is_met == (left is None), (changes_, left)


def test_an_answer_that_does_not_meet_is_none(engine, monkeypatch):
    """Weights are shown only where their accepted plan meets all goals."""
    model = Model(Host(1, 100000, 5000))
    for path in ("a", "b"):
        model.add(Group(path, demand=Fraction(1000)))
    before = plan(engine, model)
    monkeypatch.setattr(engine.library, "tune", lambda *_: [100, 100, 100], raising=False)
    with pytest.raises(HostFault, match="a: the accepted plan does not meet its goal"):
        tune.tune(before, ["a=900m"])


def test_a_limit_that_is_written_lower(engine, monkeypatch):
    """Limits are told as proved only where settings say those of the answer: b's of 2 slices."""
    model = Model(Host(1, 100000, 5000))
    for path in ("a", "b"):
        model.add(Group(path, 1, demand=Fraction(1000)))
    before = plan(engine, model)
    way = tune.tune(before, ["a=900m"], chosen=["b"]).limits
    assert (way.words, way.amounts, way.told) == (["b.max=100m"], (18,), other_limits.LIMITED)
    cap = other_limits.cap_of(before, before.groups[2])
    monkeypatch.setattr(other_limits, "cap_of", lambda *_: cap._replace(
        written=lambda slices: cap.written(slices - 1)))
    way = tune.tune(before, ["a=900m"], chosen=["b"]).limits
    assert (way.words, way.amounts, way.told) == (["b.max=50m"], (19,), other_limits.LESSER)


def test_an_interrupt_waits_for_no_long_call():
    """A call of the library cannot be interrupted itself: many near goals took 40 s."""
    began = time.monotonic()
    threading.Timer(0.3, lambda: os.kill(os.getpid(), signal.SIGINT)).start()
    with pytest.raises(KeyboardInterrupt):
        progress.in_thread(lambda: time.sleep(20))
    assert time.monotonic() - began < 10
    with pytest.raises(HostFault, match="wrong"):
        progress.in_thread(lambda: raising(HostFault("wrong")))
    assert progress.in_thread(lambda: 7) == 7


def raising(fault):
    """Raises a fault."""
    raise fault
