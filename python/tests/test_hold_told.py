"""Hold: weights, what Linux did not serve, metrics, systemd's messages, and the unit."""
import functools
import json
import os
import re
import shutil
import signal
import socket
import subprocess
import sys
import time
from fractions import Fraction
from pathlib import Path

import killed_loop
import pytest
import trees
from arbiter import JUDGED_ROUNDS, Host
from arbiter_host.base import safe_files
from arbiter_host.base.faults import HostFault, NoHelp
from arbiter_host.base.model import Group, Model
from arbiter_host.helps import STATUSES
from arbiter_host.hold import hold
from arbiter_host.hold.harm import Harm, Shadow, Swings
from arbiter_host.setting import apply
from arbiter_host.sources import readings, task_times
from arbiter_host.subcommands.hold import Notifier, Service
from arbiter_host.top import metrics
from held import FREE, TWO, World, content, limit, said, started
from places import PACKAGE

SHARE = PACKAGE.parent / "share"
UNIT = SHARE / "systemd/arbiter-hold.service"
WEIGHTS = hold.Ways(has_weights=True)


def test_weights_of_a_tree():
    """A group with children has their sum, at most 10000. Without such a leaf it keeps its own."""
    model = Model(Host(2, 100000, 1000))
    for path, weight in (("p", 7), ("p/x", 5), ("p/y", 6), ("q", 8), ("q/z", 9), ("r", 3)):
        model.add(Group(path, weight))
    assert hold.tree_weights(model, {"p/x": 90, "r": 40}) == {
        "p": 96, "p/x": 90, "p/y": 6, "q": 8, "q/z": 9, "r": 40}
    assert hold.tree_weights(model, {"p/x": 9000, "p/y": 9000})["p"] == 10000


def busy(world, *paths):
    """A second in which groups want all and have a CPU each."""
    for path in paths:
        world.uses(path, 66, waited=10**6)


def weight(world, path):
    return (world.tree / path / "cpu.weight").read_text().strip()


def test_weights_are_written_and_put_back(folder, engine):
    """Limits 33 and 66 in `in` and 100 of `c`: weights 49 and 193, their sum 242, and 10000."""
    world = World(folder, [("in", 100, FREE), ("in/a", 100, FREE), ("in/b", 200, FREE),
                           ("c", 100, FREE)])
    before = killed_loop.settings(world.tree)
    loop, seen = world.loop(engine, folder / "undo", ways=WEIGHTS), []

    def look():
        seen.append([weight(world, path) for path in ("in", "in/a", "in/b", "c")])
        busy(world, "in/a", "in/b", "c")

    (line, _), _ = world.run(loop, lambda: busy(world, "in/a", "in/b", "c"), look)
    assert {path: each["limit"] for path, each in line["groups"].items()} in (
        {"in/a": 33, "in/b": 67, "c": 100}, {"in/a": 34, "in/b": 66, "c": 100})
    a, b = ("49", "197") if line["groups"]["in/a"]["limit"] == 33 else ("51", "189")
    assert seen == [[str(int(a) + int(b)), a, b, "10000"]]
    assert line["groups"]["c"]["weight"] == 10000 and line["written"] == 4
    assert killed_loop.settings(world.tree) == before and not (folder / "undo").exists()


def test_plan_is_of_the_operators_weights(world, engine, folder):
    """Written weights are no part of the next plan. One that the operator sets is, and stays."""
    loop, undo = world.loop(engine, folder / "undo", ways=WEIGHTS), []

    def all_busy():
        for path, throttled in (("a", 5), ("b", 5), ("c", 5)):
            world.uses(path, 66, throttled=throttled, waited=10**6)

    def set_weight():
        (world.tree / "a/cpu.weight").write_text("500\n")
        all_busy()

    def look():
        undo.append(json.loads((folder / "undo").read_text()))
        all_busy()

    lines = world.run(loop, all_busy, all_busy, set_weight, look)
    limits = [[each["limit"] for each in line["groups"].values()] for line, _ in lines]
    # 200 by 100, 100, 200; then by 500, 100, 200
    assert limits == [[50, 50, 100]] * 2 + [[125, 25, 50]] * 2
    assert {each["folder"]: each["weight"] for each in undo[0]["groups"]} == {
        "a": 500, "b": 100, "c": 200}
    assert [weight(world, path) for path in "abc"] == ["500", "100", "200"]


def test_a_left_limit_gets_its_weight_back(world, engine, folder, capsys):
    """Somebody sets a limit: it stays, and the weight that was written goes."""
    loop, seen = world.loop(engine, folder / "undo", ways=WEIGHTS), []

    def other():
        (world.tree / "a/cpu.max").write_text("70000 100000\n")
        busy(world, *"abc")

    def look():
        seen.append((weight(world, "a"), world.maximum("a")))
        busy(world, *"abc")
    world.run(loop, lambda: busy(world, *"abc"), other, look)
    assert seen == [("100", "70000 100000")]
    assert [world.maximum(path) for path in "abc"] == ["70000 100000", FREE, FREE]
    assert [weight(world, path) for path in "abc"] == ["100", "100", "200"]
    assert capsys.readouterr().err.count("its limit is left alone") == 1


def test_a_leaf_that_gets_children_and_weights(world, engine, folder):
    """It is a group with children from then on, and all weights are put back."""
    loop = world.loop(engine, folder / "undo", ways=WEIGHTS)
    lines = world.run(loop, lambda: busy(world, *"abc"),
                      lambda: (world.add("a/in"), busy(world, "b", "c")),
                      lambda: (world.uses("a/in", 66, waited=10**6), busy(world, "b", "c")),
                      lambda: shutil.rmtree(world.tree / "a/in"))
    assert [sorted(line["groups"]) for line, _ in lines] == [
        ["a", "b", "c"], ["b", "c"], ["a/in", "b", "c"], ["b", "c"]]
    assert [weight(world, path) for path in "abc"] == ["100", "100", "200"]
    assert [world.maximum(path) for path in "abc"] == [FREE] * 3


@pytest.mark.parametrize("before, now, seen", [
    ({7: (9, 9, 3)}, {7: (500, 509, 7, ("20", "0"))}, [(491, 500, 4, ("20", "0"))]),
    # one that came, one that went, and a number that was given to another task
    ({7: (1, 1), 8: (1, 1), 9: (8, 0)}, {7: (1, 1), 9: (7, 5), 10: (2, 2)}, [(0, 0, 0, ())]),
])
def test_tasks_at_both_readings(before, now, seen):
    """What each did is told of those alone that were there at both."""
    one, two = ({number: task_times.TaskTimes(*task) for number, task in found.items()}
                for found in (before, now))
    assert list(task_times.rises(one, two)) == seen


def test_tasks_are_read(folder, monkeypatch):
    """Of a list those that are there; a list of a group may have no number, and many."""
    monkeypatch.setattr(task_times, "PROC", str(folder))
    for number, text in ((12, "5 6 7\n"), (13, "nonsense\n"), (15, "8 9 1\n")):
        (folder / str(number)).mkdir()
        (folder / str(number) / "schedstat").write_text(text)
    assert task_times.tasks("12\n13\n14\n0\nx\n15\n") == {12: (5, 6, 0, ()), 15: (8, 9, 0, ())}
    # a name with a bracket and blanks, nice 19 and SCHED_BATCH; the other task has gone
    (folder / "12/stat").write_text(f"12 (a) b) S {' '.join(['0'] * 14)} 39 19"
                                    f" {' '.join(['0'] * 21)} 3 0 0\n")
    (folder / "12/status").write_text("Name:\ta\nvoluntary_ctxt_switches:\t41\nnonvoluntary: 7\n")
    assert task_times.tasks("12\n15\n", True) == {12: (5, 6, 41, ("39", "3")), 15: (8, 9, 0, ())}
    monkeypatch.setattr(task_times, "MOST_TASKS", 2)
    assert task_times.tasks("12\n13\n15\n") == {12: (5, 6, 0, ())}


@pytest.fixture
def begun(world, folder):
    """Begins tasks of c. Gives a step in which each runs for 55 % of a second and waits 44 %."""
    def begin(used, *tasks):
        files, times = [folder / f"proc/{task}/schedstat" for task in tasks], [0, 0]

        def write():
            for file in files:
                file.write_text(f"{times[0]} {times[1]} 1\n")

        def step():
            for place, rise in enumerate((55, 44)):
                times[place] += rise * 10**7
            write()
            world.uses("c", used, waited=440000)
            world.uses("a", 20)
            world.uses("b", 20)

        for file in files:
            file.parent.mkdir(parents=True)
        write()
        return step
    return begin


def test_a_group_below_its_limit_is_hungry(world, begun, engine, folder):
    """Linux gives c less than its limit: its task was awake, so it asks for the CPU that one task
    can use. It waited for less than half of the time. All of it is planned, so nobody is held."""
    step = begun(55, 100)
    lines = world.run(world.loop(engine, folder / "undo"), step, step, step)
    assert [line["groups"]["c"]["hungry"] for line, _ in lines] == [True] * 3
    # planned the CPU, of which it was not given 45
    assert lines[-1][0]["groups"]["c"] == {
        "want": 100, "plan": 100, "used": 55, "limit": None, "hungry": True, "guess": False,
        "unserved": 100 - 55}
    # 55, 20 and 20 of 100, 20 and 20
    assert lines[-1][0]["served"] == 0.6786


def test_a_group_of_many_tasks_asks_for_all(world, begun, engine, folder):
    """c has a task for each CPU, which waited. So it could use the host."""
    step = begun(110, 100, 101)
    (world.tree / "c/cgroup.threads").write_text("100\n101\n")
    lines = world.run(world.loop(engine, folder / "undo"), step, step)
    assert lines[-1][0]["groups"]["c"] == {
        "want": 1000000, "plan": 160, "used": 110, "limit": 160, "hungry": True, "guess": False,
        "unserved": 160 - 110}


@pytest.mark.parametrize("used, quota, is_hungry", [
    (49, FREE, False), (50, "50000 100000", True), (49, "50000 100000", False),
    (50, "25000 50000", True), (50, "1000000 1000000", False)])
def test_who_used_all_that_his_limit_allowed(folder, engine, used, quota, is_hungry):
    """He is hungry before the kernel counts that he was throttled. A burst is allowed, too."""
    world = World(folder, [("a", 100, quota), ("b", 100, FREE)])
    (line, _), = world.run(world.loop(engine), lambda: world.uses("a", used))
    assert line["groups"]["a"]["hungry"] == is_hungry
    if quota != FREE:
        (world.tree / "a/cpu.max.burst").write_text("1000\n")
        (line, _), = world.run(world.loop(engine), lambda: world.uses("a", used))
        assert not line["groups"]["a"]["hungry"]


def test_many_tasks_are_read_whole(folder):
    """A list of tasks is longer than a page of the kernel."""
    (folder / "g").mkdir()
    (folder / "g/cgroup.threads").write_text("".join(f"{number}\n" for number in range(5000)))
    root = safe_files.Root(str(folder))
    assert len(root.read("g", "cgroup.threads", task_times.MOST_TEXT).split()) == 5000
    root.close()


def test_depth(folder, engine):
    """A group at the depth is held as one, and what is below it stays as it stands."""
    world = World(folder, [("in", 100, FREE), ("in/a", 100, "30000 100000"), ("b", 100, FREE)])
    loop = world.loop(engine, folder / "undo", ways=hold.Ways(has_weights=True, depth=1))
    (line, stood), = world.run(loop, lambda: (world.uses("in", 90, waited=10**6),
                                              busy(world, "b")))
    assert sorted(line["groups"]) == ["b", "in"]
    assert stood == {"in": limit(100), "in/a": "30000 100000", "b": limit(100)}


@pytest.mark.parametrize("ways", [hold.Ways(), WEIGHTS])
def test_a_group_that_becomes_idle(world, engine, folder, ways):
    """Its limit is held and put back, by the loop and by `undo`; its weight is not written."""
    loop, undo = world.loop(engine, folder / "undo", ways=ways), []

    def idle():
        (world.tree / "a/cpu.weight").write_text("0\n")
        busy(world, *"abc")

    def look():
        undo.append((folder / "undo").read_bytes())
        busy(world, *"abc")
    lines = world.run(loop, lambda: busy(world, *"abc"), idle, look)
    assert lines[-1][0]["groups"]["a"]["limit"] == 1
    assert [weight(world, path) for path in "abc"] == ["0", "100", "200"]
    assert [world.maximum(path) for path in "abc"] == [FREE] * 3
    for path in "abc":
        (world.tree / path / "cpu.max").write_text(limit(1) if path == "a" else FREE)
    back = apply.read_undo(undo[0], "F")
    apply.undo(back, [])
    assert world.maximum("a") == FREE and weight(world, "a") == "0"
    assert len(back.left) == 1 and "idle (cpu.idle)" in back.left[0]


def test_unserved(world, engine, folder):
    """What a hungry group was not given of the plan that stood in the round."""
    loop = world.loop(engine, folder / "undo")

    def first():
        world.uses("a", 20)
        busy(world, "b", "c")

    def second():
        # planned 20, 60 and 120: b has 57, c 110, both were stopped
        world.uses("a", 18)
        world.uses("b", 57, throttled=4)
        world.uses("c", 110, throttled=1)

    (one, _), (two, _) = world.run(loop, first, second)
    assert [each["unserved"] for each in one["groups"].values()] == [0, 0, 0]
    assert [each["unserved"] for each in two["groups"].values()] == [0, 3, 10]
    assert (one["unserved"], two["unserved"]) == (0, 13)


def test_a_tree_without_the_controller(ctl, folder, world):
    """No group has a limit there: a fault. A tree without groups is none, since some may come."""
    trees.root2(folder / "none", enabled="io memory")
    (folder / "none/x").mkdir()
    words = ["--read", "2x1s", "--undo", folder / "u"]
    _, err = ctl.run("hold", folder / "none", "--root", folder / "none", *words, status=1)
    assert "the cpu controller is not enabled here (cgroup.subtree_control): no group" in err
    trees.root2(folder / "empty")
    out, err = ctl.run("hold", folder / "empty", "--root", folder / "empty", *words)
    assert json.loads(out)["groups"] == {} and "no groups with the cpu controller" in err


@pytest.mark.parametrize("outside, is_told", [(9 * 10**4, False), (5 * 10**5, True)])
def test_use_outside_the_tree(folder, engine, capsys, outside, is_told):
    """It is told once if it is above a twentieth of the CPUs, and changes no plan."""
    world = World(folder, [("in", 100, FREE), ("in/b", 100, FREE)], lacks="in/b")
    loop = hold.Loop(engine, safe_files.Root(str(world.tree)), str(world.tree / "in"), TWO,
                     clock=lambda: world.now)
    used = [0, 0]

    def step():
        used[0], used[1] = used[0] + 10**5 + outside, used[1] + 10**5
        (world.tree / "cpu.stat").write_text(f"usage_usec {used[0]}\n")
        (world.tree / "in/cpu.stat").write_text(f"usage_usec {used[1]}\n")
    lines = world.run(loop, step, step, step)
    assert [line["groups"]["b"]["limit"] for line, _ in lines] == [200] * 3
    said = f"0.5 CPUs are used outside {world.tree / 'in'}: its plan counts on all 2\n"
    assert capsys.readouterr().err.count(said) == is_told


def turning(world, turns):
    """Steps in which `a` wants all in each other second, and b in each."""
    def step():
        if next(turns) % 2:
            world.uses("a", 90, throttled=1, waited=10**6)
        world.uses("b", 90, throttled=1, waited=10**6)
    return step


def test_limits_that_go_back_and_forth(world, engine, folder, capsys):
    """The group that asks so is let go after its bound, and told. It has its own limit from then
    on, and moves no limit of others, which are held on. What stood is put back at the end."""
    step, last = turning(world, iter(range(1000))), 150
    lines = world.run(world.loop(engine, folder / "undo"), *[step] * last)
    assert len(lines) == last and not (folder / "undo").exists()
    assert [world.maximum(path) for path in "abc"] == [FREE] * 3
    told = f"a: held no longer: limits went back and forth for {JUDGED_ROUNDS} rounds\n"
    assert capsys.readouterr().err == f"arbiterctl: warning: {told}"
    limits = {path: [stood[path] for _, stood in lines] for path in "abc"}
    assert set(limits["a"][:JUDGED_ROUNDS]) - {FREE}
    assert set(limits["a"][JUDGED_ROUNDS + 2:]) == {FREE}
    assert len(set(limits["b"][JUDGED_ROUNDS + 4:])) == 1
    assert {line["groups"]["a"]["want"] for line, _ in lines[JUDGED_ROUNDS + 2:]} == {0}
    # (one that writes nothing lets go of nobody)
    shown = world.run(world.loop(engine), *[step] * last)
    assert len(shown) == last and capsys.readouterr().err == ""
    assert {line["groups"]["a"]["want"] for line, _ in shown[-2:]} != {0}


@pytest.mark.parametrize("values, wanted", [
    ([100] * 70, 0), ([0] * 70, 0), ([100, 90] * 35, 0), ([*range(50, 120)], 0),
    ([50, 90, 200] * 23, 0), ([200, 50] * 31, 60), ([50, 200] * 31 + [50, 50], 0)])
def test_what_goes_back_and_forth(calls, values, wanted):
    """For how many rounds up to the last: to a twentieth what it was two rounds before, and a
    quarter off the last one. What stays does not, also where it is nothing. A group that comes
    later is counted from then on."""
    swings = Swings(calls)
    for at, each in enumerate(values):
        swings.take({"a": each, "b": each} if at > 9 else {"a": each})
    assert swings.backs["a"] == wanted and swings.backs["b"] == max(wanted - 10, 0)


def of_round(held, **groups):
    """The line of a round: of each group what it used, its plan, and whether it is hungry, and by a
    guess."""
    return {"held": held, "groups": {
        path: {"used": used, "plan": plan, "limit": 50, "want": plan, "hungry": hungry,
               "guess": guess} for path, (used, plan, hungry, guess) in groups.items()}}


@pytest.mark.parametrize("free, last, paths, why", [
    # 90 of 100 while nobody was held, 84 of 100 then: who left most of the plan that stood
    (90, {"a": (14, 30, True, False), "b": (70, 70, True, False)}, ["a"],
     "84% of the plan was served, and 90% while nobody was held"),
    # 86 are not 5 hundredths less; nothing was planned
    (90, {"a": (16, 30, True, False), "b": (70, 70, True, False)}, [], ""),
    (80, {"a": (14, 30, True, False), "b": (70, 70, True, False)}, [], ""),
    (90, {"a": (0, 0, False, False)}, [], ""),
    # guesses of 50 and 40 beside 45 that are sure: the greatest is let go, and then both
    (90, {"a": (50, 50, True, True), "b": (40, 40, True, True), "c": (45, 45, True, False)}, ["a"],
     "who is hungry is mostly a guess here"),
    (90, {"a": (50, 50, True, True), "b": (40, 40, True, True), "c": (35, 35, True, False)},
     ["a", "b"], "who is hungry is mostly a guess here"),
    (90, {"a": (50, 50, True, True), "c": (50, 50, True, False)}, [], ""),
    # a guess that is 'served' is one too
    (90, {"a": (90, 100, False, True)}, ["a"], "who is hungry is mostly a guess here"),
])
def test_groups_to_which_limits_do_harm(calls, free, last, paths, why):
    """They are judged by so many rounds in which some were held, and not by others. After that
    the rounds are judged anew."""
    harm, last = Harm(calls, 200), of_round(1, **last)
    # (nobody lacked anything in the first two rounds)
    first = [of_round(held, a=(used, 100, True, False))
             for held, used in ((0, 9), (0, 9), (1, free))]
    assert [harm.take(each).paths for each in first] == [[]] * 3
    for _ in range(2 if paths else 1):
        before = [harm.take(last).paths for _ in range(JUDGED_ROUNDS - 1)]
        assert before == [[]] * (JUDGED_ROUNDS - 1)
        found = harm.take(last)
        assert sorted(found.paths) == paths and found.why.startswith(why) and len(found.told()) > 9
    few = Harm(calls, 200)
    assert [each for each in (few.take({**last, "held": 0}) for _ in range(2 * JUDGED_ROUNDS))
            if each.paths] == []


def test_groups_that_went_are_in_question_no_more(calls):
    """And no other in their place."""
    harm, there = Harm(calls, 200), {"b": (10, 10, True, True), "c": (50, 50, True, False)}
    for _ in range(JUDGED_ROUNDS):
        assert harm.take(of_round(1, a=(100, 100, True, True), **there)).paths == []
    assert harm.take(of_round(1, **there)).paths == []


def test_many_groups_are_told_in_one_line(calls):
    harm = Harm(calls, 200)
    groups = {f"g\x1b{number}": (9, 9, True, True) for number in range(8)}
    found = [harm.take(of_round(1, **groups)) for _ in range(JUDGED_ROUNDS + 1)][-1]
    assert found.told().startswith("g\\x1b0, g\\x1b1, ") and " and 3 more: held no" in found.told()


def guessing(world):
    """A step in which each group is hungry by a guess: none uses all that its limit allows."""
    for path, used in (("a", 40), ("b", 40), ("c", 90)):
        world.uses(path, used, waited=10**6)


def test_a_loop_with_nobody_left_ends(world, engine, folder, capsys):
    """With a status of its own, after what stood was put back. One that writes nothing goes on."""
    step = functools.partial(guessing, world)
    assert len(world.run(world.loop(engine), *[step] * 62)) == 62
    lines = []
    with pytest.raises(NoHelp, match="no group is left to be held") as fault:
        loop, world.after = world.loop(engine, folder / "undo"), [step] * 70
        hold.run(loop, readings.Times(number=None), world.wait, lines.append)
    assert len(lines) == JUDGED_ROUNDS + 1 and fault.value.status == 7
    assert "c, a, b: held no longer: who is hungry is mostly a guess" in capsys.readouterr().err
    assert [world.maximum(path) for path in "abc"] == [FREE] * 3 and not (folder / "undo").exists()


def test_a_loop_with_nobody_left_begins_anew():
    """Each end that nobody asked for is a failure to systemd, and none keeps the unit down."""
    assert NoHelp.status == 7 in STATUSES and option("Restart") == ["on-failure"]
    assert [option(name) for name in ("SuccessExitStatus", "RestartPreventExitStatus",
                                      "StartLimitBurst", "StartLimitIntervalSec")] == [[]] * 4


def test_a_shadow_run():
    """Means over all rounds, the farthest first; nothing where all are near their plans."""
    shadow = Shadow(100)
    for used in (10, 20):
        shadow.take({"groups": {path: {"used": used, "plan": plan, "hungry": False, "guess": False}
                                for path, plan in (("a", 20), ("b", 28), ("c", 0))}})
    assert shadow.told() == [
        "by weights 2 of 3 groups are more than 5 hundredths of a CPU off their plans: c +15,"
        " b -13"]
    assert Shadow(100).told() == []


def test_limits_of_one_round(ctl, world, folder):
    """With --once those of the last round alone are written, and stay. `undo` brings back what
    stood. Without --yes nothing is written, and it is told who is off."""
    before, undo = content(world.tree), folder / "u"
    words = ["hold", world.tree, "--root", world.tree, "--cpus", "2", "--period", "100ms",
             "--undo", undo, "--once", "--read"]
    with world.lacking():
        out, err = ctl.run(*words, "3x200ms")
        assert [json.loads(line)["written"] for line in out.splitlines()] == [0, 0]
        assert content(world.tree) == before and not undo.exists()
        assert "by weights 1 of 3 groups are more than 5 hundredths of a CPU off" in err
        out, err = ctl.run(*words, "3x200ms", "--yes")
    assert [json.loads(line)["written"] for line in out.splitlines()] == [0, 3]
    assert f"limits stand. To undo: arbiterctl undo {undo} --yes" in err
    assert world.maximum("a") == limit(50)
    ctl.run("undo", undo, "--yes")
    assert content(world.tree) == before
    undo.unlink()
    # nobody lacks anything: nothing is written
    out, err = ctl.run(*words, "x200ms", "--yes")
    assert json.loads(out)["written"] == 0 and err == "" and not undo.exists()
    _, err = ctl.run(*words, "x1s", "--by", "scheduler", status=2)
    assert "--weights and --once write files" in err


LINE = {
    "round": 7, "missed": 1, "written": 2, "held": 2, "served": 0.95, "unserved": 3, "groups": {
        'a"b\\c\n': {"want": 20, "plan": 20, "used": 19, "limit": 50, "hungry": False,
                     "guess": True, "unserved": 0},
        "b": {"want": 1000000, "plan": 60, "used": 57, "limit": 60, "hungry": True, "guess": False,
              "unserved": 3}}}
CALM = {
    "round": 8, "missed": 0, "written": 1, "held": 0, "served": 1.0, "unserved": 0, "groups": {
        "b": {"want": 5, "plan": 5, "used": 5, "limit": None, "hungry": True, "guess": False,
              "unserved": 0}}}


def held(line=None):
    """The metrics of a round on a host of two CPUs with slices of 1 ms in 100 ms."""
    return metrics.Held(line or LINE, Host(2, 100000, 1000))


def test_metrics_by_hand():
    """CPUs of slices; +Inf is everything, or no limit."""
    before = time.time()
    lines = metrics.text_of(held()).decode().split("\n")
    assert lines[-2:] == ["# EOF", ""]
    assert "# TYPE arbiter_hold_plan_cpus gauge" in lines
    found = dict(line.rsplit(" ", 1) for line in lines if line and not line.startswith("#"))
    at = found.pop("arbiter_hold_round_timestamp_seconds")
    assert before <= float(at) <= time.time()
    odd = 'group="a\\"b\\\\c\\\\x0a"'
    assert {key: float(value) for key, value in found.items()} == {
        f"arbiter_hold_want_cpus{{{odd}}}": 0.2,
        'arbiter_hold_want_cpus{group="b"}': float("inf"),
        f"arbiter_hold_plan_cpus{{{odd}}}": 0.2, 'arbiter_hold_plan_cpus{group="b"}': 0.6,
        f"arbiter_hold_used_cpus{{{odd}}}": 0.19, 'arbiter_hold_used_cpus{group="b"}': 0.57,
        f"arbiter_hold_limit_cpus{{{odd}}}": 0.5, 'arbiter_hold_limit_cpus{group="b"}': 0.6,
        f"arbiter_hold_unserved_cpus{{{odd}}}": 0, 'arbiter_hold_unserved_cpus{group="b"}': 0.03,
        f"arbiter_hold_hungry{{{odd}}}": 0, 'arbiter_hold_hungry{group="b"}': 1,
        f"arbiter_hold_guess{{{odd}}}": 1, 'arbiter_hold_guess{group="b"}': 0,
        "arbiter_hold_rounds": 7, "arbiter_hold_missed_rounds": 1,
        "arbiter_hold_written_groups": 2, "arbiter_hold_held_groups": 2,
        "arbiter_hold_served_ratio": 0.95}
    assert b'\narbiter_hold_want_cpus{group="b"} 0.05\n' in metrics.text_of(held(CALM))
    assert b'\narbiter_hold_limit_cpus{group="b"} +Inf\n' in metrics.text_of(held(CALM))


def test_metrics_of_the_scheduler():
    """Counts are there where the kernel's scheduler holds the round, and only there."""
    counts = {"picks": 5, "late": 1, "stops": 2, "unplanned": 3}
    said = metrics.text_of(held({**CALM, "scheduler": counts})).decode()
    found = dict(line.rsplit(" ", 1) for line in said.split("\n") if "scheduler" in line)
    assert {key: value for key, value in found.items() if not key.startswith("#")} == {
        f"arbiter_hold_scheduler_{name}_total": f"{value}.0" for name, value in (
            ("picks", 5), ("late_turns", 1), ("stops", 2), ("unplanned_tasks", 3))}
    assert "# TYPE arbiter_hold_scheduler_picks counter" in said
    assert "scheduler" not in metrics.text_of(held(CALM)).decode()


def test_dashboard_and_alerts_name_the_metrics():
    """They name metrics that there are; the dashboard draws all but three."""
    there = {name for name in re.findall(r"^# TYPE (\S+)", metrics.text_of(held()).decode(), re.M)}
    board, alerts = ({name for name in re.findall(r"arbiter_hold_\w+", path.read_text())}
                     for path in (SHARE / "grafana.json", SHARE / "alerts.yml"))
    assert there - board == {f"arbiter_hold_{name}" for name in (
        "rounds", "want_cpus", "unserved_cpus")}
    assert board <= there and len(alerts) >= 5 and alerts <= there


@pytest.mark.skipif(shutil.which("promtool") is None, reason="no promtool")
def test_alerts_are_what_prometheus_reads():
    subprocess.run(["promtool", "check", "rules", SHARE / "alerts.yml"], timeout=30, check=True)


@pytest.mark.skipif(shutil.which("promtool") is None, reason="no promtool")
def test_metrics_are_what_prometheus_reads():
    ended = subprocess.run(["promtool", "check", "metrics"], input=metrics.text_of(held()),
                           timeout=30, capture_output=True, check=False)
    assert b"error" not in ended.stderr.lower(), ended.stderr


def test_metrics_are_written_whole(folder):
    """An earlier file is replaced; a part stays unseen; other users change nothing."""
    (folder / "hold.prom").write_bytes(metrics.text_of(held()))
    (folder / "hold.prom").chmod(0o600)
    file, new = metrics.File(str(folder / "hold.prom")), held(LINE | {"round": 8})
    file.put(new)
    assert (folder / "hold.prom").read_bytes() == metrics.text_of(new)
    assert (folder / "hold.prom").stat().st_mode & 0o777 == 0o644
    (folder / ".hold.prom.part").symlink_to(folder / "elsewhere")
    with pytest.raises(HostFault):
        file.put(held())
    assert (folder / "hold.prom").read_bytes() == metrics.text_of(new)
    assert not (folder / "elsewhere").exists()
    file.remove()
    file.remove()
    assert not (folder / "hold.prom").exists()
    (folder / "open").mkdir()
    (folder / "open").chmod(0o777)
    with pytest.raises(HostFault, match="other users may change"):
        metrics.File(str(folder / "open/hold.prom"))
    with pytest.raises(HostFault):
        metrics.File(str(folder / "none/hold.prom"))
    assert not (folder / "none").exists()


def test_metrics_of_a_loop(ctl, world, folder):
    """They are there while it runs, and gone at its end."""
    path = folder / "hold.prom"
    loop = started(ctl, world, folder / "u", "-o", f"openmetrics={path}")
    loop.stdout.readline()
    text = path.read_text()
    assert text.endswith("# EOF\n") and 'arbiter_hold_limit_cpus{group="a"} 0.5\n' in text
    loop.send_signal(signal.SIGTERM)
    assert (said(loop), loop.returncode, path.exists()) == ([], 0, False)


def received(at):
    """The messages that are there."""
    found = []
    at.settimeout(0.5)
    try:
        while True:
            found.append(at.recv(4096).decode())
    except TimeoutError:
        return found


@pytest.mark.parametrize("is_abstract", [False, True])
def test_systemd_is_told(ctl, world, folder, is_abstract):
    """READY after the first reading, a sign of life at each round, and STOPPING at a signal."""
    name = f"\0arbiter-{os.getpid()}" if is_abstract else str(folder / "notify")
    with socket.socket(socket.AF_UNIX, socket.SOCK_DGRAM) as at:
        at.bind(name)
        ctl.environment.update(NOTIFY_SOCKET=name.replace("\0", "@"), WATCHDOG_USEC="300000")
        loop = started(ctl, world, folder / "u")
        loop.stdout.readline()
        loop.send_signal(signal.SIGTERM)
        assert (said(loop), loop.returncode) == ([], 0)
        found = received(at)
    assert set(found[:found.index("READY=1")]) <= {"WATCHDOG=1"} and found[-1] == "STOPPING=1"
    told = [each for each in found if each.startswith("WATCHDOG=1\nSTATUS=round ")]
    assert re.fullmatch("WATCHDOG=1\nSTATUS=round 1: 3 of 3 groups held, [0-9]+% of the plan"
                        " served, 0 slices unserved", told[0])
    assert found.count("WATCHDOG=1") >= 2


def test_watchdog_in_a_long_wait(folder):
    """A wait of ten times its part tells it more than once. Another process's is not ours."""
    with socket.socket(socket.AF_UNIX, socket.SOCK_DGRAM) as at:
        at.bind(str(folder / "n"))
        given = {"NOTIFY_SOCKET": str(folder / "n"), "WATCHDOG_USEC": "90000",
                 "WATCHDOG_PID": str(os.getpid())}
        told = Notifier(given)
        assert given == {} and told.every == Fraction(3, 100)
        begun = time.monotonic()
        assert Service(told).wait(0.3) is False
        assert time.monotonic() - begun >= 0.29
        # (a busy machine wakes it late)
        assert 2 <= len(received(at)) <= 12
    other = Notifier({"NOTIFY_SOCKET": "/nowhere", "WATCHDOG_USEC": "90000",
                             "WATCHDOG_PID": "1"})
    assert other.every is None
    other.send("READY=1")


def test_more_cpus_than_there_are(ctl, folder):
    """The real tree is not held for more CPUs than the machine has."""
    _, err = ctl.run("hold", "/sys/fs/cgroup", "--cpus", "60000", "--slice", "1s", "--undo",
                     folder / "u", status=2)
    assert f"this machine has {os.cpu_count()}" in err and not (folder / "u").exists()


@pytest.mark.parametrize("depth", ["0", "65"])
def test_depths_that_are_none(ctl, world, folder, depth):
    ctl.run("hold", world.tree, "--root", world.tree, "--undo", folder / "u", "--depth",
            depth, status=2)


def test_a_tree_elsewhere_than_the_root(ctl, world, folder):
    """A tree that is not below --root is refused, and nothing of it is written."""
    (folder / "other").mkdir()
    before = content(world.tree)
    _, err = ctl.run("hold", world.tree, "--root", folder / "other", "--undo", folder / "u",
                     "--yes", status=1)
    assert "not below --root" in err and content(world.tree) == before
    assert not (folder / "u").exists()


def option(name):
    """The values of an option of the unit."""
    return re.findall(rf"^{name}=(.*)$", UNIT.read_text(), re.M)


def test_unit_says_how_it_runs():
    """It is ready when told, watched, undone after each end, and nothing enables it."""
    assert option("Type") == ["notify"] and int(option("WatchdogSec")[0]) >= 10
    assert option("ExecStart") == ["/usr/bin/arbiterctl hold --yes --undo"
                                   " /run/arbiter/hold-undo.json $OPTIONS ${TREE}"]
    assert option("EnvironmentFile") == ["/etc/default/arbiter-hold"]
    assert "/etc/default/arbiter-hold" in option("ConditionPathExists")
    # its rounds are not wanted there, its faults are
    assert (option("StandardOutput"), option("StandardError")) == (["null"], ["journal"])
    rules = (UNIT.parents[1] / "debian/rules").read_text()
    assert "dh_installsystemd --no-enable --no-start" in rules


@pytest.mark.skipif(shutil.which("systemd-analyze") is None, reason="no systemd-analyze")
@pytest.mark.parametrize("name", ["hold", "schedule"])
def test_unit_is_hardened(name):
    """systemd's own measure of its exposure: at most 1.5 of 10."""
    unit = UNIT.with_name(f"arbiter-{name}.service")
    words = ["systemd-analyze", "security", "--offline=true", "--threshold=15", str(unit)]
    ended = subprocess.run(words, capture_output=True, text=True, check=False, timeout=60)
    assert ended.returncode == 0, ended.stdout[-200:]


def test_unit_undoes_after_a_kill(ctl, world, folder):
    """Its ExecStopPost puts back what stood and removes the undo file; without one it ends well."""
    (words,) = option("ExecStopPost")
    found = re.fullmatch(r"/bin/sh -c '(.*)'", words)
    line = found[1].replace("/run/arbiter", str(folder / "run")).replace(
        "/usr/bin/arbiterctl", f"{sys.executable} {PACKAGE / 'arbiterctl'}")
    (folder / "run").mkdir(mode=0o700)
    before, undo = content(world.tree), folder / "run/hold-undo.json"
    loop = started(ctl, world, undo, "--weights")
    loop.kill()
    loop.communicate(timeout=30)
    assert content(world.tree) != before and undo.exists()
    for _ in range(2):
        ended = subprocess.run(["/bin/sh", "-c", line], env=ctl.environment, check=False,
                               capture_output=True, timeout=60)
        assert ended.returncode == 0, ended.stderr
        assert content(world.tree) == before
        assert [path.name for path in Path(folder / "run").iterdir()] == ["hold.lock"]
