"""The model of placement: against runs of guests that are kept, the rule of queues, its words."""
import json
import time
from fractions import Fraction

import pytest

from arbiter import Host
from arbiter_host.answers import explain, placement
from arbiter_host.answers.balancer import Run
from arbiter_host.base.model import Group, Model
from arbiter_host.base.plan import plan
from kernel import scenario
from laboratory import firm, kept

# How far a firm group may be from its exact share, in CPUs.
FIRM_WITHIN = 0.03


def host(processors, *groups):
    """A host of groups: path, weight, demand in thousandths, tasks, and a quota."""
    model = Model(Host(processors, 100000, 1000))
    for path, weight, demand, tasks, *quota in groups:
        model.add(Group(path, weight, quota[0] if quota else None, demand=Fraction(demand),
                        tasks=tasks))
    return model


@pytest.mark.parametrize("set_, least_firm, most_off, least_ranged, most_out", [
    ("made", 16, 0, 150, 4), ("review", 30, 0, 90, 2), ("trial", 60, 0, 55, 1),
    ("chance", 14, 3, 80, 2), ("again", 0, 0, 140, 2), ("eight", 0, 0, 134, 9)])
def test_kept_runs(set_, least_firm, most_off, least_ranged, most_out):
    """Firm groups have their shares, and nearly all others are in their ranges. Both are those of
    docs/kernel/firm.txt."""
    found = firm.judged(set_)
    assert len(found.firm) >= least_firm and len(found.off) <= most_off, found.off
    assert all(each <= FIRM_WITHIN for each in found.firm)
    assert found.ranged >= least_ranged and len(found.out) <= most_out, found.out
    assert firm.row(set_, found) in firm.FILE.read_text(encoding="utf-8").splitlines()


SCRIPT = """#: --processors 2 --tasks a=1
mkdir a
write a cpu.max 50000 200000
mkdir b
write b cpu.weight 300
demand a 200
demand b 30
"""


def test_saved_runs_are_kept(tmp_path, monkeypatch):
    """A saved run is kept with its host; refused or held runs and those of one CPU are not."""
    monkeypatch.setattr(kept, "KEPT", tmp_path / "kept.json.xz")
    lines = [{"path": path, "share": share, "had": had}
             for path, share, had in ((".", 55, 54), ("a", 25, 24.5), ("b", 30, 29.5))]
    for name, first in (("own", ""), ("single", "#: --processors 1\n")):
        (tmp_path / f"{name}.script").write_text(SCRIPT + first)
    run = {"scenario": "own", "release": "6.12", "refusal": "", "lines": lines}
    runs = [run, {**run, "refusal": "others"}, {**run, "scenario": "single"},
            {**run, "way": "limits"}]
    (tmp_path / "saved.json").write_text("".join(json.dumps(each) + "\n" for each in runs))
    kept.main(["set", str(tmp_path / "saved.json")])
    kept.main(["set", str(tmp_path / "saved.json")])
    found = kept.kept()
    assert [run["groups"] for run in found["runs"]] == 2 * [{"a": [0.25, 0.245],
                                                             "b": [0.3, 0.295]}]
    assert list(found["hosts"]) == ["own"]
    assert found["hosts"]["own"]["groups"] == [
        {"path": "a", "weight": 100, "quota": 50000, "period": 200000, "burst": 0,
         "demand": 1000.0, "tasks": 1},
        {"path": "b", "weight": 300, "quota": None, "period": 100000, "burst": 0,
         "demand": 300.0, "tasks": 1}]


def test_hosts_drawn_by_a_seed(tmp_path):
    """A seed gives the same hosts again, another gives others, and the model can be tried on each.
    """
    for seed, folder in (("7", "one"), ("7", "again"), ("8", "other")):
        kept.main(["--draw", seed, str(tmp_path / folder)])
    one, again, other = (sorted((tmp_path / folder).iterdir())
                         for folder in ("one", "again", "other"))
    assert [each.name for each in one] == [each.name for each in again] and len(one) == 10
    assert [each.read_text() for each in one] == [each.read_text() for each in again]
    texts = {each.read_text().partition("\n")[2] for each in (*one, *other)}
    assert len(texts) == 20
    found = [scenario.read(each) for each in (*one, *other)]
    hosts = [kept.host_of(each) for each in found]
    assert all(kept.is_kept(each) and each.unjudged for each in found)
    for each in hosts:
        assert placement.unknown_of(firm.host_of(each)) == ""
        asked = sum(group["demand"] for group in each["groups"])
        assert asked > 1000 * each["processors"] >= 2000
    # Some have limits, groups below others, and tasks that sleep.
    groups = [group for each in hosts for group in each["groups"]]
    assert any(group["quota"] for group in groups) and any("/" in group["path"] for group in groups)
    assert any(0 < group["demand"] % 1000 for group in groups)
    with pytest.raises(FileExistsError):
        kept.main(["--draw", "7", str(tmp_path / "one")])
    for words in (["--draw", "../7", str(tmp_path)], ["--frob", "x"], []):
        with pytest.raises(SystemExit):
            kept.main(words)


def test_rates_follow_the_weights_of_queues():
    """A task's part of its CPU is its planned share over the sum of those of the CPU's tasks."""
    shape = placement.shape_of(host(
        3, ("p", 300, 0, None), ("p/x", 70, 3000, 3), ("p/y", 500, 2000, 2), ("q", 20, 0, None),
        ("q/z", 1, 1000, 1), ("q/w", 9, 4000, 4), ("r", 100, 3000, 3)))
    whole = Fraction(420)
    shares = {"p/x": Fraction(300 * 70, 570 * 3) / whole,
              "p/y": Fraction(300 * 500, 570 * 2) / whole, "q/z": Fraction(20, 10) / whole,
              "q/w": Fraction(20 * 9, 10 * 4) / whole, "r": Fraction(100, 3) / whole}
    for seed in range(5):
        run = Run(shape, seed)
        run.look()
        loads = [sum(shares[task.group.path] for task in shape.tasks if task.cpu == cpu)
                 for cpu in range(3)]
        for task in shape.tasks:
            assert task.rate == pytest.approx(float(shares[task.group.path] / loads[task.cpu]))
    assert placement.grain(shape) == pytest.approx(float(3 * max(shares.values())))


def is_firm(found):
    """Whether all groups are firm."""
    return all(each.is_firm for each in found.ranges.values())


def test_firm_and_ranged():
    """Two tasks each on two CPUs are firm. Three tasks on two CPUs are not."""
    even = placement.outlook(host(2, ("a", 100, 2000, 2), ("b", 300, 2000, 2)))
    assert is_firm(even) and even.ranges["a"].low <= 0.5 <= even.ranges["a"].high
    ranged = placement.outlook(host(2, *((each, 100, 1000, 1) for each in "abc")))
    assert not is_firm(ranged) and ranged.ranges["a"].low < 0.6 and ranged.ranges["a"].high > 0.7


def test_a_limit_that_binds_is_not_firm():
    """A limit that binds may be reached in part; one that is far off changes nothing."""
    model = host(2, ("a", 100, 2000, 2, 50000), ("b", 100, 2000, 2))
    found = placement.outlook(model).ranges
    assert found["a"].low < 0.48 and found["a"].high == 0.5 and not found["a"].is_firm
    below = placement.outlook(host(2, ("a", 100, 0, None, 50000), ("a/x", 9, 2000, 2),
                                   ("b", 100, 2000, 2))).ranges
    assert below["a/x"].high == 0.5 and not below["a/x"].is_firm and below["b"].is_firm
    far = placement.outlook(host(2, ("a", 100, 2000, 2, 190000), ("b", 300, 2000, 2)))
    assert is_firm(far)


@pytest.mark.parametrize("model, why", [
    (host(1, ("a", 100, 1000, 1)), "one CPU"),
    (host(2), "nothing is asked for"), (host(2, ("a", 100, 0, None)), "nothing is asked for"),
    (host(2, ("a", 100, 500, None), ("b", 100, 500, 1), ("c", 1, 0, None)),
     "groups that ask and have no number of tasks: 1"),
    (host(2, ("a", 100, 2000, 10**9)), "more than 512 tasks or 64 CPUs"),
    (host(65, ("a", 100, 2000, 2)), "more than 512 tasks or 64 CPUs"),
])
def test_what_is_not_known(model, why):
    """Without tasks, or with too much of anything, nothing is tried."""
    assert placement.outlook(model) == placement.Outlook({}, why)


@pytest.mark.parametrize("demand, quota, is_tried", [(2000, None, True), (700, 50000, False)])
def test_a_hundred_groups_take_a_second(demand, quota, is_tried):
    """A hundred groups are tried in a second, or soon told to be too many."""
    rows = [(f"p{at}", 10 + at, 0, None) for at in range(10)]
    rows += [(f"p{at}/c{to}", 20 + 7 * to, demand, 2, quota) for at in range(10)
             for to in range(9)]
    begun = time.process_time()
    found = placement.outlook(host(8, *rows))
    assert time.process_time() - begun < 2
    assert bool(found.ranges) == is_tried
    assert found.why_not == ("" if is_tried else "too many groups, tasks and CPUs")


def lines(engine, model, **view):
    """The lines of explain on placement."""
    found = plan(engine, model)
    return list(explain.placed(found, explain.View(**view), placement.outlook(model)))


def test_lines_of_explain(engine):
    """Firm groups are counted, and each other one has its range beside the plan."""
    assert lines(engine, host(2, ("a", 100, 2000, 2), ("b", 300, 2000, 2))) == [
        "", "firm to 0.03 CPUs, wherever tasks run: 2 of 2 groups", explain.UNKNOWN_NOTE]
    ranged = lines(engine, host(2, *((each, 100, 1000, 1) for each in "abc")))
    assert ranged[:3] == ["", "what Linux may give a group by where tasks run (a model):",
                          "  from    to  gets  group"]
    assert [line.split()[3] for line in ranged[3:-1]] == ["a", "b", "c"]
    assert ranged[-1] == explain.UNKNOWN_NOTE
    for line in ranged[3:-1]:
        low, high, gets = map(float, line.split()[:3])
        assert low < gets < high and low < 0.62 and high > 0.7
    assert lines(engine, host(2, ("a", 100, 2000, None), ("b", 1, 2000, 2))) == [
        "", "Linux may differ by where tasks run; how far is not known:",
        "  groups that ask and have no number of tasks: 1"]


@pytest.mark.parametrize("model", [
    host(1, ("a", 100, 1000, 1), ("b", 100, 1000, 1)),    # one CPU
    host(2, ("a", 100, 1000, 1), ("b", 100, 500, 1)),     # each has what it wants
    host(2, ("a", 100, 1000, 1, 50000), ("b", 100, 1000, 1, 50000)),    # limits alone
])
def test_no_lines_where_weights_decide_nothing(engine, model):
    """Where no weight decides, or there is one CPU, nothing is said."""
    assert not lines(engine, model)


def test_many_ranges_are_cut(engine):
    """The widest ranges are told, and the number of the others."""
    model = host(8, *((f"g{at}", 50 + 8 * at, 1000, 1) for at in range(25)))
    found = lines(engine, model)
    assert len(found) == 3 + 20 + 2
    assert found[-2] == "  and 5 with narrower ranges; -o json has all"


def test_data_of_explain(engine):
    """A group as data is firm or has a range in all units, and the host has the grain."""
    model = host(2, *((each, 100, 1000, 1) for each in "abc"))
    found = plan(engine, model)
    data = explain.as_data(found, explain.View(), placement.outlook(model))
    assert data["placement"] == {"not_known": None, "grain": 0.6667}
    group = data["groups"][1]["placement"]
    assert group["firm"] is False
    assert group["from"]["slices"] <= data["groups"][1]["gets"]["slices"] < group["to"]["slices"]
    unknown = with_unknown(engine)
    assert unknown["groups"][1]["placement"] is None
    assert unknown["placement"]["not_known"].endswith("no number of tasks: 1")


def test_a_plan_out_of_the_runs_is_not_firm(engine):
    """Where all runs are alike and the plan is beside them, the range reaches from one to the
    other."""
    model = host(2, ("a", 100, 2000, 2), ("b", 300, 2000, 2))
    found, beside = plan(engine, model), placement.Bounds(0.55, 0.555, True)
    told = explain.range_data(found, found.groups[1], placement.Outlook({"a": beside}))
    assert told["firm"] is False
    assert (told["from"]["slices"], told["to"]["slices"]) == (50, 56)


def with_unknown(engine):
    """The data of a host with a group whose tasks are not known."""
    model = host(2, ("a", 100, 2000, None), ("b", 1, 2000, 2))
    found = plan(engine, model)
    return explain.as_data(found, explain.View(), placement.outlook(model))
