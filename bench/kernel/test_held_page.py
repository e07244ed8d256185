"""Ways of holding a plan: what a guest is given, its rounds by the library, and the table."""
import itertools


from arbiter import Library
from kernel import scenario
from kernel.held import WAYS
from kernel.planned import use
from kernel.real_files import effective
from laboratory import __main__, held, held_page, held_rule, scheduled_page
from support import ROOT

PODS = scenario.read(__main__.SCENARIOS / "four-pods.script")
# Weights 200 and 100 and 100 of 400 slices; x and y of p have a task each, those of q share 1 to 3.
PODS_PLAN = {".": 400, "p": 200, "p/x": 100, "p/y": 100, "q": 100, "q/x": 75, "q/y": 25, "r": 100}


def test_plan_of_a_scenario(program):
    """Demands are cut at the tasks: p has two tasks, and so two processors."""
    use(program.path)
    assert held.plan(PODS) == PODS_PLAN


def test_what_a_guest_is_given(program):
    """Limits of 100 ms and 1 s, their bursts, and weights: 25 / 0.76 for r, q the sum 59 + 33."""
    use(program.path)
    assert held.held_by(PODS, WAYS["weights"]) is PODS
    limits = held.held_by(PODS, WAYS["limits-1s"]).files("cpu.max")
    assert limits == {"p/x": "1000000 1000000", "p/y": "1000000 1000000",
                      "q/x": "750000 1000000", "q/y": "250000 1000000", "r": "1000000 1000000"}
    bursts = held.held_by(PODS, WAYS["limits-burst"]).files("cpu.max.burst")
    assert bursts["q/x"] == "7500" and set(bursts) == set(limits)
    weights = held.held_by(PODS, WAYS["limits-weights"]).files("cpu.weight")
    assert weights == {"p": "10000", "p/x": "10000", "p/y": "10000", "q": "92", "q/x": "59",
                       "q/y": "33", "r": "33"}


def test_own_limits_stay(program):
    """A limit of the scenario that is no greater than the plan is not written over."""
    use(program.path)
    found = scenario.read(__main__.SCENARIOS / "four-limits.script")
    given = effective(held.held_by(found, WAYS["limits-1s"]))
    assert given["a"][1] == "150000 100000" and given["b"][1] == "60000 100000"
    assert given["c"][1] in ("630000 1000000", "640000 1000000")


def test_loop_is_begun_before_the_tasks():
    """With the groups in order, and the words of the way."""
    options = held.arguments(["four-pods"])
    way = WAYS["loop-weights-1s"]
    lines = held.Job(PODS, way, 0, held.span_of(way, options, 0)).script().split("\n")
    at = next(number for number, line in enumerate(lines) if line.startswith("/hold "))
    assert lines[at] == ("/hold $first $last 1000000000 1000000 4 w /sys/fs/cgroup/host"
                         " p p/x p/y q q/x q/y r &")
    assert all("/guest load" not in line for line in lines[:at])
    assert not any("/guest grid" in line for line in lines)


def saved(way, had, repeat=0):
    """A run of two groups whose shares are 150 and 50."""
    lines = [{"path": ".", "plan": 200, "share": 200.0, "had": float(sum(had))},
             {"path": "a", "plan": 150, "share": 150.0, "had": float(had[0])},
             {"path": "b", "plan": 50, "share": 50.0, "had": float(had[1])}]
    return {"release": "6.1.0-1", "way": way, "repeat": repeat, "scenario": "s", "key": way,
            "refusal": "", "others": 0.001, "leaves": ["a", "b"], "lines": lines, "rounds": []}


def test_table_by_hand(tmp_path):
    """b is 10 of 50 off by weights. By limits b is 3 of 50 off and then a 1 of 150; 98.5 and 99.5 %
    are served. Refused runs are left out."""
    runs = [saved("weights", (140, 60)), saved("limits", (150, 47)), saved("limits", (149, 50), 1),
            {**saved("limits", (0, 0)), "refusal": "late"}]
    path = tmp_path / "runs.jsonl.gz"
    for each in runs:
        held.add(str(path), each)
    found = held_page.read([str(path)])
    assert len(found) == 3
    rows = list(held_page.rows(found, "6.1", ["weights", "limits"]))
    assert rows[2] == "| `s` | 10.0, 1 | 2.0 (1.0 to 3.0), 99.0 %, 2 |"
    assert list(held_page.sums(found, "6.1", ["weights", "limits"]))[2:] == [
        "| weights | 1, 1 | 0 | 0 | 10.0 | 20 % | 100.0 % |",
        "| limits | 1, 2 | 1 | 0 | 3.0 | 6 % | 99.0 % |"]


def test_tables_are_written_into_a_page():
    """Each in the place of the one that begins as it does, and nothing else is changed."""
    page = "one\n\n| Scenario | old |\n|---|---|\n| x | y |\n\ntwo\n\n| Way | old |\n|---|\n\nend\n"
    found = [saved("weights", (140, 60))]
    one, two = "\n".join(held_page.of_page(found)).split("\n\n")
    assert held_page.written(page, found) == f"one\n\n{one}\n\ntwo\n\n{two}\n\nend\n"


def test_page_has_the_tables_of_the_runs():
    """docs/kernel/hold.txt has both tables, and says how many runs there are."""
    found = held_page.read([str(held_page.RUNS)])
    text = (ROOT / "docs/kernel/hold.txt").read_text(encoding="utf-8")
    assert "\n".join(held_page.of_page(found)) in text
    assert f"{len(found)} runs" in text


def test_rounds_of_the_runs_are_by_the_rule(library):
    """The library gives the plan and the limits of each round that the runs have. They were made
    when a round in which nobody lacks anything was held too."""
    calls, count, calm = Library(library), 0, 0
    for run in held_page.read([str(held_page.RUNS), str(scheduled_page.RUNS)]):
        found = scenario.read(__main__.SCENARIOS / f"{run['scenario']}.script")
        for _, each in itertools.groupby(run["rounds"], key=lambda line: line["round"]):
            lines = list(each)
            wanted = held_rule.by_the_rule(calls, found, WAYS[run["way"]], lines)
            for line in lines:
                assert wanted[line["path"]] in (
                    (line["plan"], line["limit"]), (line["plan"], None)), (run["key"], line)
            count += 1
            calm += all(limit is None for _, limit in wanted.values())
    assert count > 1000 and calm < count / 10
