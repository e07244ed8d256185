"""The parts of the comparison that need no guest: exact shares, bounds, scripts and faults."""
import json
import re
from fractions import Fraction

import pytest

from laboratory import __main__ as main
from kernel import layout, machine, packages, real_apply, scenario
from kernel import planned as chosen
from laboratory import compare, deliberate, exact, kept, kinds, page, planned, readings, table
from laboratory.__main__ import SCENARIOS, batches, sources
from kernel.faults import KernelFault
from support import ROOT

ALL = sorted(path.stem for path in SCENARIOS.glob("*.script"))
# A plan in slices of 1 ms of 1 s is this near to exact shares, in hundredths of a processor, per
# group on the way.
FINE = 0.3


def of(text):
    """The scenario of a script."""
    return scenario.parse("here", text)


def shares(text, supply=Fraction(1)):
    """The exact shares of a script."""
    return exact.means(of(text), supply, 0, 1)


@pytest.mark.parametrize("text, wanted", [
    ("mkdir a\nmkdir b\nwrite b cpu.weight 300\ndemand a 100\ndemand b 100\n",
     {".": 100, "a": 25, "b": 75}),
    ("mkdir a\nmkdir b\nmkdir c\ndemand a 10\ndemand b 100\ndemand c 100\n",
     {".": 100, "a": 10, "b": 45, "c": 45}),
    ("mkdir p\nwrite p cpu.max 50000\nmkdir p/x\nmkdir p/y\nwrite p/y cpu.weight 300\nmkdir j\n"
     "demand p/x 100\ndemand p/y 100\ndemand j 20\n",
     {".": 70, "p": 50, "p/x": Fraction(25, 2), "p/y": Fraction(75, 2), "j": 20}),
    # one task of each: the greater weight cannot use more than a processor
    ("#: --processors 2 --tasks 1\nmkdir a\nmkdir b\nwrite b cpu.weight 300\ndemand a 200\n"
     "demand b 200\n", {".": 200, "a": 100, "b": 100}),
])
def test_shares_by_hand(text, wanted):
    """Shares that were worked by hand."""
    assert shares(text) == wanted


def test_series_by_hand():
    """A quota of 20 and a burst of 20: idle, then 40, and then 20 a period."""
    text = ("mkdir a\nwrite a cpu.max 20000\nwrite a cpu.max.burst 20000\ndemand a 0\nperiod\n"
            "demand a 100\nperiod\nperiod\n")
    # the first round has saved 20 in its idle period, as has each one after it
    assert exact.means(of(text), Fraction(1), 1, 1)["a"] == Fraction(0 + 40 + 20, 3)


@pytest.mark.parametrize("name", [name for name in ALL if not name.startswith("series")])
def test_shares_are_fine_plans(program, name):
    """The program's plan in small slices is near to the exact shares where no task cuts them."""
    chosen.use(program.path)
    found = scenario.read(SCENARIOS / f"{name}.script")
    if found.is_series:
        pytest.skip("a series has no plan of one period")
    step = found.steps[0]
    cut = {path: int(exact.usable(found, path, slices) * 10) for path, slices in step.items()}
    found.period, found.slice, found.steps = 1000000, 1000, [cut]
    lines = [" ".join(words) for words in found.settings]
    lines += [f"demand {path} {slices}" for path, slices in cut.items()]
    answer = planned.answers(found, [*lines, "plan"])[-len(found.paths) - 1:]
    plan = {path: int(amount) / 10 for amount, path in (line.split(" ", 1) for line in answer)}
    wanted = exact.means(found, Fraction(1), 0, 1)
    assert max(abs(plan[path] - wanted[path]) for path in wanted) < FINE


def lines_of(found, had):
    """Judged lines with these amounts."""
    wanted = exact.means(found, Fraction(1), 0, 1)
    lines = [compare.Line(path, 0, float(wanted[path]), float(had.get(path, wanted[path])))
             for path in wanted]
    compare.judge(found, lines, Fraction(1))
    return {line.path: line for line in lines}


TWO = "#: --processors 2\nmkdir a\nmkdir b\nwrite b cpu.weight 300\ndemand a 200\ndemand b 200\n"


@pytest.mark.parametrize("text, path, off, is_wrong", [
    ("mkdir a\nmkdir b\ndemand a 100\ndemand b 100\n", "a", 0.29, False),
    ("mkdir a\nmkdir b\ndemand a 100\ndemand b 100\n", "a", -0.31, True),
    ("mkdir a\nwrite a cpu.max 20000\ndemand a 100\n", "a", 0.19, False),
    ("mkdir a\nwrite a cpu.max 20000\ndemand a 100\n", "a", -0.21, True),
    (TWO, "a", 0.9, False), (TWO, "a", 1.1, True),
    # fewer tasks than processors: printed and not judged
    (TWO.replace("#:", "#: --tasks 1"), "a", 40, False),
])
def test_bounds(text, path, off, is_wrong):
    """What is just within a bound is right, what is just out of it is wrong."""
    found = of(text)
    share = exact.means(found, Fraction(1), 0, 1)[path]
    assert lines_of(found, {path: float(share) + off})[path].is_wrong is is_wrong


def test_bounds_of_a_series():
    """From the plan to one quota and 4 ms more in each busy stretch; the sibling both ways."""
    found = of("mkdir a\nwrite a cpu.max 20000\nmkdir b\n"
               + "demand b 100\ndemand a 0\nperiod\n" * 5
               + "demand a 100\nperiod\n" * 5)
    lines = lines_of(found, {})
    assert (lines["a"].least, lines["a"].most) == (pytest.approx(9.7), pytest.approx(12.7))
    assert (lines["b"].least, lines["b"].most) == (pytest.approx(87.3), pytest.approx(92.7))


@pytest.mark.parametrize("name", ALL)
def test_scenario_has_loads(name):
    """Each scenario is one that the guest can run, and asks for something."""
    found = scenario.read(SCENARIOS / f"{name}.script")
    text = layout.script(found, layout.Span())
    assert found.about and re.search(r"^/guest in \S+ (nice 19 )?(load|farm) ", text, re.MULTILINE)
    assert text.count("mkdir ") == len(found.paths) + 1


def test_options_may_have_several_lines():
    """Each line `#:` adds to those before it."""
    found = of("#: --processors 2 --tasks a=3\n#: --pin b=2\n#: --tasks b=5\nmkdir a\nmkdir b\n"
               "demand a 100\ndemand b 100\n")
    assert found.processors == 2
    assert [(leaf.tasks, leaf.cpus) for leaf in found.leaves.values()] == [(3, 3), (5, 2)]


@pytest.mark.parametrize("flags, wanted", [
    ("fpu vme vmx ssse3", True), ("fpu svm", True), ("fpu svm_lock vmxoff", False), ("", False)])
def test_processor_that_runs_guests(flags, wanted):
    """KVM alone is not enough: a flag of the processor, whole."""
    text = f"processor\t: 0\nflags\t\t: {flags}\nbugs\t\t: vmx\n"
    assert machine.runs_guests(text) is wanted


def test_host_file_is_a_scenario(tmp_path):
    """Its host, limits and numbers of tasks; a demand is cut at what its tasks can use."""
    file = tmp_path / "small.toml"
    file.write_text("[host]\ncpus = 4\nslice = '1ms'\n[groups.web]\nweight = 300\ndemand = '3cpu'\n"
                    "[groups.batch]\nmax = '20%'\ndemand = '4cpu'\ntasks = 2\n")
    found, = sources([str(file)])
    assert (found.name, found.processors, found.period, found.slice) == ("small", 4, 10**6, 1000)
    assert found.files("cpu.weight") == {"web": "300"}
    assert found.files("cpu.max") == {"batch": "20000 100000"}
    assert {path: (leaf.demands, leaf.tasks) for path, leaf in found.leaves.items()} == {
        "web": ((3000,), 3), "batch": ((2000,), 2)}


def test_runs_of_a_boot():
    """All repeats of each scenario, so many to a boot, and never of different processors."""
    one, two = of("mkdir a\ndemand a 1\n"), of("#: --processors 2\nmkdir a\ndemand a 1\n")
    found = list(batches([two, one, two], 3, 4))
    assert [[(each.processors, repeat) for each, repeat in runs] for runs in found] == [
        [(1, 0), (1, 1), (1, 2)], [(2, 0), (2, 1), (2, 2), (2, 0)], [(2, 1), (2, 2)]]


@pytest.mark.parametrize("clocks, wanted", [("0", "unseen (the guest has no clock of it)"),
                                            ("2", "1.0%")])
def test_stolen_time_is_told_where_it_is_seen(clocks, wanted):
    """A guest without a clock of stolen time does not say that none was stolen."""
    run = readings.Run("here", guest={"steal": clocks})
    assert table.stolen(compare.Outcome(of("mkdir a\n"), run, stolen=0.01)) == wanted


def test_spread_tasks_keep_to_one_processor_each():
    """Three tasks on two processors: the first, the second, the first; pinned ones stay within."""
    text = "mkdir a\nmkdir b\ndemand a 300\ndemand b 300\n"
    spread = of(f"#: --processors 2 --tasks 3 --spread --pin b=2\n{text}").leaves
    assert [spread["a"].mask(number) for number in range(3)] == [1, 2, 1]
    assert [spread["b"].mask(number) for number in range(3)] == [2, 2, 2]
    free = of(f"#: --processors 2 --tasks 3\n{text}")
    assert [free.leaves["a"].mask(number) for number in range(3)] == [3, 3, 3]
    assert compare.is_even(free)
    assert not compare.is_even(of(f"#: --processors 2 --tasks 3 --spread\n{text}"))


def test_runs_are_announced():
    """2 kernels, 5 repeats, 12 s: one processor at half, two at one, eight at four."""
    options = main.arguments(["x"])
    found = [of(f"#: --processors {number}\nmkdir a\ndemand a 100\n") for number in (1, 2, 8)]
    for count, start in ((1, "10 runs of 10 s in guests of Linux 6.1 and 6.12: about 1 min of"),
                         (2, "20 runs of 10 s in guests of Linux 6.1 and 6.12: about 3 min of"),
                         (3, "30 runs of 10 s in guests of Linux 6.1 and 6.12: about 11 min of")):
        assert main.announced(found[:count], options).startswith(start)


def test_program_is_asked_before_a_guest(monkeypatch, tmp_path):
    """A program that cannot run ends the command before a kernel is had and a guest is booted."""
    broken = tmp_path / "arbiter"
    broken.write_text("#!/bin/sh\nexit 2\n")
    broken.chmod(0o755)
    begun = []
    monkeypatch.setattr(chosen, "chosen", [broken])
    monkeypatch.setattr(packages, "missing", lambda: "")
    monkeypatch.setattr(packages, "kernel", begun.append)
    with pytest.raises(KernelFault, match="arbiter run: status 2"):
        main.work(["one-weights"])
    assert begun == []


def test_board_of_a_scenario():
    """Eight processors in two sockets: the emulator's words, and boots of that board alone."""
    eight = of("#: --processors 8 --sockets 2\nmkdir a\ndemand a 800\n")
    assert eight.board.words == ("-smp", "8,sockets=2")
    assert (eight.leaves["a"].tasks, eight.leaves["a"].cpus) == (8, 255)
    flat = of("#: --processors 8\nmkdir a\ndemand a 800\n")
    assert [len(each) for each in batches([eight, flat], 3, 12)] == [3, 3]
    shifts = [main.setting_of(main.arguments(words), eight.board).shift
              for words in ([], ["--shift", "5"], ["--tcg"])]
    assert shifts == [3, 5, None] and machine.Board(4).shift == 4


def test_features_are_set_and_set_back():
    """The scheduler has its own features again when the run is over."""
    found = of("#: --features HRTICK,NO_PLACE_LAG\nmkdir a\ndemand a 100\n")
    lines = layout.script(found, layout.Span()).splitlines()
    kept = lines.index(f"features=$(cat {layout.FEATURES})")
    assert lines[kept + 1].startswith(f"echo HRTICK > {layout.FEATURES} ||")
    assert lines[kept + 2].startswith(f"echo NO_PLACE_LAG > {layout.FEATURES} ||")
    assert lines[-1] == f"for word in $features; do echo $word > {layout.FEATURES}; done"
    assert layout.FEATURES not in layout.script(of("mkdir a\ndemand a 100\n"), layout.Span())


def test_page_of_saved_runs(tmp_path):
    """The furthest group, its range over repeats, and how often it was out of bounds."""
    def saved(release, had, least):
        line = {"path": "g/a", "share": 20, "had": had, "least": least, "most": 20.2}
        top = {"path": ".", "share": 20, "had": 99, "least": None, "most": None}
        return json.dumps({"release": release, "scenario": "one-weights", "refusal": "",
                           "others": 0.001, "lines": [top, line],
                           "tasks": [{"path": "g/a"}]}) + "\n"
    file = tmp_path / "saved"
    file.write_text(saved("6.1.0-9", 20.1, 19.8) + saved("6.12.1", 20.5, 19.8)
                    + saved("6.12.1", 19.9, 19.8))
    found = page.read([str(file)])
    assert list(page.rows(found))[2:] == [
        "| `one-weights` | a +0.10 (1) | within | a -0.10 to +0.50 (2) | out: a 1 |"]
    assert page.totals(found).startswith("3 runs, 3 groups judged, 1 out of bounds, 0 runs refused")


def test_page_of_counters_and_offsets():
    """Counters of a limited group by kernel with their ranges, and differences by offset."""
    def saved(release, periods, offset, had):
        counters = dict.fromkeys(readings.KEYS, 0) | {"nr_periods": periods, "burst_usec": 20400}
        return {"release": release, "scenario": "series-burst", "offsets": {"a": offset},
                "lines": [{"path": "a", "share": 10, "had": had}], "tasks": [{"path": "a"}],
                "plan": {"a": counters | {"nr_periods": 9}}, "kernel": {"a": counters}}
    found = [saved("6.12.1", 7, 50000, 12.25), saved("6.12.1", 8, 3000, 10.5),
             saved("6.1.0-9", 7, None, 10)]
    assert list(page.counter_rows(found)) == [
        "| `series-burst` a | 9 / 0 / 0 / 0 / 20 | 6.1: 7 / 0 / 0 / 0 / 20,"
        " 6.12: 7 to 8 / 0 / 0 / 0 / 20 |"]
    assert list(page.offset_rows(found)) == ["| `series-burst` a | 6.1 |  |",
                                             "| `series-burst` a | 6.12 | 3: +0.50, 50: +2.25 |"]


@pytest.mark.parametrize("kind, text", [
    ("even", "#: --processors 2\nmkdir a\nmkdir b\ndemand a 200\ndemand b 200\n"),
    ("uneven", "#: --processors 2 --tasks a=1\nmkdir a\nmkdir b\ndemand a 100\ndemand b 200\n"),
    ("nested", "#: --processors 2\nmkdir a\nmkdir a/x\ndemand a/x 100\n"),
    ("nested", "mkdir a\nmkdir a/x\ndemand a/x 100\n"), ("even", "mkdir a\ndemand a 100\n"),
    ("idle", "#: --processors 2\nmkdir a\nmkdir b\ndemand a 200\ndemand b 30\n"),
    ("beside", "mkdir a\nwrite a cpu.max 50000\ndemand a 100\n"),
    ("short", "mkdir a\nwrite a cpu.max 50000\nmkdir b\nwrite b cpu.max 5000 20000\ndemand a 100\n"
     "demand b 100\n")])
def test_kind_of_a_host(kind, text):
    """By limits, by the time that groups are idle, by numbers of tasks, and by levels."""
    assert kinds.kind_of_host(kept.host_of(of(text))) == kind


def test_a_binding_limit_is_a_kind_of_its_own():
    """One of 30 of 100 whose share is 29.7, since others used 1 %; not one of 60 with 50."""
    host = kept.host_of(of("mkdir a\nwrite a cpu.max 30000\nmkdir b\nwrite b cpu.max 60000\n"
                           "demand a 100\ndemand b 100\n"))
    found = [kinds.seen("h", host, *each, -1.5).kind for each in (("a", 29.7), ("b", 50))]
    assert found == ["limited", "beside"]


def test_cells_by_hand():
    """19 groups are too few for nine of ten. Of 20 with 1 to 20 points the 19th is within 19, and
    20 of 40 is half. A worst one counts as that alone; a bound has no share."""
    groups = [kinds.Seen("h", 2, "even", number, 40) for number in range(1, 21)]
    assert kinds.cell(groups[:19]) == "(19.0, 48 %)" and kinds.cell(groups) == "19.0 (20.0, 50 %)"
    assert kinds.cell([*groups, kinds.Seen("h", 2, "even", -30, 300, True)]) == "19.0 (30.0, 50 %)"
    assert kinds.cell([kinds.Seen("h", 2, "even", 0.04, 50)]) == "(0.0, 1 %)"
    assert kinds.cell([kinds.Seen("h", 1, "even", 0.05, 0, True)]) == "(0.1)"
    assert kinds.cell([]) == ""


def test_told_runs_are_read():
    """The furthest of a row, with its exact share; a list of those within a bound; no series."""
    text = ("| `two-pod` | y -1.84 to +0.10 (5) | within | y -36.62 to +5.62 (5) | out: pod 1 |\n"
            "| `series-burst` a | 6.1 | 2: +0.45 |\n| `four-node-pinned` | queue -4.50 (2) | x |\n"
            "Within 0.6 on both: `two-three`, `two-limit-least`.\n")
    found = [(each.host, each.kind, each.off, each.share) for each in kinds.of_told_runs(text)]
    assert found[:3] == [("two-pod", "beside", -1.84, 90), ("two-pod", "beside", -36.62, 90),
                         ("two-three", "even", 0.6, 0)]
    least = [("two-limit-least", kind, 0.6, 0) for kind in ("beside", "limited")]
    assert sorted(found[3:]) == least


def test_page_has_the_table_of_all_runs():
    """docs/LINUX.md and docs/kernel/hosts.txt have what the runs give."""
    found = kinds.all_seen()
    assert "\n".join(kinds.rows(found)) in kinds.PAGE.read_text(encoding="utf-8")
    assert kinds.HOSTS.read_text(encoding="utf-8") == "\n".join(kinds.hosts(found)) + "\n"


def test_runs_are_of_scenarios():
    """docs/kernel/runs.txt names each scenario, and none that is not there."""
    text = (ROOT / "docs/kernel/runs.txt").read_text(encoding="utf-8")
    named = set(re.findall(r"`((?:one|two|four|eight|limit|series)-[a-z-]+)`", text))
    assert sorted(named) == ALL


@pytest.mark.parametrize("line", ["rmdir a", "demand a", "nonsense", "period\nmkdir b"])
def test_what_is_no_scenario(line):
    """Lines that a guest cannot follow are refused by name."""
    with pytest.raises(KernelFault, match="has no place"):
        of(f"mkdir a\n{line}\n")


def test_weights_are_swapped():
    """The fault changes what the guest is given, and nothing else."""
    found = scenario.read(SCENARIOS / "one-weights.script")
    wrong = deliberate.swapped_weights(found)
    assert found.files("cpu.weight") == {"b": "300"}
    assert wrong.files("cpu.weight") == {"a": "300", "b": "100"}


def test_quota_is_moved():
    """The limit stands in the other group."""
    found = scenario.read(SCENARIOS / "limit-below.script")
    wrong = deliberate.moved_quota(found)
    assert (list(found.files("cpu.max")), list(wrong.files("cpu.max"))) == (["a"], ["b"])
    assert wrong.paths == found.paths


def test_guest_lines_are_read():
    """A run's counters, tasks and quota periods."""
    text = ["kernel 6.1", "clock tsc", "steal 2", "run here",
            "times 1000000 2000000 3000000", "ready 900000 1",
            "grid /sys/fs/cgroup/host/a/cpu.stat 1500000", "at 2000000",
            "file /sys/fs/cgroup/host/a/cpu.stat", "usage_usec 5", "nr_periods 1",
            "file /proc/stat", "cpu  1 2 3 4 5 6 7 8", "at 3000000",
            "file /sys/fs/cgroup/host/a/cpu.stat", "usage_usec 9", "nr_periods 3",
            "file /proc/stat", "cpu  1 2 3 4 5 6 7 9",
            "others 17 68", "task a 9 10 0 2 3 40 2"]
    run, = readings.runs(text)
    assert run.rose()["a"]["usage_usec"] == 4 and run.rose()["a"]["nr_periods"] == 2
    assert run.offset("a", 1000) == 500
    assert run.ready == 900000 and run.told == []
    assert run.guest == {"kernel": "6.1", "clock": "tsc", "steal": "2"}
    assert [task.seen for task in run.tasks] == [(40, 2)]
    one, two = run.readings
    assert two.others == 0.25 and two.ticks[7] - one.ticks[7] == 1


@pytest.mark.parametrize("late, others, ready, why", [
    (0, 0, 0, ""), (21000000, 0, 0, "counters were read 21 ms late"),
    (0, 0.02, 0, "0.0% stolen, 2.0% used by others"),
    (0, 0, 7000000, "tasks were started 7 ms late")])
def test_run_is_refused(program, late, others, ready, why):
    """A run that was begun or read late, or in which others ran, says nothing."""
    chosen.use(program.path)
    found = of("mkdir a\ndemand a 100\n")
    groups = [{path: dict.fromkeys(readings.KEYS, number) for path in (".", "a")}
              for number in (0, 0)]
    run = readings.Run("here", (0, 0, 1000000000), [
        readings.Reading(late, 0, groups[0], (0,) * 8),
        readings.Reading(1000000000 + late, others, groups[1], (0,) * 8)], ready=ready)
    outcome = compare.Outcome(found, run, kernel_counters=run.rose())
    compare.spent(outcome, 1000000)
    assert outcome.refusal == why
    assert outcome.as_data()["late"] == ready // 1000 and outcome.as_data()["stat"] == [0] * 8


def test_steps_of_apply_are_read():
    """What each step showed, by name; a guest that made fewer steps is refused."""
    names = ["made", *(step["name"] for step in real_apply.steps())]
    shown = {"status": 1, "said": ["x"], "groups": {"a": ["1", "2", "3"]}}
    lines = [json.dumps({"phase": name, **shown}) for name in names]
    found = real_apply.read(["kernel 6.12", *lines], len(names) - 1)
    assert list(found) == names
    assert found["undo"] == real_apply.Phase(1, ["x"], {"a": ("1", "2", "3")})
    with pytest.raises(KernelFault, match="did not make all steps"):
        real_apply.read(lines[:-1], len(names) - 1)


@pytest.mark.parametrize("second", [[], ["at 3", "file /sys/fs/cgroup/host/b/cpu.stat"]])
def test_unfinished_guest_is_refused(second):
    """A run without its second reading is no run, nor is one whose readings have other groups."""
    lines = ["run here", "times 1 2 3", "at 2", "file /sys/fs/cgroup/host/a/cpu.stat",
             "usage_usec 5", *second, "usage_usec 9", "task a 9 10 0 2 3 40 2"]
    with pytest.raises(KernelFault, match="did not read it whole"):
        list(readings.runs(lines))


def test_a_task_that_never_began_is_refused():
    """Each task that was started has its line; a command that the guest lacks has none."""
    lines = ["run here", "times 1 2 3", "ready 1 2", "at 2", "at 3", "task a 9 10 0 2 3 40 2",
             "sh: chrt: not found"]
    with pytest.raises(KernelFault, match=r"1 of 2 tasks .* never began: \['sh: chrt: not found'\]"):
        list(readings.runs(lines))
    assert len(list(readings.runs([*lines, "task a 9 10 0 2 3 40 2"]))) == 1
