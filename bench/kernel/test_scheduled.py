"""Short runs by the kernel's scheduler in guests: the plan is served by the proved rule, and the
scheduler goes when it ends.

It needs the newest kernel of Debian's backports, which is used where it was unpacked before
(`./test --kernel` with `--kernels 7`), or with ARBITER_GUESTS set.
"""
import json
import os
from pathlib import Path

import pytest

from kernel import interpreter, layout, machine, packages, scenario
from kernel.faults import KernelFault
from kernel.held import ENDS, WAYS
from kernel.planned import use
from laboratory import (compare, endured, held, held_page, outside, readings, scheduled_page,
                        traced)
from laboratory.__main__ import SCENARIOS
from support import scheduler_lacks

SPAN = layout.Span(seconds=3, settle=1, has_grid=False)
NAMES = ("two-three", "two-pinned")
# Hundredths of a CPU that a group may be off in three seconds, of what was served, and the least
# part that is. (In such a guest a CPU idles while the task that it picked is on its way from
# another one.)
MOST_OFF, LEAST_SERVED = 3.0, 0.98
# Of so many picks at most one goes before a task that waits for some CPUs.
MOST_PASSED = 20
# What `arbiterctl hold` itself holds; each run ends in its own way (`ENDS`). In the second one the
# plan changes each second.
LOOPS = ("two-eight", "two-flip")
# What it endured in a long run, and the seconds after which the watchdog sees a task that waits.
RUN = Path(__file__).with_name("runs") / "endured.json"
WATCHDOG = 20


@pytest.fixture(scope="module", name="newest")
def newest_kernel():
    """The newest kernel; a skip where it or a tool is missing."""
    lacks = packages.missing() or scheduler_lacks()
    if lacks:
        pytest.skip(lacks)
    there = list(packages.cache_folder().glob(f"linux-image-{packages.NEWEST}.*"))
    if not there and not os.environ.get(machine.ALL):
        pytest.skip(f"Linux {packages.NEWEST} is not unpacked")
    try:
        return packages.kernel(packages.NEWEST)
    except KernelFault as fault:
        pytest.skip(str(fault))


@pytest.fixture(scope="module", name="traced_runs")
def runs_with_traces(program, newest):
    """The scenarios, their runs by one load in a guest, and the trace of the scheduler's steps."""
    use(program.path)
    found = {name: scenario.read(SCENARIOS / f"{name}.script") for name in NAMES}
    lines, trace = traced.traces(newest, machine.Setting(4), list(found.values()), SPAN)
    return found, {run.key: run for run in readings.runs(lines)}, trace


@pytest.mark.parametrize("name", NAMES)
def test_the_plan_is_served(traced_runs, name):
    """Each group has what the plan gives it, a pinned task too; then weights rule again."""
    found, runs, _ = traced_runs
    outcome = compare.outcome_of(found[name], runs[name], SPAN)
    root, *groups = outcome.lines
    offs = {line.path: line.had * root.share / root.had - line.share for line in groups}
    assert {path: off for path, off in offs.items() if abs(off) > MOST_OFF} == {}
    assert root.had >= LEAST_SERVED * root.share
    assert any(f"ended after {len(NAMES)} plans; out of turn 0" in line
               for line in runs[NAMES[-1]].told)


def test_each_pick_is_one_that_the_rule_allows(traced_runs):
    """All of both plans, with tasks that are passed by on processors of their own."""
    if not traced.DISPATCH.is_file():
        pytest.skip(f"no {traced.DISPATCH}")
    replay = outside.Replay(traced_runs[2])
    assert traced.replayed(traced_runs[2]) == f"allowed: {replay.text.count('pick ')} picks"


def test_picks_before_a_bound_task(traced_runs):
    """Others go before the pinned task of the second plan, which waits for its CPU, and before one
    that the kernel keeps on a CPU for a moment. They are few. No other pick leaves the rule."""
    found = outside.Replay(traced_runs[2]).found
    assert set(+found) == {outside.ALLOWED, outside.BOUND}
    assert found[outside.ALLOWED] > MOST_PASSED * found[outside.BOUND] and found.total() > 1000


@pytest.fixture(scope="module", name="loops")
def runs_of_hold(program, newest):
    """The runs of `arbiterctl hold --by scheduler` in one guest: of a minute, one alone."""
    if not interpreter.LIBRARY.exists():
        pytest.skip(f"no {interpreter.LIBRARY}: ./build --install makes it")
    use(program.path)
    span = layout.Span(SPAN.seconds, 3, has_grid=False)
    jobs = [held.Job(scenario.read(SCENARIOS / f"{name}.script"), WAYS["hold"], number, span)
            for number, name in enumerate(LOOPS if machine.ALL in os.environ else LOOPS[:1])]
    return {each["scenario"]: each
            for each in held.ran(newest, jobs, machine.Setting(jobs[0].shift))}


@pytest.mark.parametrize("name", LOOPS)
def test_hold_serves_the_plan(loops, name):
    """What the loop itself uses is not the groups'. Nothing is written. Plans change."""
    if name not in loops:
        pytest.skip(f"it takes minutes: {machine.ALL}")
    check_hold(loops[name])
    plans = [each["flip"] for each in loops[name]["ended"]["plans"] if "flip" in each][-4:]
    assert not plans or min(plans) < 600 < max(plans)


def test_kept_runs_of_hold():
    """The loop was ended and killed, and its loader was killed."""
    found = held_page.read([str(scheduled_page.LOOPS)])
    for each in found:
        check_hold(each)
    assert {(each["ended"]["signal"], each["ended"]["whose"]) for each in found} == {*ENDS}


def check_hold(found):
    """The groups were near the plan. It ended at once by SIGTERM, by SIGKILL, and with the loader;
    no file of a group was written but the one that shows that a write is seen."""
    ended, (root, *_) = found["ended"], found["lines"]
    offs = [line["had"] - line["share"] for line in held_page.leaves(found)]
    assert (found["refusal"], ended["state"]) == ("", "enabled arbiter_plan")
    assert max(map(abs, offs)) <= MOST_OFF and root["had"] >= LEAST_SERVED * root["share"]
    assert set(ended["wrote"]) == {layout.place(".", "cpu.max.burst")}
    assert ended["ns"] is not None and ended["ns"] < 10**9
    assert ended["status"] == {15: 0, 9: 137 if ended["whose"] == "loop" else 1}[ended["signal"]]
    assert ended["whose"] == "loop" or "arbiter-scheduler" in ended["said"][-1]


def test_what_it_endures(newest):
    """It is attached five times, killed and ended; one that picks nobody ends by the watchdog."""
    if machine.ALL not in os.environ:
        pytest.skip(f"it takes minutes: {machine.ALL}")
    found = endured.shown(newest, 5, 1)
    check_endured(found, 5, 1)


def test_what_it_endured():
    """The run of 500 times and four loads that is kept."""
    check_endured(json.loads(RUN.read_text(encoding="utf-8")), 500, endured.LOADS)


def test_page_has_the_tables():
    """docs/kernel/scheduler.txt has what the runs give."""
    page = scheduled_page.PAGE.read_text(encoding="utf-8")
    assert [table for table in scheduled_page.tables() if table not in page] == []


def check_endured(found, cycles, loads):
    """All ended as they should, no slower than in a second, the watchdog's within its time. Of what
    was attached no map, program or link is left, and as much memory but for 4 MiB."""
    times = found["milliseconds"]
    assert set(map(tuple, found["objects"].values())) == {(0, 0, 0)}
    assert found["free_kib"]["first"] - found["free_kib"]["last"] < 4096
    assert (found["cycles"], found["enabled"]) == (str(cycles), 2 * loads)
    assert [len(times[name]) for name in ("killed", "ended", "stalled")] == [loads, loads, 1]
    assert max(times["killed"] + times["ended"]) < 1000
    assert times["stalled"][0] < 1000 * (WATCHDOG + WATCHDOG / 2)
    assert "the kernel ended the scheduler" in found["said"] and "stall" in found["kernel"]
    assert all(used > 0 for name in ("before", "after") for used in found["used"][name].values())
