"""What audit does not know of placement: the kernel, and tasks that sleep, fork or are nice."""
from dataclasses import replace
from fractions import Fraction

import pytest
from arbiter_host.answers import placement
from arbiter_host.audit import causes, unknown
from arbiter_host.base.demands import CounterReading
from arbiter_host.sources import task_times, readings
from test_audit import TWO, cell, interval


@pytest.mark.parametrize("release, why", [
    ("6.1.0-49-amd64", ""), ("6.12.117+deb13", ""), ("5.10", ""), ("odd", ""),
    ("6.13.1", "kernels after 6.12, as 6.13.1, differ"), ("7.3.4", "kernels after 6.12, as 7.3.4,"
                                                          " differ")])
def test_kernels_that_are_not_known(release, why):
    assert unknown.of_kernel(release) == why


PLAIN = ("20", "0")


def task(ran, sleeps=5, rank=PLAIN):
    """A task that ran for so many hundredths of a second."""
    return task_times.TaskTimes(ran * 10**7, 0, sleeps, rank)


@pytest.mark.parametrize("used, tasks, why", [
    (90, [task(50), task(40, 20)], ""), (90, [task(50), task(40, 21)], unknown.SLEEPERS),
    (90, [task(50), task(40, 5, ("39", "0"))], unknown.NICE),
    (90, [task(50), task(40, 5, ("20", "3"))], unknown.NICE),
    # all are alike, or the other one hardly runs
    (90, [task(50, 5, ("39", "0"))] * 2, ""), (50, [task(50), task(0, 99, ("39", "0"))], ""),
    # they ran for half of what was used, and for less
    (100, [task(50)], ""), (101, [task(50)], unknown.FORKS),
    # nothing of weight was used, or nothing is known of tasks, as in copies
    (0, [task(0, 99)], ""), (90, [], "")])
def test_tasks_that_are_not_known(used, tasks, why):
    """Hundredths of a CPU that a group used in a second, and its tasks."""
    none = {number: task_times.TaskTimes(0, 0) for number, _ in enumerate(tasks)}
    risen = CounterReading(usage=used * 10**4)
    assert unknown.of_tasks(readings.Span(risen, Fraction(1), none, dict(enumerate(tasks)))) == why


def test_placement_is_not_told_where_it_is_not_known(monkeypatch):
    """Neither beside one group that is not known, nor on such a kernel; no model is run."""
    monkeypatch.setattr(placement, "outlook", lambda _: placement.Outlook(
        {"a": placement.Bounds(0.4, 0.6, False)}))
    one, two = cell(510, 500), cell(1, 1)
    found = [interval(TWO, a=one, b=each) for each in (replace(two, unknown=unknown.NICE), two)]
    outlooks = causes.Outlooks(found)
    assert [causes.cause_of(found, place, "a", outlooks) for place in range(2)] == [
        causes.NOTHING, causes.PLACEMENT]
    assert list(outlooks.why_not) == [f"{unknown.NICE}, in groups: 1"]
    outlooks = causes.Outlooks(found, "kernels")
    assert causes.cause_of(found, 1, "a", outlooks) == causes.NOTHING
    assert list(outlooks.why_not) == ["kernels"]
