"""A short run on Linux in a guest: what is judged is within its bounds, and faults are seen.

`./test --kernel` runs all scenarios.
"""
import pytest

from kernel import layout, machine, scenario
from kernel.planned import use
from laboratory import compare, deliberate, readings
from laboratory.__main__ import SCENARIOS

SPAN = layout.Span(seconds=3, settle=1)
SETTING = machine.Setting(shift=4, seconds=900)
GOOD = ("one-weights", "limit-below", "series-burst-set")
BAD = {"one-weights": "weights", "limit-below": "quota"}


@pytest.fixture(scope="module", name="outcomes")
def outcomes_of_one_guest(program, guests_kernel):
    """The outcomes of one guest, by scenario and fault."""
    found = {name: scenario.read(SCENARIOS / f"{name}.script") for name in GOOD}
    given = {(name, ""): found[name] for name in GOOD}
    given |= {(name, fault): deliberate.FAULTS[fault](found[name]) for name, fault in BAD.items()}
    work = layout.many([(" ".join(key), each, SPAN) for key, each in given.items()])
    runs = readings.runs(machine.run(guests_kernel, machine.Board(), SETTING, work))
    use(program.path)
    return {key: compare.outcome_of(found[key[0]], run, SPAN) for key, run in zip(given, runs)}


@pytest.mark.parametrize("name", GOOD)
def test_kernel_gives_what_is_planned(outcomes, name):
    """The run counts, something is judged, and nothing of it is wrong."""
    found = outcomes[name, ""]
    assert found.refusal == ""
    assert any(line.least is not None for line in found.lines)
    assert [(line.path, line.had) for line in found.wrong] == []


@pytest.mark.parametrize("name, fault", BAD.items())
def test_fault_is_seen(outcomes, name, fault):
    """Other weights and a quota in another group are out of bounds, in both groups."""
    found = outcomes[name, fault]
    assert found.refusal == ""
    assert {line.path for line in found.wrong} == {"a", "b"}


def test_counters_of_a_binding_limit(outcomes):
    """A limit that binds is counted in every period here and there."""
    found = outcomes["limit-below", ""]
    for key in ("nr_periods", "nr_throttled"):
        kernel, plan = found.kernel_counters["a"][key], found.plan_counters["a"][key]
        assert plan == 30 and abs(kernel - plan) <= 1
