"""The model: equal hosts, limits, tasks, reasons, and plans that the check refuses."""
from fractions import Fraction

import arbiter
import pytest
from arbiter import Host, Row
from arbiter_host.base.faults import HostFault
from arbiter_host.base.model import Group, Model, checked, planned
from arbiter_host.base.plan import Engine, plan
from chances import cases
from hypothesis import HealthCheck, given, settings
from hypothesis import strategies as st


@pytest.mark.parametrize("host, wanted", [
    (Host(64, 100000, 1000), Host(64, 100000, 1000)),
    (Host(96, 100000, 1000), Host(64, 150000, 1000)),
    (Host(128, 100000, 5000), Host(64, 40000, 1000)),
    (Host(192, 100000, 1000), Host(64, 300000, 1000)),
    (Host(97, 100000, 1000), Host(50, 194000, 1000)),
    (Host(640, 100000, 1000), Host(64, 1000000, 1000)),
])
def test_equal_host(calls, host, wanted):
    assert planned(calls, host) == wanted
    assert wanted.capacity == host.capacity


@pytest.mark.parametrize("host, words", [
    (Host(0), "1 to 64000"), (Host(1, 999, 999), "1000 to 1000000"),
    (Host(1, 100000, 300), "slice"),
    (Host(1, 100000, 3000), "which it divides"),
])
def test_refused_hosts(host, words):
    with pytest.raises(HostFault, match=words) as fault:
        checked(host)
    assert fault.value.status == 2


@pytest.mark.parametrize("host, words", [
    (Host(641, 100000, 1000), "64100 slices"), (Host(1009, 1000, 1000), "1009 slices"),
])
def test_hosts_of_no_capacity(calls, host, words):
    with pytest.raises(HostFault, match=words) as fault:
        planned(calls, host)
    assert fault.value.status == 2


def many(cpus):
    """Two groups on a host, the second of twice the weight, both asking for all."""
    model = Model(Host(cpus, 100000, 1000))
    model.add(Group("a", demand=Fraction(1000 * cpus)))
    model.add(Group("b", 200, demand=Fraction(1000 * cpus)))
    return model


def test_more_than_64_cpus(engine):
    """96 CPUs are planned as 9600 slices: a third and two thirds."""
    found = plan(engine, many(96))
    assert [group.gets for group in found.groups] == [9600, 3200, 6400]
    assert found.thousandths(found.root.gets) == 96000


def test_tasks_cut_the_demand(engine):
    """Two tasks use two CPUs at most, and the reason says so."""
    model = Model(Host(4, 100000, 1000))
    model.add(Group("a", demand=Fraction(4000), tasks=2))
    model.add(Group("b", demand=Fraction(1000)))
    found = plan(engine, model)
    assert [group.gets for group in found.groups] == [300, 200, 100]
    assert found.reason(found.groups[1]).name == "tasks"
    assert found.reason(found.groups[1]).words == "all that its 2 tasks can use at once"
    assert found.reason(found.groups[2]).name == "all"


@st.composite
def models(draw):
    """Small models of every form of tree."""
    model = Model(Host(draw(st.integers(1, 128)), 100000, draw(st.sampled_from([1000, 5000]))))
    paths = ["."]
    for number in range(draw(st.integers(0, 8))):
        above = draw(st.sampled_from(paths))
        path = f"n{number}" if above == "." else f"{above}/n{number}"
        quota = draw(st.one_of(st.none(), st.integers(1000, 300000)))
        model.add(Group(path, draw(st.integers(1, 10000)), quota,
                        draw(st.sampled_from([1000, 50000, 100000, 1000000]))))
        paths.append(path)
    for path, below in model.children().items():
        if path != "." and not below:
            model.groups[path].demand = Fraction(draw(st.integers(0, 9000)))
    return model


@settings(max_examples=cases(60), deadline=None, suppress_health_check=list(HealthCheck))
@given(model=models())
def test_reasons_hold(engine, model):
    """Each reason is true of the amounts."""
    one = plan(engine, model)
    for group in one.groups:
        reason = one.reason(group)
        if reason.name == "all":
            assert group.gets == group.want > 0
        elif reason.name == "own limit":
            assert group.gets == group.limit < group.want
        elif reason.name == "limit above":
            cut = one.by_path()[reason.cause]
            assert cut.gets == cut.limit < cut.want and group.path.startswith(cut.path + "/")
        elif reason.name == "the host is full":
            assert one.root.gets == one.capacity


class Liar(arbiter.Library):
    """The library with other amounts beside its certificate."""

    def certify(self, host, rows):
        """One slice more for row 1, and one less for row 2."""
        amounts, certificate = super().certify(host, rows)
        return [amounts[0], amounts[1] + 1, amounts[2] - 1], certificate


def test_believes_no_library(library):
    """Amounts that were changed after they were certified are refused by the check."""
    rows = [Row(), Row(0, demand=20), Row(0, demand=20)]
    with pytest.raises(HostFault, match="the check refused the plan: error 5[78]"):
        Engine(Liar(library)).plan(Host(1, 100000, 5000), rows)
