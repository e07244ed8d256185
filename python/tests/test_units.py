"""Conversions at the ends of their ranges, by values that were worked by hand."""
from fractions import Fraction

import owned_model
import pytest
from arbiter import Host, LimitFormula, PartKind
from arbiter_host.base import units
from arbiter_host.base.faults import HostFault
from arbiter_host.base.owned import Amounts
from arbiter_host.base.units import Slices
from arbiter_host.sources.pods import Container, Pod
from hypothesis import given
from hypothesis import strategies as st


@pytest.mark.parametrize("text, thousandths", [
    ("250m", 250), ("1.5", 1500), ("1.5cpu", 1500), ("2 cpus", 2000), ("40%", 400), ("0", 0),
    ("100n", Fraction(1, 10000)), ("1500u", Fraction(3, 2)), ("1e1", 10000), (".5", 500),
    ("1000000000", 10**12),
])
def test_cpu(text, thousandths):
    assert units.parse_cpu(text) == thousandths


@pytest.mark.parametrize("text", ["", "m", "-1", "1x", "1 2", "nan", "inf", "1e99", "1000000001",
                                  "٣", "1..2", "0x10"])
def test_cpu_refused(text):
    with pytest.raises(HostFault):
        units.parse_cpu(text)


@pytest.mark.parametrize("text, most, number", [
    ("7", 9, 7), ("0", 9, 0), ("999999999", 9, 999999999), ("1000000000", 9, None),
    ("1000000000", 30, 10**9), ("", 9, None), ("-1", 9, None), ("+1", 9, None), (" 1", 9, None),
    ("1.0", 9, None), ("٣", 9, None), ("1_0", 9, None),
])
def test_whole(text, most, number):
    assert units.whole(text, most) == number


@pytest.mark.parametrize("text, usec", [
    ("100ms", 100000), ("1s", 10**6), ("1min 30s", 90 * 10**6), ("5m", 300 * 10**6), ("17", 17),
    ("2min 4.5s", 124500000), ("0", 0),
])
def test_time(text, usec):
    assert units.parse_time(text) == usec


@pytest.mark.parametrize("text", ["", "ms", "1 x", "-1s", "1e99s", "infinity", "1s,"])
def test_time_refused(text):
    with pytest.raises(HostFault):
        units.parse_time(text)


@pytest.mark.parametrize("usec, own, period, slice_usec, slices", [
    (50000, 100000, 100000, 5000, 10), (50000, 200000, 100000, 5000, 5),
    (1000, 1000, 100000, 5000, 20), (12000, 100000, 100000, 5000, 2),
    (1000, 100000, 100000, 5000, 0), (10**15, 1000, 10**6, 1000, 10**15),
    (1000, 10**6, 1000, 1000, 0),
])
def test_limits_round_down(calls, usec, own, period, slice_usec, slices):
    assert Slices(calls, Host(1, period, slice_usec)).limit(usec, own) == slices


@pytest.mark.parametrize("thousandths, period, slice_usec, slices", [
    (0, 100000, 5000, 0), (1, 100000, 5000, 1), (50, 100000, 5000, 1), (51, 100000, 5000, 2),
    (1000, 100000, 1000, 100), (10**12, 10**6, 1000, 10**6), (Fraction(1, 10**6), 1000, 1000, 1),
])
def test_demands_round_up(calls, thousandths, period, slice_usec, slices):
    found = Slices(calls, Host(1, period, slice_usec)).demand(Fraction(thousandths))
    assert found == slices


@given(st.integers(0, 10**6), st.integers(1, 1000), st.integers(1, 1000))
def test_slices_convert_back(calls, slices, each, slice_ms):
    """Slices as thousandths of a CPU are the same slices again, on every host."""
    slice_usec = 1000 * slice_ms
    period = slice_usec * max(1, min(each, 10**6 // slice_usec))
    thousandths = units.thousandths_of_slices(slices, period, slice_usec)
    assert Slices(calls, Host(1, period, slice_usec)).demand(thousandths) == slices


@pytest.mark.parametrize("shares, linear, log", [
    (0, 1, 1), (2, 1, 1), (3, 1, 2), (102, 4, 17), (256, 10, 35), (512, 20, 59),
    (1024, 39, 100), (2048, 79, 174), (262143, 9999, 10000), (262144, 10000, 10000),
    (10**9, 10000, 10000), (2**70, 10000, 10000),
])
def test_weights_of_shares(calls, shares, linear, log):
    assert calls.owned_weight(units.OF_SHARES["linear"], shares) == linear
    assert calls.owned_weight(units.OF_SHARES["log"], shares) == log


@pytest.mark.parametrize("thousandths, shares, quota", [
    (0, 2, None), (1, 2, 1000), (2, 2, 1000), (250, 256, 25000), (1000, 1024, 100000),
    (3500, 3584, 350000), (256000, 262144, 25600000), (10**6, 262144, 10**8),
])
def test_kubelet(calls, thousandths, shares, quota):
    for formula in units.OF_SHARES.values():
        assert calls.owned_number(formula, thousandths) == shares
    assert calls.owned_limit(LimitFormula.THOUSANDTHS, thousandths) == (quota, 100000)


PARTS = st.lists(st.tuples(st.sampled_from(PartKind), st.integers(0, 10**12)), max_size=8)


@given(PARTS)
def test_pods_add_up(calls, parts):
    """What a pod's containers take at once is the amount of the library's call."""
    containers = [Container("each", Amounts(amount), kind=kind) for kind, amount in parts]
    kinds, amounts = [kind for kind, _ in parts], [amount for _, amount in parts]
    pod = Pod("space", "pod", "", calls, tuple(containers))
    assert pod.amounts == Amounts(owned_model.pod_amount(kinds, amounts), None)


@given(st.fractions(0, 10**6, max_denominator=10**6))
def test_cpu_text_is_read_back(thousandths):
    """What is written is read back exactly, or rounded up to a billionth of a CPU."""
    read = units.parse_cpu(units.cpu_text(thousandths))
    assert 0 <= read - thousandths < Fraction(1, 10**6)
    if thousandths.denominator == 1:
        assert read == thousandths


# Conversions by the C library


USECS = st.one_of(st.sampled_from([1000, 4999, 5000, 10**15]), st.integers(1000, 10**15))
PERIODS = st.one_of(st.sampled_from([1000, 100000, 10**6]), st.integers(1000, 10**6))
HOSTS = st.tuples(st.integers(1, 1000), st.integers(1, 1000)).map(
    lambda drawn: Host(1, 1000 * drawn[0] * min(drawn[1], 1000 // drawn[0]), 1000 * drawn[0]))
DEMANDS = st.one_of(st.integers(0, 2000), st.integers(0, 10**12), st.integers(0, 2**70),
                    st.fractions(0, 10**6, max_denominator=10**6),
                    st.fractions(0, 10**9, max_denominator=10**30))


@given(usec=USECS, own=PERIODS, host=HOSTS)
def test_limits_of_every_range(calls, usec, own, host):
    """The greatest number of slices that is in the quota's part of a period."""
    slices = Slices(calls, host).limit(usec, own)
    each = Fraction(host.slice_us, host.period_us)
    assert slices * each <= Fraction(usec, own) < (slices + 1) * each


@given(thousandths=DEMANDS, host=HOSTS)
def test_demands_of_every_range(calls, thousandths, host):
    """The least number of slices that has the demand, at most 1000000; also of parts of 1m."""
    slices = Slices(calls, host).demand(Fraction(thousandths))
    each = Fraction(1000 * host.slice_us, host.period_us)
    assert slices == units.MAX_DEMAND or thousandths <= slices * each
    assert slices == 0 or (slices - 1) * each < thousandths


@pytest.mark.parametrize("usec, own", [(10**15 + 1, 100000), (1000, 999), (2**64, 100000)])
def test_limits_that_the_library_refuses(calls, usec, own):
    with pytest.raises(HostFault):
        Slices(calls, Host()).limit(usec, own)


def test_conversions_of_many_cpus(calls):
    """A host of more CPUs than a plan takes has the conversions of its period and slice."""
    slices = Slices(calls, Host(1000, 100000, 1000))
    assert (slices.limit(50000, 100000), slices.demand(Fraction(251))) == (50, 26)
