"""Small hosts of five groups, which Hypothesis draws."""
from fractions import Fraction

from arbiter import Host
from arbiter_host.base.model import Group, Model
from chances import cases
from hypothesis import HealthCheck, settings
from hypothesis import strategies as st

PATHS = ["a", "b", "c", "a/x", "a/y"]


def some(count):
    """The settings of a test of so many hosts."""
    return settings(max_examples=cases(count), deadline=None,
                    suppress_health_check=[HealthCheck.function_scoped_fixture])


@st.composite
def models(draw, least=1):
    """Hosts with demands, and limits from so many slices on."""
    model = Model(Host(draw(st.integers(1, 3)), 100000, 20000))
    for path in PATHS:
        quota = draw(st.none() | st.integers(least, 12).map(lambda slices: 20000 * slices))
        demand = 0 if path == "a" else draw(st.integers(0, 12)) * 200
        model.add(Group(path, draw(st.integers(1, 400)), quota, demand=Fraction(demand)))
    return model
