"""Reasons, guarantees and least settings of the C library, in words and followed."""
from fractions import Fraction

import arbiter
import pytest
from arbiter import Host, Kind, Reason
from arbiter_host.answers import explain
from arbiter_host.base.faults import HostFault
from arbiter_host.base.model import Group, Model
from arbiter_host.base.plan import Engine, asking, guarantees, plan
from arbiter_host.tune import single_settings
from arbiter_host.tune.goals import Goals, goals_of


def host_of_each_reason():
    """20 slices, and a group for each reason."""
    model = Model(Host(1, 100000, 5000))
    for path, weight, quota, demand in (
            ("idle", 100, None, 0), ("all", 100, None, 50), ("limited", 100, 10000, 500),
            ("pod", 100, 20000, 0), ("pod/one", 100, None, 500), ("pod/two", 300, None, 500),
            ("less", 100, 1000, 500), ("full", 100, None, 5000)):
        model.add(Group(path, weight, quota, demand=Fraction(demand)))
    return model


# 1 slice of `all`, 2 of `limited`, 4 of `pod`, and the 13 that are left are of `full`.
REASONS = {
    ".": ("the host is full", "the host is full", "."),
    "idle": ("nothing asked", "nothing asked", None),
    "all": ("all", "all that it wants", None),
    "limited": ("own limit", "its own limit", "limited"),
    "pod": ("own limit", "its own limit", "pod"),
    "pod/one": ("limit above", "limit of pod above: weight 100 of 400", "pod"),
    "pod/two": ("limit above", "limit of pod above: weight 300 of 400", "pod"),
    "less": ("own limit", "its own limit, less than a slice", "less"),
    "full": ("the host is full", "the host is full: weight 100 of 400", "."),
}
KINDS = [(4, None), (0, None), (1, None), (2, None), (2, None), (3, 4), (3, 4), (2, None),
         (4, None)]


def test_reasons_by_hand(engine):
    """The words of each reason, and its kind."""
    found = plan(engine, host_of_each_reason())
    reasons = {group.path: found.reason(group) for group in found.groups}
    assert {path: (each.name, each.words, each.cause) for path, each in reasons.items()} == REASONS
    assert found.reasons == KINDS


def two_groups():
    """One CPU of 20 slices. Both groups want all of it, and each gets a half."""
    model = Model(Host(1, 100000, 5000))
    for path in ("a", "b"):
        model.add(Group(path, demand=Fraction(1000)))
    return model


@pytest.fixture
def answering(library):
    """An engine whose library gives other answers to questions, by their names."""
    def made(**answers):
        found = arbiter.Library(library)
        for name, answer in answers.items():
            # (each answer is bound to its own function)
            def call(*_, answer=answer):
                return answer
            call.__name__ = name
            setattr(found, name, call)
        return Engine(found)
    return made


def test_explain_follows_the_library(answering):
    """The kind and the group to blame are the library's. Python words them."""
    reasons = [Reason(Kind.HOST_FULL), Reason(Kind.OWN_LIMIT), Reason(Kind.LIMIT_ABOVE, 1)]
    found = plan(answering(reasons=reasons), two_groups())
    assert found.reasons == reasons
    words = {each["group"]: (each["reason"], each["words"], each["cause"])
             for each in explain.as_data(found)["groups"]}
    assert words == {".": ("the host is full", "the host is full", "."),
                     "a": ("own limit", "its own limit, less than a slice", "a"),
                     "b": ("limit above", "limit of a above: weight 100 of 200", "a")}


def singles_of(engine, model):
    """The settings alone with which a gets 550m."""
    before = plan(engine, model)
    return single_settings.each_of(Goals(before, goals_of(before, ["a=550m"]), False))


def test_answers_follow_the_library(answering):
    """Guarantees and settings alone are the library's numbers, and its words for none."""
    engine = answering(guarantee=7, least_weight=5000, least_limit=None, least_processors=None)
    model = two_groups()
    found = plan(engine, model)
    assert guarantees(found, found.groups[1:]) == [7, 7]
    singles = singles_of(engine, model)
    assert [(single.least, single.plan is None) for single in singles] == (
        [(5000, False), (None, True), (None, True)])
    assert singles[0].plan.by_path()["a"].gets == 20


def test_a_value_that_does_not_reach_is_no_answer(answering):
    """A least value is shown only if its accepted plan gives the group the amount."""
    with pytest.raises(HostFault, match="weight 100: the accepted plan does not reach"):
        singles_of(answering(least_weight=100), two_groups())


def test_refusals_are_faults(engine):
    """A refusal, and a number that no call holds, end a command with one line."""
    found = plan(engine, two_groups())
    with pytest.raises(HostFault, match="^guarantee: error 20 NotFound$"), asking("guarantee"):
        engine.library.guarantee(found.model.host, found.columns, 3)
    with pytest.raises(HostFault, match="^no plan: error 6 BadWeight .row 1.$"):
        engine.plan(Host(), [arbiter.Row(), arbiter.Row(0, weight=0)])
    with pytest.raises(HostFault, match="^no plan: weight: a number that is none of 64 bits$"):
        engine.plan(Host(), [arbiter.Row(weight=2**64)])
