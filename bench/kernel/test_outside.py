"""Traces with bound tasks and limits: which picks leave the proved rule, and why."""
import gzip
from pathlib import Path

import pytest

from laboratory import outside, traced

RUNS = Path(__file__).with_name("runs")
HEAD = "processors 4\nslice 10\nleaf 0 1\nleaf 1 1\n"
# Leaf 0 used 10 and waits for CPU 1; leaf 1 used 20.
BEHIND = (HEAD + "wake 0 1\npick 2 0\nend 2 10 1\nbound 0 2 1\nwake 1 1\npick 0 1\nend 0 20 1\n")
# Leaf 0 is stopped at its limit of 10.
LIMIT = HEAD + "wake 0 2\nwake 1 1\npick 0 0\nend 0 10 1\nstop 0 1\npick 0 1\nend 0 20 1\n"
# Leaf 0 is owed 120 and leaf 1 65, each more than it may keep. The deadline of leaf 0 is 100 ago,
# that of leaf 1 90.
OWED = ("processors 2\nslice 10\nterms 10 10 20\nleaf 0 1 1048576\nleaf 1 1 524288\nwake 0 1\n"
        "pass 10\nwake 1 1\npass 100\n")
# Leaf 2 is lifted to the clock of leaf 1, 20, though leaf 0 has 10: a limit stops that.
LIFTED = LIMIT + "leaf 2 1\nwake 2 1\npick 0 1\n"
# At a new plan leaf 0 is at its limit: the level is the clock of leaf 1, 20, at which both begin.
LEVEL = LIMIT + "level\ngive 0 1 0\ngive 1 1 0\nstop 0 0\npick 0 1\n"
# Leaf 1 goes out of turn; leaf 0 has the lesser clock.
LATE = HEAD + "wake 0 1\nwake 1 1\npick 0 1\nend 0 20 1\nlate 1\npick 0 1\n"
# At a new plan leaf 0 leads by 31 of the 32 slices that it may keep, and leaf 1 has used 30 then.
LEAD = HEAD + ("wake 0 1\nwake 1 1\npick 0 0\nend 0 310 1\nlevel\ngive 0 1 0\ngive 1 1 0\n"
               "pick 0 1\nend 0 300 1\n")
TRACES = {
    "a level without who is at its limit": (LEVEL, {outside.ALLOWED: 3}),
    "a late turn": (LATE, {outside.ALLOWED: 1, outside.LATE: 1}),
    "a lead of 31 slices is kept": (LEAD + "pick 0 1\n", {outside.ALLOWED: 3}),
    "it goes last": (LEAD + "pick 0 0\n", {outside.ALLOWED: 2, outside.WRONG: 1}),
    "a bound task is passed by": (BEHIND + "pick 0 1\n", {outside.ALLOWED: 2, outside.BOUND: 1}),
    "its CPU may not": (BEHIND + "pick 2 1\n", {outside.ALLOWED: 2, outside.WRONG: 1}),
    "nor any where it waits no longer": (
        BEHIND + "bound 0 2 0\npick 0 1\n", {outside.ALLOWED: 2, outside.WRONG: 1}),
    "a stopped leaf is passed by": (LIMIT + "pick 0 1\n", {outside.ALLOWED: 2, outside.STOPPED: 1}),
    "it is not picked": (LIMIT + "pick 0 0\n", {outside.ALLOWED: 2, outside.WRONG: 1}),
    "it may be in the next period": (LIMIT + "stop 0 0\npick 0 0\n", {outside.ALLOWED: 3}),
    "a stopped leaf lifts nobody": (LIFTED, {outside.ALLOWED: 2, outside.STOPPED: 1}),
    "deadlines are of all that is owed": (OWED + "pick 0 0\n", {outside.ALLOWED: 1}),
    "a later one does not go first": (OWED + "pick 0 1\n", {outside.WRONG: 1}),
}


@pytest.mark.parametrize("trace, found", TRACES.values(), ids=list(TRACES))
def test_kinds_of_picks(trace, found):
    """Worked by hand."""
    assert +outside.Replay(trace).found == found


# Recorded traces of guests: a task that is bound to a CPU, and a limit that binds.
RECORDED = {
    "held-two-pinned": {outside.ALLOWED: 3219, outside.BOUND: 17},
    "held-two-limit": {outside.ALLOWED: 3222, outside.STOPPED: 5},
    # `two-three` and `two-pinned` by one load, with guarantees
    "held-guarantees": {outside.ALLOWED: 4575, outside.BOUND: 9},
}


@pytest.mark.parametrize("name, found", RECORDED.items(), ids=list(RECORDED))
def test_recorded_picks(name, found):
    """So many leave the proved rule, and none is wrong. The proved program allows each where tasks
    that are passed by are on processors of their own."""
    trace = gzip.decompress((RUNS / f"{name}.txt.gz").read_bytes()).decode()
    replay = outside.Replay(trace)
    assert +replay.found == found
    if traced.DISPATCH.is_file():
        assert traced.replayed(trace) == f"allowed: {replay.text.count('pick ')} picks"


@pytest.mark.parametrize("name", ["picks-two-three", "picks-four-web"])
def test_as_the_proved_program(name):
    """Where nobody is held back the lines stay, and all picks are allowed."""
    trace = gzip.decompress((RUNS / f"{name}.txt.gz").read_bytes()).decode()
    replay = outside.Replay(trace)
    assert replay.text == trace and +replay.found == {outside.ALLOWED: trace.count("pick ")}


def test_the_proved_program_allows_what_is_passed_by():
    """A task that is held back is on a processor of its own while another one goes first."""
    if not traced.DISPATCH.is_file():
        pytest.skip(f"no {traced.DISPATCH}")
    assert traced.replayed(BEHIND + "pick 0 1\n") == "allowed: 4 picks"
    assert traced.replayed(LIMIT + "pick 0 1\n") == "allowed: 3 picks"
    assert "no task of the leaf waits" in traced.replayed(LIMIT + "pick 0 0\n")
    assert traced.replayed(LIMIT + "stop 0 0\npick 0 0\n") == "allowed: 3 picks"
    assert traced.replayed(LATE) == "allowed: 3 picks"
    assert traced.replayed(LIFTED) == "allowed: 3 picks"
    assert traced.replayed(LEAD + "pick 0 1\n") == "allowed: 3 picks"
    assert traced.replayed(LEVEL) == "allowed: 3 picks"
    assert "lesser clock" in traced.replayed(BEHIND + "bound 0 2 0\npick 0 1\n")
    assert traced.replayed(OWED + "pick 0 0\n") == "allowed: 1 picks"
    assert "earlier deadline" in traced.replayed(OWED + "pick 0 1\n")
