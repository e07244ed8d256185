"""A short form of bench/perturbed.py: disturbed periods of the native program, replayed."""
import random

import pytest
from perturbed import Tree, Wrong, block, perturbed, replay, tree

from support import same

PERIODS = 30
SMALL = Tree(1, [], [".", "a", "b"], [10, 3, 7])
SAID = """usage_usec nr_periods nr_throttled throttled_usec path
{0}000 1 0 0 .
{1}000 1 0 0 a
{2}000 1 0 0 b
"""


def test_disturbed_periods(program):
    """Each group draws its amount of each period, however the threads are stopped and moved."""
    same(perturbed(program.path, PERIODS, 60, 7), PERIODS)


def test_trees_differ():
    """Trees have limits, levels and amounts of many kinds."""
    made = [tree(random.Random(seed)) for seed in range(50)]
    assert len({each.processors for each in made}) >= 5
    assert any(0 < amount < each.amounts[0] for each in made for amount in each.amounts)
    assert any("cpu.max" in line for each in made for line in each.lines)
    assert any("/" in path for each in made for path in each.paths)


def said(*periods):
    return "".join(f"served {each[0]}\n{SAID.format(*each)}" for each in periods)


def test_right_periods_are_replayed():
    replay(SMALL, "ok\n" + said((10, 3, 7)), 1)
    replay(SMALL, "served 10\n" + SAID.format(10, 3, 7) + "served 10\n" + SAID.format(20, 6, 14), 2)


@pytest.mark.parametrize("text, periods", [
    (said((10, 4, 6)), 1), (said((10, 3, 6)), 1), (said((9, 3, 7)), 1), (said((10, 3, 7)), 2),
    (said((10, 3, 7), (10, 3, 7)), 2), ("error 70 NotStarted\n", 1), ("served 10\n", 1)])
def test_wrong_periods_are_refused(text, periods):
    """Another amount, another sum, a period that is missing or drew nothing, or a refusal."""
    with pytest.raises(Wrong):
        replay(SMALL, text, periods)


def test_failed_program_is_refused(scratch):
    program = scratch / "program"
    program.write_text("#!/bin/sh\nexit 3\n")
    program.chmod(0o755)
    with pytest.raises(Wrong, match="status 3"):
        block(str(program), random.Random(1), 1, str(scratch))
