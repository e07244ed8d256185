"""The verifier of this machine's kernel follows each part of the scheduler to its end."""
import os

import pytest

from kernel.faults import KernelFault
from laboratory import verified
from support import scheduler_lacks

# A verifier ends at a million. That of Linux 6.18 did so in three parts, when what a stage of a
# section left in registers and on the stack made a state of each of its paths.
MOST = 250_000
# Types of this machine's kernel, which its verifier compares.
TYPES = "/sys/kernel/btf/vmlinux"


@pytest.fixture(scope="module", name="parts")
def parts_that_were_followed():
    """The parts; a skip where they cannot be compiled, or this user may load none."""
    if os.geteuid():
        pytest.skip("a verifier is asked by root")
    lacks = scheduler_lacks()
    if lacks:
        pytest.skip(lacks)
    if not os.path.exists(TYPES):
        pytest.skip(f"no {TYPES}")
    try:
        return verified.followed()
    except KernelFault as fault:
        pytest.skip(str(fault))


def test_each_part_is_followed_to_its_end(parts):
    """None is refused, and none is near the most that a verifier follows."""
    assert {name: part for name, part in parts.items() if part.status} == {}
    assert {name: part for name, part in parts.items() if part.instructions > MOST} == {}


def test_parts_that_pick_are_followed(parts):
    """The parts with all stages of a section are there, and no stand-in hides them."""
    assert min(parts[name].instructions
               for name in ("plan_enqueue", "plan_dispatch", "plan_running")) > 10_000
