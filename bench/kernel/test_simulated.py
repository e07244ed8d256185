"""The scheduler's rule and queues in a model of CPUs (tests/kernel/simulated.c): each pick is one
that the proved rule allows, and each group has its part. Then what crowds, masks, limits and rounds
do to others."""
import math
import random
import re
import shutil
import subprocess
from collections.abc import Iterable
from dataclasses import dataclass, field, replace
from pathlib import Path

import pytest

from laboratory import limited, outside, traced

TOP = Path(__file__).resolve().parents[2]
SOURCE = TOP / "tests/kernel/simulated.c"
SECONDS = 5
# Lines of what was seen, beside the steps.
FOUND = ("used ", "lacks ", "over ", "delay ", "inside ", "task ", "moves ", "switches ",
         "stalled ", "lost ", "forbidden ")
# CPUs, groups, the hundredths of a CPU that each should have, and how far it may be off. Turns of
# 100 ms begin as long after a tick as the name says. Without a charge at a waking c is 4 short.
ALWAYS = "0,0,0,-1"
TURNS = {f"turns, {late} us after a tick": (
    2, [f"t,67,0,2,100000,100000,{late},-1", f"t,67,0,2,100000,100000,{100000 + late},-1",
        f"a,66,0,2,{ALWAYS}"], [50, 50, 100], 2) for late in (0, 1000, 2000, 3000, 3900)}
GROUPS = {
    **TURNS,
    "one task beside eight": (2, [f"a,100,0,1,{ALWAYS}", f"a,100,0,8,{ALWAYS}"], [100, 100], 0.1),
    "a second of two": (2, ["t,100,0,2,1000000,1000000,300,-1", f"a,50,0,2,{ALWAYS}",
                            f"a,50,0,1,{ALWAYS}"], [50, 75, 75], 13),
    "sleepers": (4, ["w,240,0,4,3000,7000,0,-1", f"a,140,0,4,{ALWAYS}", f"a,140,0,2,{ALWAYS}"],
                 [120, 140, 140], 0.5),
    "a pinned task": (2, ["a,2,0,1,0,0,0,1", f"a,99,0,2,{ALWAYS}", f"a,99,0,2,{ALWAYS}"],
                      [2, 99, 99], 0.2),
    "a pinned task beside a sleeper": (
        2, ["a,20,0,1,0,0,0,1", f"a,99,0,2,{ALWAYS}", f"a,71,0,2,{ALWAYS}",
            "w,10,0,1,500,9500,0,-1"], [20, 99 * 175 / 170, 71 * 175 / 170, 5], 2),
    "a limit beside a sleeper": (
        2, [f"a,120,60000,2,{ALWAYS}", f"a,70,0,2,{ALWAYS}", "w,10,0,1,500,9500,0,-1"],
        [60, 135, 5], 2),
    "all kinds on eight": (8, [
        "w,100,0,3,3000,4000,0,-1", "w,50,0,5,1000,9000,0,-1", f"a,100,0,4,{ALWAYS}",
        f"a,200,0,8,{ALWAYS}", "t,150,0,3,100000,150000,0,-1", "w,10,0,1,200,2000,0,-1",
        f"a,60,30000,2,{ALWAYS}", "a,90,0,1,0,0,0,5"], [116, 50, 135, 270, 95, 9, 30, 95], 6),
    "a limit": (2, [f"a,120,60000,2,{ALWAYS}", f"a,80,0,2,{ALWAYS}"], [60, 140], 0.3),
}


@pytest.fixture(scope="module", name="program")
def made(tmp_path_factory):
    """The model, compiled with the scheduler's own files."""
    if not shutil.which("gcc"):
        pytest.skip("no gcc")
    found = tmp_path_factory.mktemp("simulated") / "simulated"
    subprocess.run(["gcc", "-O2", "-Wall", "-Wextra", "-Werror", f"-I{TOP / 'scheduler'}", "-o",
                    str(found), str(SOURCE)], check=True, timeout=600)
    return found


def lines_of(program, options, seed, seconds, cpus, groups):
    """The lines that the model prints."""
    words = [program, *options, seed, round(1000 * seconds), cpus, *groups]
    return subprocess.run([*map(str, words)], check=True, capture_output=True, text=True,
                          timeout=600).stdout.splitlines(keepends=True)


def promised(cpus, groups):
    """The groups with guarantees: what each may have where all always want, by its amount."""
    amounts = [int(group.split(",")[1]) for group in groups]
    limits = [int(group.split(",")[2]) / 100 for group in groups]
    each = [1000 * cpus * amount / sum(amounts) for amount in amounts]
    return [f"{group}:g={min(most, limit) if limit else most}"
            for group, most, limit in zip(groups, each, limits, strict=True)]


def ran(program, seed, cpus, groups):
    """A trace, and the hundredths of a CPU that each group had."""
    groups = promised(cpus, groups)
    lines = lines_of(program, [], seed, SECONDS, cpus, groups)
    used = [int(line.split()[2]) / (SECONDS * 10**7) for line in lines if line.startswith("used ")]
    return "".join(line for line in lines if not line.startswith(FOUND)), used[1:]


@pytest.mark.parametrize("seed", range(2))
@pytest.mark.parametrize("cpus, groups, parts, most", GROUPS.values(), ids=list(GROUPS))
def test_rule_in_a_model(program, cpus, groups, parts, most, seed):
    """No pick is wrong, and all is served. The proved program allows all."""
    trace, used = ran(program, seed, cpus, groups)
    found = outside.Replay(trace).found
    assert not found[outside.WRONG] and found[outside.ALLOWED] > 500
    assert max(abs(had - part) for had, part in zip(used, parts, strict=True)) <= most
    assert sum(used) >= 99.9 * cpus
    if traced.DISPATCH.is_file():
        assert traced.replayed(trace).startswith("allowed: ")


@dataclass(frozen=True)
class Case:
    """A host, and what has to hold. Numbers are by row, from 1 on: hundredths of a CPU and how far
    they may be off; the most milliseconds that a window lacks of the guarantee, or is over a limit;
    the most that half of those that wake wait, and 99 of 100; the least seconds of a task, by its
    place; how often tasks are moved in a second at most. Then how often a CPU changes its task so
    long."""

    cpus: int
    groups: tuple[str, ...]
    points: dict[int, tuple[float, float]] = field(default_factory=dict)
    lacks: dict[int, float] = field(default_factory=dict)
    over: dict[int, float] = field(default_factory=dict)
    inside: dict[int, float] = field(default_factory=dict)
    delay: dict[int, float] = field(default_factory=dict)
    longest: dict[int, float] = field(default_factory=dict)
    tasks: dict[int, float] = field(default_factory=dict)
    moves: dict[int, float] = field(default_factory=dict)
    switches: float = 0
    seconds: int = 20
    options: tuple[str, ...] = ("-p", "1000")


def lights(count: int, guarantee: float) -> Iterable[str]:
    """Groups of weight 1 with a task that always wants."""
    return (f"a,1,0,1,{ALWAYS}:g={guarantee}" for _ in range(count))


def masks(count: int, cpus: int) -> list[str]:
    """As many masks, each of some CPUs, but not of all."""
    some = [mask for mask in range(1, 2**cpus - 1) if mask.bit_count() > 1]
    return [f"m{mask:x}" for mask in sorted(random.Random(7).sample(some, count))]


def each_bound(cpus: list[str]) -> Iterable[str]:
    """A group with a task for each mask, which always wants."""
    return (f"{'+' * (at > 0)}a,800,0,1,0,0,0,{mask}:g=8000" for at, mask in enumerate(cpus))


def pod(containers: int) -> Iterable[str]:
    """Containers of a pod with a limit of a CPU, whole for each, that want for one second of
    three."""
    return (f"t,100,100000,1,1000000,2000000,{at},-1:g=250:in=1" for at in range(containers))


HALF = f"a,100,0,2,{ALWAYS}:g=1000"
# How far off the plan a group of the rows of docs/LINUX.md may be.
OFF = 1


def points(*parts: float) -> dict[int, tuple[float, float]]:
    """What the groups should have."""
    return {row: (part, OFF) for row, part in enumerate(parts, 1)}


def runner(part: float, amount: int) -> str:
    """A group of a build farm: two jobs at a time, each a new task."""
    return f"f,{amount},0,2,20000,1,0,-1:g={10 * part}"


# The scenarios of bench/kernel/scenarios, with the amounts and guarantees of their plans.
ROWS = {
    "four-pods": Case(4, (f"a,100,0,1,{ALWAYS}:g=500", f"a,150,0,1,{ALWAYS}:g=1500",
                          f"a,75,0,2,{ALWAYS}:g=750", f"a,25,0,1,{ALWAYS}:g=250",
                          f"a,100,0,4,{ALWAYS}:g=1000"), points(100, 100, 75, 25, 100)),
    "four-kube": Case(4, ("l,250000,0", f"a,172,200000,3,{ALWAYS}:g=1220:in=1",
                          "p,12,50000,1,30000,70000,0,-1:g=80:in=1", f"a,116,0,2,{ALWAYS}:g=800",
                          "p,10,0,1,10000,90000,0,-1:g=80", "p,65,0,6,66666,33334,0,-1:g=410",
                          "p,8,0,1,5000,95000,0,-1:g=80", "p,133,0,1,20000,80000,0,-1:g=1330"),
                      points(172.46, 11.69, 115.69, 10, 65.15, 5, 20)),
    "four-farm": Case(4, tuple(runner(part, round(part)) for part in
                               (53.33, 53.33, 53.33, 106.67, 106.67, 26.67)),
                      points(53.33, 53.33, 53.33, 106.67, 106.67, 26.67)),
    "four-web": Case(4, ("w,240,0,4,3000,7000,0,-1:g=2400", f"a,140,0,4,{ALWAYS}:g=800",
                         f"a,140,0,2,{ALWAYS}:g=800"), points(120, 140, 140), delay={1: 0.1}),
    "two-eight": Case(2, (f"a,100,0,1,{ALWAYS}:g=1000", "p,100,0,8,25000,75000,0,-1:g=1000"),
                      points(100, 100), delay={2: 12}, longest={2: 24}),
    "two-flip": Case(2, ("t,100,0,2,1000000,1000000,0,-1:g=1000", f"a,50,0,2,{ALWAYS}:g=500",
                         f"a,50,0,1,{ALWAYS}:g=500"), points(50, 75, 75)),
    "two-nice": Case(2, (f"a,134,0,1,{ALWAYS}:g=1340:nice=19", f"+a,134,0,1,{ALWAYS}",
                         f"a,33,0,2,{ALWAYS}:g=330", f"a,33,0,1,{ALWAYS}:g=330"),
                     points(133.33, 33.33, 33.33)),
    "two-turns": Case(2, ("t,67,0,2,100000,100000,0,-1:g=670",
                          "t,67,0,2,100000,100000,100000,-1:g=670", f"a,66,0,2,{ALWAYS}:g=660"),
                      points(50, 50, 100), longest={1: 8.1, 2: 8.1}),
    "eight-mixed": Case(8, tuple(f"a,80,0,{tasks},{ALWAYS}:g=800"
                                 for tasks in (1, 2, 3, 1, 1, 1, 2, 3, 1, 1)), points(*[80] * 10)),
}
CASES = {
    **ROWS,
    # crowds that are bound to CPUs
    **{f"{count} bound tasks beside idle CPUs": Case(
        4, ("w,200,0,1,3000,7000,0,mc:g=2000", f"a,200,0,{count},0,0,0,m3:g=2000"),
        {1: (30, 0.1)}, {1: 8}, delay={1: 0.1}) for count in (20, 66, 300, 1000)},
    **{f"{count} bound tasks and a sleeper on one CPU": Case(
        4, ("w,50,0,1,3000,7000,0,1:g=500", f"a,50,0,{count},0,0,0,1:g=500"),
        {1: (30, 0.1)}) for count in (20, 66, 300)},
    **{f"a pool of three CPUs, {count} tasks": Case(
        4, (f"a,150,0,{count},0,0,0,m7:g=1500", "a,150,0,2,0,0,0,m7:g=1500",
            "a,100,0,1,0,0,0,3:g=1000"), {1: (150, 2.4), 2: (150, 2.4), 3: (100, 0.1)},
        {2: 30}) for count in (40, 80, 400)},
    **{f"a pool and {count} tasks at a limit": Case(
        4, (f"a,10,10000,{count},0,0,0,m7:g=100", "w,290,0,2,3000,7000,0,m7:g=2900"),
        {1: (10, 0.5), 2: (60, 0.5)}) for count in (60, 64, 400)},
    "a bound task beside free ones of its leaf": Case(
        2, (f"a,100,0,4,{ALWAYS}:g=2000", "+a,100,0,1,0,0,0,0"), tasks={4: 2}),
    # crowds at a limit, or of a small part
    **{f"{count} tasks under a limit of a hundredth": Case(
        2, (f"a,100,1000,{count},{ALWAYS}:g=10", f"a,100,0,2,{ALWAYS}:g=1990"),
        {1: (1, 1), 2: (199, 1)}, {2: 600}, {1: 1200}, seconds=60) for count in (100, 400, 4000)},
    **{f"{count} tasks planned a tenth of a CPU": Case(
        2, (f"a,10,0,{count},{ALWAYS}:g=100", f"a,190,0,2,{ALWAYS}:g=1900"),
        {1: (10, 1), 2: (190, 1)}, {2: lack}, seconds=60)
       for count, lack in ((100, 120), (1000, 120), (3000, 140))},
    # rounds, and leaves that wake
    **{f"{count} light groups": Case(
        cpus, (f"a,10000,0,{cpus},{ALWAYS}:g={heavy}", *lights(count, light)),
        {1: (heavy / 10, 0.5)}, {1: 120}, seconds=40)
        for count, cpus, heavy, light in ((10, 2, 1998, 0.1998), (100, 2, 1980.2, 0.198),
                                          (400, 4, 3846.15, 0.3846))},
    "half of the host beside a hundred": Case(
        2, (HALF, *(f"a,1,0,1,{ALWAYS}:g=10" for _ in range(100))), {1: (100, 0.5)}, {1: 60}),
    "one of a pod wakes beside another pod": Case(
        2, (f"a,100,0,2,{ALWAYS}:g=500", "t,66,0,2,3000000,3000000,3000000,-1:g=500", HALF),
        lacks={3: 60}, seconds=24),
    "one wakes beside one that uses its guarantee": Case(
        2, ("w,50,0,1,5000,5000,0,-1:g=500", f"a,150,0,2,{ALWAYS}:g=500",
            "t,200,0,2,3000000,3000000,3000000,-1:g=1000"), {1: (50, 1)}, {1: 60}, seconds=24),
    "amounts that change by a third": Case(
        4, (f"a,10000,0,2,{ALWAYS}:g=1000", f"a,10000,0,4,{ALWAYS}:g=1000",
            "w,20000,0,4,3000,7000,0,-1:g=1333", f"a,6000,0,1,{ALWAYS}:g=600"),
        lacks={1: 60, 2: 60, 4: 60}, seconds=40, options=("-p", "1000", "-j", "30")),
    "work of the kernel holds ends up": Case(
        2, (f"a,10000,0,2,{ALWAYS}:g=1980.2", *lights(100, 0.198)), {1: (198, 0.5)}, {1: 120},
        options=("-p", "1000", "-o", "3000")),
    # a CPU that a real-time task has for a while: its task waits for another one
    "a real-time task holds a CPU up": Case(
        2, ("r,0,300000,700000", f"a,90,0,1,{ALWAYS}:g=500", f"a,50,0,2,{ALWAYS}:g=500"),
        lacks={1: 30, 2: 30}),
    "two of four CPUs are taken for a moment, again and again": Case(
        4, ("r,0,1000,4001", "r,1,2500,5003", f"a,100,0,2,{ALWAYS}:g=1000",
            "w,60,0,2,3000,7000,0,-1:g=600", f"a,120,0,4,{ALWAYS}:g=1200"),
        lacks={1: 20, 2: 20, 3: 20}, delay={2: 0.1}, longest={2: 4.1}),
    # (it takes CPU 3 for good just when another CPU has picked a task for that one)
    "a CPU is taken for which a task was picked": Case(
        4, ("r,3,999999999,54034", *ROWS["four-web"].groups), tasks=dict.fromkeys(range(4), 5)),
    # a CPU that goes, and comes back: its tasks wait for others
    "a CPU goes and comes": Case(
        4, ("h,3,1000000,1000000", f"a,150,0,2,{ALWAYS}:g=1400", "w,60,0,2,3000,7000,0,-1:g=600",
            f"a,190,0,4,{ALWAYS}:g=900"), lacks={1: 40, 2: 40, 3: 40}, delay={2: 0.1}),
    "CPUs go in turn, with tasks that are bound to them": Case(
        4, ("h,1,300000,400000", "h,2,300000,700000", "h,3,500000,1100000", "a,50,0,2,0,0,0,1:g=300",
            "w,30,0,1,3000,7000,0,2:g=300", "a,100,0,3,0,0,0,mc:g=400"),
        {2: (30, 0.5)}, tasks={0: 4, 1: 4}, lacks={1: 40, 3: 60}),
    # the kernel schedules by itself for 0.3 s, as where the host is suspended, and then goes on
    "the host is suspended for a while": Case(
        4, ("s,1003100,300000", f"a,100,0,6,{ALWAYS}:g=1200", f"a,200,0,5,{ALWAYS}:g=2400",
            "w,40,0,1,3000,7000,0,-1:g=400"), {1: (126, 3), 2: (244, 3), 3: (30, 1)},
        {1: 120, 2: 300, 3: 60}),
    # more masks than trees, so tasks wait at one of their CPUs
    "a CPU goes for which some of a hundred masks wait": Case(
        8, ("h,7,100000000,500000", *each_bound(masks(100, 8))),
        tasks=dict.fromkeys(range(100), 0.25), seconds=5),
    # more tasks than numbers: four that always want have none
    "tasks without a number": Case(
        2, (f"a,100,0,2,{ALWAYS}:g=1000", "t,100,10000,65533,1,999999999,999999999,-1:g=100",
            f"+a,100,10000,4,{ALWAYS}"), {1: (197, 1), 2: (2.5, 0.5)}, {1: 20}, seconds=10),
    # crowds that all want: each task has a turn before the kernel ends the scheduler
    **{f"{count} tasks on {cpus} CPUs": Case(
        cpus, (f"a,100,0,{cpus},{ALWAYS}:g={500 * cpus}", f"a,100,0,{count},{ALWAYS}:g={400 * cpus}"),
        lacks={1: most}, seconds=40) for count, cpus, most in ((8000, 1, 30), (65000, 2, 60))},
    "crowds that are bound to some CPUs and to one": Case(
        4, (f"a,100,0,2,{ALWAYS}:g=500", "a,100,0,15000,0,0,0,m3:g=400",
            "a,100,0,15000,0,0,0,0:g=400"), lacks={1: 8}, seconds=40),
    "12000 tasks without a number": Case(
        2, (f"a,100,0,2,{ALWAYS}:g=1000", "t,100,10000,65533,1,999999999,999999999,-1:g=100",
            f"+a,100,10000,12000,{ALWAYS}"), lacks={1: 120}, seconds=40),
    "a crowd that would have all numbers": Case(
        2, ("t,100,10000,70000,1,999999999,999999999,-1:g=100", f"a,95,0,2,{ALWAYS}:g=950",
            f"a,95,0,4,{ALWAYS}:g=950"), {2: (100, 1), 3: (100, 1)}, {2: 20, 3: 20}, seconds=10),
    # all leaves that there may be
    "4095 leaves": Case(
        2, (f"a,100000,0,2,{ALWAYS}:g=1000", *(f"a,24,0,1,{ALWAYS}:g=0.244" for _ in range(4094))),
        {1: (100, 0.5)}, {1: 60}, seconds=10, options=("-p", "5000")),
    # who is changed while it is on its way: the CPU that waits for it looks again
    "tasks are changed while CPUs wait for them": Case(
        4, (f"a,100,0,6,{ALWAYS}:g=1000", f"a,100,0,5,{ALWAYS}:g=1000",
            "w,100,0,4,1000,2000,0,-1:g=1500", "c,1,97", "c,2,211"),
        lacks={1: 6, 2: 6, 3: 6}, seconds=10, options=("-p", "1000", "-w", "100000")),
    # the loop itself: a tenth of a CPU beside a crowd in the rest
    "the loop beside a crowd": Case(
        2, ("p,2,0,1,20000,980000,0,-1:g=100", f"a,100,0,4000,{ALWAYS}:g=900",
            f"a,100,0,2,{ALWAYS}:g=1000"), {1: (2, 0.1), 3: (100, 1)}, delay={1: 8},
        longest={1: 16}),
    # a loop that hangs: no plan comes
    "no plan comes, a web server": replace(ROWS["four-web"], options=()),
    "no plan comes, 400 light groups": Case(
        4, (f"a,10000,0,4,{ALWAYS}:g=3846.15", *lights(400, 0.3846)), {1: (384.6, 0.5)}, {1: 120},
        options=()),
    # a burst: what three periods leave is used in the next one, up to it, and no more
    **{f"a limit of 20 with a burst of {burst}": Case(
        2, (f"l,20000,0,{1000 * burst}", "t,100,0,2,90000,210000,5000,-1:g=200:in=1",
            f"a,100,0,2,{ALWAYS}:g=900"), {1: (part, 0.7)}, inside={1: most})
       for burst, part, most in ((0, 6.7, 28), (20, 13.3, 48), (50, 20, 68))},
    # limits of groups above leaves
    "four containers of a pod at its limit wake": Case(
        4, ("l,100000,0", *pod(4), "w,300,0,1,2000,8000,0,-1:g=3000"), {5: (20, 0.5)},
        inside={1: 120}, seconds=30),
    # inside of a leaf
    "a sleeper among eight of its leaf": Case(
        4, (f"a,200,0,8,{ALWAYS}:g=2000", "+w,200,0,1,1000,9000,0,-1", f"a,200,0,4,{ALWAYS}:g=2000"),
        delay={1: 2.1}, longest={1: 4}),
    "three of a leaf on two CPUs": Case(
        2, (f"a,200,0,3,{ALWAYS}:g=2000",), tasks={0: 13, 1: 13, 2: 13}, moves={1: 150},
        switches=80),
    "eight of each of two leaves": Case(
        2, (f"a,100,0,8,{ALWAYS}:g=1000", f"a,100,0,8,{ALWAYS}:g=1000"), points(100, 100),
        tasks=dict.fromkeys(range(16), 2.4), switches=150),
    # (each begins beside the others of its leaf; none of them waits for a row of new ones)
    "new tasks one after another in a leaf": Case(
        1, (f"a,100,0,2,{ALWAYS}:g=1000", "+f,100,0,1,1300,1,0,-1"), tasks={0: 4, 1: 4}),
    "two of nice 0 among six of nice 19": Case(
        4, (f"a,200,0,2,{ALWAYS}:g=2000", f"+a,200,0,6,{ALWAYS}:nice=19",
            f"a,200,0,4,{ALWAYS}:g=2000"), tasks={0: 4, 1: 4}, seconds=5),
}


# Hosts whose tasks are held back for long: by masks, a limit, and a real-time task on the CPU that
# a task is bound to. So what a leaf is owed passes the most that it may keep.
TAKEN = ("r,0,300000,700000", f"a,90,0,1,{ALWAYS}:g=500", f"a,50,0,2,{ALWAYS}:g=500")
HELD_BACK = {
    "a pool and 60 tasks at a limit": CASES["a pool and 60 tasks at a limit"],
    "a bound task on a CPU that is taken": Case(2, (*TAKEN, "a,20,0,1,0,0,0,0:g=500")),
    "two of a small part are bound there": Case(2, (*TAKEN, "a,2,0,2,0,0,0,0:g=200")),
}


def found_in(lines: list[str]) -> dict[str, list[list[int]]]:
    """The numbers behind each first word."""
    found: dict[str, list[list[int]]] = {}
    for line in lines:
        name, *numbers = line.split()
        found.setdefault(name, []).append([*map(int, numbers)])
    return found


def broken(case: Case, found: dict[str, list[list[int]]]) -> list[str]:
    """What does not hold, in words."""
    used = {row: 100 * ns / case.seconds / 10**9 for row, ns in found["used"]}
    says = [f"row {row} has {used[row]:.1f} for {want}"
            for row, (want, most) in case.points.items() if abs(used[row] - want) > most]
    for name, bounds, at in (("lacks", case.lacks, 1), ("over", case.over, 1),
                             ("inside", case.inside, 2), ("delay", case.delay, 1),
                             ("delay", case.longest, 2)):
        ms = {numbers[0]: numbers[at] / 10**6 for numbers in found.get(name, [])}
        says += [f"{name} of {row}: {ms[row]:.1f} ms" for row, most in bounds.items()
                 if ms[row] > most]
    says += [f"task {at} has {ns / 10**9:.2f} s" for _, at, ns in found.get("task", [])
             if ns < case.tasks.get(at, 0) * 10**9]
    says += [f"{all_of / case.seconds:.0f} moves a second of row {row}"
             for row, all_of, _ in found.get("moves", [])
             if all_of > case.moves.get(row, math.inf) * case.seconds]
    says += [f"CPU {cpu} idles for {ns / 10**6:.0f} ms" for cpu, ns in found.get("lost", [])]
    says += [f"row {row} is on CPU {cpu}, which it may not use"
             for row, cpu in found.get("forbidden", [])]
    each_second = found["switches"][0][0] / case.seconds / case.cpus
    says += [f"{each_second:.0f} switches a second"] * (0 < case.switches < each_second)
    return says + [f"the watchdog ends it after {ns / 10**9:.1f} s"
                   for _, ns in found.get("stalled", [])]


@pytest.mark.parametrize("name", CASES)
def test_what_others_cannot_do(program, name):
    """No crowd, mask, limit or round takes from another group what it is promised. A rule of clocks
    alone, with one queue a leaf, breaks 26 of them."""
    case = CASES[name]
    lines = lines_of(program, ["-q", *case.options], 1, case.seconds, case.cpus, case.groups)
    assert broken(case, found_in(lines)) == []


# Hosts with tasks that sleep, of which these rows are seen.
SLEEPERS = {"four-web": [1], "four-kube": [2, 4, 5, 6, 7], "four-farm": [1, 2, 3, 4, 5, 6],
            "two-eight": [2], "two-flip": [1], "two-turns": [1, 2], "a CPU goes and comes": [2],
            "one wakes beside one that uses its guarantee": [1, 3],
            "amounts that change by a third": [3], "a sleeper among eight of its leaf": [1],
            "two of four CPUs are taken for a moment, again and again": [2],
            "a pool and 400 tasks at a limit": [2], "1000 bound tasks beside idle CPUs": [1]}
# One tick, in milliseconds.
TICK = 4


def waited(program, case: Case, groups: Iterable[str]) -> dict[int, list[float]]:
    """Of each row how many milliseconds who wakes waits: in the middle, and 99 of 100."""
    lines = lines_of(program, ["-q", *case.options], 1, 8, case.cpus, groups)
    return {row: [ns / 10**6 for ns in times] for row, *times in found_in(lines)["delay"]}


@pytest.mark.parametrize("name, rows", SLEEPERS.items(), ids=list(SLEEPERS))
def test_waits_beside_shares_alone(program, name, rows):
    """Who wakes waits no more than by weighted clocks alone, without guarantees, or a tick more."""
    case = CASES[name]
    here = waited(program, case, case.groups)
    plain = waited(program, case, [re.sub(":g=[0-9.]*", "", group) for group in case.groups])
    for row in rows:
        assert all(had <= than + TICK for had, than in zip(here[row], plain[row], strict=True))


def passed_by(trace: str) -> list[int]:
    """How often each group passes its limit, by the proved program."""
    return [traced.passed(trace, group) for group in limited.numbers(trace)]


@pytest.mark.parametrize("name", HELD_BACK)
def test_picks_past_who_is_held_back(program, name):
    """No pick is wrong, and the proved program allows each with tasks that wait for other CPUs on
    processors of their own. It knows who is stopped by a limit. What a leaf is owed beyond the most
    is cut, which the trace tells."""
    case = HELD_BACK[name]
    lines = lines_of(program, case.options, 1, 3, case.cpus, case.groups)
    trace = "".join(line for line in lines if not line.startswith(FOUND))
    replay = outside.Replay(trace)
    assert not replay.found[outside.WRONG] and replay.found[outside.ALLOWED] > 500
    assert (replay.most_away or "stop " in trace) and "cut " in trace
    if traced.DISPATCH.is_file():
        assert traced.replayed(trace) == f"allowed: {replay.text.count('pick ')} picks"
        assert passed_by(trace) == [limited.long_runs(trace)] * len(limited.numbers(trace))


# Of each kind the microseconds for which its tasks work, and sleep.
TIMES = {"a": ([0], [0]), "w": ([300, 1000, 3000], [1000, 4000, 9000]), "f": ([2000, 20000], [1]),
         "t": ([100000, 300000], [100000, 500000]), "p": ([5000, 20000], [50000, 95000])}


def random_group(rnd: random.Random, cpus: int, left: int, limits: int) -> tuple[str, int]:
    """A group of a kind, with a mask, a limit and a guarantee that is left; and this."""
    kind = rnd.choice("aaawwftp")
    amount, tasks = rnd.randint(1, 200), rnd.choice([1, 1, 2, 3, 5, 9, 20])
    limit = rnd.choice([0, 0, 0, 1000, 10000, 60000])
    on, off = (rnd.choice(times) for times in TIMES[kind])
    mask = rnd.choice(["-1", "-1", str(rnd.randrange(cpus)), f"m{rnd.randint(1, 2**cpus - 1):x}"])
    share = rnd.randint(0, left // 2)
    guarantee = min(share, limit // 100) if limit else share
    words = [f"{kind},{amount},{limit},{tasks},{on},{off},{700 * rnd.randint(0, 5)},{mask}",
             f"g={guarantee}"]
    words += [f"in={rnd.randint(1, limits)}"] if limits and rnd.random() < 0.5 else []
    words += ["nice=19"] if rnd.random() < 0.2 else []
    return ":".join(words), share


def random_host(seed: int) -> tuple[list[str], int, list[str]]:
    """Options, CPUs and groups of a host: with limits of groups, a real-time task, a CPU that goes and
    comes, new plans, and ends that are held up."""
    rnd, other = random.Random(seed), random.Random(-1 - seed)
    cpus, limits = rnd.choice([1, 2, 2, 3, 4, 4, 8]), rnd.choice([0, 0, 1, 2])
    groups = [f"l,{rnd.choice([20000, 50000, 100000])},{rnd.randint(0, above)}"
              for above in range(limits)]
    groups += [f"r,{rnd.randrange(cpus)},50000,250000"] if rnd.random() < 0.3 else []
    if cpus > 1 and other.random() < 0.6:
        groups.append(f"h,{other.randrange(cpus)},200000,{other.randint(50000, 300000)}")
    left = 1000 * cpus
    for at in range(rnd.randint(2, 7)):
        group, share = random_group(rnd, cpus, left, limits)
        groups.append("+" * (at > 0 and rnd.random() < 0.15) + group)
        left -= share
    options = ["-p", str(rnd.choice([200, 1000]))] if rnd.random() < 0.6 else []
    options += ["-j", "30"] if options and rnd.random() < 0.4 else []
    options += ["-o", str(rnd.choice([500, 3000, 9000]))] if rnd.random() < 0.3 else []
    return options, cpus, groups


@pytest.mark.parametrize("seed", range(16))
def test_random_hosts(program, seed):
    """No pick is wrong, and the proved program allows each, where all of this meets. No group is
    picked past its limit: runs beyond their quantum alone count there."""
    options, cpus, groups = random_host(seed)
    lines = lines_of(program, options, seed, 1.5, cpus, groups)
    trace = "".join(line for line in lines if not line.startswith(FOUND))
    replay = outside.Replay(trace)
    assert not replay.found[outside.WRONG], (options, cpus, groups)
    if traced.DISPATCH.is_file():
        assert traced.replayed(trace) == f"allowed: {replay.text.count('pick ')} picks"
        assert passed_by(trace) == [limited.long_runs(trace)] * len(limited.numbers(trace))


# Hosts in which an interrupt and a task take up to so long from one CPU to another.
WINDOW = 20000
SLOW = (*ROWS, "a CPU goes and comes", "CPUs go in turn, with tasks that are bound to them",
        "two of four CPUs are taken for a moment, again and again",
        "a real-time task holds a CPU up")


@pytest.mark.parametrize("name", SLOW)
def test_a_task_is_on_its_way_for_a_while(program, name):
    """No CPU idles while a task waits that it may take, and each group has its part."""
    case = CASES[name]
    lines = lines_of(program, ["-q", *case.options, "-w", WINDOW], 1, case.seconds, case.cpus,
                     case.groups)
    assert broken(replace(case, delay={}, longest={}), found_in(lines)) == []


@pytest.mark.parametrize("seed", [0, 3, 5, 9])
def test_who_wakes_while_a_plan_is_taken(program, seed):
    """Leaves keep their leads over the level at which the plan began."""
    options, cpus, groups = random_host(seed)
    lines = lines_of(program, [*options, "-w", 50000], seed, 1.5, cpus, groups)
    trace = "".join(line for line in lines if not line.startswith(FOUND))
    replay = outside.Replay(trace)
    assert "-p" in options and not replay.found[outside.WRONG], (options, cpus, groups)
    if traced.DISPATCH.is_file():
        assert traced.replayed(trace) == f"allowed: {replay.text.count('pick ')} picks"


# Leaf 1 is due and runs on CPU 0, where its slice overruns: what that costs makes it due no more.
OVERRUN = ("a,7,0,9,0,0,2800,-1:g=1494", "w,78,0,1,3000,9000,2100,-1:g=743",
           "w,187,10000,2,300,1000,700,m2:g=49", "f,109,60000,9,2000,1,2800,2:g=43",
           "a,43,0,5,0,0,700,1:g=183", "a,43,10000,3,0,0,2100,-1:g=100")


def test_no_slice_of_a_due_leaf_is_ended_for_it(program):
    """Each pick is the rule's where a due leaf runs on the CPU that would give way to it."""
    lines = lines_of(program, ["-o", "9000"], 134, 1.5, 3, OVERRUN)
    found = outside.Replay("".join(line for line in lines if not line.startswith(FOUND))).found
    assert not found[outside.WRONG] and found[outside.ALLOWED] > 300


BY_RULE = (*ROWS, "a CPU goes and comes", "two of four CPUs are taken for a moment, again and again")


@pytest.mark.parametrize("name", BY_RULE)
def test_rows_are_by_the_rule(program, name):
    """Each pick and wake of these hosts is the rule's, new plans amid."""
    case = CASES[name]
    lines = lines_of(program, case.options, 1, 3, case.cpus, case.groups)
    trace = "".join(line for line in lines if not line.startswith(FOUND))
    found = outside.Replay(trace).found
    assert not found[outside.WRONG] and found[outside.ALLOWED] > 500
    if traced.DISPATCH.is_file():
        assert traced.replayed(trace) == f"allowed: {trace.count('pick ')} picks"
