"""The replay of a scheduler's picks, by crates/dispatch.

The traces are worked by hand, or runs of a model of the rule in fractions.
"""
import gzip
import random
from fractions import Fraction
from typing import List, Optional, Tuple

import pytest

from support import ROOT, Program, same

DISPATCH = ROOT / "crates/dispatch/out/dispatch"
# Traces of the kernel's scheduler in guests (bench/kernel, `laboratory.traced`).
RECORDED = sorted((ROOT / "bench/kernel/runs").glob("picks-*.txt.gz"))
HEAD = "processors 2\nslice 10\nleaf 0 2\nleaf 1 1\n"
LESSER = "not allowed: a leaf that waits has a lesser clock"


@pytest.fixture(scope="module")
def dispatch() -> Program:
    """The program that replays a trace."""
    if not DISPATCH.is_file():
        pytest.skip(f"no file {DISPATCH}: ./test makes it, and `rt run` in crates/dispatch")
    return Program(DISPATCH)


def replayed(program: Program, text: str) -> Tuple[int, str]:
    """The exit status and the line. Nothing is written to standard error."""
    status, out, err = program.run([], text.encode())
    same(err, b"", "standard error")
    return status, out.decode()


# Clocks are charge over amount: leaf 0 of amount 2 is charged 5 a pick, leaf 1 of amount 1 ten.
ALLOWED = {
    "nothing": ("", 0),
    "no event": (HEAD, 0),
    "blanks": ("processors\t1\n slice  5 \n", 0),
    "both leaves": (HEAD + "wake 0 2\nwake 1 2\npick 0 0\npick 1 1\n", 2),
    "any of two with one clock": (HEAD + "wake 0 2\nwake 1 2\npick 0 1\npick 1 0\n", 2),
    # leaf 0 has clock 5, leaf 1 used 2 of 10 and has clock 2
    "what was not used is given back": (
        HEAD + "wake 0 2\nwake 1 2\npick 0 0\npick 1 1\nend 1 2 1\npick 1 1\n", 3),
    # leaf 1 used 14 of 10 and has clock 14; leaf 0 is then picked twice
    "an overrun is charged": (
        HEAD + "wake 0 3\nwake 1 2\npick 0 1\npick 1 0\nend 0 14 1\npick 0 0\nend 1 10 1\n"
        + "pick 1 0\n", 4),
    # leaf 0 used 20 and has clock 10, to which leaf 1 is lifted when it wakes
    "a sleeper has no credit": (
        HEAD + "wake 0 1\npick 0 0\nend 0 10 1\npick 0 0\nend 0 10 1\nwake 1 1\npick 0 0\n", 3),
    # leaf 0 used 20 and sleeps: leaf 1 is lifted to its clock, 10, so that either may be picked
    "a sleeper has no credit after an idle time": (
        HEAD + "wake 0 1\npick 0 0\nend 0 20 0\nwake 1 1\nwake 0 1\npick 0 0\n", 2),
    # leaf 1 runs a task when the next wakes, so its clock stays 10; leaf 0 is at 20
    "a leaf that runs is not lifted": (
        HEAD + "wake 1 1\npick 0 1\nwake 0 1\npick 1 0\nend 1 40 1\nwake 1 1\npick 1 1\n", 3),
    "a leaf that comes later": (HEAD + "wake 0 1\npick 0 0\nleaf 2 7\nwake 2 1\npick 1 2\n", 2),
}


# One processor, a quantum and a credit of 4 ns, and two leaves of half of it.
HALVES = ("processors 1\nslice 4\nterms 4 0 4\nleaf 0 1 524288\nleaf 1 1 524288\n"
          "wake 0 1\nwake 1 1\n")
TURN = "pick 0 {0}\npass 4\nend 0 4 1\n"
EARLIER = "not allowed: a leaf that is due has an earlier deadline"
HOLD = "premises: hold at each of {0} events\n"
FAIL = "premises: fail first at line {0}, in all at {1} of {2} events\n"
# What each is owed in ns, at first 0; a pick takes 4, and each ns brings 1/2.
RESERVED = {
    "either of two that are due alike": (HALVES + TURN.format(1), 1, HOLD.format(5)),
    # leaf 0 is at -2 then and leaf 1 at 2; after its turn both are at 0
    "turns": (HALVES + (TURN.format(0) + TURN.format(1)) * 3, 6, HOLD.format(20)),
    # leaf 0 ends after 1 ns and is given back 3 of 4: it is at -0.5, and leaf 1 at 0.5
    "what was not used comes back": (
        HALVES + "pick 0 0\npass 1\nend 0 1 1\n" + TURN.format(1), 2, HOLD.format(8)),
    # leaf 1 sleeps after its turn, and is owed 2 at most: one quantum later it is due no more
    "a sleeper keeps its credit alone": (
        HALVES + TURN.format(0) + "pick 0 1\npass 4\nend 0 4 0\n" + TURN.format(0) * 9
        + "wake 1 1\n" + TURN.format(1) + TURN.format(0), 13, HOLD.format(42)),
    "a plan that keeps the guarantees": (
        HALVES + TURN.format(0) + "level\ngive 0 7 524288\ngive 1 3 524288\n" + TURN.format(1), 2,
        HOLD.format(11)),
    "a plan with another guarantee": (
        HALVES + TURN.format(0) + "level\ngive 0 7 524287\n" + TURN.format(1), 2,
        FAIL.format(12, 1, 10)),
    # a quantum of processor time may be lost, and counts anew once no leaf waits
    "a processor that idles": (
        HALVES + "pass 4\n" + TURN.format(1), 1, HOLD.format(6)),
    "a processor that idles for long": (
        HALVES + "pass 5\n" + TURN.format(1), 1, FAIL.format(8, 1, 6)),
    "a processor that idles again": (
        HALVES + "pass 3\n" + TURN.format(1) + "pass 2\n" + TURN.format(0), 2,
        FAIL.format(12, 1, 10)),
    "a processor that idles after a quiet time": (
        HALVES + "leave 1\npass 3\n" + "pick 0 0\npass 4\nend 0 4 0\npass 9\nwake 1 1\npass 4\n"
        + TURN.format(1), 2, HOLD.format(13)),
    "a run beyond its quantum": (
        HALVES + "pick 0 0\npass 5\nend 0 5 1\n", 1, FAIL.format(9, 2, 5)),
    "a task that leaves": (HALVES + "leave 1\n" + TURN.format(0), 1, HOLD.format(6)),
    "what is beyond the credit is cut": (HALVES + "cut 1\n" + TURN.format(0), 1, HOLD.format(6)),
    # leaf 1 would be next, and is owed no more than its credit meanwhile
    "a limit that stops": (
        HALVES + TURN.format(0) + "stop 1 1\n" + TURN.format(0) + "stop 1 0\n" + TURN.format(1), 3,
        HOLD.format(13)),
}


# Leaf 0 is in a group with a limit of 6 in a period. A pick takes 4 of what is left.
LIMITED = HALVES.replace("leaf 0", "group 6 0\nmember 0")
KEPT = "limit: kept at each of {0} events\n"
PASSED = "limit: passed first at line {0}, in all at {1} of {2} events\n"
TURNS = (TURN.format(0) + TURN.format(1)) * 2 + TURN.format(0)
LIMITS = {
    # 6, 2 and -2 are left behind the picks
    "two picks of a period": (LIMITED + TURNS[:-len(TURN.format(0))], KEPT.format(14)),
    "a third one": (LIMITED + TURNS, PASSED.format(21, 1, 17)),
    "a period more": (LIMITED + TURNS.replace("pick 0 1", "refill\npick 0 1"), KEPT.format(19)),
    # what the period before left is gone, or is kept by the burst
    "a period more at first": (LIMITED + "refill\n" + TURNS, PASSED.format(22, 1, 18)),
    "a burst": (LIMITED.replace("6 0", "6 4") + "refill\n" + TURNS, KEPT.format(18)),
    # 6 - 1 are left behind the first run
    "what was not used comes back": (
        LIMITED + "pick 0 0\npass 1\nend 0 1 1\n" + (TURN.format(1) + TURN.format(0)) * 2,
        KEPT.format(17)),
    "a run beyond its quantum": (
        LIMITED + "pick 0 0\npass 4\nend 0 5 1\n", PASSED.format(11, 1, 5)),
}


# A trace with terms that is refused: the line, and why.
WRONG = {
    "the other is due": (HALVES + TURN.format(0) + "pick 0 0\n", 11, EARLIER),
    # both are due, leaf 1 at 2 and leaf 0 at 0.5 of 4
    "a later deadline": (
        HALVES + "pick 0 0\npass 4\nend 0 4 1\npass 4\npick 0 0\n", 12, EARLIER),
    "terms twice": (HALVES.replace("leaf 0", "terms 4 0 4\nleaf 0"), 4, "error 40 BadLine"),
    "terms behind a leaf": ("leaf 0 1\nterms 4 0 4\n", 2, "error 40 BadLine"),
    "no quantum": ("terms 0 0 4\n", 1, "error 41 BadField"),
    "a term too great": ("terms 4 0 4000000001\n", 1, "error 41 BadField"),
    "a leaf that a limit stops": (HALVES + "stop 0 1\npick 0 0\n", 9,
                                  "not allowed: no task of the leaf waits"),
    "neither stopped nor not": (HALVES + "stop 0 2\n", 8, "error 41 BadField"),
    "a period of a number": (HALVES + "refill 1\n", 8, "error 40 BadLine"),
    "a group without a burst": ("group 6\n", 1, "error 40 BadLine"),
    "no task to leave": (HALVES + "leave 0\nleave 0\n", 9,
                         "not allowed: no task of the leaf waits"),
    "an amount of 0": (HALVES + "level\ngive 0 0 5\n", 9, "error 41 BadField"),
    "no such leaf": (HALVES + "cut 2\n", 8, "error 20 NotFound"),
    "time beyond all numbers": (HALVES + "pass 18446744073709551615\n", 8, "error 41 BadField"),
}
REFUSED = {
    "the second least": (HEAD + "wake 0 3\nwake 1 2\npick 0 1\npick 1 1\n", 8, LESSER),
    "not what was given back": (
        HEAD + "wake 0 2\nwake 1 2\npick 0 0\npick 1 1\nend 1 2 1\npick 1 0\n", 10, LESSER),
    # leaf 0 used 10 and runs a task again: its clock is 10, and leaf 1 is lifted to 5
    "a slice charged in advance lifts nobody": (
        HEAD + "wake 0 2\npick 0 0\nend 0 10 1\npick 0 0\nwake 1 1\npick 1 0\n", 10, LESSER),
    "a busy processor": (
        HEAD + "wake 0 2\npick 0 0\npick 0 0\n", 7, "not allowed: the processor runs a task"),
    "an idle processor": (HEAD + "end 1 5 0\n", 5, "not allowed: the processor runs no task"),
    "no task": (HEAD + "wake 0 1\npick 0 1\n", 6, "not allowed: no task of the leaf waits"),
    "the task sleeps": (
        HEAD + "wake 0 1\npick 0 0\nend 0 1 0\npick 0 0\n", 8,
        "not allowed: no task of the leaf waits"),
    "no such leaf": (HEAD + "wake 2 1\n", 5, "error 20 NotFound"),
    "no such processor": (HEAD + "wake 0 1\npick 2 0\n", 6, "error 20 NotFound"),
    "another word": ("processors 2\nslize 10\n", 2, "error 40 BadLine"),
    "a word too few": (HEAD + "wake 0\n", 5, "error 40 BadLine"),
    "a word too many": (HEAD + "wake 0 1 1\n", 5, "error 40 BadLine"),
    "an empty line": ("\n", 1, "error 40 BadLine"),
    "processors twice": (HEAD + "processors 2\n", 5, "error 40 BadLine"),
    "slice twice": (HEAD + "slice 10\n", 5, "error 40 BadLine"),
    "a leaf out of order": (HEAD + "leaf 3 1\n", 5, "error 40 BadLine"),
    "no slice": ("processors 1\nleaf 0 1\nwake 0 1\n", 3, "error 40 BadLine"),
    "no number": (HEAD + "wake 0 x\n", 5, "error 11 BadNumber"),
    "a leading zero": (HEAD + "wake 0 01\n", 5, "error 11 BadNumber"),
    "above 64 bits": (HEAD + "wake 0 18446744073709551616\n", 5, "error 11 BadNumber"),
    "no processors": ("processors 0\n", 1, "error 41 BadField"),
    "too many processors": ("processors 1025\n", 1, "error 41 BadField"),
    "a slice of a second and more": ("slice 1000000001\n", 1, "error 41 BadField"),
    "an amount of 0": ("leaf 0 0\n", 1, "error 41 BadField"),
    "too great an amount": ("leaf 0 1000001\n", 1, "error 41 BadField"),
    "neither 0 nor 1": (HEAD + "wake 0 1\npick 0 0\nend 0 1 2\n", 7, "error 41 BadField"),
    "too many tasks": (HEAD + "wake 0 18446744073709551615\nwake 0 1\n", 6, "error 41 BadField"),
    "too great a charge": (
        HEAD + "wake 0 1\npick 0 0\nend 0 18446744073709551615 1\npick 0 0\n", 8,
        "error 41 BadField"),
    "no last newline": (HEAD + "wake 0 1", 5, "error 42 CutShort"),
}


@pytest.mark.parametrize("text, picks", ALLOWED.values(), ids=list(ALLOWED))
def test_allowed(dispatch, text, picks):
    same(replayed(dispatch, text), (0, f"allowed: {picks} picks\n"))


@pytest.mark.parametrize("case", RESERVED)
def test_reserved(dispatch: Program, case: str) -> None:
    """Each pick of a trace with guarantees is allowed, and where the premises fail is told."""
    text, picks, premises = RESERVED[case]
    same(replayed(dispatch, text), (0, f"allowed: {picks} picks\n{premises}"))


@pytest.mark.parametrize("case", LIMITS)
def test_limits(dispatch: Program, case: str) -> None:
    """Where a trace passes the limit of its group is told."""
    text, limit = LIMITS[case]
    status, told = replayed(dispatch, text)
    same((status, told.splitlines(keepends=True)[2:]), (0, [limit]))


@pytest.mark.parametrize("case", WRONG)
def test_reserved_wrong(dispatch: Program, case: str) -> None:
    """The first line is told that a trace with guarantees may not have."""
    text, line, why = WRONG[case]
    same(replayed(dispatch, text), (3, f"line {line}: {why}\n"))


@pytest.mark.parametrize("text, line, reason", REFUSED.values(), ids=list(REFUSED))
def test_refused(dispatch, text, line, reason):
    same(replayed(dispatch, text), (3, f"line {line}: {reason}\n"))


def test_greatest_numbers(dispatch):
    """Products of clocks have up to 84 bits. Leaf 0 was lifted by a run of 2^63 nanoseconds."""
    head = "processors 1\nslice 1\nleaf 0 1\nleaf 1 1000000\nwake 0 2\nwake 1 1\npick 0 0\n"
    text = head + f"end 0 {2**63} 1\npick 0 1\nend 0 1 1\n"
    same(replayed(dispatch, text + "pick 0 1\n"), (0, "allowed: 3 picks\n"))
    same(replayed(dispatch, text + "pick 0 0\n"), (3, f"line 11: {LESSER}\n"))


def test_closed_output(dispatch):
    """A write that fails ends with status 1 and one line on standard error."""
    with open("/dev/full", "wb") as full:
        ended = dispatch.run([], b"", stdout=full)
    same((ended.status, ended.err[:10]), (1, b"dispatch: "))


def test_there_are_recordings():
    """Three, of thousands of picks: steady groups, sleepers, and forks."""
    assert len(RECORDED) >= 3


@pytest.mark.parametrize("path", RECORDED, ids=[path.name for path in RECORDED])
def test_recorded_picks(dispatch, path):
    """Each pick of the kernel's scheduler is one that the rule allows. One of another leaf in its
    place is found at its line, but where both clocks are equal or none of that leaf waits."""
    lines = gzip.decompress(path.read_bytes()).decode().splitlines()
    picks = [at for at, line in enumerate(lines) if line.startswith("pick ")]
    assert len(picks) > 1000
    status, said = replayed(dispatch, "\n".join(lines) + "\n")
    # (of a trace with guarantees a second line says whether the law's premises hold)
    same((status, said.partition("\n")[0]), (0, f"allowed: {len(picks)} picks"))
    leaves = sum(line.startswith("leaf ") for line in lines)
    found = set()
    for at in picks[len(picks) // 4::len(picks) // 4]:
        _, processor, leaf = lines[at].split()
        for other in {*range(leaves)} - {int(leaf)}:
            cut = [*lines[:at], f"pick {processor} {other}"]
            status, said = replayed(dispatch, "\n".join(cut) + "\n")
            assert status == 0 or said.startswith(f"line {at + 1}: not allowed: ")
            found.add(said.partition(": ")[2])
    assert f"{LESSER}\n" in found


def test_premises_of_a_guest(dispatch):
    """The pages have the number of events at which the premises of the law fail."""
    trace = gzip.decompress((ROOT / "bench/kernel/runs/picks-guarantees.txt.gz").read_bytes())
    premises = replayed(dispatch, trace.decode())[1].splitlines()[1]
    same(premises, "premises: fail first at line 10, in all at 107 of 13675 events")
    for page in ("LINUX.md", "PROVED.md"):
        said = (ROOT / "docs" / page).read_text(encoding="utf-8").replace("13,675", "13675")
        assert "fail at 107 of " in said and "13675 events" in said, page


class Model:
    """The rule, with clocks as fractions."""

    def __init__(self, seed: int):
        self.random = random.Random(seed)
        self.slice = self.random.randint(1, 50)
        self.amounts = [self.random.randint(1, 9) for _ in range(self.random.randint(2, 6))]
        self.charged = [0] * len(self.amounts)
        self.waiting = [0] * len(self.amounts)
        self.runs: List[Optional[int]] = [None] * self.random.randint(1, 4)
        self.lines = [f"processors {len(self.runs)}", f"slice {self.slice}"]
        self.lines += [f"leaf {leaf} {amount}" for leaf, amount in enumerate(self.amounts)]
        self.picks = 0
        # Lines that may stand in place of the one at their index, and are wrong there.
        self.wrong: List[Tuple[int, str]] = []

    def clock(self, leaf: int) -> Fraction:
        return Fraction(self.charged[leaf], self.amounts[leaf])

    def settled(self, leaf: int) -> Fraction:
        """The clock without a slice for each task that runs, or 0."""
        settled = self.charged[leaf] - self.slice * self.runs.count(leaf)
        return Fraction(max(settled, 0), self.amounts[leaf])

    def wake(self) -> None:
        leaf, tasks = self.random.randrange(len(self.amounts)), self.random.randint(1, 3)
        leaves = range(len(self.amounts))
        present = [each for each in leaves if self.waiting[each] or each in self.runs]
        if leaf not in present:
            clock = min(map(self.settled, present)) if present else max(map(self.clock, leaves))
            level = clock * self.amounts[leaf]
            self.charged[leaf] = max(self.charged[leaf], level.numerator // level.denominator)
        self.waiting[leaf] += tasks
        self.lines.append(f"wake {leaf} {tasks}")

    def pick(self, processor: int) -> None:
        waits = [leaf for leaf, waiting in enumerate(self.waiting) if waiting]
        if not waits:
            return
        least = min(map(self.clock, waits))
        others = [leaf for leaf in waits if self.clock(leaf) > least]
        if others:
            line = f"pick {processor} {self.random.choice(others)}"
            self.wrong.append((len(self.lines), line))
        leaf = self.random.choice([leaf for leaf in waits if self.clock(leaf) == least])
        self.charged[leaf] += self.slice
        self.waiting[leaf] -= 1
        self.runs[processor] = leaf
        self.picks += 1
        self.lines.append(f"pick {processor} {leaf}")

    def end(self, processor: int, leaf: int) -> None:
        used = self.random.choice([self.slice, self.random.randint(0, self.slice + 3)])
        remains = self.random.random() < 0.7
        self.charged[leaf] += used - self.slice
        self.waiting[leaf] += remains
        self.runs[processor] = None
        self.lines.append(f"end {processor} {used} {int(remains)}")

    def event(self) -> None:
        if self.random.random() < 0.2:
            return self.wake()
        processor = self.random.randrange(len(self.runs))
        leaf = self.runs[processor]
        return self.pick(processor) if leaf is None else self.end(processor, leaf)


@pytest.mark.parametrize("seed", range(20))
def test_random_runs(dispatch, seed):
    """A run of the model is allowed. With one wrong pick that line is named."""
    model = Model(seed)
    for _ in range(400):
        model.event()
    text = "".join(line + "\n" for line in model.lines)
    same(replayed(dispatch, text), (0, f"allowed: {model.picks} picks\n"))
    for at, line in model.random.sample(model.wrong, min(5, len(model.wrong))):
        cut = "".join(each + "\n" for each in [*model.lines[:at], line, *model.lines[at + 1:]])
        same(replayed(dispatch, cut), (3, f"line {at + 1}: {LESSER}\n"), f"wrong pick at {at + 1}")
