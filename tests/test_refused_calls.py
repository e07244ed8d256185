"""Each allocation refused in turn in the library calls that take memory.

The tests of bw_memory_tests repeat a call that was refused memory, and compare what it left and
what it gives then. Here each of these tests runs once for each of its allocations, which is
refused, and has to pass. Of a test with many allocations the first are refused, and of the others
some, evenly spread. The gate and `rt test` build the program.
"""
import re
from pathlib import Path

import pytest

from support import Ended, Program, refused_each, refused_run, run, same

PASSED = Ended(0, b"\ntest result: ok\n", b"")
# Number of first allocations that are refused, and about how many of the others.
FIRST, SPREAD = 400, 100
# A program in whose tests fewer allocations are refused than this tests nothing.
LEAST_REFUSED = 40


def names_in(path: Path) -> list:
    """The tests of a program of tests."""
    ended = run([path, "--list"])
    text = ended.out.decode()
    names = re.findall(r"^(\S+): test$", text, re.MULTILINE)
    if ended.status or not names or f"tests: {len(names)}\n" not in text:
        raise ValueError(f"{path} --list: {ended}"[:300])
    return names


def pytest_generate_tests(metafunc):
    """The tests of the program. One that fails stands for a program that is not built."""
    if "memory_test" in metafunc.fixturenames:
        path = Path(metafunc.config.getoption("memory_tests"))
        names = names_in(path) if path.is_file() else ["not built"]
        metafunc.parametrize("memory_test", names)


class Sweeps:
    """The sweeps of a program's tests, each run once."""

    def __init__(self, path, refusing):
        self.program, self.refusing, self.found = Program(path), refusing, {}

    def of(self, name: str):
        """How each run of a test ended in which an allocation was refused, and its allocations."""
        if name not in self.found:
            ended, letters = refused_run(self.program, self.refusing, [name], b"", TELL_ALL=1)
            same(ended, PASSED, "without a refusal")
            count = letters.count(b"m")
            others = range(FIRST + 1, count + 1)
            numbers = [*range(1, min(FIRST, count) + 1), *others[::max(1, len(others) // SPREAD)]]
            runs = refused_each(self.program, self.refusing, [name], b"", numbers)
            self.found[name] = (runs, count)
        return self.found[name]


@pytest.fixture(scope="module")
def sweeps(request, refusing):
    path = Path(request.config.getoption("memory_tests")).resolve()
    if not path.is_file():
        pytest.fail(f"no file {path}: ./test makes it, --memory-tests names another", pytrace=False)
    return Sweeps(path, refusing)


def test_each_allocation_refused(sweeps, memory_test):
    runs, count = sweeps.of(memory_test)
    wrong = {number: ended for number, ended in sorted(runs.items()) if ended != PASSED}
    print(f"{memory_test}: {len(runs)} of {count} allocations refused")
    for number, ended in wrong.items():
        same(ended, PASSED, f"{len(wrong)} of {len(runs)} runs, the first with allocation {number}")


def test_enough_allocations_refused(sweeps):
    names = names_in(sweeps.program.path)
    refused = sum(len(sweeps.of(name)[0]) for name in names)
    count = sum(sweeps.of(name)[1] for name in names)
    print(f"{len(names)} tests, {refused} of {count} allocations refused")
    assert refused >= LEAST_REFUSED
