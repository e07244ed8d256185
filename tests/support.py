"""Helpers of all tests: the root of the clone, one comparison, runs with a time limit."""
import concurrent.futures
import functools
import multiprocessing
import os
import re
import select
import shutil
import signal
import subprocess
import tempfile
import time
from pathlib import Path
from typing import NamedTuple, Optional

ROOT = Path(__file__).resolve().parent.parent
PROGRAM = ROOT / "crates/arbiter/out/arbiter"
LIBRARY = ROOT / "crates/bw_exports/out/libarbiter.so"
MEMORY_TESTS = ROOT / "crates/bw_memory_tests/out/bw_memory_tests_tests"
# What scripts/make_checked.sh makes.
CHECKED = ROOT / "out/checked"
# Time limit of one process, in seconds.
SECONDS = 60
# Number of allocations that one round of a sweep refuses, each in a run of its own.
ROUND = 64

OUT_OF_MEMORY = (1, b"", b"arbiter: out of memory\n")
NO_MEMORY = b"error 71 OutOfMemory\n"
NO_THREAD = b"error 70 NotStarted\n"
# Certified texts that were worked by hand.
CERTIFIED = {
    "the root alone": b"bw 1 1 100000 5000 1\n- 100 max 0 0 0 -\n",
    "two groups": b"bw 1 1 100000 5000 3\n- 100 max 0 20 1 13/100@0\n0 100 max 20 7 0 -\n"
    b"0 200 max 20 13 0 -\n",
    "a pod and a job": b"bw 1 1 100000 5000 5\n- 100 max 0 20 1 19/100@1\n0 100 10 0 10 1 5/100@0\n"
    b"1 100 max 20 3 0 -\n1 300 max 20 7 0 -\n0 100 max 20 10 0 -\n",
    "two processors": b"bw 1 2 100000 5000 4\n- 100 max 0 20 0 39/100@0\n0 100 20 0 20 1 19/100@1\n"
    b"1 100 15 30 10 1 -\n1 100 15 30 10 1 -\n",
}


class Ended(NamedTuple):
    """How a process ended. It equals a plain tuple of the same three values."""

    status: int
    out: bytes
    err: bytes


class NoEnd(AssertionError):
    """A process that did not end within its time limit, and was killed."""


def difference(found, wanted) -> str:
    """A short text that shows where two values differ."""
    if isinstance(found, tuple) and isinstance(wanted, tuple) and len(found) == len(wanted):
        names = getattr(found, "_fields", range(len(found)))
        parts = zip(names, found, wanted)
        differ = [(name, one, two) for name, one, two in parts if one != two]
        return "; ".join(f"{name}: {difference(one, two)}" for name, one, two in differ)
    if isinstance(found, (bytes, str)) and isinstance(wanted, type(found)):
        at = len(os.path.commonprefix([found, wanted]))
        begin = max(0, at - 20)
        where = f" from {begin} on" if begin else ""
        return f"{found[begin:at + 200]!r} and not {wanted[begin:at + 200]!r}{where}"
    if isinstance(found, list) and isinstance(wanted, list):
        length = min(len(found), len(wanted))
        at = next((at for at in range(length) if found[at] != wanted[at]), length)
        return f"from item {at} on {str(found[at:])[:200]} and not {str(wanted[at:])[:200]}"
    return f"{str(found)[:300]} and not {str(wanted)[:300]}"


def same(found, wanted, what: str = "") -> None:
    """Fails if two values differ, and shows the first difference. Fast on texts of megabytes."""
    __tracebackhide__ = True
    if found != wanted:
        text = difference(found, wanted)
        raise AssertionError(f"{what}: {text}" if what else text)


def run(words, given: Optional[bytes] = b"", seconds: float = SECONDS, **options) -> Ended:
    """Runs a process in a process group of its own, which is killed when the time is over.

    Options are those of `subprocess.Popen`. A stream that they set is not read: its part of the
    result is empty.
    """
    streams = dict.fromkeys(["stdin", "stdout", "stderr"], subprocess.PIPE)
    options = {"start_new_session": True, **streams, **options}
    given = given if options["stdin"] == subprocess.PIPE else None
    with subprocess.Popen(words, **options) as process:
        try:
            out, err = process.communicate(given, timeout=seconds)
        except subprocess.TimeoutExpired:
            os.killpg(process.pid, signal.SIGKILL)
            process.communicate()
            raise NoEnd(f"no end in {seconds} seconds: {words}"[:300]) from None
    return Ended(process.returncode, out or b"", err or b"")


class Program:
    """A program under test."""

    def __init__(self, path):
        self.path = str(path)

    def run(self, words, given=b"", seconds: float = SECONDS, **options) -> Ended:
        """Runs the program with these words and this standard input."""
        return run([self.path, *words], given, seconds, **options)

    def answers(self, options, script: bytes) -> bytes:
        """The answers of `run` with these options to a script. The run has to end well."""
        ended = self.run(["run", *options], script)
        same((ended.status, ended.err), (0, b""), f"run {options}")
        return ended.out


class Talk:
    """A running program that is written to and read from line by line.

    It is a context manager, which kills the program at the end of its block.
    """

    def __init__(self, program, words, **options):
        streams = dict.fromkeys(["stdin", "stdout", "stderr"], subprocess.PIPE)
        options = {"start_new_session": True, "bufsize": 0, **streams, **options}
        self.until = time.monotonic() + SECONDS
        self.process = subprocess.Popen([program.path, *words], **options)

    def __enter__(self):
        return self

    def __exit__(self, *error):
        if self.process.poll() is None:
            os.killpg(self.process.pid, signal.SIGKILL)
            self.process.wait()
        for stream in (self.process.stdin, self.process.stdout, self.process.stderr):
            if stream:
                stream.close()

    def seconds(self) -> float:
        """The seconds that are left of the time limit."""
        return max(0, self.until - time.monotonic())

    def write(self, text: bytes) -> None:
        self.process.stdin.write(text)

    def read(self, most: int = 4096) -> bytes:
        """One read of standard output, which is empty at its end."""
        if not select.select([self.process.stdout], [], [], self.seconds())[0]:
            raise NoEnd(f"no output in {SECONDS} seconds: {self.process.args}"[:300])
        return os.read(self.process.stdout.fileno(), most)

    def line(self) -> bytes:
        """What standard output gives up to the end of a line, or to its end."""
        text = self.read()
        while text and not text.endswith(b"\n"):
            piece = self.read()
            if not piece:
                break
            text += piece
        return text

    def status(self) -> int:
        """The exit status, once the program has ended by itself."""
        try:
            return self.process.wait(self.seconds())
        except subprocess.TimeoutExpired:
            raise NoEnd(f"no end in {SECONDS} seconds: {self.process.args}"[:300]) from None


def script_lines(name: str) -> list:
    """The lines of a script of examples/ that are commands."""
    lines = (ROOT / "examples" / name).read_bytes().splitlines(keepends=True)
    return [line for line in lines if not re.match(rb"\s*(#|$)", line)]


def each(function, items) -> list:
    """The function's result for each item, in order, by one process for each processor."""
    workers = min(8, os.cpu_count() or 1)
    items = list(items)
    size = max(1, len(items) // (8 * workers))
    context = multiprocessing.get_context("fork")
    with concurrent.futures.ProcessPoolExecutor(workers, context) as pool:
        return list(pool.map(function, items, chunksize=size))


def scheduler_lacks() -> str:
    """What the making of scheduler/ lacks here, in one line; empty where it lacks nothing."""
    ended = run([ROOT / "scheduler/needs"])
    same(ended.status in (0, 1) and not ended.err, True, f"scheduler/needs: {ended}")
    return ended.out.decode().strip()


# Refused calls


def kit_folder() -> Path:
    """The folder of the Rattle kit."""
    rt = shutil.which("rt")
    if rt is None:
        raise FileNotFoundError("the command rt of the Rattle kit is not on the PATH")
    return Path(rt).resolve().parent.parent


def build_refusing_library(folder) -> str:
    """Builds refuse.c with the clang of the kit, and returns the library's path."""
    clang, path = kit_folder() / "toolchain/bin/clang", f"{folder}/refuse.so"
    words = ["-shared", "-fPIC", "-O1", "-nostdlib", "-fuse-ld=lld", "-Wall", "-Wextra", "-Werror"]
    ended = run([clang, *words, "-o", path, ROOT / "tests/refuse.c"])
    same(ended, (0, b"", b""), "refuse.c")
    return path


def refused_run(program, refusing, words, given, **refused):
    """Runs a program with calls refused, which are named as refuse.c names them.

    Returns how it ended, and the letters that refuse.c writes for these calls.
    """
    with tempfile.TemporaryFile() as letters:
        named = {name: str(value) for name, value in refused.items()}
        environment = {"LD_PRELOAD": str(refusing), "TELL": str(letters.fileno()), **named}
        try:
            ended = program.run(words, given, env=environment, pass_fds=[letters.fileno()])
        except NoEnd as error:
            raise NoEnd(f"{refused}: {error}") from None
        letters.seek(0)
        return ended, letters.read()


def refused_one(program, refusing, words, given, number):
    """A run in which the allocation of this number is refused."""
    return refused_run(program, refusing, words, given, REFUSE_ALLOCATION=number)


def refused_each(program, refusing, words, given, numbers) -> dict:
    """How each run ended in which an allocation of these numbers was refused, by its number."""
    runs = each(functools.partial(refused_one, program, refusing, words, given), numbers)
    return {number: ended for number, (ended, letters) in zip(numbers, runs) if b"a" in letters}


def refused_in_turn(program, refusing, words, given) -> dict:
    """Like `refused_each`, for allocation 1, 2, 3, .. until 64 consecutive runs reach no refusal.

    Threads can make the number of allocations differ between two runs.
    """
    found, first = {}, 1
    while True:
        refused = refused_each(program, refusing, words, given, range(first, first + ROUND))
        if not refused:
            return found
        found.update(refused)
        first += ROUND


def without_one_line(program, options, lines, answer, verbs) -> dict:
    """The transcripts in which one line gives this answer and changes nothing, by the line's index.

    A line counts if its first word is one of the verbs. The value is that word and the transcript.
    """
    found = {}
    for at, line in enumerate(lines):
        verb = b"".join(line.split()[:1]).decode()
        if verb in verbs:
            before = program.answers(options, b"".join(lines[:at]))
            rest = program.answers(options, b"".join(lines[:at] + lines[at + 1:]))[len(before):]
            found[at] = (verb, before + answer + rest)
    return found
