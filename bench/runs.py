"""Runs of the program that are measured, and what is said meanwhile."""
import atexit
import functools
import math
import os
import re
import shutil
import subprocess
import sys
import tempfile
import time
from collections.abc import Callable, Iterable
from pathlib import Path
from typing import NoReturn

HERE = Path(__file__).resolve().parent
PROGRAM = "crates/arbiter/out/arbiter"

TICK = os.sysconf("SC_CLK_TCK")
# The part of a run that the host may take before the run is made again, and how often at most.
TAKEN, TRIES = 0.03, 4


def note(text: str) -> None:
    print(f"{Path(sys.argv[0]).stem}: {text}", file=sys.stderr, flush=True)


def stop(text: str) -> NoReturn:
    note(text)
    sys.exit(2)


def program_of(named: str | None) -> str:
    """The program to measure: the one that is named, or that of ./build, if it is up to date."""
    if not named:
        words = ["bash", "-c", ". scripts/current.sh; is_current"]
        if subprocess.run(words, cwd=HERE.parent, check=False).returncode:
            stop("there is no current native program: ./build makes it")
    return os.path.abspath(named or HERE.parent / PROGRAM)


def spent(words: list[str], file: str) -> tuple[float, float]:
    """The processor seconds and the seconds of a process, which has to succeed."""
    began = time.perf_counter()
    with open(file, "rb") as given, open(os.devnull, "wb") as nothing:
        process = subprocess.Popen(words, stdin=given, stdout=nothing)
        _, status, used = os.wait4(process.pid, 0)
    process.returncode = os.waitstatus_to_exitcode(status)
    if process.returncode:
        stop(f"{' '.join(words)} ended with status {process.returncode}")
    return used.ru_utime + used.ru_stime, time.perf_counter() - began


def taken() -> float:
    """Seconds that the host took from this machine's processors; 0 if the system does not tell."""
    try:
        with open("/proc/stat", encoding="utf-8") as stat:
            return int(stat.readline().split()[8]) / TICK
    except (OSError, IndexError, ValueError):
        return 0.0


def quietly(words: list[str], file: str) -> tuple[float, float]:
    """The processor seconds and seconds of a run. If the host takes part, it is made again."""
    least = math.inf, math.inf
    for _ in range(TRIES):
        before, found = taken(), spent(words, file)
        least = min(least, found)
        if taken() - before <= TAKEN * found[1]:
            break
    return least


def compiler() -> list[str]:
    """The clang of the kit whose `rt` is on the PATH, otherwise `cc`."""
    kit = shutil.which("rt")
    clang = Path(kit).resolve().parent.parent / "toolchain/bin/clang" if kit else None
    return [str(clang), "-fuse-ld=lld"] if clang and clang.is_file() else ["cc"]


@functools.cache
def fixed_random() -> str:
    """The library of fixed_random.c. It is removed when this process ends."""
    room = tempfile.mkdtemp(prefix="bench-")
    atexit.register(shutil.rmtree, room, ignore_errors=True)
    library = f"{room}/fixed_random.so"
    words = [*compiler(), "-shared", "-fPIC", "-O1", "-nostdlib", "-o", library,
             str(HERE / "fixed_random.c")]
    if subprocess.run(words, stdin=subprocess.DEVNULL, check=False).returncode:
        stop(f"{' '.join(words)} failed")
    return library


def counted(words: list[str], file: str, byte: int = 0) -> tuple[float, float]:
    """The instructions of a process, which has to succeed: always the same for the same bytes.

    Each random byte of the process is `byte`, so the keys of its hash of names are known. A thread
    may end before it is waited for or after. So each `period` can differ by some hundred.
    """
    whole = ["valgrind", "--tool=callgrind", "--callgrind-out-file=/dev/null", *words]
    known = {"LD_PRELOAD": fixed_random(), "RANDOM_BYTE": str(byte)}
    with open(file, "rb") as given:
        ended = subprocess.run(whole, stdin=given, stdout=subprocess.DEVNULL,
                               stderr=subprocess.PIPE, text=True, check=False,
                               env={"PATH": os.environ.get("PATH", os.defpath), **known})
    found = re.search(r"Collected : (\d+)", ended.stderr)
    if ended.returncode or not found:
        stop(f"{' '.join(whole)} ended with status {ended.returncode}")
    return int(found[1]), 0.0


def answers(words: list[str], text: bytes) -> bytes:
    """What the program writes for a text of which no line may be refused."""
    ended = subprocess.run(words, input=text, stdout=subprocess.PIPE, check=False)
    lines = ended.stdout.split(b"\n")
    refused = [line for line in lines if line.startswith((b"error", b"refused"))]
    bad = b"".join(refused[:1]).decode(errors="replace")
    if ended.returncode or bad:
        stop(f"{' '.join(words)} ended with status {ended.returncode} and wrote: {bad}")
    return ended.stdout


class Least:
    """Runs that are made in turns, and the least processor time of each, or its instructions."""

    def __init__(self, take: Callable[[list[str], str], tuple[float, float]], program: str,
                 room: str) -> None:
        self.take, self.program, self.room = take, program, room
        self.runs: dict[str, tuple[list[str], str]] = {}
        self.best: dict[str, float] = {}

    def add(self, name: str, words: list[str], text: bytes) -> None:
        file = f"{self.room}/{name}"
        with open(file, "wb") as script:
            script.write(text)
        self.runs[name] = [self.program, *words], file
        self.best.pop(name, None)
        self.once(name)

    def once(self, name: str) -> None:
        self.best[name] = min(self.take(*self.runs[name])[0], self.best.get(name, math.inf))

    def turns(self, number: int, names: Iterable[str]) -> None:
        """Makes runs again. Instructions are counted once, since they repeat."""
        for _ in range(0 if self.take is counted else number):
            for name in names:
                self.once(name)
