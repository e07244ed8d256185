"""Runs of the native program with record.c preloaded, which writes down what its threads do."""
from __future__ import annotations

import shutil
import subprocess
import tempfile
from pathlib import Path
from typing import NamedTuple

from lock.replay import LOCK_BYTES, PLACES_BYTES

SOURCE = Path(__file__).with_name("record.c")
ORDERS = ("even", "rounds", "late", "runs")
PERIOD_US, LEAVES, SECONDS = 1_000_000, 2, 60
SLEPT_ALL = 70


class NotRecorded(Exception):
    """A run that failed, or of which nothing was written down."""


class Made(NamedTuple):
    """What the recorder wrote down, and what the program answered."""

    text: str
    answers: str


def lacks(program: str) -> str:
    """Why runs of the program cannot be recorded here, in one line; empty where they can."""
    if not shutil.which("cc"):
        return "no cc to compile tests/lock/record.c"
    with open(program, "rb") as file:
        head = file.read(20)
    if head[:4] != b"\x7fELF" or head[18:20] != b"\x3e\x00":
        return "the program is no native one for x86-64"
    return ""


def built(folder: str) -> str:
    """The recorder, as a library to be preloaded."""
    made = f"{folder}/record.so"
    subprocess.run(["cc", "-std=gnu11", "-O1", "-fPIC", "-shared", "-pthread", "-Wall", "-Wextra",
                    "-Wpedantic", "-Werror", "-o", made, str(SOURCE), "-ldl"], check=True)
    return made


def script(threads: int, slices: int) -> str:
    """A period of two leaves, of which one ends before the other."""
    whole = threads * slices
    return f"mkdir a\nmkdir b\ndemand a {whole // 4}\ndemand b {whole}\nperiod\n"


def recorded(recorder: str, words: list[str], given: str, threads: int, order: str,
             seed: int) -> Made:
    """A run of so many threads, of any program."""
    with tempfile.TemporaryFile() as lines:
        known = {"LD_PRELOAD": recorder, "RECORD_THREADS": threads, "RECORD_ORDER": order,
                 "RECORD_SIZES": f"{LOCK_BYTES},{PLACES_BYTES}", "RECORD_SEED": seed,
                 "RECORD_TO": lines.fileno()}
        ended = subprocess.run(words, input=given, capture_output=True, text=True, check=False,
                               env={name: str(value) for name, value in known.items()},
                               pass_fds=[lines.fileno()], timeout=SECONDS)
        lines.seek(0)
        text = lines.read().decode()
    if ended.returncode not in (0, SLEPT_ALL) or not text:
        raise NotRecorded(f"status {ended.returncode}: {ended.stderr}")
    return Made(text, ended.stdout)


def period(recorder: str, program: str, threads: int, slices: int, order: str, seed: int) -> Made:
    """A recorded period of so many threads, each of which draws so many slices."""
    words = [program, "run", "--processors", str(threads), "--period", str(PERIOD_US), "--slice",
             str(PERIOD_US // slices)]
    return recorded(recorder, words, script(threads, slices), threads, order, seed)
