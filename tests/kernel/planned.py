"""The program that guests are set beside: the one that was built here, or another."""
from __future__ import annotations

import os
import subprocess
from pathlib import Path

from kernel.faults import KernelFault

TOP = Path(__file__).resolve().parents[2]
PROGRAM = TOP / "crates/arbiter/out/arbiter"
LAUNCHER = TOP / "arbiter"
chosen: list[Path] = []


def use(path: str) -> None:
    """Asks this program from now on."""
    chosen[:] = [Path(path)]


def program() -> Path:
    """The program: the one that is chosen, $ARBITER, the one that was built here, or ./arbiter."""
    built = PROGRAM if PROGRAM.exists() else LAUNCHER
    found = chosen[0] if chosen else Path(os.environ.get("ARBITER") or built)
    if not found.exists():
        raise KernelFault(f"{found}: not there; ./build makes it")
    return found


def begin() -> None:
    """Asks the program for nothing. ./arbiter may have to be compiled first: it says so itself,
    and takes its time before the first guest runs."""
    words = [str(program()), "run"]
    ended = subprocess.run(words, stdin=subprocess.DEVNULL, stdout=subprocess.DEVNULL, check=False)
    if ended.returncode:
        raise KernelFault(f"{' '.join(words)}: status {ended.returncode}")
