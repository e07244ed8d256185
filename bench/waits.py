#!/usr/bin/python3
"""Times what people wait for in arbiterctl, and prints a table.

usage: waits.py LIBRARY [PACKAGE] [WORD..]    LIBRARY is a libarbiter.so; PACKAGE is the folder
                                              python/ of any commit, this one's if none is given;
                                              rows that have a WORD alone are made

Seconds are processor time of a whole command with its start, the least of some runs. Plans are
those that were asked for with their certificates. Memory is the most that was resident.
"""
import json
import math
import os
import random
import resource
import subprocess
import sys
import tempfile
import time
from collections.abc import Iterator
from pathlib import Path

TOP = Path(__file__).resolve().parent.parent
# A command whose last line on standard error is the number of plans.
COUNTED = """
import sys
sys.path.insert(0, sys.argv.pop(1))
from arbiter_host.base.plan import Engine
from arbiter_host.command import run
made, plan = 0, Engine.plan
def counted(*words):
    global made
    made += 1
    return plan(*words)
Engine.plan = counted
try:
    status = run()
finally:
    print(made, file=sys.stderr)
sys.exit(status)
"""
# Seconds that the runs of one row may take, and how many there are at most.
SECONDS, REPEATS = 20, 5
# The first time of a history, and the seconds between two samples.
BEGIN, STEP = 1764000000, 300


def containers(pod: int) -> list[str]:
    """A third of the pods have two containers."""
    return ["app", "side"] if pod % 3 == 0 else ["app"]


def write_pods(path: Path, pods: int) -> None:
    """Pods of small requests, without a node."""
    chosen = random.Random(7)
    path.write_text(json.dumps({"kind": "List", "items": [{
        "kind": "Pod", "metadata": {"namespace": "n", "name": f"p{pod}", "uid": f"u{pod}"},
        "spec": {"containers": [{"name": name, "resources": {
            "requests": {"cpu": f"{chosen.randint(5, 60)}m"}}} for name in containers(pod)]}}
        for pod in range(pods)]}))


def write_samples(path: Path, columns: list[str], samples: int) -> None:
    """Samples of some columns, with as many digits as a server's."""
    chosen = random.Random(8)
    with path.open("w") as file:
        file.write(f"time,{','.join(columns)}\n")
        for at in range(samples):
            row = ",".join(repr(chosen.random() / 20) for _ in columns)
            file.write(f"{BEGIN + STEP * at},{row}\n")


def rows_in(folder: Path) -> Iterator[tuple[str, list[str]]]:
    """The rows: their names, and the words of their commands."""
    def pods(many: int) -> str:
        path = folder / f"{many}.json"
        if not path.exists():
            write_pods(path, many)
        return str(path)

    for many, samples in ((50, 1440), (50, 4032), (500, 4032)):
        history = folder / f"{many}.csv"
        write_samples(history, [f"n/p{pod}/{name}" for pod in range(many)
                                for name in containers(pod)], samples)
        yield f"`recommend`, {many} pods, {samples} samples", [
            "recommend", pods(many), "--cpus", "64", "--used", str(history)]
    script, day = folder / "ten.script", folder / "ten.csv"
    script.write_text("# arbiter run --processors 2 --period 100000 --slice 1000\n"
                      + "".join(f"mkdir g{at}\n" for at in range(10)))
    for samples in (2500, 10000):
        write_samples(day, [f"g{at}" for at in range(10)], samples)
        for form in ("text", "csv"):
            yield f"`replay -o {form}`, 10 groups, {samples} samples", [
                "replay", str(script), "--used", str(day), "-o", form]
    for many in (100, 250, 500):
        for what, goal, *more in (("that is met", "n/p3/app=1m"), ("above what is asked",
                                                                   "n/p3/app=1"),
                                  ("of a busy node, met", "n/p3/app=500m", "--want", "busy"),
                                  ("of a busy node, not met", "n/p3/app=64", "--want", "busy")):
            yield f"`tune`, {many} pods, a goal {what}", [
                "tune", pods(many), "--cpus", "64", "--goal", goal, *more]
    for many in (500, 2500, 5000):
        yield f"`explain`, {many} pods", ["explain", pods(many), "--cpus", "64"]


def measured(library: str, package: str, words: list[str]) -> tuple[float, str, float, int]:
    """Seconds, plans, MiB and the status of a command, the least of some runs."""
    best, memory, spent, times = math.inf, math.inf, 0.0, 0
    plans, status = "-", 0
    while times < REPEATS and spent < SECONDS:
        began = time.monotonic()
        with tempfile.TemporaryFile() as said:
            process = subprocess.Popen([sys.executable, "-c", COUNTED, package, *words],
                                       env={**os.environ, "ARBITER_LIBRARY": library},
                                       stdout=subprocess.DEVNULL, stderr=said)
            _, ended, used = os.wait4(process.pid, 0)
            process.returncode = status = os.waitstatus_to_exitcode(ended)
            said.seek(0)
            plans = (said.read().decode().split("\n")[-2:] or ["-"])[0]
        best = min(best, used.ru_utime + used.ru_stime)
        memory = min(memory, used.ru_maxrss / 1024)
        spent, times = spent + time.monotonic() - began, times + 1
    return best, plans, memory, status


def main() -> None:
    """Prints the table."""
    if len(sys.argv) < 2 or not Path(sys.argv[1]).is_file():
        sys.exit((__doc__ or "").partition("\n\n")[2])
    library, package = str(Path(sys.argv[1]).resolve()), str(TOP / "python")
    words = sys.argv[2:]
    if words and Path(words[0]).is_dir():
        package, *words = words
    resource.setrlimit(resource.RLIMIT_CORE, (0, 0))
    print("| What | Seconds | Plans | MiB | Status |\n|---|---|---|---|---|", flush=True)
    with tempfile.TemporaryDirectory() as folder:
        for name, call in rows_in(Path(folder)):
            if all(word in name for word in words):
                seconds, plans, memory, status = measured(library, package, call)
                print(f"| {name} | {seconds:.2f} | {plans} | {memory:.0f} | {status} |", flush=True)


if __name__ == "__main__":
    main()
