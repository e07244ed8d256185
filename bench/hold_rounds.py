#!/usr/bin/python3
"""Times rounds of `hold` on trees of plain files, and prints a table.

usage: hold_rounds.py LIBRARY [GROUPS..]    LIBRARY is a libarbiter.so; GROUPS are 500, 4096 and
                                            16383 if none is given

A time is processor time of one round, in seconds, the least of some: of the first one that writes,
and of later ones in which none, a tenth or all of the groups used something. Each group is a
folder of six files on a tmpfs, a hundred of them below one. By the clock of the loop a round takes
a second, so that groups use as much in each, and the later rounds write nothing.
"""
import gc
import itertools
import json
import os
import shutil
import sys
import tempfile
import time
from pathlib import Path

TOP = Path(__file__).resolve().parent.parent
sys.path[:0] = [str(TOP / "python"), str(TOP / "python/tests")]
import trees  # noqa: E402  (the path is set above)
from arbiter import Host, Library  # noqa: E402
from arbiter_host.base import safe_files  # noqa: E402
from arbiter_host.base.plan import Engine  # noqa: E402
from arbiter_host.hold import hold  # noqa: E402
from arbiter_host.setting import record  # noqa: E402
from arbiter_host.sources import task_times  # noqa: E402

GROUPS = [500, 4096, 16383]
HOST = Host(64, 1000000, 1000)
PARTS = {"none used": 0, "a tenth used": 10, "all used": 1}
REPEATS = 6


def folders(top: str, groups: int) -> list[str]:
    """Makes the tree, and returns the folders of its leaves."""
    trees.root2(top)
    paths = [f"{top}/p{at // 101}" + (f"/n{at % 101}" if at % 101 else "") for at in range(groups)]
    for path in paths:
        trees.group2(path)
    inner = {os.path.dirname(path) for path in paths}
    return [path for path in paths if path not in inner]


def seconds(loop: hold.Loop) -> float:
    """The processor time of a round, and of its line."""
    began = time.process_time()
    line = loop.round()
    json.dumps(line)
    return time.process_time() - began


def row(engine: Engine, folder: str, groups: int) -> list[float]:
    """The times of a tree."""
    top = f"{folder}/{groups}"
    leaves, used = folders(top, groups), itertools.count(1)
    loop = hold.Loop(engine, safe_files.Root(top), top, HOST, record.Record(f"{top}.undo"),
                     clock=lambda: loop.readings * hold.SECOND)
    loop.read()
    found = [seconds(loop)]
    for part in PARTS.values():
        times = []
        for _ in range(REPEATS):
            usage = 20000 * next(used)
            for path in leaves[::part] if part else ():
                trees.put(path, cpu_stat=trees.STAT.format(usage=usage, periods=0, throttled=0))
            times.append(seconds(loop))
        found.append(min(times))
    loop.end()
    loop.root.close()
    return found


def main() -> None:
    """Prints the table."""
    gc.set_threshold(hold.MOST_OBJECTS)
    engine = Engine(Library(sys.argv[1]))
    numbers = [int(word) for word in sys.argv[2:]] or GROUPS
    folder = tempfile.mkdtemp(dir="/dev/shm")
    task_times.PROC = f"{folder}/none"
    try:
        print("groups", "first", *PARTS, sep="\t")
        for groups in numbers:
            print(groups, *(f"{each:.2f}" for each in row(engine, folder, groups)), sep="\t",
                  flush=True)
    finally:
        shutil.rmtree(folder)


if __name__ == "__main__":
    main()
