"""A tree that the loop of `hold` holds, with a clock, and a loop that runs as a command."""
import json
import os
import subprocess
import sys
import threading
import time
from concurrent.futures import ThreadPoolExecutor
from contextlib import contextmanager

import trees
from arbiter import Host
from arbiter_host.base import safe_files
from arbiter_host.hold import hold
from arbiter_host.setting import record
from arbiter_host.sources import task_times, readings
from places import PACKAGE

TWO = Host(2, 100000, 1000)
SECOND = 10**9
FREE = "max 100000"


def limit(slices):
    """The text of a limit that was written: a 128th above that of the rule."""
    return f"{slices * 1000 + slices * 1000 // 128} 100000"


class World:
    """A tree of plain files with a clock, whose groups use and wait as the test says. One group
    lacks CPU in each second in which the test says nothing of it: else nobody would be held."""

    def __init__(self, folder, groups, lacks="b"):
        self.tree, self.now, self.lines, self.after = folder / "t", 0, [], []
        self.lacks = lacks
        self.counters = {}
        # (the tasks of these groups are none of this machine)
        task_times.PROC = str(folder / "proc")
        trees.root2(self.tree)
        for path, weight, maximum in groups:
            self.add(path, weight, maximum)

    def add(self, path, weight=100, maximum=FREE, burst=0):
        self.counters[path] = [0, 0, 0]
        trees.group2(self.tree / path, weight, maximum, burst)

    def uses(self, path, slices, throttled=0, waited=0):
        """One second in which a group uses so many slices in each period."""
        mine = self.counters[path]
        for place, rise in enumerate((slices * 10 * 1000, throttled, waited)):
            mine[place] += rise
        usage, stopped, pressed = mine
        text = {"cpu.stat": trees.STAT.format(usage=usage, periods=10, throttled=stopped),
                "cpu.pressure": trees.PRESSURE.format(waited=pressed)}
        for name, each in text.items():
            (self.tree / path / f"{name}.new").write_text(each)
            os.replace(self.tree / path / f"{name}.new", self.tree / path / name)

    def wait(self, seconds):
        """A second of the clock, in which the next step of the test happens; True at its end."""
        assert 0 <= seconds <= 1
        if not self.after:
            return True
        self.now += SECOND
        before = list(self.counters.get(self.lacks, ()))
        self.after.pop(0)()
        if before == self.counters.get(self.lacks) and (self.tree / self.lacks).exists():
            self.uses(self.lacks, 1, waited=10**6)
        return False

    def lack(self, is_over):
        """One group lacks CPU until something is over: for a loop that runs as a command."""
        while not is_over():
            self.uses(self.lacks, 1, waited=10**6)
            time.sleep(0.02)

    @contextmanager
    def lacking(self):
        """One group lacks CPU meanwhile."""
        over = threading.Event()
        with ThreadPoolExecutor(1) as threads:
            ended = threads.submit(self.lack, over.is_set)
            try:
                yield
            finally:
                over.set()
            ended.result()

    def loop(self, engine, undo=None, **words):
        kept = None if undo is None else record.Record(str(undo))
        return hold.Loop(engine, safe_files.Root(str(self.tree)), str(self.tree), TWO, kept,
                         clock=lambda: self.now, **words)

    def run(self, loop, *steps, times=readings.Times(number=None)):
        """Rounds, a step before each. Returns the lines and what stood at each line."""
        self.after, lines = list(steps), []

        def emit(line):
            stood = {path: self.maximum(path) for path in self.counters
                     if (self.tree / path).exists()}
            lines.append((json.loads(json.dumps(line)), stood))
        hold.run(loop, times, self.wait, emit)
        return lines

    def maximum(self, path):
        return (self.tree / path / "cpu.max").read_text().strip()


def content(tree):
    """The text of each file of a tree that does not count."""
    return {str(path): path.read_text() for path in sorted(tree.rglob("*"))
            if not path.name.startswith(("cpu.stat", "cpu.pressure")) and path.is_file()}


def begun(ctl, world, undo, *words):
    """A loop as a command, on a tree in which one group lacks CPU."""
    found = subprocess.Popen(
        [sys.executable, str(PACKAGE / "arbiterctl"), "hold", str(world.tree), "--root",
         str(world.tree), "--cpus", "2", "--yes", "--read", "x100ms", "--period", "100ms",
         "--undo", str(undo), *words],
        env=ctl.environment, stdout=subprocess.PIPE, stderr=subprocess.PIPE)
    threading.Thread(target=world.lack, args=[lambda: found.poll() is not None],
                     daemon=True).start()
    return found


def started(ctl, world, undo, *words):
    """A loop that runs, after it has told its first round."""
    found = begun(ctl, world, undo, *words)
    assert json.loads(found.stdout.readline())["round"] == 1
    return found


def said(loop):
    """What a loop that ended said, but for rounds that a busy machine missed."""
    lines = loop.communicate(timeout=30)[1].decode().split("\n")[:-1]
    return [line for line in lines if not line.endswith("rounds missed")]
