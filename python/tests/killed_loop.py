"""Kills a loop at many points and undoes it: `killed_loop.py FOLDER LIBRARY SEED POINTS`.

Each loop is a fork of this process, with a tree of its own below FOLDER. It is killed at one of its
calls that open, write, sync or name a file: at POINTS of them by chance, and at each that changes a
file. Prints one line of JSON: the calls, the points, how many trees the loop had changed when it
was killed, and the points at which anything was left behind.
"""
import json
import os
import random
import shutil
import signal
import sys
from pathlib import Path

from arbiter import Library
from arbiter_host.base.plan import Engine
from arbiter_host.hold import hold
from arbiter_host.setting import apply
from held import FREE, World

CALLS = ("open", "write", "fsync", "rename", "link", "unlink", "ftruncate")
CHANGES = ("write", "rename", "link", "unlink", "ftruncate")
ROUNDS = 7
LEFT = {"t", "u", "u.part"}


class Calls:
    """The calls of the system that a loop makes while it writes; the one at `at` kills it."""

    def __init__(self, at):
        self.at, self.is_on, self.made, self.changes = at, False, 0, []
        for name in CALLS:
            self.count(name)

    def count(self, name):
        real = getattr(os, name)

        def call(*words, **more):
            if self.is_on:
                self.made += 1
                if name in CHANGES:
                    self.changes.append(self.made)
                if self.made == self.at:
                    os.kill(os.getpid(), signal.SIGKILL)
            return real(*words, **more)
        setattr(os, name, call)

    def within(self, real):
        """A call of the loop whose calls of the system count."""
        def call(*words):
            self.is_on = True
            try:
                return real(*words)
            finally:
                self.is_on = False
        return call


def world_of(folder):
    """A tree with a limit, a burst and a group with children."""
    world = World(folder, [
        ("a", 100, "90000 100000"), ("b", 100, FREE), ("in", 300, "150000 100000"),
        ("in/x", 100, FREE), ("in/y", 50, FREE)])
    (world.tree / "a/cpu.max.burst").write_text("90000\n")
    return world


def run(folder, engine, at):
    """The loop, which uses and wants more and less from round to round."""
    world = world_of(folder)
    loop = world.loop(engine, folder / "u", ways=hold.Ways(has_weights=True))

    def step(turn):
        world.uses("a", 5 + 60 * (turn % 2))
        world.uses("b", 30 * turn, throttled=turn % 3)
        world.uses("in/x", 90, throttled=turn % 2, waited=10**6)
        world.uses("in/y", 10 * turn)
    calls = Calls(at)
    loop.write, loop.end = calls.within(loop.write), calls.within(loop.end)
    world.run(loop, *[lambda turn=turn: step(turn) for turn in range(ROUNDS)])
    return calls


def settings(tree):
    """The texts of all files that a loop may write. A kill may leave empty lines in a plain one."""
    return {str(path.relative_to(tree)): path.read_text().strip()
            for path in sorted(tree.rglob("cpu.*")) if path.name.startswith(("cpu.max",
                                                                           "cpu.weight"))}


def killed(folder, engine, at):
    """Runs a loop in a fork that is killed."""
    child = os.fork()
    if not child:
        try:
            run(folder, engine, at)
        finally:
            os._exit(1)
    return os.waitstatus_to_exitcode(os.waitpid(child, 0)[1])


def undone(folder):
    """Undoes a loop that was killed. Returns what `undo` left alone."""
    if not (folder / "u").exists():
        return []
    back = apply.read_undo((folder / "u").read_bytes(), "u")
    try:
        apply.undo(back, [])
        return back.left
    finally:
        back.root.close()


def main():
    top, seed, many = Path(sys.argv[1]), int(sys.argv[3]), int(sys.argv[4])
    engine = Engine(Library(sys.argv[2]))
    (top / "before").mkdir()
    before = settings(world_of(top / "before").tree)
    whole = top / "whole"
    child = os.fork()
    if not child:
        whole.mkdir()
        calls = run(whole, engine, 0)
        (whole / "calls").write_text(json.dumps([calls.made, calls.changes]))
        os._exit(0)
    assert os.waitstatus_to_exitcode(os.waitpid(child, 0)[1]) == 0
    made, changes = json.loads((whole / "calls").read_text())
    chosen = random.Random(seed).sample(range(1, made + 1), min(many, made))
    points, changed, wrong = sorted({*chosen, *changes}), 0, []
    for at in points:
        folder = top / str(at)
        folder.mkdir()
        status = killed(folder, engine, at)
        changed += settings(folder / "t") != before
        left = undone(folder)
        names = {path.name for path in folder.iterdir()}
        if (status, left, settings(folder / "t")) != (-signal.SIGKILL, [], before) or names - LEFT:
            wrong.append(at)
        shutil.rmtree(folder)
    print(json.dumps({"calls": made, "changes": len(changes), "chosen": len(chosen),
                      "points": len(points), "changed": changed, "wrong": wrong,
                      "whole": settings(whole / "t") == before}))


if __name__ == "__main__":
    main()
