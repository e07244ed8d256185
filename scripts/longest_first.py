#!/usr/bin/env python3
"""`rt all check` for a crate and all below it, with the longest chain of proofs first.

usage: longest_first.py CRATE PLACES JOBS

The kit takes crates by the number of crates below them, and gives each one process. So a chain that
begins late goes on alone at the end. Here PLACES crates are proved at once. Of those that wait, the
one at the foot of the longest chain comes next. The crate that the end waits for gets JOBS
processes. All else is done by the kit's own code: what is printed, what is kept, and the exit
status. A kit whose code has other names runs as `rt all check --jobs PLACES`.
"""
import contextlib
import functools
import os
import sys
import threading
import time

from crates import crates, with_all_below
from kit import kit_module

# Time of a proof on the machine of the last measurement.
MEASURED = "scripts/gate.tsv"
# Seconds of a crate that was not measured.
USUAL = 60
# Seconds in which the crates above one that was proved ask for their turn.
SOON = 0.2


def seconds():
    """Processor seconds of the proof of each crate."""
    with open(MEASURED, encoding="utf-8") as lines:
        rows = [line.split("\t") for line in lines if not line.startswith("#")]
    return {row[0]: int(row[1]) for row in rows if row[1:] and row[1].isdigit()}


def chains(top):
    """The seconds of the longest chain from each crate up to the one on top."""
    stands_on, took, all_below = crates(), seconds(), with_all_below(top)

    @functools.cache
    def up_from(name):
        above = (up_from(each) for each in all_below if name in stands_on[each])
        return took.get(name, USUAL) + max(above, default=0)

    return {name: up_from(name) for name in all_below}


class Turns:
    """Lets crates be proved, a number of them at once. The longest chain comes first."""

    def __init__(self, chain, places, jobs):
        self.chain, self.free, self.jobs = chain, places, jobs
        self.waiting, self.began, self.changed = set(), {}, threading.Condition()

    def is_next(self, name):
        return self.free and name == max(self.waiting, key=self.chain.get)

    def left(self, name):
        """Seconds that are left of the chain of a crate that is being proved."""
        return self.chain[name] - (time.monotonic() - self.began[name])

    @contextlib.contextmanager
    def of(self, name):
        """Waits until it is a crate's turn, and gives the number of its processes."""
        with self.changed:
            self.waiting.add(name)
            self.changed.wait_for(lambda: self.is_next(name))
            self.waiting.remove(name)
            self.free -= 1
            is_longest = all(self.left(each) < self.chain[name] for each in self.began)
            self.began[name] = time.monotonic()
            self.changed.notify_all()
        try:
            yield self.jobs if is_longest else 1
        finally:
            with self.changed:
                del self.began[name]
            # one of the crates above may be of a longer chain than all that wait
            threading.Timer(SOON, self.free_place).start()

    def free_place(self):
        with self.changed:
            self.free += 1
            self.changed.notify_all()


def take_turns(crate, turns):
    """Has each proof wait for its turn. `crate` is the kit's class."""
    build_library, check = crate.build_rlib, crate.check

    def build_in_turn(self, flags, anew):
        if not anew and self.is_built():
            return build_library(self, flags, anew)
        with turns.of(self.name) as jobs:
            return build_library(self, ["--jobs", str(jobs)], anew)

    def check_in_turn(self, flags):
        with turns.of(self.name) as jobs:
            return check(self, ["--jobs", str(jobs)])

    crate.build_rlib, crate.check = build_in_turn, check_in_turn


def main():
    name, places, jobs = sys.argv[1], int(sys.argv[2]), int(sys.argv[3])
    chain = chains(name)
    os.chdir(f"crates/{name}")
    try:
        kit = kit_module("rt")
        take_turns(kit.rtlib.Crate, Turns(chain, places, jobs))
        call = kit.main
    except Exception:  # another kit: its code may be any
        os.execvp("rt", ["rt", "all", "check", "--jobs", str(places)])
    # A thread for each crate: those that wait take no place.
    return call(["all", "check", "--jobs", str(len(chain))])


if __name__ == "__main__":
    sys.exit(main())
