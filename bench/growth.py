#!/usr/bin/env python3
"""Measures the native program by itself and prints the tables of bench/growth.md.

    bench/growth.py                          all: some minutes
    bench/growth.py --quick                  1024 and 4096 groups, fewer repeats
    bench/growth.py --shapes flat,random     some shapes of tree alone
    bench/growth.py --instructions           counts instructions, by valgrind: the same under load
    bench/growth.py --periods                the lock alone, without and with busy loops beside it
    bench/growth.py --program FILE           another program than the one that ./build made

A time is processor time, user and system, of whole processes. It is the least of some runs of a
script with the measured lines, less the least of the script without them. So other work on the
machine tells little in it. A run in which a virtual machine's host took part is made again.

Status 1: a cost grows faster than bench/measured.md says, also when it was measured again. Status 2:
the program could not be measured. It is no part of ./test.
"""
import argparse
import math
import os
import shutil
import subprocess
import sys
import tempfile
import time

from periods import tables_of_periods
from runs import (PROGRAM, Least, answers, counted, note, program_of, quietly, stop, taken)
from shapes import COMMANDS, DEPTHS, OF_ALL, OF_EACH, SHAPES, Tree, host, text_of

TOP = os.path.dirname(os.path.dirname(os.path.abspath(__file__)))
SIZES = [1024, 4096, 16384]
# Twice the groups, or twice the depth where paths are walked or printed, may take so many times
# the time, or instructions.
TWICE = 2.6
# Seconds that the measured lines of a script take, or nearly, and those below which a run is made
# five times as often.
AIM, SHORT = 0.03, 0.02
# A line that looks at all groups is given at least so often. The first one alone takes room for
# the answer, which costs more.
ROUNDS = 8
# How often, and after how many seconds, a cost is measured again that seems to grow too fast.
PASSES, PAUSE = 5, 20
# These are measured as one round, from nothing.
ONCE = ["mkdir", "check"]


class Point:
    """One shape with so many groups."""

    def __init__(self, take, program, shape, groups):
        self.tree, self.rounds = Tree(shape, groups), dict.fromkeys(ONCE, 1)
        self.room = tempfile.TemporaryDirectory(prefix="bench-")
        self.least = Least(take, program, self.room.name)
        made = self.tree.made
        lines = [*made, *self.tree.rounds["read"], "plan", "total", "period", "report"]
        answers([program, *host(1)], text_of(lines))
        certified = answers([program, *host(64)], text_of([*made, "cert"]))
        certified = certified[certified.index(b"bw 1 ") :]
        if answers([program, "check"], certified) != b"accepted\n":
            stop("a certified text was not accepted")
        self.least.add("nothing", host(64), b"")
        self.least.add("made", host(64), text_of(made))
        self.least.add("made for one", host(1), text_of(made))
        self.least.turns(4, [*self.least.runs])
        self.least.add("mkdir", host(64), text_of(self.tree.rounds["mkdir"]))
        self.least.add("check", ["check"], certified)
        for command in COMMANDS:
            self.again(command)

    @staticmethod
    def base(command):
        """The run that a command's run is compared with."""
        other = {"mkdir": "nothing", "check": "nothing", "period": "made for one"}
        return other.get(command, "made")

    def choose(self, command):
        """Takes as many rounds of a command as last about as long as is aimed at.

        That is by the least of three runs. Instructions are counted of one round.
        """
        before = self.least.best[self.base(command)]
        once = command in OF_EACH or self.least.take is counted
        aim, rounds = max(AIM, before / 2), 1 if once else ROUNDS
        while True:
            lines = [*self.tree.made, *self.tree.rounds[command] * rounds]
            self.least.add(command, host(1 if command == "period" else 64), text_of(lines))
            self.least.turns(2, [command])
            took = self.least.best[command] - before
            if took >= aim / 2 or rounds >= 4096 or self.least.take is counted:
                break
            rounds = min(4096, rounds * max(2, math.ceil(aim / max(took, aim / 16))))
        self.rounds[command] = rounds

    def again(self, command):
        """Chooses the rounds of a command. In disturbed runs too few may have seemed enough."""
        if command not in ONCE:
            self.choose(command)

    def measure(self, repeats, command=None):
        """Makes the runs again, or those of one command; short ones more often."""
        names = [command, self.base(command)] if command else [*self.least.runs]
        self.least.turns(repeats, names)
        self.least.turns(4 * repeats, [name for name in names if self.least.best[name] < SHORT])

    def cost(self, command):
        """The seconds, or instructions, of one round of a command."""
        more = self.least.best[command] - self.least.best[self.base(command)]
        return max(more, 1e-7) / self.rounds[command]

    def of_groups(self, command):
        """The cost of a command for all groups: of one line for each, or of the one line."""
        lines, groups = len(self.tree.rounds[command]), len(self.tree.paths)
        return self.cost(command) * (groups / lines if command in OF_EACH else 1)

    def shown(self, command):
        """Microseconds a line for commands of each group, otherwise milliseconds.

        If instructions are counted, thousands of instructions a line.
        """
        if self.least.take is counted:
            return self.cost(command) / 1e3 / len(self.tree.rounds[command])
        if command in OF_EACH:
            return 1e6 * self.of_groups(command) / len(self.tree.paths)
        return 1e3 * self.cost(command)


class Bench:
    def __init__(self, take, program, shapes, sizes, repeats):
        self.shapes, self.sizes, self.repeats = shapes, sizes, repeats
        self.points, self.counts = {}, take is counted
        for shape in shapes:
            for groups in sizes:
                began = time.monotonic()
                point = self.points[shape, groups] = Point(take, program, shape, groups)
                point.measure(repeats)
                costs = ", ".join(f"{name} {figure(point.shown(name))}" for name in COMMANDS)
                took = time.monotonic() - began
                note(f"{shape}, {groups} groups, {took:.0f} seconds: {costs}")

    def times(self):
        yield from head("Tree", "Groups")
        for (shape, groups), point in self.points.items():
            yield row([shape, groups, *[figure(point.shown(name)) for name in COMMANDS]])

    def steps(self, of_depth):
        """Pairs of points that are compared.

        For each: both points, how many times as great or deep the second one is, and two words.
        """
        found = self.deeper() if of_depth else self.greater()
        return [step for step in found if step[0] in self.points and step[1] in self.points]

    def deeper(self):
        for groups in self.sizes:
            for less, more in zip(DEPTHS, DEPTHS[1:]):
                points = (f"chains of {less}", groups), (f"chains of {more}", groups)
                yield (*points, more / less, groups, f"{less} to {more}")

    def greater(self):
        for shape in self.shapes:
            for less, more in zip(self.sizes, self.sizes[1:]):
                yield (shape, less), (shape, more), more / less, shape, f"{less} to {more}"

    def factor(self, less, more, command):
        return self.points[more].of_groups(command) / self.points[less].of_groups(command)

    def too_great(self):
        """What grows faster than is said: the two points, the command, and words for it."""
        for of_depth in (False, True):
            for less, more, times, of, step in self.steps(of_depth):
                bound = bound_of(times)
                where = f"{of} groups, depth {step}" if of_depth else f"{of}, {step}"
                for command in COMMANDS:
                    found = self.factor(less, more, command)
                    if found > bound:
                        said = f"{found:.1f} times, and at most {bound:.1f} is said"
                        yield less, more, command, f"{command}, {where}: {said}"

    def settle(self):
        """Measures again what seems to grow too fast, after a pause: other work uses the caches."""
        for _ in range(0 if self.counts else PASSES):
            found = [*self.too_great()]
            if not found:
                return
            note(f"in {PAUSE} seconds once more: {'; '.join(each[3] for each in found)}")
            time.sleep(PAUSE)
            for less, more, command, _ in found:
                both = self.points[less], self.points[more]
                for point in both:
                    point.again(command)
                for _ in range(2 * self.repeats):
                    for point in both:
                        point.measure(1, command)

    def factors(self, of_depth):
        """The factor of each command from each point to the next. What is too great is bold."""
        yield from head("Groups", "Depth") if of_depth else head("Tree", "Groups")
        for less, more, times, of, step in self.steps(of_depth):
            found = [self.factor(less, more, command) for command in COMMANDS]
            bound = bound_of(times)
            texts = [f"{each:.1f}" if each <= bound else f"**{each:.1f}**" for each in found]
            yield row([of, step, *texts])


def row(columns):
    return f"| {' | '.join(map(str, columns))} |"


def head(*first):
    yield row([*first, *[f"`{command}`" for command in COMMANDS]])
    yield "|---" * (len(first) + len(COMMANDS)) + "|"


def bound_of(times):
    """How many times the time is enough for so many times the groups, or the depth."""
    return TWICE ** math.log2(times)


def removals(take, program, sizes, repeats):
    """The first 256 groups of a flat tree are removed. Each costs the number of groups."""
    yield f"| Groups | {'instructions' if take is counted else 'microseconds'} a `rmdir` |"
    yield "|---|---|"
    with tempfile.TemporaryDirectory(prefix="bench-") as room:
        for groups in sizes:
            tree, least = Tree("flat", groups), Least(take, program, room)
            made = [f"mkdir {path}" for path in tree.paths]
            removed = [f"rmdir {path}" for path in tree.paths[:256]]
            least.add("made", host(64), text_of(made))
            least.add("rmdir", host(64), text_of([*made, *removed]))
            least.turns(4 * repeats, [*least.runs])
            cost = (least.best["rmdir"] - least.best["made"]) / 256
            yield f"| {groups} | {figure(cost if take is counted else 1e6 * cost)} |"


def figure(number):
    """Three digits of a number."""
    return f"{number:.{max(0, 2 - math.floor(math.log10(max(number, 1e-3))))}f}"


def machine():
    """What the machine is, its load, the time and the commit."""
    with open("/proc/cpuinfo", encoding="utf-8") as lines:
        models = [line.partition(":")[2].strip() for line in lines if line.startswith("model name")]
    load = " ".join(f"{number:.1f}" for number in os.getloadavg())
    when = time.strftime("%Y-%m-%d %H:%M", time.gmtime())
    words = ["git", "rev-parse", "--short", "HEAD"]
    told = subprocess.run(words, cwd=TOP, stdout=subprocess.PIPE, stderr=subprocess.DEVNULL,
                          text=True, check=False).stdout.strip()
    processors, model = len(os.sched_getaffinity(0)), (models or ["unknown"])[0]
    return (f"{processors} processors ({model}), load {load} ({when} UTC), "
            f"commit {told or 'none'}")


def parts(options):
    """Each table's name and lines."""
    repeats, sizes = (5, SIZES[:2]) if options.quick else (11, SIZES)
    if options.periods:
        yield from tables_of_periods(options.program, repeats, figure)
        return
    take = counted if options.instructions else quietly
    chosen = options.shapes.split(",") if options.shapes else [*SHAPES]
    shapes = [name for name in SHAPES if name in chosen]
    bench = Bench(take, options.program, shapes, sizes, repeats)
    bench.settle()
    what, unit, units = "time", "Microseconds", "milliseconds"
    if options.instructions:
        what, unit, units = "instructions", "Thousands of instructions", "thousands"
    lines, texts = (f"(`{'`, `'.join(names)}`)" for names in (OF_EACH, OF_ALL))
    yield f"{unit} a line {lines}, and {units} {texts}:", [*bench.times()]
    times = f"Times the {what} for all groups, from"
    yield f"{times} one number of groups to the next:", [*bench.factors(False)]
    yield f"{times} chains of one depth to deeper ones:", [*bench.factors(True)]
    rows = [*removals(take, options.program, sizes, repeats)]
    yield "`rmdir` of the first groups of a flat tree:", rows
    if not options.instructions:
        yield from tables_of_periods(options.program, repeats, figure)
    failed = [each[3] for each in bench.too_great()]
    if failed:
        sys.exit("\n".join(f"growth: GROWS TOO FAST: {text}" for text in failed))


def read_words():
    about = "Measures the native program and prints the tables of bench/growth.md."
    asked = argparse.ArgumentParser(prog="growth.py", description=about)
    asked.add_argument("--quick", action="store_true", help="1024 and 4096 groups, fewer repeats")
    asked.add_argument("--shapes", default="", help=f"some of {', '.join(SHAPES)}, with commas")
    asked.add_argument("--instructions", action="store_true",
                       help="count instructions by valgrind in place of time")
    asked.add_argument("--periods", action="store_true",
                       help="the periods of some processors alone, without and with busy loops")
    asked.add_argument("--program",
                       help=f"the program to measure (default: {PROGRAM}, if that is up to date)")
    options = asked.parse_args()
    if any(name and name not in SHAPES for name in options.shapes.split(",")):
        asked.error("an unknown shape")
    if options.instructions and options.periods:
        asked.error("instructions tell nothing of what waits")
    return options


def main():
    options = read_words()
    options.program = program_of(options.program)
    if options.instructions and not shutil.which("valgrind"):
        stop("there is no valgrind to count instructions with")
    began, before, start = machine(), taken(), time.monotonic()
    for name, lines in parts(options):
        if len(lines) > 2:
            print(f"{name}\n", *lines, "", sep="\n", flush=True)
    share = (taken() - before) / (time.monotonic() - start)
    words = " ".join(["bench/growth.py", *sys.argv[1:]])
    print(f"Measured by `{words}` on {began}; at its end {machine()}. "
          f"The host took {share:.0%} of one processor's time.")


if __name__ == "__main__":
    main()
