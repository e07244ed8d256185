"""The command: boots guests, runs scenarios in them, and compares."""
from __future__ import annotations

import argparse
import json
import os
import re
import shlex
import subprocess
import sys
from collections.abc import Iterator
from pathlib import Path
from typing import Any

from kernel import faults, layout, machine, packages, scenario
from kernel.planned import begin, program
from kernel.scenario import Scenario
from laboratory import compare, deliberate, readings, table

TOP = Path(__file__).resolve().parents[3]
SCENARIOS = TOP / "bench/kernel/scenarios"
ARBITERCTL = TOP / "python/arbiterctl"
FILES = [TOP / "tests/kernel" / name for name in ("test_real_files.py", "test_real_hold.py")]
# By how much each repeat begins later, in microseconds: another place in a quota period and in
# a tick.
LATER = 21300
# Runs of one boot.
BATCH = 12
# Seconds of a processor for a second of a guest of one processor, and of up to four, about.
ONE_GUEST, SEVERAL = 0.5, 1
# What `arbiterctl export` writes above the demand of a group whose tasks are known.
TASKS = re.compile(r"# tasks ([0-9]+)")

EPILOG = """\
SOURCE is a script, whose lines `#:` may have options for it, a host file, a scenario of
bench/kernel/scenarios, or the beginning of names of scenarios. Without one all scenarios run.

exit status: 0 all that is judged is within its bounds; 1 a group is not, or a run was refused;
2 something could not be had or run"""


def sources(words: list[str]) -> list[Scenario]:
    """The scenarios that are named: a file, or the beginning of names of scenarios/."""
    found = []
    for word in words or [""]:
        path = Path(word)
        if path.suffix in (".toml", ".json") and path.is_file():
            text = packages.said([sys.executable, str(ARBITERCTL), "export", word])
            found.append(scenario.parse(path.stem, with_host(text)))
        elif path.suffix == ".script" and path.is_file():
            found.append(scenario.read(path))
        else:
            one = SCENARIOS / f"{word}.script"
            paths = [one] if one.is_file() else sorted(SCENARIOS.glob(f"{word}*.script"))
            if not paths:
                raise faults.KernelFault(f"{word}: neither a file nor a scenario")
            found += [scenario.read(each) for each in paths]
    return found


def with_host(text: str) -> str:
    """A script of `arbiterctl export` with what its comments say as options: the first line has
    the host, and a line above a demand the number of the group's tasks."""
    head, *rest = text.splitlines()
    lines = ["# a host file", f"#: {head.partition(' run ')[2]}"]
    for before, line in zip([head, *rest], rest):
        tasks = TASKS.match(before)
        if tasks and line.startswith("demand "):
            lines.append(f"#: --tasks {shlex.quote(line.split()[1] + '=' + tasks[1])}")
        lines.append(line)
    return "\n".join(lines) + "\n"


def batches(found: list[Scenario], repeats: int,
            boot: int) -> Iterator[list[tuple[Scenario, int]]]:
    """The runs of each boot: scenarios of one board."""
    for board in sorted({each.board for each in found}):
        runs = [(each, repeat) for each in found if each.board == board
                for repeat in range(repeats)]
        for at in range(0, len(runs), boot):
            yield runs[at:at + boot]


def measured(kernel: packages.Kernel, setting: machine.Setting, options: argparse.Namespace,
             runs: list[tuple[Scenario, int]]) -> Iterator[compare.Outcome]:
    """Boots one guest for some runs, and compares them."""
    jobs = []
    change = deliberate.FAULTS[options.fault] if options.fault else None
    for each, repeat in runs:
        span = layout.Span(options.seconds, options.settle, LATER * repeat)
        jobs.append((f"{each.name} {kernel.name} {repeat + 1}", each, span))
    given = [(key, change(each) if change else each, span) for key, each, span in jobs]
    lines = machine.run(kernel, runs[0][0].board, setting, layout.many(given))
    for (_, each, span), run in zip(jobs, readings.runs(lines), strict=True):
        yield compare.outcome_of(each, run, span)


def arguments(words: list[str]) -> argparse.Namespace:
    """The words of the command line."""
    parser = argparse.ArgumentParser(
        prog="test --kernel", epilog=EPILOG, formatter_class=argparse.RawDescriptionHelpFormatter,
        description="Runs groups of scripts on Linux in a guest, and compares with the plan.")
    parser.add_argument("sources", nargs="*", metavar="SOURCE", help="scripts or host files")
    parser.add_argument("--kernels", default=",".join(packages.KERNELS), metavar="NAME,..",
                        help="of %(default)s (default all)")
    parser.add_argument("--repeats", type=int, default=5, metavar="N",
                        help="runs of each scenario, each a little later (default 5)")
    parser.add_argument("--boot", type=int, default=BATCH, metavar="N",
                        help="runs of each boot, one after another (default %(default)s)")
    parser.add_argument("--seconds", type=float, default=10, help="how long counters are watched")
    parser.add_argument("--settle", type=float, default=2, help="how long tasks run before that")
    parser.add_argument("--shift", type=int, metavar="N",
                        help="an instruction takes 2^N ns of the guest's time (default 4, and 3"
                        " with more than four processors)")
    parser.add_argument("--kvm", action="store_true", help="run in real time with /dev/kvm")
    parser.add_argument("--tcg", action="store_true", help="run in real time without it")
    parser.add_argument("--save", metavar="FILE", help="add each outcome to a file, as JSON lines")
    parser.add_argument("--fault", choices=tuple(deliberate.FAULTS),
                        help="give the guest something else than the plan, which has to be seen")
    parser.add_argument("--files", action="store_true",
                        help="test the real files instead: what the kernel takes and shows, and"
                        " arbiterctl export, apply, undo and hold")
    parser.add_argument("--list", action="store_true", help="print the scenarios and end")
    return parser.parse_args(words)


def cost(each: Scenario) -> float:
    """Seconds of a processor for a second of a scenario's guest, about."""
    if each.processors == 1:
        return ONE_GUEST
    slower = 2.0 ** (machine.Board().shift - each.board.shift)
    return SEVERAL * max(each.processors / 4, 1) * slower


def announced(found: list[Scenario], options: argparse.Namespace) -> str:
    """What will be done: how many runs, where, and about how long they take one processor."""
    runs, seconds = 0, 0.0
    kernels = options.kernels.split(",")
    for name in kernels:
        for each in found:
            if each.kernel in ("", name):
                runs += options.repeats
                seconds += options.repeats * cost(each) * (options.seconds + options.settle)
    return (f"{runs} runs of {options.seconds:g} s in guests of Linux {' and '.join(kernels)}:"
            f" about {max(round(seconds / 60), 1)} min of a processor. Nothing of this machine is"
            f" changed; kernels are in {packages.cache_folder()}.")


def setting_of(options: argparse.Namespace, board: machine.Board) -> machine.Setting:
    """How a guest runs."""
    if options.kvm or options.tcg:
        return machine.Setting(None, options.kvm)
    return machine.Setting(board.shift if options.shift is None else options.shift)


def saved(options: argparse.Namespace, kernel: packages.Kernel, setting: machine.Setting,
          outcome: compare.Outcome) -> None:
    """Adds an outcome to the file of `--save`."""
    if options.save:
        data: dict[str, Any] = {"release": kernel.release, "ticks": kernel.ticks,
                                "setting": setting.told, **outcome.as_data()}
        with open(options.save, "a", encoding="utf-8") as file:
            file.write(json.dumps(data) + "\n")


def tested_files() -> int:
    """Runs the tests of the real files, those too that ./test leaves out without KVM."""
    words = [sys.executable, "-m", "pytest", "-q", *map(str, FILES), "--program",
             str(program())]
    return subprocess.run(words, env={**os.environ, machine.ALL: "1"}, check=False).returncode


def work(words: list[str]) -> int:
    """Runs all, and returns the exit status."""
    options = arguments(words)
    if options.files:
        return tested_files()
    found = sources(options.sources)
    if options.list:
        print("\n".join(f"{each.name}: {each.about}" for each in found))
        return 0
    lacks = packages.missing()
    if lacks:
        raise faults.KernelFault(lacks)
    print(announced(found, options), flush=True)
    begin()
    kernels = [packages.kernel(name) for name in options.kernels.split(",")]
    outcomes: list[compare.Outcome] = []
    for kernel in kernels:
        fit = [each for each in found if each.kernel in ("", kernel.name)]
        for runs in batches(fit, options.repeats, options.boot):
            setting = setting_of(options, runs[0][0].board)
            print(f"Linux {kernel.release}, {kernel.ticks} ticks a second; {setting.told};"
                  f" {len(runs)} runs", flush=True)
            for outcome in measured(kernel, setting, options, runs):
                outcomes.append(outcome)
                saved(options, kernel, setting, outcome)
                print("\n".join(table.shown(outcome)), flush=True)
    print("\n".join(table.summary(outcomes)))
    return 1 if any(each.wrong or each.refusal for each in outcomes) else 0


def main() -> int:
    """The command, with its faults in one line."""
    try:
        return work(sys.argv[1:])
    except (faults.KernelFault, subprocess.SubprocessError) as fault:
        print(f"test --kernel: {fault}", file=sys.stderr)
        return 2


if __name__ == "__main__":
    sys.exit(main())
