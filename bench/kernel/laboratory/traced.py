"""Traces of the scheduler's picks in guests, and what the proved rule says of them.

    PYTHONPATH=tests:bench/kernel /usr/bin/python3 -m laboratory.traced [--save FOLDER] SCENARIO..

Each scenario runs by the scheduler with its trace. The program of crates/dispatch replays it: it
says that all picks are allowed, or the first line that is not. Where tasks wait for some CPUs or a
limit, `outside` tells which picks leave the proved rule.
"""
from __future__ import annotations

import argparse
import gzip
import subprocess
import sys
from collections.abc import Iterator, Sequence
from pathlib import Path

from kernel import faults, held, layout, machine, packages
from kernel.planned import begin
from kernel.scenario import Scenario
from laboratory import limited, outside
from laboratory.__main__ import sources
from laboratory.held import entitled, guaranteed, own_limits

TOP = Path(__file__).resolve().parents[3]
DISPATCH = TOP / "crates/dispatch/out/dispatch"
SPAN = layout.Span(seconds=5, settle=1, has_grid=False)
SECONDS = 120


def traces(kernel: packages.Kernel, setting: machine.Setting, found: Sequence[Scenario],
           span: layout.Span = SPAN) -> tuple[list[str], str]:
    """Boots a guest for scenarios of one board, and loads the scheduler once. Returns its lines,
    and the trace of all plans."""
    scripts = []
    for each in found:
        early, beside = held.scheduler_lines(each, entitled(each), guaranteed(each),
                                             own_limits(each), True, each is found[0],
                                             each is found[-1])
        scripts.append(held.begun(layout.script(each, span, beside, early), each.name))
    told = held.lines_of(kernel, found[0].board, setting, scripts, None, True)
    lines, steps = held.traces_in(told)
    return lines, "".join(steps.values())


def said_of(text: str) -> list[str]:
    """What the program says of a text, by lines."""
    if not DISPATCH.is_file():
        raise faults.KernelFault(f"no {DISPATCH}: `rt run` in crates/dispatch makes it")
    ended = subprocess.run([DISPATCH], input=text, capture_output=True, text=True, check=False,
                           timeout=SECONDS)
    return ended.stdout.splitlines()


def replayed(trace: str) -> str:
    """What the program says of the picks of a trace, whose tasks that wait for other CPUs are on
    processors of their own while others go first. (Whether the law's premises hold it says behind.)
    """
    return said_of(outside.Replay(trace).text)[0]


def passed(trace: str, group: int) -> int:
    """Events of a trace at which a group passes its limit."""
    said = said_of(limited.text_of(trace, group))
    if len(said) != 3:
        raise faults.KernelFault(f"of group {group}: {said}")
    return 0 if "kept at each of" in said[2] else int(said[2].split()[-4])


def shown(kernel: packages.Kernel, found: Sequence[Scenario]) -> Iterator[tuple[str, str, str]]:
    """The name, the trace and what is said of it, of each scenario in a guest of its own."""
    for each in found:
        trace = traces(kernel, machine.Setting(each.board.shift), [each])[1]
        yield each.name, trace, replayed(trace)


def main(words: Sequence[str]) -> int:
    """The command."""
    parser = argparse.ArgumentParser(prog="laboratory.traced", description=__doc__.splitlines()[0])
    parser.add_argument("sources", nargs="+", metavar="SCENARIO")
    parser.add_argument("--save", type=Path, metavar="FOLDER")
    options = parser.parse_args(words)
    begin()
    wrong = 0
    for name, trace, said in shown(packages.kernel(packages.NEWEST), sources(options.sources)):
        found = outside.Replay(trace).found
        print(f"{name}: {said}; {dict(found)}", flush=True)
        wrong += bool(found[outside.WRONG]) or not said.startswith("allowed: ")
        if options.save:
            file = options.save / f"picks-{name}.txt.gz"
            file.write_bytes(gzip.compress(outside.Replay(trace).text.encode(), mtime=0))
            whole = options.save / f"held-{name}.txt.gz"
            whole.write_bytes(gzip.compress(trace.encode(), mtime=0))
    return 1 if wrong else 0


if __name__ == "__main__":
    sys.exit(main(sys.argv[1:]))
