#!/usr/bin/env python3
"""Proves a crate and all crates below it side by side, and shows how far that is. For ./build.

usage: prove.py COMMAND CRATE LOG     COMMAND begins each line; all that the kit says goes to LOG

What is proved stays in crates/*/out. So a run that was interrupted goes on where it was. The exit
status is that of `rt all check`. `rt ci` would try each must-fail edit, too.
"""
import io
import os
import re
import resource
import signal
import subprocess
import sys
import threading

from crates import with_all_below
from processes import Watch
from progress import Progress

# Memory that one proof can need, and each further process of one, in bytes.
OF_EACH, OF_FURTHER = 4 << 30, 3 << 29
LIMIT = "/sys/fs/cgroup/memory.max"


def free_memory():
    """Bytes of memory that are free for proofs."""
    with open("/proc/meminfo", encoding="ascii") as lines:
        free = 1024 * int(re.search(r"MemAvailable:\s+(\d+)", lines.read())[1])
    try:
        with open(LIMIT, encoding="ascii") as limit:
            return min(free, int(limit.read()))
    except (OSError, ValueError):
        return free


def at_once():
    """The number of proofs side by side that processors and memory allow, and of processes of one."""
    processors, free = len(os.sched_getaffinity(0)), free_memory()
    proofs = max(1, min(processors, free // OF_EACH))
    return proofs, max(1, min(processors, 1 + (free - proofs * OF_EACH) // OF_FURTHER))


class Run:
    """One run of the kit over a crate and those below it."""

    def __init__(self, command, crate, log):
        self.all, self.done = with_all_below(crate), []
        self.progress, self.log = Progress(command), log
        words = [sys.executable, "scripts/longest_first.py", crate, *map(str, at_once())]
        given = {"stdin": subprocess.DEVNULL, "stdout": subprocess.PIPE}
        self.rt = subprocess.Popen(words, stderr=subprocess.STDOUT, **given)

    def read(self):
        """Copies what the kit says into the log. `== NAME` comes before what it says of a crate."""
        with open(self.log, "w", encoding="utf-8") as log:
            for line in io.TextIOWrapper(self.rt.stdout, errors="replace"):
                log.write(line)
                log.flush()
                name = line.removeprefix("== ").strip()
                if line.startswith("== ") and name in self.all:
                    self.done.append(name)
                    self.progress.step(f"{self.how_far()} ({name})")

    def failures(self):
        """What the kit said of the crates that failed, or its last lines."""
        with open(self.log, encoding="utf-8") as log:
            text = log.read()
        parts, _, summary = text.partition("\n== summary\n")
        failed = re.findall(r"^(\w+): failed", summary, re.M)
        said = dict(re.findall(r"^== (\w+)\n((?:(?!== ).*\n)*)", f"{parts}\n", re.M))
        return "".join(f"== {name}\n{said.get(name, '')}" for name in failed) or text[-4000:]

    def how_far(self):
        return f"{len(self.done)} of {len(self.all)} crates"

    def show(self, watch):
        names = dict.fromkeys(process.crate for process in watch.look())
        at_work = [name for name in names if name in self.all and name not in self.done]
        proving = f", proving {' '.join(at_work)}" if at_work else ""
        self.progress.now(f"{self.how_far()}{proving}")

    def end(self):
        """Shows how far it is until it ends, and returns its status."""
        reader, watch = threading.Thread(target=self.read), Watch(self.rt.pid)
        reader.start()
        while reader.is_alive():
            if self.progress.on_terminal:
                self.show(watch)
            reader.join(1)
        self.progress.clear()
        return self.rt.wait()


def main():
    runs, signals = [], []

    def pass_on(number, _):
        """rt ends all that it started. What was proved stays."""
        signals.append(number)
        if not runs:
            sys.exit(128 + number)
        runs[0].rt.send_signal(number)

    # Before rt begins: it would inherit an ignored interrupt. That of a terminal reaches it.
    signal.signal(signal.SIGINT, lambda number, _: signals.append(number))
    for number in (signal.SIGTERM, signal.SIGHUP):
        signal.signal(number, pass_on)
    run = Run(*sys.argv[1:])
    runs.append(run)
    status = run.end()
    if not status:
        used = resource.getrusage(resource.RUSAGE_CHILDREN)
        seconds = f"{used.ru_utime + used.ru_stime:.0f} s of the processors"
        run.progress.line(f"{len(run.all)} crates proved, {run.progress.took()}, {seconds}")
    elif signals:
        run.progress.line(f"interrupted: {run.how_far()}, {run.progress.took()}")
    else:
        run.progress.line(f"not proved; all that the kit said is in {run.log}")
        print(run.failures(), end="", file=sys.stderr)
    return status if status >= 0 else 128 - status


if __name__ == "__main__":
    sys.exit(main())
