#!/usr/bin/env python3
"""Runs the merge gate, `rt ci`, shows how far it is, and prints what took its time. For ./test.

usage: gate.py LOG COUNTS KIT [WORD..]

LOG gets all that the gate says. COUNTS is the folder in which scripts/counts.py keeps what the gate
counted, by the line KIT of `rt version`. The words are handed to `rt ci`: --anew takes nothing that
an earlier run on this machine proved.

At its end it prints each failure, a table by crate and kind of task, and the gate's last line. The
exit status is the gate's.

Once a second it looks at the gate's processes in /proc. A row of the table has, for each kind of
task, the seconds from the start of its first process to when its last one was seen, and processor
seconds as last seen. So each process can lack up to a second. If /proc cannot be read, the gate
runs all the same, without a table.
"""
import io
import os
import re
import resource
import signal
import subprocess
import sys
import threading
import time
from pathlib import Path

import counts
from crates import crates, may_wait
from processes import BASE, EDITS, KINDS, LINK, PROOF, RUN, TESTS, Watch, boot_seconds
from progress import Progress

GATE = ["rt", "ci"]
# Lines of the gate that tell of no failure.
GOOD = re.compile(
    r"^rt: (\w+(: its tests are)? proved|\w+ is kept: .*"
    r"|.*(: trying its must-fail edits .*|: refused, as it must be.*"
    r"| ran( \(.*\))?, and wrote what its file stdout has|: its tests passed"
    r"| were tried by an earlier run on this machine.*|: begins with what a check kept .*"
    r"|chose .*|ok; handles allowed: .*))$"
)
# The lines of the log that say that a crate was proved, or taken from an earlier run.
PROVED = re.compile(r"^rt: (\w+) (?:proved|is kept: .*)$")
LAST = re.compile(r"^\d+ passed, \d+ failed$")


class Span:
    """When the processes of one kind were seen, and for how many processor seconds."""

    def __init__(self):
        self.first, self.last, self.processor = float("inf"), float("-inf"), {}

    def saw(self, process, began, now, processor):
        self.first, self.last = min(self.first, began, now), max(self.last, now)
        self.processor[process] = max(processor, self.processor.get(process, 0.0))

    def join(self, other):
        self.first, self.last = min(self.first, other.first), max(self.last, other.last)
        self.processor.update(other.processor)

    def seconds(self):
        return max(self.last - self.first, 0.0)

    def used(self):
        return sum(self.processor.values())


class Seen:
    """What was seen of the gate's processes, by crate, kind and folder."""

    def __init__(self):
        self.spans, self.edits, self.at_work = {}, set(), []

    def look(self, watch):
        now, self.at_work = boot_seconds(), watch.look()
        for process in self.at_work:
            key = process.crate, process.kind, process.folder
            span = self.spans.setdefault(key, Span())
            span.saw((process.pid, process.began), process.began, now, process.used)
            if process.kind == EDITS:
                self.edits.add(process.folder)

    def by_kind(self):
        """The spans by crate and kind. A second base of edits in a crate counts as edits."""
        found = {}
        in_order = sorted(self.spans.items(), key=lambda item: item[1].first)
        for (crate, kind, _), span in in_order:
            kind = EDITS if (crate, kind) in found and kind == BASE else kind
            found.setdefault((crate, kind), Span()).join(span)
        return found


def edits(crate):
    """The number of must-fail edits of a crate."""
    folder = f"crates/{crate}/must-fail"
    names = os.listdir(folder) if os.path.isdir(folder) else []
    return len([name for name in names if name.endswith(".edit")])


def longest_chain(stands_on, found):
    """The greatest sum of seconds of tasks that wait for one another, and these tasks.

    As in the gate, edits wait for all other tasks of their crate, and those for the proofs below.
    """
    best = {}

    def chain(crate, kind):
        if (crate, kind) not in best:
            before = [(below, PROOF) for below in stands_on[crate]]
            if kind == EDITS:
                before = [(crate, other) for other in (PROOF, TESTS, BASE)]
            total, links = longest(chain(*task) for task in before)
            span = found.get((crate, kind))
            if span:
                links = [*links, f"{crate} {kind} {span.seconds():.0f}"]
                total += span.seconds()
            best[crate, kind] = (total, links)
        return best[crate, kind]

    return longest(chain(crate, kind) for crate in stands_on for kind in KINDS)


def longest(chains):
    return max(chains, key=lambda chain: chain[0], default=(0.0, []))


HEAD = ("Crate", "proof, s", "cpu s", "tests, s", "cpu s", "base of the edits, s", "cpu s", "edits",
        "edits, s", "cpu s", "all, cpu s")


def row(columns):
    return f"| {' | '.join(columns)} |"


def two(span):
    """The columns of a span: its seconds, and processor seconds."""
    if not span or not span.processor:
        return ["-", "-"]
    return [f"{span.seconds():.0f}", f"{span.used():.0f}"]


def table(found, whole, used):
    """The lines of the table and of what is below it."""
    stands_on = crates()
    yield row(HEAD)
    yield "|---" * len(HEAD) + "|"
    sums = dict.fromkeys(KINDS, 0.0)
    for crate in stands_on:
        spans = {kind: found.get((crate, kind)) for kind in KINDS}
        of_each = {kind: span.used() if span else 0.0 for kind, span in spans.items()}
        sums = {kind: sums[kind] + of_each[kind] for kind in KINDS}
        before = [column for kind in (PROOF, TESTS, BASE) for column in two(spans[kind])]
        count, of_all = str(edits(crate)), f"{sum(of_each.values()):.0f}"
        yield row([crate, *before, count, *two(spans[EDITS]), of_all])
    before = [column for kind in (PROOF, TESTS, BASE) for column in ("", f"{sums[kind]:.0f}")]
    count, of_all = str(sum(map(edits, stands_on))), f"{sum(sums.values()):.0f}"
    yield row(["all", *before, count, "", f"{sums[EDITS]:.0f}", of_all])
    yield ""
    yield from below_the_table(stands_on, found, whole, used)


def below_the_table(stands_on, found, whole, used):
    for kind in (LINK, RUN):
        span = Span()
        for each in [each for (_, of), each in found.items() if of == kind]:
            span.join(each)
        if span.processor:
            yield (f"{kind}: {span.used():.0f} processor seconds, "
                   f"{span.seconds():.0f} from first to last")
    processors, load = len(os.sched_getaffinity(0)), os.getloadavg()[2]
    yield (f"whole: {whole:.0f} seconds, {used:.0f} processor seconds, on {processors} processors; "
           f"load {load:.1f} in the last 15 minutes")
    total, links = longest_chain(stands_on, found)
    yield (f"longest chain of tasks, each waiting for the one before: {total:.0f} seconds: "
           f"{', '.join(links) or 'none was seen'}")


def failures(text):
    """The lines of the gate's log that may tell of a failure, each crate's with what it said."""
    said = {}
    for name, part in re.findall(r"^== (.*)\n((?:(?!== |rt: ).*\n)*)", text, re.M):
        said[name] = part
    for line in text.split("\n"):
        if line.startswith("rt: ") and not GOOD.match(line):
            name = line.removeprefix("rt: ").removesuffix(" NOT PROVED").replace(" are", "")
            if line.endswith(" NOT PROVED"):
                yield said.get(name, "").rstrip("\n")
            yield line


def miscounts(text, said):
    """What crates.txt says of functions that may wait, where the gate counted another number."""
    for crate, found in counts.counted(text).items():
        written, number = said.get(crate, 0), found.get("proof", {}).get("may_wait")
        if number not in (None, written):
            yield f"crates.txt: {crate}: may_wait={written}, and the gate counted {number}"


class Run:
    """One run of the gate."""

    def __init__(self, log, folder, kit, words):
        self.log, self.crates, self.proved = log, crates(), []
        self.folder, self.kit, self.before = Path(folder), kit, counts.look(kit)
        self.progress, self.seen = Progress("test"), Seen()
        given = {"stdin": subprocess.DEVNULL, "stdout": subprocess.PIPE}
        self.gate = subprocess.Popen([*GATE, *words], stderr=subprocess.STDOUT, **given)
        self.watch, self.shown = Watch(self.gate.pid), ""

    def read(self):
        """Copies what the gate says into the log."""
        with open(self.log, "w", encoding="utf-8") as log:
            for line in io.TextIOWrapper(self.gate.stdout, errors="replace"):
                log.write(line)
                log.flush()
                found = PROVED.match(line)
                if found:
                    self.proved.append(found[1])

    def how_far(self):
        """What is done. The number of edits is of those that were seen at work."""
        tried, all_edits = len(self.seen.edits), sum(map(edits, self.crates))
        begun = f", {tried} of {all_edits} edits begun" if tried else ""
        return f"{len(self.proved)} of {len(self.crates)} crates proved{begun}"

    def show(self):
        """Shows what is done and what is at work; without a terminal, each ten edits."""
        work = dict.fromkeys(f"{it.crate} {it.kind}" for it in self.seen.at_work)
        self.progress.now(f"{self.how_far()}; {', '.join(work) or 'between two tasks'}")
        step = f"{len(self.proved)} {len(self.seen.edits) // 10}"
        if step != self.shown:
            self.shown = step
            self.progress.step(self.how_far())

    def end(self):
        """Watches the gate until it ends, and returns its status."""
        reader = threading.Thread(target=self.read)
        reader.start()
        while reader.is_alive():
            self.seen.look(self.watch)
            self.show()
            reader.join(1)
        self.progress.clear()
        return self.gate.wait()

    def tell(self, whole, used):
        """Prints failures, table, miscounts and the gate's last line. Returns the miscounts."""
        with open(self.log, encoding="utf-8") as log:
            text = log.read()
        for line in failures(text):
            print(line)
        if self.watch.why:
            print(f"gate: no table: /proc cannot be read: {self.watch.why}")
        else:
            print("gate: seconds from the first to the last seen, and processor seconds:\n")
            print(*table(self.seen.by_kind(), whole, used), sep="\n")
        self.keep(text)
        wrong = list(miscounts(text, may_wait()))
        print(*[f"gate: {line}\n" for line in wrong], sep="", end="")
        last = [line for line in text.split("\n") if LAST.match(line)]
        print(*last[-1:], sep="\n", flush=True)
        return wrong


    def keep(self, text):
        """Keeps what the gate counted, for a release."""
        try:
            counts.keep(self.folder, text, self.before, counts.look(self.kit))
        except OSError as error:
            print(f"gate: what it counted is not kept: {error}")


def children_used():
    """Processor seconds of all children that ended."""
    used = resource.getrusage(resource.RUSAGE_CHILDREN)
    return used.ru_utime + used.ru_stime


def main():
    log, folder, kit, *words = sys.argv[1:]
    began, used = time.monotonic(), children_used()
    try:
        run = Run(log, folder, kit, words)
    except OSError as error:
        print(f"gate: {' '.join(GATE)} cannot be started: {error.strerror}", file=sys.stderr)
        return 2
    # the gate puts back what it set aside, and ends all that it started
    # (an interrupt from the terminal reaches it by itself)
    signal.signal(signal.SIGINT, lambda *_: None)
    for number in (signal.SIGTERM, signal.SIGHUP):
        signal.signal(number, lambda number, _: run.gate.send_signal(number))
    status = run.end()
    wrong = run.tell(time.monotonic() - began, children_used() - used)
    if wrong and status == 0:
        return 1
    return status if status >= 0 else 128 - status


if __name__ == "__main__":
    sys.exit(main())
