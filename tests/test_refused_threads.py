"""Starts of threads refused to the native program: all of them, and each alone.

A `period` whose thread is refused answers so and changes nothing: the rest of the script is
answered as if that line were not there. On one processor it starts none. All other commands answer
as ever, also where a tree is so large that `plan` asks for threads.
"""
import functools
import os
import resource
import time

import pytest

from support import NO_THREAD, SECONDS, Talk, each, refused_run, same, without_one_line

# Bytes of a stack that no address space has room for. The C library asks for it for each thread.
STACK_BYTES = 1 << 40
SPACE_BYTES = 1 << 33

# Four periods between changes. The pod may burst, so each booked period leaves something that the
# next plan shows.
PERIODS = b"""mkdir pod
mkdir pod/x
mkdir pod/y
mkdir job
write pod cpu.max 50000 100000
write pod cpu.max.burst 25000
write pod/y cpu.weight 300
demand pod/x 2
demand pod/y 2
demand job 20
period
plan
demand pod/x 20
demand pod/y 20
period
plan
report
total
cert
demand job 3
period
read pod cpu.stat
plan
period
report
read . cpu.stat
cert
""".splitlines(keepends=True)
PERIOD_LINES = [at for at, line in enumerate(PERIODS) if line == b"period\n"]

# A period of one group with a limit of 10 slices and a burst of 5, which demands 4 and then 20.
BOOKING = b"""mkdir a
write a cpu.max 50000
write a cpu.max.burst 25000
demand a 4
period
report
read a cpu.stat
demand a 20
plan
period
report
""".splitlines(keepends=True)
REPORT_HEAD = b"          usage_usec    periods  throttled       throttled_usec group\n"
BOOKING_SERVED = b"ok\n" * 4 + b"served 4\n" + REPORT_HEAD
BOOKING_SERVED += b"""               20000          1          0                    0 .
               20000          1          0                    0 a
usage_usec 20000
nr_periods 1
nr_throttled 0
throttled_usec 0
nr_bursts 0
burst_usec 0
ok
15 .
15 a
served 15
""" + REPORT_HEAD + b"""               95000          2          0                    0 .
               95000          2          1                25000 a
"""
BOOKING_REFUSED = b"ok\n" * 4 + NO_THREAD + REPORT_HEAD
BOOKING_REFUSED += b"""                   0          0          0                    0 .
                   0          0          0                    0 a
usage_usec 0
nr_periods 0
nr_throttled 0
throttled_usec 0
nr_bursts 0
burst_usec 0
ok
10 .
10 a
served 10
""" + REPORT_HEAD + b"""               50000          1          0                    0 .
               50000          1          1                50000 a
"""


@pytest.fixture(scope="module")
def bounds():
    """Bounds for a process under which each start of a thread is refused, and nothing else."""
    hard = resource.getrlimit(resource.RLIMIT_STACK)[1]
    if hard != resource.RLIM_INFINITY and hard < STACK_BYTES:
        pytest.fail(f"a stack may have {hard} bytes here, and the test asks for {STACK_BYTES}")

    def bound():
        resource.setrlimit(resource.RLIMIT_STACK, (STACK_BYTES, hard))
        resource.setrlimit(resource.RLIMIT_AS, (SPACE_BYTES, SPACE_BYTES))

    return bound


def without_periods(program, options, lines) -> bytes:
    """What a script writes if each `period` answers that no thread was started."""
    out, kept = b"", []
    for line in lines:
        if line == b"period\n":
            out += NO_THREAD
        else:
            before = program.answers(options, b"".join(kept))
            kept.append(line)
            out += program.answers(options, b"".join(kept))[len(before):]
    return out


@pytest.mark.parametrize("processors", ["2", "4", "64"])
def test_all_refused_by_bounds(program, bounds, processors):
    options = ["--processors", processors]
    ended = program.run(["run", *options], b"".join(PERIODS), preexec_fn=bounds)
    same(ended, (0, without_periods(program, options, PERIODS), b""))


@pytest.mark.parametrize("processors", ["2", "4", "64"])
def test_all_refused(program, refusing, processors):
    options, script = ["--processors", processors], b"".join(PERIODS)
    ended, letters = refused_run(program, refusing, ["run", *options], script, REFUSE_START="each")
    same(ended, (0, without_periods(program, options, PERIODS), b""))
    assert letters.count(b"r") >= len(PERIOD_LINES) and b"s" not in letters, letters


def test_one_processor(program, refusing, bounds):
    """On one processor a period starts no thread, so none can be refused to it."""
    options, script = ["--processors", "1"], b"".join(PERIODS)
    served = (0, program.answers(options, script), b"")
    same(program.run(["run", *options], script, preexec_fn=bounds), served, "by bounds")
    words = ["run", *options]
    same(refused_run(program, refusing, words, script, REFUSE_START="each"), (served, b""))
    assert served[1].count(b"served ") == len(PERIOD_LINES)


def start_refused(program, refusing, words, nth):
    return refused_run(program, refusing, words, b"".join(PERIODS), REFUSE_START=nth)


@pytest.mark.parametrize("processors, step", [(2, 1), (4, 1), (64, 5)])
def test_one_refused(program, refusing, processors, step):
    """Starts refused, each alone: its period answers so, and the next one serves."""
    options = ["--processors", str(processors)]
    words = ["run", *options]
    served = program.answers(options, b"".join(PERIODS))
    refused = without_one_line(program, options, PERIODS, NO_THREAD, {"period"})
    # a period that is refused can be told from one that is served
    assert served not in [answers for _, answers in refused.values()]
    starts = processors * len(PERIOD_LINES)
    numbers = range(1, starts + 1, step)
    runs = each(functools.partial(start_refused, program, refusing, words), numbers)
    for nth, (ended, letters) in zip(numbers, runs):
        answers = refused[PERIOD_LINES[(nth - 1) // processors]][1]
        same(ended, (0, answers, b""), f"start {nth}")
        same(letters.count(b"r"), 1, f"starts refused, start {nth}")
    print(f"{len(numbers)} of {starts} starts refused, each alone")
    same(start_refused(program, refusing, words, starts + 1), ((0, served, b""), b"s" * starts))


def test_booked_after_serving(program, refusing):
    """A period whose thread is refused leaves no counter and no burst; served, it leaves both."""
    script, words = b"".join(BOOKING), ["run", "--processors", "2"]
    same(program.run(words, script), (0, BOOKING_SERVED, b""), "served")
    ended, _ = refused_run(program, refusing, words, script, REFUSE_START=1)
    same(ended, (0, BOOKING_REFUSED, b""), "refused")


def test_no_thread_left(program, refusing):
    """After a period in which the third start of four was refused the program has one thread."""
    named = {"LD_PRELOAD": refusing, "REFUSE_START": "3"}
    with Talk(program, ["run", "--processors", "4"], env=named, stderr=None) as talk:
        talk.write(b"period\n")
        same(talk.line(), NO_THREAD)
        threads = f"/proc/{talk.process.pid}/task"
        until = time.monotonic() + SECONDS
        while len(os.listdir(threads)) > 1 and time.monotonic() < until:
            time.sleep(0.01)
        same(len(os.listdir(threads)), 1, "threads")
        talk.write(b"period\n")
        talk.process.stdin.close()
        same((talk.line(), talk.read(), talk.status()), (b"served 0\n", b"", 0))


# The draws of these groups take some milliseconds of each of 16 processors.
MANY_DRAWS = b"".join(b"mkdir g%d\ndemand g%d 1000000\n" % (at, at) for at in range(9))


def test_workers_at_once(program):
    """The workers of a period live at once: beside the first thread two are seen, or more."""
    words = ["run", "--processors", "16", "--period", "1000000", "--slice", "1000"]
    most, periods = 0, 0
    with Talk(program, words, stderr=None) as talk:
        talk.write(MANY_DRAWS)
        threads = f"/proc/{talk.process.pid}/task"
        while most < 3 and talk.seconds() > 0:
            talk.write(b"period\n" * 50)
            periods += 50
            until = time.monotonic() + 1
            while most < 3 and time.monotonic() < until:
                most = max(most, len(os.listdir(threads)))
        talk.process.stdin.close()
        answers = b"".join(iter(talk.read, b""))
        same(answers, b"ok\n" * 18 + b"served 16000\n" * periods)
    assert most >= 3, f"{most} threads at once, in {periods} periods"


# Groups with two children each, beside a chain of 64 groups.
PAIRS = 2100


def chain_and_pairs():
    """The script of these groups and their plan: the chain demands 40 slices, each child 20.

    64000 slices for 2101 groups of one weight are 30 for each and 970 more, for the first 970. The
    chain is the first of them. Of two children the first gets the odd slice.
    """
    chain = ["/".join(["d"] * depth) for depth in range(1, 65)]
    above = [f"p{number}" for number in range(PAIRS)]
    below = [f"{path}/{child}" for path in above for child in "ab"]
    script = "".join(f"mkdir {path}\n" for path in chain + above + below)
    script += f"demand {chain[-1]} 40\n" + "".join(f"demand {leaf} 20\n" for leaf in below)
    plan = "64000 .\n" + "".join(f"31 {path}\n" for path in chain)
    plan += "".join(f"{31 if at < 969 else 30} {path}\n" for at, path in enumerate(above))
    for at, path in enumerate(above):
        plan += f"{16 if at < 969 else 15} {path}/a\n15 {path}/b\n"
    return script + "plan\n", "ok\n" * script.count("\n") + plan


@pytest.mark.parametrize("starts", ["started", "refused"])
def test_chain_beside_pairs(program, refusing, starts):
    """The plan of a deep and wide tree, by several threads, and with all their starts refused."""
    script, answers = chain_and_pairs()
    words = ["run", "--processors", "64", "--period", "1000000", "--slice", "1000"]
    refused = {"REFUSE_START": "each"} if starts == "refused" else {}
    ended, letters = refused_run(program, refusing, words, script.encode(), **refused)
    same(ended, (0, answers.encode(), b""))
    if len(os.sched_getaffinity(0)) > 1:
        assert (b"r" if refused else b"s") in letters, letters


def large_tree(inner: int, leaves: int) -> bytes:
    """A script of a tree of so many groups with so many leaves each, and what it asks for."""
    lines = []
    for group in range(inner):
        lines.append(f"mkdir g{group}\n")
        lines.append(f"write g{group} cpu.weight {1 + group * 7919 % 10000}\n")
    for leaf in range(inner * leaves):
        path = f"g{leaf % inner}/l{leaf // inner}"
        lines.append(f"mkdir {path}\n")
        lines.append(f"write {path} cpu.weight {1 + leaf * 104729 % 10000}\n")
        lines.append(f"demand {path} {leaf * 31 % 60}\n")
    for group in range(0, inner, 3):
        lines.append(f"write g{group} cpu.max {1000 * (1 + group % 50)} 100000\n")
    return "".join([*lines, "total\n", "plan\n", "cert\n"]).encode()


@pytest.mark.parametrize("inner, leaves", [(127, 128), (5461, 2)])
def test_greatest_tree(program, refusing, bounds, inner, leaves):
    """Threads plan the greatest tree where there are two processors.

    The answers are the same if all starts of threads, or one, are refused.
    """
    words = ["run", "--processors", "64", "--slice", "1000"]
    script = large_tree(inner, leaves)
    whole = program.run(words, script)
    text = whole.out[whole.out.find(b"bw 1 "):]
    same((whole.status, whole.err), (0, b""))
    assert text.startswith(b"bw 1 64 100000 1000 16384\n"), text[:100]
    same(program.run(["check"], text), (0, b"accepted\n", b""))
    same(program.run(words, script, preexec_fn=bounds), whole, "by bounds")
    ended, letters = refused_run(program, refusing, words, script, REFUSE_START="each")
    starts = letters.count(b"r")
    print(f"{inner} groups of {leaves}: {starts} starts refused by plan and cert")
    assert b"s" not in letters, letters[:50]
    assert starts > 0 or len(os.sched_getaffinity(0)) == 1
    same(ended, whole)
    for nth in range(1, min(4, starts) + 1):
        ended, _ = refused_run(program, refusing, words, script, REFUSE_START=nth)
        same(ended, whole, f"start {nth}")
