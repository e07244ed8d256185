"""Each allocation of the native program refused in turn.

What a run may then write is computed and not guessed. `run` ends with status 1 and nothing
written; or one line answers that memory was refused (a `period` also that a thread was), and the
rest is what the script without that line writes; or the answers are the same. `check` ends with
status 1 and nothing written, or answers the same. A sweep goes on until no allocation is left to
refuse. It fails if it refused too few, or never one at a command that takes memory.
"""
import collections

import pytest

from support import (CERTIFIED, NO_MEMORY, NO_THREAD, OUT_OF_MEMORY, Ended, refused_each,
                     refused_in_turn, refused_run, same, script_lines, without_one_line)

# The kind of an answer that ended the program: also where the words of the command line are read.
ENDED = "ended out of memory"
# A sweep that refuses fewer allocations than this tests nothing.
LEAST_REFUSED = {"run": 100, "check": 30, "words": 20}
# The commands that take memory. `rmdir`, `demand` and `write` take none, and are never refused.
TAKE_MEMORY = ["mkdir", "read", "total", "plan", "cert", "period", "report"]

# A read takes memory only where the answers so far have left no room, so one stands early.
EVERY_COMMAND = b"""mkdir pod
read pod cpu.stat
mkdir pod/x
mkdir pod/y
mkdir job
mkdir gone
write pod cpu.max 50000 100000
write pod cpu.max.burst 25000
write pod/y cpu.weight 300
write job cpu.max max 200000
demand pod/x 2
demand pod/y 2
demand job 20
total
plan
cert
period
demand pod/x 20
demand pod/y 20
rmdir gone
mkdir gone
demand gone 1
period
read pod cpu.max
read pod cpu.max.burst
read pod/y cpu.weight
read pod cpu.stat
read . cpu.stat
total
cert
plan
demand gone 0
rmdir gone
period
report
""".splitlines(keepends=True)

# Between two periods come enough groups that the tree and the counters grow more than once. Each
# group is made again by the next line: that one answers `ok` where the first was refused. A group
# with ten slices of quota and five of burst draws 4 slices, then 15.
MORE = "".join(f"mkdir {name}\nmkdir {name}\n" for name in "bcdefghijklmnopqrstu")
GROWING = f"""mkdir a
mkdir a
mkdir a/b
mkdir a/b
write a cpu.max 50000
write a cpu.max.burst 25000
demand a/b 4
period
{MORE}demand a/b 15
read a cpu.max
read a cpu.max
read a cpu.weight
total
period
read a cpu.stat
total
plan
report
report
""".encode().splitlines(keepends=True)

# Two groups with 2048 leaves each, so many that a plan cuts their depth into pieces for several
# threads: 32000 slices for each group, of whose leaves the first 1280 get 16 and the others 15.
WIDE_HOST = ["--processors", "64", "--period", "1000000", "--slice", "1000"]
WIDE_LEAVES = [f"g{leaf % 2}/c{leaf}" for leaf in range(4096)]
# Of the plan's allocations the first and the last this many are refused, and of the others as many,
# evenly spread. A sweep in which fewer than the second number answer 71 tests nothing.
WIDE_REFUSED, LEAST_WIDE = 60, 20


def sweep(program, refusing, job, words, given, allowed, wanted):
    """Refuses each allocation of one run.

    `allowed` has the kind of each answer that may come, and `wanted` the kinds that have to come.
    """
    runs = refused_in_turn(program, refusing, words, given)
    kinds = collections.Counter(allowed.get(ended, "wrong") for ended in runs.values())
    counts = ", ".join(f"{kind} {number}" for kind, number in sorted(kinds.items()))
    print(f"{len(runs)} allocations refused: {counts}")
    for number, ended in sorted(runs.items()):
        assert ended in allowed, (
            f"{kinds['wrong']} wrong; allocation {number}: status {ended.status}, "
            f"{ended.out[-300:]!r}, {ended.err[:300]!r}")
    assert len(runs) >= LEAST_REFUSED[job]
    assert not set(wanted) - set(kinds), "kinds that never came"


SCRIPTS = ["one processor", "four processors, every command", "four processors, a growing tree",
           "64 processors"]


@pytest.mark.parametrize("name", SCRIPTS)
def test_run(program, refusing, name):
    """Each command of a script that takes memory has to be refused once.

    A period answers 70 if the memory of a thread's start is refused. On one processor it starts no
    thread, so it never does.
    """
    options, lines = {
        "one processor": ([], script_lines("counters.script")),
        "four processors, every command": (["--processors", "4"], EVERY_COMMAND),
        "four processors, a growing tree": (["--processors", "4"], GROWING),
        "64 processors": (["--processors", "64"], script_lines("counters.script")),
    }[name]
    script = b"".join(lines)
    allowed = {Ended(0, program.answers(options, script), b""): "the same answer"}
    refused = without_one_line(program, options, lines, NO_MEMORY, TAKE_MEMORY)
    for verb, answers in refused.values():
        allowed.setdefault(Ended(0, answers, b""), f"71 at {verb}")
    starts = without_one_line(program, options, lines, NO_THREAD, {"period"}) if options else {}
    for _, answers in starts.values():
        allowed.setdefault(Ended(0, answers, b""), "70 at period")
    allowed[OUT_OF_MEMORY] = ENDED
    verbs = [line.split()[0].decode() for line in lines]
    wanted = [ENDED, *(f"71 at {verb}" for verb in TAKE_MEMORY if verb in verbs)]
    wanted += ["70 at period"] if options else []
    sweep(program, refusing, "run", ["run", *options], script, allowed, wanted)


def test_plan_in_pieces(program, refusing):
    """The plan of the wide tree, some of its allocations refused: it answers 71, or the same."""
    words = ["run", *WIDE_HOST]
    tree = "".join(f"mkdir {path}\n" for path in ["g0", "g1", *WIDE_LEAVES])
    tree += "".join(f"demand {leaf} 20\n" for leaf in WIDE_LEAVES)
    plan = "64000 .\n32000 g0\n32000 g1\n"
    plan += "".join(f"{16 if at < 2560 else 15} {leaf}\n" for at, leaf in enumerate(WIDE_LEAVES))
    before, script = tree.encode(), tree.encode() + b"plan\n"
    answers = b"ok\n" * tree.count("\n")
    same(program.run(words, script), (0, answers + plan.encode(), b""))
    first, last = [refused_run(program, refusing, words, lines, TELL_ALL=1)[1].count(b"m")
                   for lines in (before, script)]
    numbers = list(range(first + 1, last + 1))
    middle = numbers[WIDE_REFUSED:-WIDE_REFUSED]
    some = {*numbers[:WIDE_REFUSED], *middle[::max(1, len(middle) // WIDE_REFUSED)],
            *numbers[-WIDE_REFUSED:]}
    allowed = {Ended(0, answers + plan.encode(), b""): "the same answer",
               Ended(0, answers + NO_MEMORY, b""): "71 at plan"}
    runs = refused_each(program, refusing, words, script, sorted(some))
    kinds = collections.Counter(allowed.get(ended, "wrong") for ended in runs.values())
    print(f"{len(runs)} of {last - first} allocations refused: {dict(sorted(kinds.items()))}")
    assert kinds["wrong"] == 0 and kinds["71 at plan"] >= LEAST_WIDE, dict(kinds)


# Lines that take no memory: changes, and refusals of each kind of line.
NO_MEMORY_LINES = b"""write pod cpu.weight 50
write pod cpu.max 40000
write pod cpu.max.burst 1000
write pod cpu.max max
demand pod/x 3
demand job 0
rmdir job
rmdir job
demand none 1
demand pod 1
write pod cpu.weight 0
write pod cpu.stat 1
mkdir pod
mkdir none/x
read none cpu.max
read pod cpu.idle
frob
demand pod/x x
"""


def test_lines_that_take_no_memory(program, refusing):
    """A script makes as many allocations with these lines at its end as without them."""
    # every command but `period`, since the starts of threads differ between runs
    script = b"".join(line for line in EVERY_COMMAND if line != b"period\n")

    def allocations(given):
        words = ["run", "--processors", "4"]
        return refused_run(program, refusing, words, given, TELL_ALL=1)[1].count(b"m")

    same(allocations(script + NO_MEMORY_LINES), allocations(script))
    # a name of more than 24 bytes is not stored in its group
    assert allocations(script + b"mkdir " + b"m" * 25 + b"\n") > allocations(script)


def sweep_of_answer(program, refusing, job, words, given, status):
    """Refuses each allocation of a run that writes one answer and ends with this status."""
    ended = program.run(words, given)
    same(ended.status, status)
    assert ended != OUT_OF_MEMORY
    allowed = {ended: "the same answer", OUT_OF_MEMORY: ENDED}
    sweep(program, refusing, job, words, given, allowed, [ENDED])


POD = CERTIFIED["a pod and a job"]
TEXTS = [(name, text, 0) for name, text in CERTIFIED.items()]
TEXTS.append(("a text that is refused", POD.replace(b"300 max 20 7", b"300 max 20 8"), 3))
TEXTS.append(("a text cut short", POD[:-1], 3))


@pytest.mark.parametrize("text, status", [row[1:] for row in TEXTS], ids=[row[0] for row in TEXTS])
def test_check(program, refusing, text, status):
    sweep_of_answer(program, refusing, "check", ["check"], text, status)


WORDS = [
    ("help", ["--help"], 0),
    ("an unknown option", ["run", "--frob"], 2),
    ("a refused host", "run --processors 65 --period 1000 --slice 1000".split(), 2),
]


@pytest.mark.parametrize("words, status", [row[1:] for row in WORDS], ids=[row[0] for row in WORDS])
def test_words(program, refusing, words, status):
    sweep_of_answer(program, refusing, "words", words, b"", status)
