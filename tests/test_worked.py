"""Worked values: scripts of tests/worked, hosts, long lines, large trees, certified texts.

All values are worked out from the definitions by hand. See worked_scripts.py for the form of the
scripts.
"""
import pytest

from support import CERTIFIED, same
from worked_scripts import all_scripts

MOST = 2**64 - 1
REPORT_HEAD = "          usage_usec    periods  throttled       throttled_usec group"
LINE_BYTES = 65536


def pytest_generate_tests(metafunc):
    """The scripts of tests/worked."""
    if "script" in metafunc.fixturenames:
        scripts = all_scripts()
        metafunc.parametrize("script", scripts, ids=[script.id() for script in scripts])


def answers_each(program, words, lines):
    """Runs lines, and names the first whose answer differs."""
    out, at = program.answers(words, b"".join(line + b"\n" for line, _ in lines)), 0
    for line, answer in lines:
        same(out[at:at + len(answer)], answer, f"{line[:80]!r}")
        at += len(answer)
    same(out[at:], b"", "after the last answer")


def encoded(lines):
    """Lines and their answers as bytes, each answer with its line break."""
    return [(line.encode(), answer.encode() + b"\n") for line, answer in lines]


def writes(program, words, script, wanted):
    """Runs a script as it stands."""
    same(program.run(["run", *words], script), (0, wanted, b""))


def is_judged(program, text, wanted):
    """The check prints this line for a text, and ends with the status for it."""
    status = 0 if wanted == "accepted" else 3
    same(program.run(["check"], text), (status, f"{wanted}\n".encode(), b""), f"{text[:200]!r}")


def test_script(program, script):
    answers_each(program, script.words, script.lines)


# Hosts: processors, period, slice, and the error, or the slices that all processors have.
HOSTS = [
    (0, 100000, 5000, b"error 1 BadProcessors\n"), (65, 100000, 5000, b"error 1 BadProcessors\n"), (0, 999, 999, b"error 1 BadProcessors\n"),
    (1, 999, 1000, b"error 2 BadPeriod\n"), (1, 1000001, 1000, b"error 2 BadPeriod\n"), (1, 100000, 3000, b"error 3 BadSlice\n"),
    (1, 100000, 999, b"error 3 BadSlice\n"), (1, 1000, 2000, b"error 3 BadSlice\n"),
    (1, 100000, 5000, 20), (64, 1000000, 1000, 64000), (2, 1000, 1000, 2),
]


@pytest.mark.parametrize("processors, period, slice_us, wanted", HOSTS)
def test_host(program, processors, period, slice_us, wanted):
    words = ["--processors", str(processors), "--period", str(period), "--slice", str(slice_us)]
    if isinstance(wanted, bytes):
        same(program.run(["run", *words]), (2, b"", wanted))
        return
    answers = b"ok\nok\ntotal %d\nlimit %d .\ndemand 0\nserved %d\n" % (wanted, wanted, wanted)
    writes(program, words, b"mkdir a\ndemand a 1000000\ntotal\nperiod\n", answers)


# Scripts that are given as they stand: no line break at the end, no line, bytes that are no text.
AS_THEY_STAND = [
    ("no script", b"", b""),
    ("a last line without an end", b"mkdir a", b"ok\n"),
    ("bytes that are no text", b"mkdir \xff\n# \xff\ntotal\n", b"error 81 BadText\nerror 81 BadText\ntotal 0\ndemand 0\n"),
]
NOTHING, TOO_LONG = b"total 0\ndemand 0\n", b"error 82 LineTooLong\n"
for blanks, answer in [(LINE_BYTES - 5, NOTHING), (LINE_BYTES - 4, TOO_LONG), (200000, TOO_LONG)]:
    AS_THEY_STAND.append((f"{blanks} blanks at the end", b" " * blanks + b"total", answer))
    AS_THEY_STAND.append((f"{blanks} blanks and a line", b" " * blanks + b"total\nmkdir a", answer + b"ok\n"))


@pytest.mark.parametrize("script_text, wanted", [row[1:] for row in AS_THEY_STAND],
                         ids=[row[0] for row in AS_THEY_STAND])
def test_as_it_stands(program, script_text, wanted):
    writes(program, [], script_text, wanted)


# Texts that fill a line of 64 KiB, and the numbers that refuse them.
FULL_LINES = [
    (b"cpu.weight", b"9", b"error 12 WeightOutOfRange\n"), (b"cpu.weight", b"0", b"error 11 BadNumber\n"), (b"cpu.weight", b" ", b"error 17 Empty\n"),
    (b"cpu.max", b"9", b"error 14 QuotaTooLarge\n"), (b"cpu.max", b" ", b"error 17 Empty\n"),
]


@pytest.mark.parametrize("file, byte, wanted", FULL_LINES)
def test_full_line(program, file, byte, wanted):
    head = b"write a " + file + b" "
    line = head + byte * (LINE_BYTES - len(head))
    writes(program, [], b"mkdir a\n" + line + b"\n", b"ok\n" + wanted)


# Large trees on 64 processors of 1000 slices: groups below the root, whether each has one child,
# the demand of each leaf, and how many of the leaves get how much. The others get one slice less.
# The greatest demands add up to 16383000000; an idle tree gets nothing.
LARGE_HOST = ["--processors", "64", "--period", "1000000", "--slice", "1000"]
LARGE = [(4095, False, 20, 2575, 16), (16383, False, 20, 14851, 4), (2047, True, 40, 543, 32), (8191, True, 40, 6663, 8),
         (16383, False, 1000000, 14851, 4), (16383, False, 0, 16383, 0), (8191, True, 0, 8191, 0)]


@pytest.mark.parametrize("groups, in_pairs, demand, first, most", LARGE)
def test_large_tree(program, groups, in_pairs, demand, first, most):
    """The plan, the check of its certified text, and a slice more for the last group.

    That slice is refused at the group's parent, or at the group if that is idle.
    """
    names = [f"g{number}" for number in range(groups)]
    leaves = [f"{name}/c" for name in names] if in_pairs else names
    below = leaves if in_pairs else []
    script = "".join(f"mkdir {name}\n" for name in names + below)
    script += "".join(f"demand {leaf} {demand}\n" for leaf in leaves)
    amounts = [most if place < first else most - 1 for place in range(groups)]
    plan = f"{sum(amounts)} .\n"
    for paths in [names, below] if in_pairs else [names]:
        plan += "".join(f"{amount} {path}\n" for path, amount in zip(paths, amounts))
    wanted = "ok\n" * script.count("\n") + plan
    writes(program, LARGE_HOST, script.encode() + b"plan\n", wanted.encode())
    text = program.run(["run", *LARGE_HOST], script.encode() + b"cert\n").out.replace(b"ok\n", b"")
    same(program.run(["check"], text), (0, b"accepted\n", b""))
    lines = text.split(b"\n")
    words = lines[-2].split(b" ")
    words[4] = b"%d" % (int(words[4]) + 1)
    lines[-2] = b" ".join(words)
    refused = f"refused 53 SumDiffers {groups if in_pairs else 0}"
    if demand == 0:
        refused = f"refused 52 OverDemand {len(lines) - 3}"
    is_judged(program, b"\n".join(lines), refused)


@pytest.mark.parametrize("groups", [2, 16383])
def test_limiting_groups(program, groups):
    """Each group's limit is below its demand, and the limits leave a part of the capacity.

    So all groups are limiting.
    """
    names = [f"g{number}" for number in range(groups)]
    limit = "cpu.max 2000 1000000"
    lines = [f"mkdir {name}\nwrite {name} {limit}\ndemand {name} 5\n" for name in names]
    wanted = "ok\n" * (3 * groups) + f"total {2 * groups}\n"
    wanted += "".join(f"limit 2 {name}\n" for name in names) + "demand 0\n"
    writes(program, LARGE_HOST, ("".join(lines) + "total\n").encode(), wanted.encode())


def chain(depth):
    """The paths of a chain of groups."""
    return ["/".join(["d"] * length) for length in range(1, depth + 1)]


@pytest.mark.parametrize("words", [[], LARGE_HOST], ids=["small host", "large host"])
@pytest.mark.parametrize("depth", [32, 64])
def test_chain(program, depth, words):
    """Each group of a chain gets what the last one demands. Below 64 of them no group is made."""
    paths = chain(depth)
    script = "".join(f"mkdir {path}\n" for path in paths)
    wanted = "ok\n" * depth
    if depth == 64:
        script += f"mkdir {paths[-1]}/d\n"
        wanted += "error 7 TooDeep\n"
    script += f"demand {paths[-1]} 5\nplan\n"
    wanted += "ok\n" + "".join(f"5 {path}\n" for path in [".", *paths])
    writes(program, words, script.encode(), wanted.encode())


def test_full_tree(program):
    """A chain of 64 groups and as many beside it as fill the tree.

    Too deep is answered before full. A group that is removed leaves room for one.
    """
    deep = chain(64)
    names = [f"g{number}" for number in range(65, 16384)]
    lines = [(f"mkdir {path}", "ok") for path in deep + names]
    lines += [("mkdir more", "error 27 TreeFull"), (f"mkdir {deep[-1]}/d", "error 7 TooDeep")]
    lines += [(f"demand {name} 1", "ok") for name in names]
    lines += [("total", "total 20\nlimit 20 .\ndemand 0"), ("demand g70 0", "ok")]
    lines += [("rmdir g70", "ok"), ("mkdir more", "ok")]
    answers_each(program, [], encoded(lines))


def test_long_names(program):
    """A name has at most 255 bytes."""
    longest, accented = b"n" * 255, b"m" * 253 + "é".encode()
    script = b"mkdir %s\nmkdir %sn\nmkdir %s\nplan\n" % (longest, longest, accented)
    answers = b"ok\nerror 22 BadName\nok\n0 .\n0 %s\n0 %s\n" % (longest, accented)
    writes(program, [], script, answers)


def report(groups):
    """A report: for each group its path and its four counters."""
    rows = [f"{usage:20} {periods:10} {throttled:10} {withheld:20} {path}"
            for path, usage, periods, throttled, withheld in groups]
    return "\n".join([REPORT_HEAD, *rows])


def test_long_path(program):
    """A path of 17 names of 255 bytes, longer than a path of the system may be, in each command."""
    names = [chr(ord("a") + depth) * 255 for depth in range(17)]
    paths = ["/".join(names[:depth + 1]) for depth in range(17)]
    deepest = paths[-1]
    same(len(deepest), 17 * 255 + 16)
    lines = [(f"mkdir {path}", "ok") for path in paths]
    lines += [(f"mkdir {deepest}", "error 21 Exists"), (f"mkdir {deepest}x", "error 22 BadName")]
    lines += [(f"write {deepest} cpu.max 15000 100000", "ok"), (f"demand {deepest} 5", "ok")]
    lines += [(f"read {deepest} cpu.max", "15000 100000")]
    lines += [("total", f"total 3\nlimit 3 {deepest}\ndemand 0")]
    lines += [("plan", "\n".join(f"3 {path}" for path in [".", *paths])), ("period", "served 3")]
    counts = "nr_throttled 1\nthrottled_usec 10000\nnr_bursts 0\nburst_usec 0"
    lines += [(f"read {deepest} cpu.stat", f"usage_usec 15000\nnr_periods 1\n{counts}")]
    groups = [(path, 15000, 1, 0, 0) for path in [".", *paths[:-1]]]
    lines += [("report", report([*groups, (deepest, 15000, 1, 1, 10000)]))]
    lines += [(f"demand {deepest} 0", "ok"), (f"rmdir {deepest}", "ok")]
    lines += [(f"read {deepest} cpu.max", "error 20 NotFound"), (f"rmdir {paths[-2]}", "ok")]
    answers_each(program, [], encoded(lines))


FULL = [f"g{number}" for number in range(16383)]
# 4000 slices, 1000 of each processor.
FOUR_PROCESSORS = ["--processors", "4", "--period", "1000000", "--slice", "1000"]


def test_two_periods_of_a_full_tree(program):
    """16383 groups of one weight on 4000 slices: the first 4000 get one slice in each period."""
    lines = [(f"mkdir {name}", "ok") for name in FULL] + [("mkdir more", "error 27 TreeFull")]
    lines += [(f"demand {name} 20", "ok") for name in FULL]
    lines += [("period", "served 4000"), ("period", "served 4000")]
    groups = [(name, 2000 if at < 4000 else 0, 2, 0, 0) for at, name in enumerate(FULL)]
    lines += [("report", report([(".", 8000000, 2, 0, 0), *groups]))]
    answers_each(program, FOUR_PROCESSORS, encoded(lines))


def test_two_periods_of_a_full_tree_of_limits(program):
    """16383 groups of 2 slices and a burst of 2. The first 1000 demand 1 slice, and then 20.

    The first period leaves 1 slice of each of these, so the next limit is 3. They get all of it, of
    which 1 slice is burst. The others demand nothing.
    """
    lines = [(f"mkdir {name}", "ok") for name in FULL]
    for name in FULL:
        lines += [(f"write {name} cpu.max 2000 1000000", "ok")]
        lines += [(f"write {name} cpu.max.burst 2000", "ok")]
    lines += [(f"demand {name} 1", "ok") for name in FULL[:1000]] + [("period", "served 1000")]
    lines += [(f"demand {name} 20", "ok") for name in FULL[:1000]] + [("period", "served 3000")]
    groups = [(name, 4000, 2, 1, 17000) for name in FULL[:1000]]
    groups += [(name, 0, 2, 0, 0) for name in FULL[1000:]]
    lines += [("report", report([(".", 4000000, 2, 0, 0), *groups]))]
    counts = "nr_throttled 1\nthrottled_usec 17000\nnr_bursts 1\nburst_usec 1000"
    lines += [("read g999 cpu.stat", f"usage_usec 4000\nnr_periods 2\n{counts}")]
    answers_each(program, FOUR_PROCESSORS, encoded(lines))


def test_answers_above_4_mib(program):
    """A plan and a report of 16383 groups with names of 255 bytes, each longer than 4 MiB."""
    names = [f"{number:05}" + "n" * 250 for number in range(16383)]
    plan = "\n".join(f"{amount} {path}" for path, amount in [(".", 1), (names[0], 1)])
    plan += "".join(f"\n0 {name}" for name in names[1:])
    groups = [(".", 5000, 1, 0, 0), (names[0], 5000, 1, 0, 0)]
    whole = report(groups + [(name, 0, 1, 0, 0) for name in names[1:]])
    assert len(plan) > 2**22 and len(whole) > 2**22
    lines = [(f"mkdir {name}", "ok") for name in names] + [(f"demand {names[0]} 1", "ok")]
    lines += [("plan", plan), ("period", "served 1"), ("report", whole)]
    answers_each(program, [], encoded(lines))


def test_limits_above_10_to_the_15(program):
    """A quota of 10^15 slices with as large a burst: after a period the limit is nearly twice it.

    The first period leaves 10^15 - 7 slices, so the next limit is 2 * 10^15 - 7. That period leaves
    more than the burst, so the limit after it is quota and burst, 2 * 10^15.
    """
    most = 10**15
    text = "bw 1 1 1000000 1000 2\n- 100 max 0 7 0 13/100@0\n0 100 {} 7 7 0 -"
    lines = [("mkdir a", "ok"), (f"write a cpu.max {most} 1000", "ok")]
    lines += [(f"write a cpu.max.burst {most}", "ok"), ("demand a 7", "ok")]
    for limit in (most, 2 * most - 7, 2 * most, 2 * most):
        lines += [("cert", text.format(limit)), ("total", "total 7\ndemand 7")]
        lines.append(("period", "served 7"))
        is_judged(program, f"{text.format(limit)}\n".encode(), "accepted")
    words = ["--period", "1000000", "--slice", "1000"]
    answers_each(program, words, encoded(lines))


# Certified texts: rows of parent, weight, limit and demand (`-` and `max` for none), and below
# them, for each case, the amounts, the flags, the levels, and the line that the check prints.
def certified(processors, rows, amounts, flags, levels):
    lines = [f"bw 1 {processors} 100000 5000 {len(rows)}"]
    lines += [" ".join(map(str, row)) for row in zip(rows, amounts, flags, levels)]
    return "".join(f"{line}\n" for line in lines).encode()


TOP = "- 100 max 0"
TWO = [TOP, "0 100 max 20", "0 200 max 20"]
POD = [TOP, "0 100 10 0", "1 100 max 20", "1 300 max 20", "0 100 max 20"]
LIMITED = [TOP, "0 100 20 0", "1 100 15 30", "1 100 15 30"]
WIDE, NARROW = f"0 100 {MOST} 20", "0 200 21 20"
# a chain of great limits: their sums pass 64 bits
GREAT = ["- 1 max 0", f"0 1 {MOST} 0", f"1 1 {MOST} 0", f"1 1 {MOST} 0", "2 1 max 1000000", "3 1 max 1000000"]
LEVEL = "13/100@0"
VERDICTS = [
    # two groups
    (1, TWO, (20, 7, 13), "100", LEVEL, "accepted"),
    (1, TWO, (20, 6, 14), "100", LEVEL, "refused 57 LastMarkAbove 2"),
    (1, TWO, (19, 6, 13), "100", LEVEL, "refused 55 NotGreatest 0"),
    (1, TWO, (20, 7, 12), "100", LEVEL, "refused 53 SumDiffers 0"),
    (1, TWO, (20, 7, 13), "100", "-", "refused 56 LevelMissing 0"),
    (1, TWO, (20, 7, 13), "000", LEVEL, "refused 55 NotGreatest 0"),
    (1, TWO, (20, 7, 13), "110", LEVEL, "refused 54 FlagWithoutLimit 1"),
    (1, TWO, (21, 7, 14), "100", LEVEL, "refused 51 OverLimit 0"),
    (1, TWO, (MOST, 7, 13), "100", LEVEL, "refused 51 OverLimit 0"),
    (1, TWO, (20, MOST, 13), "100", LEVEL, "refused 52 OverDemand 1"),
    (1, TWO, (20, 7, MOST), "100", LEVEL, "refused 52 OverDemand 2"),
    (1, TWO, (20, 7, 13), "100", f"{MOST}/1@0", "refused 58 NextMarkNotAbove 1"),
    (1, TWO, (20, 7, 13), "100", f"1/{MOST}@0", "refused 57 LastMarkAbove 1"),
    (1, TWO, (20, 7, 13), "100", f"{MOST}/{MOST}@4294967295", "refused 58 NextMarkNotAbove 1"),
    (1, TWO, (20, 7, 13), "100", "13/100@4294967295", "accepted"),
    # the same amounts of other rows, of which the last ones' bounds add up to 2^64 + 20
    (1, [TOP, "0 100 max 6", TWO[2]], (20, 7, 13), "100", LEVEL, "refused 52 OverDemand 1"),
    (1, [TOP, "0 100 0 20", TWO[2]], (20, 7, 13), "100", LEVEL, "refused 51 OverLimit 1"),
    (1, [TOP, WIDE, TWO[2]], (20, 7, 13), "110", LEVEL, "accepted"),
    (1, [TOP, TWO[1], NARROW], (20, 7, 13), "101", LEVEL, "accepted"),
    (1, [TOP, WIDE, NARROW], (20, 7, 13), "011", LEVEL, "refused 55 NotGreatest 0"),
    # pod and job: the last slice of y costs as much as the next one of x, which comes first.
    # Without its flag the pod's bound is 40, and its next mark is the level itself. A flag that is
    # missing is accepted if the rest holds.
    (1, POD, (20, 10, 3, 7, 10), "11000", "19/100@1 5/100@0", "accepted"),
    (1, POD, (20, 10, 2, 8, 10), "11000", "19/100@1 15/300@1", "refused 58 NextMarkNotAbove 2"),
    (1, POD, (20, 10, 3, 7, 10), "10000", "21/100@0 5/100@0", "refused 58 NextMarkNotAbove 1"),
    (1, POD, (20, 10, 3, 7, 10), "10000", "19/100@1 5/100@0", "accepted"),
    (1, POD, (20, 10, 3, 7, 10), "11000", "19/100@1 -", "refused 56 LevelMissing 1"),
    # flags of a limited group over two limited ones
    (2, LIMITED, (20, 20, 10, 10), "0111", "39/100@0 19/100@1", "accepted"),
    (2, LIMITED, (20, 20, 10, 10), "1111", "39/100@0 19/100@1", "refused 55 NotGreatest 0"),
    (2, LIMITED, (20, 20, 10, 10), "0011", "39/100@0 19/100@1", "refused 55 NotGreatest 0"),
    (2, LIMITED, (20, 20, 10, 10), "0101", "39/100@0 19/100@1", "accepted"),
    # amounts, limits and bounds whose sums pass 64 bits: 2^64 - 1 and 21 add up to 2^64 + 20
    (64, GREAT, (0, 0, MOST, MOST, MOST, MOST), "001100", " ".join([f"{MOST}/{MOST}@0"] * 4), "refused 52 OverDemand 4"),
    (64, GREAT, (0, 0, MOST, MOST, 0, 0), "001100", " ".join([f"{MOST}/{MOST}@0"] * 4), "refused 53 SumDiffers 1"),
    (64, GREAT, (20, 20, MOST, 21, 0, 21), "101100", " ".join([f"{MOST}/{MOST}@0"] * 4), "refused 53 SumDiffers 1"),
    (64, GREAT, (MOST,) * 6, "001100", " ".join([f"{MOST}/{MOST}@0"] * 4), "refused 51 OverLimit 0"),
    (64, GREAT, (0,) * 6, "001100", " ".join([f"{MOST}/{MOST}@0"] * 4), "refused 55 NotGreatest 0"),
    (64, GREAT, (1280, 1280, 640, 640, 640, 640), "101100", " ".join([f"{MOST}/{MOST}@0"] * 4), "refused 57 LastMarkAbove 1"),
]
# levels of groups that share nothing out are not looked at
for level in ["-", f"{MOST}/{MOST}@4294967295", f"1/{MOST}@0"]:
    VERDICTS.append((1, [TOP], (0,), "0", level, "accepted"))
    VERDICTS.append((1, [TOP, "0 100 max 0", "1 1 max 0"], (0, 0, 0), "000", " ".join([level] * 3), "accepted"))


@pytest.mark.parametrize("processors, rows, amounts, flags, levels, wanted", VERDICTS,
                         ids=[f"{at}, {row[-1]}" for at, row in enumerate(VERDICTS)])
def test_verdict(program, processors, rows, amounts, flags, levels, wanted):
    given = levels.split() + ["-"] * len(rows)
    is_judged(program, certified(processors, rows, amounts, flags, given), wanted)


def rows_of(*rows):
    """A text of these rows, to which nothing is given."""
    return certified(1, rows, [0] * len(rows), [0] * len(rows), ["-"] * len(rows)).decode()


HEAD = "bw 1 1 100000 5000 1\n"
IDLE = "0 100 max 0"
# Texts that are no certified texts, and texts whose rows are no tree within its limits: the least
# number that applies to any row.
TEXTS = [
    (HEAD + "- 100 max 0 0 0 -\n0 100 max 0 0 0 -\n", "error 43 Trailing"),
    (HEAD + "- 100 max 0 0 0 -\n\n", "error 43 Trailing"),
    (HEAD + "- 0100 max 0 0 0 -\n", "error 41 BadField"),
    (HEAD + "-  100 max 0 0 0 -\n", "error 40 BadLine"),
    (HEAD + "- 100 max 0 0 0 - \n", "error 40 BadLine"),
    (HEAD + "\n", "error 40 BadLine"),
    (HEAD + "-  100 max 0 0 0 -", "error 42 CutShort"),
    (HEAD + "-  max 0 0 0 -\n", "error 41 BadField"),
    (HEAD + "- 0 max 0 0 0 -\n", "error 6 BadWeight"),
    (HEAD + "- 100 max 0 0 0 13/0@0\n", "error 41 BadField"),
    (HEAD + "- 100 max 0 0 0 0/13@0\n", "error 41 BadField"),
    (HEAD + "- 100 max 0 0 0 1/1@4294967296\n", "error 41 BadField"),
    (HEAD + "- 100 max 0 0 0 1/1@4294967295\n", "accepted"),
    (HEAD + f"- 100 max 0 {MOST} 0 {MOST}/1@0\n", "refused 51 OverLimit 0"),
    (HEAD + f"- 100 max 0 {MOST + 1} 0 -\n", "error 41 BadField"),
    (HEAD + "- 100 max 0 0 2 -\n", "error 41 BadField"),
    (HEAD + "- 100 max 0 0 0 é\n", "error 41 BadField"),
    ("bw 2 1 100000 5000 1\n", "error 41 BadField"),
    ("bw 1 0 100000 5000 1\n", "error 1 BadProcessors"),
    (f"bw 1 {MOST} 100000 5000 1\n", "error 1 BadProcessors"),
    (f"bw 1 {MOST + 1} 100000 5000 1\n", "error 41 BadField"),
    ("bw 1 0 999 5000 1\n", "error 1 BadProcessors"),
    ("bw 1 1 999 5000 1\n", "error 2 BadPeriod"),
    ("bw 1 1 100000 3000 16385\n", "error 3 BadSlice"),
    ("bw 1 1 100000 5000 16385\n", "error 4 TooMany"),
    ("bw 1 1 100000 5000 16385\n- 100 max 0 20 1 13/100@0\n", "error 4 TooMany"),
    ("bw 1 1 100000 5000 0\n", "error 5 BadParent"),
    ("bw 1 1 100000 5000 0\nx", "error 43 Trailing"),
    (HEAD + "4294967296 100 max 0 0 0 -\n", "error 41 BadField"),
    (HEAD + "4294967295 100 max 0 0 0 -\n", "error 5 BadParent"),
    (HEAD + "- 100 5 0 0 0 -\n", "error 10 RootLimited"),
    (HEAD + "- 100 max 1000001 0 0 -\n", "error 9 DemandTooLarge"),
    ("bw 1 1 100000 5000 2\n- 100 max 1 0 0 -\n0 100 max 0 0 0 -\n", "error 8 InnerDemand"),
    (rows_of(IDLE), "error 5 BadParent"),
    (rows_of(TOP, TOP), "error 5 BadParent"),
    (rows_of(TOP, "1 100 max 0"), "error 5 BadParent"),
    (rows_of(TOP, "0 0 max 0", "1 100 max 0"), "error 6 BadWeight"),
    (rows_of(TOP, "0 10001 max 0"), "error 6 BadWeight"),
    (rows_of(TOP, "0 100 max 1", "1 100 max 0"), "error 8 InnerDemand"),
    (rows_of(TOP, "0 100 max 1000001"), "error 9 DemandTooLarge"),
    (rows_of("- 100 20 0", IDLE), "error 10 RootLimited"),
    (rows_of("- 100 20 0", "0 100 max 1000001", "0 0 max 0"), "error 6 BadWeight"),
    (rows_of("- 100 20 0", "0 100 max 1000001", "1 100 max 0"), "error 8 InnerDemand"),
    # one word, and one line, of four million bytes
    ("1" * 4194000, "error 42 CutShort"),
    ("1" * 4193999 + "\n", "error 40 BadLine"),
    ("1" * 4194304, "error 42 CutShort"),
]
# changed texts of two groups
FIRST, LAST = "0 100 max 20 7 0 -\n", "0 200 max 20 13 0 -\n"
CHANGED = [
    (LAST, LAST + "0 100 max 0 0 0 -\n", "error 43 Trailing"), (FIRST, "0 0100 max 20 7 0 -\n", "error 41 BadField"),
    (FIRST, "0  100 max 20 7 0 -\n", "error 40 BadLine"), (FIRST, "0 0 max 20 7 0 -\n", "error 6 BadWeight"),
    (LEVEL, "13/0@0", "error 41 BadField"), (LAST, f"0 200 max 20 {MOST + 1} 0 -\n", "error 41 BadField"),
    (LAST, "2 200 max 20 13 0 -\n", "error 5 BadParent"),
]
TWO_GROUPS = CERTIFIED["two groups"].decode()
TEXTS += [(TWO_GROUPS.replace(old, new), wanted) for old, new, wanted in CHANGED]


@pytest.mark.parametrize("text, wanted", TEXTS,
                         ids=[f"{at}, {row[1]}" for at, row in enumerate(TEXTS)])
def test_text(program, text, wanted):
    is_judged(program, text.encode(), wanted)


@pytest.mark.parametrize("name", CERTIFIED)
def test_certified_text(program, name):
    is_judged(program, CERTIFIED[name], "accepted")
