"""The command line: what `./arbiter` writes and how it ends, for given words and standard input.

Proofs speak of readers and writers. These tests show the program itself on real files, pipes and
devices.
"""
import os
import re
import time

import pytest

from support import CERTIFIED, ROOT, Talk, same

TWO_GROUPS = b"mkdir a\nmkdir b\ndemand a 20\ndemand b 20\ntotal\n"
TWO_GROUPS_ANSWERS = b"ok\nok\nok\nok\ntotal 20\nlimit 20 .\ndemand 0\n"

POD = b"""mkdir pod
mkdir pod/x
mkdir pod/y
mkdir job
write pod cpu.max 50000 100000
write pod/y cpu.weight 300
demand pod/x 20
demand pod/y 20
demand job 20
read pod cpu.max
read pod/y cpu.weight
total
plan
"""
POD_ANSWERS = b"ok\n" * 9 + b"""50000 100000
300
total 20
limit 20 .
demand 0
20 .
10 pod
3 pod/x
7 pod/y
10 job
"""
COUNTERS = POD.replace(b"read pod cpu.max\nread pod/y cpu.weight\n", b"")
COUNTERS += b"period\nread pod cpu.stat\nreport\n"
COUNTERS_ANSWERS = POD_ANSWERS.replace(b"50000 100000\n300\n", b"") + b"""served 20
usage_usec 50000
nr_periods 1
nr_throttled 1
throttled_usec 150000
nr_bursts 0
burst_usec 0
          usage_usec    periods  throttled       throttled_usec group
              100000          1          0                    0 .
               50000          1          1               150000 pod
               15000          1          0                    0 pod/x
               35000          1          0                    0 pod/y
               50000          1          0                    0 job
"""
TWO_CERTIFIED = CERTIFIED["two groups"]


# All options, and words behind them.
ALL_OPTIONS = ["run", "--processors", "2", "--period", "100000", "--slice", "5000"]
EIGHT_WORDS = [*ALL_OPTIONS, "frob"]
TEN_WORDS = [*ALL_OPTIONS, "--processors", "3", "frob"]


class Part(bytes):
    """A part of a longer text, such as a help text."""


# name, arguments, standard input, standard output, standard error, exit status
CASES = [
    ("two groups", ["run"], TWO_GROUPS, TWO_GROUPS_ANSWERS, b"", 0),
    ("no script", ["run"], b"", b"", b"", 0),
    ("total alone", ["run"], b"total\n", b"total 0\ndemand 0\n", b"", 0),
    ("two processors", ["run", "--processors", "2"], b"mkdir a\ndemand a 100\ntotal\n", b"ok\nok\ntotal 40\nlimit 40 .\ndemand 0\n", b"", 0),
    ("all three options", ["run", "--processors", "4", "--period", "10000", "--slice", "1000"], b"mkdir a\ndemand a 100\ntotal\n", b"ok\nok\ntotal 40\nlimit 40 .\ndemand 0\n", b"", 0),
    ("a refused line, and the script goes on", ["run"], b"frob\nmkdir a\nmkdir a\ntotal", b"error 80 BadCommand\nok\nerror 21 Exists\ntotal 0\ndemand 0\n", b"", 0),
    ("settings and a plan", ["run"], POD, POD_ANSWERS, b"", 0),
    ("a period and its counters", ["run"], COUNTERS, COUNTERS_ANSWERS, b"", 0),
    ("a period of four processors", ["run", "--processors", "4"], POD + b"period\nread . cpu.stat\n", Part(b"10 pod\n3 pod/x\n7 pod/y\n20 job\nserved 30\nusage_usec 150000\n"), b"", 0),
    ("a period of 64 processors", ["run", "--processors", "64"], b"mkdir a\ndemand a 1000000\nperiod\n", b"ok\nok\nserved 1280\n", b"", 0),
    ("a period without groups", ["run"], b"period\nperiod 1\n", b"served 0\nerror 80 BadCommand\n", b"", 0),
    ("a report without periods", ["run"], b"report\n", b"          usage_usec    periods  throttled       throttled_usec group\n                   0          0          0                    0 .\n", b"", 0),
    ("counters are read only", ["run"], b"mkdir a\nwrite a cpu.stat 1\nwrite . cpu.stat 1\nread . cpu.stat\nread . cpu.max\n", b"ok\nerror 31 ReadOnly\nerror 31 ReadOnly\nusage_usec 0\nerror 30 NoSuchFile\n", b"", 0),
    ("a group is taken out", ["run"], b"mkdir a\nrmdir a\nrmdir a\n", b"ok\nok\nerror 20 NotFound\n", b"", 0),
    ("a certified plan", ["run"], b"mkdir a\nmkdir b\nwrite b cpu.weight 200\ndemand a 20\ndemand b 20\ncert\n", b"ok\n" * 5 + TWO_CERTIFIED, b"", 0),
    ("a certified text", ["check"], TWO_CERTIFIED, b"accepted\n", b"", 0),
    ("amounts that are not the plan", ["check"], TWO_CERTIFIED.replace(b"20 7 0", b"20 6 0").replace(b"20 13 0", b"20 14 0"), b"refused 57 LastMarkAbove 2\n", b"", 3),
    ("a text cut short", ["check"], TWO_CERTIFIED[:-1], b"error 42 CutShort\n", b"", 3),
    ("no text", ["check"], b"", b"error 42 CutShort\n", b"", 3),
    ("a text of 4 MiB and a byte", ["check"], b"0" * 4194305, b"", b"arbiter: read fault: the text is longer than 4 MiB\n", 1),
    ("no processors", ["run", "--processors", "0"], TWO_GROUPS, b"", b"error 1 BadProcessors\n", 2),
    ("short period", ["run", "--period", "999"], TWO_GROUPS, b"", b"error 2 BadPeriod\n", 2),
    ("slice that does not divide", ["run", "--slice", "3000"], TWO_GROUPS, b"", b"error 3 BadSlice\n", 2),
    ("unknown option", ["run", "--frob"], b"", b"", Part(b"--frob"), 2),
    ("number with a letter", ["run", "--slice", "1k"], b"", b"", Part(b"1k"), 2),
    ("number above 32 bits", ["run", "--processors", "4294967296"], b"", b"", Part(b"4294967296"), 2),
    ("no words", [], b"", b"", Part(b"Usage"), 2),
    ("unknown command", ["frob"], b"", b"", Part(b"frob"), 2),
    ("a word that is no text", ["run", b"\xff"], b"", b"", b"arbiter: bad arguments\n", 2),
    ("help", ["--help"], b"", Part(b"Usage"), b"", 0),
    ("help has the exit statuses", ["--help"], b"", Part(b"  3  the certified text was refused\n"), b"", 0),
    ("help of run", ["run", "--help"], b"", Part(b"--processors"), b"", 0),
    ("help of run has the commands", ["run", "--help"], b"", Part(b"  write P FILE TEXT   FILE is cpu.weight, cpu.max or cpu.max.burst\n"), b"", 0),
    ("eight words, the last one too many", EIGHT_WORDS, b"total\n", b"", Part(b"frob"), 2),
    ("ten words, an option twice and one too many", TEN_WORDS, b"total\n", b"", Part(b"arbiter"), 2),
    ("an option twice", ["run", "--slice", "1000", "--slice", "1000"], b"total\n", b"", Part(b"arbiter"), 2),
    ("an option twice, the second one bad", ["run", "--slice", "1000", "--slice", "999"], b"total\n", b"", Part(b"arbiter"), 2),
]


def ends_as(ended, out, err, status, what):
    """Compares a run with what it has to write, whole or a part of it, and its exit status."""
    same(ended.status, status, f"{what}, status, with {ended.err[:100]!r} on standard error")
    for name, found, wanted in [("output", ended.out, out), ("error", ended.err, err)]:
        if isinstance(wanted, Part):
            assert wanted in found, f"{what}, standard {name}: {found[:300]!r}"
        else:
            same(found, wanted, f"{what}, standard {name}")


@pytest.mark.parametrize("words, given, out, err, status", [row[1:] for row in CASES],
                         ids=[row[0] for row in CASES])
def test_words_and_answers(command, words, given, out, err, status):
    ends_as(command.run(words, given), out, err, status, words)


def test_version(command):
    """The version is that of the one constant in the code."""
    sources = sorted((ROOT / "crates/arbiter/src").rglob("*.rt"))
    text = "".join(path.read_text(encoding="utf-8") for path in sources)
    versions = re.findall(r'\bconst VERSION: &(?:\'static )?str = "([^"]+)";', text)
    same(len(versions), 1, "constants VERSION in crates/arbiter/src")
    assert re.fullmatch(r"\d+\.\d+\.\d+", versions[0]), versions
    same(command.run(["--version"]), (0, f"arbiter {versions[0]}\n".encode(), b""))


JOBS = [("run", TWO_GROUPS), ("check", TWO_CERTIFIED)]


@pytest.mark.parametrize("word, given", JOBS, ids=["run", "check"])
def test_full_device(command, word, given):
    """A device that takes no byte: a write fault."""
    with open("/dev/full", "wb") as device:
        ended = command.run([word], given, stdout=device)
    same(ended, (1, b"", b"arbiter: write fault: no space is left\n"))


@pytest.mark.parametrize("word", ["run", "check"])
def test_folder_as_input(command, word):
    """A folder opens and cannot be read: a read fault, with nothing written."""
    folder = os.open(ROOT, os.O_RDONLY)
    try:
        ended = command.run([word], stdin=folder)
    finally:
        os.close(folder)
    same(ended, (1, b"", b"arbiter: read fault: it is a directory\n"))


def pytest_generate_tests(metafunc):
    """The scripts of examples/."""
    if "example" in metafunc.fixturenames:
        paths = sorted((ROOT / "examples").glob("*.script"))
        metafunc.parametrize("example", paths, ids=[path.name for path in paths])


def test_certified_plan_of_example(command, example):
    """The check accepts the certified text that `cert` writes at the end of a script."""
    written = command.run(["run"], example.read_bytes() + b"cert\n").out
    same(command.run(["check"], written[written.index(b"bw 1 "):]), (0, b"accepted\n", b""))


def test_counters_script(command):
    """The example of one period answers as the same lines above do."""
    script = (ROOT / "examples/counters.script").read_bytes()
    same(command.run(["run"], script), (0, COUNTERS_ANSWERS, b""))


def test_line_by_line(command):
    """A program that talks over pipes gets the answer to each line before it writes the next."""
    with Talk(command, ["run"], stderr=None) as talk:
        for line, answer in [
            (b"mkdir a\n", b"ok\n"),
            (b"demand a 7\n", b"ok\n"),
            (b"frob\n", b"error 80 BadCommand\n"),
        ]:
            talk.write(line)
            same(talk.line(), answer, line)
        talk.process.stdin.close()
        same((talk.line(), talk.status()), (b"", 0), "the end")


def test_many_lines(command):
    """Some 8,000 lines in one script. Their time is printed and not judged."""
    names = [f"g{number}" for number in range(4095)]
    script = "".join(f"mkdir {name}\n" for name in names)
    script += "".join(f"demand {name} 20\n" for name in names) + "total\n"
    began = time.monotonic()
    ended = command.run(["run"], script.encode())
    print(f"{2 * len(names) + 1} lines in {time.monotonic() - began:.2f} seconds")
    answers = b"ok\n" * (2 * len(names)) + b"total 20\nlimit 20 .\ndemand 0\n"
    same(ended, (0, answers, b""))
