"""examples/checker.py, which is plain Python, answers what the proved check answers.

Texts of random scripts and their forgeries go to both in this process, by the C library.
"""
import random
import subprocess
import sys

import pytest

import arbiter
import checker
from support import CERTIFIED, ROOT, same
from test_forged_texts import BYTES, CHANGES, random_script, with_slice_moved

SOURCE = ROOT / "examples/checker.py"
SCRIPTS, OF_EACH, SEED = 250, 40, 71
# Columns of a row, and what a forger may write there.
VALUES = {1: ("1", "2", "100", "10000"), 2: ("max", "0", "1", "7"), 3: ("0", "1", "20"),
          5: ("0", "1"), 6: ("-", "1/100@0", "13/100@0", "39/200@1")}


def answer_of(library, text: bytes) -> str:
    """The line of the proved check."""
    try:
        library.check_text(text)
    except arbiter.Refused as refused:
        row = [] if refused.row is None else [str(refused.row)]
        kind = "refused" if row else "error"
        return " ".join([kind, str(refused.number), refused.name, *row])
    return "accepted"


def with_word_changed(chance: random.Random, text: bytes) -> bytes:
    """The text with another word in one column of a row."""
    lines = [line.split(b" ") for line in text.split(b"\n")]
    column = chance.choice(list(VALUES))
    chance.choice(lines[1:-1])[column] = chance.choice(VALUES[column]).encode()
    return b"\n".join(b" ".join(words) for words in lines)


def with_byte_changed(chance: random.Random, text: bytes) -> bytes:
    at = chance.randrange(len(text))
    return text[:at] + bytes([chance.choice(BYTES)]) + text[at + 1:]


def forged(chance: random.Random, text: bytes) -> bytes:
    """A text with one to three changes of rows, and in one of five a byte changed after them."""
    for _ in range(chance.randint(1, 3)):
        text = chance.choice((with_slice_moved, with_word_changed))(chance, text)
    return with_byte_changed(chance, text) if chance.random() < 0.2 else text


def test_answers_are_the_same(library):
    """Ten thousand texts, of which many are accepted, refused and no certified text."""
    chance, calls = random.Random(SEED), arbiter.Library(str(library))
    counts, numbers = {"accepted": 0, "refused": 0, "error": 0}, set()
    for seed in range(SCRIPTS):
        text = random_script(seed)[3]
        for each in [text, *(forged(chance, text) for _ in range(OF_EACH - 1))]:
            answer = checker.verdict(each)
            same(answer, answer_of(calls, each), f"{each!r}"[:600])
            counts[answer.split()[0]] += 1
            numbers |= {int(answer.split()[1])} if " " in answer else set()
    print(counts, numbers)
    assert numbers >= {1, 3, 5, 6, 8, 9, 10, 40, 41, 42, 43, *range(51, 59)}
    same(sum(counts.values()), SCRIPTS * OF_EACH)
    assert min(counts.values()) > 500, counts


@pytest.mark.parametrize("name", CERTIFIED)
def test_worked_text(name):
    """A certified text that was worked by hand, and each of its fronts."""
    same(checker.verdict(CERTIFIED[name]), "accepted")
    fronts = {checker.verdict(CERTIFIED[name][:end]) for end in range(len(CERTIFIED[name]))}
    same(fronts, {"error 42 CutShort"})


@pytest.mark.parametrize("old, new, line", CHANGES)
def test_worked_change(old, new, line):
    text = CERTIFIED["two groups"].replace(old, new)
    same(f"{checker.verdict(text)}\n".encode(), line)


def test_it_is_a_program():
    """It reads standard input, and prints one line."""
    for text, status, line in ((CERTIFIED["two groups"], 0, b"accepted\n"),
                               (b"bw 1\n", 3, b"error 40 BadLine\n")):
        ended = subprocess.run([sys.executable, str(SOURCE)], input=text, capture_output=True,
                               check=False)
        same((ended.returncode, ended.stdout, ended.stderr), (status, line, b""))


def test_it_is_short_and_stands_alone():
    """At most 120 lines, and no import but of the standard library."""
    lines = SOURCE.read_text(encoding="utf-8").splitlines()
    assert len(lines) <= 120
    imports = [line for line in lines if line.startswith(("import ", "from "))]
    same(imports, ["import re", "import sys", "from fractions import Fraction"], "imports")
