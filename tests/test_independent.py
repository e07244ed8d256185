"""The proofs in Coq: built, checked again, and beside the program.

independent/build makes all in out/independent. Three checkers then answer the same texts: the
program, examples/checker.py, and the one that was extracted from the proofs.
"""
import functools
import random
import re
import subprocess

import pytest

import checker
from support import ROOT, each, kit_folder, same
from test_checker import forged
from test_forged_texts import random_script

FOLDER = ROOT / "independent"
SCRIPTS, OF_EACH, SEED = 500, 40, 83
# Files that one call of the extracted checker reads.
BATCH = 500
# Words without a law of their own: `is_utf8` and its part, which a script of all pairs of bytes
# tests; the negation and what is true, Coq's own; a part of `decimal`.
WITHOUT_LAWS = ["IsTrue", "decimal_within", "goes_on", "is_utf8", "not"]


def test_nothing_is_assumed(built):
    """Each theorem that Assumptions.v asks of is closed, and no proof is left open."""
    log = (built / "build.log").read_text(encoding="utf-8")
    asked = (FOLDER / "Assumptions.v").read_text(encoding="utf-8").count("\nPrint Assumptions ")
    print(f"{asked} theorems, each closed under the global context")
    same(log.count("Closed under the global context"), asked)
    assert asked > 30 and "Axioms:" not in log
    for file in FOLDER.glob("*.v"):
        text = file.read_text(encoding="utf-8")
        for word in ("Admitted", "admit", "Axiom", "Parameter", "Conjecture"):
            assert f"{word}." not in text and f"{word} " not in text, (file.name, word)


def test_words_have_laws():
    """Each word that is said by hand, and each constant of the extraction, has a law."""
    laws = (FOLDER / "WordLaws.v").read_text(encoding="utf-8")
    words = [word for name in ("Words.v", "ScriptWords.v") for word in re.findall(
        r"^(?:Definition|Fixpoint) (\w+)", (FOLDER / name).read_text(encoding="utf-8"), re.M)]
    print(f"{len(words)} words")
    assert len(words) > 40
    same(sorted(word for word in words if f"Lemma {word}_is " not in laws), WITHOUT_LAWS)
    laws = (FOLDER / "Extracted.v").read_text(encoding="utf-8")
    for name in ("Extract.v", "ExtractScript.v"):
        constants = re.findall(r"^Extract Constant \w+\.(\w+)",
                               (FOLDER / name).read_text(encoding="utf-8"), re.M)
        same((len(constants), [each for each in constants if f"Lemma {each}_is " not in laws]),
             (10, []), name)


def test_kit_words_are_the_kits():
    """Kit.v is what the kit's own texts say."""
    try:
        kit = kit_folder() / "rattle"
    except FileNotFoundError as fault:
        pytest.skip(str(fault))
    ended = subprocess.run(["/usr/bin/python3", FOLDER / "translate.py", "--kit", kit],
                           capture_output=True, text=True, check=True)
    same(ended.stdout, (FOLDER / "Kit.v").read_text(encoding="utf-8"))


def lines_of(checker_program, folder, texts):
    """The line of the extracted checker for each text."""
    files = []
    for number, text in enumerate(texts):
        files.append(folder / f"{number}.certified")
        files[-1].write_bytes(text)
    found = []
    for at in range(0, len(files), BATCH):
        ended = subprocess.run([checker_program, *files[at:at + BATCH]], capture_output=True,
                               text=True, timeout=300, check=False)
        same(ended.stderr, "")
        found += ended.stdout.splitlines()
    return found


def line_of(program, text):
    """The program's line for a text."""
    return program.run(["check"], text).out.decode().strip()


def test_three_checkers_agree(built, program, tmp_path):
    """Twenty thousand texts, of which many are accepted, refused and no certified text."""
    chance, texts = random.Random(SEED), []
    for seed in range(SEED, SEED + SCRIPTS):
        text = random_script(seed)[3]
        texts += [text, *(forged(chance, text) for _ in range(OF_EACH - 1))]
    answers = lines_of(built / "arbiter-check", tmp_path, texts)
    same(len(answers), len(texts))
    own = each(functools.partial(line_of, program), texts)
    counts, numbers = {"accepted": 0, "refused": 0, "error": 0}, set()
    for text, answer, line in zip(texts, answers, own):
        same((answer, line), (checker.verdict(text),) * 2, f"{text!r}"[:600])
        counts[answer.split()[0]] += 1
        numbers |= {int(answer.split()[1])} if " " in answer else set()
    print(counts, sorted(numbers))
    assert numbers >= {1, 3, 5, 6, 8, 9, 10, 40, 41, 42, 43, *range(51, 59)}
    assert min(counts.values()) > 1000, counts


def test_words_and_statuses(built, tmp_path):
    """It answers standard input and files, and refuses other words."""
    good = (ROOT / "examples/two-groups.certified").read_bytes()
    bad = tmp_path / "bad"
    bad.write_bytes(b"bw 1\n")
    for words, given, status, out in (
            ([], good, 0, b"accepted\n"), ([], b"bw 1\n", 3, b"error 40 BadLine\n"),
            ([bad, ROOT / "examples/two-groups.certified"], b"", 3,
             b"error 40 BadLine\naccepted\n"),
            (["--version"], b"", 0, b"arbiter-check 1.0.0\n"), (["--what"], b"", 2, b""),
            ([tmp_path / "none"], b"", 1, b"")):
        ended = subprocess.run([built / "arbiter-check", *words], input=given, capture_output=True,
                               timeout=60, check=False)
        same((ended.returncode, ended.stdout), (status, out), str(words))
        assert (status in (0, 3)) == (ended.stderr == b""), ended.stderr
