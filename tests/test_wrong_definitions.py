"""Wrong definitions of wrong_definitions.tsv: Coq or a script sees each, as its line says.

The quick ones are tried here. All are tried by `tests/wrong_definitions.py`, some minutes for each
processor.
"""
import shutil
import subprocess

import pytest

import wrong_definitions
from support import ROOT, same

LINES = wrong_definitions.all_wrong()
KINDS = {"proof", "translation", "script", "compared", "nothing:"}


def named(wrong):
    """The name of a wrong definition: its file and what sees it."""
    return f"{wrong.file.rsplit('/', 1)[-1]}, {wrong.seen}, {wrong.wrong[:30]!r}"


def test_each_line_applies():
    """Each file has the right text once, and each line says what sees the wrong one."""
    for wrong in LINES:
        assert wrong_definitions.text_with(wrong), wrong
    crates = [each for each in LINES if each.file.startswith("crates/")]
    print(f"{len(crates)} in the crates' definitions, {len(LINES) - len(crates)} in Coq's")
    assert len(crates) >= 30 and len(LINES) - len(crates) >= 30
    same({each.seen.split()[0] for each in LINES} - KINDS, set())
    same({each.when for each in LINES}, {"quick", "slow"})
    same(len({each[:3] for each in LINES}), len(LINES))


def test_what_nothing_sees_is_told():
    """The page has a line for each wrong definition that nothing sees."""
    page = (ROOT / "independent/README.md").read_text(encoding="utf-8")
    unseen = [each for each in LINES if each.seen.startswith("nothing: ")]
    assert unseen and all(each.seen.partition(": ")[2] in page for each in unseen), unseen


@pytest.mark.parametrize("wrong", [each for each in LINES if each.when == "quick"], ids=named)
def test_a_wrong_definition_is_seen(built, tmp_path, program, wrong):
    """By what its line says."""
    same(wrong_definitions.judged(tmp_path, built, program, wrong), "", named(wrong))


def test_right_definitions_stop_nothing(built, tmp_path, program):
    """With one change that changes nothing, the same modules are made anew, and nothing is seen."""
    right = wrong_definitions.Wrong("crates/bw_tree/specs/Tree.antt", "t.next + 1",
                                    "t.next + 1 + 0", "script lines.txt, a parent with a demand",
                                    "quick")
    same(wrong_definitions.judged(tmp_path, built, program, right), "the answers are the same")


def test_what_is_not_known_ends_the_translation(tmp_path):
    """A definition in a form that the script does not know is not left out in silence."""
    for name in ("crates", "independent"):
        ignored = shutil.ignore_patterns("out", "proofs")
        shutil.copytree(ROOT / name, tmp_path / name, ignore=ignored)
    marks = tmp_path / "crates/bw_model/specs/Marks.antt"
    text = marks.read_text(encoding="utf-8")
    same(text.count("abbrev pub last_mark :"), 1)
    marks.write_text(text.replace("abbrev pub last_mark :", "opaque pub last_mark :"),
                     encoding="utf-8")
    words = ["/usr/bin/python3", ROOT / "independent/translate.py", tmp_path, tmp_path]
    ended = subprocess.run(words, capture_output=True, text=True, check=False)
    assert ended.returncode == 1 and "Unknown" in ended.stderr, ended.stderr
