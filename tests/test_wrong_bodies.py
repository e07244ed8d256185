"""Wrong bodies and must-fail edits fit the sources, and planted_by_hand.tsv names what is there.

If the old text is missing or occurs twice the edit is a BAD EDIT, and the gate does not fail.
"""
import re
from pathlib import Path

import pytest

from support import ROOT, same
from test_pages import is_there, references, text_of
from wrong_bodies import BODIES, Body, changed_files, missing

PLANTED = "tests/planted_by_hand.tsv"
EDITS = sorted(ROOT.glob("crates/*/must-fail/*.edit"))


def stale_texts(edit: str, crate: Path) -> list:
    """The texts of an edit that its files do not have exactly once, one change after another."""
    path, old, texts, stale = crate, "", {}, []
    for line in edit.splitlines():
        if line.startswith("file: "):
            path = crate / line[6:].strip()
        elif line.startswith("old: "):
            old = line[5:]
        elif line.startswith("new:"):
            text = texts.get(path) or path.read_text(encoding="utf-8")
            if text.count(old) != 1:
                stale.append(old)
            texts[path] = text.replace(old, line[5:])
    return stale


@pytest.mark.parametrize("edit", EDITS, ids=lambda edit: edit.stem)
def test_edit_applies(edit):
    text = edit.read_text(encoding="utf-8")
    assert "new: " in text
    same(stale_texts(text, edit.parent.parent), [], "texts")


def test_stale_edit_is_found():
    """A text that is not there is found, and one that is there twice."""
    crate = ROOT / "crates/bw_model"
    edit = "file: src/host.rt\nold: {}\nnew: x\n"
    for old in ("no such text", "fn "):
        same(stale_texts(edit.format(old), crate), [old])


@pytest.mark.parametrize("path", sorted(BODIES.glob("*.body")), ids=lambda path: path.stem)
def test_body_applies(path):
    """`wrong_bodies.py` can put the body and the right one into the sources, and run its tests."""
    body = Body(path)
    same(missing(ROOT, body), [], "what its command names")
    for kind in ("new", "neutral"):
        assert changed_files(ROOT, body, kind)


def test_missing_crate_is_found(tmp_path):
    """A body whose command names a crate that is gone."""
    path = tmp_path / "stale.body"
    path.write_text("what: x\nby: y\ntry: bw_gone_tests\nfile: README.md\nold: a\nnew: b\n")
    same(missing(ROOT, Body(path)), ["bw_gone_tests"])
    path.write_text("what: x\nby: y\ncheck: bw_text bw_text::gone\nfile: a\nold: a\nnew: b\n")
    with pytest.raises(SystemExit, match="unknown line"):
        Body(path)


def is_test(file: str, name: str) -> bool:
    """Whether a file of tests/ has this test."""
    path = ROOT / "tests" / file
    return path.is_file() and f"\ndef {name}(" in path.read_text(encoding="utf-8")


def is_case(crate: str, module: str, name: str) -> bool:
    """Whether a crate of tests has this test."""
    path = ROOT / "crates" / crate / "src" / f"{module}.rt"
    return path.is_file() and f"\n#[test]\nfn {name}(" in path.read_text(encoding="utf-8")


@pytest.mark.parametrize("table, cells", [("planted.tsv", 5), ("planted_by_hand.tsv", 3)])
def test_tables_have_all_cells(table, cells):
    lines = (ROOT / "tests" / table).read_text(encoding="utf-8").splitlines()
    assert len(lines) >= 30 and lines[0].startswith("# crate\t")
    same([line for line in lines if line.count("\t") != cells - 1], [], "rows of other cells")


def test_clauses_are_there():
    found = references(PLANTED)
    assert len(found) >= 20
    same([name for *reference, name in found if not is_there(*reference)], [], "clauses")


def test_tests_are_there():
    text = text_of(PLANTED)
    tests = re.findall(r"(test_\w+\.py) `(test_\w+)", text)
    assert len(tests) >= 20
    same([each for each in tests if not is_test(*each)], [], "tests")
    cases = re.findall(r"(bw_\w+_tests) `(\w+)::(\w+)`", text)
    assert len(cases) >= 5
    same([each for each in cases if not is_case(*each)], [], "cases")


def test_what_no_run_reaches():
    """DEVELOPING names each crate of tests, and tests of the programs that are there."""
    page = text_of("docs/DEVELOPING.md")
    part = page[page.index("## What no run reaches"):page.index("## Measuring")]
    there = {path.parts[-3] for path in ROOT.glob("crates/*_tests/src/*.rt")
             if "#[test]" in path.read_text(encoding="utf-8")}
    assert len(there) >= 4
    same(sorted(set(re.findall(r"\bbw_\w+_tests\b", part))), sorted(there), "crates of tests")


def test_edits_are_there():
    """Each edit that a row names is one of the gate, or a body beside it."""
    named = re.findall(r"\b(?:edit|body) `(\w+)`", text_of(PLANTED))
    assert len(named) >= 5
    there = {path.stem for path in [*EDITS, *BODIES.glob("*.body")]}
    same([name for name in named if name not in there], [], "edits")
