"""Each promise of SECURITY.md is broken by an edit of tests/promises.txt, and a test of its line
refuses the edit. Slow ones are tried by tests/promises.py alone."""
import re
import shutil

import pytest

import promises
from support import ROOT, same

EDITS = promises.edits()
ROW = re.compile(r"^\| (.*) \| (`test_\w+\.py::.*`) \|$", re.M)


def rows():
    """The promises with the tests that their lines name."""
    text = (ROOT / "SECURITY.md").read_text(encoding="utf-8")
    return {promise: re.findall("`([^`]*)`", tests) for promise, tests in ROW.findall(text)}


def named(edit):
    """The name of an edit: the first of its tests, and how many words its promise has."""
    return edit.by[0].partition("::")[2]


def test_each_promise_is_broken():
    """By an edit that a test of its own line refuses."""
    found = rows()
    assert len(found) > 50
    same(sorted(set(found) - {each.promise for each in EDITS}), [], "promises without an edit")
    same([each.promise for each in EDITS if each.promise not in found], [], "edits of no promise")
    same([each.by for each in EDITS if not each.by or not set(each.by) <= set(found[each.promise])],
         [], "edits that other tests refuse")


def test_edits_apply():
    """Each file has the right text once, and each edit changes something."""
    for edit in EDITS:
        assert promises.changed(ROOT, edit) or edit.program or edit.call and edit.code
    same([(each, file, old) for each in EDITS for file, old, new in each.changes if old == new], [])


@pytest.fixture(scope="module", name="copy")
def copy_of_the_clone(tmp_path_factory):
    """A copy in which files are changed."""
    return promises.copied(tmp_path_factory.mktemp("promises"))


@pytest.mark.parametrize("edit", [each for each in EDITS if not each.is_slow], ids=named)
def test_edit_is_refused(copy, edit, program, library):
    """The test fails with the edit. Without it `./test` runs the test itself, or skips it."""
    if edit.call and not (shutil.which("gcc") and shutil.which("objcopy")):
        pytest.skip("no gcc, or no objcopy of binutils")
    path = promises.Path(program.path)
    why = promises.judged(copy, edit, path, library)
    lacks = why and promises.skipped(promises.run(copy, edit.by, path, library)[1])
    if lacks:
        pytest.skip(lacks)
    same(why, "", edit.promise)


def test_a_test_that_is_skipped_tells_nothing(copy, program, library, monkeypatch):
    """Its reason is told, as where strace is missing. There is none where a test of a run ran."""
    monkeypatch.setenv("PATH", "")
    status, output = promises.run(copy, ["test_security.py::test_what_the_program_opens"],
                                  program.path, library)
    assert status == 0 and promises.skipped(output).endswith(": no strace"), output
    same(promises.skipped(re.sub(r"\d+ skipped", "1 passed, 1 skipped", output)), "", "one ran")
