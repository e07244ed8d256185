"""The binding of the C library: its types, its columns, and where the library is looked for."""
import ctypes
import os
import re
import subprocess
import sys

import arbiter
import pytest
from arbiter import c, found
from arbiter.columns import Columns, column, given
from arbiter.words import ANSWERS
from places import PACKAGE

HEADER = (PACKAGE.parent / "share/arbiter.h").read_text()
DECLARED = re.findall(r"^(uint(?:32|64)_t) arbiter_(\w+)\(([^)]*)\)", HEADER, re.M)
TYPES = {"uint32_t": c.U32, "uint64_t": c.U64, "size_t": c.SIZE}


def type_of(word):
    """The type of a parameter of the header."""
    return c.POINTER if "*" in word else TYPES[word.split()[0]]


@pytest.mark.parametrize("answer, name, words", DECLARED, ids=[row[1] for row in DECLARED])
def test_words_of_the_header(answer, name, words):
    """Each call has the words and the answer that the header declares."""
    known = [kind for word in c.WORDS[name] for kind in word.types]
    assert known == [type_of(word) for word in words.split(",")]
    assert c.TYPES[ANSWERS.get(name, "I")] is TYPES[answer]


def test_no_other_call():
    assert set(c.WORDS) == {name for _, name, _ in DECLARED} and set(ANSWERS) <= set(c.WORDS)


def test_constants_of_the_header():
    """The greatest numbers stand for none, and a name has room."""
    constants = dict(re.findall(r"^#define ARBITER_(\w+) (\w+)$", HEADER, re.M))
    greatest = {"UINT32_MAX": 2**32 - 1, "UINT64_MAX": 2**64 - 1}
    assert (c.NO_PARENT, c.NO_LIMIT) == (greatest[constants["NO_PARENT"]],
                                         greatest[constants["NO_LIMIT"]])
    assert str(c.NAME_ROOM) == constants["NAME_ROOM"]


def test_columns_as_c_takes_them():
    """A column is its memory, which it keeps, and its length. No column is a null pointer."""
    columns = Columns.of([arbiter.Row(), arbiter.Row(0, 7, 3, 2), arbiter.Row(0, demand=9)])
    words = given(*columns.all)
    assert words[1::2] == [3] * 4 and Columns.of(columns) is columns
    assert [type(each)._type_ for each in words[::2]] == [c.U32, c.U64, c.U64, c.U64]
    assert [list(each) for each in words[::2]] == [
        [c.NO_PARENT, 0, 0], [100, 7, 100], [c.NO_LIMIT, 3, c.NO_LIMIT], [0, 2, 9]]
    assert given(*Columns.of([]).all)[1::2] == [0] * 4
    assert all(ctypes.addressof(each) for each in given(*Columns.of([]).all)[::2])


def test_columns_are_kept():
    """What C is given stays as it was when nobody else holds it."""
    words = given(column("Q", range(1000, 9000), "amount"))
    others = [column("Q", range(8000), "amount") for _ in range(20)]
    assert list(words[0]) == list(range(1000, 9000)) and len(others) == 20


@pytest.mark.parametrize("row, words", [
    (arbiter.Row(parent=2**32), "parent"), (arbiter.Row(parent=2**32 - 1), "stands for none"),
    (arbiter.Row(limit=2**64 - 1), "stands for none"), (arbiter.Row(weight=-1), "64 bits"),
    (arbiter.Row(demand=2**64), "demand"),
])
def test_numbers_that_no_column_holds(row, words):
    with pytest.raises(OverflowError, match=words):
        Columns.of([row])


@pytest.mark.parametrize("numbers", [(2**64, 1, 1), (1, -1, 1), (1, 1, 2**70)])
def test_numbers_that_no_word_holds(calls, numbers):
    """They are refused, and not cut."""
    with pytest.raises(OverflowError):
        calls.plan(arbiter.Host(*numbers), [arbiter.Row()])
    with pytest.raises(OverflowError):
        calls.guarantee(arbiter.Host(), [arbiter.Row()], 2**32)


def test_levels_of_a_certificate():
    """A certificate of flags and levels has both again."""
    levels = [(13, 100, 1), None, None]
    made = arbiter.Certificate.of([True, False, False], levels)
    assert (list(made.flags), made.levels) == ([1, 0, 0], levels)
    assert [list(each) for each in made[1:]] == [[13, 0, 0], [100, 0, 0], [1, 0, 0]]


def asked(folder, **environment):
    """The path of the library that a package in a folder takes."""
    words = [sys.executable, "-c", "from arbiter import found; print(found.path())"]
    ended = subprocess.run(words, capture_output=True, text=True, check=True, cwd="/",
                           env={"PYTHONPATH": str(folder), **environment})
    return ended.stdout.strip()


def test_order_of_places(folder):
    """What is named comes first, then beside the package, then the folder `lib` above it."""
    package = folder / "lib/python/arbiter"
    package.mkdir(parents=True)
    for path in (PACKAGE / "arbiter").glob("*.py"):
        (package / path.name).write_text(path.read_text())
    top = package.parent
    assert asked(top) == found.SONAME
    above, beside = folder / "lib" / found.SONAME, package / found.SONAME
    above.touch()
    assert asked(top) == str(above)
    beside.touch()
    assert asked(top) == str(beside)
    assert asked(top, ARBITER_LIBRARY="named.so") == "named.so"
    assert asked(top, ARBITER_LIBRARY="") == str(beside)


def test_a_library_that_cannot_be_loaded(folder):
    """A text is no library, and a library without the calls is older."""
    (folder / "text.so").write_text("text")
    with pytest.raises(arbiter.Unavailable, match="text.so: .*: install the package libarbiter1"):
        arbiter.Library(folder / "text.so")
    with pytest.raises(arbiter.Unavailable, match="no call arbiter_plan: .* older than"):
        arbiter.Library("libc.so.6")


def test_a_name_is_no_path(folder, monkeypatch):
    """A name without a slash is not looked for in the folder at hand."""
    (folder / "here.so").write_text("text")
    monkeypatch.chdir(folder)
    with pytest.raises(arbiter.Unavailable, match="here.so: cannot open shared object file"):
        arbiter.Library("here.so")
    with pytest.raises(arbiter.Unavailable, match=re.escape(os.path.join(folder, "here.so"))):
        arbiter.Library("./here.so")


def test_sizes():
    """The types of `array` have the sizes of C's."""
    from array import array
    sizes = {kind: array(kind).itemsize for kind in "BIQ"}
    assert sizes == {"B": 1, "I": ctypes.sizeof(c.U32), "Q": ctypes.sizeof(c.U64)}


def test_figures_by_hand(calls):
    """20 slices. `pod` wants 9 and may have 5; the idle group of weight 70 is not counted."""
    rows = [arbiter.Row(), arbiter.Row(0, 200, 5), arbiter.Row(1, 100, None, 6),
            arbiter.Row(1, 300, 2, 3), arbiter.Row(0, 70), arbiter.Row(0, 10, None, 30)]
    found = calls.figures(arbiter.Host(1, 100000, 5000), rows)
    assert {name: list(each) for name, each in found._asdict().items()} == {
        "wants": [35, 8, 6, 3, 0, 30], "mosts": [20, 5, 6, 2, 0, 30],
        "tights": [1, 1, 0, 1, 0, 0], "actives": [2, 2, 0, 0, 0, 0],
        "active_weights": [210, 400, 0, 0, 0, 0], "withheld": [0, 3, 0, 1, 0, 0]}


def test_a_script_by_hand(calls):
    """The groups in the order of their lines, and the lines that are refused."""
    text = (b"mkdir a\nmkdir a/b\nwrite a cpu.max 50000\nfrob\nwrite a cpu.weight 7\n"
            b"demand a/b 3\n# tasks 1\nmkdir ./c\nwrite c cpu.max.burst 5000\n"
            b"write c cpu.max 999\n")
    found = calls.script(arbiter.Host(1, 100000, 5000), text)
    assert [list(each) for each in (found.columns.parents, found.columns.weights,
                                    found.columns.limits, found.columns.demands)] == [
        [c.NO_PARENT, 0, 1, 0], [100, 7, 100, 100],
        [c.NO_LIMIT, 10, c.NO_LIMIT, c.NO_LIMIT], [0, 0, 3, 0]]
    assert (found.names, found.refused) == (["", "a", "b", "c"], [(4, 80), (10, 13)])
    assert list(found.quotas) == [c.NO_LIMIT, 50000, c.NO_LIMIT, c.NO_LIMIT]
    assert list(found.bursts) == [0, 0, 0, 5000] and list(found.periods)[1:] == [100000] * 3


def test_a_script_that_saves_up(calls):
    """6 of 10 slices are left over, and the next limit is at most 10 and 5."""
    text = (b"mkdir a\nwrite a cpu.max 50000\nwrite a cpu.max.burst 25000\ndemand a 4\nperiod\n")
    found = calls.script(arbiter.Host(1, 100000, 5000), text)
    assert (list(found.carries), list(found.columns.limits)) == ([0, 6], [c.NO_LIMIT, 15])


@pytest.mark.parametrize("text, names, refused", [
    (b"", [""], []), (b"\n", [""], []), (b"#", [""], []), (b"mkdir a", ["", "a"], []),
    (b"\xff", [""], [(1, 81)]), (b"#" * 65537, [""], [(1, 82)]), (b"\0" * 9, [""], [(1, 80)]),
], ids=["nothing", "a newline", "a comment", "no newline", "no text", "a long line", "zeros"])
def test_scripts_of_one_line(calls, text, names, refused):
    """Each text has the root. A line without a newline is a line."""
    found = calls.script(arbiter.Host(), text)
    assert (found.names, found.refused) == (names, refused)


def test_each_script_has_a_key_of_its_own(calls, monkeypatch):
    """The groups of a script are found by a hash whose key nobody who wrote it can know."""
    keys, asked = [], calls.calls

    class Noted:
        """The calls; the keys of scripts are noted."""

        def __getattr__(self, name):
            return getattr(asked, name)

        def arbiter_script(self, *words):
            """The call."""
            keys.append(words[3])
            return asked.arbiter_script(*words)

    monkeypatch.setattr(calls, "calls", Noted())
    found = [calls.script(arbiter.Host(), b"mkdir a").names for _ in range(3)]
    assert found == [["", "a"]] * 3 and len(set(keys)) == 3
    assert all(0 <= key < 2**64 for key in keys)
