"""scripts/telling: neutral texts, the functions that they stand in, and the table that is kept."""
import importlib.machinery
import importlib.util
import sys

import pytest

from support import ROOT, same

LOADER = importlib.machinery.SourceFileLoader("telling", str(ROOT / "scripts/telling"))
telling = importlib.util.module_from_spec(
    importlib.util.spec_from_loader("telling", LOADER))
sys.modules["telling"] = telling
LOADER.exec_module(telling)
TABLE = ROOT / "tests/telling.tsv"


@pytest.mark.parametrize("old, neutral", [
    ("    let mark = mark_of(ticket);", "    let mark = { let same = mark_of(ticket); same };"),
    ("Reason::OwnLimit => 2,", "Reason::OwnLimit => { let same = 2; same }"),
    ("    node.children += 1;", "    node.children = node.children + (1);"),
    ("    if likely < stats.len() {", "    let same = likely < stats.len(); if same {"),
    ("waiting.clear();", "let () = (); waiting.clear();"),
    ("(time / slice) as u64", "{ let same = (time / slice) as u64; same }"),
    ("    if let Some(x) = y {", ""), ("self.history.push_reserved(Entry {", ""),
    (".min(MAX_SHARES)", ""), (" && f(a)", " && { let same = f(a); same }"),
    ("num: 2 * slices - 1,", "num: { let same = 2 * slices - 1; same },"),
    ("u64::from(slice_us),", "{ let same = u64::from(slice_us); same },"),
    ("match self.take(rt, piece) {", "let same = self.take(rt, piece); match same {"),
    ("return Some(&text);", "let () = (); return Some(&text);"),
    ("let Ok(a) = b else {", ""), ("while kept < n {", ""),
])
def test_neutral_text(old, neutral):
    """A value gets a name first; none where the text is the beginning of something."""
    same(telling.kept_behind_let(old), neutral)


def test_end_of_a_statement():
    same(telling.inside(" sum + f(a);"), "{ let same = sum + f(a); same };")
    same([telling.inside(text) for text in ("let a = b;", "return Some(g);", "if a {")], [""] * 3)


def test_another_text_is_tried(capsys):
    """An edit whose first text is refused comes back with the next, and is told with the last."""
    edit = telling.Edit("bw_x", "one", "src/a.rt", "old", "bw_x::f", ["a", "b"])
    again = telling.judged([edit], {"bw_x::f": "fn bw_x::f: no proof"})
    same([each.neutral for each in again], [["b"]])
    same(telling.judged(again, {"bw_x::f": ""}), [])
    same(capsys.readouterr().out, "bw_x\tone\tbw_x::f\ttells\tb\n")


SOURCE = """impl Tree {
    fn find(&self) -> u32 {
        one()
    }
}

impl Write for Output {
    fn flush(&mut self) {
        two()
    }
}

pub fn alone() -> u32 {
    three()
}
"""


@pytest.mark.parametrize("old, function", [
    ("one()", "bw_x::a::b::Tree::find"), ("two()", "bw_x::a::b"), ("three()", "bw_x::a::b::alone")])
def test_function_of_a_text(tmp_path, old, function):
    """A method has its type's name; of a trait's method the module is checked."""
    top = tmp_path / "bw_x"
    (top / "src/a").mkdir(parents=True)
    (top / "src/a/b.rt").write_text(SOURCE)
    same(telling.function_at(top, "src/a/b.rt", old), function)


def test_edits_of_one_function_are_tried_apart():
    def of(name, function):
        return telling.Edit("bw_x", name, "src/a.rt", "old", function, ["x"])
    found = [of("one", "bw_x::a::f"), of("two", "bw_x::a::f"), of("three", "bw_x::b::g"),
             of("four", "bw_x::a")]
    names = [[each.name for each in batch] for batch in telling.batches(found)]
    same(names, [["one", "three"], ["two"], ["four"]])


def test_goal_of_a_function():
    """The line against a function, or against one in its module."""
    output = "rt: x\nfn bw_x::a::f: no proof: `is`\nfn bw_x::a::g: proved\n"
    output += "fn bw_x::b::T::g: no proof: `err`\n"
    same(telling.said_of("bw_x::a::f", output), "fn bw_x::a::f: no proof: `is`")
    same(telling.said_of("bw_x::b", output), "fn bw_x::b::T::g: no proof: `err`")
    same(telling.said_of("bw_x::a::g", output), "")


def test_method_of_a_type_of_another_module():
    """It is told of below the module of its type, and is asked for by the end of its path."""
    output = "fn bw_x::tree::Tree::find: no proof: `is`\nfn bw_x::tree::Tree::add: proved, may wait\n"
    same(telling.end_of("bw_x::paths::Tree::find"), "Tree::find")
    same(telling.end_of("bw_x::paths::found"), "bw_x::paths::found")
    same(telling.said_of("bw_x::paths::Tree::find", output),
         "fn bw_x::tree::Tree::find: no proof: `is`")
    same(telling.said_of("bw_x::paths::Tree::add", output), "")


def test_every_edit_has_a_place():
    """Each edit of the code is in a function or a module, and nine of ten have a neutral text."""
    tops = sorted({path.parents[1] for path in ROOT.glob("crates/*/must-fail/*.edit")})
    found = [each for top in tops for each in telling.edits(top, {})]
    assert len(found) >= 100
    same([each.name for each in found if not each.function.startswith(each.crate)], [])
    assert 10 * sum(1 for each in found if each.neutral) >= 9 * len(found)


def test_table_has_all_cells():
    """The kept table: a crate, an edit, a function of that crate, what was found, and a text."""
    rows = [line.split("\t") for line in TABLE.read_text(encoding="utf-8").splitlines()[1:]]
    assert len(rows) >= 10
    same([row for row in rows if len(row) != 5 or not row[2].startswith(row[0]) or not row[3]], [],
         "rows of other cells")
