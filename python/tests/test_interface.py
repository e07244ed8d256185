"""The table of the calls of the C library against the calls themselves."""
import re

import pytest
from arbiter_pages import calls, interface
from arbiter_pages.calls import READ, TABLE, U8, U64, Part
from places import PACKAGE

EXPORTS = PACKAGE.parent / "crates/bw_exports/src"
HEAD = re.compile(r'^pub extern "C" fn arbiter_(\w+)\(\s*(.*?),?\s*\) -> (\w+)(?: \{)?$',
                  re.M | re.S)
# The calls of bw_exports: file, words with their types, type of the answer.
EXPORTED = {name: (path.stem, [tuple(word.split(": ")) for word in re.split(r",\s*", words)],
                   answer)
            for path in sorted(EXPORTS.glob("*.rt"))
            for name, words, answer in HEAD.findall(path.read_text(encoding="utf-8"))}


def exported_type(word):
    """The type of a word of the table in bw_exports."""
    kind = U8 if word.type == "char" else word.type
    mutable = "" if word.way == READ else "mut "
    if word.is_column:
        return f"&{mutable}[{kind}]"
    return kind if word.way == READ else f"&mut {kind}"


@pytest.mark.parametrize("call", TABLE, ids=lambda call: call.name)
def test_call_is_exported(call):
    """Each call is in its file of bw_exports, with the words and the answer of the table. It takes
    an allocator where the table says that it asks for memory."""
    words = [("alloc", "Global")] * call.allocates
    words += [(word.name, exported_type(word)) for word in call.words]
    assert EXPORTED[call.name] == (call.module, words, call.answer)


def test_no_other_call_is_exported():
    assert sorted(EXPORTED) == sorted(call.name for call in TABLE)


def test_what_a_call_says():
    """Each call and each of its words has a text; each number of a refusal is one."""
    for call in TABLE:
        assert call.summary and call.about.endswith("."), call.name
        assert all(word.about and not word.about.endswith(".") for word in call.words), call.name
        assert all(bool(word.none) == bool(word.when) for word in call.words), call.name
        numbers = [each.numbers for each in call.refusals]
        assert all(re.fullmatch(r"\d+(( to |, )\d+)*", each) for each in numbers), call.name
        assert bool(call.refusals) == (call.name not in ("weight_of_shares", "version", "name"))


def test_records_are_one_type():
    """A record of one name has the same fields wherever it stands."""
    parts = [part for call in TABLE for part in call.parts if isinstance(part, Part)]
    assert len({part.record.name for part in parts}) == len({part.record for part in parts})
    for part in parts:
        assert [word.type for word in part.words] == [each.type for each in part.record.fields]
    assert {each.name for each in calls.records()} < {part.record.name for part in parts}


@pytest.mark.parametrize("word, is_refused", [
    (calls.result("refused", U64, "it"), True), (calls.room("refused", U64, "it"), True),
    (calls.column("words", U64, "it"), True), (calls.CallWord("alloc", U64, "it"), True),
    (calls.CallWord("refused", U64, "it"), False), (calls.result("number", U64, "it"), False)])
def test_a_word_that_hides_a_name_of_the_pipe(word, is_refused):
    """One that is only read is read before the call answers."""
    call = TABLE[0]._replace(name="some", parts=(word,))
    if is_refused:
        with pytest.raises(ValueError, match=f"^some: the pipe's program has a {word.name} of its"):
            interface.pipe_call(call)
    else:
        assert interface.pipe_call(call).startswith("    let refused = arbiter_some(")
