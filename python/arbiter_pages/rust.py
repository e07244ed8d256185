"""The Rust crate's declarations of the calls, its wrappers on slices, and its plain functions."""
from __future__ import annotations

import textwrap
from collections.abc import Iterator

from arbiter_pages.calls import (CHAR, HOST, LENGTHS, NO_LIMIT, READ, ROWS, TABLE, U8, WRITTEN,
                                 Call, CallWord, Part, WordGroup, records)
from arbiter_pages.interface import SOURCE, filled
from arbiter_pages.shapes import environment

COLUMNS, DOC_COLUMNS = 130, 124


def kind(word: CallWord) -> str:
    """The type of a word, or of the entries of a column."""
    return U8 if word.type == CHAR else word.type


def declared(word: CallWord) -> str:
    """A word as it is declared for C."""
    pointer = "*const " if word.way == READ else "*mut "
    if word.is_column:
        return f"{word.name}: {pointer}{kind(word)}, {word.name}_length: usize"
    return f"{word.name}: {'' if word.way == READ else pointer}{kind(word)}"


def extern_line(call: Call) -> str:
    """A call as it is declared for C."""
    return filled(f"    fn arbiter_{call.name}(", map(declared, call.words),
                  f") -> {call.answer};", COLUMNS)


def is_written(part: Part) -> bool:
    return part.words[-1].way != READ


def parameter(part: CallWord | Part) -> str:
    """A word or a record as the wrapper takes it."""
    if isinstance(part, Part):
        mutable = "mut " if is_written(part) else ""
        by = f"&{mutable}" if is_written(part) or part.record != HOST.record else ""
        return f"{part.name}: {by}{part.record.name}"
    if part.is_column:
        return f"{part.name}: &{'' if part.way == READ else 'mut '}[{kind(part)}]"
    return f"{part.name}: {'' if part.way == READ else '&mut '}{kind(part)}"


def given(name: str, word: CallWord, is_field: bool) -> str:
    """A word as the wrapper hands it to C."""
    if word.is_column:
        return f"{name}.as_{'' if word.way == READ else 'mut_'}ptr(), {name}.len()"
    return f"&mut {name}" if is_field and word.way != READ else name


def handed(call: Call) -> Iterator[str]:
    """All words as the wrapper of a call hands them to C."""
    for part in call.parts:
        if isinstance(part, Part):
            yield from (given(f"{part.name}.{field.name}", word, True)
                        for field, word in zip(part.record.fields, part.words))
        else:
            yield given(part.name, part, False)


def wrapper(call: Call) -> str:
    """The wrapper of a call."""
    head = filled(f"pub(crate) fn {call.name}(", map(parameter, call.parts),
                  f") -> {call.answer} {{", COLUMNS)
    inner = filled(f"        arbiter_{call.name}(", handed(call), ")", COLUMNS)
    safety = "    // SAFETY: as the head of this file says\n"
    return f"{head}\n{safety}    unsafe {{\n{inner}\n    }}\n}}"


def has_room(record: WordGroup) -> bool:
    """Whether calls write records of this kind, with one entry in each column for each row."""
    written = any(isinstance(part, Part) and part.record == record and part.words[0].way == WRITTEN
                  for call in TABLE for part in call.parts)
    return written and all(word.is_column for word in record.fields)


def raw() -> str:
    """The declarations for C, and a wrapper of each call."""
    made = environment()
    made.filters |= {"extern_line": extern_line, "wrapper": wrapper, "kind": kind}
    made.tests["room"] = has_room
    return made.get_template("raw.rs").render(source=SOURCE, calls=TABLE, records=list(records()))


def doc(text: str, first: str = "/// ", others: str = "/// ") -> list[str]:
    return textwrap.wrap(text, DOC_COLUMNS, initial_indent=first, subsequent_indent=others,
                         break_long_words=False, break_on_hyphens=False)


def doc_lines(call: Call) -> str:
    """The comment of the plain function of a call."""
    lines = doc(call.about)
    words = [(word, f"`{word.name}`: " if word.way == READ else "Gives ") for word in call.own]
    for word, begin in words:
        none = f"; none where {word.when}" if word.none else ""
        lines += ["///", *doc(f"{begin}{word.about}{none}.")]
    lines += ["///", "/// # Errors"]
    # (the columns of rows never differ in length)
    for each in (each for each in call.refusals if each != LENGTHS):
        lines += doc(f"- {each.numbers}: {each.when}.", "/// ", "///   ")
    return "\n".join(lines + ["/// - 71: memory was refused."] * call.allocates)


def none_number(word: CallWord) -> str:
    return "raw::NO_LIMIT" if word.none == NO_LIMIT else word.none


def value_type(word: CallWord) -> str:
    """The type of a word of a plain function: a column of C is a list."""
    plain = f"Option<{kind(word)}>" if word.none else kind(word)
    return f"Vec<{plain}>" if word.is_column else plain


def given_type(word: CallWord) -> str:
    """The type of a word that is given to a plain function: a column is borrowed."""
    return f"&[{kind(word)}]" if word.is_column else value_type(word)


def plain(call: Call) -> str:
    """The public function of a plain call, which writes one number or one column."""
    (answer,) = (word for word in call.words if word.way != READ)
    is_tree, is_of_host = ROWS in call.parts, HOST in call.parts
    words = [word for word in call.own if word.way == READ]
    parameters = [*["host: Host"] * is_of_host, *["rows: &[Row]"] * is_tree,
                  *(f"{word.name}: {given_type(word)}" for word in words)]
    asked = [*["host"] * is_of_host, *["&columns"] * is_tree,
             *(f"number_of({word.name})" if word.none else word.name for word in words),
             f"&mut {answer.name}"]
    lines = [filled(f"pub fn {call.name}(", parameters,
                    f") -> Result<{value_type(answer)}, Fault> {{", DOC_COLUMNS)]
    lines += ["    let columns = Columns::of(rows);"] * is_tree
    begin = "vec![0; rows.len()]" if answer.is_column else "0"
    lines.append(f"    let mut {answer.name} = {begin};")
    number = f"raw::{call.name}({', '.join(asked)})"
    lines.append(f"    of_rows({number}, &columns)?;" if is_tree else
                 f"    answered({number}, None)?;")
    some = (f"Some({answer.name}).filter(|number| *number != {none_number(answer)})"
            if answer.none else answer.name)
    return "\n".join([*lines, f"    Ok({some})", "}"])


def plain_functions() -> str:
    """The public functions of plain calls."""
    made = environment()
    made.filters |= {"doc_lines": doc_lines, "plain": plain}
    return made.get_template("plain.rs").render(
        source=SOURCE, calls=[call for call in TABLE if call.is_plain])


def files() -> dict[str, str]:
    """All files with their texts, by their places in the repository."""
    return {"share/rust/src/raw.rs": raw(), "share/rust/src/plain.rs": plain_functions()}
