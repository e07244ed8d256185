"""The files that declare the calls of the C library for C, the linker, Python and the pipe."""
from __future__ import annotations

import textwrap
from collections.abc import Iterable, Iterator
from pathlib import Path

from arbiter_pages.calls import (CHANGED, CHAR, FAULTS, HOST, READ, ROWS, SECTIONS, TABLE, U8, U32,
                                 U64, WRITTEN, Call, CallWord, Part)
from arbiter_pages.shapes import environment

SOURCE = "python/arbiter_pages/calls.py"
# Types as C and as Python's `array` have them.
C_TYPES = {U8: "uint8_t", U32: "uint32_t", U64: "uint64_t", CHAR: "char"}
CODES = {U8: "B", U32: "I", U64: "Q", CHAR: "B"}
HEADER_COLUMNS, PIPE_COLUMNS = 128, 100
# Names of the pipe's program: what it reads and asks for memory, and what a call answers.
PIPE_NAMES, PIPE_ANSWER = ("words", "alloc"), "refused"
# The page with the tables of the calls, and the lines around these.
PAGE = Path(__file__).resolve().parents[2] / "docs/EMBEDDING.md"
BEGIN, END = "<!-- the calls, as `python -m arbiter_pages` prints them -->", "<!-- end -->"


def filled(begin: str, items: Iterable[str], end: str, width: int) -> str:
    """Items with commas between them behind a beginning, in lines of a width, each below the
    first."""
    *most, last = items
    lines, indent = [begin], " " * len(begin)
    for item in [*(f"{each}," for each in most), last + end]:
        if lines[-1].strip() and lines[-1] != begin and len(f"{lines[-1]} {item}") > width:
            lines.append(indent)
        lines[-1] += item if lines[-1] in (begin, indent) else f" {item}"
    return "\n".join(lines)


def c_word(word: CallWord) -> str:
    """A word as C declares it: a column is a pointer and its length."""
    kind = C_TYPES[word.type]
    if not word.is_column:
        return f"{kind} {'' if word.way == READ else '*'}{word.name}"
    const = "const " if word.way == READ else ""
    return f"{const}{kind} *{word.name}, size_t {word.name}_length"


def c_lines(call: Call) -> str:
    """The declaration of a call in C."""
    return filled(f"{C_TYPES[call.answer]} arbiter_{call.name}(", map(c_word, call.words), ");",
                  HEADER_COLUMNS)


def about(word: CallWord) -> str:
    """The kind of a word, and the number that stands for none."""
    return f"{word.about}; {word.none} where {word.when}" if word.none else word.about


def comment_lines(text: str, first: str, others: str) -> list[str]:
    return textwrap.wrap(text, HEADER_COLUMNS, initial_indent=first, subsequent_indent=others,
                         break_long_words=False, break_on_hyphens=False)


def refusals_line(call: Call) -> str:
    """The numbers that refuse a call, each with its reason, in their order."""
    return "; ".join(f"{each.numbers} where {each.when}" for each in call.refusals)


def ways(call: Call) -> dict[str, list[CallWord]]:
    """The words of a call beside host and rows, by what it does with them."""
    found = {title: [word for word in call.own if word.way == way]
             for way, title in ((READ, "Reads"), (CHANGED, "Changes"), (WRITTEN, "Writes"))}
    return {title: words for title, words in found.items() if words}


def c_comment(call: Call) -> str:
    """The text of the header on a call: its paragraph, each word of its own, and its refusals."""
    lines = comment_lines(call.about, "/* ", " * ")
    for title, words in ways(call).items():
        lines.append(f" * {title}:")
        width = max(len(word.name) for word in words) + 2
        for word in words:
            lines += comment_lines(about(word), f" *   {word.name:<{width}}",
                                   f" *   {'':<{width}}")
    if call.refusals:
        lines += comment_lines(f"Answers 0, or {refusals_line(call)}.", " * ", " *   ")
    return "\n".join(lines) + " */"


def without_memory() -> str:
    """The sentence of the header on the calls that ask for no memory."""
    names = [f"arbiter_{call.name}" for call in TABLE if not call.allocates]
    text = f"{', '.join(names[:-1])} and {names[-1]} ask for no memory: their answers are exact."
    return "\n".join(comment_lines(text, " * ", " * "))


def c_files() -> dict[str, str]:
    """The header and the list of exported names."""
    made = environment()
    made.filters |= {"c_lines": c_lines, "c_comment": c_comment}
    words = {"source": SOURCE, "calls": TABLE, "sections": SECTIONS, "faults": FAULTS,
             "without_memory": without_memory()}
    return {name: made.get_template(name).render(**words)
            for name in ("arbiter.h", "arbiter.map")}


def code(word: CallWord) -> str:
    """A word as python/arbiter has it."""
    way = {READ: "", WRITTEN: ">", CHANGED: "<>"}[word.way]
    return f"{way}{word.name}:{CODES[word.type]}{'[]' if word.is_column else ''}"


def codes(call: Call) -> Iterator[str]:
    for each in call.parts:
        if each == HOST:
            yield "{HOST}"
        elif each == ROWS:
            yield "{ROWS}"
        else:
            yield from map(code, each.words if isinstance(each, Part) else (each,))


def python_line(call: Call) -> str:
    """A call's row of the table of python/arbiter."""
    begin = f'    "{call.name}": '
    lines = textwrap.wrap(" ".join(codes(call)), 100 - len(begin) - 5, break_on_hyphens=False)
    return begin + ("\n" + " " * len(begin)).join(
        f'{"f" if "{" in line else ""}"{line}{"" if line is lines[-1] else " "}"'
        for line in lines) + ","


def python_words() -> str:
    """The words of each call, for ctypes and for the pipe."""
    rows = {name: " ".join(map(code, each.words))
            for name, each in (("HOST", HOST), ("ROWS", ROWS))}
    return environment().get_template("words").render(
        source=SOURCE, rows=rows, lines=list(map(python_line, TABLE)),
        answers={call.name: CODES[call.answer] for call in TABLE if call.answer != U32})


def rust_type(word: CallWord) -> str:
    return U8 if word.type == CHAR else word.type


def pipe_read(word: CallWord) -> str:
    """The line of the pipe's program that reads a word."""
    what = "column" if word.is_column else "number"
    mutable = "" if word.way == READ else "mut "
    given = "alloc" if word.is_column else ""
    return f"let {mutable}{word.name} = words.{what}::<{rust_type(word)}>({given})?;"


def pipe_word(word: CallWord) -> str:
    """A word as the pipe's program gives it to a call."""
    if word.is_column:
        return f"{word.name}.as_{'' if word.way == READ else 'mut_'}slice()"
    return word.name if word.way == READ else f"&mut {word.name}"


def check_names(call: Call) -> None:
    """A fault where a word would hide what the pipe's program still needs: its input and memory,
    and behind the call the number that it answers."""
    for word in call.words:
        if word.name in PIPE_NAMES or word.name == PIPE_ANSWER and word.way != READ:
            raise ValueError(f"{call.name}: the pipe's program has a {word.name} of its own")


def pipe_call(call: Call) -> str:
    """The call in the pipe's program, laid out as `rt fmt` does."""
    check_names(call)
    given = ["alloc"] * call.allocates + list(map(pipe_word, call.words))
    name = f"arbiter_{call.name}"
    line = f"    let {PIPE_ANSWER} = {name}({', '.join(given)});"
    if len(", ".join(given)) <= 60 and len(line) <= PIPE_COLUMNS:
        return line
    return "\n".join([f"    let {PIPE_ANSWER} = {name}(", *(f"        {each}," for each in given),
                      "    );"])


def pipe_told(call: Call) -> str:
    """The answer of the pipe's program: the number of the call, and all that it wrote."""
    told = [f".column({word.name}.as_slice())" if word.is_column else f".number({word.name})"
            for word in call.words if word.way != READ]
    first = f"Answer::new(alloc, {PIPE_ANSWER})"
    if len(told) < 3 and len("?".join([first, *told])) < 90:
        return "    " + "?".join([first, *told])
    return "\n".join([f"    {first}?", *(f"        {each}?" for each in told[:-1]),
                      f"        {told[-1]}"])


def listed(words: Iterable[CallWord]) -> str:
    return ", ".join(f"`{word.name}`" for word in words)


def page_row(call: Call) -> str:
    """A call's row in the tables of EMBEDDING.md."""
    records = [name for part, name in ((HOST, "host"), (ROWS, "rows")) if part in call.parts]
    reads = [word for word in call.own if word.way != WRITTEN]
    writes = [word for word in call.own if word.way != READ]
    taken = ", ".join([*records, *([listed(reads)] if reads else [])])
    return f"| `arbiter_{call.name}` | {call.summary} | {taken} | {listed(writes)} |"


def page() -> str:
    """EMBEDDING.md with its tables of the calls, between two lines that stay."""
    text = PAGE.read_text(encoding="utf-8")
    above, _, rest = text.partition(f"{BEGIN}\n")
    below = rest.partition(f"{END}\n")[2]
    lines = []
    for title, calls in SECTIONS.items():
        lines += [f"**{title}**", "", "| Call | Answers | Reads | Writes |", "|---|---|---|---|",
                  *map(page_row, calls), ""]
    return f"{above}{BEGIN}\n" + "\n".join(lines) + f"{END}\n{below}"


def pipe_program() -> str:
    """The calls in the program of the pipe."""
    made = environment()
    made.filters |= {"pipe_read": pipe_read, "pipe_call": pipe_call, "pipe_told": pipe_told}
    return made.get_template("calls.rattle").render(source=SOURCE, calls=TABLE)


def as_bytes(word: CallWord) -> str:
    """A cast of characters to numbers."""
    return "(uint8_t *)" if word.type == CHAR else ""


def checked_sent(word: CallWord) -> str:
    """The line of the tests' library that sends a word to the checked build."""
    if not word.is_column:
        return f"put(' ', {'' if word.way == READ else '*'}{word.name});"
    return f"COLUMN({as_bytes(word)}{word.name}, {word.name}_length);"


def checked_told(word: CallWord) -> str:
    """The line that takes what the checked build wrote."""
    if word.is_column:
        return f"TOLD({as_bytes(word)}{word.name}, {word.name}_length);"
    return f"*{word.name} = ({C_TYPES[word.type]})get();"


def checked_calls() -> str:
    """The calls of the tests' library, which asks the checked build."""
    made = environment()
    made.filters |= {"sent": checked_sent, "told": checked_told, "answer": lambda call:
                     C_TYPES[call.answer], "head": lambda call: c_lines(call)[:-1]}
    return made.get_template("calls.h").render(source=SOURCE, calls=TABLE)


def files() -> dict[str, str]:
    """All files with their texts, by their places in the repository."""
    return {**{f"share/{name}": text for name, text in c_files().items()},
            "docs/EMBEDDING.md": page(),
            "python/arbiter/words.py": python_words(),
            "scripts/calls/calls.rattle": pipe_program(),
            "tests/checked/calls.h": checked_calls()}
