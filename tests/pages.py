"""Reads the pages of docs/: blocks that are run, and the table of numbers.

A fenced block that begins with one of these words is run, and the block `answer` behind it is what
it prints:

    script OPTIONS   the lines of a script, for `arbiter run OPTIONS`
    certified        a certified text, for `arbiter check`
    command          lines for bash, in a folder with everything that is in the top folder
    python           a program for python3, in the same folder
"""
import re
from dataclasses import dataclass
from pathlib import Path
from typing import Optional

from support import ROOT

DOCS = ROOT / "docs"
FENCE = re.compile(r"^```(\S*) ?(.*)$")
KINDS = ("script", "certified", "command", "python")
# Pages that have to have something to run.
PAGES = ("USING.md", "EMBEDDING.md", "TOOLS.md", "LINUX.md")
# test_library.py runs its examples that have files, up to their answers.
EMBEDDING = "EMBEDDING.md"
FILES = ("c",)


@dataclass
class Block:
    """A block to run, and the answer that the page gives."""

    page: str
    line: int
    kind: str
    words: str
    text: str
    answer: str = ""
    # first and last line of the answer's block
    place: Optional[tuple] = None

    def id(self) -> str:
        return f"{self.page}:{self.line}"


def fences(page: str):
    """Each fenced block of a page: the line and words of its head, its text, and its last line."""
    lines = (DOCS / page).read_text(encoding="utf-8").split("\n")
    head = None
    for number, line in enumerate(lines, 1):
        found = FENCE.match(line)
        if found and head is None:
            head = (number, found.group(1), found.group(2))
        elif found:
            text = "".join(f"{inner}\n" for inner in lines[head[0]:number - 1])
            yield (*head, text, number)
            head = None
    if head is not None:
        raise ValueError(f"docs/{page}:{head[0]}: this block does not end")


def blocks(page: str) -> list:
    """The blocks of a page that are run, each with its answer."""
    waiting, found, is_example = None, [], False
    for number, kind, words, text, end in fences(page):
        if page == EMBEDDING and (is_example or kind in FILES or kind == "python" and words):
            is_example = kind != "answer"
        elif waiting and kind != "answer" and kind != "":
            raise ValueError(f"docs/{waiting.id()}: no answer follows")
        elif kind in KINDS:
            waiting = Block(page, number, kind, words, text)
        elif kind == "answer":
            if not waiting:
                raise ValueError(f"docs/{page}:{number}: an answer to nothing")
            waiting.answer, waiting.place = text, (number, end)
            found.append(waiting)
            waiting = None
        elif kind != "":
            raise ValueError(f"docs/{page}:{number}: unknown kind of block: {kind}")
    if waiting:
        raise ValueError(f"docs/{waiting.id()}: no answer follows")
    return found


def write_answers(results) -> None:
    """Puts what was printed into the pages: pairs of a block and its output."""
    for page in {block.page for block, _ in results}:
        path = DOCS / page
        lines = path.read_text(encoding="utf-8").split("\n")
        of_page = [(block, printed) for block, printed in results if block.page == page]
        # from the last one on, so that the lines of the others stay where they are
        for block, printed in sorted(of_page, key=lambda row: -row[0].place[0]):
            first, last = block.place
            lines[first:last - 1] = printed.split("\n")[:-1]
        path.write_text("\n".join(lines), encoding="utf-8")


# Numbers and their names

NUMBERED = re.compile(r"pub fn (number|name)\(&?self\)[^{]*?\n(.*?)\n    }\n", re.S)
ARM = re.compile(r'::(\w+)(?:\(.*?\))? => (?:"(\w+)"|(\d+)),')
ALONE = re.compile(r'^        (?:"(\w+)"|(\d+))$', re.M)
# One has numbers of faults of other crates, which have their names. The other has those of reasons,
# which are no faults.
WITHOUT_NAMES = (ROOT / "crates/bw_columns/src/refusal.rt", ROOT / "crates/bw_owned/src/release.rt")


def names_in(path: Path) -> set:
    """The pairs of a number and a name that one file of the code gives."""
    found = {"number": {}, "name": {}}
    for call, body in NUMBERED.findall(path.read_text(encoding="utf-8")):
        for variant, name, number in ARM.findall(body):
            found[call].setdefault(variant, set()).add(name or int(number))
        for name, number in ALONE.findall(body):
            found[call].setdefault("", set()).add(name or int(number))
    if set(found["number"]) != set(found["name"]):
        numbers, names = sorted(found["number"]), sorted(found["name"])
        raise ValueError(f"{path}: numbers of {numbers}, names of {names}")
    return {(number, *found["name"][variant])
            for variant, numbers in found["number"].items() for number in numbers}


def code_names() -> set:
    """The pairs of a number and a name that the code gives."""
    paths = sorted(ROOT.glob("crates/*/src/**/*.rt"))
    return {pair for path in paths if path not in WITHOUT_NAMES for pair in names_in(path)}


def table_rows() -> list:
    """The rows of the table of numbers: (number, name, by, when, what to do)."""
    rows = []
    for line in (DOCS / "USING.md").read_text(encoding="utf-8").splitlines():
        cells = [cell.strip() for cell in line.strip().strip("|").split("|")]
        if re.fullmatch(r"\d+", cells[0]) and line.startswith("|") and len(cells) > 3:
            rows.append((int(cells[0]), *cells[1:]))
    return rows
