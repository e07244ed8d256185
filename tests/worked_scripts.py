"""Reads the scripts of tests/worked, in which the answer to each line stands below it.

The answers are worked out from the definitions by hand. In such a file

    == NAME          begins a script, on a host of one processor with 20 slices of 5000 microseconds
    == NAME: WORDS   begins a script for `arbiter run WORDS`
    + LINE           is a line that answers `ok`
    > LINE           is a line whose answer stands below it
    +N or >N LINE    is that line N times
    +b or >b LINE    is a line with Python's escapes for bytes
    # ..             is a remark
"""
import re
from pathlib import Path

from support import ROOT

LINE = re.compile(r"([>+])(\d*)(b?)(?: (.*))?\Z")


class Script:
    """A script: its file, its name, the words after `run`, and its lines with their answers."""

    def __init__(self, file: str, name: str, words: list):
        self.file, self.name, self.words = file, name, words
        self.lines = []
        self.last = 0

    def id(self) -> str:
        return f"{self.file}, {self.name}"

    def add_line(self, mark: str, times: str, escaped: str, text: str) -> None:
        text = text or ""
        line = text.encode()
        if escaped:
            line = line.decode("unicode_escape").encode("latin-1")
        self.last = int(times or 1)
        self.lines += [[line, b"ok\n" if mark == "+" else b""] for _ in range(self.last)]

    def add_answer(self, text: str) -> None:
        for line in self.lines[len(self.lines) - self.last:]:
            line[1] += text.encode() + b"\n"


def scripts_in(path: Path) -> list:
    """The scripts of one file."""
    scripts = []
    for text in path.read_text(encoding="utf-8").split("\n"):
        line = LINE.match(text)
        if text.startswith("== "):
            name, _, words = text[3:].partition(": ")
            scripts.append(Script(path.name, name, words.split()))
        elif line:
            scripts[-1].add_line(*line.groups())
        elif text and not text.startswith("#"):
            scripts[-1].add_answer(text)
    return scripts


def all_scripts() -> list:
    """The scripts of all files."""
    paths = sorted((ROOT / "tests/worked").glob("*.txt"))
    return [script for path in paths for script in scripts_in(path)]
