#!/usr/bin/env python3
"""Breaks each promise of SECURITY.md in a copy of this repository, and sees its tests refuse that.

usage: promises.py [--program PATH] [--library PATH] [--list] [WORD..]

tests/promises.txt has an edit beside each row of SECURITY.md. A block of it is lines:

  promise: the promise, as its row has it
  by: the test that refuses the edit, one that the row names; may be said again
  slow:                   it takes long, or needs more than `./test` has: run by this program alone
  file: PATH              what follows changes this file
  old: TEXT               a text that the file has exactly once, without space at its ends
  new: TEXT               the wrong text in its place; `\\n` is the end of a line
  program: LINE           the program under test is this line of sh; the right one is $TRUE
  call: NAME              the library's call of this name is that of the next line
  c: TEXT                 C, in which the right call has `true_` before its name

With WORDs the edits alone whose promise has one of them. An edit is refused if its test fails.
Without any edit the same tests have to pass, and to run: an edit tells nothing otherwise.
"""
import argparse
import re
import shutil
import subprocess
import sys
import tempfile
import time
from dataclasses import dataclass, field
from pathlib import Path

ROOT = Path(__file__).resolve().parent.parent
EDITS = ROOT / "tests/promises.txt"
# What a test reads of a clone.
COPIED = ("arbiter", "build", "test", "crates.txt", "HANDLES", "SECURITY.md", "README.md",
          "CHANGELOG.md", "bench", "docs", "examples", "independent", "python", "scheduler",
          "scripts", "share", "tests")
# What was made, and is made anew where it is older than its sources.
MADE = ("out/independent",)
FOLDERS = ("tests", "python/tests")
# Seconds that tests have, and those of a slow edit, for which a busy machine compiles.
SECONDS, SLOW_SECONDS = 900, 3600


@dataclass
class Edit:
    """A wrong text in place of a right one, and the tests that refuse it."""

    promise: str = ""
    by: list = field(default_factory=list)
    is_slow: bool = False
    # The changes: a file, the right text, and the wrong one.
    changes: list = field(default_factory=list)
    # What stands for the program and for a call of the library.
    program: str = ""
    call: str = ""
    code: str = ""

    @property
    def seconds(self):
        """The seconds that its tests have."""
        return SLOW_SECONDS if self.is_slow else SECONDS


def edits():
    """All edits of the list."""
    found = []
    for block in EDITS.read_text(encoding="utf-8").split("\n\n"):
        edit, file, old = Edit(), "", None
        for line in block.strip().split("\n"):
            word, colon, rest = line.partition(":")
            rest = rest.strip().replace("\\n", "\n")
            if line.startswith("#"):
                continue
            if word == "promise":
                edit.promise = rest
            elif word == "by":
                edit.by.append(rest)
            elif word == "slow":
                edit.is_slow = True
            elif word == "file":
                file, old = rest, None
            elif word == "old":
                old = rest
            elif word == "new":
                edit.changes.append((file, old, rest))
            elif word in ("program", "call"):
                setattr(edit, word, rest)
            elif word == "c":
                edit.code = rest
            else:
                raise SystemExit(f"{EDITS.name}: unknown line '{line}'")
        if edit.promise:
            found.append(edit)
    return found


def changed(top, edit):
    """The texts of the files that an edit changes below a folder, by their paths."""
    texts = {}
    for file, old, new in edit.changes:
        path = top / file
        text = texts.get(path) or path.read_text(encoding="utf-8")
        count = text.count(old)
        if count != 1:
            raise ValueError(f"{file} has '{old}' {count} times: {edit.promise}")
        texts[path] = text.replace(old, new)
    return texts


def copied(folder):
    """A copy of what tests read, without what was made."""
    ignored = shutil.ignore_patterns("__pycache__", ".mypy_cache", ".pytest_cache", "*.xz")
    for name in COPIED:
        source = ROOT / name
        if source.is_dir():
            shutil.copytree(source, folder / name, symlinks=True, ignore=ignored)
        else:
            shutil.copy2(source, folder / name)
    for name in filter(lambda each: (ROOT / each).is_dir(), MADE):
        shutil.copytree(ROOT / name, folder / name, symlinks=True)
    (folder / "crates").symlink_to(ROOT / "crates")
    return folder


def place_of(test, top):
    """A test by the path of its file."""
    file, _, name = test.partition("::")
    (path,) = [each for each in FOLDERS if (top / each / file).is_file()]
    return f"{path}/{file}::{name}"


def run(top, tests, program, library, seconds=SECONDS):
    """Status and output of tests of a copy."""
    words = ["/usr/bin/python3", "-m", "pytest", *(place_of(each, top) for each in tests), "-q",
             "-x", "-rs", "-p", "no:cacheprovider", "-p", "no:randomly", "--program",
             str(program), "--library", str(library)]
    try:
        ended = subprocess.run(words, cwd=top, capture_output=True, text=True, check=False,
                               stdin=subprocess.DEVNULL, timeout=seconds)
    except subprocess.TimeoutExpired:
        return 1, f"no end in {seconds} seconds"
    return ended.returncode, ended.stdout + ended.stderr


def skipped(output):
    """Why no test of a run could be tried on this machine; empty where one was."""
    reason = re.search(r"^SKIPPED \[\d+\] (.*)$", output, re.M)
    return reason[1] if reason and not re.search(r"^\d+ (passed|failed)", output, re.M) else ""


def other_program(made, edit, program):
    """A program that runs a line of sh with the right program in $TRUE."""
    made.mkdir(exist_ok=True)
    path = made / "program"
    path.write_text(f"#!/bin/sh\nTRUE={program}\n{edit.program}\n", encoding="utf-8")
    path.chmod(0o755)
    return path


def other_library(made, edit, library):
    """The library with another call in the place of one, shared and static."""
    made.mkdir(exist_ok=True)
    name, archive, shim = f"arbiter_{edit.call}", made / "libarbiter.a", made / "shim.c"
    shim.write_text(f'#include "{ROOT}/share/arbiter.h"\n#include <stdlib.h>\n'
                    f"__typeof__({name}) true_{name};\n{edit.code}\n", encoding="utf-8")
    for words in (
            ["objcopy", f"--redefine-sym={name}=true_{name}", library.with_suffix(".a"), archive],
            ["gcc", "-O1", "-fPIC", "-c", shim, "-o", made / "shim.o"],
            ["ar", "rs", archive, made / "shim.o"],
            ["gcc", "-shared", "-o", made / "libarbiter.so", "-Wl,--whole-archive", archive,
             "-Wl,--no-whole-archive", "-pthread"]):
        subprocess.run(words, check=True, capture_output=True, timeout=SECONDS)
    return made / "libarbiter.so"


def judged(top, edit, program, library):
    """Why an edit is not refused by each of its tests; empty if it is. The copy is as before."""
    texts = changed(top, edit)
    kept = {path: path.read_bytes() for path in texts}
    try:
        for path, text in texts.items():
            path.write_text(text, encoding="utf-8")
        made = top / "made"
        if edit.program:
            program = other_program(made, edit, program)
        if edit.call:
            library = other_library(made, edit, library)
        for test in edit.by:
            status, output = run(top, [test], program, library, edit.seconds)
            if status != 1 or " failed" not in output and "no end" not in output:
                return f"{test} ends with {status}: {output.strip()[-300:]}"
    finally:
        for path, data in kept.items():
            path.write_bytes(data)
    return ""


def main():
    from support import LIBRARY, PROGRAM
    parser = argparse.ArgumentParser(description=__doc__.partition("\n")[0])
    parser.add_argument("--program", default=PROGRAM, type=Path)
    parser.add_argument("--library", default=LIBRARY, type=Path)
    parser.add_argument("--list", action="store_true", help="print the edits, and try none")
    parser.add_argument("words", nargs="*", metavar="WORD")
    options = parser.parse_args()
    chosen = [each for each in edits()
              if not options.words or any(word in each.promise for word in options.words)]
    refused = 0
    with tempfile.TemporaryDirectory() as folder:
        top = copied(Path(folder))
        for edit in chosen:
            if options.list:
                print(edit.promise, *edit.by, *map(str, edit.changes), edit.program, edit.code,
                      sep="\n  ")
                continue
            began = time.monotonic()
            status, output = run(top, edit.by, options.program.resolve(),
                                 options.library.resolve(), edit.seconds)
            why = f"fails without it: {output.strip()[-300:]}" if status else skipped(
                output) or judged(top, edit, options.program.resolve(), options.library.resolve())
            refused += not why
            seconds = time.monotonic() - began
            print(f"{'NOT REFUSED' if why else 'refused'} in {seconds:.1f} s: {edit.promise}"
                  f" ({', '.join(edit.by)}){': ' * bool(why)}{why}", flush=True)
    if not options.list:
        print(f"{refused} of {len(chosen)} edits are refused")
        sys.exit(refused != len(chosen))


if __name__ == "__main__":
    main()
