#!/usr/bin/env python3
"""Puts wrong bodies into a scratch clone, one at a time, and sees each refused.

usage: wrong_bodies.py CLONE [NAME..]     tries all bodies of tests/wrong_bodies, or those named

CLONE is made from this repository if it does not exist. What is proved in it is kept for the next
body. A body is a file of lines:

  what: the wrong body in a sentence
  by: the test that refuses it. A body that a clause refuses is an edit in must-fail/ of its crate
  try: CRATE              `rt try --test` in crates/CRATE has to fail, or
  tests: FILE..           the body is proved, and after `./build` a test of these files of tests/
                          has to fail, or
  run: WORDS..            the program, built with checks and not proved, is given the words and the
                          lines that follow
  in: LINE                a line of its standard input
  says: TEXT              a line that it prints with the body, and not without it
  file: PATH              what follows changes this file
  old: TEXT               a text that the file has exactly once, without space at its ends
  new: TEXT               the wrong body, in its place
  neutral: TEXT           a right body in the same place, which has to be proved or to pass; this
                          line can be left out

A body costs from ten seconds to two minutes, one with a build some minutes. ./test does not run it.
"""
import argparse
import os
import signal
import subprocess
import sys
from dataclasses import dataclass
from pathlib import Path
from typing import Optional

HERE = Path(__file__).resolve().parent
BODIES = HERE / "wrong_bodies"
# Time limit of a command, in seconds. On a busy machine a build of all crates takes most of an
# hour.
SECONDS = 5400
# The status of a command that judged nothing.
NO_VERDICT = 2
# Words that begin the lines of a first open goal or of a failed test.
MARKS = ("did not prove", "not proved that", "FAILED", "failed", "error", "goal")


@dataclass
class Edit:
    """One change of a file."""

    file: str
    old: str
    new: str = ""
    neutral: Optional[str] = None


class Body:
    """A wrong body, as its file describes it."""

    def __init__(self, path: Path):
        self.name = path.stem
        self.what = self.by = self.kind = self.says = ""
        self.words, self.lines, self.edits = [], [], []
        file = ""
        for line in path.read_text(encoding="utf-8").splitlines():
            word, _, rest = line.partition(":")
            rest = rest.strip()
            if word in ("what", "by", "says"):
                setattr(self, word, rest)
            elif word in ("try", "tests", "run"):
                self.kind, self.words = word, rest.split()
            elif word == "in":
                self.lines.append(rest)
            elif word == "file":
                file = rest
            elif word == "old":
                self.edits.append(Edit(file, rest))
            elif word in ("new", "neutral"):
                setattr(self.edits[-1], word, rest)
            elif line.strip():
                raise SystemExit(f"{path.name}: unknown line '{line}'")
        if not (self.kind and self.edits):
            raise SystemExit(f"{path.name}: no command or no change")

    def has_neutral(self) -> bool:
        """Whether a right body is tried, too. A run is compared with one of the right program."""
        return self.kind == "run" or any(edit.neutral is not None for edit in self.edits)


def missing(clone: Path, body: Body) -> list:
    """The crates and files of tests that the body's command names and that are not there."""
    folder = {"try": "crates", "tests": "tests"}.get(body.kind)
    return [word for word in body.words if folder and not (clone / folder / word).exists()]


def changed_files(clone: Path, body: Body, kind: str) -> dict:
    """The texts of the body's files with its changes, `new` or `neutral` ones, by their paths."""
    texts = {}
    for edit in body.edits:
        path = clone / edit.file
        text = texts.get(path) or path.read_text(encoding="utf-8")
        count = text.count(edit.old)
        if count != 1:
            raise SystemExit(f"{body.name}: {edit.file} has '{edit.old}' {count} times")
        change = getattr(edit, kind)
        texts[path] = text.replace(edit.old, edit.old if change is None else change)
    return texts


def command_of(body: Body):
    """The command of a body, and the folder in which it runs."""
    if body.kind == "try":
        return ["rt", "try", "--test"], f"crates/{body.words[0]}"
    if body.kind == "run":
        return ["rt", "try", "--", *body.words], "crates/arbiter"
    files = " ".join(f"tests/{file}" for file in body.words)
    pytest = f"/usr/bin/python3 -m pytest -q {files}"
    return ["bash", "-c", f"./build || exit {NO_VERDICT}; {pytest}"], "."


def run(clone: Path, body: Body):
    """The status of the body's command, and its output. 0: nothing was refused."""
    command, folder = command_of(body)
    lines = "".join(f"{line}\n" for line in body.lines).encode()
    # in a process group of its own, so that what it started ends with it
    options = {"stdin": subprocess.PIPE, "stdout": subprocess.PIPE, "stderr": subprocess.STDOUT,
               "cwd": clone / folder, "start_new_session": True}
    with subprocess.Popen(command, **options) as process:
        try:
            output = process.communicate(lines, timeout=SECONDS)[0].decode(errors="replace")
        except subprocess.TimeoutExpired:
            os.killpg(process.pid, signal.SIGKILL)
            process.communicate()
            return NO_VERDICT, f"error: no end in {SECONDS} seconds"
    if body.kind == "run":
        if "checked: ended" not in output:
            return NO_VERDICT, output
        return int(body.says in output.splitlines()), output
    return process.returncode, output


def run_changed(clone: Path, body: Body, kind: str):
    """Runs the body's command on its changed files, and puts the files back."""
    texts = changed_files(clone, body, kind)
    kept = {path: path.read_text(encoding="utf-8") for path in texts}
    try:
        for path, text in texts.items():
            path.write_text(text, encoding="utf-8")
        return run(clone, body)
    finally:
        for path, text in kept.items():
            path.write_text(text, encoding="utf-8")


def is_refused(body: Body, status: int) -> bool:
    """Whether the status says that the body is refused."""
    # tests of a crate that fail can end in other ways than with 1
    return status not in (0, NO_VERDICT) if body.kind == "try" else status == 1


def first_goal(output: str) -> str:
    """The line of the output that says most of the reason."""
    # the lines of what macros write name `thiserror`
    lines = [line.strip() for line in output.splitlines() if not line.startswith("by-macro:")]
    return next((line[:150] for mark in MARKS for line in lines if mark in line), "")


def judge(clone: Path, body: Body, neutral_runs: dict):
    """Whether a body is refused and a right one in its place is not, the status, and a remark."""
    status, output = run_changed(clone, body, "new")
    refused, remark = is_refused(body, status), first_goal(output)
    if refused and body.has_neutral():
        # several bodies are compared with one run of the unchanged program
        key = (*body.words, *body.lines, body.says) if body.kind == "run" else body.name
        if key not in neutral_runs:
            neutral_runs[key] = run_changed(clone, body, "neutral")
        neutral, output = neutral_runs[key]
        if neutral != 0:
            reason = first_goal(output)
            return False, status, f"a neutral body is refused too ({neutral}): {reason}"
    return refused, status, remark


def main():
    parser = argparse.ArgumentParser(description=__doc__.partition("\n")[0])
    parser.add_argument("clone", metavar="CLONE", type=Path, help="scratch clone, made if needed")
    parser.add_argument("names", metavar="NAME", nargs="*", help="body of tests/wrong_bodies")
    options = parser.parse_args()
    clone = options.clone.resolve()
    if not clone.exists():
        subprocess.run(["git", "clone", "-q", str(HERE.parent), str(clone)], check=True)
    named = [BODIES / f"{name}.body" for name in options.names]
    passed = failed = 0
    neutral_runs = {}
    for path in named or sorted(BODIES.glob("*.body")):
        body = Body(path)
        right, status, remark = judge(clone, body, neutral_runs)
        passed, failed = passed + right, failed + (not right)
        verdict = f"{'ok' if right else 'FAILED'}: {body.name}: {body.what}"
        print(f"{verdict}: status {status}, by {body.by}: {remark}", flush=True)
    print(f"{passed} passed, {failed} failed")
    sys.exit(failed > 0)


if __name__ == "__main__":
    main()
