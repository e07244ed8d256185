"""Each promise of SECURITY.md is one line, and has tests that are there."""
import ast
import re
import shutil
import subprocess

import pytest

from support import ROOT, same
from test_pages import sentences, text_of

HEAD = ["| Promised | Shown by |", "|---|---|"]
# What else a section may have: each paragraph begins with one of these.
BESIDE = ("Not promised", "Proved:", "Tried:")
NO_PROMISES = "How to report"
FOLDERS = ("tests", "python/tests")


def sections(text):
    """The headings of a page with their blocks of lines."""
    for part in text.split("\n## ")[1:]:
        heading, _, body = part.partition("\n")
        yield heading, [block.split("\n") for block in body.strip().split("\n\n")]


def functions_of(name):
    """The functions of a file of tests, which is in one of the folders."""
    (path,) = [ROOT / folder / name for folder in FOLDERS if (ROOT / folder / name).is_file()]
    body = ast.parse(path.read_text(encoding="utf-8")).body
    return {each.name for each in body if isinstance(each, ast.FunctionDef)}


def is_there(shown):
    """Whether a name in backquotes is that of a test, behind its file."""
    found = re.fullmatch(r"`(test_\w+\.py)::(test_\w+)`", shown)
    files = found and [each for each in FOLDERS if (ROOT / each / found[1]).is_file()]
    return bool(files) and found[2] in functions_of(found[1])


def wrong(text):
    """What stands in a page of promises that is no promise with its tests."""
    found = []
    for heading, blocks in sections(text):
        if heading == NO_PROMISES:
            continue
        if blocks[0][:2] != HEAD or len(blocks[0]) < 3:
            found.append(f"{heading}: no promise")
            continue
        for row in blocks[0][2:]:
            promise, *shown = [cell.strip() for cell in row.strip("|").split("|")]
            if len(sentences(promise)) != 1 or not promise.endswith("."):
                found.append(f"not one sentence: {promise}")
            found += [f"{promise}: no test {each}" for each in "".join(shown).split(", ")
                      if not is_there(each)]
        # (the points of a list belong to the paragraph above)
        found += [f"{heading}: {block[0]}" for block in blocks[1:]
                  if not block[0].startswith((*BESIDE, "- "))]
    return found


def test_each_promise_has_a_test():
    text = text_of("SECURITY.md")
    same(wrong(text), [], "promises without a test")
    assert text.count("` |\n") > 35


ROW = "| A promise. | `test_security.py::test_each_promise_has_a_test` |"


@pytest.mark.parametrize("block", [
    "A promise in words.", "\n".join(HEAD), "\n".join([*HEAD, ROW.replace("A promise.", "A. Two.")]),
    "\n".join([*HEAD, "| A promise. | |"]), "\n".join([*HEAD, "| A promise. |"]),
    "\n".join([*HEAD, ROW.replace("test_each", "test_no")]),
    "\n".join([*HEAD, ROW.replace("_security", "_nowhere")]),
    "\n".join([*HEAD, ROW, "", "One more promise."])])
def test_a_promise_without_a_test_is_found(block):
    page = "# A page\n\n## {}\n\n{}\n"
    same(len(wrong(page.format("A user", block))), 1, block)
    same(wrong(page.format(NO_PROMISES, "Words.")), [], "no promises")
    same(wrong(page.format("A user", "\n".join([*HEAD, ROW, "", "Not promised:", "", "- x"]))), [],
         "a promise with its test")


# Calls that open a file or a socket, as strace has them.
OPENED = re.compile(r'(openat|open|creat|socket|connect|bind|listen)\((?:AT_FDCWD, )?"?([^",)]*)')
LOADED = re.compile(r"/etc/ld\.so\.\w+|/(?:usr/)?lib/[\w./-]*libc\.so\.6")
COUNTED = {"/sys/devices/system/cpu/online", "/sys/fs/cgroup/cpu.max"}


@pytest.mark.parametrize("words, given", [
    (["run"], b"mkdir a\ndemand a 9\nmkdir b\ndemand b 9\nperiod\ntotal\nperiod\n"),
    (["check"], b"bw 1 1 100000 5000 1\n- 100 max 0 0 0 -\n"), (["--help"], b""), (["x"], b"")],
    ids=["run", "check", "help", "no command"])
def test_what_the_program_opens(program, tmp_path, words, given):
    """The loader's files, and two that tell the number of processors."""
    if not shutil.which("strace"):
        pytest.skip("no strace")
    calls = tmp_path / "calls"
    subprocess.run(["strace", "-f", "-e", "trace=%file,%network", "-o", calls, program.path,
                    *words],
                   input=given, stdout=subprocess.DEVNULL, stderr=subprocess.DEVNULL, check=False,
                   timeout=60, env={})
    found = [each.groups() for each in map(OPENED.search, calls.read_text().split("\n")) if each]
    same({call for call, _ in found}, {"openat"}, "calls")
    files = {path for _, path in found if not LOADED.fullmatch(path)}
    same(files, COUNTED if words == ["run"] else set(), "files")
