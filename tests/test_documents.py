"""The documents for users, held to the program.

Each block of a page that is run prints what stands below it. The table of numbers has the names
that the code has, and each number is met as the table says.

`--write` puts the program's answers into the pages, to be read and checked by hand.
"""
import os
import re
import sys

import pytest

import pages
from pages import PAGES
from support import ROOT, run, same

# A variable that is not set on ordinary hosts.
BARE_TMPDIR = re.compile(r"\$(TMPDIR|\{TMPDIR\})")


def pytest_generate_tests(metafunc):
    """The blocks of the pages."""
    if "block" in metafunc.fixturenames:
        blocks = [block for page in PAGES for block in pages.blocks(page)]
        metafunc.parametrize("block", blocks, ids=[block.id() for block in blocks])


@pytest.mark.parametrize("page", PAGES)
def test_page_has_something_to_run(page):
    assert pages.blocks(page)


@pytest.fixture
def top(scratch, program):
    """A folder with all that is in the top folder, in which `./arbiter` is the program under test.

    What a command writes there is thrown away.
    """
    folder = scratch / "top"
    folder.mkdir()
    for path in ROOT.iterdir():
        if path.name not in (".git", "arbiter"):
            (folder / path.name).symlink_to(path)
    (folder / "arbiter").symlink_to(program.path)
    return folder


def output_of(block, program, top, library):
    """What the program prints for a block, in an environment of PATH and HOME."""
    environment = {"PATH": os.environ["PATH"], "HOME": str(top.parent)}
    if block.kind == "script":
        words, given = [program.path, "run", *block.words.split()], block.text.encode()
    elif block.kind == "certified":
        words, given = [program.path, "check"], block.text.encode()
    else:
        assert not BARE_TMPDIR.search(block.text), "TMPDIR is not set on ordinary hosts"
        # the tools take what is under test from these variables
        environment.update(ARBITER=program.path, ARBITER_LIBRARY=str(library))
        interpreter = ["bash"] if block.kind == "command" else [sys.executable]
        words, given = [*interpreter, "-c", block.text], b""
    ended = run(words, given, cwd=top, env=environment)
    assert ended.status in ((0, 3) if block.kind == "certified" else (0,)), ended.err
    same(ended.err, b"", "standard error")
    return ended.out.decode()


@pytest.fixture(scope="module")
def written(request):
    """Blocks with other answers than those of the pages. They are written into these if asked."""
    results = []
    yield results
    if request.config.getoption("write"):
        pages.write_answers(results)


def test_block(block, program, top, library, written, request):
    if request.config.getoption("checked") and "ulimit -v" in block.text:
        pytest.skip("the checked build takes more memory")
    printed = output_of(block, program, top, library)
    if printed != block.answer:
        written.append((block, printed))
    same(printed.split("\n"), block.answer.split("\n"))


def test_numbers_have_the_names_of_the_code():
    """Both ways, each number once, in order, with all its cells."""
    rows, code = pages.table_rows(), pages.code_names()
    same(sorted({row[:2] for row in rows}), sorted(code))
    assert len(code) >= 40
    for row in rows:
        assert len(row) == 5 and all(row[2:]), f"cells of {row[0]} {row[1]}"
    numbers = [row[0] for row in rows]
    same(numbers, sorted(set(numbers)))


TWO = "bw 1 1 100000 5000 3\n- 100 max 0 20 1 13/100@0\n0 100 max 20 7 0 -\n0 200 max 20 13 0 -\n"
POD = "bw 1 1 100000 5000 5\n- 100 max 0 20 1 19/100@1\n0 100 10 0 10 1 15/300@1\n"
POD += "1 100 max 20 2 0 -\n1 300 max 20 8 0 -\n0 100 max 20 10 0 -\n"
CHAIN = "".join(f"mkdir {'/'.join('a' * depth)}\n" for depth in range(1, 66))
DEEP = "bw 1 1 100000 5000 66\n- 100 max 0 0 0 -\n"
DEEP += "".join(f"{row} 100 max 0 0 0 -\n" for row in range(65))
FULL = "".join(f"mkdir g{number}\n" for number in range(16384))

# How each number is met: by a script that ends with it, a text, or options. `A` makes a group.
A = "mkdir a\n"
MET = [
    *((number, "host", words) for number, words in ((1, "--processors 0"), (2, "--period 999"), (3, "--slice 3000"))),
    *((number, "run", text) for number, text in (
        (7, CHAIN), (8, f"{A}mkdir a/b\ndemand a 1"), (9, f"{A}demand a 1000001"), (11, f"{A}demand a 007"), (11, f"{A}write a cpu.weight max"),
        (12, f"{A}write a cpu.weight 10001"), (13, f"{A}write a cpu.max 999"), (14, f"{A}write a cpu.max 1000000000000001"),
        (14, f"{A}write a cpu.max.burst 1000000000000001"), (15, f"{A}write a cpu.max max 999"), (16, f"{A}write a cpu.max 1 2 3"),
        (16, f"{A}write a cpu.max.burst 1 2"), (17, f"{A}write a cpu.max"), (20, "rmdir a"), (20, "mkdir a/b"), (20, "mkdir /a"), (21, A + A),
        (22, f"{A}mkdir a/"), (22, f"{A}mkdir a/.."), (22, f"mkdir {'x' * 256}"), (22, "mkdir a\0b"), (23, f"{A}mkdir a/b\nrmdir a"),
        (24, f"{A}demand a 1\nrmdir a"), (25, f"{A}demand a 1\nmkdir a/b"), (26, "rmdir ."), (26, "demand . 0"), (27, FULL),
        (30, "read . cpu.max"), (30, f"{A}read a cpu.idle"), (31, f"{A}write a cpu.stat 1"),
        (33, f"{A}write a cpu.max 50000\nwrite a cpu.max.burst 50001"), (33, f"{A}write a cpu.max.burst 60000\nwrite a cpu.max 50000"),
        (80, "frob"), (80, "plan\r"), (80, "mkdir a b"), (81, "mkdir \udcff"), (82, "#" + "x" * 65536))),
    *((number, "check", text) for number, text in (
        (1, TWO.replace("1 1 100000", "1 65 100000")), (2, TWO.replace("100000", "1000001")),
        (3, TWO.replace("5000", "3000")), (4, "bw 1 1 100000 5000 16385\n"),
        (5, "bw 1 1 100000 5000 0\n"),
        (5, TWO.replace("0 200", "2 200")), (6, TWO.replace(" 200 ", " 0 ")), (7, DEEP), (8, TWO.replace("max 0 20", "max 1 20")),
        (9, TWO.replace("max 20 7", "max 1000001 7")), (10, TWO.replace("- 100 max", "- 100 20")), (40, TWO.replace("0 100", "0  100")),
        (41, TWO.replace(" 200 ", " 0200 ")), (42, TWO[:-1]), (42, ""), (43, TWO + "x"), (51, TWO.replace("0 20 1", "0 21 1").replace("13 0", "14 0")),
        (52, TWO.replace("20 7", "6 7")), (53, TWO.replace("13 0", "12 0")), (54, TWO.replace("7 0", "7 1")),
        (55, TWO.replace("0 20 1", "0 19 1").replace("7 0", "6 0")), (56, TWO.replace("13/100@0", "-")),
        (57, TWO.replace("7 0", "6 0").replace("13 0", "14 0")), (58, POD))),
]
# Refused threads, refused memory and 2^64 groups are not met here.
NOT_MET = {28: {"run"}, 70: {"run"}, 71: {"run"}}


@pytest.mark.parametrize("number, kind, text", MET,
                         ids=[f"{row[0]} by {row[1]}, {at}" for at, row in enumerate(MET)])
def test_number_is_met(program, number, kind, text):
    """The program prints a number in its last line, or on standard error if the host is refused."""
    if kind == "host":
        assert f"error {number} " in program.run(["run", *text.split()]).err.decode()
        return
    lines = program.run([kind], text.encode(errors="surrogateescape")).out.decode().split("\n")
    line = lines[-2] if len(lines) > 1 else ""
    assert re.match(rf"(error|refused) {number} ", line), line


def test_numbers_are_met_by_what_the_table_says():
    by = {number: set(kinds) for number, kinds in NOT_MET.items()}
    for number, kind, _ in MET:
        by.setdefault(number, set()).add(kind)
    for row in pages.table_rows():
        same(set(row[2].split(", ")), by.get(row[0], {"crates"}), f"{row[0]} {row[1]}")


@pytest.mark.parametrize("page", PAGES)
def test_numbers_on_page(page):
    """A number that a page names has the name that the table gives it."""
    names = {row[0]: row[1] for row in pages.table_rows()}
    text = (pages.DOCS / page).read_text(encoding="utf-8")
    for number, name in re.findall(r"\b(\d+) ([A-Z][a-z]+(?:[A-Z][a-z]+)+)\b", text):
        if name in names.values():
            same(names.get(int(number)), name, f"the name of {number}")


@pytest.mark.parametrize("page", PAGES)
def test_links_of_page(page):
    """Each file that a page points to is there."""
    for target in re.findall(r"\]\(([^)#]+)\)", (pages.DOCS / page).read_text(encoding="utf-8")):
        if "://" not in target:
            assert (pages.DOCS / target).exists(), target


def test_headline_is_quoted():
    """PROVED names the clause of the headline, whose record has a field for each phrase of it."""
    text = (pages.DOCS / "PROVED.md").read_text(encoding="utf-8")
    quoted = re.search(r"^## The headline\n\n((?:> .*\n)+)", text, re.M).group(1)
    record = (ROOT / "crates/bw_workers/specs/Headline.antt").read_text(encoding="utf-8")
    said = " ".join(re.findall(r"^ *-- (.*)$", record[record.index("pub record Headline"):], re.M))
    phrases = ["serves as many slices", "as any allocation within demands, limits and processors can",
               "shown by limiting groups", "has the least cost of all splits of that amount",
               "shown by no gainful one-slice move", "in every interleaving of draws the history is one thread's",
               "in ticket order", "each caller's calls once", "no group past its plan"]
    for phrase in phrases:
        assert phrase in quoted and phrase in said, phrase
    assert "`bw_workers/serving.rt:serve.headline`" in text


def test_public_constants_are_stated(monkeypatch):
    """A law of its crate or of one above states each number that one of these exports or defines by.

    The definitions read these numbers from the code, so they cannot tell a wrong one.
    """
    monkeypatch.syspath_prepend(ROOT / "scripts")
    monkeypatch.chdir(ROOT)
    from crates import crates, with_all_below
    sources = {name: [path.read_text(encoding="utf-8")
                      for path in (ROOT / "crates" / name / "src").rglob("*.rt")]
               for name in crates()}
    laws = {name: set(re.findall(r"ensures (?:\w+ )?\{ ([A-Z]\w+) ≡ ", "\n".join(texts)))
            for name, texts in sources.items()}
    for name, texts in sources.items():
        own = set(re.findall(r"^pub const ([A-Z]\w+): u", "\n".join(texts), re.M))
        higher = [each for each in crates() if name in with_all_below(each)]
        above, cited = (set.union(*(of(each) for each in higher))
                        for of in (laws.__getitem__, constants_of))
        same(sorted((own & cited) - above), [], f"constants of {name} without a law")


def constants_of(name):
    """Constants that a crate exports, or that its definitions name."""
    folder, found = ROOT / "crates" / name, set()
    for path in (folder / "src").glob("lib.rt"):
        for used in re.findall(r"^pub use [^;]+;", path.read_text(encoding="utf-8"), re.M):
            found |= set(re.findall(r"\b[A-Z][A-Z0-9_]+\b", used))
    for path in (folder / "specs").rglob("*.antt"):
        code = re.sub(r"--.*", "", path.read_text(encoding="utf-8"))
        found |= set(re.findall(r"\b[A-Z][A-Z0-9_]+\b", code))
    return found
