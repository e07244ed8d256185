"""The C library under attack: sanitizers, memory between guard pages, threads, libFuzzer.

    ./test --fuzz SECONDS     fuzzes longer, and nothing else

What a fuzzer finds is printed as hexadecimal digits: a line of tests/attack/KIND.corpus, which each
run begins with.
"""
import re
import shutil
import subprocess
import sys
from pathlib import Path

import pytest

from support import ROOT

ATTACK = ROOT / "tests/attack"
CLANG = "clang-14"
WORDS = ["-std=c11", "-Wall", "-Wextra", "-Wpedantic", "-Werror", "-O1", "-g",
         "-fsanitize=address,undefined", "-fno-sanitize-recover=undefined"]
# The allocator of the library under attack: see tests/attack/guard.h.
GUARDED = ("malloc", "realloc", "free")
THREAD_SECONDS = 2
# Inputs in ten seconds that show that a fuzzer ran, on a machine with other work.
LEAST_RUNS = 1000
KINDS = ("text", "columns")


@pytest.fixture(scope="module")
def built(library, tmp_path_factory):
    """A function that builds a program of tests/attack over the static library."""
    for tool in (CLANG, "objcopy"):
        if not shutil.which(tool):
            pytest.skip(f"no {tool}")
    folder = tmp_path_factory.mktemp("attack")
    archive = library.with_suffix(".a")
    guarded = folder / "libguarded.a"
    renamed = [f"--redefine-sym={call}=guarded_{call}" for call in GUARDED]
    subprocess.run(["objcopy", *renamed, archive, guarded], check=True)

    def build(name, *words):
        behind = [archive, "-pthread"] if name == "threads" else [ATTACK / "guard.c", guarded]
        made = subprocess.run([CLANG, *WORDS, *words, ATTACK / f"{name}.c", *behind, "-o",
                               folder / name], capture_output=True, text=True, check=False)
        if "libclang_rt" in made.stderr:
            pytest.skip("no libclang-rt-14-dev")
        assert (made.returncode, made.stderr) == (0, "")
        return folder / name

    return build


def ended(*words, seconds=120):
    """What a program prints that ends with 0 in time."""
    run = subprocess.run([*map(str, words)], capture_output=True, text=True, check=False,
                         timeout=seconds)
    assert run.returncode == 0, run.stderr[-4000:]
    return run.stdout + run.stderr


def test_each_call_is_attacked():
    """At its extremes, and those that ask for memory by a fuzzer and by sixteen threads too."""
    header = (ROOT / "share/arbiter.h").read_text(encoding="ascii")
    calls = set(re.findall(r"^uint(?:32|64)_t (arbiter_\w+)\(", header, re.M))
    some = re.search(r"\n \* (arbiter_[\w, \n*]+?) ask for no\b", header).group(1)
    plain = set(re.findall(r"arbiter_\w+", some))
    assert len(calls) > 19 and plain < calls
    for names, wanted in ((["extremes"], calls), (["threads"], calls - plain),
                          (["fuzz_text", "fuzz_columns"], calls - plain)):
        text = "".join((ATTACK / f"{name}.c").read_text(encoding="ascii") for name in names)
        assert [each for each in sorted(wanted) if f"{each}(" not in text] == [], names


def test_guard_pages_end_a_program(built, tmp_path):
    """One byte before or behind a block, and of a block of none, ends the process."""
    (tmp_path / "touch.c").write_text(
        '#include "guard.h"\n#include <stdlib.h>\n'
        "int main(int count, char **words)\n{\n"
        "    int size = atoi(words[1]), begins = atoi(words[2]), where = atoi(words[3]);\n"
        "    volatile char *block = guard_block((size_t)size, begins);\n"
        "    return count + block[where] == 1000;\n}\n")
    program = tmp_path / "touch"
    subprocess.run([CLANG, "-O1", f"-I{ATTACK}", tmp_path / "touch.c", ATTACK / "guard.c", "-o",
                    program], check=True)
    built("extremes")

    def touches(*words):
        return subprocess.run([program, *map(str, words)], capture_output=True,
                              check=False).returncode

    for size in (1, 24, 4096, 5000):
        assert [touches(size, 0, 0), touches(size, 0, size - 1), touches(size, 1, 0),
                touches(size, 1, size - 1)] == [0] * 4
        assert touches(size, 0, size) < 0 and touches(size, 1, -1) < 0
    assert touches(0, 0, 0) < 0


def test_extremes(built):
    """Overlapping const columns, odd addresses, lengths of 0 and of millions, ends of ranges."""
    calls = int(re.fullmatch(r"([0-9]+) calls\n", ended(built("extremes"))).group(1))
    assert calls > 200000


def test_sixteen_threads(built):
    """Each answer is the one that a single thread got, and no memory is lost."""
    said = ended(built("threads"), THREAD_SECONDS)
    calls = int(re.fullmatch(r"([0-9]+) calls, 0 wrong\n", said).group(1))
    assert calls > 1000


# Calls of each way of tests/attack/every.c, in turn.
EVERY = {"plain": 6000, "refuse": 1500, "threads": 1500, "valgrind": 300}
TYPES = {"B": "uint8_t", "I": "uint32_t", "Q": "uint64_t"}


def plain_calls():
    """The calls that the header says to ask for no memory."""
    header = (ROOT / "share/arbiter.h").read_text(encoding="ascii")
    some = re.search(r"\n \* (arbiter_[\w, \n*]+?) ask for no\b", header).group(1)
    return {each.removeprefix("arbiter_") for each in re.findall(r"arbiter_\w+", some)}


def call_in_c(name, words, answer, is_plain):
    """The kinds of a call's words, a function that calls it, and its row."""
    kinds, given = [], []
    for at, word in enumerate(words):
        kinds.append(f"{{'{word.kind}', {word.is_column:d}, {word.is_read:d},"
                     f' {word.is_written:d}, "{word.name}"}}')
        given.append(f"w[{at}].block, w[{at}].length" if word.is_column else
                     f"w[{at}].block" if word.is_written else f"({TYPES[word.kind]})w[{at}].number")
    return (f"static const struct kind kinds_{name}[] = {{{', '.join(kinds)}}};\n"
            f"static uint64_t call_{name}(const struct word *w)\n{{\n"
            f"    return arbiter_{name}({', '.join(given)});\n}}\n",
            f'    {{"{name}", {len(words)}, kinds_{name}, call_{name}, {is_plain:d},'
            f" {answer not in ('name', 'version', 'weight_of_shares'):d}}},\n")


def table_in_c(folder):
    """Writes the table of calls for tests/attack/every.c: each call of the package's table."""
    from arbiter import c
    plain = plain_calls()
    made = [call_in_c(name, words, name, name in plain) for name, words in c.WORDS.items()]
    text = "".join(each for each, _ in made) + "static const struct call calls[] = {\n"
    text += "".join(row for _, row in made) + f"}};\n#define CALLS {len(made)}\n"
    (folder / "calls.h").write_text(text, encoding="ascii")
    return len(made)


@pytest.fixture(scope="module", name="every")
def every_call(built, library, tmp_path_factory):
    """A program for each way of attacking each call, and the number of calls."""
    if not shutil.which("gcc"):
        pytest.skip("no gcc")
    folder = tmp_path_factory.mktemp("every")
    sys.path.insert(0, str(ROOT / "python"))
    count = table_in_c(folder)
    guarded = built("every", f"-I{folder}", "-Wno-pedantic")
    plain = folder / "plain"
    made = subprocess.run(
        ["gcc", "-std=gnu11", "-O1", "-g", "-Wall", "-Wextra", "-Werror", "-DPLAIN", f"-I{folder}",
         ATTACK / "every.c", library.with_suffix(".a"), "-pthread", "-o", plain],
        capture_output=True, text=True, check=False)
    assert (made.returncode, made.stderr) == (0, "")
    return {"plain": [guarded, "plain"], "refuse": [guarded, "refuse"],
            "threads": [plain, "threads"],
            "valgrind": ["valgrind", "-q", "--error-exitcode=9", "--leak-check=full", plain,
                         "plain"]}, count


@pytest.mark.parametrize("way", EVERY)
def test_every_call_in_each_way(every, way):
    """Hostile words between guard pages; each allocation refused; sixteen threads; valgrind. New
    calls of the table are attacked with the others, and some calls of each are accepted."""
    ways, count = every
    if way == "valgrind" and not shutil.which("valgrind"):
        pytest.skip("no valgrind")
    first, *rows = ended(*ways[way], EVERY[way], 1, seconds=300).strip().split("\n")
    calls = int(re.fullmatch(r"([0-9]+) calls, digest [0-9a-f]{16}", first).group(1))
    assert calls >= EVERY[way] * {"refuse": 2, "threads": 17}.get(way, 1) and len(rows) == count - 3
    # (a certificate by chance is none)
    assert {row for row in rows if row.endswith(" 0")} <= {"check 0"} or way == "valgrind", rows


def corpus(kind, folder):
    """The kept inputs of a fuzzer as files of a new folder."""
    folder.mkdir()
    lines = (ATTACK / f"{kind}.corpus").read_text(encoding="ascii").split("\n")[:-1]
    for number, line in enumerate(lines):
        (folder / f"{number:04}").write_bytes(bytes.fromhex(line))
    return len(lines)


def findings(folder):
    """What a fuzzer left, as lines for its corpus."""
    return [f"{path.name}: {path.read_bytes().hex()}" for path in sorted(folder.iterdir())]


@pytest.mark.parametrize("kind", KINDS)
def test_fuzz(built, kind, request, tmp_path, record_property):
    """No input breaks what the header says; each kept input and many new ones are tried."""
    seconds, runs = (request.config.getoption(f"fuzz_{each}") for each in ("seconds", "runs"))
    end = f"-runs={runs}" if runs else f"-max_total_time={seconds}"
    program = built(f"fuzz_{kind}", "-fsanitize=fuzzer")
    many = corpus(kind, tmp_path / "corpus")
    (tmp_path / "found").mkdir()
    run = subprocess.run(
        [program, end, "-max_len=600", "-timeout=60",
         "-rss_limit_mb=2048", f"-artifact_prefix={tmp_path}/found/", tmp_path / "corpus"],
        capture_output=True, text=True, check=False, timeout=seconds + 300)
    assert (run.returncode, findings(tmp_path / "found")) == (0, []), run.stderr[-4000:]
    done = int(re.search(r"^Done ([0-9]+) runs in", run.stderr, re.M).group(1))
    said = run.stderr[run.stderr.rindex("calls: " if kind == "columns" else "answers:"):].strip()
    record_property("fuzzed", f"{kind}: {done} inputs; {said}")
    print(f"{kind}: {done} inputs; {said}")
    assert done >= (runs or max(LEAST_RUNS, many))
    # Accepted and refused ones are met, so that the oracles are asked.
    assert {0, 1, 2, 3, 5} <= {int(each) for each in re.findall(r" ([0-9]+):", said)}


def test_the_corpus_is_small():
    """Each kept input is one line of digits, and none is there twice."""
    for kind in KINDS:
        path = Path(ATTACK / f"{kind}.corpus")
        lines = path.read_text(encoding="ascii").split("\n")[:-1]
        assert len(set(lines)) == len(lines) > 20 and path.stat().st_size < 40000
        assert all(re.fullmatch("(?:[0-9a-f]{2})*", line) for line in lines)
