"""The scheduler of `hold --by scheduler`: it compiles, and its loader refuses in one line.

A guest that runs it is in bench/kernel/test_scheduled.py.
"""
import os
import shutil
import subprocess
from collections import Counter
from pathlib import Path

import pytest

from support import ROOT, scheduler_lacks

SCHED_EXT = Path("/sys/kernel/sched_ext")
MADE = ("plan.bpf.o", "plan.skel.h", "arbiter-scheduler")
# A bpftool that begins what it cannot end.
FAILS = """[ "$1" = version ] && exec /usr/sbin/bpftool version
echo 'static struct half;'; echo 'Error: no skeleton' >&2; exit 1"""


def make(out, **variables):
    """How `make` ended that makes the scheduler in a folder."""
    words = [f"{name}={value}" for name, value in variables.items()]
    return subprocess.run(["make", "-C", str(ROOT / "scheduler"), f"OUT={out}", *words],
                          capture_output=True, text=True, check=False, timeout=300)


def stand_in(path, text):
    """A tool that does what lines of sh say: its path."""
    path.write_text(f"#!/bin/sh\n{text}\n", encoding="ascii")
    path.chmod(0o755)
    return str(path)


@pytest.fixture(scope="module", name="loader")
def made_loader(tmp_path_factory):
    """The loader, made here; a skip where tools are missing or too old."""
    lacks = scheduler_lacks()
    if lacks:
        pytest.skip(lacks)
    out = tmp_path_factory.mktemp("scheduler")
    made = make(out)
    assert made.returncode == 0, made.stderr[-2000:]
    assert sorted(each.name for each in out.iterdir()) == sorted(MADE)
    return out / "arbiter-scheduler"


def ended(*words):
    """Status, standard output and error of a run without input."""
    found = subprocess.run([*map(str, words)], stdin=subprocess.DEVNULL, capture_output=True,
                           text=True, check=False, timeout=60)
    return found.returncode, found.stdout, found.stderr


def test_no_folder_of_the_machine(loader):
    """Neither the loader nor what it gives the kernel says where it was made. A release refuses
    one that does."""
    for path in loader.parent.iterdir():
        found = [each for each in (ROOT, loader.parent) if os.fsencode(each) in path.read_bytes()]
        assert not found, path.name


def test_wrong_words(loader):
    """Another number of words, and an unknown option."""
    for words in ([], ["a", "b"], ["--trace", "a"], ["--help"]):
        status, out, err = ended(loader, *words)
        assert (status, out) == (2, "") and err.startswith("Usage: arbiter-scheduler")


def test_what_is_missing_is_told_in_one_line(loader):
    """Root first, then the kernel's parts, before anything is loaded."""
    if SCHED_EXT.exists() and os.geteuid() == 0:
        pytest.skip("it would load")
    status, out, err = ended(loader, "/sys/fs/cgroup")
    wanted = "this kernel has no sched_ext" if os.geteuid() == 0 else "only root may"
    assert (status, out) == (1, "")
    assert err.startswith(f"arbiter-scheduler: {wanted}") and err.count("\n") == 1


def test_rows_are_alike_in_both_programs():
    """What the loader and the kernel's part share is in one header, of fixed widths alone."""
    text = (ROOT / "scheduler/plan.h").read_text(encoding="ascii")
    fields = [line.split()[0] for line in text.splitlines() if line.startswith("    _")]
    assert fields and set(fields) <= {"__u64", "__s64", "__u32", "__s32"}


# What each tool says in its least version that is taken.
LEAST = {"CC": "echo 1.4", "CLANG": "echo 14.0", "BPFTOOL": "echo 'bpftool v7.4.0'"}


@pytest.fixture(name="tools")
def tools_that_suffice(tmp_path):
    """Stand-ins of all tools, just new enough. `make` has none."""
    if not shutil.which("make"):
        pytest.skip("no make")
    return {name: stand_in(tmp_path / name, text) for name, text in LEAST.items()}


@pytest.mark.parametrize("name, text, said", [
    ("BPFTOOL", "echo 'bpftool v7.1.0'", "bpftool 7.1 is older than 7.4"),
    ("BPFTOOL", "exit 1", "no version of bpftool"),
    ("CLANG", "echo 13.0", "clang 13.0 is older than 14.0"),
    ("CC", "echo 1.1", "libbpf 1.1 is older than 1.4"),
    ("CC", "exit 1", "no libbpf-dev, no libelf-dev, no zlib1g-dev"),
    ("CC", "echo 2.0", ""), ("BPFTOOL", "echo '/usr/sbin/bpftool v10.0.1'", "")],
    ids=["bpftool", "a bpftool that fails", "clang", "libbpf", "headers", "newer", "newer bpftool"])
def test_old_tools_are_told(tools, tmp_path, name, text, said):
    """One line names the tool, its version and the least one. `make` says the same, and compiles
    nothing."""
    tools[name] = stand_in(tmp_path / "other", text)
    found = subprocess.run([str(ROOT / "scheduler/needs")], capture_output=True, text=True,
                           check=False, timeout=60, env={**os.environ, **tools})
    line = f"{said}: apt-get install clang bpftool libbpf-dev "
    assert (found.returncode, found.stderr) == (1 if said else 0, "")
    assert found.stdout.startswith(line) if said else not found.stdout
    out = tmp_path / "out"
    made = make(out, **tools)
    assert made.returncode == 2 and (said == "" or made.stderr.startswith(found.stdout))
    assert out.exists() == (said == "")


def test_a_tool_that_fails_leaves_no_file(loader, tmp_path):
    """What it printed is not taken for a whole file. With the right tool it is made then."""
    assert loader.exists()
    made = make(tmp_path / "out", BPFTOOL=stand_in(tmp_path / "fails", FAILS))
    assert made.returncode == 2 and "Error: no skeleton" in made.stderr
    assert "arbiter-scheduler.part" not in made.stdout
    assert [name for name in MADE if (tmp_path / "out" / name).exists()] == ["plan.bpf.o"]
    assert make(tmp_path / "out").returncode == 0
    assert [name for name in MADE if (tmp_path / "out" / name).exists()] == list(MADE)


def test_a_build_with_old_tools(tools, tmp_path):
    """`./build` says what lacks and goes on. No scheduler is left that may be of other sources."""
    made = tmp_path / "out/scheduler/arbiter-scheduler"
    made.parent.mkdir(parents=True)
    made.write_text("old", encoding="ascii")
    os.symlink(ROOT / "scheduler", tmp_path / "scheduler")
    asked = f". {ROOT}/scripts/install.sh; make_scheduler"
    tools["CLANG"] = stand_in(tmp_path / "old", "echo 9.0")
    found = subprocess.run(["bash", "-c", asked], capture_output=True, text=True, check=False,
                           timeout=60, cwd=tmp_path,
                           env={**os.environ, **tools})
    assert (found.returncode, found.stdout, made.exists()) == (0, "", False)
    assert found.stderr.startswith("build: no arbiter-scheduler: clang 9.0 is older than 14.0: ")


ONE_CPU = 1 << 20
# Headers of libbpf and the skeleton, in place of which tests/kernel/loaded.c has functions.
EMPTY = ("bpf/bpf.h", "bpf/libbpf.h", "plan.skel.h")


@pytest.fixture(scope="module", name="given")
def given_by(tmp_path_factory):
    """What the loader would give the kernel's part for some plans, without a kernel: of each the
    rows by group, less than 0 for a free one, the limits, and the version of the tree."""
    if not shutil.which("gcc"):
        pytest.skip("no gcc")
    folder = tmp_path_factory.mktemp("loaded")
    for name in EMPTY:
        (folder / name).parent.mkdir(exist_ok=True)
        (folder / name).touch()
    subprocess.run(["gcc", "-O2", "-Wall", "-Wextra", "-Werror", f"-I{ROOT / 'scheduler'}",
                    f"-I{folder}", "-o", folder / "loaded", ROOT / "tests/kernel/loaded.c"],
                   check=True, timeout=300)

    def give(cpus, own, *plans):
        text = "\n".join(line for plan in plans for line in (f"plan {100 * cpus}", *plan, "end"))
        said = subprocess.run([folder / "loaded", str(cpus), str(own)], input=f"{text}\n",
                              check=True, capture_output=True, text=True, timeout=60).stdout
        found = []
        for name, *numbers in map(str.split, said.splitlines()):
            if name == "plan":
                found.append(({}, {}, []))
            elif name == "given":
                row, group, *rest = map(int, numbers)
                found[-1][0][group or -row] = rest
            elif name == "limited":
                found[-1][1][int(numbers[0])] = tuple(map(int, numbers[1:]))
            else:
                found[-1][2].append(int(numbers[0]))
        return [(rows, limits, version) for rows, limits, (version,) in found]

    return give


def test_a_group_that_gets_a_free_row_is_looked_for(given):
    """Tasks of a group that came were counted in the group above it, where its row had been that of
    a group that went one plan before."""
    one, two = "leaf 11 100 100 0", "leaf 12 100 100 0"
    versions = [version for *_, version in given(2, 0, [one, two], [two], [two],
                                                 [two, "leaf 13 100 100 0"])]
    assert versions[1] == versions[2] and versions[0] < versions[1] < versions[3]


@pytest.mark.parametrize("own", [0, 9])
def test_guarantees_are_no_more_than_the_cpus(given, own):
    """The loader's own guarantee is none beside these, and a group that went has none. (It had a
    thousand times as much in each plan.)"""
    one, two = "leaf 11 100 100 0", "leaf 12 300 300 0"
    for rows, _, _ in given(4, own, [one, two], [two], [two], [two]):
        guarantees = [guarantee for _, guarantee, _ in rows.values()]
        assert 3 * ONE_CPU - ONE_CPU // 10 <= sum(guarantees) <= 4 * ONE_CPU
        assert not own or rows[own][1] == ONE_CPU // 10


def test_limits_of_groups_in_groups(given):
    """The kernel's part looks at 16 limits from a leaf up. Of 20 in one another those at the top
    are kept, or a tenant who makes groups in groups left the owner's."""
    chain = [f"limit {at} {1000 * at} 0 {at - 1}" for at in range(1, 21)]
    (rows, limits, _), = given(4, 0, [*chain, "leaf 50 100 100 20", "leaf 51 100 100 3"])
    for group, wanted in ((50, range(1, 17)), (51, range(1, 4))):
        at, found = rows[group][2], Counter[int]()
        while at:
            found[limits[at][0] // 1000] += 1
            at = limits[at][2]
        assert found == Counter(wanted)


def test_a_limit_that_went_binds_nobody(given):
    """Its number has none until another group gets it."""
    bound, free = ["limit 7 5000 2000 0", "leaf 11 100 100 7"], ["leaf 11 100 100 0"]
    found = given(2, 0, bound, free, ["limit 8 6000 0 0", "leaf 11 100 100 8"])
    assert [limits[1] for _, limits, _ in found] == [(5000, 2000, 0), (0, 0, 0), (6000, 0, 0)]
    assert [rows[11][2] for rows, *_ in found] == [1, 0, 1]
