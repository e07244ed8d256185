"""What an operator met in one walk over a host, and meets no more.

Churn, Ctrl-C, full outputs, ranges and CSV have their tests in test_sources.py, test_command.py
and test_drawn.py.
"""
import json
import os
import random
import shutil
import subprocess
import sys
from pathlib import Path

import pytest
import trees
from places import PACKAGE

ROOT = PACKAGE.parent
FIXTURES = Path(__file__).parent / "fixtures"
NOBODY = 65534
FIELDS = ("group", "weight", "quota_usec", "period_usec", "burst_usec", "gets", "wants", "limit",
          "reason", "words", "cause")


def told(out):
    """What JSON says of the host and of each group, without names for people."""
    whole = json.loads(out)
    groups = [{key: each[key] for key in FIELDS} for each in whole["groups"]]
    return whole["host"], whole["limiting"], groups


@pytest.fixture
def tree(folder):
    """A tree of three groups, one of them with a name that no path of a script can hold."""
    trees.root2(folder / "tree")
    trees.group2(folder / "tree/web.service", 200, "150000 100000", 20000)
    trees.group2(folder / "tree/a b", 50)
    trees.group2(folder / "tree/a b/inner", 70, "50000 50000")
    return folder / "tree"


@pytest.mark.parametrize("kind, names, form", [
    ("kubernetes", ("pods.json", "node.json"), "script"), ("systemd", ("units.show",), "script"),
    ("docker", ("docker.json",), "script"), ("docker", ("podman.json",), "script"),
    *(("cgroup", (), form) for form in ("script", "toml", "json")),
])
def test_export_piped_into_explain(ctl, tree, kind, names, form):
    """What is exported is explained without options as the source is with them."""
    sources = [FIXTURES / name for name in names] or [tree]
    options = ["--want", "busy"] + ([] if kind == "kubernetes" else ["--cpus", "6"])
    made, _ = ctl.run("export", "--from", kind, *sources, *options, "-o", form)
    words = ["--from", form] if form != "script" else []
    out, err = ctl.run("explain", "-o", "json", *words, "-", given=made.encode())
    assert "warning" not in err
    assert told(out) == told(ctl.run("explain", "-o", "json", *sources, *options)[0])


def test_control_characters_from_a_tree(ctl, folder):
    """A name that anybody with a delegated group can choose reaches no terminal and no page raw."""
    name = "a\x1b[31m\x07\u202e"
    trees.root2(folder / "t")
    trees.group2(folder / "t" / name)
    words = [folder / "t", "--want", "busy", "--cpus", "2"]
    made = ctl.run("export", *words)
    (folder / "s").write_text(made[0])
    said = [made[1], *ctl.run("explain", *words), *ctl.run("explain", folder / "s"),
            *(each for form in ("json", "html", "svg", "csv")
              for each in ctl.run("explain", "-o", form, *words)),
            *ctl.run("top", *words, "--read", "2x1ms", "-o", "text"),
            *ctl.run("diff", folder / "s", "--set", "*.weight=7"),
            *ctl.run("apply", folder / "s", "--set", "*.weight=7", "--root", folder / "t")]
    for each in said:
        assert not any(letter in each for letter in "\x1b\x07\u202e"), each
    assert sum("a%1B[31m%07%E2%80%AE" in each for each in said) >= 8


REFUSED = (
    ("mkdir a b", "80 BadCommand"), ("demand none 1", "20 NotFound"), ("mkdir web", "21 Exists"),
    ("write web cpu.weight 10001", "12 WeightOutOfRange (1 to 10000)"),
    ("write web cpu.max 999", "13 QuotaTooSmall (1000 to 10^15 microseconds)"),
    ("write web cpu.max 1000000000000001", "14 QuotaTooLarge (at most 10^15 microseconds)"),
    ("write web cpu.max max 999", "15 PeriodOutOfRange (1000 to 1000000 microseconds)"),
    ("demand web 1000001", "9 DemandTooLarge (0 to 1000000 slices)"),
    ("demand web -1", "11 BadNumber"), ("write web cpu.frob 1", "30 NoSuchFile"),
    ("write web cpu.stat 1", "31 ReadOnly"), ("mkdir " + "a" * 256, "22 BadName"),
    ("mkdir " + "a" * 65536, "82 LineTooLong (65536 bytes)"), ("mkdir \udcff", "81 BadText"),
)


@pytest.mark.parametrize("subcommand, status", [
    (["explain", "--strict"], 4), (["diff", "--strict", "--set", "web.weight=2"], 4),
    (["export", "--strict"], 4), (["explain", "--strict", "-o", "html"], 4), (["explain"], 0),
])
def test_refusals_name_line_number_name_and_range(ctl, folder, subcommand, status):
    """Each refused line has its file, line, number, name and range. Strict runs end with 4."""
    text = "".join(f"{line}\n" for line, _ in REFUSED)
    (folder / "s").write_bytes(f"# arbiter run --processors 2\nmkdir web\n\n{text}".encode(
        "utf-8", "surrogateescape"))
    out, err = ctl.run(*subcommand, folder / "s", status=status)
    assert (out == "") == bool(status)
    lines = err.split("\n")[:-1]
    assert len(lines) == len(REFUSED)
    for place, (said, (_, words)) in enumerate(zip(lines, REFUSED), 4):
        assert said.startswith(f"arbiterctl: {folder}/s:{place}: error {words}: "), said


def test_random_bytes(ctl, folder):
    """Bytes that are no script are refused line by line where they are called one, and end a strict
    run with status 4. Else one line says that they are no source."""
    (folder / "s").write_bytes(random.Random(7).randbytes(20000))
    _, err = ctl.run("explain", folder / "s", "--from", "script")
    assert err.count(": error 8") > 20
    out, err = ctl.run("explain", folder / "s", status=1)
    assert out == "" and err.count("\n") == 1 and "no source that is known" in err
    assert ctl.run("explain", "--strict", folder / "s", status=4)[0] == ""


def test_more_than_64_processors(ctl):
    """96 CPUs are planned; what no host can be names the numbers."""
    script = ROOT / "examples/pod.script"
    assert ctl.run("explain", script, "--cpus", "96")[0].startswith("96 CPUs, period 100 ms")
    _, err = ctl.run("explain", script, "--cpus", "1000", "--slice", "1ms", status=2)
    assert "1000 CPUs have 100000 slices in a period, and the planner takes 64000" in err


@pytest.mark.skipif(os.geteuid() != 0, reason="only root can become another user")
def test_folder_of_another_user(ctl, folder):
    """A folder that may not be read says so, and not that it is no tree."""
    shut = folder / "shut"
    trees.root2(shut)
    shut.chmod(0o700)
    readable = folder
    while readable != Path("/tmp"):
        readable.chmod(0o755)
        readable = readable.parent
    shut.chmod(0o700)
    # A copy: the other user may not be let into the folder of this clone.
    package = shutil.copytree(PACKAGE, folder / "package", ignore=shutil.ignore_patterns(
        "tests", "__pycache__"))
    code = (f"import os,sys; sys.path.insert(0, {str(package)!r})\n"
            f"from arbiter_host import command\nos.setuid({NOBODY})\n"
            f"sys.exit(command.run(['explain', {str(shut)!r}]))")
    ended = subprocess.run([sys.executable, "-c", code], capture_output=True, timeout=60,
                           env=ctl.environment, check=False)
    assert ended.returncode == 1 and b"Permission denied" in ended.stderr, ended.stderr
    assert b"no cgroup" not in ended.stderr and b"Traceback" not in ended.stderr


def test_pages_need_no_variable():
    """Commands of the pages write below $HOME, which is set everywhere; $TMPDIR is not."""
    pages = [ROOT / "README.md", *(ROOT / "docs").glob("*.md")]
    assert len(pages) >= 9
    assert [page.name for page in pages if "TMPDIR" in page.read_text()] == []
