"""The command: what each answer says, and how it ends when something is wrong."""
import io
import json
import os
import resource
import signal
import subprocess
import sys
import time
from pathlib import Path

import pytest
import trees
import warm
from arbiter_host.base import plain_files
from places import PACKAGE

ROOT = PACKAGE.parent
FIXTURES = Path(__file__).parent / "fixtures"
# A host of four CPUs, with a period of 100 ms and slices of 1 ms, in each unit.
FOUR = {"cpu": "4.00", "m": "4000", "%": "400", "slices": "400", "us": "400000"}
HEAD = "# arbiter run --processors 1 --period 100000 --slice 5000\n"
REASONS = HEAD + """\
mkdir held
mkdir held/one
mkdir held/two
mkdir idle
mkdir small
mkdir big
mkdir calm
mkdir none
write held cpu.weight 1000
write held cpu.max 25000
write held/two cpu.weight 400
write big cpu.weight 1000
write big cpu.max 90000
write small cpu.weight 10
write none cpu.max 4000
demand held/one 20
demand held/two 20
demand small 20
demand big 20
demand calm 1
demand none 3
"""
# held has its 5, of weights 100 and 400: 1 and 4. calm has 1 (1/100) and big 14 (27/1000), all
# below small's first slice (1/10). Wants at the root: 5 + 0 + 20 + 18 + 1 + 0.
WANTED = {
    ".": (20, 44, 20, "the host is full", False, False, False),
    "held": (5, 40, 5, "own limit", False, True, False),
    "held/one": (1, 20, None, "limit above", False, False, False),
    "held/two": (4, 20, None, "limit above", False, False, False),
    "idle": (0, 0, None, "nothing asked", False, False, False),
    "small": (0, 20, None, "the host is full", True, False, False),
    "big": (14, 20, 18, "the host is full", False, True, True),
    "calm": (1, 1, None, "all", False, False, False),
    "none": (0, 3, 0, "own limit", True, True, False),
}


def slices(amount):
    """The slices of an amount in JSON."""
    return None if amount is None else amount["slices"]


def test_explain_reasons(ctl):
    """Reasons, causes and weights as fields."""
    whole = json.loads(ctl.run("explain", "-o", "json", "-", given=REASONS.encode())[0])
    found = {group["group"]: (*(slices(group[key]) for key in ("gets", "wants", "limit")),
                              group["reason"], group["starved"], group["throttled"],
                              group["throttled_not_by_its_limit"]) for group in whole["groups"]}
    assert found == WANTED
    groups = {group["group"]: group for group in whole["groups"]}
    assert [groups["held/two"][key] for key in ("cause", "weight", "active_weight")] == [
        "held", 400, 500]
    assert [groups["big"][key] for key in ("cause", "weight", "active_weight")] == [".", 1000, 2110]
    assert groups["big"]["limit"] == {"slices": 18, "millicpu": 900.0, "usec": 90000}
    assert (groups["held"]["quota_usec"], groups["held"]["period_usec"]) == (25000, 100000)
    assert [each["group"] for each in whole["limiting"]] == ["."]
    assert whole["check"] == "accepted"


@pytest.mark.parametrize("unit, gets", [("cpu", "0.50"), ("m", "500"), ("%", "50"),
                                        ("slices", "10"), ("us", "50000")])
def test_units(ctl, unit, gets):
    out, _ = ctl.run("explain", "--unit", unit, ROOT / "examples/pod.script")
    row = next(line for line in out.split("\n") if line.endswith("job"))
    assert row.split()[0] == gets


@pytest.mark.parametrize("columns", [60, 80, 120, 200])
def test_as_wide_as_the_terminal(ctl, columns):
    ctl.environment["COLUMNS"] = str(columns)
    out, _ = ctl.run("explain", ROOT / "examples/node.script")
    assert max(map(len, out.split("\n")[6:])) <= columns
    assert "queue" in out


@pytest.mark.parametrize("columns", [80, 120, 200])
@pytest.mark.parametrize("words", [["explain"], ["diff", "--set", "burstable.weight=300"]])
def test_no_reason_is_cut(ctl, columns, words):
    """Reasons are shorter where a terminal is narrow, and whole in each width."""
    ctl.environment["COLUMNS"] = str(columns)
    out, _ = ctl.run(*words, ROOT / "examples/node.script")
    assert "\u2026  " not in out
    short = "throttled*; " in out
    assert short == (columns < 200) == ("* throttled, not by its limit" in out)
    assert ("throttled, not by its limit; the host is full: weight 10 of 30" in out) == (not short)


def test_long_identifiers_are_short(ctl):
    name = f"cri-containerd-{'ab' * 32}.scope"
    given = f"{HEAD}mkdir {name}\ndemand {name} 30\n".encode()
    out, _ = ctl.run("explain", "-", given=given)
    assert "abababababab\u2026" in out and name not in out
    assert name in ctl.run("explain", "-o", "json", "-", given=given)[0]


def test_only_and_sort(ctl):
    out, _ = ctl.run("explain", "--state", "starved", "-", given=REASONS.encode())
    assert [line.split()[-1] for line in out.split("\n")[7:-1]] == ["small", "none"]
    ctl.environment["COLUMNS"] = "200"
    out, _ = ctl.run("explain", "--state", "asking", "--sort", "lack", "--unit", "slices", "-",
                     given=REASONS.encode())
    rows = [line.split() for line in out.split("\n")[7:-1]]
    lacks = [int(row[1]) - int(row[0]) for row in rows]
    assert lacks == sorted(lacks, reverse=True) and len(rows) == 8


def test_depth(ctl):
    out, _ = ctl.run("explain", "--depth", "1", "-", given=REASONS.encode())
    assert "held (+2 below)" in out and "two" not in out


def test_head_line_is_the_host(ctl, folder):
    """What is imported is explained without options as with them."""
    trees.root2(folder / "t")
    trees.group2(folder / "t/web", usage=5)
    made = ctl.run("export", folder / "t", "--cpus", "16", "--want", "busy")[0]
    (folder / "s").write_text(made)
    plain, err = ctl.run("explain", folder / "s")
    assert err == "" and plain.startswith("16 CPUs, period 1000 ms, slice 1 ms")
    assert plain == ctl.run("explain", folder / "s", "--cpus", "16", "--slice", "1ms")[0]
    _, err = ctl.run("explain", folder / "s", "--cpus", "2")
    assert "differ from its head line: arbiter run --processors 16" in err


def test_export_and_explain_are_the_same_from_each_form(ctl, folder):
    """A script, TOML and JSON of one host give one plan."""
    pods = (FIXTURES / "pods.json", FIXTURES / "node.json")
    found = set()
    for form in ("script", "toml", "json"):
        path = folder / f"h.{form}"
        ctl.run("export", *pods, "-o", f"{form}={path}")
        whole = json.loads(ctl.run("explain", "-o", "json", path)[0])
        found.add(json.dumps([(each["group"], each["gets"]) for each in whole["groups"]]))
    direct = json.loads(ctl.run("explain", "-o", "json", *pods)[0])
    found.add(json.dumps([(each["group"], each["gets"]) for each in direct["groups"]]))
    assert len(found) == 1 and len(direct["groups"]) == 18


@pytest.mark.parametrize("name, kind", [("units.show", "systemd"), ("docker.json", "docker"),
                                        ("podman.json", "docker")])
def test_kinds_are_found(ctl, name, kind):
    """A source's kind is found from its bytes."""
    words = ["-o", "json", "--cpus", "4", FIXTURES / name]
    assert ctl.run("explain", *words) == ctl.run("explain", "--from", kind, *words)


def test_scale_and_set(ctl):
    words = ["export", "-", "--scale", "a=1.5", "--set", "b.cpu.weight=7",
             "--set", "b.max=50%"]
    out, _ = ctl.run(*words, given=f"{HEAD}mkdir a\nmkdir b\ndemand a 4\n".encode())
    assert out == (f"{HEAD}mkdir a\nmkdir b\nwrite b cpu.weight 7\nwrite b cpu.max 50000 100000\n"
                   "demand a 6\n")


def test_diff(ctl, folder):
    """A group that is only in one, one that changes, one that does not."""
    (folder / "one").write_text(f"{HEAD}mkdir a\nmkdir b\nmkdir c\ndemand a 3\ndemand b 2\n")
    (folder / "two").write_text(f"{HEAD}mkdir a\nmkdir b\nmkdir d\ndemand a 5\ndemand b 2\n"
                                "demand d 1\n")
    words = ["diff", folder / "one", folder / "two", "--unit", "slices"]
    rows = [" ".join(line.split()) for line in ctl.run(*words)[0].split("\n")]
    for row in ("5 8 +3 5 8 all that it wants the host (.)", "3 5 +2 3 5 all that it wants a",
                "0 - 0 0 - only before: nothing asked c", "1 of 5 groups are the same in both"):
        assert row in rows
    changed = json.loads(ctl.run(*words, "-o", "json")[0])["changed"]
    assert [each["group"] for each in changed] == [".", "a", "c", "d"]


def test_diff_with_changes(ctl):
    """Both plans are of the host of --cpus; `.cpus` changes that of the second."""
    words = ["diff", ROOT / "examples/pod.script", "--set", "pod.max=75%"]
    out, _ = ctl.run(*words, "--cpus", "2")
    assert "before  2 CPUs" in out and "after   2 CPUs" in out and "pod (0.75)" in out
    out, _ = ctl.run(*words, "--set", ".cpus=2")
    assert "before  1 CPU," in out and "after   2 CPUs" in out and "pod (0.75)" in out
    assert "BEFORE and AFTER, or BEFORE and --set" in ctl.run(*words[:2], status=2)[1]


def test_diff_is_of_one_host(ctl, folder):
    """A source that names no host is planned on that of the other one."""
    docker = FIXTURES / "docker.json"
    out, _ = ctl.run("diff", docker, "--cpus", "64", "--set", "*web*.cpu-shares=512")
    assert "before  64 CPUs" in out and "after   64 CPUs" in out
    ctl.run("export", docker, "--cpus", "48", "-o", f"script={folder / 's'}")
    for words in ([folder / "s", docker], [docker, folder / "s"]):
        out, _ = ctl.run("diff", *words)
        assert "before  48 CPUs" in out and "after   48 CPUs" in out


PODS, NODE = FIXTURES / "pods.json", FIXTURES / "node.json"
HALF = ("--set", "prod/db-0/postgres.max=500m")


@pytest.mark.parametrize("files", [(PODS, NODE), (NODE, PODS)])
def test_diff_of_pods_and_their_node(ctl, files):
    """The two files are one source: requests of 1950m, and 500m less where postgres may not."""
    out, _ = ctl.run("diff", *files, *HALF, "-o", "json")
    changed = {each["group"]: each for each in json.loads(out)["changed"]}
    assert set(changed) == {".", "kubepods", "kubepods/prod:db-0", "kubepods/prod:db-0/postgres"}
    assert "1.450 of 4.000 CPUs" in ctl.run("diff", *files, *HALF)[0]


@pytest.mark.parametrize("form", ["json", "html"])
def test_diff_by_change_in_each_form(ctl, form):
    """The groups of each plan keep their order; those that differ stand by their change."""
    plain, by_change = (ctl.run("diff", PODS, NODE, "--want", "busy", *HALF, "-o", form, *words)[0]
                        for words in ([], ["--sort", "change"]))
    if form == "html":
        assert 'data-flat aria-label="Before and after"' in by_change
        return
    plain, by_change = json.loads(plain), json.loads(by_change)
    assert [by_change[key] for key in ("before", "after")] == [plain["before"], plain["after"]]
    changes = [abs(each["change_millicpu"]) for each in by_change["changed"]]
    assert len(changes) > 2 and changes == sorted(changes, reverse=True)
    assert {each["group"] for each in by_change["changed"]} == {
        each["group"] for each in plain["changed"]}


def test_diff_of_two_nodes(ctl, folder):
    """Two pairs are BEFORE and AFTER."""
    found = json.loads(NODE.read_bytes())
    found["status"]["capacity"]["cpu"] = "8"
    (folder / "node8.json").write_text(json.dumps(found))
    out, _ = ctl.run("diff", PODS, NODE, PODS, folder / "node8.json")
    assert "before  4 CPUs" in out and "after   8 CPUs" in out
    words = ["diff", PODS, NODE, PODS, NODE, PODS]
    assert "diff takes BEFORE and AFTER" in ctl.run(*words, status=2)[1]


def test_diff_of_pods_without_their_node(ctl):
    """The CPUs of the command are those of both plans."""
    out, _ = ctl.run("diff", PODS, "--cpus", "16", *HALF)
    assert "before  16 CPUs" in out and "after   16 CPUs" in out
    assert "pass the node's JSON or --cpus" in ctl.run("diff", PODS, *HALF, status=1)[1]


def test_apply_of_pods_and_their_node(ctl):
    """The pair is BEFORE; the place of a container is its group."""
    out, _ = ctl.run("apply", PODS, NODE, "--set", "prod/db-0/postgres.weight=80", "--by", "files",
                     "--root", "/r")
    folder = "kubepods.slice/kubepods-pod00000002_0b1c_4d2e_8f3a_0123456789ab.slice"
    assert out == f"echo 80 > /r/{folder}/cri-containerd-{'a3' * 32}.scope/cpu.weight  # was 39\n"
    assert "or BEFORE and --set" in ctl.run("apply", PODS, NODE, status=2)[1]


# bad use

def test_strict(ctl, folder):
    (folder / "s").write_text(f"{HEAD}mkdir a\nwrite a cpu.weight 0\nfrob\n")
    out, err = ctl.run("explain", "--strict", folder / "s", status=4)
    assert out == ""
    assert f"{folder}/s:3: error 12 WeightOutOfRange (1 to 10000): write a cpu.weight 0" in err
    assert f"{folder}/s:4: error 80 BadCommand: frob" in err
    _, err = ctl.run("explain", folder / "s")
    assert "error 12 WeightOutOfRange" in err


@pytest.mark.parametrize("words, range_", [
    (["--cpus", "0"], "1 to 64000"), (["--slice", "300us"], "1000"),
    (["--period", "2s"], "1000000"),
    (["--depth", "65"], "0 to 64"), (["--state", "x"], "starved"), (["-o", "yaml"], "text, json"),
    (["--frob"], "unrecognized"), (["--scale", "a"], "GROUP=FACTOR"), (["--unit", "x"], "cpu"),
])
def test_words_that_are_refused_show_the_range(ctl, words, range_):
    _, err = ctl.run("explain", ROOT / "examples/pod.script", *words, status=2)
    assert range_ in err


def test_options_between_sources(ctl):
    """Sources and options may stand in any order. A word that is none is named."""
    pods = [ROOT / "examples/pods.json", "--want", "busy", ROOT / "examples/node.json"]
    assert ctl.run("explain", *pods)[0] == ctl.run("explain", pods[0], pods[3], *pods[1:3])[0]
    for words in (["explain", *pods, "--frob"], ["--frob", "explain", pods[0]]):
        _, err = ctl.run(*words, status=2)
        assert err == ("arbiterctl explain: unrecognized arguments: --frob; arbiterctl explain"
                       " --help says more\n")


def test_a_group_that_is_not_there(ctl):
    """Groups whose names have its letters are named."""
    pods = [ROOT / "examples/pods.json", ROOT / "examples/node.json"]
    _, err = ctl.run("explain", "-g", "Web", *pods, status=6)
    assert err == ("arbiterctl: no group Web (there is kubepods/burstable/shop:web,"
                   " kubepods/burstable/shop:web/pause, kubepods/burstable/shop:web/nginx, ..)\n")
    assert ctl.run("explain", "-g", "zz", *pods, status=6)[1] == "arbiterctl: no group zz\n"
    _, err = ctl.run("explain", "-g", "kube", *pods, status=6)
    assert err.endswith("(there is kubepods, kubepods/burstable, kubepods/besteffort, ..)\n")


def chosen(ctl, *words, status=0):
    """The groups that JSON has with some words of choice."""
    out, err = ctl.run("explain", PODS, NODE, "-o", "json", *words, status=status)
    return [each["group"] for each in json.loads(out)["groups"]] if out else err


def test_groups_that_are_chosen(ctl, folder):
    """By a path, an end or a title, with what is below; pods by namespace and labels."""
    web = "kubepods/burstable/prod:web-7c9f"
    whole = [web, f"{web}/pause", f"{web}/nginx", f"{web}/metrics"]
    for pattern in ("prod/web-7c9f", "prod:web-7c9f", web, "*web*"):
        assert chosen(ctl, "-g", pattern) == whole
    assert chosen(ctl, "-g", "prod/web-7c9f", "-g", "prod/db-0/postgres") == [
        *whole, "kubepods/prod:db-0/postgres"]
    assert len(chosen(ctl, "-n", "prod")) == 11
    assert chosen(ctl, "-n", "prod", "-g", "*web*") == whole
    assert "no pod of -n zz" in chosen(ctl, "-n", "zz", status=6)
    assert "no group is chosen by all" in chosen(ctl, "-n", "batch", "-g", "*web*", status=6)
    assert "not LABEL=VALUE" in chosen(ctl, "-l", "app", status=2)
    pods = json.loads(PODS.read_bytes())
    for each in pods["items"]:
        name = each["metadata"]["name"].partition("-")[0]
        each["metadata"]["labels"] = {"app": name, "tier": "a"}
    (folder / "pods.json").write_text(json.dumps(pods))
    for labels in (["-l", "app=web,tier=a"], ["-l", "app=web", "-l", "tier=a"]):
        out, _ = ctl.run("explain", folder / "pods.json", NODE, *labels, "-o", "csv")
        assert [row.split(",")[0] for row in out.split("\n")[1:-1]] == whole


def test_one_pod_in_text(ctl):
    """The pod stands by its path, and what asks for nothing is counted."""
    out, _ = ctl.run("explain", PODS, NODE, "-g", "prod/web-7c9f")
    rows = [line.split("  ") for line in out.split("\n")[7:]]
    assert [row[-1].strip() for row in rows[:3]] == [
        "kubepods/burstable/prod:web-7c9f", "nginx", "metrics"]
    assert "left out (--all shows them): 1" in out


def test_several_forms_at_once(ctl, folder):
    """Each form has its file; one of them may be printed."""
    words = [f"-o{form}={folder / form}" for form in ("json", "html", "svg", "csv")]
    out, _ = ctl.run("explain", PODS, NODE, "--guaranteed", "-o", "text", *words)
    assert out == ctl.run("explain", PODS, NODE, "--guaranteed")[0]
    for form in ("json", "html", "svg", "csv"):
        assert "guaranteed" in (folder / form).read_text()
    _, err = ctl.run("explain", PODS, NODE, "-o", "text", "-o", "json", status=2)
    assert "one form alone" in err


def test_no_raw_control_character(ctl, folder):
    """Neither in a table, nor in JSON, a message or a fault."""
    given = f"{HEAD}mkdir a\x1b[31m\x07\u202e\ndemand a\x1b[31m\x07\u202e 3\nmkdir \x1b\n\x1b[2J\n"
    for words in (["explain", "-"], ["explain", "-o", "json", "-"], ["explain", "-", "--\x1b"],
                  ["explain", "/no\x1b/file"], ["diff", "-", "--set", "\x1b.weight=1"]):
        ended = ctl.ended(*words, given=given.encode())
        said = (ended.stdout + ended.stderr).decode()
        assert not any(letter in said for letter in "\x1b\x07\u202e"), words
        assert said
    assert "a\\x1b[31m\\x07\\u202e" in ctl.run("explain", "-", given=given.encode())[0]


def test_full_and_closed_output(ctl):
    script = str(ROOT / "examples/pod.script")
    for redirect, words in ((">/dev/full", "No space left"), (">&-", "Bad file descriptor")):
        line = f'"$0" "$1" explain "$2" {redirect}'
        words_ = ["bash", "-c", line, sys.executable, str(PACKAGE / "arbiterctl"), script]
        ended = subprocess.run(words_, capture_output=True, env=ctl.environment, timeout=60,
                               check=False)
        told = [each for each in ended.stderr.decode().split("\n")[:-1] if "warning" not in each]
        assert (ended.returncode, len(told)) == (1, 1) and words in told[0]


def test_interrupt(ctl, folder):
    """Ctrl-C ends quietly, by the signal."""
    trees.root2(folder)
    words = [sys.executable, str(PACKAGE / "arbiterctl"), "export", str(folder),
             "--read", "2x50s"]
    running = subprocess.Popen(words, env=ctl.environment, stdout=subprocess.PIPE,
                               stderr=subprocess.PIPE)
    time.sleep(1.5)
    running.send_signal(signal.SIGINT)
    out, err = running.communicate(timeout=30)
    assert (running.returncode, out, err) == (-signal.SIGINT, b"", b"")


def test_files_that_cannot_be_read(ctl, folder):
    for name, words in (("none", "No such file or directory"), ("\0", "")):
        if name != "\0":
            assert words in ctl.run("explain", folder / name, status=1)[1]
    assert "so no cgroup tree" in ctl.run("explain", folder, status=1)[1]
    (folder / "shut").mkdir()
    (folder / "shut").chmod(0)
    if os.getuid() != 0:
        assert "Permission denied" in ctl.run("explain", folder / "shut", status=1)[1]


@pytest.mark.parametrize("from_input", [False, True])
def test_small_memory(ctl, folder, from_input):
    """A source takes memory for what it holds, and not for the greatest file."""
    script = folder / "s"
    script.write_text("mkdir a\n")
    words = ["export", "-" if from_input else script]
    ended = ctl.ended(*words, given=script.read_bytes(), preexec_fn=lambda: resource.setrlimit(
        resource.RLIMIT_AS, (400 << 20, 400 << 20)))
    assert ended.returncode == 0 and ended.stderr.startswith(b"arbiterctl: groups: 1")


def test_largest_file(monkeypatch):
    """A file of `MAX_FILE` bytes is read whole; one byte more shows that it is longer."""
    monkeypatch.setattr(plain_files, "MAX_FILE", 5)
    monkeypatch.setattr(plain_files, "PIECE", 2)
    read = [plain_files.bounded(io.BytesIO(b"x" * length)) for length in (0, 4, 5, 6, 9)]
    assert [len(each) for each in read] == [0, 4, 5, 6, 6]


@pytest.mark.parametrize("path, words", [
    ("/no/lib.so", "/no/lib.so: cannot open shared object file"), ("no.so", "no.so: cannot open"),
    ("libc.so.6", "libc.so.6: no call arbiter_plan: the C library is older than the Python"),
])
@pytest.mark.parametrize("is_named", [False, True])
def test_library_that_is_not_there(ctl, path, words, is_named):
    """One line says what is missing and what to do. The status is that of the library alone."""
    script, named = ROOT / "examples/pod.script", ["--library", path] if is_named else []
    if not is_named:
        ctl.environment["ARBITER_LIBRARY"] = path
    out, err = ctl.run("explain", script, *named, status=3)
    assert (out, err.count("\n")) == ("", 1) and words in err
    assert err.endswith(": install the package libarbiter1, or run ./build --install DIR;"
                        " ARBITER_LIBRARY or --library names another\n")


def test_csv_has_its_unit_by_the_option(ctl):
    """The heads are the same in each unit: a script finds a column by its name. The pages of both
    subcommands that write CSV say the unit."""
    words = ("explain", ROOT / "examples/node.script", "-o", "csv", "--unit")
    tables = {unit: ctl.run(*words, unit)[0] for unit in FOUR}
    heads = {each.partition("\n")[0] for each in tables.values()}
    assert heads == {"group,title,weight,gets,wants,limit,reason,why"}
    assert {unit: each.split("\n")[1].split(",")[3] for unit, each in tables.items()} == FOUR
    for each in ("explain", "replay"):
        page = (ROOT / f"share/man/arbiterctl-{each}.1").read_text(encoding="utf-8")
        page = " ".join(page.split())
        assert "are in the unit of" in page and "heads are the same in each unit" in page


def test_a_run_that_is_late_ends_no_other(monkeypatch):
    """With --checked, where one process begins all."""
    runs = warm.Warm({**os.environ})
    with monkeypatch.context() as patch, pytest.raises(subprocess.TimeoutExpired):
        patch.setattr(warm, "SECONDS", 1e-6)
        runs.ended(["--help"], b"", runs.environment)
    assert runs.ended(["--help"], b"", runs.environment).returncode == 0
    runs.end()
