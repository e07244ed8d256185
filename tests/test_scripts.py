"""The commands ./arbiter, ./build and ./test, in copies with stand-ins for kit and programs.

What they run, what counts as up to date, what they say, and how an interrupted build goes on.
"""
import ast
import concurrent.futures
import json
import os
import pty
import re
import select
import shutil
import signal
import subprocess
from pathlib import Path
import time

import pytest

from stand_in import (LIBRARY, LIBRARY_PROVED, LOGIC, NATIVE, OUT, PROGRAM, PROVED, STAMP, Copy,
                      holds, sources, time_of, version)
from support import ROOT, SECONDS, run, same

RUNNING = ("arbiter: running the checked build, which proves nothing; "
           "./build makes the native program\n")
NO_KIT = "the command rt of the Rattle kit is not on the PATH."


@pytest.fixture
def copy(scratch):
    return Copy(os.path.realpath(scratch))


def test_passes_all_through(copy):
    """Words, standard input, output and status are the program's; also by a link."""
    copy.build()
    os.symlink(f"{copy.top}/arbiter", f"{copy.bin}/linked")
    ways = ((["./arbiter"], copy.top), (["bash", "arbiter"], copy.top),
            ([f"{copy.top}/arbiter"], "/"), ([f"{copy.bin}/linked"], copy.folder))
    for words, cwd in ways:
        answer = copy.call([*words, "a b", "", "*"], b"in\0", cwd)
        wanted = (7, "native: a b\nnative: \nnative: *\nin\0", "")
        same(answer, wanted, f"{words} from {cwd}")


def test_first_and_second_run(copy):
    """The first run compiles the checked build. The second one begins at once."""
    status, out, err = copy.call(["./arbiter", "a"], b"in\n")
    same((status, out), (5, "checked: a\nin\n"), "the first run")
    wanted = ("arbiter: no native program of these sources: compiling the checked build, which "
              f"proves nothing.\narbiter: that took {time_of('checked build')}; "
              f"later runs begin at once.\n{RUNNING}")
    same(err, wanted, "standard error of the first run")
    same(len([line for line in copy.log() if line.startswith("rt try")]), 1, "compilations")
    times = []
    for _ in range(5):
        began = time.monotonic()
        answer = copy.call(["./arbiter", "a"], b"in\n")
        times.append(time.monotonic() - began)
        same(answer, (5, "checked: a\nin\n", RUNNING), "the second run")
    same(min(times) < 2, True, f"a further run begins at once: {times}")
    same("rt try" in " ".join(copy.log()), False, "the second run compiles")
    same(os.listdir(f"{copy.cache}/arbiter/checked") != [], True, "what is kept")


def test_tells_the_time_of_this_machine(copy):
    """A second compilation is told the time that the first one took on this machine."""
    copy.is_checked("the first run")
    copy.write(sources("bw_plan")[0], "edited\n")
    err = copy.call(["./arbiter", "a"])[2]
    told = r"^arbiter: that took \d+ s on this machine \([\d-]{10}\); later"
    assert re.search(told, err, re.M), err


def test_checked_build_of_each_source_and_kit(copy):
    """An edit and another kit have a checked build of their own. Eight are kept."""
    copy.is_checked("the first run")
    for number in range(9):
        copy.log()
        copy.write(sources("bw_cert")[1], f"edit {number}\n")
        copy.is_checked("an edit")
        same("rt try" in " ".join(copy.log()), True, "an edit is compiled")
    copy.write("../kit/KIT-ID", f"kit 2 {LOGIC}\n")
    copy.is_checked("another kit")
    same("rt try" in " ".join(copy.log()), True, "another kit compiles")
    same(len(os.listdir(f"{copy.cache}/arbiter/checked")), 8, "kept programs")


def test_checked_build_of_each_clone(copy):
    """Two clones of the same sources run nothing that the other one kept."""
    copy.is_checked("the first run")
    copy.log()
    first, copy.top = copy.top, f"{copy.folder}/other"
    shutil.copytree(first, copy.top)
    copy.is_checked("another clone")
    same("rt try" in " ".join(copy.log()), True, "another clone compiles")
    for copy.top in (first, copy.top):
        copy.is_checked("a later run")
    same("rt try" in " ".join(copy.log()), False, "later runs compile")


def test_a_kit_of_another_logic(copy):
    """It is named, and neither proves nor compiles these sources."""
    copy.build()
    copy.write("../kit/KIT-ID", "kit 3 logic 0123456789abcdef\n")
    for command in ("build", "test", "arbiter"):
        status, out, err = copy.call([f"./{command}", *["run"][: command == "arbiter"]])
        same((status, out), (2, ""), f"./{command} with another kit")
        for part in (f"{command}: the Rattle kit on the PATH is of another logic: kit 3 logic 0123",
                     "these sources need rattle-kit-13f or rattle-kit-13b (logic dac8208d"):
            holds(part, err, f"./{command} with another kit")
    same(copy.proved(), [], "what another kit proved")


def test_checked_build_that_fails(copy):
    """What the kit says is shown, nothing is kept, and the status is 2."""
    copy.write("../kit/while", "echo it is wrong >&2; exit 1\n")
    status, out, err = copy.call(["./arbiter", "a"])
    same((status, out), (2, ""), "a checked build that fails")
    holds("it is wrong\narbiter: the checked build cannot be compiled\n", err, "standard error")
    same(os.listdir(f"{copy.cache}/arbiter/checked"), [], "what is kept")


@pytest.mark.parametrize("number", [signal.SIGINT, signal.SIGTERM], ids=["INT", "TERM"])
def test_interrupted_compilation(copy, number):
    """A signal to ./arbiter alone ends the kit too, and nothing is kept."""
    copy.write("../kit/while", f"echo begun >{copy.top}/begun\nexec sleep 60\n")
    with subprocess.Popen(["./arbiter", "a"], cwd=copy.top, stdin=subprocess.DEVNULL,
                          stdout=subprocess.PIPE, stderr=subprocess.PIPE,
                          env=copy.environment(), start_new_session=True) as process:
        wait_for(copy, "begun")
        process.send_signal(number)
        out, _ = process.communicate(timeout=30)
    same((process.returncode, out), (2, b""), "the interrupted call")
    same(group_is_gone(process.pid), True, "processes that are left end soon")
    same(os.listdir(f"{copy.cache}/arbiter/checked"), [], "what is kept")


def wait_for(copy, name):
    """Waits until a file is there, at most half a minute."""
    until = time.monotonic() + 30
    while not copy.there(name) and time.monotonic() < until:
        time.sleep(0.05)


def group_is_gone(group):
    """Whether all processes of a group end within some seconds."""
    for _ in range(100):
        try:
            os.killpg(group, 0)
        except ProcessLookupError:
            return True
        time.sleep(0.1)
    return False


def test_nothing_can_be_kept(copy):
    """Without a folder to keep it in, the checked build is compiled for one run."""
    copy.cache = f"{copy.folder}/file/below"
    copy.write("../file", "no folder\n")
    status, out, err = copy.call(["./arbiter", "a"])
    same((status, out), (0, ""), "rt try itself runs")
    holds("arbiter: the checked build cannot be kept on this machine", err, "standard error")
    holds("run=ended status=0", err, "standard error")


CALLS = ["bash", "scripts/calls.sh"]
TOLD = ("arbiterctl: running the checked build, which proves nothing; ./build --install DIR makes "
        "the C library\narbiterctl: in its answers 'the proved check' is the check of that build\n")


@pytest.fixture
def calls(copy):
    """A copy whose kit compiles a program that answers as the calls do."""
    copy.write("../kit/checked", "#!/bin/sh\nread -r line\n"
               "[ \"$line\" = 'weight_of_shares 1024 2' ] && echo 100\n")
    copy.write("crates/bw_exports/src/lib.rt", "mod plan_call;\nuse more;\n")
    copy.write("crates/bw_exports/src/plan_call.rt", "of plan\n")
    return copy


def test_calls_are_compiled_once(calls):
    """The words that run the calls are printed. The second time nothing is compiled."""
    status, out, err = calls.call(CALLS)
    *loader, program, last = out.split("\0")
    same((status, last, os.path.basename(program)), (0, "", "program"), f"the first time: {err}")
    same(err, "arbiterctl: no C library of these sources: compiling the checked build, which "
         f"proves nothing.\narbiterctl: that took {time_of('checked calls')}; later runs begin at once.\n"
         f"{TOLD}", "standard error of the first time")
    answer = calls.call([*loader, program], b"weight_of_shares 1024 2\n")
    same(answer[:2], (0, "100\n"), "the words")
    same([line for line in calls.log() if line.startswith("rt")], ["rt try"], "compilations")
    same(calls.call(CALLS), (0, out, TOLD), "the second time")
    same([line for line in calls.log() if line.startswith("rt")], [], "the second time compiles")


@pytest.mark.parametrize("path", ["crates/bw_columns/src/lib.rt", "scripts/calls/words.rattle"])
def test_calls_of_each_source(calls, path):
    """An edit of a crate below, or of the program's own files, is compiled."""
    first = calls.call(CALLS)[1]
    calls.write(path, calls.read(path) + "edited\n")
    same(calls.call(CALLS)[1] != first, True, "another program")


def test_calls_are_the_crate_beside_its_program(calls):
    """What is compiled has the files of bw_exports without their root, and the program's."""
    calls.write("../kit/while",
                "(cd src && cat main.rt && echo *) >&2; cat ../../crates.txt >&2; exit 1\n")
    status, out, err = calls.call(CALLS)
    same((status, out), (2, ""), "a program that cannot be compiled")
    own = calls.read("scripts/calls/main.rattle")
    holds(f"{own}mod plan_call;\nanswer.rt calls.rt main.rt plan_call.rt words.rt\n"
          "arbiter_calls: anyhow bw_model ", err, "the crate")
    holds("arbiterctl: the checked build cannot be compiled\n", err, "standard error")


@pytest.mark.parametrize("answer", ["99", ""], ids=["wrong", "none"])
def test_calls_that_answer_otherwise(calls, answer):
    """A program that does not answer as it has to is not kept, and no words are printed."""
    calls.write("../kit/checked", f"#!/bin/sh\necho {answer}\n")
    status, out, err = calls.call(CALLS)
    same((status, out), (1, ""), "a program that answers otherwise")
    holds("arbiterctl: the checked build cannot be kept on this machine; ./build", err, "its end")
    same(os.listdir(f"{calls.cache}/arbiter/checked"), [], "what is kept")


def test_calls_without_a_kit_or_a_folder(calls):
    """Status 2 without the kit, 1 without a folder to keep the program in."""
    calls.cache = f"{calls.folder}/file/below"
    calls.write("../file", "no folder\n")
    same(calls.call(CALLS)[:2], (1, ""), "nothing can be kept")
    calls.rt_there(False)
    status, out, err = calls.call(CALLS)
    same((status, out), (2, ""), "no kit")
    holds(f"arbiterctl: {NO_KIT}\n", err, "no kit")


@pytest.mark.skipif(os.getuid() != 0, reason="only root can give a folder to another user")
def test_no_build_of_another_user(calls):
    """A folder of another user keeps nothing, and no program is run from it."""
    os.makedirs(f"{calls.cache}/arbiter")
    os.chown(f"{calls.cache}/arbiter", 65534, 65534)
    same(calls.call(CALLS)[:2], (1, ""), "the calls")
    status, _, err = calls.call(["./arbiter", "a"])
    same(status, 0, "./arbiter compiles for this run alone")
    holds("arbiter: the checked build cannot be kept on this machine", err, "./arbiter")
    same(os.listdir(f"{calls.cache}/arbiter"), [], "what is kept")


def loosened(copy, name, change):
    """What ./arbiter does after a folder or file of the kept build was opened to others."""
    copy.is_checked("the first run")
    (kept,) = os.listdir(f"{copy.cache}/arbiter/checked")
    path = os.path.normpath(f"{copy.cache}/arbiter/checked/{kept}/{name}")
    with open(f"{copy.cache}/arbiter/checked/{kept}/program", "wb") as file:
        file.write(b"#!/bin/sh\necho theirs\n")
    same(copy.call(["./arbiter", "a"])[1], "theirs\n", "what the cache has")
    change(path)
    return copy.call(["./arbiter", "a"])


@pytest.mark.parametrize("mode", [0o775, 0o757], ids=["a group", "all"])
@pytest.mark.parametrize("name", ["program", ".", "..", "../..", "../../..", "../../../.."])
def test_no_kept_build_that_others_may_write(copy, name, mode):
    """It is not run: neither if they may write it, nor if a folder above."""
    status, out, err = loosened(copy, name, lambda path: os.chmod(path, mode))
    same((status, out), (0, ""), f"rt try itself runs: {err}")
    holds("arbiter: the checked build cannot be kept on this machine", err, "standard error")


@pytest.mark.skipif(os.getuid() != 0, reason="only root can give a folder to another user")
@pytest.mark.parametrize("name", ["program", ".", "..", "../..", "../../..", "../../../.."])
def test_no_kept_build_of_another_user(copy, name):
    """Who owns it, or a folder above, may change it whatever the mode is."""
    status, out, err = loosened(copy, name, lambda path: os.chown(path, 65534, 65534))
    same((status, out), (0, ""), f"rt try itself runs: {err}")


def test_a_kept_build_by_a_link(copy):
    """A link to the cache is followed once, and what it leads to is looked at."""
    os.makedirs(f"{copy.folder}/real", mode=0o755)
    os.symlink(f"{copy.folder}/real", copy.cache)
    copy.is_checked("a link")
    os.chmod(f"{copy.folder}/real", 0o777)
    same(copy.call(["./arbiter", "a"])[:2], (0, ""), "rt try itself runs")


def test_a_kept_build_of_a_wide_umask(copy):
    """Its folders and the program are this user's alone, whatever the umask gives to a group."""
    before = os.umask(0o002)
    try:
        copy.is_checked("the first run")
    finally:
        os.umask(before)
    copy.log()
    copy.is_checked("the second run")
    same([line for line in copy.log() if line.startswith("rt try")], [], "it is kept")


def test_help_and_version_need_no_build(copy):
    """Help and the version are answered without the kit."""
    copy.rt_there(False)
    pages = {"arbiter": (["--help"], ["-h"], ["help"]),
             "run": (["run", "--help"], ["run", "-h"], ["help", "run"]),
             "check": (["check", "--help"], ["check", "-h"], ["help", "check"])}
    for name, ways in pages.items():
        text = (ROOT / f"share/help/{name}.txt").read_text()
        for words in ways:
            same(copy.call(["./arbiter", *words]), (0, text, ""), f"{words}")
    for words in (["--version"], ["-V"]):
        same(copy.call(["./arbiter", *words]), (0, f"arbiter {version()}\n", ""), f"{words}")
    same(copy.call(["./arbiter", "help run"])[0], 2, "two words in one")


def test_runs_without_the_kit(copy):
    """Without rt on the PATH a current program runs. Otherwise the kit and its page are named."""
    copy.build()
    copy.rt_there(False)
    copy.is_native("without the kit")
    copy.write(sources("bw_model")[0], "edited\n")
    for command in ("arbiter", "build", "test"):
        status, out, err = copy.call([f"./{command}", *["run"][: command == "arbiter"]])
        same((status, out), (2, ""), f"./{command} without the kit")
        for part in (f"{command}: {NO_KIT}\n", "rattle-kit-13f or rattle-kit-13b (logic dac8208d",
                     "README.md, 'Build and run'", "an installed program or a .deb needs no kit"):
            holds(part, err, f"./{command} without the kit")


def test_sees_every_source(copy):
    """An edit of a source of any crate of the program is seen, and so is that it was undone."""
    copy.build()
    same(len(copy.ours) > 10, True, "crates of the program")
    for at, crate in enumerate(sorted(copy.ours)):
        path = sources(crate)[at % 3]
        copy.write(path, "edited\n")
        copy.is_checked(f"an edit of {path}")
        copy.write(path, f"of {crate}\n")
        copy.is_native(f"an edit of {path}, undone")


def test_sees_an_edit_in_disguise(copy):
    """A source or a program of the same size and time of the last write is seen."""
    copy.build()
    for path, text in ((sources("bw_split")[0], "OF bw_split\n"),
                       (PROGRAM, NATIVE.replace("exit 7", "exit 8"))):
        before, old = os.stat(f"{copy.top}/{path}"), copy.read(path)
        copy.write(path, text)
        os.utime(f"{copy.top}/{path}", ns=(before.st_atime_ns, before.st_mtime_ns))
        copy.is_checked(f"{path} in disguise")
        copy.write(path, old)
        copy.is_native(f"{path} as it was")


def test_leaves_other_crates_out(copy):
    """The crates of tests are no part of the program."""
    copy.build()
    others = set(copy.crates) - copy.ours
    same({"bw_laws", "dispatch"} <= others, True, f"other crates: {others}")
    same({"bw_shell", "bw_model"} & others, set(), "crates of the program")
    for crate in sorted(others):
        for path in sources(crate):
            copy.write(path, "edited\n")
    copy.is_native("edits of tests")
    copy.write("crates.txt", copy.read("crates.txt") + "more_tests: bw_model\n")
    copy.is_native("a line of tests in crates.txt")


def test_sees_the_lists(copy):
    """crates.txt says which crates count; HANDLES counts."""
    copy.build()
    lines, handles = copy.read("crates.txt"), copy.read("HANDLES")
    copy.write("HANDLES", "Handles allowed: none.\n")
    copy.is_checked("other handles")
    os.remove(f"{copy.top}/HANDLES")
    status, _, err = copy.call(["./build"])
    same(status, 1, "a build without a list")
    holds("build: the kit or the sources cannot be read\nbuild: not built", err, "without a list")
    copy.write("HANDLES", handles)
    copy.is_native("the same handles")
    with_new = re.sub(r"(?m)^(bw_shell .*?:)", r"\1\tbw_new", lines)
    copy.write("crates.txt", with_new.replace("bw_model:", " bw_new :\nbw_model:", 1))
    copy.is_checked("a new crate")
    copy.write("crates/bw_new/src/lib.rt", "of bw_new\n")
    copy.build()
    copy.is_native("a new crate, built")
    copy.write("crates/bw_new/specs/Meaning.antt", "more\n")
    copy.is_checked("a first file in a folder of the new crate")


def test_sees_files_come_and_go(copy):
    """A file that is added, removed or renamed is seen; one that is no source is not."""
    copy.build()
    base = f"{copy.top}/crates/bw_plan"
    copy.write("crates/bw_plan/src/notes.txt", "no source\n")
    copy.write("crates/bw_plan/must-fail/one.edit", "no source\n")
    copy.is_native("files that are no sources")
    copy.write("crates/bw_plan/src/more.rt", "more\n")
    copy.is_checked("a file that was added")
    os.remove(f"{base}/src/more.rt")
    os.rename(f"{base}/src/lib.rt", f"{base}/src/other.rt")
    copy.is_checked("a file with another name")
    os.rename(f"{base}/src/other.rt", f"{base}/src/lib.rt")
    copy.is_native("and with its own")
    os.rename(f"{base}/proofs", f"{base}/before")
    copy.is_checked("a folder that is gone")


def test_sees_the_kit(copy):
    """Another kit is seen, without a call of rt where the kit's file is there."""
    copy.build()
    copy.is_native("the same kit")
    same(copy.log().count("rt version"), 0, "calls of rt version")
    copy.write("../kit/KIT-ID", f"kit 2 {LOGIC}\n")
    copy.is_checked("another kit")
    copy.rt_there(False)
    copy.is_native("no kit")
    copy.rt_there(True)
    os.remove(f"{copy.kit}/KIT-ID")
    copy.log()
    copy.is_native("a kit that says by its command what it is")
    same(copy.log().count("rt version"), 1, "calls of rt version")
    copy.write("../kit/version", "")
    status, out, _ = copy.call(["./arbiter", "a"])
    same((status, out), (2, ""), "a kit that says nothing")


def test_needs_program_and_stamp(copy):
    """Without a program or its stamp, or with another program, the checked build runs."""
    copy.build()
    for name in (PROGRAM, STAMP):
        os.rename(f"{copy.top}/{name}", f"{copy.top}/aside")
        copy.is_checked(f"without {name}")
        os.rename(f"{copy.top}/aside", f"{copy.top}/{name}")
        copy.is_native(f"{name}, back again")
    os.chmod(f"{copy.top}/{PROGRAM}", 0o644)
    copy.is_checked("a program that may not be run")
    os.chmod(f"{copy.top}/{PROGRAM}", 0o755)
    text = copy.read(STAMP)
    for other in (text.replace(text.split("\n")[1], "0" * 64), ""):
        copy.write(STAMP, other)
        copy.is_checked("another stamp")


def test_runs_at_once(copy):
    """Many calls at once all run the program and leave nothing behind."""
    copy.build()
    with concurrent.futures.ThreadPoolExecutor(8) as pool:
        same(set(pool.map(lambda _: copy.runs(), range(16))), {"native"}, "16 calls at once")
    names = ["arbiter", "arbiter.sources", "arbiter.sources.files", "arbiter.sources.names",
             "build.log"]
    same(sorted(os.listdir(f"{copy.top}/{OUT}")), names, "what is in out/")


def test_hashes_once(copy):
    """The second call reads no file. A file that was written since is read, as all are."""
    copy.build()
    path = sources("bw_stat")[1]
    copy.is_native("the first call")
    copy.log()
    copy.is_native("the second call")
    same(copy.log(), [], "what the second call hashed")
    copy.write(path, copy.read(path))
    copy.is_native("a file that was written as it was")
    same(len(copy.log()) > 2, True, "whether the files were hashed")
    copy.write(path, copy.read(path).upper())
    copy.is_checked("a file of the same length and another text")


def test_costs_two_processes(copy):
    """A call of an up-to-date program starts find and cmp, and no other process."""
    copy.build()
    copy.is_native("the first call")
    needed = {"find", "cmp", "cat", "rt"}
    for name in set(os.listdir(copy.bin)) - needed:
        os.remove(f"{copy.bin}/{name}")
    # (cat is what the program of this test calls)
    copy.is_native("with two commands")


@pytest.mark.parametrize("keep", [True, False], ids=["with its times", "with new times"])
def test_copied_clone(copy, keep):
    """A copy of the clone is native. A copy of a clone whose source was edited is not."""
    copy.build()
    copy.is_native("the first call")
    path, first = sources("bw_plan")[0], copy.top
    text = copy.read(path)
    for number, (edited, runs) in enumerate(((text, "native"), (text.upper(), "checked"))):
        copy.top = first
        copy.write(path, edited)
        copy.top = f"{copy.folder}/copy{number}"
        call = shutil.copy2 if keep else shutil.copy
        shutil.copytree(first, copy.top, copy_function=call)
        same([copy.runs() for _ in range(2)], [runs, runs], f"the copy of a {runs} clone")


COARSE = """#!/bin/sh
{find} "$@" | sed -E 's/^([0-9]+)[.][0-9]+/\\1.0000000000/'
"""


def test_times_of_whole_seconds(copy):
    """A file system may tell times of whole seconds. An edit of the same length is seen there too,
    in the second in which the sources were hashed."""
    copy.build()
    copy.is_native("the first call")
    os.remove(f"{copy.bin}/find")
    copy.write("../bin/find", COARSE.format(find=shutil.which("find")))
    os.chmod(f"{copy.bin}/find", 0o755)
    path = sources("bw_plan")[0]
    text = copy.read(path)
    time.sleep(1 - time.time() % 1)
    copy.write(path, text)
    copy.is_native("a file that was written as it was")
    copy.write(path, text.upper())
    copy.is_checked("an edit in the same second")
    copy.write(path, text)
    time.sleep(1.1)
    copy.is_native("a second later")
    copy.log()
    copy.is_native("and again")
    same(copy.log(), [], "what was hashed")


def test_builds_where_needed(copy):
    """./build makes the program and its stamp, and does nothing if that is up to date."""
    holds(f"build: {PROGRAM}, in ", copy.build(), "the first build")
    same(copy.call(["./build"]), (0, f"build: {PROGRAM} is up to date\n", ""), "the second build")
    same([line for line in copy.log() if line.startswith("rt ")], [], "calls of the second build")
    time_of_build = "../cache/arbiter/time of build"
    holds("on this machine", copy.read(time_of_build), "the time from nothing")
    copy.write(time_of_build, "an hour\n")
    copy.write(sources("bw_cert")[1], "edited\n")
    copy.is_checked("an edit")
    holds(f"build: {PROGRAM}, in ", copy.build(), "the build after an edit")
    copy.is_native("after the build")
    same(copy.read(time_of_build), "an hour\n", "the time from nothing")


def test_build_proves_side_by_side(copy):
    """The kit is told a number of crates at a time; each crate that is proved is a line."""
    status, _, err = copy.call(["./build"])
    same(status, 0, err)
    number = len(copy.ours)
    lines = re.findall(r"^build: (\d+) of (\d+) crates \((\w+)\), \d+ s$", err, re.M)
    same([line[:2] for line in lines], [(f"{at}", f"{number}") for at in range(1, number + 1)], err)
    same({line[2] for line in lines}, copy.ours, "crates")
    whole = rf"^build: {number} crates proved, \d+ s, \d+ s of the processors$"
    assert re.search(whole, err, re.M), err
    called = [line for line in copy.log() if line.startswith("rt all")]
    assert re.fullmatch(r"rt all check --jobs [1-9]\d*", *called), called
    holds(f"that took {time_of('build')}", err, "the time is told before")


def test_build_on_a_terminal(copy):
    """On a terminal one line is written anew while the kit works, and nothing of it stays."""
    copy.write("../kit/while", f"until [ -e {copy.top}/go ]; do sleep 0.1; done\n")
    ours, theirs = pty.openpty()
    with subprocess.Popen(["./build"], cwd=copy.top, stdin=theirs, stdout=subprocess.PIPE,
                          stderr=theirs, env={**copy.environment(), "TERM": "xterm"}) as process:
        os.close(theirs)
        text = b""
        for piece in iter(lambda: read_some(ours), b""):
            text += piece
            if text.count(b"\r\x1b[Kbuild: 0 of ") >= 2:
                copy.write("go", "")
        out = process.stdout.read()
    os.close(ours)
    same((process.returncode, out.startswith(b"build: crates/arbiter")), (0, True), f"{text}")
    shown = [part for part in text.split(b"\r\x1b[K") if part.startswith(b"build: 0 of ")]
    assert len(shown) > 1 and b"\n" not in b"".join(shown), text
    assert re.fullmatch(rb"build: 0 of \d+ crates, \d+ s", shown[-1]), shown


def read_some(terminal):
    """What a terminal shows next. It is empty once no process writes to it, or after a minute."""
    if not select.select([terminal], [], [], SECONDS)[0]:
        return b""
    try:
        return os.read(terminal, 4096)
    except OSError:
        return b""


@pytest.mark.parametrize("send", [os.kill, os.killpg], ids=["to the build", "to all"])
def test_interrupted_build_goes_on(copy, send):
    """A build that a signal ends leaves no stamp, ends the kit, and goes on the next time."""
    waiting = f"echo begun >>{copy.top}/begun\n[ -e {copy.top}/go ] || exec sleep 60\n"
    copy.write("../kit/while", waiting)
    for number in (signal.SIGHUP, signal.SIGTERM, signal.SIGINT)[: 3 if send == os.killpg else 2]:
        with subprocess.Popen(["./build"], cwd=copy.top, stdin=subprocess.DEVNULL,
                              stdout=subprocess.PIPE, stderr=subprocess.PIPE,
                              env=copy.environment(), start_new_session=True) as process:
            wait_for(copy, "begun")
            os.remove(f"{copy.top}/begun")
            send(process.pid, number)
            err = process.communicate(timeout=30)[1]
        same((process.returncode, copy.there(STAMP)), (1, False), f"signal {number}")
        holds(b"build: not built; what was proved is kept", err, f"signal {number}")
        told = rb"^build: interrupted: 0 of \d+ crates, \d+ s\nbuild: not built; .*\n\Z"
        assert re.search(told, err, re.M), f"signal {number}: {err}"
        same(group_is_gone(process.pid), True, "processes that are left end soon")
    copy.write("go", "")
    holds(f"build: {PROGRAM}, in ", copy.build(), "the build that goes on")
    copy.is_native("after it")


def test_one_build_at_a_time(copy):
    """A second build of a clone is refused with the process of the first, and goes on after it."""
    copy.write("../kit/while", f"echo begun >{copy.top}/begun\n"
               f"until [ -e {copy.top}/go ]; do sleep 0.1; done\n")
    with subprocess.Popen(["./build"], cwd=copy.top, stdin=subprocess.DEVNULL,
                          stdout=subprocess.PIPE, stderr=subprocess.PIPE,
                          env=copy.environment()) as process:
        wait_for(copy, "begun")
        told = f"build: another build runs in this clone, pid {process.pid}\n"
        same(copy.call(["./build"]), (1, "", told), "a second build")
        copy.write("go", "")
        err = process.communicate(timeout=30)[1]
    holds(f"build: linking {PROGRAM}\n".encode(), err, "it says when it links")
    holds(f"build: {PROGRAM} is up to date", copy.build(), "a build after it")


def test_build_that_fails_shows_the_crate(copy):
    """What the kit says of a crate that failed is shown, and of no other."""
    copy.write("../kit/while", "printf '== bw_model\\nfine\\n== bw_plan\\nsum is wrong\\n'\n"
               "printf '== summary\\n"
               "bw_model: ok\\nbw_plan: failed (1)\\n'; exit 1\n")
    status, _, err = copy.call(["./build"])
    same(status, 1, err)
    holds("build: not proved; all that the kit said is in crates/arbiter/out/build.log\n", err, "")
    holds("== bw_plan\nsum is wrong\nbuild: not built; what was proved is kept", err, "")
    same("fine" in err, False, "a crate that is proved")


def test_takes_no_wrong_program(copy):
    """A build that fails, or whose sources are changed meanwhile, gives no current program."""
    copy.build()
    path = sources("bw_stat")[2]
    copy.write(path, "edited\n")
    copy.write("../kit/while", "[ $1 = try ] || { echo it is wrong >&2; exit 1; }\n")
    status, _, err = copy.call(["./build"])
    same(status, 1, "a build that fails")
    holds("it is wrong\nbuild: not built", err, "a build that fails")
    copy.write(path, "of bw_stat\n")
    copy.is_checked("after a build that failed, undone")
    copy.write("../kit/while", f"[ $1 = try ] || echo late >>{copy.top}/{path}\n")
    status, _, err = copy.call(["./build"])
    same(status, 1, "sources that are changed meanwhile")
    late = f"{PROGRAM} does not count as up to date: sources were changed while it was made"
    holds(late, err, "")
    copy.is_checked("after a build whose sources were changed")
    copy.write("../kit/while", "")
    copy.build()
    copy.is_native("built again")


def test_help_of_build(copy):
    """Help names the option and every place; other words are refused, and nothing is built."""
    status, out, err = copy.call(["./build", "--help"])
    same((status, err), (0, ""), "--help")
    same(copy.call(["./build", "-h"])[1], out, "-h")
    places = re.findall(r"^  ((?:bin|lib|include|share)/\S+)$", out, re.M)
    pages = [place for place in places if place.startswith("share/man/") and "arbiterctl" in place]
    same(len(pages), len(list((ROOT / "share/man").iterdir())), "man pages of arbiterctl in help")
    same(len(places) - len(pages), 21, "other places in help")
    no_folder = [(words, "needs a folder") for words in (["--install"], ["--install", ""])]
    for words, part in ((["--frob"], "'--frob'"), (["dir"], "'dir'"), *no_folder):
        status, out, err = copy.call(["./build", *words])
        same((status, out), (2, ""), f"{words}")
        holds(part, err, f"{words}")
    same([line for line in copy.log() if line.startswith("rt ")], [], "what was called")


# ./test

GATE = """#!/bin/sh
# {keeps}
case $1 in
  ci)
    echo "rt $*" >>"{kit}/log"
    {during}
    mkdir -p {out} && cp "{kit}/made" {program} && chmod 755 {program}
    printf '== bw_text\\nsaid of it\\nrt: bw_text proved\\nrt: bw_plan NOT PROVED\\n' | {lines}
    echo "{last}"
    ;;
  *) exec "{kit}/bin/kit" "$@" ;;
esac
"""
# Stands in for pytest: the report of the tests, and the status.
PYTHON = """#!/bin/sh
echo "python $*" >>"{kit}/log"
case "$*" in
  '-B -m pytest'*) exit {quick} ;;
  '-m pytest'*)
    mkdir -p out
    counts='errors="0" failures="{failures}" skipped="1" tests="{tests}"'
    echo "<testsuite name=\\"pytest\\" $counts>" >out/tests.xml
    exit {status}
    ;;
esac
"""


def with_gate(copy, last, lines="grep -v NOT", during=":", keeps="--anew", **tests):
    """Puts stand-ins for the gate and for pytest into a copy."""
    if not os.path.exists(f"{copy.kit}/bin/kit"):
        shutil.copy(f"{copy.kit}/bin/rt", f"{copy.kit}/bin/kit")
    copy.write("../kit/bin/rt", GATE.format(kit=copy.kit, out=OUT, program=PROGRAM, last=last,
                                            lines=lines, during=during, keeps=keeps))
    wanted = {"failures": 0, "tests": 12, "status": 0, "quick": 0, "kit": copy.kit, **tests}
    copy.write("../kit/python", PYTHON.format(**wanted))
    os.chmod(f"{copy.kit}/python", 0o755)
    text = copy.read("scripts/pytest.sh")
    copy.write("scripts/pytest.sh", re.sub("(?m)^python=.*$", f"python={copy.kit}/python", text))


def test_test_counts_all(copy):
    """The last line counts gate and tests. The program is up to date, the library is linked."""
    same(copy.call(["./test", "frob"])[0], 2, "another word")
    with_gate(copy, "5 passed, 0 failed")
    copy.log()
    status, out, err = copy.call(["./test"], stdin=subprocess.DEVNULL)
    same((status, out.split("\n")[-2]), (0, "16 passed, 0 failed"), f"{out}{err}")
    lines = out.split("\n")
    took = f"{time_of('test')}; less where the gate passed a part before"
    same(lines[0], f"test: from nothing this took {took}", "its begin")
    holds("test: all that the gate says goes to out/gate.log\n", out, "the log")
    holds("said of it\n", copy.read("out/gate.log"), "the log")
    same("said of it" in out, False, "what a passed crate said")
    holds("| Crate | proof, s |", out, "the table")
    same(copy.proved(), [LIBRARY_PROVED], "what ./test proves after the gate")
    copy.is_native("after ./test")
    copy.installs(f"{copy.folder}/there", "after ./test")


def test_what_is_quick_fails_first(copy):
    """./test ends before the gate where a quick test fails."""
    with_gate(copy, "5 passed, 0 failed", quick=1)
    copy.log()
    status, out, err = copy.call(["./test"], stdin=subprocess.DEVNULL)
    same((status, out.split("\n")[-3:-1]), (1, ["test: what is quick failed, so the gate was not run",
                                                "0 passed, 1 failed"]), f"{out}{err}")
    same([line for line in copy.log() if line.startswith("rt")], [], "what the kit does")


@pytest.mark.parametrize("failures", [0, 2])
def test_test_of_the_checked_build(copy, failures):
    """Nothing is proved. The last line says so, and counts crates and wrong bodies."""
    with_gate(copy, "5 passed, 0 failed", failures=failures, status=int(failures > 0))
    copy.log()
    status, out, err = copy.call(["./test", "--checked"], stdin=subprocess.DEVNULL)
    crates = len(re.findall("^[a-z].*:", copy.read("crates.txt"), re.M))
    edits = len(list(Path(copy.top).glob("crates/*/must-fail/*.edit")))
    last = (f"{11 - failures} passed, {failures} failed on the checked build; not proved: {crates}"
            f" crates, nor that their {edits} wrong bodies are refused")
    same((status, out.split("\n")[-2]), (int(failures > 0), last), f"{out}{err}")
    asked = [line for line in copy.log() if line.startswith(("rt ", "python -m"))]
    same([line[:42] for line in asked], ["python -m pytest tests python/tests --check"[:42]], "what runs")


def test_what_the_checked_build_leaves_out():
    """Each line names tests that are there, and has a reason."""
    lines = (ROOT / "tests/checked/left_out.txt").read_text().splitlines()
    rows = [line.split("\t") for line in lines if not line.startswith("#")]
    same([row for row in rows if len(row) != 2 or not row[1]], [], "lines without a reason")
    for begin, _ in rows:
        file, _, name = begin.partition("[")[0].partition("::")
        found = list(ROOT.glob(f"{file}*"))
        same(any(f"\ndef {name}" in path.read_text() for path in found), True, begin)


# The gate leaves a library of each crate. The kit tells its stamp.
LEAVES = """for crate in crates/*; do
  mkdir -p "$crate/out/rlib/${crate#crates/}.rlib" && : >"$crate/out/rlib/${crate#crates/}.rlib/format"
done"""
RTLIB = """class Crate:
    def __init__(self, folder, root, known):
        self.folder = folder

    def stamp(self):
        return f"stamp of {self.folder}"
"""


def library_after(copy, last="5 passed, 0 failed", during=LEAVES):
    """What ./test asks the kit to prove for the library, and the stamp of bw_text at the link."""
    with_gate(copy, last, during=during)
    copy.write("../kit/toolchain/bin/while",
               f"cat crates/bw_text/out/rlib/stamp >{copy.kit}/seen 2>/dev/null\n")
    copy.log()
    copy.call(["./test"], stdin=subprocess.DEVNULL)
    called = [line for line in copy.log() if line.startswith(("rt all", "rt lib"))]
    return [line.split()[1] for line in called], copy.read("../kit/seen")


def test_test_links_over_the_gate(copy):
    """The library is linked over the libraries that the gate left, which nobody takes later."""
    copy.write("../kit/bin/rtlib.py", RTLIB)
    same(library_after(copy), (["lib"], f"stamp of {copy.top}/crates/bw_text"), "the first run")
    same(copy.there("crates/bw_text/out/rlib"), False, "what the gate left")
    same(copy.there(f"{LIBRARY}.sources"), True, "the library's stamp")
    same(library_after(copy)[0], ["lib"], "the second run")


@pytest.mark.parametrize("last, during, rtlib, before", [
    ("5 passed, 1 failed", LEAVES, RTLIB, False),
    ("5 passed, 0 failed", f"{LEAVES}\necho late >>{sources('bw_text')[0]}", RTLIB, False),
    ("5 passed, 0 failed", ":", RTLIB, False),
    ("5 passed, 0 failed", LEAVES, "class Crate: pass\n", False),
    ("5 passed, 0 failed", LEAVES, RTLIB, True),
], ids=["a failure", "changed sources", "no libraries", "another kit", "earlier libraries"])
def test_test_proves_the_library(copy, last, during, rtlib, before):
    """Where the gate's libraries may not be these sources', all below the library is proved."""
    copy.write("../kit/bin/rtlib.py", rtlib)
    if before:
        copy.write("crates/bw_text/out/rlib/bw_text.rlib/format", "earlier\n")
    same(library_after(copy, last, during), (["all", "lib"], ""), "what is asked")


WHOLE = "echo 'rt: ok; every proof and must-fail edit was done in this run'"


@pytest.mark.parametrize("keeps, during, called, less, noted", [
    ("--anew", ":", "rt ci --anew", True, False),
    ("--anew", WHOLE, "rt ci --anew", True, True),
    ("keeps nothing", ":", "rt ci", False, True),
], ids=["keeps a part", "keeps, and did all", "keeps nothing"])
def test_test_anew(copy, keeps, during, called, less, noted):
    """A kit that keeps nothing is given no word. The time of a run from nothing is noted."""
    with_gate(copy, "5 passed, 0 failed", during=during, keeps=keeps)
    copy.log()
    status, out, err = copy.call(["./test", "--anew"], stdin=subprocess.DEVNULL)
    same(status, 0, f"{out}{err}")
    same([line for line in copy.log() if line.startswith("rt ci")], [called], "the gate's words")
    first = out.split("\n")[0]
    same("; less where" in first, less, first)
    same(copy.there("../cache/arbiter/time of test"), noted, "whether the time is noted")


def test_test_quick(copy):
    """The gate sees no must-fail edit, and its program is that of the clone. What is left out is
    said, and the time is that of a quick run."""
    copy.write("crates/bw_text/must-fail/a.edit", "file: src/lib.rt\nold: a\nnew: b\n")
    copy.write("crates/bw_plan/must-fail/b.edit", "file: src/lib.rt\nold: a\nnew: b\n")
    seen = f"find . -name '*.edit' -o -name '*.rt' >{copy.kit}/seen; {WHOLE}"
    with_gate(copy, "5 passed, 0 failed", during=seen)
    copy.log()
    status, out, err = copy.call(["./test", "--quick"], stdin=subprocess.DEVNULL)
    same(status, 0, f"{out}{err}")
    same(out.split("\n")[-3:-1], ["test: left out 2 must-fail edits; ./test, the gate, tries them",
                                  "16 passed, 0 failed"], "its end")
    seen = copy.read("../kit/seen").split()
    holds(f"./{sources('bw_text')[0]}", seen, "the sources that the gate sees")
    same([name for name in seen if name.endswith(".edit")], [], "the edits that the gate sees")
    copy.is_native("after ./test --quick")
    times = {kind: copy.there(f"../cache/arbiter/time of {kind}") for kind in ("quick", "test")}
    same(times, {"quick": True, "test": False}, "the times that are noted")


def test_test_installs_what_it_needs(copy):
    """Missing packages are installed by apt-get where root may, otherwise the command is named."""
    with_gate(copy, "5 passed, 0 failed")
    text = copy.read("../kit/python")
    missing = f"case $1 in -c) [ -e {copy.kit}/installed ]; exit ;; esac\n"
    copy.write("../kit/python", text.replace("#!/bin/sh\n", f"#!/bin/sh\n{missing}", 1))
    apt = f"echo apt-get $1 >>{copy.kit}/log\n[ $1 != install ] || : >{copy.kit}/installed\n"
    for user, wanted in (("1000", []), ("0", ["apt-get update", "apt-get install"])):
        for name, lines in (("id", f"echo {user}\n"), ("apt-get", apt)):
            if os.path.lexists(f"{copy.bin}/{name}"):
                os.remove(f"{copy.bin}/{name}")
            copy.write(f"../bin/{name}", f"#!/bin/sh\n{lines}")
            os.chmod(f"{copy.bin}/{name}", 0o755)
        copy.log()
        status, _, err = copy.call(["./test"])
        called = [line for line in copy.log() if line.startswith("apt-get")]
        same((status, called), (0 if wanted else 2, wanted), f"user {user}: {err}")
        named = ": sudo apt-get install -y --no-install-recommends python3-pytest" in err
        same(named, not wanted, f"user {user}: whether the command is named")


def test_test_names_what_is_skipped(copy):
    """Tools without which tests are skipped are named, and ./test goes on."""
    with_gate(copy, "5 passed, 0 failed")
    status, out, err = copy.call(["./test"])
    same((status, out.split("\n")[-2]), (0, "16 passed, 0 failed"), err)
    holds("test: some tests are skipped: sudo apt-get install -y --no-install-recommends mandoc ",
          err, "the tools")


# Tools that Debian's base has not, and that tests call.
OPTIONAL = """cargo cc chromium clang-14 coqc fish gcc make mandoc objcopy openssl prometheus promtool
rustc shellcheck strace systemd-analyze tmux valgrind zsh""".split()


def called(path):
    """The tools that a file of tests calls: the first words of its lists of words."""
    for node in ast.walk(ast.parse(path.read_text(encoding="utf-8"))):
        if isinstance(node, ast.List) and node.elts:
            word = getattr(node.elts[0], "value", "")
            if word in OPTIONAL:
                yield word


def test_tools_that_may_be_missing():
    """Each tool beyond Debian's base is looked for where it is called. Without it a test is skipped
    with the reason."""
    shared = (ROOT / "tests/shared_fixtures.py").read_text(encoding="utf-8")
    found = {(path.name, tool): path.read_text(encoding="utf-8") + shared
             for folder in ("tests", "python/tests", "bench/kernel")
             for path in (ROOT / folder).glob("test_*.py") for tool in called(path)}
    assert len(found) > 12, found.keys()
    same([each for each, text in found.items() if not re.search(
        rf'which\("{each[1]}"\)|which\([a-z]+\)|which, \(.*"{each[1]}"', text)], [], "not looked for")


def test_test_sees_changed_sources(copy):
    """A program of sources that changed while the gate ran is not up to date."""
    with_gate(copy, "5 passed, 0 failed", during=f"echo late >>{sources('bw_text')[0]}")
    same(copy.call(["./test"])[0], 0, "./test")
    copy.is_checked("after ./test")
    copy.installs(f"{copy.folder}/there", "after ./test", [PROVED])


@pytest.mark.parametrize("gate, tests, last", [
    ("5 passed, 2 failed", {}, "16 passed, 2 failed"),
    ("5 passed, 0 failed", {"failures": 3, "status": 1}, "13 passed, 3 failed"),
    ("5 passed, 0 failed", {"status": 3}, "16 passed, 1 failed"),
    ("killed", {}, "0 passed, 1 failed"),
], ids=["a crate", "tests", "pytest itself", "no end of the gate"])
def test_test_fails(copy, gate, tests, last):
    """Each failure fails ./test, and counts."""
    with_gate(copy, gate, **tests)
    status, out, err = copy.call(["./test"])
    same((status, out.split("\n")[-2]), (1, last), f"{out}{err}")


def test_test_shows_failures(copy):
    """Each failure of the gate is shown, with what the gate said of the crate."""
    with_gate(copy, "5 passed, 2 failed", "cat; printf '"
              "== bw_plan\\nno proof\\nrt: bw_plan NOT PROVED\\n"
              "rt: crates/bw_plan/must-fail/a.edit: NOT REFUSED: still proved\\n'")
    out = copy.call(["./test"])[1]
    for part in ("no proof\nrt: bw_plan NOT PROVED\n", "a.edit: NOT REFUSED: still proved\n"):
        holds(part, out, "./test")
    same("bw_text proved" in out, False, "what passed")


@pytest.mark.parametrize("counted, last", [("may-wait=8 ", "16 passed, 0 failed"),
                                           ("may-wait=6 ", "16 passed, 1 failed"),
                                           ("", "16 passed, 1 failed")])
def test_test_compares_counts(copy, counted, last):
    """crates.txt has as many functions that may wait as the gate counted."""
    holds("\nbw_ticket may_wait=8:", copy.read("crates.txt"), "crates.txt")
    with_gate(copy, "5 passed, 0 failed", "cat; printf '"
              f"logic=proved functions=82 {counted}sum=0\nrt: bw_ticket proved\n'")
    status, out, err = copy.call(["./test"])
    (record,) = Path(copy.cache).glob("arbiter/counts/bw_ticket-*.json")
    same(json.loads(record.read_text())["proof"]["functions"], 82, "what a release has of it")
    same((status, out.split("\n")[-2]), (int(" 1 " in last), last), f"{out}{err}")
    same("gate: crates.txt: bw_ticket: may_wait=8, and the gate counted" in out, " 1 " in last)


# The scripts themselves


def test_shellcheck():
    """shellcheck finds nothing."""
    if not shutil.which("shellcheck"):
        pytest.skip("no shellcheck")
    scripts = [ROOT / name for name in ("arbiter", "build", "test")]
    scripts += [ROOT / "scheduler/needs", *sorted((ROOT / "scripts").glob("*.sh"))]
    ended = run(["shellcheck", "-x", *scripts], cwd=ROOT)
    same((ended.status, ended.out, ended.err), (0, b"", b""), "shellcheck")


def test_readme_names_the_kits():
    """README.md has the kits that the message of a missing kit names, and its heading."""
    kits = re.search("^kits='(.*) \\((.*)\\)'$", (ROOT / "scripts/current.sh").read_text(), re.M)
    page = (ROOT / "README.md").read_text()
    for part in ("\n## Build and run\n", *kits[1].split(" or "), kits[2]):
        holds(part, page, "README.md")


def test_all_of_the_library(copy):
    """The library's stamp speaks of its own crates."""
    copy.installs("there", "a first installation", [PROVED, LIBRARY_PROVED])
    same(copy.there(f"{LIBRARY}.sources"), True, "the library's stamp")
