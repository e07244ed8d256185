"""Man pages, completions and help of arbiterctl: one source, and what shells make of them."""
import http.server
import json
import os
import pty
import re
import select
import shutil
import subprocess
import sys
import threading
import time

import pytest
import trees
from arbiter_host import helps
from arbiter_host import options
from arbiter_host.subcommands import every, listed
from arbiter_pages import manual, words
from arbiter_pages.__main__ import SHARE, files
from places import PACKAGE

NAMES = listed()
BASH = SHARE / "completions/arbiterctl.bash"
PROGRAM_BASH = SHARE / "completions/arbiter.bash"


@pytest.mark.parametrize("path", files(), ids=lambda path: path.name)
def test_files_are_made_from_the_help(path):
    """`/usr/bin/python3 -m arbiter_pages` in python/ writes them."""
    assert path.read_text(encoding="utf-8") == files()[path]


def test_no_other_page():
    """Each man page is of a subcommand, or of the command itself."""
    found = {path.name for path in (SHARE / "man").iterdir()}
    assert found == {"arbiterctl.1", *(f"arbiterctl-{name}.1" for name in NAMES)}


def rendered(name):
    """A man page as it is read, in one line."""
    if shutil.which("mandoc") is None:
        pytest.skip("no mandoc")
    ended = subprocess.run(["mandoc", "-Tascii", "-Owidth=100", SHARE / "man" / name],
                           capture_output=True, check=False, timeout=60)
    assert ended.returncode == 0, ended.stderr
    plain = re.sub(".\b", "", ended.stdout.decode()).replace("`", "'")
    return " ".join(plain.split())


def test_mandoc_finds_nothing():
    """Neither an error nor a reference to a page that is not installed with it."""
    if shutil.which("mandoc") is None:
        pytest.skip("no mandoc")
    pages = [SHARE / "libarbiter.3", *sorted((SHARE / "man").iterdir())]
    ended = subprocess.run(["mandoc", "-Tlint", *pages], capture_output=True, check=False,
                           timeout=60)
    known = {path.stem for path in [SHARE / "arbiter.1", *pages]}
    named = re.compile(r"referenced manual not found: Xr (\S+) 1")
    found = [line for line in ended.stdout.decode().split("\n")[:-1]
             if not (match := named.search(line)) or match.group(1) not in known]
    assert (found, ended.stderr, len(pages)) == ([], b"", len(NAMES) + 2)


@pytest.mark.parametrize("name", NAMES)
def test_page_has_what_help_says(ctl, name):
    """Each option, argument, example and status that --help prints is in the man page."""
    ctl.environment["COLUMNS"] = "1000"
    said = ctl.run(name, "--help")[0]
    page = rendered(f"arbiterctl-{name}.1")
    rows = re.findall(r"^  (-{1,2}\S.*?)(?:  +(\S.*))?$", said, re.M)
    assert len(rows) >= 2
    for spelled, text in rows:
        for option in re.findall(r"--[a-z-]+", spelled):
            assert option == "--help" or option in page, option
        plain = text.replace("`", "'")
        assert "--help" in spelled or plain[1:] in page, text
    commands = re.findall(r"^  (arbiterctl .*|.*\| arbiterctl .*)$", said, re.M)
    assert commands and all(command in page for command in commands)
    for number, what in helps.STATUSES.items():
        assert f" {number} {what[:1].upper()}{what[1:]}." in page


def test_main_page(ctl):
    """The page of the command has all subcommands, kinds of sources and statuses."""
    page = rendered("arbiterctl.1")
    said = ctl.run("--help")[0]
    for each in every():
        assert each.name in said and each.summary.replace("`", "'")[1:] in page
    assert tuple(manual.KINDS) == options.KINDS
    for kind in manual.KINDS:
        assert f" {kind} " in page


@pytest.fixture
def examples(ctl, folder):
    """A folder with the files that the examples name, and their commands on the PATH."""
    fixtures = PACKAGE / "tests/fixtures"
    for name in ("pods.json", "node.json", "cluster.json"):
        shutil.copy(fixtures / name, folder)
    items = json.loads((fixtures / "cluster.json").read_text())["items"]
    for name, kind in (("nodes", "Node"), ("pods", "Pod")):
        (folder / name).write_text(json.dumps({"items": [
            each for each in items if each["kind"] == kind]}))
    (folder / "pods.csv").write_text("time,prod/db-0\n10:00,0.5\n10:30,0.7\n")
    host = ("[host]\ncpus = 16\nslice = \"1ms\"\n[groups.web]\nweight = 200\nmax = \"2cpu\"\n"
            "demand = \"3cpu\"\n[groups.batch]\ndemand = \"20cpu\"\n")
    (folder / "host.toml").write_text(host)
    for day in ("day", "monday", "tuesday"):
        (folder / f"{day}.csv").write_text("Time,web\n10:00,0.5\n10:30,3\n")
    (folder / "pod.toml").write_text("[groups.pod]\ndemand = \"2cpu\"\n")
    for name, text in (("hosts/one.toml", host), ("demands/one.csv", "Time,web\n10:00,0.5\n")):
        (folder / name).parent.mkdir()
        (folder / name).write_text(text)
    for name in ("before", "after"):
        (folder / f"{name}.script").write_text("# arbiter run --processors 2\nmkdir a\n")
    trees.root2(folder / "cgroup", usage=5)
    for name in ("web.service", "system.slice"):
        trees.group2(folder / "cgroup" / name, usage=5)
    trees.group2(folder / "cgroup/system.slice/db.service", usage=5)
    ctl.run("export", folder / "cgroup", "--read", "2x1ms", "-o",
            f"script={folder / 'host.script'}")
    for at in (1, 2):
        trees.root2(folder / f"copy-{at}")
        trees.group2(folder / f"copy-{at}/web.service", usage=at * 10**6)
    (folder / "bin").mkdir()
    for name, text in (("arbiterctl", f'exec {sys.executable} {PACKAGE}/arbiterctl "$@"'),
                       ("kubectl", f"case $* in top*) cat {fixtures}/top.txt;"
                        f" echo prod api-0 main 70m 9Mi;; *--raw*nodes*) cat {folder}/nodes;;"
                        f" *--raw*) cat {folder}/pods;; *) cat {fixtures}/cluster.json;; esac"),
                       ("systemctl",
                        "case \"$*\" in 'show --property=ControlGroup '*) echo /web.service;;"
                        f" show*) cat {fixtures}/units.show;;"
                        f" *) echo 200 > {folder}/cgroup/web.service/cpu.weight;; esac")):
        (folder / "bin" / name).write_text(f"#!/bin/sh\n{text}\n")
        (folder / "bin" / name).chmod(0o755)
    ctl.environment["PATH"] = f"{folder}/bin:{os.environ['PATH']}"
    return folder


class Counters(http.server.BaseHTTPRequestHandler):
    """Answers each range query with the use of a container of the fixtures, or with its counter."""

    def do_GET(self):
        labels = {"namespace": "prod", "pod": "db-0", "container": "postgres"}
        each = 0 if "rate" in self.path else 60
        series = {"metric": labels, "values": [[60 * at, str(1 + each * at)] for at in range(3)]}
        self.send_response(200)
        self.end_headers()
        self.wfile.write(json.dumps({"data": {"result": [series]}}).encode())

    def log_message(self, *_):
        pass


@pytest.fixture
def server():
    """The port of a server in place of Prometheus."""
    found = http.server.ThreadingHTTPServer(("127.0.0.1", 0), Counters)
    threading.Thread(target=found.serve_forever, daemon=True).start()
    yield found.server_port
    found.shutdown()
    found.server_close()


def busy(command, folder):
    """A command beside which a group of a tree uses something."""
    stat = f"{folder}/cgroup/web.service/cpu.stat"
    return (f"for at in $(seq 3000); do echo usage_usec $at > {stat}.new && mv {stat}.new {stat} &&"
            f" sleep 0.01; done & {command}; ended=$?; kill $!; exit $ended")


def example_command(command, folder):
    """An example that reads a small tree for a moment, in place of this machine for seconds."""
    command = command.replace("/sys/fs/cgroup", f"{folder}/cgroup").replace("10s", "10ms")
    tree = f" {folder}/cgroup" if "cgroup" not in command else ""
    if command.startswith("arbiterctl top"):
        command = command.replace(":9101", ":0").replace("2x5s", "2x10ms")
        command += tree + (" --read 2x10ms" if "--read" not in command else "")
    if command.startswith("arbiterctl audit") and "13x5s" in command:
        command = busy(command.replace("13x5s", "3x500ms") + tree, folder)
    if "apply" in command or "hold" in command:
        command += f" --root {folder}/cgroup"
    return command


@pytest.mark.parametrize("command", [command for each in every() if each.name != "undo"
                                     for command in each.examples.values()])
def test_examples_run(ctl, examples, server, command):
    """Each example of the help and of the man pages ends with status 0 and says something."""
    command = command.replace("127.0.0.1:9090", f"127.0.0.1:{server}")
    ended = subprocess.run(["bash", "-c", example_command(command, examples)], cwd=examples,
                           capture_output=True, env=ctl.environment, timeout=60, check=False)
    assert (ended.returncode, b"Traceback" in ended.stderr) == (0, False), ended.stderr.decode()
    made = re.search(r"(?: -o \w+=| --undo )(\S+)", command.rpartition("|")[2])
    assert (examples / made.group(1)).stat().st_size if made else ended.stdout


def test_example_of_undo(ctl, examples):
    """The example of `undo` takes back what that of `apply` did."""
    weight = examples / "cgroup/web.service/cpu.weight"
    (undo,) = [command for each in every() if each.name == "undo"
               for command in each.examples.values()]
    apply = next(command for each in every() if each.name == "apply"
                 for command in each.examples.values() if "--yes" in command)
    for command, holds in ((apply, "200"), (undo, "100")):
        systemctl = examples / "bin/systemctl"
        systemctl.write_text('#!/bin/sh\n[ "$1" = show ] && exec echo /web.service\n'
                             f"echo {holds} > {weight}\n")
        subprocess.run(["bash", "-c", example_command(command, examples)], cwd=examples,
                       env=ctl.environment, timeout=60, check=True, capture_output=True)
        assert weight.read_text().strip() == holds


# Completions


def completed(*typed):
    """What bash offers for the last word."""
    command = (f'. {BASH}; COMP_WORDS=("$@"); COMP_CWORD=$(($# - 1)); _arbiterctl; '
               "printf '%s\\n' \"${COMPREPLY[@]}\"")
    ended = subprocess.run(["bash", "-c", command, "bash", "arbiterctl", *typed], timeout=60,
                           capture_output=True, check=False)
    assert (ended.returncode, ended.stderr) == (0, b""), ended.stderr
    return set(ended.stdout.decode().split())


def test_bash_offers_the_words():
    """Subcommands, options and values; nothing where a file or a redirection stands."""
    assert completed("") == {*NAMES, "-h", "--help", "-V", "--version"}
    for each in every():
        listed = {name for word in words.options(each) for name in word.names}
        assert completed(each.name, "x", "-") == listed
        assert completed(each.name, "x", "") == set()
    assert completed("explain", "--unit", "") == {"cpu", "m", "%", "slices", "us"}
    assert completed("explain", "--unit", "=", "s") == {"slices"}
    assert completed("explain", "--unit", "=") == {"cpu", "m", "%", "slices", "us"}
    assert completed("export", "-o", "") == {"script", "toml", "json"}
    assert completed("explain", "--state", "st") == {"starved"}
    for mark in ("<", ">", ">>", "2>", "&>"):
        assert completed("explain", mark, "") == set() == completed("explain", mark)


def typed_in_bash(folder, lines):
    """What a terminal shows of lines that are typed into bash, with tabs."""
    child, terminal = pty.fork()
    if child == 0:
        os.chdir(folder)
        os.execvpe("bash", ["bash", "--norc", "--noprofile", "-i"],
                   {**os.environ, "PS1": "$ ", "TERM": "dumb"})
    said = b""

    def wait_for(text):
        nonlocal said
        end = time.monotonic() + 30
        while text not in said and time.monotonic() < end:
            if select.select([terminal], [], [], 0.1)[0]:
                said += os.read(terminal, 65536)
        assert text in said, said

    wait_for(b"$ ")
    for line, text in lines:
        os.write(terminal, line.encode())
        wait_for(text.encode())
    os.write(terminal, b"exit\n")
    os.waitpid(child, 0)
    os.close(terminal)


def test_bash_leaves_files_to_the_shell(folder):
    """A tab completes a file as an argument, behind `<` and behind `>`."""
    (folder / "input.script").write_text("of the file\n")
    setup = (f". {BASH}; . {PROGRAM_BASH}; arbiter() {{ echo \"[$*]\"; cat; }};"
             " arbiterctl() { echo \"[$*]\"; }; echo ready | tr a-z A-Z\n")
    typed_in_bash(folder, [
        (setup, "READY"), ("arbiterctl explain inp\t\n", "[explain input.script]"),
        ("arbiter run < inp\t\n", "of the file"), ("arbiter run --sl\t 5000 < inp\t\n",
                                                   "[run --slice 5000]"),
        ("arbiterctl top > inp\t\n", "top > input.script"),
        ("cat inp\t\n", "[top]")])


def test_zsh_reads_it():
    """zsh finds no fault, and has the options of each subcommand."""
    if shutil.which("zsh") is None:
        pytest.skip("no zsh")
    path = SHARE / "completions/_arbiterctl"
    ended = subprocess.run(["zsh", "-f", "-n", path], capture_output=True, check=False, timeout=60)
    assert (ended.returncode, ended.stderr) == (0, b"")
    text = path.read_text()
    for each in every():
        part = re.search(rf"^ {{8}}{each.name}\)(.*?);;", text, re.M | re.S).group(1)
        for word in words.options(each):
            assert all(name in part for name in word.names)


@pytest.mark.parametrize("program", ["arbiterctl explain", "arbiter run"])
def test_fish_leaves_files_to_the_shell(folder, program):
    """fish offers options, and files behind `<`."""
    if shutil.which("fish") is None:
        pytest.skip("no fish")
    (folder / "input.script").write_text("")
    name = program.partition(" ")[0]

    def offered(line):
        asked = f"source {SHARE}/completions/{name}.fish; complete -C '{line}'"
        ended = subprocess.run(["fish", "--no-config", "-c", asked], capture_output=True,
                               cwd=folder, env={**os.environ, "HOME": str(folder)}, check=False,
                               timeout=60)
        assert ended.stderr == b""
        return {row.split("\t")[0] for row in ended.stdout.decode().split("\n")}

    assert "--slice" in {each.rstrip("=") for each in offered(f"{program} --s")}
    assert "input.script" in offered(f"{program} < inp")
    assert ("input.script" in offered(f"{program} inp")) == (name == "arbiterctl")
