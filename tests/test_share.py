"""Files of share/ against the program: man page, completions, help, versions, exported names."""
import functools
import os
import re
import shutil
import tempfile
from datetime import datetime

import pytest

from stand_in import Copy, holds, version
from support import ROOT, run, same

HELP = {"arbiter": [], "run": ["run"], "check": ["check"]}


@pytest.mark.parametrize("name", HELP)
def test_help_without_a_build(program, name, request):
    """The help that ./arbiter prints without a build is the program's. --write writes it."""
    page, ended = ROOT / f"share/help/{name}.txt", program.run([*HELP[name], "--help"])
    same((ended.status, ended.err), (0, b""), name)
    if request.config.getoption("write"):
        page.write_bytes(ended.out)
    same(page.read_bytes(), ended.out, name)
    same(program.run(["help", *HELP[name]]).out, ended.out, f"help {name}")
    same(program.run([*HELP[name], "-h"]).out, ended.out, f"{name} -h")


@pytest.fixture
def path(program):
    """The path of the program under test."""
    return program.path


@functools.lru_cache(None)
def helped(program, *words):
    ended = run([program, *words, "--help"])
    same((ended.status, ended.err), (0, b""), f"help of {words}")
    return ended.out.decode()


def options(program, *words):
    """What help says of each option: {long: (short, name of its value, what it is, default)}."""
    option = r"^ +(?:(-\w), +)?(--[\w-]+)(?: <(\w+)>)? {2,}(.*?)(?: \[default: (\w+)\])?$"
    rows = re.findall(option, helped(program, *words), re.M)
    return {row[1]: (row[0], *row[2:]) for row in rows}


def valued(program):
    """The options of run that take a value: {long: (what it is, default)}."""
    return {long: row[2:] for long, row in options(program, "run").items() if row[1]}


def subcommands(program):
    rows = re.search(r"^Commands:\n(.*?)\n\n", helped(program), re.M | re.S).group(1)
    return dict(re.findall(r"^  (\w+) +(.*)$", rows, re.M))


def names(program, *words):
    """All spellings of the options."""
    rows = options(program, *words).items()
    return {name for long, row in rows for name in (long, row[0]) if name}


def script_commands(program):
    text = helped(program, "run").partition("Commands of a script")[2]
    return re.findall(r"^  (\w+)((?: [A-Z]+)*) {2,}\S", text, re.M)


def share(name):
    return (ROOT / "share" / name).read_text()


def test_help_is_read(path):
    """The help has what the other tests compare with."""
    same(sorted(subcommands(path)), ["check", "help", "run"], "subcommands")
    same(sorted(names(path)), ["--help", "--version", "-V", "-h"], "options")
    same(sorted(names(path, "check")), ["--help", "-h"], "options of check")
    defaults = {long: row[1] for long, row in valued(path).items()}
    same(defaults, {"--processors": "1", "--period": "100000", "--slice": "5000"}, "defaults")
    same(len(script_commands(path)), 10, "commands of a script")


# The man page


def items(text, head):
    """The items of the man page's lists with this head: {rest of the line: text in one line}."""
    found = re.findall(rf"^\.It {head} ?(.*)\n((?:(?!\.It|\.El).*\n)*)", text, re.M)
    plain = {name: [re.sub(r"^\.\w+ ", "", line) for line in body.split("\n")]
             for name, body in found}
    return {name: " ".join(lines) for name, lines in plain.items()}


def test_man_page_has_the_options(path):
    """The man page has the options of the help, with their ranges and defaults."""
    page, wanted = share("arbiter.1"), valued(path)
    listed = items(page, "Fl")
    spelled = {f"-{name}" for row in listed for name in row.partition(" Ar")[0].split(" , ")}
    same(spelled, names(path) | names(path, "run") | names(path, "check"), "options")
    long = {f"-{row.partition(' Ar')[0]}": body for row, body in listed.items() if " Ar " in row}
    same(set(long), set(wanted), "options with a value")
    synopsis = set(re.findall(r"^\.Op Fl (-[\w-]+) Ar", page, re.M))
    same(synopsis, {name[1:] for name in wanted}, "options in the synopsis")
    for name, (about, default) in wanted.items():
        holds(f"{about}. The default is {default}. ", long[name], name)


def test_man_page_has_the_commands(path):
    """The man page has what the program is, its subcommands, commands of a script and files."""
    page = share("arbiter.1")
    about = re.search(r"^\.Nd (.*)$", page, re.M).group(1)
    same(about.lower(), helped(path).split("\n")[0].lower(), "what the program is")
    same(set(items(page, "Cm")), set(subcommands(path)), "subcommands")
    said = [(row.partition(" Ar")[0], row.partition(" Ar")[2]) for row in items(page, "Ic")]
    same(said, script_commands(path), "commands of a script")
    files = set(re.findall(r"\bcpu(?:\.[a-z]+)+", helped(path, "run")))
    same(set(items(page, "Pa")), files, "files of a group")


def test_man_page_has_the_statuses(path):
    """The man page has the exit statuses of the help."""
    statuses = dict(re.findall(r"^  (\d+)  (.*)$", helped(path), re.M))
    part = share("arbiter.1").partition(".Sh EXIT STATUS")[2].partition(".Sh EXAMPLES")[0]
    listed = items(part, "")
    same(set(listed), set(statuses), "exit statuses")
    for number, what in statuses.items():
        holds(what.lower(), listed[number].lower(), f"exit status {number}")


def test_man_page_examples(path):
    """Each example of the man page prints the text below it."""
    example = r"^\.Bd .*\n\$ ((?:.*(?:\\e|\|)\n)*.*\n)((?:(?!\.Ed).*\n)*)"
    examples = re.findall(example, share("arbiter.1").partition(".Sh EXAMPLES")[2], re.M)
    same(len(examples), 3, "examples")
    for command, wanted in examples:
        with tempfile.TemporaryDirectory() as folder:
            os.symlink(path, f"{folder}/arbiter")
            environment = {**os.environ, "PATH": f"{folder}:{os.environ['PATH']}"}
            ended = run(["bash", "-c", command.replace("\\e", "\\")], env=environment)
        same((ended.out.decode(), ended.err), (wanted, b""), command)


def needed(command):
    """Skips a test where a command is not installed."""
    if not shutil.which(command):
        pytest.skip(f"no {command}")


def test_man_page_is_clean():
    """mandoc finds nothing but pages that it would find installed."""
    needed("mandoc")
    ended = run(["mandoc", "-Tlint", ROOT / "share/arbiter.1"])
    others = {f"Xr {path.stem} 1" for path in (ROOT / "share/man").iterdir()}
    found = [line for line in ended.out.decode().split("\n")[:-1]
             if line.partition("referenced manual not found: ")[2] not in others]
    same((found, ended.err), ([], b""), "mandoc -Tlint")


# One version, one licence, one list of names


def test_one_version(path):
    """Program, library, header, packages and man page have the version of one constant."""
    wanted = version()
    same(run([path, "--version"]).out.decode(), f"arbiter {wanted}\n", "the program")
    for name, spelled in (("arbiter.pc", "^Version: (.*)$"),
                          ("arbiter.h", '^#define ARBITER_VERSION "(.*)"$'),
                          ("rust/Cargo.toml", '^version = "(.*)"$'),
                          ("arbiter.1", r"^\.Ql arbiter (\S*) ,$"),
                          ("debian/changelog", r"\Aarbiter \((.*)\) "),
                          ("../python/pyproject.toml", '^version = "(.*)"$'),
                          ("../python/arbiter/__init__.py", '^__version__ = "(.*)"$'),
                          ("../python/arbiter_host/__init__.py", '^__version__ = "(.*)"$'),
                          ("../independent/main.ml", '^let version = "(.*)"$'),
                          ("../independent/script_main.ml", '^let version = "(.*)"$')):
        same(re.findall(spelled, share(name), re.M), [wanted], f"version in {name}")
    exported = (ROOT / "crates/bw_exports/src/version_call.rt").read_text()
    same(re.findall('^const VERSION: &str = "(.*)";$', exported, re.M), [wanted], "arbiter_version")
    first = wanted.partition(".")[0]
    same(re.findall(r"^LIBARBITER_(\w+) {$", share("arbiter.map"), re.M), [first], "exported names")
    module = (ROOT / "python/arbiter/found.py").read_text()
    soname = re.findall('^SONAME = "(.*)"$', module, re.M)
    same(soname, [f"libarbiter.so.{first}"], "python/arbiter/found.py")
    symbols = re.findall(r"^(libarbiter\.so\.\S+) ", share("debian/libarbiter1.symbols"), re.M)
    same(symbols, soname, "debian/libarbiter1.symbols")


def test_descriptions_of_packages_are_narrow():
    """lintian takes no line of more than 80 bytes, and runs on a release alone."""
    lines = share("debian/control").splitlines()
    assert len(lines) > 50
    same([line for line in lines if line.startswith(" ") and len(line.encode()) > 80], [], "wide")


def test_newest_changes_are_of_the_version():
    """The first number of CHANGELOG.md is the version, with its day, which is that of the packages,
    and its tag. What is not released is above it."""
    text = (ROOT / "CHANGELOG.md").read_text()
    unreleased, *heads = re.findall(r"^## (.*)$", text, re.M)
    same(unreleased, "Unreleased", "the first heading")
    days = dict(each.split(", ") for each in heads)
    same(list(days)[:1], [version()], "the newest version of CHANGELOG.md")
    holds(f"`v{version()}`", text, "the tag")
    dated = re.search(r"^ -- .*>  \w+, (\d\d \w+ \d{4}) ", share("debian/changelog"), re.M)[1]
    same(datetime.strptime(dated, "%d %b %Y").date().isoformat(), days[version()], "the day")
    numbers = [tuple(map(int, each.split("."))) for each in days]
    same(numbers, sorted(set(numbers), reverse=True), "versions of CHANGELOG.md")
    page = (ROOT / "docs/EMBEDDING.md").read_text()
    installed = set(re.findall(r"libarbiter\.so\.(\d+\.\d+\.\d+)", page))
    same(installed, {version()}, "version in EMBEDDING.md")


def test_one_licence():
    """The packages name the licence of LICENSE-MIT and LICENSE-APACHE."""
    both = "MIT OR Apache-2.0"
    same([(ROOT / f"LICENSE-{name}").is_file() for name in ("MIT", "APACHE")], [True] * 2, "files")
    same(re.findall('^license = "(.*)"$', share("rust/Cargo.toml"), re.M), [both], "Cargo.toml")
    header = re.findall("SPDX-License-Identifier: (.*)$", share("arbiter.h"), re.M)
    same(header, [both], "header")
    holds("MIT or Apache-2.0", share("arbiter.1"), "man page")


def test_library_shows_its_header():
    """The names that the shared library exports are those that the header declares."""
    declared = re.findall(r"^uint(?:32|64)_t (\w+)\(", share("arbiter.h"), re.M)
    listed = r"^  global:\n((?: {4}\w+;\n)*)  local:\n    \*;\n"
    shown = re.search(listed, share("arbiter.map"), re.M).group(1)
    assert len(declared) >= 17
    same(re.findall(r"\w+", shown), declared, "names in arbiter.map")


# Completions


def completed(*words):
    """What bash offers for the last word."""
    command = (f". {ROOT}/share/completions/arbiter.bash; COMP_WORDS=(\"$@\"); "
               "COMP_CWORD=$(($# - 1)); _arbiter; printf '%s\\n' \"${COMPREPLY[@]}\"")
    ended = run(["bash", "-c", command, "bash", "arbiter", *words])
    same((ended.status, ended.err), (0, b""), f"completion of {words}")
    return set(ended.out.decode().split())


def values_are_taken(program, offered):
    """The program takes each value that a completion offers for an option."""
    for name, values in offered.items():
        same(len(values) > 2, True, f"values for {name}")
        for value in values:
            ended = run([program, "run", name, value], b"total\n")
            same((ended.status, ended.out), (0, b"total 0\ndemand 0\n"), f"{name} {value}")


def test_bash_completes(path):
    """bash offers the subcommands and options of the help, and values that are taken."""
    same(completed(""), set(subcommands(path)) | names(path), "first words")
    same(completed("run", ""), names(path, "run"), "words of run")
    same(completed("run", "--slice", "1000", "--pro"), {"--processors"}, "one word of run")
    same(completed("check", ""), names(path, "check"), "words of check")
    same(completed("help", ""), set(subcommands(path)), "words of help")
    same(completed("help", "run", ""), set(), "words after help")
    for long in valued(path):
        offered = completed("run", long, "")
        with_one = {value for value in offered if value.startswith("1")}
        same(completed("run", long, "=", "1"), with_one, f"{long}=1")
        same(completed("run", long, "="), offered, f"{long}=")
        values_are_taken(path, {long: offered})


def test_bash_remarks(path):
    """The remarks in the completion for bash have the ranges and defaults of the help."""
    found = re.findall(r"^ *# (.*)\n *(--\w+)\)", share("completions/arbiter.bash"), re.M)
    remarks = {long: remark for remark, long in found}
    same(set(remarks), set(valued(path)), "options with a remark")
    for long, (about, default) in valued(path).items():
        part = re.search(r"(?:microseconds, )?1.*", about).group(0)
        same(remarks[long], f"{part}, default {default}", f"the remark on {long}")


def test_zsh_has_the_subcommands(path):
    """The completion for zsh has the subcommands of the help, with its words."""
    text = share("completions/_arbiter")
    part = text.partition("commands=(")[2].partition("\n  )")[0]
    listed = dict(re.findall(r"^ +'(\w+):(.*)'$", part, re.M))
    plain = {name: about.replace("\\:", ":") for name, about in listed.items()}
    same(plain, subcommands(path), "subcommands")
    words = re.search(r"help\) _arguments '1:subcommand:\((.*)\)'", text).group(1).split()
    same(words, list(subcommands(path)), "words of help")


@pytest.mark.parametrize("name", ["", "run", "check"], ids=["arbiter", "run", "check"])
def test_zsh_has_the_options(path, name):
    """The completion for zsh has the options of the help, with words, ranges and defaults."""
    text = share("completions/_arbiter")
    blocks = dict(re.findall(r"^ {8}(run|check)\)(.*?);;", text, re.M | re.S))
    blocks[""] = text.partition("_arguments -C")[2].partition("case $state")[0]
    with_value = r"'(--\w+)=\[(.*?) \(default (\w+)\)\]:\w+:\(([\d ]+)\)'"
    found, listed = options(path, *name.split()), re.findall(with_value, blocks[name])
    wanted = {long: row[2:] for long, row in found.items() if row[1]}
    same({row[0]: row[1:3] for row in listed}, wanted, "options with a value")
    values_are_taken(path, {row[0]: row[3].split() for row in listed})
    listed = re.findall(r"'\(- \*\)'\{(-\w),(--\w+)\}'\[(.*?)\]'", blocks[name])
    wanted = {long: (row[0], row[2]) for long, row in found.items() if not row[1]}
    same({long: (short, about) for short, long, about in listed}, wanted, "other options")


def test_zsh_reads_it():
    needed("zsh")
    ended = run(["zsh", "-f", "-n", ROOT / "share/completions/_arbiter"])
    same((ended.status, ended.err), (0, b""), "zsh -n")


def test_fish_agrees(path):
    """The completion for fish has the subcommands and options of the help, with its words."""
    text = share("completions/arbiter.fish")
    listed = dict(re.findall(r"__fish_use_subcommand -a (\w+) -d '(.*)'$", text, re.M))
    same(listed, subcommands(path), "subcommands")
    with_value = r"-n \$in_run -l (\w+) -x -a '([\d ]+)' -d '(.*) \(default (\w+)\)'$"
    rows = re.findall(with_value, text, re.M)
    same({f"--{row[0]}": row[2:] for row in rows}, valued(path), "options with a value")
    values_are_taken(path, {f"--{row[0]}": row[1].split() for row in rows})
    rows = re.findall(r"-s (\w) -l (\w+) -d '(.*)'$", text, re.M)
    wanted = {long: (row[0], row[2]) for long, row in options(path).items()}
    same({f"--{row[1]}": (f"-{row[0]}", row[2]) for row in rows}, wanted, "other options")


def test_fish_completes(path, scratch):
    """fish offers the subcommands and options of the help."""
    needed("fish")
    wanted = {"": set(subcommands(path)), "-": names(path), "run -": names(path, "run"),
              "check -": names(path, "check"), "help ": set(subcommands(path))}
    for line, words in wanted.items():
        asked = f"source {ROOT}/share/completions/arbiter.fish; complete -C 'arbiter {line}'"
        environment = {**os.environ, "HOME": str(scratch)}
        ended = run(["fish", "--no-config", "-c", asked], env=environment)
        offered = {row.split("\t")[0] for row in ended.out.decode().split("\n")} - {""}
        same((offered, ended.err), (words, b""), f"fish, after arbiter {line}")


# The installed program


def test_installed_program_runs(path, scratch):
    """The installed program needs nothing of this folder, no PATH and no kit."""
    folder = os.path.realpath(scratch)
    copy = Copy(folder)
    shutil.copy(path, f"{copy.kit}/made")
    same(copy.call(["./build", "--install", f"{folder}/there"])[0], 0, "./build --install")
    shutil.rmtree(copy.top)
    script = b"mkdir a\ndemand a 7\nplan\n"
    ended = run([f"{folder}/there/bin/arbiter", "run"], script, env={}, cwd="/")
    wanted = (0, b"ok\nok\n7 .\n7 a\n", b"")
    same((ended.status, ended.out, ended.err), wanted, "the installed program")
