"""The package as a whole: types, names, lengths, versions, help."""
import ast
import functools
import re
import subprocess
import sys
import tomllib
from pathlib import Path

import arbiter
import arbiter_host
import pytest
from arbiter_host.subcommands import listed
from places import PACKAGE

FOLDERS = ("arbiter", "arbiter_host", "arbiter_pages")
SOURCES = [path for folder in FOLDERS for path in sorted((PACKAGE / folder).rglob("*.py"))]
SOURCES.append(PACKAGE / "arbiterctl")
TESTS = sorted((PACKAGE / "tests").glob("*.py"))
SUBCOMMANDS = listed()
MOST_LINES, MOST_COLUMNS = 40, 100


def ended(*words):
    """What a checker says."""
    found = subprocess.run([sys.executable, "-m", *words], capture_output=True, text=True,
                           cwd=PACKAGE, check=False, timeout=300)
    return found.returncode, found.stdout + found.stderr


def test_mypy(tmp_path):
    status, said = ended("mypy", "--strict", "--cache-dir", str(tmp_path), *FOLDERS)
    assert status == 0, said


def test_pyflakes():
    status, said = ended("pyflakes", *map(str, SOURCES + TESTS))
    assert (status, said) == (0, "")


@pytest.mark.parametrize("path", SOURCES + TESTS, ids=lambda path: path.name)
def test_columns(path):
    lines = path.read_text(encoding="utf-8").split("\n")
    assert [line for line in lines if len(line) > MOST_COLUMNS] == []


def module(path):
    """The last part of a module's name."""
    return path.parent.name if path.stem == "__init__" else path.stem


def named(path):
    """What a module names of others: the last part of the other's name, and the name in it."""
    tree, modules, found = ast.parse(path.read_text(encoding="utf-8")), {}, set()
    for node in ast.walk(tree):
        if isinstance(node, ast.ImportFrom):
            modules |= {each.asname or each.name: each.name for each in node.names}
            found |= {(node.module.rpartition(".")[2], each.name) for each in node.names}
    return found | {(modules[node.value.id], node.attr) for node in ast.walk(tree)
                    if isinstance(node, ast.Attribute) and isinstance(node.value, ast.Name)
                    and node.value.id in modules}


@functools.cache
def all_named():
    """What all modules name of others."""
    return set().union(*map(named, SOURCES))


@pytest.mark.parametrize("path", SOURCES, ids=lambda path: path.name)
def test_functions_are_short_and_have_comments(path):
    """Each module and class has a comment, and each function that another module names."""
    tree = ast.parse(path.read_text(encoding="utf-8"))
    assert ast.get_docstring(tree)
    for node in ast.walk(tree):
        if isinstance(node, (ast.FunctionDef, ast.ClassDef)):
            lines = (node.end_lineno or 0) - node.lineno + 1
            if isinstance(node, ast.FunctionDef):
                assert lines <= MOST_LINES, f"{node.name}: {lines} lines"
    public = [node for node in tree.body if isinstance(node, ast.ClassDef)
              or isinstance(node, ast.FunctionDef) and (module(path), node.name) in all_named()]
    assert [node.name for node in public if not ast.get_docstring(node)] == []


def test_no_class_name_stands_twice():
    """A name that two modules give to classes of theirs tells neither."""
    names = [node.name for path in SOURCES
             for node in ast.walk(ast.parse(path.read_text(encoding="utf-8")))
             if isinstance(node, ast.ClassDef)]
    assert {each for each in names if names.count(each) > 1} == set()


def imported(*words):
    """The modules that the parser of some words imports."""
    script = ("import sys; from arbiter_host import command;"
              " command.parser_of_all() if sys.argv[1:] == ['--help'] else"
              " command.parsed(sys.argv[1:]); print(*sys.modules)")
    found = subprocess.run([sys.executable, "-c", script, *words], capture_output=True, text=True,
                           cwd=PACKAGE, check=True, timeout=60)
    return set(found.stdout.split())


def test_a_short_command_imports_little():
    """The list of all imports no subcommand, and a subcommand no other one."""
    place = "arbiter_host.subcommands."
    for words, wanted in ((["--help"], set()), (["undo", "x"], {"undo", "_steps"})):
        found = imported(*words)
        assert {name.removeprefix(place) for name in found if name.startswith(place)} == wanted
    unused = {"textwrap", "signal", "dataclasses", "ctypes", "arbiter"}
    assert not unused & imported("--help")


def test_one_version(program):
    """The package's version is that of the header, of pyproject and of the program."""
    header = (PACKAGE.parent / "share/arbiter.h").read_text()
    project = tomllib.loads((PACKAGE / "pyproject.toml").read_text())["project"]
    version = re.search(r'ARBITER_VERSION "(.*)"', header).group(1)
    versions = [arbiter.__version__, arbiter_host.__version__, project["version"]]
    assert versions == [version] * 3


def test_all_folders_are_packages():
    """pyproject names each folder of the packages that are installed."""
    project = tomllib.loads((PACKAGE / "pyproject.toml").read_text())["tool"]["setuptools"]
    folders = {path.parent.relative_to(PACKAGE) for top in FOLDERS[:2]
               for path in (PACKAGE / top).rglob("*.py")}
    assert sorted(project["packages"]) == sorted(".".join(each.parts) for each in folders)


def test_packages_of_debian():
    """The versions that pyproject names are not above those that are here."""
    project = tomllib.loads((PACKAGE / "pyproject.toml").read_text())["project"]
    named = project["dependencies"] + project["optional-dependencies"]["test"]
    from importlib.metadata import version
    for each in named:
        name, least = each.split(">=")
        here = [int(part) for part in re.findall(r"\d+", version(name))]
        assert here >= [int(part) for part in re.findall(r"\d+", least)], each


@pytest.mark.parametrize("command", SUBCOMMANDS)
def test_help(ctl, command):
    """Each subcommand has help that names its statuses, and refuses words that it does not know."""
    out, _ = ctl.run(command, "--help")
    assert "exit status" in out and "usage" in out
    _, err = ctl.run(command, "--frob", status=2)
    assert err == (f"arbiterctl {command}: unrecognized arguments: --frob; arbiterctl {command}"
                   " --help says more\n") or "required: " in err and err.count("\n") == 1


def test_all_subcommands_are_tested(ctl):
    out, _ = ctl.run("--help")
    assert set(re.findall(r"^    ([a-z-]+)(?: |$)", out, re.M)) == set(SUBCOMMANDS)
    assert ctl.run("--version")[0] == f"arbiterctl {arbiter_host.__version__}\n"


def test_pages_name_all_options(ctl):
    """Each option of explain that TOOLS.md names is one."""
    page = (Path(PACKAGE).parent / "docs/TOOLS.md").read_text()
    known = "".join(ctl.run(command, "--help")[0] for command in SUBCOMMANDS)
    for option in set(re.findall(r"`(--[a-z-]+)", page)) - {"--runtime", "--help"}:
        assert option in known, option
