"""The graph of imports: each module stands in a layer, and leans on no layer above it."""
import ast
import functools
import re

from arbiter_host.subcommands import NAMES
from places import PACKAGE

# From the lowest on: the folders of the package, and its modules beside them.
LAYERS = [["base"], ["sources"], ["answers"], ["setting"],
          ["audit", "exports", "fleet", "hold", "recommend", "top", "tune"],
          ["options", "records", "helps", "subcommands", "command", "__main__"]]
FEATURES = LAYERS[-2]
LAYER = {name: at for at, names in enumerate(LAYERS) for name in names}


def modules():
    """The modules of the package by their names below it, without its own `__init__`."""
    top = PACKAGE / "arbiter_host"
    names = {}
    for path in sorted(top.rglob("*.py")):
        name = ".".join(path.relative_to(top).with_suffix("").parts)
        names[name.removesuffix(".__init__")] = path
    del names["__init__"]
    return names


MODULES = modules()


def for_types(tree):
    """The imports that a checker of types alone reads."""
    return {id(each) for node in ast.walk(tree) if isinstance(node, ast.If)
            and getattr(node.test, "id", "") == "TYPE_CHECKING" for each in ast.walk(node)}


def imported(path):
    """The modules of the package that one imports, also within its functions."""
    tree = ast.parse(path.read_text(encoding="utf-8"))
    left, found = for_types(tree), set()
    for node in ast.walk(tree):
        if not isinstance(node, ast.ImportFrom) or id(node) in left:
            continue
        package, _, place = node.module.partition(".")
        if package != "arbiter_host":
            continue
        for each in node.names:
            below = f"{place}.{each.name}".lstrip(".")
            found.add(below if below in MODULES else place)
    return found - {""}


@functools.cache
def edges():
    """Each module with each that it imports."""
    return [(name, other) for name, path in MODULES.items() for other in imported(path)]


def head(name):
    """The first part of a module's name."""
    return name.partition(".")[0]


def test_each_folder_has_its_layer():
    assert {head(name) for name in MODULES} == set(LAYER)


def test_nothing_leans_upward():
    """A module imports none of a layer above its own."""
    assert [edge for edge in edges() if LAYER[head(edge[0])] < LAYER[head(edge[1])]] == []


def compared(path):
    """The strings with which a module compares, and what it imports whole."""
    for node in ast.walk(ast.parse(path.read_text(encoding="utf-8"))):
        if isinstance(node, ast.Compare):
            yield from (each.value for side in (node.left, *node.comparators)
                        for each in ast.walk(side) if isinstance(each, ast.Constant))
        elif isinstance(node, ast.Import):
            yield from (each.name for each in node.names)


def test_words_of_the_command_line_end_in_its_layer():
    """Below, no module asks which subcommand runs, and none takes what argparse makes."""
    assert [(name, word) for name, path in MODULES.items() if LAYER[head(name)] < len(LAYERS) - 1
            for word in compared(path) if word in {*NAMES, "argparse"}] == []


def test_features_know_no_feature():
    """What two features need stands below both."""
    assert [edge for edge in edges() if all(head(each) in FEATURES for each in edge)
            and head(edge[0]) != head(edge[1])] == []


def test_no_module_leans_on_itself():
    """There is no way round from a module to itself."""
    below = {name: imported(path) for name, path in MODULES.items()}
    while below:
        free = {name for name, others in below.items() if not others & below.keys() - {name}}
        assert free, sorted(below)
        below = {name: others for name, others in below.items() if name not in free}


PAGE = (PACKAGE.parent / "docs/ARCHITECTURE.md").read_text(encoding="utf-8")


def test_page_has_the_folders():
    """docs/ARCHITECTURE.md has a line for each folder and module at the top, in their order."""
    part = PAGE[PAGE.index("## The Python package"):PAGE.index("## Rules")]
    rows = [re.findall(r"`(\w+)`", row) for row in re.findall(r"^ *- (.*?):", part, re.M)]
    listed = [name for row in rows for name in row]
    assert sorted(listed) == sorted(LAYER)
    assert [LAYER[name] for name in listed] == sorted(LAYER.values())


def test_rules_are_there():
    """Each function and test that a Python row of the rules names is in its file."""
    named = re.findall(r"`([\w/]+\.py):(\w+)`", PAGE[PAGE.index("## Rules"):])
    assert len(named) >= 8
    tests = (PACKAGE / "tests", PACKAGE.parent / "tests/kernel")
    for file, name in named:
        folders = tests if file.startswith("test_") else (PACKAGE / "arbiter_host",)
        texts = [(folder / file).read_text(encoding="utf-8") for folder in folders
                 if (folder / file).is_file()]
        assert any(f"def {name}(" in text for text in texts), f"{file}:{name}"
