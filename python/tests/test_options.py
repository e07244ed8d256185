"""The one table of options: its size, what parsers make of it, and what has no effect."""
import argparse
import re
from pathlib import Path

import pytest
import trees
from arbiter_host.answers import explain
from arbiter_host import options as table
from arbiter_host.base import demands, text
from arbiter_host.base.faults import UsageFault
from arbiter_host.fleet import report
from arbiter_host.sources import times
from arbiter_host.sources.register import READERS
from arbiter_host.subcommands import NAMES, Subcommand, listed

FIXTURES = Path(__file__).parent / "fixtures"


def parsed(subcommand, *words):
    """What words ask of a subcommand that has the options of the table alone."""
    parser = argparse.ArgumentParser(exit_on_error=False)
    table.add(parser, subcommand)
    return table.fill(parser.parse_args(words))


def test_size():
    """At most 46 options, help among them, each with a flag and a dest of its own."""
    assert len(table.TABLE) + 1 <= table.MOST
    flags = [flag for each in table.TABLE for flag in each.flags]
    assert len(flags) == len(set(flags))
    assert len({each.dest for each in table.TABLE}) == len(table.TABLE)


def test_rows_are_of_subcommands_that_are_there():
    """Texts, kinds and defaults of a subcommand belong to an option that it takes. Each option has
    a text, and each word that is said of a subcommand is read."""
    assert all(each.flags and each.title and each.help for each in table.TABLE)
    for name in NAMES:
        said = table.texts(name)
        assert set(said) <= {*Subcommand._fields, "order", "forms", "takes", "options",
                             "kinds", "choices", "defaults"} - {"name"}, name
        assert {each.dest for each in table.of(name)} == set(said["takes"]), name
        for own in ("options", "kinds", "choices", "defaults"):
            assert set(said.get(own, ())) <= set(said["takes"]), name
        assert all(set(each.kinds) <= set(table.SETS["all"]) for each in table.of(name)), name
        assert ("output" in said["takes"]) == bool(table.forms(name)), name


def test_words_are_those_of_what_they_choose():
    """What options offer is what their readers know."""
    words = {each.dest: each.choices for each in table.TABLE}
    assert set(words["state"]) == set(explain.ONLY) and set(words["sort"]) == set(explain.SORTS)
    assert set(words["unit"]) == set(text.UNIT_WORDS) and set(words["rank"]) == set(report.RULES)
    assert words["want"] == demands.WANTS and words["kind"] == table.KINDS
    assert set(table.KINDS) == set(READERS)
    assert {each.dest for name in NAMES for each in table.of(name)} == {
        each.dest for each in table.TABLE}


def test_each_subcommand_has_its_place():
    """Twelve, in the order of the list."""
    assert [table.texts(name)["order"] for name in listed()] == list(range(1, 13))


def test_every_dest_has_its_value():
    """Each dest of the table is there after `fill`; those that were given are named."""
    found = parsed("explain", "--node", "n1", "-g", "a", "-g", "b", "--unit", "cpu")
    assert found.given == {"node", "group", "unit"}
    assert (found.node, found.group, found.depth, found.yes) == ("n1", ["a", "b"], 64, False)
    assert all(hasattr(found, each.dest) for each in table.TABLE)


@pytest.mark.parametrize("subcommand,words,kind,said", [
    ("explain", ["--node", "zz"], "toml", "--node: it has no effect on a source of the kind toml"),
    ("explain", ["--node-weights", "log"], "script", "--node-weights: it has no effect on "),
    ("explain", ["--read", "5x1s"], "script", "--read: it has no effect on "),
    ("explain", ["--strict"], "kubernetes", "--strict: it has no effect on "),
    ("explain", ["--workers", "0"], "toml", "--workers: it has no effect on "),
    ("explain", ["--sort", "lack"], "hosts", "--sort: it has no effect on many hosts"),
    ("explain", ["-n", "prod"], "docker", "--namespace: it has no effect on "),
    ("explain", ["--used", "f"], "systemd", "--used: it has no effect on "),
    ("explain", ["--used", "/"], "cgroup", "--used: it has no effect on "),
    ("explain", ["--used", "/"], "script", "--used: it has no effect on "),
    ("explain", ["--range", "7d"], "kubernetes", "--range: it needs --used with a url"),
    ("recommend", ["--map", "a=b"], "docker", "--map: it needs --used with a file or folder or"),
])
def test_no_effect_is_refused(subcommand, words, kind, said):
    with pytest.raises(UsageFault, match=re.escape(said)):
        table.check(parsed(subcommand, *words), kind)


def test_apply_has_no_period_of_a_plan():
    """Settings are those of any period and slice."""
    assert not {"period", "slice"} & {each.dest for each in table.of("apply")}


def test_reading_once_takes_no_read(ctl, folder):
    """Units that were printed once, and demands that are no use, have nothing to be read again."""
    trees.root2(folder / "t")
    trees.group2(folder / "t" / "a")
    for source in (FIXTURES / "units.show", folder / "t"):
        words = ("explain", source, "--cpus", "2", "--want", "busy")
        _, err = ctl.run(*words, "--read", "3x1s", status=2)
        assert "--read: it has no effect on a source that is read once" in err
        ctl.run(*words)


@pytest.mark.parametrize("subcommand,words,kind", [
    ("explain", ["--node", "n1", "-n", "prod", "--node-weights", "log"], "kubernetes"),
    ("explain", ["--used", "http://127.0.0.1:9090", "--range", "7d"], "docker"),
    ("explain", ["--used", "/", "--read", "10x1s"], "kubernetes"),
    ("explain", ["--used", "/", "--read", "10x1s"], "systemd"),
    ("explain", ["--read", "10x1s"], "cgroup"), ("top", ["--read", "x5s"], "toml"),
    ("replay", ["--used", "day.csv", "--step", "30m", "--map", "a=b"], "toml"),
    ("diff", ["--workers", "2", "--set", "web.weight=1"], "hosts"),
])
def test_what_has_an_effect_is_taken(subcommand, words, kind):
    table.check(parsed(subcommand, *words), kind)


def test_outputs():
    def found(*words):
        return [tuple(each) for each in table.outputs(parsed("explain", *words))]

    assert found() == [("text", "-")]
    assert found("-o", "json", "-o", "html=a=b") == [("json", "-"), ("html", "a=b")]
    for words in (("-o", "yaml"), ("-o", "html="), ("-o", "json", "-o", "text")):
        with pytest.raises(UsageFault):
            found(*words)


@pytest.mark.parametrize("words, said", [
    (["--state", "hurt", "-o", "svg"], "--state: it has no effect on -o svg"),
    (["--all", "-o", "json", "-o", "csv=f"], "--all: it has no effect on -o json and csv"),
])
def test_no_effect_on_a_form_is_refused(words, said):
    with pytest.raises(UsageFault, match=re.escape(said)):
        table.outputs(parsed("explain", *words))
    table.outputs(parsed("explain", *words, "-o", "text=g"))


def test_readings():
    assert times.times_of("10x1s") == (1, 10)
    assert times.times_of("x5min") == (300, None)
    for words in ("10", "x", "0x1s", "10001x1s", "-1x1s"):
        with pytest.raises(UsageFault):
            times.times_of(words)
