"""No form of an answer has a control, direction or line character of a name raw. Each category of
Unicode is tried, by the one function that all forms have their names from, and by each form."""
import json
import os
import threading
import tomllib
import unicodedata
from contextlib import contextmanager

import pytest
import trees
from arbiter_host import options
from arbiter_host.base import names, output
from arbiter_host.sources import hostfile
from places import PACKAGE

FIXTURES = PACKAGE / "tests/fixtures"
LAST = 0x110000
# Categories of letters that a terminal or a page could take as a command, or that turn a text
# round: controls, formats, halves of letters, private, unassigned, and ends of lines.
RAW = {"Cc", "Cf", "Cs", "Co", "Cn", "Zl", "Zp"}


def first_and_last():
    """The first letter of each category, the last one, and the last one of two bytes in UTF-16."""
    found = {}
    for letter in map(chr, range(LAST)):
        each = found.setdefault(unicodedata.category(letter), [letter] * 3)
        each[2] = letter
        if letter < "\U00010000":
            each[1] = letter
    return {key: "".join(dict.fromkeys(each)) for key, each in found.items()}


LETTERS = first_and_last()
# What a name of a source may hold: not what its JSON or a path of it cannot. And the famous ones.
HOSTILE = "".join(LETTERS.values()) + "\x1b[31m\x07\x7f\x85\u061c\u200b\u200f\u2028\u2029\u202e" + (
    "\u2066\u2069\ufeff\U000e0041\U000e007f")
FOR_PATHS = "".join(each for each in HOSTILE if each not in "/\0" and not (
    "\ud800" <= each <= "\udfff"))


def raw(text):
    """The letters of a text that may not be there. Lines end by a newline."""
    return sorted({each for each in text if unicodedata.category(each) in RAW and each != "\n"})


def test_all_categories_are_tried():
    assert len(LETTERS) == 30 and RAW < set(LETTERS)
    assert {unicodedata.category(each) for each in FOR_PATHS} >= set(LETTERS) - {"Cs"}
    assert raw("a\n\u202e\tb") == ["\t", "\u202e"]


def test_every_letter_by_every_escape():
    """Nothing raw is left, and what reads the form has the letter again. Of private and unassigned
    letters each hundredth is tried, of all others all."""
    every = "".join(each for each in map(chr, range(LAST)) if ord(each) % 100 == 99
                    or unicodedata.category(each) not in ("Cn", "Co"))
    halves = {at: "\ufffd" for at in range(0xd800, 0xe000)}
    in_json, in_toml = output.json_text({"a": [every]}), hostfile.toml_value(every)
    for text in (names.shown(every), in_json, in_toml, names.in_path(every)):
        assert raw(text) == []
    read = json.loads(in_json)["a"][0]
    assert read.encode("utf-16-le", "surrogatepass") == every.encode("utf-16-le", "surrogatepass")
    assert tomllib.loads(f"a = {in_toml}")["a"] == every.translate(halves)
    assert names.raw_name(names.in_path(FOR_PATHS[:20])) == FOR_PATHS[:20]


def with_letters(data, keys):
    """Data of JSON in which the names under some keys have hostile letters at their ends."""
    if isinstance(data, list):
        return [with_letters(each, keys) for each in data]
    if isinstance(data, dict):
        return {key: f"{each}{HOSTILE}" if key in keys and isinstance(each, str)
                else with_letters(each, keys) for key, each in data.items()}
    return data


@pytest.fixture(scope="module", name="sources")
def sources_with_letters(tmp_path_factory):
    """Hostile names of each kind of source, and words that read it."""
    folder = tmp_path_factory.mktemp("letters")

    def put(name, text):
        (folder / name).write_text(text, encoding="utf-8", errors="surrogatepass")
        return folder / name

    def fixture(name, *keys):
        return put(name, json.dumps(with_letters(json.loads(
            (FIXTURES / name).read_text(encoding="utf-8")), keys)))

    pods = fixture("pods.json", "name", "namespace", "nodeName", "uid")
    node = fixture("node.json", "name")
    tree = folder / "tree"
    trees.root2(tree)
    for name in (f"a{FOR_PATHS[:60]}", f"b{FOR_PATHS[60:]}"):
        trees.group2(tree / name, usage=5)
    groups = {f"g{names.in_path(FOR_PATHS[:60])}": {
        "title": f"t{HOSTILE}", "demand": "1cpu", "weight": 7}, "h": {"demand": "2cpu"}}
    return {
        "pods": (pods, node), "tree": (tree, "--cpus", "2", "--want", "busy"),
        "docker": (fixture("docker.json", "Name", "Image"), "--cpus", "2"),
        "slurm": (fixture("slurm-jobs.json", "name", "user_name"), "--cpus", "8", "--node", "n1",
                  "--from", "slurm"),
        "host": (put("host.json", json.dumps({"host": {"cpus": 2}, "groups": groups})),)}


def path_in(ctl, source):
    """A path of a source that has hostile letters, as a word of another command has it."""
    found = json.loads(ctl.run("explain", "-o", "json", *source)[0])["groups"]
    return next(each["group"] for each in reversed(found) if each["group"].isascii() is False
                or "%" in each["group"])


READING = ("explain", "diff", "export", "recommend", "tune")


@pytest.mark.parametrize("kind", ["pods", "tree", "docker", "slurm", "host"])
def test_forms_of_sources(ctl, sources, folder, kind):
    """Each form of each command that reads a source once: its file, its output, and its errors."""
    source = sources[kind]
    path = path_in(ctl, source)
    more = {"diff": ["--set", f"{path}.weight=3"], "tune": ["--goal", f"{path}=0.1"]}
    for subcommand in READING:
        forms = [f"{form}={folder}/{subcommand}.{form}" for form in options.forms(subcommand)]
        for outputs in (forms, [options.forms(subcommand)[0]]):
            ended = ctl.ended(subcommand, *source, *more.get(subcommand, ()), *(
                word for each in outputs for word in ("-o", each)))
            assert ended.returncode in (0, 1, 2, 6) and b"Traceback" not in ended.stderr
            assert raw(ended.stdout.decode() + ended.stderr.decode()) == [], outputs
    made = {path.name for path in folder.iterdir()}
    assert {f"{each}.{form}" for each in ("explain", "diff", "export")
            for form in options.forms(each)} <= made
    for file in folder.iterdir():
        assert raw(file.read_bytes().decode()) == [], file
    for form in options.forms("export"):
        assert json.loads(ctl.run("explain", "-o", "json", folder / f"export.{form}")[0])["groups"]


def test_forms_of_a_tree_in_time(ctl, sources, folder):
    """`audit`, `top` and `hold` read a tree more than once; metrics have names too."""
    (folder / "out").mkdir(mode=0o700)
    tree = sources["tree"][0]
    with used_more_and_more(tree):
        check_forms_in_time(ctl, tree, folder)


@contextmanager
def used_more_and_more(tree):
    """The groups of a tree use something meanwhile."""
    over = threading.Event()

    def use():
        usage = 5
        while not over.wait(0.01):
            usage += 1000
            for each in tree.glob("*/cpu.stat"):
                each.with_name("new").write_text(trees.STAT.format(
                    usage=usage, periods=1, throttled=0), encoding="ascii")
                os.replace(each.with_name("new"), each)

    user = threading.Thread(target=use)
    user.start()
    try:
        yield
    finally:
        over.set()
        user.join()


def check_forms_in_time(ctl, tree, folder):
    """Each form of what reads a tree more than once."""
    for words in (
            ["audit", tree, "--cpus", "2", "--read", "2x500ms", "-o", "text", *(
                word for form in options.forms("audit")[1:]
                for word in ("-o", f"{form}={folder}/out/{form}"))],
            ["top", tree, "--cpus", "2", "--want", "busy", "--read", "2x50ms", "-o", "json", "-o",
             f"openmetrics={folder}/out/top", "--alert", "*:lack>1m", "--command", "cat"],
            ["top", tree, "--cpus", "2", "--want", "busy", "--read", "2x50ms", "-o", "text"],
            ["hold", tree, "--root", tree, "--cpus", "2", "--period", "100ms", "--read", "2x100ms",
             "-o", "json", "-o", f"openmetrics={folder}/out/hold"]):
        ended = ctl.ended(*words)
        assert ended.returncode in (0, 5) and b"Traceback" not in ended.stderr, ended.stderr
        assert raw(ended.stdout.decode() + ended.stderr.decode()) == [], words
    made = {path.name: raw(path.read_bytes().decode()) for path in (folder / "out").iterdir()}
    # (a loop removes its metrics at its end)
    assert made == {"json": [], "html": [], "top": []}


def test_forms_of_changes(ctl, sources, folder):
    """Files of `apply`, samples of `replay`, and a place among hosts."""
    pods, node = sources["pods"]
    used = folder / "used.csv"
    path = path_in(ctl, sources["host"])
    used.write_text(f'sample,"{path}",h\n"s{FOR_PATHS[:40]}",1,2\n', encoding="utf-8")
    for number, words in enumerate((
            *(["apply", *sources["pods"], "--set", "*nginx*.request=50m", "-o", f"{form}={folder}"]
              for form in ("kubectl", "dropin")),
            *(["replay", *sources["host"], "--used", used, "-o", form]
              for form in options.forms("replay")),
            *(["place", node, "--pod", pods, "-o", form] for form in options.forms("place")),
            ["explain", folder, "--pod", pods])):
        ended = ctl.ended(*words)
        assert b"Traceback" not in ended.stderr, (number, ended.stderr)
        assert raw(ended.stdout.decode() + ended.stderr.decode()) == [], (number, words)
    for file in folder.glob("*.yaml"):
        assert raw(file.read_bytes().decode()) == []
