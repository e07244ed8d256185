"""Scripts by a second program: `arbiter-script`, which was extracted from proofs in Coq.

Its answers are those of `arbiter run`, byte for byte. Honest scripts have the answers of the small
model (plan_model.py) beside both. Hostile ones have refusals, bytes that are no text, long lines,
removals and bursts, and the two programs alone answer them.
"""
import functools
import itertools
import random
import subprocess

import pytest

import worked_scripts
from support import ROOT, each, same
from test_forged_texts import random_script

# Numbers of scripts: of the model's, hostile ones, and trees of up to some hundred groups.
HONEST, HOSTILE, WIDE, SEED = 10_000, 9_000, 1_000, 104
HOSTS = [[], [], ["--processors", "2"], ["--processors", "4", "--slice", "1000"],
         ["--processors", "3", "--period", "60000", "--slice", "3000"],
         ["--processors", "64", "--period", "1000000", "--slice", "1000"],
         ["--period", "1000", "--slice", "1000"]]
NUMBERS = [b"0", b"1", b"5", b"20", b"007", b"-1", b"18446744073709551616", b"1000000", b"1000001",
           b"x", b""]
WEIGHTS = [b"1", b"10000", b"10001", b"0", b"", b"1 2", b" 7 ", b"100"]
QUOTAS = [b"max", b"max 50000", b"1000000000000001", b"1000000000000000", b"5000 max", b"999", b"",
          b"1000 999", b"20000 1000000", b"20000 1000001"]
BURSTS = [b"0", b"x", b"1000000000000001", b"30000"]
FILES = [b"cpu.stat", b"cpu.weight", b"cpu.max", b"cpu.max.burst", b"cpu.idle", b"CPU.stat"]
QUESTIONS = [b"total", b"plan", b"cert", b"period", b"report"]
ODD = [b"plan x", b"mkdir", b"mkdir a b", b"demand a", b"read a", b"write a", b"total 1", b"PLAN",
       b" period ", b"\ttotal\t", b"cert\r", b"write a cpu.weight", b"", b"#", b"# a remark"]


def some_name(chance):
    """A name of a group: mostly a short one, else one that is refused or has other letters."""
    kind = chance.random()
    if kind < 0.8:
        return chance.choice("abcdefgh").encode() + chance.choice([b"", b"", b"0", b"1"])
    if kind < 0.87:
        return chance.choice([b".", b"..", b"", "été".encode()])
    if kind < 0.92:
        return chance.choice([254, 255, 256]) * b"n"
    return bytes(chance.choice(b"abcx\xc3\xa9\xe2\x82\xac_-") for _ in range(chance.randint(1, 4)))


def setting(chance, path):
    """A line that writes one file of a group, with numbers at the ends of its range and beside."""
    file, texts, most = chance.choice([(b"cpu.weight", WEIGHTS, 300), (b"cpu.max", QUOTAS, 200_000),
                                       (b"cpu.max.burst", BURSTS, 60_000)])
    text = chance.choice([*texts, str(chance.randint(0, most)).encode()])
    return b" ".join([b"write", path, file, text])


def hostile_line(chance, paths):
    """A line of any kind. A group that it may make is noted among the paths."""
    path, gap = chance.choice(paths), chance.choice([b" ", b" ", b" ", b"\t", b"  "])
    kind = chance.random()
    if kind < 0.3:
        name = some_name(chance)
        path = name if path == b"." else path + b"/" + name
        paths.append(path)
        return b"mkdir" + gap + path
    if kind < 0.36:
        return b"rmdir" + gap + path
    if kind < 0.52:
        number = chance.choice([*NUMBERS, str(chance.randint(0, 40)).encode()])
        return b"demand" + gap + path + b" " + number
    if kind < 0.72:
        return setting(chance, path)
    if kind < 0.77:
        return b"read" + gap + path + b" " + chance.choice(FILES)
    if kind < 0.94:
        return chance.choice(QUESTIONS)
    if kind < 0.97:
        return bytes(chance.randrange(256) for _ in range(chance.randint(0, 9))).replace(b"\n", b"")
    if kind < 0.99:
        return chance.choice(ODD)
    deep = b"mkdir " + b"/".join([b"d"] * chance.randint(1, 70))
    return deep if chance.random() < 0.8 else b"x" * chance.choice([65535, 65536, 65537])


def hostile_script(seed):
    """Words of a host and a script, whose last line may lack its newline."""
    chance = random.Random(seed)
    paths = [b"."]
    lines = [hostile_line(chance, paths) for _ in range(chance.choice([5, 15, 40, 80]))]
    end = b"\n" if chance.random() < 0.9 else b""
    return chance.choice(HOSTS), b"\n".join([*lines, *QUESTIONS]) + end


def wide_script(seed):
    """A tree of up to some hundred groups, questions, and changes between them."""
    chance = random.Random(seed)
    paths, lines = [b"."], []
    for number in range(chance.choice([3, 12, 30, 60, 200])):
        parent, name = chance.choice([paths[-1], chance.choice(paths)]), b"g%d" % number
        paths.append(name if parent == b"." else parent + b"/" + name)
        lines.append(b"mkdir " + paths[-1])
    for _ in range(chance.randint(1, 3)):
        for path in chance.sample(paths[1:], len(paths) // 2):
            lines.append(b"write %s cpu.weight %d" % (path, chance.choice([1, 2, 3, 100, 10000])))
            lines.append(b"write %s cpu.max %d %d" % (path, chance.randint(1000, 150_000),
                                                      chance.choice([100_000, 1000, 1_000_000])))
            lines.append(b"write %s cpu.max.burst %d" % (path, chance.randint(0, 60_000)))
            demand = chance.choice([0, 1, 7, chance.randint(0, 70_000)])
            lines.append(b"demand %s %d" % (path, demand))
        lines += [*QUESTIONS, b"period", b"report"]
        lines += [b"rmdir " + path for path in chance.sample(paths, 3)]
    return chance.choice(HOSTS), b"\n".join(lines) + b"\n"


def pairs_of_bytes():
    """Each pair of bytes as a word, and threes and fours of bytes around the bounds of UTF-8."""
    alone = [bytes(pair) for pair in itertools.product(range(256), repeat=2)]
    edges = [0x7f, 0x80, 0x8f, 0x90, 0x9f, 0xa0, 0xbf, 0xc0]
    heads = [*range(0xdf, 0x100)]
    longer = [bytes([head, *rest]) for head in heads for count in (2, 3)
              for rest in itertools.product(edges, repeat=count)]
    return b"\n".join([*(word.replace(b"\n", b" ") for word in alone), *longer]) + b"\n"


def answered(second, words, script):
    """What the second program prints, which has to end well."""
    ended = subprocess.run([second, *words], input=script, capture_output=True, timeout=300,
                           check=False)
    same((ended.returncode, ended.stderr), (0, b""), f"{words} {script!r}"[:600])
    return ended.stdout


def compare(program, second, case):
    """Compares both programs on one script, with what the model answers where it does."""
    words, script, wanted = case
    first = program.run(["run", *words], script)
    same((first.status, first.err), (0, b""), f"{words} {script!r}"[:600])
    if wanted is not None:
        same(first.out, wanted, f"model: {words} {script!r}"[:600])
    same(answered(second, words, script), first.out, f"{words} {script!r}"[:600])
    return script.count(b"\n"), len(first.out)


def honest_case(seed):
    (processors, period, slice_us), script, answers, _ = random_script(seed)
    words = ["--processors", str(processors), "--period", str(period), "--slice", str(slice_us)]
    return words, script, answers


def compare_seed(program, second, kind, seed):
    """The script of a seed, made where it is compared."""
    make = {"honest": honest_case, "hostile": hostile_script, "wide": wide_script}[kind]
    return compare(program, second, (*make(seed), None)[:3])


@pytest.mark.parametrize("kind, count",
                         [("honest", HONEST), ("hostile", HOSTILE), ("wide", WIDE)])
def test_scripts_by_both(built, program, kind, count):
    """Each script of this kind has the same bytes by both programs."""
    one = functools.partial(compare_seed, program, built / "arbiter-script", kind)
    counts = each(one, range(SEED, SEED + count))
    lines, size = (sum(part) for part in zip(*counts))
    print(f"{count} scripts, {lines} lines, {size} bytes of answers")
    assert lines > 20 * count and size > 20 * lines / 10


@pytest.mark.parametrize("script", worked_scripts.all_scripts(), ids=worked_scripts.Script.id)
def test_worked_scripts(built, script):
    """The second program gives the answers that were worked by hand."""
    text = b"".join(line + b"\n" for line, _ in script.lines)
    wanted = b"".join(answer for _, answer in script.lines)
    same(answered(built / "arbiter-script", script.words, text), wanted, script.id())


def test_all_pairs_of_bytes(built, program):
    """Which bytes are a text is the same to both: no other script tells that."""
    script = pairs_of_bytes()
    words = compare(program, built / "arbiter-script", ([], script, None))
    assert words[0] > 80_000


def test_words_and_statuses(built):
    """It takes the options of `arbiter run`, and refuses other words."""
    second = built / "arbiter-script"
    for words, status, out in (
            (["--version"], 0, b"arbiter-script 1.0.0\n"), (["--what"], 2, b""),
            (["--processors", "0"], 2, b""), (["--processors", "065"], 2, b""),
            (["--slice", "3000"], 2, b""), (["--period"], 2, b"")):
        ended = subprocess.run([second, *words], input=b"", capture_output=True, timeout=60,
                               check=False)
        same((ended.returncode, ended.stdout), (status, out), str(words))
        assert (status == 0) == (ended.stderr == b""), ended.stderr
    page = (ROOT / "share/arbiter-script.1").read_text(encoding="utf-8")
    told = subprocess.run([second, "--help"], capture_output=True, text=True, check=True).stdout
    for option in ("processors", "period", "slice"):
        assert f"--{option}" in told and f"Fl -{option}" in page
