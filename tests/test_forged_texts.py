"""Certified texts that were changed, and plans of random scripts.

Every answer is compared with a small slow model (plan_model.py). Beside that, `accepted` has to
mean that the amounts are the plan of the text's own instance, as the model gives it slice by slice.
"""
import collections
import functools
import random

import pytest

from plan_model import Host, line_for
from support import CERTIFIED, Ended, each, same

# All digits, what parts and marks a text, and bytes that stand in none.
BYTES = b"0123456789 \n\t-+/@max\x00\xff"
CUT_SHORT = Ended(3, b"error 42 CutShort\n", b"")
ACCEPTED = b"accepted\n"

# Changes of the text of two groups, and the line for each.
CHANGES = [
    (b" 13 0 -\n", b" 18446744073709551615 0 -\n", b"refused 52 OverDemand 2\n"),
    (b" 13 0 -\n", b" 18446744073709551616 0 -\n", b"error 41 BadField\n"),
    (b"0 100 max 20", b"0 100 0 20", b"refused 51 OverLimit 1\n"),
    (b"13/100@0", b"18446744073709551615/1@0", b"refused 58 NextMarkNotAbove 1\n"),
    (b"13/100@0", b"1/18446744073709551615@0", b"refused 57 LastMarkAbove 1\n"),
    (b"13/100@0", b"13/100@4294967295", b"accepted\n"),
    (b"13/100@0", b"13/100@4294967296", b"error 41 BadField\n"),
    (b"5000 3\n", b"5000 16385\n", b"error 4 TooMany\n"),
    (b"0 200 max", b"2 200 max", b"error 5 BadParent\n"),
]

# Processors, period and slice of the hosts of random scripts.
HOSTS = [(1, 100000, 5000), (2, 100000, 5000), (4, 50000, 10000), (3, 200000, 50000),
         (2, 5000, 5000), (64, 1000, 1000), (1, 100000, 1000)]
WEIGHTS = [1, 2, 3, 7, 99, 100, 101, 300, 9999, 10000]
DEMANDS = [0, 1, 3, 7, 20, 33, 90, 1000000]
OWN_PERIODS = [1000, 30000, 50000, 100000, 200000, 1000000]
KINDS = ["mkdir", "mkdir", "demand", "demand", "demand", "weight", "quota", "quota", "burst",
         "rmdir", "period"]
SCRIPTS = 400
SEED = 20240611


def check(program, text):
    return program.run(["check"], text)


def is_right(text, ended):
    """Compares how the check of a text ended with the model's line, and amounts with the plan."""
    line, certified = line_for(text)
    if ended.out == ACCEPTED:
        assert certified and certified[0].plan() == certified[1], f"not the plan: {text!r}"
    same(ended, (0 if line == ACCEPTED else 3, line, b""), f"{text!r}"[:600])


def check_all(program, texts):
    """Checks each text, and counts the first words of the answers."""
    runs = each(functools.partial(check, program), texts)
    for text, ended in zip(texts, runs):
        is_right(text, ended)
    return collections.Counter(ended.out.split(b" ")[0].strip().decode() for ended in runs)


@pytest.fixture(params=CERTIFIED)
def text(request):
    """A certified text that was worked by hand."""
    return CERTIFIED[request.param]


def test_whole(program, text):
    ended = check(program, text)
    same(ended.out, ACCEPTED)
    is_right(text, ended)


def test_every_prefix(program, text):
    prefixes = [text[:end] for end in range(len(text))]
    for prefix, ended in zip(prefixes, each(functools.partial(check, program), prefixes)):
        same(ended, CUT_SHORT, f"{prefix!r}")


def with_byte_changed(text):
    """The texts that differ from this one in one byte, which is one of `BYTES`."""
    return [text[:at] + bytes([byte]) + text[at + 1:]
            for at in range(len(text)) for byte in BYTES if byte != text[at]]


def test_each_byte_changed(program, text):
    texts = with_byte_changed(text)
    counts = check_all(program, texts)
    print(f"{len(texts)} texts with a byte changed: {dict(sorted(counts.items()))}")
    assert counts["error"] and counts["refused"] and counts["accepted"]


@pytest.mark.parametrize("old, new, line", CHANGES)
def test_worked_change(program, old, new, line):
    text = CERTIFIED["two groups"].replace(old, new)
    ended = check(program, text)
    same(ended.out, line)
    is_right(text, ended)


def random_line(chance, host, names):
    """One line of a script that changes something and is not refused, or None."""
    group = chance.choice(host.groups)
    parents = {other.path.rpartition("/")[0] for other in host.groups}
    leaves = [other for other in host.groups[1:] if other.path not in parents]
    kind = chance.choice(KINDS)
    has_room = group.path.count("/") < 5 and len(host.groups) < 14
    if kind == "mkdir" and group.demand == 0 and has_room:
        name = next(names)
        return f"mkdir {name}" if group.path == "." else f"mkdir {group.path}/{name}"
    if kind == "demand" and leaves:
        return f"demand {chance.choice(leaves).path} {chance.choice(DEMANDS)}"
    if kind == "rmdir" and leaves and leaves[-1].demand == 0:
        return f"rmdir {leaves[-1].path}"
    if kind == "period":
        return "period"
    if group.path == ".":
        return None
    if kind == "weight":
        return f"write {group.path} cpu.weight {chance.choice(WEIGHTS)}"
    if kind == "quota":
        quota = chance.choice(["max", chance.randint(1000, 400000), 1000 * chance.randint(1, 60)])
        if quota == "max" or quota >= group.burst:
            period = chance.choice(["", f" {chance.choice(OWN_PERIODS)}"])
            return f"write {group.path} cpu.max {quota}{period}"
    if kind == "burst":
        most = 100000 if group.quota is None else group.quota
        return f"write {group.path} cpu.max.burst {chance.randint(0, most)}"
    return None


def random_script(seed):
    """A host, a script for it, what the model writes, and the certified text at its end."""
    chance = random.Random(seed)
    numbers = chance.choice(HOSTS)
    host, lines, answers = Host(*numbers), [], []
    names = (f"n{number}" for number in range(1000))
    for _ in range(chance.randint(5, 60)):
        line = random_line(chance, host, names)
        if line:
            lines.append(line)
            if chance.random() < 0.15:
                lines.append(chance.choice(["total", "plan", "cert"]))
            answers += [host.answer(line) for line in lines[len(answers):]]
    for line in ["total", "plan", "period", "report", "cert"]:
        lines.append(line)
        answers.append(host.answer(line))
    script = "".join(f"{line}\n" for line in lines).encode()
    return numbers, script, "".join(answers).encode(), answers[-1].encode()


def run_random_script(program, seed):
    """Runs one random script, checks the certified text at its end, and returns that text."""
    (processors, period, slice_us), script, answers, text = random_script(seed)
    words = ["run", "--processors", str(processors), "--period", str(period)]
    ended = program.run([*words, "--slice", str(slice_us)], script)
    same(ended, (0, answers, b""), f"script {seed}: {words} {script!r}"[:600])
    ended = check(program, text)
    is_right(text, ended)
    same(ended.out, ACCEPTED, f"script {seed}")
    return text


def with_slice_moved(chance, text):
    """The text with one slice moved between two groups, or one more or fewer at one group."""
    lines = [line.split(b" ") for line in text.split(b"\n")[:-1]]
    for change in chance.choice([(1, -1), (1,), (-1,)]):
        words = chance.choice(lines[1:])
        words[4] = str(max(0, int(words[4]) + change)).encode()
    return b"".join(b" ".join(words) + b"\n" for words in lines)


@pytest.fixture(scope="module")
def random_texts(program):
    """The certified texts of the random scripts, each of which wrote what the model writes."""
    seeds = range(SEED, SEED + SCRIPTS)
    return each(functools.partial(run_random_script, program), seeds)


def test_random_scripts(random_texts):
    """Each script wrote what the model writes, and the check accepts the text at its end."""
    same(len(random_texts), SCRIPTS)
    groups = sum(text.count(b"\n") - 1 for text in random_texts)
    print(f"{SCRIPTS} random scripts, {groups} groups at their ends")
    assert groups > 2 * SCRIPTS


def test_random_texts_changed(program, random_texts):
    """Texts with a byte changed or a slice moved are judged as the model judges them."""
    chance = random.Random(SEED)
    texts = [chance.choice(with_byte_changed(text)) for text in random_texts for _ in range(3)]
    texts += [with_slice_moved(chance, text) for text in random_texts]
    counts = check_all(program, texts)
    print(f"{len(texts)} forged texts: {dict(sorted(counts.items()))}")
    assert counts["refused"] > 50
