"""`arbiter_script` of the C library, against worked answers, the program and plan_model.py.

Groups are compared with what the program answers to `cert` and `read` behind the same script, and
refused lines with the answers of the script itself.
"""
import ctypes
import random
from typing import NamedTuple

import pytest

import plan_model
from chances import cases
from support import ROOT, same
from worked_scripts import all_scripts

U32, U64, U8 = ctypes.c_uint32, ctypes.c_uint64, ctypes.c_uint8
NO_PARENT, NO_LIMIT = 2**32 - 1, 2**64 - 1
HOST_OF_ONE = (1, 100000, 5000)
# What stands in each entry before a call.
MARK = 7
COLUMNS = [U32] + [U64] * 7
SEED = 20261126
HASH_KEY = 2**63 + SEED
SCRIPTS = cases(40)
MOST_GROUPS = 16384


class Group(NamedTuple):
    """One group of an answer. Quota and limit are None for none."""

    parent: object
    weight: int
    limit: object
    demand: int
    quota: object
    period: int
    burst: int
    carry: int


class Room:
    """The columns of a call: so many groups, bytes of names and refused lines."""

    def __init__(self, groups, names, refused):
        self.columns = [(kind * groups)(*[MARK] * groups) for kind in COLUMNS]
        self.names = (U8 * names)(*[MARK] * names)
        self.refused = [(kind * refused)(*[MARK] * refused) for kind in (U64, U32)]
        self.counts = [U32(MARK), U64(MARK), U64(MARK)]

    @classmethod
    def stated(cls, text):
        """The room that the header says is enough for a text."""
        newlines = text.count(b"\n")
        return cls(min(newlines + 2, MOST_GROUPS), len(text) + 1, newlines + 1)

    def values(self):
        """All that a call may write."""
        columns = [*self.columns, self.names, *self.refused]
        return [list(column) for column in columns] + [count.value for count in self.counts]


class Read(NamedTuple):
    """The groups by path, in order, and the refused lines with their numbers."""

    groups: dict
    refused: list


@pytest.fixture(scope="module")
def calls(library):
    """The library under test."""
    return ctypes.CDLL(str(library))


def number_of(calls, host, text, room, lengths=None):
    """The answer of the call. `lengths` stand in place of those of the columns."""
    columns = [*room.columns, room.names, *room.refused]
    lengths = lengths or [len(column) for column in columns]
    words = [U64(number) for number in (*host, HASH_KEY)] + [text, ctypes.c_size_t(len(text))]
    for column, length in zip(columns, lengths):
        words += [column, ctypes.c_size_t(length)]
    return calls.arbiter_script(*words, *[ctypes.byref(count) for count in room.counts])


def none_at(number, none):
    return None if number == none else number


def told(room):
    """What a call wrote."""
    count, names_count, refused_count = [number.value for number in room.counts]
    names = bytes(room.names[:names_count]).decode().split("\n")
    same(names.pop(), "", "what stands behind the last newline")
    same(len(names), count, "names")
    groups, paths = {}, []
    for row, name in zip(zip(*[column[:count] for column in room.columns]), names):
        parent = none_at(row[0], NO_PARENT)
        above = "." if parent is None else paths[parent]
        paths.append("." if parent is None else name if above == "." else f"{above}/{name}")
        groups[paths[-1]] = Group(parent, row[1], none_at(row[2], NO_LIMIT), row[3],
                                  none_at(row[4], NO_LIMIT), *row[5:])
    return Read(groups, list(zip(*[column[:refused_count] for column in room.refused])))


def read(calls, host, text):
    """Reads a script with the stated room, behind which nothing is written."""
    room = Room.stated(text)
    same(number_of(calls, host, text, room), 0, "the answer")
    count, names_count, refused_count = [number.value for number in room.counts]
    for column, written in zip([*room.columns, room.names, *room.refused],
                               [count] * 8 + [names_count] + [refused_count] * 2):
        same(set(column[written:]) - {MARK}, set(), "what stands behind the written entries")
    return told(room)


def options_of(host):
    return [f"--{name}={number}" for name, number in zip(("processors", "period", "slice"), host)]


def host_of(words):
    """The host of the words behind `run`."""
    given = dict(zip(words[::2], words[1::2])) if "=" not in "".join(words) else dict(
        word.split("=") for word in words)
    names = zip(("--processors", "--period", "--slice"), HOST_OF_ONE)
    return tuple(int(given.get(name, number)) for name, number in names)


def behind(program, host, text, asked):
    """The program's answers to lines behind a script."""
    text += b"" if text.endswith(b"\n") or not text else b"\n"
    before = program.answers(options_of(host), text)
    return program.answers(options_of(host), text + asked)[len(before):].decode().splitlines()


def agree(program, found, host, text):
    """The groups are those of the program behind the script."""
    asked = "cert\n" + "".join(f"read {path} {file}\n" for path in list(found.groups)[1:]
                               for file in ("cpu.max", "cpu.max.burst"))
    head, *lines = behind(program, host, text, asked.encode())
    rows = [line.split(" ")[:4] for line in lines[:len(found.groups)]]
    same(head.split(" ")[2:], [str(number) for number in (*host, len(found.groups))], "the head")
    same(rows, [["-" if g.parent is None else str(g.parent), str(g.weight),
                 "max" if g.limit is None else str(g.limit), str(g.demand)]
                for g in found.groups.values()], "rows")
    settings = [text for g in list(found.groups.values())[1:]
                for text in (f"{'max' if g.quota is None else g.quota} {g.period}", str(g.burst))]
    same(lines[len(found.groups):], settings, "settings")


def error_in(answer):
    """The number of a refusal, None of another answer."""
    return int(answer.split()[1]) if answer.startswith(b"error ") else None


def pytest_generate_tests(metafunc):
    """The scripts of tests/worked, and those of examples/."""
    if "script" in metafunc.fixturenames:
        scripts = all_scripts()
        metafunc.parametrize("script", scripts, ids=[script.id() for script in scripts])
    if "example" in metafunc.fixturenames:
        paths = sorted((ROOT / "examples").glob("*.script"))
        metafunc.parametrize("example", paths, ids=[path.name for path in paths])


def test_worked_script(calls, program, script):
    """Refused lines as worked by hand, and groups as the program has them."""
    text = b"".join(line + b"\n" for line, _ in script.lines)
    host = host_of(script.words)
    found = read(calls, host, text)
    wanted = [(at, error_in(answer)) for at, (_, answer) in enumerate(script.lines, 1)
              if error_in(answer)]
    same(found.refused, wanted, "refused lines")
    agree(program, found, host, text)


def test_example(calls, program, example):
    """Examples are read as the program reads them."""
    text = example.read_bytes()
    found = read(calls, HOST_OF_ONE, text)
    answers = program.answers(options_of(HOST_OF_ONE), text).splitlines()
    same([number for _, number in found.refused],
         [error_in(line) for line in answers if error_in(line)], "refused lines")
    agree(program, found, HOST_OF_ONE, text)


WEB = Group(0, 100, 10, 4, 50000, 100000, 25000, 0)


@pytest.mark.parametrize("text, groups, refused", [
    (b"", [], []),
    (b"\n\n# a comment\n", [], []),
    # a last line without a newline is a line
    (b"mkdir a\nmkdir a", [("a", Group(0, 100, None, 0, None, 100000, 0, 0))], [(2, 21)]),
    # the quota of 50 ms is 10 slices; the plan gives 4, and the carry is 6, of which the burst lets
    # 5 in
    (b"mkdir web\nwrite web cpu.max 50000\nwrite web cpu.max.burst 25000\ndemand web 4\n",
     [("web", WEB)], []),
    (b"mkdir web\nwrite web cpu.max 50000\nwrite web cpu.max.burst 25000\ndemand web 4\nperiod\n",
     [("web", WEB._replace(limit=15, carry=6))], []),
    # refused lines change nothing, and count as lines
    (b"demand web 1\nmkdir web\nwrite web cpu.weight 0\n\nrmdir .\nread web no\nplan now\nplan\n"
     b"\xff\nmkdir web/a/b\n" + b"x" * 65537 + b"\ndemand web 07\nmkdir web/a\n",
     [("web", Group(0, 100, None, 0, None, 100000, 0, 0)),
      ("web/a", Group(1, 100, None, 0, None, 100000, 0, 0))],
     [(1, 20), (3, 12), (5, 26), (6, 30), (7, 80), (9, 81), (10, 20), (11, 82), (12, 11)]),
    # a removed group is no group, and those behind it move up
    (b"mkdir a\nmkdir b\nmkdir b/c\nrmdir a\ndemand b/c 3\n",
     [("b", Group(0, 100, None, 0, None, 100000, 0, 0)),
      ("b/c", Group(1, 100, None, 3, None, 100000, 0, 0))], []),
])
def test_read(calls, text, groups, refused):
    """Scripts whose groups were worked by hand."""
    found = read(calls, HOST_OF_ONE, text)
    root = Group(None, 100, None, 0, None, 100000, 0, 0)
    same(list(found.groups.items()), [(".", root), *groups], "groups")
    same(found.refused, refused, "refused lines")


def test_room(calls):
    """Exact room is enough. One entry less in any column answers 50 and writes nothing."""
    text = b"mkdir web\nmkdir web/a\nmkdir web\nrmdir b\n"
    room = Room(3, len("\nweb\na\n"), 2)
    same(number_of(calls, HOST_OF_ONE, text, room), 0, "exact room")
    same(told(room).refused, [(3, 21), (4, 20)], "refused lines")
    for short in (Room(2, 7, 2), Room(3, 6, 2), Room(3, 7, 1), Room(0, 0, 0)):
        before = short.values()
        same(number_of(calls, HOST_OF_ONE, text, short), 50, "too short")
        same(short.values(), before, "what was written")


@pytest.mark.parametrize("host, number", [((0, 0, 0), 1), ((65, 100000, 5000), 1),
                                          ((1, 999, 1000), 2), ((1, 100000, 3000), 3)])
def test_refused_host(calls, host, number):
    """A bad host is refused behind uneven columns alone, and nothing is written."""
    room = Room(3, 0, 2)
    before = room.values()
    same(number_of(calls, host, b"mkdir web\n", room), number, "the host")
    lengths = [3] * 8 + [0, 2, 2]
    for at in (1, 2, 3, 4, 5, 6, 7, 9, 10):
        uneven = [length - (place == at) for place, length in enumerate(lengths)]
        same(number_of(calls, host, b"mkdir web\n", room, uneven), 50, f"column {at}")
    same(room.values(), before, "what was written")


def test_greatest_tree(calls):
    """The greatest number of groups, and the lines behind it, which are refused."""
    lines = [f"mkdir g{g}" for g in range(MOST_GROUPS + 1)]
    found = read(calls, HOST_OF_ONE, "\n".join(lines).encode())
    same(len(found.groups), MOST_GROUPS, "groups")
    same(found.refused, [(MOST_GROUPS, 27), (MOST_GROUPS + 1, 27)], "refused lines")


def random_line(chance):
    """A line that is answered by one line, or refused."""
    path = chance.choice(["a", "b", "a/x", "a/y", "b/x", "a/x/p", ".", "c", "a//", ""])
    verb = chance.choice(["mkdir", "mkdir", "mkdir", "rmdir", "demand", "demand", "write", "write",
                          "write", "period", "period", "frob"])
    if verb == "period":
        return verb
    if verb == "demand":
        return f"demand {path} {chance.choice([0, 3, 7, 20, 1000001, '01', 10**30])}"
    if verb == "write":
        file, text = chance.choice([
            ("cpu.weight", [1, 300, 10000, 0, "x", ""]),
            ("cpu.max", ["max", 30000, "25000 50000", 999, "max 0", "1 2 3"]),
            ("cpu.max.burst", [0, 10000, 25000, 10**16, ""]), ("cpu.stat", [1])])
        return f"write {path} {file} {chance.choice(text)}"
    return f"{verb} {path}"


@pytest.mark.parametrize("seed", range(SCRIPTS))
def test_random_script(calls, program, seed):
    """Refused lines and groups are those of the program, line by line."""
    chance = random.Random(SEED + seed)
    lines = [random_line(chance) for _ in range(chance.randrange(20, 120))]
    text = "".join(f"{line}\n" for line in lines).encode()
    host = chance.choice([HOST_OF_ONE, (2, 100000, 5000), (1, 100000, 1000)])
    found = read(calls, host, text)
    answers = program.answers(options_of(host), text).splitlines()
    same(len(answers), len(lines), "answers")
    same(found.refused, [(at, error_in(answer)) for at, answer in enumerate(answers, 1)
                         if error_in(answer)], "refused lines")
    agree(program, found, host, text)


@pytest.mark.parametrize("seed", range(SCRIPTS))
def test_random_carries(calls, seed):
    """Carries and limits after periods are those of the model."""
    chance = random.Random(SEED + seed)
    model, lines = plan_model.Host(*HOST_OF_ONE), []
    paths = ["a", "b", "a/x", "a/y"]
    for path in paths:
        lines.append(f"mkdir {path}")
        quota, own = chance.randrange(1000, 60000), chance.choice([50000, 100000, 200000])
        lines += [f"write {path} cpu.max {quota} {own}"] * chance.randrange(2)
        if lines[-1].startswith("write"):
            lines.append(f"write {path} cpu.max.burst {chance.randrange(quota + 1)}")
    for _ in range(chance.randrange(1, 6)):
        lines += [f"demand {path} {chance.randrange(12)}" for path in paths[1:]] + ["period"]
    for line in lines:
        model.answer(line)
    found = read(calls, HOST_OF_ONE, "".join(f"{line}\n" for line in lines).encode())
    same(found.refused, [], "refused lines")
    limits = [row.limit for row in model.instance().rows]
    wanted = [(group.path, limit, group.carry) for group, limit in zip(model.groups, limits)]
    same([(path, group.limit, group.carry) for path, group in found.groups.items()], wanted)
