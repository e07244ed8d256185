"""The calls over a pipe, by the checked build, answer as the C library does."""
import concurrent.futures
import copy
import multiprocessing
import os
import random
import shutil
import signal
import subprocess
import sys
import threading
from array import array

import arbiter
import pytest
from arbiter import Host, Library, Refused, Row, Script, found, pipe
from places import PACKAGE

EXAMPLES = PACKAGE.parent / "examples"
SEED, TREES = 20261127, 60
HOSTS = (Host(), Host(2, 100000, 1000), Host(64, 1000000, 1000), Host(3, 20000, 4000))
NO_HOSTS = (Host(0), Host(65), Host(1, 999, 1000), Host(1, 100000, 3000), Host(1, 100000, 0))
# What no call is: they hold, make or read what the calls answer.
NO_CALLS = {"call", "host", "ask", "ask_host", "refused", "of_rows", "of_group", "of_host",
            "is_proved", "told"}
MOST = 2**64 - 1
# Seconds in which a busy machine compiles the checked build.
COMPILED = 1800


@pytest.fixture(scope="module")
def kit():
    """The kit, which compiles."""
    if not shutil.which("rt"):
        pytest.skip("the checked build needs the Rattle kit")


@pytest.fixture(scope="module")
def command(kit):
    """The words that run the checked build. It is compiled unless this user has kept it."""
    words = found.checked()
    assert words, "no checked build of the calls"
    return words


@pytest.fixture(scope="module")
def both(library, command):
    """The C library under test, and the calls over a pipe."""
    piped = Library(library)
    piped.calls = pipe.Calls(command)
    return Library(library), piped


def answer(library, call, words):
    """What a call returns, as values that can be compared, or its refusal."""
    words = copy.deepcopy(words)
    try:
        told = getattr(library, call)(*words)
    except Refused as refused:
        return "refused", refused.number, refused.name, refused.row
    if isinstance(told, Script):
        return told._replace(columns=list(vars(told.columns).values()))
    return (told, words[-1]) if call in ("book", "periods") else told


def some_rows(chance):
    """Rows of a tree. One in four has a wrong number somewhere."""
    rows = [Row()]
    for _ in range(chance.randrange(24)):
        limit = chance.choice((None, None, chance.randrange(40)))
        rows.append(Row(chance.randrange(len(rows)), chance.randint(1, 10000), limit))
    inner = {row.parent for row in rows}
    rows = [row if place in inner else row._replace(demand=chance.randrange(60))
            for place, row in enumerate(rows)]
    if not chance.randrange(4):
        place = chance.randrange(len(rows))
        wrong = chance.choice(({"weight": 0}, {"weight": 10001}, {"parent": len(rows)},
                               {"demand": 1000001}, {"limit": 3}, {"demand": MOST}))
        rows[place] = rows[place]._replace(**wrong)
    return rows


def certified(library, host, rows):
    """The plan with its certificate; zeros where it is refused."""
    found_ = answer(library, "certify", (host, rows))
    nothing = arbiter.Certificate.of([False] * len(rows), [None] * len(rows))
    return ([0] * len(rows), nothing) if len(found_) == 4 else found_


def of_periods(host, rows, chance):
    """Two samples of three periods, of which some have wrong settings."""
    count, columns = len(rows), arbiter.Columns.of(rows)
    quotas = [chance.choice((MOST, chance.randrange(2000, 200000))) for _ in range(count)]
    quotas[0], wrong = MOST, chance.randrange(8 * count)
    if wrong < count:
        quotas[wrong] = 999
    settings = arbiter.QuotaColumns(columns.parents, columns.weights, array("Q", quotas),
                                array("Q", [100000] * count), array("Q", [5000] * count))
    return host, settings, columns.demands * 2, 3, array("Q", range(count))


def of_tree(library, host, rows, chance):
    """Each call about a tree, with its words."""
    amounts, evidence = certified(library, host, rows)
    wrong = [amount + (place == len(rows) - 1) for place, amount in enumerate(amounts)]
    group, amount = chance.randrange(len(rows) + 1), chance.randrange(30)
    yield from ((call, (host, rows)) for call in ("plan", "certify", "limiting", "reasons",
                                                  "figures"))
    yield from (("check", (host, rows, each, evidence)) for each in (amounts, wrong, wrong[1:]))
    for each in ([chance.random() < 0.5 for _ in range(len(rows))], []):
        yield from ((call, (host, rows, each)) for call in ("hold", "serve"))
    for each in ([None if chance.random() < 0.5 else chance.randrange(40)
                  for _ in range(len(rows))], []):
        yield "book", (host, rows, each, amounts, arbiter.Counters.zeros(len(rows)))
    yield "periods", of_periods(host, rows, chance)
    may = [chance.random() < 0.5 for _ in range(len(rows))]
    for least in ([chance.choice((0, 0, 3, 9)) for _ in range(len(rows))], []):
        yield from (("tune", (host, rows, least, may, guaranteed)) for guaranteed in (False, True))
        yield from (("goals", (host, rows, least, guaranteed)) for guaranteed in (False, True))
        lowest = [chance.choice((None, 0, 4)) for _ in range(len(rows))]
        yield from (("limit_others", (host, rows, least, may, lowest, guaranteed))
                    for guaranteed in (False, True))
    yield "guarantee", (host, rows, group)
    for call in ("least_weight", "least_limit", "least_processors"):
        yield call, (host, rows, group, amount)
    follower = arbiter.Follower(arbiter.WeightFormula.UNIT_WEIGHT)
    goals = [arbiter.OwnerGoal(group, amount, group, group, 1, 10000),
             arbiter.OwnerGoal(0, 1, len(rows) - 1, 0, 0, 60)]
    yield from (("settle", (host, rows, followers, goals[:count], guaranteed))
                for count, guaranteed in ((0, False), (1, True), (2, False))
                for followers in ({}, {len(rows) - 1: follower}))


def of_owned():
    """Each call about what owners set, with its words."""
    for formula in arbiter.WeightFormula:
        yield from (("owned_weight", (formula, number))
                    for number in (0, 1, 2, 3, 100, 1024, 10000, 262144, MOST))
        yield from (("least_owned", (formula, weight)) for weight in (0, 1, 2, 100, 10000, 10001))
        yield from (("owned_number", (formula, request)) for request in (0, 1, 1000, 10**6, MOST))
    yield from (("owned_limit", (formula, number, period)) for formula in arbiter.LimitFormula
                for number in (0, 1, 500, 10**9, MOST) for period in (0, 999, 100000, 10**7))
    for kinds, amounts in (((), ()), ((1, 2, 0), (500, 100, 200)), ((1,), (1, 2)),
                           ((0, 0), (MOST, 1))):
        yield "pod_amount", (kinds, amounts)
        yield from (("greatest_part", (kinds, amounts, part, room)) for part in (0, 2)
                    for room in (0, 500, MOST))
    yield from (("allowed", (50000, period, 7, passed)) for period in (0, 100000)
                for passed in (0, 3001, MOST))
    yield from (("lost", ((90, 100), (used, planned))) for used in (84, 85, MOST)
                for planned in (0, 100))
    for asked in ([], [0, 9, 10**6, MOST]):
        yield "round", ([8] * 4, [5] * 4, asked, [True, False, True, False])
        yield "swings", (asked, [1] * 4, [0, 9, 10**6, 7], [0, 3, MOST, 1], [1] * 4)
    yield from (("let_go", ([backs, 0], [60, 60], [3, 5], [7, 2], [1, 9], (lost, 9)))
                for backs in (0, 60) for lost in (0, 8, MOST))
    yield from (("rest", (slices, 150, [100, 300], others)) for slices in (0, 200, MOST)
                for others in ([50], [50, 200], [0, MOST]))
    yield from (("judged", ([[90] * count] * 2, [[84] * count, [100] * 60, [1] * 60, [sure] * 60]))
                for count in (59, 60) for sure in (1, 4, MOST))


def of_no_tree():
    """Each other call, with its words."""
    text = (EXAMPLES / "two-groups.certified").read_bytes()
    yield "version", ()
    yield from (("name", (number,)) for number in (*range(90), 2**32 - 1))
    yield from (("check_text", (each,)) for each in
                (text, text.replace(b"13 0", b"14 0"), text[:-9], text + b"\n", b"", b"\xff\0"))
    for host in (*HOSTS, *NO_HOSTS):
        yield "planned_host", (host,)
        yield from (("demand", (host, number, denominator)) for denominator in (0, 3, 1000)
                    for number in (0, 1, 999, 1500, 10**9, MOST))
        yield from (("slices", (host, number, period)) for number in (0, 4999, 5000, 10**15, MOST)
                    for period in (100000, 1000, 999))
        yield from (("period_limit", (host, quota, 100000, 5000, 3))
                    for quota in (None, 999, 1000, 10**15))
        yield from (("reading", (host, arbiter.RoundTimes(passed, 9 * 10**5, 10**5, 2), each))
                    for passed in (0, 10**9) for each in ([], [(8 * 10**8, 10**8)], [(1, 1)] * 3))
        yield from (("leaf_reading", (host, arbiter.LeafTimes(passed, used, 5 * 10**8, some)))
                    for passed in (0, 10**9) for used in (0, 5 * 10**8, MOST)
                    for some in (0, 5 * 10**8))
        yield from (("written", (host, limit, own, 10**5, 2))
                    for limit in (0, 20, 100, MOST) for own in (None, 20, 101))
        yield from (("script", (host, each)) for each in
                    (b"", b"\n",
                     b"mkdir a\nmkdir a\nwrite a cpu.max 5000 100000\ndemand a 7\nperiod",
                     b"mkdir \xc3\xa4\n\xff\nno\n" + b"x" * 5000))
    yield from of_owned()
    yield from (("weight_of_shares", (shares, conversion))
                for conversion in arbiter.library.CONVERSIONS
                for shares in (0, 1, 2, 3, 512, 1023, 1024, 1025, 262143, 262144, MOST))


def compare(both, asked):
    """The numbers of calls, and of those that were refused. Each is answered by both as by one."""
    library, piped = both
    met = refused = 0
    for call, words in asked:
        wanted = answer(library, call, words)
        assert answer(piped, call, words) == wanted, (call, words)
        met += 1
        refused += isinstance(wanted, tuple) and wanted[:1] == ("refused",)
    return met, refused


def test_random_trees(both):
    """Random trees, of which some are refused, on hosts and on what is no host."""
    chance, met, refused = random.Random(SEED), 0, 0
    for place in range(TREES):
        host = chance.choice(NO_HOSTS if place % 10 == 9 else HOSTS)
        rows = some_rows(chance)
        more = compare(both, of_tree(both[0], host, rows, chance))
        met, refused = met + more[0], refused + more[1]
    assert met == 37 * TREES and met / 4 < refused < met * 3 / 4


def test_no_tree(both):
    met, refused = compare(both, of_no_tree())
    assert refused > 100 and met - refused > 100


def test_each_call_is_compared(both):
    calls = {name for name in vars(Library) if not name.startswith("_")} - NO_CALLS
    asked = [call for call, _ in [*of_tree(both[0], Host(), [Row()], random.Random(1)),
                                  *of_no_tree()]]
    assert set(asked) == calls


def test_empty_tree(both):
    """No row at all: each column of the pipe is an empty word."""
    assert compare(both, [("plan", (Host(), [])), ("certify", (Host(), []))]) == (2, 2)


@pytest.mark.parametrize("path", sorted(EXAMPLES.glob("*.script")), ids=lambda path: path.name)
def test_examples(both, path):
    """What the scripts of examples/ make of a host, and each call about the tree."""
    host, text = Host(4, 100000, 1000), path.read_bytes()
    told = both[0].script(host, text)
    assert len(told.names) > 1
    asked = [("script", (host, text)), *of_tree(both[0], host, told.columns, random.Random(SEED))]
    assert compare(both, asked)[0] == 38


def test_many_groups(both):
    """As many groups as a tree can have."""
    rows = [Row(), *(Row((place - 1) // 16, 1 + place % 10000) for place in range(1, 1024)),
            *(Row(place % 1023 + 1, 100, None, place % 7) for place in range(15360))]
    rows = [row if row.parent is None or place >= 1024 else row._replace(demand=0)
            for place, row in enumerate(rows)]
    assert compare(both, [("certify", (HOSTS[2], rows))])[0] == 1


def test_threads(both):
    """Threads may call at once: each gets its own answer."""
    weights = list(range(1, 400))
    with concurrent.futures.ThreadPoolExecutor(8) as pool:
        amounts = [list(pool.map(lambda weight: each.plan(
            Host(), [Row(), Row(0, weight, demand=20), Row(0, 100, demand=20)]), weights))
            for each in both]
    assert amounts[0] == amounts[1]


def in_child(piped, queue):
    queue.put(piped.plan(Host(), [Row(), Row(0, demand=3)]))


def test_a_child_has_a_process_of_its_own(both):
    """A process that was forked does not read what its parent asked for."""
    piped = both[1]
    context = multiprocessing.get_context("fork")
    queue = context.Queue()
    child = context.Process(target=in_child, args=(piped, queue))
    child.start()
    assert queue.get(timeout=60) == [3, 3]
    child.join(60)
    assert child.exitcode == 0 and piped.plan(Host(), [Row(), Row(0, demand=4)]) == [4, 4]


def test_the_process_ends_with_its_calls(command):
    """No process is left when the calls are, or when Python ends; that of a parent is."""
    calls = pipe.Calls(command)
    process = calls.process()
    with concurrent.futures.ProcessPoolExecutor(1, multiprocessing.get_context("fork")) as pool:
        assert pool.submit(os.getpid).result(60) != os.getpid()
    assert process.poll() is None and calls.arbiter_weight_of_shares(1024, 2) == 100
    last = [calls]
    del calls
    ended = threading.Thread(target=last.clear, daemon=True)
    ended.start()
    ended.join(60)
    assert process.returncode == -signal.SIGKILL
    said = subprocess.run([sys.executable, "-c", "import sys; from arbiter import pipe\n"
                           "print(pipe.Calls(sys.argv[1:]).process().pid)\n"
                           "kept = pipe.Calls(sys.argv[1:])\nprint(kept.process().pid)", *command],
                          cwd=PACKAGE, capture_output=True, timeout=60, check=True)
    assert len(said.stdout.split()) == 2 and said.stderr == b""
    assert not any(os.path.exists(f"/proc/{int(pid)}") for pid in said.stdout.split())


def test_a_process_that_has_ended(command):
    """It is told by each call, and no answer is made up."""
    calls = pipe.Calls(command)
    assert calls.arbiter_weight_of_shares(1024, 2) == 100
    os.kill(calls.process().pid, signal.SIGKILL)
    calls.process().wait(60)
    for _ in range(2):
        with pytest.raises(arbiter.Unavailable, match="has ended"):
            calls.arbiter_weight_of_shares(1024, 2)
    with pytest.raises(AttributeError):
        calls.arbiter_nothing(1)


@pytest.mark.parametrize("line", ["", "nothing", "plan", "plan x", "name 1 -1", "plan 1 1 1 ,",
                                  "name 1", "version 99999999999999999999"])
def test_what_is_no_call(command, line):
    """The process ends with status 1 and one line, and answers nothing."""
    ended = subprocess.run(command, input=f"{line}\n".encode(), capture_output=True, timeout=60,
                           check=False)
    assert (ended.returncode, ended.stdout) == (1, b"")
    assert ended.stderr.startswith(b"Error: ") and ended.stderr.count(b"\n") == 1


@pytest.fixture(scope="module")
def clone(tmp_path_factory, kit):
    """The sources of this clone alone, as a fresh one has them: nothing is built."""
    top = tmp_path_factory.mktemp("clone")
    for name in ("python", "scripts", "crates", "examples"):
        shutil.copytree(PACKAGE.parent / name, top / name,
                        ignore=shutil.ignore_patterns("out", "__pycache__", ".*"))
    for name in ("crates.txt", "HANDLES"):
        shutil.copy(PACKAGE.parent / name, top)
    return top


def run_in(clone, *words):
    """arbiterctl of a clone without a library."""
    environment = {key: word for key, word in os.environ.items() if key != "ARBITER_LIBRARY"}
    ended = subprocess.run([sys.executable, "python/arbiterctl", *words], cwd=clone,
                           env={**environment, "LC_ALL": "C", "COLUMNS": "120"},
                           capture_output=True, timeout=COMPILED, check=False)
    return ended.returncode, ended.stdout.decode(), ended.stderr.decode()


PODS = ("explain", "examples/pods.json", "examples/node.json", "--want", "busy")
WARNED = ("arbiterctl: running the checked build, which proves nothing; ./build --install DIR"
          " makes the C library\n"
          "arbiterctl: in its answers 'the proved check' is the check of that build\n")


def test_a_fresh_clone_explains_pods(ctl, clone):
    """Its answer is that of the library, and standard error says that nothing is proved. Only the
    first call compiles."""
    wanted = ctl.ended(*PODS, cwd=PACKAGE.parent).stdout.decode()
    status, out, err = run_in(clone, *PODS)
    assert (status, out) == (0, wanted) and "nginx" in out
    assert err.startswith("arbiterctl: no C library of these sources: compiling the checked build")
    assert err.endswith(WARNED)
    assert run_in(clone, *PODS) == (0, wanted, WARNED)


def test_many_hosts_are_told_once(clone):
    """The workers of a command do not say it again."""
    folder = clone / "hosts"
    folder.mkdir()
    for name in ("node.script", "pod.script"):
        shutil.copy(EXAMPLES / name, folder)
    status, out, err = run_in(clone, "explain", "hosts")
    assert (status, err.count(WARNED)) == (0, 1) and out.startswith("hosts: 2, answered: 2,")


def test_nothing_is_changed_by_the_checked_build(clone, world):
    """A change of a host takes the C library: status 3."""
    tree = str(world.tree)
    for words in (["apply", "examples/pod.script", "--cpus", "1", "--set", "pod.weight=200"],
                  ["hold", tree, "--root", tree, "--cpus", "2", "--read", "x1s"]):
        status, out, err = run_in(clone, *words, "--yes")
        assert (status, out) == (3, "") and "--yes takes the C library, and no checked build" in err


def test_a_library_that_is_named(clone):
    """No checked build takes the place of a library that somebody named."""
    status, out, err = run_in(clone, *PODS, "--library", "/nowhere/libarbiter.so")
    assert (status, out) == (3, "") and "/nowhere/libarbiter.so" in err
