"""Names that strangers choose: those that meet under a known key cost no more under another one.

Steps are of a model of the table; instructions are of the program, by valgrind. Neither depends on
what else the machine does.
"""
import ctypes
import itertools
import random
import shutil
import time
from concurrent.futures import ThreadPoolExecutor

import meeting_names
import pytest
import runs
from meeting_names import KNOWN_BYTE, hash_of, key_of, seed_of
from shapes import host, text_of

from support import same

OTHER_BYTES = [1, 77, 200]
# Numbers of callers of the library.
OTHER_KEYS = [1, 2**32 + 5, 2**64 - 1]
# Names may cost so many times ordinary ones, if no key is known.
MOST = 3
# Names that meet under the known key cost at least so many times ordinary ones there: in steps of
# the table, and in all instructions of a run.
MET_STEPS, MET_INSTRUCTIONS = 100, 4


@pytest.fixture(scope="module")
def names():
    """The names that meet under the known key."""
    return meeting_names.FILE.read_text().split()


@pytest.fixture(scope="module")
def ordinary(names):
    """As many other names of the same length."""
    chosen = random.Random(5).sample(range(36**6), len(names))
    return [meeting_names.name_of(number) for number in chosen]


def test_names_meet(names):
    """The names are different, of one length, and in one place under the known key alone."""
    same((len(names), len(set(names)), {len(name) for name in names}),
         (meeting_names.NUMBER, meeting_names.NUMBER, {7}))
    places = {byte: {hash_of(key_of(seed_of(byte), name)) & meeting_names.PLACE
                     for name in names} for byte in [KNOWN_BYTE, *OTHER_BYTES]}
    same(len(places[KNOWN_BYTE]), 1)
    assert all(len(places[byte]) > len(names) * 0.9 for byte in OTHER_BYTES)


def test_paths_that_share_a_key():
    """Two paths that `names_that_share_a_key` of bw_script_tests makes have one key."""
    same(key_of(seed_of(KNOWN_BYTE), "aurlsb"), key_of(seed_of(KNOWN_BYTE), "p/qsvcr"))


def test_names_are_searched(names):
    """The search finds the first names of the file."""
    found = meeting_names.meeting(seed_of(KNOWN_BYTE))
    same(list(itertools.islice(found, 3)), names[:3])


def test_table_of_the_model():
    """Steps by hand: 12 entries that meet fill a group, and the 13th is put into the next one."""
    table = meeting_names.Table()
    # 9 are put into the one group, after 0 to 8 comparisons each
    for _ in range(9):
        table.add(0)
    same((table.steps, [len(group) for group in table.groups]), (9 + 36 + 9, [9]))
    # the 10th has them moved to two groups, and the 13th finds the first of these full
    for _ in range(4):
        table.add(0)
    same((table.steps, [len(group) for group in table.groups]),
         (54 + 9 + (1 + 9 + 1) + (1 + 10 + 1) + (1 + 11 + 1) + (1 + 12 + 2), [12, 1]))
    # now a look-up goes on to the second group
    before = table.steps
    table.look_up(0)
    same(table.steps - before, 1 + 12 + 1 + 1)


def test_known_key_in_the_model(names, ordinary):
    """Under the known key these names do cost many times more."""
    met, usual = (meeting_names.steps(each, KNOWN_BYTE) for each in (names, ordinary))
    assert met > MET_STEPS * usual, (met, usual)


@pytest.mark.parametrize("byte", OTHER_BYTES)
def test_other_keys_in_the_model(names, ordinary, byte):
    """Under another key they cost what ordinary names do."""
    met, usual = (meeting_names.steps(each, byte) for each in (names, ordinary))
    assert met < MOST * usual, (met, usual)


@pytest.fixture(scope="module")
def instructions(program, names, ordinary, tmp_path_factory):
    """The instructions of a run that makes siblings and gives each a demand, by names and byte."""
    if not shutil.which("valgrind"):
        pytest.skip("no valgrind")
    folder = tmp_path_factory.mktemp("scripts")
    for kind, some in (("met", names), ("usual", ordinary)):
        lines = [f"{verb} {name}{number}" for verb, number in (("mkdir", ""), ("demand", " 1"))
                 for name in some]
        (folder / kind).write_bytes(text_of(lines))
    asked = [(kind, byte) for kind in ("met", "usual") for byte in [KNOWN_BYTE, *OTHER_BYTES]]
    # built once, before several threads ask for it
    runs.fixed_random()
    with ThreadPoolExecutor(4) as pool:
        found = pool.map(lambda each: runs.counted([program.path, *host(64)],
                                                   str(folder / each[0]), each[1])[0], asked)
        return dict(zip(asked, found))


def test_known_key(instructions):
    """Under the known key the program takes many times as long for these names."""
    met, usual = (instructions[kind, KNOWN_BYTE] for kind in ("met", "usual"))
    assert met > MET_INSTRUCTIONS * usual, (met, usual)


@pytest.mark.parametrize("byte", OTHER_BYTES)
def test_other_keys(instructions, byte):
    """Under another key it takes what it takes for ordinary names."""
    met, usual = (instructions[kind, byte] for kind in ("met", "usual"))
    assert met < MOST * usual, (met, usual)


@pytest.fixture(scope="module")
def seconds(library, names, ordinary):
    """The least time of five in which the library reads a script of siblings, by names and key."""
    call = ctypes.CDLL(str(library)).arbiter_script

    def once(words):
        before = time.thread_time()
        same(call(*words), 0)
        return time.thread_time() - before

    def least(some, key):
        text = "".join(f"mkdir {name}\n" for name in some).encode()
        sizes = [(ctypes.c_uint32, len(some) + 1)] + [(ctypes.c_uint64, len(some) + 1)] * 7 + [
            (ctypes.c_uint8, len(text) + 1), (ctypes.c_uint64, 1), (ctypes.c_uint32, 1)]
        words = [ctypes.c_uint64(number) for number in (1, 100000, 5000, key)]
        words += [text, ctypes.c_size_t(len(text))]
        for kind, size in sizes:
            words += [(kind * size)(), ctypes.c_size_t(size)]
        words += [ctypes.byref(kind()) for kind in (ctypes.c_uint32, *[ctypes.c_uint64] * 2)]
        return min(once(words) for _ in range(5))

    return lambda kind, key: least(names if kind == "met" else ordinary, key)


def test_a_known_key_of_the_library(seconds):
    """Under the number that these names were chosen for, the library takes many times as long."""
    met, usual = seconds("met", KNOWN_BYTE), seconds("usual", KNOWN_BYTE)
    assert met > MET_INSTRUCTIONS * usual, (met, usual)


@pytest.mark.parametrize("key", OTHER_KEYS)
def test_other_keys_of_the_library(seconds, key):
    """Under the number of a caller who chose another one, they take what ordinary names do."""
    met, usual = seconds("met", key), seconds("usual", key)
    assert met < MOST * usual, (met, usual)
