"""The order in which ./build has crates proved, on a stand-in for the kit's code."""
import importlib
import os

import pytest

from stand_in import Copy, holds
from support import ROOT, same

# Begins with the chain to `arbiter`. `bw_free` is below no other crate.
CRATES = """bw_low:
bw_short: bw_low
bw_long: bw_low
bw_kept:
bw_free:
arbiter: bw_short bw_long bw_kept bw_free
"""
MEASURED = """# Seconds
# crate\tproof\ttests
bw_low\t5\t-
bw_short\t3\t-
bw_long\t200\t-
bw_free\t100\t-
all\t308\t-
"""
# Proves nothing, and notes each proof. One crate was proved before.
KIT = '''#!/usr/bin/env python3
import concurrent.futures
import os
import sys
import types

HERE = os.path.dirname(os.path.realpath(__file__))
with open(f"{HERE}/../../top/crates.txt") as lines:
    STANDS_ON = {name: below.split() for name, _, below in (line.partition(":") for line in lines)}


def note(name, flags):
    with open(f"{HERE}/../log", "a") as log:
        print("proof", name, *flags, file=log)
    return 0


class Crate:
    def __init__(self, name):
        self.name = name

    def is_built(self):
        return self.name == "bw_kept"

    def build_rlib(self, flags, anew):
        return note(self.name, flags)

    def check(self, flags):
        return note(self.name, flags)


rtlib = types.SimpleNamespace(Crate=Crate)


def main(words):
    proofs = {}

    def prove(name):
        failed = [each for each in STANDS_ON[name] if proofs[each].result()]
        crate = rtlib.Crate(name)
        call = crate.check if name == "arbiter" else lambda flags: crate.build_rlib(flags, False)
        return failed or call(["--jobs", "1"])

    with concurrent.futures.ThreadPoolExecutor(int(words[-1])) as pool:
        for name in STANDS_ON:
            proofs[name] = pool.submit(prove, name)
    print("called", *words)
    return 3
'''


@pytest.fixture
def copy(scratch):
    made = Copy(os.path.realpath(scratch))
    made.write("crates.txt", CRATES)
    made.write("scripts/gate.tsv", MEASURED)
    return made


def proofs(copy, places, jobs):
    """The status and the output of longest_first.py, and the proofs in their order."""
    words = ["python3", "scripts/longest_first.py", "arbiter", str(places), str(jobs)]
    copy.log()
    status, out, err = copy.call(words)
    return status, out + err, [line for line in copy.log() if line.startswith(("proof", "rt"))]


def test_longest_chain_comes_first(copy):
    """Crates are proved from the foot of the longest chain up. What was proved takes no turn."""
    copy.write("../kit/bin/rt", KIT)
    status, out, lines = proofs(copy, 1, 3)
    same((status, out), (3, "called all check --jobs 6\n"), "the kit's own end")
    order = [line.split()[1] for line in lines]
    chain = [name for name in order if name not in ("bw_free", "bw_kept")]
    same(chain, ["bw_low", "bw_long", "bw_short", "arbiter"], f"{lines}")
    same(order.index("bw_free") < order.index("bw_short"), True, f"{lines}")
    holds("proof bw_kept --jobs 1", lines, "what was proved before")


def test_longest_chain_gets_the_processes(monkeypatch):
    """A crate has more than one process if no chain that is being proved is longer."""
    monkeypatch.syspath_prepend(ROOT / "scripts")
    turns = importlib.import_module("longest_first").Turns({"short": 60, "long": 300}, 3, 4)
    with turns.of("long") as first, turns.of("short") as beside:
        same((first, beside), (4, 1), "the shorter one begins later")
    with turns.of("short") as first, turns.of("long") as beside:
        same((first, beside), (4, 4), "the longer one begins later")


def test_failure_stops_what_is_above(copy):
    """What the kit leaves out after a failure takes no turn."""
    copy.write("../kit/bin/rt", KIT.replace("return 0", 'return name == "bw_free"'))
    same("arbiter" in f"{proofs(copy, 4, 3)[2]}", False, "the crate above one that failed")


def test_another_kit_chooses_the_order(copy):
    """A kit without this code is called as before."""
    called = "\nif __name__ == '__main__':\n    print(*sys.argv[1:])\n"
    for text in (KIT.replace("Crate", "Library"), KIT.replace("def main", "def start")):
        copy.write("../kit/bin/rt", f"{text}{called}")
        status, out, order = proofs(copy, 2, 3)
        same((status, out, order), (0, "all check --jobs 2\n", []), text)
    copy.write("../kit/bin/rt", '#!/bin/sh\necho "$@"\n')
    same(proofs(copy, 2, 3)[:2], (0, "all check --jobs 2\n"), "a kit that is no Python")
