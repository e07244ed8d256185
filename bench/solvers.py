#!/usr/bin/python3
"""Compares the planner with a general solver: the same amounts, as linear programs for HiGHS.

usage: solvers.py LIBRARY [GROUPS..]    LIBRARY is a libarbiter.so; GROUPS are 512 and 4096 if none
                                        is given. It needs Debian's python3-scipy

The total is one linear program over the leaves. The plan is one for each group with children: a
variable from 0 to 1 for each slice that a child may get, with that slice's cost (2k - 1)/weight.
Each has a solution in whole numbers, which the simplex method finds.

It prints a table. If the totals differ, or a split of the planner costs more than the solver's,
it names the difference and ends with status 1.
"""
import math
import random
import sys
import time
from fractions import Fraction
from pathlib import Path

import numpy
from scipy.optimize import linprog
from scipy.sparse import csr_matrix

from shapes import SHAPES

TOP = Path(__file__).resolve().parent.parent
sys.path.insert(0, str(TOP / "python"))
import arbiter  # noqa: E402  (the folder is put on the path above)

HOST = arbiter.Host(processors=2, period_us=1000000, slice_us=1000)
CAPACITY = 2000
METHODS = {"simplex": "highs-ds", "interior point": "highs-ipm"}
CHOSEN = ["flat", "pairs", "chains of 32", "random"]
REPEATS = 9


class Tree:
    """The rows of a shape, with weights, demands and limits as the other measurements have them."""

    def __init__(self, shape, groups):
        chosen, paths = random.Random(11), SHAPES[shape](groups)
        above = {path.rpartition("/")[0] for path in paths}
        middle = 3 * CAPACITY // 2 / sum(path not in above for path in paths)
        number = {"": 0} | {path: row for row, path in enumerate(paths, 1)}
        self.parents = [None] + [number[path.rpartition("/")[0]] for path in paths]
        self.weights = [100] + [chosen.randint(1, 10000) for _ in paths]
        self.demands = [0] + [0 if path in above else chosen.randint(1, max(round(2 * middle), 1))
                              for path in paths]
        limited = chosen.sample(range(1, len(paths) + 1), len(paths) // 8)
        self.limits = [CAPACITY] + [math.inf] * len(paths)
        for row in limited:
            self.limits[row] = chosen.randint(1, max(round(4 * middle), 1))
        self.children = [[] for _ in self.parents]
        for row, parent in enumerate(self.parents[1:], 1):
            self.children[parent].append(row)

    def rows(self):
        rows = zip(self.parents, self.weights, self.limits, self.demands)
        return [arbiter.Row(parent, weight, int(limit) if parent is not None and limit < math.inf
                            else None, demand) for parent, weight, limit, demand in rows]

    def mosts(self):
        """The most that each group can be given: its want, cut at its limit."""
        mosts = list(self.demands)
        for row in reversed(range(len(mosts))):
            below = sum(mosts[child] for child in self.children[row])
            mosts[row] = int(min(self.limits[row], below or mosts[row]))
        return mosts


def least(call):
    """The answer of a call, and the least of its processor seconds."""
    best = math.inf
    for _ in range(REPEATS):
        began = time.process_time()
        answer = call()
        best = min(best, time.process_time() - began)
    return answer, best


def solved(costs, above, bounds, method, exactly=None):
    """The solution of a linear program, and the processor seconds that it took."""
    began = time.process_time()
    matrix, most = above
    equal = {} if exactly is None else {"A_eq": numpy.ones((1, len(costs))), "b_eq": [exactly]}
    found = linprog(costs, A_ub=matrix, b_ub=most, bounds=bounds, method=METHODS[method], **equal)
    if found.status:
        sys.exit(f"solvers: {found.message}")
    return found.x, time.process_time() - began


def total_of(tree, method):
    """The greatest total, by a constraint for each group with a limit."""
    leaves = [row for row, below in enumerate(tree.children) if not below and row]
    limited = {row: place for place, row in enumerate(
        row for row, limit in enumerate(tree.limits) if limit < math.inf)}
    places = []
    for column, row in enumerate(leaves):
        while row is not None:
            if row in limited:
                places.append((limited[row], column))
            row = tree.parents[row]
    matrix = csr_matrix((numpy.ones(len(places)), numpy.array(places).T),
                        shape=(len(limited), len(leaves)))
    most = [tree.limits[row] for row in limited]
    bounds = [(0, tree.demands[row]) for row in leaves]
    found, seconds = solved(-numpy.ones(len(leaves)), (matrix, most), bounds, method)
    return round(sum(found)), seconds


def cost(parts, weights):
    return sum(Fraction(part * part, weight) for part, weight in zip(parts, weights))


def split_of(weights, mosts, amount, method):
    """The split of an amount by a variable for each slice, and the processor seconds."""
    room = [min(most, amount) for most in mosts]
    costs = numpy.concatenate([(2 * numpy.arange(1, most + 1) - 1) / weight
                               for weight, most in zip(weights, room)])
    steps, seconds = solved(costs, (None, None), (0, 1), method, exactly=amount)
    ends = numpy.cumsum(room)
    parts = [round(sum(steps[end - most:end])) for end, most in zip(ends, room)]
    return parts, seconds


def compare(tree, amounts, method):
    """The solver's seconds for the total and for the plan, and what differs from the amounts."""
    faults, spent = [], 0.0
    total, of_total = total_of(tree, method)
    if total != amounts[0]:
        faults.append(f"the total is {amounts[0]}, the solver's {total}")
    mosts = tree.mosts()
    for row, children in enumerate(tree.children):
        if len(children) < 2 or not amounts[row]:
            continue
        weights, own = [tree.weights[child] for child in children], [amounts[it] for it in children]
        parts, seconds = split_of(weights, [mosts[it] for it in children], amounts[row], method)
        spent += seconds
        if sum(parts) != amounts[row]:
            faults.append(f"row {row}: the solver's split is not in whole slices")
        elif cost(parts, weights) < cost(own, weights):
            faults.append(f"row {row}: the solver's split costs less")
    return of_total, spent, faults


def main():
    if len(sys.argv) < 2:
        sys.exit(__doc__)
    library, sizes = arbiter.Library(sys.argv[1]), [int(word) for word in sys.argv[2:]]
    print("| Tree | Groups | Method | total, ms | plan, ms | `arbiter_plan`, ms | times |")
    print("|---|---|---|---|---|---|---|")
    bad = False
    for groups in sizes or [512, 4096]:
        for shape in CHOSEN:
            tree = Tree(shape, groups)
            rows = tree.rows()
            columns = arbiter.Columns.of(rows)
            amounts = library.plan(HOST, columns)
            own = least(lambda: library.plan(HOST, columns))[1]
            for method in METHODS:
                of_total, of_plan, faults = compare(tree, amounts, method)
                print(f"| {shape} | {groups} | {method} | {of_total * 1e3:.3g} | {of_plan * 1e3:.3g}"
                      f" | {own * 1e3:.3g} | {(of_total + of_plan) / own:.0f} |", flush=True)
                for fault in faults:
                    bad = True
                    print(f"solvers: {shape}, {groups}, {method}: {fault}", file=sys.stderr)
    sys.exit(bad)


if __name__ == "__main__":
    main()
