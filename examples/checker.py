#!/usr/bin/env python3
"""Checks a certified text on standard input by docs/EMBEDDING.md, 'The certified text'.

Prints the line of `arbiter check`. Status: 0 if the text is accepted, otherwise 3.
"""
import re
import sys
from fractions import Fraction

NAMES = dict(zip((*range(1, 11), *range(40, 44), *range(51, 59)), """
BadProcessors BadPeriod BadSlice TooMany BadParent BadWeight TooDeep InnerDemand DemandTooLarge
RootLimited BadLine BadField CutShort Trailing OverLimit OverDemand SumDiffers FlagWithoutLimit
NotGreatest LevelMissing LastMarkAbove NextMarkNotAbove""".split()))


class Fault(Exception):
    """A number of NAMES, and the row where the text is in order and its reasons are not."""


def refuse(fault, fails):
    if fails:
        raise Fault(fault)


def number(word, bits=64):
    refuse(41, not re.fullmatch(rb"0|[1-9][0-9]{0,19}", word) or int(word) >> bits)
    return int(word)


def level(word):
    """A cost, a place and a numerator, compared in this order."""
    parts = re.fullmatch(rb"([^/@]*)/([^/@]*)@([^/@]*)", word)
    refuse(41, parts is None)
    num, den, place = number(parts[1]), number(parts[2]), number(parts[3], 32)
    refuse(41, num == 0 or den == 0)
    return Fraction(num, den), place, num


def line(text, start, count):
    """The words of the line that begins at `start`, and where the next line begins."""
    end = text.find(b"\n", start)
    refuse(42, end < 0)
    words = text[start:end].split(b" ")
    refuse(40, len(words) != count)
    return words, end + 1


def read(text):
    """The capacity of the host in slices, and the seven columns of the rows, which are one tree."""
    head, at = line(text, 0, 6)
    refuse(41, head[:2] != [b"bw", b"1"])
    processors, period, size, groups = map(number, head[2:])
    refuse(1, not 1 <= processors <= 64)
    refuse(2, not 1000 <= period <= 1000000)
    refuse(3, not 1000 <= size <= period or period % size)
    refuse(4, groups > 16384)
    rows = []
    for _ in range(groups):
        (parent, weight, limit, demand, amount, flag, cost), at = line(text, at, 7)
        rows.append((None if parent == b"-" else number(parent, 32), number(weight),
                     None if limit == b"max" else number(limit), number(demand), number(amount),
                     number(flag, 1), None if cost == b"-" else level(cost)))
    refuse(43, at != len(text))
    refuse(5, not rows or rows[0][0] is not None)
    refuse(5, any(own[0] is None or own[0] >= row for row, own in enumerate(rows[1:], 1)))
    refuse(6, any(not 1 <= own[1] <= 10000 for own in rows))
    depths = [0]
    for own in rows[1:]:
        depths.append(depths[own[0]] + 1)
    refuse(7, max(depths) > 64)
    refuse(8, any(rows[parent][3] for parent, *_ in rows[1:]))
    refuse(9, max(own[3] for own in rows) > 1000000)
    refuse(10, rows[0][2] is not None)
    return processors * (period // size), [list(column) for column in zip(*rows)]


def check(text):
    """Raises the first fault of a text, by number and then by row."""
    capacity, (parents, weights, limits, demands, amounts, flags, levels) = read(text)
    inner, rows, limits[0] = set(parents[1:]), range(len(parents)), capacity
    bounds, sums, places, children = demands[:], [0 for _ in rows], [0], [0 for _ in rows]
    for parent in parents[1:]:
        places.append(children[parent])
        children[parent] += 1
    for row in reversed(rows):
        bounds[row] = limits[row] if flags[row] and limits[row] is not None else bounds[row]
        if row:
            bounds[parents[row]] += bounds[row]
            sums[parents[row]] += amounts[row]

    def mark(row, step):
        num = 2 * amounts[row] + step
        return Fraction(num, weights[row]), places[row], num

    top = [levels[parents[row]] if row and amounts[parents[row]] else None for row in rows]
    for fault, fails in (
            (51, lambda row: limits[row] is not None and amounts[row] > limits[row]),
            (52, lambda row: row not in inner and amounts[row] > demands[row]),
            (53, lambda row: row in inner and amounts[row] != sums[row]),
            (54, lambda row: flags[row] and limits[row] is None),
            (55, lambda row: row == 0 and amounts[0] != bounds[0]),
            (56, lambda row: row in inner and amounts[row] and not levels[row]),
            (57, lambda row: top[row] and amounts[row] and mark(row, -1) > top[row]),
            (58, lambda row: top[row] and amounts[row] < bounds[row] and mark(row, 1) <= top[row])):
        for row in filter(fails, rows):
            raise Fault(fault, row)


def verdict(text):
    try:
        check(text)
    except Fault as fault:
        number, *row = fault.args
        return " ".join(["refused" if row else "error", str(number), NAMES[number], *map(str, row)])
    return "accepted"


if __name__ == "__main__":
    print(answer := verdict(sys.stdin.buffer.read()))
    sys.exit(0 if answer == "accepted" else 3)
