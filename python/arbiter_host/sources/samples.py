"""Demands over time, as files have them: CSV as Grafana and others write it, and lines of pairs.

A sample has its numbers as they are written: what they are is known with the period of a host.
"""
from __future__ import annotations

import csv
import io
import itertools
import re
from collections import Counter
from collections.abc import Callable, Iterable, Iterator, Mapping, Sequence, Set
from contextlib import suppress
from datetime import datetime, timezone
from decimal import Context, Decimal, InvalidOperation
from fractions import Fraction
from typing import NamedTuple, TypeVar

from arbiter import Host
from arbiter_host.base import units
from arbiter_host.base.demands import Values
from arbiter_host.base.faults import HostFault
from arbiter_host.base.names import cut, shown
from arbiter_host.base.plain_files import MAX_FILE
from arbiter_host.sources.data import cells_of, decoded

Key = TypeVar("Key")
TIMES = ("time", "period", "timestamp", "date", "datetime", "_time", "ts")
DATED = re.compile(r"[0-9]{4}-[0-9]{2}-[0-9]{2}[ T][0-9]{2}:[0-9]{2}:[0-9]{2}")
EMPTY = ("", "nan", "null", "none", "undefined", "-")
# The columns of one table of many hosts, each under one of its names.
TABLE = {"time": TIMES, "host": ("host", "node", "instance"),
         "group": ("group", "cgroup", "pod"), "demand": ("demand", "value", "_value")}
# Epochs above this are milliseconds.
MILLISECONDS = 10**11
NUMBER = re.compile(r"[+-]?[0-9.]")
# Numbers without a unit as nearly all samples have them, one in each line, and what reads them
# exactly: these have at most so many digits behind the point, and so many more by an exponent.
PLAIN = re.compile(r"(?:(?>[0-9]{1,15})(?:\.(?>[0-9]{0,30}))?(?:[eE]-[0-2]?[0-9])?\n)*+")
EXPONENT, EXACT = 30, Context(prec=100)
# A number in which a comma may be of thousands or of decimals.
GROUPED = re.compile(r"[+-]?[0-9]+,[0-9]+\s*\w*")


class Sample(NamedTuple):
    """The numbers of one sample by the names of its columns, and where they stand."""

    name: str
    cells: Mapping[str, str]
    where: str
    # Whether a column that it does not name asks for nothing. Else it asks for what it did.
    is_whole: bool = True

    def demands(self, unit: str, host: Host) -> dict[str, Fraction]:
        """The demands that it names, in thousandths of a CPU. Plain numbers are of the unit."""
        return {column: demand_of(cell, unit, host, self.where)
                for column, cell in self.cells.items()}


class History(NamedTuple):
    """Samples one after another."""

    # The columns that a whole sample asks nothing of where it has no number.
    holes: list[str]
    samples: list[Sample]
    # The labels of columns that a server has, where it told them.
    labels: Mapping[str, Mapping[str, str]] = {}
    # The columns that others measured, which may be of groups elsewhere.
    others: Set[str] = frozenset()

    @property
    def columns(self) -> list[str]:
        """The names of all columns, in their order."""
        return list(dict.fromkeys([*self.holes, *(name for each in self.samples
                                                  for name in each.cells)]))

    @property
    def lacking(self) -> list[str]:
        """The columns that have no number in some whole samples, and in how many."""
        whole = [each.cells for each in self.samples if each.is_whole]
        seen = Counter(name for cells in whole for name in cells)
        return [f"{shown(name)} in {len(whole) - seen[name]} of {len(whole)}"
                for name in self.holes if seen[name] < len(whole)]

    def of_columns(self, is_meant: Callable[[str], bool]) -> History:
        """The samples of some columns alone."""
        return History([each for each in self.holes if is_meant(each)], [
            each._replace(cells={name: cell for name, cell in each.cells.items()
                                 if is_meant(name)}) for each in self.samples],
                       others=frozenset(filter(is_meant, self.others)))

    def demands(self, unit: str, host: Host) -> Iterator[tuple[str, dict[str, Fraction]]]:
        """The name of each sample, and the demands that it sets, in thousandths of a CPU."""
        holes = dict.fromkeys(self.holes, Fraction(0))
        for each in self.samples:
            yield each.name, {**(holes if each.is_whole else {}), **each.demands(unit, host)}


def joined(histories: Iterable[History]) -> History:
    """Histories one after another."""
    every = list(histories)
    return History(list(dict.fromkeys(name for each in every for name in each.holes)),
                   [sample for each in every for sample in each.samples],
                   {name: labels for each in every for name, labels in each.labels.items()},
                   frozenset().union(*(each.others for each in every)))


def demand_of(text: str, unit: str, host: Host, where: str) -> Fraction:
    """A number of a unit in thousandths of a CPU. A comma may stand for the decimal point."""
    parsed = units.number_and_unit(text.replace(",", ".", 1))
    if parsed is None or parsed[1] not in ("", *units.CPU_UNITS):
        raise HostFault(f"{where}: {shown(cut(text, 40))!r} is no number")
    value = parsed[0]
    if parsed[1]:
        return value * units.CPU_UNITS[parsed[1]]
    if value > 10**15:
        raise HostFault(f"{where}: {shown(cut(text, 40))!r} is above 10^15")
    return value * units.one_of(unit, host)


def values_of(cells: Sequence[str], unit: str, host: Host, wheres: Iterable[str]) -> Values:
    """The numbers of some cells, as `demand_of` has each. Those without a unit are read at once."""
    text = "\n".join(cells)
    places = max(map(len, cells)) + (EXPONENT if "e" in text or "E" in text else 0)
    with suppress(InvalidOperation):
        if PLAIN.fullmatch(f"{text}\n"):
            scaled = map(EXACT.scaleb, map(Decimal, cells), itertools.repeat(places))
            return Values(list(map(int, scaled)), units.one_of(unit, host) / 10**places)
    return Values.of([demand_of(cell, unit, host, where) for cell, where in zip(cells, wheres)])


def time_name(text: str) -> str:
    """The name of a sample: an epoch as a time, any other text as it is."""
    if not re.fullmatch(r"[0-9]{9,16}(\.[0-9]+)?", text):
        return text
    value = float(text)
    value = value / 1000 if value > MILLISECONDS else value
    try:
        return datetime.fromtimestamp(value, timezone.utc).strftime("%Y-%m-%d %H:%M:%S")
    except (ValueError, OverflowError, OSError):
        return text


def rows_of(data: bytes, name: str) -> tuple[list[str], list[tuple[str, list[str]]]]:
    """The first row of a CSV, and the others with their places. All have as many cells.

    Empty rows and Grafana's `sep=` line are left out. The most frequent of `;`, tab and `,` in the
    first line separates the cells.
    """
    lines = decoded(data, name, MAX_FILE).split("\n")
    begin = int(lines[0].strip().lower().startswith("sep="))
    head = lines[begin] if len(lines) > begin else ""
    delimiter = max(";\t,", key=lambda each: (head.count(each), each == ","))
    # (such a cell stands in quotes)
    has_commas = delimiter == "," and any('"' in line for line in lines)
    reader = csv.reader(io.StringIO("\n".join(lines[begin:]), newline=""), delimiter=delimiter)
    rows = []
    try:
        for row in reader:
            if any(cell.strip() for cell in row):
                where = f"{name}:{reader.line_num + begin}"
                rows.append((where, [cell.strip() for cell in row]))
    except csv.Error as error:
        raise HostFault(f"{name}:{reader.line_num + begin}: {error}") from error
    for where, row in rows[1:]:
        if len(row) != len(rows[0][1]):
            cells_of(row, rows[0][1], where)
        grouped = next(filter(GROUPED.fullmatch, row if has_commas else ()), None)
        if grouped:
            raise HostFault(f"{where}: {shown(cut(grouped, 40))!r}: a comma in a number of a file"
                            " whose cells a comma separates")
    return (rows[0][1], rows[1:]) if rows else ([], [])


def is_csv(path: str, data: bytes) -> bool:
    """Whether a file is CSV, by its name or its first line, and has no lines of pairs."""
    if path.lower().endswith((".csv", ".tsv")):
        return True
    line = data[:4096].decode("utf-8-sig", "replace").partition("\n")[0]
    words = line.split()
    are_pairs = len(words) % 2 == 0 and all(map(NUMBER.match, words[1::2]))
    return any(each in line for each in ",;\t") and not are_pairs and not line.startswith("#")


def check_names(groups: Sequence[str], where: str) -> None:
    """A fault where one group is named twice."""
    if len(set(groups)) < len(groups):
        twice = next(each for at, each in enumerate(groups) if each in groups[:at])
        raise HostFault(f"{where}: two numbers of {shown(cut(twice, 60))}")


def check_times(rows: Sequence[tuple[str, str]]) -> None:
    """A fault where times with a date and seconds come twice, or go back from row to row."""
    if not all(DATED.match(time) for _, time in rows):
        return
    seen = set[str]()
    for where, time in rows:
        if time in seen:
            raise HostFault(f"{where}: two rows of {shown(time)}")
        seen.add(time)
    if len(rows) > 1 and all(one > two for (_, one), (_, two) in zip(rows, rows[1:])):
        raise HostFault(f"{rows[1][0]}: {shown(rows[1][1])} is before {shown(rows[0][1])}, and so"
                        " on: the oldest row comes first")


def told(cells: dict[Key, str]) -> dict[Key, str]:
    """The cells that have something in them."""
    if set(EMPTY).isdisjoint(map(str.lower, cells.values())):
        return cells
    return {key: cell for key, cell in cells.items() if cell.lower() not in EMPTY}


def read_csv(data: bytes, name: str, first: int = 0) -> History:
    """The samples of a CSV: groups in the first row, a number for each in every other. Samples
    without a time are numbered from `first + 1` on."""
    head, rows = rows_of(data, name)
    is_timed = bool(head) and (head[0].lower() in ("", *TIMES) or head[0].lower().endswith("time"))
    check_names(head[is_timed:], f"{name}:1")
    check_times([(where, time_name(row[0])) for where, row in rows] if is_timed else [])
    return History(head[is_timed:], [
        Sample(time_name(row[0]) if is_timed else str(number),
               told(dict(zip(head[is_timed:], row[is_timed:]))), where)
        for number, (where, row) in enumerate(rows, first + 1)])


def read_pairs(data: bytes, name: str, first: int = 0) -> History:
    """The samples of lines `GROUP NUMBER GROUP NUMBER ..`. A line with `#` first is none. They are
    numbered from `first + 1` on."""
    read: list[Sample] = []
    text = decoded(data, name, MAX_FILE)
    for number, line in enumerate(text.removesuffix("\n").split("\n"), 1):
        words, where = line.split(), f"{name}:{number}"
        if words and words[0].startswith("#"):
            continue
        if len(words) % 2:
            raise HostFault(f"{where}: not pairs of a group and a number")
        check_names(words[::2], where)
        cells = dict(zip(words[::2], words[1::2]))
        read.append(Sample(str(first + len(read) + 1), cells, where, False))
    return History([], read)


def read(data: bytes, path: str, first: int = 0) -> History:
    """The samples of a file: CSV, or lines of pairs."""
    return (read_csv if is_csv(path, data) else read_pairs)(data, shown(path), first)


def read_table(data: bytes, name: str) -> dict[str, History]:
    """The samples of each host, from one CSV with the columns time, host, group, demand. Times of
    a host stand in the order in which they come."""
    head, rows = rows_of(data, name)
    if not head:
        raise HostFault(f"{name}: no sample")
    low, order = [each.lower() for each in head], []
    for key, known in TABLE.items():
        if not set(known) & set(low):
            raise HostFault(f"{name}:1: no column {key}: time, host, group, demand")
        order.append(low.index(next(each for each in known if each in low)))
    tables: dict[str, History] = {}
    by_time: dict[tuple[str, str], dict[str, str]] = {}
    for where, row in rows:
        time, host, group, demand = (row[at] for at in order)
        history = tables.setdefault(host, History([], []))
        if (host, time) not in by_time:
            by_time[host, time] = {}
            history.samples.append(Sample(time_name(time), by_time[host, time], where))
        if group in by_time[host, time]:
            raise HostFault(f"{where}: two numbers of {shown(cut(group, 60))} on"
                            f" {shown(cut(host, 60))} at one time")
        if group not in history.holes:
            history.holes.append(group)
        if demand.lower() not in EMPTY:
            by_time[host, time][group] = demand
    return tables
