"""The use of groups, by the words of `--used`: files, a folder, or the address of a server.

The form of a file is found, as that of a source is: what was used at one time, as `kubectl top`,
metrics-server and `docker stats` print it, or samples over time.
"""
from __future__ import annotations

import functools
import os
from collections.abc import Callable, Sequence
from contextlib import suppress
from dataclasses import replace
from datetime import datetime, timezone
from fractions import Fraction

from arbiter_host.base import demands, plain_files, units
from arbiter_host.base.faults import HostFault, UsageFault
from arbiter_host.base.names import shown
from arbiter_host.base.owned import Owned
from arbiter_host.sources import readings, prometheus, samples, usage
from arbiter_host.sources.measurable import Measurable
from arbiter_host.sources.register import SERVICE
from arbiter_host.sources.samples import History, Sample
from arbiter_host.sources.source_options import UseOptions
from arbiter_host.sources.usage import Used

# Hosts whose samples are kept at hand.
KEPT = 64


def name(uses: UseOptions) -> str:
    """The words, for messages."""
    return shown(", ".join(uses.words))


def is_tree(uses: UseOptions) -> bool:
    """Whether the words are folders: a tree of cgroups, or copies of one after another."""
    folders = list(map(os.path.isdir, uses.words))
    if any(folders) and not all(folders):
        raise UsageFault("--used: a tree of cgroups is there alone, or with later copies of it")
    return any(folders)


def check(uses: UseOptions) -> None:
    """A fault where the words cannot be read, or demands are asked that are no use."""
    check_want(uses)
    check_input(uses)


def check_want(uses: UseOptions) -> None:
    """A fault where the demands are asked from something that was not used."""
    want = uses.want or "usage"
    if want not in demands.OF_USE or want == "psi" and not is_tree(uses):
        raise UsageFault(f"--used belongs to --want {', '.join(demands.OF_USE)}, the last of a"
                         f" tree alone, and not to {want}")


def check_input(uses: UseOptions) -> None:
    """A fault where standard input is meant twice."""
    many = uses.words.count("-")
    if many and uses.has_input:
        raise UsageFault("--used -: standard input is the source already")
    if many > 1:
        raise UsageFault("--used -: standard input is one file")


def bytes_of(uses: UseOptions, word: str) -> bytes:
    """The bytes of a file of `--used`, or what a service tells."""
    check_input(uses)
    if SERVICE.match(word):
        from arbiter_host.sources.services import RunningService
        return RunningService(word).used()
    return plain_files.standard_input() if word == "-" else plain_files.file_bytes(word)


def asked_range(uses: UseOptions) -> prometheus.QueryRange:
    """The range that is asked of a server."""
    return prometheus.range_of(uses.range, uses.step, uses.span)


def metrics_of(uses: UseOptions, word: str) -> list[prometheus.Metric]:
    """The answer of a server to the query of the options."""
    return prometheus.read(word, uses.query, asked_range(uses))


def window_of(uses: UseOptions) -> float:
    """The seconds for which a container that has ended still has samples of the query."""
    return prometheus.window_of(uses.query, asked_range(uses).step)


def of_file(uses: UseOptions, word: str, first: int) -> History:
    """The samples of a file. Those without a time are numbered from `first + 1` on. What was used
    at one time is one sample, in thousandths of a CPU."""
    data, where = bytes_of(uses, word), shown(word)
    if not usage.is_usage(data):
        return samples.read(data, word, first)
    entries = usage.read(data, where)
    samples.check_names([each.word for each in entries], where)
    cells = {each.word: f"{units.decimal(each.amounts[0], 9)}m" for each in entries}
    return History([], [Sample(str(first + 1), cells, where, False)], others=cells.keys())


def history(uses: UseOptions) -> History:
    """The samples of all words, one file after the other."""
    histories: list[History] = []
    for word in uses.words:
        if prometheus.is_address(word):
            histories.append(prometheus.history_of(metrics_of(uses, word), word, window_of(uses)))
        elif os.path.isdir(word):
            raise UsageFault(f"--used {shown(word)}: a folder has samples of many hosts")
        else:
            histories.append(of_file(uses, word, sum(len(each.samples) for each in histories)))
    return samples.joined(histories)


def mapped(words: Sequence[str]) -> dict[str, str]:
    """The groups of columns, from the words of `--map`."""
    if any("=" not in word for word in words):
        raise UsageFault("--map COLUMN=GROUP")
    return {left: right for left, _, right in (word.rpartition("=") for word in words)}


def is_served(uses: UseOptions) -> bool:
    """Whether a server is asked, which may know groups of other hosts too."""
    return any(map(prometheus.is_address, uses.words))


def entries(uses: UseOptions) -> list[Used]:
    """The use of each container, by all words: an entry for each column of samples, or each of one
    moment, of which a mean alone is meant.

    A column without a number in a sample has none there. A column may name the container of a pod.
    """
    word, *more = uses.words
    if not more and not prometheus.is_address(word):
        data = bytes_of(uses, word)
        if usage.is_usage(data):
            used = usage.read(data, shown(word))
            if uses.idle:
                raise UsageFault(f"--{uses.idle[0]}: it has no effect on what was used at one"
                                 " time")
            if uses.want not in ("", "usage"):
                raise UsageFault(f"--want {uses.want}: {name(uses)} tells of one time alone:"
                                 " it belongs to --want usage")
            return used
    mapping, told = mapped(uses.columns), history(uses)
    meant: dict[str, tuple[list[str], list[Sample]]] = {}
    columns: dict[str, tuple[list[str], list[Sample]]] = {}
    for sample in told.samples:
        for head, cell in sample.cells.items():
            if head not in columns:
                columns[head] = meant.setdefault(mapping.get(head, head), ([], []))
            cells, seen = columns[head]
            cells.append(cell)
            seen.append(sample)
    used = []
    for column, (cells, seen) in meant.items():
        namespace, pod, container = (column.split("/") if column.count("/") == 2
                                     else ("", "", column))
        used.append(Used(
            samples.values_of(cells, uses.unit, uses.host, (each.where for each in seen)),
            namespace, pod, container, times=times_of([seen[0].name, seen[-1].name]),
            labels=told.labels.get(column, {})))
    return used


def times_of(samples: Sequence[str]) -> demands.Times | None:
    """The first and the last second of samples, by their names; None where these are no times."""
    with suppress(ValueError, OverflowError):
        times = [datetime.fromisoformat(each) for each in (samples[0], samples[-1])]
        one, two = (Fraction(each.replace(tzinfo=each.tzinfo or timezone.utc).timestamp())
                    for each in times)
        return min(one, two), max(one, two)
    return None


def measured(uses: UseOptions, source: Measurable) -> Owned:
    """A source with the use of its groups."""
    if not is_tree(uses):
        return source.with_usage(entries(uses), name(uses))
    known, seconds, there = readings.measured_at(uses.words, uses.times, source.folders(),
                                                 source.noun)
    return replace(source, known=known, seconds=seconds, there=there).compared()


# Many hosts

def by_host(uses: UseOptions) -> Callable[[str], History]:
    """The samples of each host by its name: from `HOST.csv` in a folder, one table, or a server."""
    if len(uses.words) != 1:
        raise UsageFault("--used: a folder, one table or one server for many hosts")
    (word,) = uses.words

    @functools.lru_cache(maxsize=KEPT)
    def of_folder(host: str) -> History:
        path = os.path.join(word, f"{host}.csv")
        return samples.read_csv(plain_files.file_bytes(path, True), shown(path))

    if os.path.isdir(word):
        return of_folder
    known = (prometheus.by_host(metrics_of(uses, word), word, window_of(uses))
             if prometheus.is_address(word)
             else samples.read_table(bytes_of(uses, word), shown(word)))

    def of_table(host: str) -> History:
        if host not in known:
            raise HostFault(f"{shown(word)}: no demand of {host}")
        return known[host]

    return of_table
