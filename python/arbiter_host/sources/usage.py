"""The use of containers, as others measured it: each entry with the names that its file has.

    kubectl top pods -A --containers
    kubectl get --raw /apis/metrics.k8s.io/v1beta1/pods
    docker stats --no-stream
    podman stats --no-stream

The last two print a table, or JSON by `--format json`.
"""
from __future__ import annotations

import itertools
import json
import re
from collections.abc import Iterator, Mapping, Sequence
from fractions import Fraction
from typing import Any, NamedTuple

from arbiter_host.base import units
from arbiter_host.base.demands import Times, Values
from arbiter_host.base.faults import HostFault, naming
from arbiter_host.base.names import cut, few, shown
from arbiter_host.sources.data import (MAX_TEXT, field, cells_of, check_memory, check_size, loads,
                                       tables, text_field)
from arbiter_host.sources.pods import quantity
from arbiter_host.sources.register import BLANK

# Containers that a file may name.
MOST_ENTRIES = 200000
# Columns of `kubectl top pods`, and the names that entries have for them.
CPU_COLUMN = "CPU(cores)"
COLUMNS = {"NAMESPACE": "namespace", "POD": "pod", "NAME": "container", CPU_COLUMN: "cpu"}
# Of what `docker stats` and `podman stats` print, as JSON and as a table: the CPU, the number of
# processes, which is 0 of a container that does not run, its name and its identifier.
STATS = (("CPUPerc", "PIDs", "Name", "ID"), ("cpu_percent", "pids", "name", "id"),
         ("CPU %", "PIDS", "NAME", "CONTAINER ID", "ID"))
# What tells such a table, and what separates its columns.
CPU_PART, GAP = "CPU %", re.compile(r"\s{2,}")
PERCENT = re.compile(r"([0-9]{1,12}(?:\.[0-9]{1,12})?)%")


class Used(NamedTuple):
    """The use of one container, in thousandths of a CPU, at one time or at several. Names that a
    file lacks are empty."""

    amounts: Values
    namespace: str = ""
    pod: str = ""
    container: str = ""
    identifier: str = ""
    # When the first and the last amount was used; None where that is not told.
    times: Times | None = None
    # The labels of its series, where a server has it.
    labels: Mapping[str, str] = {}

    @property
    def word(self) -> str:
        """The names in one word."""
        parts = [each for each in (self.namespace, self.pod, self.container) if each]
        return "/".join(parts) or self.identifier

    @property
    def title(self) -> str:
        """The names, as people can read them."""
        return shown(self.word)


def is_text(data: bytes) -> bool:
    """Whether a file is no JSON."""
    return data.lstrip(BLANK)[:1] not in (b"{", b"[")


def is_usage(data: bytes) -> bool:
    """Whether a file tells what was used at one time, and has no samples. An empty one is taken
    for such a file."""
    head = next((line for line in data[:65536].decode("utf-8-sig", "replace").split("\n")
                 if line.strip()), "")
    return (not is_text(data) or not head or CPU_COLUMN in head.split()
            or CPU_PART in GAP.split(head.strip()))


def amount_of(word: str, where: str) -> Fraction:
    """The thousandths of a CPU of a quantity, or of a percentage of one CPU."""
    percent = PERCENT.fullmatch(word.strip())
    if percent:
        return Fraction(percent[1]) * 10
    with naming(where):
        return quantity(word)


def columns_of(words: Sequence[str], name: str) -> list[str]:
    """The entries' names of the columns of `kubectl top pods`; empty for other columns."""
    columns = [COLUMNS.get(each, "") for each in words]
    if any("%" in each for each in words):
        raise HostFault(f"{name}:1: what nodes use, as `kubectl top nodes` prints it: pods have it"
                        " by `kubectl top pods -A --containers`")
    if "cpu" not in columns or "container" not in columns:
        raise HostFault(f"{name}:1: no usage as `kubectl top pods -A --containers`, metrics-server"
                        " or `docker stats --no-stream` prints it")
    # Without --containers NAME is the pod.
    return columns if "pod" in columns else ["pod" if each == "container" else each
                                             for each in columns]


def of_stats(row: Any, where: str) -> Iterator[Used]:
    """The entry of a container of `docker stats` or `podman stats`; none for one without an amount
    or a process."""
    keys = next((keys for keys in STATS if isinstance(row, dict) and keys[0] in row), None)
    if keys is None:
        raise HostFault(f"{where}: no container as `docker stats --no-stream --format json` prints"
                        " it")
    cpu, processes, container, *identifiers = (text_field(row, key) for key in keys)
    if cpu not in ("", "--") and processes != "0":
        yield Used(Values.of([amount_of(cpu, where)]), container=container.lstrip("/"),
                   identifier=next(filter(None, identifiers), ""))


def of_text(data: bytes, name: str) -> Iterator[Used]:
    """The entries of `kubectl top pods`, or of the table of `docker stats`."""
    lines = [(f"{name}:{number}", line.strip()) for number, line in enumerate(
        data.decode("utf-8-sig", errors="replace").split("\n"), 1) if line.strip()]
    if not lines:
        raise HostFault(f"{name}: empty: it names no container")
    is_stats = CPU_PART in GAP.split(lines[0][1])
    head = GAP.split(lines[0][1]) if is_stats else columns_of(lines[0][1].split(), name)
    for where, line in lines[1:]:
        cells = GAP.split(line) if is_stats else line.split()
        if not is_stats and not "".join(cells).strip("_"):
            return  # (the sums of `--sum` follow)
        row = cells_of(cells, head, where, "columns" if is_stats else "words")
        if is_stats:
            yield from of_stats(row, where)
        else:
            amount = amount_of(row["cpu"][:MAX_TEXT], where)
            yield Used(Values.of([amount]), text_field(row, "namespace"), text_field(row, "pod"),
                       text_field(row, "container"))


def of_metrics(items: Sequence[dict[str, Any]], name: str) -> Iterator[Used]:
    """The entries of metrics-server: of each pod its containers."""
    for item in items:
        namespace, pod = (text_field(item, "metadata", key) for key in ("namespace", "name"))
        for each in tables(item, "containers"):
            container = text_field(each, "name")
            where = f"{name}: {shown(f'{namespace}/{pod}/{container}')}"
            amount = amount_of(str(field(each, "usage", "cpu"))[:60], where)
            yield Used(Values.of([amount]), namespace, pod, container)


def of_lines(data: bytes, name: str) -> Iterator[Any]:
    """The values of JSON with one value in each line; a fault names the line."""
    for number, line in enumerate(data.split(b"\n"), 1):
        if line.strip():
            try:
                yield json.loads(line.decode("utf-8-sig"))
            except (ValueError, RecursionError) as error:
                raise HostFault(f"{name}:{number}: no JSON that can be read:"
                                f" {shown(cut(str(error), 80))}") from error


def of_json(data: bytes, name: str) -> Iterator[Used]:
    """The entries of JSON."""
    check_memory(data, name)
    values = list(of_lines(data, name)) if b'"CPUPerc"' in data else [loads(data, name)]
    first = values[0] if len(values) == 1 else None
    if field(first, "data", "resultType"):
        raise HostFault(f"{name}: an answer of a Prometheus, whose address --used takes: http://..")
    if text_field(first, "kind") == "PodMetricsList" or isinstance(field(first, "items"), list):
        yield from of_metrics(tables(first, "items"), name)
    elif text_field(first, "kind") == "PodMetrics":
        yield from of_metrics(values, name)
    else:
        for number, each in enumerate(first if isinstance(first, list) else values, 1):
            yield from of_stats(each, f"{name}:{number}")


def read(data: bytes, name: str) -> list[Used]:
    """The entries of a file of usage."""
    check_size(data, name)
    entries = list(itertools.islice(of_text(data, name) if is_text(data) else of_json(data, name),
                                    MOST_ENTRIES + 1))
    for each in entries:
        if each.amounts[0] > units.MAX_CPUS:
            raise HostFault(f"{name}: {each.title}: {float(each.amounts[0]):g}m is no usage of a"
                            " host")
    if len(entries) > MOST_ENTRIES:
        raise HostFault(f"{name}: more than {MOST_ENTRIES} containers")
    if not entries:
        raise HostFault(f"{name}: it names no container")
    return entries


def some(titles: Sequence[str]) -> str:
    """The number of some names, with the first of them."""
    return f"{len(titles)}: {few(titles)}"
