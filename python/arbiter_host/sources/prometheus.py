"""The use of groups over time, from a server of Prometheus."""
from __future__ import annotations

import itertools
import json
import math
import re
import time
import urllib.parse
from collections.abc import Callable, Iterable, Mapping, Sequence, Set
from datetime import datetime
from fractions import Fraction
from typing import Any, NamedTuple, TypeVar

from arbiter_host.base import output, units
from arbiter_host.base.demands import Values
from arbiter_host.base.faults import HostFault, UsageFault, naming
from arbiter_host.base.names import cut, shown
from arbiter_host.sources.data import SCHEMES
from arbiter_host.sources.samples import TABLE, History, Sample, time_name, told

Parsed = TypeVar("Parsed")

# The counter of cAdvisor, in seconds.
USAGE = "container_cpu_usage_seconds_total"
# The series of cAdvisor that are no totals: containers of pods without pause containers, containers
# of docker, and units.
LEAVES = ('container!="",container!="POD"', 'container="",name!=""',
          'container="",name="",id=~".*[.](service|scope)"')
# Seconds of the rate at least: the time of some readings of cAdvisor.
LEAST_RATE = 120
# Part of a value below which a difference of two is none.
NOISE = Fraction(1, 10**9)
# Labels that tell apart what one server has of several clusters, scrapes or servers.
HOMES = re.compile(r"cluster|prometheus|replica|tenant|^job$|^monitor$")
# Part of a node above which use is none: rates may be somewhat above it.
MOST_USE = Fraction(5, 4)
# Seconds for which a server shows a series that has ended.
LOOKBACK = 300
# Samples of a series where no step is said. A server gives 11,000 at most.
MOST_SAMPLES = 5000
# Warnings of a server that are told.
MOST_WARNINGS = 5
# Labels that tell the parts of one container's use apart.
PARTS = frozenset({"cpu", "image", "name", "uid", "container_id"})
# What a scrape puts before labels of what was measured, where its own have these names.
EXPORTED = "exported_"
# Labels that change where a container is made anew, maybe on another node: then its series ends.
ANEW = frozenset({"id", "instance", "node", "host"})


def is_address(word: str) -> bool:
    """Whether a word of the command line is the address of a server."""
    return word.startswith(SCHEMES)


class QueryRange(NamedTuple):
    """A time that is asked of a server: epochs or RFC 3339, and a step in seconds."""

    start: str
    end: str
    step: float


def moment(text: str) -> str:
    """A time as a server takes it. A fault for one that is none."""
    try:
        if not text.replace(".", "", 1).isdigit():
            datetime.fromisoformat(text.replace("Z", "+00:00"))
    except ValueError as error:
        raise UsageFault(f"--range {shown(cut(text, 60))}: neither an epoch nor RFC 3339"
                         ) from error
    return text


def range_of(word: str | None, step: str | None, default: str = "1d") -> QueryRange:
    """The range of `--range` and `--step`: a time up to now, or START/END. The step is a minute
    where that is not said, or as many as leave so many samples of a time."""
    start, mark, end = (word or default).partition("/")
    with naming("--range, --step", UsageFault):
        seconds = units.parse_time(step or "1m") / 10**6
        back = 0 if mark else units.parse_time(start) / 10**6
    if mark:
        return QueryRange(moment(start), moment(end), seconds)
    if not step:
        seconds *= math.ceil(back / (seconds * MOST_SAMPLES))
    if not seconds or not back:
        raise UsageFault("--range, --step: above 0")
    now = math.floor(time.time())
    return QueryRange(f"{now - back:.3f}", str(now), seconds)


def of_range(url: str, query: str, asked: QueryRange, parsed: Callable[[Any], Parsed]) -> Parsed:
    """Parses the answer to a range query. What the server warns of is told: its answer may then be
    of some of its data."""
    if not is_address(url):
        raise UsageFault(f"{shown(url)}: not http:// or https://")
    words = urllib.parse.urlencode({"query": query, "start": asked.start, "end": asked.end,
                                    "step": f"{asked.step:g}s"})
    from arbiter_host.sources import web  # (few calls ask a server)
    try:
        answer = web.fetched(f"{url.rstrip('/')}/api/v1/query_range?{words}")
        warned = answer.get("warnings")
        output.warn(*(f"{shown(url)}: {shown(cut(str(each), 200))}" for each in (
            warned[:MOST_WARNINGS] if isinstance(warned, list) else ())))
        return parsed(answer)
    except (KeyError, TypeError, ValueError, AttributeError, OverflowError) as error:
        raise HostFault(f"{shown(url)}: no answer to a range query") from error


def column_of(labels: Mapping[str, str], url: str) -> str:
    """The subject of a series: a container by namespace, pod and name, a pod, a unit or a group."""
    whole = [labels[key] for key in ("namespace", "pod", "container") if labels.get(key)]
    if whole and (labels.get("pod") or labels.get("container")):
        return "/".join(whole)
    for key in ("name", "id", *TABLE["group"]):
        if labels.get(key):
            return labels[key].strip("/") or "."
    rest = [value for key, value in labels.items() if key not in TABLE["host"]]
    if len(rest) == 1:
        return rest[0]
    told = ", ".join(sorted(map(shown, labels))) or "no label"
    raise HostFault(f"{shown(url)}: a series with {cut(told, 100)}: " + (
        renamed(labels) or "which of them names a group? --query 'sum by (pod) (..)' leaves one"))


def renamed(labels: Iterable[str]) -> str:
    """The advice where a scrape has renamed labels of what was measured; empty where it has none.
    """
    found = sorted(each for each in labels if each.startswith(EXPORTED))
    if not found:
        return ""
    own = found[-1].removeprefix(EXPORTED)
    return (f"the scrape renamed labels of what was measured ({shown(', '.join(found))}):"
            " honor_labels there keeps them, or --query"
            f" 'label_replace(.., \"{shown(own)}\", \"$1\", \"{shown(found[-1])}\","
            " \"(.+)\")' brings each back")


class Metric(NamedTuple):
    """The labels of a series, and its values as they were written, by time."""

    labels: Mapping[str, str]
    values: Mapping[float, str]


def told_apart(parts: Sequence[Metric], window: float) -> set[str]:
    """The labels in which series of one name differ so that they may be the same use twice.

    Series of several CPUs are parts of a use. Where each has an `id` of its own, and none is used
    beside another for longer than the window in seconds, a container was made anew.
    """
    labels = [each.labels for each in parts]
    if len({tuple(sorted(each.items())) for each in labels}) < len(labels):
        return {"nothing"}
    keys = {key for each in labels for key in each}
    differ = {key for key in keys if len({each.get(key) for each in labels}) > 1}
    made = {(each["id"], each.get("cpu")) for each in labels if each.get("id")}
    others = differ - PARTS - (ANEW if len(made) == len(labels) else frozenset())
    lives: dict[tuple[tuple[str, str], ...], set[float]] = {}
    for each in parts:
        life = sorted(pair for pair in each.labels.items() if pair[0] != "cpu")
        lives.setdefault(tuple(life), set()).update(
            at for at, value in each.values.items() if value.strip("0."))
    if others or not any(are_at_once(one, two, window)
                         for one, two in itertools.combinations(lives.values(), 2)):
        return others
    return differ - {"cpu"}


def are_at_once(one: Set[float], two: Set[float], window: float) -> bool:
    """Whether two series are used at the same times: at all of several, or for longer than a window
    in seconds."""
    common = one & two
    return len(common) > 1 and (one == two or max(common) - min(common) > window)


def check_parts(name: str, parts: Sequence[Metric], url: str, window: float,
                example: str) -> None:
    """A fault where series of one name may be the same use twice. It advises a selector, which
    stands for `{}` in the example of a query."""
    apart = sorted(told_apart(parts, window)) if len(parts) > 1 else []
    if not apart:
        return
    named = next((key for key in apart if parts[0].labels.get(key)), "")
    selector = f"{{{named}={json.dumps(parts[0].labels[named])}}}" if named else ""
    advice = (f"choose by --query, as '{shown(cut(example.replace('{}', selector), 200))}'"
              if named else "--query 'max by (namespace, pod, container) (..)' takes one of them")
    advice = renamed(apart) or advice
    raise HostFault(f"{shown(url)}: {len(parts)} series of {shown(cut(name, 100))} differ in"
                    f" {', '.join(map(shown, apart))}, and may be one use twice: {advice}")


def check_homes(here: Sequence[Mapping[str, str]], title: str, labels: Mapping[str, str],
                where: str) -> None:
    """A fault where a series that is taken for a replica of some containers is of another cluster
    or scrape than all of these."""
    for key, value in (common(here) if here else {}).items():
        if HOMES.search(key) and labels.get(key, value) != value:
            raise HostFault(
                f"{where}: {title} has {shown(key)}={shown(labels[key])}, and what runs here has"
                f" {shown(key)}={shown(value)}: choose by --query, as 'rate({USAGE}"
                f"{{{shown(key)}={shown(json.dumps(value))}}}[{LEAST_RATE}s])'")


def check_use(title: str, amounts: Values, cpus: int, where: str) -> None:
    """A fault where what a server tells is no use of a node: more than all of its CPUs."""
    most = amounts.most
    if most <= MOST_USE * 1000 * cpus:
        return
    # (a rate that stays the same differs in its last digits)
    is_counter = len(amounts) > 2 and all(
        one * (1 + NOISE) < two for one, two in itertools.pairwise(amounts))
    why = (": it only rises, as a counter does: rate(..) is missing?" if is_counter else
           ": it is in another unit, or rate(..) is missing?")
    raise HostFault(f"{where}: {title} used {units.decimal(most, 0)}m, and the node has"
                    f" {1000 * cpus}m{why}")


def window_of(query: str | None, step: float) -> float:
    """The seconds for which a container that has ended still has samples of a query."""
    windows = [units.parse_time(each) / 10**6
               for each in re.findall(r"\[([0-9]+[a-z]+)", query or "")]
    return max(step, LOOKBACK, *windows)


def series_of(answer: Any) -> list[Metric]:
    """The series of a range query. A value that is no number is left out: there is no sample."""
    return [Metric({str(key): str(value) for key, value in each["metric"].items()
                    if key != "__name__"}, values_of(each["values"]))
            for each in answer["data"]["result"]]


def values_of(pairs: Sequence[Sequence[Any]]) -> dict[float, str]:
    """The values of a series by their times. A ValueError for a time that is none."""
    times, words = [float(at) for at, _ in pairs], [str(value) for _, value in pairs]
    if not all(map(math.isfinite, times)):
        raise ValueError(times)
    return told(dict(zip(times, words)))


def total(words: Sequence[str]) -> str:
    """The sum of numbers as they are written, exactly; one that is no amount stands for all."""
    if len(words) == 1:
        return words[0]
    parsed = [units.number_and_unit(each) for each in words]
    odd = next((word for word, each in zip(words, parsed) if each is None), None)
    return odd or units.decimal(sum((each[0] for each in parsed if each), Fraction(0)), 12)


def summed(name: str, parts: Sequence[Metric], url: str, window: float) -> dict[float, str]:
    """The values of a column. Series that are parts of one are added up; else a fault."""
    check_parts(name, parts, url, window, f"rate({USAGE}{{}}[{LEAST_RATE}s])")
    if len(parts) == 1:
        return dict(parts[0].values)
    return {at: total([each.values[at] for each in parts if at in each.values])
            for at in dict.fromkeys(at for each in parts for at in each.values)}


def history_of(metrics: Sequence[Metric], url: str, window: float = LOOKBACK) -> History:
    """The samples of series. Those of pods whose containers have series of their own are none.
    A container that has ended has samples for so many seconds."""
    columns: dict[str, list[Metric]] = {}
    for each in metrics:
        columns.setdefault(column_of(each.labels, url), []).append(each)
    leaves = {name for name, parts in columns.items() if parts[0].labels.get("container")}
    above = {name.rpartition("/")[0] for name in leaves} - leaves
    columns = {name: parts for name, parts in columns.items() if name not in above}
    values = {name: summed(name, parts, url, window) for name, parts in columns.items()}
    for name, of_times in values.items():
        odd = next((each for each in of_times.values() if each[:1] in "+-I"), None)
        if odd:
            raise HostFault(f"{shown(url)}: {shown(cut(name, 100))} used {shown(cut(odd, 40))}:"
                            " no amount of CPU")
    return History(list(values), [
        Sample(time_name(str(int(at))), {name: each[at] for name, each in values.items()
                                         if at in each}, shown(url))
        for at in sorted({at for each in values.values() for at in each})],
        {name: common([each.labels for each in parts]) for name, parts in columns.items()},
        values.keys())


def common(labels: Sequence[Mapping[str, str]]) -> dict[str, str]:
    """The labels that all of some series have alike."""
    first, *others = labels
    return {key: value for key, value in first.items()
            if all(each.get(key) == value for each in others)}


def read(url: str, query: str | None, asked: QueryRange) -> list[Metric]:
    """The series of a query. That of the CPU which cAdvisor counts is asked unless it is said."""
    rate = f"{max(asked.step, LEAST_RATE):g}s"
    default = " or ".join(f"rate({USAGE}{{{each}}}[{rate}])"
                          for each in LEAVES)
    return of_range(url, query or default, asked, series_of)


def by_host(metrics: Sequence[Metric], url: str, window: float = LOOKBACK) -> dict[str, History]:
    """The samples of each host, by the label of its name."""
    hosts: dict[str, list[Metric]] = {}
    for each in metrics:
        host = next((each.labels[key] for key in TABLE["host"] if each.labels.get(key)), None)
        if host is None:
            raise HostFault(f"{shown(url)}: a series without a label of its host:"
                            f" {', '.join(TABLE['host'])}")
        hosts.setdefault(host, []).append(each)
    return {host: history_of(each, url, window) for host, each in hosts.items()}
