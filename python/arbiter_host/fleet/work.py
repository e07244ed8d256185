"""The work of a worker: it reads one host.

It sends the rows of its plans, and what the file says beside them. They are planned, and what they
come to is worked out, where they are gathered, by `answers`.
"""
from __future__ import annotations

import functools
from array import array
from collections.abc import Mapping, Sequence
from dataclasses import dataclass, field, replace
from enum import Enum, auto
from typing import Any, NamedTuple

from arbiter import Columns, Host
from arbiter_host.answers import series
from arbiter_host.base import demands, names
from arbiter_host.base.faults import HostFault, NothingFound
from arbiter_host.base.model import Model
from arbiter_host.base.plan import Engine, engine_of
from arbiter_host.sources import change, load, selection
from arbiter_host.sources.samples import History
from arbiter_host.sources.selection import Selection
from arbiter_host.sources.source_options import SourceOptions


class Action(Enum):
    """The question to each host: its plan, what a change does, how it takes pods, or the sums of
    samples."""

    PLAN = auto()
    CHANGE = auto()
    PODS = auto()
    SAMPLES = auto()


@dataclass(frozen=True)
class Job:
    """One question to all hosts of a fleet."""

    action: Action
    # The options by which a host's file is read.
    options: SourceOptions
    # The changes of a change.
    sets: Sequence[str] = ()
    # The pods to be placed: a name and the bytes of the file.
    pods: Sequence[tuple[str, bytes]] = ()
    # Of samples: the unit of the demands, microseconds of a sample (0: one period), and the
    # groups that columns stand for.
    unit: str = "cpu"
    sample_usec: int = 0
    mapping: Mapping[str, str] = field(default_factory=dict)
    # The groups that are chosen.
    selection: Selection = Selection()
    # The C library; none stands for the first that a worker finds.
    library: str | None = None


@dataclass(frozen=True)
class HostFile:
    """A host's name in the fleet, and the path of its file, for messages and for what its ending
    says."""

    name: str
    path: str
    # The bytes of the file, once they are read, and of a part of one the pods that the host has.
    data: bytes | None = None
    pods: frozenset[str] = frozenset()
    # Of samples its demands over time.
    history: History | None = None


class SentRows(NamedTuple):
    """The rows of a plan as they travel: their paths, `.` first, and parents, weights, limits and
    demands. Of samples the columns are those of `QuotaColumns`."""

    paths: list[str]
    columns: tuple[array[int], ...]


class Sent(NamedTuple):
    """The message of a worker on a host: the rows of its plans, and what its file says beside."""

    host: Host
    plans: list[SentRows]
    told: dict[str, Any]


SentPlans = tuple[list[SentRows], dict[str, Any]]
AS_BUSY = "a request is no demand, and the demands stay: --want busy says who pays for it"


def sent(model: Model, columns: Columns) -> SentRows:
    return SentRows([".", *model.groups], (columns.parents, columns.weights, columns.limits,
                                           columns.demands))


def rows(engine: Engine, *models: Model) -> list[SentRows]:
    return [sent(each, Columns.of(each.rows(engine.library))) for each in models]


def chosen(job: Job, model: Model) -> list[str] | None:
    """The paths that are chosen, none where nothing of this host is; None for all."""
    try:
        paths = selection.chosen(model, job.selection)
    except NothingFound:
        return []
    return None if paths is None else sorted(paths)


def explained(_: Job, model: Model, engine: Engine) -> SentPlans:
    workloads = model.owned.workloads() if model.owned is not None else []
    return rows(engine, model), {"workloads": [tuple(each) for each in workloads]}


def matched(model: Model, words: Sequence[str]) -> tuple[list[str], set[str]]:
    """The changes for which a host has a group, and the paths of these groups."""
    fitting, paths = [], set()
    for word in words:
        try:
            groups = demands.matching(model, change.split(word)[0])
        except HostFault:
            continue
        fitting.append(word)
        paths |= {group.path for group in groups}
    return fitting, paths


def compared(job: Job, model: Model, engine: Engine) -> SentPlans:
    words, paths = matched(model, job.sets)
    after = change.changed(model, words)
    stay = model.owned is not None and model.owned.busy() is not None and any(
        change.split(word)[1] == "request" for word in words)
    return rows(engine, model, after), {
        "matched": sorted(paths), "sets": words, "notes": [*after.notes, *[AS_BUSY] * stay],
        "asked": after.asked, "weighed": after.weighed}


def with_pod(model: Model, pod: Model) -> tuple[Model, list[str]]:
    """A model with the groups of a pod, and the paths of those that ask for something.

    Groups that both have stay as the host has them. Pods of Kubernetes become pods of the node:
    so the weights of their class follow.
    """
    whole = model.owned.joined(pod.owned) if model.owned and pod.owned else None
    if whole is not None:
        after = whole.model()
        return after, [path for path in after.groups if path not in model.groups]
    after, asking = model.copy(), []
    for path, group in pod.groups.items():
        if path not in model.groups:
            after.add(replace(group))
            asking += [path] if group.demand else []
        elif group.demand:
            raise HostFault(f"{names.shown(path)}: the host has this group already")
    for path, below in after.children().items():
        if path != "." and below and after.groups[path].demand:
            raise HostFault(f"{names.shown(path)}: asks for CPUs itself, so it can have no child")
    if not asking:
        raise HostFault("no group of the pod asks for anything: --want busy or limit")
    return after, asking


def pod_of(job: Job, name: str, data: bytes, model: Model, engine: Engine) -> Model:
    """The groups of a pod, as its file has them for this host's CPUs. It has used nothing yet."""
    want = "" if job.options.want in demands.OF_USE else job.options.want
    options = replace(job.options, cpus=model.host.processors, period=None, slice=None, kind=None,
                      want=want)
    return load.of_bytes(options, name, data, engine.library)


def placed(job: Job, model: Model, engine: Engine) -> SentPlans:
    """The rows without a pod, and those with each by itself."""
    models, pods, own = [model], list[dict[str, Any]](), model.owned
    for name, data in job.pods:
        told: dict[str, Any] = {"pod": name, "requests": {}, "not_looked_at": []}
        pods.append(told)
        try:
            pod = pod_of(job, name, data, model, engine)
            if own is not None and pod.owned is not None:
                told |= {"requests": pod.owned.asks, "not_looked_at": own.unjudged(pod.owned)}
            after, told["asking"] = with_pod(model, pod)
            models.append(after)
        except HostFault as fault:
            told["why"] = fault.message
    room = {} if own is None else {name: amount - own.asks.get(name, 0)
                                   for name, amount in own.offers.items()}
    return rows(engine, *models), {"pods": pods, "room": room}


def replayed(job: Job, model: Model, engine: Engine, history: History) -> SentPlans:
    """The groups with their settings, and the demands of all samples."""
    path_of, missing = series.targets(model, history, job.mapping)
    if not path_of or not history.samples:
        raise HostFault("no sample of a group of this host")
    wanted = chosen(job, model)
    periods = series.sample_periods(job.sample_usec, model.host.period_us)
    asked = series.asked_of(engine, model, history, job.unit, path_of, periods)
    return [SentRows(asked.paths, asked.settings)], {
        "demands": asked.demands, "carries": asked.carries, "periods": periods,
        "columns": [path for path in path_of.values() if wanted is None or path in wanted],
        "unknown": missing, "chosen": wanted, "asked": series.asked_words(history, job.sample_usec)}


ACTIONS = {Action.PLAN: explained, Action.CHANGE: compared, Action.PODS: placed}


# The engine over the library of a path, once for each process.
engine_here = functools.cache(engine_of)


def planned(job: Job, host: HostFile) -> Sent:
    """The rows of one host, and what its file says beside them."""
    engine, options = engine_here(job.library), job.options
    model = load.of_bytes(options, host.path, host.data or b"", engine.library)
    if model.refused and not model.groups:
        raise HostFault(f"no host: {len(model.refused)} lines are none of a script, the first:"
                        f" {model.refused[0]}")
    if host.history is None:
        plans, told = ACTIONS[job.action](job, model, engine)
        told["chosen"] = chosen(job, model)
    else:
        kind = load.kind_in(options, [(host.path, host.data)])
        model = options.of_samples(engine.library, kind, model, job.unit, job.sample_usec)
        plans, told = replayed(job, model, engine, host.history)
    notes = list(dict.fromkeys([*model.notes, *told.get("notes", [])]))
    return Sent(model.host, plans, {"asked": model.asked, "weighed": model.weighed, **told,
                                    "notes": notes, "refused": model.refused})


def answered(job: Job, host: HostFile) -> Sent | str:
    """The rows of one host, or why there are none."""
    try:
        return planned(job, host)
    except HostFault as fault:
        return fault.message
    except (MemoryError, ImportError) as error:
        return f"its worker: {type(error).__name__}: {error}"
    except Exception as error:  # a file that no reader foresaw is one host's fault
        return f"{type(error).__name__}: {error}"
