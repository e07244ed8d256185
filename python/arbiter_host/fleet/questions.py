"""Questions to many hosts: who plans them, and how their answers are gathered."""
from __future__ import annotations

import os
from collections.abc import Callable, Iterator, Sequence
from contextlib import closing
from dataclasses import replace
from typing import Any, NamedTuple

from arbiter_host.base import names, plain_files, progress
from arbiter_host.base.faults import HostFault, NothingFound, UsageFault
from arbiter_host.base.output import Remarks, warn
from arbiter_host.base.plan import engine_of
from arbiter_host.fleet import answers, pool, report
from arbiter_host.fleet.answers import HostAnswer
from arbiter_host.fleet.hosts import Fleet, Pending
from arbiter_host.fleet.report import Report, Waiting
from arbiter_host.fleet.work import Action, HostFile, Job
from arbiter_host.sources import change, used
from arbiter_host.sources.kubernetes import only_pod, replicas_in
from arbiter_host.sources.samples import History
from arbiter_host.sources.selection import Selection, labels_of
from arbiter_host.sources.source_options import UseOptions
from arbiter_host.sources.topology import Neighbour, Neighbours, neighbour_of
from arbiter_host.sources.usage import some

Samples = Callable[[HostFile], History]
Missing = list[tuple[str, str]]


class Planners(NamedTuple):
    """The planners: so many processes of this machine (None: one for each processor), or a running
    scheduler of Dask."""

    workers: int | None = None
    dask: str | None = None

    def processes(self, fleet: Fleet) -> int:
        """The processes that plan; 0 is this one."""
        if self.workers is not None and not 0 <= self.workers <= pool.MOST_WORKERS:
            raise UsageFault(f"--workers: 0 to {pool.MOST_WORKERS}")
        if self.workers is not None and self.dask is not None:
            raise UsageFault("--dask has its own workers: no --workers")
        most = (os.cpu_count() or 1) if self.workers is None else self.workers
        return 0 if len(fleet.hosts) == 1 else min(most, len(fleet.hosts))


def samples_of(uses: UseOptions, fleet: Fleet) -> Samples:
    """Gives each host its samples."""
    if not fleet.is_cluster:
        by_host = used.by_host(uses)
        return lambda host: by_host(host.name)
    whole, pods = used.history(uses), frozenset().union(*(each.pods for each in fleet.hosts))

    def are_of(column: str, pods: frozenset[str]) -> bool:
        """Whether a column names one of some pods, or a container of one."""
        return not pods.isdisjoint((column, column.rpartition("/")[0]))

    missing = [names.shown(each) for each in whole.columns if not are_of(each, pods)]
    if missing:
        warn(f"{used.name(uses)}: samples of no pod here, {some(missing)}")
    return lambda host: whole.of_columns(lambda column: are_of(column, host.pods))


def asked(planners: Planners, job: Job, fleet: Fleet,
          samples: Samples | None = None) -> tuple[list[HostAnswer], Missing]:
    """The answers of all hosts, and the hosts that have none with the reasons, by name."""
    engine, workers = engine_of(job.library), planners.processes(fleet)
    found, missing = dict[str, HostAnswer](), dict[str, str]()

    def files() -> Iterator[HostFile]:
        for host in fleet.hosts:
            try:
                data = plain_files.file_bytes(host.path, True) if host.data is None else host.data
                yield replace(host, data=data, history=samples(host) if samples else None)
            except HostFault as fault:
                missing[host.name] = fault.message

    replies, left = pool.replies(workers, planners.dask, job, files()), pool.GONE
    with closing(replies):
        try:
            for name, sent in progress.each("hosts", replies, len(fleet.hosts)):
                try:
                    found[name] = HostAnswer(name, answers.answer_of(job, sent, engine))
                except HostFault as fault:
                    missing[name] = fault.message
        except pool.SilentWorkers as silent:
            left = str(silent)
    for host in fleet.hosts:
        if host.name not in found:
            missing.setdefault(host.name, left)
    return [found[name] for name in sorted(found)], sorted(missing.items())


def reported(name: str, planners: Planners, job: Job, fleet: Fleet, rule: str,
             samples: Samples | None = None) -> tuple[Report, Callable[[], None]]:
    """The report of a question of some name, and what raises a fault where a host is not answered,
    or where a pod fits on none. With the plans of a cluster goes where its pods go that wait."""
    hosts, missing = asked(planners, job, fleet, samples)
    Remarks().tell(report.notes_of(hosts))
    words, asks = job.selection.words, job.action is Action.PLAN
    if words and hosts and not (any(host.answer["groups"] for host in hosts) or asks and any(
            is_chosen(job.selection, each) for each in fleet.pending)):
        raise NothingFound(f"no group of {names.shown(words)} on any host")
    unmet = [each for each in job.sets if hosts and not missing and not change.is_host(each)
             and not any(each in host.answer["sets"] for host in hosts)]
    if unmet:
        raise NothingFound(f"--set {names.shown(unmet[0])}: no host has such a group")
    is_placed = job.action is Action.PODS or asks and bool(fleet.pending)
    among = fleet.neighbours() if is_placed and fleet.neighbours else Neighbours({}, [])
    placing = hosts
    if job.action is Action.PODS:
        hosts = judged(hosts, among, [pod_in(*each) for each in job.pods])
    told = report.built(job.action, name, hosts, missing, rule, words)
    title, waiting = "pods that no node has yet", list[Waiting]()
    if asks and is_placed:
        shapes = fleet.shapes()
        pods = [(f"{each.title}.json", each.data) for each in shapes.values()]
        placing, _ = asked(planners, replace(job, action=Action.PODS, pods=pods), fleet)
        places = {shape: place for place, shape in enumerate(shapes)}
        waiting = [Waiting(each.title, places[each.shape], each.shape.asks,
                           is_chosen(job.selection, each), pod_in(each.title, each.data))
                   for each in fleet.pending]
    elif job.action is Action.PODS and hosts:
        title = "pods, one after another"
        waiting = list(replicas(job, hosts[0]))
    if any(each.is_chosen for each in waiting) if asks else len(waiting) > 1:
        told = report.with_placed(told, title, waiting, placing, rule, among)
    return told, lambda: check_answered(fleet, hosts, missing, told)


def pod_in(name: str, data: bytes) -> Neighbour | None:
    """The one pod of a file; None for a file of several, or of another kind."""
    pod = only_pod(name, data)
    return None if pod is None else neighbour_of(pod)


def judged(hosts: Sequence[HostAnswer], among: Neighbours,
           pods: Sequence[Neighbour | None]) -> list[HostAnswer]:
    """The answers of hosts to how they take some pods, where those of all hosts are looked at."""
    whys = [among.refusals(pod) for pod in pods]

    def answer(host: HostAnswer, place: int) -> dict[str, Any]:
        told: dict[str, Any] = host.answer["pods"][place]
        why = whys[place].get(host.name, "")
        if why and "why" not in told:
            told = {"pod": told["pod"], "requests": told["requests"], "why": why,
                    "not_looked_at": told["not_looked_at"]}
        return {**told, "not_looked_at": among.not_looked_at(pods[place], told["not_looked_at"])}

    return [replace(host, answer={**host.answer, "pods": [answer(host, at)
                                                         for at in range(len(pods))]})
            for host in hosts]


def is_chosen(by: Selection, pod: Pending) -> bool:
    """Whether a pod that no node has is one of some namespaces and labels. It has no group."""
    namespace, _, _ = pod.title.partition("/")
    return not by.groups and (not by.namespaces or namespace in by.namespaces) and (
        labels_of(by.selectors).items() <= set(pod.shape.labels))


def replicas(job: Job, host: HostAnswer) -> Iterator[Waiting]:
    """The pods of a question: of each file as many as its object makes."""
    for place, (name, data) in enumerate(job.pods):
        count, requests = replicas_in(name, data), host.answer["pods"][place]["requests"]
        pod = pod_in(name, data)
        for at in range(1, count + 1):
            yield Waiting(name if count == 1 else f"{name} {at} of {count}", place, requests,
                          pod=pod)


def check_answered(fleet: Fleet, hosts: Sequence[HostAnswer], missing: Missing,
                   told: Report) -> None:
    """A fault where a host is not answered, or where a pod fits on none."""
    if missing:
        raise HostFault(f"hosts that are not answered: {len(missing)} of {len(fleet.hosts)}, the"
                        f" first {missing[0][0]}: {missing[0][1]}")
    pods = [host.answer["pods"] for host in hosts if "pods" in host.answer]
    for each in zip(*pods):
        if all("why" in pod for pod in each):
            why, *_ = report.reasons((host.name, pod["why"]) for host, pod in zip(hosts, each))
            raise NothingFound(f"{names.shown(each[0]['pod'])}: no host of {len(hosts)} takes it,"
                               f" as {why}")
    for row in told.data.get("pending", []) if pods else []:
        if row["host"] is None:
            raise NothingFound(f"{names.shown(row['pod'])}: {row['why']}")
