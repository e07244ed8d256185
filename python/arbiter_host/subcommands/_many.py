"""Many hosts: the one place that `explain`, `diff`, `replay` and `place` ask."""
from __future__ import annotations

import argparse
import os
from collections.abc import Sequence
from dataclasses import replace

from arbiter_host import options as table
from arbiter_host.base import names, plain_files
from arbiter_host.base.faults import UsageFault
from arbiter_host.base.model import Group
from arbiter_host.base.output import warn, write_forms
from arbiter_host.fleet import hosts, questions, report
from arbiter_host.fleet.hosts import Fleet
from arbiter_host.fleet.work import Action, Job, engine_here
from arbiter_host.records import source_options, time_option
from arbiter_host.sources import change, used
from arbiter_host.sources.load import Opened
from arbiter_host.sources.selection import Selection, labels_of

# The forms of an answer of one host alone.
OF_ONE = {"csv", "svg"}


def fleet_in(options: argparse.Namespace, files: Sequence[Opened], action: Action
             ) -> Fleet | None:
    """The fleet that the files of the command line are; None where they are one host.

    An option that has no effect on a fleet is refused.
    """
    source = source_options(options)
    uses = source.uses if action is not Action.SAMPLES else None
    fleet = hosts.fleet_in(source, files, lambda: engine_here(options.library).library,
                           lambda: used.entries(uses) if uses else [])
    if fleet is None:
        return None
    table.check(options, table.HOSTS)
    if action is Action.PLAN and "rank" in options.given and not fleet.pending:
        raise UsageFault("--rank: it has no effect where no pod waits for a host")
    if uses and not fleet.is_cluster:
        raise UsageFault("--used is of the pods of a cluster: other hosts have none")
    warn(*(f"{names.shown(files[0][0])}: {note}" for note in fleet.notes))
    return fleet


def check_sets(words: Sequence[str]) -> None:
    """A fault where a change is none on any host."""
    for word in words:
        _, key, value = change.split(word)
        with change.naming(word):
            if change.is_owned(word):
                change.check_value(word)
            else:
                change.apply(Group("any"), key, value, False)


def job_of(options: argparse.Namespace, action: Action, fleet: Fleet) -> Job:
    """The question that goes to each host. What was used goes to it with its pods."""
    if action is Action.CHANGE and not options.set:
        raise UsageFault("diff of many hosts takes --set")
    check_sets(options.set)
    source = source_options(options)
    meant = Selection(options.group, options.namespace, options.selector)
    labels_of(meant.selectors)
    reading = replace(source, uses=None, check=None)
    if fleet.is_cluster:
        reading = replace(reading, kind="kubernetes", is_part=True)
        if source.uses and action is not Action.SAMPLES:
            used.check_want(source.uses)
            reading = replace(reading, want="usage")
    library = options.library
    if library and "/" in library:
        library = os.path.abspath(library)
    pods = [(names.shown(path), plain_files.file_bytes(path)) for path in options.pod]
    sample = time_option(options.step, "--step") if options.step else 0
    return Job(action, reading, list(options.set), pods, options.unit, sample,
               used.mapped(options.map), meant, library)


def answer(options: argparse.Namespace, fleet: Fleet, action: Action) -> None:
    """Asks each host of a fleet, and reports."""
    outputs = table.outputs(options, {*table.forms(options.asked)} - OF_ONE)
    job = job_of(options, action, fleet)
    uses = source_options(options).uses
    samples = questions.samples_of(uses, fleet) if uses and action is Action.SAMPLES else None
    told, check = questions.reported(
        options.asked, questions.Planners(options.workers, options.dask), job, fleet,
        options.rank, samples)
    write_forms(outputs, {**report.answer(told, options.everything).forms(),
                          "html": lambda: report.page(told, options.set)})
    check()


def answered(options: argparse.Namespace, files: Sequence[Opened], name: str) -> bool:
    """Whether the words are of many hosts: then these are asked, and all is told."""
    action = Action[name]
    fleet = fleet_in(options, files, action)
    if fleet is not None:
        answer(options, fleet, action)
    return fleet is not None
