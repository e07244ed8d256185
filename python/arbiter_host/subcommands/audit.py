"""`arbiterctl audit`."""
# /// arbiterctl
# order = 8
# summary = "the plan beside what groups used: how far off, and why"
# forms = ["tables", "html"]
# takes = ["output", "verbose", "kind", "want", "read", "used", "range", "step", "query", "node",
#          "node_weights", "strict", "cpus", "period", "slice", "library"]
# description = """\
# Measures how far off the plan is: sets it beside what each group used, interval by interval, and \
# says the likely cause."""
# details = [
# """\
# In each interval a group without children is taken to want what it used. One that was throttled \
# at its limit, or used all that this allowed, wants more. So does one with a task that waited and \
# hardly slept. Where its tasks cannot be seen, that is a guess: tasks waited for half of the \
# interval. What they want is that of --want psi. --want takes another rule for all groups.""",
# """\
# The plan is that of these demands, with the settings of the interval's end. It has a period of 1 \
# s and slices of 1 ms, unless --period or --slice are given.""",
# """\
# Off is what a group used less its plan. The table has the mean, and the interval in which it was \
# greatest. The groups that were most off stand first.""",
# """\
# The likely cause is the first that holds in that interval. `less than a slice`: off is. \
# `placement`: what the group used is in its range by where tasks run, as of explain. `phase of \
# periods`: it or a group above has a limit, and off is at most one quota of that. `demand that \
# moved`: the demand differs by more than off from that of the interval before or after. Else it \
# is `not explained`. Placement is not known on this machine's kernel if that is newer than 6.12. \
# Nor is it beside tasks of a group that sleep more than 20 times a second, come and go, or differ \
# in nice value or policy.""",
# """\
# A group is left out of an interval in which it came or went, or its counters fell. So it is \
# where there is no new sample. Both are told.""",
# """\
# --used reads the counters of cAdvisor: container_cpu_usage_seconds_total, and those of throttled \
# periods, pressure, threads and limits. They belong to a group by namespace, pod and container, \
# or by id.""",
# """\
# To make a copy of a tree: `find . -name 'cpu.*' -exec cp --parents -t COPY {} +` in \
# /sys/fs/cgroup. With cgroup.threads in it placement is tried too.""",
# ]
#
# [argument]
# name = "source"
# nargs = "*"
# metavar = "SOURCE"
# help = """\
# a tree of cgroups, which is read again and again (default /sys/fs/cgroup), or copies of one in \
# the order in which they were made; with --used a source as of explain"""
#
# [examples]
# "this machine for a minute" = "arbiterctl audit --read 13x5s"
# "two copies of its tree, as a page" = """\
# arbiterctl audit copy-1 copy-2 --read x10s -o html=audit.html"""
# "a node, from Prometheus" = """\
# arbiterctl audit pods.json node.json --used http://127.0.0.1:9090 --query '{node="n1"}' --range \
# 2026-01-05T10:00:00Z/2026-01-05T11:00:00Z"""
#
# # Texts of options that are other ones here.
# [options]
# read = """\
# read a tree N times, each TIME after the one before, such as 13x5s. Of copies xTIME is the time \
# between two"""
# used = "the address of the Prometheus that knows what the groups used"
# query = """\
# a selector of cAdvisor's series, such as '{node="n1"}'"""
#
# [kinds]
# used = "all"
# ///
from __future__ import annotations

import argparse
import os

from arbiter import Library
from arbiter_host import options
from arbiter_host.audit import answer, intervals, ranges, unknown
from arbiter_host.audit.answer import Ranked
from arbiter_host.base.faults import HostFault, UsageFault
from arbiter_host.base.model import Model, bind
from arbiter_host.base.names import shown
from arbiter_host.base.output import write_forms
from arbiter_host.base.plan import Engine, engine_of
from arbiter_host.records import source_options
from arbiter_host.sources import load, prometheus, readings
from arbiter_host.sources.readings import TreeReading
from arbiter_host.sources.times import Times, times_of as read_times
from arbiter_host.subcommands._base import source_name


def of_range(asked: argparse.Namespace, by: Engine
             ) -> tuple[list[TreeReading], list[str], set[int]]:
    """The readings of a range of Prometheus, what is told of them, and those after a gap."""
    if not asked.source:
        raise UsageFault("--used: it belongs to a SOURCE whose groups were measured")
    server = ranges.Prometheus(asked.used[0], asked.query or "",
                               prometheus.range_of(asked.range, asked.step))
    source = source_options(asked)
    files = load.opened(source, asked.source)
    kind = load.kind_in(source, files)
    model = load.model_of(source.without_use(kind), files, by.library)
    load.warn(model, source_name(asked.source))
    found, notes = ranges.readings_of(server, model.with_host(
        source.of_use(by.library, model.host)))
    return intervals.collected(found), notes, ranges.gaps(found)


def times_of(asked: argparse.Namespace, is_live: bool) -> Times:
    """Time between two readings of a tree, or between two copies."""
    if asked.read is None:
        raise UsageFault("--read: how often and how long this tree is read, such as --read 13x5s"
                         if is_live else "--read: the time from one copy to the next, such as"
                         " --read x10s")
    times = read_times(asked.read)
    if is_live and (times.number or 0) < 2:
        raise UsageFault("--read: an interval is from one reading to the next: 2 or more")
    return times


def bound(look: TreeReading) -> TreeReading:
    """A reading whose groups that keep to some CPUs have at most these."""
    bind(look.model, look.bound)
    return look


def of_trees(asked: argparse.Namespace, library: Library) -> list[TreeReading]:
    """The readings of copies of a tree, or at one tree again and again."""
    folders = asked.source or [readings.HOST_TREE]
    for folder in folders:
        if not os.path.exists(folder):
            raise HostFault(f"{shown(folder)}: No such file or directory")
        if not os.path.isdir(folder):
            raise UsageFault(f"{shown(folder)}: no folder: a source that is no tree takes --used")
    options.check(asked, "cgroup")
    times = times_of(asked, len(folders) == 1)
    host = source_options(asked, times=times).machine(library)
    seen = map(bound, readings.readings_of(folders, host, times, has_threads=True))
    return intervals.collected(seen, times.number or 0 if len(folders) == 1 else len(folders))


def audited(asked: argparse.Namespace) -> Ranked:
    by, away = engine_of(asked.library), set[int]()
    if asked.used:
        seen, notes, away = of_range(asked, by)
    else:
        seen = of_trees(asked, by.library)
        notes = [note for each in seen for note in each.model.notes]
    audit = intervals.audited(by, seen, asked.want, away)
    if not asked.used and len(asked.source or [""]) == 1:
        audit.why_not = unknown.of_kernel(os.uname().release)
    audit.notes = list(dict.fromkeys([*notes, *audit.notes]))
    return answer.ranked(audit)


def run(asked: argparse.Namespace) -> None:
    """Measures how far off the plan is, and writes the answers."""
    outputs, name = options.outputs(asked), source_name(asked.source or [readings.HOST_TREE])
    ranked = audited(asked)
    load.warn(Model(notes=ranked.audit.notes), name)
    write_forms(outputs, {**answer.answer(ranked).forms(),
                          "html": lambda: answer.page(ranked, f"Audit of {name}")})
