"""`arbiterctl diff`."""
# /// arbiterctl
# order = 2
# summary = "what a change does, or what differs between two plans"
# forms = ["tables", "html"]
# takes = ["group", "namespace", "selector", "output", "sort", "unit", "everything", "verbose",
#          "set", "workers", "dask", "kind", "want", "scale", "read", "used", "range", "step",
#          "query", "node", "node_weights", "strict", "cpus", "period", "slice", "library"]
# description = """\
# Says what changes from BEFORE to AFTER. Without AFTER it is BEFORE with the changes of --set."""
# details = [
# """\
# A change is GROUP.KEY=VALUE, with KEY one of weight, max, burst, period, demand, tasks. `*` in \
# GROUP stands for any letters. Groups that are the same in both plans are counted alone.""",
# """\
# Of pods, KEY may also be request or limit: the weights and limits of the container, its pod, its \
# class and kubepods follow by the formulas of kubelet and the runtime. Of units, also of those in \
# a tree of cgroup v2, it may be CPUWeight or CPUQuota, of containers of docker cpus or \
# cpu-shares. These changes are made first.""",
# """\
# Both plans are of one host: that of --cpus, else the one that AFTER names, else that of BEFORE. \
# `.cpus=8`, `.period=1s` and `.slice=5ms` change the host of the plan after. Two sources that \
# each name a host keep theirs.""",
# """\
# The JSON of pods and that of their node, side by side, are one source. Groups of a tree have the \
# names of these pods where the other source is one. Of many hosts the change is \
# made on each.""",
# ]
#
# [argument]
# name = "source"
# nargs = "+"
# metavar = "BEFORE [AFTER]"
# help = "sources, as of explain; with --set a source of many hosts too"
#
# [examples]
# "a greater weight on a host with more CPUs" = """\
# arbiterctl diff host.toml --set web.weight=400 --set .cpus=32"""
# "another request on a Kubernetes node" = """\
# arbiterctl diff pods.json node.json --set prod/web-7c9f/nginx.request=500m"""
# "the same as a page, with the pods of one namespace" = """\
# arbiterctl diff pods.json node.json --set prod/web-7c9f/nginx.request=500m -n prod -o \
# html=change.html"""
# "two sources, as JSON" = "arbiterctl diff before.script after.script -o json"
# "a greater weight on every host that has the group" = "arbiterctl diff hosts --set web.weight=400"
#
# # Texts of options that are other ones here.
# [options]
# sort = "`change`: the groups that change most first"
#
# [kinds]
# everything = ["hosts"]
#
# [choices]
# sort = ["change"]
# ///
from __future__ import annotations

import argparse
from collections.abc import Sequence
from dataclasses import replace

from arbiter_host.answers import diff, report
from arbiter_host.base.faults import NoHost, UsageFault
from arbiter_host.base.model import Model
from arbiter_host.base.names import shown
from arbiter_host.base.plan import Engine, engine_of, plan
from arbiter_host.base.tables import Forms
from arbiter_host.records import source_options
from arbiter_host.sources import change, load
from arbiter_host.sources.kubernetes import PodSource, with_pods
from arbiter_host.sources.load import Opened
from arbiter_host.sources.source_options import SourceOptions
from arbiter_host.sources.systemd import TreeSource
from arbiter_host.subcommands._base import answer, chosen_of_each, source_name, view_of


def read(options: SourceOptions, files: Sequence[Opened], by: Engine) -> Model | None:
    """The model of a source; None where it does not say how many CPUs its host has."""
    try:
        return load.model_of(options, files, by.library)
    except NoHost:
        return None


def models_of(options: SourceOptions, sources: Sequence[Sequence[Opened]],
              by: Engine) -> list[Model]:
    """The models of sources on one host: that of the last which names one. Another that names its
    own keeps it."""
    models = [read(options, files, by) for files in sources]
    known = [each for each in models if each is not None]
    host = next((each.host for each in reversed(known) if each.names_host),
                known[-1].host if known else None)
    if host is None:
        raise NoHost("number of CPUs unknown: pass the node's JSON or --cpus")
    on_host = replace(options, cpus=host.processors, period=host.period_us, slice=host.slice_us)
    return [each if each is not None and (each.names_host or each.host == host)
            else load.model_of(on_host, files, by.library)
            for each, files in zip(models, sources)]


def compared(options: argparse.Namespace, files: Sequence[Opened],
             by: Engine) -> tuple[Model, Model]:
    """The models before and after: of two sources, or of one and of it with changes."""
    source = source_options(options, has_settings_alone=True)
    sources = load.sources(source, files)
    if len(sources) > 2 or len(sources) == 1 and not options.set:
        raise UsageFault("diff takes BEFORE and AFTER, or BEFORE and --set")
    models = met(models_of(source, sources, by))
    for model, of_one in zip(models, sources):
        load.warn(model, source_name([path for path, _ in of_one]))
    return models[0], change.warned(models[-1], change.changed(models[-1], options.set))


def met(models: list[Model]) -> list[Model]:
    """The models, with groups of a tree under the names of the pods that another one has, whose
    weights are by the conversion of shares that the tree has."""
    pods = [each.owned for each in models if isinstance(each.owned, PodSource)]
    trees = [each for each in models if isinstance(each.owned, TreeSource)]
    if len(pods) != 1 or len(trees) != 1:
        return models
    tree = with_pods(trees[0], pods[0])
    return [tree if each is trees[0] else pods[0].beside(tree).model() for each in models]


def forms(options: argparse.Namespace, files: Sequence[Opened]) -> Forms:
    """The forms of what differs on one host."""
    by = engine_of(options.library)
    before, after = compared(options, files, by)
    groups = chosen_of_each(options, [before, after])
    view = view_of(options, None if None in groups else frozenset().union(*filter(None, groups)))
    one, two = plan(by, before), plan(by, after)
    models = change.if_busy(before, after, options.set)
    busy = None if models is None else (plan(by, models[0]), plan(by, models[1]))
    return {**diff.answer(one, two, view, busy).forms(), "html": lambda: report.page(
        two, view, f"Change of {source_name(options.source)}", one, [*map(shown, options.set)],
        busy)}


def run(options: argparse.Namespace) -> None:
    answer(options, "CHANGE", forms, has_settings_alone=True)
