"""`arbiterctl tune`."""
# /// arbiterctl
# order = 3
# summary = "settings with which groups get their goals at once"
# forms = ["tables"]
# takes = ["group", "output", "unit", "guaranteed", "verbose", "set", "goal", "kind", "want",
#          "scale", "read", "used", "range", "step", "query", "node", "node_weights", "strict",
#          "cpus", "period", "slice", "library"]
# description = """\
# Says with which weights, requests or shares several groups get what they are to get at once, or \
# which goals cannot be met together."""
# details = [
# """\
# The C library answers the weights of the goals' groups and of groups above them. They are proved \
# to be the least from the root down, and each other group keeps half of what it gets, where \
# weights allow that. A weight of theirs is lowered only where no others meet the goals. Where no \
# such weights do, weights of groups beside the goals' groups are lowered, too, and then those \
# beside groups above. They have one level at most. It is proved to be the greatest that meets the \
# goals.""",
# """\
# Where no weights that may change meet the goals, limits of other groups are lowered, to the \
# highest level that meets them. Then each is raised in turn, as far as they allow. The C library \
# answers these limits too, and they are proved to be the greatest. Where a setting that people \
# own says less, that is told.""",
# """\
# For containers of pods it answers requests, for units CPUWeight, for containers of docker \
# cpu-shares. Requests, of which the weights above follow, are raised one after another over \
# accepted plans, each to the least beside the others. It is not proved that they are the least. \
# Where that does not meet the goals, requests of at most 64 other containers are lowered to one \
# level, the greatest that was found. They are not where demands are requests, nor where a pod is \
# of the class Guaranteed. The plan that is told has the weights that follow.""",
# """\
# A goal is rounded up to whole slices, and a line says so. It may be of a group above that of \
# another one. Goals that no weights that may change meet together are named, with what they ask \
# for in all and what is there: all goals and what is served, or those of one group and the most \
# that it can be given.""",
# """\
# Of one goal it also prints each setting of the group alone, all else as it is: the least weight \
# from 1 to 10000, limit, and number of CPUs from 1 to 64, and the groups that get less then. `-` \
# is no value. The plan of each is accepted by the proved check, and no lesser value reaches the \
# goal. Of a container of a pod, a unit, or a container of docker these are the settings that \
# people own, too.""",
# """\
# With -g only weights, limits and settings of these groups, and of those below them, change. What \
# follows from a request, such as the weight of its pod, changes with it. At most 64 limits are \
# lowered, and none of a group with a burst. Where nothing is found, it ends with status 6.""",
# ]
#
# [argument]
# name = "source"
# nargs = "+"
# metavar = "SOURCE"
# help = "a source, as of explain"
#
# [examples]
# "two groups at once" = "arbiterctl tune host.toml --goal web=1500m --goal batch=14cpu"
# "what web needs for one and a half CPUs, as JSON" = """\
# arbiterctl tune host.toml --goal web=1.5cpu -o json"""
# "the same whatever the others ask for, by changes of batch alone" = """\
# arbiterctl tune host.toml --goal web=1500m --guaranteed -g batch"""
# "requests of containers that are all busy" = """\
# arbiterctl tune pods.json node.json --want busy --goal '*/nginx=750m' --goal '*/envoy=1cpu'"""
#
# # Texts of options that are other ones here.
# [options]
# group = "only settings of these groups may change (default: all); may be said again"
# guaranteed = """\
# goals are met whatever the other groups ask for (default: with the demands of the source)"""
# ///
from __future__ import annotations

import argparse

from arbiter_host import options as table
from arbiter_host.base.faults import NothingFound, UsageFault
from arbiter_host.base.output import write_forms
from arbiter_host.base.plan import engine_of, plan
from arbiter_host.records import source_options
from arbiter_host.sources import change, load
from arbiter_host.subcommands._base import chosen, loaded
from arbiter_host.tune import tune
from arbiter_host.tune.answer import TuneAnswer


def run(options: argparse.Namespace) -> None:
    if not options.goal:
        raise UsageFault("tune: the following arguments are required: --goal")
    outputs, by = table.outputs(options), engine_of(options.library)
    files = load.opened(source_options(options), options.source)
    model = loaded(options, files, by)
    before = plan(by, change.warned(model, change.changed(model, options.set)))
    found = tune.tune(before, options.goal, options.guaranteed, chosen(options, before.model))
    if found.best is not None:
        change.warned(before.model, found.best.plan.model)
    write_forms(outputs, TuneAnswer(found, options.unit).answer().forms())
    if found.best is None and all(each.least is None for each in found.alone):
        raise NothingFound("no settings were found that meet the goals")
