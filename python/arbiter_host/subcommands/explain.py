"""`arbiterctl explain`."""
# /// arbiterctl
# order = 1
# summary = "why each group gets what it gets"
# forms = ["tables", "html", "svg", "csv"]
# takes = ["group", "namespace", "selector", "output", "state", "sort", "depth", "unit",
#          "everything", "guaranteed", "verbose", "rank", "workers", "dask", "kind", "want",
#          "scale", "read", "used", "range", "step", "query", "node", "node_weights", "strict",
#          "cpus", "period", "slice", "library"]
# description = "Says why each group gets what it gets."
# details = [
# """\
# The plan is that of the period after the end of SOURCE, with what was saved up. A group is cut \
# by its own limit, by the limit of a group above it, or because the host is full. Then weights \
# decide: `weight 100 of 400` has the sum over the siblings that can use a slice.""",
# """\
# With --guaranteed it also says what a group gets whatever the groups outside it ask for: its own \
# demand, the demands below it, all weights and limits are as they are. It is what the group gets \
# where each other group asks for more than there is. For some demands of the others it gets no \
# more. One more plan is made for each group that is shown.""",
# """\
# On several CPUs a group is firm, or has a range of what Linux may give it by where its tasks \
# run. That is a model of Linux, and needs the number of tasks of each group.""",
# """\
# `starved` marks a group that wants something and gets nothing. `throttled, not by its limit` \
# marks one that counts as throttled though it gets less than its limit.""",
# """\
# Of many hosts it says what each serves and lacks. Of a cluster it also says where each pod would \
# go that no node has yet, by the rule of --rank, or why it goes nowhere.""",
# """\
# Amounts of -o csv are in the unit of --unit. The heads are the same in each unit: a script finds \
# a column by its name.""",
# """\
# The page of -o html asks for nothing from the network. Its tree folds and can be searched. The \
# picture of -o svg has the tree, and to one scale what each group wants, may have and gets.""",
# ]
#
# [argument]
# name = "source"
# nargs = "+"
# metavar = "SOURCE"
# help = """\
# a script, a host file, a folder of cgroups, JSON of kubectl, docker or squeue, or text of \
# systemctl show or sacct; many hosts: a folder of such files, or the JSON of a \
# cluster; `-` is standard input"""
#
# [examples]
# "the groups of a host file" = "arbiterctl explain host.toml"
# "those that get less than they want, the greatest lack first" = """\
# arbiterctl explain host.toml --state hurt --sort lack"""
# "this machine, by what it used in ten seconds" = "arbiterctl explain /sys/fs/cgroup --read 2x10s"
# "a Kubernetes node whose containers are all busy" = """\
# arbiterctl explain pods.json node.json --want busy"""
# "one pod of it, with what it is guaranteed" = """\
# arbiterctl explain pods.json node.json -g prod/web-7c9f --guaranteed"""
# "a page and a picture" = "arbiterctl explain host.toml -o html=host.html -o svg=host.svg"
# "a whole cluster" = "kubectl get nodes,pods -A -o json | arbiterctl explain -"
# ///
from __future__ import annotations

import argparse
from collections.abc import Sequence
from functools import cache

from arbiter_host.answers import explain, placement
from arbiter_host.answers.explain import View
from arbiter_host.base.plan import Plan, engine_of, guarantees, plan
from arbiter_host.base.tables import Forms
from arbiter_host.sources.load import Opened
from arbiter_host.subcommands._base import answer, chosen, loaded, source_name, view_of


def shown_view(options: argparse.Namespace, plan: Plan) -> View:
    """The view of a plan, with what the groups are guaranteed where that is asked for."""
    view = view_of(options, chosen(options, plan.model))
    if not options.guaranteed:
        return view
    groups = [group for group in plan.groups[1:] if explain.is_one_of(group, view)]
    owed = guarantees(plan, groups)
    return view._replace(guaranteed={group.row: slices for group, slices in zip(groups, owed)})


def page(plan: Plan, view: View, title: str) -> str:
    """A plan as one HTML page."""
    from arbiter_host.answers import report  # (no other form needs it)
    return report.page(plan, view, title)


def picture(plan: Plan, view: View) -> str:
    """A plan as SVG."""
    from arbiter_host.answers import picture as drawing  # (no other form needs it)
    return drawing.picture(plan, view)


def forms(options: argparse.Namespace, files: Sequence[Opened]) -> Forms:
    """The forms of the plan of one host."""
    by = engine_of(options.library)
    plan_ = plan(by, loaded(options, files, by))
    view, outlook = shown_view(options, plan_), cache(lambda: placement.outlook(plan_.model))
    return {**explain.answer(plan_, view, outlook).forms(),
            "html": lambda: page(plan_, view, f"Plan of {source_name(options.source)}"),
            "svg": lambda: picture(plan_, view)}


def run(options: argparse.Namespace) -> None:
    answer(options, "PLAN", forms)
