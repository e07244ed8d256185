"""`arbiterctl place`."""
# /// arbiterctl
# order = 9
# summary = "where a pod would go among many hosts"
# forms = ["tables", "html"]
# takes = ["output", "everything", "verbose", "pod", "rank", "workers", "dask", "kind", "want",
#          "scale", "read", "used", "range", "step", "query", "node", "node_weights", "strict",
#          "cpus", "period", "slice", "library"]
# description = """\
# Says what a pod would get on each host, who would lose, and which host is the best for it. \
# Several pods go in a greedy order that is not the library's: one after another, each to the best \
# host left."""
# details = [
# """\
# A pod is any source: a host file with its groups, or JSON of `kubectl get pod` or of what makes \
# pods, such as a Deployment. Each is put into each host by itself. A group that both have stays \
# as the host has it. Pods of Kubernetes become pods of the node, so that the weights of their \
# class follow.""",
# """\
# Requests of each resource, nodeSelector, node affinity, taints, cordons, scheduling gates and \
# the operating system decide what fits. In a cluster so do pod affinity, pod anti-affinity and \
# topology spread. Other conditions are named as not looked at: volumes, host ports, resource \
# claims, and affinity by labels of namespaces. Of an object with replicas as many pods are \
# placed. Where a pod fits on no host the exit status is 6.""",
# ]
#
# [argument]
# name = "source"
# nargs = "+"
# metavar = "SOURCE"
# help = "many hosts: a folder of their files, or a cluster's JSON"
#
# [examples]
# "where a pod would go" = "arbiterctl place hosts --pod pod.toml --rank most-left"
# "the same for a whole cluster" = """\
# kubectl get nodes,pods -A -o json | arbiterctl place - --pod pod.toml"""
# ///
from __future__ import annotations

import argparse

from arbiter_host.base.faults import UsageFault
from arbiter_host.fleet import hosts
from arbiter_host.fleet.work import Action
from arbiter_host.records import source_options
from arbiter_host.sources import load
from arbiter_host.subcommands import _many as many


def run(options: argparse.Namespace) -> None:
    if not options.pod:
        raise UsageFault("--pod: the file of a pod")
    files = load.opened(source_options(options), options.source)
    fleet = many.fleet_in(options, files, Action.PODS)
    many.answer(options, fleet or hosts.of_one(files), Action.PODS)
