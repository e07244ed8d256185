"""`arbiterctl export`."""
# /// arbiterctl
# order = 7
# summary = "write what a source holds as a script or a host file"
# forms = ["script", "toml", "json"]
# takes = ["output", "verbose", "set", "kind", "want", "scale", "read", "used", "range", "step",
#          "query", "node", "node_weights", "strict", "cpus", "period", "slice", "library"]
# description = "Writes what a source holds as a script or a host file."
# details = [
# """\
# It only reads. What the script or host file cannot hold stands in it in lines that begin with `# \
# !`; for JSON it is printed as warnings. The first line of a script is the host, so that the \
# other subcommands need no options for it.""",
# ]
#
# [argument]
# name = "source"
# nargs = "+"
# metavar = "SOURCE"
# help = "a source, as of explain"
#
# [examples]
# "this machine, by what it used in ten seconds" = """\
# arbiterctl export /sys/fs/cgroup --read 2x10s -o script=host.script"""
# "a Kubernetes node as a host file" = "arbiterctl export pods.json node.json -o toml=node.toml"
# "units of systemd, all of them busy" = """\
# systemctl show '*.slice' '*.service' '*.scope' | arbiterctl export - --want busy -o \
# script=host.script"""
# ///
from __future__ import annotations

import argparse
from collections.abc import Callable, Mapping
from dataclasses import replace

from arbiter import Library
from arbiter_host import options as table
from arbiter_host.base.model import Model
from arbiter_host.base.output import say, write_file
from arbiter_host.base.plan import engine_of
from arbiter_host.records import source_options
from arbiter_host.sources import change, hostfile, load, script
from arbiter_host.subcommands._base import source_name

WRITERS: Mapping[str, Callable[[Model, Library], str]] = {
    "script": script.write, "toml": lambda model, _: hostfile.write_toml(model),
    "json": lambda model, _: hostfile.write_json(model),
}


def run(options: argparse.Namespace) -> None:
    outputs, by = table.outputs(options), engine_of(options.library)
    model = load.load(source_options(options), options.source, by.library)
    if options.set:
        model = change.warned(model, change.changed(model, options.set))
    # A script and TOML have the warnings in them.
    has_notes = all(each.form != "json" for each in outputs)
    load.warn(replace(model, notes=[]) if has_notes else model, source_name(options.source))
    for form, path in outputs:
        write_file(path, WRITERS[form](model, by.library))
    warned = f"; warnings: {len(model.notes)} (lines '# !')" if model.notes and has_notes else ""
    say(f"groups: {len(model.groups)}{warned}")
