"""`arbiterctl replay`."""
# /// arbiterctl
# order = 5
# summary = "plan many samples of what was used"
# forms = ["tables", "csv", "html", "svg"]
# takes = ["group", "namespace", "selector", "output", "unit", "everything", "verbose", "workers",
#          "dask", "kind", "want", "scale", "read", "used", "range", "step", "query", "map", "node",
#          "node_weights", "strict", "cpus", "period", "slice", "library"]
# description = "Plans the groups of SOURCE for each sample of what was used."
# details = [
# """\
# The samples of --used are planned one after another, with what was saved up. A sample lasts one \
# period, or as long as --step says: then its period is repeated, so that a burst lasts as long as \
# it would on a host. Unless the source says its period itself, that is 1 s where it can be, so \
# that a slice is a thousandth of a CPU.""",
# """\
# A file is CSV with groups in the first row and a time in the first column, lines GROUP NUMBER \
# GROUP NUMBER .., or what was used at one time as `kubectl top pods` prints it. An empty cell of \
# CSV asks for nothing. For many hosts it is a folder with HOST.csv, or one CSV with the columns \
# time, host, group and demand.""",
# """\
# The text has sums, and csv and json each sample. `wanted` and `got` are means. Amounts of csv \
# are in the unit of --unit, whose heads are the same in each unit; json says it.""",
# ]
#
# [argument]
# name = "source"
# nargs = "+"
# metavar = "SOURCE"
# help = """\
# a source, as of explain, or many hosts: a folder of their files, a cluster's JSON"""
#
# [examples]
# "samples of half an hour each" = "arbiterctl replay host.toml --used day.csv --step 30m"
# "two days" = "arbiterctl replay host.toml --used monday.csv --used tuesday.csv --step 30m"
# "a picture of some groups" = """\
# arbiterctl replay host.toml --used day.csv --step 30m -g web -o svg=day.svg"""
# "a day of each host" = "arbiterctl replay hosts --used demands --step 30m"
#
# # Texts of options that are other ones here.
# [options]
# unit = "unit of the demands and of the answer (default cpu)"
# used = """\
# the demands of each sample: a CSV, a file of lines of pairs, or the address of a Prometheus; for \
# many hosts a folder or one CSV"""
# step = "how long a sample lasts, such as 5m (default: one period; of a Prometheus 1m)"
#
# [kinds]
# unit = "all"
# everything = ["hosts"]
# used = "all"
# step = "all"
# ///
from __future__ import annotations

import argparse
from collections.abc import Collection, Sequence
from functools import partial

from arbiter_host import options as table
from arbiter_host.answers import series
from arbiter_host.base import output, progress
from arbiter_host.base.faults import HostFault, UsageFault
from arbiter_host.base.model import Model
from arbiter_host.base.names import shown
from arbiter_host.base.plan import engine_of
from arbiter_host.base.tables import Forms
from arbiter_host.records import source_options, time_option, use_options
from arbiter_host.sources import load, prometheus, selection, used
from arbiter_host.sources.load import Opened
from arbiter_host.sources.measurable import OTHERS
from arbiter_host.sources.samples import History, values_of
from arbiter_host.sources.selection import Selection
from arbiter_host.sources.source_options import UseOptions
from arbiter_host.sources.usage import some
from arbiter_host.subcommands._base import answer, source_name


def sample_of(uses: UseOptions) -> int:
    """The microseconds of one sample, by `--step` or of a server; 0 stands for one period."""
    if uses.step:
        return time_option(uses.step, "--step")
    return round(used.asked_range(uses).step * 10**6) if used.is_served(uses) else 0


def shown_groups(options: argparse.Namespace, model: Model) -> list[str]:
    """The groups that are chosen, in order, but pause containers; `.` is the host itself. Empty for
    those of columns."""
    rest = [each for each in options.group if each != "."]
    host = ["."] if len(rest) < len(options.group) else []
    paths = selection.chosen(model, Selection(rest, options.namespace, options.selector))
    return host + [path for path, group in model.groups.items()
                   if path in (paths or ()) and not group.is_pause]


def check_use(unit: str, model: Model, history: History, columns: Collection[str],
              where: str) -> None:
    """A fault where a server tells of more use than the host has CPUs."""
    for column in columns:
        seen = [each for each in history.samples if column in each.cells]
        if seen:
            prometheus.check_use(shown(column), values_of(
                [each.cells[column] for each in seen], unit, model.host,
                (each.where for each in seen)), model.host.processors, where)


def forms(options: argparse.Namespace, files: Sequence[Opened], uses: UseOptions) -> Forms:
    """The forms of the samples of one host."""
    if any(form == "html" for form, _ in table.outputs(options)):
        raise UsageFault("-o html: of one host there is text, json, csv and svg")
    by = engine_of(options.library)
    source = source_options(options)
    kind = load.kind_in(source, files)
    model = load.model_of(source.without_use(kind), files, by.library)
    sample = sample_of(uses)
    model = source.of_samples(by.library, kind, model, options.unit, sample)
    load.warn(model, source_name(options.source))
    history = used.history(uses)
    if not history.samples:
        what = ": --query and --range say what is asked" if used.is_served(uses) else ""
        raise HostFault(f"{used.name(uses)}: no sample{what}")
    path_of, missing = series.targets(model, history, used.mapped(uses.columns))
    what = "series of no group here" if used.is_served(uses) else OTHERS
    lost = [f"{used.name(uses)}: {what}, {some(missing)}"] if missing else []
    if lost and not path_of:
        raise HostFault(lost[0])
    if used.is_served(uses):
        check_use(options.unit, model, history, path_of, used.name(uses))
    output.warn(*lost)
    lacking = history.of_columns(path_of.__contains__).lacking
    if lacking:
        output.warn(f"{used.name(uses)}: without a number, which counts as 0, {some(lacking)}")
    paths = shown_groups(options, model)
    with progress.bar("samples", len(history.samples)) as tick:
        found = series.run(by, model, history, options.unit, paths, path_of, sample, tick)
    return series.forms(found, options.unit)


def run(options: argparse.Namespace) -> None:
    uses = use_options(options)
    if uses is None:
        raise UsageFault("--used: a file of demands over time, or a server's address")
    answer(options, "SAMPLES", partial(forms, uses=uses))
