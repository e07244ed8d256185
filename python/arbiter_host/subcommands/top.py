"""`arbiterctl top`."""
# /// arbiterctl
# order = 6
# summary = "plan a host again and again: live, alerts, metrics"
# forms = ["tables", "openmetrics"]
# takes = ["group", "namespace", "selector", "output", "state", "sort", "depth", "unit",
#          "everything", "verbose", "alert", "command_of_alert", "listen", "pod", "kind", "want",
#          "scale", "read", "used", "range", "step", "query", "node", "node_weights", "strict",
#          "cpus", "period", "slice", "library"]
# description = """\
# Plans a source again and again, compares the plan with what the groups got, and says when it \
# gets bad."""
# details = [
# """\
# At a terminal it is a live table. Keys: q ends, ? tells the keys, arrows, PgUp, PgDn, Home and \
# End move, `-` and `+` fold and unfold a row, / searches and n goes on, s goes to the next order, \
# f to the next filter, a shows groups that ask for nothing. `used` is what a group used since the \
# last reading. The bars are what the plan gave it in the last ten rounds, as parts of its own \
# most. Behind a pipe each round is a line of JSON; the table, with the options of what is shown, \
# is -o text there.""",
# """\
# Of a tree a round has what each group used since the last reading, and how many of its periods \
# were throttled. Its demands are taken by --want (default psi), and planned. Of files there is \
# the plan alone, and with --used what that says. With --pods the groups of pods and containers in \
# a tree have their names.""",
# """\
# GROUP of an alert is a path, its end, a title or a pattern with `*`. Groups with children are \
# compared where GROUP names them without `*`, and by throttled. A GROUP that is not there is \
# told. An alert ends the command with status 5. With --command, --listen or -o openmetrics it \
# goes on, and status 5 stands at the end. A command is run when an alert begins, and again after \
# it was away for a round. It has 60 seconds.""",
# """\
# The metrics are arbiter_plan_gets_cpus, arbiter_plan_wants_cpus, arbiter_got_cpus, \
# arbiter_off_cpus, arbiter_throttled_ratio and arbiter_starved by group, arbiter_alert, and \
# arbiter_round_timestamp_seconds. Pods have namespace, pod and container as kube-state-metrics \
# has them. share/arbiter/grafana.json is a dashboard of Grafana for them. Every user of the \
# machine can read the port.""",
# ]
#
# [argument]
# name = "source"
# nargs = "*"
# metavar = "SOURCE"
# help = """\
# a tree of cgroups, which is measured (default /sys/fs/cgroup), or files as of explain, which are \
# read again in each round"""
#
# [examples]
# "this machine, live" = "arbiterctl top"
# "one look, for a script" = """\
# arbiterctl top /sys/fs/cgroup --read 2x5s --alert 'starved,throttled>5%'"""
# "metrics for Prometheus, with the names of pods" = """\
# arbiterctl top --pods k8s:// --listen 127.0.0.1:9101"""
# "a command at an alert that holds for four rounds" = """\
# arbiterctl top --alert 'web*:lack>250m for 4' --command 'logger -t arbiter'"""
#
# # Texts of options that are other ones here.
# [options]
# output = """\
# WORDS (default: text at a terminal, else lines of json); `openmetrics=FILE` keeps the last round \
# in a file for a textfile collector; may be said again"""
# pod = """\
# the pods whose groups a tree has, so that these have their names: what `kubectl get pods -A -o \
# json` prints, or k8s://; may be said again"""
# read = """\
# read again each TIME, N times (default: x1s at a terminal, else x15s; without N it goes on)"""
#
# [kinds]
# pod = ["cgroup"]
# read = "all"
# node = ["kubernetes", "slurm", "cgroup"]
# ///
from __future__ import annotations

import argparse
import functools
import json
import os
import re
import shlex
import sys
import time
from collections.abc import Callable, Sequence
from typing import TYPE_CHECKING

from arbiter import Library
from arbiter_host import options
from arbiter_host.answers import explain
from arbiter_host.answers.explain import View
from arbiter_host.base import children, output, progress
from arbiter_host.base.faults import Alerted, HostFault, UsageFault
from arbiter_host.base.model import PodNames
from arbiter_host.base.names import shown
from arbiter_host.base.plan import Plan, engine_of, plan
from arbiter_host.records import source_options
from arbiter_host.sources import kubernetes, load, readings
from arbiter_host.sources.register import SERVICE
from arbiter_host.sources.source_options import SourceOptions
from arbiter_host.sources.times import times_of
from arbiter_host.subcommands._base import chosen, view_of
from arbiter_host.top import top, viewer

if TYPE_CHECKING:
    from arbiter_host.top.metrics import Figured, File

# Seconds that the command of an alert has.
SECONDS = 60
# A remark that is new in each round: the figures have it.
THROTTLED = re.compile(r": throttled in [0-9]+ of [0-9]+ periods: ")
MEASURED = ("throttled", "off")
# Options of the table alone: a line of JSON has the host, and the groups of alerts.
OF_TABLE = ("group", "namespace", "selector", "state", "sort", "depth", "unit", "everything")


def reader(asked: argparse.Namespace, wanted: Sequence[top.Condition],
           warn: Callable[[str], None]) -> tuple[Callable[[], top.PlannedRound], int]:
    """Reader of a round, and the readings that it takes before the first one."""
    by, paths = engine_of(asked.library), asked.source or [readings.HOST_TREE]
    source = source_options(asked, is_reread=False)
    if len(paths) == 1 and os.path.isdir(paths[0]) and asked.kind in (None, "cgroup"):
        options.check(asked, "cgroup")
        if asked.node and not any(map(SERVICE.match, asked.pod or ())):
            raise UsageFault("--node: of a tree it needs --pods k8s://")
        want = asked.want or "psi"
        tree = readings.Tree(paths[0], source.machine(by.library), time.monotonic)
        ask = functools.partial(pod_names, source, asked.pod, by.library) if asked.pod else None
        return top.Watched(by, tree, want, ask, warn).round, 1
    if "-" in paths:
        raise UsageFault("standard input is read once: top takes files or a folder")
    measured = [each.words for each in wanted if each.key in MEASURED]
    if measured and not asked.used:
        raise UsageFault(f"--alert {shown(measured[0])}: what is measured is a tree of cgroups, or"
                         " told by --used")
    return lambda: top.with_use(plan(by, load.load(source, paths, by.library))), 0


def pod_names(source: SourceOptions, words: Sequence[str], library: Library
              ) -> dict[str, PodNames]:
    """The names of pods by the folders of their groups."""
    return kubernetes.names_at([(shown(path), data or b"{}")
                                for path, data in load.opened(source, words)], library)


def run_command(words: Sequence[str], raised: Sequence[top.Alert]) -> None:
    """Runs the command of an alert, with the alerts as JSON on its standard input."""
    given = json.dumps([each.data("condition") for each in raised]) + "\n"
    try:
        status = children.run(words, SECONDS, given=given.encode()).status
    except HostFault as fault:
        output.warn(f"--command {fault.message}")
    else:
        if status:
            output.warn(f"--command {words[0]}: status {status}")


class Watch:
    """Ends each round: metrics, its line or lines, and its alerts."""

    def __init__(self, asked: argparse.Namespace, form: str, file: str) -> None:
        self.asked, self.form = asked, form
        self.state, self.is_raised = top.State(top.conditions(asked.alert)), False
        self.command = shlex.split(asked.command_of_alert) if asked.command_of_alert else []
        self.remarks = output.Remarks()
        self.figured: Figured | None = None
        self.file: File | None = None
        if asked.listen or file:
            from arbiter_host.top import metrics
            self.figured = metrics.Figured()
            self.file = metrics.File(file) if file else None

    def listen(self) -> None:
        """Begins to answer, and says where."""
        if self.asked.listen and self.figured:
            from arbiter_host.top import metrics
            address, port = metrics.serve(self.asked.listen, self.figured)
            where = f"[{address}]" if ":" in address else address
            output.say(f"http://{where}:{port}/metrics")

    def warn(self, note: str) -> None:
        """Warns of a round that failed; not over a live view."""
        if self.form != "live":
            output.warn(note)

    def remark(self, notes: Sequence[str]) -> None:
        """Warns of what the source could not say, once."""
        if self.form != "live":
            self.remarks.tell(note for note in notes if not THROTTLED.search(note))

    def take(self, found: top.PlannedRound) -> None:
        """Takes a round. A file that cannot be written ends nothing."""
        figures, state = found.figures(), self.state
        self.remark([*found.plan.model.refused, *found.plan.model.notes,
                     *top.missing(figures, state.wanted)])
        raised = state.take(figures)
        self.is_raised = self.is_raised or bool(raised)
        if self.figured:
            self.figured.put(figures, state.held)
        if self.file and self.figured:
            try:
                self.file.put(self.figured)
            except HostFault as fault:
                self.remark([fault.message])
        if self.form == "json":
            output.emit(json.dumps(top.line_of(state, found)) + "\n")
        elif self.form == "text":
            lines = explain.lines(found.plan, shown_view(self.asked, found.plan))
            output.emit("".join(f"{line}\n" for line in [
                f"{time.strftime('%H:%M:%S')}  {lines[0][0]}", *(line for line, _ in lines[1:]),
                ""]))
        if raised and self.command:
            run_command(self.command, raised)
        if raised and not self.command and not self.figured:
            raise Alerted(state.held)


def shown_view(asked: argparse.Namespace, plan: Plan) -> View:
    return view_of(asked, chosen(asked, plan.model))


def form_of(asked: argparse.Namespace) -> tuple[str, str]:
    """The form on standard output, `live` at a terminal; and the file of metrics."""
    is_terminal = sys.stdout is not None and sys.stdout.isatty()
    forms = {each.form: each.path for each in options.outputs(asked)} if asked.output else {}
    if forms.get("openmetrics") == "-":
        raise UsageFault("-o openmetrics: it is kept in a file: -o openmetrics=FILE")
    for form in ("text", "json"):
        if forms.get(form, "-") != "-":
            raise UsageFault(f"-o {form}=FILE: rounds are printed on standard output")
    form = next((each for each in ("text", "json") if each in forms),
                "text" if is_terminal else "json")
    return "live" if form == "text" and is_terminal else form, forms.get("openmetrics", "")


def run(asked: argparse.Namespace) -> None:
    """Plans a source in each round until an alert or an end."""
    for name, value in (("--command", asked.command_of_alert), ("--listen", asked.listen)):
        # (as of a variable of a script that is not set)
        if value is not None and not value.strip():
            raise UsageFault(f"{name}: it is empty")
    if asked.command_of_alert and not asked.alert:
        raise UsageFault("--command: it runs at an --alert, and none is given")
    form, file = form_of(asked)
    idle = [each.name for each in options.of("top") if each.dest in OF_TABLE
            and each.dest in asked.given]
    if form == "json" and idle:
        raise UsageFault(f"{idle[0]}: it has no effect on lines of json (-o text)")
    times = times_of(asked.read or ("x1s" if form == "live" else "x15s"))
    view_of(asked)
    try:
        watch = Watch(asked, form, file)
    except ValueError as error:
        raise UsageFault(f"--command: {error}") from error
    read, first = reader(asked, watch.state.wanted, watch.warn)
    if times.number is not None and times.number <= first:
        raise UsageFault("--read: a tree is measured from one reading to the next: 2 or more")
    watch.listen()
    rounds = functools.partial(top.rounds_of, read, times, first, watch.warn)
    if form == "live":
        progress.is_allowed = False
        viewer.show(rounds, lambda plan: shown_view(asked, plan), watch.take)
    else:
        for each in rounds():
            watch.take(each)
    if watch.is_raised:
        raise Alerted(watch.state.held)
