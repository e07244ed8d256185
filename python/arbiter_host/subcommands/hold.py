"""`arbiterctl hold`."""
# /// arbiterctl
# order = 12
# summary = "hold the plan on a host by limits of each round"
# forms = ["json", "openmetrics"]
# takes = ["output", "depth", "verbose", "yes", "root", "by", "undo", "force", "weights", "once",
#          "read", "cpus", "period", "slice", "library"]
# description = """\
# Holds the plan on a host with cgroup v2: each round it reads what each group used, and with \
# --yes writes limits for the next one. docs/LINUX.md says when it helps."""
# details = [
# """\
# Each round reads cpu.stat of each group without children, in slices of one period. A group is \
# hungry if it was stopped in the round, so it was throttled or used all that its limit allowed, \
# or if a task of it waited for a hundredth of it or more, and slept for no longer than that and \
# than a twentieth (schedstat, read where cpu.pressure rose). Where its tasks are new it is a \
# guess: whether they waited for half of the round. A hungry group asks for a CPU for each such \
# task and each new one, and for what the others used; if it was stopped, for a CPU for each task. \
# It asks for everything if its tasks do not tell, or could use the whole host. The library's rule \
# gives the limits, and its check accepts the plan. Where each group gets what it asks for or its \
# own limit, nobody is held: `limit` is null, and own weights stand. Else cpu.max is written, \
# where it is not 0 to 1/64 above the limit. With --period 100ms none is stopped for over a tenth \
# of a second, and with few tasks in each more is lost.""",
# """\
# Without --yes nothing is written: each round is shown as it would be, and at the end which \
# groups were over 5 hundredths of a CPU off their plans. With --once the limits of the last round \
# alone are written, and stay until `arbiterctl undo`: for demands that stay. With --weights it \
# writes cpu.weight too: 100 d / (1.01 - d) where the limit lets each task of a group use the part \
# d of a CPU. A group with children has the sum of theirs. The plan is that of the operator's own \
# weights. A weight that somebody sets meanwhile is such a one.""",
# """\
# The old settings are synced to the undo file before a group is first written. They are restored \
# at the end, at a signal, after two failed readings in a row and after a failed writing. Then the \
# undo file is removed. The loop lets go of groups to which limits do harm, and says why: where \
# limits go back and forth for 60 rounds, the group whose use changes so; where in the last 60 \
# rounds in which somebody was held a twentieth less of the plan was served than while nobody was, \
# those that left most of it; where groups whose hunger is a guess used more than those that are \
# hungry for sure, the former. Such a group has its own limit again, counts as asking for nothing, \
# and has what weights give. The others are held on. With nobody left the loop ends with status 7, \
# unless a group is of another user. SIGKILL and signals of faults, as SIGABRT, kill a loop: \
# `arbiterctl undo FILE --yes` undoes it. A jump of the clock, or a stop, over more than five \
# rounds and five seconds is a failed reading, and so is a tree without the cpu controller. A \
# writing that fails in a group of another user ends no loop. Use of more than a twentieth of the \
# CPUs outside DIR is told once.""",
# """\
# Each round is a line of JSON: want, plan, used and limit of each group in slices, whether it is \
# hungry, whether that is a guess, and what a hungry group lacked of the plan that stood \
# (unserved). `missed` is the number of rounds missed before it, `held` that of groups with \
# another limit than their own, `served` the part of the plan of this reading that was served. \
# Lines that nobody reads are dropped and counted, never waited for. -o openmetrics=FILE has the \
# same in CPUs. Groups that come are held from their second reading on. A burst is 0 while a limit \
# below the group's own stands. A limit below 1 ms is rounded up. A group whose limit somebody \
# else sets meanwhile is left alone from then on, and so is the group in which the loop runs. A \
# burst that somebody sets is the group's own from then on.""",
# """\
# One loop runs on a host: it locks hold.lock in /run/arbiter, or beside the undo file if --root \
# is another tree than the host's. `apply` and `undo` change no group that it holds. More than \
# 1024 groups of another user are held as one, and so are those that take half a second in two \
# rounds. Of more than 4096 groups the settings are read in turn, and before each writing. Groups \
# below kubepods are refused without --force, since kubelet writes their limits itself. Such as \
# come later are left alone. As a service it tells systemd by NOTIFY_SOCKET that it is ready and \
# alive. The Debian package has arbiter-hold.service, not enabled.""",
# """\
# With --by scheduler nothing in a group is written. The program arbiter-scheduler (a package of \
# its own) loads a scheduler into the kernel, which serves the amounts of each round; it needs \
# sched_ext and types of the kernel (Debian 13's backports from 6.16 on). What a group used and \
# how long its tasks waited is read there. A round's line has as `scheduler` what it counted since \
# it was loaded: picks, turns of tasks that waited for 10 s (late), stops at limits, and tasks \
# that got no number (unplanned). Tasks outside DIR share what the plan leaves, at least by \
# weights. When that program ends, or is killed, the kernel schedules by weights again. Its \
# package has arbiter-schedule.service, not enabled, with the settings of arbiter-hold.service.""",
# ]
#
# [argument]
# name = "source"
# metavar = "DIR"
# help = "the tree, or a part of it, whose groups share the CPUs"
#
# [examples]
# "one round of a part of the tree; --once --yes would write it" = """\
# arbiterctl hold /sys/fs/cgroup/system.slice --read 2x1s"""
# "the same with weights, and limits of a tenth of a second" = """\
# arbiterctl hold /sys/fs/cgroup/system.slice --read 2x1s --weights --period 100ms"""
# "by the kernel's scheduler; --yes would load it" = """\
# arbiterctl hold /sys/fs/cgroup/system.slice --read 2x1s --by scheduler"""
#
# # Texts of options that are other ones here.
# [options]
# output = """\
# `openmetrics=FILE` keeps the last round in a file for a textfile collector; a line of JSON for \
# each round is printed"""
# depth = """\
# hold groups N below DIR as one, 1 to 64 (default 64): who owns the groups below can set their \
# limits"""
# by = """\
# `scheduler`, a trial for hosts of one owner, gives the plan to a scheduler in the kernel \
# (arbiter-scheduler) and writes no file (default limits)"""
# undo = """\
# the undo file, which must be new, in a folder that only this user may change (default \
# /run/arbiter/hold-undo.json)"""
# read = "a round lasts TIME, at least the period; N rounds (default x1s, which goes on)"
# period = "period of the limits, 100ms or 1s (default 1s)"
# slice = "slice, such as 1ms (default 1ms, of many CPUs 10ms)"
#
# [choices]
# by = ["limits", "scheduler"]
#
# [defaults]
# by = "limits"
# read = "x1s"
# ///
from __future__ import annotations

import argparse
import functools
import gc
import json
import os
import select
import signal
import socket
import time
from collections.abc import Iterator, MutableMapping
from contextlib import ExitStack, contextmanager, suppress
from dataclasses import replace
from fractions import Fraction
from typing import TYPE_CHECKING

from arbiter import Host, Library
from arbiter_host import options
from arbiter_host.base import lines, output, safe_files
from arbiter_host.base.faults import HostFault, UsageFault
from arbiter_host.base.model import MAX_CAPACITY, MAX_DEPTH
from arbiter_host.base.plan import engine_of
from arbiter_host.hold import harm, hold
from arbiter_host.records import host_of, time_option
from arbiter_host.setting import record
from arbiter_host.sources import readings
from arbiter_host.sources.times import MICROSECONDS, Times, times_of as read_times

if TYPE_CHECKING:
    from arbiter_host.top.metrics import File

# The signals that end it in order: all but those that end no process, which Python ignores, or
# which a fault raises.
SIGNALS = signal.valid_signals() - {
    signal.SIGCHLD, signal.SIGCONT, signal.SIGSTOP, signal.SIGTSTP, signal.SIGTTIN, signal.SIGTTOU,
    signal.SIGURG, signal.SIGWINCH, signal.SIGPIPE, signal.SIGXFSZ, signal.SIGKILL, signal.SIGABRT,
    signal.SIGBUS, signal.SIGFPE, signal.SIGILL, signal.SIGSEGV, signal.SIGSYS, signal.SIGTRAP}
PERIOD, SLICE = 1000000, 1000
PERIODS = (100000, PERIOD)
# Parts of the time of the watchdog after which it is told again.
PARTS = 3


class Notifier:
    """Tells systemd that a service is ready, alive or ending, by the protocol of sd_notify(3) and
    sd_watchdog_enabled(3). Without NOTIFY_SOCKET nothing is sent."""

    def __init__(self, environment: MutableMapping[str, str] = os.environ) -> None:
        # (no child has them)
        path, usec, process = (environment.pop(name, "") for name in (
            "NOTIFY_SOCKET", "WATCHDOG_USEC", "WATCHDOG_PID"))
        self.address = f"\0{path[1:]}" if path.startswith("@") else path
        is_ours = process in ("", str(os.getpid()))
        # Seconds from one sign of life to the next; None without a watchdog.
        self.every: Fraction | None = None
        if is_ours and usec.isascii() and usec.isdigit() and int(usec):
            self.every = Fraction(int(usec), PARTS * 10**6)
        # The time of the clock from which on the next one is due.
        self.due = 0.0

    def send(self, *words: str) -> None:
        """Sends lines such as READY=1. A socket that does not take them changes nothing."""
        if self.address:
            with (socket.socket(socket.AF_UNIX, socket.SOCK_DGRAM | socket.SOCK_CLOEXEC) as to,
                  suppress(OSError)):
                to.settimeout(1)
                to.sendto("\n".join(words).encode(), self.address)

    def alive(self) -> None:
        """Tells the watchdog, if that is due."""
        now = time.monotonic()
        if self.every is not None and now >= self.due:
            self.due = now + float(self.every)
            self.send("WATCHDOG=1")


class Service:
    """A loop that runs until a signal, and tells systemd that it is alive. Its rounds are shown as
    lines of JSON, and in a file of metrics."""

    def __init__(self, notifier: Notifier, file: File | None = None,
                 shadow: harm.Shadow | None = None) -> None:
        self.notifier, self.file, self.shadow = notifier, file, shadow
        self.warn = output.Remarks().tell
        # The signals that end it. A hangup that the caller ignores, as nohup does, ends none.
        is_ignored = signal.getsignal(signal.SIGHUP) is signal.SIG_IGN
        self.signals = SIGNALS - {signal.SIGHUP} if is_ignored else SIGNALS
        # Each signal is a byte in a pipe, and interrupts nothing.
        noted, self.note = os.pipe2(os.O_NONBLOCK | os.O_CLOEXEC)
        self.noted = select.poll()
        self.noted.register(noted, select.POLLIN)

    @contextmanager
    def begun(self) -> Iterator[None]:
        """Notes the signals, up to the end of the process: what stood is put back under none."""
        signal.pthread_sigmask(signal.SIG_BLOCK, self.signals)
        for each in self.signals:
            signal.signal(each, lambda *_: None)
        signal.set_wakeup_fd(self.note, warn_on_full_buffer=False)
        # (its threads get no signal)
        self.lines = lines.unwaited()
        signal.pthread_sigmask(signal.SIG_UNBLOCK, self.signals)
        try:
            yield
        finally:
            signal.pthread_sigmask(signal.SIG_BLOCK, self.signals)
            self.lines.finish()
        self.warn(self.shadow.told() if self.shadow else [])
        self.lines.check()

    def wait(self, seconds: float) -> bool:
        """Waits, and tells the watchdog meanwhile. Returns whether a signal came."""
        until, every = time.monotonic() + seconds, self.notifier.every
        while True:
            self.notifier.alive()
            left = max(until - time.monotonic(), 0)
            part = left if every is None else min(left, float(every))
            if self.noted.poll(1000 * part):
                self.notifier.send("STOPPING=1")
                return True
            if part == left:
                return False

    def clock(self) -> int:
        """The clock of the rounds, in nanoseconds. Each look at it is a sign of life: a round has
        one for each group."""
        self.notifier.alive()
        return time.monotonic_ns()

    def show(self, host: Host, line: hold.Line) -> None:
        """Shows a round. A file that cannot be written ends no loop."""
        self.lines.put(json.dumps(line) + "\n")
        if self.shadow is not None:
            self.shadow.take(line)
        self.notifier.send("WATCHDOG=1", f"STATUS=round {line['round']}: {line['held']} of"
                           f" {len(line['groups'])} groups held, {line['served']:.0%} of the plan"
                           f" served, {line['unserved']} slices unserved")
        if self.file is not None:
            from arbiter_host.top import metrics
            try:
                self.file.put(metrics.Held(line, host))
            except HostFault as fault:
                self.warn([fault.message])


def times_of(asked: argparse.Namespace, period: int) -> Times:
    """The length of a round, and the number of readings."""
    times = read_times(asked.read)
    if period not in PERIODS:
        raise UsageFault("--period: 100ms or 1s")
    if times.interval * MICROSECONDS < period:
        raise UsageFault("--read: a round lasts at least the period")
    if times.number == 1:
        raise UsageFault("--read: a round is from one reading to the next: 2 or more")
    return times._replace(number=times.number or 2) if asked.once else times


def locked(root: safe_files.Root, asked: argparse.Namespace, stack: ExitStack) -> record.Record:
    """The undo file, after no second loop was found."""
    undo = os.path.abspath(asked.undo or f"{record.FOLDER}/hold-undo.json")
    where = record.FOLDER if is_real(root) else os.path.dirname(undo)
    for descriptor in record.lock(where, os.path.realpath(asked.source), undo):
        stack.callback(os.close, descriptor)
    kept = record.Record(undo)
    stack.callback(kept.close)
    return kept


def machine(asked: argparse.Namespace, root: safe_files.Root, library: Library) -> Host:
    """The host. That of a real tree has no more CPUs than this machine. Without --slice one that
    has too many slices of 1 ms for the planner has slices of 10 ms."""
    there = os.cpu_count()
    period = PERIOD if asked.period is None else time_option(asked.period, "--period")
    fine = Host(there or 1, PERIOD, SLICE)
    if (asked.cpus or fine.processors) * period > MAX_CAPACITY * SLICE:
        fine = replace(fine, slice_us=10 * SLICE)
    host = host_of(asked).host(library, fine.processors, fine.period_us, fine.slice_us)
    if is_real(root) and there is not None and host.processors > there:
        raise UsageFault(f"--cpus {host.processors}: this machine has {there}")
    return host


def is_real(root: safe_files.Root) -> bool:
    """Whether a tree is that of this machine, by whatever path it is reached."""
    if f"{root.path}/".startswith(f"{readings.HOST_TREE}/"):
        return True
    try:
        return os.stat(root.path).st_dev == os.stat(readings.HOST_TREE).st_dev
    except OSError:
        return False


def metrics_file(asked: argparse.Namespace, stack: ExitStack) -> File | None:
    """The file of metrics, which is removed at the end."""
    forms = options.outputs(asked)
    if any((form == "json") != (path == "-") for form, path in forms):
        raise UsageFault("-o: rounds are printed as json, and -o openmetrics=FILE keeps the last"
                         " one")
    paths = [path for form, path in forms if form != "json"]
    if not paths:
        return None
    from arbiter_host.top import metrics
    file = metrics.File(paths[-1])
    stack.callback(file.remove)
    return file


def is_scheduled(asked: argparse.Namespace, root: safe_files.Root) -> bool:
    """Whether the kernel's scheduler is given the plan. Without --yes rounds are shown alone."""
    if asked.by != options.SCHEDULER:
        return False
    if asked.weights or asked.once:
        raise UsageFault("--by scheduler: --weights and --once write files, and it writes none")
    if asked.yes and not is_real(root):
        raise UsageFault("--by scheduler: the kernel has one scheduler, that of the host's tree")
    return bool(asked.yes)


def run(asked: argparse.Namespace) -> None:
    """Holds the plan on a tree until an end or a signal; without --yes it shows rounds alone."""
    if not 1 <= asked.depth <= MAX_DEPTH:
        raise UsageFault(f"--depth: 1 to {MAX_DEPTH}")
    root = safe_files.Root(asked.root)
    engine = engine_of(asked.library, changes=asked.yes)
    host = machine(asked, root, engine.library)
    times = times_of(asked, host.period_us)
    ways = hold.Ways(asked.force, asked.weights, asked.depth)
    gc.set_threshold(hold.MOST_OBJECTS)
    with ExitStack() as stack:
        kept = locked(root, asked, stack) if asked.yes else None
        stack.callback(root.close)
        shadow = None if asked.yes else harm.Shadow(host.period_us // host.slice_us)
        service = Service(Notifier(), metrics_file(asked, stack), shadow)
        stack.enter_context(service.begun())
        words = (engine, root, asked.source, host)
        if is_scheduled(asked, root):
            from arbiter_host.hold import scheduler
            loop: hold.Loop = scheduler.ScheduledLoop(
                scheduler.Scheduler(asked.source), *words, None, ways, service.clock)
        else:
            loop = hold.Loop(*words, kept, ways, service.clock)
        hold.run(loop, times, service.wait, functools.partial(service.show, host),
                 lambda: service.notifier.send("READY=1"), asked.once)
