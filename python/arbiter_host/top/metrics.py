"""The figures of a round as OpenMetrics, by prometheus_client: in a file, or at a loopback port."""
from __future__ import annotations

import ipaddress
import os
import socket
import socketserver
import threading
import time
from collections.abc import Callable, Iterator, Sequence
from contextlib import closing, contextmanager, suppress
from dataclasses import replace
from fractions import Fraction
from functools import partial
from operator import itemgetter
from typing import Any, TypeVar
from wsgiref.simple_server import WSGIRequestHandler, WSGIServer, make_server

from arbiter import Host
from prometheus_client import CollectorRegistry, make_wsgi_app
from prometheus_client.core import CounterMetricFamily, Metric
from prometheus_client.openmetrics.exposition import generate_latest
from prometheus_client.registry import Collector

from arbiter_host.base.atomic_files import CHANGED, Place, collected_folder, faults, place_of
from arbiter_host.base.faults import HostFault, UsageFault, strerror
from arbiter_host.base.names import shown
from arbiter_host.base.tables import Column, Table
from arbiter_host.base.units import MAX_DEMAND
from arbiter_host.top.top import POD_LABELS, Alert, GroupFigures

R = TypeVar("R")
# First lines of a file.
MARK = "# HELP arbiter_"
# Seconds in which a reader has to ask, and those in which it has to take the answer.
SECONDS = 5
# The key of a request's environment that has the time of its reader.
TIME = "arbiter.time"

# Counts of the kernel's scheduler, where a round is held by it, and what the counter is.
SCHEDULER = {
    "picks": ("picks", "Picks of a task for a CPU since the scheduler was loaded."),
    "late": ("late_turns", "Turns of tasks that waited for 10 seconds, since it was loaded."),
    "stops": ("stops", "Stops of a group at a limit since it was loaded."),
    "unplanned": ("unplanned_tasks", "Tasks that got no number since it was loaded: they go last."),
}


def metric(key: str, words: str, value: Callable[[R], Any]) -> Column[R]:
    """A column that is a metric alone."""
    return Column("", str, key=key, value=value, forms=(), metric=words)


def label(key: str, cell: Callable[[R], str]) -> Column[R]:
    """A column that is a label of metrics."""
    return Column("", cell, key=key, forms=(), is_label=True)


def of_pod(at: int, each: GroupFigures | Alert) -> str:
    """A name of the pod of a group or an alert."""
    return each.pod[at]


def figure(name: str, words: str, key: str, parts: int = 1000) -> Column[GroupFigures]:
    """A figure of a group, of which so many parts are one; None where it was not measured."""
    def value(each: GroupFigures) -> Any:
        number = getattr(each, key)
        return None if number is None else number / parts

    return metric(f"arbiter_{name}", words, value)


PODS = [label(name, partial(of_pod, at)) for at, name in enumerate(POD_LABELS)]
FIGURES: list[Column[GroupFigures]] = [
    label("group", lambda each: each.path), *PODS,
    figure("plan_gets_cpus", "CPUs that the plan gives a group.", "plan"),
    figure("plan_wants_cpus", "CPUs that a group wants.", "want"),
    figure("got_cpus", "CPUs that a group used.", "got"),
    figure("off_cpus", "CPUs that a group used above what the plan gives it.", "off"),
    figure("throttled_ratio", "Part of the periods in which a group was throttled, 0 to 1.",
           "throttled", 1),
    figure("starved", "1 if a group wants something and the plan gives it nothing.", "is_starved",
           1)]
ALERTS: list[Column[Alert]] = [
    label("alert", lambda each: each.condition), label("group", lambda each: each.group), *PODS,
    metric("arbiter_alert", "1 for each alert that holds.", lambda _: 1)]
TIMES: list[Column[float]] = [metric(
    "arbiter_round_timestamp_seconds", "When the last round was.", lambda each: each)]
TABLES: list[list[Column[Any]]] = [FIGURES, ALERTS, TIMES]
NAMES = [each.key for columns in TABLES for each in columns if each.metric]
# The line of a round of a loop, or that of one of its groups.
Line = dict[str, Any]


def held(name: str, words: str, key: str = "") -> Column[Line]:
    """A value of a line, whose key is its name unless that is said."""
    return metric(f"arbiter_hold_{name}", words, itemgetter(key or name))


def held_columns(one: Fraction) -> list[Column[Line]]:
    """The columns of the groups of a loop, by the CPUs of a slice."""
    def slices(key: str, words: str) -> Column[Line]:
        return metric(f"arbiter_hold_{key}_cpus", words, lambda each: (
            float("inf") if each[key] in (None, MAX_DEMAND) else each[key] * one))

    return [
        label("group", itemgetter("group")),
        slices("want", "CPUs that a group asked for in the last round; +Inf for all."),
        slices("plan", "CPUs that the plan of the last round gives a group."),
        slices("used", "CPUs that a group used in the last round."),
        slices("limit", "CPUs of the limit of a group for the next round; +Inf for none."),
        slices("unserved", "CPUs of the plan that stood which a hungry group was not given."),
        held("hungry", "1 if a group would have used more in the last round."),
        held("guess", "1 if it is a guess whether a group would have used more.")]


HELD_ROUND = [
    held("rounds", "Rounds since the loop began.", "round"),
    held("missed_rounds", "Rounds missed before the last one.", "missed"),
    held("written_groups", "Groups that were written in the last round.", "written"),
    held("held_groups", "Groups that have another limit than their own.", "held"),
    held("served_ratio", "Part of the plan of the last round that was served, 0 to 1.", "served"),
    held("round_timestamp_seconds", "When the last round was.", "at")]


class Figured(Collector):
    """The figures of the last round of `top`. They are replaced as a whole."""

    def __init__(self) -> None:
        self.tables: list[Table[Any]] = [Table(FIGURES, []), Table(ALERTS, [])]

    def put(self, figures: Sequence[GroupFigures], alerts: Sequence[Alert]) -> None:
        self.tables = [Table(FIGURES, figures), Table(ALERTS, alerts), Table(TIMES, [time.time()])]

    def collect(self) -> Iterator[Metric]:
        for each in self.tables:
            yield from each.metrics()


class Held(Figured):
    """The line of a round of `hold`, on a host."""

    def __init__(self, line: Line, host: Host) -> None:
        one = Fraction(host.slice_us, host.period_us)
        self.tables = [Table(held_columns(one), [
            {"group": path, **each} for path, each in line["groups"].items()]),
                       Table(HELD_ROUND, [{**line, "at": time.time()}])]
        self.counts: dict[str, int] = line.get("scheduler", {})

    def collect(self) -> Iterator[Metric]:
        yield from super().collect()
        for key, value in self.counts.items():
            name, words = SCHEDULER[key]
            yield CounterMetricFamily(f"arbiter_hold_scheduler_{name}", words, value=value)


def text_of(collector: Collector) -> bytes:
    """The metrics as OpenMetrics."""
    text: bytes = generate_latest(collector)  # type: ignore[no-untyped-call]
    return text


class File:
    """A file of a textfile collector that has the last round, whole or not at all. Everybody may
    read it. It is in a folder that no other user changes, and replaces no file that is not ours."""

    def __init__(self, path: str) -> None:
        self.path = os.path.abspath(path)
        with self.opened():
            pass

    @contextmanager
    def opened(self) -> Iterator[Place]:
        """Where it is written."""
        place = place_of(self.path, collected_folder)
        # (what a kill leaves under the one other name is replaced)
        part = f".{place.name}.part"
        with closing(replace(place, part=part, mode=0o644, is_synced=False)) as place:
            with faults(self.path):
                place.check_ours(self.path, MARK, f"has no metrics of arbiterctl{CHANGED}")
                yield place

    def put(self, collector: Collector) -> None:
        """Puts metrics in place of the last."""
        with self.opened() as place:
            place.put(text_of(collector))

    def remove(self) -> None:
        with self.opened() as place, suppress(FileNotFoundError):
            os.unlink(place.name, dir_fd=place.folder)


class Handler(WSGIRequestHandler):
    """Answers one request, and logs none."""

    def log_message(self, format: str, *words: Any) -> None:
        pass


class Patience:
    """The time that a reader has. One that takes longer is cut off."""

    def __init__(self, request: socket.socket) -> None:
        self.request, self.timer = request, threading.Timer(0, self.cut_off)

    def cut_off(self) -> None:
        """Ends what a reader sends and takes. One that is closed has ended."""
        with suppress(OSError):
            self.request.shutdown(socket.SHUT_RDWR)

    def begin(self) -> None:
        self.timer = threading.Timer(SECONDS, self.cut_off)
        self.timer.daemon = True
        self.timer.start()

    def end(self) -> None:
        self.timer.cancel()


class Server(WSGIServer):
    """Answers one request after another, and looks up no name."""

    def server_bind(self) -> None:
        """Binds the address as it is."""
        socketserver.TCPServer.server_bind(self)
        self.server_name, self.server_port = "localhost", self.server_address[1]
        self.setup_environ()

    def process_request(self, request: Any, client_address: Any) -> None:
        """Answers one request, of a reader that has some time."""
        time_ = self.base_environ[TIME] = Patience(request)
        time_.begin()
        try:
            super().process_request(request, client_address)
        finally:
            time_.end()

    def handle_error(self, request: Any, client_address: Any) -> None:
        """A reader that went away is no fault of the server."""


class Server6(Server):
    """A server for IPv6."""

    address_family = socket.AF_INET6


def loopback(host: str) -> str:
    """The loopback address that a name means; empty for all other names."""
    bare = "127.0.0.1" if host == "localhost" else host.removeprefix("[").removesuffix("]")
    try:
        return bare if ipaddress.ip_address(bare).is_loopback else ""
    except ValueError:
        return ""


def address_of(text: str) -> tuple[str, int]:
    """A loopback address and a port, 0 to 65535. All others are refused."""
    host, colon, port = text.rpartition(":")
    bare = loopback(host)
    if not (colon and bare and port.isascii() and port.isdigit() and int(port) < 65536):
        raise UsageFault(f"--listen {shown(text)}: not a loopback address and a port, such as"
                         " 127.0.0.1:9101")
    return bare, int(port)


def guarded(collector: Collector) -> Callable[..., Any]:
    """Answers `GET /metrics` of a loopback name alone, so that no page of a browser reaches it."""
    registry = CollectorRegistry(auto_describe=False)
    registry.register(collector)
    app = make_wsgi_app(registry)

    def answer(environ: dict[str, Any], start: Callable[..., Any]) -> Any:
        host = str(environ.get("HTTP_HOST", "")).lower()
        name = host.rpartition(":")[0] if ":" in host.rpartition("]")[2] else host
        if not loopback(name):
            start("403 Forbidden", [("Content-Type", "text/plain")])
            return [b"not a loopback name\n"]
        if environ["PATH_INFO"] != "/metrics" or environ["REQUEST_METHOD"] != "GET":
            start("404 Not Found", [("Content-Type", "text/plain")])
            return [b"/metrics\n"]
        # The time to make the answer is none of the reader's.
        environ[TIME].end()
        body = app(environ, start)
        environ[TIME].begin()
        return body

    return answer


def serve(text: str, collector: Collector) -> tuple[str, int]:
    """Begins to answer at a loopback address. Returns the address and the port."""
    address, port = address_of(text)
    kind = Server6 if ":" in address else Server
    try:
        server = make_server(address, port, guarded(collector), kind, Handler)
    except OSError as error:
        raise HostFault(f"--listen {shown(text)}: {strerror(error)}") from error
    threading.Thread(target=server.serve_forever, daemon=True).start()
    return address, int(server.server_port)
