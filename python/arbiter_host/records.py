"""Options of the command line as records, which the layers below take."""
from __future__ import annotations

import argparse
import functools
from dataclasses import replace
from typing import Any

from arbiter_host import options as table
from arbiter_host.base import units
from arbiter_host.base.faults import UsageFault, naming
from arbiter_host.sources import times
from arbiter_host.sources.source_options import SourceOptions, UseOptions

# Options of samples, which have no effect on what was used at one time.
OF_SAMPLES = ("map", "unit")


def time_option(word: str, option: str) -> int:
    """The microseconds of an option."""
    with naming(option, UsageFault):
        return units.parse_time(word)


def host_of(options: argparse.Namespace) -> SourceOptions:
    """The options of a host alone."""
    period, slice_ = (None if word is None else time_option(word, f"--{name}")
                      for name, word in (("period", options.period), ("slice", options.slice)))
    return SourceOptions(options.cpus, period, slice_)


def times_of(options: argparse.Namespace) -> times.Times:
    """The times at which a source is read: two where that is not said."""
    asked = times.times_of(options.read or "2x1s")
    return asked if asked.number else asked._replace(number=2)


def use_options(options: argparse.Namespace, **more: Any) -> UseOptions | None:
    """The options of what groups used; None where nothing is said of it."""
    if not options.used:
        return None
    host = host_of(options)
    return UseOptions(
        tuple(options.used), options.want or "", options.query, options.range, options.step,
        columns=tuple(options.map), period=host.period, slice=host.slice,
        times=times_of(options), has_input="-" in options.source, **more)


def source_options(options: argparse.Namespace, **more: Any) -> SourceOptions:
    """The options of a source."""
    weights = options.node_weights
    found: dict[str, Any] = {
        "kind": options.kind, "node": options.node, "want": options.want or "",
        "kubelet": "log" if weights == "log" else "linear",
        "runtime": "linear" if weights == "linear" else "log",
        "are_conversions_said": "node_weights" in options.given, "scales": tuple(options.scale),
        "is_strict": options.strict, "times": times_of(options),
        "is_reread": "read" in options.given, "uses": use_options(options),
        "check": functools.partial(table.check, options)}
    return replace(host_of(options), **{**found, **more})
