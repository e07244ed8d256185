"""A tree of cgroup v2, as the kernel shows it, or copies of its files that were made in turn."""
from __future__ import annotations

from collections.abc import Iterator, Sequence
from fractions import Fraction

from arbiter import Host, Library
from arbiter_host.base import demands, units
from arbiter_host.base.model import Model, bind
from arbiter_host.sources import readings, systemd
from arbiter_host.sources.readings import OverTime
from arbiter_host.sources.times import Times


def own_notes(model: Model, series: OverTime) -> Iterator[str]:
    """Notes of what the tasks of inner groups used, from half a slice on."""
    host = model.host
    for path, below in model.children().items():
        if not below:
            continue
        whole, *parts = (demands.used(series.measured(each), series.seconds).mean
                         for each in (path, *below))
        use = max(whole - sum(parts, Fraction(0)), Fraction(0))
        if 2 * use * host.period_us >= 1000 * host.slice_us:
            yield f"{path}: its own tasks used {units.decimal(use, 0)}m of a CPU, which is left out"


def slice_notes(model: Model) -> Iterator[str]:
    """Notes of quotas and bursts that are no whole number of slices, and are rounded down."""
    host = model.host
    for path, group in model.groups.items():
        for name, usec in (("quota", group.quota), ("burst", group.burst)):
            exact = Fraction((usec or 0) * host.period_us, group.period * host.slice_us)
            if exact.denominator != 1:
                yield f"{path}: its {name} is {units.decimal(exact)} slices: {int(exact)} are kept"


def read(folders: Sequence[str], host: Host, times: Times = Times(), want: str = "usage",
         library: Library | None = None) -> Model:
    """The model of a tree, which is read so often if its demands are taken from use, or of its
    copies. Its settings are those of the first reading. With a library those of units can be
    changed."""
    is_once = want not in demands.OF_USE
    series = readings.series_of(folders[:1] if is_once else folders, host,
                             Times(times.interval, 1) if is_once else times)
    model = series.first.model
    if not model.groups:
        model.notes.append("no groups with the cpu controller are below this folder")
    bind(model, series.first.bound)
    model.notes += [f"{path}: gone at a later reading" for path in series.gone if path != "."]
    rose = any(one.usage != two.usage for each in series.counters.values()
               for one, two in zip(each, each[1:]))
    if len(folders) == 1 and not is_once and not rose:
        model.notes.append("no counter rose from one reading to the next: a copy of a tree stands"
                           " still, and one that was made later is a second source")
    measured = {path: series.measured(path) for path in model.groups}
    demands.set_demands(model, measured, want, series.seconds)
    demands.stop(model, series.first.frozen, "frozen")
    model.notes += [*own_notes(model, series), *slice_notes(model)]
    if library is not None:
        model.owned = systemd.TreeSource(model.copy(), measured, seconds=series.seconds,
                                         library=library)
    return model
