"""Options of a source, and of what its groups used."""
from __future__ import annotations

import os
from collections.abc import Callable, Sequence
from dataclasses import dataclass, replace
from fractions import Fraction
from typing import TYPE_CHECKING

from arbiter import Host, Library
from arbiter_host.base import demands, units
from arbiter_host.base.faults import UsageFault
from arbiter_host.base.model import PERIODS, SLICE, Model, host_of
from arbiter_host.sources.times import Times

if TYPE_CHECKING:
    from arbiter_host.base.owned import Owned
    from arbiter_host.sources.measurable import Measurable

# How kubelet and runtimes name groups.
DRIVERS = ("systemd", "cgroupfs")
# A file: its name as it is shown, and its bytes.
File = tuple[str, bytes]


@dataclass(frozen=True)
class UseOptions:
    """The options of what groups used: the words of `--used`, and how they are read."""

    words: tuple[str, ...]
    # What of the use is meant; empty for the mean.
    want: str = ""
    # What is asked of a server, in which time, each step; and the time where none is said.
    query: str | None = None
    range: str | None = None
    step: str | None = None
    span: str = "1d"
    # COLUMN=GROUP for each column whose name is not the group's, and the unit of columns.
    columns: tuple[str, ...] = ()
    unit: str = "cpu"
    # Microseconds by which amounts in slices are counted; None for those of a plain host.
    period: int | None = None
    slice: int | None = None
    times: Times = Times()
    # Options that were given and have no effect on what was used at one time.
    idle: tuple[str, ...] = ()
    # Whether standard input is the source.
    has_input: bool = True

    @property
    def host(self) -> Host:
        """A host for amounts in slices."""
        return Host(1, self.period or PERIODS[0], self.slice or SLICE)


@dataclass(frozen=True)
class SourceOptions:
    """The options of a source, whatever its kind: the host, the node, the conversions of shares,
    the driver, and the rule for demands. kubelet writes the weights of kubepods, classes and pods,
    the runtime those of containers."""

    # CPUs, and microseconds of the period and the slice; None for what the source tells.
    cpus: int | None = None
    period: int | None = None
    slice: int | None = None
    # None for the kind that is found.
    kind: str | None = None
    node: str = ""
    # Whether other nodes of the cluster are read beside it, with the pods of each.
    is_part: bool = False
    kubelet: str = "linear"
    runtime: str = "linear"
    # Whether these conversions are asked for, or else those are taken that a tree has.
    are_conversions_said: bool = False
    # How the runtime names groups, `systemd` or `cgroupfs`. A tree that is named tells it.
    driver: str = "systemd"
    tree: str = ""
    # What the demands are taken from; empty for what the kind of source has.
    want: str = ""
    # GROUP=FACTOR for each group whose demands are multiplied.
    scales: tuple[str, ...] = ()
    # Whether refused lines of a script are a fault.
    is_strict: bool = False
    # How often a source is read that can be read again, and whether one that cannot is refused.
    times: Times = Times()
    is_reread: bool = False
    # Whether its settings alone are meant, so that a service is asked once.
    has_settings_alone: bool = False
    # What groups used, where that is told beside the source.
    uses: UseOptions | None = None
    # Gives a source that use, once it is read.
    measured: Callable[[Measurable], Owned] | None = None
    # Refuses a kind of source on which an option that was given has no effect.
    check: Callable[[str], None] | None = None

    @property
    def names_host(self) -> bool:
        """Whether a part of the host is asked for."""
        return not self.cpus == self.period == self.slice is None

    def host(self, library: Library, cpus: int, period: int | None = None,
             slice_: int | None = None) -> Host:
        """The host that a source tells, with what is asked for in its place."""
        return host_of(library, cpus if self.cpus is None else self.cpus,
                       period if self.period is None else self.period,
                       slice_ if self.slice is None else self.slice)

    def of_use(self, library: Library, host: Host, sample: int = 0) -> Host:
        """A host for use in samples of so many microseconds (0: of any time), whatever its source
        says of its period and slice."""
        return host_of(library, host.processors, self.period, self.slice, sample)

    def machine(self, library: Library) -> Host:
        """This machine, with what is asked for in its place."""
        return self.host(library, os.cpu_count() or 1)

    def of_samples(self, library: Library, kind: str, model: Model, unit: str,
                   sample: int) -> Model:
        """The model for samples of what was used, whose period divides a sample, unless the source
        says its period itself or the demands are counted in it."""
        if kind in ("script", "toml", "json") or unit in ("slices", "us"):
            return model
        after = model.with_host(self.of_use(library, model.host, sample))
        one = Fraction(1000 * after.host.slice_us, after.host.period_us)
        if one > 1:
            after.notes.append(f"a slice is {units.decimal(one)}m: each use is rounded up to it")
        return after

    def check_kind(self, kind: str) -> None:
        """A fault where an option was given that has no effect on a source of a kind."""
        if self.check is not None:
            self.check(kind)

    def without_use(self, kind: str) -> SourceOptions:
        """Options for a source of a kind, after that was checked, that is read as it is."""
        self.check_kind(kind)
        return replace(self, uses=None, is_reread=False, check=None)

    def for_containers(self, want: str, folder: str) -> SourceOptions:
        """Options with a rule for demands where none is asked for, and with the driver of the
        tree: cgroupfs makes a folder of this name at its top."""
        is_there = self.tree and os.path.isdir(os.path.join(self.tree, folder))
        return replace(self, want=self.want or ("usage" if self.uses else want),
                       driver="cgroupfs" if is_there else self.driver)

    def with_demands(self, model: Model, what: str) -> Model:
        """A model that tells its demands itself, with those that are asked for in their place."""
        if self.want:
            if self.want not in ("limit", "busy"):
                raise UsageFault(f"--want {self.want}: a {what} has no readings and no requests: it"
                                 " takes limit or busy, or says its demands itself")
            demands.set_demands(model, {}, self.want, Fraction(1))
        return model


def only(files: Sequence[File], what: str) -> File:
    """The one file of a source; a fault where there are several."""
    if len(files) > 1:
        raise UsageFault(f"{len(files)} files: a {what} is one")
    return files[0]
