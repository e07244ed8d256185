"""Faults that end a command with one line, and warnings that do not."""
from __future__ import annotations

from collections.abc import Iterable, Iterator, Sequence
from contextlib import contextmanager


class HostFault(Exception):
    """Fault that ends a command with one line on standard error, and its exit status."""

    status = 1

    def __init__(self, message: str, status: int | None = None) -> None:
        super().__init__(message)
        self.message, self.status = message, self.status if status is None else status


class UsageFault(HostFault):
    """Fault in the words of the command line."""

    status = 2


class NoHost(HostFault):
    """A source does not say how many CPUs its host has."""


class NoLibrary(HostFault):
    """The C library is missing, or older than this package."""

    status = 3


class RefusedLines(HostFault):
    """Lines that were refused, under `--strict`."""

    status = 4


class Alerted(HostFault):
    """Alerts of `top` that hold."""

    status = 5

    def __init__(self, alerts: Sequence[tuple[str, str, object]]) -> None:
        super().__init__("\n".join(f"alert: {condition}: {group}" for condition, group, _ in alerts)
                         or "alert: none holds any more")


class NothingFound(HostFault):
    """A search that ended with nothing, or a pattern that fits no group."""

    status = 6


class NoHelp(HostFault):
    """A loop of limits that has nobody left to hold."""

    status = 7


@contextmanager
def naming(place: str, kind: type[HostFault] = HostFault) -> Iterator[None]:
    """Faults of what is done here, each with the place where it was found before it."""
    try:
        yield
    except HostFault as fault:
        raise kind(f"{place}: {fault.message}") from fault


def check_none(wrong: Iterable[str], head: str = "", foot: str = "") -> None:
    """A fault that has a line for each thing that is wrong; none where nothing is."""
    lines = list(wrong)
    if lines:
        raise HostFault("\n".join(filter(None, [head, *lines, foot])))


# Debian's packages of modules that are imported where they are needed.
PACKAGES = {"rich": "python3-rich", "yaml": "python3-yaml", "jinja2": "python3-jinja2",
            "prometheus_client": "python3-prometheus-client", "dask": "python3-distributed",
            "distributed": "python3-distributed"}


def missing_module(error: ModuleNotFoundError) -> HostFault | None:
    """The fault of a module that one of Debian's packages brings; None for any other."""
    package = PACKAGES.get((error.name or "").partition(".")[0])
    return HostFault(f"{package} is missing: apt-get install {package}") if package else None


def strerror(error: OSError) -> str:
    """The system's words for an error."""
    return error.strerror or type(error).__name__
