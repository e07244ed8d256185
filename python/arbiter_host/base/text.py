"""Lines of text for terminals and files: amounts in a unit, bars, tables, the width at hand."""
from __future__ import annotations

import functools
import os
import sys
from collections.abc import Collection, Sequence
from contextlib import suppress
from fractions import Fraction

from arbiter import Host
from arbiter_host.base import units
from arbiter_host.base.model import Model
from arbiter_host.base.names import padded, width
from arbiter_host.base.plan import Plan

STANDARD_WIDTH, LEAST_WIDTH = 120, 40
# From this width on reasons are whole sentences.
WIDE = 110
# The head of a column of bars.
BAR_HEAD = "gets of wants"
UNIT_WORDS = {"cpu": "CPUs", "m": "thousandths of a CPU", "%": "percent of one CPU",
              "slices": "slices of one period", "us": "microseconds of one period"}


def amount(plan: Plan, slices: int | None, unit: str) -> str:
    """Slices in a unit; `-` for none."""
    if slices is None:
        return "-"
    host = plan.model.host
    if unit == "slices":
        return str(slices)
    if unit == "us":
        return str(slices * host.slice_us)
    one = host.slice_us * {"cpu": 1, "m": 1000, "%": 100}[unit]
    # (division of whole numbers rounds to the nearest float)
    return f"{slices * one / host.period_us:.{places(one, host.period_us)}f}"


def in_unit(host: Host, thousandths: Fraction, unit: str) -> Fraction:
    """Thousandths of a CPU in a unit."""
    return thousandths / units.one_of(unit, host)


def measured(host: Host, thousandths: Fraction, unit: str) -> str:
    """An amount that need not be whole slices, in a unit."""
    return f"{float(in_unit(host, thousandths, unit)):.{3 if unit == 'cpu' else 1}f}"


@functools.lru_cache(maxsize=64)
def places(one: int, period: int) -> int:
    """The number of decimals, 0 to 3, with which one slice of a period is exact, if there is
    one."""
    return next((count for count in range(3) if one * 10**count % period == 0), 3)


def bar(part: int, whole: int, cells: int) -> str:
    """A bar of a part. Only the whole fills it, and only nothing leaves it empty."""
    if whole <= 0:
        return " " * (cells + 2)
    filled = cells * part // whole
    if part > 0:
        filled = max(filled, 1)
    return f"[{'#' * filled}{'.' * (cells - filled)}]"


def terminal_width() -> int:
    """Columns of the terminal, $COLUMNS, or 120 where the output is none."""
    with suppress(ValueError):
        return max(int(os.environ.get("COLUMNS", "")), LEAST_WIDTH)
    with suppress(OSError, ValueError, AttributeError):
        return max(os.get_terminal_size(sys.stdout.fileno()).columns, LEAST_WIDTH)
    return STANDARD_WIDTH


def cpus(count: int) -> str:
    """A number of CPUs in words."""
    return "1 CPU" if count == 1 else f"{count} CPUs"


def host_words(host: Host) -> str:
    """A host in one line."""
    one = units.decimal(Fraction(host.slice_us * 1000, host.period_us), 2)
    period, slice_ = (units.decimal(Fraction(usec, 1000))
                      for usec in (host.period_us, host.slice_us))
    return (f"{cpus(host.processors)}, period {period} ms, slice {slice_} ms (one slice is"
            f" {one}m)")


def asked_words(model: Model) -> str:
    """The line that says what the demands and the weights of a model are."""
    return f"demands: {model.asked or 'none'}; weights: {model.weighed or 'none'}"


def laid_out(rows: Sequence[Sequence[str]], left: Collection[int],
             least: Sequence[int] = ()) -> list[str]:
    """Rows of cells in columns two blanks apart, each of at least so many letters. The columns of
    `left` begin at the left, the others end at the right."""
    widths = [max(wide, *map(width, column))
              for wide, column in zip(least or [0] * len(rows[0]), zip(*rows))]
    return ["  ".join(padded(cell, wide) if at in left else " " * (wide - width(cell)) + cell
                      for at, (cell, wide) in enumerate(zip(row, widths))) for row in rows]


def table(rows: Sequence[Sequence[str]], left: Collection[int] = ()) -> list[str]:
    """The lines of a table of rows of cells. The columns of `left` begin at the left."""
    return [line.rstrip() for line in laid_out(rows, left)]
