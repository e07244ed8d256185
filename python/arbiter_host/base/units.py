"""Conversions between what people write, what the kernel holds, and the planner's slices.

CPU amounts are thousandths of a CPU, as fractions, so that slices convert back exactly. Times are
whole microseconds. The C library converts to slices, and `cpu.shares` to weights.
"""
from __future__ import annotations

import math
import re
from fractions import Fraction

from arbiter import Host, Library, Refused, WeightFormula
from arbiter_host.base.faults import HostFault

MAX_DEMAND = 1000000
# Most limits that are kept.
MAX_KEPT = 65536
# Number of a demand that is too large.
TOO_LARGE = 9
MOST_WORD = 2**64 - 1
MAX_QUOTA = 10**15
MIN_QUOTA = 1000
MIN_PERIOD, MAX_PERIOD = 1000, 1000000
DEFAULT_PERIOD = 100000
MIN_SHARES, MAX_SHARES = 2, 262144
MIN_WEIGHT, MAX_WEIGHT, DEFAULT_WEIGHT = 1, 10000, 100
# The library's formulas of `cpu.shares` and of requests, by the names of a node's conversions.
OF_SHARES = {"linear": WeightFormula.SHARES_LINEAR, "log": WeightFormula.SHARES_LOGARITHMIC}
OF_REQUESTS = {"linear": WeightFormula.REQUEST_LINEAR, "log": WeightFormula.REQUEST_LOGARITHMIC}
# A CPU amount above this many CPUs is refused.
MAX_CPUS = 10**9

NUMBER = re.compile(r"([0-9]{1,30}(?:\.[0-9]{0,30})?|\.[0-9]{1,30})(?:[eE]([+-]?[0-9]{1,3}))?")
CPU_UNITS = {
    "": Fraction(1000), "cpu": Fraction(1000), "cpus": Fraction(1000), "m": Fraction(1),
    "%": Fraction(10), "u": Fraction(1, 1000), "n": Fraction(1, 10**6), "k": Fraction(10**6),
    "M": Fraction(10**9),
}
SECOND = 10**6
TIME_UNITS = {"ns": Fraction(1, 1000)} | {name: Fraction(usec) for name, usec in {
    "": 1, "us": 1, "usec": 1, "ms": 1000, "s": SECOND, "sec": SECOND, "min": 60 * SECOND,
    "m": 60 * SECOND, "h": 3600 * SECOND, "d": 86400 * SECOND, "w": 7 * 86400 * SECOND,
    "month": 2629800 * SECOND, "y": 31557600 * SECOND}.items()}


def number_and_unit(text: str) -> tuple[Fraction, str] | None:
    """A decimal number and the word behind it; None where the text is not of that form."""
    match = NUMBER.match(text.strip())
    if not match:
        return None
    if abs(int(match.group(2) or 0)) > 30:
        return None
    return Fraction(match.group()), text.strip()[match.end():].strip()


def span_words(seconds: Fraction) -> str:
    """A time in the greatest unit of which it has a whole number, or in seconds."""
    for name, usec in (("d", 86400), ("h", 3600), ("min", 60)):
        if seconds >= usec and seconds % usec == 0:
            return f"{seconds // usec} {name}"
    return f"{decimal(seconds, 1)} s"


def whole(text: str, most: int = 9) -> int | None:
    """The number that a text of at most so many digits is; None for any other text."""
    return int(text) if text.isascii() and text.isdigit() and len(text) <= most else None


def parse_cpu(text: str) -> Fraction:
    """Thousandths of a CPU, 0 to 10^12, from `250m`, `1.5`, `1.5cpu`, `40%` or `100n`."""
    parsed = number_and_unit(text)
    if parsed is None or parsed[1] not in CPU_UNITS:
        raise HostFault(f"{text!r} is no amount of CPU: write 250m, 1.5cpu or 40%")
    value = parsed[0] * CPU_UNITS[parsed[1]]
    # (whole numbers compare in a tenth of a fraction's time)
    if value.numerator > MAX_CPUS * 1000 * value.denominator:
        raise HostFault(f"{text!r} is above {MAX_CPUS} CPUs")
    return value


def parse_time(text: str) -> int:
    """Microseconds from `100ms`, `1s`, `5min`, `1min 30s` or a plain number of microseconds."""
    total, rest = Fraction(0), text.strip()
    while rest:
        match = re.match(r"([0-9.]{1,40}(?:[eE][0-9]{1,2})?)\s*([a-z]*)\s*", rest)
        parsed = number_and_unit(match.group(1)) if match else None
        if not match or parsed is None or match.group(2) not in TIME_UNITS:
            raise HostFault(f"{text!r} is no time: write 100ms, 1s or 5min")
        total += parsed[0] * TIME_UNITS[match.group(2)]
        rest = rest[match.end():]
    if not text.strip() or total > MAX_QUOTA:
        raise HostFault(f"{text!r} is no time: write 100ms, 1s or 5min")
    return int(total)


class Slices:
    """Slices of one period of a host, by the library's calls, each of which is made once. A
    conversion depends on no number of CPUs, so that hosts of more than 64 have them too."""

    def __init__(self, library: Library, host: Host) -> None:
        self.library, self.host = library, Host(1, host.period_us, host.slice_us)
        self.limits: dict[tuple[int | None, int, int, int], int | None] = {}
        self.demands: dict[tuple[int, int], int] = {}

    def are_of(self, host: Host) -> bool:
        """Whether they are those of a host."""
        return (self.host.period_us, self.host.slice_us) == (host.period_us, host.slice_us)

    def limit(self, quota: int | None, period: int, burst: int = 0, saved: int = 0) -> int | None:
        """Slices that a group may use in its next period, of which some are saved up."""
        key = (quota, period, burst, saved)
        if key not in self.limits:
            if len(self.limits) >= MAX_KEPT:
                self.limits.clear()
            try:
                self.limits[key] = self.library.period_limit(self.host, *key)
            except (Refused, OverflowError) as error:
                raise HostFault(f"{quota} microseconds in {period}: {error}") from error
        return self.limits[key]

    def demand(self, thousandths: Fraction) -> int:
        """Slices that a demand takes, rounded up, at most 1000000."""
        key = thousandths.as_integer_ratio()
        if key not in self.demands:
            self.demands[key] = self.asked_demand(thousandths / 1000)
        return self.demands[key]

    def asked_demand(self, cpus: Fraction) -> int:
        """Slices that CPUs take. A part that no word of the call holds is rounded up to millionths
        of a slice, of which the slices are as many."""
        if cpus.denominator > MOST_WORD:
            parts = 10**6 * self.host.period_us
            cpus = Fraction(math.ceil(cpus * parts), parts)
        try:
            return self.library.demand(self.host, cpus.numerator, cpus.denominator)
        except (OverflowError, Refused) as error:
            if isinstance(error, Refused) and error.number != TOO_LARGE:
                raise HostFault(f"{cpus} CPUs: error {error}") from error
            return MAX_DEMAND


def thousandths_of_slices(slices: int, period: int, slice_usec: int) -> Fraction:
    """Thousandths of a CPU that slices of one period are, exactly."""
    return Fraction(slices * slice_usec * 1000, period)


def thousandths_of_usage(usec: int, seconds: Fraction) -> Fraction:
    """Thousandths of a CPU that microseconds used in some seconds are."""
    return Fraction(usec) / (seconds * 1000)


def one_of(unit: str, host: Host) -> Fraction:
    """The thousandths of a CPU that one of a unit of amounts is."""
    return {"cpu": Fraction(1000), "m": Fraction(1), "%": Fraction(10),
            "us": Fraction(1000, host.period_us),
            "slices": thousandths_of_slices(1, host.period_us, host.slice_us)}[unit]


def bounded_limit(quota: int, period: int) -> tuple[int, int]:
    """The quota and the period that are nearest to some and that the kernel takes."""
    return min(max(quota, MIN_QUOTA), MAX_QUOTA), min(max(period, MIN_PERIOD), MAX_PERIOD)


def bounded_weight(weight: int) -> int:
    """The weight that is nearest to one and that the kernel takes."""
    return min(max(weight, MIN_WEIGHT), MAX_WEIGHT)


def least_of(library: Library, formula: WeightFormula, weight: int) -> int | None:
    """The least number that a formula makes a weight of; None where there is none."""
    least = library.least_owned(formula, weight)
    return least if library.owned_weight(formula, least) == weight else None


def decimal(value: Fraction, places: int = 3) -> str:
    """A fraction with at most so many decimals, without zeros behind."""
    text = f"{float(value):.{places}f}" if places else str(round(value))
    return text.rstrip("0").rstrip(".") if "." in text else text


def cpu_text(thousandths: Fraction) -> str:
    """An amount that `parse_cpu` reads back exactly, if it has a finite decimal; else a fraction
    rounded up to a billionth of a CPU."""
    if thousandths.denominator == 1:
        value = int(thousandths)
        return f"{value // 1000}cpu" if value % 1000 == 0 and value else f"{value}m"
    return f"{math.ceil(thousandths * 10**6)}n"
