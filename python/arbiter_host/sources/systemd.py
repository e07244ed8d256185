"""Units, as `systemctl show '*.slice' '*.service' '*.scope'` prints them.

Groups stand where `ControlGroup` says. Without a second reading usage is not known.
"""
from __future__ import annotations

import functools
import re
from collections.abc import Iterator, Mapping, Sequence
from dataclasses import dataclass, field, replace
from fractions import Fraction

from arbiter import Host, Library, LimitFormula, WeightFormula
from arbiter_host.base import demands, names, units
from arbiter_host.base.demands import CounterReading, Measured, Place, Use, use_of
from arbiter_host.base.faults import HostFault, UsageFault
from arbiter_host.base.model import MAX_DEPTH, Group, Model, bind_to, check_settings, checked
from arbiter_host.base.names import shown
from arbiter_host.base.owned import NONE, Owned, Range, Setting
from arbiter_host.sources.measurable import Measurable
from arbiter_host.sources.source_options import File, SourceOptions

NOT_SET = ("", "[not set]", "infinity", "18446744073709551615")
# A quota of systemd is a number of hundredths of a percent of one CPU.
QUOTA = re.compile(r"([0-9]{1,9})(?:\.([0-9]{1,2}))?%")
# The properties that tell a group's settings.
SET = ("CPUWeight", "CPUShares", "CPUQuotaPerSecUSec", "CPUQuotaPeriodUSec", "AllowedCPUs")
# Greatest quota that systemd can write, in hundredths of a percent.
MOST_QUOTA = 10**9
# The properties of a unit by their names.
Properties = Mapping[str, str]
UNIT = re.compile(r"[A-Za-z0-9:_.\\@-]+\.(service|slice|scope)")


def unit_of(folder: str) -> str:
    """The unit of the system whose group a folder is by its path; empty where it is none. What is
    below a service is that service's, such as the units of a user's manager."""
    def is_slice(path: str) -> bool:
        return path.endswith(".slice") and names.slice_folder(path.rpartition("/")[2]) == path

    above, _, name = folder.rpartition("/")
    is_unit = all(map(UNIT.fullmatch, folder.split("/"))) and (not above or is_slice(above))
    return name if is_unit and (not name.endswith(".slice") or is_slice(folder)) else ""


def blocks(data: bytes) -> Iterator[dict[str, str]]:
    """The properties of each unit. Units are separated by an empty line."""
    unit: dict[str, str] = {}
    for line in [*data.decode("utf-8-sig", errors="replace").split("\n"), ""]:
        key, equals, value = line.rstrip("\r").partition("=")
        if equals and re.fullmatch(r"[A-Za-z]{1,60}", key):
            if key in ("Id", "ControlGroup") and key in unit:
                raise HostFault(f"units {shown(unit[key])} and {shown(value)}: no empty line is"
                                " between them, as `systemctl show` prints it")
            unit[key] = value
        elif not line.strip() and unit:
            yield unit
            unit = {}


def whole(value: str) -> int | None:
    """A whole number of a property; None where it is not set."""
    return None if value in NOT_SET else units.whole(value, 30)


def time_of(unit: Properties, key: str) -> int | None:
    """Microseconds of a property; None where it is not set."""
    value = unit.get(key, "")
    return None if value in NOT_SET else units.parse_time(value)


def set_limit(library: Library, group: Group, unit: Properties) -> None:
    """Sets quota and period as systemd writes them."""
    per_second, period = (time_of(unit, key) for key in ("CPUQuotaPerSecUSec",
                                                         "CPUQuotaPeriodUSec"))
    if per_second is not None:
        group.quota, group.period = library.owned_limit(LimitFormula.PER_SECOND, per_second,
                                                        period or 0)


def set_weight(library: Library, group: Group, unit: Properties, notes: list[str]) -> None:
    """Sets the weight. `idle` is the least. Without one systemd makes it of CPUShares."""
    word, shares = unit.get("CPUWeight", ""), whole(unit.get("CPUShares", ""))
    weight = 1 if word == "idle" else whole(word)
    if word in NOT_SET and shares is not None:
        weight = library.owned_weight(WeightFormula.UNIT_SHARES, shares)
        notes.append(f"{group.path}: CPUShares {shares}: weight {weight} is taken")
    if weight is not None:
        group.weight = library.owned_weight(WeightFormula.UNIT_WEIGHT, weight)
    if word == "idle":
        notes.append(f"{group.path}: idle: weight 1 is taken")
    elif weight is None and word not in NOT_SET:
        notes.append(f"{group.path}: CPUWeight {shown(word)!r}: 100 is taken")
    elif weight not in (None, group.weight):
        notes.append(f"{group.path}: CPUWeight {weight}: {group.weight} is taken")


def path_of(unit: Properties) -> str:
    """The path of a unit's group; empty where it has none, `.` for the root."""
    is_root = unit.get("Id") == "-.slice"
    return "." if is_root else names.path_of_folder(unit.get("ControlGroup", ""))


def add(library: Library, model: Model, unit: Properties, path: str) -> None:
    """Adds a unit's group."""
    group, title = model.make(path), unit.get("Description", "")
    group.place = unit.get("ControlGroup", "").strip("/")
    group.title = title if title != unit.get("Id", "") else ""
    set_weight(library, group, unit, model.notes)
    try:
        set_limit(library, group, unit)
    except HostFault as fault:
        model.notes.append(f"{path}: {shown(fault.message)}: no limit is taken")


def changed_unit(unit: Properties, setting: Setting) -> dict[str, str]:
    """The properties of a unit with another `CPUWeight=` or `CPUQuota=`."""
    word, is_none = setting.value, setting.value in NONE
    if setting.key == "CPUWeight":
        weight = units.whole(word) or 0
        if not (is_none or word == "idle" or units.MIN_WEIGHT <= weight <= units.MAX_WEIGHT):
            raise setting.fault(f"not {units.MIN_WEIGHT} to {units.MAX_WEIGHT}, or idle")
        return {**unit, "CPUWeight": "[not set]" if is_none else word}
    match = QUOTA.fullmatch(word)
    hundredths = int(match[1]) * 100 + int((match[2] or "").ljust(2, "0")) if match else 0
    if not is_none and not 1 <= hundredths <= MOST_QUOTA:
        raise setting.fault("not a percentage of one CPU as systemd takes it, such as 150%")
    per_second = "infinity" if is_none else f"{hundredths * units.SECOND // 10000}us"
    return {**unit, "CPUQuotaPerSecUSec": per_second}


def check(setting: Setting) -> None:
    """A fault where no unit takes a setting."""
    changed_unit({}, setting)


def percent(hundredths: Fraction) -> str:
    """Hundredths of a percent as systemd takes them."""
    return f"{units.decimal(hundredths / 100, 2)}%"


@dataclass(frozen=True)
class Units(Owned):
    """Units of systemd, as it prints them or in a tree of cgroups. `CPUWeight=` and `CPUQuota=` of
    them can be changed."""

    noun, keys = "unit", ("CPUWeight", "CPUQuota")
    # Seconds from one reading to the next.
    seconds: Fraction = field(default=Fraction(1), kw_only=True)
    library: Library = field(kw_only=True)

    @property
    def formula(self) -> WeightFormula:
        return WeightFormula.UNIT_WEIGHT

    def counters(self) -> Mapping[str, Measured]:
        """The readings of each group."""
        raise NotImplementedError

    def seen(self) -> dict[str, Use]:
        """The use of each unit without groups below it that used something."""
        model = self.plain
        below = model.children()
        uses = {path: use_of(model.groups[path], each, model.host, self.seconds)
                for path, each in self.counters().items() if self.has(path) and not below[path]}
        return {path: use for path, use in uses.items() if use and any(use.values)}

    def ranges(self, path: str) -> list[Range]:
        group, most = self.plain.groups[path], 10000 * self.plain.host.processors
        limit = None if group.quota is None else Fraction(10000 * group.quota, group.period)
        return [Range("CPUWeight", str(group.weight), [(units.MIN_WEIGHT, units.MAX_WEIGHT)], str,
                      f"{units.MAX_WEIGHT} is the greatest", group.weight),
                Range("CPUQuota", "-" if limit is None else percent(limit), [(1, most)],
                      lambda each: percent(Fraction(each)),
                      f"{percent(Fraction(most))} are all CPUs")]

    def words(self, path: str) -> tuple[str, str]:
        """The weight and the quota of its group."""
        weight, quota = Units.ranges(self, path)
        return weight.now, quota.now

    def written(self, request: int, limit: int | None) -> tuple[str, str | None]:
        """A weight of 100 for each CPU, and percents of one CPU."""
        return (str(self.library.owned_number(self.formula, request)),
                None if limit is None else percent(Fraction(10 * limit)))


@dataclass(frozen=True)
class UnitSource(Units, Measurable):
    """Units as they were printed, which may be measured in a tree of cgroups."""

    # The properties of each unit by its path, and those of each reading.
    properties: Mapping[str, Properties]
    readings: tuple[Mapping[str, Properties], ...]
    left_out: int = 0

    def counters(self) -> dict[str, Measured]:
        by_path = {}
        for place, (path, unit) in enumerate(self.properties.items()):
            used = [whole(each.get(path, {}).get("CPUUsageNSec", "")) for each in self.readings]
            by_path[path] = self.known.get((place, 0)) or Measured(
                [CounterReading(None if each is None else each // 1000) for each in used],
                tasks=whole(unit.get("TasksCurrent", "")))
        return by_path

    def folders_by(self, driver: str) -> dict[Place, str]:
        """Where each unit is, whatever names the groups of containers."""
        return {(place, 0): unit.get("ControlGroup", "").strip("/")
                for place, unit in enumerate(self.properties.values())}

    @functools.cached_property
    def built(self) -> tuple[Model, Mapping[str, Place]]:
        model = Model(checked(self.host), notes=list(self.notes), weighed="CPUWeight")
        # Each stands after those above it, siblings by name.
        for path in sorted(self.properties, key=lambda path: path.split("/")):
            add(self.library, model, self.properties[path], path)
        if self.left_out:
            model.notes.append(f"units without a group, left out: {self.left_out}")
        words = {path: self.properties.get(path, {}).get("AllowedCPUs") for path in model.groups}
        bind_to(model, {path: word.replace(" ", ",") for path, word in words.items() if word})
        demands.set_demands(model, self.counters(), self.options.want, self.seconds)
        demands.stop(model, [path for path in model.groups if self.properties.get(path, {}).get(
            "FreezerState") in ("frozen", "freezing")], "frozen")
        places = {path: (place, 0) for place, path in enumerate(self.properties)}
        self.follow_tree(model, places)
        return model, places

    def changed(self, settings: Sequence[Setting]) -> UnitSource:
        properties = dict(self.properties)
        for each in settings:
            properties[each.path] = changed_unit(properties[each.path], each)
        return replace(self, properties=properties)

    def ranges(self, path: str) -> list[Range]:
        """Those of its group, with the weight that was printed."""
        word = self.properties[path].get("CPUWeight", "")
        weight, quota = super().ranges(path)
        return [weight._replace(now="-" if word in NOT_SET else shown(word[:20])), quota]


@dataclass(frozen=True)
class TreeSource(Units):
    """A tree as it was read, and the settings of its units that were changed since. Which groups
    are units is said by their paths, as systemd places units."""

    tree: Model
    measured: Mapping[str, Measured]
    settings_since: tuple[Setting, ...] = ()

    def counters(self) -> Mapping[str, Measured]:
        return self.measured

    @functools.cached_property
    def plain(self) -> Model:
        after = self.tree.copy()
        for setting in self.settings_since:
            group = after.groups[setting.path]
            unit = changed_unit({"CPUQuotaPeriodUSec": f"{group.period}us"}, setting)
            if setting.key == "CPUWeight":
                group.weight = units.DEFAULT_WEIGHT
                set_weight(self.library, group, unit, after.notes)
            else:
                group.quota = None
                set_limit(self.library, group, unit)
            if group.quota is not None and group.burst > group.quota:
                raise setting.fault(f"below the burst {group.burst} that stands there")
            check_settings(group)
        return after

    def has(self, path: str) -> bool:
        folder = names.raw_path(path)
        return path in self.tree.groups and bool(folder and unit_of(folder))

    def on_host(self, host: Host) -> TreeSource:
        return replace(self, tree=self.tree.with_host(host))

    def changed(self, settings: Sequence[Setting]) -> TreeSource:
        for setting in settings:
            check(setting)
        return replace(self, settings_since=(*self.settings_since, *settings))


def units_in(data: bytes) -> dict[str, dict[str, str]]:
    """The units of a file by the paths of their groups. A fault where two of one differ in what is
    set."""
    found: dict[str, dict[str, str]] = {}
    for unit in blocks(data):
        other = found.setdefault(path_of(unit), unit)
        unlike = [key for key in SET if unit.get(key) != other.get(key)]
        if unlike and unit.get("ControlGroup"):
            raise HostFault(f"{shown(unit['ControlGroup'])}: two units of this group differ in"
                            f" {unlike[0]}")
        found[path_of(unit)] = unit
    return found


def read(files: Sequence[File], library: Library, options: SourceOptions) -> Model:
    """The model of one file, or of several that were printed some seconds apart."""
    readings = [units_in(data) for _, data in files]
    if not any("Id" in unit for unit in readings[0].values()):
        raise HostFault(f"{files[0][0]}: no units as `systemctl show '*.slice' '*.service'"
                        " '*.scope'` prints them")
    properties = {path: unit for path, unit in readings[0].items()
                  if path not in ("", ".") and path.count("/") < MAX_DEPTH}
    if options.measured and len(files) > 1:
        raise UsageFault("--used: units that were printed twice have what they used themselves")
    options = replace(options, want=options.want or (
        "usage" if len(files) > 1 or options.measured else "busy"))
    left_out = sum(not path_of(unit) for unit in blocks(files[0][1])) if "" in readings[0] else 0
    source = UnitSource(options, options.machine(library), properties, tuple(readings),
                        left_out, seconds=options.times.interval, library=library)
    return (options.measured(source) if options.measured else source).model()
