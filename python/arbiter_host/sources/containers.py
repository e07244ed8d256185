"""Containers, as `docker inspect` and `podman inspect` print them."""
from __future__ import annotations

import functools
from collections import Counter
from collections.abc import Mapping, Sequence
from dataclasses import dataclass, replace
from fractions import Fraction
from typing import Any

from arbiter import Host, Library, LimitFormula, WeightFormula
from arbiter_host.base import demands, names, units
from arbiter_host.base.demands import Measured, Place
from arbiter_host.base.faults import HostFault
from arbiter_host.base.model import MAX_CAPACITY, Group, Model, bind_to, check_count, checked
from arbiter_host.base.owned import NONE, Range, Setting
from arbiter_host.sources.data import field, flat, loads, number, table, text_field
from arbiter_host.sources.measurable import Measurable
from arbiter_host.sources.source_options import File, SourceOptions
from arbiter_host.sources.usage import Used

NANO = 10**9
# What the labels of compose begin with.
COMPOSE = "com.docker.compose."
# docker takes no fewer CPUs, in thousandths.
LEAST_CPUS = 10
# The settings of a container that are read.
NUMBERS = ("CpuShares", "NanoCpus", "CpuQuota", "CpuPeriod")
# Settings that are none of a group's weight or limit here: of Windows, and of real-time tasks.
OTHERS = ("CpuCount", "CpuPercent", "CpuRealtimeRuntime")
# Letters of an identifier that docker prints.
SHORT_ID = 12
# A container as it was printed.
Inspected = dict[str, Any]


def is_podman(container: Inspected) -> bool:
    """Whether podman printed a container: it has keys that docker does not."""
    return any(key in container for key in ("OCIRuntime", "ConmonPidFile", "IsInfra"))


def place_of(container: Inspected, driver: str) -> tuple[str, str]:
    """The folder in which a container's group stands, and the name of the group.

    Podman tells both of a container that runs. crun makes the group `container` in it on cgroup v2;
    the settings are those of the folder.
    """
    identifier, is_docker = text_field(container, "Id"), not is_podman(container)
    told = text_field(container, "State", "CgroupPath").strip("/").removesuffix("/container")
    above, _, last = told.rpartition("/")
    if above and identifier and identifier in last:
        return above, last
    name = f"{'docker' if is_docker else 'libpod'}-{identifier}.scope"
    parent = text_field(container, "HostConfig", "CgroupParent").strip("/")
    if parent.endswith(".slice") and "/" not in parent and driver == "systemd":
        parent = names.slice_folder(parent)
    default = "machine.slice"
    if is_docker:
        default = "system.slice" if driver == "systemd" else "docker"
    return parent or default, identifier if is_docker and driver == "cgroupfs" else name


def set_limit(library: Library, group: Group, config: Inspected, notes: list[str]) -> None:
    """Sets quota and period: NanoCpus, else CpuQuota of CpuPeriod."""
    for key in NUMBERS:
        value = config.get(key)
        if value is not None and (isinstance(value, bool) or not isinstance(value, int)):
            word = names.shown(names.cut(str(value), 40))
            raise HostFault(f"{names.shown(group.path)}: {key} {word!r} is no whole number")
    others = [f"{key} {number(config, key)}" for key in OTHERS if number(config, key)]
    if others:
        notes.append(f"{group.path}: {', '.join(others)}: left out")
    nano, quota = number(config, "NanoCpus"), number(config, "CpuQuota")
    period = number(config, "CpuPeriod") or units.DEFAULT_PERIOD
    if nano > 0:
        group.quota, group.period = library.owned_limit(LimitFormula.NANO_CPUS, nano)
        if group.quota is not None and nano * 1000 < LEAST_CPUS * NANO:
            notes.append(f"{group.path}: NanoCpus {nano}: {group.quota} of {group.period} is taken")
        return
    if quota <= 0:
        return
    group.quota, group.period = library.owned_limit(LimitFormula.QUOTA, quota, max(period, 1))
    if (group.quota, group.period) != (quota, period):
        notes.append(f"{group.path}: quota {quota} of {period}: {group.quota} of {group.period} is"
                     " taken")


def parent_path(model: Model, folder: str) -> str:
    """The path of a folder, which is made where it is not there."""
    path = names.path_of_folder(folder)
    if path:
        model.make(path).place = folder
    return path or "."


def service_of(container: Inspected) -> tuple[str, str]:
    """The project and the service that compose's labels of a container name; empty for none."""
    project, service = (text_field(container, "Config", "Labels", f"{COMPOSE}{key}")
                        for key in ("project", "service"))
    return project, service


def is_running(container: Inspected) -> bool:
    """Whether a container has a group: its state does not say that it ended."""
    return field(container, "State", "Running") is not False


def config_with(container: Inspected, setting: Setting, host: Host) -> Inspected:
    """The HostConfig of a container with `--cpus` or `--cpu-shares` as docker takes them."""
    config = table(container, "HostConfig")
    if setting.key == "cpus":
        return {**config, "NanoCpus": nano_of(setting, host), "CpuQuota": 0, "CpuPeriod": 0}
    shares = 0 if setting.value in NONE else units.whole(setting.value)
    if shares != 0 and not units.MIN_SHARES <= (shares or 0) <= units.MAX_SHARES:
        raise setting.fault(f"not {units.MIN_SHARES} to {units.MAX_SHARES}, or 0 for the default")
    return {**config, "CpuShares": shares}


def nano_of(setting: Setting, host: Host) -> int:
    """The billionths of a CPU of `--cpus`; 0 for no limit."""
    thousandths = setting.cpu() or Fraction(0)
    nano = thousandths * (NANO // 1000)
    if nano and not LEAST_CPUS <= thousandths <= 1000 * host.processors or nano.denominator != 1:
        raise setting.fault(f"docker takes 0.01 to {host.processors} CPUs in whole billionths, and"
                            " 0 for no limit")
    return int(nano)


def check(setting: Setting) -> None:
    """A fault where no container takes a setting on any host."""
    config_with({}, setting, Host(MAX_CAPACITY))


def cpus_text(thousandths: Fraction) -> str:
    """CPUs as docker takes them."""
    return units.decimal(thousandths / 1000)


@dataclass(frozen=True)
class ContainerSource(Measurable):
    """Containers as they were read. `--cpus` and `--cpu-shares` of them can be changed."""

    running: tuple[Inspected, ...]

    keys = ("cpu-shares", "cpus")
    conversions = (("linear", "linear"), ("linear", "log"))

    @property
    def formula(self) -> WeightFormula:
        """That of shares."""
        return units.OF_SHARES[self.options.runtime]

    @functools.cached_property
    def built(self) -> tuple[Model, Mapping[str, Place]]:
        model = Model(checked(self.host), notes=list(self.notes),
                      weighed=f"of shares ({self.options.runtime})")
        check_count(len(self.running), f"{len(self.running)} containers")
        # Folders come first, so that no container's name takes the path of one.
        for each in self.running:
            parent_path(model, place_of(each, self.options.driver)[0])
        paths = [self.add(model, each) for each in self.running]
        words = [text_field(each, "HostConfig", "CpusetCpus") for each in self.running]
        bind_to(model, {path: word for path, word in zip(paths, words) if word})
        want, places = self.options.want, {path: (at, 0) for at, path in enumerate(paths)}
        if want == "request" or want in demands.OF_USE and not self.known:
            raise HostFault(f"--want {want} needs --used: containers have limit and busy", 2)
        measured = {path: Measured() for path in model.groups}
        measured |= {path: self.known.get(place, Measured()) for path, place in places.items()}
        demands.set_demands(model, measured, want, self.seconds)
        for state in ("Paused", "Restarting"):
            word = state.lower()
            demands.stop(model, [path for path, each in zip(paths, self.running)
                                 if field(each, "State", state) is True
                                 or text_field(each, "State", "Status") == word], word)
        self.follow_tree(model, places)
        return model, places

    def add(self, model: Model, container: Inspected) -> str:
        """Adds a container's group, and returns its path."""
        folder, scope = place_of(container, self.options.driver)
        parent = parent_path(model, folder)
        raw = text_field(container, "Name").strip("/") or text_field(container, "Id") or "unnamed"
        name = names.path_name(raw, model.groups, parent)
        group = model.add(Group(names.joined(parent, name), place=f"{folder}/{scope}",
                                title=text_field(container, "Config", "Image")))
        config = table(container, "HostConfig")
        shares = number(config, "CpuShares")
        if shares > 0:
            group.weight = self.library.owned_weight(self.formula, shares)
        set_limit(self.library, group, config, model.notes)
        return group.path

    def written(self, request: int, limit: int | None) -> tuple[str, str | None]:
        """Shares, and CPUs up to those of the host."""
        most = 1000 * self.host.processors
        return (str(self.library.owned_number(self.formula, request)),
                None if limit is None else cpus_text(Fraction(min(limit, most))))

    def folders_by(self, driver: str) -> dict[Place, str]:
        return {(at, 0): "/".join(place_of(each, driver)) for at, each in enumerate(self.running)
                if text_field(each, "Id")}

    def owner(self, path: str) -> str:
        """The service of compose of which it is one of several containers, else itself."""
        project, service = service_of(self.running[self.built[1][path][0]])
        return f"service {project}/{service}" if project and service else path

    def places_of(self, entry: Used) -> Sequence[Place]:
        """The container of an identifier, else of a name."""
        by_id, by_name = self.by_word
        place = by_id.get(entry.identifier[:SHORT_ID]) if entry.identifier else None
        place = by_name.get(entry.container) if place is None else place
        return [] if place is None else [(place, 0)]

    @functools.cached_property
    def by_word(self) -> tuple[dict[str, int], dict[str, int]]:
        """The containers by their identifiers, as docker prints them, and by their names."""
        return ({text_field(each, "Id")[:SHORT_ID]: at for at, each in enumerate(self.running)},
                {text_field(each, "Name").strip("/"): at for at, each in enumerate(self.running)})

    def changed(self, settings: Sequence[Setting]) -> ContainerSource:
        running = list(self.running)
        for setting in settings:
            place = self.built[1][setting.path][0]
            running[place] = {**running[place],
                              "HostConfig": config_with(running[place], setting, self.host)}
        return replace(self, running=tuple(running))

    def ranges(self, path: str) -> list[Range]:
        model, places = self.built
        group = model.groups[path]
        shares = number(self.running[places[path][0]], "HostConfig", "CpuShares")
        cpus = "-" if group.quota is None else cpus_text(Fraction(1000 * group.quota, group.period))
        return [Range("cpu-shares", str(shares) if shares > 0 else "-",
                      [(units.MIN_SHARES, units.MAX_SHARES)], str,
                      f"{units.MAX_SHARES} are the most", shares if shares > 0 else None),
                Range("cpus", cpus, [(LEAST_CPUS, 1000 * self.host.processors)],
                      lambda each: cpus_text(Fraction(each)), f"{self.host.processors} are all")]


def read(files: Sequence[File], library: Library, options: SourceOptions) -> Model:
    """The model of the containers of some files."""
    raw: list[Inspected] = []
    for name, data in files:
        entries = flat(loads(data, name))
        if not all(isinstance(field(each, "HostConfig"), dict) for each in entries):
            raise HostFault(f"{name}: no containers as `docker inspect` prints them")
        raw += entries
    running, options = tuple(filter(is_running, raw)), options.for_containers("limit", "docker")
    # several may have one name, but no two have one identifier
    many = Counter(filter(None, (text_field(each, "Id") for each in running)))
    for word, count in many.items():
        if count > 1:
            raise HostFault(f"{names.shown(word)}: {count} containers of this identifier: is a file"
                            " given twice?")
    left, in_pods = len(raw) - len(running), sum(bool(text_field(each, "Pod")) for each in running)
    source = ContainerSource(library, options, options.machine(library), running, notes=(
        *([f"containers that do not run, left out: {left}"] if left else []),
        *([f"containers of pods of podman: {in_pods}: limits and weights of the pods themselves are"
           " not told here"] if in_pods else [])))
    return (options.measured(source) if options.measured else source).model()
