"""Host files in TOML or JSON: reads one, whose faults name table and key, and writes one.

    [host]
    cpus = 16

    [groups."system.slice/web.service"]
    weight = 200
    max = "2cpu"
    demand = "1.5cpu"
"""
from __future__ import annotations

import functools
import itertools
import json
import re
import tomllib
from collections.abc import Callable, Mapping, Sequence
from fractions import Fraction
from typing import Any

from arbiter import Host, Library
from arbiter_host.base import names, units
from arbiter_host.base.faults import HostFault, naming
from arbiter_host.base.model import Group, Model, check_count, check_settings
from arbiter_host.base.output import json_text
from arbiter_host.sources.data import decoded, why_not
from arbiter_host.sources.register import is_json
from arbiter_host.sources.source_options import File, SourceOptions, only

# Most bytes of a host file. Tables of TOML take up to 130 times their text in memory.
MAX_BYTES = 8 << 20
# Most of the sum over the lines of TOML of the squares of their dots: a name of n parts takes n^2.
MAX_DOTS = 10**9


def parsed(text: str, name: str, is_toml: bool) -> Any:
    """The data of a file. Names of TOML with more parts than can be read in time are refused."""
    dots = itertools.accumulate(line.count(".") ** 2 for line in text.split("\n"))
    number = next((at for at, total in enumerate(dots, 1) if total > MAX_DOTS), 0)
    if is_toml and number:
        raise HostFault(f"{name}:{number}: too many names with dots")
    try:
        return tomllib.loads(text) if is_toml else json.loads(text)
    except tomllib.TOMLDecodeError as error:
        match = re.search(r"\(at line (\d+)", str(error))
        line = match[1] if match else str(text.count("\n") + 1)
        raise HostFault(f"{name}:{line}: {re.sub(r' .at .*', '', str(error))}") from error
    except json.JSONDecodeError as error:
        raise HostFault(f"{name}:{error.lineno}: {why_not(error)}") from error
    except (RecursionError, ValueError, TypeError, OverflowError) as error:
        kind = "TOML" if is_toml else "JSON"
        raise HostFault(f"{name}:1: cannot be read as {kind}: {names.shown(str(error))}") from error


def text_of(value: Any) -> str:
    """A short text of a value. Lists and tables are named alone: they may hold themselves."""
    if isinstance(value, (list, tuple, set, dict)):
        return "a table" if isinstance(value, dict) else "a list"
    return names.cut(names.shown(repr(value)), 60)


def whole(value: Any) -> int:
    """A whole number."""
    if isinstance(value, bool) or not isinstance(value, int):
        raise HostFault(f"{text_of(value)} is no whole number")
    return value


def cpu(value: Any) -> Fraction:
    """A CPU amount: text with a unit, or a number of CPUs."""
    if isinstance(value, (int, float)) and not isinstance(value, bool):
        value = repr(value)
    if not isinstance(value, str):
        raise HostFault(f"{text_of(value)} is no amount of CPU: write 250m, 1.5cpu or 40%")
    return units.parse_cpu(value)


def time(value: Any) -> int:
    """A time: text with a unit, or a number of microseconds."""
    return units.parse_time(value) if isinstance(value, str) else whole(value)


def text(value: Any) -> str:
    """A text."""
    if not isinstance(value, str):
        raise HostFault(f"{text_of(value)} is no text")
    return value


# The keys of `host` with the fields that they set, and those of a group, with what reads a value.
HOST_KEYS = {"cpus": "processors", "period": "period_us", "slice": "slice_us"}
GROUP_KEYS: dict[str, Callable[[Any], Any]] = {
    "weight": whole, "max": cpu, "period": time, "burst": time, "demand": cpu, "tasks": whole,
    "title": text, "place": lambda value: names.place_of(text(value))}


def set_max(group: Group, value: Any) -> None:
    """Sets a limit: a CPU amount of its period, `max`, or the two words of `cpu.max`."""
    words = re.fullmatch(r"\s*([0-9]{1,18}|max)\s+([0-9]{1,9})\s*",
                         value if isinstance(value, str) else "")
    if words:
        group.quota = None if words[1] == "max" else int(words[1])
        group.period = int(words[2])
    elif value is None or value == "max":
        group.quota = None
    else:
        exact = cpu(value) * group.period / 1000
        if exact == 0:
            raise HostFault(f'{text_of(value)} would stop it: "max" is no limit')
        if exact.denominator != 1:
            raise HostFault(f"{text_of(value)} is no whole number of microseconds in a period of"
                            f" {group.period}")
        group.quota = int(exact)


def set_key(group: Group, key: str, value: Any) -> None:
    """Sets one key of a group."""
    if key == "max":
        set_max(group, value)
    else:
        setattr(group, key, GROUP_KEYS[key](value))


def take_keys(entry: Any, known: Mapping[str, Any], what: str,
              take: Callable[[str, Any], None]) -> None:
    """Takes the keys of a table, the period first. A fault for one that it does not have."""
    if not isinstance(entry, dict):
        raise HostFault(what)
    # (a limit may be a CPU amount of the period)
    for key in sorted(entry, key="period".__ne__):
        if key not in known:
            raise HostFault(f"no key {text_of(key)}: {', '.join(known)}")
        with naming(key):
            take(key, entry[key])


def read_group(path: str, entry: Any) -> Group:
    """One group of a file."""
    group = Group(checked_path(path))
    take_keys(entry, GROUP_KEYS, "a group is a table of keys", functools.partial(set_key, group))
    check_settings(group)
    return group


def beyond(path: str, entry: Any, host: Host) -> list[str]:
    """Notes of amounts without a unit that are more CPUs than the host has: thousandths, maybe."""
    words = {key: str(entry[key]) for key in ("demand", "max") if key in (entry or ())}
    return [f"{path}: {key} {names.shown(word)}: that many CPUs, of which the host has"
            f" {host.processors} (thousandths are {names.shown(word)}m)"
            for key, word in words.items() if re.fullmatch(r"[0-9]{1,12}(\.[0-9]{1,12})?", word)
            and Fraction(word) > host.processors]


def checked_path(path: str) -> str:
    """A path that a script can hold."""
    for name in path.split("/"):
        if name in ("", ".", "..") or re.search(r"[ \t\n\0]", name):
            raise HostFault("a path is names joined by /, without blanks")
        # (half a pair of surrogates, which JSON can hold, has no bytes)
        is_text = name.encode(errors="replace").decode() == name
        if not is_text or len(name.encode()) > names.MAX_NAME:
            raise HostFault("a name is 1 to 255 bytes of UTF-8")
    return path


def read_host(entry: Any, library: Library, options: SourceOptions) -> Host:
    """The table `host`, with what is asked for in its place."""
    numbers: dict[str, int] = {}

    def take(key: str, value: Any) -> None:
        numbers[HOST_KEYS[key]] = whole(value) if key == "cpus" else time(value)

    take_keys(entry, HOST_KEYS, "host is a table", take)
    return options.host(library, numbers.get("processors", 1), numbers.get("period_us"),
                        numbers.get("slice_us"))


def tables_in(entry: Any) -> tuple[Any, dict[str, Any]]:
    """The tables `host` and `groups` of a file."""
    if not isinstance(entry, dict):
        raise HostFault("a host file is a table with host and groups, and a container of `docker"
                        " inspect` has HostConfig: this has neither")
    unknown = next((key for key in entry if key not in ("host", "groups")), None)
    if unknown is not None:
        raise HostFault(
            "an object of Kubernetes, of which pods and nodes are read as JSON: kubectl get pods -o"
            " json" if "apiVersion" in entry else "a file of compose: docker inspect $(docker"
            " compose ps -q) prints its containers" if "services" in entry else
            f"no table {text_of(unknown)}: host, groups")
    groups = entry.get("groups") or {}
    if not isinstance(groups, dict):
        raise HostFault("groups is a table of paths")
    return entry.get("host", {}), groups


def model_of(data: bytes, name: str, is_toml: bool, library: Library,
             options: SourceOptions) -> Model:
    """The model of a host file, with what is asked for in place of its host."""
    entry = parsed(decoded(data, name, MAX_BYTES), name, is_toml)
    with naming(name):
        host, groups = tables_in(entry)
        with naming("host"):
            model = Model(read_host(host, library, options), names_host="host" in entry,
                          asked="of the host file", weighed="of the host file")
        check_count(len(groups), f"{len(groups)} groups")
        for path, each in groups.items():
            with naming(names.shown(path)):
                group = read_group(path, {} if each is None else each)
                if path in model.groups:
                    raise HostFault("a group stands before the groups below it")
                above = names.parent_path(path)
                if above != ".":
                    model.make(above)
                model.add(group)
                model.notes += beyond(names.shown(path), each, model.host)
        for path, below in model.children().items():
            if path != "." and below and model.groups[path].demand:
                raise HostFault(f"{names.shown(path)}: a group with children has no demand: give"
                                " the children theirs")
    return model


def read(files: Sequence[File], library: Library, options: SourceOptions) -> Model:
    """The model of a host file, with what is asked for in place of its host and its demands."""
    name, data = only(files, "host file")
    model = model_of(data, name, not is_json(data), library, options)
    return options.with_demands(model, "host file")


def group_data(group: Group) -> dict[str, Any]:
    """The keys of a group that are not the default."""
    has_max = group.quota is not None or group.period != units.DEFAULT_PERIOD
    keys = {
        "weight": group.weight if group.weight != units.DEFAULT_WEIGHT else None,
        "max": group.max_words if has_max else None,
        "burst": f"{group.burst}us" if group.burst else None,
        "demand": units.cpu_text(group.demand) if group.demand else None,
        "tasks": group.tasks,
        "title": group.title or None,
        "place": names.place_text(group.place) if group.place else None,
    }
    return {key: value for key, value in keys.items() if value is not None}


def data(model: Model) -> dict[str, Any]:
    """A model as the data of a host file."""
    host = model.host
    return {
        "host": {"cpus": host.processors, "period": f"{host.period_us}us",
                 "slice": f"{host.slice_us}us"},
        "groups": {path: group_data(group) for path, group in model.groups.items()},
    }


def toml_value(value: Any) -> str:
    """A whole number or a text in TOML."""
    return names.without_raw(json.dumps(value, ensure_ascii=False), names.escaped_in_toml)


def write_toml(model: Model) -> str:
    """A host file in TOML, with the notes as comments."""
    written = data(model)
    lines = [f"# ! {names.shown(note)}" for note in model.notes]
    tables = {"[host]": written["host"], **{f"\n[groups.{toml_value(path)}]": entry
                                            for path, entry in written["groups"].items()}}
    for head, entry in tables.items():
        lines += [head, *(f"{key} = {toml_value(value)}" for key, value in entry.items())]
    return "".join(f"{line}\n" for line in lines)


def write_json(model: Model) -> str:
    """A host file in JSON."""
    return json_text(data(model))
