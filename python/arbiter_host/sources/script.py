"""Scripts of the program: reads one as the program answers it, and writes one for a model.

The C library reads it. The head line, and what comments say of groups, are read here: they are
comments to the program.
"""
from __future__ import annotations

import re
from collections.abc import Sequence
from dataclasses import replace

from arbiter import Host, Library, Script
from arbiter.c import NO_LIMIT
from arbiter_host.base import names, units
from arbiter_host.base.faults import HostFault
from arbiter_host.base.model import MAX_PROCESSORS, Group, Model, checked
from arbiter_host.base.plan import asking
from arbiter_host.base.units import Slices
from arbiter_host.sources.source_options import File, SourceOptions, only

HEAD = re.compile(r"^#\s*(?:\./)?arbiter run((?:\s+--[a-z]+[ =][0-9]{1,9})+)\s*(?:<.*)?$")
# Lines above which a comment may speak of a group.
NOTED = re.compile(rb"[ \t]*(?:mkdir|rmdir|demand)[ \t]")
# Above a `mkdir` stands `# at FOLDER`, where the path does not say the group's place.
# Above a `demand`: the tasks that bound it, and what is asked where they cut it.
TASKS = re.compile(r"# tasks ([0-9]{1,9})(?:, asks ([0-9]{1,30}[a-z]{0,3}))?")
OPTION = re.compile(r"--([a-z]+)[ =]([0-9]+)")
FIELDS = {"processors": "processors", "period": "period_us", "slice": "slice_us"}
# Most lines that are refused, one by one.
MAX_REFUSED = 100000
# Ranges that are said behind the names of faults, by their numbers.
RANGES = {
    9: "0 to 1000000 slices", 12: "1 to 10000", 13: "1000 to 10^15 microseconds",
    14: "at most 10^15 microseconds", 15: "1000 to 1000000 microseconds", 27: "16384 groups",
    82: "65536 bytes",
}


def head_line(host: Host) -> str:
    """The first line of a script for a host."""
    return (f"# arbiter run --processors {host.processors} --period {host.period_us}"
            f" --slice {host.slice_us}")


def head_host(lines: list[bytes]) -> Host | None:
    """The host of the first head line among the comments at the beginning."""
    for line in lines:
        text = line.decode(errors="replace").strip()
        if text and not text.startswith("#"):
            return None
        match = HEAD.match(text)
        if match:
            return replace(Host(), **{FIELDS[name]: int(value) for name, value in
                                      OPTION.findall(match[1]) if name in FIELDS})
    return None


def take_demand(group: Group, demand: int, comment: str, slices: Slices) -> None:
    """Takes a demand in slices, and what the comment above it says of tasks, unless that is of
    another demand."""
    group.demand = units.thousandths_of_slices(demand, slices.host.period_us, slices.host.slice_us)
    match = TASKS.fullmatch(comment)
    if match:
        asks = units.parse_cpu(match[2]) if match[2] else group.demand
        told = replace(group, tasks=int(match[1]), demand=asks)
        if slices.demand(told.usable) == slices.demand(group.usable):
            group.tasks, group.demand = told.tasks, told.demand


def take_comments(model: Model, lines: list[bytes], refused: set[int], slices: Slices) -> None:
    """Takes what the comments say of the groups: their places, tasks and what they ask for."""
    groups: dict[str, Group] = {}
    for number, (above, line) in enumerate(zip([b"", *lines], lines), 1):
        if number in refused or not NOTED.match(line):
            continue
        comment = above.decode(errors="replace")
        verb, path, *amount = re.split("[ \t]+", line.decode().strip(" \t"))
        if verb == "demand":
            take_demand(groups[path], int(amount[0]), comment, slices)
        elif verb == "rmdir":
            del groups[path]
        else:
            path = path.removeprefix("./")
            is_placed = comment.startswith("# at ")
            groups[path] = Group(path, place=names.place_of(comment[5:]) if is_placed else "")
    for path, group in groups.items():
        taken = model.groups[path]
        taken.place, taken.tasks, taken.demand = group.place, group.tasks, group.demand


def add_groups(model: Model, script: Script, slices: Slices) -> None:
    """Adds the groups of a script, and takes what the library has converted for them."""
    host, tree, demands = model.host, script.columns, {}
    for demand in set(tree.demands):
        demands[demand] = units.thousandths_of_slices(demand, host.period_us, host.slice_us)
        slices.demands[demands[demand].as_integer_ratio()] = demand
    paths: list[str] = []
    for (parent, name, weight, limit, demand, quota, period, burst, carry) in zip(
            tree.parents, script.names, tree.weights, tree.limits, tree.demands, script.quotas,
            script.periods, script.bursts, script.carries):
        paths.append(f"{paths[parent]}/{name}" if paths and parent else name)
        group = Group(paths[-1], weight, None if quota == NO_LIMIT else quota, period, burst,
                      demands[demand], None, carry)
        slices.limits[group.bandwidth] = None if limit == NO_LIMIT else limit
        model.groups[paths[-1]] = group
    del model.groups[""]


def asked_of(library: Library, host: Host, data: bytes) -> Script:
    """The library's reading of a script. On more than 64 CPUs it is asked for 64: that decides
    only what a `period` leaves over."""
    with asking("the script"):
        of_host = replace(host, processors=min(host.processors, MAX_PROCESSORS))
        script = library.script(of_host, data)
    if host.processors > MAX_PROCESSORS and any(map(min, script.bursts, script.carries)):
        raise HostFault(f"{host.processors} CPUs: a script with bursts and `period` lines is read"
                        f" for at most {MAX_PROCESSORS}")
    return script


def script_lines(data: bytes) -> list[bytes]:
    """The lines of a script without their newlines."""
    lines = data.split(b"\n")
    return lines[:-1] if lines[-1] == b"" else lines


def read(files: Sequence[File], library: Library, options: SourceOptions) -> Model:
    """The model at the end of a script, with what is asked for in place of what it tells."""
    name, data = only(files, "script")
    told = head_host(script_lines(data))
    of = told or Host()
    host = (options.host(library, of.processors, of.period_us, of.slice_us)
            if options.names_host else None)
    return options.with_demands(model_of(data, name, library, host), "script")


def model_of(data: bytes, name: str, library: Library, host: Host | None = None) -> Model:
    """The model at the end of a script. `host` stands in place of that of the head line."""
    lines = script_lines(data)
    told = head_host(lines)
    model = Model(host or told or Host(), names_host=told is not None,
                  asked="of the script", weighed="of the script")
    checked(model.host)
    if told is None and host is None:
        model.notes.append("no head line '# arbiter run --processors N --period U --slice U': 1 CPU"
                           " and slices of 5 ms are assumed (--cpus, --slice)")
    elif told is not None and host is not None and host != told:
        model.notes.append(f"the options differ from its head line: {head_line(told)[2:]}")
    if lines and all(line.endswith(b"\r") for line in lines):
        model.notes.append("its lines end with carriage returns, which are parts of words here:"
                           " write newlines alone")
    script = asked_of(library, model.host, data)
    if len(script.refused) > MAX_REFUSED:
        raise HostFault(f"{name}:{script.refused[MAX_REFUSED][0]}: more than {MAX_REFUSED} refused"
                        " lines: this is no script")
    model.slices = Slices(library, model.host)
    add_groups(model, script, model.slices)
    if b"# tasks" in data or b"# at " in data:
        take_comments(model, lines, {number for number, _ in script.refused}, model.slices)
    for number, fault in script.refused:
        text = names.shown(names.cut(lines[number - 1][:400].decode(errors="replace"), 120))
        within = f" ({RANGES[fault]})" if fault in RANGES else ""
        words = f"error {fault} {library.name(fault)}{within}"
        model.refused.append(f"{name}:{number}: {words}: {text}")
    return model


def made(group: Group) -> list[str]:
    """The lines that make one group, with comments of what a script has no command for. The burst
    stands after the quota that bounds it."""
    path, is_below = group.path, not group.place.startswith("/")
    lines = [f"# {names.shown(path)} is {names.shown(group.title)}"] if group.title else []
    if is_below and group.place not in ("", names.raw_path(path)):
        lines.append(f"# at {names.place_text(group.place)}")
    lines.append(f"mkdir {path}")
    if group.weight != units.DEFAULT_WEIGHT:
        lines.append(f"write {path} cpu.weight {group.weight}")
    if group.quota is not None or group.period != units.DEFAULT_PERIOD:
        lines.append(f"write {path} cpu.max {group.max_words}")
    if group.burst:
        lines.append(f"write {path} cpu.max.burst {group.burst}")
    return lines


def demanded(group: Group, slices: int) -> list[str]:
    """The lines of a group's demand, with its tasks in a comment."""
    if slices == 0:
        return []
    asks = f", asks {units.cpu_text(group.demand)}" if group.usable < group.demand else ""
    tasks = [f"# tasks {group.tasks}{asks}"] if group.tasks is not None else []
    return [*tasks, f"demand {group.path} {slices}"]


def write(model: Model, library: Library) -> str:
    """A script that makes a model, with its host in the head line and its notes as comments."""
    slices = Slices(library, model.host)
    lines = [head_line(model.host), *(f"# ! {names.shown(note)}" for note in model.notes)]
    for group in model.groups.values():
        lines += made(group)
    for group in model.groups.values():
        lines += demanded(group, slices.demand(group.usable))
    return "".join(f"{line}\n" for line in lines)
