"""Loads a model of any source, with the options of hosts.

The reader of a source is imported when one is read.
"""
from __future__ import annotations

import importlib
import os
from collections.abc import Sequence
from dataclasses import replace
from functools import partial

from arbiter import Library
from arbiter_host.base import demands, names, output, plain_files
from arbiter_host.base.faults import HostFault, RefusedLines, UsageFault
from arbiter_host.base.model import Model
from arbiter_host.sources.register import BLANK, MISTAKEN, NODE, READERS, SERVICE
from arbiter_host.sources.source_options import File, SourceOptions
from arbiter_host.sources.times import turns

KIND_OF_SERVICE = {"k8s": "kubernetes", "docker": "docker", "podman": "docker",
                   "systemd": "systemd"}
# A path and its bytes; None stands for a folder.
Opened = tuple[str, bytes | None]


def kind_of(path: str, data: bytes | None) -> str:
    """The kind of a source: by its name, else by its first bytes. No data stands for a folder."""
    if data is None:
        return "cgroup"
    if SERVICE.match(path):
        return KIND_OF_SERVICE[path.partition("://")[0]]
    name = path.lower()
    if name.endswith((".yaml", ".yml")):
        raise HostFault(f"{names.shown(path)}: YAML is not read: write TOML or JSON (of pods:"
                        " kubectl get pods -o json)")
    is_named = name.endswith((".toml", ".script"))
    begin = b"mkdir" if is_named else data[:80].lstrip(BLANK)
    for text, words in MISTAKEN:
        if text.match(begin):
            raise HostFault(f"{names.shown(path)}: {words}")
    return next((kind for kind, each in READERS.items()
                 if each.is_one(name, b"" if is_named else data)), "script")


def is_of_use(options: SourceOptions) -> bool:
    """Whether demands are taken from what was used, as they are where nothing is said."""
    return (options.want or "usage") in demands.OF_USE


def of_service(options: SourceOptions, word: str) -> list[Opened]:
    """The words of a service, as files. Units are asked again after a time, so that their use is
    known, unless it is not asked for."""
    from arbiter_host.sources.services import RunningService
    service = RunningService(word)
    is_once = (service.kind != "systemd" or options.has_settings_alone or not is_of_use(options)
               or options.uses is not None)
    times = options.times._replace(number=1) if is_once else options.times
    return [(word, service.source(options.node)) for _ in turns(times)]


def opened(options: SourceOptions, paths: Sequence[str]) -> list[Opened]:
    """The files of some paths, and what services tell."""
    return [file for path in paths for file in (
        of_service(options, path) if SERVICE.match(path) else
        [(path, None if os.path.isdir(path) else plain_files.file_bytes(path))])]


def may_be_many(options: SourceOptions, files: Sequence[Opened]) -> bool:
    """Whether files may be many hosts: a folder, or one file with several nodes. Of others nothing
    is loaded that is of many."""
    if options.kind == "cgroup":
        return False
    return any(data is None for _, data in files) or len(files) == 1 and has_nodes(files[0][1])


def has_nodes(data: bytes | None) -> bool:
    """Whether JSON has several nodes."""
    return data is not None and data.lstrip(BLANK)[:1] == b"{" and len(NODE.findall(data)) > 1


def kind_in(options: SourceOptions, files: Sequence[Opened]) -> str:
    """The kind of a source of some files: the one that is asked for, else the one that is found."""
    return options.kind or kind_of(*files[0])


def sources(options: SourceOptions, files: Sequence[Opened]) -> list[list[Opened]]:
    """The sources that some files are: those of one kind and several parts, side by side, are one.
    """
    groups: list[list[Opened]] = []
    before: list[tuple[str, str]] = []
    for file in files:
        kind, data = kind_in(options, [file]), file[1]
        part_of = READERS[kind].part
        part = part_of(data) if part_of and data is not None else ""
        if part and before and before[0][0] == kind and (kind, part) not in before:
            groups[-1].append(file)
            before.append((kind, part))
        else:
            groups.append([file])
            before = [(kind, part)] if part else []
    return groups


def load(options: SourceOptions, paths: Sequence[str], library: Library) -> Model:
    """The model of one source, which may be several files."""
    return model_of(options, opened(options, paths), library)


def check_read(options: SourceOptions, kind: str, count: int) -> None:
    """A fault where a source of so many files is read once, so that --read has no effect on it."""
    is_once = not is_of_use(options) if kind == "cgroup" else (
        kind == "systemd" and count == 1 and options.uses is None)
    if is_once and options.is_reread:
        raise UsageFault("--read: it has no effect on a source that is read once")


def model_of(options: SourceOptions, files: Sequence[Opened], library: Library) -> Model:
    """The model of one source whose files were read."""
    kind = kind_in(options, files)
    options.check_kind(kind)
    check_read(options, kind, len(files))
    named = [(names.shown(path), data) for path, data in files if data is not None]
    if kind == "cgroup":
        return finished(options, read_tree(options, [path for path, _ in files], library))
    if len(named) < len(files):
        raise HostFault(f"{names.shown(files[0][0])}: Is a directory")
    model = read_files(options, kind, named, library)
    # (a file that is none of the kinds was taken for a script)
    if options.kind is None and not options.is_strict and model.refused and not model.groups:
        raise HostFault(f"{named[0][0]}: no source that is known (--help names them): as a script"
                        f" it has {len(model.refused)} refused lines and no group, the first:"
                        f" {names.shown(names.cut(model.refused[0], 200))}")
    return model


def read_tree(options: SourceOptions, paths: Sequence[str], library: Library) -> Model:
    """A tree of cgroups, and later copies of it."""
    from arbiter_host.sources import cgroups
    want = options.want or "usage"
    if want == "request":
        raise UsageFault("--want request: cgroups have no requests")
    if options.times.number == 1 and len(paths) == 1 and want in demands.OF_USE:
        raise UsageFault(f"--want {want}: use is measured from one reading to the next: --read"
                         " 2x1s")
    return cgroups.read(paths, options.machine(library), options.times, want, library)


def read_files(options: SourceOptions, kind: str, files: Sequence[File],
               library: Library) -> Model:
    """The model of files of one kind, by the reader of the register."""
    reader = importlib.import_module(f"arbiter_host.sources.{READERS[kind].module}")
    if options.uses is not None:
        from arbiter_host.sources import used
        is_tree = used.is_tree(options.uses)
        if not (READERS[kind].is_measured or is_tree and READERS[kind].is_in_tree):
            raise UsageFault("--used belongs to pods and containers, of a tree to units too, and"
                             f" not to {kind}")
        used.check(options.uses)
        tree = options.uses.words[0] if is_tree else options.tree
        options = replace(options, tree=tree, measured=partial(used.measured, options.uses))
    model: Model = reader.read(files, library, options)
    return finished(options, model)


def finished(options: SourceOptions, model: Model) -> Model:
    """A model that was read, with the options that hold for every kind of source."""
    if model.owned is not None:
        model.owned = replace(model.owned, scales=options.scales)
    demands.scale(model, options.scales)
    if options.is_strict and model.refused:
        raise RefusedLines("\n".join(model.refused))
    return model


def of_bytes(options: SourceOptions, path: str, data: bytes, library: Library) -> Model:
    """The model of one file whose bytes were read before. Nothing of this machine is asked."""
    kind = kind_in(options, [(path, data)])
    if kind == "cgroup":
        raise HostFault(f"{names.shown(path)}: a file is no tree of cgroups: `export` writes one")
    if READERS[kind].is_here and options.cpus is None:
        raise HostFault(f"{names.shown(path)}: number of CPUs unknown: pass --cpus")
    return read_files(options, kind, [(names.shown(path), data)], library)


def warn(model: Model, source: str) -> None:
    """Prints the notes and the refused lines of a model on standard error."""
    for line in model.refused:
        output.say(line)
    output.warn(*(f"{source}: {note}" for note in model.notes))
