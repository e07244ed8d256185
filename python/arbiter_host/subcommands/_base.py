"""The steps that several subcommands share."""
from __future__ import annotations

import argparse
from collections.abc import Callable, Sequence
from dataclasses import replace
from typing import Any

from arbiter_host import options as table
from arbiter_host.answers import explain
from arbiter_host.answers.explain import View
from arbiter_host.base import names, text
from arbiter_host.base.faults import NothingFound, UsageFault
from arbiter_host.base.model import MAX_DEPTH, Model
from arbiter_host.base.output import write_forms
from arbiter_host.base.plan import Engine
from arbiter_host.base.tables import Forms
from arbiter_host.records import source_options
from arbiter_host.sources import load, selection
from arbiter_host.sources.load import Opened
from arbiter_host.sources.selection import Selection


def source_name(paths: Sequence[str]) -> str:
    """The name of a source, for messages."""
    return "standard input" if paths[0] == "-" else names.shown(paths[0])


def answer(options: argparse.Namespace, action: str,
           of_one: Callable[[argparse.Namespace, Sequence[Opened]], Forms], **more: Any) -> None:
    """Answers a question of one host, or of many, in the forms asked for."""
    outputs = table.outputs(options)
    source = source_options(options, **more)
    files = load.opened(source, options.source)
    if load.may_be_many(replace(source, uses=None), files):
        from arbiter_host.subcommands import _many as many  # (one host needs none)
        if many.answered(options, files, action):
            return
    write_forms(outputs, of_one(options, files))


def loaded(options: argparse.Namespace, files: Sequence[Opened], by: Engine,
           **more: Any) -> Model:
    """The source, after its notes were told."""
    model = load.model_of(source_options(options, **more), files, by.library)
    load.warn(model, source_name(options.source))
    return model


def chosen(options: argparse.Namespace, model: Model) -> frozenset[str] | None:
    """The groups that the options choose; None for all."""
    return selection.chosen(model, Selection(options.group, options.namespace, options.selector))


def chosen_of_each(options: argparse.Namespace, models: Sequence[Model | None]
                   ) -> list[frozenset[str] | None]:
    """The groups that are chosen of each model; none of one that is not asked, or where nothing
    fits. A fault where nothing fits in any."""
    groups, faults = list[frozenset[str] | None](), list[NothingFound]()
    for model in models:
        try:
            groups.append(frozenset() if model is None else chosen(options, model))
        except NothingFound as fault:
            faults.append(fault)
            groups.append(frozenset())
    if len(faults) == len(models):
        raise faults[0]
    return groups


def view_of(options: argparse.Namespace, paths: frozenset[str] | None = None) -> View:
    """The view that the options ask for, of the groups that are chosen."""
    states = tuple(each for each in (options.state or "").split(",") if each)
    for each in states:
        if each not in explain.ONLY:
            raise UsageFault(f"--state {names.shown(each)}: {', '.join(explain.ONLY)}")
    if not 0 <= options.depth <= MAX_DEPTH:
        raise UsageFault(f"--depth: 0 to {MAX_DEPTH}")
    return View(states, options.sort or "", options.depth, options.unit, text.terminal_width(),
                options.everything, paths)
