"""The subcommands of arbiterctl, each in a module that is imported when it is asked for.

A new one is a module here: all that is said of it at its head, and `run`. Modules of another kind
have a name that begins with `_`.
"""
from __future__ import annotations

import argparse
import importlib
import os
from collections.abc import Callable
from typing import Any, NamedTuple

from arbiter_host import options as table

NAMES = {each.removesuffix(".py") for each in os.listdir(os.path.dirname(__file__))
         if each.endswith(".py") and not each.startswith("_")}


class Subcommand(NamedTuple):
    """One subcommand: what it does with its words, and its texts."""

    name: str
    run: Callable[[argparse.Namespace], None]
    # One line for the list of all.
    summary: str
    description: str
    # More paragraphs of its help and its man page.
    details: list[str]
    # Description of an example, and its command.
    examples: dict[str, str]
    argument: dict[str, Any]


def listed() -> list[str]:
    """The names of all in the order of the list."""
    return sorted(NAMES, key=lambda name: int(table.texts(name)["order"]))


def find(name: str) -> Subcommand:
    """The subcommand of a name. Its function is `run` of its module."""
    module, texts = importlib.import_module(f"{__name__}.{name}"), table.texts(name)
    return Subcommand(name, module.run, *(texts[key] for key in Subcommand._fields[2:]))


def every() -> tuple[Subcommand, ...]:
    """All subcommands in order."""
    return tuple(map(find, listed()))
