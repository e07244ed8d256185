"""The words of arbiterctl as its parser has them: subcommands, options, arguments, values."""
from __future__ import annotations

import argparse
from dataclasses import dataclass

from jinja2 import Environment

from arbiter_host import command
from arbiter_host import options as table
from arbiter_host.subcommands import Subcommand
from arbiter_pages import shapes

ARGUMENTS = "Arguments"
# Names of values that are files or folders.
FILES = ("FILE", "DIR", "FILE|DIR|URL", "PATH", "SOURCE", "BEFORE [AFTER]")


@dataclass(frozen=True)
class Word:
    """An option or an argument: its names, the name of its value, the values, and its help."""

    names: tuple[str, ...]
    value: str
    values: tuple[str, ...]
    help: str
    is_many: bool = False
    is_needed: bool = False

    @property
    def is_file(self) -> bool:
        return self.value in FILES

    @property
    def takes_value(self) -> bool:
        return bool(self.value or self.values)


HELP = Word(("-h", "--help"), "", (), "print help")


def argument_of(action: argparse.Action) -> Word:
    value = action.metavar if isinstance(action.metavar, str) else action.dest.upper()
    return Word((), value, (), (action.help or "").replace("%%", "%"), action.nargs in ("+", "*"),
                action.nargs not in ("?", "*"))


def sections(each: Subcommand) -> dict[str, list[Word]]:
    """The words of a subcommand by the titles of its help, without that for help itself."""
    titles: dict[str, list[Word]] = {}
    for action in command.parser_of(each)._actions:  # no public name has them
        if not action.option_strings:
            titles.setdefault(ARGUMENTS, []).append(argument_of(action))
    for option in table.of(each.name):
        titles.setdefault(option.title.capitalize(), []).append(Word(
            option.flags, option.metavar, option.choices, option.help, option.is_many))
    return titles


def arguments(each: Subcommand) -> list[Word]:
    """The arguments of a subcommand."""
    return [word for part in sections(each).values() for word in part if not word.names]


def options(each: Subcommand) -> list[Word]:
    """The options of a subcommand, help among them."""
    return [*(word for part in sections(each).values() for word in part if word.names), HELP]


def environment() -> Environment:
    """The renderer of this package's templates, with the questions to a subcommand."""
    made = shapes.environment()
    made.filters |= {"sections": sections, "arguments": arguments, "options": options}
    return made
