"""Texts that the help, the man pages and the completions share, and how help is laid out."""
from __future__ import annotations

import argparse
import os
from collections.abc import Iterable, Mapping
from contextlib import suppress
from typing import Any

from arbiter_host import __version__
from arbiter_host.base.names import shown

ABOUT = ("Plans for the groups of a real host, each accepted by the proved check before it is"
         " shown.")
STATUSES = {
    0: "done",
    1: "a source, the library, the host or the output failed",
    2: "the words of the command line or the host were refused",
    3: "the C library is missing, or older than arbiterctl",
    4: "lines of a script were refused, under --strict",
    5: "an alert was raised",
    6: "nothing was found: no setting, no host, or no group of that name",
    7: "hold has no group left to hold, since limits help none",
}


class Formatter(argparse.HelpFormatter):
    """Lays out paragraphs one by one. Lines that begin with two blanks stay as they are. Options
    are not repeated in the usage."""

    def add_usage(self, usage: str | None, actions: Iterable[argparse.Action],
                  groups: Iterable[Any], prefix: str | None = None) -> None:
        """The usage, with the arguments alone."""
        words = [str(each.metavar) if " " in str(each.metavar) else self._format_args(
            each, each.dest) for each in actions if not each.option_strings]
        super().add_usage(" ".join(["%(prog)s", "[options]", *words]), actions, (), prefix)

    def _fill_text(self, text: str, width: int, indent: str) -> str:
        import textwrap  # (no other call lays out text)
        filled = []
        for part in text.split("\n\n"):
            is_kept = part.startswith("  ") or "\n  " in part
            filled.append(part if is_kept else textwrap.fill(part, width, initial_indent=indent,
                                                             subsequent_indent=indent))
        return "\n\n".join(filled)


class Version(argparse.Action):
    """Prints the version, and what is known of how the library was made."""

    def __call__(self, parser: argparse.ArgumentParser, *_: Any) -> None:
        print(f"arbiterctl {__version__}", *library_made(), sep="\n")
        parser.exit()


def library_made() -> list[str]:
    """The commit and the kit of an installed library, or whether that of a clone is proved. Nothing
    is known of one that `ARBITER_LIBRARY` names."""
    import json  # (no other call asks)
    from arbiter import found
    if os.environ.get("ARBITER_LIBRARY"):
        return []
    with suppress(OSError, ValueError, KeyError, TypeError):
        with open(f"{found.PACKAGE}/made.json", encoding="utf-8") as file:
            made = json.load(file)
        return [shown(f"commit {made['commit']}; library proved by {made['kit']}")]
    if not os.path.isfile(f"{found.CLONE}/scripts/current.sh"):
        return []
    return ["a clone; its library is proved" if found.of_clone() else
            "a clone without a proved library; a checked build, which proves nothing, answers"]


def statuses() -> str:
    """The exit statuses as the end of a help text."""
    return "exit status:\n" + "\n".join(f"  {each}  {what}" for each, what in STATUSES.items())


def examples(commands: Mapping[str, str]) -> str:
    """Examples for the end of a help text: what each does, and its command."""
    lines = "\n".join(f"  {command}\n      {what}" for what, command in commands.items())
    return f"examples:\n{lines}\n\n" if commands else ""
