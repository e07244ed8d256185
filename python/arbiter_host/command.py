"""The command arbiterctl: its parser, and how it ends. Its subcommands are in `subcommands`."""
from __future__ import annotations

import argparse
import os
import sys
import time
from collections.abc import Sequence
from typing import TYPE_CHECKING, Any, NoReturn

from arbiter_host import helps
from arbiter_host import options as table
from arbiter_host.base import names
from arbiter_host.base.faults import HostFault, NoLibrary, missing_module
from arbiter_host.base.output import drop_output, say, tell
from arbiter_host.subcommands import NAMES, Subcommand, find, listed

if TYPE_CHECKING:
    from arbiter import Unavailable


class Parser(argparse.ArgumentParser):
    """A parser whose faults are one line, without any raw control character."""

    def error(self, message: str) -> NoReturn:
        """Ends with a line that says where the words are explained."""
        self.exit(2, f"{self.prog}: {names.shown(message)}; {self.prog} --help says more\n")


class Listed(argparse.ArgumentParser):
    """A subcommand in the list of all. Its own parser is made where it is asked for."""

    def __init__(self, **_: Any) -> None:
        """Makes nothing: it reads no word."""


def parser_of(each: Subcommand) -> Parser:
    """The parser of one subcommand."""
    parser = Parser(prog=f"arbiterctl {each.name}", formatter_class=helps.Formatter,
                    description="\n\n".join([each.description, *each.details]),
                    epilog=helps.examples(each.examples) + helps.statuses())
    argument = {**each.argument}
    parser.add_argument(argument.pop("name"), **argument)
    table.add(parser, each.name)
    return parser


def parser_of_all() -> Parser:
    """The parser of words without a subcommand: it knows the names of all."""
    parser = Parser(prog="arbiterctl", description=helps.ABOUT, epilog=helps.statuses(),
                    formatter_class=helps.Formatter, allow_abbrev=False)
    parser.add_argument("-V", "--version", action=helps.Version, nargs=0,
                        help="print the version and what the library is made of, and end")
    commands = parser.add_subparsers(required=True, metavar="COMMAND", prog="arbiterctl",
                                     parser_class=Listed)
    for name in listed():
        commands.add_parser(name, help=table.texts(name)["summary"])
    return parser


def parsed(words: Sequence[str]) -> argparse.Namespace:
    """The options of the words. Options may stand between the sources."""
    name = next((word for word in words if not word.startswith("-")), "")
    at = words.index(name) if name in NAMES else len(words)
    if name not in NAMES or not {"-h", "--help", "-V", "--version"}.isdisjoint(words[:at]):
        parser_of_all().parse_args(words)
    each = find(name)
    parser = parser_of(each)
    options, unknown = parser.parse_known_args(words[at + 1:])
    if unknown:
        options, unknown = parser.parse_known_intermixed_args(words[at + 1:])
    if at or unknown:
        parser.error(f"unrecognized arguments: {' '.join([*words[:at], *unknown])}")
    options.run = each.run
    return table.fill(options)


def unavailable() -> type[Unavailable]:
    """The error of a call whose process has ended."""
    from arbiter import Unavailable
    return Unavailable


def run(words: Sequence[str] | None = None) -> int:
    """Runs the command and returns its exit status."""
    try:
        words = sys.argv[1:] if words is None else words
        began, options = time.monotonic(), parsed(words)
        options.run(options)
        if options.verbose:
            say(f"{time.monotonic() - began:.2f} seconds")
    except HostFault as fault:
        tell(fault)
        drop_output()
        return fault.status
    except ModuleNotFoundError as error:
        fault_ = missing_module(error)
        if fault_ is None:
            raise
        tell(fault_)
        return fault_.status
    except SystemExit:  # (help needs no package)
        raise
    except unavailable() as error:
        tell(NoLibrary(str(error)))
        drop_output()
        return 3
    except BrokenPipeError:
        drop_output()
        return 1
    except (MemoryError, RecursionError) as error:
        tell(HostFault(f"out of memory: {type(error).__name__}"))
        return 1
    return 0


def main() -> NoReturn:
    """The entry of the program. An interrupt ends it by the signal, so that the caller sees it."""
    try:
        sys.exit(run())
    except KeyboardInterrupt:
        import signal
        signal.signal(signal.SIGINT, signal.SIG_DFL)
        os.kill(os.getpid(), signal.SIGINT)
        sys.exit(130)


if __name__ == "__main__":
    main()
