"""The options of arbiterctl, each declared once, in templates/options.toml: parsers, help, man
pages and completions are made from it.

A subcommand's module says which of them it takes, and what differs there. `add(parser, "explain")`
adds them. `fill(options)` then gives every dest of the table its value, also those that the
subcommand does not have, and `options.given` the dests that the command line names. A reader calls
`check(options, kind)` when it knows what its source is: an option that was given and has no effect
on such a source is refused with status 2.

The dests, where they differ from the long flag: `kind` (--from), `used` (a list), `node_weights`,
`group` (a list), `namespace` (a list), `selector` (a list), `output` (a list of FORM[=FILE], see
`outputs`), `everything` (--all), `set` (a list), `goal` (a list), `pod` (a list), `map` and `scale`
(lists). Amounts, times, readings and percentages are text.
"""
from __future__ import annotations

import argparse
import functools
import os
import re
import tomllib
from collections.abc import Collection
from typing import Any, NamedTuple

from arbiter_host.base.faults import UsageFault
from arbiter_host.base.names import shown
from arbiter_host.base.output import Output

# What a source is. `hosts` stands for many hosts: a folder, a list, or a cluster's JSON.
KINDS = ("script", "toml", "json", "cgroup", "kubernetes", "systemd", "docker", "slurm")
HOSTS = "hosts"
# The words that stand for several kinds.
SETS = {"all": (*KINDS, HOSTS), "one host": KINDS}
# Of `hold`: the kernel's scheduler.
SCHEDULER = "scheduler"
# Forms of each answer that is a table: `tables` of a subcommand stands for them.
TABLES = ("text", "json")
FOLDER = os.path.dirname(__file__)
# What is said of a subcommand, at the head of its module: TOML, as PEP 723 has it in a script.
SAID = re.compile(r"^# /// arbiterctl\n((?:#(?: .*)?\n)+)# ///$", re.M)


@functools.lru_cache
def texts(name: str) -> dict[str, Any]:
    """All that is said of a subcommand: the TOML at the head of its module, which is not run."""
    with open(f"{FOLDER}/subcommands/{name}.py", encoding="utf-8") as file:
        found = SAID.search(file.read())
    assert found, f"{name}: nothing is said of it"
    return tomllib.loads(re.sub("^# ?", "", found[1], flags=re.M))


class Option(NamedTuple):
    """One option, as most subcommands have it."""

    dest: str
    flags: tuple[str, ...]
    title: str
    help: str
    metavar: str = ""
    choices: tuple[str, ...] = ()
    default: Any = None
    is_flag: bool = False
    is_many: bool = False
    is_number: bool = False
    # Its value is several words of `choices`, with commas between them.
    is_list: bool = False
    # The kinds of sources for which it holds, the forms of --used with which it does, and the forms
    # of -o in which it shows (empty for all).
    kinds: tuple[str, ...] = SETS["all"]
    used: tuple[str, ...] = ()
    forms: tuple[str, ...] = ()
    # Other kinds for which it holds, each with a form of --used.
    pairs: tuple[str, ...] = ()

    @property
    def name(self) -> str:
        return max(self.flags, key=len)

    @property
    def value(self) -> Any:
        """Its value where it is not given."""
        return [] if self.is_many else False if self.is_flag else self.default

    def holds(self, kind: str, used: str) -> bool:
        """Whether it has an effect on a source of a kind, with a form of --used."""
        return kind in self.kinds or used in self.used or f"{kind} {used}" in self.pairs

    def with_said(self, said: dict[str, Any]) -> Option:
        """The option with some fields as TOML has them: lists, and of kinds a word for several."""
        words: dict[str, Any] = {key: tuple(each) if isinstance(each, list) else each
                                 for key, each in said.items()}
        kinds = words.get("kinds", self.kinds)
        words["kinds"] = SETS[kinds] if isinstance(kinds, str) else kinds
        return self._replace(**words)

    def of(self, subcommand: str) -> Option:
        """The option as a subcommand has it: its text, and what is another one there."""
        said = {field: texts(subcommand)[key][self.dest] for key, field in OWN.items()
                if self.dest in texts(subcommand).get(key, ())}
        own = self.with_said(said | ({"choices": forms(subcommand)} if self.dest == "output"
                                     else {}))
        return own._replace(help=own.help.replace("WORDS", ", ".join(own.choices)))


# The tables of a subcommand with what is another one there, and the fields of options.
OWN = {"options": "help", "kinds": "kinds", "choices": "choices", "defaults": "default"}
with open(f"{FOLDER}/templates/options.toml", "rb") as file_:
    TABLE = tuple(Option(dest, (), "", "").with_said(said)
                  for dest, said in tomllib.load(file_).items())
MOST = 46


@functools.cache
def forms(subcommand: str) -> tuple[str, ...]:
    """The forms that a subcommand writes. The first is the one without -o."""
    return tuple(form for each in texts(subcommand).get("forms", ())
                 for form in (TABLES if each == "tables" else (each,)))


@functools.cache
def of(subcommand: str) -> tuple[Option, ...]:
    """The options of a subcommand, in the order of the table; none where there is no subcommand."""
    takes = texts(subcommand)["takes"] if subcommand else ()
    return tuple(each.of(subcommand) for each in TABLE if each.dest in takes)


def add(parser: argparse.ArgumentParser, subcommand: str) -> None:
    """Adds the options of a subcommand. `fill` gives them their values."""
    groups: dict[str, Any] = {}
    for each in of(subcommand):
        if each.title not in groups:
            groups[each.title] = parser.add_argument_group(each.title)
        words: dict[str, Any] = {"dest": each.dest, "default": argparse.SUPPRESS,
                                 "help": each.help.replace("%", "%%")}
        has_choices = each.choices and not each.is_list and each.dest != "output"
        if each.is_flag:
            words["action"] = "store_true"
        else:
            words |= {"action": "append" if each.is_many else "store",
                      "metavar": each.metavar or None,
                      "choices": each.choices if has_choices else None,
                      "type": int if each.is_number else None}
        groups[each.title].add_argument(*each.flags, **words)
    parser.set_defaults(asked=subcommand)


def fill(options: argparse.Namespace) -> argparse.Namespace:
    """Gives each dest of the table its value, and `given` the dests that the words name."""
    asked = getattr(options, "asked", "")
    there = vars(options)
    given = frozenset(each.dest for each in TABLE if each.dest in there) if asked else frozenset()
    for each in (*of(asked), *TABLE):
        there.setdefault(each.dest, each.value)
    options.given = given
    return options


def form_of_used(options: argparse.Namespace) -> str:
    """The form of --used: `file`, `folder` or `url`; empty where it is not given."""
    first = next(iter(options.used), "")
    if re.match(r"https?://", first):
        return "url"
    return "folder" if first and os.path.isdir(first) else "file" if first else ""


def check(options: argparse.Namespace, kind: str) -> None:
    """A fault where an option was given that has no effect on a source of a kind."""
    asked = getattr(options, "asked", "")
    used = form_of_used(options) if asked else ""
    for each in of(asked):
        if each.dest not in options.given or each.holds(kind, used):
            continue
        if not each.kinds and each.used:
            raise UsageFault(f"{each.name}: it needs --used with a {' or '.join(each.used)}")
        source = "many hosts" if kind == HOSTS else f"a source of the kind {kind}"
        raise UsageFault(f"{each.name}: it has no effect on {source}")


def outputs(options: argparse.Namespace, among: Collection[str] = ()) -> list[Output]:
    """The forms and files that are asked for, at most one on standard output. A fault where an
    option was given that shows in none of them. `among` leaves some forms alone."""
    known = [each for each in forms(options.asked) if not among or each in among]
    named = []
    for word in options.output or [known[0]]:
        form, mark, path = word.partition("=")
        if form not in known or mark and not path:
            raise UsageFault(f"-o {shown(word)}: FORM or FORM=FILE, with one of"
                             f" {', '.join(known)}")
        named.append(Output(form, path or "-"))
    if sum(1 for each in named if each.path == "-") > 1:
        raise UsageFault("-o: one form alone has room on standard output: write -o FORM=FILE")
    asked = [each.form for each in named]
    for option in of(options.asked):
        if option.dest in options.given and option.forms and not {*asked} & {*option.forms}:
            raise UsageFault(f"{option.name}: it has no effect on -o {' and '.join(asked)}")
    return named
