"""The view of `top` at a terminal: a table that scrolls, is searched, and folds row by row."""
from __future__ import annotations

import os
import re
import select
import shutil
import time
from collections.abc import Callable, Iterator, Mapping, Sequence
from contextlib import suppress
from dataclasses import replace
from fractions import Fraction

from arbiter_host.answers import explain
from arbiter_host.answers.explain import View
from arbiter_host.base import names, text
from arbiter_host.base.plan import Plan, PlannedGroup
from arbiter_host.base.tables import Column, Table
from arbiter_host.top import live
from arbiter_host.top.live import FILTERS, HISTORY, SORTS, Keys, Lines, Recent
from arbiter_host.top.top import PlannedRound

# Keys that a terminal sends as sequences, and the letters that do the same.
SEQUENCE = re.compile("\x1b(?:\\[[0-9;]*[A-Za-z~]|O[A-Z])|.", re.DOTALL)
SAME = {"[A": "k", "OA": "k", "[B": "j", "OB": "j", "[C": "+", "OC": "+", "[D": "-", "OD": "-",
        "[5~": "b", "[6~": " ", "[H": "g", "OH": "g", "[1~": "g", "[F": "G", "OF": "G", "[4~": "G"}
KEYS = (("q", "quit"), ("j k, arrows", "down and up by a row"), ("space b, PgDn PgUp", "by a page"),
        ("g G, Home End", "to the first row, to the last"),
        ("- +, left right", "fold a row, unfold it"), ("Enter", "fold it or unfold it"),
        ("/", "search names; Enter ends, Esc leaves it"),
        ("n N", "the next that fits, the one before"), ("s", "the next order"),
        ("f", "the next filter"), ("a", "also groups that ask for nothing"), ("?", "these keys"))
HINT = "? keys  q quit  / search"
# From this width on rows begin with the history.
WIDE = 90
USED = 6


def used(plan: Plan, got: Fraction | None, unit: str) -> str:
    """The use of a group, in a unit; `-` where it was not measured."""
    return "-" if got is None else text.measured(plan.model.host, got, unit)


class Viewer:
    """The view of the last round, and the place of the reader."""

    def __init__(self, view: Callable[[Plan], View], put: Callable[[Lines], None],
                 keyboard: int | None) -> None:
        self.view, self.put, self.keyboard = view, put, keyboard
        self.keys, self.history = Keys(), Recent()
        self.plan: Plan | None = None
        self.got: Mapping[str, Fraction] = {}
        # The path of the row of the cursor, the first row that is shown, and the rows of a page.
        self.path, self.first, self.page = "", 0, 1
        # The row from which a word is searched.
        self.begin = ""
        self.folded = frozenset[str]()
        self.word, self.is_typing, self.has_help = "", False, False

    def now(self, plan: Plan) -> View:
        """The view as keys have changed it."""
        return self.keys.view(self.view(plan))._replace(folded=self.folded)

    def place(self, groups: Sequence[PlannedGroup]) -> int:
        """The row of the cursor; the first one where its group is not shown."""
        return next((at for at, each in enumerate(groups) if each.path == self.path), 0)

    def find(self, groups: list[PlannedGroup], at: int, step: int) -> None:
        """Goes to the first row from one on that fits the word."""
        word = self.word.lower()
        for place in range(len(groups)):
            group = groups[(at + step * place) % len(groups)]
            if word and word in f"{names.last_name(group.path)} {group.title}".lower():
                self.path = group.path
                return

    def fold(self, group: PlannedGroup, key: str) -> None:
        """Folds or unfolds a row. One that has nothing to fold leads to the row above it."""
        is_folded = group.path in self.folded
        if key == "+" or is_folded and key != "-":
            self.folded -= {group.path}
        elif group.children and not is_folded:
            self.folded |= {group.path}
        elif self.plan and group.parent is not None:
            self.path = self.plan.groups[group.parent].path

    def type(self, key: str) -> None:
        """Takes a key of the word that is searched."""
        self.is_typing = key not in ("\r", "\n", "\x1b")
        if key in ("\x7f", "\b"):
            self.word = self.word[:-1]
        elif self.is_typing and key.isprintable():
            self.word += key
        elif key == "\x1b":
            self.word = ""

    def take(self, plan: Plan, key: str) -> None:
        """Takes a key."""
        groups = [group for group, _ in explain.shown_groups(plan, self.now(plan))]
        at = self.place(groups)
        moves = {"j": at + 1, "k": at - 1, " ": at + self.page, "b": at - self.page, "g": 0,
                 "G": len(groups)}
        if self.has_help or key in ("?", "h") and not self.is_typing:
            self.has_help = not self.has_help
        elif self.is_typing:
            self.type(key)
            self.path = self.begin
            self.find(groups, self.place(groups), 1)
        elif key == "/":
            self.is_typing, self.word, self.begin = True, "", self.path
        elif key in moves and groups:
            self.path = groups[max(min(moves[key], len(groups) - 1), 0)].path
        elif key in ("n", "N") and groups:
            step = 1 if key == "n" else -1
            self.find(groups, at + step, step)
        elif key in ("-", "+", "\r", "\n") and groups:
            self.fold(groups[at], key)
        elif key in ("s", "f", "a"):
            self.keys.take(key)

    def draw(self, letters: str = "") -> None:
        """Takes keys, and shows the round."""
        for found in SEQUENCE.findall(letters):
            key = SAME.get(found[1:], found) if found[0] == "\x1b" else found
            if key in live.ENDS and not self.is_typing:
                self.keys.take(key)
            elif self.plan is not None:
                self.take(self.plan, key)
        if self.plan is not None:
            self.put(self.lines(self.plan, shutil.get_terminal_size().lines))

    def wait(self, seconds: float) -> None:
        """Waits, and takes keys meanwhile."""
        until, left = time.monotonic() + seconds, seconds
        while True:
            if self.keyboard is None:
                time.sleep(left)
            elif (select.select([self.keyboard], [], [], left)[0]
                  and (data := os.read(self.keyboard, 100))):
                self.draw(data.decode("ascii", "ignore"))
            if self.keys.is_ended:
                raise live.ViewEnded
            if not left:
                return
            left = max(until - time.monotonic(), 0)

    def head(self, plan: Plan, view: View) -> Iterator[str]:
        planned, left, wanted = (text.amount(plan, each, view.unit) for each in (
            plan.root.gets, plan.capacity - plan.root.gets, plan.root.want))
        got = self.got.get(".")
        yield (f"{time.strftime('%H:%M:%S')}  {text.cpus(plan.model.host.processors)}:"
               f" {planned} planned, {left} left, {wanted} wanted"
               + (f", {used(plan, got, view.unit)} used" if got is not None else ""))
        yield list(explain.head(plan, view))[4]

    def columns(self, plan: Plan, view: View) -> list[Column[PlannedGroup]]:
        """The columns before those of the plan."""
        history = [Column[PlannedGroup]("history", lambda each: self.history.line(each.path), True,
                                        wide=HISTORY)]
        return [*(history if view.width >= WIDE else []), Column("used", lambda each: used(
            plan, self.got.get(each.path), view.unit), False, wide=USED)]

    def table(self, plan: Plan, view: View) -> Table[PlannedGroup]:
        """The rows, behind what is measured."""
        columns = self.columns(plan, view)
        room = sum(each.wide + 2 for each in columns)
        found = explain.table(plan, view._replace(width=max(view.width - room, 40)))
        return replace(found, columns=[*columns, *found.columns], wide=found.wide + room)

    def lines(self, plan: Plan, height: int) -> Lines:
        """The lines of the screen: the head, the rows around the cursor, and what keys do."""
        view = self.now(plan)
        top = list(self.head(plan, view))
        table = self.table(plan, view)
        heads, *rows = table.lines() if table.records else [
            (f"no group is {' or '.join(view.only)}", "bold")]
        self.page = max(height - len(top) - 3, 1)
        at = self.place(table.records)
        self.first = max(min(self.first, at, len(rows) - self.page), at - self.page + 1, 0)
        body = [(line, "reverse" if place == at else style) for place, (line, style)
                in enumerate(rows[self.first:self.first + self.page], self.first)]
        if self.has_help:
            body = [(f"  {keys:20}{words}", "") for keys, words in KEYS][:self.page]
        chosen = (("sort", SORTS[self.keys.sort]), ("only", FILTERS[self.keys.only]))
        told = [f"row {min(at + 1, len(rows))} of {len(rows)}", HINT,
                *(f"{name}: {value}" for name, value in chosen if value)]
        ground = f"/{names.shown(self.word)}" if self.is_typing else "  ".join(told)
        return [*((line, "") for line in top), heads, *body,
                *[("", "")] * (self.page - len(body)), (ground, "reverse")]


def show(rounds: Callable[[Callable[[float], None]], Iterator[PlannedRound]],
         view: Callable[[Plan], View], take: Callable[[PlannedRound], None]) -> None:
    """Shows round after round on a terminal, until a key, Ctrl-C or the last one. Each is given to
    `take` first. `rounds` waits by what it is given, which takes keys meanwhile."""
    from rich.console import Console, Group
    from rich.live import Live
    from rich.text import Text
    console = Console(highlight=False)
    with (live.ended_by_signals(), live.key_by_key() as keyboard, suppress(live.ViewEnded),
          Live(console=console, screen=True, auto_refresh=False) as screen):
        def put(lines: Lines) -> None:
            texts = (Text(names.cut(line, console.width), style) for line, style in lines)
            screen.update(Group(*texts), refresh=True)

        shown = Viewer(view, put, keyboard)
        for each in rounds(shown.wait):
            take(each)
            shown.plan, shown.got = each.plan, each.got
            shown.history.take(each.plan)
            shown.draw()
