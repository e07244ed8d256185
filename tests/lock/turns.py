"""The turns of a lock's seats, as `Turns.antt` and `Plays.antt` of bw_ticket define them.

Names are those of the definitions. A seat that is lent makes its turns through whoever has it.
Here are the turns of a call for which nobody sleeps on a word of the lock. The others are of a
mark, a sleep, a wake or a front. No lent seat makes one, so a run that has one is refused.
"""
from __future__ import annotations

import dataclasses
import enum
from collections.abc import Callable
from typing import NamedTuple, Optional

MAX_SEATS, MAX_CALLS, MAX_TICKETS = 64, 65536, 2 ** 22
TICKETS_WOKEN = 3  # tickets_woken
NEXT, SERVING, FIRST_WAKE_WORD = 0, 1, 2


class Kind(enum.Enum):
    """The constructors of a seat's `Phase`."""

    IDLE = enum.auto()
    WAITING = enum.auto()
    INSIDE = enum.auto()
    DONE = enum.auto()
    SERVED = enum.auto()
    OWES = enum.auto()
    FOUND = enum.auto()


class View(NamedTuple):
    """A seat's view: the calls that are left, the tickets known to be served, the phase."""

    left: int
    reached: int = 0
    kind: Kind = Kind.IDLE
    ticket: int = 0
    wakes: int = 0


@dataclasses.dataclass(frozen=True)
class Hall:
    """The lock between two turns: its words and the views of its seats, all of them up."""

    words: tuple[int, ...]
    seats: tuple[View, ...]


def opened(seats: int, calls: int) -> Hall:
    """The lock as `open` leaves it: `opened`."""
    if seats > MAX_SEATS or calls > MAX_CALLS:
        raise ValueError("more seats or calls than a lock may have")
    return Hall((0,) * (2 + MAX_SEATS), (View(calls),) * seats)


def wake_word(ticket: int) -> int:
    """The word on which the seat of a ticket sleeps: `wake_word`."""
    return FIRST_WAKE_WORD + ticket % MAX_SEATS


def draws(p: View, word: int, n: int) -> Optional[View]:
    """The play `ticketed`, by a seat with a call left."""
    if word == NEXT and p.kind is Kind.IDLE and p.left and p.reached <= n < MAX_TICKETS:
        return View(p.left - 1, p.reached, Kind.WAITING, n)
    return None


def looks(p: View, word: int, n: int) -> Optional[View]:
    """The play `looked`."""
    if word != SERVING or p.kind is not Kind.WAITING or n == p.ticket and p.reached > n:
        return None
    return p._replace(kind=Kind.INSIDE) if n == p.ticket else p


def records(p: View, word: int, _: int) -> Optional[View]:
    """The play `noted`."""
    return p._replace(kind=Kind.DONE) if word == SERVING and p.kind is Kind.INSIDE else None


def serves(p: View, word: int, n: int) -> Optional[View]:
    """The play `left_by`."""
    if word != SERVING or p.kind is not Kind.DONE or n != p.ticket:
        return None
    return p._replace(kind=Kind.SERVED, reached=n + 1)


def one_less(p: View) -> View:
    """One that owes the first wake no more: `one_less`."""
    if p.wakes <= 1:
        return View(p.left, p.reached)
    return p._replace(kind=Kind.OWES, ticket=p.ticket + 1, wakes=p.wakes - 1)


def peeks_next(p: View, word: int, n: int) -> Optional[View]:
    """The play `next_seen`."""
    if word != NEXT or p.kind is not Kind.SERVED:
        return None
    if p.ticket + 1 < n:
        return p._replace(kind=Kind.OWES, ticket=p.ticket + 1, wakes=TICKETS_WOKEN)
    return View(p.left, p.reached)


def peeks_word(p: View, word: int, n: int) -> Optional[View]:
    """The play `word_seen`."""
    if word != wake_word(p.ticket) or p.kind is not Kind.OWES:
        return None
    return p._replace(kind=Kind.FOUND) if n == p.ticket + 1 else one_less(p)


class Turn(NamedTuple):
    """One turn: its name, and its seat."""

    name: str
    seat: int


PLAYS: dict[str, Callable[[View, int, int], Optional[View]]] = {
    "Draws": draws, "Looks": looks, "Records": records, "Serves": serves,
    "PeeksNext": peeks_next, "PeeksWord": peeks_word}
RAISES = ("Draws", "Serves")


def turned(h: Hall, turn: Turn, word: int) -> Optional[Hall]:
    """The lock after a turn on a word, or none where that is no turn: `IsTurn`, `IsStep`."""
    view = PLAYS[turn.name](h.seats[turn.seat], word, h.words[word])
    if view is None:
        return None
    words, seats = list(h.words), list(h.seats)
    words[word] += turn.name in RAISES
    seats[turn.seat] = view
    return Hall(tuple(words), tuple(seats))


def is_still(p: View) -> bool:
    """Whether a seat has no turn to make, being idle: `is_still`, `where_is`."""
    return p.kind is Kind.IDLE
