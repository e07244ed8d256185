"""The protocol of lent seats, as `Crowd.antt` of bw_lend defines it: states, events, `after`.

Names are those of the definitions. Rounds are those of `CrowdRounds.antt`, and `is_still` that of
`CrowdLaws.antt`.
"""
from __future__ import annotations

import dataclasses
import enum
from collections.abc import Callable
from typing import NamedTuple, Optional, TypeVar, Union

OWN_LOADS = 4  # own_loads

Item = TypeVar("Item")


class Stage(enum.Enum):
    """Where a seat is that has a ticket: `Stage`."""

    DRAWN = enum.auto()
    HINTING = enum.auto()
    READING = enum.auto()
    LOOKING = enum.auto()
    RETRACTING = enum.auto()
    PARKING = enum.auto()
    PARKING_HELD = enum.auto()
    ASLEEP = enum.auto()
    FETCHING = enum.auto()
    ENTERING = enum.auto()
    INSIDE = enum.auto()


# Errands of the same seat are equal only if they are of one class, unlike tuples.


@dataclasses.dataclass(frozen=True)
class Peeking:
    """It makes so many loads of the lock's own, and then looks for a hint."""

    loads: int


@dataclasses.dataclass(frozen=True)
class Claiming:
    """It has seen the hint of this seat."""

    seat: int


@dataclasses.dataclass(frozen=True)
class EnteringFor:
    """It has claimed this seat, and looks whether its ticket is served."""

    seat: int


@dataclasses.dataclass(frozen=True)
class Helping:
    """It is inside the lock for this seat."""

    seat: int


@dataclasses.dataclass(frozen=True)
class Giving:
    """It has left for this seat, makes so many loads, and gives the seat back."""

    seat: int
    loads: int


@dataclasses.dataclass(frozen=True)
class GivingLast:
    """It has left for this seat, and found no later ticket drawn."""

    seat: int


@dataclasses.dataclass(frozen=True)
class Returning:
    """It has claimed this seat, and gives it back without its call made."""

    seat: int


Errand = Union[Peeking, Claiming, EnteringFor, Helping, Giving, GivingLast, Returning]


class Has(NamedTuple):
    """A seat with a ticket."""

    ticket: int
    stage: Stage


class Leaves(NamedTuple):
    """A seat that has left: the ticket that it works on, the wakes that it owes, its errand."""

    ticket: int
    owed: tuple[int, ...]
    errand: Errand


class Wakes(NamedTuple):
    """A seat that makes these wakes next. It is idle if there are none."""

    owed: tuple[int, ...]


Phase = Union[Has, Leaves, Wakes]


class Code(enum.Enum):
    """The constructors of `Place`."""

    AWAY = enum.auto()
    POSTED = enum.auto()
    CLAIMED = enum.auto()
    DONE = enum.auto()
    BACK = enum.auto()


class Place(NamedTuple):
    """The word of a seat's place: its ticket, and who claimed the seat."""

    code: Code
    ticket: int = 0
    helper: int = 0


class Hint(NamedTuple):
    """A ticket, and the seat that lent itself with it."""

    ticket: int
    seat: int


AWAY = Place(Code.AWAY)
IDLE = Wakes(())


@dataclasses.dataclass(frozen=True)
class Crowd:
    """A state: `Crowd`. Phases and places are by seat, hints by word."""

    next: int
    serving: int
    words: int
    owner: tuple[int, ...]
    phase: tuple[Phase, ...]
    place: tuple[Place, ...]
    hint: tuple[Optional[Hint], ...]


def start(seats: int, words: int) -> Crowd:
    """Nobody has a ticket, and all seats are with their owners: `start`."""
    return Crowd(0, 0, words, (), (IDLE,) * seats, (AWAY,) * seats, (None,) * words)


def put(items: tuple[Item, ...], at: int, item: Item) -> tuple[Item, ...]:
    """The items with another one at a number: `put`."""
    return (*items[:at], item, *items[at + 1:])


def moved(s: Crowd, i: int, phase: Phase) -> Crowd:
    """The state with the seat elsewhere: `moved`."""
    return dataclasses.replace(s, phase=put(s.phase, i, phase))


def placed(s: Crowd, i: int, phase: Phase, j: int, place: Place) -> Crowd:
    """The state with the seat i elsewhere, and another word in the place of j: `placed`."""
    return dataclasses.replace(moved(s, i, phase), place=put(s.place, j, place))


def take(s: Crowd, i: int) -> Optional[Crowd]:
    """The seat draws the next ticket: `take_by`."""
    if s.phase[i] != IDLE:
        return None
    return dataclasses.replace(moved(s, i, Has(s.next, Stage.DRAWN)), next=s.next + 1,
                               owner=(*s.owner, i))


def look(s: Crowd, i: int) -> Optional[Crowd]:
    """The seat looks whether a ticket is served, its own or of the seat it has: `look_by`."""
    match s.phase[i]:
        case Has(t, Stage.DRAWN):
            return moved(s, i, Has(t, Stage.ENTERING if t == s.serving else Stage.DRAWN))
        case Has(t, Stage.ENTERING):
            return moved(s, i, Has(t, Stage.INSIDE if t == s.serving else Stage.ENTERING))
        case Leaves(x, js, EnteringFor(j)):
            return moved(s, i, Leaves(x, js, Helping(j) if x == s.serving else EnteringFor(j)))
        case Has(t, Stage.LOOKING):
            return moved(s, i, Has(t, Stage.RETRACTING if t == s.serving else Stage.PARKING))
    return None


def lend(s: Crowd, i: int) -> Optional[Crowd]:
    """The seat lends itself in its place: `lend_by`."""
    match s.phase[i]:
        case Has(t, Stage.DRAWN):
            return placed(s, i, Has(t, Stage.HINTING), i, Place(Code.POSTED, t))
    return None


def store_hint(s: Crowd, i: int) -> Optional[Crowd]:
    """The seat stores its hint: `store_hint_by`."""
    match s.phase[i]:
        case Has(t, Stage.HINTING):
            return dataclasses.replace(moved(s, i, Has(t, Stage.READING)),
                                       hint=put(s.hint, t % s.words, Hint(t, i)))
    return None


SEEN = {Code.AWAY: Stage.READING, Code.POSTED: Stage.LOOKING, Code.CLAIMED: Stage.PARKING_HELD,
        Code.DONE: Stage.FETCHING, Code.BACK: Stage.FETCHING}  # seen


def read(s: Crowd, i: int) -> Optional[Crowd]:
    """The seat loads the word of its place: `read_by`."""
    match s.phase[i]:
        case Has(t, Stage.READING):
            return moved(s, i, Has(t, SEEN[s.place[i].code]))
    return None


def retract(s: Crowd, i: int) -> Optional[Crowd]:
    """The seat takes itself back unless it is claimed: `retract_by`."""
    match s.phase[i]:
        case Has(t, Stage.RETRACTING):
            if s.place[i].code is Code.POSTED:
                return placed(s, i, Has(t, Stage.ENTERING), i, AWAY)
            return moved(s, i, Has(t, Stage.READING))
    return None


def park(s: Crowd, i: int) -> Optional[Crowd]:
    """The seat sleeps if the word of its place is what it saw: `park_by`."""
    match s.phase[i]:
        case Has(t, Stage.PARKING):
            sleeps = s.place[i].code is Code.POSTED
        case Has(t, Stage.PARKING_HELD):
            sleeps = s.place[i].code is Code.CLAIMED
        case _:
            return None
    return moved(s, i, Has(t, Stage.ASLEEP if sleeps else Stage.READING))


def spurious_wake(s: Crowd, i: int) -> Optional[Crowd]:
    """The seat wakes without a wake: `spurious_wake_by`."""
    match s.phase[i]:
        case Has(t, Stage.ASLEEP):
            return moved(s, i, Has(t, Stage.READING))
    return None


def fetch(s: Crowd, i: int) -> Optional[Crowd]:
    """The seat takes itself from its place, idle if its call is made: `fetch_by`."""
    match s.phase[i]:
        case Has(t, Stage.FETCHING):
            is_back = s.place[i].code is Code.BACK
            return placed(s, i, Has(t, Stage.ENTERING) if is_back else IDLE, i, AWAY)
    return None


def leave(s: Crowd, i: int) -> Optional[Crowd]:
    """The seat lets the next ticket be served: `leave_by`."""
    served = dataclasses.replace(s, serving=s.serving + 1)
    match s.phase[i]:
        case Has(t, Stage.INSIDE):
            return moved(served, i, Leaves(t + 1, (), Peeking(OWN_LOADS)))
        case Leaves(x, js, Helping(j)):
            return moved(served, i, Leaves(x, js, Giving(j, OWN_LOADS)))
    return None


def glance(s: Crowd, i: int) -> Optional[Crowd]:
    """The seat makes a load of the lock's own: `glance_by`."""
    match s.phase[i]:
        case Leaves(x, js, Peeking(k)) if k > 0:
            return moved(s, i, Leaves(x, js, Peeking(k - 1)))
        case Leaves(x, js, Giving(j, k)) if k > 0:
            return moved(s, i, Leaves(x, js, Giving(j, k - 1)))
    return None


def look_behind(s: Crowd, i: int) -> Optional[Crowd]:
    """The seat looks whether the ticket that it works on next was drawn: `look_behind_by`."""
    match s.phase[i]:
        case Leaves(x, js, Peeking(k)) if k > 0:
            return moved(s, i, Leaves(x, js, Peeking(k - 1)) if x < s.next else Wakes(js))
        case Leaves(x, js, Giving(j, k)) if k > 0:
            is_drawn = x + 1 < s.next
            return moved(s, i, Leaves(x, js, Giving(j, k - 1) if is_drawn else GivingLast(j)))
    return None


def peek(s: Crowd, i: int) -> Optional[Crowd]:
    """The seat looks for the hint of the ticket that it works on: `peek_by`, `hinted`."""
    match s.phase[i]:
        case Leaves(x, js, Peeking(_)):
            hint = s.hint[x % s.words]
            found = hint is not None and hint.ticket == x
            return moved(s, i, Leaves(x, js, Claiming(hint.seat)) if hint and found else Wakes(js))
    return None


def claim(s: Crowd, i: int, errand: Callable[[int], Errand]) -> Optional[Crowd]:
    """The seat claims the one whose hint it has seen, if that is still lent: `claim_by`."""
    match s.phase[i]:
        case Leaves(x, js, Claiming(j)):
            if s.place[j] == Place(Code.POSTED, x):
                return placed(s, i, Leaves(x, js, errand(j)), j, Place(Code.CLAIMED, x, i))
            return moved(s, i, Wakes(js))
    return None


def give(s: Crowd, i: int, ks: tuple[int, ...]) -> Optional[Crowd]:
    """The seat gives back the one that it has, and will wake those of ks: `give_by`."""
    match s.phase[i]:
        case Leaves(x, js, Giving(j, _)) if {j, *js} <= set(ks):
            return placed(s, i, Leaves(x + 1, ks, Peeking(0)), j, Place(Code.DONE, x, i))
        case Leaves(x, js, GivingLast(j)) if {j, *js} <= set(ks):
            return placed(s, i, Wakes(ks), j, Place(Code.DONE, x, i))
        case Leaves(x, js, Returning(j)) if set(js) <= set(ks):
            return placed(s, i, Wakes((j, *ks)), j, Place(Code.BACK, x, i))
    return None


def wake(s: Crowd, i: int) -> Optional[Crowd]:
    """The seat makes the first wake that it owes: `wake_by`, `woken`."""
    match s.phase[i]:
        case Wakes((j, *js)):
            rest = moved(s, i, Wakes(tuple(js)))
            match s.phase[j]:
                case Has(t, Stage.ASLEEP):
                    return moved(rest, j, Has(t, Stage.READING))
            return rest
    return None


class Event(NamedTuple):
    """One event: its name, its seat, and what is chosen with it."""

    name: str
    seat: int
    wakes: tuple[int, ...] = ()


AFTER: dict[str, Callable[[Crowd, int], Optional[Crowd]]] = {
    "Take": take, "Look": look, "Lend": lend, "StoreHint": store_hint, "Read": read,
    "Retract": retract, "Park": park, "SpuriousWake": spurious_wake, "Fetch": fetch, "Leave": leave,
    "Glance": glance, "LookBehind": look_behind, "Peek": peek, "Wake": wake,
    "ClaimToHelp": lambda s, i: claim(s, i, EnteringFor),
    "ClaimToReturn": lambda s, i: claim(s, i, Returning),
}


def after(s: Crowd, event: Event) -> Optional[Crowd]:
    """The state after an event, or none where it is not possible: `after`."""
    if event.name == "Give":
        return give(s, event.seat, event.wakes)
    return AFTER[event.name](s, event.seat)


def is_still(phase: Phase) -> bool:
    """Whether a seat makes no step of its own: `is_still`."""
    return phase == IDLE or isinstance(phase, Has) and phase.stage is Stage.ASLEEP
