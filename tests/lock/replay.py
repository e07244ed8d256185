"""Replays a recorded run: each access of the lock's words as events of `Crowd`, a turn, or none.

An access is refused if its seat can make no such event where it is. So it is if its word has
another value than in the model, before or after it.

One load of the served ticket stands for no event: the one before a seat leaves.
"""
from __future__ import annotations

import dataclasses
from collections.abc import Iterable
from typing import NamedTuple, Optional

from lock import crowd, turns
from lock.crowd import Claiming, Code, Crowd, EnteringFor, Errand, Event, Giving, GivingLast, Has
from lock.crowd import Helping, Leaves, Peeking, Phase, Place, Returning, Stage, Wakes
from lock.turns import FIRST_WAKE_WORD, NEXT, SERVING, Turn

PLACES = 64
LOCK_BYTES, PLACES_BYTES = 8 * (2 + turns.MAX_SEATS), 8 * 2 * PLACES
CODES = {Code.AWAY: 1, Code.CLAIMED: 2, Code.POSTED: 3, Code.DONE: 4, Code.BACK: 5}
ATOMIC = ("swap", "add", "cas")
PARKS = (Stage.PARKING, Stage.PARKING_HELD)


class Refused(Exception):
    """A run that is none of the model's, at this access."""


class Access(NamedTuple):
    """One access of a word, or a sleep or a wake on it."""

    thread: int
    kind: str
    block: int
    word: int
    before: int
    after: int
    given: int
    result: int


def left(name: str, i: int, errand: Errand) -> Turn:
    """A turn after the seat i has left: of the seat that it helped, or of its own."""
    return Turn(name, errand.seat if isinstance(errand, Giving) else i)


class Recording(NamedTuple):
    """Accesses, and the numbers of two blocks: the lock's table and that of places."""

    lock: int
    places: int
    accesses: tuple[Access, ...]


def only(found: Iterable[int], what: str) -> int:
    """The one number."""
    some = sorted(set(found))
    if len(some) != 1:
        raise Refused(f"{len(some)} blocks are {what}")
    return some[0]


def recording(text: str) -> Recording:
    """The run that the recorder wrote down."""
    lines = [line.split() for line in text.splitlines()]
    if not lines or lines[-1] != ["end"]:
        raise Refused(f"the run did not end: {' '.join(lines[-1]) if lines else 'nothing'}")
    sizes = {int(words[1]): int(words[2]) for words in lines if words[0] == "block"}
    found = []
    for words in lines[len(sizes):-1]:
        thread, kind, numbers = int(words[0]), words[1], [int(word) for word in words[2:]]
        found.append(Access(thread, kind, numbers[0], numbers[1] // 8, *numbers[2:]))
        if numbers[1] % 8:
            raise Refused(f"an access of a part of a word: {' '.join(words)}")
    atomic = [access.block for access in found if access.kind in ATOMIC]
    lock = only((each for each in atomic if sizes[each] == LOCK_BYTES), "the lock's")
    places = only((each for each in atomic if sizes[each] == PLACES_BYTES), "of places")
    return Recording(lock, places, tuple(each for each in found if each.block in (lock, places)))


def in_word(place: Place) -> int:
    """The word of a place: its ticket and its code."""
    return place.ticket * 8 + CODES[place.code]


def seats_of(run: Recording) -> dict[int, int]:
    """The seat of each thread: the place in which it lends itself, or a number that is left."""
    found: dict[int, int] = {}
    for access in run.accesses:
        is_post = access.kind == "swap" and access.after % 8 == CODES[Code.POSTED]
        if access.block == run.places and access.word < PLACES and is_post:
            found.setdefault(access.thread, access.word)
    names = sorted({access.thread for access in run.accesses})
    spare = iter(sorted(set(range(len(names))) - set(found.values())))
    return {thread: found[thread] if thread in found else next(spare) for thread in names}


def chosen(run: Recording, seats: dict[int, int]) -> dict[int, tuple[bool, tuple[int, ...]]]:
    """What a seat does after a claim or a give, of its later accesses: whether it gives a seat back
    without its call made, and the wakes that it makes before it draws again."""
    wakes: dict[int, tuple[int, ...]] = {}
    returns: dict[int, bool] = {}
    given: dict[int, bool] = {}
    found = {}
    for at, access in reversed(list(enumerate(run.accesses))):
        i = seats[access.thread]
        if access.block == run.lock:
            if access.kind == "add" and access.word == NEXT:
                wakes[i], returns[i] = (), False
        elif access.kind == "wake":
            wakes[i] = (access.word, *wakes.get(i, ()))
        elif access.word < PLACES and access.word != i:
            if access.kind == "swap":
                given[i] = access.after % 8 == CODES[Code.BACK]
                returns[i] = returns.get(i, False) or given[i]
            some = wakes.get(i, ())
            found[at] = (given.get(i, False), some[1:] if returns.get(i, False) else some)
    return found


@dataclasses.dataclass
class Step:
    """One access in the replay: its seat, its events and turn, and the state before it."""

    seat: int
    events: list[Event]
    turn: Optional[Turn]
    crowd: Crowd
    hall: turns.Hall


class Replay:
    """The replay of a run by so many seats with so many calls each."""

    def __init__(self, run: Recording, seats: int, calls: int) -> None:
        self.run, self.seats = run, seats_of(run)
        if len(self.seats) > seats or not set(self.seats.values()) <= set(range(seats)):
            raise Refused(f"{len(self.seats)} threads, {seats} seats")
        self.chosen = chosen(run, self.seats)
        self.crowd, self.hall = crowd.start(seats, PLACES), turns.opened(seats, calls)
        # of each seat the state that it read last
        self.read = [0] * seats
        self.steps: list[Step] = []

    def word(self, access: Access) -> int:
        """What the model has in the word."""
        if access.block == self.run.lock:
            return {NEXT: self.crowd.next, SERVING: self.crowd.serving}.get(access.word, 0)
        if access.word < PLACES:
            lent = access.word < len(self.crowd.place)
            return in_word(self.crowd.place[access.word]) if lent else 0
        hint = self.crowd.hint[access.word - PLACES]
        return hint.ticket * PLACES + hint.seat if hint else 0

    def all(self) -> list[Step]:
        """Replays all accesses, and asks that each seat has ended its calls."""
        for at, access in enumerate(self.run.accesses):
            try:
                self.access(at, access)
            except Refused as refused:
                raise Refused(f"access {at}, {access}: {refused}") from None
        for i, phase in enumerate(self.crowd.phase):
            if phase != crowd.IDLE:
                raise Refused(f"at the end seat {i} is at {phase}")
        if self.crowd.serving != self.crowd.next:
            raise Refused(f"{self.crowd.next} tickets drawn, {self.crowd.serving} served")
        return self.steps

    def access(self, at: int, access: Access) -> None:
        """Replays one access."""
        i = self.seats[access.thread]
        if access.before != self.word(access):
            raise Refused(f"the word had {self.word(access)}")
        events, turn = self.meant(at, i, access)
        self.steps.append(Step(i, events, turn, self.crowd, self.hall))
        for event in events:
            found = crowd.after(self.crowd, event)
            if found is None:
                raise Refused(f"{event} at {self.crowd.phase[i]}")
            self.crowd = found
        if turn:
            hall = turns.turned(self.hall, turn, access.word)
            if hall is None:
                raise Refused(f"{turn} at {self.hall.seats[turn.seat]}")
            self.hall = hall
        if access.after != self.word(access):
            raise Refused(f"the word has {self.word(access)} after it")
        self.agrees(i, access)

    def agrees(self, i: int, access: Access) -> None:
        """Asks that the outcome of a sleep or a wake is the model's."""
        phase, before = self.crowd.phase[i], self.steps[-1].crowd
        if access.kind == "sleep" and bool(access.result) != crowd.is_still(phase):
            raise Refused(f"it slept: {access.result}")
        if access.kind == "wake":
            slept = before.phase[access.word] != self.crowd.phase[access.word]
            if access.word != i and access.result != slept:
                raise Refused(f"it woke {access.result}")

    def meant(self, at: int, i: int, access: Access) -> tuple[list[Event], Optional[Turn]]:
        """The events and the turn that an access of a seat stands for, where the seat is."""
        phase = self.crowd.phase[i]
        where = "lock" if access.block == self.run.lock else "places"
        if where == "places" and access.word >= PLACES:
            where = "hints"
        match where, access.kind, phase:
            case "lock", "add", _ if access.word == NEXT:
                return [Event("Take", i)], Turn("Draws", i)
            case "lock", "add", _ if access.word == SERVING:
                return [Event("Leave", i)], Turn("Serves", self.inside(i, phase))
            case "lock", "load", _ if access.word == SERVING:
                return self.look(i, phase)
            case "lock", "load", Leaves(_, _, errand) if access.word == NEXT:
                return [Event("LookBehind", i)], left("PeeksNext", i, errand)
            case "lock", "load", Leaves(_, _, errand) if access.word >= FIRST_WAKE_WORD:
                return [Event("Glance", i)], left("PeeksWord", i, errand)
            case "hints", "load", Leaves(x, _, Peeking()) if self.is_hint(access, x):
                return [Event("Peek", i)], None
            case "hints", "swap", Has(t, Stage.HINTING) if self.is_hint(access, t):
                return [Event("StoreHint", i)], None
            case "places", _, _:
                return self.at_place(at, i, access, phase), None
        raise Refused(f"no access of a seat at {phase}")

    def is_hint(self, access: Access, ticket: int) -> bool:
        """Whether the word is that of the ticket's hint."""
        return access.word == PLACES + ticket % PLACES

    def inside(self, i: int, phase: Phase) -> int:
        """The seat for which the seat i is inside the lock, or enters it."""
        match phase:
            case Leaves(_, _, (EnteringFor(j) | Helping(j))):
                return j
        return i

    def look(self, i: int, phase: Phase) -> tuple[list[Event], Optional[Turn]]:
        """A load of the served ticket."""
        match phase:
            case Has(_, (Stage.DRAWN | Stage.LOOKING)):
                return [Event("Look", i)], None
            case Has(_, Stage.ENTERING) | Leaves(_, _, EnteringFor()):
                return [Event("Look", i)], Turn("Looks", self.inside(i, phase))
            case Has(_, Stage.INSIDE) | Leaves(_, _, Helping()):
                return [], Turn("Records", self.inside(i, phase))
        raise Refused(f"a look of a seat at {phase}")

    def at_place(self, at: int, i: int, access: Access, phase: Phase) -> list[Event]:
        """An access of a place: of the own one, or of one whose hint was seen."""
        match access.kind, phase:
            case "swap", Has(_, Stage.DRAWN) if access.word == i:
                return [Event("Lend", i)]
            case "load", Has(_, Stage.READING) if access.word == i:
                self.read[i] = access.before
                return [Event("Read", i)]
            case "cas", Has(_, Stage.RETRACTING) if self.is_own_read(i, access):
                return [Event("Retract", i)]
            case "cas", Has(_, Stage.FETCHING) if self.is_own_read(i, access):
                return [Event("Fetch", i)]
            case "sleep", Has(_, stage) if stage in PARKS and self.is_own_read(i, access):
                return [Event("Park", i)]
            case "returns", Has(_, Stage.ASLEEP) if access.word == i:
                return [Event("SpuriousWake", i)]
            case "cas", Leaves(x, _, Claiming(j)) if access.word == j:
                if access.given == in_word(Place(Code.POSTED, x)):
                    return [Event("ClaimToReturn" if self.chosen[at][0] else "ClaimToHelp", i)]
            case "swap", Leaves(_, _, (Giving(j) | GivingLast(j) | Returning(j))) if access.word == j:
                return [Event("Give", i, self.chosen[at][1])]
            case "wake", Wakes((j, *_)) if access.word == j:
                return [Event("Wake", i)]
        raise Refused(f"no access of a seat at {phase}")

    def is_own_read(self, i: int, access: Access) -> bool:
        """Whether the access is of the own place, and compares the state that was read last."""
        return access.word == i and access.given == self.read[i]
