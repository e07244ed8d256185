"""All states that a few seats reach, and the most rounds in which the served ticket is raised.

Explored are the model `Crowd`, in which a move is an event, and the code, in which it is an access.
The code makes the model's events and one load more for a ticket.

usage: PYTHONPATH=tests python3 -m lock.explore [SEATS]
"""
from __future__ import annotations

import collections
import dataclasses
import itertools
import sys
from collections.abc import Callable, Iterator
from typing import NamedTuple, Optional

from lock import crowd
from lock.crowd import OWN_LOADS, Crowd, Event, Giving, GivingLast, Has, Helping, Hint, Leaves
from lock.crowd import Peeking, Phase, Stage, Wakes

# More rounds than any law has: the ticket that is served is never raised.
NEVER = 100


# Of each state its steps: the seat, the next state, and whether the served ticket rises.
Edges = list[list[tuple[int, int, bool]]]


class State(NamedTuple):
    """A state of the model, and of the code of each seat whether a load or a look is made."""

    crowd: Crowd
    marks: tuple[int, ...]


Steps = Callable[[State, int], Iterator[State]]


def gives(phase: Phase) -> Iterator[tuple[int, ...]]:
    """The orders in which a seat may wake those that it will owe wakes."""
    if isinstance(phase, Leaves):
        owed = set(phase.owed)
        if isinstance(phase.errand, (Giving, GivingLast)):
            owed.add(phase.errand.seat)
        yield from itertools.permutations(sorted(owed))


def events(s: Crowd, i: int) -> Iterator[Event]:
    """The events that the seat can make."""
    for event in [*(Event(name, i) for name in crowd.AFTER),
                  *(Event("Give", i, ks) for ks in gives(s.phase[i]))]:
        if crowd.after(s, event) is not None:
            yield event


def after(s: Crowd, *made: Event) -> Crowd:
    """The state after events that are possible."""
    for event in made:
        found = crowd.after(s, event)
        assert found is not None, event
        s = found
    return s


def model_steps(state: State, i: int) -> Iterator[State]:
    """The events of the model."""
    for event in events(state.crowd, i):
        yield State(after(state.crowd, event), state.marks)


def mark_of(old: Phase, new: Phase) -> int:
    """Whether a seat that has moved so has a load before its next event, or has looked once."""
    match new:
        case Has(_, Stage.DRAWN):
            return int(isinstance(old, Has))
        case Has(_, Stage.INSIDE) | Leaves(_, _, Helping()):
            return 1
    return 0


def code_steps(state: State, i: int) -> Iterator[State]:
    """The accesses of the code. A mark is of a load that is due, or a look that was made in vain."""
    s, mark = state
    phase = s.phase[i]

    def marked(found: Crowd, new: Optional[int] = None) -> State:
        some = mark_of(phase, found.phase[i]) if new is None else new
        return State(found, crowd.put(state.marks, i, some))

    match phase:
        case (Has(_, Stage.INSIDE) | Leaves(_, _, Helping())) if mark[i]:
            yield marked(s, 0)
        case Leaves(_, _, (Peeking(k) | Giving(_, k))) if k == OWN_LOADS:
            yield marked(after(s, Event("LookBehind", i)))
        case Leaves(_, _, (Peeking(k) | Giving(_, k))) if k:
            yield marked(after(s, Event("Glance", i)))
        case _:
            for event in events(s, i):
                # a seat looks before it lends itself
                if event.name != "Lend" or mark[i]:
                    yield marked(after(s, event))


def normal(state: State) -> State:
    """The state with tickets counted from the one that is served. All below it are one."""
    s, v = state.crowd, state.crowd.serving

    def shifted(ticket: int) -> int:
        return max(ticket - v, -1)

    def phase(one: Phase) -> Phase:
        return one if isinstance(one, Wakes) else one._replace(ticket=shifted(one.ticket))

    def hint(word: int) -> Optional[Hint]:
        one = s.hint[(word + v) % s.words]
        return one._replace(ticket=one.ticket - v) if one and one.ticket >= v else None

    places = tuple(one if one == crowd.AWAY else one._replace(
        ticket=shifted(one.ticket), helper=one.helper if one.code is crowd.Code.CLAIMED else 0)
        for one in s.place)
    return State(dataclasses.replace(
        s, next=s.next - v, serving=0, owner=(), phase=tuple(map(phase, s.phase)), place=places,
        hint=tuple(map(hint, range(s.words)))), state.marks)


def awake(s: Crowd) -> int:
    """The seats that are awake, as bits."""
    return sum(1 << i for i, phase in enumerate(s.phase) if not crowd.is_still(phase))


def explored(seats: int, steps: Steps) -> tuple[Edges, list[int]]:
    """The steps of each state, and who is awake in it; nobody where no ticket is drawn."""
    first = State(crowd.start(seats, seats), (0,) * seats)
    numbers, states = {first: 0}, [first]
    edges = []
    for state in states:
        found = set()
        for i in range(seats):
            for new in steps(state, i):
                rises, new = new.crowd.serving > 0, normal(new)
                if new not in numbers:
                    numbers[new] = len(states)
                    states.append(new)
                found.add((i, numbers[new], rises))
        edges.append(sorted(found))
    return edges, [awake(state.crowd) if state.crowd.next else 0 for state in states]


def most_rounds(seats: int, steps: Steps) -> tuple[int, int]:
    """The number of states, and the most rounds in which the served ticket is raised."""
    edges, masks = explored(seats, steps)
    # nodes are a state and the seats that have yet to move in the round
    most: dict[tuple[int, int], int] = {}
    before: dict[tuple[int, int], set[tuple[tuple[int, int], int]]] = collections.defaultdict(set)
    reached = [(at, mask) for at, mask in enumerate(masks) if mask]
    todo, seen, changed = list(reached), set(reached), []
    while todo:
        node = todo.pop()
        for i, new, rises in edges[node[0]]:
            if rises:
                most[node] = 1
                changed.append(node)
                continue
            left = node[1] & ~(1 << i)
            following = (new, left or masks[new])
            before[following].add((node, 0 if left else 1))
            if following not in seen:
                seen.add(following)
                todo.append(following)
    while changed:
        node = changed.pop()
        for earlier, round_ends in before[node]:
            count = most[node] + round_ends
            if count > most.get(earlier, 0):
                if count > NEVER:
                    raise ValueError("rounds without end")
                most[earlier] = count
                changed.append(earlier)
    return len(masks), max(most[node] for node in reached)


def main() -> None:
    seats = int(sys.argv[1]) if len(sys.argv) > 1 else 2
    for what, steps in (("events", model_steps), ("accesses", code_steps)):
        states, rounds = most_rounds(seats, steps)
        print(f"{seats} seats, {what}: {states} states, {rounds} rounds")


if __name__ == "__main__":
    main()
