"""Rounds of a replayed run, cut as soon as each seat that was awake has moved.

`IsRound` of bw_lend asks an event of each seat that is not still, `IsRoundOfTurns` of bw_ticket a
turn that brings it on. From any state the shortest round ends with the last seat's first move.
"""
from __future__ import annotations

from collections.abc import Sequence
from typing import NamedTuple, Optional

from lock import crowd, turns
from lock.replay import Step

NEVER = 1 << 60
CROWD_ROUNDS, TURN_ROUNDS = 17, 8  # SeventeenRoundsRaiseServing, RunsServeDrawnTickets
ACCESS_ROUNDS = 18  # AccessesServeDrawnTickets


class Move(NamedTuple):
    """One step: who moves, who was awake before it, and the tickets drawn and served before it."""

    seat: Optional[int]
    awake: frozenset[int]
    next: int
    serving: int


def ends_of_rounds(moves: Sequence[Move]) -> list[int]:
    """Of each step, the first one after the shortest round that begins with it."""
    soonest: dict[int, int] = {}
    ends = [NEVER] * len(moves)
    for at in range(len(moves) - 1, -1, -1):
        move = moves[at]
        if move.seat is not None:
            soonest[move.seat] = at
        ends[at] = 1 + max((soonest.get(seat, NEVER) for seat in move.awake), default=at)
    return ends


def greatest(moves: Sequence[Move]) -> int:
    """The most rounds until the served ticket was raised, from any state with a ticket drawn."""
    ends, raised, most = ends_of_rounds(moves), NEVER, 0
    counts = [0] * (len(moves) + 1)
    for at in range(len(moves) - 1, -1, -1):
        if at + 1 < len(moves) and moves[at + 1].serving > moves[at].serving:
            raised = at
        if moves[at].serving < moves[at].next and raised < NEVER:
            counts[at] = 1 if ends[at] > raised else 1 + counts[ends[at]]
            most = max(most, counts[at])
    return most


def most_for_a_ticket(moves: Sequence[Move]) -> float:
    """The most rounds from a draw until the ticket was served, for each ticket up to it."""
    ends, most = ends_of_rounds(moves), 0.0
    served = {move.serving: at for at, move in reversed(list(enumerate(moves)))}
    for at in range(1, len(moves)):
        ticket = moves[at].next - 1
        if moves[at - 1].next == ticket and ticket + 1 in served:
            count, now = 0, at
            while now < served[ticket + 1]:
                count, now = count + 1, ends[now]
            most = max(most, count / (ticket + 1 - moves[at].serving))
    return most


def still_moves(steps: Sequence[Step], accesses: bool) -> list[Move]:
    """The moves of the crowd: of its events, or of all accesses."""
    return [Move(step.seat if step.events or accesses else None,
                 frozenset(i for i, phase in enumerate(step.crowd.phase)
                           if not crowd.is_still(phase)),
                 step.crowd.next, step.crowd.serving) for step in steps]


def turn_moves(steps: Sequence[Step]) -> list[Move]:
    """The moves of the lock's seats, each by whoever has it."""
    return [Move(step.turn.seat if step.turn else None,
                 frozenset(i for i, view in enumerate(step.hall.seats)
                           if not turns.is_still(view)),
                 step.hall.words[turns.NEXT], step.hall.words[turns.SERVING]) for step in steps]
