"""Searches over whole numbers and over changes, whatever it is that is asked of them."""
from __future__ import annotations

import bisect
from collections.abc import Callable, Sequence
from typing import TypeVar

from arbiter_host.base import progress

T = TypeVar("T")


def least(low: int, high: int, reaches: Callable[[int], bool]) -> int:
    """The least number from `low` to `high` that reaches, by halving.

    Each number above one that reaches does too. `high` is taken to, and is not tried.
    """
    return low + bisect.bisect_left(range(low, high), True, key=reaches)


def least_near(low: int, high: int, guess: int, reaches: Callable[[int], bool]) -> int | None:
    """The least number from `low` to `high` that reaches, or None where none does. A guess that is
    right is found by two tries."""
    if not reaches(guess):
        return least(guess + 1, high, reaches) if guess < high and reaches(high) else None
    return guess if guess == low or not reaches(guess - 1) else least(low, guess - 1, reaches)


def least_of(parts: Sequence[tuple[int, int]], reaches: Callable[[int], bool]) -> int | None:
    """The least number of some parts that reaches, where in each part a greater one does too."""
    return next((least(low, high, reaches) for low, high in parts if reaches(high)), None)


def needed(changes: Sequence[T], meets: Callable[[Sequence[T]], bool], what: str) -> list[T]:
    """The changes of which none can be left out: each is left out where the others meet so too."""
    kept, tried = list(changes), -1
    while len(kept) != tried:
        tried = len(kept)
        for each in progress.each(what, list(kept), len(kept)):
            rest = [other for other in kept if other != each]
            kept = rest if meets(rest) else kept
    return kept
