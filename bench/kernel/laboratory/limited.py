"""What the proved program says of the limits of groups in a trace.

Of each group a text has the picks, the ends and the periods. The order of picks is not asked there:
all leaves are stopped but the one that is picked.
"""
from __future__ import annotations

from collections.abc import Iterator

from laboratory.outside import words_of

# Lines that say nothing of a limit.
LEFT_OUT = ("level", "give", "cut", "stop", "bound", "late", "limit", "under")


def numbers(trace: str) -> list[int]:
    """The groups with limits."""
    return [words[0] for name, words in words_of(trace) if name == "limit"]


def members(trace: str, group: int) -> set[int]:
    """The leaves in a group or below it."""
    above = {words[0]: words[3] for name, words in words_of(trace) if name == "limit"}
    found = set[int]()
    for name, words in words_of(trace):
        number = words[1] if name == "under" else 0
        while number and number != group:
            number = above[number]
        if number:
            found.add(words[0])
    return found


def long_runs(trace: str) -> int:
    """Runs that used more than the quantum."""
    quantum = next(words[0] for name, words in words_of(trace) if name == "terms")
    return sum(name == "end" and words[1] > quantum for name, words in words_of(trace))


def lines_of(trace: str, group: int) -> Iterator[str]:
    """The lines for the program."""
    inside = members(trace, group)
    for name, words in words_of(trace):
        line = " ".join(map(str, words))
        if name == "limit" and words[0] == group:
            yield f"group {words[1]} {words[2]}"
        elif name == "leaf":
            yield f"{'member' if words[0] in inside else 'leaf'} {line}"
            yield f"stop {words[0]} 1"
        elif name == "pick":
            yield from (f"stop {words[1]} 0", f"pick {line}", f"stop {words[1]} 1")
        elif name == "refill":
            if words[0] == group:
                yield "refill"
        elif name not in LEFT_OUT:
            yield f"{name} {line}"


def text_of(trace: str, group: int) -> str:
    """The text for the program."""
    return "\n".join(lines_of(trace, group)) + "\n"
