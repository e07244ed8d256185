"""Access to data whose form is not known: each call gives a value of the type or nothing."""
from __future__ import annotations

import json
from collections.abc import Sequence
from typing import Any

from arbiter_host.base.faults import HostFault

MAX_TEXT = 253
# Begins of the address of a server.
SCHEMES = ("http://", "https://")
MAX_BYTES = 128 << 20
# Memory that the data of JSON may take, and about how much each letter of it stands for at most.
MOST_MEMORY = 1 << 30
COSTS = {b"[": 80, b"{": 240, b",": 64}


def check_size(data: bytes, name: str, most: int = MAX_BYTES) -> None:
    """A fault where a file has more bytes than that."""
    if len(data) > most:
        raise HostFault(f"{name}: more than {most >> 20} MiB")


def decoded(data: bytes, name: str, most: int = MAX_BYTES, errors: str = "strict") -> str:
    """The text of a file of at most so many bytes; a fault names the line that is none."""
    check_size(data, name, most)
    try:
        return data.decode("utf-8-sig", errors)
    except UnicodeDecodeError as error:
        line = data[:error.start].count(b"\n") + 1
        raise HostFault(f"{name}:{line}: not UTF-8") from error


def check_memory(data: bytes, name: str) -> None:
    """A fault where the data of JSON could take more memory than that."""
    width = 1 if data.isascii() else 4
    if len(data) * (1 + 2 * width) + sum(
            cost * data.count(letter) for letter, cost in COSTS.items()) > MOST_MEMORY:
        raise HostFault(f"{name}: too many values: to read them may take more than"
                        f" {MOST_MEMORY >> 20} MiB of memory")


def why_not(error: json.JSONDecodeError) -> str:
    """Why a text is no JSON."""
    return ("a second value begins here: each is a file of its own" if error.msg == "Extra data"
            else error.msg)


def loads(data: bytes, name: str) -> Any:
    """The data of a JSON file; a fault names file and line."""
    words = decoded(data, name)
    check_memory(data, name)
    try:
        return json.loads(words)
    except json.JSONDecodeError as error:
        raise HostFault(f"{name}:{error.lineno}: no JSON: {why_not(error)}") from error
    except (RecursionError, ValueError) as error:
        raise HostFault(f"{name}:1: no JSON that can be read: {error}") from error


def cells_of(cells: Sequence[str], head: Sequence[str], where: str,
             what: str = "cells") -> dict[str, str]:
    """The cells of a row by the names of its columns; a fault where it has more or fewer."""
    if len(cells) != len(head):
        raise HostFault(f"{where}: {len(cells)} {what} and not {len(head)}")
    return dict(zip(head, cells))


def field(value: Any, *keys: str) -> Any:
    """The value below tables, by their keys; None where there is none."""
    for key in keys:
        value = value.get(key) if isinstance(value, dict) else None
    return value


def flat(value: Any) -> list[Any]:
    """The values of a list and of the lists in it, as `jq -s` puts these; else the value alone."""
    each = value if isinstance(value, list) else [value]
    return [one for part in each for one in (part if isinstance(part, list) else [part])]


def table(value: Any, *keys: str) -> dict[str, Any]:
    """A table below a value; an empty one where there is none."""
    inner = field(value, *keys)
    return inner if isinstance(inner, dict) else {}


def tables(value: Any, *keys: str) -> list[dict[str, Any]]:
    """The tables of a list below a value."""
    rows = field(value, *keys)
    return [each for each in rows if isinstance(each, dict)] if isinstance(rows, list) else []


def text_field(value: Any, *keys: str) -> str:
    """A text below a value; empty where there is none."""
    word = field(value, *keys)
    return word[:MAX_TEXT] if isinstance(word, str) else ""


def number(value: Any, *keys: str) -> int:
    """A whole number below a value, at most 2^63; 0 where there is none."""
    inner = field(value, *keys)
    if isinstance(inner, bool) or not isinstance(inner, int):
        return 0
    return min(max(inner, -2**63), 2**63)
