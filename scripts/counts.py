#!/usr/bin/env python3
"""Keeps on this machine what the gate counted of each crate, as the kit keeps its proofs.

usage: counts.py FOLDER KIT     names what no gate counted of these sources, with status 1

A gate that takes a proof from an earlier run counts nothing of it. So each gate leaves a record of
each crate that it proved: a file of FOLDER, named by the crate and by a sum of all that the numbers
are of. These are the kit's line, HANDLES, and the lines of crates.txt and the files of the crate
and of all crates below. A crate that changed has another name, and so no record. Wrong bodies that
were refused have their own sums in it. All is read at the top of the repository.
"""
from __future__ import annotations

import hashlib
import json
import os
import re
import sys
import tempfile
from collections.abc import Sequence
from dataclasses import dataclass
from pathlib import Path
from typing import Any

from crates import crates, with_all_below

# What the kit reads of a crate to prove it and its tests.
PARTS = ("src", "specs", "proofs", "c")
# The numbers of a crate, by the kit's words for them.
WORDS = {"functions": "functions", "axioms": "axioms", "may_wait": "may-wait"}
# The kit's mark of a test.
TEST = re.compile(rb"#\s*\[[^]]*\btest\b")
# Most names in a message.
NAMED = 4
Numbers = dict[str, int]


@dataclass(frozen=True)
class Sources:
    """Sums of what is counted: of each crate with its newest change, and of its wrong bodies."""

    crates: dict[str, tuple[str, int]]
    edits: dict[str, dict[str, str]]


@dataclass(frozen=True)
class Counts:
    """The numbers of each crate, its wrong bodies that were refused, and what no gate counted."""

    crates: dict[str, Numbers]
    refused: dict[str, list[str]]
    lacks: list[str]


def files(name: str) -> tuple[list[str], list[str]]:
    """All files that the kit reads of a crate, and their folders."""
    walked = [each for part in PARTS for each in os.walk(f"crates/{name}/{part}")]
    return (sorted(f"{at}/{each}" for at, _, names in walked for each in names),
            [at for at, _, _ in walked])


def own(name: str) -> tuple[str, int]:
    """A sum of a crate's files, and their newest change."""
    found, (paths, folders) = hashlib.sha256(), files(name)
    for path in paths:
        data = Path(path).read_bytes()
        found.update(f"{path!r} {len(data)}\n".encode() + data)
    newest = max((os.lstat(path).st_ctime_ns for path in (*paths, *folders)), default=0)
    return found.hexdigest(), newest


def look(kit: str) -> Sources:
    """The sums of the sources as they are now."""
    shared = [Path(name) for name in ("crates.txt", "HANDLES")]
    handles, newest = shared[1].read_text(), max(path.stat().st_ctime_ns for path in shared)
    lines = {line.split()[0].rstrip(":"): line.partition("#")[0].strip()
             for line in shared[0].read_text().split("\n") if ":" in line}
    each, found = {name: own(name) for name in crates()}, {}
    for name in each:
        below = sorted(with_all_below(name))
        text = repr((kit, handles, [(it, lines[it], each[it][0]) for it in below]))
        found[name] = (hashlib.sha256(text.encode()).hexdigest(),
                       max(newest, *(each[it][1] for it in below)))
    edits: dict[str, dict[str, str]] = {name: {} for name in each}
    for path in sorted(Path("crates").glob("*/must-fail/*.edit")):
        edits.setdefault(path.parts[1], {})[path.stem] = hashlib.sha256(
            path.read_bytes()).hexdigest()
    return Sources(found, edits)


def counted(text: str) -> dict[str, dict[str, Numbers]]:
    """The numbers of what a gate proved in this run, by crate and by 'proof' or 'tests'. A proof
    that it took from an earlier run, or that failed, has none."""
    found: dict[str, dict[str, Numbers]] = {}
    numbers: Numbers = {}
    for head, line, name, tests in re.findall(
            r"^(== ).*|^logic=proved (.*)|^rt: (\w+)(: its tests are)? proved$", text, re.M):
        if line:
            words = dict(each.split("=", 1) for each in line.split() if "=" in each)
            numbers = {key: max(numbers.get(key, 0), int(words.get(word, 0)))
                       for key, word in WORDS.items()}
        elif head:
            numbers = {}
        elif numbers:
            found.setdefault(name, {})["tests" if tests else "proof"] = numbers
    return found


def refused(text: str) -> dict[str, list[str]]:
    """The wrong bodies that a gate saw refused, by their crates."""
    found: dict[str, list[str]] = {}
    for crate, edit in re.findall(
            r"^rt: must-fail (\w+)/([\w.-]+)\.edit: refused, as it must be", text, re.M):
        found.setdefault(crate, []).append(edit)
    return found


def record(folder: Path, name: str, total: str) -> dict[str, dict[str, Any]]:
    """What gates counted of a crate with that sum."""
    try:
        found: dict[str, dict[str, Any]] = json.loads((folder / f"{name}-{total}.json").read_text())
    except (OSError, ValueError):
        return {}
    return found


def keep(folder: Path, text: str, before: Sources, after: Sources) -> None:
    """Adds what a gate said to the records. What changed while it ran is left out."""
    proofs, bodies = counted(text), refused(text)
    for name, (total, _) in before.crates.items():
        if before.crates[name] != after.crates.get(name):
            continue
        edits = {each: before.edits[name][each] for each in bodies.get(name, [])
                 if each in before.edits[name] and before.edits[name] == after.edits.get(name)}
        if not (edits or name in proofs):
            continue
        found = record(folder, name, total)
        if name in proofs:
            found.update(proofs[name])
        found["refused"] = {**found.get("refused", {}), **edits}
        folder.mkdir(parents=True, exist_ok=True)
        with tempfile.NamedTemporaryFile("w", dir=folder, delete=False) as file:
            json.dump(found, file)
        os.replace(file.name, folder / f"{name}-{total}.json")


def has_tests(name: str) -> bool:
    """Whether the kit proves tests of a crate too."""
    return any(TEST.search(Path(path).read_bytes()) for path in files(name)[0]
               if path.endswith(".rt"))


def told(folder: Path, kit: str) -> Counts:
    """What the records tell of the sources as they are now."""
    now, found = look(kit), Counts({}, {}, [])
    for name, (total, _) in now.crates.items():
        its = record(folder, name, total)
        parts = ("proof", "tests")[:1 + has_tests(name)]
        if its.keys() >= set(parts):
            found.crates[name] = {key: max(its[part][key] for part in parts) for key in WORDS}
        else:
            found.lacks.append(name)
        seen = its.get("refused", {})
        found.lacks.extend(f"{name}/{each}.edit" for each, its_sum in now.edits[name].items()
                           if seen.get(each) != its_sum)
        if seen and now.edits[name]:
            found.refused[name] = [each for each in now.edits[name] if each in seen]
    found.lacks.sort(key=lambda each: "/" in each)
    return found


def message(lacks: Sequence[str]) -> str:
    """Which counts a release has not."""
    more = f" and {len(lacks) - NAMED} more" if len(lacks) > NAMED else ""
    return f"no gate on this machine counted {', '.join(lacks[:NAMED])}{more}: ./test --anew does"


def main(words: Sequence[str]) -> int:
    folder, kit = words
    lacks = told(Path(folder), kit).lacks
    if lacks:
        print(f"build: no release: {message(lacks)}", file=sys.stderr)
    return int(bool(lacks))


if __name__ == "__main__":
    sys.exit(main(sys.argv[1:]))
