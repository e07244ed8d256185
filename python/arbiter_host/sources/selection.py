"""The groups that -g, -n and -l choose, each with what is below it."""
from __future__ import annotations

from collections.abc import Iterable, Sequence
from typing import NamedTuple

from arbiter_host.base import demands
from arbiter_host.base.faults import NothingFound, UsageFault
from arbiter_host.base.model import Model
from arbiter_host.base.names import few, parent_path, shown


class Selection(NamedTuple):
    """The words of -g, -n and -l."""

    groups: Sequence[str] = ()
    namespaces: Sequence[str] = ()
    selectors: Sequence[str] = ()

    @property
    def words(self) -> str:
        """The options as they are given."""
        return " ".join(f"-{letter} {word}" for letter, words in zip("gnl", self) for word in words)


def chosen(model: Model, by: Selection) -> frozenset[str] | None:
    """The paths that are chosen; None where no option chooses. A fault of status 6 where nothing
    fits."""
    parts = []
    if by.groups:
        parts.append(with_below(model, [group.path for word in by.groups
                                        for group in demands.matching(model, word)]))
    if by.namespaces or by.selectors:
        parts.append(with_below(model, pods(model, by)))
    if not parts:
        return None
    paths = frozenset.intersection(*parts)
    if not paths:
        raise NothingFound("no group is chosen by all of -g, -n and -l")
    return paths


def labels_of(words: Sequence[str]) -> dict[str, str]:
    """The labels that -l asks for, all of which a pod has to have."""
    labels = {}
    for word in (part for each in words for part in each.split(",")):
        key, equals, value = word.partition("=")
        if not key or not equals:
            raise UsageFault(f"-l {shown(word)}: not LABEL=VALUE")
        labels[key] = value.removeprefix("=")
    return labels


def pods(model: Model, by: Selection) -> list[str]:
    """The groups of the pods of some namespaces that have all labels asked for."""
    labels = labels_of(by.selectors)
    source = model.owned
    paths = source.pods_where(by.namespaces, labels) if source else []
    if not paths:
        spaces = sorted({each.pod[0] for each in model.groups.values()} - {""})
        there = f" (namespaces here: {few(list(map(shown, spaces)))})" if spaces else ""
        raise NothingFound(f"no pod of {shown(by._replace(groups=()).words)}{there}")
    return paths


def with_below(model: Model, tops: Iterable[str]) -> frozenset[str]:
    """Some groups and all below them."""
    paths = set(tops)
    for path in model.groups:
        if parent_path(path) in paths:
            paths.add(path)
    return frozenset(paths)
