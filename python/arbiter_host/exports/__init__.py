"""Forms in which a change is written for review: each asks nothing of the host, and sets nothing.

A form is a module here, which has `documents`. What all forms share is here: a change, the groups
that differ, refusals, and where files are written. A form that cannot say a part of a change
refuses it by name: nothing is left out in silence.
"""
from __future__ import annotations

import importlib
import os
from collections.abc import Iterator, Sequence
from dataclasses import dataclass, field
from typing import NamedTuple

from arbiter import Library
from arbiter_host.base.atomic_files import Document, own_folder, put_all
from arbiter_host.base.faults import HostFault, UsageFault, check_none
from arbiter_host.base.model import Group, Model, check_settings
from arbiter_host.base.names import shown
from arbiter_host.base.output import emit
from arbiter_host.base.safe_files import Root, check_path, parts_of
from arbiter_host.setting import apply
from arbiter_host.sources.pods import kubelets

# What the first line of each file that is written holds.
MARK = "Written by arbiterctl apply -o "


class Differing(NamedTuple):
    """A group whose settings differ."""

    path: str
    before: Group
    after: Group

    @property
    def words(self) -> str:
        """The change, for a comment: one line."""
        one, two = (apply.settings_of(each) for each in (self.before, self.after))
        return f"{shown(self.path)}: {apply.in_words(one)} -> {apply.in_words(two)}"

    @property
    def has_weight(self) -> bool:
        return self.before.weight != self.after.weight

    @property
    def has_limit(self) -> bool:
        """Whether the quota or its period changes."""
        return self.before.max_words != self.after.max_words

    @property
    def has_request(self) -> bool:
        return self.after.request is not None and self.before.request != self.after.request

    @property
    def has_burst(self) -> bool:
        return self.before.burst != self.after.burst


@dataclass
class Draft:
    """A change that is to be written: both models, and the top of the tree."""

    before: Model
    after: Model
    root: Root
    library: Library
    # The conversion of shares that the runtime makes.
    runtime: str
    # What the form cannot say, and what is to be told beside, in words.
    refused: list[str] = field(default_factory=list)
    told: list[str] = field(default_factory=list)
    # The paths, before and after, of groups that the form takes to be one.
    moved: set[str] = field(default_factory=set)

    def common(self) -> Iterator[Differing]:
        """The groups that are in both models."""
        for path, one in self.before.groups.items():
            if path in self.after.groups:
                check_settings(self.after.groups[path])
                yield Differing(path, one, self.after.groups[path])

    def groups(self) -> Iterator[Differing]:
        """The groups whose settings differ."""
        return (each for each in self.common()
                if apply.settings_of(each.before) != apply.settings_of(each.after))

    def refuse(self, path: str, why: str) -> None:
        self.refused.append(f"{shown(path)}: {why}")

    def folder(self, group: Differing) -> str | None:
        """The folder of a group below the root; it is refused where that is not known."""
        try:
            return apply.folder_of(group.before, self.root)
        except HostFault as fault:
            self.refused.append(fault.message)
            return None


def head(form: str) -> str:
    """The first line of a file."""
    return f"# {MARK}{form}. Review it, then merge it.\n"


def of_kubelet(draft: Draft) -> list[str]:
    """The groups that change and that kubelet writes again, in words."""
    return [f"{shown(each.path)}: kubelet owns this group, and writes its own settings again"
            " (-o kubectl changes what it writes)" for each in draft.groups()
            if kubelets(each.path) or kubelets(each.before.place)]


def documents(form: str, draft: Draft) -> list[Document]:
    """The files of a change in a form; a fault names all that the form cannot say."""
    files: list[Document] = importlib.import_module(f"{__name__}.{form}").documents(draft)
    check_none(draft.refused, f"-o {form} cannot say this, so nothing is written:")
    return files


def write(to: str, documents: Sequence[Document]) -> list[str]:
    """Writes the files, and returns their paths; `-` prints one. A path that is no folder is that
    of one file."""
    check_path(to)
    if to == "-" and len(documents) == 1:
        emit(documents[0].text)
        return []
    files = [Document(os.path.abspath(to), each.text) for each in documents]
    if to.endswith("/") or os.path.isdir(to):
        for each in documents:
            parts_of(each.path)
        files = [Document(os.path.join(to, each.path), each.text) for each in documents]
    elif len(documents) > 1:
        raise UsageFault(f"-o FORM={shown(to)}: {len(documents)} files are to be written: name a"
                         " folder, with / at its end")
    if to.endswith("/"):
        os.close(own_folder(to.rstrip("/") or "/"))
    put_all(files, MARK, "`apply -o`")
    return [each.path for each in files]
