"""The steps of a change, which `apply` and `undo` print and make."""
from __future__ import annotations

import os
from collections.abc import Iterable, Iterator, Sequence
from contextlib import contextmanager, suppress

from arbiter_host.base import names, safe_files
from arbiter_host.base.faults import HostFault
from arbiter_host.base.output import emit
from arbiter_host.setting import apply, record


def print_steps(root: safe_files.Root, steps: Sequence[apply.Step]) -> None:
    """Prints steps as lines of a shell."""
    emit("".join(f"{names.shown(step.words(root))}\n" for step in steps) or "# no change\n")


@contextmanager
def printing(root: safe_files.Root) -> Iterator[list[apply.Step]]:
    """A list whose steps are printed at the end: those that were made, also where a fault ends it.
    Nothing is printed before: a reader that goes away stops no change halfway."""
    done: list[apply.Step] = []
    try:
        yield done
    except HostFault:
        if done:
            with suppress(HostFault, BrokenPipeError):
                print_steps(root, done)
        raise
    print_steps(root, done)


def check_no_loop(root: safe_files.Root, folders: Iterable[str]) -> None:
    """A fault where a loop of `hold` has limits in a group: they would be taken for the operator's
    own, and an undo would bring them back for good. A group may have another path there."""
    loop = record.holder(record.FOLDER)
    if loop is None:
        return
    with safe_files.faults(loop.top):
        held = set(safe_files.identities(loop.top))
    for path in (os.path.join(root.path, folder) for folder in folders):
        # (a group that is gone is told later)
        with suppress(FileNotFoundError):
            if safe_files.identity_of(path) in held:
                raise HostFault(f"{path}: arbiterctl hold runs on {loop.top}: what stands there is"
                                " its own; nothing is changed. End it first, as by systemctl stop"
                                " arbiter-hold")
