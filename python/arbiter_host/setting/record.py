"""The undo file of a loop, rewritten while it runs, and the lock that keeps a second loop away.

Both are in folders that other users cannot change, nor any folder above. No link is followed at
their names.
"""
from __future__ import annotations

import fcntl
import os
import shlex
import time
from contextlib import ExitStack
from dataclasses import replace
from typing import NamedTuple

from arbiter_host.base.atomic_files import FLAGS, faults, own_folder, place_of
from arbiter_host.base.faults import HostFault
from arbiter_host.base.names import shown
from arbiter_host.base.safe_files import closing_file

FOLDER = "/run/arbiter"
LOCK = "hold.lock"
# Number of tries of a lock, and the seconds between.
TURNS, PATIENCE = 5, 0.1
# Bytes of two paths.
MOST_TEXT = 2 * 4096


def locked(file: int, how: int) -> bool:
    """Locks a file, unless another process has it locked."""
    try:
        fcntl.flock(file, how | fcntl.LOCK_NB)
        return True
    except BlockingIOError:
        return False


def locked_soon(file: int) -> bool:
    """Locks a file for this process alone. One that asks who holds it has it for a moment."""
    for _ in range(TURNS):
        if locked(file, fcntl.LOCK_EX):
            return True
        time.sleep(PATIENCE)
    return False


class LastLoop(NamedTuple):
    """The text of a lock's file of the last loop: the top of its tree, and its undo file."""

    top: str
    undo: str = ""


def last_loop(file: int) -> LastLoop:
    """Reads the file of a lock."""
    return LastLoop(*os.fsdecode(os.pread(file, MOST_TEXT, 0)).split("\0")[:2])


def check_gone(undo: str) -> None:
    """A fault where there is an undo file. The name may be taken by a link that leads nowhere."""
    if os.path.lexists(undo):
        raise HostFault(f"the undo file {shown(undo)}: File exists; nothing is changed. If a loop"
                        f" was killed: arbiterctl undo {shlex.quote(undo)} --yes, and remove it"
                        " then")


def lock(path: str, top: str = "", undo: str = "") -> list[int]:
    """Locks a folder against a second loop. The lock stands while the descriptors are open. Its
    file tells of the loop. A fault where the last one was killed, and is not undone."""
    name = os.path.join(path, LOCK)
    with ExitStack() as opened:
        folder = own_folder(path)
        opened.callback(os.close, folder)
        with faults(name):
            file = os.open(LOCK, os.O_RDWR | os.O_CREAT | FLAGS, 0o600, dir_fd=folder)
            opened.callback(os.close, file)
            if not locked_soon(file):
                raise HostFault(f"{shown(name)}: another loop holds this host; nothing is changed")
            check_gone(last_loop(file).undo)
            os.ftruncate(file, 0)
            os.pwrite(file, os.fsencode(f"{top}\0{undo}"), 0)
        opened.pop_all()
    return [folder, file]


def holder(path: str) -> LastLoop | None:
    """The text about the loop that runs by the lock of a folder; None where none does, or where
    this user cannot tell."""
    try:
        file = os.open(os.path.join(path, LOCK), os.O_RDONLY | os.O_NONBLOCK | FLAGS)
    except OSError:
        return None
    with closing_file(file):
        return None if locked(file, fcntl.LOCK_SH) else last_loop(file)


class Record:
    """An undo file. Each text is on the disk when `put` returns; a kill leaves a whole text."""

    def __init__(self, path: str) -> None:
        place = place_of(path)
        # The text that was put last; empty where there is no file.
        self.path, self.text = os.path.abspath(path), ""
        self.place = replace(place, part=f"{place.name}.part")
        with ExitStack() as stack:
            stack.callback(self.close)
            check_gone(self.path)
            stack.pop_all()

    def put(self, text: str) -> None:
        """Puts a text in place of the last."""
        with faults(self.path):
            self.place.put(text.encode(), is_new=not self.text)
            self.text = text
            os.fsync(self.place.folder)

    def remove(self) -> None:
        if self.text:
            with faults(self.path):
                os.unlink(self.place.name, dir_fd=self.place.folder)
            self.text = ""

    def close(self) -> None:
        self.place.close()
