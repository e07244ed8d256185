"""Writes files whole or not at all, in folders that other users cannot change.

A file is written beside its name, under a name that nobody reads, and gets its own when it is
whole. No link is followed at either name. What has the name is looked at first, so that no file of
another program is replaced.
"""
from __future__ import annotations

import errno
import functools
import os
import secrets
import stat
from collections.abc import Callable, Iterator, Sequence
from contextlib import ExitStack, closing, contextmanager, suppress
from dataclasses import dataclass, field
from typing import NamedTuple

from arbiter_host.base import safe_files
from arbiter_host.base.faults import HostFault
from arbiter_host.base.names import shown
from arbiter_host.base.safe_files import check_path, has_writers, is_of_others

FLAGS = os.O_NOFOLLOW | os.O_CLOEXEC
PLACE, FOLDERS = os.O_PATH | FLAGS, os.O_RDONLY | os.O_DIRECTORY | FLAGS
# Links on the way to a folder, as the kernel has it.
MOST_LINKS = 40
# Bytes at the beginning of a file that may hold its mark.
HEAD = 200
# Ends of a line that tells a fault.
CHANGED, WRITTEN = "; nothing is changed", "; nothing is written"
faults = functools.partial(safe_files.faults, end=CHANGED)


def check_way(path: str, descriptor: int, is_own: bool = False) -> None:
    """A fault where another user may change a file, or which file a name of a folder stands for. In
    a sticky folder users change names of their own files alone, but make any."""
    status = os.fstat(descriptor)
    is_folder = stat.S_ISDIR(status.st_mode)
    if not is_folder and not stat.S_ISREG(status.st_mode):
        raise HostFault(f"{shown(path)}: no plain file{CHANGED}")
    is_sticky = is_folder and status.st_mode & stat.S_ISVTX and not is_own
    if (is_of_others(status, 0 if is_sticky else 0o022) or is_own and status.st_uid != os.geteuid()
            or not is_sticky and has_writers(descriptor)):
        raise HostFault(f"{shown(path)}: other users may change this"
                        f" {'folder' if is_folder else 'file'}{CHANGED}")


def link_text(path: str, descriptor: int) -> str:
    """The text of a link; empty for what is none. Anybody makes links in a sticky folder, so a link
    has to be this user's or root's."""
    status = os.fstat(descriptor)
    if not stat.S_ISLNK(status.st_mode):
        return ""
    if is_of_others(status):
        raise HostFault(f"{shown(path)}: a link of another user{CHANGED}")
    return os.readlink("", dir_fd=descriptor)


def descended(path: str, opened: ExitStack) -> int:
    """Opens a folder or a file from the root on, not to be read. A fault where others may change
    it, or a folder or a link of its path."""
    def step(name: str, above: int = -1) -> int:
        descriptor = os.open(name, PLACE, dir_fd=above)
        opened.callback(os.close, descriptor)
        return descriptor

    names, links, here, where = path.split("/")[::-1], 0, step("/"), "/"
    while names:
        check_way(where, here)
        name = names.pop() or "."
        below, whole = step(name, here), os.path.join(where, name)
        link = link_text(whole, below)
        if not link:
            here, where = below, os.path.normpath(whole)
            continue
        links += 1
        if links > MOST_LINKS:
            raise OSError(errno.ELOOP, os.strerror(errno.ELOOP))
        names += link.split("/")[::-1]
        if link.startswith("/"):
            here, where = step("/"), "/"
    check_way(where, here)
    return here


def kept_file(path: str, flags: int = 0) -> int:
    """Opens a plain file or a folder to be read, which no other user may change or swap. What is
    neither is not opened."""
    check_path(path)
    with faults(path), ExitStack() as opened:
        place = descended(os.path.join(os.getcwd(), path), opened)
        descriptor = os.open(f"/proc/self/fd/{place}", os.O_RDONLY | os.O_CLOEXEC | flags)
    return descriptor


def kept_folder(path: str) -> int:
    """Opens a folder where no other user may swap a file of this user."""
    return kept_file(path, os.O_DIRECTORY)


def opened_own(path: str, name: str, above: int | None = None) -> int:
    """Opens a folder, if it is this user's alone to change."""
    descriptor = os.open(name, FOLDERS, dir_fd=above)
    try:
        check_way(path, descriptor, is_own=True)
    except BaseException:
        os.close(descriptor)
        raise
    return descriptor


def own_folder(path: str) -> int:
    """Opens a folder that is this user's alone to change, below folders that are so or root's. It
    is made where there is none."""
    check_path(path)
    above, name = os.path.split(os.path.abspath(path))
    with faults(path), ExitStack() as opened:
        place = descended(above, opened)
        if name:
            with suppress(FileExistsError):
                os.mkdir(name, 0o700, dir_fd=place)
        descriptor = opened_own(path, name or "/", place)
    return descriptor


def collected_folder(path: str) -> int:
    """Opens a folder of a textfile collector, which is this user's alone to change. Those above it
    may be the collector's, as Debian has them: who changes them hides metrics, and no more."""
    check_path(path)
    with faults(path):
        return opened_own(path, os.path.abspath(path))


@dataclass(frozen=True)
class Place:
    """Where a file is written: a folder that is open, and the file's name there."""

    folder: int
    name: str
    mode: int = 0o600
    # Whether the file is on the disk before it gets its name.
    is_synced: bool = True
    # The name that it has until it is whole: one that nobody reads, and no other writer takes. A
    # loop has one name: what a kill leaves is then replaced.
    part: str = field(default_factory=lambda: f".{secrets.token_hex(8)}.part")

    def check_ours(self, path: str, mark: str, words: str) -> None:
        """A fault where the name is taken, but by a plain file with a mark at its beginning."""
        try:
            descriptor = os.open(self.name, os.O_RDONLY | os.O_NONBLOCK | FLAGS,
                                 dir_fd=self.folder)
        except FileNotFoundError:
            return
        with safe_files.closing_file(descriptor):
            is_plain = stat.S_ISREG(os.fstat(descriptor).st_mode)
            if not is_plain or mark.encode() not in os.read(descriptor, HEAD):
                raise HostFault(f"{shown(path)}: is there, and {words}")

    def open_new(self) -> int:
        """Opens a new file to be written. A plain one of its name was left by a kill."""
        def made() -> int:
            return os.open(self.part, os.O_WRONLY | os.O_CREAT | os.O_EXCL | FLAGS, self.mode,
                           dir_fd=self.folder)

        try:
            return made()
        except FileExistsError:
            if not stat.S_ISREG(os.lstat(self.part, dir_fd=self.folder).st_mode):
                raise
        os.unlink(self.part, dir_fd=self.folder)
        return made()

    @contextmanager
    def waiting(self, data: bytes) -> Iterator[None]:
        """Writes the file under the name that nobody reads. After a fault it is not there."""
        descriptor = self.open_new()
        try:
            with os.fdopen(descriptor, "wb") as file:
                os.fchmod(descriptor, self.mode)
                file.write(data)
                file.flush()
                if self.is_synced:
                    os.fsync(descriptor)
            yield
        except BaseException:
            with suppress(OSError):
                os.unlink(self.part, dir_fd=self.folder)
            raise

    def give_name(self, is_new: bool = False) -> None:
        """Gives a file that waits its name. If it is to be new, a name that is taken is a fault."""
        if is_new:
            os.link(self.part, self.name, src_dir_fd=self.folder, dst_dir_fd=self.folder,
                    follow_symlinks=False)
            os.unlink(self.part, dir_fd=self.folder)
        else:
            os.rename(self.part, self.name, src_dir_fd=self.folder, dst_dir_fd=self.folder)

    def put(self, data: bytes, is_new: bool = False) -> None:
        """Writes the file, in place of the last or as a new one."""
        with self.waiting(data):
            self.give_name(is_new)

    def close(self) -> None:
        os.close(self.folder)


class Document(NamedTuple):
    """A file that is to be written: its path, and its text."""

    path: str
    text: str


def put_all(documents: Sequence[Document], mark: str, by: str) -> None:
    """Writes files, all whole or none: they get their names when each is on the disk. A file that
    is there has to have a mark at its beginning, as all have that `by` writes."""
    with ExitStack() as opened:
        places = []
        for path, text in documents:
            places.append(place := opened.enter_context(closing(place_of(path))))
            with faults(path, end=WRITTEN):
                place.check_ours(path, mark, f"was not written by {by}{WRITTEN}")
                opened.enter_context(place.waiting(text.encode("utf-8", "surrogateescape")))
        for (path, _), place in zip(documents, places):
            with faults(path, end=WRITTEN):
                place.give_name()
                os.fsync(place.folder)


def place_of(path: str, opens: Callable[[str], int] = own_folder) -> Place:
    """The place of a path, whose folder is opened."""
    check_path(path)
    above, name = os.path.split(os.path.abspath(path))
    return Place(opens(above), name)


def put_file(path: str, data: bytes) -> None:
    """Writes a plain file whole or not at all, in any folder. A link at its name is replaced, and
    not followed. What is no plain file, such as a pipe, is written to as it is."""
    check_path(path)
    mask = os.umask(0o077)
    os.umask(mask)
    mode = 0o666 & ~mask
    with safe_files.faults(path):
        with suppress(FileNotFoundError):
            status = os.stat(path)
            if not stat.S_ISREG(status.st_mode):
                with open(path, "wb") as file:
                    file.write(data)
                return
            mode = stat.S_IMODE(status.st_mode)
        above, name = os.path.split(path)
        folder = os.open(above or ".", os.O_RDONLY | os.O_DIRECTORY | os.O_CLOEXEC)
        with closing(Place(folder, name, mode)) as place:
            place.put(data)
