"""Reads and writes files below one folder. No symbolic link is followed, and no file is made.

A folder that is kept is open from the first reading to the last writing. So what is written is the
group that was read, whatever has its name meanwhile.
"""
from __future__ import annotations

import errno
import os
import resource
import stat
import struct
import sys
from collections.abc import Iterator
from contextlib import contextmanager, suppress

from arbiter_host.base.faults import HostFault, strerror
from arbiter_host.base.names import shown

MAX_TEXT = 4096
FOLDER = os.O_PATH | os.O_DIRECTORY | os.O_NOFOLLOW | os.O_CLOEXEC
FILE = os.O_NOFOLLOW | os.O_CLOEXEC | os.O_NONBLOCK
# What a file of a removed group answers: by its name, and where it was open before.
REMOVED = (errno.ENOENT, errno.ENODEV)
# The entries of a list that name users and groups, beside the file's own user and all others.
LISTED = (2, 4, 8)

# Device and inode of a folder: no other folder has them while it is open.
Identity = tuple[int, int]


class Gone(HostFault):
    """A file that is not there, or whose group was removed while it was open."""


def fault_of(path: str, error: OSError, end: str = "") -> HostFault:
    """An error of the system as a fault that names a file, in one line."""
    fault = Gone if error.errno in REMOVED else HostFault
    return fault(f"{shown(path)}: {strerror(error)}{end}")


@contextmanager
def faults(path: str, end: str = "") -> Iterator[None]:
    """Errors of the system as faults that name a file."""
    try:
        yield
    except OSError as error:
        raise fault_of(path, error, end) from error


@contextmanager
def closing_file(descriptor: int) -> Iterator[int]:
    """A file or a folder that is open, and is closed at the end."""
    try:
        yield descriptor
    finally:
        os.close(descriptor)


def identity_of(place: int | str) -> Identity:
    """The identity of what a path leads to, or a descriptor is open at."""
    status = os.stat(place)
    return status.st_dev, status.st_ino


def identities(top: str) -> Iterator[Identity]:
    """The identities of a folder and of those below it that are not gone meanwhile."""
    yield identity_of(top)
    for above, folders, _ in os.walk(top):
        for name in folders:
            with suppress(OSError):
                yield identity_of(os.path.join(above, name))


def plain(above: int, file: str, flags: int = os.O_RDONLY) -> int:
    """Opens a plain file of a folder that has no other name."""
    descriptor = os.open(file, FILE | flags, dir_fd=above)
    status = os.fstat(descriptor)
    if not stat.S_ISREG(status.st_mode) or status.st_nlink != 1:
        os.close(descriptor)
        raise OSError(errno.EINVAL, "no plain file")
    return descriptor


def text_of(above: int, file: str, most: int) -> str:
    """The text of a plain file of a folder, at most so many bytes."""
    descriptor = plain(above, file)
    try:
        data = piece = os.read(descriptor, most)
        # (a setting or counters come whole)
        while piece and len(data) < most > MAX_TEXT:
            piece = os.read(descriptor, most - len(data))
            data += piece
    finally:
        os.close(descriptor)
    return data.decode(errors="replace").strip()


def most_files() -> int:
    """The most files that this process may have open, which it may from then on."""
    _, most = resource.getrlimit(resource.RLIMIT_NOFILE)
    with suppress(OSError, ValueError):
        resource.setrlimit(resource.RLIMIT_NOFILE, (most, most))
    return sys.maxsize if most == resource.RLIM_INFINITY else most


class Root:
    """A folder whose files are changed. The folder itself may be reached by links."""

    def __init__(self, path: str) -> None:
        check_path(path)
        self.path = os.path.realpath(path)
        self.top: int | None = None
        # The folders that are kept, by their paths.
        self.kept: dict[str, int] = {}

    def close(self) -> None:
        for each in [*self.kept.values(), *([] if self.top is None else [self.top])]:
            os.close(each)
        self.kept, self.top = {}, None

    def name(self, folder: str, file: str) -> str:
        return os.path.join(self.path, folder, file)

    def descend(self, folder: str) -> int:
        """Opens a folder, part by part from the top, which stays open."""
        parts = parts_of(folder)
        if self.top is None:
            self.top = os.open(self.path, os.O_PATH | os.O_DIRECTORY | os.O_CLOEXEC)
        below = os.dup(self.top)
        for part in parts:
            with closing_file(below) as above:
                below = os.open(part, FOLDER, dir_fd=above)
        return below

    def keep(self, folder: str, identity: Identity | None = None) -> None:
        """Opens a folder that stays open. A fault where it is another one than was read."""
        if folder in self.kept:
            raise HostFault(f"{shown(folder)}: named twice")
        if not self.kept:
            most_files()
        with faults(os.path.join(self.path, folder)):
            self.kept[folder] = self.descend(folder)
        if identity is not None and identity_of(self.kept[folder]) != identity:
            raise HostFault(f"{shown(folder)}: is another group than the one that was read")

    def let_go(self, folder: str) -> None:
        """Closes a folder, if it is kept."""
        if folder in self.kept:
            os.close(self.kept.pop(folder))

    @contextmanager
    def at(self, folder: str) -> Iterator[int]:
        """A folder: the one that is kept, else the one that is there."""
        if folder in self.kept:
            yield self.kept[folder]
            return
        with closing_file(self.descend(folder)) as descriptor:
            yield descriptor

    def read(self, folder: str, file: str, most: int = MAX_TEXT) -> str:
        """The text of a file, at most so many bytes. The kernel gives a page at a time."""
        # (many files are read in a round: without the context managers)
        if folder not in self.kept:
            with faults(self.name(folder, file)), self.at(folder) as above:
                return text_of(above, file, most)
        try:
            return text_of(self.kept[folder], file, most)
        except OSError as error:
            raise fault_of(self.name(folder, file), error) from error

    def write(self, folder: str, file: str, text: str) -> None:
        """Replaces the text of a file that is there, in one write. A plain file has a size:
        newlines cover a longer text before the file is cut. So a process that is killed leaves the
        old text or the new one. Files of the kernel have size 0. No new file takes the name of the
        old one, since those of the kernel cannot be replaced."""
        line = f"{text}\n".encode()
        with (faults(self.name(folder, file)), self.at(folder) as above,
              closing_file(plain(above, file, os.O_WRONLY)) as descriptor):
            size = os.fstat(descriptor).st_size
            os.write(descriptor, line.ljust(size, b"\n"))
            if size > len(line):
                os.ftruncate(descriptor, len(line))


def is_of_others(status: os.stat_result, bits: int = 0) -> bool:
    """Whether a file is not root's or this user's, or its mode has bits that let others in."""
    return status.st_uid not in (0, os.geteuid()) or bool(status.st_mode & bits)


def has_writers(descriptor: int) -> bool:
    """Whether a list of what is open lets a user or a group write, masked or not."""
    try:
        text = os.getxattr(f"/proc/self/fd/{descriptor}", "system.posix_acl_access")
    except OSError as error:
        if error.errno in (errno.ENODATA, errno.ENOTSUP):
            return False
        raise
    return any(tag in LISTED and bits & 2 for tag, bits, _ in struct.iter_unpack("<HHI", text[4:]))


def check_path(path: str) -> None:
    """A fault where a text is no path that the system can hold."""
    try:
        data = os.fsencode(path)
    except UnicodeEncodeError as error:
        raise HostFault(f"{shown(path)}: no path") from error
    if not data or b"\0" in data:
        raise HostFault(f"{shown(path)}: no path")


def parts_of(folder: str) -> list[str]:
    """The names of a folder's path; a fault where one leads elsewhere."""
    check_path(folder)
    parts = folder.split("/")
    if any(part in ("", ".", "..") for part in parts):
        raise HostFault(f"{shown(folder)}: no path below the root")
    return parts
