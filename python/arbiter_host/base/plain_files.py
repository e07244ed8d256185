"""The bytes of plain files: bounded, without waiting for anybody, and in UTF-8."""
from __future__ import annotations

import codecs
import functools
import os
import stat
import sys
from contextlib import suppress
from typing import BinaryIO

from arbiter_host.base import names
from arbiter_host.base.faults import HostFault, strerror

MAX_FILE = 256 << 20
TOO_LONG = f"more than {MAX_FILE >> 20} MiB"
PIECE = 1 << 20
# The first bytes of packed files, and what unpacks these.
PACKED = {b"\x1f\x8b": "gzip", b"\xfd7zXZ\0": "xz", b"(\xb5/\xfd": "zstd"}
# Bytes of UTF-16 that are taken, which PowerShell writes.
MAX_WIDE = 128 << 20


def bounded(file: BinaryIO) -> bytes:
    """The bytes of a file, at most one more than `MAX_FILE`. A `read` takes the memory that it may
    need first, so pieces are read."""
    data = bytearray()
    while piece := file.read(min(PIECE, MAX_FILE + 1 - len(data))):
        data += piece
    return bytes(data)


def check_file(path: str, status: os.stat_result, is_plain: bool) -> None:
    """A fault where a file is no plain one but has to be, or is too long to be read."""
    is_regular = stat.S_ISREG(status.st_mode)
    if is_plain and not is_regular:
        raise HostFault(f"{names.shown(path)}: no plain file")
    if is_regular and status.st_size > MAX_FILE:
        raise HostFault(f"{names.shown(path)}: {TOO_LONG}")


def opened(path: str, is_plain: bool, is_trusted: bool) -> int:
    """Opens a file to be read. What has to be plain is opened in a way that waits for nobody."""
    if is_trusted:
        from arbiter_host.base import atomic_files  # (no source is trusted)
        return atomic_files.kept_file(path)
    if is_plain:
        check_file(path, os.stat(path), True)
    return os.open(path, os.O_RDONLY | os.O_CLOEXEC | (os.O_NONBLOCK if is_plain else 0))


def opened_bytes(path: str, is_plain: bool, is_trusted: bool) -> bytes:
    """The bytes of a file, which is looked at once more where it is open."""
    file = opened(path, is_plain, is_trusted)
    try:
        check_file(path, os.fstat(file), is_plain or is_trusted)
        with os.fdopen(file, "rb", closefd=False) as whole:
            return bounded(whole)
    finally:
        os.close(file)


def in_utf8(path: str, data: bytes) -> bytes:
    """The bytes of a file; of UTF-16 with its mark those of the same text. A fault if packed."""
    for mark, command in PACKED.items():
        if data.startswith(mark):
            raise HostFault(f"{names.shown(path)}: packed by {command}: unpack it first, as by"
                            f" `{command} -dc FILE | arbiterctl .. -`")
    if data[:2] in (codecs.BOM_UTF16_LE, codecs.BOM_UTF16_BE) and len(data) <= MAX_WIDE:
        with suppress(UnicodeDecodeError):
            return data.decode("utf-16").encode()
    return data


def file_bytes(path: str, is_plain: bool = False, is_trusted: bool = False) -> bytes:
    """The bytes of a file; `-` is standard input, unless the file has to be plain. With
    `is_trusted` no other user may change the file, or which one its name stands for."""
    try:
        if path == "-" and not is_plain:
            data = bounded(sys.stdin.buffer) if sys.stdin else b""
        else:
            data = opened_bytes(path, is_plain, is_trusted)
    except OSError as error:
        raise HostFault(f"{names.shown(path)}: {strerror(error)}") from error
    except ValueError as error:
        raise HostFault(f"{names.shown(path)}: no path") from error
    if len(data) > MAX_FILE:
        raise HostFault(f"{names.shown(path)}: {TOO_LONG}")
    return in_utf8(path, data)


@functools.lru_cache(maxsize=1)
def standard_input() -> bytes:
    """Standard input, which is read once."""
    return file_bytes("-")
