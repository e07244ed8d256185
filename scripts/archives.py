"""Archives of the same bytes each time: sorted, of root, and with the time of a commit."""
from __future__ import annotations

import gzip
import io
import tarfile
import time
from collections.abc import Mapping
from dataclasses import dataclass
from pathlib import Path


class Fault(Exception):
    """Why no release is made."""


@dataclass(frozen=True)
class File:
    """A file of an archive: its bytes and whether it runs, or the file that it links to."""

    data: bytes = b""
    runs: bool = False
    link: str = ""


Files = Mapping[str, File]


@dataclass(frozen=True)
class Release:
    """A version, and the commit and kit that it is made of."""

    version: str
    commit: str
    seconds: int
    kit: str

    @property
    def day(self) -> str:
        return time.strftime("%Y-%m-%dT%H:%M:%SZ", time.gmtime(self.seconds))


def plain_tar(files: Files, release: Release, folders: Mapping[str, int] | None = None) -> bytes:
    """An archive of files in the order of their names, with the folders above them, and with other
    folders of the modes that are given."""
    made, known = io.BytesIO(), set[str]()
    modes = folders or {}
    with tarfile.open(fileobj=made, mode="w", format=tarfile.USTAR_FORMAT) as archive:
        for place in sorted({*files, *modes}):
            above = [each.as_posix() for each in reversed(Path(place).parents)][1:]
            for folder in [*above, place] if place in modes else above:
                if folder not in known:
                    known.add(folder)
                    mode = modes.get(folder, 0o755)
                    archive.addfile(entry(folder, release, tarfile.DIRTYPE, mode))
            if place in modes:
                continue
            file = files[place]
            if file.link:
                its = entry(place, release, tarfile.SYMTYPE, 0o777)
                its.linkname = file.link
                archive.addfile(its)
                continue
            its = entry(place, release, tarfile.REGTYPE, 0o755 if file.runs else 0o644)
            its.size = len(file.data)
            archive.addfile(its, io.BytesIO(file.data))
    return made.getvalue()


def tar(files: Files, release: Release) -> bytes:
    """The same, compressed."""
    return gzip.compress(plain_tar(files, release), 9, mtime=release.seconds)


def entry(place: str, release: Release, kind: bytes, mode: int) -> tarfile.TarInfo:
    """The head of a file of root."""
    its = tarfile.TarInfo(place)
    its.type, its.mode, its.mtime = kind, mode, release.seconds
    its.uname = its.gname = "root"
    return its
