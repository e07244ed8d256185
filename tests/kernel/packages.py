"""What a guest needs, from Debian's packages: an emulator, kernels, busybox and a C compiler.

Kernels are downloaded by apt-get and unpacked into a cache folder, never installed. So is the
emulator of bookworm-backports where the installed one cannot count the instructions of several
processors: before 8.1 it never runs the second one then.
"""
from __future__ import annotations

import contextlib
import fcntl
import os
import re
import shutil
import stat
import subprocess
import sys
from collections.abc import Iterator
from dataclasses import dataclass
from pathlib import Path

from kernel.faults import KernelFault

INSTALL = "apt-get install -y --no-install-recommends qemu-system-x86 busybox-static gcc libc6-dev"
EMULATOR = "qemu-system-x86_64"
BUSYBOX = Path("/bin/busybox")
# Names of kernels, and the Debian packages that name their newest version.
KERNELS = {"6.1": "linux-image-cloud-amd64", "6.12": "linux-image-6.12-cloud-amd64"}
# A kernel that may be given a scheduler (sched_ext): the newest of Debian 13's backports. Its image
# and its config are in two packages that its own one names.
NEWEST = "7"
SPLIT = ("linux-binary-", "linux-base-")
BACKPORTS = "deb http://deb.debian.org/debian bookworm-backports main\n"
NEWER = "deb http://deb.debian.org/debian trixie-backports main\n"
FAIR = (8, 1)
SECONDS = 900


@dataclass(frozen=True)
class Kernel:
    """An unpacked kernel: its release, its image, and the timer interrupts of a second."""

    name: str
    release: str
    image: Path
    ticks: int


@dataclass(frozen=True)
class Emulator:
    """An emulator: the words that start it, its version, and whether it is fair to processors."""

    words: tuple[str, ...]
    version: str
    is_fair: bool


def cache_folder() -> Path:
    """Where packages are unpacked, whose emulator runs: a folder that no other user may change. In
    a sticky folder above it others change no name of this user's."""
    home = Path(os.environ.get("XDG_CACHE_HOME") or Path.home() / ".cache")
    folder = Path(os.environ.get("ARBITER_KERNELS") or home / "arbiter" / "kernels").resolve()
    for each in filter(Path.exists, (folder, *folder.parents)):
        status = each.stat()
        is_sticky = each != folder and status.st_mode & stat.S_ISVTX
        if status.st_uid not in (0, os.geteuid()) or status.st_mode & 0o022 and not is_sticky:
            raise KernelFault(f"{each}: other users may change this folder")
    return folder


@contextlib.contextmanager
def alone() -> Iterator[None]:
    """Waits while another run downloads packages."""
    cache_folder().mkdir(parents=True, exist_ok=True)
    with open(cache_folder() / "lock", "w", encoding="ascii") as lock:
        fcntl.flock(lock, fcntl.LOCK_EX)
        yield


def said(words: list[str], folder: Path | None = None) -> str:
    """The output of a command that has to end well."""
    try:
        ended = subprocess.run(words, capture_output=True, text=True, check=False, cwd=folder,
                               stdin=subprocess.DEVNULL, timeout=SECONDS)
    except (OSError, subprocess.TimeoutExpired) as error:
        raise KernelFault(f"{words[0]}: {error}") from error
    if ended.returncode:
        raise KernelFault(f"{' '.join(words)[:200]}: {ended.stderr.strip()[-400:]}")
    return ended.stdout


def missing() -> str:
    """What this machine lacks, in one line; empty if it has all that is installed."""
    lacks = [name for name, there in (
        ("qemu-system-x86", shutil.which(EMULATOR)), ("busybox-static", BUSYBOX.exists()),
        ("gcc", shutil.which("gcc")), ("apt-get", shutil.which("apt-get"))) if not there]
    return f"no {', '.join(lacks)}: {INSTALL}" if lacks else ""


def fetch(packages: list[str], to: Path, apt: tuple[str, ...] = ()) -> None:
    """Downloads packages and unpacks them into a folder, which is there only if all went well."""
    if to.exists():
        return
    print(f"kernel: downloading {', '.join(packages)} into {to.parent}", file=sys.stderr)
    made = to.with_name(f"{to.name}.{os.getpid()}")
    made.mkdir(parents=True)
    try:
        said(["apt-get", "-q", *apt, "download", *packages], made)
        for file in sorted(made.glob("*.deb")):
            said(["dpkg-deb", "-x", str(file), str(made)])
            file.unlink()
        made.rename(to)
    finally:
        shutil.rmtree(made, ignore_errors=True)


def unpacked() -> list[str]:
    """The names of kernels that are in the cache folder."""
    return [name for name in KERNELS
            if any(cache_folder().glob(f"linux-image-{name}.*"))]


def any_kernel() -> Kernel:
    """A kernel that is unpacked, else the first of `KERNELS`."""
    for name in unpacked():
        folders = sorted(cache_folder().glob(f"linux-image-{name}.*-amd64"))
        if folders:
            return in_folder(name, folders[-1])
    return kernel(next(iter(KERNELS)))


def kernel(name: str) -> Kernel:
    """A kernel of `KERNELS`, or `NEWEST`: the newest that apt knows."""
    if name == NEWEST:
        return newest()
    if name not in KERNELS:
        raise KernelFault(f"kernel {name}: one of {', '.join((*KERNELS, NEWEST))}")
    image = depends(KERNELS[name])
    folder = cache_folder() / image
    with alone():
        fetch([image], folder)
    return in_folder(name, folder)


def depends(package: str, apt: tuple[str, ...] = ()) -> str:
    """The package of an image that a package without files names."""
    found = re.search(r"Depends: (linux-image-\S+)", said(["apt-cache", *apt, "depends", package]))
    if not found:
        raise KernelFault(f"apt knows no {package}: apt-get update")
    return found[1]


def newest() -> Kernel:
    """The kernel of `NEWEST`. One that is unpacked stays, so that runs are of one kernel."""
    there = sorted(cache_folder().glob(f"linux-image-{NEWEST}.*-amd64"))
    with alone():
        if not there:
            apt = backports(NEWER, "apt-newer")
            image = depends("linux-image-cloud-amd64", apt)
            there = [cache_folder() / image]
            fetch([image.replace("linux-image-", each) for each in SPLIT], there[0], apt)
    return in_folder(NEWEST, there[-1])


def in_folder(name: str, folder: Path) -> Kernel:
    """A kernel that is unpacked in a folder."""
    release = folder.name.removeprefix("linux-image-")
    config, image = folder / f"boot/config-{release}", folder / f"boot/vmlinuz-{release}"
    if not image.exists():
        config, image = (folder / f"usr/lib/modules/{release}" / each
                         for each in ("config", "vmlinuz"))
    ticks = re.search(r"^CONFIG_HZ=(\d+)$", config.read_text(encoding="utf-8"), re.MULTILINE)
    return Kernel(name, release, image, int(ticks[1] if ticks else 0))


def emulator_of(words: tuple[str, ...]) -> Emulator:
    """An emulator, asked for its version."""
    version = said([words[0], "--version"]).splitlines()[0]
    found = re.search(r"version (\d+)\.(\d+)", version)
    return Emulator(words, version, bool(found) and (int(found[1]), int(found[2])) >= FAIR
                    if found else False)


def backports(source: str = BACKPORTS, name: str = "apt") -> tuple[str, ...]:
    """Options of apt that read backports alone, with lists of their own."""
    top = cache_folder() / name
    for folder in ("lists/partial", "cache/archives/partial"):
        (top / folder).mkdir(parents=True, exist_ok=True)
    (top / "sources.list").write_text(source, encoding="utf-8")
    words = ("-o", f"Dir::Etc::sourcelist={top}/sources.list", "-o", "Dir::Etc::sourceparts=-",
             "-o", f"Dir::State::lists={top}/lists", "-o", f"Dir::Cache={top}/cache")
    said(["apt-get", "-q", *words, "update"])
    return words


def emulator(is_fair: bool) -> Emulator:
    """The installed emulator, or that of backports where it has to be fair to processors."""
    installed = emulator_of((EMULATOR,))
    if installed.is_fair or not is_fair:
        return installed
    folder = cache_folder() / "qemu-backports"
    with alone():
        if not folder.exists():
            fetch(["qemu-system-x86", "qemu-system-data"], folder, backports())
    words = (str(folder / "usr/bin" / EMULATOR), "-L", str(folder / "usr/share/qemu"),
             "-L", "/usr/share/seabios")
    return emulator_of(words)


def guest_program(folder: Path) -> Path:
    """The guest's program, compiled into a folder."""
    made = folder / "guest"
    source = Path(__file__).with_name("guest.c")
    said(["gcc", "-O2", "-Wall", "-Wextra", "-Werror", "-static", "-o", str(made), str(source)])
    return made
