"""Where the C library is, unless a path names it."""
from __future__ import annotations

import os
from collections.abc import Iterator

SONAME = "libarbiter.so.1"
PACKAGE = os.path.dirname(os.path.realpath(__file__))
CLONE = os.path.dirname(os.path.dirname(PACKAGE))
# For people, where there is no library that has each call.
TO_DO = ("install the package libarbiter1, or run ./build --install DIR; ARBITER_LIBRARY or"
         " --library names another")
# Seconds in which a clone says whether its library is up to date.
SECONDS = 300


class Unavailable(Exception):
    """The C library cannot be loaded, or is older than this package."""


def of_clone() -> str | None:
    """The library that this clone has built from its sources as they stand, if there is one."""
    built = f"{CLONE}/crates/bw_exports/out/libarbiter.so"
    if not (os.path.isfile(built) and os.path.isfile(f"{CLONE}/scripts/current.sh")):
        return None
    # (no installation needs it)
    import subprocess
    asked = ". scripts/current.sh && of_library && is_current"
    try:
        ended = subprocess.run(["bash", "-c", asked], cwd=CLONE, stdin=subprocess.DEVNULL,
                               capture_output=True, timeout=SECONDS, check=False)
    except (OSError, subprocess.TimeoutExpired):
        return None
    return built if ended.returncode == 0 else None


def checked() -> list[str]:
    """The words that run the checked build of the calls in this clone, which is compiled if it is
    not there; none without its sources and the kit. Standard error says that it proves nothing,
    but not once more for each worker of a command."""
    if not os.path.isfile(f"{CLONE}/scripts/calls.sh"):
        return []
    # (no installation needs them)
    import multiprocessing
    import shutil
    import subprocess
    if not shutil.which("rt"):
        return []
    said = subprocess.DEVNULL if multiprocessing.parent_process() else None
    ended = subprocess.run(["bash", "scripts/calls.sh"], cwd=CLONE, stdin=subprocess.DEVNULL,
                           stdout=subprocess.PIPE, stderr=said, check=False)
    return os.fsdecode(ended.stdout).split("\0")[:-1] if ended.returncode == 0 else []


def installed() -> Iterator[str]:
    """Files that an installation of this package may have: beside it, and in the folder `lib`
    above it."""
    folder = PACKAGE
    yield f"{folder}/{SONAME}"
    while folder != "/":
        folder = os.path.dirname(folder)
        if os.path.basename(folder) in ("lib", "lib64"):
            yield f"{folder}/{SONAME}"
            return


def path() -> str:
    """The library that `$ARBITER_LIBRARY` names, else an installed one, else that of this clone,
    else the name by which the system finds one."""
    named = os.environ.get("ARBITER_LIBRARY")
    if named:
        return named
    beside = next((each for each in installed() if os.path.isfile(each)), None)
    return beside or of_clone() or SONAME
