"""Python of this machine as files of a guest, so that `arbiterctl` itself runs there.

The guest gets the interpreter, the libraries that it loads, the compiled standard library, and the
C library.
"""
from __future__ import annotations

import re
from collections.abc import Iterable, Iterator
from pathlib import Path

from kernel import packages

PYTHON = Path("/usr/bin/python3")
STANDARD = Path("/usr/lib/python3.11")
PACKAGE = Path(__file__).resolve().parents[2] / "python"
LIBRARY = PACKAGE.parent / "crates/bw_exports/out/libarbiter.so"
# The guest's folder of `arbiterctl` and its packages.
HOME = "arbiter"
LEFT_OUT = {"test", "idlelib", "lib2to3", "tkinter", "unittest", "pydoc_data", "turtledemo",
            "ensurepip", "distutils"}
Files = dict[str, tuple[int, bytes]]


def libraries(paths: list[Path]) -> set[Path]:
    """The shared libraries that programs and modules load."""
    said = packages.said(["ldd", *map(str, paths)])
    return {Path(found) for found in re.findall(r"(/\S+) \(0x", said)}


def modules() -> Iterator[tuple[str, Path]]:
    """The standard library's compiled modules. Beside no source they are taken as they are."""
    for path in sorted(STANDARD.rglob("__pycache__/*.cpython-311.pyc")):
        folder = path.parent.parent.relative_to(STANDARD)
        if not LEFT_OUT.intersection(folder.parts):
            yield str(STANDARD / folder / path.name.replace(".cpython-311.pyc", ".pyc")), path


def named() -> Iterator[tuple[str, Path]]:
    """All files: the name in the guest, and the file here."""
    loaded = sorted((STANDARD / "lib-dynload").glob("*.so"))
    yield str(PYTHON), PYTHON
    loading = [PYTHON, LIBRARY, *loaded]
    yield from ((str(path), path) for path in [*loaded, *sorted(libraries(loading))])
    yield from modules()
    yield f"{HOME}/arbiterctl", PACKAGE / "arbiterctl"
    for folder in ("arbiter", "arbiter_host"):
        for kind in ("*.py", "templates/*"):
            for path in sorted((PACKAGE / folder).rglob(kind)):
                yield f"{HOME}/{path.relative_to(PACKAGE)}", path
    # (the package looks for it there first)
    yield f"{HOME}/arbiter/libarbiter.so.1", LIBRARY


def as_files(pairs: Iterable[tuple[str, Path]]) -> Files:
    """Files with their folders, as an initramfs takes them."""
    found: Files = {}
    for name, path in pairs:
        name = name.lstrip("/")
        for folder in reversed(Path(name).parents[:-1]):
            found.setdefault(str(folder), (0o040755, b""))
        found[name] = (0o100755, path.read_bytes())
    return found


def files() -> Files:
    """Python with `arbiterctl` and its packages."""
    return as_files(named())


def program(name: str, path: Path) -> Files:
    """A program with the libraries that it loads."""
    return as_files([(name, path), *((str(each), each) for each in sorted(libraries([path])))])
