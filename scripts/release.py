#!/usr/bin/env python3
"""Makes the files that a maintainer uploads, of what ./build --install installs. For ./build.

usage: release.py INSTALLED OUT VERSION COMMIT SECONDS KIT COUNTS IMAGE [DEB..]

INSTALLED is a folder that ./build has installed in, OUT gets the files, and SECONDS is the time of
the commit since 1970. COUNTS has what the gate counted, by scripts/counts.py. IMAGE has Debian's
packages for an image of containers, or is empty. The same input gives the same bytes: archives are
sorted, their files belong to root and have that time, and no name of the machine is in them.
"""
from __future__ import annotations

import base64
import hashlib
import io
import json
import os
import re
import sys
import tempfile
import time
import tomllib
import zipfile
from collections.abc import Mapping, Sequence
from pathlib import Path
from typing import Any

import counts
import image
from archives import Fault, File, Files, Release, tar

TOP = Path(__file__).resolve().parents[1]
MACHINE = "x86_64"
# Parts of an installation that need root, and so are in the packages alone.
OF_ROOT = ("sbin/", "lib/systemd/", "share/man/man8/")
# What the tarball has beside what is installed. Without its first name a path is one of the clone.
BESIDE = ("LICENSE-MIT", "LICENSE-APACHE", "CHANGELOG.md", "examples", "share/rust",
          "share/kubernetes")
# Folders of what is made of sources.
OF_SOURCES = frozenset({"__pycache__", "target"})
# Programs and libraries that came of proofs, by their places below an installation.
MADE = re.compile(r"bin/arbiter(-check|-script)?|lib/libarbiter\.(a|so\.[0-9.]+)")
# A path of whoever made a file, or of this clone.
OF_MACHINE = re.compile(rb"(?:/(?:root|home|tmp|var/tmp)/[\w.-]+|" + re.escape(os.fsencode(TOP))
                        + rb")/[\w./-]*")
# The first bytes of programs and shared libraries, and of static ones.
COMPILED = (b"\x7fELF", b"!<arch>\n")
# The oldest C library for which there is a tag of wheels on this machine.
OLDEST = 5


def read(path: Path) -> File:
    """A file of the machine."""
    if path.is_symlink():
        return File(link=os.readlink(path))
    return File(path.read_bytes(), bool(path.stat().st_mode & 0o100))


def below(folder: Path, prefix: str = "") -> dict[str, File]:
    """All files below a folder, by their places in it. What was compiled is left out."""
    places = {path.relative_to(folder): path for path in sorted(folder.rglob("*"))
              if path.is_symlink() or path.is_file()}
    return {prefix + place.as_posix(): read(path) for place, path in places.items()
            if OF_SOURCES.isdisjoint(place.parts)}


def glibc(data: bytes) -> int | None:
    """The second number of the oldest C library 2.N that has all that a program asks of it; None
    for what is no program."""
    if not data.startswith(b"\x7fELF"):
        return None
    return max(map(int, re.findall(rb"\0GLIBC_2\.(\d+)(?:\.\d+)?(?=\0)", data)), default=0)


def check_paths(files: Files) -> None:
    """Refuses programs and libraries that name a folder of the machine that made them."""
    for place, file in files.items():
        found = OF_MACHINE.search(file.data) if file.data.startswith(COMPILED) else None
        if found:
            raise Fault(f"{place} names a folder of this machine: {found[0].decode()}")


# Archives


def zipped(files: Files, release: Release) -> bytes:
    """A zip archive of files in the order that they are given in."""
    made, at = io.BytesIO(), time.gmtime(release.seconds)[:6]
    with zipfile.ZipFile(made, "w", zipfile.ZIP_DEFLATED, compresslevel=9) as archive:
        for place, file in files.items():
            its = zipfile.ZipInfo(place, at)
            its.external_attr = (0o100755 if file.runs else 0o100644) << 16
            its.compress_type = zipfile.ZIP_DEFLATED
            archive.writestr(its, file.data)
    return made.getvalue()


# What is packed


def metadata(project: Mapping[str, Any]) -> str:
    """What a wheel says of itself, as pyproject.toml has it."""
    lines = ["Metadata-Version: 2.1", f"Name: {project['name']}", f"Version: {project['version']}",
             f"Summary: {project['description']}", f"License: {project['license']['text']}",
             f"Requires-Python: {project['requires-python']}"]
    lines += [f"Requires-Dist: {each}" for each in project["dependencies"]]
    for extra, needed in sorted(project["optional-dependencies"].items()):
        lines += [f"Provides-Extra: {extra}",
                  *(f"Requires-Dist: {each} ; extra == '{extra}'" for each in needed)]
    return "\n".join([*lines, "", "Page: docs/TOOLS.md of arbiter's repository.", ""])


def modules(installed: Files) -> dict[str, File]:
    """The Python packages of an installation, by their places in a wheel."""
    found = {place.removeprefix("lib/arbiter/"): file for place, file in installed.items()
             if place.startswith("lib/arbiter/")}
    if not found:
        raise Fault("no Python packages are installed")
    return found


def wheel(installed: Files, project: Mapping[str, Any], release: Release) -> dict[str, File]:
    """The wheel of the Python packages, with the library inside."""
    soname = f"libarbiter.so.{release.version.partition('.')[0]}"
    library = installed[f"lib/libarbiter.so.{release.version}"]
    name = f"{project['name'].replace('-', '_')}-{release.version}"
    # (a tag names the C library that it needs at least, as PEP 600 says)
    tag = f"py3-none-manylinux_2_{max(glibc(library.data) or 0, OLDEST)}_{MACHINE}"
    calls = "".join(f"{command} = {call}\n" for command, call in project["scripts"].items())
    info, texts = f"{name}.dist-info", {
        "METADATA": metadata(project), "entry_points.txt": f"[console_scripts]\n{calls}",
        "WHEEL": f"Wheel-Version: 1.0\nGenerator: arbiter\nRoot-Is-Purelib: false\nTag: {tag}\n"}
    files = dict(sorted({**modules(installed), f"arbiter/{soname}": library}.items()))
    files |= {f"{info}/{place}": File(text.encode()) for place, text in texts.items()}
    files |= {f"{info}/{each}": read(TOP / each) for each in BESIDE[:2]}
    lines = [f"{place},sha256={urlsafe(file.data)},{len(file.data)}"
             for place, file in files.items()]
    files[f"{info}/RECORD"] = File("\n".join([*lines, f"{info}/RECORD,,", ""]).encode())
    return {f"{name}-{tag}.whl": File(zipped(files, release))}


def urlsafe(data: bytes) -> str:
    """A hash as wheels write it."""
    return base64.urlsafe_b64encode(hashlib.sha256(data).digest()).rstrip(b"=").decode()


def sdist(installed: Files, project: Mapping[str, Any], release: Release) -> dict[str, File]:
    """The source of the Python packages, without the library."""
    name = f"{project['name'].replace('-', '_')}-{release.version}"
    files = {"PKG-INFO": File(metadata(project).encode()), **modules(installed),
             "pyproject.toml": read(TOP / "python/pyproject.toml"),
             **{each: read(TOP / each) for each in BESIDE[:2]}}
    return {f"{name}.tar.gz": File(tar({f"{name}/{place}": file for place, file in files.items()},
                                       release))}


def tarball(installed: Files, release: Release) -> dict[str, File]:
    """What is installed without root, for any folder, with the examples."""
    name = f"arbiter-{release.version}-linux-{MACHINE}"
    files = {place: file for place, file in installed.items() if not place.startswith(OF_ROOT)}
    for each in BESIDE:
        path = TOP / each
        files |= below(path, f"{each}/") if path.is_dir() else {each: read(path)}
    files["README"] = read(TOP / "share/release/README")
    return {f"{name}.tar.gz": File(tar({f"{name}/{place}": file for place, file in files.items()},
                                       release))}


# What was proved


def theorems() -> list[str]:
    """The theorems that Coq found to assume nothing. independent/build ends otherwise."""
    folder = TOP / "out/independent"
    asked, log = folder / "Assumptions.v", folder / "build.log"
    if not ((folder / "sum").is_file() and asked.is_file() and log.is_file()):
        return []
    names = re.findall(r"^Print Assumptions ([\w.]+)\.$", asked.read_text(), re.M)
    closed = log.read_text().count("Closed under the global context\n")
    if closed != len(names):
        raise Fault(f"Coq's log closes {closed} theorems of {len(names)}")
    return names


def proved(installed: Files, folder: Path, release: Release) -> dict[str, Any]:
    """PROVED.json: what was proved, by what, and the hash of each file that came of it."""
    told = counts.told(folder, release.kit)
    if told.lacks:
        raise Fault(counts.message(told.lacks))
    kit, _, logic = release.kit.partition(" logic ")
    return {
        "version": release.version, "commit": release.commit, "date": release.day,
        "kit": kit, "logic": logic, "crates": dict(sorted(told.crates.items())),
        "refused_edits": dict(sorted(told.refused.items())),
        "coq_theorems_without_axioms": theorems(),
        "files": {place: hashed(file) for place, file in sorted(installed.items())
                  if MADE.fullmatch(place) and file.data},
    }


def hashed(file: File) -> dict[str, str]:
    """The hash of a file, and of a program the oldest C library that it runs with."""
    found, least = {"sha256": hashlib.sha256(file.data).hexdigest()}, glibc(file.data)
    return found if least is None else {**found, "glibc": f"2.{least}"}


# Bill of materials


def bill(made: Files, project: Mapping[str, Any], release: Release) -> dict[str, Any]:
    """The bill of materials in the form of SPDX 2.3: each file, what it needs of others, and which
    packages of Debian are in the image."""
    base = f"arbiter-{release.version}"
    images = [name for name in made if name.endswith(image.ENDING)]
    inside = image.pins() if images else []
    packages = [{
        "SPDXID": f"SPDXRef-file-{re.sub('[^A-Za-z0-9.-]', '-', name)}", "name": name,
        "versionInfo": release.version, "packageFileName": name, "filesAnalyzed": False,
        "downloadLocation": "NOASSERTION", "licenseConcluded": "NOASSERTION",
        "licenseDeclared": project["license"]["text"], "copyrightText": "NOASSERTION",
        "checksums": [{"algorithm": "SHA256",
                       "checksumValue": hashlib.sha256(file.data).hexdigest()}],
    } for name, file in made.items()]
    needs = [(each.partition(">=")[0], each.partition(">=")[2]) for each in project["dependencies"]]
    kit, _, logic = release.kit.partition(" logic ")
    others = [("python", project["requires-python"].removeprefix(">=")), ("glibc", "2.5"), *needs,
              (kit, logic)]
    packages += [{
        "SPDXID": f"SPDXRef-needed-{name}", "name": name, "versionInfo": least,
        "filesAnalyzed": False, "downloadLocation": "NOASSERTION",
        "licenseConcluded": "NOASSERTION", "licenseDeclared": "NOASSERTION",
        "copyrightText": "NOASSERTION"} for name, least in others]
    ids = [str(each["SPDXID"]) for each in packages]
    mine, theirs = ids[:len(made)], ids[len(made):]
    packages += [{
        "SPDXID": f"SPDXRef-debian-{each.package}", "name": each.package,
        "versionInfo": each.version, "packageFileName": each.name, "filesAnalyzed": False,
        "downloadLocation": each.url, "licenseConcluded": "NOASSERTION",
        "licenseDeclared": "NOASSERTION", "copyrightText": "NOASSERTION",
        "checksums": [{"algorithm": "SHA256", "checksumValue": each.sha256}]} for each in inside]
    kinds = ["DEPENDS_ON"] * (len(theirs) - 1) + ["GENERATED_FROM"]
    return {
        "spdxVersion": "SPDX-2.3", "dataLicense": "CC0-1.0", "SPDXID": "SPDXRef-DOCUMENT",
        "name": base, "documentNamespace": f"urn:arbiter:{release.version}:{release.commit}",
        "creationInfo": {"created": release.day, "creators": ["Organization: the arbiter authors"]},
        "packages": packages,
        "relationships": [
            *({"spdxElementId": "SPDXRef-DOCUMENT", "relationshipType": "DESCRIBES",
               "relatedSpdxElement": each} for each in mine),
            *({"spdxElementId": one, "relationshipType": kind, "relatedSpdxElement": other}
              for one in mine for other, kind in zip(theirs, kinds)),
            *({"spdxElementId": one, "relationshipType": "CONTAINS", "relatedSpdxElement": other}
              for one, name in zip(mine, made) if name in images
              for other in [f"SPDXRef-debian-{each.package}" for each in inside])],
    }


def plug_in(made: Files, release: Release) -> dict[str, File]:
    """The manifest of `kubectl arbiter` for krew, with the version and the hash of the tarball."""
    text = (TOP / "share/kubernetes/krew.yaml").read_text()
    (tarball_,) = [file for name, file in made.items() if name.endswith(f"-linux-{MACHINE}.tar.gz")]
    text = text.replace("SHA256", hashlib.sha256(tarball_.data).hexdigest())
    return {"arbiter.krew.yaml": File(text.replace("VERSION", release.version).encode())}


def text_of(value: object) -> File:
    """A value as JSON."""
    return File((json.dumps(value, indent=1) + "\n").encode())


def release_of(installed: Files, debs: Sequence[Path], kept: Path, folder: Path | None,
               release: Release) -> dict[str, File]:
    """All files of a release by name, with their sums last. One folder has what the gate counted,
    the other Debian's packages for the image."""
    project = tomllib.loads((TOP / "python/pyproject.toml").read_text())["project"]
    check_paths(installed)
    made = {**tarball(installed, release), **wheel(installed, project, release),
            **sdist(installed, project, release), **{each.name: read(each) for each in debs},
            **(image.image(debs, folder, release) if folder else {})}
    made = dict(sorted({**made, **plug_in(made, release)}.items()))
    made["PROVED.json"] = text_of(proved(installed, kept, release))
    made[f"arbiter-{release.version}.spdx.json"] = text_of(bill(made, project, release))
    sums = [f"{hashlib.sha256(file.data).hexdigest()}  {name}\n" for name, file in made.items()]
    return {**made, "SHA256SUMS": File("".join(sums).encode())}


def main(words: Sequence[str]) -> int:
    installed, out, version, commit, seconds, kit, kept, base, *debs = words
    release = Release(version, commit, int(seconds), kit)
    try:
        made = release_of(below(Path(installed)), sorted(map(Path, debs)), Path(kept),
                          Path(base) if base else None, release)
        Path(out).mkdir(parents=True, exist_ok=True)
        # (each has its name when all are whole)
        with tempfile.TemporaryDirectory(prefix=".arbiter.", dir=out) as beside:
            for name, file in made.items():
                Path(beside, name).write_bytes(file.data)
            for name in made:
                os.replace(Path(beside, name), Path(out, name))
                print(f"build: made {out}/{name}")
    except (Fault, OSError, KeyError) as error:
        print(f"build: no release: {error}", file=sys.stderr)
        return 1
    return 0


if __name__ == "__main__":
    sys.exit(main(sys.argv[1:]))
