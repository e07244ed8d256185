#!/usr/bin/env python3
"""The image of containers of a release: an archive of the OCI layout, made of packages alone.

usage: image.py FOLDER     puts Debian's packages of share/release/image.txt into FOLDER
       image.py --newest   writes that file anew, of what the archive of this Debian has now

Packages are unpacked, and no script of theirs runs. So the same packages give the same bytes, and
nobody needs root or a registry. Each line of image.txt is a hash and where the package lies.
"""
from __future__ import annotations

import gzip
import hashlib
import io
import json
import lzma
import os
import posixpath
import re
import subprocess
import sys
import tarfile
import tempfile
from collections.abc import Iterable, Sequence
from dataclasses import dataclass
from pathlib import Path
from urllib.parse import unquote

from archives import Fault, File, Files, Release, plain_tar

PINS = Path(__file__).resolve().parents[1] / "share/release/image.txt"
HELPER = "/usr/lib/apt/apt-helper"
# What containers call, and what these need but a container does not: tools of dpkg and of shells.
WANTED = ("python3", "python3-jinja2", "python3-rich", "python3-yaml", "python3-prometheus-client",
          "kubernetes-client", "dash", "coreutils", "base-files")
LEFT_OUT = ("dpkg", "tar", "mawk", "debconf", "debianutils", "readline-common", "media-types")
# The packages of a release that are inside, and one that is where Coq was.
OURS, OF_COQ = ("arbiter", "arbiter-host", "libarbiter1"), "arbiter-check"
# Folders that Debian links to those below usr/.
MERGED = ("bin", "lib", "lib64", "sbin")
# Pages, completions and words of other languages. Licences stay, and arbiter's own documents.
DROPPED = re.compile(r"usr/share/(?:man|info|locale|lintian|bash-completion|zsh)/|"
                     r"usr/share/doc/(?!(?:lib)?arbiter|[^/]+/copyright$|[^/]+$)")
FOLDERS = {**dict.fromkeys(("dev", "etc", "proc", "run", "sys"), 0o755), "tmp": 0o1777}
NOBODY = "65534:65534"
ENDING = ".oci.tar"
USERS = {
    "etc/passwd": "root:x:0:0:root:/:/bin/sh\nnobody:x:65534:65534:nobody:/:/usr/sbin/nologin\n",
    "etc/group": "root:x:0:\nnogroup:x:65534:\n",
}


@dataclass(frozen=True)
class Pin:
    """A package of Debian: its hash, and where it lies."""

    sha256: str
    url: str

    @property
    def name(self) -> str:
        return posixpath.basename(self.url)

    @property
    def package(self) -> str:
        return self.name.split("_")[0]

    @property
    def version(self) -> str:
        return unquote(self.name.split("_")[1])


def pins() -> list[Pin]:
    """The lines of share/release/image.txt."""
    found = [Pin(*line.split()) for line in PINS.read_text(encoding="ascii").splitlines()
             if not line.startswith("#")]
    if not found:
        raise Fault(f"{PINS.name} names no package")
    return found


def is_there(folder: Path, pin: Pin) -> bool:
    """Tests whether a package is in a folder, and is the one that is meant."""
    path = folder / pin.name
    return path.is_file() and hashlib.sha256(path.read_bytes()).hexdigest() == pin.sha256


def fetch(folder: Path) -> None:
    """Gets the packages that a folder has not. apt compares their hashes, and so do we."""
    lacks = [pin for pin in pins() if not is_there(folder, pin)]
    if not lacks:
        return
    folder.mkdir(parents=True, exist_ok=True)
    with tempfile.TemporaryDirectory(prefix=".arbiter.", dir=folder) as beside:
        for pin in lacks:
            words = [HELPER, "download-file", pin.url, f"{beside}/{pin.name}",
                     f"SHA256:{pin.sha256}"]
            try:
                subprocess.run(words, stdin=subprocess.DEVNULL, capture_output=True, check=True)
            except (OSError, subprocess.CalledProcessError) as error:
                said = (getattr(error, "stderr", b"") or str(error).encode()).decode()
                why = next((line for line in said.splitlines() if line.startswith("E: ")), said)
                raise Fault(f"{pin.url} cannot be had: {why.strip()}") from None
            if not is_there(Path(beside), pin):
                raise Fault(f"{pin.url} has another hash")
            os.replace(Path(beside, pin.name), folder / pin.name)


def newest() -> str:
    """The lines for what apt would install on an empty Debian."""
    with tempfile.TemporaryDirectory() as empty:
        Path(empty, "partial").mkdir()
        words = ["apt-get", "-y", "install", "--no-install-recommends", "--print-uris",
                 "-o", "Dir::State::status=/dev/null", "-o", f"Dir::Cache::archives={empty}",
                 "-o", "Debug::NoLocking=1", "-o", "Acquire::ForceHash=sha256", *WANTED]
        said = subprocess.run(words, capture_output=True, check=True, text=True).stdout
    found = re.findall(r"^'(\S+)' (\S+) \d+ SHA256:([0-9a-f]{64})$", said, re.M)
    return "".join(f"{sha256} {url}\n" for url, name, sha256 in sorted(found)
                   if name.partition("_")[0] not in LEFT_OUT)


# Packages


def members(deb: bytes) -> dict[str, bytes]:
    """The parts of a package, which is an archive of ar."""
    found, at = {}, 8
    if not deb.startswith(b"!<arch>\n"):
        raise Fault("a package is no archive of ar")
    while at < len(deb):
        name, size = deb[at:at + 16].decode().strip().rstrip("/"), int(deb[at + 48:at + 58])
        found[name] = deb[at + 60:at + 60 + size]
        at += 60 + size + size % 2
    return found


def part(deb: bytes, name: str) -> tarfile.TarFile:
    """The archive of files or of control files of a package."""
    for kind, data in members(deb).items():
        if kind == f"{name}.tar.xz":
            return tarfile.open(fileobj=io.BytesIO(lzma.decompress(data)))
        if kind in (f"{name}.tar.gz", f"{name}.tar"):
            return tarfile.open(fileobj=io.BytesIO(data))
    raise Fault(f"a package has no {name}.tar that is known here")


def control(deb: bytes) -> str:
    """What a package says of itself."""
    with part(deb, "control") as archive:
        inside = archive.extractfile("./control")
        assert inside
        return inside.read().decode()


def merged(place: str) -> str:
    """A place below usr/, where Debian has it."""
    place = posixpath.normpath(place).lstrip("/")
    return f"usr/{place}" if place.partition("/")[0] in MERGED else place


def unpacked(deb: bytes) -> dict[str, File]:
    """The files of a package. None has the rights of its owner."""
    found = {}
    with part(deb, "data") as archive:
        for each in archive:
            place = merged(each.name)
            if each.isdir() or DROPPED.match(place):
                continue
            if each.issym():
                found[place] = File(link=each.linkname)
            elif each.isreg() or each.islnk():
                inside = archive.extractfile(each)
                assert inside
                found[place] = File(inside.read(), bool(each.mode & 0o100))
            else:
                raise Fault(f"{place} of a package is neither file nor link")
    return found


def together(debs: Iterable[bytes]) -> dict[str, File]:
    """The files of packages, and what scanners read: which packages they are of."""
    found: dict[str, File] = {}
    for deb in debs:
        text = control(deb)
        name = re.findall(r"^Package: (.*)$", text, re.M)[0]
        for place, file in unpacked(deb).items():
            if found.setdefault(place, file) != file:
                raise Fault(f"{place} of {name} is of another package too")
        found[f"var/lib/dpkg/status.d/{name}"] = File(text.encode())
    return found


# The layout


def text_of(value: object) -> bytes:
    return json.dumps(value, sort_keys=True, separators=(",", ":")).encode()


def image(debs: Sequence[Path], folder: Path, release: Release) -> dict[str, File]:
    """The archive that podman, docker and skopeo load, by its name. It has two layers: Debian's
    packages, and those of the release."""
    lacks = [pin.name for pin in pins() if not is_there(folder, pin)]
    if lacks:
        raise Fault(f"{folder} has no {lacks[0]} as image.txt means it")
    named = {each.name.partition("_")[0]: each for each in debs}
    for name in OURS:
        if name not in named:
            raise Fault(f"an image needs the package {name}")
    ours = [named[name] for name in sorted({*OURS, OF_COQ} & set(named))]
    base = together((folder / pin.name).read_bytes() for pin in pins())
    base |= {place: File(text.encode()) for place, text in USERS.items()}
    base |= {each: File(link=f"usr/{each}") for each in MERGED}
    layers = [plain_tar(base, release, FOLDERS),
              plain_tar(together(each.read_bytes() for each in ours), release)]
    return {f"arbiter-{release.version}-linux-x86_64{ENDING}":
            File(plain_tar(layout(layers, release), release))}


def layout(layers: Sequence[bytes], release: Release) -> Files:
    """The files of an OCI layout with one image, which older programs read too."""
    name, files = f"arbiter:{release.version}", {}

    def blob(data: bytes, kind: str) -> dict[str, object]:
        found = hashlib.sha256(data).hexdigest()
        files[f"blobs/sha256/{found}"] = File(data)
        return {"mediaType": f"application/vnd.oci.image.{kind}", "size": len(data),
                "digest": f"sha256:{found}"}

    heads = [blob(gzip.compress(each, 6, mtime=0), "layer.v1.tar+gzip") for each in layers]
    labels = {f"org.opencontainers.image.{key}": value for key, value in (
        ("title", "arbiter"), ("version", release.version), ("revision", release.commit),
        ("created", release.day), ("licenses", "MIT OR Apache-2.0"))}
    config = blob(text_of({
        "architecture": "amd64", "os": "linux", "created": release.day,
        "config": {"User": NOBODY, "Entrypoint": ["arbiterctl"], "Cmd": ["--help"],
                   "WorkingDir": "/usr/share/doc/arbiter", "Labels": labels,
                   "Env": ["PATH=/usr/sbin:/usr/bin:/sbin:/bin", "LC_ALL=C.UTF-8",
                           "PYTHONDONTWRITEBYTECODE=1"]},
        "rootfs": {"type": "layers", "diff_ids": [
            f"sha256:{hashlib.sha256(each).hexdigest()}" for each in layers]},
        "history": [{"created": release.day, "created_by": each} for each in (
            "packages of Debian", "packages of arbiter")],
    }), "config.v1+json")
    manifest = blob(text_of({
        "schemaVersion": 2, "mediaType": "application/vnd.oci.image.manifest.v1+json",
        "config": config, "layers": heads, "annotations": labels}), "manifest.v1+json")
    manifest["annotations"] = {"org.opencontainers.image.ref.name": name,
                               "io.containerd.image.name": f"docker.io/library/{name}"}
    places = [f"blobs/sha256/{str(each['digest'])[7:]}" for each in (config, *heads)]
    return {
        **files, "oci-layout": File(text_of({"imageLayoutVersion": "1.0.0"})),
        "index.json": File(text_of({
            "schemaVersion": 2, "mediaType": "application/vnd.oci.image.index.v1+json",
            "manifests": [manifest]})),
        "manifest.json": File(text_of([{
            "Config": places[0], "RepoTags": [name], "Layers": places[1:]}])),
    }


def main(words: Sequence[str]) -> int:
    try:
        if list(words) == ["--newest"]:
            head = [line for line in PINS.read_text(encoding="ascii").splitlines(True)
                    if line.startswith("#")]
            PINS.write_text("".join(head) + newest(), encoding="ascii")
        else:
            (folder,) = words
            fetch(Path(folder))
    except (Fault, OSError) as error:
        print(f"build: no image of containers: {error}", file=sys.stderr)
        return 1
    return 0


if __name__ == "__main__":
    sys.exit(main(sys.argv[1:]))
