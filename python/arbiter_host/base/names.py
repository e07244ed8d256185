"""Names of groups: what a path can hold, and what a terminal or a page can show."""
from __future__ import annotations

import itertools
import os
import re
import unicodedata
from collections.abc import Callable, Container, Iterable, Iterator, Sequence

from arbiter_host.base.faults import HostFault

HEX_ID = re.compile(r"[0-9a-f]{64}")
UID = r"[0-9a-f]{8}([-_])[0-9a-f]{4}\1[0-9a-f]{4}\1[0-9a-f]{4}\1[0-9a-f]{12}"
POD_ID = re.compile(UID)
# Names of systemd units whose identifier alone tells them apart.
POD_UNIT = re.compile(r"kubepods-(?:burstable-|besteffort-)?pod([0-9a-f]{8})[-_][0-9a-f_-]{27}"
                      r"\.slice")
SCOPE_UNIT = re.compile(r"(?:cri-containerd|crio|docker|libpod)-([0-9a-f]{12})[0-9a-f]{52}\.scope")
# Letters of a long identifier that are shown.
KEPT = 12
MAX_NAME = 255
# Groups of one folder that a source may give one name.
MOST_ALIKE = 1000
# The place of a group that is not known to be a folder of its host.
NOWHERE = "."
# What a path of a script cannot hold, and what begins an escape.
RESERVED = " \t\n/\0%"
ESCAPE = re.compile(rb"%([0-9A-F]{2})")


def is_raw(letter: str) -> bool:
    """Whether a terminal or a page could take a letter as a command, or turn the text round."""
    return unicodedata.category(letter) in ("Cc", "Cf", "Cs", "Co", "Cn", "Zl", "Zp")


def by_number(code: int) -> str:
    """A letter of a number as Python and TOML have it in a string."""
    return f"\\u{code:04x}" if code < 0x10000 else f"\\U{code:08x}"


def escaped(letter: str) -> str:
    """A letter as a backslash, a form letter and its number."""
    code = ord(letter)
    return f"\\x{code:02x}" if code < 0x100 else by_number(code)


def escaped_in_json(letter: str) -> str:
    """A letter as JSON has it in a string: by two numbers where one is too small."""
    data = letter.encode("utf-16-be", "surrogatepass")
    return "".join(f"\\u{data[at]:02x}{data[at + 1]:02x}" for at in range(0, len(data), 2))


def escaped_in_toml(letter: str) -> str:
    """A letter as TOML has it in a string. Half of a letter has no place there: it is replaced."""
    return by_number(0xfffd if unicodedata.category(letter) == "Cs" else ord(letter))


def in_bytes(letter: str) -> str:
    """A letter as %XX for each of its bytes."""
    return "".join(f"%{byte:02X}" for byte in letter.encode("utf-8", "surrogateescape"))


def without_raw(text: str, form: Callable[[str], str], also: str = "") -> str:
    """A text in which each letter that a terminal or a page could take as a command has a form of
    its own, and so have some others. Each form of an answer has its names from here."""
    return "".join(form(each) if is_raw(each) or each in also else each for each in text)


def shown(text: str) -> str:
    """A text without any letter that a terminal or a page could take as a command."""
    if text.isascii() and text.isprintable():
        return text
    return without_raw(text, escaped)


def short(text: str) -> str:
    """A text whose container and pod identifiers are cut to their first letters."""
    text = POD_UNIT.sub("pod\\1\u2026", SCOPE_UNIT.sub("\\1\u2026", text))
    text = HEX_ID.sub(lambda match: match.group()[:KEPT] + "\u2026", text)
    return POD_ID.sub(lambda match: match.group()[:8] + "\u2026", text)


def letter_width(letter: str) -> int:
    """Cells of a terminal that a letter takes: 0 to 2."""
    from rich.cells import get_character_cell_size  # (few names have such letters)
    return get_character_cell_size(letter)


def width(text: str) -> int:
    """Cells of a terminal that a text takes."""
    return len(text) if text.isascii() else sum(map(letter_width, text))


def fitting(text: str, cells: int) -> str:
    """The beginning of a text that takes at most so many cells."""
    used = itertools.accumulate(map(letter_width, text))
    return text[:sum(1 for _ in itertools.takewhile(lambda each: each <= cells, used))]


def cut(text: str, cells: int) -> str:
    """A text of at most so many cells, with an ellipsis where letters were left out."""
    return text if width(text) <= cells else fitting(text, cells - 1) + "\u2026"


def tail(path: str, cells: int) -> str:
    """A path of at most so many cells: its end is kept, since that tells groups apart."""
    if width(path) <= cells:
        return path
    last = last_name(path)
    if width(last) + 2 > cells:
        return cut("\u2026/" + last, cells)
    return "\u2026" + fitting(path[::-1], cells - 1)[::-1]


def padded(text: str, cells: int) -> str:
    """A text filled up with blanks to so many cells."""
    return text + " " * max(cells - width(text), 0)


def in_path(raw: str) -> str:
    """A name with %XX for what a path of a script or a terminal cannot hold, and for `%`."""
    if raw.isascii() and raw.isprintable() and not any(each in raw for each in RESERVED):
        return raw
    try:
        data = os.fsencode(raw)
    except UnicodeEncodeError:
        data = raw.encode("utf-8", "replace")
    # A letter that stands for a byte that is no UTF-8 is that byte.
    return without_raw(data.decode("utf-8", "surrogateescape"), in_bytes, RESERVED)


def place_text(place: str) -> str:
    """A folder of a host as a script or a host file can hold it. `place_of` reads it back."""
    return "/".join(map(in_path, place.split("/")))


def place_of(text: str) -> str:
    """The folder that `place_text` writes so; `NOWHERE` where it writes none so."""
    parts = [each if each in ("", NOWHERE) else raw_name(each) for each in text.split("/")]
    return NOWHERE if None in parts else "/".join(each or "" for each in parts)


def shortened(name: str, mark: str) -> str:
    """The beginning of a name with a mark behind it. `raw_name` reads no such name."""
    kept = name.encode()[:MAX_NAME - len(mark) - 2].decode(errors="ignore")
    return f"{kept}%~{mark}"


def path_name(raw: str, taken: Container[str] = (), parent: str = ".") -> str:
    """A name that a path of a script can hold, of a child whose path is not taken. `raw_name` reads
    it back. A name that is too long or taken is marked: which group it is cannot be told."""
    name = in_path(raw)
    if name in ("", ".", ".."):
        name = "%" + name
    if len(name.encode()) > MAX_NAME:
        import hashlib  # (few names are so long)
        name = shortened(name, hashlib.sha256(name.encode()).hexdigest()[:KEPT])
    for number in range(1, MOST_ALIKE + 1):
        each = name if number == 1 else shortened(name, str(number))
        if joined(parent, each) not in taken:
            return each
    raise HostFault(f"{shown(name)}: more than {MOST_ALIKE} groups of one name")


def raw_name(name: str) -> str | None:
    """The name on the host that `path_name` writes so; None where it writes none so."""
    try:
        raw = os.fsdecode(ESCAPE.sub(lambda match: bytes.fromhex(match.group(1).decode()),
                                     name.encode()))
    except UnicodeEncodeError:
        return None
    return raw if path_name(raw) == name and "/" not in raw and "\0" not in raw else None


def path_of_folder(folder: str) -> str:
    """The path of the group that has a folder of a host; empty for the root."""
    return "/".join(path_name(each) for each in folder.split("/") if each)


def raw_path(path: str) -> str | None:
    """The folder whose names are those of a path; None where a name cannot be told."""
    parts = [raw_name(each) for each in path.split("/")]
    return None if None in parts else "/".join(each or "" for each in parts)


def listed(words: Sequence[str], most: int = 5) -> str:
    """The first of some words, and how many more there are."""
    more = f" and {len(words) - most} more" if len(words) > most else ""
    return ", ".join(words[:most]) + more


def few(words: Sequence[str], most: int = 5) -> str:
    """The first of some words, and a mark where there are more."""
    return ", ".join([*words[:most], *([".."] if len(words) > most else [])])


def joined(parent: str, name: str) -> str:
    """The path of a child."""
    return name if parent == "." else f"{parent}/{name}"


def parent_path(path: str) -> str:
    """The path of the group above; `.` is the root."""
    return path.rpartition("/")[0] or "."


def upward(path: str) -> Iterator[str]:
    """A path and those above it, without the root, the longest first."""
    while path != ".":
        yield path
        path = parent_path(path)


def common_parent(paths: Iterable[str]) -> str:
    """The group that all of some groups are below; empty for the root."""
    return os.path.commonpath([parent_path(path) for path in paths] or [""])


def below(path: str, prefix: str) -> str:
    """A path without a group that it is below."""
    return path.removeprefix(f"{prefix}/")


def last_name(path: str) -> str:
    """The last name of a path."""
    return path.rpartition("/")[2]


def shape(text: str, letter: str) -> str:
    """The regular expression of a text in which `*` stands for any number of such letters.

    Each part but the last is taken where it is first found, which tries no name twice: so no name
    takes long, whoever chose it.
    """
    first, *rest = [re.escape(part) for part in text.split("*")]
    middle = "".join(f"(?>{letter}*?{part})" for part in rest[:-1])
    return first + middle + (f"{letter}*{rest[-1]}" if rest else "")


def pattern(text: str) -> re.Pattern[str]:
    """The pattern of a text in which `*` stands for any letters, slashes too."""
    return re.compile(shape(text, "."), re.DOTALL)


def pattern_of_end(text: str) -> re.Pattern[str]:
    """The pattern of paths that end with a text. In it `*` stands for any letters but a slash."""
    return re.compile("(?:.*/)?" + shape(text, "[^/]"), re.DOTALL)


def slice_folder(name: str) -> str:
    """The folder of a slice: `a-b.slice` stands in `a.slice`."""
    parts = name.removesuffix(".slice").split("-")
    return "/".join("-".join(parts[:count]) + ".slice" for count in range(1, len(parts) + 1))
