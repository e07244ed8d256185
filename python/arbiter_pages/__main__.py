"""Writes what is made of the table of calls and of the table of options.

    cd python && /usr/bin/python3 -m arbiter_pages
"""
from collections.abc import Iterator
from pathlib import Path

from arbiter_pages import interface, rust

TOP = Path(__file__).resolve().parent.parent.parent
SHARE = TOP / "share"


def parts() -> Iterator[dict[Path, str]]:
    """The files with their texts, those of the calls first."""
    yield {TOP / name: text for each in (interface, rust)
           for name, text in each.files().items()}
    # (they import arbiter_host, which the files above may keep from being imported)
    from arbiter_pages import completions, manual
    yield {SHARE / "libarbiter.3": manual.library_page()}
    yield {SHARE / "man" / name: text for name, text in manual.pages().items()}
    yield {SHARE / "completions" / name: text for name, text in completions.completions().items()}


def files() -> dict[Path, str]:
    """All files with their texts."""
    return {path: text for part in parts() for path, text in part.items()}


def main() -> None:
    for part in parts():
        for path, text in part.items():
            path.parent.mkdir(exist_ok=True)
            path.write_text(text, encoding="utf-8")
            print(path)


if __name__ == "__main__":
    main()
