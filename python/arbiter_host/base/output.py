"""Output of the command: text, styled lines, JSON, files."""
from __future__ import annotations

import os
import sys
from collections.abc import Callable, Iterable, Mapping, Sequence
from contextlib import suppress
from typing import Any, NamedTuple

from arbiter_host.base import names
from arbiter_host.base.faults import HostFault, strerror


class Output(NamedTuple):
    """A form, and the file that has it; `-` is standard output."""

    form: str
    path: str


# Lines with their styles on a terminal.
Styled = Sequence[tuple[str, str]]
# Remarks that are remembered, and those that are told at a time.
MOST_TOLD, MOST_AT_ONCE = 10000, 100
# What writes lines of standard error in place of `say`.
errors: Callable[[str], object] | None = None


def emit(lines: str) -> None:
    """Writes text to standard output, as UTF-8 whatever the locale is."""
    if sys.stdout is None:
        raise HostFault("standard output: Bad file descriptor")
    try:
        sys.stdout.buffer.write(lines.encode("utf-8", "backslashreplace"))
        sys.stdout.buffer.flush()
    except BrokenPipeError:
        raise
    except OSError as error:
        raise HostFault(f"standard output: {strerror(error)}") from error


def emit_styled(lines: Styled) -> None:
    if sys.stdout is None or not sys.stdout.isatty() or "NO_COLOR" in os.environ:
        emit("".join(f"{line}\n" for line, _ in lines))
        return
    from rich.console import Console  # (no other form needs it)
    from rich.text import Text
    console = Console(file=sys.stdout, highlight=False, soft_wrap=True)
    for line, style in lines:
        console.print(Text(line, style=style))


def json_text(data: Any) -> str:
    """Data as JSON. Letters that a terminal could take as a command are escaped."""
    import json
    dumped = json.dumps(data, indent=2, ensure_ascii=False)
    lines = (names.without_raw(line, names.escaped_in_json) for line in dumped.split("\n"))
    return "\n".join(lines) + "\n"


def write_file(path: str, data: str) -> None:
    """Writes a file whole; `-` is standard output."""
    if path == "-":
        emit(data)
        return
    # (a short command writes no file)
    from arbiter_host.base.atomic_files import put_file
    put_file(path, data.encode("utf-8", "backslashreplace"))


def write_forms(outputs: Sequence[Output],
                forms: Mapping[str, Callable[[], str | Styled]]) -> None:
    """Writes an answer in the forms asked for, after all of them were made."""
    for path, answer in [(path, forms[form]()) for form, path in outputs]:
        if isinstance(answer, str):
            write_file(path, answer)
        elif path == "-":
            emit_styled(answer)
        else:
            write_file(path, "".join(f"{line}\n" for line, _ in answer))


def drop_output() -> None:
    """Lets the interpreter flush to nowhere when it ends."""
    with suppress(OSError):
        os.dup2(os.open(os.devnull, os.O_WRONLY), 1)


def say(words: str) -> None:
    """Prints a line on standard error. Where that is gone or full nothing is printed: it must stop
    no change halfway."""
    line = f"arbiterctl: {names.shown(words)}"
    with suppress(OSError, ValueError, HostFault):
        if errors is not None:
            errors(f"{line}\n")
        elif sys.stderr is not None:
            print(line, file=sys.stderr, flush=True)


def warn(*notes: str) -> None:
    """Prints warnings on standard error."""
    for note in notes:
        say(f"warning: {note}")


class Remarks:
    """Remarks of a command that runs for long: each is told once, and few of them at a time, since
    whoever names groups could fill a log with them."""

    def __init__(self) -> None:
        self.told: set[str] = set()

    def tell(self, notes: Iterable[str]) -> None:
        """Tells those that are new."""
        new = [note for note in dict.fromkeys(notes) if note not in self.told]
        if len(self.told) + len(new) > MOST_TOLD:
            self.told.clear()
        self.told.update(new[:MOST_TOLD])
        warn(*new[:MOST_AT_ONCE])
        if len(new) > MOST_AT_ONCE:
            warn(f"remarks that are not shown: {len(new) - MOST_AT_ONCE}")


def tell(fault: HostFault) -> None:
    """Prints a fault on standard error, a line each."""
    for line in fault.message.split("\n"):
        say(line)
