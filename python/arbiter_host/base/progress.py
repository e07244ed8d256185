"""Calls that take long: a bar on a terminal, and calls that no interrupt waits for."""
from __future__ import annotations

import sys
import threading
from collections.abc import Callable, Iterable, Iterator
from contextlib import contextmanager
from typing import TypeVar

T = TypeVar("T")
# Whether bars may be shown: not while a live view has the terminal.
is_allowed = True


def nothing() -> None:
    """No progress is shown."""


@contextmanager
def bar(what: str, total: int) -> Iterator[Callable[[], None]]:
    """A bar on standard error, where that is a terminal. The value is called for each step."""
    if not is_allowed or sys.stderr is None or not sys.stderr.isatty() or total < 2:
        yield nothing
        return
    from rich.console import Console  # (few calls show one)
    from rich.progress import Progress
    with Progress(console=Console(stderr=True), transient=True) as progress:
        task = progress.add_task(what, total=total)
        yield lambda: progress.advance(task)


def each(what: str, items: Iterable[T], total: int) -> Iterator[T]:
    """Some items one after another, with a bar that goes on behind each."""
    with bar(what, total) as step:
        for item in items:
            yield item
            step()


def in_thread(call: Callable[[], T], seconds: float | None = None) -> T:
    """The answer of a call, in a thread that ends with the command: no interrupt waits for it. A
    TimeoutError after so many seconds."""
    from concurrent.futures import Future  # (few calls take long)
    future: Future[T] = Future()

    def run() -> None:
        try:
            future.set_result(call())
        except BaseException as error:
            future.set_exception(error)

    threading.Thread(target=run, daemon=True).start()
    return future.result(seconds)
