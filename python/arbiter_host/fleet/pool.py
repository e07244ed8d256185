"""Where hosts are planned: in this process, in others of this machine, or by workers of Dask.

Processes of this machine talk over pipes, and nothing listens. Dask schedules, carries bytes and
notices workers that die; whoever its scheduler lets in can run code in all that talk to it.
"""
from __future__ import annotations

import ctypes
import importlib
import logging
import multiprocessing
import os
import signal
import warnings
from collections.abc import Generator, Iterable, Iterator
from concurrent.futures import FIRST_COMPLETED, Executor, Future, ProcessPoolExecutor, wait
from concurrent.futures.process import BrokenProcessPool
from contextlib import contextmanager, suppress
from itertools import chain
from typing import Any

from arbiter_host.base.faults import HostFault
from arbiter_host.base.names import cut, shown
from arbiter_host.fleet import work
from arbiter_host.fleet.work import HostFile, Job, Sent

Answered = Future[Sent | str]
MOST_WORKERS = 1024
# Hosts under way for each worker, so that none waits for this process.
EACH = 2
# Workers that may die one after another, without an answer between them.
MOST_DEATHS = 12
# Seconds that a scheduler may take to be found.
ASK_SECONDS = 15.0
# Seconds after which the end of a pool is late.
LATE_SECONDS = 1.0
# Seconds without any answer that end a run. A worker reads one host, which takes seconds.
MOST_SILENT = 600.0
GONE = "the scheduler went away"
# PR_SET_PDEATHSIG of Linux.
DEATH_SIGNAL = 1


# The name of a host, and what a worker sent of it or why nothing came.
Replies = Generator[tuple[str, Sent | str], None, None]


class SilentWorkers(Exception):
    """The workers answer nothing any more."""


def begin_worker() -> None:
    """Ends this process when the one that began it is gone, whatever it works at."""
    ctypes.CDLL(None).prctl(DEATH_SIGNAL, signal.SIGKILL)
    parent = multiprocessing.parent_process()
    if parent is not None and os.getppid() != parent.pid:
        # It was gone before the kernel was asked.
        os.kill(os.getpid(), signal.SIGKILL)


@contextmanager
def uninterrupted() -> Iterator[None]:
    """Holds interrupts back. A process that is begun here gets none, as long as it is there."""
    before = signal.pthread_sigmask(signal.SIG_BLOCK, {signal.SIGINT})
    try:
        yield
    finally:
        signal.pthread_sigmask(signal.SIG_SETMASK, before)


@contextmanager
def processes(count: int) -> Iterator[Executor]:
    """Processes of this machine. All are ended behind it, whatever they work at."""
    # A new interpreter would look for modules in the folder that this one was called in.
    before = os.environ.get("PYTHONSAFEPATH")
    os.environ["PYTHONSAFEPATH"] = "1"
    executor = ProcessPoolExecutor(count, multiprocessing.get_context("spawn"), begin_worker)
    try:
        yield executor
    except BaseException:
        for each in multiprocessing.active_children():
            each.kill()
        raise
    finally:
        # Before 3.12 Python waits without an end for its thread that hands calls on, where no
        # process is left that takes them (gh-94777). Closed while that thread closes it too, it
        # would wait as well: so only one that is late is freed.
        inside: Any = executor
        thread, calls = inside._executor_manager_thread, inside._call_queue
        executor.shutdown(wait=False, cancel_futures=True)
        if thread is not None:
            thread.join(LATE_SECONDS)
            if thread.is_alive():
                with suppress(OSError):
                    calls._reader.close()
            thread.join()
        if before is None:
            os.environ.pop("PYTHONSAFEPATH", None)


def given(executor: Executor, width: int, job: Job,
          hosts: Iterable[HostFile]) -> Iterator[tuple[HostFile, Answered]]:
    """Each host with its future when that has ended. So many are under way at a time.

    An executor that takes nothing more ends it: its last host has the error.

    # Errors
    SilentWorkers where none of those under way ends in time.
    """
    under: dict[Answered, HostFile] = {}
    for host in hosts:
        try:
            with uninterrupted():
                under[executor.submit(work.answered, job, host)] = host
        except RuntimeError as error:
            refused: Answered = Future()
            refused.set_exception(error)
            under[refused] = host
            break
        if len(under) >= width:
            yield from ended(under)
    while under:
        yield from ended(under)


def ended(under: dict[Answered, HostFile]) -> Iterator[tuple[HostFile, Answered]]:
    """Takes those that have ended from those under way, once one has."""
    done = wait(under, MOST_SILENT, FIRST_COMPLETED).done
    if not done:
        raise SilentWorkers(f"no worker answered anything in {MOST_SILENT:g} seconds")
    for each in done:
        yield under.pop(each), each


def in_processes(count: int, job: Job,
                 hosts: Iterable[HostFile]) -> Iterator[tuple[HostFile, Answered]]:
    """Each host with its future, of processes of its own."""
    with processes(count) as executor:
        yield from given(executor, EACH * count, job, hosts)


def reply(future: Answered) -> Sent | str:
    """The words that a worker sent, or the error that it ended with."""
    error = future.exception()
    return future.result() if error is None else (
        f"its worker: {type(error).__name__}: {cut(str(error), 200)}")


def by_processes(count: int, job: Job, hosts: Iterator[HostFile]) -> Replies:
    """Replies of processes. Where one dies, those under way are asked again one by one."""
    deaths = 0
    for first in hosts:
        lost: list[HostFile] = []
        for host, future in in_processes(count, job, chain([first], hosts)):
            if isinstance(future.exception(), BrokenProcessPool):
                lost.append(host)
                continue
            deaths = 0
            yield host.name, reply(future)
        for host, future in chain.from_iterable(in_processes(1, job, [each]) for each in lost):
            is_dead = isinstance(future.exception(), BrokenProcessPool)
            deaths = deaths + 1 if is_dead else 0
            if deaths > MOST_DEATHS:
                raise HostFault("workers die one after another, and answer nothing")
            yield host.name, "its worker died, twice" if is_dead else reply(future)


@contextmanager
def dask(address: str) -> Iterator[tuple[Executor, int]]:
    """The workers of a running scheduler, and how many hosts they take at once."""
    distributed: Any = importlib.import_module("distributed")
    # What happens is told here; asyncio would tell of tasks at the very end.
    logging.disable(logging.CRITICAL)
    warnings.filterwarnings("ignore", module="distributed")
    security = distributed.Security()
    if address.startswith("tls:") and not security.get_connection_args("client")["ssl_context"]:
        raise HostFault(f"{shown(address)}: no certificate is set (docs/TOOLS.md)")
    try:
        # TLS is as the configuration of Dask says.
        client = distributed.Client(address, set_as_default=False, timeout=ASK_SECONDS,
                                    security=security)
    except (OSError, ValueError, RuntimeError, TypeError) as error:
        raise HostFault(f"{shown(address)}: {shown(str(error))}") from error
    try:
        threads = sum(client.nthreads().values())
        if not threads:
            raise HostFault(f"{shown(address)}: it has no worker")
        yield client.get_executor(pure=False, retries=1), EACH * threads
    finally:
        with suppress(Exception):
            client.close(timeout=3)


def by_dask(address: str, job: Job, hosts: Iterator[HostFile]) -> Replies:
    """Replies of the workers of a scheduler. With the scheduler all that is left goes."""
    with dask(address) as (executor, width):
        for host, future in given(executor, width, job, hosts):
            if future.cancelled() or isinstance(future.exception(), RuntimeError):
                yield host.name, GONE
                break
            yield host.name, reply(future)


def replies(workers: int, scheduler: str | None, job: Job, hosts: Iterator[HostFile]) -> Replies:
    """The outcome of each host, in the order in which it comes. Some may not come at all."""
    if scheduler is not None:
        return by_dask(scheduler, job, hosts)
    if workers:
        return by_processes(workers, job, hosts)
    return ((host.name, work.answered(job, host)) for host in hosts)
