"""The workers of `period` in the native program: they run at once, and their draws alternate.

A worker of a period does nothing but draw, so one that gets on draws. The history of a period is
not printed: `draws_alternate` of bw_thread_tests counts the changes of worker in it.
"""
import os
import signal
import subprocess
import sys
import tempfile
import time
from pathlib import Path

import pytest

from support import SECONDS, Program, same

# Each worker draws 1000 slices in a period.
HOST = ["run", "--period", "1000000", "--slice", "1000", "--processors"]
SLICES = 1000
PERIODS = 20_000
# Samples in which the same two workers both got on since the one before. Workers one after another
# share few, in which the first ends and the second begins.
LEAST_SHARED = 5
# Seconds that the program runs between two samples. Meanwhile it is stopped.
STEP_SECONDS = 0.0002


def script(processors: int) -> bytes:
    """Two groups share all slices, over and over."""
    half = SLICES * processors // 2
    return (f"mkdir a\nmkdir b\ndemand a {half}\ndemand b {half}\n" + "period\n" * PERIODS).encode()


def ran_so_far(process: int) -> dict:
    """Nanoseconds on a processor of each thread but the first, by its number."""
    found = {}
    for task in Path(f"/proc/{process}/task").iterdir():
        try:
            if int(task.name) != process:
                found[int(task.name)] = int((task / "schedstat").read_text().split()[0])
        except (OSError, IndexError):
            continue
    return found


def shared_samples(process: subprocess.Popen) -> dict:
    """In how many samples two workers got on, until two did often enough or the time is over."""
    shared, last = {}, {}
    until = time.monotonic() + SECONDS
    while process.poll() is None and time.monotonic() < until:
        process.send_signal(signal.SIGCONT)
        time.sleep(STEP_SECONDS)
        process.send_signal(signal.SIGSTOP)
        try:
            now = ran_so_far(process.pid)
        except OSError:
            break
        went_on = sorted(each for each, used in now.items() if used > last.get(each, used))
        for one in went_on:
            for other in went_on:
                if one < other:
                    shared[one, other] = shared.get((one, other), 0) + 1
        if shared and max(shared.values()) >= LEAST_SHARED:
            break
        last = now
    return shared


def most_shared(program, processors: int) -> int:
    """The greatest number of samples that two workers of one period shared."""
    words = [program.path, *HOST, str(processors)]
    with tempfile.TemporaryFile() as given:
        given.write(script(processors))
        given.seek(0)
        process = subprocess.Popen(words, stdin=given, stdout=subprocess.DEVNULL)
    with process:
        try:
            return max(shared_samples(process).values(), default=0)
        finally:
            process.kill()


# Workers that run one after another, in a thread each.
IN_TURN = f"""#!{sys.executable}
import threading
for _ in range(100):
    worker = threading.Thread(target=lambda: sum(range(50000)))
    worker.start()
    worker.join()
"""
COUNTS = pytest.mark.skipif(not os.path.exists("/proc/self/schedstat"), reason="no schedstat")
TWO_CORES = pytest.mark.skipif(len(os.sched_getaffinity(0)) < 2, reason="one core")


@COUNTS
@TWO_CORES
@pytest.mark.parametrize("processors", [8, 16])
def test_draws_alternate(program, processors):
    """Two workers of one period both get on between two looks, again and again."""
    assert most_shared(program, processors) >= LEAST_SHARED


@COUNTS
def test_one_processor_has_no_thread(program):
    """The one worker of a host of one processor is the calling thread."""
    words = [program.path, *HOST, "1"]
    with subprocess.Popen(words, stdin=subprocess.PIPE, stdout=subprocess.DEVNULL) as process:
        try:
            process.stdin.write(script(1))
            process.stdin.flush()
            seen = [ran_so_far(process.pid) for _ in range(100)]
        finally:
            process.kill()
    same([each for each in seen if each], [], "threads")


@COUNTS
def test_workers_in_turn_are_told(scratch):
    """Workers one after another share no samples again and again."""
    path = scratch / "program"
    path.write_text(IN_TURN)
    path.chmod(0o755)
    assert most_shared(Program(path), 4) < LEAST_SHARED
