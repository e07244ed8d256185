#!/usr/bin/python3
"""Many hosts: the bytes of one process, also where a worker dies, and what each way costs.

usage: bench/fleet.py [--hosts N] [--groups N] [--library PATH]

Makes a fleet of scripts, by default 10,000 hosts of 500 groups, and runs `arbiterctl explain` over
it: in one process, and on one, two and four workers. On four workers it runs a second time, and one
of them is killed. It fails if the bytes of a run differ from those of one process.
"""
import argparse
import hashlib
import os
import pathlib
import random
import resource
import signal
import subprocess
import sys
import tempfile
import time

TOP = pathlib.Path(__file__).resolve().parent.parent
COMMAND = [sys.executable, str(TOP / "python/arbiterctl"), "explain"]


def script(number, groups):
    """The script of a host: services of some 50 groups each, a third of them with a limit."""
    dice = random.Random(number)
    lines = [f"# arbiter run --processors {dice.choice((8, 16, 32, 64))} --slice 1000"]
    for top in range(max(groups // 50, 1)):
        lines += [f"mkdir s{top}", f"write s{top} cpu.weight {dice.randint(1, 500)}"]
        for below in range(min(groups, 50) - 1):
            path = f"s{top}/g{below}"
            lines += [f"mkdir {path}", f"write {path} cpu.weight {dice.randint(1, 500)}"]
            if below % 3 == 0:
                lines.append(f"write {path} cpu.max {dice.randint(10000, 300000)}")
            lines.append(f"demand {path} {dice.randint(0, 120)}")
    return "".join(f"{line}\n" for line in lines)


def make(folder, count, groups):
    """The files of a fleet."""
    folder.mkdir()
    for number in range(count):
        (folder / f"host-{number:05}.script").write_text(script(number, groups))
    return folder


def workers_of(run):
    """The ids of the workers of a run."""
    found = []
    for path in pathlib.Path(f"/proc/{run.pid}/task").glob("*/children"):
        for child in path.read_text().split():
            if b"spawn_main" in pathlib.Path(f"/proc/{child}/cmdline").read_bytes():
                found.append(int(child))
    return found


def kill_one(run):
    """Kills the first worker of a run by its id, once it has worked for some seconds."""
    time.sleep(5)
    found = workers_of(run)
    if run.poll() is not None or not found:
        sys.exit("the run ended before a worker was killed")
    os.kill(min(found), signal.SIGKILL)


def planned(hosts, count, workers, is_killed):
    """One run: its bytes' digest. Its row has wall and processor seconds."""
    before, began = resource.getrusage(resource.RUSAGE_CHILDREN), time.monotonic()
    with tempfile.TemporaryFile() as told:
        words = ["--workers", str(workers), "-o", "json"]
        with subprocess.Popen([*COMMAND, str(hosts), *words], stdout=told) as run:
            if is_killed:
                kill_one(run)
        if run.returncode:
            sys.exit(f"{workers} workers: status {run.returncode}")
        wall, after = time.monotonic() - began, resource.getrusage(resource.RUSAGE_CHILDREN)
        used = after.ru_utime + after.ru_stime - before.ru_utime - before.ru_stime
        told.seek(0)
        digest = hashlib.file_digest(told, "sha256").hexdigest()
    what = f"{workers} workers, one killed" if is_killed else f"{workers or 'no'} workers"
    print(f"| {what} | {count:,} | {wall:.1f} | {used:.1f} | {count / wall:.0f} |"
          f" {count / used:.0f} | {digest[:12]} |", flush=True)
    return digest


def main():
    parser = argparse.ArgumentParser(description=__doc__.split("\n\n")[0])
    parser.add_argument("--hosts", type=int, default=10000)
    parser.add_argument("--groups", type=int, default=500)
    parser.add_argument("--library", default=str(TOP / "crates/bw_exports/out/libarbiter.so"))
    options = parser.parse_args()
    os.environ["ARBITER_LIBRARY"] = os.path.abspath(options.library)
    with tempfile.TemporaryDirectory(prefix="bench-") as folder:
        hosts = make(pathlib.Path(folder) / "hosts", options.hosts, options.groups)
        print("| Run | Hosts | Wall s | Processor s | hosts a second | hosts a second and core |"
              " sha256 |\n|---|---|---|---|---|---|---|", flush=True)
        digests = {planned(hosts, options.hosts, workers, is_killed) for workers, is_killed in (
            (0, False), (1, False), (2, False), (4, False), (4, True))}
    print("the bytes are the same" if len(digests) == 1 else "FAILED: the bytes differ")
    return 0 if len(digests) == 1 else 1


if __name__ == "__main__":
    sys.exit(main())
