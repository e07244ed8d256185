"""Runs in the guest: commands of `arbiterctl` one after another, and what all files then hold.

    python3 in_guest.py STEPS      a JSON list of steps; each prints one line of JSON

Each command is `arbiter_host.command.run` in a process of its own.
"""
from __future__ import annotations

import json
import os
import signal
import sys
from pathlib import Path
from typing import Any

FILES = ("cpu.weight", "cpu.max", "cpu.max.burst")
SAID, STILL, ROUNDS = Path("/tmp/said"), Path("/tmp/still"), Path("/tmp/rounds")
Step = dict[str, Any]


def settings(top: Path) -> dict[str, list[str]]:
    """What the files of each group below a folder hold, without groups that go meanwhile."""
    found = {}
    for folder, _, _ in os.walk(top):
        try:
            texts = [Path(folder, file).read_text(encoding="ascii").strip() for file in FILES]
        except OSError:
            continue
        found[str(Path(folder).relative_to(top))] = texts
    return {path: texts for path, texts in found.items() if path != "."}


def begun(words: list[str]) -> int:
    """Starts a command. Its output goes to a file."""
    process = os.fork()
    if process:
        return process
    from arbiter_host import command
    said = os.open(SAID, os.O_WRONLY | os.O_CREAT | os.O_TRUNC, 0o600)
    os.dup2(said, 1)
    os.dup2(said, 2)
    status = command.run(words)
    sys.stdout.flush()
    sys.stderr.flush()
    os._exit(status)


def ended(process: int, kill: list[str]) -> int:
    """The exit status of a command, or minus the signal that killed it: it is killed when a file
    holds a text."""
    if kill:
        descriptor = os.open(kill[0], os.O_RDONLY)
        while os.pread(descriptor, 100, 0).decode().strip() != kill[1]:
            if os.waitid(os.P_PID, process, os.WEXITED | os.WNOHANG | os.WNOWAIT):
                break
        os.kill(process, signal.SIGKILL)
    return os.waitstatus_to_exitcode(os.waitpid(process, 0)[1])


def come_and_go(top: Path) -> int:
    """Starts a process that makes groups and removes them until it is told to end."""
    process = os.fork()
    if process:
        return process
    rounds = 0
    while not STILL.exists():
        for number in range(3):
            (top / f"come{number}" / "in").mkdir(parents=True)
        for number in range(3):
            (top / f"come{number}" / "in").rmdir()
            (top / f"come{number}").rmdir()
        rounds += 1
    ROUNDS.write_text(str(rounds), encoding="ascii")
    os._exit(0)


def spin(group: Path) -> None:
    """Starts a task of a group that keeps to the second processor, until the guest ends."""
    if os.fork():
        return
    (group / "cgroup.procs").write_text("0", encoding="ascii")
    os.sched_setaffinity(0, {1})
    while True:
        pass


def done(step: Step, top: Path) -> dict[str, Any]:
    """Makes a step. Returns its status, its words, and what all files hold then."""
    status = ended(begun(step["words"]), step.get("kill", []))
    said = SAID.read_text(encoding="utf-8").splitlines()
    for path in step.get("rmdir", []):
        (top / path).rmdir()
    return {"phase": step["name"], "status": status, "said": said, "groups": settings(top)}


def main() -> None:
    """Makes all steps."""
    sys.path.insert(0, str(Path(__file__).parent))
    # what each command imports is there before the first fork
    from arbiter_host.sources import cgroups, script
    from arbiter_host.subcommands import apply, export, hold
    assert apply and export and hold and cgroups and script
    found = json.loads(Path(sys.argv[1]).read_text(encoding="utf-8"))
    top, others = Path(found["top"]), 0
    print(json.dumps({"phase": "made", "groups": settings(top)}), flush=True)
    for step in found["steps"]:
        if step.get("churn") in ("begin", "both"):
            others = come_and_go(top)
        if "spin" in step:
            spin(top / step["spin"])
        shown = done(step, top)
        if step.get("churn") in ("end", "both"):
            STILL.touch()
            os.waitpid(others, 0)
            shown["rounds"] = int(ROUNDS.read_text(encoding="ascii"))
        print(json.dumps(shown), flush=True)


if __name__ == "__main__":
    main()
