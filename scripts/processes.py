"""What the processes of a run of `rt` are doing, as /proc shows it."""
import os
import time
from typing import NamedTuple

TICK = os.sysconf("SC_CLK_TCK")
# Task of a process of the kit for a crate. Edits begin with a check of the crate as it stands.
PROOF, TESTS, BASE, EDITS = KINDS = ("proof", "tests", "base of the edits", "edits")
LINK, RUN = "linking", "runs"


class Process(NamedTuple):
    """A process of the kit at work on a crate."""

    pid: int
    began: float
    # Processor seconds, with those of all processes below.
    used: float
    crate: str
    kind: str
    folder: str


def stat_of(pid):
    """The parent of a process, its start (seconds since boot), and its processor seconds."""
    with open(f"/proc/{pid}/stat", encoding="utf-8", errors="replace") as stat:
        # the name is in parentheses and can have blanks
        words = stat.read().rpartition(")")[2].split()
    used = sum(int(word) for word in words[11:15]) / TICK
    return int(words[1]), int(words[19]) / TICK, used


def task_of(pid):
    """The crate, the kind and the folder of a process, or nothing if it does no task of `rt`."""
    with open(f"/proc/{pid}/cmdline", "rb") as line:
        words = line.read().decode(errors="replace").split("\0")
    folder, name = os.readlink(f"/proc/{pid}/cwd"), os.path.basename(words[0])
    if "/rt-run-" in folder:
        path = next((word for word in words if "/rt-run-" in word), "")
        return os.path.basename(path).removesuffix("_tests"), RUN, folder
    if name == "rattle-link":
        return os.path.basename(folder), LINK, folder
    proves = name == "rattle" and words[1:2] in (["check"], ["build"])
    if not proves or "--crate-name" not in words:
        return None
    return words[words.index("--crate-name") + 1], kind_of(words, folder), folder


def kind_of(words, folder):
    """The kind of a process of the prover, by its words and its folder."""
    if "/rt-edit-" in folder:
        kept = words[words.index("--incremental") + 1] if "--incremental" in words else ""
        return BASE if os.path.basename(kept) == "seed" else EDITS
    # a program is compiled from what its check proved
    if "--crate-checked" in words:
        return LINK
    return TESTS if "--test" in words else PROOF


def stat_or_none(pid):
    try:
        return stat_of(pid)
    except (OSError, ValueError, IndexError):
        return None


class Watch:
    """Looks at the processes that one process started."""

    def __init__(self, top):
        # A process is first a copy of rt, then Python, and only then the prover.
        self.top, self.tasks = top, {}
        self.why = None

    def look(self):
        """The processes at work now. None once /proc could not be read: `why` says why."""
        if self.why:
            return []
        try:
            pids = [int(name) for name in os.listdir("/proc") if name.isdigit()]
            stats = {pid: stat for pid, stat in ((pid, stat_or_none(pid)) for pid in pids) if stat}
            if os.getpid() not in stats:
                raise OSError("it has no entry for this process")
        except OSError as error:
            self.why = str(error)
            return []
        below = {}
        for pid, (parent, _, _) in stats.items():
            below.setdefault(parent, []).append(pid)
        found = (self.process(pid, stats, below) for pid in below.get(self.top, []))
        return [process for process in found if process]

    def process(self, pid, stats, below):
        _, began, _ = stats[pid]
        try:
            self.tasks[pid, began] = task_of(pid) or self.tasks.get((pid, began))
        except (OSError, ValueError, IndexError):
            pass
        task = self.tasks.get((pid, began))
        if not task:
            return None
        all_below = [pid]
        for each in all_below:
            all_below += below.get(each, [])
        return Process(pid, began, sum(stats[each][2] for each in all_below), *task)


def boot_seconds():
    """Seconds since boot, to compare with the start of a process."""
    return time.clock_gettime(time.CLOCK_BOOTTIME)
