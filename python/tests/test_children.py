"""Children of the command: one deadline over all that they print, a bound on its bytes, and nothing
that they began holds the command up."""
import gc
import os
import resource
import signal
import time
from contextlib import contextmanager, suppress
from pathlib import Path

import pytest
from arbiter_host.base import children, safe_files
from arbiter_host.base.faults import HostFault

MOST = 1 << 20
# Seconds in which a busy machine ends what has a deadline of half a second.
SOON, DEADLINE = 15, 0.5
# A process that leaves the session of its parent, keeps its output, and tells its number.
LEAVES = """import os, time
told, tells = os.pipe()
if os.fork() == 0:
    os.setsid()
    print(os.getpid(), flush=True)
    os.write(tells, b".")
    time.sleep(60)
    os._exit(0)
os.read(told, 1)
"""


def left_behind(then):
    """A program of Python that leaves such a process, and what it does then."""
    return ["python3", "-c", f"{LEAVES}{then}\n"]


def is_there(process):
    """Whether a process runs. A zombie does not."""
    with suppress(OSError), open(f"/proc/{process}/stat", encoding="ascii") as file:
        return file.read().rpartition(")")[2].split()[0] not in "ZX"
    return False


def is_gone(process):
    """Whether it goes, within some seconds."""
    until = time.monotonic() + SOON
    while is_there(process) and time.monotonic() < until:
        time.sleep(0.01)
    return not is_there(process)


def opened_and_begun():
    """The descriptors of this process with what each leads to, and its children, also those that
    ended. What an earlier test left in a cycle is closed first."""
    gc.collect()
    opened = set()
    for name in os.listdir("/proc/self/fd"):
        with suppress(FileNotFoundError):
            opened.add((name, os.readlink(f"/proc/self/fd/{name}")))
    begun = Path(f"/proc/self/task/{os.getpid()}/children")
    return opened, set(begun.read_text(encoding="ascii").split())


@contextmanager
def soon():
    """Fails where what is done takes long, or leaves a descriptor or a child of this process. One
    that was there before may go meanwhile."""
    before, began = opened_and_begun(), time.monotonic()
    yield
    assert time.monotonic() - began < SOON
    opened, begun = opened_and_begun()
    assert (opened - before[0], begun - before[1]) == (set(), set())


def test_what_it_prints():
    """Status, output, and the last of standard error. The input is given whole."""
    given = os.urandom(300_000)
    with soon():
        assert children.run(["cat"], SOON, MOST, given) == (0, given, b"")
        words = ["sh", "-c", "echo a; yes x | head -c 9000 >&2; echo b >&2; exit 7"]
        status, out, said = children.run(words, SOON, MOST, environment={"PATH": "/bin:/usr/bin"})
    assert (status, out, said.endswith(b"b\n"), len(said)) == (7, b"a\n", True, 4000)


@pytest.mark.parametrize("words", [
    ["sleep", "60"], ["sh", "-c", "while :; do echo a; sleep 0.05; done"],
    ["sh", "-c", "exec >&- 2>&-; sleep 60"], ["sh", "-c", "kill -STOP $$"],
    ["sh", "-c", "trap '' TERM INT HUP; sleep 60 & wait; sleep 60"],
    ["sh", "-c", "while :; do echo a >&2; sleep 0.05; done"], left_behind("time.sleep(60)")],
    ids=["silent", "drips", "closes its output", "stopped", "heeds no signal", "drips errors",
         "left behind"])
def test_one_deadline_over_all(words):
    with soon(), pytest.raises(HostFault, match=f"no whole answer in {DEADLINE} seconds"):
        children.run(words, DEADLINE, MOST)


def test_what_left_the_session_holds_nothing_up():
    """It keeps the output open, and lives on. What was printed is the answer."""
    with soon():
        status, out, _ = children.run(left_behind("print('a', flush=True)"), 60, MOST)
    process, *rest = out.split()
    try:
        assert (status, rest) == (0, [b"a"]) and is_there(int(process))
    finally:
        os.kill(int(process), signal.SIGKILL)


@pytest.mark.parametrize("then", ["exit 0", "exit 3", "sleep 60", "yes"])
def test_what_it_began_is_ended(tmp_path, then):
    """However it ends: by itself, by a fault, late, or after it printed too much."""
    told = tmp_path / "told"
    words = ["sh", "-c", f"sleep 60 & echo $! >{told}; {then}"]
    with soon(), suppress(HostFault):
        children.run(words, 2, MOST)
    assert is_gone(int(told.read_text()))


def test_bytes_have_a_bound():
    """Of output by a fault, of errors by what is kept."""
    before = resource.getrusage(resource.RUSAGE_SELF).ru_maxrss
    with soon(), pytest.raises(HostFault, match="an answer of more than 1 MiB"):
        children.run(["yes"], 60, MOST)
    with soon(), pytest.raises(HostFault, match="no whole answer"):
        children.run(["sh", "-c", "yes >&2"], DEADLINE, MOST)
    assert resource.getrusage(resource.RUSAGE_SELF).ru_maxrss - before < 64 << 10


@pytest.mark.parametrize("words, told", [(["/nowhere/tool"], "/nowhere/tool: No such file"),
                                         (["/etc/passwd"], "/etc/passwd: Permission denied")])
def test_what_cannot_be_started(words, told):
    with soon(), pytest.raises(HostFault) as found:
        children.run(words, 60, MOST)
    assert found.value.message.startswith(told)


@pytest.mark.parametrize("words, status", [(["true"], 0), (["sh", "-c", "exec <&-; exit 4"], 4)])
def test_input_that_nobody_reads(words, status):
    with soon():
        assert children.run(words, 60, MOST, b"x" * 1_000_000).status == status
    with soon(), pytest.raises(HostFault, match="no whole answer"):
        children.run(["sleep", "60"], DEADLINE, MOST, b"x" * 1_000_000)


def test_one_that_has_our_output(capfd, tmp_path):
    """A command of an alert. It has a deadline too, and what it began by then may live on."""
    told = tmp_path / "told"
    with soon():
        ended = children.run(["sh", "-c", f"cat; sleep 60 & echo $! >{told}"], 60, given=b"given\n")
    assert (ended, capfd.readouterr().out) == ((0, b"", b""), "given\n")
    process = int(told.read_text())
    assert is_there(process)
    os.kill(process, signal.SIGKILL)
    with soon(), pytest.raises(HostFault, match=f"sh: no end in {DEADLINE} seconds"):
        children.run(["sh", "-c", f"sleep 60 & echo $! >{told}; wait"], DEADLINE)
    assert is_gone(int(told.read_text()))


def test_many_open_files():
    """A loop has more files open than select can look at."""
    if safe_files.most_files() < 2000:
        pytest.skip("too few files may be open")
    many = [os.open("/dev/null", os.O_RDONLY) for _ in range(1100)]
    try:
        assert children.run(["echo", "a"], 60, MOST).out == b"a\n"
    finally:
        for each in many:
            os.close(each)


def test_signals_in_every_wait():
    """A signal each millisecond cuts no answer short, and moves no deadline."""
    seen = []
    before = signal.signal(signal.SIGALRM, lambda *_: seen.append(1))
    signal.setitimer(signal.ITIMER_REAL, 0.001, 0.001)
    try:
        with soon():
            words = ["sh", "-c", "for i in 1 2 3 4 5 6; do echo $i; sleep 0.05; done"]
            assert children.run(words, 60, MOST).out == b"1\n2\n3\n4\n5\n6\n"
            with pytest.raises(HostFault, match="no whole answer"):
                children.run(["sleep", "60"], DEADLINE, MOST)
    finally:
        signal.setitimer(signal.ITIMER_REAL, 0)
        signal.signal(signal.SIGALRM, before)
    assert len(seen) > 100


@pytest.mark.parametrize("has_handle", [True, False])
def test_where_the_system_tells_no_end(monkeypatch, has_handle):
    """Without a handle of the process it is looked at again and again."""
    def refused(*_):
        raise OSError("no such call")

    if not has_handle:
        monkeypatch.setattr(os, "pidfd_open", refused)
    before = signal.signal(signal.SIGCHLD, signal.SIG_IGN)
    try:
        ended = children.run(["sh", "-c", "exec >&- 2>&-; sleep 0.2"], 60, MOST)
    finally:
        signal.signal(signal.SIGCHLD, before)
    assert ended == (0, b"", b"")
    assert children.run(["sh", "-c", "echo a; exec >&-; sleep 0.2; exit 3"], 60, MOST)[:2] == (
        3, b"a\n")
