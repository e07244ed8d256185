"""A process that has read the package, of which each run of arbiterctl is a child.

To read the package takes most of a run's processor time. For --checked alone: `./test` starts each
run as users do.
"""
import atexit
import contextlib
import gc
import json
import os
import pkgutil
import select
import signal
import socket
import subprocess
import sys
import tempfile
import threading
import traceback
from pathlib import Path

PACKAGE = Path(__file__).resolve().parent.parent
SECONDS = 300
# What of the environment a run may have otherwise than this process.
MAY_DIFFER = {"PATH", "COLUMNS", "TERM", "ARBITER_LIBRARY", "PYTEST_CURRENT_TEST"}


class Warm:
    """The process, which begins with the first run."""

    def __init__(self, environment):
        self.environment = dict(environment)
        self.socket, theirs = socket.socketpair(socket.AF_UNIX, socket.SOCK_SEQPACKET)
        with theirs:
            self.process = subprocess.Popen(
                [sys.executable, __file__, str(theirs.fileno())], env=self.environment,
                stdin=subprocess.DEVNULL, pass_fds=[theirs.fileno()])

    def takes(self, environment):
        """Whether a run with an environment may be its child."""
        pairs = environment.items() ^ self.environment.items()
        return {name for name, _ in pairs} <= MAY_DIFFER

    def ended(self, words, given, environment):
        """A run that has ended, as `subprocess.run` has it."""
        ours, theirs = socket.socketpair(socket.AF_UNIX, socket.SOCK_STREAM)
        with (ours, tempfile.TemporaryFile() as source, tempfile.TemporaryFile() as out,
              tempfile.TemporaryFile() as err):
            source.write(given)
            source.seek(0)
            with theirs:
                socket.send_fds(self.socket, [b"run"], [each.fileno() for each in (
                    theirs, source, out, err)])
            ours.sendall(json.dumps([words, dict(environment), os.getcwd()]).encode())
            ours.shutdown(socket.SHUT_WR)
            status = answer(ours, words)
            texts = [os.pread(each.fileno(), os.fstat(each.fileno()).st_size, 0)
                     for each in (out, err)]
        return subprocess.CompletedProcess(words, status, *texts)

    def end(self):
        """Ends the process."""
        self.socket.close()
        self.process.wait(SECONDS)


def answer(ours, words):
    """The status of a run. One that does not end in time is killed."""
    ours.settimeout(SECONDS)
    number = 0
    try:
        number = int.from_bytes(ours.recv(4), "big")
        return int.from_bytes(ours.recv(4), "big", signed=True)
    except TimeoutError:
        if number:
            os.kill(number, signal.SIGKILL)
        raise subprocess.TimeoutExpired(words, SECONDS) from None


def read_package():
    """Imports all that a run may need."""
    import arbiter_host
    for each in pkgutil.walk_packages(arbiter_host.__path__, "arbiter_host."):
        if not each.name.endswith("__main__"):
            __import__(each.name)


def ended_with(run):
    """The status of a call that ends as a program does, and what is done at its end."""
    try:
        run()
        status = 0
    except SystemExit as end:
        status = end.code if isinstance(end.code, int) else 0 if end.code is None else 1
    except BaseException:
        traceback.print_exc()
        status = 1
    threading._shutdown()
    atexit._run_exitfuncs()
    for each in (sys.stdout, sys.stderr):
        with contextlib.suppress(OSError, ValueError):
            each.flush()
    return status


def begin(asked, files, run):
    """Becomes a run of the words that are asked for. Nothing is torn down at its end: that takes
    longer than most runs."""
    words, environment, folder = json.loads(b"".join(iter(lambda: asked.recv(1 << 16), b"")))
    asked.close()
    for at, file in enumerate(files):
        os.dup2(file, at)
        os.close(file)
    os.environ.clear()
    os.environ.update(environment)
    os.chdir(folder)
    sys.argv = ["arbiterctl", *words]
    os._exit(ended_with(run) & 255)


def say(asked, number):
    """Tells a number of a run, unless nobody waits for that any more."""
    with contextlib.suppress(BrokenPipeError):
        asked.sendall(number.to_bytes(4, "big", signed=True))


class Runs:
    """The runs that are under way, each by a handle that is ready when it has ended."""

    def __init__(self, listener, run):
        self.listener, self.run, self.under, self.looks = listener, run, {}, select.poll()
        self.looks.register(listener, select.POLLIN)

    def take(self):
        """Takes a run, and tells its number. False where nobody asks any more."""
        message, files, _, _ = socket.recv_fds(self.listener, 16, 4)
        if not message:
            return False
        asked, number = socket.socket(fileno=files[0]), os.fork()
        if number == 0:
            self.listener.close()
            begin(asked, files[1:], self.run)
        for file in files[1:]:
            os.close(file)
        say(asked, number)
        handle = os.pidfd_open(number)
        self.under[handle] = number, asked
        self.looks.register(handle, select.POLLIN)
        return True

    def tell(self, handle):
        """Tells the status of a run that has ended."""
        number, asked = self.under.pop(handle)
        self.looks.unregister(handle)
        os.close(handle)
        status = os.waitstatus_to_exitcode(os.waitpid(number, 0)[1])
        with asked:
            say(asked, status)


def serve(listener):
    """Takes runs until nobody asks any more, and tells of each its number and its status."""
    read_package()
    from arbiter_host.command import main
    sys.modules["__main__"].__file__ = str(PACKAGE / "arbiterctl")
    gc.freeze()
    runs = Runs(listener, main)
    while True:
        for ready, _ in runs.looks.poll():
            if ready in runs.under:
                runs.tell(ready)
            elif not runs.take():
                return


if __name__ == "__main__":
    sys.path[0] = str(PACKAGE)
    serve(socket.socket(fileno=int(sys.argv[1])))
