"""Fixtures of the package's tests: the library, the engine, the command, and an empty folder.

    /usr/bin/python3 -m pytest python/tests --program PATH --library PATH
"""
import os
import shutil
import subprocess
import sys

import pytest
from hypothesis import HealthCheck, settings

from places import PACKAGE

sys.path[:0] = [str(PACKAGE), *(str(PACKAGE.parent / name) for name in ("tests", "bench/kernel"))]
pytest_plugins = ["shared_fixtures"]
SECONDS = 300


def pytest_configure(config):
    """Sets the most random cases, before a test is read. A busy machine is no failure of one."""
    settings.register_profile("busy", deadline=None, suppress_health_check=[HealthCheck.too_slow],
                              max_examples=config.getoption("fuzz_runs") or 100)
    settings.load_profile("busy")


@pytest.fixture(scope="session")
def calls(library):
    """The C library under test."""
    import arbiter
    return arbiter.Library(library)


@pytest.fixture(scope="session")
def chromium():
    """The browser that shows a page; a test is skipped where there is none."""
    found = shutil.which("chromium")
    return found or pytest.skip("no chromium here")


@pytest.fixture(scope="session")
def engine(calls):
    """The engine over the C library under test."""
    from arbiter_host.base.plan import Engine
    return Engine(calls)


def environment_of(library):
    """The environment of a run over a library."""
    return {**os.environ, "ARBITER_LIBRARY": str(library), "LC_ALL": "C", "COLUMNS": "120",
            "TMPDIR": "/tmp"}


class Command:
    """Runs arbiterctl over one library, by a process that has read the package where there is one.
    """

    def __init__(self, library, warm=None):
        self.environment, self.warm = environment_of(library), warm

    def ended(self, *words, given=b"", **options):
        """A run that has ended."""
        if self.warm and not options and self.warm.takes(self.environment):
            return self.warm.ended([*map(str, words)], given, self.environment)
        return subprocess.run([sys.executable, str(PACKAGE / "arbiterctl"), *map(str, words)],
                              input=given, capture_output=True, timeout=SECONDS,
                              env=self.environment, check=False, **options)

    def run(self, *words, given=b"", status=0):
        """Standard output and error of a run that ends with a status."""
        ended = self.ended(*words, given=given)
        assert ended.returncode == status, (words, ended.returncode, ended.stderr.decode()[:600])
        assert b"Traceback" not in ended.stderr, ended.stderr.decode()
        return ended.stdout.decode(), ended.stderr.decode()


@pytest.fixture(scope="session")
def warm(request, library):
    """What starts runs with --checked; none else."""
    if not request.config.getoption("checked"):
        yield None
        return
    from warm import Warm
    process = Warm(environment_of(library))
    yield process
    process.end()


@pytest.fixture
def ctl(library, warm):
    """The command over the library under test."""
    return Command(library, warm)


@pytest.fixture
def folder(tmp_path):
    """An empty folder."""
    return tmp_path


@pytest.fixture
def world(folder):
    """Weights 100, 100 and 200 on two CPUs: 200 slices, guarantees 50, 50 and 100."""
    from held import FREE, World
    return World(folder, [("a", 100, FREE), ("b", 100, FREE), ("c", 200, FREE)])
