"""Options and fixtures of all tests (a pytest plugin, loaded by conftest.py)."""
import fcntl
import importlib
import shutil
import signal
import subprocess
import sys
import tempfile
from contextlib import suppress
from pathlib import Path

import pytest

import chances
import support


def pytest_addoption(parser):
    group = parser.getgroup("arbiter")
    group.addoption("--program", metavar="PATH", default=support.PROGRAM,
                    help="program under test (default: the native one that ./build makes);"
                    " ./arbiter is what that runs")
    group.addoption("--library", metavar="PATH", default=support.LIBRARY,
                    help="shared C library under test, libarbiter.so, with libarbiter.a beside it")
    group.addoption("--checked", action="store_true",
                    help="the checked build of program and calls, which proves nothing, without the"
                    " tests of tests/checked/left_out.txt")
    group.addoption("--memory-tests", metavar="PATH", default=support.MEMORY_TESTS,
                    help="program of tests that repeat each call that was refused memory")
    group.addoption("--fuzz-seconds", metavar="N", type=int, default=10,
                    help="seconds that each fuzzer of the C library runs (default 10)")
    group.addoption("--fuzz-runs", metavar="N", type=int, default=0,
                    help="inputs that each fuzzer tries, in the place of seconds, and the most"
                    " random cases of a test; of cheap ones some times more")
    group.addoption("--write", action="store_true",
                    help="put the program's answers into the pages of docs/, to be read by hand")


# Locked while the checked build is made. Then it has the exit status.
MAKING = support.CHECKED / "making"
MAKE = f'bash scripts/make_checked.sh "$@"; echo $? >{MAKING.relative_to(support.ROOT)}'


def make_checked(config, *what):
    """Begins to make the checked build, once for all workers. Tests that need none go on beside."""
    if hasattr(config, "workerinput"):
        return
    support.CHECKED.mkdir(parents=True, exist_ok=True)
    with open(MAKING, "a", encoding="utf-8") as lock:
        fcntl.flock(lock, fcntl.LOCK_EX)
        lock.truncate(0)
        # (the lock is the child's until that ends)
        config.making = subprocess.Popen(["bash", "-c", MAKE, "", *what], cwd=support.ROOT,
                                         stdin=subprocess.DEVNULL, pass_fds=[lock.fileno()])


def wait_for_checked():
    """Waits until the checked build is made. A failure is one of each test that needs it."""
    with open(MAKING, encoding="utf-8") as lock:
        fcntl.flock(lock, fcntl.LOCK_SH)
        if lock.read() != "0\n":
            pytest.fail("no checked build", pytrace=False)


def pytest_unconfigure(config):
    """Leaves nobody behind who still makes the checked build."""
    if hasattr(config, "making"):
        config.making.wait()


def pytest_configure(config):
    """Sets the most random cases, before a test is read, and finds the checked build where it is
    asked for."""
    chances.most = config.getoption("fuzz_runs")
    if config.getoption("checked"):
        make_checked(config)
        config.option.program = support.CHECKED / "arbiter"
        config.option.library = support.CHECKED / "libarbiter.so"
    elif Path(config.getoption("program")).resolve() == support.ROOT / "arbiter":
        make_checked(config, "program")
        config.option.program = support.CHECKED / "arbiter"


def pytest_sessionstart(session):
    """Reads a part of the test files before all are read. So workers side by side do not each
    compile all of them: each finds what the others have compiled."""
    worker = getattr(session.config, "workerinput", None)
    if worker is None or sys.dont_write_bytecode:
        return
    files = [path for each in session.config.args for path in sorted(Path(each).glob("test_*.py"))]
    for path in files[int(worker["workerid"][2:])::worker["workercount"]]:
        # (a file that cannot be read is told later)
        with suppress(Exception, pytest.skip.Exception):
            importlib.import_module(path.stem)


def order(items, sees_build, is_grouped):
    """Orders tests for workers side by side, each of which has one file after another, or one group
    of a file. Those that need no build come first, while that is made. Then those of files with
    most text, so that none of them goes on alone at the end."""
    sizes = {path: path.stat().st_size for path in {item.path for item in items}}
    builds = {"program", "library"} if sees_build else set()
    later = {item: bool(builds & {*item.fixturenames}) for item in items}
    if is_grouped:
        for item in items:
            group = f"{item.path.relative_to(support.ROOT)} {later[item]:d}"
            item.add_marker(pytest.mark.xdist_group(group))
    else:
        files = {item.path for item in items if later[item]}
        later = {item: item.path in files for item in items}
    items.sort(key=lambda item: (later[item], -sizes[item.path]))


@pytest.hookimpl(tryfirst=True)
def pytest_collection_modifyitems(config, items):
    """Leaves out what a checked build cannot show. Workers get the tests of a file that need the
    build, and those that do not, as a group each: first of all, since xdist reads them."""
    is_checked = config.getoption("checked")
    if hasattr(config, "workerinput"):
        order(items, is_checked, config.getvalue("loadgroup"))
    if not is_checked:
        return
    lines = (support.ROOT / "tests/checked/left_out.txt").read_text().splitlines()
    left_out = tuple(line.partition("\t")[0] for line in lines if not line.startswith("#"))

    def is_left_out(item):
        return f"{item.path.relative_to(support.ROOT)}::{item.name}".startswith(left_out)

    config.hook.pytest_deselected(items=[item for item in items if is_left_out(item)])
    items[:] = [item for item in items if not is_left_out(item)]


def pytest_report_header(config):
    return [f"program: {config.getoption('program')}", f"library: {config.getoption('library')}"]


def existing(path, option):
    """The absolute path of a file that an option names, or a failure that says what makes it."""
    path = Path(path).resolve()
    if path.parent == support.CHECKED and MAKING.exists():
        wait_for_checked()
    if not path.is_file():
        reason = f"no file {path}: ./build and ./test make it, {option} names another"
        pytest.fail(reason, pytrace=False)
    return path


@pytest.fixture(scope="session")
def program(request) -> support.Program:
    """The native program under test."""
    return support.Program(existing(request.config.getoption("program"), "--program"))


@pytest.fixture(scope="session")
def command(program) -> support.Program:
    """`./arbiter`, if that runs the program under test, otherwise the program itself."""
    own = program.path == str(support.PROGRAM.resolve())
    return support.Program(support.ROOT / "arbiter") if own else program


@pytest.fixture(scope="session")
def library(request) -> Path:
    """The shared C library under test. The static one is beside it, with the ending .a."""
    path = existing(request.config.getoption("library"), "--library")
    existing(path.with_suffix(".a"), "--library")
    return path


@pytest.fixture(scope="session")
def refusing() -> str:
    """The library of refuse.c, to be preloaded: see `support.refused_run`."""
    with tempfile.TemporaryDirectory() as folder:
        yield support.build_refusing_library(folder)


@pytest.fixture(scope="session")
def guests_kernel():
    """A kernel for guests. It is had once by apt-get; a skip where packages are missing."""
    from kernel import packages
    from kernel.faults import KernelFault
    lacks = packages.missing()
    if lacks:
        pytest.skip(lacks)
    try:
        return packages.any_kernel()
    except KernelFault as fault:
        pytest.skip(str(fault))


@pytest.fixture
def scratch() -> Path:
    """An empty folder, which is removed after the test."""
    with tempfile.TemporaryDirectory() as folder:
        yield Path(folder)


@pytest.fixture(scope="session", autouse=True)
def heeds_interrupts():
    """Lets the processes that tests start heed an interrupt, also where pytest was started without,
    as a script starts what it runs in the background."""
    if signal.getsignal(signal.SIGINT) is signal.SIG_IGN:
        signal.signal(signal.SIGINT, signal.default_int_handler)


def has_coq() -> bool:
    """Whether what proves in Coq, and makes programs of it, is there."""
    return all(map(shutil.which, ("coqc", "coqchk", "ocamlfind")))


def build_in_coq(folder: Path) -> str:
    """Proves in Coq, and makes both programs. Gives the words that were printed."""
    ended = subprocess.run([support.ROOT / "independent/build", folder], capture_output=True, text=True,
                           timeout=900, check=False)
    assert ended.returncode == 0, ended.stdout + ended.stderr
    return ended.stdout


@pytest.fixture(scope="session")
def built():
    """The folder in which all is proved in Coq, and both programs are made."""
    if not has_coq():
        pytest.skip("no Coq: apt-get install coq ocaml-findlib libzarith-ocaml-dev")
    folder = support.ROOT / "out/independent"
    print(build_in_coq(folder))
    return folder
