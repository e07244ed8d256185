"""Standard input and output that fail: the answers, the exit status and the reason.

A reader that fails after k bytes is a pipe that is empty then and does not wait. A writer that
fails after k bytes is a file that may not grow past them. Both are made for every k of a script.
"""
import functools
import os
import resource
import signal

import pytest

from support import CERTIFIED, ROOT, Ended, Talk, each, refused_run, run, same, script_lines

READ_FAULT = b"arbiter: read fault: "
WRITE_FAULT = b"arbiter: write fault: "
TWO_GROUPS = CERTIFIED["two groups"]
LINE_OF_A_REFUSAL = TWO_GROUPS.replace(b"20 7", b"20 8")
LONGEST_TEXT = 4194304
NOT_OPEN = b"it is not open for this\n"
FOLDER = b"it is a directory\n"
WOULD_WAIT = b"it would have to wait\n"
FULL = b"no space is left\n"
TOO_LARGE = b"the file would be too large\n"
NO_READER = b"nobody reads it any more\n"
TOO_LONG = b"the text is longer than 4 MiB\n"
JOBS = ["run", "check"]


def read_failed(reason, out=b""):
    return Ended(1, out, READ_FAULT + reason)


def write_failed(reason, out=b""):
    return Ended(1, out, WRITE_FAULT + reason)


@pytest.fixture(scope="module")
def script():
    """The worked script of one period."""
    return b"".join(script_lines("counters.script"))


@pytest.fixture(params=JOBS)
def job(request, program, script):
    """The word of a job, its standard input, and how it ends on good streams."""
    if request.param == "check":
        return "check", TWO_GROUPS, Ended(0, b"accepted\n", b"")
    return "run", script, Ended(0, program.answers([], script), b"")


def redirected(program, words, streams, given):
    """Starts the program with streams closed or redirected, as a shell spells it: `<&-`, `>&-`."""
    return run(["sh", "-c", f'exec "$0" "$@" {streams}', program.path, *words], given)


# Redirections, and how the program ends. None: as on good streams, with nothing written.
REDIRECTED = [
    ("closed input", "<&-", read_failed(NOT_OPEN)),
    ("closed output", ">&-", write_failed(NOT_OPEN)),
    ("closed input and output", "<&- >&-", read_failed(NOT_OPEN)),
    ("closed error", "2>&-", None),
    ("closed input and error", "<&- 2>&-", (1, b"", b"")),
    ("full output", ">/dev/full", write_failed(FULL)),
    ("full output and error", ">/dev/full 2>/dev/full", (1, b"", b"")),
    ("an input that can only be written", "</dev/null 0>/dev/null", read_failed(NOT_OPEN)),
    ("an output that can only be read", "1</dev/null", write_failed(NOT_OPEN)),
]


@pytest.mark.parametrize("streams, wanted", [row[1:] for row in REDIRECTED],
                         ids=[row[0] for row in REDIRECTED])
def test_redirected(program, job, streams, wanted):
    word, given, good = job
    same(redirected(program, [word], streams, given), good if wanted is None else wanted)


@pytest.mark.parametrize("words", [["--help"], ["--version"], ["run", "--help"]], ids=" ".join)
@pytest.mark.parametrize("streams, reason", [(">&-", NOT_OPEN), (">/dev/full", FULL)],
                         ids=["closed output", "full output"])
def test_redirected_help(program, words, streams, reason):
    same(redirected(program, words, streams, b""), write_failed(reason))


UNWRITTEN = [
    ("a refused option, closed error", ["run", "--frob"], "2>&-", b"", 2),
    ("a refused host, full error", ["run", "--processors", "0"], "2>/dev/full", b"", 2),
    ("no answers, closed output", ["run"], ">&-", b"# nothing\n\n", 0),
]


@pytest.mark.parametrize("words, streams, given, status", [row[1:] for row in UNWRITTEN],
                         ids=[row[0] for row in UNWRITTEN])
def test_nothing_written(program, words, streams, given, status):
    """A message that cannot be written changes no status, and no answer is no write."""
    same(redirected(program, words, streams, given), (status, b"", b""))


def on_file(program, words, path, flags=os.O_RDONLY):
    """Runs the program with a file as standard input."""
    file = os.open(path, flags)
    try:
        return program.run(words, stdin=file)
    finally:
        os.close(file)


@pytest.mark.parametrize("word", JOBS)
def test_folder(program, word):
    same(on_file(program, [word], ROOT), read_failed(FOLDER))


def cut(program, words, given, taken):
    """Runs the program on a pipe that holds so many bytes, stays open and does not wait."""
    read, write = os.pipe()
    try:
        os.write(write, given[:taken])
        os.set_blocking(read, False)
        return program.run(words, stdin=read)
    finally:
        os.close(read)
        os.close(write)


@pytest.mark.parametrize("word", JOBS)
def test_empty_input_that_does_not_wait(program, word):
    same(cut(program, [word], b"", 0), read_failed(WOULD_WAIT))


def test_run_reader_fails(program, script):
    """After each number of bytes: the answers of the whole lines; a line that is cut is not run."""
    taken = range(len(script) + 1)
    runs = each(functools.partial(cut, program, ["run"], script), taken)
    lines = script.splitlines(keepends=True)
    answers = [program.answers([], b"".join(lines[:number])) for number in range(len(lines) + 1)]
    for number, ended in zip(taken, runs):
        whole = script[:number].count(b"\n")
        same(ended, read_failed(WOULD_WAIT, answers[whole]), f"after {number} bytes")
    print(f"a reader that fails: after each of {len(runs)} numbers of bytes")


def test_check_reader_fails(program):
    """After each number of bytes, also after all of them: nothing is written."""
    taken = range(len(TWO_GROUPS) + 1)
    runs = each(functools.partial(cut, program, ["check"], TWO_GROUPS), taken)
    for number, ended in zip(taken, runs):
        same(ended, read_failed(WOULD_WAIT), f"after {number} bytes")


def bound_files(most):
    """No file of this process may grow past so many bytes: a write that would do so fails."""
    resource.setrlimit(resource.RLIMIT_FSIZE, (most, most))
    signal.signal(signal.SIGXFSZ, signal.SIG_IGN)


def on_short_file(program, words, given, folder, most):
    """Runs the program with a file as standard output that can hold so many bytes."""
    path = f"{folder}/{most}"
    with open(path, "w+b") as file:
        ended = program.run(words, given, stdout=file, preexec_fn=lambda: bound_files(most),
                            restore_signals=False)
        file.seek(0)
        return Ended(ended.status, file.read(), ended.err)


def writer_fails(program, words, given, whole, folder):
    """After each number of bytes: that many bytes of the answers, and the fault."""
    taken = range(len(whole.out) + 1)
    runs = each(functools.partial(on_short_file, program, words, given, folder), taken)
    for most, ended in zip(taken, runs):
        failed = write_failed(TOO_LARGE, whole.out[:most])
        same(ended, failed if most < len(whole.out) else whole, f"after {most} bytes")
    print(f"a writer that fails, {words}: after each of {len(runs)} numbers of bytes")


def test_writer_fails(program, job, scratch):
    word, given, whole = job
    writer_fails(program, [word], given, whole, scratch)


def test_writer_fails_in_a_refusal(program, scratch):
    whole = program.run(["check"], LINE_OF_A_REFUSAL)
    same((whole.status, whole.err), (3, b""))
    writer_fails(program, ["check"], LINE_OF_A_REFUSAL, whole, scratch)


@pytest.mark.parametrize("ignored", [False, True], ids=["signal", "signal ignored"])
def test_reader_is_gone(program, job, ignored):
    """The other end of standard output is closed before the first byte."""
    word, given, _ = job
    read, write = os.pipe()
    os.close(read)
    try:
        ended = program.run([word], given, stdout=write, restore_signals=not ignored)
    finally:
        os.close(write)
    same(ended, write_failed(NO_READER))


def test_reader_goes_away(program):
    """The reader takes the first answer and goes. The program ends, although its input is open."""
    with Talk(program, ["run"]) as talk:
        talk.write(b"mkdir a\n")
        same(talk.read(3), b"ok\n")
        talk.process.stdout.close()
        talk.write(b"mkdir b\n")
        same((talk.status(), talk.process.stderr.read()), (1, WRITE_FAULT + NO_READER))


def test_full_output_that_does_not_wait(program, job):
    """Standard output is a full pipe that does not wait, and nobody takes a byte out of it."""
    word, given, _ = job
    read, write = os.pipe()
    try:
        os.set_blocking(write, False)
        try:
            while True:
                os.write(write, b"x" * 4096)
        except BlockingIOError:
            pass
        ended = program.run([word], given, stdout=write)
    finally:
        os.close(read)
        os.close(write)
    same(ended, write_failed(WOULD_WAIT))


def read_failed_once(program, refusing, words, given, nth, answers):
    """The nth read fails and none after it: the run ends, and no read comes after it."""
    ended, letters = refused_run(program, refusing, words, given, REFUSE_READ=nth)
    same((ended.status, ended.out), (1, answers))
    assert ended.err.startswith(READ_FAULT), ended.err
    same(letters.replace(b"s", b""), b"f", "calls")


@pytest.mark.parametrize("nth", [1, 2])
def test_run_read_fails_once(program, refusing, script, nth):
    """The first read takes the whole script, so a second that fails loses no answer."""
    answers = program.answers([], script) if nth == 2 else b""
    read_failed_once(program, refusing, ["run"], script, nth, answers)


@pytest.mark.parametrize("nth", [1, 2])
def test_check_read_fails_once(program, refusing, nth):
    read_failed_once(program, refusing, ["check"], TWO_GROUPS, nth, b"")


def test_run_read_fails_late(program, refusing):
    """A read that fails after more than 1,000 reads: all answers before it, and the fault."""
    last = 1001
    named = {"LD_PRELOAD": refusing, "REFUSE_READ": str(last + 1)}
    with Talk(program, ["run"], env=named) as talk:
        for number in range(1, last + 1):
            # each line is written when the one before it is answered, so each is one read
            talk.write(b"demand . 0\n")
            same(talk.line(), b"error 26 RootFixed\n", f"line {number}")
        same((talk.line(), talk.status()), (b"", 1))
        error = talk.process.stderr.read()
        assert error.startswith(READ_FAULT) and error.count(b"\n") == 1, error


def write_failed_once(program, refusing, words, given, nth):
    """The nth write fails and none would fail after it: nothing is written after the failed one.

    Returns what is on standard output.
    """
    ended, letters = refused_run(program, refusing, words, given, REFUSE_WRITE=nth)
    same(ended.status, 1)
    assert ended.err.startswith(WRITE_FAULT), ended.err
    same(letters.replace(b"s", b""), b"f", "calls")
    return ended.out


@pytest.mark.parametrize("lines", [None, b"frob\n" * 6000], ids=["script", "more than the buffer"])
def test_run_write_fails_once(program, refusing, script, lines):
    """What the first write wrote, and no answer of a later one."""
    given = lines or script
    answers = program.answers([], given)
    same(write_failed_once(program, refusing, ["run"], given, 1), b"")
    first = write_failed_once(program, refusing, ["run"], given, 2)
    assert first and answers.startswith(first) and first != answers, first[-200:]


@pytest.mark.parametrize("text", [TWO_GROUPS, LINE_OF_A_REFUSAL, b"no text"],
                         ids=["accepted", "refused", "error"])
def test_check_write_fails_once(program, refusing, text):
    """No answer stands beside status 1."""
    same(write_failed_once(program, refusing, ["check"], text, 1), b"")


@pytest.fixture(scope="module")
def padded():
    """A certified text with zeros behind it, 4 MiB together."""
    return TWO_GROUPS + b"0" * (LONGEST_TEXT - len(TWO_GROUPS))


CUT_SHORT = Ended(3, b"error 42 CutShort\n", b"")
TRAILING = Ended(3, b"error 43 Trailing\n", b"")


def check_long_text(program, folder, text, wanted):
    """The check of a text by a file and by a pipe."""
    path = folder / "text"
    path.write_bytes(text)
    same(on_file(program, ["check"], path), wanted, "by a file")
    same(program.run(["check"], text), wanted, "by a pipe")


@pytest.mark.parametrize("length, wanted", [
    (LONGEST_TEXT, CUT_SHORT), (LONGEST_TEXT + 1, read_failed(TOO_LONG)),
], ids=["4 MiB", "4 MiB and a byte"])
def test_long_line(program, scratch, length, wanted):
    check_long_text(program, scratch, b"1" * length, wanted)


def test_text_of_4_mib(program, scratch, padded):
    check_long_text(program, scratch, padded, TRAILING)


@pytest.mark.parametrize("change", [lambda text: text + b"0", lambda text: text * 4],
                         ids=["4 MiB and a byte", "16 MiB"])
def test_text_too_long(program, scratch, padded, change):
    check_long_text(program, scratch, change(padded), read_failed(TOO_LONG))
