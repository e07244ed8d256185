"""Man pages in mdoc: arbiterctl(1), one for each subcommand, and libarbiter(3). Their shape is in
templates/."""
from __future__ import annotations

import re
import textwrap
from collections.abc import Callable

from arbiter_host import helps
from arbiter_host.subcommands import every
from arbiter_pages import calls, interface
from arbiter_pages.words import Word, environment

DATE = "November 25, 2026"
BEFORE_AFTER = "BEFORE [AFTER]"
# The kinds of sources in words, in the order of --from; and the variables of the environment.
KINDS = {
    "script": "A script of arbiter(1). Its first line, `# arbiter run --processors N --period U"
    " --slice U`, is the host.",
    "toml": "A host file, with amounts such as 250m, 1.5cpu or 40%.",
    "json": "The same in JSON.",
    "cgroup": "A tree of cgroup v2, such as /sys/fs/cgroup, or a copy of its files.",
    "kubernetes": "What `kubectl get pods -o json` prints, and a node's JSON beside it."
    " k8s://[CONTEXT] asks the API server by `kubectl get --raw`, with --node for one node alone.",
    "systemd": "What `systemctl show '*.slice' '*.service' '*.scope'` prints. systemd:// asks this"
    " machine, twice where use is asked for (--read).",
    "docker": "What `docker inspect` or `podman inspect` prints. docker:// and podman:// ask what"
    " runs here.",
    "slurm": "What `squeue --json` or `sacct --parsable2` print, and beside them `sstat"
    " --parsable2` and `sinfo --json`. Newer versions have `scontrol show job --json` and `scontrol"
    " show node --json`. Columns of sacct that are read: JobID, JobIDRaw, JobName, User, State,"
    " AllocCPUS, Elapsed, TotalCPU, NodeList.",
}
ENVIRONMENT = {
    "ARBITER_LIBRARY": "The C library, as of --library.",
    "COLUMNS": "Columns of the answers, in place of the terminal's.",
    "NO_COLOR": "If it is set, answers have no colours.",
}


def quoted(text: str) -> str:
    """A text with marks of quotation in place of backticks, which open and close in turn."""
    first, *parts = text.split("`")
    return first + "".join((r"\(cq" if place % 2 else r"\(oq") + part
                           for place, part in enumerate(parts))


def guarded(line: str) -> str:
    """A line that is no request."""
    return "\\&" + line if line[:1] in (".", "'") else line


def escaped(text: str) -> str:
    """A text that stands in a line of its own or in a macro."""
    return guarded(quoted(text.replace("\\", "\\e").replace("-", "\\-")))


def capital(text: str) -> str:
    return text[:1].upper() + text[1:]


def prose(text: str) -> str:
    """A text, each sentence in lines of its own. It begins with a capital and ends with a stop."""
    lines = []
    for sentence in re.split(r"(?<=[A-Za-z0-9)`][.]) (?=[A-Z`*0-9])", capital(text)):
        stop = "" if sentence.endswith(".") else "."
        lines += textwrap.wrap(escaped(sentence + stop), 78, break_long_words=False,
                               break_on_hyphens=False)
    return "\n".join(map(guarded, lines))


def value_of(word: Word) -> str:
    if word.value == BEFORE_AFTER:
        return "Ar BEFORE Op Ar AFTER"
    if word.values and not word.value:
        return "Cm " + " | ".join(map(escaped, word.values))
    return f"Ar {escaped(word.value)}"


def argument(word: Word) -> str:
    more = " ..." if word.is_many and word.value != BEFORE_AFTER else ""
    return f".{'' if word.is_needed else 'Op '}{value_of(word)}{more}"


def head(word: Word) -> str:
    """An option or an argument with its value, as the head of an item."""
    flags = " , ".join(f"Fl {escaped(name[1:])}" for name in word.names)
    return f"{flags} {value_of(word) if word.takes_value else ''}".strip()


def library_page() -> str:
    """The man page of the C library."""
    made = environment()
    filters: dict[str, Callable[..., object]] = {
        "prose": prose, "answer": lambda call: interface.C_TYPES[call.answer],
        "about": interface.about, "ways": interface.ways,
        "parameters": lambda call: [part for word in call.words
                                    for part in interface.c_word(word).split(", ")]}
    made.filters |= filters
    exact = [call for call in calls.TABLE if not call.allocates]
    return made.get_template("libarbiter.3").render(
        source=interface.SOURCE, date=DATE, calls=calls.TABLE, sections=calls.SECTIONS,
        faults=calls.FAULTS, host=calls.HOST.words, rows=calls.ROWS.words, exact=exact)


def pages() -> dict[str, str]:
    """All man pages by the names of their files."""
    made = environment()
    made.filters |= {"escaped": escaped, "capital": capital, "prose": prose, "head": head,
                     "argument": argument}
    words = {"date": DATE, "helps": helps, "kinds": KINDS, "environment": ENVIRONMENT,
             "subcommands": every(), "others": sorted(
        ["arbiter", "arbiterctl", *(f"arbiterctl-{each.name}" for each in every())])}
    subcommand = made.get_template("subcommand.1")
    return {"arbiterctl.1": made.get_template("arbiterctl.1").render(**words), **{
        f"arbiterctl-{each.name}.1": subcommand.render(each=each, **words) for each in every()}}
