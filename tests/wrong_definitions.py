#!/usr/bin/env python3
"""Plants wrong definitions where the second prover reads them, and finds what sees each.

usage: wrong_definitions.py [--program PATH] [--jobs N] [--list] [WORD..]

tests/wrong_definitions.tsv has a line for each: a file, the right text, the wrong one, what sees
it, and `quick` or `slow`. A `\\n` is the end of a line. What sees it is one of

  proof NAME           Coq stops at NAME.v, and at no file before it
  translation          translate.py ends
  script FILE, NAME    the program made anew answers this script of tests/worked otherwise
  compared KIND SEED   it answers this script of test_scripts_twice.py otherwise than `arbiter run`
  nothing: WHY         every proof passes, and all worked scripts have their answers

With WORDs the lines alone that have one of them. `./test` tries the quick ones. The kit's proofs
are not run: a change of the crates' definitions may be refused by them too.
"""
import argparse
import concurrent.futures
import re
import shutil
import subprocess
import sys
import tempfile
from pathlib import Path
from typing import NamedTuple

import worked_scripts
from support import PROGRAM, ROOT, Program

LIST = ROOT / "tests/wrong_definitions.tsv"
BUILT = ROOT / "out/independent"
SECONDS = 600
# What is not to be copied of what was built.
UNUSED = ("*.glob", "*.vos", "*.vok", "*.aux", "*.log", "*.cm*", "*.o", "arbiter-*", "lock")
# The modules whose extraction makes the two programs.
SCRIPT, CHECKER = "ExtractScript", "Extract"


class Wrong(NamedTuple):
    """A wrong definition: its file, the right text and the wrong one, and what sees it."""

    file: str
    right: str
    wrong: str
    seen: str
    when: str


def all_wrong() -> list:
    """The lines of the list."""
    lines = LIST.read_text(encoding="utf-8").split("\n")
    return [Wrong(*(each.replace("\\n", "\n") for each in line.split("\t")))
            for line in lines if line and not line.startswith("#")]


def text_with(wrong: Wrong) -> str:
    """The text of the file with the wrong definition."""
    text = (ROOT / wrong.file).read_text(encoding="utf-8")
    if text.count(wrong.right) != 1:
        raise ValueError(f"{wrong.file} has '{wrong.right}' {text.count(wrong.right)} times")
    return text.replace(wrong.right, wrong.wrong)


def needs_of(built: Path) -> dict:
    """The modules that each module needs itself. Each stands behind those that it needs."""
    text = (built / ".Makefile.d").read_text(encoding="utf-8")
    needs = {name: set(re.findall(r"(\w+)\.vo(?!\w)", others)) - {name}
             for name, others in re.findall(r"^(\w+)\.vo .*?: (.*)$", text, re.M)}
    ordered: dict = {}
    while len(ordered) < len(needs):
        ordered.update({name: needs[name] for name in needs
                        if name not in ordered and needs[name] <= set(ordered)})
    return ordered


def all_needs(needs: dict, names) -> set:
    """Some modules, and all that they need. In `needs` each stands behind those that it needs."""
    found = set(names)
    for name in reversed(needs):
        if name in found:
            found |= needs[name]
    return found


class Copy:
    """A copy of what was built, over a source with one wrong definition."""

    def __init__(self, folder: Path, built: Path, wrong: Wrong):
        self.made, self.needs = folder / "made", needs_of(built)
        top = folder / "top"
        read = [*ROOT.glob("crates/*/specs"), *ROOT.glob("crates/*/src"), ROOT / "independent"]
        for path in read:
            shutil.copytree(path, top / path.relative_to(ROOT), copy_function=link)
        (top / wrong.file).unlink()
        (top / wrong.file).write_text(text_with(wrong), encoding="utf-8")
        shutil.copytree(built, self.made, ignore=shutil.ignore_patterns(*UNUSED))
        for path in [*(top / "independent").glob("*.v"), *(top / "independent").glob("*.ml")]:
            (self.made / path.name).unlink(missing_ok=True)
            shutil.copy2(path, self.made / path.name)
        words = ["/usr/bin/python3", top / "independent/translate.py", top, self.made]
        self.is_translated = subprocess.run(words, capture_output=True, check=False).returncode == 0
        changed = {name for name in self.needs if (self.made / f"{name}.v").read_bytes()
                   != (built / f"{name}.v").read_bytes()}
        self.stale = [name for name in self.needs if all_needs(self.needs, [name]) & changed]

    def stops(self, names) -> str:
        """The first module of those that some need at which Coq stops, or nothing."""
        wanted = all_needs(self.needs, names)
        for name in [each for each in self.stale if each in wanted]:
            if run(self.made, "coqc", "-q", "-w", "none", "-R", ".", "Independent", f"{name}.v"):
                return name
            self.stale.remove(name)
        return ""

    def program(self, module: str = SCRIPT) -> str:
        """Makes the program of a module anew, and tells where that stops."""
        stopped = self.stops([module])
        name, main = {SCRIPT: ("script", "script_main"), CHECKER: ("checker", "main")}[module]
        if stopped or run(self.made, "ocamlfind", "ocamlc", "-w", "-a", "-package", "zarith",
                          "-linkpkg", f"{name}.mli", f"{name}.ml", f"{main}.ml", "-o", "made"):
            return stopped or "OCaml"
        return ""

    def answers(self, words, script: bytes):
        """The answers of the program to a script, or nothing where it does not end well."""
        ended = subprocess.run([self.made / "made", *words], input=script, capture_output=True,
                               timeout=SECONDS, check=False)
        return ended.stdout if ended.returncode == 0 else None


def link(source: str, target: str) -> str:
    """A link to a file, in place of a copy."""
    Path(target).symlink_to(source)
    return target


def run(folder: Path, *words: str) -> int:
    """The status of a program in a folder. One that does not end is killed, and has failed."""
    try:
        return subprocess.run(words, cwd=folder, capture_output=True, check=False,
                              timeout=SECONDS).returncode
    except subprocess.TimeoutExpired:
        return 1


def case_of(kind: str, seed: int):
    """The words and the script of a seed of test_scripts_twice.py."""
    import test_scripts_twice as twice
    make = {"honest": twice.honest_case, "hostile": twice.hostile_script, "wide": twice.wide_script,
            "bytes": lambda _: ([], twice.pairs_of_bytes())}[kind]
    return make(seed)[:2]


def worked(script) -> tuple:
    """The words, the text and the answers of a worked script."""
    return (script.words, b"".join(line + b"\n" for line, _ in script.lines),
            b"".join(answer for _, answer in script.lines))


def differs(copy: Copy, program: Program, seen: str) -> bool:
    """Whether the program made anew answers a script otherwise."""
    kind, _, name = seen.partition(" ")
    if kind == "script":
        (script,) = [each for each in worked_scripts.all_scripts() if each.id() == name]
        words, text, wanted = worked(script)
    else:
        kind, seed = name.split()
        words, text = case_of(kind, int(seed))
        wanted = program.run(["run", *words], text).out
    return copy.answers(words, text) != wanted


def judged(folder: Path, built: Path, program: Program, wrong: Wrong) -> str:
    """Why a wrong definition is not seen as its line says; empty if it is."""
    copy = Copy(folder, built, wrong)
    kind, _, name = wrong.seen.partition(" ")
    if not copy.is_translated or kind == "translation":
        return "" if copy.is_translated == (kind != "translation") else "the translation"
    if not copy.stale:
        return "nothing changes"
    if kind == "proof":
        stopped = copy.stops([name])
        return "" if stopped == name else f"Coq stops at '{stopped}'"
    stopped = copy.program() if kind != "nothing:" else copy.stops(copy.needs) or copy.program()
    if stopped:
        return f"stops at {stopped}"
    if kind == "nothing:":
        seen = [each.id() for each in worked_scripts.all_scripts()
                if differs(copy, program, f"script {each.id()}")]
        return f"seen by {seen}" if seen else ""
    return "" if differs(copy, program, wrong.seen) else "the answers are the same"


def tried(wrong: Wrong, built: Path, program: Program) -> str:
    """The judgement of a wrong definition in a folder of its own."""
    with tempfile.TemporaryDirectory() as folder:
        return judged(Path(folder), built, program, wrong)


def main() -> int:
    parser = argparse.ArgumentParser(description=__doc__.partition("\n")[0])
    parser.add_argument("--program", default=PROGRAM, type=Path)
    parser.add_argument("--jobs", default=2, type=int, help="how many are tried at once")
    parser.add_argument("--list", action="store_true", help="print the lines, and try none")
    parser.add_argument("words", nargs="*", metavar="WORD")
    options = parser.parse_args()
    chosen = [each for each in all_wrong() if not options.words
              or any(word in "\t".join(each) for word in options.words)]
    if options.list:
        print(*("\t".join(each) for each in chosen), sep="\n")
        return 0
    if not BUILT.joinpath("arbiter-script").exists():
        raise SystemExit("wrong_definitions: independent/build comes first")
    failed = 0
    with concurrent.futures.ThreadPoolExecutor(options.jobs) as pool:
        found = pool.map(lambda each: tried(each, BUILT, Program(options.program)), chosen)
        for wrong, why in zip(chosen, found):
            failed += why != ""
            print(f"{'NOT SEEN: ' + why if why else 'seen'}\t{wrong.file}\t{wrong.wrong!r}\t"
                  f"{wrong.seen}", flush=True)
    print(f"{len(chosen)} wrong definitions, {failed} not seen as their lines say")
    return 1 if failed else 0


if __name__ == "__main__":
    sys.exit(main())
