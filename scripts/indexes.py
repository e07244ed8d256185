#!/usr/bin/env python3
"""Prints lists that are made of the sources.

    scripts/indexes.py --clauses        the clauses of each public function, and its words
    scripts/indexes.py --laws           the laws alone, in words
    scripts/indexes.py --definitions    the definitions that these name, in words
    scripts/indexes.py --lemmas         the lemma files, with what each proves
    scripts/indexes.py --unstated       public constants that clauses name and no law states
"""
import re
import sys
from dataclasses import dataclass
from pathlib import Path
from typing import Callable, Dict, Iterator, List, Set, Tuple

ROOT = Path(__file__).resolve().parent.parent

# Comments


def comment_above(lines: List[str], at: int) -> str:
    """The comment that ends right above a line."""
    words: List[str] = []
    while at > 0 and lines[at - 1].lstrip().startswith("--"):
        at -= 1
        words.insert(0, lines[at].lstrip()[2:].strip())
    return " ".join(words)


def head_line(path: Path) -> str:
    """The comment that begins a file, up to its first line that is no comment."""
    lines = path.read_text(encoding="utf-8").splitlines()
    ends = [at for at, line in enumerate(lines) if not line.startswith("--")]
    return comment_above(lines, ends[0] if ends else len(lines))


def crates() -> List[str]:
    """The crates of crates.txt, in its order."""
    lines = (ROOT / "crates.txt").read_text(encoding="utf-8").splitlines()
    return [line.split(":")[0].split()[0] for line in lines if line and not line.startswith("#")]


# Contracts


@dataclass
class Contract:
    """A function's contract: each clause's kind and label, "" for none, its text and its words.

    A law takes nothing, returns nothing and does no work. `comment` has the words above it.
    """

    name: str
    is_public: bool
    is_of_crate: bool
    clauses: List[Tuple[str, str]]
    text: str
    words: Set[str]
    is_law: bool
    comment: str

    def promises(self) -> List[str]:
        """The labels of what it ensures."""
        return [label for kind, label in self.clauses if kind == "ensures"]


FUNCTION = re.compile(r'( *)(pub(?:\(\w+\))? )?(?:[\w"]+ )*fn (\w+)')
CLAUSE = re.compile(r"^ *(ensures|requires)(?: (\w+))? \{")
# The head of a function that takes nothing and returns nothing.
LAW = re.compile(r"pub fn \w+(?:<[^>]*>)?\(\)$")
# Parts whose functions are as public as what they belong to.
TRAIT = re.compile(r"(?:pub )?trait\b|impl\b.* for ")


def contract_lines(lines: List[str], at: int, indent: int) -> List[str]:
    """The lines of the contract below the head of a function."""
    if lines[at].endswith("{"):
        return []
    # The contract is indented. Its end is the brace of the body, or the next item. Type
    # parameters and parameters that have lines of their own end by `>` and `)`.
    end = re.compile(rf" {{0,{indent}}}[^ )>]")
    found: List[str] = []
    for line in lines[at + 1:]:
        if end.match(line):
            break
        found.append(line.split("//")[0])
    return found


def doc_comment(lines: List[str], at: int) -> str:
    """The words above the function whose head is at a line."""
    words: List[str] = []
    while at > 0 and re.match(r" *(?:///|#\[)", lines[at - 1]):
        at -= 1
        if "///" in lines[at]:
            words.insert(0, lines[at].split("///")[1].strip())
    text = " ".join(filter(None, words)).removeprefix("Law: ")
    return re.sub(r"# (Errors|Cost|Panics)\b", r"\1:", text)


def contracts(text: str) -> Iterator[Contract]:
    """The contract of each function of a source file, in its order."""
    lines, part = text.splitlines(), ""
    for at, line in enumerate(lines):
        if line[:1] not in ("", " "):
            part = line
        head = FUNCTION.match(line)
        if head:
            own = contract_lines(lines, at, len(head[1]))
            clauses = [(found[1], found[2] or "") for found in map(CLAUSE.match, own) if found]
            is_public = head[2] == "pub " or TRAIT.match(part) is not None
            text_, words = " ".join(own), set(re.findall(r"\w+", " ".join(own)))
            yield Contract(head[3], is_public, head[2] == "pub(crate) ", clauses, text_, words,
                           LAW.match(line) is not None, doc_comment(lines, at))


def sources(crate: str) -> List[Path]:
    return sorted((ROOT / "crates" / crate / "src").rglob("*.rt"))


def public_contracts(path: Path, inner: bool = False) -> List[Contract]:
    """The contracts of a file's public functions that ensure something, or of the crate's too."""
    found = contracts(path.read_text(encoding="utf-8"))
    return [each for each in found if (each.is_public or inner and each.is_of_crate)
            and each.promises() and each.name not in FAULTS]


# Crates whose own functions are steps that docs/PROVED.md speaks of.
LOCK = ("bw_ticket", "bw_lend")
# Each fault has them: its number and its name, by one clause each.
FAULTS = ("number", "name")
CLAUSES_HEAD = """# The clauses of each public function

Each function has the labels of what it ensures, and the comment above it.
One without labels has one clause.
Methods of traits are among them; `number` and `name` of a fault are not.
Of bw_ticket and bw_lend the functions of the crate are there too: they are the steps of the lock.
What a function asks for (`requires`) is proved at its calls.
"""
LAWS_HEAD = """# Laws

A law is proved as the contract of a function that takes nothing, returns nothing and does no work.
Its words are the comment above it.
"""


def table_of_crates(columns: str, row: Callable[[str, Contract], str], laws: bool = False) -> str:
    """A table for each crate, with a row for each public contract, or for each law alone."""
    text = ""
    for crate in crates():
        top = ROOT / "crates" / crate / "src"
        rows = [row(f"`{path.relative_to(top)}:{each.name}`", each) for path in sources(crate)
                for each in public_contracts(path, crate in LOCK) if each.is_law or not laws]
        line = "|---" * (columns.count("|") + 1)
        text += f"\n## {crate}\n\n| {columns} |\n{line}|\n{''.join(rows)}" if rows else ""
    return text


def clause_row(name: str, contract: Contract) -> str:
    labels = " ".join(label for label in contract.promises() if label)
    return f"| {name} | {labels} | {contract.comment} |\n"


def law_row(name: str, contract: Contract) -> str:
    return f"| {name} | {contract.comment[:1].upper()}{contract.comment[1:]} |\n"


def clauses_page() -> str:
    return CLAUSES_HEAD + table_of_crates("Function | Clauses | In words", clause_row)


def laws_page() -> str:
    return LAWS_HEAD + table_of_crates("Law | In words", law_row, laws=True)


# Definitions

# Fields of records are indented, too, and have none of these words.
DEFINITION = re.compile(
    r"(?: *(?:abbrev|unfoldable|foldable) pub | *pub (?:record|data) |pub )(\w+)")
IMPORT = re.compile(r"^(?:ghost )?use Rattle\.(\w+)\.specs\.([\w.]+)\.\{([^}]*)\}", re.M)
# Crates whose functions are there beside their predicates and records.
WHOLE = ("bw_model", "bw_machine")
# Programs and the C library, whose definitions put those of the crates below into other forms.
LEFT_OUT_CRATES = ("arbiter", "bw_exports")
# The laws of a change, which `--laws` has in words.
LEFT_OUT_FOLDER = "changes"
# Functions of a refusal that say no more than their names.
PLAIN = re.compile(r"_fault_(?:number|name)$")
DEFINITIONS_HEAD = """# Definitions

Below are the predicates and records that a clause of a public function names. `Plan.IsPlan` is in `specs/Plan.antt` of its crate.
Of bw_model and bw_machine functions are there too, and what other crates name. Those of other \
crates are in the same files, each with a comment. Programs and the C library are left out: they \
put the same into other forms. So are the laws of a change, which `--laws` has in words.
Numbers in definitions are whole numbers without bound.
"""


def imports(path: Path) -> Iterator[Tuple[str, str, str, str]]:
    """The definitions that a file imports: crate, file, name, and the name that it gives."""
    for crate, file, names in IMPORT.findall(path.read_text(encoding="utf-8")):
        for each in names.split(","):
            name, _, other = each.strip().partition(" as ")
            yield crate, file.replace(".", "/"), name, other or name


def named() -> Set[Tuple[str, str, str]]:
    """The definitions that a clause of a public function names, and of `WHOLE` another crate."""
    found = set()
    for crate in crates():
        for path in sources(crate):
            words = {word for each in public_contracts(path) for word in each.words}
            found |= {each[:3] for each in imports(path)
                      if each[3] in words or crate != each[0] and each[0] in WHOLE}
        for path in (ROOT / "crates" / crate / "specs").rglob("*.antt"):
            found |= {each[:3] for each in imports(path) if crate != each[0] and each[0] in WHOLE}
    return found


def definitions(path: Path) -> Iterator[Tuple[str, str]]:
    """The definitions of a file that have a comment: name and comment."""
    lines = path.read_text(encoding="utf-8").splitlines()
    for at, line in enumerate(lines):
        head = DEFINITION.match(line)
        comment = comment_above(lines, at)
        if head and head[1] != "mod" and comment:
            yield head[1], comment


def is_listed(crate: str, file: str, name: str, known: Set[Tuple[str, str, str]]) -> bool:
    """Whether the page has a definition."""
    if name[0].isupper():
        return crate == WHOLE[0] or (crate, file, name) in known
    return crate in WHOLE and not PLAIN.search(name) and (crate, file, name) in known


def definitions_page() -> str:
    text, known = DEFINITIONS_HEAD, named()
    for crate in [each for each in crates() if each not in LEFT_OUT_CRATES]:
        top, rows = ROOT / "crates" / crate / "specs", ""
        for path in sorted(top.rglob("*.antt")):
            file = str(path.relative_to(top).with_suffix(""))
            if file.startswith(LEFT_OUT_FOLDER + "/"):
                continue
            for name, comment in definitions(path):
                if is_listed(crate, file, name, known):
                    rows += f"| `{file}.{name}` | {comment} |\n"
        text += f"\n## {crate}\n\n| Definition | In words |\n|---|---|\n{rows}" if rows else ""
    return text


# Lemma files

# Files of a function, whose head would say no more than their name, and lists of files. A file
# beside a folder of its name lists that folder.
LEFT_OUT = {"Answers.antt", "Invariants.antt", "Proof.antt", "Lib.antt", "CallerLemmas.antt"}
LEMMAS_HEAD = """# Lemma files

Proofs of functions are not listed. Those of `f` in `src/m.rt` are in `proofs/m/f/`, in two files:

- `Invariants.antt`: what each loop keeps.
- `Answers.antt`: one term for each goal that the prover's search left open.

A function without a folder was proved by the search alone.
What a crate offers to the crates above is in its `proofs/CallerLemmas.antt`.
"""


def lemmas() -> str:
    """The lemma files of each crate, with their head lines."""
    text = LEMMAS_HEAD
    for crate in crates():
        top = ROOT / "crates" / crate / "proofs"
        files = sorted(path for path in top.rglob("*.antt")
                       if path.name not in LEFT_OUT and not path.with_suffix("").is_dir())
        if files:
            text += f"\n## {crate}\n\n| File | What it proves |\n|---|---|\n"
            for path in files:
                text += f"| `{path.relative_to(top)}` | {head_line(path)} |\n"
    return text


# Constants

CONSTANT = re.compile(r"^ *pub(?:\(\w+\))? const ([A-Z]\w*):", re.M)
USE = re.compile(r"^ *(?:pub )?use (\w+)::([^;]*);", re.M)
OWN = ("crate", "self", "super")
Constant = Tuple[str, str]


def constants_of(crate: str, path: Path) -> Dict[str, Constant]:
    """The constants that a file can name: by the name there, the crate and the name."""
    text = path.read_text(encoding="utf-8")
    found = {other: (each, name) for each, file, name, other in imports(path)
             if file.endswith("TheConstants")}
    for head, names in USE.findall(text):
        found |= {name: (crate if head in OWN else head, name)
                  for name in re.findall(r"\b[A-Z][A-Z_0-9]+\b", names)}
    return found | {name: (crate, name) for name in CONSTANT.findall(text)}


def public_constants(crate: str, path: Path) -> Set[Constant]:
    """The constants of a file that other crates can name in code."""
    top = ROOT / "crates" / crate / "src"
    root = "".join(each.read_text(encoding="utf-8") for each in top.glob("lib.rt"))
    module = path.relative_to(top).parts[0].removesuffix(".rt")
    shown = set(re.findall(r"\w+", " ".join(re.findall(r"^pub use [^;]*;", root, re.M))))
    names = CONSTANT.findall(path.read_text(encoding="utf-8"))
    return {(crate, name) for name in names if f"pub mod {module};" in root or name in shown}


def unstated() -> List[str]:
    """The public constants that a clause of a public function or a definition names, of which no
    law says which number they are."""
    declared: Set[Constant] = set()
    cited: Set[Constant] = set()
    stated: Set[Constant] = set()
    for crate in crates():
        for path in sources(crate):
            text, known = path.read_text(encoding="utf-8"), constants_of(crate, path)
            declared |= public_constants(crate, path)
            for each in filter(lambda each: each.is_public, contracts(text)):
                cited |= {known[word] for word in each.words if word in known}
                stated |= {known[word] for word in re.findall(r"\{ (\w+) ≡ [(\d]", each.text)
                           if each.is_law and word in known}
        for path in (ROOT / "crates" / crate / "specs").rglob("*.antt"):
            cited |= set(constants_of(crate, path).values())
    return [f"{crate}: {name}" for crate, name in sorted(cited & declared - stated)]


def unstated_page() -> str:
    return "".join(f"{each}\n" for each in unstated())


LISTS: Dict[str, Callable[[], str]] = {
    "--clauses": clauses_page, "--laws": laws_page, "--definitions": definitions_page,
    "--lemmas": lemmas, "--unstated": unstated_page}


def main(words: List[str]) -> int:
    if len(words) != 1 or words[0] not in LISTS:
        print(f"usage: scripts/indexes.py {' | '.join(LISTS)}", file=sys.stderr)
        return 2
    print(LISTS[words[0]](), end="")
    return 0


if __name__ == "__main__":
    sys.exit(main(sys.argv[1:]))
