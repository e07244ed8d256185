"""README, docs/ and the other pages at the top, held to the sources and to the rules of prose.

What the pages' scripts and commands print is held by test_documents.py; README's is held here.
"""
import ast
import os
import re
import shutil
import subprocess
from pathlib import Path

import pytest

import indexes
import support
from support import ROOT, run, same

TOP_PAGES = ["README.md", "CONTRIBUTING.md", "CHANGELOG.md", "SECURITY.md"]
PAGES = TOP_PAGES + [f"docs/{path.name}" for path in sorted((ROOT / "docs").glob("*.md"))]
# Pages without a sentence of more than 30 words. Of others one in 50 may be longer.
SHORT = ("README.md", "docs/ARCHITECTURE.md", "docs/USING.md")
GREATEST_WORDS = 30
# Pages whose references to clauses and definitions are held to the sources, and how many they have.
REFERRING = {"docs/PROVED.md": 40, "docs/ARCHITECTURE.md": 20, "docs/LINUX.md": 8}
REFERENCE = re.compile(r"`(?:(\w+)/)?((?:\w+/)*\w+\.(rt|antt)):(\w+)(?:\.(\w+))?`(?: of (\w+))?")
# One more clause of the function before it: `host.rt:new.ok`, `.err`
FURTHER = re.compile(r"(?<=, )`\.(\w+)`")
LINK = re.compile(r"\]\(([^)#\s]+)(#[^)]*)?\)")
# A heading of another page: [USING.md](USING.md), 'The files'
HEADING = re.compile(r"\]\(([^)#\s]+\.md)\), '((?:[^'\"]|\"[^\"]*\")+)'")


def text_of(page: str) -> str:
    return (ROOT / page).read_text(encoding="utf-8")


def crates() -> list:
    """The crates of crates.txt."""
    lines = text_of("crates.txt").splitlines()
    return [line.split(":")[0].split()[0] for line in lines if line and not line.startswith("#")]


def test_pages_are_small():
    """README and docs/ are at most ten pages. What users read has a bound: the door, and the four
    pages of commands, hosts and calls together. So has the reading of what is proved: lists of
    clauses, laws and definitions are printed by scripts/indexes.py."""
    pages = [ROOT / "README.md", *(ROOT / "docs").glob("**/*.md")]
    sizes = {path.name: path.stat().st_size for path in pages}
    assert len(sizes) <= 10
    assert sizes["README.md"] <= 8 * 1024
    assert sizes["PROVED.md"] <= 20 * 1024
    users = {page: sizes[f"{page}.md"] for page in ("USING", "TOOLS", "LINUX", "EMBEDDING")}
    assert sum(users.values()) <= 90 * 1024, users


# Links


@pytest.mark.parametrize("page", PAGES)
def test_links(page):
    """Each file that a page points to is there."""
    for target, _ in LINK.findall(text_of(page)):
        if "://" not in target:
            assert ((ROOT / page).parent / target).exists(), target


@pytest.mark.parametrize("page", PAGES)
def test_headings(page):
    """Each heading of another page that a page names is there."""
    for target, heading in HEADING.findall(text_of(page)):
        found = ((ROOT / page).parent / target).read_text(encoding="utf-8")
        assert re.search(rf"^#+ {re.escape(heading)}$", found, re.M), f"{target}, '{heading}'"


def test_pages_that_are_named():
    """Each page that any file of the repository names is there."""
    words = ["git", "grep", "-ohIE", r"\bdocs/[A-Z]+\.md\b"]
    ended = run(words, cwd=ROOT)
    same((ended.status, ended.err), (0, b""), "git grep")
    named = set(ended.out.decode().split())
    assert len(named) >= 7
    same(sorted(page for page in named if not (ROOT / page).exists()), [], "pages that are not")


@pytest.mark.parametrize("page", PAGES)
def test_paths(page):
    """Each path from the top of the repository that a page names is there, but what is made."""
    folders = "bench|crates|docs|examples|independent|python|scripts|share|tests"
    named = [path for path in re.findall(rf"`((?:{folders})/[\w./-]+)`", text_of(page))
             if "/out/" not in path]
    same([path for path in named if not (ROOT / path).exists()], [], "paths to nothing")


def test_files_of_the_walk():
    """Each source file that ARCHITECTURE names with its crate is there."""
    text = text_of("docs/ARCHITECTURE.md")
    groups = re.findall(r"\((bw_\w+), ((?:`[\w/]+\.rt`(?:, )?)+)\)", text)
    named = [f"{crate}/src/{file}" for crate, files in groups
             for file in re.findall(r"`([^`]+)`", files)]
    assert len(named) >= 10
    same([path for path in named if not (ROOT / "crates" / path).exists()], [], "missing files")


def test_functions_of_the_walk():
    """Each function that the way of a line names is in some crate."""
    text = text_of("docs/ARCHITECTURE.md")
    walk = text[text.index("## The way of a `plan` line"):text.index("## The Python package")]
    named = {name for name in re.findall(r"`(?:\w+::)?([a-z_]+)`", walk)} - {"plan", "period"}
    assert len(named) >= 15
    sources = "\n".join(path.read_text(encoding="utf-8")
                        for path in sorted(ROOT.glob("crates/*/src/**/*.rt")))
    same([name for name in sorted(named) if not re.search(rf"\bfn {name}\b", sources)], [],
         "functions that are not")


# Clauses and definitions


def function_clauses(text: str, name: str) -> list:
    """The clauses of each function of this name: kind and label, "" for one without a label."""
    return [each.clauses for each in indexes.contracts(text) if each.name == name]


def is_in_code(text: str, name: str, clause: str) -> bool:
    """Whether a function of this name has a clause of this label; one `ensures` without one."""
    contracts = function_clauses(text, name)
    if clause:
        return any(clause in (label for _, label in labels) for labels in contracts)
    return any([label for kind, label in labels if kind == "ensures"] == [""]
               for labels in contracts)


def is_in_specs(text: str, name: str, field: str) -> bool:
    """Whether a name is defined, and a record of that name has the field."""
    words = r"(?:pub |unfoldable |foldable |abbrev |record |data )*"
    head = re.search(rf"^ *{words}{name}\b[^=\n]*(?::|where)", text, re.M)
    if head is None or not field:
        return head is not None
    block = re.split(r"^\S", text[head.end():], maxsplit=1, flags=re.M)[0]
    return re.search(rf"^ +(?:pub )?{field} *:", block, re.M) is not None


def references(page: str) -> list:
    """The references of a page or table: crate, file, kind, name, clause or field, as written."""
    return references_in(text_of(page), crates())


def references_in(text: str, known: list) -> list:
    """The references of a text. The crate is that of the last heading, unless it is written."""
    crate, found = "", []
    for line in text.splitlines():
        if line.startswith("#"):
            crate = next((word for word in re.findall(r"\w+", line) if word in known), crate)
        last = ("", "", "", "")
        for match in re.finditer(f"{REFERENCE.pattern}|{FURTHER.pattern}", line):
            first, file, kind, name, clause, other, further = match.groups()
            if first and first not in known:
                first, file = "", f"{first}/{file}"
            if not further:
                last = (first or other or crate, file, kind, name)
            found.append((*last, clause or further, match.group()))
    return found


def is_there(crate, file, kind, name, clause) -> bool:
    """Whether a reference has its clause or definition."""
    path = ROOT / "crates" / crate / ("src" if kind == "rt" else "specs") / file
    if not path.is_file():
        return False
    text = path.read_text(encoding="utf-8")
    return (is_in_code if kind == "rt" else is_in_specs)(text, name, clause)


def is_function(crate, file, kind, name, clause) -> bool:
    """Whether a reference without a label names a function."""
    path = ROOT / "crates" / crate / "src" / file
    return kind == "rt" and not clause and path.is_file() and bool(
        function_clauses(path.read_text(encoding="utf-8"), name))


@pytest.mark.parametrize("page", REFERRING)
def test_references(page):
    """Each clause and each definition that a page names is in the file that it names."""
    found = references(page)
    assert len(found) >= REFERRING[page]
    wrong = [(reference[0], reference[-1]) for reference in found
             if not is_there(*reference[:-1])
             and not (page != "docs/PROVED.md" and is_function(*reference[:-1]))]
    same(wrong, [], "references to nothing")


def test_files_of_rules():
    """Each lemma file, wrong body and file of cases that ARCHITECTURE names is there."""
    text = text_of("docs/ARCHITECTURE.md")
    proofs = re.findall(r"`(\w+)/((?:\w+/)*\w+\.antt)`", text[text.index("## Rules"):])
    assert len(proofs) >= 20
    same([path for path in proofs if not (ROOT / "crates" / "/proofs/".join(path)).exists()], [],
         "lemma files")
    others = re.findall(r"`(\w+\.(?:edit|body|txt))`", text)
    there = {"crates.txt"} | {path.name for folder in ("must-fail", "wrong_bodies", "worked")
             for path in [*ROOT.glob(f"crates/*/{folder}/*"), *ROOT.glob(f"tests/{folder}/*")]}
    assert len(others) >= 20
    same([name for name in others if name not in there], [], "wrong bodies and cases")


def test_references_are_read():
    """A crate is that of the heading or the one that is written; a further clause is of the last."""
    text = ("# Laws (bw_tree)\n`a.rt:new.ok`, `.err`, `bw_stat/b/c.rt:get`\n## Of one group\n"
            "`B.antt:IsB.x` of bw_pool, `d/e.rt:put`. `.rt` is no clause.\n, `.lost`\n")
    found = [reference[:-1] for reference in references_in(text, ["bw_tree", "bw_stat", "bw_pool"])]
    same(found, [("bw_tree", "a.rt", "rt", "new", "ok"), ("bw_tree", "a.rt", "rt", "new", "err"),
                 ("bw_stat", "b/c.rt", "rt", "get", None), ("bw_pool", "B.antt", "antt", "IsB", "x"),
                 ("bw_tree", "d/e.rt", "rt", "put", None), ("", "", "", "", "lost")], "references")
    assert not is_there("", "", "", "", "lost")


def test_references_are_refused():
    """The check of a reference tells what is there from what is not."""
    assert is_there("bw_model", "host.rt", "rt", "new", "err")
    assert is_there("bw_model", "Plan.antt", "antt", "IsPlan", "best")
    assert not is_there("bw_model", "host.rt", "rt", "new", None)
    assert not is_there("bw_model", "host.rt", "rt", "new", "errs")
    assert not is_there("bw_model", "host.rt", "rt", "news", "err")
    assert not is_there("bw_model", "Plan.antt", "antt", "IsPlan", "worst")
    assert not is_there("bw_model", "Plan.antt", "antt", "IsPlans", None)
    assert not is_there("bw_model", "Planned.antt", "antt", "IsPlan", None)


def test_one_time_of_the_first_run():
    """README and the scripts tell one time of the first ./arbiter: a minute."""
    said = re.search(r"^checked build: (\d+) min", text_of("scripts/times"), re.M)
    same(said.group(1), "1", "scripts/times")
    assert "about a minute at the first call" in text_of("README.md")


def test_packages_of_the_tests():
    """CONTRIBUTING has the packages that ./test installs for pytest, in one line."""
    listed = re.search(r"^packages=\(([^)]*)\)", text_of("scripts/pytest.sh"), re.M).group(1).split()
    assert len(listed) >= 8
    assert f"`apt-get install {' '.join(listed)}`" in text_of("CONTRIBUTING.md")


def test_each_crate_is_described():
    """ARCHITECTURE names each crate."""
    architecture = text_of("docs/ARCHITECTURE.md")
    for crate in crates():
        assert re.search(rf"\b{crate}\b", architecture), crate


def below() -> dict:
    """The crates that each crate depends on, with those below them."""
    lines = [line.split(":") for line in text_of("crates.txt").splitlines()
             if ":" in line and not line.startswith("#")]
    direct = {words.split()[0]: set(names.split()) for words, names in lines}
    found = {}

    def all_below(crate):
        if crate not in found:
            own = direct[crate] & set(direct)
            found[crate] = own.union(*(all_below(each) for each in own))
        return found[crate]

    for crate in direct:
        all_below(crate)
    return found


def tower(name: str) -> set:
    """The crates of a group of crates.txt."""
    group = re.search(rf"^# {name}.*\n((?:\w.*\n)+)", text_of("crates.txt"), re.M)[1]
    return {line.split(":")[0].split()[0] for line in group.splitlines()}


def test_layout():
    """What ARCHITECTURE says of who may import whom."""
    crates_below, lock, plan = below(), tower("Lock tower"), tower("Plan tower")
    assert len(lock) >= 3 and len(plan) >= 6
    for crate in lock:
        assert crates_below[crate] <= lock, crate
    same(crates_below["bw_check"] - lock, {"bw_model"}, "bw_check")
    for crate in lock | plan:
        assert not crates_below[crate] & (tower("Tree of groups") | tower("Scripts")), crate


# What may stand in the lock's sources, beside its file and the functions that have it, each once.
CALLS_OF_THE_LOCK = {
    r"\.park\w*\(": ("sleeping.rt", ["sleep"]),
    r"\.wake_\w+\(": ("sleeping.rt", ["rouse"]),
    r"\bspin_loop\(": ("sleeping.rt", ["spin"]),
    r"\byield_now\(": ("sleeping.rt", ["give_way"]),
    # `enter` begins the count of a wait, and `park_on` begins it anew.
    r"\bAwake::none\(": ("sleeping.rt", ["enter", "park_on"]),
    # Looks with all else, and the sleeps and wakes of a word.
    r"\bCount::none\(": ("sleeping.rt", ["none", "none", "of", "of"]),
    # The loads, each in the function of its step. A waiting seat makes `glance` and `look`.
    r"\.peek\(": ("sleeping.rt", ["glance", "tickets_served"]),
    r"\.load::<Looking>": ("sleeping.rt", ["look"]),
    # a mark is stored by the one function that asks for a look before it
    r"::<Mark>": ("steps.rt", ["store_mark"]),
    r"\.load::<Woken>": ("sleeping.rt", ["note_wake"]),
    r"\.load::<Record>": ("steps.rt", ["leave"]),
    r"\.load::<PeekNext>": ("behind.rt", ["peek_next"]),
    # what tells of a load is made of it alone
    r"\bBehind \{ left\b": ("behind.rt", ["peek_next"]),
    r"\n +Sighting \{": ("sleeping.rt", ["tickets_served"]),
    r"\.load::<PeekWord>": ("steps.rt", ["wake"]),
    r"\.load::<Front>": ("lock.rt", ["front"]),
}

# What may stand in the sources of lent seats, with each function that has it, once.
CALLS_OF_LENT_SEATS = {
    r"\.park\w*\(": [("sleeping.rt", "sleep")],
    r"\.wake_\w+\(": [("visits.rt", "rouse_first"), ("visits.rt", "rouse")],
    r"\bspin_loop\(": [("lending.rt", "is_soon")],
    r"\byield_now\(": [],
    r"\bCount::none\(": [("looking.rt", "of"), *[("sleeping.rt", "of")] * 2, ("visits.rt", "of")],
    # the loads that are no steps of a table
    r"\.peek\(": [("helping.rt", "help_one"), ("helping.rt", "return_one"),
                    ("sleeping.rt", "read"), ("visits.rt", "peek")],
    r"lock\.look\(": [("looking.rt", "look")],
    r"(?<!lock)\.look\(": [("lending.rt", "is_soon"), ("sleeping.rt", "look")],
    # each look has its right, which a read or a visit gives
    r"\bChance::of\(": [("sleeping.rt", "read"), ("visits.rt", "chance")],
    r"\n +Found \{": [("looking.rt", "look")],
    # each call that is made has its visit
    r"\.finish\w*\(": [("helping.rt", "make"), ("helping.rt", "finish_visit"), ("seat.rt", "call"),
                        ("visitor.rt", "finish_and_look")],
    r"\bTableVisit::of\(": [("seat.rt", "finish")],
    # what is lent, hinted at and taken back is noted, as what is claimed and given back
    r"::<Post>": [("steps.rt", "post")],
    r"::<Hint>": [("steps.rt", "store_hint")],
    r"\bOffer \{ ticket \}": [("steps.rt", "post")],
    r"\bStoredHint \{ ticket \}": [("steps.rt", "store_hint")],
    r"\bTakenBack \{ ticket, made \}": [("steps.rt", "take_back")],
    r"::<Claim>": [("steps.rt", "claim")],
    r"::<GiveBack>": [("steps.rt", "give_back")],
    r"\bTried \{ place": [("steps.rt", "claim")],
    r"\n +Given \{": [("steps.rt", "give_back")],
    r"\.rouse\w*\(": [("visits.rt", "wake_first"), ("visits.rt", "wake_all")],
    # an owner has one word for its whole wait, and forgets what it read only where that was lost
    r"\bTableWord::of\(": [("lending.rt", "finish_lent")],
    r"\bLost \{ state": [("steps.rt", "take_back")],
    r"::<TakeBack>": [("steps.rt", "take_back")],
}

# The loops in the lock's sources. The number of turns of each is in its function's contract, but
# for a wait, which ends with its turn.
LOOPS_OF_THE_LOCK = {
    "steps.rt": ["for _look in 0..LOOKS", "for _yield in 0..YIELDS", "for _ in rt.forever()"],
    "opening.rt": ["for number in 0..seats"],
    "closing.rt": ["while let Some(seat) = seats.pop()"],
}

# What repeats code without the word of a loop: a closure, an iterator, a range outside a `for`.
CLOSURE = r"(?:[(,=\[{;]|=>|\bmove|\breturn)\s*\|[^|;{}]*\|"
ITERATOR = (r"\.(?:into_)?iter\w*\(|\biter::|\bIterator\b|\brepeat\w*\(|\.by_ref\("
            r"|\([^()]*\.\.[^()]*\)\s*\.\w+\(")


def sources_of(crate: str) -> dict:
    """The code of each file of a crate, without comments."""
    top = ROOT / "crates" / crate / "src"
    return {str(file.relative_to(top)): re.sub(r"//.*", "", file.read_text(encoding="utf-8"))
            for file in sorted(top.rglob("*.rt"))}


def functions_in(text: str) -> list:
    """Each function's name, and the code from it to the next one."""
    parts = re.split(r"\bfn (\w+)", text)
    return [*zip(parts[1::2], parts[2::2])]


def code_of(crate: str) -> dict:
    """The code of each file of a crate, without comments and imports."""
    return {name: re.sub(r"^ *(?:ghost )?use .*", "", text, flags=re.M)
            for name, text in sources_of(crate).items()}


def sources_of_the_lock() -> dict:
    """The code of each file of bw_ticket, without comments and imports."""
    return code_of("bw_ticket")


def misplaced(calls: dict, sources: dict) -> list:
    """The calls that stand elsewhere than they should, or another number of times."""
    found = []
    for call, where in calls.items():
        counts = {file: len(re.findall(call, text)) for file, text in sources.items()}
        if {file: count for file, count in counts.items() if count} != where:
            found.append(call)
    return found


def calls_elsewhere(calls: dict, sources: dict) -> list:
    """The calls that stand in other functions than they should, or more than once."""
    found = []
    for call, there in calls.items():
        where = [(file, function) for file, text in sources.items()
                 for function, code in functions_in(text) for _ in re.findall(call, code)]
        count = sum(len(re.findall(call, text)) for text in sources.values())
        if where != there or count != len(there):
            found.append(call)
    return found


def calls_of_the_lock(sources: dict) -> list:
    """The calls of the lock that stand in other functions than they should, or more than once."""
    return calls_elsewhere({call: [(name, each) for each in functions]
                            for call, (name, functions) in CALLS_OF_THE_LOCK.items()}, sources)


def loops_in(text: str) -> list:
    loop = r"(?:^|[{;])\s*((?:for\b[^{;]*\bin\b[^{;]*|while\b[^{;]*|loop))\s*\{"
    return [" ".join(head.split()) for head in re.findall(loop, text, re.M)]


def callers_of_themselves(sources: dict) -> list:
    """The functions that a chain of calls leads back to."""
    functions = [each for text in sources.values() for each in functions_in(text)]
    calls = {name: set() for name, _ in functions}
    for name, code in functions:
        calls[name] |= {each for each in calls if re.search(rf"(?<!::)\b{each}(?:::<.*?>)?\(", code)}
    reached = {name: set(direct) for name, direct in calls.items()}
    for _ in calls:
        for name, direct in reached.items():
            direct |= {far for each in direct for far in calls[each]}
    return sorted(name for name, all_called in reached.items() if name in all_called)


def repeats_of_the_lock(sources: dict) -> list:
    """What may make a call more than once, beside the loops that are known."""
    found = [f"{file}: {head}" for file, text in sources.items() for head in loops_in(text)
             if head not in LOOPS_OF_THE_LOCK.get(file, [])]
    found += [f"{file}: {each}" for file, text in sources.items()
              for each in re.findall(rf"{CLOSURE}|{ITERATOR}", text)]
    return found + callers_of_themselves(sources)


def test_calls_of_the_lock():
    """DECISIONS: the system is called in one private file, and only there a count begins."""
    same(calls_of_the_lock(sources_of_the_lock()), [], "calls of the system")


@pytest.mark.parametrize("call", ["board.shared.park(rt, 2, 1)", "board.shared.wake_all(2)",
                                  "spin_loop()", "yield_now()", "Awake::none()",
                                  "Count::none()", "board.shared.peek(SERVING)",
                                  "board.shared.load::<Front>(seat, SERVING)"])
def test_another_call_is_found(call):
    """One call more in any file is found."""
    sources = sources_of_the_lock()
    for name in ("steps.rt", "sleeping.rt", "patience.rt"):
        assert len(calls_of_the_lock({**sources, name: sources[name] + call})) == 1


def test_calls_of_lent_seats():
    """PROVED: one function each sleeps, wakes, reads and looks for a lent seat."""
    same(calls_elsewhere(CALLS_OF_LENT_SEATS, code_of("bw_lend")), [], "calls of lent seats")


@pytest.mark.parametrize("call", ["table.park(rt, 2, 1)", "table.wake_all(2)", "yield_now()",
                                  "table.peek(2)", "lock.look()", "visit.rouse(place)",
                                  "TableVisit::of(table, ticket)", "seat.finish(rt, lock)",
                                  "table.store::<GiveBack>(token, place, state)"])
def test_another_call_of_lent_seats_is_found(call):
    """One call more in any file is found."""
    sources = code_of("bw_lend")
    for name in ("helping.rt", "sleeping.rt", "seat.rt"):
        more = {**sources, name: sources[name] + call}
        assert len(calls_elsewhere(CALLS_OF_LENT_SEATS, more)) == 1


# Where the planner begins a count of its work, splits, and adds counts up.
CALLS_OF_THE_PLANNER = {
    # `plan`, `plan_rows`, `plan_gathered` and `plan_levels` begin the count of their counted call,
    # and `counted_parts_of` that of a group, which `share_in_pieces` adds.
    r"\bWork::new\(": {"by_rows.rt": 2, "by_depth.rt": 2, "share.rt": 1},
    r"\bwork\.add\(": {"by_depth.rt": 1},
    # the counted splits alone, of what is imported from bw_split
    r"\bsplit_counted\(": {"share.rt": 1},
    r"\bsplit_scarce\(": {"share.rt": 1},
    r"\bsplit(?!_among|_counted|_scarce)\w*\(": {},
    r"\bbw_split\b": {"by_depth.rt": 2, "by_rows.rt": 2, "counted_parts.rt": 1, "share.rt": 1},
}


def test_calls_of_the_planner():
    """DECISIONS: a test of the text says where a count begins."""
    same(misplaced(CALLS_OF_THE_PLANNER, sources_of("bw_plan")), [], "calls of the planner")


@pytest.mark.parametrize("call", ["&mut Work::new()", "split(alloc, amount, &weights, &most)?",
                                  "work.add(&other)", "bw_split::split_by_marks(alloc, 1, w, m);"])
def test_another_call_of_the_planner_is_found(call):
    sources = sources_of("bw_plan")
    for name in ("by_rows.rt", "by_depth.rt", "children.rt"):
        assert misplaced(CALLS_OF_THE_PLANNER, {**sources, name: sources[name] + call})


# Where the checker goes over the rows, each turn a visit, where questions make plans, and where a
# plan takes a count: a call with a new one inside another would not be counted.
CALLS_OF_COUNTS = {
    "bw_check": {
        r"\bfor \w+ in \(?0\.\.\w+.*{\n +\*visits = visits\.one_more\(\);":
            {"tables.rt": 3, "one_pass.rt": 1, "conditions.rt": 1},
        r"\bfor\b(?=.* in )|\bwhile\b|\bloop\b|\.iter|Count::none\(":
            {"tables.rt": 3, "one_pass.rt": 1, "conditions.rt": 1, "checking.rt": 1},
    },
    "bw_questions": {
        r"\*plans = plans\.one_more\(\);": {"least.rt": 1},
        r"\bplan(?:_\w+)?\((?:rt, )?alloc":
            {"guaranteed.rt": 1, "held.rt": 2, "held/served.rt": 1, "least.rt": 1,
             "from_root/beside.rt": 2},
        r"\bCount::none\(": {},
    },
    "bw_plan": {
        r"\bWork::new\(": {"by_rows.rt": 2, "by_depth.rt": 2, "share.rt": 1},
        r"(?<!fn )\b\w+_counted\(": {"by_rows.rt": 3, "by_depth.rt": 4, "share.rt": 1},
    },
}


@pytest.mark.parametrize("crate", CALLS_OF_COUNTS)
def test_calls_of_counts(crate):
    """PROVED: visits of rows and plans are counted where they are made."""
    same(misplaced(CALLS_OF_COUNTS[crate], sources_of(crate)), [], "counts")


@pytest.mark.parametrize("crate, file, call", [
    ("bw_check", "checking.rt", "for g in 0..count {"), ("bw_check", "marks.rt", "Count::none()"),
    ("bw_questions", "from_root/planned.rt", "plan(alloc, &light)?"),
    ("bw_questions", "from_root.rt", "&mut Count::none()"),
    ("bw_plan", "by_rows.rt", "plan_rows_counted(alloc, instance, &gathered, work)"),
    ("bw_plan", "by_rows.rt", "&mut Work::new()")])
def test_another_call_of_a_count_is_found(crate, file, call):
    sources = sources_of(crate)
    assert misplaced(CALLS_OF_COUNTS[crate], {**sources, file: sources[file] + call})


def test_no_repeat_beside_the_calls():
    """Each function that calls the system does so once, so one call is one of the count."""
    sources = sources_of_the_lock()
    loops = {file: loops_in(text) for file, text in sources.items()}
    same({file: heads for file, heads in loops.items() if heads}, LOOPS_OF_THE_LOCK, "loops")
    same(repeats_of_the_lock(sources), [], "what repeats")


# Bodies that make the one load of `glance` many times, for one of the count.
PEEK = "board.shared.peek(SERVING)"
REPEATED = {
    "loop": f"for _again in 0..LOOKS {{ {PEEK}; }} 0",
    "endless": f"loop {{ {PEEK}; }}",
    "closure": f"let looks = |_| {PEEK}; looks(1); looks(2)",
    "closure without arguments": f"let looks = move || {PEEK}; looks(); looks()",
    "iterator": f"(0..LOOKS).map(|_again| {PEEK}).max().unwrap_or(0)",
    "function by name": f"{PEEK}; (0..LOOKS).for_each(drop); 0",
    "iterator of a list": f"WORDS.iter().for_each(drop); {PEEK}",
    "itself": f"glance(board, awake); {PEEK}",
    "a chain": f"{PEEK}; spin(awake); 0 }} fn spin_more() {{ glance(board, awake)",
}


@pytest.mark.parametrize("name", REPEATED)
def test_repeated_load_is_found(name):
    """One `peek` stands in each body of `glance`, so only what repeats it can tell."""
    sources = sources_of_the_lock()
    text = sources["sleeping.rt"].replace(PEEK, REPEATED[name], 1)
    assert text.count(".peek(") == 2
    if name == "a chain":
        text = text.replace("spin_loop();", "spin_loop(); spin_more();")
    assert repeats_of_the_lock({**sources, "sleeping.rt": text})


def test_load_of_a_helper_is_found():
    """A load in a function of its own could be called twice for one of the count."""
    sources = sources_of_the_lock()
    text = sources["sleeping.rt"].replace(PEEK, f"peeks(); peeks() }} fn peeks() {{ {PEEK}", 1)
    assert not repeats_of_the_lock({**sources, "sleeping.rt": text})
    same(calls_of_the_lock({**sources, "sleeping.rt": text}), [r"\.peek\("], "calls")


def test_loads_are_listed():
    """Each load of the lock is among the calls above."""
    for file, text in sources_of_the_lock().items():
        for load in re.findall(r"\.load::<\w+>|\.load\w*\(", text):
            assert any(re.fullmatch(call, load) for call in CALLS_OF_THE_LOCK), (file, load)


@pytest.mark.parametrize("text", ["    for _ in 0..2 {", "{ while more {", "add(); loop {"])
def test_loop_is_found(text):
    same(len(loops_in(text)), 1)


# Lists that are made of the sources

# Rows that a reader looks for, read off the sources by hand.
ROWS = {
    "--definitions": ("| `Plan.IsPlan` | the amounts are the totals of the best allocation |",
                      "| `Host.Shape` | the value of a host |",
                      "| `History.replay` | the machine after all calls of the history, played by "
                      "one thread |"),
    "--clauses": ("| `steps.rt:claim` | table tried claimed | Takes the place if the seat of this ticket is "
                  "lent there. |",
                  "| `gate.rt:uses` |  | Whether a leaf uses its slices. The planner does not know "
                  "it. |",
                  "| `counted.rt:add` | rounds picks | Adds the rounds and picks of another count, "
                  "as of a piece of work in another thread. |"),
    "--laws": ("| `laws.rt:there_is_one_plan` | Each instance has exactly one plan. |",
               "| `laws/host.rt:capacity_takes_nothing` | A host with a greater capacity gives no group "
               "less. |"),
    "--lemmas": ("| `allocation/Limiting.antt` | The limiting groups give the greatest total. |",),
}


@pytest.mark.parametrize("word", ROWS)
def test_rows_of_lists(word):
    listed = run([ROOT / "scripts/indexes.py", word])
    same((listed.status, listed.err), (0, b""))
    lines = listed.out.decode().splitlines()
    same([row for row in ROWS[word] if row not in lines], [], "rows that are not there")
    assert len(lines) > 100


def test_other_lists_are_refused():
    same(run([ROOT / "scripts/indexes.py"]).status, 2)
    same(run([ROOT / "scripts/indexes.py", "other"]).status, 2)


def test_constants_are_stated():
    """A law says the number of each constant that a public clause or a definition names."""
    same(indexes.unstated(), [], "constants of which no law says the number")


LIMITS = """/// Some.
pub const {}: u64 = 7;

/// Cuts.
pub fn cut(amount: u64) -> u64
    requires {{ amount ≤ {} }}
{{}}
"""
STATES = """use low::limits::MOST;

/// Law: the number of it.
pub fn numbers({})
    ensures {{ MOST ≡ 7 }}
{{}}
"""


@pytest.mark.parametrize("shown", ["pub mod limits;", "pub use limits::{LEAST, MOST};"])
@pytest.mark.parametrize("name, cited, argument, specs, found", [
    ("MOST", "MOST", "", "", []),
    # A clause names it, or a definition of another crate, and none that is a law says its number.
    ("MOST", "MOST", "some: u64", "", ["low: MOST"]),
    ("LEAST", "LEAST", "", "", ["low: LEAST"]),
    ("LEAST", "7", "", "use Rattle.low.specs.declared.limits.TheConstants.{LEAST}\n",
     ["low: LEAST"]),
    ("LEAST", "7", "", "use Rattle.low.specs.Limits.{LEAST}\n", []),
])
def test_constants_are_found(tmp_path, monkeypatch, name, cited, argument, specs, found, shown):
    (tmp_path / "crates.txt").write_text("# The crates\nlow:\nhigh: low\n")
    for file, text in [("low/src/lib.rt", f"{shown}\n"),
                       ("low/src/limits.rt", LIMITS.format(name, cited)),
                       ("high/src/laws.rt", STATES.format(argument)),
                       ("high/specs/Some.antt", specs)]:
        (tmp_path / "crates" / file).parent.mkdir(parents=True, exist_ok=True)
        (tmp_path / "crates" / file).write_text(text)
    monkeypatch.setattr(indexes, "ROOT", tmp_path)
    same(indexes.unstated(), found, "constants")
    (tmp_path / "crates/low/src/lib.rt").write_text("mod limits;\n")
    same(indexes.unstated(), [], "constants that no other crate can name")


CONTRACTS = """pub trait Gate {
    fn uses(&self) -> bool
        ensures { True }
}

impl Tree {
    /// A group more.
    pub unsafe extern "C" fn mkdir<
        T,
    >(
        name: T,
    ) -> u32
        requires { 1 ≤ next }
        ensures made { IsMade }
        // ensures nothing { IsNothing }
        ensures err { IsErr }
    {
    pub(crate) fn hidden() ensures { True } {
        run()
    }
}

fn alone()
    ensures left { IsLeft }
{}
"""


def test_contracts_are_read():
    """Traits, clauses without a label, a contract behind parameters on lines of their own."""
    found = [(each.name, each.is_public, each.clauses) for each in indexes.contracts(CONTRACTS)]
    both = [("requires", ""), ("ensures", "made"), ("ensures", "err")]
    same(found, [("uses", True, [("ensures", "")]), ("mkdir", True, both), ("hidden", False, []),
                 ("alone", False, [("ensures", "left")])], "contracts")
    words = [each.words for each in indexes.contracts(CONTRACTS)]
    assert "IsMade" in words[1] and "IsNothing" not in words[1]


LAW = """/// Law: nothing changes.
///
/// Premise: none.
///
/// # Errors
/// None.
#[inline]
pub fn nothing_changes<M: Machine>()
    ensures { NothingChanges }
{}

/// Ends.
pub(crate) fn end(rt: u8)
    ensures done { Done }
{}
"""


def test_laws_are_read():
    """A law takes nothing and returns nothing. Its words are the comment, with its errors."""
    found = [(each.name, each.is_law, each.is_public, each.is_of_crate, each.comment)
             for each in indexes.contracts(LAW)]
    same(found, [("nothing_changes", True, True, False,
                  "nothing changes. Premise: none. Errors: None."),
                 ("end", False, False, True, "Ends.")], "laws")


def test_definitions_are_read(tmp_path):
    """A definition with a comment, also in a module; no field, and none without a comment."""
    path = tmp_path / "Some.antt"
    path.write_text("-- The head.\nuse A.{b}\n\n-- all of\n-- it\nabbrev pub IsAll : N\n"
                    "pub record Bare : Type 0 where\n  -- a part\n  pub part : N\n"
                    "module _ where\n  -- some of it\n  abbrev pub some : N\n")
    same(list(indexes.definitions(path)), [("IsAll", "all of it"), ("some", "some of it")])
    same(indexes.head_line(path), "The head.")


# Prose


def blocks_of_prose(text: str) -> list:
    """Paragraphs and items of lists, without code, tables and headings."""
    text = re.sub(r"^```.*?^```$", "", text, flags=re.M | re.S)
    blocks, now = [], []
    for line in [*text.splitlines(), ""]:
        line = re.sub(r"^ *>", "", line)
        is_item = re.match(r" *(?:[-*]|\d+\.) ", line)
        if not line.strip() or is_item or re.match(r"#|\||    |!\[", line):
            blocks.append(" ".join(now))
            now = [line[is_item.end():]] if is_item else []
        else:
            now.append(line.strip())
    return [block for block in blocks if block.strip()]


def sentences(text: str) -> list:
    """The sentences of a page. What stands in backquotes is one word."""
    found = []
    for block in blocks_of_prose(text):
        block = re.sub(r"\[([^\]]*)\]\([^)]*\)", r"\1", re.sub(r"`[^`]+`", "CODE", block))
        block = block.replace("*", "").replace(" .. ", " ")
        found += re.split(r"(?<=[.!?])['\")]*\s+(?=[A-Z0-9'\"(]|bw_)", block)
    return [sentence for sentence in found if sentence.strip()]


def long_sentences(page: str) -> list:
    words = re.compile(r"[\w][\w'.,/^-]*")
    return [each for each in sentences(text_of(page)) if len(words.findall(each)) > GREATEST_WORDS]


@pytest.mark.parametrize("page", SHORT)
def test_sentences_are_short(page):
    """No sentence of the pages for newcomers has more than 30 words."""
    same(long_sentences(page), [], "long sentences")


def test_few_sentences_are_long():
    """Of the sentences of all other pages fewer than one in 50 has more than 30 words."""
    others = [page for page in PAGES if page not in SHORT]
    long = [(page, each) for page in others for each in long_sentences(page)]
    count = sum(len(sentences(text_of(page))) for page in others)
    assert 50 * len(long) < count, f"{len(long)} of {count}: {long}"


def test_long_sentence_is_found():
    table = "| a table | " + "word " * 40 + "|\n"
    text = "A short one.\n\n- " + "word " * 31 + "end. Another.\n\n" + table
    same([len(each.split()) for each in sentences(text)], [3, 32, 1], "words")


COMMENT = re.compile(r"\s*(?:--|//[/!]?) ?(.*)")
HEADLESS = re.compile(r"(?:what|who|how|the same|so many|so much)\b", re.I)
# The comments of this record are the phrases of one sentence.
PHRASES = "bw_workers/specs/Headline.antt"


def headless(text: str) -> list:
    """The comments that do not begin with the noun or the verb of their item, by line."""
    lines = ["", *text.splitlines()]
    return [f"{at}: {line.strip()}" for at, line in enumerate(lines)
            if (found := COMMENT.fullmatch(line)) and HEADLESS.match(found[1])
            and not COMMENT.fullmatch(lines[at - 1])]


def test_comments_name_their_item():
    """Comments of specs/ and src/ begin with the noun that an item is, or the verb that it does."""
    files = [*ROOT.glob("crates/*/specs/**/*.antt"), *ROOT.glob("crates/*/src/**/*.rt")]
    names = {str(path.relative_to(ROOT / "crates")): path for path in files}
    assert len(names) > 300, len(names)
    found = [f"{name}:{each}" for name, path in sorted(names.items()) if name != PHRASES
             for each in headless(path.read_text(encoding="utf-8"))]
    same(found, [], "comments")


def docstrings(source: str) -> list:
    """The docstrings of a module of Python."""
    nodes = (ast.Module, ast.ClassDef, ast.FunctionDef)
    return [text for node in ast.walk(ast.parse(source)) if isinstance(node, nodes)
            and (text := ast.get_docstring(node))]


def test_docstrings_name_their_item():
    """Docstrings of the packages begin with the noun that an item is, or the verb that it does."""
    files = [*ROOT.glob("python/arbiter*/**/*.py")]
    assert len(files) > 100, len(files)
    found = [f"{path.relative_to(ROOT)}: {text.splitlines()[0]}" for path in sorted(files)
             for text in docstrings(path.read_text(encoding="utf-8")) if HEADLESS.match(text)]
    same(found, [], "docstrings")


def test_headless_docstring_is_found():
    source = 'def f():\n    """What it is."""\nclass A:\n    """The thing."""\n'
    same([text for text in docstrings(source) if HEADLESS.match(text)], ["What it is."], "found")


def test_headless_comment_is_found():
    text = "-- what a group has\nleft : N\n-- the sum\n-- what follows\nf x\n  // The same.\n"
    same(headless(text), ["1: -- what a group has", "6: // The same."], "comments")


# README


def test_readme_is_short():
    text = text_of("README.md")
    assert text.count("\n") <= 145
    assert len(text.encode()) <= 8192


def test_readme_names_each_folder():
    names = run(["git", "ls-files", "-z"], cwd=ROOT).out.decode().split("\0")
    folders = {name.split("/")[0] for name in names if "/" in name and name[0] != "."}
    text = text_of("README.md")
    same([folder for folder in sorted(folders) if f"`{folder}/`" not in text], [], "folders")


def readme_commands() -> list:
    """The commands of README with their answers."""
    blocks = re.compile(r"^```command\n(.*?)^```\n\n```answer\n(.*?)^```$", re.M | re.S)
    return blocks.findall(text_of("README.md"))


@pytest.fixture(scope="module")
def fresh(tmp_path_factory, program) -> Path:
    """The files of the repository as after a clone, with the native program if it is ours."""
    folder = tmp_path_factory.mktemp("fresh")
    words = ["git", "ls-files", "-z", "--cached", "--others", "--exclude-standard"]
    names = subprocess.run(words, cwd=ROOT, check=True, stdout=subprocess.PIPE).stdout
    for name in names.decode().split("\0"):
        if name and (ROOT / name).is_file():
            (folder / name).parent.mkdir(parents=True, exist_ok=True)
            shutil.copy(ROOT / name, folder / name)
    if program.path == str(support.PROGRAM.resolve()):
        out = support.PROGRAM.parent
        shutil.copytree(out, folder / out.relative_to(ROOT))
    else:
        (folder / "arbiter").unlink()
        (folder / "arbiter").symlink_to(program.path)
    return folder


@pytest.mark.parametrize("command, answer", readme_commands(), ids=lambda text: text.split("\n")[0])
def test_readme_command(fresh, library, command, answer):
    """A command of README in a fresh clone. All that it is given is the place of the C library."""
    environment = {"PATH": os.environ["PATH"], "HOME": str(fresh.parent)}
    if "arbiterctl" in command:
        environment["ARBITER_LIBRARY"] = str(library)
    ended = run(["bash", "-c", command], cwd=fresh, env=environment)
    same(ended, (0, answer.encode(), b""), command.split("\n")[0])


def test_readme_has_commands():
    """The text that README checks is the one that its first command prints."""
    (script, answer), (check, _), *_ = readme_commands()
    assert script.endswith("cert\nEND\n") and "examples/two-groups.certified" in check
    assert answer.endswith(text_of("examples/two-groups.certified"))
