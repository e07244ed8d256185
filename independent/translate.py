#!/usr/bin/env python3
"""Prints the definitions of the crates as Coq: one text for two provers.

usage: translate.py TOP FOLDER      TOP is the top of the repository
       translate.py --kit KIT       KIT is the folder of the kit's sources

It writes a file of Coq into the folder for each of `PARTS`. What it does not know ends it, so that
nothing but `LEFT_OUT` is left out. The words of the kit's library are in Words.v. With `--kit` it
prints Kit.v: what the kit's own texts define these words to be.
"""
from __future__ import annotations

import re
import sys
from collections.abc import Sequence
from dataclasses import dataclass, field
from pathlib import Path

# The definitions of each Coq file, in order: files of definitions, and of files of Rust the types.
PARTS: dict[str, tuple[tuple[str, ...], ...]] = {
    "Rules": (
        ("bw_model/src/limits.rt",), ("bw_model/src/host.rt", "HostFault"),
        ("bw_model/src/row.rt", "Row"), ("bw_model/src/mark.rt", "Mark"),
        ("bw_model/src/certificate.rt", "Certificate"),
        ("bw_model/specs/Host.antt",), ("bw_model/specs/Groups.antt",),
        ("bw_model/specs/Allocation.antt",), ("bw_model/specs/Marks.antt",),
        ("bw_model/specs/Split.antt",), ("bw_model/specs/Plan.antt",),
        ("bw_model/specs/Certificate.antt",), ("bw_model/specs/Demand.antt",),
        ("bw_split/specs/OneSlice.antt",),
        ("bw_machine/src/history.rt", "Entry", "Made"),
        ("bw_machine/src/seats.rt", "Phase", "CoreEvent"),
        ("bw_machine/specs/History.antt",), ("bw_machine/specs/Seats.antt",),
        ("bw_machine/specs/Schedules.antt",),
        ("bw_pool/src/calls.rt", "PoolCall", "Short", "Refusal", "PoolReply"),
        ("bw_pool/specs/Pool.antt",), ("bw_pool/specs/Drained.antt",),
        ("bw_workers/specs/Headline.antt",),
    ),
    "Refusals": (
        ("bw_text/src/number.rt", "NumberFault"), ("bw_text/specs/Number.antt",),
        ("bw_model/src/instance_fault.rt", "InstanceFault"), ("bw_model/specs/Refusal.antt",),
        ("bw_model/specs/Faults.antt",),
    ),
    "Reading": (
        ("bw_cert/src/fault.rt", "CertFault"), ("bw_cert/specs/Faults.antt",),
        ("bw_cert/specs/Spelling.antt",),
        ("bw_cert/specs/Reading.antt",),
    ),
    "Scripts": (
        ("bw_model/src/limits.rt",), ("bw_model/src/quota.rt", "Quota"),
        ("bw_model/src/stat.rt", "Stat"), ("bw_model/specs/Quota.antt",),
        ("bw_text/specs/Words.antt",), ("bw_streams/specs/Answers.antt",),
        ("bw_demand/specs/Demands.antt",), ("bw_demand/specs/Figures.antt",),
        ("bw_cert/specs/Levels.antt",),
        ("bw_files/src/fault.rt", "FileFault"), ("bw_files/src/reading.rt", "MaxWrite"),
        ("bw_files/specs/Faults.antt",), ("bw_files/specs/Reading.antt",),
        ("bw_files/specs/Values.antt",), ("bw_files/specs/Writing.antt",),
        ("bw_tree/src/limits.rt",), ("bw_tree/src/fault.rt", "TreeFault"),
        ("bw_tree/src/setting.rt", "Setting"),
        ("bw_tree/specs/Faults.antt",), ("bw_tree/specs/Groups.antt",),
        ("bw_tree/specs/Paths.antt",), ("bw_tree/specs/Tree.antt",),
        ("bw_tree/specs/Snapshot.antt",),
        ("bw_stat/specs/Books.antt",), ("bw_stat/specs/Report.antt",),
        ("bw_hierarchy/src/fault.rt", "Fault"), ("bw_hierarchy/src/group_file.rt", "GroupFile"),
        ("bw_hierarchy/specs/Faults.antt",), ("bw_hierarchy/specs/Calls.antt",),
        ("bw_hierarchy/specs/State.antt",), ("bw_hierarchy/specs/GroupFiles.antt",),
        ("bw_hierarchy/specs/Files.antt",),
        ("bw_workers/src/fault.rt", "ServeFault"), ("bw_commands/src/fault.rt", "ScriptFault"),
        ("bw_commands/specs/Word.antt",), ("bw_commands/specs/Command.antt",),
        ("bw_commands/specs/Faults.antt",), ("bw_commands/specs/Lines.antt",),
        ("bw_commands/specs/GroupLines.antt",), ("bw_commands/specs/State.antt",),
        ("bw_commands/specs/Planned.antt",), ("bw_commands/specs/Total.antt",),
        ("bw_commands/specs/Reported.antt",), ("bw_commands/specs/CertifiedPlan.antt",),
        ("bw_commands/specs/Period.antt",), ("bw_commands/specs/Script.antt",),
        ("bw_shell/specs/Transcript.antt",),
    ),
    "Laws": (
        ("bw_commands/src/reading.rt", "RefusedLine"), ("bw_commands/specs/Reading.antt",),
        ("bw_laws/specs/Transcripts.antt",),
    ),
}
# Definitions that are left out: they join a text with the program's own values.
LEFT_OUT = {"certified_value", "IsCertifiedText", "seen", "Fails", "ReadsAs", "group_view",
            "columns_view", "certified_view", "groups_read", "rows_view", "IsLate", "IsRefused",
            "host_fault_name", "instance_fault_name", "cert_fault_name",
            "demands_of", "blanks_of", "Gathered"}
# The words of the kit's library, by the files that define them. Each stands behind those it names.
# Not among them: `join_with_byte`, whose recursion Coq does not take, and `is_utf8`.
KIT: tuple[tuple[str, str], ...] = (
    ("logic/Lib/ListN.antt", "length get_or take drop set replicate"),
    ("core/specs/Option.antt", "is_some unwrap_or option_map MatchOption IfSome IsSome"
     " option_map_or"),
    ("core/specs/Result.antt", "MatchResult IfOk IfErr OnOk"),
    ("core/specs/Int.antt", "is_in_range"),
    ("core/specs/Char.antt", "is_ascii_digit"),
    ("core/specs/List.antt", "slice_get slice_index slice_range filter list_any list_all"
     " All fold range_with_len AllByRecursion remove flat_map sum_by sum count_by"
     " prefix_len position_or_len enumerate_from position onto_first slice_split"),
    ("logic/Lib/Pointwise.antt", "pointwise"),
    ("core/specs/Str.antt", "bytes_eq"),
    ("core/specs/Fmt.antt", "digit_glyph digits_onto digits decimal"),
    ("std_collections/specs/Map.antt", "keys_of values_of lookup remove_entry set_value"),
    ("indexmap/specs/IndexMap.antt", "insert_entry"),
    ("std/specs/Path.antt", "rfind_below rsplit_once"),
)
# Second names of such words.
KIT_ALIASES = {"slice_index_or": "get_or", "slice_set": "set"}
# Constants of Rust that the definitions name.
CONSTANTS = ("MAX_PROCESSORS", "MIN_PERIOD_US", "MAX_PERIOD_US", "MIN_SLICE_US", "MIN_WEIGHT",
             "MAX_WEIGHT", "MAX_DEMAND", "MAX_GROUPS", "MAX_DEPTH", "MAX_PER_PROCESSOR")
MORE_CONSTANTS = {"Scripts": ("MIN_QUOTA_US", "MAX_QUOTA_US", "MAX_BURST_US", "MAX_PATH",
                              "MAX_NAME", "DEFAULT_WEIGHT", "DEFAULT_PERIOD_US", "FIRST_ID")}
# Parts in which a name that is taken gets a tag.
TAGGED = {"Scripts", "Laws"}
# The names of Words.v and of Coq that a definition may not take.
WORDS_TAKEN = set("""
range_with_len slice_index slice_index_or slice_get slice_set remove replicate take drop sum
sum_by count_by list_any nat_lt nat_le not option_map_or unwrap_or IsTrue IsSome All
AllByRecursion Result Ok Err IfSome is_some list_all enumerate_from is_ascii_digit bytes_eq
slice_split join_with_byte decimal_within decimal keys_of values_of lookup remove_entry set_value
insert_entry position rsplit_once is_utf8 nat_eq option_map length map filter min max list nat
bool option fst snd Some None true false O S app rev nth seq existsb forallb flat_map int pos
negsuc IsErrOf
""".split())
WORDS = {"ℕ": "nat", "List": "list", "Option": "option", "Bool": "bool", "zero": "0", "suc": "S",
         "⊥": "False", "⊤": "True", "ℤ": "int", "[]": "[]"}
# Operators by their binding, the loosest first: how Coq writes them, and how they associate.
OPERATORS = {
    "→": (1, "->", "right"), "↔": (2, "<->", "none"), "×": (3, "/\\", "right"),
    "⊎": (3, "\\/", "right"), ">>=": (2, ">>=", "left"),
    "≡": (4, "=", "none"), "≢": (4, "<>", "none"),
    "<": (4, "<", "none"), "≤": (4, "<=", "none"), "||": (5, "||", "left"),
    "&&": (6, "&&", "left"), "==": (7, "=?", "none"), "∷": (8, "::", "right"),
    "++": (8, "++", "right"), "+": (9, "+", "left"), "-": (9, "-", "left"),
    "*": (10, "*", "left"), "/": (10, "/", "left"), "%": (10, "mod", "left"),
    "^": (11, "^", "right"),
}
TOKEN = re.compile(r"""\s*(?:(?P<text>"[^"]*")|(?P<number>[0-9]+)|(?P<name>[^\W\d][\w']*)
    |(?P<field>\.(?=\w))
    |(?P<sign>>>=|==|\|\||&&|\+\+|[→↔×⊎≡≢<≤∷+\-*/%^¬λ⊥⊤(){}\[\],;:=.←⏎]))""",
                   re.X)
# Names that mean something else to Coq.
RESERVED = {"at", "return", "end", "match", "as", "fun", "forall", "exists", "in", "to", "with"}
CLAIM = re.compile(r"(Is|Are|Has|Holds|Headline)")
# A struct or an enum of Rust, with its parameters and its fields or variants.
DECLARATION = re.compile(r"pub(?:\(crate\))? (struct|enum) (\w+)(?:<([^>]*)>)? \{(.*?)^\}",
                         re.M | re.S)
# How the names of claims begin that are no records.
CLAIMED = re.compile(r"(Is|Are|Has|No|May|Drains|All|If|⊥)")
# The word by which a file names the variants of its faults.
ALIAS = "faults"
# An operator that the definitions define, and the name that it has here.
STEP, STEP_NAME = "◌>>=◌", "and_then"
# The greatest number that is written out: Coq has them in ones.
MOST_WRITTEN = 1000


class Unknown(Exception):
    """Something that this script does not know."""


@dataclass
class Node:
    """A term: its kind, its parts, its word, and the names that it binds, group by group."""

    kind: str
    parts: list[Node] = field(default_factory=list)
    word: str = ""
    names: list[list[str]] = field(default_factory=list)


def name(word: str) -> Node:
    """The term that is a name."""
    return Node("name", word=word)


@dataclass
class Record:
    """A record or a struct: its parameters, its fields in order, and whether it is a claim."""

    parameters: list[str]
    fields: dict[str, Node]
    is_claim: bool


class Tokens:
    """The words of one item."""

    def __init__(self, text: str) -> None:
        self.words: list[tuple[str, str]] = []
        at = 0
        while text[at:].strip():
            match = TOKEN.match(text, at)
            if match is None:
                raise Unknown(f"no word: {text[at:at + 60]!r}")
            kind = str(match.lastgroup)
            self.words.append((kind, match[kind]))
            at = match.end()
        self.at = 0

    def look(self, ahead: int = 0) -> tuple[str, str]:
        """The kind and the text of a word that is not taken yet."""
        at = self.at + ahead
        return self.words[at] if at < len(self.words) else ("end", "")

    def take(self, wanted: str = "") -> str:
        """Takes the next word, which has to be the wanted one."""
        kind, word = self.look()
        if kind == "end" or wanted and word != wanted:
            raise Unknown(f"{wanted or 'a word'}, not {word!r}")
        self.at += 1
        return word


class Parser:
    """Reads terms."""

    def __init__(self, text: str) -> None:
        self.tokens = Tokens(text)

    def whole(self) -> Node:
        """The term that all words are."""
        found = self.term()
        if self.tokens.look()[0] != "end":
            raise Unknown(f"more words: {self.tokens.words[self.tokens.at:][:6]}")
        return found

    def term(self, binding: int = 0) -> Node:
        """A term whose operators bind at least this much."""
        left = self.prefixed()
        while (own := OPERATORS.get(self.tokens.look()[1])) and own[0] >= binding:
            word = self.tokens.take()
            right = self.term(own[0] if own[2] == "right" else own[0] + 1)
            if left.kind == "binder":
                kind = {"→": "forall", "×": "exists"}[word]
                left = Node(kind, [*left.parts, right], names=left.names)
            else:
                left = Node("operator", [left, right], word)
        return left

    def prefixed(self) -> Node:
        """A term that begins with a word of its own, or an application."""
        take, word = self.tokens.take, self.tokens.look()[1]
        if word == "if":
            take()
            parts = [self.term()]
            for middle in ("then", "else"):
                take(middle)
                parts.append(self.term())
            return Node("if", parts)
        if word == "let":
            take()
            bound = take()
            parts = [Node("hole")]
            if self.tokens.look()[1] == ":":
                take(":")
                parts = [self.term()]
            for middle in ("=", "in"):
                take(middle)
                parts.append(self.term())
            return Node("let", parts, bound)
        if word == "¬":
            take()
            return Node("not", [self.term(5)])
        if word == "λ":
            return self.function()
        if word == "do":
            take()
            return self.steps()
        first = self.atom()
        parts = [first]
        while first.kind != "binder" and self.begins_atom():
            parts.append(self.function() if self.tokens.look()[1] == "λ" else self.atom())
        return Node("apply", parts) if parts[1:] else first

    def steps(self) -> Node:
        """Steps, each with a name for its result, and the last term."""
        if self.tokens.look(1)[1] != "←":
            return self.term()
        bound = self.tokens.take()
        self.tokens.take("←")
        value = self.term()
        self.tokens.take("⏎")
        rest = Node("function", [self.steps()], names=[[bound]])
        return Node("operator", [value, rest], ">>=")

    def function(self) -> Node:
        """A function: its names, with or without a type, and its body."""
        self.tokens.take("λ")
        if self.tokens.look()[1] == "(":
            binder = self.atom()
            self.tokens.take(".")
            return Node("function", [*binder.parts, self.term()], names=binder.names)
        names = []
        while self.tokens.look()[1] != ".":
            names.append(self.tokens.take())
        self.tokens.take(".")
        return Node("function", [self.term()], names=[names])

    def begins_atom(self) -> bool:
        """Whether the next word begins a part of an application."""
        kind, word = self.tokens.look()
        if kind == "name":
            return word not in ("then", "else", "in", "where")
        return kind in ("number", "text") or word in ("(", "[", "{", "⊥", "⊤", "λ")

    def atom(self) -> Node:
        """A name, a number, a text, a record, or what stands in parentheses, with its fields."""
        kind, word = self.tokens.look()
        self.tokens.take()
        if kind in ("number", "text"):
            found = Node(kind, word=word.strip('"'))
        elif word == "record":
            return self.record()
        elif word == "[":
            self.tokens.take("]")
            found = name("[]")
        elif word in ("(", "{"):
            found = self.inside(")" if word == "(" else "}")
        elif kind == "name" or word in ("⊥", "⊤"):
            found = name(word)
        else:
            raise Unknown(f"no term begins with {word!r}")
        while self.tokens.look()[0] == "field":
            self.tokens.take()
            found = Node("field", [found], self.tokens.take())
        return found

    def inside(self, end: str) -> Node:
        """What stands in parentheses: groups of names with their types, a pair, or a term."""
        begin, names = self.tokens.at, []
        while self.tokens.look()[0] == "name":
            names.append(self.tokens.take())
        if names and self.tokens.look()[1] == ":":
            self.tokens.take()
            found = Node("binder", [self.term()], names=[names])
            self.tokens.take(end)
            while self.tokens.look()[1] in ("(", "{") and self.is_binder():
                more = self.inside(")" if self.tokens.take() == "(" else "}")
                found.parts += more.parts
                found.names += more.names
            return found
        self.tokens.at = begin
        found = self.term()
        if self.tokens.look()[1] == ",":
            self.tokens.take()
            found = Node("pair", [found, self.term()])
        self.tokens.take(end)
        return found

    def is_binder(self) -> bool:
        """Whether names and a type follow in parentheses."""
        ahead = 1
        while self.tokens.look(ahead)[0] == "name":
            ahead += 1
        return ahead > 1 and self.tokens.look(ahead)[1] == ":"

    def record(self) -> Node:
        """A record, new or with some fields changed."""
        parts = [] if self.tokens.look()[1] == "{" else [self.atom()]
        kind, names = "changed" if parts else "record", []
        self.tokens.take("{")
        while self.tokens.look()[1] != "}":
            names.append(self.tokens.take())
            self.tokens.take("=")
            parts.append(self.term())
            if self.tokens.look()[1] == ";":
                self.tokens.take()
        self.tokens.take("}")
        return Node(kind, parts, names=[names])


def parsed(text: str) -> Node:
    """A text as a term."""
    return Parser(text).whole()


def head(kind: Node | None) -> str:
    """The name that a type begins with."""
    if kind is not None and kind.kind == "apply":
        kind = kind.parts[0]
    return kind.word if kind is not None and kind.kind == "name" else ""


def arguments(kind: Node) -> tuple[list[tuple[list[str], Node]], list[Node], Node]:
    """The implicit names of a function's type, the types that it takes, and that of its result."""
    implicit: list[tuple[list[str], Node]] = []
    taken = []
    while True:
        if kind.kind == "forall":
            implicit += list(zip(kind.names, kind.parts))
            kind = kind.parts[-1]
        elif kind.kind == "operator" and kind.word == "→":
            taken.append(kind.parts[0])
            kind = kind.parts[1]
        else:
            return implicit, taken, kind


def is_sort(kind: Node) -> bool:
    """Whether a type is that of types and claims."""
    return kind.kind == "apply" and kind.parts[0].word == "Type"


Scope = dict[str, tuple[str, "Node | None"]]


class Writer:
    """Writes items as Coq, and keeps what later ones need to know of them."""

    def __init__(self) -> None:
        self.records: dict[str, Record] = {}
        self.results: dict[str, tuple[int, Node]] = {}
        self.aliases: dict[str, Node] = {}
        self.lines: list[str] = []
        # The record that the definition at hand gives, if it gives one.
        self.wanted = ""
        # The names that are taken in Coq, and those that stand for others, by their full path.
        self.taken: set[str] = set(WORDS_TAKEN)
        self.full: dict[str, str] = {}
        self.homes: dict[str, str] = {}
        self.part = ""
        self.step = STEP_NAME

    def coq_name(self, path: str, title: str, tag: str) -> str:
        """The Coq name of a definition: its own, or with a tag where that is taken."""
        if self.part not in TAGGED:
            self.taken.add(title)
            self.full[path] = title if self.homes.setdefault(title, self.part) == self.part else \
                f"{self.part}.{title}"
            return title
        found = title if title not in self.taken else f"{title}_{tag}"
        if found in self.taken:
            raise Unknown(f"twice: {path} {found}")
        self.taken.add(found)
        self.full[path] = found
        return found

    # ---- types, for the fields of records

    def record_of(self, kind: Node | None) -> str:
        """The record that a type is, if it is one."""
        while head(kind) in self.aliases:
            kind = self.aliases[head(kind)]
        return head(kind) if head(kind) in self.records else ""

    def type_of(self, term: Node, scope: Scope) -> Node | None:
        """The type of a term, where a field of it is asked for."""
        if term.kind == "name" and term.word in scope:
            return scope[term.word][1]
        if term.kind == "apply" and term.parts[0].word == "values_of":
            entries = self.type_of(term.parts[1], scope)
            return Node("apply", [name("List"), entries.parts[1].parts[1]]) if entries else None
        if term.kind in ("name", "apply"):
            first = term.parts[0] if term.kind == "apply" else term
            known = self.results.get(first.word) if first.word not in scope else None
            if known and known[0] == len(term.parts) - (term.kind == "apply"):
                return known[1]
        if term.kind == "field" and term.word in ("0", "1"):
            pair = self.type_of(term.parts[0], scope)
            return pair.parts[int(term.word)] if pair is not None and pair.word == "×" else None
        if term.kind == "field":
            owner = self.record_of(self.type_of(term.parts[0], scope))
            return self.records[owner].fields[term.word] if owner else None
        return None

    def owner_of(self, term: Node, scope: Scope) -> str:
        """The record of a field: by the type of what has it, else the one that has such a field."""
        owner = self.record_of(self.type_of(term.parts[0], scope))
        owners = [owner] if owner else [each for each, record in self.records.items()
                                        if not record.is_claim and term.word in record.fields]
        if len(owners) != 1 or term.word not in self.records[owners[0]].fields:
            raise Unknown(f"the owner of .{term.word}: {owners}")
        return owners[0]

    # ---- terms

    def number(self, value: int) -> str:
        """A number, as a product where it is great."""
        if self.part in TAGGED and 9 < value < 256:
            return f"n{value}"
        for base in (2, 10):
            power = 0
            while base ** power < value:
                power += 1
            if value > (255 if self.part in TAGGED else MOST_WRITTEN) and base ** power == value:
                return f"({self.number(base)} ^ {self.number(power)})"
        if value > MOST_WRITTEN:
            raise Unknown(f"a great number that is no power: {value}")
        return str(value)

    def term(self, node: Node, scope: Scope, is_claim: bool) -> str:
        """A term. In a claim a product says 'and'; elsewhere it is one of types."""
        def inner(each: Node) -> str:
            return self.term(each, scope, is_claim)
        if node.kind == "name":
            return scope[node.word][0] if node.word in scope else WORDS.get(node.word, node.word)
        if node.kind == "number":
            return self.number(int(node.word))
        if node.kind == "text":
            word = node.word.replace("\\n", "\n")
            return "[" + "; ".join(self.number(ord(each)) for each in word) + "]"
        if node.kind == "apply":
            return self.application(node, scope, is_claim)
        if node.kind == "operator" and node.word == ">>=":
            value, rest = node.parts
            kind = self.type_of(value, scope)
            of_ok = kind.parts[1] if kind is not None and head(kind) == "Result" else None
            is_function = rest.kind == "function"
            text = self.binding(rest, scope, is_claim, of_ok) if is_function else inner(rest)
            return f"({self.step} {inner(value)} {text})"
        if node.kind == "operator":
            sign = OPERATORS[node.word][1]
            sign = "*" if node.word == "×" and not is_claim else sign
            return f"({inner(node.parts[0])} {sign} {inner(node.parts[1])})"
        if node.kind == "not":
            return f"(~ {inner(node.parts[0])})"
        if node.kind == "if":
            return "(if {} then {} else {})".format(*map(inner, node.parts))
        if node.kind == "pair":
            return f"({inner(node.parts[0])}, {inner(node.parts[1])})"
        if node.kind == "let":
            is_told = node.parts[0].kind != "hole"
            of_let = node.parts[0] if is_told else self.type_of(node.parts[1], scope)
            below: Scope = {**scope, node.word: (plain(node.word), of_let)}
            return (f"(let {plain(node.word)} := {inner(node.parts[1])} in"
                    f" {self.term(node.parts[2], below, is_claim)})")
        if node.kind == "field":
            if node.parts[0].word == ALIAS:
                return node.word
            if node.word in ("0", "1"):
                return f"({'fst' if node.word == '0' else 'snd'} {inner(node.parts[0])})"
            if node.word == "items":
                return inner(node.parts[0])
            return f"({self.owner_of(node, scope)}_{node.word} {inner(node.parts[0])})"
        if node.kind in ("forall", "exists", "function"):
            return self.binding(node, scope, is_claim)
        if node.kind in ("record", "changed"):
            return self.made_record(node, scope, is_claim)
        raise Unknown(node.kind)

    def application(self, node: Node, scope: Scope, is_claim: bool) -> str:
        """A function on its arguments."""
        first, *others = node.parts
        if is_sort(node):
            return "Prop"
        if first.word == "codes":
            return self.term(others[0], scope, is_claim)
        if first.word == "Unit":
            return "True" if is_claim else "unit"
        # the types in an application are of data
        is_type = first.word in ("List", "Option", "Result") or first.word in self.records
        element = self.element_of(others, scope)
        parts = [self.binding(each, scope, is_claim, element) if each.kind == "function"
                 else self.term(each, scope, is_claim and not is_type) for each in node.parts]
        return f"({' '.join(parts)})"

    def element_of(self, terms: Sequence[Node], scope: Scope) -> Node | None:
        """What a list among some terms has: a function beside it takes that."""
        for each in terms:
            kind = self.type_of(each, scope)
            while head(kind) in self.aliases:
                kind = self.aliases[head(kind)]
            if head(kind) in ("List", "Result", "Option") and kind is not None:
                return kind.parts[1]
        return None

    def binding(self, node: Node, scope: Scope, is_claim: bool,
                element: Node | None = None) -> str:
        """Names with types, and what holds of them, or a function."""
        below, groups = dict(scope), []
        types: list[Node | None] = [*node.parts[:-1]] or [None] * len(node.names)
        for names, kind in zip(node.names, types):
            text = "" if kind is None else f" : {self.term(kind, scope, is_holding(kind))}"
            below.update({each: (plain(each), kind or element) for each in names})
            groups.append(f"({' '.join(map(plain, names))}{text})" if text else
                          " ".join(map(plain, names)))
        body = self.term(node.parts[-1], below, is_claim or node.kind != "function")
        if node.kind == "function":
            return f"(fun {' '.join(groups)} => {body})"
        return f"({node.kind} {' '.join(groups)}, {body})"

    def made_record(self, node: Node, scope: Scope, is_claim: bool) -> str:
        """A new record, or one with some fields changed."""
        names = node.names[0]
        base = node.parts[:-len(names)]
        values = dict(zip(names, node.parts[-len(names):]))
        if base:
            owner = self.record_of(self.type_of(base[0], scope))
        else:
            owners = [each for each, record in self.records.items()
                      if list(record.fields) == names]
            owner = self.wanted if self.wanted in owners else "".join(owners[:1])
        if not owner:
            raise Unknown(f"the record of {names}")
        parts = []
        for each in self.records[owner].fields:
            value = (self.term(values[each], scope, is_claim) if each in values
                     else f"{owner}_{each} {self.term(base[0], scope, is_claim)}")
            parts.append(f"{owner}_{each} := {value}")
        return "{| " + "; ".join(parts) + " |}"

    # ---- items

    def add_record(self, title: str, binders: Sequence[tuple[list[str], Node, bool]],
                   fields: Sequence[tuple[str, Node]], scope: Scope) -> None:
        """A record with its fields, whose names begin with its own."""
        is_claim = bool(CLAIM.match(title))
        below, heads = dict(scope), []
        for names, kind, is_implicit in binders:
            text = "Type" if is_sort(kind) else self.term(kind, below, False)
            shape = "{{{} : {}}}" if is_implicit else "({} : {})"
            heads.append(shape.format(" ".join(map(plain, names)), text))
            below.update({each: (plain(each), kind) for each in names})
        own = [each for names, _, _ in binders for each in names]
        self.records[title] = Record(own, dict(fields), is_claim)
        parts = []
        for word, kind in fields:
            parts.append(f"  {title}_{word} : {self.term(kind, below, is_holding(kind))}")
            below[word] = (f"{title}_{word}", kind)
        sort = "Prop" if is_claim else "Type"
        self.lines.append(f"Record {title} {' '.join(heads)} : {sort} := {{\n" + ";\n".join(parts)
                          + "\n}.")
        if own and not is_claim:
            some = " ".join(f"{{{each}}}" for each in own)
            self.lines += [f"Arguments {title}_{word} {some} _." for word, _ in fields]
            self.lines.append(f"Arguments Build_{title} {some}{' _' * len(fields)}.")

    def add_enum(self, title: str, parameters: Sequence[str],
                 variants: Sequence[tuple[str, list[tuple[str, str]]]]) -> None:
        """An enum of Rust."""
        heads = "".join(f" ({each} : Type)" for each in parameters)
        parts = [f"  | {word}" + "".join(f" ({plain(each)} : {kind})" for each, kind in values)
                 for word, values in variants]
        self.lines.append(f"Inductive {title}{heads} : Type :=\n" + "\n".join(parts) + ".")
        if parameters:
            some = " ".join(f"{{{each}}}" for each in parameters)
            self.lines += [f"Arguments {word} {some}{' _' * len(values)}."
                           for word, values in variants]

    def add_function(self, title: str, kind: Node, clauses: Sequence[tuple[list[Node], Node]],
                     scope: Scope) -> None:
        """A definition: its type, and its clauses of patterns and bodies."""
        implicit, taken, result = arguments(kind)
        self.results[title] = (len(taken), result)
        count = len(clauses[0][0])
        while count < len(taken):
            taken, result = taken[:-1], Node("operator", [taken[-1], result], "→")
        is_claim, self.wanted = is_sort(result), self.record_of(result)
        if is_claim and not count and head(clauses[0][1]) in self.records and not \
                self.records[head(clauses[0][1])].is_claim:
            self.aliases[title] = clauses[0][1]
            self.lines.append(f"Definition {title} : Type :="
                              f" {self.term(clauses[0][1], scope, False)}.")
            return
        matched = [at for at in range(count) if not self.is_one_name(clauses, at)]
        names = [plain(clauses[0][0][at].word) if at not in matched else f"argument{at}"
                 for at in range(count)]
        heads = "".join(f" {{{' '.join(each)} : Type}}" for each, _ in implicit)
        heads += "".join(f" ({own} : {self.term(each, scope, False)})"
                         for own, each in zip(names, taken))
        bodies = []
        for patterns, body in clauses:
            below = dict(scope)
            for pattern, each in zip(patterns, taken):
                self.bind(pattern, each, below)
            bodies.append(self.term(body, below, is_claim))
        text = bodies[0]
        if matched:
            rows = [" | " + ", ".join(self.pattern(patterns[at]) for at in matched)
                    + f" => {body}" for (patterns, _), body in zip(clauses, bodies)]
            heads_of_match = ", ".join(names[at] for at in matched)
            text = f"match {heads_of_match} with\n" + "\n".join(rows) + "\nend"
        is_recursive = any(mentions(body, title) for _, body in clauses)
        word = "Fixpoint" if is_recursive else "Definition"
        kind_of_result = self.term(result, scope, False)
        self.lines.append(f"{word} {title}{heads} : {kind_of_result} :=\n  {text}.")

    def is_one_name(self, clauses: Sequence[tuple[list[Node], Node]], at: int) -> bool:
        """Whether all clauses have one name at this place."""
        words = {(each[at].kind, each[at].word) for each, _ in clauses}
        kind, word = next(iter(words))
        return len(words) == 1 and kind == "name" and word[0].islower() and word not in WORDS and \
            word not in ("true", "false")

    def bind(self, pattern: Node, kind: Node | None, scope: Scope) -> None:
        """Brings the names of a pattern into scope."""
        if pattern.kind == "name":
            if pattern.word[0].islower() and pattern.word not in ("zero", "true", "false"):
                scope[pattern.word] = (plain(pattern.word), kind)
        elif pattern.kind == "operator" and pattern.word == "∷":
            of_list = kind.parts[1] if kind is not None and kind.kind == "apply" else None
            self.bind(pattern.parts[0], of_list, scope)
            self.bind(pattern.parts[1], kind, scope)
        else:
            is_some = kind is not None and head(kind) == "Option" and len(pattern.parts) == 2
            for each in pattern.parts[1:]:
                self.bind(each, kind.parts[1] if is_some and kind else None, scope)

    def pattern(self, node: Node) -> str:
        """A pattern as Coq writes it."""
        if node.kind == "name":
            return plain(WORDS.get(node.word, node.word))
        if node.kind == "operator" and node.word == "∷":
            return f"({self.pattern(node.parts[0])} :: {self.pattern(node.parts[1])})"
        if node.kind == "apply":
            return f"({' '.join(map(self.pattern, node.parts))})"
        if node.kind == "field" and node.parts[0].word == ALIAS:
            return node.word
        raise Unknown(f"a pattern: {node}")


def variables(pattern: Node) -> list[str]:
    """The names that a pattern binds."""
    if pattern.kind == "name":
        is_constructor = pattern.word in ("zero", "true", "false", "suc")
        is_bound = pattern.word[0].islower() and not is_constructor
        return [pattern.word] if is_bound else []
    if pattern.kind == "field":
        return []
    return [each for part in pattern.parts for each in variables(part)]


def plain(word: str) -> str:
    """A name that Coq takes."""
    return f"{word}_" if word in RESERVED else word


def is_holding(kind: Node) -> bool:
    """Whether a type is a claim, and not one of data."""
    if kind.kind == "operator" and kind.word in ("→", "×"):
        return is_holding(kind.parts[-1])
    if kind.kind in ("forall", "exists"):
        return True
    if kind.kind == "operator":
        return kind.word in ("≡", "≢", "<", "≤", "⊎", "↔")
    return kind.kind == "not" or bool(CLAIMED.match(head(kind)))


def mentions(node: Node, word: str) -> bool:
    """Whether a name is in a term."""
    return node.word == word and node.kind == "name" or any(mentions(each, word)
                                                            for each in node.parts)


# ---- files

def without_comments(text: str) -> list[str]:
    """The lines of a file without comments."""
    lines = [re.sub(r"(^|\s)--(\s.*)?$", "", line).rstrip() for line in text.split("\n")]
    return [line for line in lines if line.strip()]


def indent(line: str) -> int:
    return len(line) - len(line.lstrip())


def items(lines: Sequence[str]) -> list[list[str]]:
    """Lines by item: each begins at the indent of the first line."""
    found: list[list[str]] = []
    for line in lines:
        if indent(line) == indent(lines[0]) and not line.strip().startswith("}"):
            found.append([line])
        else:
            found[-1].append(line)
    return found


def one_line(item: Sequence[str]) -> str:
    """An item as one line, with a mark before each step of a `do` but the first."""
    step, parts = -1, []
    for before, line in zip(["", *item], item):
        if before.endswith(" do"):
            step = indent(line)
        elif indent(line) == step and not line.strip().startswith("}"):
            parts.append("⏎")
        parts.append(line.strip())
    return " ".join(parts)


def binders_of(text: str) -> list[tuple[list[str], Node, bool]]:
    """Groups of names with their types, and whether they are implicit."""
    parser, found = Parser(text), []
    while parser.tokens.look()[0] != "end":
        open_, names = parser.tokens.take(), []
        while parser.tokens.look()[0] == "name":
            names.append(parser.tokens.take())
        parser.tokens.take(":")
        found.append((names, parser.term(), open_ == "{"))
        parser.tokens.take("}" if open_ == "{" else ")")
    return found


def patterns_of(text: str) -> list[Node]:
    """The patterns of a clause, after its name."""
    parser, found = Parser(text), []
    while parser.tokens.look()[0] != "end":
        found.append(parser.atom())
    return found


class Reader:
    """Reads items, and hands them to the writer."""

    def __init__(self, writer: Writer) -> None:
        self.writer, self.sections = writer, 0
        self.crate = self.stem = ""
        self.named: dict[str, str] = {}
        self.modules: dict[str, str] = {}

    def open(self, crate: str, stem: str, text: str) -> None:
        """A new file: what its names mean."""
        self.crate, self.stem, self.named, self.modules = crate, stem, {}, {}
        self.writer.step = STEP_NAME
        for path, names in re.findall(r"^use Rattle\.(\S+?)\.\{(.*)\}$", text, re.M):
            for each in names.split(", "):
                word, _, own = each.partition(" as ")
                self.import_name(path, word, own or word)
        for path, own in re.findall(r"^use Rattle\.(\S+) as (\w+)$", text, re.M):
            self.modules[own] = path.replace(".specs.", ".", 1)

    def import_name(self, path: str, word: str, own: str) -> None:
        """A name that a file takes from another."""
        full = f"{path.replace('.specs.', '.', 1)}.{word}"
        is_known = full in self.writer.full or word in LEFT_OUT or ".TheConstants." in full
        if self.writer.part in TAGGED and full.startswith("bw_") and not is_known:
            raise Unknown(f"a name that no file defines: {full}")
        found = self.writer.full.get(full, word)
        if self.writer.part not in TAGGED:
            found = found.rsplit(".")[-1]
        if found != own:
            self.named[own] = found
        if word == STEP:
            self.writer.step = found

    def own_name(self, title: str) -> str:
        """The Coq name of what the file at hand defines."""
        short = self.crate.removeprefix("bw_")
        found = self.writer.coq_name(f"{self.crate}.{self.stem}.{title}",
                                     STEP_NAME if title == STEP else title, f"{short}_{self.stem}")
        if found != title:
            self.named[title] = found
        if title == STEP:
            self.writer.step = found
        return found

    def in_module(self, module: str, word: str) -> str:
        """The Coq name of what a module of definitions has under a name."""
        full = self.writer.full
        if f"{module}.{word}" in full:
            return full[f"{module}.{word}"]
        # a variant of a type of definitions is in the file of the type
        return next((full[each] for each in full
                     if each.startswith(f"{module}.") and each.endswith(f".{word}")), word)

    def resolve(self, node: Node, bound: frozenset[str] = frozenset()) -> Node:
        """A term with the Coq names of what its free names mean."""
        if node.kind == "name" and node.word not in bound and node.word in self.named:
            return name(self.named[node.word])
        if node.kind == "field" and node.parts[0].kind == "name":
            module = node.parts[0].word
            if module in self.modules and module not in bound and module != ALIAS:
                return name(self.in_module(self.modules[module], node.word))
        below = bound
        if node.kind in ("function", "forall", "exists", "binder"):
            below = bound | {each for names in node.names for each in names}
        if node.kind == "let":
            below = bound | {node.word}
            parts = [self.resolve(each, bound) for each in node.parts[:2]]
            return Node("let", [*parts, self.resolve(node.parts[2], below)], node.word, node.names)
        return Node(node.kind, [self.resolve(each, below) for each in node.parts], node.word,
                    node.names)

    def block(self, lines: Sequence[str], scope: Scope) -> None:
        """The items of a file or of a module."""
        signature: tuple[str, Node] | None = None
        clauses: list[tuple[list[Node], Node]] = []
        all_items: list[list[str]] = [*items(lines), []]
        for item in all_items:
            text = one_line(item)
            title = text.split(" ")[0] if item else ""
            is_step = signature is not None and STEP == signature[0] and " >>= " in text
            if signature and title != signature[0] and not is_step:
                if signature[0] not in LEFT_OUT:
                    own = self.own_name(signature[0])
                    clauses = [self.resolved(signature[0], each) for each in clauses]
                    self.writer.add_function(own, self.resolve(signature[1]), clauses, scope)
                signature, clauses = None, []
            if not item or title in ("use", "infixl"):
                continue
            if signature:
                if signature[0] in LEFT_OUT:
                    continue
                front, body = text.split(" = ", 1) if " = " in text else text.split(" =", 1)
                front = front.replace(" >>=", "") if is_step else front[len(title):]
                clauses.append((patterns_of(front), parsed(body)))
            elif match := re.match(r"pub data (\w+) : Type 0 where(.*)$", text):
                self.data(match[1], item[1:])
            elif title == "module":
                self.module(item, scope)
            elif match := re.match(r"pub record (\w+)\s*(.*?)\s*: Type 0 where", text):
                if match[1] not in LEFT_OUT:
                    self.record(match, item, scope)
            elif match := re.match(r"(?:abbrev|unfoldable) pub (\S+) : (.*)$", text):
                is_left = match[1] in LEFT_OUT
                kind = Node("name") if is_left else parsed(match[2])
                signature = match[1], kind
            else:
                raise Unknown(f"an item: {text[:80]}")

    def resolved(self, title: str, clause: tuple[list[Node], Node]) -> tuple[list[Node], Node]:
        """A clause with the Coq names of what its free names mean."""
        patterns, body = clause
        bound = frozenset(each for pattern in patterns for each in variables(pattern))
        return [self.resolve(each, bound) for each in patterns], self.resolve(body, bound)

    def data(self, title: str, lines: Sequence[str]) -> None:
        """A type of definitions: its variants, each with its values."""
        own, variants = self.own_name(title), []
        for each in items(lines):
            match = re.match(r"(\w+) : (.*)$", one_line(each).strip())
            if match is None:
                raise Unknown(f"a variant: {one_line(each)[:80]}")
            word, kind = match.groups()
            values, front = [], kind.rsplit("→", 1)[0] if "→" in kind else ""
            for names, of, _ in binders_of(front.strip()) if front else ():
                text = self.writer.term(self.resolve(of), {}, False)
                values += [(one, text) for one in names]
            found = self.writer.coq_name(f"{self.crate}.{self.stem}.{title}.{word}", word, own)
            if found != word:
                self.named[word] = found
            variants.append((found, values))
        self.writer.add_enum(own, (), variants)

    def module(self, item: Sequence[str], scope: Scope) -> None:
        """A module, whose parameters all of its items have."""
        match = re.match(r"\s*module _ (.*) where$", item[0])
        if match is None:
            raise Unknown(item[0])
        self.sections += 1
        title, below = f"Part{self.sections}", dict(scope)
        self.writer.lines.append(f"Section {title}.")
        for names, kind, is_implicit in binders_of(match[1]):
            text = "Type" if is_sort(kind) else self.writer.term(kind, below, False)
            shape = "Context {{{} : {}}}." if is_implicit else "Context ({} : {})."
            self.writer.lines.append(shape.format(" ".join(map(plain, names)), text))
            below.update({each: (plain(each), kind) for each in names})
        self.block(item[1:], below)
        self.writer.lines.append(f"End {title}.")

    def record(self, match: re.Match[str], item: Sequence[str], scope: Scope) -> None:
        """A record with its fields."""
        end = next(at for at, line in enumerate(item) if line.endswith(" where"))
        fields: list[tuple[str, Node]] = []
        for each in items(item[end + 1:]):
            text = " ".join(line.strip() for line in each)
            word, kind = re.match(r"pub (\w+) : (.*)$", text).groups()  # type: ignore[union-attr]
            fields.append((word, self.resolve(parsed(kind), frozenset(own for own, _ in fields))))
        title = self.own_name(match[1])
        binders = [(names, self.resolve(kind), is_implicit)
                   for names, kind, is_implicit in binders_of(match[2])]
        self.writer.add_record(title, binders, fields, scope)


def rust_type(text: str) -> Node:
    """A type of Rust as one of definitions."""
    text = text.strip()
    if match := re.fullmatch(r"(Option|Vec)<(.*)>", text):
        return Node("apply", [name({"Option": "Option", "Vec": "List"}[match[1]]),
                              rust_type(match[2])])
    return name({"u32": "ℕ", "u64": "ℕ", "usize": "ℕ", "bool": "Bool"}.get(text, text))


def rust_field(text: str) -> tuple[str, Node]:
    """A field of a struct: its name, and its type, or for a ghost field the claim that it keeps."""
    word, kind = text.removeprefix("pub ").split(": ", 1)
    if word.startswith("ghost "):
        return word.removeprefix("ghost "), parsed(kind.strip("{} "))
    return word, rust_type(kind)


def rust_parts(text: str) -> list[str]:
    """The parts of a list with commas, at no depth."""
    found, depth = [""], 0
    for each in re.sub(r" < ", " \ufe64 ", text):
        depth += (each in "<({") - (each in ">)}")
        if each == "," and not depth:
            found.append("")
        else:
            found[-1] += each
    return [each.strip().replace("\ufe64", "<") for each in found if each.strip()]


def add_declared(writer: Writer, text: str, wanted: Sequence[str], path: str,
                 constants: Sequence[str]) -> None:
    """The types and constants of a file of Rust that the definitions name."""
    text = re.sub(r"^\s*//.*$|^\s*#\[.*\]$", "", text, flags=re.M)
    known = {each: writer.results[each] for each in constants if each in writer.results}
    for match in re.finditer(r"pub const (\w+): \w+ = ([^;]+);", text):
        if match[1] in constants and match[1] not in known:
            value = re.sub(r"(?<=\d)_(?=\d)| as \w+", "", match[2])
            writer.results[match[1]] = (0, name("ℕ"))
            writer.lines.append(f"Definition {match[1]} : nat := "
                                f"{writer.term(parsed(value), {}, False)}.")
    for match in DECLARATION.finditer(text):
        kind, title, parameters, body = match.groups()
        if title not in wanted:
            continue
        front = f"{path}.{title}"
        title = writer.coq_name(f"{front}.{title}", title, path.split(".")[0])
        own = [each.strip() for each in (parameters or "").split(",") if each.strip()]
        if kind == "struct":
            sort = Node("apply", [name("Type"), Node("number", word="0")])
            writer.add_record(title, [([each], sort, False) for each in own],
                              [rust_field(each) for each in rust_parts(body)], {})
        else:
            found = [variant(writer, each) for each in rust_parts(body)]
            writer.add_enum(title, own, [
                (writer.coq_name(f"{front}.TheVariants.{word}", word, title), values)
                for word, values in found])


def variant(writer: Writer, text: str) -> tuple[str, list[tuple[str, str]]]:
    """A variant of an enum: its name, and its values with their types."""
    match = re.fullmatch(r"(\w+)\s*(?:\{(.*)\}|\((.*)\))?", text, re.S)
    if match is None:
        raise Unknown(f"a variant: {text}")
    word, named, plain_ = match.groups()
    parts = [each.split(": ", 1) for each in rust_parts(named or "")]
    parts += [[f"value{at}", each] for at, each in enumerate(rust_parts(plain_ or ""))]
    return word, [(each, writer.term(rust_type(kind), {}, False)) for each, kind in parts]


def translated(top: Path) -> dict[str, str]:
    """All definitions as files of Coq."""
    writer, found = Writer(), {}
    reader, words = Reader(writer), "Words"
    for part, entries in PARTS.items():
        writer.lines, writer.part = [], part
        for file, *wanted in entries:
            text = (top / "crates" / file).read_text(encoding="utf-8")
            writer.lines.append(f"\n(* ---- crates/{file} ---- *)")
            if file.endswith(".rt"):
                crate, stem = file.split("/")[0], file.split("/")[-1][:-3]
                add_declared(writer, text, wanted, f"{crate}.declared.{stem}",
                             (*CONSTANTS, *MORE_CONSTANTS.get(part, ())))
            else:
                crate, stem = file.split("/")[0], file.split("/")[-1][:-5]
                reader.open(crate, stem, text)
                reader.block(without_comments(text), {})
        more = words.replace("Words", "Words ScriptWords Numbers", 1) if part in TAGGED else words
        found[part] = HEAD.format(more) + "\n".join(writer.lines) + "\n"
        words += f" {part}"
    found["Numbers"] = numbers()
    return found


def chosen(lines: Sequence[str], wanted: set[str]) -> list[str]:
    """The lines of the items with wanted names, and of the modules in which they stand."""
    found: list[str] = []
    for item in items(lines) if lines else []:
        words = item[0].split()
        if words[0] == "module":
            inside = chosen(item[1:], wanted)
            found += [item[0], *inside] if inside else []
        elif words[0] in wanted or words[0] in ("abbrev", "unfoldable") and words[2] in wanted:
            found += item
    return found


def kit_words(kit: Path) -> str:
    """The definitions of the kit's words as a file of Coq."""
    writer = Writer()
    reader, writer.part = Reader(writer), "Kit"
    for file, words in KIT:
        text = (kit / file).read_text(encoding="utf-8")
        # implicit levels and types are Coq's to find
        text = re.sub(r"\{ℓ\} (?=\{A)|(?<=\w) \{ℓ\}(?= :)", "", text).replace("Type ℓ", "Type 0")
        text = re.sub(r"^(\s*)(\w+) \{\w+\} (?=.* = )", r"\1\2 ", text, flags=re.M)
        writer.lines.append(f"\n(* ---- {file} ---- *)")
        reader.open("kit", Path(file).stem, "")
        reader.named.update(KIT_ALIASES)
        lines = chosen(without_comments(text), set(words.split()))
        reader.block(lines, {})
        missing = [each for each in words.split()
                   if f"kit.{Path(file).stem}.{each}" not in writer.full]
        if missing:
            raise Unknown(f"{file} has no {missing}")
    return KIT_HEAD + "\n".join(writer.lines) + "\n"


def numbers() -> str:
    """Numbers of bytes from 10 on as constants, each by the one before it.

    Extraction writes 101 as 101 successors, and OCaml reads all of them at each start.
    """
    lines = ["(* Made by translate.py: bytes from 10 on, each by the one before it. *)",
             "Definition n10 : nat := 10.",
             *(f"Definition n{n} : nat := S n{n - 1}." for n in range(11, 256))]
    return "\n".join(lines) + "\n"


HEAD = """(* Made by translate.py of the definitions in crates/, of which the Rattle kit proves. *)
From Coq Require Import List Arith Bool.
Import ListNotations.
From Independent Require Import {}.
Set Warnings "-cannot-define-projection,-notation-overridden".
"""


KIT_HEAD = """(* Made by translate.py of the kit's own texts: what its words are. WordLaws.v has laws. *)
From Coq Require Import List Arith Bool.
From Independent Require Import Words ScriptWords.
Import ListNotations.
Definition cond {A : Type} (b : bool) (x y : A) : A := if b then x else y.
"""


def main() -> int:
    if sys.argv[1] == "--kit":
        print(kit_words(Path(sys.argv[2])), end="")
        return 0
    top, folder = map(Path, sys.argv[1:])
    for part, text in translated(top).items():
        (folder / f"{part}.v").write_text(text, encoding="utf-8")
    return 0


if __name__ == "__main__":
    sys.exit(main())
