"""The calls of the C library, each declared once.

`python -m arbiter_pages` makes of this table what declares, exports and describes a call: header,
exported names, types for ctypes, the program of the pipe, Rust's declarations and wrappers, the
tables of EMBEDDING.md, and libarbiter(3). Each call itself stands in crates/bw_exports, whose
names and types a test compares with this table.

An amount, a limit and a demand are slices of one period, unless a text names another unit.
"""
from __future__ import annotations

from collections.abc import Iterator
from typing import NamedTuple

# Types of C, by the names that Rust has for them. `char` is u8 in Rust.
U8, U32, U64, CHAR = "u8", "u32", "u64", "char"
# What a call does with a word: reads it, writes it, or reads it and writes it.
READ, WRITTEN, CHANGED = "read", "written", "changed"
NO_LIMIT = "ARBITER_NO_LIMIT"
# The files of bw_exports that have the calls of one kind, or another name than their call.
FILES = {
    "goal_calls": ("goals", "tune", "limit_others"),
    "held_calls": ("hold", "serve"),
    "host_calls": ("demand", "slices", "period_limit", "planned_host", "written"),
    "owned_calls": ("owned_number", "owned_weight", "owned_limit"),
    "period_calls": ("book", "periods"),
    "plan_calls": ("plan", "certify", "figures", "reasons", "limiting"),
    "question_calls": ("guarantee", "least_weight", "least_limit", "least_processors"),
    "reading_calls": ("reading", "leaf_reading"),
    "round_calls": ("round", "swings", "judged", "lost"),
    "shares_call": ("weight_of_shares",),
}
FILE_OF = {call: file for file, calls in FILES.items() for call in calls}


class CallWord(NamedTuple):
    """A parameter of a call: a number, or a column with its length. A number that is written is a
    pointer in C."""

    name: str
    type: str
    # What it is, with unit and range.
    about: str
    way: str = READ
    is_column: bool = False
    # The number that stands for none, and when it does.
    none: str = ""
    when: str = ""


class WordGroup(NamedTuple):
    """A record: words that stand together in calls, which are a type in Rust."""

    name: str
    about: str
    fields: tuple[CallWord, ...]


class Part(NamedTuple):
    """A record as one call takes it, with the names that its words have there."""

    record: WordGroup
    name: str
    words: tuple[CallWord, ...]


class Refusal(NamedTuple):
    """Numbers that a call answers, and when."""

    numbers: str
    when: str


class Call(NamedTuple):
    """A call. Its name has no `arbiter_` here."""

    name: str
    # What it writes or answers, as a row of a table has it.
    summary: str
    about: str
    parts: tuple[CallWord | Part, ...]
    # In the order in which they are looked for.
    refusals: tuple[Refusal, ...] = ()
    answer: str = U32
    # Whether it asks for memory: then 71 can stand in the place of a later refusal.
    allocates: bool = True
    # Whether Rust's public function is made too. Any other is written by hand in lib.rs.
    is_plain: bool = False

    @property
    def words(self) -> list[CallWord]:
        """All of its words, in their order."""
        return [word for each in self.parts
                for word in (each.words if isinstance(each, Part) else (each,))]

    @property
    def module(self) -> str:
        """The file of bw_exports, without its ending."""
        return FILE_OF.get(self.name, f"{self.name}_call")

    @property
    def own(self) -> list[CallWord]:
        """The words beside those of a host and of the rows."""
        return [word for each in self.parts if each not in (HOST, ROWS)
                for word in (each.words if isinstance(each, Part) else (each,))]


def column(name: str, kind: str, about: str, none: str = "", when: str = "") -> CallWord:
    """A column that is read."""
    return CallWord(name, kind, about, READ, True, none, when)


def room(name: str, kind: str, about: str, none: str = "", when: str = "") -> CallWord:
    """A column that is written."""
    return CallWord(name, kind, about, WRITTEN, True, none, when)


def result(name: str, kind: str, about: str, none: str = "", when: str = "") -> CallWord:
    """A number that is written."""
    return CallWord(name, kind, about, WRITTEN, False, none, when)


def part(record: WordGroup, name: str, way: str = READ, names: dict[str, str] | None = None,
         abouts: dict[str, str] | None = None) -> Part:
    """A record in a call, read or written, with other names and texts of some of its fields."""
    return Part(record, name, tuple(
        each._replace(name=(names or {}).get(each.name, each.name), way=way,
                      about=(abouts or {}).get(each.name, each.about)) for each in record.fields))


HOST = part(WordGroup("Host", "A host.", (
    CallWord("processors", U64, "processors, 1 to 64"),
    CallWord("period_us", U64, "a period, 1000 to 1000000 microseconds"),
    CallWord("slice_us",
         U64, "a slice, at least 1000 microseconds, which divides the period"))), "host")
ROWS = part(WordGroup("Columns", "Rows of a tree, by column.", (
    column("parents", U32, "the row of the parent", "ARBITER_NO_PARENT", "the group is the root"),
    column("weights", U64, "the weight, 1 to 10000"),
    column("limits", U64, "the limit in slices", NO_LIMIT, "it has none"),
    column("demands", U64, "the demand, 0 to 1000000 slices, and 0 of a group with children"))),
    "columns")
# Rows whose last column is what was used, in the place of demands.
USED_ROWS = part(ROWS.record, "columns", READ, {"demands": "used"},
                 {"demands": "slices that each leaf used, rounded up, in the place of a demand"})
CERTIFICATE = WordGroup("Claim", "A certificate of amounts, by column.", (
    column("flags", U8, "1 where the group's own limit is below what it wants, else 0"),
    column("nums", U64, "the level is `nums` / `dens` at `places`; 0 for none"),
    column("dens", U64, "0 where the group shares nothing out"),
    column("places", U32, "the place of a child, 0 for the first")))
FIGURES = WordGroup("FigureColumns", "Figures, by column.", (
    room("wants", U64, "slices that it would take without its own limit: its demand, or what its"
         " children are given at most"),
    room("mosts",
         U64, "slices that it is given at most: its want, cut at its own limit, of row 0 at"
         " the capacity"),
    room("tights", U8, "1 where its own limit, of row 0 the capacity, is below its want, else 0"),
    room("actives", U32, "the number of its children whose `mosts` is above 0"),
    room("active_weights", U64, "the sum of the weights of these children"),
    room("withheld", U64, "slices that its own limit withholds of its want, 0 of row 0: what"
         " nr_throttled and throttled_usec of a period count")))
COUNTERS = WordGroup("StatColumns", "Counters of cpu.stat, by column.", (
    column("usage_usec", U64, "grows by the microseconds of the slices that it used"),
    column("nr_periods", U64, "grows by 1"),
    column("nr_throttled", U64, "grows by 1 where it wanted more than its limit"),
    column("throttled_usec", U64, "grows by the microseconds that it wanted more"),
    column("nr_bursts", U64, "grows by 1 where it used more than its quota"),
    column("burst_usec", U64, "grows by the microseconds that it used more")))
SETTINGS = WordGroup("SettingColumns", "Settings over several periods, by column.", (
    *ROWS.words[:2],
    column("quotas", U64, "the quota, 1000 to 10^15 microseconds of each own period", NO_LIMIT,
           "it has none, as row 0"),
    column("periods", U64, "the own period, 1000 to 1000000 microseconds"),
    column("bursts", U64, "the burst, 0 to 10^15 microseconds")))
SUMS = WordGroup("SumColumns", "Sums over the periods of samples, by column.", (
    room("amounts", U64, "slices that the group got"),
    room("wants", U64, "slices that it wanted"),
    room("limits", U64, "slices of its limits", NO_LIMIT, "it has none"),
    room("nr_throttled", U64, "periods in which it wanted more than its limit"),
    room("throttled_usec", U64, "microseconds that it wanted more"),
    room("nr_bursts", U64, "periods in which it used more than its quota"),
    room("burst_usec", U64, "microseconds that it used more"),
    room("nr_short", U64, "periods in which it was throttled and got less than its limit"),
    room("nr_starved", U64, "periods in which it wanted something and got nothing")))
TOLD = WordGroup("Told", "The groups after a script and its refused lines, by column.", (
    *(word._replace(way=WRITTEN) for word in ROWS.words[:2]),
    room("limits", U64, "the limit of the next period in slices", NO_LIMIT, "it has none"),
    room("demands", U64, "the demand in slices"),
    room("quotas", U64, "the quota in microseconds of each own period", NO_LIMIT, "it has none"),
    room("periods", U64, "the own period in microseconds"),
    room("bursts", U64, "the burst in microseconds of each own period"),
    room("carries", U64, "slices of its limit that the last period left"),
    room("names",
         U8, "the last name of each group, none for the root, each with a newline behind it"),
    room("refused_lines", U64, "the number of each refused line, 1 for the first"),
    room("refused_faults",
         U32, "the number that refused it: 7 to 9, 11 to 17, 20 to 28, 30, 31, 33,"
         " or 80 to 82"),
    result("count", U32, "the number of groups"),
    result("names_count", U64, "the bytes of `names`"),
    result("refused_count", U64, "the number of refused lines")))

AMOUNTS = room("amounts", U64, "slices that each row gets")
GROUP = CallWord("group", U32, "the row of the group")
AMOUNT = CallWord("amount", U64, "the slices that it is to get at least")
HUNGRY = column("hungry", U8, "not 0 where the leaf would have used more; not read of a group with"
                " children")
GOALS = column("goals", U64, "slices that each row is to get at least, 0 for no goal")
MAY = column("may", U8, "not 0 where the weight may change, within 1 to 10000")
GUARANTEED = CallWord("guaranteed", U32, "not 0 where goals are met whatever the others ask for, as"
                  " arbiter_guarantee has it; 0 where the plan meets them")
FORMULA = CallWord("formula", U32, "ARBITER_SHARES_LINEAR to ARBITER_UNIT_WEIGHT")
PASSED = CallWord("passed_ns", U64, "nanoseconds of the round, above 0")

LENGTHS = Refusal("50", "columns differ in length")
OF_HOST = Refusal("1 to 3", "the host is refused")
OF_ROWS = Refusal("4 to 10", "the rows are refused")
OF_PLAN = (LENGTHS, OF_HOST, OF_ROWS)
NO_ROW = Refusal("20", "the group is no row")
NO_TIME = Refusal("15", "no time passed")
OWN_PERIOD = Refusal("15", "the own period is out of range")
NO_FORMULA = Refusal("11", "no formula has the number")
OF_CHECK = Refusal("51 to 58", "the amounts are not the plan by this certificate")

PLANS = (
    Call("plan", "the plan of the rows",
         "The plan of the rows.", (HOST, ROWS, AMOUNTS), OF_PLAN, is_plain=True),
    Call("certify", "the plan, and its certificate",
         "The plan, and a certificate of it.",
         (HOST, ROWS, AMOUNTS, part(CERTIFICATE, "claim", WRITTEN)), OF_PLAN),
    Call("check", "whether a certificate shows that amounts are the plan",
         "Answers 0 where the flags and levels show that the amounts are the plan, whoever made"
         " them. A flag is any number but 0, and a level with `nums` or `dens` 0 is none.",
         (HOST, ROWS, column("amounts", U64, "slices that each row is said to get"),
          part(CERTIFICATE, "claim"),
          result("row",
                 U32, "the row of the first group with the fault, and 0 for 50 of amounts, flags"
                 " or levels; as it was for 0 and for a refusal of the host or the rows")),
         (Refusal("50", "columns of the rows differ in length, or `nums`, `dens` and `places`"),
          OF_HOST, OF_ROWS, Refusal("50", "amounts, flags or levels are not one for each row"),
          OF_CHECK)),
    Call("check_text", "whether a certified text holds together",
         "The same of a certified text (docs/EMBEDDING.md, 'The certified text').",
         (column("text", U8, "the text"),
          result("row",
                 U32, "the row of the first group with the fault for 51 to 58, else as it was")),
         (Refusal("1 to 10, 40 to 43", "it is no certified text"), OF_CHECK)),
)
QUESTIONS = (
    Call("limiting", "the groups that hold the total down",
         "The groups whose limits hold the total down. Their limits and `rest` add up to the"
         " greatest total.",
         (HOST, ROWS, room("groups", U32, "their rows, at its beginning"),
          result("count", U32, "how many they are"),
          result("rest", U64, "slices that are wanted outside them")), OF_PLAN),
    Call("figures", "what each group wants, can be given and splits",
         "What each group wants, is given at most and splits, one of each for each row.",
         (HOST, ROWS, part(FIGURES, "figures", WRITTEN)), OF_PLAN),
    Call("reasons", "why each group gets what it gets",
         "Why each group gets what it gets. Its reason is the first of ARBITER_NOTHING_ASKED to"
         " ARBITER_HOST_FULL that holds.",
         (HOST, ROWS, room("reasons", U8, "the reason of each row"),
          room("blamed",
               U32, "the row above with the limit for ARBITER_LIMIT_ABOVE, else the group's"
               " own")), OF_PLAN),
    Call("guarantee", "what a group gets whatever the others ask for",
         "The slices that a group gets whatever the groups ask for that are not under it. They give"
         " it no less, and for some demands of theirs no more.",
         (HOST, ROWS, GROUP, result("amount",
                                    U64, "the slices")), (*OF_PLAN, NO_ROW), is_plain=True),
    Call("least_weight", "the least weight that gives a group so many slices",
         "The least weight with which the plan gives a group at least `amount` slices. All else is"
         " as the rows say. At most 14 plans.",
         (HOST, ROWS, GROUP, AMOUNT, result("weight", U64, "1 to 10000", "0", "no weight does")),
         (*OF_PLAN, NO_ROW), is_plain=True),
    Call("least_limit", "the least limit that does",
         "The least limit with which the plan gives a group at least `amount` slices. All else is"
         " as the rows say. One plan.",
         (HOST, ROWS, GROUP, AMOUNT, result("limit", U64, "the limit in slices", NO_LIMIT,
                                            "no limit does, nor the group without one")),
         (*OF_PLAN, NO_ROW, Refusal("10", "it is row 0, whose only limit is the capacity")),
         is_plain=True),
    Call("least_processors", "the least number of processors that does",
         "The least number of processors, of a host of this period and slice, with which the plan"
         " gives a group at least `amount` slices. `processors` itself changes no answer but 1. At"
         " most 7 plans.",
         (HOST, ROWS, GROUP, AMOUNT, result("least", U64, "1 to 64", "0", "no number does")),
         (*OF_PLAN, NO_ROW), is_plain=True),
    Call("settle", "the least numbers that owners set that do",
         "The least numbers of their ranges that owners can set with which groups get at least so"
         " many slices, each the least beside the others: requests, shares or weights. The weights"
         " of some rows follow them, each by its formula. A row has the numbers of the"
         " goals whose `owners` is that row, or lies below it and whose `tops` is it or above it. A"
         " row's own number is these and that of `bases`, and no less than that of `floors`. So"
         " requests of containers make the weights of the containers, of their pods and of the"
         " pods' classes. All else is as the rows say. A greater number gives its group no less."
         " Numbers begin as `firsts`. Each becomes the least that meets its goal, the others as"
         " they are then, goal after goal, until none changes, at most 50 times. Each time makes"
         " two plans for a number that stays, and one where that is the first of its range.",
         (HOST, ROWS,
          column("formulas", U32, "the formula of arbiter_owned_weight by which the row's weight"
                                  " follows; 0 or any other number where it stays, as that of row"
                                  " 0 does"),
          column("floors", U64, "the least number of the row"),
          column("bases", U64, "what the row's number has beside the owners'"),
          column("groups", U32, "the row of each goal's group"),
          column("amounts", U64, "the slices that it is to get at least"),
          column("owners", U32, "the row whose number is set for the goal"),
          column("tops", U32, "the highest row that has the number too; the owner's for none"),
          column("firsts", U64, "the least number that may be set"),
          column("lasts", U64, "the greatest number that may be set"), GUARANTEED,
          room("numbers", U64, "the number of each goal's owner"),
          result("stuck",
                 U64, "the place of a goal that no number of its range meets beside the others; the"
                 " number of goals where numbers change 50 times, or logarithms do not tell a"
                 " weight, which is of no number of shares", NO_LIMIT,
                 "all goals are met, and each number is the least beside the others")),
         (*OF_PLAN, Refusal("20", "a goal's group or its owner's row is no row, or neither of them"
                                  " is the other or below it"))),
    Call("tune", "weights that meet goals of any rows",
         "Weights under which each row has its goal. Goals may be of groups with children, of rows"
         " inside one another, and of rows whose weight stays. A weight is the goals' own if a goal"
         " is at its row or below it. Own weights are the least from the root down: of all that"
         " agree with them at each row above a row, and at the siblings of these, theirs of that"
         " row is the least. None is less than in `weights`, unless no such weights meet all goals."
         " Other weights stay where these do. Else they are lowered to one level, the greatest that"
         " will do. So there is one answer. No plan is made: each group is split a few times for"
         " each raise of a weight. At most 16 levels are tried.",
         (HOST, ROWS, GOALS, MAY, GUARANTEED,
          room("tuned", U64, "the weight of each row; `weights` where no weights meet all goals"),
          result("unmet",
                 U64, "a row: no weights of rows that may change meet the goals of it and below"
                 " it together, whatever it is given", "ARBITER_NO_GOAL", "all goals are met")),
         OF_PLAN),
    Call("goals", "goals beside halves of others, and what goals come to",
         "Goals that leave each of the others half of what it has, and what goals come to up the"
         " tree. The others are the leaves below the root with no goal at them or above them. What"
         " one has is the plan's or its guarantee. arbiter_tune takes these goals. One plan, and"
         " one more for guarantees.",
         (HOST, ROWS, GOALS, GUARANTEED,
          room("kept", U64, "the goals; of each of the others half of what it has, rounded up"),
          room("come_to",
               U64, "the goal of each row, or what those of its children come to together, if that"
               " is more")), OF_PLAN),
    Call("limit_others", "limits of others that allow such weights",
         "Limits with which weights meet the goals, where arbiter_tune has none. They are the"
         " greatest: one level for all rows that may be limited, and then each in row order from"
         " that level on. So there is one answer. With them arbiter_tune gives the weights. Row 0"
         " keeps its limit, and so does each row with a goal at, above or below it. arbiter_tune is"
         " asked at most 33 times, and for each lowered row 38.",
         (HOST, ROWS, GOALS, MAY,
          column("lowest",
                 U64, "the lowest limit in slices that each row may get; a number from its"
                 " limit on, or from the capacity on, keeps the limit"), GUARANTEED,
          room("limited", U64, "the limits in slices, those that stay as in `limits`"),
          result("met", U32, "1 where some limits will do, else 0")), OF_PLAN),
    Call("refused_row", "the number that refuses rows, and its row",
         "The number with which each call refuses these rows: 0, 4 to 10, or 50.",
         (ROWS, result("row",
                       U32, "the first row that is too many, or has a bad parent, weight, depth,"
                            " demand or limit; for 8 the parent of the first row whose parent has a"
                            " demand. As it was for 0 and 50, and where there is no row at all")),
         (LENGTHS, OF_ROWS), allocates=False),
)
ROUNDS = (
    Call("hold", "the limits of the next round",
         "The limits of the next round, from what each leaf used in the last one. Each row keeps"
         " its own limit where the plan gives each leaf its demand or its own limit. A group with"
         " children always does. No leaf is limited above its own limit, nor below its guarantee."
         " docs/EMBEDDING.md has the rule. Two plans.",
         (HOST, USED_ROWS, HUNGRY,
          room("held", U64, "the limit of the next round in slices", NO_LIMIT, "it has none"),
          room("demands", U64, "1000000 for a hungry leaf, and what it used for another"),
          room("amounts", U64, "the plan of these demands"),
          part(CERTIFICATE, "claim", WRITTEN)), OF_PLAN),
    Call("serve", "what a scheduler is given in the place of limits",
         "What a scheduler is given for a round in the place of limits. The floor of a row is its"
         " plan where each leaf asks for everything. No amount of a leaf is below its guarantee,"
         " and all together may be above the capacity. docs/PROVED.md has the laws. Two plans.",
         (HOST, USED_ROWS, HUNGRY,
          room("amounts",
               U64, "the plan of the round where that is no less. Else the floor times what the"
                    " leaves that have theirs are planned, over their floors, rounded down, so that"
                    " a leaf that comes has its part beside them"),
          room("most",
               U64, "of a leaf its least part of the limits at or above it, of another row its own"
                    " limit. A part is the whole limit where arbiter_hold limits nobody, or plans"
                    " nothing for the group with the limit. Else it is as much of it as the leaf"
                    " has of that group's plan, rounded down, or the leaf's limit of the round if"
                    " that is more, and never more than the limit",
                    NO_LIMIT, "there is none")), OF_PLAN),
    Call("reading", "what a group used in a round and asks for",
         "What a group used in a round, and what it asks for in the next one. A round is the time"
         " between two readings. A group is hungry where it was stopped: it was throttled, or used"
         " all that its limit allowed. Else not where tasks waited for less than a hundredth of the"
         " round. Else where a task is starved: it waited for a hundredth of the round or more, and"
         " slept for no longer than that and than a twentieth of the round. Where `ran` adds up to"
         " less than half of what was used, or nothing was used, it is hungry where tasks waited"
         " for half of the round. That is a guess. The tasks of a stopped group could have used the"
         " whole round each. Of another, so could one that is starved or new; each other used all"
         " that it wanted. A hungry group asks for everything where that is the whole host, where"
         " nothing was used, or where `ran` adds up to less than 19 twentieths of what was used."
         " arbiter_round makes of readings what arbiter_hold reads.",
         (HOST, PASSED, CallWord("used_us", U64, "microseconds that it used"),
          CallWord("waited_us",
                   U64, "microseconds in which some task of it waited for a processor"),
          CallWord("tasks", U32, "its tasks at the end"),
          CallWord("throttled", U32, "not 0 where it was throttled at a limit of its own"),
          CallWord("allowed_us", U64, "microseconds that this limit allowed it", none=NO_LIMIT,
               when="it has none"),
          column("ran", U64, "nanoseconds that each task ran that was there at both readings"),
          column("waited", U64, "nanoseconds that each of these waited"),
          result("used", U64, "slices of one period of the host that it used, rounded up, at most"
                 " 1000000"),
          result("asked", U64, "what it asks for, never less than `used`: the same where it is not"
                               " hungry, else the most that its tasks could have used, or 1000000"
                               " for everything"),
          result("hungry", U32, "1 where it would have used more, else 0"),
          result("guess", U32, "1 where that is a guess, else 0")),
         (Refusal("50", "`ran` and `waited` differ in length or are longer than `tasks`"), OF_HOST,
          NO_TIME), allocates=False),
    Call("leaf_reading", "the same of a leaf that a scheduler serves",
         "The same of a leaf that a scheduler serves, which counts how long tasks wait, so nothing"
         " is guessed. A leaf that asks for more than it used is hungry.",
         (HOST, PASSED, CallWord("used_ns", U64, "nanoseconds that the leaf used"),
          CallWord("waited_ns", U64, "nanoseconds that its tasks waited for a processor, added up"),
          CallWord("some_ns", U64, "nanoseconds in which one or more of them waited"),
          result("used", U64, "slices of one period of the host that it used, rounded up, at most"
                 " 1000000"),
          result("asked",
                 U64, "what it used where it was idle for more than a twentieth of the round: 20"
                      " (used_ns + some_ns) is below 19 passed_ns. Else what it would have used if"
                      " no task had waited")), (OF_HOST, NO_TIME), allocates=False),
    Call("round", "what a round asks for each leaf, and what was not served",
         "What a round asks for each leaf, from their readings, and what each was not served in the"
         " last one. arbiter_hold reads `demands` and `all`, so a round asks for a leaf what its"
         " reading asks for.",
         (column("planned", U64, "slices that the plan of the last round gave the leaf, 0 for"
                 " none"),
          column("used", U64, "slices that it used"),
          column("asked", U64, "slices that it asks for"),
          column("hungry", U8, "not 0 where it would have used more"),
          room("demands", U64, "what stands in `used` of arbiter_hold: what it used where it asks"
               " for 1000000 slices or more, else what it asks for"),
          room("all", U8, "what stands in `hungry` of arbiter_hold: 1 where it asks for 1000000"
               " slices or more, else 0"),
          room("unserved", U64, "slices of its plan that it did not use; 0 where it would not have"
               " used more")), (LENGTHS,), allocates=False),
    Call("swings", "for how many rounds numbers go back and forth",
         "For how many rounds in a row numbers of groups go back, and turn: limits, or what is"
         " asked for. A number goes back where it is that of two rounds before to a twentieth of"
         " the greater of the two, and a quarter of the greater or more off the last. It turns"
         " where it rose and falls, or fell and rises. One that goes back turns.",
         (column("now", U64, "the number of each group in this round"),
          column("last", U64, "that of the last round"),
          column("before", U64, "that of the round before"),
          CallWord("backs", U64, "the rounds in a row in which it went back, up to the last one;"
                   " then with this one, 0 where it does not now", CHANGED, True),
          CallWord("turns", U64, "those in which it turned; then with this one, 0 where it does"
                   " not now", CHANGED, True)), (LENGTHS,), allocates=False),
    Call("judged", "what limits did in the last rounds",
         "What limits did in the last rounds. The last 60 without limits are judged, and the last"
         " 60 under limits; where fewer were under limits, both numbers are 0. Columns have the"
         " slices of all groups in each round, the last round last.",
         (column("free_used", U64, "slices used in rounds without limits"),
          column("free_planned", U64, "slices planned for these"),
          column("held_used", U64, "slices used in rounds under limits"),
          column("held_planned", U64, "slices planned for these"),
          column("sure", U64, "of those used under limits, slices of groups that were hungry for"
                 " sure"),
          column("guesses", U64, "slices of groups of which that was a guess"),
          result("lost", U64, "the slices that limits served too little, as arbiter_lost has them;"
                 " 0 where they did no harm"),
          result("guessed", U64, "by how many slices the guesses are more than what was sure, 0"
                 " where they are not")),
         (Refusal("50", "columns of rounds without limits differ in length, or of those under"
                  " limits"), Refusal("9", "a sum of the last rounds is above 2^60")),
         allocates=False),
    Call("let_go", "which groups are let go, and why",
         "Which groups are let go, since limits do harm to them, and why. For 1 one group goes: of"
         " those whose demand turned for 60 rounds, or else of those whose limit went back for as"
         " long, the one whose use changed most. For 2 and 3 the groups with most slices go, as few"
         " as come to `lost` or `guesses`. Of equal groups the first goes.",
         (column("backs", U64, "the rounds in a row in which the limit of each group went back, as"
                 " arbiter_swings counts them"),
          column("turns", U64, "those in which what it asked for turned"),
          column("moved", U64, "slices by which its use changed in the last rounds"),
          column("left", U64, "slices of its plans that it did not use in these"),
          column("guessed", U64, "slices that it used in these where its hunger was a guess"),
          CallWord("lost", U64, "that of arbiter_judged"),
          CallWord("guesses", U64, "`guessed` of arbiter_judged"),
          room("go", U8, "1 for a group that goes, else 0"),
          result("reason", U32, "the first that holds. 1: a limit went back for 60 rounds. 2:"
                 " slices were lost. 3: hunger was guessed. 0: none, and nobody goes")),
         (LENGTHS,), allocates=False),
    Call("rest", "what the rest of a host is given beside a plan",
         "What a scheduler gives the rest of a host beside a plan, by weights. At each level up the"
         " tree others have their part by weights beside what the group has, rounded up, and at"
         " most 10^9 slices are reached. So the rest has its part of the whole host at least.",
         (CallWord("slices", U64, "the slices of the plan, up to 10^9"),
          CallWord("planned", U64, "those of them that are planned"),
          column("own", U64, "the weight of the planned groups' top, then of each group above it"
                 " but the root; 0 is an idle group, and counts as 1"),
          column("others", U64, "the weights of the groups beside each. Tasks of the root are one"
                 " more beside the last ones, of weight 100"),
          result("amount", U64, "slices that the plan leaves, or its guarantee if that is more"),
          result("guarantee", U64, "slices that the host has above those of the plan")),
         (LENGTHS, Refusal("9", "the plan is of more than 10^9 slices")), allocates=False),
    Call("written", "the quota and the weight that are written for a limit",
         "What is written for a leaf's limit of a round. A quota lies from the limit to a"
         " sixty-fourth above it, and not above the own limit. What stands there stays, since the"
         " kernel gives a new quota at each writing; else it is a 128th above the limit. A limit"
         " below 1000 microseconds counts as that.",
         (HOST, CallWord("limit", U64, "the limit of arbiter_hold in slices", none=NO_LIMIT,
                     when="there is none"),
          CallWord("own", U64, "its own limit in slices", none=NO_LIMIT, when="it has none"),
          CallWord("stands_us",
               U64, "the quota that stands in it, in microseconds of the host's period; 0"
               " where another one stands"),
          CallWord("tasks", U32, "its tasks; 0 counts as 1"),
          result("quota", U64, "the quota in microseconds of the host's period", NO_LIMIT,
                 "its own limit is to be written, since that allows no more"),
          result("weight",
                 U64, "a cpu.weight, 1 to 10000, that tells Linux how near each task is to a"
                 " whole processor: the nearest to 100 d / (1.01 - d), where d is the part that the"
                 " limit is of a whole processor for each task")),
         (OF_HOST, Refusal("14", "a sixty-fourth above the limit is more than 10^15 microseconds")),
         allocates=False),
)
PERIODS = (
    Call("script", "what a script leads to",
         "Reads a script, as `arbiter run` does on this host, and writes the groups after its last"
         " line and the refused lines. Lines that only ask for an answer change nothing. Each"
         " `period` serves the plan where every leaf uses its slices, without a thread. Groups"
         " stand in order of creation, the root first, one entry in each of the eight columns that"
         " begin with `parents`. The first four, cut to `count` entries, are what arbiter_plan"
         " takes. A refused line changed nothing. For a text with n newlines n + 2 groups, and"
         " never more than 16384, text_length + 1 bytes of names, and n + 1 refused lines have"
         " room. What stands behind the written entries is as it was.",
         (HOST, CallWord("hash_key",
                         U64, "a number that whoever writes the script cannot know, as of"
                                      " getrandom: one who knows it can choose names that take"
                                      " long. No answer depends on it"),
          column("text", U8, "the script"), part(TOLD, "told", WRITTEN)),
         (Refusal("50",
                  "the eight columns differ in length, or the two of refused lines do"), OF_HOST,
          Refusal("50", "a column is too short"))),
    Call("book", "what a period leaves and counts",
         "Counts one period for each group, from the slices that it used. The rows are those of the"
         " period. The last four counters count nothing of row 0. A counter stops at its greatest"
         " value.",
         (HOST, ROWS, column("quotas",
                             U64, "the limit in slices without what was carried in", NO_LIMIT,
                             "it has none"),
          column("drawn",
                 U64, "slices that each group used, with those below it, as a plan gives them"),
          room("carries",
               U64, "slices that it left of its limit, 0 where it has none or used more"),
          part(COUNTERS, "stats", CHANGED)), OF_PLAN),
    Call("periods", "what many periods add up to",
         "Many periods of one host, one after another, and what they add up to. The host may have"
         " any number of processors, as arbiter_planned_host has them. A sample is `times` periods"
         " of the same demands. In each period a group's limit is that of arbiter_period_limit, its"
         " amount that of arbiter_plan by these limits, and what it leaves and is counted that of"
         " arbiter_book. arbiter_check has accepted each plan. Periods that come again are not"
         " planned again. A long time may be cut into several calls. The columns behind `carries`"
         " are as long as `demands`, and have sums over the periods of each sample. A sum stops at"
         " its greatest value.",
         (HOST, part(SETTINGS, "settings"),
          column("demands",
                 U64, "the demand of each group in the first sample, then in the next, in"
                 " slices"),
          CallWord("times", U64, "the periods of a sample"),
          CallWord("carries",
               U64, "slices of each limit that the period before left, 0 where there was none;"
               " then those that the last period leaves", CHANGED, True),
          part(SUMS, "sums", WRITTEN)),
         (Refusal("50",
                  "columns of the groups differ in length, `demands` is not one or more times as"
                  " long, or a column of sums is not as long as `demands`"),
          Refusal("1 to 3", "arbiter_planned_host refuses the host"),
          Refusal("13 to 15", "arbiter_period_limit refuses a group"),
          Refusal("4 to 10", "the rows of a sample are refused"))),
)
NUMBERS = (
    Call("slices", "whole slices of a quota or burst",
         "The whole slices of one period of the host that a quota or burst allows, rounded down: a"
         " limit of a row. Below one slice it allows none.",
         (HOST, CallWord("us",
                         U64, "the quota or burst, 0 to 10^15 microseconds of each own period"),
          CallWord("own_period_us", U64, "the own period, 1000 to 1000000 microseconds"),
          result("slices", U64, "the slices")),
         (OF_HOST, Refusal("14", "the quota is out of range"), OWN_PERIOD),
         allocates=False, is_plain=True),
    Call("period_limit", "the limit of the next period",
         "The slices that a group may use in the next period: the limit of its row. It is the quota"
         " plus `carry`, and at most the quota plus the burst.",
         (HOST, CallWord("quota_us",
                         U64, "the quota, 1000 to 10^15 microseconds of each own period",
                     none=NO_LIMIT, when="it has none"),
          CallWord("own_period_us", U64, "the own period, 1000 to 1000000 microseconds"),
          CallWord("burst_us", U64, "the burst, 0 to 10^15 microseconds of each own period"),
          CallWord("carry", U64, "slices of its limit that the last period left"),
          result("limit", U64, "the limit in slices", NO_LIMIT, "there is no quota")),
         (OF_HOST, Refusal("13, 14", "the quota is out of range"), OWN_PERIOD,
          Refusal("14", "the burst is out of range")), allocates=False, is_plain=True),
    Call("demand", "slices of a ratio of processors",
         "The slices of one period of the host that a demand takes, rounded up: a demand of a row.",
         (HOST, CallWord("numerator",
                         U64, "the demand is `numerator` over `denominator` processors"),
          CallWord("denominator", U64, "above 0"), result("slices", U64, "0 to 1000000 slices")),
         (OF_HOST, Refusal("11", "the denominator is 0"),
          Refusal("9", "it takes more than 1000000 slices")), allocates=False, is_plain=True),
    Call("planned_host", "a host of up to 64 processors with the same plans",
         "The host that is planned in place of one of any number of processors. With 1 to 64 it is"
         " the host itself. Of more it is one of the same capacity, on which all rows have the same"
         " plans: of those with slices of 1000 microseconds the one with most processors.",
         (HOST, part(HOST.record, "planned", WRITTEN,
                     {each.name: f"planned_{each.name}" for each in HOST.words})),
         (Refusal("1", "there is no processor"), Refusal("2, 3", "period or slice are refused"),
          Refusal("1", "no host of at most 64 processors has the capacity")), allocates=False),
    Call("weight_of_shares", "the cpu.weight of cpu.shares",
         "Answers the cpu.weight, 1 to 10000, that container runtimes write for cpu.shares; 0 for"
         " another conversion than the two.",
         (CallWord("shares", U64, "cpu.shares; below 2 they count as 2, above 262144 as 262144"),
          CallWord("conversion",
               U32, "ARBITER_SHARES_LINEAR or ARBITER_SHARES_LOGARITHMIC")), answer=U64,
         allocates=False),
)
OWNED = (
    Call("owned_weight", "the weight of a number that an owner set",
         "The weight of a number that an owner set: a request, shares or a weight. A greater number"
         " has no lesser weight.",
         (FORMULA, CallWord("number", U64, "the number"),
          result("weight", U64, "1 to 10000", "0", "logarithms do not tell it, which is of no"
                                                   " number of shares")),
         (NO_FORMULA,), allocates=False, is_plain=True),
    Call("owned_limit", "the quota and the period of a number that an owner set",
         "The limit of a number that an owner set: of thousandths or billionths of a CPU,"
         " microseconds of a period, or of each second. A quota or a period that the kernel does"
         " not take is the nearest one that it takes. The period of a rate is so long that the"
         " quota is 1000 microseconds.",
         (FORMULA._replace(about="ARBITER_THOUSANDTHS to ARBITER_PER_SECOND"),
          CallWord("number", U64, "the number; 0 sets no limit, but for ARBITER_PER_SECOND"),
          CallWord("own_period_us",
                   U64, "the own period in microseconds that is set beside it, 0 for 100000; not"
                        " read for ARBITER_NANO_CPUS"),
          result("quota", U64, "the quota, 1000 to 10^15 microseconds of each own period",
                 NO_LIMIT, "there is none"),
          result("period", U64, "the own period, 1000 to 1000000 microseconds")),
         (NO_FORMULA,), allocates=False),
    Call("least_owned", "the least number that has a weight",
         "The least number of those that an owner can set whose weight is at least `weight`. At"
         " most 18 weights are worked out.",
         (FORMULA, CallWord("weight", U64, "the weight, 1 to 10000"),
          result("least", U64, "the number", NO_LIMIT,
                 "logarithms do not tell a weight, which is of no number of shares")),
         (NO_FORMULA, Refusal("12", "the weight is out of range")), allocates=False,
         is_plain=True),
    Call("owned_number", "the number that is written for a request",
         "The number that is written for a request in thousandths of a CPU. Of shares it is that of"
         " kubelet, of a request the request itself. `CPUWeight=` is 100 for each CPU, rounded up.",
         (FORMULA, CallWord("request", U64, "the request in thousandths of a CPU"),
          result("number", U64, "the number")),
         (NO_FORMULA,), allocates=False, is_plain=True),
    Call("pod_amount", "the most that the containers of a pod take at once",
         "The most that the containers of a pod take at any time: of requests, of limits, or of"
         " another resource. They stand in the order in which they start. An init container ends"
         " before the next one starts, and a sidecar runs on.",
         (column("kinds", U8, "ARBITER_INIT_CONTAINER, ARBITER_SIDECAR, or any other number for a"
                              " container"),
          column("amounts", U64, "the amount of each, in any one unit"),
          result("amount", U64, "the amount of the pod; it stops at its greatest value")),
         (LENGTHS,), allocates=False),
    Call("greatest_part", "the greatest amount of one container for some room",
         "The greatest amount of one container of a pod with which arbiter_pod_amount is at most"
         " `room`. Its own amount is not read.",
         (column("kinds", U8, "those of arbiter_pod_amount"),
          column("amounts", U64, "the amount of each, in any one unit"),
          CallWord("part", U32, "the place of the container, from 0"),
          CallWord("room", U64, "the most that the pod may take"),
          result("greatest", U64, "the amount of the container", NO_LIMIT,
                 "the others alone take more")),
         (Refusal("50", "columns differ in length, or have no such place"),), allocates=False),
    Call("allowed", "the time that a limit allows",
         "The nanoseconds that a limit allows in some time: the part of it that the quota is of its"
         " own period, rounded down, and the burst.",
         (CallWord("quota_us", U64, "the quota in microseconds of each own period"),
          CallWord("own_period_us", U64, "the own period in microseconds, above 0"),
          CallWord("burst_us", U64, "the burst in microseconds"),
          CallWord("passed_ns", U64, "the time in nanoseconds"),
          result("allowed", U64, "the nanoseconds; they stop at their greatest value")),
         (Refusal("15", "the own period is 0"),), allocates=False, is_plain=True),
    Call("lost", "the slices that limits served too little",
         "The slices that rounds under limits served too little; 0 where limits did no harm. They"
         " do harm where the part of the plan that is served is more than a twentieth of the plan"
         " below that of rounds without limits. A plan of nothing is served.",
         (CallWord("free_used", U64, "slices used in rounds without limits, up to 2^60"),
          CallWord("free_planned", U64, "slices planned for these, up to 2^60"),
          CallWord("held_used", U64, "slices used in rounds under limits, up to 2^60"),
          CallWord("held_planned", U64, "slices planned for these, up to 2^60"),
          result("lost", U64, "the slices")),
         (Refusal("9", "a sum is above 2^60"),), allocates=False, is_plain=True),
)
NAMES = (
    Call("version", "the version of the library",
         "Answers how many characters the version of the library has: the text of ARBITER_VERSION"
         " in the header of that library.",
         (room("version", CHAR, "written as arbiter_name writes a name"),), allocates=False),
    Call("name", "the name of a fault's number",
         "Answers how many characters the name of a fault's number has, 0 where the number is no"
         " fault's.",
         (CallWord("number", U32, "what a call answers, or a script writes for a line"),
          room("name",
               CHAR, "the name, with a 0 behind it, where there is room for both; else, and where"
               " the answer is 0, as it was")), allocates=False),
)
# What the numbers that a call answers mean, with the names of the faults.
FAULTS = {
    "1 to 3": "the host is refused (BadProcessors, BadPeriod, BadSlice)",
    "4 to 10": "the rows are refused (TooMany, BadParent, BadWeight, TooDeep, InnerDemand,"
               " DemandTooLarge, RootLimited); 9 also of a sum of slices",
    "11": "the denominator of a demand is 0, or no formula has the number (BadNumber)",
    "12": "a weight is out of range (WeightOutOfRange)",
    "13 to 15": "a quota, burst or limit, an own period or a round is out of range (QuotaTooSmall,"
                " QuotaTooLarge, PeriodOutOfRange)",
    "20": "the group is no row (NotFound)",
    "40 to 43": "it is no certified text (BadLine, BadField, CutShort, Trailing)",
    "50": "columns differ in length (WrongLength)",
    "51 to 58": "the amounts are not the plan by this certificate",
    "71": "memory was refused (OutOfMemory)",
}
# All calls by the titles of their sections.
SECTIONS: dict[str, tuple[Call, ...]] = {
    "Plans and certificates": PLANS,
    "Questions about a plan": QUESTIONS,
    "Limits that hold a plan": ROUNDS,
    "Scripts and periods": PERIODS,
    "Slices from what operators write": NUMBERS,
    "What owners set": OWNED,
    "Names": NAMES,
}
TABLE: tuple[Call, ...] = tuple(call for calls in SECTIONS.values() for call in calls)


def records() -> Iterator[WordGroup]:
    """The records of columns, each once."""
    found = {each.record.name: each.record for call in TABLE for each in call.parts
             if isinstance(each, Part) and each.record != HOST.record}
    yield from found.values()
