"""A small slow model, written from the definitions and not from the program.

The program's answers are compared with it. It has the plan of an instance, certified texts and the
verdict on one, and a script's host with its groups.
"""
import re

NUMBER = re.compile(rb"(0|[1-9][0-9]*)\Z")
LEVEL = re.compile(rb"(0|[1-9][0-9]*)/(0|[1-9][0-9]*)@(0|[1-9][0-9]*)\Z")
MOST_GROUPS, MOST_DEPTH, MOST_DEMAND, MOST_WEIGHT = 16384, 64, 1000000, 10000
FAULTS = {
    1: "BadProcessors", 2: "BadPeriod", 3: "BadSlice", 4: "TooMany", 5: "BadParent", 6: "BadWeight",
    7: "TooDeep", 8: "InnerDemand", 9: "DemandTooLarge", 10: "RootLimited", 40: "BadLine",
    41: "BadField", 42: "CutShort", 43: "Trailing", 50: "WrongLength", 51: "OverLimit",
    52: "OverDemand", 53: "SumDiffers", 54: "FlagWithoutLimit", 55: "NotGreatest",
    56: "LevelMissing", 57: "LastMarkAbove", 58: "NextMarkNotAbove",
}


class Refused(Exception):
    """A text that is no certified text, or a certificate that does not hold at a group's row."""

    def __init__(self, number, row=None):
        super().__init__(number)
        fault = f"{number} {FAULTS[number]}"
        self.line = f"error {fault}\n" if row is None else f"refused {fault} {row}\n"


class Row:
    """One group of an instance: row of its parent or None, weight, limit or None, and demand.

    Limit and demand are in slices.
    """

    def __init__(self, parent, weight=100, limit=None, demand=0):
        self.parent, self.weight, self.limit, self.demand = parent, weight, limit, demand
        self.children = []


class Instance:
    """Rows from the root on, each parent before its children, and the capacity.

    The capacity is the slices of a period on all processors.
    """

    def __init__(self, rows, capacity):
        self.rows, self.capacity = rows, capacity
        for row in rows:
            row.children = []
        for number, row in enumerate(rows):
            if row.parent is not None:
                rows[row.parent].children.append(number)

    def limit(self, row):
        """A group's limit, the root's the capacity; None for none."""
        return self.rows[row].limit if row else self.capacity

    def wants(self):
        """What each group could use: a leaf its demand, another the sum over its children.

        Each child counts with what it could use within its limit.
        """
        wants = [row.demand for row in self.rows]
        for number in range(len(self.rows) - 1, -1, -1):
            if self.rows[number].children:
                children = self.rows[number].children
                wants[number] = sum(self.within(wants, child) for child in children)
        return wants

    def within(self, wants, row):
        """What a group can be given: its want, but no more than its limit."""
        limit = self.limit(row)
        return wants[row] if limit is None else min(wants[row], limit)

    def is_tight(self, wants, row):
        limit = self.limit(row)
        return limit is not None and limit < wants[row]

    def total(self):
        """The greatest total: limiting groups with their limits, in row order, and the rest.

        A limiting group is tight and has no tight group above it. The rest is the sum of the
        demands of the leaves outside these groups.
        """
        wants, limiting, rest, free = self.wants(), [], 0, [False] * len(self.rows)
        for number, row in enumerate(self.rows):
            if row.parent is not None and not free[row.parent]:
                continue
            if self.is_tight(wants, number):
                limiting.append((number, self.limit(number)))
            else:
                free[number] = True
                rest += 0 if row.children else row.demand
        return limiting, rest

    def plan(self):
        """The amount of each group: that of the root is the greatest total.

        Each group's amount goes to its children slice by slice, each to the child whose next slice
        costs least by weight, and on a tie to the first of these.
        """
        wants = self.wants()
        limiting, rest = self.total()
        amounts = [0] * len(self.rows)
        amounts[0] = sum(limit for _, limit in limiting) + rest
        for number, row in enumerate(self.rows):
            for _ in range(amounts[number] if row.children else 0):
                best = None
                for child in row.children:
                    if amounts[child] < self.within(wants, child):
                        mark = (2 * amounts[child] + 1, self.rows[child].weight)
                        if best is None or mark[0] * best[0][1] < best[0][0] * mark[1]:
                            best = (mark, child)
                amounts[best[1]] += 1
        return amounts

    def certificate(self, amounts):
        """The flags, one for each tight group, and the levels.

        The level of a group that has something is the greatest last mark of its children.
        """
        wants = self.wants()
        flags = [self.is_tight(wants, number) for number in range(len(self.rows))]
        levels = [None] * len(self.rows)
        for number, row in enumerate(self.rows):
            for place, child in enumerate(row.children):
                if amounts[child]:
                    last = (2 * amounts[child] - 1, self.rows[child].weight, place)
                    if levels[number] is None or is_below(levels[number], last):
                        levels[number] = last
        return flags, levels


def is_below(mark, other):
    """The order of marks: by cost, then by place among the siblings, then by the numerator."""
    left, right = mark[0] * other[1], other[0] * mark[1]
    return (left, mark[2], mark[0]) < (right, other[2], other[0])


def certified_text(host, instance, amounts, flags, levels):
    """The one spelling of an instance with amounts and a certificate.

    `host` has processors, period and slice.
    """
    lines = ["bw 1 %d %d %d" % host + f" {len(instance.rows)}\n"]
    for number, row in enumerate(instance.rows):
        parent = "-" if row.parent is None else row.parent
        limit = "max" if row.limit is None else row.limit
        level = "-" if levels[number] is None else "%d/%d@%d" % levels[number]
        given = f"{amounts[number]} {int(flags[number])} {level}"
        lines.append(f"{parent} {row.weight} {limit} {row.demand} {given}\n")
    return "".join(lines).encode()


def number_in(word, greatest=2**64 - 1):
    if not NUMBER.match(word) or int(word) > greatest:
        raise Refused(41)
    return int(word)


def level_in(word):
    if word == b"-":
        return None
    parts = LEVEL.match(word)
    if not parts:
        raise Refused(41)
    num, den = number_in(parts[1]), number_in(parts[2])
    if num == 0 or den == 0:
        raise Refused(41)
    return num, den, number_in(parts[3], 2**32 - 1)


class Lines:
    """The lines of a text, taken one by one."""

    def __init__(self, text):
        self.rest = text

    def words(self, number):
        end = self.rest.find(b"\n")
        if end < 0:
            raise Refused(42)
        words, self.rest = self.rest[:end].split(b" "), self.rest[end + 1:]
        if len(words) != number:
            raise Refused(40)
        return words


def group_in(words):
    """One group's row, amount, flag and level."""
    parent = None if words[0] == b"-" else number_in(words[0], 2**32 - 1)
    weight, limit = number_in(words[1]), None if words[2] == b"max" else number_in(words[2])
    row = Row(parent, weight, limit, number_in(words[3]))
    if words[5] not in (b"0", b"1"):
        raise Refused(41)
    return row, number_in(words[4]), words[5] == b"1", level_in(words[6])


def capacity_of(processors, period, slice_us):
    if not 1 <= processors <= 64:
        raise Refused(1)
    if not 1000 <= period <= 1000000:
        raise Refused(2)
    if not 1000 <= slice_us <= period or period % slice_us:
        raise Refused(3)
    return processors * (period // slice_us)


def is_tree(rows):
    if not rows or rows[0].parent is not None:
        return False
    others = list(enumerate(rows))[1:]
    return all(row.parent is not None and row.parent < number for number, row in others)


def instance_of(rows, capacity):
    """The instance, where the rows are a tree within its limits; else the first refusal."""
    if not is_tree(rows):
        raise Refused(5)
    if not all(1 <= row.weight <= MOST_WEIGHT for row in rows):
        raise Refused(6)
    depths = []
    for row in rows:
        depths.append(0 if row.parent is None else depths[row.parent] + 1)
    if max(depths) > MOST_DEPTH:
        raise Refused(7)
    instance = Instance(rows, capacity)
    if any(row.children and row.demand for row in rows):
        raise Refused(8)
    if any(row.demand > MOST_DEMAND for row in rows):
        raise Refused(9)
    if rows[0].limit is not None:
        raise Refused(10)
    return instance


def read_certified(text):
    """The instance, amounts, flags and levels of a certified text, or the first refusal."""
    lines = Lines(text)
    words = lines.words(6)
    if words[:2] != [b"bw", b"1"]:
        raise Refused(41)
    processors, period, slice_us, groups = [number_in(word) for word in words[2:]]
    capacity = capacity_of(processors, period, slice_us)
    if groups > MOST_GROUPS:
        raise Refused(4)
    read = [group_in(lines.words(7)) for _ in range(groups)]
    if lines.rest:
        raise Refused(43)
    rows, amounts, flags, levels = [list(column) for column in zip(*read)] or [[]] * 4
    return instance_of(rows, capacity), amounts, flags, levels


def faults_of(instance, amounts, flags, levels):
    """Each condition of a certificate that does not hold, with the row at which it does not."""
    rows, bounds = instance.rows, [row.demand for row in instance.rows]
    for number in range(len(rows) - 1, -1, -1):
        row, limit = rows[number], instance.limit(number)
        if flags[number] and limit is not None:
            bounds[number] = limit
        elif row.children:
            bounds[number] = sum(bounds[child] for child in row.children)
    for number, row in enumerate(rows):
        limit = instance.limit(number)
        if limit is not None and amounts[number] > limit:
            yield 51, number
        if not row.children and amounts[number] > row.demand:
            yield 52, number
        if row.children and amounts[number] != sum(amounts[child] for child in row.children):
            yield 53, number
        if number and flags[number] and row.limit is None:
            yield 54, number
        if number == 0 and amounts[0] != bounds[0]:
            yield 55, 0
        if row.children and amounts[number] and levels[number] is None:
            yield 56, number
        if row.children and amounts[number] and levels[number] is not None:
            for place, child in enumerate(row.children):
                level, x, weight = levels[number], amounts[child], rows[child].weight
                if x and is_below(level, (2 * x - 1, weight, place)):
                    yield 57, child
                if x < bounds[child] and not is_below(level, (2 * x + 1, weight, place)):
                    yield 58, child


def line_for(text):
    """The line that a check of this text prints, and the instance and amounts if it has them."""
    try:
        instance, amounts, flags, levels = read_certified(text)
    except Refused as refused:
        return refused.line.encode(), None
    faults = sorted(faults_of(instance, amounts, flags, levels))
    line = Refused(*faults[0]).line if faults else "accepted\n"
    return line.encode(), (instance, amounts)


class Group:
    """A group of a script's host."""

    def __init__(self, path):
        self.path, self.weight, self.quota, self.period, self.burst = path, 100, None, 100000, 0
        self.demand = self.carry = 0
        self.usage = self.periods = self.throttled = self.withheld = 0


class Host:
    """A host and its groups in order of creation, for scripts whose lines are all in order."""

    def __init__(self, processors, period, slice_us):
        self.numbers, self.groups = (processors, period, slice_us), [Group(".")]

    def group(self, path):
        return next(group for group in self.groups if group.path == path)

    def slices(self, group, micros):
        """Microseconds of a group's period, in slices of the host's."""
        _, period, slice_us = self.numbers
        return micros * period // (group.period * slice_us)

    def instance(self):
        places = {group.path: number for number, group in enumerate(self.groups)}
        rows = []
        for group in self.groups:
            above = group.path.rpartition("/")[0] or "."
            parent = None if group.path == "." else places[above]
            limit = None
            if group.quota is not None:
                quota = self.slices(group, group.quota)
                limit = min(group.carry + quota, quota + self.slices(group, group.burst))
            rows.append(Row(parent, group.weight, limit, group.demand))
        return Instance(rows, capacity_of(*self.numbers))

    def answer(self, line):
        """What a line prints; a line that changes something, `ok`."""
        verb, *words = line.split()
        return getattr(self, verb)(*words)

    def mkdir(self, path):
        self.groups.append(Group(path))
        return "ok\n"

    def rmdir(self, path):
        self.groups.remove(self.group(path))
        return "ok\n"

    def demand(self, path, demand):
        self.group(path).demand = int(demand)
        return "ok\n"

    def write(self, path, file, first, second=None):
        group = self.group(path)
        if file == "cpu.max":
            group.quota = None if first == "max" else int(first)
            group.period = int(second or group.period)
        else:
            setattr(group, "weight" if file == "cpu.weight" else "burst", int(first))
        return "ok\n"

    def total(self):
        limiting, rest = self.instance().total()
        total = sum(limit for _, limit in limiting) + rest
        lines = [f"limit {limit} {self.groups[number].path}\n" for number, limit in limiting]
        return "".join([f"total {total}\n", *lines, f"demand {rest}\n"])

    def plan(self):
        amounts = self.instance().plan()
        return "".join(f"{amount} {group.path}\n" for amount, group in zip(amounts, self.groups))

    def cert(self):
        instance = self.instance()
        amounts = instance.plan()
        certificate = instance.certificate(amounts)
        return certified_text(self.numbers, instance, amounts, *certificate).decode()

    def period(self):
        instance, slice_us = self.instance(), self.numbers[2]
        wants, amounts = instance.wants(), instance.plan()
        for number, group in enumerate(self.groups):
            group.usage += amounts[number] * slice_us
            group.periods += 1
            if number and instance.is_tight(wants, number):
                group.throttled += 1
                group.withheld += (wants[number] - instance.limit(number)) * slice_us
            group.carry = 0 if group.quota is None else instance.limit(number) - amounts[number]
        return f"served {amounts[0]}\n"

    def report(self):
        lines = ["          usage_usec    periods  throttled       throttled_usec group\n"]
        for group in self.groups:
            counts = (group.usage, group.periods, group.throttled, group.withheld)
            lines.append("%20d %10d %10d %20d" % counts + f" {group.path}\n")
        return "".join(lines)
