"""Numbers that owners set for goals: the call beside brute force over all numbers of a small range,
on nodes of pods that a model weighs, and on any rows that follow several numbers."""
import ctypes
import random

import pytest

import arbiter
from arbiter import columns as columns_
from arbiter import Follower, Host, OwnerGoal, PartKind, Row, Settled, WeightFormula, c
from owned_model import WEIGHTS, pod_amount
from plan_model import Instance
from plan_model import Row as ModelRow
from support import same
from test_library import number_of

NO_LIMIT = 2**64 - 1
HOST = Host(1, 100000, 5000)
# A class of one pod, with one container, beside another group.
SMALL = [Row(), Row(0, 100, None, 0), Row(0, 39, None, 20), Row(1, 1, None, 0), Row(3, 1, None, 20)]
# Requests that are tried, and one that is more than all.
MOST, ABOVE = 120, 10**15


@pytest.fixture(scope="module", name="calls")
def calls_of(library):
    """The library under test, as the Python module calls it."""
    return arbiter.Library(str(library))


class Node:
    """A class of a few pods of a few containers, beside a few groups; one request is asked for."""

    def __init__(self, drawn):
        self.drawn, self.rows = drawn, [[None, 100, None, 0], [0, 1, None, 0]]
        self.by_kubelet, self.by_runtime = (drawn.choice(
            (WeightFormula.REQUEST_LINEAR, WeightFormula.REQUEST_LOGARITHMIC)) for _ in range(2))
        for _ in range(drawn.randint(0, 2)):
            self.rows.append([0, drawn.randint(1, 200), None, drawn.randint(0, 25)])
        self.pods = [self.add(1) for _ in range(drawn.randint(1, 3))]
        self.kinds, self.asked, self.parts, self.over = {}, {}, {}, {}
        for pod in self.pods:
            count = drawn.randint(1, 3)
            self.parts[pod] = [self.add(pod, drawn.randint(0, 25)) for _ in range(count)]
            self.kinds[pod] = drawn.choices(tuple(PartKind), (4, 1, 1), k=count)
            self.asked[pod] = [drawn.randint(1, MOST) for _ in range(count)]
            self.over[pod] = drawn.choice((0, 0, 7))
        for row in self.rows[1:]:
            row[2] = drawn.choice((None, None, None, drawn.randint(0, 20)))

    def add(self, parent, demand=0):
        self.rows.append([parent, 1, None, demand])
        return len(self.rows) - 1

    def requested(self, pod, asked):
        return pod_amount(self.kinds[pod], asked) + self.over[pod]

    def weighed(self, pod, part, request):
        """The rows with one request, as kubelet and the runtime weigh them."""
        rows = [list(row) for row in self.rows]
        asked = {each: list(numbers) for each, numbers in self.asked.items()}
        asked[pod][part] = request
        for each in self.pods:
            rows[each][1] = WEIGHTS[self.by_kubelet](self.requested(each, asked[each]))
            for row, number in zip(self.parts[each], asked[each]):
                rows[row][1] = WEIGHTS[self.by_runtime](number)
        rows[1][1] = WEIGHTS[self.by_kubelet](
            sum(self.requested(each, asked[each]) for each in self.pods))
        return rows

    def followers(self, pod, part):
        """The rows that follow one request."""
        def sums(request):
            asked = [*self.asked[pod]]
            asked[part] = request
            own = self.requested(pod, asked)
            return own, own + sum(self.requested(each, self.asked[each])
                                  for each in self.pods if each != pod)

        (floor, floors), (base, bases) = sums(0), (each - ABOVE for each in sums(ABOVE))
        return {self.parts[pod][part]: Follower(self.by_runtime),
                pod: Follower(self.by_kubelet, floor, base),
                1: Follower(self.by_kubelet, floors, bases)}


def planned(rows):
    """The amounts of the model's plan on a host of 20 slices."""
    return Instance([ModelRow(*row) for row in rows], 20).plan()


def got(rows, group, guaranteed):
    """The slices of a group by the model's plan, or by that in which all others ask for the most."""
    def is_inside(row):
        return row is not None and (row == group or is_inside(rows[row][0]))

    parents = {row[0] for row in rows}
    most = [[*row[:3], 10**6 if guaranteed and at not in parents and not is_inside(at) else row[3]]
            for at, row in enumerate(rows)]
    return planned(most)[group]


def least_of(calls, rows, followers, goal, guaranteed=False):
    """The least number of one goal; None where it is stuck."""
    settled = calls.settle(HOST, rows, followers, [goal], guaranteed)
    same((settled.is_settled, settled.stuck), (True, None) if settled.is_settled else (False, 0))
    return settled.numbers[0] if settled.is_settled else None


@pytest.mark.parametrize("seed", range(40))
def test_requests_beside_brute_force(calls, seed):
    """The least request is the first of all that gives so much, by a model that tries each."""
    drawn = random.Random(20261201 + seed)
    for _ in range(4):
        node = Node(drawn)
        pod = drawn.choice(node.pods)
        part = drawn.randrange(len(node.parts[pod]))
        own = node.parts[pod][part]
        group, guaranteed = drawn.choice((own, own, pod, 1)), drawn.random() < 0.3
        first, last = sorted(drawn.sample(range(MOST), 2))
        gets = [got(node.weighed(pod, part, request), group, guaranteed)
                for request in range(first, last + 1)]
        rows = [Row(*row) for row in node.weighed(pod, part, drawn.randint(0, MOST))]
        for amount in {0, *gets, max(gets) + 1}:
            least = next((first + at for at, each in enumerate(gets) if each >= amount), None)
            goal = OwnerGoal(group, amount, own, 1, first, last)
            same(least_of(calls, rows, node.followers(pod, part), goal, guaranteed), least,
                 f"{rows}, {goal}")


class Several:
    """Any rows, of which some follow the numbers of a few goals."""

    def __init__(self, drawn):
        self.rows = [[None, 100, None, 0]]
        for row in range(1, drawn.randint(3, 9)):
            self.rows.append([drawn.randrange(row), drawn.randint(1, 60),
                              drawn.choice((*[None] * 6, drawn.randint(0, 20))),
                              drawn.choice((0, *[drawn.randint(5, 25)] * 4))])
        for parent in {row[0] for row in self.rows[1:]}:
            self.rows[parent][3] = 0
        self.followers = {
            row: Follower(drawn.choice((*WeightFormula, *[WeightFormula.UNIT_WEIGHT] * 9)),
                          drawn.choice((0, 0, 0, 20)), drawn.choice((0, 0, 0, 9, NO_LIMIT - 30)))
            for row in range(1, len(self.rows)) if drawn.random() < 0.8}
        self.guaranteed = drawn.random() < 0.3
        self.goals = [self.goal(drawn) for _ in range(drawn.randint(1, 4))]
        self.goals = [goal._replace(amount=self.amount(drawn, place))
                      for place, goal in enumerate(self.goals)]

    def above(self, row):
        """A row and those above it."""
        return [row, *self.above(self.rows[row][0])] if row else [0]

    def goal(self, drawn):
        owner = drawn.randrange(1, len(self.rows))
        below = [row for row in range(len(self.rows)) if owner in self.above(row)]
        first = drawn.choice((0, 1, 1, drawn.randint(0, 60)))
        return OwnerGoal(drawn.choice((owner, owner, *below, *self.above(owner))), 0, owner,
                         drawn.choice(self.above(owner)), first, first + drawn.randint(0, 40))

    def amount(self, drawn, place):
        """An amount near those of the first and the last number of one goal."""
        numbers = [goal.first for goal in self.goals]
        least = got(self.weighed(numbers), self.goals[place].group, self.guaranteed)
        numbers[place] = self.goals[place].last
        most = got(self.weighed(numbers), self.goals[place].group, self.guaranteed)
        return drawn.choice((0, least, min(least + 1, most), (least + most + 1) // 2, most,
                             most + (drawn.random() < 0.2)))

    def has(self, row, goal):
        """Whether a row has the number of a goal: on the way up from its owner's to the top."""
        way = self.above(goal.owner)
        return row in way[:way.index(goal.top) + 1]

    def weighed(self, numbers):
        """The rows for some numbers of the goals."""
        rows = [list(row) for row in self.rows]
        for row, (formula, floor, base) in self.followers.items():
            own = sum(each for goal, each in zip(self.goals, numbers) if self.has(row, goal))
            rows[row][1] = WEIGHTS[formula](max(floor, min(base + own, NO_LIMIT)))
        return rows

    def meets(self, numbers, place):
        goal = self.goals[place]
        return got(self.weighed(numbers), goal.group, self.guaranteed) >= goal.amount

    def meeting(self, numbers, place, numbers_tried):
        """The numbers of one goal that meet it beside the others."""
        return [each for each in numbers_tried
                if self.meets([*numbers[:place], each, *numbers[place + 1:]], place)]


@pytest.mark.parametrize("seed", range(60))
def test_several_beside_brute_force(calls, seed):
    """Each number is the least beside the others, or none of a goal's range meets it beside them,
    by a model that tries each."""
    drawn = random.Random(20261202 + seed)
    for _ in range(10):
        tried = Several(drawn)
        found = calls.settle(HOST, [Row(*row) for row in tried.rows], tried.followers, tried.goals,
                             tried.guaranteed)
        told = f"{tried.rows}, {tried.followers}, {tried.goals}, {tried.guaranteed}: {found}"
        if found.stuck is not None:
            goal = tried.goals[found.stuck]
            same(tried.meeting(found.numbers, found.stuck, range(goal.first, goal.last + 1)), [],
                 told)
        for place, (goal, each) in enumerate(zip(tried.goals, found.numbers)):
            assert goal.first <= each <= goal.last, told
            if found.is_settled:
                same(tried.meeting(found.numbers, place, range(goal.first, each + 1)), [each], told)
        assert found.is_settled or found.stuck is not None, told


def test_requests_of_two_pods(calls):
    """Two containers of one class: the class has both requests, and each is the least beside the
    other. By the line 100 and 39 are weights of 2590 and of 978 thousandths."""
    by = WeightFormula.REQUEST_LINEAR
    rows = [*SMALL, Row(1, 1, None, 0), Row(5, 1, None, 20)]
    goals = [OwnerGoal(4, 5, 4, 1, 0, 256000), OwnerGoal(6, 5, 6, 1, 0, 256000)]
    numbers, is_settled, stuck = calls.settle(HOST, rows, {row: Follower(by)
                                                           for row in (1, 3, 4, 5, 6)}, goals)
    same((is_settled, stuck), (True, None))
    # (10 of 20 slices for the class are those of 899 thousandths)
    assert numbers[0] + numbers[1] >= 899 > 0, numbers
    same(calls.settle(HOST, rows, {}, []), Settled([], True, None))


@pytest.mark.parametrize("amount, first, last, least", [
    (10, 0, 256000, 899), (10, 0, 898, None), (10, 899, 899, 899), (10, 978, 256000, 978),
    (9, 0, 256000, 720), (0, 0, 256000, 0), (20, 0, 256000, 38918), (21, 0, 256000, None),
    (1, 5, 4, None), (21, 0, NO_LIMIT, None), (20, 0, NO_LIMIT, 38918)])
def test_small(calls, amount, first, last, least):
    """A class of one container beside a group of weight 39, by the line."""
    by = WeightFormula.REQUEST_LINEAR
    found = least_of(calls, SMALL, {row: Follower(by) for row in (1, 3, 4)},
                     OwnerGoal(4, amount, 4, 1, first, last))
    same(found, least)


def test_refusals(calls):
    """A group or an owner that is no row, one beside the other, and columns of another length."""
    by = {2: Follower(WeightFormula.UNIT_WEIGHT)}
    for group, owner in ((5, 4), (4, 5), (2, 4), (4, 2), (2**32 - 1, 4)):
        same(number_of(calls.settle, HOST, SMALL, by, [OwnerGoal(4, 1, 4, 0, 0, 9),
                                                       OwnerGoal(group, 1, owner, 0, 0, 9)]),
             (20, None))
    # (its slice 10 costs 19/w, and slice 11 of row 1 21/100)
    same(least_of(calls, SMALL, by, OwnerGoal(2, 10, 2, 2, 1, 10000)), 91)
    same(least_of(calls, SMALL, by, OwnerGoal(0, 20, 2, 2, 1, 10000)), 1)
    # (a highest row that is not above the owner's: no row has the number)
    same(least_of(calls, SMALL, by, OwnerGoal(2, 19, 2, 9, 1, 10000)), None)
    stuck, columns = c.U64(7), arbiter.Columns.of(SMALL)
    words = [word for each in columns.all for word in columns_.given(each)]
    kinds = [getattr(columns_, f"U{bits}") for bits in (32, 64, 64, 32, 64, 32, 32, 64, 64)]
    numbers = columns_.zeros(columns_.U64, 2)
    for wrong, kind in enumerate(kinds):
        for less in (0, 1, 3, 4, 6):
            lengths = [(5 if at < 3 else 2) if at != wrong else less for at in range(len(kinds))]
            if lengths[wrong] == (5 if wrong < 3 else 2):
                continue
            more = [word for each, of in zip(lengths, kinds)
                    for word in columns_.given(columns_.zeros(of, each))]
            same(calls.calls.arbiter_settle(
                *map(c.U64, arbiter.Library.host(HOST)), *words, *more, c.U32(0),
                *columns_.given(numbers), ctypes.byref(stuck)), 50, f"{kind} of {wrong}")
    same((stuck.value, numbers.tolist()), (7, [0, 0]))
