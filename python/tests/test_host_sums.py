"""On one random host each column of `diff`, `tune` and `top` adds up to what the lines above it
say, in every form.

The tree, its limits and its demands are drawn here, and so are all sums: of cells as they are
written, by paths. Amounts of a script are hundredths of a CPU, and those of pods thousandths.
"""
import json
import random
import re
from fractions import Fraction

import pytest
from test_figures import random_node

PATH = re.compile(r"[^ ]*$")
# The wants of a group beyond its limit are no use to the one above it.
OPEN = Fraction(10**9)


class Drawn:
    """A host with a tree of groups: the parents, the limits and the demands in CPUs, by path."""

    def __init__(self, seed):
        chance = random.Random(seed)
        self.cpus, self.limits, self.demands, lines = chance.choice([1, 2, 4]), {}, {}, []
        inner, number = [""], 0
        for at in range(chance.randint(6, 18)):
            above = chance.choice(inner)
            # (a group below the root of which nothing asks is no sum)
            path = f"{above}/g{at}".strip("/")
            lines += [f"mkdir {path}", f"write {path} cpu.weight {chance.randint(1, 400)}"]
            if chance.random() < 0.4:
                self.limits[path] = Fraction(chance.randint(1, 120), 100)
                lines.append(f"write {path} cpu.max {int(self.limits[path] * 100000)} 100000")
            if above.count("/") < 3 and chance.random() < 0.4:
                inner.append(path)
            self.demands[path] = Fraction(0)
        self.inner = {path.rpartition("/")[0] or "." for path in self.demands}
        for path in self.leaves:
            number = chance.choice([0, chance.randint(1, 300)])
            self.demands[path] = Fraction(number, 100)
            lines.append(f"demand {path} {number}")
        self.text = (f"# arbiter run --processors {self.cpus} --period 100000 --slice 1000\n"
                     + "".join(f"{line}\n" for line in lines))

    @property
    def leaves(self):
        return [path for path in self.demands if path not in self.inner]

    def want(self, path="."):
        """What a group would take without its own limit: its demand, or what its children may."""
        below = [each for each in self.demands if (each.rpartition("/")[0] or ".") == path]
        return self.demands[path] if path in self.demands and not below else sum(
            (min(self.want(each), self.limits.get(each, OPEN)) for each in below), Fraction(0))


def amounts_in(found):
    """What groups without children get, by path, of a plan as data; and these paths."""
    inner = {each["parent"] for each in found["groups"]}
    return {each["group"]: Fraction(str(each["gets"]["millicpu"])) / 1000
            for each in found["groups"] if each["group"] not in inner and each["group"] != "."}


def heads(text):
    """The lines above a table that say what is served, of what, and what is wanted: as numbers."""
    return [tuple(map(Fraction, each)) for each in re.findall(
        r"([0-9.]+) of ([0-9.]+) CPUs served, ([0-9.]+) wanted", text)]


def rows_of(text, columns):
    """The numbers of each row of a table of text before its reasons, by the path behind them."""
    shape = re.compile(r"^ *" + r" +".join([r"([-+]?[0-9.]+|-)"] * columns) + r"  .*\S$", re.M)
    found = {}
    for match in shape.finditer(text):
        path = PATH.search(match[0])[0]
        found["." if path == "(.)" else path] = [
            Fraction(each) if each != "-" else None for each in match.groups()]
    return found


def changes_in(page):
    """The rows of the page's table of changes: the last name of each, and its cells."""
    part = page[page.index("<h2>Before and after"):]
    rows = re.findall("<tr .*?</tr>", part[:part.index("</table>")], re.S)
    return [(re.search('class="name">([^<]*)<', row)[1].split(" / ")[-1],
             dict(re.findall('data-head="([^"]*)"[^>]*>([^<]*)', row))) for row in rows]


def run_diff(ctl, folder, source, *words):
    """A diff in every form: its text, its data, and its page."""
    text, _ = ctl.run("diff", *source, *words, "-o", "text", "-o", f"json={folder / 'data'}", "-o",
                      f"html={folder / 'page'}")
    return text, json.loads((folder / "data").read_text()), (folder / "page").read_text()


def check_diff(text, data, page, groups):
    """What groups without children gain is what the host serves more, in every form."""
    (served, _, wanted), (then, _, wants) = heads(text)
    before, after = (amounts_in(data[key]) for key in ("before", "after"))
    for amounts, key, whole in ((before, "before", served), (after, "after", then)):
        assert sum(amounts.values()) == whole == Fraction(
            str(data[key]["served"]["millicpu"])) / 1000
    # Each row of data is the difference of both plans. The leaves that are not there differ by 0.
    changed = {each["group"]: Fraction(str(each["change_millicpu"])) / 1000
               for each in data["changed"]}
    assert all(changed.get(path, 0) == after.get(path, 0) - before.get(path, 0)
               for path in {*before, *after})
    rows, leaves = rows_of(text, 5), {*before, *after}
    table = {path: row for path, row in rows.items() if path in changed}
    assert len(table) == len(changed)
    for path, (gets, gets_then, change, _, _) in table.items():
        assert change == (gets_then or 0) - (gets or 0) == changed[path]
    assert sum(row[2] for path, row in table.items() if path in leaves) == then - served
    if "." in table:
        assert table["."] == [served, then, then - served, wanted, wants]
    else:
        assert (served, wanted) == (then, wants)
    same, of = map(int, re.search("([0-9]+) of ([0-9]+) groups are the same", text).groups())
    assert (same + len(changed), of) == (groups, groups)
    # On the page: the bars, and the rows, of which one may be a group with its only child.
    bars = [dict(re.findall("<dt>(.*?)</dt><dd>(.*?)</dd>", each))
            for each in re.findall("<dl.*?</dl>", page, re.S)]
    # Both hosts have one bar where their figures are the same.
    for bar, (one, all_, asked) in zip(bars, dict.fromkeys(heads(text)), strict=True):
        assert [Fraction(bar[key]) for key in ("planned", "capacity", "wanted")] == [
            one, all_, asked] and Fraction(bar["left"]) == all_ - one
    for _, row in changes_in(page):
        was, now = (Fraction(row[key].replace("-", "0")) for key in ("before", "after"))
        assert Fraction(row["change"]) == now - was


@pytest.mark.parametrize("seed", range(4))
def test_a_change_of_a_tree(ctl, folder, seed):
    drawn, chance = Drawn(seed), random.Random(seed)
    (folder / "h.script").write_text(drawn.text)
    path = chance.choice(list(drawn.demands))
    sets = ["--set", f"{path}.weight={chance.randint(1, 10000)}", "--set",
            f"{chance.choice(drawn.leaves)}.demand={chance.randint(0, 300)}0m", "--set",
            f"{chance.choice(list(drawn.demands))}.max=70%"]
    text, data, page = run_diff(ctl, folder, [folder / "h.script"], *sets)
    check_diff(text, data, page, len(drawn.demands) + 1)
    assert heads(text)[0][2] == drawn.want()
    # Each leaf has a row of the page, maybe with the group above it, so these add up too.
    leaves = {path.rpartition("/")[2] for path in drawn.leaves}
    (served, _, _), (then, _, _) = heads(text)
    assert sum(Fraction(row["change"]) for name, row in changes_in(page)
               if name in leaves) == then - served


@pytest.mark.parametrize("seed", range(2))
def test_a_change_of_a_node(ctl, folder, seed):
    (folder / "n.json").write_bytes(random_node(random.Random(seed))[0])
    text, data, page = run_diff(ctl, folder, [folder / "n.json"], "--set", "n/p0/c0.request=170m",
                                "--set", ".cpus=2", "--want", "busy")
    check_diff(text, data, page, len({each["group"] for key in ("before", "after")
                                      for each in data[key]["groups"]}))


# tune

def check_tune(ctl, source, goals, words):
    """Goals, what they get, and who pays, beside the plans of `explain` before and after."""
    given = [word for path, amount in goals.items() for word in ("--goal", f"{path}={amount}m")]
    ended = ctl.ended("tune", *source, *given, *words, "-o", "json")
    found = json.loads(ended.stdout)
    text = ctl.ended("tune", *source, *given, *words).stdout.decode()
    before = amounts_in(json.loads(ctl.run("explain", *source, *words, "-o", "json")[0]))
    rows = rows_of(text, 4 if found["met"] else 3)
    for each in found["goals"]:
        assert Fraction(str(each["now_millicpu"])) / 1000 == before[each["group"]]
    if not found["met"]:
        clash = found["conflict"]
        asked, served = map(Fraction, re.search(
            r"asked for in all: ([0-9.]+); .*?([0-9.]+)(?: at most)?$", text, re.M).groups())
        table = {path: row for path, row in rows.items() if path in clash["together"]}
        # (goals of groups of one parent, none in the other: what they ask for is their sum)
        assert sum(goal for goal, _, _ in table.values()) == asked == Fraction(
            str(clash["asked_millicpu"])) / 1000
        assert served == Fraction(str(clash["served_millicpu"])) / 1000
        return False
    way = next(found[key] for key in ("settings", "weights", "limits") if found[key])
    sets = [word for each in way["set"] for word in ("--set", each)]
    after = amounts_in(json.loads(ctl.run(
        "diff", *source, *words, *sets, "-o", "json")[0])["after"]) if sets else before
    for each, then in zip(found["goals"], way["then_millicpu"], strict=True):
        path = each["group"]
        assert rows[path][:3] == [Fraction(goals[path], 1000), before[path], after[path]]
        assert Fraction(str(then)) / 1000 == after[path] >= rows[path][0]
    losses = {path: before[path] - after[path] for path in before
              if path not in goals and before[path] > after[path]}
    pays = {each["group"]: Fraction(str(each["millicpu"])) / 1000 for each in way["pays"]}
    assert pays == losses
    # What those with a goal gain is what the others pay, less what others gain, and what is served
    # more.
    gained = sum(max(after[path] - before[path], 0) for path in before)
    lost = sum(losses.values()) + sum(max(before[path] - after[path], 0) for path in goals)
    assert gained - lost == sum(after.values()) - sum(before.values())
    if not sets:
        assert not losses and "all goals are met as it stands: nothing changes" in text
        return True
    told = re.search("^who else pays: (.*)$", text, re.M)[1]
    named = [Fraction(each) for each in re.findall(r" -([0-9.]+)", told)]
    more = re.search("([0-9]+) more$", told)
    assert len(named) + int(more[1] if more else 0) == len(losses)
    assert named == sorted(losses.values(), reverse=True)[:3]
    return True


@pytest.mark.parametrize("seed", range(5))
def test_goals_of_a_tree(ctl, folder, seed):
    drawn, chance = Drawn(100 + seed), random.Random(seed)
    (folder / "h.script").write_text(drawn.text)
    some = [path for path in drawn.leaves if drawn.demands[path] > 0]
    goals = {path: int(1000 * min(drawn.demands[path], Fraction(chance.randint(1, 60), 100)))
             for path in chance.sample(some, min(2, len(some)))}
    assert goals
    check_tune(ctl, [folder / "h.script"], goals, [])


def test_goals_of_which_some_are_met(ctl, folder):
    """Of both kinds there is one: two goals that are met, and two above the host."""
    (folder / "h.script").write_text(
        "# arbiter run --processors 1 --period 100000 --slice 1000\n" + "".join(
            f"mkdir {each}\ndemand {each} 80\n" for each in "abcd"))
    source = [folder / "h.script"]
    assert check_tune(ctl, source, {"a": 400, "b": 300}, [])
    assert not check_tune(ctl, source, {"a": 600, "b": 500}, [])


def test_a_goal_of_a_node(ctl, folder):
    (folder / "n.json").write_bytes(random_node(random.Random(3))[0])
    words = ["--want", "busy", "--cpus", "1"]
    found = amounts_in(json.loads(ctl.run("explain", folder / "n.json", *words, "-o", "json")[0]))
    path = max((each for each in found if found[each]), key=lambda each: -found[each])
    assert check_tune(ctl, [folder / "n.json"], {path: int(1000 * found[path]) + 1}, words)


# top

def metrics_in(text):
    """The gauges of groups: by the name and the group."""
    return {(name, path): Fraction(value) for name, path, value in re.findall(
        r'^(\w+)\{.*?group="([^"]*)".*\} (\S+)$', text, re.M)}


def check_top(ctl, folder, source, words, inner, want=None):
    """A round's line, its table and its metrics."""
    line = json.loads(ctl.run("top", *source, *words, "--read", "1x1s", "-o", "json", "-o",
                              f"openmetrics={folder / 'metrics'}")[0])
    text, _ = ctl.run("top", *source, *words, "--read", "1x1s", "-o", "text", "--all")
    ((served, _, wanted),) = heads(text)
    gauges = metrics_in((folder / "metrics").read_text())
    gets, wants, starved = ({path: value for (name, path), value in gauges.items() if name == of}
                            for of in ("arbiter_plan_gets_cpus", "arbiter_plan_wants_cpus",
                                       "arbiter_starved"))
    leaves = [path for path in gets if path not in inner(gets)]
    assert Fraction(str(line["planned_cpus"])) == served == gets["."] == sum(
        gets[path] for path in leaves)
    assert Fraction(str(line["wanted_cpus"])) == wanted == wants["."]
    lacking, hungry = map(int, re.search(
        "all that they want: ([0-9]+), of these starved: ([0-9]+)", text).groups())
    assert sum(gets[path] < wants[path] for path in leaves) == lacking
    assert sum(starved[path] for path in leaves) == hungry
    # The rows of the table are these amounts, each once.
    shown = sorted(tuple(map(Fraction, each)) for each in re.findall(
        r"^ *([0-9.]+) +([0-9.]+) .*  \S.*$", text, re.M))
    assert shown == sorted((gets[path], wants[path]) for path in gets)
    if want:
        assert all(wants[path] == want(path) for path in wants)
    ended = ctl.ended("top", *source, *words, "--read", "1x1s", "--alert", "lack>0m")
    raised = json.loads(ended.stdout)["alerts"]
    assert {each["group"] for each in raised} == {
        path for path in leaves if gets[path] < wants[path]}
    assert ended.returncode == (5 if raised else 0)


@pytest.mark.parametrize("seed", range(3))
def test_a_round_of_a_tree(ctl, folder, seed):
    drawn = Drawn(200 + seed)
    (folder / "h.script").write_text(drawn.text)
    check_top(ctl, folder, [folder / "h.script"], [], lambda _: drawn.inner, drawn.want)


@pytest.mark.parametrize("seed", range(2))
def test_a_round_of_a_node(ctl, folder, seed):
    (folder / "n.json").write_bytes(random_node(random.Random(seed))[0])
    check_top(ctl, folder, [folder / "n.json"], ["--want", "busy"], lambda paths: {
        path.rpartition("/")[0] or "." for path in paths if path != "."})
