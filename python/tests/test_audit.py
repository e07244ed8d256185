"""Audit: worked amounts, holes, causes, Prometheus, the page, and what is refused."""
import http.server
import json
import re
import threading
import urllib.parse
from fractions import Fraction

import pytest
import test_drawn
import test_prometheus
import trees
from arbiter import Host
from arbiter_host.answers import placement
from arbiter_host.audit import answer, causes, intervals, ranges
from arbiter_host.audit.intervals import Cell, Interval
from arbiter_host.base.demands import CounterReading
from arbiter_host.base.faults import HostFault
from arbiter_host.base.model import Group, Model, host_of
from arbiter_host.sources import task_times, readings, prometheus
from laboratory import firm, kept
from places import PACKAGE

FIXTURES = PACKAGE / "tests/fixtures"
SECOND = 10**6
# The host of a plan of one second with slices of 1 ms, of one CPU and of two.
ONE, TWO = Host(1, SECOND, 1000), Host(2, SECOND, 1000)
# Counters of web and batch at three looks, 10 s apart: usage in seconds, then periods and throttled
# ones of web, and the seconds for which batch waited.
WEB = ((0, 0, 0), (5, 100, 40), (9.8, 200, 60))
BATCH = ((0, 0), (12, 2), (26, 8))


def usec(seconds):
    """Seconds in microseconds."""
    return round(seconds * SECOND)


def copies(folder, count=3):
    """Copies of a tree: web has weight 300 and half a CPU at most, batch has weight 100."""
    for at in range(count):
        top = folder / f"copy-{at}"
        trees.root2(top, usec(WEB[at][0] + BATCH[at][0] + at * 0.1))
        trees.group2(top / "web", 300, "50000 100000", 0, usec(WEB[at][0]), 2,
                     periods=WEB[at][1], throttled=WEB[at][2])
        trees.group2(top / "batch", 100, "max 100000", 0, usec(BATCH[at][0]), 2,
                     waited=usec(BATCH[at][1]))
    return [folder / f"copy-{at}" for at in range(count)]


def audited(ctl, *words):
    """What -o json says, and what is warned of."""
    out, err = ctl.run("audit", *words, "-o", "json")
    return json.loads(out), err


def by_group(found):
    """The groups of an answer by path."""
    return {each["group"]: each for each in found["groups"]}


# amounts

def test_amounts_by_hand(ctl, folder):
    """2000 slices of 1 ms on two CPUs.

    web: throttled in 40 of 100 periods it wants 500m * 100/60 = 833.3m, then 500m * 100/80 = 625m.
    It may have 500m and had 500m and 480m. batch: waited for a fifth of the time, so it had its
    1200m. Then it waited for six tenths, and wants 1400m / 0.4 = 3500m of two tasks. Of 2000m web
    has 500m, so 1500m are planned, and batch had 1400m.
    """
    found, err = audited(ctl, *copies(folder), "--read", "x10s", "--cpus", "2")
    groups = by_group(found)
    assert [each["group"] for each in found["groups"]] == ["batch", "web"]
    web, batch = groups["web"], groups["batch"]
    assert web["used_millicpu"] == [500, 480] and web["plan_millicpu"] == [500, 500]
    assert web["demand_millicpu"] == [833.333333, 625] and web["throttled"] == [40, 20]
    assert web["mean"] == {"used_cpus": 0.49, "plan_cpus": 0.5, "off_hundredths": -1,
                           "off_part": -0.02}
    assert web["worst"] == {"interval": 1, "used_cpus": 0.48, "plan_cpus": 0.5,
                            "off_hundredths": -2, "off_part": -0.04}
    assert batch["used_millicpu"] == [1200, 1400] and batch["plan_millicpu"] == [1200, 1500]
    assert batch["demand_millicpu"] == [1200, 3500] and batch["hungry"] == [False, True]
    assert batch["mean"] == {"used_cpus": 1.3, "plan_cpus": 1.35, "off_hundredths": -5,
                             "off_part": -0.037037}
    assert batch["worst"]["off_hundredths"] == -10 and batch["worst"]["off_part"] == -0.066667
    assert found["host"] == {"processors": 2, "period_usec": SECOND, "slice_usec": 1000}
    assert found["intervals"] == [{"from": f"{at} s", "seconds": 10, "unplanned_millicpu": 10}
                                  for at in (0, 10)]
    assert found["check"] == "accepted"
    # In the first interval batch waited for two of ten seconds, and nothing is known of its tasks.
    assert err == (f"arbiterctl: warning: {folder}/copy-0: groups that waited, and may have wanted"
                   " more than they used (--want psi), 1: batch\n")


def test_table(ctl, folder):
    """The same as a table, the group that was most off first."""
    out, _ = ctl.run("audit", *copies(folder), "--read", "x10s", "--cpus", "2")
    lines = out.split("\n")
    assert lines[:5] == [
        "2 CPUs, period 1000 ms, slice 1 ms (one slice is 1m)",
        "intervals: 2, each of 10 s; the proved check accepted each plan",
        "demands: use, raised where throttled or hungry, of each interval; weights: cpu.weight",
        "off: what a group used less its plan, in hundredths of a CPU and in parts of the plan",
        "used outside these groups, as a mean: 0.010 CPUs"]
    assert lines[6].split() == " ".join(each.title for each in answer.COLUMNS).split()
    assert lines[7].split()[:7] == ["1.300", "1.350", "-5.0", "-4%", "-10.0", "-7%", "2"]
    assert lines[8].split()[:7] == ["0.490", "0.500", "-1.0", "-2%", "-2.0", "-4%", "2"]
    assert [line.split()[-1] for line in lines[7:9]] == ["batch", "web"]


@pytest.mark.parametrize("off, planned, words", [
    (Fraction(-1, 10), 500, ("0.0", "0%")), (Fraction(6, 10), 500, ("+0.1", "0%")),
    (-10, 500, ("-1.0", "-2%")), (250, 500, ("+25.0", "+50%")), (10, 0, ("+1.0", "-"))])
def test_amounts_in_words(off, planned, words):
    """What is rounded to nothing has no sign."""
    found = cell(planned + off, planned)
    assert (answer.points(found.off), answer.percent(found.part)) == words


def test_another_rule_for_demands(ctl, folder):
    """By what was used nothing is off but what is above a limit. By psi each wait counts."""
    words = [*copies(folder), "--read", "x10s", "--cpus", "2", "--want"]
    assert by_group(audited(ctl, *words, "usage")[0])["batch"]["plan_millicpu"] == [1200, 1400]
    # 1200m / 0.8 is planned whole.
    assert by_group(audited(ctl, *words, "psi")[0])["batch"]["plan_millicpu"] == [1500, 1500]


def test_slices_that_are_asked_for(ctl, folder):
    """With slices of 10m the plan of 833.3m is cut at 500m, and 1204m are planned as 1210m."""
    found = copies(folder, 2)
    trees.group2(found[1] / "batch", 100, "max 100000", 0, usec(12.04), 2)
    data, _ = audited(ctl, *found, "--read", "x10s", "--cpus", "2", "--period", "100ms")
    assert data["host"]["period_usec"] == 100000
    batch = by_group(data)["batch"]
    assert batch["plan_millicpu"] == [1210] and batch["worst"]["off_hundredths"] == -0.6
    assert batch["cause"] == causes.SLICE


# holes

def test_holes(ctl, folder):
    """A group that came, went, or whose counter fell is left out there, and told."""
    found = copies(folder)
    for at, usage in ((1, 5), (2, 6)):
        trees.group2(found[at] / "came", usage=usec(usage))
    for at, usage in ((0, 5), (1, 6)):
        trees.group2(found[at] / "went", usage=usec(usage))
    for at, usage in ((0, 5), (1, 1), (2, 3)):
        trees.group2(found[at] / "fell", usage=usec(usage))
    data, err = audited(ctl, *found, "--read", "x10s", "--cpus", "2")
    groups = by_group(data)
    assert groups["came"]["used_millicpu"] == [None, 100]
    assert groups["went"]["used_millicpu"] == [100, None]
    assert groups["fell"]["used_millicpu"] == [None, 200]
    assert groups["fell"]["holes"] == {"0": readings.FELL} and groups["fell"]["intervals"] == 1
    assert "groups that came or went, left out there: 2: came (1), went (1)" in err
    assert "groups whose counters fell, left out there: 1: fell (1)" in err
    assert "groups or settings changed in intervals: 2" in err


def test_settings_that_change(ctl, folder):
    """The plan has those of the end of the interval: batch may have a CPU alone."""
    found = copies(folder)
    (found[2] / "batch/cpu.max").write_text("100000 100000\n")
    data, err = audited(ctl, *found, "--read", "x10s", "--cpus", "2")
    assert by_group(data)["batch"]["plan_millicpu"] == [1200, 1000]
    assert "groups or settings changed in intervals: 1" in err


# live

class World:
    """A tree of one group with a clock. In each round it uses a second, and its task waits."""

    def __init__(self, folder):
        self.top, self.now, self.proc = folder / "t", 0.0, folder / "proc"
        trees.root2(self.top)
        self.put(0)

    def put(self, rounds):
        used, waited = usec(rounds), usec(rounds * 3)
        trees.group2(self.top / "a", usage=used, threads=1, waited=waited)
        trees.group2(self.top / "b", usage=usec(rounds * 4), threads=1, waited=waited)
        for number, ran in ((100, rounds * 2), (101, rounds)):
            trees.put(self.proc / str(number), schedstat=f"{usec(ran)}000 {usec(rounds * 3)}000 1")

    def sleep(self, seconds):
        if seconds:
            self.now += seconds
            self.put(round(self.now / 5))


def looked(world, clock=None, sleep=None, number=4):
    """Looks at a tree, one each 5 s."""
    return intervals.collected(readings.readings_of(
        [str(world.top)], ONE, readings.Times(Fraction(5), number), True,
        clock or (lambda: world.now), sleep or world.sleep), number)


def test_live(folder, engine, monkeypatch):
    """Rounds of 5 s. b waited for 3 of 5 s, so its 800m were 2000m; it has one task, so 1000m.

    a is the same, and its task was seen: it ran for 2 s and waited for 3 s of each 5, so it wants
    200m / 0.4 = 500m. The single CPU has 1000 slices: 500 for each.
    """
    monkeypatch.setattr(task_times, "PROC", str(folder / "proc"))
    found = looked(World(folder))
    assert [each.name for each in found] == ["0 s", "5 s", "10 s", "15 s"]
    audit = intervals.audited(engine, found, None, set())
    cells = audit.intervals[0].cells
    assert (cells["a"].used, cells["a"].demand, cells["a"].planned) == (200, 500, 500)
    assert (cells["b"].used, cells["b"].demand, cells["b"].planned) == (800, 2000, 500)
    assert cells["b"].hungry and cells["b"].tasks == 1 and cells["b"].off == 300
    assert len(audit.intervals) == 3


def test_a_group_made_again_is_another(folder, engine):
    world = World(folder)

    def sleep(seconds):
        world.sleep(seconds)
        if round(world.now) == 10:
            (world.top / "a").rename(folder / "old")
            world.put(round(world.now / 5))

    audit = intervals.audited(engine, looked(world, sleep=sleep), None, set())
    assert [each.holes for each in audit.intervals] == [{}, {"a": readings.CAME}, {}]


def test_a_clock_that_goes_back(folder, engine):
    world = World(folder)
    # (each look asks once for each of three groups, and once for itself)
    clock = iter([0, 0, 5, 5, 5, 5, 0, 0, 1, 1, 1, 1])
    with pytest.raises(HostFault, match="the clock went back between two looks"):
        looked(world, lambda: next(clock), lambda _: None)
    found = list(readings.readings_of([str(world.top)] * 2, ONE, readings.Times(Fraction(5))))
    found[1].at = Fraction(0)
    with pytest.raises(HostFault, match="the clock went back"):
        intervals.audited(engine, found, None, set())


def test_each_group_has_its_own_time(folder, engine):
    """A look that takes 2 s: a is read 1 s after the root, and b after another. Each has used what
    it had until then, in the 10 s since it was read last."""
    world, calls = World(folder), []

    def clock():
        calls.append(None)
        return world.now + len(calls)

    tree = readings.Tree(str(world.top), ONE, clock)
    found = [tree.look()]
    world.now, before = 10.0, len(calls)
    world.put(2)
    calls.clear()
    found.append(tree.look())
    assert before == len(calls) == 4
    cells = intervals.audited(engine, found, None, set()).intervals[0].cells
    assert [found[1].counted[path][key].at for path in ".ab"
            for key in found[1].counted[path]] == [11, 12, 13] and found[1].at == 14
    assert (cells["a"].used, cells["b"].used) == (200, 800)


def test_a_look_that_takes_too_long(folder, engine):
    """One that takes 20 s leaves the times out that went by, and not a look."""
    world = World(folder)
    ticks = iter(range(0, 1000, 4))

    def clock():
        world.now = float(next(ticks))
        world.put(round(world.now / 5))
        return world.now

    found = looked(world, clock, lambda _: None, 3)
    audit = intervals.audited(engine, found, None, set())
    assert len(found) == 3 and all(each.seconds >= 16 for each in audit.intervals)


def test_live_by_the_command(ctl, folder):
    """A tree that does not change has no usage, which is told."""
    copies(folder, 1)
    out, err = ctl.run("audit", folder / "copy-0", "--read", "5x20ms", "--cpus", "2", status=1)
    assert (out, err.count("\n")) == ("", 1) and "no usage" in err


# causes

def cell(used=0, planned=0, demand=0):
    """A cell, in thousandths of a CPU."""
    return Cell(Fraction(used), Fraction(planned), Fraction(demand), 0, 0, False, 1)


def interval(host=ONE, seconds=1, groups=(), **cells):
    """An interval of groups with a quota or none."""
    model = Model(host)
    for path, quota in groups or [(path, None) for path in cells]:
        model.add(Group(path, quota=quota))
    return Interval("", Fraction(seconds), model,
                    {path.replace("_", "/"): each for path, each in cells.items()}, {}, None)


def cause(found, place=0, path="a"):
    """The likely cause in one of some intervals."""
    return causes.cause_of(found, place, path, causes.Outlooks(found))


@pytest.mark.parametrize("off, demand, expected", [
    (Fraction(9, 10), 1000, causes.SLICE), (1, 1000, causes.NOTHING), (-99, 900, causes.MOVED),
    (-100, 900, causes.NOTHING), (100, 1101, causes.MOVED), (100, 1100, causes.NOTHING)])
def test_cause_by_the_demand(off, demand, expected):
    """The demand of the interval beside has to differ by more than off."""
    here, beside = cell(500 + off, 500, 1000), cell(500, 500, demand)
    assert cause([interval(a=here), interval(a=beside)]) == expected
    assert cause([interval(a=beside), interval(a=here)], 1) == expected


@pytest.mark.parametrize("seconds, off, expected", [
    (1, 20, causes.PHASE), (1, -20, causes.PHASE), (1, 21, causes.NOTHING), (10, 2, causes.PHASE),
    (10, Fraction(21, 10), causes.NOTHING)])
def test_cause_by_periods(seconds, off, expected):
    """20 ms of quota are 20m of a second, and 2m of ten. A limit above counts too."""
    own = interval(seconds=seconds, groups=[("a", 20000)], a=cell(500 + off, 500))
    assert cause([own]) == expected
    above = interval(seconds=seconds, groups=[("p", 20000), ("p/a", None)],
                     p_a=cell(500 + off, 500))
    assert cause([above], path="p/a") == expected


@pytest.mark.parametrize("low, high, firm, used, expected", [
    (0.4, 0.6, False, 600, causes.PLACEMENT), (0.4, 0.6, False, 601, causes.NOTHING),
    (0.4, 0.6, False, 400, causes.PLACEMENT), (0.4, 0.6, False, 399, causes.NOTHING),
    (0.4, 0.6, True, 600, causes.NOTHING), (0.6, 0.7, False, 502, causes.PLACEMENT)])
def test_cause_by_placement(monkeypatch, low, high, firm, used, expected):
    """What it used is in its range, in which the plan of 500m is too."""
    monkeypatch.setattr(placement, "outlook", lambda _: placement.Outlook(
        {"a": placement.Bounds(low, high, firm)}))
    assert cause([interval(TWO, a=cell(used, 500))]) == expected


def test_placement_is_asked_of_the_model_with_periods_of_a_tenth(monkeypatch):
    """The host, the demands and the tasks of the interval, and not of another."""
    asked = []
    monkeypatch.setattr(placement, "outlook", lambda model: asked.append(model) or
                        placement.Outlook({}, "too many groups, tasks and CPUs"))
    found = [interval(TWO, a=cell(510, 500, 700)), interval(TWO, a=cell(520, 500, 800))]
    outlooks = causes.Outlooks(found)
    for place in (1, 1, 0):
        causes.cause_of(found, place, "a", outlooks)
    assert [placement.shape_of(each).period for each in asked] == [0.1] * 2
    assert [(each.groups["a"].demand, each.groups["a"].tasks) for each in asked] == [
        (800, 1), (700, 1)]
    assert list(outlooks.why_not) == ["too many groups, tasks and CPUs"]


def test_placement_is_tried_for_some_intervals_alone(monkeypatch):
    monkeypatch.setattr(causes, "MOST_TRIED", 2)
    monkeypatch.setattr(placement, "outlook", lambda _: placement.Outlook(
        {"a": placement.Bounds(0.4, 0.6, False)}))
    found = [interval(TWO, a=cell(510, 500)) for _ in range(3)]
    outlooks = causes.Outlooks(found)
    assert [causes.cause_of(found, place, "a", outlooks) for place in range(3)] == [
        causes.PLACEMENT, causes.PLACEMENT, causes.NOTHING]
    assert list(outlooks.why_not) == ["tried for 2 intervals alone"]


# Prometheus

def matrix(*series):
    """An answer to a range query: labels and values of each series."""
    return {"status": "success", "data": {"resultType": "matrix", "result": [
        {"metric": labels, "values": values} for labels, values in series]}}


@pytest.fixture
def serve():
    """Starts a server that answers range queries by their text, and notes what it is asked."""
    servers = []

    def start(answers):
        class Answers(http.server.BaseHTTPRequestHandler):
            """Answers each query with its matrix, and all others with none."""

            def do_GET(self):
                asked = urllib.parse.parse_qs(urllib.parse.urlparse(self.path).query)
                server.asked.append({key: each[0] for key, each in asked.items()})
                body = json.dumps(answers.get(asked["query"][0], matrix()))
                self.send_response(200)
                self.end_headers()
                self.wfile.write(body.encode())

            def log_message(self, *_):
                pass

        server = http.server.ThreadingHTTPServer(("127.0.0.1", 0), Answers)
        server.asked = []
        threading.Thread(target=server.serve_forever, daemon=True).start()
        servers.append(server)
        return f"http://127.0.0.1:{server.server_port}", server.asked

    yield start
    for server in servers:
        server.shutdown()
        server.server_close()


USAGE = ranges.USAGE
PERIODS, THROTTLED = (ranges.METRICS[key] for key in ("periods", "throttled"))
RANGE = ["--range", "1000/1120", "--step", "60s"]
HOST = b'[host]\ncpus = 2\n[groups.web]\nmax = "500m"\n[groups.db]\n'


def values(*found, step=60):
    """Values of each step from 1000 on; None is left out."""
    return [[1000 + step * at, str(each)] for at, each in enumerate(found) if each is not None]


def test_a_range_by_hand(ctl, serve):
    """In 60 s web used 30 s and was throttled in 150 of 600 periods, then 24 s in none.

    It wants 500m * 600/450 = 666.7m and has 500m. Then 400m are all that it wanted. db used 60 s,
    and its second sample is no number.
    """
    url, asked = serve({
        USAGE: matrix(({"__name__": USAGE, "pod": "web"}, values(10, 40, 64)),
                      ({"__name__": USAGE, "pod": "db"}, values(0, 60, "NaN"))),
        PERIODS: matrix(({"pod": "web"}, values(0, 600, 1200))),
        THROTTLED: matrix(({"pod": "web"}, values(0, 150, 150)))})
    out, err = ctl.run("audit", "-", "--used", url, *RANGE, "-o", "json", given=HOST)
    found = json.loads(out)
    groups = by_group(found)
    assert groups["web"]["used_millicpu"] == [500, 400]
    assert groups["web"]["demand_millicpu"] == [666.666667, 400]
    assert groups["web"]["plan_millicpu"] == [500, 400]
    assert groups["db"]["used_millicpu"] == [1000, None]
    assert groups["db"]["holes"] == {"1": readings.CAME}
    assert [each["from"] for each in found["intervals"]] == ["1000", "1060"]
    assert {each["query"] for each in asked} == set(ranges.METRICS.values())
    assert all(each["step"] == "60s" for each in asked)
    assert "left out there: 1: db (1)" in err and "pressure is not measured" in err


def test_times_of_samples(ctl, serve):
    """A sample is older than its step. web's two are 50 s apart; db has no new one at the second
    step."""
    url, _ = serve({
        f'{USAGE}{{node="n1"}}': matrix(({"pod": "web"}, values(0, 10)),
                                        ({"pod": "db"}, values(0, 0))),
        f'timestamp({USAGE}{{node="n1"}})': matrix(({"pod": "web"}, values(990, 1040)),
                                                   ({"pod": "db"}, values(995, 995)))})
    out, err = ctl.run("audit", "-", "--used", url, *RANGE, "--query", '{node="n1"}',
                       "-o", "json", given=HOST)
    groups = by_group(json.loads(out))
    assert groups["web"]["used_millicpu"] == [200] and "db" not in groups
    assert "groups without a new sample, left out there: 1: db (1)" in err


def test_limits_and_tasks_of_a_range(serve):
    """The limit is that of the step, and threads of a container bound what it can use."""
    url, _ = serve({
        USAGE: matrix(({"pod": "web"}, values(0, 60, 120))),
        ranges.METRICS["quota"]: matrix(({"pod": "web"}, values(50000, 50000, 70000))),
        ranges.METRICS["period"]: matrix(({"pod": "web"}, values(100000, 100000, 100000))),
        ranges.METRICS["tasks"]: matrix(({"pod": "web"}, values(3, 3, 4)))})
    model = Model(TWO)
    model.add(Group("web"))
    server = ranges.Prometheus(url, "", prometheus.QueryRange("1000", "1120", 60))
    found, notes = ranges.readings_of(server, model)
    assert [each.model.groups["web"].quota for each in found] == [50000, 50000, 70000]
    assert [each.tasks for each in found] == [{"web": 3}, {"web": 3}, {"web": 4}]
    found = intervals.collected(found)
    assert (found[0].model is found[1].model, notes) == (True, [])


def test_tasks_of_the_source(engine):
    """Where none were counted the tasks are those of the source: 5 of 2 CPUs are wanted by one."""
    model = Model(TWO)
    model.add(Group("a", tasks=1))
    seen = [readings.TreeReading(Fraction(at), model, {"a": {"": readings.Counted(
        CounterReading(usec(0.5 * at), 0, 0, usec(0.9 * at)))}}) for at in (0, 1)]
    cells = intervals.audited(engine, seen, None, set()).intervals[0].cells
    assert (cells["a"].demand, cells["a"].tasks, cells["a"].planned) == (5000, 1, 1000)


def test_while_the_server_was_away(ctl, serve):
    """From 1060 to 1240 nothing was measured: that is no interval of a minute."""
    url, _ = serve({USAGE: matrix(({"pod": "web"}, values(0, 6, None, None, 9, 12)))})
    out, err = ctl.run("audit", "-", "--used", url, *RANGE, "-o", "json", given=HOST)
    assert by_group(json.loads(out))["web"]["used_millicpu"] == [100, None, 50]
    assert f"{intervals.AWAY}, left out there: 1: web (1)" in err


def test_containers_of_pods(ctl, serve):
    """By namespace, pod and container. A restarted container is another series; pause containers
    and groups above are no groups of their own; what is not here is told."""
    def labels(container, identifier, pod="db-0"):
        return {"namespace": "prod", "pod": pod, "container": container, "id": identifier,
                "cpu": "total"}

    url, _ = serve({USAGE: matrix(
        (labels("postgres", "/kubepods.slice/a"), values(0, 60, 90, 90)),
        (labels("postgres", "/kubepods.slice/b"), values(None, None, 0, 30)),
        (labels("POD", "/kubepods.slice/pause"), values(0, 1, 2, 3)),
        (labels("", "/kubepods.slice/kubepods-pod1.slice"), values(0, 61, 92, 123)),
        ({"id": "/"}, values(0, 70, 140, 210)),
        (labels("other", "/kubepods.slice/c", "elsewhere-1"), values(0, 1, 2, 3)))})
    out, err = ctl.run("audit", FIXTURES / "pods.json", FIXTURES / "node.json", "--used", url,
                       *RANGE, "-o", "json")
    found, = json.loads(out)["groups"]
    assert found["title"] == "prod/db-0/postgres"
    assert found["used_millicpu"] == [1000, None, 500]
    assert "series of no group here, 1: prod/elsewhere-1/other" in err
    assert "groups of which nothing is measured, 5:" in err


def test_docker_and_folders(serve):
    """A series without a container belongs to the group of its folder, or of its name."""
    model = Model(TWO)
    for path, place in (("web", "system.slice/docker-1.scope"), ("db", ""), ("cache", "")):
        model.add(Group(path, place=place))
    url, _ = serve({USAGE: matrix(
        ({"id": "/system.slice/docker-1.scope", "name": "db"}, values(0, 6)),
        ({"id": "/docker/2", "name": "db"}, values(0, 12)),
        ({"id": "/cache"}, values(0, 18)))})
    server = ranges.Prometheus(url, "", prometheus.QueryRange("1", "2", 60))
    found, _ = ranges.readings_of(server, model)
    risen = {path: next(iter(each.values())).reading.usage
             for path, each in found[1].counted.items()}
    assert risen == {"web": 6 * SECOND, "db": 12 * SECOND, "cache": 18 * SECOND}


def test_a_recorded_block(ctl, folder):
    """A real Prometheus, where Debian's package is here. web has at most one CPU of two."""
    with test_prometheus.running(folder, test_prometheus.recorded()) as url:
        end = test_prometheus.BEGIN + test_prometheus.STEP * (test_prometheus.COUNT - 1)
        out, _ = ctl.run("audit", "-", "--used", url, "--range", f"{test_prometheus.BEGIN}/{end}",
                         "--step", "5m", "-o", "json", given=HOST)
    groups = by_group(json.loads(out))
    assert groups["web"]["used_millicpu"] == [500, 500, 2000, 2000, 2000]
    assert groups["web"]["plan_millicpu"] == [500] * 5
    assert groups["db"]["used_millicpu"] == groups["db"]["plan_millicpu"] == [100] * 5


# runs of guests

def kept_look(at, model, runs):
    """A look at a host that had the runs before it, 10,000 s each. Each group waited for what it
    lacked, so that its demand is that of the run."""
    span, counted = 10**4, {}
    for path in runs[0]["groups"]:
        wants = float(model.groups[path].usable) / 1000
        had = [run["groups"][path][1] for run in runs[:at]]
        waited = sum(max(0, 1 - each / wants) for each in had)
        counted[path] = {"": readings.Counted(CounterReading(usec(sum(had) * span), 0, 0,
                                                   usec(waited * span)))}
    tasks = {path: model.groups[path].tasks for path in counted}
    return readings.TreeReading(Fraction(at * span), model, counted, tasks)


def kept_audit(engine, name):
    """The audit of all kept runs of a host, an interval for each, and what each was off then."""
    found = kept.kept()
    runs = [run for run in found["runs"] if run["host"] == name]
    model = firm.host_of(found["hosts"][name])
    model = model.with_host(host_of(engine.library, model.host.processors))
    seen = [kept_look(at, model, runs) for at in range(len(runs) + 1)]
    return intervals.audited(engine, seen, "psi", set()), [
        {path: 100 * (had - share) for path, (share, had) in run["groups"].items()}
        for run in runs]


def test_kept_runs_are_as_far_off(engine):
    """Each run is as far off as docs/LINUX.md was made of. There the share is that of the time
    that other tasks left, which used at most half a percent of it."""
    for name, host in kept.kept()["hosts"].items():
        audit, runs = kept_audit(engine, name)
        for found, off in zip(audit.intervals, runs, strict=True):
            for path, each in found.cells.items():
                assert abs(float(each.off) / 10 - off[path]) <= 0.5 * host["processors"], (
                    name, path, float(each.off), off[path])


@pytest.mark.parametrize("name, least, most", [
    # one task against two or three, three and five with one each: most within 5.4, all in 10.8
    ("two-one-two", 3, 10.8), ("two-one-three", 3, 10.8), ("two-three-tasks", 3, 10.8),
    ("two-five", 3, 10.8),
    # idle time among the groups; beside and below limits
    ("two-demands", 10, 15), ("two-pod", 5, 36.6), ("four-limits", 5, 24.1),
    # a limit that binds, and as many tasks as CPUs: most within a point
    ("two-nested", 0, 1), ("trial-71-two-cpus-limit", 0, 1), ("trial-61-two-cpus-weights", 0, 1)])
def test_rows_of_the_page(engine, name, least, most):
    """The group that was most off is as far off as the row of docs/LINUX.md says."""
    audit, _ = kept_audit(engine, name)
    worst = max(abs(each.off) for found in audit.intervals for each in found.cells.values())
    assert least <= worst / 10 <= most


@pytest.mark.parametrize("name", ["two-one-three", "two-five", "two-demands"])
def test_likely_cause_of_kept_runs(engine, name):
    """By where tasks run, as the page has it, for all groups that are off by a point or more."""
    audit, _ = kept_audit(engine, name)
    rows = [row for row in answer.ranked(audit).rows if abs(row.most.off) >= 10]
    assert len(rows) >= 2 and {row.cause for row in rows} == {causes.PLACEMENT}


# the page

def test_page(ctl, folder):
    """One page without an address, with both lines of each group over time."""
    ctl.run("audit", *copies(folder), "--read", "x10s", "--cpus", "2", "-o",
            f"html={folder}/a.html")
    text = (folder / "a.html").read_text()
    assert not re.search(r"(src|href)=|url\(|@import|https?://", text)
    assert text.count("<figure>") == text.count("</figure>") == 2
    drawn = re.findall(r"<svg width.*?</svg>", text, re.S)
    # 1.35 CPUs are drawn from 146 down to 12 for 1.5: 1.2 at 38.8, 1.5 at 12, 1.4 at 20.9.
    assert 'd="M52 38.8 L240 38.8 L240 12 L428 12"' in drawn[0]
    assert 'd="M52 38.8 L240 38.8 L240 20.9 L428 20.9"' in drawn[0]
    assert 'data-head="worst off">-10.0</td>' in text
    # As means 0.5 and 1.35 CPUs were planned, and 0.49 and 1.3 used.
    assert re.findall("<dt>(.*?)</dt><dd>(.*?)</dd>", text) == [
        ("planned", "1.850"), ("left", "0.150"), ("capacity", "2.000"), ("used", "1.790"),
        ("capacity", "2.000")]


def test_pictures_of_the_page(engine):
    """What is off by less than a slice has none beside others. The others have one scale, or say
    that they have their own. The path that all share stands above them."""
    model = Model(TWO)
    for name in ("t", "t/a", "t/b", "t/c", "t/d"):
        model.add(Group(name))
    cells = {"t/a": cell(800, 10), "t/b": cell(400, 10), "t/c": cell(50, 10),
             "t/d": cell(Fraction(5001, 10), 500)}
    found = [Interval("0 s", Fraction(1), model, cells, {}, None)]
    text = answer.page(answer.ranked(intervals.Audit(found, intervals.plan(engine, model))), "x")
    names = [" ".join(re.sub("<.*?>", " ", each).split())
             for each in re.findall("<figcaption>(.*?)</figcaption>", text)]
    assert names == ["a not explained", "b not explained",
                     "c not explained own scale, to 0.05: the others go to 0.8"]
    assert text.count("Below t:") == 2 and text.count("t/a") == 1


def test_pictures_where_nothing_is_off(engine):
    """Those of the groups that used most. The begin of each interval stands where it is: the
    second of two begins in the middle of 52 to 428."""
    model = Model(TWO)
    for name in ("t", *(f"t/{letter}" for letter in "abcdef")):
        model.add(Group(name))
    cells = {f"t/{letter}": cell(used, used) for letter, used in zip(
        "abcdef", (10, 400, 300, 20, 500, 270))}
    found = [Interval(f"{at} s", Fraction(5), model, cells, {}, None) for at in (0, 5)]
    text = answer.page(answer.ranked(intervals.Audit(found, intervals.plan(engine, model))), "x")
    assert "in CPUs, the greatest use first: nothing is off by a slice</h2>" in text
    names = [re.sub("<.*?>", " ", each).split()[0]
             for each in re.findall("<figcaption>(.*?)</figcaption>", text)]
    assert names == ["e", "b", "c", "f"]
    at = re.findall(r'<text x="([0-9.]+)"[^>]*middle[^>]*>([0-9]) s<', text)
    assert at[0][1] == "0" and 52 < float(at[0][0]) < 70 and at[1] == ("240", "5")


def told_of(names, cells=2):
    """An audit of groups with such names."""
    model = Model(TWO)
    for name in names:
        model.add(Group(name))
    found = [Interval(f"{at} s", Fraction(1), model,
                      {name: cell(600 + at, 500) for name in names}, {}, None)
             for at in range(cells)]
    return found


def test_page_escapes_names(engine):
    names = ["<script>alert(1)<|script>", "\x1b\u202e\"'", "\u6f22" * 60]
    audit = intervals.Audit(told_of(names), intervals.plan(engine, told_of(names)[0].model))
    text = answer.page(answer.ranked(audit), "<i>")
    assert "<script>alert" not in text and "<i>" not in text
    assert "\x1b" not in text and "\u202e" not in text


@pytest.mark.parametrize("mode", ["light", "dark"])
@pytest.mark.parametrize("width", [400, 500, 1280])
def test_page_is_legible_in_a_browser(ctl, folder, chromium, width, mode):
    """As the page of `report`: nothing overlaps, is cut or too faint. So are texts of pictures."""
    found = copies(folder)
    ctl.run("audit", *found, "--read", "x10s", "--cpus", "2", "-o", f"html={folder}/p.html")
    prefers = ["--blink-settings=preferredColorScheme=0"] if mode == "dark" else []
    look = test_drawn.LOOK.replace("'p,th,", "'svg text,figcaption,p,th,").replace(
        "getComputedStyle(each).color", "(each.tagName==='text'?getComputedStyle(each).fill:"
        "getComputedStyle(each).color)")
    assert "svg text" in look and "fill" in look
    small = ("for(const each of document.querySelectorAll('svg text'))"
             "if(each.getBoundingClientRect().height<10)wrong.push('small: '+each.textContent);")
    text = (folder / "p.html").read_text()
    seen = test_drawn.seen_in(chromium, folder, text, look.replace("const heads=", small +
                                                                   "const heads="), width, *prefers)
    assert seen == {"wrong": [], "width": width, "isDark": mode == "dark", "heads": 0}


def test_an_answer_in_several_forms(ctl, folder):
    """The page in a file, and the same as JSON on standard output."""
    out, _ = ctl.run("audit", *copies(folder), "--read", "x10s", "--cpus", "2", "-o", "json", "-o",
                     f"html={folder}/a.html")
    assert json.loads(out)["check"] == "accepted" and (folder / "a.html").stat().st_size > 1000


# what is refused

@pytest.mark.parametrize("words, status, told", [
    (["C0"], 2, "--read: how often and how long this tree is read"),
    (["C0", "C1"], 2, "--read: the time from one copy to the next"),
    (["C1", "C0", "--read", "x10s"], 1, "copy-0: all its counters are below"),
    (["C0", "C0", "--read", "x10s"], 1, "no usage"),
    (["C0", "NONE", "--read", "x10s"], 1, "none: No such file or directory"),
    (["C0", __file__, "--read", "x10s"], 2, "no folder"),
    (["C0", "EMPTY", "--read", "x10s"], 1, "no cgroup tree"),
    (["C0", "C1", "--read", "x0"], 2, "--read: a time above 0"),
    (["C0", "--read", "x1s"], 2, "2 or more"), (["C0", "--read", "1x1s"], 2, "2 or more"),
    (["C0", "C1", "--read", "x10s", "--node", "n"], 2, "--node: it has no effect"),
    (["C0", "C1", "--read", "x10s", "--range", "1d"], 2, "--range: it needs --used"),
    (["C0", "C1", "--read", "x10s", "--want", "request"], 1, "--want request: nothing was read"),
    (["--used", "http://127.0.0.1:1"], 2, "--used: it belongs to a SOURCE"),
    (["C0", "--used", "ftp://x"], 2, "not http:// or https://"),
    (["C0", "--used", "http://127.0.0.1:1", "--range", "1/2", "--query", "sum("],
     2, "--query: a selector of series"),
])
def test_what_is_refused(ctl, folder, words, status, told):
    """One line says what to do, and no file is written."""
    copies(folder)
    (folder / "empty").mkdir()
    places = {"C0": folder / "copy-0", "C1": folder / "copy-1", "NONE": folder / "none",
              "EMPTY": folder / "empty"}
    out, err = ctl.run("audit", *(places.get(word, word) for word in words), "--cpus", "2",
                       "-o", f"html={folder}/a.html", status=status)
    assert out == "" and told in err and err.count("\n") == 1
    assert not (folder / "a.html").exists()


@pytest.mark.parametrize("answers, told", [
    ({}, f"no {USAGE} from 1000 to 1120: ask for another range"),
    ({USAGE: matrix(({"pod": "web"}, values("NaN", "NaN")))}, "ask for another range"),
    ({USAGE: matrix(({"pod": "web"}, values(7, 7, 7)))}, "no usage"),
    ({USAGE: matrix(({"pod": "web"}, values(7)))}, "one look alone"),
    ({USAGE: matrix(({"pod": "web"}, values(7, 6, 5)))}, "no usage"),
    ({USAGE: matrix(({"pod": "web"}, values(7, "lots")))}, "'lots' is no number"),
    ({USAGE: matrix(({"pod": "x\x1b[31m"}, values(7, 8)))},
     "series of no group here, 1: x\\x1b[31m"),
    ({USAGE: matrix(({"pod": "web"}, [[1060, "1"], [1000, "2"]]))},
     "the times of a series go back"),
    ({USAGE: matrix(({"pod": "web"}, [["NaN", "1"], [1000, "2"]]))}, "no answer to a range query"),
    ({USAGE: {"status": "success", "data": {}}}, "no answer to a range query"),
    ({USAGE: [1]}, "no answer to a range query"),
    ({USAGE: matrix(({"pod": "web"}, values("1e999", "-5", "1e300")))}, "ask for another range"),
])
def test_ranges_that_are_refused(ctl, serve, folder, answers, told):
    url, _ = serve(answers)
    out, err = ctl.run("audit", "-", "--used", url, *RANGE, "-o", f"html={folder}/a.html",
                       given=HOST, status=1)
    assert out == "" and told in err and "\x1b" not in err and err.count("\n") == 1
    assert not (folder / "a.html").exists()


def test_too_many_looks(folder, monkeypatch):
    world = World(folder)
    monkeypatch.setattr(intervals, "MOST_COUNTED", 5)
    with pytest.raises(HostFault, match="3 looks at 2 groups are too many"):
        intervals.collected(readings.readings_of([str(world.top)] * 3, TWO, readings.Times()))
    # Before the first interval is waited for.
    with pytest.raises(HostFault, match="61 looks at 2 groups are too many"):
        looked(world, number=61)
    assert world.now == 0
