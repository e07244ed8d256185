"""Each column of a table adds up to what the lines above it say, in every form, on random hosts.

The sums are made here, of cells as they are written.
"""
import csv
import io
import json
import random
import re
from fractions import Fraction

import pytest
import trees
from arbiter import Host
from arbiter_host.audit import answer, intervals
from arbiter_host.audit.intervals import Interval
from arbiter_host.base.model import Group, Model
from arbiter_host.fleet import report
from test_audit import cell
from test_cluster import cluster, node, pending, running
from test_figures import random_node

# Amounts of many hosts have two decimals.
ROUNDED = Fraction(5, 1000)


def cells(page, title=""):
    """The rows of a page's tables: their cells by the names of the columns."""
    part = page[page.index(f"<h2>{title}") if title else 0:]
    part = part[:part.index("</table>")] if title else part
    rows = [re.findall(r'data-head="([^"]*)"[^>]*>([^<]*)', row)
            for row in re.findall(r"<tr.*?</tr>", part, re.S)]
    return [dict(row) for row in rows]


def table(text, title):
    """The rows of a table of text below its title: their words."""
    lines = text[text.index(f"{title}:\n"):].split("\n")[1:]
    return [line.split() for line in lines[:lines.index("") if "" in lines else len(lines)] if line]


@pytest.mark.parametrize("seed", range(3))
def test_the_groups_of_a_host(ctl, folder, seed):
    """Groups without children get what the host serves, and those that get less are counted."""
    (folder / "n.json").write_bytes(random_node(random.Random(seed))[0])
    text, _ = ctl.run("explain", folder / "n.json", "--want", "busy", "--all", "-o", "text", *(
        word for form in ("json", "csv", "html") for word in ("-o", f"{form}={folder / form}")))
    served, lacking = (re.search(f"{words}", text)[1] for words in (
        r"([0-9.]+) of [0-9.]+ CPUs served", "groups without all that they want: ([0-9]+)"))
    by_text = [tuple(map(Fraction, row))
               for row in re.findall(r"^ *([0-9.]+) +([0-9.]+) .*  \S.*$", text, re.M)]
    data = [(Fraction(str(each["gets"]["millicpu"])) / 1000,
             Fraction(str(each["wants"]["millicpu"])) / 1000, each["group"])
            for each in json.loads((folder / "json").read_text())["groups"]]
    inner = {path.rpartition("/")[0] or "." for _, _, path in data if path != "."}
    own = [(gets, wants) for gets, wants, path in data if path not in inner]
    assert sum(gets for gets, _ in own) == Fraction(served)
    assert sum(gets < wants for gets, wants in own) == int(lacking)
    # The same amounts, each once, stand in the rows of text, of CSV and of the page.
    amounts = sorted((gets, wants) for gets, wants, _ in data)
    assert sorted(by_text) == amounts
    reader = list(csv.DictReader(io.StringIO((folder / "csv").read_text())))
    assert len(reader) == len(data)
    page = cells((folder / "html").read_text())
    assert len([row for row in page if row.get("gets")]) >= len(inner)


def random_cluster(chance):
    """Nodes with pods of several makers, of which one is scaled, and pods that wait."""
    items = [{"kind": "HorizontalPodAutoscaler", "metadata": {"namespace": "s", "name": "h"},
              "spec": {"scaleTargetRef": {"kind": "StatefulSet", "name": "m0"}}}]
    for host in range(chance.randint(2, 5)):
        items.append(node(f"n{host}", str(chance.choice([1, 2, 4]))))
        for at in range(chance.randint(0, 9)):
            maker = chance.choice(["m0", "m1", "m2"])
            items.append(running(f"{maker}-{host}{at}", f"n{host}", f"{chance.randint(1, 400)}m",
                                 chance.choice("st"), ("StatefulSet", maker)))
    return [*items, *(pending(f"w{at}", f"{chance.randint(1, 2000)}m") for at in range(4))]


@pytest.mark.parametrize("seed", range(3))
def test_hosts_and_workloads(ctl, folder, seed):
    """Hosts and workloads each add up to the head; requests to those of the pods; and the pods that
    wait are either placed or not."""
    items, page = random_cluster(random.Random(seed)), folder / "page"
    text, _ = ctl.run("explain", "-", "--workers", "0", "--all", "--want", "busy", "-o", "text",
                      "-o", f"json={folder / 'data'}", "-o", f"html={page}", given=cluster(*items))
    found, page = json.loads((folder / "data").read_text()), page.read_text()
    served, wanted, groups = re.search(
        r"([0-9.]+) of [0-9.]+ CPUs served, ([0-9.]+) wanted, groups: ([0-9]+)", text).groups()
    hosts, fleet = found["hosts"], found["fleet"]
    assert sum(each["groups"] for each in hosts) == fleet["groups"] == int(groups)
    per = sum(Fraction(each["served"] * each["slice_usec"], each["period_usec"]) for each in hosts)
    loads = fleet["workloads"]
    asked = sum(int(each["spec"]["containers"][0]["resources"]["requests"]["cpu"][:-1])
                for each in items if "nodeName" in each.get("spec", {}))
    assert sum(each["request_millicpu"] for each in loads) == asked
    by_load = sum(Fraction(str(each["served_cpus"])) for each in loads)
    assert by_load == per == Fraction(str(fleet["served_cpus"]))
    for title, at, key in (("Hosts, the greatest lack first", 2, "served"),
                           (report.LOADS_TITLE, -3, "served")):
        if title.startswith("W") and not loads:
            continue
        shown = [Fraction(row[at]) for row in table(text, title)[1:]]
        assert abs(sum(shown) - Fraction(served)) <= ROUNDED * (len(shown) + 1)
        on_page = [Fraction(row[key]) for row in cells(page, title) if row.get(key) not in (
            None, "", key)]
        assert on_page == shown
    assert abs(Fraction(str(fleet["wanted_cpus"])) - Fraction(wanted)) <= ROUNDED
    rows = found["pending"]
    told = re.search("pods that no node has yet: ([0-9]+), unplaced: ([0-9]+)", text).groups()
    assert tuple(map(int, told)) == (len(rows), sum(row["host"] is None for row in rows))
    for host in hosts:
        new = sum(row["request_millicpu"] for row in rows if row["host"] == host["host"])
        taken = sum(int(each["spec"]["containers"][0]["resources"]["requests"]["cpu"][:-1])
                    for each in items if each.get("spec", {}).get("nodeName") == host["host"])
        assert not new or taken + new <= 1000 * host["cpus"]


@pytest.mark.parametrize("seed", range(2))
def test_requests_that_are_proposed(ctl, folder, seed):
    """What rows request now and then, times their containers, is what the head says of all pods."""
    chance = random.Random(seed)
    items = [each for each in random_cluster(chance) if each["kind"] in ("Node", "Pod")
             and each.get("status", {}).get("phase") != "Pending"]
    pods = [each for each in items if each["kind"] == "Pod"]
    (folder / "c.json").write_bytes(cluster(*items))
    (folder / "top").write_text("NAMESPACE POD NAME CPU(cores)\n" + "".join(
        f"{each['metadata']['namespace']} {each['metadata']['name']} c {chance.randint(1, 300)}m\n"
        for each in pods))
    text, _ = ctl.run("recommend", folder / "c.json", "--used", folder / "top", "-o", "text", "-o",
                      f"json={folder / 'data'}")
    now, then = map(int, re.search("requests of all pods: ([0-9]+)m now, ([0-9]+)m then",
                                   text).groups())
    rows = json.loads((folder / "data").read_text())["containers"]
    assert sum(len(each["groups"]) for each in rows) == len(pods)
    assert now == sum(int(each["spec"]["containers"][0]["resources"]["requests"]["cpu"][:-1])
                      for each in pods)
    assert then == sum(each["recommended"]["request_millicpu"] * len(each["groups"])
                       for each in rows)


@pytest.mark.parametrize("seed", range(3))
def test_a_change_of_many_hosts(ctl, seed):
    """What changed groups and others get more is what all hosts serve more."""
    items = random_cluster(random.Random(seed))
    out, _ = ctl.run("diff", "-", "--set", "s/m0-*/c.request=700m", "--want", "busy", "--workers",
                     "0", "-o", "json", given=cluster(*items))
    found = json.loads(out)
    rise = 0
    for host in found["hosts"]:
        more = host["after"]["served"] - host["before"]["served"]
        assert more == host["changed_groups"] + host["others"] == sum(
            by * count for by, count in host["changes"])
        rise += Fraction(more * host["slice_usec"], host["period_usec"])
    fleet = found["fleet"]
    assert abs(Fraction(str(fleet["after_cpus"])) - Fraction(str(fleet["before_cpus"])) - rise
               ) < Fraction(1, 10**5)


@pytest.mark.parametrize("seed", range(2))
def test_hosts_for_a_pod(ctl, folder, seed):
    """Hosts that take a pod, and those that cannot, are all. The ones that are whole are counted by
    rows. Each has left what all get less than its capacity."""
    items, page = random_cluster(random.Random(seed)), folder / "page"
    (folder / "c.json").write_bytes(cluster(*items))
    (folder / "pod.json").write_text(json.dumps(pending("new", "700m")))
    text, _ = ctl.run("place", folder / "c.json", "--pod", folder / "pod.json", "--workers", "0",
                      "--want", "busy", "--all", "-o", "text", "-o", f"json={folder / 'data'}",
                      "-o", f"html={page}")
    hosts = json.loads((folder / "data").read_text())["hosts"]
    pods = {each["host"]: each["pods"][0] for each in hosts}
    taken = {host: each for host, each in pods.items() if "why" not in each}
    whole, of = map(int, re.search("loss to others: ([0-9]+) of ([0-9]+)", text).groups())
    cannot = re.search("that cannot take it: ([0-9]+)", text)
    assert of == len(hosts) == len(taken) + int(cannot[1] if cannot else 0)
    assert whole == sum(each["gets"] == each["wants"] and not each["lost"]
                        for each in taken.values())
    for each in hosts:
        if each["host"] in taken:
            pod = taken[each["host"]]
            served = each["before"]["served"] + pod["gets"] - pod["lost"]
            assert pod["left"] == each["capacity"] - served
            assert pod["lost"] == sum(by for _, by in pod["losers"]) or pod["losing"] > 5
    title = f"Where {folder / 'pod.json'} would go, the best first"
    rows = {row[0]: row[1:4] for row in table(text, title)[1:]}
    assert {host: [f"{each[key] * 1e-3:.2f}" for key in ("gets", "wants", "lost")]
            for host, each in taken.items()} == rows
    on_page = [row for row in cells(page.read_text(), title) if row.get("gets")]
    assert [[row[key] for key in ("gets", "wants", "others lose")] for row in on_page] == [
        *rows.values()]


@pytest.mark.parametrize("seed", range(3))
def test_groups_of_an_audit(engine, seed):
    """What rows used and were planned, as means, is what the bars of the page say."""
    chance, model = random.Random(seed), Model(Host(8, 1000000, 1000))
    names = [f"g{at}" for at in range(chance.randint(2, 9))]
    for name in names:
        model.add(Group(name))
    found = [Interval(f"{at} s", Fraction(1), model, {
        name: cell(chance.randint(0, 900), chance.randint(0, 900)) for name in names}, {}, None)
             for at in range(4)]
    audit = answer.ranked(intervals.Audit(found, intervals.plan(engine, model)))
    page, rows = answer.page(audit, "x"), answer.answer(audit)
    said = dict(re.findall("<dt>(planned|used)</dt><dd>(.*?)</dd>", page))
    for key, column in (("plan", "planned"), ("used", "used")):
        exact = sum((getattr(each.cells[name], column) for each in found for name in names),
                    Fraction(0)) / 4000
        assert abs(Fraction(said[column]) - exact) <= Fraction(1, 2000)
        shown = [Fraction(row[key]) for row in cells(page) if row.get(key)]
        assert len(shown) == len(names)
        assert abs(sum(shown) - exact) <= Fraction(len(names), 2000)
        data = sum(each["mean"][f"{key}_cpus"] for each in json.loads(rows.forms()["json"]())[
            "groups"])
        assert abs(data - float(exact)) < 1e-5


# The true node

@pytest.mark.parametrize("seed", range(3))
def test_random_frozen_and_pinned_groups(ctl, folder, seed):
    """On 4 CPUs: what is frozen, or below what is, gets nothing; a pinned group at most its CPUs;
    and together they get what the head says."""
    chance, frozen, cpus = random.Random(seed), set(), {}
    trees.root2(folder / "t")
    for top in range(4):
        for name in (f"t{top}", *(f"t{top}/g{at}" for at in range(chance.randint(1, 3)))):
            trees.group2(folder / "t" / name, chance.randint(1, 400))
            if chance.random() < 0.3:
                (folder / "t" / name / "cgroup.freeze").write_text("1\n")
                frozen.add(name)
            if chance.random() < 0.4:
                cpus[name] = chance.randint(1, 3)
                text = f"0-{cpus[name] - 1}\n"
                for file in ("cpuset.cpus", "cpuset.cpus.effective"):
                    (folder / "t" / name / file).write_text(text)
    words = ("explain", folder / "t", "--cpus", "4", "--want", "busy", "-o", "text", "-o",
             f"json={folder / 'data'}", "--all")
    text, err = ctl.run(*words)
    groups = {each["group"]: each for each in json.loads((folder / "data").read_text())["groups"]}
    gets = {name: each["gets"]["millicpu"] for name, each in groups.items()}
    for name in groups.keys() - {"."}:
        above = name.partition("/")[0]
        if frozen & {name, above}:
            assert groups[name]["wants"]["millicpu"] == gets[name] == 0, name
        for each in (name, above):
            assert gets[name] <= 1000 * cpus.get(each, 4), name
    own = sum(gets[name] for name in groups if "/" in name)
    assert own == gets["."] == 1000 * float(re.search("([0-9.]+) of 4.000 CPUs served", text)[1])
    assert ("frozen:" in err) == bool(frozen) and ("bound to CPUs:" in err) == bool(cpus)


@pytest.mark.parametrize("seed", range(3))
def test_the_groups_of_samples(ctl, folder, seed):
    """In each sample the groups get what the host gives out, in every form; and so do their sums.
    """
    chance = random.Random(seed)
    groups = [f"g{at}" for at in range(chance.randint(2, 5))]
    (folder / "h.script").write_text("# arbiter run --processors 2 --period 100000 --slice 1000\n"
                                     + "".join(f"mkdir {each}\nwrite {each} cpu.weight"
                                               f" {chance.randint(1, 400)}\n" for each in groups)
                                     + "write g0 cpu.max 30000 100000\n")
    rows = [[chance.randint(0, 150) for _ in groups] for _ in range(6)]
    (folder / "h.csv").write_text(f"time,{','.join(groups)}\n" + "".join(
        f"{at},{','.join(map(str, row))}\n" for at, row in enumerate(rows)))
    text, _ = ctl.run("replay", folder / "h.script", "--used", folder / "h.csv", "--unit", "slices",
                      "-g", ".", "-g", "g*", "-o", "text", *(
                          word for form in ("json", "csv") for word in (
                              "-o", f"{form}={folder / form}")))
    data = json.loads((folder / "json").read_text())["records"]
    by_csv = list(csv.DictReader(io.StringIO((folder / "csv").read_text())))
    assert [tuple(str(row[key]) for key in ("sample", "group", "gets", "wants", "throttled"))
            for row in data] == [tuple(row[key] for key in (
                "sample", "group", "gets", "wants", "throttled")) for row in by_csv]
    gets = {(row["sample"], row["group"]): int(row["gets"]) for row in by_csv}
    for at, row in enumerate(rows):
        whole = gets[str(at), "."]
        assert whole == sum(gets[str(at), each] for each in groups) <= 200
        # (what g0 may have is 30 of 100 ms)
        assert whole == min(200, sum(row) - max(row[0] - 30, 0))
    means = {line.split()[0]: Fraction(line.split()[2]) for line in text.split("\n")
             if line.split()[:1] and line.split()[0] in (".", *groups)}
    for each, mean in means.items():
        exact = Fraction(sum(gets[str(at), each] for at in range(len(rows))), len(rows))
        assert abs(mean - exact) <= Fraction(1, 20)
    assert set(means) == {".", *groups}
