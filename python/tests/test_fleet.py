"""Many hosts: what is answered, what is refused, and that no host is lost."""
import json
import os
import re
from fractions import Fraction

import fleets
import pytest
from arbiter import Host
from arbiter_host import command
from arbiter_host.base.faults import UsageFault
from arbiter_host.fleet import work
from arbiter_host.fleet.work import Sent, SentRows
from places import PACKAGE

HOSTS, GROUPS = 24, 12
NEEDS = ("--workers", "0", "-o", "json")


@pytest.fixture
def fleet(folder):
    """A folder with a small fleet."""
    return fleets.make(folder / "hosts", HOSTS, GROUPS)


# What is answered

def test_a_fleet_is_explained_as_its_hosts(ctl, fleet):
    """Each number of a host is the one that `explain` has of it alone."""
    found = json.loads(ctl.run("explain", fleet, *NEEDS)[0])
    assert (found["answered"], found["not_answered"]) == (HOSTS, [])
    names = [host["host"] for host in found["hosts"]]
    assert names == sorted(names) == [f"host-{number:05}" for number in range(HOSTS)]
    for host in found["hosts"][:5]:
        whole = json.loads(ctl.run("explain", fleet / f"{host['host']}.script", "-o", "json")[0])
        ends = [group for group in whole["groups"]
                if not any(each["parent"] == group["group"] for each in whole["groups"])]
        assert host["served"] == whole["served"]["slices"]
        assert host["wanted"] == whole["wanted"]["slices"]
        assert host["lacking"] == sum(group["gets"]["slices"] < group["wants"]["slices"]
                                      for group in ends)
        assert host["starved"] == sum(group["starved"] for group in ends)
        assert host["throttled"] == sum(group["throttled"] for group in whole["groups"])
        assert host["limiting"] == [[each["group"], each["limit"]["slices"]]
                                    for each in whole["limiting"]][:5]
    for key in ("served", "wanted", "capacity"):
        assert found["fleet"][f"{key}_cpus"] == round(sum(host[key] for host in found["hosts"])
                                                      / 100, 6)


def test_rank_needs_a_pod_that_waits(ctl, fleet):
    _, err = ctl.run("explain", fleet, "--rank", "most-left", *NEEDS, status=2)
    assert "--rank: it has no effect where no pod waits for a host" in err


def test_a_change_is_that_of_each_host(ctl, fleet):
    """Gains and losses are those of `diff`; a host without the group stays as it is."""
    (fleet / "other.toml").write_text("[host]\ncpus = 2\n[groups.web]\ndemand = \"3cpu\"\n")
    change = ("--set", "t0/g1.weight=9000")
    found = json.loads(ctl.run("diff", fleet, *change, *NEEDS)[0])
    for host in found["hosts"][:4]:
        source = fleet / f"{host['host']}.script"
        both = json.loads(ctl.run("diff", source, *change, "-o", "json")[0])
        rises = {group["group"]: after["gets"]["slices"] - group["gets"]["slices"]
                 for group, after in zip(both["before"]["groups"], both["after"]["groups"])
                 if group["group"] not in (".", "t0")}
        many = [(rise, list(rises.values()).count(rise)) for rise in sorted(set(rises.values()))]
        assert [tuple(each) for each in host["changes"]] == many
        assert host["changed_groups"] == rises["t0/g1"]
        assert host["others"] == sum(rises.values()) - rises["t0/g1"]
    assert found["hosts"][-1]["matched"] == 0 and found["hosts"][-1]["changes"] == [[0, 1]]
    assert found["fleet"]["hosts_with_such_a_group"] == HOSTS


POD = "[groups.pod]\nmax = \"1cpu\"\n[groups.\"pod/a\"]\ndemand = \"2cpu\"\n"


@pytest.mark.parametrize("rule", ["least-loss", "most-left"])
def test_place_is_the_plan_with_the_pod(ctl, fleet, rule):
    """A pod gets what it gets in a host file with its groups; the order is by the rule."""
    pod = fleet.parent / "pod.toml"
    pod.write_text(POD)
    found = json.loads(ctl.run("place", fleet, "--pod", pod, "--rank", rule, *NEEDS)[0])
    for host in found["hosts"][:4]:
        with_pod = fleet.parent / "with-pod.script"
        with_pod.write_text((fleet / f"{host['host']}.script").read_text() + "mkdir pod\n"
                            "write pod cpu.max 100000\nmkdir pod/a\ndemand pod/a 200\n")
        before, after = (json.loads(ctl.run("explain", source, "-o", "json")[0])
                         for source in (fleet / f"{host['host']}.script", with_pod))
        then = {group["group"]: group["gets"]["slices"] for group in after["groups"]}
        (placed,) = host["pods"]
        assert (placed["gets"], placed["wants"]) == (then["pod/a"], 200)
        ends = {group["group"] for group in before["groups"]} - {".", "t0"}
        assert placed["lost"] == sum(max(group["gets"]["slices"] - then[group["group"]], 0)
                                     for group in before["groups"] if group["group"] in ends)
        assert placed["left"] == host["capacity"] - after["served"]["slices"]
    by = {host["host"]: host["pods"][0] for host in found["hosts"]}
    harm = {name: each["lost"] + each["wants"] - each["gets"] for name, each in by.items()}
    keys = [(harm[name], -by[name]["left"], name) if rule == "least-loss"
            else (-by[name]["left"], harm[name], name)
            for name in found["fleet"]["best"][str(pod)]]
    assert keys == sorted(keys) and len(keys) == HOSTS


def test_a_pod_of_kubernetes_is_placed(ctl, folder):
    """The pods of a node fit beside those of another, and not beside themselves."""
    fixtures = PACKAGE / "tests/fixtures"
    (folder / "hosts").mkdir()
    for name in ("pods", "none"):
        text = '{"kind": "PodList", "items": []}'
        if name == "pods":
            text = (fixtures / "pods.json").read_text()
        (folder / "hosts" / f"{name}.json").write_text(text)
    words = ("--pod", fixtures / "pods.json", "--cpus", "8", *NEEDS)
    found = json.loads(ctl.run("place", folder / "hosts", *words)[0])
    by = {host["host"]: host["pods"][0] for host in found["hosts"]}
    assert "the host has this group already" in by["pods"]["why"]
    assert by["none"]["gets"] == by["none"]["wants"] > 0
    assert found["fleet"]["best"] == {str(fixtures / "pods.json"): ["none"]}
    # One host is a file; where no host takes the pod, that is told by the status.
    _, err = ctl.run("place", folder / "hosts/pods.json", *words, status=6)
    assert "no host of 1 takes it, as pods: prod/web-7c9f: the host has this group already" in err


def test_replay_is_that_of_each_host(ctl, fleet):
    """The sums of each group are those of its host alone, with what was saved up."""
    over = fleets.make_demands(fleet.parent / "demands", HOSTS, 30)
    words = ("--step", "500ms")
    found = json.loads(ctl.run("replay", fleet, "--used", over, *words, *NEEDS)[0])
    for host in found["hosts"][:3]:
        text = ctl.run("replay", fleet / f"{host['host']}.script", "--used",
                       over / f"{host['host']}.csv", *words, "-o", "csv")[0].split("\n")[1:-1]
        for group in host["groups_of_columns"]:
            cells = [line.split(",") for line in text if line.split(",")[1] == group["group"]]
            got = sum(Fraction(cell[2]) for cell in cells) * 5 * 100
            assert abs(got - group["got"]) < len(cells)
            sums = [sum(int(cell[at]) for cell in cells) for at in (5, 6, 7, 8, 9, 10)]
            assert sums == [group[key] for key in (
                "periods", "throttled", "throttled_not_by_limit", "bursts", "starved",
                "withheld_usec")]
    assert sum(group["bursts"] for host in found["hosts"]
               for group in host["groups_of_columns"]) > 0


def test_a_table_of_demands_is_a_folder_of_them(ctl, fleet):
    """One CSV of all hosts, or one for each, in any order of hosts."""
    over = fleets.make_demands(fleet.parent / "demands", HOSTS, 5)
    lines = ["Host,Time,Group,Value"]
    for at in range(5):
        for path in sorted(over.iterdir()):
            time, one, two = path.read_text().split("\n")[1 + at].split(",")
            lines += [f"{path.stem},{time},t0/g0,{one}", f"{path.stem},{time},t0/g3,{two}"]
    table = fleet.parent / "table.csv"
    table.write_text("\n".join(lines) + "\n")
    found = [ctl.run("replay", fleet, "--used", each, *NEEDS)[0] for each in (over, table)]
    assert found[0] == found[1]
    table.write_text("\n".join([*lines, lines[1]]) + "\n")
    _, err = ctl.run("replay", fleet, "--used", table, *NEEDS, status=1)
    assert "two numbers of t0/g0 on host-00000 at one time" in err


# Who is believed

def renamed(sent, change):
    """Other paths of the first plan."""
    paths, columns = sent.plans[0]
    return sent._replace(plans=[SentRows(change(paths), columns)])


def with_columns(sent, change):
    """Other columns of the first plan."""
    paths, columns = sent.plans[0]
    return sent._replace(plans=[SentRows(paths, change(*columns))])


LIES = {
    "a weight": (lambda sent: with_columns(sent, lambda parents, weights, *rest: (
        parents, [0] * len(weights), *rest)), "no plan: error 6 "),
    "short columns": (lambda sent: with_columns(sent, lambda parents, weights, *rest: (
        parents, weights[1:], *rest)), "no plan: error 50 WrongLength"),
    "a parent below itself": (lambda sent: with_columns(sent, lambda parents, *rest: (
        [*parents[:-1], len(parents) - 1], *rest)), "no plan: error "),
    "no plan": (lambda sent: sent._replace(plans=[]), "fewer plans than were asked"),
    "other groups": (lambda sent: renamed(sent, lambda paths: [*paths, "more"]),
                     "cannot be read: TypeError"),
    "no columns": (lambda sent: with_columns(sent, lambda *_: b"!"), "cannot be read"),
    "negative rows": (lambda sent: with_columns(sent, lambda *each: ([-1], *each[1:])),
                      "cannot be read: OverflowError"),
    "no host": (lambda sent: sent._replace(host=Host(0, 0, 0)), "period 0"),
    "a host of words": (lambda sent: sent._replace(host=Host("1", 100000, 5000)),
                        "a host of other than whole numbers"),
    "names that are none": (lambda sent: renamed(sent, lambda paths: [".", 7, *paths[2:]]),
                            "cannot be read"),
    "no number": (lambda sent: sent._replace(told={**sent.told, "workloads": [
        ("w", "x", 0, False, ["t0/g0"])]}), "cannot be read"),
    "notes of other than words": (lambda sent: sent._replace(told={**sent.told, "notes": [7]}),
                                  "cannot be read: TypeError"),
    "nothing": (lambda sent: sent._replace(told={}), "cannot be read: KeyError"),
}


@pytest.mark.parametrize("lie", LIES)
def test_a_wrong_answer_is_a_fault_of_its_host(fleet, calls, monkeypatch, lie):
    """Each other host is answered, and the one is told by name."""
    right = fleets.asked(fleet, calls)[0]
    honest, (change, said) = work.answered, LIES[lie]

    def answered(job, host):
        sent = honest(job, host)
        return change(sent) if host.name == "host-00003" else sent

    monkeypatch.setattr(work, "answered", answered)
    found, missing = fleets.asked(fleet, calls)
    assert missing.keys() == {"host-00003"} and said in missing["host-00003"]
    assert found == {name: each for name, each in right.items() if name not in missing}


@pytest.mark.parametrize("sent", [b"", 7, None, [], {}, ("x",), Sent(None, None, None),
                                  Sent(Host(), [SentRows(["."], "x")], {}),
                                  Sent(Host(), [(["."], b"x")], {}), Sent(Host(), 7, 7)],
                         ids=lambda sent: repr(sent)[:20])
def test_a_reply_that_is_none(fleet, calls, monkeypatch, sent):
    monkeypatch.setattr(work, "answered", lambda job, host: sent)
    found, missing = fleets.asked(fleet, calls)
    assert found == {} and len(missing) == HOSTS
    assert all("what its worker answers cannot be read" in each for each in missing.values())


# What is no host

BROKEN = {
    "empty.toml": b"[", "list.json": b"{\"groups\": 7}",
    "latin.toml": b"# \xff\n", "deep.json": b"[" * 100000, "inner.toml":
    b"[groups.a]\ndemand = \"1cpu\"\n[groups.\"a/b\"]\n", "cpus.toml": b"[host]\ncpus = 70000\n",
    "units.show": b"Id=a.service\nSlice=-.slice\nControlGroup=/a.service\n",
}


def test_broken_files_are_named(ctl, fleet):
    """Each broken host is named with its reason, status 1; every other one is answered."""
    before = json.loads(ctl.run("explain", fleet, *NEEDS)[0])
    for name, data in BROKEN.items():
        (fleet / name).write_bytes(data)
    (fleet / "gone.toml").symlink_to("nowhere")
    out, err = ctl.run("explain", fleet, *NEEDS, status=1)
    found = json.loads(out)
    assert found["hosts"] == before["hosts"] and found["fleet"] == before["fleet"]
    names = {name.partition(".")[0] for name in BROKEN} | {"gone"}
    assert {each["host"] for each in found["not_answered"]} == names
    assert all(each["why"] for each in found["not_answered"])
    assert f"not answered: {len(names)} of {HOSTS + len(names)}" in err
    text, _ = ctl.run("explain", fleet, "--workers", "0", status=1)
    assert all(f"\n{name}: " in text for name in names)


def test_a_file_that_is_no_host_is_named(ctl, fleet):
    """A page of text below the folder is no host of no groups."""
    (fleet / "README.md").write_text("# Hosts\n\nOne file each.\nNo more.\n")
    out, _ = ctl.run("explain", fleet, "--workers", "0", status=1)
    assert "\nREADME: no host: 2 lines are none of a script, the first: " in out
    assert "README.md:3: error 80 BadCommand: One file each." in out


@pytest.mark.parametrize("kind", ["fifo", "device", "link to a fifo", "none"])
def test_what_is_no_file_is_named(folder, fleet, calls, kind):
    """A host that could hold the run up is named at once, and the others are answered."""
    path = fleet / "x.script"
    if kind == "fifo":
        os.mkfifo(path)
    elif kind == "device":
        path.symlink_to("/dev/zero")
    elif kind == "link to a fifo":
        os.mkfifo(folder / "f")
        path.symlink_to(folder / "f")
    else:
        path.symlink_to("x.script")
    found, missing = fleets.asked(fleet, calls)
    assert missing.keys() == {"x"} and str(path) in missing["x"] and len(found) == HOSTS
    assert "no plain file" in missing["x"] or kind == "none"


def test_demands_that_are_no_file_are_named(ctl, fleet):
    """A host whose demands cannot be read is named."""
    over = fleets.make_demands(fleet.parent / "demands", HOSTS - 1, 5)
    os.mkfifo(over / f"host-{HOSTS - 1:05}.csv")
    out, _ = ctl.run("replay", fleet, "--used", over, *NEEDS, status=1)
    (missing,) = json.loads(out)["not_answered"]
    assert "no plain file" in missing["why"] and missing["host"] == f"host-{HOSTS - 1:05}"


def test_hosts_of_folders(folder):
    """Names are paths without endings; two of one name are refused."""
    for name in ("a/one.toml", "b/one.script", ".hidden/x.toml"):
        (folder / "f" / name).parent.mkdir(parents=True, exist_ok=True)
        (folder / "f" / name).write_text("")
    assert [host.name for host in fleets.of(folder / "f").hosts] == ["a/one", "b/one"]
    (folder / "f/a/one.script").write_text("")
    with pytest.raises(UsageFault, match="two hosts of the name a/one"):
        fleets.of(folder / "f")
    (folder / "empty").mkdir()
    assert fleets.of(folder / "empty") is None


def test_what_is_one_host(folder):
    """A tree of cgroups, also below a folder; a script beside files of its lines' names; JSON."""
    (folder / "t/top/web").mkdir(parents=True)
    (folder / "t/top/web/cpu.stat").write_text("usage_usec 5\n")
    assert fleets.of(folder / "t") is None
    (folder / "plan").write_text("")
    (folder / "s").write_text("plan\n")
    assert fleets.of(folder / "s") is None
    (folder / "n.json").write_text(json.dumps({"items": [
        {"kind": "Node"}, {"kind": "Pod", "metadata": {"ownerReferences": [{"kind": "Node"}]}}]}))
    assert fleets.of(folder / "n.json") is None


@pytest.mark.parametrize("words", [
    ("explain", "a", "--set", "x.weight=1"), ("diff", "a"),
    ("diff", "a", "--set", "x.weight=0"), ("diff", "a", "--set", "x.frob=0"),
    ("diff", "a", "--set", "x.request=lots"), ("diff", "a", "--set", "x.CPUQuota=0%"),
    ("diff", "a", "--set", "x.CPUWeight=0"), ("diff", "a", "--set", "x.cpus=-1"),
    ("diff", "a", "--set", "x.cpu-shares=1"), ("diff", "a", "a", "--set", "x.weight=1"),
    ("place", "a"), ("replay", "a"), ("explain", "a", "--workers", "-1"),
    ("explain", "a", "--workers", "1", "--dask", "tcp://x"),
    ("explain", "a", "--used", "a/host-00000.script"), ("explain", "a", "-o", "svg")])
def test_words_that_are_refused(folder, monkeypatch, capsys, words):
    """Status 2, before anything is asked of a host."""
    fleets.make(folder / "a", 2, 4)
    monkeypatch.chdir(folder)
    try:
        status = command.run(list(words))
    except SystemExit as ended:
        status = ended.code
    assert status == 2 and capsys.readouterr().out == ""


def test_the_page_is_whole(ctl, fleet):
    """The page has a row for each host, escapes names, and asks for nothing."""
    (fleet / "a<b>&.toml").write_text("[")
    page = fleet.parent / "fleet.html"
    ctl.run("explain", fleet, "--workers", "0", "-o", f"html={page}", status=1)
    text = page.read_text()
    hosts_told = re.findall(r'<tr>\s*<th scope="row" data-head="[a-z]+">host-', text)
    assert len(hosts_told) == HOSTS and "a&lt;b&gt;&amp;" in text
    assert "http" not in text and "a<b>" not in text


def test_the_page_says_what_was_changed(ctl, folder):
    """And what is planned of all hosts, once where it is the same. Columns of words begin at the
    left."""
    fleets.make(folder / "a", 2, 4)
    words = ("diff", folder / "a", "--set", "t0/g1.weight=900", "--workers", "0", "-o")
    page, _ = ctl.run(*words, "html")
    told = json.loads(ctl.run(*words, "json")[0])
    all_ = sum(each["cpus"] for each in told["hosts"])
    assert "The change: <code>t0/g1.weight=900</code>" in page
    assert [(key, text) for key, text in re.findall("<dt>(.*?)</dt><dd>(.*?)</dd>", page)
            if key != "left"] == [
        each for cpus in dict.fromkeys(told["fleet"][key] for key in ("before_cpus", "after_cpus"))
        for each in (("planned", f"{cpus:.2f}"), ("capacity", f"{all_}.00"))]
    left = re.findall('<th scope="col" data-head="([a-z ]+)" class="left">', page)
    assert {"host", "group", "gain most", "lose most"} >= set(left) >= {"host"}
    assert "change" not in left and "served" not in left


def test_rows_of_the_text(ctl, fleet):
    """Twenty hosts without --all, and how many more there are."""
    out, err = ctl.run("explain", fleet, "--workers", "0")
    assert out.endswith(f"\nand {HOSTS - 20} more (--all)\n") and err == ""
    out, err = ctl.run("explain", fleet, "--workers", "0", "--all", "-v")
    assert out.count("\nhost-") == HOSTS and err.endswith(" seconds\n")
