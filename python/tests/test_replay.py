"""Samples of demands over time, planned one after another: by hand, and against single periods."""
import csv
import io
import json
import xml.etree.ElementTree
from array import array

import pytest
from arbiter import Host
from arbiter_host.answers import series
from arbiter_host.base import plain_files, svg
from arbiter_host.base.faults import HostFault
from arbiter_host.base.model import Group, Model
from arbiter_host.sources import samples
from chances import cases
from hypothesis import HealthCheck, given, settings
from hypothesis import strategies as st
from places import PACKAGE

ROOT = PACKAGE.parent
SVG = "{http://www.w3.org/2000/svg}"
GETS, WANTS, RED = "#2b6cb0", "#bcd4ec", "#b4231f"
DAY = ["--slice", "1ms", "--unit", "slices"]
PODS, NODE = (PACKAGE / "tests/fixtures" / name for name in ("pods.json", "node.json"))


def day(ctl, *words):
    """The day of examples/, planned."""
    return ctl.run("replay", ROOT / "examples/day.script", "--used", ROOT / "examples/day.csv",
                   *DAY, *words)[0]


def rows_of(out):
    """The rows of an answer in CSV."""
    return list(csv.DictReader(io.StringIO(out)))


def test_a_day(ctl):
    """One period a sample: web saves up and is throttled, monitor starves."""
    by = {(row["sample"], row["group"]): row for row in rows_of(day(ctl, "-o", "csv"))}
    found = {name: [f"{by[at, name]['gets']}/{by[at, name]['wants']}" for at in (
        "06:00", "07:00", "15:30")] for name in ("web", "db", "batch", "monitor")}
    assert found == {"web": ["42/42", "50/55", "40/47"], "db": ["20/20", "24/24", "22/22"],
                     "batch": ["0/0", "0/0", "38/80"], "monitor": ["2/2", "2/2", "0/2"]}
    counts = [[by[at, "web"][key] for key in ("bursts", "throttled")]
              for at in ("06:00", "07:00", "15:30")]
    assert counts == [["1", "0"], ["1", "1"], ["0", "1"]]
    rows = [line.split() for line in day(ctl).split("\n")]
    assert ["monitor", "2", "1.1", "54%", "0", "0", "0", "0", "16", "15"] in rows


def test_the_length_of_a_sample(ctl):
    """18000 periods a sample: what was saved up is gone in the first period of 06:30's rise."""
    rows = json.loads(day(ctl, "--step", "30m", "-o", "json"))["records"]
    at = {row["sample"]: row for row in rows if row["group"] == "web"}
    assert at["06:30"]["periods"] == 18000
    assert (at["06:30"]["gets"], at["06:30"]["throttled"]) == ("40", 18000)
    assert at["06:00"]["bursts"] > 0 and at["07:00"]["bursts"] == 0


@settings(max_examples=cases(30), deadline=None, suppress_health_check=list(HealthCheck))
@given(quota=st.integers(1, 30), burst=st.integers(0, 30), before=st.integers(0, 40),
       after=st.integers(0, 40), periods=st.integers(1, 60))
def test_repeated_periods_are_periods(engine, quota, burst, before, after, periods):
    """Periods that are counted at once give the sums of samples of one period each."""
    model = Model(Host(1, 100000, 5000))
    model.add(Group("a", 300, quota * 5000, 100000, min(burst, quota) * 5000))
    model.add(Group("b", 100, quota * 2500, 100000, min(burst, quota) * 2500))
    wants = [[0, demand, 8] for demand in (before, after, before)]

    def cells(samples, count):
        asked = series.ReplayRows(model.host, [".", "a", "b"], series.settings_of(model),
                             array("Q", sum(samples, [])), array("Q", [0, 0, 0]), count)
        return asked.cells(engine, asked.paths, lambda: None)

    whole = cells(wants, periods)
    for path, single in cells([each for each in wants for _ in range(periods)], 1).items():
        parts = [single[begin:begin + periods] for begin in range(0, 3 * periods, periods)]
        for cell, part in zip(whole[path], parts, strict=True):
            assert all(getattr(cell, key) == sum(getattr(each, key) for each in part)
                       for key in series.COUNTS)
            assert cell.limit == sum(each.limit for each in part)


def test_samples_as_csv():
    """A limit and none, names that are escaped and quoted, amounts as means of three periods."""
    cells = [series.SampleCell(at, 2 * at, None if at % 2 else 9, 3, at, 0, 1, 0, 5)
             for at in range(4)]
    found = series.Series(["a,b", "x\x1b", "1", "-"], {"g/\u202e": cells, ".": cells[::-1]},
                          Host(2, 100000, 5000), "", "")
    assert series.records(found, "slices").csv() == (
        "sample,group,gets,wants,limit,periods,throttled,throttled_not_by_limit,bursts,starved,"
        "withheld_usec\n"
        '"a,b",g/\\u202e,0,0,3,3,0,0,1,0,5\n"a,b",.,1,2,,3,3,0,1,0,5\n'
        "x\\x1b,g/\\u202e,0.3,0.7,,3,1,0,1,0,5\nx\\x1b,.,0.7,1.3,3,3,2,0,1,0,5\n"
        "1,g/\\u202e,0.7,1.3,3,3,2,0,1,0,5\n1,.,0.3,0.7,,3,1,0,1,0,5\n"
        "-,g/\\u202e,1,2,,3,3,0,1,0,5\n-,.,0,0,3,3,0,0,1,0,5\n")
    rows = rows_of(series.records(found, "us").csv())
    # (a mean of three periods, in slices of 5000 microseconds)
    assert [(each["gets"], each["limit"]) for each in rows[:4:2]] == [("0", "15000"),
                                                                      ("1666.7", "")]


def demands_of(data, path="f.csv"):
    """The demands of each sample of a file."""
    return [each for _, each in samples.read(data, path).demands("cpu", Host())]


@pytest.mark.parametrize("path", ["f.csv", "-"])
@pytest.mark.parametrize("data", [
    b"\xef\xbb\xbfTime,web\n2026-01-05 10:00:00,0.5\n", b"Time;web\n1767607200;0,5\n",
    b"timestamp\tweb\n2026-01-05T10:00:00Z\t50%\n",
    plain_files.in_utf8("f", "Time,web\n10:00,0.5\n".encode("utf-16")),
    b"time,web\r\n10:00,500 m\r\n\r\n",
])
def test_csv_as_grafana_writes_it(data, path):
    """By its name, and by its first line."""
    assert demands_of(data, path) == [{"web": 500}]
    if b"1767607200" in data:
        assert samples.read(data, path).samples[0].name == "2026-01-05 10:00:00"


def test_csv_that_names_what_separates_its_cells():
    (sample,) = samples.read(b"sep=;\n\"Time\";\"web\"\n1767607200000;500m\n", "f.csv").samples
    assert (sample.name, dict(sample.cells)) == ("2026-01-05 10:00:00", {"web": "500m"})


@pytest.mark.parametrize("data, path, words", [
    (b"Time,web\n1,x\n", "f.csv", "f.csv:2: 'x' is no number"),
    (b"Time,web\n1\n", "f.csv", "f.csv:2: 1 cells and not 2"),
    (b"Time,web\n1,\xff\n", "f.csv", "f.csv:2: not UTF-8"), (b"web\n-1\n", "f.csv", "f.csv:2: "),
    (b"Time,web,db,web\n1,2,3,4\n", "f.csv", "f.csv:1: two numbers of web"),
    (b"web 1 web 2\n", "f", "f:1: two numbers of web"),
    (b'Time,web\n1,"1,234"\n', "f.csv", "f.csv:2: '1,234': a comma in a number of a file whose"),
])
def test_files_that_are_refused(data, path, words):
    """What is no number, and what is there twice, is told with its line."""
    with pytest.raises(HostFault) as fault:
        demands_of(data, path)
    assert words in fault.value.message


def wants_of(out, count):
    """What web and db want in each sample of an answer in CSV."""
    rows = rows_of(out)
    return [" ".join(str(float(row["wants"])).removesuffix(".0") for row in rows
                     if row["sample"] == str(at)) for at in range(1, count + 1)]


SMALL = b"# arbiter run --processors 1 --period 100000 --slice 10000\nmkdir web\nmkdir db\n"


def test_holes(ctl, folder):
    """A pod that has ended has empty cells: it asks for nothing."""
    (folder / "d.csv").write_text("time,web,db\n1,0.3,0.2\n2,,\n3,0.1,null\n")
    out, _ = ctl.run("replay", "-", "--used", folder / "d.csv", "-o", "csv", given=SMALL)
    assert wants_of(out, 3) == ["0.3 0.2", "0 0", "0.1 0"]


def test_several_files(ctl, folder):
    """Days one after the other. A day of CSV without a pod has holes there; lines of pairs have
    none. Samples without a time are numbered on."""
    for name, text in (("1.csv", "web,db\n0.3,0.2\n"), ("2.csv", "web\n0.1\n"),
                       ("3.csv", "db\n0.4\n"), ("4.txt", "web 0.5\n")):
        (folder / name).write_text(text)
    files = [word for day in ("1.csv", "2.csv", "3.csv", "4.txt")
             for word in ("--used", folder / day)]
    out, _ = ctl.run("replay", "-", *files, "-o", "csv", given=SMALL)
    assert wants_of(out, 4) == ["0.3 0.2", "0.1 0", "0 0.4", "0.5 0.4"]
    words = ["replay", ROOT / "examples/pod.script", "--used", "-", "--used", "-"]
    assert "standard input is one file" in ctl.run(*words, given=b"", status=2)[1]


def test_what_was_used_at_one_time_is_one_sample(ctl):
    """As `kubectl top` prints it: the plan is that of `explain`."""
    fixtures = PACKAGE / "tests/fixtures"
    words = (fixtures / "pods.json", fixtures / "node.json", "--used", fixtures / "top.txt")
    out, _ = ctl.run("replay", *words, "-o", "csv", "--map",
                     "kube-system/coredns-5d78-4x2/coredns=batch/report-x/report", status=1)
    assert out == ""
    out, _ = ctl.run("explain", *words, "-o", "json")
    whole = {each["group"]: each["wants"]["millicpu"] for each in json.loads(out)["groups"]}
    assert whole["kubepods/prod:db-0/postgres"] == 640


def test_containers_that_are_not_here(ctl, folder):
    """`replay` tells what others measured elsewhere, as `explain` does. Of demands that somebody
    wrote such a column is a slip."""
    fixtures = PACKAGE / "tests/fixtures"
    words = (fixtures / "pods.json", fixtures / "node.json", "--used")
    note = "top.txt: used by containers that are not here, 1: kube-system/coredns-5d78-4x2/coredns"
    (_, first), (out, second) = (ctl.run(each, *words, fixtures / "top.txt", "-o", form)
                                 for each, form in (("explain", "json"), ("replay", "csv")))
    assert note in first and note in second
    assert {row["group"]: row["wants"] for row in rows_of(out)}[
        "kubepods/prod:db-0/postgres"] == "0.64"
    top = (fixtures / "top.txt").read_text().split("\n")
    (folder / "top").write_text("\n".join([top[0], *(row for row in top if "coredns" in row)]))
    for each in ("explain", "replay"):
        assert "top: used by containers that are not here" in ctl.run(
            each, *words, folder / "top", status=1)[1]
    (folder / "d.csv").write_text("time,kube-system/coredns-5d78-4x2/coredns\n1,0.7\n")
    assert "coredns: no group kube-system" in ctl.run("replay", *words, folder / "d.csv",
                                                      status=1)[1]


def test_a_pod_stands_for_its_one_container(ctl, folder):
    """As with `--set`. Two containers are too many for one column."""
    (folder / "d.csv").write_text("time,prod/api-0\n1,0.7\n")
    cluster = PACKAGE / "tests/fixtures/cluster.json"
    words = ("replay", cluster, "--used", folder / "d.csv")
    out, _ = ctl.run(*words, "--node", "n2", "-o", "csv")
    row, = rows_of(out)
    assert row["group"].endswith("prod:api-0/main") and row["wants"] == "0.7"
    (folder / "d.csv").write_text("time,prod/web-7c9f\n1,0.7\n")
    assert ("column prod/web-7c9f: 2 groups: --map prod/web-7c9f=GROUP"
            in ctl.run(*words, "--node", "n1", status=1)[1])


def test_groups_of_a_namespace_and_of_labels(ctl, folder):
    """-n and -l choose pods and their containers as kubectl does, without pause containers."""
    items = [{"metadata": {"namespace": namespace, "name": name, "uid": name, "labels": labels},
              "spec": {"containers": [{"name": "c"}]}}
             for namespace, name, labels in (("n", "a", {"app": "web"}), ("n", "b", {}),
                                             ("m", "d", {"app": "web"}))]
    (folder / "p.json").write_text(json.dumps({"kind": "PodList", "items": items}))
    (folder / "h.csv").write_text("time,n/a/c,n/b/c,m/d/c\n1,0.5,0.25,0.125\n")
    words = ("replay", folder / "p.json", "--cpus", "4", "--used", folder / "h.csv", "-o", "csv")
    tree = "kubepods/besteffort"
    for more, wanted in ((("-n", "n"), {f"{tree}/n:a": "0.5", f"{tree}/n:a/c": "0.5",
                                        f"{tree}/n:b": "0.25", f"{tree}/n:b/c": "0.25"}),
                         (("-l", "app=web", "-n", "m"), {f"{tree}/m:d": "0.125",
                                                         f"{tree}/m:d/c": "0.125"}),
                         (("-g", "n:b", "-g", "."), {".": "0.875", f"{tree}/n:b": "0.25",
                                                     f"{tree}/n:b/c": "0.25"})):
        rows = rows_of(ctl.run(*words, *more)[0])
        assert {row["group"]: row["gets"] for row in rows} == wanted
    assert "no pod of -n z" in ctl.run(*words, "-n", "z", status=6)[1]


def test_columns_and_groups(ctl, folder):
    """A column of no group is named, unless --map says which it is. Two of one are refused."""
    (folder / "d.csv").write_text("Time,nothing\n1,0.5\n")
    words = ["replay", ROOT / "examples/pod.script", "--used", folder / "d.csv"]
    assert ctl.run(*words, status=1)[1].endswith(
        "arbiterctl: column nothing: no group nothing: --map nothing=GROUP\n")
    out, _ = ctl.run(*words, "--map", "nothing=job", "-o", "csv")
    assert rows_of(out)[0]["group"] == "job"
    (folder / "d.csv").write_text("Time,nothing,job\n1,0.5,0.1\n")
    assert ("columns nothing and job are both of the group job"
            in ctl.run(*words, "--map", "nothing=job", status=1)[1])


def test_outputs(ctl, folder):
    """CSV and JSON hold the same records; SVG is well formed; each may go to a file of its own."""
    files = {form: folder / f"day.{form}" for form in ("csv", "json", "svg", "text")}
    out = day(ctl, *(word for form, path in files.items() for word in ("-o", f"{form}={path}")))
    rows = rows_of(files["csv"].read_text())
    records = json.loads(files["json"].read_text())["records"]
    assert [row["gets"] for row in rows] == [record["gets"] for record in records]
    assert len(rows) == 4 * 48 and out == ""
    xml.etree.ElementTree.fromstring(files["svg"].read_text())
    assert files["text"].read_text() == day(ctl)


HEAD = "# arbiter run --processors 1 --period 100000 --slice 5000\n"
SAVING = HEAD + ("mkdir a\nmkdir b\nwrite a cpu.max 50000\nwrite a cpu.max.burst 25000\n"
                 "write b cpu.weight 1\n")
# a: 4 of at most 10; 15 of at most min(6 + 10, 15); 10 of 10, b having the rest; then c, 10000
# times as heavy, takes all or half.
PERIODS = [["sample", "a", "b"], ["1", "4/4", "16/30"], ["2", "15/20TB", "5/30"],
           ["3", "10/20T", "10/30"], ["4", "0/0", "0/30S"], ["5", "10/10", "0/30S"]]


def cells_of(out):
    """The cells of an answer in CSV, as rows of samples: gets/wants and the letters of flags."""
    rows = rows_of(out)
    groups = list(dict.fromkeys(row["group"] for row in rows))
    table = {}
    for row in rows:
        is_throttled = row["throttled"] > row["throttled_not_by_limit"]
        flags = ("T" * is_throttled + "B" * (row["bursts"] > "0") + "S" * (row["starved"] > "0"))
        table.setdefault(row["sample"], [row["sample"]]).append(
            f"{row['gets']}/{row['wants']}{flags}")
    return [["sample", *groups], *table.values()]


def test_five_periods_by_hand(ctl, folder):
    """Five periods of a group that saves up, as pairs; and its sums."""
    (folder / "s").write_text(SAVING + "mkdir c\nwrite c cpu.weight 10000\n")
    (folder / "list").write_text("# a comment\na 4 b 30\na 20\n\na 0 c 20\na 10 c 10\n")
    words = ["replay", folder / "s", "--used", folder / "list", "--unit", "slices"]
    shown = ["-g", "a", "-g", "b"]
    assert cells_of(ctl.run(*words, *shown, "-o", "csv")[0]) == PERIODS
    sums = {line.split()[0]: line.split()[1:] for line in ctl.run(*words, *shown)[0].split("\n")
            if line}
    assert sums["a"] == ["10.8", "7.8", "72%", "2", "0", "75000", "1", "0", "0"]
    assert sums["b"] == ["30", "6.2", "21%", "0", "0", "0", "0", "2", "2"]
    out, _ = ctl.run(*words, "-g", ".", "-o", "csv")
    assert [row[1] for row in cells_of(out)] == [".", "20/34", "20/45", "20/40", "20/50", "20/50"]


@pytest.mark.parametrize("unit, factor", [("slices", 1), ("m", 50), ("us", 5000)])
def test_units_of_demands(ctl, folder, unit, factor):
    """The same five periods as CSV, whose holes are nothing: what b wants is said in each row."""
    (folder / "s").write_text(SAVING + "mkdir c\nwrite c cpu.weight 10000\n")
    rows = [(4, 30, 0), (20, 30, 0), (20, 30, 0), (0, 30, 20), (10, 30, 10)]
    (folder / "d.csv").write_text("a,b,c\n" + "".join(
        ",".join(str(cell * factor) if cell else "" for cell in row) + "\n" for row in rows))
    out, _ = ctl.run("replay", folder / "s", "--used", folder / "d.csv", "-g", "a", "-g", "b",
                     "--unit", unit, "-o", "csv")
    assert [[each.lstrip("0123456789/") for each in row[1:]] for row in cells_of(out)[1:]] == [
        [each.lstrip("0123456789/") for each in row[1:]] for row in PERIODS[1:]]


def drawn(text):
    """The boxes of a picture by colour, its texts, and its root."""
    root = xml.etree.ElementTree.fromstring(text)
    boxes = {}
    for box in root.iter(f"{SVG}rect"):
        boxes.setdefault(box.get("fill"), []).append(
            {key: float(box.get(key)) for key in ("x", "y", "width", "height")})
    return boxes, [each.text for each in root.iter(f"{SVG}text")], root


def test_picture(ctl, folder):
    """The boxes of a picture stand under the samples that they are of."""
    (folder / "s").write_text(SAVING)
    (folder / "d.csv").write_text("time,a\n00:00,4\n01:00,20\n02:00,20\n03:00,0\n")
    words = ["replay", folder / "s", "--used", folder / "d.csv", "--unit", "slices", "-o"]
    boxes, texts, root = drawn(ctl.run(*words, "svg")[0])
    assert [(box["x"], box["width"]) for box in boxes[RED][1:]] == [(64 + 190, 380)]
    for text in ("a", "00:00", "03:00", "throttled"):
        assert text in texts
    # gets: 4, 15, 10, 0 of 20, 84 pixels tall, 190 wide each
    gets = next(each.get("d") for each in root.iter(f"{SVG}path") if each.get("fill") == GETS)
    assert gets == ("M64 170 L64 153.2 L254 153.2 L254 107 L444 107 L444 128 L634 128 L634 170"
                    " L824 170 L824 170")
    assert "No such file" in ctl.run(*words, f"svg={folder}/no/day.svg", status=1)[1]


def test_one_scale_for_all_panels(ctl, folder):
    """b is as high as a part of a's panel. c would be flat: it has its own scale, and says so."""
    (folder / "s").write_text(
        "# arbiter run --processors 1 --period 100000 --slice 5000\nmkdir a\nmkdir b\nmkdir c\n")
    (folder / "d.csv").write_text("time,a,b,c\n0,20,10,2\n")
    boxes, texts, root = drawn(ctl.run("replay", folder / "s", "--used", folder / "d.csv", "--unit",
                                       "slices", "-o", "svg")[0])
    wants = [each.get("d").split(" ")[3] for each in root.iter(f"{SVG}path")
             if each.get("fill") == WANTS]
    assert wants == ["86", "256", "342"]
    assert [each for each in texts if "scale" in each] == ["own scale, to 0.1: the others go to 1"]
    assert svg.tops([8, 1, 0.99, 0]) == [
        (8, ""), (8, ""), (0.99, "own scale, to 0.99: the others go to 8"), (8, "")]
    assert svg.tops([]) == [] and svg.tops([0]) == [(0, "")]


@pytest.mark.parametrize("name, text, words", [
    ("list", "a 4\nzz 3\n", "no group zz"), ("list", "a\n", ":1: not pairs"),
    ("list", "a x\n", ":1: 'x' is no number"), ("list", "a -1\n", ":1: '-1' is no number"),
    ("list", "a nan\n", "'nan' is no number"), ("one.csv", "a,b\n1\n", ":2: 1 cells and not 2"),
    ("one.csv", "a\n", "no sample"), ("list", "# none\n", "no sample"), ("list", ". 5\n", "groups"),
])
def test_what_is_refused(ctl, folder, name, text, words):
    """What is wrong is told with its line, and no table is printed."""
    (folder / "s").write_text(SAVING)
    (folder / name).write_text(text)
    out, err = ctl.run("replay", folder / "s", "--used", folder / name, "--unit", "slices",
                       status=1)
    assert out == "" and words in err


def test_a_group_that_is_not_there(ctl, folder):
    (folder / "s").write_text(SAVING)
    (folder / "good").write_text("a 4\n")
    words = ["replay", folder / "s", "--used", folder / "good"]
    assert "no group zz" in ctl.run(*words, "-g", "zz", status=6)[1]
    assert "--used: " in ctl.run(*words[:2], status=2)[1]
    assert "-o html: of one host" in ctl.run(*words, "-o", "html", status=2)[1]


def test_use_below_ten_thousandths(ctl, folder):
    """Use is planned by slices of a thousandth, where a sample is no shorter than such a period. A
    host file says its period itself. Slices longer than that are told."""
    (folder / "h.csv").write_text("time,prod/web-7c9f/nginx,prod/db-0\n1,1m,2m\n2,3m,5m\n")
    words = ("replay", PODS, NODE, "--used", folder / "h.csv", "-o", "csv")

    def wanted(*more):
        out, err = ctl.run(*words, *more)
        return [each["wants"] for each in rows_of(out)], "each use is rounded up to it" in err

    assert wanted() == (["0.001", "0.002", "0.003", "0.005"], False)
    assert wanted("--step", "1m") == wanted()
    assert wanted("--step", "500ms") == (["0.002", "0.002", "0.004", "0.006"], True)
    assert wanted("--period", "100ms") == wanted("--step", "100ms") == (["0.01"] * 4, True)
    assert wanted("--unit", "slices")[0] == ["1", "2", "3", "5"]
    out, _ = ctl.run("replay", ROOT / "examples/day.script", "--used", ROOT / "examples/day.csv",
                     "--unit", "slices", "--step", "30m", "-o", "csv")
    assert {row["periods"] for row in rows_of(out)} == {"18000"}
