"""Pictures, the page and the live view."""
import html
import json
import os
import re
import shutil
import signal
import subprocess
import time
import xml.etree.ElementTree
from fractions import Fraction

import pytest
import trees
from arbiter import Host
from arbiter_host.answers import explain, picture, report
from arbiter_host.answers.explain import View
from arbiter_host.base.faults import HostFault
from arbiter_host.base.model import Group, Model
from arbiter_host.base.plan import plan
from arbiter_host.top import live, viewer
from places import PACKAGE

ROOT = PACKAGE.parent
SVG = "{http://www.w3.org/2000/svg}"
# Greatest side, in pixels, that common programs draw.
MOST_PIXELS = 32767


def wide_host(count, cpus=16):
    """A host of so many groups in pods of four, with wants of all sizes."""
    model = Model(Host(cpus, 100000, 1000))
    for number in range(count):
        pod = f"pod{number // 4}"
        if number % 4 == 0:
            model.add(Group(pod, 1 + number % 97, 50000 if number % 3 == 0 else None))
        else:
            model.add(Group(f"{pod}/{number % 4}{'ab' * 32}", 1 + number % 13,
                            demand=Fraction(number * 37 % 900)))
    return model


@pytest.mark.parametrize("count", [3, 5, 111, 1400])
def test_picture_is_legible(engine, count):
    """Within the size that programs draw, and a scale at most 25 rows away from each row."""
    drawn = picture.picture(plan(engine, wide_host(count)))
    root = xml.etree.ElementTree.fromstring(drawn)
    assert float(root.get("height")) < MOST_PIXELS and float(root.get("width")) < 2000
    units = [float(each.get("y")) for each in root.iter(f"{SVG}text") if each.text == "CPUs"]
    rows = [float(each.get("y")) for each in root.iter(f"{SVG}text")
            if each.get("font-size") == "12"]
    assert all(min(abs(row - unit) for unit in units) <= 25 * picture.ROW for row in rows)


def test_picture_of_too_many(engine):
    """It is refused, and says what chooses some."""
    found = plan(engine, wide_host(1950))
    with pytest.raises(HostFault, match="too many for one picture: -g and --depth choose"):
        picture.picture(found)
    assert picture.picture(found, View(depth=1))


def test_picture_has_each_group(engine):
    """Each note is whole, idle rows take no room, and the rows below a group add up to it."""
    for count in (5, 111, 400):
        found = plan(engine, wide_host(count))
        rows = picture.entries(found, View())
        assert max(len(entry.note) for entry in rows) <= picture.NOTE_CELLS
        assert len(rows) == 1 + sum(1 for each in found.groups[1:] if each.want)
        for entry in rows:
            if entry.below:
                assert sum(rows[place].group.gets for place in entry.below) == entry.group.gets


def test_picture_of_strange_names(engine):
    """Wide letters count twice, and no control character stays."""
    model = Model(Host(1, 100000, 5000))
    model.add(Group("\u6f22" * 60, demand=Fraction(500)))
    model.add(Group("a\x1b[31m\u202eb<&>\"", demand=Fraction(500)))
    drawn = picture.picture(plan(engine, model))
    xml.etree.ElementTree.fromstring(drawn)
    assert not re.search("[\x00-\x08\x0b-\x1f\u202e]", drawn)
    shown = re.search("\u6f22+\u2026", drawn).group()
    assert len(shown) * 2 - 1 <= picture.NAME_CELLS


@pytest.mark.parametrize("count", [3, 1950])
def test_page_asks_for_nothing(engine, count):
    """One page without an address, with a row for each group. The last pod of 1950 groups has one
    child, which is in its row."""
    found = plan(engine, wide_host(count))
    page = report.page(found)
    assert not re.search(r"(src|href)=|url\(|@import|https?://", page)
    assert page.count("data-path=") == count + 1 - (count == 1950)
    assert page.count("<details") == page.count("</details>")


def test_page_escapes_names(engine):
    model = Model(Host(1, 100000, 5000))
    model.add(Group("<script>alert(1)</script>".replace("/", "|"), demand=Fraction(5)))
    model.add(Group("\x1b\u202e\"'", demand=Fraction(5), title="<b>"))
    page = report.page(plan(engine, model), title="<i>")
    assert "<script>alert" not in page and "<b>" not in page and "<i>" not in page
    assert "\x1b" not in page and "\u202e" not in page


def rows_of(page):
    """The texts of the rows of a page, without tags."""
    return [" ".join(re.sub(r"<[^>]+>", " ", row).split())
            for row in re.findall(r"<tr.*?</tr>", page, re.S)]


def test_page_before_and_after(ctl):
    """It says what was changed, and what is planned of the host before and after. Of two reasons
    that begin alike the earlier one is told by its end alone."""
    page, _ = ctl.run("diff", ROOT / "examples/pod.script", "--set", "pod.max=75%", "-o", "html")
    assert "Before and after" in page and "groups that differ: 4" in page
    assert "The change: <code>pod.max=75%</code>" in page
    assert re.findall(r'role="img" aria-label="(.*?CPUs)"', page) == ["1.00 of 1.00 CPUs"] * 2
    assert re.findall('<div class="when">(.*?)</div>', page) == ["before", "after"]
    rows = rows_of(re.search('<details class="changes.*?</table>', page, re.S).group())
    assert rows[:3] == [
        "group before after change wants why",
        "the host 1.00 1.00 0 1.75 was 1.50 the host is full",
        "pod 0.50 0.50 0 2.00 throttled, not by its limit the host is full: weight 100 of 200"
        " before: its own limit"]
    page, _ = ctl.run("diff", ROOT / "examples/node.script", "--set", "kubepods.weight=900", "-o",
                      "html")
    assert ("kubepods 3.00 3.28 +0.28 6.10 the host is full: weight 900 of 1100 before: weight 137"
            " of 337") in rows_of(page)


def test_bar_of_the_host(ctl):
    """Of 4 CPUs 1.95 are planned, 2.05 are left."""
    page, _ = ctl.run("explain", *PODS, "-o", "html")
    assert re.findall("<dt>(.*?)</dt><dd>(.*?)</dd>", page) == [
        ("planned", "1.950"), ("left", "2.050"), ("capacity", "4.000"), ("wanted", "1.950")]
    assert 'class="get" style="width:48.75%"' in page


def test_a_pod_and_its_one_container_are_one_row(ctl, engine):
    """Pause containers do not count. The row has the pod's weight, 79, the lower limit, and else
    the container's cells."""
    page, _ = ctl.run("explain", *PODS, "--want", "busy", "--period", "100ms", "-o", "html")
    rows = [row for row in rows_of(page) if "postgres" in row]
    assert rows == ["prod:db-0 / postgres 79 1.000 1.00 4.00 1.00 its own limit"]
    for limit, least in {None: "0.50", 50000: "0.50", 49000: "0.49"}.items():
        model = Model(Host(2, 100000, 1000))
        model.add(Group("a", 300, limit))
        model.add(Group("a/b", 100, 50000, demand=Fraction(900)))
        model.add(Group("c", 100, demand=Fraction(2000)))
        found = plan(engine, model)
        _, entry, _ = picture.entries(found, View())
        assert (entry.name, entry.note) == (
            "a / b", f"{least} of 0.90, at most {least}: its own limit")
        cells = cells_of(report.page(found))
        assert list(cells) == ["the host", "a / b", "c"]
        assert [cells["a / b"][key] for key in ("weight", "limit", "wants", "gets", "why")] == [
            "300", least, "0.90", least, "its own limit"]
    # The one that asks in its pod is cut as the pod is.
    model.groups["a"].quota, model.groups["a/b"].quota = None, 150000
    model.groups["a/b"].demand = Fraction(2000)
    model.groups["a"].weight = 1
    row = cells_of(report.page(plan(engine, model)))["a / b"]["why"]
    assert re.sub("<.*?>", "", row) == (
        "throttled, not by its limit the host is full: weight 1 of 101")


def test_a_shared_prefix_is_told_once(ctl):
    """The pods of one namespace stand below one class, whose path no row repeats."""
    page, _ = ctl.run("diff", *PODS, "--want", "busy", "--set", "prod/web*/nginx.request=500m",
                      "--period", "100ms", "-n", "prod", "-g", "kubepods/burstable", "-o", "html")
    changes = re.search('<details class="changes.*?</details>', page, re.S).group()
    assert "Below kubepods/burstable:" in changes
    rows = rows_of(changes)
    assert len(rows) == 5 and not any("kubepods" in row for row in rows)
    assert rows[1].startswith("prod:proxy-1 2.08 1.75 -0.33")


def test_marks_are_no_capitals(ctl):
    """On the page, in the picture and in the table."""
    words = ("explain", ROOT / "examples/node.script", "-o")
    for form in ("html", "svg", "text"):
        text = re.sub(r"<(style|script).*?</\1>|<[^>]+>", " ", ctl.run(*words, form)[0], flags=re.S)
        assert set(re.findall(r"\b[A-Z]{3,}\b", text)) <= {"CPU"} and "throttled" in text


def page_of_node(ctl, folder):
    """The page of an example."""
    ctl.run("explain", ROOT / "examples/node.script", "-o", f"html={folder / 'p.html'}")
    return (folder / "p.html").read_text()


def test_page_in_a_browser(ctl, folder, chromium):
    """The page opens in headless Chromium; search and fold work there."""
    page = page_of_node(ctl, folder)
    probe = ("find.value='redis';find.dispatchEvent(new Event('input'));"
             "return inTree.filter(each=>!each.hidden).length")
    # The host, kubepods, burstable, and pod-cache with its redis.
    assert seen_in(chromium, folder, page, probe) == 4
    # The host and what is right below it.
    fold = ("document.getElementById('shut').click();"
            "return inTree.filter(each=>!each.hidden).length")
    assert seen_in(chromium, folder, page, fold) == 4
    # By weight, the greatest first: kubepods has 137. The third click gives the tree back.
    click = "document.querySelectorAll('#groups thead button')[1].click();"
    first = "return document.querySelector('#groups tbody tr .name').textContent"
    assert seen_in(chromium, folder, page, click + first) == "kubepods"
    assert seen_in(chromium, folder, page, click * 3 + first) == "the host"


def seen_in(chromium, folder, page, script, width=1280, *words):
    """What a script at the page's end returns in headless Chromium, in a frame of a width."""
    told = f"<script>parent.document.title=JSON.stringify((()=>{{{script}}})());</script></body>"
    inner = html.escape(page.replace("</body>", told), quote=True)
    (folder / "seen.html").write_text(
        '<meta charset="utf-8"><meta name="color-scheme" content="light dark">'
        f'<iframe style="width:{width}px;height:900px;border:0" srcdoc="{inner}"></iframe>')
    command = [chromium, "--headless", "--no-sandbox", "--disable-gpu", "--dump-dom",
               "--window-size=1400,1000", f"--user-data-dir={folder}/data", *words,
               (folder / "seen.html").as_uri()]
    ended = subprocess.run(command, capture_output=True, timeout=120, check=False)
    found = re.search(r"<title>(.*?)</title>", ended.stdout.decode(), re.S)
    assert found, ended.stderr.decode()[-500:]
    return json.loads(html.unescape(found.group(1)))


# Faults of a page: it is wider than the window, a text is cut or outside, two cells of a row
# overlap, or a text has less contrast than 4.5.
LOOK = r"""
const wrong=[],wide=document.documentElement;
if(wide.scrollWidth>innerWidth)wrong.push('wider than the window: '+wide.scrollWidth);
const light=text=>{const parts=text.match(/[0-9.]+/g).map(Number);
 const [r,g,b]=parts.slice(0,3).map(v=>{v/=255;return v<=.03928?v/12.92:((v+.055)/1.055)**2.4});
 return .2126*r+.7152*g+.0722*b};
const ground=light(getComputedStyle(document.body).backgroundColor);
for(const each of document.querySelectorAll('p,th,td,summary,label,button,.faint')){
 const box=each.getBoundingClientRect();if(!box.width||each.closest('[hidden]'))continue;
 const name=each.tagName+' '+each.textContent.trim().slice(0,20);
 if(each.scrollWidth>each.clientWidth+1&&each.clientWidth)wrong.push('cut: '+name);
 const range=document.createRange();range.selectNodeContents(each);
 const text=range.getBoundingClientRect();
 if(text.right>innerWidth+1||text.left<-1)wrong.push('outside: '+name);
 if(each.tagName!=='BUTTON'&&each.textContent.trim()){
  const own=light(getComputedStyle(each).color);
  const contrast=(Math.max(own,ground)+.05)/(Math.min(own,ground)+.05);
  if(contrast<4.5)wrong.push('faint: '+name);}
}
for(const row of document.querySelectorAll('tr:not([hidden])')){
 const boxes=[...row.cells].map(each=>{const range=document.createRange();
  range.selectNodeContents(each);return range.getBoundingClientRect()}).filter(each=>each.width);
 for(let at=1;at<boxes.length;at++)for(let other=0;other<at;other++){
  const a=boxes[at],b=boxes[other];
  if(a.left<b.right-1&&b.left<a.right-1&&a.top<b.bottom-1&&b.top<a.bottom-1)
   wrong.push('overlap: '+row.textContent.trim().slice(0,30));}
}
const heads=document.querySelectorAll('th:not([scope])').length;
return {wrong,width:innerWidth,isDark:ground<.2,heads}
"""


PODS = [PACKAGE / "tests/fixtures/pods.json", PACKAGE / "tests/fixtures/node.json"]


@pytest.mark.parametrize("mode", ["light", "dark"])
@pytest.mark.parametrize("width", [400, 800, 1280])
@pytest.mark.parametrize("source", [[ROOT / "examples/node.script"], PODS], ids=["script", "pods"])
def test_page_is_legible_in_a_browser(ctl, folder, chromium, source, width, mode):
    """Nothing overlaps, is cut or too faint, on a phone and a screen, by day and by night."""
    change = ["--set", "kubepods/burstable.weight=900", "--set", "kubepods/burstable.max=1cpu"]
    ctl.run("diff", *source, *change, "-o", f"html={folder / 'p.html'}")
    page = (folder / "p.html").read_text()
    prefers = ["--blink-settings=preferredColorScheme=0"] if mode == "dark" else []
    found = seen_in(chromium, folder, page, LOOK, width, *prefers)
    assert found == {"wrong": [], "width": width, "isDark": mode == "dark", "heads": 0}


def cells_of(page):
    """The cells of each group of a page by its name, by their columns."""
    rows = re.findall(r"<tr data-path.*?</tr>", page, re.S)
    return {re.search(r'class="name">(.*?)<', row).group(1):
            dict(re.findall(r'<td data-head="(\w+)"[^>]*>(.*?)</td>', row, re.S)) for row in rows}


def test_page_has_requests_and_names_once(ctl, folder):
    """web's containers request 250m and 100m; a name stands once, where its title repeats it."""
    ctl.run("explain", *PODS, "-o", f"html={folder / 'p.html'}")
    page = (folder / "p.html").read_text()
    found = cells_of(page)
    assert (found["nginx"]["request"], found["nginx"]["limit"]) == ("0.250", "1.000")
    assert found["metrics"]["request"] == "0.100" and found["prod:web-7c9f"]["request"] == ""
    row = re.search(r"<tr data-path[^>]*>\s*<th(?:(?!</tr>).)*>nginx<.*?</th>", page, re.S).group()
    assert re.sub(r"<[^>]+>", " ", row).split() == ["nginx", "in", "burstable/prod:web-7c9f"]
    assert page.count("Below kubepods:") == 1
    ctl.run("explain", ROOT / "examples/node.script", "-o", f"html={folder / 's.html'}")
    assert 'data-head="request"' not in (folder / "s.html").read_text()


def test_keys_of_the_page(ctl, folder, chromium):
    """Arrows go from group to group, open and fold; one row alone is reached by Tab."""
    page = page_of_node(ctl, folder)
    script = ("const at=()=>document.activeElement.querySelector?.('.name')?.textContent,seen=[];"
              "const press=key=>document.activeElement.dispatchEvent(new KeyboardEvent('keydown',"
              "{key,bubbles:true,cancelable:true}));inTree[0].focus();"
              "for(const key of %s){press(key);seen.push(at()??document.activeElement.id);}"
              "return [seen,inTree.filter(each=>each.tabIndex===0).length,"
              "inTree.filter(each=>!each.hidden).length]")
    keys = ["ArrowDown", "ArrowRight", "ArrowLeft", "ArrowDown", "ArrowUp", "ArrowLeft", "Home",
            "End", "/"]
    seen, reached, rows = seen_in(chromium, folder, page, script % json.dumps(keys))
    # The last ArrowLeft folds system.slice, so that its four services are hidden.
    assert seen == ["system.slice", "kubelet.service", "system.slice", "kubelet.service",
                    "system.slice", "system.slice", "the host", "pod-scan / scanner", "find"]
    assert (reached, rows) == (1, page.count("data-path=") - 4)


def viewed(found, keys="", height=14, view=View(width=80), got=()):
    """The lines of the view of a plan after keys."""
    put = []
    shown = viewer.Viewer(lambda plan: view, put.append, None)
    shown.plan, shown.got = found, dict(got)
    shown.history.take(found)
    size = os.terminal_size((view.width, height))
    with pytest.MonkeyPatch.context() as patch:
        patch.setattr(shutil, "get_terminal_size", lambda: size)
        shown.draw()
        for key in re.findall("<.*?>|.", keys, re.DOTALL):
            shown.draw({"<down>": "\x1b[B", "<page>": "\x1b[6~", "<left>": "\x1bOD",
                        "<esc>": "\x1b", "<end>": "\x1b[F", "<back>": "\x7f"}.get(key, key))
    return put[-1]


def cursor(lines):
    """The name in the row of the cursor, and what the last line says."""
    row, last = (line for line, style in lines if style == "reverse")
    return row.split("  ")[-1].strip(), last.strip()


@pytest.mark.parametrize("keys, name, row", [
    ("", "the host (.)", 1), ("j", "pod0", 2), ("<down>jk", "pod0", 2), ("k", "the host (.)", 1),
    # 9 of 14 lines are rows, and pods stand in rows 2, 6, 10 ..
    ("<page>", "pod2", 10), (" b", "the host (.)", 1), ("<end>k", "1abababababa\u2026b", 111),
    ("Gg", "the host (.)", 1), ("/pod3\r", "pod3", 14), ("/pod3\rn", "pod3", 14),
    ("/POD2\rn", "pod20", 82), ("/pod2\rnN", "pod2", 10), ("/pod99<back><back>2\r", "pod2", 10),
    ("j/pod3<esc>", "pod0", 2), ("j/pod3<esc>n", "pod0", 2), ("/zz\r", "the host (.)", 1),
    ("/pod1j", "the host (.)", 0), ("jj<left>", "pod0", 2)])
def test_rows_that_keys_lead_to(engine, keys, name, row):
    """The row of the cursor is always on the screen, and the screen is full."""
    lines = viewed(plan(engine, wide_host(111)), keys)
    found, last = cursor(lines)
    assert len(lines) == 13 and found == name
    assert last.startswith(f"row {row} of 112  ?" if row else keys)


def test_top_folds_a_row(engine):
    """And not a level: the row of the cursor alone. Enter, + and the right arrow open it again."""
    found = plan(engine, wide_host(111))

    def names(keys):
        return [line.split("  ")[-1].strip() for line, _ in viewed(found, keys)[3:-1]]

    whole, folded = names(""), names("/pod1\r-")
    assert whole[1:3] == ["pod0", "1abababababa\u2026b"]
    assert folded[1:3] == whole[1:3] and "pod1 (+3 below)" in folded
    assert names("/pod1\r-") == names("/pod1\r\r") == names("/pod1\r-+-")
    assert names("/pod1\r-+") == names("/pod1\r\r\r") == names("/pod1\r")


def test_top_shows_what_was_used(engine):
    """`-` stands where nothing was measured. Two pods have 8 of 20 slices each."""
    model = Model(Host(1, 100000, 5000))
    for name in ("a", "b"):
        model.add(Group(name, demand=Fraction(400)))
    lines = [line for line, _ in viewed(plan(engine, model), got={".": Fraction(501),
                                                                 "a": Fraction(1, 2)})]
    assert lines[0][8:] == "  1 CPU: 0.80 planned, 0.20 left, 0.80 wanted, 0.501 used"
    assert [line.split()[0] for line in lines[2:6]] == ["used", "0.501", "0.001", "-"]


def test_keys_before_there_is_a_picture(engine):
    """They change nothing, but that `q` ends it. So does `-` where no row is shown."""
    put = []
    shown = viewer.Viewer(lambda plan: View(), put.append, None)
    shown.draw("-/\x1b[A")
    assert shown.keys == live.Keys() and not put and not shown.is_typing
    shown.draw("q")
    assert shown.keys.is_ended
    found = plan(engine, wide_host(11))
    assert viewed(found, "f-jn\r")[:-1] == viewed(found, "f")[:-1]
    assert viewed(found, "f-jn\r" + "f" * 5, 24)[2:] == viewed(found, "", 24)[2:]


@pytest.mark.parametrize("width", [40, 60, 89, 90, 200])
def test_keys_are_told(engine, width):
    """By `?`, in any width; any key leads back. What was chosen is told too."""
    found, view = plan(engine, wide_host(111)), View(width=width)
    told = [line for line, _ in viewed(found, "?", 24, view)]
    assert all(any(words in line for line in told) for _, words in viewer.KEYS)
    assert [line for line, _ in viewed(found, "?x", 24, view)][2:] == [
        line for line, _ in viewed(found, "", 24, view)][2:]
    assert cursor(viewed(found, "sf", 24, view)[:-1] + [("x", "reverse")])[1] == "x"
    assert "sort: lack" in viewed(found, "s", 24, view)[-1][0]
    assert "only: starved" in viewed(found, "f", 24, view)[-1][0]


def test_top_without_a_terminal(ctl, folder):
    trees.root2(folder)
    trees.group2(folder / "web", usage=5)
    out, _ = ctl.run("top", folder, "-o", "text", "--read", "3x10ms", "--cpus", "2", "--all")
    assert out.count("2 CPUs, period 1000 ms") == 2 and out.count("  web") == 2


@pytest.mark.parametrize("columns, lines, ending", [
    (80, 24, signal.SIGINT), (200, 50, signal.SIGINT), (80, 24, signal.SIGTERM)])
def test_top_on_a_terminal(ctl, folder, columns, lines, ending):
    """The view fits the terminal, and each signal leaves the terminal as it was, with its echo."""
    trees.root2(folder)
    for number in range(60):
        trees.group2(folder / f"web{number}", usage=5)
    command = ("import os,pty,sys,struct,fcntl,termios,time,signal,select\n"
               "ready,say=os.pipe()\n"
               "pid,fd=pty.fork()\n"
               "if pid==0: os.read(ready,1); os.execvp(sys.argv[1],sys.argv[1:])\n"
               # (the number of the terminal, by TIOCGPTN)
               "at=struct.unpack('I',fcntl.ioctl(fd,0x80045430,b'1234'))[0]\n"
               "tty=os.open(f'/dev/pts/{at}',os.O_RDWR|os.O_NOCTTY)\n"
               f"fcntl.ioctl(fd,termios.TIOCSWINSZ,struct.pack('HHHH',{lines},{columns},0,0))\n"
               "os.write(say,b'x')\n"
               "out=b'';end=time.time()+50\n"
               "while time.time()<end and out.count(b' planned, ')<3:\n"
               "  if select.select([fd],[],[],.2)[0]:\n"
               "    try: out+=os.read(fd,65536)\n"
               "    except OSError: break\n"
               f"os.kill(pid,{int(ending)})\n"
               "gone=0\n"
               "while not gone:\n"
               "  gone,status=os.waitpid(pid,os.WNOHANG)\n"
               "  while select.select([fd],[],[],.2)[0]: out+=os.read(fd,65536)\n"
               "echo=termios.tcgetattr(tty)[3]&termios.ECHO\n"
               "sys.stdout.buffer.write(out)\n"
               f"sys.exit(0 if status=={int(ending)} and echo else 9)\n")
    ctl.environment.pop("COLUMNS")
    ctl.environment["TERM"] = "xterm"
    words = ["python3", "-c", command, "/usr/bin/python3", PACKAGE / "arbiterctl", "top", folder,
             "--want", "busy", "--cpus", "2", "--read", "x100ms"]
    ended = subprocess.run(words, capture_output=True, timeout=120, env=ctl.environment,
                           check=False)
    assert ended.returncode == 0, ended.stdout[-500:]
    said = ended.stdout.decode()
    assert said.count(" planned, ") >= 2 and "Traceback" not in said
    assert said.rstrip().endswith("\x1b[?25h") or "\x1b[?1049l" in said
    plain = re.sub(r"\x1b\[[0-9;?]*H", "\n", said)
    plain = re.sub(r"\x1b\[[0-9;?]*[A-Za-z]", "", plain)
    assert max(map(len, plain.replace("\r", "").split("\n"))) <= columns
    assert "row 1 of 61" in plain


def test_history_of_top(engine):
    """The bars of what a group got, as parts of its most; the rows stay those of their groups."""
    history = live.Recent()
    for demand in (0, 100, 250, 1000):
        model = Model(Host(1, 100000, 5000))
        model.add(Group("web", demand=Fraction(demand)))
        model.add(Group("pod"))
        model.add(Group("pod/a", demand=Fraction(50)))
        found = plan(engine, model)
        history.take(found)
    # 0, 2, 5 and 19 of 20 slices are 0, 1, 3 and 8 eighths of 19, rounded up.
    assert history.line("web") == "       \u2581\u2583\u2588" and history.line("gone") == " " * 10
    for view in (explain.View(), explain.View(sort="name"), explain.View(only=("asking",)),
                 explain.View(depth=1), explain.View(everything=True)):
        lines = [line for line, _ in viewed(found, view=view)]
        row = next(line for line in lines if line.endswith("web"))
        assert row.startswith("         \u2588 ") and max(map(len, lines)) <= 120


@pytest.mark.parametrize("letters, view", [
    ("", {}), ("s", {"sort": "lack"}), ("s" * 6, {}), ("f", {"only": ("starved",)}),
    ("a", {"everything": True}), ("xsz", {"sort": "lack"}),
])
def test_keys_of_top(letters, view):
    keys = live.Keys()
    for letter in letters:
        keys.take(letter)
    assert keys.view(explain.View()) == explain.View()._replace(**view)
    assert not keys.is_ended
    keys.take("q")
    assert keys.is_ended


class Tmux:
    """A server of tmux of its own, with one window of 100 columns and 30 rows."""

    def __init__(self, folder, environment):
        self.words = ["tmux", "-S", str(folder / "tmux"), "-f", "/dev/null"]
        self.environment = {**environment, "TERM": "xterm-256color", "LC_ALL": "C.UTF-8"}

    def run(self, *words):
        ended = subprocess.run([*self.words, *map(str, words)], capture_output=True, timeout=60,
                               env=self.environment, check=True)
        return ended.stdout.decode()

    def seen(self, *words):
        """The window once it has all of these words; what it has after a while."""
        for _ in range(300):
            text = self.run("capture-pane", "-p", "-t", "top")
            if all(word in text for word in words):
                return text
            time.sleep(0.1)
        raise AssertionError(f"{words} not in:\n{text}")


def test_top_in_tmux(ctl, folder):
    """Keys fold, sort and filter; the history grows; q ends it, and the shell goes on."""
    if shutil.which("tmux") is None:
        pytest.skip("no tmux")
    trees.root2(folder / "t")
    for name, weight in (("web", 300), ("batch", 100), ("batch/x", 100)):
        trees.group2(folder / "t" / name, weight)
    ctl.environment.pop("COLUMNS")
    tmux = Tmux(folder, ctl.environment)
    command = (f"/usr/bin/python3 {PACKAGE}/arbiterctl top {folder}/t --want busy --cpus 2"
               " --read x100ms; echo ended $?; cat")
    tmux.run("new-session", "-d", "-s", "top", "-x", "100", "-y", "30", command)
    try:
        text = tmux.seen("q quit", " used ", "\u2588" * 10, "batch", "x")
        rows = [line.split()[-1] for line in text.split("\n") if "\u2588" in line]
        assert rows == ["(.)", "batch", "x", "web"]
        tmux.run("send-keys", "-t", "top", "Down", "Left")
        assert "(+1 below)" in tmux.seen("(+1 below)", "row 2 of 3")
        tmux.run("send-keys", "-t", "top", "Enter", "/", "we", "Enter")
        assert "row 4 of 4" in tmux.seen("row 4 of 4")
        tmux.run("send-keys", "-t", "top", "?")
        assert "fold a row" in tmux.seen("fold a row")
        tmux.run("send-keys", "-t", "top", "?", "s")
        text = tmux.seen("sort: lack")
        tmux.run("send-keys", "-t", "top", "f")
        assert "no group is starved" in tmux.seen("only: starved")
        tmux.run("send-keys", "-t", "top", "q")
        assert "ended 0" in tmux.seen("ended 0")
    finally:
        tmux.run("kill-server")


def test_top_ends_before_its_first_picture(ctl, folder):
    """`q` is taken while the first two readings are ten minutes apart."""
    if shutil.which("tmux") is None:
        pytest.skip("no tmux")
    trees.root2(folder / "t")
    ctl.environment.pop("COLUMNS")
    tmux = Tmux(folder, ctl.environment)
    command = (f"/usr/bin/python3 {PACKAGE}/arbiterctl top {folder}/t --cpus 2 --read x10min"
               "; echo ended $?; cat")
    tmux.run("new-session", "-d", "-s", "top", "-x", "100", "-y", "30", command)
    try:
        for _ in range(100):
            tmux.run("send-keys", "-t", "top", "q")
            time.sleep(0.3)
            if "ended" in (text := tmux.run("capture-pane", "-p", "-t", "top")):
                break
        assert "ended 0" in text
    finally:
        tmux.run("kill-server")
