"""The first hour of `hold`, by the commands of docs/LINUX.md. In the tree one group lacks CPU.

The commands run as they stand, but that the paths of a host are those of the test, and that
apt-get and systemctl are stand-ins: the second one runs the unit's own command."""
import json
import re
import subprocess
import sys
import textwrap
import time

import pytest
from arbiter_host.top.metrics import MARK
from held import FREE, World, content
from places import PACKAGE

PAGE = (PACKAGE.parent / "docs/LINUX.md").read_text(encoding="utf-8")
BLOCK = re.search(r"^\*\*The first hour\*\*.*\n\n((?:    .*\n)+)", PAGE, re.M)[1]
UNIT = (PACKAGE.parent / "share/systemd/arbiter-hold.service").read_text(encoding="utf-8")
# A unit is one process here; its status is that its metrics are there.
SYSTEMCTL = """\
#!/bin/sh
TREE=$(sed -n 's/^TREE=//p' @default) OPTIONS=$(sed -n 's/^OPTIONS=//p' @default)
case $1 in
start) mkdir -m 700 -p @run; @command >/dev/null 2>@journal & echo $! >@pid
  until [ -e @metrics ]; do sleep 0.05; kill -0 "$(cat @pid)" || exit 1; done;;
status) kill -0 "$(cat @pid)" && cat @metrics;;
stop) kill "$(cat @pid)"; while [ -e @metrics ]; do sleep 0.05; done;;
esac
"""


@pytest.fixture
def host(folder, ctl):
    """A host: its tree, its commands, and the text of a page with its paths."""
    world = World(folder, [("batch.slice", 100, FREE), ("batch.slice/a", 100, FREE),
                           ("batch.slice/b", 200, FREE)], "batch.slice/b")
    places = {"/sys/fs/cgroup": world.tree, "/var/lib/prometheus/node-exporter": folder / "prom",
              "/etc/default": folder, "/run/arbiter": folder / "run"}

    def here(text):
        for name, path in places.items():
            text = text.replace(name, str(path))
        return text

    (folder / "prom").mkdir(mode=0o755)
    (folder / "bin").mkdir()
    command = here(re.search("^ExecStart=(.*)$", UNIT, re.M)[1]).replace("/usr/bin/", "")
    names = {"@default": folder / "arbiter-hold", "@run": folder / "run", "@pid": folder / "pid",
             "@journal": folder / "journal", "@metrics": folder / "prom/hold.prom",
             # (rounds are a tenth as long as on a host)
             "@command": f"{command} --read x100ms --period 100ms"}
    stand_in = SYSTEMCTL
    for name, path in names.items():
        stand_in = stand_in.replace(name, str(path))
    for name, text in (("systemctl", stand_in), ("apt-get", "#!/bin/sh\n"), ("arbiterctl", (
            f"#!/bin/sh\nw=$1; shift\n[ $w = hold ] && set -- --root {world.tree} --cpus 2 \"$@\"\n"
            f"exec {sys.executable} {PACKAGE}/arbiterctl $w \"$@\"\n"))):
        (folder / "bin" / name).write_text(text)
        (folder / "bin" / name).chmod(0o755)
    environment = {**ctl.environment, "PATH": f"{folder}/bin:{ctl.environment['PATH']}"}

    def run(line):
        ended = subprocess.run(["sh", "-c", here(line)], cwd=folder, env=environment,
                               capture_output=True, timeout=120, check=False)
        assert ended.returncode == 0, (line, ended.stderr.decode())
        return ended.stdout.decode() + ended.stderr.decode()

    return world, folder, run


def lines():
    """The commands of the page. The minute of the shadow run is a second here."""
    found = textwrap.dedent(BLOCK).splitlines()
    assert [line.split()[:2] for line in found] == [
        ["apt-get", "install"], ["arbiterctl", "hold"],
        ["echo", "'TREE=/sys/fs/cgroup/batch.slice'"], ["echo", "'OPTIONS=-o"],
        *(["systemctl", word] for word in ("start", "status", "stop"))]
    assert "--read 60x1s " in found[1] and "--yes" not in found[1]
    return [line.replace("--read 60x1s", "--read 3x200ms --period 100ms") for line in found]


def test_the_first_hour(host):
    """Shadow run, start, look and stop: groups are held in between alone."""
    world, folder, run = host
    before = content(world.tree)
    install, shadow, tree, options, start, status, stop = lines()
    with world.lacking():
        run(install)
        assert "by weights 1 of 2 groups are more than 5 hundredths of a CPU off" in run(shadow)
        rounds = [json.loads(line) for line in (folder / "rounds.json").read_text().splitlines()]
        assert [line["written"] for line in rounds] == [0, 0] and content(world.tree) == before
        assert rounds[0]["groups"].keys() == {"a", "b"}
        run(f"{tree}\n{options}\n{start}")
        assert content(world.tree) != before
        said = run(status)
        assert said.startswith(MARK) and "arbiter_hold_held_groups 2.0\n" in said
        run(stop)
    assert content(world.tree) == before and not list((folder / "run").glob("*.json"))


def test_a_kill_is_undone(host):
    """The undo file of a killed loop brings back what stood, by the line of the page."""
    world, folder, run = host
    before = content(world.tree)
    _, _, tree, options, start, *_ = lines()
    undo, = re.findall(r"`(arbiterctl undo FILE --yes)` does, of (/run/\S+\.json)", PAGE)
    with world.lacking():
        run(f"{tree}\n{options}\n{start}")
        run("kill -9 $(cat pid)")
        time.sleep(0.3)
        assert content(world.tree) != before
        run(undo[0].replace("FILE", undo[1]))
    assert content(world.tree) == before
