"""arbiter-hold.service and arbiter-schedule.service under systemd: a root of Debian with the
packages, booted in a guest."""
from __future__ import annotations

import re
import tempfile
from dataclasses import dataclass, field
from pathlib import Path

from kernel import machine, packages

# Four nanoseconds an instruction: Python and systemd are not much slower than on a machine.
SETTING = machine.Setting(shift=2, seconds=3600)
MEMORY = 2048
LEFT_OUT = ("./proc/*", "./sys/*", "./debs", "./var/cache/apt/*", "./var/lib/apt/lists/*",
            "./usr/share/doc/*", "./usr/share/locale/*")
SLICE = "/sys/fs/cgroup/work.slice"
SHOWN = ("ActiveState", "SubState", "Result", "NRestarts", "StatusText")
# The root of Debian takes the place of the guest's own, and systemd that of its first process.
WORK = """\
mkdir /new && mount -t tmpfs -o mode=755 none /new
tar -x -C /new -f /root.tar && rm /root.tar && cp -a /try/. /new/
umount -l /sys/fs/cgroup /sys /proc /dev
exec switch_root /new /lib/systemd/systemd
"""
SERVICE = """\
[Service]
Type=oneshot
ExecStart=/bin/sh /try.sh
StandardOutput=file:/dev/ttyS1
StandardError=file:/dev/ttyS1
"""
# An end of a loop is awaited by its state.
TELL = f"""\
tell() {{
  echo "step $1"
  systemctl show $unit -p {','.join(SHOWN)}
  for group in a b; do
    cd {SLICE}/$group.service
    echo "file $group $(cat cpu.weight) $(cat cpu.max)"
  done
  [ -e /run/arbiter/hold-undo.json ] && echo undo there || echo undo none
}}
is() {{ systemctl show $unit -p "$1" --value; }}
await() {{ # PROPERTY VALUE SECONDS
  for second in $(seq "$3"); do [ "$(is "$1")" = "$2" ] && return; sleep 1; done
  echo "lack $1 is $(is "$1") and not $2"
}}
echo "systemd $(systemctl --version | head -n 1)"
systemd-analyze verify --man=no $unit.service 2>&1 | sed 's/^/verify /'
"""
# Both groups always want, or nobody were held, and b counts three times.
HELD = f"""\
for group in a b; do
  systemd-run --quiet --unit $group --slice work.slice sh -c 'while :; do :; done'
done
systemctl set-property --runtime b.service CPUWeight=300
echo TREE={SLICE} > /etc/default/arbiter-hold
echo 'OPTIONS=--period 100ms' >> /etc/default/arbiter-hold
tell before
systemctl start $unit || echo lack start
sleep 9
tell held
systemctl daemon-reload
sleep 5
tell reloaded
systemctl stop $unit
tell stopped
systemctl start $unit
sleep 5
kill -9 "$(is MainPID)"
await SubState auto-restart 9
tell killed
await SubState running 60
sleep 5
tell 'held again'
kill -STOP "$(is MainPID)"
await SubState auto-restart 60
tell 'stood still'
await SubState running 60
systemctl stop $unit
tell end
echo TREE={SLICE}/none > /etc/default/arbiter-hold
systemctl start $unit
tell 'no tree'
systemctl stop $unit
"""
# Both groups always want, and b counts three times. `used` has what each used in five seconds.
SCHEDULED = f"""\
state() {{ echo "state $(cat /sys/kernel/sched_ext/state)"; }}
used() {{ for group in a b; do sed -n 's/usage_usec //p' {SLICE}/$group.service/cpu.stat; done; }}
loader() {{ grep -l arbiter-schedul /proc/[0-9]*/comm | sed 's/[^0-9]//g'; }}
for group in a b; do
  systemd-run --quiet --unit $group --slice work.slice sh -c 'while :; do :; done'
done
systemctl set-property --runtime b.service CPUWeight=300
echo TREE={SLICE} > /etc/default/arbiter-hold
echo OPTIONS= >> /etc/default/arbiter-hold
tell before
state
systemctl start $unit || echo lack start
sleep 4
tell served
state
grep -E 'Cap(Bnd|Eff)|Seccomp:|NoNewPrivs' "/proc/$(loader)/status" | sed 's/^/status /'
echo used $(used; sleep 5; used)
systemctl stop $unit
tell stopped
state
systemctl start $unit
kill -9 "$(is MainPID)"
await SubState auto-restart 9
tell killed
state
await SubState running 90
kill -9 "$(loader)"
await SubState auto-restart 30
tell 'no loader'
state
await SubState running 90
tell 'served again'
state
systemctl start arbiter-hold
tell 'by limits'
state
systemctl stop arbiter-hold
tell end
"""
END = """\
journalctl --no-pager -q -o cat -u $unit | sed 's/^/said /'
echo end
systemctl poweroff -ff > /dev/null 2>&1
"""


@dataclass
class Step:
    """What one step showed: properties of the unit, settings of groups, and its undo file."""

    properties: dict[str, str] = field(default_factory=dict)
    files: dict[str, str] = field(default_factory=dict)
    has_undo: bool = False
    state: str = ""


@dataclass
class Told:
    """What the guest told: its steps, and lines that say of a fault."""

    steps: dict[str, Step] = field(default_factory=dict)
    lacks: list[str] = field(default_factory=list)
    said: list[str] = field(default_factory=list)
    # Of the loader what /proc tells of its rights; what both groups used at two times.
    status: dict[str, str] = field(default_factory=dict)
    used: list[int] = field(default_factory=list)


def tried(unit: str, steps: str) -> dict[str, tuple[int, bytes]]:
    """Files that are put over the root: the script of a unit, its service, and the target of the
    boot."""
    units = "try/etc/systemd/system"
    folders = ("try", "try/etc", "try/etc/systemd", units, f"{units}/multi-user.target.wants")
    script = f"unit={unit}\n{TELL}{steps}{END}"
    files = {"try/try.sh": script, f"{units}/try.service": SERVICE,
             "try/etc/machine-id": "1" * 32 + "\n"}
    links = {f"{units}/multi-user.target.wants/try.service": "../try.service",
             f"{units}/default.target": "/lib/systemd/system/multi-user.target"}
    return {**{name: (0o040755, b"") for name in folders},
            **{name: (0o100644, text.encode()) for name, text in files.items()},
            **{name: (0o120777, text.encode()) for name, text in links.items()}}


def packed(root: Path) -> bytes:
    """A root as a tar archive."""
    with tempfile.TemporaryDirectory(prefix="arbiter-root-") as name:
        made = Path(name) / "root.tar"
        words = [f"--exclude={each}" for each in LEFT_OUT]
        packages.said(["tar", "-C", str(root), "-cf", str(made), *words, "."])
        return made.read_bytes()


def read(lines: list[str]) -> Told:
    """What the lines of the guest say."""
    told, step = Told(), Step()
    for line in lines:
        word, _, rest = line.partition(" ")
        if word == "step":
            step = told.steps.setdefault(rest, Step())
        elif word == "file":
            group, _, text = rest.partition(" ")
            step.files[group] = text.strip()
        elif word == "undo":
            step.has_undo = rest == "there"
        elif word == "state":
            step.state = rest
        elif word == "used":
            told.used = [int(each) for each in rest.split()]
        elif word == "status":
            name, _, text = rest.partition(":")
            told.status[name] = text.strip()
        elif word in ("lack", "verify"):
            told.lacks.append(line)
        elif word == "said":
            told.said.append(rest)
        elif found := re.fullmatch(r"(\w+)=(.*)", line):
            step.properties[found[1]] = found[2]
    return told


def shown_by(kernel: packages.Kernel, root: Path, unit: str = "arbiter-hold",
             steps: str = HELD) -> Told:
    """Boots a root with the packages and systemd, and tries a unit there."""
    more = {"root.tar": (0o100644, packed(root)), **tried(unit, steps)}
    return read(machine.run(kernel, machine.Board(), SETTING, WORK, more, MEMORY))
