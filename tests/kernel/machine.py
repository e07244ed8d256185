"""A guest: an initramfs with a shell script, an emulator, and what the script printed."""
from __future__ import annotations

import os
import re
import signal
import subprocess
import tempfile
from dataclasses import dataclass
from pathlib import Path
from typing import NamedTuple

from kernel import packages
from kernel.faults import KernelFault

# The variable that has ./test run guests which take minutes without KVM.
ALL = "ARBITER_GUESTS"
NICE = 10
FOLDERS = ("bin", "proc", "sys", "dev", "tmp", "root")
# No chance enters the guest: no host clock, no random number, no address layout of its own.
FIXED = ("-rtc", "base=2026-01-01T00:00:00,clock=vm", "-seed", "1")
KERNEL_WORDS = ("console=ttyS0 panic=-1 nokaslr norandmaps tsc=reliable lpj=4000000"
                " random.trust_cpu=off random.trust_bootloader=off"
                " cryptomgr.notests=1")
INIT = """\
#!/bin/busybox sh
/bin/busybox --install -s /bin
export PATH=/bin HOME=/root
mount -t devtmpfs none /dev
mount -t proc none /proc
mount -t sysfs none /sys
# a task that enters a group waits for no grace period, so all tasks begin soon
mount -t cgroup2 -o favordynmods none /sys/fs/cgroup
exec >/dev/ttyS1 2>&1
echo "kernel $(uname -r)"
echo "clock $(cat /sys/devices/system/clocksource/clocksource0/current_clocksource)"
echo "steal $(dmesg | grep -c stealtime)"
. /work.sh
echo end
poweroff -f
"""


class Board(NamedTuple):
    """The processors of a guest, and the sockets that they are in. Each socket has its cache."""

    processors: int = 1
    sockets: int = 1

    @property
    def words(self) -> tuple[str, ...]:
        """The emulator's words."""
        return ("-smp", f"{self.processors},sockets={self.sockets}")

    @property
    def shift(self) -> int:
        """An instruction takes 2^shift ns. All processors share the instructions of a second, so
        more than four need more of them: the counters would be read late."""
        return 4 if self.processors <= 4 else 3


@dataclass(frozen=True)
class Setting:
    """How guests run: their time counted in instructions of 2^shift ns, or the host's time."""

    shift: int | None = 4
    is_kvm: bool = False
    seconds: float = 3600

    @property
    def words(self) -> tuple[str, ...]:
        """The emulator's words."""
        if self.is_kvm:
            return ("-accel", "kvm", "-cpu", "host")
        if self.shift is None:
            return ("-accel", "tcg,thread=multi", "-cpu", "max")
        return ("-icount", f"shift={self.shift},sleep=off", "-cpu", "max,-rdrand,-rdseed", *FIXED)

    @property
    def told(self) -> str:
        """The setting in words."""
        if self.is_kvm:
            return "KVM"
        if self.shift is None:
            return "TCG in the host's time"
        return f"TCG, time counted in instructions of {1 << self.shift} ns"


def runs_guests(cpuinfo: str) -> bool:
    """Whether a processor runs guests by itself: VT-x or AMD-V. KVM is there without these too
    (by page tables alone), and then boots no kernel of Debian."""
    flags = re.search(r"^flags\s*:(.*)$", cpuinfo, re.MULTILINE)
    return flags is not None and not {"vmx", "svm"}.isdisjoint(flags[1].split())


def is_quick() -> bool:
    """Whether a guest takes seconds here, by KVM."""
    return (os.access("/dev/kvm", os.R_OK | os.W_OK)
            and runs_guests(Path("/proc/cpuinfo").read_text(encoding="ascii", errors="replace")))


def padded(data: bytes) -> bytes:
    """Data up to a multiple of four bytes."""
    return data + b"\0" * (-len(data) % 4)


def archive(files: dict[str, tuple[int, bytes]]) -> bytes:
    """A cpio archive in the form that the kernel unpacks: mode and content by name."""
    made = bytearray()
    for number, (name, (mode, data)) in enumerate([*files.items(), ("TRAILER!!!", (0, b""))], 1):
        raw = name.encode() + b"\0"
        fields = (number, mode, 0, 0, 1, 0, len(data), 0, 0, 0, 0, len(raw), 0)
        head = b"070701" + b"".join(b"%08x" % each for each in fields)
        made += padded(head + raw) + padded(data)
    return bytes(made)


def initramfs(work: str, program: Path, more: dict[str, tuple[int, bytes]]) -> bytes:
    """The guest's files: busybox, the guest's program, its script, and more."""
    files = {name: (0o040755, b"") for name in FOLDERS}
    files["bin/busybox"] = (0o100755, packages.BUSYBOX.read_bytes())
    files["guest"] = (0o100755, program.read_bytes())
    files["init"] = (0o100755, INIT.encode())
    files["work.sh"] = (0o100644, work.encode())
    return archive({**files, **more})


def niced() -> None:
    """Makes this process as nice as 10, if it is not nicer."""
    os.nice(max(NICE - os.nice(0), 0))


def wait(words: list[str], seconds: float) -> str:
    """Runs the emulator, niced. Returns what it said of itself."""
    with subprocess.Popen(words, stdin=subprocess.DEVNULL, stdout=subprocess.PIPE,
                          stderr=subprocess.STDOUT, start_new_session=True, text=True,
                          preexec_fn=niced) as process:
        try:
            return process.communicate(timeout=seconds)[0]
        except BaseException as error:
            os.killpg(process.pid, signal.SIGKILL)
            process.communicate()
            if isinstance(error, subprocess.TimeoutExpired):
                raise KernelFault(f"the guest did not end in {seconds:.0f} seconds") from error
            raise


def run(kernel: packages.Kernel, board: Board, setting: Setting, work: str,
        more: dict[str, tuple[int, bytes]] | None = None, memory: int = 256) -> list[str]:
    """Boots a guest that runs a shell script. Returns the lines that the script printed."""
    # before 8.1 it also dies of a kernel that patches itself while several processors run
    emulator = packages.emulator(board.processors > 1 and not setting.is_kvm)
    with tempfile.TemporaryDirectory(prefix="arbiter-guest-") as name:
        folder = Path(name)
        program = packages.guest_program(folder)
        (folder / "initramfs").write_bytes(initramfs(work, program, more or {}))
        words = [*emulator.words, "-M", "pc-q35-7.1", *setting.words, "-m", str(memory),
                 *board.words, "-nodefaults", "-display", "none", "-no-reboot",
                 "-kernel", str(kernel.image), "-initrd", str(folder / "initramfs"),
                 "-append", KERNEL_WORDS, "-serial", f"file:{folder}/console",
                 "-serial", f"file:{folder}/out"]
        message = wait(words, setting.seconds)
        out = folder / "out"
        lines = out.read_text(errors="replace").splitlines() if out.exists() else []
        if lines[-1:] != ["end"]:
            console = (folder / "console").read_text(errors="replace")[-600:]
            raise KernelFault(f"the guest did not end well: {message}\n{console}\n"
                              + "\n".join(lines[-5:]))
        return lines[:-1]
