"""How many instructions of the scheduler's parts this machine's verifier follows.

    PYTHONPATH=tests:bench/kernel /usr/bin/python3 -m laboratory.verified

It needs root, and no sched_ext: each part is made a program that a call of the system runs, with
stand-ins for the calls and the fields of sched_ext. What such a part has of the kernel's types is
the running task's. A verifier ends at a million instructions.
"""
from __future__ import annotations

import re
import sys
import tempfile
from pathlib import Path
from typing import NamedTuple

from kernel import held, packages

CLANG = ["clang", "-O2", "-g", "-Wall", "-Wno-unused-variable", "-target", "bpf", "-mcpu=v3",
         "-D__TARGET_ARCH_x86", "-I/usr/include/x86_64-linux-gnu"]
# Each call is one to a function of which the verifier knows nothing.
STANDS_IN = """
u64 unknown;
__attribute__((noinline)) u64 stand_in(u64 one, u64 other)
{
    unknown += one + other;
    return unknown;
}
struct given_words {
    u64 word[4];
};
#define scx_bpf_select_cpu_dfl(p, prev, flags, is_idle) ((s32)stand_in(prev, flags))
#define scx_bpf_dsq_insert(p, queue, slice, flags) stand_in(queue, (slice) + (flags))
#define scx_bpf_create_dsq(queue, node) ((s32)stand_in(queue, node))
#define scx_bpf_dsq_nr_queued(queue) ((s32)stand_in(queue, 0))
#define scx_bpf_dsq_move_to_local(queue) ((bool)(stand_in(queue, 0) & 1))
#define scx_bpf_kick_cpu(cpu, flags) stand_in(cpu, flags)
#define scx_bpf_reenqueue_local() ((u32)stand_in(0, 0))
#define scx_bpf_task_cpu(p) ((s32)stand_in(0, 0))
#define scx_bpf_task_cgroup(p) bpf_cgroup_from_id(stand_in(0, 0))
"""
# Fields and calls that a kernel without sched_ext has not, or that have no stand-in above.
FIELDS = {"bpf_ksym_exists(scx_bpf_task_set_slice)": "stand_in(0, 0)",
          "scx_bpf_task_set_slice(p, slice)": "stand_in(slice, 0)",
          "p->scx.slice = slice": "stand_in(slice, 1)", "p->scx.weight": "stand_in(0, 0)",
          "prev->scx.flags": "stand_in(0, 0)", "args->fork": "stand_in(0, 0)",
          "BPF_CORE_READ(args, cgroup, kn, id)": "stand_in(0, 0)", "info->kind": "stand_in(0, 0)",
          "(struct task_struct *)ctx[1]": "given->word[1] ? bpf_get_current_task_btf() : 0"}
TASK = "bpf_get_current_task_btf()"


class Part(NamedTuple):
    """A part: its status, the instructions that were followed, and milliseconds."""

    status: int
    instructions: int
    milliseconds: int


def argument(place: int, words: str) -> str:
    """The line that gives a part an argument: the running task, or a word. The task before may be
    none."""
    if "task_struct *" in words:
        value = f"given->word[{place}] ? {TASK} : 0" if words.endswith("prev") else TASK
    else:
        value = "0" if "*" in words else f"given->word[{place}]"
    return f"    {words} = {value};\n"


def head(found: re.Match[str]) -> str:
    """The head of a part."""
    words = [each.strip() for each in (found[2] or "").split(",") if each.strip()]
    lines = "".join(argument(place, each) for place, each in enumerate(words))
    return f"int {found[1]}(struct given_words *given)\n{{\n{lines}"


def body(text: str) -> str:
    """The end of a part that returns nothing."""
    return re.sub(r"\breturn;", "return 0;", text) + "    return 0;\n}\n"


def parts_of(text: str) -> str:
    """The main file, whose parts are programs of a call of the system."""
    text = text[:text.index('SEC(".struct_ops.link")')]
    for before, after in FIELDS.items():
        text = text.replace(before, after)
    text = re.sub(r'SEC\("struct_ops(?:\.s)?/plan_\w+"\)', 'SEC("syscall")', text)
    text = re.sub(r"^void BPF_PROG.*?^}\n", lambda found: body(found[0][:-2]), text,
                  flags=re.MULTILINE | re.DOTALL)
    return re.sub(r"(?:void|s32) BPF_PROG\((\w+)(?:, ([^)]*))?\)\n{\n", head, text)


def header_of(text: str) -> str:
    """The header of the kernel's types, without the calls of sched_ext."""
    kept = re.sub(r"^extern [^;]*\bscx_bpf_[^;]*;\n", "", text, flags=re.MULTILINE)
    return kept.rstrip().removesuffix("#endif") + STANDS_IN + "#endif\n"


def made(folder: Path) -> Path:
    """The file of the parts, compiled in a folder."""
    for path in held.SCHEDULER.glob("*.h"):
        text = path.read_text(encoding="ascii")
        (folder / path.name).write_text(header_of(text) if path.name == "kernel.h" else text)
    source = folder / "plan.bpf.c"
    source.write_text(parts_of((held.SCHEDULER / source.name).read_text(encoding="ascii")))
    packages.said([*CLANG, f"-I{folder}", "-c", str(source), "-o", str(folder / "parts.o")])
    return folder / "parts.o"


def followed() -> dict[str, Part]:
    """What the verifier followed of each part."""
    with tempfile.TemporaryDirectory(prefix="arbiter-verified-") as name:
        folder = Path(name)
        program, source = folder / "verified", Path(held.__file__).with_name("verified.c")
        packages.said(["gcc", "-O2", "-Wall", "-Wextra", "-Werror", "-o", str(program), str(source),
                       "-lbpf", "-lelf", "-lz"])
        said = packages.said([str(program), str(made(folder))])
    rows = [line.split() for line in said.splitlines() if line.startswith("part ")]
    return {row[1]: Part(*map(int, row[2:])) for row in rows}


def main() -> int:
    """The command."""
    found = followed()
    for name, part in found.items():
        print(f"{name}: status {part.status}, {part.instructions} instructions,"
              f" {part.milliseconds} ms")
    return 1 if any(part.status for part in found.values()) else 0


if __name__ == "__main__":
    sys.exit(main())
