"""The kinds of sources: how each is known, which files it has, and the module that reads it.

A reader is `read(files, library, options)` of its module, which is imported when it is asked for.
A new kind is a module and a line here, and its words for people in arbiter_pages/manual.py.
"""
from __future__ import annotations

import re
from collections.abc import Callable
from typing import NamedTuple

# What a file may begin with before its first word.
BLANK = b"\xef\xbb\xbf \t\r\n"
# What begins a table of TOML, and no list of JSON.
TABLE = re.compile(rb"\[[A-Za-z]")
OBJECTS = re.compile(rb'"kind"\s*:\s*"(Pod|PodList|Node|NodeList|List|Deployment|StatefulSet'
                     rb'|DaemonSet|ReplicaSet|Job|CronJob)"|"apiVersion"\s*:')
NODE = re.compile(rb'"kind"\s*:\s*"Node"')
PARTS = re.compile(rb'"kind"\s*:\s*"(Pod|Node)(?:List)?"')
# Texts that are no source, and what is one in their place.
MISTAKEN = (
    (re.compile(rb"(apiVersion|items|kind|metadata):"), "YAML: kubectl prints JSON by -o json"),
    (re.compile(rb"NAME(SPACE)? "), "a table: kubectl prints JSON by -o json"),
    (re.compile(rb"CONTAINER ID "), "a table: docker inspect $(docker ps -q) prints JSON"),
    (re.compile(rb"(services|version|name|networks|volumes):"),
     "YAML of compose: docker inspect $(docker compose ps -q) prints JSON"),
    (re.compile(rb"\[(Unit|Service|Slice|Scope)\]"),
     "a unit's file: systemctl show '*.slice' '*.service' '*.scope' prints what holds"),
    (re.compile(rb"JOBID "), "a table: squeue --json prints JSON"),
    (re.compile(rb"JobId="), "words of scontrol: squeue --json prints JSON"),
    (re.compile(rb"JobID "), "a table: sacct -P prints columns that can be told apart"),
    (re.compile(rb"$"), "it is empty"))
UNITS = re.compile(rb"^(ControlGroup|Slice|CPUWeight)=", re.M)
# The head of what sacct and sstat print, and what sstat says a step has used.
JOB_IDS = re.compile(rb"[A-Za-z_0-9|%]*\bJobID(Raw)?\b[A-Za-z_0-9|%]*\r?\n")
USED, AVERAGE = "TRESUsageInTot", "AveCPU"


def is_json(data: bytes) -> bool:
    """Whether a file begins as JSON does."""
    begin = data.lstrip(BLANK)
    return begin[:1] in (b"{", b"[") and not TABLE.match(begin)


def part_of_jobs(data: bytes) -> str:
    """Which of Slurm's files this is: `jobs`, `nodes`, `sacct`, `sstat` or `accounts`; empty for
    none of these."""
    begin = data.lstrip(BLANK)
    if begin[:1] == b"{":
        if re.search(rb'"job_id"\s*:', data) and re.search(rb'"jobs"\s*:', data):
            is_account = re.search(rb'"steps"\s*:', data) and b'"job_state"' not in data
            return "accounts" if is_account else "jobs"
        is_node = re.search(rb'"(alloc_cpus|effective_cpus)"\s*:', data)
        return "nodes" if is_node and re.search(rb'"nodes"\s*:', data) else ""
    head = begin.split(b"\n")[0].strip().split(b"|")
    if len(head) < 2 or not JOB_IDS.match(begin):
        return ""
    is_average = AVERAGE.encode() in head and not {b"State", b"Elapsed", b"TotalCPU"} & set(head)
    return "sstat" if is_average or USED.encode() in head else "sacct"


class SourceKind(NamedTuple):
    """One kind of source: the module that reads it, and whether a file of a name is one."""

    module: str
    is_one: Callable[[str, bytes], bool]
    # Which part of a source a file is. Files of several parts, side by side, are one source.
    part: Callable[[bytes], str] | None = None
    # Whether its groups may be measured elsewhere, or in a tree of cgroups alone.
    is_measured: bool = False
    is_in_tree: bool = False
    # Whether its host is this machine, unless --cpus names another.
    is_here: bool = False


# The word of a running service.
SERVICE = re.compile("(k8s|docker|podman|systemd)://")
# In the order in which they are tried. A folder is a tree; what is none of these is a script.
READERS = {
    "toml": SourceKind("hostfile", lambda path, data: path.endswith(".toml") or bool(
        TABLE.match(data.lstrip(BLANK)))),
    "slurm": SourceKind("slurm", lambda _, data: bool(part_of_jobs(data)), part_of_jobs),
    "docker": SourceKind(
        "containers", lambda _, data: is_json(data) and b'"HostConfig"' in data,
        is_measured=True, is_here=True),
    "kubernetes": SourceKind(
        "kubernetes", lambda _, data: is_json(data) and bool(OBJECTS.search(data)),
        lambda data: "node" if set(PARTS.findall(data)) == {b"Node"} else "pods", True),
    "json": SourceKind("hostfile", lambda _, data: is_json(data)),
    "systemd": SourceKind("systemd", lambda _, data: bool(UNITS.search(data)),
                          is_in_tree=True, is_here=True),
    "cgroup": SourceKind("cgroups", lambda _, __: False, is_here=True),
    "script": SourceKind("script", lambda path, _: path.endswith(".script")),
}
