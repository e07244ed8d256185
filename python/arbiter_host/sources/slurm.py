"""Jobs of one node of Slurm, by any of these side by side:

- `squeue --json`, or `scontrol show job --json` of newer versions;
- `sacct --parsable2`, and `sstat --parsable2` beside it;
- `sinfo --json` of older versions, or `scontrol show node --json` of newer ones.

A job is a group `user:name:number`, and its steps are the groups below it. The CPUs that it was
allotted are its tasks. Slurm writes no weights and no limits.
"""
from __future__ import annotations

import functools
import itertools
import re
from collections.abc import Iterable, Iterator, Mapping, Sequence
from dataclasses import dataclass, field, replace
from fractions import Fraction
from typing import Any

from arbiter import Library
from arbiter_host.base import demands, names, units
from arbiter_host.base.demands import CounterReading, Measured
from arbiter_host.base.faults import HostFault, NoHost, naming
from arbiter_host.base.model import Group, Model, check_count
from arbiter_host.base.names import NOWHERE, listed, shown
from arbiter_host.sources.data import cells_of, decoded, loads, number, table, tables, text_field
from arbiter_host.sources.register import AVERAGE, USED, part_of_jobs
from arbiter_host.sources.source_options import File, SourceOptions

# The folder of a job.
JOB = re.compile(r"job_[0-9]+")
# The folder of all jobs with cgroup v2.
TOP = "system.slice/slurmstepd.scope"
# The states of jobs that have tasks: those that run, and those whose tasks cannot.
ACTIVE, FROZEN = ("RUNNING", "COMPLETING", "SIGNALING"), ("SUSPENDED", "STOPPED")
# A cell of what sstat says a step has used, such as `cpu=00:00:07,energy=0`.
CPU_USED = re.compile(r"(?:.*,)?cpu=([0-9:.-]{1,40})(?:,.*)?")
IDENTIFIER = re.compile(r"([0-9]{1,10}(?:_[0-9]{1,10})?(?:\+[0-9]{1,10})?)"
                        r"(?:\.([A-Za-z0-9+_]{1,40}))?")
TIME = re.compile(r"(?:([0-9]{1,6})-)?(?:([0-9]{1,6}):)?([0-9]{1,6}):([0-9]{1,6})(\.[0-9]{1,9})?")
RANGE = re.compile(r"([0-9]{1,9})(?:-([0-9]{1,9}))?")
MOST_NODES = 65536


@dataclass
class JobStep:
    """A step, or a job without steps: CPUs allotted on one node, microseconds used there and
    passed, and the nodes."""

    cpus: int = 0
    used: int | None = None
    passed: int = 0
    nodes: Sequence[str] = ()

    @property
    def measured(self) -> Measured:
        """Its use as two readings, with the CPUs as request and as tasks."""
        readings = []
        if self.used is not None and self.passed > 0:
            readings = [CounterReading(0), CounterReading(self.used * 10**6 // self.passed)]
        return Measured(readings, Fraction(1000 * self.cpus), self.cpus or None)


@dataclass
class SlurmJob:
    """A job that runs on the node."""

    identifier: str
    user: str = ""
    name: str = ""
    whole: JobStep = field(default_factory=JobStep)
    steps: dict[str, JobStep] = field(default_factory=dict)
    # The nodes of the job, and whether it was allotted cores; None where that is not told.
    nodes: list[str] = field(default_factory=list)
    has_cores: bool | None = None
    # The name of its folder is told by the number of a job alone.
    is_raw: bool = True
    is_suspended: bool = False
    # What sacct calls a task of an array or a part of a job of several kinds of nodes.
    alias: str = ""

    @property
    def parts(self) -> tuple[str, str, str]:
        """User, name and number: that of a task of an array has the array's."""
        return self.user or "unknown", self.name or "unnamed", self.alias or self.identifier

    @property
    def title(self) -> str:
        """The parts, without letters that a terminal could take as a command."""
        return shown("/".join(each.replace("/", "%2F") for each in self.parts))


def count(value: Any, key: str) -> int:
    """A number, which newer versions hold in a table: `{"set": true, "number": 8}`."""
    return number(value, key, "number") if table(value, key) else number(value, key)


def ranged(part: str) -> Iterator[str]:
    """The hosts of one part, such as `n[01-04,7]`, which has at most one pair of brackets."""
    if not set(part) & {"[", "]"}:
        yield part
        return
    match = re.fullmatch(r"([^\[\]]*)\[([^\[\]]*)\]([^\[\]]*)", part)
    for each in match[2].split(",") if match else [""]:
        pair = RANGE.fullmatch(each)
        if not (match and pair):
            raise HostFault(f"{shown(part[:60])!r} is no list of nodes")
        for place in range(int(pair[1]), int(pair[2] or pair[1]) + 1):
            yield f"{match[1]}{place:0{len(pair[1])}}{match[3]}"


@functools.lru_cache(maxsize=1024)
def hosts_of(text_: str) -> list[str]:
    """The nodes of Slurm's list of hosts. A comma in brackets separates none."""
    parts = re.findall(r"(?:[^,\[]|\[[^\]]*\])+", text_)
    named = itertools.chain.from_iterable(map(ranged, parts))
    hosts = list(itertools.islice(named, MOST_NODES + 1))
    if len(hosts) > MOST_NODES:
        raise HostFault(f"a job of more than {MOST_NODES} nodes")
    return hosts


def time_of(word: str) -> int:
    """Microseconds of `[DAYS-[HOURS:]]MINUTES:SECONDS[.PART]`."""
    match = TIME.fullmatch(word)
    if not match:
        raise HostFault(f"{shown(word[:40])!r} is no time of Slurm")
    days, hours, minutes, seconds = (int(each or 0) for each in match.groups()[:4])
    whole = ((days * 24 + hours) * 60 + minutes) * 60 + seconds
    return int((whole + Fraction(match[5] or 0)) * 10**6)


def cores_of(node: dict[str, Any]) -> int:
    """The cores of a node that a job was allotted, as Slurm 22.05 tells them."""
    return sum(text_field(cores, core) == "allocated" for socket in table(node, "sockets").values()
               for cores in [table(socket, "cores")] for core in cores)


def allotted(raw: dict[str, Any]) -> list[tuple[str, int, bool]]:
    """The nodes of a job with its CPUs there, and whether cores are told."""
    older, cpus = tables(raw, "job_resources", "allocated_nodes"), count(raw, "cpus")
    cores = list(map(cores_of, older))
    if sum(cores):
        # (`cpus_used` there is 0 of some jobs that run)
        return [(text_field(each, "nodename"), -(-cpus * many // sum(cores)), True)
                for each, many in zip(older, cores)]
    return [(text_field(each, "name"), number(each, "cpus", "count"),
             any(tables(socket, "cores") for socket in tables(each, "sockets")))
            for each in tables(raw, "job_resources", "nodes", "allocation")]


def alias_of(raw: dict[str, Any]) -> str:
    """The name of a job in sacct where it is not its number: `ARRAY_TASK` or `FIRST+OFFSET`."""
    for above, key, mark in (("array_job_id", "array_task_id", "_"),
                             ("het_job_id", "het_job_offset", "+")):
        first = count(raw, above)
        if first and table(raw, key).get("set", raw.get(key) is not None):
            return f"{first}{mark}{count(raw, key)}"
    return ""


def states_of(raw: dict[str, Any]) -> set[str]:
    """The states of a job: a list in newer versions, one text in older ones."""
    words = raw.get("job_state")
    return {each for each in (words if isinstance(words, list) else [words])
            if isinstance(each, str)}


def job_of(raw: dict[str, Any], node: str) -> SlurmJob:
    """A job of `squeue --json` or `scontrol show job --json`."""
    job = SlurmJob(str(number(raw, "job_id")), text_field(raw, "user_name"),
                   text_field(raw, "name"), nodes=hosts_of(text_field(raw, "nodes")),
                   alias=alias_of(raw), is_suspended=not states_of(raw) & set(ACTIVE))
    told = allotted(raw)
    here = [(cpus, cores) for name, cpus, cores in told if name == node or len(told) == 1]
    job.whole.cpus, job.has_cores = here[0] if here else (
        -(-count(raw, "cpus") // max(len(job.nodes), 1)), None)
    return job


def rows_of(data: bytes, name: str) -> Iterator[tuple[str, dict[str, str]]]:
    """The rows of `sacct --parsable2` with their places."""
    head, *lines = (line.rstrip("\r").split("|") for line in
                    decoded(data, name, errors="replace").lstrip("\ufeff").split("\n"))
    for line, cells in enumerate(lines, 2):
        if "".join(cells).strip() or len(cells) > 1:
            # (a name may have a bar: which cell is which could not be told)
            yield f"{name}:{line}", cells_of(cells, head, f"{name}:{line}")


def step_of(row: dict[str, str], nodes: Sequence[str]) -> JobStep:
    """The figures of a row on each of its nodes, to which they are shared out equally. One that
    runs and used nothing yet is not accounted yet."""
    many = max(len(nodes), 1)
    step = JobStep(-(-(units.whole(row.get("AllocCPUS", "")) or 0) // many), nodes=nodes)
    if row.get("TotalCPU") and row.get("Elapsed"):
        step.used, step.passed = time_of(row["TotalCPU"]) // many, time_of(row["Elapsed"])
        if step.used == 0 and row.get("State", "RUNNING").startswith("RUNNING"):
            step.used = None
    return step


def alias_in(row: Mapping[str, str], identifier: str) -> str:
    """The name that a row of sacct has for a job beside its number; empty where it is no other."""
    match = IDENTIFIER.fullmatch(row.get("JobID", ""))
    return match[1] if match and match[1] != identifier else ""


def take_row(row: dict[str, str], jobs: dict[str, SlurmJob], aliases: Mapping[str, str]) -> bool:
    """Takes a row of sacct. Returns whether it is of something that runs. One that waits may be of
    many jobs of an array, as `15_[1-9]`."""
    state = row.get("State", "RUNNING").split(" ")[0]
    if state not in (*ACTIVE, *FROZEN):
        return False
    word = row.get("JobIDRaw") or row.get("JobID") or ""
    match = IDENTIFIER.fullmatch(word)
    if not match:
        raise HostFault(f"{shown(word[:40])!r} is no JobID")
    name = aliases.get(match[1], match[1])
    job = jobs.setdefault(name, SlurmJob(name, is_raw=name.isdigit()))
    job.alias = job.alias or alias_in(row, job.identifier)
    nodes = hosts_of(row.get("NodeList", "").replace("None assigned", "")) or job.nodes
    step = step_of(row, nodes)
    if match[2]:
        job.steps[match[2]] = step
        return True
    job.is_suspended = job.is_suspended or state in FROZEN
    job.user, job.name = row.get("User") or job.user, row.get("JobName") or job.name
    job.nodes = job.nodes or nodes
    job.whole = JobStep(job.whole.cpus or step.cpus, step.used, step.passed)
    return True


def take_used(row: dict[str, str], jobs: Mapping[str, SlurmJob]) -> bool:
    """Takes what a row of sstat says that a step which runs has used: in all, or on average by each
    of its tasks. Some rows do not say it. Returns whether the step is here."""
    match = IDENTIFIER.fullmatch(row.get("JobID", ""))
    job = jobs.get(match[1]) if match else None
    step = job.steps.get(match[2] or "") if match and job else None
    if step is None:
        return False
    cell, average = CPU_USED.fullmatch(row.get(USED, "")), row.get(AVERAGE)
    tasks = units.whole(row.get("NTasks", ""), 30)
    if cell:
        step.used = time_of(cell[1]) // max(len(step.nodes), 1)
    elif "NTasks" not in row and USED not in row:
        raise HostFault(f"{AVERAGE} is of one task: print NTasks beside it, or {USED}")
    elif average and tasks is not None:
        step.used = time_of(average) * tasks // max(len(step.nodes), 1)
    return True


def jobs_of(files: Mapping[str, list[File]], node: str) -> tuple[dict[str, SlurmJob], int, int]:
    """The jobs of files by their parts, how many jobs and steps do not run, and how many rows of
    sstat are of no step here."""
    raw = [each for name, data in files["jobs"] for each in tables(loads(data, name), "jobs")]
    jobs, left, others = {}, 0, 0
    for each in raw:
        if states_of(each) & {*ACTIVE, *FROZEN}:
            job = job_of(each, node)
            jobs[job.identifier] = job
        else:
            left += 1
    aliases = {job.alias: key for key, job in jobs.items() if job.alias}
    for name, data in files["sacct"]:
        for where, row in rows_of(data, name):
            with naming(where):
                left += not take_row(row, jobs, aliases)
    named = jobs | {job.alias: job for job in jobs.values() if job.alias}
    for name, data in files["sstat"]:
        for where, row in rows_of(data, name):
            with naming(where):
                others += not take_used(row, named)
    return jobs, left, others


def node_of(nodes: Sequence[dict[str, Any]], jobs: Iterable[SlurmJob]) -> str:
    """The name of the only node."""
    known = {text_field(each, "name") for each in nodes} or {
        each for job in jobs for each in job.nodes}
    if len(known) > 1:
        some = ", ".join(shown(each) for each in sorted(known)[:5])
        raise HostFault(f"{len(known)} nodes ({some}): choose one by --node")
    return next(iter(known), "")


def cpus_of(nodes: Sequence[dict[str, Any]], name: str) -> int:
    """The CPUs of a node that jobs may have."""
    for each in nodes:
        cpus = number(each, "effective_cpus") or number(each, "cpus")
        if text_field(each, "name") == name and cpus:
            return cpus
    raise NoHost("number of CPUs unknown: pass `sinfo --json`, `scontrol show node --json` or"
                 " --cpus")


def take_allotted(jobs: Sequence[SlurmJob], model: Model) -> None:
    """Takes the CPUs that a job was allotted where no use of what runs of it is known. Slurm
    accounts for a step when it ends. So the whole job has the use of steps that have ended."""
    unaccounted = [job for job in jobs
                   if all(step.used is None for step in job.steps.values() or [job.whole])]
    for job in unaccounted:
        job.steps.clear()
        job.whole.used, job.whole.passed = job.whole.cpus * 10**6, 10**6
    if unaccounted:
        model.notes.append(f"jobs whose use is not accounted yet: {len(unaccounted)}: the CPUs that"
                           " they were allotted are taken (`sstat -a --parsable2` has their use)")


def steps_of(job: SlurmJob, model: Model) -> Iterator[tuple[Group, JobStep]]:
    """The groups of a job and of its steps."""
    path = names.path_name(":".join(job.parts), model.groups)
    place = f"{TOP}/job_{job.identifier}" if job.is_raw else NOWHERE
    yield Group(path, title=job.title, place=place), job.whole
    for name, step in job.steps.items():
        yield (Group(f"{path}/{names.path_name(f'step_{name}')}", title=f"{job.title}/{name}",
                     place=f"{place}/step_{name}" if job.is_raw else NOWHERE),
               replace(step, cpus=step.cpus or job.whole.cpus))


def tell(model: Model, jobs: Sequence[SlurmJob], left: int, others: int) -> None:
    """Tells what is left out, and which jobs were allotted cores of their own."""
    for what, many in (("jobs and steps that do not run", left),
                       ("rows of sstat of no step here", others)):
        model.notes += [f"{what}, left out: {many}"] if many else []
    for titles, what, why in (
            ([each.title for each in jobs if each.has_cores], "allotted cores of their own",
             "where Slurm binds tasks to them (TaskPlugin), what others leave idle does not reach a"
             " job"),
            ([each.title for each in jobs if len(each.nodes) > 1], "on several nodes",
             "usage, and CPUs that are not told by node, are shared out equally")):
        if titles:
            model.notes.append(f"{what}: {listed(titles)}: {why}")


def check_parts(first: str, parts: Mapping[str, list[File]]) -> None:
    """A fault where the files are no jobs."""
    def last(part: str) -> str:
        return parts[part][-1][0]

    if parts.get("accounts"):
        raise HostFault(f"{last('accounts')}: JSON of sacct is not read: print the jobs by `sacct"
                        " --parsable2`")
    if parts["sstat"] and not parts["sacct"]:
        raise HostFault(f"{last('sstat')}: sstat tells no job's time: pass `sacct --parsable2`"
                        " beside it")
    if not (parts["jobs"] or parts["sacct"]) or "" in parts:
        raise HostFault(f"{first}: no jobs as `squeue --json`, `scontrol show job --json` or `sacct"
                        " --parsable2` print them")


def on_node(jobs: Iterable[SlurmJob], name: str) -> list[SlurmJob]:
    """The jobs of a node, each with its steps there."""
    def is_here(nodes: Sequence[str]) -> bool:
        return not nodes or not name or name in nodes

    here = [replace(job, steps={key: step for key, step in job.steps.items()
                                if is_here(step.nodes)}) for job in jobs if is_here(job.nodes)]
    check_count(sum(1 + len(each.steps) for each in here), f"{len(here)} jobs")
    return here


def read(files: Sequence[File], library: Library, options: SourceOptions) -> Model:
    """The model of one node's jobs."""
    parts: dict[str, list[File]] = {"jobs": [], "sacct": [], "sstat": [], "nodes": []}
    for file in files:
        parts.setdefault(part_of_jobs(file[1]), []).append(file)
    check_parts(files[0][0], parts)
    nodes = [each for name, data in parts["nodes"] for each in tables(loads(data, name), "nodes")]
    node = options.node or (text_field(nodes[0], "name") if len(nodes) == 1 else "")
    jobs, left, others = jobs_of(parts, node)
    name = node or node_of(nodes, jobs.values())
    host = options.host(library, 1 if options.cpus is not None else cpus_of(nodes, name))
    want = options.want or ("usage" if parts["sacct"] else "request")
    model = Model(host, names_host=options.cpus is None, weighed="100 of each job")
    here = on_node(jobs.values(), name)
    if parts["sacct"] and not options.want:
        take_allotted(here, model)
    measured: dict[str, Measured] = {}
    suspended: list[str] = []
    for job in here:
        made = [(model.add(group).path, step) for group, step in steps_of(job, model)]
        measured |= {path: step.measured for path, step in made}
        suspended += [path for path, _ in made[1:] or made] if job.is_suspended else []
    tell(model, here, left, others)
    if want not in ("usage", "request", "busy"):
        raise HostFault(f"--want {want} needs readings: jobs have usage, request and busy", 2)
    demands.set_demands(model, measured, want, Fraction(1))
    model.asked = {"request": "CPUs of each job", "usage": "mean of use while it ran"}.get(
        want, model.asked)
    demands.stop(model, suspended, "suspended")
    return model
