"""Limits of users of Slurm, as lines of sacctmgr. Slurm has no weights of running jobs."""
from __future__ import annotations

import re

from arbiter_host.base.atomic_files import Document
from arbiter_host.base.names import last_name
from arbiter_host.exports import Differing, Draft, head
from arbiter_host.sources import slurm

USER = re.compile(r"[a-z_][a-z0-9_.-]{0,30}\$?")


def user_of(group: Differing) -> str:
    """The user of a job's group; empty where it is no job's."""
    user, slash, _ = group.before.title.partition("/")
    is_job = slurm.JOB.fullmatch(last_name(group.before.place))
    return user if slash and is_job and USER.fullmatch(user) else ""


def refusal_of(group: Differing) -> str:
    """Why Slurm cannot say a change; empty where it can."""
    if not user_of(group):
        return "no job of a user of Slurm"
    if group.has_weight:
        return "a weight: Slurm has none for the CPUs of jobs that run"
    if group.has_burst:
        return "a burst: Slurm has no setting for it"
    quota, rest = divmod(group.after.quota or 0, group.after.period)
    is_whole = group.after.quota is None or quota and not rest
    return "" if is_whole else "the limit is no whole number of CPUs"


def documents(draft: Draft) -> list[Document]:
    """One script of bash: the most CPUs of each later job of a user, -1 without a limit."""
    most: dict[str, int] = {}
    lines = []
    for group in draft.groups():
        user, quota, refusal = user_of(group), group.after.quota, refusal_of(group)
        if refusal:
            draft.refuse(group.path, refusal)
            continue
        cpus = -1 if quota is None else quota // group.after.period
        if most.setdefault(user, cpus) != cpus:
            draft.refuse(group.path, f"the jobs of {user} are to have two limits, and Slurm has"
                         " one for each of a user's jobs")
        lines += [f"# {group.words}",
                  f"sacctmgr -i modify user where name={user} set MaxTRESPerJob=cpu={cpus}"]
    draft.told += [f"MaxTRESPerJob holds for jobs of {user} that are submitted later, on all nodes,"
                   " where AccountingStorageEnforce has limits" for user in most]
    text = "".join(f"{line}\n" for line in dict.fromkeys(lines))
    return [Document("slurm.sh", f"#!/bin/bash\n{head('slurm')}set -euo pipefail\n{text}")
            ] if lines else []
