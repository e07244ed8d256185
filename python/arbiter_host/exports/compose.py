"""Overrides of compose files: `services.NAME.cpus`, `cpu_shares`, `cpu_quota`, `cpu_period`."""
from __future__ import annotations

import re
from collections.abc import Sequence
from typing import Any

import yaml

from arbiter_host.base import units
from arbiter_host.base.atomic_files import Document
from arbiter_host.exports import Differing, Draft, head
from arbiter_host.sources.containers import COMPOSE, ContainerSource, service_of
from arbiter_host.sources.data import number, table, text_field

NAME = re.compile(r"[a-zA-Z0-9][a-zA-Z0-9_.-]{0,100}")


def told_shares(draft: Draft, group: Differing) -> int | None:
    """The shares that AFTER has, 0 for the default, else the least of its weight; None for none."""
    owned = draft.after.owned
    if owned is None or "cpu-shares" not in owned.keys or not owned.has(group.path):
        return units.least_of(draft.library, units.OF_SHARES[draft.runtime], group.after.weight)
    return units.whole(owned.weighing(group.path).now) or 0


def limit_of(group: Differing, config: dict[str, Any]) -> dict[str, Any] | None:
    """The keys of a limit; None where the key that the service has cannot say it."""
    quota, period = group.after.quota, group.after.period
    has_cpus = number(config, "NanoCpus") != 0
    if number(config, "CpuQuota") > 0 and not has_cpus:
        return {"cpu_quota": quota or 0, "cpu_period": period}
    if quota is None:
        return {"cpus": 0}
    if period == units.DEFAULT_PERIOD:
        whole, rest = divmod(quota, period)
        return {"cpus": whole + rest / period if rest else whole}
    return None if has_cpus else {"cpu_quota": quota, "cpu_period": period}


def keys_of(draft: Draft, group: Differing, config: dict[str, Any]) -> dict[str, Any]:
    """The keys of a service. What compose has no key for is refused."""
    keys: dict[str, Any] = {}
    shares = told_shares(draft, group) if group.has_weight else None
    limit = limit_of(group, config) if group.has_limit else {}
    if shares is not None:
        keys["cpu_shares"] = shares
    elif group.has_weight:
        draft.refuse(group.path, f"no cpu_shares give weight {group.after.weight}")
    if limit is None:
        draft.refuse(group.path, f"`cpus` has a period of 100000, not {group.after.period}")
    if group.has_burst:
        draft.refuse(group.path, "a burst: compose has no key for it")
    return keys | (limit or {})


def documents(draft: Draft) -> list[Document]:
    source, changed = draft.before.owned, set()
    containers = {path: source.running[at] for path, (at, _) in source.built[1].items()
                  } if isinstance(source, ContainerSource) else {}
    projects: dict[str, dict[str, dict[str, Any]]] = {}
    words: dict[str, list[str]] = {}
    for group in draft.groups():
        changed.add(group.path)
        container = containers.get(group.path, {})
        project, service = service_of(container)
        if not (NAME.fullmatch(project) and NAME.fullmatch(service)):
            draft.refuse(group.path, f"no service of compose ({COMPOSE}project and .service are"
                         " not among its labels)")
            continue
        keys = keys_of(draft, group, table(container, "HostConfig"))
        if projects.setdefault(project, {}).setdefault(service, keys) != keys:
            draft.refuse(group.path, f"the service {service} is to have two settings")
        words.setdefault(project, []).append(f"# {group.words}\n")
    # A service has all its containers changed or none.
    for path, container in containers.items():
        project, service = service_of(container)
        if path not in changed and service in projects.get(project, {}):
            draft.refuse(text_field(container, "Name").strip("/"),
                         f"is of the service {service} too, and does not change")
    return [document(project, services, words[project]) for project, services in projects.items()]


def document(project: str, services: dict[str, dict[str, Any]], words: Sequence[str]) -> Document:
    use = f"# docker compose -p {project} -f COMPOSE.yaml -f {project}.override.yaml up -d\n"
    if any("cpus" in keys for keys in services.values()):
        use += ("# Compose takes no `cpus` beside deploy.resources.limits.cpus: where a service"
                " has that, change it there.\n")
    return Document(f"{project}.override.yaml", head("compose") + use + "".join(words)
                    + yaml.safe_dump({"services": services}, sort_keys=False))
