"""Drop-ins of systemd units: `NAME.service.d/50-arbiter.conf`, for /etc/systemd/system."""
from __future__ import annotations

from collections.abc import Iterator

from arbiter_host.base.atomic_files import Document
from arbiter_host.base.names import shown
from arbiter_host.exports import Differing, Draft, head, of_kubelet
from arbiter_host.setting import apply
from arbiter_host.sources.systemd import unit_of

FILE = "50-arbiter.conf"
SECTIONS = {"service": "Service", "slice": "Slice", "scope": "Scope"}


def settings(group: Differing) -> Iterator[str]:
    """The lines of what changes. An empty quota takes an earlier one back."""
    after = apply.settings_of(group.after)
    if group.has_weight:
        yield f"CPUWeight={after.weight}"
    if group.has_limit:
        yield f"CPUQuota={apply.percent(after)}"
        yield f"CPUQuotaPeriodSec={after.period}us"


def documents(draft: Draft) -> list[Document]:
    """A drop-in of each unit that changes. All else is refused by name."""
    seen: dict[str, str] = {}
    files = []
    for group in draft.groups():
        folder = draft.folder(group)
        if folder is None:
            continue
        unit = unit_of(folder)
        if not unit:
            draft.refuse(group.path, "its group is none of a unit by its path (--yes writes its"
                         " files)")
        elif unit in seen:
            draft.refuse(group.path, f"{seen[unit]} has the unit {unit} too")
        elif group.has_burst:
            draft.refuse(group.path, "a burst: units have no setting for it (--yes writes it)")
        elif group.has_limit and apply.percent(apply.settings_of(group.after)) is None:
            limit = apply.settings_of(group.after)
            draft.refuse(group.path, f"CPUQuota= has two decimals of a percent, and {limit.quota}"
                         f" in {limit.period} microseconds has more (--yes writes it)")
        else:
            seen[unit] = group.path
            section = SECTIONS[unit.rpartition(".")[2]]
            lines = "".join(f"{line}\n" for line in settings(group))
            if unit.endswith(".scope"):
                draft.told.append(f"{shown(group.path)}: its unit is a scope, which is gone when"
                                  " its last process ends")
            files.append(Document(f"{unit}.d/{FILE}", f"{head('dropin')}# {group.words}\n"
                                  f"[{section}]\n{lines}"))
    draft.told += of_kubelet(draft)
    return files
