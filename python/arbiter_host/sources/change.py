"""Changes of a model by words such as `web.weight=200`, `prod/web/app.request=500m`, `.cpus=8`."""
from __future__ import annotations

from collections.abc import Sequence
from contextlib import AbstractContextManager
from dataclasses import replace

from arbiter import Host
from arbiter_host.base import demands, faults, names, output, owned, units
from arbiter_host.base.faults import HostFault, UsageFault
from arbiter_host.base.model import Group, Model, check_settings, checked, with_cpus
from arbiter_host.base.owned import Owned, Setting
from arbiter_host.sources import hostfile

KEYS = ("weight", "max", "burst", "period", "demand", "tasks")


def naming(word: str) -> AbstractContextManager[None]:
    """Faults as those of a word of --set."""
    return faults.naming(f"--set {names.shown(word)}", UsageFault)


def split(word: str) -> tuple[str, str, str]:
    """Group, key and value of a word `GROUP.KEY=VALUE`. KEY may be a file's name."""
    left, equals, value = word.partition("=")
    group, dot, key = left.rpartition(".")
    if not (equals and dot and group) or key not in (*KEYS, *owned.KEYS):
        raise UsageFault(f"--set {names.shown(word)}: not GROUP.KEY=VALUE, KEY one of"
                         f" {', '.join((*KEYS, *owned.KEYS))}")
    for file in (".cpu.max", ".cpu"):
        group = group.removesuffix(file)
    return group, key, value


def is_owned(word: str) -> bool:
    """Whether a word changes a setting that people own."""
    return split(word)[1] in owned.KEYS


def is_host(word: str) -> bool:
    """Whether a word changes the host."""
    return word.startswith(".") and word[1:].partition("=")[0] in hostfile.HOST_KEYS


def taken(key: str, value: str) -> object:
    """A value as a host file has it."""
    is_number = value.isascii() and value.isdigit() and len(value) < 30
    return int(value) if key in ("weight", "tasks", "cpus") and is_number else value


def apply(group: Group, key: str, value: str, has_children: bool) -> None:
    """Sets one key of a group."""
    if key == "demand" and has_children:
        raise HostFault("a group with children has no demand")
    hostfile.set_key(group, key, taken(key, value))
    check_settings(group)


def check_value(word: str) -> None:
    """A fault where the value of a setting that people own is none on any host."""
    from arbiter_host.sources import containers, kubernetes, systemd
    setting = Setting(*split(word))
    checks = {"pods": kubernetes.amount_in, "units": systemd.check,
              "containers": containers.check}
    checks[owned.KEYS[setting.key]](setting)


def settings_of(model: Model, source: Owned, word: str) -> list[Setting]:
    """The settings of a source that a word changes."""
    pattern, key, value = split(word)
    if key not in source.keys:
        raise HostFault(f"{key} is a setting of {owned.KEYS[key]}; this source has"
                        f" {', '.join(source.keys)}")
    groups = [group.path for group in demands.matching(model, pattern)]
    paths = [path for path in groups if source.has(path)]
    if not paths and len(groups) == 1:
        paths = source.meant(groups[0])
        if len(paths) > 1:
            some = ", ".join(names.shown(names.last_name(path)) for path in paths[:3])
            raise HostFault(f"{names.shown(pattern)} has {len(paths)} containers: name one of"
                            f" {some}")
    if not paths:
        raise HostFault(f"{names.shown(pattern)} has no {key} in this source")
    return [Setting(path, key, value) for path in paths]


def made_again(model: Model, words: Sequence[str]) -> Model:
    """The model that its source makes with other settings of those that people own."""
    settings: list[Setting] = []
    for word in words:
        with naming(word):
            if model.owned is None:
                raise HostFault(f"{split(word)[1]} is a setting of {owned.KEYS[split(word)[1]]},"
                                " which this source has none of")
            settings += settings_of(model, model.owned, word)
    assert model.owned is not None
    try:
        # (a request is no change of what tasks want; a demand that is a limit follows it)
        if model.owned.rule != "limit":
            after = owned.remade(model, model.owned, settings)
            is_of_requests = model.owned.rule == "request"
            return replace(after, asked="requests before the change") if is_of_requests else after
        after = model.owned.changed(settings).model()
    except HostFault as fault:
        raise UsageFault(f"--set {fault.message}") from fault
    return after if after.host == model.host else after.with_host(model.host)


def if_busy(before: Model, after: Model, words: Sequence[str]) -> tuple[Model, Model] | None:
    """Both models with each container busy, where the words change requests of containers whose
    demands are requests: these stay, so that where all fit the change gives nobody more or less."""
    if not any(not is_host(word) and split(word)[1] == "request" for word in words):
        return None
    sources = [None if each.owned is None else each.owned.busy() for each in (before, after)]
    one, two = (None if each is None else each.model() for each in sources)
    return None if one is None or two is None else (one, two)


def on_host(model: Model, host: Host) -> Model:
    """The model on another host."""
    if host == model.host:
        return model
    return model.with_host(host) if model.owned is None else model.owned.on_host(host).model()


def on_named_host(model: Model, words: Sequence[str]) -> Model:
    """The model on another host, by words such as `.cpus=8`."""
    host, cpus = model.host, model.host.processors
    for word in words:
        key, _, value = word[1:].partition("=")
        with naming(word):
            if key == "cpus":
                cpus = hostfile.whole(taken(key, value))
            else:
                host = replace(host, **{hostfile.HOST_KEYS[key]: units.parse_time(value)})
    is_fixed = any(not word.startswith(".cpus=") for word in words)
    return on_host(model, checked(replace(host, processors=cpus) if is_fixed
                                  else with_cpus(host, cpus)))


def changed(model: Model, words: Sequence[str]) -> Model:
    """A copy of a model with the changes: of the host, then of what people own, then others."""
    of_host = [word for word in words if is_host(word)]
    model = on_named_host(model, of_host)
    words = [word for word in words if not is_host(word)]
    own = [word for word in words if is_owned(word)]
    rest = [word for word in words if not is_owned(word)]
    after = made_again(model, own) if own else model.copy()
    children = after.children()
    for word in rest:
        pattern, key, value = split(word)
        for group in demands.matching(after, pattern):
            with naming(word):
                apply(group, key, value, bool(children[group.path]))
    # What the source makes again does not have the other changes.
    after.owned = None if rest else after.owned
    return after


def warned(before: Model, after: Model) -> Model:
    """The model after a change, whose new notes are printed on standard error."""
    output.warn(*(f"--set: {note}" for note in after.notes if note not in before.notes))
    return after
