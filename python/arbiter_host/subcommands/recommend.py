"""`arbiterctl recommend`."""
# /// arbiterctl
# order = 4
# summary = "propose requests and limits by what was used"
# forms = ["tables"]
# takes = ["group", "namespace", "selector", "output", "unit", "verbose", "target", "headroom",
#          "kind", "want", "scale", "read", "used", "range", "step", "query", "map", "node",
#          "node_weights", "strict", "cpus", "period", "slice", "library"]
# description = """\
# Proposes a request and a limit for each container or unit from what it used, and says who would \
# be short and what each is guaranteed."""
# details = [
# """\
# The request is the percentile of --target with --headroom on top, at least 10m and at most the \
# limit. The answer says how many samples there are, over what time, and which of them the \
# percentile is. Limits stay, unless --target has a second percentile: then one is that of the \
# use, or what a throttled container wanted at least, with the same on top. A container without a \
# limit, or with one sample alone, gets none. In a guaranteed pod the request is the limit, and \
# stays with it.""",
# """\
# What was used is said by --used; a tree of cgroups tells of throttling too, and tells it of \
# units itself. A container of which nothing is said stays as it is.""",
# """\
# The pods of a Deployment, StatefulSet, DaemonSet or ReplicaSet, and the containers of a \
# service of compose, have one row by all that was seen of them: on each node of a cluster, \
# and of pods that are gone, by their names. A Prometheus is asked for 14 days, unless \
# --range says otherwise.""",
# """\
# For containers of docker the request is 1024 cpu-shares for each CPU and the limit cpus, for \
# units 100 of CPUWeight for each CPU and CPUQuota.""",
# """\
# In the plan each container asks for what its row used at the percentile, with the proposed \
# weights and limits. Beside it is what each is guaranteed, whatever the others ask for.""",
# ]
#
# [argument]
# name = "source"
# nargs = "+"
# metavar = "SOURCE"
# help = """\
# pods and their node, containers of docker, units, or a tree of cgroup v2, as of explain"""
#
# [examples]
# "from what was used at one time" = """\
# kubectl top pods -A --containers | arbiterctl recommend pods.json node.json --used -"""
# "from a history, as JSON" = """\
# arbiterctl recommend pods.json node.json --used pods.csv --target p90 -o json"""
# "of a whole cluster, from two weeks of Prometheus" = """\
# arbiterctl recommend k8s:// --used http://127.0.0.1:9090"""
#
# # Texts of options that are other ones here.
# [options]
# unit = "unit of a history (default cpu)"
# used = """\
# what was used: a history as for replay, a file as `kubectl top pods -A --containers` prints it, \
# a tree of cgroups, or the address of a Prometheus"""
#
# [kinds]
# used = ["kubernetes", "docker", "systemd", "cgroup"]
# ///
from __future__ import annotations

import argparse
from collections.abc import Sequence
from dataclasses import replace
from typing import Any

from arbiter import Library
from arbiter_host import recommend
from arbiter_host import options as table
from arbiter_host.base import output, text, units
from arbiter_host.base.demands import Use
from arbiter_host.base.faults import NothingFound, UsageFault
from arbiter_host.base.model import Model
from arbiter_host.base.names import cut, few, short, shown
from arbiter_host.base.output import Styled
from arbiter_host.base.plan import Engine, engine_of
from arbiter_host.base.tables import TEXT, Column, Table, TableAnswer, fact
from arbiter_host.fleet import hosts as cluster
from arbiter_host.fleet.hosts import Fleet
from arbiter_host.recommend import Advised, Proposal, Recommendation, SeenHost
from arbiter_host.records import OF_SAMPLES, source_options, use_options
from arbiter_host.sources import change, kubernetes, load, used
from arbiter_host.sources.data import loads
from arbiter_host.sources.load import Opened
from arbiter_host.sources.measurable import Measurable, measured
from arbiter_host.sources.register import READERS
from arbiter_host.sources.source_options import SourceOptions
from arbiter_host.subcommands._base import chosen_of_each, source_name


def options_of(options: argparse.Namespace) -> SourceOptions:
    """The options of the source and of its use: of that as much time as most servers have."""
    more: dict[str, Any] = {"span": "14d", "unit": options.unit, "idle": tuple(
        each for each in OF_SAMPLES if each in options.given)}
    return source_options(options, uses=use_options(options, **more))


def cluster_of(options: SourceOptions, files: Sequence[Opened], library: Library) -> Fleet | None:
    """The nodes of a cluster with their pods; None where there is one node or another source."""
    if load.kind_in(options, files) != "kubernetes":
        return None
    items = [item for path, data in files
             for item in kubernetes.items_of(loads(data or b"", shown(path)), shown(path))]
    many = sum(each.get("kind") == "Node" for each in items) > 1
    return cluster.of_cluster(files[0][0], items, lambda: library) if many else None


def of_cluster(options: SourceOptions, fleet: Fleet, by: Engine) -> list[Model]:
    """The model of each node. What was used is read once."""
    whole = replace(options, node="").without_use("kubernetes")
    models = [load.model_of(whole, [(each.path, each.data)], by.library) for each in fleet.hosts]
    if options.uses is None:
        return models
    if used.is_tree(options.uses):
        raise UsageFault("--used: a tree of cgroups is of one node: give this node's pods alone")
    sources = [each.owned for each in models if isinstance(each.owned, Measurable)]
    with_use, notes = measured(sources, used.entries(options.uses), used.name(options.uses))
    output.warn(*fleet.notes, *notes)
    return [each.model() for each in with_use]


def has_tree(options: SourceOptions) -> bool:
    """Whether what was used is in a tree of cgroups."""
    return options.uses is not None and used.is_tree(options.uses)


def models_of(options: SourceOptions, paths: Sequence[str], by: Engine
              ) -> list[tuple[str, Model]]:
    """The models of the source, of a cluster that of each node, with its name. What was used of
    pods and containers is part of it."""
    # (replicas on other nodes are of the same owner)
    files = load.opened(replace(options, node=""), paths)
    fleet, name = cluster_of(options, files, by.library), source_name(paths)
    if fleet is not None:
        if options.node and options.node not in [each.name for each in fleet.hosts]:
            raise NothingFound(f"no node {shown(options.node)}")
        return list(zip((each.name for each in fleet.hosts), of_cluster(options, fleet, by)))
    kind = load.kind_in(options, files)
    is_part = READERS[kind].is_measured or READERS[kind].is_in_tree and has_tree(options)
    return [(name, load.model_of(options if is_part else options.without_use(kind), files,
                                 by.library))]


def uses_of(options: SourceOptions, model: Model) -> dict[str, Use]:
    """The uses that were seen of each group: with the source, or of units in samples beside it."""
    owned = recommend.owned_of(model)
    seen = owned.seen()
    if options.uses and owned.noun == "unit" and not has_tree(options):
        uses, told = recommend.of_entries(owned, used.entries(options.uses))
        model.notes += told
        return seen | uses
    return seen


def run(options: argparse.Namespace) -> None:
    rule = recommend.rule_of(options.target, options.headroom)
    by, outputs = engine_of(options.library), table.outputs(options)
    source = options_of(options)
    models = models_of(source, options.source, by)
    uses = [uses_of(source, model) for _, model in models]
    for name, model in models:
        load.warn(model, name)
    is_one = len(models) == 1 or not options.node
    groups = chosen_of_each(options, [model if is_one or name == options.node else None
                                      for name, model in models])
    advice = recommend.recommended(by, [
        SeenHost(model, *each) for (_, model), each in zip(models, zip(uses, groups))], rule)
    for before, after in advice.plans:
        change.warned(before.model, after.model)
    output.write_forms(outputs, answer(advice).forms())


def hosts_words(advice: Recommendation) -> str:
    """The host, or how many there are."""
    if len(advice.plans) == 1:
        return text.host_words(advice.plans[0][1].model.host)
    cpus = sum(after.model.host.processors for _, after in advice.plans)
    return f"hosts: {len(advice.plans)}, with {text.cpus(cpus)}"


def heading(advice: Recommendation, short_: list[str]) -> Styled:
    """The lines above the table. They are red where the node has less than all pods request, and
    where groups are short."""
    headroom = float(advice.rule.headroom * 100)
    lines = [(hosts_words(advice), ""),
             (f"{advice.percentile}; {headroom:g}% on top; the proved check accepted the plan", "")]
    kept = sum(each.proposal.then.limit is None and each.proposal.now.limit is not None
               for each in advice.rows)
    if kept:
        why = "of one sample none is proposed" if advice.rule.limit else "--target p95,max"
        lines.append((f"limits that stay: {kept} ({why})", ""))
    if advice.requests is not None:
        (now, then), most = advice.requests, advice.allocatable
        node = "the node has" if len(advice.plans) == 1 else "these nodes have"
        of_node = "" if most is None else f", of {most}m that {node}"
        lines.append((f"requests of all pods: {now}m now, {then}m then{of_node}",
                      "red" if most is not None and most < then else ""))
    return [*lines, (f"short when each uses this at once: {len(short_)}"
                     + (f" ({few(short_, 3)})" if short_ else ""), "red" if short_ else ""),
            ("", "")]


def title(one: Proposal) -> str:
    """The name of an owner, and how many groups it has where these are several."""
    of = f" ({len(one.groups)})" if len(one.groups) > 1 else ""
    return cut(short(shown(one.title)), 100) + of + (" (HPA)" if one.is_scaled else "")


def columns(advice: Recommendation) -> list[Column[Advised]]:
    """The columns of owners: what weighs and what limits their groups is as people write them. As
    data amounts are thousandths of a CPU."""
    def setting(at: int) -> list[Column[Advised]]:
        return [Column(advice.keys[at], lambda each: cut(each.proposal.words[at], 20)),
                Column("then", lambda each: each.proposal.values.get(advice.keys[at], "-"))]

    def least(key: str, *forms: str) -> Column[Advised]:
        return Column(key, lambda each: f"{units.decimal(getattr(each.least, key), 1)}m",
                      key=f"{key}_millicpu", value=lambda each: float(getattr(each.least, key)),
                      forms=forms)

    def amounts(key: str) -> Column[Advised]:
        return fact(f"{key}_millicpu", lambda each: getattr(each.proposal.now, key))

    return [
        Column(advice.noun, lambda each: title(each.proposal), True, advice.noun,
               lambda each: each.proposal.title, is_last=True),
        Column("samples", lambda each: str(len(each.proposal.use.values)), key="samples",
               value=lambda each: len(each.proposal.use.values)),
        fact("of", lambda each: each.proposal.use.groups),
        fact("span_seconds", lambda each: None if each.proposal.use.span is None
             else float(each.proposal.use.span)),
        Column("used", lambda each: f"{float(each.proposal.used):.0f}m", key="used_millicpu",
               value=lambda each: float(each.proposal.used)),
        Column("most", lambda each: f"{float(each.proposal.most):.0f}m"
               f"{'*' if each.proposal.is_throttled else ''}", key="most_millicpu",
               value=lambda each: float(each.proposal.most)),
        fact("throttled", lambda each: each.proposal.is_throttled),
        fact("scaled", lambda each: each.proposal.is_scaled),
        amounts("request"), amounts("limit"),
        fact("recommended", lambda each: {f"{key}_millicpu": getattr(each.proposal.then, key)
                                          for key in ("request", "limit")}),
        *setting(0), *setting(1), fact("groups", lambda each: list(each.proposal.titles)),
        least("gets_now"), least("gets", *TEXT), least("wants"), least("guaranteed", *TEXT),
        fact("set", lambda each: each.proposal.words_of_set(advice.chosen)),
        fact("settings", lambda each: {
            key: {"now": now, "then": each.proposal.values.get(key)}
            for key, now in zip(advice.keys, each.proposal.words)})]


def as_data(advice: Recommendation, table_: Table[Advised]) -> dict[str, Any]:
    """The recommendation as data."""
    now, then = advice.requests or (None, None)
    return {"percent": advice.rule.percent, "headroom": float(advice.rule.headroom),
            "percentile": advice.percentile, "engine": advice.plans[0][1].by,
            "requests_millicpu": now, "recommended_requests_millicpu": then,
            "allocatable_millicpu": advice.allocatable, f"{advice.noun}s": table_.data()}


def answer(advice: Recommendation) -> TableAnswer:
    """The answer of `recommend`. A container that is short then is red."""
    short_ = [shown(each.proposal.title) for each in advice.rows if each.is_short]
    notes = [(words, "") for words, is_told in (
        ("* throttled at its limit: it wanted more than it used",
         any(each.proposal.is_throttled for each in advice.rows)),
        ("(HPA) an autoscaler sets how many pods run: where its target is a part of the request,"
         " another request moves their number",
         any(each.proposal.is_scaled for each in advice.rows)),
        (f"(N) N {advice.noun}s: `gets` and `guaranteed` are of the one that has least",
         any(len(each.proposal.groups) > 1 for each in advice.rows))) if is_told]
    rows = Table(columns(advice), advice.rows, style=lambda each: "red" if each.is_short else "")
    return TableAnswer(lambda: [*heading(advice, short_), rows, *notes],
                       lambda: as_data(advice, rows))
