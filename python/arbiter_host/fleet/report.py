"""The report of many hosts: what each question's answers come to, as lines, rows and data."""
from __future__ import annotations

import re
from collections.abc import Callable, Iterable, Mapping, Sequence
from dataclasses import dataclass, replace
from fractions import Fraction
from operator import itemgetter
from typing import Any, NamedTuple

from arbiter_host.answers.series import COUNTS
from arbiter_host.base.html import bar, rendered
from arbiter_host.base.names import few, short, shown
from arbiter_host.base.tables import Column, Table, TableAnswer, plain
from arbiter_host.fleet.answers import HostAnswer
from arbiter_host.fleet.work import Action
from arbiter_host.sources.kubernetes import resource_text
from arbiter_host.sources.topology import Neighbour, Neighbours

# The rules of `--rank`, told in the report.
RULES = {
    "least-loss": "the least that others lose and the pod lacks, then the most CPU left",
    "most-left": "the most CPU left, then the least that others lose and the pod lacks",
}
OWN = "the order is arbiterctl's own, neither proved nor the scheduler's scores: by"
# The amounts of a pod that is put on a host.
AMOUNTS = ("gets", "wants", "lost")
MOST_MOVED, MOST_REASONS = 10, 3
# The titles of pages.
TITLES = {Action.PLAN: "What each host serves", Action.CHANGE: "A change on many hosts",
          Action.PODS: "Where pods would go", Action.SAMPLES: "Demands over time on many hosts"}
# Rows of a table without `--all`.
MOST_ROWS = 20


@dataclass(frozen=True)
class Report:
    """All that is told of a run, by its title: lines, tables, hosts without an answer, the same as
    data, and the bars of all hosts together."""

    title: str
    lines: list[str]
    tables: list[Table[Any]]
    missing: list[tuple[str, str]]
    data: dict[str, Any]
    bars: list[dict[str, Any]]
    notes: list[str]


def notes_of(hosts: Sequence[HostAnswer]) -> list[str]:
    """The notes of what the sources of hosts could not say. Of those that differ in numbers alone
    the first stands for all, and says how many more hosts have such."""
    alike: dict[str, dict[str, str]] = {}
    for host in hosts:
        lines = len(host.answer["refused"])
        for note in [*([f"lines refused: {lines}"] if lines else []), *host.answer["notes"]]:
            alike.setdefault(re.sub("[0-9]+", "0", note), {}).setdefault(host.name, note)
    return [f"{next(iter(notes))}: {next(iter(notes.values()))}" + (
        f" (so of {len(notes) - 1} more: -o json)" if len(notes) > 1 else "")
            for notes in alike.values()]


# Lines, tables, the same as data, and the CPUs of each bar by its name.
Parts = tuple[list[str], list[Table[Any]], dict[str, Any], dict[str, Fraction]]
Row = Mapping[str, Any]
# The columns of tables with a row for each host. What no host has of bad things has no column.
Columns = list[Column[HostAnswer]]
HOST: Column[HostAnswer] = Column("host", lambda host: host.name, True)


def of_host(title: str, cell: Callable[[HostAnswer], str], is_bad: bool = False
            ) -> Column[HostAnswer]:
    return Column(title, cell, None, is_optional=is_bad)


def count_of(key: str, is_bad: bool = False) -> Column[HostAnswer]:
    """A number of a host's answer."""
    return of_host(key, lambda host: str(host.answer[key]), is_bad)


def amount_of(title: str, *keys: str | int) -> Column[HostAnswer]:
    """An amount of a host's answer, in CPUs."""
    return of_host(title, lambda host: cpu(host.of(*keys)))


def cpu(value: Fraction) -> str:
    return f"{float(value):.2f}"


def signed(value: Fraction) -> str:
    """A change in CPUs; `0` for none."""
    return f"{float(value):+.2f}" if value else "0"


def number(value: Fraction) -> float:
    """A fraction as data, with six decimals."""
    return round(float(value), 6)


def part(one: Fraction, all_: Fraction) -> str:
    return f"{float(100 * one / all_):.0f}%" if all_ else "-"


def total(hosts: Iterable[HostAnswer], *keys: str) -> Fraction:
    return sum((host.of(*keys) for host in hosts), Fraction(0))


def group_words(groups: Sequence[Sequence[Any]], host: HostAnswer, none: str = "-") -> str:
    """The first groups of a list with their amounts."""
    return ", ".join(f"{'the host' if path == '.' else short(shown(path))}"
                     f" ({cpu(host.cpus(amount))})" for path, amount in groups[:2]) or none


def lack(host: HostAnswer) -> Fraction:
    """CPUs that a host's groups want through their limits and do not get."""
    return host.of("wanted") - host.of("served")


PLANNED = ("groups", "lacking", "starved", "throttled")
PLAN_COLUMNS: Columns = [
    HOST, count_of("cpus"), amount_of("served", "served"), amount_of("wanted", "wanted"),
    of_host("lack", lambda host: cpu(lack(host))),
    of_host("use", lambda host: part(host.of("served"), host.of("capacity"))),
    *(count_of(key, key in ("starved", "throttled")) for key in PLANNED),
    of_host("what limits the total", lambda host: group_words(host.answer["limiting"], host,
                                                              "the demands alone"))]


def of_row(title: str, key: str, is_left: bool | None = None, is_bad: bool = False) -> Column[Row]:
    """A value of a row, amounts with two decimals; `-` for none."""
    def cell(row: Row) -> str:
        value = row.get(key, "-")
        return f"{value:.2f}" if isinstance(value, float) else str(value)

    return Column(title, cell, is_left, is_optional=is_bad)


# (the requests of a pod are no sum of its containers' where an init container needs more)
LOADS_TITLE = "Workloads, the greatest lack first, with requests as the scheduler counts them"
LOADS: list[Column[Row]] = [
    Column("workload", lambda row: shown(row["workload"]) + (" (HPA)" if row["scaled"] else ""),
           True), Column("requests", lambda row: f"{row['request_millicpu']}m"),
    *(of_row(key.partition("_")[0], key, False)
      for key in ("pods", "hosts", "served_cpus", "wanted_cpus", "lacking"))]


def of_plan(hosts: Sequence[HostAnswer], _: str) -> Parts:
    """The report of `explain`: the hosts that lack most first."""
    amounts = {key: total(hosts, key) for key in ("served", "wanted", "capacity")}
    counts = {key: sum(host.answer[key] for host in hosts) for key in PLANNED}
    lines = [f"{cpu(amounts['served'])} of {cpu(amounts['capacity'])} CPUs served,"
             f" {cpu(amounts['wanted'])} wanted, groups: {counts['groups']};"
             " the proved check accepted each plan",
             f"groups without all that they want: {counts['lacking']}, of these starved:"
             f" {counts['starved']}; throttled: {counts['throttled']}",
             asked(hosts)]
    ordered = sorted(hosts, key=lambda host: (-lack(host), host.name))
    loads = workloads(hosts)
    data = {f"{key}_cpus": number(value) for key, value in amounts.items()} | counts | {
        "workloads": loads}
    tables: list[Table[Any]] = [Table(PLAN_COLUMNS, ordered, "Hosts, the greatest lack first")]
    tables += [Table(LOADS, loads, LOADS_TITLE)] if loads else []
    return lines, tables, data, {"": amounts["served"]}


def asked(hosts: Sequence[HostAnswer]) -> str:
    """The demands and the weights of some hosts, in words."""
    return f"demands: {distinct(hosts, 'demands')}; weights: {distinct(hosts, 'weights')}"


def distinct(hosts: Sequence[HostAnswer], key: str) -> str:
    """The words of some hosts, each once."""
    return few(list(dict.fromkeys(shown(host.answer[key]) or "none" for host in hosts)), 2)


def workloads(hosts: Sequence[HostAnswer]) -> list[dict[str, Any]]:
    """The pods of each maker on all hosts, those that lack most first."""
    found: dict[str, dict[str, Any]] = {}
    for host in hosts:
        for each in host.answer["workloads"]:
            row = found.setdefault(each["workload"], {
                "workload": each["workload"], "scaled": each["scaled"], "hosts": 0,
                **dict.fromkeys(("pods", "request_millicpu", "lacking"), 0),
                **dict.fromkeys(("served_cpus", "wanted_cpus"), Fraction(0))})
            row["hosts"] += 1
            for key in ("pods", "request_millicpu", "lacking"):
                row[key] += each[key]
            for key in ("served", "wanted"):
                row[f"{key}_cpus"] += host.cpus(each[key])
    rows = sorted(found.values(), key=lambda row: (row["served_cpus"] - row["wanted_cpus"],
                                                   row["workload"]))
    return [{**row, **{key: number(row[key]) for key in ("served_cpus", "wanted_cpus")}}
            for row in rows]


def lost(host: HostAnswer) -> Fraction:
    """The losses of the groups of a host, in CPUs."""
    return host.cpus(-sum(rise * count for rise, count in host.answer["changes"] if rise < 0))


CHANGE_COLUMNS: Columns = [
    HOST, count_of("matched"),
    amount_of("served", "before", "served"), amount_of("then", "after", "served"),
    of_host("changed groups", lambda host: signed(host.of("changed_groups"))),
    of_host("others", lambda host: signed(host.of("others"))),
    of_host("lost", lambda host: cpu(lost(host))),
    of_host("starved", lambda host: " to ".join(str(host.answer[when]["starved"])
                                                for when in ("before", "after")), True),
    of_host("gain most", lambda host: group_words(host.answer["gains"], host), True),
    of_host("lose most", lambda host: group_words(host.answer["losses"], host), True)]
# A group of a host, and by how much what it gets rises.
Moved = tuple[Fraction, str, str]
MOVED: list[Column[Moved]] = [
    Column("host", itemgetter(1), True), Column("group", lambda each: shown(each[2]), None),
    Column("change", lambda each: signed(each[0]), None)]


def moved(hosts: Sequence[HostAnswer], key: str) -> list[Moved]:
    """The groups of the fleet that gain or lose most."""
    rises = [(host.cpus(rise), host.name, path) for host in hosts
             for path, rise in host.answer[key]]
    return sorted(rises, key=lambda each: (-abs(each[0]), *each[1:]))[:MOST_MOVED]


def of_changes(hosts: Sequence[HostAnswer], _: str) -> Parts:
    """The report of `diff`: the hosts whose groups lose most first."""
    before, after = (total(hosts, key, "served") for key in ("before", "after"))
    changes = [(host.cpus(rise), count) for host in hosts
               for rise, count in host.answer["changes"]]
    gain, lose = (sum(count for rise, count in changes if sign * rise > 0) for sign in (1, -1))
    with_group = sum(host.answer["matched"] > 0 for host in hosts)
    lines = [f"{cpu(before)} CPUs served before, {cpu(after)} after; the proved check accepted"
             " each plan", asked(hosts),
             f"hosts with such a group: {with_group} of {len(hosts)}",
             f"groups that gain: {gain}, that lose: {lose}, of"
             f" {sum(count for _, count in changes)} without children"]
    most = Table(MOVED, [*moved(hosts, "gains"), *moved(hosts, "losses")],
                 "Groups that gain and lose most")
    ordered = sorted(hosts, key=lambda host: (-lost(host), host.name))
    return lines, [most, Table(CHANGE_COLUMNS, ordered, "Hosts, the greatest loss first")], {
        "before_cpus": number(before), "after_cpus": number(after), "gain": gain, "lose": lose,
        "hosts_with_such_a_group": with_group}, {"before": before, "after": after}


def ranked(hosts: Sequence[HostAnswer], place: int, rule: str) -> list[HostAnswer]:
    """The hosts that can take a pod, the best first."""
    def key(host: HostAnswer) -> tuple[Fraction, Fraction, str]:
        pod = host.answer["pods"][place]
        harm, left = host.cpus(pod["lost"] + pod["wants"] - pod["gets"]), host.cpus(pod["left"])
        return (harm, -left, host.name) if rule == "least-loss" else (-left, harm, host.name)

    return sorted((host for host in hosts if "why" not in host.answer["pods"][place]), key=key)


def unjudged(pods: Iterable[Row]) -> list[str]:
    """The conditions of a pod that are not looked at on some hosts, in words; none for none."""
    words = dict.fromkeys(word for pod in pods for word in pod["not_looked_at"])
    return [shown(", ".join(words))] if words else []


def place_columns(place: int) -> Columns:
    return [HOST, amount_of("gets", "pods", place, "gets"),
            amount_of("wants", "pods", place, "wants"),
            amount_of("others lose", "pods", place, "lost"),
            of_host("losing", lambda host: str(host.answer["pods"][place]["losing"]), True),
            amount_of("left", "pods", place, "left"),
            of_host("lose most", lambda host: group_words(host.answer["pods"][place]["losers"],
                                                          host), True)]


def reasons(whys: Iterable[tuple[str, str]]) -> list[str]:
    """The reasons of hosts, one of each kind, that of most hosts first. Reasons that differ in
    numbers alone are of one kind."""
    alike: dict[str, list[str]] = {}
    for name, why in whys:
        alike.setdefault(re.sub("[0-9]+", "0", why), []).append(f"{name}: {why}")
    return [each[0] for each in sorted(alike.values(), key=lambda each: -len(each))]


def of_places(hosts: Sequence[HostAnswer], rule: str) -> Parts:
    """The report of `place`: for each pod the best hosts first."""
    lines, tables, best = [f"{OWN} {rule}: {RULES[rule]}; amounts are CPUs", asked(hosts)], [], {}
    for place, name in enumerate(pod["pod"] for pod in hosts[0].answer["pods"]) if hosts else ():
        order, pods = ranked(hosts, place, rule), [host.answer["pods"][place] for host in hosts]
        cannot = [(host.name, shown(pod["why"])) for host, pod in zip(hosts, pods)
                  if "why" in pod]
        whole = sum("why" not in pod and pod["gets"] == pod["wants"] and not pod["lost"]
                    for pod in pods)
        lines.append(f"{shown(name)}: hosts that give it all without a loss to others: {whole} of"
                     f" {len(hosts)}" + (f"; that cannot take it: {len(cannot)}, as"
                                         f" {reasons(cannot)[0]}"
                                         if cannot else "")
                     + "".join(f"; not looked at: {each}" for each in unjudged(pods)[:1]))
        tables.append(Table(place_columns(place), order,
                            f"Where {shown(name)} would go, the best first"))
        best[name] = [host.name for host in order]
    return lines, tables, {"by": rule, "rule": RULES[rule], "best": best}, {}


def mean(host: HostAnswer, key: str) -> Fraction:
    """CPUs that the groups of a host got or wanted, as a mean over all periods."""
    periods = max((group["periods"] for group in host.answer["groups_of_columns"]), default=1)
    return host.cpus(count(host, key)) / max(periods, 1)


def count(host: HostAnswer, key: str) -> int:
    """A sum over all groups of a host."""
    return sum(group[key] for group in host.answer["groups_of_columns"])


def mean_of(key: str) -> Column[HostAnswer]:
    return of_host(key, lambda host: cpu(mean(host, key)))


def sum_of(key: str) -> Column[HostAnswer]:
    return of_host(key, lambda host: str(count(host, key)), True)


SERIES_COLUMNS: Columns = [
    HOST, count_of("samples"),
    *map(mean_of, ("wanted", "got")),
    of_host("of it", lambda host: part(mean(host, "got"), mean(host, "wanted"))),
    *map(sum_of, ("throttled", "bursts", "starved")),
    of_host("samples in a row", lambda host: str(max((
        group["samples_starved_in_a_row"] for group in host.answer["groups_of_columns"]),
        default=0)), True)]


def of_series(hosts: Sequence[HostAnswer], _: str) -> Parts:
    """The report of `replay`: the hosts that lack most as a mean first."""
    means = {each: sum((mean(host, each) for host in hosts), Fraction(0))
             for each in ("wanted", "got")}
    sums: dict[str, Any] = {f"mean_{each}_cpus": number(value) for each, value in means.items()}
    sums |= {name: sum(count(host, name) for host in hosts) for name in list(COUNTS.values())[3:]}
    lines = [f"{sums['mean_got_cpus']:.2f} CPUs got of {sums['mean_wanted_cpus']:.2f} wanted, as"
             " means; the proved check accepted each plan", asked(hosts),
             f"periods of groups: throttled {sums['throttled']}, with a burst {sums['bursts']},"
             f" starved {sums['starved']}"]
    ordered = sorted(hosts, key=lambda host: (mean(host, "got") - mean(host, "wanted"), host.name))
    return lines, [Table(SERIES_COLUMNS, ordered, "Hosts, the greatest lack first")], sums, {
        "": means["got"]}


ACTIONS: dict[Action, Callable[[Sequence[HostAnswer], str], Parts]] = {
    Action.PLAN: of_plan, Action.CHANGE: of_changes, Action.PODS: of_places,
    Action.SAMPLES: of_series}


def built(action: Action, name: str, hosts: Sequence[HostAnswer],
          missing: Sequence[tuple[str, str]], rule: str, chosen: str = "") -> Report:
    """The report of a run, of hosts that have some of the groups that words choose. It depends on
    the answers alone, and not on who gave them when."""
    with_some = [host for host in hosts if host.answer["groups"] or not chosen]
    lines, tables, data, sums = ACTIONS[action](with_some, rule)
    if chosen:
        lines.insert(0, f"of {shown(chosen)} alone: hosts that have some: {len(with_some)}")
    first = f"hosts: {len(hosts) + len(missing)}, answered: {len(hosts)}, not answered:" \
            f" {len(missing)}"
    data = {"action": name, "answered": len(hosts), "not_answered": [
                {"host": host, "why": why} for host, why in missing],
            "fleet": data, "hosts": [{"host": host.name, **host.answer} for host in with_some]}
    # (what is planned of the capacity of all hosts together, and what is left)
    all_ = total(with_some, "capacity")
    if len(set(sums.values())) == 1:
        sums = {"": next(iter(sums.values()))}
    bars = [bar(each, "CPUs", planned=cpu(cpus), left=cpu(all_ - cpus), capacity=cpu(all_))
            for each, cpus in sums.items()]
    has_any = bool(with_some)
    lines = [first, *(lines if has_any else lines[:1] if chosen else [])]
    if action is Action.PODS:  # (whose order it is stands before anything that is ordered)
        lines[:2] = lines[1::-1]
    return Report(TITLES[action], lines, tables if has_any else [],
                  list(missing), data, bars if has_any else [], notes_of(hosts))


class Waiting(NamedTuple):
    """A pod that is to be put on a host: its name, its place among the pods that each host was
    asked for, and what it requests, by the names of the resources. In a cluster also what it asks
    of other pods."""

    name: str
    place: int
    requests: Mapping[str, int]
    is_chosen: bool = True
    pod: Neighbour | None = None


def requests_words(requests: Mapping[str, int]) -> str:
    """Requests for people."""
    others = [f"{resource_text(name, amount)} {shown(name)}"
              for name, amount in requests.items() if name not in ("cpu", "pods")]
    return ", ".join([resource_text("cpu", requests.get("cpu", 0)), *others])


PENDING: list[Column[Row]] = [
    of_row("pod", "pod", True),
    Column("requests", lambda pod: requests_words(pod["requests"]), True),
    Column("host", lambda pod: pod["host"] or "unplaced", None),
    of_row("gets", "gets_cpus"), of_row("wants", "wants_cpus"), of_row("others lose", "lost_cpus"),
    of_row("why", "why", is_bad=True),
    Column("not looked at", lambda pod: "".join(unjudged([pod])) or "-", None, is_optional=True)]


def placed(waiting: Sequence[Waiting], hosts: Sequence[HostAnswer], rule: str,
           among: Neighbours) -> list[dict[str, Any]]:
    """Each pod in order goes to the best host that has room for its requests and takes it beside
    the pods of all hosts, or why it does not.

    What a host gives is as if the pod came alone. It stays there for those behind it, and so do its
    requests.
    """
    room, rows = {host.name: dict(host.answer["room"]) for host in hosts}, []
    for pod in waiting:
        whys = among.refusals(pod.pod)
        order = [host for host in ranked(hosts, pod.place, rule) if host.name not in whys]
        best = next((host for host in order if all(
            amount <= max(room[host.name].get(name, amount), 0)
            for name, amount in pod.requests.items() if amount)), None)
        told = (best or hosts[0]).answer["pods"][pod.place] if hosts else {"not_looked_at": []}
        row: dict[str, Any] = {
            "pod": pod.name, "request_millicpu": pod.requests.get("cpu", 0),
            "requests": dict(pod.requests),
            "not_looked_at": among.not_looked_at(pod.pod, told["not_looked_at"]),
            "host": best.name if best else None}
        if best is None:
            row["why"] = refusal(pod.place, hosts, order, whys)
        else:
            among.put(pod.pod, best.name)
            left = room[best.name]
            left |= {name: left[name] - amount for name, amount in pod.requests.items()
                     if name in left}
            row |= {f"{key}_cpus": number(best.cpus(told[key])) for key in AMOUNTS}
        rows.append(row)
    return rows


def refusal(place: int, hosts: Sequence[HostAnswer], order: Sequence[HostAnswer],
            whys: Mapping[str, str]) -> str:
    if not hosts:
        return "no host is answered"
    if order:
        return f"pods before it take what {order[0].name} has left"
    pods = ((host.name, host.answer["pods"][place]) for host in hosts)
    first = reasons((name, each["why"] if "why" in each else whys[name]) for name, each in pods)[
        :MOST_REASONS]
    rest = len(hosts) - len(first)
    return "; ".join([*first, *([f"{rest} more refuse it"] if rest else [])])


def with_placed(to: Report, title: str, waiting: Sequence[Waiting], hosts: Sequence[HostAnswer],
                rule: str, among: Neighbours) -> Report:
    """A report with where some pods go, one after another, of those that are chosen."""
    of_all = zip(waiting, placed(waiting, hosts, rule, among))
    pods = [each for of, each in of_all if of.is_chosen]
    unplaced = sum(each["host"] is None for each in pods)
    order = "" if any(OWN in each for each in to.lines) else f"; {OWN} {rule}: {RULES[rule]}"
    line = f"{title}: {len(pods)}, unplaced: {unplaced}{order}"
    return replace(to, lines=[*to.lines, line], data={**to.data, "pending": pods}, tables=[
        *to.tables, Table(PENDING, pods, title[:1].upper() + title[1:])])


def answer(report: Report, has_all: bool) -> TableAnswer:
    """The report as an answer. Each host without one is named."""
    foot = ["", "Not answered:", *(f"{name}: {shown(why)}" for name, why in report.missing)]
    return TableAnswer(lambda: [
        *plain(*report.lines), *(each for each in report.tables if each.records),
        *plain(*(foot if report.missing else ()))], lambda: report.data,
                       None if has_all else MOST_ROWS)


def page(report: Report, words: Sequence[str] = ()) -> str:
    """The report as one HTML page, whose tables sort and can be searched, with the words of a
    change."""
    missing = [(shown(name), shown(why)) for name, why in report.missing]
    return rendered("fleet.html", report.title, report.lines, hosts=report.bars,
                    tables=[each.page() for each in report.tables if each.records],
                    words=list(map(shown, words)), missing=missing,
                    notes=list(map(shown, report.notes)))
