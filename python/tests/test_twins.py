"""Conversions beside small models of their makers' rules (twins.py): 2,000 random pods, units,
containers and jobs, and what series of Prometheus come to."""
import json
import random
from fractions import Fraction

import pytest
import reading
import twins
from arbiter import Host
from arbiter_host.base.demands import mean
from arbiter_host.base.faults import HostFault
from arbiter_host.base.plan import guarantees, plan
from arbiter_host.sources import prometheus, usage

SEEDS, MANY = range(20), 100
CONVERSIONS = {"linear": twins.linear, "log": twins.logarithmic}
CLASSES = {"burstable": "Burstable", "besteffort": "BestEffort"}


def written(chance, thousandths):
    """An amount of CPU as people and programs write it."""
    return chance.choice([
        f"{thousandths}m", str(thousandths / 1000), thousandths / 1000, f"{thousandths}e-3",
        f"{thousandths * 1000}u", f"{thousandths * 10 ** 6}n", f"{thousandths // 1000}",
        thousandths // 1000, f"{thousandths * 1000 - 500}u" if thousandths else "0"])


def memory(chance, mib):
    """The same amount of memory in one of its spellings."""
    return chance.choice([f"{mib}Mi", f"{mib * 1024}Ki", mib * 2 ** 20, f"{mib * 2 ** 20}"])


def resources(chance, kinds=("none", "request", "limit", "both", "equal")):
    """Requests and limits of a container, of which no request is above its limit."""
    found = {"requests": {}, "limits": {}}
    for key, write, amounts in (("cpu", written, (0, 1, 2, 10, 250, 999, 1000, 4500, 300000)),
                                ("memory", memory, (0, 64, 1024))):
        least, most = sorted(chance.choice(amounts) for _ in range(2))
        kind = chance.choice(kinds)
        least = most if kind == "equal" else least
        if kind in ("request", "both", "equal"):
            found["requests"][key] = write(chance, least)
        if kind in ("limit", "both", "equal"):
            found["limits"][key] = write(chance, most)
        pair = [twins.quantity(found[each].get(key, 0)) for each in ("requests", "limits")]
        if pair[0] > pair[1] and key in found["limits"]:
            found["requests"][key] = found["limits"][key]
    return {key: each for key, each in found.items() if each}


def random_pod(chance, at):
    """A pod with containers, init containers, sidecars, overhead; some are guaranteed."""
    kinds = ("equal",) if chance.random() < 0.3 else ("none",) if chance.random() < 0.2 else (
        "none", "request", "limit", "both", "equal")

    def parts(name, most):
        return [{"name": f"{name}{number}", "resources": resources(chance, kinds)}
                for number in range(most)]

    spec = {"containers": parts("c", chance.randint(1, 3)),
            "initContainers": parts("i", chance.choice([0, 0, 1, 3]))}
    for each in spec["initContainers"]:
        if chance.random() < 0.5:
            each["restartPolicy"] = "Always"
    if chance.random() < 0.2:
        spec["overhead"] = {"cpu": written(chance, chance.choice([1, 250]))}
    if chance.random() < 0.2:
        spec["resources"] = whole_pod(chance, spec)
    return {"kind": "Pod", "metadata": {"namespace": f"n{at % 3}", "name": f"p{at}"},
            "spec": spec}


def whole_pod(chance, spec):
    """Requests and limits of a pod itself, not below those of its containers."""
    found = {"requests": {}, "limits": {}}
    for kind, unit in (("cpu", 1000), ("memory", 2 ** 20 * 1000)):
        request, limit = (twins.of_containers(spec, kind, at)[0] for at in (0, 1))
        request += chance.choice([0, unit])
        limit = max(request, limit) + chance.choice([0, unit])
        for key, amount in chance.choice([
                (), (("requests", request),), (("limits", limit),),
                (("requests", request), ("limits", limit)),
                (("requests", limit), ("limits", limit))]):
            if amount:
                found[key][kind] = f"{amount}m"
    return found


def node(cpus):
    return {"kind": "Node", "metadata": {"name": "n"}, "status": {
        "capacity": {"cpu": str(cpus)}, "allocatable": {"cpu": f"{cpus * 1000 - 80}m"}}}


def containers_of(pod):
    """The containers of a pod that have a group: sidecars, and others than init containers."""
    return [each for each in pod["spec"]["initContainers"] if "restartPolicy" in each] + (
        pod["spec"]["containers"])


@pytest.mark.parametrize("seed", SEEDS)
def test_pods(calls, engine, seed):
    """Classes, weights and limits of 100 pods, and what they used: exactly, and in all."""
    chance = random.Random(seed)
    pods = [random_pod(chance, at) for at in range(MANY)]
    runtime = chance.choice(list(CONVERSIONS))
    used = {f"{pod['metadata']['namespace']} {pod['metadata']['name']} {each['name']}":
            written(chance, chance.choice([0, 1, 3, 12, 777]))
            for pod in pods for each in containers_of(pod)}
    top = "NAMESPACE POD NAME CPU(cores) MEMORY(bytes)\n" + "".join(
        f"{name} {amount} 1Mi\n" for name, amount in used.items())
    data = json.dumps({"kind": "List", "items": [node(64), *pods]}).encode()
    model = reading.pods([("F", data)], None, calls, runtime=runtime, want="usage", measured=(
        lambda source: source.with_usage(usage.read(top.encode(), "T"), "T")))
    wanted = twins.groups_of_pods(pods, "63920m", CONVERSIONS[runtime])
    found = {group.title or path.rpartition("/")[2]: (group.weight, group.quota)
             for path, group in model.groups.items() if not path.endswith("/pause")}
    has = {"kubepods", "burstable", "besteffort"} | {
        "/".join([pod["metadata"]["namespace"], pod["metadata"]["name"], *more])
        for pod in pods for more in ([], *([each["name"]] for each in containers_of(pod)))}
    assert found == {title: each for title, each in wanted.items() if title in has}
    assert {group.title: CLASSES.get(path.split("/")[1], "Guaranteed")
            for path, group in model.groups.items() if group.title.count("/") == 1} == {
        f"{pod['metadata']['namespace']}/{pod['metadata']['name']}": twins.quality(pod)
        for pod in pods}
    exact = {name.replace(" ", "/"): twins.quantity(each) * 1000 for name, each in used.items()}
    assert {group.title: group.demand for group in model.groups.values()
            if group.title in exact} == exact
    # Limits aside the host is asked for what is used, and less than a thousandth more of each.
    for group in model.groups.values():
        group.quota = None
    made = plan(engine, model)
    assert 0 <= made.thousandths(made.root.want) - sum(exact.values()) < len(exact)


@pytest.mark.parametrize("seed", SEEDS)
def test_containers(calls, seed):
    """Shares, CPUs and quotas of 100 containers of docker."""
    chance = random.Random(seed)
    configs = {f"c{at}": {
        "CpuShares": chance.choice([0, 2, 3, 512, 1024, 4096, 262144, chance.randint(2, 262144)]),
        "NanoCpus": chance.choice([0, 0, 10 ** 7, 5 * 10 ** 8, chance.randint(10 ** 7, 10 ** 11)]),
        "CpuQuota": chance.choice([0, -1, 1000, 25000, chance.randint(1000, 10 ** 7)]),
        "CpuPeriod": chance.choice([0, 1000, 50000, 10 ** 6])} for at in range(MANY)}
    data = json.dumps([{"Id": f"{at:064x}", "Name": f"/{name}", "HostConfig": config}
                       for at, (name, config) in enumerate(configs.items())]).encode()
    model = reading.docker([("F", data)], Host(8), calls)
    found = {name: model.groups[f"system.slice/{name}"] for name in configs}
    assert {name: (each.weight, each.quota, None if each.quota is None else each.period)
            for name, each in found.items()} == {
        name: twins.docker(config) for name, config in configs.items()}


def span_words(chance, usec):
    """A time as systemd prints it."""
    return chance.choice([f"{usec}us", f"{usec / 1000:f}ms", f"{usec // 10**6}s {usec % 10**6}us"])


@pytest.mark.parametrize("seed", SEEDS)
def test_units(seed):
    """CPUWeight, CPUShares, CPUQuota and its period of 100 units."""
    chance, text, wanted = random.Random(seed), "", {}
    for at in range(MANY):
        weight = chance.choice([None, None, "idle", 1, 100, chance.randint(1, 10000)])
        shares = chance.choice([None, 2, 512, 1024, chance.randint(2, 262144)])
        per_second = chance.choice([None, 1, 999, 10 ** 6, chance.randint(1, 64 * 10 ** 6)])
        period = chance.choice([None, 1000, 20000, 10 ** 6, chance.randint(1000, 10 ** 6)])
        wanted[f"u{at}.service"] = twins.unit(weight, shares, per_second, period)
        text += (f"Id=u{at}.service\nControlGroup=/u{at}.service\n"
                 f"CPUWeight={'[not set]' if weight is None else weight}\n"
                 f"CPUShares={'[not set]' if shares is None else shares}\nCPUQuotaPerSecUSec="
                 f"{'infinity' if per_second is None else span_words(chance, per_second)}\n"
                 "CPUQuotaPeriodUSec="
                 f"{'infinity' if period is None else span_words(chance, period)}\n\n")
    model = reading.units([("F", text.encode())], Host(64))
    assert {path: (each.weight, each.quota, None if each.quota is None else each.period)
            for path, each in model.groups.items()} == wanted


@pytest.mark.parametrize("seed", SEEDS)
def test_jobs(seed):
    """What 100 jobs of Slurm use on a node: accounted, told by sstat, suspended, or not here."""
    chance, wanted = random.Random(seed), {}
    head = "JobID|JobIDRaw|JobName|User|State|AllocCPUS|Elapsed|TotalCPU|NodeList"
    sacct, sstat = [head], ["JobID|NTasks|AveCPU"]
    for at in range(1, MANY + 1):
        state = chance.choice(["RUNNING"] * 4 + ["SUSPENDED", "COMPLETED", "PENDING"])
        nodes = chance.choice(["n1", "n1", "n[1-2]", "n[1,3-4]", "n2"])
        count = {"n1": 1, "n[1-2]": 2, "n[1,3-4]": 3, "n2": 1}[nodes]
        cpus, elapsed = chance.randint(1, 64) * count, chance.randint(1, 300000)
        total, average = chance.randint(1, elapsed), chance.choice([None, chance.randint(1, 9999)])
        tasks = chance.randint(1, 8)
        for name, raw in (("", "job"), (".0", "step")):
            sacct.append(f"{at}{name}|{at}{name}|{raw}|{'' if name else 'ann'}|{state}|{cpus}|"
                         f"{twins.clock(elapsed)}|{twins.clock(total)}|{nodes}")
        if average is not None:
            sstat.append(f"{at}.0|{tasks}|{twins.clock(average)}")
        if state in ("RUNNING", "SUSPENDED") and nodes != "n2":
            use = twins.step_use(total, average, tasks, elapsed, count)
            wanted[f"ann:job:{at}/step_0"] = Fraction(0) if state == "SUSPENDED" else use
    files = [(name, "\n".join(lines).encode()) for name, lines in (
        ("A", sacct), ("B", sstat)) if len(lines) > 1]
    model = reading.jobs(files, Host(64), "n1")
    found = {path: group.demand / 1000 for path, group in model.groups.items() if "/" in path}
    # Whole seconds are shared out to nodes, and use is in whole microseconds of a second.
    assert found.keys() == wanted.keys()
    assert {path: each for path, each in found.items()
            if abs(each - wanted[path]) > Fraction(2, 10 ** 6)} == {}


@pytest.mark.parametrize("seed", SEEDS)
def test_series(seed):
    """Parts of containers by CPU, by image and by what was made anew, of pods of one name."""
    chance, series = random.Random(seed), []
    for at in range(MANY):
        labels = {"namespace": f"n{at % 2}", "pod": f"p{at // 2}", "container": "c"}
        for part in range(chance.randint(1, 4)):
            key = chance.choice(["cpu", "image"]) if at % 3 else "id"
            more = {"cpu": {"cpu": f"cpu{part:02}"}, "image": {"cpu": "total", "image": f"i{part}"},
                    "id": {"id": f"/{at}/{part}", "instance": f"h{part}"}}[key]
            # one that was made anew begins when the one before has ended
            begin = 0 if key == "cpu" else 10 * (part + 1)
            values = {60.0 * (begin + step): str(chance.randint(0, 10 ** 6) / 10 ** 6)
                      for step in range(chance.randint(1, 4))}
            series.append(({**labels, **more}, values))
    answer = {"data": {"result": [{"metric": labels, "values": list(map(list, values.items()))}
                                  for labels, values in series]}}
    history = prometheus.history_of(prometheus.series_of(answer), "U")
    found = {}
    for sample in history.samples:
        for column, cell in sample.cells.items():
            found.setdefault(tuple(column.split("/")), {})[float(sample.name)] = Fraction(cell)
    assert found == twins.container_use(series)
    assert {key: mean(list(each.values())) for key, each in found.items()}.keys() == {
        (labels["namespace"], labels["pod"], "c") for labels, _ in series}


# Labels that tell clusters, scrapes and servers apart, or nobody knows what.
APART = ("job", "cluster", "prometheus", "prometheus_replica", "replica", "tenant", "monitor",
         "any", "instance", "node")


def random_series(chance, kind):
    """Series of one container, in minutes: parts of it by CPU, made anew by id, one use that two
    scrapes tell, or two containers of one name that run at once."""
    base = {"namespace": "n", "pod": "p", "container": "c", "id": "/a", "node": "n1", "job": "k"}
    many, last = chance.randint(2, 3), chance.randint(8, 30)
    apart = chance.choice(APART)
    more = {"cpus": lambda at: {"cpu": f"cpu{at:02}"},
            "anew": lambda at: {"id": f"/{at}", chance.choice(("node", "instance")): f"h{at}"},
            "scrapes": lambda at: {apart: f"v{at}"},
            "homes": lambda at: {"id": f"/{at}", "node": f"h{at}"}}[kind]
    # (of what ends the server shows the last value for up to five minutes)
    spans = {"anew": lambda at: (at * last, at * last + last + chance.randint(0, 5))}.get(
        kind, lambda at: (0, last))
    return [(base | more(at), {60.0 * minute: str(chance.randint(1, 10**6) / 10**6)
                               for minute in range(*spans(at))}) for at in range(many)]


@pytest.mark.parametrize("kind, is_one", [("cpus", True), ("anew", True), ("scrapes", False),
                                          ("homes", False)])
def test_series_whose_labels_differ(kind, is_one):
    """Parts are added up exactly. What may be one use twice is refused with a selector as the
    advice, and never with a sum."""
    chance = random.Random(kind)
    for _ in range(200):
        series = random_series(chance, kind)
        metrics = [prometheus.Metric(labels, values) for labels, values in series]
        if is_one:
            history = prometheus.history_of(metrics, "U")
            found = {float(each.name): Fraction(cell) for each in history.samples
                     for cell in each.cells.values()}
            assert {("n", "p", "c"): found} == twins.container_use(series)
            continue
        with pytest.raises(HostFault) as fault:
            prometheus.history_of(metrics, "U")
        words, differ = fault.value.message, {
            key for labels, _ in series for key in labels if labels[key] != series[0][0].get(key)}
        assert "may be one use twice" in words and "sum" not in words
        assert any(f'{{{key}="' in words for key in differ) or "max by" in words


@pytest.mark.parametrize("seed", SEEDS)
def test_guarantees_of_pods(calls, engine, seed):
    """Where the limits of all pods fit into the node, each container is guaranteed all that it
    wants: pause containers take nothing from theirs."""
    chance = random.Random(seed)
    pods, limits = [], [chance.randint(10, 800) for _ in range(chance.randint(1, 12))]
    for at, limit in enumerate(limits):
        amounts = {"requests": {"cpu": f"{chance.randint(1, limit)}m"},
                   "limits": {"cpu": f"{limit}m"}}
        pods.append({"kind": "Pod", "metadata": {"namespace": "n", "name": f"p{at}"},
                     "spec": {"containers": [{"name": "c", "resources": amounts}]}})
    data = json.dumps({"kind": "List", "items": [node(16), *pods]}).encode()
    made = plan(engine, reading.pods([("F", data)], Host(16, 1000000, 1000), calls))
    own = [each for each in made.groups[1:] if each.path.endswith("/c")]
    assert len(own) == len(pods)
    assert guarantees(made, own) == [each.want for each in own]
