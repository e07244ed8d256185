"""Small models of what sets weights and limits of groups and tells their use, each from the words
of its makers: Kubernetes ("Resource Management", "Pod Quality of Service Classes", kubelet's
`ResourceConfigForPod`), runc's conversion of shares, docker run(1), systemd.resource-control(5),
sacct(1) and sstat(1), and Prometheus ("Functions", cAdvisor's metrics).

Nothing here is of the package under test. Amounts are exact fractions of a CPU.
"""
from decimal import Decimal, getcontext
from fractions import Fraction

getcontext().prec = 60
LEAST, MOST = 2, 262144
SUFFIX = {"n": -9, "u": -6, "m": -3, "": 0, "k": 3, "M": 6, "G": 9}
BINARY = {"Ki": 10, "Mi": 20, "Gi": 30}


# Kubernetes

def quantity(value):
    """A quantity of Kubernetes: a decimal number with a suffix or an exponent."""
    word = str(value)
    for suffix, power in BINARY.items():
        if word.endswith(suffix):
            return Fraction(word[:-2]) * 2 ** power
    if word[-1] in SUFFIX and word[-1]:
        return Fraction(word[:-1]) * Fraction(10) ** SUFFIX[word[-1]]
    return Fraction(word)


def milli(value):
    """MilliValue: whole thousandths, rounded up. None stays."""
    return None if value is None else -int(-quantity(value) * 1000 // 1)


def defaulted(resources):
    """CPU and memory in thousandths, each as request and limit, as the API server keeps them: it
    rounds up to thousandths, and a limit alone is the request too."""
    found = {}
    for kind in ("cpu", "memory"):
        request, limit = (milli(resources.get(key, {}).get(kind)) for key in ("requests", "limits"))
        found[kind] = (limit if request is None else request, limit)
    return found


def own_of(spec):
    """CPU and memory of a pod itself. A limit without a request is the request where no container
    requests any; else that is what its containers request."""
    found = defaulted(spec.get("resources", {}))
    for kind, (_, limit) in found.items():
        if limit is not None and kind not in spec["resources"].get("requests", {}):
            parts = spec["containers"] + spec.get("initContainers", [])
            if any(defaulted(part.get("resources", {}))[kind][0] is not None for part in parts):
                found[kind] = (of_containers(spec, kind, 0)[0], limit)
    return found


def quality(pod):
    """The class: guaranteed where each container has limits of CPU and memory that are its
    requests, best effort where none asks for anything. Zero asks for nothing. Amounts of the pod
    itself stand for those of its containers."""
    spec = pod["spec"]
    own = own_of(spec)
    if any(value is not None for pair in own.values() for value in pair):
        each = [own]
    else:
        each = [defaulted(part.get("resources", {})) for part in (
            spec.get("initContainers", []) + spec["containers"])]
    pairs = [pair for found in each for pair in found.values()]
    pairs = [tuple(value or 0 for value in pair) for pair in pairs]
    if not any(value for pair in pairs for value in pair):
        return "BestEffort"
    return "Guaranteed" if all(limit and request == limit for request, limit in pairs) else (
        "Burstable")


def of_containers(spec, kind, at):
    """What the containers of a pod request (at 0) or may use (1) in all, and whether each has some:
    an init container counts with the sidecars begun before it."""
    declared, total, sidecars, most = True, 0, 0, 0
    for part in spec["containers"]:
        value = defaulted(part.get("resources", {}))[kind][at] or 0
        declared, total = declared and value > 0, total + value
    for part in spec.get("initContainers", []):
        value = defaulted(part.get("resources", {}))[kind][at] or 0
        if part.get("restartPolicy") == "Always":
            sidecars, total = sidecars + value, total + value
            now = sidecars
        else:
            now = sidecars + value
        declared, most = declared and now > 0, max(most, now)
    return max(total, most), declared


def whole_pod(pod, at):
    """PodRequests or PodLimits of CPU, and whether each container has some."""
    spec = pod["spec"]
    total, declared = of_containers(spec, "cpu", at)
    own = own_of(spec)["cpu"][at]
    if own is not None:
        total, declared = own, own > 0
    return total + (milli(spec.get("overhead", {}).get("cpu")) or 0), declared


def shares(thousandths):
    """MilliCPUToShares."""
    return max(LEAST, min(MOST, int(thousandths * 1024 / 1000)))


def quota(thousandths):
    """MilliCPUToQuota of a period of 100 ms; None for no limit."""
    return max(1000, thousandths * 100000 // 1000) if thousandths else None


def linear(shares_):
    """The weight of shares that kubelet and older runtimes write."""
    return 1 + ((shares_ - 2) * 9999) // 262142


def logarithmic(shares_):
    """The weight of shares by runc 1.3.2 and crun 1.23: quadratic in the logarithm."""
    if shares_ <= LEAST:
        return 1
    if shares_ >= MOST:
        return 10000
    log = Decimal(shares_).ln() / Decimal(2).ln()
    exponent = (log * log + 125 * log) / 612 - Decimal(7) / 34
    power = (exponent * Decimal(10).ln()).exp()
    near = power.to_integral_value()
    return int(near if abs(power - near) < Decimal(10) ** -40 else power.to_integral_value(
        rounding="ROUND_CEILING"))


def groups_of_pods(pods, node, conversion):
    """Weight and quota of each group of the pods of a node, by title: a pod's and its containers'.
    The first says kubepods, its two classes by their names."""
    found = {"kubepods": (linear(shares(milli(node))), None)}
    burstable = sum(whole_pod(pod, 0)[0] for pod in pods if quality(pod) == "Burstable")
    found["burstable"], found["besteffort"] = (linear(shares(burstable)), None), (1, None)
    for pod in pods:
        title = "/".join(pod["metadata"][key] for key in ("namespace", "name"))
        (request, _), (limit, declared), class_ = whole_pod(pod, 0), whole_pod(pod, 1), quality(pod)
        found[title] = ((1, None) if class_ == "BestEffort" else
                        (linear(shares(request)), quota(limit) if declared else None))
        own = own_of(pod["spec"])["cpu"][1]
        for part in pod["spec"].get("initContainers", []) + pod["spec"]["containers"]:
            asked, most = defaulted(part.get("resources", {}))["cpu"]
            most = most or own
            asked = most if asked is None else asked
            found[f"{title}/{part['name']}"] = conversion(shares(asked or 0)), quota(most or 0)
    return found


def whole_number(word):
    """A label's value as Go's ParseInt reads it; None for no number."""
    sign, digits = (word[0], word[1:]) if word[:1] in ("-", "+") else ("", word)
    if not digits or any(each not in "0123456789" for each in digits):
        return None
    return int(sign + digits)


def matches(requirement, labels):
    """A requirement of a node selector ("Operators", labels.Requirement)."""
    operator, values = requirement["operator"], requirement.get("values", [])
    has = requirement["key"] in labels
    value = labels.get(requirement["key"], "")
    if operator == "Exists":
        return has
    if operator == "DoesNotExist":
        return not has
    if operator == "In":
        return has and value in values
    if operator == "NotIn":
        return not has or value not in values
    mine, (theirs,) = whole_number(value), map(whole_number, values)
    if not has or mine is None or theirs is None:
        return False
    return mine > theirs if operator == "Gt" else mine < theirs


def tolerates(toleration, taint):
    """Whether a toleration matches a taint ("Taints and Tolerations")."""
    if toleration.get("effect") and toleration["effect"] != taint["effect"]:
        return False
    if toleration.get("key") and toleration["key"] != taint["key"]:
        return False
    if toleration.get("operator", "Equal") == "Exists":
        return True
    return bool(toleration.get("key")) and toleration.get("value", "") == taint.get("value", "")


def takes(node, pod):
    """Whether the scheduler puts a pod on a node, whatever both have of resources. kubelet refuses
    a pod of another operating system; one that names none is of Linux."""
    spec, labels = pod["spec"], node["metadata"].get("labels", {})
    taints = list(node["spec"].get("taints", []))
    if node["spec"].get("unschedulable"):
        taints.append({"key": "node.kubernetes.io/unschedulable", "effect": "NoSchedule"})
    for taint in taints:
        if taint["effect"] != "PreferNoSchedule" and not any(
                tolerates(each, taint) for each in spec.get("tolerations", [])):
            return False
    if spec.get("schedulingGates"):
        return False
    if any(labels.get(key) != value for key, value in spec.get("nodeSelector", {}).items()):
        return False
    needed = spec.get("affinity", {}).get("nodeAffinity", {}).get(
        "requiredDuringSchedulingIgnoredDuringExecution")
    terms = needed["nodeSelectorTerms"] if needed else []
    fits = [all(matches(each, labels) for each in term.get("matchExpressions", []))
            and all(matches(each, {"metadata.name": node["metadata"]["name"]})
                    for each in term.get("matchFields", []))
            for term in terms if term.get("matchExpressions") or term.get("matchFields")]
    if needed and not any(fits):
        return False
    system = labels.get("kubernetes.io/os")
    named = {each["key"] for term in terms for each in term.get("matchExpressions", [])}
    named |= spec.get("nodeSelector", {}).keys()
    own = spec.get("os", {}).get("name") or (
        None if "kubernetes.io/os" in named else "linux")
    return not (system and own and system != own)


REQUIRED = "requiredDuringSchedulingIgnoredDuringExecution"


def means(term, home, pod):
    """Whether a term of a pod of the namespace `home` means another pod ("Inter-pod affinity and
    anti-affinity", "Namespace selector"). A selector that is null selects nothing."""
    selector, labels = term.get("labelSelector"), pod["metadata"].get("labels", {})
    if selector is None:
        return False
    spaces = term.get("namespaces") or [home]
    if term.get("namespaceSelector") != {} and pod["metadata"]["namespace"] not in spaces:
        return False
    return all(labels.get(key) == value for key, value in selector.get("matchLabels", {}).items()
               ) and all(matches(each, labels) for each in selector.get("matchExpressions", []))


def terms(pod, kind):
    return pod["spec"].get("affinity", {}).get(kind, {}).get(REQUIRED, [])


def beside(nodes, pods, pod):
    """The nodes on which a pod may be beside others, each a pair of the name of its node and its
    JSON ("Assigning Pods to Nodes", "Pod Topology Spread Constraints")."""
    labels = {each["metadata"]["name"]: each["metadata"].get("labels", {}) for each in nodes}
    home, found = pod["metadata"]["namespace"], set()

    def near(one, two, key):
        return key in labels[one] and labels[one].get(key) == labels[two].get(key)

    for node in nodes:
        name = node["metadata"]["name"]
        is_apart = not any(
            near(name, at, term["topologyKey"]) for at, other in pods
            for term, is_meant in (
                *((term, means(term, home, other)) for term in terms(pod, "podAntiAffinity")),
                *((term, means(term, other["metadata"]["namespace"], pod))
                  for term in terms(other, "podAntiAffinity"))) if is_meant)
        wanted = terms(pod, "podAffinity")
        friends = [at for at, other in pods if all(means(term, home, other) for term in wanted)]
        has_keys = all(term["topologyKey"] in labels[name] for term in wanted)
        is_alone = not any(term["topologyKey"] in labels[at] for at in friends for term in wanted)
        is_near = has_keys and (
            all(any(near(name, at, term["topologyKey"]) for at in friends) for term in wanted)
            or is_alone and all(means(term, home, pod) for term in wanted))
        if is_apart and is_near and is_even(nodes, labels, pods, pod, name):
            found.add(name)
    return found


def is_even(nodes, labels, pods, pod, name):
    """Whether a pod on a node keeps each constraint: of nodes that have all labels that the
    constraints name, and that count by their policies."""
    rules = [each for each in pod["spec"].get("topologySpreadConstraints", [])
             if each["whenUnsatisfiable"] == "DoNotSchedule"]
    home = pod["metadata"]["namespace"]
    for rule in rules:
        key, counts = rule["topologyKey"], {}
        for node in nodes:
            at, spec = node["metadata"]["name"], dict(pod["spec"])
            spec.pop("schedulingGates", None)
            spec["os"] = {"name": labels[at].get("kubernetes.io/os", "linux")}
            if rule.get("nodeTaintsPolicy", "Ignore") == "Ignore":
                spec["tolerations"] = [{"operator": "Exists"}]
            if rule.get("nodeAffinityPolicy", "Honor") == "Ignore":
                spec.pop("nodeSelector", None)
                spec.pop("affinity", None)
            if takes(node, {"spec": spec}) and all(
                    each["topologyKey"] in labels[at] for each in rules):
                counts.setdefault(labels[at][key], 0)
                counts[labels[at][key]] += sum(
                    on == at and means({**rule, "namespaces": [home]}, home, other)
                    and "deletionTimestamp" not in other["metadata"] for on, other in pods)
        if key not in labels[name]:
            return False
        least = min(counts.values(), default=0) if len(counts) >= rule.get("minDomains", 1) else 0
        then = counts.get(labels[name][key], 0) + means({**rule, "namespaces": [home]}, home, pod)
        if then - least > rule["maxSkew"]:
            return False
    return True


def requests_of(pod):
    """Requests of a pod by resource, of CPU in thousandths, of others in whole units: those of its
    containers, of it as a whole where it has such, and its overhead."""
    spec, found = pod["spec"], {"pods": 1}
    raw = [*spec.get("initContainers", []), *spec["containers"]]
    kinds = {kind for part in (spec, *raw) for amounts in part.get("resources", {}).values()
             for kind in amounts} | spec.get("overhead", {}).keys()
    for kind in kinds:
        scale = 1000 if kind == "cpu" else 1

        def asked(resources, kind=kind, scale=scale):
            word = resources.get("requests", {}).get(kind, resources.get("limits", {}).get(kind))
            return None if word is None else -int(-quantity(word) * scale // 1)

        sidecars, most = 0, 0
        for part in spec.get("initContainers", []):
            value = asked(part.get("resources", {})) or 0
            most = max(most, sidecars + value)
            sidecars += value if part.get("restartPolicy") == "Always" else 0
        total = max(most, sidecars + sum(asked(part.get("resources", {})) or 0
                                         for part in spec["containers"]))
        own = spec.get("resources", {})
        is_said = kind in own.get("requests", {}) or not any(
            asked(part.get("resources", {})) is not None for part in raw)
        whole = asked(own) if is_said else None
        over = asked({"requests": spec.get("overhead", {})}) or 0
        found[kind] = (total if whole is None else whole) + over
    return {kind: amount for kind, amount in found.items() if amount}


# docker

def docker(config):
    """Weight, quota and period: shares by runc, 0 for the default; CPUs in billionths, else a quota
    of a period of 100 ms unless it is said."""
    shares_, nano = config.get("CpuShares") or 0, config.get("NanoCpus") or 0
    weight = linear(max(LEAST, min(MOST, shares_))) if shares_ else 100
    if nano:
        return weight, max(1000, nano * 100000 // 10**9), 100000
    given, period = config.get("CpuQuota") or 0, config.get("CpuPeriod") or 100000
    return (weight, given, period) if given > 0 else (weight, None, None)


# systemd

def unit(weight, shares_, per_second, period):
    """The weight and cpu.max of a unit: CPUWeight, else CPUShares of 1024 as 100; CPUQuota as
    microseconds of a second, in a period of 1 ms to 1 s in which it is at least 1 ms."""
    if weight == "idle":
        value = 1
    elif weight is not None:
        value = weight
    elif shares_ is not None:
        value = max(1, min(10000, shares_ * 100 // 1024))
    else:
        value = 100
    if per_second is None:
        return value, None, None
    long = max(period or 100000, 1000 * 10**6 // per_second)
    long = max(1000, min(10**6, long))
    return value, max(1000, per_second * long // 10**6), long


# Slurm

def clock(seconds):
    """Seconds as sacct prints them: [DAYS-]HOURS:MINUTES:SECONDS."""
    days, rest = divmod(seconds, 86400)
    return (f"{days}-" if days else "") + f"{rest // 3600:02}:{rest % 3600 // 60:02}:{rest % 60:02}"


def step_use(total, average, tasks, elapsed, nodes):
    """CPUs that a step uses on each of its nodes: what sstat says of all tasks, as the average of
    one by their number, else what sacct has accounted."""
    seconds = average * tasks if average is not None else total
    return Fraction(seconds, elapsed) / nodes


# Prometheus

def container_use(series):
    """Use of each container at each time: the sum over all series of the container."""
    found = {}
    for labels, values in series:
        key = tuple(labels[name] for name in ("namespace", "pod", "container"))
        for at, value in values.items():
            found.setdefault(key, {}).setdefault(at, Fraction(0))
            found[key][at] += Fraction(value)
    return found
