"""Sources that a running service tells: `k8s://[CONTEXT]`, `docker://`, `podman://`, `systemd://`.

Each is asked by the tool that its users have, which prints and changes nothing. The others than a
cluster are of this machine. An answer has bounds.
"""
from __future__ import annotations

import json
import os
import time
from collections.abc import Iterator, Sequence
from typing import Any
from urllib.parse import urlencode

from arbiter_host.base import children
from arbiter_host.base.faults import HostFault, UsageFault
from arbiter_host.base.names import cut, shown
from arbiter_host.sources.data import MAX_BYTES, field, loads
from arbiter_host.sources.kubernetes import items_of

# The words before all others by which each tool asks its service.
TOOLS = {"k8s": ["kubectl"], "docker": ["docker", "--host=unix:///var/run/docker.sock"],
         "podman": ["podman", "--remote=false"], "systemd": ["systemctl"]}
UNITS = ("show", "*.slice", "*.service", "*.scope")
# The lists of the API server.
NODES, PODS, METRICS = "/api/v1/nodes", "/api/v1/pods", "/apis/metrics.k8s.io/v1beta1/pods"
# Seconds of one answer, and after which no page more of a list is asked for.
SECONDS, MOST_SECONDS = 120, 600
# Objects of a page, and pages.
PAGE, MOST_PAGES = 500, 2000


def printed(words: Sequence[str]) -> bytes:
    """The output of a command. A fault where it fails, prints too much or takes too long."""
    ended = children.run(words, SECONDS, MAX_BYTES, environment={**os.environ, "LC_ALL": "C"})
    if ended.status:
        last = ended.said.decode(errors="replace").strip().split("\n")[-1]
        raise HostFault(f"{words[0]}: {shown(cut(last, 300)) or f'status {ended.status}'}")
    return ended.out


class RunningService:
    """The service of a word such as `k8s://prod`."""

    def __init__(self, word: str) -> None:
        self.kind, _, context = word.partition("://")
        if context and self.kind != "k8s":
            raise UsageFault(f"{shown(word)}: {self.kind}:// is of this machine alone")
        self.tool = [*TOOLS[self.kind], *([f"--context={context}"] if context else [])]

    def printed(self, *words: str) -> bytes:
        """The output of its tool."""
        return printed([*self.tool, *words])

    def objects(self, path: str, kind: str, **asked: str) -> Iterator[dict[str, Any]]:
        """The objects of a list of the API server, page by page, each with its kind."""
        size, mark, until = 0, "", time.monotonic() + MOST_SECONDS
        for _ in range(MOST_PAGES):
            if time.monotonic() > until:
                raise HostFault(f"{path}: no whole list in {MOST_SECONDS} seconds")
            words = urlencode({"limit": PAGE, **asked, **({"continue": mark} if mark else {})})
            data = self.printed("get", "--raw", f"{path}?{words}")
            size, page = size + len(data), loads(data, path)
            if size > MAX_BYTES:
                break
            if not isinstance(field(page, "items"), list):
                raise HostFault(f"{path}: no list of objects")
            yield from ({**each, "kind": kind} for each in items_of(page, path))
            mark = str(field(page, "metadata", "continue") or "")
            if not mark:
                return
        raise HostFault(f"{path}: more than {MAX_BYTES >> 20} MiB, or {MOST_PAGES} pages")

    def cluster(self, node: str) -> bytes:
        """The nodes of a cluster and all pods, or one node and its pods."""
        one = {"fieldSelector": f"metadata.name={node}"} if node else {}
        its = {"fieldSelector": f"spec.nodeName={node}"} if node else {}
        items = [*self.objects(NODES, "Node", **one), *self.objects(PODS, "Pod", **its)]
        return json.dumps({"kind": "List", "items": items}).encode()

    def source(self, node: str = "") -> bytes:
        """Its groups, as its tool prints them."""
        if self.kind == "k8s":
            return self.cluster(node)
        if self.kind == "systemd":
            return self.printed(*UNITS)
        known = self.printed("ps", "-q", "--no-trunc").decode("ascii", "replace").split()
        return self.printed("inspect", "--type", "container", *known) if known else b"[]"

    def used(self) -> bytes:
        """The use of its containers at one time, as its tool prints it."""
        if self.kind == "systemd":
            raise UsageFault("--used: systemd:// tells what units used where it is the source")
        if self.kind == "k8s":
            items = list(self.objects(METRICS, "PodMetrics"))
            return json.dumps({"kind": "PodMetricsList", "items": items}).encode()
        form = "{{json .}}" if self.kind == "docker" else "json"
        return self.printed("stats", "--no-stream", "--format", form)
