"""JSON of an address of HTTP."""
from __future__ import annotations

import http.client
import json
import urllib.error
import urllib.request
from functools import partial
from typing import Any

from arbiter_host.base import progress
from arbiter_host.base.faults import HostFault, naming
from arbiter_host.base.names import cut, shown
from arbiter_host.sources.data import SCHEMES, check_memory

# Seconds that a server may be silent, and of a whole exchange; bytes of an answer, and of a piece.
SECONDS, MOST_SECONDS = 60, 600
MAX_ANSWER, PIECE = 1 << 28, 1 << 20


class Redirects(urllib.request.HTTPRedirectHandler):
    """Follows a server to other addresses of HTTP alone."""

    def redirect_request(self, req: Any, fp: Any, code: int, msg: str, headers: Any,
                         newurl: str) -> urllib.request.Request | None:
        """The request of the other address."""
        if not newurl.lower().startswith(SCHEMES):
            raise HostFault(f"{shown(req.full_url)}: it names {shown(cut(newurl, 100))} instead,"
                            " which is not http:// or https://")
        return super().redirect_request(req, fp, code, msg, headers, newurl)


def body_of(answer: Any) -> bytes:
    """The bytes of an answer. A fault where it is too long, or not whole."""
    data = bytearray()
    while piece := answer.read1(PIECE):
        data += piece
        if len(data) > MAX_ANSWER:
            raise HostFault(f"an answer of more than {MAX_ANSWER >> 20} MiB")
    if answer.length:
        raise HostFault("its answer ends in the middle")
    return bytes(data)


def exchanged(url: str) -> Any:
    """The JSON of an address, however long that takes."""
    try:
        with urllib.request.build_opener(Redirects).open(url, timeout=SECONDS) as answer, (
                naming(shown(answer.url))):
            body = body_of(answer)
            check_memory(body, "its answer")
            return json.loads(body)
    except (OSError, http.client.HTTPException, ValueError, RecursionError) as error:
        cause = error.reason if isinstance(error, urllib.error.URLError) else error
        told = str(cause)[:400] or type(error).__name__
        if isinstance(error, urllib.error.HTTPError):
            told = f"{error.code}: {error.read(400).decode(errors='replace') or told}"
        raise HostFault(f"{shown(url.partition('?')[0])}: {shown(told)}") from error


def fetched(url: str) -> Any:
    """The JSON of an address. One deadline is over the whole exchange, names and greetings too:
    what still waits for a server then is a thread, which ends with the command."""
    try:
        return progress.in_thread(partial(exchanged, url), MOST_SECONDS)
    except TimeoutError as error:
        raise HostFault(f"{shown(url)}: no whole answer in {MOST_SECONDS} seconds") from error
