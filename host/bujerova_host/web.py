"""Requests over plain HTTP: a container's agent and the instance metadata service. No proxy is asked, no redirect
is followed, nothing is sent twice."""

from __future__ import annotations

import time
from typing import Any
from urllib.parse import SplitResult, urlsplit

import urllib3
from urllib3.exceptions import ConnectTimeoutError, HTTPError, NewConnectionError

from bujerova_host.forms import LONGEST, Answered, content, data_of
from bujerova_host.machine import Names

CONNECT_SECONDS = 3.1
READ_SECONDS = 60.0
CHUNK = 65_536

Question = dict[str, Any]


class Late(Exception):
    """The limit of the whole attempt is over."""


class Web:
    """Answers that a container's agent and the instance metadata service give."""

    def __init__(self, names: Names) -> None:
        self._names = names

    def container(self, question: Question) -> Answered:
        """A container's credentials."""
        headers: dict[str, Any] = {"Accept": "application/json"}
        if "authorization" in question:
            headers["Authorization"] = data_of(question["authorization"])
        return self._ask("GET", question, question["path"], headers)

    def metadata_token(self, question: Question) -> Answered:
        """A session token of instance metadata."""
        lifetime = {"x-aws-ec2-metadata-token-ttl-seconds": str(question["ttl_seconds"])}
        return self._ask("PUT", question, "/latest/api/token", lifetime)

    def metadata(self, question: Question) -> Answered:
        """What instance metadata has at a path."""
        token = {"x-aws-ec2-metadata-token": data_of(question["token"])}
        return self._ask("GET", question, question["path"], token)

    def _ask(self, method: str, question: Question, path: str, headers: dict[str, Any]) -> Answered:
        try:
            parts = urlsplit(question["endpoint"])
            port = parts.port
        except ValueError:
            return Answered("dispatch", "no address")
        headers["Host"] = parts.netloc.rpartition("@")[2]
        limits = question["timeouts"]
        until = time.monotonic() + min(limits.get("attempt_ms", 3_600_000), limits.get("operation_ms", 3_600_000)) / 1000
        answered = Answered("dispatch", "no address")
        for address in self._addresses(parts):
            answered = self._send(self._pool(parts, address, port, limits), method, parts.path.rstrip("/") + path, headers, until)
            if answered.note not in (NewConnectionError.__name__, ConnectTimeoutError.__name__):
                break
        return answered

    def _addresses(self, parts: SplitResult) -> list[str]:
        """Where a request is sent. Over HTTPS the certificate says who answers; else a host that was looked up is
        asked at the addresses that the look-up gave, and no other that it may have by now."""
        host = parts.hostname or ""
        found = self._names.found(host) if parts.scheme == "http" else []
        return found or ([host] if host else [])

    def _pool(self, parts: SplitResult, address: str, port: int | None, limits: dict[str, int]) -> urllib3.HTTPConnectionPool:
        timeout = urllib3.Timeout(
            connect=limits["connect_ms"] / 1000 if "connect_ms" in limits else CONNECT_SECONDS,
            read=limits["read_ms"] / 1000 if "read_ms" in limits else READ_SECONDS)
        if parts.scheme == "https":
            return urllib3.HTTPSConnectionPool(address, port, timeout=timeout, cert_reqs="CERT_REQUIRED")
        return urllib3.HTTPConnectionPool(address, port, timeout=timeout)

    def _send(self, pool: urllib3.HTTPConnectionPool, method: str, path: str, headers: dict[str, Any], until: float) -> Answered:
        try:
            reply = pool.urlopen(
                method, path, headers=headers, retries=False, redirect=False, assert_same_host=False,
                preload_content=False, enforce_content_length=True)
        except (HTTPError, OSError, ValueError) as error:
            return Answered("dispatch", type(error).__name__)
        try:
            body = _body(reply, until)
        except Late:
            return Answered("timeout", "the attempt took too long")
        except (HTTPError, OSError) as error:
            return Answered("broken", type(error).__name__)
        finally:
            reply.close()
            pool.close()
        if body is None:
            return Answered("broken", "too long to be told")
        if not 100 <= reply.status <= 599:
            return Answered("broken", f"the status {reply.status}")
        return Answered([reply.status, [[name, value] for name, value in reply.headers.items()], content(body)])


def _body(reply: Any, until: float) -> bytes | None:
    """The body as it was sent; none where a line has no room for it. Late where it comes too late."""
    parts, length = [], 0
    for chunk in reply.stream(CHUNK, decode_content=False):
        if time.monotonic() > until:
            raise Late
        parts.append(chunk)
        length += len(chunk)
        if length > LONGEST:
            return None
    return b"".join(parts)
