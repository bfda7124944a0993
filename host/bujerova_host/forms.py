"""The forms that a line has in both directions: those of docs/SCRIPT.md, one item a line."""

from __future__ import annotations

import json
from typing import Any, NamedTuple

LONGEST = 1_048_576
"""How many bytes a line may have, its end included."""

LISTS = {"now": "clock", "jitter": "jitter", "run": "commands", "lookup": "lookups"}
FAILURES = {"read": None, "write": False, "run": "fail", "lookup": "fail"}
REPLIES = (
    "http", "imds-token", "imds-get", "assume-role", "web-identity", "role-credentials",
    "create-token", "sign-in",
)

NO_REGION = "no region is set"
NO_CRYPTOGRAPHY = "the Python package cryptography is not installed"


class Answered(NamedTuple):
    """What this machine answers: one item, and a note for a person, without secrets."""

    item: Any
    note: str = ""


def content(data: bytes) -> str | dict[str, str]:
    """Bytes as a text where they are UTF-8, else as their digits."""
    try:
        return data.decode("utf-8")
    except UnicodeDecodeError:
        return {"hex": data.hex()}


def data_of(value: str | dict[str, str]) -> bytes:
    """The bytes of a content."""
    return value.encode("utf-8") if isinstance(value, str) else bytes.fromhex(value["hex"])


def moment(nanoseconds: int) -> list[int]:
    """A moment, of nanoseconds since 1970."""
    return list(divmod(nanoseconds, 1_000_000_000))


def line(value: Any) -> bytes:
    """A value as a line, of ASCII alone: no locale has a say in it."""
    return json.dumps(value, separators=(",", ":")).encode("ascii") + b"\n"


def answer(question: dict[str, Any], item: Any) -> dict[str, Any]:
    """The script of one item that answers a question."""
    kind = question["ask"]
    if kind == "read":
        return {"files": [[question["path"], item]]}
    if kind == "write":
        return {} if item else {"unwritable": [question["path"]]}
    if kind in LISTS:
        return {LISTS[kind]: [item]}
    return {"replies": {kind: [item]}}


def failure(kind: str) -> Any:
    """The item that says that what was asked could not be answered."""
    return FAILURES.get(kind, "broken")
