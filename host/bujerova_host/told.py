"""What a person is told of a conversation: which provider answered, what was asked, and why others were passed over.
No line has a secret: kinds, sizes, names, ids, paths, and what a service or a process says of its error."""

from __future__ import annotations

import re
import time
from typing import Any, Iterator

from bujerova_host.configuration import Configuration
from bujerova_host.conversation import Conversation, Exchange
from bujerova_host.forms import data_of

# characters that would write elsewhere, or turn the direction of a text, and the sign of an escape
UNPRINTED = re.compile("[\x00-\x1f\x7f-\x9f\u202a-\u202e\u2066-\u2069%]")


def plain(text: str) -> str:
    """A text on one line; of what cannot be printed each byte is `%` and two digits, as docs/SCRIPT.md says."""
    return UNPRINTED.sub(lambda sign: "".join(f"%{byte:02X}" for byte in sign[0].encode()), text)


def address(text: str) -> str:
    """An address without its user information and its query, for which `..` stands."""
    query, user = re.search("[?#]", text), text.rfind("@")
    if query and user > query.start():
        return ".."
    told = text[:query.end()] + ".." if query else text
    return told if user < 0 else ".." + told[user:]


def program_of(command: str) -> str:
    """A command up to its first blank: an argument may be a secret."""
    name, *more = command.split(None, 1)[:2] or [""]
    return name + (" and arguments" if more else "")


def when(seconds: int) -> str:
    """A moment as a date, cut to the second."""
    try:
        return time.strftime("%Y-%m-%dT%H:%M:%SZ", time.gmtime(seconds))
    except (OverflowError, ValueError, OSError):
        return f"{seconds} seconds since 1970"


def question(asked: dict[str, Any]) -> str:
    """What was asked, without what is secret in it."""
    kind = asked["ask"]
    settings = asked.get("settings", {})
    region = f"in {settings['region']}" if settings.get("region") else "in no region"
    about = {
        "read": lambda: asked["path"],
        "write": lambda: asked["path"],
        "run": lambda: program_of(asked["command"]),
        "lookup": lambda: asked["host"],
        "http": lambda: "GET " + address(asked["endpoint"].rstrip("/") + asked["path"]),
        "imds-get": lambda: "GET " + address(asked["endpoint"].rstrip("/") + asked["path"]),
        "imds-token": lambda: "PUT " + address(asked["endpoint"].rstrip("/")) + "/latest/api/token",
        "assume-role": lambda: f"{asked['role_arn']} {region}, signed by {asked['signer']['id']}",
        "web-identity": lambda: f"{asked['role_arn']} {region}",
        "role-credentials": lambda: f"{asked['role_name']} of {asked['account_id']} {region}",
        "create-token": lambda: region,
        "sign-in": lambda: region,
    }
    return kind if kind not in about else f"{kind} {about[kind]()}"


def answer(exchange: Exchange) -> str:
    """What was answered: sizes, ids and ends."""
    told = _item(exchange.question["ask"], exchange.item)
    return f"{told} ({exchange.note})" if exchange.note else told


def _item(kind: str, item: Any) -> str:
    if kind == "now":
        return when(item[0])
    if kind == "read":
        return "not read" if item is None else _size(item)
    if kind == "write":
        return "written" if item else "not written"
    if isinstance(item, (str, int)):
        return str(item)
    if item is None:
        return "no credentials"
    if kind == "lookup":
        return ", ".join(item)
    if isinstance(item, list):
        return f"status {item[0]}, {_size(item[1] if kind == 'run' else item[2])}"
    return _granted(item)


def _granted(item: dict[str, Any]) -> str:
    if "refused" in item:
        return f"refused: {item['message']}"
    parts = ["granted", item.get("id", "")]
    if "expires" in item:
        parts.append("until " + when(item["expires"][0]))
    if "expires_ms" in item:
        parts.append("until " + when(item["expires_ms"] // 1000))
    if "expires_in" in item:
        parts.append(f"for {item['expires_in']} s")
    return " ".join(part for part in parts if part)


def _size(value: Any) -> str:
    return f"{len(data_of(value))} bytes"


def outcome(told: dict[str, Any]) -> str:
    """What a call came to, in one line."""
    if told["outcome"] != "credentials":
        return f"no credentials: {told['class']}"
    end = f"until {when(told['expires'][0])}" if "expires" in told else "without an end"
    return f"credentials {told['id']} by {told['provider']}, {end}"


def error(talk: Conversation) -> str:
    """An error in one line, and what the host notes of the questions that failed."""
    notes = dict.fromkeys(f"{one.question['ask']}: {one.note}" for one in talk.exchanges if one.note)
    return talk.outcome["text"] + (f" ({'; '.join(notes)})" if notes else "")


def why(settled: Configuration, talk: Conversation, advice: list[str]) -> str:
    """All that is told of a call, for a person."""
    lines = [outcome(talk.outcome), *_causes(talk), *_configured(settled), *_asked(talk.exchanges),
             *_passed_over(talk.outcome)]
    if settled.files.left_out:
        lines += ["left out of the profile files:", *(f"  {one}" for one in settled.files.left_out)]
    if advice:
        lines += ["what to do:", *(f"  {one}" for one in advice)]
    return "\n".join(plain(line) for line in lines)


def _causes(talk: Conversation) -> Iterator[str]:
    for depth, text in talk.outcome.get("causes", []):
        yield "  " * (depth + 1) + text


def _configured(settled: Configuration) -> Iterator[str]:
    variable = dict(settled.first["variables"]).get("AWS_PROFILE")
    by = "named by --profile" if settled.named else "since none is named" if variable is None else "named by AWS_PROFILE"
    yield f"profile {settled.selected}, {by}"
    for file in settled.files.files:
        yield f"  {file.path}: {'not read, ' + file.cause if file.cause else 'read'}"
    yield f"region {settled.region}" if settled.region else "no region"
    yield from map(str, settled.settings)


def _asked(exchanges: list[Exchange]) -> Iterator[str]:
    yield "asked:" if exchanges else "nothing was asked"
    for one in exchanges:
        yield f"  {question(one.question)} -> {answer(one)}  [{one.milliseconds:.0f} ms]"


def _passed_over(told: dict[str, Any]) -> Iterator[str]:
    members = told.get("passed_over", [])
    if members and told.get("class") != "CredentialsNotLoaded":
        yield "passed over:"
        for member in members:
            yield f"  {member['member']}"
            yield from ("  " * (depth + 2) + text for depth, text in member["causes"])
