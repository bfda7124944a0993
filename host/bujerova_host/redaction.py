"""A script without secrets: each value at a secret's place, and its other occurrences in texts, have another name.

Key ids, ids of accounts, paths, names of hosts and roles, and what a service says of its error stay."""

from __future__ import annotations

import json
import re
from typing import Any

from bujerova_host.conversation import Conversation
from bujerova_host.forms import data_of
from bujerova_host.told import program_of

# of the settings of profiles the first have other names, and the second stand as they are; no other one is told
SECRET_SETTINGS = ("aws_secret_access_key", "aws_session_token", "external_id")
SETTINGS = (
    "region", "role_arn", "source_profile", "credential_source", "role_session_name", "web_identity_token_file",
    "sso_session", "sso_account_id", "sso_role_name", "sso_region", "sso_start_url", "sso_registration_scopes",
    "login_session", "aws_access_key_id", "aws_account_id", "mfa_serial", "ec2_metadata_service_endpoint_mode")
VARIABLES = ("AWS_SECRET_ACCESS_KEY", "SECRET_ACCESS_KEY", "AWS_SESSION_TOKEN", "AWS_CONTAINER_AUTHORIZATION_TOKEN")
ADDRESSES = (
    "AWS_CONTAINER_CREDENTIALS_RELATIVE_URI", "AWS_CONTAINER_CREDENTIALS_FULL_URI", "AWS_EC2_METADATA_SERVICE_ENDPOINT",
    "ec2_metadata_service_endpoint")
MEMBERS = (
    "secretaccesskey", "sessiontoken", "token", "accesstoken", "refreshtoken", "clientsecret", "dpopkey", "idtoken",
    "secret", "refresh", "access", "devicecode", "codeverifier")
KEPT_HEADERS = ("x-aws-ec2-metadata-token-ttl-seconds",)
LISTING = re.compile(r"[\w+=,.@/-]*\s*")
SHORTEST = 8    # a shorter secret is replaced at its own place, and nowhere within another text


class Names:
    """The names that secrets have in a script, one for each."""

    def __init__(self) -> None:
        self._names: dict[str, str] = {}

    def of(self, secret: str) -> str:
        """The name of a secret; an empty one has none."""
        return self._names.setdefault(secret, f"redacted-{len(self._names) + 1}") if secret.strip() else secret

    def elsewhere(self, value: Any) -> Any:
        """A value in whose texts no known secret stands, not even escaped as JSON escapes it."""
        if isinstance(value, dict):
            return {name: self.elsewhere(item) for name, item in value.items()}
        if isinstance(value, list):
            return [self.elsewhere(item) for item in value]
        return self._in_text(value) if isinstance(value, str) else value

    def _in_text(self, text: str) -> str:
        for secret in sorted(self._names, key=len, reverse=True):
            if len(secret) >= SHORTEST:
                text = text.replace(secret, self._names[secret]).replace(json.dumps(secret)[1:-1], self._names[secret])
        return text


def redacted(made: dict[str, Any], talk: Conversation) -> dict[str, Any]:
    """The script of a conversation without its secrets."""
    names = Names()
    safe = dict(made)
    safe["variables"] = [[name, _variable(names, name, value)] for name, value in made["variables"]]
    for kind in ("profiles", "sessions"):
        if kind in made:
            safe[kind] = [[name, [[key, _setting(names, key, value)] for key, value in keys]] for name, keys in made[kind]]
    if "files" in made:
        safe["files"] = [[path, item if item is None else _document(names, item)] for path, item in made["files"]]
    if "commands" in made:
        safe["commands"] = [item if item == "fail" else _ran(names, item) for item in made["commands"]]
    if "replies" in made:
        listings = [one.question["path"].endswith("/") for one in talk.exchanges if one.question["ask"] == "imds-get"]
        safe["replies"] = {kind: _replies(names, kind, items, listings) for kind, items in made["replies"].items()}
    return names.elsewhere(safe)


def _variable(names: Names, name: str, value: str | None) -> str | None:
    if value is None:
        return None
    return _address(value) if name in ADDRESSES else names.of(value) if name in VARIABLES else value


def _setting(names: Names, key: str, value: str) -> str:
    if key == "credential_process":
        return program_of(value)
    if key in SECRET_SETTINGS:
        return names.of(value)
    return _address(value) if key in ADDRESSES else value if key in SETTINGS or not value else "redacted"


def _address(text: str) -> str:
    """An address without its user information and its query."""
    return re.sub(r"[?#].*", "?redacted", re.sub(r"(?<=//)[^/?#]*@", "redacted@", text))


def _ran(names: Names, item: list[Any]) -> list[Any]:
    # what a command writes to standard error is not known to be free of secrets
    status, output, errors = item
    return [status, _document(names, output), "redacted" if data_of(errors).strip() else errors]


def _replies(names: Names, kind: str, items: list[Any], listings: list[bool]) -> list[Any]:
    if kind not in ("http", "imds-token", "imds-get"):
        return [_members(names, item) for item in items]
    plain = listings if kind == "imds-get" else [False] * len(items)
    return [item if isinstance(item, str) else _reply(names, item, listing) for item, listing in zip(items, plain)]


def _reply(names: Names, item: list[Any], listing: bool) -> list[Any]:
    status, headers, body = item
    kept = [[name, value] for name, value in headers if name.lower() in KEPT_HEADERS]
    is_name = listing and isinstance(body, str) and LISTING.fullmatch(body)
    return [status, kept, body if is_name else _document(names, body)]


def _document(names: Names, value: Any) -> Any:
    """A content without its secrets: those members of a document that are none, and else nothing of it."""
    if not isinstance(value, str):
        return {"hex": "ff"} if value["hex"] else value
    try:
        document, _ = json.JSONDecoder().raw_decode(value.strip())
    except ValueError:
        return names.of(value)
    return json.dumps(_members(names, document)) if isinstance(document, dict) else names.of(value)


def _members(names: Names, value: Any) -> Any:
    if isinstance(value, list):
        return [_members(names, item) for item in value]
    if not isinstance(value, dict):
        return value
    return {name: _member(names, name, item) for name, item in value.items()}


def _member(names: Names, name: str, item: Any) -> Any:
    is_secret = name.replace("_", "").replace("-", "").lower() in MEMBERS
    return names.of(item) if is_secret and isinstance(item, str) else _members(names, item)
