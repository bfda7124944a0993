"""Credentials in the forms that others read: a credential process's document, and variables."""

from __future__ import annotations

import json
import os
import shlex
from typing import Any

from bujerova_host.told import when

# what would say otherwise than the variables that are set
DROPPED = ("AWS_PROFILE", "AWS_DEFAULT_PROFILE", "AWS_SESSION_TOKEN", "AWS_SECURITY_TOKEN", "AWS_CREDENTIAL_EXPIRATION")

LAST = 253_402_300_799
"""The last second of the year 9999: clients read no later end."""


def _end(outcome: dict[str, Any]) -> str:
    return when(max(0, min(outcome["expires"][0], LAST)))


def document(outcome: dict[str, Any]) -> str:
    """What a credential process prints: a document of Version 1. Its end is cut to the second."""
    made = {"Version": 1, "AccessKeyId": outcome["id"], "SecretAccessKey": outcome["secret"]}
    if "token" in outcome:
        made["SessionToken"] = outcome["token"]
    if "expires" in outcome:
        made["Expiration"] = _end(outcome)
    if "account" in outcome:
        made["AccountId"] = outcome["account"]
    return json.dumps(made)


def variables(outcome: dict[str, Any], region: str | None) -> dict[str, str]:
    """The variables of credentials, and of a region where there is one."""
    made = {"AWS_ACCESS_KEY_ID": outcome["id"], "AWS_SECRET_ACCESS_KEY": outcome["secret"]}
    if "token" in outcome:
        made["AWS_SESSION_TOKEN"] = outcome["token"]
    if "expires" in outcome:
        made["AWS_CREDENTIAL_EXPIRATION"] = _end(outcome)
    if region:
        made["AWS_REGION"] = made["AWS_DEFAULT_REGION"] = region
    return made


def lines(made: dict[str, str]) -> str:
    """Variables as lines of a shell."""
    unset = [name for name in DROPPED if name not in made]
    return "\n".join([f"unset {' '.join(unset)}", *(f"export {name}={shlex.quote(value)}" for name, value in made.items())])


def execute(command: list[str], made: dict[str, str]) -> None:
    """Becomes the command, with these variables. OSError where it cannot be started."""
    environment = {name: value for name, value in os.environ.items() if name not in DROPPED}
    os.execvpe(command[0], command, {**environment, **made})
