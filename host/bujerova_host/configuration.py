"""What a call is configured with: the first line of a conversation."""

from __future__ import annotations

import os
import re
import subprocess
from typing import Any, Iterable, NamedTuple

from bujerova_host import profile_files, request_settings
from bujerova_host.conversation import Broken, told_line
from bujerova_host.profile_files import Profiles
from bujerova_host.request_settings import Setting

# Every variable that the program reads: a test compares this with the sources of its crates.
VARIABLES = (
    "AWS_ACCESS_KEY_ID", "AWS_SECRET_ACCESS_KEY", "SECRET_ACCESS_KEY", "AWS_SESSION_TOKEN", "AWS_ACCOUNT_ID",
    "AWS_PROFILE", "AWS_REGION", "AWS_DEFAULT_REGION",
    "AWS_WEB_IDENTITY_TOKEN_FILE", "AWS_ROLE_ARN", "AWS_ROLE_SESSION_NAME",
    "AWS_CONTAINER_CREDENTIALS_RELATIVE_URI", "AWS_CONTAINER_CREDENTIALS_FULL_URI",
    "AWS_CONTAINER_AUTHORIZATION_TOKEN_FILE", "AWS_CONTAINER_AUTHORIZATION_TOKEN",
    "AWS_EC2_METADATA_DISABLED", "AWS_EC2_METADATA_SERVICE_ENDPOINT", "AWS_EC2_METADATA_SERVICE_ENDPOINT_MODE",
    "AWS_LOGIN_CACHE_DIRECTORY", "HOME",
)
REGION_LINE = re.compile(r"region (?:none|=(\S*))(?: \S+)\n")


class NoSuchProfile(Exception):
    """A profile was named that is in no file. The text has the names that are."""


class Configuration(NamedTuple):
    """The first line, what the profile files said, whether the profile was named by the caller, and how requests to
    AWS's services are sent."""

    first: dict[str, Any]
    files: Profiles
    named: bool
    settings: list[Setting]

    @property
    def selected(self) -> str:
        """The name of the profile that counts."""
        return _selected(self.first)

    @property
    def region(self) -> str | None:
        """The region of the call, where one is set."""
        return self.first.get("region")

    def reached(self) -> tuple[list[str], list[str]]:
        """The profiles that the selected one leads to, itself too, and the sessions that these name."""
        names: list[str] = []
        sessions: list[str] = []
        name = self.selected
        while name in self.files.profiles and name not in names:
            names.append(name)
            keys = self.files.profiles[name]
            sessions += [keys["sso_session"]] if "sso_session" in keys else []
            name = keys.get("source_profile", "")
        return names, sessions


def configuration(program: str, profile: str | None) -> Configuration:
    """The configuration of this process. NoSuchProfile where a profile is named that is in no file; NoAttempts where
    the attempts are no number; Broken where the program does not say which region counts."""
    files = profile_files.load(os.environ)
    first: dict[str, Any] = {"variables": _variables(VARIABLES)}
    if files.refused is not None:
        first["refused"] = files.refused
    else:
        _test_named(profile, files)
        first["profiles"], first["sessions"] = _pairs(files.profiles), _pairs(files.sessions)
    if profile is not None:
        first["selected"] = profile
    settings = _settings(first, files)
    region = _region(program, first)
    if region is not None:
        first["region"] = region
    service = {one.name: one.value for one in settings if one.value is not None}
    if service:     # where nothing is set a program without this member serves too
        first["service"] = service
    return Configuration(first, files, profile is not None, settings)


def _variables(names: Iterable[str]) -> list[list[str | None]]:
    """Those of these variables that are set, none for a value that is not Unicode."""
    values = ((name, os.environb.get(name.encode())) for name in names)
    return [[name, _unicode(value)] for name, value in values if value is not None]


def _unicode(value: bytes) -> str | None:
    try:
        return value.decode("utf-8")
    except UnicodeDecodeError:
        return None


def _selected(first: dict[str, Any]) -> str:
    named = first.get("selected", dict(first["variables"]).get("AWS_PROFILE"))
    return "default" if named is None else named


def _settings(first: dict[str, Any], files: Profiles) -> list[Setting]:
    """How requests to AWS's services are sent. A variable that is not Unicode is as one that is not set."""
    readable = {name: value for name, value in _variables(request_settings.VARIABLES) if value is not None}
    selected = _selected(first)
    return request_settings.load(readable, selected, files.profiles.get(selected, {}))


def _pairs(sections: dict[str, dict[str, str]]) -> list[list[Any]]:
    return [[name, [list(pair) for pair in keys.items()]] for name, keys in sections.items()]


def _test_named(profile: str | None, files: Profiles) -> None:
    """A chain would pass over a name that does not exist, and go on to the machine's role."""
    if profile is not None and profile not in files.profiles:
        names = ", ".join(sorted(files.profiles)) or "none"
        left_out = [f"; {one}" for one in files.left_out if profile in one.what]
        raise NoSuchProfile(f"no profile is named {profile}; there are: {names}{''.join(left_out)}")


def _region(program: str, first: dict[str, Any]) -> str | None:
    """The region that environment and profile give, by the program's default region chain. Instance metadata is not
    asked: the chain is given no reply."""
    try:
        done = subprocess.run([program, "region"], input=told_line(first), capture_output=True, env={}, check=False)
    except OSError as error:
        raise Broken(f"the program {program} does not start: {error.strerror}") from None
    told = REGION_LINE.fullmatch(done.stdout.decode("ascii", "replace"))
    if done.returncode not in (0, 1) or told is None:
        raise Broken(f"the program told no region, with status {done.returncode}")
    if told[1] is None:
        return None
    return re.sub(rb"%([0-9A-F]{2})", lambda digits: bytes.fromhex(digits[1].decode()), told[1].encode()).decode("utf-8")
