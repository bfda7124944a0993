"""What a person can do about what a call came to."""

from __future__ import annotations

from typing import Iterator

from bujerova_host.configuration import Configuration
from bujerova_host.conversation import Conversation, Exchange
from bujerova_host.forms import NO_CRYPTOGRAPHY, NO_REGION


def advice(settled: Configuration, talk: Conversation) -> list[str]:
    """What to do, in the order of the rules below; nothing where none applies."""
    rules = (_names_no_profile, _keys_before_profile) if talk.gave else (
        _names_no_profile, _no_source, _no_region, _sign_in_to_identity_center, _sign_in, _second_factor, _nothing_is_configured)
    return [text for rule in rules for text in rule(settled, talk)]


def _names_no_profile(settled: Configuration, _: Conversation) -> Iterator[str]:
    if settled.selected != "default" and settled.files.refused is None and settled.selected not in settled.files.profiles:
        yield f"AWS_PROFILE names {settled.selected}, which is in no file; there are: {_profiles(settled)}"


def _no_source(settled: Configuration, _: Conversation) -> Iterator[str]:
    for name in settled.reached()[0][-1:]:
        source = settled.files.profiles[name].get("source_profile")
        if source and source not in settled.files.profiles:
            yield f"source_profile of profile {name} names {source}, which is in no file; there are: {_profiles(settled)}"


def _keys_before_profile(settled: Configuration, talk: Conversation) -> Iterator[str]:
    if settled.named and talk.outcome["provider"] == "EnvironmentVariable":
        yield f"unset AWS_ACCESS_KEY_ID to get the credentials of profile {settled.selected}: the environment counts before it"


def _no_region(settled: Configuration, talk: Conversation) -> Iterator[str]:
    if any(one.note == NO_REGION for one in talk.exchanges):
        yield f"set a region: AWS_REGION, or the setting region of profile {settled.selected}"


def _sign_in_to_identity_center(settled: Configuration, talk: Conversation) -> Iterator[str]:
    asked = _last(talk, "role-credentials")
    over = asked is None or asked.note == "UnauthorizedException"
    if over and any(_reads(one, "/.aws/sso/cache/") for one in talk.exchanges):
        _, sessions = settled.reached()
        yield "sign in: aws sso login " + (f"--sso-session {sessions[-1]}" if sessions else f"--profile {settled.selected}")


def _sign_in(settled: Configuration, talk: Conversation) -> Iterator[str]:
    asked = _last(talk, "sign-in")
    if asked is not None and asked.note == NO_CRYPTOGRAPHY:
        yield "install the Python package cryptography, of Debian python3-cryptography"
    elif asked is not None or any(_reads(one, "/.aws/login/cache/") for one in talk.exchanges):
        yield f"sign in: aws login --profile {settled.selected}"


def _second_factor(settled: Configuration, talk: Conversation) -> Iterator[str]:
    asked = _last(talk, "assume-role")
    if asked is not None and isinstance(asked.item, dict) and "refused" in asked.item:
        for name in settled.reached()[0]:
            if "mfa_serial" in settled.files.profiles[name]:
                yield f"profile {name} has mfa_serial, and no code is asked for here: use a session that was made with one"


def _nothing_is_configured(settled: Configuration, talk: Conversation) -> Iterator[str]:
    if talk.outcome["class"] == "CredentialsNotLoaded" and not any(_no_source(settled, talk)):
        yield f"name a profile with credentials, or set AWS_ACCESS_KEY_ID and AWS_SECRET_ACCESS_KEY; there are: {_profiles(settled)}"


def _profiles(settled: Configuration) -> str:
    return ", ".join(sorted(settled.files.profiles)) or "no profiles"


def _last(talk: Conversation, kind: str) -> Exchange | None:
    return next((one for one in reversed(talk.exchanges) if one.question["ask"] == kind), None)


def _reads(one: Exchange, folder: str) -> bool:
    return one.question["ask"] == "read" and folder in one.question["path"]
