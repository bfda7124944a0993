"""How requests to AWS's services are sent, by the environment and then the selected profile: FIPS, dual stack,
attempts. docs/HOST.md has the rules."""

from __future__ import annotations

import re
from typing import Mapping, NamedTuple

# of each setting the program's name, the variable, and the setting of a profile
SWITCHES = (
    ("use_fips", "AWS_USE_FIPS_ENDPOINT", "use_fips_endpoint"),
    ("use_dual_stack", "AWS_USE_DUALSTACK_ENDPOINT", "use_dualstack_endpoint"))
ATTEMPTS = ("max_attempts", "AWS_MAX_ATTEMPTS", "max_attempts")
VARIABLES = tuple(variable for _, variable, _ in (*SWITCHES, ATTEMPTS))
WORDS = {"true": True, "false": False}
NUMBER = re.compile(r"\+?0*([0-9]{1,10})")
MOST_ATTEMPTS = 4_294_967_295


class NoAttempts(Exception):
    """The setting of attempts is no number of them. The text names where it stands."""


class Setting(NamedTuple):
    """A setting that is there, by the program's name for it, and where it stands; no value where it does not count."""

    name: str
    value: bool | int | None
    place: str

    def __str__(self) -> str:
        if self.value is None:
            return f"{self.name} not set, since {self.place} is neither true nor false"
        return f"{self.name} {str(self.value).lower()}, by {self.place}"


def load(variables: Mapping[str, str], profile: str, keys: Mapping[str, str]) -> list[Setting]:
    """The settings that are there: each by its variable, and else by the profile of this name. NoAttempts where the
    attempts are no whole number from 1 to 4294967295."""
    loaded = []
    for name, variable, key in (*SWITCHES, ATTEMPTS):
        if variable in variables:
            loaded.append(_setting(name, variables[variable], variable))
        elif key in keys:
            loaded.append(_setting(name, keys[key], f"{key} of profile {profile}"))
    return loaded


def _setting(name: str, text: str, place: str) -> Setting:
    if name != ATTEMPTS[0]:
        return Setting(name, WORDS.get(text.lower()) if text.isascii() else None, place)
    number = NUMBER.fullmatch(text)
    if number is None or not 1 <= int(number[1]) <= MOST_ATTEMPTS:
        raise NoAttempts(f"{place} is no whole number from 1 to {MOST_ATTEMPTS}: unset it, or set it to such a number")
    return Setting(name, int(number[1]), place)
