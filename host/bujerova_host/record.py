"""A conversation as a script that `bujerova resolve` reads."""

from __future__ import annotations

import json
import subprocess
from typing import Any

from bujerova_host.configuration import Configuration
from bujerova_host.conversation import Conversation
from bujerova_host.forms import answer


class NoReplay(Exception):
    """The script of a conversation does not come to the line of its call."""


def script(settled: Configuration, talk: Conversation) -> dict[str, Any]:
    """The first line with the answers' lists put together, and of the profile files what the call could need."""
    made = dict(settled.first)
    if "profiles" in made:
        names, sessions = settled.reached()
        made["profiles"] = [section for section in made["profiles"] if section[0] in names]
        made["sessions"] = [section for section in made["sessions"] if section[0] in sessions]
    written: set[str] = set()
    for one in talk.exchanges:
        kind = one.question["ask"]
        if kind == "write" and one.item:
            written.add(one.question["path"])
        if kind != "read" or one.question["path"] not in written:   # a script reads back what was written
            _add(made, answer(one.question, one.item))
    return made


def _add(made: dict[str, Any], said: dict[str, Any]) -> None:
    for name, items in said.items():
        if name == "replies":
            _add(made.setdefault(name, {}), items)
        else:
            made.setdefault(name, []).extend(items)


def text(made: dict[str, Any]) -> str:
    """A script as a text, for people too."""
    return json.dumps(made, indent=1, ensure_ascii=False) + "\n"


def test_replay(program: str, made: str, line: str) -> None:
    """NoReplay where the program does not resolve this script to this line: a file was read with two contents, or
    the script is too long."""
    done = subprocess.run([program, "resolve"], input=made.encode("utf-8"), capture_output=True, env={}, check=False)
    if done.returncode not in (0, 1) or done.stdout != line.encode("ascii") + b"\n":
        raise NoReplay("the script does not come to the line of this call, and is not written")
