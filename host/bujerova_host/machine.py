"""Answers of the machine itself: its clock, its files, its commands, its resolver."""

from __future__ import annotations

import os
import subprocess
import time
from typing import Any

from bujerova_host.files import cause_of, write_whole
from bujerova_host.forms import LONGEST, Answered, content, data_of, failure, moment

DEPTH = "BUJEROVA_HOST_DEPTH"
"""The variable that tells a command how many hosts it runs below."""

Question = dict[str, Any]


def depth() -> int | None:
    """How many hosts this one runs below; none where the variable is no number."""
    told = os.environ.get(DEPTH, "0")
    return int(told) if told.isascii() and told.isdigit() and len(told) < 9 else None


def now(_: Question) -> Answered:
    """The clock."""
    return Answered(moment(time.time_ns()))


def jitter(_: Question) -> Answered:
    """64 random bits."""
    return Answered(int.from_bytes(os.urandom(8), "big"))


def read(question: Question) -> Answered:
    """A file's content. A line has no room for a longer one."""
    try:
        with open(question["path"], "rb") as file:
            data = file.read(LONGEST + 1)
    except (OSError, ValueError) as error:
        return Answered(None, cause_of(error))
    return Answered(None, "too long to be told") if len(data) > LONGEST else Answered(content(data))


def write(question: Question) -> Answered:
    """Whether a file was written."""
    try:
        write_whole(question["path"], data_of(question["content"]))
    except (OSError, ValueError) as error:
        return Answered(False, cause_of(error))
    return Answered(True)


def run(question: Question) -> Answered:
    """The status and the output of a shell's command, which has no input."""
    environment = {**os.environ, DEPTH: str((depth() or 0) + 1)}
    try:
        done = subprocess.run(
            ["/bin/sh", "-c", question["command"]], stdin=subprocess.DEVNULL, capture_output=True,
            env=environment, check=False)
    except (OSError, ValueError) as error:
        return Answered(failure("run"), cause_of(error))
    return Answered([done.returncode, content(done.stdout), content(done.stderr)])


class Names:
    """The resolver, and the addresses that it gave: what was found safe is what is asked."""

    def __init__(self) -> None:
        self._found: dict[str, list[str]] = {}

    def look_up(self, question: Question) -> Answered:
        """The addresses of a host, without the zones that a script has no form for."""
        import socket

        try:
            found = socket.getaddrinfo(question["host"], None, type=socket.SOCK_STREAM)
        except (OSError, UnicodeError, ValueError) as error:
            return Answered(failure("lookup"), cause_of(error))
        addresses = list(dict.fromkeys(str(entry[4][0]).partition("%")[0] for entry in found))
        self._found[question["host"].lower()] = addresses
        return Answered(addresses)

    def found(self, host: str) -> list[str]:
        """The addresses that a look-up of this host gave; none where there was none."""
        return self._found.get(host.lower(), [])
