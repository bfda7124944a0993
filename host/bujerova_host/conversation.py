"""One conversation with the program, over its standard input and output."""

from __future__ import annotations

import json
import signal
import subprocess
import time
from typing import Any, NamedTuple

from bujerova_host.forms import LONGEST, Answered, answer, failure, line
from bujerova_host.world import World

FORMS = {"credentials": (0, "id", "secret", "provider", "line"), "error": (1, "class", "text", "line")}
RENEWALS = ("create-token", "sign-in")
ENDING = (signal.SIGINT, signal.SIGTERM, signal.SIGHUP)
SECONDS_TO_END = 10


class Broken(Exception):
    """The program came to no outcome. The text has no secret."""


class Exchange(NamedTuple):
    """A question, the item that answered it, what the host notes, and how long it took."""

    question: dict[str, Any]
    item: Any
    note: str
    milliseconds: float


class Conversation(NamedTuple):
    """What was asked, in order, and what the call came to."""

    exchanges: list[Exchange]
    outcome: dict[str, Any]

    @property
    def gave(self) -> bool:
        """Whether the call gave credentials."""
        return self.outcome["outcome"] == "credentials"


def told_line(value: Any) -> bytes:
    """A value as a line. Broken where the program would not read so long a one."""
    told = line(value)
    if len(told) > LONGEST:
        raise Broken(f"a line of {len(told)} bytes is longer than the {LONGEST} that the program reads")
    return told


def converse(program: str, world: World, first: dict[str, Any]) -> Conversation:
    """One call over a configuration. Broken where the program comes to no outcome."""
    talk = _Talk(program, world)
    try:
        outcome = talk.to_its_end(first)
    finally:
        status = talk.close()
    if outcome is None:
        raise Broken(f"the program ended without an outcome, with status {status}")
    if outcome.get("outcome") == "broken":
        raise Broken(f"the program broke the conversation off: {outcome.get('reason')}")
    if not _is_whole(outcome, status):
        raise Broken(f"the program's outcome is not one of status {status}")
    return Conversation(talk.exchanges, outcome)


def _is_whole(outcome: dict[str, Any], status: int) -> bool:
    """Whether an outcome has the members of its form, and this is its status."""
    form = FORMS.get(outcome.get("outcome"))
    return form is not None and status == form[0] and all(isinstance(outcome.get(name), str) for name in form[1:])


class _Talk:
    """The program while it runs. It has no variable of this process, and no signal of its terminal reaches it."""

    def __init__(self, program: str, world: World) -> None:
        self.exchanges: list[Exchange] = []
        self._world, self._held = world, False
        try:
            self._process = subprocess.Popen(
                [program, "drive"], stdin=subprocess.PIPE, stdout=subprocess.PIPE, stderr=subprocess.DEVNULL,
                env={}, process_group=0)
        except OSError as error:
            raise Broken(f"the program {program} does not start: {error.strerror}") from None

    def to_its_end(self, first: dict[str, Any]) -> dict[str, Any] | None:
        """Answers what is asked, and gives the outcome; none where the program ended before it."""
        self._tell(told_line(first))
        while True:
            message = self._heard()
            if message is None or "outcome" in message:
                return message
            if not self._world.knows(message.get("ask")):
                raise Broken(f"the program asked a question of a kind that is unknown here: {message.get('ask')!r:.40}")
            self._tell(self._answered(message))

    def close(self) -> int:
        """The program's status. It ends by itself where its input has ended."""
        for pipe in (self._process.stdin, self._process.stdout):
            try:
                pipe.close()
            except BrokenPipeError:
                pass
        self._hold_signals(False)
        try:
            return self._process.wait(SECONDS_TO_END)
        except subprocess.TimeoutExpired:
            self._process.kill()
            return self._process.wait()

    def _answered(self, question: dict[str, Any]) -> bytes:
        # a renewed token that does not come into its file is lost, and its owner has to sign in again
        if question["ask"] != "write":
            self._hold_signals(False)
        began = time.monotonic()
        said = self._world.answer(question)
        told = line(answer(question, said.item))
        if len(told) > LONGEST:
            said = Answered(failure(question["ask"]), "too long to be told")
            told = line(answer(question, said.item))
        self._hold_signals(question["ask"] in RENEWALS)
        self.exchanges.append(Exchange(question, said.item, said.note, (time.monotonic() - began) * 1000))
        return told

    def _hold_signals(self, hold: bool) -> None:
        if hold != self._held:
            self._held = hold
            signal.pthread_sigmask(signal.SIG_BLOCK if hold else signal.SIG_UNBLOCK, ENDING)

    def _heard(self) -> dict[str, Any] | None:
        raw = self._process.stdout.readline(LONGEST + 1)
        if not raw.endswith(b"\n"):
            return None
        try:
            message = json.loads(raw)
        except ValueError:
            raise Broken("the program wrote a line that is no JSON") from None
        if not isinstance(message, dict):
            raise Broken("the program wrote a line that is no object")
        return message

    def _tell(self, told: bytes) -> None:
        try:
            self._process.stdin.write(told)
            self._process.stdin.flush()
        except BrokenPipeError:
            pass    # a program that reads no more has said why, or has ended
