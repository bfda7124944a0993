"""The commands of bujerova-host."""

from __future__ import annotations

import argparse
import os
import sys
from typing import Callable

from bujerova_host import machine
from bujerova_host.configuration import Configuration, NoSuchProfile, configuration
from bujerova_host.conversation import Broken, Conversation, converse
from bujerova_host.request_settings import NoAttempts
from bujerova_host.world import World

PROGRAM = "BUJEROVA_PROGRAM"
DEEPEST = 4
GAVE, GAVE_NONE, WRONG_WORDS, FAILED, INTERRUPTED = 0, 1, 2, 3, 130
NO_COMMAND, NOT_RUN = 127, 126


class Call:
    """One call of this process's configuration."""

    def __init__(self, words: argparse.Namespace) -> None:
        self.words = words
        self.program = program()
        self.settled: Configuration = configuration(self.program, words.profile)
        self.talk: Conversation = converse(self.program, World(), self.settled.first)

    def status(self) -> int:
        """The status of a call that was told."""
        return GAVE if self.talk.gave else GAVE_NONE

    def without_credentials(self) -> int:
        """Tells an error in one line, and what to do in the next ones."""
        from bujerova_host import told
        from bujerova_host.advice import advice

        complain(told.error(self.talk), *advice(self.settled, self.talk))
        return GAVE_NONE


def program() -> str:
    """The program's file: beside this one, or where an absolute path of a variable says. It is never looked for.
    Broken where the path is none."""
    named = os.environ.get(PROGRAM)
    if named is None:
        return os.path.join(os.path.dirname(os.path.abspath(__file__)), "bujerova")
    if not os.path.isabs(named):
        raise Broken(f"{PROGRAM} names no absolute path")
    return named


def complain(*lines: str) -> None:
    """Lines of standard error."""
    from bujerova_host.told import plain

    for line in lines:
        print(f"bujerova-host: {plain(line)}", file=sys.stderr)


def credentials(call: Call) -> int:
    """Writes the document of a credential process."""
    if not call.talk.gave:
        return call.without_credentials()
    from bujerova_host.given import document

    print(document(call.talk.outcome))
    return GAVE


def why(call: Call) -> int:
    """Tells a person who answered, what was asked, and what to do."""
    from bujerova_host import told
    from bujerova_host.advice import advice

    print(told.why(call.settled, call.talk, advice(call.settled, call.talk)))
    return call.status()


def record(call: Call) -> int:
    """Writes the script of the call, where it comes to the same line."""
    from bujerova_host import record as records
    from bujerova_host.files import cause_of, write_whole
    from bujerova_host.redaction import redacted

    made = records.script(call.settled, call.talk)
    text = records.text(redacted(made, call.talk) if call.words.redact else made)
    try:
        records.test_replay(call.program, text, call.talk.outcome["line"])
        write_whole(call.words.file, text.encode("utf-8"))
    except records.NoReplay as error:
        complain(str(error))
        return FAILED
    except (OSError, ValueError) as error:
        complain(f"{call.words.file} is not written: {cause_of(error)}")
        return FAILED
    print(call.talk.outcome["line"])
    return GAVE


def execute(call: Call) -> int:
    """Runs a command with the credentials in its environment."""
    if not call.talk.gave:
        return call.without_credentials()
    from bujerova_host import given

    try:
        given.execute(call.words.command, given.variables(call.talk.outcome, call.settled.region))
    except FileNotFoundError:
        complain(f"there is no command {call.words.command[0]}")
        return NO_COMMAND
    except (OSError, ValueError):
        complain(f"the command {call.words.command[0]} does not start")
    return NOT_RUN


def environment(call: Call) -> int:
    """Writes the credentials as lines of a shell."""
    if not call.talk.gave:
        return call.without_credentials()
    from bujerova_host import given

    print(given.lines(given.variables(call.talk.outcome, call.settled.region)))
    return GAVE


def parsed(words: list[str] | None) -> argparse.Namespace:
    """The words of the command line."""
    top = argparse.ArgumentParser(prog="bujerova-host", description="AWS credentials as an AWS SDK for Rust finds them.")
    commands = top.add_subparsers(required=True, metavar="COMMAND")

    def add(name: str, does: Callable[[Call], int], text: str) -> argparse.ArgumentParser:
        one = commands.add_parser(name, help=text, description=text)
        one.add_argument("--profile", metavar="NAME", help="the profile that counts, whatever AWS_PROFILE says")
        one.set_defaults(does=does)
        return one

    add("credentials", credentials, "write the JSON of a credential process")
    add("why", why, "tell who gave the credentials, what was asked, and why others were passed over")
    recording = add("record", record, "write a script that `bujerova resolve` replays")
    recording.add_argument("--redact", action="store_true", help="write no secret")
    recording.add_argument("file", metavar="FILE")
    executing = add("exec", execute, "run a command with the credentials in its environment")
    executing.add_argument("command", metavar="COMMAND", nargs="+")
    add("env", environment, "write the credentials as lines of a shell")
    return top.parse_args(words)


def run(words: argparse.Namespace) -> int:
    """Makes the call, and does with it what was asked for."""
    deep = machine.depth()
    if deep is None or deep >= DEEPEST:
        complain(f"a profile's process is this host again, {DEEPEST} times: its credential_process leads back to it")
        return GAVE_NONE
    try:
        return words.does(Call(words))
    except (NoSuchProfile, NoAttempts) as error:
        complain(str(error))
        return GAVE_NONE
    except Broken as error:
        complain(str(error))
        return FAILED


def main(words: list[str] | None = None) -> int:
    """The status of the command."""
    try:
        status = run(parsed(words))
        sys.stdout.flush()
        return status
    except KeyboardInterrupt:
        return INTERRUPTED
    except Exception as error:     # no text of an unforeseen error is known to be free of secrets
        if isinstance(error, OSError):
            os.dup2(os.open(os.devnull, os.O_WRONLY), sys.stdout.fileno())    # the output may be what failed
        complain(f"{type(error).__name__}, at {_place(error)}")
        return FAILED


def _place(error: BaseException) -> str:
    at = error.__traceback__
    while at is not None and at.tb_next is not None:
        at = at.tb_next
    return "nowhere" if at is None else f"{os.path.basename(at.tb_frame.f_code.co_filename)}:{at.tb_lineno}"
