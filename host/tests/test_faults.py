"""What a broken conversation comes to: on the program's side, and on the host's."""

from __future__ import annotations

import json
import os
import shutil
import signal
import subprocess
import time
import unittest
from typing import Any

import known
from place import KEYS, PROGRAM, Place
from scenarios import SSO
from servers import Aws

ROLE = {
    "profiles": [["default", [["role_arn", "arn:aws:iam::111122223333:role/r"], ["source_profile", "b"]]],
                 ["b", [["aws_access_key_id", known.ID], ["aws_secret_access_key", known.SECRET]]]],
    "region": "eu-west-1"}
CLOCK = {"clock": [7]}
GRANT = {"replies": {"assume-role": [{"id": "KA", "secret": "SA", "token": "TA", "expires": 2000}]}}
ONLY = "an answer has one item of what was asked, and nothing else"
LONGEST = 1_048_576


class OfTheProgram(unittest.TestCase):
    """Lines that the program is told."""

    def drive(self, *lines: Any) -> tuple[int, list[dict[str, Any]], str]:
        text = b"".join(line if isinstance(line, bytes) else json.dumps(line).encode() + b"\n" for line in lines)
        done = subprocess.run([PROGRAM, "drive"], input=text, capture_output=True, env={}, check=False)
        return done.returncode, [json.loads(line) for line in done.stdout.splitlines()], done.stderr.decode()

    def broken(self, status: int, asked: int, *lines: Any) -> str:
        """The reason why a conversation is broken off, behind so many questions."""
        got, told, errors = self.drive(*lines)
        self.assertEqual((status, asked + 1), (got, len(told)), (told, errors))
        outcome = told[-1]
        self.assertEqual({"outcome", "reason"}, set(outcome))
        self.assertEqual("broken", outcome["outcome"])
        self.assertEqual(f"bujerova: {outcome['reason']}\n", errors)
        # what is asked has the signer's keys, and the outcome has none
        self.assertEqual([], known.secrets_in(json.dumps(outcome) + errors))
        return outcome["reason"]

    def test_a_whole_conversation(self) -> None:
        status, told, errors = self.drive(ROLE, CLOCK, GRANT)
        self.assertEqual((0, ""), (status, errors))
        self.assertEqual(["now", "assume-role"], [line["ask"] for line in told[:-1]])
        self.assertEqual("credentials =KA =AssumeRoleProvider 2000.000000000 now,assume-role", told[-1]["line"])

    def test_a_device_that_failed_is_an_answer(self) -> None:
        status, told, _ = self.drive(ROLE, CLOCK, {"replies": {"assume-role": ["dispatch"]}})
        self.assertEqual((1, "error ProviderError now,assume-role!"), (status, told[-1]["line"]))

    def test_the_input_ends(self) -> None:
        for lines in ([], [ROLE], [ROLE, CLOCK], [ROLE, CLOCK, json.dumps(GRANT).encode()]):
            whole = [line for line in lines if not isinstance(line, bytes)]
            self.assertIn("the input ended", self.broken(4, len(whole), *lines))

    def test_lines_that_are_none(self) -> None:
        self.assertIn("no JSON", self.broken(3, 0, b"\n"))
        self.assertIn("no JSON", self.broken(3, 1, ROLE, b"{]\n"))
        self.assertIn("a script is one JSON object", self.broken(3, 1, ROLE, b"[]\n"))
        wrong = {"replies": {"assume-role": [{"id": "KA", "secret": "SA", "token": "TA", "expires": "soon"}]}}
        self.assertIn("replies.assume-role[0].expires: a moment is whole seconds", self.broken(3, 2, ROLE, CLOCK, wrong))

    def test_answers_of_another_kind_none_or_two(self) -> None:
        for wrong in ({"jitter": [7]}, {}, {"clock": [7, 8]}, {"clock": [7], "jitter": [1]}, {"clock": [7], "region": "x"}):
            self.assertIn(ONLY, self.broken(3, 1, ROLE, wrong))
        self.assertIn(ONLY, self.broken(3, 2, ROLE, CLOCK, {"replies": {"web-identity": [None]}}))

    def test_a_line_that_is_too_long(self) -> None:
        self.assertIn("1048576", self.broken(7, 1, ROLE, b"{" + b" " * LONGEST + b"}\n"))

    def test_the_longest_line(self) -> None:
        text = json.dumps(CLOCK).encode()
        status, told, _ = self.drive(ROLE, text + b" " * (LONGEST - 1 - len(text)) + b"\n", GRANT)
        self.assertEqual((0, "credentials"), (status, told[-1]["outcome"]))

    def test_the_output_is_closed(self) -> None:
        read, write = os.pipe()
        os.close(read)
        done = subprocess.run([PROGRAM, "drive"], input=json.dumps(ROLE).encode() + b"\n", stdout=write, stderr=subprocess.PIPE,
                              env={}, check=False)
        os.close(write)
        self.assertEqual(5, done.returncode)


class OfTheHost(unittest.TestCase):
    """Programs that fail, and a host that is ended."""

    def test_programs_that_fail(self) -> None:
        place = Place(self, None)
        region = "case $1 in region) echo 'region none -'; exit 1;; esac\n"
        granted = '{"outcome":"credentials","id":"I","secret":"S","provider":"P","line":"l"}'
        for text, said in (
                ("read x\nkill -9 $$\n", "the program ended without an outcome, with status -9"),
                ("exit 0\n", "the program ended without an outcome, with status 0"),
                ("read x\necho hello\n", "the program wrote a line that is no JSON"),
                ("read x\necho '[1]'\n", "the program wrote a line that is no object"),
                ("read x\necho '{}'\nread y\n", "the program asked a question of a kind that is unknown here: None"),
                ("read x\necho '{\"ask\":\"fly\"}'\nread y\n", "the program asked a question of a kind that is unknown here: 'fly'"),
                ("read x\nprintf '{\"ask\":'\n", "the program ended without an outcome, with status 0"),
                ("read x\necho '{\"outcome\":\"broken\",\"reason\":\"line 1: r\"}'\nexit 3\n", "the program broke the conversation off: line 1: r"),
                (f"read x\necho '{granted}'\nexit 3\n", "the program's outcome is not one of status 3"),
                (f"read x\necho '{granted}'\nkill -9 $$\n", "the program's outcome is not one of status -9"),
                ("read x\necho '{\"outcome\":\"credentials\",\"id\":\"I\"}'\n", "the program's outcome is not one of status 0"),
                ("read x\necho '{\"outcome\":\"other\"}'\n", "the program's outcome is not one of status 0")):
            place.program(region + text)
            self.assertEqual(f"bujerova-host: {said}\n", place.complaint(3, "credentials"))

    def test_no_command_does_anything_without_an_outcome(self) -> None:
        place = Place(self, None)
        place.program("case $1 in region) echo 'region none -'; exit 1;; esac\nexit 0\n")
        script, made = os.path.join(place.home, "script"), os.path.join(place.home, "made")
        for command in (["why"], ["env"], ["exec", "--", "touch", made], ["record", script]):
            self.assertIn("the program ended without an outcome", place.complaint(3, *command))
        self.assertEqual([False, False], [os.path.exists(path) for path in (script, made)])

    def test_a_program_that_tells_no_region(self) -> None:
        place = Place(self, None)
        for text, status in (("exit 2\n", 2), ("echo region\n", 0), ("kill -9 $$\n", -9)):
            place.program(text)
            self.assertEqual(f"bujerova-host: the program told no region, with status {status}\n", place.complaint(3, "credentials"))

    def test_a_program_that_is_not_there(self) -> None:
        place = Place(self, None)
        said = place.complaint(3, "credentials", BUJEROVA_PROGRAM="/nowhere/bujerova")
        self.assertEqual("bujerova-host: the program /nowhere/bujerova does not start: No such file or directory\n", said)

    def test_no_program_is_looked_for(self) -> None:
        place = Place(self, None)
        place.write("bin/bujerova", "#!/bin/sh\necho found\n", 0o700)
        searched = f"{place.home}/bin:{place.environment['PATH']}"
        self.assertIn("names no absolute path", place.complaint(3, "credentials", BUJEROVA_PROGRAM="bujerova", PATH=searched))
        del place.environment["BUJEROVA_PROGRAM"]
        self.assertIn("bujerova_host/bujerova does not start", place.complaint(3, "credentials", PATH=searched))

    def test_unforeseen_errors_tell_no_text(self) -> None:
        place = Place(self, None)
        place.program(f"read x\ncase $1 in region) echo 'region none -'; exit 1;; esac\n"
                      f"echo '{{\"ask\":\"read\",\"{known.SECRET}\":1}}'\nread y\n")
        self.assertRegex(place.complaint(3, "credentials"), r"^bujerova-host: KeyError, at \w+\.py:\d+\n$")

    def test_an_output_that_fails(self) -> None:
        place = Place(self, None, "[default]\n" + KEYS)
        read, gone = os.pipe()
        os.close(read)
        full = os.open("/dev/full", os.O_WRONLY)
        for output, error in ((gone, "BrokenPipeError"), (full, "OSError")):
            words = [place.host, "credentials"]
            done = subprocess.run(words, env=place.environment, stdout=output, stderr=subprocess.PIPE, text=True, check=False)
            os.close(output)
            self.assertEqual(3, done.returncode)
            self.assertRegex(done.stderr, rf"^bujerova-host: {error}, at cli\.py:\d+\n$")

    def test_a_host_that_is_killed_ends_the_program(self) -> None:
        place = Place(self, None, "[default]\ncredential_process = sleep 3\n")
        host = subprocess.Popen([place.host, "credentials"], env=place.environment, stdout=subprocess.PIPE, stderr=subprocess.PIPE)
        programs = until(lambda: [one for one in children(host.pid) if "drive" in command_line(one)])
        until(lambda: [one for one in children(host.pid) if "sleep" in command_line(one)])
        host.kill()
        out, errors = host.communicate(timeout=60)
        self.assertEqual((b"", b""), (out, errors))
        self.assertTrue(until(lambda: not any(is_alive(one) for one in programs)))

    def test_an_interrupt_ends_the_host(self) -> None:
        place = Place(self, None, "[default]\ncredential_process = sleep 3\n")
        host = subprocess.Popen([place.host, "credentials"], env=place.environment, stdout=subprocess.PIPE, stderr=subprocess.PIPE)
        until(lambda: [one for one in children(host.pid) if "sleep" in command_line(one)])
        host.send_signal(signal.SIGINT)
        out, errors = host.communicate(timeout=60)
        self.assertEqual((130, b"", b""), (host.returncode, out, errors))

    def test_signals_wait_for_a_renewed_token(self) -> None:
        with Aws() as aws:
            place = Place(self, aws)
            path = os.path.join(place.home, "token")
            asked = {"ask": "create-token", "client_id": "client", "client_secret": known.SSO_CLIENT_SECRET,
                     "refresh_token": known.SSO_REFRESH, "settings": {"region": "eu-west-1", "max_attempts": 1, "timeouts": {}}}
            write = {"ask": "write", "path": path, "content": "renewed"}
            place.program(
                f"case $1 in region) echo 'region none -'; exit 1;; esac\nread x\necho '{json.dumps(asked)}'\nread y\n"
                f"touch {place.home}/granted\nsleep 1\necho '{json.dumps(write)}'\nread z\nread z\n")
            for ending, status in ((signal.SIGTERM, -signal.SIGTERM), (signal.SIGINT, 130)):
                host = subprocess.Popen([place.host, "credentials"], env=place.environment, stdout=subprocess.PIPE,
                                        stderr=subprocess.PIPE, start_new_session=True)
                until(lambda: os.path.exists(place.home + "/granted"))
                os.killpg(host.pid, ending)     # as a terminal does
                out, errors = host.communicate(timeout=60)
                self.assertEqual((status, b"", b""), (host.returncode, out, errors))
                with open(path, encoding="utf-8") as file:
                    self.assertEqual("renewed", file.read())
                os.unlink(path)
                os.unlink(place.home + "/granted")

    def test_a_file_that_is_too_long(self) -> None:
        place = Place(self, None, "[default]\nregion=x\n", AWS_WEB_IDENTITY_TOKEN_FILE="HOME/token", AWS_ROLE_ARN="arn:aws:iam::111122223333:role/r")
        place.write("token", "x" * LONGEST)     # the line has more than the file
        self.assertIn("(read: too long to be told)", place.complaint(1, "credentials"))

    def test_a_token_file_that_is_not_written(self) -> None:
        with Aws() as aws:
            place = Place(self, aws, SSO)
            folder = os.path.dirname(place.sso_token(lasts=-10))
            aws.before_a_token = lambda: shutil.rmtree(folder)
            said = place.complaint(1, "credentials", "--profile", "inner")
            self.assertIn("(write: No such file or directory)", said)


def until(holds: Any) -> Any:
    """What this gives, once it gives something; or what it gives after ten seconds."""
    for _ in range(200):
        if found := holds():
            return found
        time.sleep(0.05)
    return holds()


def children(pid: int) -> list[int]:
    """The processes that a process has started."""
    with open(f"/proc/{pid}/task/{pid}/children", encoding="ascii") as file:
        return [int(word) for word in file.read().split()]


def command_line(pid: int) -> str:
    """The words of a process."""
    try:
        with open(f"/proc/{pid}/cmdline", encoding="utf-8") as file:
            return file.read()
    except OSError:
        return ""


def is_alive(pid: int) -> bool:
    """Whether a process runs."""
    try:
        with open(f"/proc/{pid}/stat", encoding="ascii") as file:
            return file.read().rpartition(")")[2].split()[0] != "Z"
    except OSError:
        return False
