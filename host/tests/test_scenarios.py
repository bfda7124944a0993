"""Each kind of answer: the credentials, what `why` tells, and a record that replays, with and without secrets."""

from __future__ import annotations

import json
import os
import subprocess
import unittest

import known
from place import PROGRAM, Place
from scenarios import SCENARIOS, Scenario, has_sign_in, placed
from servers import Aws

SIGN_IN = "what sign-in sessions need is not installed: botocore 1.41 and cryptography"


class Scenarios(unittest.TestCase):
    """One test for each scenario."""

    def scenario(self, name: str) -> None:
        """All commands over one configuration, each from the same start."""
        scenario = SCENARIOS[name]
        if "sign-in" in scenario.kinds and not has_sign_in():
            self.skipTest(SIGN_IN)
        with Aws() as aws:
            (self.gives if scenario.provider else self.fails)(aws, name, scenario)
            self.is_told(placed(self, aws, name), scenario)
            for words in ((), ("--redact",)):
                self.is_recorded(placed(self, aws, name), scenario, *words)

    def gives(self, aws: Aws, name: str, scenario: Scenario) -> None:
        document = placed(self, aws, name).credentials("--profile", "inner")
        self.assertEqual(1, document.pop("Version"))
        self.assertEqual(scenario.owner, aws.owners[document["AccessKeyId"]])
        secret, token = aws.secrets[document["AccessKeyId"]]
        self.assertEqual((secret, token), (document["SecretAccessKey"], document.get("SessionToken")))
        self.assertEqual(token is not None, "Expiration" in document)

    def fails(self, aws: Aws, name: str, scenario: Scenario) -> None:
        self.assertIn(scenario.error, placed(self, aws, name).complaint(1, "credentials", "--profile", "inner"))

    def is_told(self, place: Place, scenario: Scenario) -> None:
        done = place.run("why", "--profile", "inner")
        self.assertEqual((0 if scenario.provider else 1, ""), (done.returncode, done.stderr))
        first, rest = done.stdout.split("\n", 1)
        self.assertIn(f" by {scenario.provider}, " if scenario.provider else "no credentials: ", first)
        asked = rest.partition("asked:\n")[2].split("\n  ") if scenario.kinds != "-" else []
        for kind in scenario.kinds.rstrip("!").split(","):
            self.assertTrue(kind == "-" or any(line.strip().startswith(kind) for line in asked), (kind, rest))
        self.assertEqual(scenario.kinds == "-", "nothing was asked" in rest)

    def is_recorded(self, place: Place, scenario: Scenario, *words: str) -> None:
        path = os.path.join(place.home, "call.json")
        done = place.run("record", "--profile", "inner", *words, path)
        self.assertEqual((0, ""), (done.returncode, done.stderr))
        self.assertEqual(scenario.kinds, done.stdout.split()[-1])
        with open(path, "rb") as file:
            script = file.read()
        again = subprocess.run([PROGRAM, "resolve"], input=script, env={}, capture_output=True, check=False)
        self.assertEqual(done.stdout, again.stdout.decode())
        self.assertEqual(0o600, place.mode(path))
        if words:
            self.assertEqual([], known.secrets_in(script))
            self.assertNotIn("external-0001", script.decode())
        self.assertNotIn("outer", [name for name, _ in json.loads(script)["profiles"]])


def _add(name: str) -> None:
    def test(self: Scenarios) -> None:
        self.scenario(name)

    test.__doc__ = name
    setattr(Scenarios, "test_" + "".join(sign if sign.isalnum() else "_" for sign in name), test)


for _name in SCENARIOS:
    _add(_name)
