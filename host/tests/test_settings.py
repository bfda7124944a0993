"""How requests to AWS's services are sent: what environment and profile say, the first line, and the requests."""

from __future__ import annotations

import json
import os
import subprocess
import unittest
from typing import Any
from unittest import mock

import known
from bujerova_host.configuration import configuration
from bujerova_host.conversation import converse
from bujerova_host.services import Services
from bujerova_host.world import World
from place import KEYS, PROGRAM, Place
from scenarios import SSO
from servers import Aws, Proxy

ROLE = ("[profile inner]\nregion = eu-west-1\nrole_arn = arn:aws:iam::111122223333:role/x\nrole_session_name = me\n"
        f"source_profile = base\n{{}}[profile base]\nmax_attempts = 9\nuse_fips_endpoint = true\n{KEYS}")
# a program that keeps the first line, and gives no credentials
KEEPS = """case $1 in region) echo 'region none -'; exit 1;; esac
read -r first
printf '%s' "$first" >{}
echo '{{"outcome":"error","class":"C","text":"t","line":"l"}}'
exit 1
"""
FIPS, DUAL_STACK, ATTEMPTS = "AWS_USE_FIPS_ENDPOINT", "AWS_USE_DUALSTACK_ENDPOINT", "AWS_MAX_ATTEMPTS"
# variables, the settings of the profile, and the member `service` of the first line, which is left out where it is none
ROWS: list[tuple[dict[str, str], str, dict[str, Any] | None]] = [
    ({}, "", None),
    ({FIPS: "true"}, "", {"use_fips": True}),
    ({FIPS: "FALSE"}, "", {"use_fips": False}),
    ({}, "use_fips_endpoint = True\n", {"use_fips": True}),
    ({FIPS: "false"}, "use_fips_endpoint = true\n", {"use_fips": False}),
    ({FIPS: "yes"}, "use_fips_endpoint = true\n", None),
    ({FIPS: ""}, "use_fips_endpoint = true\n", None),
    ({FIPS: " true"}, "", None),
    ({}, "use_fips_endpoint = 1\n", None),
    ({}, "use_fips_endpoint =\n", None),
    ({DUAL_STACK: "true"}, "", {"use_dual_stack": True}),
    ({}, "use_dualstack_endpoint = false\n", {"use_dual_stack": False}),
    ({DUAL_STACK: "true"}, "use_dualstack_endpoint = false\n", {"use_dual_stack": True}),
    ({DUAL_STACK: "on"}, "use_dualstack_endpoint = true\n", None),
    ({ATTEMPTS: "1"}, "", {"max_attempts": 1}),
    ({ATTEMPTS: "+5"}, "", {"max_attempts": 5}),
    ({ATTEMPTS: "00000000007"}, "", {"max_attempts": 7}),
    ({ATTEMPTS: "4294967295"}, "", {"max_attempts": 4294967295}),
    ({}, "max_attempts = 2\n", {"max_attempts": 2}),
    ({ATTEMPTS: "6"}, "max_attempts = none\n", {"max_attempts": 6}),
    ({FIPS: "true", ATTEMPTS: "6"}, "use_dualstack_endpoint = true\nmax_attempts = 2\n",
     {"use_fips": True, "use_dual_stack": True, "max_attempts": 6}),
]
NO_ATTEMPTS = ("0", "00", "", "x", "-1", "4294967296", "1.5", " 3", "3 ", "1_0", "0x3", "\u0663", "9" * 5000)
REFUSED = "bujerova-host: {} is no whole number from 1 to 4294967295: unset it, or set it to such a number\n"


class FirstLine(unittest.TestCase):
    """What environment and profile say."""

    def service(self, place: Place, *words: str, **variables: str) -> Any:
        """The member of the first line; none where it is left out."""
        kept = os.path.join(place.home, "first")
        place.program(KEEPS.format(kept))
        done = place.run("credentials", *words, **variables)
        self.assertEqual((1, "bujerova-host: t\n"), (done.returncode, done.stderr))
        with open(kept, encoding="ascii") as file:
            return json.load(file).get("service")

    def test_the_first_line(self) -> None:
        for variables, profile, service in ROWS:
            with self.subTest(variables=variables, profile=profile):
                place = Place(self, None, ROLE.format(profile))
                self.assertEqual(service, self.service(place, "--profile", "inner", **variables))

    def test_the_selected_profile_counts(self) -> None:
        config = "[default]\nmax_attempts = 2\n[profile inner]\nmax_attempts = 4\nsource_profile = default\n[profile empty]\n"
        place = Place(self, None, config, "[inner]\nuse_fips_endpoint = true\n")
        inner = {"use_fips": True, "max_attempts": 4}
        self.assertEqual({"max_attempts": 2}, self.service(place))
        self.assertEqual(inner, self.service(place, AWS_PROFILE="inner"))
        self.assertEqual(inner, self.service(place, "--profile", "inner", AWS_PROFILE="empty"))
        self.assertIsNone(self.service(place, "--profile", "empty"))

    def test_where_the_files_are_refused_the_environment_counts(self) -> None:
        place = Place(self, None, "[default]\nmax_attempts = 0\nnonsense\n")
        self.assertIsNone(self.service(place))
        self.assertEqual({"max_attempts": 4}, self.service(place, AWS_MAX_ATTEMPTS="4"))

    def test_a_variable_that_is_not_unicode_is_as_none(self) -> None:
        place = Place(self, None, "[default]\nuse_fips_endpoint = true\nmax_attempts = 4\n")
        place.program(KEEPS.format(place.home + "/first"))
        not_unicode = {name.encode(): b"\xff" for name in (FIPS, DUAL_STACK, ATTEMPTS)}
        environment = {**{name.encode(): value.encode() for name, value in place.environment.items()}, **not_unicode}
        subprocess.run([place.host, "credentials"], env=environment, capture_output=True, check=False)
        with open(place.home + "/first", encoding="ascii") as file:
            self.assertEqual({"use_fips": True, "max_attempts": 4}, json.load(file)["service"])

    def test_attempts_that_are_no_number(self) -> None:
        place = Place(self, None, "[default]\n" + KEYS)
        for text in NO_ATTEMPTS:
            with self.subTest(text[:20]):
                self.assertEqual(REFUSED.format(ATTEMPTS), place.complaint(1, "credentials", AWS_MAX_ATTEMPTS=text))
        place.write(".aws/config", f"[default]\nmax_attempts =\n{KEYS}")
        for words in (["why"], ["env"], ["exec", "true"], ["record", place.home + "/r"]):
            self.assertEqual(REFUSED.format("max_attempts of profile default"), place.complaint(1, *words))

    def test_why_tells_them(self) -> None:
        place = Place(self, None, f"[default]\nregion = eu-west-1\nuse_dualstack_endpoint = on\nmax_attempts = 4\n{KEYS}")
        told = place.run("why", AWS_USE_FIPS_ENDPOINT="TRUE").stdout
        self.assertIn("\nregion eu-west-1\nuse_fips true, by AWS_USE_FIPS_ENDPOINT\n"
                      "use_dual_stack not set, since use_dualstack_endpoint of profile default is neither true nor false\n"
                      "max_attempts 4, by max_attempts of profile default\nnothing was asked\n", told)


class Requests(unittest.TestCase):
    """Whole conversations."""

    def test_a_question_has_the_settings_and_its_client_too(self) -> None:
        configs, real = [], Services._client

        def client(services: Services, service: str, question: dict[str, Any]) -> Any:
            made = real(services, service, question)
            configs.append(made.meta.config)
            return made

        config = ROLE.format("use_dualstack_endpoint = true\nmax_attempts = 4\n")
        with Aws() as aws:
            place = Place(self, aws, config, AWS_USE_FIPS_ENDPOINT="true")
            with mock.patch.dict(os.environ, place.environment, clear=True), mock.patch.object(Services, "_client", client):
                talk = converse(PROGRAM, World(), configuration(PROGRAM, "inner").first)
        asked, = (one.question for one in talk.exchanges)
        wanted = {"region": "eu-west-1", "use_fips": True, "use_dual_stack": True, "max_attempts": 4, "timeouts": {}}
        self.assertEqual(wanted, asked["settings"])
        self.assertTrue(talk.gave)
        sent, = configs
        self.assertEqual((True, True, 4), (sent.use_fips_endpoint, sent.use_dualstack_endpoint, sent.retries["total_max_attempts"]))

    def test_whom_a_request_goes_to_and_how_often(self) -> None:
        role = ROLE.format("use_fips_endpoint = true\nmax_attempts = 2\n")
        session = SSO + "use_fips_endpoint = true\nmax_attempts = 1\n"
        for config, variables, wanted in (
                (ROLE.format(""), {}, ["sts.eu-west-1.amazonaws.com:443"] * 3),
                (role, {}, ["sts-fips.eu-west-1.amazonaws.com:443"] * 2),
                (role, {DUAL_STACK: "true", ATTEMPTS: "1"}, ["sts-fips.eu-west-1.api.aws:443"]),
                (role, {FIPS: "false", ATTEMPTS: "1"}, ["sts.eu-west-1.amazonaws.com:443"]),
                (session, {}, ["portal.sso-fips.eu-west-1.amazonaws.com:443"])):
            with self.subTest(variables=variables, wanted=wanted), Proxy() as proxy:
                place = Place(self, None, config, HTTPS_PROXY=proxy.url, **variables)
                place.sso_token()
                self.assertIn("ProxyConnectionError", place.complaint(1, "credentials", "--profile", "inner"))
                self.assertEqual(wanted, proxy.wanted)

    def test_a_record_has_the_settings_of_the_first_line(self) -> None:
        config = ROLE.format("use_fips_endpoint = true\nmax_attempts = 4\n")
        for words in ((), ("--redact",)):
            with Aws() as aws:
                place = Place(self, aws, config, AWS_USE_DUALSTACK_ENDPOINT="false")
                path = os.path.join(place.home, "call.json")
                done = place.run("record", "--profile", "inner", *words, path)
                self.assertEqual((0, ""), (done.returncode, done.stderr))
            with open(path, "rb") as file:
                script = file.read()
            self.assertEqual({"use_fips": True, "use_dual_stack": False, "max_attempts": 4}, json.loads(script)["service"])
            again = subprocess.run([PROGRAM, "resolve"], input=script, env={}, capture_output=True, check=False)
            self.assertEqual((0, done.stdout.encode()), (again.returncode, again.stdout))
            self.assertEqual([], known.secrets_in(script) if words else [])
