"""Where this differs from botocore: each row of docs/HOST.md is a configuration that both resolve here."""

from __future__ import annotations

import json
import os
import sys
import unittest
from typing import Callable, NamedTuple
from unittest import mock

import botocore.session
import known
from place import KEYS, LOGIN, REPOSITORY, Place
from scenarios import CONTAINER, has_sign_in
from servers import Aws, Handler
from test_clients import AWS, knows_endpoint_variables
from test_services import set_to

BOTOCORE = """
import botocore.session, sys
credentials = botocore.session.Session(profile=sys.argv[1] or None).get_credentials()
keys = credentials.get_frozen_credentials() if credentials else None
print(f'{keys.access_key} by {credentials.method}' if keys else 'none')
"""
WITHOUT_SLEEP = "import time; time.sleep = lambda seconds: None\n"
ROLE = "role_arn = arn:aws:iam::111122223333:role/x\nsource_profile = base\n"
BASE = f"[profile base]\n{KEYS}"


def keys(name: str) -> str:
    """The lines of static keys with this id."""
    return f"aws_access_key_id = {name}\naws_secret_access_key = {known.SECRET}\n"


def process(id: str, **more: str) -> str:
    """The line of a process that prints keys with this id."""
    printed = json.dumps({"Version": 1, "AccessKeyId": id, "SecretAccessKey": known.PROCESS_KEYS[1], **more})
    return f"credential_process = printf '{printed}'\n"


def refuse_for_now(request: Handler, _: bytes) -> None:
    """The reply of a service that fails."""
    request.fault(500, "InternalFailure", "not now")


class Row(NamedTuple):
    """A configuration, and what both come to: of the host the first line of `why`, or what it refuses with."""

    config: str
    ours: str
    theirs: str
    credentials: str = ""
    variables: dict[str, str] = {}
    profile: str = "inner"
    prepare: Callable[[Place], object] = lambda place: None


WEB = {"AWS_ROLE_ARN": "arn:aws:iam::111122223333:role/web", "AWS_WEB_IDENTITY_TOKEN_FILE": "HOME/token",
       "AWS_ROLE_SESSION_NAME": "me", "AWS_REGION": "eu-west-1"}
ENVIRONMENT = {"AWS_ACCESS_KEY_ID": known.ENVIRONMENT_ID, "AWS_SECRET_ACCESS_KEY": known.ENVIRONMENT_SECRET}

ROWS = {
    "keys in the credentials file beside `credential_process`": Row(
        "[profile inner]\n" + process("ASIAPROC"), "credentials ASIAPROC by CredentialProcess", "AKIAKEYS by shared-credentials-file",
        "[inner]\n" + keys("AKIAKEYS")),
    "keys in `default`, a web identity in the environment, as on EKS": Row(
        "[default]\n" + keys("AKIAKEYS"), "credentials AKIAKEYS by ProfileFile", "ASIAROLE000000000001 by assume-role-with-web-identity",
        "", WEB, "", lambda place: place.write("token", known.WEB_IDENTITY)),
    "`AWS_ACCESS_KEY_ID` without a secret": Row(
        "[default]\n" + keys("AKIAKEYS"), "credentials AKIAKEYS by ProfileFile", "PartialCredentialsError",
        "", {"AWS_ACCESS_KEY_ID": "AKIAALONE"}, ""),
    "`--profile` beside keys of the environment": Row(
        "[profile inner]\n" + keys("AKIAKEYS"), f"credentials {known.ENVIRONMENT_ID} by EnvironmentVariable", "AKIAKEYS by config-file",
        "", ENVIRONMENT),
    "`AWS_PROFILE` names a profile that is in no file": Row(
        "[profile other]\n" + keys("AKIAKEYS"), f"credentials {known.CONTAINER_KEYS[0]} by EcsContainer", "ProfileNotFound",
        "", {"AWS_PROFILE": "inner", **CONTAINER}, ""),
    "`mfa_serial`": Row(
        f"[profile inner]\nregion = eu-west-1\nmfa_serial = arn:aws:iam::111122223333:mfa/me\n{ROLE}{BASE}",
        "credentials ASIAROLE000000000001 by AssumeRoleProvider", "Enter MFA code"),
    "a variable in `credential_process`": Row(
        "[profile inner]\ncredential_process = printf '{\"Version\":1,\"AccessKeyId\":\"%s\",\"SecretAccessKey\":\"s\"}' $WHO\n",
        "credentials ASIAWHO by CredentialProcess", "$WHO by custom-process", "", {"WHO": "ASIAWHO"}),
    "a process that prints keys that have expired": Row(
        "[profile inner]\n" + process("ASIAPROC", SessionToken="t", Expiration="2020-01-01T00:00:00Z"),
        "credentials ASIAPROC by CredentialProcess, until 2020-01-01T00:00:00Z", "the refreshed credentials are still expired"),
    "a role in no region": Row(
        f"[profile inner]\n{ROLE}{BASE}", "no credentials: ProviderError", "NoRegionError"),
    "a sign-in session": Row(
        f"[profile inner]\nregion = eu-west-1\nlogin_session = {LOGIN}\n",
        f"credentials {known.LOGIN_KEYS[0]} by Login", "MissingDependencyException", prepare=lambda place: place.login_token()),
    "a comment behind a value": Row(
        "[profile inner]\n" + keys("AKIAKEYS # mine"), "credentials AKIAKEYS by ProfileFile", "AKIAKEYS # mine by config-file"),
    "a section that stands twice": Row(
        f"[profile inner]\n{keys('AKIAONE')}[profile inner]\naws_access_key_id = AKIATWO\n",
        "credentials AKIATWO by ProfileFile", "ConfigParseError"),
    "a setting that stands twice": Row(
        f"[profile inner]\n{keys('AKIAONE')}aws_access_key_id = AKIATWO\n", "credentials AKIATWO by ProfileFile", "ConfigParseError"),
    "`[profile default]` and `[default]` behind it": Row(
        f"[profile default]\n{keys('AKIAONE')}[default]\n{keys('AKIATWO')}",
        "credentials AKIAONE by ProfileFile", "AKIATWO by config-file", profile=""),
    "`[profile NAME]` in the credentials file": Row(
        "", "no profile is named profile inner", "AKIAKEYS by shared-credentials-file",
        "[profile inner]\n" + keys("AKIAKEYS"), {}, "profile inner"),
    "`max_attempts = 0` beside keys": Row(
        f"[profile inner]\nmax_attempts = 0\n{keys('AKIAKEYS')}", "max_attempts of profile inner is no whole number from 1 to 4294967295",
        "AKIAKEYS by config-file"),
    "a name with a blank, in quotation marks": Row(
        "[profile \"a b\"]\n" + keys("AKIAKEYS"), "no profile is named a b", "AKIAKEYS by config-file", profile="a b"),
}
# of these a row of the page tells what another test shows
ELSEWHERE = ("the name of a role's session, where none is set", "a role's credentials at the next call",
             "attempts at a request, where none are set", "the limit of time to connect to a service")
# the rows that need what is not everywhere
NEED_SIGN_IN = ("a sign-in session",)
NEED_ENDPOINT = ("keys in `default`, a web identity in the environment, as on EKS", "a role in no region")


class Differences(unittest.TestCase):
    """Both over the same configuration."""

    def row(self, name: str) -> None:
        row = ROWS[name]
        if name in NEED_SIGN_IN and not has_sign_in() or name in NEED_ENDPOINT and not knows_endpoint_variables():
            self.skipTest("this botocore is too old for it")
        with Aws() as aws:
            variables = {key: value.replace("AWS:", aws.url) for key, value in row.variables.items()}
            place = Place(self, aws, row.config, row.credentials, **variables)
            row.prepare(place)
            done = place.run("why", *(["--profile", row.profile] if row.profile else []))
            self.assertIn(row.ours, (done.stdout + done.stderr).split("\n", 1)[0])
            row.prepare(place)
            done = place.other(sys.executable, "-c", BOTOCORE, row.profile)
            self.assertIn(row.theirs, done.stdout + done.stderr)

    def test_the_page_has_these_rows(self) -> None:
        with open(os.path.join(REPOSITORY, "docs", "HOST.md"), encoding="utf-8") as file:
            table = file.read().partition("\n## Where botocore differs\n")[2].partition("\n## ")[0]
        told = [line.split(" | ")[0].removeprefix("| ") for line in table.split("\n") if line.startswith("| ")][1:]
        self.assertEqual(sorted([*ROWS, *ELSEWHERE]), sorted(told))

    def test_names_of_sessions(self) -> None:
        for word, pattern in (("host", r"^assume-role-from-profile-\d{13}$"), ("botocore", r"^botocore-session-\d{10}$")):
            with Aws() as aws:
                place = Place(self, aws, f"[profile inner]\nregion = eu-west-1\n{ROLE}{BASE}")
                if word == "host":
                    place.credentials("--profile", "inner")
                elif knows_endpoint_variables():
                    place.other(sys.executable, "-c", BOTOCORE, "inner")
                for asked in aws.parameters:
                    self.assertRegex(asked["RoleSessionName"], pattern)

    @unittest.skipUnless(knows_endpoint_variables(), "this botocore is too old for it")
    def test_attempts_at_a_request(self) -> None:
        for attempts, words in ((3, None), (5, (sys.executable, "-c", WITHOUT_SLEEP + BOTOCORE, "inner"))):
            with Aws() as aws, mock.patch.object(Handler, "security_token_service", refuse_for_now):
                place = Place(self, aws, f"[profile inner]\nregion = eu-west-1\n{ROLE}{BASE}")
                done = place.other(*words) if words else place.run("why", "--profile", "inner")
                self.assertNotEqual(0, done.returncode)
                self.assertEqual(["POST /"] * attempts, aws.requests)

    def test_the_limit_of_time_to_connect(self) -> None:
        theirs = botocore.session.Session().create_client("sts", region_name="eu-west-1").meta.config
        self.assertEqual((3.1, 60), (set_to({"region": "eu-west-1", "max_attempts": 3, "timeouts": {}})[3], theirs.connect_timeout))

    @unittest.skipUnless(AWS and knows_endpoint_variables(), "there is no AWS CLI whose botocore is 1.31 or later")
    def test_roles_are_asked_for_at_each_call(self) -> None:
        with Aws() as aws:
            place = Place(self, aws, f"[profile inner]\nregion = eu-west-1\n{ROLE}{BASE}")
            for _ in range(2):
                place.credentials("--profile", "inner")
            self.assertEqual(2, len(aws.parameters))
            for _ in range(2):
                place.other(AWS, "sts", "get-caller-identity", "--profile", "inner")
            self.assertEqual(["AssumeRole"] * 3 + ["GetCallerIdentity"] * 2, sorted(asked["Action"] for asked in aws.parameters))

    def test_what_is_the_same(self) -> None:
        """Configurations to which both give the same keys."""
        both = {
            "different keys in both files": (f"[profile inner]\n{keys('AKIACONFIG')}", f"[inner]\n{keys('AKIACREDENTIALS')}", "AKIACREDENTIALS"),
            "names of settings in capitals": ("[profile inner]\n" + keys("AKIAKEYS").upper().replace("AKIAKEYS", "AKIAKEYS"), "", "AKIAKEYS"),
            "keys beside a process": (f"[profile inner]\n{process('ASIAPROC')}{keys('AKIAKEYS')}", "", "ASIAPROC")}
        for name, (config, credentials, id) in both.items():
            with self.subTest(name):
                place = Place(self, None, config, credentials)
                self.assertEqual(id, place.credentials("--profile", "inner")["AccessKeyId"])
                self.assertTrue(place.other(sys.executable, "-c", BOTOCORE, "inner").stdout.startswith(id + " by "))


def _add(number: int, name: str) -> None:
    def test(self: Differences) -> None:
        self.row(name)

    test.__doc__ = name
    setattr(Differences, f"test_row_{number:02d}", test)


for _number, _name in enumerate(ROWS, 1):
    _add(_number, _name)
