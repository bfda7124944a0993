"""Real clients over the host, by `credential_process`: the AWS CLI where it is there, boto3 and botocore; the servers
of the tests test each signature, and moto answers where it is there."""

from __future__ import annotations

import importlib.util
import os
import shutil
import sys
import unittest

import known
from place import KEYS, Place
from scenarios import OUTER, SCENARIOS, has_sign_in, placed
from servers import Aws

AWS = shutil.which("aws", path=os.path.dirname(sys.executable)) or shutil.which("aws")
HAS_MOTO = all(importlib.util.find_spec(name) for name in ("moto", "flask"))
GIVE = [name for name, scenario in SCENARIOS.items() if scenario.provider]
# what each client says that it is, by the STS of the tests
BOTOCORE = """
import botocore.session, os
session = botocore.session.Session(profile='outer')
client = session.create_client('sts', endpoint_url=os.environ['AWS_ENDPOINT_URL'])
print(client.get_caller_identity()['Arn'])
"""
BOTO3 = "import boto3; print(boto3.Session(profile_name='outer').client('sts').get_caller_identity()['Arn'])"
RENEWED = """
import botocore.session, datetime, botocore.credentials
credentials = botocore.session.Session(profile='outer').get_credentials()
first = credentials.get_frozen_credentials()
credentials._expiry_time = datetime.datetime.now(datetime.timezone.utc)
print(first.access_key, credentials.get_frozen_credentials().access_key)
"""


def knows_endpoint_variables() -> bool:
    """Whether botocore reads AWS_ENDPOINT_URL, as 1.31 and later do."""
    import botocore

    return tuple(int(part) for part in botocore.__version__.split(".")[:2]) >= (1, 31)


class Clients(unittest.TestCase):
    """Clients that know nothing of the host but its line in a profile."""

    def identity(self, name: str, *words: str) -> None:
        """The client of these words is whom the scenario's keys belong to."""
        scenario = SCENARIOS[name]
        if "sign-in" in scenario.kinds and not has_sign_in():
            self.skipTest("what sign-in sessions need is not installed")
        with Aws() as aws:
            done = placed(self, aws, name).other(*words)
            self.assertEqual((0, ""), (done.returncode, done.stderr))
            self.assertTrue(done.stdout.strip().endswith(":" + scenario.owner), done.stdout)
            self.assertEqual([], known.secrets_in(done.stdout))

    def by_cli(self, name: str) -> None:
        if not AWS or not knows_endpoint_variables():
            self.skipTest("there is no AWS CLI whose botocore is 1.31 or later")
        self.identity(name, AWS, "sts", "get-caller-identity", "--profile", "outer", "--query", "Arn", "--output", "text")

    def test_botocore(self) -> None:
        for name in ("static keys", "a container"):
            self.identity(name, sys.executable, "-c", BOTOCORE)

    def test_boto3(self) -> None:
        if not importlib.util.find_spec("boto3") or not knows_endpoint_variables():
            self.skipTest("there is no boto3 whose botocore is 1.31 or later")
        for name in ("a role over a role over keys", "keys of the environment"):
            self.identity(name, sys.executable, "-c", BOTO3)

    def test_a_client_renews_what_has_expired(self) -> None:
        with Aws() as aws:
            place = placed(self, aws, "a role over a role over keys")
            done = place.other(sys.executable, "-c", RENEWED)
            first, second = done.stdout.split()
            self.assertNotEqual(first, second)
            self.assertEqual({"assumed-role/top/me"}, {aws.owners[first], aws.owners[second]})

    def test_exec_gives_a_client_its_credentials(self) -> None:
        with Aws() as aws:
            script = BOTOCORE.replace("profile='outer'", "")
            done = placed(self, aws, "a web identity").run("exec", "--profile", "inner", "--", sys.executable, "-c", script)
            self.assertEqual((0, "arn:aws:sts::111122223333:assumed-role/web/me"), (done.returncode, done.stdout.strip()), done.stderr)

    def test_an_error_is_told_by_the_client(self) -> None:
        with Aws() as aws:
            done = placed(self, aws, "a session that is over").other(sys.executable, "-c", BOTOCORE)
            self.assertNotEqual(0, done.returncode)
            self.assertIn("bujerova-host: sign in: aws sso login --sso-session corp", done.stderr)

    @unittest.skipUnless(HAS_MOTO and knows_endpoint_variables(), "moto with its server is not installed")
    def test_moto(self) -> None:
        from moto.server import ThreadedMotoServer

        server = ThreadedMotoServer("127.0.0.1", 0, verbose=False)
        server.start()
        self.addCleanup(server.stop)
        host, port = server.get_host_and_port()
        roles = SCENARIOS["a role over a role over keys"].config
        place = Place(self, None, roles + OUTER, AWS_ENDPOINT_URL=f"http://{host}:{port}")
        document = place.credentials("--profile", "inner")
        known.add_secret(document["SecretAccessKey"], document["SessionToken"])
        self.assertEqual("444455556666", document["AccountId"])
        done = place.other(sys.executable, "-c", BOTOCORE)
        self.assertEqual("arn:aws:sts::444455556666:assumed-role/top/me", done.stdout.strip(), done.stderr)
        place.write(".aws/config", f"[profile inner]\nregion = eu-west-1\n{KEYS}" + OUTER.replace("HOST", place.host))
        done = place.other(sys.executable, "-c", BOTOCORE)
        self.assertIn("arn:aws:", done.stdout, done.stderr)
        self.assertEqual(0, place.run("record", "--profile", "inner", os.path.join(place.home, "r")).returncode)


def _add(name: str) -> None:
    def test(self: Clients) -> None:
        self.by_cli(name)

    test.__doc__ = name
    setattr(Clients, "test_aws_" + "".join(sign if sign.isalnum() else "_" for sign in name), test)


for _name in GIVE:
    _add(_name)
