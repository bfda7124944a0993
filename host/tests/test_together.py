"""Several hosts at once, over one token's file."""

from __future__ import annotations

import json
import os
import subprocess
import sys
import unittest

import known
from place import Place
from scenarios import placed
from servers import Aws

HOSTS = 8
BY_BOTOCORE = """
import botocore.session
print(botocore.session.Session(profile='inner').get_credentials().get_frozen_credentials().access_key)
"""


class Together(unittest.TestCase):
    """One token, and many who read and renew it."""

    def test_eight_hosts_over_one_expired_token(self) -> None:
        with Aws() as aws:
            place = placed(self, aws, "a session that is renewed")
            path = os.path.dirname(place.sso_token(lasts=-10))
            words = [place.host, "credentials", "--profile", "inner"]
            hosts = [subprocess.Popen(words, env=place.environment, stdout=subprocess.PIPE, stderr=subprocess.PIPE) for _ in range(HOSTS)]
            for host in hosts:
                out, errors = host.communicate()
                self.assertEqual((0, b""), (host.returncode, errors))
                self.assertEqual(known.SSO_KEYS[0], json.loads(out)["AccessKeyId"])
            (name,) = os.listdir(path)
            with open(os.path.join(path, name), encoding="utf-8") as file:
                token = json.load(file)
            self.assertEqual((known.SSO_ACCESS_RENEWED, known.SSO_REFRESH_RENEWED), (token["accessToken"], token["refreshToken"]))
            self.assertEqual(0o600, place.mode(os.path.join(path, name)))
            self.assertIn("POST /token", aws.requests)

    def test_botocore_reads_a_token_that_the_host_renewed(self) -> None:
        with Aws() as aws:
            place = placed(self, aws, "a session that is renewed")
            place.credentials("--profile", "inner")
            renewed = aws.requests.count("POST /token")
            self.assertEqual(1, renewed)
            self.by_botocore(place)
            self.assertEqual(renewed, aws.requests.count("POST /token"))

    def test_the_host_reads_a_token_that_botocore_renewed(self) -> None:
        with Aws() as aws:
            place = placed(self, aws, "a session that is renewed")
            self.by_botocore(place)
            renewed = aws.requests.count("POST /token")
            self.assertEqual(1, renewed)
            place.credentials("--profile", "inner")
            self.assertEqual(renewed, aws.requests.count("POST /token"))

    def by_botocore(self, place: Place) -> None:
        from test_clients import knows_endpoint_variables

        if not knows_endpoint_variables():
            self.skipTest("botocore is older than 1.31")
        done = place.other(sys.executable, "-c", BY_BOTOCORE)
        self.assertEqual((0, known.SSO_KEYS[0]), (done.returncode, done.stdout.strip()), done.stderr)
