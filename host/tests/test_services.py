"""What AWS's services say, as answers. botocore's Stubber stands for them, or nobody."""

from __future__ import annotations

import datetime
import os
import unittest
from typing import Any, Callable
from unittest import mock

import known
from botocore.stub import Stubber
from bujerova_host.forms import NO_CRYPTOGRAPHY, NO_REGION, Answered
from bujerova_host.services import Services
from scenarios import has_sign_in
from servers import Aws

SETTINGS = {"region": "eu-west-1", "max_attempts": 1, "timeouts": {"connect_ms": 1000, "read_ms": 1000}}
ARN = "arn:aws:iam::111122223333:role/x"
SIGNER = {"id": known.ID, "secret": known.SECRET}
ROLE = {"ask": "assume-role", "signer": SIGNER, "role_arn": ARN, "session_name": "me", "policy_arns": [], "tags": [], "settings": SETTINGS}
WEB = {"ask": "web-identity", "role_arn": ARN, "session_name": "me", "token": known.WEB_IDENTITY, "policy_arns": [], "settings": SETTINGS}
SSO = {"ask": "role-credentials", "role_name": "r", "account_id": "111122223333", "access_token": known.SSO_ACCESS, "settings": SETTINGS}
OIDC = {"ask": "create-token", "client_id": "c", "client_secret": "s", "refresh_token": "r", "settings": SETTINGS}
LOGIN = {"ask": "sign-in", "client_id": "c", "refresh_token": "r", "dpop_key": "no key", "settings": SETTINGS}
END = datetime.datetime(2030, 1, 2, 3, 4, 5, 600000, datetime.timezone.utc)
KEYS = {"AccessKeyId": "ASIA000000000000", "SecretAccessKey": "secret", "SessionToken": "token", "Expiration": END}
GRANTED = {"id": "ASIA000000000000", "secret": "secret", "token": "token", "expires": [1893553445, 600000000]}

Prepare = Callable[[Stubber], None]


def set_to(settings: dict[str, Any]) -> tuple[bool, bool, int, float, float]:
    """How a client sends a question with these settings: FIPS, dual stack, attempts, and the limits of time."""
    config = Services()._client("sts", {**ROLE, "settings": settings}).meta.config
    return (bool(config.use_fips_endpoint), bool(config.use_dualstack_endpoint), config.retries["total_max_attempts"],
            config.connect_timeout, config.read_timeout)


class Stubbed(Services):
    """The services, of which each client has a stub."""

    def __init__(self, prepare: Prepare) -> None:
        super().__init__()
        self.prepare, self.stubs = prepare, []

    def _client(self, service: str, question: dict[str, Any]) -> Any:
        client = super()._client(service, question)
        stub = Stubber(client)
        self.prepare(stub)
        stub.activate()
        self.stubs.append(stub)
        return client


class WhatServicesSay(unittest.TestCase):
    """The parameters that are sent, and each kind of reply."""

    def asked(self, question: dict[str, Any], prepare: Prepare) -> Answered:
        services = Stubbed(prepare)
        said = getattr(services, question["ask"].replace("-", "_"))(question)
        for stub in services.stubs:
            stub.assert_no_pending_responses()
        return said

    def test_a_role(self) -> None:
        sent = {"RoleArn": ARN, "RoleSessionName": "me", "ExternalId": "e", "Policy": "{}", "DurationSeconds": 900,
                "PolicyArns": [{"arn": "arn:aws:iam::aws:policy/x"}], "Tags": [{"Key": "k", "Value": "v"}]}
        owner = {"AssumedRoleId": "AROA:me", "Arn": "arn:aws:sts::111122223333:assumed-role/x/me"}
        question = {**ROLE, "external_id": "e", "policy": "{}", "policy_arns": ["arn:aws:iam::aws:policy/x"],
                    "duration_seconds": 900, "tags": [["k", "v"]]}
        reply = {"Credentials": KEYS, "AssumedRoleUser": owner}
        said = self.asked(question, lambda stub: stub.add_response("assume_role", reply, sent))
        self.assertEqual({**GRANTED, "arn": owner["Arn"]}, said.item)

    def test_a_role_without_what_is_optional(self) -> None:
        sent = {"RoleArn": ARN, "RoleSessionName": "me"}
        said = self.asked(ROLE, lambda stub: stub.add_response("assume_role", {"Credentials": KEYS}, sent))
        self.assertEqual(GRANTED, said.item)

    def test_a_web_identity(self) -> None:
        sent = {"RoleArn": ARN, "RoleSessionName": "me", "WebIdentityToken": known.WEB_IDENTITY}
        said = self.asked(WEB, lambda stub: stub.add_response("assume_role_with_web_identity", {"Credentials": KEYS}, sent))
        self.assertEqual(GRANTED, said.item)

    def test_replies_without_credentials(self) -> None:
        for question, operation in ((ROLE, "assume_role"), (WEB, "assume_role_with_web_identity"), (SSO, "get_role_credentials")):
            self.assertEqual((None, ""), self.asked(question, lambda stub: stub.add_response(operation, {})))

    def test_role_credentials(self) -> None:
        keys = {"accessKeyId": "A", "secretAccessKey": "S", "sessionToken": "T", "expiration": 7}
        sent = {"roleName": "r", "accountId": "111122223333", "accessToken": known.SSO_ACCESS}
        said = self.asked(SSO, lambda stub: stub.add_response("get_role_credentials", {"roleCredentials": keys}, sent))
        self.assertEqual({"id": "A", "secret": "S", "token": "T", "expires_ms": 7}, said.item)
        said = self.asked(SSO, lambda stub: stub.add_response("get_role_credentials", {"roleCredentials": {}}))
        self.assertEqual({"expires_ms": 0}, said.item)

    def test_a_renewed_token(self) -> None:
        sent = {"clientId": "c", "clientSecret": "s", "grantType": "refresh_token", "refreshToken": "r"}
        reply = {"accessToken": "A", "expiresIn": 9}
        said = self.asked(OIDC, lambda stub: stub.add_response("create_token", reply, sent))
        self.assertEqual({"access": "A", "expires_in": 9}, said.item)

    def test_refusals_by_their_kinds(self) -> None:
        for code, kind in (("RegionDisabledException", "RegionDisabled"), ("MalformedPolicyDocument", "MalformedPolicyDocument"),
                           ("AccessDenied", "Other"), ("ExpiredTokenException", "Other")):
            said = self.asked(ROLE, lambda stub: stub.add_client_error("assume_role", code, "no"))
            self.assertEqual(({"refused": kind, "message": "no"}, code), said)

    @unittest.skipUnless(has_sign_in(), "botocore is older than 1.41, or cryptography is missing")
    def test_refused_sign_ins_by_their_kinds(self) -> None:
        kinds = {"TOKEN_EXPIRED": "TokenExpired", "USER_CREDENTIALS_CHANGED": "UserCredentialsChanged",
                 "INSUFFICIENT_PERMISSIONS": "InsufficientPermissions", "OTHER": "Other"}
        with mock.patch("bujerova_host.possession.proof", return_value="proof"):
            for error, kind in kinds.items():
                said = self.asked(LOGIN, lambda stub: stub.add_client_error(
                    "create_o_auth2_token", "AccessDeniedException", "no", modeled_fields={"error": error, "message": "no"}))
                self.assertEqual(({"refused": kind, "message": "no"}, "AccessDeniedException"), said)

    @unittest.skipUnless(has_sign_in(), "botocore is older than 1.41, or cryptography is missing")
    def test_a_key_that_is_none(self) -> None:
        self.assertEqual(("dispatch", "ValueError"), Services().sign_in(LOGIN))

    def test_no_cryptography(self) -> None:
        with mock.patch.dict("sys.modules", {"bujerova_host.possession": None}):
            self.assertEqual(("dispatch", NO_CRYPTOGRAPHY), Services().sign_in(LOGIN))

    def test_no_region(self) -> None:
        for settings in ({}, {"region": ""}):
            self.assertEqual(("dispatch", NO_REGION), Services().assume_role({**ROLE, "settings": settings}))

    def test_nobody_listens(self) -> None:
        with mock.patch.dict(os.environ, {"AWS_ENDPOINT_URL": "http://127.0.0.1:9"}):
            self.assertEqual(("dispatch", "EndpointConnectionError"), Services().assume_role(ROLE))
        with mock.patch.dict(os.environ, {"AWS_ENDPOINT_URL": "no address"}):
            self.assertEqual(("dispatch", "ValueError"), Services().assume_role(ROLE))

    def test_a_reply_that_is_none(self) -> None:
        with Aws() as aws, mock.patch.dict(os.environ, {"AWS_ENDPOINT_URL": aws.url}):
            with mock.patch.object(Aws, "grant", return_value=("A", "S", "<", "arn")):
                self.assertEqual("broken", Services().assume_role(ROLE).item)

    def test_a_reply_that_lacks_a_member(self) -> None:
        reply = {"Credentials": {name: value for name, value in KEYS.items() if name != "Expiration"}}
        with mock.patch.object(Stubber, "_validate_operation_response"):
            said = self.asked(ROLE, lambda stub: stub.add_response("assume_role", reply))
        self.assertEqual(("broken", "the reply lacks a member"), said)

    def test_settings_are_the_questions_alone(self) -> None:
        said = {"AWS_USE_FIPS_ENDPOINT": "true", "AWS_USE_DUALSTACK_ENDPOINT": "true", "AWS_MAX_ATTEMPTS": "9", "AWS_RETRY_MODE": "legacy"}
        for settings, wanted in (
                ({}, (False, False, 3, 3.1, 60)),
                ({"use_fips": False, "use_dual_stack": False, "max_attempts": 1}, (False, False, 1, 3.1, 60)),
                ({"use_fips": True}, (True, False, 3, 3.1, 60)),
                ({"use_dual_stack": True}, (False, True, 3, 3.1, 60)),
                ({"max_attempts": 4294967295}, (False, False, 4294967295, 3.1, 60)),
                ({"max_attempts": 0}, (False, False, 1, 3.1, 60)),
                ({"timeouts": {"connect_ms": 1500}}, (False, False, 3, 1.5, 60)),
                ({"timeouts": {"read_ms": 2500}}, (False, False, 3, 3.1, 2.5)),
                ({"use_fips": True, "use_dual_stack": True, "max_attempts": 5, "timeouts": {"connect_ms": 1500, "read_ms": 2500}},
                 (True, True, 5, 1.5, 2.5))):
            for environment in ({}, said):
                with self.subTest(settings=settings, environment=environment), mock.patch.dict(os.environ, environment):
                    self.assertEqual(wanted, set_to({"region": "eu-west-1", "max_attempts": 3, "timeouts": {}, **settings}))

    def test_the_signer_is_the_questions_alone(self) -> None:
        mine = {"AWS_ACCESS_KEY_ID": known.ENVIRONMENT_ID, "AWS_SECRET_ACCESS_KEY": known.ENVIRONMENT_SECRET,
                "AWS_SESSION_TOKEN": "x", "AWS_PROFILE": "none", "AWS_REGION": "us-east-2"}
        with Aws() as aws, mock.patch.dict(os.environ, {**mine, "AWS_ENDPOINT_URL": aws.url}):
            self.assertIn("arn", Services().assume_role(ROLE).item)
            refused = Services().assume_role({**ROLE, "signer": {"id": known.ID, "secret": "another"}})
            self.assertEqual("SignatureDoesNotMatch", refused.note)
            self.assertIn("arn", Services().web_identity(WEB).item)
            with mock.patch("botocore.session.Session.get_credentials", side_effect=AssertionError):
                self.assertEqual(known.SSO_KEYS[0], Services().role_credentials(SSO).item["id"])

    def test_the_endpoint_of_a_service_counts_before_that_of_all(self) -> None:
        with Aws() as aws:
            both = {"AWS_ENDPOINT_URL": "http://127.0.0.1:9", "AWS_ENDPOINT_URL_STS": aws.url}
            with mock.patch.dict(os.environ, both):
                self.assertIn("arn", Services().assume_role(ROLE).item)
