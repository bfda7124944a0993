"""Configurations of a profile `inner`, one for each kind of answer, and what gives its credentials."""

from __future__ import annotations

import importlib.util
import json
import unittest
from typing import Callable, NamedTuple

import known
from place import KEYS, LOGIN, Place
from servers import Aws

SSO = """[sso-session corp]
sso_start_url = https://corp.awsapps.com/start
sso_region = eu-west-1
sso_registration_scopes = sso:account:access
[profile inner]
sso_session = corp
sso_account_id = 111122223333
sso_role_name = Reader
region = eu-west-1
"""
OUTER = "[profile outer]\ncredential_process = HOST credentials --profile inner\nregion = eu-west-1\n"
REGION = "[profile inner]\nregion = eu-west-1\n"
PROCESS = "printf '%s'" % json.dumps({
    "Version": 1, "AccessKeyId": known.PROCESS_KEYS[0], "SecretAccessKey": known.PROCESS_KEYS[1],
    "SessionToken": known.PROCESS_KEYS[2], "Expiration": "2100-01-01T00:00:00Z"})
HAS_CRYPTOGRAPHY = importlib.util.find_spec("cryptography") is not None


def has_sign_in() -> bool:
    """Whether botocore knows the service that renews sign-in sessions."""
    import botocore.session

    return HAS_CRYPTOGRAPHY and "signin" in botocore.session.get_session().get_available_services()


class Scenario(NamedTuple):
    """The configuration, its variables, what is prepared, the provider, the owner of the keys, what is asked."""

    config: str
    provider: str
    owner: str
    kinds: str
    variables: dict[str, str] = {}
    prepare: Callable[[Place], object] = lambda place: None
    error: str = ""


def variables(aws: Aws, scenario: Scenario) -> dict[str, str]:
    """The variables of a scenario; AWS: stands for the servers' address, LOCAL: for it by a name."""
    by_name = aws.url.replace("127.0.0.1", "localhost")
    return {name: value.replace("AWS:", aws.url).replace("LOCAL:", by_name) for name, value in scenario.variables.items()}


def placed(test: unittest.TestCase, aws: Aws, name: str, **more: str) -> Place:
    """A place for a scenario."""
    scenario = SCENARIOS[name]
    place = Place(test, aws, scenario.config + OUTER, **variables(aws, scenario), **more)
    scenario.prepare(place)
    return place


METADATA = {"AWS_EC2_METADATA_DISABLED": "false", "AWS_EC2_METADATA_SERVICE_ENDPOINT": "AWS:"}
CONTAINER = {
    "AWS_CONTAINER_CREDENTIALS_FULL_URI": "AWS:/container",
    "AWS_CONTAINER_AUTHORIZATION_TOKEN": known.CONTAINER_AUTHORIZATION}
BY_METADATA = "now,imds-token,now,imds-get,now,imds-get,now"
MACHINE, TASK = f"assumed-role/{known.METADATA_KEYS[0]}/me", f"assumed-role/{known.CONTAINER_KEYS[0]}/me"
READER = f"assumed-role/{known.SSO_KEYS[0]}/me"

SCENARIOS = {
    "static keys": Scenario(REGION + KEYS, "ProfileFile", "user/me", "-"),
    "a role over a role over keys": Scenario(
        f"[profile base]\n{KEYS}[profile middle]\nrole_arn = arn:aws:iam::111122223333:role/middle\nsource_profile = base\n"
        "[profile inner]\nrole_arn = arn:aws:iam::444455556666:role/top\nsource_profile = middle\nregion = eu-west-1\n"
        "role_session_name = me\nexternal_id = external-0001\n",
        "AssumeRoleProvider", "assumed-role/top/me", "now,assume-role,assume-role"),
    "a session of IAM Identity Center": Scenario(
        SSO, "SSO", READER, "now,read,now,role-credentials", {}, lambda place: place.sso_token()),
    "a session that is renewed": Scenario(
        SSO, "SSO", READER, "now,read,now,create-token,write,role-credentials", {},
        lambda place: place.sso_token(lasts=-10, token="sso-access-token-0000")),
    "metadata": Scenario(REGION, "IMDSv2", MACHINE, BY_METADATA, METADATA),
    "a role over metadata": Scenario(
        REGION + "role_arn = arn:aws:iam::111122223333:role/x\nrole_session_name = me\ncredential_source = Ec2InstanceMetadata\n",
        "AssumeRoleProvider", "assumed-role/x/me", BY_METADATA + ",assume-role", METADATA),
    "a container": Scenario(REGION, "EcsContainer", TASK, "http", CONTAINER),
    "a container at a name, with a token's file": Scenario(
        REGION, "EcsContainer", TASK, "read,lookup,http",
        {"AWS_CONTAINER_CREDENTIALS_FULL_URI": "LOCAL:/container", "AWS_CONTAINER_AUTHORIZATION_TOKEN_FILE": "HOME/authorization"},
        lambda place: place.write("authorization", known.CONTAINER_AUTHORIZATION)),
    "a role over a container": Scenario(
        REGION + "role_arn = arn:aws:iam::111122223333:role/x\nrole_session_name = me\ncredential_source = EcsContainer\n",
        "AssumeRoleProvider", "assumed-role/x/me", "http,assume-role", CONTAINER),
    "a web identity": Scenario(
        REGION + "role_arn = arn:aws:iam::111122223333:role/web\nrole_session_name = me\nweb_identity_token_file = HOME/token\n",
        "WebIdentityToken", "assumed-role/web/me", "read,web-identity", {},
        lambda place: place.write("token", known.WEB_IDENTITY)),
    "a process": Scenario(
        REGION + f"credential_process = {PROCESS}\n", "CredentialProcess", f"assumed-role/{known.PROCESS_KEYS[0]}/me", "run"),
    "a sign-in session": Scenario(
        REGION + f"login_session = {LOGIN}\n", "Login", f"assumed-role/{known.LOGIN_KEYS[0]}/me",
        "now,read,now,sign-in,write", {}, lambda place: place.login_token()),
    "keys of the environment": Scenario(
        REGION, "EnvironmentVariable", "user/environment", "-",
        {"AWS_ACCESS_KEY_ID": known.ENVIRONMENT_ID, "AWS_SECRET_ACCESS_KEY": known.ENVIRONMENT_SECRET}),
    "a role that is refused": Scenario(
        REGION + f"role_arn = arn:aws:iam::111122223333:role/refused\nrole_session_name = me\nsource_profile = base\n[profile base]\n{KEYS}",
        "", "", "assume-role", {}, lambda place: None, "not authorized to perform: sts:AssumeRole"),
    "a role in no region": Scenario(
        f"[profile inner]\nrole_arn = arn:aws:iam::111122223333:role/x\nrole_session_name = me\nsource_profile = base\n[profile base]\n{KEYS}",
        "", "", "assume-role!", {}, lambda place: None, "no region is set"),
    "a session that is over": Scenario(
        SSO, "", "", "now,read,now", {},
        lambda place: place.sso_token(lasts=-10, refreshToken=None, clientId=None, clientSecret=None), "expired"),
    "a sign-in session that is over": Scenario(
        REGION + f"login_session = {LOGIN}\n", "", "", "now,read,now,sign-in", {},
        lambda place: place.login_token("login-refresh-token-0000"), ""),
    "nothing": Scenario(REGION, "", "", "-", {}, lambda place: None, "no credentials"),
}
