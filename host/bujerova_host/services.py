"""Requests to AWS's services, by botocore: the Security Token Service, IAM Identity Center, and Sign-In.

botocore signs with the keys of the question and with no others: its session sees no profile, no keys and no region of
the user. FIPS, dual stack, attempts and limits of time are those of the question. Endpoints, proxies and trust of the
environment count for AWS's services, as they do for other clients."""

from __future__ import annotations

import os
from typing import Any, Callable

import botocore
import botocore.config
import botocore.exceptions as faults
import botocore.parsers
import botocore.session

from bujerova_host.forms import NO_CRYPTOGRAPHY, NO_REGION, Answered
from bujerova_host.web import CONNECT_SECONDS

KINDS = {
    "RegionDisabledException": "RegionDisabled",
    "MalformedPolicyDocument": "MalformedPolicyDocument",
    "TOKEN_EXPIRED": "TokenExpired",
    "USER_CREDENTIALS_CHANGED": "UserCredentialsChanged",
    "INSUFFICIENT_PERMISSIONS": "InsufficientPermissions",
}
BROKEN = (faults.IncompleteReadError, faults.ResponseStreamingError, botocore.parsers.ResponseParserError)

Question = dict[str, Any]
Granted = Callable[[dict[str, Any]], Any]


class Services:
    """Answers that AWS's services give."""

    def __init__(self) -> None:
        self._session = _session()

    def assume_role(self, question: Question) -> Answered:
        """A role's credentials, asked for with those of the signer."""
        tags = [{"Key": key, "Value": value} for key, value in question.get("tags", [])]
        arguments = _present(
            RoleArn=question["role_arn"], RoleSessionName=question["session_name"],
            ExternalId=question.get("external_id"), Policy=question.get("policy"),
            PolicyArns=_policies(question), DurationSeconds=question.get("duration_seconds"), Tags=tags or None)
        return self._call("sts", question, "assume_role", arguments, _of_sts)

    def web_identity(self, question: Question) -> Answered:
        """A role's credentials, asked for with a web identity."""
        arguments = _present(
            RoleArn=question["role_arn"], RoleSessionName=question["session_name"],
            WebIdentityToken=question["token"], Policy=question.get("policy"), PolicyArns=_policies(question))
        return self._call("sts", question, "assume_role_with_web_identity", arguments, _of_sts)

    def role_credentials(self, question: Question) -> Answered:
        """A role's credentials, asked for with a token of IAM Identity Center."""
        arguments = {
            "roleName": question["role_name"], "accountId": question["account_id"],
            "accessToken": question["access_token"]}
        return self._call("sso", question, "get_role_credentials", arguments, _of_sso)

    def create_token(self, question: Question) -> Answered:
        """A new token of IAM Identity Center."""
        arguments = {
            "clientId": question["client_id"], "clientSecret": question["client_secret"],
            "grantType": "refresh_token", "refreshToken": question["refresh_token"]}
        return self._call("sso-oidc", question, "create_token", arguments, _of_oidc)

    def sign_in(self, question: Question) -> Answered:
        """A new token of a sign-in session, asked for with a proof by the session's key."""
        try:
            from bujerova_host.possession import proof
        except ImportError:
            return Answered("dispatch", NO_CRYPTOGRAPHY)

        def prove(params: dict[str, Any], **_: Any) -> None:
            params["headers"]["DPoP"] = proof(question["dpop_key"], params["url"])

        arguments = {"tokenInput": {
            "clientId": question["client_id"], "refreshToken": question["refresh_token"], "grantType": "refresh_token"}}
        return self._call("signin", question, "create_o_auth2_token", arguments, _of_sign_in, prove)

    def _call(self, service: str, question: Question, operation: str, arguments: dict[str, Any],
              granted: Granted, before: Callable[..., None] | None = None) -> Answered:
        if not question["settings"].get("region"):
            return Answered("dispatch", NO_REGION)
        try:
            client = self._client(service, question)
            if before is not None:
                client.meta.events.register("before-call", before)
            reply = getattr(client, operation)(**arguments)
        except faults.ClientError as error:
            return _refused(error.response)
        except BROKEN as error:
            return Answered("broken", type(error).__name__)
        except (faults.BotoCoreError, ValueError) as error:
            return Answered("dispatch", type(error).__name__)
        try:
            return Answered(granted(reply))
        except (KeyError, TypeError, AttributeError):
            return Answered("broken", "the reply lacks a member")

    def _client(self, service: str, question: Question) -> Any:
        settings, signer = question["settings"], question.get("signer")
        keys = {}
        if signer is not None:
            keys = {"aws_access_key_id": signer["id"], "aws_secret_access_key": signer["secret"],
                    "aws_session_token": signer.get("token")}
        return self._session.create_client(
            service, region_name=settings["region"], endpoint_url=_endpoint(service),
            config=botocore.config.Config(**_options(settings, signer is not None)), **keys)


def _session() -> botocore.session.Session:
    nothing = (None, None, None, None)
    return botocore.session.Session(session_vars={
        "profile": nothing, "region": nothing, "sts_regional_endpoints": (None, None, "regional", None),
        "config_file": (None, None, os.devnull, None), "credentials_file": (None, None, os.devnull, None)})


def _endpoint(service: str) -> str | None:
    """The endpoint that the environment names, also where botocore is older than these variables."""
    if os.environ.get("AWS_IGNORE_CONFIGURED_ENDPOINT_URLS", "").lower() == "true":
        return None
    own = "AWS_ENDPOINT_URL_" + service.replace("-", "_").upper()
    return os.environ.get(own) or os.environ.get("AWS_ENDPOINT_URL") or None


def _options(settings: dict[str, Any], signed: bool) -> dict[str, Any]:
    """What botocore's Config is told. The service says what is wrong with a parameter, and not botocore. What the
    question leaves out is said too: botocore would ask the environment."""
    limits = settings["timeouts"]
    options: dict[str, Any] = {
        "parameter_validation": False,
        "retries": {"mode": "standard", "total_max_attempts": max(1, settings["max_attempts"])},
        "connect_timeout": limits["connect_ms"] / 1000 if "connect_ms" in limits else CONNECT_SECONDS,
        "use_fips_endpoint": settings.get("use_fips", False),
        "use_dualstack_endpoint": settings.get("use_dual_stack", False)}
    if not signed:
        options["signature_version"] = botocore.UNSIGNED
    if "read_ms" in limits:
        options["read_timeout"] = limits["read_ms"] / 1000
    return options


def _refused(response: dict[str, Any]) -> Answered:
    """A refusal by its kind. A refused sign-in tells it beside the error."""
    error = response.get("Error", {})
    code = error.get("Code") or ""
    kind = response.get("error") if code == "AccessDeniedException" else code
    return Answered({"refused": KINDS.get(kind or "", "Other"), "message": error.get("Message") or ""}, code)


def _present(**members: Any) -> dict[str, Any]:
    return {name: value for name, value in members.items() if value is not None}


def _policies(question: Question) -> list[dict[str, str]] | None:
    return [{"arn": arn} for arn in question.get("policy_arns", [])] or None


def _of_sts(reply: dict[str, Any]) -> Any:
    keys = reply.get("Credentials")
    if keys is None:
        return None
    end = keys["Expiration"]
    return _present(
        id=keys["AccessKeyId"], secret=keys["SecretAccessKey"], token=keys["SessionToken"],
        expires=[int(end.timestamp() // 1), end.microsecond * 1000], arn=reply.get("AssumedRoleUser", {}).get("Arn"))


def _of_sso(reply: dict[str, Any]) -> Any:
    keys = reply.get("roleCredentials")
    if keys is None:
        return None
    return _present(
        id=keys.get("accessKeyId"), secret=keys.get("secretAccessKey"), token=keys.get("sessionToken"),
        expires_ms=keys.get("expiration", 0))


def _of_oidc(reply: dict[str, Any]) -> Any:
    return _present(
        access=reply.get("accessToken"), refresh=reply.get("refreshToken"), expires_in=reply.get("expiresIn", 0))


def _of_sign_in(reply: dict[str, Any]) -> Any:
    token = reply.get("tokenOutput") or {}
    keys = token.get("accessToken")
    if keys is None:
        return None
    return {
        "id": keys["accessKeyId"], "secret": keys["secretAccessKey"], "token": keys["sessionToken"],
        "refresh": token["refreshToken"], "expires_in": token["expiresIn"]}
