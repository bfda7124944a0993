"""Servers on 127.0.0.1 that stand for AWS: instance metadata, a container's agent, IAM Identity Center and its OIDC,
Sign-In, and the Security Token Service, which tests each signature by botocore's own signer."""

from __future__ import annotations

import base64
import datetime
import http.server
import itertools
import json
import threading
import time
import urllib.parse
from typing import Any, Callable, Iterator

import known
from botocore.auth import SigV4Auth
from botocore.awsrequest import AWSRequest
from botocore.credentials import Credentials

ROLES = "/latest/meta-data/iam/security-credentials/"
LIFETIME = "x-aws-ec2-metadata-token-ttl-seconds"
XML = '<{0}Response xmlns="https://sts.amazonaws.com/doc/2011-06-15/"><{0}Result>{1}</{0}Result></{0}Response>'


def later(seconds: int = 3600) -> str:
    """A date that is so many seconds from now."""
    end = datetime.datetime.now(datetime.timezone.utc) + datetime.timedelta(seconds=seconds)
    return end.strftime("%Y-%m-%dT%H:%M:%SZ")


def document(keys: tuple[str, str, str], **more: Any) -> str:
    """The document of credentials that metadata and containers serve."""
    return json.dumps({"AccessKeyId": keys[0], "SecretAccessKey": keys[1], "Token": keys[2], "Expiration": later(), **more})


class Aws(http.server.ThreadingHTTPServer):
    """All services at one address. Its lists tell what was asked of it."""

    daemon_threads = True

    def __init__(self) -> None:
        super().__init__(("127.0.0.1", 0), Handler)
        self.url = f"http://127.0.0.1:{self.server_address[1]}"
        self.requests: list[str] = []
        self.parameters: list[dict[str, str]] = []
        self.secrets = {known.ID: (known.SECRET, None), known.ENVIRONMENT_ID: (known.ENVIRONMENT_SECRET, None)}
        self.owners = {known.ID: "user/me", known.ENVIRONMENT_ID: "user/environment"}
        self.numbers = itertools.count(1)
        self.before_a_token: Callable[[], object] = lambda: None
        for keys in (known.METADATA_KEYS, known.CONTAINER_KEYS, known.SSO_KEYS, known.LOGIN_KEYS, known.PROCESS_KEYS):
            self.secrets[keys[0]], self.owners[keys[0]] = keys[1:], "assumed-role/" + keys[0] + "/me"

    def __enter__(self) -> Aws:
        threading.Thread(target=self.serve_forever, args=(0.05,), daemon=True).start()
        return self

    def __exit__(self, *_: Any) -> None:
        self.shutdown()
        self.server_close()

    def grant(self, role: str, session: str) -> tuple[str, str, str, str]:
        """New keys for a role, and the ARN of their owner."""
        number = next(self.numbers)
        keys = (f"ASIAROLE{number:012d}", f"role/Secret+Key{number:012d}", f"role-keys-token-{number:012d}")
        known.add_secret(*keys[1:])
        owner = f"assumed-role/{role.rpartition('/')[2]}/{session}"
        self.secrets[keys[0]], self.owners[keys[0]] = keys[1:], owner
        return *keys, f"arn:aws:sts::{role.split(':')[4]}:{owner}"

    def handle_error(self, *_: Any) -> None:
        """A client that goes away is no error of a server."""


class Handler(http.server.BaseHTTPRequestHandler):
    """One request."""

    protocol_version = "HTTP/1.1"
    server: Aws

    def log_message(self, *_: Any) -> None:
        self.server.requests.append(f"{self.command} {self.path.partition('?')[0]}")

    def say(self, status: int, body: str, kind: str = "application/json", **headers: str) -> None:
        data = body.encode()
        self.send_response(status)
        self.send_header("Content-Type", kind)
        self.send_header("Content-Length", str(len(data)))
        for name, value in headers.items():
            self.send_header(name.replace("_", "-"), value)
        self.end_headers()
        self.wfile.write(data)

    def refuse(self, status: int, code: str, **members: str) -> None:
        self.say(status, json.dumps(members), x_amzn_errortype=code)

    def do_PUT(self) -> None:
        lifetime = self.headers.get(LIFETIME, "0")
        if self.path == "/latest/api/token":
            self.say(200, known.METADATA_TOKEN, "text/plain", x_aws_ec2_metadata_token_ttl_seconds=lifetime)
        else:
            self.say(404, "")

    def do_GET(self) -> None:
        path = self.path.partition("?")[0]
        if path.startswith("/latest/"):
            self.metadata(path)
        elif path == "/container":
            self.container()
        elif path == "/federation/credentials":
            self.role_credentials()
        else:
            self.say(404, "{}")

    def metadata(self, path: str) -> None:
        if self.headers.get("x-aws-ec2-metadata-token") != known.METADATA_TOKEN:
            self.say(401, "")
        elif path == ROLES:
            self.say(200, "machine-role", "text/plain")
        elif path == ROLES + "machine-role":
            self.say(200, document(known.METADATA_KEYS, Code="Success", Type="AWS-HMAC", LastUpdated=later(-60)))
        elif path == "/latest/meta-data/placement/region":
            self.say(200, "eu-west-1", "text/plain")
        else:
            self.say(404, "")

    def container(self) -> None:
        if self.headers.get("authorization") != known.CONTAINER_AUTHORIZATION:
            self.say(401, "{}")
        else:
            self.say(200, document(known.CONTAINER_KEYS, RoleArn="arn:aws:iam::111122223333:role/task"))

    def role_credentials(self) -> None:
        if self.headers.get("x-amz-sso_bearer_token") not in (known.SSO_ACCESS, known.SSO_ACCESS_RENEWED):
            self.refuse(401, "UnauthorizedException", message="Session token not found or invalid")
            return
        id, secret, token = known.SSO_KEYS
        self.say(200, json.dumps({"roleCredentials": {
            "accessKeyId": id, "secretAccessKey": secret, "sessionToken": token,
            "expiration": int((time.time() + 3600) * 1000)}}))

    def do_POST(self) -> None:
        body = self.rfile.read(int(self.headers.get("Content-Length", "0")))
        if self.path == "/token":
            self.create_token(json.loads(body))
        elif self.path == "/v1/token":
            self.sign_in(json.loads(body))
        else:
            self.security_token_service(body)

    def create_token(self, asked: dict[str, str]) -> None:
        self.server.before_a_token()
        if asked.get("refreshToken") not in (known.SSO_REFRESH, known.SSO_REFRESH_RENEWED) \
                or asked.get("clientSecret") != known.SSO_CLIENT_SECRET:
            self.refuse(400, "InvalidGrantException", error="invalid_grant", error_description="no such grant")
            return
        self.say(200, json.dumps({
            "accessToken": known.SSO_ACCESS_RENEWED, "tokenType": "Bearer", "expiresIn": 3600,
            "refreshToken": known.SSO_REFRESH_RENEWED}))

    def sign_in(self, asked: dict[str, str]) -> None:
        if not is_proved(self.headers.get("DPoP", ""), self.server.url + self.path):
            self.refuse(400, "ValidationException", error="INVALID_REQUEST", message="no proof of possession")
        elif asked.get("refreshToken") != known.LOGIN_REFRESH:
            self.refuse(403, "AccessDeniedException", error="TOKEN_EXPIRED", message="the session is over")
        else:
            id, secret, token = known.LOGIN_KEYS
            self.say(200, json.dumps({
                "accessToken": {"accessKeyId": id, "secretAccessKey": secret, "sessionToken": token},
                "tokenType": "aws_sigv4", "expiresIn": 900, "refreshToken": known.LOGIN_REFRESH_RENEWED}))

    def security_token_service(self, body: bytes) -> None:
        asked = dict(urllib.parse.parse_qsl(body.decode()))
        self.server.parameters.append(asked)
        action = asked.get("Action", "")
        signer = "" if action == "AssumeRoleWithWebIdentity" else signed_by(self, body)
        if action == "AssumeRoleWithWebIdentity" and asked.get("WebIdentityToken") != known.WEB_IDENTITY:
            self.fault(400, "InvalidIdentityToken", "the token is not known")
        elif signer is None:
            self.fault(403, "SignatureDoesNotMatch", "the signature does not match")
        elif "refused" in asked.get("RoleArn", ""):
            self.fault(403, "AccessDenied", "not authorized to perform: sts:AssumeRole")
        elif action == "GetCallerIdentity":
            arn = f"arn:aws:sts::111122223333:{self.server.owners[signer]}"
            self.result(action, f"<Arn>{arn}</Arn><UserId>AIDA</UserId><Account>111122223333</Account>")
        else:
            self.result(action, role_keys(self.server, asked))

    def result(self, action: str, inside: str) -> None:
        self.say(200, XML.format(action, inside), "text/xml")

    def fault(self, status: int, code: str, message: str) -> None:
        self.say(status, f"<ErrorResponse><Error><Type>Sender</Type><Code>{code}</Code><Message>{message}</Message>"
                         "</Error><RequestId>r</RequestId></ErrorResponse>", "text/xml")


class Proxy(http.server.ThreadingHTTPServer):
    """A proxy that lets nobody through. Its list tells which hosts somebody wanted to reach."""

    daemon_threads = True

    def __init__(self) -> None:
        super().__init__(("127.0.0.1", 0), Tunnel)
        self.url = f"http://127.0.0.1:{self.server_address[1]}"
        self.wanted: list[str] = []

    def __enter__(self) -> Proxy:
        threading.Thread(target=self.serve_forever, args=(0.05,), daemon=True).start()
        return self

    def __exit__(self, *_: Any) -> None:
        self.shutdown()
        self.server_close()


class Tunnel(http.server.BaseHTTPRequestHandler):
    """One request for a tunnel."""

    server: Proxy

    def log_message(self, *_: Any) -> None:
        pass

    def do_CONNECT(self) -> None:
        self.server.wanted.append(self.path)
        self.send_error(502)


def role_keys(server: Aws, asked: dict[str, str]) -> str:
    """What is granted to whoever may assume a role."""
    id, secret, token, arn = server.grant(asked["RoleArn"], asked["RoleSessionName"])
    return (f"<Credentials><AccessKeyId>{id}</AccessKeyId><SecretAccessKey>{secret}</SecretAccessKey>"
            f"<SessionToken>{token}</SessionToken><Expiration>{later(int(asked.get('DurationSeconds', '3600')))}</Expiration></Credentials>"
            f"<AssumedRoleUser><Arn>{arn}</Arn><AssumedRoleId>AROA:me</AssumedRoleId></AssumedRoleUser>")


def signed_by(request: Handler, body: bytes) -> str | None:
    """The id of the key that signed a request, by botocore's own signer; none where the signature is another."""
    try:
        parts = dict(part.split("=", 1) for part in request.headers["Authorization"].partition(" ")[2].split(", "))
        id, _, region, service, _ = parts["Credential"].split("/")
        secret, token = request.server.secrets[id]
        signer = SigV4Auth(Credentials(id, secret, token), service, region)
        headers = {name: request.headers[name] for name in parts["SignedHeaders"].split(";")}
        asked = AWSRequest(request.command, request.server.url + request.path, headers=headers, data=body)
        asked.context["timestamp"] = request.headers["X-Amz-Date"]
        signature = signer.signature(signer.string_to_sign(asked, signer.canonical_request(asked)), asked)
    except (KeyError, ValueError, TypeError):
        return None
    same_token = request.headers.get("X-Amz-Security-Token") == token
    return id if signature == parts["Signature"] and same_token else None


def is_proved(proof: str, url: str) -> bool:
    """Whether this is a proof of possession for a POST to this address, by the key that it names."""
    from cryptography.exceptions import InvalidSignature
    from cryptography.hazmat.primitives import hashes
    from cryptography.hazmat.primitives.asymmetric import ec
    from cryptography.hazmat.primitives.asymmetric.utils import encode_dss_signature

    try:
        head, claims, signature = proof.split(".")
        key = json.loads(_raw(head))["jwk"]
        x, y = (int.from_bytes(_raw(key[name]), "big") for name in "xy")
        r, s = (int.from_bytes(half, "big") for half in _halves(_raw(signature)))
        public = ec.EllipticCurvePublicNumbers(x, y, ec.SECP256R1()).public_key()
        public.verify(encode_dss_signature(r, s), f"{head}.{claims}".encode(), ec.ECDSA(hashes.SHA256()))
    except (ValueError, KeyError, InvalidSignature):
        return False
    told = json.loads(_raw(claims))
    return told["htm"] == "POST" and told["htu"] == url and abs(told["iat"] - time.time()) < 60


def _raw(text: str) -> bytes:
    return base64.urlsafe_b64decode(text + "=" * (-len(text) % 4))


def _halves(data: bytes) -> Iterator[bytes]:
    yield data[:32]
    yield data[32:]
