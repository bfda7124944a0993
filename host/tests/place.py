"""A home folder with profile files, and the host run in it. Each output of each run is searched for secrets."""

from __future__ import annotations

import hashlib
import json
import os
import shutil
import stat
import subprocess
import sys
import tempfile
import unittest
from typing import Any

import known
from servers import Aws, later

HOST = os.path.dirname(os.path.dirname(os.path.abspath(__file__)))
REPOSITORY = os.path.dirname(HOST)
PROGRAM = os.path.realpath(os.environ.get("BUJEROVA_PROGRAM") or os.path.join(REPOSITORY, "crates/bujerova/out/bujerova"))
LAUNCHER = """#!{python} -P
import sys
sys.path.insert(0, {host!r})
from bujerova_host.cli import main
sys.exit(main())
"""
LOGIN = "arn:aws:sts::111122223333:assumed-role/me"
KEYS = f"aws_access_key_id = {known.ID}\naws_secret_access_key = {known.SECRET}\n"
# nothing that a test asks by mistake leaves the machine
NOWHERE = {"HTTPS_PROXY": "http://127.0.0.1:9", "HTTP_PROXY": "http://127.0.0.1:9", "NO_PROXY": "127.0.0.1,localhost"}

Done = subprocess.CompletedProcess[str]


class Place:
    """A home folder of its own, the environment that goes with it, and the host."""

    def __init__(self, test: unittest.TestCase, aws: Aws | None, config: str = "", credentials: str = "", **variables: str) -> None:
        self.test = test
        self.home = tempfile.mkdtemp(prefix="bujerova-host-")
        test.addCleanup(shutil.rmtree, self.home)
        self.host = self.write("bin/bujerova-host", LAUNCHER.format(python=sys.executable, host=HOST), 0o700)
        self.write(".aws/config", config.replace("HOME", self.home).replace("HOST", self.host))
        if credentials:
            self.write(".aws/credentials", credentials)
        self.environment = {
            **NOWHERE, "PATH": os.environ["PATH"], "HOME": self.home, "BUJEROVA_PROGRAM": PROGRAM,
            "AWS_EC2_METADATA_DISABLED": "true",
            **({"AWS_ENDPOINT_URL": aws.url} if aws else {}),
            **{name: value.replace("HOME", self.home) for name, value in variables.items()}}

    def write(self, path: str, text: str | bytes, mode: int = 0o600) -> str:
        """Writes a file below the home folder."""
        path = os.path.join(self.home, path)
        os.makedirs(os.path.dirname(path), exist_ok=True)
        with open(path, "wb") as file:
            file.write(text if isinstance(text, bytes) else text.encode())
        os.chmod(path, mode)
        return path

    def program(self, text: str) -> str:
        """A program of a shell's lines that stands in the program's place."""
        self.environment["BUJEROVA_PROGRAM"] = self.write("bin/program", "#!/bin/sh\n" + text, 0o700)
        return self.environment["BUJEROVA_PROGRAM"]

    def run(self, *words: str, **variables: str) -> Done:
        """Runs the host. No secret is in what it writes, but for the commands that give credentials."""
        done = self.other(self.host, *words, **variables)
        if words[:1] not in (("credentials",), ("env",), ("exec",)):
            self.test.assertEqual([], known.secrets_in(done.stdout), f"standard output of {words}")
        return done

    def other(self, *words: str, **variables: str) -> Done:
        """Runs another program in this place. No secret is in its standard error."""
        done = subprocess.run(words, env={**self.environment, **variables}, stdin=subprocess.DEVNULL, capture_output=True,
                              text=True, timeout=120, check=False)
        self.test.assertEqual([], known.secrets_in(done.stderr), f"standard error of {words[:3]}")
        return done

    def credentials(self, *words: str, **variables: str) -> dict[str, Any]:
        """The document that the host gives."""
        done = self.run("credentials", *words, **variables)
        self.test.assertEqual((0, ""), (done.returncode, done.stderr))
        return json.loads(done.stdout)

    def complaint(self, status: int, *words: str, **variables: str) -> str:
        """What the host says where it gives nothing, with this status."""
        done = self.run(*words, **variables)
        self.test.assertEqual((status, ""), (done.returncode, done.stdout), done.stderr)
        return done.stderr

    def sso_token(self, name: str = "corp", lasts: int = 3600, token: str = known.SSO_ACCESS, **changes: Any) -> str:
        """Writes the cached token of a session, as AWS's tools do."""
        members = {
            "startUrl": "https://corp.awsapps.com/start", "region": "eu-west-1", "accessToken": token,
            "expiresAt": later(lasts), "clientId": "client", "clientSecret": known.SSO_CLIENT_SECRET,
            "registrationExpiresAt": later(30 * 86400), "refreshToken": known.SSO_REFRESH, **changes}
        text = json.dumps({name: value for name, value in members.items() if value is not None})
        return self.write(f".aws/sso/cache/{hashlib.sha1(name.encode()).hexdigest()}.json", text)

    def login_token(self, refresh: str = known.LOGIN_REFRESH) -> str:
        """Writes the cached token of a sign-in session that has to be renewed."""
        id, secret, token = known.LOGIN_OLD_KEYS
        text = json.dumps({
            "accessToken": {"accessKeyId": id, "secretAccessKey": secret, "sessionToken": token,
                            "accountId": "111122223333", "expiresAt": "2020-01-01T00:00:00Z"},
            "tokenType": "aws_sigv4", "refreshToken": refresh, "clientId": "arn:aws:signin:::devtools/same-device",
            "dpopKey": _private_key()})
        return self.write(f".aws/login/cache/{hashlib.sha256(LOGIN.encode()).hexdigest()}.json", text)

    def mode(self, path: str) -> int:
        """The mode of a file."""
        return stat.S_IMODE(os.stat(path).st_mode)


def _private_key() -> str:
    from cryptography.hazmat.primitives import serialization
    from cryptography.hazmat.primitives.asymmetric import ec

    pem = ec.generate_private_key(ec.SECP256R1()).private_bytes(
        serialization.Encoding.PEM, serialization.PrivateFormat.TraditionalOpenSSL, serialization.NoEncryption()).decode()
    known.add_secret(pem, *[line for line in pem.split("\n") if line and "-----" not in line])
    return pem
