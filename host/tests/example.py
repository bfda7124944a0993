"""One client over the host, and the servers of the tests: example.py [COMMAND..]."""

from __future__ import annotations

import os
import subprocess
import sys
import unittest

sys.path[:0] = [os.path.dirname(os.path.abspath(__file__)), os.path.dirname(os.path.dirname(os.path.abspath(__file__)))]

from scenarios import placed    # noqa: E402
from servers import Aws         # noqa: E402
from test_clients import AWS, BOTOCORE, knows_endpoint_variables    # noqa: E402


def main(words: list[str]) -> int:
    """The status of the client."""
    identity = [sys.executable, "-c", BOTOCORE]
    if AWS and knows_endpoint_variables():
        identity = [AWS, "sts", "get-caller-identity", "--profile", "outer", "--output", "json"]
    test = unittest.TestCase()
    try:
        with Aws() as aws:
            place = placed(test, aws, "a role over a role over keys")
            path = f"{os.path.dirname(place.host)}{os.pathsep}{place.environment['PATH']}"
            return subprocess.run(words or identity, env={**place.environment, "PATH": path}, check=False).returncode
    finally:
        test.doCleanups()


if __name__ == "__main__":
    sys.exit(main(sys.argv[1:]))
