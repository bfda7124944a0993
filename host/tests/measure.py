"""What the host costs: processor time of whole processes, as ratios to botocore's in the same minutes, and what a
question costs the program. measure.py [RUNS]"""

from __future__ import annotations

import json
import os
import resource
import subprocess
import sys
import time
import unittest

sys.path[:0] = [os.path.dirname(os.path.abspath(__file__)), os.path.dirname(os.path.dirname(os.path.abspath(__file__)))]

from place import PROGRAM, Place    # noqa: E402
from scenarios import placed        # noqa: E402
from servers import Aws             # noqa: E402
from test_clients import AWS        # noqa: E402

BOTOCORE = ("import botocore.session; "
            "botocore.session.Session(profile='inner').get_credentials().get_frozen_credentials()")
NAMES = ("static keys", "a role over a role over keys", "metadata", "a container", "a session of IAM Identity Center")
ROLES = 100
GRANT = {"id": "K", "secret": "S", "token": "T", "expires": 2000000000}


def spent(place: Place, *words: str) -> float:
    """The processor time of a process and of those that it starts, in milliseconds."""
    before = resource.getrusage(resource.RUSAGE_CHILDREN)
    done = place.other(*words)
    after = resource.getrusage(resource.RUSAGE_CHILDREN)
    if done.returncode:
        raise SystemExit(f"{words[0]} failed: {done.stderr}")
    return 1000 * (after.ru_utime + after.ru_stime - before.ru_utime - before.ru_stime)


def least(place: Place, runs: int, *all_words: list[str]) -> list[float]:
    """The least time of each of these processes, which run in turn."""
    rounds = [[spent(place, *words) for words in all_words] for _ in range(runs)]
    return [min(times) for times in zip(*rounds)]


def questions() -> float:
    """What a question costs the program, both ways, in milliseconds of the clock."""
    profiles = [[f"p{at}", [["role_arn", f"arn:aws:iam::111122223333:role/r{at}"], ["source_profile", f"p{at + 1}"],
                            ["role_session_name", "s"]]] for at in range(ROLES)]
    keys = [[f"p{ROLES}", [["aws_access_key_id", "K"], ["aws_secret_access_key", "S"]]]]
    first = json.dumps({"profiles": profiles + keys, "selected": "p0", "region": "eu-west-1"}) + "\n"
    reply = (json.dumps({"replies": {"assume-role": [GRANT]}}) + "\n").encode()
    with subprocess.Popen([PROGRAM, "drive"], stdin=subprocess.PIPE, stdout=subprocess.PIPE, env={}) as process:
        process.stdin.write(first.encode())
        process.stdin.flush()
        process.stdout.readline()
        began = time.monotonic()
        for _ in range(ROLES - 1):
            process.stdin.write(reply)
            process.stdin.flush()
            process.stdout.readline()
        took = time.monotonic() - began
        process.stdin.write(reply)
        process.stdin.close()
        process.stdout.read()
    return 1000 * took / (ROLES - 1)


def main(runs: int) -> None:
    """Writes the rows of the page."""
    test = unittest.TestCase()
    with Aws() as aws:
        for name in NAMES:
            place = placed(test, aws, name)
            host = [place.host, "credentials", "--profile", "inner"]
            botocore = [sys.executable, "-c", BOTOCORE]
            row = least(place, runs, host, botocore, [sys.executable, "-c", "pass"])
            print(f"{name}: host {row[0]:.0f} ms, botocore {row[1]:.0f}, Python's start {row[2]:.0f}:"
                  f" ratio {row[0] / row[1]:.2f}", flush=True)
            if AWS:
                identity = [AWS, "sts", "get-caller-identity", "--profile"]
                row = least(place, max(1, runs // 3), identity + ["outer"], identity + ["inner"])
                print(f"  aws sts get-caller-identity by the host {row[0]:.0f} ms, by itself {row[1]:.0f}:"
                      f" ratio {row[0] / row[1]:.2f}", flush=True)
    print(f"a question, both ways: {min(questions() for _ in range(3)):.3f} ms")
    test.doCleanups()


if __name__ == "__main__":
    main(int(sys.argv[1]) if len(sys.argv) > 1 else 11)
