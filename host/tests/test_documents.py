"""What docs/HOST.md shows."""

from __future__ import annotations

import importlib.util
import os
import re
import shlex
import shutil
import subprocess
import sys
import unittest

import known
from place import HOST, KEYS, PROGRAM, REPOSITORY, Place
from scenarios import placed
from servers import Aws

CHANGING = ((r"20\d\d-\d\d-\d\dT\d\d:\d\d:\d\dZ", "DATE"), (r"\[\d+ ms\]", "[TIME]"))


# stands for pip: without the network, into a folder of the test; by setuptools alone where pip would need wheel
PIP = """#!/bin/sh
exec {python} -m pip "$@" --quiet --no-index --no-deps --no-build-isolation --prefix {prefix}
"""
SETUPTOOLS = """#!/bin/sh
[ "$*" = "install ./host" ] && cd ./host && exec {python} -c 'import setuptools; setuptools.setup()' \\
    --quiet install --prefix {prefix} --single-version-externally-managed --record record
"""
KEYS_OF_WORK = """
import botocore.session
keys = botocore.session.Session(profile='work').get_credentials().get_frozen_credentials()
print(keys.access_key, keys.secret_key)
"""


def page() -> str:
    """The page for users."""
    with open(os.path.join(REPOSITORY, "docs", "HOST.md"), encoding="utf-8") as file:
        return file.read()


def shown(heading: str, language: str = "") -> str:
    """The first code of this language below a heading of the page."""
    return page().partition(f"\n## {heading}\n")[2].partition(f"```{language}\n")[2].partition("```")[0]


class Documents(unittest.TestCase):
    """The page and what it shows."""

    def test_why_is_shown_in_full(self) -> None:
        with Aws() as aws:
            place = placed(self, aws, "metadata")
            told = place.run("why", "--profile", "inner").stdout
        told = told.replace(aws.url, "http://169.254.169.254").replace(place.home, "/home/me")
        example = shown("Why")
        for pattern, word in CHANGING:
            told, example = re.sub(pattern, word, told), re.sub(pattern, word, example)
        self.assertEqual(example, told)

    def test_it_installs_as_shown_and_the_profile_that_is_shown_has_credentials(self) -> None:
        if not importlib.util.find_spec("setuptools"):
            self.skipTest("setuptools is not there")
        pip = PIP if all(importlib.util.find_spec(name) for name in ("pip", "wheel")) else SETUPTOOLS
        place = Place(self, None, shown("Install", "ini").replace("/usr/local", "HOME/.local") + f"[profile work-role]\n{KEYS}")
        place.write("run", f"#!/bin/sh\n[ \"$*\" = --program ] && echo {shlex.quote(PROGRAM)}\n", 0o700)
        place.write("pip/pip", pip.format(python=shlex.quote(sys.executable), prefix=place.home + "/.local"), 0o700)
        shutil.copytree(HOST, place.home + "/host", ignore=shutil.ignore_patterns("tests", "bujerova", "build", "*.egg-info"))
        commands = re.findall(r"(?m)^\$ (.+)$", shown("Install"))
        self.assertEqual(2, len(commands))
        del place.environment["BUJEROVA_PROGRAM"]
        done = subprocess.run(
            ["/bin/sh", "-ec", "\n".join(commands)], cwd=place.home, capture_output=True, text=True, check=False,
            env={**place.environment, "PATH": f"{place.home}/pip:{place.environment['PATH']}"})
        self.assertEqual(0, done.returncode, done.stdout + done.stderr)
        library, = (path for path, _, files in os.walk(place.home + "/.local") if path.endswith("/bujerova_host") and "cli.py" in files)
        told = place.other(sys.executable, "-c", KEYS_OF_WORK, PYTHONPATH=os.path.dirname(library))
        self.assertEqual((f"{known.ID} {known.SECRET}\n", ""), (told.stdout, told.stderr))

    def test_the_example_runs(self) -> None:
        done = subprocess.run(
            [os.path.join(HOST, "example")], env={**os.environ, "BUJEROVA_PROGRAM": PROGRAM}, stdin=subprocess.DEVNULL,
            capture_output=True, text=True, timeout=120, check=False)
        self.assertEqual(0, done.returncode, done.stdout + done.stderr)
        self.assertIn(":assumed-role/top/me", done.stdout)

    def test_every_command_is_there(self) -> None:
        with Aws() as aws:
            help = placed(self, aws, "nothing").run("--help").stdout
        told = re.findall(r"^\| `([a-z]+)[^|]*` \|", page().partition("\n## Commands\n")[2].partition("| status |")[0], re.MULTILINE)
        self.assertEqual(["credentials", "why", "record", "exec", "env"], told)
        for name in told:
            self.assertRegex(help, rf"(?m)^    {name}\b")
