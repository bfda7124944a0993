"""The host beside the crates that it serves."""

from __future__ import annotations

import glob
import os
import re
import unittest

from bujerova_host.configuration import VARIABLES
from bujerova_host.conversation import RENEWALS
from bujerova_host.forms import REPLIES
from bujerova_host.world import World
from place import REPOSITORY

CAPITALS = re.compile(r'"([A-Z][A-Z0-9_]{2,})"')
# words in capitals that stand in quotation marks and are no names of variables
NO_VARIABLES = {"SSO", "FIXEDID", "FIXEDSECRET"}


def crates() -> list[str]:
    """The sources of the crates that the program stands on: those of tests, measures and callers are none."""
    with open(os.path.join(REPOSITORY, "crates.txt"), encoding="utf-8") as file:
        names = re.findall(r"^([a-z_]+):", file.read(), re.MULTILINE)
    own = [name for name in names if not name.endswith(("_tests", "_bench")) and name not in ("first", "caller")]
    return [path for name in own for path in glob.glob(os.path.join(REPOSITORY, "crates", name, "src", "**", "*.rt"), recursive=True)]


class Sources(unittest.TestCase):
    """What has to agree with the crates."""

    def test_every_variable_that_the_crates_read_is_handed_over(self) -> None:
        read: set[str] = set()
        for path in crates():
            with open(path, encoding="utf-8") as file:
                read.update(CAPITALS.findall(file.read()))
        self.assertEqual(read - NO_VARIABLES, set(VARIABLES))
        self.assertEqual(len(VARIABLES), len(set(VARIABLES)))

    def test_every_kind_of_question_has_an_answer(self) -> None:
        with open(os.path.join(REPOSITORY, "docs", "SCRIPT.md"), encoding="utf-8") as file:
            page = file.read()
        kinds = re.search(r"`<kinds>` \| the questions of the call in order.*", page)[0]
        named = {kind for kind in re.findall(r"`([a-z]+)`", kinds)}
        replies = set(re.findall(r"`([a-z-]+)`", page.partition("| under `replies` |")[2].partition("| the last five |")[0])) & set(REPLIES)
        self.assertLessEqual({"now", "jitter", "read", "write", "run", "lookup"}, named)
        self.assertEqual(set(REPLIES), replies)
        self.assertTrue(all(World().knows(kind) for kind in {"now", "jitter", "read", "write", "run", "lookup", *REPLIES}))
        self.assertLessEqual(set(RENEWALS), set(REPLIES))
