"""The reader of profile files, by a table: each row shows one rule, and docs/HOST.md has the same rules."""

from __future__ import annotations

import os
import shutil
import tempfile
import unittest
from typing import NamedTuple

from bujerova_host.profile_files import load
from place import REPOSITORY


class Row(NamedTuple):
    """A rule, the two files, and what they are read as."""

    rule: str
    config: str | bytes
    credentials: str = ""
    profiles: dict[str, dict[str, str]] = {}
    sessions: dict[str, dict[str, str]] = {}
    left_out: tuple[str, ...] = ()
    refused: str = ""


ROWS = (
    Row("a section of the config file is `[default]`, `[profile NAME]` or `[sso-session NAME]`",
        "[default]\na=1\n[profile dev]\na=2\n[sso-session corp]\na=3\n", "",
        {"default": {"a": "1"}, "dev": {"a": "2"}}, {"corp": {"a": "3"}}),
    Row("a section of the credentials file has the profile's name alone",
        "", "[dev]\na=1\n[default]\na=2\n", {"dev": {"a": "1"}, "default": {"a": "2"}}),
    Row("`[profile NAME]` in the credentials file is left out",
        "", "[profile dev]\na=1\n", {}, {}, ("credentials, line 1: [profile dev] is left out",)),
    Row("`[NAME]` in the config file is left out",
        "[dev]\na=1\n", "", {}, {}, ("config, line 1: [dev] is left out",)),
    Row("a section of another kind is left out",
        "[plugins dev]\na=1\n[profile x]\n", "", {"x": {}}, {}, ("config, line 1: [plugins dev] is left out",)),
    Row("`[services NAME]` has nothing that gives credentials",
        "[services s]\nsts =\n  endpoint_url = https://x\n", "", {}),
    Row("`[sso-session NAME]` in the credentials file is left out",
        "", "[sso-session corp]\na=1\n", {}, {}, ("credentials, line 1: [sso-session corp] is left out",)),
    Row("`[profile default]` counts in place of `[default]`, in whatever order",
        "[profile default]\na=1\n[default]\na=2\nb=2\n", "", {"default": {"a": "1"}}, {},
        ("config, line 3: [default] is left out, since [profile default] is there",)),
    Row("a name with other characters than letters, digits and `_ - / . % @ : +` is left out",
        "[profile a b]\nx=1\n[profile \"q\"]\n[profile a/b.c@d]\nx=2\n", "[b c]\n[ü]\n",
        {"a/b.c@d": {"x": "2"}}, {},
        ("config, line 1: [profile a b]", "config, line 3: [profile \"q\"]", "credentials, line 1: [b c]", "credentials, line 2: [ü]")),
    Row("a setting whose name has such a character is left out",
        "[default]\na b = 1\nc = 2\n", "", {"default": {"c": "2"}}, {}, ("config, line 2: a b of [default] is left out",)),
    Row("names of sections keep their case",
        "[profile Dev]\na=1\n[profile dev]\na=2\n[PROFILE x]\n", "", {"Dev": {"a": "1"}, "dev": {"a": "2"}}, {},
        ("config, line 5: [PROFILE x]",)),
    Row("names of settings have no case", "[default]\nAWS_Access_Key_ID = K\n", "", {"default": {"aws_access_key_id": "K"}}),
    Row("blanks around names, values and brackets do not count",
        "[  profile \t dev ]  \na \t=\t 1 2 \t\n", "", {"dev": {"a": "1 2"}}),
    Row("a line that begins with `#` or `;` is a comment", "# x\n; y\n[default]\n#[z]\na=1\n;b=2\n", "", {"default": {"a": "1"}}),
    Row("`#` or `;` behind a blank begins a comment behind a value",
        "[default]\na = 1 # x\nb = 2\t; y\nc = # z\n", "", {"default": {"a": "1", "b": "2", "c": ""}}),
    Row("`#` or `;` without a blank before it belongs to the value", "[default]\na = 1#2;3\nb=#4\n", "", {"default": {"a": "1#2;3", "b": "#4"}}),
    Row("`#` or `;` behind a section begins a comment", "[profile dev]# x\na=1\n[default];y\n", "", {"dev": {"a": "1"}, "default": {}}),
    Row("the first `=` ends the name", "[default]\na = b = c=d\n", "", {"default": {"a": "b = c=d"}}),
    Row("an empty value is a value", "[default]\na =\nb=\n", "", {"default": {"a": "", "b": ""}}),
    Row("quotation marks belong to the value", "[default]\ncredential_process = \"/opt/a b\" c 'd'\n", "",
        {"default": {"credential_process": "\"/opt/a b\" c 'd'"}}),
    Row("of a section that stands twice all settings count, of a setting that stands twice the later",
        "[profile d]\na=1\nb=1\nA=2\n[profile e]\n[profile d]\nb=3\nc=3\n", "", {"d": {"a": "2", "b": "3", "c": "3"}, "e": {}}),
    Row("of a profile in both files all settings count, of a setting in both that of the credentials file",
        "[profile d]\na=1\nb=1\n[default]\na=1\n", "[d]\nb=2\nc=2\n[default]\nb=2\n",
        {"d": {"a": "1", "b": "2", "c": "2"}, "default": {"a": "1", "b": "2"}}),
    Row("a line that begins with a blank goes on with the value above it",
        "[default]\na = 1\n  2 \n\t3 # x\nb=4\n", "", {"default": {"a": "1\n2\n3 # x", "b": "4"}}),
    Row("blank lines and comments do not end a value", "[default]\na = 1\n\n# x\n  2\n", "", {"default": {"a": "1\n2"}}),
    Row("below an empty value stand settings within the setting", "[default]\ns3 =\n  a = 1\n  b = 2\nc=3\n", "",
        {"default": {"s3": "\na = 1\nb = 2", "c": "3"}}),
    Row("what stands below an empty value and is no setting refuses the files",
        "[default]\ns3 =\n  a\n", refused="config, line 3: a setting has the form name = value"),
    Row("a line behind a section that begins with a blank refuses the files",
        "[default]\n  a = 1\n", refused="config, line 2: a line that begins with a blank stands behind a setting"),
    Row("a setting without `=` refuses the files", "[default]\nsecret words\n", refused="config, line 2: a setting has the form name = value"),
    Row("a setting without a name refuses the files", "[default]\n= 1\n", refused="config, line 2: a setting has a name"),
    Row("a setting before the first section refuses the files", "a = 1\n[default]\n", refused="config, line 1: a section, as [default], has to come first"),
    Row("a section without `]` at its end refuses the files",
        "[default\na = 1\n", refused="config, line 1: a section ends with ]"),
    Row("one file that is refused refuses both", "[default]\na=1\n", "[default]\nx\n", refused="credentials, line 2: a setting has the form name = value"),
    Row("a file that is not UTF-8 refuses the files", b"[default]\na=\xff\n", refused="config, line 2: the file is not UTF-8"),
    Row("lines end with a line feed, or with a carriage return before it", "[default]\r\na = 1\r\n\r\nb = 2\r\n", "", {"default": {"a": "1", "b": "2"}}),
    Row("the last line needs no end", "[default]\na = 1", "", {"default": {"a": "1"}}),
)


class ProfileFiles(unittest.TestCase):
    """The table, and where the files are."""

    def setUp(self) -> None:
        self.home = tempfile.mkdtemp(prefix="bujerova-host-")
        self.addCleanup(shutil.rmtree, self.home)
        os.mkdir(os.path.join(self.home, ".aws"))

    def write(self, path: str, text: str | bytes) -> str:
        path = os.path.join(self.home, path)
        with open(path, "wb") as file:
            file.write(text if isinstance(text, bytes) else text.encode())
        return path

    def row(self, row: Row) -> None:
        self.write(".aws/config", row.config)
        self.write(".aws/credentials", row.credentials)
        loaded = load({"HOME": self.home})
        if row.refused:
            self.assertEqual(os.path.join(self.home, ".aws", row.refused), loaded.refused)
            self.assertEqual(({}, {}), (loaded.profiles, loaded.sessions))
            return
        self.assertIsNone(loaded.refused)
        self.assertEqual((row.profiles, row.sessions), (loaded.profiles, loaded.sessions))
        told = [str(one).removeprefix(os.path.join(self.home, ".aws", "")) for one in loaded.left_out]
        self.assertEqual(len(row.left_out), len(told), told)
        for wanted, text in zip(row.left_out, told):
            self.assertTrue(text.startswith(wanted), (wanted, text))

    def test_where_the_files_are(self) -> None:
        self.assertEqual([os.path.join(self.home, ".aws", name) for name in ("config", "credentials")], self.paths())
        self.assertEqual(["/x", self.home + "/y"], self.paths(AWS_CONFIG_FILE="/x", AWS_SHARED_CREDENTIALS_FILE="~/y"))
        self.assertEqual(["x~", "~y/z"], self.paths(AWS_CONFIG_FILE="x~", AWS_SHARED_CREDENTIALS_FILE="~y/z"))
        self.assertEqual([".aws/config"], [path.partition("~/")[2] for path in [load({}).files[0].path]])

    def paths(self, **variables: str) -> list[str]:
        return [file.path for file in load({"HOME": self.home, **variables}).files]

    def test_a_file_that_cannot_be_read_has_no_sections(self) -> None:
        self.write(".aws/credentials", "[default]\na=1\n")
        os.mkdir(os.path.join(self.home, ".aws", "config"))
        loaded = load({"HOME": self.home})
        self.assertEqual(["Is a directory", ""], [file.cause for file in loaded.files])
        self.assertEqual({"default": {"a": "1"}}, loaded.profiles)
        self.assertEqual("No such file or directory", load({"HOME": "/nowhere"}).files[0].cause)
        self.assertEqual("no path", load({"HOME": "a\0b"}).files[0].cause)

    def test_no_text_of_a_file_is_told_of_a_refusal(self) -> None:
        for text in ("[default]\nMARKER\n", "MARKER\n", "[MARKER\n", "[default]\n MARKER\n", "[default]\na=\n MARKER\n"):
            self.write(".aws/config", text)
            self.assertNotIn("MARKER", load({"HOME": self.home}).refused)

    def test_the_page_has_these_rules(self) -> None:
        with open(os.path.join(REPOSITORY, "docs", "HOST.md"), encoding="utf-8") as file:
            page = file.read()
        table = page.partition("\n## Profile files\n")[2].partition("\n## ")[0]
        told = [line.split(" | ")[0].removeprefix("| ") for line in table.split("\n") if line.startswith("| ")][1:]
        self.assertEqual([row.rule for row in ROWS], told)


def _add(number: int, row: Row) -> None:
    def test(self: ProfileFiles) -> None:
        self.row(row)

    test.__doc__ = row.rule
    setattr(ProfileFiles, f"test_rule_{number:02d}", test)


for _number, _row in enumerate(ROWS, 1):
    _add(_number, _row)
