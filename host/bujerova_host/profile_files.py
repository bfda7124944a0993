"""The shared config and credentials files, by the rules of AWS's SDKs.

A file is lines; a line is blank, a comment, a section, a setting, or, where it begins with a blank, more of the value
above it. docs/HOST.md has the rules as a table, and where each is known from."""

from __future__ import annotations

import re
from typing import Mapping, NamedTuple

BLANKS = " \t"
COMMENTS = "#;"
COMMENT_BEHIND_VALUE = re.compile(r"(?<=\s)[#;].*", re.DOTALL)
COMMENT_BEHIND_SECTION = re.compile(r"[#;].*", re.DOTALL)
NAME = re.compile(r"[A-Za-z0-9_\-/.%@:+]+")
CONFIG = ("AWS_CONFIG_FILE", "~/.aws/config")
CREDENTIALS = ("AWS_SHARED_CREDENTIALS_FILE", "~/.aws/credentials")

Keys = dict[str, str]


class File(NamedTuple):
    """A file that was looked for, and why it was not read, where it was not."""

    path: str
    cause: str = ""


class LeftOut(NamedTuple):
    """What stands in a file and does not count."""

    path: str
    line: int
    what: str
    cause: str

    def __str__(self) -> str:
        return f"{self.path}, line {self.line}: {self.what} is left out, since {self.cause}"


class Refused(Exception):
    """A file is none that can be read; the text names its place, and nothing that stands there."""

    def __init__(self, path: str, line: int, cause: str) -> None:
        super().__init__(f"{path}, line {line}: {cause}" if line else f"{path}: {cause}")


class Profiles(NamedTuple):
    """The sections of both files together, or why they are refused."""

    profiles: dict[str, Keys]
    sessions: dict[str, Keys]
    left_out: list[LeftOut]
    files: list[File]
    refused: str | None = None


class Section(NamedTuple):
    """A section as it stands: what is between its brackets, its line, and its settings, each with its line."""

    header: str
    line: int
    settings: dict[str, tuple[str, int]]


def load(environ: Mapping[str, str]) -> Profiles:
    """The sections of this machine's two files; of two equal settings that of the credentials file counts."""
    loaded = Profiles({}, {}, [], [])
    try:
        for place, is_config in ((CONFIG, True), (CREDENTIALS, False)):
            path = _path(environ, *place)
            text, cause = _text(path)
            loaded.files.append(File(path, cause))
            _merge(loaded, path, parse(path, text), is_config)
    except Refused as refused:
        return loaded._replace(profiles={}, sessions={}, refused=str(refused))
    return loaded


def parse(path: str, text: str) -> list[Section]:
    """The sections of a text, in order. Refused where a line is none of a file."""
    sections: list[Section] = []
    key = None
    for number, line in enumerate(text.split("\n"), 1):
        line = line.removesuffix("\r")
        if not line.strip(BLANKS) or line[0] in COMMENTS:
            continue
        if line[0] == "[":
            sections.append(Section(_header(path, number, line), number, {}))
            key = None
        elif not sections:
            raise Refused(path, number, "a section, as [default], has to come first")
        elif line[0] in BLANKS:
            _continue(path, number, line, sections[-1], key)
        else:
            key, value = _setting(path, number, line)
            sections[-1].settings[key] = (value, number)
    return sections


def _header(path: str, number: int, line: str) -> str:
    line = COMMENT_BEHIND_SECTION.sub("", line).strip(BLANKS)
    if not line.endswith("]"):
        raise Refused(path, number, "a section ends with ]")
    return line[1:-1].strip(BLANKS)


def _setting(path: str, number: int, line: str) -> tuple[str, str]:
    line = COMMENT_BEHIND_VALUE.sub("", line.strip(BLANKS))
    key, equals, value = line.partition("=")
    if not equals:
        raise Refused(path, number, "a setting has the form name = value")
    if not key.strip(BLANKS):
        raise Refused(path, number, "a setting has a name")
    return key.strip(BLANKS).lower(), value.strip(BLANKS)


def _continue(path: str, number: int, line: str, section: Section, key: str | None) -> None:
    if key is None:
        raise Refused(path, number, "a line that begins with a blank stands behind a setting")
    value, first = section.settings[key]
    if not value or value.startswith("\n"):
        _setting(path, number, line)    # settings within a setting have the form of settings
    section.settings[key] = (value + "\n" + line.strip(BLANKS), first)


def _merge(into: Profiles, path: str, sections: list[Section], is_config: bool) -> None:
    prefixed = is_config and any(section.header.split() == ["profile", "default"] for section in sections)
    for section in sections:
        kind, name, cause = _kind(section.header, is_config, prefixed)
        if cause:
            into.left_out.append(LeftOut(path, section.line, f"[{section.header}]", cause))
            continue
        if kind == "services":
            continue
        keys = (into.sessions if kind == "sso-session" else into.profiles).setdefault(name, {})
        for key, (value, line) in section.settings.items():
            if NAME.fullmatch(key):
                keys[key] = value
            else:
                into.left_out.append(LeftOut(path, line, f"{key} of [{section.header}]", "this is no name of a setting"))


def _kind(header: str, is_config: bool, prefixed: bool) -> tuple[str, str, str]:
    """What a section is, its name, and why it is left out where it is."""
    kind, *names = re.split(f"[{BLANKS}]+", header, maxsplit=1)
    cause = ""
    if not is_config:
        if names:
            cause = "a section of the credentials file has the profile's name alone"
        kind, names = "profile", [header]
    elif header == "default":
        kind, names = "profile", [header]
        cause = "[profile default] is there, and counts in its place" if prefixed else ""
    elif kind not in ("profile", "sso-session", "services") or not names:
        cause = "a section of the config file has a kind and a name, as [profile dev]"
    if not cause and not NAME.fullmatch(names[0]):
        cause = "this is no name: it has letters, digits and _ - / . % @ : + alone"
    return kind, names[0] if names else "", cause


def _path(environ: Mapping[str, str], variable: str, default: str) -> str:
    """Where a file is: `~` stands for what HOME says."""
    path = environ.get(variable, default)
    home = environ.get("HOME")
    return home + path[1:] if home is not None and (path == "~" or path.startswith("~/")) else path


def _text(path: str) -> tuple[str, str]:
    """A file's text, or none and why. Refused where it is not UTF-8."""
    try:
        with open(path, "rb") as file:
            return file.read().decode("utf-8"), ""
    except UnicodeDecodeError as error:
        raise Refused(path, error.object[:error.start].count(b"\n") + 1, "the file is not UTF-8") from None
    except (OSError, ValueError) as error:
        return "", getattr(error, "strerror", None) or "no path"
