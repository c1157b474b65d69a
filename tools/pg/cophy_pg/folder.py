"""The folder in which `advise` keeps what each of its steps reads and writes."""
from __future__ import annotations

import os
import re
import shlex
import stat
from collections.abc import Iterator
from contextlib import contextmanager, suppress
from datetime import datetime
from typing import BinaryIO

from cophy_text import files
from cophy_text.files import File, NoFile, shown

CATALOGUE, WORKLOAD, EXPORT = "catalogue.toml", "workload.sql", "export.txt"
SNAPSHOT, LINT = "snapshot.json", "lint.txt"
ADVICE, CERTIFICATE, CHECK = "advice.txt", "certificate", "check.txt"
RULES, RULED = "rules.txt", "ruled.txt"
VERIFY, KEPT, DDL, PLANS = "verify.json", "kept.txt", "indexes.sql", "plans.json"
SUMMARY, RESULT, REPORT, COMMANDS = "summary.txt", "advice.json", "report.html", "commands.txt"
CURVE, DETAILS = "curve.json", "details.txt"
UNFINISHED = "unfinished.txt"
DATABASE = "database.toml"
"""The catalogue with all tables, also those that no statement names."""
CHANGES, CHANGES_JSON = "changes.txt", "changes.json"
EFFECT = "effect.json"
"""A snapshot, as snapshot.json is one, of when `effect` first saw that all indexes stand."""


_NAME = re.compile(r"cophy-advice-\d{8}-\d{6}")
_OF = re.compile(rb"# The database '([A-Za-z0-9_]+)', exported by")


class Folder:
    """A folder that is its owner's alone."""

    def __init__(self, name: str) -> None:
        self.name = name

    @staticmethod
    def made(name: str | None) -> Folder:
        """The folder of this name, or else a new one by the time; it is made where it isn't there."""
        given = name or datetime.now().strftime("cophy-advice-%Y%m%d-%H%M%S")
        try:
            os.mkdir(given, 0o700)
        except FileExistsError:
            if name is None:
                raise NoFile(f"{shown(given)} is there already") from None
            _check(given)
        except OSError as fault:
            raise NoFile(f"{shown(given)}: {fault.strerror}") from None
        return Folder(given)

    @staticmethod
    def last() -> Folder:
        """The last one here that has such a name and an advice, or else that was broken off."""
        here = [it for it in os.listdir() if _NAME.fullmatch(it) and os.lstat(it).st_uid == os.geteuid()]
        begun = max((it for it in here if Folder(it).has(CATALOGUE)), default=None)
        name = max((it for it in here if Folder(it).has(RESULT)), default=begun)
        if name is None:
            raise NoFile("no folder of advise is here: name it")
        return Folder(name)

    @contextmanager
    def unless_empty(self) -> Iterator[Folder]:
        """Takes the folder away at the end where nothing was put into it."""
        try:
            yield self
        finally:
            with suppress(OSError):
                os.rmdir(self.name)

    def path(self, name: str) -> str:
        """The path of a file in it."""
        return os.path.join(self.name, name)

    def write(self, contents: dict[str, bytes | str]) -> None:
        """Writes files, all together."""
        listed = ((name, it.encode(errors="replace") if isinstance(it, str) else it) for name, it in contents.items())
        files.write([File(self.path(name), it) for name, it in listed])

    def read(self, name: str) -> bytes:
        """What a file in it holds."""
        return files.read(self.path(name))

    def result(self) -> bytes:
        """What `advise` found; where it was broken off, that is told, with what begins it anew."""
        if self.has(RESULT) or not self.has(CATALOGUE):
            return self.read(RESULT)
        known = _OF.match(self.read(CATALOGUE))
        told = f"{shown(self.name)}: this advice was broken off, or isn't done yet; anew: cophy-pg advise "
        told += f"{known[1].decode() if known else 'DATABASE'} --folder {shlex.quote(self.name)}"
        if self.has(UNFINISHED):
            words = shlex.join(["ddl", self.path(CATALOGUE), self.path(UNFINISHED), "--script"])
            told += f"; what its last search advised, which the server didn't judge: cophy-pg {words}"
        raise NoFile(told)

    @contextmanager
    def opened(self, name: str) -> Iterator[BinaryIO]:
        """A file in it that is to be run, and so has to be ours, where nobody else may write to it or put another there."""
        _check(self.name)
        try:
            file = open(self.path(name), "rb")
        except OSError as fault:
            raise NoFile(f"{shown(self.path(name))}: {fault.strerror}") from None
        with file:
            _check_own(self.path(name), os.fstat(file.fileno()))
            yield file

    def has(self, name: str) -> bool:
        """Whether it has such a file."""
        return os.path.isfile(self.path(name))

    def whole(self) -> str:
        """The name of the catalogue with all tables, which an older folder has alone."""
        return DATABASE if self.has(DATABASE) else CATALOGUE

    def clear(self, *names: str) -> None:
        """Takes files of an earlier run away."""
        for it in names:
            try:
                os.unlink(self.path(it))
            except FileNotFoundError:
                pass
            except OSError as fault:
                raise NoFile(f"{shown(self.path(it))}: {fault.strerror}") from None


def _check(name: str) -> None:
    """Refuses what others could write to."""
    found = os.lstat(name)
    if stat.S_ISLNK(found.st_mode):
        raise NoFile(f"{shown(name)} is a symbolic link, and nothing is written through one: name the folder itself")
    if not stat.S_ISDIR(found.st_mode):
        raise NoFile(f"{shown(name)} is no folder")
    _check_own(name, found)


def _check_own(name: str, found: os.stat_result) -> None:
    if found.st_uid != os.geteuid() or found.st_mode & 0o022:
        raise NoFile(f"{shown(name)} belongs to others, or others may write to it: name another folder")
