"""Why a file, or the standard output, couldn't be written."""
from __future__ import annotations

import os
import re
import stat
from collections.abc import Iterator

FULL = os.makedev(1, 7)
ROOM = 65536
"""A disk with fewer free bytes counts as full."""


def unwritten(words: list[str]) -> Iterator[str]:
    """What is seen of an answer that couldn't be written: the first file with a cause, or the standard output."""
    for file, what in _puts(words):
        cause = file_cause(file)
        if cause:
            yield f"{file}: the {what} can't be written: {cause}"
            return
    cause = output_cause()
    if cause:
        yield f"the standard output can't be written: {cause}"


def _puts(words: list[str]) -> Iterator[tuple[str, str]]:
    """The files that a call puts, in their order, with what they hold."""
    for option, file in zip(words, words[1:]):
        if option == "--cert":
            yield from ((file + it, "certificate") for it in (_points(words) if words[0] == "sweep" else ("",)))
    if words[:1] == ["fold"] and len(words) > 3:
        yield words[3], "folded workload"


def _points(words: list[str]) -> list[str]:
    """The numbers of the points of a sweep, which end the names of its certificates."""
    count = words[5] if len(words) > 5 and re.fullmatch("[0-9]{1,2}", words[5]) else "1"
    return [str(it) for it in range(1, int(count) + 1)]


def file_cause(name: str) -> str | None:
    """What forbids to write a file of this name, if anything is seen to. Nothing is changed."""
    folder = os.path.dirname(name) or "."
    if not os.path.exists(folder):
        return f"there is no folder {folder}"
    if not os.path.isdir(folder):
        return f"{folder} is no folder"
    try:
        if os.path.exists(name):
            os.close(os.open(name, os.O_WRONLY | os.O_NONBLOCK))
            return _cause(os.stat(name), os.statvfs(name))
        os.lstat(name)
        return "it is a link to a file that can't be made"
    except FileNotFoundError:
        return _folder_cause(folder)
    except OSError as fault:
        return fault.strerror


def _folder_cause(folder: str) -> str | None:
    system = os.statvfs(folder)
    if not os.access(folder, os.W_OK | os.X_OK):
        is_fixed = system.f_flag & os.ST_RDONLY
        return f"{folder} can only be read" if is_fixed else f"you have no right to write into {folder}"
    if system.f_files and not system.f_favail:
        return "its disk has room for no more files"
    return _cause(os.stat(folder), system)


def output_cause() -> str | None:
    """What forbids to write to the standard output, if anything is seen to. A pipe that nobody reads any more isn't told."""
    try:
        return _cause(os.fstat(1), os.fstatvfs(1))
    except OSError as fault:
        return fault.strerror


def _cause(status: os.stat_result, system: os.statvfs_result) -> str | None:
    if stat.S_ISCHR(status.st_mode):
        return "it is /dev/full, which takes nothing" if status.st_rdev == FULL else None
    if not (stat.S_ISREG(status.st_mode) or stat.S_ISDIR(status.st_mode)):
        return None
    free = system.f_bfree if os.geteuid() == 0 else system.f_bavail
    return "no space is left on its disk" if free * system.f_frsize < ROOM else None
