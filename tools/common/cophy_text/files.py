"""The files that a command writes: whole or not at all, and never one over another."""
from __future__ import annotations

import errno
import os
import signal
import stat
import sys
import tempfile
from collections.abc import Iterator
from contextlib import contextmanager, suppress
from dataclasses import dataclass
from pathlib import Path

OUTPUT = frozenset(("-", "/dev/stdout", "/dev/fd/1", "/proc/self/fd/1"))
ENDS = (signal.SIGINT, signal.SIGTERM, signal.SIGHUP)
PRIVATE = 0o600


class NoFile(Exception):
    """A file that can't be read or written, and why."""


@dataclass
class File:
    """A file that is to be written. A private one is for its owner's eyes alone; one that was there `before` keeps its mode
    and, where root writes it, its owner."""

    name: str
    content: bytes
    is_private: bool = True
    before: os.stat_result | None = None


def read(name: str) -> bytes:
    """What a file or, for `-`, the standard input holds."""
    try:
        return sys.stdin.buffer.read() if name == "-" else Path(name).read_bytes()
    except OSError as fault:
        raise NoFile(_why(name, fault)) from None


def check(outputs: list[str | None], inputs: list[str | None] = []) -> None:
    """Refuses outputs that can't be written, that are one file, or that would go over an input."""
    seen: dict[object, str] = {}
    # The standard input and the standard output are both called `-`.
    for name in (it for it in inputs if it and it != "-"):
        for it in _identities(name):
            seen.setdefault(it, f"{name} is read")
    for name in filter(None, outputs):
        kind = _kind(name)
        for it in _identities(name):
            if it in seen:
                raise NoFile(f"{shown(name)} can't be written: {shown(seen[it])}, and it is the same file")
        if kind != "device":
            seen |= {it: f"{name} is written too" for it in _identities(name)}


def _kind(name: str) -> str:
    """Whether a name is the standard output, a device, or a file in a folder that may be written to."""
    if name in OUTPUT:
        return "output"
    try:
        mode = os.lstat(name).st_mode
    except FileNotFoundError:
        mode = 0
    except OSError as fault:
        raise NoFile(_why(name, fault)) from None
    if stat.S_ISLNK(mode):
        raise NoFile(f"{shown(name)} is a symbolic link, and nothing is written through one: name the file itself")
    if stat.S_ISDIR(mode):
        raise NoFile(f"{shown(name)} is a folder")
    if mode and not stat.S_ISREG(mode):
        return "device"
    folder = os.path.dirname(name) or "."
    if not os.path.isdir(folder):
        raise NoFile(f"{shown(name)} can't be written: there is no folder {shown(folder)}")
    if not os.access(folder, os.W_OK | os.X_OK):
        raise NoFile(f"{shown(name)} can't be written: the folder {shown(folder)} may not be written to")
    return "file"


def _identities(name: str) -> Iterator[object]:
    """What tells whether two names are one file: its place, and where it is there its number."""
    if name in OUTPUT:
        yield "-"
        return
    yield os.path.join(os.path.realpath(os.path.dirname(name) or "."), os.path.basename(name))
    with suppress(OSError):
        found = os.stat(name)
        yield found.st_dev, found.st_ino


def write(files: list[File]) -> None:
    """Writes all files beside their places and then puts them there, so that each is the old one or the new one."""
    direct = [it for it in files if _kind(it.name) != "file"]
    with _undisturbed():
        made: list[tuple[str, str]] = []
        try:
            made += ((_beside(it), it.name) for it in files if it not in direct)
            while made:
                _put(*made[0])
                made.pop(0)
        finally:
            for beside, _ in made:
                with suppress(OSError):
                    os.unlink(beside)
    for it in direct:
        _directly(it)


def _beside(file: File) -> str:
    """The name of a new file in the same folder that holds the content, on the disk and not in its cache alone."""
    folder, name = os.path.split(file.name)
    beside = ""
    try:
        handle, beside = tempfile.mkstemp(prefix=f".{name[:100]}.", dir=folder or ".")
        with os.fdopen(handle, "wb") as opened:
            opened.write(file.content)
            opened.flush()
            if file.before is not None and os.geteuid() == 0:
                os.fchown(handle, file.before.st_uid, file.before.st_gid)
            new = PRIVATE if file.is_private else 0o666 & ~_mask()
            os.fchmod(handle, new if file.before is None else stat.S_IMODE(file.before.st_mode))
            os.fsync(handle)
    except BaseException as fault:
        if beside:
            with suppress(OSError):
                os.unlink(beside)
        if isinstance(fault, OSError):
            raise NoFile(_why(file.name, fault)) from None
        raise
    return beside


def _put(beside: str, name: str) -> None:
    try:
        os.replace(beside, name)
        folder = os.open(os.path.dirname(name) or ".", os.O_RDONLY | os.O_DIRECTORY)
    except OSError as fault:
        raise NoFile(_why(name, fault)) from None
    with suppress(OSError):
        os.fsync(folder)
    os.close(folder)


def _directly(file: File) -> None:
    """Writes to the standard output or to a device, such as /dev/null."""
    try:
        if file.name in OUTPUT:
            if sys.stdout.isatty() and not _is_plain(file.content):
                raise NoFile("the standard output is a terminal, which might obey what is to be written: name a file")
            sys.stdout.flush()
            sys.stdout.buffer.write(file.content)
            sys.stdout.buffer.flush()
        else:
            with open(file.name, "wb", buffering=0) as opened:
                opened.write(file.content)
    except BrokenPipeError:
        raise
    except OSError as fault:
        raise NoFile(_why(file.name, fault)) from None


def _is_plain(content: bytes) -> bool:
    """Whether a terminal shows all of a text."""
    try:
        return all(it.isprintable() or it in "\n\t" for it in content.decode())
    except UnicodeDecodeError:
        return False


def _mask() -> int:
    mask = os.umask(0o077)
    os.umask(mask)
    return mask


@contextmanager
def _undisturbed() -> Iterator[None]:
    """Puts off what would end the program until all files are in place."""
    before = signal.pthread_sigmask(signal.SIG_BLOCK, ENDS)
    try:
        yield
    finally:
        signal.pthread_sigmask(signal.SIG_SETMASK, before)


_CAUSES = {
    errno.ENOSPC: "the disk is full",
    errno.EDQUOT: "the quota is used up",
    errno.ENOENT: "it isn't there",
    errno.EACCES: "it may not be opened",
    errno.EPERM: "it may not be opened",
    errno.EISDIR: "it is a folder",
    errno.ENOTDIR: "a part of its path is no folder",
    errno.EROFS: "the file system may only be read",
    errno.ELOOP: "its path goes round in links",
    errno.ENAMETOOLONG: "its name is too long",
}


def _why(name: str, fault: OSError) -> str:
    return f"{shown(name)}: {_CAUSES.get(fault.errno or 0) or fault.strerror or 'it fails'}"


def shown(name: str) -> str:
    """A file's name on one line."""
    return name if name.isprintable() else ascii(name)
