"""The line of the role `cophy_advisor` in the file of passwords."""
from __future__ import annotations

import io
import os

from cophy_text import files
from cophy_pg.inputs import ADVISOR
from cophy_pg.progress import say


def keep(host: str, port: str, secret: str) -> None:
    """Puts the password before the other lines of the file of passwords, in the place of the one before."""
    name = _name()
    begin = _begin(host, port)
    others = [it for it in _lines(name) if not it.startswith(begin)]
    files.write([files.File(name, b"".join([begin, secret.encode(), b"\n", *others]))])
    say(f"the password of {ADVISOR} is new, and stands in {files.shown(name)}")


def forget(host: str, port: str) -> str:
    """Takes the role's line for a host and a port away, and a file that has no other; its name, or nothing where it has no such
    line."""
    name = _name()
    begin, lines = _begin(host, port), _lines(name)
    others = [it for it in lines if not it.startswith(begin)]
    if others == lines:
        return ""
    if not others and not os.path.islink(name):
        os.unlink(name)
    else:
        files.write([files.File(name, b"".join(others), before=os.stat(name))])
    return name


def _name() -> str:
    return os.environ.get("PGPASSFILE") or os.path.expanduser("~/.pgpass")


def _begin(host: str, port: str) -> bytes:
    """What the role's line begins with."""
    place = ":".join(it.replace("\\", "\\\\").replace(":", "\\:") for it in (host, port))
    return os.fsencode(f"{place}:*:{ADVISOR}:")


def _lines(name: str) -> list[bytes]:
    """The lines of a file, each with its end, as libpq reads them; none where there is no file."""
    return io.BytesIO(files.read(name)).readlines() if os.path.lexists(name) else []
