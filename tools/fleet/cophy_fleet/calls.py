"""Calls of the program and of the exporter by a worker."""
from __future__ import annotations

import os
import subprocess
from dataclasses import dataclass
from functools import cache
from pathlib import Path

DONE, NODES_SPENT, FAULTY_WORDS, REFUSED, NOT_PROVED = 0, 1, 2, 5, 6
"""Statuses of the program that are answers, of words that it doesn't know, and of inputs that it refuses; another says that it
stopped."""
UNKNOWN = b"usage: unknown command"
CONNECTED = b"PG"
"""What variables of a connection begin with; the program gets none of them."""


class Failed(Exception):
    """What may succeed when it is tried again: a program that stopped, a server that can't be reached, a file that isn't
    there. The text names no part of a connection and no literal."""


class Refused(Exception):
    """The program refuses the input, and will again."""


class NoCommand(Exception):
    """The program is older than the command."""


@dataclass(frozen=True)
class Settings:
    """The programs by their files, what limits a call (nodes of a search, and seconds), and whether alike statements become
    one before a search."""

    program: str
    exporter: str
    steps: int
    nodes: int
    timeout: int
    fold: bool = True


def said(folder: str, settings: Settings, command: str, *more: str) -> str:
    """What the program answers in a folder that holds the inputs."""
    words = [settings.program, command, "catalogue.toml", "workload.sql", *more]
    done = ran(words, settings.timeout, folder)
    text = done.stdout.decode(errors="replace")
    if done.returncode == FAULTY_WORDS and done.stdout.startswith(UNKNOWN):
        raise NoCommand
    if done.returncode == REFUSED:
        raise Refused(text.split("\n", 1)[0])
    if done.returncode not in (DONE, NODES_SPENT, NOT_PROVED):
        raise Failed(f"cophy {command} stopped with status {done.returncode}")
    return text


def ran(words: list[str], timeout: int, folder: str | None = None, **more: str) -> subprocess.CompletedProcess[bytes]:
    """A call in a folder; with more variables, those of a connection are handed on too."""
    try:
        return subprocess.run(
            words,
            cwd=folder,
            env={**os.environ, **more, "COPHY_HINTS": "0"} if more else _variables(),
            stdin=subprocess.DEVNULL,
            capture_output=True,
            timeout=timeout,
            check=False,
        )
    except subprocess.TimeoutExpired:
        raise Failed(f"{Path(words[0]).name} {words[1]} took more than {timeout} seconds") from None
    except OSError as fault:
        raise Failed(f"{words[0]} can't be run: {fault.strerror}") from None


@cache
def _variables() -> dict[bytes, bytes]:
    """The variables of a program, as bytes: they are looked up once and not by each call."""
    return {it: value for it, value in os.environb.items() if not it.startswith(CONNECTED)} | {b"COPHY_HINTS": b"0"}


def last_line(text: bytes) -> str:
    """The last line that a program said, in ASCII."""
    lines = text.decode(errors="replace").strip().splitlines()
    return lines[-1].encode("ascii", "backslashreplace").decode().removeprefix("cophy-pg: ") if lines else ""
