"""The crates that the program stands on, as `crates.txt` lists them, and how much waits for each."""
from __future__ import annotations

import os
import re
from collections.abc import Iterator
from pathlib import Path

PROGRAM = "cophy_cli"
_LINE = re.compile(r"([a-z_0-9]+)[^#:]*:([^#]*)")


def below_program(root: Path) -> dict[str, list[str]]:
    """The crates that the program stands on, lowest first, each with those among them that it stands on itself."""
    listed: dict[str, list[str]] = {}
    for line in (root / "crates.txt").read_text().splitlines():
        found = _LINE.match(line)
        if found is not None:
            listed[found[1]] = found[2].split()
    needed: set[str] = set()
    waiting = [PROGRAM]
    while waiting:
        crate = waiting.pop()
        if crate in listed and crate not in needed:
            needed.add(crate)
            waiting += listed[crate]
    needed.discard(PROGRAM)
    return {crate: [it for it in below if it in needed] for crate, below in listed.items() if crate in needed}


def lines_behind(root: Path, below: dict[str, list[str]]) -> dict[str, int]:
    """By crate: the lines on the longest way from it up to the program, its own among them."""
    behind: dict[str, int] = {}
    for crate in reversed(below):
        own = sum(it.read_bytes().count(b"\n") for it in _sources(root / "crates" / crate))
        behind[crate] = behind.get(crate, 0) + own
        for it in below[crate]:
            behind[it] = max(behind.get(it, 0), behind[crate])
    return behind


def _sources(folder: Path) -> Iterator[Path]:
    for parent, folders, files in os.walk(folder):
        folders[:] = [it for it in folders if it != "out"]
        yield from (Path(parent) / it for it in files if it.endswith(".rt"))
