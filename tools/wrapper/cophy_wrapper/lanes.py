"""Proves several crates at once, each as soon as those below it are proved.

A lane is the checkout or a copy of its sources, in which one crate at a time is proved: two calls of `rt` don't work in
one copy, but take from each other what is proved, as long as it is there.
"""
from __future__ import annotations

import shutil
import tempfile
from collections.abc import Iterator
from contextlib import ExitStack, contextmanager
from pathlib import Path
from typing import IO

from cophy_wrapper.crates import lines_behind
from cophy_wrapper.process import Process


class Lane:
    """A folder, and the crate that is proved there, if any."""

    def __init__(self, folder: Path) -> None:
        self.folder = folder
        self.crate: str | None = None
        self.process: Process | None = None
        self.said: IO[bytes] | None = None

    def begin(self, crate: str, command: list[str]) -> None:
        """Begins to prove a crate."""
        self.said = tempfile.TemporaryFile()
        self.process = Process(command, self.folder / "crates" / crate, self.said)
        self.crate = crate

    def has_ended(self) -> bool:
        """Whether a crate was begun here and its process has come to an end."""
        return self.process is not None and self.process.status() is not None

    def hand_over(self, log: IO[bytes]) -> bool:
        """Appends what was said of the crate that has ended to the log, and says whether it is proved."""
        assert self.process is not None and self.said is not None
        is_proved = self.process.status() == 0
        if is_proved:
            log.write(f"== {self.crate}\n".encode())
        self.said.seek(0)
        shutil.copyfileobj(self.said, log)
        log.flush()
        self.said.close()
        self.crate = self.process = self.said = None
        return is_proved

    def leave(self) -> None:
        """Ends what runs here."""
        if self.process is not None:
            self.process.end()
        if self.said is not None:
            self.said.close()


class SideBySide:
    """The crates that the program stands on while they are proved in several lanes."""

    def __init__(self, root: Path, below: dict[str, list[str]], lanes: list[Lane], jobs: int) -> None:
        self.below, self.lanes = below, lanes
        self.behind = lines_behind(root, below)
        self.most = jobs - len(lanes) + 1
        self.proved: set[str] = set()

    def go_on(self, log: IO[bytes]) -> bool:
        """Notes what has ended, begins what can be proved, and says whether anything runs.

        Nothing does when all crates are proved, or as soon as one isn't; nor where `crates.txt` goes in a circle.
        """
        for lane in self.lanes:
            if lane.has_ended():
                ended = str(lane.crate)
                if not lane.hand_over(log):
                    return False
                self.proved.add(ended)
        for lane in self.lanes:
            crate = self._next_crate() if lane.crate is None else None
            if crate is not None:
                lane.begin(crate, self._command(crate))
        return any(it.crate is not None for it in self.lanes)

    def _next_crate(self) -> str | None:
        """The crate to begin with next: of those whose libraries are proved the one for which the most waits."""
        begun = {it.crate for it in self.lanes} | self.proved
        ready = [it for it, below in self.below.items() if it not in begun and self.proved.issuperset(below)]
        return max(ready, key=lambda it: self.behind[it]) if ready else None

    def _command(self, crate: str) -> list[str]:
        """What proves a crate: with several processes if it is the one for which the most waits, else with one that steps
        back."""
        if all(self.behind[it.crate] < self.behind[crate] for it in self.lanes if it.crate is not None):
            return ["rt", "lib", "--jobs", str(self.most)]
        return ["nice", "rt", "lib", "--jobs", "1"]

    def is_done(self) -> bool:
        """Whether all crates are proved."""
        return len(self.proved) == len(self.below)


@contextmanager
def lanes_of(root: Path, count: int) -> Iterator[list[Lane]]:
    """So many lanes, or as many as there is room for; what runs in them is ended, and the copies are removed.

    The first is the checkout: the last crate is proved there, when all lanes are free, so that by then `rt` has taken there
    what was proved in the copies.
    """
    with ExitStack() as stack:
        lanes = [Lane(root)]
        stack.callback(lanes[0].leave)
        while len(lanes) < count:
            copy = stack.enter_context(ExitStack())
            try:
                folder = Path(copy.enter_context(tempfile.TemporaryDirectory(ignore_cleanup_errors=True)))
                shutil.copy2(root / "crates.txt", folder)
                shutil.copytree(root / "crates", folder / "crates", True, shutil.ignore_patterns("out"))
            except OSError:
                copy.close()
                break
            lanes.append(Lane(folder))
            stack.callback(lanes[-1].leave)
        yield lanes
