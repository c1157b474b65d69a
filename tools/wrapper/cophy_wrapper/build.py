"""Builds the program: each crate that it stands on is proved, and then it is built and run on an example."""
from __future__ import annotations

import os
import re
import signal
import subprocess
import sys
from collections.abc import Callable
from pathlib import Path
from typing import IO

from cophy_wrapper.crates import PROGRAM, below_program
from cophy_wrapper.lanes import SideBySide, lanes_of
from cophy_wrapper.process import Process
from cophy_wrapper.progress import Progress, say

MEMORY = 3 * 1024 * 1024
"""How many KiB a process that proves may need."""
NEWER = ["a source is newer than the program: proving what changed and building it again. That may take some minutes."]
FIRST = [
    "first use: each crate that it stands on is proved and then the program is built. That takes many minutes, an",
    "hour or more on a small machine; later calls start at once. For a first look in a few: cophy --unproved ...",
]


def processors() -> int:
    """How many processors there are to work with."""
    try:
        return int(subprocess.run(["nproc"], stdout=subprocess.PIPE, check=True).stdout)
    except (OSError, ValueError, subprocess.CalledProcessError):
        return 1


def jobs_at_once() -> int:
    """How many processes may prove at once: COPHY_JOBS, or two for each processor, as far as there is memory for each."""
    asked = os.environ.get("COPHY_JOBS", "")
    if re.fullmatch("[1-9][0-9]?", asked):
        return int(asked)
    if asked:
        say("COPHY_JOBS is no number from 1 to 99, and passed over")
    try:
        found = re.search(r"^MemAvailable: *(\d+) kB$", Path("/proc/meminfo").read_text(), re.MULTILINE)
    except OSError:
        found = None
    memory = int(found[1]) // MEMORY if found is not None else 0
    return max(1, min(2 * processors(), memory))


def program_of(root: Path) -> Path:
    """Where the program stands once it is built."""
    return root / "crates" / PROGRAM / "out" / PROGRAM


class Build:
    """One build of the program in a checkout."""

    def __init__(self, root: Path, log: IO[bytes]) -> None:
        self.root, self.log = root, log
        self.below = below_program(root)
        self.progress = Progress()

    def run(self) -> bool:
        """Proves the crates and builds the program, and says whether it stands."""
        count = len(self.below) + 1
        examples = self.root / "examples"
        # The program's first run, on an example, has to succeed.
        command = ["rt", "run", "--", "cost", str(examples / "single.toml"), str(examples / "single.sql")]
        return (
            self._prove(count)
            and self._step(PROGRAM, f"building {PROGRAM} ({count} of {count})", command)
            and os.access(program_of(self.root), os.X_OK)
        )

    def _prove(self, count: int) -> bool:
        """Proves the crates that the program stands on: several at once where the machine allows and there is no program
        yet, and else in turn, in the checkout, where `rt` has what it proved before."""
        jobs = jobs_at_once()
        # The first of several crates takes the processes that the others leave.
        lanes = min((jobs + 1) // 2, processors(), len(self.below))
        if lanes > 1 and not program_of(self.root).exists():
            return self._prove_side_by_side(f"proving {count} crates, with at most {jobs} processes", jobs, lanes)
        command = ["rt", "lib", "--jobs", str(min(jobs, processors()))]
        return all(
            self._step(crate, f"proving {crate} ({number} of {count})", command)
            for number, crate in enumerate(self.below, 1)
        )

    def _step(self, crate: str, what: str, command: list[str]) -> bool:
        """Runs a command in the folder of a crate, and says whether it succeeds."""
        process = Process(command, self.root / "crates" / crate, self.log)
        try:
            self.progress.tell_while(lambda: what, lambda: process.status() is None)
        finally:
            process.end()
        return process.status() == 0

    def _prove_side_by_side(self, what: str, jobs: int, count: int) -> bool:
        with lanes_of(self.root, count) as lanes:
            crates = SideBySide(self.root, self.below, lanes, jobs)

            def told() -> str:
                return f"{what}, {len(crates.proved)} done" if crates.proved else what

            self.progress.tell_while(told, lambda: crates.go_on(self.log))
            return crates.is_done()


def build(root: Path) -> bool:
    """Builds the program, tells of that, and says whether it stands."""
    out = root / "out"
    begun, log = out / "built.begun", out / "build.log"
    for line in NEWER if program_of(root).exists() else FIRST:
        say(line)
    say(f"the build writes to {log}")
    begun.touch()
    try:
        with log.open("wb") as said:
            started = Build(root, said)
            if started.run():
                begun.rename(out / "built")
                say(f"built, in {started.progress.so_far()}.")
                return True
    finally:
        begun.unlink(missing_ok=True)
    tell_end(f"the build failed; the end of {log}:", log)
    return False


def tell_end(why: str, log: Path) -> None:
    """Says why a build failed, and the end of what it wrote."""
    say(why)
    sys.stderr.buffer.write(b"".join(log.read_bytes().splitlines(True)[-5:]))


class Interrupted(BaseException):
    """The build was told to end."""


def _interrupt(*_: object) -> None:
    signal.signal(signal.SIGTERM, signal.SIG_IGN)
    raise Interrupted


def main(words: list[str]) -> int:
    """Takes the root of the repository."""
    return status_of(build, words)


def status_of(builder: Callable[[Path], bool], words: list[str]) -> int:
    """Builds in the repository of this root. The status is 0 where the program stands, 70 where it doesn't, 130 after an
    interrupt."""
    # The script is told of these, unless they are to be passed over, and then ends the build by SIGTERM.
    for number in (signal.SIGINT, signal.SIGHUP):
        signal.signal(number, signal.SIG_IGN)
    signal.signal(signal.SIGTERM, _interrupt)
    try:
        return 0 if builder(Path(words[0])) else 70
    except OSError as fault:
        say(f"the build can't go on: {fault.filename or words[0]}: {fault.strerror}")
        return 70
    except Interrupted:
        return 130
