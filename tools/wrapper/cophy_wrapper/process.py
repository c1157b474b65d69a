"""A process that is ended with all that it began."""
from __future__ import annotations

import os
import signal
import subprocess
from pathlib import Path
from typing import IO


class Process:
    """A command that runs in a session of its own, so that all its processes can be ended."""

    def __init__(self, command: list[str], folder: Path, said: IO[bytes], **environment: str) -> None:
        self._process = subprocess.Popen(
            command,
            cwd=folder,
            env={**os.environ, **environment},
            stdin=subprocess.DEVNULL,
            stdout=said,
            stderr=subprocess.STDOUT,
            start_new_session=True,
        )

    def status(self) -> int | None:
        """The status with which it came to an end, if it did."""
        return self._process.poll()

    def end(self) -> None:
        """Ends it and what it began, and waits for that."""
        for number in (signal.SIGTERM, signal.SIGKILL):
            if self._process.poll() is not None:
                return
            os.killpg(self._process.pid, number)
            try:
                self._process.wait(10)
            except subprocess.TimeoutExpired:
                continue
