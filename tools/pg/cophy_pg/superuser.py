"""psql as a superuser: `sudo -u postgres psql` on this machine, or what `--psql` names."""
from __future__ import annotations

import os
import secrets
import shlex
import subprocess
import sys
from collections.abc import Iterator
from contextlib import contextmanager, suppress
from dataclasses import dataclass

from cophy_pg.inputs import NoInput
from cophy_pg.local import LOCAL, PORT, run_as
from cophy_pg.no_connection import failed
from cophy_pg.server import UNKNOWN, database_word, reason

QUIET = ("-X", "-q", "-A", "-t", "-v", "ON_ERROR_STOP=1")


@dataclass(frozen=True)
class Superuser:
    """How psql is called as a superuser, and its environment."""

    command: list[str]
    environment: dict[str, str]

    @classmethod
    def of(cls, psql: str | None, host: str, port: str) -> Superuser:
        """What `--psql` names, or the superuser postgres of this machine. Of the environment only the former knows a
        server."""
        kept = {it: value for it, value in os.environ.items() if not it.startswith("PG") or psql and it != "PGUSER"}
        if psql:
            try:
                return cls(shlex.split(psql), kept)
            except ValueError as fault:
                raise NoInput(f"--psql {psql!a}: {fault}") from None
        if host not in ("", *LOCAL) and not host.startswith("/"):
            raise NoInput("the server is on another machine: --psql 'psql -h HOST -U postgres' names its superuser")
        return cls([*run_as("postgres"), "psql", "-p", port, *(["-h", host] if host.startswith("/") else [])], kept)

    def shown(self) -> str:
        """The command, as a person types it."""
        return shlex.join(self.command)

    def run(self, database: str, text: str, *more: str) -> str:
        """What a script prints in a database. Why it couldn't connect is told, and what it says itself."""
        given = [*self._words(database), *more]
        try:
            how = {"stdout": subprocess.PIPE, "stderr": subprocess.PIPE, "env": self.environment, "errors": "replace"}
            # Who sudo makes another user of may not enter the caller's folder.
            ran = subprocess.run(given, input=text, text=True, check=False, cwd="/", **how)  # type: ignore[call-overload]
        except OSError as fault:
            raise NoInput(f"{given[0]}: {fault.strerror}") from None
        # The status 2 says that psql didn't connect.
        if ran.returncode == 2 and reason(Exception(ran.stderr)) != UNKNOWN:
            host, port = self.environment.get("PGHOST", ""), os.environ.get("PGPORT") or PORT
            is_here = host in ("", *LOCAL) or host.startswith("/")
            raise NoInput(
                failed([*self.command, "-d", database_word(database)], self.environment, port, ran.stderr, is_here)
            )
        sys.stderr.write(ran.stderr)
        if ran.returncode:
            raise NoInput(f"the superuser's script failed: {self.shown()} answers with status {ran.returncode}")
        return str(ran.stdout)

    @contextmanager
    def session(self, database: str) -> Iterator[Session]:
        """A session that takes one script after the other, so that a password of sudo is asked for once."""
        how = {"stdin": subprocess.PIPE, "stdout": subprocess.PIPE, "env": self.environment, "errors": "replace"}
        try:
            process = subprocess.Popen(self._words(database), text=True, cwd="/", **how)  # type: ignore[call-overload]
        except OSError as fault:
            raise NoInput(f"{self.command[0]}: {fault.strerror}") from None
        try:
            yield Session(process)
        finally:
            with suppress(BrokenPipeError):
                process.stdin.close()
            process.wait()
            process.stdout.close()

    def _words(self, database: str) -> list[str]:
        return [*self.command, "-d", database_word(database), *QUIET]


@dataclass(frozen=True)
class Session:
    """A psql that runs and waits for more."""

    process: subprocess.Popen[str]

    def run(self, text: str) -> bool:
        """Whether all of a script was done; psql ends at a fault, and says what it was. What an earlier one still says, that
        was broken off, is none of its."""
        assert self.process.stdin is not None and self.process.stdout is not None
        end = f"done {secrets.token_hex(8)}\n"
        with suppress(BrokenPipeError):
            self.process.stdin.write(f"{text}\n\\echo {end}")
            self.process.stdin.flush()
            return any(line == end for line in self.process.stdout)
        return False
