"""A PostgreSQL of its own for tests: in a temporary folder, on a socket there, ended when the tests are done."""
from __future__ import annotations

import glob
import importlib.util
import os
import pwd
import shutil
import subprocess
import tempfile
from pathlib import Path

from patience import LONG, until

PACKAGES = ("psycopg", "pglast")
SETTINGS = (
    "listen_addresses=",
    "fsync=off",
    "autovacuum=off",
    "shared_preload_libraries=pg_stat_statements",
    "logging_collector=off",
    "shared_buffers=32MB",
    "statement_timeout=600s",
)


def missing() -> str:
    """What is missing for tests with a server; nothing where all is there."""
    for it in PACKAGES:
        if importlib.util.find_spec(it) is None:
            return f"python3-{it} isn't installed"
    if program("initdb") is None:
        return "PostgreSQL isn't installed"
    if os.geteuid() == 0 and _user() is None:
        return "PostgreSQL doesn't run as root, and there is no user postgres"
    return ""


def program(name: str) -> str | None:
    """The path of one of PostgreSQL's programs."""
    found = sorted(
        glob.glob(f"/usr/lib/postgresql/*/bin/{name}"),
        key=lambda it: int(it.split("/")[4]) if it.split("/")[4].isdigit() else 0,
    )
    return found[-1] if found else shutil.which(name)


def has_extension(name: str) -> bool:
    """Whether an extension's files are there."""
    return bool(glob.glob(f"/usr/share/postgresql/*/extension/{name}.control"))


def _user() -> str | None:
    try:
        return pwd.getpwnam("postgres").pw_name
    except KeyError:
        return None


class PrivateServer:
    """A server that runs from its making to `stop`. Its data go with it, but for those of a folder that is given."""

    def __init__(self, encoding: str = "UTF8", settings: tuple[str, ...] = (), data: Path | None = None) -> None:
        self.folder = Path(tempfile.mkdtemp(prefix="cophy-pg-"))
        self.how: dict[str, object] = {
            "stdin": subprocess.DEVNULL,
            "stdout": subprocess.DEVNULL,
            "stderr": subprocess.DEVNULL,
        }
        user = _user()
        if os.geteuid() == 0 and user is not None:
            shutil.chown(self.folder, user)
            self.how["user"] = user
        self.folder.chmod(0o755)
        place = data or self.folder / "data"
        if not (place / "PG_VERSION").exists():
            self._make(place, encoding)
        given = [word for it in (*SETTINGS, *settings) for word in ("-c", it)]
        words = [str(program("postgres")), "-D", str(place), "-k", str(self.folder), *given]
        self.process = subprocess.Popen(words, cwd="/", **self.how)  # type: ignore[call-overload]
        self._wait()

    def _make(self, place: Path, encoding: str) -> None:
        place.mkdir(parents=True)
        if "user" in self.how:
            shutil.chown(place, str(self.how["user"]))
        words = f"-U cophy --auth=trust -E {encoding} --locale=C --no-sync".split()
        subprocess.run([str(program("initdb")), "-D", str(place), *words], check=True, cwd="/", **self.how)  # type: ignore[call-overload]

    def _wait(self) -> None:
        def answers() -> bool:
            if self.process.poll() is not None:
                raise RuntimeError("the private server ended")
            socket = self.folder / ".s.PGSQL.5432"
            return socket.exists() and self.psql("SELECT 1", check=False).returncode == 0

        until(answers, "the private server answers")

    def environment(self, database: str = "postgres", **more: str) -> dict[str, str]:
        """The environment of a client."""
        kept = {it: value for it, value in os.environ.items() if not it.startswith("PG")}
        return {**kept, "PGHOST": str(self.folder), "PGUSER": "cophy", "PGDATABASE": database, **more}

    def psql(
        self, text: str, database: str = "postgres", check: bool = True, **more: str
    ) -> subprocess.CompletedProcess[str]:
        """Runs a script of SQL; `more` are variables of its environment."""
        words = [str(program("psql")), "-X", "-q", "-A", "-t", "-v", "ON_ERROR_STOP=1"]
        given = self.environment(database, **more)
        ran = subprocess.run(words, input=text, text=True, capture_output=True, env=given, check=False, timeout=LONG)
        if check and ran.returncode:
            raise RuntimeError(f"psql: {ran.stderr}")
        return ran

    def value(self, query: str, database: str = "postgres") -> str:
        """What a query gives, as psql prints it."""
        return self.psql(query, database).stdout.strip()

    def release(self, database: str) -> None:
        """Waits until no session holds a lock on a number any more, as that of a client that has ended may for a moment."""
        held = "SELECT count(*) FROM pg_locks WHERE locktype = 'advisory'"
        until(lambda: self.value(held, database) == "0", "the locks of sessions before are released")

    def stop(self) -> None:
        """Ends the server and removes its own folder."""
        self.process.terminate()
        try:
            self.process.wait(LONG)
        except subprocess.TimeoutExpired:
            self.process.kill()
            self.process.wait()
        shutil.rmtree(self.folder, ignore_errors=True)
