"""The private server of the field, whose data stay in a folder from call to call."""
from __future__ import annotations

import signal
import subprocess
from pathlib import Path

from private_server import PrivateServer, program

HERE = Path(__file__).resolve().parent
ADVISOR_ROLE = HERE.parents[1] / "tools" / "pg" / "cophy_pg" / "advisor_role.sql"
SETTINGS = (
    "shared_buffers=512MB",
    "effective_cache_size=1GB",
    "maintenance_work_mem=256MB",
    "work_mem=32MB",
    "max_wal_size=4GB",
    "random_page_cost=1.1",
    "max_parallel_workers_per_gather=0",
    "max_parallel_maintenance_workers=0",
    "jit=off",
    "pg_stat_statements.max=20000",
)
"""As for a database that lies in memory. No plan is parallel, so that other work on the machine changes times less."""
_HEAP = """
SELECT sum(pg_relation_size(oid)) / 8192 FROM pg_class
WHERE relkind = 'r' AND relnamespace::regnamespace::text = 'public'"""


class FieldServer(PrivateServer):
    """A server over the data in a folder, which `stop` leaves there."""

    def __init__(self, folder: Path) -> None:
        super().__init__(settings=SETTINGS, data=folder.resolve() / "server")

    def stop(self) -> None:
        """Ends the server and its sessions."""
        self.process.send_signal(signal.SIGINT)
        super().stop()

    def run(self, command: str, database: str, *words: str) -> None:
        """One of PostgreSQL's programs on a database."""
        ran = subprocess.run(
            [str(program(command)), *words], env=self.environment(database), capture_output=True, text=True, check=False
        )
        if ran.returncode:
            raise RuntimeError(f"{command} on {database}: {ran.stderr.strip()}")

    def databases(self) -> list[str]:
        """The databases of the field that are there."""
        return self.value("SELECT datname FROM pg_database WHERE NOT datistemplate AND datname <> 'postgres'").split()

    def heap_pages(self, database: str) -> int:
        """The pages of all tables without indexes."""
        return int(float(self.value(_HEAP, database)))
