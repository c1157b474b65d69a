"""What tests share: where things are, the database `shop`, and classes of tests with a folder of their own."""
from __future__ import annotations

import atexit
import functools
import importlib.util
import os
import subprocess
import tempfile
import unittest
from collections.abc import Iterable, Iterator
from contextlib import contextmanager
from pathlib import Path

from patience import LONG
from private_server import PrivateServer, has_extension, missing, program

HERE = Path(__file__).resolve().parent
ROOT = HERE.parents[1]
TOOL = ROOT / "tools" / "pg" / "cophy-pg"
DATA = HERE / "data"
ADVISOR = ROOT / "tools" / "pg" / "cophy_pg" / "advisor_role.sql"
COPHY = Path(os.environ.get("COPHY_PROGRAM") or ROOT / "crates" / "cophy_cli" / "out" / "cophy_cli")
STAND_IN = HERE / "stand_in.py"
NO_PARSER = "" if importlib.util.find_spec("pglast") else "python3-pglast isn't installed"
MISSING = missing()
NO_HYPOPG = MISSING or ("" if has_extension("hypopg") else "postgresql-15-hypopg isn't installed")


@functools.cache
def shop() -> PrivateServer:
    """A server with the database `shop`, on which pgbench and all forms have run."""
    try:
        server = PrivateServer()
    except (OSError, RuntimeError, subprocess.CalledProcessError) as fault:
        raise unittest.SkipTest(f"PostgreSQL doesn't start here: {type(fault).__name__}") from None
    atexit.register(server.stop)
    server.psql("CREATE DATABASE shop")
    server.psql((DATA / "shop.sql").read_text(), "shop")
    server.psql(ADVISOR.read_text(), "shop")
    how = {"env": server.environment("shop"), "check": True, "capture_output": True, "timeout": 120}
    subprocess.run([str(program("pgbench")), "-i", "-q", "-s", "1"], **how)  # type: ignore[call-overload]
    server.psql("SELECT pg_stat_statements_reset()", "shop")
    subprocess.run([str(program("pgbench")), "-n", "-t", "20", "-c", "2"], **how)  # type: ignore[call-overload]
    server.psql((DATA / "forms.sql").read_text(), "shop")
    return server


def called(server: PrivateServer, *words: str, database: str = "shop", **more: str) -> subprocess.CompletedProcess[str]:
    """A call of the tool."""
    return subprocess.run(
        [str(TOOL), *words],
        env=server.environment(database, **more),
        capture_output=True,
        text=True,
        check=False,
        timeout=LONG,
    )


def cost(catalogue: Path, workload: Path) -> tuple[int, str]:
    """The status and the text of the program on both files."""
    ran = subprocess.run(
        [COPHY, "cost", catalogue, workload], capture_output=True, text=True, check=False, timeout=LONG
    )
    return ran.returncode, ran.stdout


class InFolder(unittest.TestCase):
    """Tests with a folder of their own."""

    def setUp(self) -> None:
        folder = tempfile.TemporaryDirectory()
        self.addCleanup(folder.cleanup)
        self.folder = Path(folder.name)

    def in_folder(self, *names: str) -> list[str]:
        """Files of the folder, as words of a call."""
        return [str(self.folder / it) for it in names]

    def tool(self, *words: str, status: int = 0) -> subprocess.CompletedProcess[str]:
        """A call of the tool in the folder, without a server."""
        ran = subprocess.run(
            [str(TOOL), *words], cwd=self.folder, capture_output=True, text=True, check=False, timeout=LONG
        )
        self.assertEqual(ran.returncode, status, ran.stderr)
        return ran

    def lay_program(self, text: str, name: str = "program") -> str:
        """Lays a script in the place of the program."""
        (self.folder / name).write_text(text)
        (self.folder / name).chmod(0o755)
        return str(self.folder / name)

    def lay_advice(self, picks: Iterable[str]) -> str:
        """Lays an advice of these picks into the folder."""
        lines = "".join(f"pick {at} {it} 3 pages\n" for at, it in enumerate(picks, 1))
        end = "size 9\ncost 9\nbound 9\ngap 0\nnodes 1 of 9\nfinished\n"
        (self.folder / "advice").write_text(f"budget 99\ncandidates 9 left over 0\n{lines}{end}")
        return str(self.folder / "advice")


class OverShop(InFolder):
    """Such tests over the database `shop`, of which the advisor's role asks."""

    server: PrivateServer
    database = "shop"
    given: dict[str, str] = {}
    """The environment of calls, beside that of the role."""

    @classmethod
    def setUpClass(cls) -> None:
        cls.server = shop()

    def call(self, *words: str, status: int = 0, **more: str) -> subprocess.CompletedProcess[str]:
        """A call of the tool that ends with a status."""
        ran = called(self.server, *words, database=self.database, **{"PGUSER": "cophy_advisor"} | self.given | more)
        self.assertNotIn("Traceback", ran.stderr)
        self.assertEqual(ran.returncode, status, ran.stderr)
        return ran


class OverOwn(OverShop):
    """Such tests over a database of their own."""

    content: str

    @classmethod
    def setUpClass(cls) -> None:
        super().setUpClass()
        cls.server.psql(f"CREATE DATABASE {cls.database}")
        cls.addClassCleanup(cls.server.psql, f"DROP DATABASE {cls.database}")
        cls.server.psql(cls.content + ADVISOR.read_text(), cls.database)

    def run_script(self, text: str, *more: str, status: int = 0, **environment: str) -> str:
        """What psql says of a script."""
        self.server.release(self.database)
        words = [str(program("psql")), "-X", *more, "-f", "-"]
        given = self.server.environment(self.database, **environment)
        ran = subprocess.run(words, input=text, capture_output=True, text=True, env=given, check=False, timeout=LONG)
        self.assertEqual(ran.returncode, status, ran.stderr)
        return ran.stdout + ran.stderr

    @contextmanager
    def held(self, text: str) -> Iterator[None]:
        """While another session holds the locks that statements take."""
        words, given = [str(program("psql")), "-X", "-q"], self.server.environment(self.database)
        with subprocess.Popen(words, stdin=subprocess.PIPE, stdout=subprocess.PIPE, text=True, env=given) as holder:
            assert holder.stdin is not None and holder.stdout is not None
            holder.stdin.write(f"BEGIN; {text}; \\echo held\n")
            holder.stdin.flush()
            holder.stdout.readline()
            yield
            holder.communicate("ROLLBACK;\n", timeout=LONG)
