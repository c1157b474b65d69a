"""The command `cophy-fleet`."""
from __future__ import annotations

import argparse
import os
import shutil
import sys
from pathlib import Path

from cophy_fleet.settings import Fault, read_fleet
from cophy_text import VERSION, files
from cophy_text.shown import pages_of

ROOT = Path(__file__).resolve().parents[3]
BUILT = ROOT / "crates" / "cophy_cli" / "out" / "cophy_cli"
EXPORTER = ROOT / "tools" / "pg" / "cophy-pg"


def main() -> int:
    """Runs the command that the words name. Status 1 says that a database has no answer of this run, or that there is
    nothing to share; 2 that the words or the fleet are faulty."""
    words = parser().parse_args()
    try:
        return int(words.run(words))
    except (Fault, files.NoFile) as fault:
        say(str(fault))
    except KeyboardInterrupt:
        say("ended; what is done is kept")
        return 130
    except OSError as fault:
        if not fault.filename:
            raise
        say(f"{fault.filename}: {fault.strerror}")
    return 2


def parser() -> argparse.ArgumentParser:
    """The words of the command."""
    made = argparse.ArgumentParser(prog="cophy-fleet", description=__import__("cophy_fleet").__doc__)
    made.add_argument("--version", action="version", version=f"cophy-fleet {VERSION}")
    commands = made.add_subparsers(required=True, metavar="COMMAND")
    _add_run(commands)
    _add_share(commands)
    return made


def _add_run(commands: argparse._SubParsersAction[argparse.ArgumentParser]) -> None:
    parser = commands.add_parser(
        "run",
        help="advise on each database, and check each certificate on another worker",
        description="Advises on each database of FLEET at even budgets, and checks the certificates on another worker. "
        "Prints a line of JSON for each database as it is done, and keeps all in a file of SQLite; what hasn't changed "
        "since is not done again.",
    )
    parser.add_argument("fleet", metavar="FLEET", help="the fleet, a file of TOML")
    parser.add_argument("--results", metavar="FILE", help="the file of SQLite; else FLEET with the ending .sqlite")
    where = parser.add_mutually_exclusive_group()
    where.add_argument("--scheduler", metavar="ADDRESS", help="a cluster of Dask's that runs")
    where.add_argument(
        "--workers", type=_count, default=os.cpu_count(), metavar="N", help="processes of a cluster of its own"
    )
    parser.add_argument(
        "--program",
        default=_program(),
        metavar="FILE",
        help="the built program, on each worker; else that of COPHY_PROGRAM, the one that ./cophy builds, or cophy on the path",
    )
    parser.add_argument("--exporter", default=_exporter(), metavar="FILE", help="cophy-pg, on each worker")
    parser.set_defaults(run=run)


def _add_share(commands: argparse._SubParsersAction[argparse.ArgumentParser]) -> None:
    parser = commands.add_parser(
        "share",
        help="share one budget among the databases",
        description="Chooses for each database one of the points that a run found, so that their pages fit in BUDGET "
        "together and the sum of weighted costs is least, and tells what no choice undercuts.",
    )
    parser.add_argument("budget", type=_pages, metavar="BUDGET", help="2GB, 500MB or pages, for all databases together")
    parser.add_argument("fleet", metavar="FLEET", help="the fleet, a file of TOML")
    parser.add_argument("--results", metavar="FILE", help="the file of SQLite; else FLEET with the ending .sqlite")
    parser.add_argument("--png", metavar="FILE", help="draw the fleet's curve")
    parser.add_argument(
        "--advice", metavar="FOLDER", help="write NAME.txt and NAME.cert of each database's choice there"
    )
    parser.add_argument("--json", action="store_true", help="print JSON instead of the table")
    parser.set_defaults(run=share)


def run(words: argparse.Namespace) -> int:
    """Runs the fleet."""
    fleet = read_fleet(words.fleet)
    files.check([results_of(words)], [words.fleet])
    try:
        from cophy_fleet.cluster import run_fleet
    except ImportError as fault:
        raise Fault(f"python3-dask and python3-distributed have to be installed: {fault}") from None
    if words.program == str(BUILT) and not BUILT.exists():
        raise Fault("the program isn't built: call ./cophy once, or name another by --program")
    return int(run_fleet(fleet, words, results_of(words)))


def share(words: argparse.Namespace) -> int:
    """Shares the budget."""
    try:
        from cophy_fleet.share import share_budget
    except ImportError as fault:
        raise Fault(f"python3-scipy has to be installed: {fault}") from None
    return int(share_budget(words, results_of(words)))


def results_of(words: argparse.Namespace) -> str:
    """The file of SQLite."""
    return str(words.results or Path(words.fleet).with_suffix(".sqlite"))


def say(text: str) -> None:
    """Writes a line to the standard error."""
    print(f"cophy-fleet: {text}", file=sys.stderr, flush=True)


def _program() -> str:
    """The program where no word names it."""
    found = os.environ.get("COPHY_PROGRAM") or (None if BUILT.exists() else shutil.which("cophy"))
    return found or str(BUILT)


def _exporter() -> str:
    return str(EXPORTER) if EXPORTER.exists() else shutil.which("cophy-pg") or "cophy-pg"


def _count(text: str) -> int:
    if not text.isascii() or not text.isdigit() or not 1 <= int(text) <= 1000:
        raise argparse.ArgumentTypeError(f"{text[:40]!a} is no number of processes from 1 to 1000")
    return int(text)


def _pages(text: str) -> int:
    try:
        return pages_of(text)
    except ValueError as fault:
        raise argparse.ArgumentTypeError(str(fault)) from None
