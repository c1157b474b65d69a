"""The command `cophy-pg`."""
from __future__ import annotations

import argparse
import io
import os
import signal
import sys
from pathlib import Path
from typing import Any

from cophy_pg.advise import add_advise
from cophy_pg.catalogue import NoCatalogue
from cophy_pg.changes import add_changes
from cophy_pg.curve import add_curve
from cophy_pg.daily import add_daily
from cophy_pg.ddl import NoIndex
from cophy_pg.edits import add_edits
from cophy_pg.effect import add_effect
from cophy_pg.export import add_export, add_rewrite
from cophy_text.files import ENDS, NoFile
from cophy_pg.health import add_health
from cophy_pg.inputs import NoInput
from cophy_pg.maker import add_make
from cophy_pg.making import add_ddl
from cophy_pg.page import NoReport, add_report
from cophy_pg.program import ProgramFault
from cophy_pg.progress import say
from cophy_pg.rules import add_rules
from cophy_pg.server import ServerFault
from cophy_pg.setup import add_setup
from cophy_pg.snapshots import add_snapshot
from cophy_pg.verify import add_verify
from cophy_pg.why import add_why
from cophy_text import VERSION
from cophy_text.answers import NoAnswer

PAGE = Path(__file__).resolve().parents[3] / "docs" / "POSTGRES.md"
PACKED = "/usr/share/doc/cophy-pg/POSTGRES.md.gz"
BEGIN = """cophy-pg setup DATABASE makes a role that only reads and two extensions, then prints the line to type next.
Nothing else changes on the server until you call cophy-pg make, which shows what and asks.
All commands: cophy-pg --help; manual: {}"""


def main() -> int:
    """Runs the command that the words name. Status 1 says that it couldn't do its work, 2 that the words are faulty."""
    parser = argparse.ArgumentParser(prog="cophy-pg", description=__import__("cophy_pg").__doc__)
    parser.add_argument("--version", action="version", version=f"cophy-pg {VERSION}")
    parser.set_defaults(run=_begin)
    commands = parser.add_subparsers(metavar="COMMAND")
    for add in (
        add_setup,
        add_advise,
        add_make,
        add_effect,
        add_report,
        add_health,
        add_daily,
        add_changes,
        add_edits,
        add_snapshot,
        add_export,
        add_rewrite,
        add_ddl,
        add_verify,
        add_why,
        add_curve,
        add_rules,
    ):
        add(commands)
    _fill_streams()
    for stream in (sys.stdout, sys.stderr):
        if isinstance(stream, io.TextIOWrapper):
            stream.reconfigure(errors="backslashreplace")
    for it in ENDS:
        signal.signal(it, _end)
    words = parser.parse_args()
    try:
        status = _run(words)
        sys.stdout.flush()
        return status
    except BrokenPipeError:
        # Who reads has enough. What is left of the output goes nowhere, so that nothing more is said of it.
        os.dup2(os.open(os.devnull, os.O_WRONLY), sys.stdout.fileno())
        return 1
    except OSError as fault:
        os.dup2(os.open(os.devnull, os.O_WRONLY), sys.stdout.fileno())
        say(f"the standard output: {fault.strerror}")
        return 1
    except Ended as ended:
        return 128 + int(ended.args[0])


def _fill_streams() -> None:
    """Lets a standard stream that is closed go nowhere, so that no connection gets its number, here or in a program that is
    called, and what is printed goes there."""
    for number, name in enumerate(("stdin", "stdout", "stderr")):
        if getattr(sys, name) is None:
            os.dup2(os.open(os.devnull, os.O_RDWR), number)
            os.set_inheritable(number, True)
            setattr(sys, name, os.fdopen(number, "w" if number else "r", closefd=False))


def _begin(words: argparse.Namespace) -> int:
    """Says where to begin, to whom names no command."""
    print(BEGIN.format(PAGE if PAGE.is_file() else f"zless {PACKED}"))
    return 2


def _run(words: argparse.Namespace) -> int:
    try:
        return int(words.run(words))
    except (ServerFault, NoInput, NoAnswer, NoIndex, NoFile, NoReport, ProgramFault) as fault:
        say(str(fault))
    except NoCatalogue:
        say("the catalogue can't be read: cophy says where its fault is")
    except BrokenPipeError:
        raise
    except OSError as fault:
        if not fault.filename:
            raise
        say(f"{fault.filename}: {fault.strerror}")
    return 1


class Ended(BaseException):
    """A signal that ends the program, by its number; what was begun is taken back on the way out."""


def _end(number: int, frame: Any) -> None:
    raise Ended(number)


if __name__ == "__main__":
    sys.exit(main())
