"""`setup`: the role and the extensions that `advise` needs, made once by a superuser; what is missing, the next command."""
from __future__ import annotations

import argparse
import base64
import hashlib
import hmac
import os
import secrets
import shlex
import shutil
import sys
from contextlib import suppress
from pathlib import Path

from cophy_text import files
from cophy_text.answers import counted
from cophy_pg.picks import home_of
from cophy_pg.export import HIDDEN
from cophy_pg.inputs import ADVISOR, NoInput, from_server, tell_short
from cophy_pg.local import port_of
from cophy_pg.passwords import keep
from cophy_pg.progress import say
from cophy_pg.server import OWN, Server, ServerFault, connected, reading
from cophy_pg.superuser import Superuser
from cophy_pg.undo import undo

SCRIPT = Path(__file__).resolve().parent / "advisor_role.sql"
ROUNDS = 4096
MADE = "made: "
"""What a line of the script begins with that says what it made."""
HYPOPG = (
    "the extension hypopg is missing: install it (apt-get install postgresql-NN-hypopg, NN being the server's version)"
)


def add_setup(commands: argparse._SubParsersAction[argparse.ArgumentParser]) -> None:
    """The words of `setup`."""
    parser = commands.add_parser(
        "setup",
        help="make the role and the extensions that advise needs, and say what is missing",
        description="Lets a superuser run advisor_role.sql in a database: the role cophy_advisor, which only reads, and the "
        "extensions hypopg and pg_stat_statements, each in a schema of its own. Gives the role a password, which goes to "
        "~/.pgpass, unless one there serves; says what is missing, and prints the next command.",
        epilog="The status is 0 where advise can be called, and 1 where something is missing; with --undo 0 where nothing of "
        "it is left, and 1 where something couldn't be dropped.",
    )
    parser.add_argument("database", metavar="DATABASE", nargs="?", help="the database (PGDATABASE)")
    parser.add_argument(
        "--psql",
        metavar="COMMAND",
        help="how psql is called as a superuser (sudo -u postgres psql); elsewhere such as 'psql -h HOST -U postgres'",
    )
    parser.add_argument("--undo", action="store_true", help="take back what setup made; what was there before stays")
    parser.set_defaults(run=setup)


def setup(words: argparse.Namespace) -> int:
    """Makes what is to be made, and says what is missing; or takes it back."""
    database = words.database or os.environ.get("PGDATABASE")
    if not database:
        raise NoInput("name the database: cophy-pg setup DATABASE")
    host = os.environ.get("PGHOST") or "localhost"
    port = port_of(host)
    superuser = Superuser.of(words.psql, host, port)
    if words.undo:
        return undo(superuser, database, host, port)
    made = superuser.run(database, files.read(str(SCRIPT)).decode(), "-v", "statements=counted")
    for it in (it for it in made.splitlines() if it.startswith(MADE)):
        say(it)
    given = {it: os.environ[it] for it in ("PGHOST", "PGPORT") if os.environ.get(it)}
    given |= {"PGUSER": ADVISOR} if os.environ.get("PGUSER") else {}
    os.environ |= {"PGHOST": host, "PGPORT": port, "PGDATABASE": database, "PGUSER": ADVISOR}
    if not _is_known():
        secret = secrets.token_urlsafe(24)
        superuser.run(database, f"{OWN} ALTER ROLE {ADVISOR} PASSWORD '{verifier_of(secret)}';")
        keep(host, port, secret)
    with connected() as server, reading(server):
        return _tell(server, database, given)


def _is_known() -> bool:
    """Whether the role may connect with what is there."""
    with suppress(ServerFault), connected():
        return True
    return False


def verifier_of(secret: str) -> str:
    """What the server keeps of a password: it can't be turned back (SCRAM-SHA-256, RFC 5803)."""
    salt = os.urandom(16)
    salted = hashlib.pbkdf2_hmac("sha256", secret.encode(), salt, ROUNDS)
    keys = [hmac.digest(salted, it, "sha256") for it in (b"Client Key", b"Server Key")]
    shown = [base64.b64encode(it).decode() for it in (salt, hashlib.sha256(keys[0]).digest(), keys[1])]
    return f"SCRAM-SHA-256${ROUNDS}:{shown[0]}${shown[1]}:{shown[2]}"


def _tell(server: Server, database: str, given: dict[str, str]) -> int:
    """Says what is there, what is missing, and the next command, which connects by what was given."""
    count, home = _counted(server), _home(server)
    if not home:
        say(HYPOPG)
    if count is None or not home:
        say("call this again when that is done")
        return 1
    tell_short(server)
    many = f"{counted(count, 'statement')} {'is' if count == 1 else 'are'} counted"
    print(f"{database!a} can be advised on, {many}. Next:")
    before = " ".join(f"{name}={shlex.quote(it)}" for name, it in given.items())
    print(f"{before} {shlex.quote(_called())} advise {shlex.quote(database)}".lstrip())
    return 0


def _called() -> str:
    """How this is called: by its name alone where the path has it."""
    name = os.path.basename(sys.argv[0])
    found = shutil.which(name)
    return name if found is not None and os.path.samefile(found, sys.argv[0]) else sys.argv[0]


def _home(server: Server) -> str | None:
    """The schema of hypopg, where it is there."""
    with suppress(ServerFault), server.savepoint():
        return home_of(server).strip('"')
    return None


def _counted(server: Server) -> int | None:
    """How many statements of the database are counted, as `advise` takes them; nothing where none is, which the
    script has told."""
    with suppress(ServerFault, NoInput), server.savepoint():
        return sum(it.text != HIDDEN for it in from_server(server, lambda _: None))
    return None
