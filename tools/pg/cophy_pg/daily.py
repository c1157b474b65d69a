"""`daily`: advice on what was counted since the last call, and what became different."""
from __future__ import annotations

import argparse
import json
import os
import re
import shutil
from contextlib import suppress
from datetime import datetime

from cophy_text import files
from cophy_pg import advise, folder
from cophy_pg.advise_words import add_words
from cophy_pg.changes import OTHERS, Found, compared, lines_of
from cophy_pg.folder import Folder
from cophy_pg.inputs import NoInput
from cophy_pg.selection import count

_NAME = re.compile(r"\d{8}-\d{6}")
KEPT = 30


def add_daily(commands: argparse._SubParsersAction[argparse.ArgumentParser]) -> None:
    """The words of `daily`, which are those of `advise` and a few more."""
    parser = commands.add_parser(
        "daily",
        help="advice on what was counted since the last call, and what became different",
        description="Calls advise into a folder of its own within DIR, on what pg_stat_statements counted since the last call, "
        "and says what became different, as changes does. What it prints is kept there too.",
        epilog="The status is 0 where the same indexes are advised as at the last call, 3 where others are, or some at the first; "
        "else as of advise.",
    )
    parser.add_argument(
        "directory", metavar="DIR", help="where the folders of all calls are; it is made where it isn't there"
    )
    parser.add_argument("--keep", type=count, default=KEPT, metavar="N", help=f"how many folders stay ({KEPT})")
    add_words(parser)
    parser.set_defaults(run=daily, database=None)


def daily(words: argparse.Namespace) -> int:
    """Advises, prints what became different, and takes the oldest folders away."""
    if words.folder:
        raise NoInput("--folder: the folder of a call is one within DIR")
    home = Folder.made(words.directory)
    before = names_in(home)
    words.folder = home.path(datetime.now().strftime("%Y%m%d-%H%M%S"))
    last = Folder(home.path(before[-1])) if before else None
    if last is not None and not (words.sql or words.log or words.since) and last.has(folder.SNAPSHOT):
        words.since = last.path(folder.SNAPSHOT)
    words.is_silent = last is not None
    has_others = advise.advise(words) != advise.NOTHING
    if last is not None:
        new = Folder(words.folder)
        found = compared(Found.of(last.name), Found.of(new.name))
        text = "\n".join([*lines_of(found), f"all files are in {files.shown(new.name)}"]) + "\n"
        document = json.dumps(found, indent=2) + "\n"
        new.write({folder.CHANGES: text, folder.CHANGES_JSON: document})
        print(document if words.json else text, end="")
        has_others = bool(found["indexes"]["new"] or found["indexes"]["gone"])
    for it in every_name(home):
        if it < names_in(home)[-words.keep :][0]:
            with suppress(OSError):
                shutil.rmtree(home.path(it))
    return OTHERS if has_others else 0


def every_name(home: Folder) -> list[str]:
    """The folders of calls, the oldest first."""
    found = (it for it in os.listdir(home.name) if _NAME.fullmatch(it))
    return sorted(it for it in found if os.path.isdir(home.path(it)) and not os.path.islink(home.path(it)))


def names_in(home: Folder) -> list[str]:
    """Those of calls that came to an end."""
    return [it for it in every_name(home) if Folder(home.path(it)).has(folder.RESULT)]
