"""The words of `advise`."""
from __future__ import annotations

import argparse

from cophy_pg import export, unlimited
from cophy_pg.amounts import FIFTH, budget, whole
from cophy_pg.clustering import add_clustering
from cophy_pg.planning import MICROSECONDS
from cophy_pg.program import add_program
from cophy_pg.searches import PATIENCE
from cophy_pg.selection import add_selection, count
from cophy_pg.server import add_connection
from cophy_pg.verify import add_trust


def parser_of(commands: argparse._SubParsersAction[argparse.ArgumentParser]) -> argparse.ArgumentParser:
    """The parser of `advise`."""
    parser = commands.add_parser(
        "advise",
        help="from a server to its indexes in one command",
        description="Exports a database and its statements, advises on them with a certificate, checks that, asks the "
        "server's planner about the picks, searches again without what no plan takes, and prints which indexes to make and "
        "what each saves. All files are kept in a folder. Nothing is made on the server.",
        epilog="The status is 0 where there are indexes to make, 3 where none is recommended; 1 says that it couldn't be done, "
        "2 that the words are faulty.",
    )
    parser.add_argument(
        "database",
        metavar="DATABASE",
        nargs="?",
        help="the database that setup was called for: its role and this machine's server are taken, unless the environment "
        "names others (PGDATABASE)",
    )
    add_words(parser)
    return parser


def add_words(parser: argparse.ArgumentParser) -> None:
    """The words that say what to advise on, and how."""
    parser.add_argument(
        "--budget",
        type=budget,
        default=FIFTH,
        metavar="SPACE",
        help="what the indexes may take as PostgreSQL stores them: 2GB, 500MB, pages, or 20%% of the tables, as without it",
    )
    parser.add_argument("--folder", metavar="DIR", help="where all files go (cophy-advice- and the time)")
    _add_limits(parser)
    parser.add_argument(
        "--no-curve",
        action="store_true",
        help="don't search for what some other budgets would buy, which the report draws",
    )
    parser.add_argument(
        "--patience",
        type=seconds,
        default=PATIENCE,
        metavar="SECONDS",
        help="how long the advice is refined after the first search: by further rounds with the server's planner, exchanges, "
        f"fillings, and the curve ({PATIENCE:g}); then what stands is finished",
    )
    parser.add_argument("--nodes", type=whole, metavar="N", help="the node budget of the search")
    parser.add_argument("--json", action="store_true", help="print all that was found as JSON instead")
    parser.add_argument(
        "-v", "--verbose", action="store_true", help="print all warnings, notes and costs, which details.txt has too"
    )
    source = parser.add_mutually_exclusive_group()
    source.add_argument("--sql", metavar="FILE", help="statements from a file of SQL, as export takes them")
    source.add_argument("--log", metavar="FILE", help="statements from a log, as export takes them")
    add_selection(parser)
    add_clustering(parser)
    export.add_options(parser, has_report=False)
    add_connection(parser)
    add_trust(parser)
    add_program(parser)


def _add_limits(parser: argparse.ArgumentParser) -> None:
    """The words that say which indexes may be made, and of what form."""
    parser.add_argument(
        "--min-saving",
        type=percent,
        default=0.0,
        metavar="PERCENT",
        help="what each index has to save by our model, by the server's planner or of the measured time, whichever is the most",
    )
    parser.add_argument(
        "--planning",
        type=microseconds,
        default=MICROSECONDS,
        metavar="MICROSECONDS",
        help="how much longer it takes to plan a statement for each index on a table that it reads: an index has to save more "
        f"({MICROSECONDS:g}; 0 leaves none out for that)",
    )
    parser.add_argument(
        "--rules", metavar="FILE", help="what has to be made and what never may, as cophy-pg rules takes them"
    )
    parser.add_argument(
        unlimited.WORD,
        action="store_true",
        help="let indexes have columns for reading alone though an INSERT of a long value there would fail then",
    )
    parser.add_argument("--most-per-table", type=count, metavar="N", help="how many new indexes a table may get")
    parser.add_argument(
        "--include",
        action="store_true",
        help="put columns that no statement compares, joins, groups or orders by behind INCLUDE",
    )


def percent(text: str) -> float:
    """A share from 0 to 100."""
    if not 0 <= float(text) <= 100:
        raise ValueError
    return float(text)


def microseconds(text: str) -> float:
    """A short time, at most a second."""
    if not 0 <= float(text) <= 1e6:
        raise ValueError
    return float(text)


def seconds(text: str) -> float:
    """A time from 0 on, at most a week."""
    if not 0 <= float(text) <= 7 * 86400:
        raise ValueError
    return float(text)
