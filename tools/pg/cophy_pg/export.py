"""`export`: a catalogue and a workload from a server. `rewrite`: a workload from a file of SQL over a catalogue."""
from __future__ import annotations

import argparse

from cophy_text import files
from cophy_text.answers import counted
from cophy_text.tokens import names_in
from cophy_pg import inputs
from cophy_pg.catalogue import catalogue_text, read_schema
from cophy_pg.clustering import add_clustering, permit
from cophy_pg.ddl import taken_names
from cophy_pg.folding import Folding
from cophy_pg.program import add_program
from cophy_pg.progress import Progress, say
from cophy_pg.ranking import rank, ready
from cophy_pg.report import each, summary
from cophy_pg.rewrite import Rewriter, options
from cophy_pg.schema import Schema
from cophy_pg.selection import Selection, add_selection, selection_of
from cophy_pg.server import Server, add_connection, connected, reading
from cophy_pg.statistics import Found, read_database
from cophy_pg.workload import Workload, made, mentioned

HIDDEN = "<insufficient privilege>"
"""What pg_stat_statements has in the place of a text that the role may not see."""


def add_export(commands: argparse._SubParsersAction[argparse.ArgumentParser]) -> None:
    """The words of `export`."""
    parser = commands.add_parser(
        "export",
        help="write a catalogue and a workload from a server",
        description="Reads a database in read-only transactions and writes a catalogue and a workload. The connection "
        "is that of psql's environment (PGHOST, PGDATABASE, PGSERVICE, ..), or of --dsn. The catalogue holds the least and "
        "the greatest value of columns and values between them, as PostgreSQL's statistics have them.",
    )
    parser.add_argument("catalogue", metavar="CATALOGUE", help="the file of the catalogue")
    parser.add_argument("workload", metavar="WORKLOAD", help="the file of the workload")
    add_connection(parser)
    source = parser.add_mutually_exclusive_group()
    source.add_argument(
        "--sql", metavar="FILE", help="statements from a file of SQL, with weights in comments '-- weight N'"
    )
    source.add_argument("--log", metavar="FILE", help="statements from a log (stderr, csvlog or jsonlog)")
    add_selection(parser)
    add_clustering(parser)
    add_options(parser)
    add_program(parser)
    parser.set_defaults(run=export)


def add_rewrite(commands: argparse._SubParsersAction[argparse.ArgumentParser]) -> None:
    """The words of `rewrite`."""
    parser = commands.add_parser(
        "rewrite",
        help="write a workload from a file of SQL over a catalogue, without a server",
        description="Rewrites PostgreSQL's SQL into the grammar of a workload, over the tables of a catalogue.",
    )
    parser.add_argument("catalogue", metavar="CATALOGUE", help="a catalogue that is there")
    parser.add_argument("sql", metavar="SQL", help="a file of SQL, with weights in comments '-- weight N'")
    parser.add_argument("workload", metavar="WORKLOAD", help="the file of the workload")
    add_options(parser)
    add_program(parser)
    parser.set_defaults(run=rewrite)


def add_options(parser: argparse.ArgumentParser, has_report: bool = True) -> None:
    """The words of a report, and of what statements are written as."""
    if has_report:
        parser.add_argument(
            "--report", metavar="FILE", help="a report on each statement; a summary goes to standard error"
        )
    options.add_options(parser)


def export(words: argparse.Namespace) -> int:
    """Reads the server and writes both files."""
    progress, selection = Progress(), selection_of(words)
    given = None
    files.check([words.catalogue, words.workload, words.report], [words.sql, words.log, words.since])
    if words.sql:
        given = inputs.from_sql(files.read(words.sql))
    elif words.log:
        given = inputs.from_log(files.read(words.log))
    with connected(words.dsn, words.timeout) as server:
        listed, found, warnings, name = read(server, given, selection, progress)
    warnings += permit(found.schema, words.may_cluster)
    folding = Folding(lambda: catalogue_of(found, name), words.program, progress)
    workload = made(listed, Rewriter(found.schema, options.options_of(words)), progress, folding)
    catalogue = catalogue_of(found, name)
    if ready(words.program):
        progress("ordering the statements by their cost")
        rank(workload, catalogue, words.program, is_ordered=given is None)
    elif given is not None:
        workload.remarks.append(
            "the statements are in the order of the input: the program, which prices them, isn't built"
        )
    _write(workload, warnings, words, [files.File(words.catalogue, catalogue)])
    return 0


def read(
    server: Server, given: list[inputs.Input] | None, selection: Selection, progress: Progress
) -> tuple[list[inputs.Input], Found, list[str], str]:
    """The statements, what the database is, what to warn of, and its name. No transaction is open when this returns."""
    progress("reading statements")
    warnings: list[str] = []
    with reading(server):
        if given is None:
            given = inputs.from_server(server, warnings.append)
        else:
            inputs.look_up(server, given)
        given = selection.of(server, given)
        name = str(server.value("SELECT pg_catalog.current_database()::text"))
    listed = [it for it in given if it.text != HIDDEN]
    found = read_database(server, *mentioned(listed), progress)
    hidden = len(given) - len(listed)
    if hidden:
        warnings.append(f"the texts of {counted(hidden, 'statement')} of other users can't be read")
    return listed, found, [*warnings, *found.warnings], name


def catalogue_of(found: Found, name: str, schema: Schema | None = None) -> bytes:
    """The catalogue of what was found in a database of this name, or of a part of that."""
    head = [f"The database {name!a}, exported by cophy-pg.", "A cost divided by 1000 is in the unit of EXPLAIN."]
    return catalogue_text(schema or found.schema, found.rates, head).encode("ascii")


def named_in(workload: Workload, schema: Schema) -> Schema:
    """The tables that statements name, with those that inherit from them; all where they name none. The names that no new
    index may have stay known."""
    names = names_in(workload.text().encode(errors="replace"))
    named = [it for it in schema.tables.values() if it.shown.lower() in names]
    kept = {key for it in named for key in ((it.schema, it.name), *it.children)} or {*schema.tables}
    found = Schema((it for key, it in schema.tables.items() if key in kept), schema.path)
    found.taken = sorted(taken_names(schema) - taken_names(found))
    return found


def rewrite(words: argparse.Namespace) -> int:
    """Rewrites a file over a catalogue."""
    files.check([words.workload, words.report], [words.catalogue, words.sql])
    catalogue, progress = files.read(words.catalogue), Progress()
    rewriter = Rewriter(read_schema(catalogue), options.options_of(words))
    folding = Folding(lambda: catalogue, words.program, progress)
    workload = made(inputs.from_sql(files.read(words.sql)), rewriter, progress, folding)
    _write(workload, [], words, [])
    return 0


def _write(workload: Workload, warnings: list[str], words: argparse.Namespace, others: list[files.File]) -> None:
    """Writes all files together, and says what became of the statements."""
    listed = [*others, files.File(words.workload, workload.text().encode(errors="replace"))]
    if words.report:
        listed.append(files.File(words.report, report_of(workload, warnings)))
    files.write(listed)
    for it in _told(workload, warnings):
        say(it)


def _told(workload: Workload, warnings: list[str]) -> list[str]:
    return [*(f"warning: {it}" for it in warnings), *summary(workload)]


def report_of(workload: Workload, warnings: list[str]) -> bytes:
    """The report on each statement, which holds no literal."""
    return ("\n".join([*_told(workload, warnings), *each(workload)]) + "\n").encode("ascii", "replace")
