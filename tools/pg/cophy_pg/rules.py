"""`rules`: rules that an administrator writes with PostgreSQL's names, as the program takes them."""
from __future__ import annotations

import argparse
import re
from collections.abc import Iterator
from dataclasses import dataclass

from cophy_text import files
from cophy_text.answers import counted
from cophy_text.rules import MOST_KEYS, Rule
from cophy_pg.catalogue import read_schema
from cophy_pg.clustering import WORD
from cophy_pg.progress import say
from cophy_pg.schema import Column, Schema, Table

_WORD = r'(?:"(?:[^"]|"")+"|(?:[^\W\d]|[*?])[\w$*?]*)'
_NAME = re.compile(_WORD)
_LINE = re.compile(
    rf"\s*(must|never)\s+({_WORD}(?:\s*\.\s*{_WORD}){{0,2}})\s*"
    rf"(?:\(\s*({_WORD}(?:\s*,\s*{_WORD})*)\s*\)\s*(clustered)?)?\s*\Z",
    re.IGNORECASE,
)
FORMS = "must TABLE(COLUMN, COLUMN), never TABLE(COLUMN, COLUMN), never TABLE, never TABLE.COLUMN"


class NoRule(Exception):
    """A line that can't be translated, and why."""


class Unknown(NoRule):
    """A line that names what the catalogue lacks."""


@dataclass(frozen=True)
class Name:
    """A name as it was written. In a pattern `*` stands for any letters and `?` for one."""

    text: str
    is_pattern: bool = False

    def fits(self, name: str) -> bool:
        """Whether it is, or stands for, a name of PostgreSQL."""
        if not self.is_pattern:
            return name == self.text
        parts = (".*" if it == "*" else "." if it == "?" else re.escape(it) for it in self.text)
        return re.fullmatch("".join(parts), name, re.DOTALL) is not None


ANY = Name("*", True)


@dataclass(frozen=True)
class Written:
    """A line: what it asks for, the names before the columns, those of the columns, and whether the index is clustered."""

    verb: str
    path: tuple[Name, ...]
    columns: tuple[Name, ...]
    is_clustered: bool


def add_rules(commands: argparse._SubParsersAction[argparse.ArgumentParser]) -> None:
    """The words of `rules`."""
    parser = commands.add_parser(
        "rules",
        help="translate rules with PostgreSQL's names for cophy ruled",
        description="Translates rules with PostgreSQL's names into a rules file by a catalogue. A line is one of "
        f"{FORMS}, an index perhaps followed by the word clustered, a comment that begins with #, or empty. A table "
        "may stand behind its schema, and names are quoted as in SQL. In the names of schemas and tables of a never, "
        "where they aren't quoted, * stands for any letters and ? for one.",
    )
    parser.add_argument("catalogue", metavar="CATALOGUE", help="the catalogue that export wrote")
    parser.add_argument("given", metavar="GIVEN", help="the rules with PostgreSQL's names")
    parser.add_argument("rules", metavar="RULES", help="the file of rules for cophy ruled")
    parser.add_argument(
        "--skip-unknown",
        action="store_true",
        help="leave out, and tell, rules over what the catalogue lacks, such as a table that no statement names",
    )
    parser.set_defaults(run=rules)


def rules(words: argparse.Namespace) -> int:
    """Writes the file of rules, where each line can be translated."""
    files.check([words.rules], [words.catalogue, words.given])
    translation = Translation(read_schema(files.read(words.catalogue)), words.skip_unknown)
    translation.take(files.read(words.given).decode(errors="replace"))
    for it in (*translation.remarks, *translation.faults):
        say(f"{files.shown(words.given)}, {it}")
    if translation.faults:
        say(f"no rules are written: {counted(len(translation.faults), 'line')} can't be translated")
        return 1
    text = "".join(f"{it}\n" for it in translation.lines)
    files.write([files.File(words.rules, text.encode("ascii"), False)])
    return 0


class Translation:
    """The lines of a rules file, each behind a comment with the line that it comes from; what there is to say of lines that
    were left out, and of those that can't be translated."""

    def __init__(self, schema: Schema, skips_unknown: bool = False) -> None:
        self.schema, self.skips_unknown = schema, skips_unknown
        self.lines: list[str] = []
        self.remarks: list[str] = []
        self.faults: list[str] = []

    def take(self, text: str) -> None:
        """Translates all lines."""
        for number, line in enumerate(text.removeprefix("\ufeff").split("\n"), 1):
            if line.strip() and not line.lstrip().startswith("#"):
                self._take_line(number, line)

    def _take_line(self, number: int, line: str) -> None:
        try:
            written = read_line(line)
            made = list(dict.fromkeys(it.line() for it in self._made(number, written)))
        except Unknown as fault:
            if self.skips_unknown:
                self.remarks.append(f"line {number}: {fault}, or no statement names it")
            else:
                self.faults.append(f"line {number}: {fault}")
        except NoRule as fault:
            self.faults.append(f"line {number}: {fault}")
        else:
            if made:
                shown = line.strip().encode("ascii", "backslashreplace").decode()
                self.lines += [f"# line {number}: {shown}", *made]

    def _made(self, number: int, written: Written) -> Iterator[Rule]:
        if not written.columns:
            if written.verb == "must":
                raise NoRule("what must be is an index: must TABLE(COLUMN, COLUMN)")
            yield from self._of_tables_and_columns(written.path)
            return
        is_listed = any(it.is_pattern for it in written.path)
        if is_listed and written.verb == "must":
            raise NoRule("what must be is an index of one table: its name can't be a pattern")
        tables = self._tables(written.path)
        for table in (it for it in tables if not is_listed or all(name.text in it.columns for name in written.columns)):
            columns = [column_of(table, it) for it in written.columns]
            if written.verb == "must" and self._is_satisfied(number, table, columns, written.is_clustered):
                continue
            names = tuple(it.shown for it in columns)
            yield Rule(written.verb, table.shown, names, is_clustered=written.is_clustered)

    def _is_satisfied(self, number: int, table: Table, columns: list[Column], is_clustered: bool) -> bool:
        """Whether an index that must be is there already; refuses one that PostgreSQL can't make."""
        faults = [f"no index can have {it.name!a}: {it.no_key}" for it in columns if it.no_key]
        if faults:
            raise NoRule("; ".join(faults))
        keys = [it.name for it in columns]
        listed = (it for it in table.indexes if it.keys == keys)
        there = next((it for it in listed if it.clustered or it.ordered or not is_clustered), None)
        if there is not None:
            self.remarks.append(f"line {number}: it is there already, as {there.name!a}, and is left out")
        elif is_clustered and not table.may_cluster:
            raise NoRule(f"by the catalogue the rows of {table.name!a} can't be laid anew: export it with {WORD}")
        return there is not None

    def _of_tables_and_columns(self, path: tuple[Name, ...]) -> Iterator[Rule]:
        """A rule for each table that a path names, or for each column."""
        tables = self._found(path) if len(path) < 3 else []
        columns = [
            (table, table.columns[path[-1].text])
            for table in (self._found(path[:-1]) if len(path) > 1 and not path[-1].is_pattern else [])
            if path[-1].text in table.columns
        ]
        if tables and columns:
            raise NoRule("it names tables and columns: write SCHEMA.TABLE.COLUMN for a column")
        if not tables and not columns:
            raise Unknown(f"the catalogue has no {'column' if len(path) > 2 else 'table'} {shown(path)}")
        yield from (Rule("never", it.shown) for it in tables)
        yield from (Rule("never", table.shown, column=column.shown) for table, column in columns)

    def _tables(self, path: tuple[Name, ...]) -> list[Table]:
        found = self._found(path)
        if not found:
            raise Unknown(f"the catalogue has no table {shown(path)}")
        return found

    def _found(self, path: tuple[Name, ...]) -> list[Table]:
        """The tables that one or two names stand for; a name alone is looked up as PostgreSQL does it."""
        if not any(it.is_pattern for it in path):
            key = self.schema.key_of(path[0].text if len(path) > 1 else None, path[-1].text)
            return [self.schema.tables[key]] if key in self.schema.tables else []
        home = path[0] if len(path) > 1 else ANY
        return [it for it in self.schema.tables.values() if home.fits(it.schema) and path[-1].fits(it.name)]


def column_of(table: Table, name: Name) -> Column:
    """A column of a table."""
    if name.text not in table.columns:
        raise Unknown(f"the table {table.name!a} of the catalogue has no column {name.text!a}")
    return table.columns[name.text]


def shown(path: tuple[Name, ...]) -> str:
    """Names as they are told."""
    return ".".join(f"{it.text!a}" for it in path)


def read_line(line: str) -> Written:
    """Takes a line apart."""
    found = _LINE.match(line)
    if found is None:
        raise NoRule(f"the forms are {FORMS}")
    verb, path, columns, clustered = found.groups()
    written = Written(verb.lower(), tuple(_names(path)), tuple(_names(columns or "")), clustered is not None)
    listed = written.columns or written.path[2:]
    if any(it.is_pattern for it in listed):
        raise NoRule("a column is named whole, and not by a pattern")
    if written.columns and len(written.path) > 2:
        raise NoRule("the table of an index is TABLE or SCHEMA.TABLE")
    if len(written.columns) > MOST_KEYS:
        raise NoRule(f"an index has at most {MOST_KEYS} columns")
    if len({it.text for it in written.columns}) < len(written.columns):
        raise NoRule("an index has a column once")
    return written


def _names(text: str) -> Iterator[Name]:
    """The names of a text; what isn't quoted is in small letters, as PostgreSQL takes it."""
    for it in _NAME.findall(text):
        if it.startswith('"'):
            yield Name(it[1:-1].replace('""', '"'))
        else:
            yield Name(re.sub(r"[A-Z]+", lambda found: found[0].lower(), it), "*" in it or "?" in it)
