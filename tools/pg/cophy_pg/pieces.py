"""Cuts a file of SQL into statements, as psql does, so that a bad one costs itself alone."""
from __future__ import annotations

import re
from collections.abc import Iterator
from dataclasses import dataclass

from pglast import parser
from pglast.parser import ParseError

from cophy_pg.rewrite.parse import GOES_ON, after_comment

_TOKEN = re.compile(
    rf"""(?P<line>--[^\n\r]*)
    |(?P<block>/\*)
    |(?P<escaped>(?<![\w$])[eE]'[^'\\]*(?:(?:\\.|''|{GOES_ON})[^'\\]*)*(?:'|\Z))
    |(?P<text>'[^']*(?:''[^']*)*(?:'|\Z))
    |(?P<quoted>"[^"]*(?:""[^"]*)*(?:"|\Z))
    |(?P<dollar>(?<![\w$])\$(?P<tag>(?:[^\W\d]\w*)?)\$)
    |(?P<apart>\\;)
    |(?P<command>\\[^\n]*)
    |(?P<end>;)
    |(?P<atomic>\bBEGIN\s+ATOMIC\b)
    |(?P<word>\w+)""",
    re.VERBOSE | re.DOTALL | re.IGNORECASE,
)
_VARIABLE = re.compile(
    r"(?<![:\w]):(?:'([A-Za-z_]\w*)'|\"([A-Za-z_]\w*)\"|([A-Za-z_]\w*))(?!:)|'[^']*'|\"[^\"]*\"|--[^\n\r]*|/\*(?:.*?\*/|.*)",
    re.DOTALL,
)
_SENDS = re.compile(r"\\(?:g|gx|gexec|gset|gdesc|bind|crosstabview|watch)", re.IGNORECASE)
_FROM_INPUT = re.compile(r"\s*COPY\b.*\bFROM\s+STDIN\b", re.IGNORECASE | re.DOTALL)
_BLANK = re.compile(r"\s+|--[^\n\r]*|(?P<block>/\*)")
_UNSENT = re.compile(_BLANK.pattern + r"|\\[^\n]*")
_LINE_END = re.compile(r";[ \t\r]*(?:--[^\n]*)?(?:\n|\Z)")
_DATA_END = re.compile(r"^\\\.[ \t\r]*$", re.MULTILINE)
FREE = 1 << 20
"""What is read beyond the end of a bad statement is read again. These are at most so many characters more than stand before
it; then a statement ends where a bad one would, if not sooner."""


@dataclass
class Piece:
    """A statement: the comments before it, its text, the line that it begins at, and the rows of data after a COPY."""

    before: str
    text: str
    line: int
    rows: int | None = None
    is_bad: bool = False


def pieces(text: str) -> Iterator[Piece]:
    """The statements of a text in their order; those that PostgreSQL's parser doesn't take are bad."""
    at, line, counted, again = 0, 1, 0, 0
    cut, last_data = 0, max((it.start() for it in _DATA_END.finditer(text)), default=-1)
    while at < len(text):
        if cut <= at:
            cut = _cut(text, at)
        stop, commands = _end_of(text, at, max(cut, 2 * at + FREE - again))
        raw = text[at:stop]
        whole = _without(raw, at, commands)
        begin = _begin_of(whole, _BLANK)
        body = whole[begin:].rstrip().rstrip(";").rstrip()
        readable = _readable(body) if body else ""
        if body and readable is None:
            end = at + _cut(raw, _begin_of(raw, _UNSENT))
            again, stop = again + stop - end, end
            raw = text[at:stop]
        first = at + _begin_of(raw, _UNSENT)
        line, counted = line + text.count("\n", counted, first), first
        if body and readable is None:
            yield Piece(text[at:first], text[first:stop].rstrip().rstrip(";"), line, is_bad=True)
        elif body:
            rows, stop = _data(body, text, stop) if stop <= last_data else (None, stop)
            yield Piece(whole[:begin], str(readable), line, rows)
        at = stop


def _begin_of(text: str, passed: re.Pattern[str]) -> int:
    """The place of the first token of a text, after blanks and comments."""
    at = 0
    while (found := passed.match(text, at)) is not None:
        at = after_comment(text, found.end(), len(text)) if found["block"] else found.end()
    return at


def _end_of(text: str, at: int, limit: int) -> tuple[int, list[tuple[int, int]]]:
    """Where the statement that begins here ends, at the limit at the latest, and the places of psql's commands in it."""
    limit = min(limit, len(text))
    commands: list[tuple[int, int]] = []
    blocks = 0
    while (found := _TOKEN.search(text, at, limit)) is not None:
        kind, at = found.lastgroup, found.end()
        if kind == "block":
            at = after_comment(text, at, limit)
        elif found["dollar"] is not None:
            end = text.find(found["dollar"], at, limit)
            at = limit if end < 0 else end + len(found["dollar"])
        elif kind == "command":
            commands.append(found.span())
            if _SENDS.match(found[0]):
                return at, commands
        elif kind == "apart":
            return at, [*commands, found.span()]
        elif kind == "atomic":
            blocks += 1
        elif kind == "word" and blocks:
            blocks += {"CASE": 1, "END": -1}.get(found[0].upper(), 0)
        elif kind == "end" and not blocks:
            return at, commands
    return limit, commands


def _without(raw: str, at: int, commands: list[tuple[int, int]]) -> str:
    """A text without psql's commands."""
    kept, begin = [], 0
    for first, last in commands:
        kept.append(raw[begin : first - at])
        begin = last - at
    return "".join([*kept, raw[begin:]])


def _cut(raw: str, begin: int) -> int:
    """Where a bad statement ends: at a `;` that ends a line, even within what looks like a text."""
    found = _LINE_END.search(raw, begin)
    return found.start() + 1 if found else len(raw)


def _readable(text: str) -> str | None:
    """A statement as the parser takes it, with psql's variables as parameters; nothing where it doesn't."""
    if _parses(text):
        return text
    names: dict[str, int] = {}

    def numbered(found: re.Match[str]) -> str:
        name = found[1] or found[2] or found[3]
        return f"${names.setdefault(name, len(names) + 1)}" if name else found[0]

    changed = _VARIABLE.sub(numbered, text)
    return changed if changed != text and _parses(changed) else None


def _parses(text: str) -> bool:
    try:
        # This makes no tree that has to be walked, so no text is too deep for it.
        parser.split(text, with_parser=True)
        return True
    except (ParseError, ValueError):
        return False


def _data(body: str, text: str, stop: int) -> tuple[int | None, int]:
    """The rows that stand after a COPY from the standard input, and where they end."""
    if not _FROM_INPUT.match(body):
        return None, stop
    end = _DATA_END.search(text, stop)
    if end is None:
        return None, stop
    return max(0, text.count("\n", stop, end.start()) - 1), end.end()
