"""Parses statements, none of them so deep that the parser's trees can't be walked."""
from __future__ import annotations

import re
import sys
from collections.abc import Iterator
from typing import Any

from pglast import parse_sql
from pglast.parser import ParseError, fingerprint, scan

DEEPEST = 2000
"""PostgreSQL itself refuses some thousand levels, with its usual stack."""
FRAMES = 20000
# As PostgreSQL cuts a text: all bytes outside ASCII are parts of names, a text with E goes on after a quote, a line feed and a
# quote, and no operator holds the beginning of a comment.
_NAME = r"[A-Za-z_\x80-\U0010ffff][A-Za-z0-9_$\x80-\U0010ffff]*"
GOES_ON = r"'(?:[ \t\f]|(?>--[^\n\r]*))*[\n\r](?:\s|--[^\n\r]*[\n\r])*'"
"""Between a quote that ends a text and one with which it goes on there is a line feed."""
_TOKEN = re.compile(
    rf"""(?P<skip>--[^\n\r]*|[eE]'[^'\\]*(?:(?:\\.|''|{GOES_ON})[^'\\]*)*'|'[^']*'|"[^"]*")
    |(?P<block>/\*)|\$(?P<tag>(?:[A-Za-z_\x80-\U0010ffff][A-Za-z0-9_\x80-\U0010ffff]*)?)\$
    |(?P<word>{_NAME})|(?P<open>[(\[])|(?P<close>[)\]])|(?P<apart>[,;])
    |(?P<more>::|(?:(?!--|/\*)[-+*/<>=~!@\#%^&|`?])+)|(?P<open_text>['"])|(?P<number>\$?[0-9]+)""",
    re.VERBOSE | re.DOTALL,
)
_WORDS = {
    **dict.fromkeys(("CASE",), "open"),
    **dict.fromkeys(("END",), "close"),
    **dict.fromkeys(("AND", "OR"), "apart"),
    **dict.fromkeys(("UNION", "INTERSECT", "EXCEPT", "JOIN"), "link"),
    **dict.fromkeys(
        "NOT IS IN LIKE ILIKE SIMILAR COLLATE AT OPERATOR ISNULL NOTNULL OVERLAPS BETWEEN ESCAPE".split(), "more"
    ),
}
_COMMENT = re.compile(r"/\*|\*/")


def parsed(text: str) -> Any:
    """The trees of a text."""
    # A text of n characters has at most n levels.
    if len(text) > DEEPEST and depth_of(text) > DEEPEST:
        raise RecursionError
    sys.setrecursionlimit(max(sys.getrecursionlimit(), FRAMES))
    return parse_sql(text)


def fingerprint_of(text: str) -> str:
    """PostgreSQL's fingerprint of a text, which its literals don't change."""
    if len(text) > DEEPEST and depth_of(text) > DEEPEST:
        raise RecursionError
    return str(fingerprint(text))


def without_literals(text: str) -> str:
    """A text with `?` for each literal and without comments; nothing where PostgreSQL can't cut it into tokens."""
    try:
        found = [it for it in scan(text) if not it.name.endswith("COMMENT")]
    except ParseError:
        return ""
    parts, end = list[str](), 0
    for it in found:
        parts.append(" " * (it.start > end) + ("?" if it.name.endswith("CONST") else text[it.start : it.end + 1]))
        end = it.end + 1
    return "".join(parts)


def depth_of(text: str) -> int:
    """At least as many levels as a text's tree has: parentheses that are open, and operators, joins and set operations that
    hang on each other."""
    deepest = begin = operators = links = 0
    outer: list[tuple[int, int, int]] = []
    for kind, length in _tokens(text):
        if kind == "open":
            outer.append((begin, operators, links))
            begin = operators = operators + links + 1
            links = 0
        elif kind in ("close", "element") and outer:
            begin, operators, links = outer.pop()
            # What stands after an element may be one of that element.
            operators += kind == "element"
        elif kind == "apart":
            operators = begin
        elif kind == "more":
            # What is written without a blank may be several operators.
            operators += length
        elif kind == "link":
            links += 1
        deepest = max(deepest, operators + links)
    return deepest


def _tokens(text: str) -> Iterator[tuple[str, int]]:
    """The kinds and the lengths of the tokens that count, up to what has no end, which the parser refuses."""
    at = 0
    while (found := _TOKEN.search(text, at)) is not None:
        kind, at = str(found.lastgroup), found.end()
        if kind == "open_text":
            return
        if kind == "block":
            at = after_comment(text, at, len(text))
        elif found["tag"] is not None:
            end = text.find(found[0], at)
            if end < 0:
                return
            at = end + len(found[0])
        elif kind == "word":
            if (counts := _WORDS.get(found[0].upper())) is not None:
                yield counts, 1
        elif kind == "close" and found[0] == "]":
            yield "element", 1
        elif kind not in ("skip", "number"):
            yield kind, at - found.start()


def after_comment(text: str, at: int, limit: int) -> int:
    """The place after a comment, in which others may stand."""
    depth = 1
    for found in _COMMENT.finditer(text, at, limit):
        depth += 1 if found[0] == "/*" else -1
        if depth == 0:
            return found.end()
    return limit
