"""The tokens of a workload, cut as docs/FORMATS.md says, with their places, lines and statements."""
from __future__ import annotations

import re
from collections.abc import Iterator
from dataclasses import dataclass

RESERVED = frozenset(
    "ALL AND AS ASC BETWEEN BY CASE CROSS DELETE DESC DISTINCT EXCEPT EXISTS FROM FULL GROUP HAVING IN INNER INSERT "
    "INTERSECT INTO IS JOIN LEFT LIKE LIMIT NATURAL NOT NULL OFFSET ON OR ORDER OUTER OVER RETURNING RIGHT SELECT SET "
    "UNION UPDATE USING VALUES WHERE WITH".split()
)

_PIECE = re.compile(
    rb"""(?P<blank>[ \t\n\r]+)
    |(?P<line>--[^\n]*)
    |(?P<block>/\*[^*]*(?:\*(?!/)[^*]*)*\*/)
    |(?P<unended>/\*)
    |(?P<word>[A-Za-z_][A-Za-z0-9_]*)
    |(?P<quoted>"[^"\n]+")
    |(?P<decimal>[0-9]*\.[0-9]+(?![0-9A-Za-z_]))
    |(?P<whole>[0-9]+(?![0-9A-Za-z_]))
    |(?P<text>'[^']*(?:''[^']*)*')
    |(?P<symbol>\$[0-9]+|\|\||<>|!=|<=|>=|[(),.;*+\-/%=<>?])""",
    re.VERBOSE,
)
_WEIGHT = re.compile(rb"--[ \t\r]*(?P<word>weight)[ \t]+(?P<number>[0-9]+)[ \t\r]*\Z", re.IGNORECASE)
BLANKS = ("blank", "line", "block")
"""The kinds of lexemes that separate tokens."""


@dataclass(frozen=True)
class Token:
    """A token: its kind, its bytes, and its place, which counts bytes from 1."""

    kind: str
    text: bytes
    place: int

    @property
    def word(self) -> str:
        """The word in capitals, and nothing for other kinds of tokens."""
        return self.text.decode("ascii").upper() if self.kind == "word" else ""

    @property
    def name(self) -> str:
        """The word or the quoted name in small letters, and nothing for other kinds of tokens."""
        is_name = self.kind in ("word", "quoted")
        return self.text.decode("ascii", "replace").strip('"').lower() if is_name else ""


def lexemes(text: bytes) -> Iterator[tuple[str, bytes]]:
    """The kind and the bytes of each blank, comment and token in turn, up to the end of the text, to the first byte that no
    token takes or to a comment without an end."""
    at = 0
    while at < len(text):
        found = _PIECE.match(text, at)
        if found is None or found.lastgroup == "unended":
            return
        yield str(found.lastgroup), found.group()
        at = found.end()


def weight_in(kind: str, piece: bytes) -> bytes | None:
    """The digits of a comment `-- weight N`; nothing of any other lexeme."""
    found = _WEIGHT.match(piece) if kind == "line" else None
    return found["number"] if found is not None else None


def tokens(text: bytes) -> Iterator[Token]:
    """The tokens among the lexemes of the text.

    A comment `-- weight N` is a token of kind `weight` whose text is the number's digits.
    """
    place = 1
    for kind, piece in lexemes(text):
        weight = weight_in(kind, piece)
        if weight is not None:
            yield Token("weight", weight, place)
        elif kind not in BLANKS:
            yield Token(kind, piece, place)
        place += len(piece)


@dataclass(frozen=True)
class Place:
    """Where a byte stands: its line and its column from 1, the line's text, and the statement's number from 1."""

    line: int
    column: int
    shown: str
    mark: str
    statement: int


def place_of(text: bytes, place: int) -> Place:
    """Says where the byte of this number stands; the number counts from 1, and may be one past the end."""
    at = min(max(place - 1, 0), len(text))
    begin = text.rfind(b"\n", 0, at) + 1
    end = text.find(b"\n", at)
    line = text[begin : end if end >= 0 else len(text)]
    low = max(0, at - begin - 60)
    before = _plain(line[low : at - begin])
    shown = before + _plain(line[at - begin : at - begin + 60])
    return Place(
        text.count(b"\n", 0, at) + 1, at - begin + 1, shown, " " * len(before) + "^", statement_at(text, place)
    )


def statement_at(text: bytes, place: int) -> int:
    """The number of the statement that a byte belongs to, from 1; empty statements don't count."""
    number, is_open = 0, False
    for token in tokens(text):
        if token.place > place:
            break
        if token.kind == "weight":
            continue
        if token.text == b";":
            is_open = False
        elif not is_open:
            number, is_open = number + 1, True
    return max(number, 1)


def statements(text: bytes) -> dict[int, str]:
    """The statements of a workload by their numbers, from 1, each without what stands before its first token."""
    found, begin, end = dict[int, str](), 0, 0
    for token in tokens(text):
        if token.kind == "weight":
            continue
        if token.text != b";":
            begin, end = begin or token.place, token.place + len(token.text)
        elif begin:
            found[len(found) + 1], begin = text[begin - 1 : end - 1].decode(errors="replace"), 0
    if begin:
        found[len(found) + 1] = text[begin - 1 : end - 1].decode(errors="replace")
    return found


def names_in(text: bytes) -> set[str]:
    """The words and the quoted names of a workload, in small letters."""
    return {it.name for it in tokens(text) if it.name}


def has_statement(text: bytes) -> bool:
    """Whether some token of the text is more than a `;` or a weight."""
    return any(token.kind != "weight" and token.text != b";" for token in tokens(text))


def _plain(piece: bytes) -> str:
    return "".join(chr(it) if 32 <= it < 127 else " " if it in b"\t\r" else "." for it in piece)
