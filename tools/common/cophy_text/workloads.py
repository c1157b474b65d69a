"""The statements of a workload: each on one line, with its weight and what tells it from others."""
from __future__ import annotations

import re
from collections.abc import Iterator
from dataclasses import dataclass

from cophy_text.tokens import BLANKS, RESERVED, lexemes, weight_in

MOST_STATEMENTS, MOST_WEIGHT, MOST_BYTES = 1000, 10**6, 16777216
_PLAIN = re.compile(rb'"([A-Za-z_][A-Za-z0-9_]*)"')
_KNOWN = RESERVED | {"DATE"}


class NoWorkload(Exception):
    """Why a text has no statements with weights, and in which line."""


@dataclass(frozen=True)
class Statement:
    """A statement: its weight; its text without comments, and with one space for what stands between two tokens; the line of its
    first token; and its form, which all statements share that are the same to the program."""

    weight: int
    text: bytes
    line: int
    form: bytes


def read_statements(text: bytes) -> list[Statement]:
    """The statements of a workload, with the weights that docs/FORMATS.md gives them."""
    if len(text) > MOST_BYTES:
        raise NoWorkload(f"it has more than {MOST_BYTES} bytes")
    found, next_weight = list[Statement](), 1
    pieces, forms, is_apart = list[bytes](), list[bytes](), False
    for kind, piece, at in _numbered(text):
        given = weight_in(kind, piece)
        if given is not None:
            next_weight = _weight(given, at)
        if kind in BLANKS:
            is_apart = True
        elif piece != b";":
            if not pieces:
                weight, line, next_weight = next_weight, at, 1
            pieces += [b" ", piece] if is_apart and pieces else [piece]
            forms.append(_form(kind, piece))
            is_apart = False
        elif pieces:
            if len(found) == MOST_STATEMENTS:
                raise NoWorkload(f"line {line}: a workload has at most {MOST_STATEMENTS} statements")
            found.append(Statement(weight, b"".join(pieces), line, b" ".join(forms)))
            pieces, forms = [], []
    return found


def _numbered(text: bytes) -> Iterator[tuple[str, bytes, int]]:
    """The lexemes with the lines in which they begin, and a `;` at the end."""
    line, size = 1, 0
    for kind, piece in lexemes(text):
        yield kind, piece, line
        line, size = line + piece.count(b"\n"), size + len(piece)
    if size < len(text):
        raise NoWorkload(f"line {line}: it goes on with what is no token: cophy cost says where")
    yield "symbol", b";", line


def _weight(digits: bytes, line: int) -> int:
    weight = digits.lstrip(b"0")
    if not weight or len(weight) > len(str(MOST_WEIGHT)) or int(weight) > MOST_WEIGHT:
        raise NoWorkload(f"line {line}: a weight is 1 to {MOST_WEIGHT}")
    return int(weight)


def _form(kind: str, piece: bytes) -> bytes:
    """A token in the one spelling of all that the program takes for it: letters are of either case, a name may stand in quotes,
    and `!=` and `$1` are `<>` and `?`."""
    if kind == "quoted":
        plain = _PLAIN.fullmatch(piece)
        return (plain[1] if plain is not None and plain[1].upper().decode() not in _KNOWN else piece).upper()
    if kind == "word":
        return piece.upper()
    return b"?" if piece.startswith(b"$") else b"<>" if piece == b"!=" else piece
