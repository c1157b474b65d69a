"""Which columns of a workload are only read: they may stand in an index behind INCLUDE, and needn't be keys."""
from __future__ import annotations

from cophy_text.answers import Candidate
from cophy_text.tokens import RESERVED, Token, tokens

CLAUSES = {
    **dict.fromkeys(("SELECT", "SET", "INSERT", "VALUES"), "read"),
    **dict.fromkeys(("FROM", "JOIN", "INTO", "UPDATE"), "sources"),
    **dict.fromkeys(("ON", "WHERE", "HAVING", "GROUP", "ORDER"), "searched"),
}


def searched_columns(workload: bytes) -> set[str]:
    """The names, in small letters, of the columns that some statement compares, joins, groups or orders by. A name counts for
    all tables that have such a column."""
    found: set[str] = set()
    clause, calls = "", list[bool]()
    listed = [*tokens(workload)]
    for at, token in enumerate(listed):
        before, after = listed[at - 1] if at else None, listed[at + 1 : at + 4]
        if token.text == b";":
            clause, calls = "", []
        elif token.text == b"(":
            calls.append(before is not None and is_name(before))
        elif token.text == b")" and calls:
            calls.pop()
        elif token.word in CLAUSES:
            clause = CLAUSES[token.word]
        elif clause == "searched" and is_name(token) and not any(calls) and not is_apart(after):
            found.add(token.name)
    return found


def is_name(token: Token) -> bool:
    """Whether a token may be a name."""
    return token.kind == "quoted" or (token.kind == "word" and token.word not in RESERVED)


def is_apart(after: list[Token]) -> bool:
    """Whether what follows a name makes it the name of a table or a function, or a column that is only needed."""
    if after and after[0].text in (b".", b"("):
        return True
    return [it.word for it in after] == ["IS", "NOT", "NULL"]


def key_count(pick: Candidate, searched: set[str] | None) -> int:
    """How many leading columns of a pick have to be keys: those up to the last one that is searched, and one at least; all
    where it isn't asked which are."""
    if searched is None:
        return len(pick.columns)
    return max((at for at, it in enumerate(pick.columns, 1) if it.lower() in searched), default=1)
