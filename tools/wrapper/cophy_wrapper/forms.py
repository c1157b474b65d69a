"""For a byte or a token that the grammar doesn't take, what to write in its place."""
from __future__ import annotations

import re

from cophy_text.tokens import RESERVED, Token

WORDS = {
    "OR": "OR isn't read: for one column write c IN (.., ..), else write a statement for each side",
    "NOT": "NOT is read in IS NOT NULL alone: write <> for NOT .. =, and c IS NOT NULL to keep a column needed",
    "CASE": "CASE isn't read: name its columns alone, they are what the cost rests on",
    "SELECT": "subqueries aren't read: join their tables, or write a statement of their own",
    "EXISTS": "EXISTS isn't read: join the table in FROM",
    "LEFT": "outer joins aren't read: write JOIN",
    "RIGHT": "outer joins aren't read: write JOIN",
    "FULL": "outer joins aren't read: write JOIN",
    "OUTER": "outer joins aren't read: write JOIN",
    "CROSS": "there are no cross products: write JOIN .. ON with an equality of columns",
    "NATURAL": "write JOIN .. ON a.c = b.c",
    "USING": "write ON a.c = b.c",
    "UNION": "write a statement for each side",
    "INTERSECT": "write a statement for each side",
    "EXCEPT": "write a statement for each side",
    "OVER": "windows aren't read: name their columns alone",
    "RETURNING": "leave RETURNING out: it costs nothing",
    "WITH": "WITH isn't read: write its queries as statements of their own",
    "ILIKE": "write LIKE: it costs the same",
    "SIMILAR": "write LIKE: it costs the same",
    "INTERVAL": "arithmetic of values isn't read: write the value, or ?",
    "FOR": "leave FOR UPDATE out: locks cost nothing",
    "FETCH": "write LIMIT n",
    "NULLS": "leave NULLS FIRST and LAST out",
    "FILTER": "leave FILTER out and name its columns",
    "LATERAL": "join the tables, or write a statement of their own",
    "COLLATE": "leave COLLATE out",
    "TABLESAMPLE": "leave TABLESAMPLE out",
    "WINDOW": "leave WINDOW out",
    "INDEX": "leave hints on indexes out",
    "REGEXP": "write LIKE: it costs the same",
    "RLIKE": "write LIKE: it costs the same",
}
OPENS = frozenset(
    "BEGIN COMMIT ROLLBACK SET SHOW EXPLAIN ANALYZE VACUUM CREATE DROP ALTER COPY TRUNCATE START PREPARE "
    "EXECUTE DECLARE FETCH CLOSE LOCK GRANT CALL DO MERGE VALUES TABLE SAVEPOINT RELEASE".split()
)
COMPARES = (b"=", b"<>", b"!=", b"<", b"<=", b">", b">=")
LOCKS = "leave WITH (NOLOCK) and other hints on tables out: locks cost nothing"
STATEMENTS = ("SELECT", "INSERT", "UPDATE", "DELETE")
_CLOSES = {"WHERE", "ON", "AND"}
_QUOTED = re.compile(rb"`([A-Za-z_][A-Za-z0-9_]*)`|(?<![A-Za-z0-9_\]])\[([A-Za-z_][A-Za-z0-9_]*)\]")


def byte_hint(text: bytes, at: int) -> str | None:
    """What to write in the place of a byte that begins no token and continues none."""
    rest = text[at - 1 : at + 3]
    name = _QUOTED.match(text, at - 1)
    if name is not None:
        return f'names are quoted with ": write "{(name[1] or name[2]).decode()}"'
    if rest.startswith(b"::"):
        return "casts aren't read: write the value or the column alone"
    if rest.startswith(b"\xef\xbb\xbf"):
        return "a byte-order mark: save the file as UTF-8 without one"
    if rest.startswith((b"\xc2\xa0", b"\xe2\x80")):
        return "a space or a quote that an editor made: write the plain one of ASCII"
    if re.match(rb"(:|@@?)[A-Za-z0-9_]|\{\{?[a-z]", rest):
        return "write ? for a parameter"
    if re.match(rb"[eE]", rest) and re.search(rb"[0-9]\Z", text[: at - 1]):
        return "there are no exponents: write the number out"
    return {
        b"`": 'names are quoted with "',
        b"[": "arrays aren't read: write c IN (.., ..)",
        b"#": "comments begin with --",
        b"\\": "commands of psql aren't read",
        b"@": "this operator isn't read: keep the column needed by c IS NOT NULL",
        b"~": "patterns aren't read but by LIKE, which costs the same",
        b"!": "write <> or LIKE",
        b"|": "the operator is ||",
        b"$": "a numbered parameter is $1, a text stands in '..'",
        b'"': "a quoted name has at least one byte",
        b"&": "this operator isn't read: keep the column needed by c IS NOT NULL",
    }.get(rest[:1])


def text_hint(before: list[Token], token: Token | None) -> str | None:
    """How a text is written, where a name in double quotes stands in the place of a value."""
    if token is None or token.kind != "quoted" or not before:
        return None
    words = [it.word for it in before]
    is_value = before[-1].text in COMPARES or words[-1] == "LIKE" or "BETWEEN" in (words[-1:] + words[-3:-2])
    is_listed = before[-1].text in (b"(", b",") and next((it for it in reversed(words) if it), "") in ("IN", "VALUES")
    if not (is_value or is_listed):
        return None
    text = token.text.decode(errors="replace")
    return f"{text} is a name; a text stands in '..': write '" + text.strip('"').replace("'", "''") + "'"


def _dialect_hint(here: list[Token], index: int, token: Token) -> str | None:
    """What to write in the place of a form of another dialect."""
    before, after = here[:index], here[index + 1 :]
    if not before or before[-1].text == b";":
        return None
    word, next_text, next_word = before[-1].word, after[0].text if after else b"", after[0].word if after else ""
    if word == "TOP" and token.kind == "whole":
        return f"leave TOP out: write LIMIT {token.text.decode()} at the end of the statement"
    if token.text == b"," and _clause(before) == "LIMIT":
        count = next_text.decode() if after and after[0].kind == "whole" else "n"
        return f"write LIMIT {count} OFFSET {before[-1].text.decode()}"
    if token.word == "WITH" and next_text == b"(" or token.text == b"(" and next_word in ("NOLOCK", "READPAST"):
        return LOCKS
    if token.text == b"(" and next_text == b"+":
        return WORDS["LEFT"]
    if token.text == b"=" and before[-1].text == b"=":
        return "write one ="
    if token.word in STATEMENTS and word == "FOR":
        return WORDS["FOR"]
    if token.word == "SELECT" and _clause(before) == "INTO":
        return "INSERT .. SELECT isn't read: write its SELECT as a statement of its own"
    if token.word in STATEMENTS and before[-1].text != b"(":
        return f"a statement ends with ;: is one missing before {token.word}?"
    return text_hint(before, token)


def token_hint(here: list[Token], index: int, token: Token | None) -> str | None:
    """What to write in the place of a token at which no workload goes on."""
    if token is None:
        return "the text ends within a statement"
    before = here[index - 1] if index else None
    word = before.word if before is not None else ""
    dialect = _dialect_hint(here, index, token)
    if dialect:
        return dialect
    if token.word in WORDS:
        return WORDS[token.word]
    if (before is None or before.text == b";") and token.word in OPENS:
        return f"{token.word} is no statement that is priced: leave it out"
    if token.text == b"(" and word in ("FROM", "JOIN"):
        return WORDS["SELECT"]
    if token.text == b"." and index > 1 and _clause(here[:index]) in ("FROM", "JOIN", "INTO", "UPDATE"):
        return "write the table's name alone, without its schema"
    clause = _clause(here[:index])
    if clause in _CLOSES and token.text in (b"+", b"-", b"*", b"/", b"%", b"||"):
        return "arithmetic isn't read in WHERE and ON: write the value, or ?"
    if clause in _CLOSES and token.text == b"(" and word:
        return f"a call isn't read in WHERE and ON: for {word.lower()}(c) write c LIKE ?, for a value ?"
    if clause in _CLOSES and token.kind in ("word", "quoted") and before is not None and before.text in COMPARES[1:]:
        return "two columns are compared by = alone: keep both needed by c IS NOT NULL"
    if clause in ("GROUP", "BY") and token.kind in ("whole", "text") or (clause == "GROUP" and token.text == b"("):
        return "write columns behind GROUP BY"
    if before is not None and word == "DATE" and token.kind == "text":
        return "a date is 'yyyy-mm-dd', and a day of the calendar"
    if token.kind == "text" and before is not None and before.kind == "word":
        return f"{word} before a text isn't read: write the text alone"
    # A word that isn't reserved was taken for an alias.
    taken = WORDS.get(word) if word not in RESERVED else None
    return taken or "docs/FORMATS.md has the grammar"


def _clause(before: list[Token]) -> str:
    """The last word that opens a clause of the statement."""
    opens = (
        "FROM",
        "JOIN",
        "INTO",
        "UPDATE",
        "WHERE",
        "ON",
        "AND",
        "GROUP",
        "ORDER",
        "HAVING",
        "LIMIT",
        "SELECT",
        "SET",
    )
    for token in reversed(before):
        if token.text == b";":
            return ""
        if token.word in opens:
            return token.word
    return ""
