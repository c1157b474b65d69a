"""The lines of edits of a workload, as docs/FORMATS.md gives them."""
from __future__ import annotations

import re
from collections.abc import Iterator
from dataclasses import dataclass

from cophy_text.workloads import MOST_STATEMENTS, MOST_WEIGHT, NoWorkload, read_statements

MOST_LINES, MOST_ADVICES = 1000, 16
FORMS = "add W SQL, remove N, weigh N W and advise"
_NUMBER, _WEIGHT = rb"(?P<number>1000|[1-9][0-9]{0,2})", rb"(?P<weight>1000000|[1-9][0-9]{0,5})"
_EDITS = (
    re.compile(rb"add " + _WEIGHT + rb" (?P<sql>.+)", re.DOTALL),
    re.compile(rb"remove " + _NUMBER),
    re.compile(rb"weigh " + _NUMBER + b" " + _WEIGHT),
    re.compile(rb"advise"),
)


@dataclass(frozen=True)
class Edit:
    """What a line does, with the number of a statement, a weight and a statement as far as it has them."""

    verb: str
    number: int = 0
    weight: int = 0
    sql: bytes = b""

    def line(self) -> bytes:
        """The line without its end."""
        parts = [self.verb.encode(), *(b"%d" % it for it in (self.number, self.weight) if it), self.sql]
        return b" ".join(filter(None, parts))


ADVISE = Edit("advise")


def read_edit(line: bytes) -> Edit | None:
    """The edit of a line, which stands without its line feed; nothing where it has another form."""
    for form in _EDITS:
        found = form.fullmatch(line)
        if found is not None:
            of = found.groupdict()
            verb = line.split(b" ", 1)[0].decode()
            return Edit(verb, int(of.get("number", 0)), int(of.get("weight", 0)), of.get("sql", b""))
    return None


def edits_in(content: bytes) -> Iterator[tuple[int, bytes, Edit | str]]:
    """Each line with its number from 1 and its edit, or why it is none."""
    lines = content.split(b"\n")
    advices = 0
    for number, line in enumerate(lines, 1):
        edit = read_edit(line)
        advices += edit == ADVISE
        if number == len(lines) and not line:
            return
        if number > MOST_LINES:
            yield number, line, f"there are at most {MOST_LINES} lines"
        elif edit is None:
            yield number, line, why_not(line)
        elif advices > MOST_ADVICES:
            yield number, line, f"at most {MOST_ADVICES} lines ask for advice"
        elif number == len(lines):
            yield number, line, "the last line ends with a line feed too"
        elif edit.verb == "add" and (count := _count(edit.sql)) != 1:
            yield number, line, f"one statement stands behind the weight, and here are {count}"
        else:
            yield number, line, edit


def _count(sql: bytes) -> int:
    """How many statements these bytes are; one where they are faulty, of which others tell."""
    try:
        return len(read_statements(sql))
    except NoWorkload:
        return 1


def why_not(line: bytes) -> str:
    """What to write in the place of a line of another form."""
    if line.strip(b" \t\r") != line:
        return "no blank stands at its begin or its end" + ", and no carriage return" * line.endswith(b"\r")
    verb = line.split(b" ", 1)[0]
    number, weight = f"N is 1 to {MOST_STATEMENTS}", f"W is 1 to {MOST_WEIGHT}"
    forms = {
        b"add": f"the form is add W SQL: {weight}, in digits alone, with one space on each side",
        b"remove": f"the form is remove N: {number}, in digits alone, behind one space",
        b"weigh": f"the form is weigh N W: {number} and {weight}, in digits alone, each behind one space",
        b"advise": "advise stands alone in its line",
    }
    return forms.get(verb, f"a line is one of {FORMS}, in small letters; no line is empty or a comment")
