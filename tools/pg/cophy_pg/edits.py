"""`edits`: the edits that lead from one workload to another, for `cophy retune`."""
from __future__ import annotations

import argparse
from bisect import bisect_left
from dataclasses import dataclass

from cophy_text import files
from cophy_text.answers import counted
from cophy_text.edits import ADVISE, MOST_LINES, Edit
from cophy_text.workloads import MOST_BYTES, NoWorkload, Statement, read_statements
from cophy_pg.inputs import NoInput
from cophy_pg.progress import say

AFRESH = 3
"""The status where no edits are written, and advice on the later workload has to start afresh."""


@dataclass
class Change:
    """What leads from some statements to others: the numbers of those that go, in rising order; the numbers of those with
    another weight, each with that; and the new ones. Numbers are those of before, from 1."""

    removed: list[int]
    weighed: dict[int, int]
    added: list[Statement]

    def edits(self) -> list[Edit]:
        """As few edits as there can be. Statements go first, so that there are never more than on one of both sides."""
        listed = [Edit("remove", it) for it in reversed(self.removed)]
        for number, weight in sorted(self.weighed.items()):
            listed.append(Edit("weigh", number - bisect_left(self.removed, number), weight))
        return [*listed, *(Edit("add", 0, it.weight, it.text) for it in self.added)]


def between(old: list[Statement], new: list[Statement]) -> Change:
    """Matches statements of one form one to one, first those that have one weight, and says what else there is to do."""
    left: dict[bytes, list[int]] = {}
    for number, it in enumerate(old, 1):
        left.setdefault(it.form, []).append(number)
    others = []
    for it in new:
        same = next((at for at in left.get(it.form, ()) if old[at - 1].weight == it.weight), None)
        if same is None:
            others.append(it)
        else:
            left[it.form].remove(same)
    change = Change([], {}, [])
    for it in others:
        if left.get(it.form):
            change.weighed[left[it.form].pop(0)] = it.weight
        else:
            change.added.append(it)
    change.removed = sorted(number for listed in left.values() for number in listed)
    return change


def add_edits(commands: argparse._SubParsersAction[argparse.ArgumentParser]) -> None:
    """The words of `edits`."""
    parser = commands.add_parser(
        "edits",
        help="write the edits that lead from one workload to another, for cophy retune",
        description="Writes the fewest edits that make the statements of OLD those of NEW, with their weights, for cophy retune: "
        "statements that are gone are removed, those with another weight are weighed, and new ones are added, each on one line "
        "without its comments. Statements are the same where their tokens are, whatever the case of letters outside of texts.",
        epilog=f"The status is 0 where the edits are written. It is {AFRESH} where no edits lead there, since they would be more "
        f"than {MOST_LINES} lines or a text of a new statement goes over several lines: start afresh then, by cophy advise "
        "on NEW.",
    )
    parser.add_argument("old", metavar="OLD", help="the workload to start from")
    parser.add_argument("new", metavar="NEW", help="the workload to come to")
    parser.add_argument(
        "-o", "--output", default="-", metavar="EDITS", help="the file of the edits; else they are printed"
    )
    parser.add_argument("--advise", action="store_true", help="ask for advice at the end")
    parser.set_defaults(run=edits)


def edits(words: argparse.Namespace) -> int:
    """Writes the edits."""
    files.check([words.output], [words.old, words.new])
    old, new = _statements(words.old), _statements(words.new)
    change = between(old, new)
    listed = [*change.edits(), *([ADVISE] if words.advise else [])]
    content = b"".join(it.line() + b"\n" for it in listed)
    why = _why_afresh(change, len(listed), len(content))
    if why:
        say(f"no edits lead to {files.shown(words.new)}: {why}; start afresh: cophy advise on it")
        return AFRESH
    files.write([files.File(words.output, content)])
    same = len(old) - len(change.removed) - len(change.weighed)
    say(
        f"{counted(len(listed), 'line')}: {len(change.removed):,} removed, {len(change.weighed):,} weighed, "
        f"{len(change.added):,} added, {same:,} as before"
    )
    return 0


def _statements(file: str) -> list[Statement]:
    try:
        return read_statements(files.read(file))
    except NoWorkload as fault:
        raise NoInput(f"{files.shown(file)}: {fault}") from None


def _why_afresh(change: Change, lines: int, size: int) -> str:
    """Why edits can't say this; nothing where they can."""
    broken = next((it for it in change.added if b"\n" in it.text), None)
    if broken is not None:
        return f"in the statement of line {broken.line} a text holds a line feed, which can't stand in an edit (? costs the same)"
    if lines > MOST_LINES:
        return f"they would be {lines:,} lines, and there are at most {MOST_LINES:,}"
    return f"they would be {size:,} bytes, and there are at most {MOST_BYTES:,}" if size > MOST_BYTES else ""
