"""Hints on what an answer of the program may come from, written to the standard error as plain lines.

The program has already answered. Where it refused, its words are run once more to read the text, provided that all its
files can be read twice. Nothing here changes an answer or a status, and a hint that can't be had is left out.
"""
from __future__ import annotations

import os
import re
import subprocess
import tomllib
from collections.abc import Iterator
from typing import Any

from cophy_text import keys
from cophy_text.edits import ADVISE, read_edit
from cophy_text.shown import printable
from cophy_text.tokens import has_statement, place_of
from cophy_wrapper.edits import edit_hint
from cophy_wrapper.outputs import unwritten
from cophy_wrapper.progress import say
from cophy_wrapper.rules import rules_hint
from cophy_wrapper.sql import sql_hint
from cophy_wrapper.words import files_read

ROLES = ("catalogue", "workload", "third file", "fourth file")
FORMS = {
    "cost": "cophy cost CAT LOAD",
    "explain": "cophy explain CAT LOAD CONF N",
    "whatif": "cophy whatif CAT LOAD CONF",
    "candidates": "cophy candidates CAT LOAD",
    "check": "cophy check CAT LOAD CERT",
    "advise": "cophy advise CAT LOAD BUDGET [--nodes N] [--cert FILE]",
    "ruled": "cophy ruled CAT LOAD BUDGET RULES [--nodes N] [--cert FILE]",
    "check-ruled": "cophy check-ruled CAT LOAD RULES CERT",
    "sweep": "cophy sweep CAT LOAD FIRST STEP COUNT [--nodes N] [--cert PREFIX]",
    "retune": "cophy retune CAT LOAD EDITS BUDGET [--nodes N]",
    "fold": "cophy fold CAT LOAD OUT",
    "bench": "cophy bench SEED TABLES STATEMENTS BUDGET",
}
NUMBERS = {
    "explain": "N is from 1 to 1000",
    "advise": "BUDGET is pages from 0 to 10^12, and --nodes from 1 to 10^6",
    "ruled": "BUDGET is pages from 0 to 10^12, and --nodes from 1 to 10^6",
    "sweep": "FIRST is pages from 0 to 10^12, STEP from 1 to 10^12 and COUNT from 1 to 16, the last budget is at most 10^12 "
    "pages, and --nodes from 1 to 10^6",
    "retune": "BUDGET is pages from 0 to 10^12, and --nodes from 1 to 10^6",
    "bench": "SEED is below 2^64, TABLES from 2 to 20, STATEMENTS from 1 to 500, BUDGET up to 10^12",
}
_PLACED = re.compile(r"refused: (.+) at (\d+)\Z")
_EDIT = re.compile(r"refused: edit line (\d{1,18}): (.+)\Z")
_PATH = re.compile(r"refused: (missing|wrong kind|out of range|name twice|unknown name) ([a-z_.\[\]0-9]+)\Z")
_OPENS_SQL = re.compile(
    rb"\s*(--[^\n]*\n\s*|/\*.*?\*/\s*)*(select|insert|update|delete|with)\b", re.IGNORECASE | re.DOTALL
)


class Call:
    """A call of the program: its words, its files and its text."""

    def __init__(self, status: int, words: list[str], text: str) -> None:
        self.status, self.words, self.text = status, words, text
        self.files = [words[it] for it in files_read(words)]

    def content(self, role: int) -> bytes:
        """What a file holds; nothing where it can't be read."""
        try:
            with open(self.files[role], "rb") as file:
                return file.read()
        except (OSError, IndexError):
            return b""

    def catalogue(self) -> dict[str, Any]:
        """The catalogue's document; empty where it is none."""
        try:
            return tomllib.loads(self.content(0).decode())
        except (ValueError, RecursionError):
            return {}


def hints(call: Call) -> Iterator[str]:
    """The hints for an answer, a line each."""
    edit, placed, path = (it.match(call.text) for it in (_EDIT, _PLACED, _PATH))
    if call.status == 0:
        yield from _done(call)
    elif call.text.startswith("usage: "):
        yield from _usage(call)
    elif call.text.startswith("read fault: "):
        yield from _read_fault(call, call.text.removeprefix("read fault: "))
    elif edit is not None:
        yield from edit_hint(int(edit[1]), edit[2], call.files[2], call.content(2), call.catalogue(), call.files[0])
    elif placed is not None:
        yield from _placed(call, placed[1], int(placed[2]))
    elif path is not None:
        yield from _path(call, path[1], path[2])
    elif call.text.startswith("refused: "):
        yield from _refused(call, call.text.removeprefix("refused: "))


def _done(call: Call) -> Iterator[str]:
    if call.words[0] == "retune":
        if ADVISE.line() not in call.content(2).split(b"\n"):
            yield f"{call.files[2]} asks for no advice, so nothing was printed: advise in a line of its own does"
    elif len(call.files) > 1 and not has_statement(call.content(1)):
        yield f"{call.files[1]} holds no statement, so nothing was priced"
    for path, hint in keys.unknown_keys(call.catalogue()):
        yield f"{call.files[0]}: the key {path} means nothing and was passed over{': ' + hint if hint else ''}"


def _usage(call: Call) -> Iterator[str]:
    command = call.words[0] if call.words else ""
    if command in FORMS and call.text.startswith("usage: unknown command"):
        yield f"this program is older than {command}"
    elif command in FORMS:
        yield f"usage: {FORMS[command]}"
    elif command:
        near = keys.nearest(command, list(FORMS))
        yield f"did you mean {near}? " * bool(near) + f"The commands are {', '.join(FORMS)}; cophy help says more"
    if call.text.startswith("usage: bad number") and command in NUMBERS:
        yield f"{NUMBERS[command]}, in digits alone"


def _read_fault(call: Call, name: str) -> Iterator[str]:
    role = call.files.index(name) if name in call.files else -1
    what = f"{name} ({ROLES[role]})" if role >= 0 else name
    folder = os.path.dirname(name) or "."
    if not os.path.lexists(folder):
        yield f"{what}: there is no folder {folder}"
    elif not os.path.lexists(name):
        yield f"{what}: there is no such file"
        near = keys.nearest(os.path.basename(name), os.listdir(folder)) if os.path.isdir(folder) else None
        if near:
            yield f"{os.path.join(os.path.dirname(name), near)} is there"
    elif os.path.isdir(name):
        yield f"{what} is a directory"
    elif not os.access(name, os.R_OK):
        yield f"{what}: you have no right to read it"
    if role == 2 and call.words[0] in ("explain", "whatif"):
        yield "for no candidate at all, give /dev/null as the configuration"


def _placed(call: Call, fault: str, at: int) -> Iterator[str]:
    text = call.content(1)
    if call.files[1:] and not _OPENS_SQL.match(text) and _is_catalogue(text):
        yield f"{call.files[1]} looks like a catalogue: the catalogue comes first, then the workload"
        return
    if read_edit(text.split(b"\n", 1)[0]) is not None:
        yield f"{call.files[1]} looks like edits: cophy retune takes them behind the workload"
        return
    place = place_of(text, at)
    yield f"{call.files[1]}, line {place.line}, column {place.column}, statement {place.statement}"
    yield from (f"  {place.shown}", f"  {place.mark}", *sql_hint(text, fault, at, call.catalogue(), call.files[0]))


def _path(call: Call, fault: str, path: str) -> Iterator[str]:
    document = call.catalogue()
    if _OPENS_SQL.match(call.content(0)):
        yield f"{call.files[0]} looks like a workload: the catalogue comes first, then the workload"
        return
    element: Any = document
    named = []
    walked = keys.steps(path)
    for key, number in walked[:-1]:
        part = element.get(key) if isinstance(element, dict) else None
        element = part[number - 1] if isinstance(part, list) and 0 < number <= len(part) else part
        if isinstance(element, dict) and isinstance(element.get("name"), str):
            named.append(f"{key} {element['name']!a}")
    key = walked[-1][0]
    yield f"{call.files[0]}: {fault} {path}" + (f", in {', '.join(named)}" if named else "")
    if fault == "missing" and isinstance(element, dict):
        known = keys.known(walked[-2][0] if len(walked) > 1 else "", document.get("version"))
        near = keys.nearest(key, [it for it in element if it not in known])
        if near:
            yield f"the key {near} means nothing; did you mean {key}?"
    if key in keys.RANGES and fault in ("missing", "wrong kind", "out of range"):
        yield f"{key} is {keys.RANGES[key]}"
    if fault == "wrong kind" and key in ("low", "high", "bounds"):
        yield "a date stands in quotes"


def _refused(call: Call, text: str) -> Iterator[str]:
    if text == "not toml":
        yield from _not_toml(call)
    elif text.startswith("too long "):
        yield "a catalogue, a workload, a configuration, rules and edits have at most 16777216 bytes each"
    elif text.startswith("folded workload too long "):
        yield "a workload has at most 16777216 bytes: fold its statements in two files"
    elif text.startswith("rules "):
        yield from rules_hint(text, call.files[2], call.content(2), call.catalogue())
    elif text.startswith("configuration line "):
        yield "each line is the number of a candidate, greater than the one before it, and ends with a line feed"
        yield "/dev/null is the empty configuration; cophy candidates lists the candidates"
    elif text.startswith("no statement "):
        yield "statements count from 1; empty ones between two ; don't count"
    elif text.endswith("combinations"):
        yield "more than 4096 combinations of orders: leave out a join condition, or split the statement"


def _not_toml(call: Call) -> Iterator[str]:
    content = call.content(0)
    if content.startswith(b"\xef\xbb\xbf"):
        yield f"{call.files[0]} begins with a byte-order mark: save it as UTF-8 without one"
    elif _OPENS_SQL.match(content):
        yield f"{call.files[0]} looks like a workload: the catalogue comes first, then the workload"
    else:
        try:
            tomllib.loads(content.decode())
        except UnicodeDecodeError as fault:
            yield f"{call.files[0]} isn't UTF-8: byte {fault.start + 1}"
        except (ValueError, RecursionError) as fault:
            place = re.search(r"\(at (.*)\)\Z", str(fault))
            yield f"{call.files[0]}: not TOML" + (f" at {place[1]}" if place else "")


def _is_catalogue(text: bytes) -> bool:
    try:
        return "version" in tomllib.loads(text.decode())
    except (ValueError, RecursionError):
        return False


def text_again(program: str, words: list[str]) -> tuple[int, str]:
    """Runs the program once more, for the first line of its text."""
    ran = subprocess.run([program, *words], stdin=subprocess.DEVNULL, stdout=subprocess.PIPE, check=False)
    return ran.returncode, ran.stdout.decode(errors="surrogateescape").split("\n", 1)[0]


def main(words: list[str]) -> int:
    """Takes the status of the call, the program, and its words. The status is always 0."""
    try:
        for line in _lines(int(words[0]), words[1], words[2:]):
            say(printable(line))
    except (OSError, LookupError, TypeError, ValueError):
        pass
    return 0


def _lines(status: int, program: str, words: list[str]) -> Iterator[str]:
    if status == 4:
        yield from unwritten(words)
    call = Call(status, words, "")
    if status not in (0, 2, 3, 5) or any(_is_read_once(it) for it in call.files):
        return
    if status:
        again, call.text = text_again(program, words)
        if again != status:
            return
    yield from hints(call)


def _is_read_once(file: str) -> bool:
    return os.path.exists(file) and not os.path.isfile(file) and not os.path.isdir(file) and file != os.devnull
