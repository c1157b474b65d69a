"""The end of what `advise` prints: what the workload costs, what the bound says, and who makes the indexes how."""
from __future__ import annotations

import pwd
import shlex
from contextlib import suppress
from typing import Any

from cophy_text import files
from cophy_text.shown import grouped, share, space
from cophy_pg import folder
from cophy_pg.folder import Folder
from cophy_pg.guesses import seconds_of
from cophy_pg.server import database_word
from cophy_pg.speed import duration
from cophy_pg.trust import DISTRUST, WHO

NOT_PROVED = "not proved, as the program is unproved"
HERE = ("", "localhost", "127.0.0.1", "::1")
"""Hosts that are this machine; so are folders of sockets."""


def recommended_of(document: dict[str, Any]) -> dict[str, Any]:
    """What those picks take and bring that are recommended, which are all where the document doesn't say."""
    every = {"cost": document["cost"]["after"], "server_cost": document["server_cost"]["after"]}
    return document.get("recommended") or {**every, "stored_pages": document["stored_pages"]}


def doubts_of(document: dict[str, Any]) -> list[str]:
    """The doubts, but for those of roles alone that own the database or all tables of the picks: they have all power there."""
    owners = document["owners"]
    known = {ascii(it) for it in (document.get("database_owner"), *owners[: len(owners) == 1]) if it}
    return [
        it
        for it in document.get("doubts", [])
        if not {*it.removeprefix(DISTRUST).partition(WHO)[0].split(" and ")} <= known
    ]


def advised_of(document: dict[str, Any]) -> list[dict[str, Any]]:
    """The picks that are recommended."""
    return [it for it in document["picks"] if not it.get("caveat")]


def is_hint(row: dict[str, Any]) -> bool:
    """Whether what is made is none of the program's picks."""
    return "why_not" in row


def made_hints(document: dict[str, Any]) -> list[dict[str, Any]]:
    """The hints that the script makes."""
    return [it for it in document.get("hints", []) if not it["why_not"]]


def made_of(document: dict[str, Any]) -> list[dict[str, Any]]:
    """What the script makes unless it is told otherwise: the picks that are recommended, and the hints that it makes."""
    return [*advised_of(document), *made_hints(document)]


def rows_of(document: dict[str, Any]) -> list[tuple[int, dict[str, Any]]]:
    """All that the script can make with its numbers, which are the same wherever they stand: what it makes unless it
    is told otherwise, and the other picks."""
    others = [it for it in document["picks"] if it.get("caveat")]
    return [*enumerate([*made_of(document), *others], 1)]


def pages_of(document: dict[str, Any]) -> int:
    """What those take that are made without being asked for."""
    hints: int = sum(it["stored_pages"] for it in made_hints(document))
    return hints + int(recommended_of(document)["stored_pages"])


def now_of(cost: dict[str, float]) -> float:
    """What the server says that a statement costs with what is made by default: with all picks, where the plan is the same."""
    return cost.get("made", cost["after"])


def time_falls(document: dict[str, Any]) -> float:
    """How many percent of the measured time what is made by default saves, if each statement's falls as the server says that
    its cost does. One whose cost the server doesn't say saves nothing. Where it wasn't asked about these alone, what isn't
    recommended is taken off, and hints are added."""
    whole = seconds_of(document["statements"])
    known = [(it["seconds"] or 0.0, cost) for it in document["statements"] if (cost := it["server_cost"])]
    if not whole:
        return 0.0
    saved: float = (
        100 / whole * sum(time * (1 - now_of(cost) / cost["before"]) for time, cost in known if cost["before"])
    )
    if any("made" in cost for _, cost in known):
        return max(0.0, saved)
    others = float(sum(it["saves"].get("planned") or 0.0 for it in document["picks"] if it.get("caveat")))
    hints = sum(it["saves"]["planned"] or 0.0 for it in made_hints(document))
    return max(0.0, saved - others) + float(hints)


def is_all_advised(document: dict[str, Any]) -> bool:
    """Whether all picks are recommended."""
    return len(advised_of(document)) == len(document["picks"])


def costs(document: dict[str, Any]) -> list[str]:
    """The table of costs before and after, with what is saved, with all picks where some aren't recommended, and of
    the bound."""
    ours, server, found = document["cost"], document["server_cost"], recommended_of(document)
    after = [(found["cost"], found["server_cost"])]
    after += [(ours["after"], server["after"])] * (not is_all_advised(document))
    rows = [
        ["", "before", *["after", "saved", "with all", "saved"][: 2 * len(after)], "bound"],
        ["our model", grouped(ours["before"] / 1000)],
        ["the server's", grouped(float(server["before"]))],
    ]
    for by_us, by_server in after:
        rows[1] += [grouped(by_us / 1000), share(ours["before"] - by_us, ours["before"])]
        rows[2] += [grouped(float(by_server)), share(server["before"] - by_server, server["before"])]
    rows[1] += [grouped(ours["bound"] / 1000)]
    rows[2] += [""]
    widths = [max(len(it[at]) for it in rows) for at in range(len(rows[0]))]
    return [
        "  ".join(
            cell.ljust(width) if at == 0 else cell.rjust(width) for at, (cell, width) in enumerate(zip(row, widths))
        ).rstrip()
        for row in rows
    ]


def end_of(document: dict[str, Any]) -> str:
    """What the bound says of the advice, and whether it is said by an unproved program."""
    return _end(document) + f"; {NOT_PROVED}" * (proof_of(document) == NOT_PROVED)


def _end(document: dict[str, Any]) -> str:
    cost, gap = document["cost"], document.get("gap")
    fit, every = f"of {space(document['budget_pages'])}", " with all" * (not is_all_advised(document))
    if recommended_of(document)["cost"] == cost["bound"]:
        return f"by our model no other indexes {fit} cost less"
    if not cost["finished"]:
        return "the search was stopped before its cost reached the bound: a higher --nodes may find better"
    text = f"by our model no indexes {fit} cost less than the bound"
    return text + (
        f"; most of the gap{every} is {gap['index']}: {gap['why']}" if gap else ", be they left out or against rules"
    )


def proof_of(document: dict[str, Any]) -> str:
    """What is said of the bound, by what the check of the certificate answered."""
    answers = {"proved ": "proved", NOT_PROVED: NOT_PROVED}
    return next((said for it, said in answers.items() if document["proved"].startswith(it)), "not checked")


def next_of(document: dict[str, Any], kept: Folder) -> list[str]:
    """What makes the indexes, or lets their owners do so by hand, where there are some; and who may have faked what was
    counted."""
    doubts = [f"warning: {it}" for it in document.get("doubts", [])]
    if not rows_of(document):
        return doubts
    made = [it for _, it in rows_of(document) if not it.get("caveat")] or document["picks"]
    known = [it["build_seconds"] for it in made if it.get("build_seconds") is not None]
    time = f" in about {duration(sum(known))}" if known else ""
    commands = commands_of(document, files.shown(kept.path(folder.DDL)))
    who = "their owner runs" if len(commands) < 2 else "the owner of each runs"
    return [f"to make them{time}: {made_by(document, kept)}; or {who}: {'; '.join(commands)}", *doubts]


def commands_of(document: dict[str, Any], script: str) -> list[str]:
    """What the owners of the tables run, each what is of his; what isn't recommended where nothing is."""
    owners, picks = document["owners"], rows_of(document)
    advised = [at for at, it in picks if not it.get("caveat")] or [at for at, _ in picks]
    if len(owners) < 2:
        everything = " -v all=1" if all(it.get("caveat") for _, it in picks) else ""
        return [command_of(document, script, owners[0] if owners else "OWNER", everything)]
    lines = []
    for owner in owners:
        own = [at for at, it in picks if it.get("owner") == owner and at in advised]
        others = ",".join(str(at) for at, _ in picks if at not in own)
        if own:
            lines += [command_of(document, script, owner, f" -v without={others}" if others else "")]
    return lines


def command_of(document: dict[str, Any], script: str, owner: str, more: str = "") -> str:
    """What an owner of tables runs. One that is a user of this machine needs no password."""
    who, keys = _plain(owner), [("port", "-p"), ("database", "-d")]
    is_known = is_user(who) and is_here(document)
    given = [it for it in ([] if is_known else [("host", "-h")]) + keys if document.get(it[0])]
    names = {key: str(document[key]) for key, _ in given}
    at = [it for key, word in given for it in (word, _plain(database_word(names[key]) if word == "-d" else names[key]))]
    if is_known:
        return f"{shlex.join(['sudo', '-u', who, 'psql', '-X', *at])}{more} < {shlex.quote(script)}"
    return f"{shlex.join(['psql', '-X', *at, '-U', who])}{more} -f {shlex.quote(script)}"


def is_here(document: dict[str, Any]) -> bool:
    """Whether the server is on this machine."""
    host = str(document.get("host") or "")
    return host in HERE or host.startswith("/")


def is_user(name: str) -> bool:
    """Whether this machine has a user of that name."""
    with suppress(KeyError, ValueError):
        return bool(pwd.getpwnam(name))
    return False


def ending(document: dict[str, Any], kept: Folder) -> list[str]:
    """Where all files are, who may run the script, and what says later what came of it."""
    first, *doubts = next_of(document, kept) or [""]
    told = [first, *[seen_by(kept)] * bool(rows_of(document)), *doubts]
    return [f"all files are in {files.shown(kept.name)}", *filter(None, told)]


def made_by(document: dict[str, Any], kept: Folder) -> str:
    """What makes those that are recommended, or all where none is."""
    return f"cophy-pg make {shlex.quote(kept.name)}{' --all' * (not made_of(document))}"


def seen_by(kept: Folder) -> str:
    """What says whether the indexes helped, once they are made."""
    return f"whether it helped: cophy-pg effect {shlex.quote(kept.name)}"


def _plain(name: str) -> str:
    """A name in printable ASCII."""
    return name if name.isascii() and name.isprintable() else ascii(name)


def last_of(document: dict[str, Any]) -> list[str]:
    """What the bound says, why space is left, and from where on more space helps little."""
    is_checked = "; certificate checked" * (proof_of(document) == "proved")
    more = [document.get(it) for it in ("unused", "knee")]
    if more[0] and not is_all_advised(document):
        more[0] = f"with all, those not recommended too, {more[0]}"
    if more[0] and (hints := sum(it["stored_pages"] for it in made_hints(document))):
        more[0] += f"; hints take {space(hints)} of that"
    return [end_of(document) + is_checked, *(it for it in more if it)]
