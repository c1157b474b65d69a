"""FLEET.toml: which databases there are, and how they are advised."""
from __future__ import annotations

import re
import tomllib
from dataclasses import dataclass
from pathlib import Path
from typing import Any

MOST = 10**12
"""The most pages, and the greatest weight of a database."""
_NAME = re.compile(r"[A-Za-z0-9_][A-Za-z0-9_.-]{0,99}")
_NUMBERS = {
    # Key: default, least, greatest
    "steps": (8, 1, 1000),
    "nodes": (20000, 1, 10**6),
    "timeout": (600, 1, 86400),
    "retries": (2, 0, 100),
    "connections": (4, 1, 10000),
}
_SWITCHES = ("fold", "keep_inputs")
_DATABASE = ("name", "weight", "service", "server", "catalogue", "workload", "export")


class Fault(Exception):
    """Why a command can't begin: a fleet that can't be read, results or a package that aren't there."""


@dataclass(frozen=True)
class Database:
    """A database: a service of PostgreSQL's, or a catalogue and a workload. `server` is what shares its connections, and
    `weight` what its cost counts in the fleet's; `export` are more words for `cophy-pg export`."""

    name: str
    weight: int = 1
    service: str = ""
    server: str = ""
    catalogue: str = ""
    workload: str = ""
    export: tuple[str, ...] = ()


@dataclass(frozen=True)
class Fleet:
    """The databases, and for each how many budgets above 0 are tried, with how many nodes a search; the seconds that a
    program may take, how often a task that failed is tried again, the connections that a server may have, whether alike
    statements become one, and whether what certificates are of is kept beside them."""

    databases: tuple[Database, ...]
    steps: int = 8
    nodes: int = 20000
    timeout: int = 600
    retries: int = 2
    connections: int = 4
    fold: bool = True
    keep_inputs: bool = True


def read_fleet(file: str) -> Fleet:
    """Reads the file; paths in it are taken from its folder."""
    try:
        document = tomllib.loads(Path(file).read_text("utf-8"))
    except (tomllib.TOMLDecodeError, UnicodeDecodeError) as fault:
        raise Fault(f"{file}: {fault}") from None
    _known(document, ("version", "export", "database", *_NUMBERS, *_SWITCHES), "the fleet")
    if document.get("version") != 1:
        raise Fault("the fleet: version has to be 1")
    numbers = {key: _number(document, key, *ranges, "the fleet") for key, ranges in _NUMBERS.items()}
    fold, keep_inputs = (_switch(document, key, "the fleet") for key in _SWITCHES)
    words = _words(document, (), "the fleet")
    listed = document.get("database")
    if not isinstance(listed, list) or not listed:
        raise Fault("the fleet: there is no [[database]]")
    folder = Path(file).resolve().parent
    databases = tuple(_database(it, number, words, folder) for number, it in enumerate(listed, 1))
    seen: set[str] = set()
    for it in databases:
        if it.name.lower() in seen:
            raise Fault(f"the fleet: two databases have the name {it.name}")
        seen.add(it.name.lower())
    return Fleet(databases, **numbers, fold=fold, keep_inputs=keep_inputs)


def _database(table: Any, number: int, words: tuple[str, ...], folder: Path) -> Database:
    where = f"database {number}"
    if not isinstance(table, dict):
        raise Fault(f"{where}: it is no table")
    _known(table, _DATABASE, where)
    name = _text(table, "name", where)
    if _NAME.fullmatch(name) is None:
        raise Fault(f"{where}: a name is 1 to 100 ASCII letters, digits, _, . and -, and begins with neither . nor -")
    weight = _number(table, "weight", 1, 0, MOST, where)
    texts = {key: _text(table, key, where) for key in ("service", "server", "catalogue", "workload")}
    if bool(texts["service"]) == bool(texts["catalogue"] or texts["workload"]):
        raise Fault(f"{where}: it needs a service, or a catalogue and a workload")
    if bool(texts["catalogue"]) != bool(texts["workload"]):
        raise Fault(f"{where}: it has one of catalogue and workload, and needs both")
    for key in ("catalogue", "workload"):
        texts[key] = str(folder / texts[key]) if texts[key] else ""
    return Database(name, weight, export=_words(table, words, where), **texts)


def _known(table: dict[str, Any], known: tuple[str, ...], where: str) -> None:
    for key in table:
        if key not in known:
            raise Fault(f"{where}: the key {key!a} means nothing; known are {', '.join(known)}")


def _text(table: dict[str, Any], key: str, where: str) -> str:
    value = table.get(key, "")
    if not isinstance(value, str) or "\0" in value:
        raise Fault(f"{where}: {key} has to be a text")
    return value


def _switch(table: dict[str, Any], key: str, where: str) -> bool:
    value = table.get(key, True)
    if not isinstance(value, bool):
        raise Fault(f"{where}: {key} has to be true or false")
    return value


def _words(table: dict[str, Any], default: tuple[str, ...], where: str) -> tuple[str, ...]:
    value = table.get("export", default)
    if not isinstance(value, (list, tuple)) or not all(isinstance(it, str) for it in value):
        raise Fault(f"{where}: export has to be a list of words")
    return tuple(value)


def _number(table: dict[str, Any], key: str, default: int, least: int, greatest: int, where: str) -> int:
    value = table.get(key, default)
    if type(value) is not int or not least <= value <= greatest:
        raise Fault(f"{where}: {key} has to be a whole number from {least} to {greatest}")
    return value
