"""What the types of columns are: without their domains, and whether they have an order."""
from __future__ import annotations

from collections.abc import Iterable
from dataclasses import dataclass

from cophy_pg import catalogs
from cophy_pg.server import Server, version_of

DEEPEST = 1000
"""So many types within each other, arrays and composite ones, are looked into."""


@dataclass(frozen=True)
class Base:
    """A type that is no domain: its number, its modifier or -1, its length or -1, and its name where it is PostgreSQL's."""

    number: int
    modifier: int
    length: int
    name: str


class Types:
    """All domains of a database, however many are over each other, read once."""

    def __init__(self, server: Server, used: Iterable[int]) -> None:
        """Takes the numbers of the types whose bases are asked for."""
        self.server = server
        rows = server.rows(catalogs.DOMAINS)
        self.ends = ends_of({int(domain): (int(base), int(modifier)) for domain, base, modifier in rows})
        self.of: dict[int, Base] = {}
        ends = {it: self.ends.get(it, (it, -1)) for it in used}
        known = {int(it[0]): it for it in server.rows(catalogs.TYPES, ([*{end for end, _ in ends.values()}],))}
        for it, (end, modifier) in ends.items():
            if end in known:
                self.of[it] = Base(end, modifier, int(known[end][1]), str(known[end][2]))

    def named(self, names: Iterable[str]) -> list[int]:
        """The types whose bases have these names."""
        return [it for it, base in self.of.items() if base.name in names]


def ends_of(domains: dict[int, tuple[int, int]]) -> dict[int, tuple[int, int]]:
    """For each domain the type that the last of those below it is over, with that one's modifier."""
    found: dict[int, tuple[int, int]] = {}
    for it in domains:
        chain: list[int] = []
        while it in domains and it not in found and len(chain) <= len(domains):
            chain.append(it)
            it = domains[it][0]
        if chain:
            end = found.get(it, (it, domains[chain[-1]][1]))
            found |= dict.fromkeys(chain, end)
    return found


class Orders:
    """Which types have an order, by their numbers."""

    def __init__(self, types: Types) -> None:
        """Reads the bases of the types, and what they are made of."""
        before_14 = version_of(types.server) < 140000
        query = catalogs.ORDERS.replace(*catalogs.BEFORE_14) if before_14 else catalogs.ORDERS
        self.types: dict[int, tuple[str, list[int] | None]] = {}
        waiting = {it.number for it in types.of.values()}
        for _ in range(DEEPEST):
            if not waiting:
                break
            rows = types.server.rows(query, ([*waiting],))
            for number, name, kind, parts, has_class in rows:
                ends = [types.ends.get(int(it), (int(it), 0))[0] for it in parts or ()]
                has_order = has_class or kind in ("e", "r", "m")
                self.types[int(number)] = str(name), [] if has_order else None if parts is None else ends
            waiting = {it for row in rows for it in self.types[int(row[0])][1] or ()} - {*self.types}
        self.too_deep = waiting
        self.told: dict[int, str] = {}

    def why_not(self, number: int) -> str:
        """Why a type has no order; nothing where it has one."""
        waiting = [number]
        while waiting:
            one = waiting[-1]
            parts = self._parts(one)
            left = [it for it in parts if it not in self.told]
            if one not in self.told and left:
                # What is made of itself counts as having an order until its parts are known.
                self.told[one] = ""
                waiting += left
                continue
            waiting.pop()
            self.told[one] = self._told(one) or next(filter(None, (self.told[it] for it in parts)), "")
        return self.told[number]

    def _parts(self, number: int) -> list[int]:
        return self.types[number][1] or [] if number in self.types else []

    def _told(self, number: int) -> str:
        if number in self.too_deep:
            return "its type is made of too many others"
        name, parts = self.types.get(number, ("", []))
        return f"the type {name} has no order" if parts is None else ""
