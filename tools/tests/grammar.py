"""Reads a workload by the grammar of docs/FORMATS.md and looks its names up, for tests that have no program."""
from __future__ import annotations

from typing import Any

from cophy_text.tokens import RESERVED, Token, tokens

COMPARES = ("=", "<>", "!=", "<", "<=", ">", ">=")


class Refused(Exception):
    """What the program would refuse, and where."""


class Reader:
    """Reads the tokens of a workload, one statement after another."""

    def __init__(self, text: bytes, tables: dict[str, list[str]]) -> None:
        self.tokens = [it for it in tokens(text) if it.kind != "weight"]
        self.at = 0
        self.tables = {name.lower(): {it.lower() for it in columns} for name, columns in tables.items()}
        cut = b"".join(it.text for it in tokens(text))
        if not cut and text.strip():
            raise Refused("no token")

    def statements(self) -> int:
        """Reads all statements; their number."""
        count = 0
        while self.at < len(self.tokens):
            if self.takes(";"):
                continue
            self.slots: list[tuple[str, str]] = []
            self.uses: list[tuple[str, str]] = []
            self.edges: list[tuple[tuple[str, str], tuple[str, str]]] = []
            word = self.peek().word
            {"SELECT": self.select, "INSERT": self.insert, "UPDATE": self.update, "DELETE": self.delete}.get(
                word, self.fail
            )()
            self.bind()
            count += 1
            if self.at < len(self.tokens) and not self.takes(";"):
                self.fail()
        return count

    def peek(self, more: int = 0) -> Token:
        return self.tokens[self.at + more] if self.at + more < len(self.tokens) else Token("end", b"", 0)

    def fail(self) -> Any:
        raise Refused(f"syntax at {self.peek().place}: {self.peek().text!r}")

    def takes(self, *words: str) -> bool:
        token = self.peek()
        if (token.word or token.text.decode(errors="replace")) in words and token.kind != "text":
            self.at += 1
            return True
        return False

    def want(self, *words: str) -> None:
        if not self.takes(*words):
            self.fail()

    def name(self) -> str:
        token = self.peek()
        if token.kind == "quoted" or (token.kind == "word" and token.word not in RESERVED):
            self.at += 1
            return token.text.decode(errors="replace").strip('"').lower()
        return str(self.fail())

    def is_name(self) -> bool:
        return self.peek().kind == "quoted" or (self.peek().kind == "word" and self.peek().word not in RESERVED)

    def listed(self, read: Any) -> None:
        read()
        while self.takes(","):
            read()

    def order(self) -> None:
        self.expr()
        self.takes("ASC", "DESC")

    def select(self) -> None:
        self.want("SELECT")
        self.takes("ALL", "DISTINCT")
        self.listed(self.item)
        self.want("FROM")
        self.source()
        while True:
            if self.takes(","):
                self.source()
            elif self.takes("INNER", "JOIN"):
                self.takes("JOIN")
                self.source()
                self.want("ON")
                self.conds()
            else:
                break
        self.where()
        if self.takes("GROUP"):
            self.want("BY")
            self.listed(self.column)
        if self.takes("HAVING"):
            self.test()
            while self.takes("AND"):
                self.test()
        if self.takes("ORDER"):
            self.want("BY")
            self.listed(self.order)
        if self.takes("LIMIT"):
            self.count()
            if self.takes("OFFSET"):
                self.count()

    def count(self) -> None:
        if self.peek().kind != "whole" and self.peek().text != b"?":
            self.fail()
        self.at += 1

    def item(self) -> None:
        if self.takes("*"):
            return
        if self.is_name() and self.peek(1).text == b"." and self.peek(2).text == b"*":
            self.uses.append((self.name(), "*"))
            self.at += 2
            return
        self.expr()
        if self.takes("AS") or self.is_name():
            self.name()

    def source(self) -> None:
        table = self.name()
        alias = self.name() if self.takes("AS") or self.is_name() else table
        self.slots.append((alias, table))

    def where(self) -> None:
        if self.takes("WHERE"):
            self.conds()

    def conds(self) -> None:
        self.cond()
        while self.takes("AND"):
            self.cond()

    def cond(self) -> None:
        if self.takes("("):
            self.conds()
            self.want(")")
            return
        left = self.column()
        if self.takes("BETWEEN"):
            self.value()
            self.want("AND")
            self.value()
        elif self.takes("IN"):
            self.want("(")
            self.listed(self.value)
            self.want(")")
        elif self.takes("LIKE"):
            self.value()
        elif self.takes("IS"):
            self.takes("NOT")
            self.want("NULL")
        else:
            is_equal = self.peek().text == b"="
            self.want(*COMPARES)
            if is_equal and self.is_name() and not (self.peek().word == "DATE" and self.peek(1).kind == "text"):
                self.edges.append((left, self.column()))
            else:
                self.value()

    def test(self) -> None:
        self.expr()
        self.want(*COMPARES)
        self.expr()

    def value(self) -> None:
        if self.takes("+", "-"):
            if self.peek().kind not in ("whole", "decimal"):
                self.fail()
            self.at += 1
        elif not self.literal():
            self.fail()

    def literal(self) -> bool:
        token = self.peek()
        if token.word == "DATE" and self.peek(1).kind == "text":
            self.at += 2
            return True
        if (
            token.kind in ("whole", "decimal", "text")
            or token.word == "NULL"
            or token.text == b"?"
            or token.text[:1] == b"$"
        ):
            self.at += 1
            return True
        return False

    def expr(self) -> None:
        self.prim()
        while self.takes("+", "-", "*", "/", "%", "||"):
            self.prim()

    def prim(self) -> None:
        if self.takes("+", "-"):
            self.prim()
        elif self.takes("("):
            self.expr()
            self.want(")")
        elif self.literal():
            pass
        elif self.peek(1).text == b"(":
            self.name()
            self.want("(")
            if not self.takes("*") and not self.takes(")"):
                self.takes("DISTINCT")
                self.listed(self.expr)
                self.want(")")
            elif self.tokens[self.at - 1].text == b"*":
                self.want(")")
        else:
            self.column()

    def column(self) -> tuple[str, str]:
        name = self.name()
        use = (name, self.name()) if self.takes(".") else ("", name)
        self.uses.append(use)
        return use

    def insert(self) -> None:
        self.want("INSERT")
        self.want("INTO")
        self.slots.append((table := self.name(), table))
        if self.takes("("):
            self.listed(lambda: self.uses.append(("", self.name())))
            self.want(")")
        self.want("VALUES")
        self.listed(self.row)

    def row(self) -> None:
        self.want("(")
        before = len(self.uses)
        self.listed(self.expr)
        if len(self.uses) > before:
            raise Refused("a column in VALUES")
        self.want(")")

    def update(self) -> None:
        self.want("UPDATE")
        self.source()
        self.want("SET")
        self.listed(self.assignment)
        self.where()

    def assignment(self) -> None:
        self.uses.append(("", self.name()))
        self.want("=")
        self.expr()

    def delete(self) -> None:
        self.want("DELETE")
        self.want("FROM")
        self.source()
        self.where()

    def bind(self) -> None:
        """Looks the names of a statement up; aliases of items have no meaning here."""
        names = [alias for alias, _ in self.slots]
        if len(names) > 8 or len(set(names)) < len(names) or any(table not in self.tables for _, table in self.slots):
            raise Refused(f"sources {self.slots}")
        parent = {it: it for it in names}

        def root(it: str) -> str:
            return it if parent[it] == it else root(parent[it])

        for one, other in [*self.edges, *((it, it) for it in self.uses)]:
            parent[root(self.slot(one))] = root(self.slot(other))
        if len({root(it) for it in names}) > 1:
            raise Refused(f"unjoined {names}")

    def slot(self, use: tuple[str, str]) -> str:
        found = [
            alias
            for alias, table in self.slots
            if use[0] in ("", alias) and (use[1] == "*" or use[1] in self.tables[table])
        ]
        if len(found) != 1:
            raise Refused(f"{'ambiguous' if found else 'no column'} {use}")
        return found[0]


def accepted(text: str, tables: dict[str, list[str]]) -> int:
    """The number of statements of a workload that the program takes; else a refusal."""
    return Reader(text.encode(), tables).statements()
