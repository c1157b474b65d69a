"""What a workload costs over a catalogue, with the indexes that stand now, without one of them."""
from __future__ import annotations

import tempfile

from cophy_text import files
from cophy_text.tokens import names_in
from cophy_pg import catalogs
from cophy_pg.catalogue import index_lines, read_schema
from cophy_pg.existing import Everything, Existing
from cophy_pg.indexes import add_indexes, given
from cophy_pg.program import Program
from cophy_pg.schema import Index, Table
from cophy_pg.server import Row, Server

INDEX = "[[table.index]]\n"


def read_standing(server: Server) -> list[Row]:
    """The indexes of a server as `export` reads them."""
    return server.rows(catalogs.INDEXES)


class Without:
    """A workload, and the blocks of a catalogue as export writes it, with an empty line between them."""

    def __init__(self, program: str, catalogue: str, workload: str, everything: Everything, rows: list[Row]) -> None:
        content = files.read(catalogue)
        blocks = content.decode("ascii", "replace").rstrip("\n").split("\n\n")
        self.blocks, self.schema = [it for it in blocks if not it.startswith(INDEX)], read_schema(content)
        for oid, key in {it.table_oid: (it.table_schema, it.table) for it in everything.indexes}.items():
            # What tables that inherit have in common stays as it was.
            if (table := self.schema.tables.get(key)) is not None and not table.children:
                columns = everything.columns.get(oid, {}).items()
                known = {number: it.name for number, it in columns if it.name in table.columns}
                _renew(table, [it for it in rows if it[0] == oid], known)
        self.program, self.workload = program, workload
        self.before = self._priced(None)
        self.named = names_in(files.read(workload))

    def cost(self, index: Existing) -> int | None:
        """What the workload costs without an index; nothing where the catalogue can't have it."""
        table = self.schema.tables.get((index.table_schema, index.table))
        known = next((it for it in table.indexes if it.name == index.name), None) if table else None
        if table is None or known is None:
            return None
        return self._priced(known) if table.shown.lower() in self.named else self.before

    def _priced(self, left_out: Index | None) -> int:
        blocks, tables, waiting = list[str](), iter(self.schema.tables.values()), list[str]()
        for block in self.blocks:
            if "[[table]]" in block.splitlines():
                table, blocks = next(tables), blocks + waiting
                waiting = ["\n".join(index_lines(it, table)) for it in table.indexes if it is not left_out]
            blocks.append(block)
        with tempfile.NamedTemporaryFile("w", prefix="cophy-catalogue-") as file:
            file.write("\n\n".join([*blocks, *waiting]) + "\n")
            file.flush()
            return Program(self.program, file.name, self.workload).cost().total


def _renew(table: Table, rows: list[Row], columns: dict[int, str]) -> None:
    """Gives a table the indexes that stand now; those that stood keep what is known of the order of the rows."""
    before = {it.name: it for it in table.indexes}
    table.indexes = []
    add_indexes(table, [given(it, columns) for it in rows])
    table.indexes = [before.get(it.name, it) for it in table.indexes]
