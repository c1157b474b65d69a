"""Calls of `cophy-pg advise` over a shop and a file of SQL, and a stand-in for the program."""
from __future__ import annotations

import importlib.util
import json
from typing import Any

from fixtures import ROOT, STAND_IN, OverShop
from schema_check import faults

SCHEMA = json.loads((ROOT / "tools" / "pg" / "cophy_pg" / "advice.schema.json").read_text())
QUERIES = """SELECT id, name FROM customer WHERE city = 'City 3';
-- weight 40
SELECT id FROM sales.orders WHERE total = 17.75 ORDER BY id;
SELECT p.title FROM line l JOIN product p ON l.product_id = p.id WHERE p.category = 3 AND l.quantity = 4;
UPDATE customer SET city = 'City 9' WHERE id = 12;
SELECT name FROM customer WHERE no_function(city) = 1;
"""
HAS_JINJA = importlib.util.find_spec("jinja2") is not None


class OverSql(OverShop):
    given = {"COPHY_PROGRAM": str(STAND_IN)}

    def setUp(self) -> None:
        super().setUp()
        self.sql, self.found = self.folder / "queries.sql", self.folder / "found"
        self.sql.write_text(QUERIES)

    def advise(self, *more: str, status: int = 0, **environment: str) -> dict[str, Any]:
        """The document of a call over the file of SQL."""
        words = ("advise", "--sql", str(self.sql), "--budget", "20MB", "--folder", str(self.found), "--json")
        found: dict[str, Any] = json.loads(self.call(*words, *more, status=status, **environment).stdout)
        self.assertEqual([*faults(found, SCHEMA, SCHEMA)], [])
        return found
