"""A document of `advise` with a pick, and with five plain ones, for tests of what is printed of it."""
from __future__ import annotations

import unittest

from test_page import change, document


class OverDocument(unittest.TestCase):
    def setUp(self) -> None:
        self.document = document("/home/you/advice")

    def five(self) -> None:
        """Gives the document five plain picks."""
        pick = self.document["picks"][0]
        plain = {"notes": [], "outcome": "taken", "unknown_for": [], "clustered": False}
        changes = [change(at, "SELECT customer_name, count(*) FROM customer GROUP BY 1", 9.0, 9.0) for at in (1, 2)]
        self.document["picks"] = [
            pick
            | plain
            | {
                "columns": [*"abcde"[: at + 1]],
                "changes": changes,
                "table": f"t{at}",
                "statements": pick["statements"][:1],
                "saves": pick["saves"] | {"planned": 10.0},
                "caveat": None,
            }
            for at in range(5)
        ]
        self.document["options"]["include"], self.document["warnings"] = True, []
        self.document |= {"long_columns": ["never t.a", "never t.b", "never t.c"], "left_out": []}
        self.document["knee"] = "by our model 12.3 MB save nine tenths of what any indexes can"
        skipped = self.document["statements"].pop()
        self.assertTrue(skipped["skipped"])
        self.document["stored_pages"] = 2560
        self.document["recommended"] = {"picks": 5, "stored_pages": 2560, "cost": 1800000, "server_cost": 1000.0}

    def verdict(self) -> list[str]:
        from cophy_pg.folder import Folder
        from cophy_pg.verdict import verdict

        return verdict(self.document, Folder("/home/you/advice"))
